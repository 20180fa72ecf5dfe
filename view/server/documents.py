"""The texts that an editor has open. The protocol counts lines from 0, and in a line units of
UTF-16; all else counts letters of the text from 0."""
import re
from functools import cached_property
from typing import Any, Dict, List, Optional, Tuple

from view.places import Span
from view.server.names import Names
from view.words import Word

Position = Dict[str, int]
Range = Dict[str, Position]
# What ends a line, by the protocol.
LINE_END, FEED = re.compile(r"\r\n|\n|\r"), re.compile(r"\n")
# What JSON may hold and no text has: a half of a letter of two units.
HALF = re.compile("[\ud800-\udfff]")


class Document:
    """A text with its version. Its places are asked for as often as there are diagnostics, so
    the starts of its lines are kept."""

    def __init__(self, uri: str, version: Optional[int], text: str) -> None:
        self.uri, self.version, self.text = uri, version, HALF.sub("\ufffd", text)
        self.starts = [0] + [it.end() for it in LINE_END.finditer(self.text)]
        self.rows = [0] + [it.end() for it in FEED.finditer(self.text)]

    @cached_property
    def names(self) -> Names:
        """The declarations and uses of names, read when they are first asked for."""
        return Names(self.text)

    def position(self, at: int) -> Position:
        """A place as the protocol has it."""
        low, high = 0, len(self.starts)
        while high - low > 1:
            middle = (low + high) // 2
            low, high = (middle, high) if self.starts[middle] <= at else (low, middle)
        return {"line": low, "character": units(self.text[self.starts[low] : at])}

    def index(self, position: Position) -> int:
        """The place of a position. One beyond its line is that line's end, and one beyond the
        text the text's end."""
        line = position["line"]
        if line >= len(self.starts):
            return len(self.text)
        start = self.starts[max(0, line)]
        row = LINE_END.split(self.text[start : start + position["character"] + 2], 1)[0]
        left = max(0, position["character"])
        if row.isascii():
            return start + min(left, len(row))
        at = 0
        while at < len(row) and left >= units(row[at]):
            left -= units(row[at])
            at += 1
        return start + at

    def range(self, start: int, end: int) -> Range:
        """A piece of the text."""
        return {"start": self.position(start), "end": self.position(end)}

    def whole(self) -> Range:
        """All of the text."""
        return self.range(0, len(self.text))

    def word_range(self, word: Word) -> Range:
        """Where a word stands."""
        return self.range(word.at, word.end)

    def at_row(self, line: int, column: int) -> int:
        """The place of a line and a column from 1, where line feeds alone end lines."""
        if line > len(self.rows):
            return len(self.text)
        return min(self.rows[line - 1] + column - 1, len(self.text))

    def span_range(self, span: Span) -> Range:
        """A piece that is told by lines and columns from 1."""
        return self.range(
            self.at_row(span.line, span.column), self.at_row(span.end_line, span.end_column)
        )

    def changed(self, version: Optional[int], changes: List[Dict[str, Any]]) -> "Document":
        """The text after changes, each of which is of the text that the one before it left."""
        found = self
        for it in changes:
            text = it["text"]
            if it.get("range"):
                start, end = found.index(it["range"]["start"]), found.index(it["range"]["end"])
                text = found.text[:start] + text + found.text[max(start, end) :]
            found = Document(self.uri, version, text)
        return Document(self.uri, version, found.text) if found is self else found


def units(text: str) -> int:
    """How many units of UTF-16 a text has."""
    return len(text) if text.isascii() else len(text) + sum(it > "\uffff" for it in text)


def edits_between(document: Document, new: str) -> List[Dict[str, Any]]:
    """The edits by which a text becomes a new one, line by line, so that an editor's cursors
    stay where they are."""
    old_lines, new_lines = document.text.splitlines(True), new.splitlines(True)
    found, at = [], 0
    starts = [0]
    for it in old_lines:
        starts.append(starts[-1] + len(it))
    for first, last, lines in replaced(old_lines, new_lines):
        found.append(
            {"range": document.range(starts[first], starts[last]), "newText": "".join(lines)}
        )
        at = last
    return found


def replaced(old: List[str], new: List[str]) -> List[Tuple[int, int, List[str]]]:
    """Runs of lines (from, to) with the lines that stand in their place."""
    import difflib

    matcher = difflib.SequenceMatcher(None, old, new, autojunk=False)
    return [(a, b, new[c:d]) for tag, a, b, c, d in matcher.get_opcodes() if tag != "equal"]
