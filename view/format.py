"""`./cise format SPEC [--check]`: the specification in the layout of `spell`, with its comments,
its blank lines and its broken lines.

The words stay the same, and so does each comment. Each item and each line of an operation begins
a line, the words of which have one space between them. A comment stays behind what it stood
behind, or in a line of its own; blank lines between items and lines stay, one where there are
several. What was broken over several lines is joined where it fits into 80 columns; else it is
broken where it was, and where a piece is longer than 100, behind a quantifier's dot or before a
connective. Formatting twice gives the same as once."""
import re
from dataclasses import dataclass, field
from typing import List, Optional, Tuple

from view import program
from view.formulas import CONNECTIVES
from view.inputs import name_of, text_of
from view.output import printable, say
from view.place import LINE_HEADS
from view.tree import ITEMS
from view.words import RESERVED_IN_2, words

JOINED, WIDEST = 80, 100
# The columns between a line's words and the comment behind them.
GAP = 4
OTHERWISE = 1
# A word, a comment up to its line's end, or the end of a line.
TOKEN = re.compile(
    r"(?P<comment>#[^\n]*)|(?P<feed>\n)"
    r"|(?P<word>[A-Za-z][A-Za-z0-9_]*|0|[1-9][0-9]*|<=|>=|!=|[(),:.*+\-=<>])"
)


# A line without the comment behind its words, and that.
Line = Tuple[str, Optional[str]]


class Unformatted(Exception):
    """The program refuses the text; its line says how."""


@dataclass
class Row:
    """Words that stand in one line, with the comment behind them. `blank` says that a blank line
    stood before."""

    words: List[str] = field(default_factory=list)
    comment: Optional[str] = None
    blank: bool = False


@dataclass
class Part:
    """An item without its lines, a line of an operation, or an end: its rows as the user broke
    them."""

    rows: List[Row]
    indent: int

    def head(self) -> str:
        return next((it.words[0] for it in self.rows if it.words), "")


def answer(path: str, check: bool = False) -> Tuple[int, str]:
    """Status 0 and the text in its layout; with `check` status 1 where the text has another one,
    and nothing is written."""
    text = text_of(path)
    status, said = program.run("spell", path)
    if status:
        raise program.Stopped(["spell", path], status, said)
    new = laid_out(text)
    if not check:
        return 0, new
    if new == text:
        return 0, ""
    pairs = zip([*text.split("\n"), None], [*new.split("\n"), None])
    line = next(at for at, (a, b) in enumerate(pairs, 1) if a != b)
    say(f"{printable(name_of(path))}:{line}:1: format would write this line otherwise\n")
    return OTHERWISE, ""


def formatted(text: str) -> str:
    """The text in its layout; `Unformatted` where the program refuses it."""
    status, said = program.run_on(text, "spell")
    if status:
        raise Unformatted(said.strip() or f"the program ended with status {status}")
    return laid_out(text)


def laid_out(text: str) -> str:
    """A text that the program accepts, in its layout."""
    end = "\r\n" if text.count("\r\n") * 2 > text.count("\n") else "\n"
    lines: List[Line] = []
    for part in parts_of(text):
        written = part_lines(part)
        if part.rows[0].blank and lines:
            lines.append(("", None))
        lines += written
    new = "".join(it + end for it in with_comments(lines))
    # What is written has the words of what was read; where it hadn't, the text would stay as it is.
    return new if list(words(new)) == list(words(text)) else text


def with_comments(lines: List[Line]) -> List[str]:
    """Lines with the comments behind them. Those of lines that stand together begin in one
    column, behind the longest."""
    found: List[str] = []
    for at, (written, comment) in enumerate(lines):
        if comment is None or not written.strip():
            found.append((written + (comment or "")).rstrip())
            continue
        first = last = at
        while first and stand_together(lines[first - 1], lines[at]):
            first -= 1
        while last + 1 < len(lines) and stand_together(lines[last + 1], lines[at]):
            last += 1
        column = max(len(it) for it, _ in lines[first : last + 1]) + GAP
        found.append(f"{written:{column}}{comment}")
    return found


def stand_together(one: Line, other: Line) -> bool:
    """Whether two lines, of which one follows the other, have their comments in one column."""
    return (
        one[1] is not None
        and one[0].strip() != ""
        and one[0][:1].isspace() == other[0][:1].isspace()
    )


def parts_of(text: str) -> List[Part]:
    """The parts of a text, each with the comments above it as parts of their own."""
    heads = LINE_HEADS if words(text)[1:2] == ["2"] else LINE_HEADS - RESERVED_IN_2
    found: List[Part] = []
    is_inside, feeds, is_new_row = False, 0, True
    for token in TOKEN.finditer(text):
        it = token.group()
        if token.lastgroup == "feed":
            feeds, is_new_row = feeds + 1, True
            continue
        begins = token.lastgroup == "word" and (
            it in ITEMS or it in heads or it == "end" or it == "cise"
        )
        is_blank, is_own_row = feeds > 1, is_new_row
        feeds, is_new_row = 0, False
        if token.lastgroup == "comment":
            take_comment(found, it.rstrip(), is_own_row, is_blank, is_inside)
        elif begins:
            is_inside = it == "operation" or is_inside and it not in ITEMS and it != "end"
            indent = 2 if it in heads else 0
            found.append(Part([Row([it], None, is_blank)], indent))
            close_comments(found, indent)
        else:
            take_word(found, it, is_own_row)
    return found


def take_comment(
    found: List[Part], comment: str, is_own_row: bool, is_blank: bool, is_inside: bool
) -> None:
    """A comment behind words, or in a line of its own."""
    last = found[-1].rows[-1] if found else None
    if last is not None and not is_own_row and last.comment is None:
        last.comment = comment
    else:
        found.append(Part([Row([], comment, is_blank)], 2 if is_inside else 0))


def close_comments(found: List[Part], indent: int) -> None:
    """Comments in lines of their own right above a part have its indent; those above an `end`
    that of the lines before."""
    if found[-1].head() == "end":
        return
    for part in reversed(found[:-1]):
        if part.head() or part.rows[0].words:
            break
        part.indent = indent


def take_word(found: List[Part], word: str, is_own_row: bool) -> None:
    """A word within a part. Behind comments in lines of their own it goes on with the part
    before them, whose rows they become."""
    held = [found.pop()]
    while not any(row.words for row in held[-1].rows):
        held.append(found.pop())
    part = held.pop()
    for it in reversed(held):
        part.rows += it.rows
    if is_own_row or part.rows[-1].comment is not None:
        part.rows.append(Row([word]))
    else:
        part.rows[-1].words.append(word)
    found.append(part)


def part_lines(part: Part) -> List[Line]:
    """The lines of a part."""
    rows = part.rows
    if all(row.comment is None for row in rows[:-1]) and all(row.words for row in rows):
        whole = Row([it for row in rows for it in row.words], rows[-1].comment)
        if len(line_of(whole, part.indent, False)) <= JOINED:
            rows = [whole]
    lines = []
    for at, row in enumerate(rows):
        for number, piece in enumerate(broken(row, part.indent, bool(at))):
            lines.append((line_of(piece, part.indent, bool(at or number)), piece.comment))
    return lines


def line_of(row: Row, indent: int, is_further: bool) -> str:
    """The words of a row as they are written; further ones of a part are indented by two columns
    more."""
    return " " * (indent + 2 * is_further) + " ".join(row.words)


def broken(row: Row, indent: int, is_further: bool) -> List[Row]:
    """A row in pieces, where it is too long for one line."""
    if len(line_of(row, indent, is_further)) <= WIDEST:
        return [row]
    at = best_break(row.words, WIDEST - indent - 2 * is_further)
    if at is None:
        return [row]
    return [Row(row.words[:at]), *broken(Row(row.words[at:], row.comment), indent, True)]


def best_break(found: List[str], room: int) -> Optional[int]:
    """Where a row is broken: behind a quantifier's dot, else before the outermost connective, as
    far on as there is room for."""
    length, depth = 0, 0
    places: List[Tuple[int, int]] = []
    for at, it in enumerate(found):
        if length - 1 > room and places:
            break
        if at and (it in CONNECTIVES or it == "when" or found[at - 1] == "."):
            places.append((0 if found[at - 1] == "." or it == "when" else depth, -at))
        length += len(it) + 1
        depth += (it == "(") - (it == ")")
    fitting = [(deep, at) for deep, at in places if len(" ".join(found[:-at])) <= room]
    return -min(fitting or places)[1] if places else None
