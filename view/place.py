"""The word of a text that the grammar refuses, and what stands about it."""
from __future__ import annotations

from typing import Sequence

from view.formulas import COMPARISONS, CONNECTIVES
from view.grammar import NAME, NUMBER, Grammar, expected_at
from view.tree import ITEMS, LINES
from view.words import Word

LINE_HEADS = LINES | {"observes"}
FORMULA = {"not", "true", "false"}
# Words behind which a formula begins.
BEFORE_FORMULA = {*CONNECTIVES, "not", "when", ".", "requires", "observes"}
MOST_SAMPLE = 70
# What stands where no word does.
NO_WORD = Word("", 0, 0, 0)


class Place:
    """The word that is refused among the words of a text, and what stands about it."""

    def __init__(self, all_words: list[Word], at: int) -> None:
        self.words, self.at = all_words, at
        self.word = all_words[at] if at < len(all_words) else None
        self.expected = expected_at(all_words, at)
        self.version = 2 if all_words[1:2] == ["2"] else 1
        self.grammar = Grammar(self.version)
        self.item = max((it for it in range(at) if all_words[it] in ITEMS), default=None)
        start = self.item or 0
        in_operation = (
            self.item is not None
            and all_words[start] == "operation"
            and "end" not in all_words[start:at]
        )
        heads = LINE_HEADS if self.version == 2 else LINES
        self.line = (
            max((it for it in range(start, at) if all_words[it] in heads), default=None)
            if in_operation
            else None
        )
        self.head = all_words[self.begin()] if at > 1 else None
        self.brackets = self.open_brackets(self.begin())
        # What a sentence proposes to write: the first word that goes, the one behind the last, and
        # the words in their place.
        self.proposal: tuple[int, int, list[str]] | None = None

    def open_brackets(self, start: int) -> list[int]:
        found = []
        for it in range(start, self.at):
            if self.words[it] == "(":
                found.append(it)
            elif self.words[it] == ")" and found:
                found.pop()
        return found

    def near(self, step: int) -> Word:
        """The word that many places behind, or before where the number is negative; "" where there
        is none."""
        at = self.at + step
        return self.words[at] if 0 <= at < len(self.words) else NO_WORD

    def begin(self) -> int:
        """The place of the first word of the line or the item that the word stands in or behind."""
        return self.line if self.line is not None else self.item or 0

    def begin_item(self) -> int:
        """The place of the first word of the item that the word stands in or behind."""
        return self.item or 0

    def joins(self) -> bool:
        """Whether the word stands right behind the one before, without a space."""
        return self.word is not None and self.at > 0 and self.words[self.at - 1].end == self.word.at

    def is_name(self, word: str | None) -> bool:
        return bool(word and self.grammar.kind(word) == NAME)

    def is_number(self, word: str | None) -> bool:
        return bool(word and self.grammar.kind(word) == NUMBER)

    def formula_start(self) -> int:
        """Where the innermost formula that the word stands in or behind begins."""
        at, depth = self.at, 0
        while at > 0:
            before = self.words[at - 1]
            depth += (before == ")") - (before == "(")
            if depth < 0 or depth == 0 and before in BEFORE_FORMULA:
                break
            if depth == 0 and at >= 2 and self.words[at - 2] == "invariant":
                break
            at -= 1
        return at

    def sample(self, symbol: str, parts: list[Word], other: str | None = None) -> str:
        """`: ` and words that are of a symbol, to be written in place of what stands there; where
        they aren't of it, or are long, the other words as an example."""
        text = " ".join(parts)
        if parts and len(text) <= MOST_SAMPLE and self.grammar.accepts(symbol, parts):
            return f": {text}"
        return f", as {other}" if other else ""

    def proposed(
        self, start: int, stop: int, parts: Sequence[str], other: str | None = None
    ) -> str:
        """The same of words in place of those from a place up to another. They are proposed only
        where the grammar goes on behind them with the next word that stands there, so that whoever
        writes them comes further."""
        if parts and self.goes_on(start, parts, stop):
            self.proposal = start, stop, list(map(str, parts))
            text = " ".join(parts)
            if len(text) <= MOST_SAMPLE:
                return f": {text}"
        return f", as {other}" if other else ""

    def goes_on(self, start: int, parts: Sequence[str], stop: int) -> bool:
        """Whether words may stand in place of those from a place up to another, and the next word
        behind them."""
        begin = max((it for it in range(2, start) if self.words[it] in ITEMS), default=2)
        ways = self.grammar.begin_items()
        for word in [*self.words[begin:start], *parts, *self.words[stop : stop + 1]]:
            ways = self.grammar.behind(ways, word)
        return bool(ways) and (stop < len(self.words) or 0 in ways)

    def declared(self, *heads: str) -> set[Word]:
        """The names that items with these first words have declared before the place."""
        return {self.words[it] for it in range(1, self.at) if self.words[it - 1] in heads}

    def named_row(self, start: int) -> list[Word]:
        """The names that stand in a row from a place, in one line of the text."""
        row = self.words[start : start + 1]
        while (
            start + len(row) < len(self.words)
            and self.is_name(self.words[start + len(row)])
            and self.words[start + len(row)].line == row[0].line
        ):
            row.append(self.words[start + len(row)])
        return row

    def longest(self, symbol: str, start: int) -> list[Word]:
        """The longest row of words from a place that is of a symbol, or nothing."""
        ways, found = self.grammar.begin(symbol), start
        for at in range(start, len(self.words)):
            ways = self.grammar.behind(ways, self.words[at])
            if not ways:
                break
            if 0 in ways:
                found = at + 1
        return self.words[start:found]

    def comparison(self, start: int) -> list[Word]:
        """The words of a comparison without its brackets that begins at a place, or nothing."""
        left = self.longest("term", start)
        sign = start + len(left)
        if not left or sign >= len(self.words) or self.words[sign] not in COMPARISONS:
            return []
        right = self.longest("term", sign + 1)
        return self.words[start : sign + 1 + len(right)] if right else []


def quoted(word: str) -> str:
    return f"'{word}'"
