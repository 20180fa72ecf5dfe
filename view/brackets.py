"""Formulas as people write them, with the brackets that the language wants: `a and b and c`, `1
<= n <= 9`, `( r ( x ) )`. 'and' binds closer than 'or', and that than 'implies', as most people
mean. What is proposed is of the grammar; whoever proposes it sees to that once more."""
from typing import List, Optional, Sequence, Tuple

from view.formulas import COMPARISONS, CONNECTIVES
from view.grammar import NAME, NUMBER, Grammar

# A formula with its brackets, and the place behind what was read.
Read = Tuple[List[str], int]
# No formula that people write nests as deep; the grammar's own limit is 200.
MOST_DEEP = 60


class Lenient:
    """Reads formulas of words that may lack brackets, or have too many."""

    def __init__(self, all_words: Sequence[str], grammar: Grammar) -> None:
        self.words, self.grammar = all_words, grammar

    def word(self, at: int) -> str:
        return self.words[at] if at < len(self.words) else ""

    def is_name(self, at: int) -> bool:
        return at < len(self.words) and self.grammar.kind(self.words[at]) == NAME

    def chain(self, at: int, depth: int = 0) -> Optional[Read]:
        """Parts that are joined, as one formula."""
        first = self.part(at, depth)
        if not first:
            return None
        parts, signs, at = [first[0]], [], first[1]
        while self.word(at) in CONNECTIVES:
            found = self.part(at + 1, depth)
            if not found:
                return None
            signs.append(str(self.word(at)))
            parts.append(found[0])
            at = found[1]
        return joined(parts, signs), at

    def part(self, at: int, depth: int) -> Optional[Read]:
        """A formula that isn't joined."""
        if depth > MOST_DEEP:
            return None
        if self.word(at) in ("true", "false"):
            return [str(self.word(at))], at + 1
        if self.word(at) == "not":
            found = self.part(at + 1, depth + 1)
            return (["not", *found[0]], found[1]) if found else None
        compared = self.comparison(at)
        if compared:
            return compared
        if self.word(at) != "(":
            return self.reading(at)
        inner = self.chain(at + 1, depth + 1)
        return (inner[0], inner[1] + 1) if inner and self.word(inner[1]) == ")" else None

    def comparison(self, at: int) -> Optional[Read]:
        """One comparison or several in a row, as `1 <= n <= 9`."""
        left = self.term(at)
        if not left or self.word(left[1]) not in COMPARISONS:
            return None
        parts, at = [], left[1]
        while self.word(at) in COMPARISONS:
            right = self.term(at + 1)
            if not right:
                return None
            parts.append(["(", *left[0], str(self.word(at)), *right[0], ")"])
            left, at = right, right[1]
        return joined(parts, ["and"] * (len(parts) - 1)), at

    def term(self, at: int) -> Optional[Read]:
        found: List[str] = []
        if self.word(at) == "-":
            found, at = ["-"], at + 1
        while True:
            summand = self.summand(at)
            if not summand:
                return None
            found, at = found + summand[0], summand[1]
            if self.word(at) not in ("+", "-"):
                return found, at
            found, at = found + [str(self.word(at))], at + 1

    def summand(self, at: int) -> Optional[Read]:
        if not self.word(at) or self.grammar.kind(self.word(at)) != NUMBER:
            return self.reading(at)
        if self.word(at + 1) != "*":
            return [str(self.word(at))], at + 1
        found = self.reading(at + 2)
        return ([str(self.word(at)), "*", *found[0]], found[1]) if found else None

    def reading(self, at: int) -> Optional[Read]:
        if not self.is_name(at):
            return None
        found, at = [str(self.word(at))], at + 1
        if self.word(at) != "(" or not self.is_name(at + 1):
            return found, at
        stop = at + 1
        while self.is_name(stop) and self.word(stop + 1) == ",":
            stop += 2
        if not self.is_name(stop) or self.word(stop + 1) != ")":
            return found, at
        return found + [str(it) for it in self.words[at : stop + 2]], stop + 2


def joined(parts: List[List[str]], signs: List[str]) -> List[str]:
    """Parts joined by connectives, with a pair of brackets for each two."""
    if not signs:
        return parts[0]
    loosest = max(signs, key=CONNECTIVES.index)
    # What follows from something is read from the right, all else from the left.
    at = (
        signs.index(loosest)
        if loosest == "implies"
        else len(signs) - 1 - signs[::-1].index(loosest)
    )
    left, right = joined(parts[: at + 1], signs[:at]), joined(parts[at + 1 :], signs[at + 1 :])
    return ["(", *left, loosest, *right, ")"]
