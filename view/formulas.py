"""A formula as a tree, from the words of a specification that the program accepts.

    reading   ("reading", name, [argument, ..])
    term      [(coefficient, reading or None), ..], a sum
    formula   ("true",), ("false",), ("not", formula), ("and" | "or" | "implies", formula, formula),
              reading, or ("compare", sign, term, term)
"""

from __future__ import annotations

from typing import Any, List, Optional, Sequence, Tuple

from view.words import Word

# The trees of the list above.
Reading = Tuple[str, Word, List[Word]]
Term = List[Tuple[int, Optional[Reading]]]
Formula = Tuple[Any, ...]

CONNECTIVES = ("and", "or", "implies")
COMPARISONS = ("=", "!=", "<", "<=", ">", ">=")


class Reader:
    """Reads trees from the front of a list of words. `at` is the place of the next word."""

    def __init__(self, words: list[Word], at: int = 0) -> None:
        self.words, self.at = words, at

    def peek(self) -> str:
        return self.words[self.at] if self.at < len(self.words) else ""

    def next(self) -> Word:
        self.at += 1
        return self.words[self.at - 1]

    def takes(self, *words: str) -> bool:
        found = self.peek() in words and self.peek() != ""
        self.at += found
        return found

    def reading(self) -> Reading:
        name, arguments = self.next(), []
        if self.takes("("):
            while True:
                arguments.append(self.next())
                if self.next() == ")":
                    break
        return "reading", name, arguments

    def term(self) -> Term:
        found, sign = [], -1 if self.takes("-") else 1
        while True:
            if self.peek()[:1].isdigit():
                found.append((sign * int(self.next()), self.reading() if self.takes("*") else None))
            else:
                found.append((sign, self.reading()))
            if self.peek() not in ("+", "-"):
                return found
            sign = 1 if self.next() == "+" else -1

    def formula(
        self,
    ) -> Formula:
        if self.peek() in ("true", "false"):
            return (str(self.next()),)
        if self.takes("not"):
            return "not", self.formula()
        if not self.takes("("):
            return self.reading()
        if self.begins_formula():
            left = self.formula()
            found: Formula = (str(self.next()), left, self.formula())
        else:
            term = self.term()
            found = ("compare", str(self.next()), term, self.term())
        self.next()
        return found

    def begins_formula(self) -> bool:
        """Behind a bracket: whether a formula stands there, and not a sum."""
        if self.peek() in ("true", "false", "not", "("):
            return True
        if self.peek() == "-" or self.peek()[:1].isdigit():
            return False
        ahead = Reader(self.words, self.at)
        ahead.reading()
        return ahead.peek() in CONNECTIVES


def formula_of(
    words: list[Word],
) -> Formula:
    """The tree of a formula's words."""
    return Reader(words).formula()


def readings_of(formula: Formula) -> list[tuple[Word, list[Word]]]:
    """The readings in a formula, from left to right: (name, [argument, ..])."""
    if formula[0] == "reading":
        return [(formula[1], formula[2])]
    if formula[0] == "compare":
        return [(it[1], it[2]) for term in formula[2:] for _, it in term if it]
    return [it for part in formula[1:] for it in readings_of(part)]
