"""LANGUAGE, "Typing": what each place of a tree needs, and what is wrong where it isn't there. The
faults are noted in any order; that of a declaration stands before each use of what it declares."""
from __future__ import annotations
from typing import NamedTuple, Optional

from second.specification import Form, Names, Summand, Term
from second.words import Word

# "at one word the first in the order unknown, twice, kind, count, limit"
ORDER = ("unknown", "twice", "kind", "count", "limit")
# The table of limits.
MOST = {"sorts": 8, "relations": 16, "counters": 8, "tokens": 16, "invariants": 16,
        "operations": 24, "constants": 4, "parameters": 6, "variables": 3, "conflicts": 32,
        "requires": 8, "updates": 16, "takes": 4, "observes": 8, "summands": 16, "nodes": 200,
        "literal": 1_000_000_000}
ELEMENTS = ("constant", "parameter", "variable")
# reading = NAME [ "(" NAME { "," NAME } ")" ], and an update's name with its spots.
Reading = NamedTuple("Reading", [("name", Word), ("args", "list[Word]")])
# A summand with its sign, that sign's word, and its number and its reading where it has them.
SummandTree = NamedTuple("SummandTree", [("sign", int), ("word", int), ("number", Optional[Word]),
                                         ("reading", Optional[Reading])])
# What a name in scope is, and its sorts: those of its places, or its own; a whole number has none.
Declared = NamedTuple("Declared", [("kind", str), ("sorts", "list[str]")])


class Scope:
    """The names in scope, and the faults that were met."""

    def __init__(self) -> None:
        self.names: dict[str, Declared] = {}
        self.faults: list[tuple[int, int, str]] = []

    def fault(self, kind: str, word: Word) -> None:
        """Something is wrong at a word."""
        text = f"{kind} {word.text} word {word.number}"
        self.faults.append((word.number, ORDER.index(kind), text))

    def limit(self, which: str, count: int, number: int, most: int = 0) -> None:
        """one_too_many: "there are as many of something before it as there may be" """
        if count > (most or MOST[which]):
            self.fault("limit", Word("", f"{which} {count}", number))

    def declare(self, kind: str, name: Word, before: int) -> Declared:
        """"A name is in scope from its own word on"; so many of its kind are before it."""
        if name.text in self.names:
            # in_scope_already: "a name is declared while it is in scope"
            self.fault("twice", name)
        self.limit(f"{kind}s", before + 1, name.number)
        self.names[name.text] = declared = Declared(kind, [])
        return declared

    def use(self, name: Word, *kinds: str) -> Declared:
        """What a name is, which has to be one of these kinds."""
        declared = self.names.get(name.text)
        if declared and declared.kind in kinds:
            return declared
        # not_in_scope: "a name is used and isn't in scope"
        # not_as_needed: "a name is in scope and isn't what its place needs"
        self.fault("kind" if declared else "unknown", name)
        return Declared(kinds[0], [])

    def sort(self, name: Word) -> str:
        """"Places of relations and tokens, keys of counters, and the kinds of constants,
        variables and parameters need sorts." """
        self.use(name, "sort")
        return name.text

    def counted(self, reading: Reading, kind: str) -> list[str]:
        """The sorts of what a reading is of; wrong_number: "a relation, counter or token has a
        wrong number of arguments, spots or pattern names" """
        declared = self.use(reading.name, kind)
        if len(reading.args) != len(declared.sorts):
            self.fault("count", reading.name)
        return declared.sorts

    def arguments(self, reading: Reading, kind: str) -> Names:
        """"Their arguments are constants, parameters or variables of the places' sorts; a spot of
        an update is one of these or *." """
        for name, sort in zip(reading.args, self.counted(reading, kind)):
            if name.text != "*" and self.use(name, *ELEMENTS).sorts != [sort]:
                self.fault("kind", name)
        return tuple(name.text for name in reading.args)

    def rule(self, patterns: list[Reading]) -> None:
        """"A pattern's first name needs a token" """
        sorts: dict[str, str] = {}
        for pattern in patterns:
            for name, sort in zip(pattern.args, self.counted(pattern, "token")):
                # global_in_rule: "a name of the whole specification stands in the place of a rule
                # variable"; at_two_sorts: "a rule variable stands at a place of another sort than
                # that of its first place in the rule"
                if name.text in self.names or sorts.setdefault(name.text, sort) != sort:
                    self.fault("kind", name)

    def atom(self, reading: Reading) -> Form:
        """"An atom needs a relation" """
        return Form("has", (), reading.name.text, self.arguments(reading, "relation"))

    def comparison(self, left: list[SummandTree], kind: str, right: list[SummandTree]) -> Form:
        """"In a comparison by = or != whose two sides are each one name alone, and each a
        constant, a variable or a parameter of a sort, elements are compared" """
        one, other = self.alone(left), self.alone(right)
        if kind not in ("=", "!=") or not one or not other:
            return Form(kind, sums=(self.term(left), self.term(right)))
        if self.names[one.text].sorts != self.names[other.text].sorts:
            # of_two_sorts: "two elements are compared that are of two sorts"
            self.fault("kind", other)
        return Form("same" if kind == "=" else "differ", names=(one.text, other.text))

    def alone(self, side: list[SummandTree]) -> Optional[Word]:
        """The name of an element that is the whole of a side."""
        sign, _, number, reading = side[0]
        if len(side) > 1 or sign < 0 or number or not reading or reading.args:
            return None
        declared = self.names.get(reading.name.text)
        is_element = declared and declared.kind in ELEMENTS and declared.sorts
        return reading.name if is_element else None

    def term(self, trees: list[SummandTree]) -> Term:
        term: list[Summand] = []
        for count, (sign, word, number, reading) in enumerate(trees, 1):
            self.limit("summands", count, word)
            term.append(self.summand(sign * (self.literal(number) if number else 1), reading))
        return tuple(term)

    def literal(self, number: Word) -> int:
        """too_large: "a literal or a coefficient is larger than it may be" """
        self.limit("literal", int(number.text), number.number)
        return int(number.text)

    def summand(self, coef: int, reading: Optional[Reading]) -> Summand:
        """"a reading without arguments is a parameter that is a whole number or a counter without
        keys, and a reading with arguments is a counter" """
        if reading is None:
            return Summand(coef, "one", "", ())
        name = reading.name
        if reading.args:
            return Summand(coef, "counter", name.text, self.arguments(reading, "counter"))
        declared = self.use(name, "counter", "parameter")
        if declared.sorts:
            self.fault("kind", name)
        return Summand(coef, declared.kind, name.text, ())
