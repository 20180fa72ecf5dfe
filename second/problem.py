"""GROUND, "The list" as a whole and "What a program holds": the problem of an obligation. Formulas
of the groups 6 and 7 are counted, and their clauses made as a log names them."""
from __future__ import annotations
from itertools import combinations
from math import comb
from typing import NamedTuple, Optional

from second.ground import ENTRY, Constants, Writer
from second.numbering import Clause, Clauses, Equality, Folded, Reading, Table, joined
from second.obligations import Obligation
from second.specification import Specification

# "A list of more than 20,000 formulas is refused."
MOST_FORMULAS = 20_000
# Two readings of a thing "at which the list names a thing at the entry", the lesser one first.
Pair = NamedTuple("Pair", [("is_counter", bool), ("one", Reading), ("other", Reading)])


class Problem:
    """The clauses and atoms of an obligation, by their numbers."""

    def __init__(self, constants: Constants, table: Table, formulas: list[Folded],
                 pairs: list[Pair]) -> None:
        self.table, self.pairs, self.triples = table, pairs, constants.triples()
        self.has_empty = any(it is False for it in formulas)
        # What the formulas of the groups 6 and 7 name first. Behind group 6 an equality lacks its
        # number only where its sort has no third constant.
        for a, b, c in self.triples:
            for one, other in ((a, b), (b, c), (a, c)):
                table.equality(one, other, True)
        sorts = [constants.of_sort(sort) for sort in set(constants.sorts)]
        is_named = all(Equality(it[0], it[1]) in table.atoms for it in sorts if len(it) == 2)
        for pair in pairs:
            if pair.is_counter or not is_named:
                self.congruence(pair)
        # "New atoms come after those of the table, in the order of the clauses".
        self.stated = Clauses(len(table.rows))
        for formula in formulas:
            self.stated.add(formula)
        self.atom_count = self.stated.atom + len(pairs)
        self.clause_count = len(self.stated.written) + 3 * len(self.triples) + 3 * len(pairs)

    def clause(self, number: int) -> Clause:
        if number < len(self.stated.written):
            return self.stated.written[number]
        number -= len(self.stated.written)
        if number < 3 * len(self.triples):
            return self.equality(*divmod(number, 3))
        # A formula of group 7 has three clauses, and one new atom for the "and" in it.
        place, which = divmod(number - 3 * len(self.triples), 3)
        made = Clauses(self.stated.atom + place)
        made.add(self.congruence(self.pairs[place]))
        return made.written[which]

    def equality(self, triple: int, which: int) -> Clause:
        """6. "Three constants a, b and c with rising numbers have three formulas: a = b and b = c
        implies a = c, then a = b and a = c implies b = c, then a = c and b = c implies a = b." """
        a, b, c = self.triples[triple]
        implied = [(a, c), (b, c), (a, b)][which]
        return frozenset(self.table.literal(Equality(*it), it == implied)
                         for it in ((a, b), (b, c), (a, c)))

    def congruence(self, pair: Pair) -> Folded:
        """7. "Equal elements have equal readings: for every two tuples at which the list names a
        thing at the entry, not that they are equal place by place, or that the thing reads the
        same at both." """
        table = self.table
        unequal = [table.equality(*it, False) for it in zip(pair.one.at, pair.other.at)]
        # "That h and k read the same is (not h or k) and (h or not k) for a relation and h = k for
        # a counter."
        if pair.is_counter:
            same = table.compare("=", [(1, pair.one)], [(1, pair.other)], True)
        else:
            h, k = table.literal(pair.one, True), table.literal(pair.other, True)
            same = joined(True, joined(False, h ^ 1, k), joined(False, h, k ^ 1))
        return joined(False, *unequal, same)


def problem_of(spec: Specification, obligation: Obligation) -> Optional[Problem]:
    """The problem of an obligation, or None where it has too many formulas."""
    constants = Constants(spec, obligation)
    count = 3 * len(constants.triples())
    # The formulas of the groups 1 and 2 are counted before they are made.
    lines = [] if obligation.kind == "init" else list(spec.invariants.values())
    lines += [line for operation in obligation.operations for line in operation.requires
              if line.quantifier != "exists"]
    if count + sum(map(constants.assignment_count, lines)) > MOST_FORMULAS:
        return None
    writer = Writer(spec, constants, Table(constants.arguments))
    formulas = list(writer.formulas(obligation))
    named: dict[str, list[Reading]] = {name: [] for name in spec.things()}
    for reading in writer.table.readings:
        if reading.stage == ENTRY:
            named[reading.thing].append(reading)
    count += len(formulas) + sum(comb(len(readings), 2) for readings in named.values())
    if count > MOST_FORMULAS:
        return None
    # "Group 7 goes by relations and then counters. The tuples or keys of a thing rise, and so do
    # their pairs, the lesser one first."
    pairs = [Pair(name in spec.counters, one, other) for name, readings in named.items()
             for one, other in combinations(sorted(readings), 2)]
    return Problem(constants, writer.table, formulas, pairs)
