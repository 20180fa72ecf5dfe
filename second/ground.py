"""GROUND, "Names in place of values" to "The list": the formulas of an obligation."""
from __future__ import annotations
from itertools import combinations, product
from math import prod
from typing import Dict, Iterable, Iterator, NamedTuple, Optional, Tuple

from second.meaning import may_match
from second.numbering import Folded, Partial, Reading, Stage, Sum, Table, joined
from second.obligations import Obligation
from second.specification import (Form, Line, Names, Operation, Sorted, Specification, Term, Thing,
                                  Update)

ENTRY: Stage = ()
# Names with the constants that stand for them, and whole-number parameters with their integers.
Given = Dict[str, int]


class Constants:
    """"They are numbers, in this order: the declared constants; the parameters of a sort, call by
    call; the variables of each requires line with exists, call by call and line by line; the
    elements at which the conclusion fails." """

    def __init__(self, spec: Specification, obligation: Obligation) -> None:
        self.sorts: list[str] = []
        self.arguments = 0
        self.declared = self._new(spec.consts)
        operations = obligation.operations
        self.calls = [{**self.declared, **self._new(it.params)} for it in operations]
        self.chosen = [[self._new(line.variables if line.quantifier == "exists" else {})
                        for line in operation.requires] for operation in operations]
        self.elements = self._new(obligation.elements())

    def _new(self, names: Sorted) -> Given:
        """The next constants, for names of these sorts; a whole number is an integer instead."""
        given: Given = {}
        for name, sort in names.items():
            if sort == "int":
                given[name] = self.arguments
                self.arguments += 1
            else:
                given[name] = len(self.sorts)
                self.sorts.append(sort)
        return given

    def of_sort(self, sort: str) -> list[int]:
        return [place for place, it in enumerate(self.sorts) if it == sort]

    def assignments(self, variables: Sorted) -> Iterator[Given]:
        """"An assignment gives each variable a constant of its sort; assignments stand in rising
        order, the last variable fastest." """
        for chosen in product(*[self.of_sort(sort) for sort in variables.values()]):
            yield dict(zip(variables, chosen))

    def assignment_count(self, line: Line) -> int:
        return prod(len(self.of_sort(sort)) for sort in line.variables.values())

    def triples(self) -> list[Tuple[int, int, int]]:
        """Every three constants of one sort: "The triples of all sorts together stand in rising
        order." """
        return [(a, b, c) for a, sort in enumerate(self.sorts)
                for b, c in combinations([it for it in self.of_sort(sort) if it > a], 2)]


class Where(NamedTuple):
    """Where a formula is written: a stage, or None in the initial state, and what names mean."""
    stage: Optional[Stage]
    names: Given

    def consts(self, names: Iterable[str]) -> Tuple[int, ...]:
        return tuple(self.names[name] for name in names)


class Writer:
    """Writes formulas of a specification over the numbers of a table, each already folded."""

    def __init__(self, spec: Specification, constants: Constants, table: Table) -> None:
        self.spec, self.constants, self.table = spec, constants, table

    def formula(self, where: Where, form: Form, sign: bool) -> Folded:
        """"formula writes a formula of the specification at constants and at the readings of a
        stage"; where the sign is false, its opposite."""
        kind = form.kind
        if kind in ("true", "false"):
            return (kind == "true") == sign
        if kind == "not":
            return self.formula(where, form.parts[0], not sign)
        if kind in ("and", "or", "implies"):
            # "a implies b is not a or b"
            left = self.formula(where, form.parts[0], sign != (kind == "implies"))
            right = self.formula(where, form.parts[1], sign)
            return joined((kind == "and") == sign, left, right)
        if kind == "has":
            return self.has(where.stage, form.relation, where.consts(form.names), sign)
        if kind in ("same", "differ"):
            one, other = where.consts(form.names)
            return self.table.equality(one, other, (kind == "same") == sign)
        left_sum, right_sum = [self.sum(where, term) for term in form.sums]
        return self.table.compare(kind, left_sum, right_sum, sign)

    def has(self, stage: Optional[Stage], relation: str, at: Tuple[int, ...],
            sign: bool) -> Folded:
        """A relation's reading: "In the initial state a reading isn't named, since it is known: it
        is its stated value". """
        if stage is None:
            return bool(self.spec.relations[relation].initial) == sign
        return self.table.literal(Reading(stage, relation, at), sign)

    def sum(self, where: Where, term: Term) -> Sum:
        """"A sum has numbers and multiples of integer names." """
        parts: Sum = []
        for coef, kind, name, key in term:
            if kind == "one":
                parts.append((coef, None))
            elif kind == "parameter":
                parts.append((coef, where.names[name]))
            elif where.stage is None:
                parts.append((coef * self.spec.counters[name].initial, None))
            else:
                parts.append((coef, Reading(where.stage, name, where.consts(key))))
        return parts

    def instances(self, where: Where, line: Line, sign: bool) -> Iterator[Folded]:
        """A line's formula "once for each assignment"."""
        for chosen in self.constants.assignments(line.variables):
            yield self.formula(Where(where.stage, {**where.names, **chosen}), line.body, sign)

    def formulas(self, obligation: Obligation) -> Iterator[Folded]:
        """The groups 1 to 5: "An Init obligation has none of 1 to 3." """
        if obligation.kind != "init":
            yield from self.invariants_hold()
        yield from self.calls_ready(obligation.operations)
        yield from self.calls_free(obligation.operations)
        yield from self.conclusion(obligation)
        # "They stand in the order in which the list, these definitions included, first names the
        # readings": the loop meets those that a definition names.
        for reading in self.table.readings:
            if reading.stage != ENTRY:
                yield from self.definition(obligation.operations[reading.stage[0]], reading)

    def invariants_hold(self) -> Iterator[Folded]:
        """1. "The invariants: each one at the entry, once for each assignment." """
        for line in self.spec.invariants.values():
            yield from self.instances(Where(ENTRY, self.constants.declared), line, True)

    def calls_ready(self, operations: list[Operation]) -> Iterator[Folded]:
        """2. "The preconditions: each requires line of each call at the entry, once for each
        assignment, or once at its own constants where it has exists." """
        for call, operation in enumerate(operations):
            where = Where(ENTRY, self.constants.calls[call])
            for line, chosen in zip(operation.requires, self.constants.chosen[call]):
                if line.quantifier == "exists":
                    yield self.formula(Where(ENTRY, {**where.names, **chosen}), line.body, True)
                else:
                    yield from self.instances(where, line, True)

    def calls_free(self, operations: list[Operation]) -> Iterator[Folded]:
        """3. "No conflict: for two calls, each conflict rule, first with its left pattern at the
        first call and then at the second, and each takes line of the one with each of the other";
        "each takes line of the first call meets each of the second call in turn, also where the
        left pattern is at the second call". """
        if len(operations) < 2:
            return
        ones, others = [[(take, Where(ENTRY, names).consts(take.names)) for take in it.takes]
                        for it, names in zip(operations, self.constants.calls)]
        pairs = list(product(ones, others))
        for rule in self.spec.rules:
            for one, other in pairs + [(other, one) for one, other in pairs]:
                if may_match(rule, one[0], other[0]):
                    yield self.unmatched(rule[0].names + rule[1].names, one[1] + other[1])

    def unmatched(self, variables: Names, consts: Tuple[int, ...]) -> Folded:
        """"Where the tokens are those of the patterns and the lines aren't both shared, one
        assignment to the rule's variables does not give both lists of elements: not that the
        first place of each variable is equal to each later place of it." """
        # "variable by variable, in the order of their first places"
        places: dict[str, list[int]] = {}
        for variable, const in zip(variables, consts):
            places.setdefault(variable, []).append(const)
        return joined(False, *[self.table.equality(of[0], later, False)
                               for of in places.values() for later in of[1:]])

    def conclusion(self, obligation: Obligation) -> Iterator[Folded]:
        """4. "The conclusion fails: not the body of the invariant or line, at its constants and
        at the last stage; for a line with exists once for each assignment. For two orders of two
        calls, the thing reads differently after them." """
        elements, line = self.constants.elements, obligation.line
        if obligation.thing:
            yield self.differ(obligation.thing, tuple(elements.values()))
        elif line:
            stages = {"init": None, "safety": (0,), "stable": (1,)}
            is_stable = obligation.kind == "stable"
            names = self.constants.calls[0] if is_stable else self.constants.declared
            where = Where(stages[obligation.kind], {**names, **elements})
            if line.quantifier == "exists":
                yield from self.instances(where, line, False)
            else:
                yield self.formula(where, line.body, False)

    def differ(self, thing: Thing, at: Tuple[int, ...]) -> Folded:
        """"In group 4 a relation reads differently where (h and not k) or (not h and k). Here h is
        the reading after the first call and then the second, and k the one after the second and
        then the first. A counter's two readings are h != k." """
        first, second = [Reading(stage, thing.name, at) for stage in ((1, 0), (0, 1))]
        if thing.kind == "counter":
            return self.table.compare("!=", [(1, first)], [(1, second)], True)
        h, k = [self.table.literal(it, True) for it in (first, second)]
        return joined(False, joined(True, h, k ^ 1), joined(True, h ^ 1, k))

    def definition(self, operation: Operation, reading: Reading) -> Iterator[Folded]:
        """5. "Definitions: what each reading after a call is, from the readings before the
        call." "A definition goes through the updates of its thing in the call, in their order." """
        call, before = reading.stage[0], reading.stage[1:]
        updates = [it for it in operation.updates if it.thing == reading.thing]
        where = Where(before, self.constants.calls[call])
        if reading.thing in self.spec.counters:
            yield from self.define_count(where, updates, reading)
        else:
            # "not h or v and h or not v, for the reading h and its last value v"
            for sign in (True, False):
                literal = self.table.literal(reading, not sign)
                yield joined(False, literal, self.updated(where, updates, reading, sign))

    def acts(self, where: Where, update: Update, at: Iterable[int], sign: bool) -> Folded:
        """"That an update acts is an and of the equalities of its spots, in their order, and of its
        guard." """
        parts = [self.table.equality(where.names[spot], const, sign)
                 for spot, const in zip(update.spots, at) if spot != "*"]
        return joined(sign, *parts, self.formula(where, update.guard, sign))

    def updated(self, where: Where, updates: list[Update], reading: Reading,
                sign: bool) -> Folded:
        """"insert makes the value before it acts or value, and remove makes it not acts and
        value"; "the last update is named first". """
        if not updates:
            return self.has(where.stage, reading.thing, reading.at, sign)
        is_insert = updates[-1].change == "insert"
        acts = self.acts(where, updates[-1], reading.at, is_insert == sign)
        return joined(is_insert != sign, acts, self.updated(where, updates[:-1], reading, sign))

    def define_count(self, where: Where, updates: list[Update],
                     reading: Reading) -> Iterator[Folded]:
        """"For a counter each update has two formulas: where it acts, the next value is the value
        before plus the amount (add) or the amount (set); elsewhere it is the value before. The
        last value is the reading itself, and each other one is an integer name of its own.
        Without updates the reading is the one before the call." """
        value: Sum = [(1, Reading(reading.stage[1:], reading.thing, reading.at))]
        if not updates:
            yield self.table.compare("=", [(1, reading)], value, True)
        for number, update in enumerate(updates, 1):
            following: Sum = [(1, Partial(number, reading) if number < len(updates) else reading)]
            amount = self.sum(where, update.amount)
            changed = value + amount if update.change == "add" else amount
            # "not acts or next = changed", "and acts or next = before"
            for sign, then in ((False, changed), (True, value)):
                acts = self.acts(where, update, reading.at, sign)
                yield joined(False, acts, self.table.compare("=", following, then, True))
            value = following
