"""LANGUAGE, "What a specification means" and "Effects and conflicts": evaluation in a state."""
from __future__ import annotations
import operator
from dataclasses import dataclass, field
from itertools import product
from typing import Dict, Iterable, Iterator, NamedTuple, Optional, Tuple, Union

from second.specification import Form, Line, Operation, Specification, Take, Term

Elements = Tuple[int, ...]
# "A call names an operation and has one argument for each parameter"
Call = NamedTuple("Call", [("operation", Operation), ("args", "list[int]")])
MOST_VALUE = 10 ** 15
COMPARE = {"=": operator.eq, "!=": operator.ne, "<": operator.lt, "<=": operator.le,
           ">": operator.gt, ">=": operator.ge}


@dataclass
class World:
    """"it gives each sort a size of 0 or more, and each constant an element of its sort" """
    sizes: Dict[str, int] = field(default_factory=dict)
    consts: Dict[str, int] = field(default_factory=dict)

    def tuples(self, sorts: Iterable[str]) -> Iterator[Elements]:
        """"every list of elements of given sorts, in rising order, the last place fastest" """
        return product(*[range(self.sizes[sort]) for sort in sorts])


class State:
    """The readings that may differ from the default of their thing, and these defaults. A relation
    reads 1 where it is true and 0 where it is false."""

    def __init__(self, default: dict[str, int]) -> None:
        self.default = default
        self.listed: dict[str, dict[Elements, int]] = {name: {} for name in default}

    def read(self, name: str, at: Elements) -> int:
        return self.listed[name].get(at, self.default[name])


@dataclass
class At:
    """Where a formula is asked: a world, a state, and what the names in scope stand for."""
    world: World
    state: Union[State, After]
    names: dict[str, int]

    def elements(self, names: Iterable[str]) -> Elements:
        return tuple(self.names[name] for name in names)

    def term(self, term: Term) -> int:
        """"the sum of its summands, each a coefficient times 1, times a whole-number argument or
        times a counter's reading" """
        total = 0
        for coef, kind, name, key in term:
            if kind == "one":
                total += coef
            elif kind == "parameter":
                total += coef * self.names[name]
            else:
                total += coef * self.state.read(name, self.elements(key))
        return total

    def truth(self, form: Form) -> bool:
        """"The connectives, comparisons and readings mean what they say; a implies b is not a or
        b, and != is the opposite of =." """
        if form.kind in ("true", "false"):
            return form.kind == "true"
        if form.kind == "not":
            return not self.truth(form.parts[0])
        if form.kind == "and":
            return self.truth(form.parts[0]) and self.truth(form.parts[1])
        if form.kind in ("or", "implies"):
            left = self.truth(form.parts[0])
            return left == (form.kind == "or") or self.truth(form.parts[1])
        if form.kind == "has":
            return bool(self.state.read(form.relation, self.elements(form.names)))
        if form.kind in ("same", "differ"):
            one, other = self.elements(form.names)
            return (one == other) == (form.kind == "same")
        return bool(COMPARE[form.kind](self.term(form.sums[0]), self.term(form.sums[1])))

    def body(self, line: Line, chosen: Iterable[int]) -> bool:
        """The truth of a line's formula at elements chosen for its variables."""
        names = {**self.names, **dict(zip(line.variables, chosen))}
        return At(self.world, self.state, names).truth(line.body)

    def line(self, line: Line) -> bool:
        """"forall x : A . f is true where f is true for every element below the size of A,
        exists x : A . f where it is for some." """
        truths = (self.body(line, it) for it in self.world.tuples(line.variables.values()))
        return any(truths) if line.quantifier == "exists" else all(truths)

    def first_false(self, lines: Iterable[Line]) -> Optional[int]:
        """"the place of the first one that is false" """
        return next((place for place, line in enumerate(lines) if not self.line(line)), None)


def at_call(world: World, state: Union[State, After], call: Call) -> At:
    """Where the lines of a call are asked: "it is a constant, an argument of the call"."""
    return At(world, state, {**world.consts, **dict(zip(call.operation.params, call.args))})


class After:
    """The readings after a call, each from the state before it."""

    def __init__(self, before: At, operation: Operation) -> None:
        self.before = before
        # "Guards and amounts read the state before the call"; "its guard, the formula after
        # when, is true; without a guard it acts always".
        self.updates = [(update, before.term(update.amount)) for update in operation.updates
                        if before.truth(update.guard)]

    def read(self, name: str, at: Elements) -> int:
        """"one begins with the old reading and goes through the updates"; "insert makes the
        reading true and remove false, add adds the amount to the value and set puts the amount in
        its place" """
        value = self.before.state.read(name, at)
        for update, amount in self.updates:
            # "each of its spots is * or names the element that stands there"
            if update.thing == name and all(spot == "*" or self.before.names[spot] == element
                                            for spot, element in zip(update.spots, at)):
                value = {"insert": 1, "remove": 0, "add": value + amount,
                         "set": amount}[update.change]
        return value


def apply(spec: Specification, world: World, state: State, call: Call) -> Optional[str]:
    """Makes a state the one after a call; where a value would leave the range it stays as it is:
    "it names the first such counter in written order, its least such key and the value". """
    before, things = at_call(world, state, call), spec.things()
    after = After(before, call.operation)
    changed: dict[str, dict[Elements, int]] = {name: {} for name in things}
    for update, _ in after.updates:
        sorts = things[update.thing].sorts
        reached = [range(world.sizes[sort]) if spot == "*" else [before.names[spot]]
                   for sort, spot in zip(sorts, update.spots)]
        for at in product(*reached):
            changed[update.thing][at] = after.read(update.thing, at)
    for name, readings in changed.items():
        for at, value in sorted(readings.items()):
            if abs(value) > MOST_VALUE:
                return " ".join(["range", name, *map(str, at), str(value)])
    for name, readings in changed.items():
        state.listed[name].update(readings)
    return None


def conflict(spec: Specification, world: World, one: Call, other: Call) -> bool:
    """"Two calls conflict where some rule matches a line of the one and a line of the other, in
    either order." """
    ones, others = [[(take, at_call(world, State({}), call).elements(take.names))
                     for take in call.operation.takes] for call in (one, other)]
    return any(_matches(rule, left, right) or _matches(rule, right, left)
               for left, right in product(ones, others) for rule in spec.rules)


def _matches(rule: tuple[Take, Take], left: tuple[Take, Elements],
             right: tuple[Take, Elements]) -> bool:
    """"And one assignment of elements to its variables gives the elements of both lines" """
    given: dict[str, int] = {}
    return may_match(rule, left[0], right[0]) and all(
        given.setdefault(variable, element) == element
        for variable, element in zip(rule[0].names + rule[1].names, left[1] + right[1]))


def may_match(rule: tuple[Take, Take], left: Take, right: Take) -> bool:
    """"The two lines aren't both shared. Their tokens are those of its patterns." """
    tokens = [take.token for take in rule]
    return not (left.shared and right.shared) and tokens == [left.token, right.token]
