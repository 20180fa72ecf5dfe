"""RULE, "Obligations": the list of a specification's obligations, and what breaks one."""
from __future__ import annotations
from typing import Iterator, NamedTuple, Optional

from second.meaning import MOST_VALUE, After, At, Call, State, World, at_call, conflict
from second.specification import Line, Operation, Sorted, Specification, Thing

MOST_ELEMENTS = 100
# "A witness is such values as a program holds them."
Witness = NamedTuple("Witness", [("world", World), ("state", State), ("calls", "list[Call]"),
                                 ("elements", "list[int]")])


class Obligation(NamedTuple):
    """An obligation: its kind and its line in a report, the operations of its calls, and what its
    conclusion is of."""
    kind: str
    text: str
    operations: list[Operation]
    line: Optional[Line] = None
    thing: Optional[Thing] = None

    def elements(self) -> Sorted:
        """"a choice for the variables of the invariant or line, or a tuple or key of the thing. A
        line with exists fails as a whole, so it has no elements": with their sorts."""
        if self.thing:
            return {str(place): sort for place, sort in enumerate(self.thing.sorts)}
        return self.line.variables if self.line and self.line.quantifier != "exists" else {}


def obligations(spec: Specification) -> Iterator[Obligation]:
    """"First come all Init, by invariants; then all Safety, by operations, then invariants. Then
    come all Commute by the first operation, then the second from the first on, then relations and
    then counters; and last all Stable, by operations, then requires lines, then the other
    operation." """
    operations = list(spec.operations.values())
    for name, line in spec.invariants.items():
        yield Obligation("init", f"init {name}", [], line)
    for one in operations:
        for name, line in spec.invariants.items():
            yield Obligation("safety", f"safety {one.name} {name}", [one], line)
    for place, one in enumerate(operations):
        for other in operations[place:]:
            # "each relation or counter that one of them writes"; "An operation writes the things
            # of its updates".
            written = {it.thing for it in one.updates + other.updates}
            for name, thing in spec.things().items():
                if name in written:
                    text = f"commute {one.name} {other.name} {name}"
                    yield Obligation("commute", text, [one, other], None, thing)
    for one in operations:
        for number, line in enumerate(one.requires, 1):
            for other in operations:
                text = f"stable {one.name} {number} {other.name}"
                yield Obligation("stable", text, [one, other], line)


def breaks(spec: Specification, obligation: Obligation, witness: Witness) -> bool:
    """Whether a witness breaks an obligation "and keeps the bounds of what runs"."""
    world, state, calls, elements = witness
    if not _fits(obligation, witness):
        return False
    start = At(world, state, world.consts)
    if obligation.kind == "init":
        # "the state is the initial one"
        return _is_initial(spec, witness) and _fails(start, obligation, elements)
    # "in the state: every invariant, the precondition of a"
    entries = [at_call(world, state, call) for call in calls]
    if start.first_false(spec.invariants.values()) is not None or any(
            at.first_false(call.operation.requires) is not None
            for at, call in zip(entries, calls)):
        return False
    # "a and b don't conflict"
    if len(calls) == 2 and conflict(spec, world, *calls):
        return False
    after = [After(at, call.operation) for at, call in zip(entries, calls)]
    if obligation.kind == "safety":
        # "the invariant after a, at the elements"
        return _fails(At(world, after[0], world.consts), obligation, elements)
    if obligation.thing is None:
        # "the requires line of a after b, at the elements"
        return _fails(At(world, after[1], entries[0].names), obligation, elements)
    # "after a then b and after b then a, the thing reads the same at the elements"
    ends = [After(at_call(world, after[first], calls[second]), calls[second].operation)
            for first, second in ((0, 1), (1, 0))]
    first_end, second_end = [end.read(obligation.thing.name, tuple(elements)) for end in ends]
    return first_end != second_end


def _fails(at: At, obligation: Obligation, elements: list[int]) -> bool:
    """"A line with exists fails as a whole": whether the obligation's line is false."""
    line = obligation.line
    if line is None or line.quantifier == "exists":
        return line is not None and not at.line(line)
    return not at.body(line, elements)


def _fits(obligation: Obligation, witness: Witness) -> bool:
    """"all parts fit", and "at most 100 elements of each sort, numbers from -10^15 to 10^15". """
    sizes = witness.world.sizes
    if [call.operation for call in witness.calls] != obligation.operations:
        return False
    if any(size > MOST_ELEMENTS for size in sizes.values()):
        return False
    values = [pair for call in witness.calls
              for pair in zip(call.operation.params.values(), call.args)]
    values += zip(obligation.elements().values(), witness.elements)
    return all(abs(value) <= MOST_VALUE if sort == "int" else 0 <= value < sizes[sort]
               for sort, value in values)


def _is_initial(spec: Specification, witness: Witness) -> bool:
    """"Two states are equal where all readings agree": here with the initial state."""
    for name, thing in spec.things().items():
        # A witness lists neither false nor 0, so it lists each tuple or none.
        tuples = witness.world.tuples(thing.sorts) if thing.initial else ()
        if witness.state.listed[name] != {at: thing.initial for at in tuples}:
            return False
    return True
