"""What a search looks for: the refutation of an obligation, with how far a state is from its state,
and which operations can matter for it, as read off the lines of the specification."""
from collections import Counter
from typing import Counter as Counts
from typing import Dict, Iterable, List, Set, Tuple

from view.formulas import readings_of
from view.outcome import failing_line
from view.report import Block, Witness
from view.states import Call, Held, World, held, world_of
from view.tree import UPDATES, Line, Operation, Spec

# The most by which a sum of numbers counts in a distance.
MOST_APART = 4
# Numbers that are tried besides those of the refutation.
SMALL = (1, 0, 2)
# Beyond this a number of the specification isn't tried.
LARGEST = 10**9


class Goal:
    """A refuted obligation that calls from the start are to lead to."""

    def __init__(self, spec: Spec, block: Block) -> None:
        self.spec, self.block, self.kind = spec, block, block.kind
        assert block.witness is not None
        self.witness: Witness = block.witness
        self.calls = [Call(str(name), tuple(arguments)) for name, arguments in self.witness.calls]
        self.facts = held(self.witness.state)
        things = {str(it) for it, _, _ in self.facts}
        self.operations = relevant(spec, block, {it.operation for it in self.calls}, things)
        self.things = {it for name in self.operations for it in touched(spec.operations[name])}
        self.true, self.sums = counted(self.facts)

    def world(self, more: int = 0) -> World:
        """The world of the refutation, with so many more elements of each sort."""
        sizes = {str(it): max(1, size) + more for it, size in self.witness.sizes.items()}
        return world_of(self.spec, sizes, self.witness.consts)

    def numbers(self) -> List[int]:
        """The numbers that are tried: those of the refutation, small ones, and neighbours."""
        own = [
            value
            for name, arguments in self.calls
            for value, (_, sort) in zip(arguments, self.spec.operations[name].params)
            if sort == "int"
        ]
        own += sorted((it for _, _, it in self.facts if it is not None), key=abs)
        near = [at for it in own for at in (it + 1, it - 1)]
        literals = [int(it) for it in self.spec.words[2:] if it.isdigit()]
        found = [*dict.fromkeys(own), *SMALL, *near, *literals]
        return [it for it in dict.fromkeys(found) if abs(it) <= LARGEST]

    def distance(self, facts: Held) -> int:
        """How far a state is from that of the refutation: by how many facts there are of each
        thing, and by which numbers, whichever the elements are."""
        true, sums = counted(facts)
        apart = 0
        for thing in self.things:
            own, its = self.true.get(thing), true.get(thing)
            if own or its:
                missing, more = (own or Counter()) - (its or Counter()), (its or Counter()) - (
                    own or Counter()
                )
                apart += max(sum(missing.values()), sum(more.values()))
                apart += min(MOST_APART, abs(self.sums.get(thing, 0) - sums.get(thing, 0)))
        return apart


def counted(facts: Held) -> Tuple[Dict[str, Counts[int]], Dict[str, int]]:
    """For each thing how often it has which value, and the sum of these."""
    values: Dict[str, Counts[int]] = {}
    sums: Dict[str, int] = {}
    for thing, _, value in facts:
        values.setdefault(thing, Counter())[value or 0] += 1
        sums[thing] = sums.get(thing, 0) + (value or 0)
    return values, sums


def read_by_line(line: Line) -> Set[str]:
    """The names that a line of an operation or an invariant reads."""
    found: Set[str] = set()
    if line.head not in UPDATES and line.head != "takes":
        found.update(str(it) for it, _ in readings_of(line.tree()))
    if line.head in UPDATES:
        found.update(str(it[1]) for _, it in line.amount() or [] if it)
        found.update(str(it) for it, _ in readings_of(line.guard() or ("true",)))
    return found


def read(operation: Operation) -> Set[str]:
    """What an operation reads, its own numbers among it."""
    return {it for line in operation.lines for it in read_by_line(line)}


def written(operation: Operation) -> Set[str]:
    """The relations and counters that an operation changes."""
    return {str(it.thing()[0]) for it in operation.of(*UPDATES)}


def touched(operation: Operation) -> Set[str]:
    """What an operation reads or changes."""
    return read(operation) | written(operation)


def relevant(
    spec: Spec, block: Block, operations: Iterable[str], things: Iterable[str]
) -> List[str]:
    """The operations of the refutation, those that change what they or the failing line read or
    what the refutation's state holds, those that change what these read, and so on."""
    own = set(operations)
    line = failing_line(spec, block)
    wanted = {*things, *(read_by_line(line) if line else ())}
    for name in own:
        wanted |= read(spec.operations[name])
    while True:
        more = {str(name) for name, it in spec.operations.items() if written(it) & wanted} - own
        if not more:
            return [str(it) for it in spec.operations if str(it) in own]
        own |= more
        for name in more:
            wanted |= read(spec.operations[name])
