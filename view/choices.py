"""Which calls are tried in a state: arguments among the elements that the state names, one after
the other of those that it doesn't, and numbers.

Elements that neither a state nor a constant names are alike there, so of calls that differ by them
alone one is tried: the one in which they stand in their order."""
from itertools import islice, product
from random import Random
from typing import Dict, Iterable, Iterator, List, Optional, Sequence, Tuple

from view.states import Call, Element, Held, Shape

# The most calls that are tried in a state, and of one operation there at least.
MOST_CALLS, LEAST_OF_ONE = 320, 12
# The most numbers for a parameter, by how many parameters of the operation are numbers.
MOST_NUMBERS = {0: 0, 1: 8, 2: 6, 3: 4}
FEWEST_NUMBERS = 3
# The most rows of numbers that are tried for one choice of elements.
MOST_ROWS = 64
# Beyond this no number of a state is tried as an argument.
LARGEST = 10**12


class Choices:
    """The calls that are tried: `numbers` are tried everywhere, the first ones first, and the
    numbers of `calls` together in calls of their operations."""

    def __init__(
        self,
        shape: Shape,
        operations: Sequence[str],
        numbers: Sequence[int],
        calls: Sequence[Call] = (),
    ) -> None:
        self.shape, self.operations = shape, list(operations)
        # So many calls of one operation are looked at, of which some are chosen.
        self.most_of_one = 20 * MOST_CALLS
        self.numbers = list(dict.fromkeys(numbers))
        self.together: Dict[str, List[Tuple[int, ...]]] = {}
        for it in calls:
            self.together.setdefault(it.operation, []).append(tuple(self.ints_of(it)))

    def in_state(self, facts: Held) -> List[Call]:
        """The calls that are tried in a state; of an operation with very many some, by chance.
        Those that aren't chosen are counted, and not made."""
        named, numbers = self.named(facts), self.numbers_in(facts)
        share = max(LEAST_OF_ONE, MOST_CALLS // max(1, len(self.operations)))
        own = [Tried(self, it, named, numbers) for it in self.operations]
        if sum(it.count for it in own) <= MOST_CALLS:
            return [call for it in own for call in it.calls(range(it.count))]
        random = Random(len(facts))
        return [call for it in own for call in it.calls(some(it.count, share, random))]

    def named(self, facts: Held, *calls: Call) -> Dict[str, List[int]]:
        """By sort the elements that a state, a constant or a call names."""
        found = {*self.shape.fixed, *self.shape.elements(facts)}
        for call in calls:
            found.update(self.elements_of(call))
        return {sort: sorted(it for its, it in found if its == sort) for sort in self.shape.sizes}

    def elements_of(self, call: Call) -> List[Element]:
        """The elements among a call's arguments."""
        sorts = self.shape.params[call.operation]
        return [(sort, it) for sort, it in zip(sorts, call.arguments) if sort != "int"]

    def ints_of(self, call: Call) -> List[int]:
        """The numbers among a call's arguments."""
        sorts = self.shape.params[call.operation]
        return [it for sort, it in zip(sorts, call.arguments) if sort == "int"]

    def numbers_in(self, facts: Held) -> List[int]:
        """The numbers that are tried in a state: its own and those next to them stand last."""
        values = sorted(
            {it for _, _, it in facts if it is not None and abs(it) <= LARGEST}, key=abs
        )
        return list(
            dict.fromkeys([*self.numbers[:4], *values, *self.numbers, *(it + 1 for it in values)])
        )

    def rows(self, operation: str, numbers: List[int], count: int) -> List[Tuple[int, ...]]:
        """Numbers for the parameters of an operation: those of the given calls, and others, of
        which some are taken by chance where they are many."""
        others = list(product(numbers, repeat=count))
        if len(others) > MOST_ROWS:
            others = Random(count).sample(others, MOST_ROWS)
        return list(dict.fromkeys([*self.together.get(operation, ()), *others]))

    def chosen(self, sorts: List[str], named: Dict[str, List[int]]) -> Iterator[Tuple[int, ...]]:
        """An element for each of these sorts, in all ways but for those that are alike."""
        if not sorts:
            yield ()
            return
        sort, known = sorts[0], named[sorts[0]]
        fresh = next((it for it in range(self.shape.sizes[sort]) if it not in known), None)
        for first in known + ([] if fresh is None else [fresh]):
            after = named if first in known else {**named, sort: [*known, first]}
            for rest in self.chosen(sorts[1:], after):
                yield (first, *rest)

    def plain(self, call: Call, facts: Held) -> Call:
        """The call that is tried in a state for this one: unnamed elements stand in their order."""
        named, names = self.named(facts), {}  # type: Dict[str, List[int]], Dict[Element, int]
        found = []
        for sort, it in zip(self.shape.params[call.operation], call.arguments):
            if sort != "int" and it not in named[sort]:
                if (sort, it) not in names:
                    taken = {*named[sort], *(to for (its, _), to in names.items() if its == sort)}
                    names[sort, it] = next(
                        at for at in range(self.shape.sizes[sort]) if at not in taken
                    )
                it = names[sort, it]
            found.append(it)
        return Call(call.operation, tuple(found))


class Tried:
    """The calls of one operation that are tried in a state: elements in all ways, and for each way
    all rows of numbers. `count` is how many there are, `most_of_one` at most."""

    def __init__(
        self, choices: Choices, operation: str, named: Dict[str, List[int]], numbers: List[int]
    ) -> None:
        self.operation, self.sorts = operation, choices.shape.params[operation]
        ints = self.sorts.count("int")
        self.rows = choices.rows(operation, numbers[: MOST_NUMBERS.get(ints, FEWEST_NUMBERS)], ints)
        ways = choices.chosen([it for it in self.sorts if it != "int"], named)
        needed = -(-choices.most_of_one // max(1, len(self.rows)))
        self.ways = list(islice(ways, needed)) if self.rows else []
        self.count = min(len(self.ways) * len(self.rows), choices.most_of_one)

    def calls(self, places: Iterable[int]) -> List[Call]:
        """The calls at these places among all."""
        found = []
        for it in places:
            way, row = divmod(it, len(self.rows))
            elements, ints = iter(self.ways[way]), iter(self.rows[row])
            arguments = [next(ints if sort == "int" else elements) for sort in self.sorts]
            found.append(Call(self.operation, tuple(arguments)))
        return found


def some(count: int, most: int, random: Random) -> List[int]:
    """At most so many places of so many: the first one, and others by chance."""
    if count <= most:
        return list(range(count))
    return [0, *random.sample(range(1, count), most - 1)]


class Pattern:
    """How the arguments of two calls agree: `like` gives calls that agree in the same way."""

    def __init__(self, choices: Choices, calls: Sequence[Call], fixed: Iterable[Element]) -> None:
        self.choices, self.calls, self.fixed = choices, list(calls), set(fixed)

    def like(self, facts: Held, most: int) -> List[List[Call]]:
        """Calls in a state that agree as these do: first with the numbers of these."""
        labels = list(
            dict.fromkeys(it for call in self.calls for it in self.choices.elements_of(call))
        )
        values = list(dict.fromkeys(it for call in self.calls for it in self.choices.ints_of(call)))
        numbers = self.choices.numbers_in(facts)[: MOST_NUMBERS.get(len(values), FEWEST_NUMBERS)]
        chosen = self.assigned(labels, self.choices.named(facts), {})
        found: List[List[Call]] = []
        for names in islice(chosen, most):
            own = [tuple(values)] + [
                it for it in product(numbers, repeat=len(values)) if it != tuple(values)
            ]
            found += [self.renamed(names, dict(zip(values, it))) for it in own[: max(1, most)]]
        found.sort(key=lambda calls: sum(map(self.is_other, self.calls, calls)))
        return found[:most]

    def is_other(self, one: Call, other: Call) -> bool:
        """Whether two calls differ in a number."""
        return self.choices.ints_of(one) != self.choices.ints_of(other)

    def renamed(self, names: Dict[Element, int], values: Dict[int, int]) -> List[Call]:
        found = []
        for operation, arguments in self.calls:
            pairs = zip(self.choices.shape.params[operation], arguments)
            own = tuple(values[it] if sort == "int" else names[sort, it] for sort, it in pairs)
            found.append(Call(operation, own))
        return found

    def assigned(
        self, labels: List[Element], named: Dict[str, List[int]], names: Dict[Element, int]
    ) -> Iterator[Dict[Element, int]]:
        """Each way to name the elements anew, no two alike, and a constant's as it is."""
        if not labels:
            yield names
            return
        sort, element = labels[0]
        for it in self.candidates(sort, element, named, names):
            known = named[sort]
            after = named if it in known else {**named, sort: [*known, it]}
            yield from self.assigned(labels[1:], after, {**names, labels[0]: it})

    def candidates(
        self, sort: str, element: int, named: Dict[str, List[int]], names: Dict[Element, int]
    ) -> List[int]:
        if (sort, element) in self.fixed:
            return [element]
        taken = {it for (its, _), it in names.items() if its == sort}
        size, fixed = self.choices.shape.sizes[sort], self.fixed
        fresh: Optional[int] = next((it for it in range(size) if it not in named[sort]), None)
        free = [it for it in named[sort] if it not in taken and (sort, it) not in fixed]
        return free + ([] if fresh is None else [fresh])
