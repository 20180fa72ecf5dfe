"""States and calls as values: how a state of the program's texts is kept, renamed and compared.

Elements of a sort that no constant names are alike, so two states that differ by a renaming of such
elements allow the same calls but for that renaming. `key` is the same for both, in most cases."""
from itertools import permutations
from typing import Dict, FrozenSet, Iterable, Iterator, List, NamedTuple, Optional, Tuple

from view.report import State
from view.tree import Spec

# A relation with the elements of which it is true and None, or a counter with its key and value.
Fact = Tuple[str, Tuple[int, ...], Optional[int]]
Held = FrozenSet[Fact]
# An element: its sort and its number.
Element = Tuple[str, int]
# The most renamings that are compared to find the key of a state.
MOST_RENAMINGS = 24


class Call(NamedTuple):
    """A call that is made: an operation and its arguments."""

    operation: str
    arguments: Tuple[int, ...]


class World(NamedTuple):
    """How many elements each sort has, and which of them each constant is."""

    sizes: Tuple[Tuple[str, int], ...]
    constants: Tuple[Tuple[str, int], ...]

    def schedule(self, replicas: int, steps: List[Dict[str, object]]) -> Dict[str, object]:
        """A schedule of this world."""
        sizes, constants = dict(self.sizes), dict(self.constants)
        return {"sizes": sizes, "constants": constants, "replicas": replicas, "steps": steps}


def world_of(spec: Spec, sizes: Dict[str, int], constants: Dict[str, int]) -> World:
    """A world of a specification; each sort has at least one element."""
    sized = tuple((str(it), max(1, sizes.get(it, 1))) for it in spec.sorts)
    return World(sized, tuple((str(it), constants[it]) for it in spec.consts))


def held(state: State) -> Held:
    """A state of the program's text as a value."""
    true = ((thing, at, None) for thing, at in state.true)
    return frozenset([*true, *((thing, at, it) for (thing, at), it in state.count.items())])


def state_of(facts: Held) -> State:
    """The same, as the modules that tell states have it."""
    state = State()
    for thing, at, value in sorted(facts, key=lambda it: (it[0], it[1])):
        if value is None:
            state.true.add((thing, at))
        else:
            state.count[thing, at] = value
        state.listed.append((thing, at, value))
    return state


class Shape:
    """What of a specification and a world says how states are read: sorts of places, and
    constants."""

    def __init__(self, spec: Spec, world: World) -> None:
        self.sizes = dict(world.sizes)
        things = [*spec.relations.items(), *spec.counters.items()]
        self.places: Dict[str, List[str]] = {
            str(it): [str(at) for at in sorts] for it, sorts in things
        }
        self.params = {
            str(name): [str(sort) for _, sort in it.params] for name, it in spec.operations.items()
        }
        self.fixed = {(str(spec.consts[it]), element) for it, element in world.constants}

    def elements(self, facts: Iterable[Fact]) -> Iterator[Element]:
        """The elements at the places of some facts, each as often as it stands there."""
        for thing, at, _ in facts:
            yield from zip(self.places[thing], at)

    def key(self, facts: Held) -> Tuple[Fact, ...]:
        """The same for two states that differ by a renaming of elements that no constant names,
        where there are few such renamings; each renaming is tried that keeps how elements occur."""
        groups = self.alike(facts)
        count = 1
        for group in groups:
            for at in range(2, len(group) + 1):
                count *= at
        named: Dict[Element, int] = {}
        for place, element in enumerate(it for group in groups for it in group):
            named[element] = place
        if count == 1 or count > MOST_RENAMINGS:
            return self.renamed(facts, named)
        return min(self.renamed(facts, it) for it in renamings(groups, named))

    def renamed(self, facts: Held, names: Dict[Element, int]) -> Tuple[Fact, ...]:
        """The facts in order, with elements renamed; one without a name keeps its own, below 0."""
        found = []
        for thing, at, value in facts:
            places = zip(self.places[thing], at)
            found.append((thing, tuple(names.get(it, -1 - it[1]) for it in places), value))
        return tuple(sorted(found, key=lambda it: (it[0], it[1], it[2] or 0)))

    def alike(self, facts: Held) -> List[List[Element]]:
        """The elements that stand in a state and may be renamed, in groups of those that occur
        alike, in an order that depends on how they occur alone."""
        rows = [(it, list(zip(self.places[it[0]], it[1]))) for it in facts]
        colours: Dict[Element, int] = {}
        for _ in range(3):
            seen: Dict[Element, List[str]] = {}
            for (thing, _, value), row in rows:
                beside = [colours.get(it, -1 - it[1] if it in self.fixed else 0) for it in row]
                for place, element in enumerate(row):
                    if element not in self.fixed:
                        seen.setdefault(element, []).append(f"{thing} {place} {value} {beside}")
            whole = {it: f"{it[0]} {colours.get(it, 0)} {sorted(own)}" for it, own in seen.items()}
            order = {it: at for at, it in enumerate(sorted(set(whole.values())))}
            is_done = len(order) in (len(set(colours.values())), len(seen))
            colours = {it: order[text] for it, text in whole.items()}
            if is_done:
                break
        groups: Dict[int, List[Element]] = {}
        for element in sorted(colours, key=lambda it: (colours[it], it)):
            groups.setdefault(colours[element], []).append(element)
        return list(groups.values())


def renamings(
    groups: List[List[Element]], named: Dict[Element, int]
) -> Iterator[Dict[Element, int]]:
    """All names by which the elements of each group are exchanged."""
    if not groups:
        yield {}
        return
    names = [named[it] for it in groups[0]]
    for rest in renamings(groups[1:], named):
        for order in permutations(names):
            yield {**rest, **dict(zip(groups[0], order))}
