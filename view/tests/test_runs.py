"""States that calls lead to: what a search says of calls, states and invariants is what `replay`
says of the same calls on the specification itself."""
import glob
import random
import typing
import unittest
from collections import Counter
from typing import Iterator, List, Tuple

from view import program
from view.harms import called
from view.report import Replay
from view.runs import Effort, Reached, Search
from view.states import Call, Shape, held, state_of, world_of
from view.tests.designs import Design
from view.tree import Spec
from view.inputs import text_of

# The most calls of a state that are replayed.
MOST_CALLS = 6


def searched(spec: Spec, size: int, states: int) -> Search:
    """A search that has reached so many states, or all there are."""
    sizes = {str(it): size for it in spec.sorts}
    world = world_of(spec, sizes, {str(it): at % size for at, it in enumerate(spec.consts)})
    search = Search(spec, world, [1, 0, 2], Effort())
    layer = [search.start]
    while layer and len(search.reached) < states:
        layer = search.expanded(layer[:12])
    return search


def designs() -> Iterator[Tuple[str, Spec]]:
    """Some of the gallery, and random ones."""
    for path in sorted(glob.glob("examples/*/refuted.cise"))[::3]:
        yield path, Spec(text_of(path))
    for seed in range(8):
        yield f"seed {seed}", Spec(Design(random.Random(seed), version=1 + seed % 2).text)


class AgainstReplay(unittest.TestCase):
    """Each answer of a search is one of a replay."""

    counts: typing.Counter[str] = Counter()

    def test_calls_and_states(self) -> None:
        self.counts = Counter()
        for name, spec in designs():
            search = searched(spec, 2, 20)
            for state in search.reached[:10]:
                with self.subTest(name=name, path=state.path()):
                    self.compare(search, state)
            search.close()
        self.assertGreater(min(self.counts["call"], self.counts["precondition"]), 100, self.counts)
        self.assertGreater(self.counts["broken"], 3, self.counts)

    def replayed(self, search: Search, path: List[Call]) -> Replay:
        schedule = search.world.schedule(1, [called(0, it) for it in path])
        return Replay(program.replay(search.spec.text, schedule)[1])

    def compare(self, search: Search, state: Reached) -> None:
        """The state itself, and what is said of calls in it."""
        path = state.path()
        replay = self.replayed(search, path)
        self.assertEqual(held(replay.states[0]), state.facts)
        if state.false:
            self.assertEqual((replay.stop[0], replay.stop[-1]), ("broken", state.false))
            self.counts["broken"] += 1
            return
        self.assertEqual(replay.stop, ["done", str(len(path))])
        for call in random.Random(len(path)).sample(
            state.allowed, min(MOST_CALLS, len(state.allowed))
        ):
            after = state.after.get(call, state.facts)
            if state.is_expanded and after is not None:
                ends = self.replayed(search, [*path, call])
                self.assertIn(ends.stop[0], ("done", "broken"))
                self.assertEqual(held(ends.states[0]), after)
                self.counts["call"] += 1
        for call, why in list(state.refused.items())[:MOST_CALLS]:
            stop = self.replayed(search, [*path, call]).stop
            self.assertEqual(stop, ["refused", str(len(path)), why.cause, str(why.line)])
            self.counts[why.cause] += 1


class Alike(unittest.TestCase):
    """States that differ by a renaming have one key; others have two."""

    def test_keys(self) -> None:
        for seed in range(30):
            chance = random.Random(seed)
            spec = Spec(Design(chance).text)
            world = world_of(
                spec, {str(it): 3 for it in spec.sorts}, {str(it): 0 for it in spec.consts}
            )
            shape = Shape(spec, world)
            facts = []
            for thing, sorts in shape.places.items():
                for _ in range(chance.randrange(3)):
                    at = tuple(chance.randrange(3) for _ in sorts)
                    facts.append(
                        (thing, at, None if thing in spec.relations else chance.randrange(1, 3))
                    )
            counted = {it[:2]: it for it in facts}
            state = frozenset(counted.values())
            free = {
                it: [at for at in range(3) if (it, at) not in shape.fixed] for it in shape.sizes
            }
            names = {}
            for sort, elements in free.items():
                other = elements[:]
                chance.shuffle(other)
                names.update({(sort, a): b for a, b in zip(elements, other)})
            other_state = frozenset(
                (thing, tuple(names.get(it, it[1]) for it in zip(shape.places[thing], at)), value)
                for thing, at, value in state
            )
            with self.subTest(seed=seed, state=state):
                self.assertEqual(shape.key(state), shape.key(other_state))
                if state:
                    self.assertNotEqual(shape.key(state), shape.key(frozenset(list(state)[1:])))
                self.assertEqual(held(state_of(state)), state)


class Tried(unittest.TestCase):
    """Which calls are tried, and how much work is done."""

    def test_each_call_is_tried_but_for_names(self) -> None:
        spec = Spec(text_of("examples/friends/refuted.cise"))
        search = searched(spec, 2, 4)
        for state in search.reached:
            tried = {*state.allowed, *state.refused}
            for name, operation in spec.operations.items():
                for numbers in ((a, b) for a in range(2) for b in range(2)):
                    call = Call(str(name), numbers[: len(operation.params)])
                    if state.false is None:
                        self.assertIn(search.choices.plain(call, state.facts), tried)
        search.close()

    def test_effort(self) -> None:
        effort = Effort(work=500)
        self.assertTrue(effort.left())
        part = effort.part(0.5)
        self.assertEqual(part.work, 250)
        part.runs, part.steps = 2, 200
        self.assertFalse(part.left())
        effort.add(part)
        self.assertEqual(effort.done(), part.done())
        self.assertFalse(Effort(seconds=0.0).left())


if __name__ == "__main__":
    unittest.main()
