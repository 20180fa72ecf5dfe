"""Looks for calls that lead from the initial state to the harm of a refutation: best first over the
states reached, those near the refutation's state first, and of those that are as near the ones that
fewest calls lead to."""
import heapq
from dataclasses import dataclass
from itertools import count
from typing import Callable, Dict, Iterator, List, Optional, Sequence, Tuple

from view.choices import Pattern, Tried
from view.goals import Goal
from view.harms import BROKEN, REFUSED, Judge, Run
from view.order import Condition, conditions
from view.runs import Effort, Reached, Search
from view.states import Call, Held

# How many states are looked at together, and the most pairs of calls that are tried in each: first
# those that agree in their arguments as the refutation's calls do, later others.
TOGETHER, ALIKE, OTHERS = 6, 8, 48
# The most candidates that are replayed once a run is there, for one that does worse harm.
MOST_MORE = 6


@dataclass
class Candidate:
    """Calls that, behind those that lead to a state, seem to do the harm."""

    state: Reached
    calls: List[Call]


class Seeker:
    """Looks for one goal in a search, which may know states already."""

    def __init__(self, goal: Goal, search: Search, judge: Judge) -> None:
        self.goal, self.search, self.judge = goal, search, judge
        self.tried = self.pushed = 0
        fixed = search.shape.fixed
        self.pattern = Pattern(search.choices, goal.calls, fixed)
        self.ordered = (
            conditions(goal.spec, *(it.operation for it in goal.calls))
            if len(goal.calls) == 2
            else []
        )

    def find(self, effort: Effort, only_broken: bool = False) -> Optional[Run]:
        """A run to the harm, or None where the effort ended before; where only that is asked for,
        one that breaks an invariant."""
        queue: List[Tuple[int, int, int, Reached]] = []
        for it in self.search.reached:
            self.push(queue, it)
        looked: List[Reached] = []
        width = 1
        while queue and effort.left():
            here = [heapq.heappop(queue)[-1] for _ in range(min(width, len(queue)))]
            width = TOGETHER
            run = self.best(self.candidates(here, ALIKE))
            run = self.worse(run, here) if run else None
            if run and (run.harm == BROKEN or not only_broken):
                return run
            for it in self.search.expanded(here):
                self.push(queue, it)
            looked += here
            run = self.best(self.broken_by(here)) if self.goal.kind == "safety" else None
            if run:
                return run
        return (
            None if self.goal.kind == "safety" or only_broken else self.find_others(looked, effort)
        )

    def worse(self, run: Run, states: Sequence[Reached]) -> Run:
        """A run of worse harm in the same states where one is found soon, else the same."""
        other = None if run.harm == BROKEN else self.best(self.candidates(states, OTHERS))
        return other if other and other.rank() < run.rank() else run

    def find_others(self, looked: List[Reached], effort: Effort) -> Optional[Run]:
        """Looks once more at the states, with pairs of calls that agree otherwise."""
        more = effort.part(1.0) if effort.left() else Effort(work=OTHERS * 40)
        looked.sort(key=lambda it: (self.goal.distance(it.facts), it.depth))
        for at in range(0, len(looked), TOGETHER):
            before = self.search.effort.done()
            run = self.best(self.candidates(looked[at : at + TOGETHER], OTHERS))
            more.steps += self.search.effort.done() - before
            if run or not more.left():
                return run
        return None

    def push(self, queue: List[Tuple[int, int, int, Reached]], it: Reached) -> None:
        """Puts a state into the queue; one with a false invariant isn't gone on from."""
        if it.false is None:
            apart = self.goal.distance(it.facts)
            self.pushed += 1
            heapq.heappush(queue, (apart + it.depth, apart, self.pushed, it))

    def best(self, candidates: Iterator[Candidate]) -> Optional[Run]:
        """The worst harm that candidates do, by the program's replay."""
        found: Optional[Run] = None
        more = MOST_MORE
        for it in candidates:
            run = self.run_of(it)
            if run and (found is None or run.rank() < found.rank()):
                found = run
            if found and (found.harm == BROKEN or more == 0):
                break
            more -= found is not None
        return found

    def run_of(self, it: Candidate) -> Optional[Run]:
        """The run of a candidate, where the program's replay confirms it."""
        path = it.state.path()
        if len(it.calls) == 1:
            run = self.judge.alone([*path, *it.calls])
            return run if run and len(run.steps()) == len(path) + 1 else None
        run = self.judge.pair(path, *it.calls)
        if run is None and self.goal.kind == "stable":
            run = self.judge.gone(path, *it.calls)
        return run

    def broken_by(self, states: Sequence[Reached]) -> Iterator[Candidate]:
        """Calls of the goal's operation by which its invariant becomes false."""
        operation, invariant = self.goal.block.names
        for it in states:
            for call, after in it.next.items():
                if call.operation == operation and after.false == invariant:
                    yield Candidate(it, [call])

    def candidates(self, states: Sequence[Reached], most: int) -> Iterator[Candidate]:
        """Pairs of calls that may be made at once and seem to do the harm."""
        if self.goal.kind not in ("commute", "stable"):
            return
        found: List[Tuple[Reached, Call, Call]] = []
        for it in states:
            pairs = self.alike(it, most) if most == ALIKE else self.others(it, most)
            found += [(it, a, b) for a, b in pairs if not self.is_ordered(a, b)]
        may = self.search.may_run([(it, call) for it, a, b in found for call in (a, b)])
        found = [one for at, one in enumerate(found) if may[2 * at] and may[2 * at + 1]]
        self.tried += len(found)
        if self.goal.kind == "stable":
            yield from self.lost(found)
        else:
            yield from self.apart(found)

    def alike(self, state: Reached, most: int) -> List[Tuple[Call, Call]]:
        """Pairs that agree as the refutation's calls do."""
        return [(it[0], it[1]) for it in self.pattern.like(state.facts, most)]

    def others(self, state: Reached, most: int) -> List[Tuple[Call, Call]]:
        """Pairs of allowed calls of the two operations, as many of each first call."""
        f, g = (it.operation for it in self.goal.calls)
        choices = self.search.choices
        found: List[List[Tuple[Call, Call]]] = []
        for a in (it for it in state.allowed if it.operation == f):
            named = choices.named(state.facts, a)
            tried = Tried(choices, g, named, choices.numbers_in(state.facts))
            found.append([(a, b) for b in tried.calls(range(min(tried.count, 4 * most)))])
        rows = [
            [it[at] for it in found if at < len(it)]
            for at in range(max(map(len, found), default=0))
        ]
        return [it for row in rows for it in row][: most * 4]

    def is_ordered(self, a: Call, b: Call) -> bool:
        """Whether two calls are ordered by tokens, as read off the text."""
        return any(self.orders(it, a, b) for it in self.ordered)

    def orders(self, condition: Condition, a: Call, b: Call) -> bool:
        """Whether two calls meet a condition on which their operations are ordered."""
        spec, constants = self.goal.spec, dict(self.search.world.constants)
        params = {
            side: {
                str(it): value
                for (it, _), value in zip(spec.operations[call.operation].params, call.arguments)
            }
            for side, call in (("f", a), ("g", b))
        }

        def value(argument: Tuple[Optional[str], str]) -> int:
            side, name = argument
            return constants[str(name)] if side is None else params[side][str(name)]

        return all(value(x) == value(y) for x, y in condition.equalities)

    def lost(self, found: List[Tuple[Reached, Call, Call]]) -> Iterator[Candidate]:
        """Those of some pairs whose first call is refused behind the second."""
        after = self.search.after([(it, b) for it, _, b in found])
        asked: Dict[Tuple[Reached, Call], Tuple[Held, List[Call]]] = {}
        for (it, a, b), facts in zip(found, after):
            if facts is not None:
                asked.setdefault((it, b), (facts, []))[1].append(a)
        answers = dict(zip(asked, self.search.oracle.refusals(list(asked.values()))))
        line = int(self.goal.block.names[1])
        lost: List[Tuple[bool, Candidate]] = []
        for it, a, b in found:
            why = answers.get((it, b), {}).get(a)
            if why and why.cause == "precondition":
                lost.append((why.line != line, Candidate(it, [a, b])))
        yield from (it for _, it in sorted(lost, key=lambda one: one[0]))

    def apart(self, found: List[Tuple[Reached, Call, Call]]) -> Iterator[Candidate]:
        """Those of some pairs that leave different states in the two orders."""
        first = self.search.after([(it, a) for it, a, _ in found])
        second = self.search.after([(it, b) for it, _, b in found])
        made = [(x, b) for x, (_, _, b) in zip(first, found) if x is not None]
        made += [(y, a) for y, (_, a, _) in zip(second, found) if y is not None]
        made = list(dict.fromkeys(made))
        ends = dict(zip(made, self.search.oracle.after(made)))
        for x, y, (it, a, b) in zip(first, second, found):
            if x is not None and y is not None:
                one, other = ends[x, b], ends[y, a]
                if one is not None and other is not None and one != other:
                    yield Candidate(it, [a, b])


def first_state(
    search: Search, goal: Goal, effort: Effort, wanted: Callable[[Reached], bool]
) -> Optional[Reached]:
    """The first state that is wanted, best first as for a goal; None where the effort ended before
    or no state is left."""
    queue: List[Tuple[int, int, Reached]] = []
    number = count()
    for it in search.reached:
        heapq.heappush(queue, (goal.distance(it.facts) + it.depth, next(number), it))
    while queue and effort.left():
        here = [heapq.heappop(queue)[-1] for _ in range(min(TOGETHER, len(queue)))]
        for it in here:
            if it.false is None and wanted(it):
                return it
        for it in search.expanded(here):
            heapq.heappush(queue, (goal.distance(it.facts) + it.depth, next(number), it))
    return None
