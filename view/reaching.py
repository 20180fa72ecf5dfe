"""Looks for runs that lead from the initial state to the harm of each refutation.

`Reach` takes a specification and its refuted blocks, and gives for each a `Found`: a run that the
program has replayed to its harm, or how far was looked. First in a world of the refutation's sizes,
then with one element more of each sort. What isn't found was tried and no more: it isn't claimed
that it can't come up."""
from dataclasses import dataclass, field
from itertools import zip_longest
from typing import Dict, List, Optional, Sequence, Tuple

from view import program
from view.goals import Goal
from view.harms import BROKEN, Judge, Run
from view.report import Block
from view.runs import Effort, Search
from view.seeking import Seeker
from view.shrinking import shortened
from view.states import World
from view.tree import Spec

# The most elements of a sort in a schedule.
MOST_ELEMENTS = 64
# The work of a short search for all refutations of a specification, in steps.
SHORT = 24_000
# The share of an obligation's effort for the refutation's own sizes, and for a worse harm with
# more.
OWN_SHARE, WORSE_SHARE = 0.5, 0.2


@dataclass
class Found:
    """What was found for a refutation.

    run      the run, or None
    world    the last world that was looked at
    states   how many states were looked at there, and
    calls    the most calls that lead to one of them
    never    what the refutation's state holds and none of these states does: relations and counters
    spent    whether the effort ended, so that some states were left
    is_large whether its sizes are beyond those of a schedule
    is_stopped whether the program took no specification that was made for it
    broken_start  the invariant that is false at the start, where every run ends; else None
    """

    block: Block
    run: Optional[Run] = None
    world: Optional[World] = None
    states: int = 0
    calls: int = 0
    never: List[str] = field(default_factory=list)
    spent: bool = False
    broken_start: Optional[str] = None
    is_large: bool = False
    is_stopped: bool = False


class Reach:
    """Searches of one specification, which share what they know of a world."""

    def __init__(self, spec: Spec, blocks: Sequence[Block]) -> None:
        self.spec, self.goals = spec, [Goal(spec, it) for it in blocks]
        self.searches: Dict[Tuple[World, Tuple[str, ...]], Search] = {}

    def __enter__(self) -> "Reach":
        return self

    def __exit__(self, *_: object) -> None:
        for it in self.searches.values():
            it.close()

    def all(self, effort: Effort) -> List[Found]:
        """What is found for each refutation. Each may take the same share of what is left, and
        those that weren't found so take what the others didn't need."""
        count = len(self.goals)
        found = [self.shared(it, effort, count - at) for at, it in enumerate(self.goals)]
        left = [at for at, it in enumerate(found) if it.run is None and it.spent]
        for place, at in enumerate(left):
            found[at] = self.shared(self.goals[at], effort, len(left) - place)
        return found

    def shared(self, goal: Goal, effort: Effort, among: int) -> Found:
        """What is found for one refutation, with its share of an effort among so many."""
        if not effort.left():
            return Found(goal.block, spent=True)
        part = effort.part(1 / among)
        try:
            found = self.one(goal, part)
        except program.Stopped:
            # (as where what is made to ask is longer than a specification may be)
            found = Found(goal.block, is_stopped=True)
        effort.add(part)
        return found

    def one(self, goal: Goal, effort: Effort) -> Found:
        """What is found for one refutation."""
        if goal.kind == "init":
            run = Judge(self.spec, goal.world()).alone([])
            return Found(goal.block, run, goal.world())
        if max(size for _, size in goal.world(1).sizes or [("", 1)]) > MOST_ELEMENTS:
            return Found(goal.block, is_large=True)
        found = Found(goal.block)
        for more in (0, 1):
            part = effort.part(OWN_SHARE if more == 0 else WORSE_SHARE if found.run else 1.0)
            self.look(goal, more, part, found)
            effort.add(part)
            if (
                found.broken_start
                or found.run
                and (found.run.harm == BROKEN or not goal.spec.invariants)
            ):
                break
        return found

    def look(self, goal: Goal, more: int, effort: Effort, found: Found) -> None:
        """Looks in one world; a run that is found counts where it does worse harm than one
        before."""
        search = self.search(goal, more, effort)
        found.broken_start = search.start.false
        judge = Judge(self.spec, search.world)
        run = Seeker(goal, search, judge).find(effort, only_broken=found.run is not None)
        if run and (found.run is None or run.harm == BROKEN):
            found.run = shortened(run, judge)
        if found.run is None or more == 0:
            found.world, found.states = search.world, len(search.reached)
            found.calls = max(it.depth for it in search.reached)
            found.spent = not effort.left()
            seen = {thing for it in search.reached for thing, _, _ in it.facts}
            found.never = sorted({it for it, _, _ in goal.facts} - seen)

    def search(self, goal: Goal, more: int, effort: Effort) -> Search:
        """The search of a goal's world and operations, with what it knows already."""
        world, operations = goal.world(more), tuple(goal.operations)
        if (world, operations) not in self.searches:
            alike = [
                it
                for it in self.goals
                if (it.world(more), tuple(it.operations)) == (world, operations)
            ]
            rows = zip_longest(*(one.numbers() for one in alike))
            numbers = [it for row in rows for it in row if it is not None]
            calls = [it for one in alike for it in one.calls]
            self.searches[world, operations] = Search(
                self.spec, world, numbers, effort, operations, calls
            )
        search = self.searches[world, operations]
        search.effort = search.oracle.effort = effort
        return search


def in_short(spec: Spec, blocks: Sequence[Block]) -> Dict[Block, Found]:
    """What a short search finds for some refutations: of the same work on any machine, and within
    about a second of an ordinary one for all of them."""
    effort = Effort(work=SHORT)
    with Reach(spec, blocks) as reach:
        return {it.block: it for it in reach.all(effort)}
