"""What cases have to cover, and in which states and by which calls it can be covered.

States are those that `view/runs.py` reaches from the start; whatever is said of a call there is
what the program answers."""
from dataclasses import dataclass
from heapq import heapify, heappop, heappush
from itertools import combinations
from random import Random
from typing import Dict, FrozenSet, Iterator, List, Optional, Set, Tuple

from view.runs import Effort, Reached, Refusal, Search
from view.states import Call, Held, World, world_of
from view.testing.marks import Mark, Question, Questions, marks_of
from view.tree import Spec

# The lines that a refusal speaks of, by its cause.
LINES = {"precondition": "requires", "observation": "observes"}
# So many states are reached, so many gone on from at once; so many calls of an operation are looked
# at in one of them, and in all.
MOST_STATES, MOST_EXPANDED, MOST_LOOKED_AT, MOST_OF_ONE = 160, 4, 8, 200
# Of more operations than these each gets a lesser share of both.
MANY = 8
LEAST_ELEMENTS, MOST_ELEMENTS = 3, 6


@dataclass(frozen=True)
class Chance:
    """A call in a state that was reached, whether it may be made there, and what it covers."""

    state: Reached
    call: Call
    is_allowed: bool
    covers: Tuple[str, ...]


def world_for(spec: Spec) -> World:
    """A world with room for calls whose elements all differ, and for constants that do."""
    sizes: Dict[str, int] = {}
    for sort in map(str, spec.sorts):
        params = [[str(it) for _, it in operation.params] for operation in spec.operations.values()]
        most = max([its.count(sort) for its in params] + [LEAST_ELEMENTS])
        own = sum(str(it) == sort for it in spec.consts.values())
        sizes[sort] = min(MOST_ELEMENTS, most + own)
    constants, used = {}, {}  # type: Dict[str, int], Dict[str, int]
    for name, sort_ in spec.consts.items():
        constants[str(name)] = used.get(str(sort_), 0)
        used[str(sort_)] = constants[str(name)] + 1
    return world_of(spec, sizes, constants)


def numbers_of(spec: Spec) -> List[int]:
    """The numbers that are tried: small ones, and those of the text with their neighbours."""
    own = sorted({int(it) for it in spec.words[2:] if it.isdigit()})
    near = [near for it in own for near in (it, it + 1, it - 1)]
    return list(dict.fromkeys([1, 2, 0, 3, -1, *near]))


def explored(spec: Spec, effort: Effort) -> Search:
    """The states that are reached. Those in which another set of operations may run go first."""
    search = Search(spec, world_for(spec), numbers_of(spec), effort)
    search.choices.most_of_one = share(spec, search.choices.most_of_one, 1)
    expanded: Dict[FrozenSet[str], int] = {}
    while effort.left() and len(search.reached) < share(spec, MOST_STATES):
        open_ = [it for it in search.reached if not it.is_expanded and it.false is None]
        if not open_:
            break
        batch = sorted(open_, key=lambda it: (expanded.get(running(it), 0), it.depth))[
            :MOST_EXPANDED
        ]
        for it in batch:
            expanded[running(it)] = expanded.get(running(it), 0) + 1
        search.expanded(batch)
    return search


def share(spec: Spec, most: int, many: int = MANY) -> int:
    """So many of each operation or in all, where there are more than so many operations."""
    return most * many // max(many, len(spec.operations))


def running(state: Reached) -> FrozenSet[str]:
    """The operations that may run in a state."""
    return frozenset(it.operation for it in state.allowed)


def chances(spec: Spec, search: Search) -> List[Chance]:
    """What each call that was looked at covers, in the order of the operations and the states."""
    made = [one for it in map(str, spec.operations) for one in some_calls(search, it)]
    allowed = [(state, call) for state, call in made if call not in state.refused]
    after = dict(zip(allowed, search.after(allowed)))
    marks, alone = true_marks(spec, search, made), alone_refused(spec, search, made)
    found: List[Chance] = []
    for (state, call), own in zip(made, marks):
        covers = covered(spec, state, call, own, after.get((state, call)), alone)
        found.append(Chance(state, call, call not in state.refused, tuple(covers)))
    return found


def true_marks(spec: Spec, search: Search, made: List[Tuple[Reached, Call]]) -> List[List[Mark]]:
    """The marks that are true of each call in its state."""
    marks = marks_of(spec)
    asked = [Question(it.operation, (f"requires {it.formula}",)) for it in marks]
    questions = Questions(spec, search.oracle, asked)
    try:
        true = questions.true_of([(state.facts, call) for state, call in made])
        return [[marks[it] for it in own] for own in true]
    finally:
        questions.close()


def covered(
    spec: Spec,
    state: Reached,
    call: Call,
    marks: List[Mark],
    after: Optional[Held],
    alone: Set[Tuple[int, Call]],
) -> Iterator[str]:
    """What a call in a state covers."""
    why = state.refused.get(call)
    if why is None:
        yield f"{call.operation} runs"
        yield from shapes(spec, call)
        yield from changed(call.operation, state.facts, after or state.facts)
        yield from (it.words for it in marks)
        return
    yield from (it.words for it in marks if not it.is_of_guard)
    if (id(state), call) in alone:
        yield f"{call.operation} is refused by its {LINES[why.cause]} line {why.line} alone"


def changed(operation: str, before: Held, after: Held) -> Iterator[str]:
    """What a call changes of each thing."""
    yield from sorted(
        {
            f"{operation} makes a fact of {thing} true"
            for thing, _, it in after - before
            if it is None
        }
    )
    yield from sorted(
        {
            f"{operation} makes a fact of {thing} false"
            for thing, _, it in before - after
            if it is None
        }
    )
    values = {(thing, at) for thing, at, it in before ^ after if it is not None}
    yield from sorted({f"{operation} changes {thing}" for thing, _ in values})


def alone_refused(
    spec: Spec, search: Search, made: List[Tuple[Reached, Call]]
) -> Set[Tuple[int, Call]]:
    """The calls in states that one line alone refuses: the program says that the others hold."""
    asked: Dict[Tuple[str, Refusal], Question] = {}
    for name, operation in spec.operations.items():
        for cause, head in LINES.items():
            for number, line in enumerate(operation.of(head), 1):
                rest = tuple(it.text for it in operation.of(*LINES.values()) if it is not line)
                asked[str(name), Refusal(cause, number)] = Question(str(name), rest)
    own = [(state, call) for state, call in made if call in state.refused]
    places = {it: at for at, it in enumerate(asked)}
    questions = Questions(spec, search.oracle, list(asked.values()))
    try:
        true = questions.true_of([(state.facts, call) for state, call in own])
    finally:
        questions.close()
    return {
        (id(state), call)
        for (state, call), its in zip(own, true)
        if places[call.operation, state.refused[call]] in its
    }


def some_calls(search: Search, operation: str) -> List[Tuple[Reached, Call]]:
    """Calls of an operation in states, those that may be made and those that are refused there."""
    allowed, refused = [], []  # type: List[Tuple[Reached, Call]], List[Tuple[Reached, Call]]
    random = Random(len(operation))
    for state in search.reached:
        runs, stays = state.own.get(operation, []), state.own_refused.get(operation, [])
        allowed += [(state, it) for it in random.sample(runs, min(len(runs), MOST_LOOKED_AT))]
        refused += [(state, it) for it in random.sample(stays, min(len(stays), MOST_LOOKED_AT))]
    most = share(search.spec, MOST_OF_ONE)
    return thinned(allowed, random, most) + thinned(refused, random, most)


def thinned(
    made: List[Tuple[Reached, Call]], random: Random, most: int
) -> List[Tuple[Reached, Call]]:
    """At most so many of some calls in states: the nearest ones, and others by chance."""
    if len(made) <= most:
        return made
    half = most // 2
    return made[:half] + random.sample(made[half:], most - half)


def shapes(spec: Spec, call: Call) -> Iterator[str]:
    """How the arguments of a call agree: parameters that could be taken for each other differ."""
    params = spec.operations[call.operation].params
    for (at, (one, sort)), (place, (other, its)) in combinations(enumerate(params), 2):
        if sort == its:
            is_same = call.arguments[at] == call.arguments[place]
            yield f"{call.operation}: {one} and {other} {'agree' if is_same else 'differ'}"


def wanted(spec: Spec) -> List[str]:
    """All that cases of one call have to cover."""
    found: List[str] = []
    for name, operation in spec.operations.items():
        found.append(f"{name} runs")
        for head in LINES.values():
            count = len(operation.of(head))
            found += [
                f"{name} is refused by its {head} line {it} alone" for it in range(1, count + 1)
            ]
        for line in operation.of("insert", "remove"):
            truth = "true" if line.head == "insert" else "false"
            found.append(f"{name} makes a fact of {line.body[0]} {truth}")
        found += [f"{name} changes {line.body[0]}" for line in operation.of("add", "set")]
        for (one, sort), (other, its) in combinations(operation.params, 2):
            if sort == its:
                found.append(f"{name}: {one} and {other} differ")
    return list(dict.fromkeys(found + [it.words for it in marks_of(spec)]))


def picked(found: List[Chance], goals: List[str]) -> Tuple[List[Chance], Set[str]]:
    """Few chances that cover what can be covered: each time the one that covers most that is left,
    and of these the nearest. What one covers only gets less, so the others needn't be counted."""
    left, chosen = set(goals), []  # type: Set[str], List[Chance]

    def gain(it: Chance) -> int:
        return len(left.intersection(it.covers))

    heap = [(-gain(it), it.state.depth, at) for at, it in enumerate(found)]
    heapify(heap)
    while heap and left:
        worth, depth, at = heappop(heap)
        now = gain(found[at])
        if now and now == -worth:
            chosen.append(found[at])
            left -= set(found[at].covers)
        elif now:
            heappush(heap, (-now, depth, at))
    return chosen, left
