"""`./cise tests SPEC`: cases for an implementation, whose states and answers are the program's."""
from itertools import islice
from random import Random
from typing import Dict, Iterator, List, Optional, Set, Tuple

from view import program
from view.output import say
from view.runs import Effort, Reached, Search
from view.states import Call
from view.testing.covering import Chance, chances, explored, picked, wanted
from view.testing.expected import NOTHING, Course, Judge
from view.testing.form import OK, WAITS, Case, Step, Tests, written
from view.testing.ordered import Ordering
from view.tree import Spec
from view.words import text_of

GOOD, BAD_WORDS, OPEN = 0, 2, 5
MOST_STEPS, LONGEST, MOST_WORK = 500, 40, 60_000
# So many replays are made until no further pairs are looked for.
MOST_REPLAYS = 1200
# So many states are tried for calls at once, and there so many calls of an operation.
MOST_TRIED, MOST_CALLS = 24, 3
# A case of many calls at once has at most so many steps for each pair that it covers.
STEPS_A_PAIR = 6
# So many pairs of two operations are looked at in a state for one that is ordered.
MOST_LOOKED_AT = 64
# The fewest steps of a case of calls at two replicas, without those that lead to its state.
SHORTEST = 4
NO_ROOM = "there is no room for more steps"


def answer(path: str, seed: Optional[str] = None, most: Optional[str] = None) -> Tuple[int, str]:
    """The file of cases. The status is 0, and 5 where something isn't covered."""
    numbers = [whole(it, other) for it, other in ((seed, 1), (most, MOST_STEPS))]
    if None in numbers:
        say("cise: --seed and --most take a whole number from 0 on\n")
        return BAD_WORDS, ""
    status, text = program.run("spell", path)
    if status:
        raise program.Stopped(["spell", path], status, text)
    tests = made(text_of(path), numbers[0] or 0, numbers[1] or 0)
    for it in tests.not_covered:
        say(f"tests: not covered: {it['what']}: {it['why']}\n")
    steps = sum(len(it.steps) for it in tests.cases)
    say(f"tests: {len(tests.cases)} cases, {steps} steps, {len(tests.not_covered)} not covered\n")
    return (OPEN if tests.not_covered else GOOD), written(tests)


def whole(word: Optional[str], other: int) -> Optional[int]:
    """The number of a word, `other` without one, and None where it is none."""
    if word is None:
        return other
    return int(word) if word.isascii() and word.isdigit() and len(word) < 10 else None


def made(text: str, seed: int, most: int) -> Tests:
    """The cases of a specification: of one call each, then of two at once."""
    maker = Maker(text, seed, most)
    try:
        maker.single_calls()
        maker.conflicts()
        maker.calls_at_once()
        return maker.tests()
    finally:
        maker.close()


class Maker:
    """Makes cases. `left` is how many steps there is still room for."""

    def __init__(self, text: str, seed: int, most: int) -> None:
        self.spec, self.text, self.left, self.random = Spec(text), text, most, Random(seed)
        self.judge = Judge(text)
        self.search: Search = explored(self.spec, Effort(work=MOST_WORK))
        self.ordering = Ordering(self.spec, self.search.world)
        # Of states where calls at once were tried the course that leads there.
        self.both: Dict[int, Course] = {}
        self.cases: List[Case] = []
        self.not_covered: List[Dict[str, str]] = []

    def close(self) -> None:
        """Removes what was written for the program."""
        self.search.close()
        self.judge.close()

    def tests(self) -> Tests:
        """All that was made."""
        initially = {str(name): value for name, value in self.spec.initially.items()}
        title = self.spec.about() or "a specification"
        return Tests(title, self.text, initially, self.cases, self.not_covered)

    def single_calls(self) -> None:
        """Cases at one replica, which another follows: each call runs, is refused, and acts in each
        way."""
        found = chances(self.spec, self.search)
        goals = wanted(self.spec)
        chosen, lost = picked(found, goals)
        groups: Dict[int, List[Chance]] = {}
        for it in chosen:
            groups.setdefault(id(it.state), []).append(it)
        for group in groups.values():
            self.of_state(group)
        known = {cover for it in self.cases for cover in it.covers}
        for goal in goals:
            if goal not in known:
                why = "no call that was tried does it" if goal in lost else NO_ROOM
                self.not_covered.append({"what": goal, "why": why})

    def of_state(self, group: List[Chance]) -> None:
        """Cases in one state: calls that are refused there, then one that runs."""
        refused = [it for it in group if not it.is_allowed]
        allowed = [it for it in group if it.is_allowed]
        for number, it in enumerate(allowed or refused[:1]):
            own = [*(refused if number == 0 else []), *([it] if it.is_allowed else [])]
            calls = [each.call for each in own]
            covers = [cover for each in own for cover in each.covers]
            self.followed(group[0].state.path(), calls, covers)

    def followed(self, path: List[Call], calls: List[Call], covers: List[str]) -> None:
        """A case whose calls are made at one replica, and taken by another in their order."""
        course = self.course(f"{calls[-1].operation} at one replica", covers, 2)
        course.judged([self.step(at, 0, call) for at, call in enumerate([*path, *calls])])
        course.judged([taking(1, name) for name in course.events])
        self.keep(course, list(dict.fromkeys(covers)))

    def keep(self, course: Course, covers: List[str]) -> bool:
        """Keeps a case where there is room for it, and says whether there was."""
        if not course.steps or len(course.steps) > self.left:
            return False
        self.left -= len(course.steps)
        it = course.case
        case = Case(it.name, covers, it.replicas, it.elements, it.constants, course.steps)
        self.cases.append(case)
        return True

    def conflicts(self) -> None:
        """Cases in which a call waits for one that conflicts with it, and is made again behind
        that."""
        for f in map(str, self.spec.operations):
            for g in map(str, self.spec.operations):
                if self.ordering.conditions(f, g) and self.goes_on():
                    why = self.waiting(f, g)
                    if why:
                        self.not_covered.append({"what": f"{g} waits for {f}", "why": why})

    def goes_on(self) -> bool:
        """Whether there is room for more steps, and more is looked for."""
        return self.left >= SHORTEST and self.judge.replays < MOST_REPLAYS

    def why_ended(self) -> str:
        """Why no more cases are made."""
        return NO_ROOM if self.left < SHORTEST else "the search ended"

    def waiting(self, f: str, g: str) -> Optional[str]:
        """Makes such a case, or says why there is none."""
        for state in self.search.reached:
            for first, second in self.some_ordered(state, f, g):
                course, before = self.at_both(state)
                at, own = course.free(), len(course.steps)
                course.judged([self.step(at, 0, first), self.step(at + 1, 1, second)], (OK, WAITS))
                if [it.answer for it in course.steps[own:]] != [OK, WAITS]:
                    continue
                name = list(course.events)[before]
                course.judged([taking(1, name), self.step(at + 2, 1, second)])
                return None if self.keep(course, [f"{g} waits for {f}"]) else NO_ROOM
        return "in no state that was tried do two of their calls conflict"

    def some_ordered(self, state: Reached, f: str, g: str) -> List[Tuple[Call, Call]]:
        """Some pairs of calls of two operations that may run in a state and are ordered."""
        ones, others = state.own.get(f, []), state.own.get(g, [])
        count = len(ones) * len(others)
        places = self.random.sample(range(count), min(count, MOST_LOOKED_AT))
        pairs = ((ones[it // len(others)], others[it % len(others)]) for it in places)
        return list(islice((it for it in pairs if self.ordering.holds(*it)), MOST_CALLS))

    def calls_at_once(self) -> None:
        """Cases in which two replicas call at once and then take each other's calls: each pair of
        operations at both replicas, and each conflict."""
        names = [str(it) for it in self.spec.operations]
        pairs = {(f, g) for f in names for g in names}
        left, tried = set(pairs), set()  # type: Set[Tuple[str, str]], Set[int]
        while left and self.goes_on() and len(tried) < MOST_TRIED:
            state = self.richest(left, tried)
            if state is None:
                break
            tried.add(id(state))
            self.at_once(state, left)
        for f, g in sorted(left):
            if (f, g) in left and self.goes_on():
                self.pair_alone(f, g, left)
        for f, g in sorted(left):
            if f <= g:
                why = "in no state that was tried may both be called at once"
                if not self.goes_on():
                    why = self.why_ended()
                self.not_covered.append({"what": f"{f} and {g} at once", "why": why})

    def pair_alone(self, f: str, g: str, left: Set[Tuple[str, str]]) -> None:
        """A case in which two operations are called at once, and no others are."""
        states = (it for it in self.search.reached if f in it.own and g in it.own)
        some = islice(states, MOST_TRIED)
        tried = ((it, pair) for it in some for pair in self.some_apart(it, f, g))
        for state, (first, second) in islice(tried, MOST_CALLS):
            course, before = self.at_both(state)
            at, own = course.free(), len(course.steps)
            course.judged([self.step(at, 0, first), self.step(at + 1, 1, second)], (OK,))
            if len(course.steps) == own + 2:
                self.exchange(course, before)
                if self.keep(course, [f"{f} and {g} at once"]):
                    left.discard((f, g))
                return

    def some_apart(self, state: Reached, f: str, g: str) -> List[Tuple[Call, Call]]:
        """Some pairs of calls of two operations that may run in a state and aren't ordered."""
        firsts, seconds = (self.variants(state, it) for it in (f, g))
        pairs = [(a, b) for a in firsts for b in seconds if not self.ordering.holds(a, b)]
        calls = list(dict.fromkeys(it for pair in pairs for it in pair))
        may = dict(zip(calls, self.search.may_run([(state, it) for it in calls])))
        return [(a, b) for a, b in pairs if may[a] and may[b]][:MOST_CALLS]

    def variants(self, state: Reached, operation: str) -> List[Call]:
        """Calls of an operation that may run in a state, and the same on the next elements."""
        own = state.own[operation]
        some = self.random.sample(own, min(len(own), 2 * MOST_CALLS))
        return [*some, *map(self.shifted, some)]

    def shifted(self, call: Call) -> Call:
        """The call on the next element of each sort, which may be like the one that was tried."""
        sizes = dict(self.search.world.sizes)
        sorts = [str(it) for _, it in self.spec.operations[call.operation].params]
        pairs = zip(sorts, call.arguments)
        return Call(
            call.operation, tuple(at if it == "int" else (at + 1) % sizes[it] for it, at in pairs)
        )

    def at_both(self, state: Reached) -> Tuple[Course, int]:
        """A new case that has led both replicas to a state, and how many calls that took."""
        if id(state) not in self.both:
            course, path = self.course("", [], 2), []
            for at, call in enumerate(state.path()):
                path += [self.step(at, 0, call), taking(1, f"c{at}")]
            course.judged(path)
            self.both[id(state)] = course
        course = self.both[id(state)]
        new = course.behind(self.course("calls at once", [], 2).case)
        return new, len(new.events)

    def richest(self, left: Set[Tuple[str, str]], tried: Set[int]) -> Optional[Reached]:
        """The state, not yet tried, in which most of the pairs that are left may be called."""
        best, most = None, 0  # type: Optional[Reached], int
        for state in self.search.reached:
            if id(state) in tried or len(state.path()) * 2 > self.left:
                continue
            count = sum(f in state.own and g in state.own for f, g in left)
            if count > most:
                best, most = state, count
        return best

    def at_once(self, state: Reached, left: Set[Tuple[str, str]]) -> None:
        """A case in a state: calls at one replica, calls at the other, and then each takes all."""
        course, before = self.at_both(state)
        done: List[Set[str]] = [set(), set()]
        waits: List[str] = []
        rest = list(self.chosen(state, left))
        while rest:
            room = LONGEST - len(course.steps) - len(course.events) + before
            now, rest = first_of_each(rest, done, -(-room // 2))
            at = course.free()
            steps = [self.step(at + it, *one) for it, one in enumerate(now)]
            for found in course.judged(steps, (OK, WAITS)):
                if found is not None and found.answer == OK:
                    done[found.replica].add(str(found.operation))
                elif found is not None and found.answer == WAITS:
                    waits.append(f"{found.operation} waits: {found.why}")
        self.exchange(course, before)
        covered = {(f, g) for f in done[0] for g in done[1]}
        gain = left & covered
        if len(gain) * STEPS_A_PAIR >= len(course.steps):
            covers = [f"{f} and {g} at once" for f, g in sorted(gain)]
            if self.keep(course, covers + waits):
                left -= covered

    def chosen(self, state: Reached, left: Set[Tuple[str, str]]) -> Iterator[Tuple[int, Call]]:
        """Calls in a state, at both replicas in turn, those of operations that pairs lack first."""
        own = state.own
        lacking = {it: sum(it in pair for pair in left) for it in own}
        for name in sorted(own, key=lambda it: -lacking[it]):
            if lacking[name]:
                some = self.random.sample(own[name], min(len(own[name]), MOST_CALLS))
                yield from ((0, it) for it in some)
                yield from ((1, it) for it in [*map(self.shifted, some), *reversed(some)])

    def exchange(self, course: Course, before: int) -> None:
        """Each replica takes what the other called, in the order in which it was called there."""
        made_by = {it.id: it.replica for it in course.steps if it.is_call() and it.answer == OK}
        new = list(course.events)[before:]
        course.judged([taking(1 - made_by[name], name) for name in new])

    def course(self, name: str, covers: List[str], replicas: int) -> Course:
        """An empty case in the world of the search."""
        world = self.search.world
        elements = {sort: [f"{sort}#{at}" for at in range(size)] for sort, size in world.sizes}
        constants = {it: f"{self.spec.consts[it]}#{at}" for it, at in world.constants}
        case = Case(f"{len(self.cases) + 1}. {name}", covers, replicas, elements, constants, [])
        return Course(self.judge, case)

    def step(self, number: int, replica: int, call: Call) -> Step:
        """A call as a step, under a name of its own, by its number."""
        params = self.spec.operations[call.operation].params
        values = {
            str(name): at if sort == "int" else f"{sort}#{at}"
            for (name, sort), at in zip(params, call.arguments)
        }
        return Step(replica, f"c{number}", call.operation, values, OK, "", NOTHING)


def taking(replica: int, name: str) -> Step:
    """The taking of a call as a step."""
    return Step(replica, name, None, {}, OK, "", NOTHING)


Candidates = List[Tuple[int, Call]]


def first_of_each(
    rest: Candidates, done: List[Set[str]], most: int
) -> Tuple[Candidates, Candidates]:
    """The first call of each operation at each replica where none was made, at most so many in
    all, and those that are left to be tried then."""
    now: Candidates = []
    later: Candidates = []
    seen: Set[Tuple[int, str]] = set()
    for replica, call in rest if most > 0 else ():
        key = replica, call.operation
        if call.operation not in done[replica]:
            (later if key in seen or len(now) == most else now).append((replica, call))
            seen.add(key)
    return now, later
