"""What a yes leaves open, of one specification: each `Doubt` has its place, its kind and a sentence
that says on whose word it is: proved by the program, tried by runs of it, or read off the text."""
from dataclasses import dataclass
from itertools import combinations
from typing import Dict, Iterator, List, Optional, Set, Tuple

from view import program
from view.asked import PROVED, Questions
from view.goals import Goal, read_by_line, touched, written
from view.places import Span, word_span
from view.report import Block, Report, Witness
from view.run_text import count_of, sizes_told
from view.runs import Effort, Search
from view.seeking import first_state
from view.states import World, world_of
from view.tree import Line, Spec
from view.words import Word, placed

# The work for looking whether operations ever run, in all and for each.
WORK, WORK_EACH = 40_000, 12_000
# So many elements of a sort are tried with.
SIZE = 2
# For each kind of doubt what to do.
TO_DO = {
    "never-runs": "weaken what it requires, or leave it out",
    "never-meet": "no order between the two is needed",
    "never-reached": "is an operation missing that makes what it requires?",
    "always-true": "it promises nothing: say what is meant, or leave it out",
    "unwritten": "is an operation missing, or is another fact meant?",
    "unused": "leave it out, or use it",
    "token": "add a conflict rule, or leave it out",
    "rule": "add a takes line, or leave it out",
    "same": "where they are two things, require that they differ",
    "constant": "is an operation missing, or an initially?",
    "negative": "where it never is, say so as an invariant",
}


@dataclass(frozen=True, order=True)
class Doubt:
    """Something that a yes leaves open."""

    span: Span
    kind: str
    sentence: str


def doubts(spec: Spec, report: Report) -> List[Doubt]:
    """All doubts of a specification, in the order of the text."""
    questions = Questions(spec)
    found: List[Doubt] = []
    for kind in (operations_that_run, invariants_that_say, unused, tokens, constants, raised):
        found += kind(spec, questions)
    found += negative(spec, report)
    return sorted(found)


def at(word: Word, kind: str, sentence: str) -> Doubt:
    """A doubt at a word."""
    return Doubt(word_span(word), kind, f"{sentence}; {TO_DO[kind]}")


def operations_that_run(spec: Spec, questions: Questions) -> Iterator[Doubt]:
    """Operations and pairs that never run, and operations that were seen in no run from the
    start."""
    names = list(map(str, spec.operations))
    answers = questions.each(names)
    never = {it for it, said in answers.items() if said.verdict == PROVED}
    for it in sorted(never):
        sentence = (
            f"no call of {it} is ever allowed where every invariant is true; proved by the program"
        )
        yield at(spec.operations[it].name, "never-runs", sentence)
    runs = [it for it in names if it not in never]
    for (f, g), said in questions.pairs(runs).items():
        if said.verdict == PROVED:
            both = f"no state in which every invariant is true allows both {f} and {g}"
            yield at(spec.operations[f].name, "never-meet", f"{both}; proved by the program")
    seen = Seen(spec, questions)
    for it in runs:
        try:
            where = seen.look(it)
        except program.Stopped:
            # (where what is made to ask is longer than a specification may be, nothing is said)
            break
        if where is not None:
            said_ = f"no call of {it} is allowed {where}; tried, not proved"
            yield at(spec.operations[it].name, "never-reached", said_)
    seen.close()


class Seen:
    """Looks which operations may be called in some state that calls from the start lead to.
    Constants are elements of their own, where their sort has as many."""

    def __init__(self, spec: Spec, questions: Questions) -> None:
        self.spec, self.questions, self.effort = spec, questions, Effort(work=WORK)
        self.searches: List[Search] = []

    def close(self) -> None:
        """Lets the searches go."""
        for it in self.searches:
            it.close()

    def look(self, name: str) -> Optional[str]:
        """None where the operation may be called in a state that was reached; else where was
        looked."""
        for it in self.searches:
            if any(call.operation == name for state in it.reached for call in state.allowed):
                return None
        goal = self.goal(name)
        world = self.world(goal)
        search = next((it for it in self.searches if it.world == world), None)
        effort = Effort(work=WORK_EACH)
        if search is None:
            numbers = [1, 0, 2, *goal.numbers()]
            search = Search(self.spec, world, numbers, effort, None, goal.calls)
            self.searches.append(search)
        search.effort = search.oracle.effort = effort
        state = first_state(
            search, goal, effort, lambda it: any(call.operation == name for call in it.allowed)
        )
        if state is not None:
            return None
        deepest = max(it.depth for it in search.reached)
        if deepest == 0:
            return "at the start, and no call that was tried leads away from there"
        sizes = sizes_told(dict(world.sizes))
        states = f"in {count_of(len(search.reached), 'state', 'states')} that up to "
        states += f"{count_of(deepest, 'call leads', 'calls lead')} to"
        return states + (f" with {sizes}" if sizes else "")

    def goal(self, name: str) -> Goal:
        """The program's example of a state in which the operation may be called, as a goal."""
        block = Block(["commute", name, name, self.questions.mark], 0)
        block.witness = self.questions.may_run(name).witness or Witness()
        return Goal(self.spec, block)

    def world(self, goal: Goal) -> World:
        """The example's sizes, and at least two elements of each sort; constants one by one."""
        counts: Dict[str, int] = {}
        constants = {}
        for it, sort in self.spec.consts.items():
            constants[str(it)] = counts.get(str(sort), 0)
            counts[str(sort)] = constants[str(it)] + 1
        sizes = {
            str(it): max(SIZE, counts.get(str(it), 0) + 1, goal.witness.sizes.get(str(it), 0))
            for it in self.spec.sorts
        }
        return world_of(self.spec, sizes, constants)


def invariants_that_say(spec: Spec, questions: Questions) -> Iterator[Doubt]:
    """Invariants that are true of every state, and those that no operation has a hand in."""
    changed = {it for one in spec.operations.values() for it in written(one)}
    for name, line in spec.invariants.items():
        if questions.is_always_true(str(name)):
            yield at(
                placed(name), "always-true", f"{name} is true of every state; proved by the program"
            )
        elif spec.operations and not read_by_line(line) & changed:
            sentence = (
                f"no operation changes anything that {name} reads, so it says nothing of them"
            )
            yield at(placed(name), "unwritten", sentence)


def unused(spec: Spec, _: Questions) -> Iterator[Doubt]:
    """What is declared and used nowhere: sorts, relations, counters, parameters."""
    sorts: Set[str] = {str(it) for it in spec.consts.values()}
    for places in [*spec.relations.values(), *spec.counters.values(), *spec.tokens.values()]:
        sorts.update(map(str, places))
    for operation in spec.operations.values():
        sorts.update(str(sort) for _, sort in operation.params)
    for sort in spec.sorts:
        if str(sort) not in sorts:
            yield at(sort, "unused", f"nothing is of the sort {sort}")
    used = {it for one in spec.operations.values() for it in touched(one)}
    used |= {it for line in spec.invariants.values() for it in read_by_line(line)}
    for thing in [*spec.relations, *spec.counters]:
        if str(thing) not in used:
            yield at(placed(thing), "unused", f"no line reads or changes {thing}")
    for operation in spec.operations.values():
        words = {str(it) for line in operation.lines for it in line.body}
        for param, _sort in operation.params:
            if str(param) not in words:
                yield at(
                    param, "unused", f"no line of {operation.name} names its parameter {param}"
                )


def tokens(spec: Spec, _: Questions) -> Iterator[Doubt]:
    """Tokens that nobody takes or that no rule names, and rules that never order."""
    taken = {str(it.thing()[0]) for one in spec.operations.values() for it in one.of("takes")}
    named = {str(side[0]) for left, right, _ in spec.rules for side in (left, right)}
    for token in spec.tokens:
        if str(token) not in taken | named:
            yield at(
                placed(token),
                "unused",
                f"no rule names the token {token}, and no operation takes it",
            )
        elif str(token) not in named:
            yield at(
                placed(token),
                "token",
                f"no rule names the token {token}, so taking it orders nothing",
            )
    for left, right, _number in spec.rules:
        lost = [str(side[0]) for side in (left, right) if str(side[0]) not in taken]
        if lost:
            sentence = f"no operation takes {lost[0]}, so this rule orders nothing"
            yield at(left[0], "rule", sentence)


def constants(spec: Spec, _: Questions) -> Iterator[Doubt]:
    """Constants of one sort that may be one element and are compared nowhere."""
    lines = [
        *spec.invariants.values(),
        *(it for one in spec.operations.values() for it in one.lines),
    ]
    apart = {frozenset(it) for line in lines for it in compared(line)}
    for one, other in combinations(spec.consts, 2):
        if (
            spec.consts[one] == spec.consts[other]
            and frozenset((str(one), str(other))) not in apart
        ):
            sentence = (
                f"{one} and {other} may be the same {spec.consts[one]}: no line tells them apart"
            )
            yield at(placed(other), "same", sentence)


def compared(line: Line) -> Iterator[Tuple[str, str]]:
    """The pairs of names that a line compares, as in `( a != b )`."""
    for place in range(1, len(line.body) - 1):
        if line.body[place] in ("=", "!="):
            yield str(line.body[place - 1]), str(line.body[place + 1])


def raised(spec: Spec, _: Questions) -> Iterator[Doubt]:
    """Relations that are read and begin false, and that no operation inserts; counters that no
    operation changes."""
    read = {
        it for one in spec.operations.values() for line in one.lines for it in read_by_line(line)
    }
    read |= {it for line in spec.invariants.values() for it in read_by_line(line)}
    lines = [it for one in spec.operations.values() for it in one.of("insert", "add", "set")]
    made = {str(it.thing()[0]) for it in lines}
    for thing in [*spec.relations, *spec.counters]:
        if str(thing) in read - made and spec.initially.get(thing, "false") != "true":
            verb = "inserts into" if thing in spec.relations else "changes"
            begins = "false" if thing in spec.relations else spec.initially.get(thing, "0")
            sentence = f"no operation {verb} {thing}, so it stays {begins} in every run"
            yield at(placed(thing), "constant", sentence)


def negative(spec: Spec, report: Report) -> Iterator[Doubt]:
    """Counters that a refutation shows negative: no invariant forbids that."""
    for thing, sorts in spec.counters.items():
        for block in report.with_verdict("refuted"):
            values = block.witness.state.count.items() if block.witness else ()
            if any(str(it) == str(thing) and value < 0 for (it, _), value in values):
                reading = str(thing) + (" ( .. )" if sorts else "")
                yield at(
                    placed(thing),
                    "negative",
                    f"a story shows {thing} below 0: ( {reading} >= 0 ) is said nowhere",
                )
                break
