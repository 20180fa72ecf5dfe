"""What the program says that the steps of a case have to answer, and what replicas hold behind
them.

Steps are replayed many at a time. A replay has the states at its end alone, so behind each step a
further replica takes what the step's replica had taken: its state is that behind the step."""
import json
from typing import Any, Dict, List, Optional, Sequence, Tuple

from view import program
from view.inputs import Copy
from view.probes import MOST_REPLICAS
from view.report import Replay
from view.report import State as Facts
from view.testing.form import ANSWERS, OK, REFUSED, WAITS, Case, State, Step
from view.tree import Spec
from view.words import encoded

# What refuses a call or a taking, in words.
CAUSES = {
    "precondition": "a requires line is false: line",
    "observation": "an observes line is false: line",
    "conflict": "it conflicts with a call that isn't taken yet, event",
    "range": "a number would leave its range:",
    "missing": "it has seen a call that isn't taken yet, event",
}
NOTHING = State(frozenset(), frozenset())


class Judge:
    """Asks the program for replays of one specification."""

    def __init__(self, text: str) -> None:
        self.spec, self.replays = Spec(text), 0
        self.copy = Copy()
        self.copy.add(encoded(text))

    def close(self) -> None:
        """Lets go what the program was given."""
        self.copy.close()

    def replay(self, schedule: Dict[str, Any]) -> Optional[Replay]:
        """The replay of a schedule, or None where the program takes none such."""
        self.replays += 1
        steps = Copy()
        try:
            steps.add(json.dumps(schedule).encode())
            status, text = program.run("replay", self.copy.path, steps.path)
        finally:
            steps.close()
        is_one = status in (0, 1, 4) and text.startswith("cise replay")
        return Replay(text) if is_one else None

    def expected(self, case: Case) -> Optional[Case]:
        """The case with the answers and states that the program gives; None where a step breaks an
        invariant, or is none that can be made there."""
        course = Course(self, of_steps(case, []))
        if None in course.judged(case.steps):
            return None
        return of_steps(case, course.steps)

    def schedule(self, case: Case, row: List[Dict[str, Any]], replicas: int = 0) -> Dict[str, Any]:
        """The schedule of some steps in a case's world, with so many replicas or the case's."""
        sizes = {sort: len(its) for sort, its in case.elements.items()}
        constants = {it: number_of(element) for it, element in case.constants.items()}
        count = replicas or case.replicas
        return {"sizes": sizes, "constants": constants, "replicas": count, "steps": row}

    def as_json(self, step: Step, case: Case, events: Dict[str, int]) -> Dict[str, Any]:
        """A step as a schedule has it."""
        if step.operation is None:
            return {"replica": step.replica, "take": events[step.id]}
        params = self.spec.operations[step.operation].params
        values = [step.arguments[str(name)] for name, _ in params]
        args = [it if sort == "int" else number_of(it) for it, (_, sort) in zip(values, params)]
        return {"replica": step.replica, "call": step.operation, "args": args}


def of_steps(case: Case, steps: List[Step]) -> Case:
    """A case with other steps."""
    return Case(case.name, case.covers, case.replicas, case.elements, case.constants, steps)


class Course:
    """Steps that are made one after the other, each judged by the program behind those before.

    row      the accepted steps, as a schedule has them
    events   the number of each call that was accepted, by its own name
    taken    for each replica the events that it has taken, in their order
    steps    all steps that are kept, with what the program says of them
    """

    def __init__(self, judge: Judge, case: Case) -> None:
        self.judge, self.case = judge, case
        self.row: List[Dict[str, Any]] = []
        self.events: Dict[str, int] = {}
        self.taken: List[List[int]] = [[] for _ in range(case.replicas)]
        self.steps: List[Step] = []

    def behind(self, case: Case) -> "Course":
        """Another course, which goes on from here."""
        course = Course(self.judge, case)
        course.row, course.events, course.steps = [*self.row], {**self.events}, [*self.steps]
        course.taken = [[*it] for it in self.taken]
        return course

    def free(self) -> int:
        """The number of a call from which on no name of a kept step is taken, as 3 behind c2."""
        return 1 + max((int(it.id[1:]) for it in self.steps if it.is_call()), default=-1)

    def judged(
        self, steps: Sequence[Step], keeps: Tuple[str, ...] = ANSWERS
    ) -> List[Optional[Step]]:
        """What the program says of each step. It is kept where that is among `keeps`. Of one that
        breaks an invariant or can't be made here nothing is said, and it isn't kept."""
        found: List[Optional[Step]] = []
        while len(found) < len(steps):
            found += self.some_judged(steps[len(found) :], keeps)
        return found

    def some_judged(self, steps: Sequence[Step], keeps: Tuple[str, ...]) -> List[Optional[Step]]:
        """What is said of the first of some steps: by one replay, up to the step that stops it."""
        ahead = Ahead(self, steps)
        if not ahead.steps:
            return [None]
        replay = self.judge.replay(self.judge.schedule(self.case, ahead.row, ahead.replicas))
        if replay is None or replay.stop is None:
            return [None]
        found: List[Optional[Step]] = []
        for step, at, row in zip(ahead.steps, ahead.places, ahead.rows):
            if at >= len(replay.steps) or replay.stop[:2] == ["broken", str(at)]:
                found.append(self.stopped(step, replay, keeps))
                break
            state = named_state(self.judge.spec, replay.states[ahead.shown[at]])
            found.append(with_answer(step, OK, "", state))
            self.accept(step, row, state)
        return found

    def stopped(self, step: Step, replay: Replay, keeps: Tuple[str, ...]) -> Optional[Step]:
        """What is said of the step that stops a replay."""
        assert replay.stop is not None
        if replay.stop[0] == "broken" or step.operation is None or replay.stop[2] not in CAUSES:
            return None
        state = named_state(self.judge.spec, replay.states[step.replica])
        answer = WAITS if replay.stop[2] == "conflict" else REFUSED
        why = " ".join([CAUSES[replay.stop[2]], *replay.stop[3:]])
        found = with_answer(step, answer, why, state)
        if answer in keeps:
            self.steps.append(found)
        return found

    def accept(self, step: Step, row: Dict[str, Any], state: State) -> None:
        """Keeps a step that was accepted."""
        self.row.append(row)
        if step.operation is not None:
            self.events[step.id] = len(self.events)
        self.taken[step.replica].append(self.events[step.id])
        self.steps.append(with_answer(step, OK, "", state))


class Ahead:
    """The first of some steps, as many as one replay can show, taken as if all were accepted.

    row      the row of the whole replay, with the takings of the further replicas
    steps    the steps, with the `places` of each in the row and `rows`, what stands there
    shown    for the place of each step the replica that has its state at the end
    """

    def __init__(self, course: Course, steps: Sequence[Step]) -> None:
        self.row, self.replicas = list(course.row), course.case.replicas
        self.steps: List[Step] = []
        self.places: List[int] = []
        self.rows: List[Dict[str, Any]] = []
        self.shown: Dict[int, int] = {}
        events, taken = {**course.events}, [[*it] for it in course.taken]
        room = max(0, MOST_REPLICAS - self.replicas)
        for step, is_shown in zip(steps, shown_by_others(steps, room)):
            if step.operation is None and step.id not in events:
                break
            made = course.judge.as_json(step, course.case, events)
            if step.operation is not None:
                events[step.id] = len(events)
            taken[step.replica].append(events[step.id])
            self.add(step, made, taken[step.replica] if is_shown else [])

    def add(self, step: Step, made: Dict[str, Any], taken: Sequence[int]) -> None:
        """Adds a step, and the takings of a further replica that is to show its state."""
        place = len(self.row)
        self.steps.append(step)
        self.places.append(place)
        self.rows.append(made)
        self.row.append(made)
        self.shown[place] = step.replica
        if taken:
            self.shown[place] = self.replicas
            self.row += [{"replica": self.replicas, "take": it} for it in taken]
            self.replicas += 1


def shown_by_others(steps: Sequence[Step], room: int) -> List[bool]:
    """Of the first steps, as many as there is room for, whether a further replica has to show the
    state behind each: the last one of a replica is shown by that."""
    last: Dict[int, int] = {}
    for at, step in enumerate(steps):
        if at + 1 - len({*last, step.replica}) > room:
            break
        last[step.replica] = at
    return [last[it.replica] != at for at, it in enumerate(steps[: max(last.values()) + 1])]


def with_answer(step: Step, answer: str, why: str, state: State) -> Step:
    """A step with what has to be answered, and the state behind it."""
    return Step(step.replica, step.id, step.operation, step.arguments, answer, why, state)


def number_of(element: str) -> int:
    """The number of an element's name, as 2 of `Account#2`."""
    return int(element.rpartition("#")[2])


def named_state(spec: Spec, state: Facts) -> State:
    """A state of the program's text, with elements by their names."""
    facts = {(thing, *names_of(spec, thing, at)) for thing, at in state.true}
    counts = {
        ((thing, *names_of(spec, thing, at)), value)
        for (thing, at), value in state.count.items()
        if value
    }
    return State(frozenset(facts), frozenset(counts))


def names_of(spec: Spec, thing: str, at: Tuple[int, ...]) -> List[str]:
    """The names of the elements at a thing's places."""
    return [f"{sort}#{element}" for sort, element in zip(spec.places(thing), at)]
