"""Carries cases out against an adapter, and tells the first difference of each."""
import time
from dataclasses import dataclass
from typing import List, Optional

from view.testing.adapter import Adapter
from view.testing.form import OK, REFUSED, WAITS, Case, State, Step


@dataclass(frozen=True)
class Difference:
    """Where an implementation and a case part: the step, what is expected and what was found."""

    step: int
    what: str
    expected: List[str]
    found: List[str]

    def kind(self) -> str:
        """The part that differs, by which a shorter case fails alike."""
        return self.what


@dataclass(frozen=True)
class Outcome:
    """A case, its difference or None, and the seconds that it took."""

    case: Case
    difference: Optional[Difference]
    seconds: float


def carried_out(adapter: Adapter, case: Case) -> Outcome:
    """Carries a case out."""
    begin = time.monotonic()
    return Outcome(case, difference_of(adapter, case), time.monotonic() - begin)


def difference_of(adapter: Adapter, case: Case) -> Optional[Difference]:
    """The first difference of a case, or None."""
    adapter.reset(
        {"replicas": case.replicas, "elements": case.elements, "constants": case.constants}
    )
    for number, step in enumerate(case.steps):
        found = made(adapter, step)
        if not fits(step.answer, found):
            return Difference(number, "answer", [expected_words(step)], [found])
        if found != OK and step.answer == OK:
            return Difference(number, "answer", [expected_words(step)], [found])
        state = adapter.state(step.replica)
        if state != step.state:
            return differing(number, step.state, state)
    return None


def made(adapter: Adapter, step: Step) -> str:
    """What is answered to a step."""
    if step.operation is None:
        return adapter.take(step.replica, step.id)
    return adapter.call(step.replica, step.id, step.operation, step.arguments)


def fits(expected: str, found: str) -> bool:
    """Whether an answer is the one expected. Who doesn't let calls wait refuses them."""
    return found == expected or expected == WAITS and found == REFUSED


def expected_words(step: Step) -> str:
    """What has to be answered, and why."""
    return f"{step.answer} ({step.why})" if step.why else step.answer


def differing(number: int, expected: State, found: State) -> Difference:
    """The lines in which two states differ."""
    own, other = expected.lines(), found.lines()
    return Difference(
        number,
        "state",
        [it for it in own if it not in other] or ["nothing more"],
        [it for it in other if it not in own] or ["nothing more"],
    )
