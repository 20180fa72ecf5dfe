"""Makes a failing case shorter: steps are left out as long as it fails alike.

What the remaining steps have to answer is asked of the program anew, by `expected`: a state behind
fewer steps is another one."""
from typing import Callable, Optional, Tuple

from view.testing.expected import of_steps
from view.testing.form import Case
from view.testing.running import Difference

Expected = Callable[[Case], Optional[Case]]
Judge = Callable[[Case], Optional[Difference]]
MOST_TRIES = 60


def shrunk(
    case: Case, difference: Difference, expected: Expected, judge: Judge
) -> Tuple[Case, Difference]:
    """The shortest case that is found by leaving steps out, from the last one on, and its
    difference."""
    case = cut(case, difference.step + 1)
    tries, at = 0, len(case.steps) - 2
    while at >= 0 and tries < MOST_TRIES:
        tries += 1
        shorter = expected(without(case, at))
        found = judge(shorter) if shorter else None
        if shorter is not None and found is not None and found.kind() == difference.kind():
            case, difference = cut(shorter, found.step + 1), found
            at = min(at, len(case.steps) - 1)
        at -= 1
    return case, difference


def cut(case: Case, count: int) -> Case:
    """The first steps of a case."""
    return of_steps(case, case.steps[:count])


def without(case: Case, at: int) -> Case:
    """A case without a step, and without the takings of the call that it made."""
    gone = case.steps[at]
    kept = [it for place, it in enumerate(case.steps) if place != at]
    if gone.is_call():
        kept = [it for it in kept if it.is_call() or it.id != gone.id]
    return of_steps(case, kept)
