"""Makes a run to a harm shorter: steps are left out as long as the program's replay ends in the
same harm. The last calls, which the refutation is about, stay; and where a call is refused at a
replica, what that one has taken stays, since it is refused for what it took."""
from dataclasses import replace
from typing import Iterator, List, Optional

from view.harms import REFUSED, Judge, Run, Step

# The most replays that are made to shorten a run.
MOST_REPLAYS = 40


def shortened(run: Run, judge: Judge) -> Run:
    """A run with the same harm and no more steps."""
    most = judge.replays + MOST_REPLAYS
    again = True
    while again:
        again = False
        for steps in shorter(run.steps(), run.own, run.harm != REFUSED):
            if judge.replays >= most:
                return run
            other = judge.harm(steps, replicas_of(steps))
            if (
                other
                and (other.harm, other.what) == (run.harm, run.what)
                and other.rank() < run.rank()
            ):
                run, again = replace(other, own=run.own), True
                break
    return run


def replicas_of(steps: List[Step]) -> int:
    """How many replicas some steps need."""
    return max((number(it, "replica") for it in steps), default=0) + 1


def number(step: Step, key: str) -> int:
    """A whole number of a step."""
    value = step[key]
    assert isinstance(value, int)
    return value


def shorter(steps: List[Step], kept: int, takings: bool) -> Iterator[List[Step]]:
    """The same steps without one of them: a call with all its takings, or a taking."""
    calls = [at for at, it in enumerate(steps) if "call" in it]
    for event, at in enumerate(calls[: len(calls) - kept]):
        yield without_event(steps, at, event)
    for at, it in enumerate(steps):
        if takings and "take" in it:
            yield steps[:at] + steps[at + 1 :]


def without_event(steps: List[Step], call: int, event: int) -> List[Step]:
    """Steps without a call, whose event has this number, and without what takes it."""
    found: List[Step] = []
    for at, it in enumerate(steps):
        taken: Optional[int] = number(it, "take") if "take" in it else None
        if at == call or taken == event:
            continue
        later: Step = {} if taken is None or taken < event else {"take": taken - 1}
        found.append({**it, **later})
    return found
