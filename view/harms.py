"""What a run does harm by, and the schedule that shows it; `replay` on the specification itself is
the judge. Harms, the worst first:

    broken   an invariant is false at a replica
    differ   two replicas have taken the same calls, and their states differ
    refused  a call may be made at one replica, and is refused at another that has taken other
             calls:
             what it requires is gone where it is taken. The schedule ends with that call made
             there"""
from dataclasses import dataclass, replace
from typing import Any, Dict, List, Optional, Sequence, Tuple

from view import program
from view.report import Replay
from view.states import Call, World, held
from view.tree import Spec

BROKEN, DIFFER, REFUSED = "broken", "differ", "refused"
RANKS = {BROKEN: 0, DIFFER: 1, REFUSED: 2}
Step = Dict[str, Any]


@dataclass
class Run:
    """A schedule that the program has replayed to a harm.

    schedule, replay  as they are; `text` is the replay's text
    harm              broken, differ or refused
    what              the invariant that is false, or the number of the requires line; nothing of
                      differ
    own               how many of the last calls are the refutation's own
    """

    schedule: Dict[str, Any]
    replay: Replay
    harm: str
    what: str = ""
    own: int = 1
    text: str = ""

    def steps(self) -> List[Step]:
        """The steps of the schedule."""
        steps = self.schedule["steps"]
        assert isinstance(steps, list)
        return steps

    def calls(self) -> List[Step]:
        """Those steps that are calls."""
        return [it for it in self.steps() if "call" in it]

    def rank(self) -> Tuple[int, int, int]:
        """The worst and shortest run first."""
        return RANKS[self.harm], len(self.calls()), len(self.steps())


class Judge:
    """Lets the program replay schedules of a world on a specification, and says what harm they
    do."""

    def __init__(self, spec: Spec, world: World) -> None:
        self.spec, self.world, self.replays = spec, world, 0

    def replayed(self, schedule: Dict[str, object]) -> Optional[str]:
        """The text of a schedule's replay; None where the program takes no such schedule."""
        self.replays += 1
        status, text = program.replay(self.spec.text, schedule)
        return str(text) if status in (0, 1, 4) and text.startswith("cise replay") else None

    def harm(self, steps: Sequence[Step], replicas: int) -> Optional[Run]:
        """What harm these steps do; None where they do none. Steps behind the harm are left out. A
        call that is refused is one only as the last step, for what it requires."""
        schedule = self.world.schedule(replicas, list(steps))
        text = self.replayed(schedule)
        if text is None:
            return None
        replay = Replay(text)
        word, *rest = replay.stop or [""]
        if word == "broken":
            upto = 0 if rest[0] == "start" else int(rest[0]) + 1
            cut: Dict[str, object] = {**schedule, "steps": list(steps[:upto])}
            return Run(cut, replay, BROKEN, rest[1], text=text)
        if word == "done":
            return Run(schedule, replay, DIFFER, text=text) if differs(replay, steps) else None
        is_last = int(rest[0]) == len(steps) - 1 and rest[1] == "precondition"
        return Run(schedule, replay, REFUSED, rest[2], text=text) if is_last else None

    def alone(self, path: Sequence[Call]) -> Optional[Run]:
        """The harm that the last of some calls at one replica does."""
        return self.harm([called(0, it) for it in path], 1)

    def pair(self, path: Sequence[Call], first: Call, second: Call) -> Optional[Run]:
        """The harm that two calls do that are made at once, behind some calls that both replicas
        have taken: the first where the other one is taken, the second where the first call is
        taken."""
        count = len(path)
        steps = [called(0, it) for it in path] + [taken(1, it) for it in range(count)]
        own = steps + [called(0, first), called(1, second)]
        run = self.harm([*own, taken(1, count), taken(0, count + 1)], 2)
        if run is None or run.harm == REFUSED:
            run = self.harm([*own, called(1, first)], 2)
        return of_its_own(run, count)

    def gone(self, path: Sequence[Call], first: Call, second: Call) -> Optional[Run]:
        """The same where the first call conflicts with itself, so that it can't be made at both: it
        is asked where the second call was made, alone."""
        count = len(path)
        steps = [called(0, it) for it in path] + [taken(1, it) for it in range(count)]
        run = self.harm([*steps, called(1, second), called(1, first)], 2)
        return of_its_own(run, count) if run and run.harm == REFUSED else None


def of_its_own(run: Optional[Run], count: int) -> Optional[Run]:
    """A run whose first calls, so many, only lead to the harm; None where one of these does it."""
    return replace(run, own=len(run.calls()) - count) if run and len(run.calls()) > count else None


def differs(replay: Replay, steps: Sequence[Step]) -> bool:
    """Whether two replicas have taken the same calls and their states differ."""
    sets = [events_of(replay, at) for at in range(len(replay.states))]
    states = [held(it) for it in replay.states]
    pairs = [(a, b) for a in range(len(sets)) for b in range(a)]
    return any(sets[a] == sets[b] and states[a] != states[b] for a, b in pairs)


def events_of(replay: Replay, replica: int) -> List[int]:
    """The events that a replica has taken, in rising order."""
    return sorted(event for its, _, event in replay.steps if its == replica)


def called(replica: int, call: Call) -> Step:
    """A step that makes a call."""
    return {"replica": replica, "call": call.operation, "args": list(call.arguments)}


def taken(replica: int, event: int) -> Step:
    """A step that takes an event."""
    return {"replica": replica, "take": event}
