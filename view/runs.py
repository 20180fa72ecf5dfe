"""States that calls lead to from the start, as the program says them, many in one run of it.

`Search` keeps the states reached and how each is reached. It asks the program by probes
(`view/probes.py`): which calls may be made in some states, which invariants are false there, and
what comes of calls. Nothing is worked out here. What is found is a list of calls from the initial
state; whoever uses it makes a schedule of it, and lets `replay` judge that on the specification
itself."""
import time
from dataclasses import dataclass, field
from functools import cached_property
from typing import Dict, Iterable, Iterator, List, NamedTuple, Optional, Sequence, Tuple

from view import program
from view.choices import Choices
from view.inputs import Copy
from view.probes import ALLOWED, MOST_REPLICAS, MOST_STEPS, Probe, Steps
from view.report import Replay, Simulation
from view.states import Call, Held, Shape, World, held
from view.tree import Spec
from view.words import encoded

# What a run of the program costs beside its steps, in steps.
RUN_COST = 60


@dataclass
class Effort:
    """What a search may take: so much `work`, counted in steps that the program carries out and in
    its runs, and so many seconds, where these are given. `left` is whether there is any left."""

    work: Optional[int] = None
    seconds: Optional[float] = None
    runs: int = 0
    steps: int = 0
    begun: float = field(default_factory=time.monotonic)

    def done(self) -> int:
        """The work that was done."""
        return self.steps + RUN_COST * self.runs

    def left(self) -> bool:
        """Whether some of all is left."""
        late = self.seconds is not None and time.monotonic() - self.begun >= self.seconds
        return not late and (self.work is None or self.done() < self.work)

    def part(self, share: float) -> "Effort":
        """An effort with a share of what is left; what it does doesn't count here by itself."""
        work = None if self.work is None else int((self.work - self.done()) * share)
        spent = time.monotonic() - self.begun
        return Effort(work, None if self.seconds is None else (self.seconds - spent) * share)

    def add(self, other: "Effort") -> None:
        """Counts what a part has done."""
        self.runs, self.steps = self.runs + other.runs, self.steps + other.steps


class Refusal(NamedTuple):
    """Why a call may not be made: precondition, observation or range, and the line's number."""

    cause: str
    line: int


@dataclass(eq=False)
class Reached:
    """A state that was reached.

    parent, call   the state before and the call that leads here; None of the initial state
    depth          how many calls lead here
    allowed        the calls that may be made here, of those that are tried
    refused        those that may not, each with the reason
    false          the first invariant that is false here, or None
    after          the states that allowed calls lead to; None where a number leaves its range
    next           what is kept for these states: itself or a state alike
    """

    facts: Held
    parent: Optional["Reached"]
    call: Optional[Call]
    depth: int
    allowed: List[Call] = field(default_factory=list)
    refused: Dict[Call, Refusal] = field(default_factory=dict)
    false: Optional[str] = None
    after: Dict[Call, Optional[Held]] = field(default_factory=dict)
    next: Dict[Call, "Reached"] = field(default_factory=dict)
    is_expanded: bool = False
    may: Optional[Dict[Call, bool]] = None

    @cached_property
    def own(self) -> Dict[str, List[Call]]:
        """The allowed calls by their operations, once they are known."""
        found: Dict[str, List[Call]] = {}
        for call in self.allowed:
            found.setdefault(call.operation, []).append(call)
        return found

    @cached_property
    def own_refused(self) -> Dict[str, List[Call]]:
        """The calls that a line refuses, by their operations, once they are known."""
        found: Dict[str, List[Call]] = {}
        for call, why in self.refused.items():
            if why.line:
                found.setdefault(call.operation, []).append(call)
        return found

    def path(self) -> List[Call]:
        """The calls that lead here."""
        calls: List[Call] = []
        at: Optional[Reached] = self
        while at is not None and at.call is not None:
            calls.append(at.call)
            at = at.parent
        return calls[::-1]


class Oracle:
    """Asks the program by probes, in one world."""

    def __init__(self, spec: Spec, world: World, effort: Effort) -> None:
        self.spec, self.world, self.effort = spec, world, effort
        self.copies: Dict[str, Copy] = {}

    @cached_property
    def asks(self) -> Probe:
        """What is asked which calls may be made."""
        return Probe(self.spec, acts=False)

    @cached_property
    def acts(self) -> Probe:
        """What is asked where calls lead."""
        return Probe(self.spec, acts=True)

    def close(self) -> None:
        """Lets go what the program was given."""
        for it in self.copies.values():
            it.close()
        self.copies = {}

    def simulated(self, text: str, steps: Steps, replicas: int) -> Simulation:
        """The simulation of a probe's specification and some steps."""
        if text not in self.copies:
            self.copies[text] = Copy()
            self.copies[text].add(encoded(text))
        schedule = Copy()
        try:
            schedule.add(steps.schedule(self.world, replicas).encode())
            self.effort.runs += 1
            self.effort.steps += len(steps.steps)
            words = ("simulate", self.copies[text].path, schedule.path)
            status, said = program.run(*words)
        finally:
            schedule.close()
        if status or not said.startswith("cise simulate"):
            raise program.Stopped(words, status, said)
        return Simulation(said)

    def start(self) -> Held:
        """The initial state."""
        kept = [f"initially {thing} {value}" for thing, value in self.spec.initially.items()]
        lines = self.asks.texts[0].split("\n")
        operations = (at for at, it in enumerate(lines) if it.startswith("operation"))
        at = next(operations, len(lines))
        text = "\n".join(lines[:at] + kept + lines[at:])
        return held(self.simulated(text, Steps(), 1).states[0])

    def refusals(
        self, asked: Sequence[Tuple[Held, Sequence[Call]]]
    ) -> List[Dict[Call, Optional[Refusal]]]:
        """For each state and calls why each call may not be made there, or None where it may."""
        found: List[Dict[Call, Optional[Refusal]]] = [{} for _ in asked]
        homes: List[List[List[Call]]] = [[[] for _ in asked] for _ in self.asks.texts]
        for at, (_, calls) in enumerate(asked):
            for it in calls:
                homes[self.asks.home[it.operation]][at].append(it)
        for text, own in zip(self.asks.texts, homes):
            for batch in batches(
                [len(facts) + 3 + len(it) for (facts, _), it in zip(asked, own)], own
            ):
                steps, numbers = Steps(), {}  # type: Steps, Dict[int, Tuple[int, Call]]
                for at in batch:
                    for wiper in self.asks.wipers:
                        steps.call(0, Call(wiper, ()))
                    for setting in self.asks.setting(asked[at][0]):
                        steps.call(0, setting)
                    numbers.update((steps.call(0, it), (at, it)) for it in own[at])
                for number, _, said in self.simulated(text, steps, 1).steps:
                    if number in numbers:
                        at, call = numbers[number]
                        found[at][call] = None if said[0] == ALLOWED else refusal(said)
        return found

    def after(self, made: Sequence[Tuple[Held, Call]]) -> List[Optional[Held]]:
        """The state that each call leads to from its state, whether or not it may be made there;
        None where a number would leave its range."""
        found: List[Optional[Held]] = [None] * len(made)
        for place, text in enumerate(self.acts.texts):
            own = [at for at, (_, it) in enumerate(made) if self.acts.home[it.operation] == place]
            for begin in range(0, len(own), MOST_REPLICAS):
                here, steps = own[begin : begin + MOST_REPLICAS], Steps()
                numbers = {}  # type: Dict[int, int]
                for replica, at in enumerate(here):
                    for setting in self.acts.setting(made[at][0]):
                        steps.call(replica, setting)
                    numbers[steps.call(replica, made[at][1])] = at
                said = self.simulated(text, steps, len(here))
                ran = {number for number, _, it in said.steps if it[0] == ALLOWED}
                for (number, at), state in zip(numbers.items(), said.states):
                    found[at] = held(state) if number in ran else None
        return found

    def false_invariants(self, states: Sequence[Held]) -> List[Optional[str]]:
        """For each state the first invariant that is false there, or None."""
        calls = [Call(name, ()) for name, _ in self.asks.invariants]
        found: List[Optional[str]] = []
        for answers in self.refusals([(it, calls) for it in states]):
            false = None
            for name, invariants in self.asks.invariants:
                said = answers[Call(name, ())]
                false = false or (invariants[said.line - 1] if said else None)
            found.append(false)
        return found


def refusal(said: Sequence[str]) -> Refusal:
    """What a simulation says of a call that is void."""
    return Refusal(said[1], int(said[2]) if said[1] != "range" else 0)


def batches(costs: Sequence[int], own: Sequence[Sequence[object]]) -> Iterator[List[int]]:
    """The places of what there is something to ask of, as many at a time as a schedule has room
    for."""
    batch, cost = [], 0  # type: List[int], int
    for at, its in enumerate(costs):
        if own[at]:
            if batch and cost + its > MOST_STEPS:
                yield batch
                batch, cost = [], 0
            batch, cost = [*batch, at], cost + its
    if batch:
        yield batch


class Search:
    """The states that calls at one replica lead to. Of states that are alike one is kept."""

    def __init__(
        self,
        spec: Spec,
        world: World,
        numbers: Sequence[int],
        effort: Effort,
        operations: Optional[Iterable[str]] = None,
        calls: Sequence[Call] = (),
    ) -> None:
        self.spec, self.world, self.effort = spec, world, effort
        self.oracle, self.shape = Oracle(spec, world, effort), Shape(spec, world)
        own = [str(it) for it in spec.operations if operations is None or it in set(operations)]
        self.choices = Choices(self.shape, own, numbers, calls)
        self.reached: List[Reached] = []
        self.keys: Dict[object, Reached] = {}
        self.start = self.kept([Reached(self.oracle.start(), None, None, 0)])[0]

    def close(self) -> None:
        """Lets go what the program was given."""
        self.oracle.close()

    def kept(self, states: List[Reached]) -> List[Reached]:
        """Those states that are like none before; each is asked what may be called there."""
        new = []
        for it in states:
            key = self.shape.key(it.facts)
            if key not in self.keys:
                self.keys[key] = it
                new.append(it)
            if it.parent and it.call:
                it.parent.next[it.call] = self.keys[key]
        for it, false in zip(new, self.oracle.false_invariants([it.facts for it in new])):
            it.false = false
        good = [it for it in new if it.false is None]
        asked = [(it.facts, self.choices.in_state(it.facts)) for it in good]
        for it, answers in zip(good, self.oracle.refusals(asked)):
            it.allowed = [call for call, why in answers.items() if why is None]
            it.refused = {call: why for call, why in answers.items() if why is not None}
        self.reached += new
        return new

    def expanded(self, states: Sequence[Reached]) -> List[Reached]:
        """The states that calls in these lead to and that are new; none from one with a false
        invariant, where a run has ended."""
        todo = [it for it in states if not it.is_expanded and it.false is None]
        made = [(it, call) for it in todo for call in it.allowed]
        found = []
        for (it, call), facts in zip(
            made, self.oracle.after([(it.facts, call) for it, call in made])
        ):
            it.after[call] = facts
            if facts is not None:
                found.append(Reached(facts, it, call, it.depth + 1))
        for it in todo:
            it.is_expanded = True
        return self.kept(found)

    def may_run(self, asked: Sequence[Tuple[Reached, Call]]) -> List[bool]:
        """Whether each call may be made in its state; those that aren't known are asked for."""
        plain = [(it, self.choices.plain(call, it.facts)) for it, call in asked]
        new: Dict[Reached, List[Call]] = {}
        for it, call in dict.fromkeys(plain):
            if it.may is None:
                it.may = {**dict.fromkeys(it.allowed, True), **dict.fromkeys(it.refused, False)}
            if call not in it.may:
                new.setdefault(it, []).append(call)
        answers = self.oracle.refusals([(it.facts, calls) for it, calls in new.items()])
        for it, own in zip(new, answers):
            for call, why in own.items():
                assert it.may is not None
                it.may[call] = why is None
        return [bool(it.may and it.may[call]) for it, call in plain]

    def after(self, made: Sequence[Tuple[Reached, Call]]) -> List[Optional[Held]]:
        """The states that calls lead to, of which some may be known."""
        new = [(it, call) for it, call in dict.fromkeys(made) if call not in it.after]
        for (it, call), facts in zip(
            new, self.oracle.after([(it.facts, call) for it, call in new])
        ):
            it.after[call] = facts
        return [it.after[call] for it, call in made]


def judged(spec_text: str, schedule: Dict[str, object]) -> Optional[Replay]:
    """The program's replay of a schedule on a specification; None where it takes no such
    schedule."""
    status, text = program.replay(spec_text, schedule)
    return Replay(text) if status in (0, 1, 4) and text.startswith("cise replay") else None
