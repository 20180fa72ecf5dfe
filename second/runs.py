"""SCHEDULE, "What a step does" and "The text", and TOKENS, "A schedule under the protocol"."""
from __future__ import annotations
from dataclasses import dataclass, field
from typing import Iterator, NamedTuple, Optional, Tuple

from second.meaning import MOST_VALUE, At, Call, State, World, apply, at_call, conflict
from second.schedule import CallStep, Schedule, Step, TakeStep
from second.specification import Specification

# "the replica that made it, and which of that replica's turns it used up"
Id = NamedTuple("Id", [("replica", int), ("turn", int)])


class Refused(Exception):
    """A step is refused, for this cause."""


class Broken(Exception):
    """The state of a replica breaks the invariant of this name."""


@dataclass
class Event:
    """A call that was run, and the events that its replica had taken, in that order."""
    call: Call
    seen: list[int]
    own: Id


@dataclass
class Replica:
    """What a replica holds: its state, what it has taken, and what the protocol needs besides."""
    number: int
    state: State
    taken: list[int] = field(default_factory=list)
    turn: int = 0
    void: set[Id] = field(default_factory=set)
    waiting: Optional[Tuple[Id, Call]] = None


class Run:
    """A schedule that is carried out: its replicas and events, and the lines so far."""

    title = "replay"

    def __init__(self, spec: Specification, schedule: Schedule) -> None:
        self.spec, self.schedule, self.world = spec, schedule, schedule.world
        self.replicas = [Replica(it, initial_state(spec)) for it in range(schedule.replicas)]
        self.events: list[Event] = []
        self.lines: list[str] = [f"cise {self.title} 1"]

    def text(self) -> tuple[int, str]:
        """The status and the text: the steps, "One line that says how the replay stopped", and "For
        each replica a line replica R taken M", and its state. """
        status, stop = self.course()
        lines = self.lines + [stop]
        for replica in self.replicas:
            lines.append(f"replica {replica.number} taken {len(replica.taken)}")
            lines.extend(state_lines(self.spec, self.world, replica.state))
        return status, "".join(f"{line}\n" for line in lines)

    def course(self) -> tuple[int, str]:
        """The steps in turn: "The invariants are asked of the initial state, and after each
        accepted step of the state of its replica." """
        where = "start"
        try:
            self.ask(self.replicas[0])
            for place, step in enumerate(self.schedule.steps):
                where = str(place)
                self.step(place, step)
        except Broken as broken:
            return 1, f"broken {where} {broken}"
        except Refused as refused:
            return 4, f"refused {where} {refused}"
        return 0, f"done {len(self.schedule.steps)}"

    def ask(self, replica: Replica) -> None:
        """Asks the invariants; "the first such one" that is broken stops the run."""
        at = At(self.world, replica.state, self.world.consts)
        broken = at.first_false(self.spec.invariants.values())
        if broken is not None:
            raise Broken(list(self.spec.invariants)[broken])

    def step(self, place: int, step: Step) -> None:
        """A step; "a refused step changes nothing, and the first cause in these orders is the one
        that is named". """
        if step.replica >= len(self.replicas):
            raise Refused("replica")
        replica = self.replicas[step.replica]
        before = f"step {place} replica {step.replica}"
        if isinstance(step, CallStep):
            self.call(before, replica, self.fitting(step))
        else:
            # noevent: "there is no such event"
            if step.event >= len(self.events):
                raise Refused("noevent")
            self.take(before, replica, step)

    def fitting(self, step: CallStep) -> Call:
        """The call of a step."""
        # operation: "the name is no operation"
        operation = self.spec.operations.get(step.name)
        if operation is None:
            raise Refused("operation")
        # arguments: "there isn't an argument for each parameter, an element isn't below the size
        # of its sort, or a number is beyond -10^15 to 10^15"
        if len(operation.params) != len(step.args) or not all(
                abs(arg) <= MOST_VALUE if sort == "int" else 0 <= arg < self.world.sizes[sort]
                for sort, arg in zip(operation.params.values(), step.args)):
            raise Refused("arguments")
        return Call(operation, step.args)

    def call(self, before: str, replica: Replica, call: Call) -> None:
        """"A call is asked of its replica's own state." """
        # conflict E: "the call conflicts with event E, which the replica hasn't taken; the least"
        taken = set(replica.taken)
        for number, event in enumerate(self.events):
            if number not in taken and conflict(self.spec, self.world, event.call, call):
                raise Refused(f"conflict {number}")
        cause = self.not_ready(replica, call) or apply(self.spec, self.world, replica.state, call)
        if cause:
            raise Refused(cause)
        self.happen(before, replica, call, Id(0, 0))

    def not_ready(self, replica: Replica, call: Call) -> Optional[str]:
        """precondition L: "requires line L, counted from 1, is false in the replica's state; the
        first one", and then the same of `observation L`. """
        at = at_call(self.world, replica.state, call)
        for word, lines in (("precondition", call.operation.requires),
                            ("observation", call.operation.observes)):
            place = at.first_false(lines)
            if place is not None:
                return f"{word} {place + 1}"
        return None

    def happen(self, before: str, replica: Replica, call: Call, own: Id) -> None:
        """"It makes the next event, which has seen what the replica had taken, in that order, and
        the replica takes it." """
        self.lines.append(f"{before} call {len(self.events)}")
        self.events.append(Event(call, list(replica.taken), own))
        replica.taken.append(len(self.events) - 1)
        self.ask(replica)

    def take(self, before: str, replica: Replica, step: TakeStep) -> None:
        """"A taking lets a replica take an event that another one made." """
        if step.event in replica.taken:
            raise Refused("seen")
        missing = self.missing(replica, step.event)
        if missing is not None:
            raise Refused(f"missing {missing}")
        self.effect(before, replica, step.event)

    def missing(self, replica: Replica, event: int) -> Optional[int]:
        """missing E: "the event has seen event E, which the replica hasn't taken; the first in the
        order in which it has seen them" """
        taken = set(replica.taken)
        return next((it for it in self.events[event].seen if it not in taken), None)

    def effect(self, before: str, replica: Replica, event: int) -> None:
        """Takes an event; range: "counter CTR would have the value V at these elements"."""
        cause = apply(self.spec, self.world, replica.state, self.events[event].call)
        if cause:
            raise Refused(cause)
        self.lines.append(f"{before} take {event}")
        replica.taken.append(event)
        self.ask(replica)


class Simulation(Run):
    """The same under the token protocol: "A call begins the call at its replica; where it waits,
    the manager gets its request twice, and the replica hears the first grant." """

    title = "simulate"

    def __init__(self, spec: Specification, schedule: Schedule) -> None:
        super().__init__(spec, schedule)
        self.granted: list[Tuple[Id, Call]] = []
        self.grants: dict[Id, list[Id]] = {}

    def call(self, before: str, replica: Replica, call: Call) -> None:
        """"While one waits, the node refuses further calls." "A call whose operation takes no
        token is run at once. Any other call waits." """
        if replica.waiting:
            raise Refused("waiting")
        own = Id(replica.number, replica.turn)
        replica.turn += 1
        if not call.operation.takes:
            self.run(before, replica, call, own)
            return
        replica.waiting = (own, call)
        # "The grant names the calls granted before with which the call conflicts, in the order
        # granted. A call that was granted gets the same grant again."
        self.grants[own] = [it for it, granted in self.granted
                            if conflict(self.spec, self.world, granted, call)]
        self.granted.append((own, call))
        missing = self.hear_grant(before, replica)
        if missing:
            self.lines.append(f"{before} awaits {missing.replica} {missing.turn}")

    def hear_grant(self, before: str, replica: Replica) -> Optional[Id]:
        """"The grant of the waiting call lets it run, once the node has taken each call that the
        grant names, or knows it as void. Before that the node answers the first call that is
        missing". """
        if not replica.waiting:
            return None
        own, call = replica.waiting
        known = {self.events[it].own for it in replica.taken} | replica.void
        for named in self.grants[own]:
            if named not in known:
                return named
        replica.waiting = None
        self.run(before, replica, call, own)
        return None

    def run(self, before: str, replica: Replica, call: Call, own: Id) -> None:
        """"To run a call is to test three causes in this order: a requires line is false, an
        observes line is false, a value would leave the range of a state. At the first cause the
        call is void, for ever", and "Each Void is heard by all replicas". """
        cause = self.not_ready(replica, call) or apply(self.spec, self.world, replica.state, call)
        if not cause:
            self.happen(before, replica, call, own)
            return
        self.lines.append(f"{before} void {cause}")
        for each in self.replicas:
            each.void.add(own)

    def take(self, before: str, replica: Replica, step: TakeStep) -> None:
        """"A take lets the replica hear the Done of the event; where it takes the event and a call
        waits there, that call hears its grant again." """
        if step.event in replica.taken:
            self.lines.append(f"{before} old {step.event}")
            return
        # early E: "the event can't be taken yet: E is the first one that has to be taken before"
        missing = self.missing(replica, step.event)
        if missing is not None:
            self.lines.append(f"{before} early {missing}")
            return
        self.effect(before, replica, step.event)
        self.hear_grant(before, replica)


def initial_state(spec: Specification) -> State:
    """"gives each relation and each counter its one stated value at all tuples or keys" """
    return State({name: thing.initial for name, thing in spec.things().items()})


def state_lines(spec: Specification, world: World, state: State) -> Iterator[str]:
    """"true NAME E E for each tuple that a relation holds, relation by relation and in rising
    order. Then comes a line count NAME E E V for each value that isn't 0" """
    for name, thing in spec.things().items():
        for at in world.tuples(thing.sorts) if thing.initial else sorted(state.listed[name]):
            value, shown = state.read(name, at), " ".join(map(str, (name, *at)))
            if value:
                yield f"true {shown}" if thing.kind == "relation" else f"count {shown} {value}"
