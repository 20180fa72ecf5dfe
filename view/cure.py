"""A run's calls carried out by the program's `simulate` of another specification, as of the mended
one: which are made, which wait for which, and which are turned down."""
from typing import Dict, List, Optional, Sequence, Tuple

from view import program
from view.columns import wrapped
from view.harms import Run, Step
from view.report import Simulation
from view.run_text import REPLICAS
from view.shrinking import number
from view.story import Call, Names
from view.tree import Spec


class Course:
    """The calls as they go: `events` has for each call of the run the event that it became, if it
    did."""

    def __init__(self, spec: Spec, run: Run) -> None:
        self.spec, self.run = spec, run
        self.names = Names(spec, run.schedule["constants"])
        self.calls = run.calls()
        self.steps: List[Step] = []
        # For each step that is carried out the number of its call, or None for a taking.
        self.own: List[Optional[int]] = []
        self.events: Dict[int, int] = {}

    def carry_out(self) -> Optional[Simulation]:
        """The simulation of all steps; a taking whose call isn't made by then is left out. None
        where the program takes no such schedule."""
        calls, simulation = 0, None
        for it in self.run.steps():
            if "call" in it:
                self.steps.append(it)
                self.own.append(calls)
                calls += 1
            elif number(it, "take") in self.events:
                self.steps.append({**it, "take": self.events[number(it, "take")]})
                self.own.append(None)
            else:
                continue
            simulation = self.simulated()
            if simulation is None:
                return None
        return simulation

    def simulated(self) -> Optional[Simulation]:
        """The simulation up to here; it says which call became which event."""
        schedule: Dict[str, object] = {**self.run.schedule, "steps": self.steps}
        _, text = program.run_on(self.spec.text, "simulate", schedule=schedule)
        if not text.startswith("cise simulate"):
            return None
        simulation = Simulation(text)
        waiting: Dict[int, int] = {}
        for step, replica, said in simulation.steps:
            own = self.own[step]
            if said[0] == "awaits" and own is not None:
                waiting[replica] = own
            elif said[0] == "call":
                self.events[own if own is not None else waiting[replica]] = int(said[1])
        return simulation

    def text(self, call: int) -> str:
        """A call of the run as text."""
        it = self.calls[call]
        return str(Call(self.spec, self.names, it["call"], it["args"]).text())

    def lines(self, simulation: Simulation) -> List[str]:
        """What is said of each step."""
        lines, waiting = [], {}  # type: List[str], Dict[int, int]
        turns = self.turns()
        for step, replica, said in simulation.steps:
            own, who = self.own[step], REPLICAS[replica]
            if said[0] == "awaits" and own is not None:
                waiting[replica] = own
                other = turns.get((int(said[1]), int(said[2])))
                what = (
                    f"{REPLICAS[int(said[1])]}'s {self.calls[other]['call']}"
                    if other is not None
                    else "another call"
                )
                lines.append(f"{who}  {self.text(own)} waits for {what}")
            elif said[0] in ("call", "void"):
                call = own if own is not None else waiting[replica]
                lines.append(f"{who}  {self.text(call)}{self.said(call, said)}")
            elif said[0] == "take":
                taken = next(it for it, event in self.events.items() if event == int(said[1]))
                lines.append(f"{who}  takes {self.maker(taken)}'s {self.calls[taken]['call']}")
        return lines

    def maker(self, call: int) -> str:
        """The replica that makes a call."""
        return REPLICAS[number(self.calls[call], "replica")]

    def said(self, call: int, said: Sequence[str]) -> str:
        """What is said behind a call that is made or turned down."""
        if said[0] == "call":
            return ""
        if said[1] == "range":
            return " is turned down: a number would leave its range"
        head = "requires" if said[1] == "precondition" else "observes"
        line = self.spec.operations[self.calls[call]["call"]].of(head)[int(said[2]) - 1]
        return f" is turned down: line {line.number}, which it {head}, is false there"

    def turns(self) -> Dict[Tuple[int, int], int]:
        """For each replica and turn of it the call."""
        found: Dict[Tuple[int, int], int] = {}
        counts: Dict[int, int] = {}
        for at, it in enumerate(self.calls):
            replica = number(it, "replica")
            found[replica, counts.get(replica, 0)] = at
            counts[replica] = counts.get(replica, 0) + 1
        return found


def carried_out(spec: Spec, run: Run) -> List[str]:
    """A run's calls under the protocol of tokens of a specification, as lines."""
    course = Course(spec, run)
    simulation = course.carry_out()
    if simulation is None:
        return ["  The program took no simulation of them."]
    lines = [line for it in course.lines(simulation) for line in wrapped(it, 4, 7)]
    word, *rest = simulation.stop or [""]
    if word == "broken":
        end = f"Then {rest[1]} is false: tokens don't mend it."
    elif word == "refused":
        end = "There the simulation stops: a call waits at this replica already."
    else:
        end = "No invariant is false after any of these steps."
    return [*lines, *wrapped(end, 2)]
