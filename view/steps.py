"""The steps of a replay, and what changes by each. The program's text has the state at the end
alone; the states before it come from replays of the same schedule cut short, so that no effect is
worked out here."""
from __future__ import annotations

import json
import os
import tempfile
from typing import Any

from view import order, program, schedule
from view.given import given
from view.report import Replay, State
from view.story import Call, Names
from view.tree import Line, Spec
from view.words import encoded

# The steps whose changes are asked for, the last ones.
MOST_STEPS = 80
# For each cause of a refusal what it means, in a few words for a box of a picture. Calls are
# numbered as events are.
BRIEFLY = {
    "replica": "no such replica",
    "operation": "no such operation",
    "arguments": "the arguments don't fit",
    "conflict": "conflicts with call {call}",
    "precondition": "requires line {line}",
    "observation": "observes line {line}",
    "noevent": "no such call",
    "seen": "taken already",
    "missing": "call {call} is to be taken before",
    "range": "beyond the range",
}


class Step:
    """A step.

    number, replica  as in the schedule
    kind, event      call or take, and the event that it makes or takes: calls are numbered from 0,
                     as they are accepted
    operation        the name of the event's operation, as the schedule has it; None where there is
                     no such event
    call             the event's call; None where there is none, or where its arguments don't fit
    changes          what changes at the replica, as texts; None where that wasn't asked for
    """

    def __init__(
        self,
        number: int,
        replica: int,
        kind: str,
        event: int,
        operation: str | None,
        call: Call | None,
    ) -> None:
        self.number, self.replica, self.kind, self.event = number, replica, kind, event
        self.operation, self.call = operation, call
        self.changes: list[str] | None = None

    def what(self) -> str:
        """The call that it makes or takes, as text; where its arguments don't fit the name of its
        operation."""
        return self.call.text() if self.call else str(self.operation)


class CutShort:
    """Replays of the first steps of a schedule. States don't depend on invariants, which are left
    out, so that the program need not evaluate them at each step once more."""

    def __init__(self, spec: Spec, plan: dict[str, Any] | None, folder: str) -> None:
        self.spec_path, self.plan_path = os.path.join(folder, "design.cise"), os.path.join(
            folder, "schedule.json"
        )
        text = spec.text
        for head, words in reversed(spec.items):
            if head == "invariant":
                text = text[: head.at] + text[words[-1].end :]
        with open(self.spec_path, "wb") as file:
            file.write(encoded(text))
        plan = given(plan)
        self.steps = [json.dumps(it) for it in plan["steps"]]
        rest = json.dumps({key: value for key, value in plan.items() if key != "steps"})
        self.head = rest[: -len("}")] + ', "steps": ['

    def states_after(self, number: int) -> list[State]:
        """The states after so many steps, each of which is accepted."""
        with open(self.plan_path, "w", encoding="utf-8") as file:
            file.write(f"{self.head}{','.join(self.steps[:number])}]}}")
        status, text = program.run("replay", self.spec_path, self.plan_path)
        _, stop, end = text.partition("\ndone ")
        if status or not stop:
            raise program.Stopped(("replay", self.spec_path, self.plan_path), status, text)
        return Replay(stop + end).states


class Steps:
    """The steps of a replay.

    spec, schedule, text, replay  what they are read off
    names     `Names` of the elements
    calls     the call of each event
    accepted  the accepted steps, in order
    first     the number of the first step whose changes are known
    refused   the refused step, or None; then `cause` is its cause, and `line` the line that is
              false there, or None
    broken    the name of the invariant that broke, or None
    """

    def __init__(self, spec: Spec, plan: dict[str, Any], text: str) -> None:
        self.spec, self.schedule, self.text, self.replay = spec, plan, text, Replay(text)
        self.names = Names(spec, plan["constants"])
        self.calls: list[Call] = []
        self.accepted = [self.step(number, *it) for number, it in enumerate(self.replay.steps)]
        self.first = max(0, len(self.accepted) - MOST_STEPS)
        self.ask_changes()
        stop = self.replay.stop
        self.broken = stop[2] if stop[0] == "broken" else None
        self.refused: Step | None = None
        self.cause: str | None = None
        self.line: Line | None = None
        if stop[0] == "refused":
            self.refused, self.cause = self.refused_step(int(stop[1])), stop[2]
            if self.cause in ("precondition", "observation"):
                head = "requires" if self.cause == "precondition" else "observes"
                self.line = spec.operations[str(self.refused.operation)].of(head)[int(stop[3]) - 1]

    def step(self, number: int, replica: int, kind: str, event: int) -> Step:
        if kind == "call":
            raw = self.schedule["steps"][number]
            self.calls.append(Call(self.spec, self.names, raw["call"], raw["args"]))
        call = self.calls[event]
        return Step(number, replica, kind, event, call.op, call)

    def refused_step(self, number: int) -> Step:
        raw = self.schedule["steps"][number]
        if "take" in raw:
            call = self.calls[raw["take"]] if raw["take"] < len(self.calls) else None
            return Step(number, raw["replica"], "take", raw["take"], call and call.op, call)
        operation = self.spec.operations.get(raw["call"])
        fits = operation and len(operation.params) == len(raw["args"])
        call = Call(self.spec, self.names, raw["call"], raw["args"]) if fits else None
        return Step(number, raw["replica"], "call", len(self.calls), raw["call"], call)

    def ask_changes(self) -> None:
        """Asks the program for the state before and after each of the last steps."""
        with tempfile.TemporaryDirectory() as folder:
            replays = CutShort(self.spec, self.schedule, folder)
            before = None
            for number in range(self.first, len(self.accepted) + 1):
                now = (
                    self.replay.states
                    if number == len(self.accepted)
                    else replays.states_after(number)
                )
                if before is not None:
                    step = self.accepted[number - 1]
                    step.changes = [
                        text
                        for _, text in self.names.changes(before[step.replica], now[step.replica])
                    ]
                before = now

    def drawn(self) -> list[Step]:
        """The steps whose changes are known, and behind them the refused step."""
        return self.accepted[self.first :] + ([self.refused] if self.refused else [])

    def left(self) -> int:
        """How many steps of the schedule weren't replayed, because the replay stopped before
        them."""
        return len(self.schedule["steps"]) - len(self.accepted) - (1 if self.refused else 0)

    def other(self) -> int | None:
        """The event that a refusal names, or None."""
        return int(self.replay.stop[3]) if self.cause in ("conflict", "missing") else None

    def briefly(self) -> str:
        """Why the step was refused, in a few words."""
        return BRIEFLY[given(self.cause)].format(
            call=self.other(), line=self.line and self.line.number
        )

    def why(self) -> str:
        """Why the step was refused, in sentences of which the first begins small."""
        message, more = schedule.Course(self.spec, self.schedule, self.text).meaning()
        said = [message] + ([more[:-1]] if more else [])
        if self.cause == "conflict":
            own, other = str(given(self.refused).operation), self.calls[given(self.other())].op
            both = f"Two calls of {own}" if own == other else f"Calls of {own} and {other}"
            said.append(
                f"{both} are {order.sentence(order.conditions(self.spec, own, other), own, other)}"
            )
        return "".join(f"{it}. " for it in said).rstrip()
