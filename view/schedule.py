"""What is wrong with a schedule that the program refuses, for people: the place of what isn't JSON,
what was expected at a path of the schedule, and what a refused step means. The program says which
check fails; docs/users/SCHEDULE.md has the checks in their order."""
from __future__ import annotations

from typing import Any

from view import located
from view.given import given
from view.located import NotJson
from view.slips import Slip, at_byte, position
from view.story import Call, Names
from view.tree import Spec

BEGIN = "refused schedule "
MOST_BYTES = 1 << 24
MOST_SIZE, MOST_REPLICAS, MOST_STEPS, MOST_PLACE = 64, 16, 10000, 2**32 - 1
KEYS = ["sizes", "constants", "replicas", "steps"]
CALL_KEYS, TAKE_KEYS = ["replica", "call", "args"], ["replica", "take"]


def slip_of(spec: Spec, text: str, refusal: str) -> Slip:
    """The slip that a refusal of a schedule speaks of, which is the program's line without its
    first two words."""
    parts = refusal.split()
    if parts[0] == "long":
        return slip(
            text,
            at_byte(text, MOST_BYTES),
            f"a schedule has at most {MOST_BYTES:,} bytes, and they end here",
        )
    try:
        value = located.read(text)
    except NotJson as wrong:
        return slip(text, wrong.at, "no JSON: " + wrong.message)
    if parts[0] == "json":
        return slip(text, 0, "this is no JSON")
    at, message, more = fault(spec, value, parts[1], parts[2:])
    return slip(text, at, message, more)


def slip(text: str, at: int, message: str, more: str | None = None, length: int = 1) -> Slip:
    line, column = position(text, at)
    return Slip(line, column, length, message, more)


def fault(
    spec: Spec, top: located.Value, part: str, rest: list[str]
) -> tuple[int, str, str | None]:
    """Where a schedule that is JSON is wrong: the place, a message, and a sentence or None."""
    if part == "top":
        return keys_fault(top, KEYS, "a schedule")
    if part in ("sizes", "constants"):
        member = top.value[part]
        if not rest:
            named = list(map(str, spec.sorts if part == "sizes" else spec.consts))
            return keys_fault(member, named, "sizes" if part == "sizes" else "constants")
        name = rest[0]
        if part == "sizes":
            return range_fault(
                member.value[name], f"sizes {name}: how many elements there are", 0, MOST_SIZE
            )
        size = top.value["sizes"].value[spec.consts[name]].whole()
        return range_fault(
            member.value[name],
            f"constants {name}: which element of sort {spec.consts[name]} it is",
            0,
            size - 1,
        )
    if part == "replicas":
        return range_fault(top.value[part], "replicas: how many there are", 1, MOST_REPLICAS)
    if part == "steps":
        steps = top.value[part]
        if steps.kind != "list":
            return steps.at, f"steps: a list is needed, and this is {kind_of(steps)}", None
        return (
            steps.value[MOST_STEPS].at,
            f"steps: there are at most {MOST_STEPS:,}, and this is one more",
            None,
        )
    step = top.value["steps"].value[int(rest[0])]
    at, message, more = step_fault(step)
    return at, f"step {rest[0]}: {message}", more


def kind_of(value: located.Value) -> str:
    """What a value is, in words; of a number that itself."""
    if value.kind == "number":
        return str(value.value)
    return {"object": "an object", "list": "a list", "text": "a text"}.get(value.kind, value.kind)


def keys_fault(value: located.Value, keys: list[str], what: str) -> tuple[int, str, str | None]:
    """An object that hasn't exactly the keys that it should have."""
    needed = f"its keys are exactly {', '.join(keys)}" if keys else "it has no keys"
    if value.kind != "object":
        return (
            value.at,
            f"{what}: an object is needed, and this is {kind_of(value)}",
            f"{needed[0].upper()}{needed[1:]}.",
        )
    for key, at in given(value.keys).items():
        if key not in keys:
            return at, f"{what}: there is no key {key}; {needed}", None
    missing = [it for it in keys if it not in value.value]
    return (
        value.at,
        f"{what}: {', '.join(missing)} {'is' if len(missing) == 1 else 'are'} missing; {needed}",
        None,
    )


def range_fault(
    value: located.Value, what: str, least: int, most: int
) -> tuple[int, str, str | None]:
    number = value.whole()
    if number is None or number < 0 and least == 0:
        spelled = value.kind == "number" and value.whole() is None
        more = "A whole number has no point, no exponent and no -0." if spelled else None
        return (
            value.at,
            f"{what}; a whole number from {least} on is needed, and this is {kind_of(value)}",
            more,
        )
    if most < least:
        return value.at, f"{what}; its sort has no element", None
    return value.at, f"{what}; it is from {least} to {most}, and this is {value.whole()}", None


def step_fault(step: located.Value) -> tuple[int, str, str | None]:
    """What is wrong with the form of a step."""
    if step.kind != "object":
        return step.at, f"an object is needed, and this is {kind_of(step)}", None
    keys = TAKE_KEYS if "take" in step.value and "call" not in step.value else CALL_KEYS
    what = "a taking" if keys is TAKE_KEYS else "a call"
    if sorted(step.value) != sorted(keys):
        if "take" not in step.value and "call" not in step.value and step.value:
            return (
                step.at,
                "a step has either the keys replica, call and args, or the keys replica and take",
                None,
            )
        return keys_fault(step, keys, what)
    for key in ("replica", "take"):
        member = step.value.get(key)
        if member and not 0 <= (-1 if member.whole() is None else member.whole()) <= MOST_PLACE:
            return (
                member.at,
                (
                    f"{key}: a whole number from 0 to {MOST_PLACE:,} is needed, and this is"
                    f" {kind_of(member)}"
                ),
                None,
            )
    call, args = step.value.get("call"), step.value.get("args")
    if call.kind != "text" or not 1 <= len(call.value.encode()) <= 32:
        return call.at, "call: the name of an operation is needed, a text of 1 to 32 bytes", None
    if args.kind != "list":
        return args.at, f"args: a list is needed, and this is {kind_of(args)}", None
    wrong = next(it for it in args.value if it.whole() is None)
    more = "An element is the number that it has in its sort, from 0."
    return (
        wrong.at,
        "args: elements and whole numbers stand here as numbers, without a point or an exponent",
        more,
    )


class Course:
    """The steps of a replay or a simulation up to the one that was refused. `made` are those that
    made a call; no refusal of a simulation speaks of an event."""

    def __init__(self, spec: Spec, schedule: dict[str, Any], text: str) -> None:
        self.spec, self.steps = spec, schedule["steps"]
        self.names = Names(spec, schedule["constants"])
        self.stop = next(line.split() for line in text.splitlines() if line.startswith("refused "))
        accepted = [line.split() for line in text.splitlines() if line.startswith("step ")]
        self.made = [self.steps[int(it[1])] for it in accepted if it[4] == "call"]

    def event(self, number: int) -> str:
        """An event with its call: `call 1, withdraw(a = Account#0, n = 60) of replica 0`."""
        step = self.made[number]
        return (
            f"call {number}, {Call(self.spec, self.names, step['call'], step['args']).text()} of"
            f" replica {step['replica']}"
        )

    def meaning(self) -> tuple[str, str | None]:
        """What the refusal of the step means, and a sentence more or None."""
        cause, rest, step = self.stop[2], self.stop[3:], self.steps[int(self.stop[1])]
        who = f"replica {step['replica']}"
        if cause == "conflict":
            more = (
                "By the tokens one of the two has to know of the other: let the replica take that"
                " call first."
            )
            return f"it conflicts with {self.event(int(rest[0]))}, which {who} hasn't taken", more
        if cause in ("precondition", "observation"):
            line = self.spec.operations[step["call"]].of(
                "requires" if cause == "precondition" else "observes"
            )[int(rest[0]) - 1]
            return (
                (
                    f"line {line.number} of the specification is false at {who}:"
                    f" {' '.join(line.text.split())}"
                ),
                None,
            )
        if cause == "missing":
            made, known = self.event(step["take"]), self.event(int(rest[0]))
            more = "Replicas take a call only after all that it knew of."
            return (
                f"{made} was made where {known} had been taken, and {who} hasn't taken that",
                more,
            )
        if cause == "range":
            *place, value = rest
            return (
                (
                    f"{self.names.thing(place[0], list(map(int, place[1:])))} would be {value},"
                    " beyond -10^15 to 10^15"
                ),
                None,
            )
        return self.short(cause, step, who), None

    def short(self, cause: str, step: dict[str, Any], who: str) -> str:
        if cause == "replica":
            return f"there is no replica {step['replica']}; they are numbered from 0"
        if cause == "operation":
            return f"there is no operation {step['call']}"
        if cause == "arguments":
            operation = self.spec.operations[step["call"]]
            params = (
                ", ".join(f"{name} : {kind}" for name, kind in operation.params) or "no parameter"
            )
            return f"the arguments don't fit {operation.name}: {params}"
        if cause == "noevent":
            return f"there is no call {step['take']} so far; accepted calls are numbered from 0"
        if cause == "waiting":
            return f"a call of {who} waits for its grant already"
        return f"{who} has taken {self.event(step['take'])} already"


def refused_step(spec: Spec, text: str, replay: str) -> Slip:
    """The slip of a step that was refused, from the text of the schedule and of the replay or the
    simulation."""
    top = located.read(text)
    course = Course(spec, top.plain(), replay)
    message, more = course.meaning()
    number = int(course.stop[1])
    step = top.value["steps"].value[number]
    return slip(text, step.at, f"step {number} is refused: {message}", more, step.end - step.at)
