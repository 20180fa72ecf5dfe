"""The states at the end of a refutation. A report doesn't say them; the program does, by its replay
of a small specification that is made for the refutation. So no effect and no formula is worked out
here, and each refutation is confirmed once more.

The small specification declares the same sorts, constants, relations and counters, and no
invariant, token or initial value. It has

- an operation for each two things of the witness's state, which sets them up; - the operations of
the calls, with what they require and what they change; - a test: an operation that changes nothing
and requires the line that fails, with the elements at which it fails as parameters.

Replica A sets the state up, and B takes that. Then each makes its call, which the program accepts
only where what the call requires is true.

    init     the initial values are kept; the test is refused
    safety   the test is accepted; A makes the call; the test is refused
    commute  A and B each make a call and take the other's; the thing reads differently
    stable   A and B each make a call; at B the test is refused

A test that is refused is the last step, and the program has to say so: `refused K precondition 1`.
"""
from __future__ import annotations

from itertools import count, zip_longest
from typing import Any, Iterator, Sequence

from view import program
from view.given import given
from view.report import Block, Replay, State
from view.tree import UPDATES, Line, Spec

# What a schedule can say at most.
MOST_ELEMENTS, MOST_STEPS = 64, 10_000
# The most parameters of an operation.
MOST_PARAMETERS = 6


class Outcome:
    """`states` are those at the end: of A alone for init and safety, of A and B for commute; for
    stable that of each after its own call. They are None where they can't be had, and then `why` is
    a sentence that says why."""

    def __init__(self, states: list[State] | None, why: str | None = None) -> None:
        self.states, self.why = states, why


def outcome(spec: Spec, block: Block) -> Outcome:
    """The outcome of a refuted block, by one run of the program or none."""
    witness = block.refutation()
    large = [it for it, size in witness.sizes.items() if size > MOST_ELEMENTS]
    if large:
        return Outcome(
            None,
            (
                f"{large[0]} has {witness.sizes[large[0]]} elements, and a replay can have"
                f" {MOST_ELEMENTS} of a sort."
            ),
        )
    # A step sets up two facts at most.
    made = (
        Confirmation(spec, block)
        if len(witness.state.true) + len(witness.state.count) <= 2 * MOST_STEPS
        else None
    )
    if not made or len(made.steps) > MOST_STEPS:
        return Outcome(None, f"A replay can have {MOST_STEPS:,} steps, and this state needs more.")
    _, text = program.replay(made.text(), made.schedule())
    if not text.startswith("cise replay"):
        return Outcome(None, "The program took no replay of it.")
    replay = Replay(text)
    if replay.stop == made.expected() and made.differs(replay.states):
        return Outcome(replay.states)
    if replay.stop[0] == "refused" and replay.stop[2] == "range":
        return Outcome(
            None, f"A value of {replay.stop[3]} leaves the range of a replay, 10^15 to either side."
        )
    return Outcome(None, f"The program's replay of it ended otherwise: {' '.join(replay.stop)}.")


def failing_line(spec: Spec, block: Block) -> Line | None:
    """The line of the specification that a block is about: an invariant or a requires line, or None
    for commute."""
    if block.kind == "commute":
        return None
    if block.kind == "stable":
        return spec.operations[block.names[0]].of("requires")[int(block.names[1]) - 1]
    return spec.invariants[block.names[-1]]


class Confirmation:
    """The small specification and the schedule that carry a refuted block out."""

    def __init__(self, spec: Spec, block: Block) -> None:
        self.spec, self.block, self.witness = spec, block, block.refutation()
        self.fresh = fresh_names(spec)
        self.replicas = len(self.witness.calls) or 1
        self.lines = declarations(spec)
        self.steps: list[dict[str, Any]] = []
        if block.kind == "init":
            self.lines += [f"initially {thing} {value}" for thing, value in spec.initially.items()]
        else:
            self.set_up()
        self.make_calls()

    def text(self) -> str:
        return "\n".join(self.lines) + "\n"

    def schedule(self) -> dict[str, Any]:
        return {
            "sizes": self.witness.sizes,
            "constants": self.witness.consts,
            "replicas": self.replicas,
            "steps": self.steps,
        }

    def expected(self) -> list[str]:
        """The parts of the line with which the replay has to stop."""
        if self.block.kind == "commute":
            return ["done", str(len(self.steps))]
        return ["refused", str(len(self.steps) - 1), "precondition", "1"]

    def differs(self, states: list[State]) -> bool:
        """Of commute: whether the thing reads differently at A and B."""
        if self.block.kind != "commute":
            return True
        place = self.block.names[2], tuple(self.witness.at)
        a, b = [(place in it.true, it.count.get(place, 0)) for it in states]
        return a != b

    def call(self, replica: int, operation: str, arguments: list[int]) -> None:
        self.steps.append({"replica": replica, "call": operation, "args": arguments})

    def take(self, replica: int, event: int) -> None:
        self.steps.append({"replica": replica, "take": event})

    def declare(self, name: str, params: Sequence[tuple[str, str]], lines: list[str]) -> None:
        """Writes an operation; `params` are pairs (parameter, sort), `lines` texts."""
        self.lines += [
            f"operation {name}{bracketed([f'{it} : {sort}' for it, sort in params])}",
            *lines,
            "end",
        ]

    def set_up(self) -> None:
        """Makes the witness's state at A, two things at a time: so there are at most 12 operations
        for it. B takes it."""
        held: dict[str, list[list[int]]] = {}
        for thing, elements in sorted(self.witness.state.true):
            held.setdefault(thing, []).append(list(elements))
        for (thing, elements), value in sorted(self.witness.state.count.items()):
            held.setdefault(thing, []).append([*elements, value])
        things = list(held)
        for two in (things[at : at + 2] for at in range(0, len(things), 2)):
            name, params, lines = next(self.fresh), [], []
            for thing in two:
                own = [(next(self.fresh), sort) for sort in self.spec.places(thing)]
                head, amount = "insert", []
                if thing in self.spec.counters:
                    head, amount = "set", [(next(self.fresh), "int")]
                line = f"  {head} {thing}{bracketed([it for it, _ in own])} "
                lines.append((line + "".join(it for it, _ in amount)).rstrip())
                params += own + amount
            self.declare(name, params, lines)
            last = [held[thing][-1] for thing in two]
            for row in zip_longest(*(held[thing] for thing in two)):
                self.call(
                    0,
                    name,
                    [
                        it
                        for part, rest in zip(row, last)
                        for it in (rest if part is None else part)
                    ],
                )
        if self.replicas == 2:
            for event in range(len(self.steps)):
                self.take(1, event)
        self.events = sum("call" in it for it in self.steps)

    def make_calls(self) -> None:
        """The calls of the witness, and what is asked behind them."""
        for name in dict.fromkeys(it for it, _ in self.witness.calls):
            operation = self.spec.operations[name]
            self.declare(
                name,
                operation.params,
                ["  " + it.text for it in operation.of("requires", *UPDATES)],
            )
        test = None if self.block.kind == "commute" else self.declare_test()
        if self.block.kind == "safety":
            self.call(0, *given(test))
        for replica, (called, arguments) in enumerate(self.witness.calls):
            self.call(replica, called, arguments)
        if self.block.kind == "commute":
            self.take(0, self.events + 1)
            self.take(1, self.events)
        else:
            self.call(self.replicas - 1, *given(test))

    def declare_test(self) -> tuple[str, list[int]]:
        """Writes the test, and gives its name and its arguments. Where parameters and variables
        together are more than an operation can have, the line keeps its `forall`."""
        line, used = failing_line(self.spec, self.block), []
        if self.block.kind == "stable":
            operation, arguments = self.witness.calls[0]
            used = [
                (*it, value)
                for it, value in zip(self.spec.operations[operation].params, arguments)
                if it[0] in given(line).formula
            ]
        chosen = (
            [(*it, value) for it, value in zip(given(line).vars, self.witness.at)]
            if given(line).prefix == "forall"
            else []
        )
        keeps = given(line).prefix == "exists" or len(used) + len(chosen) > MOST_PARAMETERS
        words = given(line).body if keeps else given(line).formula
        params = used if keeps else used + chosen
        name = next(self.fresh)
        self.declare(
            name,
            [it[:2] for it in params],
            [f"  requires {self.spec.text[words[0].at : words[-1].end]}"],
        )
        return name, [it[2] for it in params]


def fresh_names(spec: Spec) -> Iterator[str]:
    """Names that stand nowhere in the specification, one after the other."""
    known = set(map(str, spec.words))
    return (name for name in map("z{}".format, count()) if name not in known)


def declarations(spec: Spec) -> list[str]:
    """The first lines of the small specification."""
    lines = (
        ["cise 1"]
        + [f"sort {it}" for it in spec.sorts]
        + [f"const {it} : {sort}" for it, sort in spec.consts.items()]
    )
    lines += [f"relation {it}{bracketed(places)}" for it, places in spec.relations.items()]
    return lines + [f"counter {it}{bracketed(places)}" for it, places in spec.counters.items()]


def bracketed(parts: Sequence[str]) -> str:
    return f" ( {' , '.join(parts)} )" if parts else ""
