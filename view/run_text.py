"""A run to a harm in words: a line for each call and taking, and what is wrong at the end."""
from __future__ import annotations

from typing import Dict, List, Optional, Set, Tuple

from view.columns import joined, wrapped
from view.formulas import readings_of
from view.harms import BROKEN, DIFFER, REFUSED, Run, Step, events_of
from view.reaching import Found
from view.report import Block, State
from view.shrinking import number
from view.story import Call, Names
from view.tree import Line, Spec

NO_CLAIM = "That is what was tried, and no proof that nothing leads there."
Place = Tuple[str, Tuple[int, ...]]
# The most facts that the end of a run is told with.
MOST_FACTS = 4
REPLICAS = "ABCDEFGHIJKLMNOP"


class RunText:
    """The words of a run. Replicas are called A, B and so on."""

    def __init__(self, spec: Spec, run: Run) -> None:
        self.spec, self.run = spec, run
        constants = run.schedule["constants"]
        self.names = Names(spec, constants)
        self.calls = [Call(spec, self.names, it["call"], it["args"]) for it in run.calls()]
        self.makers = [number(it, "replica") for it in run.calls()]

    def steps(self) -> List[str]:
        """The lines of the steps, each with its replica. What others take at once stands behind."""
        lines, told = [], set()  # type: List[str], Set[int]
        steps, event = self.run.steps(), 0
        for at, it in enumerate(steps):
            who = REPLICAS[number(it, "replica")]
            if "call" in it:
                takers = self.takers_before_calls(steps, at, event, told)
                behind = (
                    f"   ({joined(takers)} {'take' if len(takers) > 1 else 'takes'} it)"
                    if takers
                    else ""
                )
                lines.append(f"{who}  {self.calls[event].text()}{behind}")
                event += 1
            elif at not in told:
                taken = number(it, "take")
                lines.append(
                    f"{who}  takes {REPLICAS[self.makers[taken]]}'s {self.calls[taken].op}"
                )
        return lines

    def takers_before_calls(
        self, steps: List[Step], at: int, event: int, told: Set[int]
    ) -> List[str]:
        """Who takes an event before it makes a call of its own, where calls follow; these takings
        are told with the call."""
        found = []
        last = max(place for place, it in enumerate(steps) if "call" in it)
        for place, it in enumerate(steps[at + 1 : last], at + 1):
            if it.get("take") == event:
                told.add(place)
                found.append(REPLICAS[number(it, "replica")])
        return found

    def ending(self) -> str:
        """What is wrong at the end, in a sentence or two, by the program's replay."""
        run, last = self.run, self.run.steps()[-1:] or [{"replica": 0}]
        replica = number(last[0], "replica")
        who = REPLICAS[replica]
        if run.harm == BROKEN:
            line = self.spec.invariants[run.what]
            there = f"at {who}" if run.steps() else "at the start"
            facts = self.facts_of(line, run.replay.states[replica])
            return f"Then {run.what} is false {there}{facts}."
        if run.harm == DIFFER:
            return self.differing()
        line = self.spec.operations[self.calls[-1].op].of("requires")[int(run.what) - 1]
        first = next((it for it in self.calls[:-1] if it.text() == self.calls[-1].text()), None)
        allowed = (
            f", though {REPLICAS[self.makers[self.calls.index(first)]]} could make it"
            if first
            else ""
        )
        why = f"line {line.number}, which it requires, is false at {who}"
        return f"The last call is refused{allowed}: {why}."

    def refused(self) -> str:
        """The end of a run whose last call is refused, where that call isn't told with the
        others."""
        run, who = self.run, REPLICAS[self.makers[-1]]
        operation = self.calls[-1].op
        line = self.spec.operations[operation].of("requires")[int(run.what) - 1]
        why = f"line {line.number}, which it requires, is false there"
        return f"Then {operation} is refused at {who}: {why}."

    def differing(self) -> str:
        """What two replicas read differently that have taken the same calls."""
        replay = self.run.replay
        sets = [events_of(replay, it) for it in range(len(replay.states))]
        pairs = [(a, b) for b in range(len(sets)) for a in range(b) if sets[a] == sets[b]]
        for a, b in pairs:
            one, other = replay.states[a], replay.states[b]
            said = [
                f"{self.names.thing(*it)} is {self.names.read(one, *it)} at {REPLICAS[a]}"
                f" and {self.names.read(other, *it)} at {REPLICAS[b]}"
                for it in self.places_apart(one, other)[:MOST_FACTS]
            ]
            if said:
                return f"Both have then taken the same calls, and {'; '.join(said)}."
        return "Both have then taken the same calls, and they differ."

    def places_apart(self, one: State, other: State) -> List[Place]:
        """Where two states read differently."""
        found = {it for it, _ in self.names.changes(one, other)}
        return list(self.names.sorted(found))

    def facts_of(self, line: Optional[Line], state: State) -> str:
        """What of a state a line can read, as `: balance(Account#0) = -1`; nothing where that is
        much."""
        read = {str(name) for name, _ in readings_of(line.tree())} if line else set()
        shown = State()
        shown.true = {it for it in state.true if it[0] in read}
        shown.count = {it: value for it, value in state.count.items() if it[0] in read}
        facts = self.names.facts(shown)
        return f": {', '.join(facts)}" if 0 < len(facts) <= MOST_FACTS else ""


def told(spec: Spec, run: Run, indent: int) -> List[str]:
    """A run as lines."""
    text = RunText(spec, run)
    lines = [line for it in text.steps() for line in wrapped(it, indent + 2, indent + 5)]
    return [*lines, *wrapped(text.ending(), indent)]


def sizes_told(sizes: Dict[str, int]) -> str:
    """As `2 of Account and 1 of Seat`."""
    return str(joined([f"{size} of {sort}" for sort, size in sizes.items()]))


def count_of(number_: int, one: str, many: str) -> str:
    """As `1 call`, `3 calls`."""
    return f"{number_:,} {one if number_ == 1 else many}"


def tried(spec: Spec, found: Found) -> List[str]:
    """How far was looked for a refutation that no run was found for, in sentences."""
    if found.is_stopped:
        return ["No run was looked for: the program took no specification made for that."]
    if found.is_large:
        return ["Its sizes are beyond those of a schedule, so no run was looked for."]
    if found.broken_start:
        return [
            f"The invariant {found.broken_start} is false at the start, so every run ends there. "
            "Mend that first."
        ]
    if found.world is None:
        return ["Not looked for: the time ended before."]
    sizes = sizes_told(dict(found.world.sizes))
    states = count_of(found.states, "state was", "states were")
    where = f"{states} tried, which up to {count_of(found.calls, 'call leads', 'calls lead')} to"
    if not found.calls:
        where = "No call that was tried leads from the start to another state"
    ending = (
        "in none of them do such calls do harm"
        if found.calls
        else "and there such calls do no harm"
    )
    said = [f"Not found. {where}{f', with {sizes}' if sizes else ''}; {ending}. {NO_CLAIM}"]
    never = never_raised(spec, found.block)
    unseen = [it for it in found.never if it not in never]
    if never:
        said.append(f"{raises_told(never)} Is one missing?")
    if unseen:
        said.append(
            f"In none of these states is there anything of {joined(unseen)}, "
            "as in the refutation's."
        )
    said.append(
        f"{'Otherwise, is' if never else 'Is'} an invariant forgotten that tells its state "
        "from those that come up?"
    )
    return said


def never_raised(spec: Spec, block: Block) -> List[str]:
    """Relations and counters that a refutation's state holds something of, and counters that its
    calls require something of, that begin false or 0, and that no operation inserts, adds to or
    sets."""
    if block.witness is None:
        return []
    needed = {str(thing) for thing, _, _ in block.witness.state.listed}
    lines = [it for name, _ in block.witness.calls for it in spec.operations[name].of("requires")]
    read = {str(name) for line in lines for name, _ in readings_of(line.tree())}
    needed |= {str(it) for it in spec.counters if str(it) in read}
    begun = {str(thing) for thing, value in spec.initially.items() if value not in ("false", "0")}
    raising = [it for one in spec.operations.values() for it in one.of("insert", "add", "set")]
    return sorted(needed - begun - {str(it.thing()[0]) for it in raising})


def raises_told(names: List[str]) -> str:
    """That no operation raises some relations and counters."""
    return f"No operation ever raises {joined(names)}."


def in_short(spec: Spec, found: Found) -> List[str]:
    """What a short search has found for a story, in a sentence or two."""
    if found.run:
        return [comes_up(spec, found.block, found.run)]
    if found.is_stopped or found.is_large or found.broken_start:
        return tried(spec, found)
    never = never_raised(spec, found.block)
    said = "Whether it comes up isn't known: a short search found no run to it; reach looks longer."
    return [said + (f" {raises_told(never)}" if never else "")]


def comes_up(spec: Spec, block: Block, run: Run) -> str:
    """That a story comes up, and by which calls."""
    text = RunText(spec, run)
    if not run.steps():
        return "It comes up before any call."
    first = len(text.calls) - run.own
    before = [it.text() for it in text.calls[:first]]
    own = [
        f"{REPLICAS[who]} {it.text()}" for who, it in zip(text.makers[first:], text.calls[first:])
    ][:2]
    told_calls: list[tuple[str, list[int]]] = block.witness.calls if block.witness else []
    count = len(told_calls)
    is_same = [(it["call"], it["args"]) for it in run.calls()[first : first + count]] == told_calls
    if is_same:
        how = ("by this call" if count == 1 else "by these calls") + (
            f" after {', '.join(before)}" if before else " at the start"
        )
    else:
        how = f"by {', '.join(own)}" + (f" after {', '.join(before)}" if before else "")
    return f"It comes up, {how}. {text.ending() if run.harm != REFUSED else text.refused()}"
