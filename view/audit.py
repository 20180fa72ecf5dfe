"""`./cise audit SPEC LOG..`: whether recorded runs of a system keep what the yes rests on. A log
that fits a schedule becomes one, and the program's replay judges it; docs/users/AUDIT.md says how a
larger one is looked at. It judges the log, not the system."""
import json
import os
import re
import tempfile
from typing import Any, Dict, List, Optional, Tuple

from view import inputs, program
from view.audit_findings import BROKEN, REFUSED, Finding, Teller
from view.causes import AT_END, Causes, Step
from view.columns import KEPT, wrapped
from view.logs import STATE, BadLine, Log
from view.output import printable, say
from view.steps import CutShort
from view.tree import Spec

BAD_WORDS, NOT_WRITTEN = 2, 7
MOST_ELEMENTS, MOST_REPLICAS, MOST_BYTES = 64, 16, 1 << 24
STOP = re.compile(r"^(?:done|broken|refused) .*$", re.M)
# The most logged states that are compared, each by a replay of its own.
MOST_STATES = 500
JUDGED = (
    "Checked by the program's replay. This judges the log, not the system: what isn't logged "
    "isn't seen."
)


def answer(path: str, *logs: str, **options: Any) -> Tuple[int, str]:
    """The status of the first finding, or 0, and what was found."""
    part = part_of(options.get("part"))
    if part is None:
        say("cise: audit --part I/N: the I-th of N parts, from 1\n")
        return BAD_WORDS, ""
    own = inputs.read(path).path
    program.answer("spell", own)
    spec = Spec(inputs.text_of(own))
    try:
        log = Log(spec, list(logs)).read()
    except BadLine as wrong:
        return REFUSED, f"{printable(wrong.path)}:{wrong.line}: form: {printable(wrong.message)}\n"
    audit = Audit(spec, log)
    if audit.fits() and not options.get("all") and part == (1, 1):
        audit.whole()
    else:
        from view import audit_slices

        audit_slices.look(audit, part)
    status, text = audit.told(bool(options.get("all")) or part != (1, 1))
    if options.get("schedule") and not audit.keep_schedule(options["schedule"]):
        return NOT_WRITTEN, text
    return status, text


def stop_of(text: str) -> List[str]:
    """The words of a replay's line on how it stopped."""
    found = STOP.search(text)
    return found.group().split() if found else []


def part_of(words: Optional[str]) -> Optional[Tuple[int, int]]:
    """The part that `--part I/N` names, (1, 1) without it, or None where it names none."""
    if words is None:
        return 1, 1
    one, _, all_of = words.partition("/")
    if not (one.isdigit() and all_of.isdigit() and 1 <= int(one) <= int(all_of)):
        return None
    return int(one), int(all_of)


class Audit:
    """An audit of a log: the `findings`, what was `looked` at and what wasn't (`left`), as
    sentences, and the `schedule` of the whole log or of the first finding."""

    def __init__(self, spec: Any, log: Log) -> None:
        self.spec, self.log, self.causes, self.teller = spec, log, Causes(log), Teller(log)
        self.findings: List[Finding] = []
        self.looked: List[str] = []
        self.left: List[str] = []
        self.schedule: Optional[Dict[str, Any]] = None

    def fits(self) -> bool:
        """Whether the log fits a schedule."""
        few = all(len(it) <= MOST_ELEMENTS for it in self.log.elements.values())
        return self.causes.steps is not None and few and len(self.log.replicas) <= MOST_REPLICAS

    def whole(self) -> None:
        """Lets the program replay the log as one schedule, and keeps the first finding."""
        steps = self.causes.steps or []
        self.schedule = schedule_of(self.log, steps)
        stop = self.replayed(steps)
        accepted = (
            len(steps)
            if stop[0] == "done"
            else 0
            if stop[1] == "start"
            else int(stop[1]) + (stop[0] == "broken")
        )
        doubts = sorted(self.causes.doubts, key=lambda it: it.before)[:1]
        if doubts and doubts[0].before <= accepted:
            accepted = doubts[0].before
            self.findings = [self.teller.doubted(self.causes, doubts[0])]
        elif stop[0] != "done":
            self.findings = [self.stopped(steps, stop)]
        self.compare_states(accepted)

    def replayed(self, steps: List[Step]) -> List[str]:
        """The program's line on how the replay of the schedule stopped."""
        status, text = program.run_on(self.spec.text, "replay", schedule=self.schedule)
        if not text.startswith("cise replay") or status not in (0, 1, 4):
            raise program.Stopped(("replay",), status, text)
        stop = stop_of(text)
        self.looked.append(
            f"as one schedule of {len(steps):,} {'step' if len(steps) == 1 else 'steps'}, whose "
            f"replay ends with `{KEPT.join(stop)}`"
        )
        return stop

    def stopped(self, steps: List[Step], stop: List[str]) -> Finding:
        """The finding that a replay's last line is."""
        if stop[1] == "start":
            return Finding(
                0, 1, "broken", f"invariant {stop[2]} is false in the initial state already", BROKEN
            )
        step = steps[int(stop[1])]
        made = [it.call for it in steps if not it.is_take]
        word = "broken" if stop[0] == "broken" else stop[2]
        text = meaning(self.teller, step, stop, made)
        return self.teller.finding(
            step.kind, step.row, word, text, BROKEN if word == "broken" else REFUSED
        )

    def compare_states(self, accepted: int) -> None:
        """Compares logged states with those of the replay, behind so many steps at most, up to the
        first that differs. That comes before what stops the replay."""
        rows = [row for row, before in sorted(self.causes.states.items()) if before <= accepted]
        if len(rows) > MOST_STATES:
            self.left.append(
                f"{len(rows) - MOST_STATES:,} of {len(rows):,} logged states: the first "
                f"{MOST_STATES} were compared"
            )
            rows = rows[:MOST_STATES]
        for row in rows:
            found = self.state_finding(row)
            if found:
                self.findings.insert(0, found)
                return
        if rows:
            self.looked.append(
                f"{len(rows)} logged {'state agrees' if len(rows) == 1 else 'states agree'}"
            )

    def state_finding(self, row: int) -> Optional[Finding]:
        """Where a logged state differs from that of the program, or None."""
        replica, said = self.log.states[row]
        with tempfile.TemporaryDirectory() as folder:
            state = CutShort(self.spec, self.schedule, folder).states_after(
                self.causes.states[row]
            )[replica]
        for thing, readings in said.items():
            known = {at: value for (its, at), value in state.count.items() if its == thing}
            known.update({at: 1 for its, at in state.true if its == thing})
            for key in sorted({*known, *readings}):
                one, two = readings.get(key, 0), known.get(key, 0)
                if one != two:
                    is_counter = thing in self.spec.counters
                    shown = [
                        str(it) if is_counter else "true" if it else "false" for it in (one, two)
                    ]
                    text = (
                        f"{self.teller.thing(thing, key)} is {shown[0]} by the log and {shown[1]} "
                        "by the specification"
                    )
                    return self.teller.finding(STATE, row, "state", text, BROKEN)
        return None

    def told(self, is_all: bool) -> Tuple[int, str]:
        """The status, and what was found as text."""
        log = self.log
        shown = self.findings if is_all else self.findings[:1]
        lines = [self.teller.line(it) for it in shown]
        calls, takes = len(log.op), len(log.taken)
        what = [f"{calls:,} {'call' if calls == 1 else 'calls'}"] + (
            [f"{takes:,} logged takings"] if takes else []
        )
        files = f"{len(log.paths)} {'file' if len(log.paths) == 1 else 'files'}"
        found = (
            "no finding"
            if not self.findings
            else "1 finding"
            if len(self.findings) == 1
            else f"{len(self.findings):,} findings"
        )
        if self.findings and not is_all:
            found = "the first finding is above"
        count = len(log.replicas)
        lines += wrapped(
            f"{', '.join(what)} of {count} {'replica' if count == 1 else 'replicas'} in {files}: "
            f"{found}",
            0,
            2,
        )
        lines += [
            line
            for it in self.looked
            for line in wrapped("looked at " + it if it.startswith("as ") else it, 0, 2)
        ]
        lines += [line for it in self.left for line in wrapped("not looked at: " + it, 0, 2)]
        return (self.findings[0].status if self.findings else 0), "\n".join(
            lines + wrapped(JUDGED)
        ) + "\n"

    def keep_schedule(self, path: str) -> bool:
        """Writes the schedule; whether it could. Standard error says which elements its numbers
        are."""
        if self.schedule is None:
            say("cise: audit: no schedule is written: the log fits none, and there is no finding\n")
            return True
        try:
            with open(path, "w", encoding="utf-8") as file:
                json.dump(self.schedule, file)
                file.write("\n")
        except OSError as error:
            say(f"cise: {printable(os.fsdecode(path))} can't be written: {error.strerror}\n")
            return False
        for sort, known in self.log.elements.items():
            if known and len(known) <= MOST_ELEMENTS:
                say(
                    "audit: "
                    f"{', '.join(f'{sort}#{at} is {printable(it)}' for it, at in known.items())}\n"
                )
        return True


def schedule_of(log: Log, steps: List[Step]) -> Dict[str, Any]:
    """Steps as a schedule."""
    numbers: Dict[int, int] = {}
    found: List[Dict[str, Any]] = []
    for it in steps:
        if it.is_take:
            found.append({"replica": it.replica, "take": numbers[it.call]})
        else:
            numbers[it.call] = len(numbers)
            found.append(
                {
                    "replica": it.replica,
                    "call": log.operations[log.op[it.call]],
                    "args": log.arguments_of(it.call),
                }
            )
    sizes = {sort: len(known) for sort, known in log.elements.items()}
    return {
        "sizes": sizes,
        "constants": dict(log.consts),
        "replicas": max(1, len(log.replicas)),
        "steps": found,
    }


def meaning(teller: Teller, step: Step, stop: List[str], made: List[int]) -> str:
    """What it means that the program stopped at a step."""
    replica = printable(teller.log.replicas[step.replica])
    at_end = " at the end, by no line of its own" if step.kind == AT_END else ""
    what = (
        f"{replica} takes {teller.known(step.call)}{at_end}"
        if step.is_take
        else teller.call(step.call)
    )
    if stop[0] == "broken":
        return f"{what}: then invariant {stop[2]} is false at {replica}"
    cause, rest = stop[2], stop[3:]
    if cause == "conflict":
        return teller.conflict(made[int(rest[0])], step.call, f"{replica} hadn't taken")
    if cause in ("precondition", "observation"):
        head = "requires" if cause == "precondition" else "observes"
        line = teller.spec.operations[teller.log.operations[teller.log.op[step.call]]].of(head)[
            int(rest[0]) - 1
        ]
        return (
            f"{what}: line {line.number} of the specification was false there: "
            f"{' '.join(line.text.split())}"
        )
    if cause == "missing":
        return (
            f"{what}: it had seen {teller.known(made[int(rest[0])])}, which {replica} hadn't taken"
        )
    if cause == "seen":
        return f"{what}: it was taken there already"
    *place, value = rest
    return (
        f"{what}: {teller.thing(place[0], list(map(int, place[1:])))} would be {value}, beyond "
        "-10^15 to 10^15"
    )
