"""An audit of a log that fits no schedule, or of a part of one, or of all findings: pairs of calls
by the index of tokens, each confirmed by the program on a schedule of its own; then slices of calls
that share no element, as many at a time as a schedule holds; in a large log each of several
processes replays some of them. A part of N has the tokens, and the slices, whose texts fall into
it."""
import gc
import json
import os
import zlib
from array import array
from concurrent.futures import ThreadPoolExecutor
from dataclasses import dataclass, field
from typing import Any, Dict, Iterator, List, Set, Tuple

from view import program
from view.audit import MOST_ELEMENTS, MOST_REPLICAS, Audit, meaning, schedule_of, stop_of
from view.audit_findings import BROKEN, REFUSED, Finding
from view.causes import AT_END, MOST_STEPS, Doubt, Step
from view.cut_text import bare
from view.inputs import Copy
from view.logs import CALL, TAKE, Log
from view.slice_lines import Sliced, sliced
from view.token_index import Index, Part
from view.words import encoded
from view.workers import shared, worth

# The most elements of a sort in one schedule, by the most variables of a line that the program goes
# through at each step.
MOST_BY_VARIABLES = {0: 56, 1: 56, 2: 40, 3: 14}
# What a step has, as a plain tuple, of which there are millions.
Row = Tuple[int, int, bool, int, int]
# Slices of logs with so many calls are replayed by several processes.
LARGE = 20_000
# Elements that stand for all of other slices: as many as a line has variables.
MOST_OUTSIDE = 3


def look(audit: Audit, part: Part) -> None:
    """Looks through a log, and keeps the findings in the order of the files and the lines."""
    log, causes = audit.log, audit.causes
    if part[0] == 1:
        confirm_doubts(audit)
    index = Index(log, causes, part)
    confirm_pairs(audit, index)
    if audit.fits():
        if part[0] == 1:
            one_schedule(audit)
    else:
        Slices(audit, part).look()
    found = dict.fromkeys(audit.findings)
    audit.findings = sorted(found, key=lambda it: (it.file, it.line, it.word, it.text))


def one_schedule(audit: Audit) -> None:
    """A log that fits a schedule is one slice. Its first conflict and doubts are findings
    already."""
    steps = audit.causes.steps or []
    schedule = audit.schedule
    audit.schedule = schedule_of(audit.log, steps)
    stop = audit.replayed(steps)
    if stop[0] != "done" and stop[2:3] not in (["conflict"], ["missing"], ["seen"]):
        audit.findings.append(audit.stopped(steps, stop))
    elif stop[0] == "done":
        audit.compare_states(len(steps))
    if schedule is not None:
        audit.schedule = schedule


def confirm_doubts(audit: Audit) -> None:
    """Keeps the lines that disagree with others; those of which a schedule can speak are confirmed
    by the program."""
    text = bare(audit.spec)
    for doubt in audit.causes.doubts:
        finding = audit.teller.doubted(audit.causes, doubt)
        steps = steps_of_doubt(audit.log, doubt)
        if steps:
            stop = replay_steps(text, audit.log, steps)[0]
            if stop[0] != "refused" or stop[2] != doubt.word:
                raise AssertionError(
                    f"the program says {' '.join(stop)} of {audit.teller.line(finding)}"
                )
        audit.findings.append(finding)
    judged = [it for it in audit.causes.doubts if it.word in ("missing", "seen")]
    rest = len(audit.causes.doubts) - len(judged)
    if rest:
        audit.looked.append(
            f"{rest:,} of the findings compare lines with each other, of which no schedule speaks"
        )


def steps_of_doubt(log: Log, doubt: Doubt) -> List[Step]:
    """The steps of a schedule that is refused as a doubted taking is, or none."""
    if doubt.word == "seen":
        call = doubt.others[0]
        return [
            Step(0, call, False, CALL, call),
            Step(1, call, True, TAKE, 0),
            Step(1, call, True, TAKE, 0),
        ]
    if doubt.word != "missing":
        return []
    call, missing = doubt.others
    return [
        Step(0, missing, False, CALL, 0),
        Step(1, missing, True, TAKE, 0),
        Step(1, call, False, CALL, 0),
        Step(2, call, True, TAKE, 0),
    ]


def replay_steps(text: str, log: Log, steps: List[Step]) -> Tuple[List[str], Dict[str, Any]]:
    """How the program stops on a schedule of a few steps, with only the elements that they name,
    and the schedule."""
    numbers: Dict[str, Dict[int, int]] = {sort: {} for sort in log.elements}
    consts = {
        name: local(numbers[str(log.spec.consts[name])], element)
        for name, element in log.consts.items()
    }
    made: Dict[int, int] = {}
    found: List[Dict[str, Any]] = []
    for it in steps:
        if it.is_take:
            found.append({"replica": it.replica, "take": made[it.call]})
            continue
        made[it.call] = len(made)
        op = log.op[it.call]
        args = [
            local(numbers[kind], value) if kind != "int" else value
            for (_, kind), value in zip(log.params[op], log.arguments_of(it.call))
        ]
        found.append({"replica": it.replica, "call": log.operations[op], "args": args})
    sizes = {sort: len(known) for sort, known in numbers.items()}
    schedule = {
        "sizes": sizes,
        "constants": consts,
        "replicas": max(it.replica for it in steps) + 1,
        "steps": found,
    }
    status, text_of_replay = program.replay(text, schedule)
    if not text_of_replay.startswith("cise replay") or status not in (0, 1, 4):
        raise program.Stopped(("replay",), status, text_of_replay)
    return stop_of(text_of_replay), schedule


def local(known: Dict[int, int], element: int) -> int:
    """The number of an element among those that are named."""
    return known.setdefault(element, len(known))


def confirm_pairs(audit: Audit, index: Index) -> None:
    """Lets the program confirm each pair that the index found, on a schedule of the two calls."""
    pairs, text = sorted(index.pairs, key=lambda it: audit.causes.rank[it[1]]), bare(audit.spec)

    def steps_of(pair: Tuple[int, int]) -> List[Step]:
        return [Step(at, call, False, CALL, call) for at, call in enumerate(pair)]

    with ThreadPoolExecutor(os.cpu_count()) as pool:
        said = list(pool.map(lambda it: replay_steps(text, audit.log, steps_of(it)), pairs))
    for (earlier, later), (stop, schedule) in zip(pairs, said):
        if stop[:3] != ["refused", "1", "conflict"]:
            raise AssertionError(
                f"the program says {' '.join(stop)} of {audit.teller.conflict(earlier, later, '')}"
            )
        who = f"{audit.log.replicas[audit.log.replica[later]]} hadn't taken"
        audit.findings.append(
            audit.teller.finding(
                CALL, later, "conflict", audit.teller.conflict(earlier, later, who)
            )
        )
        if audit.schedule is None:
            audit.schedule = schedule
    audit.looked.append(
        f"{index.keys:,} keys at which calls may conflict: {len(pairs):,} "
        f"{'pair' if len(pairs) == 1 else 'pairs'} unseen"
        + (", each confirmed by the program on a schedule of its own" if pairs else "")
    )


class Slices:
    """The slices of a log: `roots` has for each element a number that all elements of its slice
    have."""

    def __init__(self, audit: Audit, part: Part) -> None:
        self.audit, self.log, self.causes, self.part = audit, audit.log, audit.causes, part
        self.spec: Sliced = sliced(audit.spec)
        self.sorts = list(self.log.elements)
        self.texts = {sort: list(known) for sort, known in self.log.elements.items()}
        starts, total = {}, 0
        for sort, known in self.log.elements.items():
            starts[sort], total = total, total + len(known)
        self.starts, self.root = starts, list(range(total))
        self.places = [
            [(at, starts[kind]) for at, (_, kind) in enumerate(params) if kind != "int"]
            for params in self.log.params
        ]
        self.sorts_at = [
            [(at, kind) for at, (_, kind) in enumerate(params) if kind != "int"]
            for params in self.log.params
        ]
        self.most = MOST_BY_VARIABLES[min(3, self.spec.most_variables)]

    def find(self, node: int) -> int:
        """The number of an element's slice."""
        root = self.root
        while root[node] != node:
            root[node] = root[root[node]]
            node = root[node]
        return node

    def node_of(self, call: int) -> int:
        """An element of a call, or -1 where it has none."""
        places, at = self.places[self.log.op[call]], self.log.args_at[call]
        return places[0][1] + self.log.args[at + places[0][0]] if places else -1

    def join(self) -> None:
        """Joins the elements of each call."""
        args, args_at = self.log.args, self.log.args_at
        for call, op in enumerate(self.log.op):
            places = self.places[op]
            if len(places) > 1:
                at = args_at[call]
                first = self.find(places[0][1] + args[at + places[0][0]])
                for place, start in places[1:]:
                    other = self.find(start + args[at + place])
                    if other != first:
                        self.root[other] = first

    def grouped(self) -> Dict[int, "array[int]"]:
        """The lines of each slice of this part, in their order."""
        found: Dict[int, "array[int]"] = {}
        names = self.names() if self.part != (1, 1) else {}
        for code in self.causes.course:
            row = code // 3
            node = self.node_of(row if code % 3 == CALL else self.log.call_of[self.log.taken[row]])
            root = self.find(node) if node >= 0 else -1
            its = found.get(root)
            if its is not None:
                its.append(code)
            elif (
                self.part == (1, 1)
                or zlib.crc32(names.get(root, "").encode("utf-8", "surrogatepass")) % self.part[1]
                == self.part[0] - 1
            ):
                found[root] = array("q", [code])
        return found

    def names(self) -> Dict[int, str]:
        """A text for each slice, which doesn't depend on the order of the lines: its least
        element's."""
        found: Dict[int, str] = {}
        for sort in self.sorts:
            for at, text in enumerate(self.texts[sort]):
                root, name = self.find(self.starts[sort] + at), f"{sort}\0{text}"
                if root not in found or name < found[root]:
                    found[root] = name
        return found

    def look(self) -> None:
        """Replays all slices of the part, many in one schedule, by several processes where there
        are many calls."""
        if self.log.states:
            self.audit.left.append(f"{len(self.log.states):,} logged states")
        self.join()
        groups = self.grouped()
        roots = sorted(groups, key=lambda it: self.causes.rank[self.first_call(groups[it])])
        count = worth(len(self.log.op), LARGE)
        gc.freeze()
        found = shared(count, lambda at: self.share(groups, roots[at::count]))
        gc.unfreeze()
        for it in found:
            self.audit.findings += it.findings
        self.tell_left(sum(it.cut for it in found), sum(it.wide for it in found))
        if self.spec.left:
            self.audit.left.append(f"{', '.join(self.spec.left)}, which read across slices")
        self.audit.looked.append(
            f"as {sum(it.slices for it in found):,} slices of calls that share no element, in "
            f"{sum(it.steps for it in found):,} steps that the program replayed"
        )

    def share(self, groups: Dict[int, "array[int]"], roots: List[int]) -> "Share":
        """What is found in some slices."""
        found = Share()
        text = Copy()
        try:
            text.add(encoded(self.spec.text))
            for batch in self.batches(groups, roots, found):
                found.findings += self.replay(batch, text.path)
        finally:
            text.close()
        return found

    def batches(
        self, groups: Dict[int, "array[int]"], roots: List[int], found: "Share"
    ) -> Iterator[List["Slice"]]:
        """Slices together, up to what a schedule holds."""
        batch = Batch(self.most)
        for root in roots:
            one = Slice(self, groups.pop(root))
            if len(one.replicas) > MOST_REPLICAS:
                found.wide += 1
                continue
            found.cut += one.is_cut
            found.slices += 1
            found.steps += len(one.steps)
            if batch.slices and not batch.has_room(one):
                yield batch.slices
                batch = Batch(self.most)
            batch.add(one)
        if batch.slices:
            yield batch.slices

    def tell_left(self, cut: int, wide: int) -> None:
        """Says how many slices didn't fit a schedule, or not to their ends."""
        if cut:
            self.audit.left.append(
                f"the ends of {cut:,} {'slice' if cut == 1 else 'slices'} with more than "
                f"{MOST_STEPS:,} steps or {self.most} elements of a sort"
            )
        if wide:
            self.audit.left.append(
                f"{wide:,} {'slice' if wide == 1 else 'slices'} with calls of more than "
                f"{MOST_REPLICAS} replicas, but for calls that conflict unseen"
            )

    def first_call(self, codes: "array[int]") -> int:
        """The first call of a slice."""
        code = codes[0]
        return code // 3 if code % 3 == CALL else self.log.call_of[self.log.taken[code // 3]]

    def replay(self, batch: List["Slice"], path: str) -> List[Finding]:
        """Replays slices one behind the other in one schedule; where one stops it, that is a
        finding, and those behind it are replayed without it."""
        found: List[Finding] = []
        left = list(batch)
        while left:
            stop = self.replayed(left, path)
            if stop[0] == "done":
                break
            if stop[1] == "start":
                text = f"invariant {stop[2]} is false in the initial state already"
                return [Finding(0, 1, "broken", text, BROKEN)]
            steps = [it for one in left for it in one.steps]
            found += self.stopped(steps, Step(*steps[int(stop[1])]), stop)
            at, before = int(stop[1]), 0
            while at >= len(left[0].steps):
                at -= len(left[0].steps)
                before += left.pop(0).count()
            if stop[2:3] == ["conflict"] and int(stop[3]) < before:
                # (tokens order calls of two slices, which only together have seen each other)
                found += self.replay(left[:1], path)
            del left[0]
        return found

    def replayed(self, batch: List["Slice"], path: str) -> List[str]:
        """How the program stops on slices in one schedule."""
        schedule = Copy()
        try:
            schedule.add(self.schedule_of(batch).encode())
            status, text = program.run("replay", path, schedule.path)
        finally:
            schedule.close()
        if not text.startswith("cise replay") or status not in (0, 1, 4):
            raise program.Stopped(("replay",), status, text)
        return stop_of(text)

    def stopped(self, steps: List[Row], step: Step, stop: List[str]) -> List[Finding]:
        """The finding that a slice's stop is; a conflict and a doubted taking are findings of the
        index, or of the lines, already."""
        word = "broken" if stop[0] == "broken" else stop[2]
        if word in ("conflict", "missing", "seen"):
            return []
        made = [call for _, call, is_take, _, _ in steps if not is_take]
        if word in ("precondition", "observation"):
            stop = [*stop[:3], str(self.line_number(step, word, int(stop[3])))]
        if word == "range":
            text = f"{self.audit.teller.known(step.call)}: a value of {stop[3]} would be {stop[-1]}"
            text += ", beyond -10^15 to 10^15"
        else:
            text = meaning(self.audit.teller, step, stop, made)
        return [
            self.audit.teller.finding(
                step.kind, step.row, word, text, BROKEN if word == "broken" else REFUSED
            )
        ]

    def line_number(self, step: Step, word: str, number: int) -> int:
        """The number of a requires or observes line in the user's text, from its number in the text
        for slices."""
        head = "requires" if word == "precondition" else "observes"
        operation = self.log.operations[self.log.op[step.call]]
        gone = self.spec.gone
        kept = [
            at
            for at, line in enumerate(self.audit.spec.operations[operation].of(head), 1)
            if line.head.at not in gone
        ]
        return kept[number - 1]

    def steps_of(self, batch: List["Slice"], numbers: Dict[str, Dict[int, int]]) -> List[str]:
        """The steps of slices as they are written in a schedule, with the numbers of elements in
        it."""
        log, heads = self.log, [f'"call":{json.dumps(it)}' for it in self.log.operations]
        ops, args_at, all_args = log.op, log.args_at, log.args
        events: Dict[int, int] = {}
        replicas: Dict[Tuple[int, int], int] = {}
        found: List[str] = []
        for one in batch:
            for own, call, is_take, _, _ in one.steps:
                replica = replicas.setdefault((one.apart, own), len(replicas))
                if is_take:
                    found.append(f'{{"replica":{replica},"take":{events[call]}}}')
                    continue
                events[call] = len(events)
                op = ops[call]
                args = all_args[args_at[call] : args_at[call + 1]].tolist()
                for place, sort in self.sorts_at[op]:
                    args[place] = numbers[sort][args[place]]
                found.append(f'{{"replica":{replica},{heads[op]},"args":{args}}}')
        return found

    def schedule_of(self, batch: List["Slice"]) -> str:
        """Slices as one schedule, with elements that stand for those of other slices."""
        numbers: Dict[str, Dict[int, int]] = {sort: {} for sort in self.sorts}
        for one in batch:
            for sort, its in one.elements.items():
                for element in its:
                    local(numbers[sort], element)
        consts = {
            name: local(numbers[str(self.log.spec.consts[name])], element)
            for name, element in self.log.consts.items()
        }
        steps = ",".join(self.steps_of(batch, numbers))
        sizes = {
            sort: min(MOST_ELEMENTS, len(its) + min(MOST_OUTSIDE, len(self.texts[sort]) - len(its)))
            for sort, its in numbers.items()
        }
        replicas = len({(one.apart, it) for one in batch for it in one.replicas})
        rest = json.dumps({"sizes": sizes, "constants": consts, "replicas": replicas})
        return f'{rest[: -len("}")]}, "steps": [{steps}]}}'


@dataclass
class Share:
    """What one process found in its slices: how many there were, with their steps, how many of them
    are cut off, and how many have too many replicas."""

    findings: List[Finding] = field(default_factory=list)
    slices: int = 0
    steps: int = 0
    cut: int = 0
    wide: int = 0


class Batch:
    """Slices that are replayed in one schedule, with at most so many elements of a sort."""

    def __init__(self, most: int) -> None:
        self.slices: List[Slice] = []
        self.most, self.steps = most, 0
        self.elements: Dict[str, int] = {}
        self.replicas: Set[Tuple[int, int]] = set()

    def apart(self, one: "Slice") -> int:
        """Slices with the same number here have the same replicas: only where all replicas have
        taken all calls at a slice's end can they go on with another one."""
        return 0 if one.is_levelled else len(self.slices) + 1

    def has_room(self, one: "Slice") -> bool:
        """Whether a slice fits beside those that are there."""
        few = all(
            self.elements.get(sort, 0) + len(its) <= self.most for sort, its in one.elements.items()
        )
        own = {(self.apart(one), it) for it in one.replicas}
        together = len(self.replicas | own) <= MOST_REPLICAS
        return few and together and self.steps + len(one.steps) <= MOST_STEPS

    def add(self, one: "Slice") -> None:
        """Adds a slice."""
        one.apart = self.apart(one)
        self.slices.append(one)
        self.steps += len(one.steps)
        self.replicas |= {(one.apart, it) for it in one.replicas}
        for sort, its in one.elements.items():
            self.elements[sort] = self.elements.get(sort, 0) + len(its)


class Slice:
    """A slice: its `steps`, as plain rows of what `Step` has, and its `elements` by their sorts.
    `is_cut` says that its end has no room in a schedule, and `replicas` are those that do something
    in it. Where a log has more replicas than a schedule, those that call nothing take nothing.
    `is_levelled` says that at its end all replicas of the log have taken all of its calls."""

    def __init__(self, slices: Slices, codes: "array[int]") -> None:
        self.slices, self.log, self.causes = slices, slices.log, slices.causes
        self.steps: List[Row] = []
        self.elements: Dict[str, Dict[int, None]] = {sort: {} for sort in slices.sorts}
        self.is_cut = False
        self.calls: Dict[int, List[int]] = {}
        self.taken: Dict[int, int] = {}
        for code in codes:
            if not self.line(code):
                self.is_cut = True
                break
        else:
            self.end()
        if len(self.steps) > MOST_STEPS:
            self.is_cut = True
            del self.steps[MOST_STEPS:]
        self.replicas = {it[0] for it in self.steps}
        few = len(self.log.replicas) <= MOST_REPLICAS
        self.is_levelled = few and not self.is_cut and not any(self.log.logs_takes)
        self.apart = 0

    def count(self) -> int:
        """How many calls it has."""
        return sum(not it[2] for it in self.steps)

    def line(self, code: int) -> bool:
        """Adds the steps of a line; false where there is no room for more."""
        row = code // 3
        if code % 3 == TAKE:
            call = self.log.call_of[self.log.taken[row]]
            self.steps.append((self.log.taker[row], call, True, TAKE, row))
            return len(self.steps) < MOST_STEPS
        replica = self.log.replica[row]
        if not self.log.logs_takes[replica]:
            at = row * self.causes.count
            self.learn(replica, self.causes.clocks[at : at + self.causes.count], CALL, row)
        self.steps.append((replica, row, False, CALL, row))
        self.calls.setdefault(replica, []).append(row)
        return self.adds_elements(row) and len(self.steps) < MOST_STEPS

    def adds_elements(self, call: int) -> bool:
        """Adds the elements of a call; false where there are as many as may be."""
        at, has_room = self.log.args_at[call], True
        for place, sort in self.slices.sorts_at[self.log.op[call]]:
            known, element = self.elements[sort], self.log.args[at + place]
            if element not in known:
                known[element] = None
                has_room = has_room and len(known) < self.slices.most
        return has_room

    def learn(self, replica: int, clock: Any, kind: int, row: int) -> None:
        """A replica takes the calls of the slice that it knows by a clock and hasn't taken."""
        turn, first = self.log.turn, replica * self.causes.count
        new: List[int] = []
        for other, calls in self.calls.items():
            at = self.taken.get(first + other, 0)
            if other != replica and at < len(calls):
                known = clock[other]
                start = at
                while at < len(calls) and turn[calls[at]] <= known:
                    at += 1
                if at > start:
                    new += calls[start:at]
                    self.taken[first + other] = at
        if len(new) > 1:
            new.sort(key=self.causes.rank.__getitem__)
        for it in new:
            self.steps.append((replica, it, True, kind, it if kind == AT_END else row))

    def end(self) -> None:
        """Replicas whose takings aren't logged take what is left."""
        few = len(self.log.replicas) <= MOST_REPLICAS
        for replica in range(len(self.log.replicas)) if few else sorted(self.calls):
            if not self.log.logs_takes[replica]:
                self.learn(replica, self.causes.made, AT_END, 0)
