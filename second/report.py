"""REPORT, "The text", "Witnesses", "Log and evidence lines" and "What is wrong with a report"."""
from __future__ import annotations
import re
from functools import partial
from typing import Callable, Optional, Tuple, TypeVar

from second.evidence import Evidence, holds
from second.log import Log, Step
from second.meaning import MOST_VALUE, Call, State, World
from second.obligations import MOST_ELEMENTS, Obligation, Witness, breaks, obligations
from second.problem import problem_of
from second.rows import MOST, Broken, need
from second.specification import Specification

# "verify reads a report of at most 64 MiB"
MOST_BYTES = 64 * 2 ** 20
# "Numbers of clauses, rows, atoms, names and counts are 0 to 4,294,967,295"
MOST_COUNT = 4_294_967_295
# "decimals without leading zeros"; the largest number of a report has 39 digits.
NUMBER = re.compile(r"-?[1-9][0-9]{0,38}|0")
STATUS = {"accepted": 0, "rejected": 1, "undecided": 5}
T = TypeVar("T")


def number_of(part: str, most: int, least: int = 0) -> int:
    """"A number that its field can't hold makes its line one of another form." """
    need(bool(NUMBER.fullmatch(part)) and least <= int(part) <= most, "form")
    return int(part)


class Fields:
    """The parts of a line, "separated by one space", which are read from the first on."""

    def __init__(self, line: bytes) -> None:
        self.parts = line.decode("latin-1").split(" ")
        self.at = 0

    def part(self) -> str:
        need(self.at < len(self.parts), "form")
        self.at += 1
        return self.parts[self.at - 1]

    def one_of(self, *words: str) -> str:
        """The next part, which is one of these words."""
        part = self.part()
        need(part in words, "form")
        return part

    def end(self) -> None:
        need(self.at == len(self.parts), "form")

    def number(self, most: int = MOST_COUNT, least: int = 0) -> int:
        return number_of(self.part(), most, least)

    def whole(self, most: int = MOST) -> int:
        """"multipliers, bounds and values are whole numbers in the range of a row" """
        return number_of(self.part(), most, -most)

    def literal(self) -> int:
        """"A literal is + or - before the number of its atom." """
        part = self.part()
        need(part[:1] in ("+", "-"), "form")
        return 2 * number_of(part[1:], MOST_COUNT) + (part[0] == "-")

    def step(self) -> Step:
        return Step(self.number(), self.whole(), self.number(), self.whole())

    def several(self, read: Callable[[], T]) -> Tuple[T, ...]:
        """Things of a kind behind their number."""
        return tuple(read() for _ in range(self.number()))

    def log_line(self, has_drops: bool) -> Callable[[Log], None]:
        """A line of the table of log lines, as what is done to a log by it."""
        # "Drop: the N clauses; in version 2, and in proved logs alone"
        kind = self.one_of("r", "f", "s", *(["d"] if has_drops else []))
        if kind == "r":
            line = partial(Log.resolve, left=self.number(), right=self.number(),
                           pivot=self.number())
        elif kind == "f":
            line = partial(Log.farkas, used=self.several(self.literal),
                           steps=self.several(self.step))
        elif kind == "s":
            line = partial(Log.split, name=self.number(), at=self.whole(),
                           used=self.several(self.literal), steps=self.several(self.step),
                           low=self.number(), high=self.number(), values=self.several(self.whole))
        else:
            line = partial(Log.drop, clauses=self.several(self.number))
        self.end()
        return line

    def evidence(self, *kinds: str) -> Evidence:
        """A line of the table of evidence lines."""
        kind = self.one_of(*kinds)
        used, steps = self.several(self.literal), self.several(self.step)
        count = {"rows": 0, "product": 3, "value": 2, "sum": 2}[kind]
        numbers = tuple(self.number() for _ in range(count))
        values = self.several(self.whole) if count == 2 else ()
        self.end()
        return Evidence(kind, used, steps, numbers, values)


class Reader:
    """Reads a report line by line. "The first three kinds are faults of the text as a whole, and
    come before the others": so these end the reading, and of the others the first is kept."""

    def __init__(self, spec: Specification, report: bytes) -> None:
        self.spec, self.report = spec, report
        self.at, self.number, self.version, self.budget = 0, 0, 1, 1
        self.counts = {"proved": 0, "refuted": 0, "undecided": 0}
        self.broken: Optional[Tuple[int, str]] = None

    def next_line(self, *words: str) -> Fields:
        """The next line, which begins with these words; "Each ends with a line feed", and "a
        missing line has the number after the last". """
        end = self.report.find(b"\n", self.at)
        self.number += 1
        need(end >= 0, "form")
        line = Fields(self.report[self.at:end])
        self.at = end + 1
        for word in words:
            line.one_of(word)
        return line

    def only_number(self, *words: str, most: int = MOST_COUNT, least: int = 0) -> int:
        line = self.next_line(*words)
        number = line.number(most, least)
        line.end()
        return number

    def breaks_rule(self, line: int, kind: str) -> None:
        self.broken = self.broken or (line, kind)

    def read(self) -> str:
        """The whole report; its last word."""
        due = list(obligations(self.spec))
        self.version = self.only_number("cise", "report", most=2, least=1)
        # "the most lines that check gives the log of one obligation: 1 to 1,000,000"
        self.budget = self.only_number("budget", most=1_000_000, least=1)
        # obligation: "or the number of obligations is another"
        need(self.only_number("obligations") == len(due), "obligation")
        for obligation in due:
            # obligation: "a line that isn't the first line of the block that is due, whatever
            # else it is"
            need(self.next_line().parts == obligation.text.split(" "), "obligation")
            self.verdict(obligation)
        last = self.summary()
        self.number += 1
        need(self.at == len(self.report), "form")
        if self.broken:
            self.number, kind = self.broken
            raise Broken(kind)
        return last

    def summary(self) -> str:
        line, counts = self.next_line("summary"), {}
        for word in self.counts:
            line.one_of(word)
            counts[word] = line.number()
        line.end()
        # summary: "the summary or the last word has its form and doesn't fit the blocks"
        need(counts == self.counts, "summary")
        line = self.next_line()
        last = line.one_of(*STATUS)
        line.end()
        # "The last word is rejected where R isn't 0, else undecided where U isn't 0, else
        # accepted."
        others = "undecided" if counts["undecided"] else "accepted"
        need(last == ("rejected" if counts["refuted"] else others), "summary")
        return last

    # ---- verdicts

    def verdict(self, obligation: Obligation) -> None:
        """A verdict line of the table, and what stands behind it."""
        line = self.next_line()
        cause = line.one_of(*self.counts)
        self.counts[cause] += 1
        if cause == "undecided":
            cause = line.one_of("instances", "lines", "rows", "range")
        count = 0 if cause in ("refuted", "instances") else line.number()
        line.end()
        begin = self.number
        if cause == "refuted":
            # witness: "the line refuted of a witness that doesn't break the obligation"; it is
            # evidence "where the obligation has more than 20,000 formulas".
            witness = self.witness(obligation)
            if not self.broken and not breaks(self.spec, obligation, witness):
                is_many = problem_of(self.spec, obligation) is None
                self.breaks_rule(begin, "evidence" if is_many else "witness")
        elif cause == "instances":
            # "the obligation has more than 20,000 formulas"
            if not self.broken and problem_of(self.spec, obligation):
                self.breaks_rule(begin, "evidence")
        else:
            self.with_log(obligation, cause, count)

    def with_log(self, obligation: Obligation, cause: str, count: int) -> None:
        """A verdict with a log: "a log line that breaks a rule comes before the verdict line; but
        where there are more than 20,000 formulas no log line is looked at"."""
        begin = self.number
        # No rule is tested any more behind the first that is broken.
        problem = None if self.broken else problem_of(self.spec, obligation)
        log = Log(problem) if problem else None
        for _ in range(count):
            line = self.next_line().log_line(self.version == 2 and cause == "proved")
            if log and not self.broken:
                try:
                    line(log)
                except Broken as broken:
                    self.breaks_rule(self.number, str(broken))
        kinds = {"rows": ("rows",), "range": ("product", "value", "sum")}.get(cause)
        evidence = self.next_line().evidence(*kinds) if kinds else None
        if self.broken:
            return
        if log and cause == "proved":
            # noempty: "the line proved K of a log without an empty clause"
            if not log.has_empty:
                self.breaks_rule(begin, "noempty")
        # evidence: "the verdict line of an undecided verdict without its evidence", and any
        # "where the obligation has more than 20,000 formulas"
        elif not log or not holds(log, evidence, count == self.budget):
            self.breaks_rule(begin, "evidence")

    # ---- witnesses

    def witness(self, obligation: Obligation) -> Witness:
        """"A witness has these lines in this order". """
        world = World()
        for sort in self.spec.sorts:
            world.sizes[sort] = self.only_number("size", sort, most=MOST_ELEMENTS)
        for name, sort in self.spec.consts.items():
            # "with an element of its sort"
            world.consts[name] = self.only_number("const", name, most=world.sizes[sort] - 1)
        # "What isn't listed is false or 0."
        witness = Witness(world, State({name: 0 for name in self.spec.things()}), [], [])
        line = self.state(witness)
        for _ in obligation.operations:
            line.one_of("call")
            witness.calls.append(self.call(line))
            line = self.next_line()
        line.one_of("at")
        # "Elements of call and at may be any number up to 4,294,967,295"
        witness.elements.extend(line.number() for _ in obligation.elements())
        line.end()
        return witness

    def state(self, witness: Witness) -> Fields:
        """`true REL E ..`, "each tuple that is true, by relation and then rising"; `count CTR E ..
        V`, "each value that isn't 0, by counter and then by rising key"; and the line behind."""
        things = self.spec.things()
        order = list(things)
        last: Tuple[int, Tuple[int, ...]] = (-1, ())
        while True:
            line = self.next_line()
            if line.parts[0] not in ("true", "count"):
                return line
            kind = line.part()
            name = line.one_of(*(self.spec.relations if kind == "true" else self.spec.counters))
            # "elements of true and count are below the sizes of their sorts"
            at = tuple(line.number(witness.world.sizes[sort] - 1) for sort in things[name].sorts)
            value = line.whole(MOST_VALUE) if kind == "count" else 1
            line.end()
            need((order.index(name), at) > last and value != 0, "form")
            last = (order.index(name), at)
            witness.state.listed[name][at] = value

    def call(self, line: Fields) -> Call:
        """"a call may be of any operation"; "Values and whole-number arguments are from -10^15 to
        10^15." """
        operation = self.spec.operations[line.one_of(*self.spec.operations)]
        args = [line.whole(MOST_VALUE) if sort == "int" else line.number()
                for sort in operation.params.values()]
        line.end()
        return Call(operation, args)


def verified(spec: Specification, report: bytes) -> Tuple[int, str]:
    if len(report) > MOST_BYTES:
        return 4, "refused report long\n"
    reader = Reader(spec, report)
    try:
        last = reader.read()
    except Broken as broken:
        return 4, f"refused report line {reader.number} {broken}\n"
    counts = " ".join(f"{word} {count}" for word, count in reader.counts.items())
    return STATUS[last], f"cise verify 1\nsummary {counts}\n{last}\n"
