"""One specification as a pipeline asks of it: the program's verdicts, with their places, or why
there are none. A report that was kept from the last time is verified instead of made anew."""
import difflib
import os
import time
from dataclasses import dataclass, field, replace
from typing import List, Optional, Set, Tuple

from view import inputs, places, program, slips
from view.doubts import Doubt, doubts
from view.report import Block, Report
from view.tree import Spec

ACCEPTED, REJECTED, UNDECIDED, REFUSED, NO_VERDICT = (
    "accepted",
    "rejected",
    "undecided",
    "refused",
    "no verdict",
)
OK, REFUTED, REFUSED_STATUS, OPEN, NOT_READ = 0, 1, 3, 5, 6
# The most lines of a text that are told of a design that was accepted before.
MOST_CHANGES = 12


class NotWritten(Exception):
    """A file that can't be written: its path, and why."""

    def __init__(self, path: str, why: str) -> None:
        super().__init__(f"{path} can't be written: {why}")
        self.path, self.why = path, why


@dataclass(frozen=True)
class Judged:
    """What came of a specification.

    status    the program's
    word      accepted, rejected or undecided; refused, or no verdict
    counts    as the report's last line but one
    report    the report, where there is one
    findings  what isn't proved, with places
    slip      where the text is refused
    why       why there is no verdict
    kept      whether a report of the last time was verified
    changes   what changed since the design was accepted, as lines
    remarks   what the yes of an accepted design leaves open
    """

    path: str
    status: int
    word: str
    seconds: float = 0.0
    counts: str = ""
    report: Optional[Report] = None
    findings: List[places.Finding] = field(default_factory=list)
    slip: Optional[slips.Slip] = None
    why: str = ""
    kept: bool = False
    changes: List[str] = field(default_factory=list)
    remarks: List[Doubt] = field(default_factory=list)
    text: str = ""

    def line(self) -> str:
        """The specification's line."""
        said = self.counts or self.why or (self.slip.message if self.slip else "")
        return f"{self.word}: {said}" + (
            " (the report of the last time stands)" if self.kept else ""
        )


def judged(path: str, kept: Optional[str] = None) -> Judged:
    """What comes of a specification; `kept` is a path without its ending, at which its report and
    its text are kept from one time to the next."""
    begun = time.monotonic()
    try:
        spec = inputs.read(path, inputs.MOST_OF_SPECIFICATION)
    except OSError as error:
        what = "it is a folder" if os.path.isdir(path) else error.strerror
        return Judged(path, NOT_READ, NO_VERDICT, why=f"it can't be read ({what})")
    try:
        status, text, stands = reported(spec.path, kept)
        found = told(path, spec.text, status, text)
        changes = []
        if kept is not None and status != OK:
            changes = changed_since(spec.text, found.report, kept)
        if kept is not None and found.report and not stands:
            keep(kept, spec.data, text)
        return replace(found, seconds=time.monotonic() - begun, kept=stands, changes=changes)
    finally:
        inputs.close(spec.path)


def told(path: str, text: str, status: int, answer: str) -> Judged:
    """What the program's status and answer say of a specification's text."""
    if status in (OK, REFUTED, OPEN):
        spec, report = Spec(text), Report(answer)
        return Judged(
            path,
            status,
            report.word,
            counts=counts_of(report),
            report=report,
            findings=places.findings(path, spec, report),
            remarks=doubts(spec, report) if status == OK else [],
            text=text,
        )
    if status == REFUSED_STATUS and answer.startswith(slips.BEGIN):
        slip = slips.slip_of(text, answer.strip()[len(slips.BEGIN) :])
        return Judged(path, status, REFUSED, slip=slip, text=text)
    return Judged(path, status, NO_VERDICT, why=f"the program ended with status {status}")


def counts_of(report: Report) -> str:
    """A report's counts, in words."""
    return f"{report.proved} proved, {report.refuted} refuted, {report.undecided} undecided"


def reported(spec_path: str, kept: Optional[str]) -> Tuple[int, str, bool]:
    """The status and the report of a specification, and whether it is the one that was kept. An
    undecided one is made anew, since a newer program may decide more."""
    stands = None if kept is None else verified(spec_path, report_of(kept))
    if stands:
        return (*stands, True)
    status, text = program.ended("check", spec_path)
    return status, text, False


def verified(spec_path: str, report_path: str) -> Optional[Tuple[int, str]]:
    """The status and the text of a kept report, where it stands and nothing in it is undecided."""
    try:
        report = inputs.read(report_path)
    except OSError:
        return None
    try:
        status, _ = program.ended("verify", spec_path, report.path)
        return (status, report.text) if status in (OK, REFUTED) else None
    finally:
        inputs.close(report.path)


def report_of(kept: str) -> str:
    """Where a report is kept."""
    return f"{kept}.report"


def text_of(kept: str) -> str:
    """Where the text is kept that the report is of."""
    return f"{kept}.kept"


def keep(kept: str, spec: bytes, report: str) -> None:
    """Keeps a report with the text that it is of."""
    for path, data in (
        (text_of(kept), spec),
        (report_of(kept), report.encode("utf-8", "surrogateescape")),
    ):
        write_whole(path, data)


def write_whole(path: str, data: bytes) -> None:
    """Writes a file whole or not at all, with the folders that it stands in."""
    new = f"{path}.{os.getpid()}.new"
    try:
        os.makedirs(os.path.dirname(path) or ".", exist_ok=True)
        with open(new, "wb") as file:
            file.write(data)
        os.replace(new, path)
    except OSError as error:
        if os.path.exists(new):
            os.remove(new)
        raise NotWritten(path, error.strerror or str(error)) from error


def changed_since(text: str, report: Optional[Report], kept: str) -> List[str]:
    """What changed since the design was accepted: lines of the text, and what was proved and isn't
    now. Nothing where what is kept doesn't show that it was accepted: the program verifies it once
    more."""
    try:
        before = inputs.read(text_of(kept), inputs.MOST_OF_SPECIFICATION)
    except OSError:
        return []
    try:
        if program.ended("verify", before.path, report_of(kept))[0] != OK:
            return []
        lines = changed_lines(before.text, text)
        if report is not None:
            proved = {it.words() for it in Report(inputs.text_of(report_of(kept))).blocks}
            lines += [verdict_since(it, proved) for it in report.blocks if it.verdict != "proved"]
        return lines
    finally:
        inputs.close(before.path)


def verdict_since(block: Block, proved: Set[str]) -> str:
    """What became of an obligation."""
    before = "was proved" if block.words() in proved else "is new"
    return f"{block.words()}: {before}, is {block.verdict}"


def changed_lines(before: str, after: str) -> List[str]:
    """The lines that are gone and those that came, without comments and blanks."""
    old, new = bare_lines(before), bare_lines(after)
    found = []
    matcher = difflib.SequenceMatcher(None, [it for _, it in old], [it for _, it in new], False)
    for kind, first, last, begin, end in matcher.get_opcodes():
        if kind != "equal":
            found += [f"gone: {line}" for _, line in old[first:last]]
            found += [f"line {number}: {line}" for number, line in new[begin:end]]
    more = len(found) - MOST_CHANGES
    return found if more <= 0 else [*found[:MOST_CHANGES], f"and {more} more lines"]


def bare_lines(text: str) -> List[Tuple[int, str]]:
    """The lines that have words, with their numbers."""
    lines = (" ".join(it.partition("#")[0].split()) for it in text.split("\n"))
    return [(number, it) for number, it in enumerate(lines, 1) if it]
