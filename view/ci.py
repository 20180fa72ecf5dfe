"""`./cise ci SPEC..`: many specifications for a pipeline: a line each, places, and files that the
pipeline's tools read. A folder stands for the specifications below it."""
import os
from concurrent.futures import ThreadPoolExecutor
from typing import Dict, Iterator, List, Optional, Tuple

from view import judged
from view.judged import Judged
from view.output import Progress, printable, say
from view.places import Span
from view.run_text import count_of

ENDING = ".cise"
NOT_WRITTEN = 7
# Which status is told of many: the first of these that is among them, else the greatest.
WORST = (judged.REFUTED, judged.OPEN, judged.REFUSED_STATUS)
MOST_OF_PATH = 4096


def answer(
    *paths: str,
    github: bool = False,
    sarif: Optional[str] = None,
    junit: Optional[str] = None,
    reports: Optional[str] = None,
) -> Tuple[int, str]:
    """The status and the text."""
    all_paths = list(specifications(paths))
    try:
        found = judged_all(all_paths, reports)
        for path, made in ((sarif, sarif_of), (junit, junit_of)):
            if path is not None:
                judged.write_whole(path, made(found).encode())
    except judged.NotWritten as error:
        say(f"cise: {printable(error.path)} can't be written: {error.why}\n")
        return NOT_WRITTEN, ""
    return worst([it.status for it in found]), text_of(found, github)


def sarif_of(found: List[Judged]) -> str:
    """The results as SARIF."""
    from view import sarif

    return sarif.text_of(found)


def junit_of(found: List[Judged]) -> str:
    """The results as JUnit."""
    from view import junit

    return junit.text_of(found)


def specifications(paths: Tuple[str, ...]) -> Iterator[str]:
    """The paths of the specifications, each once. A folder without one stands for itself, and can't
    be read."""
    seen = set()
    for path in paths:
        for it in below(path) if os.path.isdir(path) else [path]:
            if it not in seen:
                seen.add(it)
                yield it


def below(folder: str) -> List[str]:
    """The specifications below a folder, in the order of their names."""
    found = []
    for at, folders, names in os.walk(folder):
        folders[:] = sorted(it for it in folders if not it.startswith("."))
        found += [os.path.join(at, it) for it in sorted(names) if it.endswith(ENDING)]
    return found or [folder]


def judged_all(paths: List[str], reports: Optional[str]) -> List[Judged]:
    """What comes of all, in the order of the paths; as many at a time as there are processors."""
    done: List[str] = []

    def judge(path: str) -> Judged:
        found = judged.judged(path, None if reports is None else kept_at(reports, path))
        done.append(path)
        progress.tell(f"ci: {len(done)} of {len(paths)} specifications")
        return found

    with Progress() as progress, ThreadPoolExecutor(os.cpu_count() or 1) as pool:
        return list(pool.map(judge, paths))


def kept_at(folder: str, path: str) -> str:
    """Where the report of a specification is kept: below the folder as the specification below the
    one where the call is made, and what lies above it under names of its own."""
    parts = os.path.relpath(path).split(os.sep)
    return os.path.join(folder, *("__" if it == os.pardir else it for it in parts))


def worst(statuses: List[int]) -> int:
    """The status of many: refuted before undecided, undecided before refused, and these before
    others."""
    return next((it for it in WORST if it in statuses), max(statuses, default=0))


def text_of(found: List[Judged], github: bool) -> str:
    """A line for each specification, with its places below it, and the counts."""
    lines = []
    for it in found:
        lines.append(f"{printable(it.path, MOST_OF_PATH)}: {printable(it.line())}")
        if it.changes:
            lines += ["  it was accepted the last time. Since then:"]
            lines += [f"    {printable(change)}" for change in it.changes]
        lines += annotations(it) if github else [f"  {line}" for line in place_lines(it)]
    return "\n".join([*lines, summary(found)]) + "\n"


def place_lines(it: Judged) -> List[str]:
    """The places of a specification, as editors read them."""
    path = printable(it.path, MOST_OF_PATH)
    if it.slip:
        return [f"{path}:{it.slip.line}:{it.slip.column}: refused: {printable(it.slip.message)}"]
    remarks = [
        f"{path}:{one.span.line}:{one.span.column}: {one.kind}: {one.sentence}"
        for one in it.remarks
    ]
    return [*(finding.line() for finding in it.findings), *remarks]


def annotations(it: Judged) -> List[str]:
    """The same, as GitHub's runners read them."""
    if it.slip:
        at = {"line": it.slip.line, "col": it.slip.column}
        return [command("error", it.path, at, "refused", it.slip.message)]
    if not it.findings and it.word == judged.NO_VERDICT:
        return [command("error", it.path, {}, it.word, it.why)]
    lines = []
    for one in it.findings:
        level = "error" if one.verdict == "refuted" else "warning"
        title = f"{one.verdict}: {one.obligation}"
        lines.append(command(level, it.path, place_of(one.span), title, one.sentence))
    for remark in it.remarks:
        place = place_of(remark.span)
        lines.append(command("notice", it.path, place, remark.kind, remark.sentence))
    return lines


def place_of(span: Span) -> Dict[str, int]:
    """A place as GitHub's runners take it, which know columns within a line alone."""
    at = {"line": span.line, "endLine": span.end_line}
    if span.line == span.end_line:
        at.update(col=span.column, endColumn=span.end_column)
    return at


def command(level: str, path: str, at: Dict[str, int], title: str, message: str) -> str:
    """A command to GitHub's runner, with what it asks to be escaped."""
    told = {"file": path, **{name: str(it) for name, it in at.items()}, "title": title}
    parts = ",".join(f"{name}={escaped(it, ',:')}" for name, it in told.items())
    return f"::{level} {parts}::{escaped(message)}"


def escaped(text: str, more: str = "") -> str:
    """A text as GitHub's runner takes it."""
    return "".join(f"%{ord(it):02X}" if it in "%\r\n" + more else it for it in text)


def summary(found: List[Judged]) -> str:
    """How many there are of each word."""
    counts: Dict[str, int] = {}
    for it in found:
        counts[it.word] = counts.get(it.word, 0) + 1
    remarks = sum(len(it.remarks) for it in found)
    more = f"; {count_of(remarks, 'remark', 'remarks')}" if remarks else ""
    words = ", ".join(f"{count} {word}" for word, count in counts.items())
    return f"{count_of(len(found), 'specification', 'specifications')}: {words}{more}"
