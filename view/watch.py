"""`./cise watch SPEC`: checks a specification at each save, and says what changed since the last
time. It ends when it is interrupted."""
import os
import sys
import time
from dataclasses import dataclass
from typing import Dict, List, Optional, Tuple

from view import inputs, program
from view.further_slips import all_slips
from view.output import printable, written
from view.places import findings
from view.report import Report
from view.slips import BEGIN
from view.tree import Spec

# Seconds between two looks at the file.
PAUSE = 0.2
NOT_WRITTEN = 7
CLEARED = "\x1b[2J\x1b[3J\x1b[H"
Stamp = Optional[Tuple[int, int, int]]


@dataclass(frozen=True)
class Seen:
    """What was found at a save: a sentence on the whole, and a line for each finding by what it
    is, which stays the same where its line moves."""

    whole: str
    found: Dict[str, str]


def answer(path: str) -> Tuple[int, str]:
    """Shows what is found at each save; ends with 7 where it can't be shown."""
    before, stamp = None, None
    # (what can't be read at first is told as by any command)
    inputs.close(inputs.read(path).path)
    while True:
        now = stamp_of(path)
        if now is not None and now != stamp:
            stamp, seen = now, look(path)
            if seen != before or before is None:
                if not written(screen(path, before, seen)):
                    return NOT_WRITTEN, ""
                before = seen
        time.sleep(PAUSE)


def stamp_of(path: str) -> Stamp:
    """What changes with a save; None while there is no file, as some editors leave it for a
    moment."""
    try:
        found = os.stat(path)
    except OSError:
        return None
    return found.st_mtime_ns, found.st_size, found.st_ino


def look(path: str) -> Seen:
    """What is found now."""
    try:
        copy = inputs.read(path).path
    except OSError as error:
        return Seen(f"it can't be read: {error.strerror}", {})
    try:
        return seen_in(copy)
    finally:
        inputs.close(copy)


def seen_in(copy: str) -> Seen:
    """What the program says of a copy of the text."""
    status, said = program.ended("check", copy)
    name, text = printable(inputs.name_of(copy)), inputs.text_of(copy)
    if status == 3 and said.startswith(BEGIN):
        slips = all_slips(text, said.strip())
        return Seen(
            "refused by the program",
            {
                f"{it.line} {it.message}": f"{name}:{it.line}:{it.column}: {it.message}"
                for it in slips
            },
        )
    if status not in (0, 1, 5):
        return Seen(f"no answer: the program ended with status {status}", {})
    report = Report(said)
    counts = f"{report.proved} proved, {report.refuted} refuted, {report.undecided} undecided"
    whole = f"{report.word}: {counts}"
    return Seen(
        whole,
        {f"{it.verdict} {it.obligation}": it.line() for it in findings(name, Spec(text), report)},
    )


def screen(path: str, before: Optional[Seen], now: Seen) -> str:
    """What is shown: what is new, what is gone, and what stays. A terminal is cleared first."""
    lines = [f"{printable(path)}  {time.strftime('%H:%M:%S')}  {now.whole}"]
    old = before.found if before else {}
    new = [it for it in now.found if it not in old]
    stays = [it for it in now.found if it in old]
    gone = [it for it in old if it not in now.found]
    if before:
        lines += listed("new", "+ ", [now.found[it] for it in new]) + listed(
            "gone", "- ", [old[it] for it in gone]
        )
        lines += listed("as before", "  ", [now.found[it] for it in stays])
    else:
        lines += [f"  {now.found[it]}" for it in new]
    is_terminal = sys.stdout is not None and sys.stdout.isatty()
    return (
        (CLEARED if is_terminal else "") + "\n".join(lines) + "\n" + ("" if is_terminal else "\n")
    )


def listed(head: str, sign: str, lines: List[str]) -> List[str]:
    """Lines below a head that counts them, or nothing."""
    return [f"{head}: {len(lines)}", *[sign + it for it in lines]] if lines else []
