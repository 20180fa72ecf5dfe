"""Chooses the program that answers: the one that was proved on this machine, else the one that is
kept in the repository, where its record names exactly the sources that stand here. Where there is
neither, it says why."""
from __future__ import annotations

import os
import subprocess

from launch import needs, record
from launch.paths import HOME_PROGRAM, HOME_RECORD, KEPT_PROGRAM, KEPT_RECORD, NAME, TOP, at, say
from launch.seen import Looks
from launch.sources import Sources
from launch.told import is_news

HOME, KEPT = "home", "kept"
PROGRAMS = {HOME: HOME_PROGRAM, KEPT: KEPT_PROGRAM}
RECORDS = {HOME: HOME_RECORD, KEPT: KEPT_RECORD}
SECONDS = 20
NOTHING = "nothing of these sources is proved here"
TOLD = (
    f"{KEPT_PROGRAM} answers, a program that was proved and built of exactly these sources; "
    "./cise about says by whom, and ./cise prove does it here (said once)"
)


def choose() -> tuple[str | None, list[str]]:
    """What is chosen, of HOME and KEPT, or None; and why not the one, and not the other."""
    looks = Looks()
    reasons: list[str] = []
    sources = Sources(looks)
    for choice in (HOME, KEPT):
        reason = why_not(choice, sources, looks)
        if not reason:
            is_told = choice == HOME or was_told(looks)
            # (in a folder that can't be written to what was said is noted elsewhere)
            is_noted = looks.keep(choice, PROGRAMS[choice])
            if not is_told and (is_noted or is_news(f"{TOP} {looks.sum_of(KEPT_PROGRAM)}")):
                say(TOLD if reasons[0] == NOTHING else f"{reasons[0]}, so {TOLD}")
            return choice, reasons
        reasons.append(reason)
    return None, reasons


def was_told(looks: Looks) -> bool:
    """Whether the same kept program answered the last time, so that this was said."""
    return looks.last_choice == KEPT and looks.sum_of(KEPT_PROGRAM) == looks.last_sum_of(
        KEPT_PROGRAM
    )


def why_not(choice: str, sources: Sources, looks: Looks) -> str | None:
    """Why a program isn't one of these sources, or None where it is."""
    program = PROGRAMS[choice]
    is_recorded = looks.sum_of(RECORDS[choice])
    if not is_recorded:
        return NOTHING if choice == HOME else f"no program is kept, since there is no {KEPT_RECORD}"
    try:
        found = record.read(RECORDS[choice], program)
    except record.Damaged as damage:
        return str(damage)
    if looks.sum_of(program) != found.program_sum:
        return f"{program} isn't the program that its record names"
    changed = sources.changed_since(found)
    if changed:
        return f"{program} is of other sources: there are changes in {named(changed)}"
    return why_it_does_not_run(program)


def named(crates: list[str], most: int = 4) -> str:
    more = f" and {len(crates) - most} more crates" if len(crates) > most else ""
    return ", ".join(crates[:most]) + more


def why_it_does_not_run(program: str) -> str | None:
    """Why the machine can't run a program, or None. Without words it refuses them with status 2."""
    try:
        ran = subprocess.run(
            [NAME],
            executable=at(program),
            stdin=subprocess.DEVNULL,
            capture_output=True,
            timeout=SECONDS,
        )
    except (OSError, subprocess.TimeoutExpired) as error:
        return (
            f"{program} doesn't run on this machine ({getattr(error, 'strerror', None) or error});"
            f" {needed()}"
        )
    if ran.returncode != 2 or ran.stdout != b"refused words\n":
        said = (
            ran.stderr.decode(errors="replace").strip().split("\n")[0]
            or f"it ended with status {ran.returncode}"
        )
        return f"{program} doesn't run on this machine ({said}); {needed()}"
    return None


def needed() -> str:
    """What the machine lacks, or where all stands that the program needs."""
    return needs.lacking() or f"what it needs stands in {os.path.dirname(KEPT_PROGRAM)}/README.md"
