"""`./cise prove`: proves and builds the program on this machine, each crate once its libraries are,
side by side. What is proved stays: a call that was interrupted is gone on with by the next one. At
the end the program is compared with the one that is kept."""
from __future__ import annotations

import os
import subprocess
import time

from launch import kit, lanes, record
from launch.choosing import HOME, named, why_not
from launch.paths import (
    BAD_WORDS,
    BY_SIGNAL,
    CRATES,
    HOME_PROGRAM,
    HOME_RECORD,
    KEPT_PROGRAM,
    KEPT_RECORD,
    NO_PROGRAM,
    OTHER_THAN_KEPT,
    OUT,
    TOP,
    at,
    say,
)
from launch.seen import Looks
from launch.sources import PROGRAM_CRATE, Sources, below
from launch.stopping import Stopped, end_all, stop_by_signals
from launch.times import Plan

PROVED_BY = "./cise prove"
# By one call, which began with nothing that was kept of an earlier one.
PROVED_FROM_NOTHING = "./cise prove, from nothing"


def main() -> int:
    if not kit.is_here():
        say(kit.LACKING)
        return NO_PROGRAM
    stop_by_signals()
    try:
        with Alone():
            return prove()
    except Stopped as stopped:
        say("stopped; what is proved stays, and ./cise prove goes on from there")
        return BY_SIGNAL + stopped.number
    except kit.Broken as broken:
        say(str(broken))
    except OSError as error:
        which = os.path.relpath(error.filename, TOP) if error.filename else "the repository"
        say(f"{which} can't be used: {error.strerror}; nothing more was proved")
    return NO_PROGRAM


class Alone:
    """Waits until no other call proves here, and keeps others waiting."""

    def __enter__(self) -> None:
        import fcntl

        os.makedirs(at(OUT), exist_ok=True)
        self.file = open(at(f"{OUT}/prove.lock"), "w")
        try:
            fcntl.flock(self.file, fcntl.LOCK_EX | fcntl.LOCK_NB)
        except BlockingIOError:
            say("another call proves here; this one waits for it")
            fcntl.flock(self.file, fcntl.LOCK_EX)

    def __exit__(self, *_: object) -> None:
        self.file.close()


def prove() -> int:
    looks = Looks()
    sources = Sources(looks)
    if not why_not(HOME, sources, looks):
        say("the program of these sources is proved and built here already")
        return compare(sources, looks)
    if PROGRAM_CRATE not in sources.rows:
        say(f"{CRATES} has no row for {PROGRAM_CRATE}, the program's crate")
        return NO_PROGRAM
    kit_line, start = kit.line(), time.monotonic()
    for it in (HOME_RECORD, HOME_PROGRAM):
        if os.path.lexists(at(it)):
            os.remove(at(it))
    proofs = Proofs(sources, kit_line)
    failed = proofs.run()
    if failed:
        say(
            f"{' and '.join(failed)} couldn't be proved; what was said stands in"
            f" {' and '.join(map(log_of, failed))}"
        )
        return NO_PROGRAM
    looks = Looks()
    if Sources(looks).total() != sources.total():
        say(
            "a source was changed meanwhile, so the program that was built is of no use: call"
            " ./cise prove again"
        )
        return NO_PROGRAM
    proved_by = PROVED_FROM_NOTHING if proofs.is_from_nothing else PROVED_BY
    record.Record(
        kit_line, proved_by, sources.rows, str(looks.sum_of(HOME_PROGRAM)), sources.sums
    ).write(HOME_RECORD, HOME_PROGRAM)
    minutes, seconds = divmod(int(time.monotonic() - start), 60)
    say(
        f"the program is proved and built, after {minutes} minutes and {seconds} seconds; from now"
        " on it answers"
    )
    return compare(sources, looks)


def compare(sources: Sources, looks: Looks) -> int:
    """Compares the program that was proved here with the one that is kept, and returns the
    status."""
    if not looks.sum_of(KEPT_RECORD):
        say(f"there is no {KEPT_RECORD}, so it was compared with no kept program")
        return 0
    try:
        home, kept = record.read(HOME_RECORD, HOME_PROGRAM), record.read(KEPT_RECORD, KEPT_PROGRAM)
    except record.Damaged as damage:
        say(f"{damage}, so it was compared with no kept program")
        return 0
    changed = sources.changed_since(kept)
    if changed:
        say(
            f"{KEPT_PROGRAM} is of other sources, so the two weren't compared: there are changes in"
            f" {named(changed)}"
        )
    elif home.kit != kept.kit:
        say(
            f"{KEPT_PROGRAM} is of another kit ({kept.kit}, and here {home.kit}), so the two"
            " weren't compared"
        )
    elif looks.sum_of(KEPT_PROGRAM) != home.program_sum:
        say(
            f"{KEPT_PROGRAM} is ANOTHER program than the one that was proved here, of the same"
            " sources and kit: don't trust it"
        )
        return OTHER_THAN_KEPT
    else:
        say(f"{KEPT_PROGRAM} is, byte for byte, the program that was proved here")
    return 0


def log_of(crate: str) -> str:
    return f"crates/{crate}/out/cise.log"


def mark_of(crate: str) -> str:
    return f"crates/{crate}/out/cise.proved"


def most_at_once() -> int:
    """How many crates are proved at a time: one for each processor and each 2 GB of memory."""
    memory = os.sysconf("SC_PAGE_SIZE") * os.sysconf("SC_PHYS_PAGES")
    return max(1, min(len(os.sched_getaffinity(0)), memory // 2_000_000_000))


class Proofs:
    """Proves the crates. A library that was proved has a mark beside it, with the sum of all that
    it is made of, so that it is passed over at the next call; `rt run` of the program looks at all
    libraries once more, and proves those anew whose kept work doesn't fit."""

    def __init__(self, sources: Sources, kit_line: str) -> None:
        self.sources, self.rows = sources, sources.rows
        self.sums: dict[str, str] = {}
        for crate in self.rows:
            self.sum_with_below(crate, sources, kit_line)
        self.most = most_at_once()
        self.done = {it for it in self.rows if self.is_marked(it)}
        lanes.clear()
        self.is_from_nothing = not any(
            os.path.exists(at(f"crates/{it}/{kept}"))
            for it in self.rows
            for kept in (lanes.LIBRARY, lanes.SO_FAR)
        )
        self.plan = Plan(sources, self.most)
        self.running: dict[str, subprocess.Popen[bytes]] = {}
        self.failed: list[str] = []
        self.free_lanes: list[lanes.Lane] = []
        self.lane_of: dict[str, lanes.Lane] = {}

    def sum_with_below(self, crate: str, sources: Sources, kit_line: str) -> str:
        """The sum of what a crate and all that it is made over are made of."""
        import hashlib

        if crate not in self.sums:
            own = "".join(
                f"{total}  {it}\n"
                for it, total in sources.sums.items()
                if sources.crate_of(it) == crate
            )
            parts = [self.sum_with_below(it, sources, kit_line) for it in below(self.rows, crate)]
            self.sums[crate] = hashlib.sha256(
                "\n".join([kit_line, self.rows[crate], own, *parts]).encode()
            ).hexdigest()
        return self.sums[crate]

    def is_marked(self, crate: str) -> bool:
        if crate == PROGRAM_CRATE or not os.path.exists(
            at(f"crates/{crate}/out/rlib/{crate}.rlib")
        ):
            return False
        try:
            with open(at(mark_of(crate)), encoding="ascii") as file:
                return file.read() == self.sums[crate]
        except (OSError, ValueError):
            return False

    def run(self) -> list[str]:
        """Proves all that isn't proved yet, and returns the crates that couldn't be."""
        proved = f"{len(self.done)} of them proved already, " if self.done else ""
        say(
            f"{len(self.rows)} crates, {proved}{self.most} at a time: {self.left()}. It may be"
            " interrupted"
        )
        try:
            while len(self.done) < len(self.rows) and (self.running or not self.failed):
                self.begin_more()
                self.take_one()
        except (Stopped, OSError):
            end_all(self.running.values())
            raise
        finally:
            lanes.clear()
        self.plan.keep(self.done)
        return self.failed

    def left(self) -> str:
        return self.plan.left(self.rows, self.done, self.running)

    def begin_more(self) -> None:
        ready = [
            it
            for it in self.rows
            if it not in self.done
            and it not in self.running
            and self.done.issuperset(below(self.rows, it))
        ]
        ready.sort(key=self.plan.chain_of, reverse=True)
        for crate in ready[: 0 if self.failed else self.most - len(self.running)]:
            self.running[crate] = self.begin(
                crate, max(1, self.most // (len(ready) + len(self.running)))
            )
            self.plan.begins(crate)

    def begin(self, crate: str, jobs: int) -> subprocess.Popen[bytes]:
        """Begins to prove and build a crate: a library in a lane, and the program, which comes
        last, beside its sources."""
        os.makedirs(os.path.dirname(at(log_of(crate))), exist_ok=True)
        verb, folder = "run", at(f"crates/{crate}")
        if crate != PROGRAM_CRATE:
            lane = (
                self.free_lanes.pop()
                if self.free_lanes
                else lanes.Lane(len(self.lane_of), self.sources)
            )
            self.lane_of[crate] = lane
            verb, folder = "lib", lane.take(crate, self.all_below(crate))
        with open(at(log_of(crate)), "wb") as log:
            return subprocess.Popen(
                ["rt", verb, "--jobs", str(jobs)],
                cwd=folder,
                stdin=subprocess.DEVNULL,
                stdout=log,
                stderr=subprocess.STDOUT,
            )

    def all_below(self, crate: str) -> list[str]:
        found, left = set(), [crate]
        while left:
            left += (more := [it for it in below(self.rows, left.pop()) if it not in found])
            found.update(more)
        return sorted(found)

    def take_one(self) -> None:
        """Waits until one of those that run has ended, and takes what came of it."""
        ended, status, used = os.wait4(-1, 0)
        crate = next((it for it, process in self.running.items() if process.pid == ended), None)
        if crate is None:
            return
        process = self.running.pop(crate)
        process.returncode = status >> 8 if not status & 127 else -(status & 127)
        is_built = self.is_built(crate, process.returncode)
        if crate in self.lane_of:
            lane = self.lane_of.pop(crate)
            lane.give_back(crate, is_built)
            self.free_lanes.append(lane)
        if not is_built:
            self.failed.append(crate)
            if self.running:
                say(
                    f"{crate} couldn't be proved; those that are being proved are waited for"
                    f" ({', '.join(self.running)})"
                )
            return
        self.done.add(crate)
        self.plan.took(crate, used.ru_utime + used.ru_stime)
        if crate != PROGRAM_CRATE:
            with open(at(mark_of(crate)), "w", encoding="ascii") as file:
                file.write(self.sums[crate])
            say(f"{crate} is proved ({len(self.done)} of {len(self.rows)}): {self.left()}")

    def is_built(self, crate: str, status: int) -> bool:
        """Whether a crate was built: the program has been run without words, which it refuses with
        this status."""
        return (
            status == BAD_WORDS and os.access(at(HOME_PROGRAM), os.X_OK)
            if crate == PROGRAM_CRATE
            else status == 0
        )
