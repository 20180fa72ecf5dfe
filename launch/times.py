"""How long proving takes: the processor seconds that each crate took when it was last proved from
nothing, as they are recorded, and what is left of them. Of a crate that has none, they are taken by
its lines, at what a line of the others took."""
from __future__ import annotations

import os
import time
from typing import Iterable

from launch.paths import KEPT_TIMES, OUT, at
from launch.seen import Looks
from launch.sources import Sources, below, files_of

# Where no time of any crate is recorded.
SECONDS_A_LINE = 0.04
HOME_TIMES = f"{OUT}/times"


def recorded() -> dict[str, float]:
    try:
        with open(at(KEPT_TIMES), encoding="utf-8") as file:
            rows = [it.split() for it in file if not it.startswith("#")]
        return {crate: float(seconds) for crate, seconds in rows}
    except (OSError, ValueError):
        return {}


class NoLooks(Looks):
    """For a walk over files that looks at none."""

    def __init__(self) -> None:
        pass

    def look_at(self, path: str) -> None:
        pass


def lines_of(crate: str) -> int:
    found = 0
    for path in files_of(crate, NoLooks()):
        with open(at(path), "rb") as file:
            found += file.read().count(b"\n")
    return found


class Plan:
    def __init__(self, sources: Sources, most: int) -> None:
        self.rows, self.most = sources.rows, most
        lines, known = {it: lines_of(it) for it in sources.rows}, recorded()
        both = [it for it in lines if it in known]
        rate = (
            sum(known[it] for it in both) / max(1, sum(lines[it] for it in both))
            if both
            else SECONDS_A_LINE
        )
        self.seconds = {it: known.get(it, rate * lines[it]) for it in lines}
        self.chains: dict[str, float] = {}
        self.begun: dict[str, float] = {}
        self.taken: dict[str, float] = {}

    def chain_of(self, crate: str) -> float:
        """The seconds of the longest chain of crates from this one up to the program. Those with
        the most are proved first."""
        if crate not in self.chains:
            above = [self.chain_of(it) for it in self.rows if crate in below(self.rows, it)]
            self.chains[crate] = self.seconds[crate] + max(above, default=0)
        return self.chains[crate]

    def begins(self, crate: str) -> None:
        self.begun[crate] = time.monotonic()

    def took(self, crate: str, seconds: float) -> None:
        self.taken[crate] = seconds

    def left(self, rows: Iterable[str], done: set[str], running: Iterable[str]) -> str:
        """About how long it still takes, in words: the seconds of the crates that are left, side by
        side, but at least the longest chain of them; as much faster or slower as those that were
        proved now were."""
        left = [it for it in rows if it not in done]
        spent = {
            it: min(time.monotonic() - self.begun[it], 0.9 * self.seconds[it]) for it in running
        }
        side_by_side = (sum(self.seconds[it] for it in left) - sum(spent.values())) / self.most
        chain = max((self.chain_of(it) - spent.get(it, 0) for it in left), default=0)
        planned = sum(self.seconds[it] for it in self.taken)
        pace = sum(self.taken.values()) / planned if planned > 60 else 1
        minutes = max(side_by_side, chain) * pace / 60
        return (
            "less than a minute left"
            if minutes < 1
            else f"about {minutes:.0f} minute{'s' * (minutes >= 1.5)} left"
        )

    def keep(self, done: set[str]) -> None:
        """Leaves the times of all crates, where all were proved in this call, in the form that is
        kept in the repository."""
        if set(self.taken) == set(self.rows) == set(done):
            with open(at(HOME_TIMES), "w", encoding="utf-8") as file:
                file.write("".join(f"{it} {self.taken[it]:.0f}\n" for it in sorted(self.taken)))
