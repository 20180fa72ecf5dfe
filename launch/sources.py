"""What the program is made of: the rows of crates.txt for its crate and for those that it stands
on, and the files of these crates' folders src, specs and proofs. Crates of tests, must-fail edits
and documents have no part in it."""
from __future__ import annotations

import os

from launch.paths import CRATES, at
from launch.record import Record
from launch.seen import Looks

PROGRAM_CRATE = "cise_cli"
PARTS = ("src", "specs", "proofs")


def rows() -> dict[str, str]:
    """The row of each crate, without comments and with single spaces. None where the file can't be
    read."""
    try:
        with open(at(CRATES), encoding="utf-8", errors="surrogateescape") as file:
            found = [" ".join(it.partition("#")[0].split()) for it in file]
    except OSError:
        return {}
    return {it.split()[0].rstrip(":"): it for it in found if it}


def rows_of_program() -> dict[str, str]:
    """The rows of the program's crate and of those that it stands on, by their names, in order."""
    every, found, left = rows(), {}, [PROGRAM_CRATE]
    while left:
        crate = left.pop()
        if crate in every and crate not in found:
            found[crate] = every[crate]
            left += below(every, crate)
    return dict(sorted(found.items()))


def below(rows: dict[str, str], crate: str) -> list[str]:
    """The crates of these rows that a crate is made over. A row names libraries of the kit too."""
    return [it for it in rows[crate].partition(":")[2].split() if it in rows]


def files_of(crate: str, looks: Looks) -> list[str]:
    """The paths of a crate's files, in order. Its folders are looked at, so that a file which is
    added is seen."""
    found = []
    for part in PARTS:
        looks.look_at(f"crates/{crate}/{part}")
        for folder, folders, names in os.walk(at(f"crates/{crate}/{part}")):
            folders.sort()
            inside = os.path.relpath(folder, at(""))
            for it in folders:
                looks.look_at(f"{inside}/{it}")
            found += [f"{inside}/{it}" for it in sorted(names)]
    return found


class Sources:
    """The rows, and the sum of each file by its path."""

    def __init__(self, looks: Looks) -> None:
        looks.sum_of(CRATES)
        self.rows = rows_of_program()
        self.sums = {
            path: looks.sum_of(path) for crate in self.rows for path in files_of(crate, looks)
        }

    def crate_of(self, path: str) -> str:
        return path.split("/")[1]

    def changed_since(self, record: Record) -> list[str]:
        """The names of the crates that aren't as a record has them."""
        found = {
            it for it in {*self.rows, *record.rows} if self.rows.get(it) != record.rows.get(it)
        }
        paths = {*self.sums, *record.sums}
        found.update(self.crate_of(it) for it in paths if self.sums.get(it) != record.sums.get(it))
        return sorted(found)

    def total(self) -> str:
        """One sum of them all."""
        import hashlib

        text = "".join(f"{it}\n" for it in self.rows.values()) + "".join(
            f"{total}  {path}\n" for path, total in self.sums.items()
        )
        return hashlib.sha256(text.encode("utf-8", "surrogateescape")).hexdigest()
