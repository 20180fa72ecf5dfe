"""Where crates are proved side by side. `rt` keeps other calls out of the folders of a crate and of
all that it is made over, for as long as it works there, so two crates over a common one would wait
for each other. Hence lanes: copies of the program's sources, by links to the same files, in each of
which one crate at a time is proved. What is kept of a crate stands beside its own sources before
and after."""
from __future__ import annotations

import os
import shutil

from launch.paths import CRATES, OUT, at
from launch.sources import Sources

LANES = f"{OUT}/lanes"
# What `rt lib` leaves in a crate's folder: the library, and what was proved of the crate so far.
LIBRARY = "out/rlib"
SO_FAR = "out/incremental"


def link_file(path: str, to: str) -> None:
    try:
        os.link(path, to)
    except OSError:
        shutil.copy2(path, to)


def link_folder(path: str, to: str) -> None:
    """Makes a folder with the same files, by links where the file system has them."""
    shutil.copytree(path, to, copy_function=link_file)


def move_folder(path: str, to: str) -> None:
    if os.path.isdir(path):
        shutil.rmtree(to, ignore_errors=True)
        os.makedirs(os.path.dirname(to), exist_ok=True)
        os.rename(path, to)


class Lane:
    def __init__(self, name: int, sources: Sources) -> None:
        self.top = at(f"{LANES}/{name}")
        os.makedirs(self.top)
        for path in sources.sums:
            if path != CRATES:
                os.makedirs(os.path.dirname(f"{self.top}/{path}"), exist_ok=True)
                link_file(at(path), f"{self.top}/{path}")
        with open(f"{self.top}/{CRATES}", "w", encoding="utf-8", errors="surrogateescape") as file:
            file.write("".join(f"{row}\n" for row in sources.rows.values()))

    def folder_of(self, crate: str) -> str:
        return f"{self.top}/crates/{crate}"

    def take(self, crate: str, libraries: list[str]) -> str:
        """Has all that proving a crate begins with: these libraries, and what was proved of it so
        far. Returns the folder."""
        for it in libraries:
            built = at(f"crates/{it}/{LIBRARY}")
            if os.path.isdir(built) and not os.path.isdir(f"{self.folder_of(it)}/{LIBRARY}"):
                link_folder(built, f"{self.folder_of(it)}/{LIBRARY}")
        move_folder(at(f"crates/{crate}/{SO_FAR}"), f"{self.folder_of(crate)}/{SO_FAR}")
        return self.folder_of(crate)

    def give_back(self, crate: str, is_built: bool) -> None:
        """Puts what was proved, and the library that was built, beside the crate's sources."""
        move_folder(f"{self.folder_of(crate)}/{SO_FAR}", at(f"crates/{crate}/{SO_FAR}"))
        if is_built:
            move_folder(f"{self.folder_of(crate)}/{LIBRARY}", at(f"crates/{crate}/{LIBRARY}"))


def clear() -> None:
    """Removes all lanes. What a call that was killed proved in them goes where it belongs first."""
    for lane in os.listdir(at(LANES)) if os.path.isdir(at(LANES)) else []:
        crates = at(f"{LANES}/{lane}/crates")
        for crate in os.listdir(crates) if os.path.isdir(crates) else []:
            if os.path.isdir(at(f"crates/{crate}")) and not os.path.exists(
                at(f"crates/{crate}/{SO_FAR}")
            ):
                move_folder(f"{crates}/{crate}/{SO_FAR}", at(f"crates/{crate}/{SO_FAR}"))
    shutil.rmtree(at(LANES), ignore_errors=True)
