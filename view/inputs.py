"""Reads inputs, each once: what the program is run on and what the layer tells of are the same
bytes, whatever becomes of the file meanwhile.

`read` copies an input, up to a limit, to a place of its own. The copy's path goes to the program
as it is; `text_of` gives the copy's text, and `name_of` what the user called it, for sentences. A
pipe, and a path that isn't UTF-8, become inputs like all others by that."""
import os
import shutil
import tempfile
from dataclasses import dataclass
from functools import cached_property
from typing import Dict, Iterator, List, Optional, Tuple

from view.words import text_of as text_now

# What the program reads at most of each kind of input.
MOST_OF_SPECIFICATION, MOST_OF_SCHEDULE, MOST_BYTES = 1 << 16, 1 << 24, 1 << 26
PIECE = 1 << 20
# So many bytes of lines are read at a time, or one line.
PIECE_OF_LINES = 1 << 17
# Where Linux has the files that a process has open.
IN_MEMORY = "/proc/self/fd/"


class Copy:
    """Bytes at a `path` that this process and those that it starts can read: without a name in a
    file system where Linux has such files, else in a folder of their own. It is there until
    `close`, or until the process ends."""

    def __init__(self) -> None:
        self.folder: Optional[str] = None
        if hasattr(os, "memfd_create") and os.path.isdir(IN_MEMORY):
            self.number = above_standard(os.memfd_create("input", 0))
            self.path = f"{IN_MEMORY}{self.number}"
        else:
            self.folder = tempfile.mkdtemp(prefix="cise-")
            self.path = os.path.join(self.folder, "input")
            self.number = os.open(self.path, os.O_RDWR | os.O_CREAT | os.O_EXCL, 0o600)

    def add(self, data: bytes) -> None:
        """Writes bytes behind those that are there."""
        left = memoryview(data)
        while left:
            left = left[os.write(self.number, left) :]

    def close(self) -> None:
        """Lets the copy go."""
        os.close(self.number)
        if self.folder:
            shutil.rmtree(self.folder, ignore_errors=True)


def above_standard(number: int) -> int:
    """A descriptor like this one that isn't standard input, output or error: one of these may be
    closed, and would be taken."""
    if number > 2:
        return number
    import fcntl

    other = fcntl.fcntl(number, fcntl.F_DUPFD, 3)
    os.close(number)
    return other


@dataclass(frozen=True)
class Input:
    """An input that was read: its `name` as the user wrote it, and the `path` of the copy, which
    the program reads."""

    name: str
    path: str

    @cached_property
    def data(self) -> bytes:
        """The bytes."""
        with open(self.path, "rb") as file:
            return file.read()

    @cached_property
    def text(self) -> str:
        """The text. Bytes that aren't UTF-8 are kept, as `view.words.encoded` knows."""
        return text_now(self.path)


inputs: Dict[str, Input] = {}
copies: Dict[str, Copy] = {}


def read(path: str, most: int = MOST_BYTES) -> Input:
    """Reads an input, and no more of it than the program would: so many bytes, and one to see
    whether there are more. By the path of a copy it is that. `OSError` where it can't be read,
    with its name."""
    if path in inputs:
        return inputs[path]
    copy, left = Copy(), most + 1
    try:
        with open(path, "rb", buffering=0) as source:
            while left and (piece := source.read(min(left, PIECE))):
                copy.add(piece)
                left -= len(piece)
    except OSError as error:
        copy.close()
        raise OSError(error.errno, error.strerror, path) from error
    copies[copy.path] = copy
    inputs[copy.path] = Input(path, copy.path)
    return inputs[copy.path]


def blocks(path: str) -> Iterator[Tuple[List[int], List[bytes]]]:
    """The lines of an input that is too large for a copy, and so is read once, as they come, some
    at a time with their numbers; without those that are empty."""
    with open(path, "rb") as file:
        number = 1
        while found := file.readlines(PIECE_OF_LINES):
            kept = [at for at, line in enumerate(found) if line.strip()]
            if kept:
                yield [number + at for at in kept], [found[at] for at in kept]
            number += len(found)


def is_file(path: str) -> bool:
    """Whether there is something to be read at a path: a file, a pipe or a device."""
    return os.path.exists(path) and not os.path.isdir(path)


def name_of(path: str) -> str:
    """What the user called the input of this path."""
    return inputs[path].name if path in inputs else path


def is_gone(path: str) -> bool:
    """Whether this was a copy in memory that nobody has any more."""
    return path.startswith(IN_MEMORY) and not os.path.exists(path)


def text_of(path: str, most: int = MOST_BYTES) -> str:
    """The text of an input by the path of its copy; of another file what it holds now, and no more
    than the program would read."""
    return inputs[path].text if path in inputs else text_now(path, most + 1)


def close(path: str) -> None:
    """Lets the copy of an input go."""
    del inputs[path]
    copies.pop(path).close()


def close_all() -> None:
    """Lets all copies go."""
    for it in list(copies):
        close(it)
