"""Where the program stands without its sources: in an installed package, an archive, or the one
file cise.pyz, each made by checks/pack. The program answers whose SHA-256 the record has. It says
so once to each user, and in `cise about`."""
from __future__ import annotations

import os

from launch import needs
from launch.paths import CRATES, KEPT_PROGRAM, KEPT_RECORD, NO_PROGRAM, at, bytes_of, say
from launch.told import is_news
from launch.version import VERSION

TYPE_CHECKING = False
if TYPE_CHECKING:
    from launch.record import Record

# What checks/pack leaves beside the program: lines `KEY: TEXT`, with the commit.
PACKED = "prebuilt/packed"
# The record in the one file, with its sums as bytes, and of each path what differs from the one
# before.
FOLDED = f"{KEPT_RECORD}.folded"
SUM_BYTES = 32
# The byte of a path that shares nothing, behind the signs that begin or end a line; and how many
# bytes of a path are shared at most.
NONE_SHARED = 40
MOST_SHARED = 200
NO_SOURCES = (
    "there are no sources here to be proved: they stand in the repository, whose ./cise prove"
    " proves them"
)
TOLD = (
    f"cise {VERSION} answers by a program that its makers proved and built; "
    "cise about says what that rests on (said once)"
)


class Found:
    """The path by which the program is run, or why it isn't; and its SHA-256, where it is the
    record's."""

    def __init__(self, path: str | None, why: str | None, total: str = "") -> None:
        self.path, self.why, self.total = path, why, total


def is_so() -> bool:
    """Whether no sources stand here."""
    return not os.path.exists(at(CRATES)) and not os.path.isdir(at("crates"))


def answered(words: list[str]) -> int:
    """Answers a call, and returns the status."""
    found = program()
    if found.path is None:
        say(str(found.why))
        return NO_PROGRAM
    from launch.answering import answer

    # (where it can't be noted, it is said each time)
    if is_news(f"{VERSION} {found.total}"):
        say(TOLD)
    return answer(found.path, words)


def program() -> Found:
    """The program, where its sum is that of the record and the machine can run it."""
    why = needs.lacking()
    if why:
        return Found(None, why)
    try:
        data, text = bytes_of(KEPT_PROGRAM), record_text()
    except OSError as error:
        return Found(None, f"{at(KEPT_PROGRAM)} or its record can't be read ({error})")
    total = sum_of(data)
    if f"\n{total}  {KEPT_PROGRAM}\n".encode() not in text:
        return Found(None, f"{at(KEPT_PROGRAM)} isn't the program that its record names")
    if os.access(at(KEPT_PROGRAM), os.X_OK):
        return Found(at(KEPT_PROGRAM), None, total)
    return in_memory(data, total)


def kept() -> Record | None:
    """The record, where it is whole."""
    from launch import record

    try:
        text = record_text().decode("utf-8", "surrogateescape")
        return record.parsed(text, KEPT_RECORD, KEPT_PROGRAM)
    except (OSError, record.Damaged):
        return None


def record_text() -> bytes:
    """The text of the record."""
    try:
        return bytes_of(KEPT_RECORD)
    except OSError:
        return unfolded(bytes_of(FOLDED))


def folded(text: bytes) -> bytes:
    """A record whose sums stand as bytes behind its lines. A line that had one begins with a byte
    that tells how many bytes it shares with the one before, and has the others."""
    lines, sums, last = [], b"", b""
    for line in text.split(b"\n"):
        if line and not line.startswith(b"#"):
            sums += bytes.fromhex(line[: 2 * SUM_BYTES].decode())
            path = line[2 * SUM_BYTES :]
            shared = min(len(os.path.commonprefix([last, path])), MOST_SHARED)
            line, last = bytes([NONE_SHARED + shared]) + path[shared:], path
        lines.append(line)
    return b"\n".join(lines) + b"\0" + sums


def unfolded(data: bytes) -> bytes:
    """The record of which this is the folded form."""
    text, _, sums = data.partition(b"\0")
    lines, at, last = text.split(b"\n"), 0, b""
    for place, line in enumerate(lines):
        if line and not line.startswith(b"#"):
            last = last[: line[0] - NONE_SHARED] + line[1:]
            lines[place] = sums[at : at + SUM_BYTES].hex().encode() + last
            at += SUM_BYTES
    return b"\n".join(lines)


def sum_of(data: bytes) -> str:
    """The SHA-256 of bytes."""
    import hashlib

    return hashlib.sha256(data).hexdigest()


def in_memory(data: bytes, total: str) -> Found:
    """The same for a program that is no file of its own: a file in memory, which ends with this
    process and needs no folder."""
    elsewhere = "the archive and the packages have it as a file"
    try:
        number = os.memfd_create("cise_cli", 0)
        with os.fdopen(number, "wb", closefd=False) as file:
            file.write(data)
    except OSError as error:
        why = f"the program can't be put into memory ({error.strerror})"
        return Found(None, f"{why}; {elsewhere}")
    path = f"/proc/{os.getpid()}/fd/{number}"
    if not os.path.exists(path):
        return Found(None, f"the program can't be run from memory without /proc; {elsewhere}")
    return Found(path, None, total)


def commit() -> str | None:
    """The commit that was packed, or None where nothing says it."""
    try:
        lines = bytes_of(PACKED).decode("utf-8", "replace").splitlines()
    except OSError:
        return None
    return next((it.partition(": ")[2] for it in lines if it.startswith("commit: ")), None)
