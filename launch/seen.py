"""What was looked at when a program was last chosen, so that a call needs no sums of files that
haven't changed since.

The file's first line says what was chosen, and how many lines follow. There is one for each file
and folder that had a part in it: its mark, its sum (`-` for a folder, and for what isn't there)
and its path. A mark is of the size, the time of the last change of the content, that of the last
change of any kind, and the number of the file in its file system. A folder's mark changes with the
names in it. What changed less than a quarter of a second before it was looked at gets no mark,
since a further change could leave its times as they are; so its sum is taken again at the next
call.

A second file has the same for the common case, in which nothing has changed, in the form of
`marshal`: the program, the folder, the whole paths, and all marks as one piece of bytes. It is for
launch/quick.py, which compares these with those of the marks as they are now."""
from __future__ import annotations

import marshal
import os
import time

from launch import quick
from launch.paths import SEEN, TOP, at
from launch.quick import mark_at, marks_now

NO_MARK = "none"
SETTLED_NANOSECONDS = 250_000_000


def mark_of(path: str) -> str:
    """The mark of a file or folder of the repository."""
    return mark_at(at(path))


def settled_mark_of(path: str) -> str:
    """The mark, or none where the file or folder may still change without a change of its times."""
    now, mark = time.time_ns(), mark_of(path)
    times = [int(it) for it in mark.split(".")[1:3]]
    return NO_MARK if any(it > now - SETTLED_NANOSECONDS for it in times) else mark


def read() -> tuple[str | None, list[str]]:
    """What was chosen last, and the lines; None and nothing where the file isn't there, or not
    whole."""
    try:
        with open(at(SEEN), encoding="utf-8", errors="surrogateescape") as file:
            first, *lines = file.read().splitlines()
        choice, count = first.split(" ")
        return (choice, lines) if int(count) == len(lines) else (None, [])
    except (OSError, ValueError):
        return None, []


def parts_of(line: str) -> tuple[str, str, str]:
    mark, total, path = line.split(" ", 2)
    return mark, total, path


class Looks:
    """Looks at files and folders, and takes the sums of files: from the last time, where their
    marks are the same."""

    def __init__(self) -> None:
        self.last_choice, lines = read()
        try:
            self.known = {path: (mark, total) for mark, total, path in map(parts_of, lines)}
        except ValueError:
            self.known = {}
        self.seen: dict[str, tuple[str, str]] = {}

    def sum_of(self, path: str) -> str | None:
        """The SHA-256 of a file, or None where it can't be read."""
        mark = settled_mark_of(path)
        known_mark, known_sum = self.known.get(path, (NO_MARK, "-"))
        total = known_sum if mark == known_mark != NO_MARK else sum_now(path)
        self.seen[path] = (mark, total)
        return None if total == "-" else total

    def last_sum_of(self, path: str) -> str | None:
        known = self.known.get(path)
        return known[1] if known else None

    def look_at(self, path: str) -> None:
        """Takes a folder, or what isn't there, for a part of what was looked at."""
        self.seen[path] = (settled_mark_of(path), "-")

    def keep(self, choice: str, program: str) -> bool:
        """Writes down what was chosen, and says whether it could. Where the folder can't be
        written to, the next call looks at all again."""
        lines = "".join(f"{mark} {total} {path}\n" for path, (mark, total) in self.seen.items())
        is_kept = put(SEEN, os.fsencode(f"{choice} {len(self.seen)}\n{lines}"))
        if is_kept and NO_MARK not in {mark for mark, _ in self.seen.values()}:
            is_kept = self.keep_quick(program)
        return is_kept

    def keep_quick(self, program: str) -> bool:
        """Writes the second file, where nothing has changed since it was looked at."""
        paths = [os.fsencode(at(it)) for it in self.seen]
        marks = marks_now(paths)
        is_same = all(mark_of(path) == mark for path, (mark, _) in self.seen.items())
        found = marshal.dumps((at(program), TOP, paths, marks), 2)
        return put(quick.SEEN, found) if is_same else True


def put(path: str, data: bytes) -> bool:
    """Writes a file whole or not at all, and says whether it could."""
    new = at(f"{path}.{os.getpid()}")
    try:
        os.makedirs(os.path.dirname(new), exist_ok=True)
        with open(new, "wb") as file:
            file.write(data)
        os.replace(new, at(path))
        return True
    except OSError:
        try:
            os.remove(new)
        except OSError:
            pass
        return False


def sum_now(path: str) -> str:
    import hashlib

    try:
        with open(at(path), "rb") as file:
            return hashlib.sha256(file.read()).hexdigest()
    except OSError:
        return "-"
