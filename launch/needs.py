"""What a machine has to be, so that the program runs on it. prebuilt/README.md says it in full, and
checks/keep compares the two."""
from __future__ import annotations

import os
import sys

GLIBC = (2, 34)
SENTENCE = "the program needs Linux on x86-64 with glibc %d.%d or newer" % GLIBC


def lacking() -> str | None:
    """What this machine lacks, as a sentence, or None."""
    here = machine()
    return None if is_enough() else f"{SENTENCE}, and this is {here}"


def machine() -> str:
    """This machine, in words."""
    if not hasattr(os, "uname"):
        return sys.platform
    it = os.uname()
    return f"{it.sysname} on {it.machine}" + (
        f" with {c_library()}" if it.sysname == "Linux" else ""
    )


def c_library() -> str:
    """The C library that Python runs on, as `glibc 2.36`."""
    try:
        return os.confstr("CS_GNU_LIBC_VERSION") or "no glibc"
    except (ValueError, OSError):
        return "no glibc"


def is_enough() -> bool:
    """Whether the system, the processor and the C library are those that the program needs."""
    if not hasattr(os, "uname"):
        return False
    it, (name, _, version) = os.uname(), c_library().partition(" ")
    found = tuple(int(part) for part in version.split(".")[:2] if part.isdigit())
    return (it.sysname, it.machine, name) == ("Linux", "x86_64", "glibc") and found >= GLIBC
