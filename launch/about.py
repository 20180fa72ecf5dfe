"""`cise about`: which program answers, by what it was proved, and what is trusted with it."""
import os
import subprocess
from typing import List, Optional, Tuple

from launch import needs, packed, record
from launch.paths import HOME_PROGRAM, KEPT_PROGRAM, NO_PROGRAM, TOP, say
from launch.version import VERSION
from view.columns import wrapped
from view.output import written

NOT_WRITTEN = 7
WIDEST = 11
PROVED = (
    "Verdicts, witnesses, replays and suggestions are the program's, and are proved: README.md of "
    'the repository, "What is proved". What the script\'s own words write beside them is tried by '
    "tests, and proved by nobody."
)
TRUSTED = (
    "The kit with its prover and compilers, the C library, the system, and Python with the script "
    'for which program is run on which words: README.md of the repository, "What is trusted".'
)
BY_OTHERS = (
    "That whoever made this ran the gate and packed what it built, since the record comes from the "
    "same hand. In the repository ./cise prove proves the program anew, and compares it with this "
    "one, byte for byte."
)
AT_HOME = (
    "Nothing of how it was proved: that was done on this machine, by ./cise prove or by the gate."
)
GATE = "the repository's gate proves all from nothing, and fails where its program isn't this one"


def main() -> int:
    """Writes what there is to say, and returns the status: 10 where no program can answer."""
    program, found, why = answering()
    text = told(program, found)
    if not written(text):
        return NOT_WRITTEN
    if why:
        say(why)
        return NO_PROGRAM
    return 0


def answering() -> Tuple[str, Optional[record.Record], Optional[str]]:
    """The program that answers, its record, and why none does."""
    if packed.is_so():
        why = packed.program().why
        return KEPT_PROGRAM, None if why else packed.kept(), why
    from launch import choosing

    name, reasons = choosing.choose()
    if name is None:
        return "none", None, "; ".join(reasons)
    program = choosing.PROGRAMS[name]
    return program, record.read(choosing.RECORDS[name], program), None


def told(program: str, found: Optional[record.Record]) -> str:
    """What is said of a program and of its record."""
    rows = [("version", VERSION), ("stands in", TOP)]
    rows += facts(program, found) if found else [("program", "none answers")]
    rows += [("commit", commit() or "not known here"), ("machine", needs.machine())]
    lines = [line for name, it in rows for line in row(name, it)]
    trusted = [AT_HOME if program == HOME_PROGRAM else BY_OTHERS, TRUSTED]
    lines += ["", "what is trusted", *(line for it in trusted for line in wrapped(it, 2))]
    lines += ["", "what is proved", *wrapped(PROVED, 2)]
    return "\n".join(lines) + "\n"


def facts(program: str, found: record.Record) -> List[Tuple[str, str]]:
    """The rows that a record gives."""
    who = "on this machine" if program == HOME_PROGRAM else "by the makers of this copy"
    here = "which don't stand here" if packed.is_so() else "which stand here unchanged"
    return [
        ("program", f"{program}, " + ("proved here" if program == HOME_PROGRAM else "kept")),
        ("SHA-256", found.program_sum),
        ("proved by", f"{found.proved_by}, {who}"),
        ("sources", f"{len(found.sums):,} files, {here}; each SHA-256 is in the record"),
        ("kit", found.kit),
        ("gate", GATE),
    ]


def row(name: str, text: str) -> List[str]:
    """A row, in lines below one another where it is long."""
    first, *rest = wrapped(text, WIDEST)
    return [f"{name:{WIDEST}}{first.strip()}", *rest]


def commit() -> Optional[str]:
    """The commit of what stands here: the one that was packed, or git's."""
    if packed.is_so():
        return packed.commit()
    if not os.path.exists(os.path.join(TOP, ".git")):
        return None
    try:
        words = ["git", "-C", TOP, "rev-parse", "HEAD"]
        ran = subprocess.run(words, stdin=subprocess.DEVNULL, capture_output=True, check=True)
    except (OSError, subprocess.CalledProcessError):
        return None
    return ran.stdout.decode().strip()
