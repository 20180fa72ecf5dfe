"""Where things stand. Paths are of the repository's top; `at` gives one that can be opened from any
folder."""
import os

from launch import quick, saying

TOP = os.path.dirname(os.path.dirname(os.path.realpath(__file__)))
CRATES = "crates.txt"
# The program that was proved and built on this machine, by the gate or by ./cise prove, with its
# record.
OUT = quick.OUT
HOME_PROGRAM = f"{OUT}/cise_cli"
HOME_RECORD = f"{OUT}/cise_cli.record"
# The program that is kept in the repository, with its record, and the processor seconds that
# proving each crate took.
KEPT_PROGRAM = "prebuilt/cise_cli"
KEPT_RECORD = "prebuilt/record"
KEPT_TIMES = "prebuilt/times"
# What was looked at when a program was last chosen.
SEEN = f"{OUT}/seen"

NAME = quick.NAME

# The statuses of the script itself, beside those of the program.
OTHER_THAN_KEPT = 1
BAD_WORDS = 2
NO_PROGRAM = 10
# Behind it stands the number of the signal that ended the script or the program, as a shell has it.
BY_SIGNAL = 128


def at(path: str) -> str:
    return f"{TOP}/{path}"


def bytes_of(path: str) -> bytes:
    """What a file has, also where this is run from an archive and the file stands in it."""
    data: bytes = __spec__.loader.get_data(at(path))  # type: ignore[name-defined]
    return data


def say(text: str) -> None:
    """Says a line on standard error."""
    saying.say(f"cise: {text}\n")
