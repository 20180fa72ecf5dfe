"""Answers a call of the program's own commands where all that had a part in choosing the program is
as it was at the last call, as it is nearly always. It imports nothing that Python hasn't at its
start: `posix` and `_signal` are what `os` and `signal` are made over, and `os` alone takes a fourth
of the instructions of that start. Whatever else a call needs is imported then."""
import marshal
import posix

import _signal as signal

from launch import allocator, stopping

TYPE_CHECKING = False
if TYPE_CHECKING:
    from types import FrameType
    from typing import List, Optional

# What the program is called, whatever its path.
NAME = "cise"
# The commands of the program, and how many of the words behind each are paths. Each has one word
# behind it at least.
PATHS = {
    "check": 1,
    "suggest": 1,
    "spell": 1,
    "verify": 2,
    "upgrade": 2,
    "replay": 2,
    "simulate": 2,
    "sample": 0,
}
# What asks for help, for which no program is needed.
HELP = frozenset(("help", "--help", "-h", "--version"))
# With this word view/ may answer.
SECOND = "--second"
# The folder that all is made in, and in it what was looked at when a program was last chosen, for
# this module alone.
OUT = "crates/cise_cli/out"
SEEN = f"{OUT}/seen.quick"
# The statuses of which nothing is to be said.
SILENT = (0, 1, 5)
NO_PROGRAM, BY_SIGNAL = 10, 128
NOT_THERE = "absent"


def answered(top: str, words: "List[str]") -> "Optional[int]":
    """The status of the answer, where it can be had so, and None elsewhere. `top` is the folder
    above launch/."""
    found = program(top) if takes(words) else None
    return None if found is None else answer(found, words, words)


def takes(words: "List[str]") -> bool:
    """Whether the program answers these words, and takes them as they are."""
    is_own = bool(words) and words[0] in PATHS and SECOND not in words and HELP.isdisjoint(words)
    return is_own and all(map(str.isascii, words))


def program(top: str) -> "Optional[str]":
    """The program that was chosen last, where all that had a part in it is as it was, else None."""
    try:
        with open(f"{top}/{SEEN}", "rb") as file:
            path, folder, paths, marks = marshal.loads(file.read())
        here, there = posix.stat(top), posix.stat(folder)
        is_here = (here.st_dev, here.st_ino) == (there.st_dev, there.st_ino)
        is_same = is_here and marks_now(paths) == marks
        return path if is_same and isinstance(path, str) else None
    except (OSError, ValueError, EOFError, TypeError):
        return None


def marks_now(paths: "List[bytes]") -> bytes:
    """The marks of whole paths as bytes; of what isn't there, its place."""
    found = [len(paths)]
    stat = posix.stat
    for place, path in enumerate(paths):
        try:
            it = stat(path)
            found += it.st_size, it.st_mtime_ns, it.st_ctime_ns, it.st_ino
        except OSError:
            found.append(place)
    return marshal.dumps(found, 2)


def mark_at(path: str) -> str:
    """The mark of a file or folder anywhere."""
    try:
        it = posix.stat(path)
    except (OSError, ValueError):
        return NOT_THERE
    return f"{it.st_size}.{it.st_mtime_ns}.{it.st_ctime_ns}.{it.st_ino}"


def inputs_of(words: "List[str]") -> "List[str]":
    """The inputs of a command, which are paths."""
    return words[1 : PATHS.get(words[0], 0) + 1] if words else []


def marks_of(words: "List[str]") -> "List[str]":
    """What tells of each input whether it has been changed."""
    return [mark_at(it) for it in inputs_of(words)]


def answer(program: str, words: "List[str]", readable: "List[str]") -> int:
    """Answers by the program, whose words are the readable ones, and returns the status."""
    marks = marks_of(words)
    status = run(program, readable)
    if status not in SILENT:
        try:
            from launch import answering

            answering.tell(program, words, status, marks)
        except Exception:
            # The program has answered, and nothing that is said behind it may change that.
            pass
    return status


def run(program: str, words: "List[str]") -> int:
    """Runs the program, with standard input and output as they are, and returns its status: as a
    shell does, 128 and the number for a signal. What is to end the script ends the program, and the
    script with it."""
    started: "List[int]" = []

    def pass_on(number: int, _: "Optional[FrameType]") -> None:
        if started:
            posix.kill(started[0], number)
        else:
            stopping.end_by(number)

    stopping.handle_by(pass_on)
    # (a signal that comes while the program is started waits until it is known whom to pass it on
    # to)
    mask = signal.pthread_sigmask(signal.SIG_BLOCK, stopping.ENDING)
    try:
        # (Python has these two ignored, which the program would inherit; its own path may be of any
        # bytes, which its words may not)
        defaults = [signal.SIGPIPE, signal.SIGXFSZ]
        environment = allocator.set_in(posix.environ)
        started.append(
            posix.posix_spawn(
                program, [NAME, *words], environment, setsigmask=mask, setsigdef=defaults
            )
        )
    except OSError as error:
        from launch import answering

        answering.tell_of_start(program, error)
        return NO_PROGRAM
    finally:
        signal.pthread_sigmask(signal.SIG_SETMASK, mask)
    # (until its status is taken, the program's number is no other one's: so that is taken where no
    # signal is passed on to it)
    posix.waitid(posix.P_PID, started[0], posix.WEXITED | posix.WNOWAIT)
    stopping.end_at_once()
    status = posix.waitpid(started[0], 0)[1]
    return status >> 8 if not status & 127 else BY_SIGNAL + (status & 127)


def hold_standard_files() -> None:
    """Keeps the numbers 0, 1 and 2 from files that are opened later, where who called closed them.
    What is written on the last fails still."""
    for number, how in ((0, posix.O_RDONLY), (1, posix.O_RDONLY), (2, posix.O_WRONLY)):
        try:
            posix.fstat(number)
        except OSError:
            posix.set_inheritable(posix.open("/dev/null", how), True)
