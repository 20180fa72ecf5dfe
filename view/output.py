"""Standard output and standard error. All that a person's terminal gets on standard error goes
through `say`; what is shown of an input, of a name or of a path goes through `printable` first, so
that it stays a part of one line."""
import os
import sys
import time

from launch import saying
from launch.saying import lines_of, printable, visible
from view.words import encoded

__all__ = ["Progress", "lines_of", "printable", "say", "visible", "written"]
# A terminal erases what stands behind in its line.
ERASE = "\x1b[K"


def say(text: str) -> None:
    """Writes lines on standard error; that it can't is no reason to end. What stands in its place
    within Python, as in a test, gets the same."""
    if sys.stderr is sys.__stderr__ or sys.stderr is None:
        saying.say(text)
    else:
        sys.stderr.write(lines_of(text))


def written(text: str) -> bool:
    """Writes on standard output, and says whether it could."""
    if sys.stdout is None:
        return False
    try:
        sys.stdout.flush()
        sys.stdout.buffer.write(encoded(text))
        sys.stdout.buffer.flush()
        return True
    except (OSError, ValueError):
        # What is left in a buffer must not fail once more when the interpreter ends.
        os.dup2(os.open(os.devnull, os.O_WRONLY), 1)
        return False


class Progress:
    """Says on a terminal how far something is that takes its time: in one line, which is gone at
    the end."""

    FIRST_SECONDS, SECONDS = 1.0, 0.2

    def __init__(self) -> None:
        self.is_shown = False
        try:
            self.due = (
                time.monotonic() + self.FIRST_SECONDS
                if os.isatty(saying.STANDARD_ERROR)
                else float("inf")
            )
        except OSError:
            self.due = float("inf")

    def __enter__(self) -> "Progress":
        return self

    def tell(self, text: str) -> None:
        """Shows how far it is, some times in a second."""
        now = time.monotonic()
        if now >= self.due:
            self.due, self.is_shown = now + self.SECONDS, True
            self.write("\r" + printable(text, 78) + ERASE)

    def write(self, text: str) -> None:
        try:
            os.write(saying.STANDARD_ERROR, text.encode("utf-8", "replace"))
        except OSError:
            pass

    def __exit__(self, *_: object) -> None:
        if self.is_shown:
            self.write("\r" + ERASE)
