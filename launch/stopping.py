"""How the script ends by a signal: whoever called it sees by which one, and no status of an
answer. As launch/quick.py, it imports nothing that Python hasn't at its start."""
import posix

import _signal as signal

TYPE_CHECKING = False
if TYPE_CHECKING:
    from subprocess import Popen
    from types import FrameType
    from typing import Callable, Iterable, Optional, Union

    Handler = Union[int, Callable[[int, Optional[FrameType]], None]]

ENDING = (signal.SIGINT, signal.SIGTERM, signal.SIGHUP)


class Stopped(BaseException):
    """A signal came that ends the script."""

    def __init__(self, number: int) -> None:
        super().__init__(number)
        self.number = number


def handle_by(handler: "Handler") -> None:
    """Has this called for the signals that end a process, but for those that who called has
    ignored."""
    for it in ENDING:
        if signal.getsignal(it) != signal.SIG_IGN:
            signal.signal(it, handler)


def stop_by_signals() -> None:
    """Has the first of these signals raise `Stopped`; the next one ends the script at once."""

    def stop(number: int, _: "Optional[FrameType]") -> None:
        end_at_once()
        raise Stopped(number)

    handle_by(stop)


def end_at_once() -> None:
    """Has these signals end the script as they would any process."""
    handle_by(signal.SIG_DFL)


def end_by(number: int) -> int:
    """Ends the script by a signal. The status is for a signal that doesn't end it."""
    try:
        signal.signal(number, signal.SIG_DFL)
        signal.pthread_sigmask(signal.SIG_UNBLOCK, [number])
        posix.kill(posix.getpid(), number)
    except (OSError, ValueError):
        # (SIGKILL can't be handled, and needn't be)
        posix.kill(posix.getpid(), number)
    return 128 + number


def end_all(processes: "Iterable[Popen[bytes]]") -> None:
    """Ends processes and waits for them, whatever signals still come."""
    handle_by(signal.SIG_IGN)
    for it in processes:
        it.terminate()
    for it in processes:
        it.wait()
