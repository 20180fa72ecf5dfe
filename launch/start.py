"""Where `./cise` begins: this file is run, and all others are imported. Whatever happens, the
status that it ends with is that of an answer, or 10. Its first word says whether Ctrl-C is heeded,
and all others are those of the call."""
import sys

import _signal

if sys.argv[1] == "heeded":
    _signal.signal(_signal.SIGINT, _signal.SIG_DFL)

try:
    import posix as system
except ImportError:
    import os as system  # type: ignore[no-redef]

TYPE_CHECKING = False
if TYPE_CHECKING:
    from typing import List

NO_PROGRAM, NOT_WRITTEN, BY_SIGNAL = 10, 7, 128


def answered(words: "List[str]") -> int:
    """The status of the answer; 128 and its number for a signal that ended it."""
    if sys.version_info < (3, 8):
        return fault("this needs Python 3.8, and %s is older" % sys.executable)
    try:
        top = folder_above(__file__)
        sys.path.insert(0, top)
        # What Python keeps of the files that it has read goes where all that is made goes, which
        # git passes over. Without sources there is no such place.
        if system.access(top + "/crates.txt", system.F_OK):
            sys.pycache_prefix = top + "/crates/cise_cli/out/python"
        from launch import quick, stopping

        quick.hold_standard_files()
        status = quick.answered(top, words)
        if status is None:
            from launch import answering

            status = answering.main(words)
        stopping.end_at_once()
        return status
    except SystemExit as ended:
        return ended.code if isinstance(ended.code, int) else NO_PROGRAM
    except BaseException as error:
        # (whatever raises `Stopped` has seen to it that the next signal ends the script at once)
        if type(error).__name__ == "Stopped":
            return BY_SIGNAL + int(getattr(error, "number"))
        return fault("no answer, by a fault of the script: %s: %s" % (type(error).__name__, error))


def folder_above(path: str) -> str:
    """The folder above launch/, in which this file is, as a path that holds in any folder."""
    whole = path if path.startswith("/") else system.getcwd() + "/" + path
    return whole.rpartition("/")[0].rpartition("/")[0] or "/"


def fault(text: str) -> int:
    """Says in one line why there is no answer."""
    try:
        system.write(2, ascii("cise: " + text[:400])[1:-1].encode() + b"\n")
    except OSError:
        pass
    return NO_PROGRAM


def end(status: int) -> None:
    """Ends with this status and no other: nothing that is left to be done may change it."""
    try:
        if sys.stdout is not None:
            sys.stdout.flush()
    except (OSError, ValueError):
        status = NOT_WRITTEN
    if status > BY_SIGNAL:
        from launch.stopping import end_by

        status = end_by(status - BY_SIGNAL)
    system._exit(status)


end(answered(sys.argv[2:]))
