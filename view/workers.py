"""Work that several processes share. Each is a copy of this one, does one part, and sends back what
it found. None of them outlives the call."""
import os
import pickle
import signal
from typing import Any, BinaryIO, Callable, Dict, List, NoReturn, Tuple, Type, TypeVar

Found = TypeVar("Found")
# The most processes that share some work: each holds some memory of its own.
MOST = 8


def processors() -> int:
    """How many processors this process may use."""
    if hasattr(os, "sched_getaffinity"):
        return len(os.sched_getaffinity(0))
    return os.cpu_count() or 1


def worth(size: int, large: int) -> int:
    """How many processes share work of some size: one where it isn't large."""
    return min(MOST, processors()) if size >= large and hasattr(os, "fork") else 1


def shared(count: int, work: Callable[[int], Found]) -> List[Found]:
    """What the work answers for each number below `count`, in order: by a process each, or by this
    one where it is one. What one of them raises is raised here."""
    if count == 1:
        return [work(0)]
    begun: List[Tuple[int, BinaryIO]] = []
    try:
        for number in range(count):
            begun.append(worker(number, work))
        said = [pickle.loads(pipe.read() or DIED) for _, pipe in begun]
    finally:
        for process, pipe in begun:
            pipe.close()
            os.kill(process, signal.SIGTERM)
            os.waitpid(process, 0)
    for is_found, value in said:
        if not is_found:
            raise as_it_was(*value)
    return [value for _, value in said]


def worker(number: int, work: Callable[[int], Found]) -> Tuple[int, BinaryIO]:
    """A process that works, by its number, and the pipe that it sends its answer through."""
    reads, writes = os.pipe()
    process = os.fork()
    if process:
        os.close(writes)
        return process, os.fdopen(reads, "rb")
    os.close(reads)
    answer_and_leave(number, work, writes)


def answer_and_leave(number: int, work: Callable[[int], Found], writes: int) -> NoReturn:
    """Does a worker's part, sends the answer, and ends the process."""
    try:
        try:
            answer = pickle.dumps((True, work(number)))
        except Exception as error:
            answer = pickle.dumps((False, (type(error), error.args, error.__dict__)))
        with os.fdopen(writes, "wb") as pipe:
            pipe.write(answer)
    finally:
        os._exit(0)


def as_it_was(kind: Type[Exception], args: Tuple[Any, ...], parts: Dict[str, Any]) -> Exception:
    """An error as it was raised. (Some take other words than they keep, so none is made anew.)"""
    error = kind.__new__(kind)
    error.args = args
    error.__dict__.update(parts)
    return error


# What is read of a worker that sent nothing.
DIED = pickle.dumps((False, (OSError, ("a process that shared the work has died",), {})))
