"""SCHEDULE, "The format" and "What is checked, and in which order": the schedule that bytes are."""
from __future__ import annotations
import json
import math
import re
from typing import Iterable, List, NamedTuple, NoReturn, Union

from second.meaning import World
from second.specification import Specification

# "at most 16,777,216 bytes"
MOST_BYTES = 16_777_216
# "from -9223372036854775808 to 9223372036854775807"
MOST_WHOLE = 2 ** 63
# "arrays and objects nest at most 127 deep"
MOST_NESTED = 127
MOST_SIZE, MOST_REPLICAS, MOST_STEPS, MOST_NUMBER = 64, 16, 10_000, 4_294_967_295
# A text of JSON, or a bracket outside of texts.
TEXT_OR_BRACKET = re.compile(r'"(?:[^"\\]|\\.)*"|[\[\]{}]', re.DOTALL)
# An escape that is half of a character, without its other half; other escapes are passed by.
HALF = re.compile(r"\\u[dD][89abAB]..\\u[dD][c-fC-F]..|(\\u[dD][89a-fA-F])|\\.", re.DOTALL)


class ScheduleRefused(Exception):
    """Bytes are no schedule, for this reason."""

# A replica makes a call, or it takes an event.
CallStep = NamedTuple("CallStep", [("replica", int), ("name", str), ("args", List[int])])
TakeStep = NamedTuple("TakeStep", [("replica", int), ("event", int)])
Step = Union[CallStep, TakeStep]


class Schedule(NamedTuple):
    """A world, how many replicas there are, and the steps."""
    world: World
    replicas: int
    steps: List[Step]


def read_schedule(spec: Specification, data: bytes) -> Schedule:
    """The schedule that bytes are: "The first check that fails is answered"."""
    if len(data) > MOST_BYTES:
        raise ScheduleRefused("long")
    top = _object(_json(data), ["sizes", "constants", "replicas", "steps"], "top")
    sizes = _object(top["sizes"], spec.sorts, "sizes")
    world = World({sort: _within(sizes[sort], f"sizes {sort}", MOST_SIZE) for sort in spec.sorts})
    constants = _object(top["constants"], spec.consts, "constants")
    for name, sort in spec.consts.items():
        most = world.sizes[sort] - 1
        world.consts[name] = _within(constants[name], f"constants {name}", most)
    replicas = _whole(top["replicas"], "replicas")
    if not 1 <= replicas <= MOST_REPLICAS:
        _refuse("size", "replicas")
    steps = top["steps"]
    if not isinstance(steps, list):
        _refuse("shape", "steps")
    if len(steps) > MOST_STEPS:
        _refuse("size", "steps")
    return Schedule(world, replicas, [_step(it, f"step {place}") for place, it in enumerate(steps)])


def _refuse(kind: str, path: str) -> NoReturn:
    """A place of the text isn't as it has to be."""
    raise ScheduleRefused(f"{kind} {path}")


def _json(data: bytes) -> object:
    """The value of a JSON text "in UTF-8"; "where a key stands twice, its last value counts"."""
    try:
        text = data.decode("utf-8")
        depth = 0
        for match in TEXT_OR_BRACKET.finditer(text):
            depth += (match.group() in ("[", "{")) - (match.group() in ("]", "}"))
            if depth > MOST_NESTED or any(it.group(1) for it in HALF.finditer(match.group())):
                raise ScheduleRefused("json")
        # "A whole number is a JSON number without a point and without an exponent"; a number
        # beyond those of a double is no JSON here.
        value: object = json.loads(text, parse_int=_integer, parse_float=_double,
                                   parse_constant=_integer)
        return value
    except (ValueError, OverflowError, RecursionError):
        raise ScheduleRefused("json")


def _integer(text: str) -> Union[int, float]:
    """A number without point and exponent: whole in its range, but for -0."""
    if len(text) <= 20 and text != "-0" and -MOST_WHOLE <= int(text) < MOST_WHOLE:
        return int(text)
    return _double(text)


def _double(text: str) -> float:
    """Any other number, in the range of a double."""
    if not text[-1].isdigit() or math.isinf(float(text)):
        raise ValueError(text)
    return float(text)


def _object(value: object, keys: Iterable[str], path: str) -> dict[str, object]:
    """"an object with exactly" these keys."""
    if not isinstance(value, dict) or set(value) != set(keys):
        _refuse("shape", path)
    return value


def _whole(value: object, path: str) -> int:
    """A whole number; a truth value is none."""
    if not isinstance(value, int) or isinstance(value, bool):
        _refuse("shape", path)
    return value


def _within(value: object, path: str, most: int) -> int:
    """"a whole number that isn't negative, then at most" so much."""
    number = _whole(value, path)
    if not 0 <= number <= most:
        _refuse("shape" if number < 0 else "size", path)
    return number


def _count(value: object, path: str) -> int:
    """"Replicas and events are whole numbers from 0 to 4,294,967,295" """
    number = _whole(value, path)
    if not 0 <= number <= MOST_NUMBER:
        _refuse("shape", path)
    return number


def _step(value: object, path: str) -> Step:
    """"A step is one of two objects, with exactly these keys"."""
    if isinstance(value, dict) and set(value) == {"replica", "take"}:
        return TakeStep(_count(value["replica"], path), _count(value["take"], path))
    call = _object(value, ["replica", "call", "args"], path)
    # "call, the name of an operation, a text of 1 to 32 bytes; args, a list of whole numbers"
    name, args = call["call"], call["args"]
    if not isinstance(name, str) or not 1 <= len(name.encode("utf-8")) <= 32:
        _refuse("shape", path)
    if not isinstance(args, list):
        _refuse("shape", path)
    return CallStep(_count(call["replica"], path), name, [_whole(it, path) for it in args])
