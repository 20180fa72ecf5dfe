"""Logs of a running system: lines of JSON, a file for each replica or all in one.
docs/users/AUDIT.md has the form. A log is read once, line by line, into rows of numbers, so that a
million calls fit into memory."""
import json
import os
from array import array
from typing import Any, Dict, Iterator, List, NoReturn, Optional, Tuple

from view.inputs import blocks

# The most that a number of a call may be, which is the program's bound.
MOST_NUMBER = 10**15
MOST_LINE = 1 << 24
CALL, TAKE, STATE = 0, 1, 2
DECODER, BLANK = json.JSONDecoder(), " \t\r\n"
KEYS = {
    CALL: {"id", "replica", "call", "args"},
    TAKE: {"replica", "take"},
    STATE: {"replica", "state"},
}
WITH_SEEN, WITH_CLOCK = KEYS[CALL] | {"seen"}, KEYS[CALL] | {"clock"}
FORM = (
    "a line has the keys id, replica, call and args, with seen or clock, or replica and take, "
    "or replica and state, or constants alone"
)


class BadLine(Exception):
    """A line that isn't of the form of a log."""

    def __init__(self, path: str, line: int, message: str) -> None:
        super().__init__(message)
        self.path, self.line, self.message = path, line, message


# Stands between the lines of a block that is read as one list. No line knows it, so none can go on
# in the next one.
BETWEEN = int.from_bytes(os.urandom(4), "big")


def together(block: List[bytes]) -> Optional[List[Dict[str, Any]]]:
    """The objects that lines are, read as one list; None where some line isn't one."""
    if max(map(len, block)) > MOST_LINE:
        return None
    try:
        text = b"[" + (b",%d," % BETWEEN).join(block) + b"]"
        found = DECODER.decode(text.decode("utf-8"))
    except (ValueError, RecursionError):
        return None
    values, between = found[::2], found[1::2]
    if len(values) != len(block) or set(map(type, values)) != {dict}:
        return None
    return values if between == [BETWEEN] * (len(block) - 1) else None


class Place:
    """Where rows stand: the file and the line of each."""

    def __init__(self) -> None:
        self.file, self.line = array("H"), array("I")

    def add(self, file: int, line: int) -> None:
        self.file.append(file)
        self.line.append(line)


class Log:
    """What the lines of logs say. Replicas, elements, calls and takings are numbered as they come.

    replicas   the names of the replicas, and `entries` what each did, in order: a number `3 * row +
               kind` each
    elements   for each sort its elements' texts, with their numbers
    consts     for each constant its element
    calls      the places of the calls; `replica`, `turn` (which call of its replica it is, from 1)
               and `op` have a number for each, and `args[args_at[e]:args_at[e + 1]]` are its
               arguments
    ids        for each id its number, and `call_of` the call of each, or -1; each call's id is
               `id_of`
    given      for each call which of `seen` (numbers of ids) and `clock` (a replica's number, and
               how many of its calls) it has, or None
    takes      the places of the takings; `taken` has the number of the id of each, and `taker` its
               replica
    states     (place, replica, what the line says), with the places
    """

    def __init__(self, spec: Any, paths: List[str]) -> None:
        self.spec, self.paths = spec, paths
        self.operations = [str(it) for it in spec.operations]
        self.params = [
            [(str(it), str(kind)) for it, kind in spec.operations[name].params]
            for name in spec.operations
        ]
        self.numbers = {name: at for at, name in enumerate(self.operations)}
        self.replicas: List[str] = []
        self.replica_numbers: Dict[str, int] = {}
        self.entries: List[array[int]] = []
        self.elements: Dict[str, Dict[str, int]] = {str(it): {} for it in spec.sorts}
        self.consts: Dict[str, int] = {}
        self.has_constants = False
        self.calls, self.takes, self.state_places = Place(), Place(), Place()
        self.replica, self.turn, self.op = array("I"), array("I"), array("B")
        self.args, self.args_at = array("q"), array("Q", [0])
        self.ids: Dict[str, int] = {}
        self.call_of, self.id_of, self.taken, self.taker = (
            array("q"),
            array("I"),
            array("I"),
            array("I"),
        )
        self.seen: Dict[int, array[int]] = {}
        self.clock, self.clock_at = array("I"), array("Q", [0])
        self.turns: List[int] = []
        self.states: List[Tuple[int, Dict[str, Any]]] = []
        self.logs_takes: List[bool] = []
        self.id_texts: List[str] = []
        self.at = ("", 0)
        # What lines with these keys say, of those that were seen.
        self.kinds: Dict[Tuple[str, ...], int] = {}

    def wrong(self, message: str) -> NoReturn:
        """The line that is being read isn't of its form."""
        raise BadLine(self.at[0], self.at[1], message)

    def read(self) -> "Log":
        """Reads all files."""
        for file, path in enumerate(self.paths):
            for numbers, block in blocks(path):
                for number, value in self.values(path, numbers, block):
                    self.at = (path, number)
                    self.line(file, number, value)
        if not self.has_constants:
            self.set_constants({})
        return self

    def values(
        self, path: str, numbers: List[int], block: List[bytes]
    ) -> Iterator[Tuple[int, Dict[str, Any]]]:
        """The objects that lines are: read as one list, or one after the other up to the first that
        is none."""
        known = together(block)
        if known is not None:
            yield from zip(numbers, known)
            return
        for number, line in zip(numbers, block):
            self.at = (path, number)
            yield number, self.value(line)

    def value(self, line: bytes) -> Dict[str, Any]:
        """The object that a line is."""
        if len(line) > MOST_LINE:
            self.wrong(f"a line has at most {MOST_LINE:,} bytes")
        try:
            text = line.decode("utf-8").strip(BLANK)
            value, end = DECODER.raw_decode(text)
            if end < len(text):
                self.wrong(f"no JSON: more stands behind it: {text[end : end + 20]}")
        except UnicodeDecodeError:
            self.wrong("this isn't UTF-8")
        except (ValueError, RecursionError) as error:
            self.wrong(
                "no JSON: "
                f"{getattr(error, 'msg', None) or 'nested too deep, or too large a number'}"
            )
        if not isinstance(value, dict):
            self.wrong(FORM)
        return value

    def line(self, file: int, number: int, value: Dict[str, Any]) -> None:
        """Takes what a line says."""
        keys = tuple(value)
        kind = self.kinds.get(keys)
        if kind is None:
            kind = self.kind_of(value)
            if kind is None:
                return self.name_constants(value["constants"])
            self.kinds[keys] = kind
        if not self.has_constants:
            self.set_constants({})
        replica = self.replica_of(value["replica"])
        if kind == CALL:
            self.entries[replica].append(3 * len(self.op))
            self.calls.add(file, number)
            self.call(replica, value)
        elif kind == TAKE:
            self.entries[replica].append(3 * len(self.taken) + 1)
            self.takes.add(file, number)
            self.taken.append(self.id_number(value["take"]))
            self.taker.append(replica)
            self.logs_takes[replica] = True
        else:
            self.entries[replica].append(3 * len(self.states) + 2)
            self.state_places.add(file, number)
            self.states.append((replica, self.state(value["state"])))
        return None

    def kind_of(self, value: Dict[str, Any]) -> Optional[int]:
        """What a line says, which its keys tell; None of the line with the constants."""
        keys = value.keys()
        if "call" in keys:
            if keys == WITH_CLOCK or keys == WITH_SEEN or keys == KEYS[CALL]:
                return CALL
            if keys == WITH_SEEN | WITH_CLOCK:
                self.wrong("seen: no clock stands beside it")
        elif keys == KEYS[TAKE]:
            return TAKE
        elif keys == KEYS[STATE]:
            return STATE
        elif keys == {"constants"}:
            return None
        return self.wrong(FORM)

    def replica_of(self, value: Any) -> int:
        """The number of a replica, by its name."""
        name = value if type(value) is str else self.name(value, "replica")
        number = self.replica_numbers.get(name)
        if number is None:
            number = self.replica_numbers[name] = len(self.replicas)
            self.replicas.append(name)
            self.entries.append(array("q"))
            self.turns.append(0)
            self.logs_takes.append(False)
        return number

    def name(self, value: Any, what: str) -> str:
        """A text, or a whole number as its digits."""
        if isinstance(value, str):
            return value
        if isinstance(value, int) and not isinstance(value, bool):
            return str(value)
        return self.wrong(f"{what}: a text or a whole number is needed")

    def id_number(self, value: Any) -> int:
        """The number of an id, by its text."""
        name = value if type(value) is str else self.name(value, "an id")
        number = self.ids.get(name)
        if number is None:
            number = self.ids[name] = len(self.call_of)
            self.call_of.append(-1)
        return number

    def call(self, replica: int, value: Dict[str, Any]) -> None:
        """Takes a call."""
        call, own = len(self.op), self.id_number(value["id"])
        if self.call_of[own] >= 0:
            self.wrong(f"id: {value['id']} is the id of an earlier line")
        self.call_of[own] = call
        self.id_of.append(own)
        op = self.numbers.get(value["call"]) if isinstance(value["call"], str) else None
        if op is None:
            self.wrong(f"call: the specification has no operation {value['call']!r}")
        self.op.append(op)
        self.replica.append(replica)
        self.turns[replica] += 1
        self.turn.append(self.turns[replica])
        self.arguments(op, value["args"])
        if "seen" in value:
            if not isinstance(value["seen"], list):
                self.wrong("seen: a list of ids is needed")
            self.seen[call] = array("I", [self.id_number(it) for it in value["seen"]])
        elif "clock" in value:
            self.take_clock(value["clock"])
        self.clock_at.append(len(self.clock))

    def take_clock(self, clock: Any) -> None:
        """Takes a clock: for each replica how many of its calls are known."""
        if not isinstance(clock, dict):
            self.wrong("clock: an object is needed, with a number for each replica")
        numbers, add = self.replica_numbers, self.clock.append
        for name, count in clock.items():
            if type(count) is not int or not 0 <= count < 1 << 32:
                self.wrong(
                    f"clock: {name}: how many calls of this replica are known is a whole number "
                    "from 0 on"
                )
            add(numbers[name] if name in numbers else self.replica_of(name))
            add(count)
        if not clock:
            # An empty clock is one all the same.
            self.clock.extend((self.replica[-1], self.turn[-1]))

    def arguments(self, op: int, args: Any) -> None:
        """Takes the arguments of a call, by the names of its parameters or in their order."""
        params = self.params[op]
        if type(args) is list and len(args) == len(params):
            args = {name: value for (name, _), value in zip(params, args)}
        if type(args) is not dict or len(args) != len(params):
            self.wrong_arguments(op)
        for name, kind in params:
            if name not in args:
                self.wrong_arguments(op)
            value = args[name]
            if kind != "int":
                number = self.elements[kind].get(value) if type(value) is str else None
                self.args.append(self.element(kind, value, name) if number is None else number)
            elif type(value) is int and -MOST_NUMBER <= value <= MOST_NUMBER:
                self.args.append(value)
            else:
                self.wrong(f"args: {name} is a whole number from -10^15 to 10^15")
        self.args_at.append(len(self.args))

    def wrong_arguments(self, op: int) -> NoReturn:
        """The arguments of a call aren't those of its operation."""
        names = ", ".join(name for name, _ in self.params[op]) or "of no name"
        self.wrong(f"args: {self.operations[op]} has the parameters {names}")

    def element(self, sort: str, value: Any, what: str) -> int:
        """The number of an element, by its text."""
        known = self.elements[sort]
        name = value if type(value) is str else self.name(value, what)
        number = known.get(name)
        if number is None:
            number = known[name] = len(known)
        return number

    def name_constants(self, named: Any) -> None:
        """Takes the line that says which elements the constants are."""
        if not isinstance(named, dict) or not named.keys() <= set(map(str, self.spec.consts)):
            self.wrong(
                "constants: an object is needed, with the text of an element for constants of the "
                "specification"
            )
        if self.has_constants:
            self.wrong("constants: this line stands once, before all others")
        self.set_constants(named)

    def set_constants(self, named: Dict[str, Any]) -> None:
        """Gives each constant its element, by the text that a line names, and else by the
        constant's own name."""
        self.has_constants = True
        for name, sort in self.spec.consts.items():
            self.consts[str(name)] = self.element(
                str(sort), named.get(name, str(name)), f"constants: {name}"
            )

    def state(self, value: Any) -> Dict[str, Any]:
        """A state as a line says it, by relations and counters: `{"holds": [["ann", "1A"]],
        "balance": [["acc-1", 40]], "open": true}`."""
        if not isinstance(value, dict):
            self.wrong("state: an object is needed, with relations and counters")
        found: Dict[str, Any] = {}
        for thing, listed in value.items():
            sorts = self.spec.relations.get(thing, self.spec.counters.get(thing))
            if sorts is None:
                self.wrong(f"state: the specification has no relation or counter {thing}")
            found[thing] = self.readings(thing, list(map(str, sorts)), listed)
        return found

    def readings(self, thing: str, sorts: List[str], listed: Any) -> Dict[Tuple[int, ...], int]:
        """What a relation or a counter reads, where it isn't false or 0."""
        is_counter = thing in self.spec.counters
        if not sorts:
            listed = (
                [[listed]]
                if is_counter
                else [[]]
                if listed is True
                else []
                if listed is False
                else None
            )
        wide = len(sorts) + is_counter
        if not isinstance(listed, list) or not all(
            isinstance(row, list) and len(row) == wide for row in listed
        ):
            self.wrong(f"state: {thing}: a list is needed, of lists with {wide} members")
        found: Dict[Tuple[int, ...], int] = {}
        for row in listed:
            key = tuple(self.element(sort, it, thing) for sort, it in zip(sorts, row))
            value = row[-1] if is_counter else 1
            if type(value) is not int:
                self.wrong(f"state: {thing}: a counter's value is a whole number")
            if value:
                found[key] = value
        return found

    def arguments_of(self, call: int) -> List[int]:
        """The arguments of a call, elements as their numbers."""
        return list(self.args[self.args_at[call] : self.args_at[call + 1]])

    def has_clock(self, call: int) -> bool:
        """Whether a call's line has a clock."""
        return self.clock_at[call] < self.clock_at[call + 1]

    def clock_of(self, call: int) -> Iterator[Tuple[int, int]]:
        """The clock of a call's line: replicas' numbers, and how many of their calls are known."""
        for at in range(self.clock_at[call], self.clock_at[call + 1], 2):
            yield self.clock[at], self.clock[at + 1]

    def id_text(self, number: int) -> str:
        """The text of an id, by its number."""
        if len(self.id_texts) != len(self.ids):
            self.id_texts = list(self.ids)
        return self.id_texts[number]

    def place_of(self, kind: int, row: int) -> Tuple[str, int]:
        """The file and the line of a row."""
        place = (self.calls, self.takes, self.state_places)[kind]
        return self.paths[place.file[row]], place.line[row]
