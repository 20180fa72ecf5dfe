"""What decides how a call acts: the guards of its updates and the comparisons of its lines.

A mark is a formula over a call's parameters and the state where it is made. Whether it is true
there is asked of the program, as are other questions: a specification is made whose operations
require them."""
from dataclasses import dataclass
from typing import Dict, Iterator, List, NamedTuple, Sequence, Tuple

from view.outcome import bracketed, declarations, fresh_names
from view.runs import Oracle
from view.states import Call, Held
from view.tree import Line, Spec

COMPARISONS = ("<=", "<", ">=", ">", "=", "!=")
# The most letters of the questions of one specification, half of what one may have.
MOST_LETTERS = 32_000


@dataclass(frozen=True)
class Mark:
    """A formula, and what it means for a call that it is true."""

    operation: str
    formula: str
    words: str
    is_of_guard: bool = False


class Question(NamedTuple):
    """Lines that require something of the calls of an operation."""

    operation: str
    lines: Tuple[str, ...]


def marks_of(spec: Spec) -> List[Mark]:
    """The marks of all operations: each guard true and false, each comparison at its edge and one
    past it on both sides."""
    found: Dict[Tuple[str, str], Mark] = {}
    for name, operation in spec.operations.items():
        for line in operation.lines:
            for mark in line_marks(str(name), line):
                found.setdefault((mark.operation, mark.formula), mark)
    return list(found.values())


def line_marks(operation: str, line: Line) -> Iterator[Mark]:
    """The marks of a line."""
    if line.prefix or line.head == "takes":
        return
    row = " ".join(line.text.split())
    if "when" in line.body:
        formula = " ".join(line.body[line.body.index("when") + 1 :])
        yield Mark(operation, formula, f"{operation}: {row}: the guard true", True)
        yield Mark(operation, f"not {formula}", f"{operation}: {row}: the guard false", True)
    is_guard = line.head not in ("requires", "observes")
    for one, other, words in connected(list(map(str, line.body))):
        said = f"{operation}: {words}"
        yield Mark(operation, f"( {one} and not {other} )", f"{said}: the first alone", is_guard)
        yield Mark(operation, f"( {other} and not {one} )", f"{said}: the second alone", is_guard)
    for left, right in comparisons(list(map(str, line.body))):
        for formula, where in (
            (f"( {left} = {right} )", "equal"),
            (f"( {left} = {right} + 1 )", "one above"),
            (f"( {left} + 1 = {right} )", "one below"),
        ):
            yield Mark(operation, formula, f"{operation}: {left} {where} {right}", is_guard)


def connected(body: List[str]) -> Iterator[Tuple[str, str, str]]:
    """The two sides of each connective among a line's words, and all of it."""
    for at, word in enumerate(body):
        if word in ("and", "or", "implies"):
            start, end = bracket_before(body, at), bracket_behind(body, at)
            sides = " ".join(body[start + 1 : at]), " ".join(body[at + 1 : end])
            yield (*sides, " ".join(body[start : end + 1]))


def comparisons(body: List[str]) -> Iterator[Tuple[str, str]]:
    """The two sides of each comparison of numbers among a line's words."""
    for at, word in enumerate(body):
        if word in COMPARISONS:
            start, end = bracket_before(body, at), bracket_behind(body, at)
            left, right = body[start + 1 : at], body[at + 1 : end]
            if is_sum(left) or is_sum(right):
                yield " ".join(left), " ".join(right)


def is_sum(side: List[str]) -> bool:
    """Whether a side can't be an element: it has a number, a sign or a reading."""
    return any(it in ("+", "-", "(") or it.isdigit() for it in side)


def bracket_before(body: List[str], at: int) -> int:
    """The bracket that opens around a place."""
    depth = 0
    for place in range(at - 1, -1, -1):
        depth += (body[place] == ")") - (body[place] == "(")
        if depth < 0:
            return place
    return -1


def bracket_behind(body: List[str], at: int) -> int:
    """The bracket that closes around a place."""
    depth = 0
    for place in range(at + 1, len(body)):
        depth += (body[place] == "(") - (body[place] == ")")
        if depth < 0:
            return place
    return len(body)


class Questions:
    """Asks of calls in states which of some questions are true there. Each is an operation of a
    specification that is made for it: it has the parameters of the call's operation, and requires
    what is asked."""

    def __init__(self, spec: Spec, oracle: Oracle, questions: Sequence[Question]) -> None:
        self.parts: List[Tuple[Dict[str, List[Tuple[str, int]]], Oracle]] = []
        for places in parted([sum(map(len, it.lines)) for it in questions]):
            names, text = asking(spec, [questions[it] for it in places])
            own: Dict[str, List[Tuple[str, int]]] = {}
            for name, place in zip(names, places):
                own.setdefault(questions[place].operation, []).append((name, place))
            self.parts.append((own, Oracle(Spec(text), oracle.world, oracle.effort)))

    def close(self) -> None:
        """Lets go what the program was given."""
        for _, oracle in self.parts:
            oracle.close()

    def true_of(self, made: Sequence[Tuple[Held, Call]]) -> List[List[int]]:
        """For each call in its state the places of the questions that are true."""
        found: List[List[int]] = [[] for _ in made]
        states: Dict[Held, List[int]] = {}
        for at, (facts, _) in enumerate(made):
            states.setdefault(facts, []).append(at)
        for own, oracle in self.parts:
            asked: List[Tuple[Held, List[Call]]] = []
            for facts, places in states.items():
                calls = [
                    Call(name, made[at][1].arguments)
                    for at in places
                    for name, _ in own.get(made[at][1].operation, ())
                ]
                asked.append((facts, calls))
            for places, said in zip(states.values(), oracle.refusals(asked)):
                for at in places:
                    call = made[at][1]
                    found[at] += [
                        place
                        for name, place in own.get(call.operation, ())
                        if said[Call(name, call.arguments)] is None
                    ]
        return found


def parted(sizes: Sequence[int]) -> Iterator[List[int]]:
    """The places of what has these sizes, as many at a time as a specification has room for."""
    here, size = [], 0  # type: List[int], int
    for at, its in enumerate(sizes):
        if here and size + its > MOST_LETTERS:
            yield here
            here, size = [], 0
        here, size = [*here, at], size + its
    if here:
        yield here


def asking(spec: Spec, questions: Sequence[Question]) -> Tuple[List[str], str]:
    """A specification with an operation for each question, and their names."""
    fresh = fresh_names(spec)
    names = [next(fresh) for _ in questions]
    lines = [f"cise {spec.version}", *declarations(spec)[1:]]
    for name, it in zip(names, questions):
        params = spec.operations[it.operation].params
        lines.append(f"operation {name}{bracketed([f'{a} : {sort}' for a, sort in params])}")
        lines += [*it.lines, "end"]
    return names, "\n".join(lines) + "\n"
