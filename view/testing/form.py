"""The file of cases that `./cise tests` writes and `./cise drive` reads.

docs/users/TESTING.md has the form for people. Elements have names, as `Account#0`. A state is the
facts that are true and the counters that aren't 0."""
import json
from dataclasses import dataclass, field
from typing import Any, Dict, FrozenSet, List, Optional, Tuple

FORM = "cise tests 1"
OK, REFUSED, WAITS = "ok", "refused", "waits"
ANSWERS = (OK, REFUSED, WAITS)
MOST_BYTES = 64 << 20


class NotTests(Exception):
    """A file isn't of the form, and where."""


@dataclass(frozen=True)
class State:
    """What a replica holds: true facts and counters that aren't 0."""

    facts: FrozenSet[Tuple[str, ...]]
    counts: FrozenSet[Tuple[Tuple[str, ...], int]]

    def lines(self) -> List[str]:
        """A line for each fact and each counter, in order."""
        facts = [reading(it) for it in self.facts]
        counts = [f"{reading(it)} = {value}" for it, value in self.counts]
        return sorted(facts) + sorted(counts)

    def as_json(self) -> Dict[str, Any]:
        """The form in which files and adapters write it."""
        relations: Dict[str, List[List[str]]] = {}
        counters: Dict[str, List[List[Any]]] = {}
        for name, *elements in sorted(self.facts):
            relations.setdefault(name, []).append(elements)
        for (name, *elements), value in sorted(self.counts):
            counters.setdefault(name, []).append([elements, value])
        return {"relations": relations, "counters": counters}


@dataclass(frozen=True)
class Step:
    """A call made at a replica, or the taking there of a call that another replica made.

    id        the call's own name, by which it is taken
    answer    what has to be answered
    why       of a refused or waiting call: what refuses it, for people
    state     what the replica holds behind the step
    """

    replica: int
    id: str
    operation: Optional[str]
    arguments: Dict[str, Any]
    answer: str
    why: str
    state: State

    def is_call(self) -> bool:
        """Whether it makes a call."""
        return self.operation is not None

    def words(self) -> str:
        """The step for people."""
        if self.operation is None:
            return f"replica {self.replica} takes {self.id}"
        arguments = ", ".join(f"{name} = {value}" for name, value in self.arguments.items())
        return f"replica {self.replica} calls {self.operation}({arguments})"


@dataclass(frozen=True)
class Case:
    """Steps from the initial state, and what they cover."""

    name: str
    covers: List[str]
    replicas: int
    elements: Dict[str, List[str]]
    constants: Dict[str, str]
    steps: List[Step]


@dataclass(frozen=True)
class Tests:
    """All cases of a specification; what no case covers, with the reason."""

    title: str
    specification: str
    start: Dict[str, Any]
    cases: List[Case]
    not_covered: List[Dict[str, str]] = field(default_factory=list)


def reading(parts: Tuple[str, ...]) -> str:
    """A fact as people write it: `sold(Seat#0, Guest#1)`."""
    name, *elements = parts
    return f"{name}({', '.join(elements)})" if elements else name


def state_of(value: Any, where: str) -> State:
    """A state in the form of files and adapters."""
    try:
        facts = {
            (str(name), *map(text, its))
            for name, them in value["relations"].items()
            for its in them
        }
        counts = {
            ((str(name), *map(text, its)), whole(number))
            for name, them in value["counters"].items()
            for its, number in them
            if whole(number) != 0
        }
    except (AttributeError, KeyError, TypeError, ValueError) as error:
        raise NotTests(f"{where}: this is no state: {error!r}") from None
    keys = [key for key, _ in counts]
    if len(set(keys)) != len(keys):
        raise NotTests(f"{where}: a counter has two values")
    return State(frozenset(facts), frozenset(counts))


def text(value: Any) -> str:
    """A text, and nothing else."""
    if not isinstance(value, str):
        raise ValueError(f"{value!r} is no text")
    return value


def whole(value: Any) -> int:
    """A whole number, and nothing else."""
    if not isinstance(value, int) or isinstance(value, bool):
        raise ValueError(f"{value!r} is no whole number")
    return value


def step_of(value: Any, replicas: int, known: List[str], where: str) -> Step:
    """A step; `known` are the calls that were made before it."""
    if not isinstance(value, dict):
        raise NotTests(f"{where}: a step is an object")
    try:
        replica, answer = whole(value["replica"]), text(value["answer"])
        operation = text(value["call"]) if "call" in value else None
        name = text(value["id"] if operation is not None else value["take"])
        arguments = value.get("args", {})
        if not isinstance(arguments, dict) or not 0 <= replica < replicas or answer not in ANSWERS:
            raise ValueError("a replica, an argument or an answer is out of range")
        if operation is None and name not in known or operation is not None and name in known:
            raise ValueError(f"{name} was {'never made' if operation is None else 'made before'}")
    except (KeyError, ValueError) as error:
        raise NotTests(f"{where}: {error}") from None
    state = state_of(value.get("state"), where)
    return Step(replica, name, operation, arguments, answer, str(value.get("why", "")), state)


def case_of(value: Any, where: str) -> Case:
    """A case."""
    try:
        name, replicas = text(value["name"]), whole(value["replicas"])
        elements = {text(sort): [text(it) for it in its] for sort, its in value["elements"].items()}
        constants = {text(it): text(element) for it, element in value.get("constants", {}).items()}
        covers = [text(it) for it in value.get("covers", [])]
        rows = list(value["steps"])
    except (AttributeError, KeyError, TypeError, ValueError) as error:
        raise NotTests(f"{where}: this is no case: {error!r}") from None
    steps: List[Step] = []
    for at, it in enumerate(rows):
        made = [step.id for step in steps if step.is_call() and step.answer == OK]
        steps.append(step_of(it, replicas, made, f"{where}, step {at}"))
    return Case(name, covers, replicas, elements, constants, steps)


def tests_of(data: str) -> Tests:
    """The cases of a file; `NotTests` where it is none."""
    try:
        value = json.loads(data)
    except (ValueError, RecursionError) as error:
        raise NotTests(f"this is no JSON: {error}") from None
    if not isinstance(value, dict) or value.get("form") != FORM:
        raise NotTests(f'the file doesn\'t begin with "form": "{FORM}"')
    cases = value.get("cases")
    if not isinstance(cases, list):
        raise NotTests('"cases" is no list')
    made = [case_of(it, f"case {at}") for at, it in enumerate(cases)]
    return Tests(
        str(value.get("title", "")),
        str(value.get("specification", "")),
        value.get("start", {}),
        made,
        value.get("not_covered", []),
    )


def written(tests: Tests) -> str:
    """The text of a file of cases: a line for each step, so that a difference of files reads
    well."""
    head = {
        "form": FORM,
        "title": tests.title,
        "specification": tests.specification,
        "start": tests.start,
    }
    lines = [f" {json.dumps(key)}: {json.dumps(value)}," for key, value in head.items()]
    cases = ",\n".join(case_text(it) for it in tests.cases)
    lost = ",\n".join(f"  {json.dumps(it)}" for it in tests.not_covered)
    body = "\n".join(lines)
    return f'{{\n{body}\n "not_covered": [\n{lost}\n ],\n "cases": [\n{cases}\n ]\n}}\n'


def case_text(case: Case) -> str:
    """The lines of a case."""
    head = {
        "name": case.name,
        "covers": case.covers,
        "replicas": case.replicas,
        "elements": case.elements,
        "constants": case.constants,
    }
    lines = [f"   {json.dumps(key)}: {json.dumps(value)}," for key, value in head.items()]
    steps = ",\n".join(f"    {json.dumps(step_json(it))}" for it in case.steps)
    body = "\n".join(lines)
    return f'  {{\n{body}\n   "steps": [\n{steps}\n   ]\n  }}'


def step_json(step: Step) -> Dict[str, Any]:
    """A step as a file has it."""
    value: Dict[str, Any] = {"replica": step.replica}
    if step.operation is None:
        value["take"] = step.id
    else:
        value.update({"call": step.operation, "args": step.arguments, "id": step.id})
    value["answer"] = step.answer
    if step.why:
        value["why"] = step.why
    value["state"] = step.state.as_json()
    return value
