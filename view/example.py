"""`./cise example SPEC OP [OP] [--another]`: a state in which an operation may be called, or in
which two may be called at once, at two replicas that don't know of each other's call. The state and
the calls are the program's: the witness of a specification that asks for them (`view/asked.py`)."""
from typing import Iterator, List, Sequence, Tuple

from view.asked import MOST_REQUIRES, PROVED, REFUTED, Answer, Asked, Questions
from view.columns import joined, wrapped
from view.explain import MOST_FACTS, NOTHING, called, listed
from view.inputs import name_of, text_of
from view import program
from view.outcome import fresh_names
from view.output import printable, say
from view.report import Witness
from view.story import Call, Names
from view.tree import Spec

FOUND, NONE, BAD_WORDS, UNDECIDED = 0, 1, 2, 5


class Example:
    """A state with its calls, in the form that stories have."""

    def __init__(self, spec: Spec, witness: Witness) -> None:
        self.names = Names(spec, witness.consts)
        self.facts = self.names.facts(witness.state)
        self.calls = [Call(spec, self.names, *it) for it in witness.calls]
        self.sizes, self.also = witness.sizes, self.names.also

    def lines(self) -> List[str]:
        """What is held, and the calls that are allowed there."""
        who = "Both replicas hold:" if len(self.calls) > 1 else "A replica holds:"
        lines = wrapped(who, 2) + listed(self.facts or [NOTHING]) + listed(self.also)
        return [*lines, "", *called(self)]


def answer(path: str, *operations: str, another: bool = False) -> Tuple[int, str]:
    """The status, and the example."""
    program.answer("check", path)
    spec, names = Spec(text_of(path)), [name_of(it) for it in operations]
    unknown = [it for it in names if it not in spec.operations]
    if unknown:
        known = ", ".join(map(str, spec.operations)) or "none"
        say(f"cise: {printable(unknown[0])} is no operation of it; there are: {known}\n")
        return BAD_WORDS, ""
    questions = Questions(spec)
    first, second = asked_of(questions, names)
    found = questions.one(first, second)
    if found.verdict == REFUTED and another:
        other = next(others(questions, first, second, found), None)
        if other is None:
            return NONE, "\n".join(wrapped(f"No other example was found. {AMONG}")) + "\n"
        found = other
    return told(questions, names, found)


AMONG = (
    "Tried were states in which a relation holds something or nothing, a counter has other values, "
    "or "
    "arguments are equal or other."
)


def asked_of(questions: Questions, names: Sequence[str]) -> Tuple[Asked, Asked]:
    """The two operations that are asked of; the second is idle where only one is."""
    first = questions.operation(names[0], with_takes=len(names) > 1)
    if len(names) == 1:
        return first, questions.idle_operation()
    called_ = questions.copy if names[0] == names[1] else names[1]
    return first, questions.operation(names[1], with_takes=True, called=called_)


def told(questions: Questions, names: Sequence[str], found: Answer) -> Tuple[int, str]:
    """The status, and what is said."""
    both = len(names) > 1
    if found.witness is None:
        return without_example(names, found)
    witness = found.witness
    witness.calls = [
        (names[1] if name == questions.copy else name, its) for name, its in witness.calls
    ]
    lines = Example(questions.spec, witness).lines()
    reason = f"Every invariant is true there, and so is what {joined(list(dict.fromkeys(names)))} "
    reason += "require." if len(set(names)) > 1 else "requires."
    if both and questions.spec.rules:
        reason += " No tokens order the two calls."
    reason += " Whether calls from the start lead there isn't said."
    return FOUND, "\n".join([*lines, "", *wrapped(reason, 2)]) + "\n"


def without_example(names: Sequence[str], found: Answer) -> Tuple[int, str]:
    """What is said where there is no example."""
    what = f"call of {names[0]} is" if len(names) == 1 else f"calls of {' and '.join(names)} are"
    if found.verdict == PROVED:
        never = f"No {what} ever allowed where every invariant is true"
        never += ", and not ordered by tokens" if len(names) > 1 else ""
        return NONE, "\n".join(wrapped(f"{never}. The program has proved it.")) + "\n"
    return UNDECIDED, f"It is undecided whether a {what} ever allowed.\n".replace(
        "a calls", "calls"
    )


def others(questions: Questions, first: Asked, second: Asked, found: Answer) -> Iterator[Answer]:
    """Other examples: each satisfies a line besides that the one that was found doesn't."""
    assert found.witness is not None
    for line in other_states(questions.spec, found.witness):
        if len(second.requires) < MOST_REQUIRES:
            more = Asked(second.name, second.params, (*second.requires, line), second.takes)
            other = questions.one(first, more)
            if other.verdict == REFUTED:
                yield other
    for line in other_arguments(questions.spec, first, found.witness):
        if len(first.requires) < MOST_REQUIRES:
            more = Asked(first.name, first.params, (*first.requires, line), first.takes)
            other = questions.one(more, second)
            if other.verdict == REFUTED:
                yield other


def other_states(spec: Spec, witness: Witness) -> Iterator[str]:
    """Lines that a state doesn't satisfy: of each relation that it has something, or nothing; of
    each counter that it has another value somewhere."""
    fresh = fresh_names(spec)
    next(fresh), next(fresh), next(fresh)  # those of the mark, the idle operation and the copy
    for thing, sorts in [*spec.relations.items(), *spec.counters.items()]:
        names = [next(fresh) for _ in sorts]
        reading = thing + (f" ( {' , '.join(names)} )" if names else "")
        head = (
            f"{' , '.join(f'{it} : {sort}' for it, sort in zip(names, sorts))} . " if names else ""
        )
        if thing in spec.relations:
            is_held = any(it == thing for it, _ in witness.state.true)
            other = f"not {reading}" if is_held else reading
            yield f"{'forall' if is_held else 'exists'} {head}{other}" if names else other
            continue
        values = sorted(value for (it, _), value in witness.state.count.items() if it == thing)
        other = f"( {reading} != {spelled(values[0] if values else 0)} )"
        yield f"{'forall' if values else 'exists'} {head}{other}" if names else other


def spelled(value: int) -> str:
    """A number as it stands in a specification."""
    return str(value) if value >= 0 else f"- {-value}"


def other_arguments(spec: Spec, asked: Asked, witness: Witness) -> Iterator[str]:
    """Lines on the parameters that a call's arguments don't satisfy."""
    values = dict(zip((it for it, _ in asked.params), witness.calls[0][1]))
    for at, (name, sort) in enumerate(asked.params):
        if sort == "int":
            yield f"( {name} != {spelled(values[name])} )"
        for other, its in asked.params[:at]:
            if its == sort != "int":
                yield f"( {other} {'!=' if values[other] == values[name] else '='} {name} )"
        for const, its in spec.consts.items():
            if its == sort:
                yield f"( {const} {'!=' if witness.consts[const] == values[name] else '='} {name} )"
