"""Asks the program whether calls may ever be made, by specifications that are made for it.

Each operation that is asked of sets a counter of its own, the mark, to a number of its own, and
changes nothing else; it requires what it requires and observes. Two such calls leave the mark
different in the two orders. So the obligation `commute` of two operations and the mark is refuted
exactly where both may be called in one state in which all invariants are true, and its witness is
such a state. Where it is proved there is none. To ask of one operation, the other is an idle one,
which requires nothing."""
from dataclasses import dataclass, field
from typing import Dict, List, Optional, Sequence, Tuple

from view import program
from view.formulas import readings_of
from view.outcome import bracketed, fresh_names
from view.report import Block, Report, Witness
from view.tree import Line, Spec

# The most counters, operations and requires lines of a specification and of an operation.
MOST_COUNTERS, MOST_OPERATIONS, MOST_REQUIRES = 8, 24, 8
PROVED, REFUTED, UNDECIDED = "proved", "refuted", "undecided"


@dataclass(frozen=True)
class Asked:
    """An operation that is asked of: its name there, its parameters, what it requires and takes."""

    name: str
    params: Tuple[Tuple[str, str], ...] = ()
    requires: Tuple[str, ...] = ()
    takes: Tuple[str, ...] = ()


@dataclass
class Answer:
    """What the program says: proved, refuted or undecided, and of refuted the witness without the
    mark. `calls` of it are those of the operations that were asked of."""

    verdict: str
    witness: Optional[Witness] = None


@dataclass
class Questions:
    """Makes specifications for questions on one specification, and asks them."""

    spec: Spec
    mark: str = ""
    idle: str = ""
    copy: str = ""
    invariants: Sequence[str] = ()
    answers: Dict[Tuple[str, str], Answer] = field(default_factory=dict)

    def __post_init__(self) -> None:
        fresh = fresh_names(self.spec)
        self.mark, self.idle, self.copy = next(fresh), next(fresh), next(fresh)
        self.invariants = list(map(str, self.spec.invariants))

    def operation(self, name: str, with_takes: bool = False, called: Optional[str] = None) -> Asked:
        """An operation of the specification as it is asked of. Of more lines than an operation can
        require those that are only observed are left out, so that never is still never."""
        it = self.spec.operations[name]
        lines = [*it.of("requires"), *it.of("observes")][:MOST_REQUIRES]
        takes = tuple(line.text for line in it.of("takes")) if with_takes else ()
        params = tuple((str(a), str(sort)) for a, sort in it.params)
        return Asked(called or name, params, tuple(map(self.formula, lines)), takes)

    def formula(self, line: Line) -> str:
        """The words behind a line's first word, as the user wrote them."""
        return str(self.spec.text[line.body[0].at : line.body[-1].end])

    def body(self, invariant: str) -> str:
        """An invariant's formula with its prefix."""
        return self.formula(self.spec.invariants[invariant])

    def idle_operation(self, requires: Sequence[str] = ()) -> Asked:
        """The operation that requires nothing, or what an example is to satisfy besides."""
        return Asked(self.idle, (), tuple(requires))

    def text(self, asked: Sequence[Asked], invariants: Sequence[str]) -> Optional[str]:
        """The specification that asks; None where it would have too many counters."""
        things = self.things(asked, invariants)
        counters = [it for it in self.spec.counters if it in things]
        if len(counters) == MOST_COUNTERS:
            return None
        spec, takes = self.spec, any(it.takes for it in asked)
        lines = [f"cise {spec.version}", *(f"sort {it}" for it in spec.sorts)]
        lines += [f"const {it} : {sort}" for it, sort in spec.consts.items()]
        lines += [
            f"relation {it}{bracketed(spec.relations[it])}" for it in spec.relations if it in things
        ]
        lines += [f"counter {it}{bracketed(spec.counters[it])}" for it in counters]
        lines.append(f"counter {self.mark}")
        if takes:
            kept = [(head, words) for head, words in spec.items if head in ("token", "conflict")]
            lines += [str(spec.text[head.at : words[-1].end]) for head, words in kept]
        lines += [f"invariant {it} {self.body(it)}" for it in invariants]
        for number, it in enumerate(asked):
            lines.append(
                f"operation {it.name}{bracketed([f'{a} : {sort}' for a, sort in it.params])}"
            )
            lines += [f"  requires {line}" for line in it.requires]
            lines += [f"  set {self.mark} {number}", *(f"  {line}" for line in it.takes), "end"]
        return "\n".join(lines) + "\n"

    def things(self, asked: Sequence[Asked], invariants: Sequence[str]) -> List[str]:
        """The relations and counters that the questions read."""
        words = [it for one in asked for line in one.requires for it in line.split()]
        words += [it for name in invariants for it in self.spec.invariants[name].body]
        spelled = set(
            "".join(it if it.isalnum() or it == "_" else " " for it in " ".join(words)).split()
        )
        return [str(it) for it in [*self.spec.relations, *self.spec.counters] if it in spelled]

    def ask(
        self, asked: Sequence[Asked], invariants: Optional[Sequence[str]] = None
    ) -> List[Block]:
        """The obligations on the mark of some operations; none where it can't be asked."""
        text = self.text(asked, self.invariants if invariants is None else invariants)
        if text is None:
            return []
        status, said = program.run_on(text, "check")
        if status not in (0, 1, 5):
            return []
        return [
            it for it in Report(said).blocks if it.kind == "commute" and it.names[2] == self.mark
        ]

    def one(
        self, first: Asked, second: Asked, invariants: Optional[Sequence[str]] = None
    ) -> Answer:
        """Whether two operations may be called in one state."""
        for it in self.ask([first, second], invariants):
            if it.names[:2] == [first.name, second.name]:
                return self.answer(it)
        return Answer(UNDECIDED)

    def answer(self, block: Block) -> Answer:
        """What an obligation on the mark says."""
        if block.witness is None:
            return Answer(block.verdict or UNDECIDED)
        witness, found = block.witness, Witness()
        found.sizes, found.consts, found.at = witness.sizes, witness.consts, []
        found.calls = [(name, args) for name, args in witness.calls if name != self.idle]
        for thing, at, value in witness.state.listed:
            if thing != self.mark:
                kind = ["true"] if value is None else ["count"]
                found.state.line(
                    [*kind, thing, *map(str, at), *([] if value is None else [str(value)])]
                )
        return Answer(REFUTED, found)

    def may_run(self, name: str) -> Answer:
        """Whether an operation may ever be called where all invariants are true."""
        if (name, "") not in self.answers:
            self.answers[name, ""] = self.one(self.operation(name), self.idle_operation())
        return self.answers[name, ""]

    def each(self, names: Sequence[str]) -> Dict[str, Answer]:
        """The same for many operations, in few runs of the program."""
        for at in range(0, len(names), MOST_OPERATIONS - 1):
            here = names[at : at + MOST_OPERATIONS - 1]
            blocks = self.ask([*map(self.operation, here), self.idle_operation()])
            for it in blocks:
                if it.names[1] == self.idle and it.names[0] != self.idle:
                    self.answers[it.names[0], ""] = self.answer(it)
        return {it: self.may_run(it) for it in names}

    def pairs(self, names: Sequence[str]) -> Dict[Tuple[str, str], Answer]:
        """For each two operations whether they may be called in one state, whatever tokens
        order."""
        blocks = self.ask([self.operation(it) for it in names])
        found = {(it.names[0], it.names[1]): self.answer(it) for it in blocks}
        return {pair: it for pair, it in found.items() if pair[0] != pair[1]}

    def is_always_true(self, invariant: str) -> bool:
        """Whether the program proves that an invariant is true of every state."""
        line = self.spec.invariants[invariant]
        words = line.formula
        formula = f"not {self.spec.text[words[0].at : words[-1].end]}"
        if line.prefix:
            names = " , ".join(f"{it} : {sort}" for it, sort in line.vars)
            formula = f"exists {names} . {formula}"
        asked = [Asked(self.copy, (), (formula,)), self.idle_operation()]
        return self.one(asked[0], asked[1], []).verdict == PROVED


def read_by(line: Line) -> List[str]:
    """The relations, counters and numbers that a line reads, by name."""
    return [str(it) for it, _ in readings_of(line.tree())]
