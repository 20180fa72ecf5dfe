"""What an audit finds, as lines for people: the file and the line, how the log breaks what the yes
rests on, and the calls by their arguments."""
from dataclasses import dataclass
from typing import Any, Dict, List, Optional, Sequence, Tuple

from view import order
from view.causes import Causes, Doubt
from view.logs import CALL, TAKE, Log
from view.output import printable

BROKEN, REFUSED = 1, 4
MOST_TEXT = 60


@dataclass(frozen=True)
class Finding:
    """A line that breaks the premise, an invariant, or a logged state. `status` is what `replay`
    ends with for such a step."""

    file: int
    line: int
    word: str
    text: str
    status: int


class Teller:
    """Tells findings by the names of the log's elements, replicas and files."""

    def __init__(self, log: Log) -> None:
        self.log, self.spec = log, log.spec
        self.texts = {sort: list(known) for sort, known in log.elements.items()}

    def element(self, sort: str, number: int) -> str:
        """The text of an element, or a number as it is."""
        if sort == "int":
            return str(number)
        text = printable(self.texts[sort][number])
        return text if len(text) <= MOST_TEXT else text[: MOST_TEXT - 3] + "..."

    def call(self, call: int) -> str:
        """A call with its arguments and its replica."""
        log = self.log
        op = log.op[call]
        values = [
            f"{name} = {self.element(kind, it)}"
            for (name, kind), it in zip(log.params[op], log.arguments_of(call))
        ]
        return (
            f"{log.operations[op]}({', '.join(values)}) of "
            f"{printable(log.replicas[log.replica[call]])}"
        )

    def known(self, call: int) -> str:
        """A call with the place of its line."""
        path, line = self.log.place_of(CALL, call)
        return f"{self.call(call)}, {printable(path)}:{line}"

    def thing(self, thing: str, at: Sequence[int]) -> str:
        """A relation or a counter at elements."""
        sorts = self.spec.relations.get(thing, self.spec.counters.get(thing))
        return thing + (
            f"({', '.join(self.element(str(sort), it) for sort, it in zip(sorts, at))})"
            if at
            else ""
        )

    def finding(self, kind: int, row: int, word: str, text: str, status: int = REFUSED) -> Finding:
        """A finding at a row's line."""
        place = (self.log.calls, self.log.takes, self.log.state_places, self.log.calls)[kind]
        return Finding(place.file[row], place.line[row], word, text, status)

    def line(self, finding: Finding) -> str:
        """A finding as the line that is written."""
        return (
            f"{printable(self.log.paths[finding.file])}:{finding.line}: {finding.word}: "
            f"{finding.text}"
        )

    def conflict(self, earlier: int, later: int, who: str) -> str:
        """That a call hadn't seen one with which it conflicts, and by which rules they conflict."""
        names = [self.log.operations[self.log.op[it]] for it in (earlier, later)]
        found = self.holding(earlier, later, order.conditions(self.spec, *names))
        rules = sorted({it for one in found for it in one.rules})
        told = order.sentence(found[:1], *names) if found else "they conflict"
        by = (
            f" (rule{'s' if len(rules) > 1 else ''} at line {', '.join(map(str, rules))})"
            if rules
            else ""
        )
        return f"{self.call(later)} conflicts with {self.known(earlier)}, which {who}; {told}{by}"

    def holding(self, one: int, other: int, conditions: List[Any]) -> List[Any]:
        """The conditions that hold of two calls."""
        found = []
        for first, second in ((one, other), (other, one)):
            value: Dict[Tuple[Optional[str], str], Any] = {}
            for side, call in (("f", first), ("g", second)):
                for (name, kind), number in zip(
                    self.log.params[self.log.op[call]], self.log.arguments_of(call)
                ):
                    value[side, name] = kind, number
            for name, number in self.log.consts.items():
                value[None, name] = str(self.spec.consts[name]), number
            found += [
                it
                for it in conditions
                if it not in found and all(value.get(a) == value.get(b) for a, b in it.equalities)
            ]
            if self.log.op[one] != self.log.op[other]:
                break
        return found

    def doubted(self, causes: Causes, doubt: Doubt) -> Finding:
        """A line that disagrees with other lines of the log."""
        log, row = self.log, doubt.row
        replica = printable(log.replicas[self.replica_of(doubt.kind, row)])
        if doubt.kind == CALL:
            what = self.call(row)
        else:
            taken = log.call_of[log.taken[row]] if doubt.kind == TAKE else -1
            what = (
                f"{replica} takes "
                f"{self.known(taken) if taken >= 0 else printable(log.id_text(log.taken[row]))}"
            )
        others = [self.known(it) for it in doubt.others]
        text = {
            "unknown": printable(doubt.text),
            "early": f"it can't have been so: this needs {others[0] if others else ''}, which "
            "was made only after it",
            "seen": "it was taken there already",
            "missing": f"it had seen {others[-1] if others else ''}, which isn't taken there",
        }.get(doubt.word, printable(doubt.text))
        if doubt.text == "more":
            text = (
                f"its line says that it had seen {others[0]}, which {replica} hadn't taken by the "
                "log"
            )
        elif doubt.text == "less":
            text = (
                f"its line doesn't say that it had seen {others[0]}, which {replica} had taken by "
                "the log"
            )
        return self.finding(doubt.kind, row, doubt.word, f"{what}: {text}")

    def replica_of(self, kind: int, row: int) -> int:
        """The replica of a row."""
        return (
            self.log.replica[row]
            if kind == CALL
            else self.log.taker[row]
            if kind == TAKE
            else self.log.states[row][0]
        )
