"""Where the refuted and undecided obligations of a report stand in the user's text. `explain
--places` writes a line for each, which editors read.

The place is the line that fails: the invariant, the requires line, or the first update of the
two operations that can write what differs. No program is run for it, so that it is there as soon
as the report is."""
from dataclasses import dataclass
from typing import Dict, Iterator, List, Optional, Tuple

from view.outcome import failing_line
from view.output import printable
from view.report import Block, Report
from view.story import title, writing_lines
from view.tree import Line, Operation, Spec
from view.words import Word

# As many characters has a path that Linux opens.
MOST_OF_PATH = 4096


@dataclass(frozen=True, order=True)
class Span:
    """A piece of a text, as lines and columns from 1; the end is the place behind its last
    letter."""

    line: int
    column: int
    end_line: int
    end_column: int


@dataclass(frozen=True)
class Related:
    """Another place that a finding speaks of, and what stands there."""

    span: Span
    sentence: str


@dataclass(frozen=True)
class Finding:
    """An obligation that isn't proved: where it fails, and what to call that.

    verdict     refuted or undecided
    kind        init, safety, commute or stable
    sentence    as `another withdraw takes away what withdraw requires`
    obligation  its line in the report
    related     the operations whose calls it is about, and further lines
    """

    path: str
    span: Span
    verdict: str
    kind: str
    sentence: str
    obligation: str
    related: Tuple[Related, ...]
    block: Block

    def line(self) -> str:
        """As editors read it: path, line, column, verdict and sentence."""
        at = f"{self.span.line}:{self.span.column}"
        return f"{printable(self.path, MOST_OF_PATH)}:{at}: {self.verdict}: {self.sentence}"


def findings(path: str, spec: Spec, report: Report) -> List[Finding]:
    """The findings of a report, in the order of the text."""
    found = [finding(path, spec, it) for it in report.blocks if it.verdict != "proved"]
    return sorted(found, key=lambda it: (it.span, it.verdict != "refuted"))


def finding(path: str, spec: Spec, block: Block) -> Finding:
    """The finding of an obligation that isn't proved."""
    line, *others = lines_of(spec, block)
    related = [Related(line_span(it), "changes it too") for it in others]
    related += [Related(word_span(it.name), said) for it, said in operations_of(spec, block)]
    return Finding(
        path,
        line_span(line),
        str(block.verdict),
        block.kind,
        title(block),
        block.words(),
        tuple(related),
        block,
    )


def lines_of(spec: Spec, block: Block) -> List[Line]:
    """The line that fails; of commute the updates that can write what differs, and where a
    witness tells no such one all that write the thing."""
    failing = failing_line(spec, block)
    if failing:
        return [failing]
    lines = writing_lines(spec, block)
    return [it for it in lines if can_write(spec, block, it)] or lines


def can_write(spec: Spec, block: Block, line: Line) -> bool:
    """Whether a call of the witness names, in an update, the element at which the thing differs."""
    if not block.witness:
        return True
    _, spots = line.thing()
    for name, arguments in block.witness.calls:
        operation = spec.operations[name]
        if line in operation.lines:
            elements: Dict[str, Optional[int]] = dict(
                zip((str(it) for it, _ in operation.params), arguments)
            )
            elements["*"] = None
            elements.update(block.witness.consts)
            if all(elements.get(it) in (None, at) for it, at in zip(spots, block.witness.at)):
                return True
    return False


def operations_of(spec: Spec, block: Block) -> Iterator[Tuple[Operation, str]]:
    """The operations of an obligation, each with what its call does."""
    if block.kind == "safety":
        yield spec.operations[block.names[0]], "this call breaks it"
    pair = block.pair()
    if pair:
        first, second = (spec.operations[it] for it in pair)
        yield first, "one call" if pair[0] != pair[1] else "both calls are of this operation"
        if pair[0] != pair[1]:
            yield second, "the other call"


def line_span(line: Line) -> Span:
    """Where a line stands, from its first word to its last."""
    return span(line.head, line.body[-1] if line.body else line.head)


def word_span(word: Word) -> Span:
    """Where a word stands."""
    return span(word, word)


def span(first: Word, last: Word) -> Span:
    """From the first of two words to the end of the last."""
    return Span(first.line, first.column, last.line, last.column + len(last))


def finding_of(found: List[Finding], obligation: str) -> Optional[Finding]:
    """The finding of an obligation's line, or None."""
    return next((it for it in found if it.obligation == obligation), None)
