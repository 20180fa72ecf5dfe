"""`./cise review SPEC`: what a yes leaves open. Standard output has a line for each doubt, in the
form that editors read: path, line, column, kind and sentence. Behind them stand lines that the
design could do without, which are no doubts: a line as `n >= 1` is often wanted for people."""
import time
from dataclasses import dataclass
from typing import FrozenSet, Iterator, List, Optional, Tuple

from view import program
from view.doubts import Doubt, doubts
from view.inputs import name_of, text_of
from view.output import printable, say
from view.places import MOST_OF_PATH, line_span
from view.report import Report, Suggestion
from view.run_text import count_of
from view.tree import Line, Operation, Spec

NOTHING, SOMETHING = 0, 5
# The most lines of a kind that are tried one by one, and the most seconds for them.
MOST_LINES, MOST_SECONDS = 120, 15.0


@dataclass(frozen=True)
class Standing:
    """What the program says of a text: which obligations of one call alone aren't proved, and which
    pairs need an order, if the suggestion is whole."""

    broken: FrozenSet[str]
    needed: Optional[FrozenSet[Tuple[str, str]]]


def answer(path: str) -> Tuple[int, str]:
    """The status and the lines."""
    _, text = program.answer("check", path)
    spec, report = Spec(text_of(path)), Report(text)
    found, spare = reviewed(spec, report)
    name = printable(name_of(path), MOST_OF_PATH)
    lines = [
        f"{name}:{it.span.line}:{it.span.column}: {it.kind}: {it.sentence}" for it in found + spare
    ]
    say(
        f"review: {count_of(len(found), 'doubt', 'doubts')}; "
        f"{count_of(len(spare), 'line', 'lines')} to think of\n"
    )
    return (SOMETHING if found else NOTHING), "".join(it + "\n" for it in lines)


def reviewed(spec: Spec, report: Report) -> Tuple[List[Doubt], List[Doubt]]:
    """The doubts of a specification, and the lines that it could do without."""
    found = doubts(spec, report)
    is_accepted = report.word == "accepted"
    return found, [*spared_orders(spec), *(without_lines(spec) if is_accepted else ())]


def lines_of(spec: Spec, *heads: str) -> Iterator[Tuple[Operation, Line]]:
    """The lines of the operations that begin so, in order, as many as there is time for."""
    count, begun = 0, time.monotonic()
    for operation in spec.operations.values():
        for line in operation.of(*heads):
            count += 1
            if count <= MOST_LINES and time.monotonic() - begun < MOST_SECONDS:
                yield operation, line


def without_lines(spec: Spec) -> Iterator[Doubt]:
    """The requires and takes lines without which the specification is accepted as well."""
    for operation, line in lines_of(spec, "requires", "takes"):
        text = spec.text[: line.head.at] + spec.text[line.head.at + len(line.text) :]
        if program.run_on(text, "check")[0] == 0:
            words = " ".join(line.text.split())
            sentence = f"{operation.name} is accepted without it as well: {words}"
            yield Doubt(line_span(line), "not-needed", sentence)


def spared_orders(spec: Spec) -> Iterator[Doubt]:
    """The requires lines that spare an order where they are only observed, and break nothing by
    it."""
    text = spec.text
    if spec.version == 1:
        version = spec.words[1]
        text = text[: version.at] + "2" + text[version.end :]
    before = standing(text)
    if before is None or not before.needed:
        return
    for operation, line in lines_of(spec, "requires"):
        if not any(str(operation.name) in pair for pair in before.needed):
            continue
        after = standing(text[: line.head.at] + "observes" + text[line.head.end :])
        if after is None or after.needed is None or not after.broken <= before.broken:
            continue
        spared = before.needed - after.needed
        if spared and after.needed <= before.needed:
            pairs = ", ".join(f"{f} || {g}" for f, g in sorted(spared))
            words = " ".join(line.text.split()[1:])
            sentence = f"only observed, it spares the order of {pairs}: observes {words}"
            yield Doubt(line_span(line), "observes", sentence)


def standing(text: str) -> Optional[Standing]:
    """What the program says of a text; None where it refuses it."""
    status, said = program.run_on(text, "suggest")
    if status not in (0, 5):
        return None
    needed = frozenset((it.left, it.right) for it in Suggestion(said).pairs if it.word != "free")
    status, said = program.run_on(text, "check")
    blocks: List[str] = [
        it.words()
        for it in Report(said).blocks
        if it.kind in ("init", "safety") and it.verdict != "proved"
    ]
    return Standing(frozenset(blocks), needed)
