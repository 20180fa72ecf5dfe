"""`./cise mend SPEC --no-wait`: changes of effects by which fewer pairs have to be ordered.

Each change is a template made of `patterns/`. What it gives is tried by `check` and `suggest`, and
is taken only where every operation keeps its invariants and fewer pairs are needed. Standard error
shows each change as a difference of lines, with what is promised less."""
import difflib
import itertools
import re
from dataclasses import dataclass
from typing import Callable, Dict, FrozenSet, Iterator, List, Optional, Tuple

from view import program
from view.edits import Layout, edited
from view.inputs import text_of
from view.output import say
from view.report import Report, Suggestion
from view.tree import Line, Operation, Spec, between, names
from view.words import index_of

# So many texts are tried at most; each takes two runs of the program.
MOST_TRIALS = 60
# So many are tried by `mend` without the option, in a specification of at most so many obligations.
MOST_WAYS, MOST_OBLIGATIONS = 16, 200
Edit = Tuple[int, int, str]


@dataclass(frozen=True)
class Change:
    """A text that a template gives: what was done, and what is promised less."""

    done: str
    less: str
    text: str


@dataclass(frozen=True)
class Worth:
    """What the program says of a text: the pairs that need an order, and the single calls that
    break something."""

    needed: FrozenSet[Tuple[str, str]]
    broken: FrozenSet[str]


def answer(path: str) -> Tuple[int, str]:
    """The text with the changes that spare an order; the status is that of `check` for it."""
    status, _ = program.answer("check", path)
    text = text_of(path)
    changes, tried = spared(text)
    for before, change in zip([text] + [it.text for it in changes], changes):
        say(told(before, change))
    if not changes:
        say(f"mend: none of {tried} changes that were tried spares an order\n")
        return status, text
    status, said = program.run_on(changes[-1].text, "check")
    say(counted(text, changes[-1].text, tried))
    if status not in (0, 1, 5):
        raise program.Stopped(["check"], status, said)
    return status, changes[-1].text


def spared(text: str, most: int = MOST_TRIALS) -> Tuple[List[Change], int]:
    """Changes one after the other, each the best of its round, and how many texts were tried."""
    worth, found, tried = worth_of(text), [], 0  # type: Optional[Worth], List[Change], int
    while worth is not None and worth.needed and tried < most:
        best = None  # type: Optional[Tuple[Change, Worth]]
        for change in changes_of(text):
            if tried == most:
                break
            tried += 1
            other = worth_of(change.text)
            if other and is_better(other, best[1] if best else worth):
                best = change, other
        if best is None:
            break
        found.append(best[0])
        text, worth = best[0].text, best[1]
    return found, tried


def ways(text: str) -> Tuple[Dict[FrozenSet[str], str], int]:
    """For each pair that one change alone spares from an order, that change; and how many were
    tried."""
    worth, found, tried = (
        worth_of(text),
        {},
        0,
    )  # type: Optional[Worth], Dict[FrozenSet[str], str], int
    if worth is None:
        return found, tried
    for change in itertools.islice(changes_of(text), MOST_WAYS):
        tried += 1
        other = worth_of(change.text)
        if other and is_better(other, worth):
            for pair in worth.needed - other.needed:
                found.setdefault(frozenset(pair), change.done)
    return found, tried


def is_better(other: Worth, worth: Worth) -> bool:
    """Whether fewer pairs need an order, and no call breaks what none broke before."""
    return len(other.needed) < len(worth.needed) and other.broken <= worth.broken


def worth_of(text: str) -> Optional[Worth]:
    """What the program says of a text; None where it refuses it."""
    status, said = program.run_on(text, "suggest")
    if status not in (0, 5):
        return None
    needed = [it for it in Suggestion(said).pairs if it.word != "free"]
    status, said = program.run_on(text, "check")
    alone = [it for it in Report(said).blocks if it.verdict != "proved" and not it.pair()]
    pairs = frozenset((str(it.left), str(it.right)) for it in needed)
    return Worth(pairs, frozenset(it.words() for it in alone))


def changes_of(text: str) -> Iterator[Change]:
    """What each template gives of a text, in the order in which they promise much."""
    spec = Spec(text)
    for template in TEMPLATES:
        yield from template(spec)


def second_version(spec: Spec) -> List[Edit]:
    """Makes the text one of version 2, which has `observes`."""
    word = spec.words[1]
    return [(word.at, word.end, "2")] if spec.version == 1 else []


def line_end(line: Line) -> int:
    """The place behind a line's last word."""
    return line.head.at + len(line.text)


def reading(spec: Spec, name: str, spots: List[str]) -> str:
    """A reading as the text writes such."""
    return Layout(spec).applied(name, spots)


def observed(spec: Spec) -> Iterator[Change]:
    """A requires line that is only observed."""
    for name, operation in spec.operations.items():
        for line in operation.of("requires"):
            edits = second_version(spec) + [(line.head.at, line.head.end, "observes")]
            yield Change(
                f"{name} only observes: {flat(line)}",
                "the line may be false where the call is taken elsewhere",
                edited(spec.text, edits),
            )


def once(spec: Spec) -> Iterator[Change]:
    """A call that comes twice and acts once: what it required not to be there guards its
    updates."""
    for name, operation in spec.operations.items():
        for line in operation.of("requires"):
            if not is_absence_of_inserted(operation, line):
                continue
            edits = [(line.head.at, line_end(line), "")]
            edits += guards(operation.of("add", "set"), " ".join(line.body))
            yield Change(
                f"{name} acts once in place of being refused: {flat(line)}",
                "the same call may be made twice, and counts once",
                without_blank_lines(spec.text, edits),
            )


def is_absence_of_inserted(operation: Operation, line: Line) -> bool:
    """Whether a requires line says that a fact isn't there which the operation inserts."""
    if line.prefix or not line.body or line.body[0] != "not":
        return False
    inserted = [
        [str(it) for it in (thing, *spots)]
        for thing, spots in (it.thing() for it in operation.of("insert"))
    ]
    absent = [str(it) for it in [line.body[1], *names(between(line.body[2:]))]]
    return absent in inserted and ")" not in line.body[line.body.index(line.body[1]) + 1 : -1]


def guards(lines: List[Line], formula: str) -> List[Edit]:
    """Edits by which lines act only where a formula holds."""
    found = []  # type: List[Edit]
    for line in lines:
        end = line_end(line)
        if "when" in line.body:
            word = line.body[index_of(line.body, "when")]
            found += [(word.end, word.end, f" ( {formula} and"), (end, end, " )")]
        else:
            found.append((end, end, f" when {formula}"))
    return found


def greatest(spec: Spec) -> Iterator[Change]:
    """Of two values that are set, the greater one stays."""
    for name, operation in spec.operations.items():
        for line in operation.of("set"):
            counter, spots = line.thing()
            amount = line.body[len(spots) * 2 + (2 if spots else 1) :]
            if "when" in line.body or not amount or len(amount) != 1 or not amount[0][0].isalpha():
                continue
            read = reading(spec, counter, [str(it) for it in spots])
            yield Change(
                f"{name} sets {counter} only to a greater value",
                f"{counter} never falls by this call; of two values set at once the greater stays",
                edited(spec.text, guards([line], f"( {amount[0]} > {read} )")),
            )


def removals(spec: Spec, relation: str) -> List[Line]:
    """The lines that remove from a relation."""
    lines = [line for it in spec.operations.values() for line in it.of("remove")]
    return [it for it in lines if it.thing()[0] == relation]


def removal_wins(spec: Spec) -> Iterator[Change]:
    """What is removed is noted for good, and what would bring it back acts only where it isn't
    noted."""
    for relation, sorts in spec.relations.items():
        lines = [it for it in removals(spec, relation) if "*" not in it.thing()[1]]
        if not lines:
            continue
        gone = free_name(spec, f"removed_{relation}")
        edits = [declared(spec, gone, [str(it) for it in sorts])]
        for line in lines:
            spots = [str(it) for it in line.thing()[1]]
            edits.append((line_end(line), line_end(line), also(spec, line, gone, spots)))
        for operation in spec.operations.values():
            for line in operation.of("insert"):
                thing, places = line.thing()
                if thing == relation:
                    formula = f"not {reading(spec, gone, [str(it) for it in places])}"
                    edits += guards([line], formula)
        yield Change(
            f"a removal from {relation} wins",
            f"what was removed from {relation} never comes back",
            edited(spec.text, edits),
        )


def marked(spec: Spec) -> Iterator[Change]:
    """What is removed stays and is marked: it is there where it isn't marked. Calls that ask for it
    act where it isn't."""
    for relation, sorts in spec.relations.items():
        lines = removals(spec, relation)
        if not lines or any("*" in it.thing()[1] for it in lines):
            continue
        gone = free_name(spec, f"removed_{relation}")
        edits = [declared(spec, gone, [str(it) for it in sorts])]
        for line in lines:
            thing = line.body[0]
            edits += [(line.head.at, line.head.end, "insert"), (thing.at, thing.end, gone)]
        for invariant in spec.invariants.values():
            edits += unmarked_readings(spec, invariant, relation, gone)
        for operation in spec.operations.values():
            edits += guarded_by_mark(spec, operation, relation, gone)
        yield Change(
            f"what is removed from {relation} is marked, and stays",
            f"what was removed from {relation} never comes back",
            edited(spec.text, edits),
        )


def unmarked_readings(spec: Spec, line: Line, relation: str, gone: str) -> List[Edit]:
    """Edits by which an invariant speaks of facts that aren't marked."""
    found = []  # type: List[Edit]
    body = list(line.body)
    for at, word in enumerate(body):
        if word == relation:
            spots = [str(it) for it in names(between(body[at + 1 :]))]
            end = body[at + 1 + index_of(body[at + 1 :], ")")].end if spots else word.end
            mark = reading(spec, gone, spots)
            found.append((word.at, end, f"( {spec.text[word.at:end]} and not {mark} )"))
    return found


def guarded_by_mark(spec: Spec, operation: Operation, relation: str, gone: str) -> List[Edit]:
    """Edits by which what an operation inserts or adds waits for no removal of what it asks for."""
    for line in operation.of("requires"):
        spots = [str(it) for it in names(between(line.body[1:]))]
        if not line.prefix and line.body[0] == relation and len(line.body) <= 2 * len(spots) + 2:
            return guards(operation.of("insert", "add"), f"not {reading(spec, gone, spots)}")
    return []


def pairs_text(count: int) -> str:
    """A number of pairs in words."""
    return "1 pair" if count == 1 else f"{count} pairs"


def counted(before: str, after: str, tried: int) -> str:
    """The counts at the end."""
    old, new = worth_of(before), worth_of(after)
    assert old is not None and new is not None
    left = f"{pairs_text(len(new.needed))} now; mend orders them" if new.needed else "none now"
    return (
        f"mend: {pairs_text(len(old.needed))} needed an order, {left}; {tried} changes were tried\n"
    )


def counts(spec: Spec) -> Iterator[Change]:
    """A relation that calls only insert into and remove from: it counts both, and sums commute."""
    for relation, sorts in spec.relations.items():
        lines = removals(spec, relation)
        others = [it for it in spec.words if it == relation]
        own = lines + [
            line
            for it in spec.operations.values()
            for line in it.of("insert")
            if line.thing()[0] == relation
        ]
        if not lines or len(others) != len(own) + 1 or any("*" in it.thing()[1] for it in lines):
            continue
        yield Change(
            f"{relation} is counted: so often put in, so often taken out",
            f"a fact of {relation} is there where it was put in more often than taken out",
            edited(spec.text, counting(spec, relation, [str(it) for it in sorts], own)),
        )


def counting(spec: Spec, relation: str, sorts: List[str], lines: List[Line]) -> List[Edit]:
    """Edits that make two counters of a relation."""
    added, taken = free_name(spec, f"{relation}_added"), free_name(spec, f"{relation}_removed")
    layout = Layout(spec)
    item = next(it for head, it in spec.items if head == "relation" and it[0] == relation)
    start = spec.text.rfind("relation", 0, item[0].at)
    both = [f"counter {layout.applied(it, sorts)}" for it in (added, taken)]
    edits = [(start, item[-1].end, layout.end.join(both))]
    for line in lines:
        spots = [str(it) for it in line.thing()[1]]
        guard = line.text[line.text.index(" when ") :] if "when" in line.body else ""
        name = added if line.head == "insert" else taken
        edits.append((line.head.at, line_end(line), f"add {layout.applied(name, spots)} 1{guard}"))
    return edits


def free_name(spec: Spec, name: str) -> str:
    """A name that the text doesn't have yet."""
    while name in spec.words:
        name += "_"
    return name


def declared(spec: Spec, name: str, sorts: List[str]) -> Edit:
    """A relation, behind the last one that is declared."""
    last = [it for head, it in spec.items if head == "relation"][-1][-1]
    layout = Layout(spec)
    return last.end, last.end, f"{layout.end}relation {layout.applied(name, sorts)}"


def also(spec: Spec, line: Line, name: str, spots: List[str]) -> str:
    """A line behind another, which inserts under the same guard."""
    layout = Layout(spec)
    start = spec.text.rfind("\n", 0, line.head.at) + 1
    indent = spec.text[start : line.head.at]
    guard = line.text[line.text.index(" when ") :] if "when" in line.body else ""
    return f"{layout.end}{indent}insert {layout.applied(name, spots)}{guard}"


def without_blank_lines(text: str, edits: List[Edit]) -> str:
    """A text with edits, without the lines that these leave empty."""
    mark = "\0"
    marked = [(a, b, new or mark) for a, b, new in edits]
    return re.sub(rf"[ \t]*{mark}[ \t\r]*\n", "", edited(text, marked)).replace(mark, "")


def flat(line: Line) -> str:
    """A line's text in one row."""
    return " ".join(line.text.split())


def told(before: str, change: Change) -> str:
    """What standard error says of a change."""
    rows = difflib.unified_diff(before.splitlines(), change.text.splitlines(), lineterm="", n=0)
    shown = [f"    {it}" for it in rows if not it.startswith(("---", "+++", "@@"))]
    return "\n".join([f"mend: {change.done}", *shown, f"  promised less: {change.less}", ""])


Template = Callable[[Spec], Iterator[Change]]
TEMPLATES: Tuple[Template, ...] = (once, counts, removal_wins, marked, greatest, observed)
