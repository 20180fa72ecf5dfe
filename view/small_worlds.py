"""Looks for a break of what is undecided since it has more than 20,000 formulas, in small worlds.

Most of these formulas come from the many names of an obligation: constants, parameters, variables.
So specifications are made for it in which the operations have no parameters of a sort: each stands
there several times, with constants in the place of its arguments, at most two of each sort. What
the program refutes there gives a state and calls for the obligation itself. Whether they break it
`verify` says, which takes a witness for such an obligation too; nothing else counts as a break.
Where none is found, that was tried and no more."""
from __future__ import annotations

from dataclasses import dataclass, field
from itertools import product
from typing import Iterator, Sequence

from view import program
from view.given import given
from view.outcome import bracketed, fresh_names
from view.output import Progress
from view.report import Block, Report, Witness
from view.tree import ITEMS, UPDATES, Line, Operation, Spec

# The most obligations that are decided for a specification, and the most groups of operations, each
# in three runs at most; the lines of a log; the most ways of an operation, and the elements of a
# sort in its place; the most constants of a sort.
MOST_OBLIGATIONS, MOST_GROUPS, BUDGET = 300, 24, "200"
MOST_WAYS, MOST_ELEMENTS, MOST_CONSTANTS = 16, 2, 4


@dataclass
class Tried:
    """What was tried for an obligation: in how many `ways` its calls name one or two elements of
    each sort that the program decided, how many it left `open`, a `witness` that breaks one of
    them, and of that a refuted block for the obligation, as `verify` takes it."""

    ways: int = 0
    open: int = 0
    witness: Witness | None = None
    found: Block | None = None


@dataclass
class Copies:
    """A specification that asks: its `text`, and for each operation there which one it is, with a
    constant or None, for a whole number, in the place of each parameter."""

    text: str
    called: dict[str, tuple[str, list[str | None]]]


def tried(spec: Spec, report: Report, blocks: Sequence[Block]) -> dict[Block, Tried]:
    """What is found for those of some obligations that have too many formulas; of those for which
    nothing is left that may be asked, nothing. It is of the same work on any machine."""
    groups: dict[tuple[str, ...], list[Block]] = {}
    for it in blocks:
        if it.why == "instances" and it.kind != "init":
            groups.setdefault(tuple(dict.fromkeys(it.pair() or it.names[:1])), []).append(it)
    search, some = Search(spec), list(groups.items())[:MOST_GROUPS]
    with Progress() as progress:
        for number, (names, its) in enumerate(some):
            progress.tell(f"small worlds: {number + 1} of {len(some)}")
            search.group(names, its, len(some) - number)
        progress.tell("small worlds: verify")
        confirm(spec, report, search.found)
    return search.found


@dataclass
class Search:
    """What is found in a specification, and how many obligations may still be decided for it."""

    spec: Spec
    found: dict[Block, Tried] = field(default_factory=dict)
    left: int = MOST_OBLIGATIONS

    def group(self, names: tuple[str, ...], blocks: list[Block], among: int) -> None:
        """Looks at obligations of the same operations, with their share among so many: with two new
        constants of each sort, and with fewer for those for which these are too many."""
        for new in (2, 1, 0):
            share, number = self.left // among, self.most_ways(names)
            while number > 1 and self.asks(names, number) > share:
                number -= 1
            if blocks and self.asks(names, number) <= self.left:
                self.run(copies(self.spec, names, new, number), blocks)
            blocks = [it for it in blocks if it in self.found and not self.found[it].ways]

    def most_ways(self, names: tuple[str, ...]) -> int:
        """How many ways there are at most for an operation."""
        places = [
            [it for it in self.spec.operations[name].params if it[1] != "int"] for name in names
        ]
        most: int = MOST_ELEMENTS ** max(map(len, places))
        return min(MOST_WAYS, most)

    def asks(self, names: tuple[str, ...], number: int) -> int:
        """How many obligations there are at most with so many ways of each operation."""
        its = [self.spec.operations[it] for it in names]
        calls = number * len(its)
        things = {line.body[0] for it in its for line in it.of(*UPDATES)}
        required = number * sum(len(it.of("requires")) for it in its)
        pairs = calls * (calls + 1) // 2 * len(things) + required * calls
        return (calls + 1) * len(self.spec.invariants) + pairs

    def run(self, made: Copies, blocks: list[Block]) -> None:
        """Takes what a specification that was made for some obligations says of them."""
        of = {it.words(): it for it in blocks}
        self.found.update({it: Tried() for it in blocks})
        status, text = program.run_on(made.text, "check", "--budget", BUDGET)
        for it in Report(text).blocks if status in (0, 1, 5) else []:
            self.left -= it.why != "instances"
            one = self.found.get(of.get(words_of(it, made), it))
            if one is None:
                continue
            one.open += it.verdict == "undecided"
            one.ways += it.verdict != "undecided"
            if it.verdict == "refuted" and one.witness is None:
                one.witness = own_witness(self.spec, made, it.refutation())


def words_of(block: Block, made: Copies) -> str:
    """An obligation's line, with the names of the operations themselves."""
    own = [made.called[it][0] if it in made.called else it for it in block.names]
    return " ".join([block.kind, *own])


def own_witness(spec: Spec, made: Copies, found: Witness) -> Witness:
    """A witness of the specification itself: without the new constants, and with arguments."""
    own = Witness()
    own.sizes, own.state, own.at = found.sizes, found.state, found.at
    own.consts = {it: found.consts[it] for it in spec.consts}
    for name, arguments in found.calls:
        called, way = made.called[name]
        numbers = iter(arguments)
        own.calls.append(
            (called, [next(numbers) if it is None else found.consts[it] for it in way])
        )
    return own


def confirm(spec: Spec, report: Report, found: dict[Block, Tried]) -> None:
    """Asks `verify` of the report in which each obligation has its witness, where there are any,
    and keeps the blocks where it takes them."""
    lines, broken = report.text.split("\n"), {it: one for it, one in found.items() if one.witness}
    for it in sorted(broken, key=lambda it: -it.line_in_report):
        own = ["refuted", *written(given(broken[it].witness))]
        lines[it.line_in_report : it.line_in_report + 1] = own
    refuted, undecided = report.refuted + len(broken), report.undecided - len(broken)
    summary = f"summary proved {report.proved} refuted {refuted} undecided {undecided}"
    text = "\n".join([*lines[:-3], summary, "rejected", ""])
    if broken and program.run_on(spec.text, "verify", report=text)[0] == 1:
        for before, after in zip(report.blocks, Report(text).blocks):
            if before in broken:
                after.line_in_report, broken[before].found = before.line_in_report, after


def written(witness: Witness) -> Iterator[str]:
    """A witness as the lines of a report."""
    rows: list[tuple[object, ...]] = [("size", *it) for it in witness.sizes.items()]
    rows += [("const", *it) for it in witness.consts.items()]
    for thing, at, value in witness.state.listed:
        rows.append(("true", thing, *at) if value is None else ("count", thing, *at, value))
    rows += [("call", name, *arguments) for name, arguments in witness.calls]
    return (" ".join(map(str, it)) for it in [*rows, ("at", *witness.at)])


def copies(spec: Spec, names: tuple[str, ...], most: int, number: int) -> Copies:
    """The specification in which some operations have constants in the place of their arguments, in
    so many ways: two of each sort, of which so many are new where there is room."""
    unused = fresh_names(spec)
    lines: list[str] = [f"cise {spec.version}"]
    chosen: dict[str, list[str]] = {}
    for sort in spec.sorts:
        declared = [it for it, its in spec.consts.items() if its == sort]
        new = [next(unused) for _ in range(min(most, MOST_CONSTANTS - len(declared)))]
        chosen[str(sort)] = [*new, *declared][:MOST_ELEMENTS]
        lines += [f"sort {sort}", *(f"const {it} : {sort}" for it in [*declared, *new])]
    lines += [
        spec.text[head.at : words[-1].end]
        for head, words in spec.items
        if head in ITEMS - {"sort", "const", "operation"}
    ]
    made = Copies("", {})
    for name in (it for it in spec.operations if it in names):
        operation = spec.operations[name]
        for way in ways(operation, chosen, number):
            called = next(unused)
            made.called[called] = str(name), way
            lines += copied(operation, called, way)
    made.text = "\n".join(lines) + "\n"
    return made


def ways(operation: Operation, chosen: dict[str, list[str]], most: int) -> list[list[str | None]]:
    """So many ways to put constants in the place of an operation's parameters, those first that
    name the second of a sort least often."""
    places = [range(len(chosen[sort])) if sort != "int" else [0] for _, sort in operation.params]
    numbers = sorted(product(*places), key=lambda it: (sum(it), it))[:most]
    return [
        [chosen[sort][at] if sort != "int" else None for at, (_, sort) in zip(it, operation.params)]
        for it in numbers
    ]


def copied(operation: Operation, name: str, way: list[str | None]) -> list[str]:
    """An operation under another name, with constants in the place of its parameters."""
    rows = list(zip(operation.params, way))
    kept = [f"{it} : {sort}" for (it, sort), const in rows if const is None]
    instead = {str(it): const for (it, _), const in rows if const is not None}
    lines = [f"  {line.head} {with_constants(line, instead)}" for line in operation.lines]
    return [f"operation {name}{bracketed(kept)}", *lines, "end"]


def with_constants(line: Line, instead: dict[str, str]) -> str:
    """The words of a line behind the first, with constants in the place of parameters."""
    own = {str(it) for it, _ in line.vars}
    return " ".join(it if it in own else instead.get(it, it) for it in line.body)
