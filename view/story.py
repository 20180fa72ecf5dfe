"""A refuted or undecided obligation as people would tell it. The terminal's text and the page are
both made from these stories, so that they can't differ. Names are never capitalised, since `a` and
`A` are two names."""
from __future__ import annotations

from typing import Any, Sequence

from view.columns import joined
from view.formulas import readings_of
from view.given import given
from view.outcome import failing_line, outcome
from view.report import Block, Report, State, Witness
from view.tree import UPDATES, Line, Spec
from view.words import Word

# For each limit of an undecided obligation what was met, and what to try.
LIMITS = {
    "instances": (
        (
            "It has more than 20,000 ground cases, so it was not searched. Often most are pairs of"
            " tuples: 6 names of a sort give a relation of three places 23,220 pairs."
        ),
        (
            "A sort of its own for each role, fewer places, parameters and variables, fewer"
            " constants, or fewer relations of two and three places make it smaller."
        ),
    ),
    "lines": (
        "Its log reached the budget of {budget} lines without an end.",
        "A larger budget may decide it: check SPEC --budget {more}.",
    ),
    "rows": (
        "The search for whole numbers reached 10,000 rows.",
        "Fewer numbers that stand together in one comparison make it smaller.",
    ),
    "range": (
        "The search came to numbers beyond those that the checker computes with.",
        "Smaller coefficients and literals, or bounds in requires lines, keep it within.",
    ),
}
MOST_BUDGET = 1_000_000
SPLIT = (
    "Its log reached the largest budget, {budget} lines, without an end.",
    "Splitting the operation or the invariant makes it smaller.",
)
# The most elements that are named where they are only there.
MOST_NAMED = 6


class Names:
    """Elements and readings by name. An element has the name of a constant where one is this
    element, else that of its sort with the number that the program gave it, as `Account#0`: `#`
    begins a comment in a specification, so that none of its names looks like that.

    also   for each constant that is an element which has another constant's name, a text that says
           so, as `d is c`
    """

    def __init__(self, spec: Spec, consts: dict[str, int]) -> None:
        self.spec = spec
        self.known: dict[tuple[str, int], str] = {}
        self.also: list[Any] = []
        self.place = {it: at for at, it in enumerate([*spec.relations, *spec.counters])}
        for const, element in consts.items():
            key = spec.consts[const], element
            if key in self.known:
                self.also.append(f"{const} is {self.known[key]}")
            else:
                self.known[key] = const

    def element(self, sort: str, number: int) -> str:
        """The name of an element, or a number as it is, where the sort is int."""
        return str(number) if sort == "int" else self.known.get((sort, number), f"{sort}#{number}")

    def thing(self, thing: str, at: Sequence[int]) -> str:
        """A relation or a counter at elements, as `balance(Account#0)`."""
        return thing + (
            f"({', '.join(map(self.element, self.spec.places(thing), at))})" if at else ""
        )

    def read(self, state: State, thing: str, at: tuple[int, ...]) -> str:
        """What it reads in a state: true, false or a number, as text."""
        if thing in self.spec.relations:
            return "true" if (thing, tuple(at)) in state.true else "false"
        return str(state.count.get((thing, tuple(at)), 0))

    def sorted(self, places: set[tuple[str, tuple[int, ...]]]) -> list[tuple[str, tuple[int, ...]]]:
        """Places (thing, elements) in the order of a report."""
        return sorted(places, key=lambda it: (self.place[it[0]], it[1]))

    def facts(
        self, state: State, first: tuple[Any, ...] | set[tuple[str, tuple[int, ...]] | None] = ()
    ) -> list[str]:
        """What a state holds, as texts; those at the places in `first` before the others, so that
        they stay where a list is cut."""
        held = self.sorted(state.true | set(state.count))
        held.sort(key=lambda it: it not in first)
        return [
            self.thing(*it) if it in state.true else f"{self.thing(*it)} = {state.count[it]}"
            for it in held
        ]

    def changes(self, before: State, after: State) -> list[tuple[tuple[str, tuple[int, ...]], str]]:
        """What differs after: pairs of a place and a text, as `+ holds(p, s)` and `\u2212 holds(p,
        s)` for what became true and false."""
        found = [(it, "+ " + self.thing(*it)) for it in self.sorted(after.true - before.true)]
        found += [(it, "\u2212 " + self.thing(*it)) for it in self.sorted(before.true - after.true)]
        counted = [
            it
            for it in self.sorted({*before.count, *after.count})
            if before.count.get(it, 0) != after.count.get(it, 0)
        ]
        return found + [(it, f"{self.thing(*it)} = {after.count.get(it, 0)}") for it in counted]


class Call:
    """A call with named arguments. `op` is its operation's name, `args` the pairs (parameter,
    argument as text), `values` gives (sort, number) for a parameter, and `observes` has the
    operation's observes lines."""

    def __init__(self, spec: Spec, names: Names, op: str, args: list[int]) -> None:
        params = spec.operations[op].params
        self.op, self.observes = op, spec.operations[op].of("observes")
        self.args = [(it, names.element(sort, value)) for (it, sort), value in zip(params, args)]
        self.values: dict[str, tuple[str, int]] = {
            it: (sort, value) for (it, sort), value in zip(params, args)
        }

    def text(self) -> str:
        return f"{self.op}({', '.join(f'{a} = {b}' for a, b in self.args)})"


class Story:
    """The story of a refuted or an undecided block.

    block, kind, verdict  the block, its kind and verdict
    others    further refuted blocks with the same state and the same calls
    line      the invariant or requires line that it is about; None for commute
    lines     the user's own lines to show: that one, or for commute those that write the thing

    Of an undecided one:
    limit, todo   sentences: the limit that was met, and what to try

    Of a refuted one:
    names     `Names` of its elements
    before    the state in which it begins
    facts     what that state holds, as texts, and `also` which constants are one element
    sizes     how many elements each sort has
    calls     none, one or two `Call`s
    ends      the states at the end, as `outcome.Outcome` has them, or None; then `untold` are
              sentences that say why
    where     pairs of a variable and its element, at which the line is false
    differs   of commute the place (thing, elements) that reads differently
    readings  what the line reads where it is false: (reading, value, place or None for a parameter
    that is a number)
    """

    def __init__(self, spec: Spec, block: Block, budget: int, others: Sequence[Block] = ()) -> None:
        self.spec, self.block, self.kind, self.verdict = spec, block, block.kind, block.verdict
        self.others = list(others)
        self.line = failing_line(spec, block)
        self.lines = [self.line] if self.line else writing_lines(spec, block)
        if self.verdict == "undecided":
            limit, todo = (
                SPLIT
                if block.why == "lines" and budget >= MOST_BUDGET
                else LIMITS[given(block.why)]
            )
            self.limit, self.todo = limit.format(budget=f"{budget:,}"), todo.format(
                more=min(MOST_BUDGET, budget * 10)
            )
        else:
            self.read(given(block.witness))

    def read(self, witness: Witness) -> None:
        self.names = Names(self.spec, witness.consts)
        self.before, self.sizes, self.also = witness.state, witness.sizes, self.names.also
        self.calls = [Call(self.spec, self.names, *it) for it in witness.calls]
        found = outcome(self.spec, self.block)
        self.ends, self.untold = (
            found.states,
            f"The values at the end aren't shown. {found.why}" if found.why else None,
        )
        self.where = (
            [(v, self.names.element(s, it)) for (v, s), it in zip(self.line.vars, witness.at)]
            if self.line
            else []
        )
        self.differs = (self.block.names[2], tuple(witness.at)) if self.kind == "commute" else None
        self.readings = (
            self.readings_there(witness) if self.line and self.line.prefix != "exists" else []
        )
        self.facts = self.names.facts(
            self.before, {self.differs, *(place for _, _, place in self.readings)}
        )

    def readings_there(
        self, witness: Witness
    ) -> list[tuple[str, str, tuple[str, tuple[int, ...]] | None]]:
        """What the line reads, each reading once, in the state in which it is false."""
        state = self.before if self.kind == "init" else self.ends[-1] if self.ends else None
        if not state:
            return []
        bound: dict[str, tuple[str, int]] = {
            it: (sort, value) for (it, sort), value in zip(given(self.line).vars, witness.at)
        }
        bound.update({it: (self.spec.consts[it], value) for it, value in witness.consts.items()})
        if self.kind == "stable":
            bound.update(self.calls[0].values)
        found: dict[str, tuple[str, tuple[str, tuple[int, ...]] | None]] = {}
        for name, arguments in readings_of(given(self.line).tree()):
            if name in self.spec.relations or name in self.spec.counters:
                place = str(name), tuple(bound[it][1] for it in arguments)
                found[self.names.thing(*place)] = self.names.read(state, *place), place
            elif bound[name][0] == "int":
                found[str(name)] = str(bound[name][1]), None
        return [(text, value, place) for text, (value, place) in found.items()]

    def is_one_call(self) -> bool:
        """Whether both calls are the very same one."""
        return len(self.calls) == 2 and self.calls[0].text() == self.calls[1].text()

    def repeated(self) -> str | None:
        """What to do where both calls are the very same one, else None."""
        if not self.is_one_call():
            return None
        return (
            "Both calls are the very same one, made twice. Either a call that comes twice does"
            " nothing the second time, by guards behind when in place of what it requires; or no"
            " two calls ever have the same arguments, as of numbers that are dealt out and used"
            " once (pattern unique_number)."
        )

    def title(self) -> str:
        return title(self.block)

    def world(self) -> str:
        """Sentences on sorts without elements, and on elements that stand nowhere else in the
        story; empty where there is nothing to say."""
        empty = [it for it, size in self.sizes.items() if size == 0]
        said = (
            [f"{joined(empty)} {'have' if len(empty) > 1 else 'has'} no element here."]
            if empty
            else []
        )
        silent = self.silent_elements()
        if len(silent) > MOST_NAMED:
            said.append(
                f"{', '.join(silent[: MOST_NAMED - 1])} and {len(silent) - MOST_NAMED + 1} more"
                " elements are there too."
            )
        elif silent:
            said.append(f"{joined(silent)} {'are' if len(silent) > 1 else 'is'} there too.")
        return " ".join(said)

    def silent_elements(self) -> list[str]:
        """The names of the elements that no fact, call, variable or constant names."""
        named = set(self.names.known)
        places = [*self.before.true, *self.before.count, *([self.differs] if self.differs else [])]
        for thing, elements in places:
            named.update(zip(self.spec.places(thing), elements))
        named.update(it for call in self.calls for it in call.values.values())
        if self.line:
            named.update(
                (sort, it) for (_, sort), it in zip(self.line.vars, given(self.block.witness).at)
            )
        return [
            self.names.element(sort, it)
            for sort, size in self.sizes.items()
            for it in range(size)
            if (sort, it) not in named
        ]

    def where_text(self) -> str:
        """As ` for a = Account#0, b = Bidder#1`, or nothing."""
        return " for " + ", ".join(f"{a} = {b}" for a, b in self.where) if self.where else ""

    def end_texts(self) -> list[str] | None:
        """Of commute what the thing reads at A and at B, or None."""
        return (
            [self.names.read(it, *given(self.differs)) for it in self.ends] if self.ends else None
        )

    def ending(self) -> str:
        """What is wrong at the end, in a sentence or two."""
        n = self.block.names
        if self.kind == "init":
            return f"There the invariant {n[0]} is false{self.where_text()}."
        if self.kind == "safety":
            return f"After it the invariant {n[1]} is false{self.where_text()}."
        if self.kind == "commute":
            thing, texts = self.names.thing(*given(self.differs)), self.end_texts()
            values = f": {texts[0]} at A, {texts[1]} at B" if texts else ""
            return f"Each replica has taken both calls, and {thing} differs{values}."
        there = (
            "A's call reaches B after B's own call. There a line that A's call requires is false"
        )
        if given(self.line).prefix == "exists":
            return (
                f"{there}: no {', '.join(f'{v} : {s}' for v, s in given(self.line).vars)} is left"
                " for which it holds."
            )
        return there + self.where_text() + "."

    def observed(self) -> str | None:
        """A caution where an operation of the calls observes something, else None."""
        ops = list(dict.fromkeys(it.op for it in self.calls if it.observes))
        if not ops:
            return None
        return (
            "The witness need not keep what"
            f" {joined(ops)} {'observe' if len(ops) > 1 else 'observes'}: no obligation asks it."
        )


def title(block: Block) -> str:
    """What an obligation that isn't proved says, in a few words: `deposit breaks solvent`, `whether
    deposit keeps solvent`."""
    n, is_open = block.names, block.verdict == "undecided"
    if block.kind == "init":
        return f"whether {n[0]} holds at the start" if is_open else f"{n[0]} is false at the start"
    if block.kind == "safety":
        return f"whether {n[0]} keeps {n[1]}" if is_open else f"{n[0]} breaks {n[1]}"
    if block.kind == "commute":
        both = f"two calls of {n[0]}" if n[0] == n[1] else f"{n[0]} and {n[1]}"
        return (
            f"whether {both} leave {n[2]} alike in both orders"
            if is_open
            else f"{both} leave {n[2]} different"
        )
    other = f"another {n[2]}" if n[0] == n[2] else n[2]
    return (
        f"whether {other} leaves standing what {n[0]} requires"
        if is_open
        else f"{other} takes away what {n[0]} requires"
    )


def writing_lines(spec: Spec, block: Block) -> list[Line]:
    """The updates of the two operations that write a commute block's thing."""
    found = []
    for name in dict.fromkeys(block.names[:2]):
        found += [it for it in spec.operations[name].of(*UPDATES) if it.body[0] == block.names[2]]
    return found


def stories(spec: Spec, report: Report, most: int | None = None) -> list[Story]:
    """The stories of the refuted and then of the undecided blocks, or so many of them. Blocks with
    the same state and calls have one."""
    return [
        Story(spec, first, report.budget, others)
        for first, *others in told_together(spec, report)[:most]
    ]


def told_together(spec: Spec, report: Report) -> list[list[Block]]:
    """The blocks of each story, in the order of stories: those that have one state and the same
    calls are told together."""
    found: dict[
        tuple[
            tuple[tuple[str, tuple[int, ...]], ...],
            tuple[tuple[str, tuple[int, ...], int | None], ...],
            tuple[tuple[str, int], ...],
            tuple[tuple[str, int], ...],
        ]
        | Block,
        list[Block],
    ] = {}
    for block in told_blocks(spec, report):
        found.setdefault(told_by(block), []).append(block)
    return list(found.values())


def told_by(
    block: Block,
) -> (
    tuple[
        tuple[tuple[str, tuple[int, ...]], ...],
        tuple[tuple[str, tuple[int, ...], int | None], ...],
        tuple[tuple[str, int], ...],
        tuple[tuple[str, int], ...],
    ]
    | Block
):
    """The same for two blocks that have the same state and the same calls; of others something of
    their own."""
    witness = block.witness
    if witness is None or not witness.calls:
        return block
    calls = sorted((str(name), tuple(arguments)) for name, arguments in witness.calls)
    sizes, consts = [tuple(sorted(it.items())) for it in (witness.sizes, witness.consts)]
    return tuple(calls), tuple(witness.state.listed), sizes, consts


def numbered(spec: Spec, report: Report) -> dict[Block, int]:
    """The number of the story by which each refuted or undecided block is told."""
    return {
        it: number for number, blocks in enumerate(told_together(spec, report), 1) for it in blocks
    }


def told_blocks(spec: Spec, report: Report) -> list[Block]:
    """The refuted and then the undecided blocks: the start first, then each operation alone, then
    pair by pair in the order of the operations, so that those of one pair stand together."""
    place = {it: at for at, it in enumerate(spec.operations)}

    def key(block: Block) -> tuple[bool, int, list[int]]:
        group = {"init": 0, "safety": 1}.get(block.kind, 2)
        return block.verdict != "refuted", group, sorted(place[it] for it in block.pair() or ())

    return sorted((it for it in report.blocks if it.verdict != "proved"), key=key)


def tidy(words: Sequence[str]) -> str:
    """Words of a specification in one line, in the layout of stories: `( balance(a) >= n )`."""
    out, before = "", ""
    for it in words:
        is_name = before[:1].isalpha() and before not in (
            "not",
            "and",
            "or",
            "implies",
            "requires",
            "observes",
        )
        close = before in ("", "(") or it in (")", ",", ".", ":") or (it == "(" and is_name)
        out += ("" if close else " ") + it
        before = it
    return out
