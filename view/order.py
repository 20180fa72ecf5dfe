"""On what two operations are ordered: read off the tokens, the rules and the takes lines of a
specification. Two calls conflict where a rule matches a token that the one takes and a token that
the other takes. A rule matches where one choice of elements for its variables gives the elements of
both tokens: so where all arguments that stand at the places of one variable are equal. These
equalities are a condition; two calls are ordered where one of the conditions of their operations
holds. Two takings that are both shared never conflict.

`./cise order SPEC` compares what is ordered with what has to be, which the program's suggestion
says."""
from __future__ import annotations

from typing import Any, Optional, Sequence, Tuple

from view import program
from view.columns import table, wrapped
from view.given import given
from view.inputs import text_of
from view.report import Block, SuggestedPair, Suggestion
from view.tree import Line, Spec
from view.words import Word

ORIGIN = (
    "Which pairs have to be ordered, and which equalities are enough, is what the program's"
    " suggestion says. On what they are ordered is read off the rules and the takes lines, and"
    " isn't proved."
)

# The other call, and the order in which arguments stand in an equality.
Argument = Tuple[Optional[str], str]
Equality = Tuple[Argument, Argument]
OTHER = {"f": "g", "g": "f", None: None}
RANKS = {"f": 0, "g": 1, None: 2}
# The most conditions of a pair that are compared with each other, and that are told.
MOST_COMPARED, MOST_TOLD = 32, 8


class Condition:
    """Two calls are ordered where all `equalities` hold, so always where there is none. An equality
    is a pair of arguments. An argument is ("f", parameter) of the first call, ("g", parameter) of
    the second, or (None, constant). No equality follows from the others. `rules` has the numbers of
    the lines with the rules that say so, and `calls` what the two calls are called where an
    equality is about one of them.
    """

    def __init__(
        self,
        equalities: Sequence[Equality] = (),
        calls: dict[str, str] | None = None,
    ) -> None:
        self.calls = calls
        self.equalities: list[Equality] = []
        self.rules: list[int] = []
        # For each argument of an equality one that stands for all that are equal to it.
        self.leaders: dict[Argument, Argument] = {}
        for a, b in equalities:
            self.join(a, b)

    def join(self, a: Argument, b: Argument) -> None:
        """Adds an equality, unless it follows from those that are there."""
        if self.joins(a, b):
            return
        self.equalities.append((a, b))
        kept, old = self.leaders.get(a, a), self.leaders.get(b, b)
        self.leaders.update(
            {
                it: kept
                for it in [a, b, old, *(it for it, leader in self.leaders.items() if leader == old)]
            }
        )

    def joins(self, a: Argument, b: Argument) -> bool:
        """Whether two arguments are equal by these equalities."""
        return self.leaders.get(a, a) == self.leaders.get(b, b)

    def implies(self, other: Condition, swapped: bool = False) -> bool:
        """Whether the equalities of another condition, or of that with the two calls exchanged,
        follow from these."""
        if swapped:
            return all(
                self.joins((OTHER[a[0]], a[1]), (OTHER[b[0]], b[1])) for a, b in other.equalities
            )
        return all(self.joins(a, b) for a, b in other.equalities)

    def short(self) -> str:
        """As `same a, b` and `p = q`, of the first call and the second; of one call alone `p = q in
        move`, `p = root in move`."""
        alike = [a[1] for a, b in self.equalities if is_same(a, b)]
        other = [
            f"{a[1]} = {b[1]}{self.where(a, b)}" for a, b in self.equalities if not is_same(a, b)
        ]
        return ", ".join((["same " + ", ".join(alike)] if alike else []) + other)

    def where(self, a: Argument, b: Argument) -> str:
        """Which call an equality is about, where it isn't about both."""
        sides = {it for it in (a[0], b[0]) if it is not None}
        return f" in {given(self.calls)[sides.pop()]}" if len(sides) == 1 else ""

    def sentence(self, f: str, g: str) -> str:
        """As `both have the same a` and `p of move = c of delete`; `the one` and `the other` where
        both calls are of one operation."""
        calls = {"f": "the one", "g": "the other"} if f == g else {"f": f, "g": g}

        def name(argument: tuple[str | None, str]) -> str:
            return argument[1] if argument[0] is None else f"{argument[1]} of {calls[argument[0]]}"

        alike = [a[1] for a, b in self.equalities if is_same(a, b)]
        said = [f"both have the same {' and the same '.join(alike)}"] if alike else []
        return " and ".join(
            said + [f"{name(a)} = {name(b)}" for a, b in self.equalities if not is_same(a, b)]
        )


def is_same(a: Argument, b: Argument) -> bool:
    """Whether two arguments are one parameter's, of the one call and of the other."""
    return a[1] == b[1] and {a[0], b[0]} == {"f", "g"}


class Taking:
    """A takes line as a call of the first operation, where `side` is f, or of the second, where it
    is g, takes it: its `token`, the `arguments`, and whether it `is_shared`."""

    def __init__(self, spec: Spec, line: Line, side: str) -> None:
        self.token, args = line.thing()
        self.is_shared = line.is_shared()
        self.arguments = [(None if it in spec.consts else side, str(it)) for it in args]


def takings(spec: Spec, operation: str, side: str) -> dict[str, list[Taking]]:
    """What a call of an operation takes, by token."""
    found: dict[str, list[Taking]] = {}
    for line in spec.operations[operation].of("takes"):
        found.setdefault(line.body[0], []).append(Taking(spec, line, side))
    return found


def conditions(spec: Spec, f: str, g: str) -> list[Condition]:
    """The conditions on which a call of f and a call of g are ordered, without those that follow
    from others; none where they never are."""
    found: list[Condition] = []
    known: dict[tuple[Equality, ...], Condition] = {}
    calls = {"f": "one", "g": "one"} if f == g else {"f": f, "g": g}
    f_takings, g_takings = takings(spec, f, "f"), takings(spec, g, "g")
    places = {
        side: {str(it): at for at, (it, _) in enumerate(spec.operations[name].params)}
        for side, name in (("f", f), ("g", g))
    }
    for left, right, number in spec.rules:
        for first, second in ((left, right), (right, left)):
            for a in f_takings.get(first[0], ()):
                for b in g_takings.get(second[0], ()):
                    if not (a.is_shared and b.is_shared):
                        condition = matched(
                            places,
                            Condition(calls=calls),
                            [*first[1], *second[1]],
                            a.arguments + b.arguments,
                        )
                        key = tuple(condition.equalities)
                        if key not in known:
                            known[key] = condition
                            add(found, condition, f == g)
                        add_rule(known[key], number)
    return found


def matched(
    places: dict[str, dict[str, int]],
    condition: Condition,
    variables: list[Word],
    arguments: list[Argument],
) -> Condition:
    """Adds to a condition without equalities those by which one choice of elements for the
    variables gives the elements of the arguments. Parameters of the first call stand first in it,
    each in the order of its operation, and constants last."""

    def rank(argument: tuple[str | None, str]) -> tuple[int, int]:
        side, name = argument
        return RANKS[side], places[side][name] if side else 0

    bound: dict[str, Argument] = {}
    for variable, argument in zip(variables, arguments):
        condition.join(*sorted((bound.setdefault(variable, argument), argument), key=rank))
    condition.equalities.sort(key=lambda it: (rank(it[0]), rank(it[1])))
    return condition


def add(found: list[Condition], condition: Condition, is_own: bool) -> None:
    """Adds a condition, unless it follows from one that is there already; those that follow from it
    go. Those of two calls of one operation say the same with the two exchanged. Where one is there
    that says the same, this one has the same list of rules. Beyond `MOST_COMPARED` conditions, of
    which no design has that many, none is compared but with the one that always holds."""

    def follows(one: Condition, other: Condition) -> bool:
        return one.implies(other) or (is_own and one.implies(other, swapped=True))

    if not condition.equalities:
        found[:] = [condition]
    for known in found[:MOST_COMPARED]:
        if follows(condition, known):
            if follows(known, condition):
                condition.rules = known.rules
            return
    if len(found) < MOST_COMPARED:
        found[:] = [it for it in found if not follows(it, condition)]
    found.append(condition)


def add_rule(condition: Condition, number: int) -> None:
    if number not in condition.rules:
        condition.rules.append(number)


def short(found: list[Condition]) -> list[str]:
    """Conditions in a few words, a row for each: `same p, q`, `or p = q`; `at once` where there is
    none, `always` where one asks nothing."""
    if not found:
        return ["at once"]
    if not found[0].equalities:
        return ["always"]
    rows = [("or " if at else "") + it.short() for at, it in enumerate(found)]
    return (
        rows
        if len(rows) <= MOST_TOLD
        else rows[: MOST_TOLD - 1] + [f"or {len(rows) - MOST_TOLD + 1} more"]
    )


def sentence(found: list[Condition], f: str, g: str) -> str:
    """Conditions as a sentence without its full stop."""
    if not found:
        return "never ordered: both may run at once"
    if not found[0].equalities:
        return "always ordered"
    told = [
        it.sentence(f, g) for it in (found if len(found) <= MOST_TOLD else found[: MOST_TOLD - 1])
    ]
    return (
        "ordered where "
        + ", or where ".join(told)
        + (f", or in {len(found) - len(told)} more cases" if len(told) < len(found) else "")
    )


class Pair:
    """Two operations, `f` no later than `g`: the `blocks` that are about both, and the `conditions`
    on which their calls are ordered."""

    def __init__(self, spec: Spec, f: str, g: str) -> None:
        self.f, self.g, self.conditions = f, g, conditions(spec, f, g)
        self.blocks: list[Block] = []

    def name(self) -> str:
        return f"{self.f} || {self.g}"

    def id(self) -> str:
        return f"pair-{self.f}-{self.g}"

    def state(self) -> str:
        """refuted, undecided, ordered or proved: the first that fits."""
        verdicts = {it.verdict for it in self.blocks}
        for it in ("refuted", "undecided"):
            if it in verdicts:
                return it
        return "ordered" if self.conditions else "proved"

    def short(self) -> list[str]:
        return short(self.conditions)

    def follows(self, one: Condition, other: Condition) -> bool:
        """Whether one condition on this pair's calls implies another. Two calls of one operation
        may be exchanged."""
        return one.implies(other) or (self.f == self.g and one.implies(other, swapped=True))

    def within(self, condition: Condition) -> bool:
        """Whether calls that are ordered always meet a condition."""
        return all(self.follows(it, condition) for it in self.conditions)

    def covers(self, condition: Condition) -> bool:
        """Whether calls that meet a condition are always ordered."""
        return any(self.follows(condition, it) for it in self.conditions)

    def says(self) -> str:
        """The state in a sentence: how many obligations are refuted or undecided, and on what the
        two are ordered."""
        ordered = sentence(self.conditions, self.f, self.g)
        if self.state() not in ("refuted", "undecided"):
            return "proved; " + ordered
        count = sum(it.verdict == self.state() for it in self.blocks)
        return f"{self.state()}, {count} of {len(self.blocks)}" + (
            ", though " + ordered if self.conditions else ""
        )


def pairs(spec: Spec, blocks: Sequence[Block] = ()) -> dict[tuple[str, str], Pair]:
    """For each two operations, in both orders, their one `Pair`. Blocks of a report are handed to
    their pairs."""
    found, operations = {}, list(spec.operations)
    for at, f in enumerate(operations):
        for g in operations[at:]:
            found[f, g] = found[g, f] = Pair(spec, f, g)
    for it in blocks:
        if it.pair():
            found[given(it.pair())].blocks.append(it)
    return found


class Advice:
    """What a suggestion says of a pair. `word` is needed, free or unknown; `enough` are the
    conditions of its lines `by`, `little` those of its lines `notby`."""

    def __init__(self, suggested: SuggestedPair) -> None:
        self.word = suggested.word
        self.enough, self.little = [
            [
                Condition([(("f", it.left), ("g", it.right))])
                for it in suggested.answers
                if it.word == word
            ]
            for word in ("by", "notby")
        ]

    def group(self, pair: Pair) -> str | None:
        """The group of `GROUPS` in which a pair stands, or None for one that is free and isn't
        ordered."""
        if self.word != "needed":
            return (
                f"{self.word}, ordered"
                if pair.conditions
                else "unknown"
                if self.word == "unknown"
                else None
            )
        if not pair.conditions:
            return "missing"
        if any(pair.within(it) for it in self.little):
            return "little"
        return (
            "more"
            if self.least(pair) and not any(pair.within(it) for it in self.enough)
            else "needed"
        )

    def least(self, pair: Pair) -> list[Condition]:
        """The equalities that are enough and that the pair is ordered on already."""
        return [it for it in self.enough if pair.covers(it)]

    def words(self, pair: Pair) -> str:
        """What there is to say of a pair, behind its name."""
        group, on = self.group(pair), " ".join(pair.short())
        said = [on] if pair.conditions else []
        if group == "missing":
            said.append(
                either(self.enough) if self.enough else "no single equality is known to be enough"
            )
        elif group == "more":
            said.append(either(self.least(pair)))
        elif group == "needed" and pair.conditions[0].equalities and not self.least(pair):
            said.append("check says whether that is enough")
        rules = sorted({it for condition in pair.conditions for it in condition.rules})
        if rules:
            said.append(
                f"{'rule' if len(rules) == 1 else 'rules'} at line {', '.join(map(str, rules))}"
            )
        return "; ".join(said)


def either(found: list[Condition]) -> str:
    """That one of some equalities is enough, as words."""
    alone = " alone" if len(found) > 1 else ""
    return f"{' or '.join(it.short() + alone for it in found)} is enough"


# The groups of pairs, in the order in which they stand in the text.
GROUPS = {
    "missing": "Have to be ordered, and aren't:",
    "little": "Are ordered, on too little:",
    "needed": "Are ordered, and have to be:",
    "more": "Are ordered, on more than they have to be:",
    "free, ordered": "Are ordered needlessly, since they may run at once:",
    "unknown, ordered": "Are ordered; whether they have to be is undecided:",
    "unknown": "Aren't ordered; whether they have to be is undecided:",
}


def answer(path: str) -> tuple[int, str]:
    """The status of the program's suggestion, and a text that compares it with the order that the
    specification has."""
    status, text = program.answer("suggest", path)
    return status, compared(Spec(text_of(path)), Suggestion(text))


def compared(spec: Spec, suggestion: Suggestion) -> str:
    """Each pair of operations with its order, in groups, and how many there are."""
    found = [(Pair(spec, it.left, it.right), Advice(it)) for it in suggestion.pairs]
    lines = []
    for group, head in GROUPS.items():
        rows = [
            (pair.name(), advice.words(pair))
            for pair, advice in found
            if advice.group(pair) == group
        ]
        if rows:
            lines += [head, *table(rows, 2), ""]
    groups = [advice.group(pair) for pair, advice in found]
    ordered, missing = sum(bool(pair.conditions) for pair, _ in found), groups.count("missing")
    count = (
        f"{len(found)} {'pair' if len(found) == 1 else 'pairs'}: {ordered} ordered,"
        f" {groups.count('free, ordered')} of them needlessly"
    )
    lines += wrapped(ORIGIN) + [
        "",
        f"{count}; {missing} not ordered that {'has' if missing == 1 else 'have'} to be",
    ]
    return "\n".join(lines) + "\n"
