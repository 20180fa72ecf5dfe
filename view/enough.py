"""On which equalities two calls have to be ordered, so that nothing breaks: found by the program,
which tries each proposal on a specification with these two operations alone. The obligations of
two operations speak of no other one.

Where `suggest` has lines `by` for a pair, every breaking pair of calls satisfies all of them, so
all together are enough and order least. Where it has none, no one equality is enough. Then two to
four equalities may be, of which one has to hold; and each may be joined with others, as long as
the pair stays proved. Each refutation shows two calls that have to be ordered, so it rules out all
proposals that leave them apart. Where no proposal is enough, all calls of the two are ordered."""
from __future__ import annotations

import itertools
from typing import Callable, Dict, List, Optional, Sequence, Tuple

from view import program
from view.edits import with_tokens
from view.given import given
from view.report import Block, Report, SuggestedPair
from view.tokens import MOST_PLACES, Order, Tokens
from view.tree import Operation, Spec

MOST_ALTERNATIVES, MOST_TRIALS, MOST_FOR_UNDECIDED = 4, 40, 8
# So many runs of the program are made at most for all pairs together.
MOST_RUNS = 1000
# An equality is a parameter of f and one of g; an alternative holds where all its equalities do,
# and calls are ordered where an alternative holds.
Equality = Tuple[str, str]
Alternatives = List[List[Equality]]
Calls = Tuple[Dict[str, int], Dict[str, int]]


class Trials:
    """What the program said of proposals, for all pairs of a specification. Of two operations it
    answers by what they do and not by their names, so that of pairs that are alike one is tried.
    `left` says how many runs may still be made; `told` is called before each. `cut` are the pairs
    of which not all proposals were tried, each with how many were."""

    def __init__(
        self, spec: Spec, most: int = MOST_RUNS, told: Callable[[int], None] = lambda left: None
    ) -> None:
        self.spec, self.left, self.told = spec, most, told
        self.cut: List[Tuple[str, str, int]] = []
        self.known: Dict[object, Tuple[bool, List[Calls]]] = {}
        self.found: Dict[object, Alternatives] = {}

    def answer(self, f: str, g: str, alternatives: Alternatives) -> Tuple[bool, List[Calls]]:
        """Whether all obligations of a pair are proved where it is ordered so, and the calls of
        its refutations."""
        key = (
            does(self.spec.operations[f]),
            does(self.spec.operations[g]),
            f == g,
            str(alternatives),
        )
        if key not in self.known:
            self.left -= 1
            self.told(self.left)
            self.known[key] = self.run(f, g, alternatives)
        return self.known[key]

    def run(self, f: str, g: str, alternatives: Alternatives) -> Tuple[bool, List[Calls]]:
        """The same by a run of the program."""
        others = [it for it in self.spec.operations if it not in (f, g)]
        text = with_tokens(self.spec, Tokens(self.spec, [Order(f, g, alternatives)]), others)
        status, report = program.run_on(text, "check")
        if status not in (0, 1, 5):
            return False, []
        blocks = [it for it in Report(report).blocks if set(it.pair() or ()) == {f, g}]
        refuted = [calls_of(self.spec, f, g, it) for it in blocks if it.verdict == "refuted"]
        return all(it.verdict == "proved" for it in blocks), refuted


def does(operation: Operation) -> Tuple[str, ...]:
    """What an operation does, without its name."""
    return tuple(f"{it} : {sort}" for it, sort in operation.params) + tuple(
        it.text for it in operation.lines
    )


def calls_of(spec: Spec, f: str, g: str, block: Block) -> Calls:
    """The call of f and that of g in a refutation."""
    calls: Dict[str, Dict[str, int]] = {}
    for side, (operation, arguments) in zip(
        ("f", "g") if given(block.pair())[0] == f else ("g", "f"), given(block.witness).calls
    ):
        calls[side] = dict(zip((str(it) for it, _ in spec.operations[operation].params), arguments))
    return calls["f"], calls["g"]


class Search:
    """Looks for the order of one pair of operations. `breaking` are pairs of calls that have to be
    ordered."""

    def __init__(self, spec: Spec, f: str, g: str, trials: Optional[Trials] = None) -> None:
        self.f, self.g, self.trials, self.count = f, g, trials or Trials(spec), 0
        self.breaking: List[Calls] = []
        self.is_own = f == g
        sides = [
            [(it, kind) for it, kind in spec.operations[name].params if kind != "int"]
            for name in (f, g)
        ]
        self.equalities = [(p, q) for (p, a), (q, b) in itertools.product(*sides) if a == b]
        # A bit for each equality, and for each breaking pair of calls the bits of those that hold:
        # of two calls of one operation also with the calls exchanged.
        self.bits = {it: 1 << at for at, it in enumerate(self.equalities)}
        self.holding: List[List[int]] = []
        if self.is_own:
            # Two calls of one operation may be exchanged, so p = q says the same as q = p.
            place = {it: at for at, (it, _) in enumerate(sides[0])}
            self.equalities = [(p, q) for p, q in self.equalities if place[p] <= place[q]]

    def learn(self, calls: Calls) -> None:
        """Keeps two calls that have to be ordered."""
        turned = [(calls[1], calls[0])] if self.is_own else []
        holding = [
            sum(bit for (p, q), bit in self.bits.items() if a[p] == b[q])
            for a, b in [calls, *turned]
        ]
        if holding not in self.holding:
            self.breaking.append(calls)
            self.holding.append(holding)

    def orders_all(self, alternatives: Sequence[Sequence[Equality]]) -> bool:
        """Whether all breaking calls are ordered by these alternatives."""
        wanted = [sum(self.bits[it] for it in {*alternative}) for alternative in alternatives]
        return all(
            any(it & bits == bits for bits in wanted for it in holding) for holding in self.holding
        )

    def is_over(self) -> bool:
        """Whether no more is tried."""
        return self.count >= MOST_TRIALS or self.trials.left <= 0

    def is_enough(self, alternatives: Alternatives) -> bool:
        """Whether the program proves all obligations of the pair when it is ordered so."""
        if not self.orders_all(alternatives):
            return False
        self.count += 1
        is_proved, refuted = self.trials.answer(self.f, self.g, alternatives)
        for it in refuted:
            self.learn(it)
        return is_proved

    def found_for_undecided(self) -> Optional[Alternatives]:
        """The same for a pair of which nothing is refuted: one equality, else always, else None
        where even that isn't enough."""
        if not self.is_enough([[]]):
            return None
        tried = self.equalities[: 0 if self.trials.left <= 0 else MOST_FOR_UNDECIDED]
        return next(([[it]] for it in tried if self.is_enough([[it]])), [[]])

    def found_once(self) -> Alternatives:
        """What was found for a pair that does the same, and of which the same is known; else what
        is found."""
        operations = self.trials.spec.operations
        key = does(operations[self.f]), does(operations[self.g]), self.is_own, str(self.holding)
        if key not in self.trials.found:
            cut = len(self.trials.cut)
            found = self.found()
            if len(self.trials.cut) > cut:
                return found
            self.trials.found[key] = found
        return self.trials.found[key]

    def found(self) -> Alternatives:
        """The alternatives on which the pair is to be ordered: one of several equalities where
        such are enough, else always."""
        singles: Alternatives = [[it] for it in self.equalities]
        for count in range(1, MOST_ALTERNATIVES + 1 if self.orders_all(singles) else 1):
            for chosen in itertools.combinations(self.equalities, count):
                bits = sum(self.bits[it] for it in chosen)
                if not all(any(it & bits for it in holding) for holding in self.holding):
                    continue
                if self.is_over():
                    self.trials.cut.append((self.f, self.g, self.count))
                    return [[]]
                alternatives = [[it] for it in chosen]
                if self.is_enough(alternatives):
                    return self.joined(alternatives)
                if not self.orders_all(singles):
                    return [[]]
        return [[]]

    def joined(self, alternatives: Alternatives) -> Alternatives:
        """The same, where each alternative is joined with all equalities with which the pair stays
        proved, so that less is ordered."""
        for at, alternative in enumerate(alternatives):
            for equality in self.equalities + [
                (q, p) for p, q in self.equalities if self.is_own and p != q
            ]:
                longer = alternative + [equality]
                sides = [{it[side] for it in longer} for side in (0, 1)]
                if (
                    equality in alternative
                    or max(map(len, sides)) > MOST_PLACES
                    or self.count >= 2 * MOST_TRIALS
                    or self.trials.left <= 0
                ):
                    continue
                tried = alternatives[:at] + [longer] + alternatives[at + 1 :]
                if self.is_enough(tried):
                    alternatives, alternative = tried, longer
        return alternatives


def by_lines(pair: SuggestedPair) -> list[tuple[str, str]]:
    """All equalities that a suggestion says to be enough, as far as a token has places for them."""
    found: list[tuple[str, str]] = []
    for it in pair.answers:
        longer = found + [(it.left, it.right)]
        if it.word == "by" and all(
            len({equality[side] for equality in longer}) <= MOST_PLACES for side in (0, 1)
        ):
            found = longer
    return found


def order_of(spec: Spec, pair: SuggestedPair, trials: Optional[Trials] = None) -> Optional[Order]:
    """The order that a pair of a suggestion needs, as the program's answers have it, or None where
    no order is enough. For a pair of `by` lines no run is needed: what they say together is
    proved, and `mend` has the whole text checked anyhow."""
    together = by_lines(pair)
    if together and pair.left != pair.right:
        return Order(pair.left, pair.right, [together])
    search = Search(spec, pair.left, pair.right, trials)
    if pair.word == "unknown":
        found = search.found_for_undecided()
        return Order(pair.left, pair.right, found) if found else None
    if together:
        # Of two calls of one operation p = q may hold with the calls exchanged, so that two such
        # lines needn't hold the same way round.
        alike = [it for it in together if it[0] == it[1]]
        for alternative in [it for it in (together, alike, together[:1]) if it]:
            if alternative == alike or search.is_enough([alternative]):
                return Order(pair.left, pair.right, [alternative])
    if not spec.tokens:
        for block in [pair.block] + [it.block for it in pair.answers]:
            if block and block.verdict == "refuted":
                search.learn(calls_of(spec, pair.left, pair.right, block))
    return Order(pair.left, pair.right, search.found_once())
