"""Tokens, conflict rules and takes lines for pairs of operations that are to be ordered.

An operation takes one token of its own, whose places are the parameters on which it is ordered with
any other; where these are more than three it takes several. A rule for each pair says which places
are equal. So a rule speaks of one pair alone, and pairs that need no order get none. Operations
whose tokens stand in the same rules share one token: this orders no other pair."""
from __future__ import annotations

from typing import Iterator, Sequence

from view.tree import Spec
from view.words import RESERVED, RESERVED_IN_2, Word

MOST_PLACES, MOST_LETTERS = 3, 32


class Order:
    """Two operations that are to be ordered where one of the `alternatives` holds. An alternative
    is a list of equalities (parameter of `f`, parameter of `g`); the empty one always holds."""

    def __init__(self, f: str, g: str, alternatives: list[list[tuple[str, str]]]) -> None:
        self.f, self.g, self.alternatives = f, g, alternatives


class Token:
    """A token that is taken by operations, by each at as many parameters: `takers` are pairs
    (operation, parameters)."""

    def __init__(self, operation: str, params: list[Word], sorts: list[Word]) -> None:
        self.takers, self.sorts, self.name = [(operation, params)], sorts, ""


class Rule:
    """Two tokens and the numbers of the variables at their places, in the order in which they first
    stand; equal places have one number."""

    def __init__(
        self,
        left: Token,
        right: Token,
        left_places: Sequence[tuple[str, str] | int],
        right_places: Sequence[tuple[str, str] | int],
    ) -> None:
        numbers: dict[tuple[str, str] | int, int] = {}
        self.left, self.right = left, right
        self.left_places, self.right_places = [
            tuple(numbers.setdefault(it, len(numbers)) for it in places)
            for places in (left_places, right_places)
        ]

    def forms(self) -> list[tuple[Token, Token, tuple[int, ...], tuple[int, ...]]]:
        """The rule as a value, seen from either of its tokens."""
        turned = Rule(self.right, self.left, self.right_places, self.left_places)
        return [(it.left, it.right, it.left_places, it.right_places) for it in (self, turned)]


class Tokens:
    """The tokens and rules of orders, over a specification."""

    def __init__(self, spec: Spec, orders: list[Order]) -> None:
        self.spec = spec
        self.tokens: list[Token] = []
        self.rules: list[Rule] = []
        # The rules as values, seen from either of their tokens; the sets of parameters of each
        # operation, and the token of each such set.
        self.forms: set[tuple[Token, Token, tuple[int, ...], tuple[int, ...]]] = set()
        self.own: dict[str, list[set[str]]] = {}
        self.known: dict[tuple[str, tuple[Word, ...]], Token] = {}
        for it in orders:
            for alternative in it.alternatives:
                self.need(it.f, {p for p, _ in alternative})
                self.need(it.g, {q for _, q in alternative})
        for it in orders:
            for alternative in it.alternatives:
                self.rule(it.f, it.g, alternative)
        while self.share():
            pass
        place = {it: at for at, it in enumerate(spec.operations)}
        self.tokens.sort(key=lambda it: place[it.takers[0][0]])
        self.name()

    def params(self, operation: str) -> list[Word]:
        return [it for it, _ in self.spec.operations[operation].params]

    def need(self, operation: str, params: set[str]) -> None:
        """Sees to it that one of an operation's sets of parameters holds these."""
        sets = self.own.setdefault(operation, [])
        fitting = next((it for it in sets if len(it | params) <= MOST_PLACES), None)
        if fitting is None:
            sets.append(set(params))
        else:
            fitting |= params

    def token(self, operation: str, params: set[str]) -> Token:
        """The operation's token whose places hold these parameters."""
        held = next(it for it in self.own[operation] if params <= it)
        places = [it for it in self.params(operation) if it in held]
        key = operation, tuple(places)
        if key not in self.known:
            sorts = dict(self.spec.operations[operation].params)
            self.known[key] = Token(operation, places, [sorts[it] for it in places])
            self.tokens.append(self.known[key])
        return self.known[key]

    def rule(self, f: str, g: str, alternative: list[tuple[str, str]]) -> None:
        left, right = self.token(f, {p for p, _ in alternative}), self.token(
            g, {q for _, q in alternative}
        )
        groups: dict[tuple[str, str], tuple[str, str]] = {}

        def of(it: tuple[str, str]) -> tuple[str, str]:
            while it in groups:
                it = groups[it]
            return it

        for p, q in alternative:
            if of(("f", p)) != of(("g", q)):
                groups[of(("g", q))] = of(("f", p))
        self.add(
            Rule(
                left,
                right,
                [of(("f", it)) for it in left.takers[0][1]],
                [of(("g", it)) for it in right.takers[0][1]],
            )
        )

    def add(self, rule: Rule) -> None:
        forms = rule.forms()
        if forms[0] not in self.forms:
            self.rules.append(rule)
            self.forms.update(forms)

    def share(self) -> bool:
        """Lets two tokens be one where they stand in the same rules, and says whether there were
        any."""
        rules_of: dict[Token, set[tuple[Token, tuple[int, ...], tuple[int, ...]]]] = {
            it: set() for it in self.tokens
        }
        for token, second, own, others in self.forms:
            rules_of[token].add((second, own, others))
        for at, one in enumerate(self.tokens):
            for other in self.tokens[at + 1 :]:
                if one.sorts == other.sorts and are_alike(one, other, rules_of):
                    self.join(one, other)
                    return True
        return False

    def join(self, one: Token, other: Token) -> None:
        """Lets a token be another one too."""
        place = {it: number for number, it in enumerate(self.spec.operations)}
        one.takers = sorted(one.takers + other.takers, key=lambda it: place[it[0]])
        self.tokens.remove(other)
        rules, self.rules, self.forms = self.rules, [], set()
        for it in rules:
            left, right = [one if token is other else token for token in (it.left, it.right)]
            self.add(Rule(left, right, it.left_places, it.right_places))

    def name(self) -> None:
        """Names the tokens by what they are: whose calls they order, and of what."""
        taken = {str(it) for it in self.spec.words} | RESERVED | RESERVED_IN_2
        for token in self.tokens:
            calls = "_or_".join(str(operation) for operation, _ in token.takers)
            places = "_".join(self.place_name(token, at) for at in range(len(token.sorts)))
            told = {self.place_name(token, at) for at in range(len(token.sorts))} <= set(
                calls.split("_")
            )
            whole = (
                f"any_{calls}" if not places else f"{calls}_token" if told else f"{calls}_{places}"
            )
            first = token.takers[0][0]
            others = [f"{first}_and_others"] if len(token.takers) > 1 else []
            names = [
                whole,
                f"{calls}_calls",
                *others,
                f"{first[: MOST_LETTERS - len('_calls')]}_calls",
            ]
            token.name = next(
                it for it in numbered(names) if it not in taken and len(it) <= MOST_LETTERS
            )
            taken.add(token.name)

    def place_name(self, token: Token, at: int) -> str:
        """The sort of a place; or the parameter, where an operation has two of that sort."""
        params = {places[at] for _, places in token.takers}
        twice = any(
            [kind for _, kind in self.spec.operations[it].params].count(token.sorts[at]) > 1
            for it, _ in token.takers
        )
        return str(params.pop()) if twice and len(params) == 1 else token.sorts[at].lower()

    def variables(self, rule: Rule) -> list[list[str]]:
        """The names of a rule's variables: parameters of its operations where these differ."""
        used = {
            str(it)
            for it in [
                *self.spec.sorts,
                *self.spec.consts,
                *self.spec.relations,
                *self.spec.counters,
                *self.spec.tokens,
            ]
        }
        used |= {str(it) for it in [*self.spec.invariants, *self.spec.operations]} | {
            it.name for it in self.tokens
        }
        names: dict[int, str] = {}
        for token, places in ((rule.left, rule.left_places), (rule.right, rule.right_places)):
            for param, number in zip(token.takers[0][1], places):
                if number not in names:
                    names[number] = next(
                        it
                        for it in numbered([str(param)])
                        if it not in used and len(it) <= MOST_LETTERS
                    )
                    used.add(names[number])
        return [[names[it] for it in places] for places in (rule.left_places, rule.right_places)]


def are_alike(
    one: Token,
    other: Token,
    rules_of: dict[Token, set[tuple[Token, tuple[int, ...], tuple[int, ...]]]],
) -> bool:
    """Whether two tokens stand in the same rules with each third one, and with each other as each
    with itself. Of each token there are its rules, as the other token and the places of both."""
    both = (one, other)
    outside = [{it for it in rules_of[token] if it[0] not in both} for token in both]
    if outside[0] != outside[1]:
        return False
    within = [
        {it[1:] for it in rules_of[a] if it[0] is b}
        for a, b in ((one, one), (other, other), (one, other))
    ]
    return within[0] == within[1] == within[2]


def numbered(names: list[str]) -> Iterator[str]:
    """The names, and then the last of them with numbers behind it."""
    yield from names
    number = 2
    while True:
        tail = f"_{number}"
        yield names[-1][: MOST_LETTERS - len(tail)] + tail
        number += 1
