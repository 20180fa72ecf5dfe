"""Random specifications for tests. They are well typed, and small enough to be checked in a
moment."""
from __future__ import annotations

from random import Random

from view.given import given


SORTS = ("User", "Room")


class Design:
    """A random specification; `text` is it. All choices are made by `random`, a `random.Random`. An
    operation has at most `most_takings` takes lines, and there is at most one rule more."""

    def __init__(self, random: Random, version: int = 2, most_takings: int = 2) -> None:
        self.random, self.version, self.most_takings = random, version, most_takings
        self.consts = {f"c{at}": random.choice(SORTS) for at in range(random.randrange(3))}
        self.relations = {f"r{at}": self.places(3) for at in range(random.randrange(1, 4))}
        self.counters = {f"k{at}": self.places(2) for at in range(random.randrange(1, 3))}
        self.tokens = {f"t{at}": self.places(2) for at in range(random.randrange(1, 4))}
        lines = (
            [f"cise {version}"]
            + [f"sort {it}" for it in SORTS]
            + [f"const {it} : {sort}" for it, sort in self.consts.items()]
        )
        for kind, things in (
            ("relation", self.relations),
            ("counter", self.counters),
            ("token", self.tokens),
        ):
            lines += [f"{kind} {it}{bracketed(places)}" for it, places in things.items()]
        lines += [f"initially {it} true" for it in self.relations if random.random() < 0.2]
        lines += [
            f"initially {it} {random.randrange(-2, 3)}"
            for it in self.counters
            if random.random() < 0.2
        ]
        lines += [self.rule() for _ in range(random.randrange(most_takings + 2))]
        lines += [
            f"invariant i{at} {self.prefixed({}, ('forall', ''))}"
            for at in range(random.randrange(3))
        ]
        for at in range(random.randrange(1, 4)):
            lines += self.operation(f"f{at}")
        self.text = "\n".join(lines) + "\n"

    def places(self, most: int) -> list[str]:
        return [self.random.choice(SORTS) for _ in range(self.random.randrange(most + 1))]

    def rule(self) -> str:
        """A rule of two tokens, whose variables stand at places of one sort each."""
        left, right = self.random.choice(list(self.tokens)), self.random.choice(list(self.tokens))
        patterns = []
        for token in (left, right):
            patterns.append(
                f"{token}{bracketed([self.random.choice('xxxy') + sort for sort in self.tokens[token]])}"
            )
        return f"conflict {patterns[0]} {patterns[1]}"

    def operation(self, name: str) -> list[str]:
        params = {
            f"p{at}": self.random.choice((*SORTS, "int")) for at in range(self.random.randrange(6))
        }
        lines = [
            f"  requires {self.prefixed(params, ('forall', 'exists', ''))}"
            for _ in range(self.random.randrange(3))
        ]
        if self.version == 2 and self.random.random() < 0.3:
            lines.append(f"  observes {self.prefixed(params, ('forall', 'exists', ''))}")
        lines += [self.update(params) for _ in range(self.random.randrange(4))]
        lines += [
            it
            for it in (
                self.taking(params) for _ in range(self.random.randrange(self.most_takings + 1))
            )
            if it
        ]
        return [
            f"operation {name}{bracketed([f'{it} : {sort}' for it, sort in params.items()])}",
            *lines,
            "end",
        ]

    def taking(self, params: dict[str, str]) -> str | None:
        token = self.random.choice(list(self.tokens))
        found = self.reading(token, self.tokens[token], params)
        mode = self.random.choice(("", " shared", " exclusive")) if self.version == 2 else ""
        return f"  takes {found}{mode}" if found else None

    def update(self, params: dict[str, str]) -> str:
        guard = f" when {self.formula(params, 1)}" if self.random.random() < 0.25 else ""
        if self.random.random() < 0.6:
            thing = self.random.choice(list(self.relations))
            return f"  {self.random.choice(('insert', 'remove'))} {self.reading(thing, self.relations[thing], params, '*')}{guard}"
        thing = self.random.choice(list(self.counters))
        return f"  {self.random.choice(('add', 'set'))} {self.reading(thing, self.counters[thing], params, '*')} {self.term(params)}{guard}"

    def prefixed(self, scope: dict[str, str], prefixes: tuple[str, ...]) -> str:
        prefix = self.random.choice(prefixes)
        if not prefix:
            return self.formula(scope, 2)
        chosen = {f"v{at}": self.random.choice(SORTS) for at in range(self.random.randrange(1, 4))}
        return (
            f"{prefix} {' , '.join(f'{it} : {sort}' for it, sort in chosen.items())} ."
            f" {self.formula({**scope, **chosen}, 2)}"
        )

    def formula(self, scope: dict[str, str], depth: int) -> str:
        kind = self.random.choice(
            ("and", "or", "implies", "not")
            if depth and self.random.random() < 0.6
            else ("holds", "compare", "same")
        )
        if kind == "not":
            return f"not {self.formula(scope, depth - 1)}"
        if kind in ("and", "or", "implies"):
            return f"( {self.formula(scope, depth - 1)} {kind} {self.formula(scope, depth - 1)} )"
        known = {**scope, **self.consts}
        if kind == "same":
            sort = self.random.choice(SORTS)
            named = [it for it, its in known.items() if its == sort]
            if named:
                return f"( {self.random.choice(named)} {self.random.choice(('=', '!='))} {self.random.choice(named)} )"
        if kind == "holds":
            thing = self.random.choice(list(self.relations))
            found = self.reading(thing, self.relations[thing], scope)
            if found:
                return found
        # A number stands first, so that no two names alone are compared.
        return (
            f"( {self.random.randrange(3)} +"
            f" {self.term(scope)} {self.random.choice(('=', '!=', '<', '<=', '>', '>='))} {self.term(scope)} )"
        )

    def term(self, scope: dict[str, str]) -> str:
        parts = [it for it, sort in scope.items() if sort == "int"]
        for thing, places in self.counters.items():
            found = self.reading(thing, places, scope)
            parts += [found] if found else []
        part = self.random.choice([str(self.random.randrange(3)), *parts])
        return f"{self.random.choice(('', '2 * ')) if not part.isdigit() else ''}{part}"

    def reading(
        self, thing: str, places: list[str], scope: dict[str, str], other: str | None = None
    ) -> str | None:
        """A thing at names that are known; at `other` where there is none, or None where that isn't
        given either."""
        known = {**scope, **self.consts}
        spots: list[str] = []
        for sort in places:
            named = [it for it, its in known.items() if its == sort]
            if not named and other is None:
                return None
            spots.append(
                given(other)
                if not named or (other and self.random.random() < 0.2)
                else self.random.choice(named)
            )
        return thing + bracketed(spots)


def bracketed(parts: list[str]) -> str:
    return f" ( {' , '.join(parts)} )" if parts else ""
