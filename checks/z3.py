#!/usr/bin/env python3
"""Compares the checker with z3 on the same obligations: the verdicts, and the processor time of
each.

Run at the top of the repository, once `./cise` has built the program, with `z3` on the path:

    checks/z3.py examples/bank/refuted.cise examples/bank/accepted.cise 12 r7

    checks/z3.py --table [--all] [FILE..]

The second prints a table of processor seconds, of one run for a whole specification: of all
specifications of examples/ and cases/, of the one that `sample 12` checks and of 70 generated ones,
or of those that are given. A row has two ratios, of Z3 by the encoding `alone` and by the fastest
of all; where the second is the least stands first. Twelve rows are printed and the rest is told in
a line; with `--all` all rows are printed. Below, a line for each ratio says on how many files Z3 is
faster, and the geometric mean, with and without the starts of both: of all files, and of the
generated ones and the others apart. `sample 12` is one of the others.

The checker and Z3 take turns, and of some runs the least counts. `alone` runs as often as the
checker, and other encodings until they have taken more than twice as long as the fastest. None runs
again that has taken more than 20 seconds by the clock. Where that was the first run of `alone`, the
row has the second ratio only; where it was that of each, the specification is left out and named.
Both commands end with status 1 where two verdicts contradict.

A word that is a number N stands for the specification that `sample N` checks, and `rN` for the one
that is generated from the seed N: `r1` to `r30` are those of the table. They have 275 to 1,717
obligations over one to three sorts, some relations and counters, with up to 14 operations. Other
letters stand for other families (FAMILIES), of which the table has eight each.

Each obligation becomes one SMT-LIB problem, which can be satisfied where something breaks the
obligation as docs/embedders/RULE.md says: sorts are uninterpreted sorts, relations predicates,
counters functions to the integers, quantifiers stand as they are, and what is read after a call is
a defined function of what was read before it. No encoding has predicates for sorts. z3 gets all
problems of a specification in one run, by several encodings (ENCODINGS); and where there is no
table, each problem in a run of its own too. This isn't part of any proof. A sort of z3 is never
empty, so what breaks only with an empty sort isn't found.
"""
from __future__ import annotations

import collections
import dataclasses
import glob
import itertools
import os
import random
import resource
import statistics
import subprocess
import sys
import tempfile
from typing import Any, Callable, Iterator, Sequence

sys.path.insert(0, os.path.dirname(os.path.dirname(os.path.realpath(__file__))))
from launch import allocator  # noqa: E402
from view import program  # noqa: E402
from view.formulas import Formula, Reading, Term  # noqa: E402
from view.given import given  # noqa: E402
from view.report import Report  # noqa: E402
from view.tree import UPDATES, Line, Operation, Spec  # noqa: E402
from view.words import Word, text_of  # noqa: E402

CONNECTIVES = {"and": "and", "or": "or", "implies": "=>"}
ASK = "(check-sat)"
VERDICTS = {"unsat": "proved", "sat": "refuted"}


def written(value: int) -> str:
    return str(value) if value >= 0 else f"(- {-value})"


def asserted(formula: str) -> str:
    return f"(assert {formula})"


def applied(name: str, args: list[str] | dict[str, Word]) -> str:
    return f"(|{name}| {' '.join(args)})" if args else f"|{name}|"


def joined(connective: str, parts: list[str], none: str) -> str:
    return f"({connective} {' '.join(parts)})" if len(parts) > 1 else parts[0] if parts else none


def declared(term: str, sort: Word) -> str:
    return f"(declare-const {term} {'Int' if sort == 'int' else f'|s.{sort}|'})"


def variables(letter: str, sorts: list[Word]) -> dict[str, Word]:
    """A variable for each of these sorts: the sorts by the variables."""
    return {f"|{letter}{i}|": sort for i, sort in enumerate(sorts)}


def heads(variables: dict[str, Word]) -> str:
    return " ".join(f"({variable} |s.{sort}|)" for variable, sort in variables.items())


def quantified(prefix: str | None, variables: dict[str, Word], body: str) -> str:
    return f"({prefix} ({heads(variables)}) {body})" if variables else body


class Problems:
    """The problems of a specification. A scope gives the term and the sort of each parameter and
    variable; a state the name of the function by which a thing is read, where it isn't the first
    one. `lines` are those of the obligation that is being written.
    """

    def __init__(self, spec: Spec) -> None:
        self.spec = spec
        self.lines: list[str] = []
        self.places = {**spec.relations, **spec.counters}
        self.kind = {name: "Bool" if name in spec.relations else "Int" for name in self.places}

    def element(self, scope: dict[Word, tuple[str, Word]], word: Word) -> str:
        return scope[word][0] if word in scope else f"|c.{word}|"

    def before(self, state: dict[Word, str], name: Word, args: list[str] | dict[str, Word]) -> str:
        return applied(state.get(name, f"t.{name}"), args)

    def read(
        self,
        state: dict[Word, str],
        scope: dict[Word, tuple[str, Word]],
        reading: Reading,
    ) -> str:
        _, name, args = reading
        if not args and name in scope:
            return scope[name][0]
        return self.before(state, name, [self.element(scope, a) for a in args])

    def is_element(
        self,
        scope: dict[Word, tuple[str, Word]],
        term: list[tuple[int, tuple[str, Word, list[Any]]]],
    ) -> bool:
        coefficient, reading = term[0]
        word = (
            reading[1]
            if len(term) == 1 and coefficient == 1 and reading and not reading[2]
            else None
        )
        return scope[word][1] != "int" if word in scope else word in self.spec.consts

    def term(
        self,
        state: dict[Word, str],
        scope: dict[Word, tuple[str, Word]],
        term: Term,
    ) -> str:
        return joined(
            "+",
            [
                written(c) if r is None else f"(* {written(c)} {self.read(state, scope, r)})"
                for c, r in term
            ],
            "0",
        )

    def formula(
        self,
        state: dict[Word, str],
        scope: dict[Word, tuple[str, Word]],
        f: Formula,
    ) -> str:
        if f[0] == "reading":
            return self.read(state, scope, f)
        if f[0] == "not":
            return f"(not {self.formula(state, scope, f[1])})"
        if f[0] != "compare":
            return joined(
                given(CONNECTIVES.get(f[0])), [self.formula(state, scope, g) for g in f[1:]], f[0]
            )
        sign, sides = f[1], f[2:]
        if sign in ("=", "!=") and all(self.is_element(scope, t) for t in sides):
            sides = [self.element(scope, t[0][1][1]) for t in sides]
        else:
            sides = [self.term(state, scope, t) for t in sides]
        return f"(not (= {' '.join(sides)}))" if sign == "!=" else f"({sign} {' '.join(sides)})"

    def line(self, state: dict[Word, str], scope: dict[Word, tuple[str, Word]], line: Line) -> str:
        own = {name: (f"|v.{name}|", sort) for name, sort in line.vars}
        return quantified(
            line.prefix, dict(own.values()), self.formula(state, {**scope, **own}, line.tree())
        )

    def declarations(self) -> list[str]:
        lines = [f"(declare-sort |s.{sort}| 0)" for sort in self.spec.sorts]
        lines += [declared(f"|c.{name}|", sort) for name, sort in self.spec.consts.items()]
        for name, places in self.places.items():
            lines.append(
                f"(declare-fun |t.{name}| ({' '.join(f'|s.{s}|' for s in places)})"
                f" {self.kind[name]})"
            )
        return lines

    def invariants(self) -> list[str]:
        """All invariants are true in the first state."""
        return [asserted(self.init(line)) for line in self.spec.invariants.values()]

    def initial(self) -> list[str]:
        """The first state is the initial one."""
        lines = []
        for name, places in self.places.items():
            keys, value = variables("x", places), self.spec.initially.get(name)
            value = value or "false" if self.kind[name] == "Bool" else written(int(value or 0))
            lines.append(
                asserted(quantified("forall", keys, f"(= {self.before({}, name, keys)} {value})"))
            )
        return lines

    def calls(self, *ops: Operation) -> list[tuple[Operation, dict[Word, tuple[str, Word]]]]:
        """Calls of one or two operations with any arguments, each as the operation and the scope of
        its parameters. Their preconditions are true, and two calls don't conflict."""
        calls = [
            (op, {name: (f"|{mark}.{name}|", sort) for name, sort in op.params})
            for op, mark in zip(ops, "ab")
        ]
        self.lines += [declared(*it) for _, scope in calls for it in scope.values()]
        self.lines += [
            asserted(self.line({}, scope, line))
            for op, scope in calls
            for line in op.of("requires")
        ]
        if len(calls) == 2:
            both = self.matches(*calls) + self.matches(*reversed(calls))
            self.lines.append(asserted(f"(not {joined('or', both, 'false')})"))
        return calls

    def matches(
        self,
        first: tuple[Operation, dict[Word, tuple[str, Word]]],
        second: tuple[Operation, dict[Word, tuple[str, Word]]],
    ) -> list[str]:
        found = []
        for left, right, _ in self.spec.rules:
            for one in first[0].of("takes"):
                for other in second[0].of("takes"):
                    (token, arguments), (other_token, other_arguments) = one.thing(), other.thing()
                    if (token, other_token) == (left[0], right[0]) and not (
                        one.is_shared() and other.is_shared()
                    ):
                        values: dict[str, str] = {}
                        for pattern, words, call in (
                            (left, arguments, first),
                            (right, other_arguments, second),
                        ):
                            for variable, word in zip(pattern[1], words):
                                values.setdefault(variable, []).append(self.element(call[1], word))
                        found.append(
                            joined(
                                "and",
                                [f"(= {' '.join(v)})" for v in values.values() if len(v) > 1],
                                "true",
                            )
                        )
        return found

    def after(
        self,
        state: dict[Word, str],
        call: tuple[Operation, dict[Word, tuple[str, Word]]],
        mark: str,
    ) -> dict[Word, str]:
        """The state after a call: guards and amounts read the state before it."""
        op, scope = call
        found, updates = dict(state), op.of(*UPDATES)
        for name in dict.fromkeys(line.thing()[0] for line in updates):
            keys = variables("x", self.places[name])
            value = self.before(state, name, keys)
            for line in updates:
                thing, spots = line.thing()
                if thing == name:
                    acts = [
                        f"(= {x} {self.element(scope, s)})" for x, s in zip(keys, spots) if s != "*"
                    ]
                    acts += (
                        []
                        if line.guard() is None
                        else [self.formula(state, scope, given(line.guard()))]
                    )
                    new = {"insert": "true", "remove": "false"}.get(line.head) or self.term(
                        state, scope, given(line.amount())
                    )
                    changed = f"(+ {value} {new})" if line.head == "add" else new
                    value = f"(ite {joined('and', acts, 'true')} {changed} {value})"
            self.lines.append(
                f"(define-fun |{mark}.{name}| ({heads(keys)}) {self.kind[name]} {value})"
            )
            found[name] = f"{mark}.{name}"
        return found

    def init(self, line: Line) -> str:
        return self.line({}, {}, line)

    def safety(self, op: Operation, line: Line) -> str:
        (call,) = self.calls(op)
        return self.line(self.after({}, call, "a"), {}, line)

    def commute(self, op: Operation, other: Operation, thing: Word) -> str:
        first, second = self.calls(op, other)
        states = self.after(self.after({}, first, "a"), second, "ab"), self.after(
            self.after({}, second, "b"), first, "ba"
        )
        keys = variables("e", self.places[thing])
        self.lines += [declared(*it) for it in keys.items()]
        return f"(= {' '.join(applied(state[thing], keys) for state in states)})"

    def stable(self, op: Operation, line: Line, other: Operation) -> str:
        first, second = self.calls(op, other)
        return self.line(self.after({}, second, "b"), first[1], line)

    def obligations(self) -> Iterator[tuple[Any, ...]]:
        """The names of the obligations, in the order of the report, each with what fails where it
        is broken."""
        ops, invariants = list(self.spec.operations.values()), self.spec.invariants.items()
        yield from ((f"init {name}", self.init, line) for name, line in invariants)
        yield from (
            (f"safety {op.name} {name}", self.safety, op, line)
            for op in ops
            for name, line in invariants
        )
        for i, op in enumerate(ops):
            for other in ops[i:]:
                changed = {line.thing()[0] for line in op.of(*UPDATES) + other.of(*UPDATES)}
                yield from (
                    (f"commute {op.name} {other.name} {thing}", self.commute, op, other, thing)
                    for thing in self.places
                    if thing in changed
                )
        for op in ops:
            for k, line in enumerate(op.of("requires"), 1):
                yield from (
                    (f"stable {op.name} {k} {other.name}", self.stable, op, line, other)
                    for other in ops
                )

    def groups(
        self,
    ) -> tuple[
        tuple[list[str], list[tuple[str, list[str]]]], tuple[list[str], list[tuple[str, list[str]]]]
    ]:
        """The obligations of the initial state and the others: for each of the two the lines that
        all of them need, and a list of their names, each with the lines that its obligation needs
        besides."""
        inits: list[tuple[str, list[str]]] = []
        others: list[tuple[str, list[str]]] = []
        for name, conclusion, *parts in self.obligations():
            self.lines = []
            failing = asserted(f"(not {conclusion(*parts)})")
            (inits if conclusion == self.init else others).append((name, [*self.lines, failing]))
        return (self.initial(), inits), (self.invariants(), others)


# Encodings. Each gives the names of the obligations in the order in which they are asked, and the
# lines.


def scoped(lines: list[str]) -> list[str]:
    return ["(push)", *lines, "(pop)"]


def each(obligations: list[tuple[str, list[str]]]) -> tuple[list[str], list[str]]:
    """A scope for each of these obligations, which are given by names and lines."""
    return [name for name, _ in obligations], [
        line for _, own in obligations for line in scoped([*own, ASK])
    ]


def within(obligations: list[tuple[str, list[str]]]) -> tuple[list[str], list[str]]:
    """A scope for each group of these obligations that begin with the same lines, with scopes for
    the lines that follow."""
    groups: dict[str, list[tuple[str, list[str]]]] = {}
    names: list[str] = []
    lines: list[str] = []
    for name, own in obligations:
        groups.setdefault(own[0], []).append((name, own))
    for group in groups.values():
        common = [
            at[0]
            for at in itertools.takewhile(
                lambda at: len(set(at)) == 1, zip(*(own for _, own in group))
            )
        ]
        ended = [name for name, own in group if len(own) == len(common)]
        found, inner = within(
            [(name, own[len(common) :]) for name, own in group if len(own) > len(common)]
        )
        names += ended + found
        lines += scoped([*common, *[ASK] * len(ended), *inner])
    return names, lines


def separate(problems: Problems) -> list[tuple[str, list[str]]]:
    """Each obligation with all lines that it needs."""
    declarations = problems.declarations()
    return [
        (name, [*declarations, *entry, *own])
        for entry, obligations in problems.groups()
        for name, own in obligations
    ]


def alone(problems: Problems) -> tuple[list[str], list[str]]:
    """Each obligation in a scope of its own, with all declarations and all that it needs."""
    return each(separate(problems))


def shared(problems: Problems, scopes: Callable[..., Any] = each) -> tuple[list[str], list[str]]:
    """Declarations, the initial state and the invariants once, and what else each obligation needs
    in a scope of its own, or as `scopes` says."""
    (initial, inits), (invariants, others) = problems.groups()
    (first, start), (second, rest) = scopes(inits), scopes(others)
    return first + second, [
        *problems.declarations(),
        *scoped([*initial, *start]),
        *invariants,
        *rest,
    ]


def nested(problems: Problems) -> tuple[list[str], list[str]]:
    """The same, but lines with which several obligations begin stand once too, in a scope around
    those."""
    return shared(problems, within)


# By these titles the encodings, and the logics that are set. The two are the settings that helped
# where they were tried: UFLIA, `auto_config`, `smt.mbqi`, `smt.arith.solver`, `smt.relevancy` and
# `smt.case_split` didn't. `(reset)` in place of `(pop)` takes about ten times as long.
ENCODINGS = {
    "alone": (alone, None),
    "shared": (shared, None),
    "nested": (nested, None),
    "nested AUFLIA": (nested, "AUFLIA"),
    "nested UFNIA": (nested, "UFNIA"),
}


def encoded(problems: Problems) -> dict[str, tuple[list[str], list[str]]]:
    """What z3 is asked by each encoding: the names of the obligations, in its order, and the
    lines."""
    found = {}
    for title, (encoding, logic) in ENCODINGS.items():
        names, lines = encoding(problems)
        found[title] = names, [f"(set-logic {logic})"] * (logic is not None) + lines
    return found


def run(words: list[str], text: str | None = None, seconds: int | None = None) -> tuple[str, float]:
    """What a program writes, and the processor time that it takes. It is stopped after some
    seconds, where they are given."""
    before = resource.getrusage(resource.RUSAGE_CHILDREN)
    done = subprocess.run(words, input=text, capture_output=True, text=True, timeout=seconds)
    after = resource.getrusage(resource.RUSAGE_CHILDREN)
    return done.stdout, after.ru_utime - before.ru_utime + after.ru_stime - before.ru_stime


def z3(lines: list[str], seconds: int | None = None) -> tuple[str, float]:
    return run(["z3", "-in"], "".join(f"{line}\n" for line in lines), seconds)


def sample(n: int) -> str:
    """The generated specification that `sample N` checks."""
    lines = (
        ["cise 1", "sort Item"]
        + [f"relation r{i} ( Item )" for i in range(n)]
        + ["token t ( Item )", "conflict t ( x ) t ( x )"]
    )
    lines += [
        f"invariant needs{i} forall x : Item . ( r{i} ( x ) implies r{i - 1} ( x ) )"
        for i in range(1, n)
    ]
    for i in range(n):
        lines += (
            [f"operation add{i} ( x : Item )"]
            + [f"requires r{i - 1} ( x )"] * (i > 0)
            + [f"insert r{i} ( x )", "takes t ( x )", "end"]
        )
        lines += (
            [f"operation del{i} ( x : Item )"]
            + [f"requires not r{i + 1} ( x )"] * (i + 1 < n)
            + [f"remove r{i} ( x )", "takes t ( x )", "end"]
        )
    return "\n".join(lines) + "\n"


@dataclasses.dataclass(frozen=True)
class Family:
    """What the specifications of a family are drawn from: a least and a greatest number, or numbers
    that are as likely as they are often. The first is for specifications as designs mostly are.

    care        how often an operation asks for what the invariants need, and takes tokens
    places      how many places a relation has
    params      the most parameters of an operation, of which those beside the places of its first
                update are drawn `more` times, each as often as `further` says
    obligations how many obligations are wanted, and the most
    """

    care: tuple[float, float] = (0.75, 1)
    sorts: tuple[int, int] = (1, 3)
    consts: tuple[int, ...] = (0, 0, 0, 1, 2)
    places: tuple[int, ...] = (1, 1, 2)
    relations: tuple[int, int] = (3, 8)
    invariants: tuple[int, int] = (2, 10)
    operations: tuple[int, int] = (4, 14)
    params: int = 3
    more: int = 1
    further: float = 0.3
    obligations: tuple[int, int] = (275, 1717)


# The families, by the letter before the seed: r as designs mostly are; w with relations of up to
# three places; p with up to five parameters; k with two to four constants; f whose operations ask
# for little, so that a tenth to a quarter of the obligations are refuted; i with up to sixteen
# invariants, which are the most.
FAMILIES = {
    "r": Family(),
    "w": Family(
        sorts=(2, 3), places=(1, 2, 3), relations=(3, 5), operations=(4, 8), obligations=(100, 600)
    ),
    "p": Family(sorts=(2, 3), params=5, more=4, further=0.7, obligations=(150, 900)),
    "k": Family(consts=(2, 2, 3, 4), obligations=(150, 900)),
    "f": Family(care=(0, 0.2), places=(1, 2, 2), relations=(3, 5), obligations=(150, 900)),
    "i": Family(relations=(8, 12), invariants=(12, 16), operations=(4, 10)),
}


class Draft:
    """A specification of a family, drawn by chance. The operations ask for what the invariants
    need, and take tokens, as often as `care` says.

    places      relation or counter: the sorts of its places
    invariants  (kind, thing, other, positions, bound): positions are those of the thing's places
    that stand at the other's, and bound is
                a number or a second other with its positions
    """

    def __init__(self, chance: random.Random, family: Family) -> None:
        self.chance, self.family, self.care, self.most_updates = (
            chance,
            family,
            chance.uniform(*family.care),
            chance.choice((2, 3, 5)),
        )
        self.sorts = [f"S{i}" for i in range(chance.randint(*family.sorts))]
        self.consts = {
            f"k{i}": chance.choice(self.sorts) for i in range(chance.choice(family.consts))
        }
        self.relations = {
            f"r{i}": chance.choices(self.sorts, k=chance.choice(family.places))
            for i in range(chance.randint(*family.relations))
        }
        self.counters = {
            f"c{i}": chance.choices(self.sorts, k=chance.choice((0, 1, 1)))
            for i in range(chance.randint(0, 3))
        }
        self.places = {**self.relations, **self.counters}
        self.tokens = chance.choice(("none", "sorts", "things", "things", "shared"))
        self.invariants: list[tuple[str, str, str | None, tuple[int, ...] | None, None]] = []
        self.requires: list[tuple[str, list[str], str]] = []
        wanted = chance.randint(*family.invariants)
        for _ in range(4 * family.invariants[1]):
            if len(self.invariants) < wanted:
                self.draw_invariant()

    def often(self) -> bool:
        return self.chance.random() < self.care

    def positions(self, thing: str, other: str) -> tuple[int, ...] | None:
        """Some places of a thing that have the sorts of another's places, or None."""
        found = [
            it
            for it in itertools.permutations(
                range(len(self.places[thing])), len(self.places[other])
            )
            if [self.places[thing][i] for i in it] == self.places[other]
        ]
        return self.chance.choice(found) if found else None

    def draw_invariant(self) -> None:
        """Draws an invariant, and keeps it where places fit and no other is on the same things."""
        chance, relations, counters = self.chance, list(self.relations), list(self.counters)
        kind = chance.choice(
            ["needs", "needs", "excludes", "chooses", "unique"]
            + ["positive", "bounded", "counted"] * bool(counters)
        )
        thing = chance.choice(counters if kind in ("positive", "bounded") else relations)
        other, positions, bound, fits = (
            None,
            None,
            None,
            kind != "unique" or len(self.places[thing]) == 2,
        )
        if kind in ("needs", "excludes", "chooses", "counted"):
            other = chance.choice(counters if kind == "counted" else relations)
            positions = self.positions(thing, other)
            fits = positions is not None and (
                other < thing if kind in ("needs", "chooses") else other != thing
            )
        if kind == "bounded":
            bound = chance.choice((5, 10, 100))
        if kind == "chooses":
            second = chance.choice(relations)
            bound = second, self.positions(thing, second)
            fits = fits and given(bound)[1] is not None and second not in (thing, other)
        if fits and all(
            {thing, other or kind} != {it[1], it[2] or it[0]} for it in self.invariants
        ):
            self.invariants.append((kind, thing, other, positions, bound))

    def reading(self, thing: str, args: list[str]) -> str:
        return f"{thing} ( {' , '.join(args)} )" if args else thing

    def quantified(self, head: str, thing: str, args: list[str], body: Callable[..., Any]) -> str:
        """A line with a reading of a thing in its body, which holds for all elements where an
        argument is `*`."""
        names = [f"v{i}" if it == "*" else it for i, it in enumerate(args)]
        variables = " , ".join(
            f"v{i} : {self.places[thing][i]}" for i, it in enumerate(args) if it == "*"
        )
        return f"{head} " + (f"forall {variables} . " if variables else "") + body(names)

    def invariant_line(
        self,
        number: int,
        kind: str,
        thing: str,
        other: str | None,
        positions: tuple[int, ...] | None,
        bound: None,
    ) -> str:
        def body(names: list[str]) -> str:
            first = self.reading(thing, names)
            second = self.reading(other, [names[i] for i in positions]) if other else None
            if kind == "chooses":
                return (
                    f"( {first} implies ( {second} or"
                    f" {self.reading(bound[0], [names[i] for i in bound[1]])} ) )"
                )
            return {
                "needs": f"( {first} implies {second} )",
                "excludes": f"not ( {first} and {second} )",
                "counted": f"( {first} implies ( {second} >= 1 ) )",
                "positive": f"( {first} >= 0 )",
                "bounded": f"( {first} <= {bound} )",
            }[kind]

        head = f"invariant i{number}"
        if kind != "unique":
            return self.quantified(head, thing, ["*"] * len(self.places[thing]), body)
        one, two = self.places[thing]
        return (
            f"{head} forall x : {one} , y : {two} , z : {two} . ( ( {thing} ( x , y ) and {thing} ("
            " x , z ) ) implies ( y = z ) )"
        )

    def filled(self, thing: str, params: dict[str, str]) -> list[str] | None:
        """Arguments for a thing from these parameters and the constants, or None."""
        found = []
        for sort in self.places[thing]:
            fitting = [name for name, it in params.items() if it == sort]
            constants = [name for name, it in self.consts.items() if it == sort]
            if not fitting + constants:
                return None
            found.append(
                self.chance.choice(
                    constants
                    if constants and (not fitting or self.chance.random() < 0.1)
                    else fitting
                )
            )
        return found

    def need(
        self, thing: str, args: list[str], positions: tuple[int, ...], other: str, formula: str
    ) -> None:
        """Asks for a formula on a thing, of which places at these positions are the arguments of
        the other, and the rest any."""
        spots = ["*"] * len(self.places[thing])
        for position, arg in zip(positions, args):
            spots[position] = arg
        self.requires.append(
            (
                thing,
                spots,
                self.quantified(
                    "requires",
                    thing,
                    spots,
                    lambda names: formula.format(self.reading(thing, names)),
                ),
            )
        )

    def ask(self, change: str, thing: str, args: list[str], amount: str) -> None:
        """Asks for what an update needs so that the invariants stay true."""
        for kind, one, other, positions, bound in self.invariants:
            if thing == one and change == "insert":
                at = [args[i] for i in positions] if other else None
                if kind == "chooses":
                    second = self.reading(bound[0], [args[i] for i in bound[1]])
                    self.requires.append(
                        (
                            other,
                            at,
                            f"requires ( {self.reading(given(other), given(at))} or {second} )",
                        )
                    )
                elif kind == "unique":
                    self.requires.append(
                        (
                            thing,
                            args,
                            (
                                f"requires forall z : {self.places[thing][1]} . ( {thing} ("
                                f" {args[0]} , z ) implies ( z = {args[1]} ) )"
                            ),
                        )
                    )
                elif other:
                    whole = {"needs": "{}", "excludes": "not {}", "counted": "( {} >= 1 )"}[kind]
                    self.requires.append(
                        (other, at, f"requires {whole.format(self.reading(other, given(at)))}")
                    )
            elif (
                kind == "excludes"
                and (thing, change) == (other, "insert")
                or kind == "needs"
                and (thing, change) == (other, "remove")
            ):
                self.need(one, args, given(positions), given(other), "not {}")
            elif kind == "chooses" and change == "remove" and thing in (other, bound[0]):
                self.need(
                    one, args, positions if thing == other else bound[1], given(other), "not {}"
                )
            elif kind == "positive" and thing == one:
                low = (
                    f"( {self.reading(thing, args)} >= {amount} )"
                    if change == "lower"
                    else f"( {amount} >= 0 )"
                )
                self.requires.append((thing, args, f"requires {low}"))
            elif kind == "bounded" and thing == one and change != "lower":
                value = f"{self.reading(thing, args)} + {amount}" if change == "raise" else amount
                self.requires.append((thing, args, f"requires ( {value} <= {bound} )"))
            elif kind == "counted" and thing == other and change in ("lower", "set"):
                value = f"{self.reading(thing, args)} - {amount}" if change == "lower" else amount
                self.requires.append((thing, args, f"requires ( {value} >= 1 )"))

    def guard(self, params: dict[str, str]) -> str:
        thing = self.chance.choice(list(self.places))
        args = self.filled(thing, params) if self.chance.random() < 0.12 else None
        if args is None:
            return ""
        reading = self.reading(thing, args)
        return (
            f" when ( {reading} >= 1 )"
            if thing in self.counters
            else f" when {self.chance.choice(('', 'not '))}{reading}"
        )

    def operation(self, number: int) -> list[str]:
        """The lines of an operation. Its first update is on all of its parameters."""
        chance, self.requires = self.chance, []
        main = chance.choice(list(self.places))
        family, params = self.family, {f"p{i}": it for i, it in enumerate(self.places[main])}
        for _ in range(family.more):
            if not params or len(params) < family.params and chance.random() < family.further:
                params[f"p{len(params)}"] = chance.choice(self.sorts)
        things = [main] + [
            it
            for it in chance.sample(
                list(self.places), min(len(self.places), chance.randint(0, self.most_updates - 1))
            )
            if it != main
        ]
        whole = (
            any(it in self.counters for it in things)
            and len(params) < family.params
            and chance.random() < 0.6
        )
        written, updates = [], []
        for thing in things:
            args = (
                list(params)[: len(self.places[main])]
                if thing == main
                else self.filled(thing, params)
            )
            if args is None:
                continue
            amount = "n" if whole and chance.random() < 0.8 else str(chance.randint(1, 3))
            change = chance.choice(
                ("insert", "insert", "remove")
                if thing in self.relations
                else ("raise", "raise", "lower", "lower", "set")
            )
            if change == "remove" and len(args) == 2 and chance.random() < 0.2:
                args[chance.randrange(2)] = "*"
            if self.often():
                self.ask(change, thing, args, amount)
                self.requires += [(thing, args, "requires ( n >= 0 )")] * (amount == "n")
            head, end = {
                "raise": ("add", f" {amount}"),
                "lower": ("add", f" - {amount}"),
                "set": ("set", f" {amount}"),
            }.get(change, (change, ""))
            updates.append(f"{head} {self.reading(thing, args)}{end}{self.guard(params)}")
            written.append((thing, args))
        heads = " , ".join(
            f"{name} : {sort}" for name, sort in [*params.items(), *[("n", "int")] * whole]
        )
        requires = list(dict.fromkeys(line for *_, line in self.requires))[:8]
        takes = self.takes(params, written, [(thing, args) for thing, args, _ in self.requires])
        return [f"operation o{number} ( {heads} )", *requires, *updates, *takes, "end"]

    def takes(
        self,
        params: dict[str, str],
        written: list[tuple[str, list[str]]],
        read: list[tuple[str, list[str]]],
    ) -> list[str]:
        """The tokens that an operation takes: for the elements of its parameters, or for what it
        writes and asks for."""
        if self.tokens == "sorts":
            taken = [f"takes t{sort} ( {name} )" for name, sort in params.items() if self.often()]
            return taken[:4]
        if self.tokens == "none":
            return []
        found: dict[str, str] = {}
        for things, mode in ((written, " exclusive"), (read, " shared")):
            for thing, args in things:
                if args[:1] != ["*"] and self.often():
                    found.setdefault(f"takes {self.reading(f't{thing}', args[:1])}", mode)
        return [line + mode * (self.tokens == "shared") for line, mode in list(found.items())[:4]]

    def text(self) -> str:
        chance = self.chance
        lines = [
            f"cise {1 + (self.tokens == 'shared')}",
            *(f"sort {it}" for it in self.sorts),
            *(f"const {name} : {sort}" for name, sort in self.consts.items()),
        ]
        for head, things in (("relation", self.relations), ("counter", self.counters)):
            lines += [f"{head} {self.reading(name, places)}" for name, places in things.items()]
        lines += [
            f"initially {it} {chance.randint(1, 5)}"
            for it in self.counters
            if chance.random() < 0.15
        ]
        kinds = {"none": {}, "sorts": {it: [it] for it in self.sorts}}.get(
            self.tokens, {it: places[:1] for it, places in self.places.items()}
        )
        for name, places in kinds.items():
            one = self.reading(f"t{name}", ["x"] * len(places))
            lines += [f"token {self.reading(f't{name}', places)}", f"conflict {one} {one}"]
        lines += [self.invariant_line(number, *it) for number, it in enumerate(self.invariants)]
        for number in range(chance.randint(*self.family.operations)):
            lines += self.operation(number)
        return "\n".join(lines) + "\n"


def generated(family: Family, seed: int) -> str:
    """The specification of a family that is drawn from a seed: the first draft with as many
    obligations as are wanted, which are fewer after each draft."""
    chance, (least, most) = random.Random(seed), family.obligations
    wanted = least * 4.5 ** chance.random()
    while True:
        text = Draft(chance, family).text()
        if wanted <= len(list(Problems(Spec(text)).obligations())) <= most:
            return text
        wanted = max(wanted * 0.97, least)


def is_seed(word: str) -> bool:
    return word[:1] in FAMILIES and word[1:].isdigit()


def specification_of(word: str) -> str:
    """The text that a word of the command line stands for."""
    if word.isdigit():
        return sample(int(word))
    return generated(FAMILIES[word[0]], int(word[1:])) if is_seed(word) else text_of(word)


class Compared:
    """What the checker and z3 say of a specification, and take for it, as the least of some runs in
    turn.

    blocks    the blocks of the checker's report; `mine` are its seconds
    verdicts  encoding: what z3 answers, by the name of the obligation, as a verdict or `unknown`
    seconds   encoding: the seconds of z3, but of those that never ended within MOST_SECONDS
    fastest   the encoding with the least seconds, or None where each takes too long; `least` are
              its seconds
    wrong     what contradicts
    """

    def __init__(self, text: str, runs: int, *options: str) -> None:
        self.problems = Problems(Spec(text))
        self.verdicts: dict[str, dict[str, str]] = {}
        self.seconds: dict[str, float] = {}
        self.wrong: list[Any] = []
        mine: list[float] = []
        left = encoded(self.problems)
        with tempfile.NamedTemporaryFile("w", suffix=".cise") as spec:
            spec.write(text)
            spec.flush()
            for _ in range(runs):
                report, seconds = run([program.path, "check", spec.name, *options])
                mine.append(seconds)
                left = {
                    title: asked for title, asked in left.items() if self.has_run(title, *asked)
                }
                left = {
                    title: asked
                    for title, asked in left.items()
                    if title == "alone" or self.seconds[title] <= 2 * self.least
                }
        self.blocks, self.mine = Report(report).blocks, min(mine)
        self.contradict()

    def has_run(self, title: str, names: list[str], lines: list[str]) -> bool:
        try:
            said, seconds = z3(lines, MOST_SECONDS)
        except subprocess.TimeoutExpired:
            return False
        words = said.split()
        if len(words) != len(names):
            self.wrong.append(f"{title}: z3 doesn't answer one word for each obligation")
        self.verdicts[title] = {name: VERDICTS.get(word, word) for name, word in zip(names, words)}
        self.seconds[title] = min(seconds, self.seconds.get(title, seconds))
        return True

    @property
    def fastest(self) -> str:
        return min(self.seconds, key=self.seconds.get, default=None)

    @property
    def least(self) -> float:
        return self.seconds.get(self.fastest)

    def contradict(self) -> None:
        """Puts into `wrong` what contradicts: two answers of z3, or one of them and the checker.
        Where a refutation has a sort without elements, z3 may say `unsat`."""
        names, both = sorted(block.words() for block in self.blocks), {"proved", "refuted"}
        if any(sorted(verdicts) != names for verdicts in self.verdicts.values()):
            self.wrong.append("z3 was asked of other obligations than the report has")
        for block in self.blocks:
            said = {
                verdicts[block.words()]
                for verdicts in self.verdicts.values()
                if block.words() in verdicts
            }
            is_empty = block.verdict == "refuted" and 0 in given(block.witness).sizes.values()
            if both <= said or both <= {block.verdict, *said} and not is_empty:
                self.wrong.append(
                    f"{block.words()}: {block.verdict} here, {' and '.join(sorted(said))} by z3"
                )


def compare(title: str, text: str) -> bool:
    """Prints the verdicts that differ, and the times, of one specification. Whether nothing
    contradicts."""
    found = Compared(text, 3, "--budget", "1000000")
    if found.fastest is None:
        print(f"{title}: z3 takes more than {MOST_SECONDS} seconds")
        return True
    apart = sum(z3(each([it])[1])[1] for it in separate(found.problems))
    said = found.verdicts[found.fastest]
    differing = [block for block in found.blocks if said.get(block.words()) != block.verdict]
    print(
        f"{title}: {len(found.blocks)} obligations, {len(found.blocks) - len(differing)} with the"
        " same verdict"
    )
    print(
        (
            f"  the checker {found.mine:.3f} s, z3 {found.least:.3f} s"
            f" ({found.least / found.mine:.1f} times),"
        ),
        end=" ",
    )
    print(f"in a run for each {apart:.2f} s ({apart / found.mine:.0f} times)")
    print(
        "  z3 by encoding:"
        f" {', '.join(f'{name} {seconds:.3f} s' for name, seconds in found.seconds.items())}"
    )
    for block in differing:
        print(
            f"  {block.words()}: {block.verdict} here, {said.get(block.words(), 'nothing')} by z3"
        )
    for line in found.wrong:
        print(f"  contradiction: {line}")
    return not found.wrong


# What a table has of a specification: how many obligations, and the seconds of the checker, of Z3
# by `alone`, or None, and by its fastest encoding.
Row = collections.namedtuple("Row", "name obligations mine alone least")


def table(words: list[str]) -> bool:
    """Prints the table of these specifications, or of all. Whether nothing contradicts."""
    whole, words = "--all" in words, [word for word in words if word != "--all"]
    words = words or sorted(
        [
            *glob.glob("examples/**/*.cise", recursive=True),
            *glob.glob("cases/**/*.cise", recursive=True),
        ]
    ) + ["12", *GENERATED]
    fastest, undecided, unknown = dict.fromkeys(ENCODINGS, 0), 0, 0
    rows: list[Any] = []
    slow: list[Any] = []
    wrong: list[Any] = []
    for word in words:
        found = Compared(specification_of(word), RUNS)
        name = f"sample {word}" if word.isdigit() else word
        wrong += [f"`{name}`: {line}" for line in found.wrong]
        if found.fastest is None:
            slow.append(f"`{name}` ({found.mine:.3f})")
        else:
            fastest[found.fastest] += 1
            undecided += sum(block.verdict == "undecided" for block in found.blocks)
            unknown += list(found.verdicts[found.fastest].values()).count("unknown")
            rows.append(
                Row(name, len(found.blocks), found.mine, found.seconds.get("alone"), found.least)
            )
    print_rows(
        sorted(rows, key=lambda row: row.least / row.mine), len(rows) if whole else MOST_ROWS
    )
    starts = [
        min(run(it, text)[1] for _ in range(RUNS))
        for it, text in (([program.path], None), (["z3", "-in"], ""))
    ]
    print("\nThe ratios of all files, and in brackets of the generated ones and of the others:")
    print_means("Z3 alone", [(row.name, row.mine, row.alone) for row in rows if row.alone], *starts)
    print_means("Z3 fastest", [(row.name, row.mine, row.least) for row in rows], *starts)
    print(
        "The starts take {:.4f} and {:.4f} seconds; what is left of a run counts as a thousandth at"
        " least.".format(*starts)
    )
    print(
        "Files by the encoding that was the fastest of Z3:",
        ", ".join(f"{title} {count}" for title, count in fastest.items()),
    )
    print(
        f"Obligations of these that were left undecided: {undecided} by the checker,"
        f" {unknown} by Z3."
    )
    print("Left out, with the seconds of the checker:", ", ".join(slow) or "none")
    print("\n".join(["Contradictions:", *wrong]) if wrong else "No verdict contradicts another.")
    return not wrong


def print_rows(rows: list[Any], most: int) -> None:
    """Prints so many rows, and of the rest one line."""
    print(
        "| File | Obligations | Checker, seconds | Z3 alone, seconds | Ratio | Z3 fastest, seconds"
        " | Ratio |\n|---|---|---|---|---|---|---|"
    )
    for row in rows[:most]:
        by_alone = (
            f"{row.alone:.3f} | {row.alone / row.mine:.1f}"
            if row.alone
            else f"more than {MOST_SECONDS} |"
        )
        print(
            f"| `{row.name}` | {row.obligations:,} | {row.mine:.3f} | {by_alone} |"
            f" {row.least:.3f} | {row.least / row.mine:.1f} |"
        )
    rest = [row.least / row.mine for row in rows[most:]]
    if rest:
        print(
            f"\nOf the other {len(rest)} files Z3 takes {rest[0]:.1f} to {rest[-1]:.1f} times as"
            " long as the checker by its fastest encoding."
        )


def print_means(
    title: str, times: list[tuple[str, float, float]], own_start: float, start: float
) -> None:
    """Prints a line on files, which are given by name, with the seconds of the checker and of Z3:
    on all, and in brackets on the generated ones and the others."""
    groups = [
        times,
        [it for it in times if is_seed(it[0])],
        [it for it in times if not is_seed(it[0])],
    ]
    faster = [
        f"{sum(other < mine for _, mine, other in group)} of {len(group)}" for group in groups
    ]
    means = [mean([other / mine for _, mine, other in group]) for group in groups]
    net = [
        mean([max(other - start, 0.001) / max(mine - own_start, 0.001) for _, mine, other in group])
        for group in groups
    ]
    told = "{} ({}, {})".format
    print(
        f"{title}: faster on {told(*faster)}; geometric mean {told(*means)}, without the starts"
        f" {told(*net)}."
    )


def mean(ratios: list[float]) -> str:
    return f"{statistics.geometric_mean(ratios):.1f}" if ratios else "-"


# How often the checker and Z3 run for a table, after how many seconds Z3 is stopped, and how many
# rows are printed.
RUNS = 5
MOST_SECONDS = 20
MOST_ROWS = 12
# The words of the generated specifications of the table: thirty of the first family, and eight of
# each other.
GENERATED = [
    f"{letter}{seed}"
    for letter in FAMILIES
    for seed in range(1, 31 if letter == "r" else 9)
]


if __name__ == "__main__":
    allocator.set_for_programs()
    if sys.argv[1:2] == ["--table"]:
        sys.exit(0 if table(sys.argv[2:]) else 1)
    sys.exit(0 if all([compare(word, specification_of(word)) for word in sys.argv[1:]]) else 1)
