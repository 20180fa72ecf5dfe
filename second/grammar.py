"""LANGUAGE, "Grammar": the words of a specification are read by its rules, and typed at once. The
faults of typing are looked at behind the last word."""
from __future__ import annotations
from typing import Callable, Optional

from second.specification import Form, Line, Operation, Specification, Take, Thing, Update
from second.typed import Reading, Scope, SummandTree
from second.words import Cursor, SpecRefused, Word

# "A formula nests at most 200 deep."
MOST_DEPTH = 200
CONNECTIVES = ("and", "or", "implies")
COMPARISONS = ("=", "!=", "<", "<=", ">", ">=")
LINES = ("requires", "insert", "remove", "add", "set", "takes")


class Reader(Cursor):
    def __init__(self, words: list[Word]) -> None:
        super().__init__(words)
        self.spec, self.scope = Specification(), Scope()
        self.stated: set[str] = set()

    def specification(self) -> Specification:
        """specification = "cise" "1" { item }, and "Version 2 begins with cise 2"."""
        items: dict[str, Callable[[Word], None]] = {
            "sort": self.sort, "const": self.const, "relation": self.thing, "counter": self.thing,
            "initially": self.initially, "token": self.thing, "conflict": self.conflict,
            "invariant": self.invariant, "operation": self.operation}
        self.take("cise")
        self.version = int(self.take("1", "2").text)
        while self.next():
            first = self.take(*items)
            items[first.text](first)
        if self.scope.faults:
            # "Of all faults of a tree the least is answered: the one with the least word"
            raise SpecRefused(min(self.scope.faults)[2])
        return self.spec

    def sort(self, _: Word) -> None:
        """item = "sort" NAME"""
        name = self.name()
        self.scope.declare("sort", name, len(self.spec.sorts))
        self.spec.sorts.append(name.text)

    def const(self, _: Word) -> None:
        """item = "const" NAME ":" NAME"""
        name = self.name()
        declared = self.scope.declare("constant", name, 0)
        self.take(":")
        sort = self.scope.sort(self.name())
        declared.sorts.append(sort)
        self.spec.consts[name.text] = sort
        # "4 of one sort"
        self.scope.limit("constants", list(self.spec.consts.values()).count(sort), name.number)

    def thing(self, kind: Word) -> None:
        """item = "relation" NAME [ places ], and so of a counter and a token"""
        name = self.name()
        things = {"relation": self.spec.relations, "counter": self.spec.counters,
                  "token": self.spec.tokens}[kind.text]
        sorts = self.scope.declare(kind.text, name, len(things)).sorts
        # "3 of a relation or token, 2 keys of a counter"
        for count, place in enumerate(self.bracketed(self.name), 1):
            sorts.append(self.scope.sort(place))
            self.scope.limit("places", count, place.number, 2 if kind.text == "counter" else 3)
        things[name.text] = Thing(kind.text, name.text, sorts)

    def initially(self, _: Word) -> None:
        """item = "initially" NAME value; value = "true" | "false" | [ "-" ] NUMBER"""
        name = self.name()
        # "initially needs a relation with true or false, or a counter with a number"
        if self.next() in ("true", "false"):
            kind, things = "relation", self.spec.relations
            value = int(self.take("true", "false").text == "true")
        else:
            kind, things = "counter", self.spec.counters
            sign = -1 if self.skip("-") else 1
            value = sign * self.scope.literal(self.number())
        self.scope.use(name, kind)
        if name.text in self.stated:
            # stated_already: "a second initial value is stated for a name that is in scope"
            self.scope.fault("twice", name)
        self.stated.add(name.text)
        if name.text in things:
            things[name.text].initial = value

    def conflict(self, first: Word) -> None:
        """item = "conflict" reading reading"""
        patterns = [self.reading(), self.reading()]
        self.scope.rule(patterns)
        left, right = [Take(name.text, tuple(it.text for it in args), False)
                       for name, args in patterns]
        self.spec.rules.append((left, right))
        self.scope.limit("conflicts", len(self.spec.rules), first.number)

    def invariant(self, _: Word) -> None:
        """item = "invariant" NAME prefixed"""
        name = self.name()
        self.scope.declare("invariant", name, len(self.spec.invariants))
        if self.next() == "exists":
            # not_for_all: "an invariant begins with exists"
            self.scope.fault("kind", self.words[self.at])
        self.spec.invariants[name.text] = self.prefixed()

    def operation(self, _: Word) -> None:
        """item = "operation" NAME [ "(" param { "," param } ")" ] { line } "end\""""
        name = self.name()
        self.scope.declare("operation", name, len(self.spec.operations))
        operation = self.spec.operations[name.text] = Operation(name.text)
        # "Parameters are in scope in their operation"
        outer, self.scope.names = self.scope.names, dict(self.scope.names)
        self.bracketed(lambda: self.named("parameter", operation.params))
        while not self.skip("end"):
            self.line(operation)
        self.scope.names = outer

    def named(self, kind: str, found: dict[str, str]) -> None:
        """param = NAME ":" NAME | NAME ":" "int", and variable = NAME ":" NAME"""
        name = self.name()
        declared = self.scope.declare(kind, name, len(found))
        self.take(":")
        if kind == "parameter" and self.skip("int"):
            found[name.text] = "int"
        else:
            found[name.text] = self.scope.sort(self.name())
            declared.sorts.append(found[name.text])

    def line(self, operation: Operation) -> None:
        """line = "requires" prefixed | .. | "takes" reading [ "shared" | "exclusive" ] |
        "observes" prefixed, the modes and the last in version 2"""
        first = self.take(*LINES, *(["observes"] if self.version == 2 else []))
        which = first.text
        if which in ("requires", "observes"):
            lines = operation.requires if which == "requires" else operation.observes
            lines.append(self.prefixed())
            count = len(lines)
        elif which == "takes":
            reading, mode = self.reading(), ""
            if self.version == 2 and self.next() in ("shared", "exclusive"):
                mode = self.take("shared", "exclusive").text
            names = self.scope.arguments(reading, "token")
            operation.takes.append(Take(reading.name.text, names, mode == "shared"))
            count = len(operation.takes)
        else:
            operation.updates.append(self.update(which))
            which, count = "updates", len(operation.updates)
        self.scope.limit(which, count, first.number)

    def update(self, change: str) -> Update:
        """"insert" NAME [ spots ] [ "when" formula ] | "add" NAME [ spots ] term [ "when" formula ]
        and the same of "remove" and of "set" """
        # "insert and remove need a relation, add and set a counter."
        kind = "relation" if change in ("insert", "remove") else "counter"
        # spot = NAME | "*"
        target = Reading(self.name(), self.bracketed(
            lambda: self.take("*") if self.next() == "*" else self.name()))
        spots = self.scope.arguments(target, kind)
        amount = self.scope.term(self.term()) if kind == "counter" else ()
        guard = self.formula() if self.skip("when") else Form("true")
        return Update(change, target.name.text, spots, amount, guard)

    def prefixed(self) -> Line:
        """prefixed = [ quantifier variable { "," variable } "." ] formula"""
        # "variables in their line"
        outer, self.scope.names = self.scope.names, dict(self.scope.names)
        quantifier = ""
        variables: dict[str, str] = {}
        if self.next() in ("forall", "exists"):
            quantifier = self.take("forall", "exists").text
            self.several(lambda: self.named("variable", variables))
            self.take(".")
        body = self.formula()
        self.scope.names = outer
        return Line(quantifier, variables, body)

    def formula(self) -> Form:
        """A whole formula; too_many_nodes: "a formula has more nodes than it may" """
        number = self.at
        form = self.part(1)
        self.scope.limit("nodes", form.nodes(), number)
        return form

    def part(self, depth: int) -> Form:
        """formula = "true" | "false" | "not" formula | reading | and what is in brackets; the
        depth is that of the formulas around it, with itself."""
        if self.next() in ("true", "false"):
            return Form(self.take("true", "false").text)
        if depth < MOST_DEPTH and self.skip("not"):
            return Form("not", (self.part(depth + 1),))
        if self.is_name():
            return self.scope.atom(self.reading())
        self.take("(")
        form = self.in_brackets(depth)
        self.take(")")
        return form

    def in_brackets(self, depth: int) -> Form:
        """formula connective formula, or term comparison term. Which of them a reading begins is
        told by the word behind it."""
        is_deep = depth == MOST_DEPTH
        if self.is_name():
            number, reading = self.at, self.reading()
            if is_deep or self.next() not in CONNECTIVES:
                return self.comparison(self.term(SummandTree(1, number, None, reading)))
            left = self.scope.atom(reading)
        elif self.is_number() or self.next() == "-":
            return self.comparison(self.term())
        else:
            left = self.refuse() if is_deep else self.part(depth + 1)
        connective = self.take(*CONNECTIVES).text
        return Form(connective, (left, self.part(depth + 1)))

    def comparison(self, left: list[SummandTree]) -> Form:
        """term comparison term, of which the left term was read"""
        kind = self.take(*COMPARISONS).text
        return self.scope.comparison(left, kind, self.term())

    def term(self, first: Optional[SummandTree] = None) -> list[SummandTree]:
        """term = [ "-" ] summand { sign summand }, of which the first may have been read"""
        number = self.at
        summands = [first or self.summand(-1 if self.skip("-") else 1, number)]
        while self.next() in ("+", "-"):
            sign = self.take("+", "-")
            summands.append(self.summand(-1 if sign.text == "-" else 1, sign.number))
        return summands

    def summand(self, sign: int, at: int) -> SummandTree:
        """summand = NUMBER | NUMBER "*" reading | reading"""
        number = self.number() if self.is_number() else None
        has_reading = number is None or self.skip("*")
        return SummandTree(sign, at, number, self.reading() if has_reading else None)

    def reading(self) -> Reading:
        """reading = NAME [ "(" NAME { "," NAME } ")" ]"""
        return Reading(self.name(), self.bracketed(self.name))
