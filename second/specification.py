"""LANGUAGE, "What a specification means": a record of lists, each in written order. What they list
is referred to by its name, and of two things with one name the inner one is meant."""
from __future__ import annotations
from dataclasses import dataclass, field
from typing import Dict, NamedTuple, Tuple

Names = Tuple[str, ...]
# Names with their sorts, in written order; a parameter that is a whole number has `int`.
Sorted = Dict[str, str]
# A coefficient times `one`, a whole-number `parameter`, or a `counter`'s reading at a key.
Summand = NamedTuple("Summand", [("coef", int), ("kind", str), ("name", str), ("key", Names)])
Term = Tuple[Summand, ...]


class Form(NamedTuple):
    """A formula by its kind: `true`, `false`, `not`, `and`, `or` and `implies` with their parts;
    `has`, the reading of a relation at elements; `same` and `differ`, of two elements; and each
    comparison of two sums, as `<=`."""
    kind: str
    parts: Tuple[Form, ...] = ()
    relation: str = ""
    names: Names = ()
    sums: Tuple[Term, ...] = ()

    def nodes(self) -> int:
        """"truth values, not, connectives, atoms, comparisons" """
        return 1 + sum(part.nodes() for part in self.parts)


# A formula with its prefix: `forall`, `exists` or none, and its variables.
Line = NamedTuple("Line", [("quantifier", str), ("variables", Sorted), ("body", Form)])
# `insert`, `remove`, `add` or `set`, of a thing at spots, which are names or `*`.
Update = NamedTuple("Update", [("change", str), ("thing", str), ("spots", Names), ("amount", Term),
                               ("guard", Form)])
# A line of `takes`, or a pattern of a rule, whose names are the rule's variables.
Take = NamedTuple("Take", [("token", str), ("names", Names), ("shared", bool)])


@dataclass
class Thing:
    """A relation, a counter or a token; the sorts of its places or keys; its initial value."""
    kind: str
    name: str
    sorts: list[str]
    initial: int = 0


@dataclass
class Operation:
    name: str
    params: Sorted = field(default_factory=dict)
    requires: list[Line] = field(default_factory=list)
    observes: list[Line] = field(default_factory=list)
    updates: list[Update] = field(default_factory=list)
    takes: list[Take] = field(default_factory=list)


@dataclass
class Specification:
    sorts: list[str] = field(default_factory=list)
    consts: Sorted = field(default_factory=dict)
    relations: dict[str, Thing] = field(default_factory=dict)
    counters: dict[str, Thing] = field(default_factory=dict)
    tokens: dict[str, Thing] = field(default_factory=dict)
    rules: list[tuple[Take, Take]] = field(default_factory=list)
    invariants: dict[str, Line] = field(default_factory=dict)
    operations: dict[str, Operation] = field(default_factory=dict)

    def things(self) -> dict[str, Thing]:
        """The relations and then the counters."""
        return {**self.relations, **self.counters}
