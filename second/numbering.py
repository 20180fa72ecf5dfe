"""GROUND, "Numbers and clauses": numbers of atoms and integers, and formulas as clauses."""
from __future__ import annotations
from typing import FrozenSet, Iterable, List, NamedTuple, Optional, Tuple, Union

from second.rows import Row

# The calls since the entry, the latest first.
Stage = Tuple[int, ...]
# A literal is twice the number of its atom, and one more where it is negative.
Clause = FrozenSet[int]

# "that two constants are equal, the lesser first"
Equality = NamedTuple("Equality", [("lesser", int), ("greater", int)])
# A relation's reading "at a stage for a tuple of constants", or a counter's at a key.
Reading = NamedTuple("Reading", [("stage", Stage), ("thing", str), ("at", Tuple[int, ...])])
# "what the first few updates of a call leave of it"
Partial = NamedTuple("Partial", [("updates", int), ("reading", Reading)])
Atom = Union[Equality, Reading, Row]
# An integer's name, where a number is the one of "a parameter of a call that is a whole number".
Integer = Union[int, Reading, Partial]
# A sum: multiples of integer names, and plain numbers, which have none.
Sum = List[Tuple[int, Optional[Integer]]]
# "In each formula truth values are folded, and not is moved to the literals."
Folded = Union[bool, int, "Joined"]


class Joined(NamedTuple):
    """An "and" or an "or" of parts, of which none is a truth value or joined in the same way."""
    is_and: bool
    parts: Tuple[Folded, ...]


def joined(is_and: bool, *parts: Folded) -> Folded:
    """The folded "and" or "or" of parts."""
    flat: list[Folded] = []
    for part in parts:
        if part is (not is_and):
            return part
        if isinstance(part, Joined) and part.is_and == is_and:
            flat += part.parts
        elif part is not is_and:
            flat.append(part)
    if len(flat) > 1:
        return Joined(is_and, tuple(flat))
    return flat[0] if flat else is_and


class Table:
    """The numbers of atoms and integer names, "in the order in which the list first names them",
    the row of each atom that is one, and all readings in that order."""

    def __init__(self, arguments: int = 0) -> None:
        # "The whole numbers among the arguments of the calls are the first integers, call by
        # call, whether a formula names them or not."
        self.integers: dict[Integer, int] = {number: number for number in range(arguments)}
        self.atoms: dict[Atom, int] = {}
        self.rows: list[Optional[Row]] = []
        self.readings: list[Reading] = []

    def integer(self, name: Integer) -> int:
        """The number of an integer name, which gets the next one where it has none."""
        if name not in self.integers:
            self.integers[name] = len(self.integers)
            if isinstance(name, Reading):
                self.readings.append(name)
        return self.integers[name]

    def literal(self, atom: Atom, sign: bool) -> int:
        """The literal of an atom, which gets the next number where it has none."""
        if atom not in self.atoms:
            self.atoms[atom] = len(self.rows)
            self.rows.append(atom if isinstance(atom, Row) else None)
            if isinstance(atom, Reading):
                self.readings.append(atom)
        return 2 * self.atoms[atom] + (not sign)

    def equality(self, one: int, other: int, sign: bool) -> Folded:
        """"Equality of one constant with itself is true." """
        if one == other:
            return sign
        return self.literal(Equality(min(one, other), max(one, other)), sign)

    def at_most(self, left: Sum, right: Sum, more: int, sign: bool) -> Folded:
        """"at_most t u n is a row: the multiples of t less those of u, added up for each integer,
        are at most n and the plain numbers of u less those of t. A row with no terms left is true
        or false, and no atom; its names are numbered all the same: those of t and then those of
        u, in their order." """
        terms: dict[int, int] = {}
        for coef, name in [*left, *((-coef, name) for coef, name in right)]:
            if name is None:
                more -= coef
            else:
                number = self.integer(name)
                terms[number] = terms.get(number, 0) + coef
        kept = tuple((name, terms[name]) for name in sorted(terms) if terms[name])
        return self.literal(Row(kept, more), sign) if kept else (0 <= more) == sign

    def compare(self, kind: str, left: Sum, right: Sum, sign: bool) -> Folded:
        """"t < u is at_most t u -1, and t <= u is at_most t u 0; > and >= are these with the
        sides exchanged; t = u is <= and >=; t != u is < or >." """
        more = 0 if kind in ("<=", ">=", "=") else -1
        if kind in ("<", "<="):
            return self.at_most(left, right, more, sign)
        if kind in (">", ">="):
            return self.at_most(right, left, more, sign)
        both = self.at_most(left, right, more, sign), self.at_most(right, left, more, sign)
        return joined((kind == "=") == sign, *both)


class Clauses:
    """The clauses of formulas in turn, where `atom` is the next new one."""

    def __init__(self, atom: int) -> None:
        self.atom = atom
        self.written: list[Clause] = []

    def add(self, formula: Folded, front: Iterable[int] = ()) -> None:
        """"True gives no clause, and false the empty one. An and on top gives the clauses of its
        parts. An or gives one clause of its parts, in which each and is named by a new atom p.
        After it come, for each such atom in turn, the clauses of not p or part for each part of
        what it names": so `front` has not p, or nothing. "A clause is a set". """
        if isinstance(formula, Joined) and formula.is_and:
            for part in formula.parts:
                self.add(part, front)
        elif isinstance(formula, Joined):
            named = [it for it in formula.parts if isinstance(it, Joined)]
            literals = [it for it in formula.parts if not isinstance(it, Joined)]
            atoms = range(self.atom, self.atom + len(named))
            self.atom += len(named)
            self.written.append(frozenset((*front, *literals, *(2 * atom for atom in atoms))))
            for atom, part in zip(atoms, named):
                self.add(part, [2 * atom + 1])
        elif formula is not True:
            self.written.append(frozenset(front if formula is False else (*front, formula)))
