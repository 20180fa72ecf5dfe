"""Which lines of a specification read no further than one slice of a log. Calls that share an
element stand in one slice. A line is looked at in slices only where, whatever its variables are,
all that it reads and that may differ from the initial state is of one slice; the others are left
out of the text that slices are replayed on, and are named."""
from dataclasses import dataclass
from typing import Any, List, Sequence, Set, Tuple

from view.cut_text import without
from view.formulas import readings_of

# A thing that is read or written, with its arguments.
Atom = Tuple[str, List[str]]


@dataclass
class Sliced:
    """A specification for slices: its `text`; the lines that were `left` out of it as words, and
    where those of them that ask something begin (`gone`); and the most variables of a line that is
    left."""

    text: str
    left: List[str]
    gone: Set[int]
    most_variables: int


class Reach:
    """What the lines of a specification read. `mixed` are the things that a call may change for the
    elements of other slices."""

    def __init__(self, spec: Any) -> None:
        self.spec = spec
        self.written = {
            str(line.thing()[0])
            for it in spec.operations.values()
            for line in it.of("insert", "remove", "add", "set")
        }
        self.params = {
            str(name): [str(it) for it, kind in op.params if kind != "int"]
            for name, op in spec.operations.items()
        }
        self.mixed: Set[str] = set()
        grown = True
        while grown:
            found = {
                it for name, op in spec.operations.items() for it in self.spread(str(name), op)
            }
            grown, self.mixed = not found <= self.mixed, self.mixed | found

    def spread(self, name: str, operation: Any) -> List[str]:
        """The things that an operation changes for other slices, or by what it reads of them."""
        found = []
        for line in operation.of("insert", "remove", "add", "set"):
            thing, spots = line.thing()
            if not self.is_own(
                name, line.head, str(thing), list(map(str, spots))
            ) or not self.keeps(name, self.update_atoms(line)):
                found.append(str(thing))
        return found

    def is_own(self, name: str, head: str, thing: str, spots: Sequence[str]) -> bool:
        """Whether an update changes nothing for tuples that hold no element of its call, and gives
        those that hold others besides their first value."""
        params = self.params[name]
        if not spots:
            return not params
        if not any(it in params for it in spots) or any(it in self.spec.consts for it in spots):
            return False
        first = self.spec.initially.get(thing, "false")
        return "*" not in spots or (head, first) in (("remove", "false"), ("insert", "true"))

    def update_atoms(self, line: Any) -> List[Atom]:
        """What the amount and the guard of an update read."""
        found = [(str(it[1]), list(map(str, it[2]))) for _, it in line.amount() or [] if it]
        guard = line.guard()
        return found + [
            (str(name), list(map(str, args)))
            for name, args in (readings_of(guard) if guard else [])
        ]

    def changing(self, atoms: Sequence[Atom]) -> List[Atom]:
        """The readings of things that some call writes."""
        return [it for it in atoms if it[0] in self.written]

    def keeps(self, name: str, atoms: Sequence[Atom]) -> bool:
        """Whether a call of an operation reads of its own slice alone: each reading has one of its
        elements, or none where it has none."""
        params = self.params[name]
        return all(
            self.is_plain(it) and (any(arg in params for arg in it[1]) if params else not it[1])
            for it in self.changing(atoms)
        )

    def is_plain(self, atom: Atom) -> bool:
        """Whether a reading is of a thing that isn't mixed, and names no constant."""
        return atom[0] not in self.mixed and not any(it in self.spec.consts for it in atom[1])

    def joins(self, line: Any, params: Sequence[str] = ()) -> bool:
        """Whether a line is true wherever its variables are of several slices, or of another one
        than the call's parameters: it has the form that something implies the rest, and relations
        there that are false at first name all variables together.
        """
        names = [str(it) for it, _ in line.vars]
        groups = {it: it for it in names}
        groups.update({it: "" for it in params})
        for name, args in premises(line.tree()) if line.prefix != "exists" else []:
            thing, own = str(name), [str(it) for it in args]
            if (
                thing in self.spec.relations
                and self.spec.initially.get(thing, "false") == "false"
                and self.is_plain((thing, own))
            ):
                known = {groups[it] for it in own if it in groups}
                kept = min(known, default="")
                groups = {it: kept if its in known else its for it, its in groups.items()}
        return len(set(groups.values())) <= 1

    def is_within(self, line: Any) -> bool:
        """Whether an invariant reads of one slice at a time: any two of its readings share a
        variable, or it reads nothing with arguments, or it is true where its variables are of
        several slices."""
        changing = self.changing(atoms_of(line))
        if not all(map(self.is_plain, changing)):
            return False
        if not any(args for _, args in changing):
            return True
        return (
            all(set(one[1]) & set(other[1]) for one in changing for other in changing)
            or self.joins(line)
            and all(args for _, args in changing)
        )

    def is_own_line(self, name: str, line: Any) -> bool:
        """Whether a requires or observes line reads of its call's slice alone."""
        atoms, params = self.changing(atoms_of(line)), self.params[name]
        if self.keeps(name, atoms):
            return True
        return (
            bool(params)
            and all(args and self.is_plain((thing, args)) for thing, args in atoms)
            and self.joins(line, params)
        )


def atoms_of(line: Any) -> List[Atom]:
    """What a requires or observes line or an invariant reads."""
    return [(str(name), list(map(str, args))) for name, args in readings_of(line.tree())]


def premises(formula: Any) -> List[Tuple[str, List[str]]]:
    """The readings of which each makes a formula true where it is false."""
    if formula[0] == "implies":
        return conjuncts(formula[1]) + premises(formula[2])
    if formula[0] == "or":
        return premises(formula[1]) + premises(formula[2])
    return conjuncts(formula[1]) if formula[0] == "not" else []


def conjuncts(formula: Any) -> List[Tuple[str, List[str]]]:
    """The readings that a formula joins by `and`."""
    if formula[0] == "and":
        return conjuncts(formula[1]) + conjuncts(formula[2])
    return [(formula[1], formula[2])] if formula[0] == "reading" else []


def sliced(spec: Any) -> Sliced:
    """The specification for slices."""
    reach, left = Reach(spec), []
    gone_invariants, gone_lines, most = [], set(), 0
    for name, line in spec.invariants.items():
        if reach.is_within(line):
            most = max(most, len(line.vars))
        else:
            gone_invariants.append(str(name))
            left.append(f"invariant {name} (line {line.number})")
    for name, operation in spec.operations.items():
        for line in operation.of("requires", "observes"):
            if reach.is_own_line(str(name), line):
                most = max(most, len(line.vars))
            else:
                gone_lines.add(line.head.at)
                left.append(f"{line.head} of {name} (line {line.number})")

    def is_gone(_: str, line: Any) -> bool:
        is_update = line.head in ("insert", "remove", "add", "set")
        return line.head.at in gone_lines or is_update and str(line.thing()[0]) in reach.mixed

    return Sliced(without(spec, is_gone, gone_invariants), left, gone_lines, most)
