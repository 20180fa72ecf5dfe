"""REPORT, "The rules of a log, and what a log proves": line by line."""
from __future__ import annotations
from typing import NamedTuple, Optional, Sequence, Tuple

from second.numbering import Clause
from second.problem import Problem
from second.rows import Row, combined, names_besides, need, opposite, rest, tightened

# "N steps, each with a row, its multiplier, a row and its multiplier"
Step = NamedTuple("Step", [("left", int), ("first", int), ("right", int), ("second", int)])


class Log:
    """What stands after some lines: their clauses and atoms, and the numbers that are dropped.
    "Clauses and atoms are numbered from 0, those of the problem first." """

    def __init__(self, problem: Problem) -> None:
        self.problem = problem
        self.clauses: list[Clause] = []
        self.clause_count = problem.clause_count
        self.splits: list[Row] = []
        self.split_rows: set[Row] = set()
        self.dropped: set[int] = set()
        self.has_empty = problem.has_empty

    def clause(self, number: int) -> Clause:
        own = number - self.problem.clause_count
        return self.clauses[own] if own >= 0 else self.problem.clause(number)

    def add(self, clause: Clause) -> None:
        self.clauses.append(clause)
        self.clause_count += 1
        self.has_empty = self.has_empty or not clause

    def resolve(self, left: int, right: int, pivot: int) -> None:
        """"Resolve names two clauses, left and right, and an atom, pivot. It gives the left clause
        without +pivot joined with the right one without -pivot." """
        # place: "left or right isn't below the number of clauses, or pivot isn't below the number
        # of atoms"
        count, atoms = self.clause_count, self.problem.atom_count + len(self.splits)
        need(left < count and right < count and pivot < atoms, "place")
        # dropped: "an earlier line dropped left or right"
        need(left not in self.dropped and right not in self.dropped, "dropped")
        # pivot: "the left clause lacks +pivot, or the right one lacks -pivot"
        one, other = self.clause(left), self.clause(right)
        need(2 * pivot in one and 2 * pivot + 1 in other, "pivot")
        self.add((one - {2 * pivot}) | (other - {2 * pivot + 1}))

    def farkas(self, used: Sequence[int], steps: Sequence[Step]) -> None:
        """"The line gives the clause of the opposites of the used literals." """
        last = self.rows(used, steps)[-1]
        # at last, contradiction: "the last row isn't 0 <= b with a negative b"
        need(not last.terms and last.bound < 0, "contradiction")
        self.add(frozenset(literal ^ 1 for literal in used))

    def row(self, atom: int) -> Optional[Row]:
        if atom < len(self.problem.table.rows):
            return self.problem.table.rows[atom]
        own = atom - self.problem.atom_count
        return self.splits[own] if 0 <= own < len(self.splits) else None

    def rows(self, used: Sequence[int], steps: Sequence[Step]) -> list[Row]:
        """"Row i is the row of used literal i, tightened (the atom's row for +, its opposite for
        -). Each step gives the next row, first times row left plus second times row right". """
        # place: "no literal is used, or a used atom doesn't exist or has no row"
        own = [self.row(literal // 2) for literal in used]
        atoms = [it for it in own if it is not None]
        need(bool(used) and len(atoms) == len(own), "place")
        # range: "the opposite of a row leaves the range of a row"
        rows = [tightened(opposite(row) if literal % 2 else row)
                for literal, row in zip(used, atoms)]
        for step in steps:
            # place: "left or right is no earlier row"
            need(step.left < len(rows) and step.right < len(rows), "place")
            # multiplier: "first or second is negative"
            need(step.first >= 0 and step.second >= 0, "multiplier")
            # range: "a product or a sum leaves the range of a row"
            rows.append(combined(rows[step.left], step.first, rows[step.right], step.second))
        return rows

    def split(self, name: int, at: int, used: Sequence[int], steps: Sequence[Step], low: int,
              high: int, values: Sequence[int]) -> None:
        """"Split gives no clause but a new atom, with the row V <= K." """
        # place: "V isn't below the number of names"
        need(name < len(self.problem.table.integers), "place")
        # as for Farkas: "the rows and the steps, but for contradiction"
        rows = self.rows(used, steps)
        # place: "low or high is no row, or there isn't one value for each name other than V in
        # the two rows"
        need(low < len(rows) and high < len(rows), "place")
        others = names_besides(name, rows[low], rows[high])
        need(len(others) == len(values), "place")
        # splitagain: "an atom has exactly the row V <= K"
        row = Row(((name, 1),), at)
        need(row not in self.problem.table.atoms and row not in self.split_rows, "splitagain")
        # splitcause: "the coefficient of V in low isn't negative, or that in high isn't positive"
        down, up = -rows[low].coefficient(name), rows[high].coefficient(name)
        need(down > 0 and up > 0, "splitcause")
        # range: "putting the values in, in rising order of names, gives a product or a sum beyond
        # the range of a row"
        given = dict(zip(others, values))
        least = rest(rows[low], given) - rows[low].bound
        most = rows[high].bound - rest(rows[high], given)
        # splitcause: "now, with the bounds, low says V >= p and high says V <= q, and p or q
        # doesn't lie strictly between K and K + 1"; p is least / down, and q is most / up.
        need(at * down < least < (at + 1) * down, "splitcause")
        need(at * up < most < (at + 1) * up, "splitcause")
        self.splits.append(row)
        self.split_rows.add(row)

    def drop(self, clauses: Tuple[int, ...]) -> None:
        """"Drop names clauses that no later line names." """
        # place: "the list is empty, or one of its numbers isn't below the number of clauses"
        need(bool(clauses) and max(clauses) < self.clause_count, "place")
        # dropped: "a number stands in the list twice, or an earlier line dropped it"
        numbers = set(clauses)
        need(len(numbers) == len(clauses) and not numbers & self.dropped, "dropped")
        self.dropped |= numbers
        for number in numbers:
            if number >= self.problem.clause_count:
                self.clauses[number - self.problem.clause_count] = frozenset()
