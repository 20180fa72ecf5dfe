"""REPORT, "The evidence of undecided verdicts": what can be checked of it."""
from __future__ import annotations
from typing import NamedTuple, Optional, Sequence, Tuple

from second.log import Log, Step
from second.meaning import MOST_VALUE
from second.numbering import Clause
from second.rows import (Broken, OutOfRange, Row, combined, least_factors, names_besides,
                         rest)

ROW_LIMIT = 10_000
# A line `rows`, `product`, `value` or `sum`: used literals and steps, its rows and its name (`I J
# V` of a product, `I V` of the last two), and the values.
Evidence = NamedTuple("Evidence", [
    ("kind", str), ("used", Tuple[int, ...]), ("steps", Tuple[Step, ...]),
    ("numbers", Tuple[int, ...]), ("values", Tuple[int, ...])])


def is_fresh(log: Log) -> bool:
    """"the log is fresh: no line drops a clause, and the clause of each line contains no
    clause of the problem or of an earlier line, holds no atom both ways and isn't empty". """
    if log.dropped:
        return False
    # A clause that is contained in another has its least literal there.
    by_least: dict[int, list[Clause]] = {}
    for clause in map(log.problem.clause, range(log.problem.clause_count)):
        if not clause:
            # The empty clause is contained in each.
            return not log.clauses
        by_least.setdefault(min(clause), []).append(clause)
    for made in log.clauses:
        if not made or any(literal ^ 1 in made for literal in made):
            return False
        if any(it <= made for literal in made for it in by_least.get(literal, [])):
            return False
        by_least.setdefault(min(made), []).append(made)
    return True


def holds(log: Log, evidence: Optional[Evidence], is_spent: bool) -> bool:
    """"In all three the lines keep their rules and the log is fresh"; "Where literals are used, no
    atom is used both ways, and the rows and the steps keep the rules of a Farkas line but for
    contradiction." """
    if evidence is None:
        # "the log has exactly as many lines as the budget"
        return is_spent and is_fresh(log)
    used = set(evidence.used)
    if not is_fresh(log) or any(literal ^ 1 in used for literal in used):
        return False
    try:
        rows = log.rows(evidence.used, evidence.steps)
    except Broken:
        return False
    if not all(cancels(rows, step) for step in evidence.steps):
        return False
    if evidence.kind == "rows":
        # "there are exactly 10,000 rows, no two are equal, and each step cancels"
        return len(rows) == ROW_LIMIT and len(set(rows)) == ROW_LIMIT
    *places, name = evidence.numbers
    if max(places) >= len(rows):
        return False
    if evidence.kind == "product":
        return product_leaves(rows[places[0]], rows[places[1]], name)
    return values_leave(rows[places[0]], name, evidence)


def cancels(rows: Sequence[Row], step: Step) -> bool:
    """"A step cancels where at some name its left row has a positive and its right row a negative
    coefficient, and the multipliers are the least that cancel it." """
    left, right = rows[step.left], rows[step.right]
    return any(least_factors(left, right, name) == (step.first, step.second)
               for name, _ in left.terms)


def product_leaves(left: Row, right: Row, name: int) -> bool:
    """"the left row has a positive and the right row a negative coefficient at the name, and the
    least sum that cancels it leaves the range of a row" """
    factors = least_factors(left, right, name)
    try:
        if factors:
            combined(left, factors[0], right, factors[1])
    except OutOfRange:
        return True
    return False


def values_leave(row: Row, name: int, evidence: Evidence) -> bool:
    """The evidence `value` and `sum`, "with values from -10^15 to 10^15 for its other names"."""
    names = names_besides(name, row)
    if not row.coefficient(name) or len(names) != len(evidence.values):
        return False
    if any(abs(value) > MOST_VALUE for value in evidence.values):
        return False
    try:
        beyond = rest(row, dict(zip(names, evidence.values))) - row.bound
    except OutOfRange:
        # sum: "putting such values in gives a product or a sum beyond the range of a row"
        return evidence.kind == "sum"
    # value: "no product or sum beyond the range of a row, the row says V >= p with p above 10^15,
    # or V <= q with q below -10^15": p and -q are `beyond` over the size of the coefficient.
    return evidence.kind == "value" and beyond > MOST_VALUE * abs(row.coefficient(name))
