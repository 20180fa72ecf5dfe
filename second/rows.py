"""REPORT, "The rules of a log": rows, and what is done to them."""
from __future__ import annotations
from math import gcd
from typing import NamedTuple, Optional, Tuple

# "the range of a row, -(2^127 - 1) to 2^127 - 1"
MOST = 2 ** 127 - 1


class Broken(Exception):
    """A line is wrong in the way of this name, as `form` or `pivot`."""


class OutOfRange(Broken):
    """A number leaves the range of a row, which is the rule `range`."""


def need(test: bool, rule: str) -> None:
    """The next test of a line; "the order in which rules are tested is the order below"."""
    if not test:
        raise Broken(rule)


class Row(NamedTuple):
    """"a sum of coefficients times whole numbers is at most a bound": names with coefficients that
    aren't 0, by rising names, and the bound."""
    terms: Tuple[Tuple[int, int], ...]
    bound: int

    def coefficient(self, name: int) -> int:
        return dict(self.terms).get(name, 0)


def fit(number: int) -> int:
    if abs(number) > MOST:
        raise OutOfRange("range")
    return number


def tightened(row: Row) -> Row:
    """"To tighten is to divide by the greatest common divisor of the coefficients and to round
    the bound down." A row without terms stays. """
    divisor = 0
    for _, coef in row.terms:
        divisor = gcd(divisor, coef)
    if divisor < 2:
        return row
    return Row(tuple((name, coef // divisor) for name, coef in row.terms), row.bound // divisor)


def opposite(row: Row) -> Row:
    """"The opposite of s <= b is -s <= -b - 1." """
    return Row(tuple((name, -coef) for name, coef in row.terms), fit(-row.bound - 1))


def combined(left: Row, first: int, right: Row, second: int) -> Row:
    """"first times row left plus second times row right, tightened"; each product and each sum of
    coefficients of one name and of bounds is in the range of a row. """
    sums = {name: fit(first * coef) for name, coef in left.terms}
    bound = fit(first * left.bound)
    for name, coef in right.terms:
        sums[name] = fit(sums.get(name, 0) + fit(second * coef))
    bound = fit(bound + fit(second * right.bound))
    return tightened(Row(tuple((name, sums[name]) for name in sorted(sums) if sums[name]), bound))


def names_besides(name: int, *rows: Row) -> list[int]:
    """"each name other than V in the two rows", in rising order."""
    return sorted({place for row in rows for place, _ in row.terms} - {name})


def rest(row: Row, values: dict[int, int]) -> int:
    """"putting the values in, in rising order of names": each product and each partial sum of
    products is in the range of a row. The bound takes no part in it. """
    total = 0
    for name, coef in row.terms:
        total = fit(total + fit(coef * values.get(name, 0)))
    return total


def least_factors(left: Row, right: Row, name: int) -> Optional[Tuple[int, int]]:
    """"at some name its left row has a positive and its right row a negative coefficient, and the
    multipliers are the least that cancel it": these multipliers at this name. """
    one, other = left.coefficient(name), right.coefficient(name)
    if one <= 0 or other >= 0:
        return None
    divisor = gcd(one, other)
    return -other // divisor, one // divisor
