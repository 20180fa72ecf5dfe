"""Witnesses that `check` makes smaller, worked by hand: how many elements and facts each needs, and
which numbers, least first."""
from __future__ import annotations

import unittest
from typing import List, NamedTuple

from view.report import Witness
from view.tests.test_outcome import checked
from view.tree import Spec


class Least(NamedTuple):
    """A specification, an obligation that is refuted, and what its least witness has."""

    text: str
    obligation: str
    elements: int
    facts: int
    numbers: List[int]


TABLE = [
    # (the element of the call may be the constant)
    Least(
        "cise 1 sort U const base : U relation a ( U ) relation b ( U ) relation c ( U )"
        " invariant i forall x : U . ( c ( x ) implies ( a ( x ) or b ( x ) ) )"
        " invariant first ( a ( base ) implies not c ( base ) )"
        " operation o ( x : U ) insert c ( x ) end",
        "safety o i",
        1,
        0,
        [],
    ),
    # (two friends are so both ways, but the calls say so themselves)
    Least(
        "cise 1 sort U relation l ( U , U ) invariant mutual forall x : U , y : U ."
        " ( l ( x , y ) implies l ( y , x ) )"
        " operation tie ( x : U , y : U ) requires ( x != y ) insert l ( x , y )"
        " insert l ( y , x ) end"
        " operation part ( x : U , y : U ) remove l ( x , y ) remove l ( y , x ) end",
        "commute tie part l",
        2,
        0,
        [],
    ),
    # (c is 4 rather than d, so 1 is enough for the argument, and a and b are as large as that)
    Least(
        "cise 1 counter a counter b counter c counter d invariant i0 ( 2 * a <= b + 30 )"
        " invariant i1 ( c - d <= 5 ) invariant i2 ( ( c >= 4 ) or ( d >= 4 ) )"
        " operation less ( n : int ) add a - n end"
        " operation more ( n : int ) requires ( a >= n ) requires ( n <= b ) add c 2 * n end",
        "safety more i1",
        0,
        3,
        [1, 1, 1, 4],
    ),
    # (the values that are set have to differ, and needn't be below 0)
    Least(
        "cise 1 sort K counter value ( K ) operation write ( k : K , v : int )"
        " set value ( k ) v end",
        "commute write write value",
        1,
        0,
        [0, 1],
    ),
]


def numbers_of(spec: Spec, witness: Witness) -> List[int]:
    """The values and whole-number arguments of a witness, the least first."""
    found = list(witness.state.count.values())
    for name, arguments in witness.calls:
        kinds = [sort for _, sort in spec.operations[name].params]
        found += [it for it, sort in zip(arguments, kinds) if sort == "int"]
    return sorted(found)


class WitnessesTest(unittest.TestCase):
    def test_they_are_the_least(self) -> None:
        for least in TABLE:
            with self.subTest(least.obligation):
                spec, report = checked(least.text)
                (block,) = [it for it in report.blocks if it.words() == least.obligation]
                witness = block.refutation()
                state = witness.state
                self.assertEqual(sum(witness.sizes.values()), least.elements)
                self.assertEqual(len(state.true) + len(state.count), least.facts)
                self.assertEqual(numbers_of(spec, witness), least.numbers)


if __name__ == "__main__":
    unittest.main()
