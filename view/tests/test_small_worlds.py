"""What `explain` finds in small worlds for obligations with more than 20,000 formulas: a table of
what breaks there and what doesn't, what `verify` says of it, and how much is asked."""
from __future__ import annotations

import unittest
from unittest import mock

from view import explain, inputs, program, small_worlds
from view.report import Block, Report
from view.small_worlds import Tried, confirm, tried
from view.tests.test_outcome import checked, gallery
from view.tree import Spec

HEAD = "cise 1 sort A const k : A relation r ( A , A , A ) counter c ( A ) "
ALL = "forall x : A , y : A , z : A . "
OPERATION = "operation f ( a : A , b : A , d : A ) "
# A specification, and the obligations with too many formulas that break in a small world; none of
# the others does.
TABLE: list[tuple[str, list[str]]] = [
    (
        "cise 1 sort A relation r ( A , A , A )"
        f" invariant i {ALL} ( r ( x , y , z ) implies r ( z , y , x ) )"
        f" {OPERATION} insert r ( a , b , d ) end",
        ["safety f i"],
    ),
    (
        f"{HEAD} invariant i {ALL} ( r ( x , y , z ) implies r ( z , y , x ) )"
        f" {OPERATION} insert r ( a , b , d ) insert r ( d , b , a ) end",
        [],
    ),
    # (two elements are needed, since a and b differ)
    (
        f"{HEAD} invariant i {ALL} not r ( x , y , z )"
        f" {OPERATION} requires not ( a = b ) insert r ( a , b , d ) end",
        ["safety f i"],
    ),
    # (three elements are needed, of which one may be the constant)
    (
        f"{HEAD} invariant i {ALL} not r ( x , y , z ) {OPERATION}"
        " requires not ( a = b ) requires not ( b = d ) requires not ( a = d )"
        " insert r ( a , b , d ) end",
        [],
    ),
    # (whole numbers stay arguments; the second call takes what the first requires)
    (
        f"{HEAD} invariant i {ALL} ( r ( x , y , z ) implies r ( z , y , x ) )"
        " operation f ( a : A , b : A , d : A , n : int ) requires ( c ( a ) >= n )"
        " requires r ( a , b , d ) add c ( b ) - n end",
        ["stable f 1 f"],
    ),
    # (tokens order the two calls where they name the same first element)
    (
        f"{HEAD} token t ( A ) conflict t ( p ) t ( p )"
        f" invariant i {ALL} ( r ( x , y , z ) implies r ( y , x , z ) )"
        f" {OPERATION} requires r ( a , b , d ) takes t ( a ) end"
        " operation g ( a : A , b : A , d : A ) takes t ( a ) remove r ( * , * , * ) end",
        ["stable f 1 g"],
    ),
]


class SmallWorlds(unittest.TestCase):
    def found(self, text: str) -> tuple[Spec, Report, dict[Block, Tried]]:
        spec, report = checked(text)
        return spec, report, tried(spec, report, report.blocks)

    def test_table(self) -> None:
        for text, breaks in TABLE:
            with self.subTest(text=text):
                _, report, found = self.found(text)
                asked = [it for it in report.blocks if it.why == "instances"]
                self.assertTrue(asked)
                self.assertEqual(set(asked), set(found))
                self.assertEqual(breaks, [it.words() for it in asked if found[it].found])
                for it in found.values():
                    self.assertGreater(it.ways, 0)
                    self.assertEqual(it.witness is None, it.found is None)

    def test_what_is_found_is_what_verify_takes(self) -> None:
        spec, report, found = self.found(TABLE[0][0])
        it = next(it for it in found if found[it].found)
        witness = found[it].witness
        assert witness is not None
        self.assertEqual({"A": 2}, witness.sizes)
        self.assertEqual({}, witness.consts)
        for calls, at in (([("f", [0, 0, 0])], witness.at), (witness.calls, [1, 1, 1])):
            # (what breaks nothing is refused, and so isn't found)
            with self.subTest(calls=calls, at=at):
                witness.calls, witness.at, one = calls, at, Tried(1, 0, witness)
                confirm(spec, report, {it: one})
                self.assertIsNone(one.found)

    def test_explain(self) -> None:
        for text, breaks in TABLE:
            with self.subTest(text=text):
                status, said = answered(text)
                self.assertEqual(len(breaks), said.count("as verify\n  confirms:"))
                self.assertEqual(5, status)
                self.assertNotIn("small world", answered(text, no_reach=True)[1])

    def test_none_is_told_as_tried(self) -> None:
        said = " ".join(answered(TABLE[1][0])[1].split())
        sentence = (
            "Calls at one or two elements of each sort were tried, in 8 ways: none breaks it."
        )
        self.assertIn(f"{sentence} Others weren't tried.", said)

    def test_what_is_asked_is_bounded(self) -> None:
        places = "operation f{} ( a : A , b : A , d : A ) insert r ( a , b , d ) end"
        text = f"{HEAD} invariant i {ALL} ( r ( x , y , z ) implies r ( z , y , x ) ) "
        text += " ".join(places.format(it) for it in range(24))
        spec, report = checked(text)
        asked: list[int] = []
        real = program.run_on

        def run_on(text: str, *words: str, report: str | None = None) -> tuple[int, str]:
            status, said = real(text, *words, report=report)
            if words[0] == "check":
                asked.append(sum(it.why != "instances" for it in Report(said).blocks))
            return status, said

        with mock.patch.object(program, "run_on", run_on):
            found = tried(spec, report, report.blocks)
        self.assertLessEqual(sum(asked), small_worlds.MOST_OBLIGATIONS)
        self.assertLessEqual(len(asked), 3 * small_worlds.MOST_GROUPS)
        self.assertLess(0, len(found))
        self.assertLess(len(found), report.undecided)

    def test_one_element_where_two_are_too_many(self) -> None:
        relations = " ".join(f"relation r{it} ( A , A , A )" for it in range(3))
        lines = " ".join(f"invariant i{it} {ALL} not r{it} ( x , y , z )" for it in range(3))
        insert = " ".join(f"insert r{it} ( a , a , a )" for it in range(2))
        _, _, found = self.found(
            f"cise 1 sort A {relations} {lines} operation f ( a : A , b : A , d : A ) {insert} end"
        )
        broken = {it.words(): one for it, one in found.items() if one.found}
        self.assertEqual(["safety f i0", "safety f i1"], list(broken))
        self.assertEqual({1}, {it.ways for it in found.values()})

    def test_other_limits_are_left_alone(self) -> None:
        for name in ("meals", "vast"):
            spec, report = checked(gallery()[f"examples/undecided/{name}.cise"])
            self.assertEqual({}, tried(spec, report, report.blocks))


def answered(text: str, no_reach: bool = False) -> tuple[int, str]:
    """The status and the text of `explain` on a specification."""
    copy = inputs.Copy()
    try:
        copy.add(text.encode())
        return explain.answer(copy.path, no_reach=no_reach)
    finally:
        copy.close()


if __name__ == "__main__":
    unittest.main()
