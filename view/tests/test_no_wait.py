"""`./cise mend --no-wait`: what each template gives, and that only what spares an order is
taken."""
import os
import unittest
from typing import List

from view import no_wait, program
from view.words import text_of

TOP = os.path.dirname(os.path.dirname(os.path.dirname(os.path.abspath(__file__))))
# The refuted forms, how many of their pairs need an order, and how many do behind the changes.
SPARED = {
    "cart": (1, 0),
    "review": (3, 2),
    "chat": (5, 2),
    "seats": (2, 1),
    "tournament": (2, 1),
    "access": (2, 1),
}
NOT_SPARED = ("bank", "shop", "numbers", "register", "wall")


def design(name: str) -> str:
    """The refuted form of an example."""
    return text_of(f"{TOP}/examples/{name}/refuted.cise")


class NoWait(unittest.TestCase):
    def test_pairs_are_spared_and_invariants_stay(self) -> None:
        for name, (before, after) in SPARED.items():
            with self.subTest(name):
                text = design(name)
                changes, _ = no_wait.spared(text)
                old, new = no_wait.worth_of(text), no_wait.worth_of(changes[-1].text)
                assert old is not None and new is not None
                self.assertEqual((len(old.needed), len(new.needed)), (before, after))
                self.assertLessEqual(new.broken, old.broken)
                self.assertEqual(self.invariants(text), self.invariants(changes[-1].text))

    def invariants(self, text: str) -> List[str]:
        return [it.split()[1] for it in text.splitlines() if it.startswith("invariant ")]

    def test_the_counted_cart_is_accepted(self) -> None:
        changes, _ = no_wait.spared(design("cart"))
        self.assertEqual(
            [it.done for it in changes], ["in_cart is counted: so often put in, so often taken out"]
        )
        self.assertEqual(program.run_on(changes[-1].text, "check")[0], 0)

    def test_nothing_is_taken_that_spares_no_order(self) -> None:
        for name in NOT_SPARED:
            with self.subTest(name):
                self.assertEqual(no_wait.spared(design(name))[0], [])

    def test_a_change_that_breaks_an_invariant_is_not_taken(self) -> None:
        text = (
            "cise 1\nrelation open\ncounter n\ninvariant full ( ( n <= 1 ) or not open )\n"
            "operation close\n  remove open\nend\noperation enter\n  requires not open\n"
            "  add n 1\nend\noperation reopen\n  requires ( n <= 0 )\n  insert open\nend\n"
        )
        old = no_wait.worth_of(text)
        assert old is not None
        for change in no_wait.spared(text)[0]:
            new = no_wait.worth_of(change.text)
            assert new is not None
            self.assertLessEqual(new.broken, old.broken)

    def test_each_text_of_a_template_is_one_of_the_language(self) -> None:
        for name in (*SPARED, *NOT_SPARED, "league", "folders", "users"):
            for change in no_wait.changes_of(design(name)):
                with self.subTest(f"{name}: {change.done}"):
                    self.assertEqual(program.run_on(change.text, "spell")[0], 0)

    def test_ways_are_told_for_each_pair(self) -> None:
        ways, tried = no_wait.ways(design("cart"))
        self.assertEqual(list(ways), [frozenset(("put", "take_out"))])
        self.assertGreaterEqual(tried, 1)


if __name__ == "__main__":
    unittest.main()
