"""`./cise pattern`: the list, one of them under other names, and names that can't be."""
import unittest
from typing import Tuple

from view import main, pattern, program
from view.commands import COMMANDS, taken


def called(*words: str) -> Tuple[int, str]:
    """The status and the text of `pattern` with these words."""
    given = taken(COMMANDS["pattern"], list(words))
    assert given is not None
    return pattern.answer(*given.paths, **given.options)  # type: ignore[arg-type]


class Pattern(unittest.TestCase):
    def test_the_list_has_each_folder(self) -> None:
        status, text = called()
        self.assertEqual(status, 0)
        self.assertEqual([it.split()[0] for it in text.splitlines()], list(pattern.patterns()))
        self.assertGreaterEqual(len(pattern.patterns()), 19)

    def test_each_is_accepted_as_it_stands(self) -> None:
        for name in pattern.patterns():
            with self.subTest(name):
                text = called(name)[1]
                self.assertEqual(text, pattern.part(f"{name}/accepted.cise"))
                self.assertEqual(program.run_on(text, "check")[0], 0)

    def test_names_are_exchanged_at_once(self) -> None:
        plain = called("escrow")[1]
        status, text = called("escrow", "--names", "Site=Shop,sell=pass_on,pass_on=sell")
        self.assertEqual(status, 0)
        self.assertIn("operation sell ( from : Shop , to : Shop , n : int )", text)
        self.assertIn("operation pass_on ( s : Shop , n : int )", text)
        self.assertEqual(plain.split("\ncise 1")[0], text.split("\ncise 1")[0])
        self.assertEqual(program.run_on(text, "check")[0], 0)

    def test_names_that_cannot_be(self) -> None:
        for names in ("Sites=Shop", "Site=sort", "Site=2", "Site=right", "Site=A,right=A", "Site="):
            with self.subTest(names):
                self.assertEqual(called("escrow", "--names", names), (2, ""))
        self.assertEqual(called("escrows"), (2, ""))

    def test_words_of_another_form_are_the_programs(self) -> None:
        self.assertIsNone(taken(COMMANDS["pattern"], ["escrow", "--names"]))
        self.assertIsNone(taken(COMMANDS["pattern"], ["escrow", "--other"]))
        self.assertEqual(main.answered(["pattern", "a", "b"]), (2, "refused words\n"))


if __name__ == "__main__":
    unittest.main()
