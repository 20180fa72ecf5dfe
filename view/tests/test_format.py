"""The layout of texts: the words and the comments stay, and a second time changes nothing."""
from __future__ import annotations

import glob
import os
import random
import re
import tempfile
import unittest

from view import inputs, program
from view.format import JOINED, WIDEST, Unformatted, answer, formatted, laid_out
from view.tests.designs import Design
from view.tests.slips_table import BANK, CHAT, SEATS, STOCK, TOURNAMENT
from view.words import text_of, words

DESIGNS = [BANK, CHAT, SEATS, STOCK, TOURNAMENT]
PATTERNS = glob.glob("patterns/*/*.cise")
COMMENT = re.compile(r"#[^\n]*")


def spelled(text: str) -> tuple[int, str]:
    return program.run_on(text, "spell")


def comments(text: str) -> list[str]:
    return [it.rstrip() for it in COMMENT.findall(text)]


def gallery() -> list[str]:
    return sorted(glob.glob("examples/*/*.cise") + glob.glob("cases/*.cise") + PATTERNS)


def shuffled(text: str, chance: random.Random) -> str:
    """The words of a text in a layout of chance, with comments between some of them; a comment
    ends its line."""
    found: list[str] = []
    for it in words(text):
        found.append(it)
        if chance.random() < 0.04:
            found.append(f" # {chance.choice(['one', 'two  words', '( bracket', '#'])}\n")
        found.append(chance.choice([" ", " ", "  ", "\n", "\n\n\n", "\t", " \r\n"]))
    return "".join(found)


class Layout(unittest.TestCase):
    def assert_is_layout(self, text: str, new: str) -> None:
        self.assertEqual(list(words(new)), list(words(text)))
        self.assertEqual(comments(new), comments(text))
        self.assertEqual(laid_out(new), new)
        self.assertFalse(re.search(r"\n\n\n|[ \t]+\n|\A\n|\n\n\Z", new.replace("\r\n", "\n")))

    def test_the_gallery(self) -> None:
        for path in gallery():
            with self.subTest(path):
                text = text_of(path)
                new = formatted(text)
                self.assert_is_layout(text, new)
                self.assertEqual(spelled(new), spelled(text))

    def test_texts_without_comments_and_breaks_are_as_spell_writes_them(self) -> None:
        for text in [*DESIGNS, *(Design(random.Random(it)).text for it in range(6))]:
            spelling = spelled(text)[1]
            if max(map(len, spelling.split("\n"))) <= WIDEST:
                self.assertEqual(formatted(spelling), spelling)

    def test_random_layouts(self) -> None:
        chance = random.Random(9)
        texts = [*DESIGNS, *map(text_of, chance.sample(gallery(), 20))]
        for text in texts:
            for _ in range(10):
                other = shuffled(text, chance)
                self.assert_is_layout(other, laid_out(other))
        for text in texts[:8]:
            other = shuffled(text, chance)
            self.assertEqual(spelled(formatted(other)), spelled(text))

    def test_comments_and_blank_lines(self) -> None:
        text = "\n\n# head\n\n\ncise 1\nsort A   # things\n\n\n\nrelation r(A)\n#of it\n"
        text += "operation f(a:A)# f\n# why\nrequires not r(a)\n\n  # then\n  insert r(a)\n"
        text += "# last\nend\n# tail"
        new = "# head\n\ncise 1\nsort A    # things\n\nrelation r ( A )\n#of it\n"
        new += "operation f ( a : A )    # f\n  # why\n  requires not r ( a )\n\n  # then\n"
        new += "  insert r ( a )\n  # last\nend\n# tail\n"
        self.assertEqual(laid_out(text), new)

    def test_broken_lines(self) -> None:
        short = "cise 1\nrelation r\ninvariant i\n  ( r\n implies r )\n"
        self.assertEqual(laid_out(short), "cise 1\nrelation r\ninvariant i ( r implies r )\n")
        part = "( known_relation implies known_relation )"
        whole = f"( {part} and {part} )"
        kept = f"cise 1\nrelation known_relation\ninvariant i\n  {whole}\n"
        self.assertEqual(laid_out(kept.replace("\n  ", "\n      ")), kept)
        long = f"cise 1\nrelation known_relation\ninvariant i ( {whole} and {whole} )\n"
        for line in laid_out(long).split("\n"):
            self.assertLessEqual(len(line), WIDEST)
        self.assertGreater(len(whole), JOINED)
        self.assertIn("\n  and ( (", laid_out(long))

    def test_carriage_returns_and_bytes(self) -> None:
        text = b"cise 1\r\nsort   A # \xff\r\n".decode("utf-8", "surrogateescape")
        self.assertEqual(laid_out(text), "cise 1\r\nsort A    # \udcff\r\n")

    def test_comments_that_stand_together(self) -> None:
        text = "cise 1\nsort A # one\nsort Longer # two\nsort B\nsort C # three\n"
        self.assertEqual(
            laid_out(text),
            "cise 1\nsort A         # one\nsort Longer    # two\nsort B\nsort C    # three\n",
        )

    def test_a_refused_text(self) -> None:
        with self.assertRaises(Unformatted):
            formatted("cise 1 sort")


class Command(unittest.TestCase):
    def test_check(self) -> None:
        with tempfile.TemporaryDirectory() as folder:
            path = os.path.join(folder, "d.cise")
            with open(path, "w", encoding="utf-8") as file:
                file.write("cise 1\nsort  A\n")
            copy = inputs.read(path).path
            try:
                self.assertEqual(answer(copy), (0, "cise 1\nsort A\n"))
                self.assertEqual(answer(copy, check=True), (1, ""))
            finally:
                inputs.close(copy)
            self.assertEqual(text_of(path), "cise 1\nsort  A\n")


if __name__ == "__main__":
    unittest.main()
