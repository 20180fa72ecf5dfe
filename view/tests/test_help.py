"""Help: each word has a page of the form that view/help/README.md says, and what is said of words
that are none is a line."""
import os
import re
import unittest
from typing import List, Tuple

from launch import help as helping
from launch.answering import OPTIONS, VIEWS
from launch.version import VERSION
from view.commands import COMMANDS, PROGRAM, Command, every_word
from view.given import given
from view.own import own_text

TOP = os.path.dirname(os.path.dirname(os.path.dirname(os.path.abspath(__file__))))
MOST_LINES, MOST_COLUMNS = 20, 80
PARTS = ["Reads", "Writes", "Options", "Status"]
PART = re.compile(r"^(Reads|Writes|Options|Status) +(?=\S)")
INDENT = " " * 10
# What takes an hour, so that no example is tried.
WITHOUT_EXAMPLE = {"prove"}


def parts_of(word: str) -> Tuple[List[str], List[str]]:
    """The lines of a page's parts, and those of its example."""
    text, _, example = own_text(f"help/{word}.txt").partition("\n\n")
    return text.splitlines(), example.splitlines()


class Pages(unittest.TestCase):
    def test_each_word_has_a_page(self) -> None:
        for word in every_word():
            with self.subTest(word):
                self.assertTrue(
                    os.path.isfile(f"{TOP}/view/help/{word}.txt"),
                    "view/help/README.md says how it is written",
                )
                text = helping.page(word) or ""
                lines = text.splitlines()
                self.assertLessEqual(len(lines), MOST_LINES)
                self.assertLessEqual(max(map(len, lines)), MOST_COLUMNS)
                self.assertTrue(
                    text.endswith("\n") and not re.search(r"[ \t]$|\t", text, re.M),
                    "blanks at an end of line",
                )

    def test_each_word_stands_in_a_table_of_commands(self) -> None:
        with open(f"{TOP}/docs/users/COMMANDS.md", encoding="utf-8") as file:
            text = file.read()
        for word in every_word():
            with self.subTest(word):
                self.assertRegex(text, rf"(?m)^\|.*`{word}[ `]")

    def test_each_page_has_its_parts(self) -> None:
        for word, row in every_word().items():
            with self.subTest(word):
                lines, example = parts_of(word)
                self.has_parts(row, lines)
                for it in example:
                    self.assertTrue(it.startswith("  "), it)
                self.assertEqual(
                    any(it.startswith(f"  $ cise {word}") for it in example),
                    word not in WITHOUT_EXAMPLE,
                )

    def has_parts(self, row: Command, lines: List[str]) -> None:
        """Whether the parts of a page stand in order, and name what the row has."""
        heads = [match.group(1) for match in map(PART.match, lines) if match]
        self.assertEqual(heads, [it for it in PARTS if it in heads])
        self.assertLessEqual({"Writes", "Status"}, set(heads))
        for it in lines:
            self.assertTrue(
                it.startswith(INDENT)
                or PART.match(it)
                and len(given(PART.match(it)).group()) == len(INDENT),
                it,
            )
        text = "\n".join(lines)
        for option in row.options:
            self.assertIn(option, text)
        for place in re.findall(r"[A-Z]{2,}", row.usage):
            self.assertIn(place, text, "what stands behind a word is told")

    def test_each_option_stands_in_how_a_word_is_called(self) -> None:
        for word, row in COMMANDS.items():
            for option in row.options:
                self.assertIn(option, row.usage, word)

    def test_no_page_is_of_no_word(self) -> None:
        found = [it[: -len(".txt")] for it in os.listdir(f"{TOP}/view/help") if it.endswith(".txt")]
        self.assertEqual(sorted(found), sorted(every_word()))

    def test_the_list_has_each_word_in_a_line(self) -> None:
        text = helping.overview()
        for word, row in every_word().items():
            self.assertRegex(text, rf"(?m)^  {word} +{re.escape(row.line)}$")
        self.assertLessEqual(max(map(len, text.splitlines())), MOST_COLUMNS)

    def test_the_design_is_the_examples(self) -> None:
        with open(f"{TOP}/examples/bank/refuted.cise", encoding="utf-8") as file:
            self.assertEqual(helping.page("design"), file.read())


class Asked(unittest.TestCase):
    def test_what_asks_for_help(self) -> None:
        for words in (["help"], ["--help"], ["-h"]):
            self.assertEqual(helping.text_for(words), helping.overview())
        for words in (
            ["help", "mend"],
            ["--help", "mend"],
            ["mend", "--help"],
            ["mend", "-h"],
            ["mend", "a", "--help"],
            ["mend", "--what", "-h"],
        ):
            self.assertEqual(helping.text_for(words), helping.page("mend"))
        self.assertEqual(helping.text_for(["help", "--help"]), helping.page("help"))
        self.assertEqual(helping.text_for(["help", "check"]), helping.text_for(["check", "-h"]))
        self.assertEqual(helping.text_for(["--version"]), f"cise {VERSION}\n")

    def test_what_does_not(self) -> None:
        asked: List[List[str]] = [
            [],
            ["check", "help"],
            ["help", "chek"],
            ["chek", "--help"],
            ["help", "a", "b"],
            ["tests", "a", "--", "b", "--help"],
            ["check", "--version"],
        ]
        for words in asked:
            self.assertIsNone(helping.text_for(words), words)


class WrongWords(unittest.TestCase):
    def test_a_line_each(self) -> None:
        for words, said in (
            (["chek", "a"], "there is no word chek (is check meant?); cise help lists all words"),
            (
                ["version"],
                "there is no word version (is --version meant?); cise help lists all words",
            ),
            (["zzzzz"], "there is no word zzzzz; cise help lists all words"),
            (
                ["help", "expalin"],
                "there is no word expalin (is explain meant?); cise help lists all words",
            ),
            (["help", "a", "b"], "help takes one word: cise help WORD"),
            (
                [TOP],
                "the first word says what is to be done, as in: cise explain "
                f"{helping.named(TOP)} (cise help lists all words)",
            ),
            (
                ["check"],
                "these words aren't of the form: cise check SPEC [--budget N] "
                "(cise help check says more)",
            ),
            (["a\x1b[2J\nb"], "there is no word a\\x1b[2J\\nb; cise help lists all words"),
            (
                ["x" * 500],
                f"there is no word {'x' * helping.LONGEST_SHOWN}...; cise help lists all words",
            ),
        ):
            with self.subTest(words):
                self.assertEqual(helping.said_of(words), f"cise: {said}\n")

    def test_no_words(self) -> None:
        self.assertEqual(helping.said_of([]), helping.overview())


class Table(unittest.TestCase):
    def test_a_word_stands_twice_for_an_option_alone(self) -> None:
        self.assertEqual(set(PROGRAM) & set(COMMANDS), set(OPTIONS))
        for word, (option, _) in OPTIONS.items():
            self.assertEqual(list(COMMANDS[word].options), [option])
        self.assertLessEqual(set(VIEWS), set(every_word()))


if __name__ == "__main__":
    unittest.main()
