"""Slips: where each is, and what is said of it."""
from __future__ import annotations

import random
import re
import unittest

from view import place, program, slips, syntax_slips
from view.given import given
from view.grammar import VERSION_1, VERSION_2, Grammar, expected_at
from view.tests.slips_table import BANK, CHAT, SEATS, SLIPS, STOCK, TOURNAMENT
from view.words import RESERVED, RESERVED_IN_2, Word, text_of, words

DESIGNS = {"bank": BANK, "seats": SEATS, "chat": CHAT, "stock": STOCK, "tournament": TOURNAMENT}


def refusal_of(text: str) -> str | None:
    status, said = program.run_on(text, "spell")
    return said if status == 3 else None


def front_that_goes_on(all_words: list[Word]) -> int | None:
    """How many words a specification can begin with: by the grammar alone, word by word from the
    first."""
    if all_words[:1] != ["cise"]:
        return 0
    if all_words[1:2] not in (["1"], ["2"]):
        return 1
    grammar = Grammar(int(all_words[1]))
    ways = grammar.at_words([grammar.way((grammar.rules["specification"][0][-1],))])
    for place, word in enumerate(all_words[2:], 2):
        ways = grammar.behind(ways, word)
        if not ways:
            return place
    return None if 0 in ways else len(all_words)


class Table(unittest.TestCase):
    def test_designs_are_specifications(self) -> None:
        for name, text in DESIGNS.items():
            with self.subTest(name):
                self.assertIsNone(refusal_of(text))

    def test_each_slip(self) -> None:
        for design, old, new, place, rule, message in SLIPS:
            with self.subTest(f"{old!r} becomes {new!r}"):
                self.assertEqual(design.count(old), 1)
                text = design.replace(old, new)
                refusal = refusal_of(text)
                self.assertIsNotNone(refusal, "the program accepts this")
                self.assertTrue(
                    given(refusal).startswith(f"refused specification {rule} "), refusal
                )
                self.assertEqual(
                    slips.tell("d.cise", text, given(refusal)).split("\n")[0],
                    f"d.cise:{place}: {message}",
                )

    def test_each_design_and_rule_is_there(self) -> None:
        self.assertEqual({id(it[0]) for it in SLIPS}, {id(it) for it in DESIGNS.values()})
        rules = {it[4].split()[0] for it in SLIPS}
        self.assertEqual(
            rules,
            {"letter", "name", "number", "syntax", "unknown", "twice", "kind", "count", "limit"},
        )

    def test_no_slip_is_told_by_expectations_alone(self) -> None:
        self.assertFalse([it for it in SLIPS if it[5].startswith("expected ")])


class Shown(unittest.TestCase):
    def test_caret_stands_under_the_word(self) -> None:
        text = "cise 1\n\tsort\tA relation r ( Row )\n"
        told = slips.tell("x", text, "refused specification unknown Row word 7").split("\n")
        self.assertEqual(told[0], "x:2:22: unknown name Row")
        self.assertEqual(told[1], "    2 | \tsort\tA relation r ( Row )")
        self.assertEqual(told[2], "      | \t    \t               ^^^")

    def test_long_lines_are_cut_about_the_word(self) -> None:
        text = "cise 1 " + "sort A " * 60 + "\n"
        told = slips.tell("x", text, given(refusal_of(text))).split("\n")
        line, caret = told[1][8:], told[2][8:]
        self.assertLessEqual(len(line), slips.MOST_SHOWN)
        self.assertEqual(line[caret.index("^") : caret.index("^") + 1], "A")

    def test_what_could_stand_there(self) -> None:
        text = "cise 1 sort A relation r ( A A )"
        self.assertEqual(
            slips.tell("x", text, given(refusal_of(text))).split("\n")[0],
            "x:1:30: a comma is missing before this",
        )
        self.assertIn("\n  expected ) or , here\n", slips.tell("x", text, given(refusal_of(text))))

    def test_an_empty_text(self) -> None:
        self.assertEqual(
            slips.tell("x", "", given(refusal_of(""))).split("\n")[0],
            (
                "x:1:1: the text ends here: a specification begins with 'cise 1', or with 'cise 2'"
                " for version 2"
            ),
        )

    def test_a_text_that_is_too_long(self) -> None:
        text = BANK + "# " + "x" * 65536
        self.assertEqual(
            slips.tell("x", text, given(refusal_of(text))).split("\n")[0],
            f"x:14:{65536 - len(BANK) + 1}: a text has at most 65,536 bytes, and they end here",
        )

    def test_bytes_that_are_no_utf_8(self) -> None:
        text = b"cise 1 # \xff\nsort \xe9\n".decode("utf-8", "surrogateescape")
        self.assertEqual(
            slips.tell("x", text, given(refusal_of(text))).split("\n")[0][:24],
            "x:2:6: byte 233 begins n",
        )

    def test_characters_of_several_bytes_before_it(self) -> None:
        text = "cise 1 # é ≥\nsort A\nrelation ≥\n"
        self.assertEqual(
            slips.tell("x", text, given(refusal_of(text))).split("\n")[0],
            "x:3:10: ≥ begins no word: 'at least' is written >=",
        )

    def test_a_deep_formula(self) -> None:
        text = "cise 1 relation a invariant i " + "not " * 200 + "a"
        self.assertIn("at most 200 deep", slips.tell("x", text, given(refusal_of(text))))


class Grammars(unittest.TestCase):
    def test_the_grammar_is_that_of_the_document(self) -> None:
        blocks = re.findall(r"^```\n(.*?)^```$", text_of("docs/users/LANGUAGE.md"), re.M | re.S)
        self.assertIn(VERSION_1.strip(), [it.strip() for it in blocks])
        self.assertIn(VERSION_2.strip(), [it.strip() for it in blocks])

    def test_the_reserved_words_are_those_of_the_grammar(self) -> None:
        quoted = set(re.findall(r'"([a-z]+)"', VERSION_1))
        self.assertEqual(quoted, RESERVED)
        self.assertEqual(set(re.findall(r'"([a-z]+)"', VERSION_2)) - quoted, RESERVED_IN_2)

    def test_random_texts_are_refused_at_the_word_that_the_program_names(self) -> None:
        chance, vocabulary = random.Random(7), sorted(
            {it for text in DESIGNS.values() for it in words(text)}
        )
        refused = 0
        for _ in range(150):
            all_words = list(words(chance.choice(list(DESIGNS.values()))))
            place = chance.randrange(len(all_words))
            all_words[place : place + chance.choice((0, 1))] = [chance.choice(vocabulary)][
                : chance.choice((0, 1, 1))
            ]
            text = " ".join(all_words)
            refusal = refusal_of(text)
            at = front_that_goes_on(words(text))
            if refusal and refusal.split()[2] == "syntax":
                refused += 1
                self.assertEqual(int(refusal.split()[-1]), at, text)
                self.assertTrue(slips.tell("x", text, refusal))
                self.assertNotIn(None, expected_at(words(text), given(at)))
            else:
                self.assertIsNone(at, text)
        self.assertGreater(refused, 80)

    def test_each_word_behind_each_beginning(self) -> None:
        """Something is said wherever the grammar refuses a word, also of texts that nobody
        writes."""
        beginnings = [
            "",
            "cise",
            "cise 1",
            "cise 2",
            "sort",
            "const",
            "const c",
            "relation r",
            "counter c (",
            "initially",
            "initially c",
            "token t ( A",
            "conflict",
            "conflict t (",
            "invariant",
            "invariant i",
            "invariant i forall",
            "invariant i forall x : A",
            "invariant i (",
            "invariant i ( n >=",
            "invariant i not",
            "operation",
            "operation f",
            "operation f (",
            "operation f ( x :",
            "operation f requires",
            "operation f requires ( r ( x )",
            "operation f insert",
            "operation f insert r (",
            "operation f insert r when",
            "operation f add",
            "operation f add c",
            "operation f add c 2",
            "operation f set c n when (",
            "operation f takes",
            "operation f takes t ( x )",
            "operation f end",
        ]
        vocabulary = (
            sorted(RESERVED | RESERVED_IN_2)
            + list("(),:.*+-=<>")
            + ["!=", "<=", ">=", "name", "Requires", "7", "by", "if", "int"]
        )
        chance, told = random.Random(2), 0
        for beginning in beginnings:
            for word in ["", *vocabulary]:
                version = (
                    ""
                    if beginning.startswith("cise") or not beginning
                    else chance.choice(("cise 1 ", "cise 2 "))
                )
                text = f"{version}{beginning} {word} {chance.choice(['', '', *vocabulary])}"
                at = front_that_goes_on(words(text))
                if at is not None:
                    told += 1
                    self.assertIn(
                        ": ",
                        slips.tell("x", text, f"refused specification syntax word {at}").split(
                            "\n"
                        )[0],
                    )
        self.assertGreater(told, 1500)

    def test_each_sample_is_of_the_grammar(self) -> None:
        grammar = Grammar(1)
        found = 0
        for design, old, new, _, _, message in SLIPS:
            sample = message.rpartition(": ")[2]
            if sample.startswith("("):
                found += 1
                self.assertTrue(grammar.accepts("formula", words(sample)), sample)
        self.assertGreaterEqual(found, 8)


class Parts(unittest.TestCase):
    def test_where_a_formula_begins(self) -> None:
        text = "cise 1 invariant i ( n >= 0 and not ( m > 2"
        starts = [place.Place(words(text), at).formula_start() for at in (5, 7, 8, 9, 11, 12)]
        self.assertEqual(starts, [5, 5, 5, 9, 11, 11])

    def test_words_of_version_2(self) -> None:
        self.assertEqual(
            slips.tell("x", "cise 2 sort shared", given(refusal_of("cise 2 sort shared"))).split(
                "\n"
            )[0],
            "x:1:13: 'shared' is a word of the language, so nothing can have it as its name",
        )
        self.assertIsNone(refusal_of("cise 1 sort shared"))


class Names(unittest.TestCase):
    """What is said besides the message."""

    def more(self, text: str) -> str:
        return slips.tell("x", text, given(refusal_of(text))).split("\n")[3].strip()

    def test_a_name_that_is_declared_later(self) -> None:
        self.assertEqual(
            self.more("cise 1 relation r ( A )\nsort A"),
            "It is declared in line 2; what is used has to be declared before.",
        )

    def test_a_name_of_another_operation(self) -> None:
        text = BANK.replace(">= m )\n  add", ">= n )\n  add")
        self.assertEqual(
            self.more(text),
            "A parameter is known in its own operation alone, as this one in deposit (line 5).",
        )

    def test_a_name_of_another_line(self) -> None:
        text = SEATS.replace("insert holds ( p , s )", "insert holds ( q , s )")
        self.assertEqual(
            self.more(text), "A variable is known in its own line alone, as this one in line 11."
        )

    def test_a_name_like_it(self) -> None:
        text = CHAT.replace("observes member ( u", "observes members ( u")
        self.assertEqual(
            self.more(text),
            (
                "Nothing of this name is declared before; here a relation is needed. A name like it"
                " is member (line 5)."
            ),
        )

    def test_what_is_in_scope(self) -> None:
        text = SEATS.replace("takes place ( s )", "takes place ( x )")
        said = (
            "Nothing of this name is declared before; here an element of sort Seat (place 1 of"
            " place) is needed. In scope here: s."
        )
        self.assertEqual(self.more(text), said)

    def test_every_limit_has_a_sentence(self) -> None:
        rows = re.findall(
            r"^\| ([a-z`, ]+) \| [^|]* \| (?:the|its)? ?",
            text_of("docs/users/LANGUAGE.md").partition("| Limit | Most |")[2],
            re.M,
        )
        named = {it for row in rows for it in re.findall(r"`([a-z]+)`", row)}
        from view.name_slips import LIMITS

        self.assertLessEqual({"sorts", "nodes", "literal", "observes", "summands"}, named)
        self.assertEqual(named & set(LIMITS), set(LIMITS))

    def test_expectations_name_every_group(self) -> None:
        for group, name in syntax_slips.GROUPS:
            self.assertIn(name, syntax_slips.expectation(group))


if __name__ == "__main__":
    unittest.main()
