"""All slips of a text at once, and what slips propose to write: the program reads each proposal."""
from __future__ import annotations

import glob
import random
import unittest
from typing import Any, Iterator

from view import program, slips
from view.further_slips import MOST_TOLD, all_slips
from view.given import given
from view.tests.slips_table import BANK, SEATS, SLIPS
from view.words import text_of, words


# A row of the table in which two parameters are wrong.
TWO_AT_ONCE = "Account a , int n"


def refusal_of(text: str) -> str | None:
    status, said = program.run_on(text, "spell")
    return said.strip() if status == 3 else None


def slip_of(text: str, refusal: str) -> slips.Slip:
    return slips.slip_of(text, refusal[len(slips.BEGIN) :])


def fixed(text: str, slip: slips.Slip) -> str:
    start, end, new = given(slip.fix)
    return text[:start] + new + text[end:]


def place_of(text: str, refusal: str) -> Any:
    """Where a refusal is, as the number of letters before it."""
    parts = refusal.split()
    if parts[-2] == "at":
        return slips.at_byte(text, int(parts[-1]))
    found = words(text)
    return found[int(parts[-1])].at if int(parts[-1]) < len(found) else len(text)


class Proposals(unittest.TestCase):
    def test_those_of_the_table_are_accepted(self) -> None:
        proposed = 0
        for design, old, new, *_ in SLIPS:
            text = design.replace(old, new)
            slip = slip_of(text, given(refusal_of(text)))
            if slip.fix:
                proposed += 1
                with self.subTest(f"{old!r} becomes {new!r}"):
                    again = refusal_of(fixed(text, slip))
                    self.assertTrue(again is None or new == TWO_AT_ONCE, again)
                    if ": " in slip.message and slip.fix[2].strip() != "end":
                        self.assertTrue(slip.message.endswith(": " + slip.fix[2]), slip.message)
        self.assertGreater(proposed, 20)

    def test_formulas_that_lack_brackets_or_have_too_many(self) -> None:
        """Each two brackets of a formula away, or doubled: what is proposed then, the program
        reads, or it refuses something behind."""
        chance, proposed, whole = random.Random(11), 0, 0
        for path in chance.sample(sorted(glob.glob("examples/*/*.cise")), 12):
            text = text_of(path)
            for text in without_brackets(text, chance):
                refusal = refusal_of(text)
                slip = refusal and slip_of(text, refusal)
                if not slip or not slip.fix:
                    continue
                proposed += 1
                after = fixed(text, slip)
                again = refusal_of(after)
                whole += again is None
                with self.subTest(f"{path}: {slip.message}"):
                    self.assertTrue(
                        again is None or place_of(after, again) >= slip.fix[0] + len(slip.fix[2]),
                        again,
                    )
        self.assertGreater(proposed, 40)
        self.assertGreater(whole / proposed, 0.9)

    def test_a_comment_never_goes_with_a_proposal(self) -> None:
        text = BANK.replace("( m >= 0 )", "m # how much\n >= 0")
        self.assertIsNone(slip_of(text, given(refusal_of(text))).fix)

    def test_an_end_stands_in_its_own_line(self) -> None:
        text = BANK.replace(
            "  add balance ( a ) n\nend\n", "  add balance ( a ) n # in\n\n# out\n"
        ).replace("\n", "\r\n")
        after = fixed(text, slip_of(text, given(refusal_of(text))))
        self.assertIn("# in\r\nend\r\n\r\n# out\r\n", after)
        self.assertIsNone(refusal_of(after))


def without_brackets(text: str, chance: random.Random) -> Iterator[str]:
    """Texts in each of which two brackets of a formula are away, or stand twice."""
    found, opened, pairs = words(text), [], []
    for it in found:
        if it == "(":
            opened.append(it)
        elif it == ")" and opened:
            pairs.append((opened.pop(), it))
    for left, right in chance.sample(pairs, min(8, len(pairs))):
        yield text[: left.at] + " " + text[left.end : right.at] + " " + text[right.end :]
        yield text[: left.at] + "( (" + text[left.end : right.at] + ") )" + text[right.end :]


class Further(unittest.TestCase):
    def told(self, text: str) -> list[tuple[str, str]]:
        return [
            (f"{it.line}:{it.column}", it.message)
            for it in all_slips(text, given(refusal_of(text)))
        ]

    def test_one_slip_of_the_table_stays_one(self) -> None:
        alone = 0
        for design, old, new, place, _, message in SLIPS:
            text = design.replace(old, new)
            found = self.told(text)
            self.assertEqual(found[0], (place, message))
            alone += len(found) == 1
        self.assertGreater(alone / len(SLIPS), 0.95)

    def test_two_slips_are_both_told(self) -> None:
        chance, seen, both = random.Random(5), 0, 0
        while seen < 60:
            first, second = chance.sample(SLIPS, 2)
            text = both_made(first, second)
            if not text:
                continue
            seen += 1
            found = [it for it, _ in self.told(text)]
            own = slip_of(text, given(refusal_of(text)))
            self.assertEqual(found[0], f"{own.line}:{own.column}")
            self.assertLessEqual(len(found), 4, text)
            both += {first[3], second[3]} <= set(found)
        self.assertGreater(both / seen, 0.85)

    def test_what_follows_from_a_slip_is_not_told(self) -> None:
        self.assertEqual(
            self.told(SEATS.replace("sort Seat\n", "sort Seats\n")), [("5:30", "unknown name Seat")]
        )
        self.assertEqual(
            len(
                self.told(BANK.replace("counter balance ( Account )", "counter balance ( Account"))
            ),
            1,
        )
        self.assertEqual(
            len(
                self.told(
                    BANK.replace(
                        "operation deposit ( a : Account , n : int )",
                        "operation deposit ( a : Account , n : int",
                    )
                )
            ),
            1,
        )

    def test_no_more_than_twenty(self) -> None:
        text = "cise 1\n" + "operation f ( n : int )\n" + "requires n >= 0\n" * 40 + "end\n"
        self.assertEqual(len(self.told(text)), MOST_TOLD)

    def test_the_words_say_which_is_the_programs(self) -> None:
        text = BANK.replace("( n >= 0 )", "n >= 0").replace("( m >= 0 )", "m => 0")
        lines = slips.tell_all("d.cise", text, all_slips(text, given(refusal_of(text)))).split("\n")
        self.assertTrue(lines[0].startswith("d.cise:6:14: "), lines)
        self.assertIn(
            "  The program stops there. Another place, found with the pieces that are wrong "
            "left out:",
            lines,
        )
        self.assertEqual(sum(it.startswith("d.cise:") for it in lines), 2)

    def test_texts_of_any_kind(self) -> None:
        chance, texts = random.Random(3), [BANK, SEATS]
        for _ in range(40):
            text = chance.choice(texts)
            for _ in range(chance.randrange(1, 6)):
                at = chance.randrange(len(text))
                text = (
                    text[:at]
                    + chance.choice(
                        [
                            "",
                            "(",
                            ")",
                            "end",
                            "\x00",
                            "é",
                            "_",
                            "operation",
                            "'",
                            "\n",
                            "x" * 40,
                            "9" * 40,
                        ]
                    )
                    + text[at + chance.randrange(4) :]
                )
            refusal = refusal_of(text)
            if refusal:
                found = all_slips(text, refusal)
                self.assertEqual(
                    (found[0].line, found[0].message),
                    (slip_of(text, refusal).line, slip_of(text, refusal).message),
                )
                self.assertEqual(len({(it.line, it.column) for it in found}), len(found))


def both_made(
    first: tuple[str, str, str, str, str, str], second: tuple[str, str, str, str, str, str]
) -> str | None:
    """The text of a design with two slips in lines that are apart, or None where they don't go
    together."""
    if first[0] is not second[0] or "\n" in "".join([*first[1:3], *second[1:3]]):
        return None
    lines = [it[0][: it[0].index(it[1])].count("\n") for it in (first, second)]
    if abs(lines[0] - lines[1]) < 2 or not all(
        it[4].split()[0] in ("syntax", "unknown", "kind", "count") for it in (first, second)
    ):
        return None
    return first[0].replace(first[1], first[2]).replace(second[1], second[2])


if __name__ == "__main__":
    unittest.main()
