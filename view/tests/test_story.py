"""Stories: what they say stands in the specification and in the report, and the values that they
show make the failing line false."""
from __future__ import annotations

import random
import re
import unittest
from typing import Any, Sequence

from view import program
from view.formulas import Formula
from view.given import given
from view.report import Block, Report
from view.story import LIMITS, Names, Story, stories, tidy
from view.tests.designs import Design
from view.tests.kinds import KINDS
from view.tests.test_outcome import checked, gallery
from view.tree import Spec
from view.words import Word, words

NAME = re.compile(r"[A-Za-z][A-Za-z0-9_]*(#[0-9]+)?")
SIGNS = {
    "=": "__eq__",
    "!=": "__ne__",
    "<": "__lt__",
    "<=": "__le__",
    ">": "__gt__",
    ">=": "__ge__",
}


def told_of(text: str, *budget: str) -> tuple[Spec, Report, list[Story]]:
    spec, report = checked(text, *budget)
    return spec, report, stories(spec, report)


class Exact(unittest.TestCase):
    """For each story of the gallery and of random designs."""

    def test_the_gallery(self) -> None:
        seen = set()
        for name, text in gallery().items():
            spec, report, told = told_of(text)
            self.assertEqual(
                sum(1 + len(it.others) for it in told), report.refuted + report.undecided
            )
            for story in told:
                for it in (story, *(Story(spec, other, report.budget) for other in story.others)):
                    with self.subTest(name=name, block=it.block.words()):
                        self.examine(spec, it)
                        seen.add((it.kind, it.verdict))
        self.assertEqual(len(seen), 7, seen)

    def test_random_designs(self) -> None:
        count = 0
        for seed in range(200, 240):
            spec, _, told = told_of(
                Design(random.Random(seed), version=1 + seed % 2).text, "--budget", "60"
            )
            for story in told:
                with self.subTest(seed=seed, block=story.block.words()):
                    self.examine(spec, story)
                    count += story.verdict == "refuted"
        self.assertGreater(count, 40)

    def examine(self, spec: Spec, story: Story) -> None:
        self.lines_stand_there(spec, story)
        for name in story.block.names:
            if not name.isdigit():
                self.assertIn(name, re.findall(r"\w+", story.title()))
        if story.verdict == "undecided":
            return
        self.assertIsNone(story.untold)
        self.names_are_its_own(spec, story)
        self.elements_fit(spec, story)
        if story.kind == "commute":
            texts = story.end_texts()
            self.assertNotEqual(*given(texts))
            self.assertIn(f"{given(texts)[0]} at A, {given(texts)[1]} at B", story.ending())
        elif given(story.line).prefix == "exists":
            self.assertEqual(story.readings, [])
        else:
            self.assertFalse(is_true(story, given(story.line).tree()), story.readings)

    def lines_stand_there(self, spec: Spec, story: Story) -> None:
        """Each line that is shown stands at its number; of commute they write the thing, else it is
        the one that the obligation names."""
        rows = spec.text.split("\n")
        for line in story.lines:
            self.assertTrue(
                rows[line.number - 1].startswith(line.text.split("\n")[0], line.head.column - 1)
            )
        if story.kind == "commute":
            self.assertTrue(story.lines)
            self.assertEqual({it.body[0] for it in story.lines}, {story.block.names[2]})
        else:
            self.assertEqual(story.lines, [story.line])
            head = {"stable": "requires"}.get(story.kind, f"invariant {story.block.names[-1]} ")
            self.assertTrue(" ".join(words(given(story.line).text)).startswith(head))

    def names_are_its_own(self, spec: Spec, story: Story) -> None:
        """Every name in the texts of a story is the specification's, or an element that is
        there."""
        texts = story.facts + story.also + [it.text() for it in story.calls]
        texts += [it[0] for it in story.readings] + [f"{a} = {b}" for a, b in story.where]
        elements = {f"{sort}#{at}" for sort, size in story.sizes.items() for at in range(size)}
        known = set(spec.words) | elements | {"is"}
        for text in texts:
            for match in NAME.finditer(text):
                self.assertIn(match.group(), known)
        # Each element is named somewhere.
        said = " ".join(
            texts + [story.world()] + ([story.names.thing(*story.differs)] if story.differs else [])
        )
        named = {match.group() for match in NAME.finditer(said)} | set(spec.consts)
        silent = story.silent_elements()
        for sort, size in story.sizes.items():
            for at in range(size):
                name = story.names.element(sort, at)
                self.assertTrue(name in named or name in silent, (name, said))

    def elements_fit(self, spec: Spec, story: Story) -> None:
        """There are as many elements as the line has variables, or the thing places."""
        at = given(story.block.witness).at
        if story.kind == "commute":
            self.assertEqual(len(at), len(spec.places(story.block.names[2])))
        else:
            self.assertEqual(
                len(at), 0 if given(story.line).prefix == "exists" else len(given(story.line).vars)
            )
            self.assertEqual(
                [it for it, _ in story.where], [it for it, _ in given(story.line).vars][: len(at)]
            )
        for call, (_, args) in zip(story.calls, given(story.block.witness).calls):
            self.assertEqual(len(call.args), len(args))


def is_true(
    story: Story,
    formula: tuple[
        Sequence[
            Sequence[Sequence[Sequence[int | str | None] | int | str | None] | int | str | None]
            | str
        ]
        | str,
        ...,
    ],
) -> bool:
    """Whether a formula is true by what a story shows: its readings, the elements of its variables,
    and the arguments of its call."""
    shown = {text: value for text, value, _ in story.readings}
    names: dict[str, str] = dict((str(it), value) for it, value in story.where)
    if story.kind == "stable":
        names.update(story.calls[0].args)
    names.update(
        (it, story.names.element(sort, given(story.block.witness).consts[it]))
        for it, sort in story.spec.consts.items()
    )

    def reading(name: Word, arguments: list[Word]) -> str:
        return shown[name + (f"({', '.join(names[it] for it in arguments)})" if arguments else "")]

    def term(parts: list[tuple[int, tuple[str, Word, list[Word]] | None]]) -> int:
        return sum(
            coefficient * (int(reading(*part[1:])) if part else 1) for coefficient, part in parts
        )

    def truth(it: Formula) -> bool:
        if it[0] in ("true", "false"):
            return bool(it[0] == "true")
        if it[0] == "not":
            return not truth(it[1])
        if it[0] == "reading":
            return reading(*it[1:]) == "true"
        if it[0] == "compare":
            sides = [
                side[0][1] for side in it[2:] if len(side) == 1 and side[0][0] == 1 and side[0][1]
            ]
            if len(sides) == 2 and all(
                not side[2] and side[1] in names and side[1] not in shown for side in sides
            ):
                return bool((names[sides[0][1]] == names[sides[1][1]]) == (it[1] == "="))
            return bool(getattr(term(it[2]), SIGNS[it[1]])(term(it[3])))
        left, right = truth(it[1]), truth(it[2])
        return {"and": left and right, "or": left or right, "implies": not left or right}[it[0]]

    return truth(formula)


class Worded(unittest.TestCase):
    def titles(self, text: str, *budget: str) -> list[str]:
        return [it.title() for it in told_of(text, *budget)[2]]

    def test_titles(self) -> None:
        self.assertEqual(
            self.titles(gallery()["examples/flags/refuted.cise"]), ["stored is false at the start"]
        )
        self.assertEqual(self.titles(KINDS["COUNTED"]), ["undo breaks counted"])
        both = [
            "join and leave leave on different",
            "join and leave leave sum different",
            "two calls of leave leave on different",
        ]
        self.assertEqual(self.titles(KINDS["SETTLED"]), both)
        self.assertEqual(self.titles(KINDS["ROOMS"]), ["shut takes away what start requires"])
        self.assertEqual(
            self.titles(gallery()["examples/bank/refuted.cise"]),
            ["another withdraw takes away what withdraw requires"],
        )

    def test_titles_of_what_is_undecided(self) -> None:
        found = self.titles(gallery()["examples/tournament/refuted.cise"], "--budget", "1")
        self.assertIn("whether sign_up keeps registered", found)
        self.assertIn("whether two calls of call_off leave tournament alike in both orders", found)
        self.assertIn("whether another enroll leaves standing what enroll requires", found)

    def test_limits(self) -> None:
        spec, report = checked("cise 1 relation up invariant alive up operation f end")
        block = report.blocks[0]
        block.verdict = "undecided"
        for why in LIMITS:
            block.why = why
            self.assertNotIn(
                "{", Story(spec, block, 10_000).limit + Story(spec, block, 10_000).todo
            )
        block.why = "lines"
        self.assertEqual(
            Story(spec, block, 10_000).limit,
            "Its log reached the budget of 10,000 lines without an end.",
        )
        self.assertEqual(
            Story(spec, block, 10_000).todo,
            "A larger budget may decide it: check SPEC --budget 100000.",
        )
        self.assertEqual(
            Story(spec, block, 999_999).todo,
            "A larger budget may decide it: check SPEC --budget 1000000.",
        )
        self.assertNotIn("larger", Story(spec, block, 1_000_000).todo)

    def test_each_limit_is_met(self) -> None:
        met = {
            it.why
            for name in ("crowd", "meals", "vast")
            for it in told_blocks(gallery()[f"examples/undecided/{name}.cise"])
        }
        met |= {
            it.why
            for it in told_blocks(gallery()["examples/tournament/refuted.cise"], "--budget", "1")
        }
        self.assertEqual(met, set(LIMITS))

    def test_elements_that_are_only_there(self) -> None:
        spec, report = checked(KINDS["SILENT"])
        block = report.with_verdict("refuted")[0]
        self.assertEqual(Story(spec, block, 1).world(), "Room#0 is there too.")
        given(block.witness).sizes["Room"] = 2
        self.assertEqual(Story(spec, block, 1).world(), "Room#0 and Room#1 are there too.")
        given(block.witness).sizes["Room"] = 64
        self.assertEqual(
            Story(spec, block, 1).world(),
            "Room#0, Room#1, Room#2, Room#3, Room#4 and 59 more elements are there too.",
        )

    def test_constants(self) -> None:
        spec = Spec("cise 1 sort A const c : A const d : A const e : A relation r ( A , A )")
        names = Names(spec, {"c": 1, "d": 0, "e": 1})
        self.assertEqual(names.thing("r", (1, 2)), "r(c, A#2)")
        self.assertEqual(names.also, ["e is c"])
        self.assertEqual(names.element("int", -5), "-5")

    def test_order(self) -> None:
        """The start, each operation alone, then pair by pair; what is refuted before what is
        undecided."""
        told = told_of(gallery()["examples/folders/refuted.cise"])[2]
        pairs = [tuple(sorted(given(it.block.pair()))) for it in told]
        self.assertEqual(pairs, sorted(pairs, key=pairs.index))
        verdicts = [
            it.verdict
            for it in told_of(gallery()["examples/tournament/refuted.cise"], "--budget", "1")[2]
        ]
        self.assertEqual(verdicts, sorted(verdicts))
        self.assertEqual(set(verdicts), {"refuted", "undecided"})
        mixed = (
            "cise 1 relation up invariant alive up relation hot operation f requires hot insert hot"
            " end operation g remove hot remove up end"
        )
        found = [[it.words() for it in (story.block, *story.others)] for story in told_of(mixed)[2]]
        self.assertEqual(
            found, [["init alive"], ["safety g alive"], ["commute f g hot", "stable f 1 g"]]
        )

    def test_observed(self) -> None:
        told = told_of(KINDS["WRITTEN"])[2]
        self.assertEqual(
            told[0].observed(),
            "The witness need not keep what write observes: no obligation asks it.",
        )
        self.assertIsNone(told_of(KINDS["ROOMS"])[2][0].observed())

    def test_tidy(self) -> None:
        for text, said in (
            ("( balance ( a ) >= n )", "(balance(a) >= n)"),
            (
                "forall a : A , b : B . not ( r ( a ) and not up )",
                "forall a: A, b: B. not (r(a) and not up)",
            ),
            ("requires ( 2 * k ( a ) - 1 = 0 )", "requires (2 * k(a) - 1 = 0)"),
        ):
            self.assertEqual(tidy(words(text)), said)


def told_blocks(text: str, *budget: str) -> list[Block]:
    return checked(text, *budget)[1].with_verdict("undecided")


if __name__ == "__main__":
    unittest.main()
