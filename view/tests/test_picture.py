"""Pictures of stories: they hold what the story tells, and nothing in them stands on another or out
of its box."""
from __future__ import annotations

import copy
import functools
import random
import re
import unittest
from typing import Iterator
from unittest import mock

from view import picture, shapes
from view.given import given
from view.shapes import Box, ShortNames, rows_of, wrapped
from view.story import Story, told_blocks
from view.tests.designs import Design
from view.tests.geometry import Picture, pictures_in
from view.tests.test_outcome import checked, gallery
from view.tree import Spec


@functools.lru_cache(maxsize=None)
def refuted_stories(text: str, *words: str) -> tuple[Spec, list[Story]]:
    """A specification, and its stories of refutations. Nothing changes them."""
    spec, report = checked(text, *words)
    return spec, [
        Story(spec, it, report.budget)
        for it in told_blocks(spec, report)
        if it.verdict == "refuted"
    ]


def drawn(spec: Spec, story: Story) -> list[Picture]:
    """Both forms of a story's picture."""
    return pictures_in(picture.pictures(story, picture.short_names(spec)))


# Names of which two become alike where they are shortened, and one doesn't.
ALIKE = """cise 1
sort Customers_of_this_house_today
relation is_registered_first_one_here ( Customers_of_this_house_today )
relation is_registered_sixth_one_here ( Customers_of_this_house_today )
relation is_of_another_kind_altogether ( Customers_of_this_house_today )
operation register ( c : Customers_of_this_house_today )
  insert is_registered_first_one_here ( c )
  insert is_registered_sixth_one_here ( c )
  insert is_of_another_kind_altogether ( c )
end
operation forget ( c : Customers_of_this_house_today )
  remove is_registered_first_one_here ( c )
  remove is_registered_sixth_one_here ( c )
  remove is_of_another_kind_altogether ( c )
end
"""


class Layout(unittest.TestCase):
    def examine(self, name: int | str, text: str, *words: str) -> int:
        spec, told = refuted_stories(text, *words)
        for story in told:
            with self.subTest(name=name, block=story.block.words()):
                both = drawn(spec, story)
                self.assertEqual([it.kind for it in both], ["pic wide", "pic narrow"])
                for it in both:
                    self.assertEqual(it.faults(), [], it.kind)
        return len(told)

    def test_the_gallery(self) -> None:
        self.assertGreater(sum(self.examine(*it) for it in gallery().items()), 50)

    def test_random_designs(self) -> None:
        self.assertGreater(
            sum(
                self.examine(seed, Design(random.Random(seed)).text, "--budget", "60")
                for seed in range(300, 330)
            ),
            30,
        )

    def test_names_that_become_alike(self) -> None:
        self.assertGreater(self.examine("alike", ALIKE), 2)

    def test_faults_are_found(self) -> None:
        """The measures of this test see what a wrong layout does."""
        spec, told = refuted_stories(gallery()["examples/tournament/refuted.cise"])
        for name, value in (("LETTER", 5.9), ("ROW", 9)):
            with self.subTest(name=name), mock.patch.object(shapes, name, value):
                self.assertTrue(any(it.faults() for story in told for it in drawn(spec, story)))

    def test_narrow_pictures_fit_a_telephone(self) -> None:
        for name, text in gallery().items():
            if name.startswith("examples"):
                spec, told = refuted_stories(text)
                for story in told:
                    self.assertLess(
                        drawn(spec, story)[1].whole.right, 420, (name, story.block.words())
                    )


class Content(unittest.TestCase):
    def test_stories(self) -> None:
        """Each call stands in a box with its arguments, and what fails in a red one."""
        kinds = set()
        for name, text in gallery().items():
            spec, told = refuted_stories(text)
            short = picture.short_names(spec)
            for story in told:
                for it in drawn(spec, story):
                    with self.subTest(name=name, block=story.block.words(), form=it.kind):
                        self.calls_are_there(story, it, short)
                        self.failure_is_there(story, it, short)
                        kinds.add(story.kind)
        self.assertEqual(kinds, {"init", "safety", "commute", "stable"})

    def calls_are_there(self, story: Story, seen: Picture, short: ShortNames) -> None:
        boxes = [box for box in seen.boxes if box.name == "call"]
        self.assertEqual(len(boxes), len(story.calls))
        for box, call in zip(sorted(boxes, key=lambda it: (it.top, it.left)), story.calls):
            rows = " ".join(seen.rows_in(box))
            expected = " ".join([call.op] + [f"{name} = {value}" for name, value in call.args])
            self.assertEqual(rows, short(expected))

    def failure_is_there(self, story: Story, seen: Picture, short: ShortNames) -> None:
        red = [" ".join(seen.rows_in(box)) for box in seen.boxes if box.name == "bad"]
        if story.kind != "commute":
            self.assertEqual(len(red), 1)
            head = "invariant" if story.kind in ("init", "safety") else "requires"
            self.assertTrue(red[0].startswith(head), red)
            self.assertIn("bad", str(seen.tips[-1]) if story.kind == "safety" else "bad")
            return
        self.assertEqual(len(red), 2)
        thing = short(story.names.thing(*given(story.differs)))
        for rows, value in zip(red, given(story.end_texts())):
            sign = "is" if given(story.differs)[0] in story.spec.relations else "="
            self.assertTrue(
                without_breaks(rows).startswith(without_breaks(f"{thing} {sign} {value}")),
                (rows, thing, value),
            )

    def test_facts_are_all_there_or_counted(self) -> None:
        for name, text in gallery().items():
            spec, told = refuted_stories(text)
            short = picture.short_names(spec)
            for story in told:
                for it in drawn(spec, story):
                    start = without_breaks(
                        " ".join(it.rows_in(min(it.boxes, key=lambda box: (box.left, box.top))))
                    )
                    facts = [without_breaks(short(fact)) for fact in story.facts]
                    missing = [fact for fact in facts if fact not in start]
                    if missing:
                        self.assertIn(f"\u2026and{len(missing)}more", start, name)
                    if not facts:
                        self.assertEqual(start, "nothingtrue,all0")

    def test_without_values(self) -> None:
        """Where the values aren't known, none is shown."""
        kinds = set()
        for story in self.stories_without_ends():
            kinds.add(story.kind)
            for it in drawn(story.spec, story):
                self.assertEqual(it.faults(), [])
                self.assertNotIn("unchanged", it.words())
                self.assertNotIn("after it", it.words())
                self.assertNotIn("B holds, after its own call", it.words())
                red = [row for box in it.boxes if box.name == "bad" for row in it.rows_in(box)]
                self.assertFalse(
                    any(re.search(" is (true|false)$| = [0-9-]+$", row) for row in red)
                )
        self.assertEqual(kinds, {"safety", "commute", "stable"})

    def stories_without_ends(self) -> Iterator[Story]:
        """Stories of the gallery as they are where the program took no replay of them."""
        for name in ("tournament", "auction", "stock"):
            for it in refuted_stories(gallery()[f"examples/{name}/refuted.cise"])[1]:
                story = copy.copy(it)
                story.ends, story.readings = None, []
                yield story


def without_breaks(text: str) -> str:
    return re.sub(r"\s", "", text)


class Parts(unittest.TestCase):
    def test_long_names_lose_their_middle(self) -> None:
        short = ShortNames(["a_name_of_more_than_twenty", "short", "exactly_twenty_______"[:20]])
        self.assertEqual(short("a_name_of_more_than_twenty(x)"), "a_name_of_m\u2026twenty(x)")
        self.assertEqual(
            short("exactly_twenty_______"[:20] + " short"), "exactly_twenty_______"[:20] + " short"
        )

    def test_names_that_become_alike_are_left_whole(self) -> None:
        alike = ["is_registered_first_one_here", "is_registered_sixth_one_here"]
        short = ShortNames(alike + ["is_of_another_kind_altogether"])
        for name in alike:
            self.assertEqual(short(name), name)
        self.assertEqual(short("is_of_another_kind_altogether"), "is_of_anoth\u2026gether")

    def test_no_two_names_look_alike(self) -> None:
        for text in [*gallery().values(), ALIKE]:
            spec = checked(text)[0]
            short, names = picture.short_names(spec), {
                str(it) for it in spec.words if it[0].isalpha()
            }
            self.assertEqual(len({short(it) for it in names}), len(names))

    def test_rows(self) -> None:
        for text in (
            "balance(Account#0) = 100",
            "enrolled(Player#0, Tournament#0) is true",
            "holds(Passenger#0, Seat#10)",
            "up",
            "a" * 40,
        ):
            for most in (8, 12, 19, 26, 60):
                rows = rows_of(text, most)
                self.assertEqual(without_breaks("".join(rows)), without_breaks(text))
                self.assertTrue(all(it.startswith("  ") for it in rows[1:]))
                for row in rows:
                    self.assertTrue(
                        len(row) <= most or not re.search(r", | = | is ", row.strip()), (row, most)
                    )

    def test_wrapped(self) -> None:
        rows = wrapped("requires forall a : Account . ( balance ( a ) >= 0 )".split(), 16)
        self.assertEqual(
            " ".join(it.strip() for it in rows),
            "requires forall a : Account . ( balance ( a ) >= 0 )",
        )
        self.assertTrue(all(len(it) <= 16 for it in rows))

    def test_a_box_counts_what_it_cuts(self) -> None:
        box = Box([(f"fact {at}", "") for at in range(20)], at_most=9)
        self.assertEqual(
            [it for it, _ in box.rows], [f"fact {at}" for at in range(8)] + ["\u2026 and 12 more"]
        )
        self.assertEqual(len(Box([("a", "")] * 9).rows), 9)

    def test_text_is_escaped(self) -> None:
        seen = Picture(
            shapes.svg(
                300, 40, [Box([("a < b & c", "")], least=200).draw(1, 1)], "wide", 'a "b" <c>'
            )
        )
        self.assertEqual(seen.words(), ["a < b & c"])
        self.assertEqual(seen.whole.name, 'a "b" <c>')


if __name__ == "__main__":
    unittest.main()
