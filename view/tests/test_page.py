"""Pages on designs against the reports that they tell of: each obligation, each story, each cell;
that they stand alone, and that every link leads somewhere."""
from __future__ import annotations

import functools
import os
import random
import re
import subprocess
import sys
import tempfile
import unittest
from typing import Any, Callable

from view import order, page, program
from view.given import given
from view.report import Block, Report
from view.story import stories
from view.tests.designs import Design
from view.tests.kinds import KINDS
from view.tests.page_tree import Element, Tree, text_in
from view.tests.test_outcome import gallery, report_on
from view.tree import Spec
from view.words import text_of

OUTSIDE = re.compile(r"<script|<link|<iframe|<object|\bsrc=|\bon[a-z]+=|https?:|url\(|@import")
VERDICTS = ("refuted", "undecided", "proved")


def page_on(text: str) -> tuple[int, str]:
    """The status and the page on a text."""
    with tempfile.TemporaryDirectory() as folder:
        path = os.path.join(folder, "design.cise")
        with open(path, "wb") as file:
            file.write(text.encode("utf-8", "surrogateescape"))
        return page.answer(path, no_reach=True)


@functools.lru_cache(maxsize=None)
def pages() -> dict[str, tuple[Spec, Report, str, Tree]]:
    """Designs by name: the specification, the report and the page, as text and as a tree. The
    random ones are checked with a small budget, so that some obligations are undecided."""
    found = {}
    designs: dict[str, tuple[str, tuple[str, ...]]] = {
        name: (text, ()) for name, text in gallery().items()
    }
    designs.update(
        {
            f"random {seed}": (
                Design(random.Random(seed), version=1 + seed % 2).text,
                ("--budget", "40"),
            )
            for seed in range(400, 425)
        }
    )
    for name, (text, words) in designs.items():
        spec, report = Spec(text), Report(report_on(text, *words))
        html = page.page_of(page.Design(spec, report), name)
        found[name] = spec, report, html, Tree(html)
    return found


def lost_links(tree: Tree) -> list[str]:
    """Links that lead nowhere, and names of places that stand twice."""
    places = [it.attributes["id"] for it in tree.elements() if "id" in it.attributes]
    links = [it.attributes["href"] for it in tree.all("a")]
    return [it for it in links if not it.startswith("#") or it[1:] not in places] + sorted(
        {it for it in places if places.count(it) > 1}
    )


class EachPage(unittest.TestCase):
    """What is true of each page of the gallery, of what is out of the ordinary, and of random
    designs."""

    def each(self, examine: Callable[..., Any]) -> None:
        for name, it in pages().items():
            with self.subTest(name=name):
                examine(*it)

    def test_stands_alone(self) -> None:
        def examine(_spec: Spec, _report: Report, html: str, tree: Tree) -> None:
            self.assertEqual(OUTSIDE.findall(html), [])
            self.assertEqual(lost_links(tree), [])
            self.assertTrue(tree.all("a"))

        self.each(examine)

    def test_what_is_not_alone_is_found(self) -> None:
        html = pages()["examples/bank/refuted.cise"][2]
        for planted in (
            "<script>",
            '<img src="x">',
            '<p onclick="x">',
            '<a href="http://a">',
            "@import",
            "url(x)",
        ):
            self.assertTrue(OUTSIDE.findall(html + planted), planted)
        self.assertEqual(
            lost_links(Tree(html.replace('id="story-1"', 'id="story-9"'))),
            ["#story-1"] * html.count('href="#story-1"'),
        )
        self.assertEqual(lost_links(Tree(html.replace('id="line-2"', 'id="line-1"'))), ["line-1"])

    def test_counts(self) -> None:
        def examine(_spec: Spec, report: Report, _html: str, tree: Tree) -> None:
            counts = dict(zip(VERDICTS, (report.refuted, report.undecided, report.proved)))
            said = ", ".join(f"{counts[it]} {it}" for it in VERDICTS)
            self.assertEqual(
                tree.one("p", "counts").text(), f"{len(report.blocks)} obligations: {said}"
            )
            self.assertEqual(tree.one("div", "banner").one("p", "word").text(), report.word)
            bar = [
                (it.classes()[0], it.attributes["style"]) for it in tree.one("div", "bar").all("i")
            ]
            self.assertEqual(bar, [(it, f"flex:{counts[it]}") for it in VERDICTS if counts[it]])

        self.each(examine)

    def test_an_item_for_each_block(self) -> None:
        def examine(spec: Spec, report: Report, _html: str, tree: Tree) -> None:
            items = {
                it.attributes["id"]: it
                for part in tree.all("ul", "blocks")
                for it in part.all("li")
            }
            self.assertEqual(
                sorted(items), sorted(f"obligation-{it.line_in_report}" for it in report.blocks)
            )
            for block in report.blocks:
                item = items[f"obligation-{block.line_in_report}"]
                self.assertEqual(item.classes(), [block.verdict])
                for name in block.names:
                    self.assertIn(name, item.text())
                fold = given(given(item.parent).parent)
                self.assertEqual(
                    (given(fold).tag, given(fold).attributes["id"]),
                    ("details", fold_of(spec, block)),
                )
                if block.verdict == "proved":
                    self.assertIn(f"{block.count:,} log line", item.text())

        self.each(examine)

    def test_a_story_for_each_that_is_not_proved(self) -> None:
        def examine(spec: Spec, report: Report, _html: str, tree: Tree) -> None:
            cards = tree.all("article", "story")
            told = stories(spec, report)
            self.assertEqual(
                [it.attributes["id"] for it in cards],
                [f"story-{at}" for at in range(1, len(told) + 1)],
            )
            self.assertEqual(
                sum(1 + len(it.others) for it in told), report.refuted + report.undecided
            )
            for number, (card, story) in enumerate(zip(cards, told), 1):
                self.assertIn(story.verdict, card.classes())
                self.assertEqual(
                    [it.text() for it in card.all("a", "where")],
                    [it.words() for it in (story.block, *story.others)],
                )
                self.assertEqual(card.one("h3").text(), f"{number}. {story.title()}")
                self.leads_on(card, number, len(told), spec)
                forms = [it.classes()[1] for it in card.all("svg", "pic")]
                self.assertEqual(forms, ["wide", "narrow"] if story.verdict == "refuted" else [])
                said = (
                    [story.limit, story.todo]
                    if story.verdict == "undecided"
                    else [story.ending(), *(it.text() for it in story.calls)]
                )
                for it in said:
                    self.assertIn(it, card.text())

        self.each(examine)

    def leads_on(self, card: Element, number: int, count: int, spec: Spec) -> None:
        """A card can be folded, stands open, and leads to the next one, or from the last to the
        pairs."""
        self.assertIn("open", card.all("details")[0].attributes)
        links = [it.one("a").attributes["href"] for it in card.all("p", "next")]
        last = ["#matrix"] if spec.operations else []
        self.assertEqual(links, [f"#story-{number + 1}"] if number < count else last)

    def test_what_is_ordered(self) -> None:
        """Each ordered pair is listed, with what it is ordered on."""
        seen = 0

        def examine(spec: Spec, report: Report, _html: str, tree: Tree) -> None:
            nonlocal seen
            rows = [it for part in tree.all("ul", "orders") for it in part.all("li")]
            pairs = [
                it
                for it in dict.fromkeys(order.pairs(spec, report.blocks).values())
                if it.conditions
            ]
            self.assertEqual(
                [it.one("a").attributes["href"] for it in rows], [f"#{it.id()}" for it in pairs]
            )
            for row, pair in zip(rows, pairs):
                self.assertIn(order.sentence(pair.conditions, pair.f, pair.g), row.text())
                seen += 1

        self.each(examine)
        self.assertGreater(seen, 40)

    def test_lines_of_stories(self) -> None:
        """Each number of a story's line leads to the same words in the whole text."""
        seen = []

        def examine(_spec: Spec, _report: Report, _html: str, tree: Tree) -> None:
            rows = {it.attributes["id"]: it for it in tree.one("pre", "source").all("span", "row")}
            for card in tree.all("article", "story"):
                for row in [
                    it for part in card.all("pre", "line") for it in part.all("span", "row")
                ]:
                    link = row.one("a", "number")
                    whole = rows[link.attributes["href"][1:]]
                    self.assertEqual(whole.one("span", "number").text(), link.text())
                    self.assertIn(text_in(row.parts[1]).strip(), whole.text())
                    seen.append(link.text())

        self.each(examine)
        self.assertGreater(len(seen), 80)

    def test_the_whole_text(self) -> None:
        def examine(spec: Spec, _report: Report, _html: str, tree: Tree) -> None:
            rows = tree.one("pre", "source").all("span", "row")
            lines = spec.text.rstrip("\r\n").split("\n")
            self.assertEqual(
                [it.one("span", "number").text() for it in rows],
                [str(at) for at in range(1, len(lines) + 1)],
            )
            for row, line in zip(rows, lines):
                shown = re.sub(
                    "[\x00-\x08\x0b-\x1f\x7f-\xa0\u200b-\u200f\u2028-\u202e\u2066-\u2069"
                    "\ud800-\udfff]",
                    lambda it: ascii(it[0])[1:-1].replace("udc", "x"),
                    line.rstrip(),
                )
                self.assertEqual(text_in(row.parts[1]), shown)

        self.each(examine)


def fold_of(spec: Spec, block: Block) -> str:
    """The fold in which a block stands."""
    if block.kind == "init":
        return "start"
    if block.kind == "safety":
        return f"alone-{block.names[0]}"
    both = block.names[0], block.names[1 if block.kind == "commute" else 2]
    return "-".join(["pair", *sorted(both, key=list(spec.operations).index)])


class Matrices(unittest.TestCase):
    """A cell for each operation alone and each two operations in both orders."""

    def expected(self, spec: Spec, blocks: list[Block], f: str, g: str) -> str:
        """The sign of a cell, from the blocks that name both operations and from the rules."""
        verdicts = {it.verdict for it in blocks}
        for it in ("refuted", "undecided"):
            if it in verdicts:
                return it
        return "ordered" if order.conditions(spec, f, g) else "proved"

    def about(self, report: Report, f: str, g: str) -> list[Block]:
        """The blocks that are about a call of f and a call of g."""
        found = []
        for it in report.blocks:
            both = {"commute": it.names[:2], "stable": it.names[::2]}.get(it.kind)
            if both in ([f, g], [g, f]):
                found.append(it)
        return found

    def test_each_cell(self) -> None:
        signs: dict[str, int] = {}
        for name, (spec, report, _, tree) in pages().items():
            with self.subTest(name=name):
                operations = list(map(str, spec.operations))
                if not operations:
                    continue
                table = tree.one("table", "matrix")
                heads = [it.text() for it in table.all("th") if it.inside("thead")]
                self.assertEqual(heads, ["alone"] + operations)
                rows = [it for it in table.all("tr") if it.inside("tbody")]
                self.assertEqual([it.one("th").text() for it in rows], operations)
                cards = tree.all("article", "story")
                numbers = {
                    it.attributes["id"]: {part.text() for part in it.all("a", "where")}
                    for it in cards
                }
                for f, row in zip(operations, rows):
                    cells = row.all("td")
                    self.assertEqual(len(cells), len(operations) + 1)
                    own = [it for it in report.blocks if it.kind == "safety" and it.names[0] == f]
                    verdicts = {it.verdict for it in own}
                    alone = next(
                        (it for it in ("refuted", "undecided") if it in verdicts), "proved"
                    )
                    self.examine(cells[0], alone, own, f"alone-{f}", numbers)
                    for g, cell in zip(operations, cells[1:]):
                        blocks = self.about(report, f, g)
                        state = self.expected(spec, blocks, f, g)
                        self.examine(
                            cell,
                            state,
                            blocks,
                            "-".join(["pair", *sorted((f, g), key=operations.index)]),
                            numbers,
                        )
                        self.words(spec, cell, state, f, g)
                        signs[state] = signs.get(state, 0) + 1
        self.assertGreater(
            min(signs[it] for it in ("refuted", "undecided", "ordered", "proved")), 10, signs
        )

    def examine(
        self,
        cell: Element,
        state: str,
        blocks: list[Block],
        fold: str,
        numbers: dict[str, set[str]],
    ) -> None:
        """A cell has the class, the sign and the link of its state."""
        link = cell.one("a")
        self.assertEqual(cell.classes()[0], state)
        self.assertEqual(link.all("path")[0].attributes["d"], SIGNS[state])
        stories_ = [it for it in numbers if numbers[it] & {block.words() for block in blocks}]
        self.assertEqual(
            link.attributes["href"],
            "#" + (min(stories_, key=lambda it: int(it[6:])) if stories_ else fold),
        )

    def words(self, spec: Spec, cell: Element, state: str, f: str, g: str) -> None:
        """What a cell says: the state; on what calls are ordered, also where it is refuted."""
        said, label = cell.one("span", "words").text(), cell.one("span", "unseen").text()
        self.assertEqual(cell.one("a").attributes["title"], label)
        self.assertTrue(label.startswith(f"{f} with {g}: "))
        found = order.conditions(spec, f, g)
        if state in ("refuted", "undecided"):
            self.assertTrue(said.startswith(state) and state in label)
            self.assertEqual("ordered" in said, bool(found))
            self.assertEqual("though" in label, bool(found))
        elif found:
            self.assertEqual(said, "".join(order.short(found)))
            self.assertIn("ordered", label)
        else:
            self.assertEqual(said, "at once")

    def test_refuted_and_ordered(self) -> None:
        """The sign is the worse one, the words say both."""
        text = """cise 1
sort P
relation on ( P )
token link ( P )
conflict link ( x ) link ( x )
operation join ( a : P , b : P )
  requires not on ( b )
  insert on ( b )
  takes link ( a )
end
"""
        cell = Tree(page_on(text)[1]).one("td", "own")
        self.assertEqual(cell.classes()[0], "refuted")
        self.assertEqual(cell.one("span", "words").text(), "refutedordered: same a")
        self.assertIn(
            "though ordered where both have the same a", cell.one("span", "unseen").text()
        )

    def test_the_first_argument_is_the_row_s(self) -> None:
        text = """cise 1
sort P
relation on ( P )
token link ( P )
conflict link ( x ) link ( x )
operation join ( a : P )
  insert on ( a )
  takes link ( a )
end
operation leave ( b : P )
  insert on ( b )
  takes link ( b )
end
"""
        cells = [
            it.one("span", "words").text()
            for it in Tree(page_on(text)[1]).one("table", "matrix").all("td")
            if it.all("a")
        ]
        self.assertEqual(cells, ["keeps all", "same a", "a = b", "keeps all", "b = a", "same b"])

    def test_many_operations(self) -> None:
        text = "cise 1\n" + "".join(f"operation f{at}\nend\n" for at in range(24))
        table = Tree(page_on(text)[1]).one("table", "matrix")
        self.assertIn("dense", table.classes())
        self.assertEqual(len(table.all("td", "proved")), 24 * 25)

    def test_frames_stand_in_the_legend(self) -> None:
        tree = Tree(page_on("cise 1 relation up operation f insert up end")[1])
        self.assertEqual(
            [it.text() for it in tree.one("ul", "legend").all("li", "framed")],
            ["framed: two calls of one operation"],
        )

    def test_a_wide_matrix_says_that_it_goes_on(self) -> None:
        for count, hints in ((3, 0), (4, 1)):
            text = "cise 1\n" + "".join(f"operation f{at}\nend\n" for at in range(count))
            self.assertEqual(len(Tree(page_on(text)[1]).all("p", "goes-on")), hints)

    def test_no_operation(self) -> None:
        tree = Tree(page_on("cise 1 relation up invariant alive up")[1])
        self.assertEqual(tree.all("table"), [])
        self.assertEqual(len(tree.all("article", "refuted")), 1)


SIGNS = {
    "proved": "M3.5 8.5l3 3 6-7",
    "refuted": "M4 4l8 8M12 4l-8 8",
    "ordered": "M2.5 8h9M8.5 4.6L12 8l-3.5 3.4M14 3.5v9",
    "undecided": "M5.3 5.6a2.8 2.8 0 1 1 4 2.6c-1 .5-1.3 1-1.3 1.9M8 12.9v.2",
}


class Runs(unittest.TestCase):
    """What a short search has found stands beside each story, with its picture."""

    def test_a_run_is_drawn(self) -> None:
        tree = Tree(page.answer("examples/bank/refuted.cise")[1])
        card = tree.one("article", "story")
        self.assertIn(
            "It comes up, by these calls after deposit(a = Account#0, n = 1).",
            card.one("p", "reach").text(),
        )
        run = card.one("details", "run")
        self.assertNotIn("open", run.attributes)
        self.assertEqual(len(run.all("svg", "pic")), 2)
        self.assertIn("breaks solvent", run.text())
        self.assertEqual(lost_links(tree), [])

    def test_what_is_not_found(self) -> None:
        tree = Tree(page.answer("examples/auction/forgotten.cise")[1])
        for card in tree.all("article", "story"):
            self.assertIn("isn't known", card.one("p", "reach").text())
            self.assertEqual(card.all("details", "run"), [])

    def test_without(self) -> None:
        self.assertEqual(
            Tree(page.answer("examples/bank/refuted.cise", no_reach=True)[1]).all("p", "reach"), []
        )


class Texts(unittest.TestCase):
    def test_what_the_user_wrote_is_no_markup(self) -> None:
        text = (
            '# <script>alert(1)</script> & "quoted" </title> http\ncise 1 # <b> &amp;'
            " </pre>\nrelation up\ninvariant alive up # </article>\n"
        )
        html = page_on(text)[1]
        tree = Tree(html)
        self.assertEqual(html.count("<script"), 0)
        self.assertIn(
            '<script>alert(1)</script> & "quoted" </title> http', tree.one("header", "top").text()
        )
        self.assertEqual(
            [text_in(it.parts[1]) for it in tree.one("pre", "source").all("span", "row")],
            text.rstrip("\n").split("\n"),
        )

    def test_a_file_s_name_is_no_markup(self) -> None:
        with tempfile.TemporaryDirectory() as folder:
            path = os.path.join(folder, "<b>&.cise")
            with open(path, "w") as file:
                file.write("cise 1 relation up")
            self.assertIn("/ <b>&", Tree(page.answer(path)[1]).one("h1").text())

    def test_any_bytes(self) -> None:
        """A page is UTF-8, whatever the comments are."""
        html = page_on(KINDS["LAID_OUT"])[1]
        html.encode("utf-8")
        self.assertNotIn("\r", html)
        self.assertNotIn("\x1b", html)

    def test_what_turns_a_text_around_is_seen(self) -> None:
        """Marks by which a comment would be shown in another order than it is read, here and in a
        page's title."""
        text = text_of("examples/bank/refuted.cise").replace(
            "\n", " # \u202eno\u2066 \u200b\x9b\n", 1
        )
        with tempfile.TemporaryDirectory() as folder:
            path = os.path.join(folder, "a\u202eb.cise")
            with open(path, "w", encoding="utf-8") as file:
                file.write(text)
            html = page.answer(path)[1]
        self.assertIn("# \\u202eno\\u2066 \\u200b\\x9b", html)
        self.assertIn("a\\u202eb</h1>", html)
        self.assertFalse({"\u202e", "\u2066", "\u200b", "\x9b"} & {*html})

    def test_the_same_twice(self) -> None:
        self.assertEqual(
            page.answer("examples/bank/refuted.cise"), page.answer("examples/bank/refuted.cise")
        )


class Refusals(unittest.TestCase):
    """Where the program refuses, its text is all there is."""

    def answered(self, *words: str) -> tuple[int, str]:
        code = "import sys; from view.main import main; sys.exit(main(sys.argv[1], sys.argv[2:]))"
        done = subprocess.run(
            [sys.executable, "-c", code, program.path, *words],
            stdout=subprocess.PIPE,
            stderr=subprocess.PIPE,
        )
        self.assertNotIn(b"Traceback", done.stderr)
        return done.returncode, done.stdout.decode()

    def test_no_page(self) -> None:
        with tempfile.TemporaryDirectory() as folder:
            path, missing = os.path.join(folder, "design.cise"), os.path.join(folder, "none")
            with open(path, "w") as file:
                file.write("cise 1 relation r ( A )")
            plan = os.path.join(folder, "plan.json")
            with open(plan, "w") as file:
                file.write("{")
            good = "examples/bank/refuted.cise"
            for words, status in (
                ([path], 3),
                ([missing], 6),
                ([folder], 6),
                ([good, plan], 4),
                ([good, missing], 6),
                ([path, plan], 3),
            ):
                with self.subTest(words=words):
                    expected = program.ended("check" if len(words) == 1 else "replay", *words)
                    self.assertEqual(self.answered("page", *words), expected)
                    self.assertEqual(expected[0], status)

    def test_a_whole_page(self) -> None:
        refuted, accepted, plan = [
            f"examples/bank/{it}" for it in ("refuted.cise", "accepted.cise", "two_branches.json")
        ]
        for words, status in (
            ([refuted], 1),
            ([accepted], 0),
            ([refuted, plan], 1),
            ([accepted, plan], 4),
        ):
            found, text = self.answered("page", *words)
            self.assertEqual(found, status)
            self.assertTrue(text.startswith("<!doctype html>\n") and text.endswith("</html>\n"))


if __name__ == "__main__":
    unittest.main()
