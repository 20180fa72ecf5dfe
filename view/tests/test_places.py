"""Places of verdicts: each refuted and undecided obligation has a line that is its own, and
editors read it."""
from __future__ import annotations

import glob
import json
import os
import re
import subprocess
import sys
import tempfile
import unittest
from typing import Iterator

from view import program
from view.explain import answer
from view.given import given
from view.places import Finding, Span, finding_of, findings
from view.report import Report
from view.story import Story, stories
from view.tests.slips_table import CHAT
from view.tree import UPDATES, Spec
from view.words import text_of

# Path, what it says, and where: line and column of the first and behind the last letter.
WORKED = [
    (
        "bank/refuted",
        "another withdraw takes away what withdraw requires",
        "stable withdraw 2 withdraw",
        (17, 3, 17, 34),
    ),
    (
        "cart/refuted",
        "put and take_out leave in_cart different",
        "commute put take_out in_cart",
        (10, 3, 10, 27),
    ),
    ("flags/refuted", "stored is false at the start", "init stored", (11, 1, 11, 25)),
    (
        "tournament/refuted",
        "call_off breaks registered",
        "safety call_off registered",
        (12, 1, 13, 71),
    ),
    (
        "undecided/meals",
        "whether another cook leaves standing what cook requires",
        "stable cook 7 cook",
        (16, 3, 16, 58),
    ),
]


def gallery() -> Iterator[tuple[str, Spec, Report]]:
    """Each specification of the gallery that isn't accepted, with its report."""
    for path in sorted(glob.glob("examples/*/*.cise")):
        status, text = program.run("check", path)
        if status in (1, 5):
            yield path, Spec(text_of(path)), Report(text)


class Places(unittest.TestCase):
    def test_worked_by_hand(self) -> None:
        for name, sentence, obligation, place in WORKED:
            with self.subTest(name):
                path = f"examples/{name}.cise"
                found = finding_of(
                    findings(path, Spec(text_of(path)), Report(program.run("check", path)[1])),
                    obligation,
                )
                self.assertEqual(
                    (given(found).sentence, given(found).obligation, given(found).span),
                    (sentence, obligation, Span(*place)),
                )
                self.assertEqual(
                    given(found).line(),
                    f"{path}:{place[0]}:{place[1]}: {given(found).verdict}: {sentence}",
                )

    def test_every_obligation_of_the_gallery_has_its_line(self) -> None:
        seen = 0
        for path, spec, report in gallery():
            told = {
                it.words(): Story(spec, it, 1)
                for story in stories(spec, report)
                for it in (story.block, *story.others)
            }
            found = findings(path, spec, report)
            self.assertEqual(sorted(it.obligation for it in found), sorted(told))
            self.assertEqual(found, sorted(found, key=lambda it: (it.span.line, it.span.column)))
            for it in found:
                seen += 1
                with self.subTest(f"{path} {it.obligation}"):
                    self.assert_is_told(spec, it, told[it.obligation])
        self.assertGreater(seen, 110)

    def assert_is_told(self, spec: Spec, found: Finding, story: Story) -> None:
        """A finding says what the story says, and its place is one of the lines that the story
        shows."""
        self.assertEqual(found.sentence, story.title())
        self.assertIn(piece(spec.text, found.span), [it.text for it in story.lines])
        if found.kind == "commute":
            self.assertIn(piece(spec.text, found.span).split()[0], UPDATES)
        named = {piece(spec.text, it.span) for it in found.related}
        self.assertLessEqual(
            {it.op for it in story.calls} if found.verdict == "refuted" else set(), named
        )

    def test_the_line_that_differs_is_one_that_writes_there(self) -> None:
        """Two updates write the relation; the witness's element is the one that the second
        writes."""
        text = (
            "cise 1 sort A const a : A const b : A relation r ( A )\ninvariant apart ( a != b )\n"
        )
        text += "operation put\n  insert r ( a )\nend\noperation both\n  requires not r ( a )\n"
        text += "  remove r ( b )\n  remove r ( a )\nend\n"
        spec, report = Spec(text), Report(program.run_on(text, "check")[1])
        (found,) = [
            it
            for it in findings("x", spec, report)
            if it.kind == "commute" and "both" in it.obligation.split()[2]
        ]
        witness = found.block.witness
        self.assertEqual(given(witness).at, [given(witness).consts["a"]])
        lines = {
            it.line
            for it in [
                found.span,
                *(it.span for it in found.related if it.sentence == "changes it too"),
            ]
        }
        self.assertEqual(
            lines, {4, 9} if given(witness).consts["a"] != given(witness).consts["b"] else {4, 8, 9}
        )


def piece(text: str, span: Span) -> str:
    """The letters of a span, counted anew from lines and columns."""
    rows = text.split("\n")
    starts = [0]
    for row in rows:
        starts.append(starts[-1] + len(row) + 1)
    return text[
        starts[span.line - 1] + span.column - 1 : starts[span.end_line - 1] + span.end_column - 1
    ]


class Command(unittest.TestCase):
    def test_places_of_a_report_are_those_of_its_check(self) -> None:
        path = "examples/league/refuted.cise"
        with tempfile.TemporaryDirectory() as folder:
            report = os.path.join(folder, "report")
            with open(report, "w", encoding="utf-8") as file:
                file.write(program.run("check", path)[1])
            self.assertEqual(answer(path, report, places=True), answer(path, places=True))

    def test_an_accepted_design_has_no_line(self) -> None:
        self.assertEqual(answer("examples/bank/accepted.cise", places=True), (0, ""))

    def test_the_words(self) -> None:
        call = "import sys; sys.path.insert(0, '.'); from view import main; "
        call += f"sys.exit(main.main({program.path!r}, sys.argv[1:]))"
        for words in (
            ["explain", "--places", "examples/bank/refuted.cise"],
            ["explain", "examples/bank/refuted.cise", "--places"],
        ):
            done = subprocess.run(
                [sys.executable, "-c", call, *words], stdout=subprocess.PIPE, stderr=subprocess.PIPE
            )
            sentence = b"another withdraw takes away what withdraw requires"
            said = b"examples/bank/refuted.cise:17:3: refuted: " + sentence + b"\n"
            self.assertEqual((done.returncode, done.stdout, done.stderr), (1, said, b""))

    def test_the_problem_matcher_reads_them(self) -> None:
        matchers = json.loads(text_of("editors/vscode/package.json"))["contributes"][
            "problemMatchers"
        ]
        pattern = next(it["pattern"] for it in matchers if it["name"] == "cise")
        lines = [it for path, *_ in gallery() for it in answer(path, places=True)[1].splitlines()]
        self.assertGreater(len(lines), 110)
        for line in lines:
            found = re.match(pattern["regexp"], line)
            self.assertTrue(os.path.isfile(given(found).group(pattern["file"])), line)
            self.assertRegex(given(found).group(pattern["message"]), "^(refuted|undecided): ")

    def test_a_version_2_design_with_carriage_returns(self) -> None:
        text = CHAT.replace("\n", "\r\n").replace("insert member", "\tinsert member")
        report = Report(program.run_on(text, "check")[1])
        for it in findings("x", Spec(text), report):
            self.assertEqual(
                piece(text, it.span).split()[0], text.split("\r\n")[it.span.line - 1].split()[0]
            )


if __name__ == "__main__":
    unittest.main()
