"""A specification as JSON: it says what the commands say, and its places are those of the text."""
from __future__ import annotations

import glob
import json
import os
import tempfile
import unittest
from typing import Any

from view import facts, inputs, order, program
from view.explain import answer as explained
from view.explain import explained as told
from view.further_slips import all_slips
from view.given import given
from view.mend import mended
from view.report import Replay, Report
from view.review import answer as reviewed
from view.tests.slips_table import BANK, SLIPS
from view.tests.test_further_slips import fixed
from view.tree import Spec
from view.words import text_of

PATHS = [
    "examples/bank/refuted.cise",
    "examples/bank/accepted.cise",
    "examples/tournament/refuted.cise",
    "examples/undecided/meals.cise",
    "examples/flags/refuted.cise",
]


def row_and_column(span: dict[str, int]) -> str:
    return f"{span['line']}:{span['column']}"


def piece(text: str, span: dict[str, int]) -> str:
    rows = text.split("\n")[span["line"] - 1 : span["end_line"]]
    rows[-1] = rows[-1][: span["end_column"] - 1]
    rows[0] = rows[0][span["column"] - 1 :]
    return "\n".join(rows)


class Designs(unittest.TestCase):
    def test_it_says_what_the_commands_say(self) -> None:
        for path in PATHS:
            with self.subTest(path):
                status, text = facts.answer(path)
                found, design = json.loads(text), text_of(path)
                self.assertEqual((found["text"], found["path"]), ("design", path))
                self.assertEqual(status, program.run("check", path)[0])
                lines = [
                    f"{path}:{row_and_column(it['span'])}: {it['verdict']}: {it['sentence']}"
                    for it in found["explain"]
                ]
                self.assertEqual(
                    "".join(it + "\n" for it in lines), explained(path, places=True)[1]
                )
                for it in found["explain"]:
                    self.assertIn(piece(design, it["span"]), [line["text"] for line in it["lines"]])
                    self.assertEqual(
                        [piece(design, line["span"]) for line in it["lines"]],
                        [line["text"] for line in it["lines"]],
                    )
                self.assert_stories(path, found)
                self.assert_runs(path, found["reach"])
                lines = [
                    f"{path}:{row_and_column(it['span'])}: {it['kind']}: {it['sentence']}\n"
                    for it in found["review"]["doubts"] + found["review"]["lines"]
                ]
                self.assertEqual("".join(lines), reviewed(path)[1])
                self.assertEqual((found["mend"]["status"], found["mend"]["text"]), mended(path)[:2])
                lines = facts.lines_from(found["suggest"])
                self.assertEqual(
                    "".join(it + "\n" for it in lines), program.run("suggest", path)[1]
                )

    def assert_runs(self, path: str, found: list[dict[str, Any]]) -> None:
        """Each schedule is replayed to a harm, or ends as it is said to."""
        refuted = Report(program.run("check", path)[1]).refuted
        self.assertEqual(len(found), refuted)
        for it in found:
            self.assertEqual(it["schedule"] is None, bool(it["said"]))
            if it["schedule"]:
                stop = Replay(program.replay(text_of(path), it["schedule"])[1]).stop[0]
                self.assertEqual(
                    stop, {"broken": "broken", "refused": "refused", "differ": "done"}[it["harm"]]
                )
        self.assertTrue(refuted == 0 or any(it["schedule"] for it in found))

    def assert_stories(self, path: str, found: dict[str, Any]) -> None:
        """Each fact, value and sentence stands in the text of `explain`."""
        spec, report = Spec(text_of(path)), Report(program.run("check", path)[1])
        said = " ".join(told(spec, report).split())
        for it in found["explain"]:
            self.assertIn(it["sentence"], said)
            for fact in it.get("before", []):
                self.assertIn(fact, said)
            for row in it.get("readings", []):
                self.assertIn(f"{row['reading']} is {row['value']}", said)
            for call in it.get("calls", []):
                values = ", ".join(f"{name} = {value}" for name, value in call["arguments"].items())
                self.assertIn(f"{call['operation']}({values})", said)
        with_span = {it["line"] for it in found["check"]["obligations"] if "span" in it}
        self.assertEqual(
            with_span, {it.line_in_report for it in report.blocks if it.verdict != "proved"}
        )
        states = {
            (str(f), str(g)): it.state() for (f, g), it in order.pairs(spec, report.blocks).items()
        }
        self.assertEqual(
            {(it["left"], it["right"]): it["state"] for it in found["order"]},
            {
                key: states[key]
                for key in states
                if key in {(it["left"], it["right"]) for it in found["order"]}
            },
        )

    def test_all_of_the_gallery_is_json(self) -> None:
        for path in sorted(glob.glob("examples/*/accepted.cise"))[:6]:
            self.assertEqual(json.loads(facts.answer(path, quick=True)[1])["explain"], [])


class Refused(unittest.TestCase):
    def in_file(self, text: str, name: str = "d.cise") -> tuple[int, str]:
        with tempfile.TemporaryDirectory() as folder:
            path = os.path.join(folder, name)
            with open(path, "w", encoding="utf-8") as file:
                file.write(text)
            copy = inputs.read(path).path
            try:
                return facts.answer(copy)
            finally:
                inputs.close(copy)

    def test_slips_and_what_they_propose(self) -> None:
        for design, old, new, place, _, message in SLIPS[:12]:
            text = design.replace(old, new)
            status, said = self.in_file(text)
            found = json.loads(said)
            self.assertEqual(
                (status, found["text"], found["slips"][0]["named_by"]), (3, "refused", "program")
            )
            first = found["slips"][0]
            self.assertEqual(
                (f"{first['span']['line']}:{first['span']['column']}", first["message"]),
                (place, message),
            )
            slip = all_slips(text, program.run_on(text, "spell")[1].strip())[0]
            if first["write"]:
                after = fixed(text, slip)
                self.assertEqual(first["write"]["text"], given(slip.fix)[2])
                self.assertEqual(
                    piece(text, first["write"]["span"]),
                    text[given(slip.fix)[0] : given(slip.fix)[1]],
                )
                self.assertEqual(program.run_on(after, "spell")[0], 0)

    def test_what_is_no_text_of_either_kind(self) -> None:
        self.assertEqual(self.in_file("{}", "x.json"), (4, ""))
        self.assertEqual(self.in_file("cise report 9\n", "x"), (4, ""))
        self.assertEqual(self.in_file(BANK, "without_ending")[0], 1)


if __name__ == "__main__":
    unittest.main()
