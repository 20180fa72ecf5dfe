"""JSON: each text of the program gives facts from which the same text is written, and nothing else
gives any."""
from __future__ import annotations

import glob
import io
import json
import os
import tempfile
import unittest
from contextlib import redirect_stderr
from typing import Any, Iterator

from view import facts, program
from view.given import given
from view.words import text_of


def texts() -> Iterator[tuple[tuple[str, ...], str]]:
    """Reports, replays, simulations and suggestions over the gallery, with their commands."""
    for path in sorted(glob.glob("examples/*/*.cise")):
        if not (
            "refuted" in path
            or "bank" in path
            or "auction" in path
            or "meals" in path
            or "store" in path
        ):
            continue
        yield ("check", path), program.run("check", path)[1]
        if "refuted" in path:
            yield ("suggest", path), program.run("suggest", path)[1]
        for schedule in sorted(glob.glob(os.path.dirname(path) + "/*.json")):
            for command in ("replay", "simulate"):
                yield (command, path, schedule), program.run(command, path, schedule)[1]


def spelled(found: dict[str, Any]) -> str:
    return "".join(it + "\n" for it in facts.lines_from(found))


def facts_in(text: str) -> dict[str, Any]:
    """The facts of a text that is one of the program's."""
    return given(facts.facts_of(text)[0])


class RoundTrips(unittest.TestCase):
    def test_the_gallery(self) -> None:
        kinds = set()
        for words, text in texts():
            if text.startswith("refused"):
                continue
            with self.subTest(" ".join(words)):
                found = facts_in(text)
                self.assertIsNone(facts.facts_of(text)[1])
                self.assertEqual(json.loads(facts.laid_out(found)), found)
                self.assertEqual(spelled(json.loads(facts.laid_out(found))), text)
                kinds |= (
                    {found["text"]}
                    | {it["verdict"] for it in found.get("obligations", [])}
                    | {found.get("stop", {}).get("word")}
                )
        self.assertLessEqual(
            {
                "report",
                "replay",
                "simulation",
                "suggestion",
                "proved",
                "refuted",
                "undecided",
                "done",
                "broken",
                "refused",
            },
            kinds,
        )

    def test_an_upgraded_report(self) -> None:
        report = program.run("check", "examples/bank/accepted.cise")[1]
        with tempfile.TemporaryDirectory() as folder:
            path = os.path.join(folder, "report")
            with open(path, "w") as file:
                file.write(report)
            text = program.run("upgrade", "examples/bank/accepted.cise", path)[1]
        found = facts_in(text)
        self.assertEqual((found["version"], spelled(found)), (2, text))
        self.assertTrue(
            any(line.startswith("d ") for it in found["obligations"] for line in it["log"])
        )


class Facts(unittest.TestCase):
    def test_a_refutation(self) -> None:
        found = facts_in(program.run("check", "examples/bank/refuted.cise")[1])
        (refuted,) = [it for it in found["obligations"] if it["verdict"] == "refuted"]
        self.assertEqual(
            {it: refuted[it] for it in ("kind", "operation", "requires", "other")},
            {"kind": "stable", "operation": "withdraw", "requires": 2, "other": "withdraw"},
        )
        call = {"operation": "withdraw", "arguments": [0, 1]}
        count = {"counter": "balance", "elements": [0], "value": 1}
        self.assertEqual(
            refuted["witness"],
            {
                "sizes": {"Account": 1},
                "constants": {},
                "true": [],
                "count": [count],
                "calls": [call, call],
                "at": [],
            },
        )
        self.assertEqual(
            (found["proved"], found["refuted"], found["undecided"], found["word"]),
            (11, 1, 0, "rejected"),
        )

    def test_a_replay(self) -> None:
        found = facts_in(
            program.run("replay", "examples/bank/accepted.cise", "examples/bank/two_branches.json")[
                1
            ]
        )
        self.assertEqual(found["steps"][1], {"step": 1, "replica": 1, "take": 0})
        self.assertEqual(
            found["stop"], {"word": "refused", "step": 3, "cause": "conflict", "event": 1}
        )
        self.assertEqual(
            found["replicas"][0],
            {
                "replica": 0,
                "taken": 2,
                "true": [],
                "count": [{"counter": "balance", "elements": [0], "value": 40}],
            },
        )

    def test_other_ends(self) -> None:
        start = program.run_on(
            "cise 1 relation up invariant alive up",
            "replay",
            schedule={"sizes": {}, "constants": {}, "replicas": 1, "steps": []},
        )[1]
        found = facts_in(start)
        self.assertEqual(found["stop"], {"word": "broken", "step": None, "invariant": "alive"})
        deposits = [{"replica": 0, "call": "deposit", "args": [0, it]} for it in (10**15, 1)]
        steps = {
            "missing": deposits[1:] * 2 + [{"replica": 1, "take": 1}],
            "range": deposits,
            "precondition": [{"replica": 0, "call": "withdraw", "args": [0, 5]}],
        }
        rest: dict[str, dict[str, Any]] = {
            "missing": {"event": 0},
            "range": {"counter": "balance", "elements": [0], "value": 10**15 + 1},
            "precondition": {"requires": 2},
        }
        for cause, taken in steps.items():
            text = program.run_on(
                text_of("examples/bank/accepted.cise"),
                "replay",
                schedule={"sizes": {"Account": 1}, "constants": {}, "replicas": 2, "steps": taken},
            )[1]
            found = facts_in(text)
            self.assertEqual(
                found["stop"],
                {"word": "refused", "step": len(taken) - 1, "cause": cause, **rest[cause]},
            )
            self.assertEqual(spelled(found), text)

    def test_a_simulation(self) -> None:
        found = facts_in(
            program.run("simulate", "examples/bank/accepted.cise", "examples/bank/granted.json")[1]
        )
        self.assertEqual(
            found["steps"][3], {"step": 3, "replica": 1, "said": "awaits", "call": [0, 1]}
        )

    def test_a_suggestion(self) -> None:
        found = facts_in(program.run("suggest", "examples/bank/refuted.cise")[1])
        self.assertEqual([it["verdict"] for it in found["pairs"]], ["free", "free", "needed"])
        self.assertEqual(
            found["pairs"][2]["equalities"],
            [{"left": "a", "right": "a", "verdict": "by", "obligation": None}],
        )
        self.assertEqual((found["needed"], found["word"]), (1, "complete"))


class Refused(unittest.TestCase):
    def test_what_is_no_text_of_the_program(self) -> None:
        report = program.run("check", "examples/bank/refuted.cise")[1]
        bad = [
            "",
            "\n",
            "cise report 1",
            "cise report 1\n",
            report[:-1],
            report + "\n",
            report.replace("size Account 1", "size Account 01"),
            report.replace("refuted\n", "refused\n", 1),
            report.replace(" 1\ncall", "  1\ncall", 1),
            report.replace("count balance 0 1", "count balance 0 x"),
            "cise replay 1\ndone 0\nreplica 1 taken 0\n",
            "cise suggest 1\npairs 1\nsummary needed 0 free 0 unknown 0\ncomplete\n",
            text_of("examples/bank/refuted.cise"),
            report.replace("\n", "\x0c"),
            "cise sample 3\n",
            report.replace("rejected", "HELLO<>"),
            report.replace("rejected", "hello"),
            report.replace("solvent", "\udcff"),
            report.replace("solvent", "a\u00e9"),
            report.replace("solvent", "a\x1b"),
        ]
        for text in bad:
            with self.subTest(text[:60]):
                self.assertIsNone(facts.facts_of(text)[0])

    def test_the_line_is_named(self) -> None:
        report = program.run("check", "examples/bank/refuted.cise")[1]
        at = report.split("\n").index("size Account 1") + 1
        self.assertEqual(
            facts.facts_of(report.replace("size Account 1", "size Account 01")), (None, at)
        )

    def test_the_line_of_what_stands_in_no_text(self) -> None:
        report = program.run("check", "examples/bank/refuted.cise")[1]
        for bad in ("\udcff", "<", "\x00"):
            self.assertEqual(
                facts.facts_of(report.replace("size Account", bad)),
                (None, report.split("\n").index("size Account 1") + 1),
            )
        self.assertEqual(
            facts.facts_of(report.replace("rejected", "hello")), (None, report.count("\n"))
        )

    def test_a_text_that_is_too_long(self) -> None:
        with tempfile.NamedTemporaryFile() as file:
            file.write(b"cise report 1\n" + b"p" * facts.MOST_CHARACTERS)
            file.flush()
            said = io.StringIO()
            with redirect_stderr(said):
                self.assertEqual(facts.answer(file.name), (4, ""))
            self.assertEqual(
                said.getvalue(), f"{file.name}: json takes texts of at most 16,777,216 bytes\n"
            )

    def test_status_and_words(self) -> None:
        said = io.StringIO()
        with redirect_stderr(said):
            self.assertEqual(facts.answer("examples/bank/README.md"), (4, ""))
        self.assertTrue(
            said.getvalue().startswith("examples/bank/README.md:1:1: this is no report")
        )


if __name__ == "__main__":
    unittest.main()
