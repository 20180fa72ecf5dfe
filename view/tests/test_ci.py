"""`ci`: statuses, lines, places; SARIF against its schema's rules, JUnit by a parser; kept
reports."""
import json
import os
import re
import tempfile
import unittest
import xml.etree.ElementTree as xml
from typing import Any, Callable, Dict, List, Tuple
from unittest import mock
from urllib.parse import unquote

from view import ci, judged, program, sarif
from view.given import given
from view.tests.sarif_rules import broken

TOP = os.path.dirname(os.path.dirname(os.path.dirname(os.path.abspath(__file__))))
PROGRAM = os.path.abspath(program.path)
REFUTED, ACCEPTED = "examples/bank/refuted.cise", "examples/bank/accepted.cise"
HALF, OPEN = "examples/seats/half.cise", "examples/undecided/crowd.cise"
SLIP = "cise 1\nsort Seat\nrelation sold ( Seat , Row )\n"
TAKES = "  takes purse ( a )\n"


def text_at(path: str) -> str:
    """The text of a file of the repository."""
    with open(f"{TOP}/{path}", encoding="utf-8") as file:
        return file.read()


class InFolder(unittest.TestCase):
    """Each test works in a folder of its own, with some specifications."""

    def setUp(self) -> None:
        folder = tempfile.TemporaryDirectory()
        self.addCleanup(folder.cleanup)
        self.addCleanup(os.chdir, os.getcwd())
        os.chdir(folder.name)
        program.use(PROGRAM)
        for path in (REFUTED, ACCEPTED, HALF, OPEN):
            self.write(path, text_at(path))
        self.write("slip.cise", SLIP)

    def write(self, path: str, text: str) -> None:
        """Writes a file."""
        os.makedirs(os.path.dirname(path) or ".", exist_ok=True)
        with open(path, "w", encoding="utf-8") as file:
            file.write(text)

    def lines(self, *paths: str, **options: object) -> Tuple[int, List[str]]:
        """The status and the lines of a call."""
        status, text = ci.answer(*paths, **options)  # type: ignore[arg-type]
        return status, text.splitlines()


class Lines(InFolder):
    def test_the_worst_status_of_all(self) -> None:
        for paths, status in (
            ([ACCEPTED], 0),
            ([REFUTED], 1),
            ([OPEN], 5),
            (["slip.cise"], 3),
            (["missing.cise"], 6),
            ([ACCEPTED, "missing.cise"], 6),
            (["missing.cise", "slip.cise"], 3),
            (["slip.cise", OPEN], 5),
            (["missing.cise", "slip.cise", OPEN, REFUTED, ACCEPTED], 1),
        ):
            with self.subTest(paths):
                self.assertEqual(self.lines(*paths)[0], status)

    def test_a_line_each_in_order(self) -> None:
        status, lines = self.lines(ACCEPTED, "slip.cise", "missing.cise", REFUTED)
        self.assertEqual(status, 1)
        self.assertEqual(
            lines,
            [
                f"{ACCEPTED}: accepted: 12 proved, 0 refuted, 0 undecided",
                "slip.cise: refused: unknown name Row",
                "  slip.cise:3:24: refused: unknown name Row",
                "missing.cise: no verdict: it can't be read (No such file or directory)",
                f"{REFUTED}: rejected: 11 proved, 1 refuted, 0 undecided",
                f"  {REFUTED}:17:3: refuted: another withdraw takes away what withdraw requires",
                "4 specifications: 1 accepted, 1 refused, 1 no verdict, 1 rejected",
            ],
        )

    def test_folders(self) -> None:
        os.makedirs("empty")
        self.assertEqual(
            self.lines("examples/bank")[1][-1], "2 specifications: 1 accepted, 1 rejected"
        )
        self.assertEqual(self.lines("examples/bank", REFUTED)[1], self.lines("examples/bank")[1])
        status, lines = self.lines("empty")
        self.assertEqual(
            (status, lines[0]), (6, "empty: no verdict: it can't be read (it is a folder)")
        )

    def test_names_do_nothing_to_a_terminal(self) -> None:
        self.write("a\x1b[2J\nb.cise", SLIP)
        for line in self.lines("a\x1b[2J\nb.cise")[1]:
            self.assertTrue(line.isprintable())


ANNOTATION = re.compile(r"::(error|warning|notice) ((?:\w+=[^,:]*,?)+)::(.*)")


def read_annotation(line: str) -> Tuple[str, Dict[str, str], str]:
    """An annotation as GitHub's runner reads it: level, properties and message."""
    match = ANNOTATION.fullmatch(line)
    assert match, line
    parts = dict(it.split("=", 1) for it in match.group(2).split(","))
    return (
        match.group(1),
        {name: unquote(it) for name, it in parts.items()},
        unquote(match.group(3)),
    )


class Annotations(InFolder):
    def test_places(self) -> None:
        self.write("a,b:100%.cise", text_at(REFUTED))
        lines = [
            it
            for it in self.lines("a,b:100%.cise", OPEN, "slip.cise", "missing", github=True)[1]
            if it[:2] == "::"
        ]
        read = [read_annotation(it) for it in lines]
        level, at, message = read[0]
        self.assertEqual(
            at,
            {
                "file": "a,b:100%.cise",
                "line": "17",
                "endLine": "17",
                "col": "3",
                "endColumn": "34",
                "title": "refuted: stable withdraw 2 withdraw",
            },
        )
        self.assertEqual(
            (level, message), ("error", "another withdraw takes away what withdraw requires")
        )
        self.assertEqual({level for level, at, _ in read if at["file"] == OPEN}, {"warning"})
        self.assertEqual(
            read[-2][1], {"file": "slip.cise", "line": "3", "col": "24", "title": "refused"}
        )
        self.assertEqual(read[-1][2], "it can't be read (No such file or directory)")


class Sarif(InFolder):
    def log(self, *paths: str) -> Dict[str, object]:
        """The log of a call, which keeps the schema's rules."""
        ci.answer(*paths, sarif="out/a.sarif")
        with open("out/a.sarif", encoding="utf-8") as file:
            log: Dict[str, object] = json.load(file)
        self.assertEqual(broken(log, {"object": "sarifLog"}), [])
        return log

    def results(self, *paths: str) -> List[Dict[str, object]]:
        """The results of a call."""
        runs = self.log(*paths)["runs"]
        found: List[Dict[str, object]] = runs[0]["results"]  # type: ignore[index]
        return found

    def test_results(self) -> None:
        runs = self.log(REFUTED, ACCEPTED, HALF, OPEN, "slip.cise", "missing")["runs"]
        run = runs[0]  # type: ignore[index]
        found = [(it["ruleId"], it["level"]) for it in run["results"]]
        self.assertIn(("stable", "error"), found)
        self.assertIn(("commute", "error"), found)
        self.assertIn(("slip", "error"), found)
        self.assertIn("warning", {level for _, level in found})
        rules = [it["id"] for it in run["tool"]["driver"]["rules"]]
        self.assertEqual(rules, ["init", "safety", "commute", "stable", "slip", "review"])
        for it in run["results"]:
            self.assertEqual(rules[it["ruleIndex"]], it["ruleId"])
        self.assertFalse(run["invocations"][0]["executionSuccessful"])
        self.assertIn(
            "can't be read",
            run["invocations"][0]["toolExecutionNotifications"][0]["message"]["text"],
        )

    def test_the_region_is_the_line(self) -> None:
        (it,) = self.results(REFUTED)
        place = it["locations"][0]["physicalLocation"]  # type: ignore[index]
        self.assertEqual(place["artifactLocation"]["uri"], REFUTED)
        region = place["region"]
        line = text_at(REFUTED).splitlines()[region["startLine"] - 1]
        self.assertEqual(
            line[region["startColumn"] - 1 : region["endColumn"] - 1],
            "requires ( balance ( a ) >= n )",
        )

    def test_uris(self) -> None:
        for path, uri in (
            ("a b/c%d.cise", "a%20b/c%25d.cise"),
            ("\u00e9.cise", "%C3%A9.cise"),
            ("./x/../y.cise", "y.cise"),
            ("/a/z.cise", "file:///a/z.cise"),
        ):
            self.assertEqual(sarif.uri_of(path), uri)

    def prints(self, path: str) -> List[object]:
        """The fingerprints of a specification's results."""
        return [it["partialFingerprints"] for it in self.results(path)]

    def test_fingerprints_survive_moved_lines(self) -> None:
        self.write("empty.cise", EMPTY)
        own = {"slip.cise": SLIP, "empty.cise": EMPTY}
        for path in (HALF, REFUTED, "slip.cise", "empty.cise"):
            before, text = self.prints(path), own.get(path) or text_at(path)
            self.assertTrue(before)
            self.assertEqual(len({str(it) for it in before}), len(before))
            self.write(
                path, text.replace("\n", "\n\n# moved\n", 1).replace("  requires", "\trequires")
            )
            self.assertEqual(self.prints(path), before)
        self.write("other.cise", text_at(REFUTED))
        self.assertNotEqual(self.prints("other.cise"), self.prints(REFUTED))

    def test_the_rules_find_what_is_wrong(self) -> None:
        log = self.log(REFUTED)
        changes: List[Callable[[Dict[str, Any]], object]] = [
            lambda run: run.pop("tool"),
            lambda run: run.update(more=1),
            lambda run: run["results"][0].pop("message"),
            lambda run: run["results"][0].update(level="bad"),
            lambda run: run["results"][0]["locations"][0]["physicalLocation"]["region"].update(
                startLine=0
            ),
            lambda run: run["results"][0]["locations"][0]["physicalLocation"][
                "artifactLocation"
            ].update(uri="a b"),
            lambda run: run["results"][0]["relatedLocations"].append(
                run["results"][0]["relatedLocations"][0]
            ),
        ]
        for change in changes:
            other = json.loads(json.dumps(log))
            change(other["runs"][0])
            self.assertTrue(broken(other, {"object": "sarifLog"}))


EMPTY = """cise 1
sort Account
counter n ( Account )
relation unused ( Account )
operation grow ( a : Account )
  add n ( a ) 1
end
"""


class Remarks(InFolder):
    def test_what_a_yes_leaves_open(self) -> None:
        self.write("e.cise", EMPTY)
        status, lines = self.lines("e.cise", sarif="a.sarif", junit="a.xml")
        self.assertEqual((status, lines[-1]), (0, "1 specification: 1 accepted; 1 remark"))
        self.assertTrue(lines[1].startswith("  e.cise:4:10: unused: no line reads"), lines[1])
        with open("a.sarif", encoding="utf-8") as file:
            log = json.load(file)
        self.assertEqual(broken(log, {"object": "sarifLog"}), [])
        (result,) = log["runs"][0]["results"]
        self.assertEqual((result["ruleId"], result["level"]), ("review", "note"))
        suite = xml.parse("a.xml").getroot().find("testsuite")
        self.assertEqual((given(suite).get("failures"), given(suite).get("errors")), ("0", "0"))
        (line,) = [it for it in self.lines("e.cise", github=True)[1] if it[:2] == "::"]
        level, at, _ = read_annotation(line)
        self.assertEqual((level, at["line"], at["title"]), ("notice", "4", "unused"))


class Junit(InFolder):
    def test_counts_are_the_reports(self) -> None:
        paths = [REFUTED, ACCEPTED, HALF, OPEN, "slip.cise", 'missing\x01<&">']
        ci.answer(*paths, junit="a.xml")
        suites = xml.parse("a.xml").getroot().findall("testsuite")
        self.assertEqual([it.get("name") for it in suites], [*paths[:-1], 'missing\ufffd<&">'])
        for path, suite in zip(paths[:4], suites):
            summary = program.run("check", path)[1].splitlines()[-2].split()
            counts = int(summary[2]), int(summary[4]), int(summary[6])
            told = [
                len(suite.findall(it)) for it in ("testcase", "testcase/failure", "testcase/error")
            ]
            self.assertEqual(told, [sum(counts), counts[1], counts[2]])
            self.assertEqual(
                [int(suite.get(it, "")) for it in ("tests", "failures", "errors")], told
            )
        for suite in suites[4:]:
            self.assertEqual(len(suite.findall("testcase/error")), 1)
        self.assertIn(
            "slip.cise:3:24: unknown name Row", given(suites[4].find("testcase/error")).text or ""
        )


class Kept(InFolder):
    def runs(self, *paths: str) -> Tuple[int, List[str], List[str]]:
        """The status and the lines of a call with kept reports, and the commands that it ran."""
        ran: List[str] = []
        real = program.ended

        def run(*words: str) -> Tuple[int, str]:
            ran.append(words[0])
            return real(*words)

        # (remarks make runs of their own)
        remarks = mock.patch.object(judged, "doubts", return_value=[])
        with remarks, mock.patch.object(program, "ended", run):
            status, lines = self.lines(*paths, reports="kept")
        return status, lines, ran

    def test_reports_are_verified_the_next_time(self) -> None:
        for path in (ACCEPTED, REFUTED):
            first, second = self.runs(path), self.runs(path)
            self.assertEqual((first[2][0], second[2][0]), ("check", "verify"))
            self.assertNotIn("check", second[2])
            self.assertTrue(second[1][0].endswith("(the report of the last time stands)"))
            self.assertEqual(first[0], second[0])

    def test_what_is_undecided_is_tried_anew(self) -> None:
        self.runs(OPEN)
        self.assertIn("check", self.runs(OPEN)[2])

    def test_a_forged_report_is_made_anew(self) -> None:
        self.runs(ACCEPTED)
        path = f"kept/{ACCEPTED}.report"
        accepted = program.run("check", ACCEPTED)[1]
        for forged in (
            accepted.replace("proved", "prooved", 3),
            accepted[: len(accepted) // 2],
            "",
            "\0",
        ):
            self.write(path, forged)
            status, lines, ran = self.runs(ACCEPTED)
            self.assertEqual((status, ran[:2]), (0, ["verify", "check"]))
        with open(path, encoding="utf-8") as file:
            self.assertEqual(file.read(), accepted)
        self.write(f"kept/{REFUTED}.report", accepted)
        self.assertEqual(self.runs(REFUTED)[0], 1)

    def test_what_changed_is_told(self) -> None:
        text = text_at(ACCEPTED)
        self.assertIn(TAKES, text)
        self.write("d.cise", text)
        self.assertEqual(self.runs("d.cise")[0], 0)
        self.write("d.cise", text.replace(TAKES, "  # nothing is taken\n"))
        status, lines, _ = self.runs("d.cise")
        self.assertEqual(status, 1)
        self.assertEqual(
            lines[1:4],
            [
                "  it was accepted the last time. Since then:",
                "    gone: takes purse ( a )",
                "    stable withdraw 2 withdraw: was proved, is refuted",
            ],
        )
        # (the last time is now that of the rejected design)
        self.assertNotIn("accepted the last time", "\n".join(self.runs("d.cise")[1]))

    def test_what_changed_is_told_of_a_refused_text(self) -> None:
        self.write("d.cise", text_at(ACCEPTED))
        self.runs("d.cise")
        self.write("d.cise", text_at(ACCEPTED) + "sort Account\n")
        status, lines, _ = self.runs("d.cise")
        self.assertEqual((status, lines[1]), (3, "  it was accepted the last time. Since then:"))
        self.assertRegex(lines[2], r"^    line \d+: sort Account$")

    def test_only_what_the_program_accepted_was_accepted(self) -> None:
        self.write("d.cise", text_at(ACCEPTED))
        self.runs("d.cise")
        self.write("kept/d.cise.kept", text_at(REFUTED))
        self.write("d.cise", text_at(REFUTED))
        self.assertNotIn("accepted the last time", "\n".join(self.runs("d.cise")[1]))

    def test_where_reports_are_kept(self) -> None:
        for path, at in (
            ("a/b.cise", "kept/a/b.cise"),
            ("./c.cise", "kept/c.cise"),
            ("../d.cise", "kept/__/d.cise"),
        ):
            self.assertEqual(ci.kept_at("kept", path), at)


class Files(InFolder):
    def test_what_cannot_be_written(self) -> None:
        self.write("file", "")
        for options in ({"sarif": "file/a"}, {"junit": "examples"}, {"reports": "file"}):
            with mock.patch.object(ci, "say") as said:
                self.assertEqual(self.lines(ACCEPTED, **options), (7, []))
            self.assertIn("can't be written", said.call_args[0][0])
        self.assertEqual([it for it in os.listdir() if ".new" in it], [])

    def test_the_order_is_that_of_the_words(self) -> None:
        paths = [REFUTED, ACCEPTED, "slip.cise", HALF, OPEN]
        found = ci.judged_all(paths, None)
        self.assertEqual([it.path for it in found], paths)
        self.assertEqual([it.word for it in found], [judged.judged(it).word for it in paths])


if __name__ == "__main__":
    unittest.main()
