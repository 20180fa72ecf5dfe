"""tests and drive: what cases cover, that their states are the program's, and adapters of all
kinds."""
import json
import os
import sys
import tempfile
import unittest
import xml.etree.ElementTree as xml
from typing import Any, Dict, List, Tuple
from unittest import mock

from view import program
from view.testing import drive, form, generating
from view.testing.expected import Judge, named_state, of_steps, with_answer
from view.words import text_of

TOP = os.path.dirname(os.path.dirname(os.path.dirname(os.path.abspath(__file__))))
BANK = f"{TOP}/examples/bank/accepted.cise"
LEAGUE = f"{TOP}/examples/league/accepted.cise"
ADAPTER = [sys.executable, f"{TOP}/adapters/bank_dictionary.py"]
# Adapters that aren't of the form: what they do, and a part of what is said.
BAD_ADAPTERS = (
    ("import time; time.sleep(60)", "didn't answer within"),
    ("pass", "ended with status 0"),
    ("import sys; sys.exit(3)", "ended with status 3"),
    ("import os; os.kill(os.getpid(), 9)", "signal 9 ended it"),
    ("input(); print('hello')", "what is no object of JSON"),
    ("input(); print('{}'); input(); print('{}')", '"answer" is one of'),
    (
        "input(); print('{}'); input(); print('{\"answer\": \"ok\"}'); input(); print('{}')",
        "this is no state",
    ),
    ('input(); print(\'{"error": "no \\\\u001b[2J"}\')', "it says"),
)


def one_by_one(judge: Judge, case: form.Case) -> form.Case:
    """A case with what the program says of each step by a replay of its own."""
    row: List[Dict[str, Any]] = []
    events: Dict[str, int] = {}
    steps: List[form.Step] = []
    for step in case.steps:
        made = judge.as_json(step, case, events)
        replay = judge.replay(judge.schedule(case, [*row, made]))
        assert replay is not None and replay.stop is not None
        answer = form.OK
        if replay.stop[0] == "refused":
            answer = form.WAITS if replay.stop[2] == "conflict" else form.REFUSED
        else:
            row.append(made)
            if step.is_call():
                events[step.id] = len(events)
        state = named_state(judge.spec, replay.states[step.replica])
        steps.append(with_answer(step, answer, step.why, state))
    return of_steps(case, steps)


class Cases(unittest.TestCase):
    tests: form.Tests

    @classmethod
    def setUpClass(cls) -> None:
        cls.tests = generating.made(text_of(BANK), 1, 500)

    def test_what_is_covered(self) -> None:
        covered = {it for case in self.tests.cases for it in case.covers}
        self.assertEqual(self.tests.not_covered, [])
        for goal in (
            "withdraw is refused by its requires line 2 alone",
            "withdraw: balance ( a ) equal n",
            "deposit and withdraw at once",
            "withdraw and withdraw at once",
            "withdraw waits for withdraw",
        ):
            self.assertIn(goal, covered)

    def test_states_and_answers_are_the_programs(self) -> None:
        judge = Judge(text_of(BANK))
        for case in self.tests.cases:
            self.assertEqual(judge.expected(case), case)
        judge.close()
        answers = {step.answer for case in self.tests.cases for step in case.steps}
        self.assertEqual(answers, {"ok", "refused", "waits"})

    def test_what_is_written_is_read(self) -> None:
        text = form.written(self.tests)
        self.assertEqual(form.tests_of(text), self.tests)
        self.assertEqual(text, form.written(generating.made(text_of(BANK), 1, 500)))

    def test_there_is_no_more_than_asked(self) -> None:
        few = generating.made(text_of(BANK), 1, 10)
        self.assertLessEqual(sum(len(it.steps) for it in few.cases), 10)
        self.assertTrue(
            any(it["why"] == "there is no room for more steps" for it in few.not_covered)
        )

    def test_there_are_none_without_operations(self) -> None:
        for text in ("cise 1\nsort User", "cise 1\nrelation up\ninitially up true\n"):
            tests = generating.made(text, 1, 500)
            self.assertEqual((tests.cases, tests.not_covered), ([], []))

    def test_files_that_are_none(self) -> None:
        good = json.loads(form.written(self.tests))
        bad: List[Any] = ["", "{", "[]", {}, {**good, "form": "cise tests 2"}, {**good, "cases": 3}]
        changes: List[Dict[str, Any]] = [
            {"replica": 7},
            {"answer": "yes"},
            {"state": {}},
            {"state": {"relations": {}, "counters": {"c": [[["a"], "1"]]}}},
        ]
        for change in changes:
            step = {**good["cases"][0]["steps"][0], **change}
            bad.append({**good, "cases": [{**good["cases"][0], "steps": [step]}]})
        for value in bad:
            with self.subTest(str(value)[:80]), self.assertRaises(form.NotTests):
                form.tests_of(value if isinstance(value, str) else json.dumps(value))


class Large(unittest.TestCase):
    """The cases of a design with many operations, made by few runs of the program."""

    def test_the_league(self) -> None:
        text, runs, run = text_of(LEAGUE), [0], program.run

        def counted(*words: str) -> Tuple[int, str]:
            runs[0] += 1
            return run(*words)

        with mock.patch.object(program, "run", counted):
            tests = generating.made(text, 1, 500)
        self.assertLess(runs[0], 1000)
        self.assertEqual(form.tests_of(form.written(tests)), tests)
        self.assertGreater(len({it for case in tests.cases for it in case.covers}), 130)
        judge = Judge(text)
        for case in tests.cases[::5]:
            names = [it.id for it in case.steps if it.is_call()]
            self.assertEqual(len(names), len(set(names)))
            self.assertEqual([one_by_one(judge, case), judge.expected(case)], [case, case])
        judge.close()


class Driving(unittest.TestCase):
    def setUp(self) -> None:
        self.folder = tempfile.TemporaryDirectory()
        self.path = os.path.join(self.folder.name, "tests.json")
        with open(self.path, "w", encoding="utf-8") as file:
            file.write(form.written(generating.made(text_of(BANK), 1, 500)))

    def tearDown(self) -> None:
        self.folder.cleanup()

    def driven(self, *adapter: str, **more: Any) -> Tuple[int, str]:
        return drive.answer(self.path, rest=list(adapter), **more)

    def test_the_right_one_passes(self) -> None:
        status, text = self.driven(*ADAPTER)
        self.assertEqual((status, text.split(",")[1]), (0, " 0 failed"), text)

    def test_a_fault_is_told_and_made_shorter(self) -> None:
        wrong = os.path.join(self.folder.name, "wrong.py")
        with open(wrong, "w", encoding="utf-8") as file:
            file.write(text_of(ADAPTER[1]).replace("else -amount", "else amount"))
        out = os.path.join(self.folder.name, "junit.xml")
        status, text = self.driven(sys.executable, wrong, junit=out)
        self.assertEqual(status, 1)
        self.assertIn("    expected: ", text)
        self.assertLessEqual(text.split("\n\n")[1].count("\n"), 3)
        suite = xml.parse(out).getroot()
        self.assertGreaterEqual(int(suite.get("failures") or 0), 1)
        self.assertEqual(len(suite.findall(".//failure")), int(suite.get("failures") or 0))

    def test_adapters_that_are_none(self) -> None:
        for code, said in BAD_ADAPTERS:
            with self.subTest(code):
                shown: List[str] = []
                with mock.patch.object(drive, "say", shown.append):
                    # (a busy machine may take seconds to start one that answers)
                    limit = "1" if "sleep" in code else "60"
                    found = self.driven(sys.executable, "-c", code, seconds=limit)
                self.assertEqual(found, (4, ""))
                self.assertIn(said, "".join(shown))

    def test_words_that_are_none(self) -> None:
        self.assertEqual(drive.answer(self.path)[0], 2)
        self.assertEqual(self.driven(*ADAPTER, seconds="soon")[0], 2)
        self.assertEqual(self.driven("/no/such/program")[0], 4)
        self.assertEqual(drive.answer(BANK, rest=ADAPTER)[0], 4)


if __name__ == "__main__":
    unittest.main()
