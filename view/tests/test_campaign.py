"""checks/campaign: what it takes for a fault and what for the work of a busy machine, what the
program may leave where faults come together, and what coverage is compared with."""
import importlib.machinery
import importlib.util
import os
import shutil
import signal
import subprocess
import sys
import tempfile
import unittest
from types import ModuleType
from typing import List
from unittest import mock

from view import program
from view.given import given

TOP = os.path.dirname(os.path.dirname(os.path.dirname(os.path.abspath(__file__))))
BANK = f"{TOP}/examples/bank/accepted.cise"


def script(name: str) -> ModuleType:
    """A script of checks/, as a module."""
    loader = importlib.machinery.SourceFileLoader(name, f"{TOP}/checks/{name}")
    module = importlib.util.module_from_spec(given(importlib.util.spec_from_loader(name, loader)))
    loader.exec_module(module)
    return module


def is_program(path: str) -> bool:
    """Whether this is the program itself, and not a file that starts it and notes what it does."""
    with open(path, "rb") as file:
        return file.read(4) == b"\x7fELF"


with mock.patch.object(sys, "path", list(sys.path)):
    campaign = script("campaign")
coverage = campaign.coverage
BUSY = [sys.executable, "-c", "while True: pass"]
WAITS = [sys.executable, "-c", "import time; time.sleep(60)"]


class Turns(unittest.TestCase):
    """What is wrong, and what isn't."""

    def setUp(self) -> None:
        folder = tempfile.TemporaryDirectory()
        self.addCleanup(folder.cleanup)
        with mock.patch.object(shutil, "which", lambda _: None):
            self.campaign = campaign.Campaign(os.path.abspath(program.path), folder.name)
        self.campaign.about = "texts=1"

    def wrong_of(self, words: List[str]) -> int:
        """How many runs of these words are wrong: one or none."""
        with mock.patch("builtins.print"):
            self.campaign.ran("texts", words, (0,))
        return len(self.campaign.wrong)

    def test_processor_time_is_counted_and_the_clock_is_not(self) -> None:
        with mock.patch.object(campaign, "SECONDS", 1):
            self.assertEqual(self.wrong_of(BUSY), 0)
        self.assertEqual(self.campaign.counts["stopped after a minute"], 1)

    def test_what_waits_for_nothing_is_wrong(self) -> None:
        with mock.patch.object(campaign, "BY_THE_CLOCK", 0.2):
            self.assertEqual(self.wrong_of(WAITS), 1)
        self.assertEqual(self.campaign.counts["stopped after a minute"], 0)

    def test_statuses_and_words(self) -> None:
        for code, is_wrong in (
            ("pass", False),
            ("import sys; sys.exit(1)", True),
            ("import os; os.kill(os.getpid(), 15)", True),
            ("import sys; sys.stderr.write('a\\x1b')", True),
            ("import sys; sys.stderr.write('Traceback')", True),
        ):
            with self.subTest(code):
                self.campaign.wrong.clear()
                self.assertEqual(self.wrong_of([sys.executable, "-c", code]), is_wrong)

    def test_a_signal_ends_a_run(self) -> None:
        disturbed = campaign.Disturbed(0.0, signal.SIGTERM)
        ran = campaign.Ran(WAITS, self.campaign.folder, disturbed)
        self.assertEqual((ran.status, ran.is_stuck), (-signal.SIGTERM, False))

    def test_fronts(self) -> None:
        for status, text, is_front in (
            (1, b"one\ntwo\n", True),
            (1, b"one\n", False),
            (0, b"one\ntwo\n", False),
            (8, b"one\n", True),
            (8, b"two\n", False),
            (6, b"", True),
            (9, b"", True),
            (9, b"one\n", False),
            (-signal.SIGTERM, b"one", True),
            (-signal.SIGSEGV, b"one", False),
        ):
            with self.subTest(status=status, text=text):
                found = mock.Mock(status=status, out=text)
                self.assertEqual(campaign.is_front(found, 1, b"one\ntwo\n"), is_front)


class Listed(unittest.TestCase):
    """What is never entered, and the list of it."""

    def test_differences(self) -> None:
        listed = coverage.reasons("# a list\n\nNothing\ncalls it.\n  1 one\n  2 drop\n")
        self.assertEqual(
            listed, {"one": (1, "Nothing calls it."), "drop": (2, "Nothing calls it.")}
        )
        never = ["one", "drop::<#1>", "drop::<#2>"]
        self.assertEqual(coverage.differences(never, listed), [])
        for changed in (never[:-1], [*never, "drop::<#3>"], never[1:], [*never, "two"]):
            with self.subTest(changed):
                self.assertEqual(len(coverage.differences(changed, listed)), 1)

    def test_the_list_gives_a_reason_for_each(self) -> None:
        with open(coverage.LISTED) as file:
            listed = coverage.reasons(file.read())
        self.assertTrue(listed)
        for name, (count, why) in listed.items():
            with self.subTest(name):
                self.assertTrue(count > 0 and why)

    @unittest.skipUnless(all(map(shutil.which, coverage.NEEDED)), "it needs a compiler")
    @unittest.skipUnless(is_program(program.path), "the program is started by a file")
    def test_a_run_that_is_noted_is_the_same(self) -> None:
        with tempfile.TemporaryDirectory() as folder:
            noted = coverage.Coverage(os.path.abspath(program.path), folder)
            self.assertEqual(noted.entered(), set())
            runs = [
                subprocess.run([it, "check", BANK], stdout=subprocess.PIPE)
                for it in (program.path, noted.started)
            ]
            self.assertEqual(*((it.returncode, it.stdout) for it in runs))
            entered = noted.entered()
            # (the compiler may have put it into the function that starts it)
            self.assertTrue(entered & {"cise_cli::main", "cise_cli::main+start"})
            self.assertLess(len(entered), len(noted.functions) / 2)
            found = noted.found().values()
            self.assertGreater(sum(it in coverage.BOTH_WAYS for it in found), 100)


if __name__ == "__main__":
    unittest.main()
