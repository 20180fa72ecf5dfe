"""`./cise verify --second`: the two agree, and a program that answers otherwise is found."""
import os
import subprocess
import sys
import tempfile
import unittest
from typing import List, Tuple

from view import program, second
from view.tests.test_main import ACCEPTED, REFUTED, InFolder, called

TOP = os.path.dirname(os.path.dirname(os.path.dirname(os.path.abspath(__file__))))


class Second(InFolder):
    def report(self, spec: str) -> str:
        """The path of the report of a specification."""
        path: str = self.file("report", program.run("check", spec)[1])
        return path

    def test_both_say_the_same(self) -> None:
        for spec, status in ((ACCEPTED, 0), (REFUTED, 1)):
            with self.subTest(spec):
                report = self.report(spec)
                for words in (("--second", spec, report), (spec, report, "--second")):
                    found, out, error = called("verify", *words)
                    self.assertEqual((found, out.decode()), program.run("verify", spec, report))
                    self.assertEqual(found, status)
                    self.assertEqual(error, b"cise: the second verifier says the same\n")

    def test_refusals_are_the_programs(self) -> None:
        report = self.file("report", b"cise report 1\nbudget 0\n")
        wrong = self.file("wrong.cise", b"cise 3")
        for words, status in (((ACCEPTED, report), 4), ((wrong, report), 3)):
            with self.subTest(words):
                found, out, error = called("verify", "--second", *words)
                self.assertEqual((found, out.decode()), program.run("verify", *words))
                self.assertEqual(found, status)
                self.assertIn(b"the second verifier says the same\n", error)

    def test_a_difference_is_no_answer(self) -> None:
        report = self.report(REFUTED)
        text = "cise verify 1\\nsummary proved 9 refuted 0 undecided 0\\naccepted"
        lying = self.file("lying", f"#!{sys.executable}\nprint('{text}')\n")
        os.chmod(lying, 0o755)
        kept = program.path
        try:
            program.use(lying)
            self.assertEqual(second.answer(REFUTED, report, second=True), (second.DIFFER, ""))
        finally:
            program.use(kept)
        one, also = (0, "cise verify 1\naccepted\n"), (1, "cise verify 1\nrejected\n")
        said = second.differing("report", one, also)
        self.assertIn("the program says status 0, 'accepted', and the second verifier", said)
        self.assertIn("status 1, 'rejected': one of them is wrong", said)

    def test_it_runs_alone(self) -> None:
        def alone(*words: str, folder: str) -> Tuple[int, str]:
            given: List[str] = [sys.executable, "-B", f"{TOP}/second", *words]
            pipe = subprocess.PIPE
            done = subprocess.run(given, cwd=folder, stdout=pipe, stderr=subprocess.STDOUT)
            return done.returncode, done.stdout.decode()

        with tempfile.TemporaryDirectory() as folder:
            report = self.report(REFUTED)
            found = program.run("verify", REFUTED, report)
            self.assertEqual(alone(REFUTED, report, folder=folder), found)
            self.assertEqual(alone(REFUTED, folder=folder), (2, "refused words\n"))
            self.assertEqual(alone(REFUTED, "missing", folder=folder), (6, ""))


if __name__ == "__main__":
    unittest.main()
