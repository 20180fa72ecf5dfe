"""A signal at each moment of a call. A call is walked through line by line of the script: at the
N-th line that it comes to, a signal comes. Whatever N is, the call ends by that signal, or with
the program's status behind its whole answer; and nobody sees a trace."""
from __future__ import annotations

import os
import posix
import signal
import sys
import tempfile
import unittest
from typing import Any

TOP = os.path.dirname(os.path.dirname(os.path.dirname(os.path.abspath(__file__))))
PROGRAM = os.path.abspath(os.environ.get("CISE_PROGRAM", f"{TOP}/crates/cise_cli/out/cise_cli"))
START = f"{TOP}/launch/start.py"
OWN = (f"{TOP}/launch/", f"{TOP}/view/")
SIGNALS = (signal.SIGTERM, signal.SIGINT, signal.SIGHUP, signal.SIGPIPE)
REFUTED, ACCEPTED, SCHEDULE = (
    f"{TOP}/examples/bank/{it}" for it in ("refuted.cise", "accepted.cise", "two_branches.json")
)
NEVER = 10**9


class Moments:
    """Counts the lines of the script's own text, and sends this process a signal at one of them."""

    def __init__(self, at: int, number: signal.Signals) -> None:
        self.at, self.number, self.passed = at, number, 0

    def __call__(self, frame: Any, event: str, _: Any) -> Any:
        return self.line if frame.f_code.co_filename.startswith(OWN) else None

    def line(self, frame: Any, event: str, _: Any) -> Any:
        if event == "line":
            self.passed += 1
            if self.passed == self.at:
                os.kill(os.getpid(), self.number)
        return self.line


def begin(words: list[str], at: int, number: signal.Signals, told: int) -> None:
    """What a new process does: a call with the program of the tests, as the script begins one."""
    sys.path.insert(0, TOP)
    from launch import quick

    quick.program = lambda top: PROGRAM
    for it in SIGNALS:
        signal.signal(it, signal.SIG_IGN if it == signal.SIGPIPE else signal.SIG_DFL)
    moments, leave = Moments(at, number), posix._exit

    def left(status: int) -> None:
        sys.settrace(None)
        os.write(told, str(moments.passed).encode())
        leave(status)

    setattr(posix, "_exit", left)
    sys.argv = [START, "heeded", *words]
    with open(START, encoding="utf-8") as file:
        code = compile(file.read(), START, "exec")
    sys.settrace(moments)
    exec(code, {"__name__": "__main__", "__file__": START})


def call(
    words: list[str], at: int = NEVER, number: signal.Signals = signal.SIGTERM
) -> tuple[int, bytes, bytes, int]:
    """How a call ended, what it wrote on standard output and on standard error, and how many lines
    it came to."""
    new = tempfile.TemporaryFile
    with new() as out, new() as error, new() as told:
        sys.stdout.flush()
        sys.stderr.flush()
        child = os.fork()
        if not child:
            try:
                os.dup2(out.fileno(), 1)
                os.dup2(error.fileno(), 2)
                begin(words, at, number, told.fileno())
            finally:
                os.kill(os.getpid(), signal.SIGKILL)
        status = os.waitpid(child, 0)[1]
        for it in (out, error, told):
            it.seek(0)
        ended = status >> 8 if not status & 127 else -(status & 127)
        return ended, out.read(), error.read(), int(told.read() or 0)


class EachMoment(unittest.TestCase):
    def walk(self, words: list[str], most: int) -> None:
        """Calls with a signal at so many moments, from the first to the last."""
        status, text, _, lines = call(words)
        self.assertGreater(lines, 50)
        step = max(1, lines // most)
        for at in range(1, lines + 1, step):
            number = SIGNALS[at // step % len(SIGNALS)]
            with self.subTest(f"{' '.join(words)}: signal {number} at line {at} of {lines}"):
                ended, out, error, _ = call(words, at, number)
                if ended != -number:
                    self.assertEqual((ended, out), (status, text), error)
                if number == signal.SIGPIPE:
                    self.assertEqual(ended, status)
                self.assertNotIn(b"Traceback", error)

    def test_commands_of_the_program(self) -> None:
        """Each of the few lines of the script, behind an accepted, a refuted and a refused
        specification, and where there is no input."""
        with tempfile.NamedTemporaryFile(suffix=".cise") as refused:
            refused.write(b"cise 1 sort sort")
            refused.flush()
            for words, most in (
                (["check", ACCEPTED], 160),
                (["check", REFUTED], 40),
                (["check", refused.name], 160),
                (["spell", "no/file"], 40),
            ):
                self.walk(words, most)

    def test_other_commands_of_the_program(self) -> None:
        report = tempfile.NamedTemporaryFile()
        self.addCleanup(report.close)
        report.write(call(["check", ACCEPTED])[1])
        report.flush()
        for words in (
            ["verify", ACCEPTED, report.name],
            ["verify", REFUTED, report.name],
            ["upgrade", ACCEPTED, report.name],
            ["suggest", REFUTED],
            ["replay", REFUTED, SCHEDULE],
            ["simulate", ACCEPTED, SCHEDULE],
            ["sample", "3"],
            ["sample"],
        ):
            self.walk(words, 12)

    def test_commands_of_the_script(self) -> None:
        for words, most in (
            (["explain", REFUTED], 40),
            (["page", REFUTED], 12),
            (["order", ACCEPTED], 16),
            (["mend", REFUTED], 30),
            (["json", REFUTED], 12),
        ):
            self.walk(words, most)

    def test_other_commands_of_the_script(self) -> None:
        for words in (
            ["format", REFUTED],
            ["plan", ACCEPTED],
            ["review", ACCEPTED],
            ["example", ACCEPTED, "withdraw"],
            ["ci", REFUTED],
            ["reach", REFUTED],
            ["tests", ACCEPTED, "--most", "2"],
            ["help", "check"],
        ):
            self.walk(words, 6)


class BehindTheAnswer(unittest.TestCase):
    def test_a_fault_of_the_script_is_no_answer(self) -> None:
        """Where a module is damaged, or memory is short while it is read, the status is none of an
        answer's."""
        for damage in (
            "raise ValueError('\\x1b[2J\\n')",
            "raise MemoryError",
            "import no_such_module",
            "f('",
        ):
            with tempfile.TemporaryDirectory() as folder:
                os.mkdir(f"{folder}/launch")
                for name in ("start.py", "__init__.py"):
                    with open(f"{TOP}/launch/{name}", encoding="utf-8") as source, open(
                        f"{folder}/launch/{name}", "w", encoding="utf-8"
                    ) as target:
                        target.write(source.read())
                with open(f"{folder}/launch/quick.py", "w", encoding="utf-8") as file:
                    file.write(damage)
                from subprocess import PIPE, run

                done = run(
                    [
                        sys.executable,
                        "-IS",
                        f"{folder}/launch/start.py",
                        "heeded",
                        "check",
                        REFUTED,
                    ],
                    stdout=PIPE,
                    stderr=PIPE,
                )
                self.assertEqual((done.returncode, done.stdout), (10, b""))
                self.assertRegex(
                    done.stderr, rb"\Acise: no answer, by a fault of the script: [ -~]*\n\Z"
                )


if __name__ == "__main__":
    unittest.main()
