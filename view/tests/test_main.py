"""The commands as the script calls them: statuses, what is written where, and that nothing ends in
a trace."""
from __future__ import annotations

import contextlib
import io
import os
import signal
import subprocess
import sys
import tempfile
import time
import unittest
from typing import Any, IO
from unittest import mock

from launch.answering import OPTIONS, VIEWS
from view import main, program
from view.commands import COMMANDS

TOP = os.path.dirname(os.path.dirname(os.path.dirname(os.path.abspath(__file__))))
CALL = (
    f"import sys; sys.path.insert(0, {TOP!r}); from view import main;"
    f" sys.exit(main.main({os.path.abspath(program.path)!r}, sys.argv[1:]))"
)
PLACES = (
    f"import sys; sys.path.insert(0, {TOP!r}); from view import main;"
    f" main.places({os.path.abspath(program.path)!r}, sys.argv[2:], int(sys.argv[1]))"
)
REFUTED, ACCEPTED, SCHEDULE = (
    f"{TOP}/examples/bank/{it}" for it in ("refuted.cise", "accepted.cise", "two_branches.json")
)


def called(*words: str, code: str = CALL, **more: Any) -> tuple[int, bytes, bytes]:
    """Status, standard output and standard error of a command, as bytes."""
    done = subprocess.run(
        [sys.executable, "-IS", "-c", code, *words],
        stdout=subprocess.PIPE,
        stderr=subprocess.PIPE,
        **more,
    )
    return done.returncode, done.stdout, done.stderr


class InFolder(unittest.TestCase):
    def setUp(self) -> None:
        self.folder = tempfile.TemporaryDirectory()

    def tearDown(self) -> None:
        self.folder.cleanup()

    def file(self, name: str, text: bytes | str) -> str:
        path = os.path.join(self.folder.name, name)
        with open(path, "wb") as file:
            file.write(text if isinstance(text, bytes) else text.encode())
        return path


class Commands(InFolder):
    def test_the_script_knows_the_words(self) -> None:
        self.assertEqual(sorted([*VIEWS, *OPTIONS]), sorted(COMMANDS))
        self.assertEqual(list(VIEWS), sorted(VIEWS))

    def test_statuses_are_the_programs(self) -> None:
        report = self.file("report", program.run("check", REFUTED)[1])
        for words, status in (
            (("explain", REFUTED), 1),
            (("explain", ACCEPTED), 0),
            (("explain", REFUTED, report), 1),
            (("mend", REFUTED), 0),
            (("order", REFUTED), 0),
            (("page", REFUTED), 1),
            (("page", REFUTED, SCHEDULE), 1),
            (("page", ACCEPTED, SCHEDULE), 4),
            (("json", report), 0),
        ):
            with self.subTest(" ".join(words)):
                found, out, error = called(*words)
                self.assertEqual(found, status, error)
                self.assertTrue(out)
                self.assertNotIn(b"Traceback", error)

    def test_wrong_words(self) -> None:
        for words in (
            ("explain",),
            ("explain", "a", "b", "c"),
            ("mend", "a", "b"),
            ("page",),
            ("json",),
            ("json", "a", "b"),
            ("order", "--help"),
            ("explain", REFUTED, "--budget"),
            ("explain", REFUTED, "--budget", "0"),
            ("explain", REFUTED, REFUTED, "--budget", "9"),
            ("mend", REFUTED, "--budget", "9"),
        ):
            with self.subTest(" ".join(words)):
                status, out, error = called(*words)
                self.assertEqual((status, out), (2, b"refused words\n"))
                self.assertTrue(
                    error.startswith(
                        f"cise: these words aren't of the form: cise {words[0]} ".encode()
                    ),
                    error,
                )

    def test_what_a_command_says_of_wrong_words_is_all(self) -> None:
        for words in (
            ("pattern", "none"),
            ("example", REFUTED, "none"),
            ("plan", REFUTED, "--for", "none"),
            ("audit", REFUTED, REFUTED, "--part", "9"),
        ):
            with self.subTest(" ".join(words)):
                status, out, error = called(*words)
                self.assertEqual((status, out, error.count(b"\n")), (2, b"", 1), error)

    def test_a_budget_is_the_programs(self) -> None:
        status, out, error = called("explain", ACCEPTED, "--budget", "2")
        self.assertEqual((status, error), (5, b""))
        self.assertTrue(out.endswith(b"undecided: 5 proved, 0 refuted, 7 undecided\n"), out[-200:])

    def test_what_cannot_be_read(self) -> None:
        for words in (
            ("explain", "no/file"),
            ("mend", self.folder.name),
            ("order", "no/file"),
            ("page", "no/file"),
            ("json", "no/file"),
            ("json", self.folder.name),
            ("explain", REFUTED, "no/file"),
            ("page", REFUTED, "no/file"),
        ):
            with self.subTest(" ".join(words)):
                why = (
                    "it is a folder"
                    if words[-1] == self.folder.name
                    else "No such file or directory"
                )
                said = f"cise: an input couldn't be read: {words[-1]} ({why})\n"
                self.assertEqual(called(*words), (6, b"", said.encode()))

    def test_a_run_that_fails_gives_no_answer(self) -> None:
        real, said = program.output_of, io.StringIO()
        for command, path, failing in (
            ("page", REFUTED, "replay"),
            ("explain", REFUTED, "check"),
            ("mend", REFUTED, "check"),
            ("review", ACCEPTED, "suggest"),
            ("tests", ACCEPTED, "simulate"),
        ):
            for returned, status in ((6, 6), (8, 8), (-signal.SIGKILL, 137)):
                with self.subTest(command, returned=returned):

                    def output_of(words: list[str]) -> tuple[bytes, int]:
                        return (b"cise ", returned) if words[1] == failing else real(words)

                    with mock.patch.object(program, "output_of", output_of):
                        with contextlib.redirect_stderr(said):
                            self.assertEqual(main.answered([command, path]), (status, ""))
        self.assertNotIn("/proc/", said.getvalue())

    def test_a_refused_specification(self) -> None:
        path = self.file("d.cise", "cise 1\nsort Seat\nrelation sold ( Seat , Row )\n")
        for words in (
            ("explain", path),
            ("mend", path),
            ("order", path),
            ("page", path),
            ("page", path, SCHEDULE),
            ("explain", path, SCHEDULE),
        ):
            with self.subTest(" ".join(words)):
                status, out, error = called(*words)
                self.assertEqual((status, out), (3, b"refused specification unknown Row word 9\n"))
                self.assertTrue(
                    error.startswith(
                        path.encode()
                        + b":3:24: unknown name Row\n    3 | relation sold ( Seat , Row )\n"
                    ),
                    error,
                )

    def test_a_refused_report_and_schedule(self) -> None:
        report, schedule = self.file("r", "cise report 1\nbudget 0\n"), self.file(
            "s.json", '{ "sizes": }'
        )
        self.assertEqual(
            called("explain", REFUTED, report)[:2], (4, b"refused report line 2 form\n")
        )
        self.assertTrue(
            called("explain", REFUTED, report)[2].startswith(report.encode() + b":2:1: ")
        )
        status, out, error = called("page", REFUTED, schedule)
        self.assertEqual((status, out), (4, b"refused schedule json\n"))
        self.assertTrue(error.startswith(schedule.encode() + b":1:12: no JSON: "), error)

    def test_bytes_of_any_kind(self) -> None:
        text = program.run("spell", REFUTED)[1].encode().replace(b"\n", b" # \xff\xc3\xa9\n", 1)
        path = self.file(b"d\xff.cise".decode("utf-8", "surrogateescape"), text)
        self.assertEqual([called(it, path)[0] for it in ("explain", "page", "order")], [1, 1, 0])
        wrong = self.file(b"w\xff\n1.cise".decode("utf-8", "surrogateescape"), "cise 1 sort sort")
        self.assertIn(b"w\\xff\\n1.cise:1:13: ", called("explain", wrong)[2])
        path = self.file("d.cise", text)
        status, out, error = called("mend", path)
        self.assertEqual(status, 0, error)
        self.assertIn(b" # \xff\xc3\xa9\n", out)
        self.assertEqual([called(it, path)[0] for it in ("explain", "page", "order")], [1, 1, 0])

    def test_a_name_is_no_input(self) -> None:
        """An operation is told by its name, whatever file there is."""
        self.file("withdraw", "")
        found, out, error = called("example", REFUTED, "withdraw", cwd=self.folder.name)
        self.assertEqual((found, b"withdraw(" in out), (0, True), error)

    def test_pipes(self) -> None:
        with open(REFUTED, "rb") as file:
            text = file.read()
        whole = called("mend", REFUTED)
        self.assertEqual(called("mend", "/dev/stdin", input=text), whole)
        with open(REFUTED, "rb") as file:
            self.assertEqual(called("mend", "/dev/stdin", stdin=file), whole)
        os.mkfifo(os.path.join(self.folder.name, "pipe"))
        path = os.path.join(self.folder.name, "pipe")
        writer = subprocess.Popen(["cp", REFUTED, path])
        self.assertEqual(called("mend", path), whole)
        writer.wait()

    def test_output_that_cannot_be_written(self) -> None:
        with open("/dev/full", "wb") as full:
            done = subprocess.run(
                [sys.executable, "-IS", "-c", CALL, "order", ACCEPTED],
                stdout=full,
                stderr=subprocess.PIPE,
            )
        self.assertEqual((done.returncode, done.stderr), (7, b""))
        closed = subprocess.run(
            [
                "sh",
                "-c",
                f'"{sys.executable}" -IS -c "$0" explain "$1" 2>err >&-; echo $?; cat err',
                CALL,
                REFUTED,
            ],
            stdout=subprocess.PIPE,
            cwd=self.folder.name,
        )
        self.assertEqual(closed.stdout, b"7\n")

    def test_signals_end_it_without_a_trace(self) -> None:
        """The signal comes while the program runs for the call; where the call was over before, a
        larger design is taken."""
        for operations in (16, 32, 64):
            path = self.file("slow.cise", slow(operations))
            running = subprocess.Popen(
                [sys.executable, "-IS", "-c", CALL, "mend", path],
                stdout=subprocess.PIPE,
                stderr=subprocess.PIPE,
            )
            await_run(running)
            running.terminate()
            out, error = running.communicate(timeout=20)
            if running.returncode:
                break
        self.assertIn((running.returncode, out, error), [(143, b"", b""), (-15, b"", b"")])

    def test_each_command_is_quick_but_for_its_runs(self) -> None:
        """At most 0.2 seconds of the layer's own processor time, and a little for Python, over a
        large design."""
        path = self.file("large.cise", large())
        report = self.file("large.report", program.run("check", path)[1])
        for words in (("explain", path), ("order", path), ("page", path), ("json", report)):
            with self.subTest(words[0]):
                code = (
                    CALL.replace("sys.exit(", "s = (")
                    + "; import os; t = os.times(); sys.stderr.write(f'{t.user + t.system}')"
                )
                status, out, error = called(*words, code=code)
                self.assertTrue(out)
                self.assertLess(float(error), 0.3, words)


def slow(operations: int) -> str:
    """A design whose mending takes long: each two operations need an order."""
    return "cise 1 sort A relation r ( A ) " + " ".join(
        f"operation f{it} ( a : A , b : A , c : A ) "
        "insert r ( a ) remove r ( b ) insert r ( c ) end"
        for it in range(operations)
    )


def await_run(running: subprocess.Popen[bytes]) -> None:
    """Waits until a call has begun to run the program, or is over."""
    children = f"/proc/{running.pid}/task/{running.pid}/children"
    until = time.monotonic() + 20
    while running.poll() is None and time.monotonic() < until:
        with contextlib.suppress(OSError):
            with open(children, encoding="utf-8") as file:
                if file.read().strip():
                    return
        time.sleep(0.01)


def large() -> str:
    """Eight operations that need no order, of a design with 200 obligations and more."""
    lines = ["cise 1", "sort Item"] + [f"relation r{it} ( Item )" for it in range(8)]
    lines += [
        f"invariant needs{it} forall x : Item . ( r{it} ( x ) implies r{it - 1} ( x ) )"
        for it in range(1, 8)
    ]
    for it in range(8):
        lines += (
            [f"operation add{it} ( x : Item )"]
            + [f"  requires r{it - 1} ( x )"] * (it > 0)
            + [f"  insert r{it} ( x )", "end"]
        )
    return "\n".join(lines) + "\n"


class Places(InFolder):
    def test_behind_a_command(self) -> None:
        path = self.file("d.cise", "cise 1\nsort Seat sort Seat\n")
        for words in (
            ("check", path),
            ("check", path, "--budget", "7"),
            ("suggest", path),
            ("spell", path),
            ("verify", path, SCHEDULE),
            ("replay", path, SCHEDULE),
        ):
            with self.subTest(" ".join(words)):
                status, out, error = called("3", *words, code=PLACES)
                self.assertEqual((status, out), (0, b""))
                self.assertTrue(
                    error.startswith(path.encode() + b":2:16: Seat is declared twice"), error
                )

    def test_of_an_input_that_has_changed_nothing_is_said(self) -> None:
        """What the program refused may be another text than the one that stands there now."""
        path = self.file("d.cise", "cise 1\nsort Seat sort Seat\n")
        for is_as_it_was, said in (
            ("lambda: True", b"Seat is declared twice"),
            ("lambda: False", b""),
        ):
            code = PLACES.replace("int(sys.argv[1]))", f"int(sys.argv[1]), {is_as_it_was})")
            error = called("3", "check", path, code=code)[2]
            self.assertEqual((bool(error), said in error), (bool(said), True))

    def test_behind_a_refused_step(self) -> None:
        for command in ("replay", "simulate"):
            steps = self.file(
                "s.json",
                '{"sizes":{"Account":1},"constants":{},"replicas":1,"steps":'
                '[\n{"replica":0,"take":4}]}',
            )
            status, out, error = called("4", command, ACCEPTED, steps, code=PLACES)
            self.assertEqual((status, out), (0, b""))
            self.assertTrue(
                error.startswith(
                    steps.encode() + b":2:1: step 0 is refused: there is no call 4 so far"
                ),
                error,
            )

    def test_it_says_nothing_where_it_knows_nothing(self) -> None:
        report = self.file("report", program.run("check", REFUTED)[1])
        for status, words in (
            (3, ("check", "no/file")),
            (3, ()),
            (3, ("check", REFUTED)),
            (4, ("verify", REFUTED, report)),
            (4, ("verify", REFUTED)),
            (4, ("upgrade", REFUTED, "/dev/null")),
            (0, ("check", REFUTED)),
            (3, ("check", "/dev/stdin")),
            (4, ("replay", REFUTED, "no/file")),
        ):
            with self.subTest(f"{status} {words}"):
                self.assertEqual(
                    called(str(status), *words, code=PLACES, stdin=subprocess.DEVNULL),
                    (0, b"", b""),
                )


if __name__ == "__main__":
    unittest.main()
