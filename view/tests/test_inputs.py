"""Inputs are read once, whole and up to a limit; what people are shown of them can't do anything
to a terminal."""
from __future__ import annotations

import io
import os
import subprocess
import sys
import tempfile
import time
import unittest
from contextlib import redirect_stderr
from typing import Any, Callable
from unittest import mock

from launch import answering, quick
from view import inputs, main, output, program
from view.given import given

BANK = "examples/bank/refuted.cise"
SAY = (
    "import os, sys; sys.path.insert(0, '.'); from launch import quick, saying;"
    " quick.hold_standard_files(); saying.say(sys.argv[1])"
)


class Reading(unittest.TestCase):
    def setUp(self) -> None:
        self.folder = tempfile.TemporaryDirectory()
        self.addCleanup(self.folder.cleanup)
        self.addCleanup(inputs.close_all)

    def file(self, data: bytes, name: str = "input") -> str:
        path = os.path.join(self.folder.name, name)
        with open(path, "wb") as file:
            file.write(data)
        return path

    def test_a_file_that_changes_is_what_it_was(self) -> None:
        for data in (b"one", b"", b"\xff\xc3\xa9\0", b"x" * (3 * inputs.PIECE + 1)):
            path = self.file(data)
            found = inputs.read(path)
            self.file(b"another")
            self.assertEqual(
                (found.data, inputs.text_of(found.path)),
                (data, data.decode("utf-8", "surrogateescape")),
            )
            self.assertEqual(
                (found.name, inputs.name_of(found.path), inputs.name_of(path)), (path, path, path)
            )
            self.assertIs(inputs.read(found.path), found)

    def test_no_more_is_read_than_the_program_would(self) -> None:
        self.assertEqual(len(inputs.read("/dev/zero", 1000).data), 1001)
        self.assertEqual(len(inputs.read(self.file(b"x" * 1000), 1000).data), 1000)
        self.assertEqual(len(inputs.text_of(self.file(b"x" * 2000), 1000)), 1001)

    def test_what_cannot_be_read(self) -> None:
        for path in ("no/file", self.folder.name, f"{self.folder.name}/\udcff"):
            with self.assertRaises(OSError) as caught:
                inputs.read(path)
            self.assertEqual(caught.exception.filename, path)

    def test_the_program_reads_the_copy(self) -> None:
        with open(BANK, "rb") as file:
            text = file.read()
        with mock.patch.object(os, "memfd_create", None):
            del os.memfd_create
            kept = inputs.Copy()
        kept.add(text)
        self.assertTrue(os.path.isfile(f"{kept.folder}/input"))
        found = inputs.read(self.file(text, name="\udcff\n"))
        whole = program.run("check", BANK)
        self.assertEqual(whole[0], 1)
        self.assertEqual(
            [program.run("check", it) for it in (kept.path, found.path)], [whole, whole]
        )
        kept.close()
        self.assertFalse(os.path.exists(given(kept.folder)))

    def test_copies_are_let_go(self) -> None:
        path = self.file(b"one")
        before = len(os.listdir("/proc/self/fd"))
        for _ in range(3):
            inputs.close(inputs.read(path).path)
        for _ in range(3):
            self.assertRaises(OSError, inputs.read, self.folder.name)
        self.assertEqual(len(os.listdir("/proc/self/fd")), before)

    def test_explain_tells_of_what_was_verified(self) -> None:
        """The report is exchanged for another right behind its reading, and the specification
        behind the program's run."""
        report = self.file(program.run("check", BANK)[1].encode())
        spec = self.file(inputs.text_of(BANK).encode(), "spec")
        read, run = inputs.read, program.run

        def reading(path: str, *more: Any) -> inputs.Input:
            found = read(path, *more)
            if path == report:
                self.file(
                    b"cise report 1\nbudget 0\nobligations 0\nsummary proved 9 refuted 0 undecided"
                    b" 0\naccepted\n"
                )
            return found

        def running(*words: str) -> tuple[int, str]:
            found = run(*words)
            self.file(b"cise 1\n", "spec")
            return found

        with mock.patch.object(inputs, "read", reading), mock.patch.object(program, "run", running):
            status, text = main.answer(["explain", spec, report])
        self.assertEqual(status, 1)
        self.assertTrue(text.endswith("\nrejected: 11 proved, 1 refuted, 0 undecided\n"), text)


class BehindTheProgram(unittest.TestCase):
    def test_places_are_told_of_what_the_program_was_given(self) -> None:
        """The file is exchanged as the program ends; the marks of both are of one size."""
        for other, said in (
            (None, ":1:13: 'sort' is a word of the language"),
            ("cise 1 sort done", ""),
        ):
            with tempfile.NamedTemporaryFile("w", suffix=".cise") as file:
                file.write("cise 1 sort sort")
                file.flush()
                run = quick.run

                def running(program: str, words: list[str]) -> int:
                    status = run(program, words)
                    if other:
                        time.sleep(0.02)
                        file.seek(0)
                        file.write(other)
                        file.flush()
                    return status

                with mock.patch.object(quick, "run", running), redirect_stderr(
                    io.StringIO()
                ) as error:
                    self.assertEqual(
                        in_silence(
                            lambda: answering.answer(
                                os.path.abspath(program.path), ["check", file.name]
                            )
                        ),
                        3,
                    )
                self.assertEqual(
                    (bool(error.getvalue()), said in error.getvalue()),
                    (bool(said), True),
                    error.getvalue(),
                )


def in_silence(function: Callable[..., Any]) -> int:
    """What a function gives, while what is written on standard output is lost."""
    kept = os.dup(1)
    with open(os.devnull, "wb") as nowhere:
        os.dup2(nowhere.fileno(), 1)
    try:
        return int(function())
    finally:
        os.dup2(kept, 1)
        os.close(kept)


class Saying(unittest.TestCase):
    def test_printable(self) -> None:
        for text, shown in (
            ("a b", "a b"),
            ("é\u00a0", "é\\xa0"),
            ("a\nb\r\t", "a\\nb\\r\\t"),
            ("\x1b[2J\x07", "\\x1b[2J\\x07"),
            ("\u202ea\u2066", "\\u202ea\\u2066"),
            ("\udcff\udc80", "\\xff\\x80"),
            ("\ud800", "\\ud800"),
            ("\U000e0001", "\\U000e0001"),
            ("x" * 200, "x" * 200),
            ("x" * 201, "x" * 200 + "..."),
            ("\x1b" * 201, "\\x1b" * 50 + "..."),
        ):
            self.assertEqual(output.printable(text), shown)
        self.assertEqual(output.printable("x" * 10**7, 3), "xxx...")

    def said(self, text: str, redirection: str = "", code: str = SAY) -> tuple[int, bytes, bytes]:
        words = ["sh", "-c", f'"$@" {redirection}', "sh", sys.executable, "-IS", "-c", code, text]
        done = subprocess.run(
            words, stdin=subprocess.DEVNULL, stdout=subprocess.PIPE, stderr=subprocess.PIPE
        )
        return done.returncode, done.stdout, done.stderr

    def test_lines_stay_lines(self) -> None:
        self.assertEqual(
            self.said("a\tb\n\x1b[2J\u202e\x9b\r\nc\n"),
            (0, b"", b"a\tb\n\\x1b[2J\\u202e\\x9b\\r\nc\n"),
        )

    def test_standard_error_full_and_closed(self) -> None:
        for redirection in ("2>/dev/full", "2>&-", "2>&- <&-", "2>&- >&- <&-"):
            self.assertEqual(self.said("words", redirection), (0, b"", b""))

    def test_no_file_takes_the_place_of_a_closed_one(self) -> None:
        code = SAY.replace(
            "saying.say(sys.argv[1])",
            "print(os.open('/dev/null', 0)) if sys.stdout else os.write(1, b'')",
        )
        self.assertEqual(self.said("", "2>&- <&-", code), (0, b"3\n", b""))
        self.assertEqual(self.said("", ">&-", code)[0], 1)


if __name__ == "__main__":
    unittest.main()
