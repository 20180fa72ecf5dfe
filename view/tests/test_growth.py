"""Nothing grows past its input: the time of a text of blanks, the memory of a refused input, the
stories of many refutations."""
from __future__ import annotations

import os
import resource
import subprocess
import sys
import tempfile
import time
import unittest
from typing import Any, Callable

from view import program, slips
from view.explain import MOST_STORIES, explained
from view.report import Report
from view.tree import Spec
from view.words import text_of, words

TOP = os.path.dirname(os.path.dirname(os.path.dirname(os.path.abspath(__file__))))
CALL = (
    f"import sys; sys.path.insert(0, {TOP!r}); from view import main;"
    f" sys.exit(main.main({os.path.abspath(program.path)!r}, sys.argv[1:]))"
)
PLACES = (
    f"import sys; sys.path.insert(0, {TOP!r}); from view import main;"
    f" main.places({os.path.abspath(program.path)!r}, sys.argv[2:], int(sys.argv[1]))"
)
BANK = f"{TOP}/examples/bank/accepted.cise"
MEGABYTE = 1 << 20


def seconds(function: Callable[..., Any]) -> float:
    """The processor seconds that something takes, at best."""
    found = []
    for _ in range(3):
        before = time.process_time()
        function()
        found.append(time.process_time() - before)
    return min(found)


class Blanks(unittest.TestCase):
    def test_words_take_time_by_their_text(self) -> None:
        for blank in (" ", "\t", "\r", "\n", " \t", "# ", " #", "#\n", "  \n"):
            short, long = ("cise 1" + blank * count + "sort A" for count in (8000, 64000))
            with self.subTest(repr(blank)):
                self.assertLess(
                    seconds(lambda: words(long)), 16 * seconds(lambda: words(short)) + 0.02
                )

    def test_lines_and_columns(self) -> None:
        text = "a \t b\r\n  \t\n # c d\n\n e# f\n  g \x0c h"
        self.assertEqual(
            [(str(it), it.line, it.column, it.at) for it in words(text)],
            [("a", 1, 1, 0), ("b", 1, 5, 4), ("e", 5, 2, 20), ("g", 6, 3, 27), ("h", 6, 7, 31)],
        )

    def test_commands_on_a_text_of_blanks(self) -> None:
        text = text_of(BANK)
        with tempfile.TemporaryDirectory() as folder:
            for name, blanks in (("one", ""), ("many", " " * 60000)):
                with open(f"{folder}/{name}", "w", encoding="utf-8") as file:
                    file.write(text.replace("sort", blanks + "sort", 1))
            for word in ("explain", "order", "mend", "page"):
                one, many = (used(CALL, word, f"{folder}/{it}") for it in ("one", "many"))
                self.assertEqual((one.status, many.status), (0, 0))
                self.assertLess(many.seconds, 2 * one.seconds + 0.5, word)


class Used:
    """What a call took, beside its answer."""

    def __init__(self, status: int, error: str, seconds: float, bytes_held: int) -> None:
        self.status, self.error, self.seconds, self.bytes_held = status, error, seconds, bytes_held


def used(code: str, *words: str) -> Used:
    """A call of the layer in a process of its own, and what it took: its processor seconds and the
    most memory that it held."""
    with tempfile.TemporaryFile() as error:
        pid = os.posix_spawn(
            sys.executable,
            [sys.executable, "-IS", "-c", code, *words],
            os.environ,
            file_actions=[
                (os.POSIX_SPAWN_OPEN, 1, os.devnull, os.O_WRONLY, 0),
                (os.POSIX_SPAWN_DUP2, error.fileno(), 2),
            ],
        )
        _, status, usage = os.wait4(pid, 0)
        error.seek(0)
        return Used(
            status >> 8,
            error.read().decode(),
            usage.ru_utime + usage.ru_stime,
            1024 * usage.ru_maxrss,
        )


class Refused(unittest.TestCase):
    """Places of refused inputs take at most ten times the memory of the input, and 200 MB."""

    def places(self, status: int, command: str, data: bytes) -> tuple[Used, str]:
        with tempfile.NamedTemporaryFile() as file:
            file.write(data)
            file.flush()
            found = used(PLACES, str(status), command, BANK, file.name)
            self.assertEqual(found.status, 0)
            return found, file.name

    def test_schedules(self) -> None:
        step, most = b'{"replica":0,"take":7},\n', 4 * MEGABYTE
        begin = b'{"sizes":{"Account":1},"constants":{},"replicas":1,"steps":['
        for data in (
            begin + step * (most // len(step)) + b"{}]}",
            b"[" * most,
            begin + b'"' + b"k" * most + b'"]}',
            b'{"' + b"\\n" * (most // 2) + b'":1}',
        ):
            found, name = self.places(4, "replay", data)
            self.assertLess(found.bytes_held, 200 * MEGABYTE)
            self.assertRegex(
                found.error,
                (
                    rf"\A{name}: refused [a-z0-9 ]*; no place is told in a text of more than"
                    r" 1,048,576 bytes\n\Z"
                ),
            )
        held = self.places(4, "replay", begin + step * (MEGABYTE // len(step) - 9) + b"{}]}")[0]
        self.assertLess(held.bytes_held, 200 * MEGABYTE)
        self.assertIn(": steps: there are at most 10,000, and this is one more\n", held.error)

    def test_a_report_of_short_lines(self) -> None:
        report = program.run("check", BANK)[1].encode().replace(b"\nproved", b"\nproofed", 1)
        found, name = self.places(4, "verify", report + b"d 1\n" * (4 * MEGABYTE))
        self.assertRegex(
            found.error,
            (
                rf"\A{name}:5:1: this line isn't of the form that is expected here, or is missing\n"
                r"    5 \| proofed \d+\n"
            ),
        )
        self.assertLess(found.bytes_held, 10 * 16 * MEGABYTE)
        self.assertLess(found.seconds, 2)

    def test_long_lines_and_keys_are_cut(self) -> None:
        for data in (
            b'{"' + b"\\u001b[2J\\n" * 9999 + b'":1}',
            b'{"sizes":{"' + b"\\u202e" * 9999 + b'":1},"constants":{},"replicas":1,"steps":[]}',
        ):
            found, _ = self.places(4, "replay", data)
            self.assertLess(len(found.error), 2000)
            self.assertTrue(all(it.isprintable() or it in "\n" for it in found.error), found.error)
            self.assertEqual(found.error.count("\n"), found.error.count("\n  ") + 1)


class ManyStories(unittest.TestCase):
    def test_the_first_are_told_and_the_others_counted(self) -> None:
        lines = ["cise 1", "sort A"] + [f"relation r{it} ( A )" for it in range(16)]
        lines += [f"invariant i{it} forall x : A . not r{it} ( x )" for it in range(16)]
        updates = " ".join(f"insert r{it} ( x ) when ( n = {it} )" for it in range(16))
        lines += [f"operation f{it} ( x : A , n : int ) {updates} end" for it in range(24)]
        text = "\n".join(lines) + "\n"
        spec, report = Spec(text), Report(program.run_on(text, "check")[1])
        self.assertEqual(report.refuted, 384)
        whole, front = explained(spec, report), explained(spec, report, MOST_STORIES)
        numbers = [
            [
                int(it.partition(".")[0])
                for it in text.split("\n")
                if it[:1].isdigit() and ". f" in it
            ]
            for text in (whole, front)
        ]
        self.assertEqual(numbers, [list(range(1, 385)), list(range(1, 101))])
        self.assertEqual(
            front.count("Stories 101 to 384 aren't told here; with --all they are.\n"), 1
        )
        self.assertTrue(
            front.startswith("f0 alone   refuted, see 1, 2, 3, 4, 5, 6 and 10 more\nf1 alone"),
            front[:200],
        )
        self.assertTrue(whole.endswith(front[-60:]))
        self.assertLess(seconds(lambda: explained(spec, report, MOST_STORIES)), 1)


if __name__ == "__main__":
    unittest.main()
