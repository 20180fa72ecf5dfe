"""Converters of logs: what they make of samples is a log, of which an audit says what it should."""
import os
import subprocess
import sys
import tempfile
import unittest
from typing import List, Tuple

from view import audit

BANK = "examples/bank/accepted.cise"
# A converter's words, the status of the audit and how it begins, but for the file's name.
SAMPLES: List[Tuple[List[str], int, str]] = [
    (
        ["opentelemetry.py", "samples/spans.json"],
        4,
        ":4: precondition: withdraw(a = Bob, n = 10) of branch 1: line 19",
    ),
    (["opentelemetry.py", "samples/otlp.json"], 0, "2 calls, 1 logged takings of 2 replicas"),
    (
        ["jepsen.py", "samples/history.edn"],
        4,
        ":3: conflict: withdraw(a = Ann, n = 70) of 1 conflicts with withdraw(a = Ann, n = 60) "
        "of 0",
    ),
    (
        ["jepsen.py", "samples/history.edn", "--nodes", "1"],
        4,
        ":3: precondition: withdraw(a = Ann, n = 70) of 0",
    ),
]
# What isn't of the form of a converter's input.
WRONG = [
    ("opentelemetry.py", "{"),
    ("opentelemetry.py", '{"spans": []}'),
    ("opentelemetry.py", '{"resourceSpans": [{"scopeSpans": [{"spans": [{}]}]}]}'),
    ("opentelemetry.py", '[{"SpanContext": {"TraceID": "1"}}]'),
    ("jepsen.py", "{:type :ok"),
    ("jepsen.py", "{:type}"),
    ("jepsen.py", "{:f :read}"),
    ("jepsen.py", "17"),
]


def converted(words: List[str]) -> Tuple[int, str]:
    """The status and the text of a converter."""
    own = [f"converters/{it}" if "/" in it and not it.startswith("/") else it for it in words[1:]]
    done = subprocess.run(
        [sys.executable, f"converters/{words[0]}", *own],
        stdin=subprocess.DEVNULL,
        stdout=subprocess.PIPE,
        stderr=subprocess.PIPE,
        check=False,
    )
    return done.returncode, done.stdout.decode()


class Converted(unittest.TestCase):
    def test_samples(self) -> None:
        for words, status, begin in SAMPLES:
            with self.subTest(words=words), tempfile.TemporaryDirectory() as folder:
                done, text = converted(words)
                self.assertEqual(done, 0)
                path = os.path.join(folder, "log.jsonl")
                with open(path, "w", encoding="utf-8") as file:
                    file.write(text)
                found = audit.answer(BANK, path)
                self.assertEqual(found[0], status, found[1])
                self.assertTrue(found[1].replace(path, "").startswith(begin), found[1])

    def test_wrong(self) -> None:
        for converter, text in WRONG:
            with self.subTest(
                converter=converter, text=text
            ), tempfile.TemporaryDirectory() as folder:
                path = os.path.join(folder, "wrong")
                with open(path, "w", encoding="utf-8") as file:
                    file.write(text)
                self.assertEqual(converted([converter, path]), (4, ""))


if __name__ == "__main__":
    unittest.main()
