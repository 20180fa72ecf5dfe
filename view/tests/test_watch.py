"""Watching a file: each save is checked, and what changed is said."""
from __future__ import annotations

import os
import queue
import signal
import subprocess
import sys
import tempfile
import threading
import unittest

from view import program
from view.given import given
from view.words import text_of

CALL = (
    f"import sys; sys.path.insert(0, {os.getcwd()!r}); from view import main; "
    f"sys.exit(main.main({os.path.abspath(program.path)!r}, sys.argv[1:]))"
)
REFUTED, ACCEPTED = (text_of(f"examples/bank/{it}.cise") for it in ("refuted", "accepted"))


class Watched:
    """A file, and a process that watches it."""

    def __init__(self, text: str) -> None:
        self.folder = tempfile.TemporaryDirectory()
        self.path = os.path.join(self.folder.name, "d.cise")
        self.save(text)
        self.process = subprocess.Popen(
            [sys.executable, "-c", CALL, "watch", self.path],
            stdout=subprocess.PIPE,
            stderr=subprocess.PIPE,
            text=True,
        )
        self.lines: queue.Queue[str] = queue.Queue()
        threading.Thread(target=self.read, daemon=True).start()

    def read(self) -> None:
        """Takes the lines that it writes."""
        for line in given(self.process.stdout):
            self.lines.put(line.rstrip("\n"))

    def save(self, text: str) -> None:
        """As editors do: a new file is put in place of the old one."""
        with open(self.path + "~", "w", encoding="utf-8") as file:
            file.write(text)
        os.replace(self.path + "~", self.path)

    def shown(self) -> list[str]:
        """The lines up to the next empty one."""
        found: list[str] = []
        while True:
            line = self.lines.get(timeout=60)
            if not line:
                return found
            found.append(line)

    def close(self, number: signal.Signals = signal.SIGTERM) -> tuple[int, str]:
        self.process.send_signal(number)
        out, error = self.process.communicate(timeout=30)
        self.folder.cleanup()
        return self.process.returncode, error


class Watching(unittest.TestCase):
    def test_what_changes_is_said(self) -> None:
        watched = Watched(REFUTED)
        first = watched.shown()
        place = f"{watched.path}:17:3: refuted: another withdraw takes away what withdraw requires"
        self.assertTrue(first[0].endswith("rejected: 11 proved, 1 refuted, 0 undecided"), first)
        self.assertEqual(first[1:], ["  " + place])
        watched.save(ACCEPTED)
        second = watched.shown()
        self.assertTrue(second[0].endswith("accepted: 12 proved, 0 refuted, 0 undecided"), second)
        self.assertEqual(second[1:], ["gone: 1", "- " + place])
        watched.save("# moved\n" + REFUTED)
        self.assertEqual(watched.shown()[1:], ["new: 1", "+ " + place.replace(":17:", ":18:")])
        watched.save(REFUTED.replace("sort Account", "sort Acount"))
        third = watched.shown()
        self.assertTrue(third[0].endswith("refused by the program"))
        self.assertEqual(third[1], "new: 1")
        os.remove(watched.path)
        watched.save(REFUTED)
        self.assertEqual(watched.shown()[1], "new: 1")
        status, error = watched.close()
        self.assertIn((status, error), [(143, ""), (-15, "")])

    def test_a_file_that_is_not_there(self) -> None:
        done = subprocess.run(
            [sys.executable, "-c", CALL, "watch", "no/file"],
            stdout=subprocess.PIPE,
            stderr=subprocess.PIPE,
            text=True,
        )
        self.assertEqual((done.returncode, done.stdout), (6, ""))
        self.assertIn("no/file", done.stderr)


if __name__ == "__main__":
    unittest.main()
