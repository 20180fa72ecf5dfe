"""The process that stands for the implementation: it reads lines of JSON and answers each by
one."""
import json
import os
import selectors
import subprocess
import time
from typing import Any, Dict, List, Optional

from view.testing.form import ANSWERS, NotTests, State, state_of

# So much of a line is read.
MOST_LINE = 16 << 20


class Failed(Exception):
    """The adapter died, hung, or answered nonsense: what to say of it."""


class Adapter:
    """A running adapter. Each question has so many seconds."""

    def __init__(self, words: List[str], seconds: float) -> None:
        self.words, self.seconds = words, seconds
        self.process: Optional["subprocess.Popen[bytes]"] = None
        self.rest = b""

    def __enter__(self) -> "Adapter":
        return self

    def __exit__(self, *_: object) -> None:
        self.close()

    def begin(self) -> "subprocess.Popen[bytes]":
        """The process, started where it doesn't run yet."""
        if self.process is None:
            try:
                self.process = subprocess.Popen(
                    self.words, stdin=subprocess.PIPE, stdout=subprocess.PIPE
                )
            except (OSError, ValueError) as error:
                said = getattr(error, "strerror", None) or error
                raise Failed(f"{self.words[0]} can't be started: {said}") from None
            self.rest = b""
        return self.process

    def close(self) -> None:
        """Ends the process: by the end of its input, or by force."""
        process, self.process = self.process, None
        if process is None:
            return
        for stream in (process.stdin, process.stdout):
            try:
                if stream:
                    stream.close()
            except OSError:
                pass
        try:
            process.wait(1)
        except subprocess.TimeoutExpired:
            process.kill()
            process.wait()

    def asked(self, question: Dict[str, Any]) -> Dict[str, Any]:
        """The answer to a question."""
        process = self.begin()
        assert process.stdin is not None
        try:
            process.stdin.write((json.dumps(question) + "\n").encode())
            process.stdin.flush()
        except OSError:
            raise Failed(f"{self.ended()} when it was asked {json.dumps(question)}") from None
        line = self.line(json.dumps(question))
        try:
            answer = json.loads(line)
        except (ValueError, RecursionError):
            answer = None
        if not isinstance(answer, dict):
            shown = line[:200].decode("utf-8", "replace")
            raise Failed(f"it answered what is no object of JSON: {shown!r}")
        if "error" in answer:
            raise Failed(f"it says: {str(answer['error'])[:400]!r}")
        return answer

    def line(self, question: str) -> bytes:
        """The next line that the process writes, within its seconds."""
        process = self.process
        assert process is not None and process.stdout is not None
        until = time.monotonic() + self.seconds
        with selectors.DefaultSelector() as ready:
            ready.register(process.stdout, selectors.EVENT_READ)
            while b"\n" not in self.rest:
                left = until - time.monotonic()
                if left <= 0 or not ready.select(left):
                    self.kill()
                    raise Failed(f"it didn't answer within {self.seconds:g} seconds: {question}")
                piece = os.read(process.stdout.fileno(), 1 << 16)
                if not piece:
                    raise Failed(f"{self.ended()} when it was asked {question}")
                self.rest += piece
                if len(self.rest) > MOST_LINE:
                    self.kill()
                    raise Failed("it wrote a line without an end")
        line, _, self.rest = self.rest.partition(b"\n")
        return line

    def kill(self) -> None:
        """Ends a process that hangs."""
        if self.process is not None:
            self.process.kill()

    def ended(self) -> str:
        """How the process ended, which closed its side."""
        process = self.process
        assert process is not None
        try:
            status = process.wait(1)
        except subprocess.TimeoutExpired:
            return "it closed its output"
        return f"it ended with status {status}" if status >= 0 else f"signal {-status} ended it"

    def reset(self, question: Dict[str, Any]) -> None:
        """Has it begin anew, with the initial state at each replica."""
        self.asked({"do": "reset", **question})

    def call(self, replica: int, name: str, operation: str, arguments: Dict[str, Any]) -> str:
        """What it answers to a call."""
        said = self.asked(
            {
                "do": "call",
                "replica": replica,
                "id": name,
                "operation": operation,
                "args": arguments,
            }
        )
        return self.answer(said)

    def take(self, replica: int, name: str) -> str:
        """What it answers to the taking of a call."""
        return self.answer(self.asked({"do": "take", "replica": replica, "id": name}))

    def answer(self, said: Dict[str, Any]) -> str:
        """The answer's word."""
        word = said.get("answer")
        if word not in ANSWERS:
            raise Failed(
                f'"answer" is one of {", ".join(ANSWERS)}, and it says {json.dumps(said)[:200]}'
            )
        return str(word)

    def state(self, replica: int) -> State:
        """The state of a replica."""
        said = self.asked({"do": "state", "replica": replica})
        try:
            return state_of(said.get("state"), "its state")
        except NotTests as error:
            raise Failed(str(error)) from None
