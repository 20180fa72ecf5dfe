"""A client of the language server for tests: it speaks the protocol to a process, and waits for
what it asks for."""
from __future__ import annotations

import json
import subprocess
import sys
import threading
import time
from queue import Empty, Queue
from typing import Any, Callable

from view import program
from view.given import given

CALL = (
    "import sys; sys.path.insert(0, '.'); from view import main; "
    f"sys.exit(main.main({program.path!r}, ['lsp']))"
)
SECONDS = 60


class Client:
    """A session with a server of its own."""

    def __init__(
        self, capabilities: dict[str, Any] | None = None, words: list[str] | None = None
    ) -> None:
        self.process = subprocess.Popen(
            words or [sys.executable, "-B", "-c", CALL],
            stdin=subprocess.PIPE,
            stdout=subprocess.PIPE,
            stderr=subprocess.PIPE,
        )
        self.incoming: Queue[Any] = Queue()
        self.number = 0
        self.kept: list[tuple[float, dict[str, Any]]] = []
        threading.Thread(target=self.read, daemon=True).start()
        self.errors: list[bytes] = []
        threading.Thread(
            target=lambda: self.errors.extend(given(self.process.stderr)), daemon=True
        ).start()
        self.capabilities = self.ask(
            "initialize", {"processId": None, "rootUri": None, "capabilities": capabilities or {}}
        )["capabilities"]
        self.tell("initialized", {})

    def read(self) -> None:
        while True:
            length = None
            while True:
                line = given(self.process.stdout).readline()
                if not line:
                    return self.incoming.put(None)
                if line in (b"\r\n", b"\n"):
                    break
                if line.lower().startswith(b"content-length:"):
                    length = int(line.split(b":")[1])
            self.incoming.put(
                (time.perf_counter(), json.loads(given(self.process.stdout).read(given(length))))
            )

    def send(self, message: dict[str, Any]) -> None:
        body = json.dumps({"jsonrpc": "2.0", **message}).encode()
        self.raw(b"Content-Length: %d\r\n\r\n" % len(body) + body)

    def raw(self, data: bytes) -> None:
        given(self.process.stdin).write(data)
        given(self.process.stdin).flush()

    def tell(self, method: str, params: Any) -> None:
        self.send({"method": method, "params": params})

    def begin(self, method: str, params: Any) -> int:
        """Sends a request, and gives its number."""
        self.number += 1
        self.send({"id": self.number, "method": method, "params": params})
        return self.number

    def ask(self, method: str, params: dict[str, Any] | None) -> Any:
        """The result of a request; `AssertionError` where it is an error."""
        message = self.reply(self.begin(method, params))
        assert "error" not in message, message["error"]
        return message["result"]

    def reply(self, number: int) -> dict[str, Any]:
        return self.until(lambda it: it.get("id") == number and "method" not in it)[1]

    def until(
        self, wanted: Callable[..., Any], seconds: int = SECONDS
    ) -> tuple[float, dict[str, Any]]:
        """The next message that is wanted, with its time; those before it are kept."""
        for at, held in enumerate(self.kept):
            if wanted(held[1]):
                return self.kept.pop(at)
        end = time.monotonic() + seconds
        while True:
            try:
                held = self.incoming.get(timeout=max(0.01, end - time.monotonic()))
            except Empty:
                raise AssertionError(f"no answer within {seconds} seconds") from None
            assert held is not None, f"the server ended: {b''.join(self.errors).decode()}"
            if wanted(held[1]):
                return held
            self.kept.append(held)

    def diagnostics(self, uri: str, version: int) -> tuple[float, list[dict[str, Any]]]:
        """The next diagnostics of a version, and the time at which they came."""
        at, message = self.until(
            lambda it: it.get("method") == "textDocument/publishDiagnostics"
            and it["params"]["uri"] == uri
            and it["params"].get("version") == version
        )
        return at, message["params"]["diagnostics"]

    def open(self, uri: str, text: str, version: int = 1) -> None:
        self.tell(
            "textDocument/didOpen",
            {"textDocument": {"uri": uri, "languageId": "cise", "version": version, "text": text}},
        )

    def change(self, uri: str, version: int, *changes: dict[str, Any] | str) -> None:
        """Changes a document: to a text, or by changes as the protocol has them."""
        made = [{"text": it} if isinstance(it, str) else it for it in changes]
        self.tell(
            "textDocument/didChange",
            {"textDocument": {"uri": uri, "version": version}, "contentChanges": made},
        )

    def close(self) -> int:
        """The status of a server that is shut down."""
        if self.process.poll() is None:
            self.ask("shutdown", None)
            self.tell("exit", None)
        status = self.process.wait(SECONDS)
        for it in (self.process.stdin, self.process.stdout, self.process.stderr):
            given(it).close()
        return status


def at(text: str, piece: str, offset: int = 0) -> dict[str, int]:
    """The position of a piece that stands once in a text."""
    assert text.count(piece) == 1, piece
    place = text.index(piece) + offset
    line = text.count("\n", 0, place)
    before = text[text.rfind("\n", 0, place) + 1 : place]
    return {"line": line, "character": len(before.encode("utf-16-le")) // 2}


def edited(text: str, edits: list[dict[str, Any]]) -> str:
    """A text with edits of the protocol."""
    starts = [0]
    for line in text.split("\n"):
        starts.append(starts[-1] + len(line) + 1)

    def place(position: dict[str, int]) -> int:
        row = (
            text[starts[position["line"]] : starts[position["line"] + 1]]
            if position["line"] + 1 < len(starts)
            else ""
        )
        return min(
            len(text),
            starts[min(position["line"], len(starts) - 1)]
            + len(row.encode("utf-16-le")[: 2 * position["character"]].decode("utf-16-le")),
        )

    for it in sorted(
        edits,
        key=lambda it: (it["range"]["start"]["line"], it["range"]["start"]["character"]),
        reverse=True,
    ):
        text = (
            text[: place(it["range"]["start"])] + it["newText"] + text[place(it["range"]["end"]) :]
        )
    return text
