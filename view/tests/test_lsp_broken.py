"""Texts that are broken anywhere: nothing of the server stops at them, and a session stays as
small as it was. `checks/editor --bytes 1` breaks a text of 65,536 bytes at each of them, and
`checks/editor --edits 10000` makes so many changes."""
from __future__ import annotations

import io
import json
import os
import random
import unittest
from typing import Any

from view import program
from view.server import completion, diagnostics, renaming, structure, telling
from view.server.documents import Document, edits_between
from view.server.names import Names
from view.server.session import Session
from view.tests.client import Client, edited
from view.tests.slips_table import BANK, CHAT, SEATS, STOCK, TOURNAMENT
from view.words import text_of

PIECES = [
    "",
    "(",
    ")",
    "\U0001f600",
    "end ",
    "\n",
    "\r",
    "#",
    "operation ",
    "'",
    "forall",
    "\x00",
    "\ud800",
    ". ",
    ": ",
    "invariant",
    "conflict",
    "cise 2 ",
]
URI = "file:///d.cise"
# How many bytes are passed over between two that are broken: CISE_STRIDE=1 breaks each.
STRIDE = int(os.environ.get("CISE_STRIDE", "997"))


def large() -> str:
    """A specification of 65,536 bytes: a smaller one, with a comment below each line."""
    lines = text_of("examples/league/refuted.cise").splitlines()
    room = (65536 - sum(len(it) + 1 for it in lines)) // len(lines)
    found = "".join(f"{it}\n#{'x' * (room - 2)}\n" for it in lines)
    return found + "#" * (65536 - len(found))


def all_asked(document: Document, at: int) -> None:
    """All that the server says of a text by itself."""
    names, position = document.names, document.position(at)
    structure.symbols(document, names)
    structure.folds(document, names)
    completion.completions(document, names, at, True)
    telling.hover(document, names, None, at)
    telling.signature(document, names, position)
    renaming.definition(document, names, at)
    renaming.references(document, names, at, True)
    renaming.prepared(document, names, at)
    json.dumps(position)


class Broken(unittest.TestCase):
    def test_a_large_text_broken_anywhere(self) -> None:
        chance, text = random.Random(8), large()
        self.assertEqual((len(text.encode()), program.run_on(text, "spell")[0]), (65536, 0))
        for at in range(0, len(text), STRIDE):
            document = Document(URI, 1, text[:at] + chance.choice(PIECES) + text[at + 1 :])
            all_asked(document, min(at, len(document.text)))

    def test_small_texts_broken_at_each_letter(self) -> None:
        chance = random.Random(6)
        for text in (BANK, CHAT, SEATS, STOCK, TOURNAMENT):
            for at in range(len(text)):
                document = Document(URI, 1, text[:at] + chance.choice(PIECES) + text[at + 1 :])
                all_asked(document, chance.randrange(len(document.text) + 1))

    def test_places_go_back_and_forth(self) -> None:
        document = Document(URI, 1, "a\U0001f600b\r\nc\rd\n\u00e9\U0001f600")
        for at in range(len(document.text) + 1):
            if document.text[at - 1 : at + 1] != "\r\n":
                self.assertEqual(document.index(document.position(at)), at)
        self.assertEqual(document.index({"line": 0, "character": 99}), 3)
        self.assertEqual(document.index({"line": 99, "character": 0}), len(document.text))
        self.assertEqual(document.position(2), {"line": 0, "character": 3})

    def test_edits_between_texts(self) -> None:
        chance = random.Random(12)
        for _ in range(200):
            rows = [
                chance.choice(["a\n", "b\n", "\U0001f600\n", "\n"])
                for _ in range(chance.randrange(8))
            ]
            other = [it for it in rows if chance.random() < 0.7] + [
                chance.choice(["z\n", "y"])
            ] * chance.randrange(2)
            text, new = "".join(rows), "".join(other)
            self.assertEqual(edited(text, edits_between(Document(URI, 1, text), new)), new)

    def test_whatever_a_client_sends(self) -> None:
        """Messages with parts exchanged by chance: the session answers each request, and ends by
        `exit` alone."""
        chance = random.Random(21)
        values: list[Any] = [
            None,
            7,
            -1,
            "x",
            [],
            {},
            [{}],
            URI,
            {"uri": URI},
            {"line": 0, "character": 0},
            {"line": -5, "character": 10**9},
            True,
        ]
        methods = [
            "textDocument/" + it
            for it in (
                "didOpen",
                "didChange",
                "didClose",
                "definition",
                "rename",
                "completion",
                "signatureHelp",
                "foldingRange",
                "references",
            )
        ]
        messages = [{"id": 0, "method": "initialize", "params": {}}]
        messages += [
            {
                "method": "textDocument/didOpen",
                "params": {"textDocument": {"uri": URI, "version": 1, "text": BANK}},
            }
        ]
        for number in range(1, 300):
            keys = chance.sample(
                ["textDocument", "position", "newName", "contentChanges", "context", "range"], 3
            )
            message = {
                "id": number,
                "method": chance.choice(methods),
                "params": {it: chance.choice(values) for it in keys},
            }
            if chance.random() < 0.2:
                message["params"] = chance.choice(values)
            messages.append(message)
        messages += [{"id": "last", "method": "shutdown"}, {"method": "exit"}]
        bodies = [json.dumps({"jsonrpc": "2.0", **it}).encode() for it in messages]
        out = io.BytesIO()
        status = Session(
            io.BytesIO(b"".join(b"Content-Length: %d\r\n\r\n" % len(it) + it for it in bodies)), out
        ).run()
        replies = [
            json.loads(it.split(b"Content-Length")[0])
            for it in out.getvalue().split(b"\r\n\r\n")[1:]
        ]
        answered = {it["id"] for it in replies if "id" in it and "method" not in it}
        self.assertEqual(status, 0)
        self.assertEqual(answered, {0, "last", *range(1, 300)})


class Sessions(unittest.TestCase):
    def test_a_session_answers_to_the_end_and_stays_small(self) -> None:
        chance, text, client = random.Random(1), large(), Client()
        client.open(URI, text, 0)
        sizes = []
        for number in range(1, 241):
            at = chance.randrange(len(text))
            client.change(URI, number, text[:at] + chance.choice(PIECES[:10]) + text[at + 1 :])
            if number % 8 == 0:
                client.diagnostics(URI, number)
                client.ask("textDocument/documentSymbol", {"textDocument": {"uri": URI}})
                client.kept.clear()
            if number % 40 == 0:
                sizes.append(memory_of(client.process.pid))
        self.assertEqual((client.close(), client.errors), (0, []))
        self.assertLess(max(sizes) - sizes[0], 8192, sizes)


def memory_of(number: int) -> int:
    """The memory that a process holds, in kilobytes."""
    with open(f"/proc/{number}/status", encoding="ascii") as file:
        return next(int(it.split()[1]) for it in file if it.startswith("VmRSS:"))


class Shown(unittest.TestCase):
    def test_names_of_any_text(self) -> None:
        for text in (
            "",
            "cise",
            "operation",
            "conflict (",
            "invariant i forall x",
            "end end",
            "sort sort sort",
            "operation f ( x :",
            "const c :",
            "relation r ( A ,",
        ):
            Names(text)
            all_asked(Document(URI, 1, text), len(text))

    def test_a_slip_at_the_end_of_the_text(self) -> None:
        from view.further_slips import all_slips

        text = "cise 1 sort"
        refusal = program.run_on(text, "spell")[1].strip()
        (found,) = diagnostics.of_slips(Document(URI, 1, text), all_slips(text, refusal), refusal)
        self.assertEqual(found["range"]["start"], {"line": 0, "character": 11})


if __name__ == "__main__":
    unittest.main()
