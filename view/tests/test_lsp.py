"""The language server by a scripted client: over the gallery, over the table of slips, and
through all that it answers."""
from __future__ import annotations

import contextlib
import glob
import json
import os
import random
import subprocess
import sys
import tempfile
import time
import unittest
from typing import Any, Sequence

from view import program
from view.explain import answer
from view.given import given
from view.report import Report
from view.review import answer as reviewed
from view.tests.client import CALL, Client, at, edited
from view.tests.slips_table import BANK, CHAT, SEATS, SLIPS, STOCK, TOURNAMENT
from view.words import RESERVED, RESERVED_IN_2, text_of, words

DESIGNS = {"bank": BANK, "seats": SEATS, "chat": CHAT, "stock": STOCK, "tournament": TOURNAMENT}
AUCTION = "examples/auction/refuted.cise"
URI = "file:///somewhere/d.cise"


def slow() -> str:
    """A design whose check takes some seconds: a search for whole numbers that reaches its
    limit, for each two of eight operations."""
    head, _, tail = text_of("examples/undecided/meals.cise").partition("operation cook")
    return head + "".join(f"operation cook{it}{tail}" for it in range(8))


SLOW = slow()


def at_position(
    text: str, position: dict[str, int] | None = None, piece: str | None = None, offset: int = 0
) -> dict[str, Any]:
    """The parameters of a request at a place."""
    return {"textDocument": {"uri": URI}, "position": position or at(text, given(piece), offset)}


def told_place(diagnostic: dict[str, Any]) -> str:
    """The line and the column of a diagnostic, from 1."""
    start = diagnostic["range"]["start"]
    return f"{start['line'] + 1}:{start['character'] + 1}"


def position_of(text: str, index: int) -> dict[str, int]:
    before = text[:index]
    return {
        "line": before.count("\n"),
        "character": len(before[before.rfind("\n") + 1 :].encode("utf-16-le")) // 2,
    }


class WithServer(unittest.TestCase):
    """One server for the tests of a class; each test has versions of its own."""

    CAPABILITIES: dict[str, Any] = {}
    client: Client
    version: int

    @classmethod
    def setUpClass(cls) -> None:
        cls.client, cls.version = Client(cls.CAPABILITIES), 0
        cls.client.open(URI, "cise 1\n", 0)
        cls.client.diagnostics(URI, 0)

    @classmethod
    def tearDownClass(cls) -> None:
        status = cls.client.close()
        assert status == 0 and not cls.client.errors, (status, cls.client.errors)

    def shown(self, text: str) -> list[dict[str, Any]]:
        """The first diagnostics of a text that is written in place of the last."""
        type(self).version += 1
        self.client.change(URI, self.version, text)
        return self.client.diagnostics(URI, self.version)[1]


class Diagnostics(WithServer):
    def test_the_gallery_has_its_verdicts(self) -> None:
        for path in sorted(glob.glob("examples/*/*.cise")):
            if "undecided" in path:
                continue
            with self.subTest(path):
                found = self.shown(text_of(path))
                lines = [f"{path}:{told_place(it)}: {it['message']}" for it in found]
                self.assertEqual("".join(it + "\n" for it in lines), answer(path, places=True)[1])
                for it in found:
                    if it["code"].split()[0] in ("commute", "stable"):
                        self.assertEqual(
                            [row["message"][0] for row in it["relatedInformation"][:2]], ["A", "B"]
                        )

    def test_each_slip_of_the_table(self) -> None:
        for design, old, new, place, rule, message in SLIPS:
            with self.subTest(f"{old!r} becomes {new!r}"):
                found = self.shown(design.replace(old, new))
                start = found[0]["range"]["start"]
                self.assertEqual(
                    f"{told_place(found[0])}: {found[0]['message'].split(chr(10))[0]}",
                    f"{place}: {message}",
                )
                self.assertEqual((found[0]["code"], found[0]["severity"]), (rule.split()[0], 1))

    def test_further_slips_come_behind_the_first_and_are_named_so(self) -> None:
        text = BANK.replace("( n >= 0 )", "n >= 0").replace("( m >= 0 )", "m => 0")
        self.assertEqual(len(self.shown(text)), 1)
        found = self.client.diagnostics(URI, self.version)[1]
        self.assertEqual([it["code"] for it in found], ["syntax", "further"])
        self.assertIn("the program stops at the first place", found[1]["message"])

    def test_units_of_utf_16(self) -> None:
        text = BANK.replace("requires ( n >= 0 )", "requires \U0001f600 ( n >= 0 )")
        (found,) = self.shown(text)
        self.assertEqual(
            found["range"],
            {"start": {"line": 5, "character": 11}, "end": {"line": 5, "character": 13}},
        )

    def test_changes_of_pieces(self) -> None:
        """Random pieces are exchanged, with letters of two units; the server's text is then the
        client's."""
        chance, text = random.Random(4), "# \U0001f600\U0001f600\r\n" + BANK + "# \u00e9\n"
        self.shown(text)
        for _ in range(60):
            start = chance.randrange(len(text))
            end = min(len(text), start + chance.randrange(6))
            new = chance.choice(
                ["", "\n", "\r\n", "\U0001f600", "# \U0001f600\n", "x", "( n >= 0 )"]
            )
            if "\r" in text[max(0, start - 1) : end + 1]:
                continue
            edits = [
                {
                    "range": {"start": position_of(text, start), "end": position_of(text, end)},
                    "newText": new,
                }
            ]
            text = edited(text, edits)
            type(self).version += 1
            self.client.change(URI, self.version, {"range": edits[0]["range"], "text": new})
        self.client.diagnostics(URI, self.version)
        status, said = program.run_on(text, "spell")
        found = (
            self.client.ask(
                "textDocument/formatting", {"textDocument": {"uri": URI}, "options": {}}
            )
            if status == 0
            else None
        )
        self.assertTrue(found is not None or said.startswith("refused"), said)
        found = self.shown(text)
        self.assertEqual(bool(found), status == 3)


class Names(WithServer):
    def uses(self, text: str, name: str) -> list[Any]:
        return [it for it in words(text) if it == name]

    def test_every_name_of_each_design_can_have_another_name(self) -> None:
        for design, text in DESIGNS.items():
            self.shown(text)
            before = Report(program.run_on(text, "check")[1])
            tried = set()
            for it in words(text):
                declared = self.client.ask(
                    "textDocument/definition", at_position(text, position_of(text, it.at))
                )
                if not declared or str(declared["range"]) in tried:
                    continue
                tried.add(str(declared["range"]))
                with self.subTest(f"{design}: {it}"):
                    found = self.client.ask(
                        "textDocument/rename",
                        {**at_position(text, position_of(text, it.at)), "newName": "another_name"},
                    )
                    after = edited(text, found["changes"][URI])
                    report = Report(program.run_on(after, "check")[1])
                    self.assertEqual(
                        (report.proved, report.refuted, report.undecided),
                        (before.proved, before.refuted, before.undecided),
                    )
                    uses = self.client.ask(
                        "textDocument/references",
                        {
                            **at_position(text, position_of(text, it.at)),
                            "context": {"includeDeclaration": True},
                        },
                    )
                    self.assertEqual(len(uses), len(found["changes"][URI]))
            self.assertGreater(len(tried), 6)

    def test_a_name_that_cannot_be_had(self) -> None:
        self.shown(SEATS)
        for new, why in (
            ("holds", "already"),
            ("insert", "word of the language"),
            ("1x", "letter first"),
            ("x" * 33, "32"),
            ("p", "already"),
            ("", "letter first"),
        ):
            message = self.client.reply(
                self.client.begin(
                    "textDocument/rename",
                    {**at_position(SEATS, piece="sort Seat", offset=6), "newName": new},
                )
            )
            self.assertIn(why, message["error"]["message"])
        self.assertIsNone(
            self.client.ask(
                "textDocument/prepareRename", at_position(SEATS, piece="requires", offset=2)
            )
        )

    def test_a_broken_text_has_its_names_too(self) -> None:
        text = SEATS.replace("takes place ( s )\nend", "takes place ( s").replace(
            "insert holds ( p , s )", "insert holds ( p ,, s ))"
        )
        self.shown(text)
        found = self.client.ask(
            "textDocument/definition", at_position(text, piece="remove holds", offset=8)
        )
        self.assertEqual(found["range"]["start"], at(text, "relation holds", 9))
        self.assertEqual(
            len(self.client.ask("textDocument/documentSymbol", {"textDocument": {"uri": URI}})), 7
        )

    def test_what_stands_next_is_among_the_completions(self) -> None:
        seen = 0
        for text in DESIGNS.values():
            self.shown(text)
            all_words = words(text)
            for before, it in zip(all_words[1:], all_words[2:]):
                if it[0].isdigit() or before in (
                    "sort",
                    "const",
                    "relation",
                    "counter",
                    "token",
                    "invariant",
                    "operation",
                    "forall",
                ):
                    continue
                after = all_words[all_words.index(it) :][1:2]
                found = self.client.ask(
                    "textDocument/completion", at_position(text, position_of(text, it.at))
                )
                labels = [row["label"] for row in found]
                if after == [":"] and it not in labels:
                    continue
                seen += 1
                self.assertIn(it, labels, f"{before} {it} (line {it.line})")
                self.assertEqual(len(labels), len(set(labels)))
        self.assertGreater(seen, 450)

    def test_completions_have_their_kinds(self) -> None:
        text = SEATS.replace("takes place ( s )", "takes place ( ")
        self.shown(text)
        found = self.client.ask(
            "textDocument/completion", at_position(text, piece="takes place ( ", offset=14)
        )
        self.assertEqual(
            [(it["label"], it["detail"]) for it in found], [("s", "parameter s : Seat")]
        )
        self.assertEqual(
            self.client.ask(
                "textDocument/completion", at_position(text, piece="# Who sits", offset=4)
            ),
            [],
        )

    def test_signatures(self) -> None:
        self.shown(SEATS)
        found = self.client.ask(
            "textDocument/signatureHelp",
            at_position(SEATS, piece="insert holds ( p , s )", offset=19),
        )
        self.assertEqual(
            (found["signatures"][0]["label"], found["activeParameter"]),
            ("holds ( Passenger , Seat )", 1),
        )
        self.assertIsNone(
            self.client.ask(
                "textDocument/signatureHelp", at_position(SEATS, piece="sort Seat", offset=5)
            )
        )


class Answers(WithServer):
    CAPABILITIES = {
        "textDocument": {
            "codeAction": {"resolveSupport": {"properties": ["edit"]}},
            "completion": {"completionItem": {"snippetSupport": True}},
        }
    }

    def actions(
        self, text: str, line: int, diagnostics: Sequence[dict[str, Any]] = ()
    ) -> list[dict[str, Any]]:
        where = {"start": {"line": line, "character": 0}, "end": {"line": line, "character": 1}}
        found: list[dict[str, Any]] = self.client.ask(
            "textDocument/codeAction",
            {
                "textDocument": {"uri": URI},
                "range": where,
                "context": {"diagnostics": list(diagnostics)},
            },
        )
        return found

    def test_mend_as_an_edit(self) -> None:
        text = text_of(AUCTION)
        found = self.shown(text)
        (action,) = self.actions(text, 18, found)
        self.assertNotIn("edit", action)
        self.assertEqual(len(action["diagnostics"]), 5)
        edit = self.client.ask("codeAction/resolve", action)["edit"]["changes"][URI]
        self.assertGreater(len(edit), 2)
        self.assertEqual(edited(text, edit), program_mended(AUCTION))
        self.assertEqual(self.shown(edited(text, edit)), [])

    def test_a_slip_is_mended(self) -> None:
        for design, old, new, *_ in SLIPS[:16]:
            text = design.replace(old, new)
            first = self.shown(text)[0]
            for action in self.actions(text, first["range"]["start"]["line"], [first]):
                self.assertEqual(
                    program.run_on(edited(text, action["edit"]["changes"][URI]), "spell")[0],
                    0,
                    action,
                )
                self.assertTrue(action["title"].startswith(("Write ", "Put in")))

    def test_no_action_where_nothing_is_wrong(self) -> None:
        self.shown(text_of("examples/bank/accepted.cise"))
        self.assertEqual(self.actions(BANK, 3), [])

    def test_hovers(self) -> None:
        text = text_of(AUCTION)
        self.shown(text)
        for piece, offset, said in (
            ("operation close", 12, "may run beside 0 of 3, refuted with 3"),
            ("relation won", 10, "relation won ( Lot , Bidder )"),
            ("counter bid", 9, "counter bid ( Lot , Bidder )"),
            (
                "requires forall b : Bidder . ( bid ( l , b ) <= bid ( l , w ) )",
                2,
                "offer takes away what close requires",
            ),
        ):
            if text.count(piece) == 1:
                found = self.client.ask(
                    "textDocument/hover", at_position(text, piece=piece, offset=offset)
                )
                self.assertIn(said, found["contents"]["value"])
        found = self.client.ask(
            "textDocument/hover", at_position(text, {"line": 18, "character": 4})
        )
        self.assertIn("close takes away what start requires", found["contents"]["value"])
        self.assertIn("Both replicas hold:", found["contents"]["value"])
        self.assertIn("requires FORMULA", found["contents"]["value"])

    def test_lenses_agree_with_explain(self) -> None:
        text = text_of("examples/league/refuted.cise")
        self.shown(text)
        found = self.client.ask("textDocument/codeLens", {"textDocument": {"uri": URI}})
        self.assertEqual(len(found), text.count("\noperation "))
        free = sum(int(it["command"]["title"].split()[3]) for it in found)
        own = sum(
            "withdraw || withdraw" in it
            for it in answer("examples/league/refuted.cise")[1].split("\n")
        )
        self.assertGreater(free, 0)
        self.assertEqual(own, 1)

    def test_symbols_and_folds(self) -> None:
        self.shown(TOURNAMENT)
        found = self.client.ask("textDocument/documentSymbol", {"textDocument": {"uri": URI}})
        self.assertEqual(
            [it["name"] for it in found],
            [
                "Player",
                "Tournament",
                "player",
                "open",
                "enrolled",
                "seats",
                "known",
                "enroll",
                "close",
            ],
        )
        self.assertEqual([it["name"] for it in found[-2]["children"]], ["p", "t"])
        folds = self.client.ask("textDocument/foldingRange", {"textDocument": {"uri": URI}})
        self.assertEqual(
            [(it["startLine"], it["endLine"]) for it in folds], [(8, 9), (10, 16), (17, 20)]
        )

    def test_formatting(self) -> None:
        text = "cise 1\nsort   A # things\n\n\nrelation r(A)\n"
        self.shown(text)
        edits = self.client.ask(
            "textDocument/formatting", {"textDocument": {"uri": URI}, "options": {"tabSize": 8}}
        )
        self.assertEqual(edited(text, edits), "cise 1\nsort A    # things\n\nrelation r ( A )\n")
        self.shown("cise 1 sort")
        message = self.client.reply(
            self.client.begin(
                "textDocument/formatting", {"textDocument": {"uri": URI}, "options": {}}
            )
        )
        self.assertIn("refused specification", message["error"]["message"])


def program_mended(path: str) -> str:
    from view.mend import mended

    return mended(path, with_ways=False)[1]

    def test_hints_of_review(self: Any) -> None:
        text = text_of("examples/bank/accepted.cise")
        self.shown(text)
        (hint,) = self.hinted()
        self.assertEqual((hint["severity"], hint["code"]), (4, "not-needed"))
        said = reviewed("examples/bank/accepted.cise")[1]
        self.assertEqual(f"{told_place(hint)}: {hint['message']}\n", said.partition(":")[2])
        self.shown(text.replace("sort Account\n", "sort Account\nsort Unused\n"))
        self.assertEqual([(it["code"], it["severity"]) for it in self.hinted()][0], ("unused", 3))

    def hinted(self: Any) -> Any:
        """The next diagnostics of the last text that aren't empty."""
        while True:
            found = self.client.diagnostics(URI, self.version)[1]
            if found:
                return found


class Protocol(unittest.TestCase):
    def test_shutdown_and_exit(self) -> None:
        self.assertEqual(Client().close(), 0)
        client = Client()
        client.tell("exit", None)
        self.assertEqual((client.process.wait(20), client.close()), (1, 1))
        client = Client()
        given(client.process.stdin).close()
        self.assertEqual((client.process.wait(20), client.close()), (1, 1))

    def test_what_is_no_message(self) -> None:
        client = Client()
        client.raw(b"Content-Length: 7\r\n\r\nno json")
        self.assertEqual(
            client.until(lambda it: it.get("id", 0) is None)[1]["error"]["code"], -32700
        )
        client.raw(b"content-length: 2\r\nContent-Type: application/vscode-jsonrpc\r\n\r\n{}")
        self.assertEqual(
            client.until(lambda it: it.get("id", 0) is None)[1]["error"]["code"], -32600
        )
        for method, params, code in (
            ("textDocument/nothing", {}, -32601),
            ("textDocument/hover", {}, -32602),
            ("textDocument/hover", {"textDocument": {"uri": "file:///x"}, "position": {}}, -32602),
            (
                "textDocument/definition",
                {"textDocument": {"uri": "file:///x"}, "position": 5},
                -32602,
            ),
            ("textDocument/definition", None, -32602),
            ("textDocument/definition", [1], -32602),
            ("codeAction/resolve", {"title": "x"}, -32602),
            ("initialize", {}, -32600),
        ):
            self.assertEqual(
                client.reply(client.begin(method, params))["error"]["code"], code, method
            )
        for method, params in (
            ("textDocument/didChange", {}),
            ("textDocument/didOpen", None),
            ("$/cancelRequest", {"id": 99}),
            ("$/unknown", {}),
            ("textDocument/didClose", {"textDocument": {"uri": 7}}),
        ):
            client.tell(method, params)
        client.open(URI, BANK)
        self.assertEqual(len(client.diagnostics(URI, 1)[1]), 1)
        client.ask("shutdown", None)
        self.assertEqual(
            client.reply(client.begin("textDocument/hover", {}))["error"]["code"], -32600
        )
        client.tell("exit", None)
        self.assertEqual((client.process.wait(20), client.close()), (0, 0))

    def test_before_initialize(self) -> None:
        server = subprocess.Popen(
            [sys.executable, "-c", CALL], stdin=subprocess.PIPE, stdout=subprocess.PIPE
        )
        body = json.dumps({"jsonrpc": "2.0", "id": 1, "method": "shutdown"}).encode()
        out = server.communicate(b"Content-Length: %d\r\n\r\n" % len(body) + body)[0]
        self.assertEqual(
            (json.loads(out.split(b"\r\n\r\n")[1])["error"]["code"], server.returncode), (-32002, 1)
        )

    def test_a_length_that_cannot_be(self) -> None:
        for head in (
            b"Content-Length: 99999999999\r\n\r\n",
            b"Content-Length: -1\r\n\r\n",
            b"x" * 5000,
        ):
            client = Client()
            client.raw(head)
            self.assertEqual(client.process.wait(20), 1)
            client.close()

    def test_a_check_of_an_old_text_ends_and_its_answer_is_dropped(self) -> None:
        client = Client({"window": {"workDoneProgress": True}})
        client.open(URI, SLOW)
        message = client.until(lambda it: it.get("method") == "window/workDoneProgress/create")[1]
        client.send({"id": message["id"], "result": None})
        self.assertEqual(
            client.until(lambda it: it.get("method") == "$/progress")[1]["params"]["value"]["kind"],
            "begin",
        )
        running = children(client.process.pid)
        self.assertEqual(len(running), 1)
        client.change(URI, 2, BANK)
        self.assertEqual(len(client.diagnostics(URI, 2)[1]), 1)
        self.assertFalse(set(running) & set(children(client.process.pid)))
        self.assertEqual(
            client.until(lambda it: it.get("method") == "$/progress")[1]["params"]["value"]["kind"],
            "end",
        )
        client.open("file:///other.cise", SLOW)
        time.sleep(0.3)
        begun = time.monotonic()
        self.assertEqual(client.close(), 0)
        self.assertLess(time.monotonic() - begun, 10)
        self.assertFalse(
            [
                it
                for _, it in client.kept
                if it.get("method") == "textDocument/publishDiagnostics"
                and it["params"].get("version") == 1
            ]
        )

    def test_cancellation(self) -> None:
        client = Client()
        client.open(URI, SLOW)
        asked = client.begin("textDocument/codeLens", {"textDocument": {"uri": URI}})
        mend = client.begin(
            "textDocument/codeAction",
            {
                "textDocument": {"uri": URI},
                "range": {"start": {"line": 0, "character": 0}, "end": {"line": 0, "character": 1}},
                "context": {"diagnostics": []},
            },
        )
        client.tell("$/cancelRequest", {"id": mend})
        client.reply(mend)
        client.change(URI, 2, BANK)
        self.assertIn("result", client.reply(asked))
        self.assertEqual(len(client.diagnostics(URI, 2)[1]), 1)
        text = text_of(AUCTION)
        client.change(URI, 3, text)
        client.diagnostics(URI, 3)
        where = {"start": {"line": 0, "character": 0}, "end": {"line": 40, "character": 1}}
        asked = client.begin(
            "textDocument/codeAction",
            {"textDocument": {"uri": URI}, "range": where, "context": {"diagnostics": []}},
        )
        client.tell("$/cancelRequest", {"id": asked})
        self.assertEqual(client.reply(asked)["error"]["code"], -32800)
        self.assertEqual(client.close(), 0)

    def test_no_file_is_written(self) -> None:
        with tempfile.TemporaryDirectory() as folder:
            path = os.path.join(folder, "d.cise")
            with open(path, "w", encoding="utf-8") as file:
                file.write("left as it is\n")
            call = CALL.replace("'.'", repr(os.getcwd()))
            client = Client(
                words=[
                    "env",
                    f"TMPDIR={folder}",
                    "sh",
                    "-c",
                    f'cd "{folder}" && exec "$0" -B -c "$1"',
                    sys.executable,
                    call,
                ]
            )
            uri = f"file://{path}"
            client.open(uri, text_of(AUCTION))
            client.diagnostics(uri, 1)
            where = {"start": {"line": 0, "character": 0}, "end": {"line": 40, "character": 1}}
            requests: list[tuple[str, dict[str, Any]]] = [
                ("codeAction", {"range": where, "context": {"diagnostics": []}}),
                ("formatting", {"options": {}}),
                ("rename", {"position": where["start"], "newName": "x"}),
            ]
            for method, more in requests:
                client.reply(
                    client.begin(f"textDocument/{method}", {"textDocument": {"uri": uri}, **more})
                )
            client.tell("textDocument/didSave", {"textDocument": {"uri": uri}})
            client.tell("textDocument/didClose", {"textDocument": {"uri": uri}})
            self.assertEqual(client.close(), 0)
            self.assertEqual((os.listdir(folder), text_of(path)), (["d.cise"], "left as it is\n"))


def children(number: int) -> list[str]:
    """The processes that a process has started and that still run."""
    found = []
    for it in os.listdir(f"/proc/{number}/task"):
        # (a thread may end meanwhile)
        with contextlib.suppress(FileNotFoundError):
            with open(f"/proc/{number}/task/{it}/children", encoding="ascii") as file:
                found += file.read().split()
    return found


class Reserved(unittest.TestCase):
    def test_every_word_has_something_to_be_said(self) -> None:
        from view.server.telling import WORDS

        plain = {"cise", "end", "true", "false", "not", "and", "or"}
        self.assertEqual(set(WORDS) | plain, RESERVED | RESERVED_IN_2)


if __name__ == "__main__":
    unittest.main()
