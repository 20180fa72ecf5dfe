"""A session with an editor: what is answered when. Requests that a text alone answers are
answered at once; those for which the program is run have a thread of their own, and end when the
editor cancels them or changes the text."""
import itertools
import threading
import traceback
from concurrent.futures import ThreadPoolExecutor
from dataclasses import dataclass
from typing import Any, BinaryIO, Callable, Dict, List, Optional

from view import program
from view.output import printable, say
from view.server import actions, completion, judging, renaming, structure, telling
from view.server.documents import Document, edits_between
from view.server.framing import Message, NotJson, Reader, Writer
from view.server.names import Names

NOT_READ, NOT_A_REQUEST, NO_METHOD, BAD_PARAMS, INTERNAL = -32700, -32600, -32601, -32602, -32603
NOT_INITIALIZED, CANCELLED, CHANGED, FAILED = -32002, -32800, -32801, -32803
# Seconds that a request waits for verdicts: one that is about them, and one that says other
# things too.
PATIENCE, SHORT_PATIENCE = 30.0, 1.0
# Requests for which the program may be run, side by side.
MOST_AT_ONCE = 16

CAPABILITIES = {
    "positionEncoding": "utf-16",
    "textDocumentSync": {"openClose": True, "change": 2},
    "hoverProvider": True,
    "definitionProvider": True,
    "referencesProvider": True,
    "documentHighlightProvider": True,
    "documentSymbolProvider": True,
    "foldingRangeProvider": True,
    "documentFormattingProvider": True,
    "renameProvider": {"prepareProvider": True},
    "completionProvider": {"triggerCharacters": ["(", ",", ":"]},
    "signatureHelpProvider": {"triggerCharacters": ["(", ","]},
    "codeLensProvider": {"resolveProvider": False},
    "codeActionProvider": {"codeActionKinds": [actions.QUICK_FIX], "resolveProvider": True},
}


class Failure(Exception):
    """A request is answered by an error with this number."""

    def __init__(self, code: int, message: str) -> None:
        super().__init__(message)
        self.code, self.message = code, message


@dataclass(eq=False)
class Open:
    """A document that is open, with its judge."""

    document: Document
    judge: judging.Judge

    @property
    def names(self) -> Names:
        return self.document.names


@dataclass(eq=False)
class Running:
    """A request that is being answered in a thread of its own."""

    job: program.Job
    uri: Optional[str]
    is_cancelled: bool = False


class Session:
    """Reads messages up to the end, and answers them."""

    def __init__(self, incoming: BinaryIO, outgoing: BinaryIO) -> None:
        self.reader, self.writer = Reader(incoming), Writer(outgoing)
        self.documents: Dict[str, Open] = {}
        self.running: Dict[Any, Running] = {}
        self.lock = threading.Lock()
        self.pool = ThreadPoolExecutor(MOST_AT_ONCE)
        self.numbers = itertools.count(1)
        self.client: Dict[str, Any] = {}
        self.is_initialized, self.is_shut_down = False, False

    def run(self) -> int:
        """The status of the session: 0 where it was shut down as the protocol wants."""
        try:
            while True:
                try:
                    message = self.reader.next()
                except NotJson:
                    self.writer.send(
                        {"id": None, "error": {"code": NOT_READ, "message": "this is no JSON"}}
                    )
                    continue
                if message is None or message.get("method") == "exit":
                    return 0 if self.is_shut_down else 1
                self.take(message)
        finally:
            self.end()

    def end(self) -> None:
        """Ends all that runs."""
        for it in list(self.documents.values()):
            it.judge.close()
        with self.lock:
            for running in self.running.values():
                running.job.end()
        self.pool.shutdown()

    def take(self, message: Message) -> None:
        """Answers a message. Nothing that a client sends ends the session but `exit`."""
        method, number = message.get("method"), message.get("id")
        if not isinstance(method, str):
            if "method" in message or "result" not in message and "error" not in message:
                self.writer.send(
                    {
                        "id": number,
                        "error": {"code": NOT_A_REQUEST, "message": "this is no message"},
                    }
                )
            return
        params = message.get("params")
        if "id" in message:
            self.answer(number, method, params if isinstance(params, dict) else {})
        elif self.is_initialized and method in NOTICES:
            notice = NOTICES[method]
            self.guarded(lambda: notice(self, params))

    def guarded(self, action: Callable[[], Any]) -> None:
        """Does what a notice asks; where its parameters aren't of the protocol's form, nothing is
        done."""
        try:
            action()
        except Exception as error:  # A notice has no answer, and the session goes on.
            say(f"cise lsp: {told(error)}\n")

    def answer(self, number: Any, method: str, params: Dict[str, Any]) -> None:
        """Answers a request, at once or in a thread."""
        if method == "initialize":
            return self.initialize(number, params)
        if not self.is_initialized:
            return self.fail(number, Failure(NOT_INITIALIZED, "initialize comes first"))
        if self.is_shut_down:
            return self.fail(number, Failure(NOT_A_REQUEST, "the server is shut down"))
        if method == "shutdown":
            self.is_shut_down = True
            return self.writer.send({"id": number, "result": None})
        if method in AT_ONCE:
            return self.settle(number, lambda: AT_ONCE[method](self, params))
        if method in BEHIND:
            return self.begin(number, method, params)
        return self.fail(number, Failure(NO_METHOD, f"{method} is nothing that this server does"))

    def settle(self, number: Any, found: Callable[[], Any]) -> None:
        """Sends what an answer is, or why there is none."""
        try:
            self.writer.send({"id": number, "result": found()})
        except Failure as failure:
            self.fail(number, failure)
        except renaming.Refused as refused:
            self.fail(number, Failure(FAILED, str(refused)))
        except program.Cut:
            raise
        except (KeyError, TypeError, ValueError, AttributeError, IndexError) as error:
            self.fail(number, Failure(BAD_PARAMS, told(error)))
        except Exception as error:  # Whatever it was, the client is told, and the session goes on.
            self.fail(number, Failure(INTERNAL, told(error)))

    def fail(self, number: Any, failure: Failure) -> None:
        self.writer.send(
            {"id": number, "error": {"code": failure.code, "message": failure.message}}
        )

    def begin(self, number: Any, method: str, params: Dict[str, Any]) -> None:
        """Answers a request in a thread, unless it is cancelled or its text changes before."""
        uri = params.get("textDocument", params.get("data") or {}).get("uri")
        held = self.documents.get(uri)
        running = Running(program.Job(), uri)
        with self.lock:
            self.running[number] = running

        def work() -> None:
            try:
                with running.job:
                    self.settle(number, lambda: BEHIND[method](self, held, params))
            except program.Cut:
                code, why = (
                    (CANCELLED, "cancelled")
                    if running.is_cancelled
                    else (CHANGED, "the text has changed")
                )
                self.fail(number, Failure(code, why))
            finally:
                with self.lock:
                    self.running.pop(number, None)

        self.pool.submit(work)

    def initialize(self, number: Any, params: Dict[str, Any]) -> None:
        """Begins the session."""
        if self.is_initialized:
            return self.fail(number, Failure(NOT_A_REQUEST, "the session has begun"))
        client = params.get("capabilities")
        self.client, self.is_initialized = client if isinstance(client, dict) else {}, True
        self.writer.send(
            {"id": number, "result": {"capabilities": CAPABILITIES, "serverInfo": {"name": "cise"}}}
        )

    def can(self, *keys: str) -> Any:
        """What the client says that it can."""
        found: Any = self.client
        for it in keys:
            found = found.get(it) if isinstance(found, dict) else None
        return found

    # Notices.

    def opened(self, params: Dict[str, Any]) -> None:
        """A document is open."""
        told = params["textDocument"]
        document = Document(told["uri"], told.get("version"), told["text"])
        self.closed(params)
        judge = judging.Judge(self.publish, self.progress, self.refresh)
        self.documents[document.uri] = Open(document, judge)
        judge.judge(document)

    def edited(self, params: Dict[str, Any]) -> None:
        """A document has changed: what is done for its old text ends."""
        told = params["textDocument"]
        held = self.documents[told["uri"]]
        document = held.document.changed(told.get("version"), params["contentChanges"])
        held.document = document
        self.cut(document.uri)
        held.judge.judge(document)

    def closed(self, params: Dict[str, Any]) -> None:
        """A document is closed: its diagnostics go."""
        uri = params["textDocument"]["uri"]
        held = self.documents.pop(uri, None)
        if held:
            self.cut(uri)
            held.judge.close()
            held.judge.thread.join()
            self.writer.send(
                {
                    "method": "textDocument/publishDiagnostics",
                    "params": {"uri": uri, "diagnostics": []},
                }
            )

    def cut(self, uri: str) -> None:
        """Ends the requests of a document's old text."""
        with self.lock:
            for it in self.running.values():
                if it.uri == uri:
                    it.job.end()

    def cancelled(self, params: Dict[str, Any]) -> None:
        """The client waits no longer for an answer."""
        with self.lock:
            running = self.running.get(params["id"])
            if running:
                running.is_cancelled = True
                running.job.end()

    # What judges tell.

    def publish(self, document: Document, found: List[Dict[str, Any]]) -> None:
        params: Dict[str, Any] = {"uri": document.uri, "diagnostics": found}
        if document.version is not None:
            params["version"] = document.version
        self.writer.send({"method": "textDocument/publishDiagnostics", "params": params})

    def refresh(self) -> None:
        """There are new verdicts: lines over operations are to be asked for anew."""
        if self.can("workspace", "codeLens", "refreshSupport"):
            self.writer.send(
                {"id": f"refresh-{next(self.numbers)}", "method": "workspace/codeLens/refresh"}
            )

    def progress(self, title: str) -> Callable[[], None]:
        """Says after a while that something goes on, where the client shows that; what is given
        back says that it has ended."""
        if not self.can("window", "workDoneProgress"):
            return lambda: None
        token, lock, state = (
            f"check-{next(self.numbers)}",
            threading.Lock(),
            {"begun": False, "ended": False},
        )

        def tell(value: Dict[str, Any]) -> None:
            self.writer.send({"method": "$/progress", "params": {"token": token, "value": value}})

        def begin() -> None:
            with lock:
                if state["ended"]:
                    return
                state["begun"] = True
                self.writer.send(
                    {
                        "id": token,
                        "method": "window/workDoneProgress/create",
                        "params": {"token": token},
                    }
                )
                tell({"kind": "begin", "title": title, "cancellable": False})

        def end() -> None:
            timer.cancel()
            with lock:
                state["ended"] = True
                if state["begun"]:
                    tell({"kind": "end"})

        timer = threading.Timer(judging.LONG, begin)
        timer.daemon = True
        timer.start()
        return end

    # Requests that are answered at once.

    def held(self, params: Dict[str, Any]) -> Open:
        """The open document of a request."""
        found = self.documents.get(params["textDocument"]["uri"])
        if not found:
            raise Failure(BAD_PARAMS, "this document isn't open")
        return found

    def definition(self, params: Dict[str, Any]) -> Any:
        held = self.held(params)
        return renaming.definition(
            held.document, held.names, held.document.index(params["position"])
        )

    def references(self, params: Dict[str, Any]) -> Any:
        held, at_own = self.held(params), params.get("context", {}).get("includeDeclaration", True)
        return renaming.references(
            held.document, held.names, held.document.index(params["position"]), bool(at_own)
        )

    def highlights(self, params: Dict[str, Any]) -> Any:
        held = self.held(params)
        return renaming.highlights(
            held.document, held.names, held.document.index(params["position"])
        )

    def prepared(self, params: Dict[str, Any]) -> Any:
        held = self.held(params)
        return renaming.prepared(held.document, held.names, held.document.index(params["position"]))

    def renamed(self, params: Dict[str, Any]) -> Any:
        held = self.held(params)
        return renaming.renamed(
            held.document, held.names, held.document.index(params["position"]), params["newName"]
        )

    def symbols(self, params: Dict[str, Any]) -> Any:
        held = self.held(params)
        return structure.symbols(held.document, held.names)

    def folds(self, params: Dict[str, Any]) -> Any:
        held = self.held(params)
        return structure.folds(held.document, held.names)

    def completed(self, params: Dict[str, Any]) -> Any:
        held = self.held(params)
        has_snippets = bool(
            self.can("textDocument", "completion", "completionItem", "snippetSupport")
        )
        return completion.completions(
            held.document, held.names, held.document.index(params["position"]), has_snippets
        )

    def signature(self, params: Dict[str, Any]) -> Any:
        held = self.held(params)
        return telling.signature(held.document, held.names, params["position"])

    # Requests for which the program may be run.

    def hover(self, held: Optional[Open], params: Dict[str, Any]) -> Any:
        held = held or self.held(params)
        verdicts = held.judge.verdicts_of(held.document, SHORT_PATIENCE)
        return telling.hover(
            held.document, held.names, verdicts, held.document.index(params["position"])
        )

    def lenses(self, held: Optional[Open], params: Dict[str, Any]) -> Any:
        held = held or self.held(params)
        document = held.document
        return structure.lenses(document, held.judge.verdicts_of(document, PATIENCE))

    def actions(self, held: Optional[Open], params: Dict[str, Any]) -> Any:
        held = held or self.held(params)
        document = held.document
        verdicts = held.judge.verdicts_of(document, PATIENCE)
        blocks = verdicts.report.blocks if verdicts else []
        is_mendable = any(it.pair() and it.verdict != "proved" for it in blocks)
        found = actions.actions(
            document, params["range"], params.get("context", {}).get("diagnostics", []), is_mendable
        )
        can_wait = "edit" in (
            self.can("textDocument", "codeAction", "resolveSupport", "properties") or []
        )
        return found if can_wait else [self.with_edit(document, it) for it in found]

    def resolved(self, held: Optional[Open], params: Dict[str, Any]) -> Any:
        if not held:
            raise Failure(BAD_PARAMS, "this document isn't open")
        if params["data"].get("version") != held.document.version:
            raise Failure(CHANGED, "the text has changed")
        return self.with_edit(held.document, params)

    def with_edit(self, document: Document, action: Dict[str, Any]) -> Dict[str, Any]:
        """An action with its edit."""
        return action if "edit" in action else {**action, "edit": actions.mend_edit(document)}

    def formatted(self, held: Optional[Open], params: Dict[str, Any]) -> Any:
        from view.format import Unformatted, formatted

        held = held or self.held(params)
        try:
            return edits_between(held.document, formatted(held.document.text))
        except Unformatted as refused:
            raise Failure(FAILED, str(refused)) from refused


def told(error: Exception) -> str:
    """An error in a line."""
    return printable(traceback.format_exception_only(type(error), error)[-1].strip())


NOTICES: Dict[str, Callable[..., None]] = {
    "textDocument/didOpen": Session.opened,
    "textDocument/didChange": Session.edited,
    "textDocument/didClose": Session.closed,
    "$/cancelRequest": Session.cancelled,
}
AT_ONCE: Dict[str, Callable[..., Any]] = {
    "textDocument/definition": Session.definition,
    "textDocument/references": Session.references,
    "textDocument/documentHighlight": Session.highlights,
    "textDocument/prepareRename": Session.prepared,
    "textDocument/rename": Session.renamed,
    "textDocument/documentSymbol": Session.symbols,
    "textDocument/foldingRange": Session.folds,
    "textDocument/completion": Session.completed,
    "textDocument/signatureHelp": Session.signature,
}
BEHIND: Dict[str, Callable[..., Any]] = {
    "textDocument/hover": Session.hover,
    "textDocument/codeLens": Session.lenses,
    "textDocument/codeAction": Session.actions,
    "codeAction/resolve": Session.resolved,
    "textDocument/formatting": Session.formatted,
}
