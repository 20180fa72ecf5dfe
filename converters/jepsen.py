#!/usr/bin/env python3
"""A history of Jepsen (`history.edn`) as a log for `./cise audit`.

    converters/jepsen.py history.edn [--nodes N] > log.jsonl

An operation that ended with :ok is a call of the operation :f; its :value has the arguments, as a
map by their names or as a vector in their order. The replica is its :node, else its :process, or
with `--nodes N` the process modulo N. A history has no causes. Where a client notes them, as
`:seen` in what it returns (the :index of what was invoked), these are what the call had seen. Else
what ended before it began counts as seen: that holds for one strict store and for nothing else, and
calls that overlap have seen nothing of each other. What failed is passed over; so is what has no
known end, and standard error says so."""
import json
import re
import sys
from typing import Any, Dict, Iterator, List, Optional, Tuple

NOT_OF_ITS_FORM = 4
TOKEN = re.compile(
    r'[\s,]+|;[^\n]*|(#[A-Za-z][\w.]*|[{}\[\]()]|#\{|"(?:[^"\\]|\\.)*"|[^\s,{}\[\]()"]+)'
)
CLOSES = {"{": "}", "[": "]", "(": ")", "#{": "}"}
ESCAPES = {"n": "\n", "t": "\t", "r": "\r"}


class Wrong(Exception):
    """What isn't EDN, or isn't a history."""


class Reader:
    """Reads the values of an EDN text: keywords and symbols as texts, lists and sets as lists."""

    def __init__(self, text: str) -> None:
        self.tokens = [it.group(1) for it in TOKEN.finditer(text) if it.group(1)]
        self.at = 0

    def values(self) -> Iterator[Any]:
        """All values."""
        while self.at < len(self.tokens):
            yield self.value()

    def value(self) -> Any:
        """The next value; a tag before it is passed over."""
        if self.at == len(self.tokens):
            raise Wrong("it ends within a value")
        token = self.tokens[self.at]
        self.at += 1
        if token in CLOSES:
            return self.collection(token)
        if token.startswith("#"):
            return self.value()
        return atom(token)

    def collection(self, opens: str) -> Any:
        """What stands up to the bracket that closes."""
        found = []
        while self.at < len(self.tokens) and self.tokens[self.at] != CLOSES[opens]:
            found.append(self.value())
        self.at += 1
        if opens != "{":
            return found
        if len(found) % 2 or any(isinstance(it, (list, dict)) for it in found[::2]):
            raise Wrong("a map has a key without a value, or a key that is no text or number")
        return dict(zip(found[::2], found[1::2]))


def atom(token: str) -> Any:
    """A text, keyword, number, or one of true, false and nil."""
    if token.startswith('"'):
        return re.sub(r"\\(.)", lambda it: ESCAPES.get(it.group(1), it.group(1)), token[1:-1])
    if token in ("true", "false", "nil"):
        return {"true": True, "false": False, "nil": None}[token]
    if re.fullmatch(r"[+-]?\d+N?", token):
        return int(token.rstrip("N"))
    return token.lstrip(":")


def operations(text: str) -> List[Dict[str, Any]]:
    """The operations of a history, which is a vector or one map behind the other."""
    found = list(Reader(text).values())
    if len(found) == 1 and isinstance(found[0], list):
        found = found[0]
    for at, it in enumerate(found):
        if not isinstance(it, dict) or not {"type", "f", "process"} <= it.keys():
            raise Wrong(f"operation {at} has no :type, :f or :process")
        it.setdefault("index", at)
    return found


class Calls:
    """The calls of a history: those that ended with :ok, in the order of their ends, each with its
    beginning. `open` counts those that have no known end."""

    def __init__(self, history: List[Dict[str, Any]], nodes: Optional[int]) -> None:
        self.nodes = nodes
        begun: Dict[Any, Dict[str, Any]] = {}
        self.ended: List[Tuple[Dict[str, Any], Dict[str, Any]]] = []
        self.open = 0
        for it in history:
            if it["type"] == "invoke":
                self.open += it["process"] in begun
                begun[it["process"]] = it
            elif it["process"] in begun:
                first = begun.pop(it["process"])
                if it["type"] == "ok":
                    self.ended.append((first, it))
                self.open += it["type"] == "info"
        self.open += len(begun)

    def replica(self, operation: Dict[str, Any]) -> str:
        """The replica of an operation."""
        if self.nodes is not None and isinstance(operation["process"], int):
            return str(operation["process"] % self.nodes)
        return str(operation.get("node", operation["process"]))

    def lines(self) -> Iterator[Dict[str, Any]]:
        """The lines of a log."""
        for first, last in self.ended:
            value = first.get("value")
            seen = last["seen"] if "seen" in last else self.before(first["index"])
            args = [] if value is None else value if isinstance(value, (dict, list)) else [value]
            yield {
                "id": first["index"],
                "replica": self.replica(first),
                "call": first["f"],
                "args": args,
                "seen": seen,
            }

    def before(self, index: int) -> List[int]:
        """The last call of each replica that ended before an operation began."""
        found: Dict[str, int] = {}
        for first, last in self.ended:
            if last["index"] > index:
                break
            found[self.replica(first)] = first["index"]
        return list(found.values())


def main(words: List[str]) -> int:
    """Writes the log of a history; 4 where it isn't one."""
    nodes = None
    if "--nodes" in words:
        at = words.index("--nodes")
        nodes, words = int(words[at + 1]), words[:at] + words[at + 2 :]
    try:
        with open(words[0], encoding="utf-8") as file:
            calls = Calls(operations(file.read()), nodes)
        for it in calls.lines():
            print(json.dumps(it))
    except Wrong as wrong:
        print(f"{words[0]}: no history of Jepsen: {wrong}", file=sys.stderr)
        return NOT_OF_ITS_FORM
    if calls.open:
        print(f"{calls.open} operations have no known end, and are left out", file=sys.stderr)
    return 0


if __name__ == "__main__":
    sys.exit(main(sys.argv[1:]))
