"""The structure of a text: its symbols, what may be folded, and a line over each operation that
says beside which it may run."""
from typing import Any, Dict, List, Optional, Tuple

from view.server.documents import Document
from view.server.judging import Verdicts
from view.server.names import Item, Names
from view.words import placed

# How the protocol numbers kinds of symbols.
SYMBOLS = {
    "sort": 5,
    "constant": 14,
    "relation": 18,
    "counter": 16,
    "token": 20,
    "invariant": 17,
    "operation": 12,
    "parameter": 13,
}


def symbols(document: Document, names: Names) -> List[Dict[str, Any]]:
    """The items that declare something, and the parameters of operations below them."""
    return [symbol(document, it) for it in names.items if it.declaration]


def symbol(document: Document, item: Item) -> Dict[str, Any]:
    found = item.declaration
    assert found
    params = [it for it in item.locals if it.what == "parameter"]
    detail = (
        f"({', '.join(f'{it.word} : {it.kind}' for it in params)})"
        if params
        else found.told()[len(found.what) + 1 + len(found.word) :].strip()
    )
    below = [
        {
            "name": str(it.word),
            "detail": str(it.kind),
            "kind": SYMBOLS["parameter"],
            "range": document.word_range(it.word),
            "selectionRange": document.word_range(it.word),
        }
        for it in params
    ]
    return {
        "name": str(found.word),
        "detail": detail,
        "kind": SYMBOLS[found.what],
        "range": document.range(item.head.at, item.end()),
        "selectionRange": document.word_range(found.word),
        "children": below,
    }


def folds(document: Document, names: Names) -> List[Dict[str, Any]]:
    """Items of more than one line, and comments of more than one."""
    found = []
    for item in names.items:
        stop = next((it for it in item.words if it == "end"), item.words[-1])
        first, last = document.position(item.head.at)["line"], document.position(stop.at)["line"]
        if last > first:
            found.append({"startLine": first, "endLine": last, "kind": "region"})
    return found + [
        {"startLine": a, "endLine": b, "kind": "comment"} for a, b in comments(document)
    ]


def comments(document: Document) -> List[Tuple[int, int]]:
    """Rows of lines that hold a comment alone."""
    found, start = [], None
    for number, line in enumerate([*document.text.split("\n"), ""]):
        is_comment = line.lstrip().startswith("#")
        if is_comment and start is None:
            start = number
        elif not is_comment and start is not None:
            if number - start > 1:
                found.append((start, number - 1))
            start = None
    return found


def lenses(document: Document, verdicts: Optional[Verdicts]) -> List[Dict[str, Any]]:
    """For each operation how many operations it may run beside, is ordered with, and is refuted
    or undecided with."""
    if verdicts is None:
        return []
    return [
        {
            "range": document.word_range(placed(name)),
            "command": {"title": beside(verdicts, str(name)), "command": ""},
        }
        for name in verdicts.spec.operations
    ]


def beside(verdicts: Verdicts, name: str) -> str:
    """As `may run beside 3 of 5, ordered with 1, refuted with 1`."""
    states = [verdicts.pairs[name, other].state() for other in verdicts.spec.operations]
    said = [f"may run beside {states.count('proved')} of {len(states)}"]
    said += [
        f"{it} with {states.count(it)}"
        for it in ("ordered", "refuted", "undecided")
        if it in states
    ]
    alone = {
        it.verdict for it in verdicts.report.blocks if it.kind == "safety" and it.names[0] == name
    }
    said += [f"{it} alone" for it in ("refuted", "undecided") if it in alone]
    return ", ".join(said)
