"""Edits that mend something: what a slip proposes, and the tokens that refuted pairs need. The
edits are proposed; the program has read the text with each of a slip's, and has checked the text
with `mend`'s."""
from typing import Any, Dict, List

from view import program
from view.further_slips import all_slips
from view.inputs import Copy
from view.mend import mended
from view.server.documents import Document, Range, edits_between
from view.slips import BEGIN
from view.words import encoded

ORDER = "Order what has to be ordered (cise mend)"
QUICK_FIX = "quickfix"


def actions(
    document: Document, where: Range, diagnostics: List[Dict[str, Any]], is_mendable: bool
) -> List[Dict[str, Any]]:
    """The actions for a piece of a text. That of `mend` has no edit yet."""
    found = slip_actions(document, where, diagnostics)
    if is_mendable:
        about = [
            it
            for it in diagnostics
            if str(it.get("code", "")).split(" ")[0] in ("commute", "stable")
        ]
        found.append(
            {
                "title": ORDER,
                "kind": QUICK_FIX,
                "diagnostics": about,
                "data": {"uri": document.uri, "version": document.version},
            }
        )
    return found


def slip_actions(
    document: Document, where: Range, diagnostics: List[Dict[str, Any]]
) -> List[Dict[str, Any]]:
    """What the slips within a piece of the text propose to write."""
    status, refusal = program.run_on(document.text, "spell")
    if status != 3 or not refusal.startswith(BEGIN):
        return []
    found = []
    for slip in all_slips(document.text, refusal.strip()):
        place = document.position(document.at_row(slip.line, slip.column))
        if slip.fix and (is_within(place, where) or is_of(place, diagnostics)):
            start, end, new = slip.fix
            edit = {
                "changes": {document.uri: [{"range": document.range(start, end), "newText": new}]}
            }
            about = [it for it in diagnostics if it.get("range", {}).get("start") == place]
            found.append(
                {
                    "title": title(new),
                    "kind": QUICK_FIX,
                    "diagnostics": about,
                    "edit": edit,
                    "isPreferred": True,
                }
            )
    return found


def title(new: str) -> str:
    """As `Write ( n >= 0 )`, or that an end is put in."""
    return "Put in the missing end" if new.strip() == "end" else f"Write {new.strip()}"


def is_within(place: Dict[str, int], where: Range) -> bool:
    """Whether a place stands in the lines of a piece."""
    return bool(where["start"]["line"] <= place["line"] <= where["end"]["line"])


def is_of(place: Dict[str, int], diagnostics: List[Dict[str, Any]]) -> bool:
    return any(it.get("range", {}).get("start") == place for it in diagnostics)


def mend_edit(document: Document) -> Dict[str, Any]:
    """The edit of `mend`: its text was checked by the program."""
    copy = Copy()
    try:
        copy.add(encoded(document.text))
        _, text, _ = mended(copy.path, with_ways=False)
    finally:
        copy.close()
    return {"changes": {document.uri: edits_between(document, text)}}
