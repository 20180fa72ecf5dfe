"""Where a name is declared and used, and a new name for it."""
import re
from typing import Any, Dict, List, Optional

from view.server.documents import Document
from view.server.names import LOCAL, Declaration, Names
from view.words import RESERVED, RESERVED_IN_2

NAME = re.compile(r"[A-Za-z][A-Za-z0-9_]{0,31}")


class Refused(Exception):
    """A name that can't be had; the text says why."""


def definition(document: Document, names: Names, at: int) -> Optional[Dict[str, Any]]:
    """Where the name at a place is declared."""
    found = names.at(at)
    return {"uri": document.uri, "range": document.word_range(found.word)} if found else None


def references(
    document: Document, names: Names, at: int, with_declaration: bool
) -> List[Dict[str, Any]]:
    """Where the name at a place is used."""
    found = names.at(at)
    uses = [it for it in found.uses if with_declaration or it.at != found.word.at] if found else []
    return [{"uri": document.uri, "range": document.word_range(it)} for it in uses]


def highlights(document: Document, names: Names, at: int) -> List[Dict[str, Any]]:
    """The same, for marks in the text."""
    return [{"range": it["range"], "kind": 1} for it in references(document, names, at, True)]


def prepared(document: Document, names: Names, at: int) -> Optional[Dict[str, Any]]:
    """What is to be renamed at a place."""
    word, found = names.word_at(at), names.at(at)
    return (
        {"range": document.word_range(word), "placeholder": str(found.word)}
        if found and word is not None
        else None
    )


def renamed(document: Document, names: Names, at: int, new: str) -> Dict[str, Any]:
    """The edits that give the name at a place a new one, where nothing else has it."""
    found = names.at(at)
    if not found:
        raise Refused("there is no name here")
    why = refusal(names, found, new)
    if why:
        raise Refused(why)
    edits = [
        {"range": document.word_range(it), "newText": new}
        for it in sorted(found.uses, key=lambda it: it.at)
    ]
    return {"changes": {document.uri: edits}}


def refusal(names: Names, found: Declaration, new: str) -> Optional[str]:
    """Why a name can't have this new one, or None."""
    if not NAME.fullmatch(new):
        return "a name has a letter first, then letters, digits and _, and at most 32 of all"
    if new in RESERVED or names.version == 2 and new in RESERVED_IN_2:
        return f"{new} is a word of the language"
    if new == found.word:
        return None
    everywhere = [it for it in names.globals if it.word == new]
    inside = names.items if found.what not in LOCAL else [found.item]
    local = [it for item in inside for it in item.locals if it.word == new]
    other = (everywhere + local)[:1]
    return f"{new} is {other[0].told()} of line {other[0].word.line} already" if other else None
