"""What may stand at a place: the words that the grammar expects behind those before it, and
where a name may stand the names in scope that fit there."""
from typing import Any, Dict, List, Optional, Set, Tuple

from view.grammar import END, NAME, NUMBER, expected_at
from view.place import LINE_HEADS
from view.server.documents import Document
from view.server.names import Declaration, Names
from view.server.telling import open_bracket
from view.tree import ITEMS, UPDATES
from view.words import Word

# How the protocol numbers kinds of completions.
KINDS = {
    "sort": 7,
    "constant": 21,
    "relation": 18,
    "counter": 10,
    "token": 20,
    "operation": 3,
    "invariant": 18,
    "parameter": 6,
    "variable": 6,
}
WORD, SNIPPET = 14, 15
# What an item or a line may look like, for editors that fill in its parts.
SNIPPETS = {
    "operation": "operation ${1:name} ( ${2:x} : ${3:Sort} )\n  $0\nend",
    "invariant": "invariant ${1:name} forall ${2:x} : ${3:Sort} . $0",
    "relation": "relation ${1:name} ( ${2:Sort} )",
    "counter": "counter ${1:name} ( ${2:Sort} )",
    "conflict": "conflict ${1:token} ( ${2:x} ) ${1:token} ( ${2:x} )",
    "forall": "forall ${1:x} : ${2:Sort} . $0",
    "exists": "exists ${1:x} : ${2:Sort} . $0",
}


def completions(
    document: Document, names: Names, at: int, has_snippets: bool
) -> List[Dict[str, Any]]:
    """The completions at a place; the word that is being written counts as not yet there."""
    before = [it for it in names.words if it.end < at or it.end == at and not is_letters(it)]
    if in_comment(document.text, at):
        return []
    try:
        expected = expected_at(before, len(before))
    except (ValueError, IndexError):
        return []
    own = [name(it) for it in fitting(names, before, expected, at)] if NAME in expected else []
    return own + [word(it, has_snippets) for it in sorted(expected - {NAME, NUMBER, END})]


def is_letters(it: Word) -> bool:
    """Whether a word is one that is still being written when a place is right behind it."""
    return it[0].isalnum()


def in_comment(text: str, at: int) -> bool:
    """Whether a place stands in a comment."""
    return "#" in text[text.rfind("\n", 0, at) + 1 : at]


def word(text: str, has_snippets: bool) -> Dict[str, Any]:
    """A word or a sign of the language."""
    found = {
        "label": text,
        "kind": WORD,
        "sortText": f"2{text}" if text[0].isalpha() else f"3{text}",
    }
    if has_snippets and text in SNIPPETS:
        found.update(kind=SNIPPET, insertText=SNIPPETS[text], insertTextFormat=2)
    return found


def name(declared: Declaration) -> Dict[str, Any]:
    """A name in scope."""
    return {
        "label": str(declared.word),
        "kind": KINDS.get(declared.what, 6),
        "detail": declared.told(),
        "sortText": f"1{declared.word}",
    }


def fitting(names: Names, before: List[Word], expected: Set[str], at: int) -> List[Declaration]:
    """The names in scope that fit behind these words, the nearest last declaration of each."""
    needs = needed(names, before, expected)
    if needs is None:
        return []
    whats, sort = needs
    scope = {str(it.word): it for it in names.scope_at(at)}
    return [it for it in scope.values() if it.what in whats and fits_sort(it, whats, sort)]


def fits_sort(it: Declaration, whats: Set[str], sort: Optional[str]) -> bool:
    """Whether a name is of the sort that its place needs. In a formula or a sum a name of int
    stands alone, and one of a sort is compared."""
    if it.kind is None or sort is None:
        return True
    return it.kind == sort


ELEMENTS = {"constant", "parameter", "variable"}


def needed(
    names: Names, before: List[Word], expected: Set[str]
) -> Optional[Tuple[Set[str], Optional[str]]]:
    """What a name behind these words may be, and of which sort; None where it is a new one."""
    last = before[-1]
    if last in ITEMS | {"forall", "exists"} and last not in ("conflict", "initially"):
        return None
    heads = {
        "insert": {"relation"},
        "remove": {"relation"},
        "add": {"counter"},
        "set": {"counter"},
        "takes": {"token"},
    }
    heads.update(conflict={"token"}, initially={"relation", "counter"})
    if last in heads:
        return heads[last], None
    if last == ":":
        return {"sort"}, None
    opened = open_bracket(before)
    if opened and expected <= {NAME, "*"}:
        return in_brackets(names, before, opened)
    if last == "," and not opened:
        return None
    return formula(names, before, expected)


def in_brackets(
    names: Names, before: List[Word], opened: int
) -> Optional[Tuple[Set[str], Optional[str]]]:
    """Behind the name of a thing: sorts in its declaration, else elements of the sort of the
    place."""
    thing = before[opened - 1]
    meant = names.meant.get(thing.at)
    if meant and meant.word.at == thing.at:
        return ({"sort"}, None) if meant.what in ("relation", "counter", "token") else None
    place = sum(it == "," for it in before[opened + 1 :])
    if before[0] == "conflict" or meant is None or place >= len(meant.places):
        return (ELEMENTS, None) if meant else None
    item = names.item_at(thing.at)
    if item and item.head == "conflict":
        return {"variable of the rule"}, None
    return ELEMENTS, meant.places[place]


def formula(
    names: Names, before: List[Word], expected: Set[str]
) -> Optional[Tuple[Set[str], Optional[str]]]:
    """Where a formula or a sum goes on: facts and numbers, and elements to be compared."""
    if "conflict" in before[-6:] and "token" not in before[-6:]:
        item = names.item_at(before[-1].at)
        if item and item.head == "conflict":
            return {"token"}, None
    start = max((at for at, it in enumerate(before) if it in LINE_HEADS or it in ITEMS), default=0)
    if before[start] in ("add", "set") and "when" not in before[start:]:
        return {"counter", "parameter"}, "int"
    if "not" in expected and "(" != before[-1]:
        return {"relation"}, None
    if "not" in expected:
        return {"relation", "counter", *ELEMENTS}, None
    if before[-1] in ("=", "!=") and len(before) > 1:
        left = names.meant.get(before[-2].at)
        if left and left.what in ELEMENTS and left.kind:
            return (
                ({"counter", "parameter"}, "int") if left.kind == "int" else (ELEMENTS, left.kind)
            )
    if NUMBER in expected:
        return {"counter", "parameter"}, "int"
    if before[start] in UPDATES:
        return None
    return {"relation", "counter", *ELEMENTS}, None
