"""Declarations and uses of names in any text, also in one that the program refuses: read off the
words alone, each item and each line by itself. What a name stands for is found as the language's
scopes say; of a text that is refused it is a guess that helps."""
from dataclasses import dataclass, field
from typing import Dict, Iterator, List, Optional, Tuple

from view.grammar import NAME, Grammar
from view.place import LINE_HEADS
from view.tree import ITEMS
from view.words import Word, index_of, words

DECLARING = {
    "sort": "sort",
    "const": "constant",
    "relation": "relation",
    "counter": "counter",
    "token": "token",
}
DECLARING.update(invariant="invariant", operation="operation")
LOCAL = ("parameter", "variable", "variable of the rule")


@dataclass(eq=False)
class Declaration:
    """A name that is declared.

    what    sort, constant, relation, counter, token, invariant, operation, parameter, variable
            or variable of the rule
    kind    of a constant, parameter or variable its sort, or int
    places  of a relation, counter or token the sorts of its places
    item    the item that it stands in
    uses    the words that stand for it, its own first
    """

    word: Word
    what: str
    item: "Item"
    kind: Optional[str] = None
    places: Tuple[str, ...] = ()
    uses: List[Word] = field(default_factory=list)

    def told(self) -> str:
        """As `counter balance ( Account )`, `parameter a : Account`."""
        behind = (
            f" : {self.kind}"
            if self.kind
            else f" ( {' , '.join(self.places)} )"
            if self.places
            else ""
        )
        return f"{self.what} {self.word}{behind}"


@dataclass(eq=False)
class Item:
    """An item: its first word, all its words, and of an operation its `lines`, each a list of
    words."""

    head: Word
    words: List[Word]
    lines: List[List[Word]] = field(default_factory=list)
    declaration: Optional[Declaration] = None
    locals: List[Declaration] = field(default_factory=list)

    def end(self) -> int:
        """The place behind its last word."""
        return self.words[-1].end


class Names:
    """The items of a text, its declarations, and for the place of each name what it stands for."""

    def __init__(self, text: str) -> None:
        self.words = words(text)
        self.version = 2 if self.words[1:2] == ["2"] else 1
        self.grammar = Grammar(self.version)
        self.items = list(self.items_of(self.words))
        self.globals: List[Declaration] = []
        self.named: Dict[str, List[Declaration]] = {}
        self.meant: Dict[int, Declaration] = {}
        for item in self.items:
            self.declare(item)
        for item in self.items:
            self.resolve(item)

    def items_of(self, all_words: List[Word]) -> Iterator[Item]:
        """The items, each from its first word up to the next one's."""
        starts = [at for at, it in enumerate(all_words) if it in ITEMS] + [len(all_words)]
        for start, stop in zip(starts, starts[1:]):
            part = all_words[start:stop]
            item = Item(part[0], part)
            if part[0] == "operation":
                heads = [
                    at
                    for at, it in enumerate(part)
                    if it in LINE_HEADS and not self.is_own_name(part, at)
                ]
                ends = [at for at, it in enumerate(part) if it == "end"][:1] or [len(part)]
                item.lines = [part[a:b] for a, b in zip(heads, heads[1:] + ends) if a < b]
            yield item

    def is_own_name(self, part: List[Word], at: int) -> bool:
        """Whether a word of version 2 stands where version 1 has a name."""
        return (
            self.version == 1
            and part[at] == "observes"
            and at > 0
            and part[at - 1].line == part[at].line
        )

    def is_name(self, word: Word) -> bool:
        """Whether a word is a name and none of the language's own."""
        return self.grammar.kind(word) == NAME

    def declare(self, item: Item) -> None:
        """Finds what an item declares."""
        part = item.words
        if item.head in DECLARING and len(part) > 1 and self.is_name(part[1]):
            what = DECLARING[item.head]
            kind = str(part[3]) if what == "constant" and len(part) > 3 else None
            places = (
                tuple(str(it) for it in bracket(part[2:]) if self.is_name(it))
                if what in ("relation", "counter", "token")
                else ()
            )
            item.declaration = self.declaration(part[1], what, item, kind, places)
            self.globals.append(item.declaration)
            self.named.setdefault(str(part[1]), []).append(item.declaration)
        if item.head == "operation":
            head = part[: part.index(item.lines[0][0])] if item.lines else part
            item.locals += [
                self.declaration(it, "parameter", item, kind) for it, kind in self.kinded(head[2:])
            ]
        elif item.head == "conflict":
            self.declare_rule(item)

    def declaration(
        self, word: Word, what: str, item: Item, kind: Optional[str], places: Tuple[str, ...] = ()
    ) -> Declaration:
        found = Declaration(word, what, item, kind, places, [word])
        self.meant[word.at] = found
        return found

    def declare_rule(self, item: Item) -> None:
        """The variables of a rule: each name in its brackets, where it first stands."""
        depth, seen = 0, set()
        for it in item.words[1:]:
            depth += (it == "(") - (it == ")")
            if depth > 0 and self.is_name(it) and it not in seen:
                seen.add(it)
                item.locals.append(self.declaration(it, "variable of the rule", item, None))

    def kinded(self, part: List[Word]) -> Iterator[Tuple[Word, Optional[str]]]:
        """The names of a part that have a colon behind them, with their kinds."""
        for at, it in enumerate(part[:-1]):
            if self.is_name(it) and part[at + 1] == ":":
                yield it, str(part[at + 2]) if at + 2 < len(part) else None

    def resolve(self, item: Item) -> None:
        """Finds what the names of an item stand for."""
        if item.head == "operation":
            inside = {word.at for line in item.lines for word in line}
            self.resolve_words([it for it in item.words if it.at not in inside], item.locals)
            for line in item.lines:
                self.resolve_line(line, item)
        elif item.head == "invariant":
            self.resolve_line(item.words, item)
        else:
            self.resolve_words(item.words, item.locals)

    def resolve_line(self, line: List[Word], item: Item) -> None:
        """The same of a line of its own, which may have variables."""
        own = []
        if any(it in ("forall", "exists") for it in line):
            stop = index_of(line, ".") if "." in line else len(line)
            own = [
                self.declaration(it, "variable", item, kind)
                for it, kind in self.kinded(line[:stop])
            ]
            item.locals += own
        shared = [it for it in item.locals if it.what != "variable"]
        self.resolve_words(line, shared + own)

    def resolve_words(self, part: List[Word], own: List[Declaration]) -> None:
        for it in part:
            if self.is_name(it) and it.at not in self.meant:
                found = self.find(it, own)
                if found:
                    self.meant[it.at] = found
                    found.uses.append(it)

    def find(self, word: Word, own: List[Declaration]) -> Optional[Declaration]:
        """What a name stands for: the nearest declaration before it, else one behind it."""
        known = self.named.get(word, []) + [it for it in own if it.word == word]
        before = [it for it in known if it.word.at <= word.at]
        return before[-1] if before else known[0] if known else None

    def word_at(self, at: int) -> Optional[Word]:
        """The word that a place stands in, or right behind; a name before a sign."""
        near = [it for it in self.words if it.at <= at <= it.end]
        return next((it for it in near if self.is_name(it)), near[-1] if near else None)

    def at(self, at: int) -> Optional[Declaration]:
        """What the name at a place stands for."""
        word = self.word_at(at)
        return self.meant.get(word.at) if word else None

    def item_at(self, at: int) -> Optional[Item]:
        """The item that a place stands in or behind."""
        return next((it for it in reversed(self.items) if it.head.at <= at), None)

    def scope_at(self, at: int) -> List[Declaration]:
        """What is in scope at a place: what stands before it, of the text, of its operation and
        of its line."""
        found = [it for it in self.globals if it.word.end < at]
        item = self.item_at(at)
        if item and not ("end" in item.words and at > item.end()):
            line = next((it for it in reversed(item.lines) if it[0].at <= at), None)
            start = line[0].at if line else item.head.at
            found += [
                it
                for it in item.locals
                if it.word.end < at and (it.what != "variable" or it.word.at >= start)
            ]
        return found


def bracket(part: List[Word]) -> List[Word]:
    """What stands in the brackets that a list of words begins with, or nothing."""
    if not part or part[0] != "(":
        return []
    return part[1 : index_of(part, ")")] if ")" in part else part[1:]
