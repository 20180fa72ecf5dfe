"""The whole grammar of a specification, and what could stand at a place. Only slips need it: a text
that the program accepts is read by `tree`.

The grammar stands here as docs/users/LANGUAGE.md has it, and a test compares the two. It is read
into rules without repetition, and words are gone through with all the ways in which they could go
on, side by side: a way is a stack of what is still to come. Behind an opened bracket a sum or a
formula may stand, so there are a few ways at a time and never many."""
from __future__ import annotations

import functools
from typing import Sequence

from view.tree import ITEMS
from view.words import RESERVED, RESERVED_IN_2, Word

VERSION_1 = """
specification = "cise" "1" { item }
item       = "sort" NAME
           | "const" NAME ":" NAME
           | "relation" NAME [ places ]
           | "counter" NAME [ places ]
           | "initially" NAME value
           | "token" NAME [ places ]
           | "conflict" reading reading
           | "invariant" NAME prefixed
           | "operation" NAME [ "(" param { "," param } ")" ] { line } "end"
places     = "(" NAME { "," NAME } ")"
value      = "true" | "false" | [ "-" ] NUMBER
param      = NAME ":" NAME | NAME ":" "int"
line       = "requires" prefixed
           | "insert" NAME [ spots ] [ "when" formula ]
           | "remove" NAME [ spots ] [ "when" formula ]
           | "add" NAME [ spots ] term [ "when" formula ]
           | "set" NAME [ spots ] term [ "when" formula ]
           | "takes" reading
spots      = "(" spot { "," spot } ")"
spot       = NAME | "*"
prefixed   = [ quantifier variable { "," variable } "." ] formula
quantifier = "forall" | "exists"
variable   = NAME ":" NAME
formula    = "true" | "false" | "not" formula
           | "(" formula connective formula ")"
           | reading
           | "(" term comparison term ")"
connective = "and" | "or" | "implies"
comparison = "=" | "!=" | "<" | "<=" | ">" | ">="
term       = [ "-" ] summand { sign summand }
sign       = "+" | "-"
summand    = NUMBER | NUMBER "*" reading | reading
reading    = NAME [ "(" NAME { "," NAME } ")" ]
"""
# What version 2 has besides, the first in place of the takes line of version 1.
VERSION_2 = """
line       = "takes" reading [ "shared" | "exclusive" ]
           | "observes" prefixed
"""
NAME, NUMBER, END = "NAME", "NUMBER", "the end of the text"


class Rules:
    """The rules of a grammar's text: for each symbol its alternatives, each a tuple of symbols. A
    repetition or an option becomes a symbol of its own. What has no rules is a word."""

    def __init__(self, text: str) -> None:
        self.rules, self.pieces, self.at, self.made = {}, text.split(), 0, 0
        while self.at < len(self.pieces):
            symbol = self.pieces[self.at]
            self.at += 2
            self.rules[symbol] = self.alternatives()

    def alternatives(self) -> list[tuple[str, ...]]:
        """Those up to a closing bracket, to the next rule or to the end."""
        found: list[tuple[str, ...]] = []
        parts: list[str] = []
        while (
            self.at < len(self.pieces)
            and self.pieces[self.at] not in ("]", "}")
            and self.pieces[self.at + 1 : self.at + 2] != ["="]
        ):
            piece = self.pieces[self.at]
            self.at += 1
            if piece == "|":
                found.append(tuple(parts))
                parts = []
            elif piece in ("[", "{"):
                parts.append(self.bracket(piece))
            else:
                parts.append(piece.strip('"'))
        return found + [tuple(parts)]

    def bracket(self, opening: str) -> str:
        """The symbol of an option or a repetition, whose closing bracket is passed."""
        self.made += 1
        symbol = f"{opening}{self.made}"
        inner = self.alternatives()
        self.at += 1
        again = (symbol,) if opening == "{" else ()
        self.rules[symbol] = [()] + [it + again for it in inner]
        return symbol


@functools.lru_cache()
def rules_of(version: int) -> dict[str, list[tuple[str, ...]]]:
    """The rules of version 1 or 2, which nobody changes."""
    rules = Rules(VERSION_1).rules
    if version == 2:
        more = Rules(VERSION_2).rules
        rules["line"] = rules["line"][:-1] + more.pop("line")
        # Symbols that stand for brackets are numbered in each text anew.
        renamed = {it: it + "'" for it in more}
        rules["line"] = [tuple(renamed.get(it, it) for it in parts) for parts in rules["line"]]
        rules.update((renamed[it], more[it]) for it in more)
        rules["specification"] = [
            tuple("2" if it == "1" else it for it in parts) for parts in rules["specification"]
        ]
    return rules


class Grammar:
    """Goes through words with all the ways in which they could go on. A way is the number of a node
    (symbol, the way behind it); way 0 has nothing to come."""

    def __init__(self, version: int) -> None:
        self.version, self.rules = version, rules_of(version)
        self.nodes: list[tuple[str, int]] = [("", 0)]
        self.numbers: dict[tuple[str, int], int] = {}
        # What was answered before: lines of one kind go on in the same ways.
        self.known: dict[tuple[frozenset[int], str], frozenset[int]] = {}

    def way(self, symbols: tuple[str, ...], behind: int = 0) -> int:
        for symbol in reversed(symbols):
            node = symbol, behind
            if node not in self.numbers:
                self.numbers[node] = len(self.nodes)
                self.nodes.append(node)
            behind = self.numbers[node]
        return behind

    def at_words(self, ways: list[int]) -> frozenset[int]:
        """The ways from these at which a word comes next, or nothing."""
        found, left = set(), list(ways)
        while left:
            way = left.pop()
            if way and self.nodes[way][0] in self.rules:
                symbol, behind = self.nodes[way]
                left += [self.way(it, behind) for it in self.rules[symbol]]
            else:
                found.add(way)
        return frozenset(found)

    def begin(self, symbol: str) -> frozenset[int]:
        """The ways of a symbol at its start."""
        return self.at_words([self.way((symbol,))])

    def begin_items(self) -> frozenset[int]:
        """The ways behind the version, and between two items."""
        return self.at_words([self.way((self.rules["specification"][0][-1],))])

    def behind(self, ways: frozenset[int], word: str) -> frozenset[int]:
        """The ways behind a word."""
        kind = self.kind(word) or str(word)
        if (ways, kind) not in self.known:
            self.known[ways, kind] = self.at_words(
                [self.nodes[it][1] for it in ways if it and self.nodes[it][0] == kind]
            )
        return self.known[ways, kind]

    def kind(self, word: str) -> str | None:
        if word[0].isdigit():
            return NUMBER
        is_name = (
            word[0].isalpha()
            and word not in RESERVED
            and not (self.version == 2 and word in RESERVED_IN_2)
        )
        return NAME if is_name else None

    def next_words(self, ways: frozenset[int]) -> set[str]:
        """What comes next in one of these ways: words, NAME, NUMBER or END."""
        return {self.nodes[it][0] if it else END for it in ways}

    def accepts(self, symbol: str, words: Sequence[str]) -> bool:
        """Whether words are of a symbol."""
        ways = self.begin(symbol)
        for word in words:
            ways = self.behind(ways, word)
        return 0 in ways


def expected_at(words: list[Word], place: int) -> set[str]:
    """What could stand at a place of a text's words, all of those before it being the front of a
    specification."""
    if place == 0:
        return {"cise"}
    if place == 1:
        return {"1", "2"}
    grammar = Grammar(int(words[1]))
    start = max((at for at in range(2, place) if words[at] in ITEMS), default=2)
    ways = grammar.begin_items()
    for word in words[start:place]:
        ways = grammar.behind(ways, word)
    return grammar.next_words(ways)
