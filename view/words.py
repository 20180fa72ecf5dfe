"""The words of a specification, with their places."""
from __future__ import annotations

import re
from typing import List, Sequence

RESERVED = frozenset(
    "cise sort const relation counter initially token conflict invariant operation end requires"
    " insert remove add set takes when forall exists true false not and or implies int".split()
)
# What is reserved in version 2 alone.
RESERVED_IN_2 = frozenset(["shared", "exclusive", "observes"])
# A word, an end of line, or a comment. (Nothing here begins with white space: what begins with it
# and needs more behind it is sought once for each blank.)
PIECE = re.compile(r"([A-Za-z][A-Za-z0-9_]*|0|[1-9][0-9]*|<=|>=|!=|[(),:.*+\-=<>])|\n|#[^\n]*")
# The program reads no more of a specification.
MOST_BYTES = 65536


class Word(str):
    """A word. `line` and `column` count from 1, `at` is the place of its first letter in the text
    and `end` that behind it, from 0."""

    __slots__ = ("line", "column", "at", "end")
    line: int
    column: int
    at: int
    end: int

    def __new__(cls, text: str, line: int, column: int, at: int) -> "Word":
        word = str.__new__(cls, text)
        word.line, word.column, word.at, word.end = line, column, at, at + len(text)
        return word


def words(text: str) -> List[Word]:
    """The words of a text, in order. A character that begins no word is passed over: the program
    has refused such a text."""
    found, line, begin = [], 1, 0
    for piece in PIECE.finditer(text):
        if piece.group(1):
            at = piece.start()
            found.append(Word(piece.group(1), line, at - begin + 1, at))
        elif text[piece.start()] == "\n":
            line, begin = line + 1, piece.end()
    return found


def placed(name: str) -> Word:
    """A name with its place, as the names of a specification have it."""
    if not isinstance(name, Word):
        raise TypeError(f"{name} has no place")
    return name


def index_of(some: Sequence[str], word: str) -> int:
    """The place of a word in a list in which it stands."""
    return some.index(word)


def text_of(path: str, most: int = -1) -> str:
    """The text of a file, or of so many of its first bytes. Bytes that aren't UTF-8 are kept:
    `encoded` gives the same bytes."""
    with open(path, "rb") as file:
        return file.read(most).decode("utf-8", "surrogateescape")


def encoded(text: str) -> bytes:
    """The bytes of a text that `text_of` gave."""
    return text.encode("utf-8", "surrogateescape")
