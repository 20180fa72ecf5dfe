"""LANGUAGE, "Words" and "Syntax refusals": a text is cut into words, which are taken in turn."""
from __future__ import annotations
import re
from typing import Callable, NamedTuple, NoReturn, TypeVar

MOST_BYTES = 65_536
# "These names are reserved".
RESERVED = frozenset(
    "cise sort const relation counter initially token conflict invariant operation end requires"
    " insert remove add set takes when forall exists true false not and or implies int".split()
)
KINDS = {
    # "White space is space, tab, carriage return and line feed. A `#` begins a comment, which ends
    # before the next line feed or at the end of the text."
    "nothing": r"[ \t\r\n]+|#[^\n]*",
    # "A name is a letter, a to z or A to Z, and all letters, digits and _ that follow."
    "name": r"[A-Za-z][A-Za-z0-9_]*",
    # "A number is 0 alone, or a digit from 1 to 9 and all digits that follow."
    "number": r"0|[1-9][0-9]*",
    # "The signs are ( ) , : . * + - = != < <= > >=. The longest one that stands there is taken."
    "sign": r"!=|<=|>=|[(),:.*+\-=<>]",
}
WORD = re.compile("|".join(f"(?P<{kind}>{form})" for kind, form in KINDS.items()))
# "In version 2 shared, exclusive and observes are no NAMEs. In version 1 they are names".
WORDS_OF_TWO = ("shared", "exclusive", "observes")
# A word of a text: a name, number, sign or reserved one, how it is spelled, and its number.
Word = NamedTuple("Word", [("kind", str), ("text", str), ("number", int)])
T = TypeVar("T")


class SpecRefused(Exception):
    """A text is no specification, for this reason."""


def cut(text: bytes) -> list[Word]:
    """The words of a text, in their order, and behind them one without a letter."""
    # "A specification is a text of at most 65,536 bytes."
    if len(text) > MOST_BYTES:
        raise SpecRefused("long")
    letters, place = text.decode("latin-1"), 0
    words: list[Word] = []
    while place < len(letters):
        found = WORD.match(letters, place)
        if not found:
            # letter: "a byte that is in no white space or comment and begins no word"
            raise SpecRefused(f"letter at {place}")
        kind, word = str(found.lastgroup), found.group()
        # name: "the first byte of a name of more than 32 bytes"
        # number: "the first byte of a number of more than 38 digits"
        if len(word) > {"name": 32, "number": 38}.get(kind, MOST_BYTES):
            raise SpecRefused(f"{kind} at {place}")
        if kind != "nothing":
            words.append(Word("reserved" if word in RESERVED else kind, word, len(words)))
        place = found.end()
    return [*words, Word("", "", len(words))]


class Cursor:
    """Words from the first on; `at` is the number of the next one. Nothing looks further ahead, and
    it is refused where no specification goes on with it: so its number is "the length of the
    longest front of the words with which some specification begins"."""

    def __init__(self, words: list[Word]) -> None:
        self.words, self.at, self.version = words, 0, 1

    def next(self) -> str:
        """The next word as it is spelled, and nothing at the end."""
        return self.words[self.at].text

    def refuse(self) -> NoReturn:
        raise SpecRefused(f"syntax word {self.at}")

    def take(self, *texts: str) -> Word:
        if self.next() not in texts:
            self.refuse()
        self.at += 1
        return self.words[self.at - 1]

    def skip(self, text: str) -> bool:
        """Takes this word where it is next, and says whether it was."""
        is_next = self.next() == text
        self.at += is_next
        return is_next

    def is_name(self) -> bool:
        """Whether the next word is a NAME: "a name that isn't reserved"."""
        kind, text, _ = self.words[self.at]
        return kind == "name" and (self.version == 1 or text not in WORDS_OF_TWO)

    def name(self) -> Word:
        return self.take(self.next()) if self.is_name() else self.refuse()

    def is_number(self) -> bool:
        return self.words[self.at].kind == "number"

    def number(self) -> Word:
        return self.take(self.next()) if self.is_number() else self.refuse()

    def several(self, read: Callable[[], T]) -> list[T]:
        """Something, and `{ "," something }`."""
        found = [read()]
        while self.skip(","):
            found.append(read())
        return found

    def bracketed(self, read: Callable[[], T]) -> list[T]:
        """`[ "(" something { "," something } ")" ]`"""
        if not self.skip("("):
            return []
        found = self.several(read)
        self.take(")")
        return found
