"""JSON with the places of its parts, as the program reads it: RFC 8259 in UTF-8, at most 127 arrays
and objects within each other, of a key that stands twice the last value. Python's own reader tells
no places and takes more than JSON, as NaN."""
from __future__ import annotations

import re
from typing import Any

SPACE = re.compile(r"[ \t\r\n]*")
NUMBER = re.compile(r"-?(?:0|[1-9][0-9]*)(\.[0-9]+)?([eE][+-]?[0-9]+)?")
PLAIN = re.compile(r'[^"\\\x00-\x1f]*')
WHOLE = re.compile(r"-?[1-9][0-9]*|0")
ESCAPES = {'"': '"', "\\": "\\", "/": "/", "b": "\b", "f": "\f", "n": "\n", "r": "\r", "t": "\t"}
MOST_DEEP = 127
LEAST_WHOLE, MOST_WHOLE = -(2**63), 2**63 - 1


class NotJson(Exception):
    """What isn't JSON: the place, from 0, and what is wrong there."""

    def __init__(self, at: int, message: str) -> None:
        super().__init__(message)
        self.at, self.message = at, message


class Value:
    """A value at a place. `kind` is object, list, text, number, true, false or null. `value` is of
    an object a dict of Values, of a list a list of them, of a text the text, of a number its
    spelling. `keys` are the places of an object's keys.
    """

    def __init__(
        self,
        kind: str,
        at: int,
        end: int,
        value: Any = None,
        keys: dict[str, int] | None = None,
    ) -> None:
        self.kind, self.at, self.end, self.value, self.keys = kind, at, end, value, keys

    def whole(self) -> int | None:
        """The whole number that this is, or None."""
        if self.kind != "number" or not WHOLE.fullmatch(self.value):
            return None
        number = int(self.value)
        return number if LEAST_WHOLE <= number <= MOST_WHOLE else None

    def plain(self) -> Any:
        """The value without places."""
        if self.kind == "object":
            return {key: it.plain() for key, it in self.value.items()}
        if self.kind == "list":
            return [it.plain() for it in self.value]
        if self.kind == "number":
            return self.whole() if self.whole() is not None else float(self.value)
        return {"true": True, "false": False, "null": None}.get(self.kind, self.value)


class Reader:
    def __init__(self, text: str) -> None:
        self.text, self.at = text, 0

    def peek(self) -> str:
        """The next character that isn't white space, to which it goes; "" at the end."""
        space = SPACE.match(self.text, self.at)
        self.at = space.end() if space else self.at
        return self.text[self.at : self.at + 1]

    def whole(self) -> Value:
        found = self.value(0)
        if self.peek():
            raise NotJson(self.at, "the value has ended, and more stands behind it")
        return found

    def value(self, depth: int) -> Value:
        letter, at = self.peek(), self.at
        if letter in ("{", "["):
            if depth == MOST_DEEP:
                raise NotJson(
                    at, f"more than {MOST_DEEP} arrays and objects stand within each other"
                )
            return self.object(depth) if letter == "{" else self.list(depth)
        if letter == '"':
            return Value("text", at, self.at, self.string())
        number = NUMBER.match(self.text, at)
        if number:
            return self.number(number)
        for word in ("true", "false", "null"):
            if self.text.startswith(word, at):
                self.at += len(word)
                return Value(word, at, self.at)
        raise NotJson(at, no_value(self.text, at))

    def number(self, found: re.Match[str]) -> Value:
        self.at = found.end()
        if self.text[self.at : self.at + 1].isdigit():
            raise NotJson(self.at, "a number doesn't begin with 0")
        if self.text[self.at : self.at + 1] in (".", "e", "E"):
            raise NotJson(self.at, "digits are missing behind this")
        if (found.group(1) or found.group(2)) and abs(float(found.group())) == float("inf"):
            raise NotJson(found.start(), "this number is too large to be read")
        return Value("number", found.start(), self.at, found.group())

    def list(self, depth: int) -> Value:
        start = self.at
        found: list[Value] = []
        self.at += 1
        if self.peek() == "]":
            self.at += 1
            return Value("list", start, self.at, found)
        while True:
            found.append(self.value(depth + 1))
            if self.goes_on("]", start):
                return Value("list", start, self.at, found)

    def object(self, depth: int) -> Value:
        start = self.at
        found: dict[str, Value] = {}
        keys: dict[str, int] = {}
        self.at += 1
        if self.peek() == "}":
            self.at += 1
            return Value("object", start, self.at, found, keys)
        while True:
            if self.peek() != '"':
                raise NotJson(self.at, no_key(self.peek()))
            at = self.at
            key = self.string()
            if self.peek() != ":":
                raise NotJson(self.at, f"expected : behind the key {key}")
            self.at += 1
            found[key], keys[key] = self.value(depth + 1), at
            if self.goes_on("}", start):
                return Value("object", start, self.at, found, keys)

    def goes_on(self, end: str, start: int) -> bool:
        """Behind a member: whether the list or the object has ended; else a comma is passed."""
        letter = self.peek()
        if letter not in (",", end) or not letter:
            opened = self.text.count("\n", 0, start) + 1
            what = "array" if end == "]" else "object"
            raise NotJson(
                self.at,
                f"expected , or {end} here"
                + ("" if letter else f": the {what} of line {opened} isn't closed"),
            )
        self.at += 1
        if letter == "," and self.peek() == end:
            raise NotJson(self.at, f"no comma stands before {end}")
        return letter == end

    def string(self) -> str:
        start, parts = self.at, []
        self.at += 1
        while True:
            plain = PLAIN.match(self.text, self.at)
            parts.append(plain.group() if plain else "")
            self.at += len(parts[-1])
            letter = self.text[self.at : self.at + 1]
            if any("\udc80" <= it <= "\udcff" for it in parts[-1]):
                raise NotJson(self.at - 1, "these bytes are no UTF-8")
            if letter == '"':
                self.at += 1
                return "".join(parts)
            if letter != "\\":
                raise NotJson(
                    start if not letter else self.at, "this text isn't closed in its line"
                )
            parts.append(self.escape())

    def escape(self) -> str:
        letter = self.text[self.at + 1 : self.at + 2]
        if letter in ESCAPES and letter:
            self.at += 2
            return ESCAPES[letter]
        pair = re.compile(r"\\u([dD][89abAB][0-9a-fA-F]{2})\\u([dD][c-fC-F][0-9a-fA-F]{2})").match(
            self.text, self.at
        )
        if pair:
            self.at = pair.end()
            return chr(
                0x10000
                + ((int(pair.group(1), 16) - 0xD800) << 10)
                + int(pair.group(2), 16)
                - 0xDC00
            )
        found = re.compile(r"\\u([0-9a-fA-F]{4})").match(self.text, self.at)
        if not found or 0xD800 <= int(found.group(1), 16) <= 0xDFFF:
            raise NotJson(self.at, "no character is written so")
        self.at = found.end()
        return chr(int(found.group(1), 16))


def no_value(text: str, at: int) -> str:
    """What stands where a value was due."""
    letter = text[at : at + 1]
    word = re.compile(r"[A-Za-z]+").match(text, at)
    if not letter:
        return "the text ends here, where a value was due"
    if word and word.group().lower() in ("true", "false", "null", "none"):
        return f"{word.group()} is no value: true, false and null are written small"
    if word:
        return f"{word.group()} is no value: a text stands in double quotes"
    if letter == "'":
        return "a text stands in double quotes"
    if letter in ("/", "#"):
        return "there are no comments in JSON"
    if letter == "+":
        return "a number has no + before it"
    if letter == ".":
        return "a number has a digit before its point"
    if letter == "\ufeff":
        return "the text begins with a byte order mark: save it without one"
    return f"no value begins with {letter if letter.isprintable() else 'this character'}"


def no_key(letter: str) -> str:
    """What stands where a key was due."""
    if letter in ("/", "#") and letter:
        return "there are no comments in JSON"
    return (
        "a key stands in double quotes"
        if letter.isalpha() or letter == "'"
        else "expected a key in double quotes here"
    )


def read(text: str) -> Value:
    """The value of a text, or NotJson."""
    return Reader(text).whole()
