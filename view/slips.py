"""What is wrong with a specification that the program refuses, for people: `design.cise:5:14:
unknown name Row`, the line, and a caret under the word. Lines and columns count from 1. The program
says at which byte or word a text is refused and by which rule; all else is read off the text."""
from __future__ import annotations

import re
from typing import Any

from view import letter_slips, name_slips, syntax_slips
from view.given import given
from view.output import printable, visible
from view.place import Place
from view.tree import Spec
from view.words import MOST_BYTES, Word, encoded, words

BEGIN = "refused specification "
# The most characters that are shown of a line, and that are said of it.
MOST_SHOWN, MOST_SAID = 160, 800
# In a larger schedule no place is looked for.
MOST_PLACED = 1 << 20


class Slip:
    """A place in a text: `line` and `column`, from 1; `length`, how many characters are meant;
    `message`, one line; `more`, a sentence or None; `fix`, what to write instead, as (from, to,
    text) in letters of the text, or None."""

    def __init__(
        self,
        line: int,
        column: int,
        length: int,
        message: str,
        more: str | None = None,
        fix: tuple[int, int, str] | None = None,
    ) -> None:
        self.line, self.column, self.length, self.message, self.more, self.fix = (
            line,
            column,
            length,
            message,
            more,
            fix,
        )


def slip_of(text: str, refusal: str) -> Slip:
    """The slip that a refusal speaks of, which is the program's line without its first two
    words."""
    parts = refusal.split()
    if parts[0] == "long":
        line, column = position(text, at_byte(text, MOST_BYTES))
        return Slip(
            line,
            column,
            1,
            f"a text has at most {MOST_BYTES:,} bytes, and they end here",
            "Comments and spaces count, too.",
        )
    if parts[0] in ("letter", "name", "number") and parts[1] == "at":
        return letter(text, parts[0], at_byte(text, int(parts[2])))
    all_words, place = words(text), int(parts[-1])
    if parts[0] == "syntax":
        return syntax(text, all_words, place)
    return typing(Spec(text), all_words, parts)


def typing(spec: Spec, all_words: list[Word], parts: list[str]) -> Slip:
    """A name, a number or a line that is wrong in a text that the grammar allows, from the parts of
    the refusal."""
    word = all_words[int(parts[-1])]
    if parts[0] == "limit":
        message, more = name_slips.limit(parts[1], parts[2])
    else:
        rule = {
            "unknown": name_slips.unknown,
            "twice": name_slips.twice,
            "kind": name_slips.kind,
            "count": name_slips.count,
        }[parts[0]]
        message, more = rule(spec, word)
    return Slip(word.line, word.column, len(word), message, more)


def letter(text: str, kind: str, at: int) -> Slip:
    """A character that begins no word, or a word that is too long."""
    line, column = position(text, at)
    length = len(long_word(text, at))
    if kind == "name":
        return Slip(
            line, column, length, f"a name has at most 32 characters, and this one {length}"
        )
    if kind == "number":
        more = "The largest that a text may say is 1,000,000,000."
        return Slip(
            line, column, length, f"a number has at most 38 digits, and this one {length}", more
        )
    return Slip(
        line,
        column,
        1,
        f"{letter_slips.name_of(text[at])} begins no word: {letter_slips.sentence_at(text, at)}",
    )


def long_word(text: str, at: int) -> str:
    """The name or the number that stands at a place, or nothing."""
    return given(re.compile(r"[A-Za-z][A-Za-z0-9_]*|[0-9]*").match(text, at)).group()


def syntax(text: str, all_words: list[Word], place: int) -> Slip:
    """A word with which no specification goes on, or the end of the text where more was to come."""
    at = Place(all_words, place)
    expected, said = syntax_slips.expectation(at.expected), syntax_slips.sentence(at)
    message, more, fix = said or expected, expected if said else None, fix_of(text, at)
    if at.word is not None:
        return Slip(at.word.line, at.word.column, len(at.word), message, more, fix)
    line, column = (
        (all_words[-1].line, all_words[-1].column + len(all_words[-1])) if all_words else (1, 1)
    )
    return Slip(line, column, 1, "the text ends here: " + message, more, fix)


def fix_of(text: str, at: Place) -> tuple[int, int, str] | None:
    """What a sentence proposes, as an edit of the text; None where it proposes nothing, or where a
    comment would go with it."""
    if not at.proposal:
        return None
    start, stop, parts = at.proposal
    if start == stop:
        return line_behind(text, at.words[start - 1], at.word, parts)
    first, last = at.words[start].at, at.words[stop - 1].end
    return None if "#" in text[first:last] else (first, last, " ".join(parts))


def line_behind(
    text: str, before: Word, after: Word | None, parts: list[str]
) -> tuple[int, int, str]:
    """The edit that puts words in a line of their own behind a word and its comment; in its line
    where the next word stands in that."""
    if after is not None and after.line == before.line:
        return before.end, before.end, f" {' '.join(parts)}"
    end = text.find("\n", before.end)
    end = len(text) if end < 0 else end - (text[end - 1 : end] == "\r")
    feed = "\r\n" if text[end : end + 1] == "\r" else "\n"
    return end, end, feed + " ".join(parts)


def at_byte(text: str, byte: int) -> int:
    """The place of the character that a byte belongs to."""
    return (
        len(encoded(text)[:byte].decode("utf-8", "ignore"))
        if text.isascii()
        else len(encoded(text)[:byte].decode("utf-8", "surrogateescape"))
    )


def position(text: str, at: int) -> tuple[int, int]:
    """The line and the column of a place, from 1."""
    return text.count("\n", 0, at) + 1, at - (text.rfind("\n", 0, at) + 1) + 1


def without_place(path: str, said: Any) -> str:
    """The line that tells of an input which is too large for its places to be looked for: what the
    program said, and why no more is."""
    return (
        f"{printable(path)}: {printable(said)}; no place is told in a text of more than"
        f" {MOST_PLACED:,} bytes\n"
    )


def shown(path: str, text: str, slip: Slip) -> str:
    """The lines that tell of a slip: place and message, the line, the caret, and what else is to be
    said."""
    line = line_of(text, slip.line)
    start = max(0, slip.column - 1 - MOST_SHOWN // 2) if len(line) > MOST_SHOWN else 0
    before, meant, after = (
        line[start : slip.column - 1],
        line[slip.column - 1 :][: slip.length],
        line[slip.column - 1 + slip.length :],
    )
    # (a tab stays one, so that the caret stands below its word however wide a tab is)
    before, meant, after = (
        visible_but_tabs(it)
        for it in (
            before,
            meant[: MOST_SHOWN - len(before)],
            after[: max(0, MOST_SHOWN - len(before) - len(meant))],
        )
    )
    room = "".join("\t" if it == "\t" else " " for it in before)
    number = f"{slip.line:5}"
    told = [
        f"{printable(path)}:{slip.line}:{slip.column}: {printable(slip.message, MOST_SAID)}",
        f"{number} | {before}{meant}{after}",
        f"{'':5} | {room}{'^' * max(1, len(meant))}",
    ]
    return "\n".join(told + ([f"  {printable(slip.more, MOST_SAID)}"] if slip.more else [])) + "\n"


def line_of(text: str, number: int) -> str:
    """A line of a text, from 1, without what ends it."""
    begin = 0
    for _ in range(number - 1):
        begin = text.find("\n", begin) + 1
        if not begin:
            return ""
    end = text.find("\n", begin)
    return text[begin : len(text) if end < 0 else end].rstrip("\r")


def visible_but_tabs(text: str) -> str:
    """A part of a line as it is shown: a tab stays one."""
    return "\t".join(map(visible, text.split("\t")))


def tell(path: str, text: str, refusal: str) -> str:
    """What is said of a text of a path that the program refused with this line, or "" where the
    line is of another kind."""
    line = refusal.strip()
    return shown(path, text, slip_of(text, line[len(BEGIN) :])) if line.startswith(BEGIN) else ""


def tell_all(path: str, text: str, found: list[Slip]) -> str:
    """What is said of the slips of a text: the program's own first, and those that were found
    behind it."""
    told = shown(path, text, found[0])
    if len(found) > 1:
        which = "Another place" if len(found) == 2 else f"{len(found) - 1} more places"
        told += (
            f"\n  The program stops there. {which}, found with the pieces that are wrong left"
            " out:\n"
        )
    return told + "".join("\n" + shown(path, text, it) for it in found[1:])
