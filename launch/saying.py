"""What the script says on standard error: whatever it is said of, one line stays one line, and a
terminal takes nothing of it for an order."""
from __future__ import annotations

import os

STANDARD_ERROR = 2


def visible(text: str) -> str:
    """A text in which all is seen: control characters, marks of direction and bytes that aren't
    UTF-8 stand as escapes."""
    if text.isprintable():
        return text
    return "".join(it if it.isprintable() else escape(it) for it in text)


def escape(letter: str) -> str:
    """What stands for a character that isn't seen, as `\\x1b`; for a byte that isn't UTF-8, as
    `\\xff`."""
    if "\udc80" <= letter <= "\udcff":
        return f"\\x{ord(letter) - 0xDC00:02x}"
    return letter.encode("unicode_escape").decode("ascii")


def printable(text: str, most: int = 200) -> str:
    """So much of an input's text, of a name or of a path as a line has room for."""
    if len(text) <= most and text.isprintable():
        return text
    shown: list[str] = []
    length = 0
    for it in text[: most + 1]:
        piece = it if it.isprintable() else escape(it)
        length += len(piece)
        if length > most:
            return "".join(shown) + "..."
        shown.append(piece)
    return "".join(shown)


def lines_of(text: str) -> str:
    """Lines in which all is seen but their ends and tabs."""
    return "\n".join("\t".join(map(visible, it.split("\t"))) for it in text.split("\n"))


def say(text: str) -> None:
    """Writes lines on standard error. Where they can't be written, nothing is lost but them."""
    left = lines_of(text).encode("utf-8", "replace")
    try:
        while left:
            left = left[os.write(STANDARD_ERROR, left) :]
    except OSError:
        pass
