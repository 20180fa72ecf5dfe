"""What people mean where a character begins no word."""
from __future__ import annotations

import re

INSTEAD = {
    "&": "'and' is written as a word",
    "|": "'or' is written as a word",
    "!": "'not' is written as a word; unequal is != without a space in it",
    "~": "'not' is written as a word",
    "^": "'and' is written as a word; there are no powers",
    ";": "nothing stands at the end of a line",
    "{": "an operation ends with 'end'; the only brackets are ( and )",
    "}": "an operation ends with 'end'; the only brackets are ( and )",
    "[": "the only brackets are ( and )",
    "]": "the only brackets are ( and )",
    "/": "there is no division, and a comment begins with #",
    "%": "there is no remainder",
    "\\": "a comment begins with #",
    "@": "names are of letters, digits and _",
    "$": "names are of letters, digits and _",
    "?": "a variable is a name of letters, digits and _",
    "_": (
        "a name begins with a letter; all elements of a place are * in a line insert, remove, add"
        " or set"
    ),
    '"': "names stand without quotes",
    "'": "names stand without quotes",
    "`": "names stand without quotes",
    "\u201c": "names stand without quotes",
    "\u201d": "names stand without quotes",
    "\u2018": "names stand without quotes",
    "\u2019": "names stand without quotes",
    "\u2265": "'at least' is written >=",
    "\u2264": "'at most' is written <=",
    "\u2260": "unequal is written !=",
    "\u2227": "'and' is written as a word",
    "\u2228": "'or' is written as a word",
    "\u00ac": "'not' is written as a word",
    "\u2192": "'implies' is written as a word",
    "\u21d2": "'implies' is written as a word",
    "\u2194": "both ways are two formulas with 'implies'",
    "\u2200": "'forall' is written as a word",
    "\u2203": "'exists' is written as a word",
    "\u2208": "a variable and its sort have a colon between them: x : A",
    "\u00d7": "a product is written *, as 2 * n",
    "\u00b7": "a product is written *, as 2 * n",
    "\u2013": "minus is written -",
    "\u2014": "minus is written -",
    "\u2212": "minus is written -",
    "\u00a0": "this is a no-break space: a plain one is needed",
    "\ufeff": "the text begins with a byte order mark: save it without one",
}


def name_of(letter: str) -> str:
    """A character as people can read it."""
    if "\udc80" <= letter <= "\udcff":
        return f"byte {ord(letter) - 0xDC00}"
    return (
        letter if letter.isprintable() and letter != "\u00a0" else f"character U+{ord(letter):04X}"
    )


def sentence(letter: str) -> str:
    """What to write in place of a character."""
    if letter in INSTEAD:
        return INSTEAD[letter]
    if "\udc80" <= letter <= "\udcff":
        return (
            "this byte is no UTF-8; outside comments there are letters, digits and signs of ASCII"
            " alone"
        )
    if letter.isalpha():
        return "names are of the letters a to z and A to Z, digits and _"
    return "outside comments there are names, numbers and the signs ( ) , : . * + - = != < <= > >="


def sentence_at(text: str, at: int) -> str:
    """The same at a place of a text: what stands before and behind says more of some characters."""
    letter, before, after = text[at], text[at - 1 : at] if at else "", text[at + 1 : at + 2]
    number = re.compile(r"[0-9][0-9_]*").search(text, text.rfind(" ", 0, at) + 1)
    if letter == "_" and before.isdigit() and after.isdigit() and number:
        return f"a number is written without _ in it: {number.group().replace('_', '')}"
    if letter == "'" and (before.isalnum() or before == "_") and not after.isalnum():
        return (
            "a value after the call has no name: what changes is said by a line insert, remove, add"
            " or set"
        )
    return sentence(letter)
