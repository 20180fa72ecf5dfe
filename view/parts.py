"""The parts that both kinds of page have: signs, the user's own text with its numbers and colours,
the head, the foot, and the page around them."""
from __future__ import annotations

import hashlib
import os
import re
from html import escape

from view.inputs import name_of
from view.own import own_text
from view.output import lines_of
from view.tree import Line, Spec
from view.words import RESERVED, RESERVED_IN_2, encoded

# A sign for each state, so that none is told by its colour alone.
SIGNS = {
    "proved": '<path d="M3.5 8.5l3 3 6-7"/>',
    "refuted": '<path d="M4 4l8 8M12 4l-8 8"/>',
    "undecided": '<path d="M5.3 5.6a2.8 2.8 0 1 1 4 2.6c-1 .5-1.3 1-1.3 1.9M8 12.9v.2"/>',
    "refused": '<circle cx="8" cy="8" r="5.7"/><path d="M5.4 8h5.2"/>',
    "ordered": '<path d="M2.5 8h9M8.5 4.6L12 8l-3.5 3.4M14 3.5v9"/>',
}
# A name with an element's number or with arguments, or a name alone.
NAMED = re.compile(r"[A-Za-z][A-Za-z0-9_]*(#\d+)?(\([^)]*\))?")


def shown(text: str) -> str:
    """A text as HTML. A carriage return is white space; what else isn't seen, or turns what stands
    beside it around, stands as an escape."""
    return escape(lines_of(text.replace("\r", " ")))


def sign(state: str) -> str:
    return f'<svg class="sign" viewBox="0 0 16 16" aria-hidden="true">{SIGNS[state]}</svg>'


def chip(state: str, words: str) -> str:
    return f'<span class="chip {state}">{sign(state)}{shown(words)}</span>'


def code(text: str) -> str:
    return f"<code>{shown(text)}</code>"


def with_code(sentence: str, names: set[str]) -> str:
    """A sentence in which elements, readings and the specification's own names stand as code. What
    follows a full stop and a space is no name."""

    def one(found: re.Match[str]) -> str:
        return (
            f"<code>{found.group()}</code>"
            if found.group(1) or found.group(2) or found.group() in names
            else found.group()
        )

    return NAMED.sub(one, shown(sentence))


def listed(items: list[str]) -> str:
    """A list of facts as code."""
    return f'<ul class="facts">{"".join(f"<li>{code(it)}</li>" for it in items)}</ul>'


def painted(text: str, version: int) -> str:
    """A line of a specification, in which reserved words and the comment have their own looks."""
    reserved = RESERVED | (RESERVED_IN_2 if version == 2 else frozenset())
    body, hash_sign, comment = text.partition("#")
    out = re.sub(
        r"[A-Za-z][A-Za-z0-9_]*",
        lambda it: f"<b>{it.group()}</b>" if it.group() in reserved else it.group(),
        shown(body),
    )
    return out + (f"<i>{shown(hash_sign + comment)}</i>" if hash_sign else "")


def user_lines(lines: list[Line], version: int, state: str = "refuted") -> str:
    """Lines as the user wrote them, each in one or more rows; each number leads to the row in the
    whole text. The state gives the colour."""
    rows = []
    for line in lines:
        for number, row in enumerate(line.text.split("\n"), line.number):
            link = f'<a class="number" href="#line-{number}">{number}</a>'
            rows.append(
                f'<span class="row">{link}<span>{painted(row.rstrip(), version)}</span></span>'
            )
    return f'<pre class="line {state}">{"".join(rows)}</pre>' if rows else ""


def whole_text(spec: Spec) -> str:
    """The whole specification, with line numbers."""
    rows = []
    for number, row in enumerate(spec.text.rstrip("\r\n").split("\n"), 1):
        text = painted(row.rstrip(), spec.version)
        rows.append(
            f'<span class="row" id="line-{number}"><span'
            f' class="number">{number}</span><span>{text}</span></span>'
        )
    return (
        '<section><h2 id="text">The specification</h2><pre'
        f' class="source">{"".join(rows)}</pre></section>'
    )


def scrolling(name: str, inner: str) -> str:
    """What may be wider than the page: it scrolls, also by the keyboard."""
    return (
        '<div class="scroll" tabindex="0" role="region"'
        f' aria-label="{escape(name, True)}">{inner}</div>'
    )


def title_of(*paths: str) -> str:
    """A page's title: the folder of the first file, and the names of all, without what stands
    behind their points."""
    own = [name_of(it) for it in paths]
    folder = os.path.basename(os.path.dirname(os.path.abspath(own[0])))
    names = ", ".join(os.path.splitext(os.path.basename(it))[0] for it in own)
    return f"{folder} / {names}" if folder else names


def head(spec: Spec, title: str, kind: str) -> str:
    about = spec.about()
    return (
        '<header class="top"><p'
        f' class="kind">{kind}</p><h1>{shown(title)}</h1>'
        f'{f"<p>{shown(about)}</p>" if about else ""}</header>'
    )


def banner(state: str, word: str, says: str) -> str:
    """The last word of the program's text; `says` is HTML."""
    return f'<div class="banner {state}"><p class="word">{sign(state)}{word}</p>{says}</div>'


def foot(spec: Spec, program_says: str) -> str:
    made = (
        "Pictures, sentences and what is said of order are made from its texts and the"
        " specification by a layer that isn't proved."
    )
    whole = hashlib.sha256(encoded(spec.text)).hexdigest()
    return (
        f'<footer><p>{program_says} {made}</p><p class="sum">sha256 of the specification:'
        f" {whole}</p></footer>"
    )


def sheet(title: str, body: list[str], is_broad: bool = False) -> str:
    """A whole page. It has no script, and nothing in it is from elsewhere. A broad one takes what a
    wide screen has."""
    style, main = own_text("page.css"), '<main class="broad">' if is_broad else "<main>"
    return (
        '<!doctype html>\n<html lang="en"><head><meta charset="utf-8"><meta name="viewport"'
        ' content="width=device-width,initial-scale=1">'
        '<meta name="color-scheme" content="light'
        f' dark"><title>{shown(title)}</title><style>\n{style}</style></head>\n'
        f'<body>{main}{"".join(body)}</main></body></html>\n'
    )
