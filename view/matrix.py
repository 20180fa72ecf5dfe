"""The matrix of a design: a row for each operation, with a cell for its calls alone and one for its
calls beside those of each operation. A cell says by its sign, its colour and its words whether the
two may run at once. It leads to its first story, else to its obligations."""
from __future__ import annotations

from html import escape
from typing import TYPE_CHECKING

from view import order
from view.parts import chip, scrolling, shown, sign
from view.report import Block
from view.tree import Spec
from view.words import Word

if TYPE_CHECKING:
    from view.page import Design

# Of more operations the cells have signs alone, and the names above them stand upright.
MOST_WITH_WORDS = 7
# Of more operations the table is wider than a narrow screen.
MOST_NARROW = 3
LEGEND = {
    "proved": "may run at once, proved",
    "ordered": "ordered by tokens where named, proved",
    "refuted": "refuted",
    "undecided": "undecided",
}
ALONE = {
    "proved": ("keeps all", "keeps each invariant"),
    "refuted": ("breaks", "breaks an invariant"),
    "undecided": ("undecided", "undecided"),
}


def worst(blocks: list[Block]) -> str:
    """refuted, undecided or proved: the first that a block has."""
    verdicts = {it.verdict for it in blocks}
    return next((it for it in ("refuted", "undecided") if it in verdicts), "proved")


def alone_id(operation: str) -> str:
    """The fold with the obligations of an operation's calls alone."""
    return f"alone-{operation}"


def pair_words(spec: Spec, pair: order.Pair, f: str, g: str) -> list[str]:
    """The words of a cell, row by row: the state where it isn't free or ordered, and on what the
    two are ordered. In `a = b` the first is an argument of the row's operation."""
    state, on = pair.state(), order.short(order.conditions(spec, f, g))
    if state not in ("refuted", "undecided"):
        return on
    return [state] + (["ordered: " + " ".join(on)] if pair.conditions else [])


def cell(classes: str, target: str, label: str, words: list[str]) -> str:
    state = classes.split()[0]
    said = "<br>".join(map(shown, words))
    return (
        f'<td class="{classes}"><a href="#{target}"'
        f' title="{escape(label, True)}">{sign(state)}<span'
        f' class="unseen">{shown(label)}</span><span class="words"'
        f' aria-hidden="true">{said}</span></a></td>'
    )


def row(design: Design, f: str) -> str:
    """An operation's row."""
    own = design.alone(f)
    state = worst(own)
    words, label = ALONE[state]
    cells = [
        cell(f"{state} alone", design.target(own, alone_id(f)), f"{f} alone: {label}", [words])
    ]
    for g in design.spec.operations:
        pair = design.pairs[f, g]
        classes = pair.state() + (" own" if f == g else "")
        cells.append(
            cell(
                classes,
                design.target(pair.blocks, pair.id()),
                f"{f} with {g}: {pair.says()}",
                pair_words(design.spec, pair, f, g),
            )
        )
    return f'<tr><th scope="row"><span>{f}</span></th>{"".join(cells)}</tr>'


def matrix(design: Design) -> str:
    """The matrix with its legend, or nothing for a design without operations."""
    operations = list(design.spec.operations)
    if not operations:
        return ""
    dense = " dense" if len(operations) > MOST_WITH_WORDS else ""
    heads = "".join(f'<th scope="col"><span>{it}</span></th>' for it in operations)
    rows = "".join(row(design, it) for it in operations)
    table = (
        f'<table class="matrix{dense}"><caption class="unseen">For each two operations whether two'
        ' calls of them may run at once</caption><thead><tr><td></td><th scope="col"'
        f' class="alone"><span>alone</span></th>{heads}</tr></thead><tbody>{rows}</tbody></table>'
    )
    legend = "".join(f"<li>{chip(state, words)}</li>" for state, words in LEGEND.items())
    legend += '<li class="framed">framed: two calls of one operation</li>'
    # (shown on narrow screens alone)
    hint = (
        '<p class="goes-on">The table goes on to the right \u2192</p>'
        if len(operations) > MOST_NARROW
        else ""
    )
    return (
        '<section><h2 id="matrix">Which calls may run at'
        f' once</h2>{hint}{scrolling("Which calls may run at once", table)}<ul'
        f' class="legend">{legend}</ul></section>'
    )
