"""Puts tokens, rules and takes lines into a user's own text. Its comments and its layout stay; what
is put in is written as the rest is: brackets with spaces or without, and the text's own ends of
lines."""
from __future__ import annotations

import re
from typing import Any, Sequence

from view.tokens import Rule, Tokens
from view.tree import Operation, Spec
from view.words import Word


class Layout:
    """How a text is laid out: whether a bracket stands right behind its name, and how its lines
    end."""

    def __init__(self, spec: Spec) -> None:
        brackets = [
            (before, it)
            for before, it in zip(spec.words, spec.words[1:])
            if it == "(" and before[0].isalpha()
        ]
        self.is_close = sum(before.end == it.at for before, it in brackets) * 2 > len(brackets)
        self.end = "\r\n" if spec.text.count("\r\n") * 2 > spec.text.count("\n") else "\n"

    def applied(self, name: str, arguments: Sequence[str]) -> str:
        """A name with its arguments: `t ( a , b )`, or `t(a, b)`."""
        if not arguments:
            return str(name)
        return (
            f"{name}({', '.join(arguments)})"
            if self.is_close
            else f"{name} ( {' , '.join(arguments)} )"
        )


def with_tokens(spec: Spec, tokens: Tokens, without: Sequence[str] = ()) -> str:
    """The text of a specification with tokens, and without some operations."""
    layout = Layout(spec)
    edits: list[tuple[int, int, str]] = []
    place_declarations(spec, tokens, layout, edits)
    for name, operation in spec.operations.items():
        if name in without:
            edits.append((operation.head.at, operation.end.end, ""))
        else:
            lines = [
                f"takes {layout.applied(it.name, params)}"
                for it in tokens.tokens
                for taker, params in it.takers
                if taker == name
            ]
            if lines:
                edits.append(place_takes(spec, operation, lines, layout))
    return edited(spec.text, edits)


def edited(text: str, edits: list[tuple[int, int, str]]) -> str:
    """A text in which pieces (from, to) are replaced by others, those put in at one place in their
    order."""
    for start, end, new in sorted(reversed(edits), key=lambda it: it[0], reverse=True):
        text = text[:start] + new + text[end:]
    return text


def line_start(text: str, at: int) -> int:
    return text.rfind("\n", 0, at) + 1


def is_first(text: str, word: Word) -> bool:
    """Whether nothing but white space stands before a word in its line."""
    return not text[line_start(text, word.at) : word.at].strip()


def above(text: str, word: Word) -> int:
    """The place above a word's line and the lines of comment right above it; the word's own place
    where it isn't the first of its line."""
    if not is_first(text, word):
        return word.at
    at = line_start(text, word.at)
    while at > 0:
        before = line_start(text, at - 1)
        if not text[before : at - 1].lstrip().startswith("#"):
            break
        at = before
    return at


def below(text: str, word: Word) -> int | None:
    """The place below the line that ends with a word, or with a comment behind that; None where
    another word follows in the line or no line."""
    rest = re.compile(r"[ \t\r]*(#[^\n]*)?\n").match(text, word.end)
    return rest.end() if rest else None


def place_declarations(spec: Spec, tokens: Tokens, layout: Layout, edits: list[Any]) -> None:
    """Below the tokens and rules that are there, or above the first operation; where a sort comes
    later, each token above the first operation that takes it, and the rules at the end."""
    declared = [f"token {layout.applied(it.name, it.sorts)}" for it in tokens.tokens]
    rules = [rule_text(tokens, it, layout) for it in tokens.rules]
    if not declared:
        return
    first = next(iter(spec.operations.values())).head
    own = [
        item[-1]
        for head, item in spec.items
        if head in ("token", "conflict") and item[-1].at < first.at
    ]
    needed = [it for it in spec.sorts if any(it in token.sorts for token in tokens.tokens)]
    at = below(spec.text, own[-1]) if own else None
    if at is not None and all(it.at < at for it in needed):
        edits.append((at, at, "".join(it + layout.end for it in declared + rules)))
    elif all(it.at < first.at for it in needed):
        edits.append(before_operation(spec.text, first, declared + rules, layout))
    else:
        for token, line in zip(tokens.tokens, declared):
            taker = min((spec.operations[it] for it, _ in token.takers), key=lambda it: it.head.at)
            edits.append(before_operation(spec.text, taker.head, [line], layout))
        gap = "" if spec.text.endswith("\n") else layout.end
        edits.append(
            (len(spec.text), len(spec.text), gap + "".join(it + layout.end for it in rules))
        )


def before_operation(
    text: str, head: Word, lines: list[str], layout: Layout
) -> tuple[int, int, str]:
    """Lines above an operation and its comment, with an empty line behind where one stands
    before."""
    at = above(text, head)
    whole = "".join(it + layout.end for it in lines)
    if at == head.at and not is_first(text, head):
        return at, at, layout.end + whole
    empty = layout.end if re.search(r"\n[ \t\r]*\n\Z", text[:at]) else ""
    return at, at, whole + empty


def rule_text(tokens: Tokens, rule: Rule, layout: Layout) -> str:
    left, right = tokens.variables(rule)
    return (
        f"conflict {layout.applied(rule.left.name, left)} {layout.applied(rule.right.name, right)}"
    )


def place_takes(
    spec: Spec, operation: Operation, lines: list[str], layout: Layout
) -> tuple[int, int, str]:
    """The takes lines above the operation's end, with the indent of its other lines; in its line
    where it isn't the first there."""
    text, end = spec.text, operation.end
    if not is_first(text, end):
        return end.at, end.at, "".join(it + " " for it in lines)
    heads = [it.head for it in operation.lines if is_first(text, it.head)]
    indent = (
        text[line_start(text, heads[-1].at) : heads[-1].at]
        if heads
        else text[line_start(text, end.at) : end.at] + "  "
    )
    at = line_start(text, end.at)
    return at, at, "".join(indent + it + layout.end for it in lines)
