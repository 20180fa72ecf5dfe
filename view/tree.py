"""A specification as people are told of it: what is declared, and each line with its number and its
own text. Only a text that the program accepts comes here. Reserved words are no names, so they
alone say where an item and a line begin."""
from __future__ import annotations

from typing import Any, Sequence

from view.formulas import Formula, Reader, Term, formula_of
from view.words import Word, index_of, words

ITEMS = frozenset(
    [
        "sort",
        "const",
        "relation",
        "counter",
        "initially",
        "token",
        "conflict",
        "invariant",
        "operation",
    ]
)
LINES = frozenset(["requires", "insert", "remove", "add", "set", "takes"])
UPDATES = ("insert", "remove", "add", "set")


class Line:
    """A line of an operation, or an invariant.

    head     its first word; `number` is the number of the text's line where that stands
    body     the words behind; of an invariant those behind its name
    text     all of it, as the user wrote it
    prefix   forall, exists or None; `vars` are the pairs (variable, sort) behind it
    formula  the words behind the prefix, or the body where there is no prefix
    """

    def __init__(self, head: Word, body: list[Word], text: str) -> None:
        self.head, self.body, self.number = head, body, head.line
        self.text = text[head.at : body[-1].end if body else head.end]
        self.prefix, self.vars, self.formula = None, [], body
        if body and body[0] in ("forall", "exists"):
            stop = index_of(body, ".")
            self.prefix, self.vars, self.formula = (
                str(body[0]),
                pairs(body[1:stop]),
                body[stop + 1 :],
            )

    def tree(
        self,
    ) -> Formula:
        """The formula of an invariant, a requires or an observes line, in the form that `formulas`
        tells."""
        return formula_of(self.formula)

    def thing(self) -> tuple[Word, list[Word]]:
        """The name that an update changes, or that a takes line takes, with its spots or
        arguments."""
        return self.body[0], names(between(self.body[1:]))

    def amount(self) -> Term | None:
        """What an add or set line adds or sets, as a term; None of another line."""
        if self.head not in ("add", "set"):
            return None
        reader = Reader(self.body)
        reader.reading()
        return reader.term()

    def guard(
        self,
    ) -> Formula | None:
        """The formula behind `when`, or None."""
        return (
            formula_of(self.body[index_of(self.body, "when") + 1 :])
            if "when" in self.body
            else None
        )

    def is_shared(self) -> bool:
        """Of a takes line: whether its mode is shared."""
        return len(self.body) > 1 and self.body[-1] == "shared"


class Operation:
    """`head` is its first word and `end` its last; `params` are pairs (parameter, sort or int)."""

    def __init__(
        self, name: Word, params: list[tuple[Word, Word]], lines: list[Line], head: Word, end: Word
    ) -> None:
        self.name, self.params, self.lines, self.head, self.end = name, params, lines, head, end

    def of(self, *heads: str) -> list[Line]:
        """The lines that begin with one of these words, in order."""
        return [it for it in self.lines if it.head in heads]


class Spec:
    """What a text declares. Each name is a `Word`, with its place.

    sorts                       names
    consts                      name: sort
    relations, counters, tokens name: the sorts of its places
    initially                   relation or counter: its value, as text
    rules                       ((token, variables), (token, variables), line number)
    invariants, operations      name: Line, name: Operation
    items                       (first word, all words behind it), as they stand
    """

    def __init__(self, text: str, all_words: list[Word] | None = None) -> None:
        """Of a text, or of some of its words alone."""
        self.text, self.words = text, words(text) if all_words is None else all_words
        self.version = int(self.words[1])
        self.heads = LINES | ({"observes"} if self.version == 2 else set())
        self.sorts: list[Word] = []
        self.consts: dict[str, Word] = {}
        self.relations: dict[str, list[Word]] = {}
        self.counters: dict[str, list[Word]] = {}
        self.tokens: dict[str, list[Word]] = {}
        self.rules: list[tuple[tuple[Word, list[Word]], tuple[Word, list[Word]], int]] = []
        self.invariants: dict[str, Line] = {}
        self.operations: dict[str, Operation] = {}
        self.initially: dict[str, str] = {}
        self.items: list[tuple[Word, list[Word]]] = []
        starts = [at for at, it in enumerate(self.words) if it in ITEMS] + [len(self.words)]
        for start, stop in zip(starts, starts[1:]):
            self.items.append((self.words[start], self.words[start + 1 : stop]))
            self.declare(*self.items[-1])

    def declare(self, head: Word, item: list[Word]) -> None:
        name = item[0]
        if head == "sort":
            self.sorts.append(name)
        elif head == "const":
            self.consts[name] = item[2]
        elif head in ("relation", "counter", "token"):
            {"relation": self.relations, "counter": self.counters, "token": self.tokens}[head][
                name
            ] = names(item[1:])
        elif head == "initially":
            self.initially[name] = "".join(item[1:])
        elif head == "conflict":
            second = index_of(item, ")") + 1 if item[1] == "(" else 1
            self.rules.append(
                (
                    (name, names(item[1:second])),
                    (item[second], names(item[second + 1 :])),
                    head.line,
                )
            )
        elif head == "invariant":
            self.invariants[name] = Line(head, item[1:], self.text)
        else:
            self.operations[name] = self.operation(head, item)

    def operation(self, head: Word, item: list[Word]) -> Operation:
        body, params = item[1:-1], []
        if body and body[0] == "(":
            params = pairs(between(body))
            body = body[index_of(body, ")") + 1 :]
        starts = [at for at, it in enumerate(body) if it in self.heads] + [len(body)]
        lines = [Line(body[a], body[a + 1 : b], self.text) for a, b in zip(starts, starts[1:])]
        return Operation(item[0], params, lines, head, item[-1])

    def places(self, thing: str) -> list[Word]:
        """The sorts of the places of a relation or a counter."""
        return self.relations[thing] if thing in self.relations else self.counters[thing]

    def about(self) -> str:
        """The first paragraph of the comment that the text begins with, at most 400 letters of
        it."""
        lines = []
        for line in self.text.split("\n"):
            said = line.lstrip("#").strip()
            if not line.startswith("#") or not said:
                break
            lines.append(said)
        whole = " ".join(lines)
        return whole if len(whole) <= 400 else whole[:400].rsplit(" ", 1)[0] + " \u2026"


def names(part: list[Word]) -> list[Word]:
    """The names in a list with brackets and commas, and `*` where one stands."""
    return [it for it in part if it not in ("(", ")", ",")]


def between(part: list[Word]) -> list[Word]:
    """What stands in the brackets that a list of words begins with, or nothing where it begins with
    none."""
    return part[1 : index_of(part, ")")] if part and part[0] == "(" else []


def pairs(part: list[Word]) -> list[tuple[Word, Word]]:
    """The pairs of `x : A , y : B`."""
    named = [it for it in part if it not in (",", ":")]
    return list(zip(named[::2], named[1::2]))
