"""What is wrong with a name, a number or a line in a text that the grammar allows: the rules of
docs/users/LANGUAGE.md, "Typing", with where the other declaration stands. The program says which
word is wrong and by which rule; the sentences are made here from what the text declares."""
from __future__ import annotations

import difflib
from typing import Any, Sequence

from view.formulas import Formula, Reading, Term
from view.given import given
from view.tree import UPDATES, Line, Operation, Spec, between, names
from view.words import Word, index_of, placed

DECLARES = {
    **{it: it for it in ("sort", "relation", "counter", "token", "invariant", "operation")},
    "const": "constant",
}
NEEDS = {
    "sort": "a sort",
    "kind": "a sort or int",
    "relation": "a relation",
    "counter": "a counter",
    "token": "a token",
    "thing": "a relation or a counter",
    "number": "a whole number",
}


# What other languages call whole numbers.
WHOLE_NUMBERS = ("int", "integer", "number", "nat", "natural", "num", "long", "amount")
TRUTH_VALUES = ("bool", "boolean")
# What other languages count and add up over all elements.
TOTALS = ("sum", "total", "count", "size", "card", "len", "length", "max", "min", "avg")


class Declared:
    """A name that is declared: its word, what it is, of a constant, parameter or variable its sort
    (or int), of a thing those of its places."""

    def __init__(
        self, word: Word, what: str, kind: Word | None = None, places: Sequence[Word] = ()
    ) -> None:
        self.word, self.what, self.kind, self.places = word, what, kind, places

    def told(self) -> str:
        """What it is, with the number of its line: `a counter (line 4)`."""
        of = " of kind int" if self.kind == "int" else f" of sort {self.kind}" if self.kind else ""
        return f"{article(self.what)} {self.what}{of} (line {self.word.line})"


class Site:
    """What a word's place needs: a key of NEEDS, `element` of place `place` of `thing`, or
    `variable` of a rule."""

    def __init__(
        self,
        needs: str,
        thing: Word | None = None,
        place: int | None = None,
        used: str | None = None,
    ) -> None:
        self.needs, self.thing, self.place, self.used = needs, thing, place, used


def article(word: str) -> str:
    return "an" if word[0] in "aeiou" else "a"


def plural(count: int, word: str) -> str:
    return f"{count} {word}" if count == 1 else f"{count} {word}s"


def whole(spec: Spec) -> list[Declared]:
    """All that is declared for the whole text, in order."""
    found = []
    for head, item in spec.items:
        if head in DECLARES:
            places = names(item[1:]) if head in ("relation", "counter", "token") else ()
            found.append(
                Declared(item[0], DECLARES[head], item[2] if head == "const" else None, places)
            )
    return found


def item_of(spec: Spec, word: Word) -> tuple[Word, list[Word]]:
    """The first word and the rest of the item that a word stands in."""
    return next((head, item) for head, item in spec.items if head.at <= word.at < item[-1].end)


def line_of(operation: Operation, word: Word) -> Line | None:
    return next(
        (
            it
            for it in operation.lines
            if it.head.at <= word.at < (it.body[-1].end if it.body else it.head.end)
        ),
        None,
    )


def in_scope(spec: Spec, word: Word) -> list[Declared]:
    """What is in scope at a word: names of the text before it, of its operation and of its line;
    the nearest last."""
    found = [it for it in whole(spec) if it.word.at < word.at]
    head, item = item_of(spec, word)
    lines = []
    if head == "operation":
        operation = spec.operation(head, item)
        found += [
            Declared(name, "parameter", kind)
            for name, kind in operation.params
            if name.at < word.at
        ]
        lines = [line_of(operation, word)]
    elif head == "invariant":
        lines = [Line(head, item[1:], spec.text)]
    for line in lines:
        found += [
            Declared(name, "variable", kind)
            for name, kind in (line.vars if line else ())
            if name.at < word.at
        ]
    return found


def find(declared: list[Declared], name: str | None) -> Declared | None:
    return next((it for it in reversed(declared) if it.word == name), None)


def site_of(spec: Spec, word: Word) -> Site | None:
    """What the place of a word needs, or None where it is a declaration's own name or a word of the
    language."""
    head, item = item_of(spec, word)
    if head in ("const", "relation", "counter", "token"):
        return None if word.at == item[0].at else Site("sort")
    if head == "initially":
        return Site("relation" if item[1] in ("true", "false") else "counter")
    if head == "conflict":
        second = index_of(item, ")") + 1 if item[1] == "(" else 1
        return Site("token") if word.at in (item[0].at, item[second].at) else Site("variable")
    if head == "invariant":
        return site_in_line(Line(head, item[1:], spec.text), word)
    if head == "operation":
        operation = spec.operation(head, item)
        if any(kind.at == word.at for _, kind in operation.params):
            return Site("kind")
        line = line_of(operation, word)
        return site_in_line(line, word) if line else None
    return None


def site_in_line(line: Line, word: Word) -> Site | None:
    if any(kind.at == word.at for _, kind in line.vars):
        return Site("sort")
    if line.head in ("invariant", "requires", "observes"):
        return site_in_formula(line.tree(), word)
    thing = line.body[0]
    if thing.at == word.at:
        return Site(
            {"takes": "token", "insert": "relation", "remove": "relation"}.get(
                line.head, "counter"
            ),
            used=line.head,
        )
    for place, name in enumerate(names(between(line.body[1:]))):
        if name.at == word.at:
            return Site("element", thing, place)
    amount, guard = line.amount(), line.guard()
    return (
        (amount and site_in_term(amount, word)) or (guard and site_in_formula(guard, word)) or None
    )


def site_in_formula(
    formula: Formula,
    word: Word,
) -> Site | None:
    if formula[0] == "reading":
        return site_in_reading((formula[0], formula[1], formula[2]), word, "relation")
    if formula[0] == "compare":
        return site_in_term(formula[2], word) or site_in_term(formula[3], word)
    return next((it for it in (site_in_formula(part, word) for part in formula[1:]) if it), None)


def site_in_term(term: Term, word: Word) -> Site | None:
    return next(
        (
            it
            for it in (site_in_reading(reading, word, "number") for _, reading in term if reading)
            if it
        ),
        None,
    )


def site_in_reading(reading: Reading, word: Word, needs: str) -> Site | None:
    if reading[1].at == word.at:
        return Site(needs, used="formula")
    return next(
        (
            Site("element", reading[1], place)
            for place, it in enumerate(reading[2])
            if it.at == word.at
        ),
        None,
    )


def needed(spec: Spec, site: Site) -> str:
    """What a place needs, in words."""
    if site.needs == "element":
        thing = find(whole(spec), site.thing)
        if not thing or not thing.places or given(site.place) >= len(thing.places):
            return "an element: a parameter, a variable or a constant"
        return (
            f"an element of sort {thing.places[given(site.place)]} (place"
            f" {given(site.place) + 1} of {site.thing})"
        )
    return NEEDS[site.needs]


def unknown(spec: Spec, word: Word) -> tuple[str, str]:
    """The sentences of a name that isn't in scope: the message, and what else is to be said."""
    site, scope = site_of(spec, word), in_scope(spec, word)
    later = find([it for it in whole(spec) if it.word.at > word.at], word)
    if later:
        return (
            f"unknown name {word}",
            f"It is declared in line {later.word.line}; what is used has to be declared before.",
        )
    other = elsewhere(spec, word) if site and site.needs in ("element", "number") else None
    if other:
        return f"unknown name {word}", other
    said = (
        f"Nothing of this name is declared before; here {needed(spec, site)} is needed."
        if site
        else "Nothing of this name is declared before."
    )
    fits = [it for it in scope if fit(spec, site, it)] if site else scope
    near = difflib.get_close_matches(word, [it.word for it in fits], 1, 0.6) or [
        it.word for it in fits if it.word.lower() == word.lower()
    ]
    if word.lower() in TRUTH_VALUES and site and site.needs in ("kind", "sort"):
        return (
            f"unknown name {word}",
            "There are no truth values as arguments: write an operation for each of the two.",
        )
    if word.lower() in TOTALS and site and site.needs in ("number", "relation") and not near:
        more = (
            "There are no sums and counts over all elements: a counter that each operation changes"
            " along may hold one."
        )
        return f"unknown name {word}", more
    if word.lower() in WHOLE_NUMBERS and site and site.needs == "kind":
        return f"unknown name {word}", "The kind of whole numbers is written int."
    if near:
        said += f" A name like it is {near[0]} (line {placed(near[0]).line})."
    elif fits and len(fits) <= 8:
        said += f" In scope here: {', '.join(it.word for it in fits)}."
    return f"unknown name {word}", said


def fit(spec: Spec, site: Site, declared: Declared) -> bool:
    """Whether a declared name can stand at a place."""
    if site.needs == "element":
        thing = find(whole(spec), site.thing)
        place = site.place or 0
        sort = thing.places[place] if thing and place < len(thing.places) else None
        return declared.what in ("constant", "parameter", "variable") and declared.kind == sort
    if site.needs == "number":
        return declared.what == "counter" or declared.kind == "int"
    fitting: dict[str, list[str]] = {
        "sort": ["sort"],
        "kind": ["sort"],
        "thing": ["relation", "counter"],
        "variable": [],
    }
    return declared.what in fitting.get(site.needs, [site.needs])


def elsewhere(spec: Spec, word: Word) -> str | None:
    """Where a name is a parameter or a variable, though not here."""
    for head, item in spec.items:
        if head == "operation":
            operation = spec.operation(head, item)
            own = operation.head.at <= word.at < item[-1].end
            for name, _ in operation.params:
                if name == word and not own:
                    return (
                        "A parameter is known in its own operation alone, as this one in"
                        f" {operation.name} (line {name.line})."
                    )
            for line in operation.lines:
                if own and any(name == word for name, _ in line.vars):
                    return (
                        "A variable is known in its own line alone, as this one in line"
                        f" {line.number}."
                    )
    return None


def twice(spec: Spec, word: Word) -> tuple[str, str | None]:
    head, item = item_of(spec, word)
    if head == "initially":
        first = next(it[0] for kind, it in spec.items if kind == "initially" and it[0] == word)
        return f"a second first value for {word}: one is stated in line {first.line}", None
    other = given(find(in_scope(spec, word), word))
    where = f"line {other.word.line}" + (
        f", column {other.word.column}" if other.word.line == word.line else ""
    )
    message = (
        f"{word} is declared twice: it is {article(other.what)} {other.what} of {where} already"
    )
    scope = "All names of a text share one scope, those of parameters and variables too."
    return message, None if other.what in ("parameter", "variable") else scope


def kind(spec: Spec, word: Word) -> tuple[str, str | None]:
    head, item = item_of(spec, word)
    if word == "exists":
        return (
            "an invariant begins with forall, or with no quantifier",
            "That there is at least one may be said by a counter that is at least 1.",
        )
    if head == "conflict" and given(site_of(spec, word)).needs == "variable":
        return rule_variable(spec, word, item)
    compared = of_two_sorts(spec, word)
    if compared:
        return compared
    found, site = given(find(in_scope(spec, word), word)), given(site_of(spec, word))
    if site.needs == "number" and found.what == "counter" and found.places:
        return numbered(found, 0)
    return f"{word} is {found.told()}, and here {needed(spec, site)} is needed", advice(found, site)


def advice(found: Declared, site: Site) -> str | None:
    """What to write in place of a name of another kind."""
    if site.used in UPDATES:
        if found.what == "counter":
            return "A counter is changed by 'add' and 'set'."
        if found.what == "relation":
            return "A relation is changed by 'insert' and 'remove'."
    if site.needs == "relation" and found.what == "counter":
        reading = (
            " ".join([found.word, *[["( x )"], ["( x , y )"]][len(found.places) - 1]])
            if found.places
            else found.word
        )
        return f"A number is true of nothing by itself: compare it, as in ( {reading} >= 1 )."
    if site.needs == "relation" and found.kind:
        return "A formula is a fact of things, or a comparison in brackets."
    if site.needs == "number" and found.what == "relation":
        return (
            "A fact is true or false by itself and isn't compared: write it alone, or 'not'"
            " before it."
        )
    if site.needs == "number":
        return (
            "Elements are compared by = and != alone, each side being one name and both of one"
            " sort."
        )
    return None


def of_two_sorts(spec: Spec, word: Word) -> tuple[str, None] | None:
    """The sentences where two elements are compared that are of two sorts; the word is the right
    one."""
    at = next(k for k, it in enumerate(spec.words) if it.at == word.at)
    if at < 2 or spec.words[at - 1] not in ("=", "!="):
        return None
    left, right = find(in_scope(spec, word), spec.words[at - 2]), find(in_scope(spec, word), word)
    if (
        left
        and right
        and left.kind
        and right.kind
        and "int" not in (left.kind, right.kind)
        and left.kind != right.kind
    ):
        return (
            (
                f"{word} is of sort {right.kind}, and {left.word} of sort {left.kind}: elements of"
                " two sorts are never equal"
            ),
            None,
        )
    return None


def rule_variable(spec: Spec, word: Word, item: list[Word]) -> tuple[str, str | None]:
    other = find([it for it in whole(spec) if it.word.at < word.at], word)
    if other:
        more = (
            "The names behind a token in a rule stand for any elements and are declared nowhere:"
            " conflict t ( x ) t ( x )."
        )
        return f"{word} is {other.told()}, and here a variable of the rule is needed", more
    second = index_of(item, ")") + 1 if item[1] == "(" else 1
    uses = []
    for token, arguments in (
        (item[0], names(item[1:second])),
        (item[second], names(item[second + 1 :])),
    ):
        thing = find(whole(spec), token)
        uses += [
            (it, thing.places[k])
            for k, it in enumerate(arguments)
            if it == word and thing and k < len(thing.places)
        ]
    here = next((sort for it, sort in uses if it.at == word.at), None)
    return (
        (
            f"{word} stands for one element in a rule: before at a place of sort {uses[0][1]}, and"
            f" here of sort {here}"
        ),
        None,
    )


def count(spec: Spec, word: Word) -> tuple[str, str]:
    thing = find(in_scope(spec, word), word)
    at = next(k for k, it in enumerate(spec.words) if it.at == word.at)
    return numbered(given(thing), len(names(between(spec.words[at + 1 :]))))


def numbered(thing: Declared, given: int) -> tuple[str, str]:
    """The sentences of a thing with another number of places than it has."""
    has = plural(len(thing.places), "key" if thing.what == "counter" else "place")
    of = f" ({', '.join(thing.places)})" if thing.places else ""
    stands = f"stands {given}" if given == 1 else f"stand {given or 'none'}"
    return (
        f"{thing.word} has {has}{of}, and here {stands}",
        f"It is declared in line {thing.word.line}.",
    )


LIMITS = {
    "sorts": "a text has at most 8 sorts",
    "relations": "a text has at most 16 relations",
    "counters": "a text has at most 8 counters",
    "tokens": "a text has at most 16 tokens",
    "invariants": "a text has at most 16 invariants",
    "operations": "a text has at most 24 operations",
    "constants": "a sort has at most 4 constants",
    "parameters": "an operation has at most 6 parameters",
    "variables": "forall and exists have at most 3 variables",
    "conflicts": "a text has at most 32 conflict rules",
    "requires": "an operation has at most 8 requires lines",
    "updates": "an operation has at most 16 changes",
    "takes": "an operation has at most 4 takes lines",
    "observes": "an operation has at most 8 observes lines",
    "places": "a relation or a token has at most 3 places, and a counter 2 keys",
    "summands": "a sum has at most 16 parts",
    "nodes": "a formula has at most 200 parts, and this one has {number}",
    "literal": "a number is at most 1,000,000,000 in size",
}
INSTEAD = {
    "requires": "Two lines can be one, joined by 'and' in brackets.",
    "nodes": "A requires line that is joined by 'and' can be two lines.",
    "literal": "Count in larger units.",
    "invariants": "Two invariants over the same variables can be one, joined by 'and' in brackets.",
}


def limit(which: str, number: str) -> tuple[str, str | None]:
    return LIMITS[which].format(number=number), INSTEAD.get(which)
