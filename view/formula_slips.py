"""What people mean where the grammar refuses a word in a formula, a sum, or a list of variables or
arguments.

Each function knows one kind of slip. It takes a `Place` and gives a sentence, or None where its
slip isn't what stands there. What a sentence proposes to write is of the grammar: `Place.sample`
sees to that."""
from __future__ import annotations

from view.brackets import Lenient
from view.formulas import COMPARISONS, CONNECTIVES
from view.given import given
from view.grammar import NAME, NUMBER
from view.place import FORMULA, LINE_HEADS, Place, quoted
from view.tree import ITEMS, UPDATES
from view.words import Word

PAIRS_OF_SIGNS = {
    "==": "equal is one sign: =",
    "=>": "=> is no sign: 'at least' is >=, and what follows from something is joined by 'implies'",
    "=<": "=< is no sign: 'at most' is <=",
    "<>": "<> is no sign: unequal is !=",
    "->": "-> is no sign: what follows from something is joined by 'implies'",
    "<=>": "<=> is no sign: both ways are two formulas with 'implies'",
    ":=": ":= is no sign: a counter is changed by a line 'set' and the new value behind its name",
    "+=": "+= is no sign: a counter is changed by a line 'add' and the amount behind its name",
    "-=": (
        "-= is no sign: a counter is changed by a line 'add' and the amount behind its name, with -"
        " before it"
    ),
    "--": "a comment begins with #",
}


def two_signs(place: Place) -> str | None:
    word, before = place.word, place.near(-1)
    if not word or word[0].isalnum():
        return None
    if not place.joins() and before + word in (">=", "<="):
        return f"{before}{word} is one sign, without a space in it"
    if (
        place.joins()
        and before + word in PAIRS_OF_SIGNS
        and (before + word != "--" or not place.brackets)
    ):
        return PAIRS_OF_SIGNS[before + word]
    after = place.near(1)
    if (
        after
        and after.at == word.end
        and word + after in PAIRS_OF_SIGNS
        and place.head not in ("add", "set")
    ):
        return PAIRS_OF_SIGNS[word + after]
    return None


def numbers(place: Place) -> str | None:
    word, before, after = place.word, place.near(-1), place.near(1)
    if not place.is_number(before):
        return None
    is_beside = (
        place.is_name(word)
        and given(word).line == before.line
        and word not in place.words[: place.at]
    )
    if is_beside and ("*" in place.expected or place.head == "initially"):
        return f"a number has no unit behind it: {before}"
    if place.is_name(word) and "*" in place.expected:
        return f"a number and what it multiplies have * between them: {before} * {word}"
    if place.is_number(word) and place.joins() and before == "0":
        return f"a number doesn't begin with 0: {word}"
    if place.is_number(word) and not place.expected & {NAME, NUMBER}:
        return "one number has no gap in it; between two a sign is missing"
    if word in (".", ",") and place.is_number(after) and place.joins() and after.at == word.end:
        return (
            "numbers are whole: there is no point in them"
            if word == "."
            else "a number is written without commas in it"
        )
    return None


def product(place: Place) -> str | None:
    word, before, after = place.word, place.near(-1), place.near(1)
    if before == "*" and place.is_number(word):
        return "two numbers aren't multiplied: write their product"
    if before == "*" and word == "(":
        return "brackets don't stand in a sum: multiply each part by itself, 2 * a + 2 * b"
    if word == "*" and (place.is_name(before) or before == ")") and place.expected & {"+", "-"}:
        if place.is_number(after):
            start = place.at - len(reading_before(place))
            return (
                f"the number stands before what it multiplies: {after} *"
                f" {' '.join(place.words[start:place.at])}"
            )
        return "a product of two names can't be said; a number times a name can, as 2 * n"
    if word == "*" and place.expected == {NAME}:
        return (
            "* stands in lines insert, remove, add and set alone; in a formula, name a variable of"
            " forall or exists"
        )
    return None


def reading_before(place: Place) -> list[Word]:
    """The words of the reading that ends right before the place."""
    at = place.at - 1
    if place.words[at] == ")":
        while place.words[at] != "(":
            at -= 1
        at -= 1
    return place.words[at : place.at]


def truth_value(place: Place) -> str | None:
    is_compared = place.word in ("true", "false") and place.near(-1) in ("=", "!=")
    if (
        is_compared
        or place.word in ("=", "!=")
        and place.near(1) in ("true", "false")
        and place.head not in ("initially", "set", "add")
    ):
        return (
            "a fact is true or false by itself and isn't compared: write it alone, or 'not'"
            " before it"
        )
    return None


def truth_value_of_change(place: Place) -> str | None:
    if place.word in ("true", "false") and place.head in UPDATES:
        return "no truth value stands here: 'insert' makes a relation true, and 'remove' false"
    return None


def empty_brackets(place: Place) -> str | None:
    if place.word == ")" and place.near(-1) == "(":
        return "what has no arguments has no brackets"
    if place.word == ")" and place.near(-1) == ",":
        return "behind the comma something is missing, or the comma is one too many"
    return None


def forall_inside(place: Place) -> str | None:
    if (
        place.word not in ("forall", "exists")
        or not FORMULA <= place.expected
        or place.word in place.expected
    ):
        return None
    if place.near(-1) == ".":
        first = place.words[
            max(it for it in range(place.at) if place.words[it] in ("forall", "exists"))
        ]
        if first == place.word:
            return (
                f"a line has one '{first}', with commas between its variables: {first} x : A , y"
                " : B ."
            )
        return (
            "a line has one quantifier: forall with exists behind it can't be said; a counter of"
            " how many there are may say it"
        )
    if place.head == "invariant" and place.word == "exists":
        return (
            "an invariant has no 'exists': that there is at least one may be said by a counter that"
            " is at least 1"
        )
    name = " and the name" if place.head == "invariant" else ""
    return (
        f"'{place.word}' stands before a whole line alone, right behind"
        f" {place.head or 'requires'}{name}"
    )


def variables(place: Place) -> str | None:
    """Slips behind forall, exists, and in the list of an operation's parameters."""
    line = place.words[place.begin() : place.at]
    in_prefix = ("forall" in line or "exists" in line) and "." not in line
    before, word, after = place.near(-1), place.word, place.near(1)
    if before == "for" and word == "all":
        return "'forall' is one word"
    if place.expected == {":"} and place.head == "const":
        if word == ",":
            return constants_in_a_row(place)
        sort = word if place.is_name(word) else after
        return (
            f"a constant has its sort behind a colon: const {before} : {sort}"
            if place.is_name(sort)
            else None
        )
    if place.expected == {":"}:
        what = "variable" if in_prefix else "parameter"
        kind = next(
            (
                str(it)
                for at, it in enumerate(place.words[place.at :], place.at)
                if place.words[at - 1] == ":"
            ),
            "A",
        )
        if word == ",":
            return f"each {what} has its own kind: {before} : {kind} , {after} : {kind}"
        if word in ("in", "of", "is", "as"):
            return f"a colon stands between a {what} and its kind: {before} : {after}"
        if (
            word == "int"
            or place.is_name(word)
            and (
                word in place.declared("sort")
                or before not in place.declared("sort")
                and before.islower()
            )
        ):
            return f"a colon stands between a {what} and its kind" + place.proposed(
                place.at - 1, place.at + 1, [before, ":", given(word)]
            )
        if place.is_name(word):
            return f"the {what} stands first, then a colon and its kind" + place.proposed(
                place.at - 1, place.at + 1, [given(word), ":", before]
            )
        return f"each {what} has a kind behind a colon: {before} : A" + (
            "" if in_prefix else f", or {before} : int"
        )
    if in_prefix and place.expected == {",", "."}:
        return "a dot stands behind the last variable, and then the formula: forall x : A . formula"
    return None


def constants_in_a_row(place: Place) -> str:
    """Several constants of one sort in one item."""
    row, at = [place.near(-1)], place.at
    while (
        place.words[at : at + 1] == [","]
        and at + 1 < len(place.words)
        and place.is_name(place.words[at + 1])
    ):
        row.append(place.words[at + 1])
        at += 2
    sort = (
        place.words[at + 1]
        if place.words[at : at + 1] == [":"] and at + 1 < len(place.words)
        else None
    )
    parts = [it for name in row for it in ("const", name, ":", sort)] if sort else []
    return "each constant has an item of its own" + place.proposed(
        place.begin_item(), at + 2, parts, "const a : A const b : A"
    )


def no_comparison_brackets(place: Place) -> str | None:
    """A comparison without brackets, seen at its first number or sign, or at its comparison
    sign."""
    word = place.word
    is_amount = place.head in UPDATES and "when" not in place.words[place.line : place.at]
    if (
        not word
        or is_amount
        or not (word in COMPARISONS or word in ("+", "-") or place.is_number(word))
    ):
        return None
    start = place.formula_start()
    found = place.comparison(start)
    if found and found[-1].at >= word.at >= found[0].at:
        told = "a comparison stands in brackets" + place.proposed(
            start, start + len(found), ["(", *found, ")"]
        )
        return (
            told
            if place.proposal
            else "a comparison stands in brackets" + bracketed(place, start, "( n >= 0 )")
        )
    if word in COMPARISONS and "end" in place.expected:
        return "a comparison stands in brackets, as ( n >= 0 )"
    return None


def bracketed(place: Place, start: int, other: str) -> str:
    """What to write in place of the formula that begins at a place, with all its brackets; or an
    example. Where it begins with an open bracket it ends with that."""
    reader = Lenient(place.words, place.grammar)
    found = reader.part(start, 0) if start in place.brackets else reader.chain(start)
    return place.proposed(start, found[1], found[0], other) if found else f", as {other}"


def chain(place: Place) -> str | None:
    """A third part in brackets that hold two."""
    word = place.word
    if not place.brackets or ")" not in place.expected:
        return None
    left = place.words[place.brackets[-1] + 1 : place.at]
    if word in COMPARISONS:
        return second_comparison(place, left)
    if word not in CONNECTIVES:
        return None
    opening = place.brackets[-1]
    is_one = any(it in COMPARISONS for it in left) and not any(it in CONNECTIVES for it in left)
    if is_one and place.grammar.accepts("formula", ["(", *left, ")"]):
        return "each comparison has brackets of its own" + bracketed(
            place, opening, f"( ( a > 0 ) {word} ( b > 0 ) )"
        )
    third = "a pair of brackets joins two parts; with a third one it wants brackets again"
    return third + bracketed(place, opening, f"( ( a {word} b ) {word} c )")


def second_comparison(place: Place, left: list[Word]) -> str | None:
    """A comparison sign behind a whole comparison."""
    if not any(it in COMPARISONS for it in left) or not place.longest("term", place.at + 1):
        return None
    return "a comparison has two sides" + bracketed(
        place, place.brackets[-1], "( ( 0 <= n ) and ( n <= 9 ) )"
    )


def one_part(place: Place) -> str | None:
    """Brackets round a formula or a sum that is whole without them."""
    if place.word != ")" or not place.brackets:
        return None
    inner = place.words[place.brackets[-1] + 1 : place.at]
    if place.grammar.accepts("formula", inner):
        alone = "brackets stand round two parts that are joined, and one part alone has none"
        return alone + place.proposed(place.brackets[-1], place.at + 1, inner)
    if place.grammar.accepts("term", inner):
        return (
            "a sum has no brackets of its own; they stand round a whole comparison, as ( a + b"
            " >= c )"
        )
    return None


def sum_in_brackets(place: Place) -> str | None:
    """Brackets round a sum, where a sum is to stand."""
    if place.word != "(" or not {NAME, NUMBER} <= place.expected or place.expected & FORMULA:
        return None
    inner = Lenient(place.words, place.grammar).term(place.at + 1)
    parts = inner[0] if inner and place.words[inner[1] : inner[1] + 1] == [")"] else []
    return "a sum has no brackets of its own" + place.proposed(
        place.at, place.at + len(parts) + 2, parts
    )


def connective(place: Place) -> str | None:
    """and, or, implies behind a whole formula without brackets."""
    if place.word not in CONNECTIVES:
        return None
    start = place.formula_start()
    while start > 0 and place.words[start - 1] in FORMULA:
        start -= 1
    if place.expected & {"end", "sort"}:
        return f"what '{place.word}' joins stands in brackets" + bracketed(
            place, start, f"( a {place.word} b )"
        )
    if place.expected & set(COMPARISONS):
        return (
            f"'{place.word}' joins formulas, and before it stands a sum: compare it with something,"
            " in brackets"
        )
    return None


def argument(place: Place) -> str | None:
    """Slips in the brackets of arguments."""
    word = place.word
    if place.expected == {",", ")"} and word:
        if place.is_name(word):
            return "a comma is missing before this"
        if word == "(":
            return "an argument is a name alone: a parameter, a variable or a constant"
        if word in ("+", "-", "*"):
            return "an argument is a name alone, and no sum"
    if (
        place.brackets
        and set(CONNECTIVES) <= place.expected
        and (word == "," or place.is_name(word))
    ):
        missing = "'and' or another connective is missing before this"
        return bare_row(place) or (
            "formulas are joined by 'and', and not by a comma" if word == "," else missing
        )
    if (
        place.is_number(word)
        and NAME in place.expected
        and NUMBER not in place.expected
        and not FORMULA <= place.expected
        and place.brackets
    ):
        return "an argument is a name: a parameter, a variable or a constant"
    return None


def bare_row(place: Place) -> str | None:
    """Names without brackets behind a relation or a counter."""
    before = place.near(-1)
    if (
        place.is_name(place.word)
        and before in place.declared("relation", "counter", "token")
        and before.line == given(place.word).line
    ):
        return f"arguments stand in brackets: {before} ( {' , '.join(place.named_row(place.at))} )"
    return None


def fact_between(place: Place) -> str | None:
    """A fact with its relation in the middle or at the end, or without brackets."""
    if place.head not in ("requires", "observes", "invariant") or not place.is_name(place.word):
        return None
    if place.word in ("in", "of", "is", "has") and place.near(1):
        return "a fact has its relation first, and then its things in brackets: r ( x , y )"
    return bare_row(place)


def unclosed(place: Place) -> str | None:
    """A bracket that is open where a line, an item or the text ends."""
    word = place.word
    if place.brackets and (
        word is None or word in ITEMS or word in LINE_HEADS or word in ("end", "when")
    ):
        opening = place.words[place.brackets[-1]]
        more = "" if ")" in place.expected else ", and what stands in it isn't whole"
        return (
            f"the bracket of line {opening.line}, column {opening.column} isn't closed before"
            f" this{more}"
        )
    return None


def unopened(place: Place) -> str | None:
    if place.word == ")" and not place.brackets:
        return "there is no open bracket that this one closes"
    return None


def dot(place: Place) -> str | None:
    if place.word == "." and place.is_name(place.near(-1)) and place.is_name(place.near(1)):
        return f"a fact of a thing has the thing in brackets: {place.near(1)} ( {place.near(-1)} )"
    return None


def sign_before_formula(place: Place) -> str | None:
    if (
        place.word
        and FORMULA <= place.expected
        and (place.word in COMPARISONS or place.word in CONNECTIVES)
    ):
        return f"before {quoted(place.word)} something is missing"
    return None


def too_deep(place: Place) -> str | None:
    word = place.word
    if word and (str(word) in place.expected or place.grammar.kind(word) in place.expected):
        return "a formula nests at most 200 deep, and here it would be deeper"
    return None
