"""What people mean where the grammar refuses a word in an item or in a line of an operation,
outside its formulas. The functions are as in `formula_slips`."""
from __future__ import annotations

import difflib

from view.brackets import Lenient
from view.given import given
from view.grammar import NAME, NUMBER
from view.place import FORMULA, LINE_HEADS, Place, quoted
from view.tree import ITEMS, LINES, UPDATES
from view.words import RESERVED, RESERVED_IN_2, Word

# What other languages call an item or a line of an operation.
OTHER_ITEMS = {
    "sort": "type types sorts entity class domain table",
    "relation": "relations predicate rel fact bool boolean flag",
    "counter": "counters integer number count var variable",
    "initially": "init initial default start",
    "invariant": "inv invariants always assert constraint property",
    "operation": (
        "op operations action function func fn def method procedure transaction event command"
    ),
    "const": "constant constants",
    "conflict": "conflicts rule",
    "token": "tokens lock locks",
}
OTHER_LINES = {
    "requires": "require required pre precondition assert assume assumes check guard where if",
    "insert": "inserts put append create",
    "remove": "removes delete deletes drop erase",
    "add": "adds inc incr increase increment dec decr decrease decrement subtract",
    "set": "sets update updates assign let",
    "takes": "take taking acquire acquires lock locks",
    "observes": "observe",
}
CONDITIONS = ("if", "where", "unless", "given", "provided", "while")


def begin(place: Place) -> str | None:
    if place.at < 2:
        return "a specification begins with 'cise 1', or with 'cise 2' for version 2"
    return None


def other_version(place: Place) -> str | None:
    if place.version == 1 and place.word in RESERVED_IN_2 and place.expected & {"end", "requires"}:
        return f"{quoted(place.word)} is of version 2: the text has to begin with 'cise 2'"
    return None


def capital(place: Place) -> str | None:
    """A word of the language with capitals; as a name it may have been read one word before."""
    for word in (place.word, place.near(-1)):
        is_capital = (
            word
            and word.lower() != word
            and word.lower() in RESERVED | RESERVED_IN_2
            and word not in place.declared(*ITEMS)
        )
        if is_capital and (word is place.word or place.at - 1 > place.begin()):
            return f"words of the language are written small: {given(word).lower()}"
    return None


def reserved_name(place: Place) -> str | None:
    word = place.word
    if not word or NAME not in place.expected or not (word in RESERVED or word in RESERVED_IN_2):
        return None
    before = place.near(-1)
    if before == "invariant" and word in FORMULA | {"forall", "exists"}:
        return f"an invariant has a name: invariant NAME {word} .."
    if before == "initially":
        return first_value(place)
    if word == "int":
        return (
            "'int' is the kind of a parameter alone: places, keys and variables are of sorts, and a"
            " whole number is a counter without keys"
        )
    is_line = word in LINE_HEADS | {"end"}
    begins = before and before.line < word.line
    if (
        place.expected == {NAME}
        and not begins
        and (is_line or word not in ITEMS or before in ITEMS | LINES | {"(", ","})
    ):
        return f"{quoted(word)} is a word of the language, so nothing can have it as its name"
    return None


def no_name(place: Place) -> str | None:
    word, before = place.word, place.near(-1)
    if place.expected == {NAME} and before == "invariant" and word == "(":
        return "an invariant has a name: invariant NAME formula"
    if place.expected == {NAME} and before in ("forall", "exists") and word == "(":
        return f"no brackets stand round the variables: {before} x : A ."
    if (
        place.expected == {NAME}
        and before in ITEMS
        and (word is None or word in ITEMS and word.line > before.line)
    ):
        return f"a name is missing behind '{before}'"
    if place.expected == {NAME} and place.is_number(word) and before in ITEMS | {"("}:
        return "a name begins with a letter"
    return None


def second_token(place: Place) -> str | None:
    if (
        place.head == "conflict"
        and place.line is None
        and place.near(-1) in ("with", "against", "vs")
    ):
        return "a rule names two tokens, with nothing between them: conflict t ( x ) u ( x )"
    if place.head == "conflict" and place.line is None and place.expected & {NAME}:
        if place.word in (",", "and", "with"):
            return "a rule names two tokens, with nothing between them: conflict t ( x ) u ( x )"
        if place.word is None or place.word in ITEMS:
            return (
                "a rule names two tokens; one that conflicts with itself is named twice: conflict t"
                " ( x ) t ( x )"
            )
    return None


def places_of_things(place: Place) -> str | None:
    """Slips in the lists of places of relations, counters and tokens, and right behind their
    names."""
    if place.line is not None or place.head not in (
        "relation",
        "counter",
        "token",
        "sort",
        "initially",
    ):
        return None
    word, name = (
        place.word,
        place.words[place.begin_item() + 1] if place.begin_item() + 1 < len(place.words) else "r",
    )
    if (
        place.head == "sort"
        and place.at == place.begin_item() + 2
        and (word == "," or place.is_name(word) and not other_word(given(word)))
    ):
        return "each sort has an item of its own: sort A sort B"
    if place.head == "initially":
        return first_value(place)
    if word == "=" and place.head in ("relation", "counter"):
        return (
            "the first value is stated by an item of its own: initially"
            f" {name} {place.near(1) or '5'}"
        )
    if (
        word == ":"
        and not place.brackets
        and place.near(-1) == ")"
        and place.head in ("relation", "counter")
    ):
        return (
            "a relation is true or false, and has no kind"
            if place.head == "relation"
            else "a counter is a whole number, and has no kind"
        )
    if place.head != "sort" and word == ":" and place.brackets:
        return (
            f"places are sorts alone, without names: {place.head} {name} ("
            f" {' , '.join(kinds_in_brackets(place)) or 'A'} )"
        )
    if (
        place.head != "sort"
        and place.at == place.begin_item() + 2
        and (word == ":" or place.is_name(word) and not other_word(given(word)))
    ):
        row = place.named_row(place.at + (word == ":"))
        return (
            f"places stand in brackets: {place.head} {name} ( {' , '.join(row)} )"
            if row and place.is_name(row[0])
            else None
        )
    return None


def kinds_in_brackets(place: Place) -> list[Word]:
    """The words behind colons, up to the next closing bracket."""
    found, at = [], place.at
    while at < len(place.words) and place.words[at] != ")":
        if place.words[at - 1] == ":" and place.is_name(place.words[at]):
            found.append(place.words[at])
        at += 1
    return found


def first_value(place: Place) -> str | None:
    name = place.words[place.begin_item() + 1] if place.at > place.begin_item() + 1 else "c"
    if place.word in ("(", "forall", "exists"):
        return (
            f"one value is stated for all places, without brackets: initially {name} 5, or true or"
            " false of a relation"
        )
    if place.word in ("=", ":", "is", "not"):
        return (
            f"the value stands right behind the name: initially {name} 5, or true or false of a"
            " relation"
        )
    if place.at == place.begin_item() + 2:
        return f"a value is missing: initially {name} 5, or true or false of a relation"
    return None


def missing_end(place: Place) -> str | None:
    if "end" in place.expected and (place.word is None or place.word in ITEMS):
        place.proposal = place.at, place.at, ["end"]
        return (
            f"operation {place.words[place.begin_item() + 1]} of line"
            f" {place.words[place.begin_item()].line} has no 'end'"
        )
    return None


def end_alone(place: Place) -> str | None:
    if (
        place.near(-1) == "end"
        and place.word
        and (place.is_name(place.word) or place.word in (".", ","))
    ):
        return "'end' stands alone" if not other_word(given(place.word)) else None
    if place.word == "end" and "sort" in place.expected:
        return (
            "there is no operation to be ended here: each has one 'end', and nothing else has any"
        )
    return None


def amount(place: Place) -> str | None:
    """Slips between the name of an add or set line and its amount, and right behind that."""
    if place.head not in ("add", "set") or "when" in place.words[place.line : place.at]:
        return None
    word, before = place.word, place.near(-1)
    if NUMBER in place.expected and place.brackets == [] and before not in ("+", "-", "*"):
        if word in ("=", ":", "+"):
            line = [*place.words[place.line : place.at], *place.longest("term", place.at + 1)]
            return f"the amount stands right behind the name, without {word}" + place.sample(
                "line", line, f"{place.head} c ( x ) n"
            )
        if word == "(":
            inner = Lenient(place.words, place.grammar).term(place.at + 1)
            parts = inner[0] if inner and place.words[inner[1] : inner[1] + 1] == [")"] else []
            return "the amount has no brackets" + place.proposed(
                place.at, place.at + len(parts) + 2, parts, f"in {place.head} c ( x ) - n"
            )
        if word is None or word in LINE_HEADS | ITEMS | {"end", "when"}:
            line = place.words[place.line : place.at]
            if (
                len(line) == 5
                and line[1] in place.declared("counter")
                and place.words[place.words.index(line[1]) + 1] != "("
            ):
                return "the amount has no brackets" + place.proposed(
                    place.begin(), place.at, [line[0], line[1], line[3]]
                )
            return f"the amount is missing, as n in {place.head} c ( x ) n"
    if before in ("to", "into", "of") and word in place.declared("counter"):
        line = [
            place.head,
            *place.longest("reading", place.at),
            *place.words[place.begin() + 1 : place.at - 1],
        ]
        return "the counter stands first, and then the amount" + place.sample(
            "line", line, f"{place.head} c ( x ) n"
        )
    if before in ("by", "to", "of", "with") and (place.is_name(word) or place.is_number(word)):
        line = [*place.words[place.line : place.at - 1], *place.longest("term", place.at)]
        return f"the amount stands right behind the name, without '{before}'" + place.sample(
            "line", line, f"{place.head} c ( x ) n"
        )
    if word in ("=", ":") and place.expected & {"+", "-"}:
        return f"the amount stands right behind the name, as in {place.head} c ( x ) n"
    return amount_or_key(place) if place.at == place.begin() + 3 else None


def amount_or_key(place: Place) -> str | None:
    """An amount in brackets, or keys without any, seen at the third word of the line."""
    word, name, before = place.word, place.words[place.begin() + 1], place.near(-1)
    if place.brackets and (word == "-" or place.is_number(word)):
        return f"the amount has no brackets, as in {place.head} {name} - n"
    if (
        place.is_name(word)
        and before.line == given(word).line
        and name in place.declared("counter")
    ):
        *keys, last = [before, *place.named_row(place.at)]
        return f"keys stand in brackets: {place.head} {name} ( {' , '.join(keys)} ) {last}"
    return None


def condition(place: Place) -> str | None:
    """A condition behind a change."""
    if place.head in UPDATES and place.word in CONDITIONS:
        return "a condition of a change stands behind it with 'when': insert r ( x ) when formula"
    if place.word == "else":
        return "there is no 'else': write another line, with the opposite behind its 'when'"
    if place.word == "when" and place.head in ("requires", "observes"):
        return (
            "'when' stands behind a change alone; what is required is one formula, perhaps with"
            " 'implies'"
        )
    if place.word == "when" and place.head == "takes":
        return "a token is always taken: 'when' stands behind a change alone"
    return None


def conditional(place: Place) -> str | None:
    """A change with its condition before it, as other languages have it."""
    if place.word != "if" or place.line is None and "requires" not in place.expected:
        return None
    found = Lenient(place.words, place.grammar).chain(place.at + 1)
    if not found:
        return None
    start = found[1] + (place.words[found[1] : found[1] + 1] == ["then"])
    if (
        start >= len(place.words)
        or place.words[start] not in UPDATES
        or start == found[1]
        and place.words[start].line > place.word.line
    ):
        return None
    stop = next(
        (
            it
            for it in range(start + 1, len(place.words))
            if place.words[it] in LINE_HEADS | ITEMS | {"end"}
        ),
        len(place.words),
    )
    parts = [*place.words[start:stop], "when", *found[0]]
    return "a condition stands behind the change, with 'when'" + place.proposed(
        place.at, stop, parts, "add c ( x ) n when ( n > 0 )"
    )


def bare_arguments(place: Place) -> str | None:
    """Arguments without brackets, behind the name of a change or of a token."""
    if place.head not in ("insert", "remove", "takes") or place.line is None:
        return None
    if (
        place.at == place.begin() + 2
        and place.is_name(place.word)
        and not other_word(given(place.word))
    ):
        row = [place.near(-1), *place.named_row(place.at)]
        row.sort(key=lambda it: it not in place.declared("relation", "counter", "token"))
        return f"arguments stand in brackets: {place.head} {row[0]} ( {' , '.join(row[1:])} )"
    if place.at == place.begin() + 1 and place.word == "(":
        return f"the name stands first, then its arguments in brackets: {place.head} r ( x , y )"
    if place.word == "," and not place.brackets:
        return f"each line of '{place.head}' names one thing"
    return None


def other_word(word: str) -> str | None:
    """The word of the language that another one stands for, or is like, where an item or a line
    begins."""
    for table in (OTHER_ITEMS, OTHER_LINES):
        for own, others in table.items():
            if word.lower() in others.split():
                return own
    near = difflib.get_close_matches(word.lower(), sorted(ITEMS | LINE_HEADS | {"end"}), 1, 0.75)
    return near[0] if near else None


def begins_wrong(place: Place) -> str | None:
    """A word that begins no line of an operation, or no item."""
    word = place.word
    if not word or not place.expected & {"requires", "sort"}:
        return None
    in_operation = "requires" in place.expected
    if place.is_name(word):
        return named_begin(place, in_operation)
    if word in LINE_HEADS and not in_operation:
        return f"'{word}' stands in an operation, before its 'end'"
    if word in ("forall", "exists"):
        return (
            f"'{word}' stands behind 'requires'"
            if in_operation
            else f"'{word}' stands behind an invariant's name"
        )
    if word == "cise":
        return "'cise' and the version stand once, at the begin of the text"
    if word == "int" and not in_operation:
        return "'int' begins no item: 'counter' does"
    if word == "(" and in_operation and place.near(-1).line < word.line:
        return "a line begins with what it does: 'requires' stands before what has to be true"
    if word == "(" and place.head in ("requires", "observes"):
        return (
            f"a line '{place.head}' has one formula: join two with 'and' in brackets, or write"
            " another line"
        )
    if word == ":" and place.at <= place.begin() + 2:
        return "no colon stands here"
    if word == ".":
        return "a fact of a thing has the thing in brackets: balance ( a )"
    if word == ",":
        return (
            "nothing stands between two lines"
            if in_operation
            else "nothing stands between two items"
        )
    return None


def named_begin(place: Place, in_operation: bool) -> str | None:
    word, after = place.word, place.near(1)
    table = OTHER_LINES if in_operation else OTHER_ITEMS
    own = next((it for it, others in table.items() if given(word).lower() in others.split()), None)
    if own and not (own == "observes" and place.version == 1):
        return f"'{word}' begins no {'line' if in_operation else 'item'}: '{own}' does"
    follows = place.at + len(place.longest("reading", place.at))
    signs = "".join(place.words[follows : follows + 2])
    if in_operation and signs[:2] in ("+=", "-=") or signs[:1] == "=" or signs[:2] == ":=":
        return (
            "a line begins with what it does: 'add' or 'set' a counter, 'insert' into or 'remove'"
            " from a relation"
        )
    if in_operation and word in place.declared("relation", "counter"):
        return (
            "a line begins with what it does: 'requires' before what has to be true, 'insert',"
            " 'remove', 'add' or 'set' before what changes"
        )
    heads = (
        (
            LINES
            | {"end"}
            | (RESERVED_IN_2 - {"shared", "exclusive"} if place.version == 2 else set())
        )
        if in_operation
        else ITEMS
    )
    near = difflib.get_close_matches(given(word).lower(), sorted(heads), 1, 0.75)
    if near:
        return f"'{word}' begins no {'line' if in_operation else 'item'}: '{near[0]}' does"
    if in_operation and place.at == place.begin_item() + 2:
        return f"parameters stand in brackets: operation {place.near(-1)} ( x : A , n : int )"
    return None


def colon(place: Place) -> str | None:
    """A colon right behind the first word of a line, or behind an item's name."""
    first = place.begin() + (1 if place.line is not None else 2)
    if (
        place.word == ":"
        and place.at == first
        and place.head in LINE_HEADS | {"invariant", "operation", "conflict"}
    ):
        return "no colon stands here"
    return None
