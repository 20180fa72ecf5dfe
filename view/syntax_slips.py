"""What is said of a word that the grammar refuses: in plain words what is meant there, and what
could have stood there. The slips that are known are asked in the order of `SLIPS`, and the first
sentence counts."""
from __future__ import annotations

from view import formula_slips as formula
from view import item_slips as item
from view.formulas import COMPARISONS, CONNECTIVES
from view.grammar import END, NAME, NUMBER
from view.place import FORMULA, Place, quoted
from view.tree import ITEMS, LINES

SLIPS = [
    *(
        item.begin,
        item.other_version,
        formula.too_deep,
        item.capital,
        formula.two_signs,
        formula.numbers,
        formula.truth_value,
    ),
    *(
        formula.truth_value_of_change,
        formula.empty_brackets,
        formula.product,
        item.no_name,
        item.second_token,
    ),
    *(
        formula.forall_inside,
        formula.variables,
        item.amount,
        item.reserved_name,
        formula.no_comparison_brackets,
        formula.chain,
    ),
    *(
        formula.one_part,
        formula.sum_in_brackets,
        formula.connective,
        formula.argument,
        formula.unclosed,
        formula.unopened,
        item.missing_end,
    ),
    *(
        item.end_alone,
        item.conditional,
        item.condition,
        item.bare_arguments,
        item.places_of_things,
        item.colon,
        formula.dot,
    ),
    *(formula.fact_between, item.begins_wrong, formula.sign_before_formula),
]


def sentence(place: Place) -> str | None:
    """What is meant to stand there, in plain words, or None where nothing is known but what is
    expected."""
    return next((it for it in (slip(place) for slip in SLIPS) if it), None)


# Words that stand together where something may begin or go on in many ways, the larger groups
# first.
GROUPS = [
    (
        FORMULA | {"forall", "exists", "(", NAME},
        "a formula, perhaps with forall or exists before it",
    ),
    (FORMULA | {"(", NAME, NUMBER, "-"}, "a formula or a sum"),
    (FORMULA | {"(", NAME}, "a formula"),
    ({NAME, NUMBER, "-"}, "a sum"),
    (set(COMPARISONS), "a comparison sign"),
    (set(CONNECTIVES), "a connective (and, or, implies)"),
    (set(LINES), "a line of the operation"),
    (set(ITEMS), "an item"),
]


def listed(parts: list[str]) -> str:
    return parts[0] if len(parts) == 1 else ", ".join(parts[:-1]) + " or " + parts[-1]


def expectation(expected: set[str]) -> str:
    """`expected ) or , here`: words as they are, and names for what may begin in many ways."""
    left, parts = set(expected), []
    for group, name in GROUPS:
        if group <= left:
            parts.append(name)
            left -= group
    left.discard("observes")
    named = {NAME: "a name", NUMBER: "a number", END: END}
    signs = sorted(it for it in left if it not in named and not it[0].isalnum())
    rest = sorted(it for it in left if it not in named and it[0].isalnum())
    others = [quoted(it) for it in rest] + [named[it] for it in named if it in left]
    return f"expected {listed(signs + parts + others)} here"
