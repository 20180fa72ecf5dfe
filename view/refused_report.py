"""What it means that the program refuses a report: a sentence for each kind of
docs/users/REPORT.md, "What is wrong with a report"."""
from __future__ import annotations

from view.slips import Slip, line_of

BEGIN = "refused report "
MEANINGS = {
    "form": "this line isn't of the form that is expected here, or is missing",
    "obligation": (
        "the block that is due here is of another obligation; is this the report of another"
        " specification?"
    ),
    "summary": "the counts or the last word don't fit the blocks above",
    "place": "the line of the log names a clause, an atom or a row that isn't there",
    "pivot": (
        "the clauses of this line don't hold the atom that it resolves, once positive and once"
        " negative"
    ),
    "multiplier": "a multiplier of this line is negative",
    "contradiction": "the last row of this line is no contradiction",
    "range": "a number of this line leaves the range of a row",
    "splitagain": "an atom says already what this line splits at",
    "splitcause": "the rows that this line names don't force its split",
    "dropped": "this line names a clause that an earlier line dropped",
    "noempty": "the log of this obligation doesn't end in a contradiction, so it proves nothing",
    "witness": (
        "this witness doesn't break its obligation; is this the report of another specification?"
    ),
    "evidence": "the evidence of this limit isn't there",
}


def slip_of(text: str, refusal: str) -> Slip:
    """The slip that a refusal of a report speaks of, which is the program's line without its first
    two words."""
    parts = refusal.split()
    if parts[0] == "long":
        return Slip(text.count("\n") + 1, 1, 1, "a report has at most 64 MiB")
    return Slip(int(parts[1]), 1, max(1, len(line_of(text, int(parts[1])))), MEANINGS[parts[2]])
