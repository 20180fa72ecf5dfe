"""`./cise verify --second SPEC REPORT`: the program verifies a report, and so does `second/`.

The two share no code, and `second/` shares none with this layer."""
import os
from typing import Tuple

from view import program
from view.inputs import name_of
from view.output import printable, say

# What the program answers of a report; other statuses are refusals and failures.
ANSWERS = (0, 1, 5)
DIFFER = 10
# From so many bytes on the second verifier takes more than a few seconds, which is said first.
LONG = 1 << 20


def answer(spec_path: str, report_path: str, second: bool = False) -> Tuple[int, str]:
    """The program's status and text, where the second verifier has the same."""
    status, text = program.run("verify", spec_path, report_path)
    if second:
        if os.path.getsize(report_path) > LONG:
            say("cise: the second verifier takes about two seconds for each megabyte\n")
        also = verified(spec_path, report_path)
        if also != (status, text):
            say(differing(name_of(report_path), (status, text), also))
            return DIFFER, ""
        say("cise: the second verifier says the same\n")
    if status not in ANSWERS:
        raise program.Stopped(("verify", spec_path, report_path), status, text)
    return status, text


def verified(spec_path: str, report_path: str) -> Tuple[int, str]:
    """The status and the text of the second verifier."""
    from second.answer import answer as second_answer

    return second_answer([spec_path, report_path])


def differing(name: str, one: Tuple[int, str], also: Tuple[int, str]) -> str:
    """What is said where the two differ: the line from which on they do."""
    lines = [text.splitlines() or [""] for _, text in (one, also)]
    place = next((it for it, (left, right) in enumerate(zip(*lines)) if left != right), 0)
    shown = [printable(text[place]) for text in lines]
    said, other = [f"status {it[0]}, {text!r}" for it, text in zip((one, also), shown)]
    return (
        f"cise: of {printable(name)} the program says {said}, and the second verifier {other}: "
        "one of them is wrong, so this is no answer\n"
    )
