"""Help: the list of all words, the page of each, and what is said of words that are none. It needs
no program.

`view/commands.py` has a row for each word, and `view/help/WORD.txt` the rest of its page;
view/help/README.md says how a page is written."""
import os
from typing import List, Optional, Sequence

from launch.saying import printable
from launch.version import VERSION
from view.columns import wrapped
from view.commands import BUILD, LOOK, MEND, PROGRAM, TRY, WORK, Command, every_word
from view.own import own_text

ASKS = ("--help", "-h")
GROUPS = {
    LOOK: "Look at a design, and at what holds of it",
    TRY: "Try it: runs, logs and tests",
    MEND: "Mend it, and write it",
    WORK: "Work with it every day",
    BUILD: "The program itself",
}
# A design to begin with, which `cise help design` prints. It is examples/bank/refuted.cise.
DESIGN = "design"
LISTS = "cise help lists all words"
LONGEST_SHOWN = 60


def text_for(words: Sequence[str]) -> Optional[str]:
    """The text that words ask for, or None where they ask for no help, or for help with what is no
    word."""
    words = list(words)
    if words == ["--version"]:
        return f"cise {VERSION}\n"
    if words[:1] == ["help"] or words[:1] and words[0] in ASKS:
        asked = [it if it not in ASKS else "help" for it in words[1:]]
        return overview() if not asked else page(asked[0]) if len(asked) == 1 else None
    mine = words[: words.index("--")] if "--" in words else words
    return page(words[0]) if any(it in ASKS for it in mine) else None


def overview() -> str:
    """All words, each in a line, in groups."""
    rows = every_word()
    width = max(map(len, rows)) + 2
    lines = ["cise says whether replicas that don't wait for each other keep their promises.", ""]
    lines += ["A first minute:", "  cise help design > bank.cise", "  cise explain bank.cise"]
    for group, title in GROUPS.items():
        own = sorted((word, it) for word, it in rows.items() if it.group == group)
        lines += ["", title] + [f"  {word:{width}}{it.line}" for word, it in own]
    names = ", ".join(sorted(PROGRAM))
    told = f"{names} are words of the proved program; the others claim nothing beyond its answers."
    return (
        "\n".join([*lines, "", *wrapped(told), "cise help WORD shows the page of a word."]) + "\n"
    )


def page(word: str) -> Optional[str]:
    """The page of a word, or None where it is none."""
    if word == DESIGN:
        return own_text("help/design.cise")
    row = every_word().get(word)
    if row is None:
        return None
    try:
        rest = own_text(f"help/{word}.txt")
    except OSError:
        rest = f"There is no page of {word} yet.\n"
    return "\n".join([*called(word, row), f"  {row.line}", "", rest])


def called(word: str, row: Command) -> List[str]:
    """How a word is called, as lines."""
    return wrapped(f"cise {word} {row.usage}".strip(), 0, len(f"cise {word} "))


def said_of(words: Sequence[str]) -> str:
    """What is said of words that are none: the list where there are none, else a line."""
    if not words:
        return overview()
    return f"cise: {sentence(words)}\n"


def sentence(words: Sequence[str]) -> str:
    """What is wrong with words, as a sentence."""
    rows, first = every_word(), words[0]
    if first == "help" or first in ASKS:
        if len(words) > 2:
            return "help takes one word: cise help WORD"
        return f"there is no word {named(words[1])}{alike(words[1])}; {LISTS}"
    if first in rows:
        form = f"cise {first} {rows[first].usage}".strip()
        return f"these words aren't of the form: {form} (cise help {first} says more)"
    if os.path.exists(first):
        form = f"cise explain {named(first)}"
        return f"the first word says what is to be done, as in: {form} ({LISTS})"
    return f"there is no word {named(first)}{alike(first)}; {LISTS}"


def named(word: str) -> str:
    """A user's word in a sentence."""
    return printable(word, LONGEST_SHOWN)


def alike(word: str) -> str:
    """A question for the word that was meant, where one is like this one."""
    import difflib

    near = difflib.get_close_matches(
        word[:LONGEST_SHOWN], [*every_word(), "--help", "--version"], 1
    )
    return f" (is {near[0]} meant?)" if near else ""
