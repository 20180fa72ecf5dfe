"""All words of `./cise`, one row each: the script's own, with the module that answers it, its paths
and options; and those of the program and of `launch/`, for help alone. `view/help/WORD.txt` has the
page of each."""
from dataclasses import dataclass, field
from typing import Dict, List, Optional, Tuple

# What people want of a word.
LOOK, TRY, MEND, WORK, BUILD = "look", "try", "mend", "work", "build"


@dataclass(frozen=True)
class Command:
    """A word: `view.MODULE.answer` takes its paths, and its options by their names."""

    module: str
    group: str
    usage: str
    line: str
    least: int = 1
    most: Optional[int] = 1
    # Each option with the name of its value, or None where it has none.
    options: Dict[str, Optional[str]] = field(default_factory=dict)
    # Whether its paths are inputs, which are read before `answer` is called and given as paths of
    # copies; and how many of them are, where the others are names.
    has_inputs: bool = True
    most_inputs: Optional[int] = None
    # Whether words behind `--` belong to it, which `answer` takes as `rest`.
    takes_rest: bool = False


@dataclass(frozen=True)
class Words:
    """What stands behind a word: its paths, its options by the names of `answer`, and the rest."""

    paths: List[str]
    options: Dict[str, object]


COMMANDS: Dict[str, Command] = {
    "audit": Command(
        "audit",
        TRY,
        "SPEC LOG.. [--schedule OUT] [--part I/N] [--all]",
        "says whether logs of a running system keep what the yes rests on",
        least=2,
        most=None,
        options={"--schedule": "OUT", "--part": "I/N", "--all": None},
        has_inputs=False,
    ),
    "ci": Command(
        "ci",
        WORK,
        "SPEC.. [--github] [--sarif OUT] [--junit OUT] [--reports DIR]",
        "checks many specifications for a pipeline, with places",
        most=None,
        options={"--github": None, "--sarif": "OUT", "--junit": "OUT", "--reports": "DIR"},
        has_inputs=False,
    ),
    "example": Command(
        "example",
        TRY,
        "SPEC OP [OP] [--another]",
        "shows a state in which a call may run, or two may meet",
        least=2,
        most=3,
        most_inputs=1,
        options={"--another": None},
    ),
    "explain": Command(
        "explain",
        LOOK,
        "SPEC [REPORT] [--places] [--all] [--no-reach] [--budget N]",
        "tells a report as stories: what is held, the calls, the line",
        most=2,
        options={"--places": None, "--all": None, "--no-reach": None, "--budget": "N"},
    ),
    "format": Command(
        "format",
        WORK,
        "SPEC [--check]",
        "writes the specification in its layout, with its comments",
        options={"--check": None},
    ),
    "drive": Command(
        "testing.drive",
        TRY,
        "TESTS [--junit OUT] [--seconds N] -- COMMAND ..",
        "carries cases out against an implementation's adapter",
        options={"--junit": "OUT", "--seconds": "N"},
        takes_rest=True,
    ),
    "tests": Command(
        "testing.generating",
        TRY,
        "SPEC [--seed N] [--most N]",
        "writes cases for an implementation, with what each must do",
        options={"--seed": "N", "--most": "N"},
    ),
    "json": Command(
        "facts",
        LOOK,
        "FILE [--quick]",
        "writes a text of the program, or all that is said of SPEC, as JSON",
        options={"--quick": None},
    ),
    "lsp": Command(
        "lsp",
        WORK,
        "[--stdio]",
        "is a language server for editors",
        least=0,
        most=0,
        options={"--stdio": None},
        has_inputs=False,
    ),
    "mend": Command(
        "mend",
        MEND,
        "SPEC [--no-wait]",
        "writes the tokens that its pairs need, or changes that spare them",
        options={"--no-wait": None},
    ),
    "order": Command("order", LOOK, "SPEC", "says which pairs are ordered, and on what"),
    "page": Command(
        "page",
        LOOK,
        "SPEC [SCHEDULE] [--no-reach]",
        "writes a report or a replay as a page of HTML",
        most=2,
        options={"--no-reach": None},
    ),
    "pattern": Command(
        "pattern",
        MEND,
        "[NAME] [--names OLD=NEW,..]",
        "lists known designs, or prints one under your own names",
        least=0,
        options={"--names": "OLD=NEW,.."},
        has_inputs=False,
    ),
    "plan": Command(
        "plan",
        MEND,
        "SPEC [--for postgres|json]",
        "says what each operation has to hold before it runs",
        options={"--for": "FORM"},
    ),
    "reach": Command(
        "reach",
        TRY,
        "SPEC [--all DIR] [--seconds N] [--mended]",
        "looks for calls from the start to what is refuted: a schedule",
        options={"--all": "DIR", "--seconds": "N", "--mended": None},
    ),
    # Without the option it is the program's, which view/ isn't asked for.
    "verify": Command(
        "second",
        LOOK,
        "SPEC REPORT [--second]",
        "says whether a report stands, and believes none of it",
        least=2,
        most=2,
        options={"--second": None},
    ),
    "watch": Command(
        "watch", WORK, "SPEC", "checks at each save, and says what changed", has_inputs=False
    ),
    "review": Command(
        "review", LOOK, "SPEC", "says what a yes leaves open: what never runs, what is not used"
    ),
}

# The words of the proved program, whose module is none.
PROGRAM: Dict[str, Command] = {
    "check": Command(
        "", LOOK, "SPEC [--budget N]", "decides each obligation of a specification: the report"
    ),
    "replay": Command("", TRY, "SPEC SCHEDULE", "carries out a recorded schedule, step by step"),
    "sample": Command("", BUILD, "N", "checks a generated specification, as a trial of speed"),
    "simulate": Command("", TRY, "SPEC SCHEDULE", "carries it out by a protocol of tokens"),
    "spell": Command("", MEND, "SPEC", "writes a specification in the language's layout"),
    "suggest": Command("", LOOK, "SPEC", "finds which pairs of operations must conflict"),
    "upgrade": Command(
        "", BUILD, "SPEC REPORT", "writes a report anew, in version 2 of the format"
    ),
    "verify": Command(
        "", LOOK, "SPEC REPORT", "says whether a report stands, and believes none of it"
    ),
}

# What `launch/` answers itself.
LAUNCH: Dict[str, Command] = {
    "about": Command("", BUILD, "", "says which program answers, and why it is to be trusted"),
    "help": Command("", BUILD, "[WORD]", "lists all words, or shows the page of one"),
    "prove": Command("", BUILD, "", "proves and builds the program on this machine"),
}


def every_word() -> Dict[str, Command]:
    """The rows of all words: the program's, the script's and those of `launch/`."""
    return {**PROGRAM, **COMMANDS, **LAUNCH}


def taken(command: Command, words: List[str]) -> Optional[Words]:
    """The words behind a command's own, or None where they aren't of its form."""
    rest: List[str] = []
    if command.takes_rest and "--" in words:
        at = words.index("--")
        words, rest = words[:at], words[at + 1 :]
    parted = parted_words(command, words)
    if parted is None:
        return None
    paths, options = parted
    if len(paths) < command.least or command.most is not None and len(paths) > command.most:
        return None
    if command.takes_rest:
        options["rest"] = rest
    return Words(paths, options)


def parted_words(
    command: Command, words: List[str]
) -> Optional[Tuple[List[str], Dict[str, object]]]:
    """Paths and options apart; None where an option isn't the command's, stands twice or lacks its
    value."""
    paths: List[str] = []
    options: Dict[str, object] = {}
    at = 0
    while at < len(words):
        word, at = words[at], at + 1
        if not word.startswith("-") or word == "-":
            paths.append(word)
            continue
        name = word.lstrip("-").replace("-", "_")
        if word not in command.options or name in options:
            return None
        options[name] = True
        if command.options[word] is not None:
            if at == len(words):
                return None
            options[name], at = words[at], at + 1
    return paths, options
