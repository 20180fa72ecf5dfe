"""Answers a call of `./cise` that launch/quick.py doesn't: finds the program, runs it on the words,
or has view/ answer, and says on standard error what people should know of the status."""
from __future__ import annotations

import os

from launch import allocator, quick
from launch.paths import BAD_WORDS, NO_PROGRAM, TOP, at, say
from launch.quick import HELP, PATHS, inputs_of, marks_of
from launch.saying import printable

TYPE_CHECKING = False
if TYPE_CHECKING:
    from types import ModuleType

# The commands that view/ answers, for people: the words of view/commands.py, which a call of the
# program has no time to import.
VIEWS = (
    "audit",
    "ci",
    "drive",
    "example",
    "explain",
    "format",
    "json",
    "lsp",
    "mend",
    "order",
    "page",
    "pattern",
    "plan",
    "reach",
    "review",
    "tests",
    "watch",
)
# A command of the program that view/ answers where this option is among so many words; the
# program's own has never so many.
OPTIONS = {"verify": (quick.SECOND, 4)}
# What these statuses of the program mean, which it doesn't say itself.
MEANINGS = {
    6: "an input couldn't be read",
    8: "memory ran out",
    9: "the words couldn't be had from the system, or one of them isn't UTF-8",
}
# Why else memory is said to have run out, where a report is gone through.
HELD = (
    ", or the clauses of one log had more than 134,217,728 literals, "
    "the most that are held (1 GiB)"
)
REFUSED_INPUT, NOT_READ, NOT_WRITTEN, NO_MEMORY = (3, 4), 6, 7, 8
# A path at which nothing is.
NOWHERE = "/proc/self/fd/none"


def main(words: list[str]) -> int:
    status = helped(words) if not HELP.isdisjoint(words) else None
    if status is not None:
        return status
    if words[:1] == ["prove"]:
        return prove(words[1:])
    if words == ["about"]:
        from launch import about

        return about.main()
    program = quick.program(TOP)
    if program is not None:
        return answer(program, words)
    from launch import packed

    if packed.is_so():
        return packed.answered(words)
    from launch import choosing

    choice, reasons = choosing.choose()
    if choice is not None:
        return answer(at(choosing.PROGRAMS[choice]), words)
    from launch import unproved

    return unproved.answer(words, reasons, lambda: tell_words(words))


def prove(words: list[str]) -> int:
    """Proves the sources, where they stand, and returns the status."""
    from launch import packed

    if words:
        say("prove takes no words")
        return BAD_WORDS
    if packed.is_so():
        say(packed.NO_SOURCES)
        return NO_PROGRAM
    from launch import proving

    return proving.main()


def helped(words: list[str]) -> int | None:
    """Shows what words ask for, and returns the status; None where they ask for no help."""
    from launch import help as helping
    from view.output import written

    text = helping.text_for(words)
    return None if text is None else 0 if written(text) else NOT_WRITTEN


def answer(program: str, words: list[str]) -> int:
    """Answers by a program, and returns the status."""
    allocator.set_for_programs()
    if is_view(words):
        status: int = view().main(program, words)
        return status
    return quick.answer(program, words, readable(words))


def is_view(words: list[str]) -> bool:
    """Whether view/ answers these words."""
    option, count = OPTIONS.get(words[0], ("", 0)) if words else ("", 0)
    return bool(words) and (words[0] in VIEWS or len(words) == count and option in words[1:])


def view() -> ModuleType:
    from view import main

    return main


def tell(program: str, words: list[str], status: int, marks: list[str]) -> None:
    """Says what the program doesn't say of its status; of inputs, only where they are what they
    were for the program."""
    if status == BAD_WORDS:
        tell_words(words)
    elif status in MEANINGS:
        found = unread(words) if status == NOT_READ else []
        say(meaning(status, words[0]) + (": " if found else "") + ", ".join(found))
    elif status in REFUSED_INPUT:
        view().places(program, words, status, lambda: marks_of(words) == marks)


def meaning(status: int, command: str) -> str:
    """What a status of a command means, which the program doesn't say itself."""
    held = HELD if status == NO_MEMORY and command in ("verify", "upgrade") else ""
    return MEANINGS[status] + held


def unread(words: list[str]) -> list[str]:
    """The inputs of a command that can't be read, each with the reason."""
    found = []
    for it in inputs_of(words):
        try:
            os.close(os.open(it, os.O_RDONLY | os.O_NONBLOCK))
            if os.path.isdir(it):
                found.append(f"{printable(it)} (it is a folder)")
        except OSError as error:
            found.append(f"{printable(it)} ({error.strerror})")
    return found


def tell_words(words: list[str]) -> None:
    """Says what is wrong with words that the program refuses, and where all are listed."""
    from launch.help import said_of
    from view.output import say as said

    said(said_of(words))


def tell_of_start(program: str, error: OSError) -> None:
    """Says why a program can't be run."""
    say(f"{os.path.relpath(program, TOP)} can't be run: {error.strerror}")


def readable(words: list[str]) -> list[str]:
    """The words with a path that the program takes for each input whose own isn't UTF-8: that of
    the open file. The program, which inherits that, refuses other words of this kind."""
    last = len(inputs_of(words))
    return [
        path_of_open(it) if 1 <= place <= last and not is_utf_8(it) else it
        for place, it in enumerate(words)
    ]


def is_utf_8(word: str) -> bool:
    try:
        os.fsencode(word).decode()
        return True
    except UnicodeDecodeError:
        return False


def path_of_open(path: str) -> str:
    """A path in plain letters of a file; where it can't be opened, one that can't be either."""
    try:
        number = os.open(path, os.O_RDONLY)
    except OSError:
        return NOWHERE
    os.set_inheritable(number, True)
    return f"/proc/self/fd/{number}"
