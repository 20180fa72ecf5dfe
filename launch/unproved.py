"""Answers by a program that isn't proved, where sources were changed and nothing of them is proved:
the kit compiles them without proofs, with checks where a proof would stand, and runs the program on
copies of its inputs (`rt try`). It says at its end with which status the program ended."""
from __future__ import annotations

import os
import re
import shutil
import subprocess
import tempfile
from typing import Callable

from launch import kit
from launch.paths import BAD_WORDS, BY_SIGNAL, NO_PROGRAM, at, say
from launch.quick import PATHS
from launch.answering import MEANINGS, NOT_READ, is_view, meaning
from launch.stopping import Stopped, end_all, stop_by_signals

# The program reads no more than this of any input, and one byte to see whether there is more.
MOST_BYTES = 1 << 26
NOT_WRITTEN = 7
SECONDS = 600
ENDED = re.compile(r"run=ended status=([0-9]+) .*proved=no")
PROVE = "./cise prove proves the program and builds it"


def answer(words: list[str], reasons: list[str], list_commands: Callable[[], None]) -> int:
    """Answers, and returns the program's status, or the script's where there is no answer."""
    say("; ".join(reasons))
    if is_view(words):
        say(f"no program was run, since {words[0]} needs a proved one")
    elif not is_command(words):
        list_commands()
        say("no program was run, since the words are none of these")
    elif kit.is_here():
        with tempfile.TemporaryDirectory(prefix="cise-") as room:
            stop_by_signals()
            try:
                return answer_unproved(words, room, list_commands)
            except Stopped as stopped:
                return BY_SIGNAL + stopped.number
    say(PROVE if kit.is_here() else f"{PROVE}; {kit.LACKING}")
    return NO_PROGRAM


def is_command(words: list[str]) -> bool:
    """Whether the words can be those of a command, by their first one and by how many there are."""
    return bool(words) and words[0] in PATHS and len(words) > max(1, PATHS[words[0]])


def answer_unproved(words: list[str], room: str, list_commands: Callable[[], None]) -> int:
    """Answers by a program that isn't proved, with what it reads and writes in the room."""
    try:
        words, given = with_copies(words, room)
    except OSError as error:
        say(
            f"no program was run, since {error.filename or 'an input'} can't be read:"
            f" {error.strerror}"
        )
        return NOT_READ
    say(
        "so an unproved program answers, by rt try, which takes some minutes and 3 GB of memory;"
        f" {PROVE}"
    )
    status, lines = tried(words, given, room)
    if status is not None:
        say(f"an unproved program gives this answer, with status {status}")
        if status == BAD_WORDS:
            list_commands()
        elif status in MEANINGS:
            say(meaning(status, words[0]))
        return status if is_written(f"{room}/stdout") else NOT_WRITTEN
    say(f"the unproved program didn't come to an end: {' | '.join(lines[-3:])}")
    say(f"{PROVE}, which has no such limits")
    return NO_PROGRAM


def is_written(path: str) -> bool:
    """Writes a file on standard output, and says whether it could."""
    try:
        with open(path, "rb") as text, os.fdopen(1, "wb", closefd=False) as out:
            shutil.copyfileobj(text, out)
        return True
    except OSError:
        return False


def tried(words: list[str], given: list[str], room: str) -> tuple[int | None, list[str]]:
    """The status with which the unproved program ended, or None, and the kit's lines. What was
    printed is left in the room."""
    command = ["rt", "try", "--seconds", str(SECONDS), *given, "--", *words]
    with open(f"{room}/stdout", "wb") as out, open(f"{room}/stderr", "wb") as err:
        running = subprocess.Popen(
            command, cwd=at("crates/cise_cli"), stdin=subprocess.DEVNULL, stdout=out, stderr=err
        )
        try:
            running.wait()
        except Stopped:
            end_all([running])
            raise
    with open(f"{room}/stderr", encoding="utf-8", errors="replace") as text:
        lines = text.read().strip().split("\n")
    ended = ENDED.fullmatch(lines[-1])
    return (int(ended[1]) if ended else None), lines


def with_copies(words: list[str], room: str) -> tuple[list[str], list[str]]:
    """The words with a plain name for each path, and the flags that give the file of that name: a
    copy, so that a path may also be a pipe."""
    words, given = list(words), []
    for place in range(1, PATHS[words[0]] + 1):
        name = f"input{place}"
        with open(words[place], "rb") as source, open(f"{room}/{name}", "wb") as target:
            target.write(source.read(MOST_BYTES + 1))
        given += ["--data", f"{name}={room}/{name}"]
        words[place] = name
    return words, given
