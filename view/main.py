"""The words of the script's own commands, and where each is answered. `./cise` calls `main` for
these, and `places` behind the program's commands.

`view/commands.py` has the words. A command's module has `answer(path, ..)`, which takes the paths
of the command's words, and its options by name, and gives a status and the whole text for standard
output. A path is that of a copy that `view/inputs.py` made; `inputs.name_of` has the user's. Where
the program refuses an input, `program.answer` or `program.replayed` raises `program.Stopped`
there, and nothing catches it but `main`: it writes the program's own text and ends with the
program's status. So a text is written whole or not at all."""
import importlib
import os
from typing import Callable, List, Optional, Sequence, Tuple

from launch import stopping
from view import inputs, program
from view.commands import COMMANDS, taken
from view.output import printable, say, written

REFUSED_WORDS = "refused words\n"
NOT_READ, NOT_WRITTEN, NO_MEMORY, NO_ANSWER = 6, 7, 8, 10
# What these statuses mean, which the program doesn't say itself.
MEANINGS = {
    6: "an input couldn't be read",
    8: "memory ran out",
    9: "the words couldn't be had from the system, or one of them isn't UTF-8",
}


def main(program_path: str, words: Sequence[str]) -> int:
    """Answers a command of the script, and returns its status: 128 and its number for a signal
    that ended it."""
    program.use(program_path)
    stopping.stop_by_signals()
    try:
        status, text = answered(list(words))
        if text == REFUSED_WORDS:
            tell_words(words)
        return status if written(text) else NOT_WRITTEN
    except stopping.Stopped as stopped:
        return 128 + stopped.number
    finally:
        inputs.close_all()
        stopping.end_at_once()


def tell_words(words: Sequence[str]) -> None:
    """Says what is wrong with words that the program refuses; of others that a command refuses it
    has said so itself."""
    from launch.help import said_of

    say(said_of(words))


def answered(words: List[str]) -> Tuple[int, str]:
    """The status and the text of a command; where the program refused an input, its own."""
    why = ""
    try:
        return answer(words)
    except program.Stopped as stopped:
        if stopped.status in (3, 4):
            places(program.path, stopped.words, stopped.status)
        status, text, why = stopped.status, stopped.text, unread(stopped.words[1:3])
    except OSError as error:
        # A file that can't be read, or that went away meanwhile.
        status, text, why = NOT_READ, "", named(error)
    except MemoryError:
        status, text = NO_MEMORY, ""
    except Exception as error:  # A fault of the layer is no answer.
        fault = printable(f"{type(error).__name__}: {error}")
        say(
            f"cise: {printable(words[0])} failed, by a fault of its own ({fault}): "
            "this is no answer\n"
        )
        return NO_ANSWER, ""
    if status in MEANINGS:
        say(f"cise: {MEANINGS[status]}{why if status == NOT_READ else ''}\n")
    return status, text


def named(error: OSError) -> str:
    """Which input can't be read, and why."""
    if not error.filename:
        return f": {error.strerror}" if error.strerror else ""
    name = inputs.name_of(os.fsdecode(error.filename))
    return f": {printable(name)} ({'it is a folder' if os.path.isdir(name) else error.strerror})"


def unread(paths: Sequence[str]) -> str:
    """Which of these inputs can't be read, and why; of a copy that was made for a run nothing."""
    for it in paths:
        if inputs.is_gone(it):
            continue
        try:
            with open(it, "rb", opener=lambda path, _: os.open(path, os.O_RDONLY | os.O_NONBLOCK)):
                pass
        except OSError as error:
            return named(error)
    return ""


def answer(words: List[str]) -> Tuple[int, str]:
    """The status and the text of a command's words."""
    command = COMMANDS.get(words[0]) if words else None
    given = taken(command, words[1:]) if command else None
    if command is None or given is None:
        status, text = program.ended(*words)
        return status, text
    module = importlib.import_module(f"view.{command.module}")
    count = len(given.paths) if command.most_inputs is None else command.most_inputs
    paths = [
        inputs.read(it).path if command.has_inputs and at < count and inputs.is_file(it) else it
        for at, it in enumerate(given.paths)
    ]
    answer: Tuple[int, str] = module.answer(*paths, **given.options)
    return answer


def places(
    program_path: str,
    words: Sequence[str],
    status: int,
    is_as_it_was: Optional[Callable[[], bool]] = None,
) -> None:
    """Behind a command of the program that ended with status 3 or 4: says on standard error where
    its input is wrong, and what could have stood there. It never raises, changes nothing, and says
    nothing where it knows nothing: of an input that can't be read twice, or that isn't what it was
    for the program, as `is_as_it_was` tells once it is read."""
    try:
        program.use(program_path)
        words = [
            words[0],
            *[inputs.read(it).path if os.path.isfile(it) else it for it in words[1:3]],
        ]
        if is_as_it_was is None or is_as_it_was():
            say(REFUSED[status](words))
    except Exception:  # The program has refused its input, and nothing here may hide that.
        pass


def refused_specification(words: Sequence[str]) -> str:
    """What is said of a specification that a command refused. Each command refuses it alike."""
    from view import further_slips, slips

    path = words[1]
    if not os.path.isfile(path):
        return ""
    text, refusal = inputs.text_of(path), program.run("spell", path)[1].strip()
    if not refusal.startswith(slips.BEGIN):
        return ""
    return slips.tell_all(inputs.name_of(path), text, further_slips.all_slips(text, refusal))


def refused_input(words: Sequence[str]) -> str:
    """What is said of a report, a schedule or a step of a schedule that a command refused."""
    from view import refused_report, schedule, slips
    from view.tree import Spec

    command, spec_path, path = words[:3]
    if not (os.path.isfile(spec_path) and os.path.isfile(path)):
        return ""
    answer, text = program.run(command, spec_path, path)[1], inputs.text_of(path)
    if answer.startswith(refused_report.BEGIN):
        slip = refused_report.slip_of(text, answer[len(refused_report.BEGIN) :].strip())
    elif len(text) > slips.MOST_PLACED:
        said = next(it for it in answer.splitlines() if it.startswith("refused "))
        return slips.without_place(inputs.name_of(path), said)
    elif answer.startswith(schedule.BEGIN):
        slip = schedule.slip_of(
            Spec(inputs.text_of(spec_path)), text, answer[len(schedule.BEGIN) :].strip()
        )
    else:
        slip = schedule.refused_step(Spec(inputs.text_of(spec_path)), text, answer)
    return slips.shown(inputs.name_of(path), text, slip)


REFUSED = {3: refused_specification, 4: refused_input}
