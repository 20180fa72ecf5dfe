"""`./cise reach SPEC [--all DIR] [--seconds N] [--mended]`: looks for calls that lead from the
initial state to the harm of each refutation.

Standard output gets the schedule of the worst harm found, which `replay`, `simulate` and `page`
take; with `--all` a folder gets one for each refutation. Standard error says what was found, and of
what wasn't how far was looked. What was tried and not found isn't claimed to be beyond reach."""
import json
import os
from typing import Dict, List, Optional, Tuple

from view import mend, program
from view.columns import wrapped
from view.cure import carried_out
from view.harms import Run
from view.inputs import text_of
from view.output import printable, say
from view.reaching import Found, Reach
from view.report import Block, Report
from view.run_text import count_of, told, tried
from view.runs import Effort
from view.story import numbered, title
from view.tree import Spec

FOUND, BAD_WORDS, NOTHING_REFUTED, NONE_FOUND, NOT_WRITTEN = 1, 2, 0, 5, 7
SECONDS = 20.0


def answer(path: str, **options: object) -> Tuple[int, str]:
    """The status and the schedule of the worst harm found. `all`, `seconds` and `mended` are the
    options."""
    seconds = seconds_of(options.get("seconds"))
    if seconds is None:
        say("cise: --seconds takes a number of seconds that is above 0, as in --seconds 60\n")
        return BAD_WORDS, ""
    _, text = program.answer("check", path)
    spec, report = Spec(text_of(path)), Report(text)
    numbers = {it: at for it, at in numbered(spec, report).items() if it.verdict == "refuted"}
    if not numbers:
        say("reach: nothing is refuted, so there is nothing to look for\n")
        return NOTHING_REFUTED, ""
    found = searched(spec, numbers, seconds)
    runs = [it.run for it in found if it.run]
    mended = str(mend.answer(path)[1]) if options.get("mended") and runs else None
    if mended is not None:
        say("".join(line + "\n" for line in cured(mended, found, numbers)))
    folder = options.get("all")
    if isinstance(folder, str) and not all_written(folder, found, numbers):
        return NOT_WRITTEN, ""
    if not runs:
        return NONE_FOUND, ""
    best = min(runs, key=Run.rank)
    of = next(it.block for it in found if it.run is best)
    say(f"reach: the schedule is that of {numbers[of]}, {of.words()}\n")
    return FOUND, written_schedule(best)


def seconds_of(said: object) -> Optional[float]:
    """The seconds that the words say; None where they say none."""
    if said is None:
        return SECONDS
    try:
        seconds = float(str(said))
    except ValueError:
        return None
    return seconds if 0 < seconds < float("inf") else None


def searched(spec: Spec, numbers: Dict[Block, int], seconds: float) -> List[Found]:
    """What is found for each refutation, told as soon as it is known; `numbers` are those of their
    stories."""
    effort, found = Effort(seconds=seconds), []  # type: Effort, List[Found]
    with Reach(spec, list(numbers)) as reach:
        for goal in reach.goals:
            found.append(reach.shared(goal, effort, len(numbers) - len(found)))
            head = f"{numbers[goal.block]}. {title(goal.block)}"
            lines = [head, f"   [{goal.block.words()}]", *found_told(spec, found[-1]), ""]
            say("".join(line + "\n" for line in lines))
    runs = sum(it.run is not None for it in found)
    say(
        f"reach: runs were found to {runs} of {count_of(len(found), 'refutation', 'refutations')}\n"
    )
    return found


def found_told(spec: Spec, found: Found) -> List[str]:
    """What was found for a refutation, as lines."""
    if found.run:
        calls = len(found.run.calls())
        head = (
            f"This comes up, by {count_of(calls, 'call', 'calls')}:"
            if calls
            else "This comes up before any call."
        )
        return [*wrapped(head, 2), *told(spec, found.run, 2)]
    return [line for it in tried(spec, found) for line in wrapped(it, 2)]


def cured(mended: str, found: List[Found], numbers: Dict[Block, int]) -> List[str]:
    """What becomes of each run's calls in the mended specification."""
    spec, lines = Spec(mended), []  # type: Spec, List[str]
    for it in found:
        if it.run:
            head = f"{numbers[it.block]}. the same calls, mended   [{it.block.words()}]"
            lines += [head, "", *carried_out(spec, it.run), ""]
    return lines


def all_written(folder: str, found: List[Found], numbers: Dict[Block, int]) -> bool:
    """Writes each schedule into a folder, and says whether it could."""
    try:
        os.makedirs(folder, exist_ok=True)
        for it in found:
            if it.run:
                name = "_".join([str(numbers[it.block]), it.block.kind, *it.block.names])
                path = os.path.join(folder, f"{name}.json")
                with open(path, "w", encoding="utf-8") as file:
                    file.write(written_schedule(it.run))
                say(f"reach: {printable(path)}\n")
    except OSError as error:
        say(f"cise: {printable(folder)} can't be written: {error.strerror}\n")
        return False
    return True


def written_schedule(run: Run) -> str:
    """A schedule as JSON, a line for each step."""
    parts = [
        f"  {json.dumps(key)}: {json.dumps(run.schedule[key])}"
        for key in ("sizes", "constants", "replicas")
    ]
    steps = ",\n".join(f"    {json.dumps(it)}" for it in run.steps())
    return (
        "{\n"
        + ",\n".join([*parts, f'  "steps": [\n{steps}\n  ]' if steps else '  "steps": []'])
        + "\n}\n"
    )
