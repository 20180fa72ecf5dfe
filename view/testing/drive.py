"""`./cise drive TESTS -- COMMAND ..`: carries cases out against an implementation."""
import sys
from typing import List, Optional, Tuple

from view.output import say
from view.testing.adapter import Adapter, Failed
from view.testing.expected import Judge
from view.testing.form import MOST_BYTES, Case, NotTests, Tests, tests_of
from view.testing.running import Difference, Outcome, carried_out, difference_of
from view.testing.shrinking import shrunk
from view.testing.told import junit, story
from view.words import text_of

PASSED, FAILED, BAD_WORDS, NOT_OF_FORM, NOT_WRITTEN = 0, 1, 2, 4, 7
SECONDS = 10.0


def answer(
    path: str,
    junit: Optional[str] = None,
    seconds: Optional[str] = None,
    rest: Optional[List[str]] = None,
) -> Tuple[int, str]:
    """The status, and a line for each case that failed with its story."""
    limit = limit_of(seconds)
    if not rest or limit is None:
        say("cise: drive TESTS [--junit OUT] [--seconds N] -- COMMAND ..; N is above 0\n")
        return BAD_WORDS, ""
    try:
        tests = tests_of(text_of(path, MOST_BYTES + 1))
    except NotTests as error:
        say(f"{path}: {error}\n")
        return NOT_OF_FORM, ""
    with Adapter(rest, limit) as adapter:
        return driven(adapter, tests, junit)


def limit_of(seconds: Optional[str]) -> Optional[float]:
    """The seconds for each question, or None where the word is no such number."""
    try:
        limit = float(seconds) if seconds is not None else SECONDS
    except ValueError:
        return None
    return limit if 0 < limit < 1e6 else None


def driven(adapter: Adapter, tests: Tests, junit_path: Optional[str]) -> Tuple[int, str]:
    """Carries all cases out; where one fails, the first one that does is made shorter."""
    outcomes: List[Outcome] = []
    try:
        for case in tests.cases:
            outcomes.append(carried_out(adapter, case))
            progress(len(outcomes), len(tests.cases))
    except Failed as error:
        case_ = tests.cases[len(outcomes)]
        say(f"cise: the adapter failed in the case {case_.name!r}: {error}\n")
        return NOT_OF_FORM, ""
    failed = [it for it in outcomes if it.difference]
    if junit_path and not has_written(junit_path, junit(tests, outcomes)):
        return NOT_WRITTEN, ""
    steps = sum(len(it.steps) for it in tests.cases)
    end = f"{len(outcomes) - len(failed)} passed, {len(failed)} failed, {steps} steps\n"
    return (FAILED if failed else PASSED), told(adapter, tests, failed) + end


def told(adapter: Adapter, tests: Tests, failed: List[Outcome]) -> str:
    """The first case that failed as a story, as short as it can be made, and the others by a
    line."""
    lines = []
    for number, it in enumerate(failed):
        assert it.difference is not None
        if number == 0:
            case, difference = shortest(adapter, tests, it.case, it.difference)
            lines.append(story(tests.specification, case, difference))
        else:
            lines.append(
                f"failed: {it.case.name}, step {it.difference.step}: {it.difference.what}\n"
            )
    return "".join(lines)


def shortest(
    adapter: Adapter, tests: Tests, case: Case, difference: Difference
) -> Tuple[Case, Difference]:
    """A case made shorter, where the program can say what the shorter ones have to answer."""
    if not tests.specification:
        return case, difference
    judge = Judge(tests.specification)
    try:
        return shrunk(case, difference, judge.expected, lambda it: difference_of(adapter, it))
    except Failed:
        return case, difference
    finally:
        judge.close()


def has_written(path: str, text: str) -> bool:
    """Writes a file, and says whether it could."""
    try:
        with open(path, "w", encoding="utf-8") as file:
            file.write(text)
        return True
    except OSError as error:
        say(f"cise: {path} can't be written: {error.strerror}\n")
        return False


def progress(done: int, whole: int) -> None:
    """Says on a terminal how far it is."""
    if sys.stderr is not None and sys.stderr.isatty():
        say(f"\rcise: {done} of {whole} cases" + ("\n" if done == whole else ""))
