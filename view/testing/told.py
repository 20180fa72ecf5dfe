"""What people and pipelines are told of failed cases."""
import re
from typing import List
from xml.sax.saxutils import escape, quoteattr

from view.testing.form import Case, Step, Tests
from view.testing.running import Difference, Outcome

# Characters that a file of XML can't have.
UNWRITABLE = re.compile("[\x00-\x08\x0b\x0c\x0e-\x1f\ud800-\udfff\ufffe\uffff]")


def story(specification: str, case: Case, difference: Difference) -> str:
    """A failing case as a story: a column for each replica, and what was expected and found."""
    lines = [f"failed: {case.name}", ""]
    lines += drawn(case, difference.step)
    lines += ["", f"  step {difference.step}, {case.steps[difference.step].words()}"]
    lines += [f"    expected: {it}" for it in difference.expected]
    lines += [f"    found:    {it}" for it in difference.found]
    return "\n".join(lines) + "\n\n"


def drawn(case: Case, last: int) -> List[str]:
    """The steps of a case, each in its replica's column."""
    texts = [short(it) for it in case.steps[: last + 1]]
    width = max([len(it) for it in texts] + [9]) + 3
    lines = [
        "      " + "".join(f"replica {it}".ljust(width) for it in range(case.replicas)).rstrip()
    ]
    for number, (step, text) in enumerate(zip(case.steps, texts)):
        mark = ">" if number == last else " "
        lines.append(f"  {mark}{number:2}  " + " " * (width * step.replica) + text)
    return lines


def short(step: Step) -> str:
    """A step in its replica's column."""
    if step.operation is None:
        return f"takes {step.id}"
    arguments = ", ".join(str(it) for it in step.arguments.values())
    refused = "" if step.answer == "ok" else f"   [{step.answer}]"
    return f"{step.id}: {step.operation}({arguments}){refused}"


def junit(tests: Tests, outcomes: List[Outcome]) -> str:
    """The outcomes in the form of JUnit, which pipelines read."""
    failures = sum(it.difference is not None for it in outcomes)
    seconds = sum(it.seconds for it in outcomes)
    head = f'tests="{len(outcomes)}" failures="{failures}" errors="0" time="{seconds:.3f}"'
    rows = [row for it in outcomes for row in case_rows(tests, it)]
    name = attribute(tests.title or "cise")
    return "\n".join(
        [
            '<?xml version="1.0" encoding="UTF-8"?>',
            f"<testsuites {head}>",
            f"<testsuite name={name} {head}>",
            *rows,
            "</testsuite>",
            "</testsuites>",
            "",
        ]
    )


def case_rows(tests: Tests, outcome: Outcome) -> List[str]:
    """The rows of a case."""
    case, difference = outcome.case, outcome.difference
    head = f"<testcase classname={attribute(tests.title or 'cise')} name={attribute(case.name)}"
    if difference is None:
        return [f'{head} time="{outcome.seconds:.3f}"/>']
    message = attribute(f"step {difference.step}: another {difference.what}")
    body = escape(plain(story(tests.specification, case, difference)))
    return [
        f'{head} time="{outcome.seconds:.3f}">',
        f"<failure message={message}>{body}</failure>",
        "</testcase>",
    ]


def attribute(text: str) -> str:
    """A text as an attribute of XML."""
    return quoteattr(plain(text))


def plain(text: str) -> str:
    """A text without what XML can't have."""
    return UNWRITABLE.sub("\ufffd", text)
