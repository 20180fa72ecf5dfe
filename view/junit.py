"""Results as JUnit's XML, which nearly every pipeline reads: a suite for each specification, a test
case for each obligation. The form is that of Apache Ant's JUnit task, as Jenkins, GitLab and others
take it."""
from typing import Dict, List
from xml.sax.saxutils import escape, quoteattr

from view.judged import Judged
from view.places import Finding

HEAD = '<?xml version="1.0" encoding="UTF-8"?>\n'


def text_of(found: List[Judged]) -> str:
    """The text of a file."""
    suites = [suite(it) for it in found]
    whole = "".join(lines for lines in suites)
    return f'{HEAD}<testsuites name="cise">\n{whole}</testsuites>\n'


def suite(it: Judged) -> str:
    """The suite of a specification: its obligations, or one case where there is no report."""
    if it.report is None:
        return opened(it, 1, 0, 1) + bad_case(it) + "  </testsuite>\n"
    findings = {one.obligation: one for one in it.findings}
    cases = "".join(case(it.path, block.words(), findings) for block in it.report.blocks)
    counts = len(it.report.blocks), it.report.refuted, it.report.undecided
    return opened(it, *counts) + cases + "  </testsuite>\n"


def opened(it: Judged, tests: int, failures: int, errors: int) -> str:
    """The head of a suite."""
    counts = f'tests="{tests}" failures="{failures}" errors="{errors}" skipped="0"'
    return f'  <testsuite name={quoted(it.path)} {counts} time="{it.seconds:.3f}">\n'


def case(path: str, words: str, findings: Dict[str, Finding]) -> str:
    """An obligation: proved, or with a failure where it is refuted, with an error where it is
    undecided."""
    head = f"    <testcase classname={quoted(path)} name={quoted(words)}"
    it = findings.get(words)
    if it is None:
        return f"{head}/>\n"
    kind = "failure" if it.verdict == "refuted" else "error"
    told = f"{it.line()}\n{words}\ncise explain tells the whole story"
    return f"{head}>\n      {element(kind, it.verdict, it.sentence, told)}\n    </testcase>\n"


def bad_case(it: Judged) -> str:
    """The case of a specification without a report."""
    message, told = it.why, it.why
    if it.slip:
        message = it.slip.message
        told = f"{it.path}:{it.slip.line}:{it.slip.column}: {message}"
    inside = element("error", it.word, message, told)
    head = f'    <testcase classname={quoted(it.path)} name="specification">'
    return f"{head}\n      {inside}\n    </testcase>\n"


def element(kind: str, word: str, message: str, text: str) -> str:
    """A failure or an error."""
    return f"<{kind} type={quoted(word)} message={quoted(message)}>{escape(plain(text))}</{kind}>"


def quoted(text: str) -> str:
    """A text as an attribute."""
    return quoteattr(plain(text))


def plain(text: str) -> str:
    """A text without characters that XML can't hold."""
    return "".join(it if is_character(ord(it)) else "\ufffd" for it in text)


def is_character(code: int) -> bool:
    """Whether XML 1.0 has a character of this code (its production 2)."""
    return (
        code in (9, 10, 13) or 0x20 <= code <= 0xD7FF or 0xE000 <= code <= 0xFFFD or code >= 0x10000
    )
