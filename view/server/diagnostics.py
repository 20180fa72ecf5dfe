"""Slips and verdicts as an editor shows them: a diagnostic for each, with its place."""
from typing import Any, Dict, List

from view.doubts import Doubt
from view.further_slips import MOST_TOLD
from view.places import Finding, findings, word_span
from view.report import Report
from view.server.documents import Document
from view.slips import Slip
from view.story import Names
from view.tree import Spec

Diagnostic = Dict[str, Any]
ERROR, WARNING, INFORMATION, HINT = 1, 2, 3, 4
SOURCE = "cise"
# No editor shows more at one place, and a design of 24 operations may have thousands.
MOST_SHOWN = 500
BEHIND = "found with what is wrong elsewhere left out; the program stops at the first place"


def of_slips(document: Document, found: List[Slip], refusal: str) -> List[Diagnostic]:
    """The slips of a text; the first is the program's own."""
    return [
        of_slip(document, it, refusal.split()[2] if not at else "further")
        for at, it in enumerate(found[:MOST_TOLD])
    ]


def of_slip(document: Document, slip: Slip, code: str) -> Diagnostic:
    """A slip: its message, what else is said of it, and for one behind the first that it is
    such."""
    start = document.at_row(slip.line, slip.column)
    more = [it for it in (slip.more, BEHIND if code == "further" else None) if it]
    return {
        "range": document.range(start, start + slip.length),
        "severity": ERROR,
        "source": SOURCE,
        "code": code,
        "message": "\n".join([slip.message, *more]),
    }


def of_verdicts(document: Document, spec: Spec, report: Report) -> List[Diagnostic]:
    """The refuted and undecided obligations of a report."""
    return [
        of_finding(document, spec, it) for it in findings(document.uri, spec, report)[:MOST_SHOWN]
    ]


def of_finding(document: Document, spec: Spec, found: Finding) -> Diagnostic:
    """A finding at its line, with the calls of the witness as related information."""
    return {
        "range": document.span_range(found.span),
        "severity": ERROR if found.verdict == "refuted" else WARNING,
        "source": SOURCE,
        "code": found.obligation,
        "message": f"{found.verdict}: {found.sentence}",
        "relatedInformation": related(document, spec, found),
    }


def of_review(document: Document, doubts: List[Doubt], spare: List[Doubt]) -> List[Diagnostic]:
    """What a yes leaves open, as hints; doubts are told apart from lines to think of."""
    rows = [(it, INFORMATION) for it in doubts] + [(it, HINT) for it in spare]
    return [
        {
            "range": document.span_range(it.span),
            "severity": severity,
            "source": SOURCE,
            "code": it.kind,
            "message": f"{it.kind}: {it.sentence}",
        }
        for it, severity in rows[:MOST_SHOWN]
    ]


def related(document: Document, spec: Spec, found: Finding) -> List[Dict[str, Any]]:
    """The calls that refute it, each at its operation, and further lines that it is about."""
    said = [(it.span, it.sentence) for it in found.related]
    if found.block.witness:
        said = called(spec, found) + [it for it in said if it[1] == "changes it too"]
    return [
        {"location": {"uri": document.uri, "range": document.span_range(span)}, "message": message}
        for span, message in said
    ]


def called(spec: Spec, found: Finding) -> List[Any]:
    """The calls of a witness with their arguments, and what holds before them."""
    witness = found.block.witness
    if witness is None:
        return []
    names = Names(spec, witness.consts)
    facts = names.facts(witness.state)
    held = f", where {', '.join(facts[:4])}{' ..' if len(facts) > 4 else ''}" if facts else ""
    rows = []
    for who, (name, arguments) in zip("AB", witness.calls):
        operation = spec.operations[name]
        values = ", ".join(
            f"{it} = {names.element(sort, value)}"
            for (it, sort), value in zip(operation.params, arguments)
        )
        rows.append(
            (
                word_span(operation.name),
                f"{who if len(witness.calls) > 1 else 'call'}: {name}({values}){held}",
            )
        )
    return rows
