"""Results as SARIF 2.1.0, the form in which GitHub, GitLab and editors take the findings of a tool
(OASIS Standard, "Static Analysis Results Interchange Format (SARIF) Version 2.1.0")."""
import hashlib
import json
import os
from typing import Dict, List, Optional
from urllib.parse import quote

from launch.version import VERSION
from view.doubts import Doubt
from view.judged import Judged
from view.places import Finding, Span
from view.slips import Slip
from view.words import encoded

SCHEMA = "https://json.schemastore.org/sarif-2.1.0.json"
# What a finding is of: the four kinds of obligations, a text that is refused, and remarks on a
# design.
RULES = {
    "init": ("StartBreaksInvariant", "An invariant is false at the start."),
    "safety": ("CallBreaksInvariant", "A call alone makes an invariant false."),
    "commute": (
        "OrderMatters",
        "Two calls that don't know of each other give different states in different orders.",
    ),
    "stable": (
        "CallLosesItsGround",
        "A call takes away what another one requires, and neither knows of the other.",
    ),
    "slip": ("NoSpecification", "The text is no specification."),
    "review": ("Remark", "Something about a design is worth a look, whatever its verdict."),
}
LEVELS = {"refuted": "error", "undecided": "warning"}
# Of what a fingerprint is made. A change of that is another version.
FINGERPRINT = "obligation/v1"

Object = Dict[str, object]


def text_of(found: List[Judged]) -> str:
    """The text of a file."""
    return json.dumps(log(found), indent=2, ensure_ascii=False) + "\n"


def log(found: List[Judged]) -> Object:
    """A log with one run, of all specifications."""
    results = [result for it in found for result in results_of(it)]
    unread = [notification(it) for it in found if it.why]
    invocation: Object = {"executionSuccessful": not unread}
    if unread:
        invocation["toolExecutionNotifications"] = unread
    run: Object = {
        "tool": {"driver": driver()},
        "columnKind": "unicodeCodePoints",
        "invocations": [invocation],
        "results": results,
    }
    return {"$schema": SCHEMA, "version": "2.1.0", "runs": [run]}


def driver() -> Object:
    """The tool, with its rules."""
    rules = [rule(name, *texts) for name, texts in RULES.items()]
    return {"name": "cise", "version": VERSION, "semanticVersion": VERSION, "rules": rules}


def rule(name: str, title: str, text: str) -> Object:
    """A rule."""
    level = "note" if name == "review" else "error"
    return {
        "id": name,
        "name": title,
        "shortDescription": {"text": text},
        "defaultConfiguration": {"level": level},
    }


def results_of(it: Judged) -> List[Object]:
    """The results on a specification."""
    if it.slip:
        return [slip_result(it, it.slip)]
    return [*map(finding_result, it.findings), *(remark_result(it, one) for one in it.remarks)]


def finding_result(it: Finding) -> Object:
    """A refuted or undecided obligation."""
    message = f"{it.verdict}: {it.sentence}"
    found = result(it.kind, LEVELS[it.verdict], message, it.path, region(it.span), it.obligation)
    found["relatedLocations"] = [
        {"id": number, "message": {"text": one.sentence}, **location(it.path, region(one.span))}
        for number, one in enumerate(it.related, 1)
    ]
    return found


def remark_result(it: Judged, remark: Doubt) -> Object:
    """A remark on a design. Its fingerprint is of its kind and the words that it is about."""
    span = remark.span
    lines = it.text.split("\n")[span.line - 1 : span.end_line]
    of = f"{remark.kind}\0{' '.join(' '.join(lines).split())}\0{remark.sentence}"
    message = f"{remark.kind}: {remark.sentence}"
    return result("review", "note", message, it.path, region(span), of)


def slip_result(it: Judged, slip: Slip) -> Object:
    """A text that is refused. Its fingerprint is of the line as it stands, so that it survives
    moved lines."""
    line = it.text.split("\n")[slip.line - 1] if it.text else ""
    end = slip.column + max(1, slip.length)
    place: Object = {
        "startLine": slip.line,
        "startColumn": slip.column,
        "endLine": slip.line,
        "endColumn": end,
    }
    of = f"{' '.join(line.split())}\0{slip.message}"
    return result("slip", "error", slip.message, it.path, place, of)


def result(name: str, level: str, message: str, path: str, place: Object, of: str) -> Object:
    """A result of a rule at a place; `of` is what it is told apart by from others of the same
    file."""
    whole = hashlib.sha256(encoded(f"{uri_of(path)}\0{name}\0{of}")).hexdigest()
    return {
        "ruleId": name,
        "ruleIndex": list(RULES).index(name),
        "level": level,
        "message": {"text": shown(message)},
        "locations": [location(path, place)],
        "partialFingerprints": {FINGERPRINT: whole},
    }


def location(path: str, place: Object) -> Object:
    """A place in a file."""
    return {"physicalLocation": {"artifactLocation": {"uri": uri_of(path)}, "region": place}}


def region(span: Span) -> Object:
    """A piece of a text; its end is the place behind its last letter, as in `Span`."""
    return {
        "startLine": span.line,
        "startColumn": span.column,
        "endLine": span.end_line,
        "endColumn": span.end_column,
    }


def notification(it: Judged) -> Object:
    """Of a specification without a verdict why there is none."""
    place = {"physicalLocation": {"artifactLocation": {"uri": uri_of(it.path)}}}
    return {"level": "error", "message": {"text": shown(it.why)}, "locations": [place]}


def uri_of(path: str) -> str:
    """A path as a URI: relative to the folder of the call where it stands below that."""
    inside: Optional[str] = os.path.relpath(path)
    if inside is None or inside.split(os.sep)[0] == os.pardir:
        return "file://" + quote(os.fsencode(os.path.abspath(path)))
    return quote(os.fsencode(inside))


def shown(text: str) -> str:
    """A text without bytes that aren't UTF-8, which a file of JSON can't hold."""
    return text.encode("utf-8", "replace").decode("utf-8")
