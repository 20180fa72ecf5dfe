"""`./cise json SPEC`: all that is told of a specification, as JSON: the report with the place
and the story of each refuted or undecided obligation, on what pairs are ordered, what `suggest`
says, the text of `mend`, and the runs of `reach`. Of a specification that the program refuses
its slips. docs/users/JSON.md has the form."""
from typing import Any, Dict, List, Optional, Tuple

from view import facts, order, program
from view.further_slips import all_slips
from view.inputs import name_of, text_of
from view.mend import mended
from view.order import GROUPS, Advice, Condition, Pair
from view.places import Finding, Span, findings, line_span
from view.reach import SECONDS
from view.run_text import tried
from view.reaching import Found, Reach
from view.report import Report, Suggestion
from view.review import reviewed
from view.runs import Effort
from view.slips import BEGIN, Slip
from view.story import Call, Story
from view.tree import Spec
from view.words import words

Facts = Dict[str, Any]
REFUSED = 3


def is_design(path: str, text: str) -> bool:
    """Whether a file is meant as a specification: by its first words, or by its name."""
    return words(text[:400])[:2] in (["cise", "1"], ["cise", "2"]) or name_of(path).endswith(
        ".cise"
    )


def answer(path: str, quick: bool = False) -> Tuple[int, str]:
    """The status of `check`, and the JSON; 3 with the slips of a specification that is refused."""
    status, said = program.run("check", path)
    if status == REFUSED and said.startswith(BEGIN):
        return status, facts.laid_out(refused_facts(path, said.strip()))
    if status not in (0, 1, 5):
        raise program.Stopped(["check", path], status, said)
    return status, facts.laid_out(design_facts(path, said, not quick))


def refused_facts(path: str, refusal: str) -> Facts:
    """A specification that is refused: the program's line, and the slips."""
    text = text_of(path)
    found = all_slips(text, refusal)
    slips = [
        slip_facts(text, it, "program" if not at else "further") for at, it in enumerate(found)
    ]
    return {
        "text": "refused",
        "version": 1,
        "path": name_of(path),
        "refusal": refusal[len(BEGIN) :],
        "slips": slips,
    }


def slip_facts(text: str, slip: Slip, named_by: str) -> Facts:
    """A slip with its place, and what it proposes to write."""
    span = Span(slip.line, slip.column, slip.line, slip.column + slip.length)
    found = {
        "named_by": named_by,
        "span": span_facts(span),
        "message": slip.message,
        "more": slip.more,
        "write": None,
    }
    if slip.fix:
        start, end, new = slip.fix
        found["write"] = {
            "span": span_facts(Span(*row_of(text, start), *row_of(text, end))),
            "text": new,
        }
    return found


def row_of(text: str, at: int) -> Tuple[int, int]:
    """The line and the column of a place, from 1."""
    return text.count("\n", 0, at) + 1, at - text.rfind("\n", 0, at)


def span_facts(span: Span) -> Facts:
    """Lines and columns from 1; the end is behind the last letter."""
    return {
        "line": span.line,
        "column": span.column,
        "end_line": span.end_line,
        "end_column": span.end_column,
    }


def design_facts(path: str, said: str, with_reach: bool) -> Facts:
    """All that is told of a specification whose report this is."""
    spec, report = Spec(text_of(path)), Report(said)
    checked = facts.report_facts(said)
    placed = {it.obligation: it for it in findings(name_of(path), spec, report)}
    for block, found in zip(report.blocks, checked["obligations"]):
        # (logs are for verifiers, and the report has them)
        found.pop("log", None)
        if block.words() in placed:
            found["span"] = span_facts(placed[block.words()].span)
    suggested = program.answer("suggest", path)[1]
    status, text, told = mended(path)
    return {
        "text": "design",
        "version": 1,
        "path": name_of(path),
        "check": checked,
        "explain": [story_facts(spec, report, it) for it in placed.values()],
        "suggest": facts.suggestion_facts(suggested),
        "order": order_facts(spec, report, Suggestion(suggested)),
        "mend": {"status": status, "text": text, "said": told.splitlines()},
        "reach": reach_facts(spec, report) if with_reach else None,
        "review": review_facts(spec, report) if with_reach else None,
    }


def review_facts(spec: Spec, report: Report) -> Facts:
    """What a yes leaves open, and the lines that the design could do without."""
    found, spare = (
        [{"span": span_facts(it.span), "kind": it.kind, "sentence": it.sentence} for it in rows]
        for rows in reviewed(spec, report)
    )
    return {"doubts": found, "lines": spare}


def reach_facts(spec: Spec, report: Report) -> List[Facts]:
    """For each refutation the schedule of a run that leads to its harm, or how far was looked."""
    blocks, effort = report.with_verdict("refuted"), Effort(seconds=SECONDS)
    with Reach(spec, blocks) as found:
        return [run_facts(spec, it) for it in found.all(effort)]


def run_facts(spec: Spec, found: Found) -> Facts:
    """What was found for a refutation."""
    told: Facts = {
        "obligation": found.block.words(),
        "calls": None,
        "schedule": None,
        "harm": None,
        "said": [],
    }
    if not found.run:
        return {**told, "said": tried(spec, found)}
    return {
        **told,
        "calls": len(found.run.calls()),
        "schedule": found.run.schedule,
        "harm": found.run.harm,
    }


def story_facts(spec: Spec, report: Report, found: Finding) -> Facts:
    """The story of an obligation that isn't proved, with its place."""
    story = Story(spec, found.block, report.budget)
    related = [{"span": span_facts(it.span), "sentence": it.sentence} for it in found.related]
    told = {
        "obligation": found.obligation,
        "kind": found.kind,
        "verdict": found.verdict,
        "sentence": found.sentence,
        "span": span_facts(found.span),
        "related": related,
        "lines": [{"span": span_facts(line_span(it)), "text": it.text} for it in story.lines],
    }
    if found.verdict == "undecided":
        return {**told, "limit": story.limit, "try": story.todo}
    return {**told, **refuted_facts(story)}


def refuted_facts(story: Story) -> Facts:
    """What the story of a refutation shows, in its names of elements."""
    ends: Optional[List[List[str]]] = None
    if story.ends:
        ends = [story.names.facts(it) for it in story.ends]
    return {
        "before": story.facts + story.also,
        "calls": [call_facts(it) for it in story.calls],
        "ends": ends,
        "ending": story.ending(),
        "where": dict(story.where),
        "readings": [{"reading": reading, "value": value} for reading, value, _ in story.readings],
        "notes": [it for it in (story.untold, story.observed()) if it],
    }


def call_facts(call: Call) -> Facts:
    """A call with its named arguments."""
    return {"operation": str(call.op), "arguments": {str(name): value for name, value in call.args}}


def order_facts(spec: Spec, report: Report, suggestion: Suggestion) -> List[Facts]:
    """Each pair of operations: its state in the report, on what it is ordered, and what `order`
    says of that."""
    pairs = order.pairs(spec, report.blocks)
    return [pair_facts(pairs[it.left, it.right], Advice(it)) for it in suggestion.pairs]


def pair_facts(pair: Pair, advice: Advice) -> Facts:
    """A pair with its conditions."""
    group = advice.group(pair)
    return {
        "left": str(pair.f),
        "right": str(pair.g),
        "state": pair.state(),
        "ordered": [condition_facts(it) for it in pair.conditions],
        "said": GROUPS[group].rstrip(":") if group else "May run at once",
    }


def condition_facts(condition: Condition) -> Facts:
    """A condition: the equalities that all hold, and the lines of its rules."""
    equalities = [[argument_facts(a), argument_facts(b)] for a, b in condition.equalities]
    return {"equalities": equalities, "rules": condition.rules}


def argument_facts(argument: Tuple[Optional[str], str]) -> Facts:
    """A parameter of the left or the right call, or a constant."""
    side, name = argument
    return {"of": {"f": "left", "g": "right", None: "constant"}[side], "name": str(name)}
