"""A page on a replay: how it ended, its picture, and the same as a table."""
from __future__ import annotations

import json

from view import lanes, program
from view.given import given
from view.inputs import text_of
from view.parts import (
    banner,
    code,
    foot,
    head,
    listed,
    scrolling,
    sheet,
    shown,
    title_of,
    user_lines,
    whole_text,
    with_code,
)
from view.picture import short_names
from view.steps import Step, Steps
from view.tree import Spec

STATES = {"done": "proved", "broken": "refuted", "refused": "refused"}


def answer(path: str, schedule_path: str) -> tuple[int, str]:
    """The status and the page. A step that is refused does give a page."""
    status, text = program.replayed(path, schedule_path)
    return status, page_of(
        Steps(Spec(text_of(path)), json.loads(text_of(schedule_path)), text),
        title_of(path, schedule_path),
    )


def page_of(steps: Steps, title: str) -> str:
    spec = steps.spec
    names = {*map(str, [*spec.relations, *spec.counters, *spec.invariants, *spec.operations])}
    word = steps.replay.stop[0]
    body = [
        head(spec, title, "Replay of a schedule"),
        banner(STATES[word], word, f"<p>{with_code(ended(steps), names)}</p>"),
    ]
    body.append(
        user_lines(
            [it for it in (steps.line, spec.invariants.get(steps.broken or "")) if it],
            spec.version,
            STATES[word],
        )
    )
    note = (
        f'<p class="note">Steps 0 to {steps.first - 1} are left out here.</p>'
        if steps.first
        else ""
    )
    picture = scrolling(
        "Picture of the replay",
        f'<figure class="replay">{lanes.pictures(steps, short_names(spec))}</figure>',
    )
    body.append(f'<section><h2 id="picture">What the replicas did</h2>{note}{picture}</section>')
    body.append(
        '<section><details class="fold" id="table"><summary><b>The same as a table</b></summary>'
        f'{note}{scrolling("The steps as a table", table(steps))}{ends(steps)}</details></section>'
    )
    body += [whole_text(spec), foot(spec, "Steps, refusals and states are the program's.")]
    return sheet(title, body, lanes.is_broad(steps))


def ended(steps: Steps) -> str:
    """How the replay ended, in a sentence or two."""
    count, left, stop = len(steps.accepted), steps.left(), steps.replay.stop
    rest = (
        f" {'The one step that follows was' if left == 1 else f'The {left} steps that follow were'}"
        " not replayed."
        if left
        else ""
    )
    if stop[0] == "done":
        return (
            f"{'The one step was' if count == 1 else f'All {count} steps were'} accepted, and no"
            " invariant broke."
        )
    if stop[0] == "refused":
        return f"Step {stop[1]} is refused: {steps.why()}{rest}"
    if stop[1] == "start":
        return f"The invariant {steps.broken} is false at the start.{rest}"
    return (
        f"After step {stop[1]} the invariant {steps.broken} is false at replica"
        f" {steps.accepted[-1].replica}.{rest}"
    )


def table(steps: Steps) -> str:
    rows = "".join(row(steps, it) for it in steps.drawn())
    heads = "".join(
        f'<th scope="col">{it}</th>'
        for it in ("step", "replica", "what happens", "what changes there")
    )
    return f'<table class="steps"><thead><tr>{heads}</tr></thead><tbody>{rows}</tbody></table>'


def row(steps: Steps, step: Step) -> str:
    """A step in the table."""
    state, said = "", [code(it) for it in step.changes or []] or ["nothing"]
    if step is steps.refused:
        state, said = "refused", [shown(f"refused: {steps.briefly()}")]
    elif steps.broken and step is steps.accepted[-1]:
        state, said = "refuted", said + [shown(f"breaks {steps.broken}")]
    what = "calls" if step.kind == "call" else "takes"
    what += f" {code(step.what())}" if step.operation else ""
    what += (
        ""
        if step.kind == "call" and step is steps.refused
        else f' <span class="log">call {step.event}</span>'
    )
    return (
        f'<tr class="{state}"><th'
        f' scope="row">{step.number}</th><td>{step.replica}</td><td>{what}</td>'
        f'<td>{", ".join(said)}</td></tr>'
    )


def ends(steps: Steps) -> str:
    """What each replica holds at the end."""
    out = []
    for at, (taken, state) in enumerate(zip(steps.replay.taken, steps.replay.states)):
        facts = steps.names.facts(state)
        held = listed(facts) if facts else "<p>Nothing is true, and every counter is 0.</p>"
        out.append(
            f'<p>At the end replica {at} has taken {taken} call{"" if taken == 1 else "s"}, its own'
            f" among them, and holds:</p>{held}"
        )
    return "".join(out)
