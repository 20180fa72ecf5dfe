"""`./cise json FILE`: a report, a replay, a simulation or a suggestion of the program as JSON; of a
specification what `design_facts` tells. docs/users/JSON.md has the form. Of a text of the program
nothing is added and nothing is left out: the text is written anew from the JSON, and only what
gives the same text is taken for one of the program's."""
from __future__ import annotations

import io
import json
import re
from typing import Any, IO

from view.inputs import name_of, text_of
from view.output import printable, say
from view.report import (
    Answer,
    Block,
    Replay,
    Report,
    Simulation,
    State,
    SuggestedPair,
    Suggestion,
    Witness,
)

# For each kind of obligation how its words are called; of `operations` there are two.
PARTS = {
    "init": ["invariant"],
    "safety": ["operation", "invariant"],
    "commute": ["first", "second", "thing"],
    "stable": ["operation", "requires", "other"],
}
# For each cause of a refused step how the numbers behind it are called.
CAUSES = {
    "conflict": "event",
    "missing": "event",
    "precondition": "requires",
    "observation": "observes",
}
STATUS_OK, STATUS_REFUSED = 0, 4
# With longer texts it would take more memory than the program does.
MOST_CHARACTERS = 1 << 24
# What stands in no text of the program.
STRANGE = re.compile(r"[^A-Za-z0-9_+ \n-]")
# The last words of a text.
WORDS = {
    "report": ("accepted", "rejected", "undecided"),
    "suggest": ("complete", "undecided"),
    "replay": (None,),
    "simulate": (None,),
}


def answer(path: str, quick: bool = False) -> tuple[int, str]:
    """Status 0 and the JSON; status 4 and nothing for a file that is none of the program's texts,
    or one that is too long. Of a specification all that is told of it; `quick` leaves out the runs
    of `reach` and the review."""
    text, name = text_of(path), printable(name_of(path))
    if len(text) > MOST_CHARACTERS:
        say(f"{name}: json takes texts of at most {MOST_CHARACTERS:,} bytes\n")
        return STATUS_REFUSED, ""
    if not text.startswith(TEXTS) and design_facts.is_design(path, text):
        return design_facts.answer(path, quick)
    facts, line = facts_of(text)
    if facts is None:
        say(
            f"{name}:{line}:1: this is no report, replay, simulation or suggestion as the program"
            " writes it\n"
        )
        return STATUS_REFUSED, ""
    return STATUS_OK, laid_out(facts)


def laid_out(facts: dict[str, Any]) -> str:
    """The JSON, with each list of numbers in one line."""
    out = io.StringIO()
    write_value(out, facts, "\n")
    return out.getvalue() + "\n"


def write_value(out: IO[str], value: Any, end: str) -> None:
    """Writes a value as JSON. `end` is an end of line with the indent of the line in which the
    value begins."""
    if isinstance(value, dict) and value:
        for at, (key, it) in enumerate(value.items()):
            out.write(f"{',' if at else '{'}{end}  {json.dumps(key)}: ")
            write_value(out, it, end + "  ")
        out.write(end + "}")
    elif isinstance(value, list) and any(type(it) is not int for it in value):
        for at, it in enumerate(value):
            out.write(f"{',' if at else '['}{end}  ")
            write_value(out, it, end + "  ")
        out.write(end + "]")
    else:
        out.write(json.dumps(value))


def facts_of(text: str) -> tuple[dict[str, Any] | None, int | None]:
    """The facts of a text of the program, and None; or None, and the number of the line that isn't
    as it should be."""
    kind = next((it for it in READERS if text.startswith(f"cise {it} ")), None)
    strange = STRANGE.search(text)
    if not kind or strange:
        return None, text.count("\n", 0, given(strange).start()) + 1 if kind else 1
    try:
        facts = READERS[kind](text)
        ours = lines_from(facts)
    except (ValueError, IndexError, KeyError, AttributeError, TypeError):
        # A line that no text of the program has.
        return None, 1
    if "\n".join(ours) + "\n" != text:
        theirs = text.split("\n")
        return None, next(
            (at for at, (a, b) in enumerate(zip(ours, theirs), 1) if a != b),
            min(len(ours), len(theirs)) + 1,
        )
    return (facts, None) if facts.get("word") in WORDS[kind] else (None, len(ours))


def report_facts(text: str) -> dict[str, Any]:
    report = Report(text)
    counts = {"proved": report.proved, "refuted": report.refuted, "undecided": report.undecided}
    blocks = [block_facts(it) for it in report.blocks]
    return {
        "text": "report",
        "version": report.version,
        "budget": report.budget,
        "obligations": blocks,
        **counts,
        "word": report.word,
    }


def block_facts(block: Block) -> dict[str, Any]:
    """An obligation with its verdict."""
    found: dict[str, Any] = {"line": block.line_in_report, "kind": block.kind}
    found.update(zip(PARTS[block.kind], block.names))
    if block.kind == "stable":
        found["requires"] = int(found["requires"])
    found["verdict"] = block.verdict
    if block.verdict == "refuted":
        found["witness"] = witness_facts(given(block.witness))
    elif block.verdict == "proved":
        found["log"] = block.log
    else:
        found["limit"], found["log"], found["evidence"] = (
            block.why,
            block.log[: block.count],
            block.log[block.count :],
        )
    return found


def witness_facts(witness: Witness) -> dict[str, Any]:
    calls = [
        {"operation": operation, "arguments": arguments} for operation, arguments in witness.calls
    ]
    return {
        "sizes": witness.sizes,
        "constants": witness.consts,
        **state_facts(witness.state),
        "calls": calls,
        "at": witness.at,
    }


def state_facts(state: State) -> dict[str, Any]:
    """What is true and what isn't 0, in the order of the text."""
    true = [
        {"relation": thing, "elements": list(at)}
        for thing, at, value in state.listed
        if value is None
    ]
    count = [
        {"counter": thing, "elements": list(at), "value": value}
        for thing, at, value in state.listed
        if value is not None
    ]
    return {"true": true, "count": count}


def replay_facts(text: str) -> dict[str, Any]:
    replay = Replay(text)
    steps = [
        {"step": at, "replica": replica, kind: event}
        for at, (replica, kind, event) in enumerate(replay.steps)
    ]
    return {"text": "replay", "version": 1, "steps": steps, **end_facts(replay)}


def simulation_facts(text: str) -> dict[str, Any]:
    simulation = Simulation(text)
    steps = [
        {"step": step, "replica": replica, "said": parts[0], **said_facts(parts)}
        for step, replica, parts in simulation.steps
    ]
    return {"text": "simulation", "version": 1, "steps": steps, **end_facts(simulation)}


def said_facts(parts: list[str]) -> dict[str, Any]:
    """What a simulation says of a step."""
    if parts[0] == "awaits":
        return {"call": [int(it) for it in parts[1:]]}
    return (
        {"cause": parts[1], **cause_facts(parts[1:])}
        if parts[0] == "void"
        else {"event": int(parts[1])}
    )


def end_facts(replay: Replay | Simulation) -> dict[str, list[dict[str, Any]] | dict[str, Any]]:
    word, *rest = replay.stop
    stop: dict[str, Any] = {"word": word}
    if word == "done":
        stop["steps"] = int(rest[0])
    else:
        stop["step"] = None if rest[0] == "start" else int(rest[0])
        stop.update(
            {"invariant": rest[1]}
            if word == "broken"
            else {"cause": rest[1], **cause_facts(rest[1:])}
        )
    replicas = [
        {"replica": at, "taken": taken, **state_facts(state)}
        for at, (taken, state) in enumerate(zip(replay.taken, replay.states))
    ]
    return {"stop": stop, "replicas": replicas}


def cause_facts(parts: list[str]) -> dict[str, Any]:
    """What stands behind the cause of a refusal."""
    if parts[0] == "range":
        return {
            "counter": parts[1],
            "elements": [int(it) for it in parts[2:-1]],
            "value": int(parts[-1]),
        }
    return {CAUSES[parts[0]]: int(parts[1])} if parts[0] in CAUSES else {}


def suggestion_facts(text: str) -> dict[str, Any]:
    suggestion = Suggestion(text)
    counts = {"needed": suggestion.needed, "free": suggestion.free, "unknown": suggestion.unknown}
    return {
        "text": "suggestion",
        "version": 1,
        "pairs": [pair_facts(it) for it in suggestion.pairs],
        **counts,
        "word": suggestion.word,
    }


def pair_facts(pair: SuggestedPair) -> dict[str, Any]:
    return {**answer_facts(pair), "equalities": [answer_facts(it) for it in pair.answers]}


def answer_facts(answer: Answer | SuggestedPair) -> dict[str, Any]:
    """What is said of two operations, or of two parameters."""
    obligation = block_facts(answer.block) if answer.block else None
    return {
        "left": answer.left,
        "right": answer.right,
        "verdict": answer.word,
        "obligation": obligation,
    }


# (it stands on this module)
from view import design_facts  # noqa: E402
from view.given import given  # noqa: E402

READERS = {
    "report": report_facts,
    "replay": replay_facts,
    "simulate": simulation_facts,
    "suggest": suggestion_facts,
}


TEXTS = tuple(f"cise {it} " for it in READERS)


def lines_from(facts: dict[str, Any]) -> list[str]:
    """The lines of the program's text of facts."""
    return {
        "report": report_lines,
        "replay": replay_lines,
        "simulation": simulation_lines,
        "suggestion": suggestion_lines,
    }[facts["text"]](facts)


def spelled(*parts: int | str) -> str:
    return " ".join(str(it) for it in parts)


def report_lines(facts: dict[str, Any]) -> list[str]:
    lines = [
        f"cise report {facts['version']}",
        f"budget {facts['budget']}",
        f"obligations {len(facts['obligations'])}",
    ]
    for it in facts["obligations"]:
        lines += block_lines(it)
    return lines + [
        (
            f"summary proved {facts['proved']} refuted {facts['refuted']} undecided"
            f" {facts['undecided']}"
        ),
        facts["word"],
    ]


def block_lines(block: dict[str, Any]) -> list[str]:
    lines: list[str] = [spelled(block["kind"], *[block[it] for it in PARTS[block["kind"]]])]
    if block["verdict"] == "refuted":
        return lines + ["refuted"] + witness_lines(block["witness"])
    if block["verdict"] == "proved":
        return [*lines, f"proved {len(block['log'])}", *block["log"]]
    count = [] if block["limit"] == "instances" else [len(block["log"])]
    said = spelled("undecided", block["limit"], *count)
    return [*lines, said, *block["log"], *block["evidence"]]


def witness_lines(witness: dict[str, Any]) -> list[str]:
    lines = [spelled("size", *it) for it in witness["sizes"].items()] + [
        spelled("const", *it) for it in witness["constants"].items()
    ]
    calls = [spelled("call", it["operation"], *it["arguments"]) for it in witness["calls"]]
    return lines + state_lines(witness) + calls + [spelled("at", *witness["at"])]


def state_lines(state: dict[str, Any]) -> list[str]:
    true = [spelled("true", it["relation"], *it["elements"]) for it in state["true"]]
    return true + [
        spelled("count", it["counter"], *it["elements"], it["value"]) for it in state["count"]
    ]


def replay_lines(facts: dict[str, Any]) -> list[str]:
    lines = ["cise replay 1"]
    for it in facts["steps"]:
        kind = "call" if "call" in it else "take"
        lines.append(spelled("step", it["step"], "replica", it["replica"], kind, it[kind]))
    return lines + end_lines(facts)


def simulation_lines(facts: dict[str, Any]) -> list[str]:
    lines = ["cise simulate 1"]
    for it in facts["steps"]:
        said = (
            it["call"]
            if it["said"] == "awaits"
            else [it["cause"], *cause_parts(it)]
            if it["said"] == "void"
            else [it["event"]]
        )
        lines.append(spelled("step", it["step"], "replica", it["replica"], it["said"], *said))
    return lines + end_lines(facts)


def end_lines(facts: dict[str, Any]) -> list[str]:
    stop = facts["stop"]
    if stop["word"] == "done":
        lines = [f"done {stop['steps']}"]
    else:
        step = "start" if stop["step"] is None else stop["step"]
        lines = [
            spelled(
                stop["word"],
                step,
                *(
                    [stop["invariant"]]
                    if stop["word"] == "broken"
                    else [stop["cause"], *cause_parts(stop)]
                ),
            )
        ]
    for it in facts["replicas"]:
        lines += [f"replica {it['replica']} taken {it['taken']}"] + state_lines(it)
    return lines


def cause_parts(facts: dict[str, Any]) -> list[int | str]:
    if facts["cause"] == "range":
        return [facts["counter"], *facts["elements"], facts["value"]]
    return [facts[CAUSES[facts["cause"]]]] if facts["cause"] in CAUSES else []


def suggestion_lines(facts: dict[str, Any]) -> list[str]:
    lines = ["cise suggest 1", f"pairs {len(facts['pairs'])}"]
    for pair in facts["pairs"]:
        lines += [spelled(pair["verdict"], pair["left"], pair["right"])] + (
            block_lines(pair["obligation"]) if pair["obligation"] else []
        )
        for it in pair["equalities"]:
            lines += [spelled(it["verdict"], it["left"], it["right"])] + (
                block_lines(it["obligation"]) if it["obligation"] else []
            )
    return lines + [
        f"summary needed {facts['needed']} free {facts['free']} unknown {facts['unknown']}",
        facts["word"],
    ]
