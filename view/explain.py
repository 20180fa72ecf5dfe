"""`./cise explain SPEC [REPORT] [--places] [--all] [--no-reach] [--budget N]`: what a report says,
in words for a terminal. Lines have at most 80 columns, but for the user's own, which are never cut,
and for a name that is longer."""
from __future__ import annotations

from typing import TYPE_CHECKING, Iterator

from view import order, program, reaching, small_worlds
from view.columns import WIDTH, table, wrapped
from view.given import given
from view.inputs import name_of, text_of
from view.outcome import failing_line
from view.output import visible
from view.places import findings
from view.report import Block, Report
from view.run_text import count_of, in_short
from view.story import Call, Story, numbered, stories, title
from view.tree import Line, Spec
from view.words import Word

if TYPE_CHECKING:
    from view.example import Example

# The most facts that are listed, and the widest calls that stand side by side with a remark.
MOST_FACTS, WIDEST_CALL = 12, 54
# So many stories are told, and so many referred to, where nobody asks for all.
MOST_STORIES, MOST_REFERENCES = 100, 6
NOTHING = "(nothing: every fact is false, every counter 0)"
ORIGIN = (
    "Verdicts and values are the program's. Lines, and what is ordered, are read off the"
    " specification. The sentences are made from both, and aren't proved."
)


def answer(
    path: str,
    report_path: str | None = None,
    places: bool = False,
    all: bool = False,
    no_reach: bool = False,
    budget: str | None = None,
) -> tuple[int, str]:
    """The status and the text. Without a report the program checks the specification, with one it
    verifies that, which takes no budget. With `places` the text has a line for each refuted and
    undecided obligation, as editors read it; with `all` all stories are told. With `no_reach` no
    run from the start is looked for, and no break in a small world."""
    limit = () if budget is None else ("--budget", budget)
    if report_path is None:
        status, text = program.answer("check", path, *limit)
    else:
        status, _ = program.answer("verify", path, report_path, *limit)
        text = text_of(report_path)
    spec, report = Spec(text_of(path)), Report(text)
    if places:
        return status, "".join(it.line() + "\n" for it in findings(name_of(path), spec, report))
    return status, explained(spec, report, None if all else MOST_STORIES, not no_reach)


def explained(spec: Spec, report: Report, most: int | None = None, with_reach: bool = False) -> str:
    """A report in words: a line for each operation and each pair of which there is something to
    say, so many stories, the next steps, and the counts. Beside each story stands what short
    searches have found, where they are asked for.
    """
    numbers, pairs = numbered(spec, report), order.pairs(spec, report.blocks)
    lines, count = overview(spec, report, numbers, pairs) + [""], max(numbers.values(), default=0)
    told = stories(spec, report, most)
    found = searched(spec, report, told, pairs) if with_reach else {}
    for number, it in enumerate(told, 1):
        lines += tell(it, number, pairs.get(it.block.pair() or ("", "")))
        lines += [*found.get(it.block, []), ""]
    if most is not None and count > most:
        lines += wrapped(
            f"Stories {most + 1} to {count} aren't told here; with --all they are."
        ) + [""]
    lines += wrapped(next_steps(report)) + [""] + wrapped(ORIGIN) + [""]
    lines.append(
        f"{report.word}: {report.proved} proved, {report.refuted} refuted,"
        f" {report.undecided} undecided"
    )
    return "\n".join(lines) + "\n"


def searched(
    spec: Spec, report: Report, told: list[Story], pairs: dict[tuple[str, str], order.Pair]
) -> dict[Block, list[str]]:
    """What short searches have found, as lines behind a story: for runs to what is refuted, and for
    breaks of what has too many formulas."""
    runs = reaching.in_short(spec, [it.block for it in told if it.verdict == "refuted"])
    found = {
        block: ["", *(line for said in in_short(spec, it) for line in wrapped(said, 2))]
        for block, it in runs.items()
    }
    undecided = [it.block for it in told if it.verdict == "undecided"]
    for block, tried in small_worlds.tried(spec, report, undecided).items():
        pair = pairs.get(block.pair() or ("", ""))
        found[block] = ["", *in_small_worlds(spec, report, tried, pair)]
    return found


def next_steps(report: Report) -> str:
    """What can be done next, as a paragraph."""
    refuted = {it.kind for it in report.with_verdict("refuted")}
    said = []
    if refuted & {"commute", "stable"}:
        said.append("mend SPEC writes an order of the pairs, mend --no-wait changes that spare it")
    if "safety" in refuted:
        said.append(
            "a call that breaks an invariant alone wants a requires line, or an invariant that was"
            " forgotten: no order helps it"
        )
    if "init" in refuted:
        said.append("what is false at the start wants an initially")
    if refuted:
        said.append("reach SPEC writes runs that lead from the start to what is refuted")
    if report.undecided:
        said.append("what is undecided says what makes it smaller")
    return f"Next: {'; '.join(said or ['review SPEC says what a yes leaves open'])}."


def overview(
    spec: Spec,
    report: Report,
    numbers: dict[Block, int],
    pairs: dict[tuple[str, str], order.Pair],
) -> list[str]:
    """The head: the start and each operation that breaks alone, each pair that may not run at once,
    and how many may. `numbers` has for each block that is told the number of its story."""
    rows, free = [], 0
    for name, alone in alone_blocks(spec, report):
        seen = [it for it in alone if it in numbers]
        if seen:
            verdict = "refuted" if any(it.verdict == "refuted" for it in seen) else "undecided"
            rows.append((name, f"{verdict}, {references(seen, numbers)}"))
    for pair in dict.fromkeys(pairs.values()):
        seen, on = [it for it in pair.blocks if it in numbers], " ".join(pair.short())
        if seen:
            rows.append(
                (
                    pair.name(),
                    f"{pair.state()}, {references(seen, numbers)}"
                    + (f", though ordered: {on}" if pair.conditions else ""),
                )
            )
        elif pair.conditions:
            rows.append((pair.name(), f"ordered: {on}"))
        else:
            free += 1
    count = (
        f"{free} {'pair' if free == 1 else 'pairs'} may run at once"
        if pairs
        else "there are no operations"
    )
    return table(rows) + [count]


def alone_blocks(spec: Spec, report: Report) -> Iterator[tuple[str, list[Block]]]:
    """The blocks of the start and those of each operation alone, each with a name."""
    yield "at the start", [it for it in report.blocks if it.kind == "init"]
    for name in spec.operations:
        yield f"{name} alone", [
            it for it in report.blocks if it.kind == "safety" and it.names[0] == name
        ]


def references(blocks: list[Block], numbers: dict[Block, int]) -> str:
    """The numbers of the stories of some blocks."""
    found = sorted({numbers[it] for it in blocks})
    more = f" and {len(found) - MOST_REFERENCES} more" if len(found) > MOST_REFERENCES else ""
    return "see " + ", ".join(map(str, found[:MOST_REFERENCES])) + more


def tell(story: Story, number: int, pair: order.Pair | None) -> list[str]:
    """A story as lines; `pair` is that of its two operations, or None."""
    head = f"{number}. "
    lines = wrapped(head + story.title(), 0, len(head))
    lines += wrapped(
        f"[{story.block.words()}, report line {story.block.line_in_report}]", len(head)
    ) + [""]
    if story.verdict == "undecided":
        return (
            lines
            + wrapped(story.limit, 2)
            + wrapped(story.todo, 2)
            + [""]
            + sources(story.spec, story.lines)
        )
    return lines + refuted(story, pair)


def refuted(story: Story, pair: order.Pair | None) -> list[str]:
    """A story of what breaks, without its head."""
    lines: list[str] = []
    who = {"init": "At the start there is:", "safety": "A replica holds:"}.get(
        story.kind, "Both replicas hold:"
    )
    lines += (
        wrapped(f"{story.world()} {who}".strip(), 2)
        + listed(story.facts or [NOTHING])
        + listed(story.also)
        + [""]
    )
    if story.calls:
        lines += called(story) + [""]
    lines += ended(story) + sources(story.spec, story.lines) + values(story)
    if story.others:
        lines += ["", *wrapped("The same calls there show more:", 2)]
    for it in story.others:
        lines += wrapped(f"{title(it)} [{it.words()}, report line {it.line_in_report}]", 4, 6)
        lines += sources(story.spec, [line for line in (failing_line(story.spec, it),) if line])
    for note in notes(story, pair):
        lines += ["", *wrapped("Note. " + note, 2)]
    return lines


def in_small_worlds(
    spec: Spec, report: Report, found: small_worlds.Tried, pair: order.Pair | None
) -> list[str]:
    """What was tried for an obligation in small worlds, and the break that was found."""
    if found.found:
        head = "By check it stays undecided. But in a small world it breaks, as verify confirms:"
        return wrapped(head, 2) + [""] + refuted(Story(spec, found.found, report.budget), pair)
    if not found.ways:
        return wrapped("Worlds of one and two elements of each sort can't be tried here.", 2)
    tried = count_of(found.ways, "way", "ways")
    said = f"Calls at one or two elements of each sort were tried, in {tried}: none breaks it"
    more = f", {found.open} more stay undecided" if found.open else ""
    return wrapped(f"{said}{more}. Others weren't tried.", 2)


def notes(story: Story, pair: order.Pair | None) -> list[str]:
    """Cautions: on order that isn't enough, on values that aren't shown, on what is observed."""
    found = []
    if pair and pair.conditions:
        both = f"Two calls of {pair.f}" if pair.f == pair.g else f"{pair.f} and {pair.g}"
        found.append(
            f"{both} are {order.sentence(pair.conditions, pair.f, pair.g)}. These two calls aren't."
        )
    return found + [it for it in (story.repeated(), story.untold, story.observed()) if it]


def called(story: Example | Story) -> list[str]:
    """The call, or the two side by side."""
    texts = [it.text() for it in story.calls]
    if len(texts) == 1:
        return ["  There, this call is allowed:"] + arguments(story.calls[0], "      ")
    lines, widest = ["  There, both calls are allowed:"], max(map(len, texts))
    if widest <= WIDEST_CALL:
        return lines + [
            f"    A  {texts[0]:{widest}} --.  neither knows",
            f"    B  {texts[1]:{widest}} --'  of the other",
        ]
    for who, call in zip("AB", story.calls):
        lines += arguments(call, f"    {who}  ")
    return lines + ["  Neither knows of the other."]


def arguments(call: Call, head: str) -> list[str]:
    """A call in one line, or with a line for each argument where it is too long."""
    if len(head + call.text()) <= WIDTH:
        return [head + call.text()]
    lines = [f"{head}{call.op}("] + [
        f"{' ' * len(head)}  {name} = {value}," for name, value in call.args
    ]
    return lines[:-1] + [lines[-1][:-1] + ")"]


def ended(story: Story) -> list[str]:
    """What is wrong at the end."""
    texts = story.end_texts() if story.kind == "commute" else None
    if not texts:
        return wrapped(story.ending(), 2)
    lines = ["  Each then takes the other's call. At the end:"]
    for who, text in zip("AB", texts):
        lines += wrapped(f"{who}  {story.names.thing(*given(story.differs))} is {text}", 4, 9)
    return lines + ["  though both have taken the same calls."]


def values(story: Story) -> list[str]:
    """What the failing line reads where it is false."""
    lines: list[str] = []
    for text, value, _ in story.readings:
        lines += wrapped(f"{'' if lines else 'where '}{text} is {value}", 8 if lines else 2, 10)
    return lines


def sources(spec: Spec, own: list[Line]) -> list[str]:
    """Some of the user's own lines, each with its number, at the indent of its first word."""
    lines = []
    for it in own:
        before = spec.text[: it.head.at].rpartition("\n")[2]
        indent = len(before.expandtabs())
        for at, row in enumerate(it.text.split("\n")):
            row = visible(row.rstrip().expandtabs())
            lines.append(
                f"  {it.number + at:5} |"
                f" {row[min(indent, len(row) - len(row.lstrip())) :] if at else row}".rstrip()
            )
    return lines


def listed(texts: list[str]) -> list[str]:
    """Facts, each in a line where there is room for it; those beyond the most are counted."""
    shown = texts if len(texts) <= MOST_FACTS else texts[: MOST_FACTS - 1]
    lines = [line for it in shown for line in wrapped(it, 6, 10)]
    return lines + (
        [f"      ... and {len(texts) - len(shown)} more; the report has them all"]
        if len(texts) > len(shown)
        else []
    )
