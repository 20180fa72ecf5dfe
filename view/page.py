"""A page on a design, `page SPEC [--no-reach]`, or on a replay, `page SPEC SCHEDULE`. It stands
alone: one file of HTML without a script."""
from __future__ import annotations

from view import drawn, lanes, order, program, reaching
from view.explain import MOST_STORIES, notes
from view.given import given
from view.inputs import text_of
from view.matrix import alone_id, matrix, worst
from view.parts import (
    banner,
    chip,
    code,
    foot,
    head,
    listed,
    scrolling,
    sheet,
    shown,
    sign,
    title_of,
    user_lines,
    whole_text,
    with_code,
)
from view.picture import pictures, short_names
from view.report import Block, Report
from view.run_text import in_short
from view.steps import Steps
from view.story import Story, numbered, stories, title as title_told
from view.tree import Spec
from view.words import Word

# Of more facts than this a story counts the last ones, and has them in a fold.
MOST_FACTS = 12
# The most runs that are drawn, and the most ordered pairs that stand outside a fold.
MOST_DRAWN, MOST_ORDERED = 20, 12
# So many facts are read as easily in the picture.
FACTS_IN_PICTURE = 5
SAYS = {
    "accepted": (
        "Every obligation is proved. As long as what is ordered below is kept in order, replicas"
        " that have taken the same calls are equal, and no invariant is ever false."
    ),
    "rejected": (
        "Some obligations are refuted. Each story below has a state and calls with which one of"
        " them fails."
    ),
    "undecided": "Nothing is refuted, but not everything is proved.",
}
STATES = {"accepted": "proved", "rejected": "refuted", "undecided": "undecided"}
VERDICTS = ("refuted", "undecided", "proved")


class Design:
    """What a page on a design is made of: the specification, the report, the pairs of operations,
    the stories, and what a short search has found of runs to them, where that is asked for."""

    def __init__(self, spec: Spec, report: Report, with_reach: bool = False) -> None:
        self.spec, self.report = spec, report
        self.pairs = order.pairs(spec, report.blocks)
        self.stories = stories(spec, report, MOST_STORIES)
        self.numbers = {
            it: at for it, at in numbered(spec, report).items() if at <= len(self.stories)
        }
        self.found = (
            reaching.in_short(spec, [it.block for it in self.stories if it.verdict == "refuted"])
            if with_reach
            else {}
        )
        self.names = {
            *map(str, [*spec.relations, *spec.counters, *spec.invariants, *spec.operations])
        }
        self.short = short_names(spec)

    def starts(self) -> list[Block]:
        return [it for it in self.report.blocks if it.kind == "init"]

    def alone(self, operation: str) -> list[Block]:
        """The blocks on an operation's calls alone."""
        return [it for it in self.report.blocks if it.kind == "safety" and it.names[0] == operation]

    def target(self, blocks: list[Block], fold: str) -> str:
        """Where a cell leads: to the first story of its blocks, else to their fold."""
        numbers = [self.numbers[it] for it in blocks if it in self.numbers]
        return f"story-{min(numbers)}" if numbers else fold


def answer(path: str, schedule_path: str | None = None, no_reach: bool = False) -> tuple[int, str]:
    """The status and the page."""
    if schedule_path is not None:
        return drawn.answer(path, schedule_path)
    status, text = program.answer("check", path)
    return status, page_of(Design(Spec(text_of(path)), Report(text), not no_reach), title_of(path))


def page_of(design: Design, title: str) -> str:
    report = design.report
    body = [
        head(design.spec, title, "Design check"),
        summary(report),
        matrix(design),
        ordered(design),
    ]
    for verdict, name in (("refuted", "Refuted"), ("undecided", "Undecided")):
        cards = [card(design, it) for it in design.stories if it.verdict == verdict]
        count = len(report.with_verdict(verdict))
        if count:
            more = sum(it not in design.numbers for it in report.with_verdict(verdict))
            rest = (
                f"<p>{more} more aren't shown here; explain --all tells of them.</p>"
                if more
                else ""
            )
            body.append(
                f'<section><h2 id="{verdict}">{name} <span'
                f' class="count">{count}</span></h2>{"".join(cards)}{rest}</section>'
            )
    body.append(
        '<section><h2 id="obligations">Every obligation <span'
        f' class="count">{len(report.blocks)}</span></h2>'
    )
    body.append(f'<div class="folds">{"".join(folds(design))}</div></section>')
    body.append(whole_text(design.spec))
    says = (
        f"Verdicts are the program's, with a budget of {report.budget:,} log lines; its report has"
        " a proof of each that is proved."
    )
    body.append(foot(design.spec, says))
    return sheet(title, body)


def summary(report: Report) -> str:
    counts = {it: len(report.with_verdict(it)) for it in VERDICTS}
    bar = "".join(
        f'<i class="{it}" style="flex:{counts[it]}"></i>' for it in VERDICTS if counts[it]
    )
    places = {"refuted": "refuted", "undecided": "undecided", "proved": "obligations"}
    said = ", ".join(
        f'<a href="#{places[it]}">{counts[it]} {it}</a>' if counts[it] else f"{counts[it]} {it}"
        for it in VERDICTS
    )
    return banner(
        STATES[report.word],
        report.word,
        (
            f'<p>{SAYS[report.word]}</p><div class="bar" aria-hidden="true">{bar}</div><p'
            f' class="counts">{len(report.blocks)} obligations: {said}</p>'
        ),
    )


def ordered(design: Design) -> str:
    """Which pairs are ordered, and on what; nothing where none is."""
    rows = []
    for pair in dict.fromkeys(design.pairs.values()):
        if pair.conditions:
            name = f"{pair.f} \u2225 {pair.g}"
            said = order.sentence(pair.conditions, pair.f, pair.g)
            rows.append(
                f'<li><a href="#{pair.id()}">{shown(name)}</a> {with_code(said, design.names)}</li>'
            )
    if not rows:
        return ""
    rest = rows[MOST_ORDERED:]
    more = (
        f"<details><summary>and {len(rest)} more</summary><ul"
        f" class=\"orders\">{''.join(rest)}</ul></details>"
        if rest
        else ""
    )
    count = f'<span class="count">{len(rows)}</span>'
    return (
        f'<section><h2 id="ordered">What is ordered {count}</h2><ul'
        f' class="orders">{"".join(rows[:MOST_ORDERED])}</ul>{more}</section>'
    )


def card(design: Design, story: Story) -> str:
    """A story with its picture, or an undecided obligation with its limit. It can be folded, and
    leads to the next one."""
    number, block, title = (
        design.numbers[story.block],
        story.block,
        with_code(story.title(), design.names),
    )
    lines = user_lines(story.lines, design.spec.version, given(story.verdict))
    out = (
        f'<article class="story {story.verdict}" id="story-{number}"><details open><summary><span'
        f' class="kind">{chip(given(story.verdict), given(story.verdict))}<a class="where"'
        f' href="#{home(block)}">{block.words()}</a></span><h3><span class="count">{number}.</span>'
        f" {title}</h3></summary>"
    )
    end = f"{next_story(design, number)}</details></article>"
    if story.verdict == "undecided":
        return out + f"<p>{shown(story.limit)} {shown(story.todo)}</p>{lines}{end}"
    words = (
        "<div"
        f' class="words">{told(design, story, lines)}'
        f"{further(design, story)}{run_of(design, story)}</div>"
    )
    return out + f"<figure>{pictures(story, design.short)}</figure>{words}{end}"


def next_story(design: Design, number: int) -> str:
    """The link to the next story, or from the last one to the table of pairs."""
    if number == len(design.stories):
        return (
            '<p class="next"><a href="#matrix">to the pairs</a></p>'
            if design.spec.operations
            else ""
        )
    title = design.stories[number].title()
    return (
        f'<p class="next"><a href="#story-{number + 1}">next: {number + 1}. {shown(title)}</a></p>'
    )


def further(design: Design, story: Story) -> str:
    """The other refutations with the same state and the same calls."""
    if not story.others:
        return ""
    items = "".join(
        f'<li>{with_code(title_told(it), design.names)} <a class="where"'
        f' href="#{home(it)}">{it.words()}</a></li>'
        for it in story.others
    )
    return f'<p>The same calls there show more:</p><ul class="more">{items}</ul>'


def run_of(design: Design, story: Story) -> str:
    """What a short search has found of a run from the start, with its picture."""
    found = design.found.get(story.block)
    if found is None:
        return ""
    said = "".join(
        f'<p class="reach">{with_code(it, design.names)}</p>' for it in in_short(design.spec, found)
    )
    if not found.run or not found.run.steps() or design.numbers[story.block] > MOST_DRAWN:
        return said
    run = found.run
    steps = Steps(design.spec, run.schedule, run.text)
    figure = f'<figure class="replay">{lanes.pictures(steps, design.short)}</figure>'
    return (
        f'{said}<details class="run"><summary>The run, step by'
        f' step</summary>{scrolling("Picture of the run", figure)}</details>'
    )


def told(design: Design, story: Story, lines: str) -> str:
    """A story in words."""
    out = []
    world = story.world()
    if len(story.facts) > FACTS_IN_PICTURE:
        who = {"init": "At the start:", "safety": "A replica holds:"}.get(
            story.kind, "Both replicas hold:"
        )
        out.append(f"<p>{with_code(world, design.names)} {who}</p>{facts(story.facts)}")
    elif world:
        out.append(f"<p>{with_code(world, design.names)}</p>")
    if story.also:
        out.append(f'<p>{", ".join(map(code, story.also))}.</p>')
    out.append(calls(story))
    out.append(f'<p class="end">{with_code(story.ending(), design.names)}</p>{lines}')
    if story.readings:
        read = [f"{code(it)} is <strong>{value}</strong>" for it, value, _ in story.readings]
        out.append(f"<p>There {', '.join(read)}.</p>")
    out += [
        f'<p class="note">{with_code(it, design.names)}</p>'
        for it in notes(story, design.pairs.get(story.block.pair() or ("", "")))
    ]
    return "".join(out)


def facts(items: list[str]) -> str:
    """A list of facts, of which the last ones stand in a fold where there are many."""
    rest = items[MOST_FACTS:]
    fold = (
        f"<details><summary>and {len(rest)} more</summary>{listed(rest)}</details>" if rest else ""
    )
    return listed(items[:MOST_FACTS]) + fold


def calls(story: Story) -> str:
    """The calls of a story, and why each is allowed."""
    said = [code(it.text()) for it in story.calls]
    if not said:
        return ""
    if len(said) == 1:
        return (
            f"<p>The call is {said[0]}. It is allowed: what it requires is true, and so is every"
            " invariant.</p>"
        )
    return (
        f"<p>A calls {said[0]} while B calls {said[1]}. Both are allowed: what they require is"
        " true, and so is every invariant.</p>"
    )


def folds(design: Design) -> list[str]:
    """Every obligation: the start, each operation alone, each pair."""
    out, spec = [], design.spec
    if design.starts():
        out.append(
            fold(
                design,
                "start",
                "the start",
                design.starts(),
                f"{proved(design.starts())} invariants hold",
            )
        )
    for it in spec.operations:
        own = design.alone(it)
        says = (
            f"keeps {proved(own)} invariants" if own else "nothing is asked: there is no invariant"
        )
        out.append(fold(design, alone_id(it), f"{it} alone", own, says))
    for pair in dict.fromkeys(design.pairs.values()):
        out.append(
            fold(
                design,
                pair.id(),
                f"{pair.f} \u2225 {pair.g}",
                pair.blocks,
                pair.says(),
                pair.state(),
            )
        )
    return out


def proved(blocks: list[Block]) -> str:
    return f"{sum(it.verdict == 'proved' for it in blocks)} of {len(blocks)}"


def fold(
    design: Design, place: str, name: str, blocks: list[Block], says: str, state: str | None = None
) -> str:
    """A fold of obligations. It has the link's target itself, so that a link works where a browser
    doesn't open folds."""
    state = state or worst(blocks)
    items = "".join(item(design, it) for it in blocks)
    inner = (
        f'<ul class="blocks">{items}</ul>' if items else '<p class="blocks">Nothing is asked.</p>'
    )
    summary_ = f"<summary>{sign(state)}<b>{shown(name)}</b> <span>{shown(says)}</span></summary>"
    return f'<details class="fold {state}" id="{place}">{summary_}{inner}</details>'


def item(design: Design, block: Block) -> str:
    """An obligation in a fold."""
    if block in design.numbers:
        more = f'<a href="#story-{design.numbers[block]}">story {design.numbers[block]}</a>'
    else:
        more = f'<span class="log">{block.count:,} log line{"" if block.count == 1 else "s"}</span>'
    said = (
        f"{sign(given(block.verdict))}<span>{with_code(asked(block), design.names)}</span> {more}"
    )
    return f'<li class="{block.verdict}" id="obligation-{block.line_in_report}">{said}</li>'


def asked(block: Block) -> str:
    """An obligation as a sentence, without its full stop."""
    n = block.names
    if block.kind == "init":
        return f"{n[0]} holds at the start"
    if block.kind == "safety":
        return f"{n[0]} keeps {n[1]}"
    if block.kind == "commute":
        return f"{n[0]} and {n[1]}, in either order, leave {n[2]} alike"
    return f"{n[2]} leaves standing line {n[1]} of what {n[0]} requires"


def home(block: Block) -> str:
    """The fold in which a block stands; of a pair the block itself, which a link to it opens where
    the browser does so."""
    if block.kind == "init":
        return "start"
    return (
        alone_id(block.names[0]) if block.kind == "safety" else f"obligation-{block.line_in_report}"
    )
