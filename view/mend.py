"""`./cise mend SPEC`: the user's own text, with the tokens, rules and takes lines that its refuted
and undecided pairs of operations need. Each order comes from `suggest`, or was tried by `check`,
and the whole text is checked before it is written. What is ordered already stays so, and pairs that
need no order get none. Standard error says what is ordered now, and tells the story of what no
token mends."""
from __future__ import annotations

import functools

from view import no_wait as without_waiting
from view import order, program
from view.edits import with_tokens
from view.enough import MOST_RUNS, Trials, order_of
from view.explain import MOST_STORIES, tell
from view.inputs import text_of
from view.output import Progress, say
from view.report import Report, SuggestedPair, Suggestion
from view.story import stories, told_blocks, told_together
from view.tokens import Order, Tokens
from view.tree import Spec

# So often orders are left out for which there is no room, and room is sought for those behind them.
MOST_LEFT_OUT = 4


def answer(path: str, no_wait: bool = False) -> tuple[int, str]:
    """The status of `check` for the text that is written, and the text. With `no_wait` effects are
    changed in place of being ordered."""
    if no_wait:
        return without_waiting.answer(path)
    status, text, told = mended(path)
    say(told)
    return status, text


def mended(path: str, with_ways: bool = True) -> tuple[int, str, str]:
    """The status of `check` for the mended text, that text, and what standard error says of it;
    `with_ways` also which change spares an order."""
    status, text = program.answer("check", path)
    spec, before = Spec(text_of(path)), Report(text)
    broken = broken_pairs(before)
    if not broken:
        return status, spec.text, summary(spec, before, [], set())
    suggestion = Suggestion(program.answer("suggest", path)[1])
    pairs = [it for it in suggestion.pairs if frozenset((it.left, it.right)) in broken]
    with Progress() as progress:
        orders, trials = orders_of(spec, pairs, progress)
        progress.tell("mend: the whole text is checked")
        after, status, report, kept = settled(spec, orders)
    unknown = {frozenset((it.left, it.right)) for it in pairs if it.word == "unknown"}
    ways = ways_told(spec, before, kept) if with_ways else ""
    return (
        status,
        after.text,
        no_room(orders, kept) + summary(after, report, kept, unknown) + untried(trials) + ways,
    )


def orders_of(
    spec: Spec, pairs: list[SuggestedPair], progress: Progress
) -> tuple[list[Order], Trials]:
    """The orders that pairs of a suggestion need, and what was tried for them."""
    trials = Trials(spec)
    orders: list[Order | None] = []

    def tell_of(at: int, left: int) -> None:
        progress.tell(
            f"mend: pair {at} of {len(pairs)}, {MOST_RUNS - left} of at most {MOST_RUNS:,} runs of"
            " the program"
        )

    for at, it in enumerate(pairs, 1):
        trials.told = functools.partial(tell_of, at)
        orders.append(order_of(spec, it, trials))
    return [it for it in orders if it], trials


def untried(trials: Trials) -> str:
    """The pairs that are ordered always since the runs were at their end, and not since nothing
    less is enough."""
    said = "".join(
        f"mend: {f} || {g}: not all lesser orders were tried, but {count}\n"
        for f, g, count in trials.cut[:MOST_STORIES]
    )
    more = len(trials.cut) - MOST_STORIES
    return said + (
        f"mend: of {more} more pairs not all lesser orders were tried either\n" if more > 0 else ""
    )


def ways_told(spec: Spec, before: Report, orders: list[Order]) -> str:
    """What is known of ways without waiting: of each order, whether one change that was tried
    spares it."""
    if not orders:
        return ""
    if len(before.blocks) > without_waiting.MOST_OBLIGATIONS:
        return "mend: no change was tried that spares an order; --no-wait tries some\n"
    ways, tried = without_waiting.ways(spec.text)
    known = [(it, ways.get(frozenset((it.f, it.g)))) for it in orders]
    lines = [f"mend: {it.f} || {it.g} needs no order where {way}\n" for it, way in known if way]
    none = sum(way is None for _, way in known)
    if none:
        which = "of the others " if lines else ""
        lines.append(f"mend: {which}no change among {tried} that were tried spares an order\n")
    return "".join(lines) + ("mend: --no-wait makes such changes\n" if none < len(known) else "")


def broken_pairs(report: Report) -> set[frozenset[str]]:
    """The pairs of operations of which an obligation isn't proved, as sets of their names."""
    return {
        frozenset(it.pair() or ()) for it in report.blocks if it.pair() and it.verdict != "proved"
    }


def settled(spec: Spec, orders: list[Order]) -> tuple[Spec, int, Report, list[Order]]:
    """The mended specification with the status and the report of its check, and the orders that it
    keeps. An order that isn't enough in the whole text is made to hold always; where the language's
    limits are met, the last orders are left out.
    """
    tried = list(orders)
    while True:
        text = with_tokens(spec, Tokens(spec, tried))
        status, said = program.run_on(text, "check")
        if status in (0, 1, 5):
            report = Report(said)
            left = [it for it in tried if frozenset((it.f, it.g)) in broken_pairs(report)]
            if not left:
                return Spec(text), status, report, tried
            tried = [
                Order(it.f, it.g, [[]]) if it in left else it
                for it in tried
                if it not in left or it.alternatives != [[]]
            ]
        elif status == 3 and tried:
            tried = fitting(spec, tried)
        else:
            raise program.Stopped(["check"], status, said)


def fitting(spec: Spec, orders: list[Order]) -> list[Order]:
    """As many of the orders as a text has room for: all up to one for which there is none, and of
    those behind it as many again, a few times."""
    left = list(orders)
    kept: list[Order] = []
    for _ in range(MOST_LEFT_OUT):
        least, most = 0, len(left)
        while least < most:
            middle = (least + most + 1) // 2
            least, most = (
                (middle, most) if has_room(spec, kept + left[:middle]) else (least, middle - 1)
            )
        kept, left = kept + left[:least], left[least + 1 :]
        if not left:
            break
    return kept if len(kept) < len(orders) else orders[:-1]


def has_room(spec: Spec, orders: list[Order]) -> bool:
    """Whether a text with these orders is a specification."""
    return program.run_on(with_tokens(spec, Tokens(spec, orders)), "spell")[0] == 0


def no_room(orders: list[Order], kept: list[Order]) -> str:
    """Which orders were left out since there was no room for them."""
    pairs = [(it.f, it.g) for it in kept]
    left = [it for it in orders if (it.f, it.g) not in pairs]
    why = (
        "isn't ordered: a text has no room for more tokens, rules or takes lines, or no order is"
        " enough"
    )
    return "".join(f"mend: {it.f} || {it.g} {why}\n" for it in left)


def summary(mended: Spec, report: Report, orders: list[Order], unknown: set[frozenset[str]]) -> str:
    """What standard error says: each new order, what isn't mended, and the counts. Of the pairs in
    `unknown` nothing was refuted."""
    lines = []
    for it in orders:
        doubt = (
            "; undecided before, so it may need no order"
            if frozenset((it.f, it.g)) in unknown
            else ""
        )
        lines.append(
            f"mend: {it.f} || {it.g}:"
            f" {order.sentence(order.conditions(mended, it.f, it.g), it.f, it.g)}{doubt}"
        )
    left = told_blocks(mended, report)
    if not orders and not left:
        lines.append("mend: there is nothing to be mended")
    if left:
        count = "1 obligation is" if len(left) == 1 else f"{len(left)} obligations are"
        lines.append(
            f"mend: {count} left that no token mends; lines are those of the text that is written"
        )
        for number, story in enumerate(stories(mended, report, MOST_STORIES), 1):
            lines += ["", *tell(story, number, None)]
        more = len(told_together(mended, report)) - MOST_STORIES
        if more > 0:
            lines += ["", f"mend: {more} more aren't told here; explain --all tells of them"]
        lines.append("")
    counts = f"{report.proved} proved, {report.refuted} refuted, {report.undecided} undecided"
    return "\n".join(lines + [f"mend: {report.word}: {counts}"]) + "\n"
