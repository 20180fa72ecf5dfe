"""Refutations as pictures, each in two forms: a wide one, in which time runs to the right, and a
narrow one, in which it runs down. Two calls stand on two lanes, one for each replica; a call alone
is a row of boxes. What fails is red, and carries a sign besides."""
from __future__ import annotations

from typing import Sequence

from view.given import given
from view.shapes import ROW, Box, ShortNames, arrow, cross, dot, svg, text, unequal, wrapped
from view.story import Story, tidy
from view.tree import Spec

# At 11 units a letter of a caption is about this wide.
CAPTION = 7.6
# From the lower end of a box to the caption of the next, and from a caption to its box.
ABOVE_BOX = 8
HEAD = 18


def short_names(spec: Spec) -> ShortNames:
    """The names of a specification as all its pictures show them."""
    return ShortNames(spec.words)


def pictures(story: Story, short: ShortNames) -> str:
    """Both forms of a refutation's picture. The page shows one of them."""
    if story.kind in ("commute", "stable"):
        return pair_wide(story, Boxes(story, short, 27, 36)) + pair_narrow(
            story, Boxes(story, short, 19, 42)
        )
    return alone_wide(story, Boxes(story, short, 27, 27)) + alone_narrow(
        story, Boxes(story, short, 38, 38)
    )


class Boxes:
    """The boxes of a story's picture. Rows have at most `most` letters, and those of boxes that may
    be wider, as they don't stand beside another one in a narrow picture, `more`."""

    def __init__(self, story: Story, short: ShortNames, most: int, more: int) -> None:
        self.story, self.short, self.most, self.more = story, short, most, more

    def start(self, caption: str) -> Box:
        facts = [(self.short(it), "") for it in self.story.facts]
        return Box(
            facts or [("nothing true, all 0", "soft")],
            "box",
            self.more,
            least=len(caption) * CAPTION,
        )

    def call(self, at: int) -> Box:
        call = self.story.calls[at]
        rows = [(self.short(call.op), "head")] + [
            (self.short(f"{name} = {value}"), "") for name, value in call.args
        ]
        return Box(rows, "call", self.most, least=len("replica A calls") * CAPTION)

    def end(self, who: int, most: int) -> Box:
        """For two orders, what a replica holds at the end: the thing that differs, then what else
        has changed."""
        names, story = self.story.names, self.story
        thing = names.thing(*given(story.differs))
        if not story.ends:
            return Box([(self.short(thing), "wrong"), ("differs", "wrong")], "bad", most)
        value = names.read(story.ends[who], *given(story.differs))
        sign = "=" if given(story.differs)[0] in names.spec.counters else "is"
        rows = [(self.short(f"{thing} {sign} {value}"), "wrong")]
        changes = names.changes(story.before, story.ends[who])
        return Box(
            rows + [(self.short(it), "") for item, it in changes if item != story.differs],
            "bad",
            most,
        )

    def after(self, who: int) -> Box | None:
        """What has changed at a replica, and what else the failing line reads there; None where the
        state isn't known."""
        names, story = self.story.names, self.story
        if not story.ends:
            return None
        changes = names.changes(story.before, story.ends[who])
        read = {item for _, _, item in story.readings}
        rows = [(self.short(it), "wrong" if item in read else "") for item, it in changes]
        rows.sort(key=lambda row: row[1] == "")
        changed = {item for item, _ in changes}
        for thing, value, item in story.readings:
            if item not in changed:
                sign = "is" if item and item[0] in names.spec.relations else "="
                rows.append((self.short(f"{thing} {sign} {value}"), ""))
        return Box(rows or [("unchanged", "soft")], "box", self.more)

    def line(self) -> Box:
        """The line that fails."""
        line = self.story.line
        name = [self.story.block.names[-1] + ":"] if given(line).head == "invariant" else []
        rows = wrapped(
            self.short(tidy([given(line).head, *name, *given(line).body])).split(" "), self.more + 3
        )
        rows = rows if len(rows) <= 6 else rows[:5] + ["  \u2026"]
        return Box([(it, "wrong") for it in rows], "bad", 99)


def start_caption(story: Story) -> str:
    return {"init": "at the start", "safety": "a replica holds"}.get(
        story.kind, "both replicas hold"
    )


def stages(story: Story, boxes: Boxes) -> list[tuple[str, Box]]:
    """For a start or a call alone: (caption, box) for each stage."""
    caption = start_caption(story)
    found = [(caption, boxes.start(caption))]
    if story.calls:
        found.append(("it calls", boxes.call(0)))
        after = boxes.after(0)
        found += [("after it", after)] if after else []
    return found + [("which makes false" if story.calls else "where this is false", boxes.line())]


def caption_kind(place: int, count: int) -> str:
    """The class of a stage's caption: the last one tells what fails."""
    return "cap capbad" if place + 1 == count else "cap"


def alone_wide(story: Story, boxes: Boxes) -> str:
    found, out = stages(story, boxes), []
    x: float = 1
    tall = max(box.h for _, box in found)
    middle = HEAD + 4 + tall / 2
    for place, (caption, box) in enumerate(found):
        w = max(box.w, len(caption) * CAPTION)
        out.append(
            text(x, middle - box.h / 2 - ABOVE_BOX, caption, caption_kind(place, len(found)))
        )
        out.append(box.draw(x, middle - box.h / 2, w))
        if place + 1 < len(found):
            out.append(
                arrow(
                    [(x + w + 4, middle), (x + w + 32, middle)],
                    "bad" if place + 2 == len(found) else "",
                )
            )
        x += w + 36
    return svg(x - 35, tall + HEAD + 8, out, "wide", story.title())


def alone_narrow(story: Story, boxes: Boxes) -> str:
    found, out, y = stages(story, boxes), [], HEAD
    w = max([box.w for _, box in found] + [200])
    for place, (caption, box) in enumerate(found):
        out.append(text(1, y - 6, caption, caption_kind(place, len(found))) + box.draw(1, y, w))
        y += box.h
        if place + 1 < len(found):
            out.append(
                arrow([(w - 24, y + 3), (w - 24, y + 36)], "bad" if place + 2 == len(found) else "")
            )
            y += 40
    return svg(w + 2, y + 3, out, "narrow", story.title())


def pair_wide(story: Story, boxes: Boxes) -> str:
    start, calls = boxes.start("both replicas hold"), [boxes.call(0), boxes.call(1)]
    right = Right(story, boxes)
    # The lanes: as near to each other as the boxes on them allow.
    upper = HEAD + 8 + max(calls[0].h, right.upper) / 2
    lower = upper + max((calls[0].h + calls[1].h) / 2 + 70, right.apart)
    shift = max(0, HEAD + 8 + start.h / 2 - (upper + lower) / 2)
    upper, lower = upper + shift, lower + shift
    height = max(lower + max(calls[1].h, right.lower) / 2, (upper + lower) / 2 + start.h / 2) + 8
    w = max(it.w for it in calls)
    call_at, middle = start.w + 52, (upper + lower) / 2
    call_end = call_at + w
    taken_at = call_end + 132
    right_at = taken_at + 30
    stable = story.kind == "stable"
    out = [
        lane_wide(start.w + 1, middle, call_at, y, taken_at if stable else right_at)
        for y in (upper, lower)
    ]
    out.append(
        text(1, middle - start.h / 2 - ABOVE_BOX, "both replicas hold", "cap")
        + start.draw(1, middle - start.h / 2)
    )
    for who, y, box in zip("AB", (upper, lower), calls):
        out.append(
            text(call_at, y - box.h / 2 - ABOVE_BOX, f"replica {who} calls", "cap")
            + box.draw(call_at, y - box.h / 2, w)
        )
    between = (upper + calls[0].h / 2 + lower - calls[1].h / 2 - HEAD) / 2
    out += neither_knows(call_at + w / 2, between - 2)
    out.append(
        arrow(
            [(call_end + 2, upper + 4), (taken_at - 4, lower - (10 if stable else 6))],
            "bad" if stable else "",
        )
    )
    out.append(arrow([(call_end + 2, lower - 4), (taken_at - 4, upper + 6)]))
    out.append(dot(taken_at, upper) + (cross if stable else dot)(taken_at, lower))
    out += right.draw(right_at, upper, lower)
    return svg(right_at + right.w + 2, height, out, "wide", story.title())


def lane_wide(x: float, y: float, bent: float, lane: float, end: float) -> str:
    """A replica's lane, from the state that both hold."""
    half = (x + bent) / 2
    return (
        '<path class="lane"'
        f' d="M{x:.1f} {y:.1f} C{half:.1f} {y:.1f} {half - 4:.1f} {lane:.1f}'
        f' {bent:.1f} {lane:.1f} H{end:.1f}"/>'
    )


def neither_knows(x: float, y: float) -> list[str]:
    return [
        text(x, y, "neither knows", "cap soft", "middle"),
        text(x, y + 14, "of the other", "cap soft", "middle"),
    ]


class Right:
    """What stands to the right in a wide picture of two calls: the two ends, or what B holds and
    the line that is false there.

    upper, lower  how tall it is around each lane
    apart         how far the lanes have to be from each other for it
    """

    def __init__(self, story: Story, boxes: Boxes) -> None:
        self.story, self.short = story, boxes.short
        if story.kind == "commute":
            self.ends = [boxes.end(0, boxes.more), boxes.end(1, boxes.more)]
            self.upper, self.lower = self.ends[0].h, self.ends[1].h
            self.apart = (self.upper + self.lower) / 2 + 66
            self.w = max([it.w for it in self.ends] + [len("A ends with") * CAPTION])
            return
        self.held, self.line = boxes.after(1), boxes.line()
        self.upper, self.lower = 0, self.line.h + (self.held.h + 28 if self.held else 0)
        self.apart = 34 + self.lower / 2
        self.w = max(
            self.line.w,
            self.held.w if self.held else 0,
            len("B holds, after its own call") * CAPTION,
            len(self.requires()) * CAPTION,
        )

    def requires(self) -> str:
        return f"{self.short(self.story.calls[0].op)} requires"

    def draw(self, x: float, upper: float, lower: float) -> list[str]:
        out = []
        if self.story.kind == "commute":
            for who, y, box in zip("AB", (upper, lower), self.ends):
                out.append(
                    text(x, y - box.h / 2 - ABOVE_BOX, f"{who} ends with", "cap")
                    + box.draw(x, y - box.h / 2, self.w)
                )
            y = (upper + self.upper / 2 + lower - self.lower / 2 - HEAD) / 2
            return out + [unequal(x + 12, y), text(x + 30, y + 4, "different", "cap capbad")]
        y = lower - self.lower / 2
        if self.held:
            out.append(
                text(x, y - ABOVE_BOX, "B holds, after its own call", "cap")
                + self.held.draw(x, y, self.w)
            )
            y += self.held.h + 28
        return out + [
            text(x, y - ABOVE_BOX, self.requires(), "cap code capbad"),
            self.line.draw(x, y, self.w),
        ]


def pair_narrow(story: Story, boxes: Boxes) -> str:
    start, calls = boxes.start("both replicas hold"), [boxes.call(0), boxes.call(1)]
    stable = story.kind == "stable"
    ends = [] if stable else [boxes.end(0, boxes.most), boxes.end(1, boxes.most)]
    below = [it for it in (boxes.after(1), boxes.line()) if it] if stable else []
    w = max([it.w for it in calls + ends] + [158])
    total = max([2 * w + 14, start.w + 2] + [it.w + 2 for it in below])
    lanes, lefts = (17, total - 17), (1, total - w - 1)
    call_y = HEAD + start.h + 30
    called_y = call_y + max(it.h for it in calls)
    taken_y = called_y + 84
    end_y = taken_y + 44
    out = [lane_narrow(x, HEAD + start.h, taken_y if stable else end_y) for x in lanes]
    out.append(text(1, HEAD - 6, "both replicas hold", "cap") + start.draw(1, HEAD, total - 2))
    out += beside(lanes, call_y, "replica {} calls")
    out += [box.draw(x, call_y, w) for x, box in zip(lefts, calls)]
    for at, goal in ((0, lanes[1] - (11 if stable else 8)), (1, lanes[0] + 8)):
        x = lefts[at] + w / 2
        # The arrow of the shorter box first runs down beside the other one.
        points = [(x, call_y + calls[at].h + 2), (x, called_y + 2), (goal, taken_y - 4)]
        out.append(
            arrow(
                points[0 if calls[at].h + call_y < called_y else 1 :],
                "bad" if stable and at == 0 else "",
            )
        )
    out.append(dot(lanes[0], taken_y) + (cross if stable else dot)(lanes[1], taken_y))
    out += neither_knows(total / 2, taken_y)
    if stable:
        return stable_narrow(story, boxes, below, out, total, end_y)
    out += beside(lanes, end_y, "{} ends with") + [
        box.draw(x, end_y, w) for x, box in zip(lefts, ends)
    ]
    return svg(total, end_y + max(it.h for it in ends) + 3, out, "narrow", story.title())


def lane_narrow(x: float, top: int, end: int) -> str:
    return f'<path class="lane" d="M{x:.1f} {top:.1f} V{end:.1f}"/>'


def beside(lanes: tuple[int, float], y: int, words: str) -> list[str]:
    """Captions over the boxes of both replicas, beside their lanes."""
    return [
        text(lanes[0] + 8, y - 7, words.format("A"), "cap"),
        text(lanes[1] - 8, y - 7, words.format("B"), "cap", "end"),
    ]


def stable_narrow(
    story: Story, boxes: Boxes, below: list[Box], out: list[str], total: float, y: int
) -> str:
    """The lower part of a narrow picture, in which B doesn't allow A's call: what B holds, where
    that is known, and the line."""
    *held, line = below
    for box in held:
        out = out + [
            text(total - 1, y - 6, "B holds, after its own call", "cap", "end"),
            box.draw(1, y, total - 2),
        ]
        y += box.h + ROW + 9
    out = out + [
        text(1, y - 6, f"{boxes.short(story.calls[0].op)} requires", "cap code capbad"),
        line.draw(1, y, total - 2),
    ]
    return svg(total, y + line.h + 3, out, "narrow", story.title())
