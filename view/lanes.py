"""The picture of a replay: a lane for each replica, and time runs down. Each step has a row of its
own, so that an arrow which runs along a row meets no box. Each taking has its own arrow from the
lower edge of the call's box. With more than two replicas it runs down between the lanes, and then
along the row of the taking."""
from __future__ import annotations

from view.report import State
from view.shapes import LETTER, PAD, Box, ShortNames, arrow, rounded, svg, text, wrapped
from view.steps import Step, Steps

# The width of the page's text, and what is free between lanes (less where they don't fit in anyhow)
# and between rows.
PAGE = {"wide": 1010, "narrow": 352}
# With more replicas than this the page is wider, and so is its picture.
MOST_REPLICAS, BROAD = 4, 1150
GAP, NEAR = {"wide": 74, "narrow": 20}, 30
BETWEEN_ROWS = 14
# How far arrows that run side by side are apart: across, and where they leave a box.
TRACK, EXIT = 6, 4
LEAST_LETTERS, MOST_LETTERS = 17, 44
# The least width of a box, in which the caption of the last one fits.
LEAST = 162
TOP = 44


def pictures(steps: Steps, short: ShortNames) -> str:
    """Both forms of the picture. The page shows one of them."""
    return "".join(Picture(steps, short, form).draw() for form in ("wide", "narrow"))


def is_broad(steps: Steps) -> bool:
    """Whether a replay has so many replicas that its page is wider than others."""
    return bool(steps.schedule["replicas"] > MOST_REPLICAS)


class Row:
    """A step in the picture, with its box: `at` counts the rows, and `y` is its top."""

    def __init__(self, at: int, step: Step, box: Box) -> None:
        self.at, self.step, self.box = at, step, box
        self.y: float = 0

    def bottom(self) -> float:
        return self.y + self.box.h

    def reached(self) -> float:
        """Where an arrow reaches it."""
        return self.y + min(18, self.box.h / 2)


class Way:
    """An arrow from the row of a call to the row of a taking. `place` counts those of one call to
    one side, from the first that is taken, and `track` those that run down between two lanes, from
    the caller's lane."""

    def __init__(self, call: Row, taking: Row) -> None:
        self.call, self.taking = call, taking
        self.side = 1 if taking.step.replica > call.step.replica else -1
        self.gap = call.step.replica - (self.side < 0)
        self.place = self.track = 0


class Picture:
    """The picture in one of its forms."""

    def __init__(self, steps: Steps, short: ShortNames, form: str) -> None:
        self.steps, self.short, self.form = steps, short, form
        self.count = steps.schedule["replicas"]
        self.gutter = 14 + 8 * len(str(len(steps.schedule["steps"])))
        page = BROAD if form == "wide" and is_broad(steps) else PAGE[form]
        room = (page - self.gutter - GAP[form] * (self.count - 1)) / self.count
        self.gap = GAP[form] if room > LEAST else NEAR
        self.most = max(LEAST_LETTERS, min(MOST_LETTERS, int((room - 2 * PAD) / LETTER)))
        seen = [it for it in steps.drawn() if it.replica < self.count]
        self.rows = [Row(at, it, self.step_box(it)) for at, it in enumerate(seen)]
        self.finals = [self.final_box(it) for it in steps.replay.states]
        self.w = max([it.box.w for it in self.rows] + [it.w for it in self.finals] + [LEAST])
        self.ways = self.find_ways()
        self.place_tracks()
        self.place_lanes()
        self.place_rows()

    def step_box(self, step: Step) -> Box:
        """The box of a step: what happens, and what changes by it."""
        is_refused = step is self.steps.refused
        if step.kind == "call":
            rows = [(self.short(str(step.operation)), "head")]
            rows += [
                (self.short(f"{name} = {value}"), "")
                for name, value in (step.call.args if step.call else [])
            ]
            rows += [Box.RULE]
        else:
            rows = [(self.short(f"takes {step.operation or '?'}"), "soft")]
        rows += [(self.short(it), "") for it in step.changes or []]
        kind = "call" if step.kind == "call" else "box"
        if is_refused:
            rows, kind = rows + self.said(f"refused: {self.steps.briefly()}", "halted"), "stop"
        elif self.breaks(step):
            rows, kind = rows + self.said(f"breaks {self.steps.broken}", "wrong"), "bad"
        elif not step.changes:
            rows.append(("no change", "soft"))
        corner = "" if is_refused and step.kind == "call" else f"call {step.event}"
        return Box(rows, kind, self.most, at_most=14, corner=corner)

    def breaks(self, step: Step) -> bool:
        """Whether the invariant broke by this step."""
        last = self.steps.accepted[-1] if self.steps.accepted else None
        return self.steps.broken is not None and step is last

    def said(self, words: str, kind: str) -> list[tuple[str, str]]:
        return [(it, kind) for it in wrapped(self.short(words).split(" "), self.most)]

    def final_box(self, state: State) -> Box:
        facts = [(self.short(it), "") for it in self.steps.names.facts(state)]
        return Box(facts or [("nothing true, all 0", "soft")], "box", self.most)

    def find_ways(self) -> list[Way]:
        """An arrow for each taking whose call is drawn."""
        made = {
            it.step.event: it
            for it in self.rows
            if it.step.kind == "call" and it.step is not self.steps.refused
        }
        takings = [it for it in self.rows if it.step.kind == "take" and it.step.event in made]
        return [
            Way(made[it.step.event], it)
            for it in takings
            if made[it.step.event].step.replica != it.step.replica
        ]

    def place_tracks(self) -> None:
        """Numbers the arrows of each call, and gives each a track that is free as long as it runs
        down. Of one call those that are taken last run next to the caller's lane, so that they
        don't cross the others."""
        busy: dict[tuple[int, int], list[int]] = {}
        count: dict[tuple[int, int], int] = {}
        for way in self.ways:
            way.place = count.get((way.call.at, way.side), 0)
            count[way.call.at, way.side] = way.place + 1
        for way in sorted(self.ways, key=lambda it: (it.call.at, -it.taking.at)):
            tracks = busy.setdefault((way.gap, way.side), [])
            way.track = next(
                (at for at, end in enumerate(tracks) if end < way.call.at), len(tracks)
            )
            tracks[way.track : way.track + 1] = [way.taking.at]
        self.tracks = {place: len(it) for place, it in busy.items()} if self.bends() else {}

    def bends(self) -> bool:
        """With two replicas arrows are straight."""
        return bool(self.count > 2)

    def place_lanes(self) -> None:
        """The left edge of each lane's boxes."""
        self.left: list[float] = [self.gutter]
        for gap in range(self.count - 1):
            tracks = sum(self.tracks.get((gap, side), 0) for side in (1, -1))
            self.left.append(self.left[-1] + self.w + max(self.gap, 26 + TRACK * tracks))

    def place_rows(self) -> None:
        """The top of each row, with room for the arrows that leave the row above."""
        y: float = TOP
        for row in self.rows:
            row.y = y
            own = [it.place + 1 for it in self.ways if it.call is row] if self.bends() else []
            y = row.bottom() + BETWEEN_ROWS + EXIT * max(own, default=0)
        self.end = y + 26

    def points(self, way: Way) -> list[tuple[float, float]]:
        """The points of an arrow."""
        left, right = self.left[way.call.step.replica], self.left[way.call.step.replica] + self.w
        edge = right if way.side > 0 else left
        goal = self.left[way.taking.step.replica] + (-2 if way.side > 0 else self.w + 2)
        end = (goal, way.taking.reached())
        leaves = edge - way.side * (10 + TRACK * way.place), way.call.bottom()
        if not self.bends():
            return [leaves, end]
        out, track = leaves[1] + 5 + EXIT * way.place, edge + way.side * (10 + TRACK * way.track)
        return [leaves, (leaves[0], out), (track, out), (track, end[1]), end]

    def state_of(self, step: Step) -> str:
        return "open" if step is self.steps.refused else "bad" if self.breaks(step) else ""

    def clash(self) -> list[str]:
        """A dashed line from the refused step to the call that its cause names, where that is
        drawn."""
        other = next(
            (
                it
                for it in self.rows
                if it.step.kind == "call" and it.step.event == self.steps.other()
            ),
            None,
        )
        if other is None or self.rows[-1].step is not self.steps.refused or other is self.rows[-1]:
            return []
        mine, theirs = (
            self.left[self.rows[-1].step.replica] + self.w / 2,
            self.left[other.step.replica] + self.w / 2,
        )
        shift = 0 if mine != theirs else 30
        y = self.rows[-1].y - BETWEEN_ROWS / 2
        points = [
            (theirs + 12, other.bottom()),
            (theirs + 12, y),
            (mine + shift, y),
            (mine + shift, self.rows[-1].y),
        ]
        return [f'<path class="clash" d="{rounded(points, 6)}"/>']

    def draw(self) -> str:
        steps, middle = self.steps, [it + self.w / 2 for it in self.left]
        out = [f'<path class="lane" d="M{x:.1f} 26 V{self.end - 22:.1f}"/>' for x in middle]
        out += [
            arrow(self.points(it), self.state_of(it.taking.step)) for it in self.ways
        ] + self.clash()
        out += [text(x, 16, f"replica {at}", "who", "middle") for at, x in enumerate(middle)]
        for row in self.rows:
            out.append(text(self.gutter - 8, row.y + 15, str(row.step.number), "cap soft", "end"))
            out.append(row.box.draw(self.left[row.step.replica], row.y, self.w))
        for at, (x, box) in enumerate(zip(self.left, self.finals)):
            out.append(
                text(x + 2, self.end - 8, f"replica {at} at the end", "cap")
                + box.draw(x, self.end, self.w)
            )
        title = (
            f"Replay of {len(steps.schedule['steps'])} steps on {self.count} replicas; the table"
            " has the same in words"
        )
        return svg(
            self.left[-1] + self.w + 2,
            self.end + max(it.h for it in self.finals) + 4,
            out,
            self.form,
            title,
            0.85,
        )
