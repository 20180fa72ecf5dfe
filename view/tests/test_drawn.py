"""Pages on replays: each step with what changes by it, arrows from calls to takings, and how the
replay ended."""
from __future__ import annotations

import functools
import glob
import itertools
import json
import os
import random
import re
import tempfile
import unittest
from typing import Any, Iterator
from unittest import mock

from view import drawn, lanes, picture, program
from view.given import given
from view.report import Replay
from view.steps import MOST_STEPS, Steps
from view.tests.geometry import Picture, Place, pictures_in
from view.tests.page_tree import Tree
from view.tree import Spec
from view.words import text_of

SHOP = """cise 2
sort Shop
counter sold ( Shop )
relation open ( Shop )
initially open true
token till ( Shop )
conflict till ( x ) till ( x )
invariant small forall s : Shop . ( sold ( s ) <= 1000 )
operation sell ( s : Shop , n : int )
  observes open ( s )
  requires ( n <= 900000000000000 * 1 )
  add sold ( s ) n
end
operation shut ( s : Shop )
  requires open ( s )
  remove open ( s )
  takes till ( s )
end
operation wait
end
""".replace(
    "900000000000000 * 1", "900000000"
)
LOOSE = SHOP.replace("invariant small forall s : Shop . ( sold ( s ) <= 1000 )\n", "").replace(
    "  requires ( n <= 900000000 )\n", ""
)


def call(replica: int, name: str, *args: int) -> dict[str, Any]:
    return {"replica": replica, "call": name, "args": list(args)}


def take(replica: int, event: int) -> dict[str, int]:
    return {"replica": replica, "take": event}


def schedule(steps: list[dict[str, Any]], replicas: int = 2, size: int = 2) -> dict[str, Any]:
    return {"sizes": {"Shop": size}, "constants": {}, "replicas": replicas, "steps": steps}


@functools.lru_cache(maxsize=None)
def page_and_steps(text: str, plan: str) -> tuple[int, str, Steps]:
    """The page on a schedule, given as JSON, and its steps."""
    with tempfile.TemporaryDirectory() as folder:
        paths = os.path.join(folder, "design.cise"), os.path.join(folder, "plan.json")
        for path, content in zip(paths, (text, plan)):
            with open(path, "w", encoding="utf-8") as file:
                file.write(content)
        status, html = drawn.answer(*paths)
    return (
        status,
        html,
        Steps(Spec(text), json.loads(plan), program.replay(text, json.loads(plan))[1]),
    )


def told(text: str, plan: dict[str, Any]) -> tuple[int, str, Steps]:
    return page_and_steps(text, json.dumps(plan))


def gallery() -> Iterator[tuple[str, str, dict[str, Any]]]:
    """The schedules of the examples, each on a specification that it fits."""
    for spec, path in itertools.product(
        sorted(glob.glob("examples/*/*.cise")), sorted(glob.glob("examples/*/*.json"))
    ):
        if os.path.dirname(spec) == os.path.dirname(path):
            with open(path) as file:
                plan = json.load(file)
            if set(plan["sizes"]) == set(Spec(text_of(spec)).sorts):
                yield f"{spec} {path}", text_of(spec), plan


def random_plan(random_: random.Random, replicas: int, count: int) -> dict[str, Any]:
    """A schedule of calls and takings of them, each of which is accepted."""
    steps: list[dict[str, Any]] = []
    made: list[list[int]] = []
    seen: list[list[Any]] = [[] for _ in range(replicas)]
    while len(steps) < count:
        replica = random_.randrange(replicas)
        ready = [
            at
            for at, known in enumerate(made)
            if at not in seen[replica] and set(known) <= set(seen[replica])
        ]
        if ready and random_.random() < 0.7:
            event = random_.choice(ready)
            steps.append(take(replica, event))
        else:
            event = len(made)
            made.append(list(seen[replica]))
            steps.append(call(replica, "sell", random_.randrange(2), random_.randrange(4)))
        seen[replica].append(event)
    return schedule(steps, replicas)


def plans() -> Iterator[tuple[str, str, dict[str, Any]]]:
    yield from gallery()
    for seed in range(8):
        yield f"random {seed}", LOOSE, random_plan(
            random.Random(seed), random.Random(seed).choice((1, 2, 3, 5)), 25
        )


class Changes(unittest.TestCase):
    def test_changes_lead_to_the_end(self) -> None:
        """The changes of all steps, one after the other, lead from the initial states to those at
        the end."""
        count = 0
        for name, text, plan in plans():
            with self.subTest(name=name):
                steps = told(text, plan)[2]
                start = Replay(program.replay(text, {**plan, "steps": []})[1]).states
                held = [set(steps.names.facts(it)) for it in start]
                for step in steps.accepted:
                    for change in given(step.changes):
                        apply(held[step.replica], change)
                        count += 1
                self.assertEqual(held, [set(steps.names.facts(it)) for it in steps.replay.states])
        self.assertGreater(count, 100)

    def test_the_last_steps_alone(self) -> None:
        plan = random_plan(random.Random(5), 2, 200)
        status, html, steps = told(LOOSE, plan)
        self.assertEqual(
            (status, steps.first, len(steps.drawn())), (0, 200 - MOST_STEPS, MOST_STEPS)
        )
        self.assertTrue(all(it.changes is None for it in steps.accepted[: steps.first]))
        self.assertTrue(all(it.changes is not None for it in steps.drawn()))
        tree = Tree(html)
        self.assertEqual(
            [it.one("th").text() for it in tree.all("tr") if it.inside("tbody")],
            [str(it) for it in range(120, 200)],
        )
        self.assertIn("Steps 0 to 119 are left out here.", tree.text())

    def test_members_in_any_order(self) -> None:
        """A schedule's members may stand in any order, and twice: the last one counts."""
        plan = schedule([call(0, "sell", 0, 1), call(0, "sell", 0, 2), take(1, 0)])
        turned = json.dumps({key: plan[key] for key in reversed(list(plan))})
        doubled = '{"steps": 7, ' + turned[1:]
        pages = [
            page_and_steps(LOOSE, it)[1].split("</h1>")[1]
            for it in (json.dumps(plan), turned, doubled)
        ]
        self.assertEqual(pages, [pages[0]] * 3)
        self.assertEqual(
            [it.changes for it in told(LOOSE, plan)[2].accepted],
            [["sold(Shop#0) = 1"], ["sold(Shop#0) = 3"], ["sold(Shop#0) = 1"]],
        )

    def test_as_many_runs_as_there_are_steps(self) -> None:
        """One run for each state that is asked for, and none for what the replay itself says."""
        for count in (0, 1, 30, 200):
            plan = random_plan(random.Random(6), 2, count)
            text = program.replay(LOOSE, plan)[1]
            with mock.patch.object(program, "run", wraps=program.run) as runs:
                Steps(Spec(LOOSE), plan, text)
            self.assertEqual(runs.call_count, min(count, MOST_STEPS))


def apply(held: set[str], change: str) -> None:
    if change.startswith("+ "):
        held.add(change[2:])
    elif change.startswith("\u2212 "):
        held.remove(change[2:])
    else:
        thing = change.rpartition(" = ")[0]
        for it in [it for it in held if it.rpartition(" = ")[0] == thing]:
            held.remove(it)
        if not change.endswith(" = 0"):
            held.add(change)


class Pictures(unittest.TestCase):
    def test_layout_and_arrows(self) -> None:
        arrows = 0
        for name, text, plan in [*plans(), ("sixteen", LOOSE, sixteen())]:
            steps = told(text, plan)[2]
            short = picture.short_names(steps.spec)
            for form in ("wide", "narrow"):
                with self.subTest(name=name, form=form):
                    made = lanes.Picture(steps, short, form)
                    seen = pictures_in(made.draw())[0]
                    self.assertEqual(seen.faults(), [])
                    self.assertEqual(len(seen.boxes), len(steps.drawn()) + plan["replicas"])
                    self.arrows_lead(steps, made, seen)
                    arrows += len(seen.arrows)
        self.assertGreater(arrows, 200)

    def arrows_lead(self, steps: Steps, made: lanes.Picture, seen: Picture) -> None:
        """Each taking of a drawn call has an arrow of its own, from the lower edge of the call's
        box to the taking's box. It meets no other box."""
        boxes = dict(zip((it.number for it in steps.drawn()), seen.boxes))
        calls = {
            it.event: it for it in steps.drawn() if it.kind == "call" and it is not steps.refused
        }
        expected = sorted(
            (calls[it.event].number, it.number)
            for it in steps.drawn()
            if it.kind == "take" and it.event in calls
        )
        found = []
        for points in seen.arrows:
            start = [
                number
                for number, box in boxes.items()
                if abs(box.bottom - points[0][1]) < 0.2 and box.left < points[0][0] < box.right
            ]
            x, y = points[-1]
            end = [
                number
                for number, box in boxes.items()
                if box.top < y < box.bottom and min(abs(box.left - x), abs(box.right - x)) < 13
            ]
            self.assertEqual((len(start), len(end)), (1, 1), points)
            found.append((start[0], end[0]))
            if made.bends():
                self.meets_no_box(
                    points,
                    [box for number, box in boxes.items() if number not in (start[0], end[0])],
                )
        self.assertEqual(sorted(found), expected)
        self.assertEqual(len({points[0] for points in seen.arrows}), len(seen.arrows))

    def meets_no_box(self, points: list[tuple[float, float]], boxes: list[Place]) -> None:
        for (ax, ay), (bx, by) in zip(points, points[1:]):
            self.assertTrue(abs(ax - bx) < 0.1 or abs(ay - by) < 0.1, points)
            for box in boxes:
                outside = (
                    max(ax, bx) <= box.left
                    or min(ax, bx) >= box.right
                    or max(ay, by) <= box.top
                    or min(ay, by) >= box.bottom
                )
                self.assertTrue(outside, (points, box))


def sixteen() -> dict[str, Any]:
    """Calls of several replicas that all others take in some order."""
    steps, choose = [], random.Random(3)
    for event in range(4):
        steps.append(call(event * 5, "sell", 0, 1))
        steps += [take(it, event) for it in choose.sample(range(16), 16) if it != event * 5]
    return schedule(steps, 16)


class Ends(unittest.TestCase):
    """How a replay ended: the banner, the marked step, the line that is false, the steps that
    weren't replayed."""

    def page(
        self, text: str, plan: dict[str, Any], status: int, word: str
    ) -> tuple[Tree, str, Steps]:
        got, html, steps = told(text, plan)
        tree = Tree(html)
        banner = tree.one("div", "banner")
        self.assertEqual((got, banner.one("p", "word").text()), (status, word))
        return tree, banner.text(), steps

    def test_done(self) -> None:
        tree, said, _ = self.page(SHOP, schedule([call(0, "sell", 0, 1), take(1, 0)]), 0, "done")
        self.assertIn("All 2 steps were accepted, and no invariant broke.", said)
        self.assertEqual(tree.all("pre", "line"), [])

    def test_no_steps(self) -> None:
        self.assertIn("All 0 steps were accepted", self.page(SHOP, schedule([]), 0, "done")[1])

    def test_broken(self) -> None:
        tree, said, _ = self.page(
            SHOP, schedule([call(0, "sell", 1, 1001), call(0, "wait")]), 1, "broken"
        )
        self.assertIn(
            (
                "After step 0 the invariant small is false at replica 0. The one step that follows"
                " was not replayed."
            ),
            said,
        )
        self.assertIn(
            "8invariant small forall s : Shop . ( sold ( s ) <= 1000 )",
            tree.one("pre", "line").text(),
        )
        self.assertIn("breaks small", tree.one("tr", "refuted").text())
        self.assertIn("breaks small", " ".join(pictures_in(tree.source)[0].words()))

    def test_broken_at_the_start(self) -> None:
        text = SHOP.replace("initially open true", "initially open true\ninitially sold 1001")
        tree, said, _ = self.page(text, schedule([call(0, "wait")] * 3), 1, "broken")
        self.assertIn(
            "The invariant small is false at the start. The 3 steps that follow were not replayed.",
            said,
        )
        self.assertNotIn("breaks", " ".join(pictures_in(tree.source)[0].words()))

    def refused(
        self, cause: str, plan: dict[str, Any], *words: str, text: str = SHOP, step: None = None
    ) -> tuple[Tree, Steps]:
        tree, said, steps = self.page(text, plan, 4, "refused")
        self.assertEqual(steps.cause, cause)
        self.assertEqual(given(steps.refused).number, len(steps.accepted) if step is None else step)
        self.assertIn(f"Step {given(steps.refused).number} is refused: ", said)
        for it in words:
            self.assertIn(it, said)
        self.assertIn("refused", tree.one("tr", "refused").text())
        self.assertIn(
            '<circle cx="8" cy="8" r="5.7"/>',
            tree.source[tree.source.index('class="banner refused"') :][:300],
        )
        return tree, steps

    def test_refused_calls(self) -> None:
        self.refused("replica", schedule([call(0, "wait"), call(7, "wait")]), "no replica 7")
        self.refused("operation", schedule([call(0, "<b>&")]), "no operation <b>&")
        self.refused("arguments", schedule([call(0, "sell", 0)]), "the arguments don't fit sell")
        self.refused("arguments", schedule([call(0, "sell", 2, 1)]), "the arguments don't fit sell")
        ordered = "Two calls of shut are ordered where both have the same s"
        tree, _ = self.refused(
            "conflict",
            schedule([call(0, "shut", 1), call(1, "shut", 1)]),
            "shut(s = Shop#1)",
            ordered,
        )
        self.assertEqual(tree.source.count('class="clash"'), 2)
        tree, _ = self.refused(
            "precondition", schedule([call(0, "sell", 0, 900000001)]), "line 11 "
        )
        self.assertIn("11requires ( n <= 900000000 )", tree.one("pre", "line").text())
        tree, _ = self.refused(
            "observation", schedule([call(0, "shut", 0), call(0, "sell", 0, 1)]), "line 10 "
        )
        self.assertIn("10observes open ( s )", tree.one("pre", "line").text())
        much = 10**15
        self.refused(
            "range",
            schedule([call(0, "sell", 0, much), call(0, "sell", 0, 1)]),
            "sold(Shop#0) would be 1000000000000001",
            text=LOOSE,
        )

    def test_refused_takings(self) -> None:
        self.refused("replica", schedule([call(0, "wait"), take(2, 0)]), "no replica 2")
        self.refused("noevent", schedule([call(0, "wait"), take(1, 4)]), "no call 4")
        self.refused("seen", schedule([call(0, "wait"), take(0, 0)]), "already")
        tree, _ = self.refused(
            "missing", schedule([call(0, "wait"), call(0, "shut", 0), take(1, 1)]), "call 0, wait()"
        )
        self.assertEqual(tree.source.count('class="clash"'), 2)
        much = 10**15
        self.refused(
            "range",
            schedule([call(0, "sell", 0, much), call(1, "sell", 0, 1), take(0, 1)]),
            "would be 1000000000000001",
            text=LOOSE,
        )

    def test_a_refused_step_has_a_box(self) -> None:
        """But for one of a replica that isn't there."""
        for plan, boxes in (
            (schedule([call(0, "sell", 0)]), 3),
            (schedule([take(1, 9)]), 3),
            (schedule([call(9, "wait")]), 2),
        ):
            self.assertEqual(
                [len(it.boxes) for it in pictures_in(told(SHOP, plan)[1])], [boxes, boxes]
            )

    def test_no_page(self) -> None:
        """Where the program writes no replay, its text is all there is."""
        with tempfile.TemporaryDirectory() as folder:
            spec, plan = os.path.join(folder, "s.cise"), os.path.join(folder, "p.json")
            too_many = json.dumps(schedule([], 17))
            for text, content, status in (
                (SHOP, "{", 4),
                (SHOP, "[]", 4),
                ("cise 3", "{}", 3),
                (SHOP, None, 6),
                (SHOP, too_many, 4),
            ):
                with open(spec, "w") as file:
                    file.write(text)
                path = plan if content is not None else folder + "/none"
                with open(plan, "w") as file:
                    file.write(content or "")
                with self.assertRaises(program.Stopped) as stopped:
                    drawn.answer(spec, path)
                self.assertEqual(
                    (stopped.exception.status, stopped.exception.text),
                    program.ended("replay", spec, path),
                )
                self.assertEqual(stopped.exception.status, status)


class Tables(unittest.TestCase):
    def test_the_table_says_the_same(self) -> None:
        for name, text, plan in plans():
            with self.subTest(name=name):
                _, html, steps = told(text, plan)
                tree = Tree(html)
                rows = [it for it in tree.all("tr") if it.inside("tbody")]
                self.assertEqual(len(rows), len(steps.drawn()))
                for row, step in zip(rows, steps.drawn()):
                    what = f"{'calls' if step.kind == 'call' else 'takes'} {step.what()}"
                    self.assertEqual(
                        [row.one("th").text(), row.all("td")[0].text()],
                        [str(step.number), str(step.replica)],
                    )
                    self.assertTrue(row.all("td")[1].text().startswith(what), row.text())
                    changes = [it.text() for it in row.all("td")[2].all("code")]
                    self.assertEqual(changes, step.changes or [])
                ends = re.findall(r"replica (\d+) has taken (\d+) call", tree.text())
                self.assertEqual([int(it) for _, it in ends], steps.replay.taken)
                lists = [[it.text() for it in part.all("li")] for part in tree.all("ul", "facts")]
                self.assertEqual(
                    lists, [facts for facts in map(steps.names.facts, steps.replay.states) if facts]
                )


if __name__ == "__main__":
    unittest.main()
