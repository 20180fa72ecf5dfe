"""Runs to harm: each that is found is replayed anew to the harm that it names, nearly all that can
come up are found, and soon; what isn't found is told as tried."""
import functools
import glob
import json
import os
import random
import re
import tempfile
import unittest
from typing import Dict, List, Tuple
from unittest import mock

from view import program, reach, reaching, run_text
from view.harms import BROKEN, DIFFER, REFUSED, Judge, Run, differs
from view.inputs import text_of
from view.reaching import Found, Reach
from view.report import Replay, Report
from view.run_text import told
from view.runs import Effort
from view.shrinking import shorter
from view.tests.designs import Design
from view.tree import Spec

# The work that a search may do for one refutation, and what is done within a second.
WORK, SECOND = 30_000, 24_000
# Refutations whose state no calls lead to, each with the reason.
BEYOND = {
    ("examples/auction/forgotten.cise", "safety offer highest"): "a lot that is won is closed",
    ("examples/auction/forgotten.cise", "safety close one_winner"): "a lot that is won is closed",
    ("examples/undecided/decided.cise", "safety cash_in sound"): "nothing makes points",
    ("examples/undecided/store.cise", "stable cook 2 cook"): "nothing fills the store",
}
# Random designs of which no run is found, of those below: each was looked at.
RANDOM_DESIGNS = 40


def without_takings(text: str) -> str:
    """A specification whose operations take no token."""
    lines = [it for one in Spec(text).operations.values() for it in one.of("takes")]
    for it in sorted(lines, key=lambda one: -one.head.at):
        text = text[: it.head.at] + text[it.head.at + len(it.text) :]
    return text


@functools.lru_cache(maxsize=None)
def texts() -> Dict[str, str]:
    """The gallery, and the cases without their tokens."""
    found = {it: text_of(it) for it in sorted(glob.glob("examples/*/*.cise"))}
    found.update({it: without_takings(text_of(it)) for it in sorted(glob.glob("cases/*.cise"))})
    return found


def looked_for(text: str, work: int) -> Tuple[Spec, List[Tuple[Found, int]]]:
    """What is found for each refutation of a specification, with the work that it took."""
    spec = Spec(text)
    status, report = program.run_on(text, "check")
    blocks = Report(report).with_verdict("refuted") if status in (0, 1, 5) else []
    found = []
    with Reach(spec, blocks) as searches:
        for it in searches.goals:
            effort = Effort(work=work)
            found.append((searches.one(it, effort), effort.done()))
    return spec, found


class Confirmed(unittest.TestCase):
    """Each run that is found."""

    def confirm(self, spec: Spec, run: Run) -> None:
        """Its schedule, written and read, is replayed to its harm, and to no harm before."""
        schedule = json.loads(reach.written_schedule(run))
        status, text = program.replay(spec.text, schedule)
        replay, count = Replay(text), len(schedule["steps"])
        if run.harm == BROKEN:
            self.assertEqual(
                replay.stop, ["broken", str(count - 1) if count else "start", run.what]
            )
            self.assertEqual(status, 1)
        elif run.harm == DIFFER:
            self.assertEqual((status, replay.stop), (0, ["done", str(count)]))
            self.assertTrue(differs(replay, schedule["steps"]))
        else:
            self.assertEqual(run.harm, REFUSED)
            self.assertEqual(
                (status, replay.stop), (4, ["refused", str(count - 1), "precondition", run.what])
            )
            self.taken_away(spec, schedule)
        self.assertTrue(told(spec, run, 2))

    def taken_away(self, spec: Spec, schedule: Dict[str, object]) -> None:
        """A call that is refused as the last step is accepted there without the call before it."""
        steps = schedule["steps"]
        assert isinstance(steps, list)
        _, text = program.replay(spec.text, {**schedule, "steps": [*steps[:-2], steps[-1]]})
        stop = Replay(text).stop
        self.assertNotEqual(stop[2:3], ["precondition"], "it is refused whatever came before")

    def test_the_gallery_and_the_cases(self) -> None:
        soon, missed, count = 0, [], 0
        for name, text in texts().items():
            spec, found = looked_for(text, WORK)
            for it, work in found:
                with self.subTest(name=name, block=it.block.words()):
                    if it.run:
                        self.confirm(spec, it.run)
                        soon += work <= SECOND
                        count += 1
                    elif (name, it.block.words()) not in BEYOND:
                        missed.append((name, it.block.words()))
        self.assertGreater(count, 140)
        self.assertLessEqual(len(missed), 0.02 * (count + len(missed)), missed)
        self.assertGreaterEqual(soon, 0.9 * (count + len(missed)))

    def test_random_designs(self) -> None:
        count = 0
        for seed in range(RANDOM_DESIGNS):
            text = Design(random.Random(1000 + seed), version=1 + seed % 2).text
            spec, found = looked_for(text, 4_000)
            for it, _ in found:
                with self.subTest(seed=seed, block=it.block.words()):
                    if it.run:
                        self.confirm(spec, it.run)
                        count += 1
        self.assertGreater(count, 20)


class Beyond(unittest.TestCase):
    """What isn't found is told as what was tried, and never as what can't be."""

    def test_sentences(self) -> None:
        for (name, words), _ in BEYOND.items():
            spec, found = looked_for(texts()[name], 3_000)
            it = next(it for it, _ in found if it.block.words() == words)
            self.assertIsNone(it.run)
            said = " ".join(run_text.tried(spec, it))
            self.assertIn("tried", said)
            self.assertNotRegex(said, r"can't|cannot|never comes|impossible")
        self.assertIn("In none of these states is there anything of store", said)
        quota = re.sub(
            r"operation raise.*?end\n\n", "", text_of("patterns/quota/refuted.cise"), flags=re.S
        )
        spec, found = looked_for(quota, 3_000)
        self.assertIsNone(found[0][0].run)
        self.assertIn("No operation ever raises part.", " ".join(run_text.tried(spec, found[0][0])))
        self.assertIn("No operation ever raises part.", run_text.in_short(spec, found[0][0])[0])

    def test_a_start_that_is_broken(self) -> None:
        text = "cise 1\nrelation up\ninvariant fine up\noperation off\n  remove up\nend\n"
        spec, found = looked_for(text.replace("remove up", "insert up"), 2_000)
        self.assertEqual(found[0][0].run and found[0][0].run.steps(), [])
        text = "cise 1\ncounter c\ninvariant fine ( c >= 1 )\noperation less\n  add c - 1\nend\n"
        spec, found = looked_for(text, 2_000)
        last = found[-1][0]
        self.assertEqual(
            (last.block.words(), last.run, last.broken_start), ("safety less fine", None, "fine")
        )
        self.assertIn("Mend that first", " ".join(run_text.tried(spec, last)))

    def test_a_probe_that_is_refused(self) -> None:
        """Nothing fails where the program takes no specification that was made to ask it."""
        spec = Spec(texts()["examples/bank/refuted.cise"])
        block = Report(program.run_on(spec.text, "check")[1]).with_verdict("refuted")[0]
        own = program.run

        def run(*words: str) -> Tuple[int, str]:
            return (3, "refused specification long\n") if words[0] == "simulate" else own(*words)

        with mock.patch.object(program, "run", run):
            found = reaching.in_short(spec, [block])[block]
        self.assertIsNone(found.run)
        self.assertIn("No run was looked for", run_text.in_short(spec, found)[0])

    def test_large_sorts(self) -> None:
        spec = Spec(texts()["examples/bank/refuted.cise"])
        block = Report(program.run_on(spec.text, "check")[1]).with_verdict("refuted")[0]
        assert block.witness
        block.witness.sizes["Account"] = 65
        with Reach(spec, [block]) as searches:
            found = searches.one(searches.goals[0], Effort(work=1000))
        self.assertIsNone(found.run)
        self.assertIn("beyond", " ".join(run_text.tried(spec, found)))


class Large(unittest.TestCase):
    """A design of 24 operations of six parameters ends within its limits."""

    def test_work_is_bounded(self) -> None:
        params = " , ".join(f"p{at} : {'A' if at % 2 else 'int'}" for at in range(6))
        lines = ["cise 1", "sort A", "relation r ( A , A , A )", "counter c ( A )", "counter d"]
        lines.append("invariant low forall x : A . ( c ( x ) <= 40 )")
        for at in range(24):
            lines += [f"operation f{at} ( {params} )", f"  requires ( p0 + p2 > {at} )"]
            lines += [
                "  insert r ( p1 , p3 , p5 )",
                "  add c ( p1 ) p4",
                "  add d 1 when ( c ( p3 ) > p2 )",
                "end",
            ]
        spec = Spec("\n".join(lines) + "\n")
        blocks = Report(program.run_on(spec.text, "check")[1]).with_verdict("refuted")
        with Reach(spec, blocks[::80]) as searches:
            for it in searches.goals:
                effort = Effort(work=2_000)
                searches.one(it, effort)
                self.assertLess(effort.done(), 40_000)


class Shortened(unittest.TestCase):
    def test_what_is_left_out(self) -> None:
        steps = [{"replica": 0, "call": "f", "args": []}, {"replica": 0, "call": "g", "args": []}]
        steps += [
            {"replica": 1, "take": 0},
            {"replica": 1, "take": 1},
            {"replica": 1, "call": "h", "args": []},
        ]
        found = list(shorter(steps, 1, True))
        self.assertEqual(found[0], [steps[1], {"replica": 1, "take": 0}, steps[4]])
        self.assertEqual(found[1], [steps[0], steps[2], steps[4]])
        self.assertEqual(found[2:], [steps[:2] + steps[3:], steps[:3] + steps[4:]])
        self.assertEqual(list(shorter(steps, 1, False)), found[:2])


class Answers(unittest.TestCase):
    """The command: its status, its schedule, what it says."""

    def answer(self, path: str, **options: object) -> Tuple[int, str, str]:
        said: List[str] = []
        with mock.patch.object(reach, "say", said.append):
            status, text = reach.answer(path, **options)
        return status, text, "".join(said)

    def test_found(self) -> None:
        status, text, said = self.answer("examples/bank/refuted.cise", mended=True)
        self.assertEqual(status, 1)
        self.assertEqual(len(json.loads(text)["steps"]), 5)
        self.assertIn("Then solvent is false at B: balance(Account#0) = -1.", said)
        self.assertIn("waits for A's withdraw", said)
        self.assertIn("is turned down: line 20", said)
        self.assertIn("No invariant is false after any of these steps.", said)

    def test_all(self) -> None:
        with tempfile.TemporaryDirectory() as folder:
            status, text, said = self.answer("examples/users/refuted.cise", all=f"{folder}/runs")
            names = sorted(os.listdir(f"{folder}/runs"))
            spec = Spec(text_of("examples/users/refuted.cise"))
            self.assertEqual((status, len(names)), (1, 9))
            for name in names:
                with open(f"{folder}/runs/{name}", encoding="utf-8") as file:
                    schedule = json.load(file)
                self.assertIn(program.replay(spec.text, schedule)[0], (0, 1, 4))
            self.assertEqual(self.answer("examples/users/refuted.cise", all="/dev/null/x")[0], 7)

    def test_statuses(self) -> None:
        self.assertEqual(self.answer("examples/bank/accepted.cise")[:2], (0, ""))
        self.assertEqual(self.answer("examples/undecided/decided.cise")[:2], (5, ""))
        for seconds in ("0", "-1", "x", "inf", "nan"):
            self.assertEqual(
                self.answer("examples/bank/refuted.cise", seconds=seconds)[:2], (2, "")
            )
        with self.assertRaises(program.Stopped):
            self.answer("docs/users/VIEW.md")


if __name__ == "__main__":
    unittest.main()
