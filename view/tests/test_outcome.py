"""The states at the end of refutations: each refutation is confirmed by the program's replay, and
what isn't one is not."""
from __future__ import annotations

import copy
import functools
import glob
import random
import unittest
from typing import Any, Callable

from view import outcome, program
from view.given import given
from view.report import Block, Replay, Report, Witness
from view.tests.designs import Design
from view.tests.kinds import KINDS
from view.tree import Spec
from view.words import text_of


@functools.lru_cache(maxsize=None)
def report_on(text: str, *words: str) -> str:
    """The program's report on a specification, as text."""
    return program.run_on(text, "check", *words)[1]


def checked(text: str, *words: str) -> tuple[Spec, Report]:
    """A specification and its report."""
    return Spec(text), Report(report_on(text, *words))


@functools.lru_cache(maxsize=None)
def gallery() -> dict[str, str]:
    """The specifications of the examples and those of `kinds`, by name."""
    return {**{it: text_of(it) for it in sorted(glob.glob("examples/*/*.cise"))}, **KINDS}


def refuted(text: str, *words: str) -> list[tuple[Spec, Block]]:
    spec, report = checked(text, *words)
    return [(spec, it) for it in report.with_verdict("refuted")]


def found_in(text: str, obligation: str) -> tuple[Spec, Block]:
    """A specification, and its refuted block with this line."""
    return next((spec, it) for spec, it in refuted(text) if it.words() == obligation)


class Confirmed(unittest.TestCase):
    def test_each_refutation_of_the_gallery(self) -> None:
        kinds = set()
        for name, text in gallery().items():
            for spec, block in refuted(text):
                with self.subTest(name=name, block=block.words()):
                    self.confirm(spec, block)
                    kinds.add(block.kind)
        self.assertEqual(kinds, {"init", "safety", "commute", "stable"})

    def test_random_designs(self) -> None:
        counts = dict.fromkeys(("init", "safety", "commute", "stable"), 0)
        for seed in range(60):
            for spec, block in refuted(
                Design(random.Random(seed), version=1 + seed % 2).text, "--budget", "60"
            ):
                with self.subTest(seed=seed, block=block.words()):
                    self.confirm(spec, block)
                    counts[block.kind] += 1
        self.assertGreater(min(counts.values()), 3, counts)

    def confirm(self, spec: Spec, block: Block) -> None:
        """The replay sets up the witness's state, and ends as it must. The states at the end are
        those of the outcome."""
        made = outcome.Confirmation(spec, block)
        status, text = program.replay(made.text(), made.schedule())
        replay = Replay(text)
        if block.kind == "commute":
            self.assertEqual((status, replay.stop), (0, ["done", str(len(made.steps))]))
        else:
            self.assertEqual(
                (status, replay.stop),
                (4, ["refused", str(len(made.steps) - 1), "precondition", "1"]),
            )
        found = outcome.outcome(spec, block)
        self.assertIsNone(found.why)
        self.assertEqual(
            [vars(it) for it in given(found.states)], [vars(it) for it in replay.states]
        )
        self.assertEqual(len(given(found.states)), max(1, len(given(block.witness).calls)))
        called = [it for it in made.steps if it.get("call") in spec.operations]
        self.assertEqual([(it["call"], it["args"]) for it in called], given(block.witness).calls)
        before = self.states_before(made, made.steps.index(called[0]) if called else 0)
        self.assertEqual(before, [vars(given(block.witness).state)] * made.replicas)

    def states_before(self, made: outcome.Confirmation, step: int) -> list[dict[str, Any]]:
        """The states of the replicas before a step."""
        _, text = program.replay(made.text(), {**made.schedule(), "steps": made.steps[:step]})
        return [vars(it) for it in Replay(text).states]

    def test_the_states(self) -> None:
        spec, block = found_in(KINDS["SETTLED"], "commute join leave sum")
        ends = given(outcome.outcome(spec, block).states)
        self.assertEqual([it.count[("sum", (0,))] for it in ends], [3, 2])
        spec, block = found_in(text_of("examples/bank/refuted.cise"), "stable withdraw 2 withdraw")
        self.assertEqual([it.count for it in given(outcome.outcome(spec, block).states)], [{}, {}])
        spec, block = found_in(KINDS["COUNTED"], "safety undo counted")
        self.assertEqual(
            given(given(outcome.outcome(spec, block).states))[0].count, {("edits", (0,)): -1}
        )


class Refused(unittest.TestCase):
    """A witness that is changed so that it is none isn't confirmed."""

    CHANGES: list[tuple[str, str, Callable[[Witness], object]]] = [
        (
            "examples/bank/refuted.cise",
            "stable withdraw 2 withdraw",
            lambda it: it.state.count.clear(),
        ),
        (
            "examples/bank/refuted.cise",
            "stable withdraw 2 withdraw",
            lambda it: it.state.count.update({("balance", (0,)): 2}),
        ),
        (
            "examples/bank/refuted.cise",
            "stable withdraw 2 withdraw",
            lambda it: it.calls[1][1].__setitem__(1, 0),
        ),
        (
            "examples/cart/refuted.cise",
            "commute put take_out in_cart",
            lambda it: it.calls.__setitem__(slice(None), [it.calls[0], it.calls[0]]),
        ),
        (
            "examples/seats/refuted.cise",
            "stable book 1 book",
            lambda it: it.state.true.add(("holds", (0, 0))),
        ),
        (
            "examples/auction/forgotten.cise",
            "safety offer highest",
            lambda it: it.at.__setitem__(2, 1),
        ),
        (
            "examples/auction/forgotten.cise",
            "safety offer highest",
            lambda it: it.state.true.discard(("won", (0, 1))),
        ),
        ("COUNTED", "safety undo counted", lambda it: it.state.count.update({("edits", (1,)): 1})),
        ("COUNTED", "safety undo counted", lambda it: it.state.count.update({("edits", (1,)): -1})),
        ("SETTLED", "commute join leave sum", lambda it: it.at.__setitem__(0, 1)),
        ("ROOMS", "stable start 1 shut", lambda it: it.state.true.clear()),
        (
            "SILENT",
            "safety fall alive",
            lambda it: it.consts.update(back=0, front=1) or it.sizes.update(Key=2),
        ),
    ]

    def test_changed_witnesses(self) -> None:
        for name, obligation, change in self.CHANGES:
            with self.subTest(name=name, block=obligation):
                spec, block = found_in(gallery()[name], obligation)
                self.assertIsNotNone(outcome.outcome(spec, block).states)
                witness = copy.deepcopy(given(block.witness))
                block.witness = witness
                change(witness)
                found = outcome.outcome(spec, block)
                self.assertIsNone(found.states)
                self.assertIn("otherwise", given(found.why))


class Beyond(unittest.TestCase):
    """What a replay can't have is told without values, and why."""

    def why(self, text: str, obligation: str, change: Callable[..., Any]) -> str:
        spec, block = found_in(text, obligation)
        change(block.witness)
        found = outcome.outcome(spec, block)
        self.assertIsNone(found.states)
        return given(found.why)

    def test_large_sorts(self) -> None:
        text = KINDS["COUNTED"]
        why = self.why(text, "safety undo counted", lambda it: it.sizes.update(User=65))
        self.assertEqual(why, "User has 65 elements, and a replay can have 64 of a sort.")
        spec, block = found_in(text, "safety undo counted")
        given(block.witness).sizes["User"] = 64
        self.assertIsNotNone(outcome.outcome(spec, block).states)

    def test_values_beyond_the_range(self) -> None:
        text = (
            KINDS["COUNTED"].replace("initially", "counter pool initially").replace(">= 0", "<= 5")
        )
        text = text.replace("add edits ( d ) - 1", "add edits ( d ) pool")
        change = lambda it: it.state.count.update({("edits", (0,)): 1, ("pool", ()): 10**15})
        self.assertEqual(
            self.why(text, "safety undo counted", change),
            "A value of edits leaves the range of a replay, 10^15 to either side.",
        )

    def test_many_steps(self) -> None:
        full = {("granted", (a, b)) for a in range(64) for b in range(64)}

        def change(it: Witness) -> None:
            it.sizes.update(User=64, Document=64)
            it.state.true.update(full)
            it.state.count.update({("edits", (a,)): 1 for a in range(64)})

        spec, block = found_in(KINDS["WRITTEN"], "stable write 1 purge")
        change(given(block.witness))
        self.assertIsNotNone(outcome.outcome(spec, block).states)
        wide = KINDS["WRITTEN"].replace(
            "relation granted", "relation all ( User , User , User ) relation granted"
        )
        for size in (20, 30):
            every = {
                ("all", (a, b, c)) for a in range(size) for b in range(size) for c in range(size)
            }
            why = self.why(
                wide,
                "stable write 1 purge",
                lambda it: it.sizes.update(User=size) or it.state.true.update(every),
            )
            self.assertEqual(why, "A replay can have 10,000 steps, and this state needs more.")


if __name__ == "__main__":
    unittest.main()
