"""Words, trees, reports, replays and suggestions: what is read is what the program has."""
from __future__ import annotations

import glob
import random
import unittest
from typing import Any, Sequence

from view import program
from view.formulas import Term, formula_of, readings_of
from view.given import given
from view.report import Replay, Report, Simulation, Suggestion
from view.tests.designs import Design
from view.tree import Line, Spec
from view.words import Word, encoded, text_of, words


def laid_out(text: str, chance: random.Random) -> str:
    """The words of a text with other white space and comments between them."""
    out: list[str] = []
    before = ""
    for word in words(text):
        gap = chance.choice(
            ["", " ", " ", "\n", "\t", "\r\n", "  # a comment, no word ( x )\n", " # \u00e9\n\n"]
        )
        if gap == "" and before and joins(before, word):
            gap = " "
        out.append(gap + word)
        before = word
    return "".join(out) + chance.choice(["", "\n", " # end"])


def joins(before: str, word: str) -> bool:
    """Whether two words would be cut otherwise without a space between them."""
    return list(words(before + word)) != [before, word]


def read(spec: Spec) -> tuple[list[Any], list[Any], list[Any]]:
    """All that a specification's tree has, as one value."""
    things: list[Any] = [
        spec.version,
        spec.sorts,
        spec.consts,
        spec.relations,
        spec.counters,
        spec.tokens,
        spec.initially,
        [rule[:2] for rule in spec.rules],
    ]
    invariants = [(name, it.prefix, it.vars, it.tree()) for name, it in spec.invariants.items()]
    return (
        things,
        invariants,
        [
            (it.name, it.params, [line_read(line) for line in it.lines])
            for it in spec.operations.values()
        ],
    )


def line_read(
    line: Line,
) -> tuple[
    Sequence[
        Sequence[Sequence[Sequence[int | str | None] | int | str | None] | int | str | None] | str
    ]
    | bool
    | str
    | None,
    ...,
]:
    if line.head in ("requires", "observes"):
        return line.head, line.prefix, line.vars, line.tree()
    return line.head, line.thing(), line.amount(), line.guard(), line.is_shared()


class Specifications(unittest.TestCase):
    def test_random_ones_are_spelled_and_read_alike(self) -> None:
        chance = random.Random(11)
        for number in range(80):
            text = laid_out(Design(chance, version=number % 2 + 1).text, chance)
            status, spelled = program.run_on(text, "spell")
            self.assertEqual(status, 0, text)
            self.assertEqual(words(text), words(spelled))
            self.assertEqual(read(Spec(text)), read(Spec(spelled)))

    def test_the_gallery_is_spelled_and_read_alike(self) -> None:
        for path in glob.glob("examples/*/*.cise"):
            with self.subTest(path):
                self.assertEqual(
                    read(Spec(text_of(path))), read(Spec(program.run("spell", path)[1]))
                )

    def test_places_of_words(self) -> None:
        text = "cise 1 # words: none\r\n\tsort A\n\n  relation r(A)# x\ninvariant i ( 2<=3 )"
        for word in words(text):
            line = text.split("\n")[word.line - 1]
            self.assertEqual(text[word.at : word.end], word)
            self.assertEqual(line[word.column - 1 : word.column - 1 + len(word)], word)
        self.assertEqual(
            [(it, it.line, it.column) for it in words(text)][4:8],
            [("relation", 4, 3), ("r", 4, 12), ("(", 4, 13), ("A", 4, 14)],
        )

    def test_words_are_cut_as_the_language_says(self) -> None:
        self.assertEqual(
            words("01 0x a1_b <=< = !=>=>. 12a"),
            ["0", "1", "0", "x", "a1_b", "<=", "<", "=", "!=", ">=", ">", ".", "12", "a"],
        )
        self.assertEqual(words("a $ \u00e9 b ! c"), ["a", "b", "c"])

    def test_bytes_stay(self) -> None:
        import os
        import tempfile

        data = b"cise 1 # \xff\xfe \xc3\xa9 \r\n"
        with tempfile.TemporaryDirectory() as folder:
            path = os.path.join(folder, "x")
            with open(path, "wb") as file:
                file.write(data)
            self.assertEqual(encoded(text_of(path)), data)

    def test_a_tree_by_hand(self) -> None:
        spec = Spec(text_of("examples/tournament/accepted.cise"))
        self.assertEqual(
            (spec.sorts, spec.relations["enrolled"]),
            (["Player", "Tournament"], ["Player", "Tournament"]),
        )
        enroll = spec.operations["enroll"]
        self.assertEqual(enroll.params, [("p", "Player"), ("t", "Tournament")])
        line = spec.invariants["registered"]
        self.assertEqual(
            (line.prefix, line.vars), ("forall", [("p", "Player"), ("t", "Tournament")])
        )
        self.assertEqual(line.tree()[0], "implies")
        self.assertEqual(spec.text.split("\n")[line.number - 1][:19], "invariant registere")
        self.assertTrue(
            line.text.startswith("invariant registered forall p : Player , t : Tournament .\n")
        )

    def test_a_formula_by_hand(self) -> None:
        tree = formula_of(words("( not r ( x , y ) implies ( - 2 * c ( x ) + 3 - n >= d ) )"))
        sum_: Any = [(-2, ("reading", "c", ["x"])), (3, None), (-1, ("reading", "n", []))]
        self.assertEqual(
            tree,
            (
                "implies",
                ("not", ("reading", "r", ["x", "y"])),
                ("compare", ">=", sum_, [(1, ("reading", "d", []))]),
            ),
        )
        self.assertEqual(readings_of(tree), [("r", ["x", "y"]), ("c", ["x"]), ("n", []), ("d", [])])

    def test_lines_by_hand(self) -> None:
        spec = Spec(
            "cise 2 sort A counter c ( A ) token t ( A ) operation f ( a : A , n : int ) set c ( *"
            " ) - 3 + n when ( n > 0 ) takes t ( a ) shared end"
        )
        change, taking = spec.operations["f"].lines
        self.assertEqual(
            (change.thing(), change.amount()),
            (("c", ["*"]), [(-3, None), (1, ("reading", "n", []))]),
        )
        self.assertEqual(given(change.guard())[:2], ("compare", ">"))
        self.assertEqual(
            (taking.thing(), taking.is_shared(), taking.amount(), taking.guard()),
            (("t", ["a"]), True, None, None),
        )


class Texts(unittest.TestCase):
    def test_a_report(self) -> None:
        text = program.run("check", "examples/bank/refuted.cise")[1]
        report = Report(text)
        lines = text.split("\n")
        self.assertEqual(
            (report.version, report.budget, len(report.blocks), report.word),
            (1, 10000, 12, "rejected"),
        )
        for block in report.blocks:
            self.assertEqual(lines[block.line_in_report - 1], block.words())
            self.assertEqual(block.count, len(block.log))
        (refuted,) = report.with_verdict("refuted")
        self.assertEqual(
            (refuted.pair(), given(refuted.witness).calls),
            (("withdraw", "withdraw"), [("withdraw", [0, 1])] * 2),
        )
        self.assertEqual(given(refuted.witness).state.count, {("balance", (0,)): 1})

    def test_an_undecided_block(self) -> None:
        (block,) = Report(program.run("check", "examples/undecided/meals.cise")[1]).with_verdict(
            "undecided"
        )
        self.assertEqual((block.why, block.count, len(block.log)), ("rows", 1, 2))
        self.assertTrue(block.log[-1].startswith("rows "))

    def test_a_replay(self) -> None:
        replay = Replay(
            program.run("replay", "examples/bank/refuted.cise", "examples/bank/two_branches.json")[
                1
            ]
        )
        self.assertEqual(
            replay.steps,
            [(0, "call", 0), (1, "take", 0), (0, "call", 1), (1, "call", 2), (0, "take", 2)],
        )
        self.assertEqual((replay.stop, replay.taken), (["broken", "4", "solvent"], [3, 2]))
        self.assertEqual([it.count[("balance", (0,))] for it in replay.states], [-30, 30])

    def test_a_simulation(self) -> None:
        simulation = Simulation(
            program.run("simulate", "examples/bank/accepted.cise", "examples/bank/granted.json")[1]
        )
        self.assertEqual(simulation.steps[3], (3, 1, ["awaits", "0", "1"]))
        self.assertEqual((simulation.stop, simulation.taken), (["done", "5"], [2, 3]))

    def test_a_suggestion(self) -> None:
        suggestion = Suggestion(program.run("suggest", "examples/friends/refuted.cise")[1])
        pair = next(it for it in suggestion.pairs if (it.left, it.right) == ("befriend", "part"))
        self.assertEqual(
            (pair.word, given(pair.block).words()), ("needed", "commute befriend part friends")
        )
        self.assertEqual(
            [(it.word, it.left, it.right) for it in pair.answers],
            [("notby", a, b) for a in "pq" for b in "pq"],
        )
        self.assertTrue(all(given(given(it.block).witness).calls for it in pair.answers))
        counts = [
            sum(it.word == word for it in suggestion.pairs)
            for word in ("needed", "free", "unknown")
        ]
        self.assertEqual(counts, [suggestion.needed, suggestion.free, suggestion.unknown])


class Runs(unittest.TestCase):
    def test_statuses(self) -> None:
        self.assertEqual(program.run("nothing"), (2, "refused words\n"))
        self.assertEqual(program.run_on("cise 1\n", "check", "--budget", "5")[0], 0)
        with self.assertRaises(program.Stopped) as stopped:
            program.answer("check", "no/such/file")
        self.assertEqual(
            (stopped.exception.status, stopped.exception.text, stopped.exception.words),
            (6, "", ["check", "no/such/file"]),
        )
        with self.assertRaises(program.Stopped) as stopped:
            program.replayed("examples/bank/refuted.cise", "README.md")
        self.assertEqual(
            (stopped.exception.status, stopped.exception.text), (4, "refused schedule json\n")
        )
        self.assertEqual(
            program.replayed("examples/bank/accepted.cise", "examples/bank/two_branches.json")[0], 4
        )


if __name__ == "__main__":
    unittest.main()
