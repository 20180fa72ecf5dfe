"""Reviews: each vacuity that is planted is found, with its kind and its place; the accepted forms
of the gallery are clean, or the table says why not. Examples: what is shown is a state as it is
told."""
import glob
import unittest
from typing import Dict, List, Set, Tuple
from unittest import mock

from view import example, program, review
from view.asked import PROVED, REFUTED, Questions
from view.doubts import TO_DO, Doubt, doubts
from view.inputs import text_of
from view.report import Report
from view.tree import Spec

DESIGN = """cise 2
sort User
sort Room
const lobby : Room
relation in_room ( User , Room )
relation shut ( Room )
counter seats ( Room )
token entry ( Room )
conflict entry ( r ) entry ( r )
invariant known forall u : User , r : Room . ( in_room ( u , r ) implies not shut ( r ) )
invariant room forall r : Room . ( seats ( r ) >= 0 )

operation enter ( u : User , r : Room )
  requires not shut ( r )
  requires not in_room ( u , r )
  requires ( seats ( r ) >= 1 )
  insert in_room ( u , r )
  add seats ( r ) - 1
  takes entry ( r )
end
operation close ( r : Room )
  requires forall u : User . not in_room ( u , r )
  insert shut ( r )
  takes entry ( r )
end
operation furnish ( r : Room , n : int )
  requires ( n >= 1 )
  add seats ( r ) n
end
"""
# What is planted into the design: text in place of other text, and the doubt that has to be found
# there.
PLANTED = [
    ("requires ( n >= 1 )", "requires ( n >= 1 )\n  requires ( n <= 0 )", "never-runs", "furnish"),
    ("requires ( n >= 1 )", "requires ( n >= 1 )\n  observes ( n <= 0 )", "never-runs", "furnish"),
    ("( seats ( r ) >= 1 )", "( seats ( r ) <= - 1 )", "never-runs", "enter"),
    (
        "operation close",
        "operation ajar ( r : Room )\n  requires shut ( r )\nend\noperation close",
        None,
        "",
    ),
    ("  requires not shut ( r )\n", "  requires in_room ( u , lobby )\n", "never-reached", "enter"),
    ("  insert shut ( r )\n", "", "constant", "shut"),
    ("  add seats ( r ) n\n", "", "never-reached", "enter"),
    (
        "invariant room",
        "invariant sure forall r : Room . ( seats ( r ) >= seats ( r ) )\ninvariant room",
        "always-true",
        "sure",
    ),
    (
        "invariant room",
        "invariant same forall r : Room . ( shut ( r ) or not shut ( r ) )\ninvariant room",
        "always-true",
        "same",
    ),
    (
        "token entry",
        "relation old ( Room )\ninvariant none forall r : Room . not old ( r )\ntoken entry",
        "unwritten",
        "none",
    ),
    (
        "token entry",
        "relation old ( Room )\ninvariant none forall r : Room . not old ( r )\ntoken entry",
        "constant",
        "old",
    ),
    ("sort Room", "sort Room\nsort Floor", "unused", "Floor"),
    ("counter seats", "relation lost ( User )\ncounter seats", "unused", "lost"),
    ("counter seats", "counter lost ( User )\ncounter seats", "unused", "lost"),
    ("n : int )", "n : int , m : int )", "unused", "m"),
    ("token entry", "token key ( Room )\ntoken entry", "unused", "key"),
    (
        "  takes entry ( r )\nend\noperation close",
        "  takes entry ( r )\n  takes key ( r )\nend\noperation close",
        "token",
        "key",
    ),
    (
        "conflict entry",
        "token key ( Room )\nconflict key ( r ) entry ( r )\nconflict entry",
        "rule",
        "key",
    ),
    ("const lobby : Room", "const lobby : Room\nconst hall : Room", "same", "hall"),
    ("invariant room forall r : Room . ( seats ( r ) >= 0 )\n", "", "negative", "seats"),
]
# The accepted forms that aren't clean, with their kinds and the reason.
NOT_CLEAN: Dict[str, Set[str]] = {}


def found_in(text: str) -> Tuple[Spec, List[Doubt]]:
    """The doubts of a specification."""
    status, said = program.run_on(text, "check")
    assert status in (0, 1, 5), said
    spec = Spec(text)
    return spec, doubts(spec, Report(said))


class Planted(unittest.TestCase):
    def test_the_design_is_clean(self) -> None:
        self.assertEqual(program.run_on(DESIGN, "check")[0], 0)
        self.assertEqual(found_in(DESIGN)[1], [])

    def test_each_is_found(self) -> None:
        kinds: Set[str] = set()
        for old, new, kind, name in PLANTED:
            with self.subTest(new=new):
                text = DESIGN
                if "key ( r )" in new and "token key" not in new:
                    text = text.replace("token entry", "token key ( Room )\ntoken entry")
                self.assertIn(old, text)
                text = text.replace(old, new, 1)
                if kind == "negative":
                    text = text.replace(
                        "requires ( seats ( r ) >= 1 )", "requires ( seats ( r ) <= - 1 )"
                    )
                _, found = found_in(text)
                if kind is None:
                    self.assertEqual(found, [])
                    continue
                kinds.add(kind)
                self.has(text, found, kind, name)
        self.assertEqual(kinds, set(TO_DO) - {"never-meet"})

    def has(self, text: str, found: List[Doubt], kind: str, name: str) -> None:
        """Whether a doubt of this kind stands at this name."""
        lines = text.split("\n")
        places = [
            lines[it.span.line - 1][it.span.column - 1 : it.span.end_column - 1]
            for it in found
            if it.kind == kind
        ]
        self.assertTrue(places, found)
        if name:
            self.assertIn(name, places)

    def test_operations_that_never_meet(self) -> None:
        text = (
            DESIGN + "operation open ( r : Room )\n  requires forall s : Room . shut ( s )\nend\n"
        )
        text = text.replace(
            "requires not shut ( r )", "requires forall s : Room . not shut ( s )", 1
        )
        _, found = found_in(text)
        met = [it.sentence for it in found if it.kind == "never-meet"]
        self.assertEqual(len(met), 1)
        self.assertIn("both enter and open", met[0])

    def test_on_whose_word(self) -> None:
        """What is proved and what is tried are told apart."""
        for old, new, kind, _ in PLANTED:
            if kind in ("never-runs", "always-true", "never-reached"):
                _, found = found_in(DESIGN.replace(old, new, 1))
                word = "tried, not proved" if kind == "never-reached" else "proved by the program"
                self.assertTrue(any(word in it.sentence for it in found if it.kind == kind), found)


class Gallery(unittest.TestCase):
    def test_accepted_forms(self) -> None:
        paths = sorted(glob.glob("examples/*/*.cise") + glob.glob("cases/*.cise"))
        clean = 0
        for path in paths + sorted(glob.glob("patterns/*/accepted.cise")):
            status, said = program.run("check", path)
            if status == 0 and "/undecided/" not in path:
                spec = Spec(text_of(path))
                with self.subTest(path=path):
                    kinds = {it.kind for it in doubts(spec, Report(said))}
                    self.assertEqual(kinds, NOT_CLEAN.get(path, set()))
                    clean += not kinds
        self.assertGreater(clean, 40)


class Lines(unittest.TestCase):
    """The lines that a design could do without, and the command."""

    def answer(self, text: str) -> Tuple[int, List[str]]:
        with mock.patch.object(review, "say"), mock.patch.object(review, "text_of", lambda _: text):
            with mock.patch.object(program, "answer", lambda *_: program.run_on(text, "check")):
                status, lines = review.answer("design.cise")
        return status, lines.splitlines()

    def test_not_needed(self) -> None:
        status, lines = self.answer(text_of("examples/bank/accepted.cise"))
        self.assertEqual(status, 0)
        self.assertEqual(len(lines), 1)
        self.assertRegex(
            lines[0], r"^design.cise:18:3: not-needed: withdraw .* requires \( n >= 0 \)$"
        )

    def test_observed(self) -> None:
        text = (
            "cise 1\nsort Lot\nrelation open ( Lot )\ninitially open true\ncounter bids ( Lot )\n"
        )
        text += "operation bid ( l : Lot )\n  requires open ( l )\n  add bids ( l ) 1\nend\n"
        text += "operation close ( l : Lot )\n  remove open ( l )\nend\n"
        _, lines = self.answer(text)
        self.assertEqual([it.split(": ")[1] for it in lines], ["observes"])
        self.assertIn("bid || close", lines[0])

    def test_status(self) -> None:
        self.assertEqual(self.answer(DESIGN.replace("sort Room", "sort Room\nsort Floor"))[0], 5)
        with self.assertRaises(program.Stopped):
            review.answer("docs/users/VIEW.md")


class Examples(unittest.TestCase):
    def answer(self, path: str, *names: str, another: bool = False) -> Tuple[int, str]:
        with mock.patch.object(example, "say"):
            return example.answer(path, *names, another=another)

    def test_each_operation_of_the_gallery(self) -> None:
        """What is shown was asked of the program: each witness has calls of the operations, and
        another example is another one."""
        for path in sorted(glob.glob("examples/*/accepted.cise"))[::4]:
            spec = Spec(text_of(path))
            questions = Questions(spec)
            answers: Dict[str, str] = {}
            for name in map(str, spec.operations):
                with self.subTest(path=path, name=name):
                    said = questions.may_run(name)
                    self.assertEqual(said.verdict, REFUTED)
                    assert said.witness is not None
                    self.assertEqual([it for it, _ in said.witness.calls], [name])
                    status, answers[name] = self.answer(path, name)
                    self.assertEqual(status, 0)
                    self.assertIn(f"      {name}(", answers[name])
                    other_status, other = self.answer(path, name, another=True)
                    self.assertIn(other_status, (0, 1))
                    self.assertNotEqual(other, answers[name])

    def test_two(self) -> None:
        status, text = self.answer("examples/bank/accepted.cise", "withdraw", "withdraw")
        self.assertEqual(status, 0)
        self.assertEqual(text.count("withdraw(a = Account#"), 2)
        self.assertIn("withdraw(a = Account#0", text)
        self.assertIn("withdraw(a = Account#1", text)

    def test_none(self) -> None:
        text = DESIGN.replace("requires ( n >= 1 )", "requires ( n >= 1 )\n  requires ( n <= 0 )")
        self.assertEqual(Questions(Spec(text)).may_run("furnish").verdict, PROVED)
        status, said = example.without_example(
            ["furnish"], Questions(Spec(text)).may_run("furnish")
        )
        self.assertEqual(status, 1)
        self.assertIn("has proved it.", said)
        self.assertEqual(self.answer("examples/bank/accepted.cise", "pay"), (2, ""))


if __name__ == "__main__":
    unittest.main()
