"""The text of `explain`, byte for byte for each kind of story; its width and its letters; what it
answers for other reports and for bad input."""
from __future__ import annotations

import functools
import os
import re
import tempfile
import time
import unittest
from unittest import mock

from view import explain, program
from view.report import Report
from view.story import stories
from view.tests.kinds import KINDS
from view.tests.test_outcome import checked, gallery, report_on
from view.tree import Spec
from view.words import encoded, text_of

STORIES = {
    (
        "examples/flags/refuted.cise",
        "init stored",
    ): """1. stored is false at the start
   [init stored, report line 6]

  At the start there is:
      up

  There the invariant stored is false.
     11 | invariant stored in_step
  where in_step is false
""",
    (
        "COUNTED",
        "safety undo counted",
    ): """1. undo breaks counted
   [safety undo counted, report line 6]

  User has no element here. A replica holds:
      (nothing: every fact is false, every counter 0)

  There, this call is allowed:
      undo(d = draft)

  After it the invariant counted is false for d = draft.
      8 | invariant counted forall d : Document . ( edits ( d ) >= 0 )
  where edits(draft) is -1
""",
    (
        "examples/cart/refuted.cise",
        "commute put take_out in_cart",
    ): """1. put and take_out leave in_cart different
   [commute put take_out in_cart, report line 35]

  Both replicas hold:
      (nothing: every fact is false, every counter 0)

  There, both calls are allowed:
    A  put(c = Customer#0, i = Item#0)      --.  neither knows
    B  take_out(c = Customer#0, i = Item#0) --'  of the other

  Each then takes the other's call. At the end:
    A  in_cart(Customer#0, Item#0) is false
    B  in_cart(Customer#0, Item#0) is true
  though both have taken the same calls.
     10 | insert in_cart ( c , i )
     14 | remove in_cart ( c , i )
""",
    (
        "examples/seats/refuted.cise",
        "stable book 1 book",
    ): """1. another book takes away what book requires
   [stable book 1 book, report line 195]

  Both replicas hold:
      (nothing: every fact is false, every counter 0)

  There, both calls are allowed:
    A  book(p = Passenger#0, s = Seat#0) --.  neither knows
    B  book(p = Passenger#0, s = Seat#0) --'  of the other

  A's call reaches B after B's own call. There a line that A's call requires is
  false for q = Passenger#0.
     13 | requires forall q : Passenger . not holds ( q , s )
  where holds(Passenger#0, Seat#0) is true
""",
    (
        "ROOMS",
        "stable start 1 shut",
    ): """1. shut takes away what start requires
   [stable start 1 shut, report line 34]

  Both replicas hold:
      free(lobby)

  There, both calls are allowed:
    A  start() --.  neither knows
    B  shut()  --'  of the other

  A's call reaches B after B's own call. There a line that A's call requires is
  false: no r : Room is left for which it holds.
      9 | requires exists r : Room . free ( r )
""",
    (
        "WRITTEN",
        "stable write 1 purge",
    ): """1. purge takes away what write requires
   [stable write 1 purge, report line 95]

  Both replicas hold:
      granted(User#0, draft)

  There, both calls are allowed:
    A  write(u = User#0, d = draft, n = 1) --.  neither knows
    B  purge()                             --'  of the other

  A's call reaches B after B's own call. There a line that A's call requires is
  false.
     10 | requires granted ( u , d )
  where granted(User#0, draft) is false

  Note. The witness need not keep what write observes: no obligation asks it.
""",
    (
        "examples/undecided/meals.cise",
        "stable cook 7 cook",
    ): """1. whether another cook leaves standing what cook requires
   [stable cook 7 cook, report line 53]

  The search for whole numbers reached 10,000 rows.
  Fewer numbers that stand together in one comparison make it smaller.

     16 | requires ( store >= rice + beans + kale + eggs + corn )
""",
    (
        "SILENT",
        "safety fall alive",
    ): """1. fall breaks alive
   [safety fall alive, report line 6]

  Room#0 is there too. A replica holds:
      up
      back is front

  There, this call is allowed:
      fall()

  After it the invariant alive is false.
      9 | invariant alive up
  where up is false
""",
    (
        "SETTLED",
        "commute join leave sum",
    ): """2. join and leave leave sum different
   [commute join leave sum, report line 121]

  Both replicas hold:
      (nothing: every fact is false, every counter 0)

  There, both calls are allowed:
    A  join(a = P#0, b = P#1)  --.  neither knows
    B  leave(a = P#1, b = P#0) --'  of the other

  Each then takes the other's call. At the end:
    A  sum(P#0) is 3
    B  sum(P#0) is 2
  though both have taken the same calls.
      9 | set sum ( a ) 2
     14 | set sum ( * ) 3

  Note. join and leave are ordered where both have the same a and the same b.
  These two calls aren't.
""",
    (
        "LAID_OUT",
        "safety f alive",
    ): """1. f breaks alive
   [safety f alive, report line 6]

  A replica holds:
      up(A#0)

  There, this call is allowed:
      f(a = A#0)

  After it the invariant alive is false for x = A#0.
      2 | invariant alive
      3 |         forall x : A .   # all \u00e9\\xff\\x1b[31m of them
      4 |                 up ( x )
  where up(A#0) is false
""",
    (
        "examples/auction/forgotten.cise",
        "safety offer highest",
    ): """1. offer breaks highest
   [safety offer highest, report line 31]

  A replica holds:
      won(Lot#0, Bidder#1)
      open(Lot#0)

  There, this call is allowed:
      offer(l = Lot#0, b = Bidder#0, n = 1)

  After it the invariant highest is false for l = Lot#0, w = Bidder#1,
  b = Bidder#0.
     16 | invariant highest forall l : Lot , w : Bidder , b : Bidder .
     17 |   ( won ( l , w ) implies ( bid ( l , b ) <= bid ( l , w ) ) )
  where won(Lot#0, Bidder#1) is true
        bid(Lot#0, Bidder#0) is 1
        bid(Lot#0, Bidder#1) is 0
""",
    (
        "LONG",
        "safety",
    ): """1. {f} breaks {i}
   [safety {f} {i},
   report line 6]

  A replica holds:
      (nothing: every fact is false, every counter 0)

  There, this call is allowed:
      {f}(
        {p} = {c},
        {q} = {T}#0,
        {n} = 1)

  After it the invariant {i} is false for
  {x} = {c},
  {y} = {T}#0,
  {z} = {c}.
      9 | {line}
  where {k}({c},
          {T}#0) is -1
""".format(
        line=KINDS["LONG"].split("\n")[8], **{it: it * 32 for it in "STcrktixyzfgpqn"}
    ),
}

HEADS = {
    "examples/auction/forgotten.cise": """offer alone     refuted, see 1
close alone     refuted, see 2
start || close  ordered: same l
offer || close  ordered: same l
close || close  ordered: same l
3 pairs may run at once
""",
    "examples/folders/accepted.cise": """make || make      ordered: same c
make || delete    ordered: p = c
move || move      ordered: same c
move || delete    ordered: same c or p = c
delete || delete  ordered: same c
1 pair may run at once
""",
    "examples/flags/refuted.cise": "at the start  refuted, see 1\nthere are no operations\n",
    "examples/undecided/vast.cise": "cash_in alone  undecided, see 1\n1 pair may run at once\n",
    "examples/undecided/meals.cise": "cook || cook  undecided, see 1\n0 pairs may run at once\n",
    "SETTLED": """join || join    ordered: same a, b
join || leave   refuted, see 1, 2, though ordered: same a, b
leave || leave  refuted, see 3, though ordered: same a, b
0 pairs may run at once
""",
}


@functools.lru_cache(maxsize=None)
def told(name: str) -> tuple[int, str]:
    """The status and the text for a specification of the gallery."""
    with tempfile.TemporaryDirectory() as folder:
        path = os.path.join(folder, "design.cise")
        with open(path, "wb") as file:
            file.write(encoded(gallery()[name]))
        return explain.answer(path, no_reach=True)


class Folder(unittest.TestCase):
    def setUp(self) -> None:
        folder = tempfile.TemporaryDirectory()
        self.addCleanup(folder.cleanup)
        self.folder = folder.name

    def file(self, name: str, text: str) -> str:
        path = os.path.join(self.folder, name)
        with open(path, "wb") as file:
            file.write(encoded(text))
        return path

    def explained(self, text: str, *report: str) -> tuple[int, str]:
        path = self.file("design.cise", text)
        given = self.file("report", report[0]) if report else None
        return explain.answer(path, given, no_reach=True)


class Texts(unittest.TestCase):
    def test_stories(self) -> None:
        for (name, _), story in STORIES.items():
            with self.subTest(story=story.split("\n")[0]):
                text = told(name)[1]
                self.assertIn("\n\n" + story + "\n", text)

    def test_heads(self) -> None:
        for name, head in HEADS.items():
            with self.subTest(name=name):
                text = told(name)[1]
                self.assertEqual(text[: len(head) + 1], head + "\n")

    def test_a_whole_text(self) -> None:
        status, text = told("COUNTED")
        story = STORIES["COUNTED", "safety undo counted"]
        origin = (
            "Verdicts and values are the program's. Lines, and what is ordered, are read off\n"
            "the specification. The sentences are made from both, and aren't proved.\n"
        )
        self.assertEqual(status, 1)
        steps = (
            "Next: a call that breaks an invariant alone wants a requires line, or an\n"
            "invariant that was forgotten: no order helps it; reach SPEC writes runs that\n"
            "lead from the start to what is refuted.\n"
        )
        head, last = (
            "undo alone  refuted, see 1\n1 pair may run at once\n",
            "rejected: 2 proved, 1 refuted, 0 undecided\n",
        )
        self.assertEqual(text, f"{head}\n{story}\n{steps}\n{origin}\n{last}")

    def test_statuses_and_counts(self) -> None:
        for name, status, last in (
            ("examples/bank/accepted.cise", 0, "accepted: 12 proved, 0 refuted, 0 undecided"),
            ("examples/bank/refuted.cise", 1, "rejected: 11 proved, 1 refuted, 0 undecided"),
            ("examples/undecided/vast.cise", 5, "undecided: 4 proved, 0 refuted, 1 undecided"),
        ):
            found, text = told(name)
            self.assertEqual((found, text.splitlines()[-1]), (status, last))

    def test_width_and_letters(self) -> None:
        for name, text in gallery().items():
            names = {
                it.capitalize() for it in Spec(text).words if it[0].islower() and len(it) > 1
            } - set(Spec(text).words)
            for line in told(name)[1].splitlines():
                with self.subTest(name=name, line=line):
                    if not re.match(r" *[0-9]+ \|", line):
                        self.assertLessEqual(len(line), 80)
                        self.assertTrue(line.isascii())
                        self.assertEqual(line, line.rstrip())
                        self.assertFalse(
                            names.intersection(re.findall(r"\w+", line))
                            - {"There", "At", "Each", "Note", "Next"}
                        )

    def test_every_story_is_told(self) -> None:
        for name, text in gallery().items():
            said = told(name)[1]
            for it in checked(text)[1].blocks:
                head = f"[{it.words()}, report line {it.line_in_report}]"
                self.assertEqual(
                    " ".join(said.split()).count(head), int(it.verdict != "proved"), name
                )
                if it.verdict == "refuted" and it.kind == "commute" and f"\n   {head[:20]}" in said:
                    story = said[said.index(f"[{it.kind} {it.names[0]}") :]
                    self.assertRegex(
                        story, r"(?s)At the end:\n    A  .* is \S+\n    B  .* is \S+\n  though both"
                    )

    def test_long_lists_are_cut(self) -> None:
        text = told("THINGS")[1]
        facts = re.findall(r"^      [rk]\d+\(.*", text, re.M)
        self.assertEqual(len(facts), 11)
        self.assertEqual(facts[0], "      k0(A#0, B#0) = 1")
        self.assertIn("\n      ... and 13 more; the report has them all\n", text)


class Together(Folder):
    """Refutations with one state and the same calls have one story, and what is reached stands
    beside it."""

    def test_one_story_for_the_same_calls(self) -> None:
        said = told("examples/review/refuted.cise")[1]
        self.assertEqual(len(re.findall(r"^\d+\. ", said, re.M)), 3)
        self.assertIn(
            (
                "  The same calls there show more:\n    approve and edit leave approvals different"
                " [commute approve edit approvals,\n      report line 354]\n"
            ),
            said,
        )
        self.assertRegex(
            said, r"edit takes away what publish requires \[stable[^]]*]\n +\d+ \| requires"
        )
        self.assertIn("edit || publish     refuted, see 3\n", said)

    def test_stories_have_calls_of_their_own(self) -> None:
        """No two stories of a pair have the same state and calls."""
        repeated = 0
        for name, text in gallery().items():
            spec, report = checked(text)
            seen: set[tuple[tuple[str, ...], frozenset[str], str]] = set()
            for it in stories(spec, report):
                if it.verdict == "refuted" and it.calls:
                    key = (
                        tuple(sorted(call.text() for call in it.calls)),
                        tuple(it.facts),
                        tuple(it.also),
                        str(it.sizes),
                    )
                    self.assertNotIn((key[0], frozenset(it.facts), key[3]), seen, name)
                    seen.add((key[0], frozenset(it.facts), key[3]))
                    repeated += len(it.others)
        self.assertGreater(repeated, 3)

    def test_one_call_made_twice(self) -> None:
        said = told("examples/review/refuted.cise")[1]
        self.assertEqual(
            " ".join(said.split()).count("Both calls are the very same one, made twice."), 1
        )
        self.assertNotIn("very same", told("examples/cart/refuted.cise")[1])

    def test_next_steps(self) -> None:
        for name, words in (
            ("examples/bank/refuted.cise", "mend SPEC writes an order"),
            ("examples/flags/refuted.cise", "wants an initially"),
            ("examples/bank/accepted.cise", "Next: review SPEC says what a yes leaves open."),
            (
                "examples/undecided/meals.cise",
                "Next: what is undecided says what makes it smaller.",
            ),
        ):
            self.assertIn(words, " ".join(told(name)[1].split()))

    def test_what_comes_up(self) -> None:
        for name, words in (
            (
                "examples/bank/refuted.cise",
                (
                    "It comes up, by these calls after deposit(a = Account#0, n = 1). Then solvent"
                    " is false at B"
                ),
            ),
            (
                "examples/auction/forgotten.cise",
                (
                    "Whether it comes up isn't known: a short search found no run to it; reach"
                    " looks longer."
                ),
            ),
            ("examples/flags/refuted.cise", "It comes up before any call."),
        ):
            path = self.file("design.cise", gallery()[name])
            self.assertIn(words, " ".join(explain.answer(path)[1].split()))
            self.assertNotIn("comes up", explain.answer(path, no_reach=True)[1])


class Reports(Folder):
    """With a report the program verifies it, and the stories are the report's."""

    def test_the_same_report(self) -> None:
        for name in ("COUNTED", "examples/stock/refuted.cise", "examples/undecided/meals.cise"):
            text = gallery()[name]
            report = report_on(text)
            self.assertEqual(self.explained(text, report), told(name))

    def test_an_upgraded_report(self) -> None:
        text = gallery()["examples/stock/refuted.cise"]
        path = self.file("design.cise", text)
        report = program.run("upgrade", path, self.file("report", report_on(text)))[1]
        self.assertTrue(report.startswith("cise report 2\n"))
        status, said = self.explained(text, report)
        lines = re.compile(r", report line \d+")
        before = told("examples/stock/refuted.cise")[1]
        self.assertEqual(
            (status, lines.sub("", " ".join(said.split()))),
            (1, lines.sub("", " ".join(before.split()))),
        )

    def test_without_values(self) -> None:
        """A witness beyond what a replay can have is told without values, and says so."""
        text = gallery()["examples/cart/refuted.cise"]
        report = report_on(text).replace("size Item 1\ncall put", "size Item 100\ncall put")
        status, said = self.explained(text, report)
        self.assertEqual(status, 1)
        self.assertIn(
            (
                "  Each replica has taken both calls, and in_cart(Customer#0, Item#0) differs.\n   "
                "  10 | insert in_cart ( c , i )\n     14 | remove in_cart ( c , i )\n\n  Note. The"
                " values at the end aren't shown. Item has 100 elements, and a replay\n  can have"
                " 64 of a sort.\n"
            ),
            said,
        )
        self.assertIn(
            (
                "  Item#1, Item#2, Item#3, Item#4, Item#5 and 94 more elements are there too.\n "
                " Both replicas hold:\n"
            ),
            said,
        )

    def test_beyond_the_range(self) -> None:
        text = (
            KINDS["COUNTED"].replace("initially", "counter pool initially").replace(">= 0", "<= 1")
        )
        text = text.replace("add edits ( d ) - 1", "add edits ( d ) - pool")
        report = report_on(text)
        changed = re.sub(
            r"const draft 0\n(count .*\n)*",
            f"const draft 0\ncount edits 0 1\ncount pool {-(10**15)}\n",
            report,
        )
        self.assertNotEqual(changed, report)
        status, said = self.explained(text, changed)
        self.assertEqual(status, 1)
        note = (
            "Note. The values at the end aren't shown. A value of edits leaves the range of\n  a"
            " replay, 10^15 to either side.\n"
        )
        self.assertIn(note, said)
        self.assertNotIn("where edits", said)


class Refusals(Folder):
    """The program's own text and status, and nothing else."""

    def refused(self, status: int, text: str, *paths: str) -> None:
        with self.assertRaises(program.Stopped) as caught:
            explain.answer(paths[0], paths[1] if len(paths) > 1 else None)
        self.assertEqual((caught.exception.status, caught.exception.text), (status, text))

    def test_bad_input(self) -> None:
        design = self.file("design.cise", KINDS["COUNTED"])
        report = program.run("check", design)[1]
        bad = self.file("bad.cise", "cise 1 sort 5")
        self.refused(3, "refused specification syntax word 3\n", bad)
        self.refused(3, "refused specification syntax word 3\n", bad, self.file("report", report))
        self.refused(6, "", os.path.join(self.folder, "none"))
        self.refused(6, "", self.folder)
        self.refused(6, "", design, os.path.join(self.folder, "none"))
        self.refused(
            4, "refused report line 1 form\n", design, self.file("report", "cise report 9\n")
        )
        line = report.split("\n").index("refuted") + 1
        self.refused(
            4,
            f"refused report line {line} witness\n",
            design,
            self.file("report", report.replace("call undo 0", "call undo 1")),
        )
        self.refused(
            4,
            "refused report line 3 obligation\n",
            self.file("rooms.cise", KINDS["ROOMS"]),
            self.file("report", report),
        )


class Cost(Folder):
    def test_runs(self) -> None:
        """One run of the program for the report, and one for each story."""
        for name in ("folders/refuted", "flags/refuted", "undecided/crowd", "bank/accepted"):
            text = gallery()[f"examples/{name}.cise"]
            _, report = checked(text)
            with mock.patch.object(program, "run", side_effect=program.run) as runs:
                self.explained(text)
            self.assertEqual(
                runs.call_count, 1 + sum(it.verdict == "refuted" for it in stories(*checked(text)))
            )

    def test_time(self) -> None:
        """Besides the program's runs a text takes less than 0.2 seconds of the processor's time."""
        text = gallery()["examples/folders/refuted.cise"]
        spent = []
        for _ in range(3):
            begin = time.process_time()
            self.explained(text)
            spent.append(time.process_time() - begin)
        self.assertLess(min(spent), 0.2)


if __name__ == "__main__":
    unittest.main()
