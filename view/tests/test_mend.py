"""mend: what is accepted, what is ordered, and that the user's own text stays."""
from __future__ import annotations

import glob
import os
import pty
import re
import subprocess
import sys
import tempfile
import time
import unittest
from unittest import mock

from view import enough, mend, order, program
from view.edits import with_tokens
from view.enough import Search, by_lines
from view.report import Answer, SuggestedPair, Suggestion
from view.tests.unordered import FRIENDS, NUMBERS, TICKETS, UNORDERED
from view.tokens import Order, Tokens
from view.tree import Spec
from view.words import text_of, words

# What of the gallery no token mends: the start, or an operation alone, breaks an invariant, or is
# undecided.
NOT_BY_TOKENS = {"flags/refuted.cise": 1, "auction/forgotten.cise": 1, "tournament/refuted.cise": 1}


# Of those that are accepted as they are, which are tried.
ACCEPTED = ("access", "auction", "bank", "seats")


def orders(
    search: Search,
    alternatives: list[list[tuple[str, str]]],
    calls: tuple[dict[str, int], dict[str, int]],
) -> bool:
    """Whether two calls are ordered by alternatives."""
    search.holding = []
    search.learn(calls)
    return search.orders_all(alternatives)


def mended(text: str) -> tuple[int, str, str]:
    """The status, the text and what is said on standard error, of mend on a text."""
    with tempfile.TemporaryDirectory() as folder:
        path = os.path.join(folder, "design.cise")
        with open(path, "wb") as file:
            file.write(text.encode("utf-8", "surrogateescape"))
        return mend.mended(path)


def short(text: str) -> dict[str, str]:
    """On what each pair of a text is ordered, where it is."""
    found = order.pairs(Spec(text))
    return {pair.name(): " ".join(pair.short()) for pair in found.values() if pair.conditions}


def suggested(text: str) -> Suggestion:
    return Suggestion(program.run_on(text, "suggest")[1])


class Unordered(unittest.TestCase):
    mended: dict[str, tuple[int, str, str]]
    suggested: dict[str, Suggestion]

    @classmethod
    def setUpClass(cls) -> None:
        cls.mended = {name: mended(text) for name, text in UNORDERED.items()}
        cls.suggested = {name: suggested(text) for name, text in UNORDERED.items()}

    def test_each_is_refuted_before_and_accepted_after(self) -> None:
        for name, text in UNORDERED.items():
            with self.subTest(name):
                self.assertEqual(program.run_on(text, "check")[0], 1)
                status, new, said = self.mended[name]
                self.assertEqual(status, 0, said)
                self.assertEqual(program.run_on(new, "check")[0], 0)

    def test_pairs_that_are_free_stay_free_and_the_needed_ones_are_ordered(self) -> None:
        for name in UNORDERED:
            with self.subTest(name):
                ordered = short(self.mended[name][1])
                for it in self.suggested[name].pairs:
                    self.assertEqual(
                        f"{it.left} || {it.right}" in ordered,
                        it.word == "needed",
                        it.left + " " + it.right,
                    )

    def test_all_by_lines_of_a_pair_stand_together(self) -> None:
        count = 0
        for name in UNORDERED:
            spec = Spec(self.mended[name][1])
            for it in self.suggested[name].pairs:
                together = [(("f", a.left), ("g", a.right)) for a in it.answers if a.word == "by"]
                if together:
                    count += len(together) > 1
                    (condition,) = order.conditions(spec, it.left, it.right)
                    self.assertEqual(
                        {frozenset(e) for e in condition.equalities},
                        {frozenset(e) for e in together},
                    )
        self.assertGreater(count, 0)

    def test_the_users_words_and_comments_stay(self) -> None:
        for name, text in UNORDERED.items():
            with self.subTest(name):
                new = self.mended[name][1]
                spec = Spec(new)
                left = [
                    it
                    for head, item in spec.items
                    if head not in ("token", "conflict")
                    for it in [head, *item]
                ]
                for operation in spec.operations.values():
                    for line in operation.of("takes"):
                        at = next(k for k, it in enumerate(left) if it is line.head)
                        del left[at : at + 1 + len(line.body)]
                self.assertEqual(words(text)[:2] + left, words(text))
                self.assertEqual(re.findall("#.*", new), re.findall("#.*", text))
                if name != "projects":
                    lines = [
                        it
                        for it in new.split("\n")
                        if not re.match(r"\s*(token|conflict|takes)\b", it)
                    ]
                    self.assertEqual(
                        [it for it in lines if it.strip()],
                        [it for it in text.split("\n") if it.strip()],
                    )

    def test_orders_of_some(self) -> None:
        self.assertEqual(
            short(self.mended["friends"][1]), {"meet || part": "same p, q or p = q, q = p"}
        )
        self.assertEqual(
            short(self.mended["blog"][1]),
            {"open || close": "same u", "close || follow": "same u or u = v"},
        )
        self.assertEqual(
            short(self.mended["register"][1]),
            {"write || write": "always", "write || reset": "always"},
        )
        self.assertEqual(short(self.mended["mail"][1])["give_up || give_up"], "same u, a")

    def test_what_is_written(self) -> None:
        new = self.mended["courses"][1]
        declared = (
            "token add_course_or_enroll_token(Course)\ntoken remove_course_token(Course)\nconflict"
            " add_course_or_enroll_token(c) remove_course_token(c)\n"
        )
        self.assertIn(f"\n{declared}\n# Registers somebody.\n", new)
        self.assertIn(
            "    remove course(c)\n    # nothing else\n    takes remove_course_token(c)\nend\n", new
        )
        self.assertIn(
            " insert employee ( e ) takes hire_employee ( e ) end\n", self.mended["projects"][1]
        )
        self.assertIn("token release_or_pay_show ( Show )\n", self.mended["tickets"][1])
        self.assertNotIn("\n", self.mended["blog"][1].replace("\r\n", ""))

    def test_what_is_said(self) -> None:
        said = self.mended["friends"][2]
        self.assertEqual(said.count("\n"), 3)
        self.assertIn(
            (
                "mend: meet || part: ordered where both have the same p and the same q, or where p"
                " of meet = q of part and q of meet = p of part\n"
            ),
            said,
        )
        self.assertIn("mend: accepted: 6 proved, 0 refuted, 0 undecided\n", said)

    def test_what_is_mended_stays_as_it_is(self) -> None:
        for name in ("tickets", "blog"):
            status, again, said = mended(self.mended[name][1])
            self.assertEqual((status, again), (0, self.mended[name][1]))
            self.assertIn("nothing to be mended", said)


class Gallery(unittest.TestCase):
    def test_each_is_accepted_but_what_no_token_mends(self) -> None:
        for path in sorted(glob.glob("examples/*/*.cise")):
            name = path.partition("/")[2]
            if (
                name.startswith("undecided/")
                or name.endswith("accepted.cise")
                and name.partition("/")[0] not in ACCEPTED
            ):
                continue
            with self.subTest(name):
                status, new, said = mended(text_of(path))
                self.assertEqual(status, NOT_BY_TOKENS.get(name, 0), said)
                self.assertEqual(
                    "nothing to be mended" in said, new == text_of(path) and status == 0
                )
                if "nothing to be mended" not in said:
                    self.assertEqual(program.run_on(new, "check")[0], status)
                self.assertEqual("that no token mends" in said, status != 0)

    def test_the_story_of_what_is_left_is_told(self) -> None:
        status, new, said = mended(text_of("examples/tournament/refuted.cise"))
        self.assertEqual(status, 1)
        self.assertIn("1. call_off breaks registered\n", said)
        self.assertIn("takes call_off_tournament ( t )", new)

    def test_undecided_pairs_are_said_to_be_so(self) -> None:
        status, new, said = mended(text_of("examples/undecided/meals.cise"))
        self.assertEqual(status, 0)
        self.assertIn(
            "cook || cook: always ordered; undecided before, so it may need no order", said
        )


class Limits(unittest.TestCase):
    def test_without_room_for_tokens_the_rest_is_mended(self) -> None:
        own = "".join(f"token own{it}\n" for it in range(14))
        status, new, said = mended(
            TICKETS.replace("\noperation hold", f"{own}\noperation hold")
            + "operation pay_all ( s : Show )\n  set held ( s ) 0\nend\n"
        )
        self.assertEqual(status, 1)
        self.assertIn("isn't ordered: a text has no room for more tokens", said)
        self.assertIn("takes hold_show ( s )", new)

    def test_an_operation_without_room_for_takes_lines_leaves_the_others(self) -> None:
        own = "".join(f"  takes own{it}\n" for it in range(4))
        text = TICKETS.replace(
            "\noperation hold", "".join(f"token own{it}\n" for it in range(4)) + "\noperation hold"
        )
        at = text.index("end", text.index("operation hold"))
        status, new, said = mended(text[:at] + own.replace("  ", "", 1) + text[at:])
        self.assertEqual(
            said.split("\n")[0],
            (
                "mend: hold || hold isn't ordered: a text has no room for more tokens, rules or"
                " takes lines, or no order is enough"
            ),
        )
        self.assertEqual(
            short(new),
            {"release || release": "same s", "release || pay": "same s", "pay || pay": "same s"},
        )

    def test_own_tokens_stay_and_what_they_order_is_enough(self) -> None:
        text = FRIENDS.replace(
            "operation meet",
            "token pair ( Person )\nconflict pair ( x ) pair ( x )\noperation meet",
            1,
        )
        text = text.replace(
            "end\noperation part", "  takes pair ( p )\n  takes pair ( q )\nend\noperation part"
        )
        text = text[: text.rindex("end")] + "  takes pair ( p )\n  takes pair ( q )\nend\n"
        self.assertEqual(mended(text)[:2], (0, text))

    def test_names_of_tokens_are_new(self) -> None:
        text = TICKETS.replace("held", "hold_show")
        self.assertIn("token hold_calls ( Show )", mended(text)[1])
        long = TICKETS.replace("release", "release_what_was_held_before").replace(
            "pay", "pay_what_was_held_before_it"
        )
        self.assertIn(
            "token hold_show ( Show )\ntoken release_what_was_held_befo_calls ( Show )\n",
            mended(long)[1],
        )


class Parts(unittest.TestCase):
    def test_a_sort_that_comes_later(self) -> None:
        spec = Spec(NUMBERS)
        both = Order("boot", "give", [[]]), Order("give", "give", [[("c", "c")]])
        text = with_tokens(spec, Tokens(spec, list(both)))
        self.assertEqual(program.run_on(text, "spell")[0], 0)
        self.assertTrue(text.rstrip().split("\n")[-1].startswith("conflict "))

    def test_more_than_three_places_are_several_tokens(self) -> None:
        text = (
            "cise 1 sort A operation f ( a : A , b : A , c : A , d : A ) end operation g ( x : A )"
            " end operation h ( y : A , z : A ) end "
        )
        spec = Spec(text)
        orders = [
            Order("f", "g", [[("a", "x")]]),
            Order("f", "h", [[("b", "y"), ("c", "z")]]),
            Order("f", "f", [[("d", "d")]]),
        ]
        new = with_tokens(spec, Tokens(spec, orders))
        self.assertEqual(program.run_on(new, "spell")[0], 0)
        self.assertEqual(
            short(new), {"f || g": "a = x", "f || h": "b = y, c = z", "f || f": "same d"}
        )

    def test_an_equality_of_two_places_with_one(self) -> None:
        spec = Spec("cise 1 sort A operation f ( a : A ) end operation g ( x : A , y : A ) end ")
        new = with_tokens(spec, Tokens(spec, [Order("f", "g", [[("a", "x"), ("a", "y")]])]))
        self.assertEqual(program.run_on(new, "spell")[0], 0)
        found = order.conditions(Spec(new), "f", "g")
        self.assertTrue(
            found[0].implies(order.Condition([(("f", "a"), ("g", "y"))]))
            and found[0].implies(order.Condition([(("f", "a"), ("g", "x"))]))
        )

    def test_tokens_of_random_orders_say_what_they_were_made_of(self) -> None:
        import random

        chance = random.Random(3)
        for _ in range(60):
            kinds = {
                name: [chance.choice("AB") for _ in range(chance.randrange(4))] for name in "fgh"
            }
            text = "cise 1 sort A sort B " + " ".join(
                f"operation {name}"
                + (
                    f" ( {' , '.join(f'{name}{k} : {kind}' for k, kind in enumerate(of))} )"
                    if of
                    else ""
                )
                + " end"
                for name, of in kinds.items()
            )
            spec, orders = Spec(text), []
            for f, g in (("f", "f"), ("f", "g"), ("g", "h"), ("f", "h")):
                same = [
                    (f"{f}{i}", f"{g}{k}")
                    for i, a in enumerate(kinds[f])
                    for k, b in enumerate(kinds[g])
                    if a == b and (f != g or i <= k)
                ]
                orders.append(
                    Order(f, g, [[it] for it in chance.sample(same, min(len(same), 2))] or [[]])
                )
            orders = chance.sample(orders, chance.randrange(1, 5))
            new = with_tokens(spec, Tokens(spec, orders))
            self.assertEqual(program.run_on(new, "spell")[0], 0, new)
            found = order.pairs(Spec(new))
            self.assertEqual(
                {pair.name() for pair in found.values() if pair.conditions},
                {f"{it.f} || {it.g}" for it in orders},
                new,
            )
            for it in orders:
                pair, wanted = found[it.f, it.g], [
                    order.Condition([(("f", p), ("g", q)) for p, q in one])
                    for one in it.alternatives
                ]
                self.assertTrue(all(pair.covers(one) for one in wanted), new)
                self.assertTrue(
                    all(
                        any(pair.follows(one, other) for other in wanted) for one in pair.conditions
                    ),
                    new,
                )

    def test_by_lines_take_at_most_three_places(self) -> None:
        pair = SuggestedPair("needed", "f", "g")
        pair.answers = [
            Answer("by", "a", "w"),
            Answer("notby", "a", "x"),
            Answer("by", "b", "x"),
            Answer("by", "c", "y"),
            Answer("by", "d", "z"),
            Answer("by", "c", "w"),
        ]
        self.assertEqual(by_lines(pair), [("a", "w"), ("b", "x"), ("c", "y"), ("c", "w")])

    def test_calls_of_one_operation_may_be_exchanged(self) -> None:
        one, other = {"p": 1, "q": 0}, {"p": 5, "q": 1}
        search = Search(Spec(FRIENDS), "meet", "meet")
        self.assertEqual(
            [orders(search, [[("p", "q")]], it) for it in ((one, other), (other, one), (one, one))],
            [True, True, False],
        )
        self.assertEqual(search.equalities, [("p", "p"), ("p", "q"), ("q", "q")])
        search = Search(Spec(FRIENDS), "meet", "part")
        self.assertEqual(
            [orders(search, [[("p", "q")]], it) for it in ((one, other), (other, one))],
            [True, False],
        )
        self.assertEqual(
            [
                orders(search, [[("p", "p")], [("p", "q"), ("q", "p")]], it)
                for it in ((one, {"p": 0, "q": 1}), (one, other))
            ],
            [True, False],
        )

    def test_a_search_learns_from_refutations(self) -> None:
        search = Search(Spec(FRIENDS), "meet", "part")
        self.assertFalse(search.is_enough([[("p", "p")]]))
        self.assertTrue(search.breaking)
        count, left = search.count, search.trials.left
        self.assertFalse(search.is_enough([[("p", "p")]]))
        self.assertEqual(
            (search.count, search.trials.left), (count, left), "the same proposal isn't tried twice"
        )


def alike(count: int) -> str:
    """Operations that do the same, of which each two have to be ordered."""
    params = " , ".join(f"{it} : A" for it in "abcdeg")
    updates = " ".join(
        f"{'insert' if at % 2 else 'remove'} r ( {it} )" for at, it in enumerate("abcdeg")
    )
    return "cise 1\nsort A\nrelation r ( A )\n" + "".join(
        f"operation f{at} ( {params} )\n  {updates}\nend\n" for at in range(count)
    )


class Effort(unittest.TestCase):
    def runs_of(self, text: str) -> tuple[int, str]:
        """How many runs of the program mend makes, without those that try to spare an order, and
        what it says."""
        made, run = [], program.run

        def counted(*words: str) -> tuple[int, str]:
            made.append(words[0])
            return run(*words)

        with tempfile.NamedTemporaryFile("w", suffix=".cise") as file, mock.patch.object(
            program, "run", counted
        ):
            file.write(text)
            file.flush()
            status, _, said = mend.mended(file.name, with_ways=False)
        self.assertEqual(status, 0, said)
        return len(made), said

    def test_pairs_that_are_alike_are_tried_once(self) -> None:
        two, four = self.runs_of(alike(2))[0], self.runs_of(alike(4))[0]
        self.assertLessEqual(two, 2 * 40 + 6)
        self.assertEqual(two, four)

    def test_many_operations_take_few_runs(self) -> None:
        """300 pairs, for which a text has no room: 396 runs were made for that alone."""
        lines = [
            f"operation f{it} ( a : A , b : A , c : A ) insert r ( a ) remove r ( b ) insert r ( c"
            " ) end"
            for it in range(24)
        ]
        before = time.process_time()
        made, _ = self.runs_of("cise 1 sort A relation r ( A ) " + " ".join(lines) + "\n")
        self.assertLessEqual(made, 60)
        self.assertLess(time.process_time() - before, 3)

    def test_runs_come_to_an_end(self) -> None:
        with mock.patch.object(enough.Trials.__init__, "__defaults__", (3, lambda left: None)):
            made, said = self.runs_of(alike(2))
        self.assertLessEqual(made, 10)
        self.assertIn("mend: f0 || f1: not all lesser orders were tried, but ", said)
        self.assertNotIn("not all lesser orders were tried", self.runs_of(FRIENDS)[1])


class OnATerminal(unittest.TestCase):
    def said_of(self, code: str) -> tuple[bytes, bytes]:
        """What a terminal gets on standard error from some lines of Python."""
        terminal, other = pty.openpty()
        begin = "import sys, time; sys.path.insert(0, '.'); from view.output import Progress\n"
        done = subprocess.run(
            [sys.executable, "-c", begin + code],
            stdin=subprocess.DEVNULL,
            stdout=subprocess.PIPE,
            stderr=other,
        )
        os.close(other)
        found = b""
        while True:
            try:
                piece = os.read(terminal, 999)
            except OSError:
                piece = b""
            if not piece:
                os.close(terminal)
                return done.stdout, found
            found += piece

    def test_progress_is_told_after_a_second_and_goes_away(self) -> None:
        code = (
            "with Progress() as it:\n    it.tell('a')\n    it.due = 0\n   "
            " it.tell('b\\x1b[2J\\n')\n    it.tell('c')\n"
        )
        self.assertEqual(self.said_of(code), (b"", b"\rb\\x1b[2J\\n\x1b[K\r\x1b[K"))

    def test_elsewhere_nothing_is_told(self) -> None:
        with tempfile.TemporaryFile() as file:
            code = (
                "import sys; sys.path.insert(0, '.'); from view.output import Progress\nwith"
                " Progress() as it:\n    it.tell('a'); print(it.due)"
            )
            done = subprocess.run([sys.executable, "-c", code], stdout=subprocess.PIPE, stderr=file)
            self.assertEqual((done.stdout, file.seek(0, 2)), (b"inf\n", 0))


if __name__ == "__main__":
    unittest.main()
