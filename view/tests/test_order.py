"""On what two operations are ordered: by hand, and against the refusal `conflict` of replays over
random rules, constants, modes and calls."""
from __future__ import annotations

import itertools
import random
import re
import unittest

from view import order, program
from view.report import Replay, Suggestion
from view.tests.designs import Design
from view.tree import Spec
from view.words import Word

HEAD = (
    "cise 2 sort S sort T const c : S const d : S token t ( S ) token u ( S ) token two ( S , S )"
    " token alt ( S , S ) token all\n"
)
F = "operation f ( p : S , q : S , r : T ) {} end "
G = "operation g ( p : S , v : S , q : S ) {} end\n"

# Rules, takes lines of f, takes lines of g; then on what f and g, and f and f, are ordered.
TABLE = [
    ("", "takes t ( p )", "takes t ( p )", ["at once"], ["at once"]),
    ("conflict t ( x ) t ( x )", "takes t ( p )", "takes t ( p )", ["same p"], ["same p"]),
    ("conflict t ( x ) t ( x )", "takes t ( p )", "takes t ( v )", ["p = v"], ["same p"]),
    ("conflict t ( x ) t ( y )", "takes t ( p )", "takes t ( v )", ["always"], ["always"]),
    ("conflict all all", "takes all", "takes all", ["always"], ["always"]),
    ("conflict t ( x ) u ( x )", "takes t ( p )", "takes t ( p )", ["at once"], ["at once"]),
    ("conflict t ( x ) u ( x )", "takes t ( p )", "takes u ( p )", ["same p"], ["at once"]),
    ("conflict u ( x ) t ( x )", "takes t ( p )", "takes u ( p )", ["same p"], ["at once"]),
    (
        "conflict t ( x ) u ( x )",
        "takes t ( p ) takes u ( q )",
        "takes u ( p )",
        ["same p"],
        ["p = q"],
    ),
    (
        "conflict t ( x ) u ( x )",
        "takes t ( p ) takes u ( q )",
        "takes t ( p ) takes u ( q )",
        ["p = q", "or q = p"],
        ["p = q"],
    ),
    (
        "conflict two ( x , y ) two ( x , y )",
        "takes two ( p , q )",
        "takes two ( p , v )",
        ["same p, q = v"],
        ["same p, q"],
    ),
    (
        "conflict two ( x , y ) two ( y , x )",
        "takes two ( p , q )",
        "takes two ( p , v )",
        ["p = v, q = p"],
        ["p = q, q = p"],
    ),
    (
        "conflict two ( x , x ) t ( x )",
        "takes two ( p , q )",
        "takes t ( v )",
        ["p = q in f, p = v"],
        ["at once"],
    ),
    (
        "conflict two ( x , x ) t ( y )",
        "takes two ( p , q )",
        "takes t ( v )",
        ["p = q in f"],
        ["at once"],
    ),
    ("conflict t ( x ) t ( x )", "takes t ( c )", "takes t ( p )", ["p = c in g"], ["always"]),
    (
        "conflict t ( x ) u ( x )",
        "takes t ( c ) takes u ( q )",
        "takes u ( p )",
        ["p = c in g"],
        ["q = c in one"],
    ),
    (
        "conflict two ( x , x ) t ( y )",
        "takes two ( p , q ) takes t ( q )",
        "takes t ( v )",
        ["p = q in f"],
        ["p = q in one"],
    ),
    ("conflict t ( x ) t ( x )", "takes t ( c )", "takes t ( d )", ["c = d"], ["always"]),
    ("conflict t ( x ) t ( x )", "takes t ( c )", "takes t ( c )", ["always"], ["always"]),
    (
        "conflict t ( x ) t ( x )",
        "takes t ( p ) takes t ( q )",
        "takes t ( v )",
        ["p = v", "or q = v"],
        ["same p", "or p = q", "or same q"],
    ),
    (
        "conflict t ( x ) t ( x ) conflict two ( x , y ) two ( x , y )",
        "takes t ( p ) takes two ( p , q )",
        "takes t ( p ) takes two ( p , v )",
        ["same p"],
        ["same p"],
    ),
    (
        "conflict t ( x ) t ( x ) conflict t ( x ) t ( y )",
        "takes t ( p )",
        "takes t ( p )",
        ["always"],
        ["always"],
    ),
    (
        "conflict t ( x ) t ( x )",
        "takes t ( p ) shared",
        "takes t ( p ) shared",
        ["at once"],
        ["at once"],
    ),
    (
        "conflict t ( x ) t ( x )",
        "takes t ( p ) shared",
        "takes t ( p ) exclusive",
        ["same p"],
        ["at once"],
    ),
    (
        "conflict t ( x ) t ( x )",
        "takes t ( p ) shared takes t ( q )",
        "takes t ( p ) shared",
        ["q = p"],
        ["p = q", "or same q"],
    ),
]


# Rules that name one another's places in many ways.
MANY = [
    "xyxxyz",
    "xyzxzx",
    "xyyzyx",
    "xyzyzx",
    "xyzzyx",
    "xyzyxz",
    "xyzxzy",
    "xyzzxy",
    "xyxzxz",
    "xyzxyz",
]


def text_with(rules: str, f_lines: str, g_lines: str) -> str:
    return HEAD + rules + "\n" + F.format(f_lines) + G.format(g_lines)


def pairs_of(rules: str, f_lines: str, g_lines: str) -> dict[tuple[str, str], order.Pair]:
    return order.pairs(Spec(text_with(rules, f_lines, g_lines)))


def two_of(sample: list[order.Argument]) -> order.Equality:
    """A sample of two as an equality."""
    return sample[0], sample[1]


class Read(unittest.TestCase):
    def test_by_hand(self) -> None:
        for rules, f_lines, g_lines, both, own in TABLE:
            with self.subTest(rules=rules, f=f_lines, g=g_lines):
                pairs = pairs_of(rules, f_lines, g_lines)
                self.assertEqual(pairs["f", "g"].short(), both)
                self.assertEqual(pairs["f", "f"].short(), own)
                self.assertIs(pairs["f", "g"], pairs["g", "f"])
                status, text = program.run_on(text_with(rules, f_lines, g_lines), "spell")
                self.assertEqual(status, 0, text)

    def test_implied(self) -> None:
        """A condition implies another where every choice of two values that meets the one meets the
        other."""
        arguments: list[order.Argument] = [(side, name) for side in "fg" for name in "pq"]
        arguments += [(None, "c"), (None, "d")]
        choose, counts = random.Random(1), {True: 0, False: 0}
        for _ in range(600):
            one, other = (
                [two_of(choose.sample(arguments, 2)) for _ in range(most)]
                for most in (choose.randrange(6), choose.randrange(1, 3))
            )
            worlds = [
                dict(zip(arguments, values))
                for values in itertools.product(range(2), repeat=len(arguments))
            ]
            follows = all(
                all(it[a] == it[b] for a, b in other)
                for it in worlds
                if all(it[a] == it[b] for a, b in one)
            )
            condition, turned = order.Condition(one), [
                ((order.OTHER[a[0]], a[1]), (order.OTHER[b[0]], b[1])) for a, b in other
            ]
            self.assertEqual(condition.implies(order.Condition(other)), follows, (one, other))
            self.assertEqual(
                condition.implies(order.Condition(turned), swapped=True), follows, (one, other)
            )
            counts[follows] += 1
        self.assertGreater(min(counts.values()), 100, counts)

    def test_sentences(self) -> None:
        rules = "conflict two ( x , y ) two ( x , y ) conflict t ( x ) two ( x , x )"
        pairs = pairs_of(rules, "takes two ( p , q ) takes t ( q )", "takes two ( p , v )")
        self.assertEqual(
            order.sentence(pairs["f", "g"].conditions, "f", "g"),
            (
                "ordered where both have the same p and q of f = v of g, or where q of f = p of g"
                " and q of f = v of g"
            ),
        )
        self.assertEqual(
            order.sentence(pairs["f", "f"].conditions, "f", "f"),
            (
                "ordered where both have the same p and the same q, or where both have the same q"
                " and q of the one = p of the other"
            ),
        )
        self.assertEqual(order.sentence([], "f", "g"), "never ordered: both may run at once")

    def test_many_conditions(self) -> None:
        """So many conditions that the last are counted alone."""
        rules = " ".join(
            f"conflict three ( {a} , {b} , {c} ) three ( {d} , {e} , {f} )"
            for a, b, c, d, e, f in [list(it) for it in MANY]
        )
        takes = " ".join(
            f"takes three ( p{a} , p{b} , p{c} )"
            for a, b, c in ((0, 1, 2), (3, 4, 5), (0, 2, 4), (1, 3, 5))
        )
        params = " , ".join(f"p{at} : S" for at in range(6))
        spec = Spec(
            f"cise 1 sort S token three ( S , S , S ) {rules} operation f ( {params} ) {takes} end"
            f" operation g ( {params} ) {takes} end"
        )
        found = order.conditions(spec, "f", "g")
        self.assertGreater(len(found), 40)
        self.assertEqual(len(order.short(found)), 8)
        self.assertEqual(order.short(found)[-1], f"or {len(found) - 7} more")
        self.assertTrue(
            order.sentence(found, "f", "g").endswith(f", or in {len(found) - 7} more cases")
        )

    def test_rules_by_line(self) -> None:
        rules = (
            "conflict t ( x ) t ( x )\nconflict u ( x ) u ( x )\nconflict two ( x , y ) two ( x"
            " , y )"
        )
        text = text_with(
            "\n" + rules,
            "takes t ( p ) takes u ( p ) takes two ( p , q )",
            "takes u ( p ) takes t ( p ) takes two ( p , q )",
        )
        self.assertEqual([it.rules for it in order.conditions(Spec(text), "f", "g")], [[3, 4]])

    def test_rules_that_say_the_same(self) -> None:
        text = text_with(
            "\nconflict two ( x , x ) t ( x )\nconflict alt ( x , x ) t ( x )",
            "takes two ( p , q ) takes alt ( q , p )",
            "takes t ( v )",
        )
        found = order.conditions(Spec(text), "f", "g")
        self.assertEqual([(it.short(), it.rules) for it in found], [("p = q in f, p = v", [3, 4])])


class Replayed(unittest.TestCase):
    """Replicas that know nothing of each other make a call each: the first that meets a condition
    with an earlier one is refused, for a conflict with the first such one. So the conditions say of
    all pairs up to there what the program says."""

    def test_against_conflict(self) -> None:
        counts = {True: 0, False: 0}
        for seed in range(240):
            choose = random.Random(seed)
            design = Design(choose, version=1 + seed % 2, most_takings=2 + seed % 3)
            self.compare(Spec(without_requires(design.text)), choose, counts)
        self.assertGreater(min(counts.values()), 100, counts)

    def compare(self, spec: Spec, choose: random.Random, counts: dict[bool, int]) -> None:
        sizes = {it: choose.randrange(1, 5) for it in spec.sorts}
        consts = {it: choose.randrange(sizes[sort]) for it, sort in spec.consts.items()}
        calls = []
        for name in choose.choices(list(spec.operations), k=8):
            calls.append(
                (
                    name,
                    [
                        choose.randrange(sizes.get(sort, 1))
                        for _, sort in spec.operations[name].params
                    ],
                )
            )
        steps = [
            {"replica": at, "call": name, "args": args} for at, (name, args) in enumerate(calls)
        ]
        _, text = program.replay(
            spec.text, {"sizes": sizes, "constants": consts, "replicas": 8, "steps": steps}
        )
        self.assertEqual(
            Replay(text).stop,
            self.expected(spec, consts, calls, counts),
            (spec.text, steps, consts),
        )

    def expected(
        self,
        spec: Spec,
        consts: dict[str, int],
        calls: list[tuple[str, list[int]]],
        counts: dict[bool, int],
    ) -> list[str]:
        for later in range(len(calls)):
            for earlier in range(later):
                is_met = holds(spec, consts, [calls[earlier], calls[later]])
                counts[is_met] += 1
                if is_met:
                    return ["refused", str(later), "conflict", str(earlier)]
        return ["done", str(len(calls))]

    def test_none_follows_from_another(self) -> None:
        several = 0
        for seed in range(350):
            spec = Spec(Design(random.Random(seed), most_takings=4).text)
            for pair in set(order.pairs(spec).values()):
                several += len(pair.conditions) > 1
                for one in pair.conditions:
                    for other in pair.conditions:
                        self.assertFalse(
                            one is not other and pair.follows(one, other), (spec.text, pair.name())
                        )
        self.assertGreater(several, 20)


def without_requires(text: str) -> str:
    """The text of a design without what could refuse a call besides a conflict, and without
    invariants."""
    return re.sub(r"^(  requires|  observes|  add|  set|invariant) .*\n", "", text, flags=re.M)


def holds(spec: Spec, consts: dict[str, int], calls: list[tuple[str, list[int]]]) -> bool:
    """Whether a condition holds of two calls; of two of one operation, in either order."""
    (f, _), (g, _) = calls
    found = order.conditions(spec, f, g)
    for one, other in (calls, calls[::-1]) if f == g else (calls,):
        value: dict[tuple[str | None, str], int] = {
            (None, it): element for it, element in consts.items()
        }
        for side, (name, args) in (("f", one), ("g", other)):
            value.update(
                {(side, str(it)): arg for (it, _), arg in zip(spec.operations[name].params, args)}
            )
        if any(all(value[a] == value[b] for a, b in it.equalities) for it in found):
            return True
    return False


DESIGN = """cise 1 sort S relation held ( S ) relation full
token t ( S ) token w ( S ) token all token two ( S , S )
{}
operation put ( s : S , o : S ) insert held ( s ) {} end
operation clear ( s : S ) remove held ( s ) {} end
operation note ( s : S ) insert full {} end
"""


class Compared(unittest.TestCase):
    """`order SPEC`: put and clear have to be ordered where they are of one element; all else may
    run at once."""

    def groups(self, rules: str, *lines: str) -> tuple[dict[str, list[str]], str]:
        text = DESIGN.format(rules, *lines)
        status, suggested = program.run_on(text, "suggest")
        self.assertEqual(status, 0, suggested)
        told = order.compared(Spec(text), Suggestion(suggested))
        head = None
        found: dict[str, list[str]] = {}
        for line in told.splitlines():
            if line.endswith(":") and not line.startswith(" "):
                head = line[:-1]
            elif line.startswith("  ") and head:
                found.setdefault(head, []).append(" ".join(line.split()))
            else:
                head = None
        return found, told.splitlines()[-1]

    def test_nothing_is_ordered(self) -> None:
        found, last = self.groups("", "", "", "")
        self.assertEqual(
            found, {"Have to be ordered, and aren't": ["put || clear same s is enough"]}
        )
        self.assertEqual(
            last, "6 pairs: 0 ordered, 0 of them needlessly; 1 not ordered that has to be"
        )

    def test_what_has_to_be(self) -> None:
        found, last = self.groups("conflict t ( x ) w ( x )", "takes t ( s )", "takes w ( s )", "")
        self.assertEqual(
            found, {"Are ordered, and have to be": ["put || clear same s; rule at line 3"]}
        )
        self.assertEqual(
            last, "6 pairs: 1 ordered, 0 of them needlessly; 0 not ordered that have to be"
        )

    def test_needlessly(self) -> None:
        found, last = self.groups(
            "conflict t ( x ) t ( x )", "takes t ( s )", "takes t ( s )", "takes t ( s )"
        )
        needless = [
            f"{it} same s; rule at line 3"
            for it in (
                "put || put",
                "put || note",
                "clear || clear",
                "clear || note",
                "note || note",
            )
        ]
        self.assertEqual(found["Are ordered needlessly, since they may run at once"], needless)
        self.assertEqual(
            last, "6 pairs: 6 ordered, 5 of them needlessly; 0 not ordered that have to be"
        )

    def test_on_more_than_needed(self) -> None:
        found, _ = self.groups("conflict all all", "takes all", "takes all", "")
        self.assertEqual(
            found["Are ordered, on more than they have to be"],
            ["put || clear always; same s is enough; rule at line 3"],
        )

    def test_on_what_the_suggestion_does_not_judge(self) -> None:
        found, _ = self.groups(
            "conflict two ( x , y ) two ( x , y )", "takes two ( s , s )", "takes two ( s , s )", ""
        )
        self.assertEqual(
            found["Are ordered, and have to be"], ["put || clear same s; rule at line 3"]
        )
        alone = (
            "cise 1 relation up operation rise insert up takes all end operation fall remove up"
            " takes all end"
        )
        for rules, words in (
            ("", "no single equality is known to be enough"),
            ("conflict all all", "always; rule at line 2"),
        ):
            text = alone.replace("up operation rise", f"up token all\n{rules} operation rise")
            told = order.compared(Spec(text), Suggestion(program.run_on(text, "suggest")[1]))
            self.assertIn(f"  rise || fall  {words}\n", told)
        with open("examples/friends/half.cise", encoding="utf-8") as file:
            text = file.read()
        told = order.compared(Spec(text), Suggestion(program.run_on(text, "suggest")[1]))
        self.assertIn(
            (
                "\n  block || unblock\n      same p, q; check says whether that is enough; rule at"
                " line 15\n"
            ),
            told,
        )

    def test_several_that_are_enough(self) -> None:
        with open("examples/seats/half.cise", encoding="utf-8") as file:
            text = file.read()
        told = order.compared(Spec(text), Suggestion(program.run_on(text, "suggest")[1]))
        self.assertIn("  book || give_back  same p alone or same s alone is enough\n", told)

    def test_on_too_little(self) -> None:
        found, _ = self.groups("conflict t ( x ) w ( x )", "takes t ( o )", "takes w ( s )", "")
        self.assertEqual(
            found, {"Are ordered, on too little": ["put || clear o = s; rule at line 3"]}
        )

    def test_undecided(self) -> None:
        with open("examples/undecided/meals.cise", encoding="utf-8") as file:
            text = file.read()
        status, suggested = program.run_on(text, "suggest")
        self.assertEqual(status, 5)
        self.assertIn(
            "Aren't ordered; whether they have to be is undecided:\n  cook || cook\n",
            order.compared(Spec(text), Suggestion(suggested)),
        )

    def test_refusals(self) -> None:
        for path, status, text in (
            ("examples/README.md", 3, "refused specification letter at"),
            ("examples/none.cise", 6, ""),
        ):
            with self.assertRaises(program.Stopped) as caught:
                order.answer(path)
            self.assertEqual(caught.exception.status, status)
            self.assertTrue(caught.exception.text.startswith(text), caught.exception.text)


if __name__ == "__main__":
    unittest.main()
