"""What calls have to hold: over random rules two calls exclude each other by the plan exactly where
`order` says that they are ordered."""
import json
import random
import unittest
from typing import Any, Dict, List, Tuple

from view import order, plan, plan_postgres
from view.holds import KEY, TWO_MODES, TWO_SIDES, blocks, plan_of
from view.tests.designs import Design
from view.tree import Spec

HEAD = "cise 2 sort S token t ( S ) token u ( S ) token two ( S , S ) token all "
CALLS = "operation f ( p : S , q : S ) {} end operation g ( v : S ) {} end"
# Rules, takes lines of f and g, the form of each lock, and what f and g hold.
TABLE = [
    (
        "conflict t ( x ) t ( x )",
        "takes t ( p )",
        "takes t ( v )",
        [KEY],
        ["t (p) exclusive"],
        ["t (v) exclusive"],
    ),
    (
        "conflict t ( x ) t ( x )",
        "takes t ( p ) shared",
        "takes t ( v )",
        [KEY],
        ["t (p) shared"],
        ["t (v) exclusive"],
    ),
    (
        "conflict t ( x ) u ( x )",
        "takes t ( p )",
        "takes u ( v )",
        [TWO_SIDES],
        ["t / u (p) left"],
        ["t / u (v) right"],
    ),
    ("conflict t ( x ) u ( x )", "takes t ( p )", "takes t ( v )", [], [], []),
    (
        "conflict t ( x ) u ( x ) conflict t ( x ) t ( x )",
        "takes t ( p )",
        "takes u ( v )",
        [KEY, TWO_MODES],
        ["t (p) exclusive", "t / u (p) exclusive"],
        ["t / u (v) shared"],
    ),
    (
        "conflict all t ( x )",
        "takes all",
        "takes t ( v )",
        [TWO_SIDES],
        ["all / t () left"],
        ["all / t () right"],
    ),
    (
        "conflict two ( x , x ) t ( x )",
        "takes two ( p , q )",
        "takes t ( v )",
        [TWO_SIDES],
        ["two / t (p) where p = q left"],
        ["two / t (v) right"],
    ),
    (
        "conflict two ( x , y ) two ( x , z )",
        "takes two ( p , q )",
        "",
        [KEY],
        ["two (p) exclusive"],
        [],
    ),
    (
        "conflict t ( x ) u ( x ) conflict u ( y ) t ( y )",
        "takes t ( p )",
        "takes u ( v )",
        [TWO_SIDES],
        ["t / u (p) left"],
        ["t / u (v) right"],
    ),
]


def holds_of(found: Any, operation: str) -> List[str]:
    """What an operation holds, as words."""
    return [f"{it.lock} {plan.key_words(it)} {it.kind}" for it in found.holds[operation]]


class Read(unittest.TestCase):
    def test_by_hand(self) -> None:
        for rules, f_lines, g_lines, forms, f_holds, g_holds in TABLE:
            with self.subTest(rules=rules, f=f_lines, g=g_lines):
                found = plan_of(Spec(HEAD + rules + " " + CALLS.format(f_lines, g_lines)))
                self.assertEqual([it.form for it in found.locks], forms)
                self.assertEqual(holds_of(found, "f"), f_holds)
                self.assertEqual(holds_of(found, "g"), g_holds)

    def test_against_order(self) -> None:
        counts = {True: 0, False: 0}
        forms = {KEY: 0, TWO_MODES: 0, TWO_SIDES: 0}
        for seed in range(400):
            choose = random.Random(seed)
            spec = Spec(Design(choose, version=1 + seed % 2, most_takings=2 + seed % 3).text)
            value = json.loads(plan.as_json(spec, plan_of(spec)))
            for it in value["locks"]:
                forms[it["form"]] += 1
            names = list(value["operations"])
            for _ in range(8):
                calls = [self.call(choose, spec, choose.choice(names)) for _ in range(2)]
                expected = is_ordered(spec, calls)
                counts[expected] += 1
                self.assertEqual(excludes(value, calls), expected, (spec.text, calls))
        self.assertGreater(min(counts.values()), 200, counts)
        self.assertGreater(min(forms.values()), 5, forms)

    def call(self, choose: random.Random, spec: Any, name: str) -> Tuple[str, List[Any]]:
        """A call of an operation, whose elements are often constants'."""
        args = []
        for _, kind in spec.operations[name].params:
            named = [str(it) for it, sort in spec.consts.items() if sort == kind]
            args.append(
                choose.randrange(3) if kind == "int" else choose.choice(named + ["one", "two"])
            )
        return name, args

    def test_sql_has_each_operation(self) -> None:
        spec = Spec(HEAD + "conflict t ( x ) t ( x ) " + CALLS.format("takes t ( p )", ""))
        text = plan_postgres.sql(spec, plan_of(spec))
        for name in ("f", "g"):
            for verb in ("wants", "hold", "grant"):
                self.assertIn(f'FUNCTION "cise_{verb}_{name}"', text)

    def test_forms(self) -> None:
        status, text = plan.answer("examples/bank/accepted.cise")
        self.assertEqual(status, 0)
        self.assertIn("  purse (a)  exclusive; rule at line 8\n", text)
        self.assertIn("deposit ( a : Account , n : int )\n  holds nothing: it never waits\n", text)
        self.assertEqual(plan.answer("examples/bank/accepted.cise", **{"for": "redis"}), (2, ""))


def excludes(value: Dict[str, Any], calls: List[Tuple[str, List[Any]]]) -> bool:
    """Whether two calls exclude each other by a plan as JSON."""
    held = []
    for name, args in calls:
        operation = value["operations"][name]
        given = {it["name"]: arg for it, arg in zip(operation["parameters"], args)}

        def text(argument: Dict[str, str]) -> Any:
            return given[argument["parameter"]] if "parameter" in argument else argument["constant"]

        met = [it for it in operation["holds"] if all(text(a) == text(b) for a, b in it["where"])]
        held.append([(it["lock"], [text(part) for part in it["key"]], it["kind"]) for it in met])
    return any(
        one[:2] == other[:2] and other[2] in value["excludes"][one[2]] and blocks(one[2], other[2])
        for one in held[0]
        for other in held[1]
    )


def is_ordered(spec: Any, calls: List[Tuple[str, List[Any]]]) -> bool:
    """Whether `order` says that two calls are ordered; those of one operation in either order."""
    (f, _), (g, _) = calls
    for one, other in (calls, calls[::-1]) if f == g else (calls,):
        value: Dict[Tuple[Any, str], Any] = {(None, str(it)): str(it) for it in spec.consts}
        for side, (name, args) in (("f", one), ("g", other)):
            value.update(
                {(side, str(it)): arg for (it, _), arg in zip(spec.operations[name].params, args)}
            )
        if any(
            all(value[a] == value[b] for a, b in it.equalities)
            for it in order.conditions(spec, f, g)
        ):
            return True
    return False


if __name__ == "__main__":
    unittest.main()
