"""`./cise plan SPEC`: what each operation has to hold before it runs, as text, as SQL for
PostgreSQL or as JSON. docs/users/STORES.md says what a store has to do with it. It is read off the
rules and the takes lines; that a store which does so keeps the premise of the theorem isn't
proved."""
import json
from typing import Any, Dict, List, Tuple

from view import plan_postgres, program
from view.columns import table, wrapped
from view.holds import EXCLUDED, TWO_SIDES, Hold, Lock, Plan, Side, plan_of
from view.inputs import text_of
from view.output import say
from view.tree import Spec

BAD_WORDS = 2
FORMS = ("text", "postgres", "json")
LAYER = (
    "Shown, not proved: it is read off the rules and the takes lines. Whether they order enough "
    "is what check says; what is promised then has a "
    "premise, which the store has to keep."
)
ONE_STORE = (
    "In one store: the call's transaction holds these from its first statement to its end. It "
    "then reads what committed after it got them: READ "
    "COMMITTED does, REPEATABLE READ doesn't. All keys of a call are got in one order that is the "
    "same for all calls."
)
REPLICAS = (
    "In many replicas a lock isn't enough, since the next holder may not have heard of the last "
    "one's call. A manager grants the call, and the grant "
    "names the calls granted before that hold one of these in a kind that excludes it; the call "
    "runs where each of them was taken, or is void."
)
NO_KEY = (
    "No single key says these rules: calls of one side may run beside each other, and only calls "
    "of the two sides exclude each other where the key "
    "is the same."
)


def answer(path: str, **options: Any) -> Tuple[int, str]:
    """The status of the specification, which is 0, and its plan in the form that is asked for."""
    form = options.get("for", "text")
    if form not in FORMS:
        say(f"cise: plan --for {' or '.join(FORMS)}\n")
        return BAD_WORDS, ""
    status, _ = program.answer("spell", path)
    spec = Spec(text_of(path))
    plan = plan_of(spec)
    if form == "postgres":
        return status, plan_postgres.sql(spec, plan)
    return status, as_json(spec, plan) if form == "json" else as_text(spec, plan)


def key_words(hold: Hold) -> str:
    """The key of a hold with the condition on which it is held, as `(p, q) where p = q`."""
    where = " and ".join(f"{a} = {b}" for a, b in hold.where)
    return f"({', '.join(hold.key)})" + (f" where {where}" if where else "")


def hold_words(hold: Hold, locks: Dict[str, Lock]) -> Tuple[str, str]:
    """A hold as a row: what it is, and in which kind it is held by which rules."""
    rules = locks[hold.lock].rules
    by = f"rule{'s' if len(rules) > 1 else ''} at line {', '.join(map(str, rules))}"
    return f"{hold.lock} {key_words(hold)}", f"{hold.kind}; {by}"


def as_text(spec: Any, plan: Plan) -> str:
    """The plan for people: what each operation holds, and the rules that no key says."""
    locks = {it.name: it for it in plan.locks}
    lines: List[str] = []
    for name, operation in spec.operations.items():
        params = (
            f" ( {' , '.join(f'{it} : {kind}' for it, kind in operation.params)} )"
            if operation.params
            else ""
        )
        lines += wrapped(f"{name}{params}", 0, 2)
        rows = [hold_words(it, locks) for it in plan.holds[name]]
        lines += (table(rows, 2) if rows else ["  holds nothing: it never waits"]) + [""]
    sided = [it for it in plan.locks if it.form == TWO_SIDES]
    if sided:
        lines += [*wrapped(NO_KEY), *table([side_row(it) for it in sided], 2), ""]
    for it in (ONE_STORE, REPLICAS, LAYER):
        lines += [*wrapped(it), ""]
    return "\n".join(lines[:-1]) + "\n"


def side_row(lock: Lock) -> Tuple[str, str]:
    """A rule of two sides as a row: each side's token with the places of the key."""

    def side(it: Side) -> str:
        places = [str(place + 1) for place in it.places]
        return it.token + (
            f" by place{'s' if len(places) > 1 else ''} {' and '.join(places)}" if places else ""
        )

    return lock.name, f"left: {side(lock.left)}; right: {side(lock.right)}"


def as_json(spec: Any, plan: Plan) -> str:
    """The plan as JSON, in the form that docs/users/STORES.md has."""

    def argument(name: str) -> Dict[str, str]:
        return {"constant" if name in spec.consts else "parameter": name}

    def hold(it: Hold) -> Dict[str, Any]:
        where = [[argument(a), argument(b)] for a, b in it.where]
        return {
            "lock": it.lock,
            "kind": it.kind,
            "key": [argument(part) for part in it.key],
            "where": where,
        }

    operations = {
        str(name): {
            "parameters": [{"name": str(it), "sort": str(kind)} for it, kind in operation.params],
            "holds": [hold(it) for it in plan.holds[name]],
        }
        for name, operation in spec.operations.items()
    }
    locks = [{"name": it.name, "form": it.form, "rules": it.rules} for it in plan.locks]
    excluded = {kind: list(others) for kind, others in EXCLUDED.items()}
    return (
        json.dumps(
            {"plan": 1, "excludes": excluded, "locks": locks, "operations": operations}, indent=2
        )
        + "\n"
    )
