"""The bank of examples/bank/accepted.cise over a dictionary for each replica, as an adapter of
`./cise drive`."""
from __future__ import annotations

import json
import sys
from typing import Any, TypedDict


class Books(TypedDict):
    """What a replica has: the balance of each account, and the names of the calls that it took."""

    balance: dict[str, int]
    taken: set[str]


replicas: list[Books] = []
# The account of each call, and by how much it changes.
calls: dict[str, tuple[str, int]] = {}
# The names of the withdrawals from each account.
withdrawals: dict[str, list[str]] = {}


def call(replica: int, name: str, operation: str, args: dict[str, Any]) -> str:
    """A call at a replica: whether it may be made there, and its effect."""
    books, account, amount = replicas[replica], args["a"], args["n"]
    if amount < 0 or operation == "withdraw" and books["balance"].get(account, 0) < amount:
        return "refused"
    if operation == "withdraw":
        earlier = withdrawals.setdefault(account, [])
        if not books["taken"].issuperset(earlier):
            return "waits"
        earlier.append(name)
    calls[name] = (account, amount if operation == "deposit" else -amount)
    return take(replica, name)


def take(replica: int, name: str) -> str:
    """The effect of a call, at a replica that hears of it."""
    books, (account, change) = replicas[replica], calls[name]
    books["balance"][account] = books["balance"].get(account, 0) + change
    books["taken"].add(name)
    return "ok"


def answer(it: dict[str, Any]) -> dict[str, Any]:
    """The answer to a line."""
    if it["do"] == "reset":
        replicas[:] = [{"balance": {}, "taken": set()} for _ in range(it["replicas"])]
        calls.clear()
        withdrawals.clear()
        return {}
    if it["do"] == "state":
        balances = replicas[it["replica"]]["balance"].items()
        counts = [[[account], value] for account, value in balances]
        return {"state": {"relations": {}, "counters": {"balance": counts}}}
    if it["do"] == "take":
        return {"answer": take(it["replica"], it["id"])}
    return {"answer": call(it["replica"], it["id"], it["operation"], it["args"])}


for line in sys.stdin:
    print(json.dumps(answer(json.loads(line))), flush=True)
