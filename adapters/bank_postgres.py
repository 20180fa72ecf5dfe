"""The bank in PostgreSQL, one database a replica, as an adapter of `./cise drive`.

    bank_postgres.py FILE.sql SOCKET ..

Each socket is one of a server, whose database `postgres` is that replica's. FILE.sql is `bank.sql`,
or what stands in its place."""
import json
import os
import sys
from typing import Any, Dict, List, Tuple

sys.path.insert(0, os.path.dirname(os.path.dirname(os.path.abspath(__file__))))
from demo.wire import Connection, literal  # noqa: E402


class Bank:
    """The replicas, and what the manager of grants knows: the withdrawals from each account."""

    def __init__(self, functions: str, sockets: List[str]) -> None:
        self.functions = functions
        self.replicas = [Connection(it) for it in sockets]
        self.changes: Dict[str, Tuple[str, int]] = {}
        self.withdrawals: Dict[str, List[str]] = {}

    def answer(self, it: Dict[str, Any]) -> Dict[str, Any]:
        """The answer to a line."""
        if it["do"] == "reset":
            self.changes.clear()
            self.withdrawals.clear()
            for replica in self.replicas:
                replica.ask(self.functions)
            return {}
        replica = self.replicas[it["replica"]]
        if it["do"] == "state":
            rows = replica.ask("SELECT account, balance FROM balances")
            counts = [[[account], int(value or 0)] for account, value in rows]
            return {"state": {"relations": {}, "counters": {"balance": counts}}}
        if it["do"] == "take":
            account, change = self.changes[it["id"]]
            return {
                "answer": replica.value(
                    f"SELECT take({literal(it['id'])}, {literal(account)}, {change})"
                )
            }
        return {"answer": self.call(replica, it["id"], it["operation"], it["args"])}

    def call(self, replica: Connection, name: str, operation: str, args: Dict[str, Any]) -> str:
        """A call at a replica; a withdrawal comes with a grant that names those before it."""
        account, amount = args["a"], args["n"]
        known, earlier = "", []  # type: str, List[str]
        if operation == "withdraw":
            earlier = self.withdrawals.setdefault(account, [])
            known = ", ARRAY[" + ", ".join(map(literal, earlier)) + "]::text[]"
        words = f"{literal(name)}, {literal(account)}, {amount}{known}"
        said = replica.value(f"SELECT {operation}({words})")
        if said == "ok":
            self.changes[name] = (account, amount if operation == "deposit" else -amount)
            if operation == "withdraw":
                earlier.append(name)
        return said


def main(path: str, sockets: List[str]) -> None:
    """Answers line by line."""
    with open(path, encoding="utf-8") as file:
        bank = Bank(file.read(), sockets)
    for line in sys.stdin:
        print(json.dumps(bank.answer(json.loads(line))), flush=True)


if __name__ == "__main__":
    main(sys.argv[1], sys.argv[2:])
