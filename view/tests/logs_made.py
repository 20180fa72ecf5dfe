"""Logs of a bank that keep what the yes rests on, and faults planted in them."""
import json
import os
import random
from typing import Any, Dict, Iterator, List, Sequence, TextIO, Tuple

from view.causes import joined

RICH = 10**9


class BankLog:
    """Calls of replicas of `examples/bank/accepted.cise`, as lines with clocks: each account gets a
    first deposit that all replicas hear of, then deposits, and withdrawals of which each has seen
    the last of its account. At the numbers in `unseen` two replicas withdraw from one account at
    once.
    """

    def __init__(
        self,
        calls: int,
        accounts: int,
        replicas: int = 3,
        seed: int = 1,
        unseen: Sequence[int] = (),
    ) -> None:
        self.choose, self.count = random.Random(seed), replicas
        self.accounts, self.calls, self.unseen = accounts, calls, set(unseen)
        self.clocks = [[0] * replicas for _ in range(replicas)]
        self.last: Dict[int, List[int]] = {}
        self.number = 0

    def lines(self) -> Iterator[str]:
        """The lines in the order in which they come."""
        for account in range(self.accounts):
            yield self.line(0, "deposit", account, RICH)
        for it in self.clocks[1:]:
            it[0] = self.clocks[0][0]
        for _ in range(self.calls - self.accounts):
            replica, account = self.choose.randrange(self.count), self.choose.randrange(
                self.accounts
            )
            if self.choose.random() < 0.2:
                self.hear(replica, self.clocks[self.choose.randrange(self.count)])
            if self.choose.random() < 0.3 or self.number in self.unseen:
                self.hear(replica, self.last.get(account, []))
                other = (replica + 1) % self.count
                if self.number in self.unseen:
                    self.hear(other, self.last.get(account, []))
                    yield self.line(other, "withdraw", account, self.choose.randrange(1, 9))
                yield self.line(replica, "withdraw", account, self.choose.randrange(1, 9))
                self.last[account] = list(self.clocks[replica])
                if self.number - 2 in self.unseen:
                    self.last[account] = joined(self.clocks[replica], self.clocks[other])
            else:
                yield self.line(replica, "deposit", account, self.choose.randrange(1, 9))

    def hear(self, replica: int, clock: List[int]) -> None:
        """A replica hears of all that a clock knows."""
        if clock:
            self.clocks[replica] = joined(self.clocks[replica], clock)

    def line(self, replica: int, operation: str, account: int, amount: int) -> str:
        """A call as a line."""
        self.clocks[replica][replica] += 1
        clock = {f"b{at}": known for at, known in enumerate(self.clocks[replica])}
        value = {
            "id": f"e{self.number}",
            "replica": f"b{replica}",
            "call": operation,
            "args": {"a": f"acc-{account}", "n": amount},
            "clock": clock,
        }
        self.number += 1
        return json.dumps(value)

    def write(self, file: TextIO) -> None:
        """Writes all lines."""
        for it in self.lines():
            file.write(it + "\n")


class TakenLog:
    """A short run of a bank whose replicas log takings and states: `files` has the lines of each
    replica, as values. It keeps what the yes rests on."""

    def __init__(self, calls: int, accounts: int = 2, replicas: int = 3, seed: int = 1) -> None:
        self.choose = random.Random(seed)
        self.files: List[List[Dict[str, Any]]] = [[] for _ in range(replicas)]
        self.have: List[List[str]] = [[] for _ in range(replicas)]
        self.made: Dict[str, Tuple[str, int, int, List[str]]] = {}
        self.last: Dict[int, str] = {}
        self.accounts = accounts
        while len(self.made) < calls:
            self.go(self.choose.randrange(replicas))

    def go(self, replica: int) -> None:
        """One step of a replica: it takes a call of another one, or makes one."""
        ready = [
            it
            for it, (_, _, _, seen) in self.made.items()
            if it not in self.have[replica] and set(seen) <= set(self.have[replica])
        ]
        if ready and self.choose.random() < 0.6:
            self.files[replica].append({"replica": f"b{replica}", "take": ready[0]})
            self.have[replica].append(ready[0])
        else:
            account, amount = self.choose.randrange(self.accounts), self.choose.randrange(1, 30)
            known = self.last.get(account) in (None, *self.have[replica])
            operation = (
                "withdraw" if known and self.balance(replica, account) >= amount else "deposit"
            )
            name = f"b{replica}-{len(self.files[replica])}"
            args = {"a": f"acc-{account}", "n": amount}
            seen = list(self.have[replica])
            self.files[replica].append(
                {
                    "id": name,
                    "replica": f"b{replica}",
                    "call": operation,
                    "args": args,
                    "seen": seen,
                }
            )
            self.made[name] = operation, account, amount, seen
            self.have[replica].append(name)
            if operation == "withdraw":
                self.last[account] = name
        held = [[f"acc-{it}", self.balance(replica, it)] for it in range(self.accounts)]
        self.files[replica].append({"replica": f"b{replica}", "state": {"balance": held}})

    def balance(self, replica: int, account: int) -> int:
        """The balance of an account at a replica."""
        own = [self.made[it] for it in self.have[replica]]
        return sum(
            amount if operation == "deposit" else -amount
            for operation, its, amount, _ in own
            if its == account
        )

    def write(self, folder: str) -> List[str]:
        """Writes a file for each replica, and gives their paths."""
        paths = []
        for at, lines in enumerate(self.files):
            paths.append(os.path.join(folder, f"b{at}.jsonl"))
            with open(paths[-1], "w", encoding="utf-8") as file:
                file.write("".join(json.dumps(it) + "\n" for it in lines))
        return paths
