"""Replicas, each a PostgreSQL server of its own: clients that call at once, calls that are copied
later, and three ways to order them. A replica's table `event` has what it did, in order: its
log."""
import json
import random
import threading
import time
from dataclasses import dataclass
from typing import Any, Dict, List, Optional

from demo.designs import Arguments, Design
from demo.servers import Servers
from demo.wire import Connection, literal
from view import plan_postgres
from view.holds import plan_of

ORDERS = ("none", "lock", "grants")
# A wait for calls of other replicas, and for the last copies, ends with an error after so long.
MOST_SECONDS = 120
EVENT = """CREATE TABLE event (
  number bigserial PRIMARY KEY, id text UNIQUE, origin int, operation text, args json, seen text[],
  state json, is_harmed boolean)"""
ANEW = ("DROP SCHEMA public CASCADE", "CREATE SCHEMA public")
# The database of the manager that grants calls, on the first server.
MANAGER = "manager"


class TooLong(Exception):
    """A wait that didn't end."""


@dataclass
class Outcome:
    """What a run came to: for each replica the rows of its log, how many calls were refused, how
    often a client waited, and in how many states what must never be was so."""

    logs: List[List[List[Optional[str]]]]
    refused: int
    waits: int
    harmed: int

    def ends(self) -> List[Any]:
        """The last states, one for each replica."""
        return [json.loads(its[-1][5] or "{}") for its in self.logs]


class Run:
    """A run on the first servers, so many of them, each a replica with a client. What was there of
    an earlier run is dropped."""

    def __init__(
        self, servers: Servers, count: int, design: Design, order: str, plan: str, seed: int
    ) -> None:
        self.servers, self.count = servers, count
        self.design, self.order, self.seed = design, order, seed
        self.stop = threading.Event()
        self.refused = self.waits = 0
        self.failed: List[BaseException] = []
        for at in range(count):
            connection = servers.connect(at)
            connection.ask("SET client_min_messages = error")
            for statement in (*ANEW, EVENT, *design.tables):
                connection.ask(statement)
            connection.close()
        first = servers.connect(0)
        for statement in (f"DROP DATABASE IF EXISTS {MANAGER}", f"CREATE DATABASE {MANAGER}"):
            first.ask(statement)
        first.close()
        manager = self.manager()
        manager.ask(plan)
        manager.close()

    def manager(self) -> Connection:
        """A connection to the manager."""
        found = self.servers.connect(0, MANAGER)
        found.ask("SET client_min_messages = error")
        return found

    def go(self, calls: int) -> Outcome:
        """Runs all clients to their ends, and copies all that they called."""
        count = range(self.count)
        clients = [self.thread(self.client, it, calls) for it in count]
        copiers = [self.thread(self.copier, it) for it in count]
        for it in clients:
            it.join()
        end = time.monotonic() + MOST_SECONDS
        watching = [self.servers.connect(it) for it in count]
        while not self.failed and len(set(map(self.made, watching))) > 1:
            self.sleep_until(end)
        self.stop.set()
        for it in copiers:
            it.join()
        if self.failed:
            raise self.failed[0]
        rows = (
            "SELECT id, origin, operation, args, seen, state, is_harmed FROM event ORDER BY number"
        )
        logs = [it.ask(rows) for it in watching]
        for connection in watching:
            connection.close()
        harmed = sum(row[6] == "t" for log in logs for row in log)
        return Outcome(logs, self.refused, self.waits, harmed)

    def made(self, connection: Connection) -> frozenset:  # type: ignore[type-arg]
        """The calls that a replica has."""
        return frozenset(connection.column("SELECT id FROM event"))

    def sleep_until(self, end: float) -> None:
        """A short sleep; `TooLong` behind a time."""
        if time.monotonic() > end:
            raise TooLong("what other replicas called didn't come")
        time.sleep(0.005)

    def thread(self, what: Any, *args: int) -> threading.Thread:
        """A thread that keeps why it failed."""

        def run() -> None:
            try:
                what(*args)
            except BaseException as failed:
                self.failed.append(failed)
                self.stop.set()

        found = threading.Thread(target=run)
        found.start()
        return found

    def client(self, replica: int, calls: int) -> None:
        """Makes calls at a replica, one after the other, as its order asks."""
        own, manager = self.servers.connect(replica), self.manager()
        choose = random.Random(self.seed * 7 + replica)
        for number in range(calls):
            operation, args = self.design.choose(choose)
            name = f"b{replica}-{number}"
            if self.order == "grants":
                self.granted(own, manager, name, operation, args)
            elif self.order == "lock":
                self.locked(own, manager, name, operation, args, replica)
            if self.order != "lock":
                done = self.call(own, name, replica, operation, args)
                if not done and self.order == "grants":
                    manager.ask(f"SELECT cise_void({literal(name)})")
            time.sleep(choose.random() * 0.004)
        own.close()
        manager.close()

    def granted(
        self, own: Connection, manager: Connection, name: str, operation: str, args: Arguments
    ) -> None:
        """Asks the manager for a grant, and waits until each call that it names was taken here, or
        is void."""
        given = ", ".join(map(literal, (name, *args.values())))
        needed = set(manager.column(f"SELECT unnest(cise_grant_{operation}({given}))"))
        end = time.monotonic() + MOST_SECONDS
        while needed:
            needed -= set(own.column("SELECT id FROM event"))
            needed -= set(manager.column("SELECT call FROM cise_grants WHERE is_void"))
            if needed:
                self.waits += 1
                self.sleep_until(end)

    def locked(
        self,
        own: Connection,
        manager: Connection,
        name: str,
        operation: str,
        args: Arguments,
        replica: int,
    ) -> None:
        """Calls with an advisory lock round it: what people would write."""
        given = ", ".join(map(literal, args.values()))
        wanted = f"SELECT lock_key FROM cise_wants_{operation}({given}) ORDER BY 1"
        keys = [f"hashtextextended({literal(it)}, 0)" for it in manager.column(wanted)]
        for it in keys:
            manager.ask(f"SELECT pg_advisory_lock({it})")
        self.call(own, name, replica, operation, args)
        for it in keys:
            manager.ask(f"SELECT pg_advisory_unlock({it})")

    def call(
        self, own: Connection, name: str, replica: int, operation: str, args: Arguments
    ) -> bool:
        """Makes a call in a transaction of its replica, if it may run in the state there."""
        own.ask("BEGIN")
        own.ask("LOCK TABLE event IN EXCLUSIVE MODE")
        if own.value(f"SELECT {self.design.operations[operation].asked(args)}") != "t":
            own.ask("ROLLBACK")
            self.refused += 1
            return False
        last = "SELECT DISTINCT ON (origin) id FROM event ORDER BY origin, number DESC"
        seen = own.value(f"SELECT ARRAY({last})")
        self.apply(own, name, replica, operation, args, seen)
        return True

    def apply(
        self, own: Connection, name: str, origin: int, operation: str, args: Arguments, seen: str
    ) -> None:
        """Writes a call's effect and its event, and commits."""
        own.ask(self.design.operations[operation].written(args))
        values = [literal(it) for it in (name, origin, operation, json.dumps(args), seen)]
        values += [f"({self.design.state})", f"({self.design.harm})"]
        own.ask(
            "INSERT INTO event (id, origin, operation, args, seen, state, is_harmed) "
            f"VALUES ({', '.join(values)})"
        )
        own.ask("COMMIT")

    def copier(self, replica: int) -> None:
        """Takes what the other replicas called, each call after all that it had seen."""
        own = self.servers.connect(replica)
        others = {it: self.servers.connect(it) for it in range(self.count) if it != replica}
        at = {it: 0 for it in others}
        choose = random.Random(self.seed * 31 + replica)
        while not self.stop.is_set():
            for origin, other in others.items():
                rows = other.ask(
                    "SELECT number, id, operation, args, seen FROM event "
                    f"WHERE origin = {origin} AND number > {at[origin]} ORDER BY number LIMIT 5"
                )
                for number, *row in rows:
                    if not self.take(own, origin, [str(it) for it in row]):
                        break
                    at[origin] = int(str(number))
            time.sleep(choose.random() * 0.02)
        for it in (own, *others.values()):
            it.close()

    def take(self, own: Connection, origin: int, row: List[str]) -> bool:
        """Takes a call, unless something that it had seen isn't there yet."""
        name, operation, args, seen = row
        own.ask("BEGIN")
        own.ask("LOCK TABLE event IN EXCLUSIVE MODE")
        have = "SELECT id FROM event"
        if own.value(f"SELECT {literal(seen)}::text[] <@ ARRAY({have})") != "t":
            own.ask("ROLLBACK")
            return False
        self.apply(own, name, origin, operation, json.loads(args), seen)
        return True


def plan_of_design(spec: Any) -> str:
    """The SQL that `./cise plan` writes for a specification."""
    return plan_postgres.sql(spec, plan_of(spec))


# A state is logged behind so many lines, and at the end.
STATE_EVERY = 10


def log_lines(rows: List[List[Optional[str]]], replica: int) -> List[str]:
    """The log of a replica, as `./cise audit` reads it."""
    found: List[Dict[str, Any]] = []
    who = f"b{replica}"
    for at, (name, origin, operation, args, seen, state, _) in enumerate(rows, 1):
        if origin == str(replica):
            ids = (seen or "{}").strip("{}")
            found.append(
                {
                    "id": name,
                    "replica": who,
                    "call": operation,
                    "args": json.loads(args or "{}"),
                    "seen": ids.split(",") if ids else [],
                }
            )
        else:
            found.append({"replica": who, "take": name})
        if at % STATE_EVERY == 0 or at == len(rows):
            found.append({"replica": who, "state": json.loads(state or "{}")})
    return [json.dumps(it) for it in found]
