"""The counted cart of examples/cart/accepted.cise in Redis, as an adapter of `./cise drive`.

    cart_redis.py SOCKET [FAULT]

A replica is one of the server's databases, with a hash for each counter. FAULT plants a fault, for
the check that drives this: `lost` loses a taking of items that come back, `asks_less` forgets a
test."""
import json
import socket
import sys
from typing import Any, Dict, List, Tuple

COUNTERS = ("put_in", "taken_out")


class Redis:
    """A connection, by the protocol of Redis over a unix socket."""

    def __init__(self, path: str) -> None:
        self.socket = socket.socket(socket.AF_UNIX)
        self.socket.connect(path)
        self.file = self.socket.makefile("rb")

    def ask(self, *words: object) -> Any:
        """The reply to a command."""
        parts = [str(it).encode() for it in words]
        head = b"*%d\r\n" % len(parts)
        self.socket.sendall(head + b"".join(b"$%d\r\n%s\r\n" % (len(it), it) for it in parts))
        return self.reply()

    def reply(self) -> Any:
        """The next reply."""
        line = self.file.readline()
        kind, rest = line[:1], line[1:-2]
        if kind == b"-":
            raise RuntimeError(rest.decode())
        if kind == b"$":
            return None if rest == b"-1" else self.file.read(int(rest) + 2)[:-2].decode()
        if kind == b"*":
            return [self.reply() for _ in range(int(rest))]
        return rest.decode()


class Cart:
    """The replicas, and the effect of each call that was made."""

    def __init__(self, redis: Redis, fault: str) -> None:
        self.redis, self.fault = redis, fault
        self.effects: Dict[str, Tuple[str, str, int]] = {}

    def answer(self, it: Dict[str, Any]) -> Dict[str, Any]:
        """The answer to a line."""
        if it["do"] == "reset":
            self.redis.ask("FLUSHALL")
            self.effects.clear()
            return {}
        self.redis.ask("SELECT", it["replica"])
        if it["do"] == "state":
            counters = {name: self.counts(name) for name in COUNTERS}
            return {"state": {"relations": {}, "counters": counters}}
        if it["do"] == "call" and not self.may_run(it["operation"], it["args"]):
            return {"answer": "refused"}
        if it["do"] == "call":
            counter = COUNTERS[it["operation"] == "take_out"]
            place = json.dumps([it["args"]["c"], it["args"]["i"]])
            self.effects[it["id"]] = (counter, place, it["args"]["n"])
        counter, place, count = self.effects[it["id"]]
        if not (self.fault == "lost" and it["do"] == "take" and counter == "taken_out"):
            self.redis.ask("HINCRBY", counter, place, count)
        return {"answer": "ok"}

    def may_run(self, operation: str, args: Dict[str, Any]) -> bool:
        """Whether what a call requires is true."""
        if args["n"] < 1:
            return False
        place = json.dumps([args["c"], args["i"]])
        there = int(self.redis.ask("HGET", "put_in", place) or 0)
        return operation == "put" or there >= 1 or self.fault == "asks_less"

    def counts(self, name: str) -> List[List[Any]]:
        """A counter, key by key."""
        row = self.redis.ask("HGETALL", name)
        return [[json.loads(key), int(value)] for key, value in zip(row[::2], row[1::2])]


def main(path: str, fault: str = "") -> None:
    """Answers line by line."""
    cart = Cart(Redis(path), fault)
    for line in sys.stdin:
        print(json.dumps(cart.answer(json.loads(line))), flush=True)


if __name__ == "__main__":
    main(*sys.argv[1:])
