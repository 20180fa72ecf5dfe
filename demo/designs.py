"""The designs of the demonstration, as tables and statements of SQL: what examples/bank and
examples/seats say as specifications."""
import random
from dataclasses import dataclass
from typing import Callable, Dict, List, Tuple, Union

from demo.wire import literal

Value = Union[str, int]
Arguments = Dict[str, Value]


@dataclass(frozen=True)
class Operation:
    """What an operation asks for, and what it writes; `{a}` stands for its argument a."""

    requires: str
    effect: str

    def asked(self, args: Arguments) -> str:
        """The condition of a call."""
        return self.requires.format(**{name: literal(value) for name, value in args.items()})

    def written(self, args: Arguments) -> str:
        """The statement of a call."""
        return self.effect.format(**{name: literal(value) for name, value in args.items()})


@dataclass(frozen=True)
class Design:
    """A design: the statements that make its tables, its operations, what a random call is, its
    state as JSON as a log has it, and whether what must never be is so."""

    folder: str
    tables: List[str]
    operations: Dict[str, Operation]
    choose: Callable[[random.Random], Tuple[str, Arguments]]
    state: str
    harm: str
    harm_words: str


def bank_call(choose: random.Random) -> Tuple[str, Arguments]:
    """A deposit or a withdrawal at one of two accounts."""
    account, amount = choose.choice(["Ann", "Bob"]), choose.randrange(1, 30)
    return choose.choice(["withdraw", "withdraw", "deposit"]), {"a": account, "n": amount}


def seats_call(choose: random.Random) -> Tuple[str, Arguments]:
    """A booking or a giving back of one of three seats."""
    passenger, seat = choose.choice(["Ann", "Bob", "Cem"]), choose.choice(["1A", "1B", "2A"])
    return choose.choice(["book", "book", "give_back"]), {"p": passenger, "s": seat}


BANK = Design(
    "bank",
    [
        "CREATE TABLE balance (a text PRIMARY KEY, amount bigint NOT NULL)",
        "INSERT INTO balance VALUES ('Ann', 0), ('Bob', 0)",
    ],
    {
        "deposit": Operation(
            "{n} >= 0",
            "UPDATE balance SET amount = amount + {n} WHERE a = {a}",
        ),
        "withdraw": Operation(
            "(SELECT amount FROM balance WHERE a = {a}) >= {n}",
            "UPDATE balance SET amount = amount - {n} WHERE a = {a}",
        ),
    },
    bank_call,
    "SELECT json_build_object('balance', json_agg(json_build_array(a, amount) ORDER BY a)) FROM "
    "balance",
    "SELECT EXISTS (SELECT FROM balance WHERE amount < 0)",
    "a balance is below 0",
)
SEATS = Design(
    "seats",
    ["CREATE TABLE holds (p text, s text, PRIMARY KEY (p, s))"],
    {
        "book": Operation(
            "NOT EXISTS (SELECT FROM holds WHERE s = {s})",
            "INSERT INTO holds VALUES ({p}, {s}) ON CONFLICT DO NOTHING",
        ),
        "give_back": Operation(
            "EXISTS (SELECT FROM holds WHERE p = {p} AND s = {s})",
            "DELETE FROM holds WHERE p = {p} AND s = {s}",
        ),
    },
    seats_call,
    "SELECT json_build_object('holds', coalesce(json_agg(json_build_array(p, s) ORDER BY p, s), "
    "'[]')) FROM holds",
    "SELECT EXISTS (SELECT FROM holds GROUP BY s HAVING count(*) > 1)",
    "a seat has two holders",
)
DESIGNS = {"bank": BANK, "seats": SEATS}
