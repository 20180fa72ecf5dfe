"""Specifications that are drawn at random and are likely to have refutations, for
`checks/witnesses`.

Each family says what is declared, which invariants, conditions and updates may stand there, and
draws some of them. A token is left out more often than not, so that calls run together which may
not.
"""
from __future__ import annotations

import random
from dataclasses import dataclass


@dataclass(frozen=True)
class Family:
    """What the specifications of a family are drawn from.

    declared    the lines of sorts, constants, relations and counters
    invariants  lines behind the names of invariants
    operations  for each kind of operation its parameters, and what its requires lines and its
                updates may be; an update is one line or several that go together
    """

    name: str
    declared: tuple[str, ...]
    invariants: tuple[str, ...]
    operations: tuple[tuple[str, tuple[str, ...], tuple[str, ...]], ...]


MARKS = Family(
    "marks",
    ("sort U", "const base : U", "relation a ( U )", "relation b ( U )", "relation c ( U )"),
    (
        "forall x : U . ( a ( x ) implies b ( x ) )",
        "forall x : U . not ( a ( x ) and c ( x ) )",
        "forall x : U . ( c ( x ) implies ( a ( x ) or b ( x ) ) )",
        "forall x : U , y : U . ( ( a ( x ) and a ( y ) ) implies ( x = y ) )",
        "( a ( base ) implies not c ( base ) )",
    ),
    (
        (
            "x : U",
            ("a ( x )", "not b ( x )", "( b ( x ) or c ( x ) )", "forall y : U . not a ( y )"),
            (
                "insert a ( x )",
                "insert b ( x )",
                "remove b ( x )",
                "insert c ( x )",
                "remove c ( * )",
            ),
        ),
        (
            "x : U , y : U",
            ("b ( x )", "( x != y )", "( a ( x ) implies c ( y ) )"),
            ("insert a ( x );remove a ( y )", "insert c ( y ) when a ( x )", "remove a ( x )"),
        ),
    ),
)
LINKS = Family(
    "links",
    ("sort U", "relation l ( U , U )", "relation m ( U )"),
    (
        "forall x : U , y : U , z : U . ( ( l ( x , y ) and l ( x , z ) ) implies ( y = z ) )",
        "forall x : U . not l ( x , x )",
        "forall x : U , y : U . not ( l ( x , y ) and l ( y , x ) )",
        "forall x : U , y : U , z : U . ( ( l ( x , y ) and l ( y , z ) ) implies l ( x , z ) )",
        "forall x : U , y : U . ( l ( x , y ) implies m ( x ) )",
        "forall x : U , y : U . ( l ( x , y ) implies ( m ( x ) or m ( y ) ) )",
    ),
    (
        (
            "x : U , y : U",
            (
                "m ( x )",
                "not l ( y , x )",
                "( x != y )",
                "l ( x , y )",
                "forall z : U . not l ( x , z )",
            ),
            (
                "insert l ( x , y )",
                "remove l ( x , * )",
                "remove l ( x , y )",
                "insert m ( y )",
                "remove l ( * , y );remove m ( y )",
            ),
        ),
        (
            "x : U",
            ("m ( x )", "exists y : U . l ( x , y )", "forall y : U . not l ( y , x )"),
            ("insert m ( x )", "remove m ( x )", "remove l ( x , * );remove m ( x )"),
        ),
        (
            "x : U , y : U , z : U",
            ("l ( x , y )", "not l ( y , z )", "( y != z )"),
            ("remove l ( x , y );insert l ( x , z )", "insert l ( y , z ) when l ( x , y )"),
        ),
    ),
)
FRIENDS = Family(
    "friends",
    ("sort U", "relation l ( U , U )", "relation k ( U , U )", "relation on ( U )"),
    (
        "forall x : U , y : U . ( l ( x , y ) implies l ( y , x ) )",
        "forall x : U , y : U . not ( l ( x , y ) and k ( x , y ) )",
        "forall x : U , y : U . ( k ( x , y ) implies k ( y , x ) )",
        "forall x : U , y : U . ( l ( x , y ) implies ( on ( x ) and on ( y ) ) )",
        "forall x : U . not k ( x , x )",
    ),
    (
        (
            "x : U , y : U",
            (
                "l ( x , y )",
                "not k ( x , y )",
                "not l ( x , y )",
                "( x != y )",
                "( on ( x ) and on ( y ) )",
            ),
            (
                "insert l ( x , y );insert l ( y , x )",
                "remove l ( x , y );remove l ( y , x )",
                "insert k ( x , y );insert k ( y , x );remove l ( x , y );remove l ( y , x )",
                "insert k ( x , y )",
                "remove k ( x , y );remove k ( y , x )",
            ),
        ),
        (
            "x : U",
            ("on ( x )", "exists y : U . l ( x , y )", "forall y : U . not k ( x , y )"),
            ("insert on ( x )", "remove on ( x )", "remove l ( x , * );remove l ( * , x )"),
        ),
    ),
)
SORTS = Family(
    "sorts",
    (
        "sort U",
        "sort V",
        "relation own ( U , V )",
        "relation member ( U )",
        "relation open ( V )",
    ),
    (
        "forall x : U , y : V . ( own ( x , y ) implies member ( x ) )",
        "forall x : U , y : V . ( own ( x , y ) implies open ( y ) )",
        "forall x : U , z : U , y : V . ( ( own ( x , y ) and own ( z , y ) ) implies ( x = z ) )",
        "forall x : U , y : V , z : V . ( ( own ( x , y ) and own ( x , z ) ) implies ( y = z ) )",
        "forall x : U , y : V . ( ( member ( x ) and open ( y ) ) implies own ( x , y ) )",
    ),
    (
        (
            "x : U , y : V",
            ("member ( x )", "open ( y )", "not own ( x , y )", "forall z : U . not own ( z , y )"),
            ("insert own ( x , y )", "remove own ( x , y )", "insert open ( y )"),
        ),
        (
            "x : U",
            ("member ( x )", "exists y : V . own ( x , y )", "forall y : V . not own ( x , y )"),
            ("insert member ( x )", "remove member ( x )", "remove own ( x , * )"),
        ),
        (
            "y : V , z : V",
            ("open ( y )", "( y != z )", "( open ( y ) or open ( z ) )"),
            ("insert open ( y )", "remove open ( z )", "remove own ( * , y );insert open ( z )"),
        ),
    ),
)
SUMS = Family(
    "sums",
    ("counter a", "counter b", "counter c", "counter d"),
    (
        "( a >= 0 )",
        "( b >= 0 )",
        "( a + b <= 12 )",
        "( 2 * a <= b + 30 )",
        "( c - d <= 5 )",
        "( a + b + c >= 3 )",
        "( ( c >= 4 ) or ( d >= 4 ) )",
        "( 3 * c + 2 * d <= 100 )",
    ),
    (
        (
            "n : int",
            ("( n >= 1 )", "( a >= n )", "( a + n <= 9 )", "( n <= b )", "( c + d >= 2 * n )"),
            ("add a n", "add a - n", "add b n;add c - n", "set d n", "add c 2 * n"),
        ),
        (
            "",
            ("( a >= 3 )", "( b + c <= 20 )", "( d > 0 )", "( a != b )"),
            ("add a - 1", "add b 5", "set c 7", "add d - 3;add c 3", "set a a + b"),
        ),
    ),
)
ACCOUNTS = Family(
    "accounts",
    ("sort U", "counter bal ( U )", "counter debt ( U )", "counter all", "relation on ( U )"),
    (
        "forall x : U . ( bal ( x ) >= 0 )",
        "forall x : U . ( bal ( x ) + debt ( x ) <= 100 )",
        "forall x : U . ( debt ( x ) <= bal ( x ) + 10 )",
        "forall x : U . ( on ( x ) or ( bal ( x ) = 0 ) )",
        "forall x : U , y : U . ( ( on ( x ) and on ( y ) ) implies"
        " ( bal ( x ) <= bal ( y ) + 50 ) )",
        "( all >= 0 )",
    ),
    (
        (
            "x : U , n : int",
            ("( n >= 1 )", "( bal ( x ) >= n )", "on ( x )", "( debt ( x ) + n <= 20 )"),
            (
                "add bal ( x ) n",
                "add bal ( x ) - n;add all - n",
                "add debt ( x ) n",
                "set bal ( x ) n",
            ),
        ),
        (
            "x : U , y : U , n : int",
            ("( n > 0 )", "( bal ( x ) >= n )", "( x != y )", "( on ( x ) and on ( y ) )"),
            ("add bal ( x ) - n;add bal ( y ) n", "add debt ( x ) n;add bal ( y ) n"),
        ),
        (
            "x : U",
            ("( bal ( x ) > 0 )", "not on ( x )", "( debt ( x ) <= 3 )"),
            ("insert on ( x )", "remove on ( x )", "set debt ( x ) 0", "add all 1"),
        ),
    ),
)
EQUATIONS = Family(
    "equations",
    ("counter a", "counter b", "counter c", "counter d", "relation lock"),
    (
        "( a + b = 10 )",
        "( c = a + b )",
        "( a = 2 * b + 1 )",
        "( a + b + c + d = 40 )",
        "( lock implies ( 3 * c - 2 * d = 7 ) )",
        "( a >= 0 )",
        "( b >= 0 )",
        "( c >= 0 )",
    ),
    (
        (
            "n : int",
            ("( n >= 1 )", "( a >= n )", "( c + d >= 2 * n )", "not lock"),
            ("add a n;add b - n", "add a n;add c n", "add c 2 * n;add d 3 * n", "set d n"),
        ),
        (
            "",
            ("( a >= 2 )", "( b <= 20 )", "lock", "( d > 1 )"),
            ("add a 1;add b - 1", "insert lock", "remove lock", "add d 1;add c - 1", "add b 1"),
        ),
    ),
)
MIXED = Family(
    "mixed",
    ("sort U", "sort V", "relation r ( U , V )", "counter c ( V )", "counter w ( U , V )"),
    (
        "forall x : U , y : V . ( r ( x , y ) implies ( c ( y ) >= 2 ) )",
        "forall x : U , y : V . ( w ( x , y ) <= c ( y ) )",
        "forall y : V . ( c ( y ) >= 0 )",
        "forall x : U , y : V . ( r ( x , y ) or ( w ( x , y ) = 0 ) )",
        "forall x : U , z : U , y : V . ( ( r ( x , y ) and r ( z , y ) ) implies ( x = z ) )",
    ),
    (
        (
            "x : U , y : V",
            ("r ( x , y )", "not r ( x , y )", "( c ( y ) >= 2 )", "( w ( x , y ) < c ( y ) )"),
            ("insert r ( x , y )", "remove r ( x , y )", "add w ( x , y ) 1", "add c ( y ) - 1"),
        ),
        (
            "y : V , n : int",
            ("( n >= 0 )", "( c ( y ) >= n )", "forall x : U . not r ( x , y )"),
            ("add c ( y ) n", "add c ( y ) - n", "set c ( y ) n"),
        ),
        (
            "x : U , y : V , z : V",
            ("r ( x , y )", "( y != z )", "( c ( z ) > c ( y ) )"),
            ("remove r ( x , y );insert r ( x , z )", "add w ( x , y ) - 1;add w ( x , z ) 1"),
        ),
    ),
)
FAMILIES = (MARKS, LINKS, FRIENDS, SORTS, SUMS, ACCOUNTS, EQUATIONS, MIXED)


def some(chance: random.Random, lines: tuple[str, ...], least: int, most: int) -> list[str]:
    """Some of these lines, in their order."""
    count = min(chance.randint(least, most), len(lines))
    return [lines[place] for place in sorted(chance.sample(range(len(lines)), count))]


def operation(chance: random.Random, family: Family, number: int) -> list[str]:
    """The lines of an operation. A thing is written once in it, so that no update hides another."""
    params, conditions, updates = chance.choice(family.operations)
    lines = [f"operation o{number}" + (f" ( {params} )" if params else "")]
    lines += [f"requires {line}" for line in some(chance, conditions, 0, 2)]
    written: set[str] = set()
    for update in some(chance, updates, 1, 2):
        parts = update.split(";")
        things = {part.split()[1] for part in parts}
        if not things & written:
            lines += parts
            written |= things
    first = params.split(" : ")[1].split()[0] if params else "int"
    if first != "int" and chance.random() < 0.3:
        lines.append(f"takes t{first} ( {params.split()[0]} )")
    return [*lines, "end"]


def drawn(family: Family, seed: str) -> str:
    """The specification of a family that is drawn from a seed."""
    chance = random.Random(seed)
    lines = ["cise 1", *family.declared]
    for line in family.declared:
        words = line.split()
        if words[0] == "sort":
            name = f"t{words[1]}"
            lines += [f"token {name} ( {words[1]} )", f"conflict {name} ( x ) {name} ( x )"]
    invariants = some(chance, family.invariants, 2, 4)
    lines += [f"invariant i{place} {line}" for place, line in enumerate(invariants)]
    for number in range(chance.randint(2, 4)):
        lines += operation(chance, family, number)
    return "\n".join(lines) + "\n"
