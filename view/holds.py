"""What a call has to hold before it runs: locks with keys, read off the rules and the takes lines
of a specification.

A rule `conflict t ( x , y ) u ( y , z )` has two sides, a token with the places of the variables
that both patterns name. A takes line of the left token and one of the right token match where the
elements at these places, the key, are the same on both sides; a variable that stands twice in one
pattern asks besides that its elements are equal. So each rule is a lock:

    key        both sides are one token with the same places. The key is held exclusively, or shared
               where the taking is shared.
    two modes  calls of one side conflict with each other by another rule. That side holds the key
               exclusively, the other shared; both hold it exclusively where both are such sides.
    two sides  calls of one side may run beside each other, and only those of the two sides
               conflict. No single key says this.

Two calls conflict exactly where they hold one lock with the same key, and `blocks` says of the two
kinds in which they hold it that they exclude each other."""
from dataclasses import dataclass
from typing import Any, Dict, List, Sequence, Set, Tuple

EXCLUSIVE, SHARED = "exclusive", "shared"
KEY, TWO_MODES, TWO_SIDES = "key", "two modes", "two sides"
# For each kind in which a lock is held the kinds that it excludes at the same key.
EXCLUDED: Dict[str, Tuple[str, ...]] = {
    EXCLUSIVE: (EXCLUSIVE, SHARED),
    SHARED: (EXCLUSIVE,),
    "left": ("right", "right shared"),
    "right": ("left", "left shared"),
    "left shared": ("right",),
    "right shared": ("left",),
}


def blocks(one: str, other: str) -> bool:
    """Whether two calls exclude each other that hold a lock at one key in these two kinds."""
    return other in EXCLUDED[one]


@dataclass(frozen=True)
class Side:
    """A side of a rule: its token, the places of the key among the token's places, and pairs of
    places with equal elements."""

    token: str
    places: Tuple[int, ...]
    equal: Tuple[Tuple[int, int], ...]


@dataclass
class Lock:
    """A lock: its name, the lines of the rules that it is for, its form and its two sides, which
    are equal where the form is `key`."""

    name: str
    rules: List[int]
    form: str
    left: Side
    right: Side


@dataclass(frozen=True)
class Hold:
    """What a call holds by one of its takes lines. `key` are parameters and constants, and `where`
    the pairs of them that have to be equal; where they aren't, the call holds nothing by it."""

    lock: str
    kind: str
    key: Tuple[str, ...]
    where: Tuple[Tuple[str, str], ...]


@dataclass
class Plan:
    """The locks of a specification, and what a call of each operation holds, in a fixed order."""

    locks: List[Lock]
    holds: Dict[str, List[Hold]]


def sides_of(rule: Sequence[Any]) -> Tuple[Side, Side]:
    """The two sides of a rule, with the variables of the key in the order in which the left pattern
    names them."""
    (left, left_names), (right, right_names) = rule[0], rule[1]
    both = [it for it in dict.fromkeys(left_names) if it in right_names]
    return side_of(left, left_names, both), side_of(right, right_names, both)


def side_of(token: str, names: Sequence[str], both: Sequence[str]) -> Side:
    """A side: the first place of each variable of the key, and each later place of a variable with
    its first."""
    first = {name: names.index(name) for name in names}
    equal = tuple((first[name], at) for at, name in enumerate(names) if first[name] != at)
    return Side(str(token), tuple(first[it] for it in both), equal)


def ordered_sides(left: Side, right: Side) -> Tuple[Side, Side]:
    """Two sides with their keys in the order of the left side's places, so that rules that say the
    same have the same sides."""
    paired = sorted(zip(left.places, right.places))
    return Side(left.token, tuple(a for a, _ in paired), left.equal), Side(
        right.token, tuple(b for _, b in paired), right.equal
    )


def excludes_itself(side: Side, locks: Sequence[Lock]) -> bool:
    """Whether any two takings of a side with the same key conflict by a rule of its token with
    itself."""
    groups = {at: at for at in range(4)}
    for a, b in side.equal:
        groups[b] = groups[a]
    known = {groups[it] for it in side.places}
    return any(
        it.left == it.right
        and it.left.token == side.token
        and all(groups[place] in known for place in it.left.places)
        and all(groups[a] == groups[b] for a, b in it.left.equal)
        for it in locks
    )


def locks_of(spec: Any) -> List[Lock]:
    """The locks of the rules, those first that a single key says; rules that say the same have one
    lock."""
    found: Dict[Tuple[Side, Side], List[int]] = {}
    for rule in spec.rules:
        left, right = sides_of(rule)
        turned = ordered_sides(right, left)
        found.setdefault(turned if turned in found else ordered_sides(left, right), []).append(
            rule[2]
        )
    plain = [
        Lock("", lines, KEY, left, right) for (left, right), lines in found.items() if left == right
    ]
    sided = [
        Lock("", lines, TWO_SIDES, left, right)
        for (left, right), lines in found.items()
        if left != right
    ]
    shared = {
        str(line.body[0])
        for it in spec.operations.values()
        for line in it.of("takes")
        if line.is_shared()
    }
    for lock in sided:
        if not shared & {lock.left.token, lock.right.token} and any(
            excludes_itself(it, plain) for it in (lock.left, lock.right)
        ):
            lock.form = TWO_MODES
    return named(plain + sided)


def named(locks: List[Lock]) -> List[Lock]:
    """Gives each lock a name of its own: its token's, or those of both its tokens, and a number
    where there are several."""
    counts: Dict[str, int] = {}
    for lock in locks:
        name = (
            lock.left.token
            if lock.left.token == lock.right.token
            else f"{lock.left.token} / {lock.right.token}"
        )
        counts[name] = counts.get(name, 0) + 1
        lock.name = name if counts[name] == 1 else f"{name} {counts[name]}"
    return locks


def kind_in(lock: Lock, side: Side, is_left: bool, is_shared: bool, locks: Sequence[Lock]) -> str:
    """In which kind a taking of a side holds a lock."""
    if lock.form == TWO_SIDES:
        return ("left" if is_left else "right") + (" shared" if is_shared else "")
    if lock.form == TWO_MODES:
        return EXCLUSIVE if excludes_itself(side, locks) else SHARED
    return SHARED if is_shared else EXCLUSIVE


def hold_of(lock: Lock, side: Side, kind: str, arguments: Sequence[str]) -> Hold:
    """What a takes line with these arguments holds of a lock on a side."""
    where = tuple(
        (arguments[a], arguments[b]) for a, b in side.equal if arguments[a] != arguments[b]
    )
    return Hold(lock.name, kind, tuple(arguments[it] for it in side.places), where)


def holds_of(operation: Any, locks: Sequence[Lock]) -> List[Hold]:
    """What a call of an operation holds, each once."""
    found: List[Hold] = []
    for line in operation.of("takes"):
        token, arguments = line.thing()
        for lock in locks:
            sides = [(lock.left, True)] + ([(lock.right, False)] if lock.form != KEY else [])
            for side, is_left in sides:
                if side.token == token:
                    kind = kind_in(lock, side, is_left, line.is_shared(), locks)
                    found.append(hold_of(lock, side, kind, list(map(str, arguments))))
    return [it for it in dict.fromkeys(found) if not any(covers(other, it) for other in found)]


def covers(one: Hold, other: Hold) -> bool:
    """Whether a hold makes another one needless: the same with a kind that excludes more."""
    stronger = one.kind == other.kind.replace(" shared", "") or (one.kind, other.kind) == (
        EXCLUSIVE,
        SHARED,
    )
    return (
        one != other
        and stronger
        and (one.lock, one.key) == (other.lock, other.key)
        and set(one.where) <= set(other.where)
    )


def excluding(locks: Sequence[Lock], holds: Dict[str, List[Hold]]) -> Dict[str, List[Hold]]:
    """What the operations hold, without locks by which no two calls exclude each other."""
    kinds: Dict[str, Set[str]] = {it.name: set() for it in locks}
    for held in holds.values():
        for it in held:
            kinds[it.lock].add(it.kind)
    used = {name for name, its in kinds.items() if any(blocks(a, b) for a in its for b in its)}
    return {name: [it for it in held if it.lock in used] for name, held in holds.items()}


def plan_of(spec: Any) -> Plan:
    """The plan of a specification that the program accepts as one."""
    locks = locks_of(spec)
    holds = excluding(
        locks, {str(name): holds_of(it, locks) for name, it in spec.operations.items()}
    )
    used = {it.lock for held in holds.values() for it in held}
    return Plan([it for it in locks if it.name in used], holds)
