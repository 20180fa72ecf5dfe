"""Calls of a log that conflict and of which neither had seen the other, found by an index over
token instances: the conditions on which two operations are ordered say which arguments have to be
equal, and calls with the same values there stand on one list. Of such pairs those are kept in which
each call is the first at its replica that the other hadn't seen: where there is any pair on a list,
there is one of these."""
import zlib
from bisect import bisect_right
from dataclasses import dataclass, field
from typing import Any, Dict, Iterator, List, Optional, Set, Tuple

from view import order
from view.causes import Causes
from view.logs import Log

# A part of the work: the I-th of N, from 1.
Part = Tuple[int, int]
Key = Tuple[int, ...]


@dataclass
class Role:
    """How a condition reads the calls of one operation: the places of the arguments that make the
    key, pairs of places that have to be equal, and places that have to have a constant's
    element."""

    op: int
    key: List[int] = field(default_factory=list)
    equal: List[Tuple[int, int]] = field(default_factory=list)
    fixed: List[Tuple[int, int]] = field(default_factory=list)


def roles_of(log: Log, f: int, g: int, condition: Any) -> Optional[Tuple[Role, Role, List[str]]]:
    """The roles of both operations in a condition, with the sorts of the key; None where two
    constants would have to be one element and aren't."""
    roles = {"f": Role(f), "g": Role(g)}
    places = {
        side: {name: at for at, (name, _) in enumerate(log.params[role.op])}
        for side, role in roles.items()
    }
    classes: Dict[Any, List[Any]] = {}
    for pair in condition.equalities:
        for it in pair:
            members = classes.setdefault(condition.leaders.get(it, it), [])
            if it not in members:
                members.append(it)
    sorts = []
    for members in classes.values():
        consts = {log.consts[str(name)] for side, name in members if side is None}
        if len(consts) > 1:
            return None
        own = {
            side: [places[side][str(name)] for its, name in members if its == side]
            for side in roles
        }
        for side, role in roles.items():
            role.equal += [(own[side][0], it) for it in own[side][1:]]
            role.fixed += [(it, next(iter(consts))) for it in own[side][:1] if consts]
        if own["f"] and own["g"] and not consts:
            roles["f"].key.append(own["f"][0])
            roles["g"].key.append(own["g"][0])
            sorts.append(log.params[f][own["f"][0]][1])
    return roles["f"], roles["g"], sorts


class Index:
    """The pairs of a log's calls that conflict unseen, as (earlier, later) by their ranks, of the
    keys of one part."""

    def __init__(self, log: Log, causes: Causes, part: Part) -> None:
        self.log, self.causes, self.part = log, causes, part
        self.texts = {sort: list(known) for sort, known in log.elements.items()}
        self.by_op: List[List[int]] = [[] for _ in log.operations]
        for call in causes.order:
            self.by_op[log.op[call]].append(call)
        self.pairs: Set[Tuple[int, int]] = set()
        self.keys = 0
        names = list(log.spec.operations)
        for f, one in enumerate(names):
            for g in range(f, len(names)):
                for condition in order.conditions(log.spec, one, names[g]):
                    roles = roles_of(log, f, g, condition)
                    if roles:
                        self.look(*roles)

    def key_of(self, role: Role, call: int) -> Optional[Key]:
        """The key of a call in a role, or None where it doesn't meet the condition."""
        args, at = self.log.args, self.log.args_at[call]
        for a, b in role.equal:
            if args[at + a] != args[at + b]:
                return None
        for a, element in role.fixed:
            if args[at + a] != element:
                return None
        return tuple([args[at + it] for it in role.key])

    def is_mine(self, key: Key, sorts: List[str]) -> bool:
        """Whether a key is of this part, which its texts say."""
        text = "\0".join(self.texts[sort][it] for sort, it in zip(sorts, key))
        return zlib.crc32(text.encode("utf-8", "surrogatepass")) % self.part[1] == self.part[0] - 1

    def lists(self, role: Role, sorts: List[str]) -> Dict[Key, List[int]]:
        """The calls of a role by their keys, as they are in order."""
        found: Dict[Key, List[int]] = {}
        skipped: Set[Key] = set()
        for call in self.by_op[role.op]:
            key = self.key_of(role, call)
            if key is None or key in skipped:
                continue
            its = found.get(key)
            if its is not None:
                its.append(call)
            elif self.part == (1, 1) or self.is_mine(key, sorts):
                found[key] = [call]
            else:
                skipped.add(key)
        return found

    def look(self, f: Role, g: Role, sorts: List[str]) -> None:
        """Goes through the keys of a condition."""
        one = self.lists(f, sorts)
        is_same = (f.op, f.key, f.equal, f.fixed) == (g.op, g.key, g.equal, g.fixed)
        other = one if is_same else self.lists(g, sorts)
        for key, calls in one.items():
            theirs = other.get(key)
            if theirs:
                self.keys += 1
                if not self.is_in_order(calls, theirs, is_same):
                    self.pairs.update(self.first_pairs(calls, theirs))

    def is_in_order(self, calls: List[int], others: List[int], is_same: bool) -> bool:
        """Whether of two calls of the lists the later one has seen the earlier one always."""
        log, clocks, count = self.log, self.causes.clocks, self.causes.count
        last: List[Dict[int, int]] = [{}, {}]
        if is_same:
            both = [(it, 0) for it in calls]
            last[1] = last[0]
        else:
            rank = self.causes.rank
            both = sorted(
                [(it, 0) for it in calls] + [(it, 1) for it in others], key=lambda it: rank[it[0]]
            )
        for call, side in both:
            at = call * count
            for replica, turn in last[1 - side].items():
                if clocks[at + replica] < turn:
                    return False
            last[side][log.replica[call]] = log.turn[call]
        return True

    def first_pairs(self, calls: List[int], others: List[int]) -> Iterator[Tuple[int, int]]:
        """The pairs of a call of each list in which each is the first at its replica that the other
        hadn't seen."""
        log, clocks, count, rank = self.log, self.causes.clocks, self.causes.count, self.causes.rank
        one, other = self.by_replica(calls), self.by_replica(others)
        for theirs, (their_calls, their_turns) in other.items():
            for call in calls:
                ours = log.replica[call]
                if ours == theirs:
                    continue
                at = bisect_right(their_turns, clocks[call * count + theirs])
                if at == len(their_calls):
                    continue
                found = their_calls[at]
                seen = clocks[found * count + ours]
                own_calls, own_turns = one[ours]
                if seen < log.turn[call] and own_calls[bisect_right(own_turns, seen)] == call:
                    yield (call, found) if rank[call] < rank[found] else (found, call)

    def by_replica(self, calls: List[int]) -> Dict[int, Tuple[List[int], List[int]]]:
        """Calls by their replicas, with their turns there."""
        found: Dict[int, Tuple[List[int], List[int]]] = {}
        for call in calls:
            its = found.setdefault(self.log.replica[call], ([], []))
            its[0].append(call)
            its[1].append(self.log.turn[call])
        return found
