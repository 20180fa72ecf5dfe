"""Which calls each call of a log had seen. A replica's calls are in order, and what a replica knows
is closed under what that had seen. So what a call had seen is, for each replica, so many of its
first calls: a clock. The lines of all replicas are gone through in an order in which each comes
after what it needs."""
import heapq
from array import array
from dataclasses import dataclass
from typing import Dict, Iterable, Iterator, List, NamedTuple, Optional, Tuple

from view.logs import CALL, STATE, TAKE, Log

# In the place of a line's kind: a taking that no line says, at the end of the log.
AT_END = 3
# Steps are kept up to this number, beyond which no schedule goes.
MOST_STEPS = 10_000


@dataclass(frozen=True)
class Doubt:
    """A line that disagrees with other lines of the log, so that it isn't known what was seen.
    `word` says how: unknown, early, clock, missing or seen. `row` is of the kind `kind`, `others`
    are calls and `before` how many steps come before it.
    """

    word: str
    kind: int
    row: int
    others: Tuple[int, ...]
    before: int
    text: str = ""


class Step(NamedTuple):
    """A step of a schedule: a call that a replica makes or takes, with the line that says so, or by
    which it is inferred."""

    replica: int
    call: int
    is_take: bool
    kind: int
    row: int


def joined(one: Iterable[int], other: Iterable[int]) -> List[int]:
    """What two clocks know together."""
    return [a if a > b else b for a, b in zip(one, other)]


class Causes:
    """What the calls of a log had seen.

    clocks   for each call a row with how many calls of each replica it knows, itself counted
    order    the calls, each after all that it has seen; `rank` is the place of each there
    course   the lines of calls and takings in that order, as `entries` of a log has them
    steps    the steps of a schedule; None where there are too many
    states   for each state line that was reached how many steps come before it
    doubts   the lines that disagree, and `left` those at which replicas stand still
    """

    def __init__(self, log: Log) -> None:
        self.log, self.count = log, len(log.replicas)
        self.totals = list(log.turns)
        self.clocks = array("I", bytes(4 * self.count * len(log.op)))
        self.order, self.course = array("I"), array("q")
        self.steps: Optional[List[Step]] = []
        self.step_count = 0
        self.states: Dict[int, int] = {}
        self.doubts: List[Doubt] = []
        self.calls_of: List[array[int]] = [array("I") for _ in log.replicas]
        for call, replica in enumerate(log.replica):
            self.calls_of[replica].append(call)
        self.made = [0] * self.count
        self.have = [[0] * self.count for _ in log.replicas]
        self.at = [0] * self.count
        self.rank = array("I", bytes(4 * len(log.op)))
        self.go()

    def go(self) -> None:
        """Goes through all lines; where several may come next, the one with the least number."""
        waiting: List[List[Tuple[int, int]]] = [[] for _ in range(self.count)]
        ready = [(self.line_at(it), it) for it in range(self.count) if self.log.entries[it]]
        heapq.heapify(ready)
        while ready:
            _, replica = heapq.heappop(ready)
            kind, row = self.entry(replica)
            need = self.need(replica, kind, row)
            if need:
                waiting[need[0]].append((need[1], replica))
                continue
            (self.call, self.take, self.state)[kind](replica, row)
            self.at[replica] += 1
            if self.at[replica] < len(self.log.entries[replica]):
                heapq.heappush(ready, (self.line_at(replica), replica))
            if kind == CALL and waiting[replica]:
                self.wake(replica, waiting, ready)
        stuck = [
            (replica, self.calls_of[needed][turn - 1])
            for needed, those in enumerate(waiting)
            for turn, replica in those
        ]
        for replica, call in sorted(
            stuck, key=lambda it: (self.entry(it[0])[0] != TAKE, self.line_at(it[0]))
        ):
            self.stuck(replica, call)
        self.end()

    def wake(
        self, replica: int, waiting: List[List[Tuple[int, int]]], ready: List[Tuple[int, int]]
    ) -> None:
        """Lets those go on that waited for a call which a replica has made now."""
        made = self.made[replica]
        for turn, other in waiting[replica]:
            if turn <= made:
                heapq.heappush(ready, (self.line_at(other), other))
        waiting[replica] = [it for it in waiting[replica] if it[0] > made]

    def end(self) -> None:
        """Replicas whose takings aren't logged take at the end what was made and what they didn't
        know."""
        for replica in range(self.count):
            if not self.log.logs_takes[replica]:
                self.learn(replica, list(self.made), AT_END, 0)

    def entry(self, replica: int) -> Tuple[int, int]:
        """The kind and the row of a replica's next line."""
        code = self.log.entries[replica][self.at[replica]]
        return code % 3, code // 3

    def line_at(self, replica: int) -> int:
        """The number of a replica's next line in its file."""
        kind, row = self.entry(replica)
        return (self.log.calls, self.log.takes, self.log.state_places)[kind].line[row]

    def need(self, replica: int, kind: int, row: int) -> Optional[Tuple[int, int]]:
        """A call, as its replica and its turn, that a line needs and that wasn't made so far, or
        None."""
        made, totals = self.made, self.totals
        if kind == CALL and row not in self.log.seen:
            clock = self.log.clock
            for at in range(self.log.clock_at[row], self.log.clock_at[row + 1], 2):
                other = clock[at]
                if made[other] < clock[at + 1] <= totals[other] and other != replica:
                    return other, clock[at + 1]
        elif kind == CALL:
            for other, turn in self.given_by_ids(self.log.seen[row]):
                if made[other] < turn and other != replica:
                    return other, turn
        elif kind == TAKE:
            for other, turn in self.given_by_ids([self.log.taken[row]]):
                if made[other] < turn:
                    return other, turn
        return None

    def given_by_ids(self, ids: Iterable[int]) -> Iterator[Tuple[int, int]]:
        """The calls with these ids that are in the logs, as replicas with turns."""
        for number in ids:
            call = self.log.call_of[number]
            if call >= 0:
                yield self.log.replica[call], self.log.turn[call]

    def known(self, replica: int, turn: int) -> "array[int]":
        """The clock of a replica's call."""
        at = self.calls_of[replica][turn - 1] * self.count
        return self.clocks[at : at + self.count]

    def said(self, replica: int, call: int) -> List[int]:
        """All that a call's line says was seen: that, what it had seen, and the replica's own
        calls."""
        log, turn = self.log, self.log.turn[call]
        found = [0] * self.count
        if call in log.seen:
            for number in log.seen[call]:
                other = log.call_of[number]
                if other < 0:
                    self.doubt(
                        "unknown",
                        CALL,
                        call,
                        (),
                        f"{log.id_text(number)} is in no line of these logs",
                    )
                elif other == call or log.replica[other] == replica and log.turn[other] > turn:
                    self.doubt(
                        "clock", CALL, call, (other,), "has seen what its replica called later"
                    )
                else:
                    at = other * self.count
                    found = joined(found, self.clocks[at : at + self.count])
        have = self.have[replica]
        for other, known in log.clock_of(call):
            if other == replica:
                if known != turn:
                    who = log.replicas[replica]
                    text = f"is call {turn} of {who} by these logs, and {known} by its clock"
                    self.doubt("clock", CALL, call, (), text)
            elif known > self.totals[other]:
                text = f"has seen {known} calls of {log.replicas[other]}"
                text += f", of which these logs have {self.totals[other]}"
                self.doubt("unknown", CALL, call, (), text)
            elif known > have[other] or known and log.logs_takes[replica]:
                found = joined(found, self.known(other, known))
        found[replica] = turn - 1
        return found

    def call(self, replica: int, call: int) -> None:
        """A replica makes a call."""
        log = self.log
        if call in log.seen or log.has_clock(call):
            said = self.said(replica, call)
            if log.logs_takes[replica]:
                self.compare(replica, call, said)
            else:
                self.learn(replica, said, CALL, call)
        if self.steps is None:
            self.step_count += 1
        else:
            self.step(Step(replica, call, False, CALL, call))
        self.made[replica] += 1
        have = self.have[replica]
        have[replica] = self.made[replica]
        self.clocks[call * self.count : (call + 1) * self.count] = array("I", have)
        self.rank[call] = len(self.order)
        self.order.append(call)
        self.course.append(3 * call + CALL)

    def compare(self, replica: int, call: int, said: List[int]) -> None:
        """Where takings are logged, what a call's line says was seen has to be what was taken."""
        for other, (one, two) in enumerate(zip(said, self.have[replica])):
            if one != two and other != replica:
                named = self.calls_of[other][min(one, two)]
                text = "more" if one > two else "less"
                self.doubt("clock", CALL, call, (named,), text)
                return

    def learn(self, replica: int, said: List[int], kind: int, row: int) -> None:
        """A replica takes what it hadn't taken of what was seen, in the order in which it was
        made."""
        have = self.have[replica]
        if self.steps is None:
            self.step_count += sum([now - old for old, now in zip(have, said) if now > old])
            self.have[replica] = joined(have, said)
            return
        new = [range(old, now) for old, now in zip(have, said)]
        count = sum(map(len, new))
        if count and self.steps is not None and self.step_count + count <= MOST_STEPS:
            found = [
                self.calls_of[other][turn] for other, turns in enumerate(new) for turn in turns
            ]
            for it in sorted(found, key=self.rank.__getitem__):
                self.step(Step(replica, it, True, kind, it if kind == AT_END else row))
        elif count:
            self.steps = None
            self.step_count += count
        self.have[replica] = joined(have, said)

    def take(self, replica: int, row: int) -> None:
        """A replica takes a call by a line of its own."""
        log, have = self.log, self.have[replica]
        call = log.call_of[log.taken[row]]
        if call < 0:
            self.doubt(
                "unknown",
                TAKE,
                row,
                (),
                f"{log.id_text(log.taken[row])} is in no line of these logs",
            )
            return
        other, turn = log.replica[call], log.turn[call]
        known = list(self.known(other, turn))
        if have[other] >= turn:
            self.doubt("seen", TAKE, row, (call,))
        else:
            known[other] -= 1
            for its, (one, two) in enumerate(zip(known, have)):
                if one > two:
                    self.doubt("missing", TAKE, row, (call, self.calls_of[its][two]))
                    break
        self.step(Step(replica, call, True, TAKE, row))
        self.course.append(3 * row + TAKE)
        known[other] = turn
        self.have[replica] = joined(have, known)

    def state(self, _: int, row: int) -> None:
        """A line that says a state stands behind so many steps."""
        self.states[row] = self.step_count

    def step(self, step: Step) -> None:
        """Keeps a step, as long as a schedule may have so many."""
        self.step_count += 1
        if self.steps is not None:
            if self.step_count > MOST_STEPS:
                self.steps = None
            else:
                self.steps.append(step)

    def doubt(
        self, word: str, kind: int, row: int, others: Tuple[int, ...], text: str = ""
    ) -> None:
        """Keeps a line that disagrees with others."""
        self.doubts.append(Doubt(word, kind, row, others, self.step_count, text))

    def stuck(self, replica: int, needed: int) -> None:
        """A replica stands still, at a line that needs a call which was made only after it."""
        kind, row = self.entry(replica)
        self.doubt("early", kind, row, (needed,))
