"""Specifications that are made to ask the program of many states and calls in one run.

A probe declares the sorts, constants, relations and counters of a specification, without initial
values, tokens and invariants, and has these operations:

- setters, each of which makes one fact of a state, chosen by its first argument, and wipers, which
  make all false and 0: so that one replica can hold one state after the other;
- to ask: each operation with what it requires and observes alone, and operations that require the
  invariants. They change nothing. A simulation says of each call whether it may be made, and goes
  on;
- to act: each operation with its updates alone. A replay has the states of its replicas at the end,
  so that each replica carries out calls from a state of its own.

An operation of a probe has the name that it has in the specification, so nothing is evaluated here:
what may be called where, and what comes of it, is what the program says."""
import json
from functools import lru_cache
from typing import Dict, Iterator, List, NamedTuple, Optional, Sequence, Tuple

from view.outcome import bracketed, declarations, fresh_names
from view.states import Call, Fact, Held, World
from view.tree import UPDATES, Spec

# The most operations of a specification, and of one of them the most parameters, lines of requires
# and updates; the most replicas and steps of a schedule.
MOST_OPERATIONS, MOST_PARAMETERS, MOST_REQUIRES, MOST_UPDATES = 24, 6, 8, 16
MOST_REPLICAS, MOST_STEPS = 16, 10_000
ALLOWED = "call"


class Setter(NamedTuple):
    """How a thing is set: by an operation with the choice, a value, and elements at these
    places."""

    operation: str
    choice: int
    places: List[int]
    elements: int


class Probe:
    """Specifications for one kind of question, as many as its operations need. `texts` has them,
    and `home` says for each operation in which it is."""

    def __init__(self, spec: Spec, acts: bool) -> None:
        self.spec, self.fresh = spec, fresh_names(spec)
        self.setters: Dict[str, Setter] = {}
        self.wipers: List[str] = []
        common = [*self.setting_lines(), *self.wiping_lines()]
        self.invariants: List[Tuple[str, List[str]]] = []
        self.texts: List[str] = []
        self.home: Dict[str, int] = {}
        own = self.own_operations(acts)
        room = (
            MOST_OPERATIONS - len(self.wipers) - len({it.operation for it in self.setters.values()})
        )
        for at in range(0, max(1, len(own)), room):
            here = own[at : at + room]
            self.home.update((name, len(self.texts)) for name, _ in here)
            lines = [f"cise {spec.version}", *declarations(spec)[1:], *common]
            self.texts.append(
                "\n".join([*lines, *(line for _, its in here for line in its)]) + "\n"
            )

    def setting_lines(self) -> List[str]:
        """The setters: a thing joins the last one where its places find room there."""
        lines: List[str] = []
        groups: List[Tuple[List[str], List[str]]] = []
        for thing in map(str, [*self.spec.relations, *self.spec.counters]):
            sorts = list(map(str, self.spec.places(thing)))
            params = with_room(groups[-1][0], sorts) if groups else None
            if params is None or len(groups[-1][1]) == MOST_UPDATES:
                groups.append((sorts, [thing]))
            else:
                groups[-1][0][:] = params
                groups[-1][1].append(thing)
        for params, things in groups:
            lines += self.setter_lines(params, things)
        return lines

    def setter_lines(self, params: List[str], things: List[str]) -> List[str]:
        name, choice, value = (next(self.fresh) for _ in range(3))
        elements = [next(self.fresh) for _ in params]
        head = [f"{choice} : int", f"{value} : int"]
        head += [f"{it} : {sort}" for it, sort in zip(elements, params)]
        lines = [f"operation {name}{bracketed(head)}"]
        for number, thing in enumerate(things):
            places = chosen_places(params, list(map(str, self.spec.places(thing))))
            spots = bracketed([elements[it] for it in places])
            act = (
                f"set {thing}{spots} {value}"
                if thing in self.spec.counters
                else f"insert {thing}{spots}"
            )
            lines.append(f"  {act} when ( {choice} = {number} )")
            self.setters[thing] = Setter(name, number, places, len(params))
        return [*lines, "end"]

    def wiping_lines(self) -> List[str]:
        """Operations that make everything false and 0."""
        updates = [
            f"  remove {it}{bracketed(['*'] * len(at))}" for it, at in self.spec.relations.items()
        ]
        updates += [
            f"  set {it}{bracketed(['*'] * len(at))} 0" for it, at in self.spec.counters.items()
        ]
        lines: List[str] = []
        for at in range(0, len(updates), MOST_UPDATES):
            self.wipers.append(next(self.fresh))
            lines += [f"operation {self.wipers[-1]}", *updates[at : at + MOST_UPDATES], "end"]
        return lines

    def own_operations(self, acts: bool) -> List[Tuple[str, List[str]]]:
        """The operations that are asked or carried out, each with its lines."""
        heads = UPDATES if acts else ("requires", "observes")
        found = []
        for name, it in self.spec.operations.items():
            head = f"operation {name}{bracketed([f'{a} : {sort}' for a, sort in it.params])}"
            found.append((str(name), [head, *("  " + line.text for line in it.of(*heads)), "end"]))
        return found if acts else self.invariant_operations() + found

    def invariant_operations(self) -> List[Tuple[str, List[str]]]:
        """Operations that require the invariants, some each."""
        found, names = [], list(map(str, self.spec.invariants))
        for at in range(0, len(names), MOST_REQUIRES):
            here, name = names[at : at + MOST_REQUIRES], next(self.fresh)
            self.invariants.append((name, here))
            lines = [f"  requires {self.body(it)}" for it in here]
            found.append((name, [f"operation {name}", *lines, "end"]))
        return found

    def body(self, invariant: str) -> str:
        """An invariant's formula with its prefix, as the user wrote it."""
        words = self.spec.invariants[invariant].body
        return str(self.spec.text[words[0].at : words[-1].end])

    def setting(self, facts: Held) -> Iterator[Call]:
        """The calls that make a state where everything is false and 0."""
        for thing, at, value in sorted(facts, key=lambda it: (it[0], it[1], it[2] or 0)):
            yield self.setting_of((thing, at, value))

    def setting_of(self, fact: Fact) -> Call:
        thing, at, value = fact
        setter = self.setters[thing]
        elements = [0] * setter.elements
        for place, element in zip(setter.places, at):
            elements[place] = element
        return Call(setter.operation, (setter.choice, value or 0, *elements))


def with_room(params: List[str], sorts: List[str]) -> Optional[List[str]]:
    """The sorts of a setter's elements, with those that another thing needs besides; None where
    they are more than an operation can have."""
    found = list(params)
    for sort in sorted(set(sorts)):
        found += [sort] * (sorts.count(sort) - params.count(sort))
    return found if len(found) + 2 <= MOST_PARAMETERS else None


def chosen_places(params: List[str], sorts: Sequence[str]) -> List[int]:
    """For each place of a thing which of a setter's elements stands there: the first free one."""
    free, found = list(enumerate(params)), []
    for sort in sorts:
        place = next(it for it in free if it[1] == sort)
        free.remove(place)
        found.append(place[0])
    return found


@lru_cache(maxsize=100_000)
def written(call: Call) -> str:
    """A call as it stands in a step of a schedule, behind the replica."""
    return f'"call":"{call.operation}","args":[{",".join(map(str, call.arguments))}]}}'


class Steps:
    """The steps of a schedule as they are collected, in the form in which they are written."""

    def __init__(self) -> None:
        self.steps: List[str] = []

    def call(self, replica: int, call: Call) -> int:
        """Adds a call, and gives the number of its step."""
        self.steps.append(f'{{"replica":{replica},{written(call)}')
        return len(self.steps) - 1

    def schedule(self, world: World, replicas: int) -> str:
        """The schedule of these steps."""
        rest = json.dumps(world.schedule(replicas, []))
        return f'{rest[: -len("]}")]}{",".join(self.steps)}]}}'
