"""Which calls are ordered by tokens, as read off a specification's text. It says which calls are
worth a try; whether one has to wait for another is what the program's replay says."""
from typing import Dict, List, Optional, Tuple

from view.order import Condition, conditions
from view.states import Call, World
from view.tree import Spec

# An argument of a condition: the call, 0 or 1, with a place among its arguments, or None with an
# element.
Argument = Tuple[Optional[int], int]


class Ordering:
    """The conditions of each two operations, read once."""

    def __init__(self, spec: Spec, world: World) -> None:
        self.spec, self.constants = spec, dict(world.constants)
        self.places = {
            str(name): {str(it): at for at, (it, _) in enumerate(operation.params)}
            for name, operation in spec.operations.items()
        }
        self.known: Dict[Tuple[str, str], List[List[Tuple[Argument, Argument]]]] = {}

    def conditions(self, f: str, g: str) -> List[List[Tuple[Argument, Argument]]]:
        """The conditions on which a call of f and one of g are ordered, each as its equalities."""
        if (f, g) not in self.known:
            found = [self.read(it, f, g) for it in conditions(self.spec, f, g)]
            if f == g:
                found += [[(turned(a), turned(b)) for a, b in it] for it in found]
            self.known[f, g] = found
        return self.known[f, g]

    def read(self, condition: Condition, f: str, g: str) -> List[Tuple[Argument, Argument]]:
        """The equalities of a condition, by places."""

        def read(argument: Tuple[Optional[str], str]) -> Argument:
            side, name = argument
            if side is None:
                return None, self.constants[str(name)]
            return (0, self.places[f][str(name)]) if side == "f" else (1, self.places[g][str(name)])

        return [(read(a), read(b)) for a, b in condition.equalities]

    def holds(self, one: Call, other: Call) -> bool:
        """Whether two calls are ordered."""
        both = one.arguments, other.arguments

        def value(argument: Argument) -> int:
            return argument[1] if argument[0] is None else both[argument[0]][argument[1]]

        found = self.conditions(one.operation, other.operation)
        return any(all(value(a) == value(b) for a, b in it) for it in found)


def turned(argument: Argument) -> Argument:
    """An argument of the other call."""
    return argument if argument[0] is None else (1 - argument[0], argument[1])
