"""What the program prints: a report, a replay, a suggestion. Only whole texts of the program come
here, as docs/users/REPORT.md, docs/users/SCHEDULE.md and docs/users/SUGGEST.md tell them."""
from __future__ import annotations


class State:
    """`true` holds (relation, elements) for what is true, `count` has (counter, elements): value
    for what isn't 0. All else is false or 0. `listed` has the same in the order of the text:
    (relation or counter, elements, value or None).
    """

    def __init__(self) -> None:
        self.true: set[tuple[str, tuple[int, ...]]] = set()
        self.count: dict[tuple[str, tuple[int, ...]], int] = {}
        self.listed: list[tuple[str, tuple[int, ...], int | None]] = []

    def line(self, parts: list[str]) -> None:
        """Takes a line `true` or `count` of a text, cut into its parts."""
        if parts[0] == "true":
            place = parts[1], tuple(map(int, parts[2:]))
            self.true.add(place)
            self.listed.append((*place, None))
        else:
            place = parts[1], tuple(map(int, parts[2:-1]))
            self.count[place] = int(parts[-1])
            self.listed.append((*place, self.count[place]))


class Witness:
    """`sizes` and `consts` by name, the state, `calls` as (operation, [argument, ..]), and `at`,
    the elements at which it fails."""

    def __init__(self) -> None:
        self.state = State()
        self.sizes: dict[str, int] = {}
        self.consts: dict[str, int] = {}
        self.calls: list[tuple[str, list[int]]] = []
        self.at: list[int] = []

    def line(self, parts: list[str]) -> None:
        """Takes a line of a witness, cut into its parts."""
        if parts[0] == "size":
            self.sizes[parts[1]] = int(parts[2])
        elif parts[0] == "const":
            self.consts[parts[1]] = int(parts[2])
        elif parts[0] == "call":
            self.calls.append((parts[1], list(map(int, parts[2:]))))
        elif parts[0] == "at":
            self.at = list(map(int, parts[1:]))
        else:
            self.state.line(parts)


class Block:
    """An obligation with its verdict.

    kind, names      the obligation's line: init, safety, commute or stable, and the rest of its
                     words
    line_in_report   the number of that line, from 1
    verdict          proved, refuted or undecided
    why              of undecided the limit: instances, lines, rows or range
    count            of proved and undecided, how many lines the log has
    witness          of refuted
    log              the lines of the log, and behind them the line of evidence, as text
    """

    def __init__(self, parts: list[str], number: int) -> None:
        self.kind, self.names, self.line_in_report = parts[0], parts[1:], number
        self.count = 0
        self.verdict: str | None = None
        self.why: str | None = None
        self.witness: Witness | None = None
        self.log: list[str] = []

    def pair(self) -> tuple[str, str] | None:
        """The two operations of commute and stable, in the order of the calls of a witness; None of
        the others."""
        return (
            (self.names[0], self.names[1 if self.kind == "commute" else 2])
            if self.kind in ("commute", "stable")
            else None
        )

    def refutation(self) -> Witness:
        """The witness of a refuted obligation."""
        if self.witness is None:
            raise ValueError("this obligation isn't refuted")
        return self.witness

    def words(self) -> str:
        """The obligation's line."""
        return " ".join([self.kind] + self.names)

    def line(self, line: str) -> None:
        """Takes a line behind the obligation's line."""
        if self.witness:
            self.witness.line(line.split())
        elif self.verdict:
            self.log.append(line)
        else:
            parts = line.split()
            self.verdict = parts[0]
            if self.verdict == "refuted":
                self.witness = Witness()
            elif self.verdict == "proved":
                self.count = int(parts[1])
            else:
                self.why, self.count = parts[1], int(parts[2]) if len(parts) > 2 else 0


OBLIGATIONS = ("init ", "safety ", "commute ", "stable ")


class Report:
    """A report: its `text`, its `version` and `budget`, the `blocks`, how many are `proved`,
    `refuted` and `undecided`, and the last `word`."""

    def __init__(self, text: str) -> None:
        self.text, lines = text, text.splitlines()
        self.version, self.budget, self.blocks = (
            int(lines[0].split()[2]),
            int(lines[1].split()[1]),
            [],
        )
        for number, line in enumerate(lines[3:-2], 4):
            if line.startswith(OBLIGATIONS):
                self.blocks.append(Block(line.split(), number))
            else:
                self.blocks[-1].line(line)
        counts = lines[-2].split()
        self.proved, self.refuted, self.undecided, self.word = (
            int(counts[2]),
            int(counts[4]),
            int(counts[6]),
            lines[-1],
        )

    def with_verdict(self, verdict: str) -> list[Block]:
        """The blocks with a verdict, in order."""
        return [it for it in self.blocks if it.verdict == verdict]


class Replay:
    """A replay: `steps` are those that were accepted, as (replica, call or take, event); `stop` the
    parts of the line that says how it stopped; `taken` how many events each replica has taken, and
    `states` its state."""

    def __init__(self, text: str) -> None:
        self.steps: list[tuple[int, str, int]] = []
        self.stop: list[str] = []
        self.taken: list[int] = []
        self.states: list[State] = []
        for line in text.splitlines()[1:]:
            parts = line.split()
            if parts[0] == "step":
                self.steps.append((int(parts[3]), parts[4], int(parts[5])))
            elif parts[0] in ("done", "broken", "refused"):
                self.stop = parts
            elif parts[0] == "replica":
                self.taken.append(int(parts[3]))
                self.states.append(State())
            else:
                self.states[-1].line(parts)


class Simulation:
    """A simulation: `steps` are (step, replica, the parts of what is said of it); `stop`, `taken`
    and `states` are those of a replay."""

    def __init__(self, text: str) -> None:
        self.steps, rest = [], []
        for line in text.splitlines()[1:]:
            parts = line.split()
            if parts[0] == "step":
                self.steps.append((int(parts[1]), int(parts[3]), parts[4:]))
            else:
                rest.append(line)
        end = Replay("\n".join(["", *rest]))
        self.stop, self.taken, self.states = end.stop, end.taken, end.states


class Answer:
    """What a suggestion says of one pair of parameters: `word` is by, notby or openby; `block` the
    refutation of notby."""

    def __init__(self, word: str, left: str, right: str) -> None:
        self.word, self.left, self.right = word, left, right
        self.block: Block | None = None


class SuggestedPair:
    """A pair of operations: `word` is free, needed or unknown; `block` the refutation of needed;
    `answers` one for each two parameters."""

    def __init__(self, word: str, left: str, right: str) -> None:
        self.word, self.left, self.right = word, left, right
        self.block: Block | None = None
        self.answers: list[Answer] = []


class Suggestion:
    """A suggestion: its `pairs`, how many are `needed`, `free` and `unknown`, and the last `word`,
    complete or undecided."""

    def __init__(self, text: str) -> None:
        lines = text.splitlines()
        self.pairs: list[SuggestedPair] = []
        owner: SuggestedPair | Answer | None = None
        for number, line in enumerate(lines[2:-2], 3):
            parts = line.split()
            if parts[0] in ("free", "needed", "unknown"):
                pair = SuggestedPair(*parts)
                self.pairs.append(pair)
                owner = pair
            elif parts[0] in ("by", "notby", "openby"):
                answer = Answer(*parts)
                self.pairs[-1].answers.append(answer)
                owner = answer
            elif owner is None:
                raise ValueError(f"line {number} stands behind no pair")
            elif line.startswith(OBLIGATIONS):
                owner.block = Block(parts, number)
            elif owner.block is None:
                raise ValueError(f"line {number} stands behind no obligation")
            else:
                owner.block.line(line)
        counts = lines[-2].split()
        self.needed, self.free, self.unknown, self.word = (
            int(counts[2]),
            int(counts[4]),
            int(counts[6]),
            lines[-1],
        )
