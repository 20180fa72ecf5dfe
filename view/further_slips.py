"""What else is wrong with a text that the program refuses, behind the first fault. The piece
that is refused, an item or a line, is left out, and the program is asked again of what is left;
so each slip is one that the program has named, of the text without the pieces before. What is
refused only because a piece was left out, as a name that it declares, is not told, and a piece
has one slip at most."""
from typing import Dict, List, Optional, Set, Tuple

from view import name_slips, program, slips
from view.given import given
from view.place import LINE_HEADS, Place
from view.slips import BEGIN, Slip
from view.tree import ITEMS, Spec
from view.words import PIECE, RESERVED, RESERVED_IN_2, Word, words

MOST_TOLD, MOST_RUNS = 20, 60
# The most words that the program is given in all its runs for one text.
MOST_WORK = 250_000
LONGEST_NAME, LONGEST_NUMBER, MOST_SORTS = 32, 38, 8


def all_slips(text: str, refusal: str) -> List[Slip]:
    """The slips of a text that the program refused with this line: the program's own first, and
    those behind it in the order of the text."""
    first = slips.slip_of(text, refusal[len(BEGIN) :].strip())
    if refusal[len(BEGIN) :].startswith("long"):
        return [first]
    return [first, *Left(text, first).further()[: MOST_TOLD - 1]]


class Left:
    """A text without the pieces that are wrong.

    words    what is left, each with its place in the text
    marked   the places of the first words of pieces that have a slip
    dropped  the names that are declared in what was left out, and those that were told as unknown
    found    the slips
    """

    def __init__(self, text: str, first: Slip) -> None:
        self.text, self.first, self.runs = text, first, 0
        self.words: List[Word] = words(text)
        self.dropped: Set[str] = set()
        self.marked: Set[int] = set()
        self.found: List[Slip] = []
        # Words as they are given to the program where they are longer than a word may be.
        self.short: Dict[str, str] = {}

    def further(self) -> List[Slip]:
        """The slips but for the first."""
        self.letters()
        self.long_words()
        self.begin()
        work = 0
        while self.runs < MOST_RUNS and work < MOST_WORK and len(self.found) < MOST_TOLD:
            work += len(self.words)
            refusal = self.ask()
            if refusal is None or not self.leave(refusal):
                break
        seen = {(self.first.line, self.first.column)}
        told = []
        for it in sorted(self.found, key=lambda it: (it.line, it.column)):
            if (it.line, it.column) not in seen:
                seen.add((it.line, it.column))
                told.append(it)
        return told

    def letters(self) -> None:
        """Characters that begin no word: a slip for each row of them, whose piece then has one."""
        at = 0
        for piece in [*PIECE.finditer(self.text), None]:
            start = piece.start() if piece else len(self.text)
            gap = self.text[at:start]
            if gap.strip(" \t\r") and len(self.found) < MOST_TOLD:
                bad = at + len(gap) - len(gap.lstrip(" \t\r"))
                self.found.append(slips.letter(self.text, "letter", bad))
                self.mark(bad)
            at = piece.end() if piece else at

    def long_words(self) -> None:
        """Names and numbers that are longer than any may be."""
        for it in self.words:
            kind, most = ("number", LONGEST_NUMBER) if it[0].isdigit() else ("name", LONGEST_NAME)
            if len(it) > most and it not in self.short:
                self.short[it] = f"long_{len(self.short)}_word" if kind == "name" else "1"
                self.found.append(slips.letter(self.text, kind, it.at))
                self.mark(it.at)

    def mark(self, at: int) -> None:
        """Says that the piece that a place of the text stands in has a slip."""
        before = [number for number, it in enumerate(self.words) if it.at <= at]
        if before:
            self.marked.add(self.words[self.piece(before[-1])[0]].at)
        behind = next((it for it in self.words if it.at > at), None)
        if behind is not None and "\n" not in self.text[at : behind.at]:
            self.marked.add(behind.at)

    def begin(self) -> None:
        """Sees to it that the words begin with a version."""
        version = "2" if RESERVED_IN_2 & set(self.words) else "1"
        if self.words[:1] != ["cise"]:
            self.words[:0] = [Word("cise", 1, 1, 0), Word(version, 1, 1, 0)]
        elif self.words[1:2] not in (["1"], ["2"]):
            stop = next((at for at, it in enumerate(self.words) if it in ITEMS), len(self.words))
            self.words[1:stop] = [
                Word(version, self.words[0].line, self.words[0].column, self.words[0].end)
            ]

    def ask(self) -> Optional[str]:
        """What the program refuses in what is left, without the first two words; None where it
        refuses nothing more."""
        self.runs += 1
        status, said = program.run_on(
            joined([self.short.get(it, it) for it in self.words]), "spell"
        )
        return said[len(BEGIN) :].strip() if status == 3 and said.startswith(BEGIN) else None

    def leave(self, refusal: str) -> bool:
        """Tells a refusal where it isn't one that follows from another, and leaves its piece
        out. False where there is nothing to be left out."""
        parts = refusal.split()
        if len(parts) < 2 or parts[-2] != "word":
            return False
        at = int(parts[-1])
        if parts[0] == "syntax":
            return self.leave_syntax(at)
        word = self.words[at]
        start, stop = self.piece(at)
        if not self.follows(at, parts[0]) and self.words[start].at not in self.marked:
            self.found.append(self.typing(refusal))
        if parts[0] == "unknown":
            self.dropped.add(str(word))
            if self.stands_for_a_kind(at):
                return True
        return self.drop(start, stop, word)

    def follows(self, at: int, rule: str) -> bool:
        """Whether a name may be refused only because of a piece that was left out, or because a
        sort was taken as declared."""
        word, (start, stop) = self.words[at], self.piece(at)
        if rule == "unknown":
            head = max((it for it in range(at) if self.words[it] in ITEMS), default=0)
            return (
                word in self.dropped
                or self.words[head] == "operation"
                and self.words[head].at in self.marked
            )
        if rule == "twice":
            return str(word) in self.dropped
        return any(it in self.dropped for it in self.words[start:stop])

    def stands_for_a_kind(self, at: int) -> bool:
        """Goes on behind a sort that isn't declared as if it were, or as if it were int where
        that is what is meant."""
        word, front = self.words[at], self.words[1]
        site = name_slips.site_of(Spec(self.text, self.words), word)
        if not site or site.needs not in ("sort", "kind"):
            return False
        if site.needs == "kind" and word.lower() in name_slips.WHOLE_NUMBERS:
            self.words[at] = Word("int", word.line, word.column, word.at)
            return True
        if sum(it == "sort" for it in self.words) >= MOST_SORTS:
            return False
        made = [Word(it, front.line, front.column + len(front), front.end) for it in ("sort", word)]
        for it in made:
            it.end = it.at
        self.words[2:2] = made
        return True

    def typing(self, refusal: str) -> Slip:
        """The slip of a name, a number or a line."""
        found: Slip = slips.typing(Spec(self.text, self.words), self.words, refusal.split())
        return found

    def leave_syntax(self, at: int) -> bool:
        """The same of a word with which nothing goes on."""
        place = Place(self.words, at)
        if (
            "end" in place.expected
            and (place.word is None or place.word in ITEMS)
            and place.item is not None
        ):
            return self.put_end(place)
        closes = (
            place.word is None
            or place.word in ITEMS
            or place.word in LINE_HEADS
            or place.word == "end"
        )
        start, stop = self.piece(at - 1 if closes and at > 2 else at)
        if (
            not closes
            and place.expected & {"sort", "requires"}
            and place.near(-1).line < given(place.word).line
        ):
            start = at
        if closes and (at <= 2 or "end" in place.expected or "sort" in place.expected):
            start, stop = self.piece(at) if at < len(self.words) else (at - 1, at)
        if not self.is_marked(start):
            self.found.append(slips.syntax(self.text, self.words, at))
        return self.drop(start, stop, None)

    def is_marked(self, start: int) -> bool:
        return start < len(self.words) and self.words[start].at in self.marked

    def put_end(self, place: Place) -> bool:
        """Ends an operation that has no end."""
        self.found.append(slips.syntax(self.text, self.words, place.at))
        before = self.words[place.at - 1]
        end = Word("end", before.line, before.column + len(before), before.end)
        end.end = end.at
        self.words.insert(place.at, end)
        return True

    def piece(self, at: int) -> Tuple[int, int]:
        """The line or the item that a word stands in; of an operation without its lines."""
        at = min(at, len(self.words) - 1)
        start = next((it for it in range(at, -1, -1) if self.begins(it)), 0)
        stop = next(
            (it for it in range(start + 1, len(self.words)) if self.begins(it)), len(self.words)
        )
        return start, stop

    def begins(self, at: int) -> bool:
        word = self.words[at]
        return word in ITEMS or word in LINE_HEADS or word == "end"

    def drop(self, start: int, stop: int, word: Optional[Word]) -> bool:
        """Leaves a piece out. Of an operation the name stays, with its lines, unless it is the
        name that is wrong."""
        if start < 2 or stop <= start:
            start, stop = max(start, 2), max(stop, 3)
        if start >= len(self.words):
            return False
        part = self.words[start:stop]
        self.marked.add(part[0].at)
        self.dropped.update(declared_in(part))
        if (
            part[0] == "operation"
            and len(part) > 2
            and part[1] not in RESERVED
            and word is not part[1]
        ):
            del self.words[start + 2 : stop]
            return True
        if part[0] == "operation":
            stop = next(
                (it + 1 for it in range(start, len(self.words)) if self.words[it] == "end"), stop
            )
        del self.words[start:stop]
        return True


def declared_in(part: List[Word]) -> List[str]:
    """The names that an item declares which begins with these words, those of its parameters
    too."""
    if part[0] in ("invariant", "operation"):
        return [str(it) for it in part[1:2]] + [
            str(it) for it, behind in zip(part, part[1:]) if behind == ":"
        ]
    is_line = part[0] in LINE_HEADS or part[0] in ("conflict", "initially", "end")
    return [] if is_line else [str(it) for it in part if it not in RESERVED and (it[0].isalpha())]


def joined(all_words: List[str]) -> str:
    """Words with spaces where they need them, so that a text doesn't become longer than it was."""
    found, before = [], " "
    for it in all_words:
        is_apart = (
            (before[-1].isalnum() or before[-1] == "_")
            and it[0].isalnum()
            or before[-1] in "<>!"
            and it[0] == "="
        )
        found.append(f" {it}" if is_apart else str(it))
        before = it
    return "".join(found)
