"""Inputs of checks/second: random specifications, schedules and reports, and changed ones."""
import json
import random
import re
from typing import Dict, Iterator, List, Sequence, Tuple

from second.rows import Row, combined, least_factors, tightened

Names = Dict[str, str]
COMPARISONS = ("=", "!=", "<", "<=", ">", ">=")
# Numbers that stand at the ends of fields and ranges.
EDGES = (0, 1, 2, 3, -1, 99, 100, 101, 10 ** 15, 10 ** 15 + 1, -10 ** 15 - 1, 4_294_967_295,
         4_294_967_296, 2 ** 127 - 1, 2 ** 127, -2 ** 127 + 1, -2 ** 127, 10 ** 38, 10 ** 60)


class Draft:
    """A random specification, well typed but for what `changed_text` does to it."""

    def __init__(self, chance: random.Random) -> None:
        self.chance = chance
        self.version = chance.choice((1, 1, 2))
        self.sorts = [f"S{it}" for it in range(chance.choice((0, 1, 1, 1, 2)))]
        self.consts = {f"k{it}": chance.choice(self.sorts)
                       for it in range(chance.choice((0, 0, 1, 2))) if self.sorts}
        self.relations = {f"r{it}": self.places(2) for it in range(chance.randint(0, 2))}
        self.counters = {f"c{it}": self.places(2) for it in range(chance.randint(0, 2))}
        if not self.relations and not self.counters:
            self.relations["r0"] = []
        self.tokens = {f"t{it}": self.places(2) for it in range(chance.choice((0, 1, 1, 2)))}

    def places(self, most: int) -> List[str]:
        """Sorts of places."""
        count = self.chance.choice((0, 1, 1, most)) if self.sorts else 0
        return [self.chance.choice(self.sorts) for _ in range(count)]

    def reading(self, name: str, args: Sequence[str]) -> str:
        """A name with arguments."""
        return f"{name} ( {' , '.join(args)} )" if args else name

    def elements(self, names: Names, sorts: Sequence[str]) -> List[str]:
        """A name of an element for each of these sorts; nothing where one has none."""
        found = []
        for sort in sorts:
            known = [it for it, kind in {**self.consts, **names}.items() if kind == sort]
            if not known:
                return []
            found.append(self.chance.choice(known))
        return found

    def number(self) -> str:
        """A literal."""
        small = self.chance.randint(0, 3)
        return str(self.chance.choice((small, small, small, 7, 1_000_000_000)))

    def summand(self, names: Names) -> str:
        """A summand of a term."""
        readings = [it for it, kind in names.items() if kind == "int"]
        for name, places in self.counters.items():
            args = self.elements(names, places)
            if len(args) == len(places):
                readings.append(self.reading(name, args))
        if not readings or self.chance.random() < 0.35:
            return self.number()
        reading = self.chance.choice(readings)
        return f"{self.number()} * {reading}" if self.chance.random() < 0.3 else reading

    def term(self, names: Names) -> str:
        """A sum."""
        text = ("- " if self.chance.random() < 0.15 else "") + self.summand(names)
        while self.chance.random() < 0.3:
            text += self.chance.choice((" + ", " - ")) + self.summand(names)
        return text

    def formula(self, names: Names, depth: int) -> str:
        """A formula."""
        roll = self.chance.random()
        if depth > 0 and roll < 0.45:
            if roll < 0.12:
                return "not " + self.formula(names, depth - 1)
            connective = self.chance.choice(("and", "or", "implies"))
            left, right = self.formula(names, depth - 1), self.formula(names, depth - 1)
            return f"( {left} {connective} {right} )"
        if roll < 0.72 and self.relations:
            name = self.chance.choice(sorted(self.relations))
            args = self.elements(names, self.relations[name])
            if len(args) == len(self.relations[name]):
                return self.reading(name, args)
        if roll > 0.92 and self.sorts:
            pair = self.elements(names, [self.chance.choice(self.sorts)] * 2)
            if pair:
                return f"( {pair[0]} {self.chance.choice(('=', '!='))} {pair[1]} )"
        if roll > 0.89:
            return self.chance.choice(("true", "false"))
        return f"( {self.term(names)} {self.chance.choice(COMPARISONS)} {self.term(names)} )"

    def prefixed(self, names: Names, quantifiers: Sequence[str]) -> str:
        """A formula with a prefix or none."""
        quantifier = self.chance.choice(quantifiers)
        if not self.sorts or not quantifier:
            return self.formula(names, 2)
        count = self.chance.randint(1, 2)
        bound = {f"v{it}": self.chance.choice(self.sorts) for it in range(count)}
        prefix = " , ".join(f"{name} : {sort}" for name, sort in bound.items())
        return f"{quantifier} {prefix} . {self.formula({**names, **bound}, 2)}"

    def updates(self, names: Names) -> List[str]:
        """An update line, or none where no spots fit."""
        is_counter = bool(self.counters) and (not self.relations or self.chance.random() < 0.5)
        things = self.counters if is_counter else self.relations
        name = self.chance.choice(sorted(things))
        args = self.elements(names, things[name])
        if len(args) != len(things[name]):
            args = ["*"] * len(things[name])
        spots = ["*" if self.chance.random() < 0.15 else it for it in args]
        change = self.chance.choice(("add", "add", "set") if is_counter else ("insert", "remove"))
        line = f"{change} {self.reading(name, spots)}"
        if is_counter:
            line += f" {self.term(names)}"
        return [line + (f" when {self.formula(names, 1)}" if self.chance.random() < 0.2 else "")]

    def operation(self, number: int) -> List[str]:
        """An operation."""
        kinds = [*self.sorts, "int"]
        names = {f"p{it}": self.chance.choice(kinds) for it in range(self.chance.randint(0, 3))}
        head = f"operation o{number}"
        if names:
            head += " ( " + " , ".join(f"{it} : {kind}" for it, kind in names.items()) + " )"
        lines: List[str] = []
        for _ in range(self.chance.choice((0, 0, 1, 1, 2))):
            lines.append("requires " + self.prefixed(names, ("", "", "forall", "exists")))
        if self.version == 2 and self.chance.random() < 0.3:
            lines.append("observes " + self.prefixed(names, ("", "forall", "exists")))
        for _ in range(self.chance.choice((0, 1, 1, 2, 3))):
            lines += self.updates(names)
        for name, places in self.tokens.items():
            args = self.elements(names, places)
            if len(args) == len(places) and self.chance.random() < 0.5:
                modes = ("", " shared", " exclusive") if self.version == 2 else ("",)
                lines.append(f"takes {self.reading(name, args)}" + self.chance.choice(modes))
        self.chance.shuffle(lines)
        return [head, *(f"  {it}" for it in lines), "end"]

    def text(self) -> str:
        """The text of the specification."""
        chance, lines = self.chance, [f"cise {self.version}"]
        lines += [f"sort {it}" for it in self.sorts]
        lines += [f"const {name} : {sort}" for name, sort in self.consts.items()]
        for head, things in (("relation", self.relations), ("counter", self.counters),
                             ("token", self.tokens)):
            lines += [f"{head} {self.reading(name, places)}" for name, places in things.items()]
        for name in self.relations:
            if chance.random() < 0.25:
                lines.append(f"initially {name} {chance.choice(('true', 'false'))}")
        for name in self.counters:
            if chance.random() < 0.25:
                lines.append(f"initially {name} {chance.choice((0, 1, 5, '- 2'))}")
        for _ in range(chance.choice((0, 1, 1, 2))):
            if self.tokens:
                lines.append(self.conflict())
        for number in range(chance.choice((0, 1, 1, 2))):
            lines.append(f"invariant i{number} " + self.prefixed({}, ("", "forall", "forall")))
        for number in range(chance.choice((1, 1, 2, 3))):
            lines += self.operation(number)
        return "\n".join(lines) + "\n"

    def conflict(self) -> str:
        """A conflict rule."""
        variables: Dict[str, str] = {}
        patterns = []
        for _ in range(2):
            name = self.chance.choice(sorted(self.tokens))
            args = []
            for sort in self.tokens[name]:
                alike = [it for it, kind in variables.items() if kind == sort]
                if not alike or self.chance.random() < 0.3:
                    alike = [f"x{len(variables)}"]
                    variables[alike[0]] = sort
                args.append(self.chance.choice(alike))
            patterns.append(self.reading(name, args))
        return "conflict " + " ".join(patterns)


def sums_text(chance: random.Random) -> str:
    """A specification whose obligations are about sums of whole numbers."""
    most = chance.choice((3, 9, 100, 1_000_000_000))
    names = [f"p{it}" for it in range(chance.randint(2, 5))]

    def total() -> str:
        chosen = chance.sample(names, chance.randint(1, len(names)))
        return " + ".join(f"{chance.randint(1, most)} * {it}" for it in chosen)

    lines = ["cise 1", "counter store", "relation open", "initially open true",
             "invariant kept open"]
    if chance.random() < 0.3:
        lines.append("invariant stocked ( store >= 0 )")
    lines.append("operation mix ( " + " , ".join(f"{it} : int" for it in names) + " )")
    for _ in range(chance.randint(1, 5)):
        kind = chance.choice(("=", "<=", "<=", "<", "!="))
        sides = [f"{total()} - {chance.randint(0, most)}", total()]
        if chance.random() < 0.3:
            sides[1] = str(chance.randint(0, most))
        chance.shuffle(sides)
        lines.append(f"  requires ( {sides[0]} {kind} {sides[1]} )")
    if chance.random() < 0.4:
        lines.append(f"  requires ( store >= {names[0]} )")
        lines.append(f"  add store - {names[0]}")
    lines += ["  remove open", "end"]
    return "\n".join(lines) + "\n"


def sample_text(count: int) -> str:
    """The specification that `sample` checks: "a chain of N relations in which each needs the one
    before it"."""
    lines = ["cise 1", "sort Item", *(f"relation r{it} ( Item )" for it in range(count)),
             "token t ( Item )", "conflict t ( x ) t ( x )"]
    for it in range(1, count):
        body = f"( r{it} ( x ) implies r{it - 1} ( x ) )"
        lines.append(f"invariant needs{it} forall x : Item . {body}")
    for it in range(count):
        need = [f"requires r{it - 1} ( x )"] if it else []
        lines += [f"operation add{it} ( x : Item )", *need, f"insert r{it} ( x )", "takes t ( x )",
                  "end"]
        need = [f"requires not r{it + 1} ( x )"] if it < count - 1 else []
        lines += [f"operation del{it} ( x : Item )", *need, f"remove r{it} ( x )", "takes t ( x )",
                  "end"]
    return "\n".join(lines) + "\n"


# Specifications with schedules: a counter with keys that is read without one; two takings that are
# both shared, and a third that isn't; a line with `>`; a call that waits for two others.
WORKED = (
    ("cise 1 sort A counter d ( A ) invariant i ( d < 1 )", ()),
    ("""cise 2
sort A
counter c ( A )
token t ( A )
conflict t ( x ) t ( x )
operation look ( a : A )
  requires ( c ( a ) < 1 )
  add c ( a ) 1
  takes t ( a ) shared
end
operation own ( a : A )
  add c ( a ) 1
  takes t ( a )
end
""", (
        """{"sizes": {"A": 1}, "constants": {}, "replicas": 2, "steps": [
        {"replica": 0, "call": "look", "args": [0]}, {"replica": 1, "call": "look", "args": [0]},
        {"replica": 1, "call": "own", "args": [0]}]}""",
        """{"sizes": {"A": 1}, "constants": {}, "replicas": 3, "steps": [
        {"replica": 0, "call": "own", "args": [0]}, {"replica": 1, "call": "own", "args": [0]},
        {"replica": 2, "call": "own", "args": [0]}, {"replica": 2, "take": 0},
        {"replica": 1, "take": 0}, {"replica": 2, "take": 1}, {"replica": 0, "take": 2}]}""",
    )),
    ("""cise 1
counter c
invariant low ( 5 > c )
operation up ( n : int )
  requires ( n > 0 )
  requires ( 5 > c + n )
  add c n
end
""", (
        """{"sizes": {}, "constants": {}, "replicas": 1, "steps": [
        {"replica": 0, "call": "up", "args": [9223372036854775807]}]}""",
        """{"sizes": {}, "constants": {}, "replicas": 17, "steps": []}""",
    )),
)
WORD = re.compile(r"[A-Za-z0-9_]+|[!<>]?=|\S")


def changed_text(chance: random.Random, text: str) -> bytes:
    """A specification with a word changed, left out, doubled or moved, or with a wrong byte."""
    words = WORD.findall(text)
    if chance.random() < 0.25:
        return _beyond_limit(chance, words)
    for _ in range(chance.choice((1, 1, 1, 2, 3))):
        place, other = chance.randrange(len(words)), chance.randrange(len(words))
        roll = chance.randrange(8)
        if roll == 0:
            del words[place]
        elif roll == 1:
            words.insert(place, words[other])
        elif roll == 2:
            words[place], words[other] = words[other], words[place]
        elif roll == 3:
            words[place] = chance.choice(("end", "not", "(", ")", "true", "exists", "forall", "-",
                                          "takes", "shared", "int", "*", "01", "1000000001"))
        elif roll == 4:
            words[place] = chance.choice(("$", "!", "a" * 33, "1" * 39, "é", "# no", "zz"))
        elif roll == 5:
            words[other:other] = words[min(place, other):min(place, other) + 12]
        else:
            names = [it for it, word in enumerate(words) if re.fullmatch(r"[a-zS]\d", word)]
            words[chance.choice(names or [place])] = words[chance.choice(names or [other])]
        if not words:
            words = ["cise"]
    return chance.choice((" ", "\n", "\t")).join(words).encode()


def _beyond_limit(chance: random.Random, words: List[str]) -> bytes:
    """A specification with too many or too few of something, or a number that is too large."""
    text = " ".join(words)
    roll = chance.randrange(5)
    if roll == 0:
        groups = [it.span() for it in re.finditer(r" \( \w+(?: , \w+)* \)", text)]
        if groups:
            start, end = chance.choice(groups)
            text = text[:start] + chance.choice(("", text[start:end - 1] + ", x )")) + text[end:]
    elif roll == 1:
        text = re.sub(r"(?<=[-=<>+*] )\d+",
                      lambda it: chance.choice((it.group(), "1000000001")), text)
    elif roll == 2:
        number = chance.choice((9, 16, 17, 25))
        kind = chance.choice(("sort z{}", "relation z{}", "counter z{}", "token z{}",
                              "invariant z{} true", "operation z{} end"))
        text += " " + " ".join(kind.format(it) for it in range(number))
    elif roll == 3:
        line = chance.choice(("requires true", "takes zt", "insert zr", "observes true"))
        repeated = " ".join([line] * chance.choice((5, 9, 17)))
        text += f" token zt relation zr operation zo {repeated} end"
    else:
        much = " + ".join(["1"] * chance.choice((16, 17)))
        deep = "( " * 100 + "true" + " and true )" * 100
        prefix = "forall a : zs , b : zs , c : zs , d : zs"
        formula = chance.choice((f"( {much} < 1 )", deep, f"{prefix} . true"))
        text += f" sort zs invariant zi {formula}"
    return text.encode()


def changed_report(chance: random.Random, report: bytes) -> bytes:
    """A report with a line, a part of a line or a byte changed."""
    lines = report.split(b"\n")
    for _ in range(chance.choice((1, 1, 1, 1, 2))):
        place = chance.randrange(len(lines))
        roll = chance.randrange(22)
        if roll == 0:
            del lines[place]
        elif roll == 1:
            lines.insert(place, chance.choice(lines))
        elif roll == 2:
            other = chance.randrange(len(lines))
            lines[place], lines[other] = lines[other], lines[place]
        elif roll == 3:
            lines[place] = _changed_bytes(chance, lines[place])
        elif roll == 4:
            return report[:chance.randrange(len(report) + 1)]
        elif roll == 5:
            lines[2:2] = []
            lines[:2] = [b"cise report %d" % chance.choice((1, 2)),
                         b"budget %d" % chance.choice((1, 2, 5, 10_000, 0, 1_000_001))]
        elif roll == 6:
            _change_verdict(chance, lines)
        elif roll == 7:
            _add_drop(chance, lines)
        elif roll in (8, 9):
            change_rows(chance, lines)
        else:
            lines[place] = _changed_part(chance, lines[place])
        if not lines:
            lines = [b""]
    return b"\n".join(lines)


def _changed_bytes(chance: random.Random, line: bytes) -> bytes:
    """A line with a byte changed, put in or left out."""
    place = chance.randrange(len(line) + 1)
    byte = chance.choice((b" ", b"0", b"x", b"-", b"+", b"\r", b"\xff", b""))
    return line[:place] + byte + line[place + chance.randint(0, 1):]


def _changed_part(chance: random.Random, line: bytes) -> bytes:
    """A line with a part changed: mostly a number of it."""
    parts = line.split(b" ")
    numbers = [it for it, part in enumerate(parts) if part.lstrip(b"+-").isdigit()]
    place = chance.choice(numbers or range(len(parts)))
    part = parts[place]
    roll = chance.randrange(10)
    if roll == 0:
        del parts[place]
    elif roll == 1:
        parts.insert(place, part)
    elif roll == 2 and part[:1] in (b"+", b"-"):
        parts[place] = (b"-" if part[:1] == b"+" else b"+") + part[1:]
    elif roll == 3:
        other = chance.choice(numbers or range(len(parts)))
        parts[place], parts[other] = parts[other], part
    elif roll == 4:
        parts[place] = str(chance.choice(EDGES)).encode()
    elif part.lstrip(b"+-").isdigit():
        sign = part[:1] if part[:1] in (b"+", b"-") else b""
        number = int(part.lstrip(b"+-")) + chance.choice((1, 1, -1, 2, -2, 10, 1000))
        parts[place] = sign + str(max(number, 0)).encode()
    else:
        parts[place] = chance.choice((b"r", b"f", b"s", b"d", b"true", b"rows", b"at"))
    return b" ".join(parts)


def _change_verdict(chance: random.Random, lines: List[bytes]) -> None:
    """Another verdict in the place of one, in one kind or with fewer lines of its log."""
    verdicts = [it for it, line in enumerate(lines)
                if line.startswith((b"proved", b"undecided", b"refuted"))]
    if not verdicts:
        return
    place = chance.choice(verdicts)
    count = lines[place].split(b" ")[-1]
    is_log = count.isdigit() and 0 < int(count) < len(lines) - place
    if is_log and chance.random() < 0.5:
        # The last line of the log goes, so that there may be no empty clause.
        del lines[place + int(count)]
        lines[place] = lines[place][:-len(count)] + b"%d" % (int(count) - 1)
        return
    word = chance.choice((b"proved", b"undecided lines", b"undecided rows", b"undecided range"))
    lines[place] = word + b" " + (count if count.isdigit() else b"0")
    if chance.random() < 0.3:
        lines[place] = b"undecided instances"
    elif chance.random() < 0.5 and count.isdigit():
        evidence = (b"rows 1 +0 0", b"value 1 +0 0 0 0 0", b"sum 1 +0 0 0 0 1 5",
                    b"product 2 +0 +1 0 0 1 0")
        lines.insert(min(place + 1 + int(count), len(lines)), chance.choice(evidence))
    _recount(lines)


def _recount(lines: List[bytes]) -> None:
    """Puts the counts of the verdicts into the summary, so that it fits."""
    counts = [sum(line.split(b" ")[0] == word for line in lines[:-3])
              for word in (b"proved", b"refuted", b"undecided")]
    for place, line in enumerate(lines):
        if line.startswith(b"summary"):
            lines[place] = b"summary proved %d refuted %d undecided %d" % tuple(counts)
            last = b"rejected" if counts[1] else b"undecided" if counts[2] else b"accepted"
            if place + 1 < len(lines):
                lines[place + 1] = last


def _add_drop(chance: random.Random, lines: List[bytes]) -> None:
    """One more line of a log: a drop, or one that was there before."""
    logs = [it for it, line in enumerate(lines)
            if line.startswith(b"proved ") and line.split(b" ")[1].isdigit()]
    if not logs:
        return
    place = chance.choice(logs)
    count = int(lines[place].split(b" ")[1])
    at = place + 1 + chance.randint(0, count)
    drops = b"d 1 %d" % chance.randrange(40)
    if chance.random() < 0.2:
        drops = chance.choice((b"d 0", b"d 2 3 3", b"d 1 4294967295", b"d 2 1 1"))
    earlier = [it for it in lines[place + 1:at] if it[:2] in (b"s ", b"d ", b"f ")]
    if earlier and chance.random() < 0.5:
        drops = chance.choice(earlier)
    lines.insert(at, drops)
    lines[place] = b"proved %d" % (count + 1)
    if drops.startswith(b"d"):
        lines[0] = b"cise report 2"


def change_rows(chance: random.Random, lines: List[bytes]) -> None:
    """A line of rows with another multiplier, bound, value or row, or such a line twice."""
    logs = [it for it, line in enumerate(lines)
            if line[:2] in (b"f ", b"s ") or line[:4] == b"prod"]
    if not logs:
        return
    place = chance.choice(logs)
    parts = lines[place].split(b" ")
    if parts[0] == b"s" and chance.random() < 0.4:
        verdicts = [it for it in range(place) if lines[it].startswith((b"proved", b"undecided"))]
        begin = verdicts[-1] if verdicts else 0
        count = lines[begin].split(b" ")[-1]
        if verdicts and count.isdigit():
            lines.insert(place, lines[place])
            lines[begin] = lines[begin][:-len(count)] + b"%d" % (int(count) + 1)
        return
    at = chance.randrange(1, len(parts))
    most = 2 ** 127 - 1
    parts[at] = str(chance.choice((-1, 0, 1, 2, -most, most, 10 ** 30))).encode()
    lines[place] = b" ".join(parts)


def schedule_text(chance: random.Random, text: str) -> bytes:
    """A schedule of a specification: mostly one that fits."""
    sorts = re.findall(r"^sort (\w+)", text, re.M)
    consts = re.findall(r"^const (\w+) : (\w+)", text, re.M)
    operations = re.findall(r"^operation (\w+)(?: \( (.*) \))?$", text, re.M)
    sizes = {it: chance.choice((1, 2, 2, 3)) for it in sorts}
    replicas = chance.randint(1, 3)
    steps: List[object] = []
    for _ in range(chance.randint(0, 14)):
        replica = chance.randrange(replicas) if chance.random() < 0.99 else replicas
        if operations and chance.random() < 0.6:
            name, params = chance.choice(operations)
            kinds = [it.split(" : ")[1] for it in params.split(" , ")] if params else []
            args = [chance.randrange(sizes[kind] + (chance.random() < 0.02)) if kind in sizes
                    else chance.choice((0, 1, 2, 3, 7, -1, 10 ** 15)) for kind in kinds]
            steps.append({"replica": replica, "call": name, "args": args})
        else:
            steps.append({"replica": replica, "take": chance.randrange(5)})
    whole = {"sizes": sizes, "replicas": replicas, "steps": steps,
             "constants": {name: chance.randrange(sizes[sort]) for name, sort in consts}}
    written = json.dumps(whole).encode()
    return changed_json(chance, written) if chance.random() < 0.3 else written


def changed_json(chance: random.Random, written: bytes) -> bytes:
    """A JSON text with something else in the place of a value, or a byte changed."""
    if chance.random() < 0.5:
        values = [it.span() for it in re.finditer(rb'-?\d+|"\w+"|\[\]', written)]
        start, end = chance.choice(values)
        others = (b"1.0", b"-0", b"1e0", b"9223372036854775807", b"9223372036854775808", b"-1",
                  b"true", b"null", b'"x"', b"65", b"17", b"[[]]", b"1e999", b"01", b"NaN",
                  b'"\\ud800"', b'"\\ud83d\\ude00"', b'"' + b"q" * 33 + b'"', b"{}", b'""',
                  b"[" * 128 + b"]" * 128, b"[" * 120 + b"]" * 120, b"18446744073709551616")
        return written[:start] + chance.choice(others) + written[end:]
    return _changed_bytes(chance, written)


# ---- evidence of numbers beyond the range


def large_text(chance: random.Random) -> str:
    """A specification with rows of large coefficients, which no search decides."""
    names = [f"p{it}" for it in range(5)]
    lines = ["cise 1", "relation open", "initially open true", "invariant kept open",
             "operation mix ( " + " , ".join(f"{it} : int" for it in names) + " )"]
    for number in range(4):
        numbers = [chance.randint(900_000_000, 1_000_000_000) for _ in names]
        # p0 is cancelled from the first two rows and from the last two, and p1 from what is left.
        signs = [(-1) ** number, (-1) ** (number // 2), *(chance.choice((1, -1)) for _ in range(3))]
        sides: Dict[int, List[str]] = {1: ["0"], -1: ["7"]}
        for name, coefficient, sign in zip(names, numbers, signs):
            sides[sign].append(f"{coefficient} * {name}")
        lines.append(f"  requires ( {' + '.join(sides[1])} <= {' + '.join(sides[-1])} )")
    return "\n".join([*lines, "  remove open", "end"]) + "\n"


def range_lines(chance: random.Random, atoms: Sequence[Tuple[int, Row]]) -> Iterator[bytes]:
    """Lines of evidence over the rows of atoms: the rows of two pairs cancel p0, and what is left
    of them p1."""
    rows = [tightened(row) for _, row in atoms[:4]]
    steps = []
    for left, right, name in ((0, 1, 0), (2, 3, 0), (4, 5, 1)):
        if name and rows[left].coefficient(name) < 0:
            left, right = right, left
        factors = least_factors(rows[left], rows[right], name)
        if factors is None:
            return
        steps.append(f"{left} {factors[0]} {right} {factors[1]}")
        rows.append(combined(rows[left], factors[0], rows[right], factors[1]))
    used = "4 " + " ".join(f"+{atom}" for atom, _ in atoms[:4])
    head = f"{used} 3 {' '.join(steps)}"
    for values in ((10 ** 15, 10 ** 15), (10 ** 15, -10 ** 15), (1, 0), (10 ** 15 + 1, 0), (1,)):
        for kind in ("sum", "value"):
            for row, name in ((6, 2), (6, 4), (6, 0), (7, 2)):
                given = " ".join(map(str, (row, name, len(values), *values)))
                yield f"{kind} {head} {given}".encode()
    for left, right, name in ((6, 6, 2), (4, 5, 1), (0, 6, 2), (6, 4, 3), (4, 6, 4), (6, 7, 2)):
        yield f"product {head} {left} {right} {name}".encode()
    factor = chance.choice((2, 3, 10 ** 30))
    yield f"product {used} 1 0 {factor} 1 {factor} 0 1 0".encode()
    yield f"sum {used} 0 0 1 4 {' '.join(['1000000000000000'] * 4)}".encode()


def with_evidence(report: bytes, obligation: str, line: bytes) -> bytes:
    """A report in which an obligation's verdict is evidence of a number beyond the range, and its
    log has no line."""
    lines = report.split(b"\n")
    place = lines.index(obligation.encode()) + 1
    starts = (b"init ", b"safety ", b"commute ", b"stable ", b"summary ")
    end = next(it for it in range(place, len(lines)) if lines[it].startswith(starts))
    lines[place:end] = [b"undecided range 0", line]
    _recount(lines)
    return b"\n".join(lines)
