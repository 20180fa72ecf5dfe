"""Audits of logs: what breaks the premise, an invariant or a logged state is named by file and
line; what a log can't say is told too."""
import glob
import json
import os
import random
import tempfile
import unittest
from typing import Any, Callable, Dict, List, Tuple
from unittest import mock

from view import audit, audit_slices, logs, program, workers
from view.audit_slices import Slices
from view.logs import Log
from view.slice_lines import sliced
from view.tests.designs import Design
from view.tests.logs_made import BankLog, TakenLog
from view.tests.test_order import without_requires
from view.tree import Spec
from view.words import text_of

BANK, REFUTED, SEATS = (
    "examples/bank/accepted.cise",
    "examples/bank/refuted.cise",
    "examples/seats/accepted.cise",
)
Lines = List[Dict[str, Any]]


def call(number: int, replica: str, operation: str, amount: int, **more: Any) -> Dict[str, Any]:
    """A call of the bank at the account `a`."""
    return {
        "id": f"e{number}",
        "replica": replica,
        "call": operation,
        "args": {"a": "a", "n": amount},
        **more,
    }


def take(replica: str, number: int) -> Dict[str, Any]:
    return {"replica": replica, "take": f"e{number}"}


DEPOSIT = call(0, "b0", "deposit", 100)
# Lines of one file, the status of an audit, and how its finding begins; "" where there is none.
WHOLE: List[Tuple[str, Lines, int, str]] = [
    (BANK, [], 0, ""),
    (BANK, [DEPOSIT, call(1, "b1", "withdraw", 60, seen=["e0"])], 0, ""),
    (BANK, [DEPOSIT, call(1, "b1", "withdraw", 60, clock={"b0": 1})], 0, ""),
    (BANK, [DEPOSIT, call(1, "b1", "withdraw", 60, clock={"b0": 1, "b1": 1})], 0, ""),
    (
        BANK,
        [DEPOSIT, call(1, "b1", "withdraw", 60)],
        4,
        "2: precondition: withdraw(a = a, n = 60) of b1: line 19 of the specification was false",
    ),
    (
        BANK,
        [DEPOSIT, call(1, "b0", "withdraw", 60), call(2, "b1", "withdraw", 1, seen=["e0"])],
        4,
        "3: conflict: withdraw(a = a, n = 1) of b1 conf",
    ),
    (
        REFUTED,
        [DEPOSIT, call(1, "b0", "withdraw", 60), call(2, "b1", "withdraw", 70, seen=["e0"])],
        1,
        "3: broken: b0 takes withdraw(a = a, n = 70)",
    ),
    (
        BANK,
        [DEPOSIT, take("b1", 0), take("b1", 0)],
        4,
        "3: seen: b1 takes deposit(a = a, n = 100) of b0, L:1: it was taken there already",
    ),
    (
        BANK,
        [DEPOSIT, call(1, "b0", "deposit", 1), take("b1", 1)],
        4,
        "3: missing: b1 takes deposit(a = a, n = 1) of b0, L:2: it had seen deposit(",
    ),
    (BANK, [DEPOSIT, take("b1", 7)], 4, "2: unknown: b1 takes e7: e7 is in no line of these logs"),
    (
        BANK,
        [call(0, "b0", "deposit", 1, seen=["e9"])],
        4,
        "1: unknown: deposit(a = a, n = 1) of b0: e9 is in no line of these logs",
    ),
    (
        BANK,
        [call(0, "b0", "deposit", 1, clock={"b1": 3})],
        4,
        "1: unknown: deposit(a = a, n = 1) of b0: has seen 3 calls of b1, of which these",
    ),
    (
        BANK,
        [call(0, "b0", "deposit", 1, clock={"b0": 2})],
        4,
        "1: clock: deposit(a = a, n = 1) of b0: is call 1 of b0 by these logs, and 2",
    ),
    (
        BANK,
        [DEPOSIT, take("b1", 0), call(1, "b1", "deposit", 1, seen=[])],
        4,
        "3: clock: deposit(a = a, n = 1) of b1: its line doesn't say that it",
    ),
    (
        BANK,
        [take("b0", 1), DEPOSIT, call(1, "b1", "deposit", 1, seen=["e0"])],
        4,
        "1: early: b0 takes deposit(a = a, n = 1) of b1, L:3: it can't",
    ),
    (
        BANK,
        [DEPOSIT, {"replica": "b0", "state": {"balance": [["a", 90]]}}],
        1,
        "2: state: balance(a) is 90 by the log and 100 by the specification",
    ),
    (BANK, [DEPOSIT, {"replica": "b0", "state": {"balance": [["a", 100]]}}], 0, ""),
    (
        BANK,
        [DEPOSIT, {"replica": "b0", "state": {"balance": []}}],
        1,
        "2: state: balance(a) is 0 by the log and 100 by the specification",
    ),
]
# A line that isn't of the form, and what is said of it.
FORMS: List[Tuple[str, str]] = [
    ("{", "no JSON: Expecting property name"),
    ("[]", "a line has the keys"),
    ("\udcff", "this isn't UTF-8"),
    ("[" * 100_000, "no JSON: nested too deep"),
    ('{"replica": "b0"}', "a line has the keys"),
    ('{"replica": true, "take": "e"}', "replica: a text or a whole number is needed"),
    (
        '{"id": "e", "replica": "b0", "call": "pay", "args": {}}',
        "call: the specification has no operation 'pay'",
    ),
    (
        '{"id": "e", "replica": "b0", "call": ["pay"], "args": {}}',
        "call: the specification has no operation",
    ),
    (
        '{"id": "e", "replica": "b0", "call": "deposit", "args": {"a": "x"}}',
        "args: deposit has the parameters a, n",
    ),
    (
        '{"id": "e", "replica": "b0", "call": "deposit", "args": ["x", 1.5]}',
        "args: n is a whole number",
    ),
    (
        '{"id": "e", "replica": "b0", "call": "deposit", "args": ["x", 1e400]}',
        "args: n is a whole number",
    ),
    (
        '{"id": "e", "replica": "b0", "call": "deposit", "args": ["x", 2000000000000000]}',
        "args: n is a whole number",
    ),
    (
        '{"id": "e", "replica": "b0", "call": "deposit", "args": [null, 1]}',
        "a: a text or a whole number is needed",
    ),
    (
        '{"id": "e", "replica": "b0", "call": "deposit", "args": ["x", 1], "seen": ["e"], '
        '"clock": {}}',
        "seen: no clock stands beside it",
    ),
    (
        '{"id": "e", "replica": "b0", "call": "deposit", "args": ["x", 1], "clock": {"b0": -1}}',
        "clock: b0: how many",
    ),
    (
        '{"replica": "b0", "state": {"money": []}}',
        "state: the specification has no relation or counter money",
    ),
    (
        '{"replica": "b0", "state": {"balance": [["a"]]}}',
        "state: balance: a list is needed, of lists with 2 members",
    ),
    ('{"constants": {"root": "r"}}', "constants: an object is needed"),
    (
        '{"id": "first", "replica": "b0", "call": "deposit", "args": ["x", 1]}',
        "id: first is the id of an earlier line",
    ),
]
FIRST = '{"id": "first", "replica": "b0", "call": "deposit", "args": ["x", 1]}\n'


def audited(spec: str, lines: Lines, **options: Any) -> Tuple[int, str]:
    """The audit of the lines of one file, which is called L in its text."""
    with tempfile.TemporaryDirectory() as folder:
        path = os.path.join(folder, "log.jsonl")
        with open(path, "w", encoding="utf-8") as file:
            file.write("".join(json.dumps(it) + "\n" for it in lines))
        status, text = audit.answer(spec, path, **options)
        return status, text.replace(path, "L")


# Lines that are no objects each, though all of them together could be read as some.
APART: List[Tuple[str, int]] = [
    ('{"replica": "b0"\n"take": "first"}\n', 3),
    ('{"replica": "b0", "state": {"balance": [["x", 1]\n["x", 1]]}}\n', 3),
    ('\n{"replica": "b0", "take": "first"}, {"replica": "b0", "take": "first"}\n', 4),
    ('{"replica": "b1", "take": "first"}\n \n7\n', 5),
]


class Blocks(unittest.TestCase):
    """Lines are read many at a time, and each is a line all the same."""

    def test_lines_are_apart(self) -> None:
        for text, line in APART:
            with self.subTest(text), tempfile.TemporaryDirectory() as folder:
                path = os.path.join(folder, "log.jsonl")
                with open(path, "w", encoding="utf-8") as file:
                    file.write(FIRST + "\n" + text)
                status, said = audit.answer(BANK, path)
                self.assertEqual((status, said[: len(path) + 8]), (4, f"{path}:{line}: form"), said)

    def test_blocks_and_lines_say_the_same(self) -> None:
        lines = [it.encode() + b"\n" for it in BankLog(300, 5).lines()]
        self.assertEqual(logs.together(lines), list(map(json.loads, lines)))
        self.assertIsNone(logs.together([*lines, b"[]\n"]))
        self.assertIsNone(logs.together([*lines, b'{"a": "\xff"}\n']))


class Workers(unittest.TestCase):
    """What processes that share some work find, raise, and leave."""

    def test_answers_are_in_order(self) -> None:
        self.assertEqual(
            workers.shared(3, lambda at: [at] * 50_000), [[it] * 50_000 for it in range(3)]
        )

    def test_what_one_raises(self) -> None:
        def work(at: int) -> int:
            if at == 1:
                raise program.Stopped(("replay",), 3, "refused\n")
            return at

        with self.assertRaises(program.Stopped) as raised:
            workers.shared(2, work)
        self.assertEqual((raised.exception.status, raised.exception.text), (3, "refused\n"))

    def test_one_that_dies(self) -> None:
        with self.assertRaises(OSError):
            workers.shared(2, lambda at: os._exit(1) if at else at)


class Whole(unittest.TestCase):
    def test_table(self) -> None:
        for spec, lines, status, begin in WHOLE:
            with self.subTest(lines=lines):
                found = audited(spec, lines)
                self.assertEqual(found[0], status, found[1])
                self.assertEqual(
                    found[1].startswith(
                        f"L:{begin}"
                        if begin
                        else f"{len([it for it in lines if 'call' in it])} call"
                    ),
                    True,
                    found[1],
                )

    def test_forms(self) -> None:
        for line, said in FORMS:
            with self.subTest(line=line[:60]), tempfile.TemporaryDirectory() as folder:
                path = os.path.join(folder, "log.jsonl")
                with open(path, "wb") as file:
                    file.write((FIRST + "\n" + line).encode("utf-8", "surrogateescape"))
                status, text = audit.answer(BANK, path)
                self.assertEqual(status, 4)
                self.assertTrue(text.startswith(f"{path}:3: form: {said}"), text)

    def test_schedule(self) -> None:
        """The schedule of the log is replayed as the audit says."""
        with tempfile.TemporaryDirectory() as folder:
            path = os.path.join(folder, "out.json")
            status, text = audited(BANK, WHOLE[5][1], schedule=path)
            self.assertEqual(status, 4)
            replayed = program.run("replay", BANK, path)
            self.assertEqual(replayed[0], 4)
            self.assertIn("\nrefused 3 conflict 1\n", replayed[1])
            self.assertEqual(
                audited(BANK, [DEPOSIT], schedule=os.path.join(folder, "no", "out.json"))[0], 7
            )

    def test_words(self) -> None:
        self.assertEqual(audited(BANK, [DEPOSIT], part="0/2"), (2, ""))
        self.assertEqual(audited(BANK, [DEPOSIT], part="3/2"), (2, ""))

    def test_constants(self) -> None:
        spec = (
            "cise 1 sort S const root : S relation up ( S ) operation f ( s : S ) requires ( s != "
            "root ) insert up ( s ) end"
        )
        with tempfile.TemporaryDirectory() as folder:
            path = os.path.join(folder, "spec.cise")
            with open(path, "w", encoding="utf-8") as file:
                file.write(spec)
            for named, element, status in (
                ({}, "root", 4),
                ({}, "top", 0),
                ({"root": "top"}, "root", 0),
                ({"root": "top"}, "top", 4),
            ):
                lines: Lines = [{"constants": named}] if named else []
                found = audited(
                    path, lines + [{"id": 1, "replica": 0, "call": "f", "args": [element]}]
                )
                self.assertEqual(found[0], status, found)


def changed(files: List[Lines], choose: random.Random) -> Tuple[int, int]:
    """Changes the amount of a call, and gives its place."""
    replica, at = choose.choice(
        [(r, at) for r, its in enumerate(files) for at, it in enumerate(its) if "call" in it]
    )
    files[replica][at]["args"]["n"] += 1
    return replica, at


def left_out(files: List[Lines], choose: random.Random) -> Tuple[int, int]:
    """Leaves a taking out."""
    replica, at = choose.choice(
        [(r, at) for r, its in enumerate(files) for at, it in enumerate(its) if "take" in it]
    )
    del files[replica][at]
    return replica, at


def too_early(files: List[Lines], choose: random.Random) -> Tuple[int, int]:
    """Takes a call before one that it had seen, or before it was made."""
    replica, at = choose.choice(
        [
            (r, at)
            for r, its in enumerate(files)
            for at, it in enumerate(its)
            if "take" in it and at > 3
        ]
    )
    line = files[replica].pop(at)
    files[replica].insert(0, line)
    return replica, 0


def lying(files: List[Lines], choose: random.Random) -> Tuple[int, int]:
    """Takes an id out of what a call says that it had seen: the last that it heard of another
    replica."""
    found = [
        (r, at)
        for r, its in enumerate(files)
        for at, it in enumerate(its)
        if it.get("seen") and not it["seen"][-1].startswith(f"b{r}-")
    ]
    replica, at = choose.choice(found)
    files[replica][at]["seen"].pop()
    return replica, at


class Planted(unittest.TestCase):
    """Faults in good logs with takings and states are found, and the finding is at their line or
    behind it."""

    def planted(
        self, fault: Callable[[List[Lines], random.Random], Tuple[int, int]], seed: int
    ) -> Tuple[int, str, Tuple[int, int]]:
        log = TakenLog(14, seed=seed)
        place = fault(log.files, random.Random(seed))
        with tempfile.TemporaryDirectory() as folder:
            paths = log.write(folder)
            status, text = audit.answer(BANK, *paths)
            return status, text.replace(folder + "/", ""), place

    def test_good(self) -> None:
        for seed in range(5):
            with tempfile.TemporaryDirectory() as folder:
                self.assertEqual(audit.answer(BANK, *TakenLog(14, seed=seed).write(folder))[0], 0)

    def test_faults(self) -> None:
        for fault in (changed, left_out, too_early, lying):
            for seed in range(6):
                with self.subTest(fault=fault.__name__, seed=seed):
                    status, text, (replica, at) = self.planted(fault, seed)
                    self.assertIn(status, (1, 4), text)
                    named, line, word, _ = text.split(":", 3)
                    if named == f"b{replica}.jsonl" and fault is not too_early:
                        self.assertGreaterEqual(int(line), at, text)
                    if fault is lying:
                        self.assertIn(word.strip(), ("clock", "state"), text)


class Indexed(unittest.TestCase):
    """Random rules and random logs: the index finds a pair exactly where a replay is refused for a
    conflict; that the program confirms each pair is asked whenever one is found."""

    def log_of(self, choose: random.Random, spec: Any) -> Lines:
        """Calls of three replicas; each has seen some of the calls before it."""
        lines: Lines = []
        for number in range(12):
            name = choose.choice(list(spec.operations))
            args: List[Any] = []
            for _, kind in spec.operations[name].params:
                consts = [str(it) for it, sort in spec.consts.items() if sort == kind]
                args.append(
                    choose.randrange(3) if kind == "int" else choose.choice(["x", "y", *consts])
                )
            seen = [it for it in range(number) if choose.random() < 0.5]
            where = f"r{choose.randrange(3)}"
            lines.append({"id": number, "replica": where, "call": name, "args": args, "seen": seen})
        return lines

    def test_against_replay(self) -> None:
        counts = {True: 0, False: 0}
        for seed in range(70):
            choose = random.Random(seed)
            design = Design(choose, version=1 + seed % 2, most_takings=2 + seed % 2)
            with tempfile.TemporaryDirectory() as folder:
                path = os.path.join(folder, "spec.cise")
                with open(path, "w", encoding="utf-8") as file:
                    file.write(without_requires(design.text))
                lines = self.log_of(choose, Spec(design.text))
                whole, every = audited(path, lines), audited(path, lines, all=True)
            self.assertEqual(": conflict: " in whole[1], ": conflict: " in every[1], every[1])
            self.assertEqual(whole[0], every[0], (whole[1], every[1]))
            counts[": conflict: " in whole[1]] += 1
        self.assertGreater(min(counts.values()), 10, counts)


def random_lines(choose: random.Random, spec: Any) -> Lines:
    """Calls of two replicas, of which each has mostly seen the last ones."""
    lines: Lines = []
    for number in range(24):
        name = choose.choice(list(spec.operations))
        params = spec.operations[name].params
        args = [
            choose.randrange(3) if kind == "int" else choose.choice("xyz") for _, kind in params
        ]
        seen = [it for it in range(max(0, number - 4), number) if choose.random() < 0.8]
        where = f"r{choose.randrange(2)}"
        lines.append({"id": number, "replica": where, "call": name, "args": args, "seen": seen})
    return lines


def finding_of(text: str) -> Tuple[int, str]:
    """The line and the word of the first finding; 0 and "" where there is none."""
    parts = text.split(":", 3)
    return (int(parts[1]), parts[2].strip()) if parts[0] == "L" else (0, "")


class Sliced(unittest.TestCase):
    """A log that fits no schedule."""

    def big(self, calls: int, accounts: int, faults: Dict[int, int]) -> Lines:
        """A log of a bank, where the calls with these numbers have other amounts."""
        lines = [
            json.loads(it) for it in BankLog(calls, accounts, unseen=(500, 900), seed=3).lines()
        ]
        for number, amount in faults.items():
            lines[number].update({"call": "withdraw"})
            lines[number]["args"]["n"] = amount
        return lines

    def findings(self, text: str) -> List[str]:
        return sorted(it for it in text.splitlines() if it.startswith("L:"))

    def test_parts(self) -> None:
        """All parts together find what one run finds."""
        lines = self.big(1500, 90, {700: 10**12, 1100: 10**12})
        status, text = audited(BANK, lines, all=True)
        found = self.findings(text)
        self.assertEqual(status, 4)
        self.assertGreaterEqual(sum(": conflict: " in it for it in found), 2, text)
        self.assertGreaterEqual(sum(": precondition: " in it for it in found), 1, text)
        for parts in (2, 5):
            together = [
                it
                for part in range(1, parts + 1)
                for it in self.findings(audited(BANK, lines, all=True, part=f"{part}/{parts}")[1])
            ]
            self.assertEqual(sorted(together), found)

    def test_processes(self) -> None:
        """Several processes find what one finds, and say the same of it."""
        lines = self.big(1500, 90, {700: 10**12, 1100: 10**12})
        one = audited(BANK, lines, all=True)
        with mock.patch.object(audit_slices, "LARGE", 1), mock.patch.object(
            workers, "processors", lambda: 3
        ):
            self.assertEqual(audited(BANK, lines, all=True), one)

    def test_first(self) -> None:
        lines = self.big(400, 90, {})
        self.assertEqual(audited(BANK, lines)[0], 0)
        lines = self.big(700, 90, {})
        status, text = audited(BANK, lines)
        self.assertEqual((status, len(self.findings(text))), (4, 1), text)

    def test_as_whole(self) -> None:
        """Slices find what one schedule finds, in logs that fit one: the first precondition that is
        false, where no call conflicts unseen."""
        for seed in range(6):
            lines = [json.loads(it) for it in BankLog(60, 8, seed=seed).lines()]
            if seed % 2:
                lines[40]["args"]["n"] = 10**12
                lines[40]["call"] = "withdraw"
            whole = audited(BANK, lines, all=True)
            with mock.patch.object(audit.Audit, "fits", lambda _: False):
                cut = audited(BANK, lines, all=True)
            self.assertEqual((cut[0], self.findings(cut[1])), (whole[0], self.findings(whole[1])))

    def test_examples(self) -> None:
        """Over random logs of the gallery's designs slices find what one schedule finds. Calls that
        one schedule refuses are left out of the log, up to some, so that more of it runs."""
        words = {"precondition": 0, "broken": 0, "none": 0}
        paths = sorted(glob.glob("examples/*/*.cise"))
        for seed, path in enumerate(paths):
            spec, choose = Spec(text_of(path)), random.Random(seed)
            if sliced(spec).left or not spec.operations:
                continue
            lines = random_lines(choose, spec)
            for _ in range(6):
                status, text = audited(path, lines)
                at, word = finding_of(text)
                if word not in ("precondition", "conflict", "observation"):
                    break
                gone = lines.pop(at - 1)["id"]
                for it in lines:
                    it["seen"] = [other for other in it["seen"] if other != gone]
            status, text = audited(path, lines)
            with mock.patch.object(audit.Audit, "fits", lambda _: False):
                cut = audited(path, lines, all=True)
            found, word = self.findings(text), finding_of(text)[1]
            if word != "conflict":
                self.assertLessEqual(set(found), set(self.findings(cut[1])), (path, text, cut[1]))
                self.assertEqual(bool(found), cut[0] != 0, (path, text, cut[1]))
            words[word or "none"] = words.get(word or "none", 0) + 1
        self.assertGreater(min(words["precondition"], words["none"]), 10, words)
        self.assertGreater(words["broken"], 0, words)

    def test_lines_across(self) -> None:
        """Lines that read across slices are named, and the others are looked at."""
        left = {
            it: sliced(Spec(text_of(f"examples/{it}/accepted.cise"))).left
            for it in ("bank", "seats", "tournament", "folders")
        }
        self.assertEqual(left["bank"] + left["seats"] + left["tournament"], [])
        self.assertEqual(
            [it.split(" (")[0] for it in left["folders"]], ["invariant rooted", "invariant on_top"]
        )
        spec = Spec(
            "cise 1 sort S counter c ( S ) counter all invariant sum forall s : S , t : S . ( c ( "
            "s ) + c ( t ) >= 0 ) "
            "invariant own forall s : S . ( c ( s ) >= 0 ) operation f ( s : S ) requires ( all "
            ">= 0 ) add c ( s ) 1 add all 1 end"
        )
        self.assertEqual(sliced(spec).left, ["invariant sum (line 1)", "requires of f (line 1)"])

    def test_cut(self) -> None:
        """A slice with more elements than a schedule has is looked at up to there, and that is
        said."""
        lines: Lines = [
            {
                "id": it,
                "replica": "c",
                "call": "book",
                "args": {"p": f"p{it}", "s": "one"},
                "clock": {},
            }
            for it in range(1)
        ] + [
            {
                "id": it,
                "replica": "c",
                "call": "give_back",
                "args": {"p": f"p{it}", "s": "one"},
                "clock": {},
            }
            for it in range(1, 80)
        ]
        status, text = audited(SEATS, lines, all=True)
        self.assertEqual(status, 4)
        self.assertIn("not looked at: the ends of 1 slice", text)

    def test_tokens_across(self) -> None:
        """A token without places orders calls of different slices: each is looked at all the same,
        with takings that are logged and without."""
        text = (
            "cise 1 sort S counter c ( S ) token all conflict all all "
            "operation f ( s : S , n : int ) requires ( c ( s ) >= n ) add c ( s ) 1 takes all end"
        )
        for takes in (False, True):
            calls: Lines = [
                {"id": it, "replica": f"r{it % 2}", "call": "f", "args": [f"s{it}", 0]}
                for it in range(90)
            ]
            for it in calls[1:]:
                it["seen"] = [it["id"] - 1]
            with tempfile.TemporaryDirectory() as folder:
                path = os.path.join(folder, "spec.cise")
                with open(path, "w", encoding="utf-8") as file:
                    file.write(text)
                self.assertEqual(audited(path, self.with_takes(calls, takes))[0], 0)
                for wrong in (70, 71):
                    calls[wrong]["args"][1] = 1
                    found = audited(path, self.with_takes(calls, takes))
                    at = 2 * wrong + 1 if takes else wrong + 1
                    self.assertEqual(finding_of(found[1]), (at, "precondition"), found[1])
                    calls[wrong]["args"][1] = 0

    def with_takes(self, calls: Lines, takes: bool) -> Lines:
        """Calls, each behind a line in which its replica takes the one before."""
        lines: Lines = []
        for it in calls:
            if takes and it["id"]:
                lines.append({"replica": it["replica"], "take": it["id"] - 1})
            lines.append(it)
        return lines

    def test_logged_takings(self) -> None:
        """Slices of a log with takings find what one schedule finds."""
        for seed in range(8):
            log = TakenLog(40, accounts=6, seed=seed)
            if seed % 2:
                at = [it for it in log.files[0] if "call" in it][-1]
                at.update({"call": "withdraw"})
                at["args"]["n"] = 10**9
            lines = [it for its in log.files for it in its if "state" not in it]
            whole = audited(BANK, lines, all=True)
            with mock.patch.object(audit.Audit, "fits", lambda _: False):
                cut = audited(BANK, lines, all=True)
            self.assertEqual(whole[0] != 0, seed % 2 == 1, whole[1])
            self.assertEqual(self.findings(cut[1]), self.findings(whole[1]))

    def test_many_replicas(self) -> None:
        """A log of more replicas than a schedule has: slices of few of them are looked at."""
        lines: Lines = []
        for at in range(40):
            account: Dict[str, Any] = {"a": f"acc-{at}"}
            name = f"r{at}"
            for number, amount in enumerate((10, 20 if at == 7 else 5)):
                operation = "withdraw" if number else "deposit"
                args = {**account, "n": amount}
                lines.append(
                    {"id": 2 * at + number, "replica": name, "call": operation, "args": args}
                )
        status, text = audited(BANK, lines)
        self.assertEqual(status, 4)
        self.assertTrue(
            text.startswith("L:16: precondition: withdraw(a = acc-7, n = 20) of r7"), text
        )
        self.assertNotIn("not looked at", text)
        every = [
            {
                "id": f"all {it}",
                "replica": f"r{it}",
                "call": "deposit",
                "args": ["one", 1],
                "seen": [],
            }
            for it in range(20)
        ]
        text = audited(BANK, lines + every)[1]
        self.assertIn("not looked at: 1 slice with calls of more than 16 replicas", text)

    def test_every_element_is_in_one_slice(self) -> None:
        with tempfile.TemporaryDirectory() as folder:
            path = os.path.join(folder, "log.jsonl")
            with open(path, "w", encoding="utf-8") as file:
                BankLog(300, 70).write(file)
            spec = Spec(text_of(BANK))
            looked = Slices(audit.Audit(spec, Log(spec, [path]).read()), (1, 1))
            looked.join()
            groups = looked.grouped()
            self.assertEqual((len(groups), sum(map(len, groups.values()))), (70, 300))


if __name__ == "__main__":
    unittest.main()
