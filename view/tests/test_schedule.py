"""What is said of schedules, steps and reports that the program refuses."""
from __future__ import annotations

import json
import os
import random
import re
import tempfile
import unittest

from view import located, program, refused_report, schedule, slips
from view.tests.slips_table import CHAT
from view.tree import Spec
from view.words import text_of

BANK = "examples/bank/accepted.cise"
GOOD = """\
{
  "sizes": { "Account": 2 },
  "constants": {},
  "replicas": 2,
  "steps": [
    { "replica": 0, "call": "deposit", "args": [0, 100] },
    { "replica": 1, "take": 0 }
  ]
}
"""
# What stands there, what is written in its place, the program's refusal, where it is, the message.
SLIPS = [
    ('"replicas": 2,', '"replicas": 2', "json", "5:3", "no JSON: expected , or } here"),
    (
        '"replicas": 2,',
        '"replicas": 2, // two',
        "json",
        "4:18",
        "no JSON: there are no comments in JSON",
    ),
    ('"replicas"', "'replicas'", "json", "4:3", "no JSON: a key stands in double quotes"),
    ('"replicas"', "replicas", "json", "4:3", "no JSON: a key stands in double quotes"),
    ('"take": 0 }\n', '"take": 0 },\n', "json", "8:3", "no JSON: no comma stands before ]"),
    ("[0, 100]", "[0, 0100]", "json", "6:53", "no JSON: a number doesn't begin with 0"),
    ("[0, 100]", "[0, +100]", "json", "6:52", "no JSON: a number has no + before it"),
    ("[0, 100]", "[0, .5]", "json", "6:52", "no JSON: a number has a digit before its point"),
    ("[0, 100]", "[0, 1e999]", "json", "6:52", "no JSON: this number is too large to be read"),
    (
        "[0, 100]",
        "[0, True]",
        "json",
        "6:52",
        "no JSON: True is no value: true, false and null are written small",
    ),
    (
        "[0, 100]",
        "[0, ten]",
        "json",
        "6:52",
        "no JSON: ten is no value: a text stands in double quotes",
    ),
    ('"deposit"', '"deposit', "json", "6:40", "no JSON: expected , or } here"),
    (
        '"deposit", "args": [0, 100] },',
        '"deposit',
        "json",
        "6:37",
        "no JSON: this text isn't closed in its line",
    ),
    ('"deposit"', '"\\ud800"', "json", "6:30", "no JSON: no character is written so"),
    (
        "  ]\n}\n",
        "  ]\n",
        "json",
        "9:1",
        "no JSON: expected , or } here: the object of line 1 isn't closed",
    ),
    (
        "  ]\n}\n",
        "  ]\n} }\n",
        "json",
        "9:3",
        "no JSON: the value has ended, and more stands behind it",
    ),
    (
        '  "replicas": 2,\n',
        "",
        "shape top",
        "1:1",
        "a schedule: replicas is missing; its keys are exactly sizes, constants, replicas, steps",
    ),
    (
        '"replicas": 2',
        '"replicas": 2, "name": "x"',
        "shape top",
        "4:18",
        "a schedule: there is no key name; its keys are exactly sizes, constants, replicas, steps",
    ),
    (
        '{ "Account": 2 }',
        '{ "Accounts": 2 }',
        "shape sizes",
        "2:14",
        "sizes: there is no key Accounts; its keys are exactly Account",
    ),
    (
        '{ "Account": 2 }',
        "{}",
        "shape sizes",
        "2:12",
        "sizes: Account is missing; its keys are exactly Account",
    ),
    (
        '"Account": 2',
        '"Account": 2.0',
        "shape sizes Account",
        "2:25",
        (
            "sizes Account: how many elements there are; a whole number from 0 on is needed, and"
            " this is 2.0"
        ),
    ),
    (
        '"Account": 2',
        '"Account": 65',
        "size sizes Account",
        "2:25",
        "sizes Account: how many elements there are; it is from 0 to 64, and this is 65",
    ),
    (
        '"constants": {}',
        '"constants": []',
        "shape constants",
        "3:16",
        "constants: an object is needed, and this is a list",
    ),
    (
        '"replicas": 2',
        '"replicas": "2"',
        "shape replicas",
        "4:15",
        "replicas: how many there are; a whole number from 1 on is needed, and this is a text",
    ),
    (
        '"replicas": 2',
        '"replicas": 17',
        "size replicas",
        "4:15",
        "replicas: how many there are; it is from 1 to 16, and this is 17",
    ),
    (
        '"args": [0, 100]',
        '"arguments": [0, 100]',
        "shape step 0",
        "6:40",
        "step 0: a call: there is no key arguments; its keys are exactly replica, call, args",
    ),
    (
        '"args": [0, 100]',
        '"args": 100',
        "shape step 0",
        "6:48",
        "step 0: args: a list is needed, and this is 100",
    ),
    (
        "[0, 100]",
        '["0", 100]',
        "shape step 0",
        "6:49",
        (
            "step 0: args: elements and whole numbers stand here as numbers, without a point or an"
            " exponent"
        ),
    ),
    (
        '"take": 0',
        '"takes": 0',
        "shape step 1",
        "7:5",
        "step 1: a step has either the keys replica, call and args, or the keys replica and take",
    ),
    (
        '"take": 0',
        '"take": -1',
        "shape step 1",
        "7:29",
        "step 1: take: a whole number from 0 to 4,294,967,295 is needed, and this is -1",
    ),
    (
        '"deposit"',
        '""',
        "shape step 0",
        "6:29",
        "step 0: call: the name of an operation is needed, a text of 1 to 32 bytes",
    ),
    (
        '{ "replica": 1, "take": 0 }',
        "7",
        "shape step 1",
        "7:5",
        "step 1: an object is needed, and this is 7",
    ),
]
# The steps, which command refuses one, its cause, the line of the step, the message behind `step N
# is refused: `.
DEPOSIT, WITHDRAW = (
    '{ "replica": 0, "call": "deposit", "args": [0, 100] }',
    '{ "replica": 0, "call": "withdraw", "args": [0, 60] }',
)
STEPS = [
    (
        [DEPOSIT.replace("0,", "2,", 1)],
        "replay",
        "replica",
        "there is no replica 2; they are numbered from 0",
    ),
    ([DEPOSIT.replace("deposit", "pay")], "replay", "operation", "there is no operation pay"),
    (
        [DEPOSIT.replace("[0", "[2")],
        "replay",
        "arguments",
        "the arguments don't fit deposit: a : Account, n : int",
    ),
    (
        [DEPOSIT.replace("100", "-1")],
        "replay",
        "precondition 1",
        "line 13 of the specification is false at replica 0: requires ( n >= 0 )",
    ),
    (
        [DEPOSIT, WITHDRAW, WITHDRAW.replace("60", "41")],
        "replay",
        "precondition 2",
        "line 19 of the specification is false at replica 0: requires ( balance ( a ) >= n )",
    ),
    (
        [DEPOSIT, '{ "replica": 1, "take": 0 }', WITHDRAW, WITHDRAW.replace("0,", "1,", 1)],
        "replay",
        "conflict 1",
        (
            "it conflicts with call 1, withdraw(a = Account#0, n = 60) of replica 0, which replica"
            " 1 hasn't taken"
        ),
    ),
    (
        ['{ "replica": 1, "take": 3 }'],
        "replay",
        "noevent",
        "there is no call 3 so far; accepted calls are numbered from 0",
    ),
    (
        [DEPOSIT, '{ "replica": 0, "take": 0 }'],
        "replay",
        "seen",
        "replica 0 has taken call 0, deposit(a = Account#0, n = 100) of replica 0 already",
    ),
    (
        [DEPOSIT, WITHDRAW, '{ "replica": 1, "take": 1 }'],
        "replay",
        "missing 0",
        (
            "call 1, withdraw(a = Account#0, n = 60) of replica 0 was made where call 0, deposit(a"
            " = Account#0, n = 100) of replica 0 had been taken, and replica 1 hasn't taken that"
        ),
    ),
    (
        [DEPOSIT.replace("100", "1000000000000000"), DEPOSIT],
        "replay",
        "range balance 0 1000000000000100",
        "balance(Account#0) would be 1000000000000100, beyond -10^15 to 10^15",
    ),
    (
        [
            DEPOSIT,
            '{ "replica": 1, "take": 0 }',
            WITHDRAW,
            WITHDRAW.replace("0,", "1,", 1),
            WITHDRAW.replace("0,", "1,", 1),
        ],
        "simulate",
        "waiting",
        "a call of replica 1 waits for its grant already",
    ),
]


def refusal_of(command: str, spec_path: str, text: str) -> tuple[int, str]:
    with tempfile.TemporaryDirectory() as folder:
        path = os.path.join(folder, "s.json")
        with open(path, "w", encoding="utf-8") as file:
            file.write(text)
        return program.run(command, spec_path, path)


class Schedules(unittest.TestCase):
    spec = Spec(text_of(BANK))

    def test_the_good_one(self) -> None:
        self.assertEqual(refusal_of("replay", BANK, GOOD)[0], 0)

    def test_each_slip(self) -> None:
        for old, new, refusal, place, message in SLIPS:
            with self.subTest(f"{old!r} becomes {new!r}"):
                self.assertEqual(GOOD.count(old), 1)
                text = GOOD.replace(old, new)
                self.assertEqual(
                    refusal_of("replay", BANK, text), (4, f"refused schedule {refusal}\n")
                )
                told = slips.shown(
                    "s.json", text, schedule.slip_of(self.spec, text, refusal)
                ).split("\n")
                self.assertEqual(told[0], f"s.json:{place}: {message}")
                self.assertEqual(told[2].rindex("^"), 7 + int(place.split(":")[1]))

    def test_constants(self) -> None:
        spec = Spec(CHAT)
        good = '{"sizes":{"User":1,"Room":0},"constants":{"admin":0},"replicas":1,"steps":[]}'
        self.assertEqual(program.run_on(CHAT, "replay", schedule=json.loads(good))[0], 0)
        for new, column, message in (
            (
                "1",
                51,
                (
                    "constants admin: which element of sort User it is; it is from 0 to 0, and this"
                    " is 1"
                ),
            ),
            (
                "null",
                51,
                (
                    "constants admin: which element of sort User it is; a whole number from 0 on is"
                    " needed, and this is null"
                ),
            ),
        ):
            text = good.replace('"admin":0', f'"admin":{new}')
            refusal = program.run_on(CHAT, "replay", schedule=json.loads(text))[1]
            slip = schedule.slip_of(spec, text, refusal[len(schedule.BEGIN) :].strip())
            self.assertEqual((slip.line, slip.column, slip.message), (1, column, message))
        empty = good.replace('"User":1', '"User":0')
        refusal = program.run_on(CHAT, "replay", schedule=json.loads(empty))[1]
        self.assertEqual(refusal, "refused schedule size constants admin\n")
        self.assertIn(
            "its sort has no element", schedule.slip_of(spec, empty, "size constants admin").message
        )

    def test_too_long_and_too_many(self) -> None:
        text = (
            '{"sizes":{"Account":1},"constants":{},"replicas":1,"steps":['
            + ",".join(['{"replica":0,"take":0}'] * 10001)
            + "]}"
        )
        slip = schedule.slip_of(
            self.spec, text, refusal_of("replay", BANK, text)[1][len(schedule.BEGIN) :].strip()
        )
        self.assertEqual(
            (slip.column, slip.message),
            (text.rindex("{") + 1, "steps: there are at most 10,000, and this is one more"),
        )
        long = GOOD + " " * (1 << 24)
        slip = schedule.slip_of(
            self.spec, long, refusal_of("replay", BANK, long)[1][len(schedule.BEGIN) :].strip()
        )
        self.assertEqual((slip.line, slip.column), (10, (1 << 24) - len(GOOD) + 1))

    def test_random_texts_are_json_where_the_program_reads_them(self) -> None:
        chance, refused = random.Random(5), 0
        pieces = [
            "{",
            "}",
            "[",
            "]",
            ",",
            ":",
            '"',
            "-",
            "0",
            ".",
            "e",
            "+",
            "\\",
            "\\u12",
            "true",
            "nul",
            "\x01",
            "\u00e9",
            "[[",
            '"take"',
            " ",
        ]
        for _ in range(120):
            at = chance.randrange(len(GOOD))
            text = GOOD[:at] + chance.choice(["", *pieces]) + GOOD[at + chance.choice((0, 1)) :]
            status, said = refusal_of("replay", BANK, text)
            try:
                located.read(text)
                is_json = True
            except located.NotJson as wrong:
                is_json = False
                self.assertTrue(0 <= wrong.at <= len(text))
            self.assertEqual(is_json, said != "refused schedule json\n", text)
            refused += not is_json
        self.assertGreater(refused, 40)

    def test_values(self) -> None:
        text = (
            '{"a": [1, -2.5, "x\\n\\u00e9\\ud83d\\ude00", null, true], "a": {"b": 3}, "c": false}'
        )
        value = located.read(text)
        self.assertEqual(value.plain(), json.loads(text))
        self.assertEqual(located.read('[1, [true, "\\u00e9"]]').plain(), [1, [True, "\u00e9"]])
        self.assertEqual(
            [
                located.read(it).whole()
                for it in ("0", "-1", "-0", "1.0", "1e2", "9223372036854775808")
            ],
            [0, -1, None, None, None, None],
        )
        self.assertRaises(located.NotJson, located.read, "[" * 128 + "]" * 128)
        self.assertEqual(located.read("[" * 127 + "]" * 127).kind, "list")


class Steps(unittest.TestCase):
    def test_each_cause(self) -> None:
        seen = set()
        for steps, command, cause, message in STEPS:
            with self.subTest(message):
                text = (
                    '{ "sizes": { "Account": 1 }, "constants": {}, "replicas": 2, "steps": [\n'
                    + ",\n".join(steps)
                    + "\n] }\n"
                )
                status, said = refusal_of(command, BANK, text)
                at = len(steps) - 1
                self.assertEqual(status, 4)
                self.assertIn(f"\nrefused {at} {cause}\n", said)
                slip = schedule.refused_step(Spec(text_of(BANK)), text, said)
                self.assertEqual(
                    (slip.line, slip.column, slip.message),
                    (at + 2, 1, f"step {at} is refused: {message}"),
                )
                seen.add(cause.split()[0])
        named = re.findall(
            r"^\| `([a-z]+)(?: [A-Z .]+)?` \|",
            text_of("docs/users/SCHEDULE.md")
            .partition("| Cause | Meaning |")[2]
            .partition("\n\n")[0],
            re.M,
        )
        self.assertEqual(set(named) - seen, {"observation"})

    def test_an_observation(self) -> None:
        text = (
            '{"sizes":{"User":1,"Room":1},"constants":{"admin":0},"replicas":1,"steps":'
            '[\n{"replica":0,"call":"post","args":[0,0]}]}'
        )
        said = program.run_on(CHAT, "replay", schedule=json.loads(text))[1]
        slip = schedule.refused_step(Spec(CHAT), text, said)
        self.assertEqual(
            (slip.line, slip.message),
            (
                2,
                (
                    "step 0 is refused: line 20 of the specification is false at replica 0:"
                    " observes member ( u , r )"
                ),
            ),
        )


class Reports(unittest.TestCase):
    def test_each_kind_has_a_sentence(self) -> None:
        table = (
            text_of("docs/users/REPORT.md").partition("| Kind | Where |")[2].partition("\n\n")[0]
        )
        kinds = {
            it
            for row in re.findall(r"^\| ([^|]*) \|", table, re.M)
            for it in re.findall(r"`([a-z]+)`", row)
        }
        self.assertEqual(kinds, set(refused_report.MEANINGS))

    def test_places(self) -> None:
        path = "examples/bank/accepted.cise"
        report = program.run("check", path)[1]
        lines = report.split("\n")
        at = lines.index("safety withdraw solvent")
        for changed, line, kind in (
            (report.replace("budget 10000", "budget x"), 2, "form"),
            (report.replace("safety withdraw solvent", "safety withdraw x"), at + 1, "obligation"),
            (report.replace("accepted", "rejected"), len(lines) - 1, "summary"),
            (report[: report.index("summary")], len(lines) - 2, "form"),
            (
                report.replace("\nr ", "\nr 99999", 1),
                next(k for k, it in enumerate(lines, 1) if it.startswith("r ")),
                "place",
            ),
        ):
            with tempfile.TemporaryDirectory() as folder:
                file_path = os.path.join(folder, "r")
                with open(file_path, "w") as file:
                    file.write(changed)
                said = program.run("verify", path, file_path)[1]
            self.assertEqual(said, f"refused report line {line} {kind}\n")
            slip = refused_report.slip_of(changed, said[len(refused_report.BEGIN) :].strip())
            self.assertEqual(
                (slip.line, slip.column, slip.message), (line, 1, refused_report.MEANINGS[kind])
            )
            self.assertTrue(slips.shown("r", changed, slip).startswith(f"r:{line}:1: "))


if __name__ == "__main__":
    unittest.main()
