"""Which functions of the built program its tests enter, and which ways its conditional jumps go.

A library that the machine's C compiler makes is loaded with the program. It puts a stop at the
beginning of each function that no run has entered yet, and at each conditional jump that no run has
gone both ways. A stop notes what happens there in a file that all runs share, and is taken away
where nothing is left to note. So the program is nearly as fast as it is without, and whole checks
of the gate can be run on it: they are given a file that starts it so.
"""
from __future__ import annotations

import collections
import glob
import importlib.machinery
import importlib.util
import json
import os
import re
import shutil
import struct
import subprocess
import time
from typing import Any, Counter, Dict, Iterable, Iterator

from view.given import given

TOP = os.path.dirname(os.path.dirname(os.path.realpath(__file__)))
LISTED = f"{TOP}/checks/coverage.txt"
NEEDED = ("cc", "nm", "objdump")
# The checks of the gate that run the program that CISE_PROGRAM names, and need nothing else.
CHECKS = ("cases", "stories", "second", "faults --gate", "view")
# Runs with the files of checks/growth that are refused memory, each at each so many growths; its
# other runs are at each.
EACH_SO_MANY = {
    "check withdrawals.cise": 41,
    "verify withdrawals.cise withdrawals.report": 17,
    "upgrade withdrawals.cise withdrawals.report": 17,
    "suggest purses.cise": 7,
    "sample 2": 2,
}
FUNCTION = re.compile(r"^([0-9a-f]+) [tT] (.+)$", re.M)
JUMP = re.compile(r"^ +([0-9a-f]+):\t[0-9a-f ]+\tj(?!mp)", re.M)
# What lists the tests of a crate, of which each is run alone.
TEST = re.compile(r"^(.+): test$", re.M)
# Copies of a generic function are told apart by a number, which may be another in the next program.
COPY = re.compile(r"::<.*")
# What is noted of a function, and of a jump.
NEVER, ENTERED, BOTH_WAYS, ONE_WAY, NO_WAY = 0, 2, (7,), (3, 5), 1

LIBRARY = r"""
#define _GNU_SOURCE
#include <fcntl.h>
#include <link.h>
#include <signal.h>
#include <stdint.h>
#include <stdlib.h>
#include <string.h>
#include <sys/mman.h>
#include <sys/stat.h>
#include <ucontext.h>
#include <unistd.h>

enum { STOP = 0xcc, LONG = 0x0f, MOST = 4, PAGE = 4096 };
enum { IS_JUMP = 1, ENTERED = 2, GOES_ON = 2, JUMPS = 4, BOTH = 7 };
enum { CARRY = 1, PARITY = 4, ZERO = 64, SIGN = 128, OVERFLOW = 2048 };

static uint8_t *program;
static const uint32_t *places; /* of the stops, from the least on */
static uint8_t *noted;         /* what each has noted, in all runs */
static uint8_t *stood;         /* the byte in whose place each is */
static uint8_t *times;         /* how often each has stopped this run */
static size_t count;

static int is_done(size_t at) { return noted[at] == ENTERED || noted[at] == BOTH; }

/* Whether a condition holds, by its number in the jump. */
static int holds(int condition, long flags) {
    int is_less = !(flags & SIGN) != !(flags & OVERFLOW);
    int each[] = {!!(flags & OVERFLOW), !!(flags & CARRY),
                  !!(flags & ZERO),     !!(flags & (CARRY | ZERO)),
                  !!(flags & SIGN),     !!(flags & PARITY),
                  is_less,              is_less || flags & ZERO};
    return each[condition >> 1] != (condition & 1);
}

/* Notes which way a jump goes, and where it goes on. */
static uint8_t *after_jump(size_t at, uint8_t *place, long flags) {
    int is_long = stood[at] == LONG, by = (int8_t)place[1];
    if (is_long)
        memcpy(&by, place + 2, sizeof by);
    int jumps = holds((is_long ? place[1] : stood[at]) & 15, flags);
    noted[at] |= jumps ? JUMPS : GOES_ON;
    return place + (is_long ? 6 : 2) + (jumps ? by : 0);
}

static void stopped(int number, siginfo_t *info, void *context) {
    greg_t *registers = ((ucontext_t *)context)->uc_mcontext.gregs;
    uint8_t *place = (uint8_t *)registers[REG_RIP] - 1, *next = place;
    size_t low = 0, high = count;
    (void)number, (void)info;
    while (high - low > 1) {
        size_t middle = low + (high - low) / 2;
        if (program + places[middle] <= place)
            low = middle;
        else
            high = middle;
    }
    if (program + places[low] != place)
        abort();
    if (noted[low] & IS_JUMP)
        next = after_jump(low, place, registers[REG_EFL]);
    else
        noted[low] = ENTERED;
    if (is_done(low) || ++times[low] == MOST)
        *place = stood[low];
    registers[REG_RIP] = (greg_t)next;
}

/* Finds the program, and lets its code be changed. */
static int found(struct dl_phdr_info *info, size_t size, void *unused) {
    (void)size, (void)unused;
    program = (uint8_t *)info->dlpi_addr;
    for (int at = 0; at < info->dlpi_phnum; at++) {
        const ElfW(Phdr) *part = &info->dlpi_phdr[at];
        uint8_t *begin = program + part->p_vaddr / PAGE * PAGE;
        size_t length = part->p_vaddr % PAGE + part->p_memsz;
        if (part->p_type == PT_LOAD && part->p_flags & PF_X &&
            mprotect(begin, length, PROT_READ | PROT_WRITE | PROT_EXEC))
            abort();
    }
    return 1;
}

__attribute__((constructor)) static void begin(void) {
    struct sigaction action = {.sa_sigaction = stopped, .sa_flags = SA_SIGINFO};
    struct stat file;
    int opened = open(getenv("COVERAGE_NOTED"), O_RDWR);
    if (opened < 0 || fstat(opened, &file))
        abort();
    count = file.st_size / (sizeof *places + sizeof *noted);
    void *shared = mmap(NULL, file.st_size, PROT_READ | PROT_WRITE, MAP_SHARED, opened, 0);
    stood = mmap(NULL, 2 * count, PROT_READ | PROT_WRITE, MAP_PRIVATE | MAP_ANONYMOUS, -1, 0);
    close(opened);
    if (shared == MAP_FAILED || stood == MAP_FAILED)
        abort();
    places = shared, noted = (uint8_t *)(places + count), times = stood + count;
    dl_iterate_phdr(found, NULL);
    sigaction(SIGTRAP, &action, NULL);
    for (size_t at = 0; at < count; at++) {
        uint8_t *place = program + places[at];
        stood[at] = *place;
        if (!is_done(at))
            *place = STOP;
    }
}
"""


class Coverage:
    """What runs of a program have entered, in files of a folder. `started` is the path of a file
    that starts the program so that it is noted."""

    def __init__(self, program: str, folder: str) -> None:
        self.noted, library = f"{folder}/noted", f"{folder}/coverage.so"
        self.started = f"{folder}/cise_cli"
        build = ["cc", "-O2", "-shared", "-fPIC", "-o", library, "-x", "c", "-"]
        subprocess.run(build, input=LIBRARY.encode(), check=True)
        self.functions = {int(at, 16): name for at, name in FUNCTION.findall(said("nm", program))}
        code = said("objdump", "-d", program)
        jumps = {int(at, 16) for at in JUMP.findall(code)} - set(self.functions)
        self.places = sorted({*self.functions, *jumps})
        kinds = bytes(NEVER if it in self.functions else NO_WAY for it in self.places)
        with open(self.noted, "wb") as file:
            file.write(struct.pack(f"{len(self.places)}I", *self.places) + kinds)
        with open(self.started, "w") as file:
            file.write(
                "#!/bin/sh\n"
                f"export LD_PRELOAD='{library}'${{LD_PRELOAD:+:$LD_PRELOAD}}\n"
                f"export COVERAGE_NOTED='{self.noted}'\n"
                f"exec '{program}' \"$@\"\n"
            )
        os.chmod(self.started, 0o755)

    def found(self) -> dict[int, int]:
        """What is noted at each place."""
        with open(self.noted, "rb") as file:
            return dict(zip(self.places, file.read()[4 * len(self.places) :]))

    def entered(self) -> set[str]:
        """The functions that some run has entered."""
        found = self.found()
        return {name for at, name in self.functions.items() if found[at] == ENTERED}

    def line(self) -> str:
        """The figures."""
        found = self.found()
        ways = [value for at, value in found.items() if at not in self.functions]
        both = sum(it in BOTH_WAYS for it in ways)
        one = sum(it in ONE_WAY for it in ways)
        return (
            f"{len(self.entered())} of {len(self.functions)} functions entered; of {len(ways)} "
            f"conditional jumps {both} went both ways, {one} one way"
        )


def said(*words: str) -> str:
    """What a tool says."""
    return subprocess.run(words, stdout=subprocess.PIPE, check=True).stdout.decode()


def script(name: str) -> Any:
    """Another script of this folder, as a module."""
    loader = importlib.machinery.SourceFileLoader(name, f"{TOP}/checks/{name}")
    module = importlib.util.module_from_spec(given(importlib.util.spec_from_loader(name, loader)))
    loader.exec_module(module)
    return module


# What the checks of the gate don't give the built program.

FACTS = """cise 1
sort A
relation r ( A )
counter c ( A )
token t
operation put ( a : A )
  insert r ( a )
  add c ( a ) 1
end
operation drop ( a : A )
  remove r ( a )
end
operation more ( a : A , n : int )
  add c ( a ) n
end
operation all ( n : int )
  add c ( * ) n
end
"""
MOST = 10**15
Step = Dict[str, Any]


def call(replica: int, operation: str, *arguments: int) -> Step:
    return {"replica": replica, "call": operation, "args": arguments}


def take(replica: int, event: int) -> Step:
    return {"replica": replica, "take": event}


SCHEDULES: dict[str, list[Step]] = {
    "many elements": [call(0, "put", it) for it in range(40)]
    + [take(1, 39)]
    + [call(0, "drop", it) for it in (*range(20), *range(39, 19, -1))],
    "beyond": [call(0, "more", 2, MOST), call(0, "more", 2, 1)],
    "beneath": [call(0, "more", 1, -MOST), call(0, "all", -1)],
    "beyond at all": [call(0, "all", MOST), call(0, "all", 1)],
    "beyond elsewhere": [call(0, "more", 2, MOST), call(1, "more", 2, 1), take(1, 0)],
}
NUMBERS = (
    "9007199254740993",
    "9007199254740992.99999999999999999",
    "1.00000000000000011102230246251565404236316680908203125",
    "123456789012345678901234567890e-10",
    "179769313486231580793e289",
    "2.4703282292062327208e-324",
    "6631236846766476e-316",
    "1e400",
    "tru",
    "false",
    "[fals",
    '"\\u00',
    '"\\ud83d\\ude00\\ud83d',
)


GUARDS = ("zz", "( n", "", "n and n")


def schedule_of(steps: list[Step]) -> str:
    """A schedule of two replicas, on 40 elements."""
    return json.dumps({"sizes": {"A": 40}, "constants": {}, "replicas": 2, "steps": steps})


def written(folder: str, name: str, text: str) -> str:
    with open(f"{folder}/{name}", "w") as file:
        file.write(text)
    return f"{folder}/{name}"


def further_runs(folder: str) -> Iterator[list[str]]:
    """The words of the runs: values beyond a counter's range, sets of many elements, numbers of
    JSON, a search that learns clauses, guards that are none, what can't be read, and small
    budgets."""
    facts = written(folder, "facts.cise", FACTS)
    for at, guard in enumerate(GUARDS):
        text = f"cise 1 counter c operation f ( n : int ) add c n when {guard} end"
        yield ["check", written(folder, f"guard{at}.cise", text)]
    for name, steps in SCHEDULES.items():
        path = written(folder, name, schedule_of(steps))
        yield from (["replay", facts, path], ["simulate", facts, path])
    for at, number in enumerate(NUMBERS):
        yield ["replay", facts, written(folder, f"number{at}", f'{{"sizes": {{"A": {number}')]
        path = written(folder, f"whole{at}", f'{{"sizes": {{"A": {number}}}, "replicas": 1}}')
        yield ["replay", facts, path]
    search = script("search")
    hard = written(folder, "pigeons.cise", search.specification(search.pigeons(7), True))
    for budget in ("1", "100", "2001", "10000"):
        yield ["check", hard, "--budget", budget]
    for spec in sorted(glob.glob(f"{TOP}/examples/undecided/*.cise")):
        yield from (["suggest", spec], ["check", spec, "--budget", "20"])
    yield from (["check", folder], ["upgrade", facts, facts], ["verify", facts, folder])


def refused_memory(program: str, folder: str) -> int:
    """Refuses memory at growth after growth. How many runs these were."""
    os.mkdir(folder)
    growth, count = script("growth"), 0
    runs = growth.Runs(program, folder)
    runs.write_inputs()
    steps = {**{" ".join(words): 1 for words, _ in growth.RUNS}, **EACH_SO_MANY}
    for words, step in steps.items():
        number, was_refused = 1, True
        while was_refused:
            _, _, was_refused = runs.end(words.split(), number, GROWTH_ONLY="cise_cli")
            number, count = number + step, count + 1
    return count


# What is said of it.


def counted(names: Iterable[str]) -> Counter[str]:
    """How many functions there are of each name, without what tells copies apart."""
    return collections.Counter(COPY.sub("", it) for it in names)


def reasons(text: str) -> dict[str, tuple[int, str]]:
    """The functions that are listed, with how many copies of each are never entered, and why. The
    text has paragraphs, each of a reason and indented lines `COUNT NAME`."""
    found = {}
    for paragraph in text.split("\n\n"):
        lines = paragraph.strip("\n").split("\n")
        why = " ".join(it for it in lines if not it.startswith((" ", "#")))
        for it in lines:
            if it.startswith(" "):
                count, name = it.split(None, 1)
                found[name] = int(count), why
    return found


def differences(never: Iterable[str], listed: dict[str, tuple[int, str]]) -> list[str]:
    """What isn't listed and is never entered, and what is listed and is entered."""
    counts = counted(never)
    return [
        f"{name}: {counts[name]} never entered, {listed.get(name, (0, ''))[0]} listed"
        for name in sorted({*counts, *listed})
        if counts[name] != listed.get(name, (0, ""))[0]
    ]


def of_checks(coverage: Coverage) -> Iterator[str]:
    """Runs the checks of the gate. A line for each that fails."""
    environment = {**os.environ, "CISE_PROGRAM": coverage.started}
    for name in CHECKS:
        begin = time.monotonic()
        path, *words = name.split()
        ran = subprocess.run(
            [f"{TOP}/checks/{path}", *words],
            env=environment,
            stdin=subprocess.DEVNULL,
            stdout=subprocess.PIPE,
            stderr=subprocess.STDOUT,
        )
        if ran.returncode:
            yield f"checks/{name} ends with status {ran.returncode}: {ran.stdout[-2000:].decode()}"
        print(f"checks/{name}, {time.monotonic() - begin:.0f} s: {coverage.line()}", flush=True)


def of_units(folder: str) -> tuple[int, set[str]]:
    """Runs the tests of the crates that are compiled here, as `rt test` leaves them. How many these
    are, and the functions that they enter."""
    count, entered = 0, set()
    for path in sorted(glob.glob(f"{TOP}/crates/*_tests/out/*_tests")):
        own = f"{folder}/{os.path.basename(path)}"
        os.mkdir(own)
        coverage = Coverage(path, own)
        for name in TEST.findall(said(coverage.started, "--list")):
            subprocess.run([coverage.started, name], stdout=subprocess.DEVNULL, check=True)
            count += 1
        entered |= coverage.entered()
    return count, entered


def measure(program: str, folder: str) -> int:
    """Runs the checks of the gate and what they leave out, says what they enter, and compares it
    with the list; the status."""
    lacking = [it for it in NEEDED if not shutil.which(it)]
    if lacking:
        print(f"this needs {' '.join(lacking)}")
        return 1
    coverage = Coverage(program, folder)
    wrong = list(of_checks(coverage))
    count = 0
    for words in further_runs(folder):
        subprocess.run(
            [coverage.started, *words], stdin=subprocess.DEVNULL, stdout=subprocess.DEVNULL
        )
        count += 1
    with open("/dev/full", "wb") as full:
        subprocess.run([coverage.started, "sample"], stdin=subprocess.DEVNULL, stdout=full)
    print(f"{count + 1} further runs: {coverage.line()}", flush=True)
    count = refused_memory(coverage.started, f"{folder}/growth")
    print(f"{count} runs with memory refused: {coverage.line()}", flush=True)
    own = set(coverage.functions.values())
    never = own - coverage.entered()
    count, entered = of_units(folder)
    print(
        f"{count} tests of crates, as far as they are compiled here: {len(own & entered)} of the "
        f"functions entered, {len(never & entered)} of them not above",
        flush=True,
    )
    with open(LISTED) as file:
        wrong += differences(never, reasons(file.read()))
    print("\n".join(wrong) or f"{len(never)} are never entered, as checks/coverage.txt says")
    return 1 if wrong else 0
