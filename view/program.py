"""Runs the program, which says all that the layer knows of verdicts, witnesses, steps and states.
This is the one place that starts it."""
from __future__ import annotations

import json
import os
import subprocess
import threading
from typing import Any, Sequence

from view.inputs import Copy

# Where the program is: `use` says it; tests say it by the environment.
path = os.environ.get("CISE_PROGRAM", "crates/cise_cli/out/cise_cli")
NAME = "cise"


# The last status with which the program says something of its words and inputs.
LAST_SAID = 5


class Stopped(Exception):
    """The program gave no report, replay or suggestion: its status, and the text that it wrote.
    `main` writes that text and ends with it."""

    def __init__(self, words: Sequence[str], status: int, text: str) -> None:
        super().__init__(f"{' '.join(words)} ended with status {status}")
        self.words, self.status, self.text = list(words), status, text


class Cut(Exception):
    """Another thread ended the job that this run was of."""


class Job:
    """Runs of one thread which another may end: the process that runs is killed by its own id, and
    none is started behind it."""

    def __init__(self) -> None:
        self.lock, self.is_ended = threading.Lock(), False
        self.process: subprocess.Popen[bytes] | None = None

    def holds(self, process: subprocess.Popen[bytes] | None) -> None:
        """Says which process runs now, or that none does. `Cut` where the job has been ended."""
        with self.lock:
            self.process = process
            if self.is_ended and process:
                process.kill()
            if self.is_ended:
                raise Cut()

    def end(self) -> None:
        """Ends the job, from any thread."""
        with self.lock:
            self.is_ended = True
            if self.process and self.process.returncode is None:
                self.process.kill()

    def __enter__(self) -> Job:
        jobs.now = self
        return self

    def __exit__(self, *_: object) -> None:
        jobs.now = None


# The job of each thread that has one.
jobs = threading.local()


def use(program: str) -> None:
    """Says where the program is, for all runs from now on."""
    global path
    path = program


def ended(*words: str) -> tuple[int, str]:
    """The status and the text of a run of the program with these words; `OSError` where it can't be
    run."""
    out, returned = output_of([NAME, *words])
    return returned if returned >= 0 else 128 - returned, out.decode("utf-8", "surrogateescape")


def run(*words: str) -> tuple[int, str]:
    """The same; `Stopped`, without what it wrote till then, where the program says nothing of its
    inputs: one couldn't be read, memory ran out, or a signal ended it. So nobody takes that for a
    text that is refused, or for one of which nothing is known."""
    status, text = ended(*words)
    if status > LAST_SAID:
        raise Stopped(words, status, "")
    return status, text


def output_of(words: list[str]) -> tuple[bytes, int]:
    """What a process writes, and what it returned. It never outlives this call."""
    job = getattr(jobs, "now", None)
    if job:
        job.holds(None)
    # (copies of inputs are open files, which it inherits; its own path may be of any bytes, so it
    # is called by a plain name)
    with subprocess.Popen(
        words,
        executable=path,
        stdin=subprocess.DEVNULL,
        stdout=subprocess.PIPE,
        stderr=subprocess.DEVNULL,
        close_fds=False,
    ) as process:
        try:
            if job:
                job.holds(process)
            out = process.communicate()[0]
        except BaseException:
            process.kill()
            raise
    if job:
        job.holds(None)
    return out, process.returncode


def answer(*words: str) -> tuple[int, str]:
    """The same, where the status is 0, 1 or 5; `Stopped` where it is another, as for a
    specification that is refused."""
    status, text = run(*words)
    if status not in (0, 1, 5):
        raise Stopped(words, status, text)
    return status, text


def replayed(spec_path: str, schedule_path: str) -> tuple[int, str]:
    """The status and the replay of a specification and a schedule; the status is 0, 1, or 4 for a
    step that is refused. `Stopped` where the program wrote no replay."""
    status, text = run("replay", spec_path, schedule_path)
    if not text.startswith("cise replay") or status not in (0, 1, 4):
        raise Stopped(("replay", spec_path, schedule_path), status, text)
    return status, text


def run_on(
    text: str, *words: str, schedule: dict[str, Any] | None = None, report: str | None = None
) -> tuple[int, str]:
    """The status and the text of a run on a specification that is no file: `run_on(text, "check",
    "--budget", "5")`. With a schedule, a value that is written as JSON, or with a report, that is
    the second input."""
    texts = [text.encode("utf-8", "surrogateescape")]
    if schedule is not None:
        texts.append(json.dumps(schedule).encode())
    if report is not None:
        texts.append(report.encode("utf-8", "surrogateescape"))
    copies: list[Copy] = []
    try:
        for it in texts:
            copies.append(Copy())
            copies[-1].add(it)
        return run(words[0], *[it.path for it in copies], *words[1:])
    except Stopped as stopped:  # (none of these copies is a file that anybody knows)
        raise Stopped(words, stopped.status, stopped.text) from None
    finally:
        for copy in copies:
            copy.close()


def replay(text: str, schedule: dict[str, Any]) -> tuple[int, str]:
    """The status and the replay of a specification and a schedule that are no files."""
    return run_on(text, "replay", schedule=schedule)
