"""The Rattle kit, by its one command, `rt`."""
from __future__ import annotations

import shutil
import subprocess

LACKING = 'this needs rt, the command of the Rattle kit, on the path (README.md, "Try it")'


def is_here() -> bool:
    return shutil.which("rt") is not None


class Broken(Exception):
    """There is an `rt` that doesn't say its version."""


def line() -> str:
    """The kit's line."""
    try:
        ran = subprocess.run(
            ["rt", "version"], stdin=subprocess.DEVNULL, capture_output=True, check=True
        )
    except (OSError, subprocess.CalledProcessError) as error:
        said = (
            (getattr(error, "stderr", None) or b"").decode(errors="replace").strip().split("\n")[-1]
        )
        raise Broken(f"{shutil.which('rt')} doesn't say its version ({said or error})") from error
    return ran.stdout.decode().strip()
