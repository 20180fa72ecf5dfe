"""REPORT, "Statuses and other texts": which status and which text answer some words."""
from __future__ import annotations
from second import grammar, report, runs, schedule, words
from second.specification import Specification


def answer(given: list[str]) -> tuple[int, str]:
    """The status and the text: "Statuses 2, 3 and 4 are examined in this order"."""
    command = given[0] if len(given) == 3 else "verify"
    if len(given) not in (2, 3) or command not in ("verify", "replay", "simulate"):
        return 2, "refused words\n"
    try:
        spec = specification(_bytes_of(given[-2], words.MOST_BYTES))
        if command == "verify":
            return report.verified(spec, _bytes_of(given[-1], report.MOST_BYTES))
        steps = schedule.read_schedule(spec, _bytes_of(given[-1], schedule.MOST_BYTES))
        return (runs.Run if command == "replay" else runs.Simulation)(spec, steps).text()
    except words.SpecRefused as refused:
        return 3, f"refused specification {refused}\n"
    except schedule.ScheduleRefused as refused:
        return 4, f"refused schedule {refused}\n"
    except OSError:
        return 6, ""
    except MemoryError:
        return 8, ""


def specification(text: bytes) -> Specification:
    """The specification that a text is."""
    return grammar.Reader(words.cut(text)).specification()


def _bytes_of(path: str, most: int) -> bytes:
    """What a file has, up to one byte more than may be."""
    with open(path, "rb") as file:
        return file.read(most + 1)
