"""The record of a program that was proved and built: which kit proved it, by which command, from
which rows of crates.txt, and the sums of the program and of each source. From its first sum on it
is what `sha256sum --check` reads, and the lines before it are comments to that."""
import os
import re
from typing import Dict, Mapping, Optional

from launch.paths import at

SUM = re.compile(r"([0-9a-f]{64})  (\S.*)")


class Damaged(Exception):
    """A record can't be read, or isn't one."""


class Record:
    def __init__(
        self,
        kit: str,
        proved_by: str,
        rows: Dict[str, str],
        program_sum: str,
        sums: Mapping[str, Optional[str]],
    ) -> None:
        self.kit, self.proved_by, self.rows, self.program_sum, self.sums = (
            kit,
            proved_by,
            rows,
            program_sum,
            sums,
        )

    def write(self, path: str, program: str) -> None:
        lines = [
            f"# kit: {self.kit}",
            f"# proved by: {self.proved_by}",
            f"# sources: {len(self.sums)}",
        ]
        lines += [f"# row: {it}" for it in self.rows.values()]
        lines += [
            f"{self.program_sum}  {program}",
            *(f"{total}  {it}" for it, total in self.sums.items()),
        ]
        with open(at(f"{path}.new"), "w", encoding="utf-8", errors="surrogateescape") as file:
            file.write("".join(f"{it}\n" for it in lines))
        os.replace(at(f"{path}.new"), at(path))


def read(path: str, program: str) -> Record:
    """The record at a path, of a program at another."""
    try:
        with open(at(path), encoding="utf-8", errors="surrogateescape") as file:
            text = file.read()
    except OSError as error:
        raise Damaged(f"{path} can't be read: {error.strerror}") from error
    return parsed(text, path, program)


def parsed(text: str, path: str, program: str) -> Record:
    """The record that a text is; the text is of the path, and the record of the program."""
    lines = text.split("\n")
    said = {
        key: [it[len(key) + 4 :] for it in lines if it.startswith(f"# {key}: ")]
        for key in ("kit", "proved by", "sources", "row")
    }
    sums = [it for it in lines if it and not it.startswith("#")]
    found = [match for match in map(SUM.fullmatch, sums) if match]
    is_one = (
        found
        and len(found) == len(sums)
        and found[0][2] == program
        and said["sources"] == [str(len(found) - 1)]
    )
    if not (is_one and len(said["kit"]) == len(said["proved by"]) == 1 and said["row"]):
        raise Damaged(f"{path} is no record of {program}")
    rows = {it.split()[0].rstrip(":"): it for it in said["row"]}
    return Record(
        said["kit"][0], said["proved by"][0], rows, found[0][1], {it[2]: it[1] for it in found[1:]}
    )
