"""One door each: inputs are read by view/inputs.py, the program is run by view/program.py, and
what people see is written by view/output.py."""
from __future__ import annotations

import ast
import glob
import os
import subprocess
import sys
import unittest
from typing import Iterator

TOP = os.path.dirname(os.path.dirname(os.path.dirname(os.path.abspath(__file__))))
# What a module may do past the doors, and why.
MAY = {
    "output": {"sys.stdout", "sys.stderr"},
    "inputs": {"open"},
    # The bytes of a path, for inputs and tests.
    "words": {"open"},
    # Whether an input can be opened, for the reason why not.
    "main": {"open"},
    "program": {"subprocess.Popen"},
    # It runs the implementation that is tried.
    "testing/adapter": {"subprocess.Popen"},
    # An editor is spoken to by bytes, on standard input and output.
    "lsp": {"sys.stdout"},
    # Whether there is a terminal.
    "watch": {"sys.stdout"},
    "ci": {"sys.stderr"},
    "testing/drive": {"sys.stderr"},
}


def is_reading(call: ast.Call) -> bool:
    """Whether a call of `open` has no mode that writes."""
    modes = [*call.args[1:2], *(it.value for it in call.keywords if it.arg == "mode")]
    return not any(
        isinstance(it, ast.Constant) and set(str(it.value)) & set("wxa+") for it in modes
    )


def past_doors(text: str) -> Iterator[str]:
    """What a text reads, runs or writes by itself."""
    for node in ast.walk(ast.parse(text)):
        if isinstance(node, ast.Call) and isinstance(node.func, ast.Name):
            if node.func.id == "print" or node.func.id == "open" and is_reading(node):
                yield node.func.id
        elif isinstance(node, ast.Attribute) and isinstance(node.value, ast.Name):
            name = f"{node.value.id}.{node.attr}"
            if name in (
                "sys.stdout",
                "sys.stderr",
                "subprocess.run",
                "subprocess.Popen",
                "os.system",
                "os.popen",
            ):
                yield name


def imported_by(module: str) -> set[str]:
    """What a module of launch/ imports, that Python hasn't at its start."""
    code = (
        "import sys; before = set(sys.modules); sys.path.insert(0, sys.argv[1]);"
        f" from launch import {module}; print(*set(sys.modules) - before)"
    )
    ran = subprocess.run(
        [sys.executable, "-IS", "-c", code, TOP], stdout=subprocess.PIPE, check=True, text=True
    )
    return set(ran.stdout.split())


class Imports(unittest.TestCase):
    """What nearly every call imports, and what each of a packed program does."""

    def test_quick(self) -> None:
        own = {"launch", "launch.allocator", "launch.quick", "launch.stopping"}
        self.assertLessEqual(imported_by("quick"), own)

    def test_packed(self) -> None:
        self.assertFalse({"re", "subprocess", "typing"} & imported_by("packed"))
        self.assertFalse({"re", "subprocess", "typing"} & imported_by("answering"))


class Doors(unittest.TestCase):
    def test_nothing_goes_past_them(self) -> None:
        paths = [
            it for it in glob.glob(f"{TOP}/view/**/*.py", recursive=True) if "/tests/" not in it
        ]
        self.assertGreater(len(paths), 40)
        for path in paths:
            module = os.path.relpath(path, f"{TOP}/view")[: -len(".py")]
            with self.subTest(module), open(path, encoding="utf-8") as file:
                self.assertLessEqual(
                    set(past_doors(file.read())),
                    MAY.get(module, set()),
                    f"view/{module}.py goes past the doors of its package",
                )

    def test_what_is_found(self) -> None:
        text = (
            "print(1)\nopen('a')\nopen('a', 'w')\nopen('a',"
            " mode='rb')\nx.open('a')\nsys.stderr.write('a')\nsubprocess.run([])\n"
        )
        self.assertEqual(
            sorted(past_doors(text)), ["open", "open", "print", "subprocess.run", "sys.stderr"]
        )


if __name__ == "__main__":
    unittest.main()
