"""Text in lines of at most 80 columns. A word that is longer than a line stays whole, and an
equality stays in one line."""
from __future__ import annotations

import textwrap
from typing import List, Optional, Tuple

WIDTH = 80
# Stands for a space at which no line is cut.
KEPT = "\ue000"


def wrapped(text: str, first: int = 0, rest: Optional[int] = None) -> List[str]:
    """A text as lines, the first with an indent, the others with another one."""
    begin, below = " " * first, " " * (first if rest is None else rest)
    glued = text.replace(" = ", f"{KEPT}={KEPT}").replace(" : ", f"{KEPT}:{KEPT}")
    lines = textwrap.wrap(
        glued,
        WIDTH,
        initial_indent=begin,
        subsequent_indent=below,
        break_long_words=False,
        break_on_hyphens=False,
    )
    return [it.replace(KEPT, " ") for it in lines]


def table(rows: List[Tuple[str, str]], indent: int = 0) -> List[str]:
    """Rows of a name and words. The words stand under each other where there is room for them, else
    each below its name."""
    widest = max((len(name) for name, _ in rows), default=0) + 2
    if all(indent + widest + len(words) <= WIDTH for _, words in rows):
        return [f"{' ' * indent}{name:{widest}}{words}".rstrip() for name, words in rows]
    return [
        line
        for name, words in rows
        for line in wrapped(name, indent, indent + 2) + wrapped(words, indent + 4)
    ]


def joined(names: list[str]) -> str:
    """As `a`, `a and b`, `a, b and c`."""
    return " and ".join([", ".join(names[:-1]), names[-1]] if len(names) > 1 else names)
