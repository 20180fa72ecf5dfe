"""What pictures are made of: boxes with rows of text, captions, arrows and signs, as SVG. The text
of boxes and of captions with names is monospaced, so that its width is known without a browser."""
from __future__ import annotations

import re
from html import escape
from typing import Any, Sequence

from view.words import Word

# At 12 units a letter of the fonts named in page.css is at most this wide.
LETTER = 7.3
# The height of a row of text, and of a row that is only a line.
ROW = 17
LINE_ROW = 9
# What is free around the text of a box.
PAD = 10
# Names of more letters lose their middle in pictures.
LONG_NAME = 20
NAME = re.compile(r"[A-Za-z][A-Za-z0-9_]*")


class ShortNames:
    """The names of a specification as its pictures show them. A long name loses its middle; two
    that would become alike are left whole."""

    def __init__(self, names: Sequence[str]) -> None:
        alike: dict[str, list[str]] = {}
        for name in sorted({str(it) for it in names if len(it) > LONG_NAME and NAME.fullmatch(it)}):
            alike.setdefault(f"{name[:11]}\u2026{name[-6:]}", []).append(name)
        self.short = {names[0]: short for short, names in alike.items() if len(names) == 1}

    def __call__(self, text: str) -> str:
        """A text with each long name shortened."""
        return NAME.sub(lambda found: self.short.get(found.group(), found.group()), text)


def rows_of(text: str, most: int) -> list[str]:
    """A fact as rows of at most `most` letters where it can be: cut behind a comma, before an
    equals sign or `is`, and behind the first bracket where that is needed. Rows behind the first
    are indented."""
    if len(text) <= most:
        return [text]
    parts = re.split(r"(?<=,) | (?== )| (?=is )", text)
    if len(parts[0]) > most and "(" in parts[0]:
        place = parts[0].index("(") + 1
        parts[:1] = [parts[0][:place], parts[0][place:]]
    rows: list[str] = []
    for part in parts:
        if rows and not rows[-1].endswith("(") and len(rows[-1]) + 1 + len(part) <= most:
            rows[-1] += " " + part
        else:
            rows.append(("  " if rows else "") + part)
    return rows


def wrapped(words: list[str], most: int) -> list[str]:
    """Words as rows of at most `most` letters, but for a word that is longer. Rows behind the first
    are indented."""
    rows: list[str] = []
    for word in words:
        if rows and len(rows[-1]) + 1 + len(word) <= most:
            rows[-1] += " " + word
        else:
            rows.append(("  " if rows else "") + word)
    return rows


def text_width(text: str) -> float:
    """How wide a monospaced text of 12 units is at most."""
    return len(text) * LETTER


class Box:
    """Rows of text in a frame, with its width `w` and its height `h`.

    rows     (text, class) for each fact; `RULE` is a line across
    kind     the class of the frame
    most     the letters of a row, where the facts can be cut so
    least    the least width
    at_most  of more facts than this the last ones are only counted
    corner   a text at the right end of the first row
    """

    RULE = ("", "rule")

    def __init__(
        self,
        rows: list[tuple[str, str]],
        kind: str = "box",
        most: int = 26,
        least: float = 90,
        at_most: int = 9,
        corner: str = "",
    ) -> None:
        if len(rows) > at_most:
            rows = rows[: at_most - 1] + [(f"\u2026 and {len(rows) - at_most + 1} more", "soft")]
        self.rows = [
            (piece, kind_of_row) for text, kind_of_row in rows for piece in rows_of(text, most)
        ]
        self.kind, self.corner = kind, corner
        first = text_width(f"{self.rows[0][0]}  {corner}")
        self.w = max(
            [least, first + 2 * PAD] + [text_width(text) + 2 * PAD for text, _ in self.rows]
        )
        self.h = sum(LINE_ROW if it == self.RULE else ROW for it in self.rows) + 2 * PAD - 4

    def draw(self, x: float, y: float, w: float | None = None) -> str:
        """The box at a place, as wide as its text or as `w`."""
        w = w or self.w
        out = [
            f'<rect class="{self.kind}" x="{x:.1f}" y="{y:.1f}" width="{w:.1f}"'
            f' height="{self.h:.1f}" rx="6"/>'
        ]
        y += PAD + 10
        if self.corner:
            out.append(text(x + w - PAD, y, self.corner, "soft", "end"))
        for row in self.rows:
            if row == self.RULE:
                out.append(
                    f'<path class="rule" d="M{x + PAD:.1f} {y - 8:.1f} H{x + w - PAD:.1f}"/>'
                )
                y += LINE_ROW
                continue
            words = row[0].lstrip(" ")
            out.append(text(x + PAD + text_width(row[0]) - text_width(words), y, words, row[1]))
            y += ROW
        return "".join(out)


def text(x: float, y: float, words: str, kind: str = "", anchor: str = "start") -> str:
    """A row of text, whose base line is at y."""
    marks = (f' class="{kind}"' if kind else "") + (
        f' text-anchor="{anchor}"' if anchor != "start" else ""
    )
    return f'<text x="{x:.1f}" y="{y:.1f}"{marks}>{escape(words)}</text>'


def arrow(points: Sequence[tuple[float, float]], state: str = "") -> str:
    """A line through two or more points, with round corners and a tip at the last."""
    (x1, y1), (x2, y2) = points[-2:]
    length = ((x2 - x1) ** 2 + (y2 - y1) ** 2) ** 0.5 or 1
    ux, uy = (x2 - x1) / length, (y2 - y1) / length
    base_x, base_y = x2 - ux * 9, y2 - uy * 9
    left = f"{base_x - uy * 4:.1f} {base_y + ux * 4:.1f}"
    right = f"{base_x + uy * 4:.1f} {base_y - ux * 4:.1f}"
    tip = f"M{x2:.1f} {y2:.1f} L{left} L{right}Z"
    return (
        f'<path class="way{state}" d="{rounded([*points[:-1], (base_x, base_y)])}"/><path'
        f' class="tip{state}" d="{tip}"/>'
    )


def rounded(points: list[tuple[float, float]], radius: int = 9) -> str:
    """The path of a line through points, whose corners are round."""
    out = [f"M{points[0][0]:.1f} {points[0][1]:.1f}"]
    for before, corner, after in zip(points, points[1:], points[2:]):
        (ax, ay), (bx, by) = toward(corner, before, radius), toward(corner, after, radius)
        out.append(f"L{ax:.1f} {ay:.1f} Q{corner[0]:.1f} {corner[1]:.1f} {bx:.1f} {by:.1f}")
    return " ".join(out + [f"L{points[-1][0]:.1f} {points[-1][1]:.1f}"])


def toward(start: tuple[float, float], end: tuple[float, float], most: int) -> tuple[float, float]:
    """The point on the way from one point to another that is `most` away, or half of the way where
    that is shorter."""
    length = ((end[0] - start[0]) ** 2 + (end[1] - start[1]) ** 2) ** 0.5 or 1
    part = min(most, length / 2) / length
    return start[0] + (end[0] - start[0]) * part, start[1] + (end[1] - start[1]) * part


def dot(x: float, y: float) -> str:
    """That a call has been taken here."""
    return f'<circle class="dot" cx="{x:.1f}" cy="{y:.1f}" r="5"/>'


def cross(x: float, y: float) -> str:
    """That a call meets what it doesn't allow here."""
    return (
        f'<circle class="bad" cx="{x:.1f}" cy="{y:.1f}" r="9"/><path class="waybad"'
        f' d="M{x - 4:.1f} {y - 4:.1f} l8 8 m0 -8 l-8 8"/>'
    )


def unequal(x: float, y: float) -> str:
    """That two things aren't equal."""
    return f'<path class="waybad" d="M{x - 9:.1f} {y - 4:.1f} h18 m-18 8 h18 m-14 6 l10 -20"/>'


def svg(w: float, h: float, parts: list[str], kind: str, title: str, least: float = 0.6) -> str:
    """A picture. It shrinks with its frame, but no further than to the part `least`; where that
    isn't enough its frame scrolls."""
    label = escape(title, True)
    return (
        f'<svg class="pic {kind}" viewBox="0 0 {w:.0f} {h:.0f}" width="{w:.0f}" height="{h:.0f}"'
        f' style="min-width:{least * w:.0f}px" role="img"'
        f' aria-label="{label}"><title>{label}</title>{"".join(parts)}</svg>'
    )
