"""Pictures measured without a browser: the places of their boxes and texts, and what is wrong with
them."""
from __future__ import annotations

import re
import xml.etree.ElementTree as ElementTree

from view.given import given

# The widths of a letter and the height of a row, said here once more, so that a wrong one in the
# pictures is seen.
LETTER, CAPTION, ABOVE, BELOW = 7.25, 7.6, 9.5, 3


class Place:
    """A rectangle with the words or the class of what stands there."""

    def __init__(
        self, name: str, left: float | int, top: float | int, right: float, bottom: float
    ) -> None:
        self.name, self.left, self.top, self.right, self.bottom = name, left, top, right, bottom

    def __repr__(self) -> str:
        return (
            f"{self.name!r} at {self.left:.0f} {self.top:.0f} to {self.right:.0f} {self.bottom:.0f}"
        )

    def is_within(self, other: Place, by: float = 1.0) -> bool:
        return (
            self.left >= other.left - by
            and self.right <= other.right + by
            and self.top >= other.top - by
            and self.bottom <= other.bottom + by
        )

    def is_apart(self, other: Place, by: float = 1.0) -> bool:
        return (
            self.right <= other.left + by
            or other.right <= self.left + by
            or self.bottom <= other.top + by
            or other.bottom <= self.top + by
        )


class Picture:
    """A picture's whole, its boxes, its texts and the points of its arrows."""

    def __init__(self, text: str) -> None:
        root = ElementTree.fromstring(text)
        self.kind = root.get("class")
        self.whole = Place(
            given(root.get("aria-label")), 0, 0, *map(float, given(root.get("viewBox")).split()[2:])
        )
        self.boxes = [box_of(it) for it in root.iter("rect")]
        self.texts = [text_of(it) for it in root.iter("text")]
        paths = [
            it.get("d")
            for it in root.iter("path")
            if it.get("class") in ("way", "waybad", "wayopen")
        ]
        self.arrows = [points_of(given(it)) for it in paths if not re.search("[lhvm]", given(it))]
        self.tips = [
            it.get("class") for it in root.iter("path") if given(it.get("class")).startswith("tip")
        ]

    def words(self) -> list[str]:
        return [it.name for it in self.texts]

    def rows_in(self, box: Place) -> list[str]:
        """The words in a box, from above."""
        return [
            it.name
            for it in sorted((it for it in self.texts if it.is_within(box)), key=lambda it: it.top)
        ]

    def faults(self) -> list[str]:
        found = [
            f"{it} is outside the picture"
            for it in self.boxes + self.texts
            if not it.is_within(self.whole)
        ]
        for at, box in enumerate(self.boxes):
            found += [
                f"{box} and {it} stand on each other"
                for it in self.boxes[at + 1 :]
                if not box.is_apart(it)
            ]
        for at, text in enumerate(self.texts):
            found += [
                f"{text} and {it} stand on each other"
                for it in self.texts[at + 1 :]
                if not text.is_apart(it)
            ]
            found += [
                f"{text} runs out of {it}"
                for it in self.boxes
                if not text.is_apart(it) and not text.is_within(it)
            ]
        return found


def box_of(element: ElementTree.Element) -> Place:
    x, y, w, h = [float(given(element.get(it))) for it in ("x", "y", "width", "height")]
    return Place(given(element.get("class")), x, y, x + w, y + h)


def text_of(element: ElementTree.Element) -> Place:
    kinds = (element.get("class") or "").split()
    letter = LETTER if "code" in kinds or not {"cap", "who"} & set(kinds) else CAPTION
    w, x, y = (
        len(given(element.text)) * letter,
        float(given(element.get("x"))),
        float(given(element.get("y"))),
    )
    left = {"end": x - w, "middle": x - w / 2}.get(element.get("text-anchor") or "", x)
    return Place(given(element.text), left, y - ABOVE, left + w, y + BELOW)


def points_of(path: str) -> list[tuple[float, float]]:
    """The points of a line; of a round corner the point at which it would turn."""
    points = []
    for command, numbers in re.findall(r"([MLQ])([-\d. ]+)", path):
        values = list(map(float, numbers.split()))
        points.append((command, values[:2]))
    return [
        (it[0], it[1])
        for at, (command, it) in enumerate(points)
        if command != "L" or at + 1 == len(points) or points[at + 1][0] != "Q"
    ]


def pictures_in(html: str) -> list[Picture]:
    """All pictures of a page."""
    return [Picture(it) for it in re.findall(r'<svg class="pic .*?</svg>', html, re.S)]
