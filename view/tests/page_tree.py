"""A page as a tree of elements."""
from __future__ import annotations

from html.parser import HTMLParser
from typing import Any, Iterator

VOID = {"meta", "br", "link", "img", "input", "hr"}


class Element:
    def __init__(self, tag: str | None, attributes: dict[str, Any], parent: Element | None) -> None:
        self.tag, self.attributes, self.parent = tag, attributes, parent
        self.parts: list[Element | str] = []

    def classes(self) -> list[str]:
        return (self.attributes.get("class") or "").split()

    def text(self) -> str:
        return "".join(it if isinstance(it, str) else it.text() for it in self.parts)

    def elements(self) -> Iterator[Element]:
        for it in self.parts:
            if not isinstance(it, str):
                yield it
                yield from it.elements()

    def all(self, tag: str, *classes: str) -> list[Element]:
        """The elements below with a tag and classes, in order."""
        return [it for it in self.elements() if it.tag == tag and set(classes) <= set(it.classes())]

    def one(self, tag: str, *classes: str) -> Element:
        found = self.all(tag, *classes)
        assert len(found) == 1, (tag, classes, len(found))
        return found[0]

    def inside(self, tag: str) -> bool:
        return self.parent is not None and (self.parent.tag == tag or self.parent.inside(tag))


def text_in(part: Element | str) -> str:
    """The text of a part of an element."""
    return part if isinstance(part, str) else part.text()


class Tree(Element, HTMLParser):
    """A whole page. That its elements are closed in order is asked here."""

    def __init__(self, source: str) -> None:
        Element.__init__(self, None, {}, None)
        HTMLParser.__init__(self, convert_charrefs=True)
        self.source = source
        self.open: list[Element] = [self]
        self.feed(source)
        self.close()
        assert self.open == [self], [it.tag for it in self.open]

    def handle_starttag(self, tag: str, attrs: list[tuple[str, str | None]]) -> None:
        assert len(dict(attrs)) == len(attrs), (tag, attrs)
        made = Element(tag, dict(attrs), self.open[-1])
        self.open[-1].parts.append(made)
        if tag not in VOID:
            self.open.append(made)

    def handle_startendtag(self, tag: str, attrs: list[tuple[str, str | None]]) -> None:
        self.open[-1].parts.append(Element(tag, dict(attrs), self.open[-1]))

    def handle_endtag(self, tag: str) -> None:
        assert self.open[-1].tag == tag, (tag, self.open[-1].tag)
        self.open.pop()

    def handle_data(self, data: str) -> None:
        self.open[-1].parts.append(data)
