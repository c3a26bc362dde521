"""A page read back by html.parser, as a tree, strictly: every element that is opened is closed, in order."""
from __future__ import annotations

from html.parser import HTMLParser
from typing import Dict, Iterator, List, Optional, Union

VOID = {"meta", "col", "br", "rect", "circle", "path"}  # of HTML, and those that a drawing closes at once


class Node:
    """An element: its tag, attributes, parent, and the elements and texts in it."""

    def __init__(self, tag: str, attributes: Dict[str, str], parent: Optional["Node"]) -> None:
        self.tag, self.attributes, self.parent = tag, attributes, parent
        self.children: List[Union["Node", str]] = []

    @property
    def classes(self) -> List[str]:
        return self.attributes.get("class", "").split()

    def all(self, tag: str = "", kind: str = "") -> Iterator["Node"]:
        """The elements below of a tag and a class, in the order of the text."""
        for child in self.children:
            if isinstance(child, Node):
                if (not tag or child.tag == tag) and (not kind or kind in child.classes):
                    yield child
                yield from child.all(tag, kind)

    def one(self, tag: str = "", kind: str = "") -> "Node":
        """The only element of a tag and a class."""
        found = list(self.all(tag, kind))
        if len(found) != 1:
            raise AssertionError(f"{len(found)} elements {tag}.{kind} in {self.tag}.{'.'.join(self.classes)}")
        return found[0]

    def raw(self) -> str:
        """The text in it, without what is only a drawing's title."""
        parts = [child if isinstance(child, str) else "" if child.tag in ("svg", "style") else child.raw() for child in self.children]
        return "".join(parts)

    def text(self) -> str:
        """The text in it, with white space as one space."""
        return " ".join(self.raw().replace("\u00a0", " ").split())


class _Reader(HTMLParser):
    def __init__(self) -> None:
        super().__init__(convert_charrefs=True)
        self.root = self.at = Node("", {}, None)

    def handle_starttag(self, tag, attributes):
        names = [name for name, _ in attributes]
        if len(set(names)) < len(names):
            raise AssertionError(f"an attribute twice in {tag}")
        node = Node(tag, {name: value or "" for name, value in attributes}, self.at)
        self.at.children.append(node)
        if tag not in VOID:
            self.at = node

    def handle_startendtag(self, tag, attributes):
        if tag not in VOID:
            raise AssertionError(f"{tag} is closed at once")
        self.handle_starttag(tag, attributes)

    def handle_endtag(self, tag):
        if tag != self.at.tag:
            raise AssertionError(f"{tag} is closed in {self.at.tag}")
        self.at = self.at.parent

    def handle_data(self, data):
        self.at.children.append(data)


def read(text: str) -> Node:
    """The tree of a page."""
    reader = _Reader()
    reader.feed(text)
    reader.close()
    if reader.at is not reader.root:
        raise AssertionError(f"{reader.at.tag} is not closed")
    return reader.root


def cells(row: Node) -> List[str]:
    """The texts of a table's row."""
    return [child.text() for child in row.children if isinstance(child, Node)]
