"""Elements of HTML as text: tables with the roles that keep them tables to a screen reader where a small screen lays them out anew.

What stands inside is HTML already: who puts a name or a sentence there escapes it."""
from __future__ import annotations

_ROLES = {"col": "columnheader", "colgroup": "columnheader", "row": "rowheader", "rowgroup": "rowheader"}


def element(tag: str, inside: str, kind: str = "", **attributes: object) -> str:
    """An element with its class and attributes; an underscore in an attribute's name stands for a hyphen."""
    named = ([("class", kind)] if kind else []) + [(name.replace("_", "-"), value) for name, value in attributes.items()]
    said = "".join(f' {name}="{value}"' for name, value in named)
    return f"<{tag}{said}>{inside}</{tag}>"


def span(inside: str, kind: str = "") -> str:
    return element("span", inside, kind)


def spoken(inside: str) -> str:
    """What is read out and not seen."""
    return span(inside, "vh")


def seen(inside: str, kind: str = "") -> str:
    """What is seen and not read out."""
    return element("span", inside, kind, aria_hidden="true")


def bold(inside: str, kind: str = "") -> str:
    return element("b", inside, kind)


def cell(inside: str, kind: str = "", **attributes: object) -> str:
    """A cell of a table."""
    return element("td", inside, kind, role="cell", **attributes)


def head(inside: str, scope: str, kind: str = "", **attributes: object) -> str:
    """A head of a column, a row, or a group of them."""
    return element("th", inside, kind, scope=scope, role=_ROLES[scope], **attributes)


def row(inside: str, kind: str = "") -> str:
    return element("tr", inside, kind, role="row")


def group(tag: str, inside: str, kind: str = "") -> str:
    """A group of rows: thead or tbody."""
    return element(tag, inside, kind, role="rowgroup")


def table(kind: str, caption: str, inside: str) -> str:
    """A table with its caption."""
    return element("table", caption + inside, kind, role="table")


def caption(title: str, beside: str = "", kind: str = "sub") -> str:
    """A table's caption: a heading, and what is said next to it."""
    return element("caption", element("h3", title) + (f" {span(beside, kind)}" if beside else ""))
