"""Text that may be shown on a terminal."""
from __future__ import annotations


def printable(text: str) -> str:
    """A text in which what a terminal would act on is escaped."""
    return "".join(sign if sign.isprintable() else sign.encode("unicode_escape").decode() for sign in text)
