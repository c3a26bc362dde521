"""A command that ends with a refusal, in words."""
from __future__ import annotations

from typing import List


class Stopped(Exception):
    """A command that ends with a refusal: the sentences for people, the file of which they speak, what is said after them, and the
    line for machines."""

    def __init__(self, said: List[str], printed: str = "", of: str = "", after: str = "") -> None:
        super().__init__("; ".join(said))
        self.said = said
        self.printed = printed
        self.of = of
        self.after = after
