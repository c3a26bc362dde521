"""Text for a terminal: aligned columns for people, lines separated by commas for machines; colours on a terminal, never alone."""
from __future__ import annotations

import os
import sys
from typing import Iterable, List, Sequence

from ..core import Verdict

_COLOURS = {"safe": "32", "released": "32", "unsafe": "31", "held": "31", "undecided": "33"}
GAP = "  "


def coloured() -> bool:
    """Whether standard output is a terminal on which colours are wanted (https://no-color.org)."""
    return bool(sys.stdout and sys.stdout.isatty() and not os.environ.get("NO_COLOR") and os.environ.get("TERM") != "dumb")


def paint(text: str, word: str) -> str:
    """Text in the colour of a word, on a terminal; the word itself always stands in the text."""
    return f"\x1b[1;{_COLOURS[word.lower()]}m{text}\x1b[0m" if coloured() else text


def aligned(head: Sequence[str], lines: Sequence[Sequence[str]], left: Iterable[int] = (), painted: int = -1) -> str:
    """Columns of equal width under a head, numbers to the right and the columns of `left` to the left.

    The words of the column `painted` are coloured on a terminal."""
    table = [list(head)] + [list(line) for line in lines]
    widths = [max(len(line[i]) for line in table) for i in range(len(head))]
    to_left = set(left)

    def cell(line: List[str], i: int, is_head: bool) -> str:
        text = paint(line[i], line[i]) if i == painted and not is_head else line[i]
        space = " " * (widths[i] - len(line[i]))
        return text + space if i in to_left else space + text

    return "".join(GAP.join(cell(line, i, place == 0) for i in range(len(head))).rstrip() + "\n" for place, line in enumerate(table))


def commas(head: Sequence[str], lines: Sequence[Sequence[object]]) -> str:
    """Lines separated by commas under a line of names, as the proved programs print them."""
    return "".join([",".join([field(cell) for cell in line]) + "\n" for line in [head, *lines]])


def field(cell: object) -> str:
    """A cell of a line for machines; a text with a comma or a quote stands in quotes."""
    if isinstance(cell, str):
        return '"' + cell.replace('"', '""') + '"' if any(sign in cell for sign in ',"\n') else cell
    return str(int(cell)) if isinstance(cell, Verdict) else str(cell)
