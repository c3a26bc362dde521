"""How far a long command has come: one line on a terminal, after the first second, and taken away at the end."""
from __future__ import annotations

import sys
import time
from typing import Iterable, Iterator, TypeVar

Thing = TypeVar("Thing")

PATIENCE = 1.0  # seconds before the line is first shown
BETWEEN = 0.2   # seconds between two showings


def shown() -> bool:
    """Whether somebody looks at standard error."""
    return bool(sys.stderr and sys.stderr.isatty())


def _write(text: str) -> None:
    try:
        sys.stderr.buffer.write(text.encode())
        sys.stderr.buffer.flush()
    except OSError:
        pass  # a line of progress that is lost loses nothing


def watched(things: Iterable[Thing], whole: int, called: str) -> Iterator[Thing]:
    """The things, and on a terminal a line of how many have come of the whole."""
    if not shown():
        yield from things
        return
    started = last = time.monotonic()
    drawn = False
    try:
        for done, thing in enumerate(things, 1):
            yield thing
            now = time.monotonic()
            if now - started >= PATIENCE and now - last >= BETWEEN:
                _write(f"\r{done:,} of {whole:,} {called}\x1b[K")
                last, drawn = now, True
    finally:
        if drawn:
            _write("\r\x1b[K")
