"""Hocsimbur: substation ground grids after IEEE Std 80, answered by a proved library.

    import hocsimbur
    for row in hocsimbur.rows(yards):
        print(row.station, row.season, row.verdict.name, row.mesh.upper)

Yards are any number of mappings with the 22 names of a sheet (docs/manual.md) and whole numbers in its units.
Every number that these functions answer comes from the library; the package decides nothing.
What breaks a rule is raised as `Refused`, in words, with the yard and the column."""
from __future__ import annotations

from typing import TYPE_CHECKING, List

__version__ = "2.0.0"

if TYPE_CHECKING:
    from .core import LibraryMissing, Verdict
    from .library import (Ends, Fewest, Margins, Refused, Release, Row, Soil, Split, Verdicts, Working, carry, carry_back, fewest, headroom,
                          margins, release, rows, soil, split, verdicts, version, working)

__all__ = [
    "Ends", "Fewest", "LibraryMissing", "Margins", "Refused", "Release", "Row", "Soil", "Split", "Verdict", "Verdicts", "Working", "carry",
    "carry_back", "fewest", "headroom", "margins", "release", "rows", "soil", "split", "verdicts", "version", "working",
]


def __getattr__(name: str) -> object:
    """The names of `__all__`, imported when the first of them is asked for, so that the command starts fast."""
    if name not in __all__:
        raise AttributeError(f"module 'hocsimbur' has no attribute '{name}'")
    from . import core, library
    return getattr(core if name in ("LibraryMissing", "Verdict") else library, name)


def __dir__() -> List[str]:
    return sorted([*globals(), *__all__])
