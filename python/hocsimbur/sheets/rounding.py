"""On which side a value that is no whole number is rounded with caution: the side on which no yard comes out better than it is.

A direction either rests on a theorem of the page of claims (crates/claims), or is tested and not proved: python/tests/test_rounding.py
asks the library 10,000 pairs of random cases for each."""
from __future__ import annotations

from typing import Dict, NamedTuple

UP, DOWN, BY_LAYER, NEITHER = "up", "down", "down where the layer is more resistive than the soil, else up", "neither"
TESTED = "tested, not proved"


class Direction(NamedTuple):
    """The cautious side of a column: where it is, why, and what that rests on."""

    side: str
    why: str
    rests_on: str


DIRECTIONS: Dict[str, Direction] = {
    "soil": Direction(UP, "a drier soil raises the voltages by more than what is tolerable", "theorem drier_soil"),
    "layer": Direction(DOWN, "a less resistive surface layer lowers what is tolerable", TESTED),
    "thick": Direction(BY_LAYER, "a thinner layer shields less where it is more resistive than the soil", TESTED),
    "shock": Direction(UP, "a longer shock lowers what is tolerable", "theorem no_worse"),
    "clear": Direction(DOWN, "a faster clearing has a higher decrement factor", TESTED),
    "wire": Direction(UP, "a longer back-up time needs a larger conductor", TESTED),
    "fault": Direction(UP, "a higher fault current raises the voltages and the conductor size", "theorem no_worse"),
    "split": Direction(UP, "a greater part raises the voltages", "theorem no_worse"),
    "xr": Direction(UP, "a higher X/R has a higher decrement factor", TESTED),
    "dia": Direction(DOWN, "a thinner conductor raises the mesh voltage and has less area", TESTED),
    "rodlen": Direction(DOWN, "shorter rods raise the voltages", TESTED),
    "space": Direction(NEITHER, "no side is cautious: give whole millimetres", ""),
    "depth": Direction(NEITHER, "no side is cautious: give whole millimetres", ""),
    "ms": Direction(NEITHER, "no side is cautious, for it stands for three times: give whole milliseconds", ""),
}


def side(name: str, layer: int = 0, soil: int = 0) -> str:
    """The cautious side of a column, UP, DOWN or NEITHER; that of thick goes by the layer and the soil."""
    found = DIRECTIONS[name].side if name in DIRECTIONS else NEITHER
    if found == BY_LAYER:
        return DOWN if layer > soil else UP
    return found


def advice(name: str) -> str:
    """What is said of a value of a column that is no whole number; '' where it is a count or a number that names something."""
    if name not in DIRECTIONS:
        return ""
    found = DIRECTIONS[name]
    return found.why if found.side == NEITHER else f"the cautious side is {found.side}"
