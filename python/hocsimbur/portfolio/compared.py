"""A voltage against what is tolerable of it, and how that is said: margins, and potential rises above a limit."""
from __future__ import annotations

from typing import NamedTuple

from .. import core
from ..sheets import decimals
from ..sheets.decimals import NO_BREAK as NB
from ..sheets.decimals import grouped

BELOW, ABOVE, OVERLAPS = "below", "above", "overlaps"


class Compared(NamedTuple):
    """A voltage of a line and what is tolerable of it, in millivolts, with the margin per mille."""

    limit: str  # 'touch' or 'step'
    voltage: core.Pair
    tolerable: core.Pair
    margin: int

    @property
    def kind(self) -> str:
        """The voltage's name: 'mesh' against touch, 'step' against step."""
        return "mesh" if self.limit == "touch" else "step"

    @property
    def side(self) -> str:
        """Where the voltage lies, by the ends that are reported: below its limit (or at it), above, or their intervals overlap."""
        if self.voltage.upper <= self.tolerable.lower:
            return BELOW
        return ABOVE if self.voltage.lower > self.tolerable.upper else OVERLAPS


def share(per_mille: int) -> str:
    """The size of a margin: tenths of a percent; from 1,000 % whole percent, rounded up."""
    if per_mille >= 10000:
        return f"{grouped(-(-per_mille // 10))}{NB}%"
    return f"{decimals.percent(per_mille)}{NB}%"


def margin(one: Compared) -> str:
    """A margin in words: '18.0 % above', '7.5 % below', 'under 0.1 % below', 'overlaps'."""
    if one.side == OVERLAPS:
        return OVERLAPS
    if one.side == BELOW and one.margin == 0:
        return f"under 0.1{NB}% below"
    return f"{share(one.margin)} {one.side}"


def above_rise(rise: int, limit: int) -> str:
    """What is said of a potential rise in mV above a limit; '' where it is not."""
    return "above" if rise > limit else ""


def rises_above(count: int, limit: int) -> str:
    """How many lines have a potential rise above a limit."""
    return f"{grouped(count)} line{'' if count == 1 else 's'} with a potential rise above {decimals.volts(limit)}; it decides nothing"
