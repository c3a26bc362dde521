"""The answers to four-pin readings and staged tests, as text for people and for machines."""
from __future__ import annotations

from typing import List, Sequence, Tuple

from .. import core
from ..core import Pair, Soil, Split
from ..sheets.decimals import down, exact, grouped, up
from ..sheets.names import BY_NAME
from .terminal import aligned, commas

VARIED = 2  # how many times the least the greatest apparent resistivity may be before a warning; this package's own number


def varied(soil: Soil) -> bool:
    """Whether the greatest apparent resistivity is over VARIED times the least, for sure."""
    return soil.greatest.lower > VARIED * soil.least.upper


def soil_notes(soil: Soil) -> List[str]:
    """What a reader of a soil must know: that it varies, or that no sheet takes it."""
    notes = []
    if varied(soil):
        times = soil.greatest.lower * 10 // soil.least.upper
        notes.append(
            f"warning: the greatest apparent resistivity is over {down(times, 1, 1)} times the least. IEEE Std 80, 13.4: \"If there is a "
            "large variation in measured apparent resistivity, the uniform soil model is unlikely to yield accurate results.\" "
            f"The standard gives no number; this warning stands above {VARIED} times.")
    own = BY_NAME["soil"]
    if not own.low <= soil.soil <= own.high:
        notes.append(f"note: {grouped(soil.soil)} Ω·m is not in {own.allowed}; a sheet refuses it")
    return notes


def between(lower: Soil, upper: Soil) -> Soil:
    """The soil of readings that lie between those of two answers: the lower ends of one, the upper ends of the other, and its soil."""
    pairs = zip((lower.least, lower.greatest, lower.mean), (upper.least, upper.greatest, upper.mean))
    return Soil(*(Pair(one.lower, other.upper) for one, other in pairs), upper.soil)


def rounding_notes(lower: Sequence[Tuple[int, int]], upper: Sequence[Tuple[int, int]]) -> List[str]:
    """That readings were rounded to both sides."""
    count = sum(one != other for one, other in zip(lower, upper))
    if not count:
        return []
    return [f"note: {count} reading{' is' if count == 1 else 's are'} no whole mm or mΩ; each was rounded to both sides, so that the ends hold the "
            "exact value, and the column soil goes by the upper ends"]


def _both(low: int, high: int, unit: str) -> str:
    """An amount in thousandths of a unit, or both of its ends."""
    return f"{exact(low, 3)} {unit}" if low == high else f"{exact(low, 3)} to {exact(high, 3)} {unit}"


def soil_text(lower: Sequence[Tuple[int, int]], upper: Sequence[Tuple[int, int]], soil: Soil) -> str:
    """The readings with the apparent resistivity of each, then least, greatest and mean, and the value for the column soil."""
    lines = []
    for place, (low, high) in enumerate(zip(lower, upper), 1):
        one = between(core.soil([low]), core.soil([high]))
        lines.append((f"{place}", _both(low[0], high[0], "m"), _both(low[1], high[1], "Ω"), *_ohm_metres(one.mean)))
    head = ("reading", "distance", "resistance", "lower Ω·m", "upper Ω·m")
    lines += [(called, "", "", *_ohm_metres(ends)) for called, ends in
              (("least", soil.least), ("greatest", soil.greatest), ("mean", soil.mean))]
    return aligned(head, lines, left=(0,)) + soil_column(soil) + "\n"


def soil_column(soil: Soil) -> str:
    """The value for the column soil."""
    return f"column soil: {grouped(soil.soil)} Ω·m"


def _ohm_metres(ends: Pair) -> Tuple[str, str]:
    return down(ends.lower, 6, 3), up(ends.upper, 6, 3)


def soil_csv(soil: Soil) -> str:
    names = [f"{called}_{end}_uohm_m" for called in ("least", "greatest", "mean") for end in ("lower", "upper")]
    return commas([*names, "soil_ohm_m"], [(*soil.least, *soil.greatest, *soil.mean, soil.soil)])


def split_notes(split: Split, moved: int) -> List[str]:
    """How sizes and angles were rounded, and whether a sheet takes the split."""
    notes = []
    if moved:
        notes.append(f"note: parts of sizes at angles are no whole milliamperes; each was rounded so that the split is not too small, "
                     f"by at most {grouped(moved)} mA in a part of the grid current")
    own = BY_NAME["split"]
    if not own.low <= split.split <= own.high:
        notes.append(f"note: a split of {grouped(split.split)} per mille is not in {own.allowed}; a sheet refuses it")
    return notes


def split_text(handed: Sequence[Tuple[int, int]], split: Split) -> str:
    """The currents handed over, the grid's and the split."""
    names = ["injected"] + [f"branch {place}" for place in range(1, len(handed))]
    lines = [(name, down(one[0], 3, 3), down(one[1], 3, 3)) for name, one in zip(names, handed)]
    lines.append(("grid", down(split.in_phase, 3, 3), down(split.quadrature, 3, 3)))
    return aligned(("", "in-phase A", "quadrature A"), lines, left=(0,)) + split_column(split) + "\n"


def split_column(split: Split) -> str:
    """The value for the column split."""
    return f"column split: {grouped(split.split)} per mille"


def split_csv(split: Split) -> str:
    return commas(("in_phase_mA", "quadrature_mA", "split_per_mille"), [(split.in_phase, split.quadrature, split.split)])
