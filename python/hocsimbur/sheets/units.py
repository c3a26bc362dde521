"""Units that people write behind a number or in the head of a column, and how many of the column's own unit they are, exactly."""
from __future__ import annotations

import re
from fractions import Fraction
from typing import Dict, Optional, Union

from .names import BY_NAME

_LENGTH = {"mm": Fraction(1), "cm": Fraction(10), "m": Fraction(1000), "in": Fraction(254, 10), "inch": Fraction(254, 10),
           "inches": Fraction(254, 10), '"': Fraction(254, 10), "ft": Fraction(3048, 10), "foot": Fraction(3048, 10),
           "feet": Fraction(3048, 10), "'": Fraction(3048, 10)}
_RESISTIVITY = {written: Fraction(1) for written in ("ωm", "ohmm", "ohmmeter", "ohmmeters", "ohmmetre", "ohmmetres")}
_RESISTIVITY.update({"kωm": Fraction(1000), "kohmm": Fraction(1000), "ωcm": Fraction(1, 100), "ohmcm": Fraction(1, 100)})
_TIME = {"ms": Fraction(1), "s": Fraction(1000), "sec": Fraction(1000), "seconds": Fraction(1000)}
CYCLES = ("cycle", "cycles", "cyc")  # of the line's own frequency

# by column: what each unit is in the column's own
UNITS: Dict[str, Dict[str, Fraction]] = {
    **{name: _RESISTIVITY for name in ("soil", "layer")},
    **{name: _LENGTH for name in ("thick", "space", "depth", "rodlen")},
    **{name: _TIME for name in ("shock", "clear", "wire", "ms")},
    "dia": {unit: 10 * size for unit, size in _LENGTH.items() if unit not in ("m", "ft", "foot", "feet", "'")},
    "body": {"kg": Fraction(1)},
    "fault": {"a": Fraction(1), "ka": Fraction(1000), "amp": Fraction(1), "amps": Fraction(1), "amperes": Fraction(1)},
    "split": {"permille": Fraction(1), "‰": Fraction(1), "%": Fraction(10), "percent": Fraction(10)},
    "hz": {"hz": Fraction(1)},
}
SHOWN = {"soil": "Ω·m", "layer": "Ω·m", "thick": "mm, cm, m, in or ft", "space": "mm, cm, m, in or ft", "depth": "mm, cm, m, in or ft",
         "rodlen": "mm, cm, m, in or ft", "shock": "ms, s or cycles", "clear": "ms, s or cycles", "wire": "ms, s or cycles",
         "ms": "ms, s or cycles", "dia": "mm, cm or in, or a wire's size as 4/0", "body": "kg", "fault": "A or kA", "split": "‰ or %",
         "hz": "Hz"}


def bare(unit: str) -> str:
    """A unit without what people put between its parts."""
    return re.sub(r"[\s.·⋅*\-]", "", unit.casefold())


def factor(name: str, unit: str, hertz: Optional[int]) -> Optional[Fraction]:
    """How many of a column's own unit a unit is; nothing where the column has no such unit, or cycles no frequency."""
    written = bare(unit)
    if written in CYCLES and UNITS.get(name) is _TIME:
        return Fraction(1000, hertz) if hertz else None
    return UNITS.get(name, {}).get(written)


def known(name: str, unit: str) -> bool:
    """Whether a column may have a unit."""
    return factor(name, unit, 60) is not None


def allowed(name: str) -> str:
    """The units that a column may have, in words; '' where it has none."""
    return SHOWN.get(name, "")


def outside(name: str, number: Union[Fraction, str]) -> str:
    """What is said of a value that is no whole number and out of its column's range, '' of one in the range.

    It is mostly in another unit (a split of 0.6, a diameter of 10.5 mm), so no side of it is cautious: 0.6 is not 1 per mille."""
    column = BY_NAME.get(name)
    return "" if column is None or column.low <= Fraction(number) <= column.high else f"it is not in {column.allowed}"
