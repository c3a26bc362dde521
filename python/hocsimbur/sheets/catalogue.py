"""Wires by the names that people use: 4/0, 250 kcmil, 95 mm2, with the area of each and its usual diameter when stranded.

AWG and kcmil sizes are concentric-lay stranded conductors, class B (ASTM B8; the diameters as NEC, chapter 9, table 8, prints them).
Metric sizes are stranded conductors after DIN 48201, area and diameter from the count and the diameter of their strands: what is sold
as 70 mm² has 65.8.
Whole numbers alone: an area is in circular mils (thousandths of a kcmil), a diameter in hundredths of a mm; both are rounded down."""
from __future__ import annotations

import re
from typing import Dict, NamedTuple, Optional


class Wire(NamedTuple):
    """A wire of the catalogue."""

    name: str
    area: int      # circular mils
    diameter: int  # hundredths of a mm, stranded

    @property
    def kcmil(self) -> int:
        """Its own area in whole kcmil, rounded down."""
        return self.area // 1000

    @property
    def dia(self) -> int:
        """Its diameter as the column dia has it: tenths of a mm, rounded down."""
        return self.diameter // 10


# size, circular mils, thousandths of an inch
_AWG = (
    ("6", 26240, 184), ("5", 33090, 206), ("4", 41740, 232), ("3", 52620, 260), ("2", 66360, 292), ("1", 83690, 332),
    ("1/0", 105600, 372), ("2/0", 133100, 418), ("3/0", 167800, 470), ("4/0", 211600, 528),
)
# kcmil, thousandths of an inch
_KCMIL = (
    (250, 575), (300, 630), (350, 681), (400, 728), (500, 813), (600, 893), (700, 964), (750, 998), (800, 1030), (900, 1094),
    (1000, 1152), (1250, 1289), (1500, 1412), (1750, 1526), (2000, 1632),
)
# nominal mm², count of strands, diameter of one in hundredths of a mm, strands across the whole
_METRIC = (
    (16, 7, 170, 3), (25, 7, 210, 3), (35, 7, 250, 3), (50, 7, 300, 3), (70, 19, 210, 5), (95, 19, 250, 5), (120, 19, 280, 5),
    (150, 37, 225, 7), (185, 37, 250, 7), (240, 61, 225, 9), (300, 61, 250, 9), (400, 61, 289, 9), (500, 61, 323, 9),
)
# a circular mil is the area of a round of a thousandth of an inch: of a strand of d hundredths of a mm it has (d/2.54)² of them
_MIL = 254


def _made() -> Dict[str, Wire]:
    found = {size: Wire(size, area, thousandths * _MIL // 100) for size, area, thousandths in _AWG}
    found.update((f"{size} kcmil", Wire(f"{size} kcmil", 1000 * size, thousandths * _MIL // 100)) for size, thousandths in _KCMIL)
    for nominal, strands, strand, across in _METRIC:
        area = strands * 10000 * strand * strand // (_MIL * _MIL)
        found[f"{nominal} mm2"] = Wire(f"{nominal} mm2", area, across * strand)
    return found


WIRES: Dict[str, Wire] = _made()


def key(text: str) -> Optional[str]:
    """The name of a size as this catalogue writes it: '4/0', '250 kcmil', '95 mm2'; nothing where the text names no size."""
    bare = re.sub(r"\s+", " ", text.strip().casefold()).replace("²", "2").replace("sq mm", "mm2").replace("sqmm", "mm2").replace("mm^2", "mm2")
    awg = re.fullmatch(r"(?:#|awg |no\.? ?)?([1-6]|[1-4]/0|0{1,4})(?: ?awg)?", bare)
    if awg and (bare != awg[1] or "/" in bare):
        return f"{len(awg[1])}/0" if set(awg[1]) == {"0"} else awg[1]
    other = re.fullmatch(r"(\d{2,4}) ?(kcmil|mcm|mm2)", bare)
    return f"{other[1]} {'mm2' if other[2] == 'mm2' else 'kcmil'}" if other else None


def find(text: str) -> Optional[Wire]:
    """The wire that a text names; nothing where the catalogue has none."""
    named = key(text)
    return WIRES.get(named) if named else None
