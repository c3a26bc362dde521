"""The names of a sheet's columns, with meaning, unit and range, and the metals: the one table of them in this package.

The library alone decides what is in range; a test asks it at and beyond both ends of every range here."""
from __future__ import annotations

from dataclasses import dataclass
from typing import Dict, Tuple


@dataclass(frozen=True)
class Name:
    """A column: its name, what it means, the unit of its whole numbers, and its range."""

    name: str
    meaning: str
    unit: str                  # '' for a number or a count
    low: int
    high: int
    also_zero: bool = False    # 0 is allowed besides low..high
    only: Tuple[int, ...] = ()  # where only these are allowed, not all of low..high

    @property
    def allowed(self) -> str:
        """The allowed values in words: '0 or 100..10000', '50 or 70'."""
        if self.only:
            return " or ".join(str(value) for value in self.only)
        return ("0 or " if self.also_zero else "") + f"{self.low}..{self.high}"


NAMES = [
    Name("station", "number of the station", "", 1, 65535),
    Name("season", "number of the season", "", 1, 4),
    Name("soil", "resistivity of the soil", "Ω·m", 10, 5000),
    Name("layer", "resistivity of the surface layer", "Ω·m", 100, 10000, also_zero=True),
    Name("thick", "thickness of the surface layer", "mm", 20, 300, also_zero=True),
    Name("shock", "duration of the shock", "ms", 9, 3000),
    Name("clear", "clearing time of the fault", "ms", 9, 3000),
    Name("wire", "back-up clearing time for the wire", "ms", 9, 3000),
    Name("body", "weight of the body", "kg", 50, 70, only=(50, 70)),
    Name("fault", "symmetrical fault current", "A", 100, 80000),
    Name("split", "part of the fault current that enters the grid", "per mille", 1, 1000),
    Name("xr", "X/R of the system", "", 1, 40),
    Name("across", "conductors side by side across the yard", "", 2, 25),
    Name("along", "conductors side by side along the yard", "", 2, 25),
    Name("space", "spacing of the conductors, both ways", "mm", 2500, 30000),
    Name("depth", "depth of burial", "mm", 250, 2500),
    Name("dia", "diameter of the conductor", "tenths of a mm", 50, 300),
    Name("rods", "count of rods", "", 0, 200),
    Name("rodlen", "length of one rod", "mm", 1000, 10000, also_zero=True),
    Name("place", "0 no rods, 1 at perimeter or corners, 2 inside only", "", 0, 2),
    Name("metal", "the conductor's metal, 1 copper, annealed soft-drawn, to 11 stainless steel 304", "", 1, 11),
    Name("hz", "frequency", "Hz", 50, 60, only=(50, 60)),
]

BY_NAME: Dict[str, Name] = {name.name: name for name in NAMES}

# the names of the former sheet of 18, which `carry` reads: ms stood for three times, lines for two counts, and hz was 60
FORMER = [
    "station", "season", "soil", "layer", "thick", "ms", "body", "fault", "split", "xr", "lines", "space", "depth", "dia", "rods",
    "rodlen", "place", "metal",
]

METALS: Dict[int, str] = {
    1: "copper, annealed soft-drawn",
    2: "copper, commercial hard-drawn",
    3: "copper, hard-drawn, kept to 250 °C",
    4: "copper-clad steel wire, 40 %",
    5: "copper-clad steel wire, 30 %",
    6: "copper-clad steel rod",
    7: "aluminum-clad steel wire",
    8: "steel 1020",
    9: "stainless-clad steel rod",
    10: "zinc-coated steel rod",
    11: "stainless steel 304",
}

# Kf of each metal in hundredths, after IEEE Std 80, Table 2, as docs/manual.md lists them; only guesses that are then asked use them
KF: Dict[int, int] = {1: 700, 2: 706, 3: 1178, 4: 1045, 5: 1206, 6: 1464, 7: 1726, 8: 1839, 9: 1472, 10: 2896, 11: 3005}
