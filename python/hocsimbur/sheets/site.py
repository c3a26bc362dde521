"""What is measured at a site: four-pin readings (wenner) and staged tests, from a text or the command line.

Distances and resistances are in metres and ohms, currents in amperes; each is handed to the library in whole mm, milliohms and mA."""
from __future__ import annotations

import csv
import io
import re
from fractions import Fraction
from typing import Dict, List, NamedTuple, Sequence, Tuple

from ..core import Pair
from .amounts import decimal, parts, whole
from .forms import Unclear

# a number with a decimal comma; one with three digits behind it may also have its thousands separated, and is not taken
DECIMAL_COMMA = re.compile(r"[+-]?(\d+,(\d{1,2}|\d{4,})|\d{4,},\d+)")


class Part(NamedTuple):
    """A current: its in-phase and quadrature part in mA, each between two whole numbers."""

    in_phase: Pair
    quadrature: Pair


def _lines(text: bytes) -> List[Tuple[int, List[str]]]:
    """The cells of each line of a text, with its number; where semicolons part them, a decimal comma becomes a point."""
    try:
        decoded = text.decode("utf-8-sig")
        sign = ";" if ";" in decoded.partition("\n")[0] else ","
        lines = list(enumerate(csv.reader(io.StringIO(decoded, newline=""), delimiter=sign, strict=True), 1))
    except (UnicodeDecodeError, csv.Error) as error:
        raise Unclear(f"the text cannot be read: {error}") from None
    if sign == ",":
        return lines
    return [(number, [cell.replace(",", ".") if DECIMAL_COMMA.fullmatch(cell.strip()) else cell for cell in cells]) for number, cells in lines]


def _table(text: bytes, forms: Sequence[Tuple[str, ...]]) -> Tuple[Tuple[str, ...], List[Tuple[int, Dict[str, str]]]]:
    """The form of a text and its lines by name, with their numbers; other columns, as a remark, are left alone."""
    lines = _lines(text)
    filled = [(number, [cell.strip() for cell in cells]) for number, cells in lines if any(cell.strip() for cell in cells)]
    allowed = " or ".join(",".join(form) for form in forms)
    if not filled:
        raise Unclear(f"the text is empty; its first line is {allowed}")
    names = [name.lower() for name in filled[0][1]]
    form = next((form for form in forms if all(names.count(name) == 1 for name in form)), None)
    if form is None:
        raise Unclear(f"line {filled[0][0]}: the names must be {allowed}; here they are {','.join(names)}")
    for number, cells in filled[1:]:
        if len(cells) != len(names):
            raise Unclear(f"line {number}: there are {len(cells)} cells for {len(names)} names; write a decimal point, no comma")
    return form, [(number, dict(zip(names, cells))) for number, cells in filled[1:]]


def _at(where: str, made, *arguments):
    """What is made of arguments; a place stands before what is unclear in them."""
    try:
        return made(*arguments)
    except Unclear as error:
        raise Unclear(f"{where}: {error}") from None


# ---- four-pin readings

class Reading(NamedTuple):
    """A reading: its distance in mm and its resistance in milliohms, each between two whole numbers, which are one where it is whole."""

    distance: Pair
    resistance: Pair


_DISTANCES = {"m": Fraction(1000), "metres": Fraction(1000), "mm": Fraction(1), "cm": Fraction(10), "ft": Fraction(3048, 10),
              "feet": Fraction(3048, 10), "'": Fraction(3048, 10), "in": Fraction(254, 10)}
_RESISTANCES = {"ω": Fraction(1000), "ohm": Fraction(1000), "ohms": Fraction(1000), "mω": Fraction(1), "mohm": Fraction(1),
                "kω": Fraction(1000000), "kohm": Fraction(1000000)}
_ALLOWED = {"distance": "m, cm, mm, ft or in", "resistance": "Ω, mΩ or kΩ"}
FORM = "METRES,OHMS as 2.5,7.3, or with units as 10ft,0.7125"


def _amount(text: str, own: str, units: Dict[str, Fraction], called: str) -> Pair:
    """An amount with a unit, or in its own, between two whole numbers of the smallest unit."""
    found = re.fullmatch(r"\s*([0-9.,+\u2212-]+)\s*(.*?)\s*", text)
    if not found:
        raise Unclear(f"{called}: '{text.strip()}' is no number")
    unit = found[2].casefold() or own
    if unit not in units:
        raise Unclear(f"{called}: '{text.strip()}' has the unit '{found[2]}'; it may have {_ALLOWED[called]}")
    number = decimal(found[1]) * units[unit]
    if not 0 <= number < 2 ** 32 - 1:
        raise Unclear(f"{called}: {text.strip()} is far out of range")
    return Pair(number.numerator // number.denominator, -(-number.numerator // number.denominator))


def reading(distance: str, ohms: str, own: str = "m") -> Reading:
    """A reading of a distance, in metres or in another unit, and a resistance in ohms."""
    return Reading(_at_amount("distance", distance, own, _DISTANCES), _at_amount("resistance", ohms, "ohm", _RESISTANCES))


def _at_amount(called: str, text: str, own: str, units: Dict[str, Fraction]) -> Pair:
    try:
        return _amount(text, own, units, called)
    except Unclear as error:
        raise Unclear(str(error) if str(error).startswith(called) else f"{called}: {error}") from None


def pair(text: str, form: str) -> Tuple[str, str]:
    """Two amounts separated by a comma."""
    cells = text.split(",")
    if len(cells) != 2:
        raise Unclear(f"'{text}' is not two numbers separated by a comma; write {form}, with a decimal point inside a number")
    return cells[0], cells[1]


def reading_of(text: str) -> Reading:
    """A reading as METRES,OHMS."""
    return reading(*pair(text, FORM))


def readings(text: bytes) -> List[Reading]:
    """The readings of a text with the names metres or feet, and ohms."""
    form, lines = _table(text, [("metres", "ohms"), ("feet", "ohms")])
    own = "ft" if form[0] == "feet" else "m"
    return [_at(f"line {number}", reading, line[form[0]], line["ohms"], own) for number, line in lines]


def ends(found: Sequence[Reading]) -> Tuple[List[Tuple[int, int]], List[Tuple[int, int]]]:
    """The readings as the library takes them: with every amount rounded down, and with every one rounded up."""
    return ([(one.distance.lower, one.resistance.lower) for one in found], [(one.distance.upper, one.resistance.upper) for one in found])


# ---- staged tests

CURRENT = "IN-PHASE,QUADRATURE in A as 1000,-50, or SIZE@ANGLE in A and degrees as 1000@-22.5 or 1000\u2220-22.5"


def current(text: str) -> Part:
    """A current in amperes: 1000,-50 (in-phase, quadrature), or 1000@-22.5 or 1000\u2220-22.5 (size, angle in degrees)."""
    found = re.fullmatch(r"(.*?)[ Aa]*[@\u2220](.*)", text.strip())
    return polar(found[1], found[2]) if found else rectangular(*pair(text, CURRENT))


def rectangular(in_phase: str, quadrature: str) -> Part:
    """A current of two parts in amperes, exactly."""
    found = (whole(in_phase, 1000, "A", "mA"), whole(quadrature, 1000, "A", "mA"))
    if any(abs(number) >= 2 ** 62 for number in found):
        raise Unclear("a part is far out of range")
    return Part(*(Pair(number, number) for number in found))


def polar(size: str, angle: str) -> Part:
    """A current of a size in amperes at an angle in degrees."""
    turned = decimal(angle.strip().rstrip("°"))
    if abs(turned) > 360:
        raise Unclear(f"angle: {angle} is not in −360..360 degrees")
    amperes = decimal(size)
    if abs(amperes) > 10 ** 9:
        raise Unclear(f"size: {size} A is far out of range")
    return Part(*parts(amperes * 1000, turned))


def currents(text: bytes) -> List[Part]:
    """The currents of a text, the injected one first, by the names in_phase and quadrature, or size and angle, or current alone."""
    form, lines = _table(text, [("in_phase", "quadrature"), ("size", "angle"), ("current",)])
    if form == ("current",):
        return [_at(f"line {number}", current, line["current"]) for number, line in lines]
    made = rectangular if form[0] == "in_phase" else polar
    return [_at(f"line {number}", made, line[form[0]], line[form[1]]) for number, line in lines]


def rounded(measured: Sequence[Part]) -> Tuple[List[Tuple[int, int]], int]:
    """Whole numbers of mA for which the split is not below that of the exact currents, and how far they move a part of the grid at most.

    The injected parts are taken towards 0, so that the injected current is not greater.
    The branches are taken so that each part of the grid lies as far from 0 as it can; what the injected part lost is
    put on the first branch."""
    injected, branches = measured[0], measured[1:]
    chosen = [[0, 0] for _ in measured]
    moved = 0
    for axis in (0, 1):
        ends = injected[axis]
        chosen[0][axis] = taken = ends.lower if ends.lower >= 0 else ends.upper
        least = ends.lower - sum(branch[axis].upper for branch in branches)
        most = ends.upper - sum(branch[axis].lower for branch in branches)
        far_above = abs(most) >= abs(least)
        for place, branch in enumerate(branches, 1):
            chosen[place][axis] = branch[axis].lower if far_above else branch[axis].upper
        if branches:
            chosen[1][axis] -= (ends.upper if far_above else ends.lower) - taken
        moved = max(moved, most - least)
    return [(one[0], one[1]) for one in chosen], moved
