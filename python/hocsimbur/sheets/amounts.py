"""Decimal amounts that people write, made whole numbers of a unit exactly, or refused; and the parts of a current of a size and an angle.

The two parts of such a current are mostly no whole milliamperes: they are enclosed by two neighbouring ones."""
from __future__ import annotations

import re
from fractions import Fraction
from typing import Dict, Tuple

from ..core import Pair
from .forms import Unclear


# the first 40 decimals of pi, cut off
_PI = Pair(31415926535897932384626433832795028841971, 31415926535897932384626433832795028841972)
_SCALE = 10 ** 40


def decimal(text: str) -> Fraction:
    """The number that a text of digits, with a sign or a decimal point, stands for."""
    bare = text.strip().replace("\u2212", "-")
    if re.fullmatch(r"[+-]?\d{1,3}(,\d{3})+(\.\d*)?", bare):
        raise Unclear(f"'{text.strip()}' has a comma; write thousands without one")
    if re.fullmatch(r"[+-]?\d+,\d+", bare):
        raise Unclear(f"'{text.strip()}' has a comma; write a decimal point")
    if len(bare) > 40 or not re.fullmatch(r"[+-]?(\d+(\.\d*)?|\.\d+)", bare, re.ASCII):
        raise Unclear(f"'{text.strip()}' is no number")
    return Fraction(bare if not bare.endswith(".") else bare + "0")


def shown(number: Fraction) -> str:
    """A number as people write it: all its decimals, or where they do not end the first six and an ellipsis."""
    sign, number = "-" if number < 0 else "", abs(number)
    for places in range(13):
        scaled = number * 10 ** places
        if scaled.denominator == 1:
            digits = str(int(scaled)).rjust(places + 1, "0")
            return sign + (f"{digits[:-places]}.{digits[-places:]}" if places else digits)
    digits = str(int(number * 10 ** 6)).rjust(7, "0")
    return f"{sign}{digits[:-6]}.{digits[-6:]}…"


def whole(text: str, scale: int, unit: str, small: str) -> int:
    """An amount in a unit as a whole number of a unit `scale` times smaller, exactly."""
    number = decimal(text) * scale
    if number.denominator != 1:
        raise Unclear(f"{text.strip()} {unit} is not a whole number of {small}; it is not rounded")
    return int(number)


_LENGTHS: Dict[str, int] = {"mm": 1, "m": 1000, "": 1}


def length(text: str) -> int:
    """A length in mm: 70m, 70000mm or 70000."""
    found = re.fullmatch(r"\s*([0-9.,+\u2212-]+)\s*(mm|m|)\s*", text)
    if not found:
        raise Unclear(f"'{text}' is no length; write for example 70m, 70000mm or 70000 (mm)")
    return whole(found[1], _LENGTHS[found[2]], found[2] or "mm", "mm")


_VOLTAGES: Dict[str, int] = {"mv": 1, "v": 1000, "": 1000, "kv": 1000000}


def voltage(text: str) -> int:
    """A voltage in mV: 5kV, 5000V or 5000."""
    found = re.fullmatch(r"\s*([0-9.,]+)\s*(mV|kV|V|)\s*", text, re.IGNORECASE)
    if not found:
        raise Unclear(f"'{text}' is no voltage; write for example 5kV, 5000V or 5000 (V)")
    return whole(found[1], _VOLTAGES[found[2].lower()], found[2] or "V", "mV")


def _cosine(degrees: Fraction) -> Tuple[Fraction, Fraction]:
    """Two ends that hold the cosine of an angle; equal where it is rational, which it is only at multiples of 60 and 90 degrees."""
    degrees = abs(degrees) % 360
    if degrees > 90:
        lower, upper = _cosine(180 - degrees)
        return -upper, -lower
    exact = {0: Fraction(1), 60: Fraction(1, 2), 90: Fraction(0)}.get(degrees)
    if exact is not None:
        return exact, exact
    # cos falls from 0 to 90 degrees: its series at the upper end of the angle from below, at the lower end from above
    return _series(degrees * Fraction(_PI.upper, _SCALE) / 180, 15), _series(degrees * Fraction(_PI.lower, _SCALE) / 180, 14)


def _series(angle: Fraction, last: int) -> Fraction:
    """1 - x^2/2! + x^4/4! - .. up to the term `last`: below the cosine where that is odd, above where it is even, for x up to 2."""
    total, term = Fraction(1), Fraction(1)
    for k in range(1, last + 1):
        term = -term * angle * angle / ((2 * k - 1) * (2 * k))
        total += term
    return total


def parts(size: Fraction, degrees: Fraction) -> Tuple[Pair, Pair]:
    """The in-phase and quadrature part of a size at an angle, each between two whole numbers, equal where the part is whole."""
    return _between(size, _cosine(degrees)), _between(size, _cosine(degrees - 90))


def _between(size: Fraction, ends: Tuple[Fraction, Fraction]) -> Pair:
    low, high = sorted(size * end for end in ends)
    return Pair(low.numerator // low.denominator, -(-high.numerator // high.denominator))
