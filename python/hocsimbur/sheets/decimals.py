"""Whole numbers shown as decimals, rounded outward: a lower end down, an upper end up, never to the nearest.

A number is in units of 10^-scale and is shown with `places` decimals; thousands are grouped by commas."""
from __future__ import annotations

from ..core import Pair

NO_BREAK = "\u00a0"  # between a number and its unit
MINUS = "\u2212"


def _shown(number: int, places: int) -> str:
    """A whole number of 10^-places, with its decimals."""
    sign = MINUS if number < 0 else ""
    whole, part = divmod(abs(number), 10 ** places)
    return f"{sign}{whole:,}" + (f".{part:0{places}d}" if places else "")


def down(number: int, scale: int, places: int) -> str:
    """Rounded down, for a lower end."""
    if places >= scale:
        return _shown(number * 10 ** (places - scale), places)
    return _shown(number // 10 ** (scale - places), places)


def up(number: int, scale: int, places: int) -> str:
    """Rounded up, for an upper end."""
    if places >= scale:
        return _shown(number * 10 ** (places - scale), places)
    return _shown(-(-number // 10 ** (scale - places)), places)


def exact(number: int, scale: int) -> str:
    """All decimals, without those at the end that are 0."""
    shown = _shown(number, scale)
    return shown.rstrip("0").rstrip(".") if scale else shown


def ends(pair: Pair, scale: int, places: int) -> str:
    """Both ends: 'lower to upper'."""
    return f"{down(pair.lower, scale, places)} to {up(pair.upper, scale, places)}"


def grouped(number: int) -> str:
    """A whole number with its thousands grouped."""
    return _shown(number, 0)


def percent(per_mille: int) -> str:
    """Tenths of a percent, without a sign: the words around it say above or below."""
    return _shown(abs(per_mille), 1)


def volts(millivolts: int) -> str:
    """Millivolts in volts, exactly: '5,000 V'."""
    return f"{exact(millivolts, 3)} V"
