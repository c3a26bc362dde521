"""The inputs of a line as a reader of a report sees them: label, unit and value, shown exactly."""
from __future__ import annotations

from typing import Callable, Dict, NamedTuple, Sequence

from . import decimals


class Label(NamedTuple):
    """A column's label, unit, and how its whole numbers are shown."""

    label: str
    unit: str
    show: Callable[[int], str]


PLACES = {0: "none", 1: "perimeter", 2: "inside"}


def metres(millimetres: int, places: int = 2) -> str:
    """Millimetres in metres, exactly, with at least some decimals."""
    whole, part = divmod(millimetres, 1000)
    digits = f"{part:03d}".rstrip("0").ljust(places, "0")
    return decimals.grouped(whole) + ("." + digits if digits else "")


def tenths(number: int) -> str:
    """Tenths with one decimal."""
    return decimals.down(number, 1, 1)


def _or(word: str, show: Callable[[int], str]) -> Callable[[int], str]:
    """A word in place of 0."""
    return lambda number: show(number) if number else word


LABELS: Dict[str, Label] = {
    "soil": Label("Soil", "Ω·m", decimals.grouped),
    "layer": Label("Surface layer", "Ω·m", _or("bare", decimals.grouped)),
    "thick": Label("Layer thickness", "mm", _or("bare", decimals.grouped)),
    "shock": Label("Shock duration", "ms", decimals.grouped),
    "clear": Label("Fault clearing time", "ms", decimals.grouped),
    "wire": Label("Back-up clearing time", "ms", decimals.grouped),
    "body": Label("Body", "kg", decimals.grouped),
    "fault": Label("Fault current", "A", decimals.grouped),
    "split": Label("Part entering the grid", "%", tenths),
    "xr": Label("X/R", "", decimals.grouped),
    "across": Label("Conductors across", "", decimals.grouped),
    "along": Label("Conductors along", "", decimals.grouped),
    "space": Label("Spacing", "m", metres),
    "depth": Label("Depth", "m", metres),
    "dia": Label("Conductor diameter", "mm", tenths),
    "rods": Label("Rods", "", decimals.grouped),
    "rodlen": Label("Rod length", "m", _or("none", metres)),
    "place": Label("Rod place", "", lambda number: PLACES[number]),
    "metal": Label("Metal", "", decimals.grouped),
    "hz": Label("Frequency", "Hz", decimals.grouped),
}


def listed(words: Sequence[object]) -> str:
    """'a', 'a and b', 'a, b and c'."""
    texts = [str(word) for word in words]
    return texts[0] if len(texts) == 1 else ", ".join(texts[:-1]) + " and " + texts[-1]


def columns(names: Sequence[str]) -> str:
    """Columns by their labels, in a sentence."""
    shown = [LABELS[name].label if name == "xr" else LABELS[name].label.lower() for name in names]
    return listed(shown)
