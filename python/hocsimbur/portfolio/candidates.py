"""Candidates for what to change of a station, by kind, each kind from the least change on: the words, and the station's lines with it.

Nothing is asked here; `advice` asks the core about them in this order."""
from __future__ import annotations

from dataclasses import dataclass
from math import gcd
from typing import Callable, Dict, Iterator, List, NamedTuple, Tuple

from ..sheets.decimals import grouped
from ..sheets.labels import metres
from ..sheets.names import BY_NAME

Case = Dict[str, int]
Cases = Tuple[Case, ...]

FEWEST_RODS = 4
ROD_LENGTH = 3000  # mm, of a station without rods
ROCK = 2500        # Ω·m of a new layer
STEPS = {"space": 100, "thick": 10, "layer": 100, "shock": 10}  # mm, mm, Ω·m, ms


@dataclass(frozen=True)
class Tried:
    """A candidate: what is to be done in words, and the lines with it."""

    words: str
    lines: Cases


def with_values(lines: Cases, **values: int) -> Cases:
    """The lines with other values, the same in all of them."""
    return tuple(dict(case, **values) for case in lines)


def rods(lines: Cases) -> Iterator[Tried]:
    """More rods at the perimeter, from four up, of the station's own length or else 3 m."""
    now = lines[0]
    length = now["rodlen"] or ROD_LENGTH
    least = max(FEWEST_RODS, now["rods"] + 1 if now["place"] == 1 else 0)
    had = "none" if not now["rods"] else str(now["rods"]) + (" inside" if now["place"] == 2 else "")
    for count in range(least, BY_NAME["rods"].high + 1):
        yield Tried(f"{count} rods of {metres(length, 0)} m at the perimeter (now {had})", with_values(lines, rods=count, rodlen=length, place=1))


def conductors(lines: Cases) -> Iterator[Tried]:
    """More conductors in the same outline: a smaller spacing in whole mm that divides both sides."""
    now = lines[0]
    space, most = now["space"], BY_NAME["across"].high
    right, down = (now["across"] - 1) * space, (now["along"] - 1) * space
    both = gcd(right, down)
    for parts in range(both // space + 1, both // BY_NAME["space"].low + 1):
        finer = both // parts
        across, along = right // finer + 1, down // finer + 1
        if both % parts == 0 and max(across, along) <= most:
            words = (f"{across} conductors across × {along} along, {metres(finer, 0)} m apart, in the same outline "
                     f"(now {now['across']} × {now['along']}, {metres(space, 0)} m apart)")
            yield Tried(words, with_values(lines, across=across, along=along, space=finer))


def spacing(lines: Cases) -> Iterator[Tried]:
    """Another spacing of as many conductors, in steps of 0.1 m from the present one on, wider first: the yard grows or shrinks."""
    now, name, step = lines[0], BY_NAME["space"], STEPS["space"]
    for count in range(1, (name.high - name.low) // step + 1):
        for space in (now["space"] + count * step, now["space"] - count * step):
            if name.low <= space <= name.high:
                yard = " × ".join(metres((now[way] - 1) * space, 0) for way in ("across", "along"))
                words = f"{metres(space, 0)} m between conductors (now {metres(now['space'], 0)} m), so that the yard is {yard} m"
                yield Tried(words, with_values(lines, space=space))


def _rising(now: int, step: int, most: int) -> range:
    """Whole steps above a value."""
    return range((now // step + 1) * step, most + 1, step)


def thickness(lines: Cases) -> Iterator[Tried]:
    """A thicker layer of the same resistivity."""
    now, most = min(case["thick"] for case in lines), BY_NAME["thick"].high
    for thick in _rising(now, STEPS["thick"], most):
        yield Tried(f"surface layer {thick} mm thick (now {grouped(now)} mm)",
                    tuple(dict(case, thick=max(case["thick"], thick)) for case in lines))


def resistivity(lines: Cases) -> Iterator[Tried]:
    """A layer of higher resistivity, as thick as before."""
    now, most = min(case["layer"] for case in lines), BY_NAME["layer"].high
    for layer in _rising(now, STEPS["layer"], most):
        yield Tried(f"surface layer of {grouped(layer)} Ω·m (now {grouped(now)} Ω·m)",
                    tuple(dict(case, layer=max(case["layer"], layer)) for case in lines))


def layer(lines: Cases) -> Iterator[Tried]:
    """A new layer of rock on bare soil."""
    for thick in _rising(BY_NAME["thick"].low - 1, STEPS["thick"], BY_NAME["thick"].high):
        yield Tried(f"a surface layer of {grouped(ROCK)} Ω·m, {thick} mm thick, on the soil that is bare now",
                    tuple(case if case["thick"] else dict(case, layer=ROCK, thick=thick) for case in lines))


def shock(lines: Cases) -> Iterator[Tried]:
    """A shorter shock."""
    now, least, step = max(case["shock"] for case in lines), BY_NAME["shock"].low, STEPS["shock"]
    for time in [*range((now - 1) // step * step, least, -step), least]:
        if time < now:
            yield Tried(f"a shock of {time} ms (now {grouped(now)} ms)",
                        tuple(dict(case, shock=min(case["shock"], time)) for case in lines))


class Kind(NamedTuple):
    """A kind of change: its name, its candidates, and what is said where none of them is enough."""

    name: str
    candidates: Callable[[Cases], Iterator[Tried]]
    none: str


OF_YARD = [
    Kind("rods", rods, "no count of rods up to 200 at the perimeter is enough"),
    Kind("conductors", conductors, "no finer grid in the same outline, in whole mm and of at most 25 conductors each way, is enough"),
    Kind("spacing", spacing, "no spacing in 2.5..30 m is enough"),
]
OF_LAYER = [
    Kind("thickness", thickness, "no layer up to 300 mm is enough"),
    Kind("resistivity", resistivity, "no layer up to 10,000 Ω·m is enough"),
]
OF_BARE = [Kind("layer", layer, "no layer of 2,500 Ω·m up to 300 mm is enough")]
OF_SHOCK = [Kind("shock", shock, "no shock of 9 ms or more is short enough")]


def kinds(lines: Cases, one_yard: bool) -> List[Kind]:
    """The kinds of change that a station may have: those of the yard only where its lines agree on one."""
    bare = any(case["thick"] == 0 for case in lines)
    return (OF_YARD if one_yard else []) + (OF_BARE if bare else OF_LAYER) + OF_SHOCK
