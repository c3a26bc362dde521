"""The plan of a grid to scale, in SVG, with its rods drawn evenly spread, since a sheet has only their count and place.

Coordinates are whole tenths of a drawing unit; the drawing is 250 units wide."""
from __future__ import annotations

import math
from dataclasses import dataclass
from html import escape
from typing import Dict, List, Tuple

from ..core import Pair
from ..portfolio.decision import Station
from ..portfolio.lines import YARD, Line
from ..sheets import decimals, labels
from ..sheets.decimals import NO_BREAK as NB

LEFT, TOP, WIDTH, HEIGHT = 300, 140, 2140, 1320  # the room for the grid itself
WHOLE_WIDTH = 2500
SCALE_BARS = (1, 2, 5, 10, 20, 50, 100, 200)     # metres
DOT, SMALL_DOT = 24, 9                           # radius of a rod
SHORT = 520                                      # below this height the second side's label stands over the drawing


@dataclass(frozen=True)
class Drawn:
    """A grid as it is laid on the page: counts and sides left to right and top to bottom, in mm, and the scale as a fraction."""

    right: int
    down: int
    space: int
    turned: bool      # along runs left to right
    numerator: int    # tenths of a unit
    denominator: int  # mm

    @property
    def width(self) -> int:
        return (self.right - 1) * self.space

    @property
    def height(self) -> int:
        return (self.down - 1) * self.space

    def length(self, millimetres: int) -> int:
        """A length in tenths of a unit."""
        return millimetres * self.numerator // self.denominator

    @property
    def left(self) -> int:
        return LEFT + (WIDTH - self.length(self.width)) // 2

    def x(self, millimetres: int) -> int:
        return self.left + self.length(millimetres)

    def y(self, millimetres: int) -> int:
        return TOP + self.length(millimetres)


def lay(case: Dict[str, int]) -> Drawn:
    """A grid laid on the page; one that is long along the yard lies on its side."""
    across, along, space = case["across"], case["along"], case["space"]
    turned = 100 * (along - 1) > 115 * (across - 1)
    right, down = (along, across) if turned else (across, along)
    width, height = (right - 1) * space, (down - 1) * space
    numerator, denominator = (WIDTH, width) if WIDTH * height <= HEIGHT * width else (HEIGHT, height)
    return Drawn(right, down, space, turned, numerator, denominator)


def _at_perimeter(drawn: Drawn, count: int) -> List[Tuple[int, int]]:
    """Places along the perimeter, from a corner."""
    width, height = drawn.width, drawn.height
    whole, places = 2 * (width + height), []
    for i in range(count):
        at = i * whole // count
        if at <= width:
            places.append((at, 0))
        elif at <= width + height:
            places.append((width, at - width))
        elif at <= 2 * width + height:
            places.append((2 * width + height - at, height))
        else:
            places.append((0, whole - at))
    return places


def _inside(drawn: Drawn, count: int) -> List[Tuple[int, int]]:
    """Places at inner crossings of conductors, or evenly spread where there are not enough of them."""
    inner = [(i * drawn.space, j * drawn.space) for j in range(1, drawn.down - 1) for i in range(1, drawn.right - 1)]
    if len(inner) < count:
        each = math.isqrt(count - 1) + 1
        inner = [(drawn.width * (2 * i + 1) // (2 * each), drawn.height * (2 * j + 1) // (2 * each))
                 for j in range(each) for i in range(each)]
    return [inner[(2 * i + 1) * len(inner) // (2 * count)] for i in range(count)]


def rods(drawn: Drawn, case: Dict[str, int]) -> List[Tuple[int, int]]:
    """The places of the rods in mm from the top left corner."""
    if case["place"] == 0:
        return []
    return _at_perimeter(drawn, case["rods"]) if case["place"] == 1 else _inside(drawn, case["rods"])


def _dot(places: List[Tuple[int, int]], drawn: Drawn) -> int:
    """The radius of a rod's dot: smaller where many stand along the perimeter."""
    apart = drawn.length(2 * (drawn.width + drawn.height)) // len(places) if places else DOT
    return max(SMALL_DOT, min(DOT, 2 * apart // 5))


def _grid(drawn: Drawn, case: Dict[str, int]) -> str:
    places = rods(drawn, case)
    radius = _dot(places, drawn)
    wires = [f'M{drawn.x(i * drawn.space)} {drawn.y(0)}V{drawn.y(drawn.height)}' for i in range(drawn.right)]
    wires += [f'M{drawn.x(0)} {drawn.y(j * drawn.space)}H{drawn.x(drawn.width)}' for j in range(drawn.down)]
    dots = "".join(f'<circle cx="{drawn.x(x)}" cy="{drawn.y(y)}" r="{radius}"/>' for x, y in places)
    return f'<path class="wire" d="{"".join(wires)}"/><g class="rod">{dots}</g>'


def _text(x: int, y: int, said: str, anchor: str = "start") -> str:
    return f'<text x="{x}" y="{y}" text-anchor="{anchor}">{escape(said)}</text>'


def _dimensions(drawn: Drawn) -> Tuple[str, int]:
    """Both sides, the spacing and a scale bar; and the height of the whole drawing."""
    x0, x1, y0, y1 = drawn.x(0), drawn.x(drawn.width), drawn.y(0), drawn.y(drawn.height)
    across, along = ("along", "across") if drawn.turned else ("across", "along")
    wide, high = f"{across} {labels.metres(drawn.width, 0)} m", f"{along} {labels.metres(drawn.height, 0)} m"
    below, last = y1 + 130, drawn.x(drawn.width - drawn.space)
    if y1 - y0 > SHORT:
        side = f'<text transform="translate({x0 - 180} {(y0 + y1) // 2}) rotate(-90)" text-anchor="middle">{escape(high)}</text>'
    else:
        side = _text(x0 - 180, y0 - 45, high)
    metres = next((one for one in SCALE_BARS if drawn.length(1000 * one) > 280), SCALE_BARS[-1])
    end = drawn.x(1000 * metres)
    drawing = (
        f'<path class="dim" d="M{x0} {below - 40}v80M{x1} {below - 40}v80M{x0} {below}H{x1}"/>'
        f'{_text((x0 + x1) // 2, below + 120, wide, "middle")}'
        f'<path class="dim" d="M{x0 - 170} {y0}h80M{x0 - 170} {y1}h80M{x0 - 130} {y0}V{y1}"/>{side}'
        f'<path class="dim" d="M{last} {y0 - 60}v-40M{x1} {y0 - 60}v-40M{last} {y0 - 80}H{x1}"/>'
        f'{_text(last - 40, y0 - 45, f"spacing {labels.metres(drawn.space, 0)} m", "end")}'
        f'<path class="scale" d="M{x0} {below + 260}v-50m0 50H{end}v-50"/>{_text(end + 50, below + 260, f"{metres} m")}')
    return drawing, below + 310


def rods_in_words(case: Dict[str, int]) -> str:
    """'20 rods of 6 m at the perimeter', 'no rods'."""
    if not case["rods"]:
        return "no rods"
    place = "at the perimeter" if case["place"] == 1 else "inside"
    return f"{case['rods']} rod{'s' if case['rods'] > 1 else ''} of {labels.metres(case['rodlen'], 0)}{NB}m {place}"


def lengths(line: Line) -> str:
    """The metres of conductor and rods, as the core works them."""
    def shown(pair: Pair) -> str:
        exact = pair.lower == pair.upper
        return (decimals.exact(pair.lower, 6) if exact else decimals.ends(pair, 6, 3)) + f"{NB}m"
    rod = f" and {shown(line.working.lr)} of rods" if line.case["rods"] else ""
    return f"{shown(line.working.lc)} of conductor{rod}"


def figure(station: Station) -> str:
    """The plan of a station's grid, from its first line, with its caption."""
    line = station.lines[0]
    case, number = line.case, station.station
    drawn = lay(case)
    drawing, height = _dimensions(drawn)
    words = (f"{case['across']} conductors across × {case['along']} along, {labels.metres(case['depth'], 0)}{NB}m deep, {lengths(line)}; "
             f"{rods_in_words(case)}.")
    description = (f"{labels.metres((case['across'] - 1) * case['space'], 0)} m across by "
                   f"{labels.metres((case['along'] - 1) * case['space'], 0)} m along, spacing {labels.metres(case['space'], 0)} m. {words}")
    yard = [name for name in YARD if name in station.differs]
    note = (f'<b class="red">Drawn from season {line.season}; other lines differ in {escape(labels.columns(yard))}.</b> ' if yard else "")
    spread = " Rods are drawn evenly spread." if case["rods"] else ""
    return (f'<figure class="plan"><h3>Plan of the grid, to scale</h3>'
            f'<svg viewBox="0 0 {WHOLE_WIDTH} {height}" role="img" aria-labelledby="plan{number} plan{number}-words">'
            f'<title id="plan{number}">Plan of station {number}</title><desc id="plan{number}-words">{escape(description)}</desc>'
            f'{_grid(drawn, case)}{drawing}</svg><figcaption>{note}{escape(words)}{spread}</figcaption></figure>')
