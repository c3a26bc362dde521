"""A licence: which stations in which seasons are to be released, from a text or workbook of three columns, station, name and seasons, and
a fourth, wire, that may be left out.

The columns stand in any order and their names in any letters; the seasons of a station are written as `1 2 4`, `1,2,4`, `1-4` or `all`.
A name is any printable text on one line; one with a comma stands in double quotes. A wire is a size of the catalogue, as `4/0`, `250 kcmil`
or `95 mm2`, or a cross-section in whole kcmil, as `211 kcmil`; an empty one is counted as a solid round wire of the sheet's diameter."""
from __future__ import annotations

import re
from dataclasses import dataclass
from typing import Dict, List, Optional, Sequence, Tuple

COLUMNS = ("station", "name", "seasons")
WIRE = "wire"      # the fourth column, which may be left out
MOST_AREA = 2000   # kcmil
ALL_SEASONS = (1, 2, 3, 4)


class LicenceRefused(Exception):
    """A licence that says something else than it must: the message tells where, what is there and what is allowed."""


@dataclass(frozen=True)
class Licensed:
    """A station of the licence, its name or '', and its seasons, rising."""

    station: int
    name: str
    seasons: Tuple[int, ...]
    by_licence: bool = True  # no: all four seasons are asked, since there is no licence
    wire: str = ""           # the size of its conductor, as the licence writes it
    area: int = 0            # the conductor's own cross-section in whole kcmil, rounded down; 0: solid and round, from the diameter

    @property
    def mask(self) -> int:
        """The seasons as the core takes them: seasons 1 to 4 count 1, 2, 4 and 8."""
        return sum(1 << (season - 1) for season in self.seasons)

    @property
    def numbers(self) -> Tuple[int, int, int]:
        """What the core is handed of this station: its number, its seasons and its conductor's own cross-section."""
        return self.station, self.mask, self.area


def unlicensed(station: int, seasons_: Tuple[int, ...] = ALL_SEASONS) -> Licensed:
    """A station that no licence names: all four seasons are asked of it, or others that somebody chose."""
    return Licensed(station, "", seasons_, by_licence=False)


@dataclass(frozen=True)
class Licence:
    """The stations of a licence, in its order."""

    stations: Tuple[Licensed, ...]


def _refuse(line: Optional[int], said: str) -> LicenceRefused:
    return LicenceRefused(f"licence line {line}{said}" if line else f"licence{said}")


def _lines(data: bytes, worksheet: Optional[str]) -> List[Tuple[int, List[str]]]:
    """The lines that are not blank, with their numbers and cells, of a text or a workbook."""
    from ..sheets import spreadsheet  # only where there is a licence to read
    try:
        return spreadsheet.table(data, spreadsheet.Changes(), worksheet)[0]
    except spreadsheet.Refusals as refusals:
        raise _refuse(None, f": {refusals}") from None


def _order(head: Tuple[int, List[str]]) -> List[int]:
    """The places of the three columns, and of the fourth where it is there."""
    line, names = head
    bare = [name.casefold() for name in names]
    while bare and not bare[-1]:
        bare.pop()
    columns = (*COLUMNS, WIRE) if WIRE in bare else COLUMNS
    if sorted(bare) != sorted(columns):
        raise _refuse(line, f": the names are {','.join(names)}; a licence has station,name,seasons and, if it is known, wire")
    return [bare.index(column) for column in columns]


def _area(line: int, cell: str) -> int:
    """The cross-section of a wire in whole kcmil, rounded down; 0 where none is named."""
    if not cell:
        return 0
    from ..sheets import catalogue  # only where a licence names a wire
    found = catalogue.find(cell)
    own = re.fullmatch(r"([1-9][0-9]{0,3}) ?kcmil", cell.strip().casefold())
    area = found.kcmil if found else int(own[1]) if own else 0
    if not 1 <= area <= MOST_AREA:
        raise _refuse(line, f", wire: '{cell}' is no size of the catalogue; write for example 4/0, 250 kcmil or 95 mm2, "
                            f"or the cross-section in whole kcmil, rounded down, as 211 kcmil (1..{MOST_AREA})")
    return area


def _station(line: int, cell: str) -> int:
    digits = re.fullmatch(r"([0-9]{1,5})(?:\.0*)?", cell)
    if not digits or not 1 <= int(digits[1]) <= 65535:
        raise _refuse(line, f", station: '{cell}' is not a number in 1..65535")
    return int(digits[1])


def seasons(text: str) -> Tuple[int, ...]:
    """Seasons as people write them: '1 2 4', '1,2,4', '1-4', 'all'; a `ValueError` says what is wrong."""
    if text.strip().lower() == "all":
        return ALL_SEASONS
    found: List[int] = []
    for part in re.split(r"[\s,;+/]+", text.strip()):
        span = re.fullmatch(r"([1-4])(?:[-\u2013]([1-4]))?", part)
        if not part:
            raise ValueError("none is named; write for example 1 2 3 4, 1-4 or all")
        if not span or span[2] and span[2] < span[1]:
            raise ValueError(f"'{part}' is not 1, 2, 3 or 4; write for example 1 2 4, 1-4 or all")
        found += range(int(span[1]), int(span[2] or span[1]) + 1)
    if len(set(found)) < len(found):
        raise ValueError(f"'{text.strip()}' names a season twice")
    return tuple(sorted(found))


def _seasons(line: int, cell: str) -> Tuple[int, ...]:
    try:
        return seasons(cell)
    except ValueError as error:
        raise _refuse(line, f", seasons: {error}") from None


def read(data: bytes, worksheet: Optional[str] = None) -> Licence:
    """The licence that a text or a workbook has, or `LicenceRefused`."""
    lines = _lines(data, worksheet)
    if not lines:
        raise _refuse(None, ": it is empty; its first line is station,name,seasons")
    order, stations = _order(lines[0]), []
    places = {}
    for line, cells in lines[1:]:
        if len(cells) > len(order) and not any(cells[len(order):]):
            cells = cells[:len(order)]
        if len(cells) != len(order):
            raise _refuse(line, f": {len(cells)} cells and not {len(order)}; a name with a comma stands in double quotes")
        station, name, seasons, wire = (*(cells[place] for place in order), "")[:4]
        number = _station(line, station)
        if not name.isprintable():
            raise _refuse(line, ", name: it has a character that cannot be printed")
        if number in places:
            raise _refuse(line, f", station: {number} stands in line {places[number]} too")
        places[number] = line
        stations.append(Licensed(number, name, _seasons(line, seasons), wire=wire.strip(), area=_area(line, wire)))
    if not stations:
        raise _refuse(None, ": it names no station")
    return Licence(tuple(stations))


def of_cases(cases: Sequence[Dict[str, int]], names: Dict[int, str]) -> Licence:
    """A licence for the stations of some lines, each in the seasons that have a line, with their names."""
    found: Dict[int, List[int]] = {}
    for case in cases:
        found.setdefault(case["station"], []).append(case["season"])
    return Licence(tuple(Licensed(station, names.get(station, ""), tuple(sorted(own))) for station, own in found.items()))


def text(licence: Licence) -> str:
    """A licence as the text that `read` reads."""
    def quoted(name: str) -> str:
        return '"' + name.replace('"', '""') + '"' if any(sign in name for sign in ',;"') else name
    wires = any(one.wire for one in licence.stations)
    lines = [f"{one.station},{quoted(one.name)},{' '.join(map(str, one.seasons))}{f',{one.wire}' if wires else ''}\n" for one in licence.stations]
    return f"station,name,seasons{',wire' if wires else ''}\n" + "".join(lines)


def wires(licence: Licence) -> List[str]:
    """How each wire that the licence names is counted, a sentence for each."""
    named = {one.wire: one.area for one in licence.stations if one.wire}
    return [f"wire {wire} is counted as {area} kcmil, its own cross-section rounded down" for wire, area in named.items()]
