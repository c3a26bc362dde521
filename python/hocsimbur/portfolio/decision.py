"""What the core answers of every station of a licence, gathered: its lines, whether it is released, and the reasons to hold it as data.

Nothing is decided here: released or held, and which kinds of reason there are, is `core.release`'s answer."""
from __future__ import annotations

from dataclasses import dataclass
from typing import Callable, Dict, Iterable, List, NamedTuple, Optional, Sequence, Tuple, TypeVar, Union

from .. import core
from ..sheets.files import Batch, Given, Lines, Place, each
from .compared import ABOVE, OVERLAPS, Compared
from .licence import ALL_SEASONS, Licence, Licensed, unlicensed
from .lines import YARD, Line, differing, gather

Answer = TypeVar("Answer")


@dataclass(frozen=True)
class Unsafe:
    """A line is unsafe: the voltages that are above what is tolerable."""

    season: int
    place: Place
    above: Tuple[Compared, ...]


@dataclass(frozen=True)
class Undecided:
    """A line is undecided: the voltages that the ends do not part from what is tolerable."""

    season: int
    place: Place
    overlapping: Tuple[Compared, ...]


@dataclass(frozen=True)
class Missing:
    """Seasons of the licence without a line; whether the station has no line at all."""

    seasons: Tuple[int, ...]
    no_line: bool


@dataclass(frozen=True)
class OtherYard:
    """The lines describe different yards: the columns in which they differ."""

    columns: Tuple[str, ...]


class Size(NamedTuple):
    """What a conductor needs and has."""

    needed: int    # kcmil
    diameter: int  # tenths of a mm
    own: int       # kcmil, rounded down: the conductor's own, or those of a solid round of that diameter
    solid: bool = True  # whether only the diameter is known


@dataclass(frozen=True)
class SmallWire:
    """A conductor is too small: of such lines the one that needs the largest."""

    size: Size


Reason = Union[Unsafe, Undecided, Missing, OtherYard, SmallWire]


class Nearest(NamedTuple):
    """The margin of a station that is nearest its limit, or furthest above it."""

    margin: int  # per mille
    limit: str   # 'touch' or 'step'
    season: int


@dataclass(frozen=True)
class Station:
    """A station of the licence and what the core answers of it."""

    licensed: Licensed
    answer: core.Release
    lines: Tuple[Line, ...]      # by season
    reasons: Tuple[Reason, ...]  # unsafe by season, undecided by season, missing, yard, wire

    @property
    def station(self) -> int:
        return self.licensed.station

    @property
    def name(self) -> str:
        return self.licensed.name

    @property
    def seasons(self) -> Tuple[int, ...]:
        """The seasons of the licence."""
        return self.licensed.seasons

    @property
    def released(self) -> bool:
        return self.answer.released

    @property
    def fault(self) -> int:
        """The greatest fault current in A at which every line is safe, or 0."""
        return self.answer.fault

    @property
    def shown(self) -> Tuple[int, ...]:
        """The seasons of the licence and of the lines: each has its place in a report."""
        return tuple(sorted(set(self.seasons) | {line.season for line in self.lines}))

    @property
    def missing(self) -> Tuple[int, ...]:
        """The seasons of the licence without a line."""
        return missing(self.licensed, self.lines)

    @property
    def worst(self) -> Optional[Line]:
        """The line that is nearest its limit, or furthest above it; the earlier season where two are alike."""
        return max(self.lines, key=lambda line: line.nearest.margin) if self.lines else None

    @property
    def nearest(self) -> Optional[Nearest]:
        line = self.worst
        return Nearest(line.nearest.margin, line.nearest.limit, line.season) if line else None

    @property
    def differs(self) -> Tuple[str, ...]:
        """The columns, besides station and season, in which the lines differ."""
        return differing(self.lines)

    @property
    def size(self) -> Size:
        """What the conductor needs and has in the line that needs the largest, of those in which it is too small where there are any."""
        return size(self.lines)

    @property
    def wire_to(self) -> int:
        """The greatest fault current in A at which the wire of every line is enough; 0 where there is no line."""
        return min((line.wire_to for line in self.lines), default=0)

    @property
    def files(self) -> Tuple[str, ...]:
        """The files in which it has lines; none where there is one file alone."""
        return tuple(dict.fromkeys(line.place.file for line in self.lines if line.place.file))

    def line(self, season: int) -> Optional[Line]:
        """The line of a season."""
        return next((line for line in self.lines if line.season == season), None)


@dataclass(frozen=True)
class Portfolio:
    """The stations of a licence, in its order, on a sheet."""

    stations: Tuple[Station, ...]
    licensed: bool                # a licence was handed over; otherwise every station of the sheet is asked in all four seasons
    unlicensed: Tuple[int, ...]   # stations of the sheet that the licence does not name
    seasons: Tuple[int, ...] = ALL_SEASONS  # asked of every station where there is no licence


def kcmil(diameter: int) -> int:
    """A solid round of a diameter in tenths of a mm in kcmil, rounded down; for display, it decides nothing."""
    return 1000 * diameter * diameter // 64516


def missing(licensed: Licensed, lines: Tuple[Line, ...]) -> Tuple[int, ...]:
    """The seasons of the licence without a line."""
    there = {line.season for line in lines}
    return tuple(season for season in licensed.seasons if season not in there)


def size(lines: Tuple[Line, ...]) -> Size:
    """What the conductor needs and has in the line that needs the largest, of those in which it is too small where there are any."""
    small = [line for line in lines if line.small_wire] or lines
    line = max(small, key=lambda line: (line.row.kcmil, -line.case["dia"]))
    return Size(line.row.kcmil, line.case["dia"], line.area or kcmil(line.case["dia"]), not line.area)


def _reasons(licensed: Licensed, answer: core.Release, lines: Tuple[Line, ...]) -> List[Reason]:
    """The reasons to hold a station, of the kinds that the core counts."""
    found: List[Reason] = []
    if answer.unsafe:
        found += [Unsafe(line.season, line.place, tuple(one for one in line.compared if one.side == ABOVE))
                  for line in lines if line.row.verdict == core.Verdict.UNSAFE]
    if answer.undecided:
        found += [Undecided(line.season, line.place, tuple(one for one in line.compared if one.side == OVERLAPS))
                  for line in lines if line.row.verdict == core.Verdict.UNDECIDED]
    if answer.missing:
        found.append(Missing(missing(licensed, lines), not lines))
    if answer.other_yard:
        found.append(OtherYard(tuple(name for name in YARD if name in differing(lines))))
    if answer.small_wire:
        found.append(SmallWire(size(lines)))
    return found


def _stations(lines: Lines, batch: Batch, licence: Optional[Dict[int, Licensed]],
              seasons: Tuple[int, ...]) -> Tuple[List[Station], List[int]]:
    """What the core answers of the stations of a sheet that the licence names, and those that it does not name."""
    told = len(lines.files) > 1
    areas = {one.station: one.area for one in (licence or {}).values() if one.area}
    gathered = gather(batch.sheet, [lines.place(line) if told else Place("", lines.place(line).line) for line in batch.lines], areas)
    own: Dict[int, List[Line]] = {}
    for line in gathered:
        own.setdefault(line.case["station"], []).append(line)
    asked = [unlicensed(one, seasons) for one in own] if licence is None else [licence[one] for one in own if one in licence]
    if not asked:
        core.count(batch.sheet)
        return [], list(own)
    found = []
    for one, answer in zip(asked, core.release(batch.sheet, [one.numbers for one in asked])):
        of_one = tuple(sorted(own[one.station], key=lambda line: line.season))
        found.append(Station(one, answer, of_one, tuple(_reasons(one, answer, of_one))))
    named = {one.station for one in asked}
    return found, [one for one in own if one not in named]


def _lineless(sheet: bytes, licensed: Sequence[Licensed]) -> List[Station]:
    """What the core answers of stations of which no sheet has a line: asked of any sheet, as many at once as it takes."""
    found = []
    for first in range(0, len(licensed), core.LINES):
        part = licensed[first:first + core.LINES]
        for one, answer in zip(part, core.release(sheet, [one.numbers for one in part])):
            found.append(Station(one, answer, (), tuple(_reasons(one, answer, ()))))
    return found


def answered(lines: Lines, batches: Sequence[Batch], licence: Optional[Licence], made: Callable[[Station], Answer],
             ask: Callable[..., Iterable[Tuple[List[Tuple[int, Answer]], List[int]]]] = each,
             seasons: Tuple[int, ...] = ALL_SEASONS) -> Tuple[List[Answer], Tuple[int, ...]]:
    """What is made of each station of a licence, in its order, or without one of every station, in the order of first appearance;
    and the stations that the licence does not name. `ask` asks a question about each batch; `seasons` stand in place of a licence."""
    named = None if licence is None else {one.station: one for one in licence.stations}

    def question(batch: Batch) -> Tuple[List[Tuple[int, Answer]], List[int]]:
        stations, others = _stations(lines, batch, named, seasons)
        return [(one.station, made(one)) for one in stations], others

    answers = list(ask(batches, question))
    found = {station: one for of_batch, _ in answers for station, one in of_batch}
    others = tuple(station for _, of_batch in answers for station in of_batch)
    if licence is None:
        return list(found.values()), others
    without = [one for one in licence.stations if one.station not in found]
    found.update((one.station, made(one)) for one in _lineless(batches[0].sheet, without))
    return [found[one.station] for one in licence.stations], others


def portfolio(files: Given, licence: Optional[Licence] = None) -> Portfolio:
    """What the core answers of every station of a licence; without one, of every station of the files in all four seasons."""
    lines = Lines(files)
    stations, others = answered(lines, lines.batches(), licence, lambda station: station)
    return Portfolio(tuple(stations), licence is not None, others)
