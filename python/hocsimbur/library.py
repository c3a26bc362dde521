"""The library for programs in Python: questions about any number of yards, each a mapping of the 22 names of a sheet to whole numbers.

Answers are small dataclasses: exact values between two fractions in volts, amperes, ohms and metres, and with them, as `whole`, the
library's own whole numbers in the units of include/hocsimbur.h.
Nothing is decided here; what is not the library's answer is arithmetic on it."""
from __future__ import annotations

import operator
from dataclasses import dataclass, fields
from fractions import Fraction
from typing import Callable, Dict, Iterable, List, Mapping, NamedTuple, NoReturn, Optional, Sequence, Tuple, TypeVar, Union

from . import core
from .core import Verdict
from .portfolio import decision, reasons
from .portfolio.licence import ALL_SEASONS, MOST_AREA, Licence, Licensed
from .sheets import checking, layout, rounding, units
from .sheets.amounts import shown
from .sheets.files import Batch, File, Lines, each
from .sheets.forms import whole_number
from .sheets.names import BY_NAME, FORMER, NAMES
from .sheets.printable import printable
from .sheets.words import Asked, refusal

Yard = Mapping[str, object]  # the 22 names with whole numbers: ints, or floats, fractions and decimals that are whole
Number = Union[int, float, Fraction, str]
Answer = TypeVar("Answer")


class Refused(ValueError):
    """What the library refuses, in words.

    `number` is the refusal's number, 0 where a value was no whole number or is missing; `line` the place of the yard or reading in its
    list, from 0, and `column` its name, both None where the refusal has none."""

    def __init__(self, words: str, number: int = 0, line: Optional[int] = None, column: Optional[str] = None) -> None:
        where = ", ".join(([f"[{line}]"] if line is not None else []) + ([column] if column else []))
        super().__init__(f"{where}: {words}" if where else words)
        self.words = words
        self.number = number
        self.line = line
        self.column = column


class Ends(NamedTuple):
    """An exact value, between two fractions."""

    lower: Fraction
    upper: Fraction


@dataclass(frozen=True)
class Verdicts:
    """The verdict of a yard, and the conductor size that it needs in kcmil."""

    station: int
    season: int
    verdict: Verdict
    kcmil: int


@dataclass(frozen=True)
class Row:
    """All that is answered of a yard."""

    station: int
    season: int
    verdict: Verdict
    kcmil: int             # conductor size needed
    current: Ends          # grid current, A
    factor: Ends           # decrement factor
    tolerable_touch: Ends  # V
    tolerable_step: Ends   # V
    mesh: Ends             # V
    step: Ends             # V
    resistance: Ends       # ohms
    rise: Ends             # ground potential rise, V
    whole: core.Row


@dataclass(frozen=True)
class Margins:
    """By which part of what is tolerable the mesh and the step voltage lie above it, at most; below 0 where they lie below."""

    station: int
    season: int
    mesh: Fraction
    step: Fraction
    whole: core.Margins    # per mille


@dataclass(frozen=True)
class Working:
    """The quantities between a yard and its row, as IEEE Std 80's Annex B prints them; lengths in m."""

    cs: Ends         # surface layer factor
    root_time: Ends  # root of the shock time, of a root of a second
    side: Ends       # root of the area, m
    lc: Ends
    lr: Ends
    lt: Ends
    lm: Ends
    ls: Ends
    n: Ends          # effective number of conductors
    ki: Ends
    kii: Ends
    kh: Ends
    km: Ends
    ks: Ends         # 1/m
    driven: Ends     # soil resistivity times Ki times grid current over LM, V
    whole: core.Working


@dataclass(frozen=True)
class Release:
    """Whether a station may be released, and what holds it."""

    station: int
    released: bool
    missing: int                # seasons of the licence without a line
    unsafe: int                 # lines that are unsafe
    undecided: int              # lines that are undecided
    other_yard: int             # lines of another yard than the station's first
    small_wire: int             # lines whose conductor is too small
    fault: int                  # greatest fault current in A at which every line is safe, or 0
    wire_to: int                # greatest fault current in A at which the wire of every line is large enough, or 0 without a line
    sentence: str               # why it is held, or how near its limit it is
    cautions: Tuple[str, ...]


@dataclass(frozen=True)
class Soil:
    """The soil from four-pin readings: apparent resistivities in ohm metres, and the value for the column soil."""

    least: Ends
    greatest: Ends
    mean: Ends
    soil: int
    whole: core.Soil


@dataclass(frozen=True)
class Split:
    """The split from a staged test: the grid's two parts in A, and the part of the injected current that enters the grid."""

    in_phase: Fraction
    quadrature: Fraction
    split: Fraction
    per_mille: int  # for the column split


Fewest = core.Fewest


# ---- yards

def _number(value: object) -> Optional[Fraction]:
    """The exact number that a value is; nothing where it is none."""
    if isinstance(value, bool):
        return None
    try:
        return Fraction(operator.index(value))  # type: ignore[arg-type]
    except TypeError:
        pass
    try:
        return Fraction(value)  # type: ignore[arg-type]
    except (TypeError, ValueError, OverflowError, ZeroDivisionError):
        return None


def _whole(value: object, name: str, line: int) -> int:
    """A value of a column as the whole number that it is."""
    number = _number(value)
    unit = BY_NAME[name].unit if name in BY_NAME else ""
    if number is None:
        raise Refused(f"{printable(repr(value))} is no number; it must be {whole_number(unit)}", 0, line, name)
    if number.denominator != 1:
        outside, advice = units.outside(name, number), rounding.advice(name)
        more = f", and {outside}" if outside else f"; {advice}" if advice else ""
        given = repr(value) if isinstance(value, float) else shown(number)
        raise Refused(f"{given} is not {whole_number(unit)}{more}", 0, line, name)
    return int(number)


def _cases(yards: Iterable[Yard], names: Sequence[str]) -> List[Dict[str, int]]:
    """The yards as cases; other keys than the names are left alone."""
    found = []
    for line, yard in enumerate(yards):
        for name in names:
            if name not in yard:
                raise Refused(f"there is no {name}; a yard has the names {', '.join(names)}", 0, line, name)
        found.append({name: _whole(yard[name], name, line) for name in names})
    return found


_TODAY = [name.name for name in NAMES]


def _refuse(sheet: bytes) -> NoReturn:
    """Raises what the library refuses of yards: the first of them."""
    one = checking.check(sheet)[0]
    words = one.said.partition(": ")[2] or one.said
    if one.number == core.Refusal.REPEATED:
        cells = [line.split(b",")[:2] for line in layout.lines(sheet)]
        first = cells.index(cells[one.line - 1]) - 1
        words = words.partition(" stands already")[0] + f" stands already in [{first}]; a station has one line for a season"
    raise Refused(words, one.number, one.line - 2, _TODAY[one.column - 1] if one.column else None)


def _asked(yards: Iterable[Yard], question: Callable[[Batch], Sequence[Answer]]) -> List[Answer]:
    """The answer to a question for each yard, in their order; none for no yards."""
    cases = _cases(yards, _TODAY)
    if not cases:
        return []
    sheet = layout.text(cases)
    try:
        lines = Lines(sheet)
        batches = lines.batches()
        return lines.in_order(batches, each(batches, question))
    except core.Refused:
        _refuse(sheet)


def _ends(pair: core.Pair, scale: int) -> Ends:
    """A pair of whole numbers of 10^-scale."""
    return Ends(Fraction(pair.lower, 10 ** scale), Fraction(pair.upper, 10 ** scale))


# ---- questions

def version() -> str:
    """The version of the library that is asked, as 1.1.0."""
    return core.version()


def verdicts(yards: Iterable[Yard]) -> List[Verdicts]:
    """The verdict of each yard, and the conductor size that it needs."""
    return _asked(yards, lambda batch: [Verdicts(row.station, row.season, row.verdict, row.kcmil) for row in core.rows(batch.sheet)])


def _row(row: core.Row) -> Row:
    return Row(row.station, row.season, row.verdict, row.kcmil, _ends(row.current, 6), _ends(row.factor, 9), _ends(row.tolerable_touch, 3),
               _ends(row.tolerable_step, 3), _ends(row.mesh, 3), _ends(row.step, 3), _ends(row.resistance, 6), _ends(row.rise, 3), row)


def rows(yards: Iterable[Yard]) -> List[Row]:
    """All that is answered of each yard: currents in A, voltages in V, the resistance in ohms."""
    return _asked(yards, lambda batch: [_row(row) for row in core.rows(batch.sheet)])


def margins(yards: Iterable[Yard]) -> List[Margins]:
    """How far the voltages of each yard lie above what is tolerable, as a part of it, rounded up to a thousandth."""
    def question(batch: Batch) -> List[Margins]:
        return [Margins(case["station"], case["season"], Fraction(one.mesh, 1000), Fraction(one.step, 1000), one)
                for case, one in zip(layout.cases(batch.sheet), core.margins(batch.sheet))]
    return _asked(yards, question)


# the power of ten of each quantity of the working
_SCALES = dict(cs=9, root_time=8, side=6, lc=6, lr=6, lt=6, lm=6, ls=6, n=7, ki=10, kii=9, kh=9, km=7, ks=7, driven=3)


def working(yards: Iterable[Yard]) -> List[Working]:
    """The quantities between each yard and its row."""
    def question(batch: Batch) -> List[Working]:
        return [Working(*(_ends(getattr(one, field.name), _SCALES[field.name]) for field in fields(core.Working)), one)
                for one in core.working(batch.sheet)]
    return _asked(yards, question)


def headroom(yards: Iterable[Yard]) -> List[Optional[int]]:
    """For each yard the greatest fault current in A, 100 to 80000, at which it is safe, all else equal; None where none is."""
    return _asked(yards, lambda batch: [fault or None for fault in core.headroom(batch.sheet)])


def release(yards: Iterable[Yard], licence: Optional[Mapping[int, Iterable[int]]] = None,
            wires: Optional[Mapping[int, int]] = None) -> List[Release]:
    """Which stations may be released: of a licence, which has the seasons of each station as a set of numbers, 1 to 4, in its order;
    without one every station in all four seasons, in the order of first appearance.

    `wires` has of stations of the licence the conductor's own cross-section in whole kcmil, rounded down, 1 to 2000; of the others it is a
    solid round wire of the yard's diameter. Every line of a station counts, also of seasons outside the licence."""
    cases = _cases(yards, _TODAY)
    if not cases:
        raise Refused("there is no yard")
    granted = None if licence is None else Licence(tuple(_licensed(station, seasons, (wires or {}).get(station, 0))
                                                                for station, seasons in licence.items()))
    if wires and (granted is None or not set(wires) <= set(licence or {})):
        raise Refused("wires: a wire is given for a station that the licence does not name")
    if granted is not None and not granted.stations:
        raise Refused("the licence names no station")
    sheet = layout.text(cases)

    def made(station: decision.Station) -> Release:
        answer = station.answer
        return Release(answer.station, answer.released, answer.missing, answer.unsafe, answer.undecided, answer.other_yard,
                       answer.small_wire, answer.fault, station.wire_to, reasons.sentence(station), tuple(reasons.cautions(station)))

    try:
        lines = Lines([File("", sheet)])
        return decision.answered(lines, lines.batches(), granted, made)[0]
    except core.Refused:
        _refuse(sheet)


def _licensed(station: object, seasons: Iterable[int], area: object) -> Licensed:
    number = _number(station)
    if number is None or number.denominator != 1 or not 1 <= number <= 65535:
        raise Refused(f"licence: {printable(repr(station))} is not a station's number in 1..65535")
    found = sorted(set(seasons))
    if not found or any(isinstance(one, bool) or one not in ALL_SEASONS for one in found):
        raise Refused(f"licence: the seasons of station {int(number)} are {found}; they are some of 1, 2, 3 and 4")
    own = _number(area)
    if own is None or own.denominator != 1 or not 0 <= own <= MOST_AREA:
        raise Refused(f"wires: the cross-section of station {int(number)} is {printable(repr(area))}; it is in whole kcmil, 1..{MOST_AREA}")
    return Licensed(int(number), "", tuple(int(one) for one in found), area=int(own))


def fewest(yard: Yard, side: Number) -> Fewest:
    """The fewest conductors each way, then rods, with which a square yard of a side in mm is safe, all else as in one yard."""
    sheet, wanted = layout.text(_cases([yard], _TODAY)), _number(side)
    if wanted is None or wanted.denominator != 1 or not 0 <= wanted < 2 ** 32:
        raise Refused(f"the side {printable(repr(side))} is not a whole number of mm, 2500..720000")
    try:
        return core.fewest(sheet, int(wanted))
    except core.Refused as refused:
        if refused.number < 8:
            _refuse(sheet)
        raise Refused(refusal(refused, Asked(sheet, most_lines=1, side=int(wanted))), refused.number) from None


def _thousandths(value: Number, called: str, small: str, line: int) -> int:
    """A value in thousandths of its unit, exactly."""
    number = _number(value)
    if number is None:
        raise Refused(f"{printable(repr(value))} is no number", 0, line, called)
    if isinstance(value, float):
        number = Fraction(repr(value))  # what was written: 0.1 is a tenth
    if (1000 * number).denominator != 1:
        raise Refused(f"{shown(number)} is not a whole number of {small}", 0, line, called)
    return int(1000 * number)


def soil(readings: Iterable[Tuple[Number, Number]]) -> Soil:
    """The soil from four-pin readings of a distance in m and a resistance in ohms, whole mm and milliohms."""
    handed = [(_thousandths(distance, "distance", "mm", line), _thousandths(ohms, "resistance", "milliohms", line))
              for line, (distance, ohms) in enumerate(readings)]
    for line, pair in enumerate(handed):
        if any(not 0 <= number < 2 ** 32 for number in pair):
            raise Refused("a distance is in 0.5..50 m, a resistance in 0.001..1,000 ohms", 0, line)
    try:
        found = core.soil(handed)
    except core.Refused as refused:
        column = {1: "distance", 2: "resistance"}.get(refused.column)
        words = refusal(refused, Asked(readings=handed))
        raise Refused(words.partition(": ")[2] or words, refused.number, refused.line - 1 if refused.line else None, column) from None
    return Soil(_ends(found.least, 6), _ends(found.greatest, 6), _ends(found.mean, 6), found.soil, found)


def split(injected: Tuple[Number, Number], branches: Iterable[Tuple[Number, Number]]) -> Split:
    """The split from a staged test: in-phase and quadrature part in A, whole mA, of the injected current and of each branch; a branch
    counts positive away from the grid."""
    handed = [(_thousandths(one, "in-phase", "mA", line), _thousandths(other, "quadrature", "mA", line))
              for line, (one, other) in enumerate([injected, *branches])]
    if any(abs(number) >= 2 ** 62 for pair in handed for number in pair):
        raise Refused("a part is in -1,000..1,000 A")
    try:
        found = core.split(handed)
    except core.Refused as refused:
        raise Refused(refusal(refused, Asked(parts=handed)), refused.number) from None
    return Split(Fraction(found.in_phase, 1000), Fraction(found.quadrature, 1000), Fraction(found.split, 1000), found.split)


def _carried(yards: Iterable[Yard], names: Sequence[str], way: Callable[[bytes], bytes], former: bool) -> List[Dict[str, int]]:
    cases = _cases(yards, names)
    found: List[Dict[str, int]] = []
    for first in range(0, len(cases), core.LINES):
        sheet = layout.text(cases[first:first + core.LINES])
        try:
            found += layout.cases(way(sheet))
        except core.Refused as refused:
            words = refusal(refused, Asked(sheet, former=former))
            column = names[refused.column - 1] if refused.column else None
            line = first + refused.line - 2 if refused.line else None
            raise Refused(words.partition(": ")[2] or words, refused.number, line, column) from None
    return found


def carry(yards: Iterable[Yard]) -> List[Dict[str, int]]:
    """Yards of the former 18 names as yards of today's 22."""
    found = _carried(yards, FORMER, core.carry, former=True)
    _accepted(found)
    return found


def carry_back(yards: Iterable[Yard]) -> List[Dict[str, int]]:
    """Yards of today's 22 names as yards of the former 18."""
    cases = _cases(yards, _TODAY)
    _accepted(cases)
    return _carried(cases, _TODAY, core.carry_back, former=False)


def _accepted(yards: Iterable[Yard]) -> None:
    """Raises what the library refuses of yards, as of a station and season that stand twice, however far apart."""
    _asked(yards, lambda batch: [None] * core.count(batch.sheet))
