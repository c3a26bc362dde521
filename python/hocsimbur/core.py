"""The proved library, asked through ctypes: every number that this package shows is an answer of one of these functions.

Nothing is computed here.
A sheet is bytes; numbers are whole, in the units of the library's header (include/hocsimbur.h), and a pair is the lower and upper
end that enclose an exact value.
What breaks a rule is raised as `Refused`, with the number, line and column that the library tells."""
from __future__ import annotations

import ctypes
import enum
from dataclasses import dataclass, fields
from typing import List, NamedTuple, Sequence, Tuple

# three of them for callers: what may be raised, the library's file, and a question
from .entries import LibraryMissing, asked as _asked, library_name, version

LINES = 256          # most value lines of a sheet
SHEET_BYTES = 65536  # most bytes of a sheet
ROW_BYTES = 160      # bytes of a row


class Refusal(enum.IntEnum):
    """The refusals by their numbers, as the header names them; docs/specification.md §2.1 says what line and column of each mean."""

    TEXT = 1
    NAME = 2
    FORM = 3
    LINES = 4
    RANGE = 5
    PARTS = 6
    REPEATED = 7
    SHORT = 8
    TIMES = 9
    COUNTS = 10
    HERTZ = 11
    READINGS = 12
    DISTANCE = 13
    RESISTANCE = 14
    SIDE = 15
    NO_RODLEN = 16
    TEST = 17
    PART = 18
    NO_CURRENT = 19
    SUMMARY = 20
    LICENCE = 21
    STATION = 22
    RELEASE = 23


class Refused(Exception):
    """A refusal: its number, and the line and column that it points at, 0 where there is none."""

    def __init__(self, number: int, line: int, column: int) -> None:
        super().__init__(f"refused: number {number}, line {line}, column {column}")
        self.number = number
        self.line = line
        self.column = column


class Pair(NamedTuple):
    """The two ends that enclose an exact value."""

    lower: int
    upper: int


class Verdict(enum.IntEnum):
    """The verdict of a row."""

    SAFE = 1
    UNSAFE = 2
    UNDECIDED = 3


@dataclass(frozen=True)
class Row:
    """The row of a value line."""

    station: int
    season: int
    verdict: Verdict
    kcmil: int             # conductor size
    current: Pair          # grid current, microamperes
    factor: Pair           # decrement factor, billionths
    tolerable_touch: Pair  # millivolts, as all voltages
    tolerable_step: Pair
    mesh: Pair
    step: Pair
    resistance: Pair       # micro-ohms
    rise: Pair             # ground potential rise, millivolts


@dataclass(frozen=True)
class Margins:
    """How far the voltages lie above what is tolerable, per mille of it and rounded up; below 0 where they lie below."""

    mesh: int
    step: int


@dataclass(frozen=True)
class Working:
    """The quantities between a value line and its row, as IEEE Std 80's Annex B prints them."""

    cs: Pair         # surface layer factor, 10^-9
    root_time: Pair  # root of the shock time, 10^-8 of a root of a second
    side: Pair       # root of the area and all lengths: micrometres
    lc: Pair
    lr: Pair
    lt: Pair
    lm: Pair
    ls: Pair
    n: Pair          # effective number of conductors, 10^-7
    ki: Pair         # 10^-10
    kii: Pair        # 10^-9
    kh: Pair         # 10^-9
    km: Pair         # 10^-7
    ks: Pair         # 10^-7 per metre
    driven: Pair     # ρ·Ki·IG/LM, millivolts


@dataclass(frozen=True)
class Station:
    """The summary of a station: its count of lines, those of each verdict, and the season with the highest upper mesh end."""

    station: int
    seasons: int
    safe: int
    unsafe: int
    undecided: int
    highest_mesh_season: int


@dataclass(frozen=True)
class Release:
    """What a licence's question answers of one station."""

    station: int
    released: bool
    missing: int     # seasons of the licence without a line
    unsafe: int      # lines answered unsafe
    undecided: int   # lines answered undecided
    other_yard: int  # lines of another yard than the station's first
    small_wire: int  # lines whose conductor is too small
    fault: int       # greatest fault current in A at which every line is safe, or 0


@dataclass(frozen=True)
class Fewest:
    """The fewest lines each way, then rods, with which a square yard is safe, and how many yards were tried; none where not found."""

    found: bool
    lines: int
    rods: int
    tried: int


@dataclass(frozen=True)
class Soil:
    """The soil from four-pin readings: resistivities in micro-ohm metres, and the value for the column soil in ohm metres."""

    least: Pair
    greatest: Pair
    mean: Pair
    soil: int


@dataclass(frozen=True)
class Split:
    """The split from a staged test: the grid's two parts in milliamperes, and the split per mille."""

    in_phase: int
    quadrature: int
    split: int


def _slice(array: ctypes.Array) -> list:
    """An array as the two arguments that stand for it; a null pointer where it is empty."""
    length = len(array)
    return [array if length else None, ctypes.c_size_t(length)]


def _bytes(text: bytes) -> list:
    return _slice((ctypes.c_uint8 * len(text)).from_buffer_copy(text))


def _array(kind: type, numbers: Sequence[int]) -> list:
    """Whole numbers as an array of a C type; one that the type cannot hold is an error, and is never cut."""
    array = (kind * len(numbers))(*numbers)
    for number, held in zip(numbers, array):
        if number != held:
            raise OverflowError(f"{number} does not fit the library's {8 * ctypes.sizeof(kind)} bits")
    return _slice(array)


def _ask(name: str, *arguments) -> int:
    """The answer of an entry, with a place lent to it; a refusal is raised."""
    place = (ctypes.c_size_t * 2)()
    handed = [part for argument in arguments for part in (argument if isinstance(argument, list) else [argument])]
    answer = _asked.entry("hocsimbur_" + name)(*handed, *_slice(place))
    if answer < 0:
        raise Refused(-answer, place[0], place[1])
    return answer


def _numbers(name: str, width: int, most: int, *arguments) -> List[List[int]]:
    """The answer of an entry that puts `width` numbers for each thing that it counts, at most `most` of them."""
    array = (ctypes.c_int64 * (width * most))()
    count = _ask(name, *arguments, _slice(array))
    return [list(array[width * i:width * (i + 1)]) for i in range(count)]


def _pairs(numbers: Sequence[int]) -> List[Pair]:
    return [Pair(*numbers[i:i + 2]) for i in range(0, len(numbers), 2)]


def count(sheet: bytes) -> int:
    """How many value lines a sheet has; nothing of them is kept."""
    return _ask("rows_at", _bytes(sheet), _slice((ctypes.c_uint8 * (ROW_BYTES * LINES))()))


def summary_and_rows(sheet: bytes) -> Tuple[List[Station], List[Row]]:
    """The stations of a sheet by first appearance, and its rows."""
    width = 20
    table = (ctypes.c_int64 * (width * LINES))()
    stations = (ctypes.c_int64 * (6 * LINES))()
    count = _ask("summary", _bytes(sheet), _slice(table), _slice(stations))
    summed = [Station(*stations[6 * i:6 * i + 6]) for i in range(count)]
    lines = sum(station.seasons for station in summed)
    return summed, [_row(table[width * i:width * (i + 1)]) for i in range(lines)]


def _row(numbers: Sequence[int]) -> Row:
    return Row(numbers[0], numbers[1], Verdict(numbers[2]), numbers[3], *_pairs(numbers[4:]))


def rows(sheet: bytes) -> List[Row]:
    """The rows of a sheet, one for each value line, in its order."""
    return summary_and_rows(sheet)[1]


def summary(sheet: bytes) -> List[Station]:
    """The stations of a sheet by first appearance."""
    return summary_and_rows(sheet)[0]


def margins(sheet: bytes) -> List[Margins]:
    """The margins of each value line."""
    return [Margins(*numbers) for numbers in _numbers("margins", 2, LINES, _bytes(sheet))]


def working(sheet: bytes) -> List[Working]:
    """The working of each value line."""
    return [Working(*_pairs(numbers)) for numbers in _numbers("working", 2 * len(fields(Working)), LINES, _bytes(sheet))]


def headroom(sheet: bytes) -> List[int]:
    """For each value line the greatest fault current in A at which it, all else equal, is answered safe; 0 where none is."""
    return [numbers[0] for numbers in _numbers("headroom", 1, LINES, _bytes(sheet))]


def release(sheet: bytes, licence: Sequence[Sequence[int]]) -> List[Release]:
    """Which stations of a licence may be released: a station, its seasons, in which seasons 1 to 4 count 1, 2, 4 and 8, and the
    conductor's own cross-section in whole kcmil, rounded down; 0 or none stands for a solid round wire of the line's diameter."""
    numbers = [number for entry in licence for number in (*entry, 0)[:3]]
    answers = _numbers("release", 8, LINES, _bytes(sheet), _array(ctypes.c_uint32, numbers))
    return [Release(station, decision == 1, *rest) for station, decision, *rest in answers]


def fewest(sheet: bytes, side: int) -> Fewest:
    """The fewest lines for a square yard of this side in mm, all else as in the one value line of the sheet."""
    array = (ctypes.c_int64 * 3)()
    _array(ctypes.c_uint32, [side])
    found = _ask("fewest", _bytes(sheet), ctypes.c_uint32(side), _slice(array))
    return Fewest(found == 1, *array)


def soil(readings: Sequence[Tuple[int, int]]) -> Soil:
    """The soil from readings of a distance in mm and a resistance in milliohms."""
    numbers = [number for reading in readings for number in reading]
    array = (ctypes.c_int64 * 7)()
    _ask("soil", _array(ctypes.c_uint32, numbers), _slice(array))
    return Soil(*_pairs(array[:6]), array[6])


def split(parts: Sequence[Tuple[int, int]]) -> Split:
    """The split from a staged test: in-phase and quadrature part in mA of the injected current, then of each branch."""
    numbers = [number for part in parts for number in part]
    array = (ctypes.c_int64 * 3)()
    _ask("split", _array(ctypes.c_int64, numbers), _slice(array))
    return Split(*array)


def _carried(name: str, sheet: bytes) -> bytes:
    buffer = (ctypes.c_uint8 * SHEET_BYTES)()
    count = _ask(name, _bytes(sheet), _slice(buffer))
    return bytes(buffer[:count])


def carry(sheet: bytes) -> bytes:
    """A sheet of the former 18 names as one of today's 22."""
    return _carried("carry", sheet)


def carry_back(sheet: bytes) -> bytes:
    """A sheet of today's 22 names as one of the former 18."""
    return _carried("carry_back", sheet)
