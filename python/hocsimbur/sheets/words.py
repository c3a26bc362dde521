"""Refusals and verdicts in plain English: what is wrong, where, what is allowed and what to do.

`refusal` makes a sentence of a number, line and column that the library has answered, with what was asked."""
from __future__ import annotations

from dataclasses import dataclass
from typing import Callable, Dict, List, Optional, Sequence, Tuple

from ..core import LINES, SHEET_BYTES, Refusal, Refused, Verdict
from . import layout
from .decimals import exact, grouped
from .forms import FORMER_ONLY, cell, foreign, wrong_name, wrong_value
from .names import BY_NAME, FORMER, METALS, NAMES, Name
from .printable import printable

__all__ = ["BY_NAME", "FORMER", "METALS", "NAMES", "Asked", "Name", "refusal", "verdict"]

VERDICTS = {Verdict.SAFE: "safe", Verdict.UNSAFE: "unsafe", Verdict.UNDECIDED: "undecided"}
CODES = ("place", "metal")  # columns whose numbers stand for something
OWN_FAULT = "the library was lent too little room; that is a mistake in this package, please report it"


def verdict(answered: Verdict) -> str:
    """The word of a verdict."""
    return VERDICTS[answered]


@dataclass(frozen=True)
class Asked:
    """What the library was asked when it refused, as far as the question has it."""

    sheet: bytes = b""
    former: bool = False                           # a sheet of the former 18 names
    most_lines: int = LINES
    line_numbers: Optional[Sequence[int]] = None   # the lines of the file from which each line of the sheet came
    places: Optional[Sequence[Tuple[str, int]]] = None  # the files and lines from which the value lines of the sheet came
    side: int = 0                                  # mm
    readings: Sequence[Tuple[int, int]] = ()       # mm, milliohms
    parts: Sequence[Tuple[int, int]] = ()          # mA
    licence: Sequence[Tuple[int, int]] = ()

    @property
    def form(self) -> List[str]:
        """The names that the sheet must have."""
        return FORMER if self.former else [name.name for name in NAMES]

    def cells(self, line: int) -> List[str]:
        """The fields of a line of the sheet, counted from 1."""
        found = layout.lines(self.sheet)
        return layout.cells(found[line - 1]) if line <= len(found) else []

    def value(self, line: int, name: str) -> str:
        """The value of a name in a line that has the right form."""
        return self.cells(line)[self.cells(1).index(name)]

    def number(self, line: int) -> int:
        """The line of the file from which a line of the sheet came; itself where there is no such line."""
        if self.places and line > 1:
            return self.places[line - 2][1]
        return self.line_numbers[line - 1] if self.line_numbers and 1 <= line <= len(self.line_numbers) else line

    def beside(self, line: int, other: int) -> str:
        """A line in words next to another one: with its file, where that is another."""
        if not self.places:
            return self.place(line)
        file, number = self.places[line - 2]
        return f"line {number}" + (f" of {file}" if file != self.places[other - 2][0] else "")

    def place(self, line: int, name: str = "") -> str:
        """A line, or a cell of it, in words."""
        return f"line {self.number(line)}" + (f", {cell(name, self.cells(1).index(name) + 1)}" if name else "")


def _text(refused: Refused, asked: Asked) -> str:
    if not asked.sheet:
        return "the sheet is empty; it needs a line of names and a line of values"
    told = foreign(asked.sheet)
    if told:
        return told
    if len(asked.sheet) > SHEET_BYTES:
        return f"the sheet has {grouped(len(asked.sheet))} bytes, at most {grouped(SHEET_BYTES)} are allowed; part it into several"
    return f"{asked.place(len(layout.lines(asked.sheet)))}: the last line has no line end (byte 10); add one, or use `hocsimbur import`"


def _name(refused: Refused, asked: Asked) -> str:
    told = foreign(asked.sheet)
    where, said = ("line 1", told) if told else wrong_name(asked.cells(1), asked.number(1), refused.column, asked.form)
    return f"{where}: {said}"


def _form(refused: Refused, asked: Asked) -> str:
    where, said = wrong_value(asked.cells(1), asked.cells(refused.line), asked.number(refused.line), refused.column)
    return f"{where}: {said}"


def _lines(refused: Refused, asked: Asked) -> str:
    count = len(layout.lines(asked.sheet)) - 1
    if count < 1:
        return "line 2: the sheet has names but no line of values"
    if asked.most_lines == 1:
        return f"line 3: the sheet has {count} lines of values, and only one is taken here; choose it by --station and --season"
    return f"{asked.place(refused.line)}: the sheet has {grouped(count)} lines of values, at most {LINES} are allowed; part it into several"


def _in_sheet(refused: Refused, asked: Asked) -> Tuple[int, str]:
    """The line of a refused value in the sheet and its name. A case asked alone is refused with line 0 and the place in the table of names."""
    if refused.line == 0:
        return 2, asked.form[refused.column - 1]
    return refused.line, asked.cells(1)[refused.column - 1]


def _range(refused: Refused, asked: Asked) -> str:
    line, name = _in_sheet(refused, asked)
    value = asked.value(line, name)
    own = BY_NAME.get(name)
    unit, allowed = (own.unit, own.allowed) if own else FORMER_ONLY[name]
    meant = f" ({own.meaning})" if name in CODES else ""
    return f"{asked.place(line, name)}: {value}{' ' + unit if unit else ''} is not {'' if own and own.only else 'in '}{allowed}{meant}"


def _parts(refused: Refused, asked: Asked) -> str:
    line, name = _in_sheet(refused, asked)
    if name == "layer":
        layer, thick = asked.value(line, "layer"), asked.value(line, "thick")
        return (f"{asked.place(line, 'layer')}: layer and thick are both 0 (bare soil) or both not 0; "
                f"here layer is {layer} Ω·m and thick is {thick} mm")
    rods, length, place = (asked.value(line, name) for name in ("rods", "rodlen", "place"))
    return (f"{asked.place(line, 'rods')}: rods, rodlen and place are all 0 (no rods) or all not 0; "
            f"here rods is {rods}, rodlen is {length} mm and place is {place}")


def _repeated(refused: Refused, asked: Asked) -> str:
    def key(line: int) -> Tuple[str, str]:
        return asked.value(line, "station"), asked.value(line, "season")
    station, season = key(refused.line)
    earlier = next(line for line in range(2, refused.line) if key(line) == (station, season))
    return (f"{asked.place(refused.line)}: station {station}, season {season} stands already in {asked.beside(earlier, refused.line)}; "
            "a station has one line for a season")


def _times(refused: Refused, asked: Asked) -> str:
    times = [asked.value(refused.line, name) for name in ("shock", "clear", "wire")]
    return (f"{asked.place(refused.line)}: shock, clear and wire are {times[0]}, {times[1]} and {times[2]} ms; "
            "the former sheet has one time for all three")


def _counts(refused: Refused, asked: Asked) -> str:
    across, along = (asked.value(refused.line, name) for name in ("across", "along"))
    return f"{asked.place(refused.line)}: across is {across} and along is {along}; the former sheet has one count for both"


def _hertz(refused: Refused, asked: Asked) -> str:
    return f"{asked.place(refused.line, 'hz')}: {asked.value(refused.line, 'hz')} Hz; the former sheet is for 60 Hz alone"


def _readings(refused: Refused, asked: Asked) -> str:
    count = len(asked.readings)
    return "there is no reading" if not count else f"there are {count} readings, at most 64 are allowed"


def _distance(refused: Refused, asked: Asked) -> str:
    return f"reading {refused.line}, distance: {exact(asked.readings[refused.line - 1][0], 3)} m is not in 0.5..50 m"


def _resistance(refused: Refused, asked: Asked) -> str:
    return f"reading {refused.line}, resistance: {exact(asked.readings[refused.line - 1][1], 3)} Ω is not in 0.001..1,000 Ω"


def _side(refused: Refused, asked: Asked) -> str:
    return f"side: {exact(asked.side, 3)} m is not in 2.5..720 m"


def _no_rodlen(refused: Refused, asked: Asked) -> str:
    return f"{asked.place(2, 'rodlen')}: the length of a rod is 0 mm, and yards with rods are tried too; give their length, as --rodlen 3m"


def _test(refused: Refused, asked: Asked) -> str:
    return f"there are {max(0, len(asked.parts) - 1)} branches; the injected current and 1 to 16 branches are needed"


def _part(refused: Refused, asked: Asked) -> str:
    for place, parts in enumerate(asked.parts):
        for part, called in zip(parts, ("in-phase", "quadrature")):
            if abs(part) > 1_000_000:
                where = f"branch {place}" if place else "injected"
                return f"{where}, {called} part: {exact(part, 3)} A is not in −1,000..1,000 A; the split is the same for scaled currents"
    return "a part is not in −1,000..1,000 A"


def _no_current(refused: Refused, asked: Asked) -> str:
    return "the injected current is 0 in both parts; nothing was injected, so there is no split"


def _licence(refused: Refused, asked: Asked) -> str:
    return f"the licence has {len(asked.licence)} stations; 1 to 256 are allowed"


def _station(refused: Refused, asked: Asked) -> str:
    station, seasons, area = (*asked.licence[refused.line - 1], 0)[:3]
    if refused.column == 3:
        return f"licence, place {refused.line}: the wire of station {station} has {area} kcmil, not 0..2000"
    if refused.column == 2:
        return f"licence, place {refused.line}: the seasons of station {station} are {seasons}, not in 1..15"
    if not 1 <= station <= 65535:
        return f"licence, place {refused.line}: station {station} is not in 1..65535"
    return f"licence, place {refused.line}: station {station} stands there already; a station stands once in a licence"


def _room(refused: Refused, asked: Asked) -> str:
    return OWN_FAULT


OWN_FAULTS = (Refusal.SHORT, Refusal.SUMMARY, Refusal.RELEASE)

_WORDS: Dict[Refusal, Callable[[Refused, Asked], str]] = {
    Refusal.TEXT: _text, Refusal.NAME: _name, Refusal.FORM: _form, Refusal.LINES: _lines, Refusal.RANGE: _range, Refusal.PARTS: _parts,
    Refusal.REPEATED: _repeated, Refusal.SHORT: _room, Refusal.TIMES: _times, Refusal.COUNTS: _counts, Refusal.HERTZ: _hertz,
    Refusal.READINGS: _readings, Refusal.DISTANCE: _distance, Refusal.RESISTANCE: _resistance, Refusal.SIDE: _side,
    Refusal.NO_RODLEN: _no_rodlen, Refusal.TEST: _test, Refusal.PART: _part, Refusal.NO_CURRENT: _no_current, Refusal.SUMMARY: _room,
    Refusal.LICENCE: _licence, Refusal.STATION: _station, Refusal.RELEASE: _room,
}


def refusal(refused: Refused, asked: Asked) -> str:
    """A refusal as a sentence."""
    return printable(_WORDS[Refusal(refused.number)](refused, asked))
