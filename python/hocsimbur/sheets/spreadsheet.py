"""What spreadsheets write becomes a sheet: each kind of change is counted and reported, and no unit is guessed.

A value that may be read in two ways is refused, and one that is no whole number too, unless it is asked to be rounded with caution."""
from __future__ import annotations

import csv
import io
import re
import sys
from dataclasses import dataclass, field
from fractions import Fraction
from typing import Dict, List, NamedTuple, Optional, Sequence, Set, Tuple

from . import catalogue, rounding, units
from .amounts import shown
from .forms import cell as place_of
from .forms import missing_names, short, whole_number
from .labels import LABELS, listed
from .names import BY_NAME, FORMER, NAMES

FEW = 2  # signs between fields in a line of names, of a licence or of a sheet
KNOWN = set(BY_NAME) | set(FORMER)
_SPACES = "\u00a0\u202f\u2007\ufeff"  # spaces that spreadsheets put between thousands, and a byte-order mark


class Unreadable(Exception):
    """A workbook that cannot be read here: the message says what is missing."""


class Refusals(Exception):
    """Cells that cannot become values, each as a sentence."""

    def __init__(self, said: List[str]) -> None:
        super().__init__("; ".join(said))
        self.said = said


@dataclass
class Changes:
    """What was changed, with a count and the first example of each."""

    counts: Dict[str, int] = field(default_factory=dict)
    examples: Dict[str, str] = field(default_factory=dict)

    def add(self, what: str, example: str = "", count: int = 1) -> None:
        """One more change of a kind; `what` has {} for the count with its noun."""
        if count:
            self.counts[what] = self.counts.get(what, 0) + count
            self.examples.setdefault(what, example)

    def told(self) -> List[str]:
        """A line for each kind of change."""
        lines = []
        for what, count in self.counts.items():
            noun, _, said = what.partition(": ")
            example = f" ({self.examples[what]})" if self.examples[what] else ""
            many = noun.replace("line", "lines") if "line" in noun else noun + "s"
            lines.append(f"{count} {noun if count == 1 else many}: {said}{example}" if said else what + example)
        return lines


@dataclass(frozen=True)
class Made:
    """The sheet, the lines of the file from which its lines came, what was changed, each value that was rounded, and the names of
    stations."""

    sheet: bytes
    numbers: List[int]
    changes: Changes
    rounded: List[str]
    called: Dict[str, str]


Lines = List[Tuple[int, List[str]]]  # number in the file, cells


_MARKS = ((b"\xef\xbb\xbf", "utf-8"), (b"\xff\xfe", "utf-16-le"), (b"\xfe\xff", "utf-16-be"))


def _decoded(data: bytes, changes: Changes) -> str:
    """The text of a file."""
    for mark, encoding in _MARKS:
        if data.startswith(mark):
            changes.add("byte-order mark removed")
            changes.add("UTF-16 read as text", count=encoding != "utf-8")
            return data[len(mark):].decode(encoding, "replace")
    try:
        return data.decode("utf-8")
    except UnicodeDecodeError:
        changes.add("bytes that are no UTF-8 read as Windows-1252")
        return data.decode("cp1252", "replace")


def _ends(text: str, changes: Changes) -> str:
    """Lines that end with byte 10 alone."""
    changes.add("line: carriage return removed", count=text.count("\r\n"))
    text = text.replace("\r\n", "\n")
    changes.add("line: carriage return made the line's end", count=text.count("\r"))
    text = text.replace("\r", "\n")
    if text and not text.endswith("\n"):
        changes.add("end of the last line added")
        text += "\n"
    return text


def _sign(text: str) -> str:
    """What parts the fields of the line of names."""
    named = re.match(r"sep=(.)\n", text)
    if named:
        return named[1]
    lines = [line for line in text.split("\n") if line.strip()]
    # a title may stand above the names, and values may have decimal commas: the first line with some fields tells
    head = next((line for line in lines if max(map(line.count, ",;\t")) >= FEW), lines[0] if lines else "")
    return max(",;\t", key=head.count) if any(sign in head for sign in ",;\t") else ","


def _cells(text: str, changes: Changes) -> Tuple[Lines, str]:
    """The cells of each line that is not blank, and the sign that separates them."""
    sign = _sign(text)
    changes.add("line: quotes removed", count=sum('"' in line for line in text.split("\n")))
    reader = csv.reader(io.StringIO(text, newline=""), delimiter=sign, strict=True)
    lines: Lines = []
    try:
        for cells in reader:
            lines.append((reader.line_num, cells))
    except csv.Error as error:
        raise Refusals([f"line {reader.line_num}: {error}"]) from None
    if text.startswith("sep="):
        changes.add("first line 'sep=' removed")
        lines = lines[1:]
    called = {";": "semicolons", "\t": "tabs"}.get(sign, f"'{sign}'")
    if sign != ",":
        changes.add(f"line: {called} made commas", count=sum(len(cells) > 1 for _, cells in lines))
    return lines, sign


def _trimmed(lines: Lines, changes: Changes) -> Lines:
    """Without spaces around cells, and without blank lines."""
    kept: Lines = []
    for number, cells in lines:
        bare = [cell.strip(" \t\n" + _SPACES) for cell in cells]
        if not any(bare):
            changes.add("blank line: removed")
            continue
        for cell, one in zip(cells, bare):
            if cell != one:
                changes.add("cell: spaces around the text removed", f"line {number}, '{one}'")
        kept.append((number, bare))
    return kept


def _width(number: int, cells: List[str], width: int, changes: Changes) -> List[str]:
    """A line without the empty cells past the last name."""
    if len(cells) > width and not any(cells[width:]):
        changes.add("line: empty cells at the end removed", f"line {number}")
        return cells[:width]
    return cells


# ---- the line of names

class Column(NamedTuple):
    """A column of the file: the name of a sheet that it stands for, or '', and the unit that its head says, or ''."""

    name: str
    unit: str


LABELLED = {label.label.casefold(): name for name, label in LABELS.items()}  # names by the labels of the report
HEADS = 20              # lines, among the first of which the line of names is looked for
STATION_NAME = "name"  # a column with the names of stations, for the licence


def _column(head: str) -> Column:
    """What a head of a column says: soil, Soil, 'soil [ohm m]', 'Fault current (kA)'."""
    found = re.fullmatch(r"(.*?)\s*[\[(]\s*([^\])]*?)\s*[\])]", head)
    name, unit = (found[1], found[2]) if found else (head, "")
    lower = name.casefold()
    if lower in KNOWN or lower == STATION_NAME:
        return Column(lower, unit)
    return Column(LABELLED.get(lower, ""), unit)


def _head(lines: Lines, changes: Changes) -> Lines:
    """The lines from the line of names on: of the first HEADS the one with the most names of a sheet."""
    if not lines:
        raise Refusals(["there is no line of names"])
    first = lines[:HEADS]
    counts = [sum(_column(cell).name in KNOWN for cell in cells) for _, cells in first]
    at = counts.index(max(counts)) if max(counts) > 1 else 0
    changes.add("line above the names: left out", f"line {lines[0][0]}, '{short(' '.join(lines[0][1]).strip())}'", at)
    return lines[at:]


def _columns(number: int, heads: Sequence[str], changes: Changes) -> List[Column]:
    """The columns of a file, judged before any value is: what is missing or stands twice, and units that a column does not have."""
    columns = [_column(head) for head in heads]
    said: List[str] = []
    names = [column.name for column in columns]
    form = FORMER if {"ms", "lines"} & set(names) and not set(names) >= set(BY_NAME) else [name.name for name in NAMES]
    for place, (head, column) in enumerate(zip(heads, columns), 1):
        where = f"line {number}, {place_of(column.name, place)}"
        if column.name and names.index(column.name) < place - 1:
            said.append(f"{where}: {column.name} stands already in column {names.index(column.name) + 1}; each name stands once")
        elif column.unit and column.name in KNOWN and not units.known(column.name, column.unit):
            allowed = units.allowed(column.name)
            said.append(f"{where}: '{short(head)}' has the unit '{short(column.unit)}'; "
                        + (f"{column.name} may have {allowed}" if allowed else f"{column.name} has none"))
        elif column.name and column.name != head:
            made = f"{head} is {column.name}" + (f" in {column.unit}" if column.unit else "")
            changes.add("name: made small letters" if head.lower() == column.name else "name: read from the head of its column", made)
    missing = [name for name in form if name not in names]
    others = [(place, head) for place, (head, column) in enumerate(zip(heads, columns), 1)
              if head and column.name not in [*form, STATION_NAME]]
    if missing:
        said += _missing(number, missing, others, names, form)
    else:
        if STATION_NAME in names:
            changes.add("column: names of stations, for a licence", f"column {names.index(STATION_NAME) + 1}")
        for place, head in others:
            changes.add("column: no name of a sheet, left out", f"column {place}, '{short(head)}'")
    if said:
        raise Refusals(said)
    return [column if column.name in form or column.name == STATION_NAME else Column("", "") for column in columns]


def _missing(number: int, missing: List[str], others: List[Tuple[int, str]], names: Sequence[str], form: Sequence[str]) -> List[str]:
    """What is said of names that are not there, and of columns that may be meant for them."""
    import difflib
    said = []
    for place, head in others:
        near = difflib.get_close_matches(head.lower(), missing, 1)
        if near:
            said.append(f"line {number}, column {place}: '{short(head)}' is no name of a sheet; did you mean {near[0]}?")
        else:
            said.append(f"line {number}, column {place}: '{short(head)}' is no name of a sheet")
    return said + [f"line {number}: {missing_names([name for name in names if name in form], form)}"]


# ---- values

def exact(text: str, sign: str) -> Optional[Fraction]:
    """The one number that a text stands for; nothing where it is none; a `ValueError` says that it may be two."""
    bare = re.sub(rf"(?<=\d)[ {_SPACES}](?=\d\d\d(?!\d))", "", text)
    if re.fullmatch(r"\d{1,3}([.,])\d{3}", bare) and not (sign == "," and "." in bare):
        whole, part = re.split("[.,]", bare)
        raise ValueError(f"'{text}' may be {whole}{part} or {whole}.{part} with decimals; write it in digits alone")
    if re.fullmatch(r"\d{1,3}(,\d{3})+(\.\d*)?", bare):
        bare = bare.replace(",", "")
    elif re.fullmatch(r"\d{1,3}(\.\d{3})+(,\d*)?", bare) and (bare.count(".") > 1 or "," in bare):
        bare = bare.replace(".", "").replace(",", ".")
    elif re.fullmatch(r"\d+,\d*", bare):
        bare = bare.replace(",", ".")
    if not re.fullmatch(r"[+-]?(\d{1,30}(\.\d{0,30})?|\.\d{1,30})([eE][+-]?\d{1,2})?", bare, re.ASCII):
        return None
    return Fraction(bare[:-1] if bare.endswith(".") else bare)


class Value(NamedTuple):
    """A cell as a number of its column's unit, and how it was made: a kind of change with its example, both '' where nothing changed."""

    number: Fraction
    change: str = ""
    example: str = ""
    wire: Optional[catalogue.Wire] = None


def _value(text: str, column: Column, sign: str, hertz: Optional[int]) -> Value:
    """The number that a cell stands for; a `ValueError` says why it stands for none."""
    name = column.name
    own = whole_number(BY_NAME[name].unit if name in BY_NAME else "ms" if name == "ms" else "")
    if re.fullmatch(r"0|[1-9]\d*", text, re.ASCII) and not column.unit:
        return Value(Fraction(text))
    if name == "dia" and catalogue.key(text):
        wire = catalogue.find(text)
        if not wire:
            raise ValueError(f"'{short(text)}' is no size of the catalogue; give the diameter in tenths of a mm")
        return Value(Fraction(wire.dia), "diameter: read from the size of a stranded wire",
                     f"{text} is {wire.dia}, {shown(Fraction(wire.dia, 10))} mm with {wire.kcmil} kcmil", wire)
    found = re.fullmatch(rf"([+-]?[\d.,][\d.,{_SPACES} ]*(?:[eE][+-]?\d{{1,2}})?)\s*((?![eE][+-]?\d)[^\W\d_].*|[%‰'\"].*|)", text)
    number = exact(found[1].rstrip(" " + _SPACES), sign) if found else None
    if number is None:
        raise ValueError(f"'{short(text)}' is no number; write only digits, {own}")
    unit = found[2] or column.unit
    if not unit:
        return Value(number)
    if units.bare(unit) in units.CYCLES and name in ("shock", "clear", "wire") and not hertz:
        raise ValueError(f"'{short(text)}' is in cycles, and hz of the line is not 50 or 60")
    factor = units.factor(name, unit, hertz)
    if factor is None:
        allowed = units.allowed(name)
        raise ValueError(f"'{short(text)}' is no number; write only digits, {own}" if not allowed else
                         f"'{short(text)}' has the unit '{short(unit)}'; {name} may have {allowed}")
    unit_of = BY_NAME[name].unit if name in BY_NAME else "ms"
    change = f"value: {unit} made {unit_of}" if factor != 1 else f"value: its unit {unit} taken away" if found[2] else ""
    return Value(number * factor, change, f"{text} is {shown(number * factor)}")


def _rounded(name: str, number: Fraction, side: str) -> int:
    """A number rounded to a side."""
    return -(-number.numerator // number.denominator) if side == rounding.UP else number.numerator // number.denominator


class _Line:
    """The cells of a line of the file, made values of a sheet."""

    def __init__(self, number: int, cells: List[str], columns: Sequence[Column], sign: str, cautious: bool, noted: Set[str]) -> None:
        self.number = number
        self.cells = cells
        self.columns = columns
        self.sign = sign
        self.cautious = cautious
        self.noted = noted                  # sizes of wires of which it is said that their diameter is counted as a solid round
        self.said: Dict[int, str] = {}      # what is wrong, by column
        self.rounded: List[str] = []
        self.whole: Dict[str, int] = {}

    def _hertz(self) -> Optional[int]:
        """The line's frequency; that of the former sheet is 60."""
        for column, text in zip(self.columns, self.cells):
            if column.name == "hz":
                found = re.fullmatch(r"(50|60)(?:\.0*)?\s*(?:hz)?", text.casefold())
                return int(found[1]) if found else None
        return 60

    def values(self, changes: Changes) -> List[str]:
        """The values as texts, soil and layer before thick, since the cautious side of thick goes by them."""
        made: Dict[int, str] = {}
        hertz = self._hertz()
        places = sorted(range(len(self.cells)), key=lambda place: self.name_at(place) == "thick")
        for place in places:
            made[place] = self._cell(place, hertz, changes)
        return [made[place] for place in range(len(self.cells)) if place >= len(self.columns) or self.name_at(place) in KNOWN]

    def name_at(self, place: int) -> str:
        """The name of the column at a place, '' where it has none."""
        return self.columns[place].name if place < len(self.columns) else ""

    def _cell(self, place: int, hertz: Optional[int], changes: Changes) -> str:
        text, name = self.cells[place], self.name_at(place)
        column = self.columns[place] if place < len(self.columns) else Column("", "")
        if not text or place < len(self.columns) and name not in KNOWN:
            return text
        try:
            value = _value(text, column, self.sign, hertz)
            return self._digits(text, name, value, changes)
        except ValueError as error:
            self.said[place] = str(error)
            return "0"

    def _digits(self, text: str, name: str, value: Value, changes: Changes) -> str:
        number, where = value.number, f"line {self.number}, {name}"
        if number < 0:
            raise ValueError(f"{text} is below 0")
        whole = int(number)
        if number != whole:
            whole = self._round(text, name, number, bare=not value.change)
        digits = str(whole)
        if value.wire and value.wire.name not in self.noted:
            self.noted.add(value.wire.name)
            solid = 1000 * whole * whole // 64516
            self.rounded.append(f"note: a sheet has the diameter alone, which is counted as a solid round of {solid} kcmil; {value.wire.name} stranded has "
                                f"{value.wire.kcmil}")
        if value.change:
            changes.add(value.change, f"{where}, {value.example}")
        elif digits != text and number == whole:
            changes.add("value: written as whole digits, its size unchanged", f"{where}, {text} is {digits}")
        self.whole[name] = whole
        return digits

    def _round(self, text: str, name: str, number: Fraction, bare: bool) -> int:
        unit = BY_NAME[name].unit if name in BY_NAME else "ms" if name == "ms" else ""
        amount = f"{text} is not {whole_number(unit)}" if bare else f"{text} is {shown(number)} {unit}, not {whole_number(unit)}"
        outside = units.outside(name, number)
        if outside:
            allowed = units.allowed(name)
            raise ValueError(f"{amount}, and {outside}" + (f"; is it in another unit? {name} may have {allowed}" if allowed else ""))
        side = rounding.side(name, self.whole.get("layer", 0), self.whole.get("soil", 0))
        whole, advice = _rounded(name, number, side), rounding.advice(name)
        if side == rounding.NEITHER:
            raise ValueError(amount + (f"; {advice}" if advice else ""))
        if not self.cautious:
            raise ValueError(f"{amount}; the cautious side is {side}: write {whole}, or give --round cautious")
        amount = text if bare else f"{text}, {shown(number)}{' ' + unit if unit else ''},"
        self.rounded.append(f"line {self.number}, {name}: {amount} rounded {side} to {whole}: {rounding.DIRECTIONS[name].why}")
        return whole


def _sheet(lines: Lines, sign: str, changes: Changes, cautious: bool) -> Made:
    """The sheet of trimmed lines."""
    lines = _head(lines, changes)
    width = max(i + 1 for i, name in enumerate(lines[0][1]) if name)
    lines = [(number, _width(number, cells, width, changes)) for number, cells in lines]
    columns = _columns(*lines[0], changes)
    written, said, rounded = [[column.name for column in columns if column.name in KNOWN]], [], []
    called: Dict[str, str] = {}
    noted: Set[str] = set()
    for number, cells in lines[1:]:
        line = _Line(number, cells, columns, sign, cautious, noted)
        values = line.values(changes)
        written.append(values)
        rounded += line.rounded
        said += [f"line {number}, {place_of(line.name_at(place), place + 1)}: {what}" for place, what in sorted(line.said.items())]
        said += _call(called, line, values)
    if said:
        raise Refusals(said)
    return Made("".join(",".join(line) + "\n" for line in written).encode(), [number for number, _ in lines], changes, rounded, called)


def _call(called: Dict[str, str], line: _Line, values: Sequence[str]) -> List[str]:
    """Keeps the name of a line's station; what is said where it has another one already."""
    names = [column.name for column in line.columns]
    if STATION_NAME not in names or "station" not in line.whole or names.index(STATION_NAME) >= len(line.cells):
        return []
    station, name = str(line.whole["station"]), line.cells[names.index(STATION_NAME)]
    if called.setdefault(station, name) != name:
        return [f"line {line.number}, name (column {names.index(STATION_NAME) + 1}): station {station} is '{short(name)}' here and "
                f"'{short(called[station])}' above"]
    return []


# ---- files

def _workbook(data: bytes, worksheet: Optional[str]) -> Tuple[Lines, str]:
    """The cells of a worksheet of a workbook, the first where none is named, and what is said where there are more."""
    try:
        import openpyxl
    except ImportError:
        raise Unreadable("a file of a spreadsheet (.xlsx) is read only where the Python package openpyxl is installed, and "
                         f"{sys.executable or 'this Python'} has none; install it there, or save the file as CSV") from None
    try:
        book = openpyxl.load_workbook(io.BytesIO(data), read_only=True, data_only=True)
    except Exception as error:  # what openpyxl raises of a file that is no workbook is not one kind
        raise Refusals([f"openpyxl cannot read the workbook: {error}"]) from None
    titles = [one.title for one in book.worksheets]
    if worksheet is None:
        at = 0
    elif worksheet in titles:
        at = titles.index(worksheet)
    elif worksheet.isdigit() and 1 <= int(worksheet) <= len(titles):
        at = int(worksheet) - 1
    else:
        raise Refusals([f"the workbook has no worksheet '{short(worksheet)}'; it has {listed([repr(title) for title in titles])}"])
    chosen = book.worksheets[at]
    lines = [(number, ["" if value is None else str(value) for value in row])
             for number, row in enumerate(chosen.iter_rows(values_only=True), 1)]
    more = f"worksheet '{chosen.title}' read, {'the first' if at == 0 else f'number {at + 1}'} of {len(titles)}" if len(titles) > 1 else ""
    return lines, more


def table(data: bytes, changes: Changes, worksheet: Optional[str] = None) -> Tuple[Lines, str]:
    """The cells of what a spreadsheet wrote, text or workbook, without blank lines, and the sign that separates them."""
    if data.startswith(b"PK\x03\x04"):
        lines, more = _workbook(data, worksheet)
        changes.add(more, count=1 if more else 0)
        return _trimmed(lines, changes), ","
    if data.startswith(b"\xd0\xcf\x11\xe0"):
        raise Refusals(["this is a file of an old spreadsheet (.xls); save it as .xlsx or as CSV"])
    if worksheet is not None:
        raise Refusals(["the file is a text and has no worksheets; leave --worksheet out"])
    lines, sign = _cells(_ends(_decoded(data, changes), changes), changes)
    return _trimmed(lines, changes), sign


def make(data: bytes, cautious: bool = False, worksheet: Optional[str] = None) -> Made:
    """The sheet of what a spreadsheet wrote; `Refusals` where a cell cannot become a value.

    With `cautious` values that are no whole numbers are rounded to the cautious side of their column, where it has one."""
    changes = Changes()
    lines, sign = table(data, changes, worksheet)
    return _sheet(lines, sign, changes, cautious)
