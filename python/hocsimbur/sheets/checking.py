"""Every refusal of files that can be reported at once: of each file as a whole, of every wrong cell of every line, and of lines that
stand twice.

The library is asked about whole stations, and where it refuses one about each line by itself.
A cell that it refuses is reported and put right, and the line asked again, until nothing more is wrong with it."""
from __future__ import annotations

from typing import Dict, List, NamedTuple, Optional, Sequence, Set, Tuple

from .. import core
from . import layout
from .files import File, Given, Lines, Place, given, head_refused
from .forms import foreign
from .names import BY_NAME
from .words import Asked, refusal

OF_SHEET = (core.Refusal.TEXT, core.Refusal.NAME, core.Refusal.LINES)  # refusals of a whole file
MOST = 1000  # refusals after which no further line is asked about
TOGETHER = (("layer", "thick"), ("rods", "rodlen", "place"))  # columns that are all 0 or all not 0


class Found(NamedTuple):
    """A refusal: its file, its number, the line and column of the file, and the sentence."""

    file: str
    number: int
    line: int
    column: int
    said: str


def _of_sheet(one: Found) -> bool:
    """Whether a refusal is of the file as a whole, and not of a line of it, which may be too long by itself."""
    return one.number in OF_SHEET and not (one.number == core.Refusal.TEXT and one.line > 1)


def _good(name: str, names: Sequence[str], fields: Sequence[str]) -> str:
    """A value that the library takes in a column, for the sake of the other cells of the line: 0 where its companions are 0."""
    for together in TOGETHER:
        if name in together:
            others = [fields[names.index(one)] for one in together if one != name and names.index(one) < len(fields)]
            return "0" if others and all(one == "0" for one in others) else str(max(1, BY_NAME[name].low))
    return str(BY_NAME[name].low)


def _mended(names: Sequence[str], fields: List[str], refused: core.Refused) -> Set[str]:
    """Puts right what the library refuses of a line, and says which columns that changed; none where the count of fields is wrong."""
    if refused.column > min(len(names), len(fields)):
        return set()
    name = names[refused.column - 1]
    if refused.number in (core.Refusal.FORM, core.Refusal.RANGE):
        fields[refused.column - 1] = _good(name, names, fields)
        return {name}
    if refused.number == core.Refusal.PARTS:
        changed = next(together for together in TOGETHER if name in together)
        for one in changed:
            fields[names.index(one)] = "0"
        return set(changed)
    return set()


def _of_line(names: bytes, line: bytes, numbers: Sequence[int], file: str) -> Tuple[List[Found], Optional[bytes]]:
    """What is refused of a line by itself, cell by cell, and the line with these put right where its station and season stayed."""
    named, fields = layout.cells(names), line.decode("utf-8", "surrogateescape").split(",")
    found: List[Found] = []
    changed: Set[str] = set()
    while len(found) <= len(named):
        text = ",".join(fields).encode("utf-8", "surrogateescape")
        sheet = names + b"\n" + text + b"\n"
        try:
            core.count(sheet)
            return found, None if {"station", "season"} & changed else text
        except core.Refused as refused:
            if refused.number == core.Refusal.TEXT:
                said = f"line {numbers[1]}: the line is too long for a sheet of {core.SHEET_BYTES} bytes"
                return [*found, Found(file, refused.number, numbers[1], 0, said)], None
            said = refusal(refused, Asked(sheet, line_numbers=numbers))
            found.append(Found(file, refused.number, numbers[1], refused.column, said))
            mended = _mended(named, fields, refused)
            if not mended:
                break
            changed |= mended
    return found, None


def _repeated(lines: Lines, right: Dict[int, bytes], places: Dict[int, Place]) -> List[Found]:
    """The lines whose station and season stand in an earlier one, where each of the lines is right by itself."""
    found: List[Found] = []
    kept: List[int] = []
    waiting = sorted(right)
    while waiting and len(found) < MOST:
        asked = kept + waiting[:core.LINES - len(kept)]
        waiting = waiting[core.LINES - len(kept):]
        while True:
            sheet = lines.names + b"\n" + b"".join([right[line] + b"\n" for line in asked])
            try:
                core.count(sheet)
                break
            except core.Refused as refused:
                if refused.number != core.Refusal.REPEATED:
                    break
                at = asked.pop(refused.line - 2)
                said = refusal(refused, Asked(sheet, places=[places[line] for line in [*asked[:refused.line - 2], at]]))
                found.append(Found(places[at].file, refused.number, places[at].line, 0, said))
        kept = asked
    return found


def _whole(file: File, refused: core.Refused, numbers: Optional[Sequence[int]]) -> Found:
    """A refusal of a whole file."""
    asked = Asked(file.data, line_numbers=numbers)
    return Found(file.name, refused.number, asked.number(refused.line), refused.column, refusal(refused, asked))


def _closed(data: bytes) -> bytes:
    """A text whose last line ends, so that its lines can be asked about."""
    return data if data.endswith(b"\n") else data + b"\n"


def check(files: Given, numbers: Optional[Sequence[int]] = None) -> List[Found]:
    """The refusals of files by line; none where all of them are accepted.

    `numbers` has, for one file, the lines of another file from which its lines came, the line of names first."""
    found: List[Found] = []
    asked: List[File] = []
    for file in given(files):
        refused = head_refused(file.data)
        if refused:
            found.append(_whole(file, refused, numbers))
            if refused.number != core.Refusal.TEXT or foreign(file.data) or not file.data:
                continue
            names = head_refused(_closed(file.data))
            if names:
                found.append(_whole(File(file.name, _closed(file.data)), names, numbers))
                continue
        asked.append(File(file.name, _closed(file.data)))
    if asked:
        found += _of_lines(Lines(asked), numbers)
    order = {file.name: place for place, file in enumerate(given(files))}
    return sorted(found, key=lambda one: (order[one.file], not _of_sheet(one), one.line))


def _of_lines(lines: Lines, numbers: Optional[Sequence[int]]) -> List[Found]:
    """The refusals of lines whose files are accepted as a whole."""
    found: List[Found] = []
    stations = {of_one[0]: of_one for of_one in lines.by_station().values()}
    for batch in lines.batches():
        if len(found) >= MOST:
            break
        try:
            core.count(batch.sheet)
            continue
        except core.Refused:
            pass
        right: Dict[int, bytes] = {}
        places: Dict[int, Place] = {}
        for line in [line for first in batch.lines if first in stations for line in stations[first]]:
            if len(found) >= MOST:
                break
            place, (names, text) = lines.place(line), lines.own(line)
            places[line] = Place(place.file, numbers[place.line - 1] if numbers else place.line)
            of_line, mended = _of_line(names, text, [numbers[0] if numbers else 1, places[line].line], place.file)
            found += of_line
            if mended is not None:
                right[line] = lines.under_names(names, mended)
        found += _repeated(lines, right, places)
    return found


def conclusion(found: Sequence[Found]) -> str:
    """How much is refused, after the sentences."""
    lines = len({(one.file, one.line) for one in found if one.number not in OF_SHEET})
    files = len({one.file for one in found if one.number in OF_SHEET})
    counted = f"{lines} line{'s' if lines > 1 else ''}"
    if len(found) >= MOST:
        return f"these are the first {len(found)} refusals, there may be more; nothing was computed"
    if not files:
        return f"{counted} {'are' if lines > 1 else 'is'} refused; nothing was computed"
    told = "the sheet is" if files == 1 else f"{files} sheets are"
    return f"{told} refused{f', and {counted}' if lines else ''}; nothing was computed"
