"""The answers to a sheet as text: for people in aligned columns with units, for machines as the proved programs print them."""
from __future__ import annotations

from dataclasses import astuple
from typing import Iterable, List, NamedTuple, Optional, Sequence, Tuple

from .. import core
from ..core import Margins, Row, Station
from ..portfolio.compared import Compared, above_rise, margin, rises_above
from ..sheets.decimals import NO_BREAK, down, grouped, up, volts
from ..sheets.files import Place
from ..sheets.words import verdict
from .terminal import aligned, commas, paint

VERDICT_NAMES = ("station", "season", "verdict", "kcmil")
ROW_NAMES = (
    "station", "season", "verdict", "size_kcmil", "grid_current_lower_uA", "grid_current_upper_uA", "factor_lower_billionths",
    "factor_upper_billionths", "tolerable_touch_lower_mV", "tolerable_touch_upper_mV", "tolerable_step_lower_mV",
    "tolerable_step_upper_mV", "mesh_lower_mV", "mesh_upper_mV", "step_lower_mV", "step_upper_mV", "resistance_lower_uohm",
    "resistance_upper_uohm", "rise_lower_mV", "rise_upper_mV",
)
MARGIN_NAMES = ("station", "season", "verdict", "mesh_excess_per_mille", "step_excess_per_mille")
SUMMARY_NAMES = ("station", "seasons", "safe", "unsafe", "undecided", "highest_mesh_season")

# the pairs of a row: what they are, their field, the power of ten of their unit, decimals shown, unit shown
_PAIRS = (
    ("grid current", "current", 6, 3, "A"),
    ("decrement factor", "factor", 9, 6, ""),
    ("tolerable touch", "tolerable_touch", 3, 3, "V"),
    ("mesh", "mesh", 3, 3, "V"),
    ("tolerable step", "tolerable_step", 3, 3, "V"),
    ("step", "step", 3, 3, "V"),
    ("resistance", "resistance", 6, 4, "Ω"),
    ("potential rise", "rise", 3, 2, "V"),
)


class Brief(NamedTuple):
    """What is listed of a row."""

    station: int
    season: int
    verdict: core.Verdict
    kcmil: int


Places = Optional[Sequence[Place]]  # of each line, where there are several files


def brief(row: Row) -> Brief:
    """What is listed of a row."""
    return Brief(row.station, row.season, row.verdict, row.kcmil)


def counted(verdicts_: Sequence[core.Verdict]) -> str:
    """How many lines have each verdict."""
    counts = ", ".join(f"{sum(one == kind for one in verdicts_)} {verdict(kind)}" for kind in core.Verdict)
    return f"{grouped(len(verdicts_))} line{'s' if len(verdicts_) > 1 else ''}: {counts}\n"


def _with_places(names: Sequence[str], lines: Iterable[Sequence[object]], places: Places) -> Tuple[List[str], List[List[object]]]:
    """Columns, and behind them the file and line where there are several files."""
    if places is None:
        return list(names), [list(line) for line in lines]
    return [*names, "file", "line"], [[*line, place.file, place.line] for line, place in zip(lines, places)]


def verdicts_csv(rows: Sequence[Brief], places: Places = None) -> str:
    return commas(*_with_places(VERDICT_NAMES, [(row.station, row.season, verdict(row.verdict), row.kcmil) for row in rows], places))


def _aligned(names: Sequence[str], lines: Iterable[Sequence[object]], places: Places) -> str:
    head, table = _with_places(names, lines, places)
    return aligned(head, [[str(cell) for cell in line] for line in table], left=(2, len(names)) if places else (2,), painted=2)


def verdicts(rows: Sequence[Brief], places: Places = None) -> str:
    lines = [(row.station, row.season, verdict(row.verdict), f"{grouped(row.kcmil)} kcmil") for row in rows]
    return _aligned(("station", "season", "verdict", "wire needed"), lines, places) + counted([row.verdict for row in rows])


def row_numbers(row: Row) -> List[object]:
    """The twenty numbers of a row."""
    pairs = (row.current, row.factor, row.tolerable_touch, row.tolerable_step, row.mesh, row.step, row.resistance, row.rise)
    return [row.station, row.season, row.verdict, row.kcmil, *(end for pair in pairs for end in pair)]


def rows_csv(numbers: Iterable[Sequence[object]], places: Places = None) -> str:
    return commas(*_with_places(ROW_NAMES, numbers, places))


def compared(row: Row, margins_: Margins) -> Tuple[Compared, Compared]:
    """Mesh against tolerable touch, then step against tolerable step."""
    return (Compared("touch", row.mesh, row.tolerable_touch, margins_.mesh), Compared("step", row.step, row.tolerable_step, margins_.step))


def _margin(one: Compared) -> str:
    return margin(one).replace(NO_BREAK, " ")


def _volts(one: Compared) -> Tuple[str, str]:
    """The upper end of a voltage and the lower end of what is tolerable, in V."""
    return up(one.voltage.upper, 3, 1), down(one.tolerable.lower, 3, 1)


def block(row: Row, margins_: Margins, place: Optional[Place] = None) -> str:
    """A row for people: its pairs under each other, each rounded outward."""
    touch, step = compared(row, margins_)
    lines = []
    for called, field, scale, places, unit in _PAIRS:
        pair = getattr(row, field)
        told = _margin(touch if called == "mesh" else step) if called in ("mesh", "step") else ""
        lines.append((called, down(pair.lower, scale, places), up(pair.upper, scale, places), unit, told))
    word = verdict(row.verdict)
    at = f" ({place.file}, line {place.line})" if place else ""
    head = f"station {row.station}, season {row.season}: {paint(word, word)}; {grouped(row.kcmil)} kcmil needed{at}\n"
    return head + aligned(("", "lower", "upper", "", ""), lines, left=(0, 3, 4))


class Margin(NamedTuple):
    """What is listed of the margins of a row."""

    station: int
    season: int
    verdict: core.Verdict
    mesh: int                # per mille
    step: int                # per mille
    cells: Tuple[str, ...]   # voltage, limit and margin of touch, then of step
    rise: int                # upper end of the ground potential rise, mV


def margin_of(row: Row, margins_: Margins) -> Margin:
    """What is listed of the margins of a row."""
    cells = tuple(cell for one in compared(row, margins_) for cell in (_volts(one) + (_margin(one),)))
    return Margin(row.station, row.season, row.verdict, margins_.mesh, margins_.step, cells, row.rise.upper)


def margins_csv(found: Sequence[Margin], places: Places = None, limit: Optional[int] = None) -> str:
    """The margins per mille; with a limit of the potential rise in mV also its upper end, and 1 where that is above the limit."""
    lines: List[Tuple[object, ...]] = [(one.station, one.season, verdict(one.verdict), one.mesh, one.step) for one in found]
    if limit is None:
        return commas(*_with_places(MARGIN_NAMES, lines, places))
    lines = [(*line, one.rise, int(one.rise > limit)) for line, one in zip(lines, found)]
    return commas(*_with_places((*MARGIN_NAMES, "rise_upper_mV", "rise_above_limit"), lines, places))


def margins(found: Sequence[Margin], places: Places = None, limit: Optional[int] = None) -> str:
    """Worst first: by the greater of a row's two margins, rows that are alike in the order of the files."""
    order = sorted(range(len(found)), key=lambda i: -max(found[i].mesh, found[i].step))
    names = ["station", "season", "verdict", "mesh V", "touch limit V", "margin", "step V", "step limit V", "margin"]
    lines: List[Tuple[object, ...]] = []
    for one in (found[i] for i in order):
        rise = () if limit is None else (up(one.rise, 3, 1), above_rise(one.rise, limit) or "below")
        lines.append((one.station, one.season, verdict(one.verdict), *one.cells, *rise))
    names += [] if limit is None else ["potential rise V", f"of {volts(limit)}"]
    text = _aligned(names, lines, [places[i] for i in order] if places else None)
    return text + ("" if limit is None else f"{rises_above(sum(one.rise > limit for one in found), limit)}\n")


def summary_csv(stations: Sequence[Station], of_files: Optional[Sequence[str]] = None) -> str:
    if of_files is None:
        return commas(SUMMARY_NAMES, [astuple(one) for one in stations])
    return commas((*SUMMARY_NAMES, "files"), [(*astuple(one), files) for one, files in zip(stations, of_files)])


def summary(stations: Sequence[Station], of_files: Optional[Sequence[str]] = None) -> str:
    head = ["station", "seasons", "safe", "unsafe", "undecided", "highest mesh in season"]
    lines = [[str(number) for number in astuple(one)] for one in stations]
    if of_files is None:
        return aligned(head, lines)
    return aligned([*head, "files"], [[*line, files] for line, files in zip(lines, of_files)], left=(6,))
