"""The commands release, report and next: which stations of a licence may be released, why others are held, and what to change."""
from __future__ import annotations

import argparse
import os
import sys
from typing import Callable, Iterable, List, NamedTuple, Optional, Sequence, Tuple, TypeVar

from .. import core
from ..portfolio import advice, decision, licence, reasons
from ..portfolio.compared import rises_above
from ..sheets import files, spreadsheet
from ..sheets.decimals import grouped
from .inputs import Inputs, gathered, named, refused, rise_limit
from .output import HELD, WELL, Failed, read, show, tell, write
from .progress import watched
from .stopped import Stopped
from .terminal import commas, paint

NEXT_NAMES = ("station", "change", "kind", "season", "name", "value")
RELEASE_NAMES = ("station", "decision", "missing", "unsafe", "undecided", "other_yard", "small_wire", "fault_A", "wire_A",
                 "stranded_caution", "few_rods_caution")
MOST_PAGES = 1000  # stations of a report that a browser opens within two seconds

Answer = TypeVar("Answer")


class Asked(NamedTuple):
    """What release, report and next are asked: the files, the licence or the seasons in place of one, and a limit of the potential rise."""

    inputs: Inputs
    licence: Optional[licence.Licence]
    seasons: Tuple[int, ...]
    limit: Optional[int]  # mV


def _asked(arguments: argparse.Namespace) -> Asked:
    granted = None
    if arguments.licence:
        if arguments.seasons:
            raise Failed("give either --licence or --seasons: a licence names the seasons of each station itself")
        try:
            granted = licence.read(read(arguments.licence))
            for said in licence.wires(granted):
                tell(f"note: {said}")
        except licence.LicenceRefused as error:
            raise Stopped([str(error)], of=arguments.licence) from None
        except spreadsheet.Unreadable as error:
            raise Failed(f"{arguments.licence}: {error}") from None
    try:
        seasons = licence.seasons(arguments.seasons) if arguments.seasons else licence.ALL_SEASONS
    except ValueError as error:
        raise Stopped([f"seasons: {error}"]) from None
    return Asked(gathered(arguments), granted, seasons, rise_limit(arguments))


def _answered(arguments: argparse.Namespace, asked: Asked,
              made: Callable[[decision.Station], Answer]) -> Tuple[List[Answer], Tuple[int, ...]]:
    """What is made of each station, and the stations outside the licence; what the library refuses ends the command, in words."""
    inputs = asked.inputs

    def ask(batches: Sequence[files.Batch], question: Callable[[files.Batch], object]) -> Iterable[object]:
        return watched(files.each(batches, question), len(batches), "sheets")

    try:
        return decision.answered(inputs.lines, inputs.batches, asked.licence, made, ask, asked.seasons)
    except core.Refused:
        raise refused(arguments, inputs) from None


class Decided(NamedTuple):
    """What the command release says of a station."""

    name: str
    word: str
    sentence: str
    asides: List[str]
    counts: reasons.Counts
    lineless: bool


def _decided(station: decision.Station, limit: Optional[int] = None) -> Decided:
    name = f"station {station.station}" + (f" {station.name}" if station.name else "")
    asides = [f"caution: {one}" for one in reasons.cautions(station)]
    rise = reasons.rise(station, limit) if limit is not None else ""
    asides += [f"note: {rise}".replace("\u00a0", " ")] if rise else []
    return Decided(name, "RELEASED" if station.released else "HELD", reasons.sentence(station), asides, reasons.counts(station, limit),
                   not station.lines)


def _shown(stations: List[Decided]) -> str:
    """A line a station: its number and name, the decision, and why; under it cautions and notes."""
    width = max(len(one.name) for one in stations)
    lines = []
    for one in stations:
        lines.append(f"{one.name.ljust(width)}  {paint(one.word, one.word)}{' ' * (8 - len(one.word))}  {one.sentence}\n")
        lines += [f"  {aside}\n" for aside in one.asides]
    return "".join(lines)


def _numbers(station: decision.Station, limit: Optional[int], several: bool) -> Tuple[Tuple[object, ...], reasons.Counts, bool]:
    """What release says of a station for machines, with its counts, and whether it has no line."""
    answer = station.answer
    said: Tuple[object, ...] = (
        answer.station, "released" if station.released else "held", answer.missing, answer.unsafe, answer.undecided, answer.other_yard,
        answer.small_wire, answer.fault, station.wire_to, int(bool(reasons.stranded(station))), int(bool(reasons.few_rods(station))))
    if limit is not None:
        said += (len(reasons.above(station, limit)),)
    return said + (("; ".join(station.files),) if several else ()), reasons.counts(station, limit), not station.lines


def _listed(stations: Sequence[int]) -> str:
    """Stations one by one, and beyond twenty their count."""
    said = ", ".join(str(one) for one in stations[:reasons.NAMED])
    return said + (f" and {grouped(len(stations) - reasons.NAMED)} more" if len(stations) > reasons.NAMED else "")


def _notes(asked: Asked, sums: reasons.Counts, lineless: Sequence[int], others: Sequence[int]) -> None:
    """What a reader of decisions must know of the licence."""
    if asked.licence is None and sums.missing and asked.seasons == licence.ALL_SEASONS:
        tell("note: without --licence every station is asked in all four seasons; --seasons 1,2 asks others")
    if asked.licence is not None and lineless:
        if len(lineless) == len(asked.licence.stations):
            tell("note: no station of the licence stands in the files; is it the licence for them?")
        else:
            tell(f"note: {_count(len(lineless))} of the licence {'stands' if len(lineless) == 1 else 'stand'} in no file: {_listed(lineless)}")
    if others:
        tell(f"note: the licence does not name {_count(len(others))} of the files: {_listed(others)}")


def _count(stations: int) -> str:
    return f"{grouped(stations)} station{'' if stations == 1 else 's'}"


def _totals(sums: reasons.Counts, licensed: bool) -> str:
    return "".join(part for told in reasons.totals(sums, licensed) for part in told)


def release(arguments: argparse.Namespace) -> int:
    asked = _asked(arguments)
    limit, several = asked.limit, asked.inputs.several
    stations: List[int] = []
    if arguments.csv:
        found, others = _answered(arguments, asked, lambda station: _numbers(station, limit, several))
        names = RELEASE_NAMES + (("rise_above_limit",) if limit is not None else ()) + (("files",) if several else ())
        show(commas(names, [said for said, _, _ in found]))
        sums = reasons.summed(counts for _, counts, _ in found)
        stations = [said[0] for said, _, lineless in found if lineless]
    else:
        told, others = _answered(arguments, asked, lambda station: (station.station, _decided(station, limit)))
        sums = reasons.summed(one.counts for _, one in told)
        rises = f"{rises_above(sums.rises, limit)}\n" if limit is not None else ""
        show(f"{_shown([one for _, one in told])}{_totals(sums, asked.licence is not None)}\n{rises}")
        stations = [station for station, one in told if one.lineless]
    _notes(asked, sums, stations, others)
    return WELL if sums.released == sums.stations else HELD


def make_report(arguments: argparse.Namespace) -> int:
    from ..report import document
    if not arguments.output and sys.stdout and sys.stdout.isatty():
        raise Failed("the report is a page for a browser; name a file for it by -o FILE")
    asked = _asked(arguments)
    count = len(asked.licence.stations) if asked.licence else len(asked.inputs.lines.by_station())
    if count > MOST_PAGES:
        raise Failed(f"the report would have {grouped(count)} stations, at most {grouped(MOST_PAGES)} go into one file; make one report for each "
                     "part of the stations, by a licence that names them, or use `hocsimbur release`")
    stations, others = _answered(arguments, asked, lambda station: station)
    portfolio = decision.Portfolio(tuple(stations), asked.licence is not None, others, asked.seasons)
    sheets = [files.File(os.path.basename(file.name), file.data) for file in asked.inputs.lines.files]
    options = document.Options(arguments.date or document.today(), arguments.project or "", arguments.engineer or "", asked.limit)
    changes = {one.station: advice.changes(one) for one in watched(stations, len(stations), "stations") if not one.released}
    page = document.render(portfolio, sheets, options, changes)
    if arguments.output and arguments.output != "-":
        write(arguments.output, page.encode(), force=True, sources=(*named(arguments.files, quiet=True), arguments.licence))
        sums = reasons.summed(reasons.counts(one, asked.limit) for one in stations)
        tell(f"{arguments.output}: {_totals(sums, portfolio.licensed)}")
    else:
        show(page)
    return WELL if all(one.released for one in portfolio.stations) else HELD


def _cells(station: decision.Station, changes: List[advice.Change]) -> List[Tuple[object, ...]]:
    """The cells that each change sets: the station, the change's number and kind, the season, the name and the value."""
    return [(station.station, number, change.kind, line.season, name, case[name])
            for number, change in enumerate(changes, 1) for line, case in zip(station.lines, change.lines)
            for name in case if case[name] != line.case[name]]


def next_changes(arguments: argparse.Namespace) -> int:
    asked = _asked(arguments)
    wanted = arguments.station

    def made(station: decision.Station) -> Tuple[int, List[Tuple[object, ...]], str]:
        if station.released or wanted not in (None, station.station):
            return station.station, [], ""
        changes = advice.changes(station)
        if arguments.csv:
            return station.station, _cells(station, changes), "held"
        return station.station, [], _shown([_decided(station)]) + "".join(f"  {change.words}\n" for change in changes)

    found, others = _answered(arguments, asked, made)
    if wanted is not None and wanted not in [station for station, _, _ in found]:
        of = ", ".join(arguments.files)
        outside = "stands in the files, but the licence does not name it" if wanted in others else \
            "has no line in the sheet, and the licence does not name it"
        raise Stopped([f"station {wanted} {outside}"], of=of)
    held = [(cells, said) for _, cells, said in found if said]
    if arguments.csv:
        show(commas(NEXT_NAMES, [cell for cells, _ in held for cell in cells]))
    else:
        show("\n".join(said for _, said in held) if held else "nothing is held, nothing is to be changed\n")
    return HELD if held else WELL
