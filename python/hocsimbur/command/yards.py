"""The command fewest: the fewest conductors and rods for a square yard, and the yards that were tried for it."""
from __future__ import annotations

import argparse
from typing import Dict, List, Optional, Tuple

from .. import core
from ..portfolio.compared import margin
from ..portfolio.lines import Line, gather
from ..sheets import layout
from ..sheets.amounts import length
from ..sheets.decimals import NO_BREAK, exact
from ..sheets.names import BY_NAME
from ..sheets.words import Asked, refusal, verdict
from .output import HELD, WELL, read, show
from .refusing import ask, clear
from .stopped import Stopped
from .terminal import aligned, commas

Case = Dict[str, int]
RODS = tuple(range(0, 41, 4))  # counts of rods that are tried with each count of conductors
LIST_HEAD = ("conductors", "spacing", "rods", "verdict", "nearest limit")
LIST_NAMES = ("lines", "space_mm", "rods", "verdict", "mesh_excess_per_mille", "step_excess_per_mille")
VERDICT = LIST_HEAD.index("verdict")


def _one_line(arguments: argparse.Namespace) -> bytes:
    """The sheet with the one line that a station and a season choose, and with another length of rods; itself where nothing is chosen."""
    sheet, station, season = read(arguments.file), arguments.station, arguments.season
    if station is None and season is None and arguments.rodlen is None:
        return sheet
    if station is None and season is None:
        _read_alone(sheet, arguments.file)
    else:
        ask(lambda: core.rows(sheet), Asked(sheet), arguments.file)
    chosen = [case for case in layout.cases(sheet) if station in (None, case["station"]) and season in (None, case["season"])]
    if not chosen:
        raise Stopped([f"the sheet has no line for {_chosen(station, season)}"], of=arguments.file)
    if arguments.rodlen is not None:
        rodlen = clear("rodlen", length, arguments.rodlen)
        chosen = [dict(case, rodlen=rodlen) for case in chosen]
    return layout.text(chosen)


def _read_alone(sheet: bytes, of: str) -> None:
    """That a sheet has one line of values, whatever they are: the refusals of a search that are not of its form come later."""
    try:
        core.fewest(sheet, 0)
    except core.Refused as refused:
        if refused.number <= 4:
            raise Stopped([refusal(refused, Asked(sheet, most_lines=1))], f"refused,{refused.number},{refused.line},{refused.column}\n", of) from None


def _chosen(station: Optional[int], season: Optional[int]) -> str:
    said = [f"{called} {number}" for called, number in (("station", station), ("season", season)) if number is not None]
    return ", ".join(said)


def said(found: core.Fewest, side: int) -> str:
    """The answer for a side in mm, in words."""
    if found.found:
        spacing = f"{exact(side // (found.lines - 1), 3)} m"
        rods = f"{found.rods} rods at the perimeter" if found.rods else "no rods"
        return f"{found.lines} conductors each way, {spacing} apart, and {rods}; {found.tried} yard{'s' if found.tried > 1 else ''} tried"
    if found.tried:
        return f"none of the {found.tried} yards tried is safe"
    return f"no yard was tried: no count of conductors from 2 to 25 parts {exact(side, 3)} m into whole mm from 2.5 to 30 m"


def tried(case: Case, side: int, count: int) -> List[Case]:
    """The yards of a side in mm that were tried, as many as the library says, in its order: conductors rising, with each count rods
    rising."""
    space, made = BY_NAME["space"], []
    for lines in range(BY_NAME["across"].low, BY_NAME["across"].high + 1):
        if side % (lines - 1) or not space.low <= side // (lines - 1) <= space.high:
            continue
        yard = dict(case, across=lines, along=lines, space=side // (lines - 1))
        made += [dict(yard, rods=rods, place=1) if rods else dict(yard, rods=0, rodlen=0, place=0) for rods in RODS]
    return made[:count]


def answered(cases: List[Case]) -> List[Line]:
    """What the library answers of each yard, asked under a station of its own."""
    found: List[Line] = []
    for first in range(0, len(cases), core.LINES):
        part = [dict(case, station=number, season=1) for number, case in enumerate(cases[first:first + core.LINES], 1)]
        found += gather(layout.text(part))
    return found


def listed(line: Line) -> Tuple[str, ...]:
    """A yard that was tried, in words, under LIST_HEAD."""
    near = line.nearest
    said = f"{margin(near)} {near.limit}"
    return (str(line.case["across"]), f"{exact(line.case['space'], 3)} m", str(line.case["rods"]), verdict(line.row.verdict),
            said.replace(NO_BREAK, " "))


def _listing(case: Case, side: int, found: core.Fewest, machine: bool) -> str:
    """The yards that were tried; '' where none was."""
    lines = answered(tried(case, side, found.tried))
    if machine:
        return commas(LIST_NAMES, [(line.case["across"], line.case["space"], line.case["rods"], verdict(line.row.verdict), line.margins.mesh,
                                    line.margins.step) for line in lines])
    return aligned(LIST_HEAD, [listed(line) for line in lines], left=(VERDICT, VERDICT + 1), painted=VERDICT) if lines else ""


def fewest(arguments: argparse.Namespace) -> int:
    side = clear("side", length, arguments.side)
    if not 0 <= side < 2 ** 32:
        raise Stopped([f"side: {arguments.side} is not in 2.5..720 m"])
    sheet = _one_line(arguments)
    found = ask(lambda: core.fewest(sheet, side), Asked(sheet, most_lines=1, side=side), arguments.file)
    if arguments.list:
        listing = _listing(layout.cases(sheet)[0], side, found, arguments.csv)
        show(listing if arguments.csv else f"{listing}{said(found, side)}\n")
    elif arguments.csv:
        show(f"found,{found.lines},{found.rods},{found.tried}\n" if found.found else f"none,{found.tried}\n")
    else:
        show(said(found, side) + "\n")
    return WELL if found.found else HELD
