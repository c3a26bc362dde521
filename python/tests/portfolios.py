"""Portfolios for the tests: the example with its licence, and sheets of single lines made from it."""
from __future__ import annotations

from typing import Dict, List, Optional, Sequence

from hocsimbur import core
from hocsimbur.portfolio import advice, decision, licence
from hocsimbur.report import document
from hocsimbur.sheets import layout
from hocsimbur.sheets.files import File

from .common import ROOT

SHEET = (ROOT / "examples" / "portfolio.csv").read_bytes()
LICENCE_TEXT = (ROOT / "examples" / "licence.csv").read_bytes()
LICENCE = licence.read(LICENCE_TEXT)
CASES = layout.cases(SHEET)

Case = Dict[str, int]


def case(of_station: int = 101, of_season: int = 1, /, **values: int) -> Case:
    """A line of the example with other values."""
    found = next(one for one in CASES if (one["station"], one["season"]) == (of_station, of_season))
    return dict(found, **values)


def granted(station: int, seasons: Sequence[int], name: str = "") -> licence.Licence:
    """A licence of one station."""
    return licence.Licence((licence.Licensed(station, name, tuple(seasons)),))


def station(cases: Sequence[Case], seasons: Optional[Sequence[int]] = None) -> decision.Station:
    """The one station of some lines, licensed for the seasons that they have or for others."""
    asked = seasons or sorted(one["season"] for one in cases)
    return decision.portfolio(layout.text(list(cases)), granted(cases[0]["station"], asked)).stations[0]


def verdicts(cases: Sequence[Case]) -> List[core.Verdict]:
    """The verdicts of lines as a sheet of their own answers them."""
    return [row.verdict for row in core.rows(layout.text(list(cases)))]


def changes(sheet: bytes, number: int, licence_: Optional[licence.Licence] = None) -> List[advice.Change]:
    """What to change of one station; without a licence, or where it does not name it, it is asked in all four seasons."""
    named = next((one for one in licence_.stations if one.station == number), None) if licence_ else None
    return advice.changes(decision.portfolio(sheet, licence.Licence((named or licence.unlicensed(number),))).stations[0])


def rendered(sheet: bytes, name: str, licence_: Optional[licence.Licence], date: str, **options: object) -> str:
    """The report of one sheet."""
    portfolio = decision.portfolio(sheet, licence_)
    found = {one.station: advice.changes(one) for one in portfolio.stations if not one.released}
    return document.render(portfolio, [File(name, sheet)], document.Options(date, **options), found)
