"""The pages of a report: the portfolio first, then one for each station that has a line."""
from __future__ import annotations

from dataclasses import dataclass
from html import escape
from typing import Dict, List, NamedTuple, Optional, Sequence, Tuple

from ..core import Verdict
from ..portfolio import reasons
from ..portfolio.advice import Change
from ..portfolio.compared import rises_above, share
from ..portfolio.decision import Portfolio, Station
from ..portfolio.licence import ALL_SEASONS
from ..sheets.decimals import NO_BREAK as NB
from ..sheets.decimals import grouped
from . import plan, tables
from .drawing import LIMIT, Scale, axis, badge, bar, mark, word
from .markup import bold, cell, element, group, head, row, seen, span, spoken, table

COLUMNS = 9  # of the table of stations

PROVED = (
    "Decisions, verdicts, ends, margins, sizes, fault currents and the working are answers of the proved library. "
    "What a wire of its own has in kcmil is computed here, rounded down, and decides nothing."
)


class Sheet(NamedTuple):
    """A file that a report was made of: its name and SHA-256."""

    name: str
    sha: str


@dataclass(frozen=True)
class Source:
    """What a report was made of: the files, the library's version, the date as text; and what else was asked for."""

    sheets: Tuple[Sheet, ...]
    version: str
    date: str
    project: str = ""
    engineer: str = ""
    rise_limit: Optional[int] = None  # mV

    @property
    def called(self) -> str:
        """The one file's name, or how many there are."""
        return self.sheets[0].name if len(self.sheets) == 1 else f"{len(self.sheets)} sheets"


def _season_cell(station: Station, season: int) -> str:
    line, number = station.line(season), seen(str(season), "sn")
    if line:
        said = word(line.row.verdict)
        outside = "" if season in station.seasons else ", not in the licence"
        return cell(number + mark(said) + spoken(said + outside), "s")
    if season in station.seasons:
        asked = ", the licence asks for it" if station.licensed.by_licence else ""
        return cell(number + mark("none") + spoken("no line" + asked), "s miss")
    return cell(spoken("not in the licence"), "s")


def _nearest_cell(station: Station, scale: Scale) -> str:
    said = reasons.nearest(station)
    if not station.lines:
        return cell(span(escape(said.detail), "sub"), "near")
    worst, one = station.worst, station.worst.nearest
    title = (f"Station {station.station}: nearest limit, {one.kind} voltage at {share(LIMIT + one.margin)} of tolerable "
             f"{one.limit} in season {worst.season}")
    others = [LIMIT + line.nearest.margin for line in station.lines if line is not worst]
    drawn = bar(LIMIT + one.margin, scale, f"near{station.station}", title, others)
    words = span(f"{bold(escape(said.head))} {escape(said.detail)}", "words")
    return cell(drawn + words, f"near {one.side.replace(' ', '-')}")


def _fault_cell(station: Station) -> str:
    if not station.lines:
        return cell(spoken("no line"), "num fault empty")
    unsafe = any(line.row.verdict != Verdict.SAFE for line in station.lines)
    wire = station.wire_to
    said = bold(escape(reasons.greatest(station))) + "<br>" + span(escape(reasons.now(station)), "sub")
    if wire < station.fault:
        said += "<br>" + span(f"wire only to {grouped(wire)}{NB}A", "sub red")
    return cell(said, "num fault short" if unsafe else "num fault")


def _wire_cell(station: Station) -> str:
    if not station.lines:
        return cell(spoken("no line"), "num wire empty")
    small, size = station.answer.small_wire > 0, station.size
    said = f"{bold(grouped(size.needed))} of {grouped(size.own)}<br>{span('too small' if small else 'enough', 'sub')}"
    return cell(said, "num wire small" if small else "num wire")


def _reasons_row(station: Station) -> str:
    if station.released:
        return ""
    parts = []
    for place, one in enumerate(map(reasons.told, station.reasons)):
        first = one.head[:1].upper() + one.head[1:] if place == 0 else one.head
        parts.append(bold(escape(first)) + (f": {escape(one.detail)}" if one.detail else ""))
    return row(cell(f"{spoken('Reasons: ')}{'; '.join(parts)}.", colspan=COLUMNS - 1), "why")


def _station_rows(station: Station, scale: Scale) -> str:
    """A station's row, and below it the reasons to hold it."""
    name = f"{span(str(station.station), 'no')} {span(escape(station.name), 'nm')}"
    if station.lines:
        name = element("a", name, href=f"#s{station.station}")
    titled = head(name, "row", rowspan=1 if station.released else 2)
    seasons = "".join(_season_cell(station, season) for season in ALL_SEASONS)
    shown = cell(badge(station), "dec") + seasons + _nearest_cell(station, scale) + _fault_cell(station) + _wire_cell(station)
    return group("tbody", row(titled + shown, "main") + _reasons_row(station), "st rel" if station.released else "st hold") + "\n"


def _stations(title: str, stations: List[Station], scale: Scale) -> str:
    """A group of stations under its title."""
    if not stations:
        return ""
    titled = group("tbody", row(head(f"{title} ({len(stations)})", "rowgroup", colspan=COLUMNS)), "grp")
    return titled + "\n" + "".join(_station_rows(station, scale) for station in stations)


def _table_head(scale: Scale) -> str:
    widths = '<col class="c1"><col class="c2">' + '<col class="cs">' * 4 + '<col class="c3"><col class="c4"><col class="c5">'
    names = (head("Station", "col", rowspan=2) + head("Decision", "col", rowspan=2) + head("Season", "colgroup", "sh", colspan=4)
             + head("Nearest limit" + axis(scale), "col", "axh", rowspan=2)
             + head("Greatest fault current still safe", "col", "num", rowspan=2)
             + head("Wire needed of own, kcmil", "col", "num", rowspan=2))
    seasons = "".join(head(str(season), "col", "s") for season in ALL_SEASONS)
    return element("colgroup", widths) + group("thead", row(names) + row(seasons)) + "\n"


def _totals(portfolio: Portfolio, limit: Optional[int]) -> str:
    colours = ("", "green", "red", "")
    sums = reasons.summed(reasons.counts(station, limit) for station in portfolio.stations)
    said = "".join((bold(escape(one.head), colour) if one.head else "") + escape(one.detail)
                   for one, colour in zip(reasons.totals(sums, portfolio.licensed), colours))
    notes = reasons.notes(portfolio) + ([rises_above(sums.rises, limit) + "."] if limit is not None else [])
    return element("p", said + "".join(f" {escape(note)}" for note in notes), "totals") + "\n"


def _key(scale: Scale, licensed: bool) -> str:
    """What the marks and the columns of the first page say."""
    marks = [("safe", "safe"), ("unsafe", "unsafe"), ("undecided", "undecided: the ends do not part voltage and limit"),
             ("none", "no line, though the licence asks for the season" if licensed else "no line")]
    shown = [span(f"{mark(kind)} {said}") for kind, said in marks] + ([span("blank: not in the licence")] if licensed else [])
    every = "every season of its licence" if licensed else "every season"
    cut = f"; a bar that is cut goes beyond {scale.top // 10}{NB}%" if scale.cuts else ""
    said = (f"A station is released only if {every} has a line, every line of it is safe, the lines agree on the yard, and the wire is "
            f"large enough. Bars end at the season nearest its limit, white ticks are the other seasons, and one scale holds for the "
            f"whole report{cut}. The greatest fault current is that of the voltages, all else equal; “at most” where a season has no "
            f"line. Own wire is a solid round of the sheet’s diameter; a stranded one has less.")
    return element("div", element("p", " ".join(shown)) + element("p", said), "key") + "\n"


def _foot(source: Source, first: str = "", last: str = "", below: str = "") -> str:
    sheets = [f"{span(escape(one.name))} {span('SHA-256 ' + element('code', one.sha, 'full'))}" for one in source.sheets]
    shown = sheets[0] if len(sheets) == 1 else span(f"{len(sheets)} sheets, listed on the first page")
    named = f"{span(escape(source.project))} " if source.project else ""
    said = f"{first}{named}{shown} {span('Hocsimbur ' + escape(source.version))} {span(escape(source.date))}{last}"
    return element("footer", element("p", said) + below, "foot")


def _sheets(source: Source) -> str:
    """The files and their SHA-256 on the first page, where there are several."""
    if len(source.sheets) == 1:
        return ""
    listed = "".join(element("li", f"{escape(one.name)} {element('code', one.sha, 'full')}") for one in source.sheets)
    return element("p", "Sheets, each with its SHA-256:") + element("ol", listed, "sheets")


def _meta(source: Source) -> str:
    """What the report was made of, at the head of the first page."""
    one = len(source.sheets) == 1
    said = [("Project", escape(source.project)), ("Date", escape(source.date)), ("Sheet" if one else "Sheets", escape(source.called) if one else
            str(len(source.sheets))), ("SHA-256", element("code", source.sheets[0].sha[:12]) if one else ""),
            ("Library", f"Hocsimbur {escape(source.version)}"), ("Engineer", escape(source.engineer))]
    return element("dl", "".join(element("div", element("dt", name) + element("dd", value)) for name, value in said if value), "meta")


def _signature(source: Source) -> str:
    """A line to sign, under the engineer's name."""
    if not source.engineer:
        return ""
    return element("p", span("", "line") + span(f"{escape(source.engineer)}, date"), "sign") + "\n"


def portfolio_page(portfolio: Portfolio, source: Source, scale: Scale) -> str:
    """The first page: every station with its decision, seasons, nearest limit, headroom, wire and reasons; held ones first."""
    held, released = _parted(portfolio)
    title = element("header", element("h1", "Ground-grid verdicts", id="top") + _meta(source), "head") + "\n"
    caption = element("caption", "Decision for each station, with a mark for every season, the nearest limit, the greatest fault current "
                                 "still safe and the wire", "vh")
    stations = table("pf", caption, _table_head(scale) + _stations("Held", held, scale) + _stations("Released", released, scale)) + "\n"
    inside = title + _totals(portfolio, source.rise_limit) + stations + _key(scale, portfolio.licensed) + _signature(source) \
        + _foot(source, below=_sheets(source) + element("p", PROVED))
    return element("section", inside, "page portfolio", aria_labelledby="top") + "\n"


def _parted(portfolio: Portfolio) -> Tuple[List[Station], List[Station]]:
    """The held and the released stations, each in the licence's order."""
    stations = portfolio.stations
    return [station for station in stations if not station.released], [station for station in stations if station.released]


def _asides(station: Station, limit: Optional[int], changes: Sequence[Change]) -> str:
    """What is said under the decision, cautions, and what to change of a station that is held."""
    said = [reasons.differences(station), reasons.outside(station), *reasons.undecided(station), reasons.current(station),
            reasons.rise(station, limit) if limit is not None else "", reasons.places(station)]
    if not station.answer.small_wire:
        said.append(reasons.wire(station))
    items = [element("li", escape(one)) for one in said if one]
    items += [element("li", f"{mark('caution')}{bold('Caution:')} {escape(one)}", "caution") for one in reasons.cautions(station)]
    if changes:
        said = "".join(element("li", escape(change.words)) for change in changes)
        items.append(element("li", f"{bold('What to change:')} the least change of each kind, asked by itself of the library."
                             f"{element('ul', said)}", "next"))
    return element("ul", "".join(items), "asides") + "\n"


def station_page(station: Station, source: Source, scale: Scale, changes: Sequence[Change] = ()) -> str:
    """A station's page: the decision, bars and plan, results, inputs and working."""
    number = station.station
    first, rest = reasons.decision(station)
    title = element("h2", f"{span(str(number), 'no')} {escape(station.name)}", id=f"h{number}") + badge(station)
    decided = element("p", f"{bold(first)} {escape(rest)}", "decision rel" if station.released else "decision hold")
    top = element("div", f"{tables.bars(station, scale)}\n{plan.figure(station)}", "two top")
    low = element("div", f"{element('div', tables.inputs(station))}\n{element('div', tables.working(station))}", "two low")
    foot = _foot(source, span(f"Station {number}") + " ", " " + element("a", "All stations", "up", href="#top"))
    inside = "\n".join([element("header", title, "head"), decided, _asides(station, source.rise_limit, changes) + top, tables.results(station), low, foot])
    return element("section", inside, f"page station n{len(station.shown)}", id=f"s{number}", aria_labelledby=f"h{number}") + "\n"


def pages(portfolio: Portfolio, source: Source, scale: Scale, changes: Dict[int, List[Change]]) -> str:
    """All pages, the stations in the order of the first one; a station without a line has none of its own."""
    held, released = _parted(portfolio)
    return portfolio_page(portfolio, source, scale) + "".join(
        station_page(station, source, scale, changes.get(station.station, ())) for station in held + released if station.lines)
