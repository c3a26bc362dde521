"""The tables of a station's page: bars against limits, results, inputs and working, each with a column or row for every season."""
from __future__ import annotations

from html import escape
from typing import Callable, List, NamedTuple, Tuple

from ..core import Pair
from ..portfolio import reasons
from ..portfolio.decision import Station
from ..portfolio.compared import ABOVE, BELOW, OVERLAPS, Compared, margin, share
from ..portfolio.lines import YARD, Line
from ..sheets import decimals, labels
from ..sheets.decimals import NO_BREAK as NB
from ..sheets.names import METALS
from .drawing import LIMIT, Scale, axis, bar, between, mark, no_bar, word
from .markup import caption, cell, element, group, head, row, seen, span, spoken, table

_ICONS = {ABOVE: "unsafe", BELOW: "safe", OVERLAPS: "undecided"}
_NO_LINE = seen("–") + spoken("no line")


class Quantity(NamedTuple):
    """A pair of ends to be shown: its name, unit, the pair of a line, and the decimals that it has and that are shown."""

    name: str  # HTML
    unit: str
    pair: Callable[[Line], Pair]
    scale: int
    places: int


def _symbol(letter: str, index: str, name: str) -> str:
    """A symbol as formulas print it, and its name."""
    return f"{element('i', letter + (element('sub', index) if index else ''))} {span(name, 'sub')}"


RESULTS = (
    Quantity("Mesh voltage", "V", lambda line: line.row.mesh, 3, 3),
    Quantity("Tolerable touch", "V", lambda line: line.row.tolerable_touch, 3, 3),
    Quantity("Step voltage", "V", lambda line: line.row.step, 3, 3),
    Quantity("Tolerable step", "V", lambda line: line.row.tolerable_step, 3, 3),
)

WORKING = (
    Quantity(_symbol("C", "s", "surface layer factor"), "", lambda line: line.working.cs, 9, 6),
    Quantity(_symbol("D", "f", "decrement factor"), "", lambda line: line.row.factor, 9, 6),
    Quantity(_symbol("I", "G", "grid current"), "A", lambda line: line.row.current, 6, 3),
    Quantity(_symbol("n", "", "effective conductors"), "", lambda line: line.working.n, 7, 5),
    Quantity(_symbol("K", "i", "irregularity"), "", lambda line: line.working.ki, 10, 6),
    Quantity(_symbol("K", "ii", "inner conductors"), "", lambda line: line.working.kii, 9, 6),
    Quantity(_symbol("K", "h", "depth factor"), "", lambda line: line.working.kh, 9, 6),
    Quantity(_symbol("K", "m", "mesh factor"), "", lambda line: line.working.km, 7, 6),
    Quantity(_symbol("K", "s", "step factor"), "1/m", lambda line: line.working.ks, 7, 6),
    Quantity(_symbol("L", "M", "length for mesh"), "m", lambda line: line.working.lm, 6, 3),
    Quantity(_symbol("L", "S", "length for step"), "m", lambda line: line.working.ls, 6, 3),
    Quantity(_symbol("R", "", "grid resistance"), "Ω", lambda line: line.row.resistance, 6, 4),
    Quantity(_symbol("GPR", "", "potential rise"), "V", lambda line: line.row.rise, 3, 2),
)

FORMULAS = (
    "Mesh = <i>ρ</i>·<i>K<sub>m</sub></i>·<i>K<sub>i</sub></i>·<i>I<sub>G</sub></i>/<i>L<sub>M</sub></i>. "
    "Step = <i>ρ</i>·<i>K<sub>s</sub></i>·<i>K<sub>i</sub></i>·<i>I<sub>G</sub></i>/<i>L<sub>S</sub></i>. "
    "GPR = <i>I<sub>G</sub></i>·<i>R</i>; it never decides."
)


def ends(pair: Pair, scale: int, places: int) -> str:
    """Both ends, rounded outward; one number where they are the same. A line breaks before the second end, never inside a number."""
    lower, upper = decimals.down(pair.lower, scale, places), decimals.up(pair.upper, scale, places)
    if lower == upper:
        return span(lower, "e")
    return f"{span(lower, 'e')} {span(span('to ', 'to') + upper, 'e')}"


def heads(station: Station, first: str) -> str:
    """The head of a table with a column for each season."""
    seasons = [head(span("Season ", "sw") + str(season), "col", "num") for season in station.shown]
    return group("thead", row(head(first, "col") + head("Unit", "col", "u") + "".join(seasons)))


def cells(station: Station, show: Callable[[Line], str], gone: str = _NO_LINE) -> str:
    """A cell for each season; `gone` where it has no line."""
    lines = [(season, station.line(season)) for season in station.shown]
    return "".join(cell(span(show(line) if line else gone), "num", data_l=f"Season {season}") for season, line in lines)


def _row(name: str, unit: str, values: str, kind: str = "") -> str:
    return row(head(name, "row") + cell(unit, "u") + values, kind)


def _of(station: Station, one: Quantity) -> str:
    """The row of a quantity."""
    return _row(one.name, one.unit, cells(station, lambda line: ends(one.pair(line), one.scale, one.places)))


def _bar_row(line: Line, one: Compared, scale: Scale) -> str:
    """A season's voltage against its limit: the voltage's upper end rounded up, the limit's lower end rounded down."""
    voltage, limit = decimals.up(one.voltage.upper, 3, 1), decimals.down(one.tolerable.lower, 3, 1)
    size, said = LIMIT + one.margin, margin(one)
    title = (f"Season {line.season}: {one.kind} voltage {voltage} V is {share(size)} of the tolerable {one.limit} voltage "
             f"{limit} V, {said}")
    drawn = bar(size, scale, f"bar{line.row.station}-{line.season}-{one.limit}", title)
    values = (cell(drawn, "bc") + cell(span(voltage), "num", data_l="voltage") + cell(span(limit), "num", data_l="limit")
              + cell(mark(_ICONS[one.side]) + escape(said), "bw"))
    return row(head(f"Season {line.season}", "row") + values, one.side.replace(" ", "-"))


def _gone_row(station: Station, season: int, limit: str, scale: Scale) -> str:
    """The place of a season without a line."""
    drawn = no_bar(scale, f"bar{station.station}-{season}-{limit}", f"Season {season} has no line")
    values = (cell(drawn, "bc") + cell("", "num", data_l="voltage") + cell("", "num", data_l="limit")
              + cell(mark("none") + "no line", "bw noline"))
    return row(head(f"Season {season}", "row") + values, "gone")


def bars(station: Station, scale: Scale) -> str:
    """Mesh and step of every season against their limits, on one scale with one line for the limit."""
    bodies = []
    for place, (kind, limit) in enumerate((("Mesh", "touch"), ("Step", "step"))):
        title = head(span(f"{kind} against tolerable {limit}"), "rowgroup") + cell(between(scale), "bc") + cell("", colspan=3)
        rows = [row(title, "bh")]
        for season in station.shown:
            line = station.line(season)
            rows.append(_bar_row(line, line.compared[place], scale) if line else _gone_row(station, season, limit, scale))
        bodies.append(group("tbody", "".join(rows)))
    names = (head(spoken("Season"), "col") + head(spoken("Share of limit") + axis(scale), "col", "axh")
             + head("Voltage, V", "col", "num") + head("Limit, V", "col", "num") + head("Against limit", "col", "bw"))
    return table("bars", caption("Every season against its limits", "voltages rounded up, limits down"),
                 group("thead", row(names)) + "".join(bodies))


def _verdict(line: Line) -> str:
    said = word(line.row.verdict)
    return span(mark(said) + said, f"v {said}")


def _headroom(line: Line) -> str:
    return decimals.grouped(line.headroom) if line.headroom else "none"


def results(station: Station) -> str:
    """What is compared in every season, with both ends, the wire needed, and how far its fault current may grow."""
    rows = [_row("Verdict", "", cells(station, _verdict, span(mark("none") + "no line", "v")), "verd")]
    rows += [_of(station, one) for one in RESULTS]
    rows.append(_row("Wire needed", "kcmil", cells(station, lambda line: decimals.grouped(line.row.kcmil))))
    rows.append(_row("Safe up to fault current", "A", cells(station, _headroom)))
    return table("data res", caption("Results, each between two proved ends"), heads(station, "Quantity") + group("tbody", "".join(rows)))


def _metal(station: Station) -> str:
    """The label of the metal with its name."""
    kinds = sorted({line.case["metal"] for line in station.lines})
    said = METALS[kinds[0]] if len(kinds) == 1 else "; ".join(f"{kind} {METALS[kind]}" for kind in kinds)
    return "Metal " + span(f"({escape(said.replace(' %', NB + '%'))})", "mn")


def _differs(station: Station, name: str) -> Tuple[str, str]:
    """The class and the mark of an input."""
    if name not in station.differs:
        return "", ""
    said = seen("≠", "ne") + spoken("differs: ")
    return ("differs yard", mark("held") + said) if name in YARD else ("differs", said)


def inputs(station: Station) -> str:
    """The values of every season with their units, what differs marked."""
    rows: List[str] = []
    for name, label in labels.LABELS.items():
        kind, marked = _differs(station, name)
        title = _metal(station) if name == "metal" else escape(label.label)
        values = cells(station, lambda line, name=name, label=label: escape(label.show(line.case[name])))
        rows.append(_row(marked + title, label.unit, values, kind))
    key = span("≠", "ne") + "differs between seasons" if station.differs else "nothing differs between seasons"
    if any(name in YARD for name in station.differs):
        key += f"; {mark('held')} the yard, which must not"
    return table("data inp", caption("Inputs", key), heads(station, "Input") + group("tbody", "".join(rows)))


def working(station: Station) -> str:
    """The quantities between the inputs and the results, lower end over upper end."""
    rows = [_of(station, one) for one in WORKING]
    return table("data wrk", caption("Working, each between two proved ends", "lower over upper", "sub lo"),
                 heads(station, "Symbol") + group("tbody", "".join(rows))) + element("p", FORMULAS, "formulas")
