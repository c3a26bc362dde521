"""The sentences about a station: its decision, its reasons to hold, its nearest limit, its greatest fault current, its wire and cautions.

Each stands here once, for the command line and the report alike; none is cut, and none decides anything.
They are plain text: who writes a page escapes them."""
from __future__ import annotations

from typing import Iterable, List, NamedTuple, Optional, Tuple

from ..core import Pair, Verdict
from ..sheets import decimals, labels
from ..sheets.decimals import NO_BREAK as NB
from ..sheets.decimals import grouped
from ..sheets.files import Place
from ..sheets.labels import listed
from .asking import FAULT_MOST
from .compared import OVERLAPS, Compared, margin, share
from .decision import Missing, OtherYard, Portfolio, Reason, Size, Station, Undecided, Unsafe, kcmil
from .lines import Line


NAMED = 20  # stations outside the licence that are named one by one


class Told(NamedTuple):
    """A reason to hold in words: what it is, and its detail or ''."""

    head: str
    detail: str


def voltage_above(one: Compared) -> str:
    """That a voltage is above what is tolerable, and by how much."""
    return f"{one.kind} {share(one.margin)} above tolerable {one.limit}"


def voltage_overlapping(one: Compared) -> str:
    """That the intervals of a voltage and of what is tolerable overlap."""
    return f"{one.kind} within the error bounds of tolerable {one.limit}"


def _size(size: Size) -> str:
    has = f"{labels.tenths(size.diameter)}{NB}mm solid has" if size.solid else "the wire has"
    return f"{grouped(size.needed)}{NB}kcmil needed, {has} {grouped(size.own)}"


def _no_line(reason: Missing) -> str:
    if reason.no_line:
        return "no season has a line"
    if len(reason.seasons) == 1:
        return f"season {reason.seasons[0]} has no line"
    return f"seasons {listed(reason.seasons)} have no line"


def _at(place: Place) -> str:
    """The file and line of a line, where there are several files."""
    return f" ({place.file}, line {place.line})" if place.file else ""


def told(reason: Reason) -> Told:
    """A reason as the report tells it."""
    if isinstance(reason, Unsafe):
        return Told(f"season {reason.season}{_at(reason.place)} unsafe", listed([voltage_above(one) for one in reason.above]))
    if isinstance(reason, Undecided):
        return Told(f"season {reason.season}{_at(reason.place)} undecided", listed([voltage_overlapping(one) for one in reason.overlapping]))
    if isinstance(reason, Missing):
        return Told(_no_line(reason), "")
    if isinstance(reason, OtherYard):
        return Told("yard differs between lines", labels.columns(reason.columns))
    return Told("wire too small", _size(reason.size))


def _short(reason: Reason) -> str:
    """A reason on a line of the command release."""
    if isinstance(reason, Unsafe):
        return f"season {reason.season}{_at(reason.place)}: " + listed([voltage_above(one) for one in reason.above])
    if isinstance(reason, Undecided):
        return f"season {reason.season}{_at(reason.place)}: " + listed([voltage_overlapping(one) for one in reason.overlapping])
    if isinstance(reason, Missing):
        if reason.no_line:
            return "no line for any season"
        return f"no line for season{'s' if len(reason.seasons) > 1 else ''} " + ", ".join(str(season) for season in reason.seasons)
    if isinstance(reason, OtherYard):
        return "yard differs between lines: " + labels.columns(reason.columns)
    return "wire: " + _size(reason.size)


def currents(station: Station) -> str:
    """How far the fault current may grow: 'voltages safe up to 80,000 A; wire up to 26,667 A'; '' where there is no line."""
    if not station.lines:
        return ""
    safe = f"up to {grouped(station.fault)}{NB}A" if station.fault else "at no fault current in range"
    return f"voltages safe {safe}{' where there is a line' if station.missing else ''}; wire up to {grouped(station.wire_to)}{NB}A"


def sentence(station: Station) -> str:
    """What the command release says after the decision: all reasons to hold, or seasons and nearest limit of a released one; then how
    far the fault current may grow."""
    if station.released:
        count, one = len(station.seasons), station.worst.nearest
        said = [f"{count} season{'s' if count > 1 else ''}; nearest limit {margin(one)} ({one.limit}, season {station.worst.season})"]
    else:
        said = [_short(reason) for reason in station.reasons]
    return "; ".join(one for one in [*said, currents(station)] if one).replace(NB, " ")


def decision(station: Station) -> Tuple[str, str]:
    """The decision in a sentence, as its first word and the rest."""
    if not station.released:
        parts = [one.head + (f" ({one.detail})" if one.detail else "") for one in map(told, station.reasons)]
        return "Held:", "; ".join(parts) + "."
    count = len(station.seasons)
    every = {1: "the one season", 2: "both seasons"}.get(count, f"all {count} seasons")
    line = station.worst
    of = " of the licence" if station.licensed.by_licence else ""
    return "Released:", (f"{every}{of} {'is' if count == 1 else 'are'} present and safe; nearest is {line.nearest.limit} in season "
                         f"{line.season}, {margin(line.nearest)}.")


def nearest(station: Station) -> Told:
    """The nearest limit on the first page: what stands in bold, and the rest."""
    if not station.lines:
        return Told("", "no line, nothing to compare")
    one = station.worst.nearest
    return Told(margin(one), f"{one.limit}, season {station.worst.season}")


def now(station: Station) -> str:
    """The fault current of the lines: 'now 4,100 A', 'now up to 14,100 A'."""
    most = max(line.case["fault"] for line in station.lines)
    return f"now {'up to ' if 'fault' in station.differs else ''}{grouped(most)}{NB}A"


def greatest(station: Station) -> str:
    """The greatest fault current that is still safe, in short."""
    if station.fault == 0:
        return "none"
    return f"{'at most ' if station.missing else ''}{grouped(station.fault)}{NB}A{', end of range' if station.fault == FAULT_MOST else ''}"


def _seasons(numbers: List[int]) -> str:
    return ("season " if len(numbers) == 1 else "seasons ") + listed(numbers)


def current(station: Station) -> str:
    """The greatest fault current in a sentence."""
    by = _seasons([line.season for line in station.lines if line.headroom == station.fault])
    if station.fault == 0:
        said = f"No fault current in range is safe in {by}"
    elif station.fault == FAULT_MOST:
        said = f"Safe up to {grouped(FAULT_MOST)}{NB}A, the end of the range{', where there is a line' if station.missing else ''}"
    else:
        said = f"Greatest fault current still safe: {greatest(station)}, set by {by}"
    tail = f"; the wire is enough to {grouped(station.wire_to)}{NB}A" if station.wire_to < station.fault else ""
    return f"{said} ({now(station)}){tail}."


def differences(station: Station) -> str:
    """What differs between the seasons; where it is only the soil, that the driest decides; '' for fewer than two lines."""
    names = station.differs
    if len(station.lines) < 2:
        return ""
    there = " that have a line" if station.missing else ""
    if not names:
        return f"Nothing differs between the seasons{there}."
    if names == ("soil",):
        driest = max(line.case["soil"] for line in station.lines)
        by = _seasons([line.season for line in station.lines if line.case["soil"] == driest])
        return f"Only the soil differs between the seasons{there}: the driest, {by} with {grouped(driest)}{NB}Ω·m, decides."
    if "soil" in names:
        return f"Not only the soil differs between the seasons{there}: {labels.columns(names)}."
    return f"The soil is the same in the seasons{there}; what differs is {labels.columns(names)}."


def outside(station: Station) -> str:
    """Lines of seasons that the licence does not name: they count all the same; '' where there are none."""
    seasons = [line.season for line in station.lines if line.season not in station.seasons]
    if not seasons:
        return ""
    if len(seasons) == 1:
        return f"Season {seasons[0]} is not in the licence; its line counts all the same."
    return f"Seasons {listed(seasons)} are not in the licence; their lines count all the same."


def places(station: Station) -> str:
    """Where its lines stand, where there are several files; '' else."""
    if not station.files:
        return ""
    return "Lines: " + ", ".join(f"season {line.season} in line {line.place.line} of {line.place.file}" for line in station.lines) + "."


def _volts(pair: Pair) -> str:
    return decimals.ends(pair, 3, 3) + f"{NB}V"


def undecided(station: Station) -> List[str]:
    """A sentence for each voltage whose interval overlaps that of its limit, with both pairs of ends."""
    return [f"Season {line.season}: {one.kind} {_volts(one.voltage)} against tolerable {one.limit} {_volts(one.tolerable)}: neither safe "
            f"nor unsafe may be said. A change that lowers the voltage, such as one rod more, can part them."
            for line in station.lines for one in line.compared if one.side == OVERLAPS]


def wire(station: Station) -> str:
    """What the wire needs and has."""
    return f"Wire: {_size(station.size)}."


def few_rods(station: Station) -> str:
    """That fewer than four rods at the perimeter cannot stand at all its corners; '' where there are enough."""
    few = sorted({line.case["rods"] for line in station.lines if line.case["place"] == 1 and line.case["rods"] < 4})
    if not few:
        return ""
    rods = listed(few) + (" rod" if few == [1] else " rods")
    return f"{rods} at the perimeter cannot stand at all four corners, yet are counted as if rods stood all along it."


def stranded(station: Station) -> str:
    """That a stranded wire of the diameter may be too small; '' where it would be enough, or where the licence has its own area."""
    if any(not line.area and not line.small_wire and 4 * line.row.kcmil > 3 * kcmil(line.case["dia"]) for line in station.lines):
        return "The wire is counted as a solid round: a stranded one of that diameter has about a quarter less, which may be too little here."
    return ""


def cautions(station: Station) -> List[str]:
    """What a reader should know and what changes no decision."""
    return [one for one in (few_rods(station), stranded(station)) if one]


class Counts(NamedTuple):
    """What is counted of stations: each number is a sum of the core's answers."""

    stations: int
    released: int
    safe: int
    unsafe: int
    undecided: int
    missing: int  # seasons without a line
    rises: int    # lines whose potential rise is above a limit

    @property
    def lines(self) -> int:
        return self.safe + self.unsafe + self.undecided


def counts(station: Station, limit: Optional[int] = None) -> Counts:
    """What is counted of a station, with the lines whose potential rise is above a limit in mV."""
    verdicts = [line.row.verdict for line in station.lines]
    return Counts(1, int(station.released), *(verdicts.count(verdict) for verdict in Verdict), station.answer.missing,
                  len(above(station, limit)) if limit is not None else 0)


def summed(counted: Iterable[Counts]) -> Counts:
    """The sums of counts."""
    return Counts(*map(sum, zip(Counts(0, 0, 0, 0, 0, 0, 0), *counted)))


def totals(sums: Counts, licensed: bool) -> List[Told]:
    """The counts of the first page: in bold, and after it."""
    of = " of the licence" if licensed else ""
    missing = f"{grouped(sums.missing)} season{'s' if sums.missing > 1 else ''}{of} without a line" if sums.missing else \
        f"every season{of} has a line"
    return [
        Told(f"{grouped(sums.stations)} station{'s' if sums.stations > 1 else ''}:", " "),
        Told(f"{grouped(sums.released)} released", ", "),
        Told(f"{grouped(sums.stations - sums.released)} held", ". "),
        Told("", f"{grouped(sums.lines)} season line{'' if sums.lines == 1 else 's'}: {grouped(sums.safe)} safe, {grouped(sums.unsafe)} "
                 f"unsafe, {grouped(sums.undecided)} undecided; {missing}."),
    ]


def above(station: Station, limit: int) -> List[Line]:
    """The lines of a station whose potential rise has its upper end above a limit in mV."""
    return [line for line in station.lines if line.row.rise.upper > limit]


def rise(station: Station, limit: int) -> str:
    """The seasons in which the potential rise is above a limit; '' where there are none."""
    lines = above(station, limit)
    if not lines:
        return ""
    most = decimals.up(max(line.row.rise.upper for line in lines), 3, 0)
    return (f"Potential rise above {decimals.volts(limit)} in {_seasons([line.season for line in lines])}, up to {most}{NB}V; it decides "
            f"nothing.")


def _asked(seasons: Tuple[int, ...]) -> str:
    return "all four seasons" if len(seasons) == 4 else _seasons(list(seasons))


def notes(portfolio: Portfolio) -> List[str]:
    """What the first page says of the licence itself."""
    found = []
    if not portfolio.licensed:
        found.append(f"No licence was handed over: every station of the sheet is asked for {_asked(portfolio.seasons)}.")
    others = portfolio.unlicensed
    if others:
        named = listed(others) if len(others) <= NAMED else ", ".join(str(one) for one in others[:NAMED]) + f" and {grouped(len(others) - NAMED)} more"
        found.append(f"Station {named} of the sheet is not in the licence, and nothing is said of it." if len(others) == 1 else
                     f"{grouped(len(others))} stations of the sheet are not in the licence, and nothing is said of them: {named}.")
    return found
