"""What to change next: for a held station the least single changes with which the core answers every line of it safe, and what else it
is held for in words.

Every candidate is asked of the core, many in one sheet; they are tried in a fixed order, from the least change on."""
from __future__ import annotations

from dataclasses import dataclass
from typing import Iterable, List, Optional, Sequence, Tuple

from .. import core
from ..core import Verdict
from ..sheets import labels, layout
from ..sheets.decimals import NO_BREAK, exact
from ..sheets.labels import listed
from ..sheets.names import BY_NAME
from . import asking
from .candidates import Cases, Tried, kinds, with_values
from .compared import share
from .decision import Missing, OtherYard, SmallWire, Station
from .licence import MOST_AREA
from .lines import YARD


@dataclass(frozen=True)
class Change:
    """A change: its kind, the words, and the station's lines with it, of which each is answered safe where there are any.

    Kinds are missing, yard, wire, rods, conductors, spacing, thickness, resistivity, layer and shock.
    Lines are () where no change of the kind is enough, and where words alone are meant (missing)."""

    kind: str
    words: str
    lines: Cases = ()


def first_safe(candidates: Iterable[Tried]) -> Optional[Tried]:
    """The first candidate of which every line is answered safe; as many as fit are asked in one sheet."""
    asked = list(candidates)
    if not asked:
        return None
    together = core.LINES // len(asked[0].lines)
    for start in range(0, len(asked), together):
        part = asked[start:start + together]
        answers = iter(asking.verdicts([case for one in part for case in one.lines]))
        for one in part:
            if all([next(answers) == Verdict.SAFE for _ in one.lines]):
                return one
    return None


def lengths(lines: Cases) -> Tuple[int, int]:
    """Conductor and rods in micrometres, upper ends, of the first line."""
    working = core.working(layout.text([lines[0]]))[0]
    return working.lc.upper, working.lr.upper


def added(before: Cases, after: Cases) -> str:
    """The metres of conductor and rods that a change adds, as the core works them."""
    said = []
    for name, old, new in zip(("conductor", "rods"), lengths(before), lengths(after)):
        if new != old:
            said.append(f"{exact(abs(new - old), 6)} m of {name} {'more' if new > old else 'less'}")
    return "; " + listed(said) if said else ""


def nearest(lines: Cases) -> str:
    """Where the changed lines are nearest their limits."""
    answered = core.margins(layout.text(list(lines)))
    margin, limit, season = max(((one, limit, case["season"]) for case, both in zip(lines, answered)
                                 for one, limit in ((both.mesh, "touch"), (both.step, "step"))), key=lambda found: found[0])
    size = f"{share(margin)} below" if margin else "under 0.1 % below"
    return f"nearest limit then {size} ({limit}, season {season})".replace(NO_BREAK, " ")


def _safe_changes(lines: Cases, one_yard: bool) -> List[Change]:
    """The least change of each kind with which every line is safe, and the kinds of which none is enough."""
    found = []
    for kind in kinds(lines, one_yard):
        best = first_safe(kind.candidates(lines))
        if best:
            said = f"{kind.name}: {best.words}; {nearest(best.lines)}{added(lines, best.lines)}"
            found.append(Change(kind.name, said, best.lines))
        else:
            found.append(Change(kind.name, f"{kind.name}: {kind.none}"))
    return sorted(found, key=lambda change: not change.lines)


def thicker_wire(lines: Cases) -> Change:
    """The least diameter that is enough in every line."""
    name, now = BY_NAME["dia"], min(case["dia"] for case in lines)
    sizes = range(now + 1, name.high + 1)
    small = iter(asking.small_wires([dict(case, dia=max(case["dia"], dia)) for dia in sizes for case in lines]))
    for dia in sizes:
        if not any([next(small) for _ in lines]):
            words = f"wire: {labels.tenths(dia)} mm, solid and round (now {labels.tenths(now)} mm); a stranded one must be thicker"
            return Change("wire", words, tuple(dict(case, dia=max(case["dia"], dia)) for case in lines))
    most = labels.tenths(name.high)
    return Change("wire", f"wire: no solid round up to {most} mm is enough; try another metal or a shorter back-up time")


def larger_wire(station: Station) -> Change:
    """The least cross-section that is enough in every line, where the licence has the conductor's own."""
    needed, most = max(line.row.kcmil for line in station.lines), MOST_AREA
    if needed > most:
        return Change("wire", f"wire: no wire up to {most} kcmil is enough; try another metal or a shorter back-up time")
    return Change("wire", f"wire: {needed} kcmil or more (now {station.licensed.area}); give its size in the licence")


def agreed_yards(lines: Cases, columns: Sequence[str]) -> List[Change]:
    """The yard of each line put into all of them, and whether every line is then safe."""
    found = [Change("yard", f"yard: agree on {labels.columns(columns)} in all lines")]
    seen = set()
    for case in lines:
        yard = {name: case[name] for name in YARD}
        if tuple(yard.values()) in seen:
            continue
        seen.add(tuple(yard.values()))
        agreed = with_values(lines, **yard)
        safe = all(verdict == Verdict.SAFE for verdict in asking.verdicts(agreed))
        said = f"every line is safe, {nearest(agreed)}" if safe else "not every line is safe"
        found.append(Change("yard", f"yard: that of season {case['season']} in all lines: {said}", agreed if safe else ()))
    return found


def missing_lines(reason: Missing) -> Change:
    """That seasons of the licence are to be measured."""
    seasons = ("season " if len(reason.seasons) == 1 else "seasons ") + listed(reason.seasons)
    return Change("missing", f"missing: measure and add {'a line' if len(reason.seasons) == 1 else 'lines'} for {seasons}")


def changes(station: Station) -> List[Change]:
    """What to change of a held station, by kind: what is missing, the yard, the wire, then the least changes with which every line is
    safe and the kinds of which none is enough; nothing for a released one."""
    lines = tuple(line.case for line in station.lines)
    found: List[Change] = []
    for reason in station.reasons:
        if isinstance(reason, Missing):
            found.append(missing_lines(reason))
        elif isinstance(reason, OtherYard):
            found += agreed_yards(lines, reason.columns)
        elif isinstance(reason, SmallWire):
            found.append(larger_wire(station) if station.licensed.area else thicker_wire(lines))
    if station.answer.unsafe or station.answer.undecided:
        found += _safe_changes(lines, not station.answer.other_yard)
    return found
