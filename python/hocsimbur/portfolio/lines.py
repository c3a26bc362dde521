"""The value lines of a sheet with all that the core answers of each: its row, margins, working, headroom and wire.

Each question is asked when its answer is first needed, of all lines of the sheet at once."""
from __future__ import annotations

from dataclasses import dataclass
from functools import cached_property
from typing import Dict, List, Optional, Sequence, Tuple

from .. import core
from ..sheets import layout
from ..sheets.files import Place
from ..sheets.names import NAMES
from . import asking
from .compared import Compared

# the columns that describe the yard, on which the lines of a station must agree, as docs/manual.md lists them
YARD = ("across", "along", "space", "depth", "dia", "rods", "rodlen", "place", "metal")

class Answers:
    """What the core answers of the lines of a sheet."""

    def __init__(self, sheet: bytes, areas: Optional[Dict[int, int]] = None) -> None:
        """`areas` has of stations their conductor's own cross-section in whole kcmil; of the others it is a solid round."""
        self.sheet = sheet
        self.areas = areas or {}

    @cached_property
    def rows(self) -> List[core.Row]:
        return core.rows(self.sheet)

    @cached_property
    def cases(self) -> List[Dict[str, int]]:
        """The values of each line, read once the library has accepted the sheet: what is no number is refused by it, in words."""
        return layout.cases(self.sheet) if self.rows else []

    @cached_property
    def margins(self) -> List[core.Margins]:
        return core.margins(self.sheet)

    @cached_property
    def working(self) -> List[core.Working]:
        return core.working(self.sheet)

    @cached_property
    def headroom(self) -> List[int]:
        return core.headroom(self.sheet)

    @cached_property
    def wires_to(self) -> List[int]:
        return asking.wires_enough_to([asking.with_area(case, self.area(case)) for case in self.cases], self.rows)

    def area(self, case: Dict[str, int]) -> int:
        """The conductor's own cross-section of a line's station, or 0."""
        return self.areas.get(case["station"], 0)


@dataclass(frozen=True)
class Line:
    """A value line: a station in a season."""

    answers: Answers
    index: int             # its place among the value lines of the sheet that was asked
    place: Place           # where it stands

    @property
    def number(self) -> int:
        """The line of its file, the names being line 1."""
        return self.place.line

    @property
    def case(self) -> Dict[str, int]:
        """The values by name."""
        return self.answers.cases[self.index]

    @property
    def row(self) -> core.Row:
        return self.answers.rows[self.index]

    @property
    def margins(self) -> core.Margins:
        return self.answers.margins[self.index]

    @property
    def working(self) -> core.Working:
        return self.answers.working[self.index]

    @property
    def headroom(self) -> int:
        """The greatest fault current in A at which this line is safe, or 0."""
        return self.answers.headroom[self.index]

    @property
    def wire_to(self) -> int:
        """The greatest fault current in A at which its conductor is large enough."""
        return self.answers.wires_to[self.index]

    @property
    def area(self) -> int:
        """The conductor's own cross-section in whole kcmil, or 0 for a solid round of the diameter."""
        return self.answers.area(self.case)

    @property
    def small_wire(self) -> bool:
        """Whether its conductor is too small."""
        return self.case["fault"] > self.wire_to

    @property
    def season(self) -> int:
        return self.case["season"]

    @property
    def compared(self) -> Tuple[Compared, Compared]:
        """Mesh against tolerable touch, then step against tolerable step."""
        row = self.row
        return (Compared("touch", row.mesh, row.tolerable_touch, self.margins.mesh),
                Compared("step", row.step, row.tolerable_step, self.margins.step))

    @property
    def nearest(self) -> Compared:
        """The voltage that is nearest its limit, or furthest above it; mesh where both are alike."""
        return max(self.compared, key=lambda one: one.margin)


def differing(lines: Tuple[Line, ...]) -> Tuple[str, ...]:
    """The columns, besides station and season, in which lines differ, in the order of the table of names."""
    return tuple(name.name for name in NAMES[2:] if len({line.case[name.name] for line in lines}) > 1)


def gather(sheet: bytes, places: Optional[Sequence[Place]] = None, areas: Optional[Dict[int, int]] = None) -> List[Line]:
    """The lines of a sheet with all that the core answers of them, in the sheet's order; `areas` has conductors' own cross-sections."""
    answers = Answers(sheet, areas)
    return [Line(answers, index, places[index] if places else Place("", index + 2)) for index in range(len(answers.cases))]
