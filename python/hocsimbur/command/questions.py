"""The commands check, verdict, rows, margins and summary: questions about the lines of files, however many there are."""
from __future__ import annotations

import argparse
from typing import List, Optional, Sequence, Tuple

from .. import core
from ..sheets.decimals import grouped
from ..sheets.files import Batch, Place
from . import listing
from .inputs import Inputs, answered, checked, gathered, printed, rise_limit
from .output import HELD, REFUSED, WELL, show


def _status(verdicts: Sequence[core.Verdict]) -> int:
    """0 where the library answers every line safe."""
    return WELL if all(one == core.Verdict.SAFE for one in verdicts) else HELD


def _places(inputs: Inputs) -> Optional[List[Place]]:
    return [inputs.lines.place(line) for line in range(len(inputs.lines))] if inputs.several else None


def check(arguments: argparse.Namespace) -> int:
    from ..sheets import checking
    files, several, found = checked(arguments)
    if arguments.csv:
        show("".join(printed(one, several) for one in found))
    elif found:
        show("".join((f"{one.file}: " if several else "") + one.said + "\n" for one in found) + checking.conclusion(found) + "\n")
    else:
        count = sum(file.data.count(b"\n") - 1 for file in files)
        where = f" in {grouped(len(files))} files" if len(files) > 1 else ""
        show(f"{grouped(count)} line{'s' if count > 1 else ''}{where}, no refusal\n")
    return REFUSED if found else WELL


def verdict(arguments: argparse.Namespace) -> int:
    inputs = gathered(arguments)
    answers = answered(arguments, inputs, lambda batch: [listing.brief(row) for row in core.rows(batch.sheet)])
    rows = inputs.lines.in_order(inputs.batches, answers)
    show((listing.verdicts_csv if arguments.csv else listing.verdicts)(rows, _places(inputs)))
    return _status([row.verdict for row in rows])


def rows(arguments: argparse.Namespace) -> int:
    inputs = gathered(arguments)

    def question(batch: Batch) -> List[Tuple[core.Verdict, object]]:
        found = core.rows(batch.sheet)
        if arguments.csv:
            return [(row.verdict, listing.row_numbers(row)) for row in found]
        return [(row.verdict, listing.block(row, margins_, inputs.lines.place(line) if inputs.several else None))
                for line, row, margins_ in zip(batch.lines, found, core.margins(batch.sheet))]

    lines = inputs.lines.in_order(inputs.batches, answered(arguments, inputs, question))
    told = [one for _, one in lines]
    show(listing.rows_csv(told, _places(inputs)) if arguments.csv else "\n".join(told))
    return _status([verdict_ for verdict_, _ in lines])


def margins(arguments: argparse.Namespace) -> int:
    limit = rise_limit(arguments)
    inputs = gathered(arguments)

    def question(batch: Batch) -> List[listing.Margin]:
        return [listing.margin_of(row, margins_) for row, margins_ in zip(core.rows(batch.sheet), core.margins(batch.sheet))]

    found = inputs.lines.in_order(inputs.batches, answered(arguments, inputs, question))
    show((listing.margins_csv if arguments.csv else listing.margins)(found, _places(inputs), limit))
    return _status([one.verdict for one in found])


def _files_of(inputs: Inputs, batch: Batch, stations: Sequence[core.Station], rows_: Sequence[core.Row]) -> List[str]:
    """The files in which each station has lines."""
    found = {station.station: [] for station in stations}
    for line, row in zip(batch.lines, rows_):
        name = inputs.lines.place(line).file
        if name not in found[row.station]:
            found[row.station].append(name)
    return ["; ".join(found[station.station]) for station in stations]


def summary(arguments: argparse.Namespace) -> int:
    inputs = gathered(arguments)

    def question(batch: Batch) -> Tuple[List[core.Station], List[str]]:
        stations, rows_ = core.summary_and_rows(batch.sheet)
        return stations, _files_of(inputs, batch, stations, rows_) if inputs.several else []

    answers = answered(arguments, inputs, question)
    stations = [station for found, _ in answers for station in found]
    of_files = [names for _, of_batch in answers for names in of_batch] if inputs.several else None
    show((listing.summary_csv if arguments.csv else listing.summary)(stations, of_files))
    return WELL if all(station.safe == station.seasons for station in stations) else HELD
