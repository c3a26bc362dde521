"""The command import: a sheet of what a spreadsheet wrote, and a licence for its stations."""
from __future__ import annotations

import argparse

from .. import core
from ..portfolio import licence
from ..sheets import checking, layout, spreadsheet
from ..sheets.words import Asked
from .output import WELL, Failed, read, show, tell, write
from .refusing import ask
from .stopped import Stopped


def _accepted(made: spreadsheet.Made) -> None:
    """Asks the library whether it takes what was made: a sheet of today's names, or one of the former for `carry`."""
    if {"ms", "lines"} & set(layout.cells(layout.lines(made.sheet)[0])):
        ask(lambda: core.carry(made.sheet), Asked(made.sheet, former=True, line_numbers=made.numbers))
        tell("note: the sheet has the former 18 names; `hocsimbur carry` makes today's sheet of it")
        return
    found = checking.check(made.sheet, made.numbers)
    if found:
        raise Stopped([one.said for one in found])


def _made(arguments: argparse.Namespace) -> spreadsheet.Made:
    """What is made of the file; what cannot become a sheet ends the command, in words."""
    try:
        made = spreadsheet.make(read(arguments.file), arguments.round == "cautious", arguments.worksheet)
        for change in made.changes.told() + made.rounded:
            tell(change)
        _accepted(made)
        return made
    except spreadsheet.Unreadable as error:
        raise Failed(str(error)) from None
    except spreadsheet.Refusals as refusals:
        raise Stopped(refusals.said, of=arguments.file, after="nothing was written") from None
    except Stopped as stopped:
        stopped.of, stopped.after = arguments.file, "nothing was written"
        raise


def import_sheet(arguments: argparse.Namespace) -> int:
    made = _made(arguments)
    if arguments.licence_out:
        granted = licence.of_cases(layout.cases(made.sheet), {int(station): name for station, name in made.called.items()})
        write(arguments.licence_out, licence.text(granted).encode(), arguments.force, sources=(arguments.file,))
        tell(f"{arguments.licence_out}: a licence for {len(granted.stations)} station{'s' if len(granted.stations) > 1 else ''}, each in the "
             "seasons that have a line")
    if arguments.output and arguments.output != "-":
        write(arguments.output, made.sheet, arguments.force, sources=(arguments.file,))
    else:
        show(made.sheet.decode())
    if not made.changes.counts and not made.rounded:
        tell("nothing had to be changed")
    return WELL
