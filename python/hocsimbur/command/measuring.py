"""The commands wenner and staged: the soil from four-pin readings, the split from a staged test."""
from __future__ import annotations

import argparse
import os
import re

from .. import core
from ..sheets import site
from ..sheets.words import Asked
from . import measured
from .output import WELL, Failed, read, show, tell
from .refusing import ask, clear


def _given(name: str, option: str) -> bytes:
    """The bytes of a file; one that is not there and looks like a value is mostly an option's, without the option."""
    if re.match(r"[-+\d.]", name) and name != "-" and not os.path.exists(name):
        raise Failed(f"{name}: there is no such file; to give a value here, write {option} {name}")
    return read(name)


def wenner(arguments: argparse.Namespace) -> int:
    if bool(arguments.reading) == bool(arguments.file):
        raise Failed("give either a file of readings or --reading METRES,OHMS once for each reading")
    if arguments.file:
        found = clear(arguments.file, site.readings, _given(arguments.file, "--reading"))
    else:
        found = [clear(f"reading {one}", site.reading_of, one) for one in arguments.reading]
    lower, upper = site.ends(found)
    soil = measured.between(ask(lambda: core.soil(lower), Asked(readings=lower)), ask(lambda: core.soil(upper), Asked(readings=upper)))
    show(measured.soil_csv(soil) if arguments.csv else measured.soil_text(lower, upper, soil))
    for note in measured.soil_notes(soil) + measured.rounding_notes(lower, upper):
        tell(note)
    return WELL


def staged(arguments: argparse.Namespace) -> int:
    if arguments.file:
        if arguments.injected or arguments.branch:
            raise Failed("give either a file or --injected and --branch")
        found = clear(arguments.file, site.currents, _given(arguments.file, "--injected"))
    else:
        if not arguments.injected:
            raise Failed("give a file, or --injected and a --branch for each branch")
        found = [clear(f"current {one}", site.current, one) for one in [arguments.injected, *(arguments.branch or [])]]
    handed, moved = site.rounded(found) if found else ([], 0)
    split = ask(lambda: core.split(handed), Asked(parts=handed))
    show(measured.split_csv(split) if arguments.csv else measured.split_text(handed, split))
    for note in measured.split_notes(split, moved):
        tell(note)
    return WELL
