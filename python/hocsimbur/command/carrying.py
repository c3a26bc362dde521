"""The commands carry and carry-back: sheets of the former 18 names made ones of today's 22, and back; one, several or a folder of them."""
from __future__ import annotations

import argparse
import pathlib
from typing import Callable, List

from .. import core
from ..sheets.words import Asked
from .inputs import named
from .output import FAILED, REFUSED, WELL, Failed, read, reason, show_bytes, tell, write
from .refusing import ask
from .stopped import Stopped


def _folder(name: str) -> pathlib.Path:
    """The folder to write into, made where it is not there."""
    folder = pathlib.Path(name)
    try:
        folder.mkdir(parents=True, exist_ok=True)
    except OSError as error:
        raise Failed(f"{name}: {reason(error)}") from None
    return folder


def _carried(name: str, way: Callable[[bytes], bytes]) -> bytes:
    sheet = read(name)
    return ask(lambda: way(sheet), Asked(sheet, former=way is core.carry))


def _all(files: List[str], folder: pathlib.Path, way: Callable[[bytes], bytes], force: bool) -> int:
    """Each file into the folder under its own name; what is refused or fails is reported, and the others go on."""
    refused = failed = 0
    for place, name in enumerate(files, 1):
        try:
            target = folder / ("standard-input.csv" if name == "-" else pathlib.Path(name).name)
            sheet = _carried(name, way)
            write(str(target), sheet, force, sources=(name,))
            count = sheet.count(b"\n") - 1
            said = f"{count} line{'s' if count > 1 else ''} into {target}"
        except Stopped as stopped:
            refused += 1
            said = f"REFUSED: {stopped}"
        except Failed as error:
            failed += 1
            said = f"FAILED: {error}"
        tell(f"{place}/{len(files)} {name}: {said}")
    tell(f"{len(files) - refused - failed} written, {refused} refused, {failed} failed")
    return FAILED if failed else REFUSED if refused else WELL


def _run(arguments: argparse.Namespace, way: Callable[[bytes], bytes]) -> int:
    files = named(arguments.files)
    if arguments.output:
        return _all(files, _folder(arguments.output), way, arguments.force)
    if len(files) > 1:
        raise Failed(f"there are {len(files)} files; name a folder for what is written, by -o FOLDER")
    try:
        show_bytes(_carried(files[0], way))
    except Stopped as stopped:
        stopped.of = files[0]
        raise
    return WELL


def carry(arguments: argparse.Namespace) -> int:
    return _run(arguments, core.carry)


def carry_back(arguments: argparse.Namespace) -> int:
    return _run(arguments, core.carry_back)
