"""The files of a command: those that are named and those of the folders that are named, each read once; and questions about them."""
from __future__ import annotations

import argparse
import os
from typing import TYPE_CHECKING, Callable, List, NamedTuple, Optional, Sequence, Tuple, TypeVar

from .. import core
from ..sheets import files
from ..sheets.files import Batch, File, Lines
from ..sheets.words import Asked, refusal
from .output import Failed, read, reason, tell
from .progress import watched
from .refusing import clear
from .stopped import Stopped
from .terminal import field

if TYPE_CHECKING:
    from ..sheets import checking  # imported where something is refused

Answer = TypeVar("Answer")


def _inside(folder: str) -> List[str]:
    """The files of a folder that end in .csv, in the order of their names."""
    try:
        found = sorted(one.path for one in os.scandir(folder) if one.name.lower().endswith(".csv") and one.is_file())
    except OSError as error:
        raise Failed(f"{folder}: {reason(error)}") from None
    if not found:
        raise Failed(f"{folder}: the folder has no file that ends in .csv")
    return found


def _same(name: str) -> Tuple[object, ...]:
    """What two names of one file have in common."""
    try:
        found = os.stat(name)
        return found.st_dev, found.st_ino
    except (OSError, ValueError):
        return (name,)


def named(names: Sequence[str], apart: Optional[str] = None, quiet: bool = False) -> List[str]:
    """The files that are named, and those ending in .csv of the folders that are named; each once, and never one that is read apart.

    What is left out is reported, unless it was before."""
    found: List[str] = []
    seen = {}
    for name in names:
        folder = name != "-" and os.path.isdir(name)
        for one in _inside(name) if folder else [name]:
            key = (one,) if one == "-" else _same(one)
            if key in seen:
                quiet or tell(f"note: {_called(one)} is named twice{'' if seen[key] == one else f', first as {seen[key]}'}; it is read once")
            elif folder and apart and _same(apart) == key:
                quiet or tell(f"note: {one} is the licence; it is not read as a sheet")
            else:
                found.append(one)
            seen.setdefault(key, one)
    if not found:
        raise Failed("the folder has no sheet besides the licence")
    return found


def _called(name: str) -> str:
    return "standard input" if name == "-" else name


class Inputs(NamedTuple):
    """The lines of the files of a command, and whether each answer says from which file it is."""

    lines: Lines
    batches: List[Batch]
    several: bool


def _files(arguments: argparse.Namespace) -> Tuple[List[File], bool]:
    names = named(arguments.files, getattr(arguments, "licence", None))
    return [File(_called(name), read(name)) for name in names], len(names) > 1 or os.path.isdir(arguments.files[0])


def checked(arguments: argparse.Namespace) -> Tuple[List[File], bool, List[checking.Found]]:
    """The files of a command with all their refusals."""
    from ..sheets import checking
    read_, several = _files(arguments)
    return read_, several, checking.check(read_)


def printed(one: checking.Found, several: bool) -> str:
    """A refusal for machines, with its file where there are several."""
    return f"refused,{one.number},{one.line},{one.column}" + (f",{field(one.file)}" if several else "") + "\n"


def _stopped(arguments: argparse.Namespace, given: List[File], several: bool) -> Stopped:
    """The first refusal of each file, and how to see all of them."""
    from ..sheets import checking
    if len(given) == 1 and len(given[0].data) <= core.SHEET_BYTES:
        try:
            core.count(given[0].data)
        except core.Refused as refused:
            if refused.number != core.Refusal.LINES or refused.line == 2:
                one = checking.Found(given[0].name, refused.number, refused.line, refused.column, refusal(refused, Asked(given[0].data)))
                return _told(arguments, [one], several)
    firsts = {}
    for one in checking.check(given):
        firsts.setdefault(one.file, one)
    if not firsts:
        raise RuntimeError("the library refused a sheet that was put together of lines that it accepts")
    return _told(arguments, list(firsts.values()), several)


def _told(arguments: argparse.Namespace, found: List[checking.Found], several: bool) -> Stopped:
    import shlex  # only where something is refused
    asked = "" if "-" in arguments.files else \
        f"; `hocsimbur check {' '.join(shlex.quote(name) for name in arguments.files)}` reports every refusal"
    said = [f"{one.file}: {one.said}" if one.file != "standard input" else one.said for one in found]
    return Stopped(said, "".join(printed(one, several) for one in found), after=f"nothing was computed{asked}")


def rise_limit(arguments: argparse.Namespace) -> Optional[int]:
    """The limit of the ground potential rise in mV, where one is given."""
    if not getattr(arguments, "gpr_limit", None):
        return None
    from ..sheets.amounts import voltage
    return clear("gpr-limit", voltage, arguments.gpr_limit)


def gathered(arguments: argparse.Namespace) -> Inputs:
    """The files of a command put together; what the library refuses of them ends it, in words."""
    given, several = _files(arguments)
    try:
        lines = Lines(given)
    except core.Refused:
        raise _stopped(arguments, given, several) from None
    return Inputs(lines, lines.batches(), several)


def refused(arguments: argparse.Namespace, inputs: Inputs) -> Stopped:
    """What ends a command whose files the library refuses."""
    return _stopped(arguments, list(inputs.lines.files), inputs.several)


def answered(arguments: argparse.Namespace, inputs: Inputs, question: Callable[[Batch], Answer]) -> List[Answer]:
    """The answer to a question about each batch, in threads; what the library refuses ends the command, in words."""
    try:
        return list(watched(files.each(inputs.batches, question), len(inputs.batches), "sheets"))
    except core.Refused:
        raise refused(arguments, inputs) from None
