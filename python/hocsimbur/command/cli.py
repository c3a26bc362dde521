"""The command hocsimbur: its arguments, and what every command has in common."""
from __future__ import annotations

import argparse
import importlib
import re
import sys
from typing import Any, Callable, List, NamedTuple, NoReturn, Optional, Tuple

from ..entries import LibraryMissing
from . import help_texts, output
from .output import FAILED, REFUSED, WELL, ClosedPipe, Failed, show, tell
from .stopped import Stopped

OLDEST = (3, 9)    # version of Python
INTERRUPTED = 130  # as a shell tells a command that Ctrl-C ended


class Parser(argparse.ArgumentParser):
    """A parser whose help is written like every answer, and whose errors have the status of input that failed.

    A value may start with a minus sign, as `--branch -8.5@-5.4`."""

    def __init__(self, *arguments: Any, **named: Any) -> None:
        super().__init__(*arguments, **named)
        self._negative_number_matcher = re.compile(r"-[\d.]")

    def _print_message(self, message: str, file: object = None) -> None:
        if message:
            show(message)

    def error(self, message: str) -> NoReturn:
        tell(f"{self.prog}: {message}")
        if "required: FILE" in message and sys.stdin and not sys.stdin.isatty():
            tell("to read standard input, write - for the file")
        tell(f"`{self.prog} --help` shows how it is used")
        sys.exit(FAILED)


def _files(parser: argparse.ArgumentParser) -> None:
    parser.add_argument("files", metavar="FILE", nargs="+", help="a sheet, several, or a folder with files that end in .csv; - for standard "
                        "input")


def _file(parser: argparse.ArgumentParser) -> None:
    parser.add_argument("file", metavar="FILE", help="the sheet; - for standard input")


def _csv(parser: argparse.ArgumentParser) -> None:
    parser.add_argument("--csv", action="store_true", help="whole numbers separated by commas, for machines")


def _sheets(parser: argparse.ArgumentParser) -> None:
    _files(parser)
    _csv(parser)


def _limit(parser: argparse.ArgumentParser) -> None:
    parser.add_argument("--gpr-limit", metavar="VOLTAGE", help="mark and count lines whose ground potential rise is above it, as 5kV; it "
                        "decides nothing")


def _margins(parser: argparse.ArgumentParser) -> None:
    _sheets(parser)
    _limit(parser)


def _licence(parser: argparse.ArgumentParser) -> None:
    parser.add_argument("--licence", metavar="FILE", help="the stations to be released: station, name and seasons; "
                        "without it every station of the files")
    parser.add_argument("--seasons", metavar="LIST", help="without a licence, the seasons that every station must have: 1,2 or 1-4; without "
                        "it all four")


def _release(parser: argparse.ArgumentParser) -> None:
    _sheets(parser)
    _licence(parser)
    _limit(parser)


def _report(parser: argparse.ArgumentParser) -> None:
    _files(parser)
    _licence(parser)
    _limit(parser)
    parser.add_argument("-o", "--output", metavar="FILE", help="the page to write; without it, or with -, standard output")
    parser.add_argument("--date", help="the date that the page shows; without it today")
    parser.add_argument("--project", metavar="NAME", help="the project, at the head of the first page and the foot of every one")
    parser.add_argument("--engineer", metavar="NAME", help="the engineer, with a line to sign")


def _next(parser: argparse.ArgumentParser) -> None:
    _sheets(parser)
    _licence(parser)
    parser.add_argument("--station", type=int, metavar="N", help="this station alone; without it every station that is held")


def _fewest(parser: argparse.ArgumentParser) -> None:
    _file(parser)
    _csv(parser)
    parser.add_argument("--side", required=True, help="the side of the square yard: 70m, 70000mm or 70000 (mm)")
    parser.add_argument("--station", type=int, metavar="N", help="the station whose line is taken, of a sheet with more lines")
    parser.add_argument("--season", type=int, metavar="N", help="the season whose line is taken")
    parser.add_argument("--rodlen", metavar="LENGTH", help="the length of the rods that are tried, as 3m; without it the rodlen of the line")
    parser.add_argument("--list", action="store_true", help="also list every yard that was tried, with its verdict and its nearest limit")


def _wenner(parser: argparse.ArgumentParser) -> None:
    parser.add_argument("file", metavar="FILE", nargs="?", help="readings under the names metres,ohms or feet,ohms; - for standard "
                        "input")
    parser.add_argument("--reading", metavar="METRES,OHMS", action="append", help="a reading, in place of a file, as 2.5,7.3 or 10ft,0.7125; "
                        "once for each")
    _csv(parser)


def _staged(parser: argparse.ArgumentParser) -> None:
    parser.add_argument("file", metavar="FILE", nargs="?", help="currents in A under the names in_phase,quadrature or size,angle or "
                        "current, the injected one first; - for standard input")
    parser.add_argument("--injected", metavar="CURRENT", help="the injected current: IN-PHASE,QUADRATURE in A, or SIZE@ANGLE in A and "
                        "degrees")
    parser.add_argument("--branch", metavar="CURRENT", action="append", help="a branch, positive away from the grid; once for each")
    _csv(parser)


def _carry(parser: argparse.ArgumentParser) -> None:
    parser.add_argument("files", metavar="FILE", nargs="+", help="a sheet, several, or a folder with files that end in .csv; - for "
                        "standard input")
    parser.add_argument("-o", "--output", metavar="FOLDER", help="the folder to write into, under the same names; without it, of one "
                        "sheet, standard output")
    parser.add_argument("--force", action="store_true", help="replace files that are there")


def _import(parser: argparse.ArgumentParser) -> None:
    parser.add_argument("file", metavar="FILE", help="what a spreadsheet wrote: CSV, or .xlsx where openpyxl is installed; - for "
                        "standard input")
    parser.add_argument("-o", "--output", metavar="FILE", help="the sheet to write; without it, or with -, standard output")
    parser.add_argument("--round", choices=("cautious",), help="round values that are no whole numbers to the side on which no yard comes out "
                        "better, and report each")
    parser.add_argument("--worksheet", metavar="NAME", help="the worksheet of a workbook, by its name or number; without it the first")
    parser.add_argument("--licence-out", metavar="FILE", help="also write a licence for the stations, with their names from a column name")
    parser.add_argument("--force", action="store_true", help="replace files that are there")


def _nothing(parser: argparse.ArgumentParser) -> None:
    pass


class Command(NamedTuple):
    """Where a command's function stands, which is imported only when the command is asked for, and its arguments."""

    module: str
    function: str
    arguments: Callable[[argparse.ArgumentParser], None]


COMMANDS = {
    "check": Command("questions", "check", _sheets),
    "verdict": Command("questions", "verdict", _sheets),
    "rows": Command("questions", "rows", _sheets),
    "margins": Command("questions", "margins", _margins),
    "summary": Command("questions", "summary", _sheets),
    "release": Command("deciding", "release", _release),
    "report": Command("deciding", "make_report", _report),
    "next": Command("deciding", "next_changes", _next),
    "fewest": Command("yards", "fewest", _fewest),
    "wenner": Command("measuring", "wenner", _wenner),
    "staged": Command("measuring", "staged", _staged),
    "carry": Command("carrying", "carry", _carry),
    "carry-back": Command("carrying", "carry_back", _carry),
    "import": Command("importing", "import_sheet", _import),
    "version": Command("versions", "version", _nothing),
}


def run_of(name: str) -> Callable[[argparse.Namespace], int]:
    """The function of a command."""
    command = COMMANDS[name]
    return getattr(importlib.import_module(f"{__package__}.{command.module}"), command.function)


def _whole() -> Parser:
    """The parser of what stands before a command, with the commands in its help."""
    listed = "\n".join(f"  {name.ljust(12)}{help_texts.COMMANDS[name].short}" for name in COMMANDS)
    made = Parser(prog="hocsimbur", usage="hocsimbur [-h] [--version] COMMAND ...", description=help_texts.ABOUT,
                  epilog=f"commands:\n{listed}\n\n{help_texts.STATUSES}", formatter_class=argparse.RawDescriptionHelpFormatter)
    made.add_argument("--version", action="store_true", help="the versions of this package and of the library")
    return made


def of_command(name: str) -> Parser:
    """The parser of a command."""
    text = help_texts.COMMANDS[name]
    made = Parser(prog=f"hocsimbur {name}", description=text.long, epilog="example:\n" + text.example,
                  formatter_class=argparse.RawDescriptionHelpFormatter)
    COMMANDS[name].arguments(made)
    return made


def _asked(argv: List[str]) -> Tuple[argparse.Namespace, Callable[[argparse.Namespace], int]]:
    """The arguments of a command and its function."""
    if argv and argv[0] in COMMANDS:
        return of_command(argv[0]).parse_args(argv[1:]), run_of(argv[0])
    made = _whole()
    arguments, others = made.parse_known_args(argv)
    if arguments.version:
        return arguments, run_of("version")
    if not others:
        made.error("a command is missing")
    import difflib
    near = difflib.get_close_matches(others[0].lower(), COMMANDS, 1)
    made.error(f"'{others[0]}' is no command" + (f"; did you mean {near[0]}?" if near else ""))


def _run(arguments: argparse.Namespace, run: Callable[[argparse.Namespace], int]) -> int:
    """A command, with what it raises reported and made a status."""
    try:
        return run(arguments)
    except Stopped as stopped:
        if getattr(arguments, "csv", False) and stopped.printed:
            show(stopped.printed)
        else:
            for said in stopped.said:
                tell(f"{stopped.of}: {said}" if stopped.of not in ("", "-") else said)
            if stopped.after:
                tell(stopped.after)
        return REFUSED


def main(argv: Optional[List[str]] = None) -> int:
    """Runs a command and answers its exit status; where all is well but for a note that could not be written, output has failed."""
    output.lost = False
    status = _main(argv)
    return FAILED if status == WELL and output.lost else status


def _main(argv: Optional[List[str]]) -> int:
    if sys.version_info < OLDEST:
        tell("hocsimbur: Python {}.{} or newer is needed".format(*OLDEST))
        return FAILED
    try:
        arguments, run = _asked(sys.argv[1:] if argv is None else argv)
        return _run(arguments, run)
    except ClosedPipe:
        return FAILED
    except Failed as error:
        tell(f"hocsimbur: {error}")
        return FAILED
    except LibraryMissing as error:
        tell(f"hocsimbur: the proved library is not found or is another one: {error}")
        tell("build it by `make`, or name it in the environment variable HOCSIMBUR_LIBRARY")
        return FAILED
    except KeyboardInterrupt:
        return INTERRUPTED
