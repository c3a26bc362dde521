"""What is stored: a report of four stations of the example, at a fixed date, and the help of every command.

    cd python && python3 -m tests.golden      writes both again, after an intended change of them or of the library's version
"""
from __future__ import annotations

import argparse
import pathlib

from hocsimbur.command import cli
from hocsimbur.portfolio import licence

from .portfolios import LICENCE, SHEET, rendered

STATIONS = (101, 131, 152, 215)  # released; undecided; unsafe, missing a season and with a small wire; without a line
DATE = "1 July 2026"
FILE = pathlib.Path(__file__).parent / "golden" / "report.html"
HELP = FILE.with_name("help.txt")


def made() -> str:
    """The report that is stored."""
    granted = licence.Licence(tuple(one for one in LICENCE.stations if one.station in STATIONS))
    return rendered(SHEET, "portfolio.csv", granted, DATE)


def helped(parser: argparse.ArgumentParser) -> str:
    """The help of a command without its layout, which differs between versions of Python."""
    lines = [parser.prog, parser.description or "", parser.epilog or ""]
    for one in parser._actions:
        if "--help" not in one.option_strings:
            called = ", ".join(one.option_strings) or one.dest
            facts = [f"{name}={getattr(one, name)}" for name in ("metavar", "nargs", "choices", "default") if getattr(one, name) is not None]
            lines.append(" ".join([called, *facts, "required" if one.required else "optional"]) + f": {one.help}")
    return "\n".join(lines) + "\n"


def helps() -> str:
    """The help that is stored."""
    return "\n".join(map(helped, [cli._whole(), *map(cli.of_command, cli.COMMANDS)]))


if __name__ == "__main__":
    FILE.parent.mkdir(exist_ok=True)
    FILE.write_text(made(), encoding="utf-8")
    HELP.write_text(helps(), encoding="utf-8")
