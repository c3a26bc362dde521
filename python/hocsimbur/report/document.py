"""The report of a portfolio: one HTML file without scripts and without anything fetched, that prints on A4.

The same sheet, licence and date give the same bytes."""
from __future__ import annotations

import datetime
import hashlib
from html import escape
from typing import Dict, List, NamedTuple, Optional, Sequence

from .. import core
from ..portfolio.advice import Change
from ..portfolio.decision import Portfolio
from ..sheets.files import File
from . import drawing, pages
from .style import CSS

_MONTHS = ("January", "February", "March", "April", "May", "June", "July", "August", "September", "October", "November", "December")


def today() -> str:
    """Today's date as a report shows it, for example '17 November 2026'."""
    day = datetime.date.today()
    return f"{day.day} {_MONTHS[day.month - 1]} {day.year}"


class Options(NamedTuple):
    """What a report shows besides its portfolio."""

    date: str
    project: str = ""
    engineer: str = ""
    rise_limit: Optional[int] = None  # mV: lines whose potential rise is above it are marked


def render(portfolio: Portfolio, files: Sequence[File], options: Options, changes: Optional[Dict[int, List[Change]]] = None) -> str:
    """The report of a portfolio that was asked of files, as the text of an HTML file, with changes for stations that are held."""
    sheets = tuple(pages.Sheet(file.name, hashlib.sha256(file.data).hexdigest()) for file in files)
    source = pages.Source(sheets, core.version(), options.date, options.project, options.engineer, options.rise_limit)
    title = f"Ground-grid verdicts: {source.called}, {options.date}"
    return (f'<!DOCTYPE html>\n<html lang="en"><head><meta charset="utf-8">'
            f'<meta name="viewport" content="width=device-width, initial-scale=1"><title>{escape(title)}</title>\n'
            f'<style>\n{CSS}</style></head><body><main>\n'
            f'{pages.pages(portfolio, source, drawing.scale(portfolio), changes or {})}</main></body></html>\n')
