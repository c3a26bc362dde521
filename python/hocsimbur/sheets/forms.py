"""What is wrong with the form of a name or a value of a sheet, in words: refusals 2 and 3.

That something is wrong, and in which cell, the library has said; here it is only described."""
from __future__ import annotations

import re
from typing import List, Sequence, Tuple

from . import rounding, units
from .names import BY_NAME

CARRY = "`hocsimbur carry` makes today's sheet of it"
IMPORT = "`hocsimbur import` makes a sheet of it"
LONGEST = 40  # characters of a field that are quoted

_SPREADSHEETS = (  # what stands at the start of a file that is no plain text of names
    (b"PK\x03\x04", "this is a spreadsheet file (.xlsx) and no text"),
    (b"\xd0\xcf\x11\xe0", "this is a spreadsheet file (.xls) and no text; save it as .xlsx or as CSV first"),
    (b"\xff\xfe", "the text is UTF-16, two bytes a character"),
    (b"\xfe\xff", "the text is UTF-16, two bytes a character"),
    (b"\xef\xbb\xbf", "a byte-order mark (bytes 239, 187, 191) stands before the first name"),
)


class Unclear(Exception):
    """An amount that is none, or is no whole number of its unit: the message says what is there and what is allowed."""


def cell(name: str, column: int) -> str:
    """A column in words: its name and its place."""
    return f"{name} (column {column})" if name else f"column {column}"


def foreign(sheet: bytes) -> str:
    """What a file is that a spreadsheet wrote and that is no plain text; '' where nothing shows that."""
    for start, said in _SPREADSHEETS:
        if sheet.startswith(start):
            return f"{said}; {IMPORT}"
    return "the file has bytes 0 and is no plain text; save it as CSV in UTF-8" if b"\0" in sheet[:1000] else ""


def short(text: str) -> str:
    """A field as it is quoted, cut where it is long."""
    return text if len(text) <= LONGEST else text[:LONGEST] + "…"


def _parted(line: str) -> str:
    """What parts the fields of a line instead of commas; '' where commas do."""
    for sign, called in ((";", "semicolons"), ("\t", "tabs")):
        if sign in line:
            return f"the fields are separated by {called} and not by commas; {IMPORT}"
    return ""


def _spoilt(text: str) -> str:
    """What stands around a name or value that would be right without it; '' where nothing does."""
    if text.endswith("\r"):
        return f"the line ends with two bytes, 13 and 10 (CRLF), and not with byte 10 alone; {IMPORT}"
    if '"' in text:
        return f"{short(text)} stands in quotes; {IMPORT}"
    if text != text.strip():
        return f"there are spaces around '{short(text.strip())}'; {IMPORT}"
    return ""


def missing_names(names: Sequence[str], form: Sequence[str]) -> str:
    """The names of a form that are not in the line of names."""
    missing = [name for name in form if name not in names]
    told = ", ".join(missing[:-1]) + " and " + missing[-1] if len(missing) > 1 else missing[0]
    return f"{told} {'are' if len(missing) > 1 else 'is'} missing: a sheet has {len(form)} names, here are {len(names)}"


def unknown_name(name: str, names: Sequence[str], form: Sequence[str]) -> str:
    """What is said of a name that the form does not have."""
    if not name:
        return f"no name stands here, for instance after a comma too many; {IMPORT}"
    if name in ("ms", "lines"):
        return f"{name} is a name of the former sheet of 18 names; {CARRY}"
    if name in BY_NAME:
        return f"{name} is one of today's 22 names; `hocsimbur carry` reads sheets of the former 18, and today's need no carry"
    if name.lower() in form:
        return f"names are in small letters, {name.lower()} and not {name}; {IMPORT}"
    import difflib  # only where a name is wrong
    near = difflib.get_close_matches(name.lower(), [one for one in form if one not in names] or form, 1)
    if near:
        return f"'{short(name)}' is no name of a sheet; did you mean {near[0]}?"
    return f"'{short(name)}' is no name of a sheet; the names are {', '.join(form)}"


def wrong_name(names: List[str], line: int, column: int, form: Sequence[str]) -> Tuple[str, str]:
    """The place and what is wrong with a line of names of a form, in which the library has refused a column."""
    if column > len(names):
        return f"line {line}", missing_names(names, form)
    name = names[column - 1]
    parted = _parted(name)
    if parted:
        return f"line {line}", parted
    spoilt = _spoilt(name)
    known = name.strip(' "\r')
    where = f"line {line}, " + cell(known if known in form else "", column)
    if spoilt:
        return where, spoilt
    if name in names[:column - 1]:
        return where, f"{name} stands already in column {names.index(name) + 1}; each name stands once"
    return where, unknown_name(name, names, form)


def whole_number(unit: str) -> str:
    """'a whole number' with its unit."""
    return "a whole number" + (f" {'' if unit == 'per mille' else 'of '}{unit}" if unit else "")


def _number(text: str, name: str, unit: str, allowed: str) -> str:
    """What is wrong with a field that should be a whole number."""
    whole = f"{whole_number(unit)}, {allowed}"
    if re.fullmatch(r"\d+[.]0*", text):
        return f"{short(text)} has a decimal point; write {short(text.split('.')[0])}, or let `hocsimbur import` do so"
    if re.fullmatch(r"\d*[.]\d+", text):
        advice = rounding.advice(name)
        if text.isascii() and units.outside(name, text):
            taken = units.allowed(name)
            advice = f"is it in another unit? `hocsimbur import` takes {taken}" if taken else ""
        return f"{short(text)} is not {whole}" + (f"; {advice}" if advice else "")
    if re.fullmatch(r"0\d+", text):
        return f"{short(text)} starts with 0; write {text.lstrip('0') or '0'}"
    if re.fullmatch(r"[0-9]{7,}", text):
        return f"{short(text)} has {len(text)} digits, at most six are allowed; it must be {whole}"
    if re.fullmatch(r"[-+\u2212]\d+", text):
        return f"{short(text)} has a sign; it must be {whole}"
    if re.fullmatch(r"[\d.]+ ?[^\W\d_].*", text):
        return f"'{short(text)}' has letters; write only digits, {whole}"
    return f"'{short(text)}' is no number; it must be {whole}"


def wrong_value(names: List[str], values: List[str], line: int, column: int) -> Tuple[str, str]:
    """The place and what is wrong with a line of values, in which the library has refused a column."""
    where = f"line {line}"
    if values == [""]:
        return where, "the line is empty; take it out, or let `hocsimbur import` do so"
    if column > len(names):
        return f"{where}, column {column}", f"there are {len(values)} values for {len(names)} names; a decimal comma splits a value in two"
    name = names[column - 1]
    if column > len(values):
        return f"{where}, {cell(name, column)}", f"there are only {len(values)} values for {len(names)} names; this one is missing"
    value = values[column - 1]
    described = _parted(value) or _spoilt(value)
    where = f"{where}, {cell(name, column)}"
    if described:
        return where, described
    own = BY_NAME.get(name)
    unit, allowed = (own.unit, own.allowed) if own else FORMER_ONLY[name]
    if not value:
        return where, f"no value stands here; it must be {whole_number(unit)}, {allowed}"
    return where, _number(value, name, unit, allowed)


# unit and range of the two names that only the former sheet has
FORMER_ONLY = {"ms": ("ms", "9..3000"), "lines": ("", "2..25")}
