"""The cells of a sheet: its first line holds names, each later line values, parted by commas."""
from __future__ import annotations

from typing import Dict, List


def lines(sheet: bytes) -> List[bytes]:
    """The lines of a sheet, each without its byte 10; what follows the last byte 10 is a line too where it is not empty."""
    parts = sheet.split(b"\n")
    return parts[:-1] if parts[-1] == b"" else parts


def cells(line: bytes) -> List[str]:
    """The fields of a line; bytes that are no UTF-8 are shown as they are escaped."""
    return line.decode("utf-8", "backslashreplace").split(",")


def cases(sheet: bytes) -> List[Dict[str, int]]:
    """The value lines of an accepted sheet, each as its names with their whole numbers."""
    names, *values = [cells(line) for line in lines(sheet)]
    return [dict(zip(names, map(int, value))) for value in values]


def text(cases_of_sheet: List[Dict[str, int]]) -> bytes:
    """A sheet of cases, with the names in the order of the first case."""
    names = list(cases_of_sheet[0])
    written = [",".join(names)] + [",".join(str(case[name]) for name in names) for case in cases_of_sheet]
    return "".join(line + "\n" for line in written).encode()
