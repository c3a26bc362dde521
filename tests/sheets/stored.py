"""The sheets that the program `sheets` is run on, each with what is asked of it, gathered from the modules that make them.

    python3 -m tests.sheets.stored --write    # rewrites crates/sheets/stdin

A part of the input is a first line, the sheet and a byte 0. What is printed for it is the first line, the answers and an empty line.
"""

import sys
from pathlib import Path

from tests.calculator import calculator as calc
from tests.calculator.printed import SHEET_END, sheet_answers
from tests.sheets import carry, release, sheets, summary

FILE = Path(__file__).parents[2] / "crates" / "sheets" / "stdin"
MOST_BYTES = 2097152  # fewer than these are read
KINDS = ("rows", "summary", "carry", "release")

# First lines that ask nothing: no kind, lengths of another count or form, lengths that no table has.
NO_HEADS = (
    b"", b"row", b"rows,1", b"Rows", b"rows ", b"verdicts", b",rows",
    b"summary", b"summary,", b"summary,20", b"summary,20,", b"summary,,6", b"summary,x,6", b"summary,20,06", b"summary,20,6,6",
    b"summary,%d,6" % (summary.MOST_ROWS + 1), b"summary,20,%d" % (summary.MOST_SUMMARY + 1),
    b"carry", b"carry,", b"release", b"release,", b"release,x", b"release,8,8", b"release,%d" % (release.TABLE + 1),
)
# Licences that are no list of 32-bit numbers, or longer than the program reads.
NO_LICENCES = (b"x", b"3,", b",2", b"3,-2", b"%d,2" % 2**32, b",".join([b"1"] * 781))


def unknown():
    """Parts that are no question: each has a sound sheet, so that nothing else is wrong with it."""
    sheet = sheets.sheet_of(sheets.cases_of_less_current(sheets.BATCH_SEED)[:1])
    parts = [b"%s\n3,2,0\n%s" % (head, sheet) if head.startswith(b"release") else b"%s\n%s" % (head, sheet) for head in NO_HEADS]
    return parts + [b"release,%d\n%s\n%s" % (release.ENTRY_LENGTH, licence, sheet) for licence in NO_LICENCES]


def text():
    """All parts: the sheets of each kind, then those that ask nothing."""
    return b"".join((
        sheets.batch(), summary.text_of(summary.blocks()), carry.all_records(), release.text_of(release.blocks()),
        *(part + SHEET_END for part in unknown())))


def stored():
    """Each stored part, and what is printed for it without its first line."""
    asked = FILE.read_bytes()
    reported = sheet_answers(asked, FILE.with_name("stdout").read_text(encoding="ascii"))
    return list(zip(asked.split(SHEET_END)[:-1], reported))


def stored_of(kind):
    """The stored input of a kind, and what is printed for it without the first lines."""
    parts = [(part, reported) for part, reported in stored()[: -len(unknown())] if kind_of(part) == kind]
    return b"".join(part + SHEET_END for part, _ in parts), "".join(reported for _, reported in parts)


def kind_of(part):
    return part.split(calc.LINE_END)[0].split(calc.FIELD_END)[0].decode("ascii")


if __name__ == "__main__":
    if sys.argv[1:] != ["--write"]:
        sys.exit(__doc__)
    FILE.write_bytes(text())
