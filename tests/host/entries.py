"""Asks the entries of the shared library by ctypes and compares each answer with the separate calculators.

    python3 -m tests.host.entries [--library target/host/libhocsimbur.so] [--count N]

Every list, test, sheet and licence that is stored for an operation's own program is asked, of summaries and releases
the first N. Any disagreement is printed, and the exit status is then 1. `make libraries` builds the library.
"""

import argparse
import ctypes
import random
import sys

from tests.calculator import calculator as calc
from tests.calculator.calculator import Refusal
from tests.measurements import readings, staged
from tests.questions import fewest, headroom, margins, working
from tests.sheets import carry, release, sheets, summary

LIBRARY = "target/host/libhocsimbur.so"
VERSION = 20000
FILL = -7777  # what stands in an array beforehand
SPARE = 5  # numbers of an array past those that are needed
DEPTHS = (8, 12)
SEED = 11
NUMBERED = 60  # sheets in addition to those that are stored
WIDTHS = {"margins": 2, "working": 30, "headroom": 1}  # numbers of a value line

KINDS = {"u8": ctypes.c_uint8, "u32": ctypes.c_uint32, "i64": ctypes.c_int64, "usize": ctypes.c_size_t}


class Library:
    """The entries, each with its arrays in order: what is read, then what is written, then the place."""

    def __init__(self, path):
        self.loaded = ctypes.CDLL(path)
        self.loaded.hocsimbur_version.restype = ctypes.c_uint32

    def version(self):
        return self.loaded.hocsimbur_version()

    def ask(self, name, read, written):
        """The answer, a count or a refusal, and the arrays written. An array is its kind and its numbers, an empty one is handed over as
        null; a number alone stands for itself."""
        held = [number if kind == "one" else (KINDS[kind] * len(number))(*number) for kind, number in [*read, *written]]
        place = (ctypes.c_size_t * 2)(9999, 9999)
        words = []
        for array in [*held, place]:
            if isinstance(array, int):
                words.append(ctypes.c_uint32(array))
            else:
                words += [ctypes.cast(array, ctypes.c_void_p) if len(array) else None, ctypes.c_size_t(len(array))]
        entry = getattr(self.loaded, "hocsimbur_" + name)
        entry.restype = ctypes.c_int64
        answer = entry(*words)
        after = [list(array) for array in held[len(read):]]
        if answer >= 0:
            return (answer, after) if list(place) == [9999, 9999] else ("a place with a count", after)
        return Refusal(-answer, *place), after


def filled(numbers, length):
    return [*numbers, *[FILL] * (length - len(numbers))]


def with_numbers(library, name, kind, asked, count):
    """The answer of an entry that reports some numbers: a refusal or those numbers; with an array too short it must be 8, and untouched."""
    answer, (after,) = library.ask(name, [(kind, asked)], [("i64", [FILL] * (count + SPARE))])
    short, (kept,) = library.ask(name, [(kind, asked)], [("i64", [FILL] * (count - 1))])
    wanted = answer if isinstance(answer, Refusal) else Refusal(8, 0, 0)
    wrong = [] if (short, kept) == (wanted, [FILL] * (count - 1)) else [f"{short} in a short array, not {wanted}"]
    if isinstance(answer, Refusal):
        return answer, wrong + ([] if after == [FILL] * len(after) else ["a refusal that writes"])
    wrong += [] if answer == count and after[count:] == [FILL] * SPARE else [f"answer {answer} and {after}"]
    return after[:count], wrong


def soil(library):
    for line in readings.lines():
        try:
            numbers = [int(field) for field in line.split(",")]
        except ValueError:
            continue
        if max(numbers) <= readings.MOST_NUMBER:
            answer, wrong = with_numbers(library, "soil", "u32", numbers, 7)
            given = answer if isinstance(answer, Refusal) else tuple(answer)
            yield line, wrong + readings.judge(numbers, given, DEPTHS)


def split(library):
    for line in staged.all_lines():
        try:
            numbers = [int(field) for field in line.split(",")]
        except ValueError:
            continue
        if max(map(abs, numbers)) < 2**63:
            answer, wrong = with_numbers(library, "split", "i64", numbers, 3)
            yield line, wrong + staged.judge(tuple(numbers), answer)


def rows_of(library, sheet, count):
    """The rows of a sound sheet by the entry that `tests/host/row_entry.py` judges."""
    _, (after,) = library.ask("rows_at", [("u8", sheet)], [("u8", bytes(160 * count))])
    numbers = [int.from_bytes(bytes(after[i:i + 8]), "little", signed=True) for i in range(0, len(after), 8)]
    return [numbers[i:i + calc.ROW_LENGTH] for i in range(0, len(numbers), calc.ROW_LENGTH)]


def summaries(library):
    for sheet, rows_room, room in summary.blocks():
        wanted = summary.answer(sheet, rows_room, room)
        answer, (rows, sums) = library.ask("summary", [("u8", sheet)], [("i64", [FILL] * rows_room), ("i64", [FILL] * room)])
        if isinstance(wanted, Refusal):
            right = (wanted, [FILL] * rows_room, [FILL] * room)
        else:
            computed = rows_of(library, sheet, len(wanted))
            stations = summary.summary_of(computed)
            right = (len(stations), filled(sum(computed, []), rows_room), filled(sum(map(list, stations), []), room))
        yield f"{sheet!r}", [] if (answer, rows, sums) == right else [f"{answer}, not {right[0]}, or other numbers"]


def released(licence, cases, rows, numbers):
    """Whether the numbers of each entry are right, and its fault current one that a right program may report."""
    wanted = [list(entry) for entry in release.release_of(licence, cases, rows)]
    entries = [numbers[i:i + 8] for i in range(0, len(numbers), 8)]
    of_station = [[case for case in cases if case.station == entry[0]] for entry in entries]
    return [entry[:7] for entry in entries] == [entry[:7] for entry in wanted] and all(
        release.fault_is_right(own, entry[7]) for own, entry in zip(of_station, entries))


def releases(library):
    for sheet, licence, room in release.blocks():
        wanted = release.answer(sheet, licence, room)
        answer, (table,) = library.ask("release", [("u8", sheet), ("u32", licence)], [("i64", [FILL] * room)])
        if isinstance(wanted, Refusal):
            right = answer == wanted and table == [FILL] * room
        else:
            count = len(licence) // 3
            rows = rows_of(library, sheet, len(wanted))
            kept = table[8 * count:] == [FILL] * (room - 8 * count)
            right = answer == count and kept and released(licence, wanted, rows, table[:8 * count])
        yield f"{licence} {sheet!r}", [] if right else [f"{answer}, not {wanted if isinstance(wanted, Refusal) else 'its numbers'}"]


def searches(library):
    """The inputs of the program `fewest`, its stored one first, and the stored searches as sheets, with all that is not read as it stands."""
    some = [fewest.parts(text) for text in fewest.inputs()]
    some += [(sheets.sheet_of([case]), side) for case, side in fewest.stored()]
    for sheet, side in some:
        reported = fewest.sheet_answer(sheet, side, fewest.sure)
        for room in (4, 3, 2):
            answer, (numbers,) = library.ask("fewest", [("u8", sheet), ("one", side)], [("i64", [FILL] * room)])
            wanted = reported if isinstance(reported, Refusal) else Refusal(8, 0, 0) if room < 3 else (1, [*reported[1:]]) if reported[0] == "found" else (0, [0, 0, reported[1]])
            right = (wanted, [FILL] * room) if isinstance(wanted, Refusal) else (wanted[0], filled(wanted[1], room))
            yield f"{side} {sheet[-400:]!r}", [] if (answer, numbers) == right else [f"{answer} and {numbers}, not {wanted}"]


def carried(library):
    rng = random.Random(SEED)
    for number in range(400):
        sheet = sheets.numbered_sheet(SEED, number)[1]
        on_form = carry.answer(carry.BACK, sheet, calc.MAX_BYTES)
        former = sheet if isinstance(on_form, Refusal) else on_form
        for way, entry, text in ((carry.BACK, "carry_back", sheet), (carry.ON, "carry", former)):
            room = rng.choice((0, 100, 400, calc.MAX_BYTES, len(text), len(text) + 40))
            wanted = carry.answer(way, text, room)
            answer, (buffer,) = library.ask(entry, [("u8", text)], [("u8", [9] * room)])
            right = (wanted, []) if isinstance(wanted, Refusal) else (len(wanted), list(wanted))
            same = (answer, buffer) == (right[0], [*right[1], *[9] * (room - len(right[1]))])
            yield f"{entry} {text!r}", [] if same else [f"{answer}, not {right[0]}, or other bytes"]


# --------------------------------------------------------------------------
# Some numbers of every value line.
# --------------------------------------------------------------------------

def margins_wrong(library, sheet, cases, parts):
    """By the rows of the sheet."""
    wanted = [list(margin[3:]) for margin in margins.margins_of(rows_of(library, sheet, len(cases)))]
    return [] if parts == wanted else [f"{parts}, not {wanted}"]


def working_wrong(library, sheet, cases, parts):
    return [wrong for case, part in zip(cases, parts, strict=True) for wrong in working.judge(case, part, DEPTHS)]


def headroom_wrong(library, sheet, cases, parts):
    """By the verdicts of rows at the fault current and at 1 A more."""
    def verdict(case):
        return rows_of(library, sheets.sheet_of([case]), 1)[0][2]
    return [wrong for case, (fault,) in zip(cases, parts, strict=True)
            for wrong in headroom.judge(case, fault or headroom.NONE, verdict)]


def line_sheets():
    """Those stored for the summary, then some by number, of which many are refused."""
    stored = [sheet for sheet, _, _ in summary.blocks()]
    return dict.fromkeys([*stored, *(sheets.numbered_sheet(SEED, number)[1] for number in range(NUMBERED))])


def line_wrong(library, name, judge, sheet, cases, room):
    """What is wrong with the answer in an array of so many numbers; null stands for an array of none."""
    answer, (numbers,) = library.ask(name, [("u8", sheet)], [("i64", [FILL] * room)])
    width = WIDTHS[name]
    refusal = cases if isinstance(cases, Refusal) else Refusal(8, 0, 0) if room < width * len(cases) else None
    if refusal:
        return [] if (answer, numbers) == (refusal, [FILL] * room) else [f"{answer} in {room} numbers, not {refusal}, or other numbers"]
    used = width * len(cases)
    if (answer, numbers[used:]) != (len(cases), [FILL] * (room - used)):
        return [f"{answer} in {room} numbers, or other numbers past the last"]
    return judge(library, sheet, cases, [numbers[i:i + width] for i in range(0, used, width)])


def line_by_line(name, judge):
    def asked(library):
        for sheet in line_sheets():
            cases = calc.read_sheet(sheet)
            used = 0 if isinstance(cases, Refusal) else WIDTHS[name] * len(cases)
            rooms = sorted({0, max(used - 1, 0), used, used + SPARE})
            yield f"{sheet!r}", [wrong for room in rooms for wrong in line_wrong(library, name, judge, sheet, cases, room)]
    return asked


QUESTIONS = {"soil": soil, "split": split, "summary": summaries, "release": releases, "fewest": searches, "carry and carry_back": carried,
             "margins": line_by_line("margins", margins_wrong), "working": line_by_line("working", working_wrong),
             "headroom": line_by_line("headroom", headroom_wrong)}


def main():
    parser = argparse.ArgumentParser(description=__doc__.split("\n")[0])
    parser.add_argument("--library", default=LIBRARY)
    parser.add_argument("--count", type=int, default=40)
    asked = parser.parse_args()
    library = Library(asked.library)
    failed = library.version() != VERSION
    for name, question in QUESTIONS.items():
        reported = 0
        for reported, (text, wrong) in enumerate(question(library), start=1):
            if wrong:
                failed = True
                print(f"{name}: {text[:300]}", *wrong, sep="\n  ")
            if reported == asked.count and name in ("summary", "release"):
                break
        print(f"{name}: {reported} asked")
    return 1 if failed else 0


if __name__ == "__main__":
    sys.exit(main())
