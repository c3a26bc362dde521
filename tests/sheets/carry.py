"""Sheets carried over to today's names and back, after request (e) of document 02, with a judge of an
answer by the request's own words; and the sheets that the program `sheets` is asked to carry, which
tests/sheets/stored.py stores.

    python3 -m tests.sheets.carry [--seed S] [--count N]           random sheets through target/bin/sheets
"""

import argparse
import random
import subprocess
import sys
from collections import Counter, namedtuple
from functools import lru_cache
from itertools import product
from types import SimpleNamespace

from tests.calculator import calculator as calc
from tests.calculator.calculator import CLOCKS, COUNTS, FIELD_END, LINE_END, Refusal, span_of
from tests.calculator.printed import SHEET_END, sheet_answers
from tests.sheets import sheets
from tests.sheets.sheets import OLD_FREQUENCY, OLD_NAMES

PROGRAM = "target/bin/sheets"
KIND = b"carry,"
BUFFER = calc.MAX_BYTES  # the bytes of its buffer
KEPT = "kept,"
UNKNOWN = "unknown\n"
SEED, RANDOM_SHEETS = 5, 150
SHORT = 2000  # bytes of a random sheet that is stored

# Document 01's own names, each with the range of today's names that have its place.
FORMER_NAMES = ("station", "season", "soil", "layer", "thick", "ms", "body", "fault", "split", "xr", "lines", "space", "depth",
                "dia", "rods", "rodlen", "place", "metal")
FORMER_COLUMNS = tuple((name, calc.SPANS[OLD_NAMES.get(name, (name,))[0]]) for name in FORMER_NAMES)
PRESENT, FORMER = calc.FORM, calc.Form(FORMER_COLUMNS)
COLUMNS = {PRESENT: calc.COLUMNS, FORMER: FORMER_COLUMNS}


# --------------------------------------------------------------------------
# The conversion.
# --------------------------------------------------------------------------

def on(case):
    """"ms copied to the three times, lines to both counts, and hz 60"; all else as it is."""
    values = case._asdict()
    ms, lines = values.pop("ms"), values.pop("lines")
    return PRESENT.record(**values, **dict.fromkeys(CLOCKS, ms), **dict.fromkeys(COUNTS, lines), hz=OLD_FREQUENCY)


def back(case):
    """A case with one time, one count and 60 Hz in document 01's own names."""
    values = case._asdict()
    values.update(ms=case.shock, lines=case.across)
    return FORMER.record(**{name: values[name] for name in FORMER.names})


def change(case, line):
    """On the way back: 9, 10 or 11 of one line, "in that order", or None."""
    if len({getattr(case, clock) for clock in CLOCKS}) > 1:
        return Refusal(9, line, 0)
    if case.across != case.along:
        return Refusal(10, line, 0)
    if case.hz != OLD_FREQUENCY:
        return Refusal(11, line, 0)
    return None


def no_change(case, line):
    return None


# A way has the form of its source, that of what is written, what becomes of a case, and its refusals of a line.
Way = namedtuple("Way", "name source target convert refuse")
ON = Way("on", FORMER, PRESENT, on, no_change)
BACK = Way("back", PRESENT, FORMER, back, change)
WAYS = (ON, BACK)


def sheet_text(names, cases):
    """A sheet of some names and of cases, each the values in the order of the names."""
    lines = [",".join(map(str, fields)) + "\n" for fields in (names, *cases)]
    return "".join(lines).encode("ascii")


@lru_cache(maxsize=4096)
def cases_to_carry(way, sheet):
    """A refusal of a sheet that no buffer changes, or its cases."""
    cases = calc.read_sheet(sheet, form=way.source)
    if isinstance(cases, Refusal):
        return cases
    refusals = (way.refuse(case, line) for line, case in enumerate(cases, start=2))
    return next(filter(None, refusals), cases)


def answer(way, sheet, room):
    """A refusal, or the bytes written to a buffer of this length."""
    cases = cases_to_carry(way, sheet)
    if isinstance(cases, Refusal):
        return cases
    text = sheet_text(way.target.names, map(way.convert, cases))
    return text if len(text) <= room else Refusal(8, 0, 0)


def written(given):
    """How many bytes an answer writes."""
    return 0 if isinstance(given, Refusal) else len(given)


# --------------------------------------------------------------------------
# Judging an answer by the words of the request.
# --------------------------------------------------------------------------

def judge(way, sheet, room, given, kept):
    """What is wrong with an answer, and with how many bytes of the buffer kept what they held."""
    complaints = []
    if kept != BUFFER - written(given):
        complaints.append(f"{kept} bytes kept after {written(given)} written")
    wanted = cases_to_carry(way, sheet)
    if isinstance(wanted, Refusal):
        return complaints if given == wanted else [*complaints, f"{shown(given)}, not {wanted}"]
    if isinstance(given, Refusal):
        return complaints + judge_short(way, wanted, room, given)
    if len(given) > room:
        complaints.append(f"{len(given)} bytes in {room}")
    return complaints + judge_text(way, wanted, given)


def shown(given):
    return given if isinstance(given, Refusal) else f"{len(given)} bytes"


def judge_short(way, cases, room, given):
    """The one refusal that is left: "8, 0, 0 either way when the output buffer is too short"."""
    needed = len(sheet_text(way.target.names, map(way.convert, cases)))
    if given == Refusal(8, 0, 0) and room < needed:
        return []
    return [f"{given} where {needed} bytes are needed and {room} lent"]


def judge_text(way, cases, text):
    """The sheet that is written, name by name and value by value."""
    *lines, rest = text.split(LINE_END)
    if rest or not lines:
        return ["the last line does not end"]
    names, *lines = (line.split(FIELD_END) for line in lines)
    if tuple(names) != way.target.name_bytes:
        return [f"the names are {names}"]
    if len(lines) != len(cases):
        return [f"{len(lines)} lines for {len(cases)}"]
    return [f"line {line}: {wrong}" for line, (case, fields) in enumerate(zip(cases, lines), start=2)
            for wrong in judge_line(way, case, fields)]


def judge_line(way, case, fields):
    """"their other values are unchanged", and the new ones are those of the one that they replace."""
    if len(fields) != way.target.count:
        return [f"{len(fields)} values"]
    replaced = {**dict.fromkeys(CLOCKS, "ms"), **dict.fromkeys(COUNTS, "lines"), "ms": CLOCKS[0], "lines": COUNTS[0]}
    values = case._asdict()
    wrong = []
    for name, field in zip(way.target.names, fields):
        value = values.get(name, values.get(replaced.get(name), OLD_FREQUENCY))
        if field != b"%d" % value:
            wrong.append(f"{name} is {field}, not {value}")
    return wrong


# --------------------------------------------------------------------------
# Sheets of both forms, sound and damaged.
# --------------------------------------------------------------------------

def both_say(case):
    """A case with one time, one count and 60 Hz."""
    return calc.with_lines(calc.with_one_time(case, case.shock), case.across)._replace(hz=OLD_FREQUENCY)


class Sheet(sheets.Sheet):
    """A sheet of a form with cases that both forms can say."""

    def __init__(self, rng, form):
        self.form = form
        super().__init__(rng, form.names)

    def fields(self, case):
        values = both_say(case)._asdict()
        return super().fields(SimpleNamespace(**values, ms=case.shock, lines=case.across))


def out_of_range(sheet, rng):
    name, spans = rng.choice(COLUMNS[sheet.form])
    low, high = spans[-1]
    sheet.set(sheet.line(), name, rng.choice((high + 1, max(low - 1, 0), 0, 999999, 51, 69)))


def other_name(sheet, rng):
    """A name of the other form."""
    others = [name for form in COLUMNS for name in form.names if name not in sheet.form.names]
    sheet.names[rng.randrange(len(sheet.names))] = rng.choice(others)


def other_times(sheet, rng):
    line = sheet.line()
    for name in rng.sample(CLOCKS, rng.randint(1, 3)):
        sheet.set(line, name, rng.randint(*span_of(name)))


def other_counts(sheet, rng):
    sheet.set(sheet.line(), rng.choice(COUNTS), rng.randint(2, 25))


def other_frequency(sheet, rng):
    sheet.set(sheet.line(), "hz", 50)


def several_changes(sheet, rng):
    for _ in range(rng.randint(2, 5)):
        rng.choice(CHANGES)(sheet, rng)


def change_and_damage(sheet, rng):
    """A line that is refused on the way back, and a damage, which comes first."""
    rng.choice(CHANGES)(sheet, rng)
    rng.choice(LINE_DAMAGES)(sheet, rng)


CHANGES = (other_times, other_counts, other_frequency)
LINE_DAMAGES = (
    sheets.wrong_form, sheets.too_few_values, sheets.too_many_values, sheets.empty_line,
    out_of_range, sheets.disagreement, sheets.repeated_key)
DAMAGES = LINE_DAMAGES + (
    sheets.unknown_name, sheets.repeated_name, sheets.fewer_names, sheets.surplus_name,
    sheets.no_value_line, other_name)
BYTE_DAMAGES = (
    sheets.empty, sheets.no_last_line_end, sheets.carriage_returns, sheets.byte_order_mark,
    sheets.only_one_byte_value, sheets.changed_byte, sheets.removed_byte, sheets.added_byte,
    sheets.cut_off, sheets.noise)
CHOICES = {
    FORMER: DAMAGES * 2 + BYTE_DAMAGES + (sheets.nothing,) * 20,
    PRESENT: DAMAGES + BYTE_DAMAGES + CHANGES * 4 + (several_changes, change_and_damage) * 6
    + (sheets.nothing,) * 20,
}


def random_sheet(rng, form):
    sheet, damage = Sheet(rng, form), rng.choice(CHOICES[form])
    if damage in BYTE_DAMAGES:
        return damage(sheet.bytes(), rng)
    damage(sheet, rng)
    return sheet.bytes()


def widest(values, form):
    """A case of a form with the most digits in each value."""
    return form.record(**{name: values.get(name, spans[-1][1]) for name, spans in COLUMNS[form]})


def narrowest(values, form):
    """A case of a form with one digit where the range allows it."""
    return form.record(**{name: values.get(name, spans[0][0]) for name, spans in COLUMNS[form]})


def many_cases(make, form, count):
    """Stations of five digits, the last first, in season 4."""
    return [make({"station": span_of("station")[1] - i, "season": span_of("season")[1], "hz": OLD_FREQUENCY}, form) for i in range(count)]


def large_sheets():
    """The largest texts of both ways; one line too many; what is refused in the last line alone; the most bytes
    and one more.
    """
    most = calc.MAX_VALUE_LINES
    for form in (FORMER, PRESENT):
        yield sheet_text(form.names, many_cases(widest, form, most))
        yield sheet_text(form.names, many_cases(narrowest, form, most + 1))
    cases = many_cases(narrowest, FORMER, most)
    yield sheet_text(FORMER.names, [*cases[:-1], cases[0]])
    *cases, last = many_cases(narrowest, PRESENT, most)
    for values in ({"wire": 10}, {"along": 3}, {"hz": 50}):
        yield sheet_text(PRESENT.names, [*cases, last._replace(**values)])
    short = sheet_text(FORMER.names, many_cases(widest, FORMER, 1))
    yield from (sheets.filled_up(short, calc.MAX_BYTES + more) for more in (0, 1))


def changed_sheets():
    """Two lines, each with every choice of what the way back refuses; and times that differ in one place."""
    changes = ({"wire": 11}, {"along": 4}, {"hz": 50})
    first, second = many_cases(narrowest, PRESENT, 2)
    for ours, theirs in product(product((False, True), repeat=3), repeat=2):
        yield sheet_text(PRESENT.names, [
            case._replace(**{name: value for taken, new in zip(some, changes) if taken for name, value in new.items()})
            for case, some in ((first, ours), (second, theirs))])
    for times in product((999, 1000), repeat=3):
        yield sheet_text(PRESENT.names, [second, first._replace(**dict(zip(CLOCKS, times)))])


def sheets_of_ends():
    """Each value at the ends of its range, and one beyond each end, in every column of both forms."""
    for form, columns in COLUMNS.items():
        plain = widest({"hz": OLD_FREQUENCY}, form)
        for name, spans in columns:
            ends = {end for span in spans for end in span}
            for value in sorted({value for end in ends for value in (end - 1, end, end + 1) if value >= 0}):
                yield sheet_text(form.names, [plain._replace(**{name: value})])


def rooms_for(sheet, rng):
    """Buffer lengths for a sheet: the most, none, and where it is carried the exact fit, one less and any."""
    needed = [written(answer(way, sheet, BUFFER)) for way in WAYS]
    fits = {room for count in needed if count for room in (count, count - 1, rng.randrange(count))}
    return (BUFFER, *sorted(fits, reverse=True)) if fits else (BUFFER, 0)


def record(rooms, sheet):
    """What the program reads for a sheet."""
    return b"%s%s\n%s%s" % (KIND, ",".join(map(str, rooms)).encode("ascii"), sheet, SHEET_END)


def random_sheets(seed, count):
    """So many sheets of each form that can be stored."""
    for form, number in product((FORMER, PRESENT), range(count)):
        sheet = random_sheet(random.Random(f"{seed},{form.count},{number}"), form)
        if SHEET_END not in sheet and len(sheet) <= SHORT:
            yield sheet


def all_records():
    rng = random.Random(SEED)
    sheets = [*random_sheets(SEED, RANDOM_SHEETS), *changed_sheets(), *sheets_of_ends(), *large_sheets()]
    records = [record(rooms_for(sheet, rng), sheet) for sheet in sheets]
    sound = sheet_text(FORMER.names, many_cases(widest, FORMER, 1))
    return b"".join((*records, record((BUFFER + 1, "x", "", BUFFER, "01"), sound)))


# --------------------------------------------------------------------------
# What the program prints.
# --------------------------------------------------------------------------

def questions(text):
    """What a stored input asks: way, sheet and buffer length; no way where the length is none."""
    for stored in text.split(SHEET_END)[:-1]:
        lengths, _, sheet = stored.partition(LINE_END)
        for field in lengths.removeprefix(KIND).split(FIELD_END):
            known = calc.has_value_form(field) and int(field) <= BUFFER
            for way in WAYS if known else (None,):
                yield way, sheet, int(field) if known else None


def printed(given):
    """What the program prints for an answer that keeps all other bytes."""
    text = "refused,{},{},{}\n".format(*given) if isinstance(given, Refusal) else given.decode("ascii")
    return f"{text}{KEPT}{BUFFER - written(given)}\n"


def run_program(text):
    """What the program prints for a stored input, without the first lines."""
    run = subprocess.run([PROGRAM], input=text, stdout=subprocess.PIPE, timeout=600, check=True)
    return "".join(sheet_answers(text, run.stdout.decode("ascii")))


def all_printed(text):
    """What is printed for a stored input by a program that answers as above."""
    return "".join(printed(answer(*question)) if question[0] else UNKNOWN for question in questions(text))


def compare(seed, count):
    """Random sheets through the program; how many were asked of each answer, and whether all agree."""
    tally, right = Counter(), True
    rng = random.Random(seed)
    for at in range(0, count, 100):
        sheets = random_sheets(f"{seed},{at}", min(100, count - at))
        text = b"".join(record(rooms_for(sheet, rng), sheet) for sheet in sheets)
        asked = list(questions(text))
        for way, sheet, room in asked:
            given = answer(way, sheet, room)
            tally[way.name, given.number if isinstance(given, Refusal) else 0] += 1
        right = right and run_program(text) == all_printed(text)
    return tally, right


def main():
    parser = argparse.ArgumentParser(description=__doc__.split("\n")[0])
    parser.add_argument("--seed", type=int, default=1)
    parser.add_argument("--count", type=int, default=500, help="sheets of each form")
    asked = parser.parse_args()
    tally, right = compare(asked.seed, asked.count)
    for (way, number), count in sorted(tally.items()):
        print(f"{way}, {f'refused with {number}' if number else 'carried'}: {count}")
    print("all agree" if right else "the program and the calculator disagree")
    return 0 if right else 1


if __name__ == "__main__":
    sys.exit(main())
