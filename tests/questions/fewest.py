"""The fewest lines for a given side, after request (k) of document 02, against the program `questions`.

    make target/bin/questions target/bin/rows && python3 -m tests.questions.fewest [--seed S] [--count N] [--programs target/bin]

The list of yards and the refusals are written from the document; the verdict of each yard is that of the
program `rows`, or, for the stored questions, one that every right program gives.
"""

import argparse
import random
import subprocess
from fractions import Fraction
from pathlib import Path

from tests.calculator import calculator as calc
from tests.calculator.calculator import Refusal
from tests.calculator.printed import lines_of
from tests.sheets import differential, sheets

KIND = "fewest"
LINES = range(2, 26)  # "line counts 2 to 25 rising"
RODS = range(0, 41, 4)  # "0, 4, 8 up to 40 rods"
SIDES = (2500, 720000)
MOST_YARDS = 264
UNREAD = ("across", "along", "space", "rods", "place")
CLEAR_OF = Fraction(1, 1000)  # how far a voltage is from its limit for every right program to decide
DEPTH = 6
SEED = 1


def fits(name, value):
    return any(low <= value <= high for low, high in calc.SPANS[name])


def yards(case, side):
    """The yards in the order in which they are tried."""
    for lines in LINES:
        space, rest = divmod(side, lines - 1)
        if rest or not fits("space", space):
            continue
        for rods in RODS:
            yield case._replace(across=lines, along=lines, space=space, rods=rods,
                                rodlen=case.rodlen if rods else 0, place=1 if rods else 0)


def refusal(case, side):
    """Document 01's checks for one case, of what is read; then 15 and 16."""
    for column, (name, value) in enumerate(zip(calc.NAMES, case), start=1):
        if name not in UNREAD and not fits(name, value):
            return Refusal(5, 0, column)
    if (case.layer == 0) != (case.thick == 0):
        return Refusal(6, 0, 1 + calc.NAMES.index("layer"))
    if not SIDES[0] <= side <= SIDES[1]:
        return Refusal(15, 0, 0)
    return Refusal(16, 0, 0) if case.rodlen == 0 else None


def answer(case, side, is_safe):
    """What is answered where is_safe decides each yard."""
    wrong = refusal(case, side)
    if wrong:
        return wrong
    tried = 0
    for yard in yards(case, side):
        tried += 1
        if is_safe(yard):
            return "found", yard.across, yard.rods, tried
    return "none", tried


def decided_by_all(case):
    """Whether every right program answers a yard safe; nothing where they may differ."""
    ends = calc.exact_ends(case, DEPTH)
    shares = (ends.mesh.upper / ends.tolerable_touch.lower, ends.step.upper / ends.tolerable_step.lower)
    if max(shares) < 1 - CLEAR_OF:
        return True
    return False if max(shares) > 1 + CLEAR_OF or sheets.undecided_for_all(case) else None


class Unsure(Exception):
    """A yard of which right programs may differ."""


def sure(case):
    reported = decided_by_all(case)
    if reported is None:
        raise Unsure(case)
    return reported


def read_answer(text):
    fields = text.split(",")
    if fields[0] == "refused":
        return Refusal(*map(int, fields[1:]))
    return (fields[0], *map(int, fields[1:]))


def line(case, side):
    return ",".join(map(str, (KIND, *case, side)))


# --------------------------------------------------------------------------
# A sheet of one value line and a side: the program's input, and what the C entry takes.
# --------------------------------------------------------------------------

def sheet_case(sheet):
    """The case of a sheet's one line, or the first of the sheet's refusals 1, 2, 4 and 3; its values may be anything."""
    if not sheet or len(sheet) > calc.MAX_BYTES or not sheet.endswith(calc.LINE_END):
        return Refusal(1, 0, 0)
    header, _, rest = sheet.partition(calc.LINE_END)
    names = header.split(calc.FIELD_END)
    wrong = calc.check_names(names, calc.FORM)
    if wrong:
        return wrong
    if not rest:
        return Refusal(4, 2, 0)
    line, _, more = rest.partition(calc.LINE_END)
    if more:
        return Refusal(4, 3, 0)
    fields = line.split(calc.FIELD_END)
    column = calc.wrong_form_column(fields, calc.COLUMN_COUNT)
    if column:
        return Refusal(3, 2, column)
    order = [calc.NAME_BYTES.index(name) for name in names]
    return calc.in_document_order(order, [int(field) for field in fields], calc.FORM)


def sheet_answer(sheet, side, is_safe):
    """The sheet's refusals, then the answer to its case."""
    case = sheet_case(sheet)
    return case if isinstance(case, Refusal) else answer(case, side, is_safe)


def parts(text):
    """The sheet of an input, which follows its first line, and the side; what has not the form of a value is 0, which is out of range."""
    side, _, sheet = text.partition(calc.LINE_END)
    return sheet, int(side) if calc.has_value_form(side) else 0


PROGRAM = Path(__file__).parents[2] / "crates" / "fewest"  # whose stored input has unread values out of range
YARD = calc.Case(7, 1, 100, 2500, 102, 500, 500, 500, 70, 3180, 600, 10, 11, 11, 7000, 500, 100, 0, 7500, 0, 1, 60)


def inputs():
    """Inputs of the program: its stored one, answers of each kind, each refusal, sides of no form, and inputs at the limits."""
    yield (PROGRAM / "stdin").read_bytes()
    sheet = sheets.sheet_of([YARD])
    names, values = sheet.split(b"\n")[:2]
    for side in ("70000", "2500", "720000", "2501", "2499", "720001", "0", "07000", "1000000", "7 0000", "", "-70000", "70000.0"):
        yield side.encode("ascii") + b"\n" + sheet
    for change in ({"rodlen": 0}, {"fault": 80000, "split": 1000, "soil": 5000}, {"station": 0}, {"layer": 0}, {"hz": 55},
                   *({name: value} for name in UNREAD for value in (0, 1, 999999))):
        for side in (b"70000", b"0", b"0070000"):
            yield side + b"\n" + sheets.sheet_of([YARD._replace(**change)])
    for rest in (b"", b"\n", names, names + b"\n", sheet[:-1], sheet + values + b"\n", sheet + b"\n", b"x" + sheet,
                 sheet.replace(b"3180", b""), sheet.replace(b"3180", b"3180.0"), b"x" * (2 * calc.MAX_BYTES), names + b"\n" + values + b",1" * calc.MAX_BYTES):
        yield b"70000\n" + rest
    for length in (calc.MAX_BYTES - 1, calc.MAX_BYTES, calc.MAX_BYTES + 1):
        long = sheets.filled_up(sheet, length)
        yield from (side + b"\n" + long for side in (b"70000", b"720000", b"7200000", b""))
        yield from (b"70000\n" + long[:-1] + last for last in (b",", b"1"))
    yield b"70000"
    yield b""


# --------------------------------------------------------------------------
# Questions.
# --------------------------------------------------------------------------

def random_question(rng):
    """A sound case whose unread values are anything, and a side that many counts divide."""
    case = sheets.random_case(rng)._replace(rodlen=rng.choice((1000, 2500, 7500, 10000)))
    case = case._replace(fault=rng.choice((100, 1000, 3180, 10000, 40000)), split=rng.choice((50, 300, 600, 1000)))
    case = case._replace(**{name: rng.choice((0, 1, 5, 999999)) for name in UNREAD})
    side = rng.choice((2500, 5000, 7500, 27720, 30000, 55440, 60000, 70000, 83160, 166320, 720000,
                       rng.randint(*SIDES), 12 * rng.randint(1000, 30000)))
    return case, side


def stored(count=60):
    """Sound questions of which every right program answers the same."""
    rng, questions = random.Random(SEED), []
    while len(questions) < count:
        question = random_question(rng)
        try:
            answer(*question, sure)
        except Unsure:
            continue
        questions.append(question)
    return questions


def refused(case):
    """Questions that are refused, alone and together, and unread values that are not."""
    for name, spans in calc.COLUMNS:
        for value in {spans[0][0] - 1, spans[-1][1] + 1, 2**32 - 1} - {-1}:
            yield case._replace(**{name: value}), 70000
    for side in (0, SIDES[0] - 1, SIDES[1] + 1, 2**32 - 1, 2**32):
        yield case, side
        yield case._replace(rodlen=0), side
    yield case._replace(rodlen=0), 70000
    yield case._replace(rodlen=999), 1
    yield case._replace(rodlen=0, rods=7, place=2), 70000
    yield case._replace(layer=0), 70000
    yield case._replace(thick=0, rodlen=0), 1
    yield case._replace(station=0, layer=0), 70000


def questions(case):
    """Each once, with a case that is sound and whose yards every right program decides."""
    return list(dict.fromkeys((*stored(), *refused(case))))


# --------------------------------------------------------------------------
# Against the programs.
# --------------------------------------------------------------------------

def asked(program, some):
    text = "".join(line(*question) + "\n" for question in some)
    printed = subprocess.run([program], input=text.encode("ascii"), stdout=subprocess.PIPE, check=True).stdout
    return [read_answer(out[len(line(*question)) + 1 :])
            for question, out in zip(some, lines_of(printed.decode("ascii")))]


def by_rows(program, case, side):
    """The answer with the verdicts of the program's own rows."""
    if refusal(case, side):
        return answer(case, side, None)
    some = [yard._replace(station=place) for place, yard in enumerate(yards(case, side), start=1)]
    verdicts = {}
    for cases, rows in differential.rows_of(program, some):
        verdicts.update({yard[2:]: row[2] == calc.SAFE for yard, row in zip(cases, rows)})
    return answer(case, side, lambda yard: verdicts[yard[2:]])


def main():
    parser = argparse.ArgumentParser(description=__doc__.split("\n")[0])
    parser.add_argument("--seed", type=int, default=1)
    parser.add_argument("--count", type=int, default=300)
    parser.add_argument("--programs", type=Path, default=Path("target/bin"))
    options = parser.parse_args()
    rng = random.Random(options.seed)
    some = [random_question(rng) for _ in range(options.count)]
    reported = asked(options.programs / "questions", some)
    wrong = [(question, got) for question, got in zip(some, reported)
             if got != by_rows(options.programs / "rows", *question)]
    found = sum(got[0] == "found" for got in reported)
    print(f"{len(some)} searches, {found} found, most tried {max(got[-1] for got in reported)}; {len(wrong)} differ")
    for question, got in wrong[:5]:
        print(*question, got)


if __name__ == "__main__":
    main()
