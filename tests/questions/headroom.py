"""The headroom of a case, against the program `questions`.

    make target/bin/questions && python3 -m tests.questions.headroom [--seed S] [--count N] [--program target/bin/questions]

"After the checks of one case (5, 6), the greatest fault current in 100..80000 at which the case, all else
equal, is answered safe, or none." Exact fractions and the allowed widths give up to which fault current
every right program answers a case safe, and from which on none does; between the two the program's own
rows decide. By hand, random yards are asked, and the rows of each at its headroom and at 1 A more: the first
must be safe and the second not, and both right by the calculator.
"""

import argparse
import random
import subprocess
from fractions import Fraction

from tests.calculator import calculator as calc
from tests.calculator.calculator import Case, Refusal
from tests.calculator.printed import lines_of, read_asked, whole
from tests.sheets import sheets

KIND, NONE = "headroom", "none"
PROGRAM = "target/bin/questions"
LEAST, MOST = calc.span_of("fault")
DEPTH = 9
SEED, STORED = 1, 60
MOST_ROWS = 8  # of a stored question
MOST_QUESTIONS = 4000  # of a run

LIMITS = {"mesh": "tolerable_touch", "step": "tolerable_step"}
LENGTHS = {"mesh": calc.total_length, "step": calc.step_length}


def quantity(name):
    return next(some for some in calc.QUANTITIES if some.name == name)


def most_width(name, case, ends, upper_current):
    """The greatest width that a right row's pair may have, in amperes or volts."""
    some = quantity(name)
    length = LENGTHS.get(name)
    base = calc.driving(case, calc.na(case), upper_current) / length(case) if length else getattr(ends, name).upper
    return some.share * base + Fraction(some.plus, some.units)


class Known:
    """What exact fractions say of a case with any fault current: voltages are in proportion to it."""

    def __init__(self, case):
        self.case = case._replace(fault=LEAST)
        self.ends = calc.exact_ends(self.case, DEPTH)

    def voltage(self, name, fault):
        pair, part = getattr(self.ends, name), Fraction(fault, LEAST)
        return calc.Pair(pair.lower * part, pair.upper * part)

    def is_safe_for_all(self, fault):
        """Whether every right program answers safe: with ends as wide as is allowed."""
        current = self.voltage("current", fault).upper
        current += quantity("current").share * current + Fraction(quantity("current").plus, calc.CURRENT_UNITS)
        return all(
            self.voltage(name, fault).upper + most_width(name, self.case, self.ends, current)
            <= getattr(self.ends, limit).lower - most_width(limit, self.case, self.ends, current)
            for name, limit in LIMITS.items())

    def is_safe_for_none(self, fault):
        """Whether no right program answers safe: a voltage is above what is tolerable."""
        return any(self.voltage(name, fault).lower > getattr(self.ends, limit).upper
                   for name, limit in LIMITS.items())


def first(low, high, test):
    """The least number from low on that passes a test which all after it pass too; high where none before it does."""
    while low < high:
        middle = (low + high) // 2
        low, high = (low, middle) if test(middle) else (middle + 1, high)
    return low


def between(case):
    """The least and the greatest headroom of any right program; one below the range stands for none."""
    known = Known(case)
    least = first(LEAST, MOST + 1, lambda fault: not known.is_safe_for_all(fault)) - 1
    return least, first(LEAST, MOST + 1, known.is_safe_for_none) - 1


def needed_rows(case):
    """The case with every fault current at which a row may decide, least first."""
    least, most = between(case)
    return [case._replace(fault=fault) for fault in range(max(least, LEAST), min(most + 1, MOST) + 1)]


def judge(case, answer, verdict_of):
    """What is wrong with an answer, by the words and by the verdicts of the program's own rows; empty when right."""
    wanted = calc.check_record(case)
    if wanted or isinstance(answer, Refusal):
        return [] if answer == wanted else [f"{answer}, not {wanted}"]
    if answer != NONE and not LEAST <= answer <= MOST:
        return [f"{answer} is out of range"]
    reported = LEAST - 1 if answer == NONE else answer
    least, most = between(case)
    wrong = [] if least <= reported <= most else [f"{answer} is not in {least}..{most}"]
    if reported >= LEAST and verdict_of(case._replace(fault=reported)) != calc.SAFE:
        wrong.append(f"not safe at {reported}")
    if reported < MOST and verdict_of(case._replace(fault=reported + 1)) == calc.SAFE:
        wrong.append(f"safe at {reported + 1}")
    return wrong


# --------------------------------------------------------------------------
# Lines.
# --------------------------------------------------------------------------

def line(case):
    return ",".join(map(str, (KIND, *case)))


def row_line(case):
    return ",".join(map(str, ("row", *case)))


def is_question(text):
    return text.startswith(KIND + ",") and text.count(",") == calc.COLUMN_COUNT


def read_answer(text):
    if text == NONE:
        return NONE
    if text.startswith("refused,"):
        return read_asked(text)
    return whole(text)


# --------------------------------------------------------------------------
# Questions.
# --------------------------------------------------------------------------

def ending_at(rng, fault):
    """A case whose headroom is this fault current, whatever right ends its rows have."""
    while True:
        case = sheets.random_case(rng)._replace(split=1000)
        known = Known(case)
        limits = [getattr(known.ends, limit).lower / getattr(known.ends, name).upper
                  for name, limit in LIMITS.items() if getattr(known.ends, name).upper > 0]
        split = round(min(limits) * LEAST * 1000 / (fault + Fraction(1, 2)))
        case = case._replace(split=split)
        if 1 <= split <= 1000 and between(case) == (fault, fault):
            return case


def sample():
    """Document 01's sample yard, both seasons."""
    yard = Case(
        station=7, season=1, soil=400, layer=2500, thick=102, shock=500, clear=500, wire=500, body=70,
        fault=3180, split=600, xr=10, across=11, along=11, space=7000, depth=500, dia=100,
        rods=0, rodlen=0, place=0, metal=1, hz=60)
    return [yard, yard._replace(season=2, soil=100)]


def stored():
    """Random yards, a few rows of each, most of them with a headroom inside the range."""
    rng, cases = random.Random(SEED), []
    while len(cases) < STORED:
        case = sheets.random_case(rng)
        least, most = between(case)
        ends_inside = LEAST < least and most < MOST
        if most - least + 2 <= MOST_ROWS and (ends_inside or rng.random() < 0.1):
            cases.append(case)
    return cases


def edges():
    """A headroom at either end of the range, next to it, and none; and the case's own fault current, which does not matter."""
    rng = random.Random(SEED)
    ends = [ending_at(rng, fault) for fault in (LEAST - 1, LEAST, LEAST + 1, 1000)]
    roomy = sample()[0]._replace(soil=10, shock=100, split=10)
    narrow = sample()[0]._replace(soil=5000, layer=0, thick=0, shock=3000, split=1000, across=2, along=2)
    for case in (*ends, roomy, narrow):
        yield from (case._replace(fault=fault) for fault in (LEAST, 5000, MOST))


def refused(case):
    """Every value beyond an end of its range, and the groups whose members disagree."""
    for name, spans in calc.COLUMNS:
        for value in {spans[0][0] - 1, spans[-1][1] + 1} - {-1}:
            yield case._replace(**{name: value})
    for name in ("layer", "thick", "rods", "rodlen", "place"):
        yield case._replace(**{name: 0})
    yield case._replace(thick=0, place=0)
    yield case._replace(thick=0, fault=LEAST - 1)


def questions(case):
    """Each once, with a sound case that has a layer and rods."""
    return list(dict.fromkeys((*sample(), *stored(), *edges(), *refused(case))))


def lines(case):
    """The questions, each with the rows that decide."""
    for asked in questions(case):
        yield line(asked)
        if not calc.check_record(asked):
            yield from map(row_line, needed_rows(asked))


# --------------------------------------------------------------------------
# Against the program.
# --------------------------------------------------------------------------

def answers(program, some):
    """What the program prints after each question; it reads so many at a time."""
    reported = []
    for at in range(0, len(some), MOST_QUESTIONS):
        part = some[at : at + MOST_QUESTIONS]
        text = "".join(question + "\n" for question in part)
        run = subprocess.run([program], input=text.encode("ascii"), stdout=subprocess.PIPE, check=True)
        printed = lines_of(run.stdout.decode("ascii"))
        reported += [out[len(question) + 1 :] for question, out in zip(part, printed, strict=True)]
    return reported


def main():
    parser = argparse.ArgumentParser(description=__doc__.split("\n")[0])
    parser.add_argument("--seed", type=int, default=1)
    parser.add_argument("--count", type=int, default=1000)
    parser.add_argument("--program", default=PROGRAM)
    options = parser.parse_args()
    rng = random.Random(options.seed)
    cases = [sheets.random_case(rng) for _ in range(options.count)]
    reported = [read_answer(text) for text in answers(options.program, [line(case) for case in cases])]
    near = [case._replace(fault=fault)
            for case, got in zip(cases, reported)
            for fault in ((LEAST,) if got == NONE else (got, got + 1)) if fault <= MOST]
    rows = {case: read_asked(text) for case, text in zip(near, answers(options.program, [row_line(case) for case in near]))}
    wrong = [(case, got, complaint) for case, got in zip(cases, reported)
             for complaint in judge(case, got, lambda row: rows[row][2])]
    wrong += [(case, row, complaint) for case, row in rows.items()
              for complaint in calc.judge_row(case, row, (DEPTH,))]
    none, most = reported.count(NONE), reported.count(MOST)
    print(f"{len(cases)} yards: {none} with none, {most} at {MOST}, {len(cases) - none - most} between; "
          f"{len(rows)} rows, {len(wrong)} wrong")
    for some in wrong[:5]:
        print(*some)


if __name__ == "__main__":
    main()
