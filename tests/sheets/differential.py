"""Runs random sheets, sound and damaged, through the compiled program `rows` and the calculator.

    python3 -m tests.sheets.differential [--seed S] [--count N] [--pairs] [--program target/bin/rows]

Any disagreement is printed with its sheet, and the exit status is then 1. With `--pairs` the sheets
hold every pair of counts at each place of rods, with both ends of spacing and depth, and the widest
pair of ends of each quantity is reported. crates/sheets/stdin holds sheets made by tests/sheets/sheets.py, so that every check
of the crates has a short run; tests/sheets/stored.py writes it.
"""

import argparse
import subprocess
import sys
from collections import Counter

from tests.calculator import calculator as calc
from tests.calculator.calculator import Refusal
from tests.calculator.printed import read_rows
from tests.sheets import sheets

PROGRAM = "target/bin/rows"
DEPTHS, DEEP_DEPTHS = (9,), (3, 6, 12)
DEEP_EVERY = 20  # one row in so many is judged at the deeper, dearer depths too
RUN_SECONDS = 10


# --------------------------------------------------------------------------
# Comparing.
# --------------------------------------------------------------------------

def printed_by(program, sheet):
    done = subprocess.run([program], input=sheet, stdout=subprocess.PIPE, timeout=RUN_SECONDS)
    if done.returncode != 0:
        raise ValueError(f"exit status {done.returncode}")
    return done.stdout.decode("ascii")


def judge(wanted, answer, deep):
    """What is wrong with an answer where the calculator says wanted: a refusal, or the cases."""
    if isinstance(wanted, Refusal) or isinstance(answer, Refusal):
        return [] if wanted == answer else [f"{answer}, not {wanted}"]
    if len(answer) != len(wanted):
        return [f"{len(answer)} rows, not {len(wanted)}"]
    wrong = []
    for case, row in zip(wanted, answer):
        depths = DEPTHS + (DEEP_DEPTHS if deep() else ())
        wrong += [f"{case}: {complaint}" for complaint in calc.judge_row(case, row, depths)]
    return wrong


def disagreements(program, sheet, deep):
    """What the calculator answers, and what is wrong with the program's answer."""
    wanted = calc.read_sheet(sheet)
    try:
        return wanted, judge(wanted, read_rows(printed_by(program, sheet)), deep)
    except (ValueError, TypeError, subprocess.TimeoutExpired) as error:
        return wanted, [f"no answer: {error}"]


def run(program, seed, count):
    """The tallies of count sheets, and how many disagree."""
    tally, rows, failed = Counter(), 0, 0
    for number in range(count):
        rng, sheet, damage = sheets.numbered_sheet(seed, number)
        wanted, wrong = disagreements(program, sheet, lambda: rng.randrange(DEEP_EVERY) == 0)
        tally[wanted.number if isinstance(wanted, Refusal) else 0] += 1
        rows += 0 if isinstance(wanted, Refusal) else len(wanted)
        if wrong:
            failed += 1
            print(f"seed {seed}, sheet {number} ({damage}): {sheet!r}", *wrong, sep="\n  ")
    return tally, rows, failed


def rows_of(program, cases):
    """The program's answers, sheet by sheet: some of the cases, and their rows or a refusal."""
    for at in range(0, len(cases), calc.MAX_VALUE_LINES):
        some = cases[at : at + calc.MAX_VALUE_LINES]
        yield some, read_rows(printed_by(program, sheets.sheet_of(some)))


def width_shares(case, row):
    """The width of each pair as a share of what is allowed."""
    pairs = zip(calc.row_pairs(row), calc.allowed_widths(case, row))
    return calc.Ends(*(float((upper - lower) / allowed) for (lower, upper), allowed in pairs))


def run_pairs(program, cases):
    """What is wrong with the rows of the cases, and each case that has a row with its widths."""
    wrong, widths = [], []
    for some, rows in rows_of(program, cases):
        wrong += judge(some, rows, lambda: False)
        if not isinstance(rows, Refusal):
            widths += [(case, width_shares(case, row)) for case, row in zip(some, rows)]
    return wrong, widths


def report_sheets(program, seed, count):
    """Whether all sheets agree; the tallies are printed."""
    tally, rows, failed = run(program, seed, count)
    refused = ", ".join(f"{tally[number]} with {number}" for number in range(1, 9))
    print(f"seed {seed}: {count} sheets, {tally[0]} accepted, refused {refused}; "
          f"{rows} rows compared; {failed} sheets disagree")
    return not failed


def report_pairs(program, seed):
    """Whether all rows of the pairs of counts are right; the widest ends are printed."""
    cases = sheets.cases_of_pairs(seed)
    wrong, widths = run_pairs(program, cases)
    for complaint in wrong:
        print(complaint)
    for name in calc.Ends._fields if widths else ():
        case, shares = max(widths, key=lambda found: getattr(found[1], name))
        print(f"{name}: at most {getattr(shares, name):.3f} of the allowed width, at {case}")
    print(f"seed {seed}: {len(widths)} rows of {len(cases)} cases compared; {len(wrong)} complaints")
    return not wrong


def main():
    parser = argparse.ArgumentParser(description=__doc__.split("\n")[0])
    parser.add_argument("--seed", type=int, default=1)
    parser.add_argument("--count", type=int, default=200)
    parser.add_argument("--program", default=PROGRAM)
    parser.add_argument("--pairs", action="store_true", help="run every pair of counts and end")
    asked = parser.parse_args()
    if asked.pairs:
        return 0 if report_pairs(asked.program, asked.seed) else 1
    return 0 if report_sheets(asked.program, asked.seed, asked.count) else 1


if __name__ == "__main__":
    sys.exit(main())
