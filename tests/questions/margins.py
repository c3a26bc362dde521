"""How far each row is above or below what is tolerable, in the sheet's order: the numbers in whole numbers from the rows
that the program `rows` prints, a judge of what the program `margins` prints for the same sheet, and the sheet that it is run on.

    python3 -m tests.questions.margins --write                   crates/margins/stdin, and by target/bin/rows its stdout
    python3 -m tests.questions.margins [--seed S] [--count N]    random sheets through target/bin/rows and target/bin/margins
"""

import argparse
import random
import subprocess
import sys
from collections import Counter, namedtuple
from pathlib import Path

from tests.calculator import calculator as calc
from tests.calculator.calculator import Case, Refusal
from tests.calculator.printed import MARGIN_NAMES, WORDS, read_margins, read_rows
from tests.sheets import carry, differential, sheets, summary

BIN = "target/bin"
FILE = Path(__file__).parents[2] / "crates" / "margins" / "stdin"
SEED, RANDOM_STATIONS = 31, (9, 4711, 88, 30000, 2)

Margin = namedtuple("Margin", "station season verdict mesh step")


# --------------------------------------------------------------------------
# The numbers.
# --------------------------------------------------------------------------

def above(voltage, limit):
    """The smallest whole m with 1000 * voltage <= (1000 + m) * limit, for a limit above 0."""
    return -(1000 * (limit - voltage) // limit)


def margin_of(row):
    """The upper mesh end against the lower tolerable touch end, and the same of step."""
    pairs = calc.row_pairs(row)
    return Margin(*row[:3], above(pairs.mesh[1], pairs.tolerable_touch[0]),
                  above(pairs.step[1], pairs.tolerable_step[0]))


def margins_of(rows):
    """One for each row, in the order of the rows."""
    return [margin_of(row) for row in rows]


def text_of(answer):
    """What is printed for a refusal or for margins."""
    if isinstance(answer, Refusal):
        return "refused,{},{},{}\n".format(*answer)
    lines = [margin._replace(verdict=WORDS[margin.verdict - 1]) for margin in answer]
    return carry.sheet_text(MARGIN_NAMES, lines).decode("ascii")


def judge(rows, reported):
    """What is wrong with the margins reported where these are the rows; either may be a refusal."""
    if isinstance(rows, Refusal) or isinstance(reported, Refusal):
        return [] if rows == reported else [f"margins: {reported}, where rows has {rows}"]
    if len(reported) != len(rows):
        return [f"margins: {len(reported)} rows, not {len(rows)}"]
    lines = enumerate(zip(map(list, margins_of(rows)), reported), start=2)
    return [f"margins: {got} in line {line}, not {wanted}" for line, (wanted, got) in lines if got != wanted]


# --------------------------------------------------------------------------
# The stored sheet.
# --------------------------------------------------------------------------

# Yards whose upper end is at its limit, or 1 mV above it, or exactly one and a half or half of it, by the rows reported now.
MESH_AT = Case(1, 1, 110, 2500, 120, 250, 300, 500, 70, 16249, 595, 5, 13, 10, 5500, 750, 115, 23, 2400, 1, 4, 50)
MESH_NEXT = Case(1, 1, 60, 2500, 120, 250, 250, 1000, 70, 76705, 185, 19, 12, 12, 5500, 750, 120, 0, 0, 0, 3, 50)
MESH_HALF_ABOVE = Case(1, 1, 200, 3000, 100, 250, 300, 1000, 70, 55739, 138, 14, 9, 9, 7000, 600, 115, 25, 6000, 1, 2, 50)
STEP_AT = Case(1, 1, 450, 0, 0, 250, 500, 600, 70, 18884, 29, 12, 8, 16, 2500, 250, 300, 0, 0, 0, 3, 60)
STEP_NEXT = Case(1, 1, 150, 0, 0, 200, 250, 1000, 70, 12538, 101, 8, 14, 15, 2500, 250, 300, 0, 0, 0, 3, 50)
STEP_HALF_ABOVE = Case(1, 1, 350, 0, 0, 200, 250, 800, 70, 40385, 34, 10, 15, 15, 2500, 250, 300, 0, 0, 0, 2, 50)
STEP_HALF_BELOW = Case(1, 1, 420, 0, 0, 400, 300, 800, 50, 60576, 3, 22, 8, 20, 2500, 250, 300, 0, 0, 0, 2, 60)

# Yards that no right calculator calls safe or unsafe, for whole millivolts do not part the voltage from its limit.
MESH_MET = Case(1, 1, 140, 3000, 120, 400, 400, 800, 70, 10700, 500, 12, 10, 10, 5500, 600, 105, 16, 3000, 1, 2, 60)
STEP_MET = Case(1, 1, 130, 0, 0, 300, 250, 600, 70, 44836, 11, 8, 8, 8, 2500, 250, 300, 0, 0, 0, 2, 60)

# Document 01's sample yard, and one whose step voltage alone is above its limit.
SAMPLE = Case(7, 1, 400, 2500, 102, 500, 500, 500, 70, 3180, 600, 10, 11, 11, 7000, 500, 100, 0, 0, 0, 1, 60)
BY_STEP = Case(1, 1, 110, 0, 0, 400, 200, 800, 70, 37681, 41, 5, 14, 14, 2500, 250, 300, 0, 0, 0, 4, 50)


def seasons(station, cases):
    """The cases as seasons of one station, in the order given; each comes with its season."""
    return [case._replace(station=station, season=season) for season, case in cases]


def chosen():
    """Stations with what a wrong program would take for something else."""
    dry, wet = SAMPLE, SAMPLE._replace(soil=100)
    yield seasons(7, [(2, wet), (1, dry)])
    yield seasons(300, [(3, MESH_AT), (1, STEP_NEXT), (4, STEP_AT), (2, MESH_NEXT)])
    yield seasons(501, [(2, MESH_MET), (1, MESH_MET._replace(rods=17)), (3, STEP_MET)])
    yield seasons(45, [(2, STEP_HALF_ABOVE), (1, MESH_HALF_ABOVE), (3, STEP_HALF_BELOW)])
    yield seasons(12, [(4, dry), (2, dry), (1, dry), (3, dry)])  # all equal
    yield seasons(65535, [(3, wet), (2, dry), (1, dry)])
    yield seasons(46, [(1, MESH_HALF_ABOVE), (4, STEP_HALF_ABOVE)])
    yield seasons(8, [(2, dry._replace(fault=5001)), (1, dry._replace(fault=5003))])  # equal but for what is rounded
    yield seasons(20, [(1, dry._replace(soil=350)), (2, BY_STEP), (3, BY_STEP._replace(fault=30000))])
    yield seasons(21, [(4, BY_STEP), (3, dry._replace(soil=350))])


def by_chance(rng):
    """Random stations with one to four seasons."""
    for count, station in enumerate(RANDOM_STATIONS):
        own = rng.sample(range(1, 5), 1 + count % 4)
        yield seasons(station, [(season, sheets.random_case(rng)) for season in own])


def scattered(rng, stations):
    """The lines of all stations, each taken from one of them, in its own order."""
    left, cases = [list(lines) for lines in stations], []
    while any(left):
        cases.append(rng.choice([lines for lines in left if lines]).pop(0))
    return cases


def sheet():
    """The stored sheet, with its columns in another order than document 01's."""
    rng = random.Random(SEED)
    cases = scattered(rng, [*chosen(), *by_chance(rng)])
    names = rng.sample(calc.NAMES, calc.COLUMN_COUNT)
    return carry.sheet_text(names, [[getattr(case, name) for name in names] for case in cases])


def write():
    rows = read_rows(differential.printed_by(f"{BIN}/rows", sheet()))
    FILE.write_bytes(sheet())
    FILE.with_name("stdout").write_text(text_of(margins_of(rows)), encoding="ascii")


# --------------------------------------------------------------------------
# Random sheets.
# --------------------------------------------------------------------------

def random_sheet(seed, number):
    """In turn a sheet sound or damaged, and a sound one with the lines of a few stations scattered, some equal."""
    rng, text, _ = sheets.numbered_sheet(seed, number)
    if number % 2 == 0:
        return text
    stations = rng.sample((*range(1, 30), 65535, 65534), rng.randint(1, 5))
    cases = summary.scattered(rng, rng.randint(1, 4 * len(stations)), stations)
    return sheets.sheet_of(summary.with_ties(rng, cases))


def compared(directory, text):
    """The rows of a sheet, and what is wrong with its margins."""
    rows = read_rows(differential.printed_by(f"{directory}/rows", text))
    try:
        return rows, judge(rows, read_margins(differential.printed_by(f"{directory}/margins", text)))
    except (ValueError, TypeError, subprocess.TimeoutExpired) as error:
        return rows, [f"no answer: {error}"]


def run(directory, seed, count):
    """The tallies of count sheets, and how many disagree."""
    tally = Counter()
    for number in range(count):
        text = random_sheet(seed, number)
        rows, wrong = compared(directory, text)
        refused = isinstance(rows, Refusal)
        tally.update(refused=refused, rows=0 if refused else len(rows), failed=bool(wrong))
        if wrong:
            print(f"seed {seed}, sheet {number}: {text!r}", *wrong, sep="\n  ")
    return tally


def main():
    parser = argparse.ArgumentParser(description=__doc__.split("\n")[0])
    parser.add_argument("--write", action="store_true", help="store the sheet and what is printed for it, and end")
    parser.add_argument("--seed", type=int, default=1)
    parser.add_argument("--count", type=int, default=200)
    parser.add_argument("--bin", default=BIN, help="where the programs are")
    asked = parser.parse_args()
    if asked.write:
        write()
        return 0
    tally = run(asked.bin, asked.seed, asked.count)
    print(f"seed {asked.seed}: {asked.count} sheets, {tally['refused']} refused; {tally['rows']} rows compared; "
          f"{tally['failed']} sheets disagree")
    return 1 if tally["failed"] else 0


if __name__ == "__main__":
    sys.exit(main())
