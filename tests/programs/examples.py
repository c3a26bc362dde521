"""Runs the sheets of examples/ through the built programs, has the calculator judge all that they print, and checks
that examples/README.md shows exactly that.

    python3 -m tests.programs.examples [--bin target/bin]

What is wrong is printed, and the exit status is then 1.
"""

import argparse
import csv
import re
import subprocess
import sys
from functools import lru_cache
from pathlib import Path

from tests.calculator import calculator as calc
from tests.calculator.calculator import Refusal
from tests.calculator.printed import read_margins, read_rows, read_verdicts
from tests.programs.limits import SUMMARY_NAMES
from tests.questions import margins
from tests.sheets import carry, differential, release, summary

ROOT = Path(__file__).parents[2]
FOLDER = ROOT / "examples"
BIN = "target/bin"
MOST_LINES = 6  # value lines of a sheet
PORTFOLIO, MOST_PORTFOLIO_LINES = "portfolio.csv", 48
LICENCE = "licence.csv"  # of the portfolio: no sheet, but stations with their names and seasons
REFUSALS = (*range(1, 8), 9, 10, 11)  # what a sheet alone can be refused with
BACK_REFUSALS = (9, 10, 11)  # of these only by carry_back
READERS = {"rows": read_rows, "verdict": read_verdicts, "margins": read_margins}
WAYS = {"carry": carry.ON, "carry_back": carry.BACK}
NO_ANSWER = (ValueError, TypeError, OSError, subprocess.SubprocessError)

HEADING = re.compile(r"### (\S+\.csv)")
ASKED = re.compile(r"target/bin/(\w+) < examples/(\S+\.csv)")
PIPED = re.compile(r"(.+) \| target/bin/(\w+)")
REFUSED = re.compile(r"refused-(\d+)(-\w+)?\.csv")


# --------------------------------------------------------------------------
# What the programs print.  A run is a function of a program's name and a sheet.
# --------------------------------------------------------------------------

def runner(directory):
    return lambda program, sheet: differential.printed_by(f"{directory}/{program}", sheet)


def answer(program, sheet, run):
    """What a program answers, read strictly."""
    try:
        return READERS[program](run(program, sheet))
    except (ValueError, TypeError) as error:
        raise ValueError(f"{program}: {error}") from error


def carried(way, sheet):
    """What carry or carry_back is to print."""
    text = carry.answer(way, sheet, carry.BUFFER)
    return margins.text_of(text) if isinstance(text, Refusal) else text.decode("ascii")


def summed(rows):
    """What summary must print for some rows."""
    if isinstance(rows, Refusal):
        return margins.text_of(rows)
    return carry.sheet_text(SUMMARY_NAMES, summary.summary_of(rows)).decode("ascii")


def judge_printed(sheet, run):
    """What is wrong with what the programs print for a sheet: rows by the calculator, verdicts, margins and summary by the rows."""
    rows = answer("rows", sheet, run)
    wrong = differential.judge(calc.read_sheet(sheet), rows, lambda: True)
    if answer("verdict", sheet, run) != (rows if isinstance(rows, Refusal) else [row[:4] for row in rows]):
        wrong.append("verdict: not what rows has")
    wrong += margins.judge(rows, answer("margins", sheet, run))
    if run("summary", sheet) != summed(rows):
        wrong.append("summary: not what rows has")
    for program, way in WAYS.items():
        if run(program, sheet) != carried(way, sheet):
            wrong.append(f"{program}: not what the calculator has")
    return wrong


# --------------------------------------------------------------------------
# What the name of a sheet promises.
# --------------------------------------------------------------------------

def differing(a, b):
    """The names in which two yards differ."""
    return {name for name in calc.NAMES[2:] if getattr(a, name) != getattr(b, name)}


def bare(cases, rows):
    """every yard on bare soil"""
    return all(case.layer == 0 for case in cases)


def layered(cases, rows):
    """every yard under rock of more resistance than its soil"""
    return all(case.layer > case.soil for case in cases)


def rods(cases, rows):
    """one yard without rods, with rods inside and with the same rods at the perimeter, of which some are safe and some not"""
    return (sorted(case.place for case in cases) == [0, 1, 2]
            and all(differing(cases[0], case) <= {"rods", "rodlen", "place"} for case in cases)
            and len({case.rods for case in cases if case.place}) == 1
            and len({row[2] for row in rows}) > 1)


def rectangle(cases, rows):
    """no square yard"""
    return all(case.across != case.along for case in cases)


def seasons(cases, rows):
    """two seasons of one station, one safe and one unsafe"""
    return len({row[0] for row in rows}) == 1 and sorted(row[2] for row in rows) == [calc.SAFE, calc.UNSAFE]


def undecided(cases, rows):
    """an undecided yard next to a safe one that differs in one value"""
    open_cases = [case for case, row in zip(cases, rows) if row[2] == calc.UNDECIDED]
    safe_cases = [case for case, row in zip(cases, rows) if row[2] == calc.SAFE]
    return any(len(differing(a, b)) == 1 for a in open_cases for b in safe_cases)


def licence_numbers():
    """The licence of the portfolio, as release takes it."""
    with (FOLDER / LICENCE).open(encoding="utf-8", newline="") as text:
        entries = [(int(line["station"]), sum(1 << int(season) - 1 for season in line["seasons"].split()), 0) for line in csv.DictReader(text)]
    return [number for entry in entries for number in entry]


def portfolio(cases, rows):
    """a dozen stations with two to four seasons, all of them in licence.csv, by which one is released and for each reason one is held for
    it alone, one has no line, and one has a line outside the licence"""
    stations = {case.station for case in cases}
    licence = licence_numbers()
    entries = release.entries_of(licence)
    answered = release.release_of(licence, cases, rows)
    lines = {station: release.lines_of(station, cases, rows) for station, _, _ in entries}
    alone = {tuple(place for place, count in enumerate(numbers[2:]) if count) for numbers in answered}
    return (len(stations) >= 12 and stations <= set(lines)
            and all(2 <= len(lines[station]) <= 4 for station in stations)
            and {(), (0,), (1,), (2,), (3,), (4,)} <= alone
            and any(not found for found in lines.values())
            and any(case.season not in release.licensed(mask) for station, mask, _ in entries for case, _ in lines[station]))


PROMISES = {f"{promise.__name__}.csv": promise for promise in (bare, layered, rods, rectangle, seasons, undecided, portfolio)}


def refusal_of(name):
    """The number in the name of a refused sheet, or nothing."""
    found = REFUSED.fullmatch(name)
    return int(found[1]) if found else None


def shower(name):
    """The program that shows what the name of a sheet promises."""
    if name == PORTFOLIO:
        return "summary"
    return "carry_back" if refusal_of(name) in BACK_REFUSALS else "verdict"


def judge_refused(name, sheet, run):
    """A sheet is refused with the number in its name; one that carry_back alone refuses has its verdicts."""
    number = refusal_of(name)
    wrong = []
    if not run(shower(name), sheet).startswith(f"refused,{number},"):
        wrong.append(f"{shower(name)} does not refuse it with {number}")
    if number in BACK_REFUSALS and run("verdict", sheet).startswith("refused,"):
        wrong.append("refused by verdict too")
    return wrong


def judge_name(name, sheet, run):
    """What is wrong with a sheet by its name."""
    most = MOST_PORTFOLIO_LINES if name == PORTFOLIO else MOST_LINES
    if sheet.count(calc.LINE_END) > 1 + most:
        return [f"more than {most} value lines"]
    if refusal_of(name):
        return judge_refused(name, sheet, run)
    if name not in PROMISES:
        return ["a name that promises nothing"]
    cases, rows = calc.read_sheet(sheet), answer("rows", sheet, run)
    if isinstance(cases, Refusal) or isinstance(rows, Refusal):
        return ["refused"]
    promise = PROMISES[name]
    return [] if promise(cases, rows) else [f"it does not have what its name says: {promise.__doc__}"]


# --------------------------------------------------------------------------
# What examples/README.md shows.
# --------------------------------------------------------------------------

def sections(text):
    """Each sheet that has a section, and the commands in it with what is shown under them, in order of the text."""
    found = []
    for line in text.split("\n"):
        heading = HEADING.fullmatch(line)
        if heading:
            found.append((heading[1], []))
        elif found and line.startswith("    $ "):
            found[-1][1].append([line[6:], ""])
        elif found and found[-1][1] and line.startswith("    "):
            found[-1][1][-1][1] += line[4:] + "\n"
    return found


@lru_cache(maxsize=None)
def fixed(command):
    """What a command of the shell writes."""
    done = subprocess.run(["sh", "-c", command], cwd=ROOT, stdout=subprocess.PIPE, timeout=differential.RUN_SECONDS, check=True)
    return done.stdout


def asked_by(command, run):
    """The program that a command asks, and the sheet that it reads: a file, or what stands before the last bar writes."""
    asked, piped = ASKED.fullmatch(command), PIPED.fullmatch(command)
    if asked:
        return asked[1], (FOLDER / asked[2]).read_bytes()
    if not piped:
        raise ValueError(f"a command of another form: {command}")
    if not ASKED.fullmatch(piped[1]):
        return piped[2], fixed(piped[1])
    program, sheet = asked_by(piped[1], run)
    return piped[2], run(program, sheet).encode("ascii")


def judge_command(command, shown, run):
    """What is wrong with a command and what is shown under it; the sheet that it makes is judged as well."""
    program, sheet = asked_by(command, run)
    wrong = judge_printed(sheet, run) if PIPED.fullmatch(command) else []
    if run(program, sheet) != shown:
        wrong.append("README.md shows another text")
    return [f"{command}: {complaint}" for complaint in wrong]


def judge_section(name, commands, run):
    """The sheet asked first, then other questions about it; under a refused sheet the last has an answer: the fix."""
    if not commands or commands[0][0] != f"target/bin/{shower(name)} < examples/{name}":
        return [f"README.md does not start with target/bin/{shower(name)} < examples/{name}"]
    wrong = [f"README.md names another sheet: {command}" for command, _ in commands if f"examples/{name}" not in command]
    if refusal_of(name) and commands[-1][1].startswith("refused,"):
        wrong.append("README.md has no fix that is answered")
    return wrong + [complaint for command, shown in commands for complaint in judge_command(command, shown, run)]


# --------------------------------------------------------------------------
# All together.
# --------------------------------------------------------------------------

def tried(judge, *arguments):
    """What a judge finds, or that there was nothing to judge."""
    try:
        return judge(*arguments)
    except NO_ANSWER as error:
        return [f"no answer: {error}"]


def judge_whole(sheets, shown):
    """What is missing, or there twice, of sheets and sections."""
    names = [name for name, _ in shown]
    wrong = [f"{name}: no such sheet, but a section" for name in names if name not in sheets]
    wrong += [f"{name}: no section in README.md" for name in sheets if name not in names]
    wrong += [f"{name}: two sections" for name in set(names) if names.count(name) > 1]
    wrong += [f"{name}: no such sheet" for name in PROMISES if name not in sheets]
    numbers = set(map(refusal_of, sheets))
    wrong += [f"no sheet that is refused with {number}" for number in REFUSALS if number not in numbers]
    orders = {sheets[name].split(calc.LINE_END)[0] for name in PROMISES if name in sheets}
    return wrong if len(orders) > 1 else [*wrong, "no sheet has its columns in another order"]


def judge(sheets, readme, run):
    """All that is wrong with some sheets by name, the text about them, and what the programs print."""
    shown = sections(readme)
    wrong = judge_whole(sheets, shown)
    for name, sheet in sheets.items():
        commands = dict(shown).get(name, [])
        found = tried(judge_printed, sheet, run) + tried(judge_name, name, sheet, run)
        wrong += [f"{name}: {complaint}" for complaint in found + tried(judge_section, name, commands, run)]
    return wrong


def stored():
    """The sheets by name, and the text about them."""
    sheets = {path.name: path.read_bytes() for path in sorted(FOLDER.glob("*.csv")) if path.name != LICENCE}
    return sheets, (FOLDER / "README.md").read_text(encoding="utf-8")


def main():
    parser = argparse.ArgumentParser(description=__doc__.split("\n")[0])
    parser.add_argument("--bin", default=BIN, help="where the programs are")
    sheets, readme = stored()
    wrong = judge(sheets, readme, runner(parser.parse_args().bin))
    for complaint in wrong:
        print(f"examples: {complaint}")
    if not wrong:
        print(f"examples: {len(sheets)} sheets are answered and refused as examples/README.md shows")
    return 1 if wrong else 0


if __name__ == "__main__":
    sys.exit(main())
