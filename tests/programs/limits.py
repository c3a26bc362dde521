"""Runs the built programs at their limits: the most lines and bytes and one more, the longest texts, each refusal of
`fewest` and `summary`, the largest carried sheets; and on outputs that fail, are closed, or are read slowly.

    python3 -m tests.programs.limits [--bin target/bin]

Rows are judged by the calculator, the other texts by the rows and by the judges that are there. What is wrong is
printed, and the exit status is then 1.
"""

import argparse
import os
import random
import subprocess
import sys
import time
from pathlib import Path

from tests.calculator import calculator as calc
from tests.calculator.calculator import Case, Refusal
from tests.calculator.printed import VERDICT_NAMES, WORDS, read_margins, read_rows
from tests.questions import fewest, margins
from tests.sheets import carry, differential, sheets, summary

PROGRAMS = ("verdict", "rows", "margins", "fewest", "summary", "carry", "carry_back")
SUMMARY_NAMES = ("station", "seasons", "safe", "unsafe", "undecided", "highest_mesh_season")
SEED = 33
RUN_SECONDS = 20
CHUNK, PAUSE = 4096, 0.002  # how a slow reader reads
SIDE = 70000


# --------------------------------------------------------------------------
# Sheets.
# --------------------------------------------------------------------------

def heavy(station, season):
    """A sound case with as many digits in its row's numbers as any."""
    return Case(station, season, 5000, 10000, 300, 9, 9, 9, 50, 80000, 1000, 40, 2, 25, 30000, 2500, 300, 0, 0, 0, 3, 50)


def sheets_at_limits():
    """Sheets of today's names, each with what it is."""
    rng = random.Random(SEED)
    full = [sheets.random_case(rng)._replace(station=1 + i // 4, season=1 + i % 4) for i in range(calc.MAX_VALUE_LINES)]
    last = sheets.random_case(rng)._replace(station=65535)
    yield "256 lines", sheets.sheet_of(full)
    yield "257 lines", sheets.sheet_of([*full, last])
    yield "the last of 256 lines repeats the first key", sheets.sheet_of([*full[:-1], last._replace(station=1, season=1)])
    yield "the last of 256 lines out of range", sheets.sheet_of([*full[:-1], last._replace(fault=99)])
    yield "256 stations, the longest numbers", sheets.sheet_of(
        [heavy(65535 - i, 4) for i in range(calc.MAX_VALUE_LINES)])
    yield "one line", sheets.sheet_of([last])
    short = sheets.sheet_of(full[:3])
    yield "65,536 bytes", sheets.filled_up(short, calc.MAX_BYTES)
    yield "65,537 bytes", sheets.filled_up(short, calc.MAX_BYTES + 1)
    yield "65,537 bytes of which the first 65,536 are no sheet's end", b"\n" * (calc.MAX_BYTES + 1)
    yield "a megabyte", short * 4000
    yield "nothing", b""
    yield "names alone", sheets.sheet_of([])
    yield "no last byte 10", short[:-1]
    yield "a wrong name", short.replace(b"hz", b"Hz", 1)
    yield "a layer without its thickness", sheets.sheet_of([full[0], last._replace(layer=100, thick=0)])


# --------------------------------------------------------------------------
# What each program must print.
# --------------------------------------------------------------------------

def refusal_text(refusal):
    return "refused,{},{},{}\n".format(*refusal)


def table_text(names, lines):
    return carry.sheet_text(names, lines).decode("ascii")


def verdict_text(rows):
    if isinstance(rows, Refusal):
        return refusal_text(rows)
    return table_text(VERDICT_NAMES, [[row[0], row[1], WORDS[row[2] - 1], row[3]] for row in rows])


def summary_text(rows):
    if isinstance(rows, Refusal):
        return refusal_text(rows)
    return table_text(SUMMARY_NAMES, summary.summary_of(rows))


def carried_text(way, sheet):
    answer = carry.answer(way, sheet, carry.BUFFER)
    return refusal_text(answer) if isinstance(answer, Refusal) else answer.decode("ascii")


def fewest_text(text):
    """An input longer than any side with any sheet is refused."""
    answer = Refusal(1, 0, 0) if len(text) > calc.MAX_BYTES + len(b"720000\n") else fewest.sheet_answer(*fewest.parts(text), fewest.sure)
    return refusal_text(answer) if isinstance(answer, Refusal) else ",".join(map(str, answer)) + "\n"


# --------------------------------------------------------------------------
# Runs.
# --------------------------------------------------------------------------

def run(program, text):
    """What a program prints; more than that, or another status than 0, is an error."""
    done = subprocess.run([program], input=text, capture_output=True, timeout=RUN_SECONDS)
    if done.returncode or done.stderr:
        raise ValueError(f"status {done.returncode}, standard error {done.stderr!r}")
    return done.stdout.decode("ascii")


def judged(folder, sheet):
    """What is wrong with the programs' texts of a sheet."""
    text = {name: run(folder / name, sheet) for name in PROGRAMS if name != "fewest"}
    rows = read_rows(text["rows"])
    wrong = differential.judge(calc.read_sheet(sheet), rows, lambda: False)
    wrong += margins.judge(rows, read_margins(text["margins"]))
    wanted = {"verdict": verdict_text(rows), "summary": summary_text(rows),
              "carry": carried_text(carry.ON, sheet), "carry_back": carried_text(carry.BACK, sheet)}
    return wrong + [f"{name} prints another text: {text[name][:80]!r}" for name in wanted if text[name] != wanted[name]]


def at_limits(folder):
    """What is wrong, and how many texts were compared."""
    wrong, count = [], 0
    carried = [(f"carried sheet {place}", sheet) for place, sheet in enumerate(carry.large_sheets(), start=1)]
    for what, sheet in (*sheets_at_limits(), *carried):
        count += len(PROGRAMS) - 1
        wrong += [f"{what}: {complaint}" for complaint in judged(folder, sheet)]
    for text in fewest.inputs():
        count += 1
        reported, wanted = run(folder / "fewest", text), fewest_text(text)
        if reported != wanted:
            wrong.append(f"fewest prints {reported!r}, not {wanted!r}, for {text[:60]!r}")
    return wrong, count


def failing(folder, name, text):
    """What is wrong with what is reported on a full disk, a closed output, and a pipe that nobody reads."""
    wrong = []
    with open("/dev/full", "wb") as full:
        done = subprocess.run([folder / name], input=text, stdout=full, stderr=subprocess.PIPE, timeout=RUN_SECONDS)
    if done.stderr != f"{name}: standard output: No space left on device\n".encode("ascii"):
        wrong.append(f"{name} on a full disk: {done.stderr!r}")
    done = subprocess.run(["sh", "-c", 'exec "$0" >&-', folder / name], input=text, stderr=subprocess.PIPE, timeout=RUN_SECONDS)
    if done.stderr != f"{name}: standard output: Bad file descriptor\n".encode("ascii"):
        wrong.append(f"{name} on a closed output: {done.stderr!r}")
    for ignored in ("", "trap '' PIPE; "):
        read, write = os.pipe()
        os.close(read)
        done = subprocess.run(["sh", "-c", f'{ignored}exec "$0"', folder / name], input=text, stdout=write,
                              stderr=subprocess.PIPE, timeout=RUN_SECONDS)
        os.close(write)
        if done.stderr:
            wrong.append(f"{name} on a closed pipe: {done.stderr!r}")
    return wrong


def slowly(program, text):
    """What a reader gets that waits between small reads."""
    with subprocess.Popen([program], stdin=subprocess.PIPE, stdout=subprocess.PIPE) as running:
        running.stdin.write(text)
        running.stdin.close()
        reported = b""
        while chunk := os.read(running.stdout.fileno(), CHUNK):
            reported += chunk
            time.sleep(PAUSE)
    return reported.decode("ascii")


def on_outputs(folder):
    """What is wrong with the programs on outputs that fail and on a slow reader."""
    sheet = dict(sheets_at_limits())["256 lines"]
    former = carry.sheet_text(carry.FORMER.names, carry.many_cases(carry.widest, carry.FORMER, calc.MAX_VALUE_LINES))
    texts = dict.fromkeys(PROGRAMS, sheet) | {"carry": former, "fewest": next(fewest.inputs())}
    wrong = []
    for name, text in texts.items():
        wrong += failing(folder, name, text)
        if slowly(folder / name, text) != run(folder / name, text):
            wrong.append(f"{name} on a slow pipe prints another text")
    return wrong


def main():
    parser = argparse.ArgumentParser(description=__doc__.split("\n")[0])
    parser.add_argument("--bin", type=Path, default=Path(__file__).parents[2] / "target" / "bin")
    folder = parser.parse_args().bin.resolve()
    wrong, count = at_limits(folder)
    wrong += on_outputs(folder)
    for complaint in wrong:
        print(f"limits: {complaint}")
    if not wrong:
        print(f"limits: {count} texts and {5 * len(PROGRAMS)} runs on other outputs as they must be")
    return 1 if wrong else 0


if __name__ == "__main__":
    sys.exit(main())
