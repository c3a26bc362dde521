"""Counts the instructions that the library takes for a line of a sheet, next to the same rows in doubles.

    make harness
    python3 -m tests.host.cost [--harness target/host/harness] [--lines 256] [--seed 1]

It needs valgrind. Three sheets are counted: the stored one, which has squares only, with its lines over and
over; the same with unequal counts in their place; and one of random cases. Each figure is a difference of two
runs, on the whole sheet and on its first 16 lines, so that the line of names does not count. A sheet whose
last line repeats the first one's station and season is judged to its end and no row is computed, which separates
judging from rows. Headroom and release have the judging of a line in them.
"""

import argparse
import random
import re
import subprocess
import tempfile
from pathlib import Path

from tests.sheets.sheets import random_case

HARNESS = "target/host/harness"
SHEET = Path(__file__).parents[2] / "crates" / "rows" / "stdin"
SHORT = 16  # lines; a sheet of fewer than 8 has a store of its own
APART, MIDDLE = 12, 14  # unequal counts are so far apart; from the middle on along is below across
MOST_STATION = 65535


def instructions(harness, question, lines):
    """The instructions of a question of a sheet, without what the harness does around it."""
    with tempfile.NamedTemporaryFile() as profile, tempfile.NamedTemporaryFile() as sheet:
        Path(sheet.name).write_bytes(b"\n".join(lines) + b"\n")
        counted = ("--toggle-collect=work_doubles", "--toggle-collect=hocsimbur_*")
        run = ("valgrind", "--tool=callgrind", *counted, f"--callgrind-out-file={profile.name}", harness, "ask", question, sheet.name)
        subprocess.run(run, capture_output=True, check=True)
        return int(re.search(r"^totals: (\d+)", Path(profile.name).read_text(), flags=re.MULTILINE)[1])


def with_values(lines, change):
    """The sheet with the values of each line changed, by a function of their place and a dictionary."""
    names, *values = (line.split(b",") for line in lines)
    changed = (change(i, dict(zip(names, value))) for i, value in enumerate(values))
    return [lines[0], *(b",".join(value[name] for name in names) for value in changed)]


def repeated(lines, count):
    """The sheet with its value lines over and over up to a count, each with its own station."""
    lines = [lines[0], *(lines[1 + i % (len(lines) - 1)] for i in range(count))]
    return with_values(lines, lambda i, value: value | {b"station": b"%d" % (10001 + i)})


def rectangle(_, value):
    """Across as it is, and along so far from it."""
    count = int(value[b"across"])
    return value | {b"along": b"%d" % (count + APART if count < MIDDLE else count - APART)}


def random_lines(names, count, seed):
    """Random cases, in no order of their stations."""
    rng = random.Random(seed)
    stations = rng.sample(range(1, MOST_STATION + 1), count)
    cases = (random_case(rng)._replace(station=station)._asdict() for station in stations)
    return [names, *(",".join(str(case[name]) for name in names.decode().split(",")).encode() for case in cases)]


def refused_at_the_end(lines):
    """The sheet with the first line's station and season in its last line."""
    first = dict(zip(lines[0].split(b","), lines[1].split(b",")))
    key = {name: first[name] for name in (b"station", b"season")}
    return with_values(lines, lambda i, value: value | key if i == len(lines) - 2 else value)


def a_line(harness, question, lines, change=list):
    """Instructions for one value line more."""
    short = lines[: 1 + SHORT]
    more = instructions(harness, question, change(lines)) - instructions(harness, question, change(short))
    return more / (len(lines) - len(short))


def main():
    parser = argparse.ArgumentParser(description=__doc__.split("\n")[0])
    parser.add_argument("--harness", default=HARNESS)
    parser.add_argument("--lines", type=int, default=256)
    parser.add_argument("--seed", type=int, default=1)
    asked = parser.parse_args()
    stored = SHEET.read_bytes().split(b"\n")[:-1]
    squares = repeated(stored, asked.lines)
    sheets = {
        "squares": squares,
        "rectangles": with_values(squares, rectangle),
        "random": random_lines(stored[0], asked.lines, asked.seed),
    }
    print("sheet,judging,row,row_in_doubles,headroom,release")
    for name, lines in sheets.items():
        judging = a_line(asked.harness, "rows", lines, refused_at_the_end)
        others = (a_line(asked.harness, question, lines) for question in ("rows", "doubles", "headroom", "release"))
        rows, doubles, headroom, release = others
        print(f"{name},{judging:.0f},{rows - judging:.0f},{doubles:.0f},{headroom:.0f},{release:.0f}")


if __name__ == "__main__":
    main()
