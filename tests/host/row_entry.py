"""Judges the C entry: random sheets, sound and damaged, through `harness serve`, each with a buffer of its own.

    python3 -m tests.host.row_entry [--seed S] [--count N] [--short | --sound] [--harness target/host/harness]

Any disagreement with the calculator is printed with its sheet, and the exit status is then 1. `make harness`
builds the harness. With `--short` sheets of more than 2,000 bytes are passed over; with
`--sound` every sheet has one sound line.
"""

import argparse
import random
import struct
import subprocess
import sys
from collections import Counter
from itertools import count as numbers

from tests.calculator import calculator as calc
from tests.calculator.calculator import Refusal
from tests.sheets import differential, sheets

HARNESS = "target/host/harness"
ROW = struct.Struct(f"<{calc.ROW_LENGTH}q")  # "eight-byte little-endian signed numbers"
LINE_BYTES = 160  # "A buffer short of 160 bytes a line is refused with 8."
LENGTHS, ANSWER = struct.Struct("<II"), struct.Struct("<qQQ")
UNSET = 2**64 - 1  # what the harness puts in the place beforehand
SHORT = 2000


def answer_of(sheet, buffer_bytes):
    """What the documents say: a refusal, or the cases."""
    wanted = calc.read_sheet(sheet)
    if not isinstance(wanted, Refusal) and buffer_bytes < LINE_BYTES * len(wanted):
        return Refusal(8, 0, 0)
    return wanted


def judge(wanted, before, reported, after, deep):
    """What is wrong with an answer, line and column, and the buffer after it."""
    answer, *place = reported
    if len(after) != len(before):
        return [f"a buffer of {len(after)} bytes, not {len(before)}"]
    if isinstance(wanted, Refusal):
        wrong = [] if answer == -wanted.number else [f"answer {answer}, not {-wanted.number}"]
        wrong += [] if tuple(place) == (wanted.line, wanted.column) else [f"place {place}, not that of {wanted}"]
        return wrong + ([] if after == before else ["a refusal that changes the buffer"])
    if answer != len(wanted):
        return [f"answer {answer}, not {len(wanted)}"]
    end = LINE_BYTES * answer
    wrong = [] if after[end:] == before[end:] else ["bytes past the last row are changed"]
    wrong += [] if place == [UNSET, UNSET] else [f"place {place} with rows"]
    rows = [list(row) for row in ROW.iter_unpack(after[:end])]
    return wrong + differential.judge(wanted, rows, deep)


def buffer_for(rng, sheet):
    """Random bytes: room for the lines and some more, or at times too few."""
    need = LINE_BYTES * min(max(sheet.count(calc.LINE_END) - 1, 0), calc.MAX_VALUE_LINES)
    sizes = (need, need + rng.randrange(400), need + rng.randrange(400), max(need - rng.choice((1, 8, 160)), 0), rng.randint(0, need))
    return rng.randbytes(rng.choice(sizes))


class Harness:
    """A running harness, asked sheet by sheet."""

    def __init__(self, path):
        self.process = subprocess.Popen([path, "serve"], stdin=subprocess.PIPE, stdout=subprocess.PIPE)

    def ask(self, sheet, buffer):
        """Answer, line and column, and the buffer after it."""
        self.process.stdin.write(LENGTHS.pack(len(sheet), len(buffer)) + sheet + buffer)
        self.process.stdin.flush()
        return ANSWER.unpack(self.read(ANSWER.size)), self.read(len(buffer))

    def read(self, size):
        got = self.process.stdout.read(size)
        if len(got) != size:
            raise ValueError("the harness ended")
        return got

    def close(self):
        self.process.stdin.close()
        self.process.stdout.close()
        return self.process.wait()


def random_sheets(seed):
    for number in numbers():
        yield sheets.numbered_sheet(seed, number)


def short_sheets(seed):
    return (made for made in random_sheets(seed) if len(made[1]) <= SHORT)


def sound_sheets(seed):
    for number in numbers():
        rng = random.Random(f"{seed},{number}")
        yield rng, sheets.sheet_of([sheets.random_case(rng)]), "nothing"


def run(harness, sheets, count):
    """The tallies of count sheets, how many rows, and how many sheets disagree."""
    tally, rows, failed = Counter(), 0, 0
    for _, (rng, sheet, damage) in zip(range(count), sheets):
        before = buffer_for(rng, sheet)
        wanted = answer_of(sheet, len(before))
        wrong = judge(wanted, before, *harness.ask(sheet, before), lambda: rng.randrange(differential.DEEP_EVERY) == 0)
        tally[wanted.number if isinstance(wanted, Refusal) else 0] += 1
        rows += 0 if isinstance(wanted, Refusal) else len(wanted)
        if wrong:
            failed += 1
            print(f"{damage}: {sheet!r}", *wrong, sep="\n  ")
    return tally, rows, failed


def main():
    parser = argparse.ArgumentParser(description=__doc__.split("\n")[0])
    parser.add_argument("--seed", type=int, default=1)
    parser.add_argument("--count", type=int, default=1000)
    kinds = parser.add_mutually_exclusive_group()
    kinds.add_argument("--short", dest="sheets", action="store_const", const=short_sheets, default=random_sheets)
    kinds.add_argument("--sound", dest="sheets", action="store_const", const=sound_sheets)
    parser.add_argument("--harness", default=HARNESS)
    asked = parser.parse_args()
    harness = Harness(asked.harness)
    tally, rows, failed = run(harness, asked.sheets(asked.seed), asked.count)
    status = harness.close()
    refused = ", ".join(f"{tally[number]} with {number}" for number in range(1, 9))
    print(f"seed {asked.seed}: {asked.count} sheets, {tally[0]} accepted, refused {refused}; {rows} rows judged; {failed} sheets disagree")
    return 1 if failed or status else 0


if __name__ == "__main__":
    sys.exit(main())
