"""Asks the program `questions` for the factor of every clear time, X/R and frequency, 239,360 in all, and
judges each pair by the calculator.

    make target/bin/questions && python3 -m tests.questions.factors [--program target/bin/questions]

Every pair is judged at depth 12, and a share at depth 3 too. What is wrong is printed, and the exit status
is then 1; at the end stand the count and the widest pair. It takes some minutes and is not in the gate.
"""

import argparse
import subprocess
import sys
from functools import partial
from itertools import product
from multiprocessing import Pool

from tests.calculator import calculator as calc
from tests.calculator.calculator import span_of
from tests.calculator.printed import lines_of, read_asked
from tests.questions.questions import YARD, line
from tests.sheets.differential import printed_by
from tests.sheets.sheets import FREQUENCIES

PROGRAM = "target/bin/questions"
PROCESSES = 2
DEPTHS, SHALLOW_DEPTHS = (12,), (3,)
SHALLOW_EVERY = 16  # one in so many is judged at the shallow depth too


def runs():
    """X/R and frequency of each run of the program, in which all clear times are asked."""
    low, high = span_of("xr")
    return list(product(range(low, high + 1), FREQUENCIES))


def times():
    low, high = span_of("clear")
    return range(low, high + 1)


def questions_of(xr, hz):
    return [line("factor", YARD._replace(clear=clear, xr=xr, hz=hz)) for clear in times()]


def answers(program, asked):
    """The pair that is answered to each question."""
    text = "".join(question + "\n" for question in asked)
    printed = lines_of(printed_by(program, text.encode("ascii")))
    if len(printed) != len(asked):
        raise ValueError(f"{len(printed)} answers to {len(asked)} questions")
    for question, reported in zip(asked, printed):
        if not reported.startswith(question + ","):
            raise ValueError(f"{reported!r} is no answer to {question!r}")
        pair = read_asked(reported[len(question) + 1 :])
        if len(pair) != 2:
            raise ValueError(f"{reported!r} is no pair")
        yield pair


def judge_run(program, run):
    """What is wrong with one run, how many pairs it has, and the widest with its clear time, X/R and
    frequency.
    """
    wrong, widths = [], []
    try:
        for clear, (lower, upper) in zip(times(), answers(program, questions_of(*run))):
            depths = DEPTHS + (SHALLOW_DEPTHS if (clear + sum(run)) % SHALLOW_EVERY == 0 else ())
            wrong += calc.judge_factor(clear, *run, lower, upper, depths)
            widths.append((upper - lower, (clear, *run)))
    except (ValueError, subprocess.TimeoutExpired) as error:
        wrong.append(f"X/R {run[0]}, {run[1]} Hz: {error}")
    return wrong, len(widths), max(widths, default=(-1, ()))


def judge_all(program):
    """The complaints, the count of pairs and the widest of all runs."""
    with Pool(PROCESSES) as pool:
        wrong, counts, widest = zip(*pool.imap(partial(judge_run, program), runs()))
    return [complaint for some in wrong for complaint in some], sum(counts), max(widest)


def main():
    parser = argparse.ArgumentParser(description=__doc__.split("\n")[0])
    parser.add_argument("--program", default=PROGRAM)
    wrong, count, (width, fault) = judge_all(parser.parse_args().program)
    for complaint in wrong:
        print(complaint)
    print(f"{count} factors judged; {len(wrong)} complaints")
    if fault:
        print("the widest pair is {} billionths wide, at {} ms, X/R {}, {} Hz".format(width, *fault))
    return 1 if wrong else 0


if __name__ == "__main__":
    sys.exit(main())
