"""Makes the questions that the program `questions` is run on, crates/questions/stdin, and gathers those on readings and staged tests.

    python3 -m tests.questions.questions --write

A question is a line: a kind, then its numbers. A record is written by name, so that a new name
needs a value in YARD and nothing else here.
"""

import argparse
import math
import random
from itertools import product
from pathlib import Path

from tests.calculator import calculator as calc
from tests.calculator.calculator import Case, span_of
from tests.calculator.printed import lines_of
from tests.measurements import readings, staged
from tests.questions import fewest, headroom, working
from tests.sheets.sheets import FREQUENCIES, case_at_limit, clear_time, random_case

FILE = Path(__file__).parents[2] / "crates" / "questions" / "stdin"
MOST_BYTES = 2097152  # fewer than these are read
SEED, RANDOM_RECORDS = 1, 50

RECORD_KINDS = ("factor", "size", "tolerable", "resistance", "row")
SIZE_KINDS = ("size", "factor", "row")  # asked of the same records, for they have one factor

# A square yard with a layer and with rods at its perimeter.
YARD = Case(
    station=7, season=1, soil=400, layer=2500, thick=102, shock=500, clear=500, wire=500,
    body=70, fault=3180, split=600, xr=10, across=11, along=11, space=7000, depth=500, dia=100,
    rods=20, rodlen=7500, place=1, metal=1, hz=60)

# Times and X/R at which the factor is asked at each frequency, and numbers that are refused.
FACTOR_CLEAR = (9, 10, 49, 50, 99, 100, 500, 2999, 3000)
FACTOR_XR = (1, 2, 10, 20, 39, 40)
FACTOR_REFUSED = {"clear": (8, 3001), "xr": (0, 41)}
OTHER_HZ = (0, 49, 51, 55, 59, 61)
RANDOM_FACTORS = 300

# Table 10 of IEEE Std 80-2013 without its first row, which is for 8.33 ms: the time in ms, and Df at
# 60 Hz for each X/R.
TABLE_10_XR = (10, 20, 30, 40)
TABLE_10 = (
    (50, ("1.232", "1.378", "1.462", "1.515")),
    (100, ("1.125", "1.232", "1.316", "1.378")),
    (200, ("1.064", "1.125", "1.181", "1.232")),
    (300, ("1.043", "1.085", "1.125", "1.163")),
    (400, ("1.033", "1.064", "1.095", "1.125")),
    (500, ("1.026", "1.052", "1.077", "1.101")),
    (750, ("1.018", "1.035", "1.052", "1.068")),
    (1000, ("1.013", "1.026", "1.039", "1.052")),
)

# A metal, its clear and wire time, X/R, frequency, and the current above which the conductor is one kcmil
# larger, whatever right ends the factor has.
SIZE_EDGES = (
    (1, 161, 9, 13, 50, 59099), (1, 130, 309, 34, 60, 57734), (1, 136, 524, 3, 50, 78977),
    (1, 3000, 12, 35, 60, 68072), (2, 3000, 1755, 29, 50, 78457), (2, 1508, 494, 3, 60, 57485),
    (2, 1870, 748, 21, 50, 72898), (2, 1634, 10, 17, 60, 60083), (3, 9, 3000, 30, 50, 13127),
    (3, 446, 15, 21, 60, 33329), (3, 18, 16, 37, 50, 76049), (3, 40, 38, 5, 60, 61909),
    (4, 9, 3000, 1, 50, 77390), (4, 1565, 35, 6, 60, 78883), (4, 778, 15, 35, 50, 67961),
    (4, 203, 42, 29, 60, 75206), (5, 3000, 841, 21, 50, 42299), (5, 218, 9, 23, 60, 29361),
    (5, 20, 2502, 3, 50, 62861), (5, 1460, 309, 31, 60, 71552), (6, 2775, 168, 19, 50, 21597),
    (6, 3000, 9, 27, 60, 27751), (6, 898, 255, 31, 50, 73057), (6, 1543, 1917, 6, 60, 2405),
    (7, 2393, 142, 37, 50, 31371), (7, 1278, 3000, 15, 60, 16273), (7, 464, 12, 35, 50, 68393),
    (7, 9, 1291, 37, 60, 72751), (8, 81, 3000, 40, 50, 8494), (8, 509, 2999, 23, 60, 75367),
    (8, 9, 282, 16, 50, 26810), (8, 636, 10, 22, 60, 9888), (9, 674, 3000, 6, 50, 78787),
    (9, 1134, 2805, 3, 60, 28901), (9, 12, 9, 32, 50, 76423), (9, 1587, 133, 9, 60, 78765),
    (10, 292, 142, 15, 50, 71784), (10, 3000, 1739, 27, 60, 71604), (10, 1562, 9, 8, 50, 78348),
    (10, 817, 264, 19, 60, 9653), (11, 2668, 9, 40, 50, 63399), (11, 843, 1212, 39, 60, 55886),
    (11, 3000, 179, 32, 50, 76657), (11, 2644, 597, 31, 60, 69942),
)

# The same with a current at which one billionth more of the factor, from the last below it to the first
# above, takes one kcmil more.
SIZE_BILLIONTHS = (
    (1, 70, 19, 14, 60, 58036), (1, 244, 1298, 24, 50, 59977), (2, 9, 50, 32, 60, 65465),
    (2, 2228, 125, 38, 50, 64379), (3, 1390, 93, 22, 60, 56994), (3, 345, 82, 19, 50, 64807),
    (4, 1380, 22, 22, 60, 78993), (4, 21, 2396, 12, 50, 72598), (5, 2432, 1726, 17, 60, 76859),
    (5, 66, 2964, 2, 50, 64900), (6, 53, 1465, 12, 60, 64894), (6, 1085, 1742, 8, 50, 49161),
    (7, 2835, 1569, 22, 60, 41527), (7, 635, 2378, 7, 50, 16581), (8, 1615, 2383, 36, 60, 55689),
    (8, 1774, 2562, 23, 50, 54167), (9, 2972, 2455, 40, 60, 41624), (9, 106, 2170, 32, 50, 58494),
    (10, 793, 2720, 13, 60, 51589), (10, 67, 1871, 3, 50, 34009), (11, 89, 1704, 13, 60, 53262),
    (11, 206, 1028, 5, 50, 52968),
)

# The same with a current at which one billionth more than the upper end that the program reports takes one
# kcmil more.
SIZE_ABOVE = (
    (1, 707, 1893, 21, 60, 61280), (2, 35, 1006, 13, 50, 58237), (3, 11, 377, 14, 60, 68429),
    (4, 42, 26, 37, 50, 67767), (5, 605, 2161, 6, 60, 69598), (6, 37, 1120, 1, 50, 62863),
    (7, 9, 363, 26, 60, 61179), (8, 1227, 421, 13, 50, 61821), (9, 78, 1112, 13, 60, 72275),
    (10, 27, 48, 27, 50, 72087), (11, 28, 26, 23, 60, 78643),
)

# Document 01's yards, with one time: size by metal, current and time, and the edge that was at 1000 A;
# factor by time and X/R.
WORKED_SIZES = (
    (1, 20000, 3000), (4, 20000, 3000), (8, 20000, 3000), (1, 1000, 1000), (1, 1001, 1000),
    (5, 1000, 1000), (1, 986, 1000), (1, 987, 1000),
)
WORKED_FACTORS = ((99, 11), (100, 11), (499, 40), (500, 40))
WORKED_VOLTAGES = ((50, 1000), (50, 250), (70, 1000))  # body and time, over bare soil of 100

# Three clocks at both ends of their range, and between.
CLOCK_KINDS = ("factor", "size", "tolerable", "row")
CLOCK_TIMES = (*product(span_of("shock"), repeat=3), (250, 100, 1000), (1000, 250, 100), (100, 1000, 250))

# Soil, layer and thickness: bare soil; a layer more resistive, as resistive, less resistive.
SURFACES = (
    (10, 0, 0), (100, 0, 0), (5000, 0, 0), (10, 10000, 20), (10, 10000, 300), (400, 2500, 102),
    (100, 100, 20), (5000, 100, 20), (5000, 100, 300), (5000, 4999, 20),
)
SURFACE_SHOCK = (9, 250, 500, 1000, 3000)

# Rods, their length and their place.
RODS = ((0, 0, 0), (1, 1000, 1), (200, 10000, 1), (200, 10000, 2))

# Counts, each asked exchanged too: the least and the greatest unequal ones, the longest yard, two
# whose area is a square, the first with nb 1 at depth 3, example B.3 of IEEE Std 80, and squares.
COUNTS = ((2, 3), (24, 25), (2, 25), (2, 5), (3, 9), (9, 10), (10, 13), (2, 2), (10, 10), (25, 25))
COUNT_KINDS = ("resistance", "row")

# What breaks a rule or two: layer before rods, 5 before 6, the leftmost 5.
BROKEN = (
    {"thick": 0}, {"layer": 0}, {"rodlen": 0}, {"rods": 0}, {"place": 0},
    {"thick": 0, "rods": 0}, {"thick": 0, "metal": 12}, {"layer": 0, "place": 3},
    {"soil": 9, "metal": 0}, {"metal": 12, "rods": 201}, {"across": 26, "along": 1},
    {"along": 26, "layer": 0}, {"metal": 12, "hz": 0}, {"rods": 0, "hz": 55},
)

# IEEE Std 80-2013, Annex B, examples B.1 to B.3: a square without rods, the same with 20 rods, a rectangle with 38.
# Its X/R of 3.33 is entered as 4.
B1 = Case(
    station=1, season=1, soil=400, layer=2500, thick=102, shock=500, clear=500, wire=500,
    body=70, fault=3180, split=600, xr=4, across=11, along=11, space=7000, depth=500, dia=100,
    rods=0, rodlen=0, place=0, metal=2, hz=60)
ANNEX_B = (B1, B1._replace(rods=20, rodlen=7500, place=1),
           B1._replace(across=10, along=13, rods=38, rodlen=10000, place=1))

SOUND_WORKINGS, UNSOUND_WORKINGS = 100, 30  # random records

# Upper and lower number: one, the ends, next to one, and refused ones.
MOST = calc.LN_MAX
FRACTIONS = (
    (1, 1), (MOST, MOST), (MOST - 1, MOST), (MOST, MOST - 1), (MOST - 1, MOST - 2),
    (MOST - 2, MOST - 1), (MOST, 1), (1, MOST), (MOST - 1, 1), (1, MOST - 1),
    (999999937, 999999938), (2, 1), (1, 2), (3, 2), (2, 3), (4, 3), (3, 4), (11, 10), (10, 11),
    *((10**k + 1, 10**k) for k in (3, 6, 9, 12)), *((10**k, 10**k + 1) for k in (3, 6, 9, 12)),
    (0, 1), (1, 0), (0, 0), (MOST + 1, 1), (1, MOST + 1), (MOST + 1, MOST + 1), (0, MOST + 1),
    (MOST + 1, 0), (2**64 - 1, 1), (1, 2**64 - 1),
)
MESH_YARDS = ((7000, 500, 100), *product(span_of("space"), span_of("depth"), span_of("dia")))


def line(kind, numbers):
    return ",".join((kind, *map(str, numbers)))


def triples_at_halvings():
    """By frequency the clear time and X/R whose 2tf/Ta is nearest below, and nearest above, each of 1/2,
    1, 2, 4, .., where the exponential takes one halving more.
    """
    (least, most), (least_xr, most_xr) = span_of("clear"), span_of("xr")
    for hz, power in product(FREQUENCIES, range(-1, 12)):
        below, above = [], []
        for xr in range(least_xr, most_xr + 1):
            at = 2**power * 1000 * xr / (4 * math.pi * hz)  # the time at which 2tf/Ta is the power
            if least <= at < most:
                below.append(((at - math.floor(at)) / at, math.floor(at), xr, hz))
                above.append(((math.ceil(at) - at) / at, math.ceil(at), xr, hz))
        yield from (min(side)[1:] for side in (below, above) if side)


def triples():
    """Clear time, X/R and frequency: the ends and others, those of Table 10, those at which the
    halvings change, and random ones.
    """
    yield from product(FACTOR_CLEAR, FACTOR_XR, FREQUENCIES)
    yield from ((clear, xr, 60) for clear, _ in TABLE_10 for xr in TABLE_10_XR)
    yield from triples_at_halvings()
    rng = random.Random(f"{SEED},factors")
    for _ in range(RANDOM_FACTORS):
        yield clear_time(rng), rng.randint(*span_of("xr")), rng.choice(FREQUENCIES)


def factors():
    for clear, xr, hz in triples():
        yield line("factor", YARD._replace(clear=clear, xr=xr, hz=hz))
    for name, numbers in FACTOR_REFUSED.items():
        yield from (line("factor", YARD._replace(**{name: number})) for number in numbers)
    for kind, hz in product(RECORD_KINDS, OTHER_HZ):
        yield line(kind, YARD._replace(hz=hz))


def with_size(case):
    """The size of a record, and its factor and its row, which have the factor of the size."""
    return (line(kind, case) for kind in SIZE_KINDS)


def sizes():
    for metal, clear, wire, xr, hz, fault in SIZE_EDGES:
        for current in (fault, fault + 1):
            yield from with_size(YARD._replace(
                metal=metal, clear=clear, wire=wire, xr=xr, hz=hz, fault=current))
    for metal, clear, wire, xr, hz, fault in SIZE_BILLIONTHS + SIZE_ABOVE:
        yield from with_size(YARD._replace(
            metal=metal, clear=clear, wire=wire, xr=xr, hz=hz, fault=fault))
    for metal, fault in product(calc.METAL_KF, span_of("fault")):
        yield from with_size(YARD._replace(metal=metal, wire=3000, fault=fault))
    for metal, fault in ((0, 1000), (12, 1000), (1, 99), (1, 80001), (0, 99), (12, 80001)):
        yield line("size", YARD._replace(metal=metal, fault=fault))


def tolerable():
    for (soil, layer, thick), kind, body, shock in product(
            SURFACES, ("tolerable", "row"), (50, 70), SURFACE_SHOCK):
        yield line(kind, YARD._replace(
            soil=soil, layer=layer, thick=thick, body=body, shock=shock))


def computed():
    for metal, fault, ms in WORKED_SIZES:
        yield from with_size(calc.with_one_time(YARD._replace(metal=metal, fault=fault), ms))
    for ms, xr in WORKED_FACTORS:
        yield line("factor", calc.with_one_time(YARD._replace(xr=xr), ms))
    for kind, (body, ms) in product(("tolerable", "row"), WORKED_VOLTAGES):
        case = YARD._replace(soil=100, layer=0, thick=0, body=body)
        yield line(kind, calc.with_one_time(case, ms))


def clocks():
    """Times that differ, so that one clock read for another changes a number."""
    for kind, (shock, clear, wire) in product(CLOCK_KINDS, CLOCK_TIMES):
        yield line(kind, YARD._replace(
            shock=shock, clear=clear, wire=wire, fault=20000, xr=40))


def resistances():
    ends = span_of("across")
    for soil, depth, (rods, rodlen, place), across, along, space in product(
            span_of("soil"), span_of("depth"), RODS, ends, ends, span_of("space")):
        case = YARD._replace(soil=soil, depth=depth, rods=rods, rodlen=rodlen, place=place,
                             across=across, along=along, space=space)
        yield line("resistance", case)
        yield line("row", case)


def counts():
    """Equal and unequal counts, and their exchange, at each place of rods."""
    both = (turned for pair in COUNTS for turned in (pair, pair[::-1]))
    for (across, along), (rods, rodlen, place), space, kind in product(
            both, RODS, (2500, 7777), COUNT_KINDS):
        yield line(kind, YARD._replace(across=across, along=along, rods=rods, rodlen=rodlen,
                                       place=place, space=space))


def edges():
    """Each name in turn at both sides of both ends of its ranges."""
    for kind, (name, spans) in product(("resistance", "row"), calc.COLUMNS):
        values = {end + by for low, high in spans for end, by in
                  ((low, -1), (low, 0), (high, 0), (high, 1)) if end + by >= 0}
        for value in sorted(values | {2**32 - 1, 2**32}):
            yield line(kind, YARD._replace(**{name: value}))


def broken():
    for kind, changes in product(RECORD_KINDS, BROKEN):
        yield line(kind, YARD._replace(**changes))


def unsound_case(rng):
    """A record with one to three numbers from anywhere."""
    names = rng.sample(calc.NAMES, rng.randint(1, 3))
    return random_case(rng)._replace(**{name: rng.choice((0, 1, 2, 50, 70, rng.randrange(10**6)))
                                        for name in names})


def random_records():
    for kind in RECORD_KINDS:
        rng = random.Random(f"{SEED},{kind}")
        for make in (random_case, unsound_case):
            for _ in range(RANDOM_RECORDS):
                case = make(rng)
                yield from with_size(case) if kind == "size" else (line(kind, case),)
    rng = random.Random(SEED)
    for _ in range(5):
        yield line("row", case_at_limit(rng))


def logarithms():
    for fraction in FRACTIONS:
        yield line("ln", fraction)
    for space, depth, dia in MESH_YARDS:
        argument = calc.mesh_argument(YARD._replace(space=space, depth=depth, dia=dia))
        yield line("ln", argument.as_integer_ratio())
    for k in range(1, 15):
        yield line("ln", (10**k, 1))
        yield line("ln", (1, 10**k))
    for q, k in product((1, 3), range(50)):
        for p in (2**k - 1, 2**k, 2**k + 1):
            yield line("ln", (p, q))
    rng = random.Random(f"{SEED},ln")
    for _ in range(2 * RANDOM_RECORDS):
        yield line("ln", (rng.randint(1, 10 ** rng.randint(1, 15)) for _ in range(2)))


def earlier_records(case):
    """Records of names sold earlier, without a frequency: with all else, with one time, with one count
    of lines, with both.
    """
    clocks, counts = calc.CLOCKS[1:], calc.COUNTS[1:]
    for dropped in ((), clocks, counts, clocks + counts):
        yield [number for name, number in zip(calc.NAMES, case) if name not in ("hz", *dropped)]


def searches():
    yield from (fewest.line(*question) for question in fewest.questions(YARD))


def headrooms():
    yield from headroom.lines(YARD)


def workings():
    """The working of IEEE Std 80's examples, over each surface, of the counts at each place of rods, with both ends
    of depth, diameter, shock time and current; of records at the sides of each range, of broken and of random ones;
    and lines of its kind that are no question.
    """
    cases = [*ANNEX_B, *(YARD._replace(soil=soil, layer=layer, thick=thick) for soil, layer, thick in SURFACES),
             *(YARD._replace(shock=shock) for shock in SURFACE_SHOCK)]
    for (across, along), (rods, rodlen, place) in product(COUNTS, RODS):
        for turned in ((across, along), (along, across)):
            cases.append(YARD._replace(across=turned[0], along=turned[1], rods=rods, rodlen=rodlen, place=place))
    for depth, dia, space, place in product(span_of("depth"), span_of("dia"), span_of("space"), (0, 1)):
        rods, rodlen = (200, 10000) if place else (0, 0)
        cases.append(YARD._replace(depth=depth, dia=dia, space=space, rods=rods, rodlen=rodlen, place=place))
    for soil, fault, split in product(span_of("soil"), span_of("fault"), span_of("split")):
        cases += (YARD._replace(soil=soil, fault=fault, split=split, across=counts, along=counts) for counts in span_of("across"))
    for name, spans in calc.COLUMNS:
        for low, high in spans:
            cases += (YARD._replace(**{name: end}) for end in (low - 1, low, high, high + 1) if end >= 0)
    cases += (YARD._replace(**changes) for changes in BROKEN)
    rng = random.Random(f"{SEED},{working.KIND}")
    cases += (random_case(rng) for _ in range(SOUND_WORKINGS))
    cases += (unsound_case(rng) for _ in range(UNSOUND_WORKINGS))
    yield from (line(working.KIND, case) for case in cases)
    yield from (working.KIND, line(working.KIND, YARD) + ",1", line(working.KIND, YARD[:-1]))


def no_questions():
    """Lines that are broken: a kind that is none, too few or too many numbers, no number."""
    sound = line("factor", YARD)
    short = sound.rpartition(",")[0]
    yield from ("", ",", "factor", "ln", "ln,", "ln,1", "ln,1,", "ln,1,2,3", "ln,1,2,", "ln,,1")
    yield from (line(kind, YARD) for kind in (
        "", "ln", "factors", "facto", "Factor", "row ", "20", "touch", "step"))
    yield from (sound + ",1", sound + ",", short, short + ",", "tolerable,1,2")
    yield from (line(kind, record) for kind in (*RECORD_KINDS, headroom.KIND) for record in earlier_records(YARD))
    yield from (f"ln,{number},1" for number in (2**64, 10**19 * 2, 10**40, "-1", "+1", "1.0", "x"))


def questions():
    """All on cases and logarithms, each once, in a fixed order."""
    series = (factors, sizes, tolerable, computed, clocks, resistances, counts, edges, broken,
              random_records, logarithms, searches, headrooms, workings, no_questions)
    return list(dict.fromkeys(question for make in series for question in make()))


def measured():
    """Those on lists of readings and on staged tests, each after its kind."""
    yield from (f"{readings.KIND},{numbers}" for numbers in readings.lines())
    yield from (f"{staged.KIND},{numbers}" for numbers in staged.all_lines())


def text():
    return "".join(question + "\n" for question in (*questions(), *measured()))


def stored():
    """The stored lines, and what is printed for each."""
    return [lines_of(file.read_text(encoding="ascii")) for file in (FILE, FILE.with_name("stdout"))]


def stored_of(kind):
    """The stored lines of a kind and what is printed for each, without the kind."""
    begin = kind + ","
    return [[line[len(begin) :] for line in lines if line.startswith(begin)] for lines in stored()]


def main():
    parser = argparse.ArgumentParser(description=__doc__.split("\n")[0])
    parser.add_argument("--write", action="store_true", help="rewrite the stored questions")
    if parser.parse_args().write:
        FILE.write_text(text(), encoding="ascii")
    else:
        print(text(), end="")


if __name__ == "__main__":
    main()
