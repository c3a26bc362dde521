"""Yards, sheets and pairs that the tests of the calculator share."""

import itertools
import math
from fractions import Fraction

from tests.calculator import calculator as calc
from tests.calculator.calculator import Case, Pair, span_of

DEPTHS = range(3, 13)

HEADER = (
    "station,season,soil,layer,thick,shock,clear,wire,body,fault,split,xr,across,along,"
    "space,depth,dia,rods,rodlen,place,metal,hz"
)
SAMPLE_LINES = (
    "7,1,400,2500,102,500,500,500,70,3180,600,10,11,11,7000,500,100,0,0,0,1,60",
    "7,2,100,2500,102,500,500,500,70,3180,600,10,11,11,7000,500,100,0,0,0,1,60",
)
# Document 01's own names and first line, which have one time, one count of lines and no frequency.
OLD_HEADER = (
    "station,season,soil,layer,thick,ms,body,fault,split,xr,lines,"
    "space,depth,dia,rods,rodlen,place,metal"
)
OLD_LINE = "7,1,400,2500,102,500,70,3180,600,10,11,7000,500,100,0,0,0,1"
YARD = Case(*(int(field) for field in SAMPLE_LINES[0].split(",")))
BARE = calc.with_one_time(YARD._replace(soil=100, layer=0, thick=0, body=50), 1000)
RODDED = YARD._replace(rods=20, rodlen=7500, place=1)
# Mesh voltage well within the tolerable touch, step voltage above its limit.
STEP_ONLY = Case(
    1, 1, 10, 0, 0, 500, 500, 500, 50, 20000, 1000, 10, 25, 25, 2500, 250, 300, 200, 1000, 1, 1, 60)
# Sides of 10 m and 40 m, so that the root of the area is 20 m.
LONG = YARD._replace(across=2, along=5, space=10000)
# The squares and the rectangles with the least and greatest counts, and others between.
COUNTS = ((2, 2), (25, 25), (2, 3), (2, 5), (2, 25), (3, 9), (9, 10), (10, 13), (24, 25))
RECTANGLES = tuple(YARD._replace(across=a, along=b) for a, b in COUNTS if a != b)


def column_of(name):
    """The place in the table of names."""
    return calc.NAMES.index(name) + 1


def text(*lines):
    return "".join(line + "\n" for line in lines).encode("ascii")


def value_line(case=YARD, names=calc.NAMES, **changes):
    """A value line in the order of names; a change may be any text."""
    values = dict(case._asdict(), **changes)
    return ",".join(str(values[name]) for name in names)


def sheet_of(*lines, header=HEADER):
    return text(header, *lines)


def random_case(rng):
    case = Case(*(rng.randint(*rng.choice(spans)) for spans in calc.RANGES))
    layer = rng.choice([(0, 0), (rng.randint(*span_of("layer")), rng.randint(*span_of("thick")))])
    rods = rng.choice(
        [(0, 0, 0), (rng.randint(1, span_of("rods")[1]), rng.randint(*span_of("rodlen")), rng.randint(1, span_of("place")[1]))]
    )
    return case._replace(
        layer=layer[0], thick=layer[1], rods=rods[0], rodlen=rods[1], place=rods[2]
    )


def exact_exp(q, k):
    """e^q without rounding: k terms of y = q/2^j and the rest, each to the power 2^j."""
    j = next(j for j in itertools.count() if q / 2**j <= Fraction(1, 2))
    y = q / 2**j
    lower = sum(y**i / math.factorial(i) for i in range(k))
    return Pair(lower ** 2**j, (lower + 2 * y**k / math.factorial(k)) ** 2**j)


def exact_exp_minus(pair, k):
    """e to the power minus a pair, without rounding."""
    return Pair(1 / exact_exp(pair.upper, k).upper, 1 / exact_exp(pair.lower, k).lower)


ROUNDED = Fraction(12, calc.OUTWARD)  # the most that outward rounding adds to an exponential's end


def is_wider(pair, ends, most=ROUNDED):
    """Whether a pair has these ends, or is wider by outward rounding."""
    lower, upper = ends
    return 0 <= lower - pair.lower <= most and 0 <= pair.upper - upper <= most


def clear_caches():
    """So that a replaced function of the calculator, or its own again, is asked again."""
    for function in vars(calc).values():
        if hasattr(function, "cache_clear"):
            function.cache_clear()
