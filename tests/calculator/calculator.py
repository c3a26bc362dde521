"""A separately written calculator for sheets of ground grids.

It follows document 01 (Square Ground Grids: Seasonal Sheets and Voltage Ends),
as the requests of document 02 that have landed change it, sentence by sentence,
in exact fractions, and judges reported rows against it.

The fractions of the exponentials, and for unequal counts of the logarithm with n,
would grow without use: there ends are rounded outward to multiples of 10^-50, an
exponential's after each squaring.  The ends at a depth are then wider than the
document's by far less than a row can show, so that whatever is found wrong is
wrong.  All else is without rounding.

    python3 -m tests.calculator.calculator [--depth K] [--table N] < sheet
"""

import argparse
import math
import operator
import sys
from collections import namedtuple
from fractions import Fraction
from functools import lru_cache

# --------------------------------------------------------------------------
# Every limit, name, range and constant of the documents, in one place.
# --------------------------------------------------------------------------

LINE_END = b"\n"
FIELD_END = b","
MAX_BYTES = 65536  # this and the next as changed by request (h) of document 02
MAX_VALUE_LINES = 256
MAX_DIGITS = 6
ROW_LENGTH = 20

# The names in document order, each with the spans its value may lie in.
COLUMNS = (
    ("station", ((1, 65535),)),
    ("season", ((1, 4),)),
    ("soil", ((10, 5000),)),
    ("layer", ((0, 0), (100, 10000))),
    ("thick", ((0, 0), (20, 300))),
    ("shock", ((9, 3000),)),
    ("clear", ((9, 3000),)),
    ("wire", ((9, 3000),)),
    ("body", ((50, 50), (70, 70))),
    ("fault", ((100, 80000),)),
    ("split", ((1, 1000),)),
    ("xr", ((1, 40),)),
    ("across", ((2, 25),)),
    ("along", ((2, 25),)),
    ("space", ((2500, 30000),)),
    ("depth", ((250, 2500),)),
    ("dia", ((50, 300),)),
    ("rods", ((0, 200),)),
    ("rodlen", ((0, 0), (1000, 10000))),
    ("place", ((0, 2),)),
    ("metal", ((1, 11),)),
    ("hz", ((50, 50), (60, 60))),
)


class Form:
    """A table of names: what a sheet's columns are, and a record of its cases."""

    def __init__(self, columns):
        self.names = tuple(name for name, _ in columns)
        self.name_bytes = tuple(name.encode("ascii") for name in self.names)
        self.ranges = tuple(spans for _, spans in columns)
        self.count = len(columns)
        self.record = namedtuple("Case", self.names)


FORM = Form(COLUMNS)
NAMES, NAME_BYTES, RANGES, COLUMN_COUNT = FORM.names, FORM.name_bytes, FORM.ranges, FORM.count
SPANS = dict(COLUMNS)
Case = FORM.record


def span_of(name):
    """The least and the greatest value of a name, 0 for none aside."""
    return SPANS[name][-1]


# The shock time, the fault's clearing time and the back-up clearing time for the wire.
CLOCKS = ("shock", "clear", "wire")

# The conductors one way and the other.
COUNTS = ("across", "along")

# Groups whose members are all 0 or all not 0; the first one's column is reported,
# and the first group comes before the second.
ZERO_GROUPS = (("layer", "thick"), ("rods", "rodlen", "place"))

# Kf of each metal, in hundredths.
METAL_KF = {
    1: 700, 2: 706, 3: 1178, 4: 1045, 5: 1206, 6: 1464,
    7: 1726, 8: 1839, 9: 1472, 10: 2896, 11: 3005,
}

BODY_K = {50: Fraction("0.116"), 70: Fraction("0.157")}
TOUCH_WEIGHT = Fraction("1.5")
STEP_WEIGHT = Fraction(6)
PERIMETER = 1  # the place at which Kii is 1 and LM weighs the rods

SAFE, UNSAFE, UNDECIDED = 1, 2, 3

# The eight pairs in the order of the row: name, table units in one ampere, a factor
# of one, one volt or ohm, and the allowed width: a share of its base, plus some
# table units.  The base is the reported lower end, or the named length under
# rho * Ki * IG, with Ki "worked with na in place of n" and IG the reported upper
# grid current.
Quantity = namedtuple("Quantity", "name units share base plus")
LOWER, OVER_LT, OVER_LS = "lower end", "rho*Ki*IG/LT", "rho*Ki*IG/LS"
CURRENT_UNITS, FACTOR_UNITS = 10**6, 10**9
FACTOR_WIDTH = 1000
QUANTITIES = (
    Quantity("current", CURRENT_UNITS, Fraction(1, 500000), LOWER, 2),
    Quantity("factor", FACTOR_UNITS, 0, LOWER, FACTOR_WIDTH),
    Quantity("tolerable_touch", 1000, Fraction(1, 10000), LOWER, 10),
    Quantity("tolerable_step", 1000, Fraction(1, 10000), LOWER, 10),
    Quantity("mesh", 1000, Fraction(1, 100000), OVER_LT, 10),
    Quantity("step", 1000, Fraction(1, 100000), OVER_LS, 10),
    Quantity("resistance", 10**6, Fraction(1, 10000), LOWER, 2),
    Quantity("rise", 1000, Fraction(1, 2000), LOWER, 10),
)
FIRST_PAIR = 4  # place in the row of the first pair's lower end

LN_UNITS = 10**9  # the logarithm is reported in billionths
LN_WIDTH = 200
LN_MAX = 10**15

EXP_SMALL = Fraction(1, 2)  # the series of e^y is used for y up to here
OUTWARD = 10**50  # steps in one, where ends are rounded outward

MIN_DEPTH = 3
DEFAULT_DEPTH = 12
SHOWN_DECIMALS = 6

Grid = namedtuple("Grid", (*COUNTS, "space"))  # what n depends on
Refusal = namedtuple("Refusal", "number line column")
Ends = namedtuple("Ends", [quantity.name for quantity in QUANTITIES])


def with_one_time(case, ms):
    """A case of document 01, whose one time each clock gets."""
    return case._replace(**dict.fromkeys(CLOCKS, ms))


def with_lines(case, lines):
    """A case of document 01, whose one count of lines is that of both ways."""
    return case._replace(**dict.fromkeys(COUNTS, lines))


# --------------------------------------------------------------------------
# Pairs of ends.
# --------------------------------------------------------------------------

class Pair(namedtuple("Pair", "lower upper")):
    """Two ends, both fractions, with lower not above upper.

    "Sums, products and quotients combine the two ends by the least and
    greatest outcome."  A plain number stands for a pair with equal ends.
    """

    __slots__ = ()

    def __add__(self, other):
        """A sum is least at both lower ends and greatest at both upper ones."""
        other = as_pair(other)
        return Pair(self.lower + other.lower, self.upper + other.upper)

    def __sub__(self, other):
        return self + -as_pair(other)

    def __rsub__(self, other):
        return -self + other

    def __mul__(self, other):
        return combine(operator.mul, self, other)

    def __truediv__(self, other):
        return combine(operator.truediv, self, other)

    def __rtruediv__(self, other):
        return combine(operator.truediv, other, self)

    def __neg__(self):
        return Pair(-self.upper, -self.lower)

    __radd__ = __add__
    __rmul__ = __mul__


def as_pair(value):
    """A pair as it is; a number as a pair with both ends there."""
    return value if isinstance(value, Pair) else Pair(Fraction(value), Fraction(value))


def different_ends(pair):
    """The ends of a pair, given once if they are equal."""
    return pair[:1] if pair.lower == pair.upper else pair[:]


def combine(operation, left, right):
    """The least and the greatest outcome over the ends of both pairs."""
    left, right = as_pair(left), as_pair(right)
    if operation is operator.truediv and right.lower <= 0 <= right.upper:
        raise ZeroDivisionError("a divisor pair reaches over zero")
    outcomes = sorted(
        operation(a, b) for a in different_ends(left) for b in different_ends(right)
    )
    return Pair(outcomes[0], outcomes[-1])


def outward(pair):
    """A pair with its lower end rounded down and its upper end rounded up."""
    return Pair(Fraction(math.floor(pair.lower * OUTWARD), OUTWARD),
                Fraction(math.ceil(pair.upper * OUTWARD), OUTWARD))


# --------------------------------------------------------------------------
# What exact means: roots, pi, logarithms and exponentials at a depth.
# --------------------------------------------------------------------------

def check_depth(k):
    """Depths go "from 3 up"."""
    if k < MIN_DEPTH:
        raise ValueError(f"depth {k} is below {MIN_DEPTH}")


def whole_root(number, degree):
    """The greatest whole number whose degree-th power is not above number."""
    if degree == 2:
        return math.isqrt(number)
    low, high = 0, 1 << (number.bit_length() // degree + 1)
    while high - low > 1:  # low**degree <= number < high**degree
        middle = (low + high) // 2
        if middle**degree <= number:
            low = middle
        else:
            high = middle
    return low


@lru_cache(maxsize=65536)
def root_ends(value, degree, k):
    """"A root lies between the greatest multiple of 10^-k not above it and
    the next one."
    """
    check_depth(k)
    value, scale = Fraction(value), 10**k
    steps = whole_root(value.numerator * scale**degree // value.denominator, degree)
    return Pair(Fraction(steps, scale), Fraction(steps + 1, scale))


def root_pair(pair, degree, k):
    """"a root or logarithm of a pair runs from the lower end's lower to the
    upper end's upper".
    """
    return Pair(root_ends(pair.lower, degree, k).lower, root_ends(pair.upper, degree, k).upper)


def arctan_sum(inverse, terms):
    """So many terms of the alternating series of arctan(1/inverse)."""
    return sum(
        Fraction((-1) ** i, (2 * i + 1) * inverse ** (2 * i + 1)) for i in range(terms)
    )


def arctan_ends(inverse, k):
    """"2k terms from below and 2k+1 from above"."""
    return Pair(arctan_sum(inverse, 2 * k), arctan_sum(inverse, 2 * k + 1))


@lru_cache(maxsize=None)
def pi_ends(k):
    """"pi is 16 arctan(1/5) - 4 arctan(1/239)"."""
    check_depth(k)
    return 16 * arctan_ends(5, k) - 4 * arctan_ends(239, k)


def ln_series(z, k):
    """k terms of 2(z + z^3/3 + z^5/5 + ..), summed over one denominator."""
    a, b = z.numerator, z.denominator
    odd_multiple = math.lcm(*range(1, 2 * k, 2))
    total, b_power = 0, 1
    for i in reversed(range(k)):
        total = total * a * a + odd_multiple // (2 * i + 1) * b_power
        b_power *= b * b
    # b_power is now b^(2k), and the denominator b^(2k-1) times the multiple
    return Fraction(2 * a * total, b_power // b * odd_multiple)


def ln_one_to_two(r, k):
    """ln r for 1 <= r <= 2: the series from below, and that plus
    2z^(2k+1)/((2k+1)(1-z^2)) from above.
    """
    z = (r - 1) / (r + 1)
    lower = ln_series(z, k)
    return Pair(lower, lower + 2 * z ** (2 * k + 1) / ((2 * k + 1) * (1 - z * z)))


@lru_cache(maxsize=None)
def ln_two(k):
    return ln_one_to_two(Fraction(2), k)


def halvings(q):
    """The greatest whole m for which 2^m <= q, for q >= 1."""
    m = q.numerator.bit_length() - q.denominator.bit_length()
    return m if q.denominator << m <= q.numerator else m - 1


@lru_cache(maxsize=4096)
def ln_fraction(q, k):
    """ln q is m ln 2 + ln(q/2^m); for q < 1 it is minus ln(1/q)."""
    check_depth(k)
    if q < 1:
        return -ln_fraction(1 / q, k)
    m = halvings(q)
    return m * ln_two(k) + ln_one_to_two(q / 2**m, k)


def ln_pair(pair, k):
    """The logarithm of a pair, by the same words as its root.  Its ends rise
    with the fraction, so an argument rounded outward gives a wider pair.
    """
    return Pair(ln_fraction(pair.lower, k).lower, ln_fraction(pair.upper, k).upper)


def check_ln(p, q):
    """The logarithm asked alone: a refusal with 5, or None."""
    for column, number in enumerate((p, q), start=1):
        if not 1 <= number <= LN_MAX:
            return Refusal(5, 0, column)
    return None


def ln_ends(p, q, k):
    """The ends of ln(p/q) at depth k, as fractions of one."""
    if check_ln(p, q):
        raise ValueError(f"the logarithm of {p}/{q} is refused")
    return ln_fraction(Fraction(p, q), k)


def exp_halvings(q):
    """"j is the least count for which y = q/2^j is at most 1/2"."""
    j = 0
    while q / 2**j > EXP_SMALL:
        j += 1
    return j


def exp_small(y, k):
    """e^y for y up to 1/2: "the first k terms of 1 + y + y^2/2 + y^3/6 + ..
    from below, and that plus 2*y^k/k! from above".
    """
    numerator = denominator = 1
    for i in reversed(range(1, k)):  # 1 + y/i times what stands so far
        denominator *= i * y.denominator
        numerator = denominator + y.numerator * numerator
    lower = Fraction(numerator, denominator)
    return Pair(lower, lower + 2 * y**k / math.factorial(k))


def exp_minus_fraction(q, k):
    """"e^q is its 2^j-th power.  e^-q is one over e^q."

    One over e^y is squared j times, which gives the same ends; each square is
    rounded outward.  Document 02 speaks of q above 0; by the same words e^0 is 1.
    """
    check_depth(k)
    j = exp_halvings(q)
    ends = outward(1 / exp_small(q / 2**j, k))
    for _ in range(j):
        ends = outward(Pair(ends.lower**2, ends.upper**2))
    return ends


def exp_minus(pair, k):
    """e to the power minus a pair: "an exponential of a pair runs from the lower
    end's lower to the upper end's upper".  The pair is rounded outward first.

    Upper ends of e^q fall where j changes, just above 1/2, 1, 2, ..; these are
    multiples of the step, so that no upper end is rounded up past one, and a
    lower end rounded down to one falls too.
    """
    q = outward(pair)
    return Pair(exp_minus_fraction(q.upper, k).lower, exp_minus_fraction(q.lower, k).upper)


# --------------------------------------------------------------------------
# Reading a sheet.
# --------------------------------------------------------------------------

def read_sheet(sheet, table_length=None, form=FORM):
    """A refusal, or the cases of a sheet (each a record, in document order).

    table_length counts the numbers of the caller's table; None is enough.
    "The order is 1, 2, 4; then line by line 3, 5, 6, 7; then 8."
    """
    if not sheet or len(sheet) > MAX_BYTES or not sheet.endswith(LINE_END):
        return Refusal(1, 0, 0)
    header, *value_lines = sheet[: -len(LINE_END)].split(LINE_END)
    names = header.split(FIELD_END)
    refusal = check_names(names, form) or check_line_count(len(value_lines))
    if refusal:
        return refusal
    cases = read_value_lines(names, value_lines, form)
    if not isinstance(cases, Refusal) and is_short(table_length, len(cases)):
        return Refusal(8, 0, 0)
    return cases


def check_names(names, form):
    """Refusal 2: the leftmost unknown or repeated name, else the first missing
    column.  A name after all good ones is always unknown or repeated.
    """
    for column, name in enumerate(names, start=1):
        if name not in form.name_bytes or name in names[: column - 1]:
            return Refusal(2, 1, column)
    if len(names) < form.count:
        return Refusal(2, 1, len(names) + 1)
    return None


def check_line_count(count):
    """Refusal 4: no value line (line 2), or more than 256 (line 258)."""
    if count == 0:
        return Refusal(4, 2, 0)
    if count > MAX_VALUE_LINES:
        return Refusal(4, MAX_VALUE_LINES + 2, 0)
    return None


def read_value_lines(names, value_lines, form):
    """Line by line 3, 5, 6, 7; the first value line is line 2."""
    order = [form.name_bytes.index(name) for name in names]
    cases, seen = [], set()
    for line, text in enumerate(value_lines, start=2):
        fields = text.split(FIELD_END)
        column = wrong_form_column(fields, form.count)
        if column:
            return Refusal(3, line, column)
        case = in_document_order(order, [int(field) for field in fields], form)
        refusal = check_case(case, line, order, form)
        if refusal:
            return refusal
        if (case.station, case.season) in seen:
            return Refusal(7, line, 0)
        seen.add((case.station, case.season))
        cases.append(case)
    return cases


def wrong_form_column(fields, count):
    """Refusal 3: the leftmost wrong, missing or surplus value, or 0, where there are so many names.

    An empty line splits into one empty field, "an empty value in column 1".
    """
    for column, field in enumerate(fields[:count], start=1):
        if not has_value_form(field):
            return column
    if len(fields) < count:
        return len(fields) + 1
    return count + 1 if len(fields) > count else 0


def has_value_form(field):
    """"one to six decimal digits; 0 is the only value that may start with 0"."""
    if not 1 <= len(field) <= MAX_DIGITS:
        return False
    if any(byte not in b"0123456789" for byte in field):
        return False
    return field == b"0" or field[:1] != b"0"


def in_document_order(order, values, form):
    """The case whose place order[i] holds the i-th value of the line."""
    numbers = [None] * form.count
    for place, value in zip(order, values):
        numbers[place] = value
    return form.record(*numbers)


def check_case(case, line, order, form):
    """Refusals 5 and 6 of one case; order gives each column's place in the form's names."""
    for column, place in enumerate(order, start=1):
        if not any(low <= case[place] <= high for low, high in form.ranges[place]):
            return Refusal(5, line, column)
    for group in ZERO_GROUPS:
        if len({getattr(case, name) == 0 for name in group}) > 1:
            return Refusal(6, line, order.index(form.names.index(group[0])) + 1)
    return None


def check_record(numbers):
    """A case asked as a record: a refusal 5 or 6, or None.

    Its line is 0 and its column the place in the table of names.
    """
    return check_case(Case(*numbers), 0, list(range(COLUMN_COUNT)), FORM)


def is_short(table_length, rows):
    """Refusal 8: "the short-table check reads 20"."""
    return table_length is not None and table_length < ROW_LENGTH * rows


# --------------------------------------------------------------------------
# The formulas.  Lengths in metres, times in seconds.
# --------------------------------------------------------------------------

def metres(millimetres):
    return Fraction(millimetres, 1000)


def seconds(milliseconds):
    return Fraction(milliseconds, 1000)


def time_constant(xr, hz, k):
    """Ta = xr / (2 * pi * hz)."""
    return xr / (2 * pi_ends(k) * hz)


def factor_exponent(clear, xr, hz, k):
    """2 * tf / Ta."""
    return 2 * seconds(clear) / time_constant(xr, hz, k)


@lru_cache(maxsize=65536)
def factor_ends(clear, xr, hz, k):
    """Df = sqrt(1 + (Ta/tf) * (1 - e^(-2 tf/Ta))), with tf the clear time."""
    share = time_constant(xr, hz, k) / seconds(clear)
    return root_pair(1 + share * (1 - exp_minus(factor_exponent(clear, xr, hz, k), k)), 2, k)


def current_ends(case, k):
    """IG = fault * split * Df, with split per mille."""
    return Fraction(case.fault * case.split, 1000) * factor_ends(case.clear, case.xr, case.hz, k)


def size_squared(case, upper):
    """The square of I * Kf * sqrt(t), with I = fault * Df in kA and Df the factor's
    reported upper end in billionths.

    "conductor size uses wire with the factor from clear".
    """
    kiloamperes = Fraction(case.fault, 1000) * Fraction(upper, FACTOR_UNITS)
    return (kiloamperes * Fraction(METAL_KF[case.metal], 100)) ** 2 * seconds(case.wire)


def conductor_kcmil(case, upper):
    """"the smallest whole kcmil not below the product with the factor's upper end"."""
    wanted = math.ceil(size_squared(case, upper))
    root = math.isqrt(wanted)
    return root if root * root >= wanted else root + 1


def is_square(grid):
    """Equal counts, which "keep the square's definitions"."""
    return grid.across == grid.along


def grid_of(case):
    return Grid(case.across, case.along, case.space)


def sides(grid):
    """Lx = (across-1) * D and Ly = (along-1) * D."""
    return (grid.across - 1) * metres(grid.space), (grid.along - 1) * metres(grid.space)


def conductor_length(grid):
    """Lc = across * Ly + along * Lx."""
    lx, ly = sides(grid)
    return grid.across * ly + grid.along * lx


def perimeter(grid):
    """Lp = 2(Lx + Ly)."""
    return 2 * sum(sides(grid))


def area_root_ends(grid, k):
    """sqrt(area), which stands for s; for equal counts it is s."""
    lx, ly = sides(grid)
    return as_pair(lx) if is_square(grid) else root_ends(lx * ly, 2, k)


def rod_length(case):
    """LR = rods * Lr."""
    return case.rods * metres(case.rodlen)


def total_length(case):
    """LT = Lc + LR."""
    return conductor_length(case) + rod_length(case)


def step_length(case):
    """LS = 0.75 * Lc + 0.85 * LR."""
    return Fraction("0.75") * conductor_length(case) + Fraction("0.85") * rod_length(case)


def diagonal_ends(grid, k):
    """sqrt(Lx^2 + Ly^2)."""
    lx, ly = sides(grid)
    return root_ends(lx**2 + ly**2, 2, k)


def mesh_length(case, k):
    """LM, a pair because of the root in it for place 1."""
    if case.place != PERIMETER:
        return as_pair(total_length(case))
    weight = Fraction("1.55") + Fraction("1.22") * metres(case.rodlen) / diagonal_ends(case, k)
    return conductor_length(case) + weight * rod_length(case)


def na(grid):
    """na = 2 * Lc / Lp; for equal counts it is the count."""
    return 2 * conductor_length(grid) / perimeter(grid)


def nb_ends(grid, k):
    """nb = sqrt(Lp / (4 * sqrt(area))); 1 for equal counts."""
    if is_square(grid):
        return as_pair(1)
    return root_pair(perimeter(grid) / (4 * area_root_ends(grid, k)), 2, k)


@lru_cache(maxsize=4096)
def n_ends(grid, k):
    """n = na * nb."""
    return na(grid) * nb_ends(grid, k)


def surface_effect(case):
    """Q, in ohm metres; for bare soil it is the soil's."""
    if case.layer == 0:
        return Fraction(case.soil)
    difference = case.layer - case.soil
    edge = Fraction("0.09")
    return case.layer - edge * difference / (2 * metres(case.thick) + edge)


def tolerable_ends(weight, effect, body, shock, k):
    """(1000 + weight * Q) * k / sqrt(t), with t the shock time."""
    return (1000 + weight * effect) * BODY_K[body] / root_ends(seconds(shock), 2, k)


def mesh_argument(case):
    """G = D^2/(16hd) + (D+2h)^2/(8Dd) - h/(4d)."""
    space, depth = metres(case.space), metres(case.depth)
    dia = Fraction(case.dia, 10000)
    return (
        space**2 / (16 * depth * dia)
        + (space + 2 * depth) ** 2 / (8 * space * dia)
        - depth / (4 * dia)
    )


def kii_ends(case, k):
    """Kii is 1 for place 1, in rectangles too."""
    return as_pair(1) if case.place == PERIMETER else kii_below_one(grid_of(case), k)


@lru_cache(maxsize=4096)
def kii_below_one(grid, k):
    """Kii for places 0 and 2: one over the n-th root of 4n^2 for equal counts,
    else e to the power -(2/n) * ln(2n).
    """
    if is_square(grid):
        return 1 / root_ends(Fraction(4 * grid.across**2), grid.across, k)
    return exp_minus(kii_exponent(n_ends(grid, k), k), k)


def kii_exponent(n, k):
    """(2/n) * ln(2n)."""
    return 2 / n * ln_pair(2 * n, k)


def kh_ends(case, k):
    """Kh = sqrt(1 + h)."""
    return root_ends(1 + metres(case.depth), 2, k)


@lru_cache(maxsize=4096)
def ln_lines(grid, k):
    """ln(8 / (pi (2n-1)))."""
    argument = 8 / (pi_ends(k) * (2 * n_ends(grid, k) - 1))
    return ln_pair(argument, k) if is_square(grid) else outward(ln_pair(outward(argument), k))


def km_ends(case, k):
    """Km = (ln G + (Kii/Kh) * ln(8/(pi(2n-1)))) / (2 pi)."""
    ln_g = ln_fraction(mesh_argument(case), k)
    share = kii_ends(case, k) / kh_ends(case, k)
    return (ln_g + share * ln_lines(grid_of(case), k)) / (2 * pi_ends(k))


def ki(n):
    """Ki = 0.644 + 0.148 * n."""
    return Fraction("0.644") + Fraction("0.148") * n


@lru_cache(maxsize=4096)
def half_power_ends(grid, k):
    """0.5^(n-2): a fraction for equal counts, else e to the power -(n-2) * ln 2."""
    if is_square(grid):
        return as_pair(Fraction(1, 2 ** (grid.across - 2)))
    return exp_minus(half_power_exponent(n_ends(grid, k), k), k)


def half_power_exponent(n, k):
    """(n-2) * ln 2."""
    return (n - 2) * ln_two(k)


def ks_ends(case, k):
    """Ks = (1/(2h) + 1/(D+h) + (1 - 0.5^(n-2))/D) / pi."""
    space, depth = metres(case.space), metres(case.depth)
    rest = (1 - half_power_ends(grid_of(case), k)) / space
    return (1 / (2 * depth) + 1 / (space + depth) + rest) / pi_ends(k)


def driving(case, n, current):
    """rho * Ki * IG: with n and the exact current for mesh and step voltage, with na
    and the reported upper current for their widths.
    """
    return case.soil * ki(n) * current


def driving_ends(case, k):
    return driving(case, n_ends(grid_of(case), k), current_ends(case, k))


def mesh_ends(case, k):
    return driving_ends(case, k) * km_ends(case, k) / mesh_length(case, k)


def step_ends(case, k):
    return driving_ends(case, k) * ks_ends(case, k) / step_length(case)


def resistance_ends(case, k):
    """rho * (1/LT + (1 + 1/(1 + h*sqrt(20)/s)) / (sqrt(20)*s))."""
    root, s = root_ends(Fraction(20), 2, k), area_root_ends(case, k)
    spread = (1 + 1 / (1 + metres(case.depth) * root / s)) / (root * s)
    return case.soil * (1 / total_length(case) + spread)


@lru_cache(maxsize=4096)
def exact_ends(case, k):
    """The eight pairs of a case at depth k, in amperes, volts and ohms."""
    check_depth(k)
    effect = surface_effect(case)
    current, resistance = current_ends(case, k), resistance_ends(case, k)
    return Ends(
        current,
        factor_ends(case.clear, case.xr, case.hz, k),
        tolerable_ends(TOUCH_WEIGHT, effect, case.body, case.shock, k),
        tolerable_ends(STEP_WEIGHT, effect, case.body, case.shock, k),
        mesh_ends(case, k),
        step_ends(case, k),
        resistance,
        current * resistance,
    )


# --------------------------------------------------------------------------
# Judging reported numbers.
# --------------------------------------------------------------------------

def row_pairs(row):
    """The eight reported pairs of a row, in table units."""
    return Ends(*(tuple(row[i : i + 2]) for i in range(FIRST_PAIR, ROW_LENGTH, 2)))


def pair_place(name):
    """The place in a row of a pair's lower end."""
    return FIRST_PAIR + 2 * Ends._fields.index(name)


def upper_current(row):
    """The reported upper grid current, in amperes."""
    return Fraction(row_pairs(row).current[1], CURRENT_UNITS)


def encloses(lower, upper, ends, units):
    """Whether a reported pair encloses the exact value at one depth: "its lower
    end is not above the depth's upper end and its upper end not below the
    depth's lower end".
    """
    return lower <= ends.upper * units and upper >= ends.lower * units


def allowed_widths(case, row):
    """The greatest width of each of the eight pairs, in table units."""
    per_metre = driving(case, na(case), upper_current(row))
    bases = {
        OVER_LT: per_metre / total_length(case),
        OVER_LS: per_metre / step_length(case),
    }
    widths = []
    for quantity, (lower, _) in zip(QUANTITIES, row_pairs(row)):
        base = lower if quantity.base == LOWER else bases[quantity.base] * quantity.units
        widths.append(quantity.share * base + quantity.plus)
    return Ends(*widths)


def verdict_of(row):
    """What the reported ends say; the potential rise never decides."""
    pairs = row_pairs(row)
    mesh, touch = pairs.mesh, pairs.tolerable_touch
    step, limit = pairs.step, pairs.tolerable_step
    if mesh[1] <= touch[0] and step[1] <= limit[0]:
        return SAFE
    if mesh[0] > touch[1] or step[0] > limit[1]:
        return UNSAFE
    return UNDECIDED


def judge_row(case, row, depths):
    """What is wrong with a reported row of 20 numbers; empty when right."""
    case, row = Case(*case), list(row)
    if len(row) != ROW_LENGTH:
        return [f"the row has {len(row)} numbers, not {ROW_LENGTH}"]
    return (
        judge_settled(case, row)
        + judge_pairs(case, row, depths)
        + judge_verdict(case, row, depths)
    )


def judge_settled(case, row):
    """Station and season are equations, and so is the conductor size with the
    reported upper end of the factor.
    """
    wanted = {
        0: ("station", case.station),
        1: ("season", case.season),
        3: ("kcmil", conductor_kcmil(case, row_pairs(row).factor[1])),
    }
    return [
        f"{name} is {row[place]}, not {number}"
        for place, (name, number) in wanted.items()
        if row[place] != number
    ]


def judge_pairs(case, row, depths):
    """Order, exactness at each depth, and width of the eight pairs."""
    complaints = []
    widths = allowed_widths(case, row)
    for i, (quantity, pair) in enumerate(zip(QUANTITIES, row_pairs(row))):
        ends_at = {k: exact_ends(case, k)[i] for k in depths}
        complaints += judge_pair(quantity.name, pair, ends_at, quantity.units, widths[i])
    return complaints


def judge_pair(name, pair, ends_at, units, allowed):
    """One reported pair against its ends at some depths and its width."""
    lower, upper = pair
    complaints = []
    if lower > upper:
        complaints.append(f"{name}: lower end {lower} is above upper end {upper}")
    for k, ends in ends_at.items():
        if not encloses(lower, upper, ends, units):
            shown = " .. ".join(shown_ends(ends, units))
            complaints.append(f"{name}: {lower} .. {upper} misses {shown} of depth {k}")
    if upper - lower > allowed:
        complaints.append(
            f"{name}: width {upper - lower} is over the allowed {float(allowed):.3f}"
        )
    return complaints


def judge_verdict(case, row, depths):
    """The verdict is what the reported ends say, and the exact ends at the
    given depths do not speak against safe or unsafe.
    """
    complaints = []
    if row[2] != verdict_of(row):
        complaints.append(f"verdict is {row[2]}, the reported ends say {verdict_of(row)}")
    depth_ends = [exact_ends(case, k) for k in depths]
    mesh_above = any(e.mesh.lower > e.tolerable_touch.upper for e in depth_ends)
    step_above = any(e.step.lower > e.tolerable_step.upper for e in depth_ends)
    mesh_within = any(e.mesh.upper <= e.tolerable_touch.lower for e in depth_ends)
    step_within = any(e.step.upper <= e.tolerable_step.lower for e in depth_ends)
    if row[2] == SAFE and (mesh_above or step_above):
        complaints.append("verdict safe, yet an exact voltage is above its limit")
    if row[2] == UNSAFE and mesh_within and step_within:
        complaints.append("verdict unsafe, yet both exact voltages are within")
    return complaints


def judge_ln(p, q, lower, upper, depths):
    """What is wrong with a logarithm reported in signed billionths."""
    ends_at = {k: ln_ends(p, q, k) for k in depths}
    return judge_pair(f"ln {p}/{q}", (lower, upper), ends_at, LN_UNITS, LN_WIDTH)


def judge_factor(clear, xr, hz, lower, upper, depths):
    """What is wrong with a decrement factor reported in billionths."""
    ends_at = {k: factor_ends(clear, xr, hz, k) for k in depths}
    name = f"factor of {clear} ms, X/R {xr}, {hz} Hz"
    return judge_pair(name, (lower, upper), ends_at, FACTOR_UNITS, FACTOR_WIDTH)


def row_at(case, k):
    """A row of this calculator's own: the ends of depth k, rounded outward."""
    pairs = Ends(*(
        (math.floor(ends.lower * quantity.units), math.ceil(ends.upper * quantity.units))
        for quantity, ends in zip(QUANTITIES, exact_ends(case, k))
    ))
    row = [case.station, case.season, 0, conductor_kcmil(case, pairs.factor[1])]
    row += [end for pair in pairs for end in pair]
    row[2] = verdict_of(row)
    return row


# --------------------------------------------------------------------------
# The command.
# --------------------------------------------------------------------------

def decimal(steps):
    """A whole number of 10^-SHOWN_DECIMALS as a decimal number."""
    whole, rest = divmod(abs(steps), 10**SHOWN_DECIMALS)
    return f"{'-' if steps < 0 else ''}{whole}.{rest:0{SHOWN_DECIMALS}d}"


def shown_ends(ends, units):
    """A pair in table units: lower rounded down, upper rounded up."""
    scale = units * 10**SHOWN_DECIMALS
    return decimal(math.floor(ends.lower * scale)), decimal(math.ceil(ends.upper * scale))


def header_line():
    fields = ["station", "season", "kcmil"]
    for quantity in QUANTITIES:
        fields += [f"{quantity.name}_lower", f"{quantity.name}_upper"]
    return ",".join(fields) + "\n"


def case_line(case, k):
    """The conductor size is that of the factor's upper end in whole billionths."""
    fields = [case.station, case.season, row_at(case, k)[3]]
    for quantity, ends in zip(QUANTITIES, exact_ends(case, k)):
        fields += shown_ends(ends, quantity.units)
    return ",".join(str(field) for field in fields) + "\n"


def answer_text(sheet, k=DEFAULT_DEPTH, table_length=None):
    """What the command prints for a sheet."""
    cases = read_sheet(sheet, table_length)
    if isinstance(cases, Refusal):
        return "refused,{},{},{}\n".format(*cases)
    return header_line() + "".join(case_line(case, k) for case in cases)


def depth_argument(text):
    k = int(text)
    check_depth(k)
    return k


def main(arguments=None):
    parser = argparse.ArgumentParser(description="Exact ends for a sheet on standard input.")
    parser.add_argument("--depth", type=depth_argument, default=DEFAULT_DEPTH, metavar="K")
    parser.add_argument("--table", type=int, default=None, metavar="N",
                        help="count of numbers the table holds (default: enough)")
    options = parser.parse_args(arguments)
    sys.stdout.write(answer_text(sys.stdin.buffer.read(), options.depth, options.table))


if __name__ == "__main__":
    main()
