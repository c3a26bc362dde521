"""Sound cases and sheets, and what is done to a sheet to make it one that is refused."""

import random
from fractions import Fraction
from itertools import product

from tests.calculator import calculator as calc
from tests.calculator.calculator import Case, span_of
from tests.calculator.printed import SHEET_END
from tests.sheets import sheets

HEADER_NAMES = list(calc.NAMES)
LIMIT_DEPTH = 9
EQUAL_COUNTS = 0.1  # of the cases, in addition to those whose counts are equal by chance

# Names of document 01, each with those that have its place, and the frequency of sheets without one.
OLD_NAMES = {"ms": calc.CLOCKS, "lines": calc.COUNTS}
FREQUENCIES, OLD_FREQUENCY = tuple(low for low, _ in calc.SPANS["hz"]), 60

# The stored batch.
BATCH_SEED, BATCH_COUNT = 145, 185
BATCH_SHORT = 2000
PORTFOLIO, SEASONS = 61, 4  # the stations of request (h), and the seasons of each
PAIRS_EVERY = 29  # one case in so many of the pairs of counts, in a sheet of its own
LESS_YARDS = 40  # yards at their limit with less and less fault current, in a sheet of their own


# --------------------------------------------------------------------------
# Sound sheets.
# --------------------------------------------------------------------------

def number_in(rng, spans):
    """A number of the last span, at an end of it half the time."""
    low, high = spans[-1]
    return rng.choice((low, high, rng.randint(low, high), rng.randint(low, high)))


def clear_time(rng):
    """A clear time, short ones as often as long ones."""
    low, high = span_of("clear")
    return round(low * (high / low) ** rng.random())


def rodded_case(rng):
    """A case with rods, their place not yet settled."""
    case = Case(*(number_in(rng, spans) for spans in calc.RANGES))
    case = case._replace(station=rng.randint(*span_of("station")), season=rng.randint(*span_of("season")),
                         body=rng.choice(tuple(calc.BODY_K)), rods=max(1, case.rods),
                         clear=rng.choice((case.clear, clear_time(rng))), hz=rng.choice(FREQUENCIES))
    if rng.random() < EQUAL_COUNTS:
        case = case._replace(along=case.across)
    return case._replace(layer=0, thick=0) if rng.random() < 0.4 else case


def at_place(case, place):
    """A case with its rods there, or without rods."""
    return case._replace(place=place) if place else case._replace(rods=0, rodlen=0, place=0)


def random_case(rng):
    return at_place(rodded_case(rng), 0 if rng.random() < 0.4 else rng.randint(1, 2))


def cases_of_pairs(seed):
    """Every pair of counts at each place of rods with both ends of spacing and depth; all else is
    random, and each has its own station.
    """
    rng = random.Random(f"{seed},pairs")
    counts = [range(low, high + 1) for low, high in map(span_of, calc.COUNTS)]
    places = range(span_of("place")[1] + 1)
    yards = product(*counts, places, span_of("space"), span_of("depth"))
    return [
        at_place(rodded_case(rng)._replace(
            station=station, across=across, along=along, space=space, depth=depth), place)
        for station, (across, along, place, space, depth) in enumerate(yards, start=1)
    ]


def meeting(case, voltage, limit):
    """The case with the fault and split at which a voltage is nearest its limit, or nothing."""
    case = case._replace(fault=1000, split=1000)  # a voltage is in proportion to fault and split
    ends = calc.exact_ends(case, LIMIT_DEPTH)
    if getattr(ends, voltage).lower <= 0:
        return None
    wanted = float(getattr(ends, limit).lower / getattr(ends, voltage).lower) * 1000 * 1000
    pairs = [(round(wanted / split), split) for split in range(1, 1001)]
    low, high = span_of("fault")
    pairs = [(fault, split) for fault, split in pairs if low <= fault <= high]
    if not pairs:
        return None
    fault, split = min(pairs, key=lambda pair: abs(pair[0] * pair[1] - wanted))
    return case._replace(fault=fault, split=split)


def undecided_for_all(case):
    """Whether whole millivolts cannot separate a voltage from its limit, and the other is within."""
    ends = calc.exact_ends(case, LIMIT_DEPTH)
    met, within = [], []
    for voltage, limit in ((ends.mesh, ends.tolerable_touch), (ends.step, ends.tolerable_step)):
        met.append(len({int(end * 1000) for end in (*voltage, *limit)}) == 1)
        within.append(voltage.upper < limit.lower * Fraction(99, 100))
    return (met[0] and (met[1] or within[1])) or (met[1] and within[0])


def case_at_limit(rng):
    """A case that no right calculator calls safe or unsafe, by mesh or by step voltage."""
    names = rng.choice((("mesh", "tolerable_touch"), ("step", "tolerable_step")))
    while True:
        case = meeting(random_case(rng), *names)
        if case and undecided_for_all(case):
            return case


def less_faults(fault):
    """A fault current, 1 A less, half of it, and the least of the range."""
    return (fault, fault - 1, fault // 2, span_of("fault")[0])


def cases_of_less_current(seed):
    """Yards at which mesh or step voltage is within 1 A of its limit, each as four seasons of one station
    with less and less fault current, all else equal.
    """
    rng, cases = random.Random(seed), []
    while len(cases) < LESS_YARDS * SEASONS:
        case = meeting(random_case(rng), *rng.choice((("mesh", "tolerable_touch"), ("step", "tolerable_step"))))
        if case and span_of("fault")[0] < case.fault // 2 and case.fault < span_of("fault")[1]:
            station, most = 1 + len(cases) // SEASONS, case.fault + rng.choice((-1, 0, 1))
            cases += [case._replace(station=station, season=season, fault=fault)
                      for season, fault in enumerate(less_faults(most), start=1)]
    return cases


class Sheet:
    """Names and lines of values, all of them text, that a damage may change."""

    def __init__(self, rng, names=HEADER_NAMES):
        self.rng = rng
        self.names = list(names)
        if rng.random() < 0.5:
            rng.shuffle(self.names)
        cases = {}
        for _ in range(rng.choice((1, 1, 2, 3, 5, 8))):
            case = random_case(rng)
            cases[case.station, case.season] = case
        self.lines = [self.fields(case) for case in cases.values()]

    def fields(self, case):
        """The values of a case in the order of the names; 1 for a name that is unknown."""
        return [str(getattr(case, name, 1)) for name in self.names]

    def line(self):
        return self.rng.choice(self.lines)

    def set(self, line, name, value):
        line[self.names.index(name)] = str(value)

    def drop(self, name):
        at = self.names.index(name)
        for fields in (self.names, *self.lines):
            del fields[at]

    def bytes(self):
        lines = [",".join(fields) + "\n" for fields in (self.names, *self.lines)]
        return "".join(lines).encode("latin-1")


def sheet_of(cases):
    """A sheet with the names in their own order."""
    lines = [",".join(map(str, fields)) + "\n" for fields in (HEADER_NAMES, *cases)]
    return "".join(lines).encode("ascii")


def stations(sheet, count):
    """Lines of random cases for stations of five digits, each in one season."""
    return [sheet.fields(random_case(sheet.rng)._replace(station=span_of("station")[1] - i)) for i in range(count)]


def portfolio(sheet):
    """Lines of random cases for every season of each station."""
    return [sheet.fields(random_case(sheet.rng)._replace(station=station + 1, season=season + 1))
            for station in range(PORTFOLIO) for season in range(SEASONS)]


def filled_up(text, size):
    """The last value made long, so that the sheet has a size."""
    return text[:-1] + b"0" * (size - len(text)) + b"\n"


# --------------------------------------------------------------------------
# Damages to names and values.  Each is named after what it does.
# --------------------------------------------------------------------------

def nothing(sheet, rng):
    pass


def at_the_limit(sheet, rng):
    """One to four yards, the last of them decided at times."""
    makers = [case_at_limit] * rng.randint(1, 3) + [random_case] * rng.randint(0, 1)
    sheet.lines = [
        sheet.fields(make(rng)._replace(station=i + 1)) for i, make in enumerate(makers)]


def unknown_name(sheet, rng):
    at = rng.randrange(len(sheet.names))
    name = sheet.names[at]
    sheet.names[at] = rng.choice((
        "", name.upper(), name.capitalize(), name + "s", name[:-1], " " + name, name + " ",
        name + "\r", name + "\0", "\xff", "1", name[::-1], '"' + name + '"'))


def repeated_name(sheet, rng):
    a, b = rng.sample(range(len(sheet.names)), 2)
    sheet.names[a] = sheet.names[b]


def fewer_names(sheet, rng):
    del sheet.names[rng.randrange(len(sheet.names)):]


def old_names(sheet, rng):
    """A sheet with a name of document 01 where two or three are now, or with each of its names; at
    times without a frequency, as then.
    """
    for old in rng.choice((("ms",), ("lines",), ("ms", "lines"))):
        kept, *dropped = rng.sample(OLD_NAMES[old], len(OLD_NAMES[old]))
        for name in dropped:
            sheet.drop(name)
        sheet.names[sheet.names.index(kept)] = old
    if rng.random() < 0.5:
        sheet.drop("hz")


def no_frequency(sheet, rng):
    sheet.drop("hz")


def carried_over(text, old):
    """A sheet with the value of one of document 01's names in each column that has its place now."""
    names, *lines = (line.split(calc.FIELD_END) for line in text.split(calc.LINE_END))
    if old.encode("ascii") in names:
        at, new = names.index(old.encode("ascii")), OLD_NAMES[old]
        names[at : at + 1] = [name.encode("ascii") for name in new]
        for line in lines[:-1]:  # after the last line end stands nothing
            line[at : at + 1] *= len(new)
    return calc.LINE_END.join(map(calc.FIELD_END.join, (names, *lines)))


def with_frequency(text):
    """A sheet with document 01's frequency in a last column, if it has no column for it."""
    names, *lines = text.split(calc.LINE_END)
    if b"hz" in names.split(calc.FIELD_END):
        return text
    lines = [names + b",hz", *(line + b",%d" % OLD_FREQUENCY for line in lines[:-1]), b""]
    return calc.LINE_END.join(lines)


def surplus_name(sheet, rng):
    sheet.names.append(rng.choice(("", "soil", "extra", sheet.names[0])))


def wrong_form(sheet, rng):
    line = sheet.line()
    at = rng.randrange(len(line))
    value = line[at]
    line[at] = rng.choice((
        "", "0" + value, "00", "-" + value, "+" + value, value + " ", " " + value, value + ".0",
        "1234567", "0000001", "9" * 40, "0x10", "1e2", value + "\r", value + "\0", "\xb2", "\xff",
        "/", ":", value + ":", "a", "1_0", "18446744073709551617"))


def too_few_values(sheet, rng):
    line = sheet.line()
    del line[rng.randrange(len(line)):]


def too_many_values(sheet, rng):
    sheet.line().append(rng.choice(("", "0", "1", "x", "1,1")))


def empty_line(sheet, rng):
    sheet.lines.insert(rng.randint(0, len(sheet.lines)), [""])


def no_value_line(sheet, rng):
    sheet.lines = []


def many_lines(sheet, rng):
    """About the most value lines, sometimes with a fault in one of them."""
    sheet.lines = stations(sheet, calc.MAX_VALUE_LINES + rng.choice((-1, 0, 0, 0, 1, 1, 2)))
    if rng.random() < 0.5:
        rng.choice((out_of_range, wrong_form, repeated_key))(sheet, rng)


def out_of_range(sheet, rng):
    name, spans = rng.choice(calc.COLUMNS)
    low, high = spans[-1]
    values = [high + 1, max(low - 1, 0), 0, 999999, rng.randint(0, 999999), 51, 69]
    sheet.set(sheet.line(), name, rng.choice(values))


def other_frequency(sheet, rng):
    sheet.set(sheet.line(), "hz", rng.choice((0, 16, 49, 51, 55, 59, 61, 110, 400)))


def disagreement(sheet, rng):
    line = sheet.line()
    for name in rng.sample(("layer", "thick", "rods", "rodlen", "place"), rng.randint(1, 3)):
        low, high = span_of(name)
        sheet.set(line, name, rng.choice((0, max(1, low), high)))


def repeated_key(sheet, rng):
    copied = sheet.line()[:]
    if rng.random() < 0.5:
        copied = sheet.fields(random_case(rng))
        other = sheet.line()
        for name in ("station", "season")[: rng.choice((1, 2, 2))]:
            sheet.set(copied, name, other[sheet.names.index(name)])
    sheet.lines.insert(rng.randint(0, len(sheet.lines)), copied)


def several(sheet, rng):
    for damage in rng.sample(FIELD_DAMAGES[2:-1], rng.randint(2, 3)):
        try:
            damage(sheet, rng)
        except (IndexError, ValueError):  # an earlier damage took away what it needs
            pass


FIELD_DAMAGES = (
    nothing, at_the_limit, unknown_name, repeated_name, fewer_names, old_names, no_frequency,
    surplus_name, wrong_form, too_few_values, too_many_values, empty_line, no_value_line, many_lines,
    out_of_range, other_frequency, disagreement, repeated_key, several,
)


# --------------------------------------------------------------------------
# Damages to bytes.
# --------------------------------------------------------------------------

def empty(text, rng):
    return b""


def no_last_line_end(text, rng):
    return text[:-1]


def carriage_returns(text, rng):
    return text.replace(b"\n", b"\r\n")


def byte_order_mark(text, rng):
    return b"\xef\xbb\xbf" + text


def only_one_byte_value(text, rng):
    most = calc.MAX_VALUE_LINES
    counts = (1, 2, calc.COLUMN_COUNT - 1, calc.COLUMN_COUNT, most + 1, most + 2, 2 * most)
    return rng.choice((b",", b"\n", b"0", b"\xff", b"\0")) * rng.choice(counts)


def near_the_most_bytes(text, rng):
    """Filled up to a length about the most and much above, with or without a last byte 10."""
    most = calc.MAX_BYTES
    size = rng.choice((most - 1, most, most, most + 1, most + 2, most + 4000, 2 * most, 5 * most))
    fill = rng.choice((b"0", b",", b"\n", b"station,", b"\xc3"))
    filled = (text + fill * size)[:size]
    return rng.choice((filled, filled[:-1] + b"\n"))


def last_value_filled_up(text, rng):
    """Only the length is wrong, or only the last value."""
    return filled_up(text, calc.MAX_BYTES + rng.choice((0, 1)))


def changed_byte(text, rng):
    at = rng.randrange(len(text))
    return text[:at] + bytes([rng.randrange(256)]) + text[at + 1 :]


def high_byte(text, rng):
    at = rng.randrange(len(text))
    return text[:at] + bytes([rng.randrange(128, 256)]) + text[at + 1 :]


def removed_byte(text, rng):
    at = rng.randrange(len(text))
    return text[:at] + text[at + 1 :]


def added_byte(text, rng):
    at = rng.randrange(len(text) + 1)
    return text[:at] + rng.choice((b",", b"\n", b"0", b"1", b" ", b"\xe9", b"\0")) + text[at:]


def cut_off(text, rng):
    return text[: rng.randrange(len(text))]


def noise(text, rng):
    return bytes(rng.randrange(256) for _ in range(rng.randrange(200))) + b"\n"


BYTE_DAMAGES = (
    empty, no_last_line_end, carriage_returns, byte_order_mark, only_one_byte_value,
    near_the_most_bytes, last_value_filled_up, changed_byte, high_byte, removed_byte, added_byte,
    cut_off, noise,
)


# A third of the sheets is sound, and the rarer refusals come more often.
CHOICES = (
    FIELD_DAMAGES + BYTE_DAMAGES + (nothing,) * 16
    + (many_lines, out_of_range, other_frequency, disagreement, repeated_key, at_the_limit, old_names,
       no_frequency) * 3
)


def random_sheet(rng):
    """A sheet, and the name of what was done to it."""
    sheet = Sheet(rng)
    damage = rng.choice(CHOICES)
    if damage in FIELD_DAMAGES:
        damage(sheet, rng)
        return sheet.bytes(), damage.__name__
    return damage(sheet.bytes(), rng), damage.__name__


# --------------------------------------------------------------------------
# The stored batch.
# --------------------------------------------------------------------------

def numbered_sheet(seed, number):
    """The generator of a sheet, the sheet, and the name of what was done to it.

    No sheet depends on those before it.
    """
    rng = random.Random(f"{seed},{number}")
    return rng, *random_sheet(rng)


def sheets_at_the_limits():
    """The most lines and one more, the first key again in the last line, a portfolio, the most
    bytes and one more.
    """
    sheet = Sheet(random.Random(BATCH_SEED))
    short = sheet.bytes()
    sheet.lines = stations(sheet, calc.MAX_VALUE_LINES + 1)
    yield sheet.bytes()
    sheet.lines.pop()
    yield sheet.bytes()
    for name in ("station", "season"):
        sheet.set(sheet.lines[-1], name, sheet.lines[0][sheet.names.index(name)])
    yield sheet.bytes()
    sheet.lines = portfolio(sheet)
    yield sheet.bytes()
    yield from (filled_up(short, calc.MAX_BYTES + more) for more in (0, 1))


def batch_sheets():
    """Sheets with no byte 0; only those at the limits, that of the pairs of counts and that of less current are long."""
    sheets = [numbered_sheet(BATCH_SEED, number)[1] for number in range(BATCH_COUNT)]
    short = [sheet for sheet in sheets if SHEET_END not in sheet and len(sheet) <= BATCH_SHORT]
    pairs = sheet_of(cases_of_pairs(BATCH_SEED)[::PAIRS_EVERY])
    less = sheet_of(cases_of_less_current(BATCH_SEED))
    return [*short, *sheets_at_the_limits(), pairs, less]


def batch():
    """What `sheets` reads for them: the kind, the sheet, a byte 0."""
    return b"".join(b"rows\n" + sheet + SHEET_END for sheet in batch_sheets())
