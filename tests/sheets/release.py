"""Release: which stations of a licence may be released on a sheet, from its words, and the portfolios that the
program `sheets` is asked for it on; tests/sheets/stored.py stores them.

The ends of a row are its free part: verdicts and sizes are those that the rows report. The fault current is
judged by exact ends: at it no line is surely above what is tolerable, and with one ampere more some line is not
surely below it.
"""

import random
from fractions import Fraction
from functools import lru_cache

from tests.calculator import calculator as calc
from tests.calculator.calculator import Refusal
from tests.calculator.printed import SHEET_END
from tests.sheets import sheets

ENTRY_LENGTH = 8
MOST_NUMBERS = 768
MOST_AREA = 2000  # kcmil
TABLE = 2080  # numbers of the program's table
LEAST_FAULT, MOST_FAULT = calc.span_of("fault")
LEAST_STATION, MOST_STATION = calc.span_of("station")
YARD = ("across", "along", "space", "depth", "dia", "rods", "rodlen", "place", "metal")
SEED, RANDOM, DAMAGED = 33, 12, 14
DEPTH = 9
NEAR = Fraction(1, 1000)  # more than the widths that a row may have, as a share


# --------------------------------------------------------------------------
# The answer.
# --------------------------------------------------------------------------

def entries_of(licence):
    """A station, its seasons and its conductor's own cross-section in kcmil, or 0, for each entry."""
    return list(zip(licence[::3], licence[1::3], licence[2::3]))


def licence_refusal(licence):
    """21 and 22, or nothing."""
    if not licence or len(licence) % 3 or len(licence) > MOST_NUMBERS:
        return Refusal(21, 0, 0)
    earlier = set()
    for place, (station, seasons, area) in enumerate(entries_of(licence), start=1):
        if not LEAST_STATION <= station <= MOST_STATION or station in earlier:
            return Refusal(22, place, 1)
        if not 1 <= seasons <= 15:
            return Refusal(22, place, 2)
        if area > MOST_AREA:
            return Refusal(22, place, 3)
        earlier.add(station)
    return None


def answer(sheet, licence, room):
    """A refusal, or the cases: the sheet's own 1 to 7, then the licence's, then 23."""
    cases = calc.read_sheet(sheet)
    if isinstance(cases, Refusal):
        return cases
    refusal = licence_refusal(licence)
    if refusal:
        return refusal
    if room < ENTRY_LENGTH * len(entries_of(licence)):
        return Refusal(23, 0, 0)
    return cases


# --------------------------------------------------------------------------
# The numbers of an entry, but for the fault current.
# --------------------------------------------------------------------------

def licensed(seasons):
    """Season i counts 2^(i - 1)."""
    return [season for season in range(1, 5) if seasons >> (season - 1) & 1]


def yard_of(case):
    return [getattr(case, name) for name in YARD]


def is_small(case, row, area):
    """The conductor has fewer kcmil than the row's size: its own, or with 0 those of a solid round wire of the diameter."""
    return area < row[3] if area else 1000 * case.dia**2 < 64516 * row[3]


def lines_of(station, cases, rows):
    """The lines of a station, each a case and its row."""
    return [(case, row) for case, row in zip(cases, rows) if case.station == station]


def counts_of(seasons, area, lines):
    """The five counts."""
    with_line = {case.season for case, _ in lines}
    return [
        sum(season not in with_line for season in licensed(seasons)),
        sum(row[2] == calc.UNSAFE for _, row in lines),
        sum(row[2] == calc.UNDECIDED for _, row in lines),
        sum(yard_of(case) != yard_of(lines[0][0]) for case, _ in lines),
        sum(is_small(case, row, area) for case, row in lines),
    ]


def numbers_of(station, seasons, area, lines):
    """Station, 1 released or 2 held, and the five counts."""
    counts = counts_of(seasons, area, lines)
    return [station, 2 if any(counts) else 1, *counts]


def release_of(licence, cases, rows):
    """Seven numbers for each entry."""
    return [numbers_of(station, seasons, area, lines_of(station, cases, rows)) for station, seasons, area in entries_of(licence)]


# --------------------------------------------------------------------------
# The fault current.
# --------------------------------------------------------------------------

@lru_cache(maxsize=None)
def voltages(case):
    """Each exact voltage at 1,000 A, to which it is in proportion, and its limit."""
    ends = calc.exact_ends(case._replace(fault=1000), DEPTH)
    return (ends.mesh, ends.tolerable_touch), (ends.step, ends.tolerable_step)


def surely_above(case, fault):
    share = Fraction(fault, 1000)
    return any(voltage.lower * share > limit.upper for voltage, limit in voltages(case))


def surely_safe(case, fault):
    """Below its limits by more than all ends of a row are wide."""
    share = Fraction(fault, 1000)
    return all((voltage.upper * share + NEAR) * (1 + NEAR) < limit.lower * (1 - NEAR) - NEAR
               for voltage, limit in voltages(case))


def fault_is_right(cases, fault):
    """Whether a fault current may be the greatest at which every one of a station's lines is safe."""
    if not cases:
        return fault == 0
    if fault and not LEAST_FAULT <= fault <= MOST_FAULT:
        return False
    if fault and any(surely_above(case, fault) for case in cases):
        return False
    more = fault + 1 if fault else LEAST_FAULT
    return more > MOST_FAULT or not all(surely_safe(case, more) for case in cases)


# --------------------------------------------------------------------------
# The stored portfolios.
# --------------------------------------------------------------------------

def released_station(rng, station, seasons):
    """One yard in several soils, with little grid current and a thick conductor."""
    yard = sheets.random_case(rng)._replace(station=station, split=1, dia=300)
    low, high = calc.span_of("soil")
    return [yard._replace(season=season, soil=rng.randint(low, high), fault=rng.randint(100, 900)) for season in seasons]


def unsafe_line(rng, lines):
    at = rng.randrange(len(lines))
    return [line._replace(fault=MOST_FAULT, split=1000, soil=5000) if i == at else line for i, line in enumerate(lines)]


def undecided_line(rng, lines):
    """Every line in one yard that meets its limit in one season."""
    at = sheets.case_at_limit(rng)
    yard = {name: getattr(at, name) for name in calc.NAMES if name not in ("station", "season", "fault", "split")}
    lines = [line._replace(**yard) for line in lines]
    return [*lines[:-1], lines[-1]._replace(fault=at.fault, split=at.split)]


def other_yard(rng, lines):
    """One of the nine columns of one line changed."""
    at, name = rng.randrange(len(lines)), rng.choice(YARD)
    low, high = calc.span_of(name)
    line = lines[at]
    if name in ("rods", "rodlen", "place") and not line.rods:
        line = line._replace(rods=20, rodlen=1000, place=1)
    elif name == "place":
        line = line._replace(place=3 - line.place)
    else:
        line = line._replace(**{name: next(n for n in (high, low + 1) if n != getattr(line, name))})
    return [*lines[:at], line, *lines[at + 1 :]]


def small_wire(rng, lines):
    """One line with a fault current that its conductor does not bear; it enters the grid a little only."""
    at = rng.randrange(len(lines))
    return [line._replace(fault=60000, wire=3000, metal=11) if i == at else line._replace(metal=11)
            for i, line in enumerate(lines)]


def wire_of_the_size(rng, lines):
    """A conductor of 25.4 mm, 1000 kcmil, where that is the row's size."""
    line = lines[0]._replace(dia=254, metal=11, wire=1000, clear=3000, xr=1)
    upper = int(calc.factor_ends(line.clear, line.xr, line.hz, DEPTH).upper * calc.FACTOR_UNITS) + 100
    faults = [fault for fault in range(30000, 35000) if calc.conductor_kcmil(line._replace(fault=fault), upper) == 1000]
    return [line._replace(fault=faults[len(faults) // 2])]


def no_change(rng, lines):
    return lines


REASONS = (no_change, unsafe_line, undecided_line, other_yard, small_wire)


def held_or_released(rng, station, reason):
    """Lines of a station and its licensed seasons, some with a season that has no line or that is not licensed."""
    seasons = sorted(rng.sample(range(1, 5), rng.randint(1, 4)))
    lines = reason(rng, released_station(rng, station, seasons))
    number = sum(2 ** (season - 1) for season in seasons)
    if rng.random() < 0.3:
        number = rng.randint(1, 15)
    return lines, number


def needed(case):
    """About the size that the row reports: it is sized by the factor's upper end, which a program may choose within its width."""
    upper = int(calc.factor_ends(case.clear, case.xr, case.hz, DEPTH).upper * calc.FACTOR_UNITS) + 100
    return calc.conductor_kcmil(case, upper)


def own_area(rng, lines):
    """None, any, or one about the size that a line needs."""
    about = needed(rng.choice(lines)) + rng.choice((-1, 0, 1))
    return rng.choice((0, 0, rng.randint(1, MOST_AREA), min(max(about, 1), MOST_AREA)))


def portfolio(rng, reasons):
    """A sheet with a station for each reason, lines shuffled, and a licence in another order."""
    stations = rng.sample((*range(1, 40), 65535, 65534), len(reasons) + 2)
    cases, entries = [], []
    for station, reason in zip(stations, reasons):
        lines, number = held_or_released(rng, station, reason)
        cases += lines
        entries.append((station, number, own_area(rng, lines)))
    entries.append((stations[-1], rng.randint(1, 15), rng.choice((0, MOST_AREA))))  # a station without a line
    cases += released_station(rng, stations[-2], [rng.randint(1, 4)])  # a station that is not licensed
    rng.shuffle(entries)
    rng.shuffle(cases)
    return sheets.sheet_of(cases), [number for entry in entries for number in entry]


def stranded(rng):
    """A stranded wire, 13.4 mm and 211 kcmil, where 261 kcmil are needed, which a solid round one of that diameter would have."""
    lines = [line._replace(dia=134, metal=1, wire=500, clear=500, xr=10) for line in released_station(rng, 3, [1, 2])]
    faults = [fault for fault in range(40000, 60000) if needed(lines[0]._replace(fault=fault)) == 261]
    return [line._replace(fault=faults[len(faults) // 2]) for line in lines]


def largest(rng):
    """256 lines, four to a station, and a licence of 256 entries."""
    cases = []
    for station in range(101, 165):
        cases += released_station(rng, station, range(1, 5))
    stations = [*range(101, 165), *range(1001, 1193)]
    rng.shuffle(stations)
    return sheets.sheet_of(cases), [
        number for station in stations for number in (station, rng.randint(1, 15), rng.choice((0, 1, MOST_AREA)))]


def sound(rng):
    """Portfolios whose licence is right."""
    some = [portfolio(rng, [reason]) for reason in REASONS for _ in range(3)]
    some += [portfolio(rng, rng.choices(REASONS, k=rng.randint(2, 5))) for _ in range(RANDOM)]
    exact = wire_of_the_size(rng, released_station(rng, 3, [2]))
    some += [(sheets.sheet_of(exact), [3, 2, area]) for area in (0, 999, 1000, 1001)]
    some += [(sheets.sheet_of(stranded(rng)), [3, 3, area]) for area in (0, 211, 261)]
    random_cases = [sheets.random_case(rng)._replace(station=5, season=season) for season in (3, 1, 4)]
    some.append((sheets.sheet_of(random_cases), [5, 13, 0]))
    return some


def wrong_licences(rng, licence):
    """Licences that are refused: counts, stations, seasons and cross-sections, alone and two at once."""
    at = 3 * rng.randrange(len(licence) // 3)
    return [
        [], licence[:-1], licence[:-2], [1], [1, 1], [number for station in range(1, 258) for number in (station, 1, 0)],
        *([*licence[:at], station, *licence[at + 1 :]] for station in (0, 65536, 4294967295)),
        *([*licence[:at + 1], seasons, *licence[at + 2 :]] for seasons in (0, 16, 4294967295)),
        *([*licence[:at + 2], area, *licence[at + 3 :]] for area in (MOST_AREA + 1, 4294967295)),
        [*licence, licence[0], 1, 0], [*licence, licence[0], 0, 0], [*licence, 0, 0, 0], [0, 0, 0, *licence],
        [*licence[:at], 0, 16, 0, *licence[at + 3 :]], [*licence[:at + 1], 16, MOST_AREA + 1, *licence[at + 3 :]],
    ]


def damaged(rng):
    """Sheets that are refused by themselves."""
    some = []
    while len(some) < DAMAGED:
        text, _ = sheets.random_sheet(rng)
        if SHEET_END not in text and len(text) < sheets.BATCH_SHORT and isinstance(calc.read_sheet(text), Refusal):
            some.append(text)
    case = sheets.random_case(rng)
    return some + [b"", b"\n", b"station\n", sheets.sheet_of([]), sheets.sheet_of([case._replace(layer=100, thick=0)]),
                   sheets.sheet_of([case._replace(rods=0, rodlen=1000, place=1)]), sheets.sheet_of([case._replace(hz=55)]),
                   sheets.sheet_of([case, case])]


def blocks():
    """Each stored sheet with its licence and the length of the table."""
    rng = random.Random(SEED)
    portfolios = sound(rng)
    asked = []
    for sheet, licence in portfolios:
        need = ENTRY_LENGTH * (len(licence) // 3)
        asked += [(sheet, licence, room) for room in (need, rng.choice((need - 1, 0, need + 1, TABLE)))]
    sheet, licence = portfolios[4]
    for wrong in wrong_licences(rng, licence):
        asked += [(sheet, wrong, room) for room in (TABLE, 0)]
    asked += [(text, rng.choice((licence, [], [0, 0, 0])), rng.choice((TABLE, 0))) for text in damaged(rng)]
    asked.append((*largest(rng), ENTRY_LENGTH * calc.MAX_VALUE_LINES))
    return asked


def text_of(asked):
    """What `sheets` reads: the kind with the length of the table, a line with the licence, the sheet, a byte 0."""
    return b"".join(b"release,%d\n%s\n%s%s" % (room, ",".join(map(str, licence)).encode(), sheet, SHEET_END)
                    for sheet, licence, room in asked)
