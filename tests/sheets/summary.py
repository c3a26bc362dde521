"""The station summary of request (m) of document 02, written from the document, and the sheets that the
program `sheets` is asked for it on; tests/sheets/stored.py stores them.

The upper mesh ends are the free part of a row: the summary is by the ends that the rows report, so it is
computed from the rows. Each stored sheet has a length of the table of rows and one of the summary table.
"""

import random

from tests.calculator import calculator as calc
from tests.calculator.calculator import Refusal
from tests.calculator.printed import SHEET_END
from tests.sheets import sheets

STATION_LENGTH = 6
MOST_ROWS = calc.MAX_VALUE_LINES * calc.ROW_LENGTH
MOST_SUMMARY = calc.MAX_VALUE_LINES * STATION_LENGTH
SEED, RANDOM, NEAR, DAMAGED = 20, 30, 6, 14
DEPTH = 9
MESH_LOWER, MESH_UPPER = calc.FIRST_PAIR + 8, calc.FIRST_PAIR + 9
VERDICTS = (calc.SAFE, calc.UNSAFE, calc.UNDECIDED)


# --------------------------------------------------------------------------
# The summary and the answer.
# --------------------------------------------------------------------------

def stations_of(rows):
    """The stations by first appearance."""
    return list(dict.fromkeys(row[0] for row in rows))


def worst(rows):
    """The row with the highest upper mesh end, the earlier line on a tie."""
    highest = max(row[MESH_UPPER] for row in rows)
    return next(row for row in rows if row[MESH_UPPER] == highest)


def numbers_of(station, rows):
    """The six numbers of a station with these rows."""
    counts = [sum(row[2] == verdict for row in rows) for verdict in VERDICTS]
    return [station, len(rows), *counts, worst(rows)[1]]


def summary_of(rows):
    """Six numbers for each station of some rows."""
    return [numbers_of(station, [row for row in rows if row[0] == station])
            for station in stations_of(rows)]


def answer(sheet, rows_room, summary_room):
    """A refusal, or the cases: the sheet's own refusals, 8 among them, then 20."""
    cases = calc.read_sheet(sheet, rows_room)
    if isinstance(cases, Refusal):
        return cases
    if summary_room < STATION_LENGTH * len(stations_of(cases)):
        return Refusal(20, 0, 0)
    return cases


# --------------------------------------------------------------------------
# The stored sheets.
# --------------------------------------------------------------------------

def scattered(rng, lines, stations):
    """Cases of a few stations, in any order of lines, no two with one station and season."""
    keys = rng.sample([(station, season) for station in stations for season in range(1, 5)], lines)
    return [sheets.random_case(rng)._replace(station=station, season=season) for station, season in keys]


def with_ties(rng, cases):
    """The cases with the yards of some later lines those of earlier ones, so that their ends are equal."""
    cases = cases[:]
    for later in range(1, len(cases)):
        if rng.random() < 0.5:
            same = rng.choice(cases[:later])
            cases[later] = same._replace(station=cases[later].station, season=cases[later].season)
    return cases


def four_seasons(rng, tie):
    """One station with its four seasons in any order; two or more of them tie at the highest."""
    case = sheets.random_case(rng)
    seasons = rng.sample(range(1, 5), 4)
    faults = [20000] * tie + [10000] * (4 - tie)
    rng.shuffle(faults)
    return [case._replace(station=7, season=season, fault=fault) for season, fault in zip(seasons, faults)]


def with_mesh(case, wanted):
    """The case with the fault and split at which its mesh voltage is nearest a voltage, or nothing."""
    case = case._replace(fault=1000, split=1000)  # the voltage is in proportion to fault and split
    product = float(wanted / calc.exact_ends(case, DEPTH).mesh.lower) * 1000 * 1000
    low, high = calc.span_of("fault")
    pairs = [(round(product / split), split) for split in range(1, 1001)]
    pairs = [(fault, split) for fault, split in pairs if low <= fault <= high]
    if not pairs:
        return None
    fault, split = min(pairs, key=lambda pair: abs(pair[0] * pair[1] - product))
    return case._replace(fault=fault, split=split)


def nearly_equal(rng):
    """Four seasons of unlike yards with nearly the same mesh voltage: which has the highest upper end is not
    which has the highest lower end.
    """
    cases = []
    while len(cases) < 4:
        case = sheets.random_case(rng)
        if cases:
            case = with_mesh(case, calc.exact_ends(cases[0], DEPTH).mesh.lower)
        if case:
            cases.append(case._replace(station=5, season=len(cases) + 1))
    return cases


def sound_sheets(rng):
    """Sound sheets: stations scattered, ties, one station with four seasons, nearly equal mesh voltages,
    undecided yards, and the most lines, each of its own station or in four seasons.
    """
    some = []
    for _ in range(RANDOM):
        stations = rng.sample((*range(1, 30), 65535, 65534), rng.randint(1, 4))
        cases = scattered(rng, rng.randint(1, 4 * len(stations)), stations)
        some.append(with_ties(rng, cases))
    some += [four_seasons(rng, tie) for tie in (1, 2, 3, 4)]
    some += [nearly_equal(rng) for _ in range(NEAR)]
    some.append([sheets.case_at_limit(rng)._replace(station=station, season=season)
                 for station, season in ((9, 2), (4, 1), (9, 1))])
    some.append([case._replace(station=40000 - 7 * i) for i, case in
                 enumerate(sheets.random_case(rng) for _ in range(calc.MAX_VALUE_LINES))])
    some.append(scattered(rng, calc.MAX_VALUE_LINES, range(101, 165)))
    return [sheets.sheet_of(cases) for cases in some]


def damaged(rng):
    """Sheets that the sheet's own question refuses."""
    some = []
    while len(some) < DAMAGED:
        text, _ = sheets.random_sheet(rng)
        if SHEET_END not in text and len(text) < sheets.BATCH_SHORT and isinstance(calc.read_sheet(text), Refusal):
            some.append(text)
    return some + [b"", b"\n", b"station\n"]


def rooms(rng, sheet):
    """Lengths of the two tables: all of both, both exact, one number short of each and of both, and empty."""
    cases = calc.read_sheet(sheet)
    rows = calc.ROW_LENGTH * len(cases)
    summary = STATION_LENGTH * len(stations_of(cases))
    pairs = [(rows, summary), (rows - 1, summary), (rows, summary - 1), (rows - 1, summary - 1),
             (MOST_ROWS, MOST_SUMMARY), (rows, 0), (0, summary), (0, 0), (MOST_ROWS, rng.randrange(summary))]
    if len(cases) == calc.MAX_VALUE_LINES:
        return pairs[::2][:2]
    return [pairs[0], *rng.sample(pairs[1:], 2)]


def blocks():
    """Each stored sheet with the lengths of the two tables."""
    rng = random.Random(SEED)
    asked = [(sheet, *pair) for sheet in sound_sheets(rng) for pair in rooms(rng, sheet)]
    asked += [(sheet, *rng.choice(((MOST_ROWS, MOST_SUMMARY), (0, 0), (20, 0), (0, 6)))) for sheet in damaged(rng)]
    return asked


def text_of(asked):
    """What `sheets` reads: the kind with both lengths, the sheet, a byte 0."""
    return b"".join(b"summary,%d,%d\n%s%s" % (rows, summary, sheet, SHEET_END) for sheet, rows, summary in asked)
