"""What the command says to a thousand inputs of each kind, as JSON for words.mjs: python3 desk/tests/expected.py

Where the page and the command both have logic of their own (decimals, the mending of numbers, kinds of wrong form, decisions and their
order, candidates for what to change, licences and the names of wires, cells with units and what is rounded of them), both are asked the
same, and words.mjs compares them word for word."""
from __future__ import annotations

import difflib
import json
import random
import re
import sys
from fractions import Fraction
from pathlib import Path
from typing import Dict, List

ROOT = Path(__file__).resolve().parents[2]
sys.path.insert(0, str(ROOT / "python"))

from hocsimbur import core  # noqa: E402
from hocsimbur.command import measured, yards  # noqa: E402
from hocsimbur.core import Pair, Refused  # noqa: E402
from hocsimbur.portfolio import advice, candidates, decision, licence, lines, reasons  # noqa: E402
from hocsimbur.portfolio.compared import margin, share  # noqa: E402
from hocsimbur.sheets import amounts, checking, decimals, layout, names, site, spreadsheet, units, words  # noqa: E402
from hocsimbur.sheets.forms import Unclear  # noqa: E402
from hocsimbur.sheets.labels import LABELS  # noqa: E402

NAMES = [name.name for name in names.NAMES]
COUNT = 1000
SOUND = "7,1,400,2500,102,500,500,500,70,3180,600,10,11,11,7000,500,100,4,3000,1,1,60".split(",")
WRONG = ["", "0", "00", "007", "-5", "+7", "\u22125", "62.5", "62.", "62.0", ".5", "1234567", "4 kA", "3m", "abc", "x1", "99999", "1", "3",
         "250000", "1e3", "1 000", "1000000", "\u00b2", "\u0663", "m" * 60, "7.25", "é", "'7'", "--", "12x", "5%", "062.0", "00.", "0.00",
         "0" * 50 + ".0", "0000", "5\u00b2", "0\u0663", "\u0663.5", "-\u0663"]


def random_case(rng: random.Random, station: int, season: int) -> Dict[str, int]:
    """A case within its ranges, whose layer and rods agree; often one of a yard that could be built."""
    case = {name.name: rng.choice(name.only) if name.only else rng.randint(name.low, name.high) for name in names.NAMES}
    if rng.random() < 0.7:
        case.update(zip(NAMES, map(int, SOUND)))
        case.update(soil=rng.randint(20, 400), fault=rng.randint(500, 6000), across=rng.randint(6, 16), along=rng.randint(6, 16))
        case.update(metal=rng.randint(1, 11), dia=rng.choice((50, 100, 134, 200, 300)), shock=rng.choice((200, 500, 1000)))
    case.update(station=station, season=season)
    if rng.random() < 0.3:
        case.update(layer=0, thick=0)
    if rng.random() < 0.4:
        case.update(rods=0, rodlen=0, place=0)
    else:
        case.update(rods=rng.randint(1, 40), rodlen=rng.randint(1000, 6000), place=rng.randint(1, 2))
    return case


def shown(rng: random.Random):
    """Numbers as decimals."""
    for _ in range(COUNT):
        size, scale, places = rng.randint(0, 15), rng.randint(0, 9), rng.randint(0, 9)
        low = rng.randint(-(10 ** size), 10 ** size)
        high = low + rng.randint(0, 10 ** rng.randint(0, size))
        yield [low, high, scale, places, decimals.ends(Pair(low, high), scale, places), decimals.exact(low, scale), decimals.grouped(high)]


def shares(rng: random.Random):
    for _ in range(COUNT):
        number = rng.randint(-2000, 10 ** rng.randint(1, 7))
        yield [abs(number), share(abs(number))]


def mended(rng: random.Random):
    """Cells as `import` takes them: the whole number in digits, or none where the text is no whole number or may be two."""
    signs = "0123456789" * 3 + ".,eE+- \u00a0\u202fx"
    for _ in range(COUNT):
        text = "".join(rng.choice(signs) for _ in range(rng.randint(1, 9))).strip(" \u00a0\u202f\u2007\ufeff")
        if rng.random() < 0.4:
            number = rng.randint(0, 10 ** rng.randint(1, 7))
            text = rng.choice((f"{number:,}", f"{number}.0", f"{number:,}".replace(",", "."), f"{number:,}".replace(",", "\u00a0"),
                               f"{number},00", f"{number / 1000:e}", f"{number}.", f"0{number}", f"+{number}", f"-{number % 2}",
                               f".{number}e{len(str(number))}"))
        sign = rng.choice(",;\t")
        line = [f'"{text}"' if name == "soil" else right for name, right in zip(NAMES, SOUND)]
        try:
            found = spreadsheet.make(f"{sign.join(NAMES)}\n{sign.join(line)}\n".encode()).sheet
            made = layout.cells(layout.lines(found)[1])[NAMES.index("soil")]
        except spreadsheet.Refusals:
            made = None
        yield [text, sign, made]


def ambiguous(rng: random.Random):
    """Cells that may be two numbers, and what `import` says of them."""
    for _ in range(COUNT // 20):
        text = f"{rng.randint(1, 999)},{rng.randint(0, 999):03d}"
        try:
            spreadsheet.exact(text, "\t")
        except ValueError as error:
            yield [text, str(error)]


def check(rows: List[List[str]], places: List[int]) -> List[checking.Found]:
    """What is refused of some lines, told with their places in a larger sheet."""
    sheet = "".join(",".join(row) + "\n" for row in [NAMES, *rows]).encode()
    return checking.check(sheet, [1, *places])


def refused(rng: random.Random):
    """Sheets of spoilt lines, and what the page tells of each: the first refusal of a line by itself, or else that it repeats one that is
    right."""
    for _ in range(COUNT // 20):
        rows: List[List[str]] = []
        for number in range(20):
            row = list(SOUND)
            row[0], row[1] = str(rng.choice((number + 1, 7))), str(rng.randint(1, 4))
            for _ in range(rng.choice((0, 1, 1, 1, 2))):
                row[rng.randrange(len(row))] = rng.choice(WRONG)
            rows.append(row)
        wrong = {line: check([row], [line]) for line, row in enumerate(rows, 2)}
        right = [line for line, found in wrong.items() if not found]
        found = [one[0] for one in wrong.values() if one] + (check([rows[line - 2] for line in right], right) if right else [])
        yield [rows, [[one.number, one.line, one.column, one.said] for one in sorted(found, key=lambda one: one.line)]]


def station_words(one: decision.Station) -> Dict:
    """All that is said of a station."""
    said = [reasons.differences(one), reasons.outside(one), *reasons.undecided(one), reasons.current(one)]
    said += [] if one.answer.small_wire else [reasons.wire(one)]
    return {
        "station": one.station, "decision": list(reasons.decision(one)), "asides": [text for text in said if text],
        "cautions": reasons.cautions(one), "greatest": reasons.greatest(one), "now": reasons.now(one),
        "changes": [change.words for change in advice.changes(one)],
    }


def portfolios(rng: random.Random):
    """Sheets of several stations with a licence, and what is said of every station and line."""
    for _ in range(COUNT // 5):
        cases = []
        for station in range(1, rng.randint(2, 5)):
            first = random_case(rng, station, 1)
            for season in sorted(rng.sample((1, 2, 3, 4), rng.randint(1, 4))):
                other = dict(first, season=season, soil=rng.randint(10, 400))
                if rng.random() < 0.15:
                    other.update(depth=rng.randint(250, 2500))
                if rng.random() < 0.15:
                    other.update(fault=rng.randint(100, 9000))
                if rng.random() < 0.15:
                    other.update(dia=rng.choice((50, 60, 100, 134, 200, 300)))
                cases.append(other)
        rng.shuffle(cases)
        licensed = []
        for station in range(1, 7):
            there = {case["season"] for case in cases if case["station"] == station}
            asked = there if there and rng.random() < 0.7 else rng.sample((1, 2, 3, 4), rng.randint(1, 4))
            if rng.random() < 0.7:
                wire = rng.choice(("", "", "#4", "4/0", "95 mm2", "211 kcmil", "1000 kcmil"))
                licensed.append(licence.Licensed(station, rng.choice(("", "Ashgrove", "Elm, west")), tuple(sorted(asked)), wire=wire))
        yield told(cases, licensed)
    yield told(layout.cases((ROOT / "examples" / "undecided.csv").read_bytes()), [])


def told(cases: List[Dict[str, int]], licensed: List[licence.Licensed]) -> Dict:
    """A sheet and a licence, with what the command says of every line and station."""
    text = licence.text(licence.Licence(tuple(licensed))) if licensed else ""
    granted = licence.read(text.encode()) if licensed else None
    areas = {one.station: one.area for one in granted.stations} if granted else {}
    sheet = layout.text(cases)
    whole = decision.portfolio(sheet, granted)
    stations = whole.stations
    sums = reasons.summed(reasons.counts(one) for one in stations)
    return {
        "totals": "".join(part for told_ in reasons.totals(sums, whole.licensed) for part in told_), "notes": reasons.notes(whole),
        "others": whole.unlicensed,
        "rows": [[str(case[name]) for name in NAMES] for case in cases],
        "licence": text,
        "lines": [[one.row.verdict.name.lower(), margin(one.nearest), one.nearest.limit, one.row.kcmil, one.headroom,
                   one.small_wire] for one in lines.gather(sheet, areas=areas)],
        "stations": [station_words(one) for one in stations if one.lines],
        "absent": [[one.station, list(reasons.decision(one))] for one in stations if not one.lines],
    }


def outside(rng: random.Random):
    """Stations that a licence does not name, and what is said of them."""
    for count in [*range(1, 45), 2000]:
        numbers = rng.sample(range(1, 65536), count)
        yield [numbers, *reasons.notes(decision.Portfolio((), True, tuple(numbers)))]


def quoted(cell: str) -> str:
    return '"' + cell.replace('"', '""') + '"' if set(cell) & set(',"') else cell


def licences(rng: random.Random):
    """Licences, right and damaged: the stations or the sentence."""
    cells = ["7", "8", "65535", "0", "65536", "x", "07", "", "1", "1 2", "4 3 1", "1 1", "5", "1;2", "a", "Elm, west", 'say "so"', "\x07",
             " 7 ", "7.0", "7.5", "a\u00a0b"]
    seasons = ["", "1", "4 3 1", "1-4", "3-2", "2\u20134", "all", "ALL", "1,2", "1,", "1+3", "2/3", "1;2", "1 1", "1-3 2", "5", "1 2 3 4 5",
               "1:2"]
    wires = ["", "", "4/0", "250 kcmil", "95 mm2", "95 mm\u00b2", "211 kcmil", "2000 kcmil", "2001 kcmil", "0 kcmil", "4", "#4", "AWG 4",
             "no. 2", "0000", "00 awg", "70 sq mm", "70sqmm", "300MCM", "1kcmil", "250", "x", "5/0", "mm2", "185 MM^2", "96 mm2"]
    for _ in range(COUNT):
        columns = ("station", "name", "seasons", "wire") if rng.random() < 0.6 else ("station", "name", "seasons")
        order = rng.sample(columns, len(columns))
        made = [[rng.choice((column, column, column.title())) for column in order]]
        for station in range(rng.randint(0, 4)):
            right = {"station": str(station + 1), "name": rng.choice(cells), "seasons": "1 2 4", "wire": rng.choice(wires[:8])}
            line = [right[column] for column in order]
            if rng.random() < 0.2:
                line[rng.randrange(len(line))] = rng.choice(cells)
            if rng.random() < 0.3:
                line[order.index("seasons")] = rng.choice(seasons)
            if rng.random() < 0.3 and "wire" in order:
                line[order.index("wire")] = rng.choice(wires)
            if rng.random() < 0.1:
                line.append(rng.choice(("more", "")))
            made.append(line)
        text = "".join(",".join(map(quoted, line)) + "\n" for line in made)
        try:
            found = [[one.station, one.name, list(one.seasons), one.wire, one.area] for one in licence.read(text.encode()).stations]
        except licence.LicenceRefused as error:
            found = str(error)
        yield [text, found]


UNITS = ["", "", "mm", "cm", "m", "in", "inch", "inches", '"', "ft", "feet", "'", "ms", "s", "sec", "cycles", "cyc", "cycle", "kg", "A", "kA",
         "amps", "%", "‰", "per mille", "percent", "Hz", "hz", "ohm m", "Ω·m", "Ωm", "ohm-m", "kΩm", "ohm cm", "ohm.metres", "kcmil", "mm2",
         "lb", "x", "é", "½", "e5x"]
TEXTS = ["23ft", "18in", "8.7kA", "0.5s", "30 cycles", "4/0", "187.5", "#2", "250 kcmil", "95 mm2", "96 mm2", "60%", "62 ohm m", "4in", "7m",
         "16.2", "5/0", "0000", "#9", "-5", "-0.4", "--5", "+7.5", "1e3", "1e-3", "9e99", ".5", "5.", "1,5", "1.234", "1,234", "1,234.5kA",
         "1 234,5", "٣", "٣mm", "0x10", "1e", "1e5", "1.5e1mm", "7 ' ", "5'6\"", "=1+1", "constructor", "1 constructor", "2 __proto__",
         "1toString", "m" * 60, "4" * 60, "1 " + "k" * 60]


def cells(rng: random.Random):
    """Cells with units and decimals, in lines of some layer, soil and frequency, and what `import` makes of them, also with caution."""
    shapes = ("{}", "{}.{}", "{}.{}", "{}.0", "{},{}", ".{}", "{}e{}", "{} {}00", "-{}.{}", "+{}", "0{}.{}0")
    for name in NAMES:
        for text in TEXTS:
            yield cell_asked(rng, name, text)
    for place in range(2 * COUNT):
        name = rng.choice(NAMES)
        shape = rng.choice(shapes).format(rng.randint(0, 10 ** rng.randint(1, 4)), rng.randint(0, 10 ** rng.randint(1, 3)))
        own = [*units.UNITS.get(name, ()), *(["cycles"] if name in ("shock", "clear", "wire") else [])]
        unit = rng.choice(own) if own and rng.random() < 0.6 else rng.choice(UNITS)
        if place % 4 == 1:  # in the column's range, where there may be a cautious side
            shape, unit = f"{rng.randint(names.BY_NAME[name].low, names.BY_NAME[name].high)}.{rng.randint(1, 999)}", ""
        yield cell_asked(rng, name, (shape + rng.choice(("", " ", "\u00a0")) + unit).strip(" \t\n\u00a0\u202f\u2007\ufeff"))


def cell_asked(rng: random.Random, name: str, text: str):
    """A text in a column of a line of some layer, soil and frequency, and both answers."""
    text, sign = text.strip(), rng.choice(",,,;\t")
    line = dict(zip(NAMES, SOUND), layer=str(rng.choice((0, 100, 2500))), soil=str(rng.choice((100, 400, 4000))))
    line["hz"] = rng.choice(("50", "60", "55"))
    line[name] = text
    context = {"sign": sign, "hertz": int(line["hz"]) if line["hz"] in ("50", "60") else 0,
               "layer": int(line["layer"]) if name != "layer" else 0, "soil": int(line["soil"]) if name != "soil" else 0}
    return [text, name, context, cell_words(line, name, sign, False), cell_words(line, name, sign, True)]


def cell_words(line: Dict[str, str], name: str, sign: str, cautious: bool):
    """The digits of a cell, how it was changed and what was noted; or what is refused, without its place."""
    text = f"{sign.join(NAMES)}\n" + sign.join('"' + one.replace('"', '""') + '"' for one in line.values()) + "\n"
    try:
        made = spreadsheet.make(text.encode(), cautious)
    except spreadsheet.Refusals as refusals:
        return refusals.said[0].split(": ", 1)[1]
    told_ = [one for one in made.changes.told() if one.startswith(("1 value: ", "1 diameter: "))]
    return [layout.cells(layout.lines(made.sheet)[1])[NAMES.index(name)], told_, made.rounded]


WELL = {"soil": ["62 ohm m", "400.0", "0.1 kohm m"], "layer": ["2.5 kΩm"], "thick": ["10cm", "0.1m", "102 mm"],
        "shock": ["0.5s", "30 cycles", "6 cyc"], "clear": ["0.25 s", "15 cycles"], "wire": ["1 s"], "body": ["70kg"],
        "fault": ["8.7kA", "3180 A", "3180.0", "3.18E+03", "3 180"], "split": ["60%", "600‰"], "space": ["7m", "700 cm"],
        "depth": ["0.5m", "500.00"], "dia": ["4/0", "#2", "95 mm2", "1cm", "250 kcmil"], "rodlen": ["3m"], "hz": ["60 Hz", "50hz"]}


def imports(rng: random.Random):
    """Sheets of cells that become whole numbers, and all that `import` tells of them."""
    for _ in range(COUNT // 10):
        rows = []
        for season in range(1, 5):
            line = dict(zip(NAMES, SOUND), season=str(season))
            line.update((name, rng.choice(texts)) for name, texts in WELL.items() if rng.random() < 0.3)
            rows.append(list(line.values()))
        made = spreadsheet.make("".join(",".join(row) + "\n" for row in [NAMES, *rows]).encode())
        told_ = [one for one in made.changes.told() if one.split()[1].rstrip("s:") in ("value", "diameter")]
        yield [rows, [layout.cells(line) for line in layout.lines(made.sheet)[1:]], told_ + made.rounded]


def head(rng: random.Random, name: str):
    """A head of a column, as people write it, and the unit that it says."""
    label = LABELS[name].label if name in LABELS else name
    own = [*units.UNITS.get(name, ()), *(["cycles"] if name in ("shock", "clear", "wire") else [])]
    if name in ("soil", "layer"):  # always a whole number, since the thickness goes by them
        own = ["ohm m", "Ω·m", "kohm m"]
    unit = rng.choice(own) if own and rng.random() < 0.95 else rng.choice(("qqq", "m", ""))
    plain = rng.choice((name,) * 9 + (name.upper(), label, label.lower(), f"{name} []"))
    if rng.random() < 0.85 or not own and rng.random() < 0.9:
        return plain, ""
    return rng.choice((f"{name} [{unit}]", f"{label} ( {unit} )", f"{name.title()}({unit})")), unit


def under(rng: random.Random, name: str, value: str, unit: str, calm: bool) -> str:
    """A cell of a column whose head says a unit; a calm one becomes a whole number."""
    if name in ("soil", "layer"):
        return str(int(value) / 1000) if unit == "kohm m" else value
    times = units.factor(name, unit, 60) if unit else 1
    if calm and times is not None:
        whole = [one for one in ("10", "5", "0.5", "2.5", "1000", "25", "12.0") if (Fraction(one) * times).denominator == 1]
        return rng.choice(whole) if unit else value
    if not unit:
        return rng.choice((value,) * 30 + ("x", "12.5", "0.5s"))
    return rng.choice(("4", "0.5", "7", "12.5", "3,18", "100", "1e2", "18in", "2.5 kA", "30 cycles", "1.234", "x", "-4", "0.05", "15"))


def heads(rng: random.Random):
    """Sheets under heads with units and labels, below a title, with other columns and names of stations; and what `import` makes of
    them."""
    for place in range(COUNT // 2):
        order = list(NAMES) if place % 3 else rng.sample(NAMES, len(NAMES))
        columns, calm = [(name, *head(rng, name)) for name in order], rng.random() < 0.6
        if rng.random() < 0.1:
            columns.pop(rng.randrange(len(columns)))
        if rng.random() < 0.1:
            at = rng.randrange(len(columns))
            columns[at] = (columns[at][0], columns[at][0][:-1] + rng.choice(("", "x", "xy")), "")
        if rng.random() < 0.05:
            columns.insert(rng.randrange(len(columns)), rng.choice(columns))
        for more in ("remark", "", "Substation (north)", "ms", "constructor"):
            if rng.random() < 0.05:
                columns.insert(rng.randrange(len(columns)), ("", more, ""))
        if rng.random() < 0.4:
            columns.insert(rng.randrange(len(columns)), ("name", rng.choice(("name", "Name", "NAME")), ""))
        above = [[rng.choice(("Yards of 2026", "Ashgrove; second issue", "x" * 60))] for _ in range(rng.choice((0, 0, 0, 0, 1, 2)))]
        below = []
        for season in range(1, rng.randint(2, 4)):
            values = dict(zip(NAMES, SOUND), season=str(season), name=rng.choice(("North",) * 20 + ("South", "")))
            below.append([under(rng, name, values.get(name, "7"), unit, calm) if name not in ("", "name", "station", "season") else
                          values.get(name, "remark") for name, _, unit in columns])
        yield heads_asked([*above, [one for _, one, _ in columns], *below], rng.choice(",;\t"), len(above), place % 3 > 0)


def near(rng: random.Random):
    """Words that are nearly some of others, and which of them difflib finds nearest, as the command asks it."""
    for _ in range(COUNT):
        others = rng.sample([*NAMES, "abx", "aby", "bax", "space_mm"], rng.randint(1, 12))
        letters = list(rng.choice(others))
        for _ in range(rng.randint(0, 4)):
            letters.insert(rng.randrange(len(letters) + 1), rng.choice("abcdelorst_xé"))
            if rng.random() < 0.6:
                letters.pop(rng.randrange(len(letters)))
        yield ["".join(letters), others, (difflib.get_close_matches("".join(letters), others, 1) or [""])[0]]


TOLD = re.compile(r"\d+ (lines? above the names|(name|column|value|diameter)s?): ")


def heads_asked(table, sign: str, above: int, in_order: bool):
    """A text of lines, what is above its names, whether its columns are in the order of a sheet, and what `import` makes of it."""
    text = "".join(sign.join('"' + one.replace('"', '""') + '"' if set(one) & {sign,
                                                                               '"'} else one for one in line) + "\n" for line in table)
    try:
        made = spreadsheet.make(text.encode())
    except spreadsheet.Refusals as refusals:
        return [text, above, in_order, {"refused": refusals.said}]
    names_, *values = [layout.cells(line) for line in layout.lines(made.sheet)]
    rows = [[line[names_.index(name)] for name in NAMES] for line in values] if set(names_) >= set(NAMES) else []
    told_ = [one for one in made.changes.told() if TOLD.match(one)] + made.rounded
    return [text, above, in_order, {"rows": rows, "told": told_, "called": [[int(one), name] for one, name in made.called.items()]}]


WIRES = ["4/0", "250 kcmil", "95 mm2", "95 mm\u00b2", "211 kcmil", "2000 kcmil", "2001 kcmil", "0 kcmil", "4", "#4", "AWG 4", "no. 2",
         "0000", "00 awg", "70 sq mm", "70sqmm", "300MCM", "1kcmil", "250", "x", "5/0", "mm2", "185 MM^2", "96 mm2", "<b>", "W" * 60, "4/0 copper"]
CALLED = ["Ashgrove", "Elm, west", 'say "so"', "a;b", "a\u00a0b", "a\u200bb", "\u202eevil", "\u00e9", "Кировск", "W" * 300, "=1+1", "a\tb"]


def fields(rng: random.Random):
    """Names and wires as they are typed into a licence: its line as the command writes it, or what it refuses."""
    for field, texts in (("wire", WIRES), ("name", CALLED)):
        for text in texts:
            one = licence.Licensed(7, *((text, (1, 2)) if field == "name" else ("", (1, 2))), wire=text if field == "wire" else "")
            written = licence.text(licence.Licence((one,)))
            try:
                read = licence.read(written.encode()).stations[0]
                yield [field, text, "", read.area, written]
            except licence.LicenceRefused as error:
                yield [field, text, str(error).removeprefix("licence line 2, "), 0, ""]


def amount(rng: random.Random, most: int) -> str:
    """A decimal up to a greatest one, mostly in whole thousandths; now and then with a sign, or no number."""
    places = rng.choice((0, 1, 2, 3, 3, 3, 4))
    whole, behind = divmod(rng.randint(0, most * 10 ** places), 10 ** places)
    text = f"{whole}.{behind:0{places}d}" if places else f"{whole}"
    odd = (f"+{text}", f"-{text}", f"\u2212{text}", f"{whole}.", f".{behind}", "1.2.3", "--", "9" * 12)
    return rng.choice((text,) * 20 + odd)


def lines_of(pairs, rng: random.Random) -> str:
    return "".join(f"{one}{rng.choice((' ', ',', ';', chr(9), ', '))}{other}\n" for one, other in pairs)


def shown_lines(text: str) -> List[str]:
    """The lines of a table without its head, a space between the cells."""
    return [" ".join(line.split()) for line in text.splitlines()[1:]]


def soils(rng: random.Random):
    """Four-pin readings, and what `wenner` says of them."""
    for _ in range(COUNT):
        cells = [(amount(rng, 55), amount(rng, 1005)) for _ in range(rng.choice((0, 1, 2, 2, 3, 4)))]
        if rng.random() < 0.02:
            cells = [("5", "7")] * 65
        yield [lines_of(cells, rng), soil_words(cells)]


def soil_words(cells):
    found = []
    for place, (distance, ohms) in enumerate(cells, 1):
        try:
            found.append(site.reading(distance, ohms))
        except Unclear as error:
            return f"reading {place}: {error}"
    lower, upper = site.ends(found)
    answers = []
    for handed in (lower, upper):
        try:
            answers.append(core.soil(handed))
        except Refused as refused_:
            return words.refusal(refused_, words.Asked(readings=handed))
    soil = measured.between(*answers)
    notes = measured.soil_notes(soil) + measured.rounding_notes(lower, upper)
    return [shown_lines(measured.soil_text(lower, upper, soil)), notes, soil.soil]


def splits(rng: random.Random):
    """Staged tests, and what `staged` says of them."""
    for _ in range(COUNT):
        cells = [(amount(rng, 1001), amount(rng, 500)) for _ in range(rng.choice((0, 1, 2, 2, 3, 4, 18)))]
        if cells and rng.random() < 0.05:
            cells[0] = ("0", "0.000")
        yield [lines_of(cells, rng), split_words(cells)]


def split_words(cells):
    handed = []
    for place, pair in enumerate(cells):
        try:
            one = site.rectangular(*pair)
        except Unclear as error:
            return f"{f'branch {place}' if place else 'injected'}: {error}"
        handed.append((one.in_phase.lower, one.quadrature.lower))
    try:
        split = core.split(handed)
    except Refused as refused_:
        return words.refusal(refused_, words.Asked(parts=handed))
    return [shown_lines(measured.split_text(handed, split)), measured.split_notes(split, 0), split.split]


def squares(rng: random.Random):
    """Cases with a side, and what `fewest` says of them."""
    for _ in range(COUNT // 5):
        case = random_case(rng, 7, 1)
        text = rng.choice((str(rng.randint(1, 100)), str(rng.randint(1, 800)), f"{rng.randint(5, 90)}.{rng.randint(0, 99)}"))
        text = rng.choice((text,) * 8 + ("60.0005", "6,5", "x"))
        yield [case, text, square_words({**case, "rodlen": case["rodlen"] or candidates.ROD_LENGTH}, text)]


def square_words(case, text):
    try:
        side = amounts.whole(text, 1000, "m", "mm")
    except Unclear as error:
        return [f"side: {error}", None, []]
    try:
        found = core.fewest(layout.text([case]), side)
    except Refused as refused_:
        return [words.refusal(refused_, words.Asked(side=side)), None, []]
    return [yards.said(found, side), [found.lines, found.rods] if found.found else None,
            [yards.listed(line) for line in yards.answered(yards.tried(case, side, found.tried))]]


KINDS = {"shown": shown, "shares": shares, "mended": mended, "ambiguous": ambiguous, "refused": refused, "portfolios": portfolios,
         "licences": licences, "outside": outside, "fields": fields, "cells": cells, "imports": imports, "soils": soils,
         "splits": splits, "squares": squares}
KINDS.update({"heads": heads, "near": near})

if __name__ == "__main__":
    json.dump({kind: list(make(random.Random(number))) for number, (kind, make) in enumerate(KINDS.items())}, sys.stdout)
