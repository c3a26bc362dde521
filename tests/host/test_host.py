"""The judge of the C entry sees wrong entries, and the lines that the example panel printed are right."""

import random
import re
import unittest
from math import ceil, floor
from pathlib import Path

from tests.calculator import calculator as calc
from tests.calculator.calculator import Case, Refusal
from tests.host import entries, row_entry
from tests.questions import headroom, margins, working
from tests.sheets import release, sheets, summary

ROOT = Path(__file__).parents[2]
DEPTH = 12
WIDTH = 1.2e-4  # how far the ends of a voltage and of its limit may be apart together, as a share
PAST = 40  # bytes of a buffer past its rows


class Entry:
    """A right entry, made from the calculator's own rows, with a buffer that has room for a bit more."""

    def __init__(self, sheet, buffer_bytes=None):
        cases = calc.read_sheet(sheet)
        size = row_entry.LINE_BYTES * len(cases) + PAST if buffer_bytes is None else buffer_bytes
        self.before = random.Random(1).randbytes(size)
        self.wanted = row_entry.answer_of(sheet, size)
        self.after = bytearray(self.before)
        if isinstance(self.wanted, Refusal):
            self.reported = [-self.wanted.number, self.wanted.line, self.wanted.column]
            return
        self.reported = [len(cases), row_entry.UNSET, row_entry.UNSET]
        self.rows = [calc.row_at(case, DEPTH) for case in cases]
        self.write(row_entry.ROW)

    def write(self, form):
        for i, row in enumerate(self.rows):
            form.pack_into(self.after, row_entry.LINE_BYTES * i, *row)

    def wrong(self):
        return row_entry.judge(self.wanted, self.before, self.reported, bytes(self.after), lambda: False)


class WrongEntries(unittest.TestCase):
    def setUp(self):
        rng = random.Random(3)
        self.cases = [sheets.random_case(rng)._replace(station=station) for station in (1, 2, 3)]
        self.sheet = sheets.sheet_of(self.cases)
        self.refused = sheets.sheet_of([self.cases[0]._replace(depth=249), self.cases[1]])

    def test_right(self):
        self.assertEqual(Entry(self.sheet).wrong(), [])
        self.assertEqual(Entry(self.refused, 1000).wrong(), [])
        self.assertEqual(Entry(self.sheet, 3 * 160).wrong(), [])
        self.assertEqual(Entry(self.sheet, 3 * 160 - 1).reported, [-8, 0, 0])

    def test_refusal_that_writes(self):
        for entry in (Entry(self.refused, 1000), Entry(self.sheet, 479)):
            entry.after[0] ^= 1
            self.assertTrue(entry.wrong())

    def test_byte_past_last_row(self):
        for at in (3 * 160, 3 * 160 + PAST - 1):
            entry = Entry(self.sheet)
            entry.after[at] ^= 1
            self.assertTrue(entry.wrong())

    def test_other_count(self):
        entry = Entry(self.sheet)
        entry.reported[0] = 2
        self.assertTrue(entry.wrong())

    def test_rows_exchanged(self):
        entry = Entry(self.sheet)
        entry.rows.reverse()
        entry.write(row_entry.ROW)
        self.assertTrue(entry.wrong())

    def test_place(self):
        entry = Entry(self.refused, 1000)
        entry.reported[1:] = entry.reported[:0:-1]
        self.assertTrue(entry.wrong())
        entry = Entry(self.sheet)
        entry.reported[1:] = [0, 0]
        self.assertTrue(entry.wrong())

    def test_buffer_cut_off(self):
        entry = Entry(self.sheet)
        del entry.after[-1]
        self.assertTrue(entry.wrong())


class Panel(unittest.TestCase):
    """The example's stored lines: a line for each row, and the margin on the cautious side."""

    line = re.compile(r"station (\d+) season (\d+): (safe|unsafe|undecided), (\d+)\.(\d) % (above|below)")

    def judge(self, sheet, lines):
        cases = calc.read_sheet(sheet)
        self.assertEqual(len(lines), len(cases))
        for case, line in zip(cases, lines):
            found = self.line.fullmatch(line)
            self.assertIsNotNone(found, line)
            station, season, verdict, whole, tenth, side = found.groups()
            self.assertEqual((int(station), int(season)), (case.station, case.season))
            ends = calc.exact_ends(case, DEPTH)
            pairs = ((ends.mesh, ends.tolerable_touch), (ends.step, ends.tolerable_step))
            exact = min(float(1 - voltage.lower / limit.lower) for voltage, limit in pairs) * 1000
            slack = WIDTH * (1000 + abs(exact))
            if verdict == "undecided":
                self.assertLess(abs(exact), slack, line)
            else:
                self.assertEqual(verdict, "safe" if exact >= 0 else "unsafe", line)
            tenths = (10 * int(whole) + int(tenth)) * (1 if side == "below" else -1)
            self.assertLessEqual(tenths, exact, line)
            self.assertLess(exact, tenths + 1 + slack, line)

    def stored(self, name):
        return (ROOT / "examples/panel" / name).read_text("ascii").splitlines()

    def test_sample(self):
        self.judge((ROOT / "tests/sample.csv").read_bytes(), self.stored("sample.out"))

    def test_rows(self):
        self.judge((ROOT / "crates/rows/stdin").read_bytes(), self.stored("rows.out"))

    def test_wrong_lines(self):
        sheet, lines = (ROOT / "tests/sample.csv").read_bytes(), self.stored("sample.out")
        changes = (("unsafe", "safe"), ("22.3", "22.4"), ("22.3", "22.2"), ("above", "below"), ("season 1", "season 2"), ("68.2", "68.3"))
        for old, new in changes:
            changed = [line.replace(old, new) for line in lines]
            self.assertNotEqual(changed, lines)
            with self.assertRaises(AssertionError):
                self.judge(sheet, changed)

    def test_refused(self):
        refusal = calc.read_sheet((ROOT / "examples/panel/refused.csv").read_bytes())
        (line,) = self.stored("refused.out")
        self.assertTrue(line.startswith("refused with %d, line %d, column %d: " % refusal))


class Header(unittest.TestCase):
    """include/hocsimbur.h says what the crates have: entries, limits, version, refusals, and the places of a row's numbers."""

    text = (ROOT / "include/hocsimbur.h").read_text("ascii")
    source = "".join((ROOT / f"crates/{crate}{of_c}/src/lib.rt").read_text("utf-8") for crate in ("c_entry", "c_questions", "c_lines")
                     for of_c in ("", "_c"))
    length = "hocsimbur_size "
    forms = {
        "&[u8]": ["const uint8_t *", length], "&[u32]": ["const uint32_t *", length], "&[i64]": ["const int64_t *", length],
        "&mut [u8]": ["uint8_t *", length], "&mut [i64]": ["int64_t *", length], "&mut [usize]": ["hocsimbur_size *", length],
        "u32": ["uint32_t "]}
    answers = {"i64": "int64_t", "u32": "uint32_t"}

    def test_entries(self):
        exported = {}
        for name, fields, answer in re.findall(r'extern "C" fn (\w+)(?:<\'a>)?\(([^)]*)\) -> (\w+)', self.source):
            kinds = re.findall(r"\w+: ([^,]+)", fields.replace("'a ", ""))
            exported[name] = self.answers[answer], [form for kind in kinds for form in self.forms[kind]]
        declared = {}
        for answer, name, fields in re.findall(r"^(u?int\d+_t) (\w+)\(([^)]*)\);", self.text, re.M):
            fields = [] if fields == "void" else re.split(r",\s+", fields)
            declared[name] = answer, [re.fullmatch(r"(.*[ *])\w+", field)[1] for field in fields]
        self.assertEqual(self.source.count('extern "C"'), len(exported))
        self.assertEqual(exported, declared)
        self.assertEqual(sorted(exported), (ROOT / "host/symbols.txt").read_text("ascii").split())
        manual = (ROOT / "host/hocsimbur.3").read_text("ascii")
        for name in exported:
            self.assertIn(f"{name}(", manual)

    def test_limits(self):
        said = dict(re.findall(r"#define HOCSIMBUR_(\w+) +(\d+)", self.text))
        wanted = {"VERSION": entries.VERSION, "LINES": calc.MAX_VALUE_LINES, "SHEET_BYTES": calc.MAX_BYTES, "NUMBERS": calc.ROW_LENGTH,
                  "ROW_BYTES": row_entry.LINE_BYTES, "STATION_NUMBERS": summary.STATION_LENGTH, "LICENCE_NUMBERS": 3, "RELEASE_NUMBERS": release.ENTRY_LENGTH,
                 
                  "SOIL_NUMBERS": 7, "SPLIT_NUMBERS": 3, "FEWEST_NUMBERS": 3,
                  "MARGIN_NUMBERS": entries.WIDTHS["margins"], "WORKING_NUMBERS": entries.WIDTHS["working"],
                  "HEADROOM_NUMBERS": entries.WIDTHS["headroom"]}
        self.assertEqual({name: int(number) for name, number in said.items()}, wanted)
        self.assertEqual(re.search(r"VERSION: u32 = (\d+)", self.source)[1], said["VERSION"])
        self.assertIn('"hocsimbur 2.0.0"', (ROOT / "host/hocsimbur.3").read_text("ascii"))

    def test_stack(self):
        said = re.findall(r"less than (\d+) kB", self.text)
        held = re.findall(r"MOST_(?:\w+_)?STACK = (\d+)", (ROOT / "host/stack.c").read_text("ascii"))
        self.assertEqual(sorted(1000 * int(number) for number in said), sorted(map(int, held)))

    def test_refusals(self):
        numbers = [int(number) for number in re.findall(r"HOCSIMBUR_REFUSED_\w+ = (\d+)", self.text)]
        self.assertEqual(numbers, list(range(1, 24)))

    def test_sheet(self):
        """Names and ranges stand in the header as the calculator has them."""
        lines = dict(re.findall(r"^ \*   (\w+) .*?((?:0 or )?\d+(?:\.\.\d+| or \d+))$", self.text, re.M))
        self.assertEqual(list(lines), [name for name in calc.NAMES if name != "place"])
        for name, said in lines.items():
            numbers = list(map(int, re.findall(r"\d+", said)))
            column = calc.SPANS[name]
            for number in numbers:
                self.assertTrue(any(number in (part[0], part[-1]) for part in column), (name, said, column))

    def test_places(self):
        listed = re.search(r"enum hocsimbur_number \{(.*?)\}", self.text, re.S)[1]
        places = re.findall(r"HOCSIMBUR_(\w+)", listed)
        wanted = ["STATION", "SEASON", "VERDICT", "KCMIL"]
        wanted += [f"{name.upper()}_{end}" for name in calc.Ends._fields for end in ("LOWER", "UPPER")]
        self.assertEqual(places, wanted)

    def test_quantities(self):
        listed = re.search(r"enum hocsimbur_quantity \{(.*?)\}", self.text, re.S)[1]
        wanted = [f"{name.upper()}_{end}" for name in working.Working._fields for end in ("LOWER", "UPPER")]
        self.assertEqual(re.findall(r"HOCSIMBUR_(\w+)", listed), wanted)


class Released(unittest.TestCase):
    """The judge of a release asked from C sees wrong numbers, on a station of two safe lines."""

    CASE = Case(7, 1, 100, 2500, 102, 500, 500, 500, 70, 3180, 600, 10, 11, 11, 7000, 500, 100, 0, 0, 0, 1, 60)

    @classmethod
    def setUpClass(cls):
        cls.cases = [cls.CASE, cls.CASE._replace(season=2, soil=60)]
        cls.rows = [calc.row_at(case, DEPTH) for case in cls.cases]
        cls.fault = next(fault for fault in range(9000, 11000) if release.fault_is_right(cls.cases, fault))

    def wrong(self, *numbers):
        return not entries.released([7, 3, 0], self.cases, self.rows, list(numbers))

    def test_right(self):
        self.assertFalse(self.wrong(7, 1, 0, 0, 0, 0, 0, self.fault))

    def test_wrong(self):
        right = [7, 1, 0, 0, 0, 0, 0, self.fault]
        for place in range(8):
            for by in (1, 1000) if place == 7 else (1,):
                numbers = [*right[:place], right[place] + (by if place < 7 else by + 99), *right[place + 1:]]
                self.assertTrue(self.wrong(*numbers), numbers)
        self.assertTrue(self.wrong(*right[:7], 0))
        self.assertTrue(self.wrong(*right[:7], self.fault - 100))


class Stub:
    """Stands for the library: the rows are the calculator's own, and every other entry answers what is set."""

    answer, numbers = 0, []

    def ask(self, name, read, written):
        if name != "rows_at":
            return self.answer, [self.numbers]
        rows = [calc.row_at(case, DEPTH) for case in calc.read_sheet(read[0][1])]
        return len(rows), [b"".join(row_entry.ROW.pack(*row) for row in rows)]


class LineNumbers(unittest.TestCase):
    """The judges of margins, working and headroom asked from C see wrong numbers, on two lines of document 01's sample yard."""

    CASES = margins.seasons(7, [(1, margins.SAMPLE), (2, margins.SAMPLE._replace(soil=100))])
    SHEET = sheets.sheet_of(CASES)

    def parts(self, name):
        """Right numbers of each line, from the calculators."""
        if name == "margins":
            return [list(margins.margin_of(calc.row_at(case, DEPTH))[3:]) for case in self.CASES]
        if name == "headroom":
            return [[headroom.between(case)[1]] for case in self.CASES]
        return [[end for some, pair in zip(working.QUANTITIES, working.working(case, DEPTH))
                 for end in (floor(pair.lower * some.units), ceil(pair.upper * some.units))] for case in self.CASES]

    def wrong(self, name, numbers, room=None, answer=2, sheet=None):
        library, judge = Stub(), getattr(entries, name + "_wrong")
        library.answer, library.numbers = answer, numbers
        sheet = self.SHEET if sheet is None else sheet
        return entries.line_wrong(library, name, judge, sheet, calc.read_sheet(sheet), len(numbers) if room is None else room)

    def test_right(self):
        for name in entries.WIDTHS:
            self.assertEqual(self.wrong(name, sum(self.parts(name), []) + [entries.FILL]), [])

    def test_wrong_number(self):
        for name, width in entries.WIDTHS.items():
            right = sum(self.parts(name), [])
            for place in range(2 * width):
                wrong = [*right[:place], right[place] + right[place] // 1000 + 10, *right[place + 1:]]
                self.assertTrue(self.wrong(name, wrong), (name, place))

    def test_wrong_order(self):
        for name in entries.WIDTHS:
            first, second = self.parts(name)
            self.assertTrue(self.wrong(name, second + first))
            self.assertTrue(self.wrong(name, first + first))
        first, second = self.parts("margins")
        self.assertTrue(self.wrong("margins", first[::-1] + second))

    def test_wrong_array(self):
        for name, width in entries.WIDTHS.items():
            right = sum(self.parts(name), [])
            self.assertTrue(self.wrong(name, right, answer=1))
            self.assertTrue(self.wrong(name, right, answer=Refusal(8, 0, 0)))
            self.assertTrue(self.wrong(name, right + [0]))
            self.assertTrue(self.wrong(name, [*right[:-1]]))
            short = [entries.FILL] * (2 * width - 1)
            self.assertEqual(self.wrong(name, short, answer=Refusal(8, 0, 0)), [])
            self.assertTrue(self.wrong(name, [0, *short[1:]] if width > 1 else [0], answer=Refusal(8, 0, 0)))
            self.assertTrue(self.wrong(name, short, answer=Refusal(8, 1, 0)))

    def test_refused(self):
        sheet = self.SHEET.replace(b"season", b"month")
        refusal = calc.read_sheet(sheet)
        for name in entries.WIDTHS:
            self.assertEqual(self.wrong(name, [entries.FILL] * 3, answer=refusal, sheet=sheet), [])
            self.assertTrue(self.wrong(name, [entries.FILL, 0, entries.FILL], answer=refusal, sheet=sheet))
            self.assertTrue(self.wrong(name, [entries.FILL] * 3, answer=2, sheet=sheet))


if __name__ == "__main__":
    unittest.main()
