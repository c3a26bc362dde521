"""Refusals of sheets and of records, and the calculator as a command."""

import io
import random
import subprocess
import sys
import unittest
from fractions import Fraction
from pathlib import Path
from unittest import mock

from tests.calculator import calculator as calc
from tests.calculator.calculator import Pair, Refusal
from tests.calculator.samples import (
    HEADER, OLD_HEADER, OLD_LINE, RODDED, SAMPLE_LINES, YARD, column_of, text, value_line, sheet_of,
    random_case,
)

COMMAND = Path(__file__).with_name("calculator.py")


class Refusals(unittest.TestCase):
    def assert_refused(self, sheet, *place, table=None):
        self.assertEqual(calc.read_sheet(sheet, table), Refusal(*place))

    def test_1_size_and_last_byte(self):
        good = sheet_of(SAMPLE_LINES[0])
        self.assert_refused(b"", 1, 0, 0)
        self.assert_refused(good[:-1], 1, 0, 0)
        self.assert_refused(good + b"7", 1, 0, 0)
        self.assert_refused(good + b"\r", 1, 0, 0)
        self.assert_refused(b"x" * 65535 + b"\n", 2, 1, 1)
        self.assert_refused(b"x" * 65536 + b"\n", 1, 0, 0)

    def test_2_names(self):
        names = HEADER.split(",")
        line = SAMPLE_LINES[0]
        for column in range(1, calc.COLUMN_COUNT + 1):
            for wrong in ("", "Season", "seasons", " season", "station\r"):
                bad = names[: column - 1] + [wrong] + names[column:]
                self.assert_refused(sheet_of(line, header=",".join(bad)), 2, 1, column)
            fewer = ",".join(names[: column - 1])
            self.assert_refused(sheet_of(line, header=fewer), 2, 1, column)

    def test_2_repeated_name_is_refused_where_it_is_repeated(self):
        names = HEADER.split(",")
        names[9] = "soil"
        self.assert_refused(sheet_of(SAMPLE_LINES[0], header=",".join(names)), 2, 1, 10)
        names[4] = "nobody"
        self.assert_refused(sheet_of(SAMPLE_LINES[0], header=",".join(names)), 2, 1, 5)

    def test_2_leftmost_comes_before_a_missing_column(self):
        self.assert_refused(sheet_of(header="station,Season"), 2, 1, 2)
        self.assert_refused(sheet_of(header="station,season"), 2, 1, 3)
        self.assert_refused(sheet_of(header="station,"), 2, 1, 2)

    def test_2_surplus_name(self):
        for more in ("station", "other", ""):
            self.assert_refused(sheet_of(header=HEADER + "," + more), 2, 1, 23)

    def test_2_no_frequency(self):
        """Sheets of the 21 names before request (d) lack the last column."""
        names, values = HEADER.split(","), SAMPLE_LINES[0].split(",")
        self.assertEqual((names.pop(), values.pop()), ("hz", "60"))
        for at in range(len(names)):
            turned = ",".join(names[at:] + names[:at]), ",".join(values[at:] + values[:at])
            self.assert_refused(sheet_of(turned[1], header=turned[0]), 2, 1, 22)
            self.assertEqual(calc.read_sheet(text(turned[0] + ",hz", turned[1] + ",60")), [YARD])

    def test_2_names_of_document_01(self):
        """One time, one count of lines, or both: refused at the leftmost of them."""
        one_count = OLD_HEADER.replace("ms", "shock,clear,wire")
        one_time = OLD_HEADER.replace("lines", "across,along")
        self.assertEqual(one_count.replace("lines", "across,along") + ",hz", HEADER)
        self.assert_refused(sheet_of(OLD_LINE, header=OLD_HEADER), 2, 1, 6)
        for header, column in ((OLD_HEADER, 6), (one_time, 6), (one_count, 13)):
            self.assert_refused(sheet_of(header=header), 2, 1, column)
            names = header.split(",")
            for at in range(len(names)):  # the columns turned round, so that each stands first
                turned = names[at:] + names[:at]
                column = min(turned.index(name) + 1 for name in ("ms", "lines") if name in turned)
                self.assert_refused(sheet_of(",".join("1" * len(names)), header=",".join(turned)),
                                    2, 1, column)

    def test_2_a_name_of_document_01_next_to_the_new_ones(self):
        for old, new in (("ms", calc.CLOCKS), ("lines", calc.COUNTS)):
            self.assert_refused(sheet_of(SAMPLE_LINES[0] + ",11", header=HEADER + "," + old), 2, 1, 23)
            self.assert_refused(sheet_of("11," + SAMPLE_LINES[0], header=old + "," + HEADER), 2, 1, 1)
            for name in new:
                header = HEADER.replace(name, old)
                self.assert_refused(sheet_of(SAMPLE_LINES[0], header=header), 2, 1, column_of(name))

    def test_3_forms(self):
        for wrong in ("", "00", "01", "0500", "1000000", "0000000", "+1", "-1", "1.0",
                      " 1", "1 ", "1\r", "x", "1_0", "0x1"):
            for column, name in enumerate(calc.NAMES, start=1):
                line = value_line(**{name: wrong})
                self.assert_refused(sheet_of(line), 3, 2, column)

    def test_3_bytes_that_other_readers_take_for_digits(self):
        for digit in "\u0661\u00b2\uff11":
            line = SAMPLE_LINES[0].encode() + digit.encode("utf-8")
            self.assert_refused(text(HEADER) + line + b"\n", 3, 2, calc.COLUMN_COUNT)

    def test_3_six_digits_have_right_form(self):
        self.assert_refused(sheet_of(value_line(station=999999)), 5, 2, 1)

    def test_3_too_few_and_too_many(self):
        values = SAMPLE_LINES[0].split(",")
        for count in range(1, calc.COLUMN_COUNT):
            self.assert_refused(sheet_of(",".join(values[:count])), 3, 2, count + 1)
        self.assert_refused(sheet_of(OLD_LINE), 3, 2, 19)
        self.assert_refused(sheet_of(",".join(values[:-1])), 3, 2, 22)
        self.assert_refused(sheet_of(",".join(values + ["1"])), 3, 2, 23)
        self.assert_refused(sheet_of(",".join(values + ["x", "1"])), 3, 2, 23)
        self.assert_refused(sheet_of(SAMPLE_LINES[0] + ","), 3, 2, 23)
        self.assert_refused(sheet_of(",".join(values[:-1] + ["x", "1"])), 3, 2, calc.COLUMN_COUNT)
        self.assert_refused(sheet_of(",".join(values[:4] + ["x"])), 3, 2, 5)

    def test_3_empty_line(self):
        self.assert_refused(sheet_of(""), 3, 2, 1)
        self.assert_refused(sheet_of(SAMPLE_LINES[0], "", SAMPLE_LINES[1]), 3, 3, 1)
        self.assert_refused(sheet_of(*SAMPLE_LINES, ""), 3, 4, 1)

    def test_4_line_counts(self):
        self.assert_refused(sheet_of(), 4, 2, 0)
        self.assert_refused(sheet_of(*[""] * 257), 4, 258, 0)
        self.assert_refused(sheet_of(*[""] * 400), 4, 258, 0)
        self.assert_refused(sheet_of(*[""] * 256), 3, 2, 1)

    def test_5_every_range(self):
        outside = {
            "station": (0, 65536), "season": (0, 5), "soil": (9, 5001),
            "layer": (1, 99, 10001), "thick": (1, 19, 301), "shock": (8, 3001),
            "clear": (8, 3001), "wire": (8, 3001),
            "body": (49, 51, 60, 69, 71), "fault": (99, 80001), "split": (0, 1001),
            "xr": (0, 41), "across": (1, 26), "along": (1, 26), "space": (2499, 30001),
            "depth": (249, 2501), "dia": (49, 301), "rods": (201,),
            "rodlen": (1, 999, 10001), "place": (3,), "metal": (0, 12),
            "hz": (0, 49, 51, 55, 59, 61, 6, 600),
        }
        self.assertEqual(tuple(outside), calc.NAMES)
        for column, (name, values) in enumerate(outside.items(), start=1):
            for value in values:
                self.assert_refused(sheet_of(value_line(RODDED, **{name: value})), 5, 2, column)

    def test_5_every_range_end_passes(self):
        inside = {
            "station": (1, 65535), "season": (1, 4), "soil": (10, 5000),
            "layer": (100, 10000), "thick": (20, 300), "shock": (9, 3000),
            "clear": (9, 3000), "wire": (9, 3000),
            "body": (50, 70), "fault": (100, 80000), "split": (1, 1000),
            "xr": (1, 40), "across": (2, 25), "along": (2, 25), "space": (2500, 30000),
            "depth": (250, 2500), "dia": (50, 300), "rods": (1, 200),
            "rodlen": (1000, 10000), "place": (1, 2), "metal": (1, 11), "hz": (50, 60),
        }
        self.assertEqual(tuple(inside), calc.NAMES)
        for name, values in inside.items():
            for value in values:
                case = RODDED._replace(**{name: value})
                self.assertEqual(calc.read_sheet(sheet_of(value_line(case))), [case])

    def test_6_groups_disagree(self):
        self.assert_refused(sheet_of(value_line(layer=0)), 6, 2, 4)
        self.assert_refused(sheet_of(value_line(thick=0)), 6, 2, 4)
        for count, length, place in (
            (1, 0, 0), (0, 1000, 0), (0, 0, 1), (1, 1000, 0), (1, 0, 2), (0, 1000, 1),
        ):
            line = value_line(rods=count, rodlen=length, place=place)
            self.assert_refused(sheet_of(line), 6, 2, column_of("rods"))
            self.assert_refused(sheet_of(value_line(rods=count, rodlen=length, place=place,
                                                    layer=0)), 6, 2, 4)

    def test_7_station_and_season_repeated(self):
        other = value_line(station=8)
        self.assert_refused(sheet_of(SAMPLE_LINES[0], other, value_line(soil=10)), 7, 4, 0)
        self.assertEqual(len(calc.read_sheet(sheet_of(*SAMPLE_LINES, other))), 3)

    def test_8_short_table(self):
        sheet = sheet_of(*SAMPLE_LINES)
        for table in (0, 20, 34, 39):  # 34 was enough before request (d)
            self.assert_refused(sheet, 8, 0, 0, table=table)
        for table in (40, 41, None):
            self.assertEqual(len(calc.read_sheet(sheet, table)), 2)

    def test_order_of_numbers(self):
        good = SAMPLE_LINES[0]
        # 1 before 2, 2 before 4, 4 before 3
        self.assert_refused(b"nobody", 1, 0, 0)
        self.assert_refused(b"nobody\n", 2, 1, 1)
        self.assert_refused(text("nobody", *["x"] * 257), 2, 1, 1)
        self.assert_refused(sheet_of("x", *["x"] * 256), 4, 258, 0)
        # within a line 3, 5, 6, 7, whatever the columns
        self.assert_refused(sheet_of(value_line(station=0, metal="x")), 3, 2, column_of("metal"))
        self.assert_refused(sheet_of(value_line(layer=0, metal=12)), 5, 2, column_of("metal"))
        self.assert_refused(sheet_of(good, value_line(layer=0)), 6, 3, 4)
        self.assert_refused(sheet_of(good, good), 7, 3, 0)
        # line by line before the number
        self.assert_refused(sheet_of(value_line(layer=0), value_line(metal="x")), 6, 2, 4)
        self.assert_refused(sheet_of(good, good, "x"), 7, 3, 0)
        # 8 comes last
        self.assert_refused(sheet_of(good, good), 7, 3, 0, table=0)
        self.assert_refused(sheet_of(), 4, 2, 0, table=0)

    def test_leftmost_within_a_number(self):
        self.assert_refused(sheet_of(value_line(soil="x", station="y")), 3, 2, 1)
        self.assert_refused(sheet_of(value_line(metal=0, body=60, xr=0)), 5, 2, column_of("body"))
        self.assert_refused(sheet_of(value_line(metal=0, hz=55)), 5, 2, column_of("metal"))

    def test_columns_follow_the_header(self):
        names = calc.NAMES[::-1]
        header = ",".join(names)
        self.assertEqual(calc.read_sheet(sheet_of(value_line(names=names), header=header)), [YARD])
        for changes, place in (
            ({"station": "x"}, (3, 2, calc.COLUMN_COUNT)),
            ({"station": 0, "hz": 55}, (5, 2, 1)),
            ({"layer": 0}, (6, 2, names.index("layer") + 1)),
            ({"rods": 1}, (6, 2, names.index("rods") + 1)),
            ({"layer": 0, "rods": 1}, (6, 2, names.index("layer") + 1)),  # layer before rods
        ):
            line = value_line(names=names, **changes)
            self.assert_refused(sheet_of(line, header=header), *place)

    def test_random_column_orders(self):
        rng = random.Random(3)
        for _ in range(50):
            names = rng.sample(calc.NAMES, calc.COLUMN_COUNT)
            case = random_case(rng)
            sheet = sheet_of(value_line(case, names), header=",".join(names))
            self.assertEqual(calc.read_sheet(sheet), [case])


class Records(unittest.TestCase):
    def test_accepted(self):
        self.assertIsNone(calc.check_record(YARD))
        self.assertIsNone(calc.check_record(list(RODDED)))

    def test_refused(self):
        for changes, number, column in (
            ({"station": 0, "metal": 0}, 5, 1),
            ({"metal": 99}, 5, 21),
            ({"metal": 12, "hz": 0}, 5, 21),
            ({"hz": 55}, 5, 22),
            ({"hz": 61, "layer": 0}, 5, 22),
            ({"shock": 8, "clear": 8}, 5, 6),
            ({"clear": 3001, "wire": 3001}, 5, 7),
            ({"wire": 8, "body": 60}, 5, 8),
            ({"across": 26, "along": 1}, 5, 13),
            ({"along": 1, "space": 0}, 5, 14),
            ({"depth": 249, "layer": 0}, 5, 16),
            ({"layer": 0, "rods": 1}, 6, 4),
            ({"rods": 1}, 6, 18),
            ({"fault": 2**64}, 5, 10),
            ({"soil": -400}, 5, 3),
        ):
            refusal = calc.check_record(YARD._replace(**changes))
            self.assertEqual(refusal, Refusal(number, 0, column))

    def test_logarithm(self):
        most = 10**15
        self.assertIsNone(calc.check_ln(1, most))
        self.assertIsNone(calc.check_ln(most, 1))
        self.assertEqual(calc.check_ln(0, 1), Refusal(5, 0, 1))
        self.assertEqual(calc.check_ln(most + 1, 0), Refusal(5, 0, 1))
        self.assertEqual(calc.check_ln(1, 0), Refusal(5, 0, 2))
        self.assertEqual(calc.check_ln(1, most + 1), Refusal(5, 0, 2))


class Command(unittest.TestCase):
    def run_command(self, sheet, *arguments):
        done = subprocess.run([sys.executable, str(COMMAND), *arguments], input=sheet,
                              capture_output=True, check=True)
        return done.stdout.decode("ascii")

    def test_sample_sheet(self):
        lines = self.run_command(sheet_of(*SAMPLE_LINES)).splitlines()
        self.assertEqual(len(lines), 3)
        first = dict(zip(lines[0].split(","), lines[1].split(",")))
        self.assertEqual(first["kcmil"], "17")
        self.assertEqual(first["factor_lower"], "1026183047.851000")
        self.assertEqual(first["factor_upper"], "1026183047.852000")
        self.assertEqual(first["current_lower"], "1957957255.299708")
        self.assertEqual(first["current_upper"], "1957957255.301616")
        self.assertEqual(first["mesh_lower"], "1027839.639263")
        self.assertEqual(first["mesh_upper"], "1027839.639266")
        self.assertEqual(first["tolerable_touch_lower"], "840547.932321")
        self.assertEqual(first["resistance_lower"][:8], "2775693.")

    def test_refusals(self):
        sheet = sheet_of(*SAMPLE_LINES)
        self.assertEqual(self.run_command(sheet, "--table", "39"), "refused,8,0,0\n")
        self.assertEqual(self.run_command(sheet[:-1]), "refused,1,0,0\n")

    def test_depth(self):
        sheet = sheet_of(*SAMPLE_LINES)
        self.assertEqual(self.run_command(sheet, "--depth", "4"), calc.answer_text(sheet, 4))
        self.assertEqual(calc.answer_text(sheet), calc.answer_text(sheet, 12))
        self.assertNotEqual(calc.answer_text(sheet, 4), calc.answer_text(sheet, 12))
        lines = calc.answer_text(sheet_of(SAMPLE_LINES[0]), 3).splitlines()
        shallow = dict(zip(lines[0].split(","), lines[1].split(",")))
        # (1000 + 1.5 * 13000/7) * 0.157 V over 0.708 and 0.707, by hand
        self.assertEqual(shallow["tolerable_touch_lower"], "839487.489911")
        self.assertEqual(shallow["tolerable_touch_upper"], "840674.883815")
        with mock.patch("sys.stderr", io.StringIO()):
            self.assertRaises(SystemExit, calc.main, ["--depth", "2"])

    def test_decimals_round_outward_below_zero(self):
        pair = Pair(Fraction(-1, 3), Fraction(1, 3))
        self.assertEqual(calc.shown_ends(pair, 1), ("-0.333334", "0.333334"))
        self.assertEqual(calc.shown_ends(-2 * pair, 1), ("-0.666667", "0.666667"))


if __name__ == "__main__":
    unittest.main()
