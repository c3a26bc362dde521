"""The library for programs in Python: the core's answers in other units, yards of any number, and refusals as exceptions."""
from __future__ import annotations

import decimal
import subprocess
import sys
import unittest
from dataclasses import fields
from fractions import Fraction

import hocsimbur
from hocsimbur import core, library
from hocsimbur.sheets import layout

from .common import PYTHON, ROOT, SAMPLE
from .portfolios import CASES, SHEET, case


def raised(question, *arguments) -> hocsimbur.Refused:
    """What a question raises."""
    try:
        question(*arguments)
    except hocsimbur.Refused as refused:
        return refused
    raise AssertionError("nothing is refused")


MANY = [dict(case(101, 1 + place % 4), station=1 + place // 4, season=1 + place % 4, soil=100 + place) for place in range(1000)]


class Answers(unittest.TestCase):
    def test_rows(self):
        for row, whole in zip(hocsimbur.rows(CASES), core.rows(SHEET)):
            self.assertEqual((row.station, row.season, row.verdict, row.kcmil, row.whole),
                             (whole.station, whole.season, whole.verdict, whole.kcmil, whole))
            scales = dict(current=6, factor=9, resistance=6)
            for field in fields(core.Row)[4:]:
                pair, scale = getattr(whole, field.name), scales.get(field.name, 3)
                self.assertEqual(getattr(row, field.name), (Fraction(pair.lower, 10 ** scale), Fraction(pair.upper, 10 ** scale)), field.name)

    def test_the_sample_in_volts(self):
        row = hocsimbur.rows(layout.cases(SAMPLE))[0]
        self.assertEqual([float(end) for end in row.mesh + row.tolerable_touch], [1027.839, 1027.841, 840.547, 840.548])
        self.assertTrue(1957 < row.current.lower < row.current.upper < 1958 and 2.77 < row.resistance.lower < 2.78 and 5434 < row.rise.lower < 5435)

    def test_verdicts_margins_headroom(self):
        rows = core.rows(SHEET)
        self.assertEqual([(one.station, one.season, one.verdict, one.kcmil) for one in hocsimbur.verdicts(CASES)],
                         [(row.station, row.season, row.verdict, row.kcmil) for row in rows])
        for one, whole, row in zip(hocsimbur.margins(CASES), core.margins(SHEET), rows):
            self.assertEqual((one.station, one.season, 1000 * one.mesh, 1000 * one.step, one.whole), (row.station, row.season, whole.mesh, whole.step, whole))
        self.assertEqual(hocsimbur.headroom(CASES), core.headroom(SHEET))
        never = case(101, 1, soil=5000, layer=0, thick=0, across=2, along=2, shock=3000, split=1000, rods=0, rodlen=0, place=0)
        self.assertEqual(hocsimbur.headroom([never]), [None])

    def test_working(self):
        for one, whole in zip(hocsimbur.working(CASES), core.working(SHEET)):
            self.assertEqual(one.whole, whole)
        one = hocsimbur.working(layout.cases(SAMPLE))[0]
        self.assertEqual((one.lc, one.n, one.side), ((1540, 1540), (11, 11), (70, 70)))
        for name, value in (("cs", 0.74), ("root_time", 0.7071), ("ki", 2.272), ("kii", 0.57), ("kh", 1.225), ("km", 0.89), ("ks", 0.41), ("lt", 1540),
                            ("lm", 1540), ("ls", 1155), ("lr", 0)):
            self.assertAlmostEqual(float(getattr(one, name).lower), value, delta=0.01, msg=name)
        for yard, one, row in zip(CASES, hocsimbur.working(CASES), hocsimbur.rows(CASES)):
            self.assertEqual(one.lr, (Fraction(yard["rods"] * yard["rodlen"], 1000),) * 2)
            self.assertTrue(one.lt.lower <= one.lc.upper + one.lr.upper and one.lc.lower + one.lr.lower <= one.lt.upper)
            self.assertAlmostEqual(float(one.driven.lower * one.km.lower), float(row.mesh.lower), delta=0.05)
        self.assertEqual(set(library._SCALES), {field.name for field in fields(core.Working)})

    def test_any_number_of_yards(self):
        rows = hocsimbur.rows(MANY)
        self.assertEqual([(row.station, row.season) for row in rows], [(one["station"], one["season"]) for one in MANY])
        self.assertEqual(rows[777].whole, core.rows(layout.text([MANY[777]]))[0])
        self.assertEqual(hocsimbur.rows([]), [])
        self.assertEqual(len(hocsimbur.carry(hocsimbur.carry_back([dict(one, shock=500, clear=500, wire=500) for one in MANY]))), 1000)

    def test_release(self):
        found = hocsimbur.release(CASES, {104: {1, 2}, 101: (4, 3, 2, 1), 9: [1]})
        for one, answer in zip(found, core.release(SHEET, [(104, 3), (101, 15), (9, 1)])):
            for field in fields(core.Release):
                self.assertEqual(getattr(one, field.name), getattr(answer, field.name))
        self.assertEqual([(one.station, one.wire_to) for one in found], [(104, 33620), (101, 37991), (9, 0)])
        self.assertEqual(found[0].sentence, "season 2: mesh 18.0 % above tolerable touch; voltages safe up to 3,476 A; wire up to 33,620 A")
        self.assertEqual([one.station for one in hocsimbur.release(CASES)][:3], [101, 104, 110])
        self.assertEqual(len(hocsimbur.release(CASES, {188: {1, 2, 3}})[0].cautions), 1)

    def test_measurements(self):
        soil = hocsimbur.soil([(1, 10), ("2", Fraction(3)), (3.0, decimal.Decimal(1))])
        self.assertEqual((soil.soil, soil.whole, float(soil.least.lower)), (40, core.soil([(1000, 10000), (2000, 3000), (3000, 1000)]), 18.849555))
        self.assertEqual(hocsimbur.soil([(0.7, 0.1)]).whole, core.soil([(700, 100)]))
        split = hocsimbur.split((1000, 0), [(400, 0), (0.001, "-0.5")])
        self.assertEqual((split.in_phase, split.quadrature, split.split, split.per_mille), (Fraction(599999, 1000), Fraction(1, 2), Fraction(600, 1000), 600))

    def test_fewest_and_carry(self):
        yard = next(one for one in layout.cases((ROOT / "examples" / "rods.csv").read_bytes()) if one["station"] == 303)
        self.assertEqual(hocsimbur.fewest(yard, 60000), core.fewest(layout.text([yard]), 60000))
        back = hocsimbur.carry_back(layout.cases(SAMPLE))
        self.assertEqual(layout.text(back), core.carry_back(SAMPLE))
        self.assertEqual(hocsimbur.carry(back), layout.cases(SAMPLE))

    def test_numbers_of_any_kind(self):
        plain = hocsimbur.rows([CASES[0]])
        for kind in (float, Fraction, decimal.Decimal, str):
            self.assertEqual(hocsimbur.rows([{name: kind(value) for name, value in CASES[0].items()}]), plain)
        self.assertEqual(hocsimbur.rows(iter([dict(CASES[0], remark="x")])), plain)

    def test_version(self):
        self.assertEqual(hocsimbur.version(), core.version())


class Refusals(unittest.TestCase):
    def check(self, refused, said, number, line, column):
        self.assertEqual((str(refused), refused.number, refused.line, refused.column), (said, number, line, column))
        self.assertIsInstance(refused, ValueError)

    def test_of_yards(self):
        self.check(raised(hocsimbur.rows, [CASES[0], dict(CASES[1], depth=60)]), "[1], depth: 60 mm is not in 250..2500", 5, 1, "depth")
        self.check(raised(hocsimbur.rows, [dict(CASES[0], soil=187.5)]), "[0], soil: 187.5 is not a whole number of Ω·m; the cautious side is up", 0, 0, "soil")
        self.check(raised(hocsimbur.rows, [dict(CASES[0], split=0.6)]), "[0], split: 0.6 is not a whole number per mille, and it is not in 1..1000", 0, 0, "split")
        self.check(raised(hocsimbur.rows, [dict(CASES[0], rods=1.5)]), "[0], rods: 1.5 is not a whole number", 0, 0, "rods")
        for value in ("x", None, True, float("nan"), float("inf"), "4/0", 1j):
            self.check(raised(hocsimbur.rows, [dict(CASES[0], fault=value)]), f"[0], fault: {value!r} is no number; it must be a whole number of A", 0, 0, "fault")
        self.check(raised(hocsimbur.rows, [dict(CASES[0], fault=-5)]), "[0], fault: -5 has a sign; it must be a whole number of A, 100..80000", 3, 0, "fault")
        lacking = {name: value for name, value in CASES[0].items() if name != "soil"}
        self.assertTrue(str(raised(hocsimbur.rows, [lacking])).startswith("[0], soil: there is no soil; a yard has the names station, season, soil,"))

    def test_twice(self):
        said = "station 101, season 1 stands already in [0]; a station has one line for a season"
        self.check(raised(hocsimbur.rows, [CASES[0], CASES[1], dict(CASES[0], soil=77)]), "[2]: " + said, 7, 2, None)
        far = [dict(CASES[0], station=number) for number in range(1, 600)] + [dict(CASES[0], station=3)]
        self.assertEqual(str(raised(hocsimbur.rows, far)), "[599]: station 3, season 1 stands already in [2]; a station has one line for a season")
        self.assertEqual(raised(hocsimbur.release, far).line, 599)
        equal = [dict(one, shock=500, clear=500, wire=500) for one in far]
        self.assertEqual(raised(hocsimbur.carry_back, equal).line, 599)

    def test_of_licences(self):
        for licence, said in (({}, "the licence names no station"), ({0: {1}}, "licence: 0 is not a station's number in 1..65535"),
                              ({"x": {1}}, "licence: 'x' is not a station's number in 1..65535"),
                              ({7: ()}, "licence: the seasons of station 7 are []; they are some of 1, 2, 3 and 4"),
                              ({7: {5}}, "licence: the seasons of station 7 are [5]; they are some of 1, 2, 3 and 4"),
                              ({7: {True}}, "licence: the seasons of station 7 are [True]; they are some of 1, 2, 3 and 4")):
            self.assertEqual(str(raised(hocsimbur.release, CASES, licence)), said)
        self.assertEqual(str(raised(hocsimbur.release, [])), "there is no yard")

    def test_of_measurements(self):
        self.check(raised(hocsimbur.soil, [(1, 1), (0.4, 1)]), "[1], distance: 0.4 m is not in 0.5..50 m", 13, 1, "distance")
        self.check(raised(hocsimbur.soil, [(1, 1001)]), "[0], resistance: 1,001 Ω is not in 0.001..1,000 Ω", 14, 0, "resistance")
        self.check(raised(hocsimbur.soil, [(1, "0.0005")]), "[0], resistance: 0.0005 is not a whole number of milliohms", 0, 0, "resistance")
        self.check(raised(hocsimbur.soil, []), "there is no reading", 12, None, None)
        self.assertEqual(raised(hocsimbur.soil, [(-1, 1)]).line, 0)
        self.assertEqual(raised(hocsimbur.split, (0, 0), [(1, 0)]).number, 19)
        self.assertEqual(raised(hocsimbur.split, (2 ** 62, 0), [(1, 0)]).words, "a part is in -1,000..1,000 A")
        self.assertEqual(raised(hocsimbur.split, (1, "x"), [(1, 0)]).column, "quadrature")
        self.check(raised(hocsimbur.split, (1, 0), [("0.0001", 0)]), "[1], in-phase: 0.0001 is not a whole number of mA", 0, 1, "in-phase")
        self.check(raised(hocsimbur.split, (1, 0), [(0, "0.0001")]), "[1], quadrature: 0.0001 is not a whole number of mA", 0, 1, "quadrature")
        self.check(raised(hocsimbur.soil, [("x", 1)]), "[0], distance: 'x' is no number", 0, 0, "distance")
        self.check(raised(hocsimbur.soil, [(1, 2 ** 33)]), "[0]: a distance is in 0.5..50 m, a resistance in 0.001..1,000 ohms", 0, 0, None)
        self.assertEqual(raised(hocsimbur.soil, [(0, 1)]).number, 13)

    def test_of_a_side(self):
        self.assertEqual(raised(hocsimbur.fewest, CASES[0], 1).number, 15)
        self.assertEqual(raised(hocsimbur.fewest, CASES[0], 0).number, 15)
        self.assertEqual([raised(hocsimbur.fewest, CASES[0], side).number for side in (2 ** 32 - 1, 2 ** 32, -1)], [15, 0, 0])
        self.assertEqual(raised(hocsimbur.fewest, dict(CASES[0], rods=0, rodlen=0, place=0), 60000).number, 16)
        self.assertEqual(str(raised(hocsimbur.fewest, CASES[0], 1.5)), "the side 1.5 is not a whole number of mm, 2500..720000")
        self.assertEqual(raised(hocsimbur.fewest, dict(CASES[0], depth=1), 60000).column, "depth")

    def test_of_carry_far_down(self):
        yards = [dict(CASES[0], station=number, shock=500, clear=500, wire=500) for number in range(1, 401)]
        refused = raised(hocsimbur.carry_back, [*yards[:300], dict(yards[300], hz=50), *yards[301:]])
        self.assertEqual((refused.number, refused.line, refused.column, refused.words), (11, 300, None, "50 Hz; the former sheet is for 60 Hz alone"))
        self.assertEqual(raised(hocsimbur.carry_back, [dict(yards[0], shock=9)]).line, 0)

    def test_of_carry(self):
        self.assertEqual(raised(hocsimbur.carry_back, [dict(CASES[0], shock=1 + CASES[0]["clear"])]).number, 9)
        self.assertEqual(raised(hocsimbur.carry, [dict(hocsimbur.carry_back(layout.cases(SAMPLE))[0], ms=5)]).column, "ms")


class Module(unittest.TestCase):
    def test_all(self):
        for name in hocsimbur.__all__:
            self.assertTrue(getattr(hocsimbur, name).__doc__, name)
            self.assertIn(name, dir(hocsimbur))
        with self.assertRaises(AttributeError):
            hocsimbur.nothing
        self.assertTrue((PYTHON / "hocsimbur" / "py.typed").exists())

    def test_nothing_is_imported_before_it_is_asked_for(self):
        code = "import sys, hocsimbur; print('hocsimbur.core' in sys.modules); hocsimbur.Refused; print('hocsimbur.core' in sys.modules)"
        done = subprocess.run([sys.executable, "-c", code], cwd=PYTHON, capture_output=True, text=True, check=True)
        self.assertEqual(done.stdout, "False\nTrue\n")


if __name__ == "__main__":
    unittest.main()
