"""Four-pin readings and staged tests: exact or refused, and a split that is never too small."""
from __future__ import annotations

import math
import random
import unittest
from fractions import Fraction

from hocsimbur import core
from hocsimbur.sheets import amounts, site
from hocsimbur.core import Pair

from .common import NAMES, run

# IEEE Std 81.2, the table of section 10.4: currents in A and degrees of 1000 A injected; the induced current of the second ground wire
# flows towards the grid, so that it counts negative
TABLE = {
    (202, "200∠22.5°"): ["1000@0", "199@-19.9", "452@7.4", "199@-19.9", "-8.5@-5.4"],
    (319, "318∠8.4°"): ["1000@0", "103@-30.5", "519@6.6", "103@-30.5", "-8.3@0.6"],
    (369, "369∠−4.5°"): ["1000@0", "38@-42.8", "589@7.8", "38@-42.8", "-6.8@2.6"],
}


class Amounts(unittest.TestCase):
    def test_exact(self):
        for text, millimetres in (("70m", 70000), ("70000mm", 70000), ("70000", 70000), ("0.5 m", 500), (" 2.500m ", 2500), ("70.m", 70000)):
            self.assertEqual(amounts.length(text), millimetres)

    def test_refused(self):
        for text in ("70.0005m", "70,5m", "1,000m", "70km", "m", "", "1e3", "0.5mm", "7" * 50, "½m", "７0m"):
            with self.assertRaises(amounts.Unclear, msg=text):
                amounts.length(text)

    def test_the_words_of_a_refusal(self):
        for question, text, words in (
                (amounts.decimal, " 1,000 ", "'1,000' has a comma; write thousands without one"),
                (amounts.decimal, "1,5", "'1,5' has a comma; write a decimal point"),
                (amounts.decimal, "1" * 41, f"'{'1' * 41}' is no number"),
                (amounts.length, "70km", "'70km' is no length; write for example 70m, 70000mm or 70000 (mm)"),
                (amounts.length, "0.0005 m", "0.0005 m is not a whole number of mm; it is not rounded"),
                (amounts.length, "0.5", "0.5 mm is not a whole number of mm; it is not rounded"),
                (amounts.voltage, "5MW", "'5MW' is no voltage; write for example 5kV, 5000V or 5000 (V)"),
                (amounts.voltage, "0.0001", "0.0001 V is not a whole number of mV; it is not rounded")):
            with self.assertRaises(amounts.Unclear) as caught:
                question(text)
            self.assertEqual(str(caught.exception), words)

    def test_the_longest_number(self):
        self.assertEqual(amounts.decimal("1" * 40), int("1" * 40))
        self.assertEqual([amounts.decimal(text) for text in ("5.", ".5", "+5", "\u22125.0")], [5, Fraction(1, 2), 5, -5])

    def test_twelve_decimals_are_shown(self):
        self.assertEqual(amounts.shown(Fraction(1, 10 ** 12)), "0.000000000001")
        self.assertEqual(amounts.shown(-Fraction(1, 10 ** 13)), "-0.000000…")

    def test_cosines_are_enclosed(self):
        for tenths in range(-3600, 3601, 37):
            lower, upper = amounts._cosine(Fraction(tenths, 10))
            self.assertLessEqual(lower, upper)
            self.assertLess(upper - lower, Fraction(1, 10 ** 20))
            self.assertLess(abs(float(lower) - math.cos(math.radians(tenths / 10))), 1e-12)

    def test_cosines_that_are_roots(self):
        """Cosines that solve an equation lie between the ends."""
        for degrees, equation in ((45, lambda c: 2 * c * c - 1), (30, lambda c: 4 * c * c - 3), (36, lambda c: 4 * c * c - 2 * c - 1),
                                  (72, lambda c: 4 * c * c + 2 * c - 1), (1, None), (89, None), (61, None), (59, None)):
            lower, upper = amounts._cosine(Fraction(degrees))
            self.assertLess(lower, upper)
            if equation:
                self.assertLess(equation(lower), 0)
                self.assertGreater(equation(upper), 0)

    def test_parts_of_every_angle(self):
        for degrees in range(-360, 361, 3):
            size = Fraction(1000)
            in_phase, quadrature = amounts.parts(size, Fraction(degrees))
            for part, exact in ((in_phase, 1000 * math.cos(math.radians(degrees))), (quadrature, 1000 * math.sin(math.radians(degrees)))):
                self.assertLessEqual(part.lower, exact + 1e-9)
                self.assertGreaterEqual(part.upper, exact - 1e-9)
                self.assertLessEqual(part.upper - part.lower, 1)

    def test_cosines_that_are_rational(self):
        for degrees, cosine in ((0, 1), (60, Fraction(1, 2)), (90, 0), (120, Fraction(-1, 2)), (180, -1), (270, 0), (300, Fraction(1, 2)),
                                (-60, Fraction(1, 2)), (360, 1)):
            self.assertEqual(amounts._cosine(Fraction(degrees)), (cosine, cosine))

    def test_pi(self):
        """Machin's formula, in whole numbers and rounded outward, gives the same ends."""
        scale = 10 ** 60

        def arctan(inverse: int) -> Fraction:
            return sum(Fraction((-1) ** k, (2 * k + 1) * inverse ** (2 * k + 1)) for k in range(50))
        pi = (16 * arctan(5) - 4 * arctan(239)) * scale
        self.assertLess(Fraction(amounts._PI.lower, amounts._SCALE) * scale, pi)
        self.assertGreater(Fraction(amounts._PI.upper, amounts._SCALE) * scale, pi)


class Readings(unittest.TestCase):
    def test_the_manual_s_example(self):
        done = run("wenner", "--csv", "--reading", "1,10", "--reading", "2,3", "--reading", "3,1")
        self.assertEqual((done.status, done.out.split("\n")[1]), (0, "18849555,18849557,62831853,62831854,39793506,39793508,40"))

    def test_decimals_are_exact(self):
        self.assertEqual(site.reading("1.5", "0.25"), (Pair(1500, 1500), Pair(250, 250)))
        self.assertEqual(site.ends(site.readings(b"metres,ohms\n1.5,0.25\n2,3\n")), ([(1500, 250), (2000, 3000)],) * 2)

    def test_feet_and_other_units(self):
        self.assertEqual(site.reading("10ft", "712.5 mohm"), (Pair(3048, 3048), Pair(712, 713)))
        for text, ends in (("712.5 mΩ", (712, 713)), ("2 Ω", (2000, 2000)), ("2 ohms", (2000, 2000)), ("2 ohm", (2000, 2000)), ("0.1kΩ", (100000, 100000)),
                           ("0.1 kohm", (100000, 100000)), ("0", (0, 0))):
            self.assertEqual(site.reading("1", text).resistance, ends, text)
        for text, ends in (("1 metres", (1000, 1000)), ("500mm", (500, 500)), ("50 cm", (500, 500)), ("10 feet", (3048, 3048)), ("10'", (3048, 3048)),
                           ("100 in", (2540, 2540)), ("4294967.294", (4294967294, 4294967294))):
            self.assertEqual(site.reading(text, "1").distance, ends, text)
        self.assertEqual(run("wenner", "--reading", "4294967.295,1").err, "reading 4294967.295,1: distance: 4294967.295 is far out of range\n")
        self.assertEqual(site.reading("3.3", "1", "ft"), (Pair(1005, 1006), Pair(1000, 1000)))
        self.assertEqual(site.readings("feet,ohms\n10,0.7125\n5 m,2 \u03a9\n".encode()),
                         [(Pair(3048, 3048), Pair(712, 713)), (Pair(5000, 5000), Pair(2000, 2000))])

    def test_readings_between_milliohms(self):
        """Both sides are asked; the ends enclose what the exact reading gives, and the soil is that of the upper side."""
        done = run("wenner", "--reading", "3.0005,0.7125", "--reading", "10ft,2")
        low, high = core.soil([(3000, 712), (3048, 2000)]), core.soil([(3001, 713), (3048, 2000)])
        self.assertEqual(done.err, "warning: the greatest apparent resistivity is over 2.8 times the least. IEEE Std 80, 13.4: \"If there is a large "
                         "variation in measured apparent resistivity, the uniform soil model is unlikely to yield accurate results.\" The standard "
                         "gives no number; this warning stands above 2 times.\n"
                         "note: 1 reading is no whole mm or mΩ; each was rounded to both sides, so that the ends hold the exact value, and the column "
                         "soil goes by the upper ends\n")
        self.assertIn("1         3 to 3.001 m  0.712 to 0.713 Ω     13.420     13.445\n2              3.048 m               2 Ω     38.302     38.303\n", done.out)
        self.assertEqual(run("wenner", "--csv", "--reading", "3.0005,0.7125", "--reading", "10ft,2").out.split("\n")[1],
                         ",".join(map(str, (low.least.lower, high.least.upper, low.greatest.lower, high.greatest.upper, low.mean.lower,
                                            high.mean.upper, high.soil))))

    def test_a_text_with_other_columns_and_marks(self):
        self.assertEqual(site.readings(b"\xef\xbb\xbfremark,Ohms,metres\r\ndry,3,2\r\n\r\n"), [(Pair(2000, 2000), Pair(3000, 3000))])

    def test_decimal_commas_between_semicolons(self):
        self.assertEqual(site.readings("metres;ohms\n1,5;10\n2;0,25\n".encode()), [(Pair(1500, 1500), Pair(10000, 10000)), (Pair(2000, 2000), Pair(250, 250))])
        with self.assertRaises(amounts.Unclear):
            site.readings(b"metres;ohms\n1,500;10\n")

    def test_refused(self):
        for arguments, said in (
                (["--reading", "1V,10"], "reading 1V,10: distance: '1V' has the unit 'V'; it may have m, cm, mm, ft or in"),
                (["--reading", "1,10V"], "reading 1,10V: resistance: '10V' has the unit 'V'; it may have Ω, mΩ or kΩ"),
                (["--reading", "x,10"], "reading x,10: distance: 'x' is no number"),
                (["--reading", "1,5,10"], "reading 1,5,10: '1,5,10' is not two numbers separated by a comma; write METRES,OHMS as 2.5,7.3, or with units as 10ft,0.7125, with a decimal point inside a number"),
                (["--reading", "1"], "reading 1: '1' is not two numbers separated by a comma; write METRES,OHMS as 2.5,7.3, or with units as 10ft,0.7125, with a decimal point inside a number"),
                (["--reading", "0.4,1"], "reading 1, distance: 0.4 m is not in 0.5..50 m"),
                (["--reading", "1,1001"], "reading 1, resistance: 1,001 Ω is not in 0.001..1,000 Ω"),
                (["--reading", "4294968.296,10"], "reading 4294968.296,10: distance: 4294968.296 is far out of range"),
                (["--reading=-1,1"], "reading -1,1: distance: -1 is far out of range"),
                (["tests/sample.csv"], "tests/sample.csv: line 1: the names must be metres,ohms or feet,ohms; here they are " + ",".join(NAMES))):
            self.assertEqual(run("wenner", *arguments), (1, "", said + "\n"))

    def test_neither_or_both(self):
        for command, arguments in (("wenner", []), ("wenner", ["x.csv", "--reading", "1,1"]), ("staged", []), ("staged", ["--branch", "1,0"]),
                                   ("staged", ["x.csv", "--branch", "1,0"]), ("staged", ["x.csv", "--injected", "1,0"])):
            done = run(command, *arguments)
            self.assertEqual((done.status, done.out, done.err[:16]), (3, "", "hocsimbur: give "))

    def test_texts_refused(self):
        for text, said in ((b"", "the text is empty; its first line is metres,ohms or feet,ohms"), (b"metres,ohms\n", "there is no reading"),
                           (b"metres,ohms\n1,5,10\n", "line 2: there are 3 cells for 2 names; write a decimal point, no comma"),
                           (b"metres,ohms\n1,x\n", "line 2: resistance: 'x' is no number")):
            self.assertEqual(run("wenner", "-", stdin=text), (1, "", said + "\n"))

    def test_warning(self):
        done = run("wenner", "--reading", "1,10", "--reading", "1,5")
        self.assertEqual(done.err, "")
        done = run("wenner", "--reading", "1,10", "--reading", "1,4.999")
        self.assertEqual(done.status, 0)
        self.assertIn("warning: the greatest apparent resistivity is over 2.0 times the least. IEEE Std 80, 13.4", done.err)
        self.assertIn("over 24.9 times", run("wenner", "--reading", "1,10", "--reading", "1,0.4").err)

    def test_soil_at_the_ends_of_its_column(self):
        for ohms, soil, note in (("1.591", 10, ""), ("1.432", 9, "note"), ("795.7", 5000, ""), ("795.9", 5001, "note")):
            done = run("wenner", "--csv", "--reading", f"1,{ohms}")
            self.assertEqual((done.out.rstrip().split(",")[-1], done.err[:4]), (str(soil), note))

    def test_soil_that_no_sheet_takes(self):
        self.assertIn("note: 1 Ω·m is not in 10..5000; a sheet refuses it", run("wenner", "--reading", "1,0.1").err)


class Staged(unittest.TestCase):
    def test_the_sign_of_an_angle(self):
        for text in ("20@-22.5", "20\u2220-22.5", "20 \u2220 -22.5\u00b0", "20 A\u2220\u221222.5\u00b0", "20A @ -22.5"):
            self.assertEqual(site.current(text), site.polar("20", "-22.5"), text)
        self.assertEqual(run("staged", "--csv", "--injected", "20\u22200", "--branch", "5\u2220180").out.split("\n")[1], "25000,0,1250")
        self.assertEqual(run("staged", "--csv", "-", stdin="current\n20\u22200\n5\u2220180\n".encode()).out.split("\n")[1], "25000,0,1250")

    def test_sizes_far_out_of_range(self):
        self.assertEqual(site.polar("1000000000", "0").in_phase.lower, 10 ** 12)
        with self.assertRaises(amounts.Unclear) as caught:
            site.polar("1000000001", "0")
        self.assertEqual(str(caught.exception), "size: 1000000001 A is far out of range")

    def test_the_form_that_is_wanted(self):
        self.assertEqual(run("staged", "--injected", "20", "--branch", "1,0").err,
                         "current 20: '20' is not two numbers separated by a comma; write IN-PHASE,QUADRATURE in A as 1000,-50, or SIZE@ANGLE in A and "
                         "degrees as 1000@-22.5 or 1000\u2220-22.5, with a decimal point inside a number\n")

    def test_the_table_of_ieee_81_2(self):
        for (split, printed), (injected, *branches) in TABLE.items():
            options = [f"--branch={branch}" for branch in branches]
            done = run("staged", "--csv", f"--injected={injected}", *options)
            self.assertEqual(done.status, 0, done.err)
            in_phase, quadrature, answered = (int(number) for number in done.out.split("\n")[1].split(","))
            self.assertEqual(answered, split)
            size, angle = printed.replace("−", "-").rstrip("°").split("∠")
            self.assertLess(abs(math.hypot(in_phase, quadrature) / 1000 - float(size)), 1.5)
            self.assertLess(abs(math.degrees(math.atan2(quadrature, in_phase)) - float(angle)), 0.5)
            self.assertIn("note: parts of sizes at angles are no whole milliamperes", done.err)

    def test_from_a_text(self):
        rows = "size,angle\n" + "".join(",".join(current.split("@")) + "\n" for current in TABLE[(202, "200∠22.5°")])
        self.assertTrue(run("staged", "-", "--csv", stdin=rows.encode()).out.endswith(",202\n"))
        done = run("staged", "-", "--csv", stdin=b"name,in_phase,quadrature\ninjected,1000,0\nshield wire,400,0\n")
        self.assertEqual(done, (0, "in_phase_mA,quadrature_mA,split_per_mille\n600000,0,600\n", ""))

    def test_exact_parts_are_not_moved(self):
        measured = [site.current(text) for text in ("1000,0", "400.001,-0.5", "1@90", "2@180", "2@60")]
        self.assertEqual(measured[2:4], [site.Part(Pair(0, 0), Pair(1000, 1000)), site.Part(Pair(-2000, -2000), Pair(0, 0))])
        handed, moved = site.rounded(measured[:4])
        self.assertEqual((handed, moved), ([(1000000, 0), (400001, -500), (0, 1000), (-2000, 0)], 0))
        self.assertEqual(site.rounded(measured)[1], 1)

    def test_the_split_is_not_too_small(self):
        """For sizes and angles at random, no choice of the parts within their ends has a greater split."""
        source = random.Random(81)
        for _ in range(80):
            def one() -> str:
                return f"{source.randint(1, 4000) / 1000}@{source.randint(-1800, 1800) / 10}"
            measured = [site.current(one()) for _ in range(source.randint(2, 4))]
            handed, _ = site.rounded(measured)
            if handed[0] == (0, 0):
                continue
            split = core.split(handed).split
            for _ in range(20):
                tried = [tuple(source.choice(part) for part in current) for current in measured]
                if tried[0] != (0, 0):
                    self.assertLessEqual(core.split(tried).split, split)

    def test_refused(self):
        for arguments, said in (
                (["--injected", "1000,0"], "there are 0 branches; the injected current and 1 to 16 branches are needed"),
                (["--injected", "1000", "--branch", "1,0"], "current 1000: '1000' is not two numbers separated by a comma; write IN-PHASE,QUADRATURE in A "
                 "as 1000,-50, or SIZE@ANGLE in A and degrees as 1000@-22.5 or 1000∠-22.5, with a decimal point inside a number"),
                (["--injected", "1000,0", "--branch", "0.0005,0"], "current 0.0005,0: 0.0005 A is not a whole number of mA; it is not rounded"),
                (["--injected", "1000,0", "--branch", "4@x"], "current 4@x: 'x' is no number"),
                (["--injected", "1000,0", "--branch", "4@360.1"], "current 4@360.1: angle: 360.1 is not in −360..360 degrees"),
                (["--injected", "1000,0", "--branch", "1000000000.1@0"], "current 1000000000.1@0: size: 1000000000.1 A is far out of range"),
                (["--injected", "1000,0", "--branch", f"{2 ** 62},0"], f"current {2 ** 62},0: a part is far out of range"),
                (["--injected", "0,0", "--branch", "1,0"], "the injected current is 0 in both parts; nothing was injected, so there is no split"),
                (["--injected", "2000,0", "--branch", "1,0"], "injected, in-phase part: 2,000 A is not in −1,000..1,000 A; the split is the same for "
                 "scaled currents"),
                (["tests/sample.csv"], "tests/sample.csv: line 1: the names must be in_phase,quadrature or size,angle or current; here they are "
                 + ",".join(NAMES))):
            self.assertEqual(run("staged", *arguments), (1, "", said + "\n"))

    def test_a_file_or_options(self):
        for arguments in (["x", "--injected", "1,0"], ["x", "--branch", "1,0"], ["x", "--injected", "1,0", "--branch", "1,0"]):
            self.assertEqual(run("staged", *arguments), (3, "", "hocsimbur: give either a file or --injected and --branch\n"))
        for arguments in ([], ["--branch", "1,0"]):
            self.assertEqual(run("staged", *arguments), (3, "", "hocsimbur: give a file, or --injected and a --branch for each branch\n"))
        for arguments in ([], ["x", "--reading", "1,1"]):
            self.assertEqual(run("wenner", *arguments),
                             (3, "", "hocsimbur: give either a file of readings or --reading METRES,OHMS once for each reading\n"))

    def test_the_ends_of_angles(self):
        for angle in ("360", "-360", "0", "0.0", "+360°"):
            self.assertEqual(run("staged", "--csv", "--injected", "1,0", "--branch", f"0.4@{angle}").out.split("\n")[1], "600,0,600")

    def test_splits_at_the_ends_of_their_column(self):
        for branch, split in (("0,0", 1000), ("0.999,0", 1)):
            done = run("staged", "--csv", "--injected", "1,0", "--branch", branch)
            self.assertEqual((done.out.rstrip().split(",")[-1], done.err), (str(split), ""))

    def test_a_split_that_no_sheet_takes(self):
        self.assertIn("note: a split of 0 per mille is not in 1..1000; a sheet refuses it",
                      run("staged", "--injected", "1,0", "--branch", "1,0").err)
        self.assertIn("note: a split of 2,000 per mille", run("staged", "--injected", "1,0", "--branch=-1,0").err)


if __name__ == "__main__":
    unittest.main()
