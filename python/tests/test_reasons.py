"""Every sentence about a station, made to appear by some portfolio."""
from __future__ import annotations

import unittest

from hocsimbur.sheets import layout
from hocsimbur.portfolio import compared, decision, reasons
from hocsimbur.report import plan
from hocsimbur.core import Pair
from hocsimbur.sheets.decimals import NO_BREAK
from hocsimbur.portfolio.compared import Compared

from .portfolios import LICENCE, SHEET, case, granted, station

EXAMPLE = {one.station: one for one in decision.portfolio(SHEET, LICENCE).stations}
UNLICENSED = {one.station: one for one in decision.portfolio(SHEET).stations}
# four crossing conductors of the least diameter, and all that may be put on them
HOPELESS = dict(soil=5000, layer=0, thick=0, shock=3000, clear=9, wire=3000, body=50, fault=80000, split=1000, xr=40, across=2, along=2,
                space=2500, depth=250, dia=50, rods=0, rodlen=0, place=0, metal=11)


def plain(text: str) -> str:
    return text.replace(NO_BREAK, " ")


def decided(one: decision.Station) -> str:
    return plain(" ".join(reasons.decision(one)))


class Decisions(unittest.TestCase):
    def test_released(self):
        self.assertEqual(decided(EXAMPLE[101]),
                         "Released: all 4 seasons of the licence are present and safe; nearest is touch in season 3, 7.5 % below.")
        self.assertEqual(decided(EXAMPLE[160]),
                         "Released: both seasons of the licence are present and safe; nearest is touch in season 2, 4.0 % below.")
        self.assertEqual(decided(station([case(101, 3)])),
                         "Released: the one season of the licence is present and safe; nearest is touch in season 3, 7.5 % below.")

    def test_held(self):
        said = {
            104: "season 2 unsafe (mesh 18.0 % above tolerable touch).",
            110: "season 3 has no line.",
            118: "wire too small (495 kcmil needed, 5.0 mm solid has 38).",
            123: "yard differs between lines (depth and rods).",
            131: "season 2 undecided (mesh within the error bounds of tolerable touch).",
            152: "season 2 unsafe (mesh 32.6 % above tolerable touch); season 4 unsafe (mesh 6.2 % above tolerable touch); season 3 has no "
                 "line; wire too small (335 kcmil needed, 6.5 mm solid has 65).",
            188: "season 2 unsafe (step 7.3 % above tolerable step).",
            215: "no season has a line.",
        }
        for number, sentence in said.items():
            self.assertEqual(decided(EXAMPLE[number]), f"Held: {sentence}")

    def test_several_seasons_missing(self):
        self.assertEqual(decided(UNLICENSED[160]), "Held: seasons 3 and 4 have no line.")
        self.assertEqual(decided(station([case(101, 1)], [1, 2, 3, 4])), "Held: seasons 2, 3 and 4 have no line.")

    def test_both_voltages_above(self):
        said = decided(station([case(188, 2, fault=80000, dia=300)]))
        self.assertRegex(said, r"^Held: season 2 unsafe \(mesh \d+\.\d % above tolerable touch and step \d+\.\d % above tolerable "
                               r"step\)\.$")

    def test_a_margin_without_end(self):
        one = station([case(101, 1, **HOPELESS)])
        self.assertIn("mesh 10,503,422 % above tolerable touch and step 3,061,325 % above tolerable step", decided(one))

    def test_every_column_of_the_yard(self):
        other = dict(across=13, along=11, space=6100, depth=700, dia=140, rods=20, rodlen=3100, place=2, metal=3)
        self.assertEqual(decided(station([case(101, 1), case(101, 2, **other)])).split("Held: ")[1],
                         "yard differs between lines (conductors across, conductors along, spacing, depth, conductor diameter, rods, "
                         "rod length, rod place and metal).")


class OnOneLine(unittest.TestCase):
    """What the command release says."""

    def test_each(self):
        said = {
            101: "4 seasons; nearest limit 7.5 % below (touch, season 3); voltages safe up to 9,623 A; wire up to 37,991 A",
            104: "season 2: mesh 18.0 % above tolerable touch; no line for seasons 3, 4; voltages safe up to 3,476 A where there is a line; "
                 "wire up to 33,620 A",
            110: "no line for season 3; voltages safe up to 25,857 A where there is a line; wire up to 36,081 A",
            118: "no line for season 4; wire: 495 kcmil needed, 5.0 mm solid has 38; voltages safe up to 67,751 A where there is a line; "
                 "wire up to 2,822 A",
        }
        for number, sentence in said.items():
            self.assertEqual(reasons.sentence(UNLICENSED[number]), sentence)
        starts = {
            123: "no line for seasons 3, 4; yard differs between lines: depth and rods; voltages safe up to ",
            131: "season 2: mesh within the error bounds of tolerable touch; no line for season 4; voltages safe up to ",
        }
        for number, start in starts.items():
            self.assertTrue(reasons.sentence(UNLICENSED[number]).startswith(start), reasons.sentence(UNLICENSED[number]))
        self.assertEqual(reasons.sentence(EXAMPLE[215]), "no line for any season")
        self.assertEqual(reasons.sentence(station([case(101, 3)])),
                         "1 season; nearest limit 7.5 % below (touch, season 3); voltages safe up to 9,623 A; wire up to 37,991 A")

    def test_currents(self):
        """The two fault currents are the library's answers; none where no current is safe."""
        for one in EXAMPLE.values():
            if one.lines:
                self.assertIn(f"safe up to {one.answer.fault:,} A", plain(reasons.currents(one)))
                self.assertTrue(plain(reasons.currents(one)).endswith(f"; wire up to {min(line.wire_to for line in one.lines):,} A"))
        never = station([case(101, 1, soil=5000, layer=0, thick=0, across=2, along=2, shock=3000, split=1000, rods=0, rodlen=0, place=0)])
        self.assertEqual(never.fault, 0)
        self.assertTrue(plain(reasons.currents(never)).startswith("voltages safe at no fault current in range; wire up to "))

    def test_potential_rise(self):
        rises = {line.season: line.row.rise.upper for line in EXAMPLE[160].lines}
        self.assertEqual(sorted(rises, key=rises.get), [1, 2])
        self.assertEqual(plain(reasons.rise(EXAMPLE[160], 5000000)), "Potential rise above 5,000 V in season 2, up to 7,283 V; it decides nothing.")
        self.assertEqual(reasons.rise(EXAMPLE[160], rises[2]), "")
        self.assertEqual([line.season for line in reasons.above(EXAMPLE[160], rises[2] - 1)], [2])
        self.assertEqual(reasons.counts(EXAMPLE[160], rises[1] - 1).rises, 2)
        self.assertEqual(reasons.counts(EXAMPLE[160]).rises, 0)

    def test_no_no_break_space(self):
        self.assertFalse([one for one in EXAMPLE.values() if NO_BREAK in reasons.sentence(one)])


class Margins(unittest.TestCase):
    def words(self, margin, lower, upper):
        return plain(compared.margin(Compared("touch", Pair(lower, upper), Pair(1000000, 1000002), margin)))

    def test_each(self):
        self.assertEqual(self.words(180, 1179990, 1180000), "18.0 % above")
        self.assertEqual(self.words(-75, 924990, 925000), "7.5 % below")
        self.assertEqual(self.words(0, 999990, 1000000), "under 0.1 % below")
        self.assertEqual(self.words(1, 1000000, 1000003), "overlaps")
        self.assertEqual(self.words(9999, 10998990, 10999000), "999.9 % above")
        self.assertEqual(self.words(10000, 10999990, 11000000), "1,000 % above")
        self.assertEqual(self.words(26571, 27570990, 27571000), "2,658 % above")

    def test_at_the_limit(self):
        """At the greatest fault current that is safe the voltage is less than a tenth of a percent below."""
        one = station([case(104, 2, fault=EXAMPLE[104].fault)])
        self.assertTrue(one.released)
        self.assertTrue(decided(one).endswith("nearest is touch in season 2, under 0.1 % below."))

    def test_nearest(self):
        said = {104: ("18.0 % above", "touch, season 2"), 131: ("overlaps", "touch, season 2"),
                188: ("7.3 % above", "step, season 2"), 215: ("", "no line, nothing to compare")}
        for number, words in said.items():
            self.assertEqual(tuple(map(plain, reasons.nearest(EXAMPLE[number]))), words)


class Asides(unittest.TestCase):
    def test_the_driest(self):
        self.assertEqual(plain(reasons.differences(EXAMPLE[104])),
                         "Only the soil differs between the seasons: the driest, season 2 with 386 Ω·m, decides.")
        self.assertEqual(plain(reasons.differences(EXAMPLE[152])),
                         "Only the soil differs between the seasons that have a line: the driest, season 2 with 380 Ω·m, decides.")
        two = station([case(101, 1), case(101, 2, soil=210), case(101, 3)])
        self.assertEqual(plain(reasons.differences(two)),
                         "Only the soil differs between the seasons: the driest, seasons 2 and 3 with 210 Ω·m, decides.")

    def test_not_only_the_soil(self):
        self.assertEqual(reasons.differences(EXAMPLE[123]), "Not only the soil differs between the seasons: soil, depth and rods.")
        self.assertEqual(reasons.differences(EXAMPLE[140]), "Not only the soil differs between the seasons: soil and surface layer.")
        other = station([case(101, 1), case(101, 2, soil=130, fault=8000, xr=15)])
        self.assertEqual(reasons.differences(other), "The soil is the same in the seasons; what differs is fault current and X/R.")

    def test_nothing(self):
        self.assertEqual(reasons.differences(station([case(101, 1), case(101, 2, soil=130)])), "Nothing differs between the seasons.")
        self.assertEqual(reasons.differences(station([case(101, 1)])), "")

    def test_outside_the_licence(self):
        self.assertEqual(reasons.outside(EXAMPLE[204]), "Season 4 is not in the licence; its line counts all the same.")
        self.assertEqual(reasons.outside(station([case(101, 1), case(101, 2), case(101, 3)], [2])),
                         "Seasons 1 and 3 are not in the licence; their lines count all the same.")
        self.assertEqual(reasons.outside(EXAMPLE[101]), "")

    def test_undecided(self):
        self.assertEqual([plain(one) for one in reasons.undecided(EXAMPLE[131])], [
            "Season 2: mesh 1,074.873 to 1,074.875 V against tolerable touch 1,074.873 to 1,074.874 V: neither safe nor "
            "unsafe may be said. A change that lowers the voltage, such as one rod more, can part them."])
        self.assertEqual(reasons.undecided(EXAMPLE[101]), [])

    def test_current(self):
        said = {
            104: "Greatest fault current still safe: 3,476 A, set by season 2 (now 4,100 A).",
            110: "Greatest fault current still safe: at most 25,857 A, set by season 2 (now 20,000 A).",
            118: "Greatest fault current still safe: 67,751 A, set by season 2 (now 36,700 A); the wire is enough to 2,822 A.",
            204: "Greatest fault current still safe: 14,581 A, set by season 3 (now up to 14,100 A).",
        }
        for number, sentence in said.items():
            self.assertEqual(plain(reasons.current(EXAMPLE[number])), sentence)
        same = station([case(101, 3), case(101, 4, soil=210)])
        self.assertIn("set by seasons 3 and 4 (now", plain(reasons.current(same)))

    def test_current_at_the_ends_of_the_range(self):
        easy = case(101, 1, soil=10, split=10, dia=300)
        self.assertEqual(plain(reasons.current(station([easy]))), "Safe up to 80,000 A, the end of the range (now 8,900 A).")
        self.assertEqual(plain(reasons.current(station([easy], [1, 2]))),
                         "Safe up to 80,000 A, the end of the range, where there is a line (now 8,900 A).")
        self.assertEqual(plain(reasons.greatest(station([easy], [1, 2]))), "at most 80,000 A, end of range")
        hopeless = station([case(101, 1), case(101, 2, **HOPELESS)])
        self.assertEqual(plain(reasons.current(hopeless)), "No fault current in range is safe in season 2 (now up to 80,000 A).")
        self.assertEqual(reasons.greatest(hopeless), "none")

    def test_wire(self):
        self.assertEqual(plain(reasons.wire(EXAMPLE[104])), "Wire: 26 kcmil needed, 11.7 mm solid has 212.")
        thin = station([case(101, 1, soil=10, split=1, dia=50, wire=3000, metal=11, fault=100)])
        self.assertEqual(plain(reasons.current(thin)).split("; ")[1], "the wire is enough to 704 A.")

    def test_cautions(self):
        rods = "cannot stand at all four corners, yet are counted as if rods stood all along it."
        self.assertEqual(reasons.cautions(EXAMPLE[188]), [f"2 rods at the perimeter {rods}"])
        self.assertEqual(reasons.cautions(station([case(101, 1, rods=1)])), [f"1 rod at the perimeter {rods}"])
        self.assertEqual(reasons.cautions(station([case(101, 1, rods=3)])), [f"3 rods at the perimeter {rods}"])
        self.assertEqual(reasons.cautions(station([case(101, 1, rods=2), case(101, 2, rods=3)])), [f"2 and 3 rods at the perimeter {rods}"])
        self.assertEqual(reasons.cautions(station([case(101, 1, rods=4)])), [])
        self.assertEqual(reasons.cautions(station([case(101, 1, rods=3, place=2)])), [])
        self.assertEqual(reasons.cautions(EXAMPLE[160]), [
            "The wire is counted as a solid round: a stranded one of that diameter has about a quarter less, which may be too little "
            "here."])
        self.assertEqual(reasons.cautions(EXAMPLE[118]), [])

    def test_cautions_change_no_decision(self):
        self.assertTrue(EXAMPLE[160].released)
        self.assertTrue(station([case(101, 1, rods=3, fault=3000)]).released)

    def test_plan(self):
        self.assertIn("Drawn from season 1; other lines differ in depth and rods.", plan.figure(EXAMPLE[123]))
        self.assertNotIn("Drawn from", plan.figure(EXAMPLE[104]))
        self.assertIn("20 rods of 6 m at the perimeter", plain(plan.figure(EXAMPLE[104])))
        self.assertIn("24 rods of 3 m inside", plain(plan.figure(EXAMPLE[152])))
        self.assertIn("no rods", plan.figure(station([case(101, 1, rods=0, rodlen=0, place=0)])))


class Totals(unittest.TestCase):
    def said(self, portfolio):
        return "".join(one.head + one.detail for one in reasons.totals(
            reasons.summed(map(reasons.counts, portfolio.stations)), portfolio.licensed))

    def test_each(self):
        self.assertEqual(self.said(decision.portfolio(SHEET, LICENCE)),
                         "13 stations: 4 released, 9 held. 36 season lines: 30 safe, 5 unsafe, 1 "
                         "undecided; 4 seasons of the licence without a line.")
        self.assertEqual(self.said(decision.portfolio(SHEET, granted(101, (1, 2, 3, 4)))),
                         "1 station: 1 released, 0 held. 4 season lines: 4 safe, 0 "
                         "unsafe, 0 undecided; every season of the licence has a line.")
        self.assertEqual(self.said(decision.portfolio(SHEET, granted(110, (1, 2, 3, 4)))),
                         "1 station: 0 released, 1 held. 3 season lines: 3 safe, 0 "
                         "unsafe, 0 undecided; 1 season of the licence without a line.")

    def test_notes(self):
        self.assertEqual(reasons.notes(decision.portfolio(SHEET, LICENCE)), [])
        self.assertEqual(reasons.notes(decision.portfolio(SHEET)),
                         ["No licence was handed over: every station of the sheet is asked for all four seasons."])
        self.assertEqual(reasons.notes(decision.portfolio(SHEET, granted(101, (1,)))), [
            "11 stations of the sheet are not in the licence, and nothing is said of them: 104, 110, 118, 123, 131, 140, 152, 160, 171, 188 and "
            "204."])
        two = layout.text([case(101, 1), case(104, 1)])
        self.assertEqual(reasons.notes(decision.portfolio(two, granted(101, (1,)))),
                         ["Station 104 of the sheet is not in the licence, and nothing is said of it."])
        many = layout.text([case(101, 1, station=number) for number in range(1, 24)])
        self.assertEqual(reasons.notes(decision.portfolio(many, granted(1, (1,))))[0].split(": ")[1],
                         "2, 3, 4, 5, 6, 7, 8, 9, 10, 11, 12, 13, 14, 15, 16, 17, 18, 19, 20, 21 and 2 more.")
        seasons = decision.Portfolio((), False, (), (1, 2))
        self.assertEqual(reasons.notes(seasons), ["No licence was handed over: every station of the sheet is asked for seasons 1 and 2."])


if __name__ == "__main__":
    unittest.main()
