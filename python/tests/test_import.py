"""The command import on what people have: titles, units, sizes of wires, names of stations, and values rounded with caution."""
from __future__ import annotations

import pathlib
import sys
import tempfile
import unittest

from hocsimbur.portfolio import licence
from hocsimbur.sheets import amounts, catalogue, layout, spreadsheet, units

from .common import SAMPLE, changed, run
from .test_spreadsheet import Workbooks

HEAD, FIRST, SECOND = SAMPLE.decode().split("\n")[:3]


def made(sheet: bytes, cautious: bool = False) -> spreadsheet.Made:
    return spreadsheet.make(sheet, cautious)


def value(name: str, text: str, cautious: bool = False, **others: object) -> str:
    """What a cell becomes, in the first line of the sample."""
    cell = f'"{text}"'.replace('"""', '""""') if "," in text or text.endswith('"') else text
    if text.endswith('"'):
        cell = '"' + text.replace('"', '""') + '"'
    sheet = made(changed(changed(**others), **{name: cell}), cautious).sheet
    return str(layout.cases(sheet)[0][name])


def refused(sheet: bytes, cautious: bool = False) -> list:
    try:
        spreadsheet.make(sheet, cautious)
    except spreadsheet.Refusals as refusals:
        return refusals.said
    return []


class Units(unittest.TestCase):
    EACH = [
        ("soil", "62 ohm m", "62"), ("soil", "62 Ω·m", "62"), ("soil", "62Ωm", "62"), ("soil", "62 ohm-m", "62"), ("layer", "2.5 kΩ·m", "2500"),
        ("soil", "6200 ohm cm", "62"), ("thick", "10cm", "100"), ("thick", "5 in", "127"), ("thick", '5"', "127"), ("depth", "0.5 m", "500"),
        ("depth", "2.5ft", "762"), ("space", "25 ft", "7620"), ("space", "25'", "7620"), ("space", "7m", "7000"), ("shock", "0.5s", "500"),
        ("clear", "30 cycles", "500"), ("wire", "6 cycles", "100"), ("shock", "500 ms", "500"), ("fault", "8.7kA", "8700"), ("fault", "3180 A", "3180"),
        ("fault", "3180 amps", "3180"), ("fault", "3180 amp", "3180"), ("fault", "3180 amperes", "3180"), ("shock", "1 sec", "1000"),
        ("shock", "1 seconds", "1000"), ("depth", "2.5 feet", "762"), ("depth", "2.5 foot", "762"), ("thick", "5 inches", "127"), ("thick", "5 inch", "127"),
        ("soil", "62 ohm metres", "62"), ("soil", "62 ohm meter", "62"), ("soil", "6200 Ω·cm", "62"), ("layer", "2.5 kohm m", "2500"),
        ("clear", "30 cyc", "500"), ("clear", "30 cycle", "500"), ("split", "60 percent", "600"),
        ("dia", "1.34 cm", "134"),
        ("split", "60 %", "600"), ("split", "60%", "600"), ("split", "600 ‰", "600"), ("split", "600 per mille", "600"), ("body", "70 kg", "70"),
        ("hz", "60 Hz", "60"), ("dia", "13.4 mm", "134"), ("dia", "4/0", "134"), ("dia", "4/0 AWG", "134"), ("dia", "#2", "74"),
        ("dia", "250 kcmil", "146"), ("dia", "250 MCM", "146"), ("dia", "95 mm2", "125"), ("dia", "95mm²", "125"), ("dia", "0.5 in", "127"),
    ]

    def test_in_cells(self):
        for name, text, wanted in self.EACH:
            self.assertEqual(value(name, text), wanted, (name, text))

    def test_cycles_go_by_the_line_s_frequency(self):
        self.assertEqual(value("clear", "30 cycles", hz=50), "600")
        self.assertEqual(value("clear", "30 cycles", hz="50 Hz"), "600")
        self.assertEqual(refused(changed(clear="30 cycles", hz=55)), [
            "line 2, clear (column 7): '30 cycles' is in cycles, and hz of the line is not 50 or 60"])

    def test_in_heads(self):
        for name, unit, text, wanted in (("soil", "[ohm m]", "62", "62"), ("fault", "(kA)", "8.7", "8700"), ("depth", " [ m ]", "0.5", "500"),
                                         ("shock", "[s]", "0.5", "500"), ("clear", "(cycles)", "30", "500"), ("split", "[%]", "60", "600"),
                                         ("dia", "[mm]", "13.4", "134"), ("fault", "(kA)", "870 A", "870"), ("dia", "[mm]", "4/0", "134")):
            sheet = changed(changed(**{name: text}), line=3, **{name: text}).replace(f",{name},".encode(), f",{name}{unit},".encode(), 1)
            self.assertEqual([str(case[name]) for case in layout.cases(made(sheet).sheet)], [wanted, wanted], (name, unit))

    def test_each_kind_of_change_once_with_an_example(self):
        sheet = changed(changed(fault="8.7kA", shock="0.5s"), line=3, fault="9kA", dia="4/0")
        self.assertEqual(made(sheet).changes.told(), [
            "1 value: s made ms (line 2, shock, 0.5s is 500)", "2 values: kA made A (line 2, fault, 8.7kA is 8700)",
            "1 diameter: read from the size of a stranded wire (line 3, dia, 4/0 is 134, 13.4 mm with 211 kcmil)"])
        self.assertEqual(made(sheet).rounded, ["note: a sheet has the diameter alone, which is counted as a solid round of 278 kcmil; 4/0 stranded has 211"])
        self.assertEqual(made(changed(fault="3180 A")).changes.told(), ["1 value: its unit A taken away (line 2, fault, 3180 A is 3180)"])

    def test_units_of_another_column(self):
        self.assertEqual(refused(changed(fault="5 m", soil="3 kA", xr="10 %", dia="7/0", depth="1 kcmil")), [
            "line 2, soil (column 3): '3 kA' has the unit 'kA'; soil may have Ω·m", "line 2, fault (column 10): '5 m' has the unit 'm'; fault may have A or kA",
            "line 2, xr (column 12): '10 %' is no number; write only digits, a whole number",
            "line 2, depth (column 16): '1 kcmil' has the unit 'kcmil'; depth may have mm, cm, m, in or ft",
            "line 2, dia (column 17): '7/0' is no number; write only digits, a whole number of tenths of a mm"])
        self.assertEqual(refused(changed(dia="260 kcmil")), [
            "line 2, dia (column 17): '260 kcmil' is no size of the catalogue; give the diameter in tenths of a mm"])
        self.assertEqual(refused(SAMPLE.replace(b",fault,", b",fault [m],")), [
            "line 1, fault (column 10): 'fault [m]' has the unit 'm'; fault may have A or kA"])
        self.assertEqual(refused(SAMPLE.replace(b",rods,", b",rods [m],")), ["line 1, rods (column 18): 'rods [m]' has the unit 'm'; rods has none"])

    def test_every_unit_that_is_shown_is_accepted(self):
        for name, said in units.SHOWN.items():
            for unit in said.replace(", or a wire's size as 4/0", "").replace(" or ", ", ").split(", "):
                self.assertTrue(units.known(name, unit), (name, unit))
        self.assertEqual(set(units.SHOWN), set(units.UNITS))
        self.assertEqual(units.allowed("xr"), "")


class Rounded(unittest.TestCase):
    def test_each_side(self):
        for name, text, side in (("soil", "187.5", 188), ("layer", "2500.5", 2500), ("shock", "500.1", 501), ("clear", "500.9", 500), ("wire", "500.1", 501),
                                 ("fault", "8.70001kA", 8701), ("split", "60.01%", 601), ("xr", "16.2", 17), ("dia", "13.49mm", 134)):
            self.assertEqual(value(name, text, cautious=True), str(side), name)
        self.assertEqual(value("rodlen", "3000.9", cautious=True, rods=4, place=1), "3000")

    def test_thick_goes_by_the_values_that_are_written(self):
        self.assertEqual(value("thick", "101.6", cautious=True), "101")
        self.assertEqual(value("thick", "101.6", cautious=True, soil=3000), "102")
        self.assertEqual(value("thick", "101.6", cautious=True, soil="2499.5", layer="2500.5"), "102")
        order = changed(thick="101.6").decode().split("\n")
        turned = "\n".join(",".join(reversed(line.split(","))) for line in order).encode()
        self.assertEqual(layout.cases(made(turned, True).sheet)[0]["thick"], 101)

    def test_each_is_reported(self):
        self.assertEqual(made(changed(soil="187.5", thick="4 in"), True).rounded, [
            "line 2, soil: 187.5 rounded up to 188: a drier soil raises the voltages by more than what is tolerable",
            "line 2, thick: 4 in, 101.6 mm, rounded down to 101: a thinner layer shields less where it is more resistive than the soil"])
        self.assertEqual(made(SAMPLE, True).rounded, [])

    def test_no_side_is_cautious(self):
        for cautious in (False, True):
            self.assertEqual(refused(changed(space="23ft", depth="457.2", rods="4.5"), cautious), [
                "line 2, space (column 15): 23ft is 7010.4 mm, not a whole number of mm; no side is cautious: give whole millimetres",
                "line 2, depth (column 16): 457.2 is not a whole number of mm; no side is cautious: give whole millimetres",
                "line 2, rods (column 18): 4.5 is not a whole number"])

    def test_refused_unless_asked(self):
        self.assertEqual(refused(changed(soil="187.5", xr="16.2")), [
            "line 2, soil (column 3): 187.5 is not a whole number of Ω·m; the cautious side is up: write 188, or give --round cautious",
            "line 2, xr (column 12): 16.2 is not a whole number; the cautious side is up: write 17, or give --round cautious"])

    def test_a_value_outside_its_range_has_no_cautious_side(self):
        for cautious in (False, True):
            self.assertEqual(refused(changed(split="0.6", dia="10.5", xr="40.2"), cautious), [
                "line 2, split (column 11): 0.6 is not a whole number per mille, and it is not in 1..1000; is it in another unit? split may have ‰ or %",
                "line 2, xr (column 12): 40.2 is not a whole number, and it is not in 1..40",
                "line 2, dia (column 17): 10.5 is not a whole number of tenths of a mm, and it is not in 50..300; is it in another unit? "
                "dia may have mm, cm or in, or a wire's size as 4/0"])
        self.assertEqual([value("split", text, cautious=True) for text in ("1.5", "999.5")], ["2", "1000"])

    def test_check_names_the_side(self):
        self.assertEqual(run("check", "-", stdin=changed(soil="187.5", depth="457.2", rods="1.5")).out.split("\n")[:3], [
            "line 2, soil (column 3): 187.5 is not a whole number of Ω·m, 10..5000; the cautious side is up",
            "line 2, depth (column 16): 457.2 is not a whole number of mm, 250..2500; no side is cautious: give whole millimetres",
            "line 2, rods (column 18): 1.5 is not a whole number, 0..200"])
        self.assertEqual(run("check", "-", stdin=changed(split="0.6", xr="40.2")).out.split("\n")[:2], [
            "line 2, split (column 11): 0.6 is not a whole number per mille, 1..1000; is it in another unit? `hocsimbur import` takes ‰ or %",
            "line 2, xr (column 12): 40.2 is not a whole number, 1..40"])

    def test_command(self):
        done = run("import", "-", "--round", "cautious", stdin=changed(soil="187.5"))
        self.assertEqual((done.status, done.out.split("\n")[1].split(",")[2]), (0, "188"))
        self.assertEqual(done.err, "line 2, soil: 187.5 rounded up to 188: a drier soil raises the voltages by more than what is tolerable\n")
        self.assertEqual(run("import", "-", stdin=changed(soil="187.5")).status, 1)

    def test_shown(self):
        for number, text in (((3, 2), "1.5"), ((-3, 8), "-0.375"), ((7, 1), "7"), ((1, 3), "0.333333…"), ((35052, 5), "7010.4"), ((1, 1000), "0.001")):
            self.assertEqual(amounts.shown(amounts.Fraction(*number)), text)


class Names(unittest.TestCase):
    def test_a_title_above(self):
        text = f"Yards of 2026\n\n,,\n{HEAD}\n{FIRST}\n{SECOND}\n".encode()
        self.assertEqual(made(text).sheet, SAMPLE)
        self.assertEqual(made(text).changes.told(), ["2 blank lines: removed", "1 line above the names: left out (line 1, 'Yards of 2026')"])
        self.assertEqual(made(text).numbers, [4, 5, 6])
        self.assertEqual(made(text.replace(b",", b";")).sheet, SAMPLE)
        said = refused(text.replace(b"3180", b"x", 1))
        self.assertEqual(said, ["line 5, fault (column 10): 'x' is no number; write only digits, a whole number of A"])

    def test_labels(self):
        text = SAMPLE.replace(b"soil,layer", b"Soil,Surface layer").replace(b"fault,", b"Fault current (A),")
        self.assertEqual(made(text).sheet, SAMPLE)
        self.assertEqual(made(text).changes.told(), ["1 name: made small letters (Soil is soil)",
                                                     "2 names: read from the head of its column (Surface layer is layer)"])

    def test_an_unknown_column_is_left_out_and_reported_once(self):
        text = "".join(f"{line},{more}\n" for line, more in ((HEAD, "remark"), (FIRST, "x"), (SECOND, "y"))).encode()
        self.assertEqual(made(text).sheet, SAMPLE)
        self.assertEqual(made(text).changes.told(), ["1 column: no name of a sheet, left out (column 23, 'remark')"])
        first = "".join(f"{more},{line}\n" for line, more in ((HEAD, "remark"), (FIRST, "x"), (SECOND, "y"))).encode()
        self.assertEqual(made(first).sheet, SAMPLE)
        self.assertEqual(refused(first.replace(b"3180", b"x", 1)), [
            "line 2, fault (column 11): 'x' is no number; write only digits, a whole number of A"])

    def test_names_are_judged_first(self):
        said = refused(SAMPLE.replace(b"soil", b"sol").replace(b",hz", b",frequence").replace(b"3180", b"x"))
        self.assertEqual(said, ["line 1, column 3: 'sol' is no name of a sheet; did you mean soil?",
                                "line 1, column 22: 'frequence' is no name of a sheet",
                                "line 1: soil and hz are missing: a sheet has 22 names, here are 20"])
        self.assertEqual(refused(SAMPLE.replace(b"season", b"Station")), [
            "line 1, station (column 2): station stands already in column 1; each name stands once",
            "line 1: season is missing: a sheet has 22 names, here are 22"])

    def test_no_line_of_names(self):
        self.assertTrue(refused(b"a,b\nsoil,c\n")[0].startswith("line 1, column 1: 'a' is no name of a sheet"))

    def test_any_sign_that_is_named(self):
        self.assertEqual(made(b"sep=|\n" + SAMPLE.replace(b",", b"|")).sheet, SAMPLE)

    def test_the_former_names(self):
        former = b"station,season,soil,layer,thick,ms,body,fault,split,xr,lines,space,depth,dia,rods,rodlen,place,metal\n"
        line = b"7,1,400,2500,102,%s,70,3180,600,10,%s,7000,500,100,0,0,0,1\n"
        self.assertEqual(made(former + line % (b"30 cycles", b"11")).sheet, former + line % (b"500", b"11"))
        self.assertEqual(refused(former + line % (b"500.5", b"11.5"), True), [
            "line 2, ms (column 6): 500.5 is not a whole number of ms; no side is cautious, for it stands for three times: give whole milliseconds",
            "line 2, lines (column 11): 11.5 is not a whole number"])

    def test_a_licence_for_two_stations(self):
        with tempfile.TemporaryDirectory() as folder:
            out = pathlib.Path(folder) / "licence.csv"
            done = run("import", "examples/bare.csv", "--licence-out", str(out))
            self.assertIn(f"{out}: a licence for 2 stations, each in the seasons that have a line\n", done.err)
            self.assertEqual(out.read_text(), "station,name,seasons\n101,,1\n102,,1\n")

    def test_names_of_stations(self):
        with tempfile.TemporaryDirectory() as folder:
            out = pathlib.Path(folder) / "licence.csv"
            text = f"name,{HEAD}\nNorth & Co,{FIRST}\nNorth & Co,{SECOND}\n".encode()
            done = run("import", "-", "--licence-out", str(out), stdin=text)
            self.assertEqual((done.status, done.out), (0, SAMPLE.decode()))
            self.assertEqual(done.err, "1 column: names of stations, for a licence (column 1)\n"
                             f"{out}: a licence for 1 station, each in the seasons that have a line\n")
            self.assertEqual(licence.read(out.read_bytes()).stations, (licence.Licensed(7, "North & Co", (1, 2)),))
            self.assertEqual(run("import", "-", "--licence-out", str(out), stdin=text).status, 3)
            self.assertEqual(run("import", "-", "--licence-out", str(out), "--force", stdin=SAMPLE).status, 0)
            self.assertEqual(out.read_text(), "station,name,seasons\n7,,1 2\n")
        self.assertEqual(refused(f"name,{HEAD}\nNorth,{FIRST}\nSouth,{SECOND}\n".encode()), [
            "line 3, name (column 1): station 7 is 'South' here and 'North' above"])

    def test_a_licence_that_is_refused_is_not_written(self):
        with tempfile.TemporaryDirectory() as folder:
            out = pathlib.Path(folder) / "licence.csv"
            self.assertEqual(run("import", "-", "--licence-out", str(out), stdin=changed(fault=1)).status, 1)
            self.assertFalse(out.exists())


class Worksheets(Workbooks):
    def rows(self):
        return [tuple(line.split(",")) for line in SAMPLE.decode().split()]

    def of(self, worksheet, titles=("Notes", "Yards")):
        kept = sys.modules.get("openpyxl")
        sys.modules["openpyxl"] = self.openpyxl(self.rows(), titles)
        try:
            return spreadsheet.make(self.BOOK, worksheet=worksheet)
        finally:
            sys.modules.pop("openpyxl")
            if kept:
                sys.modules["openpyxl"] = kept

    def test_by_name_and_number(self):
        for worksheet in ("Yards", "2"):
            self.assertEqual(self.of(worksheet).changes.told(), ["worksheet 'Yards' read, number 2 of 2"])
        self.assertEqual(self.of("1").changes.told(), ["worksheet 'Notes' read, the first of 2"])
        for worksheet in ("Other", "0", "3"):
            with self.assertRaises(spreadsheet.Refusals) as caught:
                self.of(worksheet)
            self.assertEqual(caught.exception.said, [f"the workbook has no worksheet '{worksheet}'; it has 'Notes' and 'Yards'"])

    def test_of_a_text(self):
        self.assertEqual(run("import", "tests/sample.csv", "--worksheet", "1").err,
                         "tests/sample.csv: the file is a text and has no worksheets; leave --worksheet out\nnothing was written\n")

    def test_a_licence_in_a_workbook(self):
        kept = sys.modules.get("openpyxl")
        sys.modules["openpyxl"] = self.openpyxl([("Station", "Name", "Seasons"), (7.0, "A", "1-2"), (None, None, None), (8, "B", 4)])
        try:
            self.assertEqual(licence.read(self.BOOK).stations, (licence.Licensed(7, "A", (1, 2)), licence.Licensed(8, "B", (4,))))
        finally:
            sys.modules.pop("openpyxl")
            if kept:
                sys.modules["openpyxl"] = kept

    def test_the_python_that_lacks_it(self):
        sys.modules["openpyxl"] = None
        try:
            with self.assertRaises(spreadsheet.Unreadable) as caught:
                spreadsheet.make(self.BOOK)
        finally:
            del sys.modules["openpyxl"]
        self.assertIn(f"and {sys.executable} has none; install it there, or save the file as CSV", str(caught.exception))


class Catalogue(unittest.TestCase):
    def test_areas_rise_with_diameters(self):
        for kind in ("kcmil", "mm2", ""):
            wires = [wire for name, wire in catalogue.WIRES.items() if name.partition(" ")[2] == kind]
            self.assertGreater(len(wires), 9)
            self.assertEqual(wires, sorted(wires, key=lambda wire: (wire.area, wire.diameter)))

    def test_a_stranded_wire_has_less_than_a_solid_one(self):
        """Of the round about it a stranded wire fills from 70 to 80 percent."""
        for wire in catalogue.WIRES.values():
            solid = 10 ** 4 * wire.diameter ** 2 // 254 ** 2
            self.assertTrue(70 * solid < 100 * wire.area < 80 * solid, wire)

    def test_known_sizes(self):
        self.assertEqual([(wire.kcmil, wire.dia) for wire in map(catalogue.find, ("4/0", "250 kcmil", "2000 kcmil", "95 mm2", "6 AWG"))],
                         [(211, 134), (250, 146), (2000, 414), (184, 125), (26, 46)])

    def test_names(self):
        for text, name in (("4/0", "4/0"), ("0000 AWG", "4/0"), ("AWG 2", "2"), ("No. 6", "6"), ("#1/0", "1/0"), ("500kcmil", "500 kcmil"),
                           ("500 MCM", "500 kcmil"), ("70 mm²", "70 mm2"), ("70 sq mm", "70 mm2"), ("70mm^2", "70 mm2")):
            self.assertEqual(catalogue.find(text).name, name)
        for text in ("4", "134", "", "5/0", "7 AWG", "260 kcmil", "95", "95 mm", "x"):
            self.assertIsNone(catalogue.find(text), text)


if __name__ == "__main__":
    unittest.main()
