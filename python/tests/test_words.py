"""Every refusal in words: each number, by each of its causes."""
from __future__ import annotations

import re
import unittest

from hocsimbur import core
from hocsimbur.sheets import forms, words
from hocsimbur.sheets.words import Asked

from .common import NAMES, ROOT, SAMPLE, changed

HEAD = SAMPLE.split(b"\n")[0]
ONE = b"".join(SAMPLE.splitlines(keepends=True)[:2])
FORMER = b"station,season,soil,layer,thick,ms,body,fault,split,xr,lines,space,depth,dia,rods,rodlen,place,metal\n"
IMPORT = "`hocsimbur import` makes a sheet of it"


def said(question, asked: Asked) -> str:
    """The sentence of a question's refusal."""
    try:
        question()
    except core.Refused as refused:
        return words.refusal(refused, asked)
    return "accepted"


def of_sheet(sheet: bytes) -> str:
    return said(lambda: core.rows(sheet), Asked(sheet))


def named(old: bytes, new: bytes) -> bytes:
    """The sample with another text in its line of names."""
    return SAMPLE.replace(HEAD, HEAD.replace(old, new))


class OfSheets(unittest.TestCase):
    """Refusals 1 to 7."""

    def check(self, cases):
        for sheet, sentence in cases:
            with self.subTest(sentence=sentence):
                self.assertEqual(of_sheet(sheet), sentence)

    def test_a_byte_0_among_the_first_thousand(self):
        self.assertEqual(forms.foreign(b"x" * 999 + b"\0"), "the file has bytes 0 and is no plain text; save it as CSV in UTF-8")
        self.assertEqual(forms.foreign(b"x" * 1000 + b"\0"), "")

    def test_1(self):
        self.check([
            (b"", "the sheet is empty; it needs a line of names and a line of values"),
            (SAMPLE[:-1], "line 3: the last line has no line end (byte 10); add one, or use `hocsimbur import`"),
            (SAMPLE + b"0" * 65536 + b"\n",
             f"the sheet has {len(SAMPLE) + 65537:,} bytes, at most 65,536 are allowed; part it into several"),
            (SAMPLE.ljust(65536, b"0"), "line 4: the last line has no line end (byte 10); add one, or use `hocsimbur import`"),
            (SAMPLE.ljust(65537, b"0"), "the sheet has 65,537 bytes, at most 65,536 are allowed; part it into several"),
            (b"PK\x03\x04abc", f"this is a spreadsheet file (.xlsx) and no text; {IMPORT}"),
        ])

    def test_2_unknown(self):
        self.check([
            (named(b"soil", b"sol"), "line 1, column 3: 'sol' is no name of a sheet; did you mean soil?"),
            (named(b"xr", b"X/R"), "line 1, column 12: 'X/R' is no name of a sheet; did you mean xr?"),
            (named(b"soil", b"Soil"), f"line 1, column 3: names are in small letters, soil and not Soil; {IMPORT}"),
            (named(b"soil", b"qqqqq"), f"line 1, column 3: 'qqqqq' is no name of a sheet; the names are {', '.join(NAMES)}"),
            (named(b"hz", b"hz,"), f"line 1, column 23: no name stands here, for instance after a comma too many; {IMPORT}"),
            (named(b"hz", b"hz,notes"), f"line 1, column 23: 'notes' is no name of a sheet; the names are {', '.join(NAMES)}"),
        ])

    def test_2_repeated_and_missing(self):
        self.check([
            (named(b"hz", b"soil"), "line 1, soil (column 22): soil stands already in column 3; each name stands once"),
            (named(b"layer", b"soil"), "line 1, soil (column 4): soil stands already in column 3; each name stands once"),
            (named(b",metal,hz", b""), "line 1: metal and hz are missing: a sheet has 22 names, here are 20"),
            (named(b",hz", b""), "line 1: hz is missing: a sheet has 22 names, here are 21"),
            (named(b",place,metal,hz", b""), "line 1: place, metal and hz are missing: a sheet has 22 names, here are 19"),
        ])

    def test_2_former(self):
        carry = "is a name of the former sheet of 18 names; `hocsimbur carry` makes today's sheet of it"
        self.check([
            (named(b"shock", b"ms"), f"line 1, column 6: ms {carry}"),
            (named(b"across", b"lines"), f"line 1, column 13: lines {carry}"),
        ])

    def test_2_spreadsheets(self):
        self.check([
            (SAMPLE.replace(b"\n", b"\r\n"),
             f"line 1, hz (column 22): the line ends with two bytes, 13 and 10 (CRLF), and not with byte 10 alone; {IMPORT}"),
            (b"\xef\xbb\xbf" + SAMPLE, f"line 1: a byte-order mark (bytes 239, 187, 191) stands before the first name; {IMPORT}"),
            (SAMPLE.replace(b",", b";"), f"line 1: the fields are separated by semicolons and not by commas; {IMPORT}"),
            (SAMPLE.replace(b",", b"\t"), f"line 1: the fields are separated by tabs and not by commas; {IMPORT}"),
            (SAMPLE.decode().encode("utf-16-le") + b"\n", "line 1: the file has bytes 0 and is no plain text; save it as CSV in UTF-8"),
            (b"\xff\xfe" + SAMPLE.decode().encode("utf-16-le") + b"\n", f"line 1: the text is UTF-16, two bytes a character; {IMPORT}"),
            (SAMPLE.replace(b",", b", "), f"line 1, season (column 2): there are spaces around 'season'; {IMPORT}"),
            (SAMPLE.replace(b"soil", b'"soil"'), f'line 1, soil (column 3): "soil" stands in quotes; {IMPORT}'),
        ])

    def test_3(self):
        soil = "line 2, soil (column 3): "
        self.check([
            (changed(soil="62.5"), soil + "62.5 is not a whole number of Ω·m, 10..5000; the cautious side is up"),
            (changed(soil="400.0"), soil + "400.0 has a decimal point; write 400, or let `hocsimbur import` do so"),
            (changed(soil="0400"), soil + "0400 starts with 0; write 400"),
            (changed(soil="4000000"), soil + "4000000 has 7 digits, at most six are allowed; it must be a whole number of Ω·m, 10..5000"),
            (changed(soil="-400"), soil + "-400 has a sign; it must be a whole number of Ω·m, 10..5000"),
            (changed(soil=""), soil + "no value stands here; it must be a whole number of Ω·m, 10..5000"),
            (changed(soil="dry"), soil + "'dry' is no number; it must be a whole number of Ω·m, 10..5000"),
            (changed(soil="400 Ωm"), soil + "'400 Ωm' has letters; write only digits, a whole number of Ω·m, 10..5000"),
            (changed(xr="ten"), "line 2, xr (column 12): 'ten' is no number; it must be a whole number, 1..40"),
            (changed(split="60%"), "line 2, split (column 11): '60%' is no number; it must be a whole number per mille, 1..1000"),
            (changed(soil=" 400"), soil + f"there are spaces around '400'; {IMPORT}"),
            (changed(soil='"400"'), soil + f'"400" stands in quotes; {IMPORT}'),
            (changed(hz="60\r"), f"line 2, hz (column 22): the line ends with two bytes, 13 and 10 (CRLF), and not with byte 10 alone; {IMPORT}"),
        ])

    def test_3_too_few_and_too_many(self):
        self.check([
            (ONE.replace(b",60\n", b"\n"), "line 2, hz (column 22): there are only 21 values for 22 names; this one is missing"),
            (ONE.replace(b",60\n", b",60,\n"), "line 2, column 23: there are 23 values for 22 names; a decimal comma splits a value in two"),
            (SAMPLE + b"\n", "line 4: the line is empty; take it out, or let `hocsimbur import` do so"),
        ])

    def test_4(self):
        many = HEAD + b"\n" + ONE.split(b"\n")[1].join([b"", b"\n"]) * 300
        self.check([
            (HEAD + b"\n", "line 2: the sheet has names but no line of values"),
            (many, "line 258: the sheet has 300 lines of values, at most 256 are allowed; part it into several"),
        ])

    def test_5(self):
        self.check([
            (changed(fault=318000), "line 2, fault (column 10): 318000 A is not in 100..80000"),
            (changed(line=3, depth=50), "line 3, depth (column 16): 50 mm is not in 250..2500"),
            (changed(body=60), "line 2, body (column 9): 60 kg is not 50 or 70"),
            (changed(layer=50), "line 2, layer (column 4): 50 Ω·m is not in 0 or 100..10000"),
            (changed(xr=41), "line 2, xr (column 12): 41 is not in 1..40"),
            (changed(rods=4, rodlen=3000, place=3), "line 2, place (column 20): 3 is not in 0..2 "
             "(0 no rods, 1 at perimeter or corners, 2 inside only)"),
            (changed(metal=12), "line 2, metal (column 21): 12 is not in 1..11 "
             "(the conductor's metal, 1 copper, annealed soft-drawn, to 11 stainless steel 304)"),
        ])

    def test_6(self):
        self.check([
            (changed(line=3, thick=0), "line 3, layer (column 4): layer and thick are both 0 (bare soil) or both not 0; "
             "here layer is 2500 Ω·m and thick is 0 mm"),
            (changed(rods=4), "line 2, rods (column 18): rods, rodlen and place are all 0 (no rods) or all not 0; "
             "here rods is 4, rodlen is 0 mm and place is 0"),
        ])

    def test_7(self):
        self.check([(changed(line=3, season=1), "line 3: station 7, season 1 stands already in line 2; a station has one line for a season")])

    def test_other_order_of_columns(self):
        lines = [line.split(b",") for line in SAMPLE.splitlines()]
        turned = b"".join(b",".join(reversed(line)) + b"\n" for line in lines)
        self.assertEqual(of_sheet(turned.replace(b",3180,", b",99,")), "line 2, fault (column 13): 99 A is not in 100..80000")


class OfOthers(unittest.TestCase):
    """Refusals 8 to 23."""

    def test_9_to_11(self):
        for values, sentence in (
                ({"clear": 300, "wire": 400}, "line 2: shock, clear and wire are 500, 300 and 400 ms; the former sheet has one time for all three"),
                ({"along": 12}, "line 2: across is 11 and along is 12; the former sheet has one count for both"),
                ({"hz": 50}, "line 2, hz (column 22): 50 Hz; the former sheet is for 60 Hz alone")):
            sheet = changed(**values)
            self.assertEqual(said(lambda: core.carry_back(sheet), Asked(sheet)), sentence)

    def test_former_sheet(self):
        line = "7,1,400,2500,102,{},70,3180,600,10,{},7000,500,100,0,0,0,1\n"
        for sheet, sentence in (
                (FORMER + line.format(8, 11).encode(), "line 2, ms (column 6): 8 ms is not in 9..3000"),
                (FORMER + line.format(500, 26).encode(), "line 2, lines (column 11): 26 is not in 2..25"),
                (FORMER + line.format("a", 11).encode(), "line 2, ms (column 6): 'a' is no number; it must be a whole number of ms, 9..3000"),
                (SAMPLE, "line 1, column 6: shock is one of today's 22 names; `hocsimbur carry` reads sheets of the former 18, and today's need no carry")):
            self.assertEqual(said(lambda: core.carry(sheet), Asked(sheet, former=True)), sentence)

    def test_12_to_14(self):
        for readings, sentence in (
                ([], "there is no reading"),
                ([(1000, 1)] * 65, "there are 65 readings, at most 64 are allowed"),
                ([(1000, 1), (60500, 1)], "reading 2, distance: 60.5 m is not in 0.5..50 m"),
                ([(1000, 1), (1000, 0)], "reading 2, resistance: 0 Ω is not in 0.001..1,000 Ω"),
                ([(1000, 1000001), (1000, 1)], "reading 1, resistance: 1,000.001 Ω is not in 0.001..1,000 Ω")):
            self.assertEqual(said(lambda: core.soil(readings), Asked(readings=readings)), sentence)

    def test_15_and_16(self):
        rods = changed(ONE, rods=4, rodlen=3000, place=1)
        self.assertEqual(said(lambda: core.fewest(rods, 2000), Asked(rods, most_lines=1, side=2000)), "side: 2 m is not in 2.5..720 m")
        self.assertEqual(said(lambda: core.fewest(ONE, 70000), Asked(ONE, most_lines=1, side=70000)),
                         "line 2, rodlen (column 19): the length of a rod is 0 mm, and yards with rods are tried too; "
                         "give their length, as --rodlen 3m")
        unread = changed(ONE, across=0, along=99, space=1, rods=7, rodlen=7500, place=9)
        self.assertEqual(core.fewest(unread, 70000), core.Fewest(True, 8, 40, 33))
        self.assertEqual(said(lambda: core.fewest(changed(unread, fault=99), 70000), Asked(changed(unread, fault=99), most_lines=1, side=70000)),
                         "line 2, fault (column 10): 99 A is not in 100..80000")
        turned = b"\n".join(b",".join(reversed(line.split(b","))) for line in changed(unread, thick=0).split(b"\n"))
        self.assertEqual(said(lambda: core.fewest(turned, 70000), Asked(turned, most_lines=1, side=70000)),
                         "line 2, layer (column 19): layer and thick are both 0 (bare soil) or both not 0; here layer is 2500 Ω·m and thick is 0 mm")
        self.assertEqual(said(lambda: core.fewest(SAMPLE, 70000), Asked(SAMPLE, most_lines=1)),
                         "line 3: the sheet has 2 lines of values, and only one is taken here; choose it by --station and --season")

    def test_17_to_19(self):
        for parts, sentence in (
                ([(1000, 0)], "there are 0 branches; the injected current and 1 to 16 branches are needed"),
                ([(1000, 0)] * 18, "there are 17 branches; the injected current and 1 to 16 branches are needed"),
                ([(1000, 0), (400, -1000001)],
                 "branch 1, quadrature part: −1,000.001 A is not in −1,000..1,000 A; the split is the same for scaled currents"),
                ([(1000000, -1000000), (-1000001, 0)],
                 "branch 1, in-phase part: −1,000.001 A is not in −1,000..1,000 A; the split is the same for scaled currents"),
                ([(1000001, 0), (400, 0)],
                 "injected, in-phase part: 1,000.001 A is not in −1,000..1,000 A; the split is the same for scaled currents"),
                ([(0, 0), (400, 0)], "the injected current is 0 in both parts; nothing was injected, so there is no split")):
            self.assertEqual(said(lambda: core.split(parts), Asked(parts=parts)), sentence)

    def test_21_and_22(self):
        for licence, sentence in (
                ([], "the licence has 0 stations; 1 to 256 are allowed"),
                ([(7, 1), (0, 1)], "licence, place 2: station 0 is not in 1..65535"),
                ([(7, 1), (65536, 1)], "licence, place 2: station 65536 is not in 1..65535"),
                ([(1, 1), (1, 2)], "licence, place 2: station 1 stands there already; a station stands once in a licence"),
                ([(65535, 1), (65535, 2)], "licence, place 2: station 65535 stands there already; a station stands once in a licence"),
                ([(7, 1), (7, 2)], "licence, place 2: station 7 stands there already; a station stands once in a licence"),
                ([(7, 16)], "licence, place 1: the seasons of station 7 are 16, not in 1..15")):
            self.assertEqual(said(lambda: core.release(SAMPLE, licence), Asked(SAMPLE, licence=licence)), sentence)

    def test_too_little_room(self):
        for number in (8, 20, 23):
            self.assertIn("mistake in this package", words.refusal(core.Refused(number, 0, 0), Asked()))

    def test_every_number_of_the_header(self):
        header = (ROOT / "include" / "hocsimbur.h").read_text(encoding="utf-8")
        numbers = [int(number) for number in re.findall(r"HOCSIMBUR_REFUSED_\w+ = (\d+)", header)]
        self.assertEqual(sorted(words._WORDS), sorted(numbers))


class Lines(unittest.TestCase):
    def test_what_a_terminal_would_act_on(self):
        self.assertEqual(of_sheet(changed(soil="\x1b[2J")), "line 2, soil (column 3): '\\x1b[2J' is no number; "
                         "it must be a whole number of Ω·m, 10..5000")
        self.assertIn("'" + "a" * 40 + "…' is no number", of_sheet(changed(soil="a" * 1000)))

    def test_lines_of_the_file(self):
        """The lines named are those of the file from which the sheet's lines came."""
        for line, number in ((2, 5), (3, 6)):
            sheet = changed(line=line, fault=99)
            self.assertEqual(said(lambda: core.rows(sheet), Asked(sheet, line_numbers=[3, 5, 6])),
                             f"line {number}, fault (column 10): 99 A is not in 100..80000")

    def test_verdicts(self):
        self.assertEqual([words.verdict(verdict) for verdict in core.Verdict], ["safe", "unsafe", "undecided"])


if __name__ == "__main__":
    unittest.main()
