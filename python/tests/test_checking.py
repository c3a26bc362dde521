"""The command check: every wrong cell of every line, repeated lines, and refusals of the whole sheet."""
from __future__ import annotations

import unittest

from hocsimbur import core
from hocsimbur.sheets import checking, layout

from .common import NAMES, SAMPLE, changed, run

HEAD = SAMPLE.split(b"\n")[0]


def lines_reported(sheet: bytes):
    return [(one.number, one.line, one.column) for one in checking.check(sheet)]


class Check(unittest.TestCase):
    def test_accepted(self):
        self.assertEqual(checking.check(SAMPLE), [])

    def test_every_wrong_cell_of_every_line(self):
        sheet = changed(changed(fault=318000, soil=9), line=3, depth=50)
        self.assertEqual(lines_reported(sheet), [(5, 2, 3), (5, 2, 10), (5, 3, 16)])
        self.assertEqual(lines_reported(changed(soil="x", depth="", place=3, hz=55, station=0)),
                         [(3, 2, 3), (3, 2, 16), (5, 2, 1), (5, 2, 20), (5, 2, 22)])
        self.assertEqual(lines_reported(changed(layer="x", rods=201, rodlen=0, place=0)), [(3, 2, 4), (5, 2, 18)])
        self.assertEqual(lines_reported(changed(layer=0, rods=5)), [(6, 2, 4), (6, 2, 18)])

    def test_a_cell_put_right_makes_no_other_wrong(self):
        """Each cell of each name, wrong by itself, is the only one that is reported, whether its companions are 0 or not."""
        for sheet in (SAMPLE, changed(layer=0, thick=0), changed(rods=4, rodlen=3000, place=1)):
            for column, name in enumerate(NAMES, 1):
                self.assertEqual(lines_reported(changed(sheet, **{name: "x"})), [(3, 2, column)], name)

    def test_too_few_and_too_many_values(self):
        self.assertEqual(lines_reported(SAMPLE.replace(b",1,60\n", b",1\n", 1)), [(3, 2, 22)])
        self.assertEqual(lines_reported(SAMPLE.replace(b",1,60\n", b",1,60,7\n", 1)), [(3, 2, 23)])

        self.assertEqual(lines_reported(changed(changed(fault=318000), line=3, thick=0)), [(5, 2, 10), (6, 3, 4)])

    def test_repeated_lines_are_all_reported(self):
        line = layout.lines(SAMPLE)[1]
        sheet = SAMPLE + (line + b"\n") * 2
        self.assertEqual(lines_reported(sheet), [(7, 4, 0), (7, 5, 0)])
        self.assertIn("stands already in line 2", checking.check(sheet)[1].said)

    def test_repeat_of_a_refused_line_is_reported(self):
        self.assertEqual(lines_reported(changed(changed(fault=1), line=3, season=1)), [(5, 2, 10), (7, 3, 0)])
        self.assertEqual(lines_reported(changed(changed(season=5), line=3, season=1)), [(5, 2, 2)])

    def test_refusals_of_the_whole(self):
        self.assertEqual(lines_reported(b""), [(1, 0, 0)])
        self.assertEqual(lines_reported(HEAD + b"\n"), [(4, 2, 0)])
        self.assertEqual(lines_reported(changed(fault=1)[:-1]), [(1, 0, 0), (5, 2, 10)])
        self.assertEqual(lines_reported(SAMPLE.replace(b"soil", b"sol")), [(2, 1, 3)])
        self.assertEqual(lines_reported(SAMPLE.replace(b"soil", b"sol")[:-1]), [(1, 0, 0), (2, 1, 3)])
        self.assertEqual(lines_reported(b"PK\x03\x04"), [(1, 0, 0)])
        many = HEAD + b"\n" + b"".join(changed(station=1 + i // 4, season=1 + i % 4).split(b"\n")[1] + b"\n" for i in range(257))
        self.assertEqual(lines_reported(many), [])
        self.assertEqual(lines_reported(many + many.split(b"\n")[5] + b"\n"), [(7, 259, 0)])

    def test_too_long_a_line(self):
        sheet = SAMPLE + b"1" * 70000 + b"\n"
        self.assertEqual(lines_reported(sheet), [(1, 4, 0)])
        self.assertEqual(checking.check(sheet)[0].said, "line 4: the line is too long for a sheet of 65536 bytes")

    def test_far_too_long_a_sheet(self):
        self.assertEqual(len(lines_reported(HEAD + b"\n" + b"x\n" * 100000)), checking.MOST)
        self.assertEqual(run("check", "-", stdin=HEAD + b"\n" + b"x\n" * 1000).out.split("\n")[-2],
                         "these are the first 1000 refusals, there may be more; nothing was computed")

    def test_one_station_a_thousand_times(self):
        line = layout.lines(SAMPLE)[1] + b"\n"
        reported = lines_reported(SAMPLE + line * 700)
        self.assertEqual(reported, [(7, number, 0) for number in range(4, 704)])

    def test_the_first_reported_is_what_the_core_refuses(self):
        for sheet in (changed(fault=0), changed(line=3, soil="x"), changed(line=3, season=1), SAMPLE[:-1], SAMPLE.replace(b",", b";")):
            with self.assertRaises(core.Refused) as caught:
                core.rows(sheet)
            refused = caught.exception
            self.assertEqual(lines_reported(sheet)[0], (refused.number, refused.line, refused.column))


class Command(unittest.TestCase):
    def test_words_and_status(self):
        sheet = changed(changed(fault=318000), line=3, depth=50)
        done = run("check", "-", stdin=sheet)
        self.assertEqual(done.out, "line 2, fault (column 10): 318000 A is not in 100..80000\n"
                         "line 3, depth (column 16): 50 mm is not in 250..2500\n2 lines are refused; nothing was computed\n")
        self.assertEqual((done.status, done.err), (1, ""))

    def test_no_refusal(self):
        self.assertEqual(run("check", "tests/sample.csv"), (0, "2 lines, no refusal\n", ""))
        self.assertEqual(run("check", "--csv", "tests/sample.csv"), (0, "", ""))
        self.assertEqual(run("check", "-", stdin=b"".join(SAMPLE.splitlines(keepends=True)[:2])), (0, "1 line, no refusal\n", ""))

    def test_conclusions(self):
        self.assertTrue(run("check", "-", stdin=changed(fault=1)).out.endswith("\n1 line is refused; nothing was computed\n"))
        self.assertTrue(run("check", "-", stdin=b"").out.endswith("\nthe sheet is refused; nothing was computed\n"))
        self.assertTrue(run("check", "-", stdin=SAMPLE.replace(b"soil", b"sol")).out.endswith("\nthe sheet is refused; nothing was computed\n"))
        self.assertTrue(run("check", "-", stdin=HEAD + b"\n").out.endswith("\nthe sheet is refused; nothing was computed\n"))
        self.assertTrue(run("check", "-", stdin=changed(fault=1)[:-1]).out.endswith("\nthe sheet is refused, and 1 line; nothing was computed\n"))

    def test_for_machines(self):
        self.assertEqual(run("check", "--csv", "-", stdin=changed(fault=1)), (1, "refused,5,2,10\n", ""))


if __name__ == "__main__":
    unittest.main()
