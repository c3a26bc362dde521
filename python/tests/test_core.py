"""The binding: numbers that the library's types cannot hold, empty sheets, and answers compared with the stored runs of the proved programs."""
from __future__ import annotations

import ctypes
import dataclasses
import unittest

from hocsimbur import core

from .common import ROOT, SAMPLE, changed


class Types(unittest.TestCase):
    def test_no_number_is_cut(self):
        """A number of 33 bits would be another one in 32."""
        rods = b"".join(changed(rods=4, rodlen=3000, place=1).splitlines(keepends=True)[:2])
        wide = 1 << 32
        for question in (lambda: core.soil([(wide + 1000, 10)]), lambda: core.soil([(1000, wide + 10)]), lambda: core.soil([(-1, 10)]),
                         lambda: core.release(SAMPLE, [(wide + 7, 15)]), lambda: core.release(SAMPLE, [(7, wide + 15)]),
                         lambda: core.fewest(rods, wide + 60000), lambda: core.split([((1 << 64) + 1000, 0), (400, 0)])):
            with self.assertRaises(OverflowError):
                question()

    def test_an_empty_array_is_a_null_pointer(self):
        for kind in (ctypes.c_uint8, ctypes.c_uint32, ctypes.c_int64):
            pointer, length = core._slice((kind * 0)())
            self.assertEqual((pointer, length.value), (None, 0))
            array = (kind * 2)(3, 4)
            pointer, length = core._slice(array)
            self.assertIs(pointer, array)
            self.assertEqual(length.value, 2)

    def test_the_words_of_a_number_that_does_not_fit(self):
        for question, words in ((lambda: core.soil([(1 << 32, 10)]), "4294967296 does not fit the library's 32 bits"),
                                (lambda: core.split([(1 << 63, 0), (400, 0)]), "9223372036854775808 does not fit the library's 64 bits")):
            with self.assertRaises(OverflowError) as caught:
                question()
            self.assertEqual(str(caught.exception), words)

    def test_numbers_at_the_ends_of_the_types(self):
        for question, number in ((lambda: core.soil([((1 << 32) - 1, 10)]), 13), (lambda: core.release(SAMPLE, [((1 << 32) - 1, 15)]), 22),
                                 (lambda: core.split([((1 << 63) - 1, 0), (400, 0)]), 18), (lambda: core.split([(-(1 << 63), 0), (400, 0)]), 18)):
            with self.assertRaises(core.Refused) as caught:
                question()
            self.assertEqual(caught.exception.number, number)


class Answers(unittest.TestCase):
    def test_empty(self):
        for question in (core.rows, core.summary, core.margins, core.working, core.headroom, core.carry, core.carry_back,
                         lambda sheet: core.release(sheet, [(7, 15)]), lambda sheet: core.fewest(sheet, 60000)):
            with self.assertRaises(core.Refused) as caught:
                question(b"")
            self.assertEqual((caught.exception.number, caught.exception.line, caught.exception.column), (1, 0, 0))
        for question, number in ((lambda: core.soil([]), 12), (lambda: core.split([]), 17), (lambda: core.release(SAMPLE, []), 21)):
            with self.assertRaises(core.Refused) as caught:
                question()
            self.assertEqual(caught.exception.number, number)

    def test_as_many_as_lines(self):
        for path in (ROOT / "crates" / "rows" / "stdin", ROOT / "crates" / "margins" / "stdin"):
            sheet = path.read_bytes()
            lines = sheet.count(b"\n") - 1
            for question in (core.rows, core.margins, core.working, core.headroom):
                self.assertEqual(len(question(sheet)), lines)
            self.assertEqual(sum(station.seasons for station in core.summary(sheet)), lines)

    def test_headroom_is_exact(self):
        """At the greatest fault current the line is safe, at 1 A more it is not."""
        for line, fault in zip((2, 3), core.headroom(SAMPLE)):
            self.assertEqual(core.rows(changed(line=line, fault=fault))[line - 2].verdict, core.Verdict.SAFE)
            self.assertNotEqual(core.rows(changed(line=line, fault=fault + 1))[line - 2].verdict, core.Verdict.SAFE)

    def test_pairs_are_in_order(self):
        for row, working in zip(core.rows(SAMPLE), core.working(SAMPLE)):
            for answer in (row, working):
                for field in dataclasses.fields(answer):
                    value = getattr(answer, field.name)
                    if isinstance(value, core.Pair):
                        self.assertLessEqual(value.lower, value.upper, field.name)

    def test_working_of_the_sample(self):
        """IEEE Std 80's example B.1 has this yard, and prints n 11, Ki 2.272, Kii 0.57, Kh 1.225, Km 0.89 and Cs 0.74."""
        working = core.working(SAMPLE)[0]
        self.assertEqual((working.n, working.ki, working.lc), (core.Pair(110_000_000, 110_000_000), core.Pair(22_720_000_000, 22_720_000_000),
                                                              core.Pair(1_540_000_000, 1_540_000_000)))
        for pair, scale, printed in ((working.kii, 9, 570), (working.kh, 9, 1224), (working.km, 7, 889), (working.cs, 9, 742)):
            self.assertEqual(pair.lower // 10 ** (scale - 3), printed)


if __name__ == "__main__":
    unittest.main()
