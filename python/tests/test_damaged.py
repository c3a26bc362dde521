"""Damaged sheets: whatever the bytes are, a refusal is reported in words, and import makes an accepted sheet of them or says why not."""
from __future__ import annotations

import random
import unittest

from hocsimbur import core
from hocsimbur.sheets import checking, layout, spreadsheet, words
from hocsimbur.sheets.words import Asked

from .common import ROOT, SAMPLE

PIECES = (b"", b",", b"\n", b"\r\n", b";", b'"', b" ", b"0", b"60", b"0.5", b"-1", b"\xef\xbb\xbf", b"\xff", b"\0", b"ms", b"lines", b"soil", b"\t",
          b"1e5", b"3,180", b"\xc2\xa0", b"x" * 50, b"999999", b"hz", b"7,1,")
FORMER = (ROOT / "crates" / "carry" / "stdin").read_bytes()


def damaged(source: random.Random, sheet: bytes) -> bytes:
    """A sheet with some pieces put in, taken out or put in place of others."""
    for _ in range(source.choice((1, 1, 2, 4))):
        start = source.randrange(len(sheet) + 1)
        end = min(len(sheet), start + source.choice((0, 0, 1, 2, 5, 60)))
        sheet = sheet[:start] + source.choice(PIECES) + sheet[end:]
    return sheet


class Damaged(unittest.TestCase):
    COUNT = 400

    def sheets(self):
        source = random.Random(80)
        for _ in range(self.COUNT):
            yield damaged(source, source.choice((SAMPLE, SAMPLE, FORMER)))

    def test_refusals_have_words(self):
        for sheet in self.sheets():
            self.assertTrue(all(one.said.isprintable() and one.said for one in checking.check(sheet)))
            for carried, former in ((core.carry, True), (core.carry_back, False)):
                try:
                    carried(sheet)
                except core.Refused as refused:
                    self.assertTrue(words.refusal(refused, Asked(sheet, former=former)))

    def test_the_core_s_refusal_is_among_those_reported(self):
        for sheet in self.sheets():
            reported = [(one.number, one.line, one.column) for one in checking.check(sheet)]
            try:
                core.rows(sheet)
                self.assertEqual(reported, [])
            except core.Refused as refused:
                self.assertIn((refused.number, refused.line, refused.column), reported)

    def test_what_import_makes_is_its_own_import(self):
        for data in self.sheets():
            try:
                sheet = spreadsheet.make(data).sheet
            except spreadsheet.Refusals as refusals:
                self.assertTrue(refusals.said)
                continue
            try:
                core.rows(sheet)
            except core.Refused:
                continue
            again = spreadsheet.make(sheet)
            self.assertEqual((again.sheet, again.changes.told()), (sheet, []))
            self.assertEqual(layout.text(layout.cases(sheet)), sheet)


def written(source: random.Random) -> bytes:
    """The sample as a spreadsheet may write it, in any mixture of its ways."""
    sign = source.choice((",", ";", "\t"))
    end = source.choice(("\n", "\r\n", "\r"))

    def cell(text: str) -> str:
        if text.isdigit():
            point = "," if sign == ";" and source.random() < 0.5 else "."
            text = source.choice((text, text, text, text + point + "0", text + point + "00", "0" + text, text + point))
        else:
            text = source.choice((text, text.upper(), text.capitalize()))
        text = source.choice(("", "", " ", "\u00a0")) + text + source.choice(("", "", " ", "  "))
        return f'"{text}"' if "," in text and sign == "," or source.random() < 0.2 else text

    lines = [sign.join(cell(text) for text in layout.cells(line)) + sign * source.choice((0, 0, 2)) for line in layout.lines(SAMPLE)]
    spread = [one for line in lines for one in ([line] if source.random() < 0.8 else [sign * source.choice((0, 3)), line])]
    text = end.join(spread) + source.choice(("", end, end + end))
    encoding = source.choice(("utf-8", "utf-8", "utf-8-sig", "utf-16"))
    return text.encode(encoding)


class Mixtures(unittest.TestCase):
    def test_every_mixture_is_the_sample(self):
        source = random.Random(13)
        for _ in range(Damaged.COUNT):
            data = written(source)
            self.assertEqual(spreadsheet.make(data).sheet, SAMPLE, data)


if __name__ == "__main__":
    unittest.main()
