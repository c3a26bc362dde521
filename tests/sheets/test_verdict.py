"""The program `verdict` is run on document 01's sample sheet, whose ms each clock has and whose lines
each count, at 60 Hz, and prints what document 01 shows, with the conductor sizes of request (d).

`rt ci verdict` compares the program's run with these files. test_batch.py judges the same listing of many
sheets.
"""

import unittest
from pathlib import Path

from tests.calculator import calculator as calc
from tests.calculator.printed import read_verdicts

ROOT = Path(__file__).parents[2]
VERDICT = ROOT / "crates" / "verdict"

SAMPLE = b"""\
station,season,soil,layer,thick,shock,clear,wire,body,fault,split,xr,across,along,space,depth,dia,rods,rodlen,place,metal,hz
7,1,400,2500,102,500,500,500,70,3180,600,10,11,11,7000,500,100,0,0,0,1,60
7,2,100,2500,102,500,500,500,70,3180,600,10,11,11,7000,500,100,0,0,0,1,60
"""
SHOWN = b"""\
station,season,verdict,kcmil
7,1,unsafe,17
7,2,safe,17
"""


class Verdict(unittest.TestCase):
    def test_the_sample_sheet(self):
        for file in (VERDICT / "stdin", ROOT / "tests" / "sample.csv"):
            self.assertEqual(file.read_bytes(), SAMPLE)

    def test_what_is_shown(self):
        self.assertEqual((VERDICT / "stdout").read_bytes(), SHOWN)

    def test_the_calculator_says_the_same(self):
        rows = [calc.row_at(case, calc.DEFAULT_DEPTH) for case in calc.read_sheet(SAMPLE)]
        self.assertEqual(read_verdicts(SHOWN.decode("ascii")), [row[:4] for row in rows])


if __name__ == "__main__":
    unittest.main()
