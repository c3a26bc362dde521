"""Verdicts, rows, margins and summary: for machines what the proved programs print, for people the same numbers rounded outward."""
from __future__ import annotations

import re
import unittest

from hocsimbur import core

from .common import ROOT, run

PROGRAMS = ("verdict", "rows", "margins", "summary")


def stored(program: str, stream: str) -> str:
    return (ROOT / "crates" / program / stream).read_text(encoding="utf-8")


class ForMachines(unittest.TestCase):
    def test_the_stored_runs_of_the_proved_programs(self):
        for program in PROGRAMS:
            done = run(program, "--csv", f"crates/{program}/stdin")
            self.assertEqual(done, (2, stored(program, "stdout"), ""), program)

    def test_every_stored_sheet_by_every_command(self):
        """The names and the order of columns are those of the proved programs for other sheets too."""
        for program in PROGRAMS:
            names = stored(program, "stdout").split("\n")[0]
            for sheet in PROGRAMS:
                out = run(program, "--csv", f"crates/{sheet}/stdin").out
                self.assertEqual(out.split("\n")[0], names)

    def test_refused(self):
        for program in PROGRAMS:
            self.assertEqual(run(program, "--csv", "examples/refused-6.csv"), (1, "refused,6,2,4\n", ""))


class ForPeople(unittest.TestCase):
    def setUp(self):
        self.sheet = (ROOT / "crates" / "margins" / "stdin").read_bytes()
        self.rows, self.margins = core.rows(self.sheet), core.margins(self.sheet)

    def test_margins_are_worst_first(self):
        lines = run("margins", "crates/margins/stdin").out.split("\n")[1:-1]
        self.assertEqual(len(lines), len(self.rows))
        worst = {(row.station, row.season): max(margin.mesh, margin.step) for row, margin in zip(self.rows, self.margins)}
        shown = [worst[tuple(int(part) for part in line.split()[:2])] for line in lines]
        self.assertEqual(shown, sorted(shown, reverse=True))

    def test_every_end_encloses(self):
        """What is shown of a pair encloses the pair: not above its lower end, not below its upper."""
        scales = {"grid current": ("current", 6), "decrement factor": ("factor", 9), "tolerable touch": ("tolerable_touch", 3),
                  "mesh": ("mesh", 3), "tolerable step": ("tolerable_step", 3), "step": ("step", 3), "resistance": ("resistance", 6),
                  "potential rise": ("rise", 3)}
        for block, row in zip(run("rows", "crates/margins/stdin").out.split("\n\n"), self.rows):
            head, _, *lines = block.strip("\n").split("\n")
            self.assertTrue(head.startswith(f"station {row.station}, season {row.season}: "))
            self.assertEqual(len(lines), 8)
            for line in lines:
                called, lower, upper = re.match(r"([a-z ]+?)  +([0-9,.]+)  +([0-9,.]+)", line).groups()
                field, scale = scales[called]
                ends = [round(float(end.replace(",", "")) * 10 ** scale) for end in (lower, upper)]
                pair = getattr(row, field)
                self.assertLessEqual(ends[0], pair.lower)
                self.assertGreaterEqual(ends[1], pair.upper)
                self.assertLessEqual(ends[1] - ends[0], pair.upper - pair.lower + 2 * 10 ** (scale - 2))

    def test_all_four_on_the_sample(self):
        self.assertEqual(run("verdict", "tests/sample.csv").out,
                         "station  season  verdict  wire needed\n      7       1  unsafe      17 kcmil\n      7       2  safe        17 kcmil\n"
                         "2 lines: 1 safe, 1 unsafe, 0 undecided\n")
        self.assertEqual(run("margins", "tests/sample.csv").out,
                         "station  season  verdict   mesh V  touch limit V        margin  step V  step limit V        margin\n"
                         "      7       1  unsafe   1,027.9          840.5  22.3 % above   625.7       2,696.0  76.7 % below\n"
                         "      7       2  safe       257.0          809.9  68.2 % below   156.5       2,573.7  93.9 % below\n")
        self.assertEqual(run("summary", "tests/sample.csv").out,
                         "station  seasons  safe  unsafe  undecided  highest mesh in season\n"
                         "      7        2     1       1          0                       1\n")
        self.assertIn("mesh              1,027.839  1,027.841  V  22.3 % above\n", run("rows", "tests/sample.csv").out)

    def test_statuses(self):
        safe = b"".join((ROOT / "tests" / "sample.csv").read_bytes().splitlines(keepends=True)[i] for i in (0, 2))
        for program in PROGRAMS:
            self.assertEqual(run(program, "-", stdin=safe).status, 0, program)
            self.assertEqual(run(program, "tests/sample.csv").status, 2, program)
            self.assertEqual(run(program, "examples/refused-5.csv").status, 1, program)
        undecided = b"".join((ROOT / "examples" / "undecided.csv").read_bytes().splitlines(keepends=True)[:2])
        self.assertEqual(run("verdict", "-", stdin=undecided).status, 2)

    def test_refused(self):
        done = run("verdict", "examples/refused-5.csv")
        self.assertEqual(done.out, "")
        self.assertEqual(done.err, "examples/refused-5.csv: line 2, depth (column 16): 60 mm is not in 250..2500\n"
                         "nothing was computed; `hocsimbur check examples/refused-5.csv` reports every refusal\n")


if __name__ == "__main__":
    unittest.main()
