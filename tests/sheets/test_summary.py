"""Judges the station summary: the sheets of kind `summary` of crates/sheets with their answers, and the run of the program
`summary`, against the summary written from the document and the separately written calculator.
"""

import unittest
from pathlib import Path

from tests.calculator import calculator as calc
from tests.calculator.calculator import Refusal
from tests.calculator.printed import ROW_NAMES, lines_of, read_row, whole
from tests.sheets import differential, stored, summary

PROGRAM = Path(__file__).parents[2] / "crates" / "summary"
NAMES = ("station", "seasons", "safe", "unsafe", "undecided", "highest_mesh_season")
DEPTH = 9


class Answer:
    """An answer of `sheets`: a refusal, or counts, stations and rows; and how much both tables kept."""

    def __init__(self, lines):
        *lines, kept = lines
        word, *numbers = kept.split(",")
        self.kept = tuple(map(whole, numbers))
        if word != "kept" or len(self.kept) != 2:
            raise ValueError(f"not what was kept: {kept!r}")
        word, *numbers = lines[0].split(",")
        self.refusal = Refusal(*map(whole, numbers)) if word == "refused" else None
        self.stations, self.rows = [], []
        if self.refusal:
            if lines[1:]:
                raise ValueError("more than a refusal is printed")
            return
        if word != "summary":
            raise ValueError(f"neither counts nor a refusal: {lines[0]!r}")
        self.counts = n, m = tuple(map(whole, numbers))
        names, stations, more, rows = lines[1], lines[2 : 2 + m], lines[2 + m], lines[3 + m :]
        if names != ",".join(NAMES) or more != ",".join(ROW_NAMES) or len(rows) != n:
            raise ValueError("not the lines that the counts say")
        self.stations = [read_station(line) for line in stations]
        self.rows = [read_row(line.split(",")) for line in rows]


def read_station(line):
    numbers = [whole(field) for field in line.split(",")]
    if len(numbers) != summary.STATION_LENGTH:
        raise ValueError(f"a station has not {summary.STATION_LENGTH} numbers")
    return numbers


def answers_of(text):
    answers, lines = [], []
    for line in lines_of(text):
        lines.append(line)
        if line.startswith("kept,"):
            answers.append(Answer(lines))
            lines = []
    if lines:
        raise ValueError("the last answer does not say what was kept")
    return answers


# --------------------------------------------------------------------------
# The tests.
# --------------------------------------------------------------------------

class Stored(unittest.TestCase):
    @classmethod
    def setUpClass(cls):
        cls.asked = summary.blocks()
        cls.wanted = [summary.answer(*asked) for asked in cls.asked]
        cls.text, printed = stored.stored_of("summary")
        cls.reported = answers_of(printed)

    def answered(self):
        return [(wanted, reported) for wanted, reported in zip(self.wanted, self.reported) if not reported.refusal]

    def test_the_sheets_are_those_of_the_maker(self):
        self.assertEqual(self.text, summary.text_of(self.asked))

    def test_every_sheet_has_its_answer(self):
        self.assertEqual(len(self.reported), len(self.asked))
        for asked, wanted, reported in zip(self.asked, self.wanted, self.reported):
            got = reported.refusal or reported.counts
            if not isinstance(wanted, Refusal):
                wanted = len(wanted), len(summary.stations_of(wanted))
            self.assertEqual(got, wanted, asked)

    def test_the_rows_are_right(self):
        for cases, reported in self.answered():
            self.assertEqual([], differential.judge(cases, reported.rows, lambda: False))

    def test_the_summary_is_that_of_the_rows(self):
        for _, reported in self.answered():
            self.assertEqual(reported.stations, summary.summary_of(reported.rows))

    def test_counts_add_up_and_every_station_stands_once(self):
        for _, reported in self.answered():
            for _, seasons, *counts, _ in reported.stations:
                self.assertEqual(sum(counts), seasons)
            self.assertEqual(sum(numbers[1] for numbers in reported.stations), len(reported.rows))
            self.assertEqual(sorted(numbers[0] for numbers in reported.stations), sorted({row[0] for row in reported.rows}))

    def test_all_else_in_both_tables_is_kept(self):
        for reported in self.reported:
            n, m = (0, 0) if reported.refusal else reported.counts
            self.assertEqual(reported.kept, (summary.MOST_ROWS - calc.ROW_LENGTH * n,
                                         summary.MOST_SUMMARY - summary.STATION_LENGTH * m))

    def test_what_is_stored(self):
        """Refusals of every kind, ties at the highest end, four seasons, the most stations, scattered lines."""
        refused = {reported.refusal.number for reported in self.reported if reported.refusal}
        self.assertLessEqual({1, 2, 3, 6, 7, 8, 20}, refused)
        tables = [reported for _, reported in self.answered()]
        self.assertIn((calc.MAX_VALUE_LINES, calc.MAX_VALUE_LINES), [reported.counts for reported in tables])
        self.assertIn((calc.MAX_VALUE_LINES, calc.MAX_VALUE_LINES // 4), [reported.counts for reported in tables])
        self.assertTrue(any(reported.counts == (4, 1) for reported in tables))
        verdicts = {row[2] for reported in tables for row in reported.rows}
        self.assertEqual(verdicts, set(summary.VERDICTS))


class Reader(unittest.TestCase):
    def test_only_whole_answers_are_read(self):
        whole_answer = "refused,20,0,0\nkept,5120,1536\n"
        self.assertEqual(answers_of(whole_answer)[0].refusal, Refusal(20, 0, 0))
        for text in ("refused,20,0,0\n", "refused,20,0,0\nkept,5120\n", "refused,20,0,0\n1,2\nkept,5120,1536\n",
                     "summary,1,1\nkept,5120,1536\n", "kept,1,2\n", "refused,020,0,0\nkept,5120,1536\n"):
            with self.assertRaises((ValueError, IndexError)):
                answers_of(text)


class Program(unittest.TestCase):
    def test_the_stored_run(self):
        """No two seasons of a station tie here, so the exact ends name the highest mesh season of every right program."""
        cases = calc.read_sheet((PROGRAM / "stdin").read_bytes())
        names, *lines = lines_of((PROGRAM / "stdout").read_text(encoding="ascii"))
        self.assertEqual(names, ",".join(NAMES))
        rows = [exact_row(case) for case in cases]
        self.assertEqual([read_station(line) for line in lines], summary.summary_of(rows))
        self.assertGreater(len(lines), 1)


def exact_row(case):
    """Station, season, verdict and mesh voltage by the exact ends, which are far from every limit."""
    ends = calc.exact_ends(case, DEPTH)
    row = [case.station, case.season, 0, 0]
    for quantity, pair in zip(calc.QUANTITIES, ends):
        row += [int(end * quantity.units) for end in pair]
    row[2] = calc.verdict_of(row)
    return row


if __name__ == "__main__":
    unittest.main()
