"""Judges a batch of random sheets, sound and damaged: those of kind `rows` of crates/sheets, whose stdout `rt ci sheets`
compares with what the program prints for its stdin, against the separately written calculator.

Each sheet is answered four times: all numbers, then the verdicts, each for a table with room for
every row and for one with room for two. After each answer stands how many numbers of the whole
table kept their values.
"""

import unittest
from itertools import product

from tests.calculator import calculator as calc
from tests.calculator.calculator import Refusal
from tests.calculator.printed import SHEET_END, lines_of, read_rows, read_verdicts, whole
from tests.sheets import differential, sheets, stored

TABLE = calc.MAX_VALUE_LINES * calc.ROW_LENGTH
ROOMS = (TABLE, 2 * calc.ROW_LENGTH)
READERS = (read_rows, read_verdicts)
KEPT = "kept,"
LEAST_OF_EACH = 3
# What names of document 01 a sheet may have, and their first column in its own order.
OLD_COLUMNS = {("ms",): 6, ("lines",): 13, ("ms", "lines"): 6}
LEAST_PAIRS = 60  # of unequal counts at each place of rods


def answers_of(text):
    """The text of each answer, and how many numbers it left as they were."""
    answers, lines = [], ""
    for line in lines_of(text):
        if line.startswith(KEPT):
            answers.append((lines, whole(line[len(KEPT):])))
            lines = ""
        else:
            lines += line + "\n"
    if lines:
        raise ValueError("the last answer does not say what was kept")
    return answers


def kept_after(wanted):
    """A refusal changes nothing, and rows change their own numbers."""
    return TABLE - (0 if isinstance(wanted, Refusal) else calc.ROW_LENGTH * len(wanted))


def names_of(sheet):
    return sheet.split(calc.LINE_END)[0].split(calc.FIELD_END)


def is_sound(sheet):
    return not isinstance(calc.read_sheet(sheet), Refusal)


def old_columns(sheet):
    """The names of document 01 in a sheet that is otherwise sound, each with its column; it may have no
    column for the frequency.
    """
    names = names_of(sheet)
    found = {old: names.index(old.encode("ascii")) + 1
             for old in sheets.OLD_NAMES if old.encode("ascii") in names}
    for old in found:
        sheet = sheets.carried_over(sheet, old)
    return found if is_sound(sheets.with_frequency(sheet)) else {}


def stays_safe(verdicts):
    """Whether no verdict after a safe one is another."""
    return all(later == calc.SAFE for reported, later in zip(verdicts, verdicts[1:]) if reported == calc.SAFE)


class Batch(unittest.TestCase):
    @classmethod
    def setUpClass(cls):
        cls.text, printed = stored.stored_of("rows")
        cls.sheets = [part.partition(calc.LINE_END)[2] for part in cls.text.split(SHEET_END)[:-1]]
        cls.asked = [(sheet, room) for sheet in cls.sheets for room in ROOMS]
        cls.wanted = [calc.read_sheet(sheet, room) for sheet, room in cls.asked]
        cls.answers = answers_of(printed)
        cls.rows = cls.listed(read_rows)
        cls.verdicts = cls.listed(read_verdicts)

    @classmethod
    def listed(cls, reader):
        """The answers of one listing, in the order of what is asked."""
        of_sheet = [read for read in READERS for _ in ROOMS]
        return [
            reader(text) for (text, _), read in zip(cls.answers, of_sheet * len(cls.sheets))
            if read is reader
        ]


class Answers(Batch):
    def test_the_sheets_are_those_of_the_differential_run(self):
        self.assertEqual(self.text, sheets.batch())
        self.assertEqual(self.sheets, sheets.batch_sheets())

    def test_every_sheet_has_its_answers(self):
        self.assertEqual(len(self.answers), len(READERS) * len(self.asked))

    def test_every_row_is_right(self):
        wrong = []
        for (sheet, room), wanted, rows in zip(self.asked, self.wanted, self.rows):
            for complaint in differential.judge(wanted, rows, lambda: False):
                wrong.append(f"{sheet!r} in {room} numbers: {complaint}")
        self.assertEqual([], wrong)

    def test_every_verdict_is_that_of_its_row(self):
        for rows, verdicts in zip(self.rows, self.verdicts):
            wanted = rows if isinstance(rows, Refusal) else [row[:4] for row in rows]
            self.assertEqual(verdicts, wanted)

    def test_all_else_in_the_table_is_kept(self):
        rooms = len(ROOMS)
        wanted = [
            kept_after(answer) for at in range(0, len(self.wanted), rooms)
            for answer in self.wanted[at : at + rooms] * len(READERS)
        ]
        self.assertEqual([kept for _, kept in self.answers], wanted)


class Coverage(Batch):
    def test_every_refusal_comes_up_in_both_listings(self):
        for answers in (self.rows, self.verdicts):
            refused = [answer.number for answer in answers if isinstance(answer, Refusal)]
            for number in range(1, 9):
                self.assertGreaterEqual(refused.count(number), LEAST_OF_EACH, number)

    def test_every_verdict_comes_up_in_both_listings(self):
        for answers in (self.rows, self.verdicts):
            accepted = [answer for answer in answers if not isinstance(answer, Refusal)]
            found = [row[2] for rows in accepted for row in rows]
            for verdict in (calc.SAFE, calc.UNSAFE, calc.UNDECIDED):
                self.assertGreaterEqual(found.count(verdict), LEAST_OF_EACH, verdict)

    def test_undecided_by_mesh_alone_and_by_step_alone(self):
        ways = set()
        for rows in self.rows:
            for row in () if isinstance(rows, Refusal) else rows:
                pairs = calc.row_pairs(row)
                if row[2] == calc.UNDECIDED:
                    ways.add((pairs.mesh[1] <= pairs.tolerable_touch[0],
                              pairs.step[1] <= pairs.tolerable_step[0]))
        self.assertLessEqual({(False, True), (True, False)}, ways)

    def test_sheets_at_the_limits(self):
        self.assertLessEqual({0, calc.MAX_BYTES, calc.MAX_BYTES + 1}, set(map(len, self.sheets)))
        rows = {len(wanted) for wanted in self.wanted if not isinstance(wanted, Refusal)}
        self.assertLessEqual({1, 2, calc.MAX_VALUE_LINES}, rows)
        self.assertIn(Refusal(4, calc.MAX_VALUE_LINES + 2, 0), self.wanted)
        self.assertIn(Refusal(4, 2, 0), self.wanted)

    def test_sheets_with_names_of_document_01_are_refused_at_the_first(self):
        columns = {names: set() for names in OLD_COLUMNS}
        for (sheet, _), rows, verdicts in zip(self.asked, self.rows, self.verdicts):
            found = old_columns(sheet)
            if found:
                columns[tuple(found)].add(min(found.values()))
                self.assertEqual((rows, verdicts), (Refusal(2, 1, min(found.values())),) * 2)
        for names, column in OLD_COLUMNS.items():
            self.assertIn(column, columns[names], names)
            self.assertGreaterEqual(len(columns[names]), 2, names)

    def test_sheets_without_a_frequency_are_refused_after_the_last_name(self):
        """Sheets of 21 names that are sound with a frequency; others have names of document 01."""
        found, older = 0, 0
        for (sheet, _), rows, verdicts in zip(self.asked, self.rows, self.verdicts):
            if b"hz" in names_of(sheet):
                continue
            older += bool(old_columns(sheet))
            if is_sound(sheets.with_frequency(sheet)):
                self.assertEqual((rows, verdicts), (Refusal(2, 1, 22),) * 2)
                found += 1
        self.assertGreaterEqual(min(found, older), LEAST_OF_EACH)

    def test_other_frequencies_are_refused_at_their_column(self):
        columns = set()
        for (sheet, _), rows, verdicts in zip(self.asked, self.rows, self.verdicts):
            names = names_of(sheet)
            column = names.index(b"hz") + 1 if b"hz" in names else 0
            if isinstance(rows, Refusal) and (rows.number, rows.column) == (5, column):
                self.assertEqual(rows, verdicts)
                columns.add(column)
        self.assertIn(22, columns)
        self.assertGreaterEqual(len(columns), LEAST_OF_EACH)

    def test_accepted_sheets_have_the_frequency_anywhere(self):
        columns = {names_of(sheet).index(b"hz") + 1
                   for (sheet, _), rows in zip(self.asked, self.rows) if not isinstance(rows, Refusal)}
        self.assertIn(22, columns)
        self.assertGreaterEqual(len(columns), 10)

    def test_factors_of_both_frequencies(self):
        """The least and the greatest 2tf/Ta, and from none to eleven halvings of it."""
        faults = {(case.clear, case.xr, case.hz) for wanted in self.wanted
                  if not isinstance(wanted, Refusal) for case in wanted}
        for hz in (50, 60):
            self.assertLessEqual({(9, 40, hz), (3000, 1, hz)}, faults)
            halvings = {calc.exp_halvings(calc.factor_exponent(*fault, 3).lower)
                        for fault in faults if fault[2] == hz}
            self.assertLessEqual(set(range(12)), halvings)

    def test_pairs_of_counts_at_each_place(self):
        """Both ends of spacing and depth with each place, and equal counts among them."""
        cases = [case for wanted in self.wanted if not isinstance(wanted, Refusal) for case in wanted]
        for place in range(3):
            there = [case for case in cases if case.place == place]
            unequal = {(case.across, case.along) for case in there if case.across != case.along}
            self.assertGreaterEqual(len(unequal), LEAST_PAIRS)
            self.assertTrue(any(case.across == case.along for case in there))
            found = {(case.space, case.depth) for case in there}
            self.assertLessEqual(set(product((2500, 30000), (250, 2500))), found)

    def test_less_current_leaves_a_safe_yard_safe(self):
        """Request (n): each station's seasons have less and less fault current, all else equal."""
        cases = sheets.cases_of_less_current(sheets.BATCH_SEED)
        verdicts = [row[2] for row in self.rows[self.wanted.index(cases)]]
        seasons = [verdicts[at : at + sheets.SEASONS]
                   for at in range(0, len(verdicts), sheets.SEASONS)]
        self.assertEqual([], [reported for reported in seasons if not stays_safe(reported)])
        first = [reported[0] for reported in seasons]
        self.assertGreaterEqual(min(first.count(calc.SAFE), first.count(calc.UNSAFE)), LEAST_OF_EACH)
        self.assertIn(calc.SAFE, {reported[1] for reported in seasons if reported[0] != calc.SAFE})

    def test_one_sheet_is_of_the_pairs_of_counts(self):
        share = sheets.cases_of_pairs(sheets.BATCH_SEED)[:: sheets.PAIRS_EVERY]
        self.assertLessEqual(len(share), calc.MAX_VALUE_LINES)
        self.assertIn(share, self.wanted)

    def test_sound_above_what_document_01_allowed(self):
        """More than 64 lines and 16,384 bytes, before request (h) of document 02."""
        self.assertTrue(any(len(sheet) > 16384 and len(wanted) > 64
                            for (sheet, _), wanted in zip(self.asked, self.wanted)
                            if not isinstance(wanted, Refusal)))

    def test_a_key_repeated_in_the_last_line(self):
        """Lines 2 and 257 have one station and season; without either the sheet is sound."""
        last = calc.MAX_VALUE_LINES + 1
        at = self.wanted.index(Refusal(7, last, 0))
        names, first, *between, again = self.asked[at][0].split(b"\n")[:-1]
        self.assertEqual(len(between), last - 3)
        for lines in ((names, first, *between), (names, *between, again)):
            accepted = calc.read_sheet(b"\n".join(lines) + b"\n")
            self.assertEqual(len(accepted), calc.MAX_VALUE_LINES - 1)

    def test_61_stations_of_four_seasons(self):
        keys = [[station, season] for station in range(1, 62) for season in range(1, 5)]
        for answers in (self.rows, self.verdicts):
            accepted = [answer for answer in answers if not isinstance(answer, Refusal)]
            self.assertIn(keys, [[row[:2] for row in rows] for rows in accepted])


class Judging(unittest.TestCase):
    """Texts that are no answers."""

    def test_other_words_and_forms(self):
        names = "station,season,verdict,kcmil\n"
        self.assertEqual(read_verdicts(names + "7,1,undecided,16\n"), [[7, 1, calc.UNDECIDED, 16]])
        for text in ("", names[:-1], names + "7,1,3,16\n", names + "7,1,safe,16,\n",
                     names + "7,1,Safe,16\n", names + "7,1, safe,16\n", "refused,8,0\n"):
            with self.assertRaises((ValueError, TypeError)):
                read_verdicts(text)

    def test_what_is_kept_must_be_said(self):
        self.assertEqual(answers_of("a\nkept,3\nkept,0\n"), [("a\n", 3), ("", 0)])
        for text in ("a\n", "a\nkept,3\nb\n", "kept,03\n", "kept,\n"):
            with self.assertRaises(ValueError):
                answers_of(text)


if __name__ == "__main__":
    unittest.main()
