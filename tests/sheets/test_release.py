"""Judges release: the sheets of kind `release` of crates/sheets with their answers, against the words of the question
and the separately written calculator.
"""

import unittest

from tests.calculator.calculator import Refusal
from tests.calculator.printed import ROW_NAMES, lines_of, read_row, whole
from tests.sheets import differential, release, stored


class Answer:
    """An answer of `sheets`: a refusal, or the entries and the sheet's rows; and how much the table kept."""

    def __init__(self, lines):
        *lines, kept = lines
        word, number = kept.split(",")
        if word != "kept":
            raise ValueError(f"not what was kept: {kept!r}")
        self.kept = whole(number)
        word, *numbers = lines[0].split(",")
        self.refusal = Refusal(*map(whole, numbers)) if word == "refused" else None
        self.entries, self.rows = [], []
        if self.refusal:
            if lines[1:]:
                raise ValueError("more than a refusal is printed")
            return
        if word != "released" or len(numbers) != 1:
            raise ValueError(f"neither a count nor a refusal: {lines[0]!r}")
        count = whole(numbers[0])
        if lines[1 + count] != ",".join(ROW_NAMES):
            raise ValueError("not the lines that the count says")
        self.entries = [read_entry(line) for line in lines[1 : 1 + count]]
        self.rows = [read_row(line.split(",")) for line in lines[2 + count :]]


def read_entry(line):
    numbers = [whole(field) for field in line.split(",")]
    if len(numbers) != release.ENTRY_LENGTH:
        raise ValueError(f"an entry has not {release.ENTRY_LENGTH} numbers")
    return numbers


def answers_of(text):
    answers, lines = [], []
    for line in lines_of(text):
        lines.append(line)
        if line.startswith("kept,"):
            answers.append(Answer(lines))
            lines = []
    if lines:
        raise ValueError("the last answer does not say what was kept")
    return answers


# --------------------------------------------------------------------------
# The tests.
# --------------------------------------------------------------------------

class Stored(unittest.TestCase):
    @classmethod
    def setUpClass(cls):
        cls.asked = release.blocks()
        cls.wanted = [release.answer(*asked) for asked in cls.asked]
        cls.text, printed = stored.stored_of("release")
        cls.reported = answers_of(printed)

    def answered(self):
        return [(licence, wanted, reported) for (_, licence, _), wanted, reported in zip(self.asked, self.wanted, self.reported)
                if not reported.refusal]

    def stations(self):
        """The lines of each entry's station and its eight numbers."""
        for licence, cases, reported in self.answered():
            for numbers in reported.entries:
                yield [case for case in cases if case.station == numbers[0]], numbers

    def test_the_portfolios_are_those_of_the_maker(self):
        self.assertEqual(self.text, release.text_of(self.asked))

    def test_every_portfolio_has_its_answer(self):
        self.assertEqual(len(self.reported), len(self.asked))
        for (_, licence, _), wanted, reported in zip(self.asked, self.wanted, self.reported):
            if isinstance(wanted, Refusal):
                self.assertEqual(reported.refusal, wanted)
            else:
                self.assertIsNone(reported.refusal)
                self.assertEqual(len(reported.entries), len(licence) // 3)

    def test_the_rows_are_right(self):
        for _, cases, reported in self.answered():
            self.assertEqual([], differential.judge(cases, reported.rows, lambda: False))

    def test_the_numbers_are_those_of_the_rows(self):
        for licence, cases, reported in self.answered():
            self.assertEqual([numbers[:-1] for numbers in reported.entries], release.release_of(licence, cases, reported.rows))

    def test_the_fault_currents_are_right(self):
        for cases, numbers in self.stations():
            self.assertTrue(release.fault_is_right(cases, numbers[-1]), numbers)

    def test_a_released_station_is_safe_in_every_line(self):
        for cases, numbers in self.stations():
            if numbers[1] == 1:
                self.assertFalse(any(release.surely_above(case, case.fault) for case in cases))
                self.assertLessEqual(max(case.fault for case in cases), release.MOST_FAULT)

    def test_all_else_in_the_table_is_kept(self):
        for reported in self.reported:
            self.assertEqual(reported.kept, release.TABLE - release.ENTRY_LENGTH * len(reported.entries))

    def test_what_is_stored(self):
        """Refusals of every kind, stations released and held for each of the five reasons alone, stations without a line."""
        refused = {(reported.refusal.number, reported.refusal.column if reported.refusal.number == 22 else 0)
                   for reported in self.reported if reported.refusal}
        self.assertEqual({*((number, 0) for number in range(1, 8)), (21, 0), (22, 1), (22, 2), (22, 3), (23, 0)}, refused)
        entries = [numbers for _, _, reported in self.answered() for numbers in reported.entries]
        self.assertTrue(any(numbers[1] == 1 for numbers in entries))
        for place in range(2, 7):
            self.assertTrue(any(numbers[place] and not any(numbers[2:place] + numbers[place + 1 : 7]) for numbers in entries), place)
        self.assertTrue(any(numbers[7] == 0 for numbers in entries))
        self.assertTrue(any(0 < numbers[7] < release.MOST_FAULT for numbers in entries))
        self.assertIn(release.MOST_NUMBERS // 3, [len(reported.entries) for reported in self.reported])

    def test_wrong_fault_currents_are_seen(self):
        """None at all, the line's own, and a hundredth more or less."""
        def is_wrong(fault):
            return any(not release.fault_is_right(cases, fault(cases, numbers)) for cases, numbers in self.stations() if cases)
        self.assertTrue(is_wrong(lambda cases, numbers: 0))
        self.assertTrue(is_wrong(lambda cases, numbers: cases[0].fault))
        self.assertTrue(is_wrong(lambda cases, numbers: min(release.MOST_FAULT, numbers[-1] + 1 + numbers[-1] // 100)))
        self.assertTrue(is_wrong(lambda cases, numbers: max(release.LEAST_FAULT, numbers[-1] - 1 - numbers[-1] // 100)))


class Reader(unittest.TestCase):
    def test_only_whole_answers_are_read(self):
        self.assertEqual(answers_of("refused,21,0,0\nkept,2080\n")[0].refusal, Refusal(21, 0, 0))
        for text in ("refused,21,0,0\n", "refused,21,0,0\n1,2\nkept,2080\n", "released,1\nkept,2080\n", "kept,2080\n",
                     "refused,021,0,0\nkept,2080\n"):
            with self.assertRaises((ValueError, IndexError)):
                answers_of(text)


if __name__ == "__main__":
    unittest.main()
