"""Judges the searches for the fewest lines: the questions of kind `fewest` of crates/questions, and the run of the
program `fewest`, against the separately written list of yards.
"""

import unittest

from tests.calculator import calculator as calc
from tests.calculator.calculator import Case, Refusal
from tests.calculator.printed import lines_of
from tests.questions import fewest, questions
from tests.sheets import sheets


class Searches(unittest.TestCase):
    @classmethod
    def setUpClass(cls):
        lines, printed = questions.stored()
        cls.answers = {}
        for line, out in zip(lines, printed):
            kind, *fields = line.split(",")
            if kind == fewest.KIND and len(fields) == calc.COLUMN_COUNT + 1:
                numbers = [int(field) for field in fields]
                cls.answers[Case(*numbers[:-1]), numbers[-1]] = fewest.read_answer(out[len(line) + 1 :])

    def sound(self):
        return {question: got for question, got in self.answers.items() if not isinstance(got, Refusal)}

    def test_the_questions_are_those_of_the_maker(self):
        self.assertEqual(list(self.answers), fewest.questions(questions.YARD))

    def test_every_answer_is_right(self):
        for (case, side), got in self.answers.items():
            self.assertEqual(got, fewest.answer(case, side, fewest.sure), (case, side))

    def test_refusals_and_their_order(self):
        refused = {got for got in self.answers.values() if isinstance(got, Refusal)}
        read = [1 + calc.NAMES.index(name) for name in calc.NAMES if name not in fewest.UNREAD]
        self.assertLessEqual({Refusal(5, 0, column) for column in read}, refused)
        self.assertLessEqual({Refusal(6, 0, 4), Refusal(15, 0, 0), Refusal(16, 0, 0)}, refused)
        self.assertFalse({got for got in refused if got.number == 5 and got.column not in read})

    def test_found_first_found_late_none_and_none_tried(self):
        reported = set(self.sound().values())
        self.assertIn(("none", 0), reported)
        self.assertTrue(any(got[0] == "none" and got[1] > 0 for got in reported))
        self.assertTrue(any(got[0] == "found" and got[3] == 1 for got in reported))
        self.assertTrue(any(got[0] == "found" and got[3] > 11 for got in reported))
        self.assertLessEqual(max(got[-1] for got in reported), fewest.MOST_YARDS)

    def test_unread_values_change_nothing(self):
        anything = self.answers[questions.YARD._replace(across=26), 70000]
        self.assertEqual(anything, self.answers[questions.YARD._replace(place=3), 70000])
        self.assertEqual(anything[0], "found")


class Lists(unittest.TestCase):
    def test_seventy_metres(self):
        """Eight counts divide 70 m into whole spaces of 2.5 to 30 m."""
        some = list(fewest.yards(questions.YARD, 70000))
        self.assertEqual(len(some), 88)
        self.assertEqual(sorted({yard.across for yard in some}), [5, 6, 8, 9, 11, 15, 17, 21])
        self.assertEqual([yard.rods for yard in some[:11]], list(range(0, 41, 4)))

    def test_the_most_yards_of_any_side(self):
        self.assertEqual(len(list(fewest.yards(questions.YARD, 55440))), 198)


class Program(unittest.TestCase):
    def test_the_stored_run(self):
        side, names, values = lines_of((fewest.PROGRAM / "stdin").read_text(encoding="ascii"))
        order = names.split(",")
        case = Case(**{name: int(value) for name, value in zip(order, values.split(","))})
        wanted = fewest.answer(case, int(side), fewest.sure)
        self.assertEqual(wanted[0], "found")
        self.assertEqual(fewest.sheet_answer(*fewest.parts((fewest.PROGRAM / "stdin").read_bytes()), fewest.sure), wanted)
        self.assertEqual((fewest.PROGRAM / "stdout").read_text(encoding="ascii"), ",".join(map(str, wanted)) + "\n")

    def test_a_sheet_is_read_before_its_case_and_its_side(self):
        """The order of the refusals of inputs in which two things are wrong."""
        sheet = sheets.sheet_of([fewest.YARD._replace(fault=99, across=0)])
        wrong_value = sheet.replace(b",99,", b",99.0,")
        for text, number in ((b"0\n" + sheet[:-1], 1), (b"0\nx" + wrong_value, 2), (b"0\n" + wrong_value + b"1\n", 4), (b"0\n" + wrong_value, 3),
                             (b"0\n" + sheet, 5), (b"0\n" + sheets.sheet_of([fewest.YARD._replace(rodlen=0)]), 15)):
            self.assertEqual(fewest.sheet_answer(*fewest.parts(text), fewest.sure).number, number, text)


if __name__ == "__main__":
    unittest.main()
