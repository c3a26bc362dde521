"""Judges the questions of kind `headroom` of crates/questions by the words and by the program's own rows."""

import unittest

from tests.calculator import calculator as calc
from tests.calculator.calculator import Case, Refusal
from tests.calculator.printed import read_asked
from tests.questions import headroom, questions
from tests.questions.headroom import LEAST, MOST, NONE


def one_more(case, got):
    return LEAST if got == NONE else got + 1


def one_less(case, got):
    return NONE if got in (NONE, LEAST) else got - 1


class Headrooms(unittest.TestCase):
    @classmethod
    def setUpClass(cls):
        lines, printed = questions.stored()
        cls.answers, cls.verdicts = {}, {}
        for line, out in zip(lines, printed):
            kind, *fields = line.split(",")
            text = out[len(line) + 1 :]
            if headroom.is_question(line):
                cls.answers[Case(*map(int, fields))] = headroom.read_answer(text)
            elif kind == "row" and len(fields) == calc.COLUMN_COUNT and not text.startswith("refused"):
                cls.verdicts[Case(*map(int, fields))] = read_asked(text)[2]

    def sound(self):
        return {case: got for case, got in self.answers.items() if not isinstance(got, Refusal)}

    def judge(self, case, got):
        return headroom.judge(case, got, self.verdicts.get)

    def test_the_questions_are_those_of_the_maker(self):
        self.assertEqual(list(self.answers), headroom.questions(questions.YARD))

    def test_every_answer_is_right(self):
        for case, got in self.answers.items():
            self.assertEqual([], self.judge(case, got), case)

    def test_the_rows_that_decide_are_stored(self):
        """Each is judged by test_asked.py as every row is."""
        for case, got in self.sound().items():
            reported = LEAST - 1 if got == NONE else got
            for fault in {reported, reported + 1}:
                if LEAST <= fault <= MOST:
                    self.assertIn(case._replace(fault=fault), self.verdicts)

    def test_the_sample(self):
        """Season 1 is unsafe at 3,180 A, season 2 safe; the manual shows both."""
        self.assertEqual([self.answers[case] for case in headroom.sample()], [2600, 10023])

    def test_edges(self):
        reported = list(self.sound().values())
        self.assertLessEqual({NONE, LEAST, LEAST + 1, 1000, MOST}, set(reported))
        self.assertGreaterEqual(len([got for got in reported if got not in (NONE, LEAST, MOST)]), 50)
        self.assertTrue(any(got != NONE and 20000 < got < MOST for got in reported))

    def test_the_own_fault_current_does_not_matter(self):
        by_yard = {}
        for case, got in self.sound().items():
            by_yard.setdefault(case._replace(fault=0), []).append(got)
        several = [some for some in by_yard.values() if len(some) > 1]
        self.assertGreaterEqual(len(several), 6)
        self.assertTrue(all(len(set(some)) == 1 for some in several))

    def test_refusals(self):
        refused = {got for got in self.answers.values() if isinstance(got, Refusal)}
        self.assertEqual(refused, {Refusal(5, 0, column) for column in range(1, calc.COLUMN_COUNT + 1)}
                         | {Refusal(6, 0, 1 + calc.NAMES.index(name)) for name in ("layer", "rods")})

    def test_one_ampere_more_or_less_is_seen(self):
        for wrong in (one_more, one_less):
            others = {case: wrong(case, got) for case, got in self.sound().items()}
            changed = [case for case, other in others.items() if other != self.answers[case]]
            self.assertTrue(changed)
            self.assertEqual(changed, [case for case in changed if self.judge(case, others[case])])

    def test_changed_refusals_are_seen(self):
        for case, got in self.answers.items():
            if isinstance(got, Refusal):
                for other in (got._replace(number=11 - got.number), got._replace(line=1), got._replace(column=got.column + 1),
                              NONE, LEAST, MOST):
                    self.assertTrue(self.judge(case, other))
            else:
                self.assertTrue(self.judge(case, Refusal(5, 0, 10)))


if __name__ == "__main__":
    unittest.main()
