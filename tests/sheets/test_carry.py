"""Judges sheets carried over: those of kind `carry` of crates/sheets, whose stdout `rt ci sheets` compares with what the
program prints for its stdin, answer by answer by the words of request (e) of document 02; what the
programs `carry` and `carry_back` print for document 01's sample; and tests the conversion itself.

    python3 -m unittest discover -s tests
"""

import random
import unittest
from collections import Counter, defaultdict
from pathlib import Path

from tests.calculator import calculator as calc
from tests.calculator.calculator import Refusal
from tests.calculator.printed import lines_of, whole
from tests.sheets import carry, stored
from tests.sheets.carry import BACK, BUFFER, FORMER, ON, PRESENT, answer, judge, sheet_text, written

CRATES = Path(__file__).parents[2] / "crates"
LARGEST = {ON: 24189, BACK: 20069}  # bytes of the largest texts
LEAST = 4  # of each refusal, each way, over different sheets

# Document 01's sample, and what becomes of it.
SAMPLE = b"""\
station,season,soil,layer,thick,ms,body,fault,split,xr,lines,space,depth,dia,rods,rodlen,place,metal
7,1,400,2500,102,500,70,3180,600,10,11,7000,500,100,0,0,0,1
7,2,100,2500,102,500,70,3180,600,10,11,7000,500,100,0,0,0,1
"""
CARRIED = b"""\
station,season,soil,layer,thick,shock,clear,wire,body,fault,split,xr,across,along,space,depth,dia,rods,rodlen,place,metal,hz
7,1,400,2500,102,500,500,500,70,3180,600,10,11,11,7000,500,100,0,0,0,1,60
7,2,100,2500,102,500,500,500,70,3180,600,10,11,11,7000,500,100,0,0,0,1,60
"""


def read_answer(text):
    """A refusal alone, or the bytes that are printed."""
    if not text.startswith("refused,"):
        return text.encode("ascii")
    line, = lines_of(text)
    return Refusal(*map(whole, line.split(",")[1:]))


def answers_of(text):
    """Each answer with the bytes that it kept; nothing for a buffer length that is none."""
    answers, lines = [], ""
    for line in lines_of(text):
        if line.startswith(carry.KEPT):
            answers.append((read_answer(lines), whole(line[len(carry.KEPT):])))
            lines = ""
        elif not lines and line + "\n" == carry.UNKNOWN:
            answers.append(None)
        else:
            lines += line + "\n"
    if lines:
        raise ValueError("the last answer does not say what was kept")
    return answers


def judge_question(question, given):
    way, sheet, room = question
    if way is None or given is None:
        return [] if way is given is None else ["a buffer length is no number, or too large"]
    return judge(way, sheet, room, *given)


def judge_all(questions, text):
    """Each wrong answer with what is wrong."""
    try:
        answers = answers_of(text)
    except (ValueError, TypeError) as error:
        return [str(error)]
    if len(answers) != len(questions):
        return [f"{len(answers)} answers to {len(questions)} questions"]
    return [(question, wrong) for question, given in zip(questions, answers)
            if (wrong := judge_question(question, given))]


# --------------------------------------------------------------------------
# The stored answers.
# --------------------------------------------------------------------------

class Stored(unittest.TestCase):
    @classmethod
    def setUpClass(cls):
        cls.text, cls.out = stored.stored_of("carry")
        cls.questions = list(carry.questions(cls.text))
        cls.answers = answers_of(cls.out)
        cls.reported = [(*question, *given) for question, given in zip(cls.questions, cls.answers) if given]
        cls.texts = [(way, sheet, given) for way, sheet, _, given, _ in cls.reported if not isinstance(given, Refusal)]


class Answers(Stored):
    def test_the_stored_sheets_are_those_made(self):
        self.assertEqual(self.text, carry.all_records())

    def test_every_answer_is_right(self):
        self.assertEqual(judge_all(self.questions, self.out), [])

    def test_the_conversion_prints_the_same(self):
        self.assertEqual(carry.all_printed(self.text), self.out)

    def test_there_and_back_restores_every_value(self):
        for way, sheet, text in self.texts:
            other = BACK if way is ON else ON
            again = answer(other, text, BUFFER)
            wanted = calc.read_sheet(sheet, form=way.source)
            self.assertEqual(calc.read_sheet(again, form=way.source), wanted)
            self.assertEqual(again, sheet_text(way.source.names, wanted))

    def test_a_carried_sheet_is_accepted_with_a_row_for_each_line(self):
        rows = 0
        for way, sheet, text in self.texts:
            if way is ON:
                cases = calc.read_sheet(text)
                former = calc.read_sheet(sheet, form=FORMER)
                self.assertEqual([case[:5] for case in cases], [case[:5] for case in former])
                self.assertEqual(calc.read_sheet(text, calc.ROW_LENGTH * len(former)), cases)
                if len(former) == 1 and rows < 20:
                    self.assertEqual(calc.judge_row(cases[0], calc.row_at(as_document_01(former[0]), 6), (6,)), [])
                    rows += 1
        self.assertEqual(rows, 20)


def as_document_01(case):
    """A case of document 01 as the calculator takes it: its one time, its one count, 60 Hz."""
    values = {name: getattr(case, name, 0) for name in PRESENT.names}
    return calc.with_lines(calc.with_one_time(calc.Case(**{**values, "hz": 60}), case.ms), case.lines)


class Coverage(Stored):
    def test_every_refusal_comes_up_each_way(self):
        sheets = defaultdict(set)
        for way, sheet, _, given, _ in self.reported:
            if isinstance(given, Refusal):
                sheets[way.name, given.number].add(sheet)
        refusals = {ON.name: (1, 2, 3, 4, 5, 6, 7, 8), BACK.name: tuple(range(1, 12))}
        for name, numbers in refusals.items():
            for number in numbers:
                self.assertGreaterEqual(len(sheets[name, number]), LEAST if number != 4 else 2, (name, number))
        self.assertEqual(set(sheets), {(name, number) for name, numbers in refusals.items() for number in numbers})

    def test_exact_fit_and_one_byte_short(self):
        found = Counter()
        for way, sheet, room, given, _ in self.reported:
            needed = written(answer(way, sheet, BUFFER))
            if needed and room in (needed, needed - 1):
                found[way.name, room - needed] += 1
                self.assertEqual(written(given), needed if room == needed else 0)
        for way in carry.WAYS:
            self.assertGreaterEqual(min(found[way.name, 0], found[way.name, -1]), 50)

    def test_the_largest_texts(self):
        for way, largest in LARGEST.items():
            self.assertEqual(max(len(text) for found, _, text in self.texts if found is way), largest)
            rooms = {room for found, sheet, room, _, _ in self.reported
                     if found is way and written(answer(way, sheet, BUFFER)) == largest}
            self.assertLessEqual({largest, largest - 1, BUFFER}, rooms)

    def test_no_text_is_larger(self):
        for way, largest in LARGEST.items():
            digits = [max(len(str(end)) for span in spans for end in span) for _, spans in carry.COLUMNS[way.target]]
            names = len(sheet_text(way.target.names, ()))
            self.assertEqual(names + calc.MAX_VALUE_LINES * sum(count + 1 for count in digits), largest)

    def test_limits_of_lines_and_bytes(self):
        counts = {text.count(b"\n") - 1 for _, _, text in self.texts}
        self.assertLessEqual({1, 2, 3, 5, 8, calc.MAX_VALUE_LINES}, counts)
        given = {(way.name, refusal) for way, _, _, refusal, _ in self.reported if isinstance(refusal, Refusal)}
        past, last = calc.MAX_VALUE_LINES + 2, calc.MAX_VALUE_LINES + 1
        for way in carry.WAYS:
            self.assertLessEqual({(way.name, Refusal(4, line, 0)) for line in (2, past)}, given)
        self.assertIn((ON.name, Refusal(7, last, 0)), given)
        self.assertLessEqual({(BACK.name, Refusal(number, last, 0)) for number in (9, 10, 11)}, given)
        sizes = {len(sheet) for _, sheet, _ in self.questions}
        self.assertLessEqual({0, calc.MAX_BYTES, calc.MAX_BYTES + 1}, sizes)

    def test_columns_in_many_orders(self):
        for way in carry.WAYS:
            orders = {sheet.split(b"\n")[0] for found, sheet, _ in self.texts if found is way}
            self.assertGreaterEqual(len(orders), 15)

    def test_every_column_out_of_range_and_surplus(self):
        for way in carry.WAYS:
            given = {refusal for found, _, _, refusal, _ in self.reported if found is way and isinstance(refusal, Refusal)}
            columns = {refusal.column for refusal in given if refusal.number == 5}
            self.assertEqual(columns, set(range(1, way.source.count + 1)))
            self.assertIn(way.source.count + 1, {refusal.column for refusal in given if refusal.number == 3})


# --------------------------------------------------------------------------
# The two programs, and the conversion itself.
# --------------------------------------------------------------------------

class Programs(unittest.TestCase):
    def test_the_sample_is_carried(self):
        self.assertEqual((CRATES / "carry" / "stdin").read_bytes(), SAMPLE)
        self.assertEqual((CRATES / "carry" / "stdout").read_bytes(), CARRIED)
        self.assertEqual(CARRIED, (CRATES.parent / "tests" / "sample.csv").read_bytes())

    def test_the_sample_is_carried_back(self):
        self.assertEqual((CRATES / "carry_back" / "stdin").read_bytes(), CARRIED)
        self.assertEqual((CRATES / "carry_back" / "stdout").read_bytes(), SAMPLE)

    def test_the_conversion_says_the_same(self):
        self.assertEqual(answer(ON, SAMPLE, BUFFER), CARRIED)
        self.assertEqual(answer(BACK, CARRIED, BUFFER), SAMPLE)


class Conversion(unittest.TestCase):
    def test_the_names_of_document_01(self):
        self.assertEqual(SAMPLE.split(b"\n")[0], b",".join(FORMER.name_bytes))
        self.assertEqual(CARRIED.split(b"\n")[0], b",".join(PRESENT.name_bytes))

    def test_columns_in_any_order_come_out_in_one(self):
        rng = random.Random(1)
        names, *lines = [line.split(b",") for line in SAMPLE.split(b"\n")[:-1]]
        for _ in range(50):
            order = rng.sample(range(18), 18)
            shuffled = b"".join(b",".join(fields[at] for at in order) + b"\n" for fields in (names, *lines))
            self.assertEqual(answer(ON, shuffled, BUFFER), CARRIED)

    def test_the_other_form_is_refused(self):
        self.assertEqual(answer(ON, CARRIED, BUFFER), Refusal(2, 1, 6))
        self.assertEqual(answer(BACK, SAMPLE, BUFFER), Refusal(2, 1, 6))

    def test_refusals_in_order(self):
        def back(first, second, room=BUFFER):
            cases = calc.read_sheet(CARRIED)
            lines = [case._replace(**values) for case, values in zip(cases, (first, second))]
            return answer(BACK, sheet_text(PRESENT.names, lines), room)
        self.assertEqual(back({"hz": 50}, {"wire": 9}), Refusal(11, 2, 0))
        self.assertEqual(back({"hz": 50, "along": 2, "wire": 9}, {}), Refusal(9, 2, 0))
        self.assertEqual(back({"hz": 50, "along": 2}, {}), Refusal(10, 2, 0))
        self.assertEqual(back({}, {"clear": 501}, 0), Refusal(9, 3, 0))
        self.assertEqual(back({"wire": 9}, {"hz": 55}, 0), Refusal(5, 3, 22))
        self.assertEqual(back({"wire": 9}, {"season": 1}, 0), Refusal(7, 3, 0))
        self.assertEqual(back({"wire": 9}, {"layer": 0}, 0), Refusal(6, 3, 4))
        self.assertEqual(back({}, {}, len(SAMPLE) - 1), Refusal(8, 0, 0))
        self.assertEqual(back({}, {}, len(SAMPLE)), SAMPLE)

    def test_refusals_of_document_01s_own_form(self):
        for old, new, refusal in (
                (b",500,70", b",8,70", (5, 2, 6)), (b",10,11,", b",10,26,", (5, 2, 11)),
                (b",0,1\n", b",0,1,60\n", (3, 2, 19)), (b",0,1\n", b",0\n", (3, 2, 18)),
                (b",metal", b"", (2, 1, 18)), (b",metal", b",metal,hz", (2, 1, 19)),
                (b",ms,", b",shock,", (2, 1, 6)), (b"7,2,", b"7,1,", (7, 3, 0))):
            self.assertEqual(answer(ON, SAMPLE.replace(old, new, 1), 0), Refusal(*refusal))

    def test_the_judge_sees_a_wrong_count_of_kept_bytes(self):
        self.assertEqual(judge(ON, SAMPLE, BUFFER, CARRIED, BUFFER - len(CARRIED)), [])
        for kept in (BUFFER, BUFFER - len(CARRIED) - 1, 0):
            self.assertNotEqual(judge(ON, SAMPLE, BUFFER, CARRIED, kept), [])

    def test_texts_that_are_no_answers(self):
        self.assertEqual(answers_of("refused,1,0,0\nkept,65536\nunknown\n"), [(Refusal(1, 0, 0), BUFFER), None])
        for text in ("", "refused,1,0,0\n", "refused,1,0\nkept,1\n", "refused,1,0,0\nrefused,1,0,0\nkept,1\n", "kept,01\n"):
            with self.assertRaises((ValueError, TypeError)):
                answers_of(text)


if __name__ == "__main__":
    unittest.main()
