"""The sheets of examples/ are refused by the calculator as their names say, and the judge of them, tests/programs/examples.py, sees
wrong programs, texts and sheets. The calculator's own rows stand for the programs.
"""

import re
import unittest
from functools import lru_cache

from tests.calculator import calculator as calc
from tests.calculator.calculator import Refusal
from tests.calculator.printed import ROW_NAMES, VERDICT_NAMES, WORDS
from tests.programs import examples
from tests.questions import margins
from tests.sheets import carry

DEPTH = 12
SHEETS, README = examples.stored()


# --------------------------------------------------------------------------
# Right programs, and wrong ones made of them.
# --------------------------------------------------------------------------

@lru_cache(maxsize=None)
def right(program, sheet):
    """What a right program prints for a sheet."""
    if program in examples.WAYS:
        return examples.carried(examples.WAYS[program], sheet)
    cases = calc.read_sheet(sheet)
    if isinstance(cases, Refusal):
        return margins.text_of(cases)
    rows = [calc.row_at(case, DEPTH) for case in cases]
    if program == "margins":
        return margins.text_of(margins.margins_of(rows))
    if program == "summary":
        return examples.summed(rows)
    if program == "rows":
        return carry.sheet_text(ROW_NAMES, rows).decode("ascii")
    lines = [(*row[:2], WORDS[row[2] - 1], row[3]) for row in rows]
    return carry.sheet_text(VERDICT_NAMES, lines).decode("ascii")


def raised(text):
    """A text with each number of its last line one higher."""
    *lines, last = text.splitlines(keepends=True)
    return "".join((*lines, re.sub(r"\d+", lambda found: str(int(found[0]) + 1), last)))


def changed(program, change):
    """Right programs but for one, whose text is changed."""
    return lambda asked, sheet: change(right(asked, sheet)) if asked == program else right(asked, sheet)


class Sheets(unittest.TestCase):
    def test_refused_as_the_name_says(self):
        """By the calculator alone: today's form refuses with 1 to 7, the way back with 9 to 11."""
        for name, sheet in SHEETS.items():
            number = examples.refusal_of(name)
            today, back = calc.read_sheet(sheet), carry.answer(carry.BACK, sheet, carry.BUFFER)
            if number is None or number in examples.BACK_REFUSALS:
                self.assertNotIsInstance(today, Refusal, name)
            if number is not None:
                self.assertEqual((back if number in examples.BACK_REFUSALS else today)[0], number, name)

    def test_one_fault_each(self):
        """The fix shown makes a sound sheet of each that is refused."""
        for name, commands in examples.sections(README):
            if examples.refusal_of(name):
                _, sheet = examples.asked_by(commands[-1][0], right)
                self.assertNotIsInstance(calc.read_sheet(sheet), Refusal, name)

    def test_kept_as_bytes(self):
        """A checkout that changes line ends would remove a fault."""
        attributes = (examples.FOLDER / ".gitattributes").read_text(encoding="ascii")
        self.assertIn("*.csv -text\n", attributes)


class Judge(unittest.TestCase):
    def test_right(self):
        self.assertEqual([], examples.judge(SHEETS, README, right))

    def test_wrong_programs(self):
        """Each program in turn with other numbers, nothing printed, or every sheet refused."""
        for program in (*examples.READERS, "summary", "carry_back"):
            for change in (raised, lambda text: "", lambda text: "refused,1,0,0\n"):
                self.assertTrue(examples.judge(SHEETS, README, changed(program, change)), program)

    def test_no_program(self):
        self.assertTrue(examples.judge(SHEETS, README, examples.runner("target/none")))


class Text(unittest.TestCase):
    """Changes to examples/README.md."""

    def wrong(self, readme):
        self.assertNotEqual(readme, README)
        return examples.judge(SHEETS, readme, right)

    def test_every_line_shown(self):
        """Each number shown, one higher, and each line left out or shown twice."""
        for name, commands in examples.sections(README):
            for at, (command, shown) in enumerate(commands):
                lines = shown.splitlines(keepends=True)
                for other in (lines[:-1], lines + lines[-1:], [raised(shown)], []):
                    altered = [*commands[:at], [command, "".join(other)], *commands[at + 1 :]]
                    self.assertTrue(examples.judge_section(name, altered, right), command)

    def test_a_verdict(self):
        self.assertTrue(self.wrong(README.replace("    102,1,unsafe,17", "    102,1,safe,17", 1)))

    def test_a_heading(self):
        for readme in (README.replace("### bare.csv", "### bar.csv"), README.replace("### bare.csv\n", ""),
                       README + "\n### none.csv\n", README + "\n### bare.csv\n"):
            self.assertTrue(self.wrong(readme))

    def test_a_command(self):
        for old, new in (("bin/verdict < examples/bare.csv", "bin/rows < examples/bare.csv"),
                         ("verdict < examples/bare.csv", "verdict < examples/layered.csv"),
                         ("verdict < examples/bare.csv", "verdict examples/bare.csv"),
                         ("verdict < examples/bare.csv", "verdict < examples/none.csv"),
                         ("tr -d '\\r' <", "cat"), ("sed 3d", "sed 2d")):
            self.assertTrue(self.wrong(README.replace(old, new, 1)), old)

    def test_no_fix(self):
        section = dict(examples.sections(README))["refused-5.csv"]
        self.assertTrue(examples.judge_section("refused-5.csv", section[:1], right))


class Names(unittest.TestCase):
    """A sheet that has not what its name says."""

    def wrong(self, name, sheet):
        return examples.judge_name(name, sheet, right)

    def test_right(self):
        for name, sheet in SHEETS.items():
            self.assertEqual([], self.wrong(name, sheet), name)

    def test_another_sheet(self):
        """carry_back refuses bare.csv with 9, for its times differ."""
        others = {"bare.csv": "layered.csv", "refused-9.csv": "refused-10.csv"}
        for name in SHEETS:
            self.assertTrue(self.wrong(name, SHEETS[others.get(name, "bare.csv")]), name)

    def test_a_name_that_says_nothing(self):
        self.assertTrue(self.wrong("yard.csv", SHEETS["bare.csv"]))

    def test_a_long_sheet(self):
        lines = SHEETS["bare.csv"].splitlines(keepends=True)
        more = [lines[1].replace(b"101,", b"%d," % station, 1) for station in range(1, 8)]
        self.assertTrue(self.wrong("bare.csv", b"".join((lines[0], *more))))

    def test_a_sheet_missing(self):
        for name in SHEETS:
            fewer = {other: sheet for other, sheet in SHEETS.items() if other != name}
            self.assertTrue(examples.judge_whole(fewer, examples.sections(README)), name)

    def test_one_order_of_columns(self):
        sheets = {**SHEETS, "rectangle.csv": SHEETS["bare.csv"]}
        self.assertEqual(examples.judge_whole(sheets, examples.sections(README)), ["no sheet has its columns in another order"])


if __name__ == "__main__":
    unittest.main()
