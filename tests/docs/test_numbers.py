"""The refusals by their numbers: the table of docs/specification.md §2.1 against the header, the code, the definitions, Python and the desk page."""

import re
import sys
import unittest
from pathlib import Path

ROOT = Path(__file__).parents[2]
CRATES = ROOT / "crates"
DOCS = ROOT / "docs"
ROW = re.compile(r"^\| (\d+) \| ([A-Z_]+) \| ([^|]+) \| ([^|]+) \| \[(\S+)\]\((\.\./crates/\S+)\) \|$", flags=re.MULTILINE)
NUMERAL = re.compile(r"\b(?:Refused|refuse|refused_at) (\d+)")

sys.path.insert(0, str(ROOT / "python"))

from hocsimbur import core  # noqa: E402
from hocsimbur.sheets import words  # noqa: E402


def table():
    """Of each number its name, line and column, condition, definition and the file of that."""
    text = (DOCS / "specification.md").read_text(encoding="utf-8")
    text = text[text.index("### 2.1 "):text.index("### 2.2 ")]
    return {int(number): tuple(rest) for number, *rest in ROW.findall(text)}


def names():
    return {number: name for number, (name, *_) in table().items()}


def body(text, name):
    """A definition of a file: its signature and its clauses."""
    found = re.search(rf"^ *(?:unfoldable |abbrev )?pub {re.escape(name)} :.*?(?=\n\n|\Z)", text, flags=re.MULTILINE | re.DOTALL)
    return found[0] if found else ""


def definitions():
    """The files that define what is refused, with the numbers that stand in each; the page of claims says them again and is proved."""
    for path in sorted(CRATES.glob("*/specs/*.antt")):
        numbers = {int(number) for number in NUMERAL.findall(path.read_text(encoding="utf-8"))}
        if numbers and path.name != "Examples.antt" and path.parts[-3] != "claims":
            yield path, numbers


class Numbers(unittest.TestCase):
    def test_the_table_has_every_number_once(self):
        self.assertEqual(list(table()), list(range(1, 24)))
        self.assertEqual(len(set(names().values())), 23)
        rows = len(re.findall(r"^\| \d+ \| [A-Z]", (DOCS / "specification.md").read_text(encoding="utf-8"), flags=re.MULTILINE))
        self.assertEqual(rows, 23)

    def test_lines_and_columns(self):
        for number, (_, place, *_) in table().items():
            self.assertRegex(place, r"^(?:\d|line|pair|station), (?:\d|column)$", number)

    def test_header(self):
        header = (ROOT / "include" / "hocsimbur.h").read_text(encoding="ascii")
        said = re.findall(r"HOCSIMBUR_REFUSED_(\w+) = (\d+)", header)
        self.assertEqual([(name, int(number)) for name, number in said], [(name, number) for number, name in names().items()])

    def test_header_places(self):
        """Where the header says that a refusal points elsewhere than at a line of the sheet, the table says so too, and nowhere else."""
        header = (ROOT / "include" / "hocsimbur.h").read_text(encoding="ascii")
        said = {int(number) for number, comment in re.findall(r"HOCSIMBUR_REFUSED_\w+ = (\d+),? +/\* (.*?) \*/", header) if " as line" in comment}
        self.assertEqual(said, {number for number, (_, place, *_) in table().items() if re.match("pair|station", place)})

    def test_code(self):
        """Each number is one constant, but for 5 of the logarithm, which knows no sheets; no numeral is refused with."""
        said = {}
        for path in sorted(CRATES.glob("*/src/*.rt")):
            text = path.read_text(encoding="utf-8")
            self.assertNotRegex(text, r"Refused\(\d", path)
            for name, number in re.findall(r"const REFUSED_(\w+): u32 = (\d+);", text):
                self.assertEqual(names().get(int(number)), name, path)
                said.setdefault(int(number), []).append(path.parts[-3])
        self.assertEqual(sorted(said), sorted(names()))
        self.assertEqual({number: crates for number, crates in said.items() if len(crates) > 1}, {5: ["case", "logarithm"]})

    def test_definitions(self):
        for number, (_, _, _, definition, path) in table().items():
            text = (DOCS / path).read_text(encoding="utf-8")
            self.assertIn(number, map(int, NUMERAL.findall(body(text, definition))), f"{path}: {definition}")
        self.assertEqual(set().union(*(numbers for _, numbers in definitions())), set(names()))

    def test_a_number_is_refused_with_by_its_own_crate(self):
        """A numeral stands in the definition that the table names; 1, 5, 6 and 8 are refused with by other questions too."""
        own = {number: (DOCS / path).resolve() for number, (*_, path) in table().items()}
        for path, numbers in definitions():
            others = {number for number in numbers if own[number] != path.resolve()}
            self.assertLessEqual(others, {1, 5, 6, 8}, path)

    def test_python(self):
        self.assertEqual({int(one): one.name for one in core.Refusal}, names())
        self.assertEqual(list(words._WORDS), list(core.Refusal))
        for one, says in words._WORDS.items():
            self.assertEqual(says.__name__, "_room" if one in words.OWN_FAULTS else f"_{one.name.lower()}")

    def test_no_numeral_in_python_and_on_the_desk_page(self):
        for path in (*(ROOT / "python" / "hocsimbur").rglob("*.py"), *(ROOT / "desk" / "src").rglob("*.js")):
            self.assertNotRegex(path.read_text(encoding="utf-8"), r"(?:refused|one)\.number (?:==|!=|in|not in) \(?\d|\bnumber === [1-9]", path)

    def test_the_test_reads_definitions(self):
        text = "unfoldable pub one : A\none (B x) =\n    Refused 4 x 0\n\nunfoldable pub two : A\ntwo = Refused 5 0 0\n"
        self.assertEqual(NUMERAL.findall(body(text, "one")), ["4"])
        self.assertEqual(NUMERAL.findall(body(text, "two")), ["5"])
        self.assertEqual(body(text, "three"), "")


if __name__ == "__main__":
    unittest.main()
