"""The stored list of the page of claims (tools/page.py): it is what the tree has, every offered operation has a caller that ensures what the
page says, and a page that says less is seen."""

import re
import sys
import unittest
from pathlib import Path

ROOT = Path(__file__).parents[2]
sys.path.insert(0, str(ROOT / "tools"))

import page  # noqa: E402

SPECS = "crates/claims/specs/"
PROMISES = "crates/promises/src/lib.rt"


def without(start, end="\n"):
    """A cut: the text from `start` up to the next `end` goes."""

    def cut(text):
        first = text.index(start)
        return text[:first] + text[text.index(end, first + len(start)):]

    return cut


def instead(old, new):
    """A cut: one text in place of another."""

    def cut(text):
        assert text.count(old) == 1, old
        return text.replace(old, new)

    return cut


# Ways to say less that leave every proof in place once its own line is removed: (what, file, cut).
CUTS = [
    ("the rules are not enough", SPECS + "Claims.antt", without("  pub rules_enough :")),
    ("the starred yards are not claimed", SPECS + "Claims.antt", without("  pub starred :")),
    ("less current for squares alone", SPECS + "Claims.antt",
     instead("LessFault (case_at s i) (case_at t j)\n", "LessFault (case_at s i) (case_at t j) → (case_at s i).across ≡ (case_at s i).along\n")),
    ("no potential rise in a row", SPECS + "Demands.antt", without("  pub rise :")),
    ("unsafe need not be true", SPECS + "Demands.antt", without("  pub unsafe_true :")),
    ("8 one way", SPECS + "Demands.antt",
     instead("(r ≡ Refused 8 0 0) ↔ TooShort s (length before) 20", "r ≡ Refused 8 0 0 → TooShort s (length before) 20")),
    ("safe one way", SPECS + "Demands.antt",
     instead("(verdict_at table i ≡ pos 1) ↔ EndsBelow table i", "verdict_at table i ≡ pos 1 → EndsBelow table i")),
    ("a found yard need not be the first", SPECS + "Yards.antt", without("  pub first :")),
    ("none need not be none", SPECS + "Yards.antt", without("  pub none : (l j")),
    ("a released station's wire may be too thin", SPECS + "Releases.antt", without("  pub own_wire :")),
    ("of two equal seasons either is the worst", SPECS + "Summary.antt", without("  pub earlier :")),
    ("a carried sheet in any order of names", SPECS + "Carried.antt", without("  pub order :")),
    ("bytes past the last row may change", SPECS + "Requests.antt", without("  pub rest_kept :")),
    ("any split that is enough", SPECS + "Measured.antt", without("    pub smallest :", "\n\n")),
    ("no caller asks for a row", PROMISES, without("pub fn ask_row(", "\n}\n")),
    ("the caller of margins ensures nothing", PROMISES,
     instead("    ensures { MarginsOutcome row.now result }\n", "")),
]


def offered():
    """The operations that `hocsimbur` offers, as the callers name them, and the entries for programs in C."""
    text = page.read_file("crates/hocsimbur/src/lib.rt")
    used = re.findall(r"^pub use [a-z_]+::(?:(\w+)|\{([^}]+)\});", text, flags=re.MULTILINE)
    names = [name for one, more in used for name in re.findall(r"\b[a-z_]+\b", one or more)]
    names += re.findall(r"^pub fn ([a-z_]+)", text, flags=re.MULTILINE)
    entries = []
    for path in sorted((ROOT / "crates").glob("c_*_c/src/*.rt")):
        crate = path.parents[1].name.removesuffix("_c")
        for name in re.findall(r'#\[unsafe\(no_mangle\)\]\npub extern "C" fn ([a-z_]+)', path.read_text(encoding="utf-8")):
            entries.append(f"{crate}::{name}")
    return [f"hocsimbur::{name}" for name in names] + entries


def entries(text, head):
    """Of each entry of a crate its parameters and answer, what it ensures, by the names of where each word of that comes from, and its code."""
    uses = {}
    for paths in re.findall(r"^ghost use ([^;]+);", text, flags=re.MULTILINE):
        uses.update((path.split(".")[-1], path) for path in page.expanded(paths))
    found = {}
    for name, fields, promise, code in re.findall(head + r"(\w+)([^{]*?)\s*(ensures \{.*?\})\n\{\n(.*?)\n\}", text, flags=re.DOTALL):
        fields = page.plain(fields).replace("( ", "(").replace(", )", ")")
        words = [uses.get(word, word) for word in re.findall(r"[^\s(){}]+", promise)]
        found[name] = (fields, words, page.plain(code))
    return found


class Page(unittest.TestCase):
    def test_stored(self):
        self.assertEqual(page.listed(), page.read_file(page.STORED), "python3 tools/page.py --write")

    def test_every_operation_has_a_caller(self):
        callers = page.ensured(page.read_file(PROMISES))
        operations = offered()
        self.assertGreater(len(operations), 30)
        for operation in operations:
            asked = [line for line in callers if f" {operation}(" in line]
            self.assertTrue(asked, operation)
            for line in asked:
                self.assertIn(" ensures { ", line)

    def test_an_exported_entry_is_the_function_that_the_page_speaks_of(self):
        """The callers call the functions of `c_entry` and the like; each is exported under its name by a call of it that ensures the same."""
        for path in sorted((ROOT / "crates").glob("c_*_c/src/lib.rt")):
            crate = path.parents[1].name.removesuffix("_c")
            exported = entries(path.read_text(encoding="utf-8"), r'\n#\[unsafe\(no_mangle\)\]\npub extern "C" fn ')
            called = entries(page.read_file(f"crates/{crate}/src/lib.rt"), r"\npub fn ")
            self.assertEqual(sorted(exported), sorted(name.split("::")[1] for name in offered() if name.startswith(f"{crate}::")))
            for name, (fields, promise, code) in exported.items():
                arguments = ", ".join(re.findall(r"(\w+):", fields))
                self.assertEqual((fields, promise), called[name][:2], name)
                self.assertEqual(code, f"{crate}::{name}({arguments})")

    def test_symbols_are_the_entries(self):
        symbols = page.read_file("host/symbols.txt").split()
        self.assertEqual(sorted(symbols), sorted(name.split("::")[1] for name in offered() if "::hocsimbur_" in name))

    def test_a_page_that_says_less_is_seen(self):
        stored = page.read_file(page.STORED)
        self.assertEqual(len(CUTS), 16)
        for what, path, cut in CUTS:
            with self.subTest(what):
                self.assertNotEqual(page.listed(lambda name: cut(page.read_file(name)) if name == path else page.read_file(name)), stored)

    def test_a_definition_below_the_page_is_seen(self):
        path = "crates/formulas/specs/Step.antt"
        text = page.read_file(path)
        changed = text.replace("decimal 75 2", "decimal 76 2")
        self.assertNotEqual(text, changed)
        self.assertNotEqual(page.listed(lambda name: changed if name == path else page.read_file(name)), page.read_file(page.STORED))
        # a comment alone is none
        said = "-- a comment\n" + text
        self.assertEqual(page.listed(lambda name: said if name == path else page.read_file(name)), page.read_file(page.STORED))


if __name__ == "__main__":
    unittest.main()
