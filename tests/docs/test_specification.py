"""docs/specification.md: every section names definitions that cite it and claims of the page that cite it, and nothing else is cited."""

import re
import unittest
from pathlib import Path

ROOT = Path(__file__).parents[2]
DOCUMENT = ROOT / "docs" / "specification.md"
CRATES = ROOT / "crates"
PAGE = CRATES / "claims" / "specs" / "Claims.antt"
HEADING = re.compile(r"^### (\d+\.\d+) (.+)$", flags=re.MULTILINE)
LINK = re.compile(r"\[([^\]]+)\]\((\.\./crates/[^)]+)\)")
CITED = re.compile(r"§(\d+)\.(\d+)(?:–§(\d+)\.(\d+))?")


def cited(text):
    """The sections that a text cites; `§1.1–§1.6` is a run of them."""
    found = []
    for chapter, first, last_chapter, last in CITED.findall(text):
        if last and chapter != last_chapter:
            raise ValueError(f"a run from one chapter to another: §{chapter}.{first}–§{last_chapter}.{last}")
        found += [f"{chapter}.{section}" for section in range(int(first), int(last or first) + 1)]
    return found


def sections():
    """Of each section its number, the definitions with their files, and the claims."""
    text = DOCUMENT.read_text(encoding="utf-8")
    text = text[:text.index("## Where each section comes from")]
    starts = list(HEADING.finditer(text))
    for start, end in zip(starts, [one.start() for one in starts[1:]] + [len(text)]):
        body = text[start.end():end]
        definitions = re.search(r"^Definitions: (.+)\.$", body, flags=re.MULTILINE)
        claims = re.search(r"^Claims: (.+)\.$", body, flags=re.MULTILINE)
        yield (start[1], LINK.findall(definitions[1]) if definitions else [], re.findall(r"`([a-z_]+)`", claims[1]) if claims else [])


def declared(path):
    """The names that a file of definitions declares."""
    text = path.read_text(encoding="utf-8")
    return set(re.findall(r"^ *(?:abbrev |unfoldable |opaque )*pub (?:record |data )?([^\s:({]+)", text, flags=re.MULTILINE))


def page():
    """Of each field of the page the sections that the comment above it, or above its group, begins with."""
    found, here, comment = {}, [], False
    for line in PAGE.read_text(encoding="utf-8").split("\n"):
        field = re.match(r"  pub ([a-z_]+) :", line)
        if line.startswith("  --"):
            here = cited(line.split(":")[0]) if not comment else here
            comment = True
        elif field:
            found[field[1]] = here
            comment = False
        else:
            comment = False
    return found


class Specification(unittest.TestCase):
    def test_every_definition_is_there_and_cites_the_section(self):
        for number, definitions, _ in sections():
            self.assertTrue(definitions, number)
            for name, path in definitions:
                file = DOCUMENT.parent / path
                self.assertIn(name, declared(file), f"§{number}: {path}: {name}")
                self.assertIn(number, cited(file.read_text(encoding="utf-8")), f"{path} does not cite §{number}")

    def test_the_page_and_the_sections_name_each_other(self):
        by_section = {(number, claim) for number, _, claims in sections() for claim in claims}
        by_field = {(number, field) for field, numbers in page().items() for number in numbers}
        self.assertEqual(by_section, by_field)

    def test_every_field_of_the_page_is_cited(self):
        fields = re.findall(r"^  pub ([a-z_]+) :", PAGE.read_text(encoding="utf-8"), flags=re.MULTILINE)
        self.assertEqual(sorted(fields), sorted({claim for _, _, claims in sections() for claim in claims}))
        self.assertEqual(sorted(fields), sorted(page()))

    def test_every_section_has_claims(self):
        numbers = [number for number, _, _ in sections()]
        self.assertEqual([number for number, _, claims in sections() if not claims], [])
        self.assertEqual(len(numbers), len(set(numbers)))
        self.assertGreater(len(numbers), 45)

    def test_every_citation_exists(self):
        numbers = {number for number, _, _ in sections()}
        files = [file for kind in ("*.antt", "*.rt") for file in CRATES.rglob(kind)]
        files += [*(ROOT / "docs").rglob("*.md"), *ROOT.glob("*.md"), *CRATES.glob("*/README.md"), *(ROOT / "tests").rglob("*.py"),
                  *(ROOT / "include").glob("*.h")]
        for file in files:
            self.assertLessEqual(set(cited(file.read_text(encoding="utf-8"))), numbers, file)

    def test_the_origin_of_every_section(self):
        text = DOCUMENT.read_text(encoding="utf-8")
        named = cited(text[text.index("## Where each section comes from"):])
        self.assertEqual(sorted(named), sorted(number for number, _, _ in sections()))


if __name__ == "__main__":
    unittest.main()
