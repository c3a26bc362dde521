"""The table of names agrees with the library, the manual and the header."""
from __future__ import annotations

import re
import unittest

from hocsimbur import __version__, core
from hocsimbur.sheets import words
from hocsimbur.sheets.names import FORMER, METALS, NAMES

from .common import ROOT, SAMPLE, changed

# what a line needs in addition to a value so that the value alone decides whether it is refused with 5
NEEDED = {
    "layer": lambda value: {"thick": 100 if value else 0},
    "thick": lambda value: {"layer": 2500 if value else 0},
    "rods": lambda value: {"rodlen": 3000, "place": 1} if value else {"rodlen": 0, "place": 0},
    "rodlen": lambda value: {"rods": 4, "place": 1} if value else {"rods": 0, "place": 0},
    "place": lambda value: {"rods": 4, "rodlen": 3000} if value else {"rods": 0, "rodlen": 0},
}


def answer(name: str, value: int) -> int:
    """The number of the refusal of the sample with this value, 0 where it is accepted."""
    needed = NEEDED.get(name, lambda value: {})(value)
    try:
        core.rows(changed(SAMPLE, **{name: value, **needed}))
        return 0
    except core.Refused as refused:
        return refused.number


class Ranges(unittest.TestCase):
    def test_names_are_those_of_the_library(self):
        self.assertEqual([name.name for name in NAMES], SAMPLE.decode().split("\n")[0].split(","))
        self.assertEqual(len({name.name for name in NAMES}), 22)

    def test_both_ends_are_accepted_and_beyond_refused(self):
        for name in NAMES:
            with self.subTest(name=name.name):
                if name.name == "season":
                    continue  # another season of the sample's station stands in line 3; asked below
                ends = name.only or (name.low, name.high)
                self.assertEqual([answer(name.name, value) for value in ends], [0, 0])
                beyond = [value for value in (name.low - 1, name.high + 1) if value > 0]
                self.assertEqual([answer(name.name, value) for value in beyond], [5] * len(beyond))

    def test_season(self):
        one = b"".join(SAMPLE.splitlines(keepends=True)[:2])
        for value, number in ((1, 0), (4, 0), (5, 5), (0, 5)):
            try:
                core.rows(changed(one, season=value))
                self.assertEqual(number, 0)
            except core.Refused as refused:
                self.assertEqual(refused.number, number)

    def test_zero(self):
        for name in NAMES:
            with self.subTest(name=name.name):
                zero = name.also_zero or name.low == 0
                self.assertEqual(answer(name.name, 0), 0 if zero else 5)

    def test_between_the_only_ones(self):
        for name in NAMES:
            for value in range(name.low + 1, name.high) if name.only else ():
                self.assertEqual(answer(name.name, value), 5, f"{name.name} {value}")

    def test_allowed_in_words(self):
        self.assertEqual([words.BY_NAME[name].allowed for name in ("fault", "layer", "body", "place")],
                         ["100..80000", "0 or 100..10000", "50 or 70", "0..2"])

    def test_former_names(self):
        text = (",".join(FORMER) + "\n7,1,400,2500,102,500,70,3180,600,10,11,7000,500,100,0,0,0,1\n").encode()
        self.assertTrue(core.carry(text).startswith(SAMPLE.split(b"\n")[0]))


class Papers(unittest.TestCase):
    def test_ranges_of_the_manual(self):
        manual = (ROOT / "docs" / "manual.md").read_text(encoding="utf-8")
        found = dict(re.findall(r"^\| (\w+) \| [^|]+ \| ([0-9. or]+) \|$", manual, re.MULTILINE))
        self.assertEqual({name.name: name.allowed for name in NAMES}, {name: found[name] for name in found if name in words.BY_NAME})

    def test_metals_of_the_manual(self):
        manual = (ROOT / "docs" / "manual.md").read_text(encoding="utf-8")
        found = re.findall(r"^\| (\d+) \| ([^|]+) \| \d+\.\d+ \|$", manual, re.MULTILINE)
        self.assertEqual({int(number): name for number, name in found}, METALS)

    def test_version_of_the_header(self):
        header = (ROOT / "include" / "hocsimbur.h").read_text(encoding="utf-8")
        number = int(re.search(r"#define HOCSIMBUR_VERSION (\d+)", header)[1])
        self.assertEqual(__version__, f"{number // 10000}.{number // 100 % 100}.{number % 100}")
        self.assertEqual(core.version(), __version__)


if __name__ == "__main__":
    unittest.main()
