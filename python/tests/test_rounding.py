"""The table of cautious sides: each direction against the library, on 10,000 random pairs; and the same words in manual and refusals."""
from __future__ import annotations

import random
import re
import unittest
from typing import Dict

from hocsimbur import core
from hocsimbur.core import Verdict
from hocsimbur.portfolio import asking
from hocsimbur.sheets import layout, rounding
from hocsimbur.sheets.names import BY_NAME, NAMES

from .common import ROOT

PAIRS = 10000
SIDED = [name for name, one in rounding.DIRECTIONS.items() if one.side != rounding.NEITHER]


def random_case(rng: random.Random) -> Dict[str, int]:
    """A valid case, of which about half are safe."""
    case = {name.name: rng.choice(name.only) if name.only else rng.randint(name.low, name.high) for name in NAMES}
    case["soil"] = rng.choice((rng.randint(10, 100), rng.randint(10, 1000), rng.randint(10, 5000)))
    case["fault"], case["split"] = rng.randint(100, rng.choice((1000, 5000, 80000))), rng.randint(1, 1000)
    case["shock"] = rng.randint(9, rng.choice((500, 3000)))
    if rng.random() < 0.3:
        case["layer"] = case["thick"] = 0
    if rng.random() < 0.3:
        case["rods"] = case["rodlen"] = case["place"] = 0
    else:
        case["rods"], case["place"] = rng.randint(1, 200), rng.randint(1, 2)
    return case


def pairs(name: str, count: int):
    """Pairs of cases that differ in one column, the cautious one first: mostly neighbours."""
    rng = random.Random(name)
    found = []
    own = BY_NAME[name]
    while len(found) < count:
        case = random_case(rng)
        if case[name] == 0:
            continue
        low, high = own.low, own.high
        a = rng.randint(low, high - 1)
        b = min(high, a + rng.choice((1, 1, 1, rng.randint(1, high - low))))
        up = rounding.side(name, case["layer"], case["soil"]) == rounding.UP
        cautious, other = (b, a) if up else (a, b)
        found.append((dict(case, **{name: cautious}), dict(case, **{name: other})))
    return found


def rows_of(cases):
    """The rows of cases, each under a station of its own."""
    found = []
    for first in range(0, len(cases), core.LINES):
        part = [dict(case, station=number, season=1) for number, case in enumerate(cases[first:first + core.LINES], 1)]
        found += core.rows(layout.text(part))
    return found


class Directions(unittest.TestCase):
    @classmethod
    def setUpClass(cls):
        both = {name: pairs(name, PAIRS) for name in SIDED}
        cls.asked = {name: (of_name, rows_of([one for one, _ in of_name]), rows_of([one for _, one in of_name])) for name, of_name in both.items()}

    def test_no_pair_is_better_on_the_cautious_side(self):
        """Where the cautious one is safe the other is not unsafe, and where its wire is large enough so is the other's."""
        for name in SIDED:
            with self.subTest(name):
                both, cautious, other = self.asked[name]
                self.assertFalse([pair for pair, a, b in zip(both, cautious, other) if a.verdict == Verdict.SAFE and b.verdict == Verdict.UNSAFE])
                self.assertFalse([pair for pair, a, b in zip(both, cautious, other) if a.kcmil < b.kcmil])
                self.assertGreater(sum(a.verdict == Verdict.SAFE for a in cautious), 500)
                self.assertGreater(sum(a.verdict == Verdict.UNSAFE for a in cautious), 500)

    def test_the_other_side_is_not_cautious(self):
        """The pairs separate the two sides: with the sides exchanged, the test fails for every column."""
        for name in SIDED:
            _, cautious, other = self.asked[name]
            turned = [1 for a, b in zip(cautious, other) if b.verdict == Verdict.SAFE and a.verdict == Verdict.UNSAFE or b.kcmil < a.kcmil]
            self.assertTrue(turned, name)

    def test_a_wire_is_not_larger_on_the_cautious_side(self):
        both = pairs("dia", 1000)
        small = [asking.small_wires([one for one, _ in both]), asking.small_wires([one for _, one in both])]
        self.assertFalse([1 for cautious, other in zip(*small) if other and not cautious])

    def test_depth_and_space_have_no_cautious_side(self):
        """Safe yards become unsafe on either side."""
        for name in ("depth", "space"):
            rng, own = random.Random(name), BY_NAME[name]
            found = set()
            for _ in range(40):
                both = []
                for _ in range(256):
                    case = random_case(rng)
                    a, b = sorted(rng.sample(range(own.low, own.high + 1), 2))
                    both.append((dict(case, **{name: a}), dict(case, **{name: b})))
                for less, more in zip(rows_of([one for one, _ in both]), rows_of([one for _, one in both])):
                    found.add((less.verdict, more.verdict))
            self.assertLessEqual({(Verdict.SAFE, Verdict.UNSAFE), (Verdict.UNSAFE, Verdict.SAFE)}, found, name)


class Table(unittest.TestCase):
    def test_every_column_has_a_side_or_is_a_count(self):
        counts = {"station", "season", "body", "across", "along", "rods", "place", "metal", "hz"}
        self.assertEqual(set(rounding.DIRECTIONS) - {"ms"}, set(BY_NAME) - counts)

    def test_theorems_are_claims(self):
        claims = (ROOT / "docs" / "specification.md").read_text(encoding="utf-8")
        for name, one in rounding.DIRECTIONS.items():
            theorem = re.fullmatch(r"theorem ([a-z_]+)", one.rests_on)
            self.assertTrue(theorem or one.rests_on == (rounding.TESTED if one.side != rounding.NEITHER else ""), name)
            if theorem:
                self.assertIn(f"`{theorem[1]}`", claims)

    def test_the_manual_has_the_table(self):
        manual = (ROOT / "docs" / "manual.md").read_text(encoding="utf-8")
        for name, one in rounding.DIRECTIONS.items():
            if name != "ms":
                self.assertTrue(f"| {name} | {one.side} | {one.why} | {one.rests_on} |\n" in manual, name)

    def test_thick_goes_by_the_layer(self):
        self.assertEqual([rounding.side("thick", layer, 100) for layer in (99, 100, 101)], [rounding.UP, rounding.UP, rounding.DOWN])
        self.assertEqual(rounding.side("rods"), rounding.NEITHER)


if __name__ == "__main__":
    unittest.main()
