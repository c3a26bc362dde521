"""What is gathered of every station: the core's answers, and reasons to hold that agree with its counts."""
from __future__ import annotations

import random
import unittest
from unittest import mock

from hocsimbur import core
from hocsimbur.portfolio import advice, asking, decision, licence, reasons
from hocsimbur.sheets import layout
from hocsimbur.core import Verdict
from hocsimbur.portfolio.decision import Missing, OtherYard, SmallWire, Undecided, Unsafe
from hocsimbur.portfolio.compared import ABOVE, BELOW, OVERLAPS

from .portfolios import CASES, LICENCE, SHEET, case, granted, station

EXAMPLE = decision.portfolio(SHEET, LICENCE)


def scattered(seed: int) -> bytes:
    """The lines of the example under other stations and seasons, some with other values, in any order."""
    rng = random.Random(seed)
    keys = rng.sample([(number, season) for number in range(1, 13) for season in range(1, 5)], 30)
    lines = [dict(rng.choice(CASES), station=number, season=season, fault=rng.randint(100, 80000), dia=rng.randint(50, 300))
             for number, season in keys]
    return layout.text(lines)


class Answers(unittest.TestCase):
    """Over the example with and without its licence, and scattered lines."""

    @classmethod
    def setUpClass(cls):
        asked = [(SHEET, LICENCE), (SHEET, None), *((scattered(seed), None) for seed in range(6))]
        cls.portfolios = [(sheet, decision.portfolio(sheet, granted_)) for sheet, granted_ in asked]

    def stations(self):
        return [one for _, portfolio in self.portfolios for one in portfolio.stations]

    def test_released_where_there_is_no_reason(self):
        self.assertEqual({one.released for one in self.stations()}, {True, False})
        for one in self.stations():
            self.assertEqual(one.released, not one.reasons, one.station)

    def test_reasons_are_what_the_core_counts(self):
        for one in self.stations():
            kinds = [type(reason) for reason in one.reasons]
            self.assertEqual(kinds.count(Unsafe), one.answer.unsafe)
            self.assertEqual(kinds.count(Undecided), one.answer.undecided)
            self.assertEqual(sum(len(reason.seasons) for reason in one.reasons if isinstance(reason, Missing)), one.answer.missing)
            self.assertEqual(kinds.count(OtherYard), int(one.answer.other_yard > 0))
            self.assertEqual(kinds.count(SmallWire), int(one.answer.small_wire > 0))
            self.assertEqual(sum(line.small_wire for line in one.lines), one.answer.small_wire)

    def test_every_reason_says_something(self):
        for one in self.stations():
            for reason in one.reasons:
                for detail in ("above", "overlapping", "seasons", "columns"):
                    self.assertTrue(getattr(reason, detail, True), reason)

    def test_reasons_in_order(self):
        order = [Unsafe, Undecided, Missing, OtherYard, SmallWire]
        for one in self.stations():
            places = [(order.index(type(reason)), getattr(reason, "season", 0)) for reason in one.reasons]
            self.assertEqual(places, sorted(places))

    def test_sides_agree_with_the_verdict(self):
        for line in [line for one in self.stations() for line in one.lines]:
            sides = [compared.side for compared in line.compared]
            verdict = Verdict.UNSAFE if ABOVE in sides else Verdict.UNDECIDED if OVERLAPS in sides else Verdict.SAFE
            self.assertEqual(verdict, line.row.verdict)
            for compared in line.compared:
                self.assertEqual(compared.margin <= 0, compared.side == BELOW)

    def test_fault_current_is_the_least_headroom(self):
        for one in self.stations():
            self.assertEqual(one.fault, min((line.headroom for line in one.lines), default=0))

    def test_lines_are_the_sheet_s(self):
        for sheet, portfolio in self.portfolios:
            rows, lines = core.rows(sheet), layout.cases(sheet)
            for line in [line for one in portfolio.stations for line in one.lines]:
                self.assertEqual(line.row, rows[line.number - 2])
                self.assertEqual(line.case, lines[line.number - 2])
                self.assertEqual((line.case["station"], line.case["season"]), (line.row.station, line.row.season))
            self.assertEqual(sum(len(one.lines) for one in portfolio.stations), len(lines))

    def test_nearest(self):
        for one in self.stations():
            margins = [margin for line in one.lines for margin in (line.margins.mesh, line.margins.step)]
            self.assertEqual(one.nearest.margin if one.lines else None, max(margins) if one.lines else None)

    def test_wire_is_enough_up_to_its_fault_current(self):
        lines = [line for one in self.stations() for line in one.lines]
        within = [line for line in lines if 100 <= line.wire_to < 80000]
        self.assertGreater(len(within), 100)
        self.assertFalse(any(asking.small_wires([dict(line.case, fault=line.wire_to) for line in within])))
        self.assertTrue(all(asking.small_wires([dict(line.case, fault=line.wire_to + 1) for line in within])))
        for line in lines:
            self.assertEqual(line.small_wire, line.case["fault"] > line.wire_to)


    def test_the_guess_needs_no_halving(self):
        """For every line of the example the library is asked at the guess and one ampere above, and no more."""
        with mock.patch.object(asking, "small_wires", side_effect=asking.small_wires) as asked:
            asking.wires_enough_to(CASES, core.rows(SHEET))
        self.assertEqual(asked.call_count, 2)

    def test_a_wrong_guess_changes_nothing(self):
        """The fault current of a wire is asked on both sides; where the guess is wrong, by halving."""
        rows, kept = core.rows(SHEET), asking._guess
        right = asking.wires_enough_to(CASES, rows)
        try:
            for wrong in (0, 1, -1, 40000, -40000, 10 ** 6):
                asking._guess = lambda *arguments, wrong=wrong: kept(*arguments) + wrong
                self.assertEqual(asking.wires_enough_to(CASES, rows), right, wrong)
        finally:
            asking._guess = kept

    def test_wire_is_enough_at_the_least_fault_current(self):
        thin = [case(101, 1, dia=50, wire=3000, clear=9, xr=40, hz=50, fault=100, metal=metal) for metal in range(1, 12)]
        self.assertFalse(any(asking.small_wires(thin)))


class OwnWires(unittest.TestCase):
    """A stranded 4/0 wire, 13.4 mm and 211 kcmil, where 261 kcmil are needed, which a solid round of 13.4 mm would have."""

    LINE = case(101, 1, station=7, season=1, split=1, dia=134, metal=1, wire=500, clear=500, xr=10)

    @classmethod
    def setUpClass(cls):
        faults = range(40000, 60000, 25)
        rows = core.rows(layout.text([dict(cls.LINE, station=number, fault=fault) for number, fault in enumerate(faults[:250], 1)]))
        rows += core.rows(layout.text([dict(cls.LINE, station=number, fault=fault) for number, fault in enumerate(faults[250:500], 1)]))
        rows += core.rows(layout.text([dict(cls.LINE, station=number, fault=fault) for number, fault in enumerate(faults[500:750], 1)]))
        cls.fault = next(fault for fault, row in zip(faults, rows) if row.kcmil == 261)

    def released_with(self, wire: str) -> decision.Station:
        read = licence.read(f"station,name,seasons,wire\n7,A,1,{wire}\n".encode())
        return decision.portfolio(layout.text([dict(self.LINE, fault=self.fault)]), read).stations[0]

    def test_held_by_its_own_area(self):
        held, solid, enough = self.released_with("4/0"), self.released_with(""), self.released_with("261 kcmil")
        self.assertEqual((held.released, solid.released, enough.released), (False, True, True))
        self.assertEqual(held.reasons, (SmallWire(decision.Size(261, 134, 211, False)),))
        self.assertEqual(reasons.sentence(held).split(";")[0], "wire: 261 kcmil needed, the wire has 211")
        self.assertEqual(solid.size, decision.Size(261, 134, 278))
        self.assertTrue(reasons.stranded(solid))
        self.assertEqual(reasons.stranded(enough), "")
        self.assertEqual([one.words for one in advice.changes(held)], ["wire: 261 kcmil or more (now 211); give its size in the licence"])

    def test_wire_is_enough_up_to_its_fault_current(self):
        held, solid = self.released_with("4/0"), self.released_with("")
        self.assertLess(held.wire_to, self.fault)
        self.assertGreaterEqual(solid.wire_to, self.fault)
        at = [asking.with_area(dict(self.LINE, fault=fault), 211) for fault in (held.wire_to, held.wire_to + 1)]
        self.assertEqual(asking.small_wires(at), [False, True])


class Licences(unittest.TestCase):
    def test_order_of_the_licence(self):
        self.assertEqual([one.station for one in EXAMPLE.stations], [one.station for one in LICENCE.stations])
        self.assertEqual([one.name for one in EXAMPLE.stations], [one.name for one in LICENCE.stations])

    def test_no_licence_asks_for_all_seasons(self):
        portfolio = decision.portfolio(SHEET)
        self.assertFalse(portfolio.licensed)
        self.assertEqual([one.station for one in portfolio.stations], list(dict.fromkeys(one["station"] for one in CASES)))
        self.assertEqual({one.seasons for one in portfolio.stations}, {(1, 2, 3, 4)})

    def test_a_station_without_a_line(self):
        moorgate = EXAMPLE.stations[-1]
        self.assertEqual((moorgate.station, moorgate.released, moorgate.lines, moorgate.nearest), (215, False, (), None))
        self.assertEqual(moorgate.reasons, (Missing((1, 2), True),))

    def test_a_line_outside_the_licence_counts(self):
        self.assertFalse(station([case(104, 1), case(104, 2)], [1]).released)
        self.assertTrue(station([case(104, 1)], [1]).released)

    def test_stations_outside_the_licence_are_reported(self):
        portfolio = decision.portfolio(SHEET, granted(104, (1, 2)))
        self.assertEqual(portfolio.unlicensed, (101, 110, 118, 123, 131, 140, 152, 160, 171, 188, 204))
        self.assertEqual(EXAMPLE.unlicensed, ())

    def test_a_refused_sheet(self):
        with self.assertRaises(core.Refused):
            decision.portfolio(SHEET.replace(b",600,", b",60,"), LICENCE)

    def test_as_many_lines_as_a_sheet_has(self):
        lines = [dict(CASES[0], station=1 + place // 4, season=1 + place % 4) for place in range(core.LINES)]
        portfolio = decision.portfolio(layout.text(lines), licence.Licence(tuple(licence.Licensed(one, "", (1,)) for one in range(1, 257))))
        self.assertEqual([len(one.lines) for one in portfolio.stations], [4] * 64 + [0] * 192)


if __name__ == "__main__":
    unittest.main()
