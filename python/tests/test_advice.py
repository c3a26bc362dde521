"""What to change next: each change asked again is safe in every season, and one step less is not."""
from __future__ import annotations

import decimal
import unittest

from hocsimbur import core
from hocsimbur.portfolio import advice, asking, candidates, decision
from hocsimbur.sheets import layout
from hocsimbur.core import Verdict

from .portfolios import CASES, LICENCE, SHEET, case, granted, verdicts
from .portfolios import changes as changes_of

KINDS = {"rods": candidates.rods, "conductors": candidates.conductors, "spacing": candidates.spacing, "thickness": candidates.thickness,
         "resistivity": candidates.resistivity, "layer": candidates.layer, "shock": candidates.shock}
CHANGED = {"rods": {"rods", "rodlen", "place"}, "conductors": {"across", "along", "space"}, "spacing": {"space"}, "thickness": {"thick"},
           "resistivity": {"layer"}, "layer": {"layer", "thick"}, "shock": {"shock"}, "wire": {"dia"}, "yard": set(decision.YARD)}


def of(station: int):
    return changes_of(SHEET, station, LICENCE)


def own(station: int):
    return tuple(one for one in CASES if one["station"] == station)


def length(one, name: str) -> int:
    """Conductor or rods in micrometres, as the core computes them."""
    return getattr(core.working(layout.text([one]))[0], name).upper


class Safe(unittest.TestCase):
    """Over all stations of the example."""

    @classmethod
    def setUpClass(cls):
        cls.found = {one.station: of(one.station) for one in LICENCE.stations}

    def each(self):
        return [(station, change) for station, changes in self.found.items() for change in changes if change.lines]

    def test_kinds(self):
        self.assertEqual({change.kind for _, change in self.each()},
                         {"rods", "conductors", "spacing", "thickness", "resistivity", "layer", "shock", "wire", "yard"})
        self.assertEqual({change.kind for changes in self.found.values() for change in changes if not change.lines},
                         {"missing", "yard", "conductors", "thickness"})

    def test_safe_in_every_season(self):
        for station, change in self.each():
            if change.kind != "wire":
                self.assertEqual(set(verdicts(change.lines)), {Verdict.SAFE}, (station, change.words))

    def test_every_season_is_there(self):
        for station, change in self.each():
            keys = [[(one["station"], one["season"]) for one in lines] for lines in (change.lines, own(station))]
            self.assertEqual(*keys)

    def test_single(self):
        for station, change in self.each():
            for before, after in zip(own(station), change.lines):
                self.assertLessEqual({name for name in before if before[name] != after[name]}, CHANGED[change.kind])

    def test_one_step_less_is_not_safe(self):
        tried = 0
        for station, change in self.each():
            if change.kind in KINDS:
                tries = [one.lines for one in KINDS[change.kind](own(station))]
                before = tries[:tries.index(change.lines)]
                tried += len(before)
                for lines in before:
                    self.assertNotEqual(set(verdicts(lines)), {Verdict.SAFE}, (station, change.words))
        self.assertGreater(tried, 100)

    def test_none_is_enough(self):
        for station, changes in self.found.items():
            for change in changes:
                if change.kind in KINDS and not change.lines:
                    for one in KINDS[change.kind](own(station)):
                        self.assertNotEqual(set(verdicts(one.lines)), {Verdict.SAFE}, (station, change.words))

    def test_released_by_the_core(self):
        """A station that was held for its voltages alone is released with any of its changes."""
        for station in (104, 131, 171, 188):
            seasons = next(one.mask for one in LICENCE.stations if one.station == station)
            for change in self.found[station]:
                if change.lines:
                    self.assertTrue(core.release(layout.text(list(change.lines)), [(station, seasons)])[0].released, change.words)

    def test_released_stations_need_nothing(self):
        self.assertEqual([station for station, changes in self.found.items() if not changes], [101, 140, 160, 204])

    def test_margin_shown(self):
        for station, change in self.each():
            if change.kind in KINDS:
                margins = core.margins(layout.text(list(change.lines)))
                greatest = max(max(one.mesh, one.step) for one in margins)
                size = f"{-greatest // 10}.{-greatest % 10} %" if greatest else "under 0.1 %"
                self.assertIn(f"nearest limit then {size} below", change.words)

    def test_length_shown(self):
        """Conductor and rods that are added, where the library computes them."""
        for station, change in self.each():
            if change.kind not in KINDS:
                continue
            for name, word in (("lc", "conductor"), ("lr", "rods")):
                more = length(change.lines[0], name) - length(own(station)[0], name)
                self.assertEqual(f" m of {word} " in change.words, more != 0, change.words)
                if more:
                    metres = f"{decimal.Decimal(abs(more)).scaleb(-6):,f}".rstrip("0").rstrip(".")
                    self.assertIn(f"{metres} m of {word} {'more' if more > 0 else 'less'}", change.words)


class Words(unittest.TestCase):
    def test_no_shorter_shock_than_the_least(self):
        self.assertEqual(list(candidates.shock((case(101, 1, shock=9),))), [])
        self.assertEqual([tried.lines[0]["shock"] for tried in candidates.shock((case(101, 1, shock=10), case(101, 2, shock=9)))], [9])

    def words(self, station: int, kind: str) -> str:
        return next(change.words for change in of(station) if change.kind == kind)

    def test_voltages(self):
        start = {
            (104, "rods"): "rods: 52 rods of 6 m at the perimeter (now 20); nearest limit then under 0.1 % below (touch, season 2)",
            (152, "rods"): "rods: 69 rods of 3 m at the perimeter (now 24 inside); nearest",
            (104, "conductors"): "conductors: 15 conductors across × 15 along, 5 m apart, in the same outline (now 11 × 11, 7 m apart); "
                                 "nearest limit then",
            (104, "spacing"): "spacing: 9.6 m between conductors (now 7 m), so that the yard is 96 × 96 m; nearest",
            (131, "thickness"): "thickness: surface layer 130 mm thick (now 120 mm); nearest limit then 1.5 % below (touch, season 2)",
            (104, "resistivity"): "resistivity: surface layer of 3,200 Ω·m (now 2,500 Ω·m); nearest",
            (188, "layer"): "layer: a surface layer of 2,500 Ω·m, 20 mm thick, on the soil that is bare now; nearest",
            (104, "shock"): "shock: a shock of 350 ms (now 500 ms); nearest",
            (104, "thickness"): "thickness: no layer up to 300 mm is enough",
            (171, "conductors"): "conductors: no finer grid in the same outline, in whole mm and of at most 25 conductors each way, is "
                                 "enough",
        }
        for (station, kind), words in start.items():
            self.assertEqual(self.words(station, kind)[:len(words)], words)

    def test_rods_of_a_station_without_any(self):
        sheet = layout.text([case(104, 2, rods=0, rodlen=0, place=0, fault=3000)])
        words = [change.words for change in changes_of(sheet, 104, granted(104, (2,))) if change.kind == "rods"]
        self.assertRegex(words[0], r"^rods: \d+ rods of 3 m at the perimeter \(now none\); ")

    def test_undecided_is_not_enough(self):
        """With 16 rods the line is undecided, with 17 it is safe."""
        sheet = layout.text([case(131, 2, rods=15)])
        self.assertEqual(verdicts([case(131, 2, rods=16)]), [Verdict.UNDECIDED])
        found = next(change for change in changes_of(sheet, 131, granted(131, (2,))) if change.kind == "rods")
        self.assertEqual(found.lines[0]["rods"], 17)

    def test_no_line_is_made_worse(self):
        """A line that has more of it already keeps it."""
        lines = [case(104, 1, layer=9000, thick=250, shock=40), case(104, 2)]
        found = {change.kind: change.lines for change in changes_of(layout.text(lines), 104, granted(104, (1, 2)))}
        self.assertEqual([one["layer"] for one in found["resistivity"]], [9000, 3200])
        self.assertEqual([one["shock"] for one in found["shock"]], [40, 350])
        self.assertEqual({one.lines[0]["thick"] for one in candidates.thickness(tuple(lines)) if one.lines[1]["thick"] <= 250}, {250})

    def test_from_four_rods_up(self):
        counts = [one.lines[0]["rods"] for one in candidates.rods((case(101, 1, rods=0, rodlen=0, place=0),))]
        self.assertEqual(counts, list(range(4, 201)))
        self.assertEqual(next(candidates.rods((case(101, 1, rods=2),))).lines[0]["rods"], 4)
        self.assertEqual(next(candidates.rods((case(101, 1, rods=9),))).lines[0]["rods"], 10)

    def test_outline_stays(self):
        for values in (dict(), dict(across=13, along=7, space=4950), dict(across=2, along=3, space=30000)):
            before = case(101, 1, **values)
            for one in candidates.conductors((before,)):
                after = one.lines[0]
                for way in ("across", "along"):
                    self.assertEqual((after[way] - 1) * after["space"], (before[way] - 1) * before["space"])
                self.assertLess(after["space"], before["space"])

    def test_candidates_are_in_range(self):
        lines = (case(101, 1), case(101, 2, layer=100, thick=20), case(101, 3, shock=9))
        for kind in ("rods", "conductors", "spacing", "thickness", "resistivity", "shock"):
            asking.verdicts([one for tried in KINDS[kind](lines) for one in tried.lines])  # none is refused
        asking.verdicts([one for tried in candidates.layer((case(101, 1, layer=0, thick=0), case(101, 2))) for one in tried.lines])

    def test_missing(self):
        self.assertEqual([change.words for change in of(110)], ["missing: measure and add a line for season 3"])
        self.assertEqual([change.words for change in of(215)], ["missing: measure and add lines for seasons 1 and 2"])
        self.assertEqual([change.words for change in changes_of(SHEET, 7)],
                         ["missing: measure and add lines for seasons 1, 2, 3 and 4"])

    def test_no_licence_asks_for_all_seasons(self):
        self.assertEqual([change.words for change in changes_of(SHEET, 160)], ["missing: measure and add lines for seasons 3 and 4"])

    def test_yard(self):
        self.assertEqual([change.words for change in of(123)], [
            "yard: agree on depth and rods in all lines",
            "yard: that of season 1 in all lines: every line is safe, nearest limit then 18.1 % below (touch, season 2)",
            "yard: that of season 2 in all lines: every line is safe, nearest limit then 17.7 % below (touch, season 2)"])
        worse = layout.text([case(123, 1), case(123, 2, across=2, along=2)])
        changes = changes_of(worse, 123, granted(123, (1, 2)))
        self.assertIn("yard: that of season 2 in all lines: not every line is safe", [change.words for change in changes])
        self.assertFalse({"rods", "conductors", "spacing"} & {change.kind for change in changes})

    def test_wire(self):
        self.assertEqual([change.words for change in of(118)],
                         ["wire: 17.9 mm, solid and round (now 5.0 mm); a stranded one must be thicker"])
        wire = next(change for change in of(118))
        self.assertEqual(core.release(layout.text(list(wire.lines)), [(118, 7)])[0].small_wire, 0)
        less = [dict(one, dia=one["dia"] - 1) for one in wire.lines]
        self.assertGreater(core.release(layout.text(less), [(118, 7)])[0].small_wire, 0)
        self.assertEqual({one["dia"] for one in changes_of(layout.text(less), 118, granted(118, (1, 2, 3)))[0].lines}, {179})

    def test_the_thickest_wire(self):
        """The thickest wire of the range is tried too, and one thinner is not enough for what needs it."""
        thick = case(101, 1, dia=300, wire=3000, metal=11, soil=10, split=10)
        row = core.rows(layout.text([thick]))
        most = asking.wires_enough_to([thick], row)[0]
        self.assertTrue(asking.small_wires([dict(thick, dia=299, fault=most)])[0])
        found, = changes_of(layout.text([dict(thick, dia=100, fault=most)]), 101, granted(101, (1,)))
        self.assertEqual({one["dia"] for one in found.lines}, {300})

    def test_no_wire_is_enough(self):
        sheet = layout.text([case(101, 1, fault=80000, wire=3000, metal=11, soil=10, split=10)])
        self.assertEqual([change.words for change in changes_of(sheet, 101, granted(101, (1,)))],
                         ["wire: no solid round up to 30.0 mm is enough; try another metal or a shorter back-up time"])

    def test_a_refused_sheet(self):
        with self.assertRaises(core.Refused):
            changes_of(SHEET[:-1], 104)


if __name__ == "__main__":
    unittest.main()
