"""The report read back: every number on it is the library's, every season has its place, and nothing but the page is in it."""
from __future__ import annotations

import decimal
import hashlib
import re
import unittest
from typing import Dict, List

from hocsimbur import core
from hocsimbur.portfolio import advice, decision, licence, reasons
from hocsimbur.report import document, drawing
from hocsimbur.sheets import layout
from hocsimbur.portfolio.lines import YARD

from . import golden
from .dom import Node, cells, read
from .portfolios import LICENCE, SHEET, case, granted, rendered

DATE = "1 July 2026"
PAGE = rendered(SHEET, "portfolio.csv", LICENCE, DATE)
TREE = read(PAGE)
STATIONS = {one.station: one for one in LICENCE.stations}


def rounded(number: int, scale: int, places: int, way: str) -> str:
    """A decimal rendering, by another way than the package's."""
    with decimal.localcontext() as context:
        context.prec = 60
        shown = decimal.Decimal(number).scaleb(-scale).quantize(decimal.Decimal(1).scaleb(-places), rounding=way)
    return f"{shown:,f}"


def down(number: int, scale: int, places: int) -> str:
    return rounded(number, scale, places, decimal.ROUND_FLOOR)


def up(number: int, scale: int, places: int) -> str:
    return rounded(number, scale, places, decimal.ROUND_CEILING)


def ends(pair, scale: int, places: int) -> str:
    lower, upper = down(pair[0], scale, places), up(pair[1], scale, places)
    return lower if lower == upper else f"{lower} to {upper}"


def plain(text: str) -> str:
    return text.replace("\u00a0", " ")


def margin_words(margin: int, voltage, tolerable) -> str:
    if voltage[1] > tolerable[0] and voltage[0] <= tolerable[1]:
        return "overlaps"
    if margin == 0:
        return "under 0.1 % below"
    return f"{abs(margin) // 10}.{abs(margin) % 10} % {'above' if margin > 0 else 'below'}"


class Asked:
    """What the library answers of the example, each line by station and season."""

    def __init__(self) -> None:
        keys = [(one["station"], one["season"]) for one in layout.cases(SHEET)]
        self.cases = dict(zip(keys, layout.cases(SHEET)))
        self.rows = dict(zip(keys, core.rows(SHEET)))
        self.margins = dict(zip(keys, core.margins(SHEET)))
        self.working = dict(zip(keys, core.working(SHEET)))
        self.headroom = dict(zip(keys, core.headroom(SHEET)))
        self.release = {one.station: one for one in core.release(SHEET, [(one.station, one.mask) for one in LICENCE.stations])}

    def seasons(self, station: int) -> List[int]:
        """The seasons of the licence and of the lines."""
        return sorted({*STATIONS[station].seasons, *(season for number, season in self.rows if number == station)})


ASKED = Asked()


def section(station: int) -> Node:
    return next(one for one in TREE.all("section") if one.attributes.get("id") == f"s{station}")


def with_lines() -> List[int]:
    return [station for station in STATIONS if any(number == station for number, _ in ASKED.rows)]


class StationPages(unittest.TestCase):
    """A station's page against the library."""

    def check(self, kind: str, expected) -> None:
        """Every row of a table, every season of it: expected(key) gives the texts of a season's column, from the top."""
        for station in with_lines():
            table = section(station).one("table", kind)
            seasons = ASKED.seasons(station)
            body = [cells(row) for row in table.one("tbody").all("tr")]
            self.assertEqual([one.text() for one in table.one("thead").all("th", "num")], [f"Season {season}" for season in seasons])
            for place, season in enumerate(seasons, 2):
                column = [row[place] for row in body]
                key = (station, season)
                gone = ["no line" if kind == "res" and at == 0 else "–no line" for at in range(len(body))]
                self.assertEqual(column, expected(key) if key in ASKED.rows else gone, key)

    def test_results(self):
        def expected(key):
            row = ASKED.rows[key]
            pairs = [ends(pair, 3, 3) for pair in (row.mesh, row.tolerable_touch, row.step, row.tolerable_step)]
            room = ASKED.headroom[key]
            return [row.verdict.name.lower(), *pairs, f"{row.kcmil:,}", f"{room:,}" if room else "none"]
        self.check("res", expected)

    def test_working(self):
        def expected(key):
            row, work = ASKED.rows[key], ASKED.working[key]
            return [ends(work.cs, 9, 6), ends(row.factor, 9, 6), ends(row.current, 6, 3), ends(work.n, 7, 5), ends(work.ki, 10, 6),
                    ends(work.kii, 9, 6), ends(work.kh, 9, 6), ends(work.km, 7, 6), ends(work.ks, 7, 6), ends(work.lm, 6, 3),
                    ends(work.ls, 6, 3), ends(row.resistance, 6, 4), ends(row.rise, 3, 2)]
        self.check("wrk", expected)

    def test_working_is_there(self):
        """The library computes it: a surface layer factor is above 0."""
        self.assertTrue(all(work.cs.lower > 0 and work.lm.lower > 0 for work in ASKED.working.values()))

    def test_inputs(self):
        places = {0: "none", 1: "perimeter", 2: "inside"}

        def metres(value):
            text = f"{decimal.Decimal(value) / 1000:f}"
            whole, _, part = text.partition(".")
            return f"{whole}.{part.rstrip('0'):0<2}"

        def expected(key):
            one = ASKED.cases[key]
            return [f"{one['soil']:,}", f"{one['layer']:,}" if one["layer"] else "bare", f"{one['thick']:,}" if one["thick"] else "bare",
                    *(f"{one[name]:,}" for name in ("shock", "clear", "wire", "body", "fault")), down(one["split"], 1, 1), str(one["xr"]),
                    str(one["across"]), str(one["along"]), metres(one["space"]), metres(one["depth"]), down(one["dia"], 1, 1),
                    str(one["rods"]), metres(one["rodlen"]) if one["rods"] else "none", places[one["place"]], str(one["metal"]),
                    str(one["hz"])]
        self.check("inp", expected)

    def test_what_differs_is_marked(self):
        for station in with_lines():
            lines = [one for (number, _), one in ASKED.cases.items() if number == station]
            rows = list(section(station).one("table", "inp").one("tbody").all("tr"))
            names = [name for name in layout.cases(SHEET)[0] if name not in ("station", "season")]
            marked = [name for name, row in zip(names, rows) if "differs" in row.classes]
            self.assertEqual(marked, [name for name in names if len({one[name] for one in lines}) > 1])
            of_yard = [name for name, row in zip(names, rows) if "yard" in row.classes]
            self.assertEqual(of_yard, [name for name in marked if name in YARD])
            key = "≠differs between seasons" if marked else "nothing differs between seasons"
            caption = section(station).one("table", "inp").one("caption").text()
            self.assertEqual(caption, f"Inputs {key}; the yard, which must not" if of_yard else f"Inputs {key}")

    def test_bars(self):
        for station in with_lines():
            bodies = list(section(station).one("table", "bars").all("tbody"))
            self.assertEqual(len(bodies), 2)
            for body, (volt, tolerable, margin) in zip(bodies, (("mesh", "tolerable_touch", "mesh"), ("step", "tolerable_step", "step"))):
                rows = [row for row in body.all("tr") if "bh" not in row.classes]
                self.assertEqual([cells(row)[0] for row in rows], [f"Season {season}" for season in ASKED.seasons(station)])
                for row, season in zip(rows, ASKED.seasons(station)):
                    self.bar(row, (station, season), volt, tolerable, margin)

    def bar(self, row: Node, key, volt: str, tolerable: str, margin: str) -> None:
        """A bar's words, and its length per mille of the limit, which stands at 1,000."""
        reported, drawn = cells(row), row.one("svg", "bar")
        lengths = {one.classes[0]: int(one.attributes["width"]) for one in drawn.all("rect")}
        self.assertEqual(next(one for one in drawn.all("rect", "limit")).attributes["x"], "996")
        if key not in ASKED.rows:
            self.assertEqual(reported[2:], ["", "", "no line"])
            self.assertEqual(set(lengths), {"base", "limit"})
            return
        answered, excess = ASKED.rows[key], getattr(ASKED.margins[key], margin)
        voltage, limit = getattr(answered, volt), getattr(answered, tolerable)
        self.assertEqual(reported[2:], [up(voltage.upper, 3, 1), down(limit.lower, 3, 1), margin_words(excess, voltage, limit)])
        self.assertEqual(lengths["fill"] + lengths.get("over", 0), 1000 + excess)
        self.assertEqual("over" in lengths, excess > 0)
        self.assertIn(f"is {(1000 + excess) // 10}.{(1000 + excess) % 10} % of", drawn.one("title").children[0].replace("\u00a0", " "))

    def test_rods_are_drawn(self):
        for station in with_lines():
            first = min(key for key in ASKED.cases if key[0] == station)
            self.assertEqual(len(list(section(station).one("figure").all("circle"))), ASKED.cases[first]["rods"], station)

    def test_conductors_are_drawn_to_scale(self):
        for station in with_lines():
            one = ASKED.cases[min(key for key in ASKED.cases if key[0] == station)]
            drawn = section(station).one("path", "wire").attributes["d"]
            right = [int(x) for x in re.findall(r"M(\d+) \d+V", drawn)]
            below = [int(y) for y in re.findall(r"M\d+ (\d+)H", drawn)]
            self.assertEqual(sorted((len(right), len(below))), sorted((one["across"], one["along"])))
            steps = [b - a for places in (right, below) for a, b in zip(places, places[1:])]
            self.assertLessEqual(max(steps) - min(steps), 1)  # one spacing both ways, to a tenth of a unit

    def test_length_of_conductor(self):
        for station in with_lines():
            work = ASKED.working[min(key for key in ASKED.working if key[0] == station)]
            said = section(station).one("figcaption").text()
            self.assertIn(f"{ends(work.lc, 6, 3)} m of conductor" if work.lc.lower != work.lc.upper
                          else f"{down(work.lc.lower, 6, 6).rstrip('0').rstrip('.')} m of conductor", said)


class FirstPage(unittest.TestCase):
    def setUp(self):
        page = TREE.one("section", "portfolio")
        self.rows: Dict[int, Node] = {int(one.one("span", "no").text()): one for one in page.all("tbody", "st")}
        self.page = page

    def test_held_first_each_in_the_licence_s_order(self):
        held = [station for station in STATIONS if not ASKED.release[station].released]
        released = [station for station in STATIONS if ASKED.release[station].released]
        self.assertEqual(list(self.rows), held + released)
        self.assertEqual([one.text() for one in self.page.all("tbody", "grp")], [f"Held ({len(held)})", f"Released ({len(released)})"])

    def test_decisions(self):
        for station, row in self.rows.items():
            self.assertEqual(row.one("span", "badge").text(), "RELEASED" if ASKED.release[station].released else "HELD")
            self.assertEqual(row.one("span", "nm").text(), STATIONS[station].name)

    def test_every_season_has_its_cell(self):
        for station, row in self.rows.items():
            reported = [one.text() for one in row.all("td", "s")]
            self.assertEqual(len(reported), 4)
            for season, said in enumerate(reported, 1):
                key, licensed = (station, season), season in STATIONS[station].seasons
                if key in ASKED.rows:
                    words = f"{season}{ASKED.rows[key].verdict.name.lower()}" + ("" if licensed else ", not in the licence")
                else:
                    words = f"{season}no line, the licence asks for it" if licensed else "not in the licence"
                self.assertEqual(said, words, key)

    def test_nearest_limit(self):
        for station, row in self.rows.items():
            margins = [(max(ASKED.margins[key].mesh, ASKED.margins[key].step), key[1]) for key in ASKED.margins if key[0] == station]
            said = row.one("td", "near").text()
            if not margins:
                self.assertEqual(said, "no line, nothing to compare")
                continue
            greatest = max(margin for margin, _ in margins)
            season = min(season for margin, season in margins if margin == greatest)
            answered, both = ASKED.rows[station, season], ASKED.margins[station, season]
            touch = both.mesh >= both.step
            pair = (answered.mesh, answered.tolerable_touch) if touch else (answered.step, answered.tolerable_step)
            words = margin_words(greatest, *pair)
            self.assertEqual(said, f"{words} {'touch' if touch else 'step'}, season {season}")
            lengths = {one.classes[0]: int(one.attributes["width"]) for one in row.one("svg", "bar").all("rect") if one.classes != ["tick"]}
            self.assertEqual(lengths["fill"] + lengths.get("over", 0), 1000 + greatest)
            self.assertEqual(len(list(row.one("svg", "bar").all("rect", "tick"))), len(margins) - 1)

    def test_fault_current_and_wire(self):
        for station, row in self.rows.items():
            answer = ASKED.release[station]
            keys = [key for key in ASKED.rows if key[0] == station]
            if not keys:
                self.assertEqual([row.one("td", kind).text() for kind in ("fault", "wire")], ["no line", "no line"])
                continue
            self.assertTrue(row.one("td", "fault").text().startswith(f"{'at most ' if answer.missing else ''}{answer.fault:,} Anow "))
            needed = max(ASKED.rows[key].kcmil for key in keys)
            own = 1000 * ASKED.cases[keys[0]]["dia"] ** 2 // 64516
            self.assertEqual(row.one("td", "wire").text(), f"{needed:,} of {own:,}{'too small' if answer.small_wire else 'enough'}")

    def test_every_reason_is_given(self):
        for station, row in self.rows.items():
            reasons = list(row.all("tr", "why"))
            self.assertEqual(len(reasons), 0 if ASKED.release[station].released else 1)
            if reasons:
                answer = ASKED.release[station]
                bold = [one.text().lower() for one in reasons[0].all("b")]
                counted = answer.unsafe + answer.undecided + (answer.missing > 0) + (answer.other_yard > 0) + (answer.small_wire > 0)
                self.assertEqual(len(bold), counted, station)

    def test_totals(self):
        verdicts = [row.verdict for row in ASKED.rows.values()]
        released = sum(one.released for one in ASKED.release.values())
        missing = sum(one.missing for one in ASKED.release.values())
        self.assertEqual(self.page.one("p", "totals").text(), (
            f"{len(STATIONS)} stations: {released} released, {len(STATIONS) - released} held. {len(verdicts)} season lines: "
            f"{verdicts.count(1)} safe, {verdicts.count(2)} unsafe, {verdicts.count(3)} undecided; "
            f"{missing} seasons of the licence without a line."))


class Page(unittest.TestCase):
    def test_a_page_a_station_with_a_line(self):
        order = [int(row.one("span", "no").text()) for row in TREE.all("tbody", "st")]
        pages = [int(one.one("h2").one("span", "no").text()) for one in TREE.all("section", "station")]
        self.assertEqual(pages, [station for station in order if station in with_lines()])

    def test_footers(self):
        sha = hashlib.sha256(SHEET).hexdigest()
        footers = list(TREE.all("footer"))
        self.assertEqual(len(footers), 1 + len(with_lines()))
        for one in footers:
            for said in ("portfolio.csv", sha, f"Hocsimbur {core.version()}", DATE):
                self.assertIn(said, one.text())

    def test_sentences(self):
        """Every sentence about a station stands on its page, in order."""
        for one in decision.portfolio(SHEET, LICENCE).stations:
            if one.lines:
                page, wire = section(one.station), [] if one.answer.small_wire else [reasons.wire(one)]
                self.assertEqual(page.one("p", "decision").text(), plain(" ".join(reasons.decision(one))))
                said = [reasons.differences(one), reasons.outside(one), *reasons.undecided(one), reasons.current(one), *wire]
                cautions = [f"Caution: {caution}" for caution in reasons.cautions(one)]
                changes = [] if one.released else advice.changes(one)
                reported = [item.text() for item in page.all("li")]
                self.assertEqual(reported[:len(reported) - len(changes) - bool(changes)], [plain(text) for text in said + cautions if text])
                self.assertEqual(reported[len(reported) - len(changes):], [change.words for change in changes])
                self.assertEqual(any(text.startswith("What to change:") for text in reported), bool(changes))
                word = "Released" if ASKED.release[one.station].released else "Held"
                self.assertEqual(page.one("p", "decision").text().split(":")[0], word)

    def test_cautions(self):
        reported = {station: len(list(section(station).all("li", "caution"))) for station in with_lines()}
        self.assertEqual({station for station, count in reported.items() if count}, {160, 188})

    def test_nothing_is_fetched_and_nothing_runs(self):
        tags = {one.tag for one in TREE.all()}
        self.assertFalse(tags & {"script", "link", "img", "iframe", "object", "embed", "base", "form", "input", "video", "audio", "image",
                                 "use"})
        for one in TREE.all():
            for name, value in one.attributes.items():
                self.assertFalse(name.startswith("on") or name in ("src", "srcset", "xlink:href", "action", "http-equiv"), name)
                self.assertFalse(name == "href" and not re.fullmatch(r"#(top|s\d+)", value), value)
        style = "".join(TREE.one("style").children)
        self.assertFalse(re.search(r"url\(|@import|expression|https?:|//", style))

    def test_every_link_arrives(self):
        names = [one.attributes["id"] for one in TREE.all() if "id" in one.attributes]
        self.assertEqual(len(names), len(set(names)))
        for one in TREE.all():
            for name in one.attributes.get("href", "#top")[1:].split() + one.attributes.get("aria-labelledby", "").split():
                self.assertIn(name, names)

    def test_for_a_screen_reader(self):
        for one in TREE.all("svg"):
            hidden = one.attributes.get("aria-hidden") == "true"
            self.assertEqual([child.tag for child in one.children if isinstance(child, Node)][:1] == ["title"], not hidden)
            self.assertEqual(one.attributes.get("role") == "img", not hidden)
        for one in TREE.all("th"):
            self.assertIn(one.attributes["scope"], ("col", "row", "colgroup", "rowgroup"))
        for one in TREE.all("table"):
            self.assertTrue(one.one("caption").text())
        for one in TREE.all("figure"):
            self.assertTrue(one.one("desc").children)
        self.assertEqual(TREE.one("html").attributes["lang"], "en")

    def test_headings(self):
        levels = [one.tag for one in TREE.all() if re.fullmatch("h[1-6]", one.tag)]
        self.assertEqual(levels, ["h1"] + ["h2", "h3", "h3", "h3", "h3", "h3"] * len(with_lines()))

    def test_rows_have_one_width(self):
        for table in TREE.all("table"):
            if "pf" not in table.classes:
                rows = [[one for one in row.children if isinstance(one, Node)] for row in table.all("tr")]
                self.assertEqual(len({sum(int(one.attributes.get("colspan", 1)) for one in row) for row in rows}), 1)

    def test_one_scale(self):
        self.assertEqual({one.attributes["viewbox"] for one in TREE.all("svg", "bar")}, {"0 0 1500 20"})


class Bars(unittest.TestCase):
    def test_at_the_limit_nothing_is_over(self):
        scale = drawing.Scale(1250, 1000)
        self.assertNotIn("over", drawing.bar(1000, scale, "a", "t"))
        self.assertIn('class="over" x="1000" y="5" width="1"', drawing.bar(1001, scale, "a", "t"))


class Bytes(unittest.TestCase):
    def test_the_same_twice(self):
        self.assertEqual(PAGE, rendered(SHEET, "portfolio.csv", LICENCE, DATE))

    def test_only_the_date(self):
        other = rendered(SHEET, "portfolio.csv", LICENCE, "2 July 2026")
        self.assertNotEqual(PAGE, other)
        self.assertEqual(PAGE, other.replace("2 July 2026", DATE))

    def test_stored(self):
        """After an intended change: cd python && python3 -m tests.golden"""
        self.assertTrue(golden.made() == golden.FILE.read_text(encoding="utf-8"), f"another report than {golden.FILE} has")

    def test_today(self):
        self.assertRegex(document.today(), r"^[1-9]\d? (January|February|March|April|May|June|July|August|September|October|November|"
                                         r"December) 20\d\d$")


class Others(unittest.TestCase):
    """Other portfolios."""

    def test_names_are_escaped(self):
        name = "<script>alert(1)</script> & \"O'Hara\" </style>"
        page = rendered(SHEET, f"{name}.csv", granted(101, (1, 2, 3, 4), name), f"1 July <b>2026</b> {name}")
        tree = read(page)
        self.assertFalse(list(tree.all("script")))
        self.assertNotIn("<script", page)
        self.assertEqual(tree.one("h2").text(), f"101 {name}")
        self.assertEqual(tree.one("head").one("title").text(), f"Ground-grid verdicts: {name}.csv, 1 July <b>2026</b> {name}")
        self.assertEqual([one.text() for one in tree.one("dl").all("dd")][:2], [f"1 July <b>2026</b> {name}", f"{name}.csv"])

    def test_a_refused_sheet_has_no_report(self):
        for sheet, number in ((b"", 1), (SHEET[:-1], 1), (SHEET.replace(b",600,", b",60,", 1), 5), (SHEET + SHEET.splitlines(True)[1], 7)):
            with self.assertRaises(core.Refused) as refused:
                rendered(sheet, "portfolio.csv", LICENCE, DATE)
            self.assertEqual(refused.exception.number, number)

    def test_without_a_licence_all_four_seasons(self):
        tree = read(rendered(SHEET, "portfolio.csv", None, DATE))
        for one in tree.all("section", "station"):
            self.assertEqual(len(list(one.one("table", "res").one("thead").all("th", "num"))), 4)
        self.assertIn("No licence was handed over", tree.one("p", "totals").text())
        self.assertNotIn("of the licence", tree.one("main").text())
        self.assertNotIn("in the licence", tree.one("main").text())

    def test_a_bar_that_is_cut(self):
        sheet = layout.text([case(101, 1, fault=80000, dia=300)])
        page = rendered(sheet, "cut.csv", granted(101, (1,)), DATE)
        tree = read(page)
        self.assertEqual({one.attributes["viewbox"] for one in tree.all("svg", "bar")}, {"0 0 2000 20"})
        self.assertTrue(list(tree.all("path", "cut")))
        self.assertIn("a bar that is cut goes beyond 200 %", tree.one("div", "key").text())
        self.assertNotIn("a bar that is cut", PAGE)

    def test_one_small_wire(self):
        sheet = layout.text([case(118, 1), case(118, 2, dia=300)])
        tree = read(rendered(sheet, "wire.csv", granted(118, (1, 2)), DATE))
        self.assertEqual(tree.one("td", "wire").text(), "495 of 38too small")

    def test_columns_in_another_order(self):
        names, *lines = [line.split(",") for line in SHEET.decode().splitlines()]
        turned = "".join(",".join(reversed(line)) + "\n" for line in [names, *lines]).encode()
        page = rendered(turned, "portfolio.csv", LICENCE, DATE)
        self.assertEqual(page, PAGE.replace(hashlib.sha256(SHEET).hexdigest(), hashlib.sha256(turned).hexdigest())
                         .replace(hashlib.sha256(SHEET).hexdigest()[:12], hashlib.sha256(turned).hexdigest()[:12]))

    def test_a_licence_without_any_line(self):
        tree = read(rendered(SHEET, "portfolio.csv", licence.Licence((licence.Licensed(7, "Nowhere", (1, 2)),)), DATE))
        self.assertEqual(len(list(tree.all("section"))), 1)
        self.assertEqual(tree.one("tbody", "st").one("span", "badge").text(), "HELD")


class Drawings(unittest.TestCase):
    """The text of each drawing."""

    SCALE = drawing.Scale(2000, 2500)
    HEAD = '<svg class="bar" viewBox="0 0 2000 20" preserveAspectRatio="none" role="img" aria-labelledby="a1"><title id="a1">P &amp; Q</title>'
    BASE = '<rect class="base" x="0" y="2" width="4" height="16"/>'
    LIMIT = '<rect class="limit" x="996" y="0" width="8" height="20"/></svg>'

    def bar(self, share: int, *others: int) -> str:
        drawn = drawing.bar(share, self.SCALE, "a1", "P & Q", others)
        self.assertTrue(drawn.startswith(self.HEAD + self.BASE) and drawn.endswith(self.LIMIT), drawn)
        return drawn[len(self.HEAD + self.BASE):-len(self.LIMIT)]

    def test_a_bar_below_its_limit(self):
        self.assertEqual(self.bar(700), '<rect class="fill" x="0" y="5" width="700" height="10"/>')
        self.assertEqual(self.bar(1000), '<rect class="fill" x="0" y="5" width="1000" height="10"/>')

    def test_a_bar_above_its_limit(self):
        self.assertEqual(self.bar(2000), '<rect class="fill" x="0" y="5" width="1000" height="10"/>'
                                         '<rect class="over" x="1000" y="5" width="1000" height="10"/>')

    def test_a_bar_that_is_cut(self):
        self.assertEqual(self.bar(2001), self.bar(2000) + '<path class="cut" d="M1940 5l25 5-25 5M1970 5l25 5-25 5"/>')

    def test_ticks(self):
        tick = '<rect class="tick" x="{}" y="5" width="9" height="10"/>'
        self.assertEqual(self.bar(700, 2, 600, 3000), self.bar(700) + tick.format(0) + tick.format(595) + tick.format(1995))

    def test_no_bar(self):
        self.assertEqual(drawing.no_bar(self.SCALE, "a1", "P & Q"), self.HEAD + self.BASE + self.LIMIT)

    def test_between_and_axis(self):
        self.assertEqual(drawing.between(self.SCALE), '<svg class="bar" viewBox="0 0 2000 20" preserveAspectRatio="none" aria-hidden="true" '
                                                      'focusable="false">' + self.LIMIT)
        self.assertEqual(drawing.axis(self.SCALE), '<span class="axis" aria-hidden="true"><span style="left:calc(100% * 0 / 2000)">0</span>'
                                                   '<span style="left:calc(100% * 500 / 2000)">50</span>'
                                                   '<span style="left:calc(100% * 1000 / 2000)">100 % limit</span></span>')

    def test_marks(self):
        self.assertEqual(drawing.mark("unsafe"), '<svg class="mark unsafe" viewBox="0 0 160 160" aria-hidden="true" focusable="false">'
                                                 '<path d="M80 16 150 144H10z"/></svg>')

    def test_shapes(self):
        """Closed elements alone, inside the box of a mark."""
        for kind, shape in drawing.SHAPES.items():
            for one in read(f"<svg>{shape}</svg>").one("svg").children:
                self.assertIsInstance(one, Node, kind)
                self.assertIn(one.tag, ("circle", "path"), kind)
                numbers = [int(number) for number in re.findall(r"\d+", " ".join(one.attributes.values()))]
                self.assertTrue(numbers and max(numbers) <= 160, kind)

    def test_cuts(self):
        self.assertEqual([drawing.Scale(2000, greatest).cuts for greatest in (1999, 2000, 2001)], [False, False, True])


if __name__ == "__main__":
    unittest.main()
