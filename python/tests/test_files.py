"""Many files, one answer: stations whose lines stand in several files, names of files, folders, and refusals with their files."""
from __future__ import annotations

import hashlib
import os
import pathlib
import random
import signal
import subprocess
import sys
import tempfile
import time
import unittest
from unittest import mock

from hocsimbur import core
from hocsimbur.command import progress
from hocsimbur.portfolio import decision, licence
from hocsimbur.sheets import checking, files, layout
from hocsimbur.sheets.files import File, Lines, Place
from hocsimbur.sheets.names import NAMES

from . import dom
from .common import PYTHON, ROOT, SAMPLE, changed, run
from .portfolios import CASES, LICENCE, SHEET, case, granted

HEAD = SAMPLE.split(b"\n")[0] + b"\n"
TURNED = [name.name for name in reversed(NAMES)]


def sheet(*cases) -> bytes:
    return layout.text(list(cases))


def turned(*cases) -> bytes:
    """A sheet with its columns the other way round."""
    return layout.text([{name: one[name] for name in TURNED} for one in cases])


def scattered(seed: int, count: int) -> list:
    """The lines of the example under other stations, in any order."""
    rng = random.Random(seed)
    keys = rng.sample([(number, season) for number in range(1, count // 2) for season in range(1, 5)], count)
    return [dict(rng.choice(CASES), station=number, season=season, fault=rng.randint(100, 80000)) for number, season in keys]


class Folder(unittest.TestCase):
    """Tests that write files."""

    def setUp(self):
        kept = tempfile.TemporaryDirectory()
        self.addCleanup(kept.cleanup)
        self.folder = pathlib.Path(kept.name)

    def file(self, name: str, data: bytes) -> str:
        (self.folder / name).write_bytes(data)
        return str(self.folder / name)


class Portfolio(Folder):
    def test_dry_and_wet_seasons_in_two_files(self):
        """With a licence for season 2 a station is held while its other file is unsafe, whatever the order of the files."""
        dry, wet = case(104, 2, season=1), case(104, 1, season=2)
        self.assertEqual([row.verdict for row in core.rows(sheet(dry, wet))], [core.Verdict.UNSAFE, core.Verdict.SAFE])
        names = [self.file("dry.csv", sheet(dry)), self.file("wet.csv", sheet(wet)), self.file("other.csv", sheet(case(101, 1), case(101, 2)))]
        granted_ = self.file("licence.txt", b"station,name,seasons\n104,Birch Hollow,2\n101,Ashgrove,1 2\n")
        alone = run("release", names[1], "--licence", granted_)
        self.assertIn("station 104 Birch Hollow  RELEASED", alone.out)
        for order in (names, names[::-1], [str(self.folder)]):
            done = run("release", *order, "--licence", granted_)
            self.assertEqual(done.status, 2)
            self.assertIn(f"station 104 Birch Hollow  HELD      season 1 ({names[0]}, line 2): mesh 18.0 % above tolerable touch;", done.out)
            self.assertIn("station 101 Ashgrove      RELEASED  2 seasons;", done.out)
            self.assertIn("2 stations: 1 released, 1 held. 4 season lines: 3 safe, 1 unsafe, 0 undecided;", done.out)
            csv = run("release", *order, "--licence", granted_, "--csv").out.split("\n")
            self.assertEqual([csv[1].split(",")[:2], csv[2].split(",")[:2]], [["104", "held"], ["101", "released"]])
            self.assertEqual(set(csv[1].split(",")[-1].split("; ")), set(names[:2]))

    def test_the_answer_does_not_depend_on_the_files(self):
        """Lines spread over files of any size and order of columns are answered as in one sheet."""
        for seed in range(4):
            rng, lines = random.Random(seed), scattered(seed, 250)
            whole = decision.portfolio(sheet(*lines))
            cuts = sorted(rng.sample(range(1, 250), 5))
            parts = [lines[a:b] for a, b in zip([0, *cuts], [*cuts, 250])]
            spread = decision.portfolio([File(f"{place}.csv", (turned if place % 2 else sheet)(*part)) for place, part in enumerate(parts)])
            self.assertEqual([one.answer for one in spread.stations], [one.answer for one in whole.stations])
            self.assertEqual([[(line.row, line.case) for line in one.lines] for one in spread.stations],
                             [[(line.row, line.case) for line in one.lines] for one in whole.stations])

    def test_more_lines_than_a_sheet_has(self):
        lines = scattered(9, 1500)
        asked = {one: [line for line in lines if line["station"] == one] for one in dict.fromkeys(line["station"] for line in lines)}
        found = decision.portfolio(sheet(*lines))
        self.assertEqual([one.station for one in found.stations], list(asked))
        for one in found.stations:
            self.assertEqual(one.answer, core.release(sheet(*asked[one.station]), [(one.station, 15)])[0])
            self.assertEqual([line.case for line in one.lines], sorted(asked[one.station], key=lambda line: line["season"]))

    def test_a_licence_of_more_stations_than_the_core_takes(self):
        granted_ = licence.Licence(tuple(licence.Licensed(number, "", (1, 2)) for number in range(1, 1001)))
        lines = [case(101, season, station=number) for number in range(2, 601, 2) for season in (1, 2)]
        found = decision.portfolio(sheet(*lines), granted_)
        self.assertEqual([one.station for one in found.stations], list(range(1, 1001)))
        self.assertEqual([one.released for one in found.stations], [number % 2 == 0 and number <= 600 for number in range(1, 1001)])
        self.assertEqual({one.answer.missing for one in found.stations if not one.released}, {2})
        self.assertEqual(found.unlicensed, ())

    def test_stations_outside_the_licence(self):
        lines = [case(101, 1, station=number) for number in range(1, 701)]
        self.assertEqual(decision.portfolio(sheet(*lines), granted(3, (1,))).unlicensed, (1, 2, *range(4, 701)))

    def test_a_wrong_line_outside_the_licence_is_refused(self):
        lines = [case(101, 1, station=number) for number in range(1, 701)]
        with self.assertRaises(core.Refused):
            decision.portfolio(sheet(*lines, case(101, 1, station=9000, depth=1)), granted(3, (1,)))


class Batches(unittest.TestCase):
    def test_whole_stations(self):
        for seed in range(5):
            lines = scattered(seed, 700)
            cut = random.Random(seed).randint(1, 699)
            made = Lines([File("a", sheet(*lines[:cut])), File("b", turned(*lines[cut:]))])
            batches = made.batches()
            self.assertEqual(sorted(line for batch in batches for line in batch.lines), list(range(700)))
            self.assertLessEqual(max(len(batch.lines) for batch in batches), core.LINES)
            self.assertGreater(min(len(batch.lines) for batch in batches[:-1]), core.LINES - 4)
            stations = [{lines[line]["station"] for line in batch.lines} for batch in batches]
            self.assertEqual(sum(map(len, stations)), len(set().union(*stations)))
            for batch in batches:
                self.assertEqual(layout.cases(batch.sheet), [{name: lines[line][name] for name in made.names.decode().split(",")} for line in batch.lines])

    def test_one_sheet_is_asked_as_it_stands(self):
        self.assertEqual(Lines(SHEET).batches(), [(SHEET, range(36))])
        full = sheet(*scattered(1, 256))
        self.assertEqual(len(Lines(full).batches()), 1)
        self.assertEqual(len(Lines(full + b"9999,1" + SAMPLE.split(b"\n")[1][3:] + b"\n").batches()), 2)

    def test_places(self):
        made = Lines([File("a", SAMPLE), File("b", SHEET)])
        self.assertEqual([made.place(line) for line in (0, 1, 2, 37)], [Place("a", 2), Place("a", 3), Place("b", 2), Place("b", 37)])
        self.assertEqual(made.own(2), (SHEET.split(b"\n")[0], SHEET.split(b"\n")[1]))

    def test_order(self):
        made = Lines([File("a", sheet(*scattered(2, 300))), File("b", sheet(*[dict(one, station=one["station"] + 500) for one in scattered(3, 300)]))])
        batches = made.batches()
        self.assertGreater(len(batches), 2)
        self.assertEqual(made.in_order(batches, [list(batch.lines) for batch in batches]), list(range(600)))

    def test_refused_heads(self):
        for data in (b"", b"x", SAMPLE[:-1], HEAD, SAMPLE.replace(b"soil", b"sol"), HEAD[:-1]):
            with self.assertRaises(core.Refused) as alone:
                core.rows(data)
            with self.assertRaises(files.Headless) as caught:
                Lines([File("good", SHEET), File("wrong", data)])
            self.assertEqual(str(caught.exception), str(alone.exception))
            self.assertEqual(caught.exception.file.name, "wrong")

    def test_threads_keep_the_order(self):
        self.assertEqual(list(files.each(range(50), lambda one: (time.sleep(0.001 * (one % 3)), one)[1], threads=4)), list(range(50)))

    def test_what_a_thread_raises(self):
        asked = []

        def question(one):
            asked.append(one)
            if one == 5:
                raise core.Refused(5, 2, 3)
            return one

        with self.assertRaises(core.Refused):
            list(files.each(range(10000), question, threads=2))
        self.assertLess(len(asked), 100)


class Refusals(Folder):
    def test_a_wrong_line_among_more_than_a_sheet_has(self):
        """The wrong line is reported, and not that the library takes no more than 256 at once."""
        lines = [case(101, 1, station=number) for number in range(1, 301)]
        name = self.file("many.csv", sheet(*lines[:4], dict(lines[4], fault=99), *lines[5:]))
        self.assertEqual(run("verdict", name), (1, "", f"{name}: line 6, fault (column 10): 99 A is not in 100..80000\n"
                                                       f"nothing was computed; `hocsimbur check {name}` reports every refusal\n"))

    def test_both_files_and_lines(self):
        first = self.file("a.csv", sheet(case(101, 1), case(104, 2)))
        second = self.file("b.csv", turned(case(101, 2), case(104, 2), case(110, 1)))
        for command in ("verdict", "rows", "margins", "summary", "release", "report", "next"):
            done = run(command, first, second)
            self.assertEqual((done.status, done.out), (1, ""), command)
            self.assertEqual(done.err, f"{second}: line 3: station 104, season 2 stands already in line 3 of {first}; a station has one line for a "
                             f"season\nnothing was computed; `hocsimbur check {first} {second}` reports every refusal\n")
        done = run("check", first, second)
        self.assertEqual(done.out, f"{second}: line 3: station 104, season 2 stands already in line 3 of {first}; a station has one line for a "
                         "season\n1 line is refused; nothing was computed\n")
        self.assertEqual(run("check", first, second, "--csv").out, f"refused,7,3,0,{second}\n")
        self.assertEqual(run("release", first, second, "--csv"), (1, f"refused,7,3,0,{second}\n", ""))

    def test_columns_are_those_of_the_own_file(self):
        first, second = self.file("a.csv", sheet(case(101, 1))), self.file("b.csv", turned(dict(case(101, 2), depth=1, soil=6000)))
        self.assertEqual(run("check", first, second).out,
                         f"{second}: line 2, depth (column 7): 1 mm is not in 250..2500\n{second}: line 2, soil (column 20): 6000 Ω·m is not in "
                         "10..5000\n1 line is refused; nothing was computed\n")

    def test_the_first_refusal_of_each_file(self):
        names = [self.file(f"{place}.csv", data) for place, data in enumerate((b"", sheet(dict(case(101, 1), soil=1, depth=1)), SAMPLE))]
        done = run("verdict", *names)
        self.assertEqual(done.err.split("\n")[:2], [f"{names[0]}: the sheet is empty; it needs a line of names and a line of values",
                                                    f"{names[1]}: line 2, soil (column 3): 1 Ω·m is not in 10..5000"])
        self.assertEqual(run("check", *names).out.split("\n")[-2], "the sheet is refused, and 1 line; nothing was computed")
        names[2] = self.file("2.csv", b"")
        self.assertEqual(run("check", *names).out.split("\n")[-2], "2 sheets are refused, and 1 line; nothing was computed")

    def test_a_line_too_short_for_its_station(self):
        """The station stands last here, and a line that ends before it is refused in words."""
        first = self.file("a.csv", turned(case(101, 1)) + b"60,1\n")
        second = self.file("b.csv", sheet(case(101, 2)))
        self.assertEqual(run("check", first, second).out.split("\n")[0],
                         f"{first}: line 3, place (column 3): there are only 2 values for 22 names; this one is missing")

    def test_deep_in_a_large_file(self):
        lines = [case(101, 1 + place % 4, station=1 + place // 4) for place in range(2000)]
        lines[1234]["depth"], lines[1700]["season"] = 60, lines[1703]["season"]
        large = self.file("large.csv", sheet(*lines))
        self.assertEqual(run("verdict", large).err.split("\n")[0], f"{large}: line 1236, depth (column 16): 60 mm is not in 250..2500")
        self.assertEqual([(one.number, one.line) for one in checking.check([File(large, sheet(*lines))])], [(5, 1236), (7, 1705)])


class Names(Folder):
    def test_a_file_named_twice(self):
        name = self.file("a.csv", SAMPLE)
        os.symlink(name, self.folder / "b.csv")
        done = run("verdict", name, name)
        self.assertEqual((done.out, done.err), (run("verdict", "tests/sample.csv").out, f"note: {name} is named twice; it is read once\n"))
        done = run("verdict", str(self.folder))
        self.assertEqual(done.err, f"note: {self.folder / 'b.csv'} is named twice, first as {name}; it is read once\n")

    def test_the_licence_in_the_folder(self):
        self.file("a.csv", SAMPLE)
        granted_ = self.file("licence.csv", b"station,name,seasons\n7,Seven,1 2\n")
        done = run("release", str(self.folder), "--licence", granted_)
        self.assertEqual((done.status, done.err), (2, f"note: {granted_} is the licence; it is not read as a sheet\n"))
        os.unlink(self.folder / "a.csv")
        self.assertEqual(run("release", str(self.folder), "--licence", granted_).status, 3)

    def test_files_in_answers(self):
        first, second = self.file("a.csv", SAMPLE), self.file("b.csv", sheet(case(101, 1)))
        self.assertEqual(run("verdict", first, second).out.split("\n")[:4],
                         [f"station  season  verdict  wire needed  {'file'.ljust(len(first))}  line",
                          f"      7       1  unsafe      17 kcmil  {first}     2", f"      7       2  safe        17 kcmil  {first}     3",
                          f"    101       1  safe        66 kcmil  {second}     2"])
        self.assertEqual(run("verdict", first, second, "--csv").out,
                         f"station,season,verdict,kcmil,file,line\n7,1,unsafe,17,{first},2\n7,2,safe,17,{first},3\n101,1,safe,66,{second},2\n")
        for command in ("rows", "margins"):
            lines = run(command, first, second, "--csv").out.split("\n")
            self.assertEqual([line.split(",")[-2:] for line in lines[:-1]], [["file", "line"], [first, "2"], [first, "3"], [second, "2"]])
        self.assertIn(f"station 101, season 1: safe; 66 kcmil needed ({second}, line 2)\n", run("rows", first, second).out)
        self.assertIn(f"  {first}     3\n", run("margins", first, second).out)
        self.assertTrue(run("summary", first, second).out.endswith(f"  {second}\n"))
        self.assertEqual(run("summary", first, second, "--csv").out.split("\n")[1], f"7,2,1,1,0,1,{first}")
        self.assertEqual(run("check", first, second).out, "3 lines in 2 files, no refusal\n")

    def test_standard_input_among_files(self):
        done = run("verdict", "--csv", "-", "tests/sample.csv", stdin=sheet(case(101, 1)))
        self.assertEqual(done.out.split("\n")[1], "101,1,safe,66,standard input,2")

    def test_standard_input_refused(self):
        """Standard input is not named, and no command to see every refusal is given."""
        wrong = "line 2, fault (column 10): 1 A is not in 100..80000\n"
        self.assertEqual(run("verdict", "-", stdin=changed(fault=1)), (1, "", wrong + "nothing was computed\n"))
        self.assertEqual(run("verdict", "-", "examples/refused-5.csv", stdin=changed(fault=1)), (
            1, "", wrong + "examples/refused-5.csv: line 2, depth (column 16): 60 mm is not in 250..2500\nnothing was computed\n"))

    def test_a_name_that_is_not_utf_8(self):
        """It is printed as the bytes that it is."""
        name = os.fsencode(self.folder) + b"/\xff.csv"
        pathlib.Path(os.fsdecode(name)).write_bytes(SAMPLE)
        done = subprocess.run([sys.executable, "-m", "hocsimbur", "verdict", "--csv", name, "examples/seasons.csv"], cwd=ROOT, capture_output=True,
                              env={**os.environ, "PYTHONPATH": str(PYTHON)}, check=False)
        self.assertEqual((done.returncode, done.stderr), (2, b""))
        self.assertIn(b"7,1,unsafe,17," + name + b",2\n", done.stdout)

    def test_a_name_with_a_comma(self):
        name = self.file('a, "b".csv', SAMPLE)
        self.assertIn(',"' + name.replace('"', '""') + '",2\n', run("verdict", "--csv", name, "examples/seasons.csv").out)

    def test_summary_of_a_station_in_two_files(self):
        first, second = self.file("a.csv", sheet(case(101, 1))), self.file("b.csv", sheet(case(101, 2), case(104, 1)))
        self.assertEqual(run("summary", "--csv", first, second).out.split("\n")[1:3], [f"101,2,2,0,0,2,{first}; {second}", f"104,1,1,0,0,1,{second}"])


class Report(Folder):
    def test_of_two_files(self):
        first, second, page = self.file("a.csv", sheet(case(104, 1))), self.file("b.csv", sheet(case(104, 2))), self.folder / "page.html"
        done = run("report", first, second, "--date", "1 July 2026", "-o", str(page), "--project", "P & Q", "--engineer", "E. <Smith>")
        self.assertEqual(done.status, 2)
        text = page.read_text(encoding="utf-8")
        for said in ("Ground-grid verdicts: 2 sheets, 1 July 2026", "Lines: season 1 in line 2 of ", "P &amp; Q", "E. &lt;Smith&gt;, date",
                     "2 sheets, listed on the first page", "season 2 (", "Sheets, each with its SHA-256:"):
            self.assertIn(said, text)
        self.assertIn(f"Lines: season 1 in line 2 of {first}, season 2 in line 2 of {second}.", text)
        for data in (sheet(case(104, 1)), sheet(case(104, 2))):
            self.assertIn(hashlib.sha256(data).hexdigest(), text)
        self.assertNotIn("sign", run("report", first).out.split("</style>")[1])

    def meta(self, *arguments: str):
        """What stands at the head of a report, by its name."""
        head = dom.read(run("report", *arguments).out).one("dl", "meta")
        return {one.one("dt").text(): one.one("dd").text() for one in head.all("div")}

    def test_the_head_of_the_first_page(self):
        first, second = self.file("a.csv", SAMPLE), self.file("b.csv", sheet(case(104, 1)))
        version = f"Hocsimbur {core.version()}"
        self.assertEqual(self.meta(first, "--date", "D", "--project", "P & Q", "--engineer", "E"), {
            "Project": "P & Q", "Date": "D", "Sheet": "a.csv", "SHA-256": hashlib.sha256(SAMPLE).hexdigest()[:12], "Library": version, "Engineer": "E"})
        self.assertEqual(self.meta(first, second, "--date", "D"), {"Date": "D", "Sheets": "2", "Library": version})

    def test_the_list_of_sheets(self):
        files = {self.file("a.csv", SAMPLE): SAMPLE, self.file("b.csv", sheet(case(104, 1))): sheet(case(104, 1))}
        listed = dom.read(run("report", *files).out).one("ol", "sheets")
        self.assertEqual([one.text() for one in listed.all("li")],
                         [f"{os.path.basename(name)} {hashlib.sha256(data).hexdigest()}" for name, data in files.items()])

    def test_on_standard_output(self):
        self.assertEqual(run("report", "tests/sample.csv", "--date", "x", "-o", "-").out, run("report", "tests/sample.csv", "--date", "x").out)
        self.assertEqual(run("import", "tests/sample.csv", "-o", "-").out, SAMPLE.decode())

    def test_too_many_stations(self):
        large = self.file("large.csv", sheet(*[case(101, 1, station=number) for number in range(1, 1002)]))
        done = run("report", large, "-o", str(self.folder / "page.html"))
        self.assertEqual((done.status, done.out), (3, ""))
        self.assertIn("the report would have 1,001 stations, at most 1,000 go into one file; make one report for each part", done.err)
        self.assertFalse((self.folder / "page.html").exists())

    def test_what_was_read_is_not_overwritten(self):
        first = self.file("a.csv", SAMPLE)
        self.assertIn("this file was read; it is not overwritten", run("report", first, "examples/seasons.csv",
                                                                       "-o", first).err)


class Seasons(Folder):
    def test_in_place_of_a_licence(self):
        done = run("release", "examples/seasons.csv", "--seasons", "1,2")
        self.assertEqual((done.status, done.err), (2, ""))
        self.assertNotIn("no line", done.out)
        self.assertEqual(run("release", "examples/seasons.csv", "--seasons", "1-3").out.count("no line for season 3"), 1)
        self.assertEqual(run("release", "examples/seasons.csv", "--seasons", "5"),
                         (1, "", "seasons: '5' is not 1, 2, 3 or 4; write for example 1 2 4, 1-4 or all\n"))
        self.assertEqual(run("release", "examples/seasons.csv", "--seasons", "1", "--licence", "examples/licence.csv").status, 3)

    def test_a_line_outside_the_seasons_counts(self):
        self.assertIn("HELD", run("release", "-", "--seasons", "1", stdin=sheet(case(104, 1), case(104, 2))).out)


class Long(Folder):
    """What takes more than a second."""

    def written(self, count: int, whole: int, terminal: bool = True, clock=None, patience: float = 1.0, between: float = 0.2) -> bytes:
        """What a command of so many steps writes to standard error, whose times are those of the clock."""
        stream = mock.Mock(**{"isatty.return_value": terminal})
        with mock.patch.object(sys, "stderr", stream), mock.patch.multiple(progress, PATIENCE=patience, BETWEEN=between), \
                mock.patch.object(time, "monotonic", side_effect=clock or time.monotonic):
            self.assertEqual(list(progress.watched(iter(range(count)), whole, "sheets")), list(range(count)))
        return b"".join(call.args[0] for call in stream.buffer.write.call_args_list)

    def test_progress_on_a_terminal(self):
        self.assertEqual((progress.PATIENCE, progress.BETWEEN), (1.0, 0.2))
        self.assertEqual(self.written(3, 3), b"")
        self.assertEqual(self.written(2, 1000, patience=0.0, between=0.0), b"\r1 of 1,000 sheets\x1b[K\r2 of 1,000 sheets\x1b[K\r\x1b[K")

    def test_progress_is_shown_after_a_second_and_then_five_times_a_second(self):
        clock = [100.0, 100.9, 101.0, 101.125, 101.25, 101.375, 101.5]
        shown = b"".join(b"\r%d of 6 sheets\x1b[K" % done for done in (2, 4, 6))
        self.assertEqual(self.written(6, 6, clock=clock), shown + b"\r\x1b[K")

    def test_no_progress_elsewhere(self):
        self.assertFalse(progress.shown())
        self.assertEqual(self.written(2, 2, terminal=False, patience=0.0, between=0.0), b"")

    def test_interrupted(self):
        lines = [dict(case(101, season), station=number, season=season) for number in range(1, 20001) for season in (1, 2, 3, 4)]
        started = subprocess.Popen([sys.executable, "-m", "hocsimbur", "release", "--csv", "-"], cwd=ROOT, stdin=subprocess.PIPE,
                                   preexec_fn=lambda: signal.signal(signal.SIGINT, signal.SIG_DFL),  # a shell's background job ignores it
                                   stdout=subprocess.PIPE, stderr=subprocess.PIPE, env={**os.environ, "PYTHONPATH": str(PYTHON)})
        started.stdin.write(sheet(*lines))  # it has started when it has read nearly all of this
        started.stdin.close()
        started.stdin = None
        time.sleep(0.3)
        started.send_signal(signal.SIGINT)
        out, err = started.communicate(timeout=60)
        self.assertEqual((started.returncode, out, err), (130, b"", b""))


if __name__ == "__main__":
    unittest.main()
