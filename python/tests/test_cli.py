"""The command line: help with its examples, exit statuses, and input and output that fail."""
from __future__ import annotations

import os
import pathlib
import re
import shlex
import subprocess
import sys
import tempfile
import unittest

from hocsimbur import core
from hocsimbur.command import cli, help_texts, terminal, yards
from hocsimbur.report import document
from hocsimbur.sheets import layout

from . import golden
from .common import PYTHON, ROOT, SAMPLE, process, run

# a command line of every command that prints something
PRINTING = {name: shlex.split(text.example.split("\n")[0].strip()[len("$ hocsimbur "):]) for name, text in help_texts.COMMANDS.items()}


class Help(unittest.TestCase):
    def test_every_example_prints_what_is_shown(self):
        for name, text in help_texts.COMMANDS.items():
            with self.subTest(name), tempfile.TemporaryDirectory() as folder:
                shown = re.fullmatch(r"  \$ hocsimbur (.*)\n((?:  .*\n|\n)*)", text.example)
                arguments = [os.path.join(folder, part) if part == "july.html" else part for part in shlex.split(shown[1])]
                done = run(*arguments)
                printed = (done.err + done.out).replace(folder + os.sep, "")
                self.assertEqual("".join(("  " + line).rstrip() + "\n" for line in printed.split("\n")[:-1]), shown[2])
                self.assertEqual(arguments[0], name)

    def test_every_command_has_help(self):
        self.assertEqual(list(help_texts.COMMANDS), list(cli.COMMANDS))
        for name, text in help_texts.COMMANDS.items():
            done = run(name, "--help")
            self.assertEqual((done.status, done.err), (0, ""))
            self.assertIn(text.example, done.out)
        self.assertEqual(run("--help").status, 0)

    def test_stored(self):
        """After an intended change: cd python && python3 -m tests.golden"""
        self.assertEqual(golden.helps(), golden.HELP.read_text(encoding="utf-8"))

    def test_commands_of_the_issue(self):
        self.assertEqual(set(cli.COMMANDS), {"check", "verdict", "rows", "margins", "summary", "release", "report", "next", "fewest", "wenner",
                                             "staged", "carry", "carry-back", "import", "version"})

    def test_wrong_arguments(self):
        for arguments in ([], ["verdicts"], ["verdict"], ["verdict", "--no", "x"], ["fewest", "tests/sample.csv"], ["next", "x", "--station", "y"]):
            done = run(*arguments)
            self.assertEqual((done.status, done.out), (3, ""), arguments)
            self.assertIn("--help", done.err)

    def test_version(self):
        self.assertEqual(run("--version"), run("version"))
        self.assertEqual(run("version").out, f"hocsimbur {core.version()}, library {core.version()}\n")

    def test_version_without_the_library(self):
        done = process("--version", env={"HOCSIMBUR_LIBRARY": "no-such-library.so"})
        self.assertEqual((done.status, done.out, done.err), (0, f"hocsimbur {core.version()}, no library found\n", ""))

    def test_version_imports_little(self):
        done = process(command=(sys.executable, "-c", "import sys; from hocsimbur.command.cli import main; main(['version']); print(*sys.modules)"))
        self.assertIn("hocsimbur.entries", done.out.split())
        self.assertFalse({"hocsimbur.core", "dataclasses", "fractions"} & set(done.out.split()))

    def test_did_you_mean(self):
        self.assertEqual(run("verdits", "tests/sample.csv"), (3, "", "hocsimbur: 'verdits' is no command; did you mean verdict?\n"
                                                             "`hocsimbur --help` shows how it is used\n"))
        self.assertEqual(run("REPORT").err.split("\n")[0], "hocsimbur: 'REPORT' is no command; did you mean report?")
        self.assertEqual(run("xyzzy").err.split("\n")[0], "hocsimbur: 'xyzzy' is no command")

    def test_a_pipe_without_a_dash(self):
        done = run("verdict", stdin=SAMPLE)
        self.assertEqual((done.status, done.err), (3, "hocsimbur verdict: the following arguments are required: FILE\nto read standard input, write - "
                                                   "for the file\n`hocsimbur verdict --help` shows how it is used\n"))

    def test_every_command_s_help_names_its_options(self):
        self.assertIn("--gpr-limit VOLTAGE", run("margins", "--help").out)
        self.assertIn("--round {cautious}", run("import", "--help").out)

    def test_a_value_without_its_option(self):
        for command, text, option in (("wenner", "2,3.18", "--reading"), ("staged", "20∠0", "--injected")):
            done = run(command, text)
            self.assertEqual((done.status, done.out, done.err), (3, "", f"hocsimbur: {text}: there is no such file; to give a value here, write {option} {text}\n"))
        self.assertIn("readings.csv: No such file", run("wenner", "readings.csv").err)

    def test_values_with_a_minus_sign(self):
        done = run("staged", "--csv", "--injected", "-1000,0", "--branch", "-400,0", "--branch", "-1@-90")
        self.assertEqual((done.status, done.out.split("\n")[1]), (0, "-600000,-1000,601"))

    def test_names_with_spaces(self):
        with tempfile.TemporaryDirectory() as folder:
            sheet = pathlib.Path(folder) / "a sheet.csv"
            sheet.write_bytes(b"")
            self.assertIn(f"`hocsimbur check '{sheet}'` reports", run("verdict", str(sheet)).err)


class Statuses(unittest.TestCase):
    def test_release(self):
        done = run("release", "examples/portfolio.csv", "--licence", "examples/licence.csv")
        self.assertEqual((done.status, done.err), (2, "note: 1 station of the licence stands in no file: 215\n"))
        self.assertEqual(run("release", "examples/refused-5.csv").status, 1)
        self.assertEqual(run("release", "-", "--licence", "examples/licence.csv", stdin=b"").status, 1)
        with tempfile.TemporaryDirectory() as folder:
            licence = pathlib.Path(folder) / "licence.csv"
            licence.write_text("station,name,seasons\n7,Seven,2\n")
            safe = b"".join(SAMPLE.splitlines(keepends=True)[i] for i in (0, 2))
            done = run("release", "-", "--licence", str(licence), stdin=safe)
            self.assertEqual(done.status, 0)
            self.assertEqual(done.out, "station 7 Seven  RELEASED  1 season; nearest limit 68.2 % below (touch, season 2); voltages safe up to 10,023 A; "
                             "wire up to 30,515 A\n1 station: 1 released, 0 held. 1 season line: 1 safe, 0 unsafe, 0 undecided; every season of the "
                             "licence has a line.\n")
            self.assertEqual(run("next", "-", "--licence", str(licence), stdin=safe), (0, "nothing is held, nothing is to be changed\n", ""))
            licence.write_text("station,name,seasons\n7,Seven,5\n")
            done = run("release", "tests/sample.csv", "--licence", str(licence))
            self.assertEqual((done.status, done.out), (1, ""))
            self.assertTrue(done.err.startswith(f"{licence}: licence line 2, seasons: "))

    def test_release_for_machines(self):
        done = run("release", "tests/sample.csv", "--csv")
        answer = core.release(SAMPLE, [(7, 15)])[0]
        self.assertEqual(done.out, "station,decision,missing,unsafe,undecided,other_yard,small_wire,fault_A,wire_A,stranded_caution,"
                         f"few_rods_caution\n7,held,{answer.missing},{answer.unsafe},{answer.undecided},{answer.other_yard},{answer.small_wire},"
                         f"{answer.fault},30515,0,0\n")
        done = run("release", "examples/portfolio.csv", "--licence", "examples/licence.csv", "--csv", "--gpr-limit", "5000")
        lines = {line.split(",")[0]: line.split(",")[8:] for line in done.out.split()}
        self.assertEqual(lines["station"], ["wire_A", "stranded_caution", "few_rods_caution", "rise_above_limit"])
        self.assertEqual([lines["160"], lines["188"], lines["215"]], [["14568", "1", "0", "1"], ["34946", "0", "1", "0"], ["0", "0", "0", "0"]])

    def test_unlicensed_stations_are_reported(self):
        with tempfile.TemporaryDirectory() as folder:
            licence = pathlib.Path(folder) / "licence.csv"
            licence.write_text("station,name,seasons\n101,Ashgrove,1 2 3 4\n")
            done = run("release", "examples/portfolio.csv", "--licence", str(licence))
            self.assertEqual((done.status, len(done.out.split("\n"))), (0, 3))
            self.assertEqual(done.err, "note: the licence does not name 11 stations of the files: 104, 110, 118, 123, 131, 140, 152, 160, 171, "
                             "188, 204\n")
            licence.write_text("station,name,seasons\n9,Nowhere,1\n")
            self.assertTrue(run("release", "tests/sample.csv", "--licence", str(licence)).err.startswith(
                "note: no station of the licence stands in the files; is it the licence for them?\n"))

    def test_fewest(self):
        self.assertEqual(run("fewest", "examples/rods.csv", "--station", "303", "--side", "60m", "--csv"), (0, "found,9,28,63\n", ""))
        for side in ("60000", "60000mm", "60.000m"):
            self.assertEqual(run("fewest", "examples/rods.csv", "--station", "303", "--side", side, "--csv").out, "found,9,28,63\n")
        self.assertEqual(run("fewest", "examples/rods.csv", "--station", "303", "--side", "719.999m"), (
            2, "no yard was tried: no count of conductors from 2 to 25 parts 719.999 m into whole mm from 2.5 to 30 m\n", ""))
        for side in ("60,0m", "60.0005m", "60km", "1m", "-60m", "1" * 30):
            done = run("fewest", "examples/rods.csv", "--station", "303", f"--side={side}")
            self.assertEqual((done.status, done.out), (1, ""), side)
            self.assertRegex(done.err, "^(examples/rods.csv: )?side: ")
        self.assertEqual(run("fewest", "tests/sample.csv", "--season", "1", "--side", "70m", "--rodlen", "7.5m", "--csv").out, "found,8,40,33\n")
        self.assertIn("rodlen (column 19): 500 mm is not in 0 or 1000..10000",
                      run("fewest", "tests/sample.csv", "--season", "1", "--side", "70m", "--rodlen", "500mm").err)
        self.assertIn("rodlen: '3 feet' is no length", run("fewest", "tests/sample.csv", "--season", "1", "--side", "70m", "--rodlen", "3 feet").err)
        self.assertIn("give their length, as --rodlen 3m", run("fewest", "tests/sample.csv", "--season", "1", "--side", "70m").err)
        self.assertIn("only one is taken here", run("fewest", "examples/rods.csv", "--side", "60m").err)
        self.assertIn("no line for station 9", run("fewest", "examples/rods.csv", "--side", "60m", "--station", "9").err)

    def test_the_yards_that_fewest_tried(self):
        """The list has the yards that the library tried, as many as it says: the found one last, and no other one safe."""
        for side, rodlen in ((60, 6), (121, 6), (720, 3), (97, 10), (20, 3)):
            words = ("fewest", "examples/rods.csv", "--station", "303", "--side", f"{side}m", "--rodlen", f"{rodlen}m")
            answer = run(*words, "--csv").out.strip().split(",")
            names, *lines = [line.split(",") for line in run(*words, "--csv", "--list").out.split()]
            self.assertEqual(names, ["lines", "space_mm", "rods", "verdict", "mesh_excess_per_mille", "step_excess_per_mille"])
            self.assertEqual(len(lines), int(answer[-1]))
            self.assertEqual([line[3] for line in lines].count("safe"), int(answer[0] == "found"))
            if answer[0] == "found":
                self.assertEqual((lines[-1][0], lines[-1][2], lines[-1][3]), (answer[1], answer[2], "safe"))
            self.assertTrue(all((int(line[0]) - 1) * int(line[1]) == 1000 * side for line in lines))
            self.assertEqual(sorted(lines, key=lambda line: (int(line[0]), int(line[2]))), lines)
            told = run(*words, "--list").out.splitlines()
            self.assertEqual((len(told), told[0].split()), (len(lines) + 2, ["conductors", "spacing", "rods", "verdict", "nearest", "limit"]))
            self.assertEqual(told[-1], run(*words).out.strip())
        none = run("fewest", "examples/rods.csv", "--station", "303", "--side", "719.999m", "--list")
        self.assertTrue(none.out.startswith("no yard was tried: "))

    def test_the_fewest_in_words(self):
        for found, sentence in (
                (core.Fewest(True, 9, 28, 63), "9 conductors each way, 7.5 m apart, and 28 rods at the perimeter; 63 yards tried"),
                (core.Fewest(True, 3, 0, 1), "3 conductors each way, 30 m apart, and no rods; 1 yard tried"),
                (core.Fewest(False, 0, 0, 88), "none of the 88 yards tried is safe"),
                (core.Fewest(False, 0, 0, 0), "no yard was tried: no count of conductors from 2 to 25 parts 60 m into whole mm from 2.5 to 30 m")):
            self.assertEqual(yards.said(found, 60000), sentence)

    def test_the_ends_of_a_side(self):
        """A side that the library can be asked about is asked about; the message says who refused it."""
        for side, said in (("0m", "examples/rods.csv: side: 0 m is not in 2.5..720 m\n"), ("-0.001m", "side: -0.001m is not in 2.5..720 m\n"),
                           ("4294967.295m", "examples/rods.csv: side: 4,294,967.295 m is not in 2.5..720 m\n"),
                           ("4294967.296m", "side: 4294967.296m is not in 2.5..720 m\n")):
            self.assertEqual(run("fewest", "examples/rods.csv", "--station", "303", f"--side={side}").err, said)

    def test_report(self):
        with tempfile.TemporaryDirectory() as folder:
            page = pathlib.Path(folder) / "page.html"
            done = run("report", "tests/sample.csv", "--date", "1 July 2026", "-o", str(page))
            self.assertEqual((done.status, done.out), (2, ""))
            self.assertEqual(run("report", "tests/sample.csv", "--date", "1 July 2026").out, page.read_text(encoding="utf-8"))
            self.assertIn("sample.csv, 1 July 2026", page.read_text(encoding="utf-8"))
            self.assertEqual(run("report", "-", "-o", str(page), stdin=SAMPLE).status, 2)
            self.assertIn(f"standard input, {document.today()}", page.read_text(encoding="utf-8"))
            self.assertEqual(run("report", "examples/refused-5.csv", "-o", str(page)).status, 1)

    def test_next_for_machines(self):
        """Each change, put into the sheet cell by cell, is answered safe in every season of the station."""
        sheet = (ROOT / "examples" / "portfolio.csv").read_bytes()
        done = run("next", "examples/portfolio.csv", "--licence", "examples/licence.csv", "--station", "104", "--csv")
        names, *lines = [line.split(",") for line in done.out.split()]
        self.assertEqual((done.status, names), (2, ["station", "change", "kind", "season", "name", "value"]))
        self.assertLess({"rods", "conductors", "spacing", "resistivity", "shock"}, {line[2] for line in lines} | {"more"})
        for number in {line[1] for line in lines}:
            cases = [case for case in layout.cases(sheet) if case["station"] == 104]
            for _, _, _, season, name, value in (line for line in lines if line[1] == number):
                next(case for case in cases if case["season"] == int(season))[name] = int(value)
            self.assertEqual({row.verdict for row in core.rows(layout.text(cases))}, {core.Verdict.SAFE})

    def test_next_of_no_station(self):
        done = run("next", "tests/sample.csv", "--station", "8")
        self.assertEqual(done, (1, "", "tests/sample.csv: station 8 has no line in the sheet, and the licence does not name it\n"))


class WrongCells(unittest.TestCase):
    def test_every_command_refuses_in_words(self):
        """A cell that is no whole number is refused by the library and reported with its place, whatever is asked of the sheet."""
        names, *lines = (ROOT / "examples" / "portfolio.csv").read_text(encoding="ascii").splitlines()
        for cell in ("x", "", "62.5", "-5", "1e3"):
            spoilt = lines[2].split(",")
            spoilt[names.split(",").index("soil")] = cell
            with tempfile.TemporaryDirectory() as folder:
                sheet = pathlib.Path(folder) / "sheet.csv"
                sheet.write_text("\n".join([names, *lines[:2], ",".join(spoilt), *lines[3:], ""]), encoding="ascii")
                for name in ("check", "verdict", "rows", "margins", "summary", "release", "next", "report"):
                    with self.subTest(name, cell=cell):
                        done = run(name, str(sheet), *(("-o", os.path.join(folder, "report.html")) if name == "report" else ()))
                        self.assertEqual(done.status, 1)
                        self.assertIn("line 4, soil (column 3)", done.out + done.err)
                        self.assertEqual(os.listdir(folder), ["sheet.csv"])


class Rises(unittest.TestCase):
    """The option --gpr-limit marks and counts, and decides nothing."""

    def test_margins(self):
        rows = core.rows(SAMPLE)
        limit = rows[1].rise.upper
        done = run("margins", "tests/sample.csv", "--gpr-limit", f"{limit}mV")
        self.assertEqual(done.out.split("\n"), [
            "station  season  verdict   mesh V  touch limit V        margin  step V  step limit V        margin  potential rise V  of 1,358.674 V",
            "      7       1  unsafe   1,027.9          840.5  22.3 % above   625.7       2,696.0  76.7 % below           5,434.7           above",
            "      7       2  safe       257.0          809.9  68.2 % below   156.5       2,573.7  93.9 % below           1,358.7           below",
            "1 line with a potential rise above 1,358.674 V; it decides nothing", ""])
        done = run("margins", "tests/sample.csv", "--csv", "--gpr-limit", f"{limit - 1}mV")
        self.assertEqual(done.out, "station,season,verdict,mesh_excess_per_mille,step_excess_per_mille,rise_upper_mV,rise_above_limit\n"
                         f"7,1,unsafe,223,-767,{rows[0].rise.upper},1\n7,2,safe,-682,-939,{limit},1\n")
        self.assertEqual(done.status, run("margins", "tests/sample.csv").status)

    def test_release_and_report(self):
        done = run("release", "tests/sample.csv", "--seasons", "1,2", "--gpr-limit", "5kV")
        self.assertIn("\n  note: Potential rise above 5,000 V in season 1, up to 5,435 V; it decides nothing.\n", done.out)
        self.assertTrue(done.out.endswith("1 line with a potential rise above 5,000 V; it decides nothing\n"))
        page = run("report", "tests/sample.csv", "--gpr-limit", "5kV").out
        self.assertEqual(page.count("Potential rise above 5,000 V in season 1, up to"), 1)
        self.assertEqual(page.count("1 line with a potential rise above 5,000 V; it decides nothing."), 1)
        self.assertNotIn("otential rise above", run("report", "tests/sample.csv").out)

    def test_amounts(self):
        for text in ("5kV", "5000V", "5000", "5 kv", "5000000 mV", "5.000kV"):
            self.assertEqual(run("margins", "tests/sample.csv", "--gpr-limit", text), run("margins", "tests/sample.csv", "--gpr-limit", "5kV"))
        for text, said in (("x", "gpr-limit: 'x' is no voltage; write for example 5kV, 5000V or 5000 (V)\n"),
                           ("5A", "gpr-limit: '5A' is no voltage; write for example 5kV, 5000V or 5000 (V)\n"),
                           ("0.0001", "gpr-limit: 0.0001 V is not a whole number of mV; it is not rounded\n")):
            self.assertEqual(run("margins", "tests/sample.csv", "--gpr-limit", text), (1, "", said))


class Failing(unittest.TestCase):
    """Failed input and output are reported, with status 3 and without a traceback."""

    def check(self, done, said: str) -> None:
        self.assertEqual(done.status, 3, done.err)
        self.assertIn(said, done.err)
        self.assertNotIn("Traceback", done.err)

    def test_a_full_disk(self):
        with open("/dev/full", "wb") as full:
            self.check(process("verdict", "tests/sample.csv", stdout=full), "hocsimbur: standard output: No space left on device")

    def test_a_full_disk_for_every_command(self):
        for name, arguments in [*PRINTING.items(), ("--help", ["--help"])]:
            if name == "report":
                arguments = ["report", "tests/sample.csv"]
            with self.subTest(name), open("/dev/full", "w", encoding="utf-8") as full:
                self.check(run(*arguments, stdout=full), "hocsimbur: standard output: No space left on device")

    def test_a_full_disk_for_a_file(self):
        self.check(run("report", "tests/sample.csv", "-o", "/dev/full"), "/dev/full: No space left on device")
        self.check(run("import", "tests/sample.csv", "-o", "/dev/full"), "/dev/full: No space left on device")

    def test_a_closed_pipe(self):
        for arguments in (["report", "examples/portfolio.csv"], ["rows", "--csv", "crates/rows/stdin"]):
            read, write = os.pipe()
            os.close(read)
            with os.fdopen(write, "wb") as closed:
                self.assertEqual(process(*arguments, stdout=closed), (3, "", ""))

    def test_a_reader_that_goes_away(self):
        command = f"{shlex.quote(sys.executable)} -m hocsimbur report examples/portfolio.csv | true; echo ${{PIPESTATUS[0]}}"
        done = subprocess.run(["bash", "-c", command], cwd=ROOT, env={**os.environ, "PYTHONPATH": str(PYTHON)}, capture_output=True, check=False)
        self.assertIn(done.stdout, (b"3\n", b"2\n"))  # 2 where the pipe took the whole page before its reader went away
        self.assertNotIn(b"Traceback", done.stderr)

    def test_closed_streams(self):
        for closed, said in ((">&-", "standard output: it is closed"), ("<&-", "standard input")):
            command = f"{shlex.quote(sys.executable)} -m hocsimbur verdict - {closed}"
            done = subprocess.run(["sh", "-c", command], cwd=ROOT, env={**os.environ, "PYTHONPATH": str(PYTHON)}, capture_output=True,
                                  input=SAMPLE if closed == ">&-" else None, check=False)
            self.assertEqual(done.returncode, 3, done.stderr)
            self.assertIn(said, done.stderr.decode())

    def test_no_standard_error(self):
        command = f"{shlex.quote(sys.executable)} -m hocsimbur verdict examples/refused-5.csv 2>&-"
        done = subprocess.run(["sh", "-c", command], cwd=ROOT, env={**os.environ, "PYTHONPATH": str(PYTHON)}, capture_output=True, check=False)
        self.assertEqual((done.returncode, done.stdout), (1, b""))

    def test_notes_that_are_lost(self):
        """A note that cannot be written fails a command that is otherwise well; a refusal or a held station keeps its status."""
        for arguments, status in ((["import", "examples/refused-2-semicolons.csv"], 3), (["verdict", "examples/refused-5.csv"], 1),
                                  (["release", "tests/sample.csv"], 2)):
            with open("/dev/full", "wb") as full:
                done = subprocess.run([sys.executable, "-m", "hocsimbur", *arguments], cwd=ROOT, env={**os.environ, "PYTHONPATH": str(PYTHON)},
                                      stdout=subprocess.DEVNULL, stderr=full, check=False)
            self.assertEqual(done.returncode, status, arguments)

    def test_files_that_cannot_be_read(self):
        self.check(run("verdict", "no-such-file.csv"), "hocsimbur: no-such-file.csv: No such file or directory")
        self.check(run("verdict", "crates"), "hocsimbur: crates: the folder has no file that ends in .csv")
        self.check(run("import", "examples"), "hocsimbur: examples: Is a directory")
        self.check(run("verdict", "tests/sample.csv\0"), "null byte")
        self.check(run("release", "tests/sample.csv", "--licence", "no-such-file.csv"), "hocsimbur: no-such-file.csv: No such file or directory")
        with tempfile.TemporaryDirectory() as folder:
            kept = pathlib.Path(folder) / "kept.csv"
            kept.write_bytes(SAMPLE)
            kept.chmod(0)
            if os.geteuid():
                self.check(run("verdict", str(kept)), "Permission denied")
            self.check(run("report", "tests/sample.csv", "-o", f"{folder}/no/such/page.html"), "No such file or directory")

    def test_a_file_without_end(self):
        self.check(run("check", "/dev/zero"), "/dev/zero: it has more than 268,435,456 bytes")

    def test_no_library(self):
        self.check(process("verdict", "tests/sample.csv", env={"HOCSIMBUR_LIBRARY": "/no/such/libhocsimbur.so.1"}),
                  "build it by `make`, or name it in the environment variable HOCSIMBUR_LIBRARY")

    def test_another_library(self):
        self.check(process("verdict", "tests/sample.csv", env={"HOCSIMBUR_LIBRARY": "libc.so.6"}), "the library has no hocsimbur_rows_at")


class Terminals(unittest.TestCase):
    def test_no_page_on_a_terminal(self):
        text = self.on_terminal({"TERM": "xterm"}, "report")
        self.assertEqual(text, "")

    def test_no_colour_in_a_pipe(self):
        self.assertNotIn("\x1b", process("verdict", "tests/sample.csv").out)

    def test_colour_on_a_terminal(self):
        text = self.on_terminal({"TERM": "xterm"})
        self.assertIn("\x1b[1;31munsafe\x1b[0m", text)
        self.assertEqual(re.sub("\x1b\\[[0-9;]*m", "", text).replace("\r", ""), run("verdict", "tests/sample.csv").out)

    def test_no_colour_where_it_is_not_wanted(self):
        for wish in ({"TERM": "xterm", "NO_COLOR": "1"}, {"TERM": "dumb"}):
            self.assertNotIn("\x1b", self.on_terminal(wish))

    @staticmethod
    def on_terminal(wish, command: str = "verdict") -> str:
        """What a command writes to a terminal."""
        ours, theirs = os.openpty()
        environment = {key: value for key, value in os.environ.items() if key != "NO_COLOR"}
        try:
            subprocess.run([sys.executable, "-m", "hocsimbur", command, "tests/sample.csv"], stdout=theirs, stderr=subprocess.DEVNULL, cwd=ROOT,
                           env={**environment, "PYTHONPATH": str(PYTHON), **wish}, check=False)
        finally:
            os.close(theirs)
        with os.fdopen(ours, "rb", buffering=0) as screen:
            text = b""
            while True:
                try:
                    part = screen.read(4096)
                except OSError:  # the other end is closed, and all is read
                    return text.decode()
                if not part:
                    return text.decode()
                text += part

    def test_aligned(self):
        self.assertEqual(terminal.aligned(("a", "bb"), [("ccc", "d"), ("", "e")], left=(0,)), "a    bb\nccc   d\n      e\n")

    def test_another_encoding(self):
        done = process("wenner", "--reading", "1,10", env={"PYTHONIOENCODING": "ascii", "LC_ALL": "C"})
        self.assertEqual(done.status, 0, done.err)
        self.assertIn("column soil: 63 Ω·m\n", done.out)


class Checkout(unittest.TestCase):
    def test_from_anywhere(self):
        with tempfile.TemporaryDirectory() as folder:
            os.symlink(ROOT / "hocsimbur", pathlib.Path(folder) / "grounds")
            for command in (ROOT / "hocsimbur", pathlib.Path(folder) / "grounds"):
                done = subprocess.run([str(command), "verdict", str(ROOT / "tests" / "sample.csv")], cwd=folder, capture_output=True, check=False)
                self.assertEqual(done.returncode, 2, done.stderr)


if __name__ == "__main__":
    unittest.main()
