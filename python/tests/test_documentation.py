"""docs/commands.md and the Python of docs/api.md show what is printed."""
from __future__ import annotations

import contextlib
import io
import os
import re
import shlex
import subprocess
import unittest

import hocsimbur
from hocsimbur import core
from hocsimbur.command import cli

from .common import ROOT, run

COMMANDS = (ROOT / "docs" / "commands.md").read_text(encoding="utf-8")
API = (ROOT / "docs" / "api.md").read_text(encoding="utf-8")
MAN = (ROOT / "host" / "hocsimbur.1").read_text(encoding="utf-8")


def printed(command: str) -> str:
    """What a command writes, standard error first."""
    if command.startswith("hocsimbur "):
        done = run(*shlex.split(command)[1:])
        return done.err + done.out
    return subprocess.run(["sh", "-c", command], cwd=ROOT, capture_output=True, text=True, check=True).stdout


class Shown(unittest.TestCase):
    def test_every_command(self):
        shown = re.findall(r"^    \$ (.*)\n((?:    (?!\$ ).*\n|\n(?=    (?!\$ )))*)", COMMANDS, re.MULTILINE)
        self.assertGreater(len(shown), 15)
        for command, lines in shown:
            with self.subTest(command):
                self.assertEqual([line.rstrip() for line in printed(command).split("\n")],
                                 [line[4:].rstrip() for line in lines.rstrip("\n").split("\n")] + [""])

    def test_every_command_is_named(self):
        for name in cli.COMMANDS:
            self.assertRegex(COMMANDS, rf"`{name}( |`)", name)
            self.assertIn(name.replace("-", "\\-"), MAN)

    def test_links(self):
        for name in re.findall(r"\]\(([^)#:]+)\)", COMMANDS):
            self.assertTrue((ROOT / "docs" / name).exists(), name)


class FromPython(unittest.TestCase):
    def test_the_lines_of_python(self):
        (code, shown), = re.findall(r"^```python\n(.*?)^```\n\nIt prints\n\n((?:    [^\n]*\n)+)", API, re.MULTILINE | re.DOTALL)
        out, before = io.StringIO(), os.getcwd()
        os.chdir(ROOT)
        try:
            with contextlib.redirect_stdout(out):
                exec(compile(code, "docs/api.md", "exec"), {})
        finally:
            os.chdir(before)
        self.assertEqual(out.getvalue(), "".join(line[4:] + "\n" for line in shown.split("\n")[:-1]))

    def test_every_function_of_the_library_is_named(self):
        for name in hocsimbur.__all__:
            if name[0].islower() and name != "version":
                self.assertRegex(API, rf"`{name}\(", name)

    def test_every_question_is_there(self):
        rows = [line.split(" | ") for line in API.split("## From Rattle")[0].split("\n") if line.startswith("| ")]
        names = re.findall(r"`(\w+)\([a-z, ]*\)`", " ".join(row[3] for row in rows))
        self.assertGreater(len(names), 10)
        for name in names:
            self.assertTrue(callable(getattr(core, name)), name)

    def test_every_module_is_there(self):
        table = API.split("| module | what it has |")[1].split("\n\n")[0]
        cells = [line.split(" | ")[0] for line in table.split("\n")[2:]]
        self.assertGreater(len(cells), 5)
        for name in re.findall(r"`([\w.]+)`", " ".join(cells)):
            self.assertTrue((ROOT / "python" / "hocsimbur" / f"{name.replace('.', '/')}.py").exists(), name)


if __name__ == "__main__":
    unittest.main()
