"""What the tests share: the repository, its sample sheet, and commands run as a process or in this one."""
from __future__ import annotations

import contextlib
import io
import os
import pathlib
import subprocess
import sys
from typing import Dict, NamedTuple, Optional, Sequence, TextIO

from hocsimbur.command import cli
from hocsimbur.sheets import layout

ROOT = pathlib.Path(__file__).resolve().parents[2]
PYTHON = ROOT / "python"
SAMPLE = (ROOT / "tests" / "sample.csv").read_bytes()
NAMES = layout.cells(layout.lines(SAMPLE)[0])


class Run(NamedTuple):
    """What a command did."""

    status: int
    out: str
    err: str


def changed(sheet: bytes = SAMPLE, line: int = 2, **values: object) -> bytes:
    """A sheet with other values in a line, as text, whether they are right or not."""
    lines = [layout.cells(one) for one in layout.lines(sheet)]
    for name, value in values.items():
        lines[line - 1][lines[0].index(name)] = str(value)
    return "".join(",".join(one) + "\n" for one in lines).encode()


class _Stream(io.TextIOWrapper):
    """A stream of this process that keeps what is written."""

    def __init__(self) -> None:
        super().__init__(io.BytesIO(), encoding="utf-8", write_through=True)

    def text(self) -> str:
        return self.buffer.getvalue().decode()


def run(*arguments: str, stdin: bytes = b"", stdout: Optional[TextIO] = None) -> Run:
    """A command run in this process, at the top of the repository; what it writes to another standard output is not kept."""
    out, err, source = _Stream(), _Stream(), io.TextIOWrapper(io.BytesIO(stdin))
    before, kept = os.getcwd(), sys.stdin
    os.chdir(ROOT)
    sys.stdin = source
    try:
        with contextlib.redirect_stdout(stdout or out), contextlib.redirect_stderr(err):
            try:
                status = cli.main(list(arguments))
            except SystemExit as ended:
                status = ended.code
    finally:
        sys.stdin = kept
        os.chdir(before)
    return Run(status, out.text(), err.text())


def process(*arguments: str, stdin: bytes = b"", stdout: object = subprocess.PIPE, env: Optional[Dict[str, str]] = None,
            command: Sequence[str] = (sys.executable, "-m", "hocsimbur")) -> Run:
    """A command run as a process of its own."""
    path = {"PYTHONPATH": str(PYTHON)}
    done = subprocess.run([*command, *arguments], input=stdin, stdout=stdout, stderr=subprocess.PIPE, cwd=ROOT,
                          env={**os.environ, **path, **(env or {})}, timeout=60, check=False)
    return Run(done.returncode, (done.stdout or b"").decode(), done.stderr.decode())
