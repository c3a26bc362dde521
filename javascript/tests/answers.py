#!/usr/bin/env python3
"""What the native library answers to stored questions, asked through the Python binding, as JSON for tests.mjs: answers.py ROOT

Each question has the name of the JavaScript method, its arguments and the answer; a sheet is its bytes in hexadecimal."""
from __future__ import annotations

import dataclasses
import json
import sys
from pathlib import Path

ROOT = Path(sys.argv[1])
sys.path[:0] = [str(ROOT / "python"), str(ROOT / "host")]

import inputs  # noqa: E402
from hocsimbur import core  # noqa: E402

LONG = 100_000  # bytes of a sheet that no buffer of the module holds


def plain(answer):
    """An answer as JavaScript has it."""
    if dataclasses.is_dataclass(answer):
        return {field.name: plain(getattr(answer, field.name)) for field in dataclasses.fields(answer)}
    if isinstance(answer, core.Pair):
        return {"lower": answer.lower, "upper": answer.upper}
    if isinstance(answer, (list, tuple)):
        return [plain(one) for one in answer]
    return answer.decode() if isinstance(answer, bytes) else answer


def asked(method, question, *arguments):
    """A question with its answer or refusal."""
    try:
        answer = plain(question(*arguments))
    except core.Refused as refused:
        answer = {"refused": {"number": refused.number, "line": refused.line, "column": refused.column}}
    return {"method": method, "arguments": [{"sheet": one.hex()} if isinstance(one, bytes) else one for one in arguments], "answer": answer}


def summary(sheet):
    """As the method has it: the stations and the rows."""
    stations, rows = core.summary_and_rows(sheet)
    return {"stations": plain(stations), "rows": plain(rows)}


def questions():
    """Every question of every sheet, and the lists of numbers."""
    sheets = [*inputs.sheets(ROOT)]
    sheets = sheets[:400] + sheets[-40:] + [b"", b"\0", b"station\n", sheets[0][:-1], b"\n" * LONG, "hz\u00e9\n".encode()]
    for sheet in sheets:
        for method in ("rows", "margins", "working", "headroom", "carry"):
            yield asked(method, getattr(core, method), sheet)
        yield asked("summary", summary, sheet)
        yield asked("carryBack", core.carry_back, sheet)
        yield asked("release", core.release, sheet, [[7, 3], [8, 15, 211], [9, 1, 0]])
        yield asked("fewest", core.fewest, sheet, 70000)
    for licence in ([], [[7, 0]], [[7, 16]], [[7, 3], [7, 3]], [[7, 3, 16]], [[7, 3, 17]], [[7, 3, 2000]],
                    [[7, 3, 2001]], [[number, 1] for number in range(1, 258)], [[0, 1]], [[4294967295, 1]],
                    [[7]]):
        yield asked("release", core.release, sheets[0], licence)
    for side in (0, 2499, 2500, 720000, 720001, 4294967295):
        yield asked("fewest", core.fewest, sheets[0], side)
    for readings in ([], [[1000, 10000]], [[499, 1]], [[500, 0]], [[500, 1]] * 64, [[500, 1]] * 65, [[500, 1], [500]],
                     [[50000, 1000000]] * 3):
        yield asked("soil", core.soil, readings)
    for parts in ([], [[1000, 0], [400, -300]], [[1000, 0]], [[0, 0], [1, 1]], [[1000001, 0], [1, 1]], [[1000, 0]] * 17, [[1000, 0]] * 18,
                  [[-1000000, 1000000], [9007199254740991, -9007199254740991]]):
        yield asked("split", core.split, parts)
    yield asked("version", core.version)


json.dump([*questions()], sys.stdout)
