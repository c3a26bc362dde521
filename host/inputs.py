#!/usr/bin/env python3
"""Writes the stored inputs of the gate for `differ tape-of`: inputs.py ROOT

Sheets of crates/*/stdin, examples/ and tests/, and the lists of crates/questions. Each comes as a kind (0 a sheet, 1 readings, 2 parts of a
staged test) and a length, 32 bits each, and then its bytes."""
from __future__ import annotations

import struct
import sys
from pathlib import Path

NAMES = b"station,season,soil,layer,thick,shock,clear,wire,body,fault,split,xr,across,along,space,depth,dia,rods,rodlen,place,metal,hz\n"
SHEET, READINGS, PARTS = 0, 1, 2


def sheets(root: Path):
    """Every stored sheet."""
    for path in sorted([*root.glob("examples/**/*.csv"), *root.glob("tests/*.csv"), *root.glob("crates/*/stdin")]):
        if path.parent.name not in ("sheets", "questions"):
            yield path.read_bytes()
    for part in (root / "crates/sheets/stdin").read_bytes().split(b"\0"):
        head, _, sheet = part.partition(b"\n")
        yield sheet.partition(b"\n")[2] if head.startswith(b"release") else sheet


def questions(root: Path):
    """Every stored list of numbers with its kind, and every case asked alone as a sheet of one line."""
    for line in (root / "crates/questions/stdin").read_bytes().splitlines():
        word, *numbers = line.split(b",")
        if word not in (b"soil", b"split"):
            if len(numbers) >= 22:
                yield SHEET, NAMES + b",".join(numbers[:22]) + b"\n"
            continue
        kind, form = (READINGS, "I") if word == b"soil" else (PARTS, "q")
        try:
            yield kind, struct.pack(f"<{len(numbers)}{form}", *map(int, numbers))
        except (ValueError, struct.error):
            continue  # not a list of numbers that C can hand over


def main() -> int:
    if len(sys.argv) != 2:
        print(__doc__.split("\n", maxsplit=1)[0], file=sys.stderr)
        return 2
    root = Path(sys.argv[1])
    for kind, data in [*questions(root), *((SHEET, sheet) for sheet in sheets(root))]:
        sys.stdout.buffer.write(struct.pack("<II", kind, len(data)) + data)
    return 0


if __name__ == "__main__":
    sys.exit(main())
