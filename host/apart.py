#!/usr/bin/env python3
"""What pointers of four bytes need of the LLVM text of a file: it is written to another.

    apart.py MODULE.ll TO.ll

A pointer that may be missing, `{ i8, ptr }`, is loaded by its parts. The text keeps such a value in sixteen bytes, its pointer after eight;
where pointers take four bytes LLVM would look for the pointer of a value loaded as one after four. Loaded by its parts, each is where the
text has put it.

The library's copy of a slice goes by the loop that it is written as. rattle adds a test whether the place to write to begins within the one
to read from, by their addresses as numbers, and where it does not a copy of as many bytes at once; the places that are lent never overlap.

host/layout.py refuses what is left. host/check-targets.sh compares the text that comes of it with the one from which it began."""
from __future__ import annotations

import re
import sys
from pathlib import Path

VALUE = r'%(?:[\w.]+|"[^"]*")'
WHOLE = re.compile(rf"^  ({VALUE}) = load {{ i8, ptr }}, ptr ({VALUE}), align 8(?:, ![\w.]+ !\d+)*$", flags=re.MULTILINE)
COPY = re.compile("\n".join((
    r'^(define internal void @"core::ptr::copy_drop::copy_bits::<i\d+>"\(.*(?:\n(?!\}).*)*?)',
    rf"  ({VALUE}) = ptrtoaddr ptr %a1 to i64",
    rf"  ({VALUE}) = ptrtoaddr ptr %a0 to i64",
    rf"  ({VALUE}) = sub i64 \2, \3",
    rf"  ({VALUE}) = icmp ult i64 \4, {VALUE}",
    r"  br i1 \5, label %(inside\.\d+), label %(apart\.\d+)",
    r"",
    r"\7: .*",
    rf"  call void @llvm\.memmove\.p0\.p0\.i64\(ptr %a1, ptr %a0, i64 {VALUE}, i1 false\)",
    r"  ret void$")), flags=re.MULTILINE)


def apart(text: str) -> str:
    found = 0

    def parts(one) -> str:
        nonlocal found
        found += 1
        new = f"%apart.{found}"
        return "\n".join((
            f"  {new}.byte = load i8, ptr {one[2]}, align 8",
            f"  {new}.after = getelementptr inbounds i8, ptr {one[2]}, i64 8",
            f"  {new}.ptr = load ptr, ptr {new}.after, align 8",
            f"  {new}.half = insertvalue {{ i8, ptr }} poison, i8 {new}.byte, 0",
            f"  {one[1]} = insertvalue {{ i8, ptr }} {new}.half, ptr {new}.ptr, 1"))

    return COPY.sub(r"\1\n  br label %\6", WHOLE.sub(parts, text))


def main(path: str, to: str) -> int:
    try:
        text = Path(path).read_text(encoding="utf-8")
        Path(to).write_text(apart(text), encoding="utf-8")
    except OSError as error:
        print(f"apart: {error}", file=sys.stderr)
        return 2
    return 0


if __name__ == "__main__":
    sys.exit(main(*sys.argv[1:]))
