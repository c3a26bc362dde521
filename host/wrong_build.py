#!/usr/bin/env python3
"""Prints the text of a module with one instruction changed: wrong_build.py MODULE/NAME TEXT.ll

host/wrong-builds.txt names the function and the instruction. Exit status 1 where the text has no such instruction."""
from __future__ import annotations

import re
import sys
from pathlib import Path

LIST = Path(__file__).with_name("wrong-builds.txt")


def edit(name: str) -> tuple:
    """The function, the instruction and what it becomes."""
    for line in LIST.read_text(encoding="utf-8").splitlines():
        if line.split(maxsplit=1)[:1] == [name]:
            _, function, change = line.split(maxsplit=2)
            find, _, becomes = change.partition("=>")
            return function, find.strip(), becomes.strip()
    raise SystemExit(f"wrong build {name}: not in {LIST.name}")


def changed(text: str, function: str, find: str, becomes: str) -> str:
    """The text with the first such instruction of the function changed."""
    defined = re.search(rf'^define .*@"{re.escape(function)}"\(', text, flags=re.MULTILINE)
    start = defined.start() if defined else -1
    end = text.find("\n}", start)
    body, count = re.subn(find, becomes, text[start:end], count=1)
    if start < 0 or count != 1:
        raise SystemExit(f"wrong build: no '{find}' in {function}; choose another instruction in {LIST.name}")
    return text[:start] + body + text[end:]


if __name__ == "__main__":
    sys.stdout.write(changed(Path(sys.argv[2]).read_text(encoding="utf-8"), *edit(sys.argv[1])))
