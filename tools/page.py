"""The page of claims as a list: what it says, what the callers of `promises` ensure, and which definitions it rests on.

    python3 tools/page.py --write     writes crates/claims/page.txt
    python3 tools/page.py             says whether that file is what this tree has; the gate asks it

The file has every declaration, field and constructor of crates/claims/specs with its type, every `ensures` of crates/promises, and for each
file of definitions below the page, and each struct and enum that it names, a digest of its text without comments. So nothing on the page or
below it changes without a change of the file, which a review reads.
"""

import hashlib
import re
import sys
from pathlib import Path

ROOT = Path(__file__).parents[1]
STORED = "crates/claims/page.txt"
PAGE = "crates/claims/specs"
PROMISES = "crates/promises/src/lib.rt"


def plain(text):
    """Words separated by one space."""
    return " ".join(text.split())


def without_comments(text, mark):
    """The lines that are not comments, each as it stands."""
    return [line.rstrip() for line in text.split("\n") if line.strip() and not line.lstrip().startswith(mark)]


def statements(lines):
    """Statements of an antt file: (depth, text). Lines further to the right go on with a statement, except below a `where`."""
    found = []
    opened = []
    for line in lines:
        depth = len(line) - len(line.lstrip())
        while opened and depth <= opened[-1][0]:
            opened.pop()
        if found and depth > found[-1][0] and not found[-1][1].endswith(" where"):
            found[-1] = (found[-1][0], found[-1][1] + " " + line.strip())
        else:
            found.append((depth, line.strip()))
            opened.append((depth, line.strip()))
    return [(depth, plain(text)) for depth, text in found]


def name_of(statement):
    """The name of a record, a type or a module that holds others."""
    found = re.match(r"(?:pub )?(?:record|data|module) (\S+)", statement)
    return found.group(1) if found else ""


def declared(path, text):
    """A line for each statement of a file of the page, with the record or type that it stands in."""
    file = path.split("/")[-1].removesuffix(".antt")
    holders = []
    lines = []
    imports = []
    for depth, statement in statements(without_comments(text, "--")):
        if statement.startswith(("use ", "unfolding ")):
            imports.append(statement)
            continue
        while holders and depth <= holders[-1][0]:
            holders.pop()
        inside = ".".join([file] + [name for _, name in holders if name != "_"])
        lines.append(f"{inside}: {statement.removeprefix('pub ')}")
        if statement.endswith(" where"):
            holders.append((depth, name_of(statement)))
    lines.append(f"{file}: names from elsewhere {digest(imports)}")
    return lines


def ensured(text):
    """What each function of `promises` ensures of the operation that it calls."""
    lines = []
    body = "\n".join(without_comments(text, "//"))
    for head, name, contract, code in re.findall(r"(pub fn (\w+)[^{]*?)\s*(ensures(?: \w+)? \{.*?\})?\s*\n\{\n(.*?)\n\}", body, flags=re.S):
        lines.append(f"{name}: {plain(code)} {plain(contract) or 'ensures nothing'}")
    return lines


def digest(parts):
    return hashlib.sha256("\n".join(parts).encode()).hexdigest()[:16]


def expanded(path):
    """The paths that a `use` names: a.{b, c.{d}} is a.b and a.c.d."""
    start = path.find("{")
    if start < 0:
        return [path.split(" as ")[0].strip()]
    head = path[:start]
    paths, depth, part = [], 0, ""
    for sign in path[start + 1:path.rindex("}")] + ",":
        if sign == "," and depth == 0:
            paths += [head + inner for inner in expanded(part.strip())]
            part = ""
            continue
        depth += (sign == "{") - (sign == "}")
        part += sign
    return paths


class Below:
    """The definitions that the page rests on: files of definitions, and structs and enums of the code."""

    def __init__(self, read):
        self.read = read
        self.files = {}
        self.types = {}

    def visit(self, crate, path):
        """A file of definitions, and those that it names."""
        lines = without_comments(self.read(path), "--")
        own = [plain(line) for line in lines]
        for _, statement in statements(lines):
            if statement.startswith("use "):
                for used in expanded(statement.removeprefix("use ")):
                    self.used(crate, used)
        return digest(own)

    def used(self, crate, name):
        parts = name.split(".")
        if parts[0] != "Rattle" or not (ROOT / "crates" / parts[1]).exists():
            return
        named = parts[1]
        if parts[2] != "specs":
            raise SystemExit(f"page: a definition of {crate} rests on {name}, which is no definition")
        if parts[3] == "declared":
            self.type(named, next(part for part in parts[4:] if part[0].isupper()))
            return
        path = f"crates/{named}/specs/{parts[3]}.antt"
        if named != "claims" and path not in self.files:
            self.files[path] = ""
            self.files[path] = self.visit(named, path)

    def type(self, crate, name):
        """A struct or an enum of the code."""
        for path in sorted((ROOT / "crates" / crate / "src").glob("*.rt")):
            text = self.read(str(path.relative_to(ROOT)))
            found = re.search(rf"\b(?:struct|enum) {name}(?: \{{.*?\n\}}|\(.*?\);)", text, flags=re.S)
            if found:
                self.types[f"{crate}::{name}"] = plain(" ".join(without_comments(found.group(), "//")))
                return
        raise SystemExit(f"page: no struct or enum {name} in crates/{crate}/src")


def read_file(path):
    return (ROOT / path).read_text(encoding="utf-8")


def listed(read=read_file):
    """The whole list, of the files as `read` gives them."""
    lines = ["# What is claimed, by tools/page.py: a change here is a change of what callers may rely on.", "", "## The page", ""]
    below = Below(read)
    paths = sorted(str(path.relative_to(ROOT)) for path in (ROOT / PAGE).glob("*.antt"))
    for path in ["crates/claims/specs/Claims.antt"] + [path for path in paths if not path.endswith(("/Claims.antt", "/Lib.antt"))]:
        lines += declared(path, read(path))
        below.visit("claims", path)
    lines += ["", "## What the callers in promises ensure", ""] + ensured(read(PROMISES))
    lines += ["", "## Types of the code that the page names", ""] + [f"{name}: {text}" for name, text in sorted(below.types.items())]
    lines += ["", "## Definitions below the page", ""] + [f"{path} {text}" for path, text in sorted(below.files.items())]
    return "\n".join(lines) + "\n"


def main(words):
    if words == ["--write"]:
        (ROOT / STORED).write_text(listed(), encoding="utf-8")
        return 0
    if words:
        print(__doc__)
        return 2
    stored = (ROOT / STORED).read_text(encoding="utf-8") if (ROOT / STORED).exists() else ""
    now = listed()
    if now == stored:
        return 0
    old, new = stored.split("\n"), now.split("\n")
    for line in old:
        if line not in new:
            print(f"page: gone: {line}")
    for line in new:
        if line not in old:
            print(f"page: new: {line}")
    print(f"page: {STORED} is not what this tree has; if the change is meant: python3 tools/page.py --write")
    return 1


if __name__ == "__main__":
    sys.exit(main(sys.argv[1:]))
