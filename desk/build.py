"""Builds the desk page, one file that fetches nothing: the modules of src, the style, the command's words, the samples and the library.

    python3 desk/build.py WASM PAGE

A module is put after those that it imports, in a scope of its own. An import names its module in one line at the top, and what is exported
is declared with `export` in front of const, let, function or class. The same sources give the same bytes."""
from __future__ import annotations

import base64
import hashlib
import json
import re
import sys
from pathlib import Path

HERE = Path(__file__).resolve().parent
ROOT, SRC = HERE.parent, HERE / "src"
FIRST = SRC / "views" / "main.js"
IMPORT = re.compile(r"^import (?:\{ (?P<names>[^}]*) \}|\* as (?P<all>\w+)) from '(?P<path>\.\.?/[\w./-]+\.m?js)';\n", re.M)
EXPORT = re.compile(r"^export ((?:async )?(?:const|let|function\*?|class)) (\w+)", re.M)
SAMPLES = {"sheet": "portfolio", "licence": "licence"}


def identifier(module: Path) -> str:
    return "$_" + re.sub(r"\W", "_", module.relative_to(SRC).as_posix() if module.is_relative_to(SRC) else module.name)


def imports(module: Path):
    """The imports at the top of a module, each with the path of what it names."""
    for found in IMPORT.finditer(module.read_text(encoding="utf-8")):
        yield found, (module.parent / found["path"]).resolve()


def exported(text: str) -> list:
    """The names that a module exports: one for each `export`."""
    return [found[2] for found in EXPORT.finditer(text)]


def ordered(first: Path) -> list:
    """The modules, each after those that it imports; a ring of imports is a mistake."""
    done: list = []

    def visit(module: Path, above: tuple) -> None:
        if module in above:
            sys.exit(f"build: a ring of imports: {' '.join(one.name for one in (*above, module))}")
        if module not in done:
            for _, other in imports(module):
                visit(other, (*above, module))
            done.append(module)

    visit(first, ())
    return done


def scoped(module: Path) -> str:
    """A module as a scope of its own that answers what it exports."""
    text = module.read_text(encoding="utf-8")
    for found, other in imports(module):
        names = found["all"] or "{ %s }" % found["names"].replace(" as ", ": ")
        there = exported(other.read_text(encoding="utf-8"))
        gone = [name for name in re.findall(r"(\w+)(?: as \w+)?", found["names"] or "") if name not in there]
        if gone:
            sys.exit(f"build: {module.name} imports {', '.join(gone)}, which {other.name} does not export, each by an `export` of its own")
        text = text.replace(found[0], f"const {names} = {identifier(other)};\n", 1)
    own = exported(text)
    text = EXPORT.sub(r"\1 \2", text)
    if re.search(r"^(import|export)\b", text, re.M):
        sys.exit(f"build: {module.name} has an import or an export in a form that is not known")
    return f"// {module.name}\nconst {identifier(module)} = (() => {{\n{text}return {{ {', '.join(own)} }};\n}})();\n"


def digest(text: str) -> str:
    return "'sha256-" + base64.b64encode(hashlib.sha256(text.encode()).digest()).decode() + "'"


def block(value: object) -> str:
    """JSON that may stand in a script element."""
    return json.dumps(value, ensure_ascii=False, separators=(",", ":")).replace("<", "\\u003c")


def build(wasm: bytes) -> str:
    sys.path[:0] = [str(ROOT / "python"), str(HERE)]
    import extract  # pylint: disable=import-outside-toplevel
    data = extract.data()
    script = "\n" + "".join(scoped(module) for module in ordered(FIRST))
    style = "\n" + (SRC / "style.css").read_text(encoding="utf-8").replace("/* the head */", extract.css() + "/* the head */", 1)
    parts = {
        "policy": f"default-src 'none'; script-src {digest(script)} 'wasm-unsafe-eval'; style-src {digest(style)}; base-uri 'none'; "
                  "form-action 'none'",
        "style": style, "script": script, "data": block(data), "proved": data["proved"], "wasm": base64.b64encode(wasm).decode(),
        "samples": block({kind: (ROOT / "examples" / f"{name}.csv").read_text(encoding="utf-8") for kind, name in SAMPLES.items()}),
    }
    page = (SRC / "page.html").read_text(encoding="utf-8")
    return re.sub(r"\{\{(\w+)\}\}", lambda found: parts[found[1]], page)


def main() -> int:
    if len(sys.argv) != 3:
        print("\n".join(__doc__.split("\n")[:3]), file=sys.stderr)
        return 2
    wasm, out = map(Path, sys.argv[1:])
    page = build(wasm.read_bytes())
    out.parent.mkdir(parents=True, exist_ok=True)
    out.write_text(page, encoding="utf-8")
    print(f"{out}: {len(page.encode()):,} bytes")
    return 0


if __name__ == "__main__":
    sys.exit(main())
