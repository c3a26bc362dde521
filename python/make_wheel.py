"""Writes the wheel of the package, with the shared library inside: python3 python/make_wheel.py VERSION PLATFORM LIBRARY FOLDER

The platform is linux-x86_64, linux-aarch64 or windows-x86_64.
The standard library alone; the same sources and library give the same bytes."""
from __future__ import annotations

import base64
import hashlib
import pathlib
import sys
import zipfile
from typing import Dict, Tuple

PACKAGE = pathlib.Path(__file__).resolve().parent / "hocsimbur"
TAGS = {"linux-x86_64": "linux_x86_64", "linux-aarch64": "linux_aarch64", "windows-x86_64": "win_amd64"}
METADATA = """Metadata-Version: 2.1
Name: hocsimbur
Version: {version}
Summary: Substation ground grids after IEEE Std 80: proved verdicts, release, reports and refusals in words
License: all rights reserved; use by agreement
License-File: LICENSE
Requires-Python: >=3.9
Provides-Extra: xlsx
Requires-Dist: openpyxl; extra == 'xlsx'
Description-Content-Type: text/markdown

{description}"""
WHEEL = """Wheel-Version: 1.0
Generator: hocsimbur make_wheel
Root-Is-Purelib: false
Tag: {tag}
"""
SCRIPTS = """[console_scripts]
hocsimbur = hocsimbur.command.cli:main
"""
Files = Dict[str, Tuple[bytes, int]]  # bytes and rights by name


def tag(platform: str) -> str:
    """The tag of a wheel for a platform."""
    return f"py3-none-{TAGS[platform]}"


def library_name(version: str, platform: str) -> str:
    """The file of the library, by which the package finds it."""
    return "hocsimbur.dll" if platform.startswith("windows-") else f"libhocsimbur.so.{version.split('.', maxsplit=1)[0]}"


def files(version: str, platform: str, library: pathlib.Path) -> Files:
    """What the wheel holds, but for its record."""
    info = f"hocsimbur-{version}.dist-info"
    inside = [*sorted(PACKAGE.rglob("*.py")), PACKAGE / "py.typed"]
    found: Files = {path.relative_to(PACKAGE.parent).as_posix(): (path.read_bytes(), 0o644) for path in inside}
    found[f"hocsimbur/{library_name(version, platform)}"] = (library.read_bytes(), 0o755)
    description = (PACKAGE.parent / "README.md").read_text(encoding="utf-8")
    licence = (PACKAGE.parents[1] / "LICENSE").read_text(encoding="utf-8")
    texts = {"METADATA": METADATA.format(version=version, description=description), "WHEEL": WHEEL.format(tag=tag(platform)),
             "LICENSE": licence, "entry_points.txt": SCRIPTS}
    for name, text in texts.items():
        found[f"{info}/{name}"] = (text.encode(), 0o644)
    return found


def record(found: Files, name: str) -> bytes:
    """The record: each file with its hash and size, and itself without."""
    def digest(data: bytes) -> str:
        return base64.urlsafe_b64encode(hashlib.sha256(data).digest()).rstrip(b"=").decode()
    lines = [f"{one},sha256={digest(data)},{len(data)}" for one, (data, _) in found.items()] + [f"{name},,"]
    return "".join(line + "\n" for line in lines).encode()


def build(version: str, platform: str, library: pathlib.Path, folder: pathlib.Path) -> pathlib.Path:
    """Writes the wheel into a folder and answers its path."""
    found = files(version, platform, library)
    name = f"hocsimbur-{version}.dist-info/RECORD"
    found[name] = (record(found, name), 0o644)
    folder.mkdir(parents=True, exist_ok=True)
    wheel = folder / f"hocsimbur-{version}-{tag(platform)}.whl"
    with zipfile.ZipFile(wheel, "w", zipfile.ZIP_DEFLATED) as archive:
        for one, (data, rights) in found.items():
            entry = zipfile.ZipInfo(one, (1980, 1, 1, 0, 0, 0))
            entry.external_attr = (0o100000 | rights) << 16
            entry.compress_type = zipfile.ZIP_DEFLATED
            archive.writestr(entry, data)
    return wheel


def main() -> int:
    if len(sys.argv) != 5 or sys.argv[2] not in TAGS:
        print("\n".join(__doc__.split("\n")[:3]), file=sys.stderr)
        return 3
    version, platform, library, folder = sys.argv[1:]
    print(build(version, platform, pathlib.Path(library), pathlib.Path(folder)))
    return 0


if __name__ == "__main__":
    sys.exit(main())
