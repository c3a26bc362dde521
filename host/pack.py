#!/usr/bin/env python3
"""Makes an archive of a release's folder, beside it: pack.py FOLDER

Links of its pages to files that a release does not have become plain text; SHA256SUMS lists every file. Linux gets FOLDER.tar.gz, other
platforms FOLDER.zip; the same files give the same bytes."""
from __future__ import annotations

import gzip
import hashlib
import io
import re
import sys
import tarfile
import zipfile
from pathlib import Path

LINK = re.compile(r"\[([^]]*)\]\(([^)#:]+)(?:#[^)]*)?\)")


def plain_links(page: Path) -> None:
    def kept(link: re.Match) -> str:
        return link[0] if (page.parent / link[2]).exists() else link[1]
    page.write_text(LINK.sub(kept, page.read_text(encoding="utf-8")), encoding="utf-8")


def checksums(folder: Path) -> str:
    files = sorted(path for path in folder.rglob("*") if path.is_file() and not path.is_symlink() and path.name != "SHA256SUMS")
    return "".join(f"{hashlib.sha256(path.read_bytes()).hexdigest()}  ./{path.relative_to(folder).as_posix()}\n" for path in files)


def tar(folder: Path) -> Path:
    held = io.BytesIO()

    def plain(entry: tarfile.TarInfo) -> tarfile.TarInfo:
        entry.mtime, entry.uid, entry.gid, entry.uname, entry.gname = 0, 0, 0, "", ""
        return entry
    with tarfile.open(fileobj=held, mode="w", format=tarfile.GNU_FORMAT) as archive:
        for path in [folder, *sorted(folder.rglob("*"))]:
            archive.add(path, path.relative_to(folder.parent).as_posix(), recursive=False, filter=plain)
    packed = Path(f"{folder}.tar.gz")
    packed.write_bytes(gzip.compress(held.getvalue(), mtime=0))
    return packed


def zipped(folder: Path) -> Path:
    packed = Path(f"{folder}.zip")
    with zipfile.ZipFile(packed, "w", zipfile.ZIP_DEFLATED) as archive:
        for path in sorted(path for path in folder.rglob("*") if path.is_file()):
            entry = zipfile.ZipInfo(path.relative_to(folder.parent).as_posix(), (1980, 1, 1, 0, 0, 0))
            entry.external_attr = (0o100000 | path.stat().st_mode & 0o777) << 16
            entry.compress_type = zipfile.ZIP_DEFLATED
            archive.writestr(entry, path.read_bytes())
    return packed


def main() -> int:
    folder = Path(sys.argv[1])
    for page in folder.rglob("*.md"):
        plain_links(page)
    (folder / "SHA256SUMS").write_text(checksums(folder), encoding="utf-8")
    packed = tar(folder) if "-linux-" in folder.name else zipped(folder)
    print(f"{packed} {packed.stat().st_size} bytes")
    return 0


if __name__ == "__main__":
    sys.exit(main())
