"""The command version."""
from __future__ import annotations

import argparse

from .. import __version__, entries
from .output import WELL, show


def version(arguments: argparse.Namespace) -> int:
    """The versions of the package and of the library; without a library, that of the package alone."""
    try:
        library = f"library {entries.version()}"
    except entries.LibraryMissing:
        library = "no library found"
    show(f"hocsimbur {__version__}, {library}\n")
    return WELL
