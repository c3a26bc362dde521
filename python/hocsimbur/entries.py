"""The shared library: where it is, its entries by name, and its version.

The command `version` needs no more than this, so it starts without `core` and its dataclasses, which take half of the time that all
modules of a command take to import."""
from __future__ import annotations

import ctypes
import os
import sys
from typing import Optional

from . import __version__


class LibraryMissing(Exception):
    """The shared library is not there, or is not one that this package knows."""


def library_name(system: str) -> str:
    """The file of the shared library, as `sys.platform` names the system."""
    return "hocsimbur.dll" if system == "win32" else f"libhocsimbur.so.{__version__.split('.', maxsplit=1)[0]}"


def _library() -> ctypes.CDLL:
    """The shared library: the one that HOCSIMBUR_LIBRARY names, the one inside this package, the one of a checkout, or the system's."""
    here, name = os.path.dirname(os.path.realpath(__file__)), library_name(sys.platform)
    checkout = os.path.dirname(os.path.dirname(here))
    named = os.environ.get("HOCSIMBUR_LIBRARY")
    places = [named] if named else [
        place for place in (os.path.join(here, name), os.path.join(checkout, "target", "host", name)) if os.path.exists(place)
    ] + [name]
    told = []
    for place in places:
        try:
            return ctypes.CDLL(place)
        except OSError as error:
            told.append(str(error))
    raise LibraryMissing("; ".join(told))


class Asked:
    """The library, loaded when it is first asked."""

    library: Optional[ctypes.CDLL] = None

    def entry(self, name: str):
        if self.library is None:
            self.library = _library()
        try:
            function = getattr(self.library, name)
        except AttributeError:
            raise LibraryMissing(f"the library has no {name}") from None
        function.restype = ctypes.c_uint32 if name == "hocsimbur_version" else ctypes.c_int64
        return function


asked = Asked()


def version() -> str:
    """The version of the library, as 2.0.0."""
    number = asked.entry("hocsimbur_version")()
    return f"{number // 10000}.{number // 100 % 100}.{number % 100}"
