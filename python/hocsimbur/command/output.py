"""What a command writes: text on standard output and standard error, and files that are whole or not there.

A write that fails is never passed over: it is raised as `Failed`, whose sentence goes to standard error, with exit status 3."""
from __future__ import annotations

import os
import stat
import sys
from typing import Iterable, Optional, TextIO

from ..sheets.printable import printable

WELL, REFUSED, HELD, FAILED = 0, 1, 2, 3  # exit statuses: all well; refused; unsafe, undecided or held; input or output failed


MOST = 1 << 28  # bytes of a file that are read


lost = False  # whether something that was to be reported on standard error could not be written


class Failed(Exception):
    """Input or output failed: the message says what, and why."""


class ClosedPipe(Exception):
    """Standard output was closed by its reader: there is nobody to report it to."""


def reason(error: OSError) -> str:
    """Why an operation failed, as the system says it."""
    return error.strerror or str(error)


def _write(stream: TextIO, name: str, data: bytes) -> None:
    """All of the bytes to a standard stream, at once."""
    if stream is None:
        raise Failed(f"{name}: it is closed")
    try:
        stream.buffer.write(data)
        stream.buffer.flush()
    except BrokenPipeError:
        _silence(stream)
        raise ClosedPipe() from None
    except OSError as error:
        _silence(stream)
        raise Failed(f"{name}: {reason(error)}") from None


def _silence(stream: TextIO) -> None:
    """Lets the stream's own end, when the program ends, meet no second failure."""
    try:
        with open(os.devnull, "wb") as nowhere:
            os.dup2(nowhere.fileno(), stream.fileno())
    except (OSError, ValueError):
        pass


def show(text: str) -> None:
    """Text to standard output, as UTF-8."""
    _write(sys.stdout, "standard output", text.encode("utf-8", "surrogateescape"))


def show_bytes(data: bytes) -> None:
    """Bytes to standard output."""
    _write(sys.stdout, "standard output", data)


def tell(text: str) -> None:
    """A line to standard error, with what a terminal would act on escaped; where that fails, `lost` is set."""
    global lost
    if sys.stderr is None:  # closed by who asked: nobody reads it
        return
    try:
        sys.stderr.buffer.write(printable(text).encode("utf-8", "backslashreplace") + b"\n")
        sys.stderr.buffer.flush()
    except OSError:
        lost = True
        _silence(sys.stderr)


def read(name: str) -> bytes:
    """The bytes of a file; of standard input where its name is -."""
    called = "standard input" if name == "-" else name
    try:
        if name == "-":
            if sys.stdin is None:
                raise Failed(f"{called}: it is closed")
            data = sys.stdin.buffer.read(MOST + 1)
        else:
            with open(name, "rb") as file:
                data = file.read(MOST + 1)
    except (OSError, ValueError) as error:
        raise Failed(f"{called}: {reason(error) if isinstance(error, OSError) else error}") from None
    if len(data) > MOST:
        raise Failed(f"{called}: it has more than {MOST:,} bytes, far more than lines of stations")
    return data


def _special(path: str) -> bool:
    """Whether something is there that is no regular file, as a device or a pipe."""
    return os.path.exists(path) and not stat.S_ISREG(os.stat(path).st_mode)


def write(name: str, data: bytes, force: bool, sources: Iterable[Optional[str]] = ()) -> None:
    """A whole file under its name, or none: written under another name beside it and renamed.

    What is there already is replaced only with `force`, and never one of the files that were read."""
    path = os.path.realpath(name)
    try:
        if os.path.exists(path) and any(source and source != "-" and os.path.samefile(path, source) for source in sources):
            raise Failed(f"{name}: this file was read; it is not overwritten")
        if _special(path):
            with open(path, "wb", buffering=0) as file:
                file.write(data)
            return
        if os.path.exists(path) and not force:
            raise Failed(f"{name}: it is there already; --force replaces it")
        _rename_into(path, data)
    except OSError as error:
        raise Failed(f"{name}: {reason(error)}") from None


def _rename_into(path: str, data: bytes) -> None:
    """The bytes under a temporary name in the same folder, then renamed; the temporary file is taken away where that fails."""
    mode = os.stat(path).st_mode & 0o777 if os.path.exists(path) else 0o666 & ~_umask()
    import tempfile  # only where a file is written
    handle, temporary = tempfile.mkstemp(prefix=".hocsimbur-", dir=os.path.dirname(path))
    try:
        with os.fdopen(handle, "wb") as file:
            file.write(data)
            file.flush()
            os.fsync(file.fileno())
        os.chmod(temporary, mode)
        os.replace(temporary, path)
    except BaseException:
        os.unlink(temporary)
        raise


def _umask() -> int:
    """The mask for the rights of new files, which can only be read by setting it."""
    mask = os.umask(0o022)
    os.umask(mask)
    return mask
