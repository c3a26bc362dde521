"""Files of lines put together into sheets that the library takes: whole stations, at most 256 lines and 65,536 bytes a sheet.

No line of a station is ever in another sheet than its others, so that one answer speaks of all of them.
Nothing is judged here: what is wrong with a file, the library says of the sheets."""
from __future__ import annotations

from bisect import bisect_right
from itertools import accumulate
from typing import Callable, Dict, Iterable, Iterator, List, NamedTuple, Optional, Sequence, Tuple, TypeVar, Union

from .. import core
from . import layout

Answer = TypeVar("Answer")


class File(NamedTuple):
    """A file as it was named, and its bytes."""

    name: str
    data: bytes


Given = Union[bytes, Sequence[File]]  # bytes stand for one file without a name


class Place(NamedTuple):
    """A line of a file; the line of names is line 1."""

    file: str
    line: int


class Batch(NamedTuple):
    """A sheet, and which lines of all files it holds, counted from 0 over the value lines of the files in their order."""

    sheet: bytes
    lines: Sequence[int]


class Headless(core.Refused):
    """A file whose line of names, or whose text as a whole, the library refuses."""

    def __init__(self, refused: core.Refused, file: File) -> None:
        super().__init__(refused.number, refused.line, refused.column)
        self.file = file


def given(files: Given) -> Tuple[File, ...]:
    """The files; bytes are one file without a name."""
    return (File("", files),) if isinstance(files, bytes) else tuple(files)


def head_refused(data: bytes) -> Optional[core.Refused]:
    """What the library refuses of a file before it reads any value: its text, its names, or that there is no value line."""
    lines = layout.lines(data)
    if not lines or not data.endswith(b"\n"):
        # a text that is empty, or whose last line does not end: asked with its last line alone, however long it is
        asked = lines[0] + b"\n" + lines[-1] if len(lines) > 1 else data[:core.SHEET_BYTES]
        return _refused(asked[:core.SHEET_BYTES])
    refused = _refused(lines[0] + b"\n")
    return refused if refused is None or refused.number != core.Refusal.LINES or len(lines) == 1 else None


def _refused(sheet: bytes) -> Optional[core.Refused]:
    try:
        core.count(sheet)
        return None
    except core.Refused as refused:
        return refused


def reordered(line: bytes, order: Sequence[int]) -> bytes:
    """The fields of a line in another order; a line that has another count of fields stays as it is, and the library refuses it."""
    fields = line.split(b",")
    return b",".join([fields[place] for place in order]) if len(fields) == len(order) else line


def _fits(data: bytes) -> bool:
    """Whether a file is a sheet as it stands."""
    return len(data) <= core.SHEET_BYTES and data.count(b"\n") <= core.LINES + 1


class Lines:
    """The value lines of files, under the names of the first, and the sheets that are made of them."""

    def __init__(self, files: Given) -> None:
        self.files = given(files)
        self.texts: List[bytes] = []
        counts: List[int] = []
        heads: Dict[bytes, bool] = {}
        self.names = b""
        self._orders: Dict[bytes, List[int]] = {}
        self._own: List[Tuple[bytes, List[bytes]]] = []  # of each file its line of names and its value lines
        for file in self.files:
            head = file.data.partition(b"\n")[0]
            if head not in heads or not file.data.endswith(b"\n") or file.data.count(b"\n") < 2:
                refused = head_refused(file.data)
                if refused:
                    raise Headless(refused, file)
                heads[head] = True
            values = layout.lines(file.data)[1:]
            self.names = self.names or head
            self._own.append((head, values))
            self.texts += values if head == self.names else [self.under_names(head, line) for line in values]
            counts.append(len(values))
        self._ends = list(accumulate(counts))

    def __len__(self) -> int:
        return len(self.texts)

    def under_names(self, names: bytes, line: bytes) -> bytes:
        """A line that stands under other names, in the order of those of the first file."""
        if names not in self._orders:
            places = {name: place for place, name in enumerate(names.split(b","))}
            self._orders[names] = [places[name] for name in self.names.split(b",")]
        return reordered(line, self._orders[names])

    def place(self, line: int) -> Place:
        """The file and line from which a value line came."""
        file = bisect_right(self._ends, line)
        return Place(self.files[file].name, line - (self._ends[file - 1] if file else 0) + 2)

    def own(self, line: int) -> Tuple[bytes, bytes]:
        """A value line as it stands in its file, under that file's line of names."""
        names, values = self._own[bisect_right(self._ends, line)]
        return names, values[self.place(line).line - 2]

    def by_station(self) -> Dict[bytes, List[int]]:
        """The lines of each station, as its field is written, in the order of their first appearance."""
        column = self.names.split(b",").index(b"station")
        found: Dict[bytes, List[int]] = {}
        for line, text in enumerate(self.texts):
            fields = text.split(b",", column + 1)
            found.setdefault(fields[column] if len(fields) > column else text, []).append(line)
        return found

    def batches(self) -> List[Batch]:
        """Sheets of whole stations, in the order of their first appearance; one file that is a sheet is that sheet."""
        if len(self.files) == 1 and _fits(self.files[0].data):
            return [Batch(self.files[0].data, range(len(self.texts)))]
        found: List[Batch] = []
        kept: List[int] = []
        room = core.SHEET_BYTES - len(self.names) - 1
        size = 0
        for lines in self.by_station().values():
            whole = lines[:core.LINES]  # a station has at most four lines; of more than 256 the library refuses the first that repeats
            taken = sum(len(self.texts[line]) + 1 for line in whole)
            if kept and (len(kept) + len(whole) > core.LINES or size + taken > room):
                found.append(self.batch(kept))
                kept, size = [], 0
            kept += whole
            size += taken
        return found + ([self.batch(kept)] if kept else [])

    def batch(self, lines: Sequence[int]) -> Batch:
        """A sheet of some lines."""
        return Batch(self.names + b"\n" + b"".join([self.texts[line] + b"\n" for line in lines]), tuple(lines))

    def in_order(self, batches: Sequence[Batch], answers: Iterable[Sequence[Answer]]) -> List[Answer]:
        """An answer for each line, in the order of the files."""
        found: List[Optional[Answer]] = [None] * len(self.texts)
        for batch, answered in zip(batches, answers):
            for line, one in zip(batch.lines, answered):
                found[line] = one
        return found  # type: ignore[return-value]


def processors() -> int:
    """How many processors this process may use."""
    import os
    return len(os.sched_getaffinity(0)) if hasattr(os, "sched_getaffinity") else os.cpu_count() or 1


def each(things: Sequence[object], question: Callable[..., Answer], threads: Optional[int] = None) -> Iterator[Answer]:
    """The answer to a question about each of some things, in their order; asked in threads, for the library needs no lock.

    What a question raises is raised here, and what was not yet asked then is not asked."""
    workers = min(threads or processors(), len(things))
    if workers < 2:
        yield from map(question, things)
        return
    from collections import deque
    from concurrent.futures import Future, ThreadPoolExecutor
    pool = ThreadPoolExecutor(workers)
    under_way: "deque[Future[Answer]]" = deque()
    try:
        for thing in things:
            under_way.append(pool.submit(question, thing))
            if len(under_way) > 4 * workers:
                yield under_way.popleft().result()
        while under_way:
            yield under_way.popleft().result()
    finally:
        pool.shutdown(wait=True, cancel_futures=True)
