"""Line tables and exception tables, with a code object around them or without."""

import ctypes
from ctypes import c_uint32
from typing import Any, Iterator, List, NamedTuple, Optional, Tuple, cast

from . import _library as lib
from ._reading import Buffer, as_bytes
from ._refused import Refused, accepted

FROM_ENTRY, HAS_LINE, HAS_COLUMN, HAS_END_COLUMN, AS_STORED, CUT = 1, 2, 4, 8, 16, 32


class Salvaged(NamedTuple):
    """A repaired line table, and what was changed to make it whole."""

    table: bytes
    kept: int
    """entries of the old table that it has, a shortened one included"""
    dropped: int
    """bytes behind the last of them"""
    shortened: bool
    """whether the last of them stands for fewer instructions than it did"""
    covered: int
    """instructions that got an entry without a place"""


def salvage(table: Buffer, first: int, count: int) -> Salvaged:
    """A whole line table for so many instructions from a first line, of any table.

    >>> salvage(b"\\xe9\\x02", 10, 3)  # two of three instructions are placed
    Salvaged(table=b'\\xe9\\x02\\xf8', kept=1, dropped=0, shortened=False, covered=1)
    """
    table = as_bytes(table)
    out = ctypes.create_string_buffer(min(lib.MOST_BYTES, len(table) + (count + 7) // 8) + 1)
    made = accepted(lib.sill_salvage(table, len(table), first, count, out, len(out) - 1))
    return Salvaged(out.raw[: made.written], made.kept, made.dropped, bool(made.shortened), made.covered)


class Handler(NamedTuple):
    """An entry of an exception table. Instructions count from 0, cache units counted."""

    start: int
    length: int
    target: int
    depth: int
    lasti: bool


def handlers(table: Buffer, before: int = 0) -> List[Handler]:
    """The entries of an exception table.

    >>> handlers(b"\\x84\\x03\\x0a\\x03")
    [Handler(start=4, length=3, target=10, depth=1, lasti=True)]
    """
    table = as_bytes(table)
    entries = (c_uint32 * (5 * (len(table) // 4)))()
    count = accepted(lib.sill_read_exceptions(table, len(table), entries, len(entries)), before).count
    rows = (entries[5 * at : 5 * at + 5] for at in range(count))
    return [Handler(start, length, target, depth, last == 1) for start, length, target, depth, last in rows]


class Sources(NamedTuple):
    """Where each instruction's place comes from: a byte each, and how many have what."""

    marks: memoryview
    """a byte an instruction: 1 from an entry, 2 it has a line, 4 a column, 8 an end column, 16 line and end line are above 0
    as stored, 32 a byte of the entry is missing; 0 where it is left over"""
    from_entries: int
    with_line: int
    with_columns: int
    sure: int


def sources(table: Buffer, first: int, count: int, before: int = 0) -> Sources:
    """Where the places that a line table shows come from.

    >>> sources(b"\\xe9\\x02", 10, 3).marks.tolist()
    [19, 19, 0]
    """
    table = as_bytes(table)
    marks = (ctypes.c_uint8 * count)()
    told = accepted(lib.sill_sources(table, len(table), first, count, marks, count), before)
    return Sources(memoryview(marks).cast("B"), told.from_entries, told.with_line, told.with_columns, told.sure)


class Location(NamedTuple):
    """What is shown for an instruction, lines and columns from 1, and its row where a complete entry gives one."""

    line: int
    column: int
    end_line: int
    end_column: int
    row: Optional[int]


def is_sure(mark: int) -> bool:
    return mark & (HAS_LINE | AS_STORED | CUT) == HAS_LINE | AS_STORED


class Locations:
    """The locations of instructions, and whether the table that they are from is whole.

    >>> found = locations(b"\\xe9\\x02", 10, 3)
    >>> found.whole, found.from_entries, found.records.tolist()
    (False, 2, [[11, 1, 11, 1], [11, 1, 11, 1], [10, 1, 10, 1]])
    >>> [found.row(at) for at in range(3)]  # the third shows the first line, and no entry says so
    [11, 11, None]
    """

    __slots__ = ("records", "sources", "whole")

    records: memoryview
    """four numbers an instruction: line, column, end line, end column; the store that the library wrote, not a copy"""
    sources: Sources
    whole: bool
    """every byte was used, none was missing, no stop was met, and every instruction has its entry"""

    def __init__(self, records: memoryview, sources: Sources, whole: bool) -> None:
        self.records, self.sources, self.whole = records, sources, whole

    def __len__(self) -> int:
        return len(self.sources.marks)

    def __getitem__(self, at: int) -> Location:
        at = range(len(self))[at]
        records: Any = self.records
        line, column, end_line, end_column = (records[at, number] for number in range(4))
        return Location(line, column, end_line, end_column, line if is_sure(self.sources.marks[at]) else None)

    def __iter__(self) -> Iterator[Location]:
        return (self[at] for at in range(len(self)))

    @property
    def from_entries(self) -> int:
        """How many instructions, from the first on, an entry of the table placed."""
        return self.sources.from_entries

    @property
    def not_sure(self) -> int:
        """How many instructions have no row that is sure."""
        return len(self) - self.sources.sure

    def row(self, instruction: int) -> Optional[int]:
        """The row of an instruction (from 0), where a complete entry gives one."""
        return self[instruction].row

    def last_row(self) -> Optional[int]:
        """The row of the last instruction that has one for sure."""
        return next((self[at].row for at in range(len(self) - 1, -1, -1) if is_sure(self.sources.marks[at])), None)


def rows_of(records: memoryview) -> List[List[int]]:
    return cast(List[List[int]], records.tolist())


def _records(table: bytes, first: int, count: int, before: int) -> Tuple[memoryview, Any]:
    store = (c_uint32 * (4 * count))()
    answer = accepted(lib.sill_locate(table, len(table), first, count, store, 4 * count), before)
    flat = memoryview(store).cast("B")
    return (flat.cast("I", (count, 4)) if count else flat.cast("I")), answer


def locations(table: Buffer, first: int, count: int, before: int = 0) -> Locations:
    """Where so many instructions come from, by a line table and its first line; see `Locations`."""
    table = as_bytes(table)
    records, answer = _records(table, first, count, before)
    return Locations(records, sources(table, first, count), bool(answer.whole))


Position = Tuple[Optional[int], Optional[int], Optional[int], Optional[int]]


def positions(table: Buffer, first: int, count: int, before: int = 0) -> Iterator[Position]:
    """As CPython's co_positions(): line, end line, column and end column of each instruction, columns from 0, and None for what no
    entry gives. Lines are as stored: a module's first instruction has line 0.

    >>> list(positions(b"\\xe9\\x02\\xf8", 10, 4))
    [(11, 11, None, None), (11, 11, None, None), (None, None, None, None), (None, None, None, None)]
    """
    table = as_bytes(table)
    found = locations(table, first, count, before)
    raised, shown = 0, found.records
    if any(mark & (HAS_LINE | AS_STORED) == HAS_LINE for mark in found.sources.marks):
        raised, shown = _raised(table, first, found)
    for mark, (line, column, end_line, end_column) in zip(found.sources.marks, rows_of(shown)):
        if not mark & HAS_LINE:
            yield None, None, None, None
            continue
        start = column - 1 if mark & HAS_COLUMN else None
        end = end_column - 1 if mark & HAS_END_COLUMN else None
        yield line - raised, end_line - raised, start, end


def _raised(table: bytes, first: int, found: Locations) -> Tuple[int, memoryview]:
    """Lines of 0 and less are shown as 1. From a first line that is so much greater the same steps show every line so much greater."""
    for power in range(33):
        raised = min(1 << power, 2**31 - 1 - first)
        try:
            records, _ = _records(table, first + raised, len(found), 0)
        except Refused:
            continue
        lines = rows_of(records)[: found.from_entries]
        if all(line > 1 and end_line > 1 for line, _, end_line, _ in lines):
            return raised, records
    return 0, found.records
