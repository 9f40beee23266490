"""One value as the library read it: the input's bytes and the records that were used. Everything else is a view of these."""

import ctypes
import threading
from ctypes import c_uint32
from typing import Any, Iterator, List, Optional, Tuple, Union

from . import _library as lib
from ._refused import Refused, refusal_of

Buffer = Union[bytes, bytearray, memoryview]

NODE = 7  # numbers a node: letter, place, size, first entry, count, end, the input's number
ENTRY = 2  # numbers an entry: node, next entry
HEADERS = 10  # bytes of a golden in fields beside its two values
_NUMBER = 4  # bytes a number
_GROWTH = 4
_LEADS = {**dict.fromkeys("sutaA", 5), "z": 2, "Z": 2}  # bytes from the header to the place, where they are not one
_CODE_NUMBERS = 20  # bytes of a code object before its parts
_LINE_TABLE, _FIRST_LINE = 8, 4  # before this part stands the first line, of so many bytes
_REFERENCE = 5  # bytes of a reference


class _Stores(threading.local):
    """The stores that a thread reads into; what was used is copied out of them."""

    room = 0

    def lend(self, room: int) -> None:
        if self.room < room:
            self.nodes = (c_uint32 * (NODE * room))()
            self.entries = (c_uint32 * (ENTRY * room))()
            self.slots = (c_uint32 * room)()
            self.room = room


_stores = _Stores()


def address_of(data: bytes) -> int:
    """Where the bytes stand; they must outlive its use."""
    return ctypes.cast(ctypes.c_char_p(data), ctypes.c_void_p).value or 0


class Reading:
    """A value's input, where it starts in it, how many bytes it takes, and its records."""

    __slots__ = ("data", "start", "consumed", "nodes", "entries", "used_nodes", "used_entries", "_numbers")

    def __init__(self, data: bytes, start: int, answer: Any) -> None:
        self.data, self.start = data, start
        self.consumed: int = answer.consumed
        self.used_nodes: int = answer.nodes
        self.used_entries: int = answer.entries
        self.nodes = ctypes.string_at(_stores.nodes, NODE * _NUMBER * answer.nodes)
        self.entries = ctypes.string_at(_stores.entries, ENTRY * _NUMBER * answer.entries)
        self._numbers: Optional[Tuple[memoryview, memoryview]] = None

    @property
    def numbers(self) -> Tuple[memoryview, memoryview]:
        """The numbers of the nodes and of the entries."""
        if self._numbers is None:
            self._numbers = (memoryview(self.nodes).cast("I"), memoryview(self.entries).cast("I"))
        return self._numbers

    @property
    def end(self) -> int:
        return self.start + self.consumed

    def input(self) -> Tuple[int, int]:
        """The value's bytes as a pointer and a length."""
        return address_of(self.data) + self.start, self.consumed

    def children(self, node: int) -> List[int]:
        """The numbers of a node's children."""
        nodes, entries = self.numbers
        entry, count = nodes[NODE * node + 3], nodes[NODE * node + 4]
        found = []
        for _ in range(count):
            found.append(entries[ENTRY * entry])
            entry = entries[ENTRY * entry + 1]
        return found

    def own_letters(self) -> List[int]:
        """The letter of each node."""
        return self.numbers[0][::NODE].tolist()

    def by_itself(self, node: int) -> Tuple["Reading", int]:
        """This value as a reading alone leaves it, and the node's number there."""
        return self, node

    def header(self, node: int) -> int:
        """Where a node's header stands: before its place, and before a string's length."""
        letter, place = self.numbers[0][NODE * node : NODE * node + 2]
        return place - _LEADS.get(chr(letter), 1)

    def end_of(self, node: int) -> int:
        """The byte behind a node's last."""
        return self.numbers[0][NODE * node + 5]

    def references(self, node: int) -> Iterator[Tuple[int, int]]:
        """A node's children by reference: where each stands, and the node that it names. A child that does not begin where the one
        before it ends is one."""
        letter, place, size = self.numbers[0][NODE * node : NODE * node + 3]
        is_code = letter == ord("c")
        at = place + (_CODE_NUMBERS if is_code else size)
        for part, child in enumerate(self.children(node)):
            at += _FIRST_LINE if is_code and part == _LINE_TABLE else 0
            if self.header(child) == at:
                at = self.end_of(child)
            else:
                yield at, child
                at += _REFERENCE


def read_one(data: bytes, start: int, room: int, nesting: int = lib.MOST_NESTING) -> Union[Reading, Refused]:
    """The value at a byte, or why there is none; at first with so much room."""
    left = len(data) - start
    enough = min(lib.MOST_RECORDS, left)
    room = min(room, enough)
    at = address_of(data) + start
    while True:
        _stores.lend(room)
        answer = lib.sill_read(
            at, left, _stores.nodes, NODE * room, _stores.entries, ENTRY * room, _stores.slots, room, nesting
        )
        if not answer.refusal:
            return Reading(data, start, answer)
        if answer.refusal not in (11, 12, 13) or room == enough:
            refused = refusal_of(answer, start)
            assert refused is not None
            return refused
        room = min(enough, _GROWTH * room)


def moved(data: bytes, move: Any) -> Union[bytes, Refused]:
    """A golden in its other form, or why it has none; each of its values has all the room."""
    enough = min(lib.MOST_RECORDS, len(data))
    room, out = min(len(data) // 8 + 16, enough), ctypes.create_string_buffer(len(data) + HEADERS)
    while True:
        _stores.lend(room)
        answer = move(
            address_of(data), len(data), _stores.nodes, NODE * room, _stores.entries, ENTRY * room, _stores.slots, room,
            lib.MOST_NESTING, out, len(data) + HEADERS,
        )
        if not answer.refusal:
            return out.raw[: answer.written]
        if answer.refusal not in (11, 12, 13) or room == enough:
            refused = refusal_of(answer, 0)
            assert refused is not None
            return refused
        room = min(enough, _GROWTH * room)


def is_in_fields(data: bytes) -> bool:
    """Whether a golden has the new form: its first byte begins no value."""
    return data[:1] == b"\x01"


def read_fields(data: bytes) -> Tuple[List[Reading], Optional[Refused]]:
    """Code and result of a golden in fields; where it is refused, neither."""
    plain = moved(data, lib.sill_golden_from_fields)
    if isinstance(plain, Refused):
        return [], plain
    code = read_one(data, 7, len(data) // 8 + 16)
    assert isinstance(code, Reading)
    result = read_one(data, code.end + 3, len(data) // 8 + 16)
    assert isinstance(result, Reading)
    return [code, result], None


def read_values(data: bytes) -> Tuple[List[Reading], Optional[Refused]]:
    """All values of a file, back to back or in fields, and why the bytes behind the last are none, if there are such."""
    if is_in_fields(data):
        return read_fields(data)
    readings: List[Reading] = []
    start, room = 0, len(data) // 8 + 16
    while True:
        reading = read_one(data, start, room)
        if isinstance(reading, Refused):
            return readings, reading
        readings.append(reading)
        start = reading.end
        if start == len(data):
            return readings, None
        room = 2 * reading.used_nodes + 16


def as_bytes(data: Buffer) -> bytes:
    """The bytes themselves where they are such, else a copy."""
    return data if isinstance(data, bytes) else bytes(data)
