"""Python objects of what was read, as marshal.loads would build them."""

import struct
import sys
import types
from itertools import compress
from typing import Any, Callable, Dict, List, Optional

from ._reading import ENTRY, NODE, Reading

# The form that is read is CPython 3.11's; any other interpreter would misread the instructions.
OF_THIS_PYTHON = sys.implementation.name == "cpython" and sys.version_info[:2] == (3, 11)

_MISSING = object()
_float = struct.Struct("<d").unpack_from
_complex = struct.Struct("<dd").unpack_from
_five = struct.Struct("<5i").unpack_from
_first_line = struct.Struct("<i").unpack_from

_code_type: Any = types.CodeType  # its parameters are those of CPython 3.11

_Leaf = Callable[[bytes, int, int], Any]


def _long(data: bytes, place: int, size: int) -> int:
    """A signed count of digits, then the digits of 15 bits, the lowest first."""
    value, shift = 0, 0
    for at in range(place + 4, place + size, 2):
        value |= (data[at] | data[at + 1] << 8) << shift
        shift += 15
    return -value if data[place + 3] & 0x80 else value


def _whole(data: bytes, place: int, size: int) -> int:
    return int.from_bytes(data[place : place + size], "little", signed=True)


def _ascii(data: bytes, place: int, size: int) -> str:
    return str(data[place : place + size], "latin-1")


def _interned(data: bytes, place: int, size: int) -> str:
    return sys.intern(str(data[place : place + size], "latin-1"))


def _text(data: bytes, place: int, size: int) -> str:
    return str(data[place : place + size], "utf-8", "surrogatepass")


def _interned_text(data: bytes, place: int, size: int) -> str:
    return sys.intern(str(data[place : place + size], "utf-8", "surrogatepass"))


_LEAVES: Dict[int, _Leaf] = {
    ord("N"): lambda data, place, size: None,
    ord("S"): lambda data, place, size: StopIteration,
    ord("."): lambda data, place, size: Ellipsis,
    ord("F"): lambda data, place, size: False,
    ord("T"): lambda data, place, size: True,
    ord("i"): _whole,
    ord("I"): _whole,
    ord("l"): _long,
    ord("g"): lambda data, place, size: _float(data, place)[0],
    ord("y"): lambda data, place, size: complex(*_complex(data, place)),
    ord("s"): lambda data, place, size: data[place : place + size],
    ord("u"): _text,
    ord("t"): _interned_text,
    ord("a"): _ascii,
    ord("z"): _ascii,
    ord("A"): _interned,
    ord("Z"): _interned,
}


def _dict(members: List[Any]) -> Dict[Any, Any]:
    return dict(zip(members[::2], members[1::2]))


_CONTAINERS: Dict[int, Callable[[List[Any]], Any]] = {
    ord("("): tuple,
    ord(")"): tuple,
    ord("["): list,
    ord("<"): set,
    ord(">"): frozenset,
    ord("{"): _dict,
    ord(":"): lambda members: slice(*members),
}


def _code(data: bytes, place: int, size: int, parts: List[Any]) -> Any:
    arguments, positional, keyword, stack, flags = _five(data, place)
    code, constants, names, local_names, kinds, file, name, qualified, lines, exceptions = parts
    local = tuple(compress(local_names, map((0x20).__and__, kinds)))
    cells = tuple(compress(local_names, map((0x40).__and__, kinds)))
    frees = tuple(compress(local_names, map((0x80).__and__, kinds)))
    first, = _first_line(data, place + size)
    return _code_type(
        arguments, positional, keyword, len(local), stack, flags, code, constants, names, local, file, name, qualified,
        first, lines, exceptions, frees, cells,
    )


class Builder:
    """Builds the objects of a reading. A shared node is one object; a chain of references may be of any length."""

    def __init__(self, reading: Reading, code: Callable[[int], Any]) -> None:
        nodes, entries = reading.numbers
        self.letters = reading.own_letters()
        self.places, self.sizes, self.firsts, self.counts = (nodes[at::NODE].tolist() for at in range(1, 5))
        self.children, self.nexts = entries[0::ENTRY].tolist(), entries[1::ENTRY].tolist()
        self.data = reading.data[reading.start : reading.end]
        self.lazy_code = code
        self.objects = self._leaves()

    def root(self) -> Any:
        """The object of node 0. Children come after their parents by number, so most are there when they are asked for; those
        that a reference names may stand before, and are then built first."""
        objects = self.objects
        for node in range(len(objects) - 1, -1, -1):
            if objects[node] is _MISSING:
                members = self._members(node)
                if members is None:
                    self.build(node)
                else:
                    objects[node] = self._object(node, members)
        return objects[0]

    def _leaves(self) -> List[Any]:
        data, leaves, objects = self.data, _LEAVES, []
        for letter, place, size in zip(self.letters, self.places, self.sizes):
            leaf = leaves.get(letter)
            objects.append(leaf(data, place, size) if leaf else _MISSING)
        return objects

    def build(self, node: int) -> None:
        """Builds a node's object, whatever it needs first."""
        objects, waiting = self.objects, [node]
        while waiting:
            node = waiting[-1]
            members = self._members(node)
            if members is None:
                waiting.extend(child for child in self._numbers(node) if objects[child] is _MISSING)
                continue
            waiting.pop()
            if objects[node] is _MISSING:
                objects[node] = self._object(node, members)

    def _numbers(self, node: int) -> List[int]:
        """The numbers of a node's children."""
        entry, children, nexts, found = self.firsts[node], self.children, self.nexts, []
        for _ in range(self.counts[node]):
            found.append(children[entry])
            entry = nexts[entry]
        return found

    def _members(self, node: int) -> Optional[List[Any]]:
        """The objects of a node's children, or nothing where one is missing."""
        entry, children, nexts, objects, found = self.firsts[node], self.children, self.nexts, self.objects, []
        for _ in range(self.counts[node]):
            member = objects[children[entry]]
            if member is _MISSING:
                return None
            found.append(member)
            entry = nexts[entry]
        return found

    def _object(self, node: int, members: List[Any]) -> Any:
        letter = self.letters[node]
        if letter != ord("c"):
            return _CONTAINERS[letter](members)
        if OF_THIS_PYTHON:
            return _code(self.data, self.places[node], self.sizes[node], members)
        return self.lazy_code(node)
