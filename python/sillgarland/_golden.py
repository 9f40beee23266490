"""Values back to back, each a lazy tree: a node's number beside what was read, and nothing copied."""

import ctypes
import struct
from ctypes import c_uint32
from typing import Any, Dict, Iterable, Iterator, List, NamedTuple, Optional, Sequence, Tuple, Union, overload

from . import _library as lib
from . import _tables
from ._objects import Builder
from ._reading import NODE, Buffer, Reading, as_bytes, read_one, read_values
from ._refused import Refused, accepted

Bytes = bytes  # within the classes below that is a method

KINDS: Dict[str, str] = {
    **dict.fromkeys("il", "whole"), "I": "whole", "N": "none", "F": "truth", "T": "truth", "S": "stop", ".": "ellipsis", "g": "float",
    "y": "complex", "s": "bytes", **dict.fromkeys("utaAzZ", "text"), **dict.fromkeys("()", "tuple"), "[": "list", "<": "set",
    ">": "frozenset", "{": "dict", ":": "slice", "c": "code",
}


class Value:
    """A value, lazily: it and its children are looked at when they are asked for.

    >>> root = read(b")\\x02i\\x05\\0\\0\\0z\\x03abc")[0]
    >>> root.kind, [child.object() for child in root.children()]
    ('tuple', [5, 'abc'])
    """

    __slots__ = ("_reading", "node")

    def __init__(self, reading: Reading, node: int) -> None:
        self._reading, self.node = reading, node

    def __repr__(self) -> str:
        return f"<{self.kind} at {self.place}>"

    @property
    def letter(self) -> str:
        """The type letter, without the reference flag."""
        return chr(self._record(0))

    @property
    def kind(self) -> str:
        """What it is: none, truth, whole, float, complex, bytes, text, tuple, list, set, frozenset, dict, slice, code, stop, ellipsis."""
        return KINDS[self.letter]

    @property
    def place(self) -> int:
        """The byte of the input at which its contents begin: behind the header, or behind a string's length."""
        return self._reading.start + self._record(1)

    def children(self) -> List["Value"]:
        """Members in order; a dict's keys and values in turn; a code object's ten parts.

        Children may be shared, so a recursion over them may never end: forty tuples, each of the one before twice, are reached
        2**40 times. `walk` meets each value once."""
        return [make(self._reading, node) for node in self._reading.children(self.node)]

    def walk(self) -> Iterator["Value"]:
        """This value and everything in it, each once, before its children.

        >>> [value.letter for value in read(b")\\x02\\xa9\\x01Nr\\0\\0\\0\\0")[0].walk()]
        [')', ')', 'N']
        """
        met, waiting = {self.node}, [self.node]
        while waiting:
            node = waiting.pop()
            yield make(self._reading, node)
            fresh = [child for child in dict.fromkeys(self._reading.children(node)) if child not in met]
            met.update(fresh)
            waiting.extend(reversed(fresh))

    def bytes(self) -> memoryview:
        """Its own contents as they stand in the input, children aside: no copy.

        >>> bytes(read(b"s\\x03\\0\\0\\0abc")[0].bytes())
        b'abc'
        """
        return memoryview(self._reading.data)[self.place : self.place + self._record(2)]

    def canonical(self) -> Bytes:
        """The value in its canonical form: integers and strings in one form each, neither references nor flags. Two values whose
        local names keep their order are the same exactly where these bytes are equal.

        >>> read(b")\\x02\\xe9\\x05\\0\\0\\0r\\0\\0\\0\\0")[0].canonical()
        b'(\\x02\\x00\\x00\\x00i\\x05\\x00\\x00\\x00i\\x05\\x00\\x00\\x00'
        """
        reading, room = self._reading, min(lib.MOST_BYTES, 2 * self._reading.consumed + 64)
        while True:
            out = ctypes.create_string_buffer(room + 1)
            answer = lib.sill_write(
                *reading.input(), reading.nodes, NODE * reading.used_nodes, reading.entries, 2 * reading.used_entries,
                reading.used_nodes, reading.used_entries, self.node, lib.MOST_NESTING, out, room,
            )
            if answer.refusal != 17 or room == lib.MOST_BYTES:
                return out.raw[: accepted(answer).written]
            room = min(lib.MOST_BYTES, 4 * room)

    @property
    def span(self) -> Tuple[int, int]:
        """The bytes of the input that it takes, from its header to the one behind its last; of a shared value, where it stands itself.

        >>> [value.span for value in read(b")\\x02\\xe9\\x05\\0\\0\\0r\\0\\0\\0\\0")[0].walk()]
        [(0, 12), (2, 7)]
        """
        reading = self._reading
        return reading.start + reading.header(self.node), reading.start + reading.end_of(self.node)

    def alone(self) -> Optional[Bytes]:
        """Its bytes as a value of their own, the indices of references in them lowered by the slots reserved before; None where a
        reference in them names a value outside.

        >>> pair = read(b")\\x02\\xe9\\x05\\0\\0\\0)\\x02\\xcer\\x01\\0\\0\\0")[0].children()[1]
        >>> pair.alone()
        b')\\x02\\xcer\\x00\\x00\\x00\\x00'
        """
        reading, node = self._reading.by_itself(self.node)
        told = accepted(
            lib.sill_span(
                *reading.input(), reading.nodes, NODE * reading.used_nodes, reading.entries, 2 * reading.used_entries,
                reading.used_nodes, reading.used_entries, node,
            )
        )
        if not told.closed:
            return None
        found = bytearray(reading.data[reading.start + told.start : reading.start + told.end])
        while node < reading.used_nodes and reading.header(node) < told.end:
            for at, _ in reading.references(node):
                index = slice(at + 1 - told.start, at + 5 - told.start)
                found[index] = struct.pack("<I", struct.unpack("<I", found[index])[0] - told.slots_before)
            node += 1
        return bytes(found)

    def leaf(self) -> Any:
        """What a value without children holds, by the library's own answer; TypeError where it has children or is a string or bytes."""
        reading = self._reading
        told = accepted(
            lib.sill_leaf(*reading.input(), reading.nodes, NODE * reading.used_nodes, reading.used_nodes, self.node)
        )
        if told.kind == 0:
            raise TypeError(f"{self!r} is no leaf")
        if told.kind == 5:
            return told.first - (told.first >> 63 << 64)
        if told.kind in (6, 7):
            floats = struct.unpack("<dd", struct.pack("<QQ", told.first, told.second))
            return floats[0] if told.kind == 6 else complex(*floats)
        return self.object() if told.kind == 8 else {1: None, 2: told.first == 1, 3: Ellipsis, 4: StopIteration}[told.kind]

    def object(self) -> Any:
        """The Python object, as `loads` builds it."""
        builder = Builder(self._reading, lambda node: Code(self._reading, node))
        builder.build(self.node)
        return builder.objects[self.node]

    def code_objects(self) -> Iterator["Code"]:
        """The code object that it is and those in it, each once."""
        return (value for value in self.walk() if isinstance(value, Code))

    def _record(self, at: int) -> int:
        return self._reading.numbers[0][NODE * self.node + at]


class Split(NamedTuple):
    """Positions in the list of local names, by kind."""

    locals: List[int]
    cells: List[int]
    frees: List[int]
    map: List[Optional[int]]
    """for each name its number among the cells, or among the frees that follow them"""
    cell_args: Optional[List[Optional[int]]]
    """for each cell the argument that it is; None where none is one"""


class Code(Value):
    """A code object: its numbers and parts by name, where its instructions come from, and what guards them."""

    __slots__ = ("_parts",)

    def __init__(self, reading: Reading, node: int) -> None:
        super().__init__(reading, node)
        self._parts = reading.children(node)

    def __repr__(self) -> str:
        return f"<code object {self.qualified_name} at {self.place}>"

    def part(self, at: int) -> Value:
        """A part in stored order: code, constants, names, local names, kinds, file, name, qualified name, line table, exceptions."""
        return make(self._reading, self._parts[at])

    @property
    def numbers(self) -> Tuple[int, ...]:
        """Arguments, positional-only, keyword-only, stack and flags."""
        return struct.unpack_from("<5I", self._reading.data, self.place)

    @property
    def first_line(self) -> int:
        return int(struct.unpack_from("<i", self._reading.data, self.place + self._record(2))[0])

    @property
    def instructions(self) -> int:
        """How many instructions there are, cache units counted."""
        return len(self.part(0).bytes()) // 2

    @property
    def name(self) -> str:
        return self._text(6)

    @property
    def qualified_name(self) -> str:
        return self._text(7)

    @property
    def file(self) -> str:
        return self._text(5)

    def local_names(self) -> List[str]:
        return [str(child.bytes(), "utf-8", "surrogatepass") for child in self.part(3).children()]

    def locations(self) -> _tables.Locations:
        """Where each instruction comes from, and whether the line table is whole.

        >>> cut = next(read(open("goldens/cut-line-table.golden", "rb").read()).code_objects())
        >>> found = cut.locations()
        >>> found.whole, found.from_entries, len(found), found.row(40), found.last_row()
        (False, 33, 45, None, 57)
        """
        table = self.part(8)
        return _tables.locations(table.bytes(), self.first_line, self.instructions, table.place)

    def sources(self) -> _tables.Sources:
        """Where each instruction's place comes from: a byte each."""
        table = self.part(8)
        return _tables.sources(table.bytes(), self.first_line, self.instructions, table.place)

    def positions(self) -> Iterator[_tables.Position]:
        """As co_positions() of CPython: line, end line, column, end column, and None for what no entry gives."""
        table = self.part(8)
        return _tables.positions(table.bytes(), self.first_line, self.instructions, table.place)

    def salvaged(self) -> _tables.Salvaged:
        """Its line table, repaired for its instructions."""
        return _tables.salvage(self.part(8).bytes(), self.first_line, self.instructions)

    def handlers(self) -> List[_tables.Handler]:
        """The entries of its exception table."""
        table = self.part(9)
        return _tables.handlers(table.bytes(), table.place)

    def split(self) -> Split:
        """Its local names by kind: arguments and locals, cells, free variables.

        >>> scaled = list(read(open("goldens/fees.golden", "rb").read()).code_objects())[2]
        >>> names, split = scaled.local_names(), scaled.split()
        >>> [names[at] for at in split.locals], [names[at] for at in split.frees]
        (['rate'], ['amount', 'least'])
        """
        kinds, (args, _, kwonly, _, flags) = Bytes(self.part(4).bytes()), self.numbers
        size = len(kinds)
        stores = [(c_uint32 * size)() for _ in range(5)]
        lent = [word for store in stores for word in (store, size)]
        told = accepted(lib.sill_split(kinds, size, size, args, kwonly, flags, *lent))
        local, cells, frees, numbers, cell_args = (list(store) for store in stores)
        return Split(
            local[: told.locals], cells[: told.cells], frees[: told.frees], _present(numbers),
            _present(cell_args[: told.cells]) if told.present else None,
        )

    def _text(self, at: int) -> str:
        return str(self.part(at).bytes(), "utf-8", "surrogatepass")


def _present(numbers: Iterable[int]) -> List[Optional[int]]:
    return [None if number == lib.NOTHING else number for number in numbers]


def make(reading: Reading, node: int) -> Value:
    """The value of a node, a `Code` where it is one."""
    is_code = reading.numbers[0][NODE * node] == ord("c")
    return Code(reading, node) if is_code else Value(reading, node)


class Golden(Sequence[Value]):
    """Values back to back, as a golden file has a code object and the result expected of it.

    >>> golden = read(b")\\x01NT")
    >>> golden, list(golden)
    (<golden of 2 values>, [<tuple at 1>, <truth at 4>])
    """

    __slots__ = ("_readings",)

    def __init__(self, readings: List[Reading]) -> None:
        self._readings = readings

    def __len__(self) -> int:
        return len(self._readings)

    @overload
    def __getitem__(self, at: int) -> Value: ...

    @overload
    def __getitem__(self, at: slice) -> List[Value]: ...

    def __getitem__(self, at: Union[int, slice]) -> Union[Value, List[Value]]:
        if isinstance(at, slice):
            return [make(reading, 0) for reading in self._readings[at]]
        return make(self._readings[at], 0)

    def __repr__(self) -> str:
        return f"<golden of {len(self)} value{'s' if len(self) != 1 else ''}>"

    def bytes(self) -> memoryview:
        """The input: no copy."""
        return memoryview(self._readings[0].data)

    def canonical(self) -> Bytes:
        """All values in their canonical form, back to back."""
        return b"".join(value.canonical() for value in self)

    def code_objects(self) -> Iterator[Code]:
        """Every code object, each once, in the order of the input."""
        for reading in self._readings:
            letters = reading.numbers[0][::NODE].tolist()
            yield from (Code(reading, node) for node, letter in enumerate(letters) if letter == ord("c"))

    def locations(self) -> Iterator[Tuple[Code, _tables.Locations]]:
        """Each code object, and where its instructions come from.

        >>> golden = read(open("goldens/cut-line-table.golden", "rb").read())
        >>> [(code.name, found.whole, found.last_row()) for code, found in golden.locations()]
        [('<module>', False, 57)]
        """
        return ((code, code.locations()) for code in self.code_objects())

    def sources(self) -> Iterator[Tuple[Code, _tables.Sources]]:
        """Each code object, and where its instructions' places come from."""
        return ((code, code.sources()) for code in self.code_objects())

    def handlers(self) -> Iterator[Tuple[Code, List[_tables.Handler]]]:
        """Each code object, and the entries of its exception table.

        >>> golden = read(open("goldens/fees.golden", "rb").read())
        >>> [(code.name, len(found)) for code, found in golden.handlers()]
        [('<module>', 0), ('fee', 3), ('scaled', 0), ('<listcomp>', 0)]
        """
        return ((code, code.handlers()) for code in self.code_objects())

    def split(self) -> Iterator[Tuple[Code, Split]]:
        """Each code object, and its local names by kind."""
        return ((code, code.split()) for code in self.code_objects())


def read(data: Buffer) -> Golden:
    """Reads all values of an input, to its end, as lazy trees. What cannot be read raises `Refused`.

    >>> read(b"N\\n")
    Traceback (most recent call last):
    sillgarland._refused.Refused: 3 UnknownType at 1: a type letter is expected here, and this byte is none
    """
    readings, refused = read_values(as_bytes(data))
    if refused:
        raise refused
    return Golden(readings)


def loads(data: Buffer) -> Any:
    """The Python object that the input begins with, as marshal.loads gives it; what follows is not looked at. On any Python but
    CPython 3.11, whose code objects these are, a code object stays a `Code`. What is read and is no Python object, as a set of lists or a
    code object that types.CodeType does not make, is Python's own TypeError or ValueError.

    >>> loads(b")\\x02i\\x05\\0\\0\\0z\\x03abc")
    (5, 'abc')
    """
    data = as_bytes(data)
    read = read_one(data, 0, len(data) // 8 + 16)
    if isinstance(read, Refused):
        raise read
    reading: Reading = read
    return Builder(reading, lambda node: Code(reading, node)).root()
