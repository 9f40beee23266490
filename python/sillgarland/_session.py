"""Values read one behind another into stores that are kept, of which one at a time can be moved to the front. Each value has the
input that its nodes name."""

import ctypes
from ctypes import c_uint32
from itertools import count
from typing import Dict, List, Tuple

from . import _library as lib
from ._golden import Value, make
from ._reading import ENTRY, NODE, Buffer, Reading, address_of, as_bytes, read_one
from ._refused import accepted

_FIRST_ROOM, _GROWTH = 16, 4


class _Stores:
    """Nodes, entries and slots with so much room, that begin with the first records of others."""

    def __init__(self, room: int) -> None:
        self.room = room
        self.nodes, self.entries, self.slots = ((c_uint32 * (width * room))() for width in (NODE, ENTRY, 1))

    def beginning(self, room: int, used: Tuple[int, int]) -> "_Stores":
        copied = _Stores(room)
        ctypes.memmove(copied.nodes, self.nodes, 4 * NODE * used[0])
        ctypes.memmove(copied.entries, self.entries, 4 * ENTRY * used[1])
        return copied


class _Held(Reading):
    """A value of a session: its own input, and stores in which the session's other values stand too."""

    __slots__ = ("turn", "number")

    def __init__(self, data: bytes, stores: _Stores, used: Tuple[int, int], number: int, turn: object) -> None:
        self.data, self.start, self.consumed = data, 0, len(data)
        self.number, self.turn = number, turn
        self.used_nodes, self.used_entries = used
        self.nodes, self.entries = stores.nodes, stores.entries  # type: ignore[assignment]
        nodes, entries = (memoryview(store).cast("B").cast("I") for store in (stores.nodes, stores.entries))
        self._numbers = (nodes[: NODE * used[0]], entries[: ENTRY * used[1]])

    def own_letters(self) -> List[int]:
        """The letter of each node of this input, and 0 for the others."""
        letters, inputs = (self.numbers[0][at::NODE].tolist() for at in (0, NODE - 1))
        return [letter if number == self.number else 0 for letter, number in zip(letters, inputs)]

    def by_itself(self, node: int) -> Tuple[Reading, int]:
        """The same bytes read alone: there no other value stands, and none was moved."""
        alone = read_one(self.data, 0, self.used_nodes)
        assert isinstance(alone, Reading)
        header = self.header(node)
        return alone, next(own for own in range(alone.used_nodes) if alone.header(own) == header)


class Session:
    """Values that are kept and read side by side. A program that goes from value to value keeps a part of one, reads more behind it,
    and needs no more room than both.

    >>> session = Session()
    >>> row = session.read(b")\\x02T[\\x02\\0\\0\\0\\xe9\\x05\\0\\0\\0r\\0\\0\\0\\0").children()[1]
    >>> kept = session.keep(row)
    >>> found = session.read_more(b"(\\x02\\0\\0\\0i\\x05\\0\\0\\0i\\x06\\0\\0\\0")
    >>> kept.object(), found.object(), session.used
    ([5, 5], (5, 6), (5, 4))

    A value stays what it is for as long as a variable names it; what was not kept is no longer part of the session.

    >>> session.keep(row)
    Traceback (most recent call last):
    ValueError: <list at 4> is not of this session, or was not kept
    """

    def __init__(self, nesting: int = lib.MOST_NESTING) -> None:
        self._nesting = nesting
        self._clear()

    def _clear(self) -> None:
        self._stores, self._used, self._turn = _Stores(0), (0, 0), object()
        self._inputs: Dict[int, bytes] = {}

    @property
    def used(self) -> Tuple[int, int]:
        """How many nodes and entries the values of the session take."""
        return self._used

    def read(self, data: Buffer) -> Value:
        """The value that the input begins with, in place of all values of the session. What cannot be read raises `Refused`."""
        self._clear()
        return self.read_more(data)

    def read_more(self, data: Buffer) -> Value:
        """The value that the input begins with, behind those of the session, which stay where this one raises `Refused`.

        >>> session = Session()
        >>> first = session.read(b"i\\x05\\0\\0\\0")
        >>> session.read_more(b"u\\x02\\0\\0\\0a")
        Traceback (most recent call last):
        sillgarland._refused.Refused: 2 DataTooShort at 5: the field that starts here is cut: the input ends inside it
        >>> session.keep(first).object()
        5
        """
        data, used = as_bytes(data), self._used
        number = next(free for free in count() if free not in self._inputs)
        enough = min(lib.MOST_RECORDS, len(data) + max(used))
        room = min(enough, max(self._stores.room, max(used) + _FIRST_ROOM))
        while True:
            if self._stores.room < room:
                self._stores = self._stores.beginning(room, used)
            stores, room = self._stores, self._stores.room
            answer = lib.sill_read_more(
                address_of(data), len(data), stores.nodes, NODE * room, stores.entries, ENTRY * room, stores.slots, room,
                self._nesting, *used, number,
            )
            if answer.refusal not in (11, 12, 13) or room >= enough:
                break
            room = min(enough, _GROWTH * room)
        consumed = accepted(answer).consumed
        self._inputs[number] = data[:consumed]
        self._used = (answer.nodes, answer.entries)
        return make(_Held(self._inputs[number], stores, self._used, number, self._turn), used[0])

    def keep(self, value: Value) -> Value:
        """This value alone is kept: it and all that is in it move to the front of the stores, and the other values and inputs go. What
        was shared in it stays shared."""
        held = value._reading
        if not isinstance(held, _Held) or held.turn is not self._turn:
            raise ValueError(f"{value!r} is not of this session, or was not kept")
        stores = self._stores.beginning(self._stores.room, self._used)
        need = lib.sill_keep_need(*self._used)
        answer = accepted(
            lib.sill_keep(
                stores.nodes, NODE * stores.room, stores.entries, ENTRY * stores.room, stores.slots, stores.room, *self._used,
                value.node, (c_uint32 * need)(), need,
            )
        )
        self._stores, self._used, self._turn = stores, (answer.nodes, answer.entries), object()
        self._inputs = {held.number: held.data}
        return make(_Held(held.data, stores, self._used, held.number, self._turn), 0)
