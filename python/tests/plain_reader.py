"""A reader of the same form in Python alone, for measuring: a method for each letter, objects as they are read, references in a list.
It trusts its input: it has none of the refusals."""

import struct
import types
from itertools import compress


class PlainReader:
    def __init__(self, data):
        self.data, self.at, self.slots = data, 0, []

    def value(self):
        header = self.data[self.at]
        self.at += 1
        letter = header & 0x7F
        if letter == 0x72:  # r
            return self.slots[self.number()]
        if not header & 0x80:
            return self.READ[letter](self)
        slot = len(self.slots)
        self.slots.append(None)
        value = self.slots[slot] = self.READ[letter](self)
        return value

    def number(self):
        at = self.at
        self.at = at + 4
        return int.from_bytes(self.data[at : at + 4], "little", signed=True)

    def taken(self, size):
        at = self.at
        self.at = at + size
        return self.data[at : at + size]

    def short(self):
        size = self.data[self.at]
        self.at += 1
        return self.taken(size)

    def members(self):
        return [self.value() for _ in range(self.number())]

    def short_members(self):
        count = self.data[self.at]
        self.at += 1
        return [self.value() for _ in range(count)]

    def long(self):
        count = self.number()
        digits = struct.unpack(f"<{abs(count)}H", self.taken(2 * abs(count)))
        value = sum(digit << 15 * at for at, digit in enumerate(digits))
        return value if count >= 0 else -value

    def dict(self):
        found = {}
        while self.data[self.at] & 0x7F != 0x30:
            key = self.value()
            found[key] = self.value()
        self.at += 1
        return found

    def code(self):
        numbers = [self.number() for _ in range(5)]
        parts = [self.value() for _ in range(8)]
        first_line = self.number()
        lines, exceptions = self.value(), self.value()
        arguments, positional, keyword, stack, flags = numbers
        code, constants, names, local_names, kinds, file, name, qualified = parts
        local, cells, frees = (tuple(compress(local_names, (kind & bit for kind in kinds))) for bit in (0x20, 0x40, 0x80))
        return types.CodeType(
            arguments, positional, keyword, len(local), stack, flags, code, constants, names, local, file, name, qualified,
            first_line, lines, exceptions, frees, cells,
        )

    READ = {
        ord(letter): read
        for letter, read in {
            "N": lambda self: None,
            "S": lambda self: StopIteration,
            ".": lambda self: ...,
            "F": lambda self: False,
            "T": lambda self: True,
            "i": number,
            "I": lambda self: int.from_bytes(self.taken(8), "little", signed=True),
            "l": long,
            "g": lambda self: struct.unpack("<d", self.taken(8))[0],
            "y": lambda self: complex(*struct.unpack("<dd", self.taken(16))),
            "s": lambda self: self.taken(self.number()),
            "u": lambda self: self.taken(self.number()).decode("utf-8", "surrogatepass"),
            "t": lambda self: self.taken(self.number()).decode("utf-8", "surrogatepass"),
            "a": lambda self: self.taken(self.number()).decode("ascii"),
            "A": lambda self: self.taken(self.number()).decode("ascii"),
            "z": lambda self: self.short().decode("ascii"),
            "Z": lambda self: self.short().decode("ascii"),
            "(": lambda self: tuple(self.members()),
            ")": lambda self: tuple(self.short_members()),
            "[": lambda self: self.members(),
            "<": lambda self: set(self.members()),
            ">": lambda self: frozenset(self.members()),
            ":": lambda self: slice(self.value(), self.value(), self.value()),
            "{": dict,
            "c": code,
        }.items()
    }


def loads(data):
    return PlainReader(data).value()
