"""Exact counts over many inputs. Those of parts add up to those of the whole, so many machines may count."""

import ctypes
import os
from ctypes import c_uint32, c_uint64
from typing import Iterable, Optional, Tuple, Union

from . import _library as lib
from ._reading import read_values
from ._refused import Refused, accepted

Path = Union[str, "os.PathLike[str]"]

_LONGEST = 910  # bytes of the printed form


def _store(numbers: Iterable[int] = ()) -> "ctypes.Array[c_uint64]":
    return (c_uint64 * lib.COUNTERS)(*numbers)


class Totals:
    """How many inputs were accepted, how many refused, and by which refusal.

    >>> night = Totals().counting([None, Refused(2, 5), None])
    >>> night.inputs, night.accepted, night.refused, night.of(2)
    (3, 2, 1, 1)
    >>> (night + night).inputs
    6
    >>> Totals.parse(str(night)) == night
    True
    """

    __slots__ = ("counts",)

    counts: Tuple[int, ...]
    """inputs, accepted, refused, then each refusal from 1 on"""

    def __init__(self, counts: Optional[Iterable[int]] = None) -> None:
        self.counts = tuple(counts) if counts is not None else (0,) * lib.COUNTERS
        if len(self.counts) != lib.COUNTERS or not all(0 <= count < 2**64 for count in self.counts):
            raise ValueError(f"totals are {lib.COUNTERS} counts of 64 bits")

    def counting(self, outcomes: Iterable[Optional[Refused]]) -> "Totals":
        """These totals with the outcome of each input counted: None where it is accepted, else its refusal."""
        answers = [outcome.number if outcome else 0 for outcome in outcomes]
        after = _store()
        lent = (c_uint32 * len(answers))(*answers)
        accepted(lib.sill_totals(_store(self.counts), lib.COUNTERS, lent, len(answers), after, lib.COUNTERS))
        return Totals(after)

    def __add__(self, other: "Totals") -> "Totals":
        total = _store()
        accepted(
            lib.sill_add_totals(_store(self.counts), lib.COUNTERS, _store(other.counts), lib.COUNTERS, total, lib.COUNTERS)
        )
        return Totals(total)

    def __eq__(self, other: object) -> bool:
        return isinstance(other, Totals) and self.counts == other.counts

    def __hash__(self) -> int:
        return hash(self.counts)

    def __reduce__(self) -> Tuple[type, Tuple[Tuple[int, ...]]]:
        return Totals, (self.counts,)

    def __repr__(self) -> str:
        return f"<totals of {self.inputs} inputs, {self.refused} refused>"

    def __str__(self) -> str:
        """The printed form: `inputs 3`, `accepted 2`, `refused 1`, then `refusal N COUNT`, each line ended by a newline."""
        out = ctypes.create_string_buffer(_LONGEST)
        told = accepted(lib.sill_print_totals(_store(self.counts), lib.COUNTERS, out, _LONGEST))
        return out.raw[: told.written].decode()

    @classmethod
    def parse(cls, text: str) -> "Totals":
        """Printed totals as they were; any other text is a ValueError."""
        try:
            totals = cls(int(line.rsplit(" ", 1)[1]) for line in text.splitlines())
        except IndexError:
            raise ValueError("these are no printed totals") from None
        if str(totals) != text:
            raise ValueError("these are no printed totals")
        return totals

    @property
    def inputs(self) -> int:
        return self.counts[0]

    @property
    def accepted(self) -> int:
        return self.counts[1]

    @property
    def refused(self) -> int:
        return self.counts[2]

    def of(self, number: int) -> int:
        """How many were refused by this number."""
        if not 1 <= number <= lib.COUNTERS - 3:
            raise ValueError(f"{number} is no refusal's number")
        return self.counts[2 + number]


def contents(path: Path) -> bytes:
    """A file's bytes; of one that is too long one byte too many, which is enough to be refused."""
    with open(path, "rb") as file:
        return file.read(lib.MOST_BYTES + 1)


def totals(paths: Iterable[Path]) -> Totals:
    """Counts files, as `sill totals` does: one is accepted where all its values are read to its end.

    >>> print(totals(["goldens/rates.golden", "goldens/damaged-text.golden"]), end="")  # doctest: +ELLIPSIS
    inputs 2
    accepted 1
    refused 1
    ...
    refusal 9 1
    ...
    """
    return Totals().counting(read_values(contents(path))[1] for path in paths)
