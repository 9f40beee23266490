"""Refusals as exceptions: number, name, place, and what each means for the person whose file was refused."""

from typing import Any, Optional

# Name and meaning by number, from 1 on; docs/REFUSALS.md has the same names, and python/tests holds the two to one another.
_REFUSALS = (
    ("EofObject", "a value is expected here, and the input ends"),
    ("DataTooShort", "the field that starts here is cut: the input ends inside it"),
    ("UnknownType", "a type letter is expected here, and this byte is none"),
    ("NullObject", "a value is expected here, and a null stands here (it may only end a dict)"),
    ("InvalidRef", "a reference to a value that is already complete is expected here, and this one names none"),
    ("BadSize", "a length is expected here, and this one is negative"),
    ("BadType", "this part of a code object is not of the type that belongs here (bytes, tuple, names, string)"),
    ("InvalidBytecode", "a sound digit or code object is expected here"),
    ("InvalidUtf8", "the text that starts here is not UTF-8 (surrogates would be allowed)"),
    ("TooDeep", "the value here is nested more than 2,000 levels deep"),
    ("NoNode", "the value that starts here is one too many: 1,048,576 fit in one reading"),
    ("NoEntry", "the child that starts here is one too many: 1,048,576 fit in one reading"),
    ("NoSlot", "the shared value that starts here is one too many: 1,048,576 fit in one reading"),
    ("InputTooLong", "the input is longer than 16,777,216 bytes"),
    ("NotCarried", "a float written as decimal digits (letter f or x) stands here; these are not read"),
    ("BadTable", "the stores hold no sound record of this node"),
    ("NoRoom", "what is written does not fit"),
    ("NumberRange", "a number here leaves its range"),
    ("NoMarker", "an entry of an exception table is expected here, and this byte has no start marker"),
    ("NoSuchStart", "no instruction or start of a row has this number"),
    ("AlreadyEnded", "this reading by piece has ended, or its state is none that a call leaves"),
    ("RepeatedTag", "the field that starts here has the tag of a field before it"),
    ("NoSuchField", "the field or edition that is asked for is not there"),
    ("NotJoined", "both line tables must be whole, and the second must start from the line that the first leaves"),
    ("TrailingBytes", "the golden's values end here, and bytes follow"),
    ("ValueTooLong", "the value that starts here is longer than 65,535 bytes, the most that a field holds"),
)

LAST_NUMBER = len(_REFUSALS)


def name_of(number: int) -> str:
    """The name of a refusal's number; 0 is no refusal.

    >>> name_of(9)
    'InvalidUtf8'
    """
    if not 1 <= number <= LAST_NUMBER:
        raise ValueError(f"{number} is no refusal's number")
    return _REFUSALS[number - 1][0]


class Refused(ValueError):
    """What cannot be read, written or located, with the refusal's number, its name, and its place in the input.

    >>> import sillgarland
    >>> try:
    ...     sillgarland.read(b"u\\x02\\0\\0\\0a")
    ... except sillgarland.Refused as refused:
    ...     refused.number, refused.name, refused.place
    (2, 'DataTooShort', 5)
    """

    number: int
    name: str
    place: int
    meaning: str

    def __init__(self, number: int, place: int) -> None:
        self.number, self.place = number, place
        self.name, self.meaning = name_of(number), _REFUSALS[number - 1][1]
        super().__init__(number, place)

    def __str__(self) -> str:
        return f"{self.number} {self.name} at {self.place}: {self.meaning}"


def accepted(answer: Any, before: int = 0) -> Any:
    """The answer of a call, or its refusal, whose place has so many bytes more before it."""
    if answer.refusal:
        raise Refused(answer.refusal, before + answer.place)
    return answer


def refusal_of(answer: Any, before: int = 0) -> Optional[Refused]:
    return Refused(answer.refusal, before + answer.place) if answer.refusal else None
