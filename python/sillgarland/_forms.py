"""The two forms of a golden file: code and result back to back, or in tagged fields."""

from typing import Union

from . import _library as lib
from ._reading import Buffer, as_bytes, moved
from ._refused import Refused


def golden_to_fields(plain: Buffer) -> bytes:
    """A golden of the old form, code and result back to back, in fields. Both values are read before anything is written.

    >>> plain = open("goldens/fees.golden", "rb").read()
    >>> golden_to_fields(plain) == open("goldens/in-fields.golden", "rb").read()
    True
    """
    return _given(moved(as_bytes(plain), lib.sill_golden_to_fields))


def golden_from_fields(fields: Buffer) -> bytes:
    """A golden in fields in the old form: what `golden_to_fields` was given comes back byte for byte.

    >>> golden_from_fields(golden_to_fields(plain := open("goldens/fees.golden", "rb").read())) == plain
    True
    """
    return _given(moved(as_bytes(fields), lib.sill_golden_from_fields))


def _given(golden: Union[bytes, Refused]) -> bytes:
    if isinstance(golden, Refused):
        raise golden
    return golden
