"""The shared library as ctypes sees it: where it is, the answers' fields and the functions' parameters."""

import ctypes
import os
from ctypes import Structure, c_int32, c_size_t, c_uint32, c_uint64, c_void_p
from pathlib import Path
from typing import Any, Iterator, List, Tuple, Type

NAME = "libsillgarland.so"
SONAME = NAME + ".0"

MOST_BYTES = 16_777_216
MOST_RECORDS = 1_048_576
MOST_NESTING = 2_000
NOTHING = 4_294_967_295
COUNTERS = 29


def _places() -> Iterator[str]:
    """Where the library may be: the folder that SILL_LIB_DIR names and no other; else beside this file, where an installation
    has it; else in the repository's target/native; else wherever the system finds it."""
    folder = os.environ.get("SILL_LIB_DIR")
    if folder:
        yield os.path.join(folder, NAME)
        return
    here = Path(__file__).resolve().parent
    for path in (here / NAME, here.parent.parent / "target" / "native" / NAME):
        if path.is_file():
            yield str(path)
    yield SONAME


def _loaded() -> ctypes.CDLL:
    failed = []
    for place in _places():
        try:
            return ctypes.CDLL(place)
        except OSError as error:
            failed.append(str(error))
    raise ImportError("the shared library of sillgarland is not found: " + "; ".join(failed))


def _answer(name: str, *fields: Tuple[str, Any]) -> Type[Structure]:
    """The struct that a function answers with: refusal and place first, numbers of 32 bits where nothing else is said."""
    return type(name, (Structure,), {"_fields_": [("refusal", c_uint32), ("place", c_uint32), *fields]})


def _numbers(*names: str) -> List[Tuple[str, Any]]:
    return [(name, c_uint32) for name in names]


Read = _answer("Read", *_numbers("consumed", "nodes", "entries", "slots"))
Leaf = _answer("Leaf", *_numbers("kind", "pad"), ("first", c_uint64), ("second", c_uint64))
Span = _answer("Span", *_numbers("start", "end", "closed", "slots_before"))
Kept = _answer("Kept", *_numbers("nodes", "entries", "free_nodes", "free_entries"))
Written = _answer("Written", *_numbers("written"))
Located = _answer("Located", *_numbers("from_entries", "whole"))
Sourced = _answer("Sourced", *_numbers("from_entries", "with_line", "with_columns", "sure"))
Exceptions = _answer("Exceptions", *_numbers("count"))
Split = _answer("Split", *_numbers("locals", "cells", "frees", "present"))
Salvaged = _answer("Salvaged", *_numbers("written", "kept", "dropped", "shortened", "covered"))
Totalled = _answer("Totalled")
Moved = _answer("Moved", *_numbers("written"))

_library = _loaded()


def _function(name: str, answer: Any, parameters: str) -> Any:
    """A function by its parameters: `s` a slice (a pointer and a length), `u` and `i` numbers of 32 bits."""
    kinds = {"s": (c_void_p, c_size_t), "u": (c_uint32,), "i": (c_int32,)}
    function = getattr(_library, name)
    function.argtypes = [kind for parameter in parameters for kind in kinds[parameter]]
    function.restype = answer
    return function


sill_read = _function("sill_read", Read, "ssssu")
sill_write = _function("sill_write", Written, "sssuuuus")
sill_leaf = _function("sill_leaf", Leaf, "ssuu")
sill_span = _function("sill_span", Span, "sssuuu")
sill_keep = _function("sill_keep", Kept, "sssuuus")
sill_keep_need = _function("sill_keep_need", c_uint64, "uu")
sill_read_more = _function("sill_read_more", Read, "ssssuuuu")
sill_locate = _function("sill_locate", Located, "sius")
sill_sources = _function("sill_sources", Sourced, "sius")
sill_read_exceptions = _function("sill_read_exceptions", Exceptions, "ss")
sill_split = _function("sill_split", Split, "suuuusssss")
sill_salvage = _function("sill_salvage", Salvaged, "sius")
sill_golden_to_fields = _function("sill_golden_to_fields", Moved, "ssssus")
sill_golden_from_fields = _function("sill_golden_from_fields", Moved, "ssssus")
sill_totals = _function("sill_totals", Totalled, "sss")
sill_add_totals = _function("sill_add_totals", Totalled, "sss")
sill_print_totals = _function("sill_print_totals", Written, "ss")
