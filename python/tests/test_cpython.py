"""The package beside CPython 3.11: every module of the standard library, and how fast it is read."""

import gc
import importlib.util
import marshal
import multiprocessing
import sysconfig
import time
import types
import unittest
import warnings
from itertools import zip_longest
from pathlib import Path

import plain_reader
import sillgarland
from sillgarland import _objects

LIBRARY = Path(sysconfig.get_path("stdlib"))


def modules():
    """The standard library's sources, with its own tests."""
    return [path for path in sorted(LIBRARY.rglob("*.py")) if LIBRARY / "site-packages" not in path.parents]


def marshalled(path):
    """A module's code object as the compiler marshals it, from the cache where it is there; nothing where it is no Python, as some files of
    the library's tests are by intent."""
    cached = Path(importlib.util.cache_from_source(str(path)))
    if cached.is_file():
        return cached.read_bytes()[16:]
    try:
        with warnings.catch_warnings():
            warnings.simplefilter("ignore")
            return marshal.dumps(compile(path.read_bytes(), str(path), "exec", dont_inherit=True))
    except (SyntaxError, ValueError):
        return None


def same(one, other):
    """Whether two objects are equal as values: types and floats' bits too, code objects in every part."""
    if type(one) is not type(other):
        return False
    if isinstance(one, (tuple, list)):
        return len(one) == len(other) and all(map(same, one, other))
    if isinstance(one, (float, complex)):
        return marshal.dumps(one) == marshal.dumps(other)
    if isinstance(one, types.CodeType):
        named = [name for name in dir(one) if name.startswith("co_") and not callable(getattr(one, name)) and name != "co_lnotab"]
        return all(same(getattr(one, name), getattr(other, name)) for name in named)
    return one == other


def code_objects(code):
    """A code object, then those of its constants: the order of their headers in the marshalled form."""
    yield code
    for constant in code.co_consts:
        if isinstance(constant, types.CodeType):
            yield from code_objects(constant)


def differences(path):
    """How many code objects a module has, and what is not alike in it."""
    data = marshalled(path)
    if data is None:
        return 0, []
    theirs, ours, found = marshal.loads(data), sillgarland.loads(data), []
    equal_to_itself = theirs == marshal.loads(data)  # not where a constant is no number
    if not same(ours, theirs) or (ours == theirs) != equal_to_itself:
        found.append(f"{path}: loads")
    pairs = list(zip_longest(code_objects(theirs), sillgarland.read(data).code_objects()))
    apart = [code for code, lazy in pairs if list(lazy.positions()) != list(code.co_positions())]
    return len(pairs), found + [f"{path}: positions of {code.co_qualname}" for code in apart]


def field(tag, contents):
    return bytes([tag]) + len(contents).to_bytes(2, "little") + contents


def fields_of(data):
    """Tags and contents, by CPython alone."""
    found = []
    while data:
        size = int.from_bytes(data[1:3], "little")
        found.append((data[0], data[3 : 3 + size]))
        data = data[3 + size :]
    return found


@unittest.skipUnless(_objects.OF_THIS_PYTHON, "these comparisons are with CPython 3.11")
class BesideCPython(unittest.TestCase):
    def test_cpython_makes_and_reads_both_forms_of_a_golden(self):
        results = [None, (1, 2.5, "x"), {"A212": "ZeroDivisionError"}, [1 << 80] * 3, b"\0" * 60_000]
        sources = ["A1 = 120", "def f(x):\n    return [x + y for y in range(x)]\nA = f(3)", "\n" * 300 + "B = 1 / 0"]
        for source in sources:
            for result in results:
                code = compile(source, "sheet", "exec")
                values = [marshal.dumps(code), marshal.dumps(result)]
                plain = b"".join(values)
                made = field(1, b"\x01") + field(2, values[0]) + field(3, values[1])
                self.assertEqual(sillgarland.golden_to_fields(plain), made)
                self.assertEqual(sillgarland.golden_from_fields(made), plain)
                (_, edition), (_, first), (_, second) = fields_of(sillgarland.golden_to_fields(plain))
                self.assertEqual((edition, marshal.loads(second)), (b"\x01", result))
                self.assertTrue(same(marshal.loads(first), code))
                self.assertTrue(same(sillgarland.read(made)[0].object(), code))
                self.assertEqual(sillgarland.read(made)[1].object(), result)

    def test_every_module_of_the_standard_library(self):
        paths = modules()
        with multiprocessing.Pool() as pool:
            answers = pool.map(differences, paths, chunksize=16)
        found = [line for _, lines in answers for line in lines]
        count = sum(1 for count, _ in answers if count)
        print(f"standard library: {count} modules, {sum(count for count, _ in answers)} code objects, {len(found)} differences")
        self.assertGreater(count, 400)
        self.assertEqual(found[:5], [])

    def test_every_kind_of_value(self):
        values = [
            None, True, False, ..., StopIteration, 0, -1, 2**31 - 1, -(2**31), 2**31, 2**63 - 1, -(2**63), 2**63, 10**400, -(10**400),
            1.5, -0.0, float("inf"), 2.5j, -1 - 0.0j, "", "a", "ä€😀", "\udc80", "x" * 300, b"", b"\0\xff" * 200, (), (1,), tuple(range(300)),
            [], [1, [2]], {}, {"a": [1], 2: {3: 4}}, {1, 2}, set(), frozenset("abc"), ("same", "same"),
        ]
        for value in [*values, values[:-4]]:
            ours = sillgarland.loads(marshal.dumps(value))
            self.assertTrue(same(ours, value), value)

    def test_every_span_that_stands_alone_loads_to_an_equal_object(self):
        values = [marshal.loads(data) for path in modules()[::40] if (data := marshalled(path)) is not None]
        shared = ["x" * 40, (1, "x" * 40), 2**70]
        values += [shared, [shared, (1, shared)], {"a": (1.5, "a"), "b": [b"x"] * 3}, frozenset(map(str, range(20)))]
        asked = alone = 0
        for value in values:
            root = sillgarland.read(marshal.dumps(value))[0]
            nodes = list(root.walk())
            for node in nodes[:: 1 + len(nodes) // 300]:
                found = node.alone()
                asked += 1
                if found is None:
                    continue
                alone += 1
                again = sillgarland.read(found)
                self.assertEqual((len(again), again[0].span), (1, (0, len(found))))
                theirs, ours = marshal.loads(found), node.object()
                self.assertTrue(same(theirs, ours) or theirs != theirs, (node, theirs, ours))
        self.assertTrue(0 < alone <= asked)
        print(f"{alone} of {asked} nodes stand alone, and CPython loads each to an equal object")

    def test_leaves_are_what_the_library_answers(self):
        values = [None, True, ..., StopIteration, 7, -7, 2**40, -(2**63), 2**70, 1.5, -2.5j]
        for value in sillgarland.read(marshal.dumps(values))[0].children():
            self.assertTrue(same(value.leaf(), value.object()), value)
        self.assertRaises(TypeError, sillgarland.read(b")\0")[0].leaf)

    def test_speed(self):
        inputs = [marshalled(path) for path in modules()[:40]]
        calls = (plain_reader.loads, sillgarland.read, sillgarland.loads)
        rounds = [[seconds(call, inputs) for call in calls] for _ in range(5)]
        plain, read, loads = map(min, zip(*rounds))
        size = sum(map(len, inputs)) / 1e6
        print(f"{size:.1f} MB: a reader in Python alone takes {plain / read:.0f} times as long as read, {plain / loads:.2f} times as long as loads")
        self.assertGreaterEqual(plain / read, 20)
        self.assertGreaterEqual(plain / loads, 1)


def seconds(call, inputs):
    """Of this process alone, so that others on the machine do not count."""
    gc.collect()
    begun = time.process_time()
    for data in inputs:
        call(data)
    return time.process_time() - begun
