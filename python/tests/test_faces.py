"""What the package answers for goldens, damaged inputs, bare tables and totals."""

import ast
import importlib.util
import os
import pickle
import re
import subprocess
import sys
import tarfile
import tempfile
import threading
import unittest
import zipfile
from pathlib import Path

import sillgarland
from sillgarland import Refused, Totals, _library

ROOT = Path(__file__).resolve().parent.parent.parent
GOLDENS = ROOT / "goldens"


def golden(name):
    return (GOLDENS / f"{name}.golden").read_bytes()


def refused(call, *words):
    """Number, name and place of what a call refuses."""
    try:
        call(*words)
    except Refused as told:
        return told.number, told.name, told.place
    raise AssertionError("nothing was refused")


def forty_tuples():
    """A tuple of the empty one and forty more, each of the one before twice."""
    return b"(\x29\0\0\0\xa9\0" + b"".join(b"\xa9\x02r%c\0\0\0r%c\0\0\0" % (slot, slot) for slot in range(40))


class Reading(unittest.TestCase):
    def test_values_back_to_back(self):
        read = sillgarland.read(golden("rates"))
        self.assertEqual((len(read), read[0].kind, read[1].kind), (2, "code", "dict"))
        self.assertEqual(bytes(read.bytes()), golden("rates"))
        self.assertEqual([value.place for value in sillgarland.read(b"NTF")], [1, 2, 3])

    def test_both_forms_of_a_golden(self):
        read = sillgarland.read(golden("in-fields"))
        self.assertEqual([value.place for value in read], [8, 857])
        self.assertEqual([len(list(value.code_objects())) for value in read], [4, 0])
        self.assertEqual(sillgarland.golden_from_fields(golden("in-fields")), golden("fees"))
        self.assertEqual(sillgarland.check(GOLDENS / "in-fields-cut.golden").verdict, "NOT WHOLE")
        self.assertEqual(refused(sillgarland.golden_to_fields, b"N"), (1, "EofObject", 1))
        self.assertEqual(refused(sillgarland.golden_to_fields, b"NN"), (7, "BadType", 0))
        self.assertEqual(refused(sillgarland.golden_from_fields, b"\x01\x01\0\x02"), (23, "NoSuchField", 0))
        self.assertEqual(refused(sillgarland.read, golden("in-fields")[:-1]), (2, "DataTooShort", 853))
        self.assertEqual(refused(sillgarland.read, golden("in-fields") + b"\x04\0\0"), (23, "NoSuchField", 0))

    def test_many_small_values(self):
        self.assertEqual(len(sillgarland.read(b"N" * 20_000)), 20_000)

    def test_refusals_have_number_name_and_place(self):
        self.assertEqual(refused(sillgarland.read, b""), (1, "EofObject", 0))
        self.assertEqual(refused(sillgarland.read, b"NN)\x01"), (1, "EofObject", 4))
        self.assertEqual(refused(sillgarland.read, golden("damaged-text")), (9, "InvalidUtf8", 190))
        self.assertEqual(refused(sillgarland.loads, b"(\xff\xff\xff\xff"), (6, "BadSize", 1))
        self.assertEqual(refused(sillgarland.read, bytes(_library.MOST_BYTES + 1)), (14, "InputTooLong", 0))

    def test_a_refusal_is_a_sentence_and_travels(self):
        told = Refused(6, 1)
        self.assertEqual(str(told), "6 BadSize at 1: a length is expected here, and this one is negative")
        again = pickle.loads(pickle.dumps(told))
        self.assertEqual((again.number, again.place, str(again)), (6, 1, str(told)))

    def test_stores_grow_until_the_value_fits(self):
        for count in (0, 1, 15, 16, 17, 1_000, 100_000):
            data = b"[" + count.to_bytes(4, "little") + b"\xce" * count
            self.assertEqual(len(sillgarland.read(data)[0].children()), count)

    def test_the_deepest_nesting_in_a_thread(self):
        found = []
        thread = threading.Thread(target=lambda: found.append(sillgarland.loads(b")\x01" * 1_999 + b"N")))
        thread.start()
        thread.join()
        depth, value = 0, found[0]
        while value is not None:
            (value,), depth = value, depth + 1
        self.assertEqual(depth, 1_999)
        self.assertEqual(refused(sillgarland.loads, b")\x01" * 2_000 + b"N"), (10, "TooDeep", 4_000))

    def test_shared_values(self):
        read = sillgarland.read(forty_tuples())
        last = read[0].children()[-1]
        self.assertEqual(len(list(last.walk())), 41)
        built = sillgarland.loads(forty_tuples())
        self.assertIs(built[40][0], built[39])
        self.assertIs(built[40][1], built[39])

    def test_a_long_chain_of_references(self):
        count = 50_000
        links = b"".join(b"\xa9\x01r" + (at - 1).to_bytes(4, "little") for at in range(1, count))
        built = sillgarland.loads(b"[" + count.to_bytes(4, "little") + b"\xa9\0" + links)
        self.assertTrue(all(built[at][0] is built[at - 1] for at in range(1, count)))

    def test_canonical_bytes(self):
        value = sillgarland.read(b")\x02\xe9\x05\0\0\0r\0\0\0\0")[0]
        self.assertEqual(value.canonical(), b"(\x02\0\0\0i\x05\0\0\0i\x05\0\0\0")
        self.assertEqual(value.children()[0].canonical(), b"i\x05\0\0\0")
        once = sillgarland.read(golden("fees")).canonical()
        self.assertEqual(sillgarland.read(once).canonical(), once)
        self.assertEqual(refused(sillgarland.read(forty_tuples())[0].canonical), (17, "NoRoom", _library.MOST_BYTES))

    def test_spans(self):
        data = b"N)\x02\xe9\x05\0\0\0)\x02\xfa\x01ar\0\0\0\0"
        root = sillgarland.read(data)[1]
        self.assertEqual([value.span for value in root.walk()], [(1, 18), (3, 8), (8, 18), (10, 13)])
        self.assertEqual([value.alone() for value in root.walk()], [data[1:], data[3:8], None, data[10:13]])
        inner = sillgarland.read(b")\x02\xe9\x05\0\0\0\xa9\x02\xceR\x02\0\0\0".replace(b"R", b"r"))[0].children()[1]
        self.assertEqual(inner.alone(), b"\xa9\x02\xcer\x01\0\0\0")

    def test_no_copies(self):
        data = golden("rates")
        value = sillgarland.read(data)[0]
        self.assertIs(value.bytes().obj, data)
        records = value.locations().records
        self.assertEqual((records.format, records.shape, records.readonly), ("I", (45, 4), False))
        records[0, 0] = 7  # the library's own store
        self.assertEqual(records.tolist()[0][0], 7)


class Tables(unittest.TestCase):
    def test_the_cut_golden(self):
        cut, = sillgarland.read(golden("cut-line-table")).code_objects()
        whole, = sillgarland.read(golden("rates")).code_objects()
        self.assertEqual((cut.locations().whole, whole.locations().whole), (False, True))
        self.assertEqual((cut.locations().row(40), whole.locations().row(40)), (None, 212))
        self.assertEqual((cut.locations().last_row(), cut.locations()[40].line), (57, 1))
        salvaged = cut.salvaged()
        self.assertEqual((salvaged.kept, salvaged.covered, salvaged.shortened), (22, 12, False))
        self.assertTrue(sillgarland.locations(salvaged.table, cut.first_line, cut.instructions).whole)

    def test_a_goldens_code_objects_together(self):
        read = sillgarland.read(golden("fees"))
        self.assertEqual([found.whole for _, found in read.locations()], [True] * 4)
        self.assertEqual([found.sure for _, found in read.sources()], [20, 32, 20, 22])
        self.assertEqual([len(found) for _, found in read.handlers()], [len(code.handlers()) for code in read.code_objects()])
        self.assertEqual([found.frees for _, found in read.split()], [[], [], [1, 2], []])

    def test_bare_tables(self):
        self.assertEqual(refused(sillgarland.locations, b"\xe9\x02\xe8\x40\x40\x40\x40\x40\x3f", 10, 4), (18, "NumberRange", 2))
        self.assertEqual(len(sillgarland.locations(b"", 1, 0).records), 0)
        self.assertEqual(sillgarland.handlers(b""), [])
        self.assertEqual(refused(sillgarland.handlers, b"\x84\x03\x0a\x03\x04"), (19, "NoMarker", 4))
        self.assertEqual(refused(sillgarland.salvage, b"", 1, 2**32 - 1), (14, "InputTooLong", 0))

    def test_a_refused_table_stands_in_the_input(self):
        data = bytearray(golden("rates"))
        code = sillgarland.read(data)[0]
        place = code.part(8).place
        size = len(code.part(8).bytes())
        data[place : place + 7] = b"\xe8\x40\x40\x40\x40\x40\x3f"
        damaged = sillgarland.read(b"N" + bytes(data))[1]
        self.assertEqual(refused(damaged.locations), (18, "NumberRange", place + 1))
        self.assertEqual(refused(lambda: list(damaged.positions())), (18, "NumberRange", place + 1))
        self.assertGreater(size, 7)

    def test_check(self):
        verdicts = {path.stem: sillgarland.check(path).verdict for path in sorted(GOLDENS.glob("*.golden"))}
        others = dict.fromkeys(["deep", "fees", "in-fields", "rates", "result", "shared"], "accepted")
        cut = dict.fromkeys(["cut-line-table", "in-fields-cut"], "NOT WHOLE")
        self.assertEqual(verdicts, {**cut, "damaged-text": "refused", **others})
        fees = sillgarland.check(GOLDENS / "fees.golden")
        self.assertEqual((fees.values, fees.code_objects, fees.instructions, fees.not_sure), (2, 4, 102, 8))

    def test_check_tells_the_first_refusal(self):
        data = bytearray(golden("rates"))
        place = sillgarland.read(data)[0].part(8).place
        data[place : place + 7] = b"\xe8\x40\x40\x40\x40\x40\x3f"
        with tempfile.TemporaryDirectory() as folder:
            path = Path(folder, "damaged.golden")
            for behind in (b"", b"?"):
                path.write_bytes(bytes(data) + behind)
                told = sillgarland.check(path)
                self.assertEqual((told.verdict, told.refused.number, told.refused.place), ("refused", 18, place))
            path.write_bytes(golden("rates") + b"?")
            told = sillgarland.check(path)
            self.assertEqual((told.values, told.refused.number, told.refused.place), (2, 3, len(data)))
            path.write_bytes(b"")
            self.assertEqual(sillgarland.check(path).refused.number, 1)


class Counting(unittest.TestCase):
    def test_totals(self):
        paths = sorted(GOLDENS.glob("*.golden"))
        whole = sillgarland.totals(paths)
        self.assertEqual((whole.inputs, whole.accepted, whole.refused, whole.of(9)), (9, 8, 1, 1))
        self.assertEqual(sillgarland.totals(paths[:3]) + sillgarland.totals(paths[3:]), whole)
        self.assertEqual(pickle.loads(pickle.dumps(whole)), whole)
        self.assertEqual(str(whole).count("\n"), 29)

    def test_what_is_no_totals(self):
        text = str(Totals())
        for other in ("", text[:-1], text + "\n", text.replace("inputs 0", "inputs 00"), text.replace("inputs 0", "inputs -1")):
            self.assertRaises(ValueError, Totals.parse, other)

    def test_what_would_pass_64_bits_is_refused(self):
        full = Totals([2**64 - 1] * 29)
        self.assertEqual(refused(full.__add__, full), (18, "NumberRange", 0))
        self.assertEqual(len(str(full)), 910)


class Held(unittest.TestCase):
    """The package to the other pages of the repository."""

    def test_names_of_refusals(self):
        rows = re.findall(r"(?m)^\| (\d+) \| (\w+) \|", (ROOT / "docs/REFUSALS.md").read_text())
        self.assertEqual([(int(number), name) for number, name in rows],
                         [(number, sillgarland.name_of(number)) for number in range(1, len(rows) + 1)])

    def test_one_version(self):
        version = (ROOT / "VERSION").read_text().strip()
        project = (ROOT / "python/pyproject.toml").read_text()
        self.assertEqual((sillgarland.__version__, re.findall(r'(?m)^version = "(.*)"$', project)), (version, [version]))

    def test_the_header_has_the_same_limits_and_answers(self):
        header = (ROOT / "include/sillgarland.h").read_text()
        for name in ("MOST_BYTES", "MOST_RECORDS", "MOST_NESTING", "NOTHING", "COUNTERS"):
            self.assertIn(f"#define SILL_{name} {getattr(_library, name)}\n", header)
        plain = re.sub(r"/\*.*?\*/", "", header, flags=re.S)
        for answer in ("Read", "Leaf", "Span", "Written", "Located", "Sourced", "Exceptions", "Split", "Salvaged", "Totalled"):
            fields, = re.findall(r"typedef struct \{([^}]*)\} sill_%s_t;" % answer.lower(), plain)
            self.assertEqual([name for name, _ in getattr(_library, answer)._fields_], re.findall(r"(\w+);", fields))

    def test_the_header_has_the_same_parameters(self):
        header = re.sub(r"/\*.*?\*/", "", (ROOT / "include/sillgarland.h").read_text(), flags=re.S)
        sizes = {"uint32_t": "u", "int32_t": "i", "size_t": ""}
        for name, parameters in re.findall(r"\w+\s+(sill_\w+)\(([^)]*)\);", header):
            function = getattr(_library, name, None)
            if function is None:
                continue
            words = "".join("s" if "*" in word else sizes[word.split()[0]] for word in parameters.split(","))
            theirs = "".join({"c_void_p": "s", "c_ulong": "", "c_uint": "u", "c_int": "i"}[kind.__name__] for kind in function.argtypes)
            self.assertEqual(theirs, words, name)

    def test_the_sources_are_for_python_3_9(self):
        for path in [*ROOT.glob("python/sillgarland/*.py"), *ROOT.glob("python/build/*.py"), *ROOT.glob("python/examples/*.py")]:
            ast.parse(path.read_text(), str(path), feature_version=(3, 9))

    def test_what_is_built(self):
        spec = importlib.util.spec_from_file_location("backend", ROOT / "python/build/backend.py")
        backend = importlib.util.module_from_spec(spec)
        spec.loader.exec_module(backend)
        sources = {f"sillgarland/{path.name}" for path in (ROOT / "python/sillgarland").glob("*.py")}
        with tempfile.TemporaryDirectory() as folder:
            wheel = zipfile.ZipFile(Path(folder, backend.build_wheel(folder)))
            self.assertLessEqual(sources | {"sillgarland/libsillgarland.so", "sillgarland/py.typed"}, set(wheel.namelist()))
            self.assertEqual(wheel.read("sillgarland/libsillgarland.so"), (ROOT / "target/native/libsillgarland.so").read_bytes())
            with tarfile.open(Path(folder, backend.build_sdist(folder))) as archive:
                names = {"/".join(name.split("/")[1:]) for name in archive.getnames()}
            self.assertLessEqual(sources | {"pyproject.toml", "build/backend.py", "PKG-INFO"}, names)

    def test_the_folder_that_sill_lib_dir_names(self):
        def imported(folder):
            words = {**os.environ, "SILL_LIB_DIR": str(folder), "PYTHONPATH": str(ROOT / "python")}
            return subprocess.run([sys.executable, "-c", "import sillgarland"], env=words, capture_output=True, text=True)

        self.assertEqual(imported(ROOT / "target/native").returncode, 0)
        self.assertIn("ImportError: the shared library of sillgarland is not found: /nowhere/", imported("/nowhere").stderr)

    def test_other_interpreters_keep_code_objects_as_they_are(self):
        objects = sys.modules["sillgarland._objects"]
        before, objects.OF_THIS_PYTHON = objects.OF_THIS_PYTHON, False
        try:
            self.assertEqual(sillgarland.loads(golden("rates")).qualified_name, "<module>")
        finally:
            objects.OF_THIS_PYTHON = before

