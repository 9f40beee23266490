"""Sessions: parts kept and more read behind them, against each value read alone and against CPython."""

import marshal
import random
import unittest
from pathlib import Path

import sillgarland
from sillgarland import Refused, Session

GOLDENS = Path(__file__).resolve().parent.parent.parent / "goldens"


def made(source, depth=4):
    """A value that marshal takes, with some of its parts shared."""
    leaves = [None, True, ..., source.randrange(-(2**70), 2**70), source.random(), b"bytes", "text", "\udc80", 2 + 1j]
    pool = [source.choice(leaves) for _ in range(6)]
    for _ in range(source.randrange(1, 4**depth // 8)):
        parts = source.choices(pool, k=source.randrange(4))
        kind = source.choice([tuple, list, lambda parts: {f"key {at}": part for at, part in enumerate(parts)}])
        pool.append(kind(parts))
    return tuple(pool[6:])


class Sessions(unittest.TestCase):
    def alike(self, value, data):
        """The value has in every way what it has where it is read alone."""
        alone = sillgarland.read(data)[0]
        self.assertEqual(value.canonical(), alone.canonical())
        self.assertEqual(repr(value.object()), repr(alone.object()))
        for one, other in zip(value.walk(), alone.walk()):
            self.assertEqual((one.letter, one.place, one.span, one.alone()), (other.letter, other.place, other.span, other.alone()))
            self.assertEqual(bytes(one.bytes()), bytes(other.bytes()))

    def test_random_sessions(self):
        source, moves = random.Random(11), 0
        for _ in range(25):
            session, held = Session(), []
            for _ in range(12):
                if held and source.random() < 0.4:
                    value, data = source.choice(held)
                    if source.random() < 0.5 and list(value.children()):
                        value = source.choice(value.children())
                        data = value.canonical()
                    kept = session.keep(value)
                    self.assertEqual(kept.canonical(), sillgarland.read(data)[0].canonical())
                    self.assertEqual(repr(kept.object()), repr(value.object()))
                    held, moves = [(kept, data)], moves + 1
                else:
                    data = marshal.dumps(made(source), source.randrange(2, 5))
                    more = session.read_more(data)
                    self.alike(more, data)
                    held.append((more, data))
                for value, data in held:
                    self.assertEqual(value.canonical(), sillgarland.read(data)[0].canonical())
        self.assertGreater(moves, 80)

    def test_code_objects(self):
        session = Session()
        data = (GOLDENS / "fees.golden").read_bytes()
        code = session.read(data)
        inner = list(code.code_objects())[2]
        wanted = [place for place in inner.positions()], inner.handlers(), inner.split(), inner.local_names()
        kept = session.keep(inner)
        session.read_more(b"[\x02\0\0\0NT")
        self.assertEqual(([place for place in kept.positions()], kept.handlers(), kept.split(), kept.local_names()), wanted)

    def test_refused(self):
        session = Session()
        first = session.read(b")\x02\xe9\x05\0\0\0r\0\0\0\0")
        for data, number in ((b"", 1), (b"r\0\0\0\0", 5), (b")\x02Tu\x09\0\0\0a", 2), (b"\x00", 3)):
            with self.assertRaises(Refused) as told:
                session.read_more(data)
            self.assertEqual(told.exception.number, number)
            self.alike(first, b")\x02\xe9\x05\0\0\0r\0\0\0\0")
        kept = session.keep(first)
        self.assertEqual((kept.object(), session.used), ((5, 5), (2, 2)))
        with self.assertRaises(ValueError):
            session.keep(first)
        with self.assertRaises(ValueError):
            Session().keep(kept)
        with self.assertRaises(ValueError):
            session.keep(sillgarland.read(b"N")[0])
        self.assertEqual(first.object(), (5, 5))

    def test_stores_grow_behind_what_is_kept(self):
        session = Session()
        kept = session.read(b")\x01N")
        for size in (0, 1, 15, 16, 17, 1_000, 100_000):
            more = session.read_more(b"[" + size.to_bytes(4, "little") + b"\xd4" * size)
            self.assertEqual(len(more.children()), size)
        self.assertEqual((kept.object(), session.used[0]), ((None,), 101_058))
        most = session.read(b"[" + (2**20 - 1).to_bytes(4, "little") + b"N" * (2**20 - 1))
        with self.assertRaises(Refused) as told:
            session.read_more(b"N")
        self.assertEqual((told.exception.number, told.exception.place), (11, 0))
        self.assertEqual(session.keep(most.children()[-1]).object(), None)
        self.assertEqual(session.read_more(b"T").object(), True)

    def test_nesting(self):
        deep = b")\x01" * 1_999 + b"N"
        session = Session()
        kept = session.keep(session.read(deep))
        self.assertEqual(session.read_more(deep).canonical(), kept.canonical())
        with self.assertRaises(Refused) as told:
            Session(nesting=1).read(b")\x01N")
        self.assertEqual((told.exception.number, told.exception.place), (10, 2))
