"""A night's goldens for the browser's tests: sound ones, one of each damage, and files whose names and contents are hostile."""

import os
from pathlib import Path

SAMPLES = Path(__file__).resolve().parents[2] / "goldens"
MARKUP = "</script><script>alert(1)</script><img src=x onerror=alert(1)><b>'\"&\u202e\u2066"


def counted(letter, contents):
    return letter + len(contents).to_bytes(4, "little") + contents


def text(letters):
    return counted(b"u", letters.encode("utf-8", "surrogatepass"))


def code(instructions, first_line, table, exceptions=b"", name="total", constants=()):
    """A code object whose instructions all are the same; its constants are marshalled already."""
    parts = [b"c", bytes(20), counted(b"s", b"\x09\x00" * instructions)]
    parts += [b"(", len(constants).to_bytes(4, "little"), *constants, b")\0)\0", counted(b"s", b"")]
    parts += [text("rates.py"), text(name), text(name), first_line.to_bytes(4, "little", signed=True)]
    return b"".join([*parts, counted(b"s", table), counted(b"s", exceptions)])


def damaged():
    """Files that are not accepted, by their names."""
    ends_early, refused = b"\xe9\x02", b"\xe9\x02\xe8" + b"\x40" * 5 + b"\x3f"
    # Columns, a line alone, a line below 1, no place, and an entry that is cut; two instructions are left over.
    all_origins = b"\x83\x12" + b"\xe9\x02" + b"\xe8\x29" + b"\xf9" + b"\xe8"
    inner = code(6, 20, ends_early, name="total.<locals>.tax")
    handlers = bytes([0x80, 0x02, 0x05, 0x02, 0x82, 0x01, 0x06, 0x03])
    return {
        "q1/fees.golden": code(12, 10, all_origins, handlers),
        "q1/nested.golden": code(4, 10, b"\xeb\x02", constants=[inner, b"N", inner.replace(b"tax", b"net")]),
        "q1/rates.golden": (SAMPLES / "cut-line-table.golden").read_bytes(),
        "q2/number.golden": code(4, 10, refused),
        "q2/handlers.golden": code(4, 10, b"\xeb\x02", b"\x04"),
        "q2/text.golden": (SAMPLES / "damaged-text.golden").read_bytes(),
        "q2/letter.golden": b"N{" + text("rows") + b"[\x02\0\0\0N?",
        "q3/cut.golden": (SAMPLES / "rates.golden").read_bytes()[:200],
        "q3/empty.golden": b"",
        "q3/trailing.golden": b"N\n",
        "q3/reference.golden": b")\x02\xcer\x07\0\0\0",
        "q3/readme.golden": b"these are the goldens of the third quarter",
        "q4/many.golden": b"(\x14\0\0\0" + code(3, 5, ends_early) * 20,
        "q4/long.golden": code(4100, 10, b"\xe8\x02\xf8" * 2000),
    }


def hostile():
    name = MARKUP.replace("/", "|")
    return {
        os.fsencode(f"q4/{name}.golden"): code(3, 5, b"\xe9\x02", name="\0" + MARKUP),
        b"q4/line\nbreak\x7f.golden": b"{" + text("\udc80<script>alert(1)</script>") + b")\x01?",
        b"q4/\xff\xfe.golden": b"<svg onload=alert(1)>" + bytes(8),
        os.fsencode("q4/\u05e9\u05dc\u05d5\u05dd\u202e.golden"): code(3, 5, b"\xe9\x02", name="\u202eevil\u2066"),
    }


def make(folder, sound=150):
    """Fills a folder, and says how many files it has."""
    samples = [SAMPLES / name for name in ("fees.golden", "rates.golden", "result.golden", "shared.golden")]
    files = {os.fsencode(name): contents for name, contents in damaged().items()}
    files |= hostile()
    for at in range(sound):
        sample = samples[at % len(samples)]
        files[os.fsencode(f"q{at % 4 + 1}/sound-{at:04}.golden")] = sample.read_bytes()
    for name, contents in files.items():
        path = os.fsencode(folder) + b"/" + name
        os.makedirs(os.path.dirname(path), exist_ok=True)
        with open(path, "wb") as out:
            out.write(contents)
    os.symlink("nowhere", folder / "q3/lost.golden")
    return len(files) + 1
