"""Times read and loads beside marshal.loads and a reader in Python alone, over CPython's standard library; no test. Seconds of this process."""

import gc
import marshal
import os
import sys
from pathlib import Path

os.chdir(Path(__file__).resolve().parent.parent.parent)
sys.path[:0] = ["python", "python/tests"]

import plain_reader  # noqa: E402
import sillgarland  # noqa: E402
import test_cpython  # noqa: E402

ROUNDS = 3


def main():
    inputs = list(filter(None, map(test_cpython.marshalled, test_cpython.modules())))
    gc.disable()
    calls = {"a reader in Python alone": plain_reader.loads, "read": sillgarland.read, "loads": sillgarland.loads, "marshal.loads": marshal.loads}
    least = {name: min(test_cpython.seconds(call, inputs) for _ in range(ROUNDS)) for name, call in calls.items()}
    size = sum(map(len, inputs))
    print(f"{len(inputs)} modules, {size} bytes")
    for name, seconds in least.items():
        times = least["a reader in Python alone"] / seconds
        print(f"{name}: {seconds:.2f} s, {size / seconds / 1e6:.0f} MB/s, {times:.1f} times as fast as a reader in Python alone")


if __name__ == "__main__":
    main()
