#!/usr/bin/env python3
"""Counts a night's goldens over many machines with dask.distributed, and prints the lines that `sill totals` prints in one process.

    nightly.py [--scheduler ADDRESS] [--at-once N] PATH..

PATH is a file or a folder, with every file in it and below it. Files go out in parts of N; each part is counted where a worker is free, and
totals are added two by two (sill_add_totals). A part that is lost with its worker is counted again elsewhere: totals are values, and
counting a part twice gives the same ones, so the sum is exact. Without a scheduler's address, two workers are started here."""

import argparse
import sys
from pathlib import Path
from typing import Iterator, List

import sillgarland


def found(paths: List[str]) -> List[str]:
    """The files that paths lead to, as `sill totals` finds them: those of a folder by name, but for names that begin with a dot."""
    files: List[str] = []
    for path in map(Path, paths):
        below = (file for file in path.rglob("*") if file.is_file()) if path.is_dir() else iter([path])
        shown = (file for file in below if not any(part.startswith(".") for part in file.relative_to(path).parts))
        files += sorted(map(str, shown))
    return files


def parts(files: List[str], at_once: int) -> Iterator[List[str]]:
    return (files[at : at + at_once] for at in range(0, len(files), at_once))


def added(one: sillgarland.Totals, other: sillgarland.Totals) -> sillgarland.Totals:
    return one + other


def counted(client, files: List[str], at_once: int):
    """The totals of all files, as a future: each part's totals, then sums of two until one is left."""
    totals = client.map(sillgarland.totals, list(parts(files, at_once)), pure=False)
    totals = totals or [client.submit(sillgarland.Totals, pure=False)]
    while len(totals) > 1:
        pairs = [client.submit(added, one, other, pure=False) for one, other in zip(totals[::2], totals[1::2])]
        totals = pairs + totals[len(totals) - len(totals) % 2 :]
    return totals[0]


def main() -> None:
    parser = argparse.ArgumentParser(description=__doc__.split("\n")[0])
    parser.add_argument("--scheduler", metavar="ADDRESS", help="of a cluster that is there; else two workers are started here")
    parser.add_argument("--at-once", type=int, default=256, metavar="N", help="files a part (256)")
    parser.add_argument("paths", nargs="+", metavar="PATH")
    words = parser.parse_args()
    from dask.distributed import Client

    workers = {"address": words.scheduler} if words.scheduler else {"n_workers": 2, "threads_per_worker": 1, "dashboard_address": None}
    with Client(**workers) as client:
        sys.stdout.write(str(counted(client, found(words.paths), words.at_once).result()))


if __name__ == "__main__":
    main()
