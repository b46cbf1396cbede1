#!/usr/bin/env python3
"""Compares the values that the module `bufr` returns with those that ecCodes returns.

    tests/eccodes/arrays_against_eccodes.py [FILE..]    FILE: a BUFR file (default: all files in examples/)

For each accepted message, the test compares the header and all items in the result of `bufr.items`. If any of them differ,
the exit status is 1. The variable BUFR_LIBRARY names the C library. This test needs NumPy and ecCodes, and is not part
of the gate.
"""
import collections
import json
import pathlib
import shutil
import sys
import tempfile

sys.path.insert(0, str(pathlib.Path(__file__).resolve().parent.parent))

import lib

if __name__ == "__main__":
    lib.use_python_with("numpy")
sys.path.insert(0, str(lib.TOP / "scripts"))

# Import these before against_eccodes, which puts tests/ first on the path: tests/ contains another bufr_auto.py.
import bufr
import bufr_text
from against_eccodes import Different, Reading, compare, theirs


def subsets_of(found: bufr.Items) -> list:
    """Returns the lines of the items, without names and units, for each subset of each message."""
    subsets: list = [[[] for _ in range(row["subsets"])] for row in found.messages]
    for index, row in enumerate(found.items):
        item = bufr_text.Item(f"{row['fxy']:06}", found.exact(index), reference=row["kind"] == bufr.REFERENCE)
        subsets[row["message_row"]][row["subset"] - 1].append(bufr_text._line_of(item).decode("latin-1"))
    return subsets


def main(*names: str) -> None:
    tally: collections.Counter = collections.Counter()
    with tempfile.TemporaryDirectory() as work:
        path = pathlib.Path(work) / "message.bufr"
        for name in names or sorted(map(str, lib.TOP.glob("examples/*.bufr"))):
            stream = pathlib.Path(name).read_bytes()
            found = bufr.items(stream, tables=tuple(lib.TABLES[1::2]), faults="ignore")
            for row, subsets in zip(found.messages, subsets_of(found)):
                if row["fault"]:
                    tally["refused messages and strays"] += 1
                    continue
                path.write_bytes(stream[row["offset"] :][: row["length"]])
                try:
                    foreign = theirs(path)
                    header = [int(row[key]) for key in bufr_text.HEADER]
                    ours = Reading([*header, foreign.header[-2], int(row["subsets"])], [], subsets)
                    compare(ours, foreign, tally)
                    tally["messages alike"] += 1
                except (Different, json.JSONDecodeError) as difference:
                    tally["messages that differ"] += 1
                    print(f"{name}, offset {row['offset']}: {difference}", flush=True)
    print(", ".join(f"{tally[key]:,} {key}" for key in sorted(tally)))
    sys.exit(tally["messages that differ"] > 0 or not tally["messages alike"])


if __name__ == "__main__":
    if shutil.which("bufr_dump") and shutil.which("bufr_filter"):
        main(*sys.argv[1:])
    print("skipped, because ecCodes' bufr_dump and bufr_filter are not on PATH")
