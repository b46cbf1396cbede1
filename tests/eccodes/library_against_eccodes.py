#!/usr/bin/env python3
"""Compares the values that the C library returns with those that ecCodes returns.

    tests/eccodes/library_against_eccodes.py FOLDER [FILE..]    FOLDER: the output directory of library/build.sh
                                                                FILE: a BUFR file (default: all files in examples/)

For each accepted message, the test compares the header fields that the library returns, and all items. If any of them
differ, the exit status is 1. This test needs ecCodes, and is not part of the gate.
"""
import collections
import json
import pathlib
import shutil
import sys
import tempfile

from against_eccodes import Different, Reading, compare, theirs
from lib import TABLES, TOP

sys.path.insert(0, str(TOP / "library/examples"))

import bufr_library

# The header fields of a message that the library returns, in the order of a dump's header. No field says whether the message
# contains section 2.
HEADER = """edition master centre subcentre update category subcategory local_subcategory master_version local_version year
month day hour minute second observed compressed subsets""".split()


def reading(row: bufr_library.Message, items: list, texts: bytes, section2: int) -> Reading:
    header = [getattr(row, name) for name in HEADER]
    subsets: list = [[] for _ in range(row.subsets)]
    for item in items:
        subsets[item.subset - 1].append(bufr_library.item_line(item, texts).decode("latin-1"))
    return Reading([*header[:-1], section2, header[-1]], [], subsets)


def main(folder: str, *names: str) -> None:
    table_b, table_d = (pathlib.Path(it).read_bytes() for it in TABLES[1::2])
    library = bufr_library.Library(str(pathlib.Path(folder) / "libbufr.so"), table_b, table_d)
    tally: collections.Counter = collections.Counter()
    with tempfile.TemporaryDirectory() as work:
        path = pathlib.Path(work) / "message.bufr"
        for name in names or sorted(map(str, TOP.glob("examples/*.bufr"))):
            stream = pathlib.Path(name).read_bytes()
            for items, texts, rows in library.parts(stream):
                for row in rows:
                    if row.fault:
                        tally["refused messages and strays"] += 1
                        continue
                    path.write_bytes(stream[row.offset : row.offset + row.length])
                    try:
                        foreign = theirs(path)
                        own = items[row.first : row.first + row.items]
                        compare(reading(row, own, texts, foreign.header[-2]), foreign, tally)
                        tally["messages alike"] += 1
                    except (Different, json.JSONDecodeError) as difference:
                        tally["messages that differ"] += 1
                        print(f"{name}, offset {row.offset}: {difference}", flush=True)
    print(", ".join(f"{tally[key]:,} {key}" for key in sorted(tally)))
    sys.exit(tally["messages that differ"] > 0 or not tally["messages alike"])


if __name__ == "__main__":
    if len(sys.argv) < 2:
        sys.exit(__doc__.strip())
    if shutil.which("bufr_dump") and shutil.which("bufr_filter"):
        main(*sys.argv[1:])
    print("skipped, because ecCodes' bufr_dump and bufr_filter are not on PATH")
