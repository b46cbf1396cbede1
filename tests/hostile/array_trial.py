#!/usr/bin/env python3
"""Compares the module `bufr` with bufr_text on random hostile streams.

    tests/hostile/array_trial.py FOLDER [COUNT [FIRST [PROGRAM]]]    FOLDER: the directory that library/build.sh filled
                                                                     COUNT: the number of streams (default: 1,000)
                                                                     FIRST: the number of the first stream

Each stream depends only on its number, as in random_trial.py. Every tenth stream is read with the tables that each message
needs, and the others with the tables in wmo-39. `differences` in tests/bufr_module.py makes the comparison. Two streams are
compared at a time. If the modules differ on a stream, the exit status is 1. This trial needs NumPy and pandas, and is not part
of the gate.
"""
import multiprocessing
import os
import pathlib
import random
import sys
import tempfile

sys.path.insert(0, str(pathlib.Path(__file__).resolve().parent.parent))

import lib

if __name__ == "__main__":
    if len(sys.argv) < 2:
        sys.exit(__doc__.strip())
    lib.use_python_with("numpy", "pandas")
    os.environ["BUFR_LIBRARY"] = str(pathlib.Path(sys.argv[1]).resolve() / "libbufr.so.0")

import bufr_module
import random_trial


def try_stream(number: int) -> list:
    """Returns the differences between the two modules on the stream with this number."""
    rng = random.Random(f"array stream {number}")
    with tempfile.TemporaryDirectory(prefix="arrays-") as folder:
        path = pathlib.Path(folder) / "stream"
        path.write_bytes(random_trial.stream_of(rng))
        tables = () if number % 10 == 0 else bufr_module.TABLES
        return [f"stream {number}: {difference}" for difference in bufr_module.differences(path, tables, rng)]


def main(words: list) -> None:
    count, first = (int(word) for word in (words[:2] + ["1000", "0"][len(words[:2]) :]))
    wrongs = 0
    with multiprocessing.Pool(2) as pool:
        for found in pool.imap_unordered(try_stream, range(first, first + count), chunksize=20):
            wrongs += bool(found)
            for wrong in found:
                print(wrong, flush=True)
    print(f"{count:,} streams from {first} on: {wrongs} wrong")
    sys.exit(1 if wrongs else 0)


if __name__ == "__main__":
    os.environ["BUFR"] = random_trial.PROGRAM = str(pathlib.Path(sys.argv[4] if len(sys.argv) > 4 else lib.BUILT).resolve())
    main(sys.argv[2:4])
