#!/usr/bin/env python3
"""Compares the C library with the program on random hostile streams, dumps and tables.

    tests/hostile/library_trial.py FOLDER [COUNT [FIRST [PROGRAM]]]    FOLDER: the output directory of library/build.sh
                                                                       COUNT: the number of cases (default: 1,000)
                                                                       FIRST: the number of the first case

Each case depends only on its number, as in random_trial.py. The library lists and dumps a stream, reads its items, and encodes
its dump in each form, or it encodes a hostile dump in each form. The library's buffers are large in some cases and small in
others. Two cases are tried at a time. If a case fails, the exit status is 1. This trial is not part of the gate.
"""
import multiprocessing
import pathlib
import random
import sys
import tempfile

sys.path.insert(0, str(pathlib.Path(__file__).resolve().parent.parent))

import c_library
import random_trial
from lib import BUILT

import bufr_library


def try_case(number: int) -> list:
    """Tries the case with this number. Returns error messages."""
    c_library.wrongs.clear()
    rng = random.Random(f"library case {number}")
    kind = rng.choices(("stream", "text", "tables"), (60, 25, 15))[0]
    with tempfile.TemporaryDirectory(prefix="library-") as name:
        tables = c_library.SETS[0]
        if kind == "tables":
            piece = random_trial.some(rng)
            _, b, _, d = random_trial.tables_of(rng, random_trial.whole_text(piece), pathlib.Path(name))
            tables, octets = (pathlib.Path(b), pathlib.Path(d)), random_trial.whole_stream(piece)
        else:
            octets = random_trial.text_of(rng) if kind == "text" else random_trial.stream_of(rng)
        room = rng.choice((1 << 20, 4096, c_library.SMALL))
        of_library = bufr_library.Library(PATH, tables[0].read_bytes(), tables[1].read_bytes(), room)
        trial = c_library.try_text if kind == "text" else c_library.try_stream
        try:
            trial(f"case {number}, {kind}", octets, tables, of_library)
        except bufr_library.LibraryError as error:
            c_library.alike(f"case {number}: status", error.status, c_library.table_status(tables))
    return list(c_library.wrongs)


def main(words: list) -> None:
    count, first = (int(word) for word in (words[:2] + ["1000", "0"][len(words[:2]) :]))
    wrongs = 0
    with multiprocessing.Pool(2) as pool:
        for found in pool.imap_unordered(try_case, range(first, first + count), chunksize=20):
            wrongs += bool(found)
            for wrong in found:
                print(wrong, flush=True)
    print(f"{count:,} cases from {first} on: {wrongs} wrong")
    sys.exit(1 if wrongs else 0)


if __name__ == "__main__":
    if len(sys.argv) < 2:
        sys.exit(__doc__.strip())
    PATH = str(pathlib.Path(sys.argv[1]).resolve() / "libbufr.so")
    c_library.PROGRAM = random_trial.PROGRAM = str(pathlib.Path(sys.argv[4] if len(sys.argv) > 4 else BUILT).resolve())
    main(sys.argv[2:4])
