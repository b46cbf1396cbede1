#!/usr/bin/env python3
"""Checks that the memory use of the functions in scripts/bufr_text.py depends only on the longest message.

    tests/bufr_text_memory.py [PROGRAM]

A function may use 48 MB, plus 1 KB for each item in the longest message, plus twice the length of that message's dump;
`encode` may also use memory for its result. The streams contain many messages, long messages, messages whose dumps are
thousands of times as long as the messages themselves, and faults.
"""
import os
import pathlib
import re
import subprocess
import sys
import tempfile

import lib
from lib import TABLES, TOP, finish

MOST = 48_000
BEGIN = "import itertools, sys; sys.path.insert(0, sys.argv[1]); from bufr_text import *; file, *tables = sys.argv[2:]"
CALLS = {
    "dump": "for message in dump(file, *tables): pass",
    "three messages of dump": "for message in itertools.islice(dump(file, *tables), 3): pass",
    "rows": "for row in rows(dump(file, *tables), ['012101', '205255'], ['year']): pass",
    "where": "for message in dump(file, *tables, where=['subsets=1', 'length!=50']): pass",
    "listing": "for place in listing(file): pass",
    "encode": "[one] = dump(file, *tables); octets = encode(itertools.repeat(one, 100), *tables)",
}


def packed(subsets: int, elements: int = 20) -> bytes:
    """Returns a short message with a long dump: its compressed values are the same in every subset."""
    bits = lib.Bits()
    for _ in range(elements):
        bits.put(28_550, 16)
        bits.put(0, 6)
    return lib.message(bits.octets(), lib.words("012101 " * elements), subsets, 0xC0)


def texts(count: int) -> bytes:
    """Returns a message with `count` strings of 255 bytes each."""
    return lib.message(b"A" * 255 * count, lib.words("205255 " * count))


def used(call: str, path: pathlib.Path) -> int:
    """Returns the peak memory of a call on a stream, in kilobytes, or 0 if the call failed."""
    code = [BEGIN, CALLS[call], "print(open('/proc/self/status').read())"]
    words = [sys.executable, "-W", "ignore", "-c", "\n".join(code), TOP / "scripts", path, *TABLES[1::2]]
    done = subprocess.run(words, stdout=subprocess.PIPE, stderr=subprocess.DEVNULL, text=True)
    found = re.search(r"^VmHWM:\s+(\d+) kB$", done.stdout, re.M)
    return int(found[1]) if found else 0


def main() -> None:
    os.environ["BUFR"] = lib.program()
    small, unknown = lib.message(b"\x14"), lib.message(b"\x14", b"\x3f\xff")
    wrongs = []
    # each row: the name, the bytes to repeat, the number of repetitions, the items in the longest message, the bytes per dump
    # line, and the calls to measure
    streams = [
        ("small messages", small, 20_000, 1, 50, ["listing", "where"]),
        ("faults", b"BUFR\0\0\1" * 100 + small, 2_000, 1, 50, ["dump", "listing"]),
        ("refused messages", unknown, 60_000, 0, 0, ["dump"]),
        ("messages of 16 MB", lib.message(b"\x14" + bytes(16_700_000)), 3, 1, 50, ["dump"]),
        ("long dumps", packed(1000), 100, 20_000, 50, ["three messages of dump"]),
        ("a long message", packed(1) + packed(3000) + packed(1), 1, 60_000, 50, ["rows"]),
        ("texts", texts(1000), 1, 1000, 265, ["encode"]),
    ]
    with tempfile.TemporaryDirectory() as place:
        path = pathlib.Path(place) / "stream"
        for name, piece, count, items, width, calls in streams:
            path.write_bytes(piece * count)
            for call in calls:
                memory = used(call, path)
                most = MOST + items + 2 * items * width // 1000 + (100 * len(piece) // 1000 if call == "encode" else 0)
                print(f"bufr_text_memory: {call} of {name}: {memory // 1000} MB, at most {most // 1000}")
                wrongs += [f"{call} of {name}: {memory} KB"] * (not 0 < memory < most)
    finish(wrongs)


if __name__ == "__main__":
    main()
