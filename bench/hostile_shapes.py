#!/usr/bin/env python3
"""Times `bufr dump` (and, for one shape, `bufr encode`) on streams that take a lot of time or memory.

    bench/hostile_shapes.py [PROGRAM]        PROGRAM: the program to time (default: crates/bufr/out/bufr)

The script times each shape at three sizes: the base size, twice the base size and four times the base size. It prints a
table in Markdown, which measure.py also prints. A `!` marks each shape whose time grows more than 1.5 times as fast as its
size. The streams are in bench/out/shapes, together with their tables, which contain 12,000 elements and 15 sequences. This
benchmark needs Linux and GNU time, and is not part of the gate.
"""
import os
import subprocess
import sys

import generate  # finds tests/lib.py
from lib import BUILT, TOP, Bits, message

FOLDER = TOP / "bench/out/shapes"
ELEMENTS = [x << 8 | y for x in range(1, 64) if x != 31 for y in range(1, 256)][:12_000]
RUNS = 7


def operator(x: int, y: int) -> int:
    return 2 << 14 | x << 8 | y


def delayed(members: int) -> list:
    """Returns a delayed replication of the given number of members, with a 16-bit factor."""
    return [1 << 14 | members << 8, 31 << 8 | 2]


def tables() -> tuple:
    """Writes a Table B that contains 1-bit numbers and the replication factors, and a Table D in which each sequence consists
    of the next sequence twice. Returns the command-line options for both tables."""
    rows = [f"{f >> 14}{f >> 8 & 63:02}{f & 255:03},ELEMENT,K,0,0,1" for f in ELEMENTS]
    rows += ["031000,SHORT FACTOR,NUMERIC,0,0,1", "031001,FACTOR,NUMERIC,0,0,8", "031002,LONG FACTOR,NUMERIC,0,0,16"]
    (FOLDER / "B.csv").write_text("fxy,name,unit,scale,reference,width\n" + "\n".join(rows) + "\n")
    members = [f"3600{n:02},{f'3600{n + 1:02}' if n < 15 else '001001'}" for n in range(1, 16) for _ in range(2)]
    (FOLDER / "D.csv").write_text("fxy,member\n" + "\n".join(members) + "\n")
    return "-B", str(FOLDER / "B.csv"), "-D", str(FOLDER / "D.csv")


def listed(descriptors: list, data: bytes, subsets: int = 1, flags: int = 0x80) -> bytes:
    return message(data, b"".join(d.to_bytes(2, "big") for d in descriptors), subsets, flags)


def references(times: int) -> bytes:
    """2,000 redefined reference values, then 45,000 items that use three of them"""
    elements = ELEMENTS[: 2_000 * times]
    group = [elements[0], elements[len(elements) // 2], elements[-1]]
    bits = Bits()
    for _ in elements:
        bits.put(1, 2)
    bits.put(15_000 * times, 16)
    for _ in range(15_000 * times * len(group)):
        bits.put(0, 1)
    return listed([operator(3, 2), *elements, operator(3, 255), *delayed(len(group)), *group], bits.octets())


def redefinitions(times: int) -> bytes:
    """2,000 redefined reference values, then 60 of them redefined again, 600 times each"""
    elements = ELEMENTS[: 2_000 * times]
    body = [operator(3, 2), *elements[:60], operator(3, 255)]
    bits = Bits()
    for _ in elements:
        bits.put(1, 2)
    bits.put(600 * times, 16)
    for _ in range(600 * times * 60):
        bits.put(1, 2)
    return listed([operator(3, 2), *elements, operator(3, 255), *delayed(len(body)), *body], bits.octets())


def subsets(times: int) -> bytes:
    """16,000 subsets that each redefine one reference value"""
    bits = Bits()
    for _ in range(16_000 * times):
        bits.put(1, 2)
    return listed([operator(3, 2), ELEMENTS[0], operator(3, 255)], bits.octets(), 16_000 * times)


def dropped(times: int) -> bytes:
    """50,000 reference values that are redefined and cancelled, 50 at a time"""
    body = [operator(3, 2), *ELEMENTS[:50], operator(3, 255), operator(3, 0)]
    bits = Bits()
    bits.put(1_000 * times, 16)
    for _ in range(1_000 * times * 50):
        bits.put(1, 2)
    return listed([*delayed(len(body)), *body], bits.octets())


def items(times: int) -> bytes:
    """300,000 items of 1 bit"""
    bits = Bits()
    bits.put(15_000 * times, 16)
    for _ in range(15_000 * times * 20):
        bits.put(0, 1)
    return listed([*delayed(20), *ELEMENTS[:20]], bits.octets())


def template(times: int) -> bytes:
    """9,000 descriptors, one third of which are elements"""
    descriptors = [d for e in ELEMENTS[: 3_000 * times] for d in (operator(1, 130), e, operator(1, 0))]
    bits = Bits()
    for _ in range(3_000 * times):
        bits.put(0, 3)
    return listed(descriptors, bits.octets())


def expanded(times: int) -> bytes:
    """100 messages of 47 octets without subsets, each with one descriptor that expands to 32,768 elements"""
    return listed([3 << 14 | 60 << 8 | 1], b"", 0) * (100 * times)


def together(times: int) -> bytes:
    """one compressed subset with 300,000 items of 7 bits each"""
    bits = Bits()
    bits.put(15_000 * times, 16)
    bits.put(0, 6)
    for _ in range(15_000 * times * 20):
        bits.put(0, 7)
    return listed([*delayed(20), *ELEMENTS[:20]], bits.octets(), 1, 0xC0)


# the header of a dump, one key per line
HEADER = """edition 4
master 0
centre 98
subcentre 0
update 0
category 0
subcategory 0
localsubcategory 0
masterversion 14
localversion 0
year 2024
month 1
day 2
hour 3
minute 4
second 5
observed 1
compressed 0
optional 0
subsets 0
"""


def encoded(times: int) -> bytes:
    """encoding 100 dumps without subsets, each with one descriptor that expands to 32,768 elements"""
    return f"message\n{HEADER}descriptors 360001\nend\n".encode() * (100 * times)


SHAPES = (references, redefinitions, subsets, dropped, items, template, expanded, encoded, together)


def measured(words: list) -> tuple:
    """Returns the lowest CPU time in RUNS runs, in seconds, and the peak resident memory of one more run, in KiB."""
    seconds = []
    for _ in range(RUNS):
        child = subprocess.Popen(words, stdout=subprocess.DEVNULL)
        _, status, usage = os.wait4(child.pid, 0)
        assert status == 0, words
        seconds.append(usage.ru_utime + usage.ru_stime)
    resident = FOLDER / "resident"
    subprocess.run(["/usr/bin/env", "time", "-q", "-f", "%M", "-o", str(resident), *words], stdout=subprocess.DEVNULL)
    return min(seconds), int(resident.read_text())


def row(program: str, words: tuple, shape) -> str:
    """Returns a row of the table: the description of a shape, and the time and memory that `bufr` needs at each size."""
    octets, seconds, resident = [], [], []
    for times in (1, 2, 4):
        path = FOLDER / f"{shape.__name__}_{times}.bufr"
        if not path.exists():
            path.write_bytes(shape(times))
        command = "encode" if shape is encoded else "dump"
        least, kib = measured([program, command, *words, str(path)])
        octets.append(path.stat().st_size)
        seconds.append(least)
        resident.append(kib)
    grows = any(seconds[i] / seconds[0] > 1.5 * octets[i] / octets[0] for i in (1, 2))
    cells = " | ".join(f"{least:.3f}" for least in seconds)
    return f"| {shape.__doc__} | {octets[0]:,} | {cells}{' !' * grows} | {resident[0]:,} | {resident[2]:,} |"


def table(program: str) -> None:
    """Prints the table."""
    FOLDER.mkdir(parents=True, exist_ok=True)
    words = tables()
    print("| stream, once | octets | once | twice | four times | KiB, once | KiB, four times |")
    print("|---|---|---|---|---|---|---|")
    for shape in SHAPES:
        print(row(program, words, shape), flush=True)


if __name__ == "__main__":
    table(sys.argv[1] if len(sys.argv) > 1 else str(BUILT))
