#!/usr/bin/env python3
"""Compares `bufr dump` and `bufr encode` with ecCodes, value by value.

    tests/eccodes/against_eccodes.py [COUNT [FIRST]]    COUNT random messages (default: 1,000), starting with number FIRST
    tests/eccodes/against_eccodes.py FILE..             the messages in these files
    tests/eccodes/against_eccodes.py --differences      small messages that `bufr` and ecCodes are known to read differently

random_messages.py generates each message, along with the lines that its dump should contain. These lines are compared with
the output of `bufr dump` and with what ecCodes reads: `bufr_dump -jf` provides descriptors, strings and scales, and
`bufr_filter` provides the sections, and numbers with all digits of a double. `bufr encode` then converts the dump back to a
message, in which ecCodes must read the same values. For messages in files, there are no expected lines to compare with.

If a message differs, it is saved in tests/out/eccodes, the first difference is printed, and the exit status is 1. With
--differences, the exit status is 1 if both programs read a message the same way. To test a program other than the one that
was built, set PROGRAM to its path. This test needs ecCodes, and is not part of the gate.
"""
import collections
import json
import os
import pathlib
import shutil
import subprocess
import sys
from fractions import Fraction
from typing import NamedTuple

TESTS = pathlib.Path(__file__).resolve().parent.parent
sys.path[:0] = [str(TESTS), str(TESTS / "hostile")]

import random_messages
from lib import BUILT, TABLES, Bits, message, words

PROGRAM = os.environ.get("PROGRAM", str(BUILT))
KEPT = TESTS / "out/eccodes"

# ecCodes' keys for the header lines of a dump, in the same order.
KEYS = """edition masterTableNumber bufrHeaderCentre bufrHeaderSubCentre updateSequenceNumber dataCategory
internationalDataSubCategory dataSubCategory masterTablesVersionNumber localTablesVersionNumber typicalYear
typicalMonth typicalDay typicalHour typicalMinute typicalSecond observedData compressedData section2Present
numberOfSubsets""".split()
# The keys that are different in edition 3. Fields that edition 3 does not have are 0 in a dump.
KEYS_3 = {
    "internationalDataSubCategory": "[dataSubCategory]",
    "dataSubCategory": "0",
    "typicalYear": "[typicalYearOfCentury]",
    "typicalSecond": "0",
}
MISSING = -1e100

# Messages that `bufr` and ecCodes are known to read differently. Each row says what ecCodes 2.28 does, and gives the number of
# subsets, the flags, the descriptors, and the data as NUMBER:WIDTH. In the first thirteen, `bufr` follows a choice that
# docs/format.md describes; the last eight are limits of ecCodes. random_messages.py generates none of these messages.
DIFFERENCES = """
applies 2 01 to replication factors | 1 | 80 | 201132 101000 031001 001001 | 2:8 10:11 11:11
applies 2 02 to replication factors | 1 | 80 | 202130 101000 031001 001001 | 2:8 10:7 11:7
ignores 2 02 if 2 07 follows | 1 | 80 | 202129 207001 012101 | 1:20
does not apply 2 07 to a redefined reference value | 1 | 80 | 203010 012101 203255 207001 012101 | 5:10 1:20
drops redefined reference values when 2 03 redefines others | 1 | 80 | 203010 012101 203255 203010 001001 203255 012101 | 5:10 3:10 1:16
uses the first reference value if 2 03 redefines an element twice | 1 | 80 | 203010 101002 012101 203255 012101 | 5:10 6:10 1:16
does not read the six bits after a redefined reference value in compressed data | 2 | C0 | 203010 012101 203255 012101 | 5:10 0:6 1:16 0:6
ignores the scale of an element after 2 06 | 1 | 80 | 012101 206016 012101 | 1:16 2:16
reads 1 in a one-bit field as a number | 1 | 80 | 012101 201113 012101 | 3:16 1:1
reads all ones as missing in class 31 | 1 | 80 | 012101 031012 | 3:16 65535:16
reads R0 plus an increment as a number if the sum is all ones | 2 | C0 | 001001 | 126:7 2:6 0:2 1:2
adds increments to R0 if R0 is all ones | 2 | C0 | 001001 | 127:7 2:6 0:2 1:2
rejects a compressed replication factor with equal increments | 2 | C0 | 101000 031001 001001 | 1:8 1:6 0:1 0:1 5:7 0:6
returns nothing for a message without subsets | 0 | 80 | 012101 | 0:8
stops early after an empty delayed replication inside two others | 1 | 80 | 105000 031001 103000 031001 101000 031001 001001 | 2:8 1:8 0:8 0:8
cancels operators at the end of each repetition | 1 | 80 | 103000 031001 012101 201130 012101 | 2:8 2:16 3:18 4:18 5:18
applies operators inside a replication with factor 0 | 1 | 80 | 102000 031001 201130 012101 012101 012101 | 0:8 1:16 2:16
rejects a delayed replication of 100 elements | 1 | 80 | 102000 031001 101100 001001 001001 | 0:8 1:7
uses 32-bit arithmetic for sums in compressed data | 2 | C0 | 201144 012101 | 3000000000:32 2:6 0:2 1:2
uses 32-bit arithmetic for reference values | 1 | 80 | 207003 005001 | 1:35
truncates some numbers longer than 57 bits | 1 | 80 | 001001 201170 012101 | 1:7 288230376151711743:58
"""


class Different(Exception):
    """Raised if two readings of a message differ, or if one of them fails."""


class Reading(NamedTuple):
    """The contents of a dump: the numbers in the header, the descriptors, and each subset's item lines without comments."""

    header: list
    descriptors: list
    subsets: list


class Foreign(NamedTuple):
    """The values that ecCodes reads: the numbers in the header, and the numbers and entries of all subsets, in order."""

    header: list
    numbers: list
    entries: list


def run(words: list, given: bytes = b"") -> bytes:
    """Returns the output of a command. Raises Different if the command fails."""
    done = subprocess.run(words, input=given, stdout=subprocess.PIPE, stderr=subprocess.PIPE)
    if done.returncode != 0:
        told = done.stderr.decode("latin-1").strip().splitlines()
        raise Different(f"{pathlib.Path(words[0]).name} {words[1]}: {told[0] if told else done.returncode}")
    return done.stdout


def ours(text: bytes) -> Reading:
    header, descriptors, subsets = [], [], []
    for line in text.decode("latin-1").splitlines():
        word, _, rest = line.partition(" ")
        if word == "subset":
            subsets.append([])
        elif subsets and word != "end":
            value, quote, comment = line.rpartition('"')
            subsets[-1].append(value + quote + comment.split("  # ")[0])
        elif word == "descriptors":
            descriptors += rest.split()
        elif rest.isdigit() and word not in ("local1", "section2"):
            header.append(int(rest))
    return Reading(header, descriptors, subsets)


def theirs(path: pathlib.Path) -> Foreign:
    flat = json.loads(run(["bufr_dump", "-jf", str(path)]).decode("latin-1"), strict=False)["messages"]
    others = KEYS_3 if path.read_bytes()[7] == 3 else {}
    shown = [others.get(key, f"[{key}]") for key in KEYS]
    rules = "set unpack = 1; " + " ".join(f'print "{each}";' for each in shown) + ' print "[numericValues!9%.17g]";'
    told = run(["bufr_filter", "-", str(path)], rules.encode()).decode().split()
    header = [int(number) for number in told[: len(KEYS)]]
    entries = [entry for entry in flat if entry["key"] != "subsetNumber"]
    compressed, subsets = header[-3], header[-1]
    entries = [chosen(entry, subset) for subset in range(subsets if compressed else 1) for entry in entries]
    return Foreign(header, [float(number) for number in told[len(KEYS) :]], entries)


def chosen(entry: dict, subset: int) -> dict:
    """Returns an entry with its value in one subset. If the value is a string, trailing spaces are removed.

    In compressed data, an entry has either one value for all subsets or a list.
    """
    value = entry["value"][subset] if isinstance(entry["value"], list) else entry["value"]
    return {**entry, "value": value.rstrip() if isinstance(value, str) else value}


def is_text(entry: dict) -> bool:
    """Returns whether an entry is a string. In `numericValues`, a string is given as 1000 times its index plus its length."""
    return entry.get("units") == "CCITT IA5" or entry.get("key") == "text"


def same_number(token: str, number: float, entry: dict) -> bool:
    """Returns whether a double equals a decimal, apart from rounding errors in computing (raw + reference) / 10^scale."""
    exact, reference = Fraction(token), Fraction(entry.get("reference", 0)) / Fraction(10) ** entry.get("scale", 0)
    return abs(Fraction(number) - exact) <= (abs(exact) + 2 * abs(reference)) / 2**51


def same_item(line: str, number: float, entry: dict, tally: collections.Counter) -> bool:
    """Returns whether an item that ecCodes reads is the same as the one on this line of a dump."""
    fxy, token = line.split(" ", 1)
    if entry.get("code", fxy) != fxy:
        return False
    if token == "MISSING":
        tally["missing"] += 1
        return entry.get("value") is None and (is_text(entry) or number == MISSING)
    if token.startswith('"'):
        tally["texts"] += 1
        return is_text(entry) and entry["value"] == token[1:-1].rstrip() and number % 1000 == len(token) - 2
    tally["numbers"] += 1
    digits = len(token.partition(".")[2])
    return digits == max(0, entry.get("scale", 0)) and same_number(token, number, entry)


def compare(reading: Reading, foreign: Foreign, tally: collections.Counter) -> None:
    """Compares all values in a dump with those from ecCodes, which does not show redefined reference values."""
    if reading.header != foreign.header:
        raise Different(f"header {reading.header}, ecCodes {foreign.header}")
    numbers, entries = iter(foreign.numbers), iter(foreign.entries)
    for count, lines in enumerate(reading.subsets, 1):
        for line in lines:
            if line.startswith("R "):
                tally["references"] += 1
                continue
            number = next(numbers, None)
            entry = {} if is_local(line) else next(entries, None)
            if number is None or entry is None or not same_item(line, number, entry, tally):
                raise Different(f"subset {count}: {line}, ecCodes {number} {entry}")
    if next(numbers, None) is not None or next(entries, None) is not None:
        raise Different("ecCodes has more items")
    tally["subsets"] += len(reading.subsets)
    tally["compressed messages"] += reading.header[-3]
    tally[f"messages of edition {reading.header[0]}"] += 1
    for operator in {fxy[:3] for fxy in reading.descriptors if fxy[0] == "2"}:
        tally[f"messages with {operator}"] += 1


def is_local(line: str) -> bool:
    """Returns whether an item has a descriptor for local use. ecCodes shows only the numbers of these items."""
    return line[0] == "0" and (line[1:3] >= "48" or line[3:6] >= "192")


def check(octets: bytes, expected, path: pathlib.Path, tally: collections.Counter) -> None:
    """Writes a message to the file `path` and makes all comparisons."""
    path.write_bytes(octets)
    text = run([PROGRAM, "dump", *TABLES, str(path)])
    reading = ours(text)
    if expected is not None and reading.subsets != expected:
        pairs = [(a, b) for a, b in zip(sum(reading.subsets, []), sum(expected, [])) if a != b]
        raise Different(f"bufr dump: not what was written: {pairs[:1]}")
    foreign = theirs(path)
    compare(reading, foreign, tally)
    again = run([PROGRAM, "encode", *TABLES], text)
    if again != octets:
        encoded = path.with_suffix(".encoded.bufr")
        encoded.write_bytes(again)
        if theirs(encoded) != foreign:
            raise Different("ecCodes reads something else in what bufr encode wrote")
        tally["encoded to other octets"] += 1


def of_file(name: str):
    """Yields a name and the octets of each message that `bufr ls` lists in a file, and None for the expected lines."""
    octets = pathlib.Path(name).read_bytes()
    listed = subprocess.run([PROGRAM, "ls", name], stdout=subprocess.PIPE, stderr=subprocess.DEVNULL).stdout
    for line in listed.decode().splitlines():
        start, length = (int(word.split("=")[1]) for word in line.split()[:2])
        yield f"{pathlib.Path(name).stem}-{start}", octets[start : start + length], None


def at_random(count: int = 1000, first: int = 0):
    for number in range(first, first + count):
        drawn = random_messages.message(number)
        yield f"random-{number}", drawn.octets, drawn.lines


def known_differences():
    for what, subsets, flags, descriptors, data in (row.split(" | ") for row in DIFFERENCES.strip().splitlines()):
        bits = Bits()
        for number, width in (item.split(":") for item in data.split()):
            bits.put(int(number), int(width))
        yield f"ecCodes {what}", message(bits.octets(), words(descriptors), int(subsets), int(flags, 16)), None


def messages(asked: list):
    if asked == ["--differences"]:
        return known_differences()
    if asked and not asked[0].isdigit():
        return (one for name in asked for one in of_file(name))
    return at_random(*map(int, asked))


def main() -> None:
    asked = sys.argv[1:]
    for needed in (PROGRAM, "bufr_dump", "bufr_filter"):
        if shutil.which(needed) is None:
            sys.exit(f"{needed} is not there")
    KEPT.mkdir(parents=True, exist_ok=True)
    tally, alike, differ = collections.Counter(), 0, 0
    for name, octets, expected in messages(asked):
        path = KEPT / (name.replace(" ", "-") + ".bufr")
        try:
            check(octets, expected, path, tally)
            path.unlink()
            path.with_suffix(".encoded.bufr").unlink(missing_ok=True)
            alike += 1
        except Different as difference:
            differ += 1
            print(f"{name}: {difference}", flush=True)
    print(f"{alike} messages read alike, {differ} not; " + ", ".join(f"{tally[key]} {key}" for key in sorted(tally)))
    sys.exit((alike if asked == ["--differences"] else differ) > 0)


if __name__ == "__main__":
    main()
