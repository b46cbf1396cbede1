#!/usr/bin/env python3
"""Tests scripts/table.awk with each installed awk.

    tests/table_awk.py [PROGRAM]

Every awk must make the same tables from the examples, with a row of seven fields for each item, and the same JSON from
strings that contain every byte and every escape. In a live feed, the rows for a message must be written as soon as
the message ends.
"""
import csv
import json
import os
import random
import re
import select
import shutil
import subprocess

from lib import TOP, finish

AWKS = (["awk"], ["mawk"], ["gawk", "--posix"], ["gawk"], ["original-awk"], ["busybox", "awk"])
# Names and units that contain brackets or are not UTF-8, a string with every character that could seem to end it, and lines
# that are not items.
ODD = b"""message
subset 1
012101 28.5  # T\xdf [a] [\xb0C]
001015 "A \\"B\\\\ # [  "  # N\xdf []
R 012101 -400
# a note

205001 "\\\\"
012101 MISSING  # \xdf
end
"""
ODD_ROWS = b"""message,subset,item,descriptor,value,name,unit
1,1,1,012101,28.5,"T\xdf [a]","\xb0C"
1,1,2,001015,"A \\""B\\\\ # [","N\xdf",
1,1,3,012101,-400,"REFERENCE",
1,1,4,205001,"\\\\",,
1,1,5,012101,,,
"""
SCRIPT = ["-f", str(TOP / "scripts/table.awk")]
WIDE = ["-v", "columns=001002,001015,012101:2", *SCRIPT]
JSON = ["-v", "json=1", *SCRIPT]
FEED = b"message\nsubset 1\n001002 1\n031001 2\n012101 28.5\n012101 29.5\nend\n"


def run(words: list, text: bytes) -> tuple:
    """Runs a command in a UTF-8 locale. Returns its exit status, its output and its errors."""
    pipe, environment = subprocess.PIPE, {**os.environ, "LC_ALL": "C.UTF-8"}
    done = subprocess.run(words, input=text, stdout=pipe, stderr=pipe, env=environment)
    return done.returncode, done.stdout, done.stderr


def serves(words: list) -> bool:
    """Returns whether the rows for a message are written before the input ends."""
    if "mawk" in os.path.realpath(shutil.which(words[0])):
        words = [words[0], "-Winteractive", *words[1:]]
    with subprocess.Popen(words, stdin=subprocess.PIPE, stdout=subprocess.PIPE, stderr=subprocess.DEVNULL) as script:
        script.stdin.write(FEED)
        script.stdin.flush()
        read = b""
        while b"29.5" not in read and select.select([script.stdout], [], [], 20)[0]:
            octets = os.read(script.stdout.fileno(), 1 << 12)
            if not octets:
                break
            read += octets
        script.stdin.close()
    return b"29.5" in read


def escaped(octets: bytes) -> bytes:
    """Returns a string as it is written in a dump."""
    special = {34: b'\\"', 92: b"\\\\"}
    return b"".join(special.get(one) or (b"%c" % one if 32 <= one < 127 else b"\\x%02X" % one) for one in octets)


def texts(chance: random.Random):
    """Yields a string for each byte, and random strings in which quotes, backslashes, `x` and digits are frequent."""
    yield from (bytes([octet]) for octet in range(256))
    for _ in range(300):
        yield bytes(chance.choice(b'"\\\\x41 \0\xff#[]\n,') for _ in range(chance.randrange(9)))


def wrong_json(awk: list, chance: random.Random):
    """Returns complaints about the JSON for strings, numbers, missing values, and names with quotes and backslashes."""
    items, wanted = [], []
    for text in texts(chance):
        name, unit = (chance.choice(["", 'A "B" \\C', 'A "B"', "A[B]", "A]B", '\\\\ "', "\u00b0C"]) for _ in range(2))
        items.append(b'001015 "%s"  # %s [%s]\n' % (escaped(text), name.encode(), unit.encode()))
        wanted.append((text.rstrip(b" ").decode("latin-1"), name or None, unit or None))
    numbers = "0 -1 0.0000003 -0.50 99999999999999999999.125 170141183460469231731687303715884105727".split()
    for number in [*numbers, "MISSING"]:
        items.append(f"012101 {number}\n".encode())
        wanted.append((None if number == "MISSING" else number, None, None))
    items.append(b"R 012101 -400\n")
    wanted.append(("-400", "REFERENCE", None))
    status, output, errors = run([*awk, *JSON], b"message\nsubset 1\n" + b"".join(items) + b"end\n")
    if (status, errors) != (0, b""):
        return [f"{awk}: JSON ends with {status}: {errors}"]
    rows = [json.loads(line, parse_int=str, parse_float=str) for line in output.splitlines()]
    if [list(row) for row in rows] != ["message subset item descriptor value name unit".split()] * len(items):
        return [f"{awk}: JSON has other names: {rows[:2]}"]
    found = [(row["value"], row["name"], row["unit"]) for row in rows]
    return [f"{awk}: {item} is {one}, not {other}" for item, one, other in zip(items, found, wanted) if one != other][:3]


def main() -> None:
    paths = sorted((TOP / "examples").glob("*.txt"))
    lines = [line for path in paths for line in path.read_text(encoding="utf-8").splitlines()]
    items = sum(re.match(r"\d{6} |R ", line) is not None for line in lines)
    there = [awk for awk in AWKS if shutil.which(awk[0])]
    for awk in AWKS:
        if awk not in there:
            print(f"table_awk: skipped, {awk[0]} is not installed")
    made = {
        " ".join(awk): [subprocess.run([*awk, *script, *paths], stdout=subprocess.PIPE).stdout for script in (SCRIPT, WIDE)]
        for awk in there
    }
    wrongs = [f"{awk} makes other tables than awk" for awk, tables in made.items() if tables != made["awk"]]
    for awk in there:
        told = b"table.awk: the dump is incomplete: it ends in the middle of a message\n"
        for text, wanted in ((ODD, (0, ODD_ROWS, b"")), (ODD[:-4], (2, ODD_ROWS, told))):
            done = run([*awk, *SCRIPT], text)
            wrongs += [f"{awk}: table.awk makes {done} of {text}"] * (done != wanted)
        told = b"table.awk: the input is not a dump; pass the output of bufr dump or bufr-auto\n"
        message = (TOP / "examples/synop.bufr").read_bytes()
        for text, status, notes in ((message, 2, told), (b"no dump\n", 2, told), (b"", 0, b"")):
            done = run([*awk, "-v", "columns=012101", *SCRIPT], text)
            wrongs += [f"{awk}: table.awk makes {done} of input that is not a dump"] * (done[::2] != (status, notes))
        for words in (["columns=012101,301001"], ["columns=201132"], ["levels=1", "columns=012101", "keep=101000"]):
            done = run([*awk, *(word for value in words for word in ("-v", value)), *SCRIPT], FEED)
            told = b"table.awk: '%b' is not an element, so no item has this descriptor\n" % words[-1][-6:].encode()
            wrongs += [f"{awk}: {words} is {done}"] * (done != (2, b"", told))
        done = run([*awk, "-v", "levels=1", "-v", "columns=012101,001002", *SCRIPT], FEED)
        told = b"table.awk: column 001002 is empty because 001002 occurs only outside the levels; pass -v keep=001002 instead\n"
        wrongs += [f"{awk}: of a column outside the levels: {done}"] * (done[2].splitlines(True)[0] != told)
        for script in (SCRIPT, ["-v", "columns=012101:2", *SCRIPT], ["-v", "levels=1", "-v", "columns=012101", *SCRIPT]):
            wrongs += [f"{awk}: of a feed the rows of {script} are not written"] * (not serves([*awk, *script]))
        wrongs += wrong_json(awk, random.Random(1))
    rows = list(csv.reader(made["awk"][0].decode().splitlines()))
    wrongs += [f"{row} has not seven fields" for row in rows if len(row) != 7]
    wrongs += [f"there are {len(rows) - 1} rows of {items} items"] * (len(rows) != items + 1)
    finish(wrongs)


if __name__ == "__main__":
    main()
