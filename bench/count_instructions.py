#!/usr/bin/env python3
"""Counts instructions and simulated cache misses on small streams, and compares them with instructions.csv.

    bench/count_instructions.py [PROGRAM]             fails if a count is too high
    bench/count_instructions.py --update [PROGRAM]    writes instructions.csv

PROGRAM is crates/bufr/out/bufr by default. The script counts with Valgrind; if it is not installed, the script prints a note
and counts nothing. Valgrind simulates caches of fixed sizes, so the counts hardly depend on the machine.

Each count is an average per item. For `dump` and `encode`, an item is an element's line in the dump; for `ls`, it is a
message; in the "stray words" rows, it is a stray. The counts for the same command without input are subtracted first; the
"no input" rows contain these counts.

The script fails if a count is more than 1.1 times the one in instructions.csv. This file contains cache misses caused by
reads, but not those caused by writes, because writes rarely slow a program down. Before the script compares cache misses, it
adds 1 to both counts, because small counts vary. It also prints write misses, instruction cache misses and mispredicted
branches, but does not compare them; the last two depend on where the compiler places the code.
"""
import concurrent.futures
import csv
import os
import pathlib
import re
import shutil
import subprocess
import sys
import tempfile

import generate
from lib import TABLES, finish, program

FILE = pathlib.Path(__file__).parent / "instructions.csv"
# Each count, and the Callgrind events that are added up for it.
COUNTED = {
    "instructions": ["Ir"],
    "L1 misses": ["D1mr"],
    "L2 misses": ["DLmr"],
    "write misses": ["D1mw"],
    "I1 misses": ["I1mr"],
    "branch misses": ["Bcm", "Bim"],
}
# The counts in instructions.csv, each with the number that is added to its old and new values before they are compared.
RECORDED = {"instructions": 0, "L1 misses": 1, "L2 misses": 1}
MOST = 1.1
# First-level caches of 32 KiB each for instructions and data, and a second-level cache of 1 MiB.
CACHES = ["--I1=32768,8,64", "--D1=32768,8,64", "--LL=1048576,16,64"]
WORDS = b"BUFR\x10\0\0\x04" * 2_000
STREAMS = {
    "no input": b"",
    "plain": generate.plain(20, 40),
    "compressed": generate.packed(20, 40),
    "reports": generate.report(4) * 200,
    "compressed reports": generate.packed_reports(200),
    **{name.replace("_", " "): generate.stream(kind) for name, kind in generate.KINDS.items()},
}


def run(words: list, given: bytes) -> bytes:
    """Returns the output of a command for this input."""
    return subprocess.run(words, input=given, capture_output=True).stdout


def counted(words: list, given: bytes) -> list:
    """Runs a command under Callgrind, and returns its counts. Exits if the run fails or Valgrind counts nothing."""
    with tempfile.NamedTemporaryFile("r") as log, tempfile.TemporaryFile() as stream:
        stream.write(given)
        stream.seek(0)
        callgrind = ["valgrind", "--tool=callgrind", "--callgrind-out-file=/dev/null", f"--log-file={log.name}"]
        simulated = ["--cache-sim=yes", "--branch-sim=yes", *CACHES]
        done = subprocess.run([*callgrind, *simulated, *words], stdin=stream, capture_output=True)
        found = re.search(r"Events +: (.*)\n.*Collected : (.*)", log.read())
    if not found or done.returncode not in (0, 1):
        sys.exit(f"count_instructions: status {done.returncode} of {' '.join(words)}: {done.stderr[-500:]!r}")
    events = dict(zip(found[1].split(), map(int, found[2].split())))
    return [sum(events[it] for it in added) for added in COUNTED.values()]


def counts() -> dict:
    """Returns the counts per item for each command and stream, and the counts for each command without input."""
    ls, dump, encode = ([program(), "ls"], [program(), "dump", *TABLES], [program(), "encode", *TABLES])
    texts = {name: run(dump, stream) for name, stream in STREAMS.items()}
    items = {name: len(re.findall(rb"^(?:R )?[0-9]{6} ", text, re.M)) for name, text in texts.items()}
    runs = {("ls", "no input"): (ls, b"", 1), ("ls", "reports"): (ls, STREAMS["reports"], 200)}
    runs |= {("dump", name): (dump, stream, items[name]) for name, stream in STREAMS.items()}
    runs |= {("encode", name): (encode, text, items[name]) for name, text in texts.items()}
    runs |= {("ls", "stray words"): (ls, WORDS, 2_000), ("dump", "stray words"): (dump, WORDS, 2_000)}
    with concurrent.futures.ThreadPoolExecutor(os.cpu_count()) as pool:
        whole = dict(zip(runs, pool.map(lambda it: counted(it[0], it[1]), runs.values())))
    made = {}
    for (command, name), numbers in whole.items():
        if name != "no input":
            start, items = whole[command, "no input"], runs[command, name][2]
            numbers = [(number - less) / items for number, less in zip(numbers, start)]
        made[command, name] = dict(zip(COUNTED, numbers))
    return made


def recorded() -> dict:
    """Returns the counts in instructions.csv for each command and stream."""
    with FILE.open(encoding="utf-8", newline="") as file:
        rows = csv.DictReader(file)
        if rows.fieldnames != ["command", "stream", *RECORDED]:
            sys.exit(f"count_instructions: {FILE.name} has the columns {rows.fieldnames}; write it with --update")
        return {(row["command"], row["stream"]): {name: float(row[name]) for name in RECORDED} for row in rows}


def main() -> None:
    update = "--update" in sys.argv
    sys.argv = [word for word in sys.argv if word != "--update"]
    if not shutil.which("valgrind"):
        print("count_instructions: skipped, valgrind is not there")
        return
    most = {} if update else recorded()
    now = counts()
    if update:
        with FILE.open("w", encoding="utf-8", newline="") as file:
            writer = csv.writer(file, lineterminator="\n")
            writer.writerow(["command", "stream", *RECORDED])
            writer.writerows([*key, *(f"{numbers[name]:.2f}" for name in RECORDED)] for key, numbers in now.items())
        return
    print(f"{'':31}" + "".join(f"{name:>15}" for name in COUNTED))
    for (command, stream), numbers in now.items():
        print(f"{command:6} {stream:24}" + "".join(f"{number:15,.2f}" for number in numbers.values()))
    wrongs = [f"{' of '.join(key)} is in one of the script and {FILE.name} alone" for key in now.keys() ^ most.keys()]
    for name, added in RECORDED.items():
        ratios = {key: (now[key][name] + added) / (most[key][name] + added) for key in now if key in most}
        print(f"count_instructions: {min(ratios.values()):.2f} to {max(ratios.values()):.2f} times the {name} of {FILE.name}")
        wrongs += [
            f"{' of '.join(key)}: {now[key][name]:.2f} {name}, {ratio:.2f} times the {most[key][name]:.2f} of {FILE.name}"
            for key, ratio in ratios.items()
            if ratio > MOST
        ]
    finish(wrongs)


if __name__ == "__main__":
    main()
