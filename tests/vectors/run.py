#!/usr/bin/env python3
"""Runs every case in cases.tsv with a program that has the same command line as `bufr`, and reports cases with wrong results.

    tests/vectors/run.py [--only TEXT] PROGRAM [WORD..]        for example: ./run.py python3 my_bufr.py

--only selects the cases whose line in cases.tsv contains TEXT. Each case must finish within 20 seconds. README.md in this
directory describes the files. The exit status is 1 if a result is wrong, and 2 if no case can be run.
"""
import argparse
import csv
import os
import pathlib
import subprocess
import sys

HERE = pathlib.Path(__file__).resolve().parent
SECONDS = 20


def content(name: str) -> bytes:
    return b"" if name == "-" else (HERE / name).read_bytes()


def unlike(program: list, case: dict) -> list:
    """Runs a case, and returns a description of each difference between the results and the expected ones."""
    words = [*program, *case["words"].split()]
    pipe = subprocess.PIPE
    try:
        done = subprocess.run(words, input=content(case["input"]), stdout=pipe, stderr=pipe, cwd=HERE, timeout=SECONDS)
    except subprocess.TimeoutExpired:
        return [f"no end after {SECONDS} seconds"]
    wanted = {"status": int(case["status"]), "output": content(case["output"]), "faults": content(case["faults"])}
    given = {"status": done.returncode, "output": done.stdout, "faults": done.stderr}
    return [
        f"{what}: {str(given[what])[:200]}\n  in place of {str(wanted[what])[:200]}"
        for what in wanted
        if given[what] != wanted[what]
    ]


def main() -> None:
    asker = argparse.ArgumentParser(description=__doc__, formatter_class=argparse.RawDescriptionHelpFormatter)
    asker.add_argument("--only", metavar="TEXT", default="")
    asker.add_argument("program", metavar="PROGRAM", nargs=argparse.REMAINDER)
    asked = asker.parse_args()
    if not asked.program:
        asker.error("name the program")
    program = [os.path.abspath(word) if os.sep in word or os.path.exists(word) else word for word in asked.program]
    with open(HERE / "cases.tsv", encoding="ascii", newline="") as file:
        cases = [case for case in csv.DictReader(file, delimiter="\t") if asked.only in " ".join(case.values())]
    wrong = 0
    for case in cases:
        try:
            told = unlike(program, case)
        except OSError as error:
            asker.error(f"cannot run {program[0]}: {error.strerror}")
        wrong += bool(told)
        for line in told:
            print(f"{case['case']}: {line}")
    print(f"{len(cases) - wrong} of {len(cases)} vectors are answered as they should be")
    sys.exit(2 if not cases else 1 if wrong else 0)


if __name__ == "__main__":
    main()
