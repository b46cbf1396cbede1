#!/usr/bin/env python3
"""Tests the commands in tables/README.md that add next year's version of the tables.

    tests/add_table_version.py [PROGRAM]

The commands must make a table set from a made-up version 99, and list its differences from the latest set. Version 99
consists of the tables in wmo-39 in WMO's layout, with an additional element, an additional sequence and a changed width.
"""
import csv
import os
import pathlib
import re
import shutil
import subprocess
import sys
import tempfile

import lib
from lib import TOP, finish, program

PAGE = TOP / "tables/README.md"
HEADER_B = (
    "ClassNo,ClassName_en,FXY,ElementName_en,Note_en,BUFR_Unit,BUFR_Scale,BUFR_ReferenceValue,BUFR_DataWidth_Bits,"
    "CREX_Unit,CREX_Scale,CREX_DataWidth_Char,Status"
).split(",")
HEADER_D = (
    "Category,CategoryOfSequences_en,FXY1,Title_en,SubTitle_en,FXY2,ElementName_en,ElementDescription_en,Note_en,Status"
).split(",")
TOLD = """\
wmo-39 to wmo-99
  elements changed: 1: 015083
  elements removed: 0
  elements added: 1
  sequences changed: 0
  sequences removed: 0
  sequences added: 1
"""


def wmo_csv(folder: pathlib.Path) -> None:
    """Writes version 99 in WMO's layout: a file for each class of elements, and one for each category of sequences."""
    folder.mkdir()
    with open(TOP / "tables/wmo-39/B.csv", newline="") as file:
        elements = [*csv.reader(file)][1:]
    with open(TOP / "tables/wmo-39/D.csv", newline="") as file:
        sequences = [*csv.reader(file)][1:]
    next(row for row in elements if row[0] == "015083")[5] = "12"
    elements.append(["043001", "Made up for version 99", "Numeric", "0", "0", "8"])
    sequences += [["301190", "001001"], ["301190", "043001"]]
    files = {}
    for fxy, name, unit, *numbers in elements:
        row = [fxy[1:3], "", fxy, name, "", unit, *numbers, "", "", "", "Operational"]
        files.setdefault(f"BUFRCREX_TableB_en_{fxy[1:3]}.csv", [HEADER_B]).append(row)
    for fxy, member in sequences:
        row = [fxy[1:3], "", fxy, "", "", member, "", "", "", "Operational"]
        files.setdefault(f"BUFR_TableD_en_{fxy[1:3]}.csv", [HEADER_D]).append(row)
    for name, rows in files.items():
        with open(folder / name, "w", newline="", encoding="utf-8-sig") as file:
            csv.writer(file).writerows(rows)


def main() -> None:
    text, complaints = PAGE.read_text().partition("\n## Next year's version\n")[2], []
    if len(text.split()) > 200:
        complaints.append(f"the part has {len(text.split())} words, more than 200")
    commands = "".join(re.findall(r"```sh\n(.*?) *```", text, re.S))
    with tempfile.TemporaryDirectory() as folder:
        place = pathlib.Path(folder)
        shutil.copytree(TOP / "tables", place / "tables")
        (place / "scripts").symlink_to(TOP / "scripts")
        wmo_csv(place / "wmo-csv")
        done = subprocess.run(["sh", "-eu", "-c", commands], cwd=place, capture_output=True, text=True)
        if (done.returncode, done.stdout, done.stderr) != (0, TOLD, ""):
            complaints.append(f"the commands: {done}")
        bits = lib.Bits()
        bits.put(7, 7)
        bits.put(99, 8)
        message = lib.asking(lib.message(bits.octets(), lib.words("301190")), 99)
        environment = {**os.environ, "BUFR": program(), "BUFR_TABLES": str(place / "tables")}
        words = [sys.executable, TOP / "scripts/bufr-auto"]
        done = subprocess.run(words, input=message, capture_output=True, env=environment)
        items = b"\n001001 7  # WMO BLOCK NUMBER [Numeric]\n043001 99  # Made up for version 99 [Numeric]\nend\n"
        if not done.stdout.endswith(items) or done.stderr or done.returncode:
            complaints.append(f"a message of version 99: {done}")
    finish(complaints)


if __name__ == "__main__":
    main()
