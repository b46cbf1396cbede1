#!/usr/bin/env python3
"""Tests scripts/bufr-csv.

    tests/bufr_csv.py [PROGRAM]

With each installed awk, the rows for random messages must contain the values that bufr_text returns, both in CSV and in JSON.
Other tests cover the options, three files with faults in the middle one, live feeds, invalid arguments, and failures.
"""
import csv
import functools
import json
import os
import pathlib
import random
import re
import resource
import select
import shutil
import signal
import subprocess
import sys
import tempfile
from decimal import Decimal

import lib
from lib import TOP, finish, program
from table_awk import AWKS

sys.path.insert(0, str(TOP / "scripts"))
import bufr_text  # noqa: E402

EXAMPLES = TOP / "examples"
SYNOP, SOUNDING, BUOYS, FAULTY = (EXAMPLES / f"{name}.bufr" for name in ("synop", "sounding", "buoys", "bulletins"))
# Short and long numbers, with and without a sign; strings; and elements that occur within levels.
ELEMENTS = "001001 001002 001015 001011 012101 005001 006001 015025 033002 020003 002001 013011 011002 007004".split()
COLUMNS = [*ELEMENTS, "012101:2", "001015:2", "007004:3", "centre", "year", "subsets", "file", "offset", "length"]
complaints = []


def holds(what: str, is_so: bool, told: object = "") -> None:
    if not is_so:
        complaints.append(f"{what}: {told!r}"[:1500])


def run(*words, awk=None, environment=None, **streams):
    """Runs bufr-csv, checks that Python printed no traceback, and returns the completed process."""
    more = {"BUFR": program(), **({"AWK": " ".join(awk)} if awk else {}), **(environment or {})}
    known = {name: value for name, value in os.environ.items() if name not in ("AWK", "BUFR_TABLES", "BUFR_CSV_LABELS")}
    if "input" not in streams:
        streams.setdefault("stdin", subprocess.DEVNULL)
    streams = {"stdout": subprocess.PIPE, "stderr": subprocess.PIPE, **streams}
    command = [sys.executable, str(TOP / "scripts/bufr-csv"), *map(str, words)]
    done = subprocess.run(command, env={**known, **more}, timeout=120, **streams)
    holds(f"{words}: Python's own words", b"Traceback" not in (done.stderr or b""), done.stderr)
    return done


# The expected rows, computed with bufr_text.


class Number(str):
    """A number, spelled as in the dump."""


def value_of(item):
    if item is None or item.value is None:
        return None
    return Number(format(item.value, "f")) if isinstance(item.value, Decimal) else item.value.rstrip(b" ")


def key_of(key: str, message, file):
    if key == "file":
        return os.fsencode(file)
    known = {**message.header, "offset": message.offset, "length": message.length, "subsets": len(message.subsets)}
    known["optional"] = int(message.section2 is not None)
    return Number(known[key])


def nth_item(subset: list, column: str):
    fxy, _, count = column.partition(":")
    found = [item for item in subset if item.fxy == fxy and not item.reference]
    return (found[int(count or 1) - 1 :] or [None])[0]


def columns_of(columns: list, message, subset: list, file) -> list:
    return [value_of(nth_item(subset, one)) if one[0] in "0123" else key_of(one, message, file) for one in columns]


@functools.lru_cache(maxsize=None)
def messages_of(file) -> list:
    return list(bufr_text.dump(file, faults=[]))


def subsets_of(files: list):
    """Yields, for each subset, the file, the message, the message number, the subset number and the subset."""
    count = 0
    for file in files:
        for message in messages_of(file):
            count += 1
            for number, subset in enumerate(message.subsets, 1):
                yield file, message, count, number, subset


def wanted_rows(files: list, columns: list) -> list:
    rows = subsets_of(files)
    return [[Number(m), Number(s), *columns_of(columns, message, subset, file)] for file, message, m, s, subset in rows]


def wanted_items(files: list, keep: list) -> list:
    rows = []
    for file, message, m, s, subset in subsets_of(files):
        begin = [Number(m), Number(s), *columns_of(keep, message, subset, file)]
        for count, item in enumerate(subset, 1):
            name, unit = ("REFERENCE", None) if item.reference else (item.name, item.unit)
            name, unit = (text.encode() if text else None for text in (name, unit))
            rows.append([*begin, Number(count), item.fxy.encode(), value_of(item), name, unit])
    return rows


def wanted_levels(files: list, columns: list, keep: list) -> list:
    rows = []
    for file, message, m, s, subset in subsets_of(files):
        begin = [Number(m), Number(s), *columns_of(keep, message, subset, file)]
        items = [item for item in subset if not item.reference]
        for first, last in bufr_text._passes(items):
            found = [bufr_text.find(items[first:last], fxy) for fxy in columns]
            if found[0] and (len(found) == 1 or any(found[1:])):
                rows.append([*begin, *map(value_of, found)])
    return rows


# The rows that bufr-csv writes.

FIELD = re.compile(r'(?:"((?:[^"]|"")*)"|([^",]*))(?:,|$)')
ESCAPE = re.compile(rb"\\(?:x(..)|(.))")


def text_of(quoted: str) -> bytes:
    r"""Returns the bytes of a string that is escaped as in a dump."""
    return ESCAPE.sub(lambda one: bytes.fromhex(one[1].decode()) if one[1] else one[2], quoted.encode())


def field_of(found, is_plain: bool):
    if found[1] is None:
        return Number(found[2]) if found[2] else None
    quoted = found[1].replace('""', '"')
    return quoted.encode() if is_plain else text_of(quoted)


def rows_of_csv(output: bytes) -> tuple:
    """Returns the heading and the rows. A backslash in a name, unit or file name is literal. Descriptors become bytes."""
    lines = output.decode().splitlines()
    heading = next(csv.reader(lines[:1]))
    rows = []
    for line in lines[1:]:
        fields = list(FIELD.finditer(line))[: len(heading)]
        row = [field_of(one, name in ("file", "name", "unit")) for name, one in zip(heading, fields)]
        rows.append([one.encode() if name == "descriptor" else one for name, one in zip(heading, row)])
    return heading, rows


def rows_of_json(output: bytes) -> tuple:
    heading, rows = None, []
    for line in output.splitlines():
        row = json.loads(line, parse_int=Number, parse_float=Number)
        heading = heading or list(row)
        holds("the names of an object", list(row) == heading, line)
        plain = ("file", "name", "unit")
        rows.append(
            [
                one if one is None or isinstance(one, Number) else one.encode("utf-8" if name in plain else "latin-1")
                for name, one in row.items()
            ]
        )
    return heading, rows


def alike(what: str, done, heading: list, wanted: list, as_json: bool) -> None:
    found, rows = rows_of_json(done.stdout) if as_json else rows_of_csv(done.stdout)
    holds(f"{what}: the heading", found == heading or as_json and not wanted, found)
    first = next(((one, other) for one, other in zip(rows, wanted) if one != other), None)
    holds(f"{what}: a row, and what it is to be", first is None, first)
    holds(f"{what}: {len(rows)} rows of {len(wanted)}", len(rows) == len(wanted))


# Random messages.


def elements() -> dict:
    """Returns the rows of the latest Table B, indexed by descriptor."""
    with open(TOP / "tables/wmo-39/B.csv", encoding="utf-8", newline="") as file:
        return {row["fxy"]: row for row in csv.DictReader(file)}


def put_value(bits: lib.Bits, row: dict, chance: random.Random) -> None:
    width = int(row["width"])
    if row["unit"] == "CCITT IA5":
        for _ in range(width // 8):
            bits.put(chance.choice([*b'"\\x41 ,\xff\0\x7f', 32, 32, chance.randrange(256)]), 8)
    else:
        bits.put(chance.choice([0, 1, 2**width - 2, 2**width - 1, chance.randrange(2**width)]), width)


def random_message(table: dict, chance: random.Random) -> bytes:
    """Returns a message with random elements, which may repeat, and sometimes with a group in a delayed replication."""
    chosen = [chance.choice(ELEMENTS) for _ in range(chance.randrange(1, 6))]
    # The group contains each descriptor only once, so that levels are not ambiguous.
    group = chance.sample(["007004", "012101", "011002", "001015"], 3) if chance.random() < 0.6 else []
    bits, subsets = lib.Bits(), chance.randrange(1, 4)
    for _ in range(subsets):
        for fxy in chosen:
            put_value(bits, table[fxy], chance)
        if group:
            passes = chance.randrange(4)
            bits.put(passes, 8)
            for fxy in group * passes:
                put_value(bits, table[fxy], chance)
    words = " ".join([*chosen, *(["103000", "031001", *group] if group else [])])
    return lib.asking(lib.message(bits.octets(), lib.words(words), subsets), chance.choice([13, 39]))


def against_bufr_text(folder: pathlib.Path) -> None:
    """In each mode and format, `bufr-csv` writes the values that bufr_text returns for random messages in three files."""
    table, chance, names = elements(), random.Random(7), [folder / "a.bufr", folder / 'b "c\\d,.bufr', folder / "e\u00e9.bufr"]
    for path in names:
        pieces = [random_message(table, chance) + chance.choice([b"", b"\r\n", b"BUFR"]) for _ in range(40)]
        path.write_bytes(b"".join(pieces))
    names = [os.path.relpath(path, folder) for path in names]
    os.chdir(folder)
    awks = [awk for awk in AWKS if shutil.which(awk[0])]
    for turn in range(6):
        awk, as_json = awks[turn % len(awks)], turn % 2 > 0
        options, status = ["--json"] * as_json, 1  # the files contain strays, so the status is 1
        what = f"{' '.join(awk)}, {'JSON' if as_json else 'CSV'}"
        columns = chance.sample(COLUMNS, chance.randrange(1, 9))
        done = run("-c", ",".join(columns), *options, *names, awk=awk)
        holds(f"{what}: the status", done.returncode == status, done.stderr)
        heading = ["message", "subset", *columns]
        alike(f"{what}, columns {columns}", done, heading, wanted_rows(names, columns), as_json)
        keep = chance.sample(COLUMNS[-6:], 3)
        done = run("--keep", ",".join(keep), *options, *names, awk=awk)
        heading = ["message", "subset", *keep, "item", "descriptor", "value", "name", "unit"]
        alike(f"{what}, items", done, heading, wanted_items(names, keep), as_json)
        keep = chance.sample([*COLUMNS[-6:], "001015:2", "013011"], 3)
        columns = chance.sample(["007004", "012101", "011002", "001015"], chance.randrange(1, 4))
        done = run("--levels", "--keep", ",".join(keep), "-c", ",".join(columns), *options, *names, awk=awk)
        heading = ["message", "subset", *keep, *columns]
        alike(f"{what}, levels {columns}", done, heading, wanted_levels(names, columns, keep), as_json)
    os.chdir(TOP)


def same_with_each_awk(_folder: pathlib.Path) -> None:
    files = sorted(EXAMPLES.glob("*.bufr"))
    for words in (["-c", "file,offset,001015,012101"], ["--json"], ["--levels", "-c", "007004,012101", "--keep", "year"]):
        made = {" ".join(awk): run(*words, *files, awk=awk) for awk in AWKS if shutil.which(awk[0])}
        made = {awk: (done.returncode, done.stdout, done.stderr) for awk, done in made.items()}
        for awk, one in made.items():
            holds(f"{awk} makes other rows than awk for {words}", one == made["awk"], one[2])


def names(folder: pathlib.Path) -> None:
    """`--names` puts the names from the latest tables into the heading, including names with commas and quotes."""
    tables = folder / "tables/wmo-39"
    shutil.copytree(TOP / "tables/wmo-39", tables)
    shutil.copytree(TOP / "tables/wmo-13", folder / "tables/wmo-13")
    rows = (tables / "B.csv").read_text(encoding="utf-8")
    odd = 'STATION, "OR" \\ SIT\u00c9'
    for name, other in (("001015,STATION OR SITE NAME", odd), ("001001,WMO BLOCK NUMBER", "BLOCK, WMO"), ("001002,WMO STATION NUMBER", 'The "WMO" number')):
        holds(f"the name of {name}", f"\n{name}," in rows)
        rows = rows.replace(f"{name},", name[:7] + '"' + other.replace('"', '""') + '",')
    (tables / "B.csv").write_text(rows, encoding="utf-8")
    heading = ["message", "subset", f"001015 {odd}", "001001 BLOCK, WMO", '001002 The "WMO" number']
    heading += ["012101:2 TEMPERATURE/AIR TEMPERATURE", "year", "063255"]
    columns = [word[:8] if ":" in word else word[:6] for word in heading[2:]]
    for options in ([], ["--json"]):
        done = run("--names", "-c", ",".join(columns), *options, SYNOP, environment={"BUFR_TABLES": str(tables.parent)})
        alike(f"--names {options}", done, heading, wanted_rows([SYNOP], columns), bool(options))
        holds("a heading with quotes", bool(options) or b',"001002 The ""WMO"" number",' in done.stdout, done.stdout[:300])
        done = run("-c", "wmo\" NUM", *options, SYNOP, environment={"BUFR_TABLES": str(tables.parent)})
        holds("a part of a name in lower case", b"('wmo\" NUM' occurs in the name of 001002); see" in done.stderr, done)
        done = run(*options, SYNOP, environment={"BUFR_TABLES": str(tables.parent)})
        found = (rows_of_json if options else rows_of_csv)(done.stdout)[1][2]
        holds(f"a name of an item {options}", found[5] == odd.encode(), found)
    # The names come from the latest set, although no message here needs it and one of its rows is too short.
    shutil.copytree(tables, folder / "tables/wmo-40")
    (folder / "tables/wmo-40/B.csv").write_text(rows + "012\n", encoding="utf-8")
    done = run("--names", "-c", "012101", SYNOP, environment={"BUFR_TABLES": str(tables.parent)})
    wanted = b"message,subset,012101 TEMPERATURE/AIR TEMPERATURE"
    holds("--names by a table with a short row", (done.returncode, done.stdout.splitlines()[:1]) == (0, [wanted]), done)
    done = run("--names", "--levels", "--keep", "year,001002", "-c", "007004,012101", SOUNDING)
    wanted = b"message,subset,year,001002 WMO STATION NUMBER,007004 PRESSURE,012101 TEMPERATURE/AIR TEMPERATURE"
    holds("--names --levels: the heading", done.stdout.splitlines()[0] == wanted, done.stdout[:200])
    done = run("-c", "001015", SYNOP, environment={"BUFR_CSV_LABELS": "wrong"})
    holds("labels of another run", done.stdout.startswith(b"message,subset,001015\n"), done.stdout[:50])


def selection(_folder: pathlib.Path) -> None:
    """`--where` selects the messages that bufr-extract selects, and `--max-length` skips those that bufr-auto skips."""
    files = sorted(EXAMPLES.glob("*.bufr"))
    stream = b"".join(path.read_bytes() for path in files)
    whole = run("-c", "year,001015", *files)
    for words in ([], ["-"]):
        done = run("-c", "year,001015", *words, input=stream)
        holds(f"standard input {words}", done.stdout == whole.stdout, done.stderr)
    done = run("-c", "file,001015", SYNOP, "-", BUOYS, input=SYNOP.read_bytes())
    of_files = re.findall(rb'^\d,\d,"([^"]*)"', done.stdout, re.M)
    holds("standard input between files", [*dict.fromkeys(of_files)] == [os.fsencode(SYNOP), b"-", os.fsencode(BUOYS)], of_files)
    environment = {**os.environ, "BUFR": program()}
    for conditions in (["category=0"], ["category!=0", "centre=74,98"], ["time=2023"], ["time=2006"], ["category=7"]):
        words = [sys.executable, TOP / "scripts/bufr-extract", *conditions]
        chosen = subprocess.run(words, input=stream, stdout=subprocess.PIPE, stderr=subprocess.DEVNULL, env=environment).stdout
        options = [word for condition in conditions for word in ("--where", condition)]
        done, wanted = run("-c", "year,001015", *options, input=stream), run("-c", "year,001015", input=chosen)
        holds(f"{conditions}: the rows", done.stdout == wanted.stdout, done.stderr)
    done = run("-c", "year,001015", "--where", "time=2006", input=stream)
    holds("the note on edition 3", b"left out 1 edition 3 message" in done.stderr, done.stderr)
    done = run("-c", "offset,001015", "--max-length=600", input=SYNOP.read_bytes() + b"BUFR\xff\xff\xff\4" + BUOYS.read_bytes())
    offsets = {int(one) for one in re.findall(rb"^\d,\d,(\d+)", done.stdout, re.M)}
    holds("--max-length", (done.returncode, offsets) == (1, {0, 603}) and b"offset 595: skipped" in done.stderr, done)


def several_files(folder: pathlib.Path) -> None:
    """If the second of three files has faults, fault lines name it. If it is unreadable, `bufr-csv` still reads the third."""
    environment = {**os.environ, "BUFR": program()}
    files = [SYNOP, FAULTY, BUOYS]
    wanted = subprocess.run([TOP / "scripts/bufr-auto", *files], stdout=subprocess.PIPE, stderr=subprocess.PIPE, env=environment)
    done = run("-c", "file,year", *files)
    holds("faults of the middle file", (done.returncode, done.stderr) == (1, wanted.stderr), done)
    holds("they have its name", done.stderr.startswith(os.fsencode(FAULTY) + b":offset 131: 1 cut\n"), done.stderr)
    alike("files with faults", done, ["message", "subset", "file", "year"], wanted_rows(files, ["file", "year"]), False)
    places = ["file", "offset", "length"]
    alike("places alone", run("-c", ",".join(places), *files), ["message", "subset", *places], wanted_rows(files, places), False)
    for middle in (folder / "nosuch", folder):
        done = run("-c", "file,year", SYNOP, middle, BUOYS)
        rows = wanted_rows([SYNOP, BUOYS], ["file", "year"])
        alike(f"files around {middle.name}", done, ["message", "subset", "file", "year"], rows, False)
        lines = done.stderr.splitlines()
        is_told = done.returncode == 2 and len(lines) == 1 and lines[0].startswith(b"bufr-csv: cannot ")
        holds(f"{middle.name} in the middle", is_told and os.fsencode(middle) in lines[0], done)
    empty, text = folder / "empty", folder / "text"
    empty.touch(), text.write_text("<html>")
    for file, told in ((empty, b"is empty"), (text, b"HTML")):
        done = run("-c", "year", SYNOP, file, BUOYS)
        holds(f"{file.name} in the middle", done.returncode == 0 and told in done.stderr, done)
        done = run("-c", "year", file)
        is_heading = (done.returncode, done.stdout) == (0, b"message,subset,year\n")
        holds(f"{file.name} alone", is_heading and told in done.stderr, done)
        done = run("--json", "-c", "year", file)
        holds(f"{file.name} as JSON", (done.returncode, done.stdout) == (0, b""), done)


def notes(folder: pathlib.Path) -> None:
    """`bufr-csv` prints notes about empty columns, and about subsets without levels or with ambiguous levels."""
    done = run("-c", "012101,012104", SYNOP)
    holds("an empty column", (done.returncode, done.stderr) == (0, b"bufr-csv: column 012104 is empty because no row contains this item\n"), done)
    done = run("--levels", "-c", "020013,020011", SYNOP)
    told = b"bufr-csv: skipped a subset without levels: message 1, subset 1\n"
    holds("a subset without levels", (done.returncode, done.stderr) == (0, told), done)
    # The items for these columns occur only outside the levels, or do not occur at all. bufr.levels issues the same warnings.
    outside = "bufr-csv: column {0} is empty because {0} occurs only outside the levels; pass --keep {0} instead\n"
    empty = "bufr-csv: column {} is empty because no row contains this item\n"
    one = "bufr-csv: skipped a subset without levels: message 1, subset 1\n"
    for columns, keep, wanted in [
        ("001002,007004,012101", "", outside.format("001002") + one),
        ("007004,001002", "", outside.format("001002") + one),
        ("007004,012101,001002", "", outside.format("001002")),
        ("012104", "001002", empty.format("012104") + one),
        ("007004,012101,012104", "001002", empty.format("012104")),
        ("007004", "012104", empty.format("012104")),
    ]:
        for options in ([], ["--json"]):
            done = run("--levels", "-c", columns, *(["--keep", keep] if keep else []), *options, SOUNDING)
            holds(f"--levels -c {columns} {options}: the notes", done.stderr.decode() == wanted, (done.stderr, wanted))
    several = outside.partition(";")[0] + "; to get its first two values, pass --keep {0},{0}:2\n"
    bits = lib.Bits()
    for number, width in ((1, 7), (2, 7), (3, 10), (2, 8), (4, 14), (5, 14)):
        bits.put(number, width)
    octets = lib.message(bits.octets(), lib.words("001001 001001 001002 101000 031001 007004")) * 2
    done = run("--levels", "-c", "007004,001001,001002", input=octets)
    wanted = several.format("001001") + outside.format("001002")
    holds("a column that occurs twice outside the levels", done.stderr.decode().endswith(wanted), (done.stderr, wanted))
    done = run("--levels", "-c", "007004", "--keep", "001001,001001:2", input=octets)
    holds("the columns that are advised", done.stdout.splitlines()[1] == b"1,1,1,2,40", done)
    bits = lib.Bits()
    bits.put(2, 8)
    for _ in range(2):
        for fxy, width, value in (("008002", 6, 1), ("020011", 4, 2), ("008002", 6, 2)):
            bits.put(value, width)
    twice = lib.message(bits.octets(), lib.words("103000 031001 008002 020011 008002"))
    done = run("--levels", "-c", "020011", input=twice)
    (folder / "twice").write_bytes(twice)
    told = b"bufr-csv: skipped a subset with ambiguous levels: message 1, subset 1 (008002 begins a level and occurs again in it)"
    told += b"; to get its items, run bufr-csv without --levels or -c%s\n"
    of_file = run("--levels", "-c", "020011", folder / "twice")
    column = empty.format("020011").encode()
    for what, done, wanted in (
        ("a file", of_file, column + told % b""),
        ("a pipe", done, told % b"; further subsets with ambiguous levels will not be reported" + column),
    ):
        holds(f"ambiguous levels of {what}", (done.returncode, done.stderr) == (1, wanted), done)
    done = run("--levels", "-c", "020011", folder / "nosuch", folder / "twice")
    holds("ambiguous levels after a missing file", done.returncode == 2, done)
    later = lib.asking(lib.message(b"\x14"), 45)
    done = run("-c", "001001", input=later)
    holds("a note on tables", done.returncode == 0 and b"bufr-csv: 1 message, at offset 0: table version 45" in done.stderr, done)


def refusals(_folder: pathlib.Path) -> None:
    """If the command line is invalid, `bufr-csv` prints only one line, which says what to do, and exits with status 2."""
    keys = b"'file', 'offset', 'length', or a header key (edition master"
    for words, told in [
        (["-x"], b"unknown option -x"),
        (["--column", "001001"], b"unknown option --column"),
        (["-c=001001"], b"unknown column '=001001'"),
        (["-c", ""], b"empty column name"),
        (["-c", "001001,"], b"empty column name"),
        (["-c", "AIR TEMPERATURE"], b"'AIR TEMPERATURE' occurs in the names of 012001, 012101, 012004, 012104"),
        (["-c", "air temperature"], b"'air temperature' occurs in the names of 012001, 012101, 012004, 012104"),
        (["-c", "001001,AIR TEMPERATURE"], b"'AIR TEMPERATURE'"),
        (["--levels", "-c", "PRESSURE"], b"007004"),
        (["--levels", "--keep", "STATION NUMBER", "-c", "007004"], b"001002"),
        (["-c", "airTemperature"], keys),
        (["-c", "01210"], b"unknown column '01210': a descriptor has six digits; write '001210'"),
        (["-c", "0121011"], keys),
        (["-c", "01210x"], keys),
        (["-c", "01210\u0661"], keys),
        (["-c", "412101"], keys),
        (["-c", "064001"], keys),
        (["-c", "001256"], keys),
        (["-c", "\u0661\u0662\u0663\u0664\u0665\u0666"], keys),
        (["-c", "012101:0"], b"a positive whole number after the colon"),
        (["-c", "012101:"], b"a positive whole number after the colon"),
        (["-c", "012101:x"], b"a positive whole number after the colon"),
        (["-c", "012101:\u0662"], b"a positive whole number after the colon"),
        (["-c", "message"], keys),
        (["-c", "301001"], b"column '301001' is a sequence, not an element; pass the descriptors of its elements: 001001, 001002"),
        (["-c", "001001,363255"], b"'363255' is a sequence, not an element; pass the descriptors of its elements"),
        (["-c", "301001:2"], b"'301001:2' is a sequence, not an element"),
        (["-c", "201132"], b"'201132' is an operator, not an element, so it has no value"),
        (["--levels", "-c", "007004,101000"], b"'101000' is a replication, not an element, so it has no value"),
        (["--levels", "-c", "007004", "--keep", "222000"], b"'222000' is an operator, not an element"),
        (["-c", "time"], b"use 'year,month,day,hour,minute'"),
        (["-c", "001001,tables"], b"use 'master,masterversion,localversion'"),
        (["-c", "year", "--where=", "category=0"], b"'' is not a condition"),
        (["--levels"], b"--levels requires -c"),
        (["--levels", "-c", "year"], b"pass it to --keep"),
        (["--levels", "-c", "007004,year"], b"pass it to --keep"),
        (["--levels", "-c", "012101:2"], b"pass it to --keep"),
        (["--keep", "012101"], b"without -c, only header keys, file, offset"),
        (["--keep", "012101:2"], b"without -c, only header keys, file, offset"),
        (["--keep", "year", "-c", "012101"], b"--keep can be used only with --levels"),
        (["--names"], b"--names requires -c"),
        (["--json", "-c", "012101,012101"], b"column '012101' is given twice"),
        (["--json", "--levels", "-c", "012101", "--keep", "012101"], b"column '012101' is given twice"),
        (["--where", "category"], b"category"),
        (["--where", "nokey=1"], b"unknown key 'nokey'"),
        (["--max-length", "11"], b"at least 12"),
    ]:
        done = run(*words, SYNOP)
        lines = done.stderr.splitlines()
        is_so = (done.returncode, done.stdout, len(lines)) == (2, b"", 1) and told in lines[0]
        holds(f"refuses {words}", is_so and lines[0].startswith(b"bufr-csv: ") and b"--help" in lines[0], done)
    keys = [*bufr_text.HEADER, "optional", "subsets"]
    alike("all keys", run("-c", ",".join(keys), SYNOP), ["message", "subset", *keys], wanted_rows([SYNOP], keys), False)
    done = run("-c", "012101", "-c", "001015, 012101", SYNOP)
    holds("-c twice", done.stdout.startswith(b"message,subset,012101,001015,012101\n"), done)


def failures(folder: pathlib.Path) -> None:
    """If a write or a program fails, `bufr-csv` prints one line and exits with status 2. SIGPIPE ends it silently."""
    large = folder / "large"
    large.write_bytes((SYNOP.read_bytes() + SOUNDING.read_bytes()) * 300)
    awks = [awk for awk in AWKS if shutil.which(awk[0])]
    for awk in awks:
        for words in ([], ["-c", "001015"]):
            for file in (SYNOP, large):
                with open("/dev/full", "wb") as full:
                    done = run(*words, file, awk=awk, stdout=full)
                told = b"bufr-csv: write failed: No space left on device\n"
                holds(f"{awk} {words}: a full device", (done.returncode, done.stderr) == (2, told), done)
        reader, pipe = os.pipe()
        os.close(reader)
        done = run(large, awk=awk, stdout=pipe)
        os.close(pipe)
        holds(f"{awk}: a reader that has gone", (done.returncode, done.stderr) == (-signal.SIGPIPE, b""), done)
    command = f"'{sys.executable}' scripts/bufr-csv -c 001015 '{large}' | head -n 1"
    environment = {**os.environ, "BUFR": program()}
    done = subprocess.run(["bash", "-c", command], cwd=TOP, capture_output=True, env=environment)
    holds("| head -n 1", (done.stdout, done.stderr) == (b"message,subset,001015\n", b""), done)

    def script(name: str, lines: str) -> str:
        path = folder / name
        path.write_text(f"#!/bin/sh\n{lines}\n")
        path.chmod(0o755)
        return str(path)

    # The reason for the failure is printed after awk's notes.
    done = run("-c", "001015,040001", SYNOP, "nosuch")
    told = b"bufr-csv: column 040001 is empty because no row contains this item\n"
    told += b"bufr-csv: cannot open nosuch: No such file or directory\n"
    holds("a file that does not exist", (done.returncode, done.stderr) == (2, told), done)
    tables = folder / "invalid" / "wmo-39"
    shutil.copytree(TOP / "tables/wmo-39", tables)
    with (tables / "D.csv").open("a") as table:
        table.write("no row\n")
    (tables.parent / "wmo-13").symlink_to(TOP / "tables/wmo-13")
    # The second stream has two parts, the second of which needs two table sets.
    octets = SYNOP.read_bytes()
    (folder / "parts").write_bytes(octets * 8000 + lib.asking(octets, 13) + octets)
    for path in (SYNOP, folder / "parts"):
        done = run("-c", "001015", path, environment={"BUFR_TABLES": str(tables.parent)})
        told = f"table D: 45 csv\nbufr-csv: cannot use {tables}/D.csv: 45 csv\n".encode()
        holds("an invalid table", (done.returncode, done.stdout, done.stderr) == (2, b"message,subset,001015\n", told), done)

    killed = script("killed", "head -c 5000 > /dev/null; kill -9 $$")
    for words in ([], ["-c", "001015,file"], ["--json"]):
        done = run(*words, large, awk=[killed])
        told = f"bufr-csv: {killed} was killed (signal 9); output is incomplete\n".encode()
        holds(f"{words}: awk is killed", (done.returncode, done.stderr) == (2, told), done)
    killed = script("killed_at_end", "awk \"$@\"; kill -9 $$")
    done = run("-c", "001015", SYNOP, awk=[killed])
    holds("awk is killed at its end", done.returncode == 2 and b"killed_at_end" in done.stderr, done)
    done = run("-c", "001015", large, awk=[script("gone", "head -c 5000 > /dev/null")])
    lines = done.stderr.splitlines()
    holds("awk ends early", done.returncode == 2 and len(lines) == 1 and lines[0].endswith(b"gone stopped before the end of its input; output is incomplete"), done)
    silent = script("silent", "cat > /dev/null; exit 2")
    done = run("-c", "001015", SYNOP, awk=[silent])
    hint = f"; if {os.environ.get('TMPDIR') or '/tmp'} is full, set TMPDIR to another directory"
    told = f"bufr-csv: {silent} exited with status 2; output is incomplete{hint}\n".encode()
    holds("awk fails without a word", (done.returncode, done.stderr) == (2, told), done)
    done = run("-c", "001015", SYNOP, awk=["/nosuch/awk"])
    told = b"bufr-csv: cannot run /nosuch/awk: No such file or directory\n"
    holds("there is no awk", (done.returncode, done.stderr) == (2, told), done)
    for words in ([], ["-c", "001015,file"]):
        part = f"'{program()}' \"$@\" > '{folder}/text'; head -c 3000 '{folder}/text'; kill -9 $$"
        other = script("bufr", f"[ \"$1\" = dump ] || exec '{program()}' \"$@\"\n{part}")
        done = run(*words, large, environment={"BUFR": other})
        lines = done.stderr.splitlines()
        holds(f"{words}: bufr is killed", done.returncode == 2 and len(lines) == 1 and b"bufr" in lines[0][9:], done)
    other = script("bufr", f"[ \"$1\" = dump ] || kill -9 $$; exec '{program()}' \"$@\"")
    done = run("-c", "001015", "--where", "category=0", SYNOP, environment={"BUFR": other})
    told = b"bufr-csv: bufr was killed (signal 9); output is incomplete\n"
    holds("bufr ls is killed", (done.returncode, done.stderr) == (2, told), done)
    done = run("-c", "001015", SYNOP, environment={"BUFR": "/nosuch/bufr"})
    holds("there is no bufr", done.returncode == 2 and b"cannot run /nosuch/bufr" in done.stderr, done)
    for word in ("", " "):
        done = run("-c", "001015", SYNOP, environment={"AWK": word})
        holds(f"AWK={word!r}", (done.returncode, done.stdout.count(b"\n")) == (0, 4), done)
    (folder / "no-tables/wmo-39").mkdir(parents=True)
    done = run("-c", "AIR TEMPERATURE", SYNOP, environment={"BUFR_TABLES": str(folder / "no-tables")})
    told = f"set BUFR_TABLES to a directory that contains one; ignored {folder}/no-tables/wmo-39 because it does not contain B.csv".encode()
    holds("there is no table", done.returncode == 2 and told in done.stderr, done)
    done = run("-c", "AIR TEMPERATURE", SYNOP, environment={"BUFR_TABLES": "/nosuch"})
    holds("there are no tables", done.returncode == 2 and b"/nosuch" in done.stderr, done)
    done = run("-c", "012101,012104", SYNOP, stderr=open("/dev/full", "wb"))
    holds("a note to a full device", done.returncode == 2, done)


def feed(awk: list, _folder: pathlib.Path) -> None:
    """In a live feed, `bufr-csv` writes the rows of a message before the next message arrives."""
    for words in (["-c", "001015"], ["-c", "offset,001015", "--json"], [], ["-c", "001015", SYNOP, "-"]):
        command = [sys.executable, TOP / "scripts/bufr-csv", *words]
        environment = {**os.environ, "BUFR": program(), "AWK": " ".join(awk)}
        pipe = subprocess.PIPE
        with subprocess.Popen(command, stdin=pipe, stdout=pipe, stderr=subprocess.DEVNULL, env=environment) as process:
            for octets, last in ((SYNOP.read_bytes(), b"SAENTIS"), (BUOYS.read_bytes(), b"LION")):
                process.stdin.write(octets)
                process.stdin.flush()
                read = b""
                while last not in read and select.select([process.stdout], [], [], 20)[0]:
                    block = os.read(process.stdout.fileno(), 1 << 16)
                    read += block
                    if not block:
                        break
                holds(f"{awk} {words}: a live feed", last in read, read[-100:])
            process.stdin.close()
            process.stdout.read()
        if complaints:
            return  # further waits for missing rows would take a long time
    # When the feed pauses, bufr-auto prints notes about tables, and awk prints notes about subsets without levels.
    environment, told = {**os.environ, "BUFR": program(), "AWK": " ".join(awk)}, b""
    command = [sys.executable, TOP / "scripts/bufr-csv", "--levels", "-c", "020011"]
    with subprocess.Popen(command, stdin=pipe, stdout=subprocess.DEVNULL, stderr=pipe, env=environment) as process:
        process.stdin.write(lib.asking(lib.message(b"\x14"), 45))
        process.stdin.flush()
        while told.count(b"\n") < 2 and select.select([process.stderr], [], [], 20)[0]:
            told += os.read(process.stderr.fileno(), 1 << 16)
        is_right = told.startswith(b"bufr-csv: 1 message so far, at offset 0: table version 45 ") and told.endswith(
            b"\nbufr-csv: skipped a subset without levels: message 1, subset 1;"
            b" further subsets without levels will not be reported\n"
        )
        holds(f"{awk}: the notes of a live feed", is_right, told)
        process.stdin.close()
        told = process.stderr.read()
        holds(f"{awk}: the notes of a live feed at its end", told == b"bufr-csv: column 020011 is empty because no row contains this item\n", told)


def note_on_years(_folder: pathlib.Path) -> None:
    """In a live feed, the note about messages that were left out says that the count covers only the messages so far."""
    command, pipe = [sys.executable, TOP / "scripts/bufr-csv", "-c", "001006", "--where", "time=2006"], subprocess.PIPE
    environment, told = {**os.environ, "BUFR": program()}, b""
    with subprocess.Popen(command, stdin=pipe, stdout=subprocess.DEVNULL, stderr=pipe, env=environment) as process:
        process.stdin.write((TOP / "examples/aircraft.bufr").read_bytes())
        process.stdin.flush()
        while b"\n" not in told and select.select([process.stderr], [], [], 20)[0]:
            told += os.read(process.stderr.fileno(), 1 << 16)
        holds("a note on years", told.startswith(b"bufr-csv: left out 1 edition 3 message so far, "), told)
        process.stdin.close()
        process.stderr.read()


def few_files(_folder: pathlib.Path) -> None:
    """`bufr-csv --where` can read a live feed in 40 parts with at most 32 open files."""
    command = [sys.executable, TOP / "scripts/bufr-csv", "--where", "edition=4", "-c", "001015"]
    limit = lambda: resource.setrlimit(resource.RLIMIT_NOFILE, (32, 32))  # noqa: E731
    with subprocess.Popen(command, stdin=subprocess.PIPE, stdout=subprocess.PIPE, preexec_fn=limit) as process:
        for _ in range(40):
            process.stdin.write(SYNOP.read_bytes())
            process.stdin.flush()
            read = b""
            while b"SAENTIS" not in read and select.select([process.stdout], [], [], 20)[0]:
                read += (block := os.read(process.stdout.fileno(), 1 << 16))
                if not block:
                    break
            if b"SAENTIS" not in read:
                break
        process.stdin.close()
        process.stdout.read()
    holds("40 parts of a feed with conditions", process.returncode == 0, process.returncode)


def seconds(folder: pathlib.Path) -> None:
    """`bufr-csv` takes at most 1.5 times as much processor time as a pipeline of bufr-auto and table.awk."""
    words = ["-c", "001015,012101"]
    large = folder / "hour"
    large.write_bytes(b"".join(path.read_bytes() for path in sorted(EXAMPLES.glob("*.bufr"))) * 1000)
    os.environ["BUFR"] = program()
    script = TOP / "scripts/table.awk"
    by_hand = f"scripts/bufr-auto '{large}' 2> /dev/null | awk -v columns={words[1]} -f '{script}' > /dev/null"
    at_once = f"scripts/bufr-csv {' '.join(words)} '{large}' > /dev/null 2>&1; true"
    other, one = lib.least_seconds([["bash", "-c", command] for command in (at_once, by_hand)], 1.5, cwd=TOP)
    print(f"tests/bufr_csv.py: bufr-csv {other:.2f} s of processor time, bufr-auto and awk {one:.2f} s")
    holds("processor time", other <= 1.5 * one, (other, one))


def main() -> None:
    os.environ["BUFR"] = program()
    with tempfile.TemporaryDirectory() as place:
        folder = pathlib.Path(place)
        feeds = [functools.partial(feed, awk) for awk in AWKS if shutil.which(awk[0])]
        if shutil.which("mawk"):  # also run it under another name, because Debian installs it as awk
            (folder / "other").symlink_to(shutil.which("mawk"))
            feeds.append(functools.partial(feed, [str(folder / "other")]))
        parts = [names, selection, several_files, notes, refusals, failures, note_on_years, few_files]
        parts += [against_bufr_text, same_with_each_awk]
        for part in [*parts, *feeds, seconds]:
            if not complaints:
                part(folder)
        for awk in AWKS:
            if not shutil.which(awk[0]):
                print(f"tests/bufr_csv.py: skipped, {awk[0]} is not installed")
    finish(complaints)


if __name__ == "__main__":
    main()
