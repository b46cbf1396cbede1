#!/usr/bin/env python3
"""Tests the rows that scripts/table.awk makes for subsets and levels, with each installed awk.

    tests/table_awk_subsets_and_levels.py [PROGRAM]

The test also covers notes about columns, invalid columns, rows that are joined with a listing, running time and memory use.
"""
import csv
import itertools
import os
import pathlib
import re
import shutil
import subprocess
import tempfile

import lib
from lib import TABLES, TOP, want
from table_awk import AWKS

SCRIPT = TOP / "scripts/table.awk"
# Nested groups, a factor after the last pass of a group, and an item after all passes.
NESTED = b"""message
subset 1
012101 1.0
031001 2
007004 100
031001 2
011001 1
011001 2
012101 5.0
007004 200
031001 0
012101 MISSING
031001 1
007004 300
011061 9.0
012101 7.0
031000 0
012101 8.0
012103 8.5
031002 2
007004 400
012101 9.0
007004 500
012101 9.5
012103 2.5
end
"""
# Three passes with inner groups of different lengths, a group with no passes, and three groups with one pass each. Some lines
# are not items.
VARIED = b"message\nsubset 1\n031001 3\nR 012101 5\n# a note\n\n007004 1\n031001 2\n011001 3\n011001 4\n012101 1.0\n"
VARIED += b"007004 2\n031001 0\n012101 2.0\n007004 3\n031001 1\n011001 3\n012101 3.0\n"
VARIED += b"031001 0\n" + b"".join(b"031001 1\n007004 %d\n012101 %d.0\n" % (level, level) for level in (4, 5, 6)) + b"end\n"
# Passes that begin and end with the same descriptor. The tests fill in the factor, 2 or 3.
ENCLOSED = b"message\nsubset 1\n031001 %d\n" + b"008002 1\n020011 2\n008002 MISSING\n" * 3 + b"end\n"
# Escapes, lines that are skipped, and comments that are not UTF-8.
ODD = b"""# a note

message
edition 4
centre 74
subset 1
012101 28.5  # T\xDF [\xB0C]
R 012101 -400
001015 "A \\"B\\\\"  # N\xDF [\xB0C]
001015 "\\\\\\\\\\" # \\\\\\"  "  # N\xDF [\xB0C]
012101 MISSING  # T\xDF [\xB0C]
001015 ""
end
"""
# Two passes, followed by an item that is not in a column, and one that is.
BEHIND = b"message\nsubset 1\n031001 2\n007004 1\n012101 1.0\n007004 2\n012103 2.0\n002001 1\n012101 3.0\nend\n"
WORDS = ["airTemperature", "01210", "0121011", "412101", "064001", "001256", "012101,x", "012101,", "local1", "optiona", "file"]


def run(awk: list, text: bytes, **variables) -> tuple:
    words = [word for name, value in variables.items() for word in ("-v", f"{name}={value}")]
    done = subprocess.run(
        [*awk, *words, "-f", SCRIPT],
        input=text,
        stdout=subprocess.PIPE,
        stderr=subprocess.PIPE,
        env={**os.environ, "LC_ALL": "C.UTF-8"},
    )
    return done.returncode, done.stdout.decode(), done.stderr.decode()


def tries_wide(awk: list, text: bytes) -> None:
    head = "message,subset,001002,012101:100,063255\n"
    told = "table.awk: column 012101:100 is empty because no row contains this item\ntable.awk: column 063255 is empty because no row contains this item\n"
    wanted = (0, head + "1,1,836,,\n1,2,772,,\n1,3,680,,\n", told)
    want(
        run(awk, text, columns="001002, 012101:100,063255") == wanted,
        f"{awk}: empty columns have no note",
    )
    status, output, errors = run(awk, ODD, columns="centre,012101,012101:2,001015,001015:2,001015:3")
    rows = list(csv.reader(output.splitlines()))[1:]
    wanted = ["1", "1", "74", "28.5", "", 'A \\"B\\\\', '\\\\\\\\\\" # \\\\\\"', ""]
    want((status, rows, errors) == (0, [wanted], ""), f"{awk}: of odd texts there are {rows}: {errors}")
    second = list(csv.reader(run(awk, ODD, columns="001015:2")[1].splitlines()))[1:]
    want(second == [wanted[:2] + wanted[-2:-1]], f"{awk}: a second text alone is {second}")
    want(run(awk, b"", columns="012101") == (0, "message,subset,012101\n", ""), f"{awk}: without a message, something is reported")
    bare, told = run(awk, b"message\nend\n", columns="012101"), "table.awk: column 012101 is empty because no row contains this item\n"
    want(bare == (0, "message,subset,012101\n", told), f"{awk}: of a message without a subset it makes {bare}")
    head = re.findall(rb"^(\w+) (\d+)$", text, re.M)[:20]
    status, output, errors = run(awk, text, columns=",".join(key.decode() for key, _ in head))
    row = output.splitlines()[-1].split(",")
    want(row == ["1", "3", *(value.decode() for _, value in head)], f"{awk}: the header's columns are {row}")
    for word in [*WORDS, "012101:0", "012101:", "012101:x"]:
        status, output, errors = run(awk, text, columns=word)
        told = f"table.awk: expected a six-digit descriptor or a header key, found '{word.rpartition(',')[2]}'\n"
        want((status, output, errors) == (2, "", told), f"{awk}: it takes {word}: {errors}")
    for words in ({"keep": "year", "columns": "012101"}, {"keep": "012101"}, {"levels": "1"}):
        status, output, _ = run(awk, text, **words)
        want((status, output) == (2, ""), f"{awk}: it takes {words}")
    status, _, errors = run(awk, text[:-4], columns="001001")
    want((status, errors) == (2, "table.awk: the dump is incomplete: it ends in the middle of a message\n"), f"{awk}: a cut text gives {errors}")


class Stream:
    """A stream in which some messages are rejected, its dump, and files with its listing and its fault lines."""

    def __init__(self, folder: pathlib.Path) -> None:
        # Table version 13 lacks sequences and elements that some of these messages need.
        tables = [word.replace("wmo-39", "wmo-13") for word in TABLES]
        paths = sorted((TOP / "examples").glob("*.bufr"), key=lambda path: path.stem != "sounding")
        octets = b"".join(path.read_bytes() + b"BUFR" for path in paths)
        self.sounding = octets.index((TOP / "examples/sounding.bufr").read_bytes())
        (folder / "stream").write_bytes(octets)
        self.listing, self.faults, self.empty = folder / "listing", folder / "faults", folder / "empty"
        self.empty.touch()
        for path, words, output in ((self.listing, ["ls"], 1), (self.faults, ["dump", *tables], 2)):
            done = subprocess.run(
                [lib.program(), *words, folder / "stream"], stdout=subprocess.PIPE, stderr=subprocess.PIPE
            )
            path.write_bytes(done.stdout if output == 1 else b"1 message, at offset 99999999: of another program\n" + done.stderr)
        self.text, self.places = done.stdout.replace(b"\nedition", b"\n# a note\nedition"), []
        # Dump each message separately to find out which messages are in the dump.
        for offset, length in re.findall(rb"^offset=(\d+) length=(\d+) ", self.listing.read_bytes(), re.M):
            one = octets[int(offset) : int(offset) + int(length)]
            words = [lib.program(), "dump", *tables]
            if subprocess.run(words, input=one, stdout=subprocess.PIPE, stderr=subprocess.DEVNULL).stdout:
                self.places.append((offset.decode(), length.decode()))


def tries_offsets(awk: list, stream: Stream) -> None:
    files = {"listing": stream.listing, "faults": stream.faults}
    status, output, errors = run(awk, stream.text, columns="offset,length", **files)
    rows = [tuple(row.split(",")) for row in output.splitlines()[1:]]
    wanted = [place for number, place in enumerate(stream.places, 1) if str(number) in {row[0] for row in rows}]
    want((status, errors) == (0, ""), f"{awk}: offsets end with {status}: {errors}")
    want(list(dict.fromkeys(row[2:] for row in rows)) == wanted, f"{awk}: the offsets are {rows}, not {wanted}")
    status, output, errors = run(awk, stream.text, levels="1", keep="offset,year", columns="007004", **files)
    rows = {tuple(row.split(",")[2:4]) for row in output.splitlines()[1:]}
    want((str(stream.sounding), "2023") in rows and status == 0, f"{awk}: levels have offsets {rows}: {errors}")
    for columns in ({"columns": "length"}, {"levels": "1", "keep": "offset", "columns": "007004"}):
        for given, told in [
            ({}, "columns 'offset' and 'length' require"),
            ({"listing": stream.listing}, "columns 'offset' and 'length' require"),
            ({"faults": stream.faults}, "columns 'offset' and 'length' require"),
            ({"listing": stream.listing, "faults": stream.empty}, "the listing has more messages than the dump"),
            ({"listing": stream.empty, "faults": stream.faults}, "the dump has more messages than the listing"),
            ({"listing": stream.faults, "faults": stream.faults}, "is not the output of bufr ls"),
            ({"listing": "nosuch", "faults": stream.faults}, "cannot read nosuch"),
            ({"listing": stream.listing, "faults": "nosuch"}, "cannot read nosuch"),
        ]:
            status, _, errors = run(awk, stream.text, **columns, **given)
            is_so = status == 2 and told in errors and errors.count("\n") == 1
            want(is_so, f"{awk}: {columns} with {given} ends with {status}: {errors}")


def tries_speed(awk: list, text: bytes, folder: pathlib.Path) -> None:
    """Skipping items that are in no column must take at most 2 times (subsets) or 4 times (levels) as long as counting lines.

    Processing all items would take 12 times as long.
    """
    path = folder / "text"
    path.write_bytes(text * (16_000_000 // len(text)))
    for columns, most in [
        (["columns=001001,001002,012101"], 2),
        (["levels=1", "keep=001001", "columns=007004,012101,012103"], 4),
    ]:
        words = [word for column in columns for word in ("-v", column)]
        commands = [*awk, *words, "-f", SCRIPT, path], [*awk, '$1 == "012101" { count++ } END { print count }', path]
        # In this locale, a character can have several bytes.
        spent, least = lib.least_seconds(commands, most, env={**os.environ, "LC_ALL": "C.UTF-8"})
        want(spent <= most * least, f"{awk}: {columns} takes {spent / least:.1f} times as long as a count, over {most}")


def tries_memory(awk: list, folder: pathlib.Path) -> None:
    """table.awk must not cache the name of every item: 100,000 names may need at most 10 MB more memory than 20,000."""
    sizes = []
    for count in (20_000, 100_000):
        lines = (f"012101 1  # A NAME OF AN ELEMENT OF A TABLE {number} [K]\n" for number in range(count))
        path = folder / "names"
        with open(path, "w") as text:  # line by line, because a child's measured memory includes that of this process
            text.writelines(itertools.chain(["message\nsubset 1\n"], lines, ["end\n"]))
        status, usage = lib.usage_of([*awk, "-f", SCRIPT, path], stdout=subprocess.DEVNULL)
        want(status == 0, f"{awk}: {count} names end with {status}")
        sizes.append(usage.ru_maxrss)
    want(sizes[1] - sizes[0] < 10_000, f"{awk}: 20,000 and 100,000 names take {sizes} KB")


def tries_levels(awk: list, sounding: bytes, synop: bytes) -> None:
    status, output, errors = run(
        awk, sounding, levels="1", keep="001002", columns="007004,010009,012101,012103,011002"
    )
    rows = list(csv.reader(output.splitlines()))
    want((status, errors, len(rows)) == (0, "", 29), f"{awk}: there are {len(rows)} rows: {errors}")
    want(rows[1] == "1,1,836,98520,179,258.55,256.65,1.0".split(","), f"{awk}: the first level is {rows[1]}")
    want(rows[-1] == "1,1,836,3000,23115,210.15,,".split(","), f"{awk}: the last level is {rows[-1]}")
    head = "message,subset,001015,007004,011061\n"
    wanted = (0, head + "1,1,,31800,6.4\n", "table.awk: column 001015 is empty because no row contains this item\n")
    want(
        run(awk, sounding, levels="1", keep="001015", columns="007004,011061") == wanted,
        f"{awk}: the wind shear is another",
    )
    status, output, errors = run(awk, synop, levels="1", keep="year,001015", columns="020012,020011")
    wanted = "message,subset,year,001015,020012,020011\n"
    wanted += "".join(f"1,{row}\n" for row in ['2,2023,"HEATHROW",7,2', '2,2023,"HEATHROW",8,5', '2,2023,"HEATHROW",5,8'])
    wanted += '1,3,2023,"SAENTIS",3,1\n1,3,2023,"SAENTIS",6,8\n'
    told = "table.awk: skipped a subset without levels: message 1, subset 1\n"
    want((status, output, errors) == (0, wanted, told), f"{awk}: the clouds are {output}: {errors}")
    # An item after a group with two or more passes does not belong to any of these passes.
    rows = "message,subset,012101,007004,012101,011001\n1,1,1.0,100,5.0,1\n1,1,1.0,200,,\n1,1,1.0,300,7.0,\n"
    rows += "1,1,1.0,400,9.0,\n1,1,1.0,500,9.5,\n"
    nested = run(awk, NESTED, levels="1", keep="012101", columns="007004,012101,011001")
    want(nested == (0, rows, ""), f"{awk}: nested groups give {nested}")
    varied = run(awk, VARIED, levels="1", columns="007004,012101")
    rows = "".join(f"1,1,{level},{level}.0\n" for level in range(1, 7))
    want(varied == (0, "message,subset,007004,012101\n" + rows, ""), f"{awk}: levels of different lengths are {varied}")
    # A level without an item for the first column has no row.
    first = run(awk, NESTED, levels="1", columns="011001,007004")
    want(first == (0, "message,subset,011001,007004\n1,1,1,100\n", ""), f"{awk}: levels by an inner descriptor are {first}")
    behind = run(awk, NESTED, levels="1", columns="007004,012103")
    told = "table.awk: column 012103 is empty because 012103 occurs only outside the levels; "
    told += "to get its first two values, pass -v keep=012103,012103:2\n"
    told += "table.awk: skipped a subset without levels: message 1, subset 1\n"
    wanted = (0, "message,subset,007004,012103\n", told)
    want(behind == wanted, f"{awk}: an item behind all passes is in a row: {behind}")
    behind = run(awk, BEHIND, levels="1", columns="007004,012101,012103")
    wanted = (0, "message,subset,007004,012101,012103\n1,1,1,1.0,\n1,1,2,,2.0\n", "")
    want(behind == wanted, f"{awk}: an item behind two passes is in a row: {behind}")
    # Items in a subset without levels do not fill a column. A factor need not be followed by any items.
    bare = "table.awk: skipped {} message 1, subset 1\n"
    one, two = "a subset without levels:", "2 subsets without levels; the first is"
    status, _, errors = run(awk, ODD + BEHIND, levels="1", keep="001015", columns="007004,012101")
    told = "table.awk: column 001015 is empty because no row contains this item\n" + bare.format(one)
    want((status, errors) == (0, told), f"{awk}: a column of a subset without a level is told as {errors}")
    empty = run(awk, b"message\nsubset 1\n031001 2\nsubset 2\n012101 1.0\nend\n", levels="1", columns="012101")
    outside = "table.awk: column 012101 is empty because 012101 occurs only outside the levels; pass -v keep=012101 instead\n"
    wanted = (0, "message,subset,012101\n", outside + bare.format(two))
    want(empty == wanted, f"{awk}: passes without items give {empty}")
    _, _, errors = run(awk, ODD, levels="1", keep="001015", columns="012101")
    several = outside.partition("; ")[0] + "; to get its first two values, pass -v keep=012101,012101:2\n"
    told = several + bare.format(one)
    want(errors == told, f"{awk}: without a level, a kept column is told as {errors}")
    # The descriptor that begins a pass occurs twice before an inner group.
    again = b"message\nsubset 1\n031001 3\n" + b"007004 1\n007004 2\n031001 1\n011001 3\n" * 3 + b"end\n"
    status, output, errors = run(awk, again, levels="1", columns="007004")
    is_so = (status, output.count("\n")) == (1, 1) and "ambiguous levels: message 1, subset 1 (007004 begins a level and occurs again in it); to get its items, run " in errors
    want(is_so, f"{awk}: a descriptor that comes again gives {status}, {output}, {errors}")
    # Only the subsets with ambiguous passes are skipped.
    good = BEHIND.splitlines(True)
    both = b"".join([*good[:-1], *(ENCLOSED % 3).splitlines(True)[2:-1], *good[2:]])
    between = both + NESTED + ENCLOSED % 2 + ODD + NESTED
    status, output, errors = run(awk, between, levels="1", columns="007004,012101")
    told = "table.awk: skipped a subset without levels: message 4, subset 1\n"
    told += "table.awk: skipped 2 subsets with ambiguous levels; the first is message 1, subset 1 (008002 begins a level and occurs again in it)"
    told += "; to get their items, run table.awk without levels= or columns=\n"
    want((status, errors) == (1, told), f"{awk}: ambiguous passes give {status}, {errors}")
    rows = [line.split(",")[0] for line in output.splitlines()[1:]]
    want(rows == ["2"] * 5 + ["5"] * 5, f"{awk}: beside ambiguous passes there are {output}")
    after = ENCLOSED % 3 + b"message\nsubset 1\n031001 1\n008002 9\n020011 5\nend\n"
    status, output, _ = run(awk, after, levels="1", columns="008002,020011")
    wanted = (1, "message,subset,008002,020011\n2,1,9,5\n")
    want((status, output) == wanted, f"{awk}: after ambiguous passes, the rows are {output}")
    # Three passes, with lines that are not items before the second.
    head, one, rest = (b"".join(ODD.splitlines(True)[part]) for part in (slice(6), slice(6, 10), slice(10, None)))
    odd = head + b"031001 3\n" + one + b"\n# a note\n" + one + one + rest
    status, output, errors = run(awk, odd, levels="1", keep="centre", columns="012101,001015")
    rows = list(csv.reader(output.splitlines()))[1:]
    wanted = (0, [["1", "1", "74", "28.5", 'A \\"B\\\\']] * 3, "")
    want((status, rows, errors) == wanted, f"{awk}: of odd texts the levels are {rows}: {errors}")
    status, _, errors = run(awk, NESTED[:-4], levels="1", columns="007004")
    want((status, errors) == (2, "table.awk: the dump is incomplete: it ends in the middle of a message\n"), f"{awk}: a cut text gives {errors}")
    for word in WORDS:
        for names in ({"columns": word}, {"columns": "007004:2"}, {"keep": word, "columns": "007004"}):
            status, output, errors = run(awk, sounding, levels="1", **names)
            more, last = " or a header key" * ("keep" in names), list(names.values())[0].rpartition(",")[2]
            told = f"table.awk: expected a six-digit descriptor{more}, found '{last}'\n"
            want((status, output, errors) == (2, "", told), f"{awk}: levels take {names}: {errors}")


def main() -> None:
    synop, sounding = (
        subprocess.run(
            [lib.program(), "dump", *TABLES, TOP / f"examples/{name}.bufr"], stdout=subprocess.PIPE, check=True
        ).stdout
        for name in ("synop", "sounding")
    )
    with tempfile.TemporaryDirectory() as place:
        folder = pathlib.Path(place)
        stream = Stream(folder)
        for awk in AWKS:
            if not shutil.which(awk[0]):
                print(f"table_awk_subsets_and_levels: skipped, {awk[0]} is not installed")
                continue
            tries_wide(awk, synop)
            tries_levels(awk, sounding, synop)
            tries_offsets(awk, stream)
            if awk == ["gawk"]:
                tries_speed(awk, synop + sounding, folder)
                tries_memory(awk, folder)


if __name__ == "__main__":
    main()
