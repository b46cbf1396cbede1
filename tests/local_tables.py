#!/usr/bin/env python3
"""Tests table sets with local rows: bufr-lacks says how to make a missing set, convert.py makes it, and bufr-auto uses it.

    tests/local_tables.py [PROGRAM]

Most messages come from centre 98 and need the tables 0/13/102. The local rows are made up, and are in wreport's format. If
wreport is installed, its rows are converted, too.
"""
import os
import pathlib
import re
import shutil
import subprocess
import sys
import tempfile

import lib
from lib import TOP, finish, program

WREPORT = pathlib.Path("/usr/share/wreport/B0000000000098013102.txt")
# A centre's elements and sequence. The row for 0 12 101 is outdated, and WMO's row must replace it.
TABLE_B = """\
 001212 MADE UP: NUMBER OF A BUOY IN THE ARCTIC                          NUMERIC                    0            0  16
 001213 MADE UP: KIND OF BUOY                                            CODETABLE  1213            0            0   4
 012101 TEMPERATURE/DRY-BULB TEMPERATURE                                 K                          1       - 1000  12
"""
TABLE_D = """\
 301250  3 001212
           001213
           012101
 301250  1 001213
"""
LOOKUP = "(to find the centre's name, look up {} in WMO's Common Code Table C-11)\n"
ASK = "no public source is known for these tables; ask the centre for them " + LOOKUP
TEXT = """\
message
edition 4
master 0
centre 98
subcentre 0
update 0
category 0
subcategory 0
localsubcategory 0
masterversion 13
localversion 102
year 2024
month 1
day 2
hour 3
minute 4
second 5
observed 1
compressed 0
optional 0
subsets 1
descriptors 301250
subset 1
001212 4711  # MADE UP: NUMBER OF A BUOY IN THE ARCTIC [NUMERIC]
001213 MISSING  # MADE UP: KIND OF BUOY [CODE TABLE 1213]
012101 273.15  # TEMPERATURE/DRY-BULB TEMPERATURE [K]
end
"""


def made(version: int, local: int, centre: int, descriptors: str, data: bytes) -> bytes:
    return lib.asking(lib.message(data, lib.words(descriptors)), version, local, centre)


def of_eccodes(tables: pathlib.Path, centre: int, local: int) -> str:
    """Returns the advice for a missing set whose tables are in Debian's ecCodes package, whether or not it is installed."""
    folder = f"/usr/share/eccodes/definitions/bufr/tables/0/local/{local}/{centre}/0"
    debian = "" if pathlib.Path(folder).exists() else "install libeccodes-data (Debian), then "
    return f"to make it, {debian}run: {TOP}/tables/convert.py {tables}+{centre}-{local} {tables} {folder}\n"


def of_definitions(place: pathlib.Path, script, holds) -> None:
    """The command in a note makes a table set from ecCodes' definitions, so that `bufr-auto` can dump the message."""
    folder = place / "definitions/bufr/tables/0/local/5/7/0"
    folder.mkdir(parents=True)
    (folder / "element.table").write_text("#code|..\n063255|a|long|MADE UP|Numeric|0|0|8\n")
    (folder / "sequence.def").write_text('"363001" = [ 063255 ]\n')
    errors = script("bufr-lacks", made(19, 8, 78, "063255", b""))[2]
    wanted = f"bufr-lacks: the table set wmo-37+78-8 is missing; {of_eccodes(place / 'tables/wmo-37', 78, 8)}"
    holds("what ecCodes has", errors, wanted)
    message = made(17, 5, 7, "363001", b"\3")
    for name in ("bufr-auto", "bufr-lacks"):
        _, _, errors = script(name, message * 2)
        [note] = [line for line in errors.splitlines() if line.startswith(name)]
        command = note.partition("; to make it, run: ")[2]
        holds(f"the command of {name}", subprocess.run(command, shell=True, stderr=subprocess.STDOUT).returncode, 0)
        status, output, errors = script("bufr-auto", message)
        holds(f"a dump after the command of {name}", (status, "063255 3 " in output, errors), (0, True, ""))
        holds("what is missing then", script("bufr-lacks", message), (0, "", ""))
        shutil.copytree(place / "tables/wmo-17+7-5", place / "tables/wmo-17+9-5")
        later = made(18, 5, 9, "363001", b"\3")
        command = script(name, later)[2].splitlines()[-1].partition("; to make it, run: ")[2]
        holds(f"{name} on a later version", subprocess.run(command, shell=True, stderr=subprocess.STDOUT).returncode, 0)
        status, output, errors = script("bufr-auto", later)
        holds(f"a dump with the rows of an earlier set after {name}", (status, "063255 3 " in output, errors), (0, True, ""))
        for set in ("wmo-17+9-5", "wmo-18+9-5"):
            shutil.rmtree(place / "tables" / set, ignore_errors=True)
        asking = "bufr-lacks: the table set wmo-17+7-5 lacks rows that the messages need; ask centre 7 for its tables " + LOOKUP.format(7)
        for fxy in ("063254", "001191"):
            unknown = script("bufr-lacks", made(17, 5, 7, fxy, b"\3"))[2]
            holds(f"a set without a row for {fxy}", unknown, asking)
        shutil.rmtree(place / "tables/wmo-17+7-5")


def in_packages(holds) -> None:
    """If Debian's ecCodes or wreport package is installed, it must contain exactly the sets that bufr_sets.py lists for it."""
    sys.path.insert(0, str(TOP / "scripts"))
    import bufr_sets

    local = pathlib.Path(bufr_sets.ECCODES, "bufr/tables/0/local")
    found = [re.fullmatch(r"(\d+)/(\d+)/0", str(path.relative_to(local))) for path in local.glob("*/*/0")]
    if found:
        holds("centres of ecCodes", {(int(one[2]), int(one[1])) for one in found if one}, bufr_sets.ECCODES_HAS)
    names = [path.name for path in pathlib.Path(bufr_sets.WREPORT).glob("B*.txt")]
    numbers = [re.fullmatch(r"B0{8}(\d{5})(\d{3})(\d{3})\.txt", name) for name in names]
    if numbers:
        sets = {(int(one[2]), int(one[1]), int(one[3])) for one in numbers if one}
        holds("centres of wreport", {one for one in sets if one[1:] != (0, 0)}, bufr_sets.WREPORT_HAS)


def versions_and_editions(script, holds) -> None:
    """`bufr-lacks` uses the latest set for later versions, and finds the descriptor list in messages of both editions."""
    holds("of a later version", script("bufr-lacks", made(41, 0, 98, "013164", b"\1")), (0, "", ""))
    wanted = "1 message from centre 98/0, tables 0/41/0, lacks 001255\n"
    newer = "bufr-lacks: the table set wmo-41 is missing; get newer tables from WMO (wmo-im/BUFR4 on GitHub), and convert them with tables/convert.py\n"
    holds("a row of a later version", script("bufr-lacks", made(41, 0, 98, "001191", b"\1")), (1, wanted.replace("255", "191"), newer))
    question = "ask centre 98 which table version its messages use " + LOOKUP.format(98)
    asking = "bufr-lacks: the table set wmo-13 lacks rows that the messages need; " + question
    wanted = "1 message from centre 98/0, tables 0/13/0, lacks 013164\n"
    holds("a row of another version", script("bufr-lacks", made(13, 0, 98, "013164", b"\1")), (1, wanted, asking))
    rows = ["063255", "063001", "063254", "063002", "063253", "063003"]
    _, output, _ = script("bufr-lacks", made(13, 0, 98, " ".join(rows), b""))
    holds("the rows in order", output.split()[-len(rows) :], sorted(rows))
    for edition, flag in ((3, 15), (4, 17)):
        message = bytearray(lib.message(b"\1", lib.words("063255"), edition=edition))
        message[flag] = 0x80
        end_of_1 = 8 + int.from_bytes(message[8:11], "big")
        message[end_of_1:end_of_1] = b"\0\0\x08\0" + b"here"
        message[4:7] = len(message).to_bytes(3, "big")
        status, output, _ = script("bufr-lacks", bytes(message))
        holds(f"a section 2 in edition {edition}", (status, output.split()[-2:]), (1, ["lacks", "063255"]))


def limits(script, holds) -> None:
    """`bufr-lacks` lists up to 1,000 kinds of messages and 50,000 rows, says if it omits any, and names a missing set once."""
    kinds = b"".join(made(13, 1, centre, "063255", b"") for centre in range(1, 1004)) * 2
    status, output, errors = script("bufr-lacks", kinds)
    holds("the kinds that are listed", (status, output.count("\n"), output.count("2 messages")), (1, 1000, 1000))
    first = "bufr-lacks: left out 6 messages because bufr-lacks lists at most 1,000 combinations of centre and table versions"
    holds("the notes on kinds", (errors.splitlines()[0], errors.count("\n")), (first, 1001))
    _, _, errors = script("bufr-lacks", b"".join(made(13, 1, centre, "063255", b"") for centre in range(1, 1002)))
    holds("one message of too many kinds", errors.startswith("bufr-lacks: left out 1 message because "), True)
    # These two kinds of messages need the same missing set.
    _, output, errors = script("bufr-lacks", made(12, 1, 7, "063255", b"") + made(13, 1, 7, "063255", b""))
    holds("one note for a set", (output.count("\n"), errors.count("\n")), (2, 1))
    # Only the last descriptor in a long descriptor list is unknown, and the message follows another message.
    long = lib.asking(lib.message(b"", lib.words("001001") * 40_000 + lib.words("063255")), 13)
    holds("a long list", script("bufr-lacks", made(13, 0, 98, "001001", b"\1") + long)[1], "1 message from centre 98/0, tables 0/13/0, lacks 063255\n")
    many = " ".join(f"0{x}{y:03}" for x in range(48, 64) for y in range(256))
    status, output, errors = script("bufr-lacks", b"".join(made(13, 1, centre, many, b"") for centre in range(1, 15)))
    rows = sum(len(line.partition("lacks")[2].split()) for line in output.splitlines())
    told = errors.startswith("bufr-lacks: left out some missing rows because bufr-lacks lists at most 50,000\n")
    holds("the rows that are listed", (status, rows, told), (1, 50_000, True))


def nearest_own_set(tables: pathlib.Path, script, message: bytes, holds) -> None:
    """If a centre has several sets, `bufr-auto` uses the one for the next higher version, here version 10 instead of 9."""
    name = "MADE UP: KIND OF BUOY"
    for version in (8, 10, 11, 12):
        shutil.copytree(tables / "wmo-13+98-102", tables / f"wmo-{version}+98-102")
        table_b = tables / f"wmo-{version}+98-102/B.csv"
        table_b.write_text(table_b.read_text(encoding="utf-8").replace(name, f"OF SET {version}"), encoding="utf-8")
    status, output, _ = script("bufr-auto", message)
    holds("the nearest own set", (status, "OF SET 10 " in output), (0, True))
    for version in (8, 10, 11, 12):
        shutil.rmtree(tables / f"wmo-{version}+98-102")


def main() -> None:
    complaints = []

    def holds(what: str, told, wanted) -> None:
        if told != wanted:
            complaints.append(f"{what}: {told!r}, not {wanted!r}")

    with tempfile.TemporaryDirectory() as folder:
        place = pathlib.Path(folder)
        environment = {**os.environ, "BUFR": program(), "BUFR_TABLES": str(place / "tables")}
        environment["ECCODES_DEFINITION_PATH"] = f"/nosuch:{place}/definitions"
        shutil.copytree(TOP / "tables", place / "tables")
        (place / "B0000000000098013102.txt").write_text(TABLE_B)
        (place / "D0000000000098013102.txt").write_text(TABLE_D)

        def script(name: str, stream: bytes):
            words = [sys.executable, TOP / "scripts" / name]
            done = subprocess.run(words, input=stream, capture_output=True, env=environment)
            return done.returncode, done.stdout.decode(), done.stderr.decode()

        bits = lib.Bits()
        for value, width in ((4711, 16), (15, 4), (27315, 16)):
            bits.put(value, width)
        message = made(13, 102, 98, "301250", bits.octets())
        # Messages with the same sequence, but with another centre, another local version, or another WMO table version.
        others = [made(13, 102, 7, "301250", b""), made(13, 1, 98, "301250", b""), made(16, 102, 98, "301250", b"")]
        other_lines = (
            "1 message from centre 7/0, tables 0/13/102, lacks 301250\n"
            "1 message from centre 98/0, tables 0/13/1, lacks 301250\n"
            "1 message from centre 98/0, tables 0/16/102, lacks 301250\n"
        )
        stream = message + made(13, 102, 98, "001212 206008 001250", b"") + b"BUFR" + b"".join(others)
        lines = "2 messages from centre 98/0, tables 0/13/102, lack 001212 301250\n"
        cut = f"offset {stream.index(b'BUFRBUFR')}: 1 cut\n"
        tables = place / "tables"
        debian = "" if WREPORT.exists() else "install wreport-common (Debian), then "
        made_by = f"to make it, {debian}run: {TOP}/tables/convert.py {tables}/wmo-13+98-102 {WREPORT} {tables}/wmo-13"
        other_notes = (
            "bufr-lacks: the table set wmo-13+7-102 is missing; " + ASK.format(7)
            + f"bufr-lacks: the table set wmo-13+98-1 is missing; {of_eccodes(tables / 'wmo-13', 98, 1)}"
            + "bufr-lacks: the table set wmo-16+98-102 is missing; " + ASK.format(98)
        )
        errors = f"{cut}bufr-lacks: the table set wmo-13+98-102 is missing; {made_by}\n{other_notes}"
        holds("bufr-lacks", script("bufr-lacks", stream), (1, lines + other_lines, errors))
        earlier = "bufr-lacks: the table set wmo-13+98-102 is missing; " + ASK.format(98)
        holds("an earlier version", script("bufr-lacks", made(12, 102, 98, "301250", b""))[2], earlier)
        note = f"bufr-auto: 1 message, at offset 0: the table set wmo-13+98-102 (local version 102 of centre 98) is missing; {made_by}\n"
        refused = "offset 0: 21 unknown sequence 301250\n"
        holds("bufr-auto before", script("bufr-auto", message), (1, "", refused + note))
        of_definitions(place, script, holds)

        # As tables/README.md advises, WMO's tables are listed last, so that their rows replace the outdated ones.
        words = [TOP / "tables/convert.py", "tables/wmo-13+98-102", "B0000000000098013102.txt", "tables/wmo-13"]
        done = subprocess.run(words, cwd=place, capture_output=True)
        holds("convert.py", (done.returncode, done.stderr), (0, b""))
        holds("bufr-auto", script("bufr-auto", message), (0, TEXT, ""))
        message_9 = made(9, 102, 98, "301250", bits.octets())
        holds("version 9", script("bufr-auto", message_9), (0, TEXT.replace("n 13", "n 9"), ""))
        folder = place / "tables/wmo-13+98-102"
        words = [program(), "encode", "-B", folder / "B.csv", "-D", folder / "D.csv"]
        done = subprocess.run(words, input=TEXT.encode(), capture_output=True)
        holds("encode", done.stdout, message)
        of_earlier = f"to make it, run: {TOP}/tables/convert.py {tables}/wmo-16+98-102 {tables}/wmo-13+98-102 {tables}/wmo-16\n"
        behind = other_notes.removesuffix(ASK.format(98)) + of_earlier
        holds("bufr-lacks behind", script("bufr-lacks", message + b"".join(others)), (1, other_lines, behind))
        # If there are several earlier sets for this centre, the note names the latest one.
        for name in ("wmo-12+98-102", "wmo-15+198-102", "xmo-15+98-102"):
            shutil.copytree(tables / "wmo-13+98-102", tables / name)
        holds("the latest earlier set", script("bufr-lacks", others[2])[2].endswith(of_earlier), True)
        for name in ("wmo-12+98-102", "wmo-15+198-102", "xmo-15+98-102"):
            shutil.rmtree(tables / name)
        holds("nothing lacks", script("bufr-lacks", message), (0, "", ""))
        told = "bufr-lacks: standard input contains no messages: it looks like HTML\n"
        holds("no message", script("bufr-lacks", b"<HTML>"), (0, "", told))
        holds("a fault alone", script("bufr-lacks", b"BUFR" + message), (1, "", "offset 0: 1 cut\n"))
        (place / "stream").write_bytes(b"BUFR" + message + b"".join(others))
        for name, output, errors in (("bufr-lacks", other_lines, "bufr-l"), ("bufr-auto", TEXT, "offset")):
            with open(place / "stream", "rb", buffering=0) as stream:
                stream.seek(4)
                words = [sys.executable, TOP / "scripts" / name]
                done = subprocess.run(words, stdin=stream, capture_output=True, env=environment)
            told = (done.returncode, done.stdout.decode(), done.stderr.decode()[:6])
            holds(f"{name} from octet 4 on", told, (1, output, errors))
        (place / "text").write_bytes(message + b"text")
        with open(place / "text", "rb", buffering=0) as stream:
            stream.seek(len(message))
            words = [sys.executable, TOP / "scripts/bufr-lacks"]
            done = subprocess.run(words, stdin=stream, capture_output=True, env=environment)
        told = b"bufr-lacks: standard input contains no messages: it looks like text\n"
        holds("bufr-lacks after a message", (done.returncode, done.stdout, done.stderr), (0, b"", told))
        nearest_own_set(place / "tables", script, message_9, holds)
        versions_and_editions(script, holds)
        in_packages(holds)
        limits(script, holds)
        # bufr-lacks ignores an incomplete set and prints a note about it, but stops if a set is invalid.
        synop = (TOP / "examples/synop.bufr").read_bytes()
        (place / "odd \x1b").symlink_to("tables")
        environment["BUFR_TABLES"], shown = str(place / "odd \x1b"), f"{place}/odd \\x1B"
        (tables / "wmo-40").mkdir()
        told = f"bufr-lacks: ignored {shown}/wmo-40 because it does not contain B.csv; add this file, or remove the directory\n"
        holds("an incomplete set", script("bufr-lacks", synop), (0, "", told))
        shutil.copytree(TOP / "tables/wmo-39", tables / "wmo-40", dirs_exist_ok=True)
        (tables / "wmo-40/D.csv").write_text("no table\n")
        told = f"table D: 40 header\nbufr-lacks: cannot use the table set {shown}/wmo-40 because bufr rejected it (see above)\n"
        holds("an invalid set", script("bufr-lacks", made(40, 0, 98, "001191", b"\1")), (2, "", told))
        shutil.rmtree(tables / "wmo-40")
        # Like `bufr`, bufr-lacks skips a byte order mark.
        for name in ("B.csv", "D.csv"):
            table = place / "tables/wmo-39" / name
            table.write_bytes(b"\xef\xbb\xbf" + table.read_bytes())
        holds("a byte order mark", script("bufr-lacks", synop), (0, "", ""))
        status, output, _ = script("bufr-auto", b"".join(others))
        holds("those of others", (status, output), (1, ""))

        words = [sys.executable, TOP / "scripts/bufr-lacks"]
        for more, wanted, told in ((["--help"], 0, ""), (["a", "b"], 2, "cat a b | bufr-lacks"), (["nosuch"], 2, "nosuch")):
            done = subprocess.run([*words, *more], capture_output=True, env=environment, text=True)
            holds(f"bufr-lacks {more}", (done.returncode, told in done.stderr), (wanted, True))

        if WREPORT.exists():
            words = [TOP / "tables/convert.py", place / "tables/wmo-13+98-102", WREPORT, TOP / "tables/wmo-13"]
            holds("convert.py of wreport", subprocess.run(words, capture_output=True).returncode, 0)
            rows = "001212 001213 001214 001215 001216 001217 015023"
            holds("rows of wreport", script("bufr-lacks", made(13, 102, 98, rows, b"")), (0, "", ""))
        else:
            print("rows of wreport-common skipped: it is not installed")
    finish(complaints)


if __name__ == "__main__":
    main()
