#!/usr/bin/env python3
"""Compares four ways to get the values in a dump: table.awk by item and by subset, bufr_text.dump, and bufr_text.rows.

    tests/scripts_agree_on_values.py [PROGRAM]

All four must return the same values, with each installed awk. Some messages are random and use WMO's tables. Others use a
table that the test generates. For each scale from -127 to 127, they contain zero, a number with one digit, numbers at the
limits of a field's range, random numbers, and a missing value. Numbers up to the limits of 128-bit integers, which do not fit
in a field, are read from a generated dump.
"""
import itertools
import os
import pathlib
import random
import re
import shutil
import subprocess
import sys
import tempfile
import warnings
from decimal import Decimal

import lib
from lib import TABLES, TOP, want
from table_awk import AWKS

sys.path[:0] = [str(TOP / "scripts"), str(TOP / "tests/hostile")]
import bufr_text  # noqa: E402
import random_messages  # noqa: E402

SCALES = range(-127, 128)
RANDOM = 150
KEYS = ["message", "subset", *bufr_text.HEADER, "optional", "subsets"]
# A CSV field, including any quotes, because an empty string is quoted but a missing value is not.
FIELD = re.compile(r'("(?:[^"]|"")*"|[^,"]*),')


def table(awk: list, text: bytes, columns: list) -> list:
    """Returns the rows that table.awk writes, as tuples of fields: one for each item or, with columns, for each subset."""
    words = [*awk, "-v", "columns=" + ",".join(columns), "-f", TOP / "scripts/table.awk"]
    done = subprocess.run(words, input=text, stdout=subprocess.PIPE, stderr=subprocess.DEVNULL, check=True)
    lines = done.stdout.decode("utf-8", "surrogateescape").split("\n")[1:-1]
    return [tuple(FIELD.findall(line + ",")) for line in lines]


def quoted(text: str) -> str:
    return '"' + text.replace('"', '""') + '"'


def spelled(value) -> str:
    """Returns the field that table.awk must write for a value from bufr_text.dump."""
    if value is None:
        return ""
    if isinstance(value, Decimal):
        return format(value, "f")
    plain = {ord('"'): '\\"', ord("\\"): "\\\\", **{octet: chr(octet) for octet in (32, 33, *range(35, 92), *range(93, 127))}}
    return quoted("".join(plain.get(octet, f"\\x{octet:02X}") for octet in value.rstrip(b" ")))


def cell(field: str):
    """Returns the value that bufr_text.rows must return for a field. A number without a decimal point must be an int."""
    if field.startswith('"'):
        return field[1:-1].replace('""', '"')
    return None if field == "" else float(field) if "." in field else int(field)


def agree(what: str, text: bytes, messages: list, awk: list, columns: list) -> int:
    """Compares all four ways for one dump. Returns the number of values that were compared."""
    found, wide = [], []
    for number, message in enumerate(messages, 1):
        header = {**message.header, "message": number, "subsets": len(message.subsets)}
        header["optional"] = int(message.section2 is not None)
        for subset, items in enumerate(message.subsets, 1):
            seen = {}
            for place, item in enumerate(items, 1):
                name, unit = ("REFERENCE", "") if item.reference else (item.name or "", item.unit or "")
                row = [str(number), str(subset), str(place), item.fxy, spelled(item.value)]
                found.append((*row, name and quoted(name), unit and quoted(unit)))
                if not item.reference:
                    seen.setdefault(item.fxy, []).append(spelled(item.value))
            header["subset"] = subset
            asked = [(column[:6], int(column[7:] or 1)) for column in columns]
            values = [seen[fxy][count - 1] if len(seen.get(fxy, "")) >= count else "" for fxy, count in asked]
            wide.append((*(str(header[key]) for key in KEYS), *values))
    compare(f"{what}: items by {awk} and bufr_text.dump", table(awk, text, []), found)
    made = table(awk, text, [*KEYS[2:], *columns])
    compare(f"{what}: subsets by {awk} and bufr_text.dump", made, wide)
    rows = [tuple(map(repr, row)) for row in bufr_text.rows(messages, columns, KEYS)]
    compare(f"{what}: bufr_text.rows and {awk}", rows, [tuple(repr(cell(one)) for one in row) for row in made])
    return len(found) + sum(field != "" for row in made for field in row)


def compare(what: str, rows: list, others: list) -> None:
    """Ends the test at the first row that differs."""
    want(len(rows) == len(others), f"{what} have {len(rows)} and {len(others)} rows")
    for row, other in zip(rows, others):
        fields = [pair for pair in itertools.zip_longest(row, other) if pair[0] != pair[1]]
        want(not fields, f"{what}: message {row[0]} subset {row[1]} has {fields}")


def columns_of(messages: list, rng: random.Random) -> list:
    """Returns columns for some of the descriptors in the messages, and one for a descriptor that does not occur."""
    numbers = sorted({item.fxy for message in messages for subset in message.subsets for item in subset})
    some = rng.sample(numbers, min(len(numbers), len(SCALES)))
    return [f"{fxy}:{rng.randint(1, 3)}" if rng.random() < 0.2 else fxy for fxy in some] + ["063255"]


def random_stream() -> bytes:
    return b"BUFR".join(random_messages.message(number).octets for number in range(RANDOM))


def own_tables(folder: pathlib.Path) -> list:
    """Writes tables with an element for each scale, starting with 0 48 000, and one with the lowest reference value.

    Returns the options for these tables.
    """
    rows = [f"048{number:03},SCALE {scale},Numeric,{scale},{-number},63\n" for number, scale in enumerate(SCALES)]
    rows.append(f"048255,LEAST,Numeric,0,{-(1 << 63)},3\n")
    (folder / "B.csv").write_text("fxy,name,unit,scale,reference,width\n" + "".join(rows))
    (folder / "D.csv").write_text("fxy,member\n")
    return ["-B", str(folder / "B.csv"), "-D", str(folder / "D.csv")]


def scaled_stream(rng: random.Random) -> bytes:
    """Returns a stream with a message for each kind of number. Each of these messages contains a number at every scale.

    The reference value of each element is its negated index. One more message contains the longest possible number, which has
    37 digits because 2 07 018 multiplies its reference value.
    """
    most, stream = (1 << 63) - 1, b""
    kinds = [lambda place: place, lambda place: place + 1, lambda place: most, lambda place: most - 1, lambda place: 0]
    kinds += [lambda place: place + rng.choice((10, 100, 123, 10**18)), lambda place: rng.randrange(most)]
    for raw in kinds:
        bits = lib.Bits()
        for place in range(len(SCALES)):
            bits.put(raw(place), 63)
        stream += lib.message(bits.octets(), lib.words(" ".join(f"048{place:03}" for place in range(len(SCALES)))))
    return stream + lib.message(bytes(8), lib.words("207018 048255 207000"))


def limits() -> bytes:
    """Returns a dump with numbers of every scale, up to the limits of 128-bit integers. Each follows a new reference value."""
    text = (TOP / "tests/vectors/texts/one_block_number.txt").read_bytes().splitlines(keepends=True)
    lines = []
    for scale in SCALES:
        for number in (0, 1, -1, 3, 10, -(1 << 63), (1 << 64) - 1, -(1 << 127), (1 << 127) - 1):
            written = random_messages.decimal(number, scale)
            lines.append(f"R 048{scale + 127:03} {number}\n048{scale + 127:03} {written}  # LIMIT [a [b]]\n".encode())
    return b"".join([*text[:23], *lines, b"end\n"])


def dumped(folder: pathlib.Path, stream: bytes, tables: list) -> tuple:
    """Returns the dump of a stream, and the messages that bufr_text.dump reads from the stream."""
    path = folder / "stream"
    path.write_bytes(stream)
    text = subprocess.run([lib.program(), "dump", *tables, path], stdout=subprocess.PIPE, stderr=subprocess.PIPE).stdout
    return text, list(bufr_text.dump(path, *tables[1::2], []))


def main() -> None:
    os.environ["BUFR"] = lib.program()
    rng, values = random.Random(1), 0
    with tempfile.TemporaryDirectory() as place:
        folder = pathlib.Path(place)
        kinds = {
            "random messages": dumped(folder, random_stream(), TABLES),
            "numbers of every scale": dumped(folder, scaled_stream(rng), own_tables(folder)),
            "limits": (limits(), list(bufr_text.read(limits().splitlines(keepends=True)))),
        }
    for what, (text, messages) in kinds.items():
        columns = columns_of(messages, rng)
        for awk in AWKS:
            if shutil.which(awk[0]):
                values += agree(what, text, messages, awk, columns)
    count = len(kinds["random messages"][1])
    want(count == RANDOM, f"{count} of {RANDOM} random messages are read")
    text = kinds["numbers of every scale"][0]
    missing, least = text.count(b" MISSING"), text.count(b"\n048255 -9223372036854775808." + b"0" * 18 + b" ")
    want((missing, least) == (len(SCALES), 1), f"of every scale {missing} numbers are missing, and {least} is the least")
    print(f"scripts_agree_on_values: {values:,} values agree")


if __name__ == "__main__":
    warnings.simplefilter("ignore")  # bufr_text would print many warnings about empty columns
    main()
