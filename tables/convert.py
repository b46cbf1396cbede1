#!/usr/bin/env python3
"""Makes a table set for `bufr` from published tables.

    tables/convert.py OUT SOURCE...

Each SOURCE is a directory. convert.py recognizes the format by the files that the directory contains:

    B.csv, D.csv                      a table set, like those next to this script
    BUFRCREX_TableB_en*.csv,          the CSV files that WMO publishes
    BUFR_TableD_en*.csv
    element.table, sequence.def       ecCodes definition files, including those for local tables
    B*.txt, D*.txt                    the fixed-column files of wreport

A wreport directory contains many tables. To choose one, pass its B*.txt file instead of the directory. convert.py then also
reads the D*.txt file whose name is the same after the first letter.

If several sources define the same descriptor, the last one takes precedence, so pass master tables before local tables. The
new tables are OUT/B.csv and OUT/D.csv, sorted by descriptor.

convert.py leaves out elements and sequences that `bufr` would reject, and prints the reason for each on standard error. If
one member of a sequence is invalid, the whole sequence is left out. If an earlier SOURCE also defines a descriptor that was
left out, the rows from that SOURCE are used instead.

The exit status is 0 if no rows were left out, and 1 if any were. It is 2 if convert.py did not write the new tables, for
example because a SOURCE contained no tables, a file had an unknown layout, or the output could not be written.
"""
import os
import sys

HERE = os.path.dirname(os.path.realpath(__file__))
sys.path[:0] = [os.path.join(HERE, "../scripts"), os.path.join(HERE, "..")]
import bufr_guard  # noqa: E402

sys.excepthook = bufr_guard.hook
import csv  # noqa: E402
import itertools  # noqa: E402
import pathlib  # noqa: E402
import re  # noqa: E402

import bufr_options  # noqa: E402
from bufr_guard import Failed  # noqa: E402

# The columns to read from WMO's files, which may contain other columns as well.
WMO_B = "FXY ElementName_en BUFR_Unit BUFR_Scale BUFR_ReferenceValue BUFR_DataWidth_Bits".split()
WMO_D = "FXY1 FXY2".split()
OURS_B = "fxy name unit scale reference width".split()
OURS_D = "fxy member".split()
# The positions in wreport's B*.txt at which the six columns of OURS_B begin, and the position at which the last one ends.
WREPORT_B = [1, 8, 73, 97, 101, 114, 118]
# Abbreviations at the beginning of units in wreport's files, and their meanings.
WREPORT_UNITS = {
    "CCITTIA5": "CCITT IA5",
    "COMMONCODETABLE": "COMMON CODE TABLE ",
    "CODETABLE": "CODE TABLE ",
    "FLAGTABLE": "FLAG TABLE ",
}
# Bytes that are not UTF-8 are copied unchanged, because `bufr` accepts them.
AS_IT_IS = {"encoding": "utf-8", "errors": "surrogateescape"}
# The widths of delayed replication factors.
FACTORS = {"031000": 1, "031001": 8, "031002": 16}


def one_line(text: str) -> str:
    return " ".join(text.split())


def of_csv(folder: pathlib.Path, pattern: str, columns: list):
    """For each row of the matching files, yields a list of the values in the given columns. Ignores byte order marks."""
    for path in sorted(folder.glob(pattern)):
        with open(path, newline="", **{**AS_IT_IS, "encoding": "utf-8-sig"}) as file:
            rows = csv.reader(file)
            header = next(rows, [])
            for column in columns:
                if column not in header:
                    raise Failed(f"{path} has no column '{column}'")
            places = [header.index(column) for column in columns]
            try:
                for row in filter(None, rows):
                    if len(row) != len(header):
                        raise Failed(f"{path}, line {rows.line_num}: found {len(row)} fields, but the header has {len(header)}")
                    yield [one_line(row[place]) for place in places]
            except csv.Error as error:
                raise Failed(f"{path}, line {rows.line_num}: {error}") from None


def sequences_of(rows):
    """Yields a list for each sequence: its descriptor and then its members.

    The rows of each sequence must be consecutive.
    """
    for fxy, run in itertools.groupby(rows, key=lambda row: row[0]):
        yield [fxy, *(member for _, member in run)]


def lines_of(path: pathlib.Path):
    """Yields the number and text of each line that is not blank."""
    for number, line in enumerate(path.read_text(**AS_IT_IS).split("\n"), 1):
        if line.strip():
            yield number, line


def of_element_table(path: pathlib.Path):
    """Yields the rows of ecCodes' element.table. Each line is code|abbreviation|type|name|unit|scale|reference|width|..."""
    for number, line in lines_of(path):
        if not line.startswith("#"):
            fields = [one_line(field) for field in line.split("|")]
            if len(fields) < 8:
                raise Failed(f"{path}, line {number}: expected at least eight fields, found {len(fields)}")
            yield [fields[0], *fields[3:8]]


def of_sequence_def(path: pathlib.Path):
    """Yields the sequences in ecCodes' sequence.def, where each has the form "fxy" = [ member, ... ]"""
    text = re.sub("#.*", "", path.read_text(**AS_IT_IS))
    one = r'"([^"]*)"\s*=\s*\[([^\]]*)\]'
    rest = re.sub(one, "", text).split()
    if rest:
        raise Failed(f"{path}: expected \"FXY\" = [ MEMBER, ... ], found {shown(rest)}")
    for fxy, members in re.findall(one, text):
        yield [one_line(fxy), *(one_line(member) for member in members.split(",") if member.strip())]


def of_wreport_b(path: pathlib.Path):
    """For each row of wreport's B*.txt, yields a list of the values for the six columns in `OURS_B`."""
    for number, line in lines_of(path):
        fxy, name, unit, *numbers = (one_line(line[at:end]) for at, end in zip(WREPORT_B, WREPORT_B[1:]))
        if not all(numbers):
            raise Failed(f"{path}, line {number}: expected a scale, a reference value and a width in columns 98 to 118")
        for short, whole in WREPORT_UNITS.items():
            if unit.startswith(short):
                unit = one_line(whole + unit[len(short) :])
        # `- 4000` means -4000.
        yield [fxy, name, unit, *(text.replace(" ", "") for text in numbers)]


def of_wreport_d(path: pathlib.Path):
    """Returns the sequences in wreport's D*.txt, where the number of members follows the descriptor of each sequence.

    If a sequence occurs twice, the first occurrence is used.
    """
    runs = []
    for number, line in lines_of(path):
        found = re.match(" (?:([0-9]{6}) *([0-9]{1,3}) +| +)([0-9]{6})(?![0-9])", line)
        if found and found[1]:
            runs.append((found[1], int(found[2]), []))
        if not found or not runs:
            raise Failed(f"{path}, line {number}: expected a sequence or one of its members")
        runs[-1][2].append(found[3])
    first = {}
    for fxy, count, members in runs:
        if count != len(members):
            raise Failed(f"{path}: {fxy} declares {count} members but has {len(members)}")
        first.setdefault(fxy, [fxy, *members])
    return first.values()


def of_wreport(path: pathlib.Path):
    """Returns the rows of wreport's B*.txt, and the sequences in the matching D*.txt. Either file may be missing."""
    table_b, table_d = (path.with_name(letter + path.name[1:]) for letter in "BD")
    return of_wreport_b(table_b) if table_b.exists() else [], of_wreport_d(table_d) if table_d.exists() else []


def source(folder: pathlib.Path):
    """Returns the rows of Table B and the sequences of Table D from a source."""
    if (folder / "B.csv").exists() or (folder / "D.csv").exists():
        return of_csv(folder, "B.csv", OURS_B), sequences_of(of_csv(folder, "D.csv", OURS_D))
    elements, sequences = folder / "element.table", folder / "sequence.def"
    if elements.exists() or sequences.exists():
        return (
            of_element_table(elements) if elements.exists() else [],
            of_sequence_def(sequences) if sequences.exists() else [],
        )
    if any(folder.glob("BUFR*_Table[BD]_en*.csv")):
        table_d = of_csv(folder, "BUFR_TableD_en*.csv", WMO_D)
        return of_csv(folder, "BUFRCREX_TableB_en*.csv", WMO_B), sequences_of(table_d)
    texts = [folder] if folder.match("[BD]*.txt") else sorted(folder.glob("[BD]*.txt"))
    if len({text.name[1:] for text in texts}) > 1:
        raise Failed(f"{folder} contains several wreport tables; pass one of its B*.txt files as SOURCE")
    if texts and texts[0].exists():
        return of_wreport(texts[0])
    raise Failed(f"{folder} contains no tables in a known format; see convert.py --help")


def octets(text: str) -> bytes:
    return text.encode(**AS_IT_IS)


def is_whole(text: str, least: int, most: int) -> bool:
    """Returns whether a string is a whole number from `least` to `most`."""
    return re.fullmatch(r"-?0*[0-9]{1,19}", text) is not None and least <= whole(text) <= most


def whole(text: str) -> int:
    """Converts a string to a number. The string can have any number of leading zeros."""
    return int(re.sub("^(-?)0+(?=[0-9])", r"\1", text))


def no_descriptor(fxy: str, first: str) -> str:
    """Returns the reason why a string is not a descriptor that begins with `first`, or an empty string if it is one."""
    if not re.fullmatch(f"[{first}][0-9]{{5}}", fxy):
        return f"expected six digits, beginning with {first}"
    return "X is over 63" if int(fxy[1:3]) > 63 else "Y is over 255" if int(fxy[3:]) > 255 else ""


def no_text(what: str, text: str) -> str:
    """Returns the reason why `bufr` rejects this name or unit, or an empty string if `bufr` accepts it."""
    if len(octets(text)) > 512:
        return f"the {what} is longer than 512 bytes"
    return f"the {what} contains a control character" if re.search(r"[\0-\x1f\x7f]", text) else ""


def no_numbers(is_text: bool, scale: str, reference: str, width: str) -> str:
    """Returns the reason why `bufr` rejects the numbers in a row of Table B, or an empty string if `bufr` accepts them."""
    if not width:
        return "no width"
    if not is_whole(scale, -127, 127):
        return "the scale must be a whole number from -127 to 127"
    if not is_whole(reference, -(2**63), 2**63 - 1):
        return "the reference value must be a signed 64-bit integer"
    if is_text and not (is_whole(width, 8, 2040) and whole(width) % 8 == 0):
        return "the width of a string must be a multiple of 8 bits, from 8 to 2040"
    return "" if is_text or is_whole(width, 1, 63) else "the width must be from 1 to 63 bits"


def no_element(row: list) -> str:
    """Returns the reason why `bufr` rejects this row of Table B, or an empty string if `bufr` accepts it."""
    fxy, name, unit, *numbers = row
    is_text = octets(unit).upper() == b"CCITT IA5"
    reason = no_descriptor(fxy, "0") or no_text("name", name) or no_text("unit", unit) or no_numbers(is_text, *numbers)
    if not reason and fxy in FACTORS and (is_text or list(map(whole, numbers)) != [0, 0, FACTORS[fxy]]):
        return f"a replication factor must be a number with scale 0, reference 0 and width {FACTORS[fxy]}"
    return reason


def no_sequence(sequence: list) -> str:
    """Returns the reason why `bufr` rejects this sequence, or an empty string if `bufr` accepts it."""
    fxy, *members = sequence
    if no_descriptor(fxy, "3") or not members:
        return no_descriptor(fxy, "3") or "no members"
    wrong = next((member for member in members if no_descriptor(member, "0-3")), None)
    return "" if wrong is None else f"member '{shown([wrong])}': {no_descriptor(wrong, '0-3')}"


def shown(words: list) -> str:
    """Joins the words, escapes unprintable characters, and truncates the result to 80 characters."""
    text = "".join(sign if sign.isprintable() else ascii(sign)[1:-1] for sign in " ".join(words))
    return text if len(text) <= 80 else text[:78] + ".."


def taken(folder: pathlib.Path, entries, refused) -> tuple:
    """Returns the valid entries, keyed by descriptor, and the number of invalid ones. Reports each invalid entry."""
    found, left_out = {}, 0
    for entry in entries:
        found.setdefault(entry[0], []).append(entry)
    for fxy, alike in list(found.items()):
        for entry in alike:
            differs = "the source contains conflicting rows for this descriptor" if alike.count(entry) < len(alike) else ""
            reason = refused(entry) or differs
            if reason:
                told = f"{bufr_guard.shown(str(folder))}: left out {shown(entry)}: {reason}\n"
                bufr_guard.say(told.encode(**AS_IT_IS))
                left_out += 1
                found.pop(fxy, None)
    return {fxy: alike[0] for fxy, alike in found.items()}, left_out


def write(path: pathlib.Path, aside: pathlib.Path, header: list, rows) -> None:
    """Writes a table to the temporary file `aside`. Error messages refer to `path`, which `aside` will replace."""
    try:
        with open(aside, "w", newline="", **AS_IT_IS) as file:
            table = csv.writer(file, lineterminator="\n")
            table.writerow(header)
            table.writerows(rows)
    except OSError as error:
        raise Failed(f"cannot write {path}: {error.strerror}") from None


def work(words: list) -> int:
    words = bufr_options.Asked(words).operands
    if len(words) < 2:
        raise bufr_options.misused("expected OUT and at least one SOURCE")
    out, *folders = map(pathlib.Path, words)
    elements, sequences, left_out = {}, {}, 0
    for folder in folders:
        for table, entries, refused in zip((elements, sequences), source(folder), (no_element, no_sequence)):
            entries, count = taken(folder, entries, refused)
            table.update(entries)
            left_out += count
    members = ([fxy, member] for fxy in sorted(sequences) for member in sequences[fxy][1:])
    out.mkdir(parents=True, exist_ok=True)
    # Both tables are written under temporary names first, so that a failure leaves an existing set unchanged.
    tables = {out / name: out / f".{name}.{os.getpid()}" for name in ("B.csv", "D.csv")}
    bufr_guard.UNFINISHED += map(str, tables.values())
    try:
        for (path, aside), header, rows in zip(
            tables.items(), (OURS_B, OURS_D), ((elements[fxy] for fxy in sorted(elements)), members)
        ):
            write(path, aside, header, rows)
        for path, aside in tables.items():
            aside.replace(path)
    finally:
        for aside in tables.values():
            aside.unlink(missing_ok=True)
    return int(left_out > 0)


if __name__ == "__main__":
    bufr_guard.run(work, __doc__)
