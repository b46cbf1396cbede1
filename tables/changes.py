#!/usr/bin/env python3
"""Lists the differences between two table sets.

    tables/changes.py OLD NEW

OLD and NEW are directories that contain B.csv and D.csv. An element counts as changed only if the change affects how data
are read: if its scale, reference or width differs, or if its new unit makes it a different kind of value (number, code
or string). Changed names are not listed, because they affect only the comments in a dump.
"""
import os
import sys

HERE = os.path.dirname(os.path.realpath(__file__))
sys.path[:0] = [os.path.join(HERE, "../scripts"), os.path.join(HERE, "..")]
import bufr_guard  # noqa: E402

if __name__ == "__main__":
    sys.excepthook = bufr_guard.hook
import csv  # noqa: E402
import pathlib  # noqa: E402
import textwrap  # noqa: E402

import bufr_options  # noqa: E402


def kind(unit: str) -> str:
    unit = unit.lower()
    if unit == "ccitt ia5":
        return "text"
    return "code" if unit.startswith(("code table", "common code table", "flag table")) else "quantity"


def rows(folder: str, name: str, *columns: str):
    """Yields, for each row of a table, a list of the values in these columns."""
    path = pathlib.Path(folder) / name
    with open(path, encoding="utf-8-sig", errors="surrogateescape", newline="") as file:
        table = csv.DictReader(file)
        missing = [column for column in columns if column not in (table.fieldnames or [])]
        if missing:
            raise bufr_guard.Failed(f"{path} has no column '{missing[0]}'")
        for row in table:
            yield [row[column] or "" for column in columns]


def read(folder: str):
    """Returns two dictionaries: the properties that affect how each element is read, and the members of each sequence."""
    elements = {
        fxy: (*numbers, kind(unit))
        for fxy, unit, *numbers in rows(folder, "B.csv", "fxy", "unit", "scale", "reference", "width")
    }
    sequences = {}
    for fxy, member in rows(folder, "D.csv", "fxy", "member"):
        sequences.setdefault(fxy, []).append(member)
    return elements, sequences


def report(what: str, names: list) -> None:
    text = f"{what}: {len(names)}" + (": " + " ".join(names) if names else "")
    print(textwrap.fill(text, 100, initial_indent="  ", subsequent_indent="    "))


def work(words: list) -> int:
    words = bufr_options.Asked(words).operands
    if len(words) != 2:
        raise bufr_options.misused("expected OLD and NEW")
    old, new = map(read, words)
    print(" to ".join(bufr_guard.shown(pathlib.Path(folder).name) for folder in words))
    for kind_of_row, before, after in zip(("elements", "sequences"), old, new):
        report(f"{kind_of_row} changed", [fxy for fxy in before if before[fxy] != after.get(fxy, before[fxy])])
        report(f"{kind_of_row} removed", [fxy for fxy in before if fxy not in after])
        print(f"  {kind_of_row} added: {len(after.keys() - before.keys())}")
    return 0


if __name__ == "__main__":
    bufr_guard.run(work, __doc__)
