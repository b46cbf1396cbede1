#!/usr/bin/env python3
"""Checks that the sets in tables/ match every version from 7 to 39 exactly, according to the rule in tables/README.md, and
that every set is needed.

    tests/table_versions.py

The set for a version is the one with that number or, if there is none, the one with the next higher number. It must contain
every row of the version unchanged; rows that were added later do no harm. The test compares the sets with the versions in
ecCodes and wreport. WREPORT_HAS_OTHERWISE lists the known differences between wreport and our sets. If ecCodes or wreport is
not installed, the test prints a note and skips the versions in that package.
"""
import pathlib
import re
import subprocess
import sys
import tempfile

from lib import TOP, finish

sys.path.insert(0, str(TOP / "tables"))
import changes  # noqa: E402

ECCODES = pathlib.Path("/usr/share/eccodes/definitions/bufr/tables/0/wmo")
WREPORT = pathlib.Path("/usr/share/wreport")
VERSIONS = range(7, 40)
# The descriptors that versions up to 6 define differently from the set wmo-13, according to bufr-auto.
AUTO = (TOP / "scripts/bufr_auto.py").read_text()
CHANGED_SINCE_6 = re.search(r'CHANGED_SINCE_6 = set\(\s*"""([^"]*)"""', AUTO)[1].split()
# The known differences between wreport and our sets. In wreport's versions 12 and 13, the following sequences lack members or
# contain some twice.
MISPRINTS = "301034 307046 307052 307054 307055 307084 308008 310019 310025".split()
# In version 16, two elements have reference values that ecCodes has only from version 17 on, the two halves of nine sequences
# are swapped, and four sequences are in neither version 15 nor version 16 of ecCodes. wreport's sequences for version 15 are a
# copy of those for version 16.
OF_16 = """
    014052 014053 305006 307045 307081 307093 309019 310027 311008 318001 340007 302067 308015 308016 315004
""".split()
WREPORT_HAS_OTHERWISE = {12: [*MISPRINTS, "302056"], 13: MISPRINTS, 14: ["307084"], 16: OF_16}


def sets() -> dict:
    """Returns the table sets in tables/, by version."""
    return {int(path.name[4:]): changes.read(path) for path in sorted((TOP / "tables").glob("wmo-[0-9][0-9]"))}


def converted(source: pathlib.Path, place: str):
    """Returns the tables that convert.py makes from a source, even if convert.py leaves out some rows."""
    done = subprocess.run([TOP / "tables/convert.py", place, source], stderr=subprocess.PIPE, text=True)
    if done.returncode > 1:
        sys.exit(f"tables/convert.py does not read {source}: {done.stderr}")
    return changes.read(place)


def otherwise(version, served) -> set:
    """Returns the descriptors of the rows in a version that a set lacks or defines differently."""
    return {fxy for table, other in zip(version, served) for fxy in table if other.get(fxy) != table[fxy]}


def is_of_wmo(fxy: str) -> bool:
    return int(fxy[1:3]) < 48 and int(fxy[3:]) < 192


def check(name: str, versions: dict, known: dict) -> list:
    """Compares our sets with the versions in one package, and returns error messages."""
    shipped, complaints = sets(), []
    for version, tables in versions.items():
        number = min(number for number in shipped if number >= version)
        found = {fxy for fxy in otherwise(tables, shipped[number]) if is_of_wmo(fxy)}
        if found != set(known.get(version, [])):
            complaints.append(f"version {version} of {name} by wmo-{number}: {' '.join(sorted(found))} are otherwise")
    print(f"tables of {name}: versions {min(versions)} to {max(versions)} compared with tables/")
    return complaints


def check_eccodes(place: str) -> list:
    tables = {version: converted(ECCODES / str(version), f"{place}/e{version}") for version in (2, 6, *VERSIONS)}
    complaints = check("ecCodes", {version: tables[version] for version in VERSIONS}, {})
    # Our sets, including names and units, must be exactly what convert.py makes from these tables.
    for number in sets():
        for name in ("B.csv", "D.csv"):
            made = pathlib.Path(f"{place}/e{number}/{name}").read_bytes()
            if made != (TOP / f"tables/wmo-{number}/{name}").read_bytes():
                complaints.append(f"tables/wmo-{number}/{name} is not what convert.py makes of ecCodes")
    # Every set is needed: at least one row of each set except the last is missing from the next set, or is different there.
    numbers = sorted(sets())
    for number, later in zip(numbers, numbers[1:]):
        if not otherwise(tables[number], tables[later]):
            complaints.append(f"wmo-{number} is not needed: wmo-{later} serves version {number} exactly")
    old = sets()[13]
    found = {fxy for version in (2, 6) for fxy in otherwise(tables[version], old) if any(fxy in table for table in old)}
    if found != set(CHANGED_SINCE_6):
        complaints.append(f"up to version 6 these are otherwise: {' '.join(sorted(found))}")
    return complaints


def check_wreport(place: str) -> list:
    def path(letter: str, version: int):
        return WREPORT / f"{letter}00000000000000{version}000.txt"

    tables = {version: converted(path("B", version), f"{place}/w{version}") for version in range(12, 32)}
    if path("D", 15).read_bytes() == path("D", 16).read_bytes():
        tables[15] = tables[15][0], {}
        print("sequences of version 15 of wreport skipped: its file is that of version 16")
    return check("wreport", tables, WREPORT_HAS_OTHERWISE)


def main() -> None:
    complaints = []
    missing = [version for version in VERSIONS if not any(number >= version for number in sets())]
    complaints += [f"no set serves version {version}" for version in missing]
    with tempfile.TemporaryDirectory() as place:
        for there, run, package in (
            (ECCODES, check_eccodes, "libeccodes-data"),
            (WREPORT, check_wreport, "wreport-common"),
        ):
            if there.is_dir():
                complaints += run(place)
            else:
                print(f"versions of {package} skipped: it is not installed")
    finish(complaints)


if __name__ == "__main__":
    main()
