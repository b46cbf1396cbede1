"""Chooses the table set for a message, and finds the elements and sequences that a descriptor list uses."""
from __future__ import annotations

import os
import sys

import bufr_guard

TYPE_CHECKING = False
if TYPE_CHECKING:
    from typing import Callable, Dict, FrozenSet, Iterator, List, Optional, Tuple

    # Takes an offset in a message and a maximum number of bytes. Returns the bytes from that offset.
    Bytes = Callable[[int, int], bytes]

# The approximate maximum number of descriptors in a template.
LONGEST = 1 << 16
# The maximum number of sets whose tables are cached.
CACHED = 8


class TableSet:
    """A directory with Tables B and D for a version of WMO's tables.

    `own` gives the centre and the local version of the local rows, or is None if the set contains only WMO's rows.
    """

    def __init__(self, folder: str, version: int, own: Optional[Tuple[int, int]]) -> None:
        self.folder, self.name, self.version, self.own = folder, os.path.basename(folder), version, own
        self.elements: Optional[FrozenSet[str]] = None
        self.sequences: Optional[Dict[str, Tuple[str, ...]]] = None

    def file(self, name: str) -> str:
        return os.path.join(self.folder, name)

    def rows(self, name: str, *columns: str) -> Iterator[List[str]]:
        return rows_of(self.file(name), *columns)

    def names(self) -> Dict[str, Tuple[str, str]]:
        """Returns a dictionary with the name and the unit of each element."""
        return {fxy: (name, unit) for fxy, name, unit in self.rows("B.csv", "fxy", "name", "unit")}

    def has(self, fxy: str) -> bool:
        """Returns whether the set contains this element or sequence."""
        elements = self.elements  # another thread may drop the cached tables
        if elements is None:
            elements = self.elements = frozenset(fxy for [fxy] in self.rows("B.csv", "fxy"))
            self.cached()
        return fxy in elements or fxy in self.members()

    def members(self) -> Dict[str, Tuple[str, ...]]:
        """Returns a dictionary with the members of each sequence."""
        sequences = self.sequences
        if sequences is None:
            found: Dict[str, List[str]] = {}
            for fxy, member in self.rows("D.csv", "fxy", "member"):
                found.setdefault(fxy, []).append(member)
            sequences = self.sequences = {fxy: tuple(members) for fxy, members in found.items()}
            self.cached()
        return sequences

    def cached(self) -> None:
        """Records that the set is cached. If too many sets are now cached, drops the tables of the oldest one."""
        if self not in cache:
            cache.append(self)
        if len(cache) > CACHED:
            first = cache.pop(0)
            first.elements = first.sequences = None

    def used(self, descriptors: Tuple[str, ...]) -> Iterator[str]:
        """Yields the elements and sequences that a descriptor list uses, directly or through sequences.

        An element after 2 06 Y is left out, because it does not need a row in Table B. The tables are read only if the list
        contains a sequence, and only after the descriptors in the list itself have been yielded.
        """
        found = set()
        sequences = [""]
        for sequence in sequences:
            members = self.members().get(sequence, ()) if sequence else descriptors
            for before, fxy in zip(("", *members), members):
                if fxy not in found and (fxy[:1] == "3" or (fxy[:1] == "0" and before[:3] != "206")):
                    found.add(fxy)
                    yield fxy
                    if fxy[:1] == "3":
                        sequences.append(fxy)


cache: List[TableSet] = []


def rows_of(file: str, *columns: str) -> Iterator[List[str]]:
    """Yields the values in the given columns for each row of a table. Skips rows that are too short, because `bufr` reports them."""
    import csv

    csv.field_size_limit(1 << 30)
    with open(file, encoding="utf-8-sig", errors="replace", newline="") as lines:
        rows = csv.reader(line.replace("\0", "?") for line in lines)
        header: List[str] = next(rows, [])
        if set(columns) <= set(header):
            places = [header.index(column) for column in columns]
            for row in rows:
                if len(row) > max(places):
                    yield [row[place] for place in places]


class TableSets:
    """The table sets in a directory.

    Their names are, for example, `wmo-13` or, with local rows, `wmo-13+98-102` (centre 98, local version 102). Sets that lack
    one of the two tables are ignored and are reported in `notes`.
    """

    def __init__(self) -> None:
        self.folder = folder_of_sets()
        self.sets: Dict[Optional[Tuple[int, int]], Dict[int, TableSet]] = {}
        self.notes: List[str] = []
        for name in sorted(os.listdir(self.folder)):
            version, plus, own = name[4:].partition("+")
            numbers = [version, *(own.split("-") if plus else [])]
            if name.startswith("wmo-") and len(numbers) in (1, 3) and all(map(is_number, numbers)):
                key = (int(numbers[1]), int(numbers[2])) if plus else None
                tables = TableSet(os.path.join(self.folder, name), int(version), key)
                missing = next((table for table in ("B.csv", "D.csv") if not os.path.exists(tables.file(table))), "")
                if missing:
                    advice = "add this file, or remove the directory"
                    self.notes.append(f"ignored {tables.folder} because it does not contain {missing}; {advice}")
                else:
                    self.sets.setdefault(key, {})[tables.version] = tables
        if None not in self.sets:
            what = f"{self.folder} does not contain a table set such as wmo-39"
            raise bufr_guard.Failed("; ".join([what, "set BUFR_TABLES to a directory that contains one", *self.notes]))

    def latest(self) -> TableSet:
        """Returns the latest set without local rows."""
        return self.sets[None][max(self.sets[None])]

    def asked(self, centre: int, version: int, local: int) -> TableSet:
        """Returns the set for a centre, a version and a local version.

        This is WMO's set for the version or, if there is none, WMO's set for the next higher version, or else the latest one.
        A set with the centre's local rows takes precedence if its version is between `version` and the version of WMO's set.
        """
        of_wmo = self.sets[None]
        nearest = min((number for number in of_wmo if number >= version), default=max(of_wmo))
        own = self.sets.get((centre, local), {})
        good = [number for number in own if min(version, nearest) <= number <= max(version, nearest)]
        return own[min(good, key=lambda number: abs(number - version))] if good else of_wmo[nearest]


def is_number(word: str) -> bool:
    return word.isascii() and word.isdigit() and len(word) < 10


def folder_of_sets() -> str:
    """Returns the directory that contains the table sets: the value of BUFR_TABLES or, if it is not set, the installed one."""
    named = os.environ.get("BUFR_TABLES")
    if named:
        places = [named]
    else:
        here, bin = (os.path.dirname(os.path.realpath(name)) for name in (__file__, sys.argv[0]))
        places = [f"{here}/tables", f"{bin}/../share/bufr/tables", f"{here}/../tables", f"{sys.prefix}/share/bufr/tables"]
    for place in places:
        if os.path.isdir(place):
            return os.path.abspath(place)
    if named:
        raise bufr_guard.Failed(f"BUFR_TABLES is {named}, which is not a directory")
    raise bufr_guard.Failed(f"the directory {places[0]} does not exist; set BUFR_TABLES to the directory that contains the table sets")


def words_of(message: Bytes) -> bytes:
    """Returns the descriptors in section 3 of a message (two bytes each), up to the maximum number in a template."""
    begin = message(0, 26)
    at, flags = 8, begin[17 if begin[7:8] == b"\4" else 15 :][:1]
    for _ in range(2 if flags >= b"\x80" else 1):
        at += int.from_bytes(message(at, 3), "big")
    length = int.from_bytes(message(at, 3), "big")
    return message(at + 7, min(max(length - 7, 0), 2 * LONGEST))


def descriptors(words: bytes) -> Tuple[str, ...]:
    """Converts a list of two-byte descriptors to six-digit strings."""
    pairs = (words[at] << 8 | words[at + 1] for at in range(0, len(words) - 1, 2))
    return tuple(f"{word >> 14}{word >> 8 & 63:02}{word & 255:03}" for word in pairs)


def can_have_value(fxy: str) -> bool:
    """Returns whether items can have this descriptor. Only elements and 2 05 Y, which inserts characters, have values."""
    return fxy[:1] == "0" or fxy[:3] == "205"


def instead(fxy: str, tables: Optional[TableSet]) -> str:
    """Returns the part of an error message that says what kind of descriptor this is, if no item can have it.

    For a sequence, the part lists the elements of the sequence in a table set.
    """
    if fxy[0] != "3":
        return f"{'a replication' if fxy[0] == '1' else 'an operator'}, not an element, so it has no value"
    members = tables.used((fxy[:6],)) if tables else iter(())
    found = [member for member in members if member[0] == "0"]
    elements = ", ".join(found[:10] + ["and others"] * (len(found) > 10))
    return f"a sequence, not an element; pass the descriptors of its elements{elements and ': '}{elements}"


# The table sets that can be made from public tables.

WREPORT = "/usr/share/wreport"
ECCODES = "/usr/share/eccodes/definitions"
# The local tables in these Debian packages: (version, centre, local version) for wreport, (centre, local version) for ecCodes.
WREPORT_HAS = {(14, 85, 0), (14, 85, 1), (13, 98, 1), (13, 98, 102), (16, 98, 1), (19, 254, 1)}
ECCODES_HAS = {(39, 1), *((78, local) for local in range(1, 9)), (98, 1), (98, 2), (98, 3), (98, 4), (98, 101), (254, 1)}

INSTALLED_CONVERTER = os.path.join(os.path.dirname(os.path.realpath(__file__)), "tables/convert.py")
CONVERTER = INSTALLED_CONVERTER if os.path.isfile(INSTALLED_CONVERTER) else "tables/convert.py"
NEWER = f"get newer tables from WMO (wmo-im/BUFR4 on GitHub), and convert them with {CONVERTER}"


def is_local(fxy: str) -> bool:
    """Returns whether a descriptor is local, which means that each centre can define it differently."""
    return int(fxy[1:3]) >= 48 or int(fxy[3:]) >= 192


def advice(tables: TableSet, centre: int, version: int, local: int) -> str:
    """Returns advice on how to get a set with a centre's local rows: a command to run, or whom to ask for the tables."""
    folders = [*os.environ.get("ECCODES_DEFINITION_PATH", "").split(":"), ECCODES]
    of_eccodes = [f"{folder}/bufr/tables/0/local/{local}/{centre}/0" for folder in folders]
    of_wreport = f"{WREPORT}/B00000000{centre:05}{version:03}{local:03}.txt"
    for source in filter(os.path.isdir, of_eccodes):
        return "to make it, run: " + command(tables, centre, local, tables.folder, source)
    if os.path.isfile(of_wreport):
        return "to make it, run: " + command(tables, centre, local, of_wreport, tables.folder)
    beside = os.path.dirname(tables.folder)
    for name in sorted(os.listdir(beside), reverse=True):
        if name.startswith("wmo-") and name.endswith(f"+{centre}-{local}"):
            return "to make it, run: " + command(tables, centre, local, os.path.join(beside, name), tables.folder)
    if (centre, local) in ECCODES_HAS:
        words = command(tables, centre, local, tables.folder, of_eccodes[-1])
        return f"to make it, install libeccodes-data (Debian), then run: {words}"
    if (version, centre, local) in WREPORT_HAS:
        words = command(tables, centre, local, of_wreport, tables.folder)
        return f"to make it, install wreport-common (Debian), then run: {words}"
    return f"no public source is known for these tables; ask the centre for them {lookup(centre)}"


def lookup(centre: int) -> str:
    """Returns a hint, in parentheses, on how to look up the name of the centre with this number."""
    return f"(to find the centre's name, look up {centre} in WMO's Common Code Table C-11)"


def command(tables: TableSet, centre: int, local: int, *sources: str) -> str:
    """Returns the command that makes a table set with a centre's local rows from these sources."""
    import shlex

    out = os.path.join(os.path.dirname(tables.folder), own_name(tables, centre, local))
    here = os.path.dirname(os.path.realpath(__file__))
    programs = [os.path.abspath(f"{place}/convert.py") for place in (f"{here}/tables", f"{here}/../tables")]
    program = next(filter(os.path.isfile, programs), "tables/convert.py")
    return " ".join(map(shlex.quote, (program, out, *sources)))


def own_name(tables: TableSet, centre: int, local: int) -> str:
    """Returns the name of the set that adds a centre's local rows to a WMO set."""
    return f"{tables.name}+{centre}-{local}"
