#!/usr/bin/env python3
"""Encodes documents that were written by hand, and compares the dumps of the results with the expected dumps.

    tests/handwritten_documents.py [PROGRAM]

Each row contains the lines of a document from `compressed` on, first as a person might write them, and then as in a dump.
`encode` must convert both forms to the same octets, and dumping these octets must give the second form.
"""
# rule: 2-06-y-width-of-table-b, 2-06-y-other-width
import subprocess

from lib import TABLES, finish, program

KEYS = "master centre subcentre update category subcategory localsubcategory masterversion localversion".split()
VALUES = (0, 98, 0, 0, 0, 0, 0, 39, 0)
DATE = "year 2024\nmonth 1\nday 2\nhour 3\nminute 4\nsecond 5\nobserved 1\n"
HEAD = "message\nedition 4\n" + "".join(f"{key} {value}\n" for key, value in zip(KEYS, VALUES)) + DATE
AIR = "  # TEMPERATURE/AIR TEMPERATURE [K]"
BLOCK = "  # WMO BLOCK NUMBER [Numeric]"
NAME = "  # STATION OR SITE NAME [CCITT IA5]"
FACTOR = "  # DELAYED DESCRIPTOR REPLICATION FACTOR [Numeric]"


def plain(descriptors: str, *items: str) -> str:
    """Returns the lines of a document with one subset and no compression."""
    return lines("compressed 0", "optional 0", "subsets 1", f"descriptors {descriptors}", "subset 1", *items, "end")


def lines(*parts: str) -> str:
    return "".join(part + "\n" for part in parts)


# Each document, first as a person might write it, and then as in a dump.
ROWS = {
    "zeros in front and behind, minus zero, a scale below 0": (
        plain("012101 005002 010004 001001", "012101 0288.150", "005002 -0", "010004 00101320.0", "001001 MISSING"),
        plain("012101 005002 010004 001001", f"012101 288.15{AIR}", "005002 0.00  # LATITUDE (COARSE ACCURACY) [deg]",
              "010004 101320  # PRESSURE [Pa]", f"001001 MISSING{BLOCK}"),
    ),
    "a short text, escapes of octets that need none, a comment": (
        plain("001015", r'001015 "\x41B\x20c"  # by hand'),
        plain("001015", f'001015 "AB c                "{NAME}'),
    ),
    "short lines of octets in either case, empty lines, comments": (
        lines("compressed 0", "optional 1", "subsets 001", "local1 ab", "", "# more", "local1 CDef", "section2 01",
              "section2 0a0B", "descriptors 001001", "descriptors 020003 001001", "subset 01", "# a note", "001001 01",
              "", "020003 7 #x", "001001 2 # y", "end"),
        lines("compressed 0", "optional 1", "subsets 1", "local1 ABCDEF", "section2 010A0B",
              "descriptors 001001 020003 001001", "subset 1", f"001001 1{BLOCK}",
              "020003 7  # PRESENT WEATHER [CODE TABLE]", f"001001 2{BLOCK}", "end"),
    ),
    "2 01: two bits more, and none": (
        plain("201130 012101 201000 012101", "012101 1000.00", "012101 1.0"),
        plain("201130 012101 201000 012101", f"012101 1000.00{AIR}", f"012101 1.00{AIR}"),
    ),
    "2 02: one place more": (
        plain("202129 012101 202000", "012101 28.15"),
        plain("202129 012101 202000", f"012101 28.150{AIR}"),
    ),
    "2 03: a reference of its own": (
        plain("203010 012101 203255 012101", "R 012101 -0400.0", "012101 284.1500"),
        plain("203010 012101 203255 012101", "R 012101 -400", f"012101 284.15{AIR}"),
    ),
    "2 05: characters": (
        plain("205003", '205003 "a"'),
        plain("205003", '205003 "a  "'),
    ),
    "2 06: of Table B's own width, and of another": (
        plain("206016 012101 206010 012101", "012101 288.1", "012101 0007"),
        plain("206016 012101 206010 012101", f"012101 288.10{AIR}", "012101 7"),
    ),
    "2 07: two places more": (
        plain("207002 012101 207000", "012101 1.5"),
        plain("207002 012101 207000", f"012101 1.5000{AIR}"),
    ),
    "2 08: two octets": (
        plain("208002 001015 208000", '001015 ""'),
        plain("208002 001015 208000", f'001015 "  "{NAME}'),
    ),
    "a delayed group in two subsets": (
        lines("compressed 0", "optional 0", "subsets 2", "descriptors 101000 031001 001001", "subset 1", "031001 02",
              "001001 1", "001001 MISSING", "subset 2", "031001 0", "end"),
        lines("compressed 0", "optional 0", "subsets 2", "descriptors 101000 031001 001001", "subset 1",
              f"031001 2{FACTOR}", f"001001 1{BLOCK}", f"001001 MISSING{BLOCK}", "subset 2", f"031001 0{FACTOR}", "end"),
    ),
    "compressed": (
        lines("compressed 1", "optional 0", "subsets 2", "descriptors 012101 001015", "subset 1", "012101 0.5",
              '001015 "x"', "subset 2", "012101 MISSING", '001015 ""', "end"),
        lines("compressed 1", "optional 0", "subsets 2", "descriptors 012101 001015", "subset 1", f"012101 0.50{AIR}",
              f'001015 "x                   "{NAME}', "subset 2", f"012101 MISSING{AIR}",
              f'001015 "                    "{NAME}', "end"),
    ),
}


def run(command: str, octets: bytes) -> bytes:
    """Returns the output of a command. If the command fails, its errors and its exit status are appended."""
    done = subprocess.run([program(), command, *TABLES], input=octets, capture_output=True)
    return done.stdout + (b"%sstatus %d\n" % (done.stderr, done.returncode) if done.returncode else b"")


def wrong(by_hand: str, dumped: str) -> str:
    """Encodes both forms of a document. Returns an error message, which is empty if the dump and the octets are right."""
    octets = run("encode", (HEAD + by_hand).encode())
    text = run("dump", octets)
    if text != (HEAD + dumped).encode():
        return f"its dump is {text[len(HEAD) :]!r}"
    return "" if run("encode", text) == octets else "its dump is encoded to other octets"


if __name__ == "__main__":
    told = {name: wrong(*row) for name, row in ROWS.items()}
    finish([f"{name}: {what}" for name, what in told.items() if what])
