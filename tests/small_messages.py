#!/usr/bin/env python3
"""Runs the program on small messages: some declare large amounts of data, some are truncated, and some round-trip exactly.

    tests/small_messages.py [PROGRAM]
"""
# rule: reserved-ignored, reads-minus-zero
import pathlib
import subprocess
import tempfile

from lib import SECTION_1, finish, message, program, section, words

TABLE_B = """fxy,name,unit,scale,reference,width
001001,WMO BLOCK NUMBER,Numeric,0,0,7
001015,STATION OR SITE NAME,CCITT IA5,0,0,160
005002,LATITUDE (COARSE ACCURACY),degree,2,-9000,15
012101,AIR TEMPERATURE,K,2,0,16
020003,PRESENT WEATHER,Code table,0,0,9
031000,SHORT DELAYED DESCRIPTOR REPLICATION FACTOR,Numeric,0,0,1
031001,DELAYED DESCRIPTOR REPLICATION FACTOR,Numeric,0,0,8
"""
# A sequence of two elements, and one that expands to 131,072 elements: each of its 17 levels contains the next one twice.
TABLE_D = "fxy,member\n360192,001001\n360192,012101\n" + "".join(
    f"3000{x:02},{f'3000{x + 1:02}' if x < 17 else '001001'}\n" * 2 for x in range(1, 18)
)


def built(descriptors: str, data: str, subsets: int = 1, flags: int = 0x80) -> bytes:
    return message(bytes.fromhex(data), words(descriptors), subsets, flags)


REFERENCE = "203010 012101 203255 012101"
GROUPS = " ".join(f"1{x:02}001" for x in range(32, 0, -1))
ONE = built("001001", "14")
DELAYED = built("101000 031001 001001", "02142C")
PACKED = built("012101", "708F05", 2, 0xC0)
LOCAL_USE = (
    b"BUFR\0\0\x38\x04"
    + section(SECTION_1[4][3:9] + b"\x80" + SECTION_1[4][10:] + b"\xAB\xCD", 4)
    + section(b"\0\1\2", 4)
    + ONE[30:]
)

# Streams without a valid message, with the fault lines that `dump` must print.
REFUSED = [
    (built("001001", "14", 65535), "offset 0: 30 data end at subset 2 descriptor 001001 bit 7"),
    (built("101255 201000", ""), "offset 0: 25 empty group 101255"),
    (built("201000", "", 65535), "offset 0: 25 empty group 201000"),
    (built("", ""), "offset 0: 25 empty group 000000"),
    (built("300001", "14"), "offset 0: 27 template size 001001"),
    (built("133001 " + GROUPS + " 001001", "14"), "offset 0: 26 depth 101001"),
    (built("103255 102255 101255 001001", "14"), "offset 0: 30 data end at subset 1 descriptor 001001 bit 7"),
    (b"BUFR" * 1024, "\n".join(f"offset {at}: 1 cut" for at in range(0, 4096, 4))),
    (
        b"BUFR\0\x10\0\x04" * 1024,
        "\n".join(f"offset {at}: {'3 no end' if at <= 4096 else '1 cut'}" for at in range(0, 8192, 8)),
    ),
    # a delayed group whose data are truncated, although every declared length is right
    (built("101000 031001 001001", ""), "offset 0: 30 data end at subset 1 descriptor 031001 bit 0"),
    (built("101000 031001 001001", "02"), "offset 0: 30 data end at subset 1 descriptor 001001 bit 8"),
    (built("101000 031001 001001", "0214"), "offset 0: 30 data end at subset 1 descriptor 001001 bit 15"),
    # four messages, truncated at every possible length
    *(
        (whole[:at], "offset 0: 1 cut" if at >= 4 else "")
        for whole in (ONE, DELAYED, PACKED, LOCAL_USE)
        for at in range(len(whole))
    ),
]

# A message, the items in its dump without comments, and the result of encoding the dump (None if it is the same message).
ACCEPTED = [
    (ONE, "001001 10", None),
    (built("012101", "708F"), "012101 288.15", None),
    (DELAYED, "031001 2; 001001 10; 001001 11", None),
    (built("101000 031000 001001", "8A"), "031000 1; 001001 10", None),
    (built("201132 202129 012101 201000 202000 012101", "46599708F0"), "012101 288.153; 012101 288.15", None),
    (built(REFERENCE, "E41C23C0"), "R 012101 -400; 012101 284.15", None),
    (built("207001 012101 020003", "46599028"), "012101 288.153; 020003 5", None),
    (PACKED, "012101 288.15; 012101 MISSING", None),
    (LOCAL_USE, "001001 10", None),
    (built("205004", "225C0AFE"), '205004 "\\"\\\\\\x0A\\xFE"', None),
    (built("005002", "4646"), "005002 -0.05", None),
    (built("001001", "", 0), "", None),
    (built("360192", "14E11E"), "001001 10; 012101 288.15", None),
    (built(GROUPS + " 001001", "14"), "001001 10", None),
    # 65,535 subsets in 13 bits
    (built("001001", "1400", 65535, 0xC0), "; ".join(["001001 10"] * 65535), None),
    # a new reference value of minus zero is encoded as zero
    (built(REFERENCE, "801C23C0"), "R 012101 0; 012101 288.15", built(REFERENCE, "001C23C0")),
    # reserved octets and bits are ignored, and encoded as zero
    (ONE[:17] + b"\x7F" + ONE[18:33] + b"\xFF" + ONE[34:36] + b"\xBF" + ONE[37:42] + b"\xFF" + ONE[43:], "001001 10", ONE),
    # the increments of strings are encoded in the fewest possible octets
    (
        built("001015", "00" * 20 + "1105090C83FFFFFFFC", 2, 0xC0),
        f'001015 "ABC{" " * 17}"; 001015 MISSING',
        built("001015", "00" * 20 + "0D05090FFFFFFC", 2, 0xC0),
    ),
]


def items_of(text: bytes) -> str:
    """Returns the item lines of a dump, without their comments."""
    lines = (line.split("  # ")[0] for line in text.decode().splitlines())
    return "; ".join(line for line in lines if line[:1] in "0123456789R")


def wrongs(tables: list) -> list:
    def run(octets: bytes, command: str) -> tuple:
        done = subprocess.run([program(), command, *tables], input=octets, capture_output=True, timeout=10)
        return done.returncode, done.stdout, done.stderr

    told = []
    for octets, line in REFUSED:
        errors = (line + "\n").encode() if line else b""
        left = run(octets, "dump")
        if left != (1 if line else 0, b"", errors):
            told.append(f"{octets[:80].hex()} ({len(octets)} octets): {left}, not {line[:80]}")
    for octets, items, other in ACCEPTED:
        status, text, errors = left = run(octets, "dump")
        if status or errors or items_of(text) != items:
            told.append(f"{octets.hex()}: {left}"[:1000] + f", not {items[:80]}")
        elif run(text, "encode") != (0, other or octets, b""):
            told.append(f"{octets.hex()}: encoded to something else")
    return told


def main() -> None:
    with tempfile.TemporaryDirectory() as folder:
        tables = []
        for option, text in (("-B", TABLE_B), ("-D", TABLE_D)):
            file = pathlib.Path(folder) / option
            file.write_text(text)
            tables += [option, str(file)]
        finish(wrongs(tables))


if __name__ == "__main__":
    main()
