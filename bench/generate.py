#!/usr/bin/env python3
"""Creates the streams for measure.py in a directory. Streams that already exist are left unchanged."""
import argparse
import csv
import functools
import pathlib
import random
import sys
from typing import NamedTuple

sys.path.insert(0, str(pathlib.Path(__file__).resolve().parent.parent / "tests"))

from lib import TABLES, Bits, asking, message, words


STATION = b"%d STATION"


class Kind(NamedTuple):
    """Describes the messages in a stream."""

    lists: list  # the descriptor lists, which the messages use in turn
    subsets: int = 1  # per message
    messages: int = 1
    is_packed: bool = False
    missing: float = 0  # the share of items that are missing in every subset of a message
    alike: float = 0  # the share of items that have the same value in every subset of a message
    text: bytes = STATION  # the pattern of the strings
    times: int = 100  # how many times the messages are repeated


class Item(NamedTuple):
    """A field of the data. Replication factors and redefined reference values have a fixed value."""

    width: int
    is_text: bool = False
    fixed: int | None = None


def rows(file: str) -> list:
    """Returns the rows of a table."""
    with open(file, encoding="utf-8", newline="") as table:
        return list(csv.DictReader(table))


VERSION = int(pathlib.Path(TABLES[1]).parent.name.removeprefix("wmo-"))
ELEMENTS = {row["fxy"]: Item(int(row["width"]), row["unit"] == "CCITT IA5") for row in rows(TABLES[1])}
MEMBERS: dict = {}
for row in rows(TABLES[3]):
    MEMBERS.setdefault(row["fxy"], []).append(row["member"])


@functools.cache
def items_of(descriptors: str) -> list:
    """Returns the items of a descriptor list. 2 03 is the only supported operator.

    A delayed replication repeats its group twice, or only once if its factor is one bit wide.
    """
    todo, items, new_width = descriptors.split(), [], 0
    while todo:
        first = todo.pop(0)
        f, x, y = int(first[0]), int(first[1:3]), int(first[3:])
        if f == 3:
            todo[:0] = MEMBERS[first]
        elif f == 2:
            assert x == 3, first
            new_width = y % 255
        elif f == 1:
            if y == 0:
                factor = ELEMENTS[todo.pop(0)]
                y = min(2, factor.width)
                items.append(factor._replace(fixed=y))
            todo[:x] = todo[:x] * y
        elif new_width:
            items.append(Item(new_width, fixed=1 << new_width - 1 | y))
        else:
            items.append(ELEMENTS[first])
    return items


def has_operator(descriptor: str) -> bool:
    """Returns whether a descriptor is an operator, or a sequence that contains one."""
    return descriptor[0] == "2" or any(has_operator(member) for member in MEMBERS.get(descriptor, []))


# Five elements that are in every version of WMO's Table B.
FIVE = "012101 010004 011001 011002 020003"
TEXTS = "106005 001015 001019 001011 001063 001096 025061"
# Elements whose reference values the messages redefine, and sequences that serve as descriptor lists.
FORTY = " ".join([element for element in ELEMENTS if element.startswith("012")][:40])
SEQUENCES = [it for it in MEMBERS if not has_operator(it) and 20 <= len(items_of(it)) <= 200]


def turned(turn: int) -> str:
    """Returns one of 14 descriptor lists. Each repeats the five elements to make 100 items."""
    elements = FIVE.split()
    order = (elements[turn % 5 :] + elements[: turn % 5]) * (1, 2, 4)[turn // 5]
    return f"1{len(order):02}{100 // len(order):03} {' '.join(order)}"


# README.md compares these streams with real messages. instructions.csv has rows for each of them.
KINDS = {
    "half_missing": Kind(["307080"], 8, 10, missing=0.52),
    "mostly_alike": Kind(["312071"], 128, 1, True, missing=0.31, alike=0.41),
    "all_missing": Kind([f"001015 005001 006001 {FIVE}"], 1_000, missing=1),
    "compressed_all_missing": Kind([f"108005 001015 005001 006001 {FIVE}"], 640, 1, True, missing=1),
    "compressed_wide": Kind([f"105025 {FIVE} 012101 010004"], 5_000, 1, True, times=5),
    "compressed_narrow": Kind(["012101 010004"], 20_000, 1, True),
    "one_item": Kind(["012101"], 20_000),
    "texts": Kind([TEXTS], 300),
    "escapes": Kind([TEXTS], 300, text=b"\\\xC4\"" * 10 + b"%d"),
    "new_references": Kind([f"203016 {FORTY} 203255 140004 {FORTY}"], 1, 40),
    "references_in_subsets": Kind([f"203016 012101 010004 011001 011002 203255 {FIVE}"], 2_000),
    "twelve_lists": Kind([f"3070{y}" for y in (71, 73, 76, 78, 79, 80, 81, 82, 83, 86, 87, 90)], 2, 36, missing=0.05),
    "lists_in_turn": Kind([turned(turn) for turn in range(14)], 1, 140),
    "hundred_lists": Kind(SEQUENCES[:100], 2, 300, missing=0.05),
}


def value(item: Item, place: int, subset: int, text: bytes = STATION):
    """Returns a value that changes slightly from subset to subset. Every 50th value is missing."""
    number = 7 * subset + 13 * place
    if item.fixed is not None or (subset + place) % 50 == 0:
        return item.fixed
    if item.is_text:
        return (text % number)[: item.width // 8].rstrip()
    return ((1 << item.width - 1) + number % 60) % ((1 << item.width) - 1)


def column(kind: Kind, item: Item, place: int, subsets: range) -> list:
    """Returns the values of an item in all subsets.

    Items that are missing or have the same value in every subset come in groups of four.
    """
    share = (place // 4 + 1) * 0.618034 % 1  # modulo 1, multiples of the golden ratio are spread evenly
    if share < kind.missing and item.fixed is None:
        return [None] * kind.subsets
    if share < kind.missing + kind.alike:
        return [value(item, place, subsets[0])] * kind.subsets
    return [value(item, place, subset, kind.text) for subset in subsets]


def stream(kind: Kind) -> bytes:
    """Returns a stream of messages of this kind. The messages declare the table version that tests/lib.py names."""
    made = []
    for number in range(kind.messages):
        descriptors, first = kind.lists[number % len(kind.lists)], number * kind.subsets
        subsets = range(first, first + kind.subsets)
        columns = [column(kind, item, place, subsets) for place, item in enumerate(items_of(descriptors))]
        made.append(asking(built(descriptors, columns, kind.is_packed), VERSION))
    return b"".join(made)


def raw(value, width: int) -> int:
    """Returns the raw number that encodes a value.

    The bits are all ones if the value is missing. A string is padded with spaces.
    """
    if value is None:
        return (1 << width) - 1
    return int.from_bytes(value.ljust(width // 8), "big") if isinstance(value, bytes) else value


def pack(bits: Bits, values: list, width: int) -> None:
    """Writes a compressed item with increments that are as narrow as possible."""
    there = [value for value in values if value is not None]
    if all(value == values[0] for value in values):
        bits.put(raw(values[0], width), width)
        bits.put(0, 6)
        return
    if isinstance(there[0], bytes):
        base, step = 0, max(map(len, there))
        step_bits = 8 * step
    else:
        base, step = min(there), (max(there) - min(there) + 1).bit_length()
        values, step_bits = [value if value is None else value - base for value in values], step
    bits.put(base, width)
    bits.put(step, 6)
    for value in values:
        bits.put(raw(value, step_bits), step_bits)


def built(descriptors: str, columns: list, is_packed: bool = False, edition: int = 4) -> bytes:
    """Returns a message with these values. Each column contains the values of one item in all subsets."""
    bits, widths = Bits(), [item.width for item in items_of(descriptors)]
    if is_packed:
        for values, width in zip(columns, widths):
            pack(bits, values, width)
    else:
        for subset in zip(*columns):
            for value, width in zip(subset, widths):
                bits.put(raw(value, width), width)
    return message(bits.octets(), words(descriptors), len(columns[0]), 0xC0 if is_packed else 0x80, edition)


def plain(subsets: int, times: int, is_packed: bool = False) -> bytes:
    """Returns a message in which each subset contains the five elements the given number of times."""
    return stream(Kind([f"105{times:03} {FIVE}"], subsets, is_packed=is_packed))


def packed(subsets: int, times: int) -> bytes:
    """Returns the same message as `plain`, but compressed."""
    return plain(subsets, times, True)


def report(edition: int) -> bytes:
    """Returns a short report: a station's numbers and name, a time, a position, and five measurements, one of them missing."""
    descriptors = f"001001 001002 001015 004001 004002 004003 004004 004005 005001 006001 {FIVE}"
    values = [10, 381, b"BERLIN-DAHLEM", 2024, 1, 2, 6, 0, 142500, 193100, 28815, 10132, 270, 53, None]
    return built(descriptors, [[value] for value in values], edition=edition)


def packed_reports(subsets: int) -> bytes:
    """Returns a compressed message of short reports, in which 7 of the 17 items are the same in every subset."""
    descriptors = f"001001 001002 001015 001063 001011 004001 004002 004003 004004 004005 005001 006001 {FIVE}"
    stations = range(subsets)
    names = [b"STATION \\%d\\" % (n * n) for n in stations]
    same = [[one] * subsets for one in (b"EDDB", None, 2024, 1, 2, 6, 0)]
    places = [[142500 + 2000 * n for n in stations], [193100 + 3000 * n for n in stations]]
    measured = [[value(item, place, n) for n in stations] for place, item in enumerate(items_of(FIVE))]
    columns = [[n // 100 for n in stations], [n * 5 for n in stations], names, *same, *places, *measured]
    return built(descriptors, columns, True)


def repeated(piece: bytes, times: int):
    batch = max(1, (1 << 20) // len(piece))
    while times > 0:
        now = min(batch, times)
        yield piece * now
        times -= now


def streams():
    noise = random.Random(1)
    # a block of noise that does not contain `BUFR`
    block = bytes(noise.randrange(256) for _ in range(1 << 20)).replace(b"BUFR", b"....")
    ten_thousand = message(block[:10_000])
    million = message(block[:1_000_000])
    return {
        # many messages of 48 octets each
        "small": lambda: repeated(message(b"\x14"), 500_000),
        # the same messages in edition 3, in which each has 46 octets
        "small_3": lambda: repeated(message(b"\x14", edition=3), 500_000),
        # messages of 10 KB each
        "middle": lambda: repeated(ten_thousand, 25_600),
        # messages of 1 MB each
        "large": lambda: repeated(million, 256),
        # no messages
        "noise": lambda: repeated(block, 256),
        # bulletins, each with a heading, a message of 10 KB and a trailer
        "bulletins": lambda: repeated(b"\x01\r\r\n123\r\r\nISMD01 EDZW 221200\r\r\n" + ten_thousand + b"\r\r\n\x03", 25_600),
        # a stray every eight octets; each declares a length of 1 MB, so it cannot be rejected immediately
        "hostile": lambda: repeated(b"BUFR\x10\x00\x00\x04", 6_000_000),
        # For `dump`: short reports in each edition, and compressed messages of 200 reports. Then messages with 1,000 subsets
        # of 500 items, plain and compressed, and a stream of each kind in `KINDS`.
        "dump_reports": lambda: repeated(report(4), 100_000),
        "dump_reports_3": lambda: repeated(report(3), 100_000),
        "dump_packed_reports": lambda: repeated(packed_reports(200), 1_000),
        "dump_plain": lambda: repeated(plain(1000, 100), 10),
        "dump_packed": lambda: repeated(packed(1000, 100), 10),
        **{f"dump_{name}": lambda kind=kind: repeated(stream(kind), kind.times) for name, kind in KINDS.items()},
    }


def write_streams(folder: pathlib.Path, chosen: list | None = None) -> None:
    """Writes the chosen streams (default: all of them) that do not exist yet."""
    folder.mkdir(parents=True, exist_ok=True)
    for name, pieces in streams().items():
        path = folder / f"{name}.bufr"
        if path.exists() or chosen and name not in chosen:
            continue
        with path.open("wb") as out:
            for piece in pieces():
                out.write(piece)


if __name__ == "__main__":
    asker = argparse.ArgumentParser(description=__doc__, formatter_class=argparse.RawDescriptionHelpFormatter)
    asker.add_argument("folder", type=pathlib.Path)
    write_streams(asker.parse_args().folder)
