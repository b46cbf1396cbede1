"""Generates random messages for against_eccodes.py: templates, data, and the lines that their dumps should contain.

This file has its own encoder, which shares nothing with the program except the tables. Each message depends only on its
number, so a message that reveals a difference can be generated again. Templates that `bufr` and ecCodes are known to read
differently are not generated; against_eccodes.py lists these differences in DIFFERENCES.
"""
import collections
import copy
import csv
import random
from typing import NamedTuple

from lib import TOP, Bits, section, words

SET = TOP / "tables/wmo-39"
FACTORS = ("031000", "031001", "031002")

# ---------------------------------------------------------------- tables


class Element(NamedTuple):
    """A row of Table B."""

    kind: str
    scale: int
    reference: int
    width: int


def kind_of(unit: str) -> str:
    if unit.upper() == "CCITT IA5":
        return "text"
    return "coded" if unit.upper().startswith(("CODE TABLE", "COMMON CODE TABLE", "FLAG TABLE")) else "number"


def table_b() -> dict:
    with open(SET / "B.csv", newline="", encoding="utf-8") as file:
        return {
            r["fxy"]: Element(kind_of(r["unit"]), int(r["scale"]), int(r["reference"]), int(r["width"]))
            for r in csv.DictReader(file)
        }


def table_d() -> dict:
    members = collections.defaultdict(list)
    with open(SET / "D.csv", newline="", encoding="utf-8") as file:
        for r in csv.DictReader(file):
            members[r["fxy"]].append(r["member"])
    return dict(members)


B, D = table_b(), table_d()
# A descriptor that is not in Table B becomes this element after 2 06, which also sets its width.
LOCAL = Element("coded", 0, 0, 0)

# ---------------------------------------------------------------- templates


class Unfit(Exception):
    """Raised if a template or its data cannot be used. Another message is then drawn."""


class Field(NamedTuple):
    """A field of the data, as the template describes it. Its kind is text, number, factor or reference."""

    fxy: str
    kind: str
    width: int
    scale: int = 0
    reference: int = 0

    def missing(self) -> int:
        """Returns the raw number of a missing value, or -1 if the field cannot be missing."""
        return -1 if self.kind in ("factor", "reference") or self.fxy.startswith("031") else (1 << self.width) - 1


def fit(holds: bool) -> None:
    if not holds:
        raise Unfit


class Operators:
    """The active operators, and the number of delayed replications that enclose the current descriptor."""

    def __init__(self, widest: int) -> None:
        self.width = self.scale = self.power = self.characters = self.defining = self.given = 0
        self.references, self.widest, self.groups = {}, widest, 0

    def take(self, x: int, y: int) -> None:
        """Applies an operator that adds no bits to the data."""
        fit(not self.power if x in (1, 2) else not (x == 7 and (self.width or self.scale or self.references)))
        fit(x != 3 or y in (0, 255) or not (self.references or self.power))
        if x == 1:
            self.width = y and y - 128
        elif x == 2:
            self.scale = y and y - 128
        elif x == 3:
            self.defining = 0 if y == 255 else y
            self.references = self.references if y else {}
        elif x == 6:
            self.given = y
        elif x == 7:
            self.power = y
        else:
            self.characters = y

    def factor(self, fxy: str) -> Field:
        fit(not (self.width or self.scale or self.power))
        return Field(fxy, "factor", B[fxy].width)

    def field(self, fxy: str) -> Field:
        """Returns the field of an element under the active operators."""
        kind, scale, reference, width = B.get(fxy, LOCAL)
        if self.defining:
            fit(fxy not in self.references)
            return Field(fxy, "reference", self.defining)
        if kind == "text":
            return Field(fxy, kind, 8 * self.characters or width)
        reference = self.references.get(fxy, reference)
        if self.given:
            width, self.given = self.given, 0
        elif kind == "number":
            scale += self.scale + self.power
            reference *= 10**self.power
            width += self.width + (10 * self.power + 2) // 3
        fit(2 <= width <= self.widest and abs(reference) < 1 << 31)
        return Field(fxy, "number", width, scale, reference)


def signed(raw: int, width: int) -> int:
    """Converts the bits of a redefined reference value (a sign bit and a magnitude) to a number."""
    half = 1 << width - 1
    return raw if raw < half else half - raw


def walk(descriptors: list, operators: Operators, take) -> None:
    """Passes each field of a template to `take`, which returns its raw number."""
    rest = list(descriptors)
    while rest:
        fxy = rest.pop(0)
        f, x, y = int(fxy[0]), int(fxy[1:3]), int(fxy[3:])
        if f == 0:
            field = operators.field(fxy)
            raw = take(field)
            if field.kind == "reference":
                operators.references[fxy] = signed(raw, field.width)
        elif f == 1:
            times = y or take(operators.factor(rest.pop(0)))
            body, rest = rest[:x], rest[x:]
            fit(y > 0 or (times > 0 or operators.groups < 2) and repeats_alike(body, operators))
            operators.groups += not y
            for _ in range(times):
                walk(body, operators, take)
            operators.groups -= not y
        elif f == 2 and x == 5:
            take(Field(fxy, "text", 8 * y))
        elif f == 2:
            operators.take(x, y)
        else:
            walk(D[fxy], operators, take)


def repeats_alike(body: list, operators: Operators) -> bool:
    """Returns whether a delayed group is short and leaves the active operators unchanged."""
    after, fields = copy.deepcopy(operators), []
    walk(body, after, lambda field: fields.append(field) or 1)
    return vars(after) == vars(operators) and len(fields) <= 60


def expanded(fxy: str):
    """Yields the members of a sequence and of all sequences in it, without expanding replications."""
    for member in D[fxy]:
        yield member
        if member[0] == "3":
            yield from expanded(member)


def sequence_fits(fxy: str) -> bool:
    """Returns whether a sequence is short, and whether all its members are in the tables and supported by this file."""
    try:
        members = list(expanded(fxy))
    except KeyError:
        return False
    within = all(m[0] in "13" or m in B or m[:3] in ("201", "202", "205", "207", "208") for m in members)
    return within and len(members) <= 60 and not {"031011", "031012", "031021"} & set(members)


TEXTS = [fxy for fxy in B if B[fxy].kind == "text"]
NUMBERS = [fxy for fxy in B if B[fxy].kind != "text" and not fxy.startswith("031")]
QUANTITIES = [fxy for fxy in NUMBERS if B[fxy].kind == "number"]
SEQUENCES = [fxy for fxy in D if sequence_fits(fxy)]


class Drawer:
    """Draws random templates."""

    def __init__(self, rng: random.Random) -> None:
        self.rng = rng

    def pieces(self, depth: int) -> list:
        simple = [self.number] * 6 + [self.text] * 2 + [self.sequence, self.inserted, self.local]
        nested = [self.fixed, self.delayed, self.wider, self.scaled, self.referred, self.precise, self.lengths]
        drawn = []
        for _ in range(self.rng.randint(1, 3)):
            drawn += self.rng.choice(simple + nested * (2 if depth < 3 else 0))(depth + 1)
        return drawn

    def number(self, _) -> list:
        return [self.rng.choice(NUMBERS)]

    def text(self, _) -> list:
        return [self.rng.choice(TEXTS)]

    def sequence(self, _) -> list:
        return [self.rng.choice(SEQUENCES)]

    def inserted(self, _) -> list:
        return [f"205{self.rng.randint(1, 30):03}"]

    def local(self, _) -> list:
        return [f"206{self.rng.randint(1, 32):03}", f"0{self.rng.randint(48, 63)}{self.rng.randint(192, 255)}"]

    def fixed(self, depth: int) -> list:
        body = self.pieces(depth)
        return [f"1{len(body):02}{self.rng.randint(1, 4):03}", *body]

    def delayed(self, depth: int) -> list:
        body = self.pieces(depth)
        return [f"1{len(body):02}000", self.rng.choice(FACTORS), *body]

    def within(self, x: int, y: int, depth: int) -> list:
        return [f"2{x:02}{y:03}", *self.pieces(depth), f"2{x:02}000"]

    def wider(self, depth: int) -> list:
        return self.within(1, self.rng.randint(118, 160), depth)

    def scaled(self, depth: int) -> list:
        return self.within(2, self.rng.randint(124, 132), depth)

    def precise(self, depth: int) -> list:
        return self.within(7, self.rng.randint(1, 5), depth)

    def lengths(self, depth: int) -> list:
        return self.within(8, self.rng.randint(1, 40), depth)

    def referred(self, depth: int) -> list:
        named = [self.rng.choice(QUANTITIES) for _ in range(self.rng.randint(1, 2))]
        return [f"203{self.rng.randint(2, 32):03}", *named, "203255", *named, *self.pieces(depth), "203000"]


# ---------------------------------------------------------------- data

LETTERS = "ABCDEFGHIJKLMNOPQRSTUVWXYZ abcdefghijklmnopqrstuvwxyz 0123456789 .,:;+-*/()<>=_"


def drawn(rng: random.Random, field: Field) -> int:
    """Draws a raw number for a field. Missing values, the lowest value and the highest value are frequent."""
    most = (1 << field.width) - 1
    if field.kind == "factor":
        return rng.randint(0, min(most, 3))
    if field.kind == "reference":
        return rng.randint(0, most)
    if field.missing() >= 0 and rng.random() < 0.1:
        return most
    if field.kind == "text":
        octets = field.width // 8
        return int.from_bytes("".join(rng.choices(LETTERS, k=rng.randint(0, octets))).ljust(octets).encode(), "big")
    return rng.choice((0, most - 1, rng.randrange(most), rng.randrange(most)))


def near(rng: random.Random, field: Field, count: int) -> list:
    """Draws a raw number for each subset of a compressed message. The numbers are equal, close together, or arbitrary."""
    first = drawn(rng, field)
    way = rng.randrange(3)
    if field.kind in ("factor", "reference") or way == 0 or field.kind == "text" and field.width > 8 * 63:
        return [first] * count
    others = [drawn(rng, field) for _ in range(count - 1)]
    if field.kind == "number" and way == 1 and first != field.missing():
        most = (1 << field.width) - 2
        others = [other if other == field.missing() else min(most, first + other % 20) for other in others]
    return [first, *others]


def put_packed(bits: Bits, rng: random.Random, field: Field, raws: list) -> None:
    """Writes an item of compressed data: the minimum, the width of the increments, and the increments."""
    there = [raw for raw in raws if raw != field.missing()]
    if len(set(raws)) == 1 or not there:
        bits.put(raws[0], field.width)
        bits.put(0, 6)
    elif field.kind == "text":
        bits.put(0, field.width)
        bits.put(field.width // 8, 6)
        for raw in raws:
            bits.put(raw, field.width)
    else:
        least = min(there)
        k = min(63, (max(there) - least + 1).bit_length() + rng.choice((0, 0, 1, 2)))
        bits.put(least, field.width)
        bits.put(k, 6)
        for raw in raws:
            bits.put((1 << k) - 1 if raw == field.missing() else raw - least, k)


def decimal(number: int, scale: int) -> str:
    """Returns number / 10^scale as a decimal with all its digits."""
    if scale <= 0:
        return str(number * 10**-scale)
    digits = str(abs(number)).rjust(scale + 1, "0")
    return ("-" if number < 0 else "") + digits[:-scale] + "." + digits[-scale:]


def line(field: Field, raw: int) -> str:
    """Returns the line that the dump should contain for a field, without the comment."""
    if field.kind == "reference":
        return f"R {field.fxy} {signed(raw, field.width)}"
    if raw == field.missing():
        return f"{field.fxy} MISSING"
    if field.kind == "text":
        return f'{field.fxy} "{raw.to_bytes(field.width // 8, "big").decode()}"'
    return f"{field.fxy} {decimal(raw + field.reference, field.scale)}"


def data(rng: random.Random, descriptors: list, subsets: int, compressed: bool):
    """Draws data for a template. Returns its octets, and the lines of each subset."""
    bits, lines = Bits(), [[] for _ in range(subsets)]

    def take_all(field: Field) -> int:
        fit(field.kind != "reference")
        raws = near(rng, field, subsets)
        put_packed(bits, rng, field, raws)
        for listed, raw in zip(lines, raws):
            listed.append(line(field, raw))
        fit(len(lines[0]) <= 400)
        return raws[0]

    def take_one(field: Field) -> int:
        raw = drawn(rng, field)
        bits.put(raw, field.width)
        listed.append(line(field, raw))
        fit(len(listed) <= 400)
        return raw

    if compressed:
        walk(descriptors, Operators(31), take_all)
    else:
        for listed in lines:
            walk(descriptors, Operators(57), take_one)
    return bits.octets(), lines


# ---------------------------------------------------------------- messages


class Message(NamedTuple):
    """A message, its descriptors and the lines of its subsets."""

    octets: bytes
    descriptors: list
    lines: list


def section_1(rng: random.Random, optional: bool, edition: int) -> bytes:
    """Draws section 1 with a valid date and table version 39, without local tables."""
    centre, subcentre, update = rng.randint(1, 254), rng.randint(0, 254), rng.randint(0, 9)
    category, subcategory, local = rng.randint(0, 255), rng.randint(0, 255), rng.randint(0, 255)
    date = [rng.randint(1, 12), rng.randint(1, 28), rng.randint(0, 23), rng.randint(0, 59), rng.randint(0, 59)]
    year = rng.randint(1950, 2100)
    if edition == 3:
        numbers = [0, subcentre, centre, update, 128 * optional, category, subcategory, 39, 0, year % 100, *date[:-1]]
    else:
        numbers = [0, 0, centre, 0, subcentre, update, 128 * optional, category, subcategory, local, 39, 0]
        numbers += [year >> 8, year & 255, *date]
    return bytes(numbers) + rng.randbytes(rng.choice((0, 0, 5)))


def message(number: int) -> Message:
    """Returns the random message with this number."""
    rng = random.Random(number)
    subsets, compressed = rng.choice((1, 1, 2, 3, 7)), rng.random() < 0.4
    while True:
        descriptors = [rng.choice(NUMBERS), *Drawer(rng).pieces(0)]
        try:
            payload, lines = data(rng, descriptors, subsets, compressed)
        except Unfit:
            continue
        break
    optional = rng.random() < 0.1
    flags = 128 * rng.getrandbits(1) + 64 * compressed
    edition = rng.choice((3, 4))
    contents = [section_1(rng, optional, edition)] + [b"\0" + rng.randbytes(9)] * optional
    contents.append(b"\0" + subsets.to_bytes(2, "big") + bytes([flags]) + words(" ".join(descriptors)))
    contents.append(b"\0" + payload)
    body = b"".join(section(content, edition) for content in contents) + b"7777"
    return Message(b"BUFR" + (len(body) + 8).to_bytes(3, "big") + bytes([edition]) + body, descriptors, lines)
