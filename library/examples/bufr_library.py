"""Calls libbufr.so from Python, through ctypes.

    library = Library("libbufr.so", table_b, table_d)  # the contents of B.csv and D.csv, as bytes
    lines, faults = library.list(stream)
    for items, texts, messages in library.parts(stream):  ..
    name, unit = library.elements()[items[0].fxy]

If the next message does not fit into the output buffers, a method enlarges them and calls the library again.
"""
import csv
import ctypes
import enum
import io
from typing import Dict, Iterator, List, Tuple

_Octets = ctypes.POINTER(ctypes.c_uint8)


class Status(enum.IntEnum):
    DONE = 0
    OUT_OF_MEMORY = 73
    NO_ROOM = 74
    UNKNOWN_FORM = 75
    TABLE_B_HEADER = 40
    TABLE_B_ROW = 41
    TABLE_B_DUPLICATE = 42
    TABLE_B_CSV = 45
    TABLE_D_HEADER = 140
    TABLE_D_ROW = 141
    TABLE_D_DUPLICATE = 142
    TABLE_D_CYCLE = 143
    TABLE_D_SIZE = 144
    TABLE_D_CSV = 145


class Fault(enum.IntEnum):
    NONE = 0
    CUT = 1
    SHORT_LENGTH = 2
    NO_END = 3
    EDITION = 10
    SECTION_SHORT = 11
    SECTION_PAST_END = 12
    SECTIONS_DO_NOT_MEET = 13
    EDITION_3_LENGTH = 14
    UNKNOWN_ELEMENT = 20
    UNKNOWN_SEQUENCE = 21
    OPERATOR = 22
    GROUP_SHAPE = 23
    NO_FACTOR = 24
    EMPTY_GROUP = 25
    DEPTH = 26
    TEMPLATE_SIZE = 27
    LOCAL_SHAPE = 28
    DATA_END = 30
    WIDTH = 31
    DEFINING = 32
    UNEQUAL_FACTOR = 33
    INCREMENT = 34
    TOO_MANY_VALUES = 35


class Form(enum.IntEnum):
    AS_WRITTEN = 0
    PLAIN = 1
    COMPRESSED = 2


class Kind(enum.IntEnum):
    MISSING = 0
    NUMBER = 1
    TEXT = 2
    REFERENCE = 3
    WIDE = 4


class Input(ctypes.Structure):
    _fields_ = [
        ("octets", _Octets),
        ("octets_length", ctypes.c_size_t),
        ("table_b", _Octets),
        ("table_b_length", ctypes.c_size_t),
        ("table_d", _Octets),
        ("table_d_length", ctypes.c_size_t),
        ("wanted", ctypes.POINTER(ctypes.c_uint16)),
        ("wanted_length", ctypes.c_size_t),
        ("form", ctypes.c_uint64),
        ("reserved", ctypes.c_uint64 * 7),
    ]


class Texts(ctypes.Structure):
    _fields_ = [
        *((name, ctypes.c_size_t) for name in ("at", "output_length", "errors_length", "output_needed", "errors_needed")),
        *((name, ctypes.c_uint64) for name in ("accepted", "refused", "reserved")),
    ]


class Item(ctypes.Structure):
    _fields_ = [
        ("value", ctypes.c_int64),
        ("message", ctypes.c_uint32),
        ("length", ctypes.c_uint32),
        ("subset", ctypes.c_uint16),
        ("fxy", ctypes.c_uint16),
        ("scale", ctypes.c_int16),
        ("kind", ctypes.c_uint8),
        ("reserved", ctypes.c_uint8),
    ]


class Message(ctypes.Structure):
    _fields_ = [
        ("offset", ctypes.c_uint64),
        ("length", ctypes.c_uint64),
        ("first", ctypes.c_size_t),
        ("items", ctypes.c_size_t),
        *((name, ctypes.c_uint16) for name in ("centre", "subcentre", "year", "subsets")),
        *((name, ctypes.c_uint8) for name in ("fault", "edition", "master", "update", "category", "subcategory")),
        *((name, ctypes.c_uint8) for name in ("local_subcategory", "master_version", "local_version", "month", "day")),
        *((name, ctypes.c_uint8) for name in ("hour", "minute", "second", "observed", "compressed")),
        ("reserved", ctypes.c_uint64),
    ]


class Rows(ctypes.Structure):
    _fields_ = [
        ("items", ctypes.POINTER(Item)),
        ("items_room", ctypes.c_size_t),
        ("texts", _Octets),
        ("texts_room", ctypes.c_size_t),
        ("messages", ctypes.POINTER(Message)),
        ("messages_room", ctypes.c_size_t),
        ("reserved", ctypes.c_uint64 * 2),
    ]


class Counts(ctypes.Structure):
    _fields_ = [
        *((name, ctypes.c_size_t) for name in ("at", "items", "octets", "messages")),
        *((name, ctypes.c_size_t) for name in ("items_needed", "octets_needed", "messages_needed")),
        ("reserved", ctypes.c_uint64),
    ]


class LibraryError(RuntimeError):
    """A function returned a status other than 0 and 74."""

    def __init__(self, status: int) -> None:
        super().__init__(f"status {status}" + f" ({Status(status).name})" * (status in list(Status)))
        self.status = status


def pointer(octets: bytes) -> "ctypes._Pointer[ctypes.c_uint8]":
    """Returns a pointer to bytes. The bytes must outlive the pointer."""
    return ctypes.cast(octets, _Octets)


def room(count: int, kind: type = ctypes.c_uint8) -> ctypes.Array:
    """Returns a buffer for the given number of values."""
    return (kind * max(count, 1))()


class Library:
    """The library with one table set. Several threads can use it at the same time."""

    def __init__(self, path: str, table_b: bytes = b"", table_d: bytes = b"", octets: int = 1 << 16) -> None:
        self.calls = ctypes.CDLL(path)
        self.table_b, self.table_d, self.octets = table_b, table_d, octets

    def version(self) -> int:
        self.calls.bufr_version.restype = ctypes.c_uint32
        return self.calls.bufr_version()

    def input(self, octets: bytes, wanted: Tuple[int, ...] = (), form: int = 0) -> Input:
        words = (ctypes.c_uint16 * max(len(wanted), 1))(*wanted)
        tables = pointer(self.table_b), len(self.table_b), pointer(self.table_d), len(self.table_d)
        return Input(pointer(octets), len(octets), *tables, words, len(wanted), form)

    def _texts(self, call, *read) -> Tuple[bytes, bytes]:
        """Calls a function until it reaches the end of the input, and returns everything that it wrote."""
        texts, outputs = Texts(), [b"", b""]
        rooms = [room(self.octets), room(self.octets)]
        while True:
            status = call(*read, *(it for one in rooms for it in (one, ctypes.c_size_t(len(one)))), ctypes.byref(texts))
            lengths = texts.output_length, texts.errors_length
            outputs = [done + bytes(memoryview(one)[:length]) for done, one, length in zip(outputs, rooms, lengths)]
            if status == Status.DONE:
                return outputs[0], outputs[1]
            if status != Status.NO_ROOM:
                raise LibraryError(status)
            needed = texts.output_needed, texts.errors_needed
            rooms = [one if len(one) >= count else room(count) for one, count in zip(rooms, needed)]

    def list(self, octets: bytes) -> Tuple[bytes, bytes]:
        """Returns the output of `bufr ls`: the lines and the fault lines."""
        return self._texts(self.calls.bufr_list, pointer(octets), ctypes.c_size_t(len(octets)))

    def dump(self, octets: bytes) -> Tuple[bytes, bytes]:
        """Returns the output of `bufr dump`: the text and the fault lines."""
        return self._texts(self.calls.bufr_dump, ctypes.byref(self.input(octets)))

    def encode(self, text: bytes, form: int = 0) -> Tuple[bytes, bytes]:
        """Returns the output of `bufr encode`: the messages, and the fault line of an invalid document."""
        return self._texts(self.calls.bufr_encode, ctypes.byref(self.input(text, form=form)))

    def parts(self, octets: bytes, wanted: Tuple[int, ...] = ()) -> Iterator[Tuple[ctypes.Array, bytes, List[Message]]]:
        """Yields the rows of items, the octets of their strings, and the rows of messages, for each part of a stream."""
        read, counts = self.input(octets, wanted), Counts()
        items, texts, messages = room(self.octets // 24, Item), room(self.octets), room(self.octets // 1024, Message)
        while True:
            rows = Rows(items, len(items), texts, len(texts), messages, len(messages))
            status = self.calls.bufr_items(ctypes.byref(read), ctypes.byref(rows), ctypes.byref(counts))
            if status not in (Status.DONE, Status.NO_ROOM):
                raise LibraryError(status)
            if counts.messages:
                kept = (Item * counts.items).from_buffer_copy(items)
                yield kept, bytes(memoryview(texts)[: counts.octets]), [
                    Message.from_buffer_copy(messages[at]) for at in range(counts.messages)
                ]
            if status == Status.DONE:
                return
            items = items if len(items) >= counts.items_needed else room(counts.items_needed, Item)
            texts = texts if len(texts) >= counts.octets_needed else room(counts.octets_needed)

    def elements(self) -> Dict[int, Tuple[str, str]]:
        """Returns the name and the unit of each element in Table B. The keys are descriptors as in `Item.fxy`."""
        rows = csv.DictReader(io.StringIO(self.table_b.decode(errors="replace")))
        return {fxy_of(int(row["fxy"])): (row["name"], row["unit"]) for row in rows}


def fxy_of(written: int) -> int:
    """Converts a descriptor FXXYYY to the form that the library uses."""
    return written // 100000 << 14 | written // 1000 % 100 << 8 | written % 1000


def _shown(octet: int) -> bytes:
    """Returns an octet of a string as `bufr dump` writes it."""
    if octet in b'"\\':
        return b"\\%c" % octet
    return b"%c" % octet if 32 <= octet < 127 else b"\\x%02X" % octet


def value_text(item: Item, texts: bytes) -> bytes:
    """Returns the value of an item as `bufr dump` writes it."""
    if item.kind == Kind.MISSING:
        return b"MISSING"
    octets = texts[item.value : item.value + item.length]
    if item.kind == Kind.TEXT:
        return b'"' + b"".join(map(_shown, octets)) + b'"'
    number = int.from_bytes(octets, "little", signed=True) if item.kind == Kind.WIDE else item.value
    if item.scale <= 0:
        return b"%d" % (number * 10**-item.scale)
    sign, digits = b"-" * (number < 0), b"%0*d" % (item.scale + 1, abs(number))
    return sign + digits[: -item.scale] + b"." + digits[-item.scale :]


def item_line(item: Item, texts: bytes) -> bytes:
    """Returns the line for an item as `bufr dump` writes it, without the name and unit."""
    f, x, y = item.fxy >> 14, item.fxy >> 8 & 63, item.fxy & 255
    return b"%s%d%02d%03d %s" % (b"R " * (item.kind == Kind.REFERENCE), f, x, y, value_text(item, texts))
