"""Calls the C library through ctypes and returns its rows as NumPy arrays.

    tables = bufr_calls.Tables("B.csv", "D.csv")
    items, messages, texts = tables.items(stream, bufr_calls.words(["012101"]))

The arrays have the same members as the structures in bufr.h, but each header field is named after its key in a dump.
"""
from __future__ import annotations

import ctypes
import functools
import os
import pathlib
import shlex
from typing import Any, Dict, Iterator, List, Optional, Sequence, Tuple, Union

import numpy

from bufr_text import BufrError, names

Array = Any  # a NumPy array
Path = Union[str, "os.PathLike[str]"]

#: The kinds of an item.
MISSING, NUMBER, TEXT, REFERENCE, WIDE = range(5)
#: A descriptor that no element has.
NOTHING = 0xFFFF

MESSAGE = numpy.dtype(
    [(name, "u8") for name in ("offset", "length", "first", "items")]
    + [(name, "u2") for name in ("centre", "subcentre", "year", "subsets")]
    + [(name, "u1") for name in "fault edition master update category subcategory localsubcategory".split()]
    + [(name, "u1") for name in "masterversion localversion month day hour minute second observed compressed".split()]
    + [("reserved", "u8")]
)
ITEM = numpy.dtype(
    [("value", "i8"), ("message", "u4"), ("length", "u4"), ("subset", "u2"), ("fxy", "u2"), ("scale", "i2")]
    + [("kind", "u1"), ("reserved", "u1")]
)
# The functions of the library that this module calls.
FUNCTIONS = "bufr_version", "bufr_list", "bufr_dump", "bufr_items"
# The initial size of the outputs, in rows or in bytes.
ROOM = 1 << 20
OUT_OF_MEMORY, NO_ROOM = 73, 74
# The faults in tables. For a fault in Table D, 100 is added to the status.
FAULTS = {40: "header", 41: "row", 42: "duplicate", 43: "cycle", 44: "table size", 45: "csv"}


class Input(ctypes.Structure):
    _fields_ = [
        ("octets", ctypes.c_char_p),
        ("octets_length", ctypes.c_size_t),
        ("table_b", ctypes.c_char_p),
        ("table_b_length", ctypes.c_size_t),
        ("table_d", ctypes.c_char_p),
        ("table_d_length", ctypes.c_size_t),
        ("wanted", ctypes.c_void_p),
        ("wanted_length", ctypes.c_size_t),
        ("form", ctypes.c_uint64),
        ("reserved", ctypes.c_uint64 * 7),
    ]


class Texts(ctypes.Structure):
    _fields_ = [
        *((name, ctypes.c_size_t) for name in "at output_length errors_length output_needed errors_needed".split()),
        *((name, ctypes.c_uint64) for name in "accepted refused reserved".split()),
    ]


class Rows(ctypes.Structure):
    _fields_ = [
        ("items", ctypes.c_void_p),
        ("items_room", ctypes.c_size_t),
        ("texts", ctypes.c_void_p),
        ("texts_room", ctypes.c_size_t),
        ("messages", ctypes.c_void_p),
        ("messages_room", ctypes.c_size_t),
        ("reserved", ctypes.c_uint64 * 2),
    ]


class Counts(ctypes.Structure):
    _fields_ = [
        *((name, ctypes.c_size_t) for name in "at items octets messages".split()),
        *((name, ctypes.c_size_t) for name in "items_needed octets_needed messages_needed".split()),
        ("reserved", ctypes.c_uint64),
    ]


def loaded() -> ctypes.CDLL:
    """Loads the library. Raises `ImportError` if it cannot be loaded, or if its version does not match that of this module."""
    named = os.environ.get("BUFR_LIBRARY")
    here = pathlib.Path(__file__).resolve().parent
    # Next to this file (in a wheel), in a clone or an unpacked release, or in an installation.
    places = [f"{folder}/libbufr.so.0" for folder in (here, here.parent / "lib", here.parent.parent / "lib")]
    for path in places if named is None else [named]:
        if os.path.isfile(path):
            try:
                library = ctypes.CDLL(path)
            except OSError as error:
                raise ImportError(f"cannot load the C library: {error}") from None
            lacking = [name for name in FUNCTIONS if not hasattr(library, name)]
            if lacking:
                raise ImportError(f"{path} is not the C library: it lacks the function {lacking[0]}")
            if library.bufr_version() != 1000:
                raise ImportError(f"{path} and bufr.py have different versions; install both from the same release")
            return library
    missing = "cannot find libbufr.so.0" if named is None else f"BUFR_LIBRARY is '{named}', which is not a file"
    advice = "install a release that contains the library, or build it with library/build.sh"
    elsewhere = "; if libbufr.so.0 is elsewhere, set BUFR_LIBRARY to its path" if named is None else ""
    raise ImportError(f"{missing}; {advice}{elsewhere}")


LIBRARY = loaded()


class Tables:
    """The contents of the two tables in a table set."""

    def __init__(self, table_b: Path, table_d: Path) -> None:
        self.files = os.fspath(table_b), os.fspath(table_d)
        self.contents = pathlib.Path(table_b).read_bytes(), pathlib.Path(table_d).read_bytes()

    @functools.cached_property
    def elements(self) -> Dict[str, Tuple[str, str]]:
        """The name and the unit of each element in Table B."""
        return names(self.files[0])[1]

    def items(self, octets: bytes, wanted: Array) -> Tuple[Array, Array, bytes]:
        """Returns the rows for the items and the messages in a stream, and the bytes of the strings.

        `wanted` contains the descriptors of the items to return. If it is empty, all items are returned.
        """
        given, counts, status = self._input(octets, wanted), Counts(), NO_ROOM
        rooms = [numpy.empty(ROOM, ITEM), numpy.empty(ROOM, "u1"), numpy.empty(ROOM // 16, MESSAGE)]
        found: List[Tuple[Array, Array]] = []
        texts = bytearray()
        count = 0
        while status == NO_ROOM:
            outputs = Rows(*(value for room in rooms for value in (room.ctypes.data, len(room))))
            status = self._checked(LIBRARY.bufr_items(ctypes.byref(given), ctypes.byref(outputs), ctypes.byref(counts)))
            items, messages = rooms[0][: counts.items].copy(), rooms[2][: counts.messages].copy()
            items["message"] += count
            items["value"][is_place(items)] += len(texts)
            found.append((items, messages))
            texts += rooms[1][: counts.octets].tobytes()
            count += len(messages)
            # If a single message does not fit into the arrays, the next call gets larger ones.
            if counts.items_needed > len(rooms[0]):
                rooms[0] = numpy.empty(counts.items_needed, ITEM)
            if counts.octets_needed > len(rooms[1]):
                rooms[1] = numpy.empty(counts.octets_needed, "u1")
        all_items, all_messages = map(numpy.concatenate, zip(*found))
        return all_items, all_messages, bytes(texts)

    def faults(self, messages: Sequence[bytes]) -> List[str]:
        """Returns the number and the text of the fault in each of these rejected messages, as in a fault line."""
        texts, room = Texts(), 256 * len(messages)
        text, faults = ctypes.create_string_buffer(1), ctypes.create_string_buffer(room)
        given, outputs = self._input(b"".join(messages), words([])), (text, 1, faults, ctypes.c_size_t(room))
        self._checked(LIBRARY.bufr_dump(ctypes.byref(given), *outputs, ctypes.byref(texts)))
        return [line.partition(": ")[2] for line in faults.raw[: texts.errors_length].decode().splitlines()]

    def _input(self, octets: bytes, wanted: Array) -> Input:
        table_b, table_d = self.contents
        pointer = wanted.ctypes.data, len(wanted)
        return Input(octets, len(octets), table_b, len(table_b), table_d, len(table_d), *pointer)

    def _checked(self, status: int) -> int:
        """Returns the status of a call. Raises `BufrError` if a table is invalid, and `MemoryError` if memory runs out."""
        if status % 100 in FAULTS:
            table_b, table_d = map(shlex.quote, self.files)
            command = f"bufr dump -B {table_b} -D {table_d} /dev/null"
            fault = f"cannot use {self.files[status > 100]}: {status % 100} {FAULTS[status % 100]}"
            raise BufrError(f"{fault}; to see where the fault is, run: {command}")
        return checked(status)


def word(fxy: str) -> int:
    """Converts the descriptor in a column such as `012101` or `012101:2` to the number that the library uses for it."""
    return int(fxy[0]) << 14 | int(fxy[1:3]) << 8 | int(fxy[3:6])


def words(columns: Optional[Sequence[str]]) -> Array:
    """Converts column descriptors to the form that `Tables.items` expects. If `columns` is `None`, selects all items."""
    found = [] if columns is None else sorted({*map(word, columns)}) or [NOTHING]
    # The array is created with one additional descriptor, so that it has an address even if it is empty.
    return numpy.array([*found, 0], "u2")[: len(found)]


def fxy(word: int) -> str:
    """Returns a descriptor as six digits."""
    return f"{word >> 14}{word >> 8 & 63:02}{word & 255:03}"


def is_place(items: Array) -> Array:
    """Returns, for each item, whether its value is an index into the bytes of the strings."""
    return (items["kind"] == TEXT) | (items["kind"] == WIDE)


def checked(status: int) -> int:
    if status == OUT_OF_MEMORY:
        raise MemoryError
    return status


def lines(octets: bytes) -> Iterator[Tuple[int, bytes]]:
    """Yields the offset and the line for each message that `bufr ls` lists."""
    texts, status = Texts(), NO_ROOM
    room, faults = ctypes.create_string_buffer(ROOM), ctypes.create_string_buffer(ROOM)
    outputs = room, ctypes.c_size_t(ROOM), faults, ctypes.c_size_t(ROOM)
    while status == NO_ROOM:
        status = checked(LIBRARY.bufr_list(octets, ctypes.c_size_t(len(octets)), *outputs, ctypes.byref(texts)))
        for line in room.raw[: texts.output_length].splitlines():
            yield int(line[len(b"offset=") : line.index(b" ")]), line
