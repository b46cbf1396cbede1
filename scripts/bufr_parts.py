"""Reads a source in parts, for the `bufr` module.

    for part in bufr_parts.Reader("synop.bufr", ["012101"]):
        print(part.messages["offset"], part.items["value"])

A part contains about 8 MB of messages, or 1 MB if all items are wanted. A single call to the library reads all messages in a
part that need the same table set.
"""
from __future__ import annotations

import io
import itertools
import operator
import os
import reprlib
import sys
from dataclasses import dataclass
from typing import IO, Any, Callable, Collection, Dict, Iterable, Iterator, List, NamedTuple, Optional, Sequence, Tuple
from typing import Union, cast

import numpy

import bufr_auto
import bufr_calls
import bufr_conditions
import bufr_guard
import bufr_sets
from bufr_calls import Array, Path, Tables
from bufr_text import STRAY, BufrError, Fault, FaultCounts, looks, warn

_One = Union[Path, "Piece", bytes, bytearray, memoryview, IO[bytes]]
Source = Union[_One, Iterable[_One]]
TwoTables = Optional[Tuple[Path, Path]]
Faults = Union[str, List[Fault]]

_BYTES = bytes, bytearray, memoryview
_SOURCES = "expected a file name, bytes, an open binary file, a Piece or a list of these"
_NO_FILES = "no files were given: the list is empty, perhaps because a glob pattern matched no files"
_TEXT = "the source was opened in text mode; open it in mode 'rb'"
_BLOCK = 1 << 20
# The approximate number of bytes in a part: first if only some items are wanted, and then if all of them are.
_PART, _PART_OF_ALL = 1 << 23, 1 << 20


@dataclass(frozen=True)
class Piece:
    """A range of bytes in a file. The range begins and ends between messages, so another process can read it on its own."""

    file: str
    begin: int
    end: int

    def __post_init__(self) -> None:
        try:
            is_range = 0 <= operator.index(self.begin) <= operator.index(self.end)
        except TypeError:
            is_range = False
        if not is_range:
            raise ValueError(f"expected whole numbers with 0 <= begin <= end, found {self.begin!r} and {self.end!r}")


class Part(NamedTuple):
    """A part of a stream: its messages and strays in order, their bytes (none for a stray), and the items in the messages.

    In each item, `message` is the index of its message. `texts` contains the bytes of all strings. `accepted` is the number of
    messages that were accepted in earlier parts of the source.
    """

    name: str
    accepted: int
    messages: Array
    octets: List[bytes]
    tables: List[Optional[Tables]]
    items: Array
    texts: bytes


class _Found(NamedTuple):
    """A message or a stray. `octets` is empty for a stray, and `fault` is empty for a message."""

    offset: int
    octets: bytes
    fault: bytes


class _Stream:
    """A file or stream, and the range of bytes in it that is being read.

    `is_whole` is false for a piece of a file.
    """

    def __init__(
        self, name: str, file: IO[bytes], begin: int = 0, length: float = float("inf"), is_whole: bool = True
    ) -> None:
        self.name, self.file, self.begin, self.left, self.is_whole = name, file, begin, length, is_whole
        self.start, self.has_message = b"", False

    def block(self) -> bytes:
        """Returns the next block of bytes, which is empty at the end of the range."""
        octets = self.file.read(int(min(_BLOCK, self.left)))
        if isinstance(octets, str):
            raise TypeError(_TEXT)
        if octets is None:
            raise BlockingIOError("the source is in non-blocking mode and has no data yet; use blocking mode")
        self.left -= len(octets)
        self.start = self.start or octets[:256]
        return octets

    def no_message(self) -> str:
        """Returns the warning for a file that contains no messages, including a guess at the type of the file."""
        return f"{self.name}: the file contains no messages{looks(self.start)}"


def _opened(source: Source, numbers: Optional[Iterator[int]] = None) -> Iterator[_Stream]:
    """Yields the streams of a source and closes the files that it has opened.

    The names of bytes objects contain numbers from `numbers`, or no numbers if `numbers` is `None`.
    """
    if isinstance(source, Piece):
        with open(source.file, "rb") as file:
            file.seek(source.begin)
            yield _Stream(source.file, file, source.begin, source.end - source.begin, is_whole=False)
    elif isinstance(source, _BYTES):
        yield _Stream("bytes" if numbers is None else f"bytes {next(numbers)}", io.BytesIO(source))
    elif isinstance(source, str) and source == "-":
        yield _Stream("-", sys.stdin.buffer)
    elif isinstance(source, (str, os.PathLike)):
        with open(source, "rb") as file:
            yield _Stream(os.fspath(source), file)
    elif isinstance(source, io.TextIOBase):
        raise TypeError(_TEXT)
    elif callable(getattr(source, "read", None)):
        name = getattr(source, "name", None)  # the name of a temporary file is a number
        yield _Stream(os.fsdecode(name) if isinstance(name, (str, bytes)) else "stream", cast(IO[bytes], source))
    elif not hasattr(source, "__iter__"):
        raise TypeError(f"{_SOURCES}, found {source}")
    else:
        for one in source:
            if isinstance(one, (int, numpy.integer)):
                array = "if it is an array of bytes, pass array.tobytes()"
                raise TypeError(f"{_SOURCES}, found a list that contains the number {one}; {array}")
            yield from _opened(one, numbers)


def _bytes_objects(source: Source) -> int:
    """Returns the number of bytes objects in a source. An iterator counts as 2, since counting its items would consume it."""
    if isinstance(source, _BYTES):
        return 1
    if isinstance(source, (str, os.PathLike, Piece)) or not hasattr(source, "__iter__") or hasattr(source, "read"):
        return 0
    return sum(map(_bytes_objects, source)) if isinstance(source, Collection) else 2


def _size(source: Source) -> int:
    """Returns the size of a source in bytes. A stream counts as 0, because its size is unknown until it has been read."""
    if isinstance(source, Piece):
        return source.end - source.begin
    if isinstance(source, (str, os.PathLike)):
        return os.path.getsize(source) if os.path.isfile(source) else 0
    if isinstance(source, _BYTES):
        return len(source)
    return sum(map(_size, source)) if isinstance(source, Collection) else 0


def _divided(stream: _Stream, size: int, are_pieces: bool = False) -> Iterator[Tuple[int, List[_Found]]]:
    """Yields, for each part of a stream, the offset at which the part ends, and a list of the messages and strays in it.

    Each part except the last contains at least `size` bytes. With `are_pieces`, the lists are empty, and each part extends at
    least to the declared end of each stray in it, so that the stray has the same fault if the part is read as a piece.
    """
    finder, found, length, reach = bufr_auto.Finder(), [], 0, 0
    while True:
        one = finder.find()
        if one:
            begin, end, fault = one
            if are_pieces and fault:
                declared = int.from_bytes(finder.held[begin + 4 : begin + 7], "big")
                reach = max(reach, finder.passed + begin + max(declared, 8))
            if not are_pieces:
                octets = b"" if fault else bytes(finder.held[begin:end])
                found.append(_Found(stream.begin + finder.passed + begin, octets, fault))
            stream.has_message = stream.has_message or not fault
            length += end - begin
            if length >= size and reach <= finder.passed + end:
                yield stream.begin + finder.passed + end, found
                found, length = [], 0
        elif finder.has_ended:
            yield stream.begin + finder.passed + finder.end, found
            return
        else:
            finder.put(stream.block())


def pieces(files: Union[Path, Iterable[Path]], size: int = 1 << 26, *, faults: Faults = "warn") -> List[Piece]:
    """Divides files into pieces of about `size` bytes. Returns the pieces in order; together, they cover every byte.

    A piece begins and ends between messages. If a file contains strays, a piece can be up to 16 MB longer than `size`. If a
    file contains no messages, or if there are no files, `pieces` itself warns about this or, with `faults="raise"`, raises
    `BufrError`. With `size=1`, each piece contains a single message unless there are strays. Pass each piece to a function of
    this module, for example, in another process:

        >>> from concurrent.futures import ProcessPoolExecutor
        >>> from functools import partial
        >>> read = partial(bufr.frame, columns=["001015", "012101"])
        >>> with ProcessPoolExecutor(2) as pool:
        ...     frame = pandas.concat(pool.map(read, bufr.pieces(["synop.bufr", "aircraft.bufr"])))
        >>> len(frame)
        11
    """
    found: List[Piece] = []
    checked_faults(faults)
    if not isinstance(size, (int, float, numpy.number)) or not size > 0:
        raise ValueError(f"size must be a positive number of bytes, not {size!r}")
    is_one = isinstance(files, (str, os.PathLike, *_BYTES)) or hasattr(files, "read") or not isinstance(files, Iterable)
    for file in cast(Iterable[Path], [files] if is_one else files):
        if not isinstance(file, (str, os.PathLike)) or file == "-":
            # The bytes may be those of a whole file, so the message shows only the first 40.
            told = repr(bytes(file[:40])) + "..." * (len(file) > 40) if isinstance(file, _BYTES) else reprlib.repr(file)
            raise TypeError(f"expected the name of a file that other processes can open, found {told}")
        begin = 0
        for stream in _opened(file):
            for end, _ in _divided(stream, size, are_pieces=True):
                found.append(Piece(stream.name, begin, end))
                begin = end
            if not stream.has_message:
                report_bare(stream.no_message(), faults, stream.name)
    if not found:
        report_bare(_NO_FILES, faults)
    return found


def checked_faults(faults: Faults) -> Faults:
    if faults not in ("warn", "raise", "ignore") and not hasattr(faults, "append"):
        raise ValueError(f"faults must be 'warn', 'raise', 'ignore' or a list, not {faults!r}")
    return faults


def report_bare(text: str, faults: Faults, file: Optional[str] = None) -> None:
    """Reports that a file contains no messages, or that there are no files."""
    if faults == "raise":
        raise BufrError(text, file=file)
    if faults != "ignore":
        warn(text)


class Reader:
    """Reads a source in parts and reports faults and notes. If `columns` is `None`, all items are read."""

    def __init__(
        self,
        source: Source,
        columns: Optional[Sequence[str]],
        where: Iterable[str] = (),
        tables: TwoTables = None,
        faults: Faults = "warn",
    ) -> None:
        if tables is not None:
            are_names = isinstance(tables, (tuple, list)) and all(isinstance(name, (str, os.PathLike)) for name in tables)
            if not are_names or len(tables) != 2:
                raise TypeError(f"expected the file names of Table B and Table D as tables=(B, D), found {tables!r}")
        self.source, self.conditions, self.faults = source, bufr_conditions.Conditions(where), checked_faults(faults)
        self.is_whole = True
        self.wanted, self.size = bufr_calls.words(columns), _PART_OF_ALL if columns is None else _PART
        self.tables = None if tables is None else Tables(*tables)
        self.table_b = None if tables is None else tables[0]
        self.chooser = None if tables else guarded(lambda: bufr_auto.Chooser(bufr_auto.Dump))
        self.sets: Dict[bufr_sets.TableSet, Tables] = {}
        self.accepted = 0
        self.begin_file("")

    def __iter__(self) -> Iterator[Part]:
        progress, done = bufr_guard.Progress(_size(self.source), False), 0
        is_empty = True
        try:
            for stream in _opened(self.source, itertools.count(1) if _bytes_objects(self.source) > 1 else None):
                self.begin_file(stream.name)
                self.is_whole = self.is_whole and stream.is_whole
                for end, found in _divided(stream, self.size):
                    yield self.part(found)
                    is_empty = False
                    progress.at(done + end - stream.begin)
                done += end - stream.begin
                if self.is_bare and stream.is_whole:
                    report_bare(stream.no_message(), self.faults, stream.name)
                self.end_file()
            if is_empty:
                report_bare(_NO_FILES, self.faults)
                yield self.part([])
            if self.is_whole and self.conditions.unmet():
                warn(self.conditions.unmet())
        finally:
            progress.clear()

    def begin_file(self, name: str) -> None:
        self.name, self.is_bare, self.counts = name, True, FaultCounts()
        self.conditions.left_out = 0
        if self.chooser is not None:
            self.chooser.notes = bufr_auto.Notes()
            self.chooser.known.clear()  # the cached reasons contain the counts of the previous file

    def end_file(self) -> None:
        """Warns about faults in a file, table sets that may not match its messages, and messages that were left out."""
        told = self.counts.told() if self.faults == "warn" else []
        if self.chooser is not None:
            lines = self.chooser.notes.lines("message", "")
            told += [line.decode(errors="replace").partition(": ")[2].rstrip("\n") for line in lines]
        for text in filter(None, [*told, self.conditions.note()]):
            warn(f"{self.name}: {text}")

    def part(self, found: List[_Found]) -> Part:
        """Reads a part. Messages that need the same tables are read in one call, and the items are then sorted by message."""
        every, found = found, self.selected(found)
        groups: Dict[Tables, List[int]] = {}
        notes: Dict[int, List[bufr_auto.Reason]] = {}
        messages = numpy.zeros(len(found), bufr_calls.MESSAGE)
        used: List[Optional[Tables]] = [None] * len(found)
        for index, (_, octets, fault) in enumerate(found):
            if fault:
                messages["length"][index], messages["fault"][index] = 4, int(fault.split()[0])
                continue
            tables, reasons = self.chosen(octets)
            groups.setdefault(tables, []).append(index)
            used[index] = tables
            if reasons:
                notes[index] = reasons
        items, texts = [numpy.empty(0, bufr_calls.ITEM)], bytearray()
        for tables, indices in groups.items():
            some, rows, octets = tables.items(b"".join(found[index].octets for index in indices), self.wanted)
            messages[indices] = rows
            some["message"] = numpy.array(indices)[some["message"]]
            some["value"][bufr_calls.is_place(some)] += len(texts)
            items.append(some)
            texts += octets
        messages["offset"] = [one.offset for one in found]
        all_items = items[-1] if len(items) <= 2 else numpy.concatenate(items)
        if len(groups) > 1:
            all_items = all_items[numpy.argsort(all_items["message"], kind="stable")]
        # Like `bufr ls`, this does not count messages whose header cannot be read.
        self.is_bare = self.is_bare and len(found) == len(every) and not messages["edition"].any()
        self.report(found, messages["fault"], groups)
        for index, reasons in notes.items():
            if str(messages["fault"][index])[0] != "1":  # a fault from 10 to 19 means that it is not a message
                for reason in reasons:
                    reason.count += 1
                    reason.first = reason.first or f"at offset {found[index].offset}"
        part = Part(self.name, self.accepted, messages, [one.octets for one in found], used, all_items, bytes(texts))
        self.accepted += int(numpy.count_nonzero(messages["fault"] == 0))
        return part

    def selected(self, found: List[_Found]) -> List[_Found]:
        """Returns the strays, the messages that meet the conditions, and the messages that `bufr ls` does not list."""
        if not self.conditions.patterns:
            return found
        octets = [one.octets for one in found]
        begins = itertools.accumulate(map(len, octets), initial=0)
        left_out = {begin for begin, line in bufr_calls.lines(b"".join(octets)) if not self.conditions.are_met(line)}
        return [one for one, begin in zip(found, begins) if one.fault or begin not in left_out]

    def chosen(self, octets: bytes) -> Tuple[Tables, List[bufr_auto.Reason]]:
        """Returns the tables for a message and any reasons why they may not match it exactly."""
        if self.tables is not None:
            return self.tables, []
        assert self.chooser is not None
        chosen, reasons = self.chooser.choose(lambda at, length: octets[at : at + length])
        if chosen not in self.sets:
            self.sets[chosen] = Tables(chosen.file("B.csv"), chosen.file("D.csv"))
        return self.sets[chosen], reasons

    def report(self, found: List[_Found], numbers: Array, groups: Dict[Tables, List[int]]) -> None:
        """Reports rejected messages and strays. Looks up the texts of faults only if they are needed."""
        refused = numpy.flatnonzero(numbers).tolist()
        if self.faults == "ignore" or not refused:
            return
        texts = {index: found[index].fault.decode() for index in refused}
        if self.faults != "warn" or not self.counts.first:
            for tables, indices in groups.items():
                some = [index for index in indices if numbers[index]]
                texts.update(zip(some, tables.faults([found[index].octets for index in some])))
        for index in refused:
            fault = Fault(found[index].offset, int(numbers[index]), texts[index].partition(" ")[2], self.name)
            self.counts.add(fault)
            if self.faults == "raise":
                what = "rejected a message" if fault.number >= 10 else f"found a stray ({STRAY})"
                raise BufrError(f"{self.name}: {what} at {fault.line()}; to continue after a fault, pass faults='warn'", *fault)
            if not isinstance(self.faults, str):
                self.faults.append(fault)


def guarded(call: Callable[[], Any]) -> Any:
    """Returns the result of a call. If the call raises `Failed`, raises `BufrError` instead.

    The call raises `Failed` if there are no table sets, for example.
    """
    try:
        return call()
    except bufr_guard.Failed as failed:
        raise BufrError(str(failed)) from None
