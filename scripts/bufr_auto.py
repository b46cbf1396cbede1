"""Implements bufr-auto: finds the messages in a stream, or the documents in a dump, and chooses a table set for each.

    status = bufr_auto.dump(["a.bufr", None], output=pipe)  # None is standard input

This module finds the messages itself instead of waiting for `bufr ls` to list them. It divides the stream into parts. For
each part, it runs `bufr` once for each table set that the part needs, and writes the output in the order of the messages
before the next read that may block.
"""
from __future__ import annotations

import os
import stat
import time

import bufr_guard
import bufr_options
import bufr_sets

TYPE_CHECKING = False
if TYPE_CHECKING:
    import select
    from typing import Callable, Dict, FrozenSet, Iterator, List, Optional, Sequence, Tuple, Type, Union

    from bufr_conditions import Conditions

    Octets = Union[bytes, memoryview]
    # A message, a document or a stray: its place (an offset or a line number), its bytes, and, for a stray, its fault.
    Piece = Tuple[int, Octets, bytes]
    Bytes = bufr_sets.Bytes
    # The numbers in a header that determine the table set: centre, master table number, table version and local version.
    Tables = Tuple[int, int, int, int]

# The approximate maximum number of bytes in a part, and the maximum number of pieces. These limits keep buffers from
# growing with the stream.
PART, PIECES = 1 << 22, 1 << 14
BLOCK = 1 << 18
# The maximum length of a line, and the maximum length of a document up to its last descriptor line.
LINE, HEADER = 4096, 1 << 20
END = b"\nend\n"
# The maximum number of different notes, and the maximum number of descriptor lists whose results are cached.
KINDS_OF_NOTES = 1000
REMEMBERED = 1 << 8
# The descriptors whose definitions in version 13 differ from those in versions up to 6.
CHANGED_SINCE_6 = set(
    """
    001003 001022 002028 002160 004024 008006 008065 008066 012073 015003 015004 021017 022004 022062 025030 029002
    033024 301075 307015 307017 307018 309018 310050 310055 312013 313041 313043 316011 321003 321022 321024 321026
    """.split()
)


class Unread(Exception):
    """Raised if a file cannot be opened or read to the end. The text explains why."""


class Feed:
    """Reads a file or standard input as the bytes arrive. If the input pauses for a second, calls `report` once."""

    def __init__(self, file: Optional[str], report: Callable[[], None]) -> None:
        self.file, self.name, self.begin, self.taken = file, bufr_guard.named(file), b"", 0
        self.report = report
        try:
            self.descriptor = 0 if file is None else os.open(file, os.O_RDONLY)
        except OSError as error:
            raise Unread(f"cannot open {self.name}: {error.strerror}") from None
        about = os.fstat(self.descriptor)
        self.length = 0
        self.poll: Optional[select.poll] = None
        if stat.S_ISREG(about.st_mode):
            self.length = about.st_size - os.lseek(self.descriptor, 0, os.SEEK_CUR)
        else:
            import select

            self.poll = select.poll()
            self.poll.register(self.descriptor, select.POLLIN)

    def may_wait(self) -> bool:
        return self.poll is not None and not self.poll.poll(0)

    def read(self) -> bytes:
        try:
            if self.poll is not None and not self.poll.poll(1000):
                self.report()
                self.poll.poll()
            octets = os.read(self.descriptor, 1 << 20)
        except OSError as error:
            raise Unread(f"cannot read {self.name}: {error.strerror}") from None
        if not octets and self.taken < self.length:
            raise Unread(f"{self.name} was truncated while it was being read; try again")
        self.taken += len(octets)
        self.begin += octets[: 256 - len(self.begin)]
        return octets

    def close(self) -> None:
        if self.descriptor:
            os.close(self.descriptor)


class Finder:
    """Finds the messages in a stream, block by block. Buffers only the current message and one block.

    If a message's declared length exceeds `longest` bytes, the finder skips it: the search continues after its first four
    bytes.
    """

    def __init__(self, longest: Optional[int] = None) -> None:
        self.longest = 1 << 24 if longest is None else longest
        # `held[:end]` contains the buffered bytes, which begin at offset `passed` in the stream. The search continues at
        # `held[at]`. The buffer never shrinks, because freeing and allocating it again would fragment the heap.
        self.held, self.at, self.end, self.passed, self.has_ended = bytearray(), 0, 0, 0, False

    def put(self, octets: bytes) -> None:
        """Adds the next block. An empty block marks the end of the stream."""
        if self.at > BLOCK:
            with memoryview(self.held) as held:
                held[: self.end - self.at] = held[self.at : self.end]
            self.passed, self.at, self.end = self.passed + self.at, 0, self.end - self.at
        self.held[self.end : self.end + len(octets)] = octets
        self.end += len(octets)
        self.has_ended = not octets

    def find(self) -> Optional[Tuple[int, int, bytes]]:
        """Returns the start, the end and the fault of the next message or stray, or None if more bytes are needed.

        A stray is an occurrence of `BUFR` that is not the start of a complete message. For a complete message, the fault is
        empty.
        """
        at = self.held.find(b"BUFR", self.at, self.end)
        if at < 0:
            self.at = max(self.at, self.end - 3)
            return None
        self.at = at
        length = int.from_bytes(self.held[at + 4 : at + 7], "big")
        fault = b""
        if at + 8 > self.end or at + length > self.end and length <= self.longest:
            if not self.has_ended:
                return None
            fault = b"1 cut"
        elif length > self.longest:
            fault = b"skipped a message that declares a length of %d bytes" % length
        elif length < 12:
            fault = b"2 short length"
        elif not self.held.startswith(b"7777", at + length - 4):
            fault = b"3 no end"
        self.at = at + 4 if fault else at + length
        return at, self.at, fault


def is_stray(fault: bytes) -> bool:
    """Returns whether `fault` describes a stray rather than a skipped message."""
    return fault[:1].isdigit()


def stray_line(offset: int, fault: bytes, prefix: bytes = b"") -> bytes:
    """Returns the line that reports a stray or a skipped message."""
    line = b"%soffset %d: %s\n" % (prefix, offset, fault)
    return line if is_stray(fault) else os.fsencode(bufr_guard.name()) + b": " + line


class Masker:
    """Hides messages whose declared length exceeds `longest` bytes from the program that reads the stream, and reports them.

    The first four bytes of each hidden message are replaced with zeros, so the offsets of other messages do not change.
    """

    def __init__(self, longest: int) -> None:
        self.finder, self.count = Finder(longest), 0

    def take(self, octets: bytes) -> Iterator[bytes]:
        """Adds the next block of the stream, and yields the bytes that can now be passed on.

        An empty block marks the end of the stream.
        """
        finder = self.finder
        finder.put(octets)
        first = finder.at
        while found := finder.find():
            begin, _, fault = found
            if fault and not is_stray(fault):
                finder.held[begin : begin + 4] = bytes(4)
                self.count += 1
                bufr_guard.say(stray_line(finder.passed + begin, fault))
        end = finder.end if finder.has_ended else finder.at
        for begin in range(first, end, bufr_guard.BLOCK):
            yield bytes(finder.held[begin : min(begin + bufr_guard.BLOCK, end)])


class Source:
    """The pieces of a file, in order. Each piece is valid until the next piece is requested.

    The iterator yields None before a read that may block. If `is_long` is true, the piece that was just yielded is only
    the beginning of a long piece. In that case, `rest` yields the whole piece, block by block, and sets `lines` to the
    number of lines in the piece.
    """

    is_long = False
    lines = 0

    def __iter__(self) -> Iterator[Optional[Piece]]:
        raise NotImplementedError

    def rest(self) -> Iterator[bytes]:
        raise NotImplementedError


class Messages(Source):
    """The messages and strays in a stream, with their offsets."""

    def __init__(self, feed: Feed, longest: Optional[int]) -> None:
        self.feed, self.finder = feed, Finder(longest)

    def __iter__(self) -> Iterator[Optional[Piece]]:
        finder = self.finder
        while True:
            found = finder.find()
            if found:
                begin, end, fault = found
                octets = memoryview(finder.held)[begin:end]
                yield finder.passed + begin, octets, fault
                octets.release()
            elif finder.has_ended:
                return
            else:
                if self.feed.may_wait():
                    yield None
                finder.put(self.feed.read())


class Documents(Source):
    """The documents in a dump, with their line numbers.

    Each piece includes any lines that precede its document. Any lines after the last document form a separate piece.
    """

    def __init__(self, feed: Feed, _longest: Optional[int]) -> None:
        self.feed, self.held, self.has_ended = feed, bytearray(b"\n"), False

    def __iter__(self) -> Iterator[Optional[Piece]]:
        # held[0] is the line feed before the next document.
        held, number, at = self.held, 1, 0
        while True:
            begin = begin_of(held)
            if begin > BLOCK:
                # Drop most of the comments before a document, so that the first HEADER bytes of the piece contain the
                # descriptors.
                number += held.count(b"\n", 1, begin)
                del held[1:begin]
                at = 0
            found = held.find(END, at)
            if found < 0 and not self.has_ended and len(held) <= PART:
                at = max(0, len(held) - len(END))
                if self.feed.may_wait():
                    yield None
                self.read()
                self.has_ended = self.has_ended or not may_begin(held)
                continue
            self.is_long = found < 0 and not self.has_ended
            text = bytes(held[1 : HEADER if self.is_long else found + len(END) if found >= 0 else len(held)])
            self.lines = text.count(b"\n")
            if not self.is_long:
                del held[: len(text)]
            if text:
                yield number, text, b""
            if found < 0 and not self.is_long:
                return
            number += self.lines
            at = 0

    def read(self) -> None:
        octets = self.feed.read()
        self.held += octets
        self.has_ended = not octets

    def rest(self) -> Iterator[bytes]:
        held, self.lines, found = self.held, 0, -1
        while found < 0:
            found = held.find(END)
            # Until the `end` line is found, keep any bytes that may be its beginning, and the byte before them.
            kept = 0 if found >= 0 or self.has_ended else len(END) - 1
            end = found + len(END) if found >= 0 else max(1, len(held) - kept)
            text = bytes(held[1:end])
            self.lines += text.count(b"\n")
            yield text
            del held[: end - 1]
            if found < 0 and self.has_ended:
                self.lines += 2
                return
            if found < 0:
                self.read()


def begin_of(text: bytearray) -> int:
    """Returns the index of the first line that is neither empty nor a comment. `text` must begin with a line feed."""
    at, end = 1, text.find(b"\n", 1)
    while end == at or (at < end <= at + LINE and text.startswith(b"#", at)):
        at, end = end + 1, text.find(b"\n", end + 1)
    return at


def may_begin(text: bytearray) -> bool:
    """Returns whether `text` can be the beginning of a dump. If not, it may be BUFR data, for example."""
    at = begin_of(text)
    end = text.find(b"\n", at)
    return len(text) - at <= LINE if end < 0 else text[at:end] == b"message"


class Store:
    """A temporary file that is written in large blocks."""

    def __init__(self) -> None:
        self.file, self.block = bufr_guard.temporary(), bytearray()

    def add(self, octets: Octets) -> None:
        if len(octets) < BLOCK:
            self.block += octets
            if len(self.block) >= BLOCK:
                self.flush()
        else:
            self.flush()
            bufr_guard.keep(self.file, octets)

    def flush(self) -> None:
        bufr_guard.keep(self.file, self.block)
        self.block.clear()

    def descriptor(self) -> int:
        """Moves to the start of the file and returns the file's descriptor."""
        self.flush()
        os.lseek(self.file, 0, os.SEEK_SET)
        return self.file


class Reason:
    """A reason why a table set may not match a message exactly.

    `concerns` returns whether a descriptor is affected, and `advice` returns advice on how to get the right set.
    """

    def __init__(self, text: str, concerns: Callable[[str], bool], advice: Callable[[], str] = str) -> None:
        self.text, self.concerns, self.advice = text, concerns, advice
        self.count, self.first, self.is_told = 0, "", False


class Run:
    """A run of `bufr` on the pieces of a part that need the same table set."""

    COMMAND: str
    PLACE: bytes
    FIRST: int
    PIECE: str
    SOURCE: Type[Union[Messages, Documents]]
    # The beginnings of the faults after which no notes on tables are printed, because the header may be invalid.
    HEADER_FAULTS: Tuple[bytes, ...]

    def __init__(self, tables: bufr_sets.TableSet) -> None:
        words = [self.COMMAND, "-B", tables.file("B.csv"), "-D", tables.file("D.csv")]
        self.tables, self.words = tables, [bufr_guard.program(), *words]
        self.pieces = Store()

    @staticmethod
    def size_of(octets: Octets) -> int:
        """Returns the size of a piece in bytes or lines, whichever unit its fault lines use."""
        raise NotImplementedError

    @staticmethod
    def asked_by(piece: Bytes) -> Tables:
        """Returns the numbers in a piece's header that determine which table set it needs."""
        raise NotImplementedError

    @staticmethod
    def words_of(piece: Bytes) -> bytes:
        """Returns the descriptors of a piece: two bytes each in a message, or the `descriptors` lines of a document."""
        raise NotImplementedError

    @staticmethod
    def descriptors(words: bytes) -> Tuple[str, ...]:
        """Converts the result of `words_of` to a tuple of six-digit descriptors."""
        raise NotImplementedError

    def copy_piece(self) -> bool:
        """Copies the output for the next piece. Returns whether the output is complete."""
        raise NotImplementedError

    def start(self, output: Optional[int]) -> None:
        """Starts the run. If `output` is None, the output goes to a temporary file, from which `copy` reads it."""
        self.start_on(self.pieces.descriptor(), output)

    def start_on(self, given: int, output: Optional[int]) -> None:
        errors, copied = bufr_guard.temporary(), bufr_guard.temporary() if output is None else output
        self.process = bufr_guard.start(self.words, given, copied, errors)
        os.close(given)
        self.errors = open(errors, "rb")
        self.output = open(copied, "rb", 0) if output is None else None

    def finish(self) -> None:
        """Waits for the program to exit and then reads the first fault line."""
        self.status = bufr_guard.wait(self.process)
        self.others: List[bytes] = []  # lines that do not report faults in pieces
        self.passed = 0  # the total size of the pieces so far, in bytes or lines
        self.errors.seek(0)
        self.take_fault()
        if self.output is not None:
            self.output.seek(0)
            self.read, self.at = b"", 0

    def take_fault(self) -> None:
        """Reads the next fault line and sets `told` to its text and `place` to its offset or line number.

        If there is no such line, `place` is `NOWHERE`.
        """
        for line in self.errors:
            word, _, self.told = line.partition(b": ")
            if word.startswith(self.PLACE) and word[len(self.PLACE) :].isdigit():
                self.place: float = int(word[len(self.PLACE) :]) - self.FIRST
                return
            self.others.append(line)
        self.place = bufr_guard.NOWHERE

    def fault(self, place: int, size: int) -> bytes:
        """Returns the fault line for the next piece, or an empty bytes object if the piece has no fault."""
        begin, self.passed = self.passed, self.passed + size
        if self.place >= self.passed:
            return b""
        line = b"%s%d: %s" % (self.PLACE, place + int(self.place) - begin, self.told)
        self.take_fault()
        return line

    def copy(self, target: bufr_guard.Output) -> bool:
        """Copies the output for the next piece to the target. Returns whether the output is complete."""
        self.target = target
        return self.output is None or self.copy_piece()

    def take(self) -> bool:
        """Reads more of the program's output. Returns False if there is no more."""
        assert self.output is not None
        octets = self.output.read(BLOCK)
        self.read, self.at = self.read[self.at :] + octets, 0
        return bool(octets)

    def give(self, end: int) -> None:
        """Copies the buffered output up to the index `end` to the target."""
        self.target.write(memoryview(self.read)[self.at : end])
        self.at = end

    def close(self) -> None:
        self.errors.close()
        if self.output is not None:
            self.output.close()


class Dump(Run):
    """A run of `bufr dump`. Its pieces are messages, which are located by their offsets."""

    COMMAND, PLACE, FIRST, PIECE, SOURCE = "dump", b"offset ", 0, "message", Messages
    HEADER_FAULTS = (b"1",)  # 10 to 19: the sections are invalid
    size_of, words_of = staticmethod(len), staticmethod(bufr_sets.words_of)
    descriptors = staticmethod(bufr_sets.descriptors)

    @staticmethod
    def asked_by(piece: Bytes) -> Tables:
        begin = piece(0, 23).ljust(23, b"\0")
        if begin[7] == 4:
            return begin[12] << 8 | begin[13], begin[11], begin[21], begin[22]
        return begin[13], begin[11], begin[18], begin[19]

    def copy_piece(self) -> bool:
        while (found := self.read.find(END, self.at)) < 0:
            self.give(max(self.at, len(self.read) - len(END) + 1))
            if not self.take():
                self.give(len(self.read))
                return False
        self.give(found + len(END))
        return True


class Encode(Run):
    """A run of `bufr encode`. Its pieces are documents, which are located by their line numbers."""

    COMMAND, PLACE, FIRST, PIECE, SOURCE = "encode", b"line ", 1, "document", Documents
    HEADER_FAULTS = (b"50 ", b"61 ")  # an invalid line, perhaps in the header, or a header value out of range

    @staticmethod
    def size_of(octets: Octets) -> int:
        """Returns the number of lines. If `end` is missing, the count includes the line at which `bufr` reports this."""
        text = bytes(octets)
        return text.count(b"\n") + 2 * (not text.endswith(END))

    @staticmethod
    def asked_by(piece: Bytes) -> Tables:
        text = piece(0, HEADER)
        found = []
        for key in (b"\ncentre ", b"\nmaster ", b"\nmasterversion ", b"\nlocalversion "):
            at = text.find(key) + len(key)
            number = text[at : text.find(b"\n", at)] if at >= len(key) else b""
            found.append(int(number) if number.isdigit() and len(number) < 9 else 0)
        centre, master, version, local = found
        return centre, master, version, local

    @staticmethod
    def words_of(piece: Bytes) -> bytes:
        text = piece(0, HEADER)
        begin = text.find(b"\ndescriptors ")
        return text[begin : text.find(b"\nsubset ", begin)]

    @staticmethod
    def descriptors(words: bytes) -> Tuple[str, ...]:
        lines = words.decode("ascii", "replace").splitlines()
        return tuple(word for line in lines if line.startswith("descriptors ") for word in line.split()[1:])

    def copy_piece(self) -> bool:
        while len(self.read) < self.at + 7:
            if not self.take():
                # Only comments can follow the last document.
                return self.status == 0 and self.at == len(self.read)
        left = int.from_bytes(self.read[self.at + 4 : self.at + 7], "big")
        while left > len(self.read) - self.at:
            left -= len(self.read) - self.at
            self.give(len(self.read))
            if not self.take():
                return False
        self.give(self.at + left)
        return True


class Part:
    """A series of pieces, with a run for each table set that they need.

    Each piece has a place, a size, either a run or a fault, and the reasons for any notes. If there are conditions, the
    pieces are first added to `candidates`, without a run.
    """

    def __init__(self) -> None:
        self.runs: Dict[bufr_sets.TableSet, Run] = {}
        self.pieces: List[Tuple[int, int, Optional[Run], List[Reason], bytes]] = []
        self.size, self.is_started = 0, False
        self.candidates: Optional[Store] = None

    def is_full(self) -> bool:
        return self.size >= PART or len(self.pieces) == PIECES

    def start(self, output: Optional[int]) -> None:
        if not self.is_started:
            for run in self.runs.values():
                run.start(output)

    def stop(self) -> None:
        bufr_guard.kill([run.process for run in self.runs.values()])


class Notes:
    """The reasons why no table set matches exactly. Each records how many pieces are affected and where the first one is."""

    def __init__(self) -> None:
        self.reasons: Dict[str, Reason] = {}
        self.others = Reason(f"no table set matches exactly; only the first {KINDS_OF_NOTES:,} reasons are listed", bool)

    def known(self, reason: Reason) -> Reason:
        """Records a reason, unless one with the same text has already been recorded, and returns the recorded reason.

        If the maximum number of reasons has already been recorded, returns the reason that stands for all further ones.
        """
        if reason.text not in self.reasons and len(self.reasons) >= KINDS_OF_NOTES:
            return self.others
        return self.reasons.setdefault(reason.text, reason)

    def lines(self, piece: str, so_far: str) -> Iterator[bytes]:
        """Yields the notes that have not been printed yet."""
        for reason in [*self.reasons.values(), self.others]:
            if reason.count and not reason.is_told:
                reason.is_told = True
                pieces = f"1 {piece}{so_far}," if reason.count == 1 else f"{reason.count} {piece}s{so_far}, the first"
                advice = reason.advice()
                line = f"{bufr_guard.name()}: {pieces} {reason.first}: {reason.text}{'; ' + advice if advice else ''}\n"
                yield line.encode("utf-8", "surrogateescape")


def reasons(asked: Tables, tables: bufr_sets.TableSet) -> List[Reason]:
    """Returns the reasons why a table set may not match a message exactly."""
    centre, master, version, local = asked
    found = []
    if master != 0:
        found.append(Reason(f"master table {master} is not WMO's table for meteorology", bool))
    if version > tables.version:
        text = f"table version {version} is later than that of the table set {tables.name}"
        found.append(Reason(text, bool, lambda: bufr_sets.NEWER))
    if version <= 6 < tables.version:
        text = f"table version {version} defines some descriptors differently from the table set {tables.name}"
        found.append(Reason(text, CHANGED_SINCE_6.__contains__))
    if local != 0 and tables.own is None:
        own = bufr_sets.own_name(tables, centre, local)
        text = f"the table set {own} (local version {local} of centre {centre}) is missing"
        found.append(Reason(text, bufr_sets.is_local, lambda: bufr_sets.advice(tables, centre, version, local)))
    return found


class Chooser:
    """Chooses the table set for each message or document and records the notes on sets that do not match exactly."""

    def __init__(self, kind: Type[Run]) -> None:
        self.kind, self.sets, self.notes = kind, bufr_sets.TableSets(), Notes()
        self.known: Dict[Tables, Tuple[bufr_sets.TableSet, List[Reason]]] = {}
        self.remembered: Dict[Tuple[bufr_sets.TableSet, Callable[[str], bool], bytes], bool] = {}

    def choose(self, piece: Bytes) -> Tuple[bufr_sets.TableSet, List[Reason]]:
        """Returns the table set for a piece, and the reasons why the set may not match the piece exactly."""
        asked = self.kind.asked_by(piece)
        if asked not in self.known:
            if len(self.known) == KINDS_OF_NOTES:
                self.known.clear()
            centre, _, version, local = asked
            tables = self.sets.asked(centre, version, local)
            self.known[asked] = tables, reasons(asked, tables)
        tables, notes = self.known[asked]
        if notes:
            words = self.kind.words_of(piece)
            notes = [self.notes.known(reason) for reason in notes if self.is_concerned(tables, reason, words)]
        return tables, notes

    def is_concerned(self, tables: bufr_sets.TableSet, reason: Reason, words: bytes) -> bool:
        """Returns whether a reason applies to any descriptor that a descriptor list uses, directly or through sequences."""
        key = tables, reason.concerns, words
        if key in self.remembered:
            return self.remembered[key]
        is_concerned = any(map(reason.concerns, tables.used(self.kind.descriptors(words))))
        if len(self.remembered) == REMEMBERED:
            self.remembered.clear()
        if len(words) <= 7 * REMEMBERED:
            self.remembered[key] = is_concerned
        return is_concerned


class Work:
    """Dumps or encodes the files. Records the exit status so far, and the lines to print after the last file."""

    def __init__(self, kind: Type[Run], files: Sequence[Optional[str]], output: int = 1) -> None:
        self.kind, self.files, self.chooser, self.target = kind, files, Chooser(kind), bufr_guard.output(output)
        self.longest: Optional[int] = None
        self.conditions: Optional[Conditions] = None
        self.has_places = False
        self.more_notes: Callable[[], bytes] = bytes
        self.at_end: Callable[[], int] = int
        self.next_notes = time.monotonic() + bufr_guard.INTERVAL
        self.status, self.is_over, self.done = 0, False, 0
        self.last: List[bytes] = []
        self.part = Part()
        sizes = [os.path.getsize(file) for file in files if file is not None and os.path.isfile(file)]
        self.progress = bufr_guard.Progress(sum(sizes))

    def do(self) -> int:
        try:
            for file in self.files:
                if not self.is_over:
                    self.serve(file)
            self.say_notes("")
            self.status = max(self.status, self.at_end())
        finally:
            self.report_last()
        return self.status

    def report_last(self) -> None:
        """Prints the remaining notes, and then the lines that explain why files could not be read or programs failed."""
        self.say_notes("")
        bufr_guard.say(b"".join(self.last))

    def report(self) -> None:
        """Prints the notes on the messages that a feed has delivered so far."""
        self.say_notes(" so far")
        bufr_guard.say(self.more_notes())
        bufr_guard.output(2).flush()
        self.next_notes = time.monotonic() + bufr_guard.INTERVAL

    def say_notes(self, so_far: str) -> None:
        """Prints the notes that have not been printed yet."""
        sets = self.chooser.sets
        notes, sets.notes = sets.notes, []
        if self.conditions:
            notes += self.conditions.new_note(so_far)
        told = [os.fsencode(f"{bufr_guard.name()}: {bufr_guard.shown(note)}\n") for note in notes]
        bufr_guard.say(b"".join([*self.chooser.notes.lines(self.kind.PIECE, so_far), *told]))

    def fail(self, unread: Unread) -> None:
        """Records why a file could not be read. Processing continues with the next file."""
        self.last.append(os.fsencode(f"{bufr_guard.name()}: {unread}\n"))
        self.status = 2

    def serve(self, file: Optional[str]) -> None:
        """Processes a file. If a part has several runs, they are started before the previous part is written."""
        try:
            feed = Feed(file, self.report)
        except Unread as unread:
            self.fail(unread)
            return
        before = None
        for part in self.parts(feed):
            is_copied = part is not None and (len(part.runs) > 1 or self.has_places)
            if part and is_copied:
                part.start(None)
            if before:
                self.write(before, feed)
                if feed.poll is not None and time.monotonic() >= self.next_notes:
                    self.report()
            if self.is_over:
                if part and is_copied:
                    part.stop()
                return
            if part and not is_copied:
                part.start(self.target.descriptor)
            before = part
            self.progress.at(self.done + feed.taken)
        self.done += feed.taken
        feed.close()

    def parts(self, feed: Feed) -> Iterator[Optional[Part]]:
        """Yields the parts of a file. Also yields None whenever the parts before it must be written.

        This is the case before a read that may block, and at the end of the file.

        This function must be short: to leave a `try` block that ends more than 256 instructions into a function, Python
        3.11 must allocate an integer, which fails if memory has run out.
        """
        source = self.kind.SOURCE(feed, self.longest)
        pieces = iter(source)  # freed after the part, because Python may otherwise report that it cannot close the iterator
        self.part = Part()
        try:
            yield from self.full_parts(feed, source, pieces)
        except Unread as unread:
            self.fail(unread)
        yield self.selected(self.part)
        yield None

    def full_parts(self, feed: Feed, source: Source, pieces: Iterator[Optional[Piece]]) -> Iterator[Optional[Part]]:
        """Yields the parts of a file, except the last, which remains in `self.part`."""
        count = 0
        for piece in pieces:
            count += piece is not None and not is_stray(piece[2])
            if piece and source.is_long:
                yield self.part
                yield None
                self.part = Part()
                self.feed(self.part, source, feed, piece)
            elif piece:
                self.add(self.part, *piece)
            if self.part.pieces and (self.part.is_full() or self.part.is_started or not piece):
                yield self.selected(self.part)
                self.part = Part()
            if not piece:
                yield None
        if not count:
            self.last.append(bufr_guard.bare(feed.file, feed.begin, self.kind.PIECE))

    def add(self, part: Part, place: int, octets: Octets, fault: bytes) -> None:
        if fault:
            part.pieces.append((place, 0, None, [], fault))
            return
        part.size += len(octets)
        if self.conditions:
            part.candidates = part.candidates or Store()
            part.candidates.add(octets)
            part.pieces.append((place, len(octets), None, [], b""))
        else:
            run, notes = self.assigned(part, lambda at, length: bytes(octets[at : at + length]))
            run.pieces.add(octets)
            part.pieces.append((place, self.kind.size_of(octets), run, notes, b""))

    def feed(self, part: Part, source: Source, feed: Feed, piece: Piece) -> None:
        """Passes a long piece to a separate run, block by block, as the blocks arrive."""
        place, begin, _ = piece
        run, notes = self.assigned(part, lambda at, length: bytes(begin[at : at + length]))
        os.close(run.pieces.descriptor())
        given, pipe = os.pipe()
        run.start_on(given, self.target.descriptor)
        part.is_started = True
        try:
            for octets in source.rest():
                bufr_guard.write_all(pipe, octets)
                self.progress.at(self.done + feed.taken)
        except BrokenPipeError:
            pass  # the program has rejected the piece and reported the fault
        finally:
            os.close(pipe)
        part.pieces.append((place, source.lines, run, notes, b""))

    def selected(self, part: Part) -> Part:
        """Returns a part that contains the candidates that meet the conditions and those that `bufr ls` rejects."""
        if part.candidates is None:
            return part
        candidates, chosen, begin = part.candidates.descriptor(), Part(), 0
        refused = self.refused(candidates)
        for place, size, run, notes, fault in part.pieces:
            if not fault and begin not in refused:
                run, notes = self.assigned(
                    chosen, lambda at, length: bufr_guard.read_at(candidates, begin + at, max(0, min(length, size - at)))
                )
                for at in range(0, size, BLOCK):
                    run.pieces.add(bufr_guard.read_at(candidates, begin + at, min(BLOCK, size - at)))
            if run or fault:
                chosen.pieces.append((place, size, run, notes, fault))
            begin += size
        os.close(candidates)
        return chosen

    def refused(self, candidates: int) -> FrozenSet[int]:
        """Returns the offsets of the messages that do not meet the conditions.

        `candidates` is the descriptor of a file that contains the messages, and the offsets are positions in that file.
        """
        assert self.conditions
        (listing, target), nothing = os.pipe(), os.open(os.devnull, os.O_WRONLY)
        process = bufr_guard.start([bufr_guard.program(), "ls"], candidates, target, nothing)
        os.close(target)
        os.close(nothing)
        found = set()
        for lines in bufr_guard.lines_from(listing, bufr_guard.Progress(), lambda: 0):
            for line in lines.splitlines():
                if not self.conditions.are_met(line):
                    found.add(int(line[len(b"offset=") : line.index(b" ")]))
        os.close(listing)
        bufr_guard.checked(bufr_guard.wait(process), False)
        return frozenset(found)

    def assigned(self, part: Part, piece: Bytes) -> Tuple[Run, List[Reason]]:
        """Returns the run for a piece, and the reasons why the run's table set may not match the piece exactly."""
        tables, notes = self.chooser.choose(piece)
        if tables not in part.runs:
            part.runs[tables] = self.kind(tables)
        return part.runs[tables], notes

    def write(self, part: Part, feed: Feed) -> None:
        """Writes the output of every run in a part, in the order of the pieces."""
        for run in part.runs.values():
            run.finish()
        prefix, within = (b"", "") if len(self.files) == 1 else (os.fsencode(feed.name) + b":", f"in {feed.name} ")
        worst = max(part.runs.values(), key=lambda run: run.status, default=None)
        is_whole = True
        for place, size, one, notes, stray in part.pieces:
            if one is None:
                bufr_guard.say(stray_line(place, stray, prefix))
                self.status = max(self.status, 1)
                continue
            fault = one.fault(place, size)
            if not fault.partition(b": ")[2].startswith(one.HEADER_FAULTS):
                for reason in notes:
                    reason.count += 1
                    reason.first = reason.first or f"{within}at {one.PLACE.decode()}{place}"
            if fault:
                bufr_guard.say(prefix + fault)
                self.is_over = one.COMMAND == "encode"
                if fault == b"line 1: 50 line\n":
                    self.last.append(bufr_guard.no_dump(feed.name, feed.begin))
            else:
                if self.has_places:
                    name = os.fsencode("-" if feed.file is None else feed.name)
                    self.target.write(b"# offset=%d length=%d file=%s\n" % (place, size, name))
                if not one.copy(self.target):
                    worst, is_whole, self.is_over = one, False, True
            if self.is_over:
                break
        bufr_guard.flush()
        for run in part.runs.values():
            run.close()
        if worst is not None:
            self.end(worst, is_whole)

    def end(self, run: Run, is_whole: bool) -> None:
        """Records the exit status of a run and all lines that it printed except fault lines."""
        self.last += run.others
        for line in run.others:
            if line.startswith((b"table B: ", b"table D: ")):
                file = bufr_guard.shown(run.tables.file(f"{chr(line[6])}.csv"))
                self.last.append(os.fsencode(f"{bufr_guard.name()}: cannot use {file}: ") + line[9:])
        status = bufr_guard.checked(run.status, bool(run.others))
        if not is_whole and status < 2:
            raise bufr_guard.Failed("bufr stopped early; output is incomplete")
        self.is_over = self.is_over or status == 2
        self.status = max(self.status, status)


def dump(
    files: Sequence[Optional[str]],
    output: int = 1,
    longest: Optional[int] = None,
    conditions: Optional[Conditions] = None,
    has_places: bool = False,
    more_notes: Callable[[], bytes] = bytes,
    at_end: Callable[[], int] = int,
) -> int:
    """Dumps files, writes the dumps to the descriptor `output`, and returns the exit status.

    A name of None stands for standard input. Fault lines, notes and progress go to standard error, as in bufr-auto. A
    message is skipped if its declared length exceeds `longest` bytes or if it does not meet the conditions. With
    `has_places`, a comment before each document gives the place of its message: `# offset=595 length=422 file=NAME`.
    Whenever notes on a feed are printed, `more_notes` is called, and the lines that it returns are printed as well. After the
    last file, `at_end` is called, which can print more notes and returns an exit status. The lines that explain why a file
    could not be read, or why `bufr` stopped, come last.
    """
    work = Work(Dump, files, output)
    work.more_notes, work.at_end = more_notes, at_end
    work.longest, work.conditions, work.has_places = longest, conditions, has_places
    return work.do()


def work(words: List[str]) -> int:
    asked = bufr_options.Asked(words, flags=["--encode"], values={"--max-length": bufr_options.from_12})
    if not asked.has("--encode"):
        return dump(asked.files(), longest=asked.last("--max-length"))
    if asked.has("--max-length"):
        raise bufr_options.misused("--max-length cannot be used with --encode")
    return Work(Encode, asked.files()).do()
