"""Runs `bufr` from Python, and reads and writes dumps. Needs only the standard library.

    import bufr_text
    for row in bufr_text.rows("synop.bufr", ["001015", "012101"], ["year"], where=["category=0"]):
        print(row)
    for message in bufr_text.dump("synop.bufr"):
        for subset in message.subsets:
            air = bufr_text.find(subset, "012101")
            print(message.offset, air.value, air.unit)

`rows` and `levels` yield the rows of a table as tuples. `dump` yields messages, `listing` yields the place and the header
of each message, and `encode` converts messages to BUFR. These functions run the program `bufr`, except that `rows` and
`levels` use the `bufr` module instead if Python can import it. `read` and `write` convert between dumps and messages.

Messages are read one at a time, so memory use depends on the longest message in a file, not on the length of the file:
48 MB including Python, plus 1 KB for each item in that message, plus twice the length of its dump. The list of faults and
the result of `encode` need additional memory.
"""
from __future__ import annotations

import itertools
import os
import pathlib
import re
import shutil
import stat
import subprocess
import sys
import tempfile
import warnings
from dataclasses import dataclass, field, replace
from decimal import Decimal
from typing import IO, Any, Container, Dict, Iterable, Iterator, List, NamedTuple, Optional, Sequence, Set, Tuple
from typing import TypeVar, Union

TYPE_CHECKING = False
if TYPE_CHECKING:
    from bufr_conditions import Conditions
    from bufr_sets import TableSet

__all__ = (
    "HEADER Cell DumpWarning Fault Item Listed Message RunError TextError Value "
    "dump encode find levels listing parts read rows write"
).split()

#: The value of an item: a number, a string as bytes, or `None` if the value is missing.
Value = Union[Decimal, bytes, None]
#: A value in a row: an integer, another number, a string, or `None`.
Cell = Union[int, float, str, None]
_Path = Union[str, "os.PathLike[str]"]
_Word = TypeVar("_Word")

#: The header keys of a message, in the order of their lines. `optional` and `subsets` are derived from the message.
HEADER = (
    "edition master centre subcentre update category subcategory localsubcategory masterversion localversion "
    "year month day hour minute second observed compressed"
).split()

# The contents of a quoted string: plain bytes and escapes.
_QUOTED = rb'[ !#-\[\]-~]*(?:\\(?:["\\]|x[0-9A-F]{2})[ !#-\[\]-~]*)*'
_FXY = rb"[0-3](?:[0-5]\d|6[0-3])(?:[01]\d\d|2[0-4]\d|25[0-5])"
_ELEMENT = re.compile(_FXY.decode(), re.ASCII)
_COLUMN = re.compile(_FXY.decode() + r"(?::[1-9]\d*)?", re.ASCII)
_DESCRIPTORS = re.compile(rb"descriptors(?: " + _FXY + rb"){1,8}")
_HEX = re.compile(rb"(?:[0-9A-Fa-f]{2}){1,32}")
_VALUE = rb'(?:(-?\d+(?:\.\d+)?)|"(' + _QUOTED + rb')"|MISSING)'
_ITEM = re.compile(rb"(R )?(" + _FXY + rb") " + _VALUE + rb"(?: +#(?: (.*) \[(.*)\]|.*))?", re.DOTALL)
_ESCAPE = re.compile(rb"\\(?:x(..)|(.))")
_LISTED = re.compile(
    b"offset=N length=N edition=N centre=N/N update=N category=N/N/N tables=N/N/N time=N-N-NTN:N:N "
    b"subsets=N observed=N compressed=N optional=N descriptors=N\n".replace(b"N", rb"(\d+)")
)
_FAULT = re.compile(rb"offset (\d+): (\d+) (.*)\n?")
_NOTE = re.compile(rb"bufr-auto: (\d+) messages?(?: so far)?,(?: the first)? at offset (\d+): (.*)")
_MESSAGES = "expected a file name, or messages from dump() or read()"
_UNPRINTED = re.compile(rb'["\\]|[^ -~]')


# Patterns that match invalid lines, and the likely causes. The first pattern that matches determines the cause.
_CAUSES = [
    (re.compile(pattern, re.DOTALL), cause)
    for pattern, cause in [
        (rb"\xef\xbb\xbf.*", "a byte order mark"),
        (rb"(?:\x01|[A-Z]{4}\d\d [A-Z]{4} |BUFR).*", "BUFR data instead of a dump; to dump it, use bufr-auto"),
        (rb".*\r", "a carriage return at the end"),
        (rb">.*", "a > from a quoted email"),
        (rb"[^\"#]*\t.*", "a tab instead of a space"),
        (rb" .*", "a space at the beginning"),
        (rb"message", "'message'; the previous document has no 'end' line"),
        (rb"(?:R )?\d{1,5} .*", "a descriptor with fewer than six digits"),
        (rb"[^\"#]*\S  +[^ #].*", "two spaces instead of one"),
        (rb"[^\"#]*[^\"# ]#.*|[^\"]*\".*\"#.*", "no space before #"),
        (rb"[^\"#]* \+.*", "a plus sign before a number"),
        (rb"[^\"#]* -?[\d.]+[Ee].*", "an exponent in a number"),
        (rb"[^\"#]* -?\d*,.*", "a decimal comma"),
        (rb"[^\"#]* -?(?:[Nn][Aa][Nn]|[Ii]nf)\b.*", "a value that is not a number; write MISSING for a missing value"),
        (rb"[^\"#]* (?!MISSING)(?i:missing)\b.*", "MISSING in lower or mixed case"),
        (rb"[^\"#]* -?(?:\d+\.|\.\d+)(?: .*)?", "a decimal point that is not between two digits"),
        (rb"\d{6} ?", "no value; write MISSING for a missing value"),
        (rb".* ", "a space at the end"),
        (rb"[a-z][^#]*#.*", "a comment, which is allowed only after an item"),
        (rb"\d{6} \"[^\"]*\\x(?![0-9A-F]{2}).*", "\\x not followed by two uppercase hexadecimal digits"),
        (rb"\d{6} \"[^\"]*[^ -~].*", "a byte that must be escaped as \\xHH in a string"),
        (rb"\d{6} \".*", "an unescaped \" or \\ in a string, or no closing \""),
        (rb"\d{6} [^-.\d\"].*", "a string without quotes"),
    ]
]


class TextError(ValueError):
    """Raised for an invalid line in a dump. The text gives the line number, what was expected and, if known, the cause.

    `line` is the number of the line, counted from 1.
    """

    def __init__(self, line: int, expected: str, cause: str = "") -> None:
        super().__init__(line, expected, cause)
        self.line = line

    def __str__(self) -> str:
        line, expected, cause = self.args
        return f"line {line}: expected {expected}" + (cause and f", found {cause}")


class RunError(RuntimeError):
    """Raised if a program fails or rejects a dump.

    `status` is the exit status of the program or, if a signal killed it, the negative signal number.
    """

    def __init__(self, status: int, reason: str) -> None:
        super().__init__(status, reason)
        self.status = status

    def __str__(self) -> str:
        return str(self.args[1])


class BufrError(RuntimeError):
    """Raised by the `bufr` module if a message is rejected, if there is a stray, or if a table is invalid.

    Also raised for a file without messages and for an empty list of files. `file`, `offset`, `number` and `text` have the
    same meaning as in `Fault`. For a file without messages, only `file` is set; for an invalid table or an empty list of
    files, all four are `None`.
    """

    def __init__(
        self,
        reason: str,
        offset: Optional[int] = None,
        number: Optional[int] = None,
        text: Optional[str] = None,
        file: Optional[str] = None,
    ) -> None:
        super().__init__(reason)
        self.offset, self.number, self.text, self.file = offset, number, text, file


class DumpWarning(UserWarning):
    """Issued, for example, if a file contains no messages, if messages were rejected or left out, or if a column is empty."""


def warn(text: str) -> None:
    """Issues a `DumpWarning` that points to the line that called into this module or the `bufr` module."""
    level, frame = 2, sys._getframe(1)
    while frame.f_globals["__name__"] in ("bufr", "bufr_parts", "bufr_text") and frame.f_back:
        level, frame = level + 1, frame.f_back
    warnings.warn(text, DumpWarning, stacklevel=level)


class Fault(NamedTuple):
    """A fault that `bufr` reported: the byte offset of the message or stray, the fault number and the description.

    `file` is the name of the file. The number is below 10 for a stray, and 10 or more for a rejected message.
    """

    offset: int
    number: int
    text: str
    file: str = ""

    def line(self) -> str:
        """Returns the fault line that `bufr` prints, without the name of the file."""
        return f"offset {self.offset}: {self.number} {self.text}"

    def __str__(self) -> str:
        return f"{self.file}: {self.line()}" if self.file else self.line()


STRAY = "the word BUFR where no complete message begins"


class FaultCounts:
    """The number of rejected messages and the number of strays in a file, and the first fault."""

    def __init__(self) -> None:
        self.refused = self.strays = 0
        self.first: Optional[Fault] = None

    def add(self, fault: Fault) -> None:
        self.refused += fault.number >= 10
        self.strays += fault.number < 10
        self.first = self.first or fault

    def told(self) -> List[str]:
        """Returns a list with the text of a warning, or an empty list if there are no faults."""
        if self.first is None:
            return []
        kinds = []
        if self.refused:
            kinds.append("rejected 1 message" if self.refused == 1 else f"rejected {self.refused} messages")
        if self.strays:
            strays = "1 stray" if self.strays == 1 else f"{self.strays} strays"
            kinds.append(f"skipped {strays} ({STRAY})")
        where = " " if self.refused + self.strays == 1 else "; the first fault is "
        advice = "to get all faults, pass an empty list as faults=; for explanations, see 'Faults and remedies' in the guide"
        return [f"{' and '.join(kinds)}{where}at {self.first.line()}; {advice}"]


class Listed(NamedTuple):
    """A line from `bufr ls`: a message's offset in the file, its length, and its header values (see `HEADER`).

    `descriptors` is the number of descriptors in section 3.
    """

    offset: int
    length: int
    edition: int
    centre: int
    subcentre: int
    update: int
    category: int
    subcategory: int
    localsubcategory: int
    master: int
    masterversion: int
    localversion: int
    year: int
    month: int
    day: int
    hour: int
    minute: int
    second: int
    subsets: int
    observed: int
    compressed: int
    optional: int
    descriptors: int


@dataclass
class Item:
    """An item in a subset: its six-digit descriptor, its value, and its name and unit from Table B.

    The name and the unit are `None` if no row in Table B was used to read the item. `reference` is true if the item is a
    new reference value that is defined in the data (a line that begins with `R`).
    """

    fxy: str
    value: Value
    name: Optional[str] = None
    unit: Optional[str] = None
    reference: bool = False


@dataclass
class Message:
    """A message: its header (a number for each key in `HEADER`), its descriptors, and its subsets.

    `local1` contains the local-use bytes of section 1. `section2` contains the bytes of section 2, or is `None` if there
    is no section 2. Each subset is a list of items. If `dump` read the message, `offset` and `length` give its place in
    the file; otherwise, they are `None`.
    """

    header: Dict[str, int]
    descriptors: List[str]
    subsets: List[List[Item]] = field(default_factory=list)
    local1: bytes = b""
    section2: Optional[bytes] = None
    offset: Optional[int] = field(default=None, compare=False)
    length: Optional[int] = field(default=None, compare=False)


class _Lines:
    """The lines of a dump, excluding empty lines and comments.

    `line` is the current line. `number` is its line number in the dump, where every line counts, and the first is line 1.
    """

    def __init__(self, stream: Iterable[bytes]) -> None:
        self.rest = iter(stream)
        self.number = 0
        self.line: Optional[bytes] = None

    def take(self) -> Optional[bytes]:
        for self.line in self.rest:
            if not isinstance(self.line, bytes):
                raise TypeError("expected lines as bytes; open the dump in mode 'rb'")
            self.number += 1
            self.line = self.line[:-1] if self.line.endswith(b"\n") else self.line
            if len(self.line) > 4096:
                raise TextError(self.number, "at most 4,096 bytes")
            if self.line and not self.line.startswith(b"#"):
                return self.line
        self.number += 1
        self.line = None
        return None

    def inside(self, expected: str) -> bytes:
        """Returns the next line. Raises `TextError` if there are no more lines, which means that the message is incomplete."""
        line = self.take()
        if line is None:
            raise self.refused(expected)
        return line

    def refused(self, expected: str) -> TextError:
        """Returns the error for the current line. It states what was expected and, if known, the likely cause."""
        if self.line is None:
            return TextError(self.number, expected, "the end of the input")
        cause = next((cause for pattern, cause in _CAUSES if pattern.fullmatch(self.line)), "")
        return TextError(self.number, expected, cause)

    def count(self, key: str) -> int:
        """Returns the number after the key in the next line.

        Raises `TextError` if there is no next line, or if it does not consist of the key and a number. The number can have
        at most five digits, not counting leading zeros.
        """
        found = re.fullmatch(key.encode() + rb" 0*(\d{1,5})", self.inside(key))
        if not found:
            raise self.refused(f"'{key}' and a number")
        return int(found[1])


def read(stream: Iterable[bytes]) -> Iterator[Message]:
    """Yields the messages in a dump. `stream` yields the lines of the dump as bytes, like a file opened in mode "rb".

    Raises `TextError` at the first invalid line, and `TypeError` if a line is not bytes. `read` does not check whether header
    values are in range or whether the items match the descriptors; `bufr encode` does. For a number such as `1.`, `read`
    raises `TextError`, whereas `bufr encode` reports fault 52.
    """
    lines = _Lines(stream)
    line = lines.take()
    while line is not None:
        if line != b"message":
            raise lines.refused("'message'")
        yield _read_message(lines)
        line = lines.take()


def _read_message(lines: _Lines) -> Message:
    header = {key: lines.count(key) for key in HEADER}
    optional = lines.count("optional")
    if optional > 1:
        raise lines.refused("'optional 0' or 'optional 1'")
    subsets = lines.count("subsets")
    local_use = {word: bytearray() for word in (b"local1", b"section2")[: 1 + optional]}
    line = lines.inside("'descriptors'")
    for word, octets in local_use.items():
        while line.startswith(word + b" "):
            digits = line[len(word) + 1 :]
            if not _HEX.fullmatch(digits):
                raise lines.refused("1 to 32 bytes in hexadecimal")
            octets += bytes.fromhex(digits.decode())
            line = lines.inside("'descriptors'")
    section2 = bytes(local_use[b"section2"]) if optional else None
    message = Message(header, [], [], bytes(local_use[b"local1"]), section2)
    while line.startswith(b"descriptors "):
        if not _DESCRIPTORS.fullmatch(line):
            raise lines.refused("one to eight six-digit descriptors")
        message.descriptors += line.decode().split()[1:]
        line = lines.inside("'subset' or 'end'")
    while len(message.subsets) < subsets:
        number = re.fullmatch(rb"subset 0*(\d{1,5})", line)
        if not number or int(number[1]) != len(message.subsets) + 1:
            raise lines.refused(f"'subset {len(message.subsets) + 1}'")
        items: List[Item] = []
        message.subsets.append(items)
        line = lines.inside("an item, 'subset' or 'end'")
        while line != b"end" and not line.startswith(b"subset "):
            items.append(_read_item(lines, line))
            line = lines.inside("an item, 'subset' or 'end'")
    if line != b"end":
        raise lines.refused("'end'")
    return message


def _read_item(lines: _Lines, line: bytes) -> Item:
    found = _ITEM.fullmatch(line)
    if not found or found[1] and found[3] is None:
        raise lines.refused("an item")
    value: Value = None
    if found[3] is not None:
        value = Decimal(found[3].decode())
    elif found[4] is not None:
        value = found[4]
        if b"\\" in value:
            value = _ESCAPE.sub(lambda one: bytes.fromhex(one[1].decode()) if one[1] else one[2], value)
    name, unit = (None if part is None else part.decode("utf-8", "surrogateescape") for part in found.group(5, 6))
    return Item(found[2].decode(), value, name, unit, found[1] is not None)


def write(messages: Iterable[Message], stream: IO[bytes]) -> None:
    """Writes messages as a dump. `read` followed by `write` reproduces the output of `bufr dump` exactly.

    `write` numbers the subsets itself, so you can add or remove subsets. Raises `TypeError` for a value that is not a
    `Decimal`, bytes or `None` (a `float` is not an exact decimal), and `ValueError` for a `Decimal` that is not a number or
    a header key that does not exist.
    """
    for message in messages:
        stream.write(b"".join(line + b"\n" for line in _lines_of(message)))


def _lines_of(message: Message) -> Iterator[bytes]:
    yield b"message"
    header = {**message.header, "optional": int(message.section2 is not None), "subsets": len(message.subsets)}
    keys = [*HEADER, "optional", "subsets"]
    for key in header:
        if key not in keys:
            raise ValueError(f"the header has no key '{key}'; the keys are {', '.join(HEADER)}")
    for key in keys:
        yield b"%s %d" % (key.encode(), header[key])
    for word, octets in ((b"local1", message.local1), (b"section2", message.section2 or b"")):
        for at in range(0, len(octets), 32):
            yield word + b" " + octets[at : at + 32].hex().upper().encode()
    for at in range(0, len(message.descriptors), 8):
        yield " ".join(["descriptors", *message.descriptors[at : at + 8]]).encode()
    for number, subset in enumerate(message.subsets, 1):
        yield b"subset %d" % number
        for item in subset:
            yield _line_of(item)
    yield b"end"


def _line_of(item: Item) -> bytes:
    comment = "" if item.name is None and item.unit is None else f"  # {item.name or ''} [{item.unit or ''}]"
    mark = b"R " if item.reference else b""
    return mark + item.fxy.encode() + b" " + _value_text(item.value) + comment.encode("utf-8", "surrogateescape")


def _value_text(value: Value) -> bytes:
    if value is None:
        return b"MISSING"
    if isinstance(value, bytes):
        return b'"' + _UNPRINTED.sub(_escaped, value) + b'"'
    if not isinstance(value, Decimal):
        raise TypeError(f"a value must be a Decimal, bytes or None, not {value!r}")
    if not value.is_finite():
        raise ValueError(f"{value} is not a number")
    return format(value, "f").encode()


def _escaped(found: re.Match[bytes]) -> bytes:
    octet: bytes = found[0]
    return b"\\" + octet if octet in b'"\\' else b"\\x%02X" % octet[0]


def find(subset: List[Item], fxy: str, count: int = 1) -> Optional[Item]:
    """Returns the `count`-th item with this descriptor in a subset, or `None` if there are fewer such items.

    New reference values (items whose `reference` is true) are not counted.
    """
    for item in subset:
        if item.fxy == fxy and not item.reference:
            count -= 1
            if count == 0:
                return item
    return None


def rows(
    messages: Union[_Path, Iterable[Message]],
    columns: Sequence[str],
    header: Sequence[str] = (),
    faults: Optional[List[Fault]] = None,
    where: Sequence[str] = (),
) -> Iterator[Tuple[Cell, ...]]:
    """Yields a tuple for each subset: header values, then column values.

    The tuples can be passed to `csv.writer` or a DataFrame.

    `messages` is the name of a file, or messages from `dump` or `read`. For a file, `faults` and `where` have the same
    meaning as in `dump`. A column is a descriptor such as `"012101"`, or `"012101:2"` for the second item with that
    descriptor in the subset. `header` can contain keys from `HEADER`, `"optional"`, `"subsets"`, `"offset"`, `"length"`,
    and `"message"` and `"subset"` for the numbers of the message and the subset (counted from 1).

    A number is an `int` if its scale does not allow decimal places, and otherwise the nearest `float`. A string contains the
    same escapes as in a dump, but no trailing spaces. A value is `None` if it is missing or if the subset does not contain
    the item. Raises `ValueError` for a word that is not a column. If the word occurs in the names of elements in Table B,
    the error lists their descriptors. After the last row, a `DumpWarning` is issued for each column that has no items or
    no values.
    """
    columns, header, _ = checked(columns, header, has_counts=True)
    found = _by_library("rows", messages, faults, where, columns, header)
    return _rows(_subsets(_messages(messages, faults, where), header), columns) if found is None else found


def levels(
    messages: Union[_Path, Iterable[Message]],
    columns: Sequence[str],
    header: Sequence[str] = (),
    keep: Sequence[str] = (),
    faults: Optional[List[Fault]] = None,
    where: Sequence[str] = (),
) -> Iterator[Tuple[Cell, ...]]:
    """Yields a tuple for each level of a sounding: header values, then the values for `keep`, then column values.

    A level is one repetition (pass) of a delayed replication. A level has a row only if it contains an item for the first
    column. If there are other columns, the level must also contain an item for at least one of them. If a subset contains
    several delayed replications, choose a first column whose descriptor occurs only in the replication that you want. Each
    column contains the value of the first item with its descriptor in the level. Each column in `keep` contains the value of
    the first item with its descriptor in the whole subset. In all other respects, `levels` works like `rows`.

    A dump does not mark where levels begin and end, so `levels` infers this from the items. A level begins with the
    descriptor that begins the first level, so a level that consists of two equal halves counts as two levels, and later
    levels are lost. The last level is as long as the one before it. If there is only one level, or if levels contain
    replications, the last level extends to the next replication or to the end of the subset.

    A subset is skipped if it has no levels, or if its levels are ambiguous because the descriptor that begins a level
    occurs again in the same level. After the last row, a `DumpWarning` for each of these two reasons says how many subsets
    were skipped and where the first of them is.
    """
    columns, header, keep = checked(columns, header, keep, has_levels=True)
    found = _by_library("levels", messages, faults, where, columns, header, keep)
    if found is not None:
        return found
    file = os.fsdecode(messages) if isinstance(messages, (str, os.PathLike)) else ""
    messages = _messages(messages, faults, where)
    return _levels(_subsets(messages, [*header, "message", "subset", "offset"]), columns, keep, file)


def _by_library(
    call: str, file: Any, faults: Optional[List[Fault]], where: Sequence[str], *words: Sequence[str]
) -> Optional[Iterator[Tuple[Cell, ...]]]:
    """Returns the rows from the `bufr` module, which is faster than the program.

    Returns `None` if the module is not available, if `file` is not the name of a file, or if the `BUFR` environment variable
    is set.
    """
    # the module would read standard input if the name is -
    if not isinstance(file, (str, os.PathLike)) or file == "-" or os.environ.get("BUFR"):
        return None
    try:
        import bufr
    except ImportError:
        return None
    told = _Told(file, faults)
    try:
        return _reported(told, getattr(bufr, call)(file, *words, where=where, faults=told))
    except BufrError as error:
        raise RunError(2, str(error)) from None


def _reported(told: _Told, found: Iterator[Tuple[Cell, ...]]) -> Iterator[Tuple[Cell, ...]]:
    """Yields the rows, and reports faults in the same way as `dump`."""
    try:
        yield from found
    except BufrError as error:
        raise RunError(2, str(error)) from None
    told.warn()


def checked(
    columns: Iterable[str],
    header: Iterable[str],
    keep: Iterable[str] = (),
    has_counts: bool = False,
    more: Sequence[str] = (),
    has_levels: bool = False,
) -> List[List[str]]:
    """Returns the arguments as lists. Raises `ValueError` if a word is not a column or a header key.

    If `has_counts` is true, a column can end with a count, such as `:2`. `more` contains additional header keys. If
    `has_levels` is true, there must be at least one column.
    """
    keys = (*HEADER, "optional", "subsets", "offset", "length", "message", "subset", *more)
    for words, example in ((columns, "012101"), (header, "time" if "time" in more else "year"), (keep, "001002")):
        if isinstance(words, str):
            raise ValueError(f"expected a list such as ['{words}'], found the string '{words}'")
        if isinstance(words, bytes):
            raise ValueError(f"expected a list such as ['{example}'], found {words!r}")
        if not isinstance(words, Iterable):
            raise TypeError(f"expected a list such as ['{example}'], found {words}")
    columns, header, keep = list(columns), list(header), list(keep)
    if has_levels and not columns:
        raise ValueError("expected a list such as ['012101'], found an empty list; a table of levels needs at least one column")
    form = _COLUMN if has_counts else _ELEMENT
    for word in (*columns, *keep):
        if not isinstance(word, str) or not form.fullmatch(word):
            if isinstance(word, str) and _COLUMN.fullmatch(word):
                allowed = "counts are allowed only in columns that apply to a whole subset"
                raise ValueError(f"'{word}' has a count, but {allowed}; pass '{word[:6]}'")
            if re.fullmatch("[0-9]{6}", str(word)):
                limits = "descriptors have the form FXXYYY, where F is at most 3, XX at most 63, and YYY at most 255"
                raise ValueError(f"no table defines {word}, because {limits}")
            raise ValueError(f"expected a descriptor such as 012101, found {word!r}{_meant(str(word), keys)}")
        _refuse_valueless(word)
    for word in header:
        if word not in keys:
            raise ValueError(f"the header has no key '{word}'; the keys are {', '.join(keys)}")
    return [columns, header, keep]


def _meant(word: str, keys: Sequence[str]) -> str:
    """Returns the part of an error message that says what to write instead of an invalid column.

    If the word occurs in the names of elements, the part lists their descriptors, starting with exact matches.
    """
    if re.fullmatch("[0-9]{4,5}", word):
        return f"; write '0{word:0>5}'"
    parts = re.split("[ ,]+", word.strip(" ,"))
    if all(map(_COLUMN.fullmatch, parts)):
        return f"; write {', '.join(map(repr, parts))}"
    if word in keys:
        return f", which is a header key; pass header=['{word}']"
    asked = word.upper()
    names_of = [(fxy, name.upper()) for fxy, (name, _) in names()[1].items() if asked in name.upper()]
    found = sorted((asked not in name.split("/"), fxy) for fxy, name in names_of)
    where = "name" if len(found) == 1 else "names"
    return f", which occurs in the {where} of {', '.join(fxy for _, fxy in found)}" if word and found else ""


def _refuse_valueless(word: str) -> None:
    """Raises `ValueError` if no item can have this descriptor, for example, because it is that of a sequence."""
    import bufr_sets

    if not bufr_sets.can_have_value(word):
        raise ValueError(f"'{word}' is {bufr_sets.instead(word, _latest())}")


def _latest() -> Optional[TableSet]:
    """Returns the latest table set, or `None` if there are no table sets."""
    import bufr_guard
    import bufr_sets

    try:
        return bufr_sets.TableSets().latest()
    except (bufr_guard.Failed, OSError):
        return None


def names(table_b: Optional[_Path] = None) -> Tuple[str, Dict[str, Tuple[str, str]]]:
    """Returns the name of a Table B, and a dictionary with the name and the unit of each element.

    Without `table_b`, uses Table B from the latest table set. The dictionary is empty if the table cannot be read.
    """
    import bufr_sets

    if table_b is None:
        tables = _latest()
        name, file = (f"the table set {tables.name}", tables.file("B.csv")) if tables else ("", "")
    else:
        name = file = os.fspath(table_b)
    try:
        return name, {fxy: (name, unit) for fxy, name, unit in bufr_sets.rows_of(file, "fxy", "name", "unit")}
    except OSError:
        return name, {}


def _all_elements() -> Set[str]:
    """Returns the descriptors of all elements that are defined in at least one table set."""
    import bufr_sets

    every = (tables for sets in bufr_sets.TableSets().sets.values() for tables in sets.values())
    return {fxy for tables in every for [fxy] in tables.rows("B.csv", "fxy")}


def _messages(
    messages: Union[_Path, Iterable[Message]], faults: Optional[List[Fault]], where: Sequence[str]
) -> Iterable[Message]:
    if isinstance(messages, (str, os.PathLike)):
        return dump(messages, faults=faults, where=where)
    if faults is not None or where:
        raise TypeError("faults= and where= need a file name; with messages, pass these arguments to dump() instead")
    if isinstance(messages, Iterable) and not isinstance(messages, str):
        return messages
    raise TypeError(f"{_MESSAGES}, found {messages!r}")


def _subsets(messages: Iterable[Message], header: Sequence[str]) -> Iterator[Tuple[List[Cell], List[Item]]]:
    """Yields a pair for each subset: the values of the header keys, and the items."""
    for number, message in enumerate(messages, 1):
        if not isinstance(message, Message):
            raise TypeError(f"{_MESSAGES}, found {message!r}")
        known: Dict[str, Cell] = {**message.header, "offset": message.offset, "length": message.length}
        known.update(message=number, subsets=len(message.subsets), optional=int(message.section2 is not None))
        for count, subset in enumerate(message.subsets, 1):
            known["subset"] = count
            yield [known[key] for key in header], subset


def _cell(item: Optional[Item]) -> Cell:
    if item is None or item.value is None:
        return None
    if isinstance(item.value, bytes):
        return text_cell(item.value)
    # `str` would write 0.0000003 as 3E-7
    return float(item.value) if "." in format(item.value, "f") else int(item.value)


def text_cell(octets: bytes) -> str:
    """Returns the cell for a string, with the same escapes as in a dump and without trailing spaces."""
    return _UNPRINTED.sub(_escaped, octets.rstrip(b" ")).decode()


def _rows(
    subsets: Iterable[Tuple[List[Cell], List[Item]]], columns: Sequence[str]
) -> Iterator[Tuple[Cell, ...]]:
    asked = [(word[:6], int(word[7:] or 1)) for word in columns]
    gaps = Gaps(columns)
    for before, subset in subsets:
        found = [find(subset, fxy, count) for fxy, count in asked]
        gaps.add(found)
        yield (*before, *map(_cell, found))
    gaps.warn()


def _levels(
    subsets: Iterable[Tuple[List[Cell], List[Item]]], columns: Sequence[str], keep: Sequence[str], file: str
) -> Iterator[Tuple[Cell, ...]]:
    gaps = Gaps(columns, keep)
    for (*header, message, count, offset), subset in subsets:
        items = [item for item in subset if not item.reference]
        try:
            found_passes = _passes(items)
        except Ambiguous as twice:
            gaps.skip(AMBIGUOUS, count, offset, file, message, twice)
            continue
        gaps.look([item.fxy for item in items], found_passes, columns)
        kept = [find(items, fxy) for fxy in keep]
        has_levels = False
        for begin, end in found_passes:
            found = [find(items[begin:end], fxy) for fxy in columns]
            if found[0] and (len(found) == 1 or any(found[1:])):
                has_levels = True
                gaps.add([*kept, *found])
                yield (*header, *map(_cell, [*kept, *found]))
        if not has_levels:
            gaps.skip(BARE, count, offset, file, message)
    gaps.warn()


def _passes(items: List[Item]) -> List[Tuple[int, int]]:
    """Returns the start and end of each pass of each delayed replication. Raises `Ambiguous` if the passes are ambiguous."""
    counts = [int(item.value) if item.fxy in FACTORS and isinstance(item.value, Decimal) else 0 for item in items]
    return passes([item.fxy for item in items], counts, FACTORS)


# The two reasons why subsets are skipped.
AMBIGUOUS, BARE = "with ambiguous levels", "without levels"
_ALL_ITEMS = "bufr.items or bufr_text.dump"


class Gaps:
    """Records which columns have no items or no values, and which subsets have no levels.

    In a table of levels, the columns in `keep` come before those in `columns`. `table_b` is the Table B that was passed, if
    any.
    """

    def __init__(self, columns: Sequence[str], keep: Sequence[str] = (), table_b: Optional[_Path] = None) -> None:
        self.columns, self.kept, self.table_b = [*keep, *columns], len(keep), table_b
        self.has_rows = False
        # The indices of the columns that occur in a level, and of those that occur in a subset, but not in its levels.
        self.inside: Set[int] = set()
        self.outside: Set[int] = set()
        # The indices of the columns that occur several times in a subset.
        self.several: Set[int] = set()
        # The indices of the columns with an item, and of those with a value.
        self.with_item: Set[int] = set()
        self.with_value: Set[int] = set()
        # The number of skipped subsets of each kind, and the first of them.
        self.skipped: Dict[str, Tuple[int, str]] = {}

    def add(self, items: Sequence[Optional[Item]]) -> None:
        """Adds a row."""
        self.has_rows = True
        for at, item in enumerate(items):
            if item is not None:
                self.with_item.add(at)
                if item.value is not None:
                    self.with_value.add(at)

    def look(self, words: Sequence[_Word], found: Sequence[Tuple[int, int]], columns: Sequence[_Word]) -> None:
        """Records which columns occur in a subset, and which of these columns occur in its levels.

        `words` contains the descriptors of the items in the subset, and `found` the start and end of each level.
        """
        for at, word in enumerate(columns, self.kept):
            if at not in self.inside and word in words:
                is_inside = any(word in words[begin:end] for begin, end in found)
                (self.inside if is_inside else self.outside).add(at)
                self.several.update([at] * (words.count(word) > 1))

    def skip(
        self, kind: str, subset: Cell, offset: Cell, file: str, message: Cell = None, fxy: object = None
    ) -> None:
        """Records that a subset is skipped. `message`, the number of its message, is needed only if `offset` is `None`."""
        place = f"subset {subset} of the message at offset {offset}" + (f" in {file}" if file else "")
        place = f"message {message}, subset {subset}" if offset is None else place
        why = "" if fxy is None else f" ({fxy} begins a level and occurs again in it)"
        count, first = self.skipped.get(kind, (0, place + why))
        self.skipped[kind] = count + 1, first

    def warn(self, is_whole: bool = True, text: str = "column {} is empty because no row contains this item") -> None:
        """Issues a warning for each gap.

        If `is_whole` is false, the rows come from a piece of a file, and other pieces may contain items that this piece lacks.
        A column without items is then reported only if no table set defines it. `text` is the warning for a column without
        items, in which `{}` stands for the column.
        """
        if self.has_rows or self.skipped:
            (self.warn_of_columns if is_whole else self.warn_of_undefined)(text)
        for kind in filter(self.skipped.get, (BARE, AMBIGUOUS)):
            count, first = self.skipped[kind]
            advice = f"; to get {'its' if count == 1 else 'their'} items, use {_ALL_ITEMS}" if kind == AMBIGUOUS else ""
            told = f"a subset {kind}: {first}" if count == 1 else f"{count} subsets {kind}; the first is {first}"
            warn(f"skipped {told}{advice}")

    def warn_of_columns(self, text: str) -> None:
        # Without rows, nothing is known about columns that apply to the whole subset, or about those that occur in levels.
        asked = list(enumerate(self.columns))[0 if self.has_rows else self.kept :]
        asked = [(at, word) for at, word in asked if self.has_rows or at not in self.inside]
        name, defined = names(self.table_b) if not {at for at, _ in asked} <= self.with_item else ("", {})
        for at, word in asked:
            if at in self.outside - self.inside:
                advice = f"pass keep=['{word}'] instead"
                if at in self.several:
                    advice = f"to get its first value, pass keep=['{word}']; to get all of its values, "
                    advice += f"pass '{word}:1', '{word}:2' and so on to rows(), or use {_ALL_ITEMS}"
                warn(f"column {word} is empty because {word} occurs only outside the levels; {advice}")
            elif at not in self.with_item:
                is_unknown = defined and word[0] == "0" and word[:6] not in defined
                warn(text.format(word) + f"; {name} does not define {word[:6]}" * bool(is_unknown))
            elif at not in self.with_value:
                warn(f"column {word} is empty because all of its values are missing")


    def warn_of_undefined(self, _text: str) -> None:
        """Warns about each element that has no items and that no table set defines.

        If a Table B was passed, only this table is searched.
        """
        words = [word[:6] for at, word in enumerate(self.columns) if at not in self.with_item and word[0] == "0"]
        words = [word for word in dict.fromkeys(words) if word not in names(self.table_b)[1]]
        known = _all_elements() if words and self.table_b is None else set()
        by = f"{os.fspath(self.table_b)} does not define it" if self.table_b is not None else "no table set defines it"
        for word in words:
            if word not in known:
                warn(f"this piece contains no item for {word}, and {by}")


class Ambiguous(ValueError):
    """Raised if the levels of a subset are ambiguous, that is, if the descriptor that begins a level occurs again in that level."""


#: The descriptors of the factors of delayed replications.
FACTORS = ("031000", "031001", "031002")


def passes(words: Sequence[_Word], counts: Sequence[int], factors: Container[_Word]) -> List[Tuple[int, int]]:
    """Returns the start and end of each pass of each delayed replication, as indices of items.

    `words` contains the descriptor of each item, without new reference values. `counts` contains the value of each factor,
    at the index of the factor. Raises `Ambiguous` if the passes are ambiguous.
    """
    # `left` passes of the replication have yet to begin. Each pass begins with the descriptor `opener`. The current pass
    # begins at `begin`, which is -1 outside a pass, and has `inner` factors so far. The previous pass had `pass_items` items
    # and `pass_inner` factors.
    found: List[Tuple[int, int]] = []
    left = opened = inner = pass_items = pass_inner = 0
    begin = -1
    opener: Optional[_Word] = None
    for at, fxy in enumerate(words):
        if left and opener in (None, fxy):
            if begin >= 0:
                found.append((begin, at))
            if opened > 1 and not pass_inner and at - begin != pass_items:
                raise Ambiguous(fxy)
            pass_items, pass_inner = at - begin, inner
            begin, opener, opened, left, inner = at, fxy, opened + 1, left - 1, 0
        elif begin >= 0 and not left and opened > 1 and not pass_inner:
            if at - begin == pass_items:
                found.append((begin, at))
                begin = -1
            elif fxy == opener:
                raise Ambiguous(fxy)
        if fxy in factors:
            if begin >= 0 and (left or inner < pass_inner):
                inner += 1
            else:
                if begin >= 0:
                    found.append((begin, at))
                begin, opener, opened, inner, left = -1, None, 0, 0, counts[at]
    return found if begin < 0 else [*found, (begin, len(words))]


def listing(file: _Path, faults: Optional[List[Fault]] = None) -> Iterator[Listed]:
    """Yields a `Listed` for each line that `bufr ls` prints. Reports faults and raises exceptions as `dump` does."""
    told = _Told(file, faults)
    with _opened(file) as stream, tempfile.TemporaryFile() as errors:
        for place in _listed(stream, errors, told):
            told.up_to(place.offset)
            yield place
        told.end(stream)


def parts(places: Iterable[Listed], octets: int = 1 << 19) -> Iterator[List[Listed]]:
    """Splits the results of `listing` into lists. In each list except the last, the messages total at least `octets` bytes."""
    part: List[Listed] = []
    held = 0
    for place in places:
        part.append(place)
        held += place.length
        if held >= octets:
            yield part
            part, held = [], 0
    if part:
        yield part


def dump(
    file: _Path,
    table_b: Optional[_Path] = None,
    table_d: Optional[_Path] = None,
    faults: Optional[List[Fault]] = None,
    places: Optional[Iterable[Listed]] = None,
    where: Sequence[str] = (),
) -> Iterator[Message]:
    """Yields the messages in a file. Runs `bufr dump` with these two tables, or `bufr-auto` if you do not pass tables.

    `where` is a list of conditions of the form `KEY=VALUE` or `KEY!=VALUE`, as in bufr-extract; for example,
    `["category=0", "centre!=98"]`. Only messages that meet every condition are dumped. Instead of `where`, you can pass
    results of `listing` as `places`.

    Faults are appended to the list `faults`, in order: when you get a message, the list contains all earlier faults.
    Without a list, faults are printed to `sys.stderr`, and after the last message, a `DumpWarning` says how many there
    were. There is also a `DumpWarning` for each note from `bufr-auto`, and for a file without messages.

    `dump` runs `bufr ls` on the whole file before it dumps any messages. If the file is a pipe, `dump` first copies it to a
    temporary file.
    Raises `ValueError` for an invalid condition, `RunError` if a program exits with a status over 1, and `OSError` if a
    file cannot be read. To use a different `bufr`, set the `BUFR` environment variable to its path.
    """
    words = _words("dump", table_b, table_d)
    if where and places is not None:
        raise TypeError("pass either where= or places=, not both; where= selects messages from the whole file")
    told = _Told(file, faults)
    if where:
        import bufr_conditions

        told.conditions = bufr_conditions.Conditions(where)
    return _dumped(words, told, places)


def _dumped(words: List[str], told: _Told, places: Optional[Iterable[Listed]]) -> Iterator[Message]:
    with _opened(told.file) as stream, tempfile.TemporaryFile() as errors:
        # which messages of a part are rejected is known only after the whole part has been dumped
        for part in parts(_listed(stream, errors, told) if places is None else places):
            with tempfile.TemporaryFile() as octets, tempfile.TemporaryFile() as text:
                for place in part:
                    octets.write(_octets(stream, place))
                done = _run(words, octets, text)
                refused = told.of_part(done.stderr, part)
                text.seek(0)
                messages = read(text)
                for place in part:
                    told.up_to(place.offset)
                    if place.offset in refused:
                        told.append(refused[place.offset])
                        continue
                    message = next(messages, None)
                    if message is None:
                        raise RunError(2, f"{words[0]} did not dump the message at offset {place.offset}")
                    message.offset, message.length = place.offset, place.length
                    yield message
        told.end(stream)


class _Told:
    """Reports the rejected messages and strays in a file, in order, and then the notes."""

    def __init__(self, file: _Path, faults: Optional[List[Fault]]) -> None:
        if faults is not None and not hasattr(faults, "append"):
            raise TypeError(f"faults must be a list or None, not {faults!r}")
        self.file, self.name, self.faults, self.is_bare = file, os.fsdecode(file), faults, False
        self.counts = FaultCounts()
        self.strays: Iterator[Fault] = iter(())
        self.stray: Optional[Fault] = None
        self.notes: Dict[bytes, List[int]] = {}
        self.conditions: Optional[Conditions] = None

    def append(self, fault: Fault) -> None:
        self.counts.add(fault)
        if self.faults is not None:
            self.faults.append(fault)
        elif sys.stderr is not None:
            print(fault.line(), file=sys.stderr)

    def up_to(self, offset: float) -> None:
        """Reports the strays before this offset."""
        while self.stray and self.stray.offset < offset:
            self.append(self.stray)
            self.stray = next(self.strays, None)

    def of_part(self, errors: bytes, part: List[Listed]) -> Dict[int, Fault]:
        """Returns the faults in a part, by offset, and counts the notes, which are reported after the last part."""
        begins = itertools.accumulate((place.length for place in part), initial=0)
        offsets = {begin: place.offset for begin, place in zip(begins, part)}
        refused = {}
        for line in errors.splitlines():
            fault, note = _FAULT.fullmatch(line), _NOTE.fullmatch(line)
            if fault:
                if int(fault[1]) not in offsets:
                    raise RunError(2, "the file has changed while it was being read; try again")
                offset = offsets[int(fault[1])]
                refused[offset] = Fault(offset, int(fault[2]), fault[3].decode(), self.name)
            else:
                count, begin, reason = note.groups() if note else (b"1", b"0", line)
                if reason not in self.notes and len(self.notes) >= 1000:
                    reason = b"other notes"
                self.notes.setdefault(reason, [0, offsets[int(begin)]])[0] += int(count)
        return refused

    def end(self, stream: IO[bytes]) -> None:
        """Reports the remaining strays. Then issues a warning with the number of faults, and a warning for each note."""
        self.up_to(float("inf"))
        self.warn([f"the file contains no messages{looks(os.pread(stream.fileno(), 256, 0))}"] * self.is_bare)

    def warn(self, told: Sequence[str] = ()) -> None:
        told = [*told]
        if self.faults is None:
            told += self.counts.told()
        for reason, (count, first) in self.notes.items():
            messages = "1 message," if count == 1 else f"{count} messages, the first"
            told.append(f"{messages} at offset {first}: {reason.decode(errors='replace')}")
        if self.conditions and self.conditions.note():
            told.append(self.conditions.note())
        for text in told:
            warn(f"{self.name}: {text}")
        if self.conditions and self.conditions.unmet():
            warn(self.conditions.unmet())


def _opened(file: _Path) -> IO[bytes]:
    """Opens a file for reading at any offset. If it is not a regular file, opens a temporary copy instead."""
    stream = open(file, "rb")
    if stat.S_ISREG(os.fstat(stream.fileno()).st_mode):
        return stream
    with stream:
        copy = tempfile.TemporaryFile()
        shutil.copyfileobj(stream, copy, 1 << 20)
        copy.seek(0)
        return copy


def _octets(stream: IO[bytes], place: Listed) -> bytes:
    octets = os.pread(stream.fileno(), place.length, place.offset)
    if len(octets) < place.length:
        raise RunError(2, f"the message at offset {place.offset} is now incomplete because the file has changed; try again")
    return octets


def looks(begin: bytes) -> str:
    """Returns how the note for a file without messages ends: for example, `: it is empty`.

    The result is empty if the file's format is unknown.
    """
    import bufr_guard

    return bufr_guard.bare(None, begin[:256]).decode(errors="replace").rstrip().partition("contains no messages")[2]


def _listed(stream: IO[bytes], errors: IO[bytes], told: _Told) -> Iterator[Listed]:
    """Yields a `Listed` for each message that meets the conditions. Strays remain in `errors` until they are reported."""
    with tempfile.TemporaryFile() as lines:
        words = [_bufr(), "ls"]
        status = subprocess.run(words, stdin=stream, stdout=lines, stderr=errors).returncode
        has_told = errors.seek(0, os.SEEK_END) > 0
        errors.seek(0)
        if status not in (0, 1) or status == 1 and not has_told:
            raise _failure(status, words, errors)
        strays = filter(None, map(_FAULT.match, errors))
        told.strays = (Fault(int(one[1]), int(one[2]), one[3].decode(), told.name) for one in strays)
        told.stray = next(told.strays, None)
        told.is_bare = lines.seek(0, os.SEEK_END) == 0
        lines.seek(0)
        for line in lines:
            found = _LISTED.fullmatch(line)
            if not found:
                raise RunError(2, f"{words[0]} and bufr_text have different versions; install both from the same release")
            if told.conditions is None or told.conditions.are_met(line):
                yield Listed._make(map(int, found.groups()))


def encode(
    messages: Iterable[Message],
    table_b: Optional[_Path] = None,
    table_d: Optional[_Path] = None,
    form: Optional[str] = None,
) -> bytes:
    """Converts messages to BUFR. Runs `bufr encode` with these two tables, or `bufr-auto --encode` if you do not pass tables.

    `form` is "plain" or "compressed". Without `form`, each message is encoded in the form that its header specifies.
    Raises `RunError` with the fault line if a message is rejected. The fault line gives the number of a line in the dump that
    `write` produces for these messages.
    """
    if form not in (None, "plain", "compressed"):
        raise ValueError(f"form must be 'plain' or 'compressed', not {form!r}")
    if form is not None:
        compressed = ["plain", "compressed"].index(form)
        messages = (replace(one, header={**one.header, "compressed": compressed}) for one in messages)
    words = _words("encode", table_b, table_d)
    with tempfile.TemporaryFile() as text, tempfile.TemporaryFile() as octets:
        write(messages, text)
        done = _run(words, text, octets)
        if done.returncode:
            raise _failure(done.returncode, words, done.stderr.splitlines(True))
        octets.seek(0)
        encoded = octets.read()
    for line in done.stderr.splitlines():
        warn(line.decode(errors="replace"))
    return encoded


def _words(command: str, table_b: Optional[_Path], table_d: Optional[_Path]) -> List[str]:
    if table_b is None and table_d is None:
        return [_program("bufr-auto"), *["--encode"] * (command == "encode")]
    if table_b is None or table_d is None:
        raise TypeError("pass both Table B and Table D, or neither")
    # an absolute path cannot look like an option
    return [_bufr(), command, "-B", os.path.abspath(table_b), "-D", os.path.abspath(table_d)]


def _run(words: List[str], source: IO[bytes], target: IO[bytes]) -> subprocess.CompletedProcess[bytes]:
    source.seek(0)
    done = subprocess.run(words, stdin=source, stdout=target, stderr=subprocess.PIPE)
    if done.returncode not in (0, 1) or done.returncode == 1 and not done.stderr:
        raise _failure(done.returncode, words, done.stderr.splitlines(True))
    return done


def _failure(status: int, words: List[str], errors: Iterable[bytes]) -> RunError:
    """Returns the error for a failed program.

    The text of the error consists of the lines that the program printed, except for fault lines, or states the exit status
    if there are no such lines. If the disk is full, the text says so.
    """
    told = b"".join(line for line in errors if not _FAULT.match(line)).decode(errors="replace").strip()
    told = told or f"{words[0]} " + (f"was killed (signal {-status})" if status < 0 else f"exited with status {status}")
    folder = tempfile.gettempdir()  # all output is in temporary files
    return RunError(status, f"{told}: {folder} is full" if shutil.disk_usage(folder).free < 1 << 16 else told)


def _bufr() -> str:
    return os.environ.get("BUFR") or _program("bufr")


def _program(name: str) -> str:
    """Returns the path of a program next to this file, or in the `bin` directory of this installation or of Python.

    If the program is in none of these places, returns just its name, which is then looked up on PATH.
    """
    here = pathlib.Path(__file__).resolve().parent
    for path in (here / name, here.parent.parent / "bin" / name, pathlib.Path(sys.prefix) / "bin" / name):
        if shutil.which(path):
            return str(path)
    return name
