"""Reads BUFR messages into NumPy arrays and pandas data frames, using the C library.

    >>> import bufr
    >>> frame = bufr.frame("synop.bufr", ["001015", "012101"], header=["time"])
    >>> print(frame)
                     time     001015  012101
    0 2023-03-14 18:00:00  SODANKYLA  259.35
    1 2023-03-14 18:00:00   HEATHROW  282.55
    2 2023-03-14 18:00:00    SAENTIS  270.55

`frame` returns a data frame with a row for each subset (usually a station) or for each level of a sounding, and `rows` and
`levels` yield the same rows as tuples. `items` returns all values, and `messages` returns a row for each message. `pieces`
divides files into pieces that several processes can read at the same time.

Each function takes a source: the name of a file, `"-"` for standard input, bytes, an open binary file, a `Piece`, or a list
of these. If a source contains several bytes objects, results and faults call them `bytes 1`, `bytes 2` and so on. A source is
read in parts of a few MB, so it can be larger than the available memory. Each message is read with the table set that
bufr-auto would choose, unless you pass the file names of Table B and Table D as `tables=(B, D)`. To select messages, set
`where` to a list of conditions of the form `KEY=VALUE` or `KEY!=VALUE`, as in bufr-extract.

A fault is a rejected message or a stray (the word `BUFR` where no complete message begins, such as at the start of a message
that is cut off). `faults` determines how faults are reported:

- `"warn"` (default): after each file, a `DumpWarning` says how many faults it contained.
- `"raise"`: the first fault, a file without messages, or an empty list of files raises `BufrError`. A `Piece` without messages
  does not.
- `"ignore"`: faults, files without messages, and empty lists are not reported, but `messages` still returns a row for each
  fault.
- a list: for each fault, a `Fault` with the members `offset`, `number`, `text` and `file` is appended to the list.

A `DumpWarning` also reports files without messages, an empty list of files, messages whose tables are missing, columns without
items or values, conditions that match no messages, subsets without levels, and elements whose unit depends on the table set. If
the source contains a `Piece`, conditions are not reported, because other pieces may contain what this one lacks. For the same
reason, a column without items is then reported only if no table set defines it.

This module needs NumPy, and `frame` needs pandas. The library is the file libbufr.so.0 next to this module, or in the
`lib` directory of the installation or clone. To use another file, set the BUFR_LIBRARY environment variable to its path. If
the library cannot be loaded, importing this module raises `ImportError`.
"""
from __future__ import annotations

import operator
import pathlib
import re
from decimal import Decimal
from typing import Any, Callable, Dict, Iterable, Iterator, List, NamedTuple, Optional, Sequence, Tuple

import numpy

import bufr_calls
import bufr_text
from bufr_calls import MISSING, NUMBER, REFERENCE, TEXT, WIDE, Array, Path, Tables
from bufr_parts import Faults, Part, Piece, Reader, Source, TwoTables, pieces
from bufr_text import BufrError, Cell, DumpWarning, Fault, Value

__all__ = (
    "MISSING NUMBER REFERENCE TEXT WIDE BufrError Cell DumpWarning Fault Items Piece "
    "frame items levels messages pieces rows"
).split()

__version__ = "0.1.0"

# The header keys that do not occur in a dump.
_KEYS_OF_FILES = "file", "time"
_FACTORS = frozenset(map(bufr_calls.word, bufr_text.FACTORS))
# Matches the units of elements whose values are codes or flags.
_is_table = re.compile("(common )?(code|flag) table", re.IGNORECASE).match


# What the items of a part contain.


def _floats(part: Part, items: Array) -> Array:
    """Returns the number in each item as the nearest float, or NaN if the item has no number."""
    value, scale, kind = items["value"], items["scale"].astype("i4"), items["kind"]
    is_number = (kind == NUMBER) | (kind == REFERENCE)
    # If floats represent both the integer and the power of ten exactly, only their quotient or product is rounded.
    is_exact = is_number & (value <= 1 << 53) & (value >= -(1 << 53)) & (abs(scale) <= 22)
    power = 10.0 ** numpy.minimum(abs(scale), 22)
    found = numpy.full(len(items), numpy.nan)
    numpy.divide(value, power, out=found, where=is_exact & (scale >= 0))
    numpy.multiply(value, power, out=found, where=is_exact & (scale < 0))
    others = numpy.flatnonzero((is_number | (kind == WIDE)) & ~is_exact)
    for index, integer in zip(others, _integers(part, items[others])):
        places = int(scale[index])
        found[index] = integer / 10**places if places > 0 else float(integer * 10**-places)
    return found


def _integers(part: Part, items: Array) -> List[int]:
    """Returns the integer in each item. The item's value is this integer divided by `10**scale`."""
    found: List[int] = items["value"].tolist()
    for index in numpy.flatnonzero(items["kind"] == WIDE).tolist():
        found[index] = _wide(part.texts, found[index])
    return found


def _wide(texts: bytes, begin: int) -> int:
    return int.from_bytes(texts[begin : begin + 16], "little", signed=True)


def _decimal(integer: int, scale: int) -> Decimal:
    """Returns `integer / 10**scale` exactly, with the digits that `bufr dump` prints."""
    return Decimal(integer * 10**-scale) if scale <= 0 else Decimal(f"{integer}E-{scale}")


def _decoded(octets: bytes) -> str:
    """Returns a string with one character for each byte, as in `bufr-csv --json`, and without trailing spaces."""
    return octets.rstrip(b" ").decode("latin-1")


def _cells(
    part: Part, items: Array, is_exact: bool = False, text: Callable[[bytes], str] = bufr_text.text_cell
) -> List[Any]:
    """Returns the cell for each item: a number, a string or `None`."""
    kind, scale = items["kind"], items["scale"]
    cells: List[Any] = [None] * len(items)
    is_float = (kind != MISSING) & (kind != TEXT) & (scale > 0) & (not is_exact)
    some = numpy.flatnonzero(is_float)
    for index, number in zip(some.tolist(), _floats(part, items[some]).tolist()):
        cells[index] = number
    some = numpy.flatnonzero((kind != MISSING) & (kind != TEXT) & ~is_float)
    for index, integer, places in zip(some.tolist(), _integers(part, items[some]), scale[some].tolist()):
        cells[index] = _decimal(integer, places) if is_exact else integer * 10**-places
    some = numpy.flatnonzero(kind == TEXT)
    for index, begin, length in zip(some.tolist(), items["value"][some].tolist(), items["length"][some].tolist()):
        cells[index] = text(part.texts[begin : begin + length])
    return cells


def _times(messages: Array) -> Array:
    """Returns the time of each message, or NaT if the time is invalid or pandas cannot represent it.

    Edition 3 has only the year of the century. As in POSIX, 69 to 99 stand for 1969 to 1999, and 0 to 68 for 2000 to 2068.
    """
    year = messages["year"].astype("i8")
    of_century = year % 100
    year = numpy.where(messages["edition"] == 3, of_century + numpy.where(of_century < 69, 2000, 1900), year)
    month = (year - 1970) * 12 + messages["month"] - 1
    day = month.astype("M8[M]").astype("M8[D]") + (messages["day"].astype("i8") - 1)
    seconds = (messages["hour"].astype("i8") * 60 + messages["minute"]) * 60 + messages["second"]
    is_time = (year > 1677) & (year < 2262) & (messages["month"] >= 1) & (messages["month"] <= 12)
    is_time &= day.astype("M8[M]").astype("i8") == month  # the day exists in that month
    is_time &= (messages["hour"] < 24) & (messages["minute"] < 60) & (messages["second"] < 60)
    return numpy.where(is_time, day.astype("M8[s]") + seconds, numpy.datetime64("NaT"))


def _optional(part: Part) -> Array:
    """Returns 1 for each message that has a section 2, and 0 for the others."""
    flags = (octets[17 if octets[7] == 4 else 15] if len(octets) > 17 else 0 for octets in part.octets)
    return numpy.array([flag >> 7 for flag in flags], "i8") * (part.messages["edition"] > 0)


# The names and units of elements.


class _Elements:
    """The names and units of elements, from the Table B that was used to read each item."""

    def __init__(self) -> None:
        # For each descriptor, the name and unit in each table that defines it.
        self.found: Dict[str, Dict[str, Tuple[str, str]]] = {}

    def add(self, fxy: str, used: Iterable[Optional[Tables]]) -> List[str]:
        """Records which tables were used to read the items with this descriptor. Returns the units in these tables."""
        defined = {tables.files[0]: tables.elements[fxy] for tables in used if tables and fxy in tables.elements}
        self.found.setdefault(fxy, {}).update(defined)
        return [unit for _, unit in defined.values()]

    def element(self, word: str, table_b: Optional[Path]) -> Dict[str, str]:
        """Returns the name and unit of an element.

        If no item has this element, they come from `table_b` or, if it is `None`, from the latest table set.
        """
        found = [*self.found.get(word[:6], {}).values()] or [bufr_text.names(table_b)[1].get(word[:6], ("", ""))]
        return {"name": found[0][0], "unit": " or ".join(dict.fromkeys(unit for _, unit in found))}

    def warn(self) -> None:
        """Warns about each element whose unit depends on the table set."""
        for fxy, found in self.found.items():
            files = {"CODE TABLE" if "CODE TABLE" in unit.upper() else unit: file for file, (_, unit) in found.items()}
            units = sorted((pathlib.Path(file).parent.name, unit) for unit, file in files.items())
            if len(units) > 1:
                told = " and ".join(f"{unit} in {name}" for name, unit in units)
                bufr_text.warn(f"the unit of {fxy} depends on the table set: it is {told}")


# The tables of rows and levels.


class _Table(NamedTuple):
    """The rows of a table that come from one part.

    For each row, `message` contains the index of the message, and `subset` contains the number of the subset. Each column
    contains the index of an item, or -1 if the row has no item for that column.
    """

    part: Part
    message: Array
    subset: Array
    columns: List[Array]

    def header(self, key: str) -> Array:
        """Returns the values of a header key."""
        messages = self.part.messages
        if key == "subset":
            return self.subset
        if key == "message":
            return (self.part.accepted + numpy.cumsum(messages["fault"] == 0))[self.message]
        if key == "file":
            return numpy.full(len(self.message), self.part.name, object)
        if key == "time":
            return _times(messages)[self.message]
        if key == "optional":
            return _optional(self.part)[self.message]
        # A smaller type would overflow without a warning, for example, in 60 * hour.
        return messages[key].astype("i8")[self.message]


def _subsets(part: Part) -> Tuple[Array, Array, Array]:
    """Returns the message index and subset number of each subset in a part, and the subset index of each item."""
    count = numpy.where(part.messages["fault"] == 0, part.messages["subsets"], 0).astype("i8")
    first = numpy.cumsum(count) - count
    message = numpy.repeat(numpy.arange(len(count)), count)
    subset = numpy.arange(len(message)) - first[message] + 1
    return message, subset, first[part.items["message"]] + part.items["subset"] - 1


def _table_of_subsets(part: Part, columns: Sequence[str]) -> _Table:
    """Returns a table with a row for each subset."""
    message, subset, row = _subsets(part)
    is_value = part.items["kind"] != REFERENCE
    found = []
    for column in columns:
        places = numpy.flatnonzero(is_value & (part.items["fxy"] == bufr_calls.word(column)))
        # Where the items of each subset begin and end in `places`.
        begins = numpy.flatnonzero(numpy.diff(row[places], prepend=-1))
        ends = numpy.append(begins[1:], len(places))[: len(begins)]
        # No subset contains more items than `places`, and a larger number could overflow.
        chosen = begins + min(int(column[7:] or 1) - 1, len(places))
        chosen = places[chosen[chosen < ends]]
        indices = numpy.full(len(message), -1, "i8")
        indices[row[chosen]] = chosen
        found.append(indices)
    return _Table(part, message, subset, found)


def _tables(reader: Reader, columns: Sequence[str], keep: Sequence[str] = (), has_levels: bool = False) -> Iterator[_Table]:
    """Yields a table for each part, then warns about empty columns and skipped subsets."""
    gaps = bufr_text.Gaps(columns, keep, reader.table_b)
    for part in reader:
        table = _table_of_levels(part, columns, keep, gaps) if has_levels else _table_of_subsets(part, columns)
        gaps.has_rows = gaps.has_rows or len(table.message) > 0
        for at, indices in enumerate(table.columns):
            kinds = part.items["kind"][indices[indices >= 0]]
            gaps.with_item.update([at] * (len(kinds) > 0))
            gaps.with_value.update([at] * bool((kinds != MISSING).any()))
        yield table
    gaps.warn(reader.is_whole)


def _table_of_levels(part: Part, columns: Sequence[str], keep: Sequence[str], gaps: bufr_text.Gaps) -> _Table:
    """Returns a table with a row for each level."""
    message, subset, row = _subsets(part)
    asked, asked_kept = ([*map(bufr_calls.word, words)] for words in (columns, keep))
    places = numpy.flatnonzero(part.items["kind"] != REFERENCE)
    items = part.items[places]
    words, counts = items["fxy"].tolist(), [0] * len(items)
    factors = numpy.flatnonzero(numpy.isin(items["fxy"], list(_FACTORS)))
    for index, cell in zip(factors.tolist(), _cells(part, items[factors])):
        counts[index] = int(cell or 0)
    ends = numpy.searchsorted(row[places], numpy.arange(len(message) + 1)).tolist()
    offsets = part.messages["offset"][message]
    rows: List[int] = []
    found: List[List[int]] = []
    for at, (begin, end) in enumerate(zip(ends, ends[1:])):
        own, before = words[begin:end], len(rows)
        try:
            passes = bufr_text.passes(own, counts[begin:end], _FACTORS)
        except bufr_text.Ambiguous as twice:
            gaps.skip(bufr_text.AMBIGUOUS, int(subset[at]), int(offsets[at]), part.name, fxy=bufr_calls.fxy(twice.args[0]))
            continue
        gaps.look(own, passes, asked)
        kept = [begin + own.index(word) if word in own else -1 for word in asked_kept]
        for first, last in passes:
            level = own[first:last]
            values = [begin + first + level.index(word) if word in level else -1 for word in asked]
            if values[0] >= 0 and (len(values) == 1 or max(values[1:]) >= 0):
                rows.append(at)
                found.append(kept + values)
        if len(rows) == before:
            gaps.skip(bufr_text.BARE, int(subset[at]), int(offsets[at]), part.name)
    indices = numpy.array(found, "i8").reshape(len(found), len(keep) + len(columns))
    indices = numpy.where(indices < 0, -1, numpy.append(places, -1)[indices])
    chosen = numpy.array(rows, "i8")
    return _Table(part, message[chosen], subset[chosen], [*indices.T])


def _tuples(tables: Iterable[_Table], header: Sequence[str]) -> Iterator[Tuple[Cell, ...]]:
    for table in tables:
        found: List[List[Any]] = [table.header(key).astype("O").tolist() for key in header]
        for indices in table.columns:
            cells: List[Cell] = [None] * len(indices)
            rows = numpy.flatnonzero(indices >= 0)
            for row, cell in zip(rows.tolist(), _cells(table.part, table.part.items[indices[rows]])):
                cells[row] = cell
            found.append(cells)
        yield from zip(*found) if found else [()] * len(table.message)


def _kind_of(units: Iterable[str], is_exact: bool) -> str:
    """Returns the type of a data frame column whose elements have these units."""
    if is_exact or "CCITT IA5" in units:
        return "object"
    return "Int64" if all(map(_is_table, units)) and units else "float64"


def _column(part: Part, indices: Array, elements: _Elements, fxy: str, is_exact: bool) -> Any:
    """Returns the values for a data frame column: floats, `Int64`, or objects.

    If the part has no items for the column, returns the number of rows instead.
    """
    import pandas  # type: ignore[import]

    is_there = indices >= 0
    items = part.items[indices[is_there]]
    if not len(items):
        return len(indices)
    units = elements.add(fxy, dict.fromkeys(part.tables[message] for message in numpy.unique(items["message"]).tolist()))
    kind, type_of_column = items["kind"], _kind_of(units, is_exact)
    if type_of_column == "object" or (kind == TEXT).any():
        cells = numpy.full(len(indices), None, object)
        cells[is_there] = _cells(part, items, is_exact, _decoded)
        return cells
    if type_of_column == "Int64" and not items["scale"].any() and not (kind == WIDE).any():
        values, is_missing = numpy.zeros(len(indices), "i8"), numpy.ones(len(indices), bool)
        values[is_there], is_missing[is_there] = items["value"], kind == MISSING
        return pandas.arrays.IntegerArray(values, is_missing)
    floats = numpy.full(len(indices), numpy.nan)
    floats[is_there] = _floats(part, items)
    return floats


def _joined(parts: List[Any], unit: str, is_exact: bool) -> Any:
    """Joins the parts of a data frame column. A part without items is represented by its number of rows."""
    import pandas

    kinds = {str(part.dtype) for part in parts if not isinstance(part, int)} or {_kind_of([unit], is_exact)}
    # If the kind of the values depends on the table set, they become floats or, if some of them are strings, objects.
    kind = kinds.pop() if len(kinds) == 1 else "object" if "object" in kinds else "float64"
    parts = [numpy.full(part, None, object) if isinstance(part, int) else part for part in parts]
    return pandas.concat([pandas.Series(part).astype(kind) for part in parts], ignore_index=True)


def frame(
    source: Source,
    columns: Iterable[str],
    header: Iterable[str] = (),
    *,
    levels: bool = False,
    keep: Iterable[str] = (),
    exact: bool = False,
    where: Iterable[str] = (),
    tables: TwoTables = None,
    faults: Faults = "warn",
) -> Any:
    """Returns a pandas data frame with the rows that `rows` yields or, with `levels=True`, the rows that `levels` yields.

    Numbers are rounded to the nearest float, and missing numbers are NaN. Values from code tables and flag tables are `Int64`,
    strings are `str` or `None`, and the values of the header key `"time"` are `datetime64`. `frame.attrs` contains the name
    and unit of each column, from the Table B that was used to read its values. If several tables were used and their units
    differ, `attrs` contains all of the units, and a `DumpWarning` says which table sets they come from.

    Strings have one character for each byte, as in ISO 8859-1. Unlike the strings from `rows`, they contain no escapes. If the
    time in a header is invalid, the value is NaT. In edition 3, years have two digits: 69 to 99 stand for 1969 to 1999, and 0
    to 68 for 2000 to 2068.

        >>> frame = bufr.frame("synop.bufr", ["001015", "001001", "012101"], header=["time"])
        >>> frame.attrs["012101"]
        {'name': 'TEMPERATURE/AIR TEMPERATURE', 'unit': 'K'}
        >>> frame["012101"].mean().round(2)
        270.82
        >>> frame["001001"].astype("Int64").tolist()
        [2, 3, 6]
        >>> bufr.frame("sounding.bufr", ["007004", "012101"], levels=True, keep=["001002"]).iloc[0].tolist()
        [836.0, 98520.0, 258.55]

    With `levels=True`, a level has a row only if it contains an item for the first column. If there are other columns, the
    level must also contain an item for at least one of them. If a subset contains several delayed replications, choose a first
    column whose descriptor occurs only in the replication that you want. To add an element that occurs once in a subset, such
    as the station number 001002, pass it in `keep`. The repetitions of a group whose count is fixed by the template are not
    levels; to get their values, use columns such as `"013011:2"` without `levels=True`, or use `items`.
    `bufr_text.levels` describes how the levels are inferred from the items.

    For an empty list of files, the result has no rows. With `faults="ignore"`, there is no warning, so you can use
    `bufr.frame([], columns, header, faults="ignore")` as `meta` in Dask.

    With `exact=True`, all numbers, even codes, are `Decimal` or `None`, and their columns have the type `object`. Header values
    do not change. Calculations with these columns are slow, and some pandas methods, such as `std`, `round` and `plot`, fail.
    `<` and `>` work with floats, but `==` is true only for the exact value, and adding a float is an error. To get floats, use
    `astype(float)`.

        >>> air = bufr.frame("synop.bufr", ["012101"], exact=True)["012101"]
        >>> (air - Decimal("273.15")).tolist()
        [Decimal('-13.80'), Decimal('9.40'), Decimal('-2.60')]
        >>> (air < 259.36).tolist(), (air == 259.35).tolist(), (air == Decimal("259.35")).tolist()
        ([True, False, False], [False, False, False], [True, False, False])
    """
    import pandas

    columns, header, keep = bufr_text.checked(columns, header, keep, not levels, _KEYS_OF_FILES, levels)
    if keep and not levels:
        raise TypeError("keep= requires levels=True")
    reader = Reader(source, None if levels else columns, where, tables, faults)
    asked, elements, count = [*keep, *columns], _Elements(), 0
    heads: List[List[Array]] = [[] for _ in header]
    parts: List[List[Any]] = [[] for _ in asked]
    for table in _tables(reader, columns, keep, levels):
        count += len(table.message)
        for key, values in zip(header, heads):
            values.append(table.header(key))
        for word, indices, values in zip(asked, table.columns, parts):
            values.append(_column(table.part, indices, elements, word[:6], exact))
    elements.warn()
    attrs = {word: elements.element(word, reader.table_b) for word in asked}
    whole = [*map(numpy.concatenate, heads)]
    whole += [_joined(values, attrs[word]["unit"], exact) for word, values in zip(asked, parts)]
    result = pandas.DataFrame(dict(enumerate(whole)), index=range(count))
    result.columns = [*header, *asked]
    result.attrs.update(attrs)
    return result


def rows(
    source: Source,
    columns: Iterable[str],
    header: Iterable[str] = (),
    *,
    where: Iterable[str] = (),
    tables: TwoTables = None,
    faults: Faults = "warn",
) -> Iterator[Tuple[Cell, ...]]:
    """Yields a tuple for each subset: header values, then column values. `bufr_text.rows` yields the same tuples.

    A column is a descriptor such as `"012101"`, or `"012101:2"` for the second item with that descriptor in the subset.
    `header` can contain the header keys of a dump, such as `"year"`, and also `"file"`, `"offset"`, `"length"`, `"time"`,
    `"message"` and `"subset"`. `"message"` is the number of the message among the accepted messages in the source, and
    `"subset"` is the number of the subset in the message. Both are counted from 1. A number is an `int` if its scale allows no
    decimal places, and otherwise the nearest `float`. A value is `None` if it is missing or if the subset does not contain the
    item.

        >>> next(bufr.rows("synop.bufr", ["001015", "012101"], ["year", "subset"]))
        (2023, 1, 'SODANKYLA', 259.35)
    """
    columns, header, _ = bufr_text.checked(columns, header, (), True, _KEYS_OF_FILES)
    return _tuples(_tables(Reader(source, columns, where, tables, faults), columns), header)


def levels(
    source: Source,
    columns: Iterable[str],
    header: Iterable[str] = (),
    keep: Iterable[str] = (),
    *,
    where: Iterable[str] = (),
    tables: TwoTables = None,
    faults: Faults = "warn",
) -> Iterator[Tuple[Cell, ...]]:
    """Yields a tuple for each level of a sounding: header values, then the values for `keep`, then column values.

    `bufr_text.levels` yields the same tuples, and its documentation explains what a level is. In all other respects, `levels`
    works like `rows`.

        >>> next(bufr.levels("sounding.bufr", ["007004", "012101"], keep=["001002"]))
        (836, 98520, 258.55)
    """
    columns, header, keep = bufr_text.checked(columns, header, keep, False, _KEYS_OF_FILES, has_levels=True)
    return _tuples(_tables(Reader(source, None, where, tables, faults), columns, keep, has_levels=True), header)


class Items(NamedTuple):
    """The items and messages in a source.

    `items` is a structured array with a row for each item. Its main columns are `message_row` (the index of the message in
    `messages`), `subset` (counted from 1), `fxy` (the descriptor as a number: 12101 for 012101), `kind` (`bufr.NUMBER`,
    `bufr.TEXT` and so on), and `value` (a float, or NaN if the item is missing or a string). If the kind is `NUMBER`, the
    columns `integer` and `scale` give the exact value, `integer / 10**scale`. The method `exact` returns the exact value of any
    item, and `frame` returns a data frame of all items, with names and strings.

    `messages` is the result of `bufr.messages`. It also has rows for rejected messages and strays, which have no items.
    `elements` contains the name and unit of each descriptor that occurs, as in `frame.attrs`. `names` contains a dictionary
    for each row of `messages`, with the name and unit of each element in the Table B that was used to read the message.

        >>> found = bufr.items("synop.bufr")
        >>> air = found.items[found.items["fxy"] == 12101]
        >>> air["value"].tolist(), found.messages["time"][air["message_row"]][0].item().isoformat()
        ([259.35, 282.55, 270.55], '2023-03-14T18:00:00')
        >>> found.elements["012101"]["unit"]
        'K'
    """

    items: Array
    messages: Array
    texts: bytes
    elements: Dict[str, Dict[str, str]]
    names: List[Dict[str, Tuple[str, str]]]

    def __repr__(self) -> str:
        counts = ((len(self.items), "item"), (len(self.messages), "message"))
        items, messages = (f"{count} {word}" + "s" * (count != 1) for count, word in counts)
        return f"<bufr.Items: {items} in {messages}>"

    def exact(self, index: int) -> Value:
        """Returns the value of an item: a `Decimal`, a string as bytes, or `None` if it is missing.

        `index` is the index of the item in `items`.

        >>> bufr.items("synop.bufr", ["012101"]).exact(0)
        Decimal('259.35')
        """
        try:
            row = self.items[operator.index(index)]
        except TypeError:
            raise TypeError(f"expected an index into items, found {index!r}") from None
        kind, value, scale, length = row[["kind", "integer", "scale", "length"]].tolist()
        if kind == MISSING:
            return None
        if kind == TEXT:
            return self.texts[value : value + length]
        return _decimal(_wide(self.texts, value) if kind == WIDE else value, scale)

    def frame(self) -> Any:
        """Returns a pandas data frame with a row for each item. Descriptors, names, units and texts are strings.

        `message_row` is the index of the message in `messages`, as in `items`. To add columns from `messages`, such as the
        centre, use the data frame's method `join` with `on="message_row"`.

        The name and unit come from the Table B that was used to read the item. New reference values, which are defined in the
        data, have the name REFERENCE. Texts are the same as in `bufr.frame`.

        >>> bufr.items("synop.bufr", ["001015", "012101"]).frame().query("subset == 2")[["fxy", "value", "text", "unit"]]
              fxy   value      text       unit
        2  001015     NaN  HEATHROW  CCITT IA5
        3  012101  282.55      None          K
        """
        import pandas

        # A pair consists of a Table B and a descriptor.
        tables = numpy.unique([id(names) for names in self.names], return_inverse=True)[1]
        pairs = tables[self.items["message_row"]] * 1000000 + self.items["fxy"]
        _, firsts, codes = numpy.unique(pairs, return_index=True, return_inverse=True)
        words = [f"{word:06}" for word in self.items["fxy"][firsts].tolist()]
        names = [self.names[row] for row in self.items["message_row"][firsts].tolist()]
        elements = [known.get(word, ("", "")) for known, word in zip(names, words)]
        rows = self.messages[self.items["message_row"]]
        columns = {"message_row": self.items["message_row"].astype("i8")}
        columns.update((key, rows[key]) for key in ("file", "offset", "time"))
        columns.update(subset=self.items["subset"].astype("i8"), fxy=numpy.array(words, object)[codes])
        for at, key in enumerate(("name", "unit")):
            columns[key] = numpy.array([element[at] for element in elements], object)[codes]
            columns[key][self.items["kind"] == REFERENCE] = "REFERENCE" if key == "name" else ""
        texts = numpy.full(len(self.items), None, object)
        some = numpy.flatnonzero(self.items["kind"] == TEXT)
        for index, (begin, length) in zip(some.tolist(), self.items[some][["integer", "length"]].tolist()):
            texts[index] = _decoded(self.texts[begin : begin + length])
        return pandas.DataFrame({**columns, "value": self.items["value"], "text": texts})


_ITEM = numpy.dtype(
    [("message_row", "u4"), ("subset", "u2"), ("fxy", "u4"), ("kind", "u1"), ("value", "f8")]
    + [("integer", "i8"), ("scale", "i2"), ("length", "u4")]
)


def items(
    source: Source,
    columns: Optional[Iterable[str]] = None,
    *,
    where: Iterable[str] = (),
    tables: TwoTables = None,
    faults: Faults = "warn",
) -> Items:
    """Returns the messages in a source, and all of their items or, with `columns`, only those with these descriptors.

        >>> found = bufr.items("synop.bufr", ["012101"])
        >>> found.items["value"].max()
        282.55
        >>> found.items["subset"].tolist()
        [1, 2, 3]
    """
    if columns is not None:
        columns, _, _ = bufr_text.checked(columns, ())
    reader = Reader(source, columns, where, tables, faults)
    gaps = bufr_text.Gaps(columns or (), table_b=reader.table_b)
    found, rows, texts, count = [], [], bytearray(), 0
    elements, known = _Elements(), []
    for part in reader:
        some = numpy.empty(len(part.items), _ITEM)
        for name in ("subset", "kind", "scale", "length"):
            some[name] = part.items[name]
        fxy = part.items["fxy"].astype("u4")
        some["message_row"] = part.items["message"] + count
        some["fxy"] = (fxy >> 14) * 100000 + (fxy >> 8 & 63) * 1000 + (fxy & 255)
        some["value"] = _floats(part, part.items)
        some["integer"] = part.items["value"] + numpy.where(bufr_calls.is_place(part.items), len(texts), 0)
        found.append(some)
        rows.append(_message_rows(part))
        texts += part.texts
        count += len(part.messages)
        known += [tables.elements if tables else {} for tables in part.tables]
        used = [*dict.fromkeys(part.tables)]
        numbers = numpy.array([used.index(tables) for tables in part.tables], "i8")
        for pair in numpy.unique(numbers[part.items["message"]] * 1000000 + some["fxy"]).tolist():
            elements.add(f"{pair % 1000000:06}", [used[pair // 1000000]])
    all_items, all_rows = numpy.concatenate(found), numpy.concatenate(rows)
    words = [f"{word:06}" for word in numpy.unique(all_items["fxy"]).tolist()]
    gaps.has_rows = bool((all_rows["subsets"][all_rows["fault"] == 0] > 0).any())
    gaps.with_item.update(at for at, word in enumerate(gaps.columns) if word in words)
    gaps.with_value.update(gaps.with_item)
    gaps.warn(reader.is_whole, "no message contains {}")
    elements.warn()
    attrs = {word: elements.element(word, reader.table_b) for word in words}
    return Items(all_items, all_rows, bytes(texts), attrs, known)


_KEYS = [name for name in bufr_calls.MESSAGE.names or () if name not in ("first", "items", "reserved")]
# Smaller types would overflow without a warning, for example, in 60 * hour.
_MESSAGE = numpy.dtype([("file", "O"), *((name, "i8") for name in [*_KEYS, "optional"]), ("time", "M8[s]")])


def messages(
    source: Source, *, where: Iterable[str] = (), tables: TwoTables = None, faults: Faults = "warn"
) -> Array:
    """Returns a structured array with a row for each message and each stray.

    Its columns are `file`, `offset`, `length`, the header keys of a dump, `fault` and `time`. `fault` is 0 for an
    accepted message, and otherwise the number of the fault. If the header cannot be read, all header fields are 0, including
    `edition`, and `time` is NaT.

        >>> bufr.messages("synop.bufr")[["offset", "length", "centre", "subsets", "fault"]].tolist()
        [(0, 595, 78, 3, 0)]
        >>> pandas.DataFrame(bufr.messages("synop.bufr"))["time"].max()
        Timestamp('2023-03-14 18:00:00')
        >>> rows = bufr.messages("bulletins.bufr", faults="ignore")
        >>> rows[["offset", "edition", "centre", "fault"]][rows["fault"] > 0].tolist()
        [(131, 0, 0, 1), (189, 0, 0, 10), (294, 0, 0, 2)]
        >>> rows[rows["edition"] > 0]["centre"].tolist()
        [98, 98, 98, 98]
    """
    return numpy.concatenate([_message_rows(part) for part in Reader(source, (), where, tables, faults)])


def _message_rows(part: Part) -> Array:
    rows = numpy.empty(len(part.messages), _MESSAGE)
    for name in _KEYS:
        rows[name] = part.messages[name]
    rows["file"], rows["optional"], rows["time"] = part.name, _optional(part), _times(part.messages)
    return rows
