#!/usr/bin/env python3
"""Compares the module `bufr` with bufr_text, which parses the program's output, and tests features that only `bufr` has.

    tests/bufr_module.py [PROGRAM [TEST..]]        TEST: the name of a class or a method, such as Same.test_examples

The comparison uses the streams in examples/ and vectors/, and random hostile streams. Other tests cover the kinds of
sources, exact values, times, faults, several processes (one of which is killed), memory use, and the examples in
docstrings. The tests need NumPy, pandas and the C library, which the variable BUFR_LIBRARY names; one test needs Dask.
Tests whose requirements are missing are skipped.
"""
import concurrent.futures
import contextlib
import ctypes
import doctest
import functools
import io
import os
import pathlib
import pickle
import random
import re
import shutil
import signal
import subprocess
import sys
import tempfile
import unittest
import unittest.mock
import warnings
from concurrent.futures.process import BrokenProcessPool
from decimal import Decimal

import lib
from lib import TOP

SCRIPTS = TOP / "scripts"
if __name__ == "__main__":
    lib.use_python_with("numpy", "pandas")
    if "BUFR_LIBRARY" not in os.environ:
        print("bufr_module: skipped, BUFR_LIBRARY does not name libbufr.so.0 (library/build.sh builds it)")
        sys.exit()
sys.path[:0] = [str(SCRIPTS), str(TOP / "tests/hostile"), str(TOP / "library/examples")]

import numpy
import pandas

import bufr
import bufr_calls
import bufr_guard
import bufr_library
import bufr_parts
import bufr_text
import random_trial

TABLES = tuple(lib.TABLES[1::2])
VECTORS = TOP / "tests/vectors"
OF_VECTORS = (str(VECTORS / "tables/B.csv"), str(VECTORS / "tables/D.csv"))
EXAMPLES = sorted((TOP / "examples").glob("*.bufr"))
SYNOP = TOP / "examples/synop.bufr"
HEADER = [*bufr_text.HEADER, "optional", "subsets", "offset", "length", "message", "subset"]
HOSTILE = 300


# The functions that compare the two modules. hostile/array_trial.py uses them, too.


def told_by(call):
    """Returns the result of a call and the text of each warning that it issued."""
    with warnings.catch_warnings(record=True) as told:
        warnings.simplefilter("always")
        found = call()
    return found, [str(one.message) for one in told]


def shown(rows) -> list:
    """Returns rows in a form that shows the type of each cell, so that 1 and 1.0 differ."""
    return [repr(row) for row in rows]


def differences(path: pathlib.Path, tables: tuple, rng: random.Random) -> list:
    """Returns the differences between what `bufr` and bufr_text read from a stream."""
    wrongs = []

    def same(what: str, given, wanted) -> None:
        if given != wanted:
            pairs = zip(given, wanted) if isinstance(given, list) else ()
            both = next(((one, other) for one, other in pairs if one != other), (given, wanted))
            wrongs.append(f"{what}: {str(both[0])[:300]} in place of {str(both[1])[:300]}")

    asked = {"tables": tables or None}
    wanted_faults = []
    messages, wanted_notes = told_by(lambda: list(bufr_text.dump(path, *tables, faults=wanted_faults)))
    there = sorted({item.fxy for message in messages for subset in message.subsets for item in subset}) or ["012101"]
    drawn = rng.choices(there, k=3)
    columns = [*drawn, f"{drawn[0]}:2", f"{drawn[1]}:{rng.randint(1, 4)}", "012101"]
    of_levels = drawn[: rng.randint(1, 3)], ["offset", "subset"], drawn[2:]
    for name, words in (("rows", (columns, HEADER)), ("levels", of_levels)):
        faults = []
        found, notes = told_by(lambda: list(getattr(bufr, name)(path, *words, faults=faults, **asked)))
        wanted, skipped = told_by(lambda: list(getattr(bufr_text, name)(messages, *words)))
        same(f"{name} {words}", shown(found), shown(wanted))
        same(f"{name}: faults", faults, wanted_faults)
        # Here, bufr_text takes messages instead of a path, so its notes cannot name the file.
        notes = [note.replace(f" in {path}", "") for note in notes]
        same(f"{name}: notes", sorted(map(short, notes)), sorted(map(short, wanted_notes + skipped)))
    with warnings.catch_warnings():
        warnings.simplefilter("ignore")
        rows = list(bufr_text.rows(messages, columns))
        frame, exact = (bufr.frame(path, columns, exact=is_exact, **asked) for is_exact in (False, True))
        items, listed = bufr.items(path, **asked), list(bufr_text.listing(path, []))
        pieces = bufr.pieces(path, rng.choice((1, rng.randint(1, path.stat().st_size + 1))))
        faults, of_pieces = [], []
        for piece in pieces:
            rows_of_piece = bufr.rows(piece, columns, ["offset", "subset"], faults=faults, **asked)
            of_pieces += [(row, piece.begin) for row in rows_of_piece]
        whole = list(bufr.rows(path, columns, ["offset", "subset"], **asked))
    for at in range(len(columns)):
        found = [*map(number_of, map(escaped, frame.iloc[:, at]))]
        same(f"column {at} of the frame", found, [number_of(row[at]) for row in rows])
    cells = [cell_of(escaped(cell)) for cell in exact.to_numpy().ravel()]
    same("exact frame", cells, [cell for row in rows for cell in map(cell_of, row)])
    same("items", *item_lines(items, messages))
    same("messages", *message_lines(items.messages, listed, wanted_faults))
    same(f"pieces {pieces}", [row for row, _ in of_pieces], whole)
    same(f"faults of pieces {pieces}", faults, wanted_faults)
    same("places of pieces", all(begin <= row[0] for row, begin in of_pieces), True)
    return wrongs


def short(note: str) -> str:
    """Removes the end of a note, which says which tables do not define a descriptor."""
    return re.sub("; .* does not define .*", "", note)


def number_of(cell):
    """Converts a number to a float and a missing value to None. Returns a string unchanged."""
    return cell if isinstance(cell, str) else None if cell is None or pandas.isna(cell) else float(cell)


def escaped(cell):
    """Escapes a string from a frame as `bufr dump` would. Returns any other value unchanged."""
    return bufr_text.text_cell(cell.encode("latin-1")) if isinstance(cell, str) else cell


def cell_of(cell):
    return float(cell) if isinstance(cell, (int, Decimal)) else cell


def item_lines(found: bufr.Items, messages: list) -> tuple:
    """Returns two lists of tuples to compare: one for the items from `bufr`, and one for the items in bufr_text's messages."""
    given = []
    for index, (row, offset) in enumerate(zip(found.items, found.messages["offset"][found.items["message_row"]].tolist())):
        value, fxy = found.exact(index), f"{row['fxy']:06}"
        is_reference = row["kind"] == bufr.REFERENCE
        given.append((offset, int(row["subset"]), fxy, is_reference, bufr_text._value_text(value), str(row["value"])))
    wanted = []
    for message in messages:
        for number, subset in enumerate(message.subsets, 1):
            for item in subset:
                nearest = str(float(item.value)) if isinstance(item.value, Decimal) else "nan"
                text = bufr_text._value_text(item.value)
                wanted.append((message.offset, number, item.fxy, item.reference, text, nearest))
    return given, wanted


def item_values(found: bufr.Items) -> list:
    """Returns a pair for each item: the offset of its message, and its exact value."""
    return [(found.messages["offset"][row["message_row"]], found.exact(index)) for index, row in enumerate(found.items)]


def message_lines(rows, listed: list, faults: list) -> tuple:
    """Returns two lists of tuples to compare.

    The first is made from the headers and faults in rows of messages, and the second from a listing and a list of faults.
    """
    names = [name for name in bufr_text.Listed._fields if name != "descriptors"]
    given = [tuple(row[name].item() for name in names) for row in rows if row["edition"]]
    wanted = [tuple(getattr(one, name) for name in names) for one in listed]
    given += [(row["offset"].item(), row["fault"].item()) for row in rows if row["fault"]]
    return given, [*wanted, *((fault.offset, fault.number) for fault in faults)]


class WithFolder(unittest.TestCase):
    def setUp(self):
        place = tempfile.TemporaryDirectory()
        self.addCleanup(place.cleanup)
        self.folder = pathlib.Path(place.name)
        self.stream = self.folder / "stream"

    def without_warnings(self) -> None:
        contexts = contextlib.ExitStack()
        self.addCleanup(contexts.close)
        contexts.enter_context(warnings.catch_warnings())
        warnings.simplefilter("ignore")


class Same(WithFolder):
    """`bufr` returns the same results as bufr_text."""

    def alike(self, name: str, octets: bytes, tables: tuple) -> None:
        self.stream.write_bytes(octets)
        with self.subTest(name):
            self.assertEqual(differences(self.stream, tables, random.Random(name)), [])

    def test_examples(self):
        for path in EXAMPLES:
            self.alike(path.name, path.read_bytes(), ())
        self.alike("all", b"".join(path.read_bytes() for path in EXAMPLES), ())
        # These tables lack some sequences and elements, so some messages are rejected.
        old = tuple(table.replace("wmo-39", "wmo-13") for table in TABLES)
        self.alike("all by old tables", b"BUFR".join(path.read_bytes() for path in EXAMPLES), old)

    def test_vectors(self):
        for path in sorted((VECTORS / "messages").iterdir()):
            self.alike(path.name, path.read_bytes(), OF_VECTORS)

    def test_hostile_streams(self):
        streams = [random_trial.stream_of(random.Random(f"arrays {number}")) for number in range(HOSTILE)]
        for number in range(0, HOSTILE, 10):
            # Ten streams are joined, and each message is read with the tables that it needs.
            self.alike(f"hostile streams from {number} on", b"\r\n".join(streams[number : number + 10]), ())
        # Each stream is read separately, with the tables in wmo-39.
        for number, stream in enumerate(streams):
            self.alike(f"hostile stream {number}", stream, TABLES)

    def test_ambiguous_levels_are_warned_of(self):
        bits = lib.Bits()
        for number, width in [(2, 8), *[(1, 6), (2, 4), (3, 6)] * 2]:
            bits.put(number, width)
        octets = lib.message(bits.octets(), lib.words("103000 031001 008002 020011 008002"))
        self.alike("ambiguous levels", octets, TABLES)
        said = "^skipped 2 subsets with ambiguous levels; the first is subset 1 of the message at offset 0 in {} .008002 begins a level"
        said += " and occurs again in it.; to get their items, use bufr.items or bufr_text.dump$"
        self.stream.write_bytes(octets)
        # This warning is also issued for pieces, because these soundings are missing from the result.
        for source, name in (([octets, octets], "bytes 1"), (bufr.pieces([self.stream] * 2), self.stream)):
            with self.assertWarnsRegex(bufr.DumpWarning, said.format(name)) as one:
                self.assertEqual(list(bufr.levels(source, ["008002"])), [])
            self.assertEqual(one.filename, __file__)
        # The reported offset must not depend on the conditions or on the piece.
        self.stream.write_bytes(SYNOP.read_bytes() + octets)
        told = f"skipped a subset with ambiguous levels: subset 1 of the message at offset 595 in {self.stream} (008002 begins a level"
        told += " and occurs again in it); to get its items, use bufr.items or bufr_text.dump"
        calls = [lambda: [*bufr.levels(bufr.pieces(self.stream, 1)[1], ["008002"])]]
        calls += [lambda call=call: [*call(self.stream, ["008002"], where=["centre!=78"])] for call in (bufr.levels, bufr_text.levels)]
        for call in calls:
            self.assertEqual(told_by(call)[1][-1], told)

    def test_parts_of_any_size(self):
        self.without_warnings()
        octets = b"BUFR\0\0\1".join([*(path.read_bytes() for path in EXAMPLES), b""])
        wanted, faults = [], []
        for call in (bufr.rows, bufr.levels):
            wanted.append(list(call(octets, ["007004", "012101"], ["message", "offset", "time"], faults=faults)))
        for size in (1, 700, 5000):
            with unittest.mock.patch.multiple(bufr_parts, _PART=size, _PART_OF_ALL=size):
                found, told = [], []
                for call in (bufr.rows, bufr.levels):
                    found.append(list(call(octets, ["007004", "012101"], ["message", "offset", "time"], faults=told)))
                items = bufr.items(octets)
            self.assertEqual((found, told), (wanted, faults))
            self.assertEqual(item_values(items), item_values(bufr.items(octets)))

    def test_a_message_with_more_items_than_there_is_room_for(self):
        octets = SYNOP.read_bytes() * 2 + EXAMPLES[0].read_bytes()
        wanted = bufr.items(octets)
        for room in (16, 64, 256):
            with unittest.mock.patch("bufr_calls.ROOM", room):
                found = bufr.items(octets)
            self.assertEqual(found.items.tobytes(), wanted.items.tobytes())
            self.assertEqual((found.texts, found.messages.tolist()), (wanted.texts, wanted.messages.tolist()))

    def test_bufr_text_uses_the_library(self):
        """bufr_text gives the same rows, faults, warnings, errors and printed lines with the library as with the program."""
        self.stream.write_bytes(b"BUFR\0\0\1".join([*(path.read_bytes() for path in EXAMPLES), b""]))
        (self.folder / "empty").touch()
        calls = [
            lambda faults: list(bufr_text.rows(self.stream, ["012101", "001015"], ["offset"], faults)),
            lambda faults: list(bufr_text.levels(self.stream, ["007004", "012101"], ["offset"], ["001001"], faults)),
            lambda faults: list(bufr_text.rows(self.stream, ["012101"], [], faults, ["time=2006"])),
            lambda faults: list(bufr_text.rows(self.folder / "empty", ["012101"], [], faults)),
            lambda faults: list(bufr_text.rows(self.folder / "none", ["012101"], [], faults)),
            lambda faults: list(bufr_text.rows("-", ["012101"], [], faults)),  # here, - is the name of a file
            lambda faults: bufr_text.rows(self.stream, ["012101"], [], faults, ["categori=0"]),
            lambda faults: bufr_text.levels(self.stream, "012101", [], faults=faults),
        ]
        for number, call in enumerate(calls):
            for faults in (None, []):
                with self.subTest(number=number, faults=faults):
                    off = self.outcome(call, faults)
                    with unittest.mock.patch.dict(os.environ), unittest.mock.patch("subprocess.run") as run:
                        del os.environ["BUFR"]
                        self.assertEqual(self.outcome(call, faults), off)
                    run.assert_not_called()
        with unittest.mock.patch.dict(os.environ, BUFR_TABLES=str(self.folder / "none")):
            del os.environ["BUFR"]
            with self.assertRaisesRegex(bufr_text.RunError, "BUFR_TABLES is .*, which is not a directory"):
                calls[0]([])

    def outcome(self, call, faults) -> tuple:
        told, faults = io.StringIO(), None if faults is None else []
        with warnings.catch_warnings(record=True) as warned, contextlib.redirect_stderr(told):
            warnings.simplefilter("always")
            try:
                found = shown(call(faults))
            except (OSError, ValueError) as error:
                found = f"{type(error).__name__}: {error}"
        places = {one.filename for one in warned}
        return found, faults, told.getvalue(), sorted(str(one.message) for one in warned), places


class Sources(WithFolder):
    def test_kinds(self):
        octets = SYNOP.read_bytes()
        wanted = list(bufr.rows(SYNOP, ["001015", "012101"], ["offset", "time"]))
        self.assertEqual(len(wanted), 3)
        with open(SYNOP, "rb") as file, open(SYNOP, "rb", 0) as raw:
            with subprocess.Popen(["cat", SYNOP], stdout=subprocess.PIPE) as run:
                in_memory = octets, bytearray(octets), memoryview(octets), io.BytesIO(octets)
                for source in (str(SYNOP), *in_memory, file, raw, run.stdout):
                    self.assertEqual(list(bufr.rows(source, ["001015", "012101"], ["offset", "time"])), wanted, source)
        paths = [str(SYNOP)] * 2
        of_packages = pandas.Series(paths, [5, "read"]), pandas.Index(paths), numpy.array(paths), pandas.Series([SYNOP] * 2)
        others = [SYNOP, octets], (SYNOP, bufr.Piece(str(SYNOP), 0, 595)), (one for one in [SYNOP, SYNOP])
        for source in (*others, *of_packages):
            self.assertEqual(list(bufr.rows(source, ["001015", "012101"], ["offset", "time"])), wanted * 2)
        rows = list(bufr.rows([SYNOP, io.BytesIO(octets), octets], [], ["file", "message", "subset"]))
        self.assertEqual(rows[::3], [(str(SYNOP), 1, 1), ("stream", 2, 1), ("bytes", 3, 1)])
        self.assertEqual(len(bufr.pieces(pandas.Series(paths))), 2)
        with tempfile.TemporaryFile() as file:  # the `name` of this file object is a number
            file.write(octets)
            file.seek(0)
            self.assertEqual(next(bufr.rows(file, [], ["file"])), ("stream",))
        with open(os.fsencode(SYNOP), "rb") as file:
            self.assertEqual(next(bufr.rows(file, [], ["file"])), (str(SYNOP),))

    def test_names_of_several_bytes_objects(self):
        octets, three = SYNOP.read_bytes(), ["bytes 1", "bytes 2", "bytes 3"]
        one, two, stream = [octets], [octets, bytearray(octets)], io.BytesIO(octets)
        for source, names in [
            (octets, ["bytes"]),
            ([octets], ["bytes"]),
            ([SYNOP, [octets]], [str(SYNOP), "bytes"]),
            ([*two, memoryview(octets)], three),
            ([stream, one, SYNOP, two], ["stream", "bytes 1", str(SYNOP), *three[1:]]),
            (pandas.Series(two), three[:2]),
            # The length of an iterator is unknown, so even a single bytes object is numbered.
            (iter(one), three[:1]),
        ]:
            self.assertEqual([*dict.fromkeys(file for [file] in bufr.rows(source, [], ["file"]))], names)
        faults = []
        frame, told = told_by(lambda: bufr.frame([octets, b"BUFR" + octets, b""], [], ["file"], faults=faults))
        self.assertEqual((frame["file"][3], [fault.file for fault in faults]), ("bytes 2", ["bytes 2"]))
        self.assertEqual(told, ["bytes 3: the file contains no messages: it is empty"])

    def test_standard_input(self):
        code = "import sys; sys.path.insert(0, sys.argv[1]); import bufr; print(len(bufr.frame('-', ['012101'])))"
        done = subprocess.run([sys.executable, "-c", code, SCRIPTS], input=SYNOP.read_bytes(), stdout=subprocess.PIPE)
        self.assertEqual(done.stdout, b"3\n")

    def test_what_is_no_source(self):
        for source in (io.StringIO("BUFR"), open(SYNOP)):
            with source, self.assertRaisesRegex(TypeError, "was opened in text mode; open it in mode 'rb'"):
                bufr.frame(source, ["012101"])
        # a text file that is not an instance of io.TextIOBase
        with tempfile.NamedTemporaryFile("w+") as file, self.assertRaisesRegex(TypeError, "was opened in text mode; open it in mode 'rb'"):
            bufr.frame(file, ["012101"])
        idle, end = os.pipe()
        os.set_blocking(idle, False)
        with open(idle, "rb", 0) as file, self.assertRaisesRegex(BlockingIOError, "the source is in non-blocking mode and has no data yet; use blocking mode"):
            bufr.frame(file, ["012101"])
        os.close(end)
        told = "^expected a file name, bytes, an open binary file, a Piece or a list of these, found "
        others = [(None, TypeError, f"{told}None$"), (5, TypeError, f"{told}5$"), ([None], TypeError, f"{told}None$")]
        advice = "; if it is an array of bytes, pass array.tobytes..$"
        numbers = numpy.frombuffer(b"BUFR", "u1")
        others += [(array, TypeError, f"^expected .*, found a list that contains the number 66{advice}") for array in ([66], numbers)]
        for source, error, told in [("none", FileNotFoundError, ""), (self.folder, IsADirectoryError, ""), *others]:
            with self.assertRaisesRegex(error, told):
                bufr.frame(source, ["012101"])

    def test_no_sources_and_no_columns(self):
        for faults in ("error", None, (), False):
            with self.assertRaisesRegex(ValueError, "faults must be 'warn', 'raise', 'ignore' or a list, not "):
                bufr.frame([], ["012101"], faults=faults)
        self.without_warnings()
        frame = bufr.frame([], ["001015", "012101", "002001"], ["time", "file", "year"])
        kinds = "datetime64[ns] object int64 object float64 Int64".split()
        self.assertEqual([str(kind) for kind in frame.dtypes], kinds)
        self.assertEqual([len(it) for it in (frame, bufr.items([]).items, bufr.messages([]), [*bufr.rows([], [])])], [0] * 4)
        whole = bufr.frame(SYNOP, ["001015", "012101", "002001"], ["time", "file", "year"])
        self.assertEqual([str(kind) for kind in whole.dtypes], kinds)
        self.assertEqual((len(bufr.frame(SYNOP, [])), list(bufr.rows(SYNOP, []))), (3, [()] * 3))
        self.assertEqual(len(bufr.items(SYNOP, []).items), 0)
        twice = bufr.frame(SYNOP, ["012101", "012101"])
        self.assertEqual(twice["012101"].shape, (3, 2))

    def test_an_empty_list_of_files_is_warned_of(self):
        told = "no files were given: the list is empty, perhaps because a glob pattern matched no files"
        for call in (bufr.messages, bufr.items, lambda *source, **named: bufr.frame(*source, ["012101"], ["time"], **named)):
            for source in ([], (), [[], ()], pandas.Series([], dtype=object), numpy.array([]), iter([])):
                self.assertEqual(told_by(lambda: call(source))[1], [told])
        with self.assertWarns(bufr.DumpWarning) as warned:
            self.assertEqual(bufr.frame([], ["012101"], ["time"]).shape, (0, 2))
        self.assertEqual(warned.filename, __file__)
        calls = [bufr.pieces, bufr.messages, lambda source, faults: [*bufr.levels(source, ["007004"], faults=faults)]]
        for call in calls:
            self.assertEqual(told_by(lambda: len(call([], faults="warn")))[1], [told])
            self.assertEqual(told_by(lambda: len(call([], faults=[])))[1], [told])
            self.assertEqual(told_by(lambda: len(call([], faults="ignore"))), (0, []))
            with self.assertRaisesRegex(bufr.BufrError, f"^{told}$") as error:
                call([], faults="raise")
            self.assertEqual((error.exception.file, error.exception.offset), (None, None))
        # A list of pieces does not count as empty, even if the pieces contain no messages.
        self.assertEqual(told_by(lambda: len(bufr.messages([bufr.Piece(str(SYNOP), 0, 0)]))), (0, []))

    def test_a_file_without_messages_is_warned_of(self):
        gzip = b"\x1f\x8b\0", ": it looks like gzip data (use zcat)"
        for octets, told in [(b"", ": it is empty"), gzip, (b"BUFR\0\0\0 no", "")]:
            self.stream.write_bytes(octets)
            for call in (bufr.messages, bufr.pieces, bufr.items, lambda source: bufr.frame(source, ["012101"])):
                with self.assertWarns(bufr.DumpWarning) as warned:
                    call(self.stream)
                self.assertEqual(str(warned.warning), f"{self.stream}: the file contains no messages{told}")
                self.assertEqual(warned.filename, __file__)
            for faults, kinds in (("raise", [bufr.BufrError]), ("ignore", []), ([], [bufr.DumpWarning])):
                with warnings.catch_warnings(record=True) as warned:
                    warnings.simplefilter("always")
                    try:
                        list(bufr.rows(self.stream, ["012101"], faults=faults))
                    except bufr.BufrError as error:
                        self.assertEqual((error.file, kinds), (str(self.stream), [bufr.BufrError]))
                        self.assertTrue(error.number or str(error) == f"{self.stream}: the file contains no messages{told}")
                    else:
                        self.assertEqual([one.category for one in warned], kinds)
        with self.assertRaisesRegex(bufr.BufrError, "^bytes: the file contains no messages: it is empty$") as error:
            bufr.frame([SYNOP, b""], ["012101"], faults="raise")
        self.assertEqual((error.exception.file, error.exception.offset, error.exception.number), ("bytes", None, None))
        # A piece of a file that contains no messages causes no warning.
        self.stream.write_bytes(SYNOP.read_bytes() + b"BUFR\0\0\1" * 9)
        *_, last = bufr.pieces(self.stream, 1)
        rows, told = told_by(lambda: bufr.messages(last, faults=[]))
        self.assertEqual((last.begin, set(rows["fault"]), told), (595, {1, 2}, []))
        [whole] = bufr.pieces(SYNOP)
        self.assertEqual(len(bufr.messages(bufr.Piece(str(SYNOP), 595, 595), faults="raise")), 0)

    def test_pieces_of_files_without_messages(self):
        empty = self.folder / "empty"
        empty.touch()
        self.assertEqual(told_by(lambda: len(bufr.pieces([empty, SYNOP], faults="ignore"))), (2, []))
        for faults in ("warn", []):
            self.assertEqual(len(told_by(lambda: bufr.pieces([empty, SYNOP], faults=faults))[1]), 1)
        with self.assertRaisesRegex(bufr.BufrError, "the file contains no messages: it is empty$") as error:
            bufr.pieces([SYNOP, empty], faults="raise")
        self.assertEqual(error.exception.file, str(empty))
        with self.assertRaisesRegex(ValueError, "faults must be"):
            bufr.pieces([], faults="no")
        for files in ("-", [SYNOP, "-"], [b"BUFR"], [5], [bufr.Piece(str(SYNOP), 0, 595)]):
            with self.assertRaisesRegex(TypeError, "expected the name of a file that other processes can open, found "):
                bufr.pieces(files)
        for files, found in ((None, "None"), (5, "5"), (b"BUFR", "b'BUFR'"), (bufr.Piece("x", 0, 1), "Piece.*"), (io.BytesIO(b"BUFR"), "<.*>")):
            with self.assertRaisesRegex(TypeError, f"expected the name of a file that other processes can open, found {found}$"):
                bufr.pieces(files)
        long = SYNOP.read_bytes() * 9
        for files in (long, bytearray(long), [memoryview(long)]):
            told = r"^expected the name of a file that other processes can open, found b.BUFR\\x00.{80,140}\.\.\.$"
            with self.assertRaisesRegex(TypeError, told):
                bufr.pieces(files)
        for size in (0, -1, "64MB", None, float("nan")):
            with self.assertRaisesRegex(ValueError, f"size must be a positive number of bytes, not {size!r}$"):
                bufr.pieces(SYNOP, size)
        self.assertEqual(len(bufr.pieces(SYNOP, 1e6)), 1)

    def test_pieces_that_are_not(self):
        for begin, end in ((10, 5), (-1, 5), (0.0, 595.0), ("0", "595"), (None, None)):
            with self.assertRaisesRegex(ValueError, "^expected whole numbers with 0 <= begin <= end, found "):
                bufr.Piece(str(SYNOP), begin, end)
        piece = bufr.Piece(str(SYNOP), numpy.int64(0), numpy.uint64(595))
        self.assertEqual(len(bufr.frame([piece, pickle.loads(pickle.dumps(piece))], ["012101"])), 6)

    def test_progress(self):
        self.stream.write_bytes(SYNOP.read_bytes() * 9)
        shown = []
        with contextlib.ExitStack() as patches:
            patches.enter_context(unittest.mock.patch("os.isatty", lambda _: True))
            patches.enter_context(unittest.mock.patch("time.monotonic", iter(range(99)).__next__))
            patches.enter_context(unittest.mock.patch.object(bufr_guard.Progress, "put", shown.append))
            patches.enter_context(unittest.mock.patch.object(bufr_parts, "_PART", 2000))
            bufr.frame([self.stream, self.stream], ["012101"])
        self.assertEqual((shown[0], shown[-1]), (b"\r\x1b[K0 of 0 MB\r", b"\r\x1b[K"))

    def test_conditions(self):
        octets = b"".join(path.read_bytes() for path in EXAMPLES)
        self.stream.write_bytes(octets)
        for where in (["category=0/2"], ["category!=0", "edition=4"], ["time=2023", "subsets=3"]):
            wanted = [one.offset for one in bufr_text.dump(self.stream, *TABLES, [], where=where)]
            rows = bufr.messages(self.stream, where=where, faults="ignore")
            self.assertEqual(rows["offset"][rows["fault"] == 0].tolist(), wanted)
            self.assertTrue(wanted)
        never, list_of = "can never match; write it in the form", "where must be a list of conditions such as .'category=0'., not "
        for where, error, told in [
            (["categori=0"], ValueError, "unknown key 'categori'"),
            (["Category=0"], ValueError, "^unknown key 'Category' in 'Category=0'; the keys are offset "),
            ("category=0", ValueError, f"{list_of}'category=0'$"),
            (None, TypeError, f"{list_of}None$"),
            ([("category", 0)], ValueError, r"^.'category', 0. is not a condition: expected KEY=VALUE or KEY!=VALUE$"),
            (["centre=078"], ValueError, f"'centre=078' {never} centre=98/0, without leading zeros$"),
            (["category!=02"], ValueError, f"'category!=02' {never} category=0/2/0, without leading zeros$"),
            (["tables=0/39/00,0/39/0"], ValueError, f"{never} tables=0/39/0, without leading zeros$"),
            (["category=0/2/0/0"], ValueError, never),
            (["subsets=1/2"], ValueError, f"{never} subsets=1, without leading zeros$"),
            (["subsets=1-"], ValueError, never),
            (["year=2023"], ValueError, "unknown key 'year' in 'year=2023'; use time, as in time=2023-03; the keys are offset "),
            (["subcentre!=0"], ValueError, "unknown key 'subcentre' in 'subcentre!=0'; use centre, as in centre=98/0; the"),
            (["masterversion=39"], ValueError, "use tables, as in tables=0/39/0; the keys"),
            (["012101=280"], ValueError, "^'012101=280' is not a condition: conditions select messages by their header"),
            (["012101>280"], ValueError, "^'012101>280' is not a condition: conditions select messages by their header"),
        ]:
            for call in (bufr.rows, bufr_text.rows):
                if where is not None or call is bufr.rows:
                    with self.assertRaisesRegex(error, told):
                        call(self.stream, ["012101"], where=where)
        # There must be a warning if no message in any file meets the conditions, but only then.
        (self.folder / "empty").touch()
        for call in (bufr.rows, bufr_text.rows):
            for where, wanted in ((["category=99"], 1), (["category=0"], 0), (["category!=99"], 0), ([], 0)):
                _, told = told_by(lambda: list(call(SYNOP, ["012101"], where=where)))
                self.assertEqual(told, ["no messages match the conditions in where="] * wanted)
        sounding = TOP / "examples/sounding.bufr"
        for source in ([SYNOP, sounding], [sounding, SYNOP], bufr.pieces(sounding)):
            self.assertEqual(told_by(lambda: bufr.messages(source, where=["category=0"]))[1], [])
        _, told = told_by(lambda: bufr.messages(self.folder / "empty", where=["category=0"]))
        self.assertEqual(len(told), 1)
        self.assertIn("the file contains no messages", told[0])
        # A separate note is issued for each file.
        old = self.folder / "old"
        one = next(one for one in bufr_text.listing(self.stream, []) if one.edition == 3)
        old.write_bytes(octets[one.offset :][: one.length])
        _, told = told_by(lambda: bufr.frame([old, SYNOP, old], ["012101"], where=["time=2006"]))
        self.assertEqual([text.partition(",")[0] for text in told], [f"{old}: left out 1 edition 3 message"] * 2)


class Values(WithFolder):
    def test_exact(self):
        """`bufr` reads wide numbers, scales of 127 and -127, and numbers that a float division would round incorrectly."""
        rows = [f"0010{at:02},N,M,{scale},{reference},{width}\n" for at, (scale, reference, width) in enumerate(NUMBERS)]
        tables = self.folder / "B.csv", self.folder / "D.csv"
        tables[0].write_text("fxy,name,unit,scale,reference,width\n" + "".join(rows))
        tables[1].write_text("fxy,member\n")
        rng, bits = random.Random(1), lib.Bits()
        raws = [[rng.getrandbits(rng.randint(1, width - 1)) for _, _, width in NUMBERS] for _ in range(50)]
        for raw in raws:
            for number, (_, _, width) in zip(raw, NUMBERS):
                bits.put(number, width)
        words = [f"0010{at:02}" for at in range(len(NUMBERS))]
        octets = lib.message(bits.octets(), lib.words(" ".join(words)), len(raws))
        exact = bufr.frame(octets, words, exact=True, tables=tables)
        floats, tuples = bufr.frame(octets, words, tables=tables), list(bufr.rows(octets, words, tables=tables))
        found = bufr.items(octets, tables=tables)
        self.assertIn(bufr.WIDE, found.items["kind"])
        for row, raw in enumerate(raws):
            for at, (scale, reference, _) in enumerate(NUMBERS):
                integer = raw[at] + reference
                value = Decimal(integer).scaleb(-scale) if scale > 0 else Decimal(integer * 10**-scale)
                self.assertEqual(exact.iloc[row, at], value)
                self.assertEqual(found.exact(row * len(NUMBERS) + at), value)
                self.assertEqual(floats.iloc[row, at], float(value))
                cell = float(value) if scale > 0 else int(value)
                self.assertEqual((tuples[row][at], type(tuples[row][at])), (cell, type(cell)))

    def test_times(self):
        def octets(edition: int, *time: int) -> bytes:
            one = bytearray(lib.message(b"\x14", edition=edition))
            if edition == 4:
                one[23:30] = time[0].to_bytes(2, "big") + bytes(time[1:])
            else:
                one[20:25] = bytes(time[:5])
            return bytes(one)

        for edition, time, wanted in [
            (4, (2024, 2, 29, 23, 59, 58), "2024-02-29T23:59:58"),
            (4, (2023, 2, 29, 0, 0, 0), "NaT"),
            (4, (2023, 0, 1, 0, 0, 0), "NaT"),
            (4, (2023, 13, 1, 0, 0, 0), "NaT"),
            (4, (2023, 1, 0, 0, 0, 0), "NaT"),
            (4, (2023, 1, 255, 0, 0, 0), "NaT"),
            (4, (2023, 12, 31, 24, 0, 0), "NaT"),
            (4, (2023, 12, 31, 0, 60, 0), "NaT"),
            (4, (2023, 12, 31, 0, 0, 60), "NaT"),
            (4, (65535, 1, 1, 0, 0, 0), "NaT"),
            (4, (0, 1, 1, 0, 0, 0), "NaT"),
            (4, (1678, 1, 1, 0, 0, 0), "1678-01-01T00:00:00"),
            (3, (69, 1, 1, 0, 0), "1969-01-01T00:00:00"),
            (3, (68, 12, 31, 12, 30), "2068-12-31T12:30:00"),
            (3, (99, 12, 31, 12, 30), "1999-12-31T12:30:00"),
            (3, (100, 2, 29, 0, 0), "2000-02-29T00:00:00"),
            (3, (0, 2, 30, 0, 0), "NaT"),
        ]:
            stream = octets(edition, *time)
            self.assertEqual(str(bufr.messages(stream)["time"][0]), wanted, (edition, time))
            [value] = bufr.frame(stream, [], ["time"])["time"]
            self.assertEqual(str(value), str(pandas.Timestamp(wanted)))

    def test_arithmetic_with_header_values(self):
        messages, frame = bufr.messages(SYNOP), bufr.frame(SYNOP, [], ["hour", "offset"])
        for hour, offset in ((messages["hour"], messages["offset"]), (frame["hour"], frame["offset"])):
            self.assertEqual((int((60 * hour)[0]), int((offset - 1)[0])), (1080, -1))

    def test_kinds_of_columns(self):
        self.without_warnings()
        frame = bufr.frame(SYNOP, ["001001", "001015", "002001", "008010", "020003", "012101", "012101:9"])
        kinds = [str(kind) for kind in frame.dtypes]
        self.assertEqual(kinds, ["float64", "object", "Int64", "Int64", "Int64", "float64", "float64"])
        self.assertTrue(frame["012101:9"].isna().all())
        units = {word: frame.attrs[word]["unit"] for word in frame.columns}
        self.assertEqual((units["002001"], units["001015"], units["012101:9"]), ("CODE TABLE", "CCITT IA5", "K"))
        self.assertIs(bufr.frame(EXAMPLES[0], ["008010"])["008010"][0], pandas.NA)
        # a number with decimal places is not rounded
        table = self.folder / "B.csv"
        rows = "002001,A,CODE TABLE,1,0,8\n002002,B,Common CODE TABLE C-1,0,0,8\n"
        table.write_text(f"fxy,name,unit,scale,reference,width\n{rows}")
        octets = lib.message(b"\x0f\x0f", lib.words("002001 002002"))
        frame = bufr.frame([octets, octets], ["002001", "002002"], tables=(table, TABLES[1]))
        self.assertEqual(frame.iloc[0].tolist(), [1.5, 15])
        self.assertEqual([str(kind) for kind in frame.dtypes], ["float64", "Int64"])
        self.assertEqual(frame.attrs["002002"], {"name": "B", "unit": "Common CODE TABLE C-1"})

    def test_columns_that_are_not(self):
        for words, told in [
            (("012101",), "expected a list such as .'012101'., found the string '012101'"),
            ((["012101"], "time"), "expected a list such as .'time'., found the string 'time'"),
            (([12101],), "expected a descriptor such as 012101, found 12101; write '012101'$"),
            ((["012101", "1015"],), "found '1015'; write '001015'$"),
            ((b"012101",), "expected a list such as .'012101'., found b'012101'$"),
            ((["\u0660\u0661\u0662\u0661\u0660\u0661"],), "expected a descriptor such as 012101, found '\u0660\u0661\u0662\u0661\u0660\u0661'$"),
            ((["012101:1\u0661"],), "expected a descriptor such as 012101, found '012101:1\u0661'$"),
            (([" 012101"],), "expected a descriptor such as 012101, found ' 012101'; write '012101'$"),
            ((["001015,012101"],), "found '001015,012101'; write '001015', '012101'$"),
            ((["012101", 101],), "found 101$"),
            ((["time"],), "found 'time', which is a header key; pass header=.'time'.$"),
            ((["subset"],), "found 'subset', which is a header key; pass header=.'subset'.$"),
            ((["301001"],), "'301001' is a sequence, not an element; pass the descriptors of its elements: 001001, 001002$"),
            ((["307080"],), "'307080' is .*: 008002, 007030, (0[0-9]*, ){8}and others$"),
            ((["363255"],), "'363255' is a sequence, not an element; pass the descriptors of its elements$"),
            ((["012101", "201132"],), "'201132' is an operator, not an element, so it has no value$"),
            ((["101000"],), "'101000' is a replication, not an element, so it has no value$"),
            ((["AIR TEMPERATURE"],), "found 'AIR TEMPERATURE', which occurs in the names of 012001, 012101"),
            ((["012101"], ["place"]), "the header has no key 'place'; the keys are edition, .*, file, time$"),
        ]:
            for call in (bufr.frame, bufr.rows, bufr.levels, lambda *words: bufr.frame(*words, levels=True)):
                with self.assertRaisesRegex(ValueError, told):
                    call(SYNOP, *words)
        for call in (bufr.items, bufr.levels, bufr_text.levels, lambda *words: bufr.frame(*words, levels=True)):
            with self.assertRaisesRegex(ValueError, "^'012101:2' has a count, but counts are allowed .*; pass '012101'$"):
                call(SYNOP, ["012101:2"])
        for call in (bufr.frame, bufr.items, bufr_text.rows):
            for word in ("012999", "064001", "401001", 912101):
                with self.assertRaisesRegex(ValueError, f"^no table defines {word}, because descriptors have the form FXXYYY, where F is at most 3, "):
                    call(SYNOP, ["001015", word])
        for call in (bufr.levels, bufr_text.levels, lambda *words: bufr.frame(*words, levels=True)):
            for columns in ([], (), iter([])):
                with self.assertRaisesRegex(ValueError, "^expected a list such as .'012101'., found an empty list; "):
                    call(SYNOP, columns)
        with self.assertRaisesRegex(ValueError, "'001002'"):
            bufr.levels(SYNOP, ["012101"], keep="001002")
        with self.assertRaisesRegex(ValueError, "found 'time', which is a header key; pass header=.'time'.$"):
            bufr.frame(SYNOP, ["012101"], keep=["time"], levels=True)
        for words, example in (((None,), "012101"), ((["012101"], None), "time"), ((["012101"], 5), "time")):
            with self.assertRaisesRegex(TypeError, f"expected a list such as .'{example}'., found {words[-1]}$"):
                bufr.frame(SYNOP, *words)
        with self.assertRaisesRegex(TypeError, "expected a list such as .'001002'., found 5$"):
            bufr.frame(SYNOP, ["012101"], keep=5, levels=True)
        with self.assertRaisesRegex(TypeError, "keep= requires levels=True"):
            bufr.frame(SYNOP, ["012101"], keep=["001002"])

    def test_great_counts(self):
        for count in (10, 1 << 31, 1 << 63, 10**30):
            for call in (bufr.rows, bufr_text.rows):
                rows, told = told_by(lambda: list(call(SYNOP, [f"012101:{count}"])))
                self.assertEqual((rows, told), ([(None,)] * 3, [f"column 012101:{count} is empty because no row contains this item"]))

    def test_columns_from_iterators(self):
        octets = SYNOP.read_bytes()
        wanted = list(bufr.rows([octets] * 2, ["001015", "012101"], ["year", "offset"], where=["category=0"]))
        for call in (bufr.rows, lambda *words, **named: bufr.frame(*words, **named).itertuples(index=False)):
            with unittest.mock.patch.multiple(bufr_parts, _PART=1):
                found = call([octets] * 2, iter(["001015", "012101"]), iter(["year", "offset"]), where=iter(["category=0"]))
                self.assertEqual([tuple(row) for row in found], wanted)
        self.assertEqual(list(bufr.rows([octets] * 2, [], where=iter(["category=0", "centre=78"]))), [()] * 6)
        words = iter(["007004"]), iter(["offset"]), iter(["001002"])
        sounding = TOP / "examples/sounding.bufr"
        self.assertEqual([*bufr.levels(sounding, *words)], [*bufr.levels(sounding, ["007004"], ["offset"], ["001002"])])
        self.assertEqual(bufr.items(octets, iter(["012101"])).items.tolist(), bufr.items(octets, ["012101"]).items.tolist())
        words = iter(["001015", "012101"]), iter(["year"])
        self.assertEqual(next(bufr_text.rows(SYNOP, *words)), (2023, "SODANKYLA", 259.35))

    def test_inserted_characters_are_a_column(self):
        octets = lib.message(b"ab\x14", lib.words("205002 001001"))
        self.assertEqual(list(bufr.rows(octets, ["205002", "001001"])), [("ab", 10)])

    def test_items_as_a_frame(self):
        found = bufr.items([SYNOP, SYNOP], ["001015", "012101"])
        frame = found.frame()
        self.assertEqual([*frame.columns], "message_row file offset time subset fxy name unit value text".split())
        rows = frame.fillna("none").to_numpy().tolist()
        self.assertEqual(rows[9][4:], [2, "012101", "TEMPERATURE/AIR TEMPERATURE", "K", 282.55, "none"])
        self.assertEqual(rows[8][4:], [2, "001015", "STATION OR SITE NAME", "CCITT IA5", "none", "HEATHROW"])
        self.assertEqual((frame["file"][8], str(frame["time"][8])), (str(SYNOP), "2023-03-14 18:00:00"))
        self.assertEqual(found.elements["012101"], {"name": "TEMPERATURE/AIR TEMPERATURE", "unit": "K"})
        # two messages with the same offset, whose rows differ only in `message_row`
        octets = SYNOP.read_bytes()
        found = bufr.items([octets, octets], ["012101"])
        self.assertEqual(found.frame()["message_row"].tolist(), [0] * 3 + [1] * 3)
        self.assertEqual((found.frame()["message_row"] - 2).min(), -2)
        messages = pandas.DataFrame(found.messages)
        joined = found.frame().join(messages[["centre"]], on="message_row")
        self.assertEqual(joined["centre"].tolist(), [78] * 6)
        self.assertEqual(len(bufr.items([]).frame()), 0)
        # a redefined reference value, and the argument tables=
        octets = (VECTORS / "messages/redefined_reference.bufr").read_bytes()
        names = bufr.items(octets, tables=OF_VECTORS).frame()[["fxy", "name", "unit", "value"]].to_numpy().tolist()
        self.assertEqual(names[0], ["012101", "REFERENCE", "", -400])
        self.assertEqual(names[1][1:3], [*bufr.frame(octets, ["012101"], tables=OF_VECTORS).attrs["012101"].values()])

    def test_items_in_a_notebook(self):
        found = bufr.items([SYNOP, SYNOP])
        self.assertEqual(repr(found), "<bufr.Items: 684 items in 2 messages>")
        self.assertEqual(repr(bufr.items(SYNOP, ["001015"])), "<bufr.Items: 3 items in 1 message>")
        self.assertEqual(len(pickle.loads(pickle.dumps(found)).items), 684)
        for index in (slice(0, 2), [0, 1], found.items["fxy"] == 12101, found.items[0], 1.0, "0"):
            with self.assertRaisesRegex(TypeError, "^expected an index into items, found "):
                found.exact(index)
        with self.assertRaises(IndexError):
            found.exact(684)
        air = numpy.flatnonzero(found.items["fxy"] == 12101)
        self.assertEqual([found.exact(index) for index in air[:2]], [Decimal("259.35"), Decimal("282.55")])

    def test_names_and_units_of_each_version(self):
        """`bufr` takes names, units and column types from the tables that it uses to read the values."""
        words = ["012101", "022191", "022179", "033066"]

        def octets(version: int, *values) -> bytes:
            bits = lib.Bits()
            for value, width in values:
                bits.put(value, width)
            return lib.asking(lib.message(bits.octets(), lib.words(" ".join(words))), version)

        old = octets(14, (28000, 16), (125, 20), (int.from_bytes(b"A".ljust(32), "big"), 256), (3, 4))
        new = octets(39, (28000, 16), (12500, 16), (1500, 16), (3, 24))
        told = ["m2 rad-1 s in wmo-14 and m in wmo-39", "CCITT IA5 in wmo-14 and m in wmo-39"]
        told = [*told, "CODE TABLE in wmo-14 and FLAG TABLE in wmo-39"]
        told = [f"the unit of {word} depends on the table set: it is {units}" for word, units in zip(words[1:], told)]
        for size in (1, 1 << 20):
            with unittest.mock.patch.multiple(bufr_parts, _PART=size, _PART_OF_ALL=size):
                alone = bufr.frame(old, words)
                both, notes = told_by(lambda: bufr.frame(old + new + old, words))
                items, notes_of_items = told_by(lambda: bufr.items(old + new))
            self.assertEqual([str(kind) for kind in alone.dtypes], ["float64", "float64", "object", "Int64"])
            units = ["K", "m2 rad-1 s", "CCITT IA5", "CODE TABLE"]
            self.assertEqual([alone.attrs[word]["unit"] for word in words], units)
            self.assertEqual(alone.attrs["012101"]["name"], "TEMPERATURE/DRY-BULB TEMPERATURE")
            self.assertEqual([str(kind) for kind in both.dtypes], ["float64", "float64", "object", "Int64"])
            self.assertEqual(both.iloc[:2].to_numpy().tolist(), [[280, 1.25, "A", 3], [280, 1.25, 1.0, 3]])
            units = ["K", "m2 rad-1 s or m", "CCITT IA5 or m", "CODE TABLE or FLAG TABLE"]
            self.assertEqual([both.attrs[word]["unit"] for word in words], units)
            self.assertEqual((sorted(notes), sorted(notes_of_items)), (sorted(told), sorted(told)))
            self.assertEqual([items.elements[word]["unit"] for word in words], units)
            found = pickle.loads(pickle.dumps(items)).frame()
            self.assertEqual(found["unit"].tolist(), "K,m2 rad-1 s,CCITT IA5,CODE TABLE,K,m,m,FLAG TABLE".split(","))
            self.assertEqual(found["name"].tolist()[::4], ["TEMPERATURE/DRY-BULB TEMPERATURE", "TEMPERATURE/AIR TEMPERATURE"])
        # a part may contain no items for a float column or for a column of codes
        with unittest.mock.patch.multiple(bufr_parts, _PART=1):
            frame = bufr.frame([lib.message(b"\x14"), old, lib.message(b"\x14")], ["012101", "033066", "001001"])
        self.assertEqual([str(kind) for kind in frame.dtypes], ["float64", "Int64", "float64"])

    def test_names_and_units_of_local_elements(self):
        wmo, own = self.folder / "wmo-39", self.folder / "wmo-39+98-7"
        shutil.copytree(pathlib.Path(TABLES[0]).parent, wmo)
        shutil.copytree(wmo, own)
        with open(own / "B.csv", "a") as table:
            table.write("063192,OWN CODE,CODE TABLE,0,0,8\n")
        octets = lib.asking(lib.message(b"\x07", lib.words("063192")), 39, 7)
        with unittest.mock.patch.dict(os.environ, BUFR_TABLES=str(self.folder)):
            frame, told = told_by(lambda: bufr.frame(octets, ["063192"]))
            items = bufr.items(octets).frame()
        self.assertEqual((frame["063192"].dtype, frame["063192"].tolist(), told), ("Int64", [7], []))
        self.assertEqual(frame.attrs["063192"], {"name": "OWN CODE", "unit": "CODE TABLE"})
        self.assertEqual(items[["name", "unit"]].to_numpy().tolist(), [["OWN CODE", "CODE TABLE"]])

    def test_strings_are_decoded(self):
        octets = lib.message(b'B\xd6"\\\0\n  ', lib.words("205008"))
        self.assertEqual(list(bufr.rows(octets, ["205008"])), [('B\\xD6\\"\\\\\\x00\\x0A',)])
        for is_exact in (False, True):
            self.assertEqual(bufr.frame(octets, ["205008"], exact=is_exact)["205008"].tolist(), ['B\xd6"\\\0\n'])
        self.assertEqual(bufr.items(octets).frame()["text"].tolist(), ['B\xd6"\\\0\n'])

    def test_the_optional_section(self):
        octets = (VECTORS / "messages/local_use_sections.bufr").read_bytes() + SYNOP.read_bytes() + b"BUFR"
        rows = bufr.messages(octets, faults="ignore")
        frame = bufr.frame(octets, [], ["optional"], faults="ignore")
        self.assertEqual((rows["optional"].tolist(), frame["optional"].tolist()), ([1, 0, 0], [1, 0, 0, 0]))
        self.assertEqual(((frame["optional"] - 2).min(), (rows["optional"] - 2).min()), (-2, -2))

    def test_rows_of_messages_without_a_header(self):
        octets = SYNOP.read_bytes()
        refused = lib.message(b"\x14", b"\x3f\xff") + octets[:7] + b"\2" + octets[8:]  # an unknown element, and edition 2
        rows = bufr.messages(octets + b"BUFR" + refused, faults="ignore")
        self.assertEqual(rows["fault"].tolist(), [0, 1, 20, 10])
        self.assertEqual(rows["edition"].tolist(), [4, 0, 4, 0])
        self.assertEqual(rows["centre"].tolist(), [78, 0, 98, 0])
        self.assertEqual(numpy.isnat(rows["time"]).tolist(), [False, True, False, True])

    def test_a_frame_of_levels(self):
        words = ["007004", "012101"], ["time", "offset"]
        frame = bufr.frame(TOP / "examples/sounding.bufr", *words, levels=True, keep=["001002"])
        self.assertEqual([*frame.columns], ["time", "offset", "001002", "007004", "012101"])
        rows = list(bufr.levels(TOP / "examples/sounding.bufr", *words, ["001002"]))
        self.assertEqual([tuple(row) for row in frame.itertuples(index=False)], rows)
        self.assertEqual(len(rows), 28)

    def test_the_structures_are_those_of_the_library(self):
        for ours, theirs in ((bufr_calls.MESSAGE, bufr_library.Message), (bufr_calls.ITEM, bufr_library.Item)):
            fields = [ours.fields[name] for name in ours.names]
            wanted = numpy.dtype(theirs)
            self.assertEqual(fields, [wanted.fields[name] for name in wanted.names])
        for name in ("Input", "Texts", "Rows", "Counts"):
            ours, theirs = (getattr(module, name) for module in (bufr_calls, bufr_library))
            places = [[getattr(it, field).offset for field, _ in it._fields_] for it in (ours, theirs)]
            self.assertEqual((places[0], ctypes.sizeof(ours)), (places[1], ctypes.sizeof(theirs)))
        kinds = [bufr.MISSING, bufr.NUMBER, bufr.TEXT, bufr.REFERENCE, bufr.WIDE]
        self.assertEqual(kinds, [*bufr_library.Kind])


# The scales, reference values and widths of the numbers in `test_exact`.
NUMBERS = [(scale, 0, 63) for scale in (0, 1, 2, 7, 22, 23, 127, -1, -5, -22, -23, -127)]
NUMBERS += [(scale, reference, 63) for scale in (0, 3, 127, -3, -127) for reference in ((1 << 63) - 1, -(1 << 63))]
NUMBERS += [(2, -40000, 17), (22, 0, 54), (-22, 0, 54)]


class Faults(WithFolder):
    def setUp(self):
        super().setUp()
        # a stray, a rejected message and a valid message, twice
        refused = lib.message(b"\x14", b"\x3f\xff")
        self.stream.write_bytes((b"BUFR\0\0\1" + refused + SYNOP.read_bytes()) * 2)
        file = str(self.stream)
        self.wanted = [(0, 2, "short length", file), (7, 20, "unknown element 063255", file)]
        length = self.stream.stat().st_size // 2
        self.wanted += [(offset + length, *fault) for offset, *fault in self.wanted]

    def test_a_list(self):
        faults = []
        frame, told = told_by(lambda: bufr.frame(self.stream, ["012101"], faults=faults))
        self.assertEqual((len(frame), told, faults), (6, [], self.wanted))
        self.assertIsInstance(faults[0], bufr.Fault)
        self.assertEqual((faults[1].file, str(faults[1])), (str(self.stream), f"{self.stream}: {faults[1].line()}"))
        self.assertEqual(faults[1].line(), "offset 7: 20 unknown element 063255")
        self.assertEqual(str(bufr.Fault(*faults[1][:3])), faults[1].line())
        two = []
        bufr.messages([self.stream, b"BUFR" + SYNOP.read_bytes()], faults=two)
        self.assertEqual([fault.file for fault in two], [str(self.stream)] * 4 + ["bytes"])

    def test_warn(self):
        rows, frame = (lambda source: list(bufr.rows(source, ["012101"]))), (lambda source: bufr.frame(source, []))
        for call in (bufr.messages, bufr.items, rows, frame):
            with self.assertWarns(bufr.DumpWarning) as warned:
                call(self.stream)
            stray, first = f"({bufr_text.STRAY})", "the first fault is at offset 0: 2 short length"
            wanted = f"rejected 2 messages and skipped 2 strays {stray}; {first}; to get all faults, pass an empty list as faults=; "
            self.assertTrue(str(warned.warning).startswith(f"{self.stream}: {wanted}"), warned.warning)
            self.assertEqual(warned.filename, __file__)
        refused = lib.message(b"\x14", b"\x3f\xff")
        _, told = told_by(lambda: bufr.messages([self.stream, SYNOP, b"BUFR" + SYNOP.read_bytes(), refused, refused * 2]))
        wanted = [wanted.partition("; ")[0], f"skipped 1 stray {stray} at offset 0: 1 cut"]
        wanted += ["rejected 1 message at offset 0: 20 unknown element 063255", "rejected 2 messages"]
        self.assertEqual([text.partition(": ")[2].partition("; ")[0] for text in told], wanted)

    def test_raise(self):
        with self.assertRaises(bufr.BufrError) as error:
            bufr.frame(self.stream, ["012101"], faults="raise")
        stray = "found a stray (the word BUFR where no complete message begins)"
        advice = "to continue after a fault, pass faults='warn'"
        self.assertEqual(str(error.exception), f"{self.stream}: {stray} at offset 0: 2 short length; {advice}")
        with self.assertRaises(bufr.BufrError) as error:
            bufr.frame(self.stream.read_bytes()[7:], ["012101"], faults="raise")
        self.assertEqual(str(error.exception), f"bytes: rejected a message at offset 0: 20 unknown element 063255; {advice}")
        for one in (error.exception, pickle.loads(pickle.dumps(error.exception))):
            self.assertEqual((one.file, one.offset, one.number, one.text), ("bytes", 0, 20, "unknown element 063255"))
        self.assertEqual(len(bufr.frame(SYNOP, ["012101"], faults="raise")), 3)

    def test_ignore(self):
        rows, told = told_by(lambda: bufr.messages(self.stream, faults="ignore"))
        self.assertEqual(told, [])
        self.assertEqual(rows["fault"].tolist(), [2, 20, 0] * 2)
        self.assertEqual(rows["length"][:2].tolist(), [4, 48])
        for faults in ("warned", "", None):
            with self.assertRaises((ValueError, AttributeError)):
                bufr.messages(self.stream, faults=faults)

    def test_gaps_are_warned_of(self):
        empty = "column {} is empty because no row contains this item"
        words = ["012104", "012101", "020012:9", "063255"]
        unknown = f"{empty.format('063255')}; the table set wmo-39 does not define 063255"
        wanted = [empty.format("012104"), empty.format("020012:9"), unknown]
        for call in (bufr.rows, bufr.frame, bufr_text.rows):
            self.assertEqual(told_by(lambda: len([*call(SYNOP, words, faults=[])]))[1], wanted, call)
        _, told = told_by(lambda: bufr.frame(SYNOP, ["012104", "063255"], tables=TABLES))
        self.assertEqual(told, [empty.format("012104"), f"{empty.format('063255')}; {TABLES[0]} does not define 063255"])
        _, told = told_by(lambda: bufr.items(SYNOP, ["012104", "012101", "063255"]))
        unknown = "063255; the table set wmo-39 does not define 063255"
        self.assertEqual(told, [f"no message contains {word}" for word in ("012104", unknown)])
        # a column counts as empty only if it is empty in every file and every part
        aircraft = TOP / "examples/aircraft.bufr"
        for size in (1, 1 << 20):
            with unittest.mock.patch.multiple(bufr_parts, _PART=size, _PART_OF_ALL=size):
                for source in ([SYNOP, aircraft], [aircraft, SYNOP]):
                    self.assertEqual(told_by(lambda: bufr.frame(source, ["001015", "001006"]))[1], [])
                    self.assertEqual(told_by(lambda: bufr.items(source, ["001015", "001006"]))[1], [])
        # a piece causes no warning, because other pieces may contain the items that it lacks
        pieces = bufr.pieces(SYNOP)
        for source in (pieces, [*pieces, SYNOP]):
            self.assertEqual(told_by(lambda: [bufr.frame(source, ["012104"]), bufr.items(source, ["012104"])])[1], [])
        # A descriptor that no table set defines causes a warning. A local set defines 002192, and an old set defines 002191.
        folder = self.folder / "sets"
        for name in ("wmo-39", "wmo-13", "wmo-13+98-7"):
            shutil.copytree(TOP / "tables" / name[:6], folder / name)
        with open(folder / "wmo-13+98-7/B.csv", "a") as table:
            table.write("002192,LOCAL,M,0,0,8\n")
        with open(folder / "wmo-13/B.csv", "a") as table:
            table.write("002191,OLD,M,0,0,8\n")
        words = ["012104", "002191", "002192", "063255", "205004"]
        unknown = "this piece contains no item for 063255, and no table set defines it"
        with unittest.mock.patch.dict(os.environ, BUFR_TABLES=str(folder)):
            for call in (bufr.frame, bufr.items, lambda *given: [*bufr.rows(*given)]):
                for source in (pieces, [*pieces, SYNOP]):
                    self.assertEqual(told_by(lambda: call(source, words))[1], [unknown])
        for call in (bufr.frame, bufr.items):
            _, told = told_by(lambda: call(pieces, ["012104", "063255"], tables=TABLES))
            self.assertEqual(told, [f"this piece contains no item for 063255, and {TABLES[0]} does not define it"])
            # A piece without messages causes no warning.
            self.assertEqual(told_by(lambda: call([bufr.Piece(str(SYNOP), 0, 0)], ["063255"]))[1], [])
        for call in (bufr.frame, bufr.items):
            _, told = told_by(lambda: call(SYNOP, ["012104"], where=["centre=1"]))
            self.assertEqual(told, ["no messages match the conditions in where="])

    def test_columns_without_values_are_warned_of(self):
        for call in (bufr.rows, bufr.frame, bufr_text.rows):
            self.stream.write_bytes(lib.message(b"\xfe\x14", lib.words("001001 001001")))
            _, told = told_by(lambda: len([*call(self.stream, ["001001", "001001:2"])]))
            self.assertEqual(told, ["column 001001 is empty because all of its values are missing"])
            self.stream.write_bytes(lib.message(b"\xfe\x14", lib.words("001001 001001")) + lib.message(b"\x14"))
            self.assertEqual(told_by(lambda: len([*call(self.stream, ["001001"])]))[1], [])

    def test_subsets_without_levels_are_warned_of(self):
        sounding = TOP / "examples/sounding.bufr"
        empty = "column {} is empty because no row contains this item"
        outside = "column {0} is empty because {0} occurs only outside the levels; pass keep=['{0}'] instead"
        bits = lib.Bits()
        for number, width in ((1, 7), (2, 7), (3, 10), (2, 8), (4, 14), (5, 14)):
            bits.put(number, width)
        self.stream.write_bytes(lib.message(bits.octets(), lib.words("001001 001001 001002 101000 031001 007004")))
        several = f"{outside.partition(';')[0]}; to get its first value, pass keep=['{{0}}']; to get all of its values, pass '{{0}}:1', '{{0}}:2'"
        several += " and so on to rows(), or use bufr.items or bufr_text.dump"
        one = f"skipped a subset without levels: subset 1 of the message at offset 0 in {sounding}"
        three = "skipped 3 subsets without levels; the first is subset 1 of the message at offset {} in {}"
        for call in (bufr.levels, bufr_text.levels, lambda *words: bufr.frame(*words[:2], keep=words[3], levels=True)):
            for source, columns, keep, wanted in [
                # If there are no rows, the columns in keep= cause no warning.
                (SYNOP, ["012104"], ["012103"], [empty.format("012104"), three.format(0, SYNOP)]),
                # 001001 occurs twice before the levels, and 001002 once
                (self.stream, ["007004", "001001", "001002"], [], [several.format("001001"), outside.format("001002"), one.replace(str(sounding), str(self.stream))]),
                (sounding, ["012104"], ["001002"], [empty.format("012104"), one]),
                # The other columns cause no warning, because they have values in the levels.
                (sounding, ["001002", "007004", "012101"], [], [outside.format("001002"), one]),
                (sounding, ["007004", "001002"], [], [outside.format("001002"), one]),
                (sounding, ["007004", "012101", "001002"], [], [outside.format("001002")]),
                (sounding, ["007004"], ["012104"], [empty.format("012104")]),
                (sounding, ["007004", "012101", "012104"], ["001002"], [empty.format("012104")]),
            ]:
                self.assertEqual(told_by(lambda: len([*call(source, columns, [], keep)]))[1], wanted)
        for size in (1, 1 << 20):
            with unittest.mock.patch.multiple(bufr_parts, _PART_OF_ALL=size):
                octets = sounding.read_bytes() + b"BUFR\0\0\1" + sounding.read_bytes() + SYNOP.read_bytes()
                told = told_by(lambda: [*bufr.levels(octets, ["007004"], faults="ignore")])[1]
                self.assertEqual(told, [three.format(1395, "bytes")])

    def test_notes_on_tables(self):
        later = lib.asking(SYNOP.read_bytes(), 45)
        _, told = told_by(lambda: bufr.frame([later * 2, later], ["012101"]))
        places = [text.partition(": table")[0] for text in told]
        self.assertEqual(places, ["bytes 1: 2 messages, the first at offset 0", "bytes 2: 1 message, at offset 0"])
        self.assertIn("table version 45 is later than that of the table set wmo-39; get newer tables", told[0])

    def test_invalid_tables(self):
        bad = self.folder / "bad table"
        for text, fault in (("", "40 header"), ("fxy,name,unit,scale,reference,width\nx\n", "45 csv")):
            bad.write_text(text)
            with self.assertRaises(bufr.BufrError) as error:
                bufr.frame(SYNOP, ["012101"], tables=(TABLES[0], bad) if not text else (bad, TABLES[1]))
            said = str(error.exception)
            self.assertTrue(said.startswith(f"cannot use {bad}: {fault}; to see where the fault is, run: bufr dump -B "), said)
            words = said.partition("run: bufr ")[2]
            done = subprocess.run(f"'{lib.program()}' {words}", shell=True, stderr=subprocess.PIPE)
            self.assertRegex(done.stderr.decode(), f"^table [BD]: {fault}$")
        wrong = 5, False, (), (1, 2), iter(TABLES), (TABLES[0].encode(), TABLES[1].encode()), {"B": 1, "D": 2}
        for tables in ((TABLES[0],), "tables/wmo-39", TOP / "tables/wmo-39", "BD", *wrong):
            with self.assertRaisesRegex(TypeError, r"^expected the file names of Table B and Table D as tables=.B, D., found "):
                bufr.frame(SYNOP, ["012101"], tables=tables)
        with self.assertRaises(FileNotFoundError):
            bufr.frame(SYNOP, ["012101"], tables=(TABLES[0], "none"))
        with unittest.mock.patch.dict(os.environ, BUFR_TABLES="/none"):
            with self.assertRaisesRegex(bufr.BufrError, "BUFR_TABLES is /none"):
                bufr.messages(SYNOP)

    def test_no_library(self):
        other = re.search(r"/\S*/libc[.-]\S*", pathlib.Path("/proc/self/maps").read_text())[0]
        for name, told in [
            ("/none", "^BUFR_LIBRARY is '/none', which is not a file; "),
            (str(SYNOP), f"^cannot load the C library: {SYNOP}: .*invalid ELF header$"),
            (other, f"^{other} is not the C library: it lacks the function bufr_version$"),
        ]:
            with unittest.mock.patch.dict(os.environ, BUFR_LIBRARY=str(name)), self.assertRaisesRegex(ImportError, told):
                bufr_calls.loaded()
        with unittest.mock.patch.dict(os.environ), unittest.mock.patch("os.path.isfile", lambda _: False):
            del os.environ["BUFR_LIBRARY"]
            with self.assertRaisesRegex(ImportError, "^cannot find libbufr.so.0; .*; if libbufr.so.0 is elsewhere, set BUFR_LIBRARY to its path$"):
                bufr_calls.loaded()
        with unittest.mock.patch("ctypes.CDLL", lambda _: unittest.mock.Mock(spec=["bufr_version", "bufr_list"])):
            with self.assertRaisesRegex(ImportError, " is not the C library: it lacks the function bufr_dump$"):
                bufr_calls.loaded()
        with unittest.mock.patch("ctypes.CDLL") as library, self.assertRaisesRegex(ImportError, "have different versions"):
            library.return_value.bufr_version.return_value = 2000
            bufr_calls.loaded()
        with unittest.mock.patch("bufr_calls.LIBRARY") as library, self.assertRaises(MemoryError):
            library.bufr_items.return_value = bufr_calls.OUT_OF_MEMORY
            bufr.messages(SYNOP)


# Tests with several processes. The worker that creates the file `mark` kills itself; the others find this file and continue.


def read(piece: bufr.Piece, mark: str = ""):
    if mark and piece.begin:
        with contextlib.suppress(FileExistsError):
            os.close(os.open(mark, os.O_CREAT | os.O_EXCL))
            os.kill(os.getpid(), signal.SIGKILL)
    return bufr.frame(piece, ["001015", "012101", "002001"], ["file", "offset", "time"], faults="ignore")


# The time after which the test with Dask fails. A loaded machine may need minutes to start workers and connect to them.
DASK_SECONDS = 600


def read_by_dask(folder: str) -> None:
    """Reads pieces with two workers, one of which is killed, and writes the results to the file `found` in `folder`."""
    import dask.dataframe
    import distributed

    pieces, mark, meta = pickle.loads(pathlib.Path(folder, "given").read_bytes())
    sys.path.insert(0, str(SCRIPTS))  # before tests/, which contains another bufr_auto; workers inherit this path
    times = ("distributed.comm.timeouts.connect", "distributed.comm.timeouts.tcp", "distributed.scheduler.worker-ttl")
    local = {"n_workers": 2, "threads_per_worker": 1, "dashboard_address": ":0", "silence_logs": 50}
    with dask.config.set(dict.fromkeys(times, f"{DASK_SECONDS}s")), distributed.Client(local_directory=folder, **local):
        whole = dask.dataframe.from_map(read, pieces, mark=mark, meta=meta).compute()
        # the same calls as in docs/guide.md
        columns = ["001015", "012101"]
        meta = bufr.frame([], columns, faults="ignore")
        frame = dask.dataframe.from_map(bufr.frame, pieces, columns=columns, meta=meta, faults="ignore")
        found = pickle.dumps((whole, frame["012101"].mean().compute()))
        pathlib.Path(folder, "writing").write_bytes(found)
        os.replace(pathlib.Path(folder, "writing"), pathlib.Path(folder, "found"))


class Processes(WithFolder):
    def setUp(self):
        super().setUp()
        # bulletins.bufr is left out, because its strays declare large lengths.
        octets = b"BUFR\0\0\1".join([*(path.read_bytes() for path in EXAMPLES if path.stem != "bulletins"), b""])
        self.stream.write_bytes(octets * 20)
        self.files = [str(self.stream), str(SYNOP), str(self.stream)]
        self.pieces = bufr.pieces(self.files, 5000)
        self.mark = str(self.folder / "mark")
        with warnings.catch_warnings():
            warnings.simplefilter("ignore")
            self.wanted = bufr.frame(self.files, ["001015", "012101", "002001"], ["file", "offset", "time"])
        self.assertGreater(len(self.pieces), 15)
        ends = [piece.end for piece in self.pieces]
        wanted = [end for end in ends if end not in (595, len(octets) * 20)]
        self.assertEqual([piece.begin for piece in self.pieces if piece.begin], wanted)

    def alike(self, frame) -> None:
        pandas.testing.assert_frame_equal(frame.reset_index(drop=True), self.wanted)

    def test_futures(self):
        with concurrent.futures.ProcessPoolExecutor(3) as pool:
            self.alike(pandas.concat(pool.map(read, self.pieces)))
        # a pool whose worker is killed raises an error, and another pool can read the pieces again
        with self.assertRaises(BrokenProcessPool), concurrent.futures.ProcessPoolExecutor(3) as pool:
            list(pool.map(functools.partial(read, mark=self.mark), self.pieces))
        self.assertTrue(os.path.exists(self.mark))
        with concurrent.futures.ProcessPoolExecutor(3) as pool:
            self.alike(pandas.concat(pool.map(functools.partial(read, mark=self.mark), self.pieces)))

    def test_dask(self):
        try:
            import dask.dataframe  # noqa: F401
            import distributed  # noqa: F401
        except ImportError:
            self.skipTest("Dask is not installed (Debian: apt-get install python3-dask python3-distributed)")
        # This needs a separate process, because Dask prints a traceback when a worker exits, even if nothing is wrong.
        (self.folder / "given").write_bytes(pickle.dumps((self.pieces, self.mark, self.wanted[:0])))
        words = [sys.executable, "-c", "import sys, bufr_module; bufr_module.read_by_dask(sys.argv[1])", self.folder]
        environment = {**os.environ, "PYTHONPATH": f"{SCRIPTS}:{TOP}/tests"}
        log, ended = self.folder / "log", "exited with status {}"
        with open(log, "wb") as told:
            run = subprocess.Popen(words, env=environment, stdout=told, stderr=told, start_new_session=True)
        try:
            ended = ended.format(run.wait(DASK_SECONDS))
        except subprocess.TimeoutExpired:
            ended = f"did not end within {DASK_SECONDS} seconds"
            os.killpg(run.pid, signal.SIGKILL)
            run.wait()
        if not (self.folder / "found").exists():
            self.fail(f"the process with Dask {ended} and wrote no result; it printed:\n{log.read_text(errors='replace')}")
        whole, mean = pickle.loads((self.folder / "found").read_bytes())
        self.alike(whole)
        self.assertTrue(os.path.exists(self.mark), "no worker was killed")
        self.assertAlmostEqual(mean, self.wanted["012101"].mean())

    def test_threads(self):
        self.without_warnings()

        def read(path):
            rows = bufr.rows(path, ["012101", "001015"], HEADER, faults="ignore")
            return [*rows, *bufr.levels(path, ["007004"], faults="ignore")]

        paths = [*EXAMPLES, self.stream] * 4
        wanted = {path: read(path) for path in set(paths)}
        with concurrent.futures.ThreadPoolExecutor(8) as pool:
            for path, rows in zip(paths, pool.map(read, paths)):
                self.assertEqual(rows, wanted[path])

    def test_memory_is_bounded_by_the_part(self):
        code = "import sys; sys.path.insert(0, sys.argv[1]); import bufr, pandas; source = sys.argv[2]\n"
        code += "{}\nprint(open('/proc/self/status').read())"
        once = SYNOP.read_bytes() * 1700
        for call, size in [
            ("bufr.frame(source, ['001001', '001002', '012101'])", 20),
            ("for row in bufr.rows(source, ['001015', '012101']): pass", 20),
            ("for row in bufr.levels(source, ['020012']): pass", 3),
            ("bufr.pieces(source)", 20),
        ]:
            used = []
            for count in (size, 3 * size):
                self.stream.write_bytes(once * count)
                words = [sys.executable, "-W", "ignore", "-c", code.format(call), SCRIPTS, self.stream]
                done = subprocess.run(words, stdout=subprocess.PIPE, text=True, check=True)
                used.append(int(re.search(r"^VmHWM:\s+(\d+) kB$", done.stdout, re.M)[1]) // 1000)
            print(f"bufr_module: {call}: {used[0]} MB, and {used[1]} MB for three times the messages")
            # A call that retained the input or its items would need at least 40 MB more. Memory use varies by up to 15 MB.
            self.assertLess(used[1] - used[0], 30, call)


class Wheel(WithFolder):
    def test_its_version(self):
        self.assertIn(f'NAME = "bufr_text-{bufr.__version__}"', (TOP / "build_wheel.py").read_text())

    def test_a_wheel_is_enough(self):
        """An installed wheel needs only NumPy; it contains its own library and tables."""
        code = "import sys, build_wheel; print(build_wheel.build_wheel(sys.argv[1], {'library': sys.argv[2]}))"
        words = [sys.executable, "-c", code, self.folder, os.environ["BUFR_LIBRARY"]]
        wheel = subprocess.run(words, cwd=TOP, stdout=subprocess.PIPE, text=True, check=True).stdout.strip()
        place = self.folder / "environment"
        if subprocess.run([sys.executable, "-m", "venv", "--system-site-packages", place], stdout=subprocess.PIPE).returncode:
            self.skipTest("venv is not there (Debian: apt-get install python3-venv)")
        subprocess.run([place / "bin/pip", "install", "-q", "--no-index", self.folder / wheel], check=True)
        code = "import bufr; print(bufr.__file__, bufr.frame('synop.bufr', ['012101'], levels=False)['012101'].tolist())"
        environment = {name: value for name, value in os.environ.items() if name not in ("BUFR", "BUFR_LIBRARY", "PYTHONPATH")}
        words = [place / "bin/python", "-c", code]
        done = subprocess.run(words, cwd=TOP / "examples", env=environment, stdout=subprocess.PIPE, text=True)
        self.assertRegex(done.stdout, f"^{place}/.*/bufr.py .259.35, 282.55, 270.55.$")


class Docs(unittest.TestCase):
    def test_examples_in_docstrings(self):
        here = os.getcwd()
        os.chdir(TOP / "examples")
        self.addCleanup(os.chdir, here)
        names = {"bufr": bufr, "pandas": pandas, "Decimal": Decimal}
        for module in (bufr, bufr_parts):
            failed, count = doctest.testmod(module, extraglobs=names)
            self.assertEqual(failed, 0, module.__name__)
            self.assertGreater(count, 0)
        calls = [bufr.frame, bufr.items, bufr.levels, bufr.messages, bufr.pieces, bufr.rows, bufr.Items.exact, bufr.Items.frame]
        for call in calls:
            self.assertIn(">>> ", call.__doc__, call)
        for name in bufr.__all__:
            public = getattr(bufr, name)
            if callable(public) and name != "Cell":
                self.assertTrue(public.__doc__, name)


if __name__ == "__main__":
    os.environ["BUFR"] = random_trial.PROGRAM = lib.program()
    unittest.main(argv=[sys.argv[0], *sys.argv[2:]], failfast=True)
