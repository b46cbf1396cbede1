#!/usr/bin/env python3
"""Tests scripts/bufr_text.py: reading and writing dumps, the errors for invalid dumps (with line numbers and causes), rows
and levels, and running the program (with faults, offsets and failures).

    tests/bufr_text_module.py [PROGRAM]
"""
import contextlib
import csv
import io
import itertools
import os
import pathlib
import pickle
import random
import re
import shutil
import subprocess
import sys
import tempfile
import tracemalloc
import unittest
import unittest.mock
import warnings
from decimal import Decimal

import lib
from lib import TOP

sys.path[:0] = [str(TOP / "scripts"), str(TOP / "tests/hostile")]
import bufr_text
import random_messages

TABLES = lib.TABLES[1::2]
# These tables lack sequences and elements that some examples use.
OLD_TABLES = [table.replace("wmo-39", "wmo-13") for table in TABLES]
ONE = TOP / "tests/vectors/texts/one_block_number.txt"
TEXTS = sorted([*(TOP / "examples").glob("*.txt"), *(TOP / "tests/vectors/texts").glob("*.txt")])


def lines_of(path: pathlib.Path) -> list:
    return path.read_bytes().splitlines(True)


def written(messages) -> bytes:
    stream = io.BytesIO()
    bufr_text.write(messages, stream)
    return stream.getvalue()


def run(*words, **others) -> subprocess.CompletedProcess:
    return subprocess.run(words, stdout=subprocess.PIPE, stderr=subprocess.PIPE, **others)


def with_line(number: int, lines: bytes) -> bytes:
    """Returns a document with `lines` in place of the line with this number."""
    text = lines_of(ONE)
    return b"".join([*text[: number - 1], lines, *text[number:]])


# Common mistakes: line number, invalid line, reported cause. In ONE, line 22 lists the descriptors, and line 24 is an item.
MISTAKES = [
    (1, b"\xef\xbb\xbfmessage\n", "a byte order mark"),
    (1, (TOP / "examples/synop.bufr").read_bytes().partition(b"\n")[0] + b"\n", "BUFR data instead of a dump; to dump it, use bufr-auto"),
    (1, b"IUAA01 EGRR 120700\r\r\n", "BUFR data instead of a dump; to dump it, use bufr-auto"),
    (1, b"\x01\r\r\n", "BUFR data instead of a dump; to dump it, use bufr-auto"),
    (24, b"001001 10\r\n", "a carriage return at the end"),
    (24, b"> 001001 10\n", "a > from a quoted email"),
    (24, b"001001\t10\n", "a tab instead of a space"),
    (24, b" 001001 10\n", "a space at the beginning"),
    (25, b"message\n", "'message'; the previous document has no 'end' line"),
    (24, b"1001 10\n", "a descriptor with fewer than six digits"),
    (2, b"edition  4\n", "two spaces instead of one"),
    (22, b"descriptors  001001\n", "two spaces instead of one"),
    (24, b"001001  10  # NAME [UNIT]\n", "two spaces instead of one"),
    (24, b"001001 10# NAME\n", "no space before #"),
    (24, b'001015 "A"# NAME\n', "no space before #"),
    (24, b"012101 +282.55  # NAME [K]\n", "a plus sign before a number"),
    (24, b"012101 2.8e2\n", "an exponent in a number"),
    (24, b"012101 -1E-05\n", "an exponent in a number"),
    (24, b"012101 282,55  # NAME [K]\n", "a decimal comma"),
    (24, b"012101 NaN\n", "a value that is not a number; write MISSING for a missing value"),
    (24, b"012101 -inf\n", "a value that is not a number; write MISSING for a missing value"),
    (24, b"012101 missing  # NAME [K]\n", "MISSING in lower or mixed case"),
    (24, b"012101 missing  # A +B 2.8E2 NaN, A#B\n", "MISSING in lower or mixed case"),
    (24, b"012101 282.  # NAME [K]\n", "a decimal point that is not between two digits"),
    (24, b"012101 .5\n", "a decimal point that is not between two digits"),
    (24, b"012101\n", "no value; write MISSING for a missing value"),
    (24, b"012101 282.55 \n", "a space at the end"),
    (2, b"edition 4 # NOTE\n", "a comment, which is allowed only after an item"),
    (24, b'001015 "\\xc4"\n', "\\x not followed by two uppercase hexadecimal digits"),
    (24, b'001015 "\\xC"\n', "\\x not followed by two uppercase hexadecimal digits"),
    (24, b'001015 "B\xc3\x96BLINGEN"\n', "a byte that must be escaped as \\xHH in a string"),
    (24, b'001015 "a"b"\n', 'an unescaped " or \\ in a string, or no closing "'),
    (24, b'001015 "a\n', 'an unescaped " or \\ in a string, or no closing "'),
    (24, b"001015 HEATHROW\n", "a string without quotes"),
]
# Lines that `read` and `encode` must both accept or both reject.
ALIKE = [
    (23, b"subset 01\n"),
    (23, b"subset " + b"0" * 4000 + b"1\n"),
    (23, b"subset 0\n"),
    (23, b"subset 99999999999999999999\n"),
    (23, b"subset one\n"),
    (23, b"subset 1 # NOTE\n"),
    (2, b"edition " + b"0" * 4000 + b"4\n"),
    (4, b"centre -1\n"),
    (22, b"descriptors 063255\n"),
    (22, b"descriptors 064000\n"),
    (22, b"descriptors 001256\n"),
    (22, b"descriptors 099999\n"),
    (22, b"descriptors" + b" 001001" * 8 + b"\n"),
    (22, b"descriptors" + b" 001001" * 9 + b"\n"),
    (22, b"descriptors\n"),
    (22, b""),
    (22, b"local1 " + b"0f" * 32 + b"\ndescriptors 001001\n"),
    (22, b"local1 " + b"00" * 33 + b"\ndescriptors 001001\n"),
    (22, b"local1 \ndescriptors 001001\n"),
    (22, b"section2 00\ndescriptors 001001\n"),
    (24, b"099999 1\n"),
    (24, b"363255 1\n"),
    (24, b"001001 " + b"9" * 4089 + b"\n"),
    (24, b"001001 -0\n"),
    (24, b"001001 0010\n"),
    (24, b"001001 10 #" + b"x" * 4085 + b"\n"),
    (24, b"001001 10 #" + b"x" * 4086 + b"\n"),
    (24, b"#" * 4096 + b"\n001001 10\n"),
    (24, b"#" * 4097 + b"\n001001 10\n"),
    (24, b"R 001001 MISSING\n"),
    (24, b"  \n001001 10\n"),
    (24, b"001001 10 # NOTE\r\n"),
    (24, b"001001 10 #\0\xff\n"),
    (24, b"001001 10\nsubset 2\n001001 10\n"),
    (24, b"message\n"),
    (25, b"end"),
    (25, b"end\n\n# NOTE\n"),
    (25, b"end\nnote\n"),
    (25, b""),
]


class Texts(unittest.TestCase):
    def test_dumps_are_written_as_they_were_read(self):
        # Handwritten documents use other spellings and lack comments.
        dumps = [path for path in TEXTS if not path.name.startswith("document_")]
        self.assertGreater(len(dumps), 30)
        for path in dumps:
            with self.subTest(path.name):
                self.assertEqual(written(bufr_text.read(lines_of(path))), path.read_bytes())

    def test_values(self):
        [message] = bufr_text.read(lines_of(TOP / "examples/synop.txt"))
        self.assertEqual(len(message.subsets), 3)
        self.assertEqual(message.header["year"], 2023)
        self.assertEqual(message.descriptors, ["307080"])
        self.assertEqual((message.local1, message.section2), (b"", None))
        subset = message.subsets[1]
        air = bufr_text.find(subset, "012101")
        self.assertEqual(air, bufr_text.Item("012101", Decimal("282.55"), "TEMPERATURE/AIR TEMPERATURE", "K"))
        self.assertEqual(bufr_text.find(subset, "001015").value, b"HEATHROW".ljust(20))
        self.assertIsNone(bufr_text.find(message.subsets[0], "010009").value)
        self.assertIsNone(bufr_text.find(subset, "012101", 99))
        self.assertIsNone(bufr_text.find(subset, "012104"))
        self.assertEqual(bufr_text.find(subset, "020012", 2), [item for item in subset if item.fxy == "020012"][1])

    def test_rarer_lines(self):
        vectors = TOP / "tests/vectors/texts"
        [message] = bufr_text.read(lines_of(vectors / "local_use_sections.txt"))
        self.assertEqual((message.local1, message.section2), (b"\xab\xcd", b"\x01\x02"))
        [message] = bufr_text.read(lines_of(vectors / "inserted_text.txt"))
        self.assertEqual(message.subsets, [[bufr_text.Item("205004", b'"\\\n\xfe')]])
        [message] = bufr_text.read(lines_of(vectors / "redefined_reference.txt"))
        self.assertEqual(message.subsets[0][0], bufr_text.Item("012101", Decimal(-400), reference=True))
        self.assertEqual(bufr_text.find(message.subsets[0], "012101").value, Decimal("284.15"))

    def test_passed_over(self):
        text = (TOP / "examples/synop.txt").read_bytes()
        loose = (
            b"# a note\n\n"
            + text.replace(b"subset 1\n", b"\n# another\nsubset 1\n").replace(b"  # WMO", b" # WMO")[:-1]
        )
        self.assertEqual(written(bufr_text.read(io.BytesIO(loose))), text)

    def test_faults_name_their_line(self):
        text = lines_of(TOP / "tests/vectors/texts/one_block_number.txt")
        for number, line in [
            (1, b"messages\n"),
            (2, b"editions 4\n"),
            (2, b"edition x\n"),
            (2, b"centre 98\n"),
            (20, b"optional 2\n"),
            (22, b"descriptors 0010\n"),
            (22, b"local1 0\n"),
            (22, b"section2 00\n"),
            (23, b"subset 2\n"),
            (24, b"001001 x\n"),
            (24, b"001001 1.\n"),
            (24, b"001001 10 x\n"),
            (24, b'001015 "a"b"\n'),
            (24, b'001015 "\\n"\n'),
            (24, b"R 001001 MISSING\n"),
            (24, b'001015 "\xc4"\n'),
            (24, b"901001 10\n"),
            (25, b"message\n"),
        ]:
            with self.subTest(line):
                with self.assertRaises(bufr_text.TextError) as told:
                    list(bufr_text.read([*text[: number - 1], line, *text[number:]]))
                self.assertEqual(told.exception.line, number)
        for cut in range(1, len(text)):
            with self.assertRaises(bufr_text.TextError) as told:
                list(bufr_text.read(text[:cut]))
            self.assertEqual(told.exception.line, cut + 1)
        more = [line.replace(b"subsets 1", b"subsets 2") for line in text]
        with self.assertRaises(bufr_text.TextError):
            list(bufr_text.read(more))

    def test_faults_name_their_cause(self):
        for number, line, cause in MISTAKES:
            with self.subTest(line[:60]):
                with self.assertRaises(bufr_text.TextError) as told:
                    list(bufr_text.read(io.BytesIO(with_line(number, line))))
                self.assertEqual(told.exception.line, number)
                self.assertTrue(str(told.exception).endswith(f", found {cause}"), told.exception)
                done = run(lib.program(), "encode", *lib.TABLES, input=with_line(number, line))
                self.assertRegex(done.stderr.decode(), f"^line {number}: 5[012] ")
        with self.assertRaisesRegex(bufr_text.TextError, "^line 24: expected an item$"):  # the cause is unknown
            list(bufr_text.read(io.BytesIO(with_line(24, b"001001 10 x\n"))))
        with self.assertRaisesRegex(bufr_text.TextError, "^line 25: expected an item, 'subset' or 'end', found the end of the"):
            list(bufr_text.read(lines_of(ONE)[:24]))
        told = {cause for _, _, cause in MISTAKES}
        self.assertEqual(told, {cause for _, cause in bufr_text._CAUSES})

    def test_encode_takes_and_refuses_the_same_lines(self):
        for number, lines in ALIKE:
            with self.subTest(lines[:60]):
                text, refused = with_line(number, lines), ""
                try:
                    list(bufr_text.read(io.BytesIO(text)))
                except bufr_text.TextError as error:
                    refused = f"line {error.line}: 5"
                told = run(lib.program(), "encode", *lib.TABLES, input=text).stderr.decode()
                told = re.sub(r"^(line \d+: 5)[07] .*\n", r"\1", told)
                # `read` does not check for the errors that faults 51 to 56 report.
                self.assertEqual(refused, "" if re.search(r": 5[1-6] ", told) else told)

    def test_names_may_be_of_any_octets(self):
        text = with_line(24, b"001001 10  # T\xc3\xa9 \xdf [\xb0C]\n")
        [message] = bufr_text.read(io.BytesIO(text))
        item = message.subsets[0][0]
        self.assertEqual((item.name, item.unit), ("T\xe9 \udcdf", "\udcb0C"))
        self.assertEqual(written([message]), text)

    def test_a_name_or_a_unit_may_be_missing(self):
        [message] = bufr_text.read(lines_of(ONE))
        for name, unit, comment in [("N", None, b"  # N []"), (None, "K", b"  #  [K]"), (None, None, b"")]:
            message.subsets[0] = [bufr_text.Item("001001", Decimal(10), name, unit)]
            self.assertIn(b"\n001001 10" + comment + b"\n", written([message]))

    def test_an_empty_section_2_is_present(self):
        [message] = bufr_text.read(lines_of(ONE))
        for section2, optional in (None, 0), (b"", 1), (b"a", 1):
            message.section2 = section2
            self.assertEqual(list(bufr_text.rows([message], [], ["optional"])), [(optional,)])

    def test_values_that_cannot_be_written(self):
        [message] = bufr_text.read(lines_of(ONE))
        for value, error in [
            (10.0, TypeError),
            (10, TypeError),
            ("10", TypeError),
            (Decimal("NaN"), ValueError),
            (Decimal("Infinity"), ValueError),
        ]:
            message.subsets[0][0].value = value
            with self.assertRaises(error):
                written([message])
        for value, line in [
            (Decimal("1E+3"), b"001001 1000 "),
            (Decimal("-1E-3"), b"001001 -0.001 "),
            (b"", b'001001 "" '),
        ]:
            message.subsets[0][0].value = value
            self.assertIn(b"\n" + line, written([message]))

    def test_a_long_text_is_read_message_by_message(self):
        text = lines_of(TOP / "examples/synop.txt")
        tracemalloc.start()
        count = sum(
            len(message.subsets)
            for message in bufr_text.read(itertools.chain.from_iterable(itertools.repeat(text, 100)))
        )
        _, peak = tracemalloc.get_traced_memory()
        tracemalloc.stop()
        self.assertEqual(count, 300)
        self.assertLess(peak, 2_000_000)
        # Nothing after the first message is read until the next one is requested.
        self.assertEqual(len(next(bufr_text.read([*text, b"nonsense\n"])).subsets), 3)


class Tables(unittest.TestCase):
    def test_rows_are_those_of_table_awk(self):
        columns = ["001001", "001015", "012101", "012101:2", "020012:2", "031001", "205004", "012104"]
        header, passed = [*bufr_text.HEADER, "optional", "subsets"], 0
        for path in TEXTS:
            with self.subTest(path.name):
                words = ["awk", "-v", "columns=" + ",".join([*header, *columns]), "-f", TOP / "scripts/table.awk", path]
                done = run(*words)
                _, *wanted = csv.reader(done.stdout.decode().splitlines())
                with warnings.catch_warnings(record=True) as told:
                    warnings.simplefilter("always")
                    try:
                        rows = list(bufr_text.rows(bufr_text.read(lines_of(path)), columns, ["message", "subset", *header]))
                    except bufr_text.TextError:
                        continue  # this text is deliberately invalid, to test `encode`
                self.assertEqual(self.alike(rows), self.alike(wanted))
                # If there are no subsets, table.awk also reports that the header columns are empty.
                self.assertEqual(self.notes(told), done.stderr.decode().splitlines() if rows else [])
                passed += len(rows)
        self.assertGreater(passed, 100)

    def notes(self, told: list) -> list:
        """Returns the warnings in table.awk's wording, except those that table.awk does not print."""
        texts = [f"table.awk: {one.message}" for one in told if "all of its values are missing" not in str(one.message)]
        texts = [text.replace("use bufr.items or bufr_text.dump", "run table.awk without levels= or columns=") for text in texts]
        several = r"to get its first value, pass keep=\['(\d+)'\]; to get all of its values, .*"
        return [re.sub(several, r"to get its first two values, pass -v keep=\1,\1:2", text) for text in texts]

    def alike(self, rows) -> list:
        """Returns the cells of a table as strings, with each number in a uniform notation."""
        cells = [["" if cell is None else str(cell) for cell in row] for row in rows]
        return [[str(float(cell)) if re.fullmatch(r"-?[\d.]+", cell) else cell for cell in row] for row in cells]

    def test_small_and_large_numbers(self):
        for text, wanted in [
            ("0.0000003", 3e-7),
            ("-0.0000001", -1e-7),
            ("0.00000030", 3e-7),
            ("0." + "0" * 126 + "1", 1e-127),
            ("0.0000000", 0.0),
            ("0.0", 0.0),
            ("0", 0),
            ("1000000", 1000000),
            ("9" + "0" * 127, 9 * 10**127),
            (str((1 << 127) - 1), (1 << 127) - 1),
            (str(-(1 << 127)), -(1 << 127)),
            ("17014118346046923173168730371588410572.7", 1.7014118346046923e37),
            ("MISSING", None),
        ]:
            lines = f"031001 1\n012101 {text}\n".encode()
            messages = [*bufr_text.read(io.BytesIO(with_line(24, lines)))]
            with warnings.catch_warnings(record=True) as told:
                warnings.simplefilter("always")
                for call in (bufr_text.rows, bufr_text.levels):
                    [[cell]] = call(messages, ["012101"])
                    self.assertEqual((cell, type(cell)), (wanted, type(wanted)), text)
            said = ["column 012101 is empty because all of its values are missing"] * (wanted is None)
            self.assertEqual([str(one.message) for one in told], said * 2)

    def test_rows(self):
        rows = bufr_text.rows(TOP / "examples/synop.bufr", ["001015", "001002", "012101", "010009"], ["offset", "year"])
        self.assertEqual(next(rows), (0, 2023, "SODANKYLA", 836, 259.35, None))
        self.assertIsInstance(next(rows)[3], int)
        with warnings.catch_warnings():
            warnings.simplefilter("ignore")
            with contextlib.redirect_stderr(io.StringIO()):
                rows = list(bufr_text.rows(TOP / "examples/bulletins.bufr", [], ["offset", "length", "subset"]))
        self.assertEqual(rows[-3:], [(139, 50, 1), (139, 50, 2), (238, 56, 1)])
        for columns, header in [(["1015"], []), ([""], []), (["064001"], []), (["012101:0"], []), (["012101"], ["place"])]:
            with self.assertRaises(ValueError):
                bufr_text.rows([], columns, header)
            with self.assertRaises(ValueError):
                bufr_text.levels([], columns, header)
        with self.assertRaises(ValueError):
            bufr_text.levels([], ["012101"], keep=["012101:2"])

    def test_a_column_by_name_is_answered_with_numbers(self):
        said = "expected a descriptor such as 012101, found 'AIR TEMPERATURE', which occurs in the names of "
        for call in (bufr_text.rows, bufr_text.levels):
            with self.assertRaisesRegex(ValueError, "^expected a descriptor such as 012101, found '1015'; write '001015'$"):
                call([], ["1015"])
            for word in ("AIR TEMPERATURE", "air temperature"):
                with self.assertRaises(ValueError) as error:
                    call(TOP / "examples/synop.bufr", ["001015", word])
                self.assertEqual(str(error.exception), said.replace("AIR TEMPERATURE", word) + "012001, 012101, 012004, 012104, 040069")
        for word in ("airTemperature", "", "012101:0"):
            with self.assertRaises(ValueError) as error:
                bufr_text.rows([], [word])
            self.assertEqual(str(error.exception), f"expected a descriptor such as 012101, found '{word}'")
        with self.assertRaisesRegex(ValueError, "the header has no key 'place'; the keys are edition, master,"):
            bufr_text.rows([], [], ["place"])
        message = next(iter(bufr_text.dump(TOP / "examples/synop.bufr")))
        message.header["center"] = 98
        with self.assertRaisesRegex(ValueError, "the header has no key 'center'; the keys are edition, master, centre"):
            bufr_text.encode([message])
        self.addCleanup(os.environ.pop, "BUFR_TABLES")
        with tempfile.TemporaryDirectory() as without_tables:
            pathlib.Path(without_tables, "wmo-39").mkdir()
            for place in ("/nosuch", without_tables):
                os.environ["BUFR_TABLES"] = place
                with self.assertRaisesRegex(ValueError, "found 'AIR TEMPERATURE'$"):
                    bufr_text.rows([], ["AIR TEMPERATURE"])
            with unittest.mock.patch("os.listdir", side_effect=PermissionError):
                with self.assertRaisesRegex(ValueError, "found 'AIR TEMPERATURE'$"):
                    bufr_text.rows([], ["AIR TEMPERATURE"])
            # Rows that are too short are ignored, and so is a table with a different header.
            table = pathlib.Path(without_tables, "wmo-39/B.csv")
            pathlib.Path(without_tables, "wmo-39/D.csv").touch()
            for text, told in (
                ("fxy,name,unit\nshort\n001001,Old air temperature,K\n012101,Air temperature,K\n", ", which occurs in the names of 012101, 001001"),
                ("fxy,name,unit\n012101,Air temperature,K\n", ", which occurs in the name of 012101"),
                ("fxy,unit\n012101,K\n", ""),
                ("", ""),
            ):
                table.write_text(text)
                with self.assertRaisesRegex(ValueError, f"found 'AIR TEMPERATURE'{told}$"):
                    bufr_text.rows([], ["AIR TEMPERATURE"])

    def test_levels_are_those_of_table_awk(self):
        texts = [(TOP / f"examples/{name}.txt").read_bytes() for name in ("sounding", "synop", "buoys")]
        chance = random.Random(1)
        texts += [document(chance) for _ in range(60)]
        # Two or three passes that begin and end with the same descriptor.
        enclosed = b"031001 %d\n" + b"008002 1\n020011 2\n008002 MISSING\n" * 3
        texts += [with_line(24, enclosed % passes) for passes in (2, 3)]
        texts.append(with_line(24, b"031001 MISSING\n007004 1\n"))
        texts.append(with_line(24, b"031001 3\n" + b"007004 1\n007004 2\n031001 1\n011001 3\n" * 3))
        # Nested groups, then a group with no passes, then another group.
        texts.append(with_line(24, b"031001 2\n" + b"007004 1\n031001 1\n011001 3\n" * 2 + b"031001 0\n031001 1\n007004 5\n012101 6\n"))
        lists = [("001015", "007004,012101,012103"), ("001001", "007004"), ("007004", "012101,007004"), ("", "020012,020011"), ("", "008002")]
        unclear, count = 0, 0
        for keep, columns in lists:
            words = ["awk", "-v", "levels=1", "-v", f"keep=year,{keep}".strip(","), "-v", f"columns={columns}", "-f"]
            done = run(*words, TOP / "scripts/table.awk", input=b"".join(texts))
            _, *wanted = csv.reader(done.stdout.decode().splitlines())
            with warnings.catch_warnings(record=True) as told:
                warnings.simplefilter("always")
                messages = bufr_text.read(io.BytesIO(b"".join(texts)))
                names = columns.split(","), ["message", "subset", "year"], keep.split() 
                rows = list(bufr_text.levels(messages, *names))
            self.assertEqual(self.alike(rows), self.alike(wanted))
            count += len(rows)
            self.assertEqual(self.notes(told), done.stderr.decode().splitlines())
            self.assertEqual({one.filename for one in told}, {__file__})
            unclear += done.returncode
        self.assertGreater(count, 100)
        self.assertGreater(unclear, 0)
        said = r"^skipped a subset with ambiguous levels: message 1, subset 1 \(008002 begins a level and occurs again in it\); "
        said += "to get its items, use bufr.items or bufr_text.dump$"
        with self.assertWarnsRegex(bufr_text.DumpWarning, said):
            list(bufr_text.levels(bufr_text.read(io.BytesIO(texts[-5])), ["020011"]))
        with warnings.catch_warnings():
            warnings.simplefilter("error")
            self.assertEqual(len(list(bufr_text.levels(bufr_text.read(io.BytesIO(texts[0])), ["007004"]))), 29)


def document(chance: random.Random) -> bytes:
    """Returns a document whose only subset contains random nested groups."""

    def group(depth: int) -> list:
        some = [b"007004", b"012101", b"001001", b"002002", b"020012", b"020011"]
        kinds = [depth < 2 and chance.random() < 0.3 for _ in range(chance.randint(1, 4))]
        return [group(depth + 1) if inner else chance.choice(some) for inner in kinds]

    def lines(members: list):
        for member in members:
            if isinstance(member, list):
                passes = chance.randint(0, 3)
                yield b"03100%d %d\n" % (chance.randint(0, 2), passes)
                for _ in range(passes):
                    yield from lines(member)
            else:
                numbers = [b" %d\n" % chance.randint(0, 99), b" 0.0000003\n", b" -0.%d\n" % chance.randint(0, 99)]
                yield member + chance.choice([*numbers, b" MISSING\n", b" 1\nR 012101 5\n\n#\n"])

    return with_line(24, b"".join(lines(group(0))))


class Runs(unittest.TestCase):
    def setUp(self):
        place = tempfile.TemporaryDirectory()
        self.addCleanup(place.cleanup)
        self.folder = pathlib.Path(place.name)
        # All examples, with strays between them and at the end.
        paths = sorted((TOP / "examples").glob("*.bufr"), key=lambda path: path.stem != "sounding")
        self.octets = b"".join(path.read_bytes() + b"BUFR\0\0\1" for path in paths)
        self.stream = self.folder / "stream"
        self.stream.write_bytes(self.octets)

    def test_a_file_is_dumped(self):
        for tables in (TABLES, []):
            [message] = bufr_text.dump(TOP / "examples/synop.bufr", *tables)
            self.assertEqual(written([message]), (TOP / "examples/synop.txt").read_bytes())
            # The message must equal the one read from its dump, even though the latter has no offset.
            self.assertEqual([message], list(bufr_text.read(lines_of(TOP / "examples/synop.txt"))))

    def test_faults_and_places(self):
        done = run(lib.program(), "dump", *[f"-{word}{table}" for word, table in zip("BD", OLD_TABLES)], self.stream)
        faults = []
        messages = list(bufr_text.dump(self.stream, *OLD_TABLES, faults))
        self.assertEqual(written(messages), done.stdout)
        self.assertEqual([f"{fault.line()}\n" for fault in faults], done.stderr.decode().splitlines(True))
        self.assertIn((701, 21, "unknown sequence 315008", str(self.stream)), faults)
        # Each message is also dumped separately.
        listed = re.findall(rb"^offset=(\d+) length=(\d+) ", run(lib.program(), "ls", self.stream).stdout, re.M)
        listed = [(int(offset), int(length)) for offset, length in listed]
        refused = {fault.offset for fault in faults}
        self.assertEqual(len(listed) - len(messages), 2)
        wanted = []
        for offset, length in listed:
            alone = self.folder / "alone"
            alone.write_bytes(self.octets[offset : offset + length])
            told = []
            wanted += [(offset, length, written([one])) for one in bufr_text.dump(alone, *OLD_TABLES, told)]
            self.assertEqual(bool(told), offset in refused)
        self.assertEqual([(one.offset, one.length, written([one])) for one in messages], wanted)
        told = []
        places = list(bufr_text.listing(self.stream, told))
        self.assertEqual([(place.offset, place.length) for place in places], listed)
        self.assertEqual(told, [fault for fault in faults if fault.offset not in dict(listed)])
        last, told = places[-3:], []
        some = bufr_text.dump(self.stream, *OLD_TABLES, told, places=last)
        self.assertEqual([one.offset for one in some], [one.offset for one in messages if one.offset >= last[0].offset])
        self.assertEqual(told, [fault for fault in faults if fault.offset in dict(listed[-3:])])
        [read] = bufr_text.read(lines_of(TOP / "examples/synop.txt"))
        self.assertEqual((read.offset, read.length), (None, None))

    def test_a_listing_has_the_numbers_of_the_header(self):
        self.stream.write_bytes(self.octets + b"".join(random_messages.message(number).octets for number in range(40)))
        messages = list(bufr_text.dump(self.stream, *TABLES, []))
        places = list(bufr_text.listing(self.stream, []))
        self.assertEqual([place.offset for place in places], [message.offset for message in messages])
        self.assertEqual({place.edition for place in places}, {3, 4})
        for place, message in zip(places, messages):
            header = {**message.header, "offset": message.offset, "length": message.length}
            header.update(subsets=len(message.subsets), optional=int(message.section2 is not None))
            self.assertEqual(place._asdict(), {**header, "descriptors": len(message.descriptors)})
        [synop] = bufr_text.listing(TOP / "examples/synop.bufr")
        self.assertEqual((synop.centre, synop.subcategory, synop.masterversion, synop.year), (78, 2, 39, 2023))
        land = [place for place in places if place.category == 0]
        self.assertEqual([place.offset for place in land], [one.offset for one in messages if one.header["category"] == 0])

    def test_where_takes_what_bufr_extract_takes(self):
        self.stream.write_bytes(self.octets + b"".join(random_messages.message(number).octets for number in range(40)))
        texts = set()
        for where in [
            ["category=0"],
            ["category=0/2"],
            ["category=0/2/0"],
            ["category!=0"],
            ["category!=0", "centre=74,98"],
            ["centre=74/0,86/0,7"],
            ["centre!=74,86,98"],
            ["time=2023"],
            ["time=2023-03-14T18", "subsets=3"],
            ["time=2023,2024-01-02,0006-03"],
            ["time!=2023"],
            ["length=595,694,48"],
            ["offset=0"],
            ["offset!=0", "edition=4", "update=0", "observed=1", "compressed=0", "optional=0", "descriptors=1"],
            ["tables=0/39/0"],
            ["edition=3", "edition=4"],
        ]:
            with self.subTest(where):
                done = run(sys.executable, TOP / "scripts/bufr-extract", *where, self.stream)
                self.assertIn(done.returncode, (0, 1))
                wanted = run(lib.program(), "dump", *lib.TABLES, input=done.stdout).stdout
                # The log records the input of `bufr dump`.
                log = self.folder / "log"
                log.write_bytes(b"")
                self.use_program(f'[ "$1" = dump ] || exec "$REAL" "$@"; tee -a "{log}" | "$REAL" "$@"')
                faults = []
                with warnings.catch_warnings(record=True) as told:
                    warnings.simplefilter("always")
                    messages = list(bufr_text.dump(self.stream, *TABLES, faults, where=where))
                self.assertEqual(written(messages), wanted)
                self.assertEqual(log.read_bytes(), done.stdout)
                os.environ["BUFR"] = lib.program()
                lines = "".join(f"{fault.line()}\n" for fault in faults)
                # bufr-extract does not print this warning, because its users notice at once that there is no output.
                told = [one for one in told if str(one.message) != "no messages match the conditions in where="]
                notes = "".join(f"bufr-extract: {note.message}\n".replace(f"{self.stream}: ", "") for note in told)
                self.assertEqual(lines + notes, done.stderr.decode())
                texts.add(wanted)
        self.assertGreater(len(texts), 10)
        self.assertIn(b"", texts)

    def test_where_of_rows_and_levels(self):
        [land] = bufr_text.dump(self.stream, *TABLES, [], where=["category=0/2"])
        faults = []
        rows = list(bufr_text.rows(self.stream, ["001015"], ["offset"], faults, ["category=0/2"]))
        self.assertEqual(rows, [(land.offset, "SODANKYLA"), (land.offset, "HEATHROW"), (land.offset, "SAENTIS")])
        # Messages that do not meet the condition cause no faults.
        strays = []
        list(bufr_text.listing(self.stream, strays))
        self.assertEqual((faults, len(strays)), (strays, 9))
        faults = []
        levels = list(bufr_text.levels(self.stream, ["007004"], ["offset"], faults=faults, where=["category=2"]))
        self.assertEqual((len(levels), {offset for offset, _ in levels}, faults), (29, {0}, strays))
        told = "^skipped 25 subsets without levels; the first is subset 1 of the message at offset 701$"
        with self.assertWarnsRegex(bufr_text.DumpWarning, told):
            self.assertEqual(levels, list(bufr_text.levels(bufr_text.dump(self.stream, faults=[]), ["007004"], ["offset"])))
        for call in (bufr_text.rows, bufr_text.levels):
            for given in ({"faults": []}, {"where": ["category=0"]}):
                with self.assertRaisesRegex(TypeError, r"pass these arguments to dump\(\) instead"):
                    call([land], ["012101"], **given)

    def test_messages_left_out_by_their_year_are_warned_of(self):
        with self.assertWarnsRegex(bufr_text.DumpWarning, f"^{self.stream}: left out 1 edition 3 message, .* use time=2006,0006$"):
            self.assertEqual(list(bufr_text.dump(self.stream, *TABLES, [], where=["time=2006"])), [])
        [one] = bufr_text.dump(self.stream, *TABLES, [], where=["time=2006,0006"])
        self.assertEqual((one.header["edition"], one.header["year"]), (3, 6))

    def test_invalid_conditions(self):
        for where in ["categori=0"], ["category=land"], ["category="], ["category=0,"], ["Category=0"], ["category"], [""], ["--awk"], "edition=4":
            for call in (bufr_text.dump, lambda file, where: bufr_text.rows(file, ["012101"], where=where)):
                with self.subTest(where), self.assertRaises(ValueError):
                    call(self.stream, where=where)
        with self.assertRaisesRegex(ValueError, "unknown key 'categori' in 'categori=0'; the keys are offset length"):
            bufr_text.dump(self.stream, where=["categori=0"])
        with self.assertRaises(TypeError):
            bufr_text.dump(self.stream, places=[], where=["category=0"])

    def test_faults_are_there_before_the_message_behind_them(self):
        # The stream is long enough to be read in several parts.
        one = (TOP / "examples/buoys.bufr").read_bytes()
        piece = one * 700 + b"BUFR" + (TOP / "examples/synop.bufr").read_bytes()
        self.stream.write_bytes(piece * 3)
        faults, passed = [], 0
        for message in bufr_text.dump(self.stream, *OLD_TABLES, faults):
            self.fail("version 13 has neither")
        self.assertEqual(len(faults), 3 * 702)
        self.assertEqual(sorted(faults), faults)
        faults = []
        for message in bufr_text.dump(self.stream, *TABLES, faults):
            self.assertEqual(len(faults), (message.offset + 1) // len(piece) + (message.offset % len(piece) > 700 * len(one)))
            passed += 1
        self.assertEqual(passed, 3 * 701)
        strays = []
        for place in bufr_text.listing(self.stream, strays):
            self.assertEqual(strays, [one for one in faults if one.offset < place.offset])

    def test_refused_messages_are_warned_of(self):
        for tables in (TABLES, OLD_TABLES):
            told = io.StringIO()
            with self.assertWarns(bufr_text.DumpWarning) as warned, contextlib.redirect_stderr(told):
                messages = list(bufr_text.dump(self.stream, *tables))
            lines = told.getvalue().splitlines()
            refused = [line for line in lines if re.match(r"offset \d+: \d\d", line)]
            text = f"{self.stream}: rejected {len(refused)} message{'s' * (len(refused) > 1)} and skipped {len(lines) - len(refused)} strays "
            text += f"(the word BUFR where no complete message begins); the first fault is at {lines[0]}; to get all faults, "
            self.assertEqual(str(warned.warning)[: len(text)], text)
            self.assertEqual(warned.filename, __file__)
        self.stream.write_bytes((TOP / "examples/synop.bufr").read_bytes() + b"BUFR")
        told = r"skipped 1 stray \(the word BUFR where no complete message begins\) at offset 595: 1 cut; to get all faults, "
        with self.assertWarnsRegex(bufr_text.DumpWarning, f"^{self.stream}: {told}"):
            with contextlib.redirect_stderr(io.StringIO()):
                list(bufr_text.dump(self.stream, *TABLES))
        with warnings.catch_warnings():
            warnings.simplefilter("error")
            list(bufr_text.dump(TOP / "examples/synop.bufr", *TABLES))
            list(bufr_text.dump(self.stream, *TABLES, []))

    def test_faults_are_not_printed_as_output_without_errors(self):
        code = "import sys; sys.path.insert(0, sys.argv[1]); sys.stderr = None; import bufr_text\n"
        code += "print(len(list(bufr_text.dump(*sys.argv[2:]))))"
        done = run(sys.executable, "-c", code, TOP / "scripts", self.stream, *TABLES)
        self.assertEqual((done.returncode, done.stdout, done.stderr), (0, b"9\n", b""))

    def test_notes_of_tables_are_warnings(self):
        text = (TOP / "examples/synop.txt").read_bytes().replace(b"masterversion 39", b"masterversion 45")
        later = bufr_text.encode(bufr_text.read(io.BytesIO(text)), *TABLES)
        with self.assertWarnsRegex(bufr_text.DumpWarning, "table version 45 is later than that of the table set wmo-39") as warned:
            self.assertEqual(bufr_text.encode(bufr_text.read(io.BytesIO(text))), later)
        self.assertEqual(warned.filename, __file__)
        self.stream.write_bytes(self.octets + later * 2)
        with self.assertWarns(bufr_text.DumpWarning) as warned:
            list(bufr_text.dump(self.stream, faults=[]))
        wanted = f"{self.stream}: 2 messages, the first at offset {len(self.octets)}: table version 45 is later than that of the table set wmo-39"
        self.assertEqual(str(warned.warning).partition(";")[0], wanted)

    def test_what_a_program_tells_beside_faults_is_a_warning(self):
        self.use_program('[ "$1" = ls ] || { echo $$ >&2; printf "strange\\377\\n" >&2; }; exec "$REAL" "$@"')
        self.stream.write_bytes((TOP / "examples/synop.bufr").read_bytes())
        with warnings.catch_warnings(record=True) as told:
            warnings.simplefilter("always")
            self.assertEqual(len(list(bufr_text.dump(self.stream, *TABLES))), 1)
        self.assertEqual(str(told[1].message), f"{self.stream}: 1 message, at offset 0: strange\ufffd")
        with self.assertWarnsRegex(bufr_text.DumpWarning, "^strange\ufffd$"):
            bufr_text.encode([], *TABLES)
        # The number of distinct notes is limited, which bounds memory use.
        seen = bufr_text._Told(self.stream, None)
        for number in range(5000):
            seen.of_part(b"note %d\n" % number, [bufr_text.Listed(0, 48, *[0] * 21)])
        self.assertEqual((len(seen.notes), seen.notes[b"other notes"]), (1001, [4000, 0]))

    def test_parts_are_at_least_as_long_as_asked_for(self):
        places = [bufr_text.Listed(100 * number, 100, *[0] * 21) for number in range(5)]
        for octets, lengths in [(1, [1] * 5), (100, [1] * 5), (101, [2, 2, 1]), (200, [2, 2, 1]), (500, [5]), (501, [5])]:
            found = list(bufr_text.parts(iter(places), octets))
            self.assertEqual(([len(part) for part in found], sum(found, [])), (lengths, places))
        self.assertEqual(list(bufr_text.parts([])), [])

    def test_a_file_without_a_message_is_warned_of(self):
        web = b"<html>BUFR</html>" * 20
        for octets, told in [(b"", ": it is empty"), (b"\x1f\x8b\0", ": it looks like gzip data (use zcat)"), (b"\0", "")]:
            self.stream.write_bytes(octets)
            for call, words in ((bufr_text.dump, TABLES), (bufr_text.dump, []), (bufr_text.listing, [])):
                with self.assertWarns(bufr_text.DumpWarning) as warned:
                    self.assertEqual(list(call(self.stream, *words)), [])
                self.assertEqual(str(warned.warning), f"{self.stream}: the file contains no messages{told}")
        self.stream.write_bytes(web)
        with warnings.catch_warnings(record=True) as told, contextlib.redirect_stderr(io.StringIO()):
            warnings.simplefilter("always")
            list(bufr_text.dump(self.stream))
        wanted = ["the file contains no messages: it looks like HTML", "skipped 20 strays (the word BUFR where no complete message begins)"]
        self.assertEqual([str(one.message).partition("; ")[0] for one in told], [f"{self.stream}: {text}" for text in wanted])

    def test_failures_are_told(self):
        for call in (bufr_text.dump, bufr_text.listing):
            with self.assertRaises(FileNotFoundError):
                list(call(self.folder / "nosuch"))
        for tables, told in ([TABLES[1], TABLES[0]], "table B: 40 header"), (["nosuch", TABLES[1]], "cannot open .*nosuch"):
            with self.assertRaisesRegex(bufr_text.RunError, told) as error:
                list(bufr_text.dump(self.stream, *tables, []))
            self.assertEqual(error.exception.status, 2)
        for call in (bufr_text.dump, lambda *words: bufr_text.encode([], *words[1:])):
            for tables in ([TABLES[0]], [None, TABLES[1]]):
                with self.assertRaises(TypeError):
                    call(self.stream, *tables)
        with self.assertRaises(ValueError):
            bufr_text.encode([], *TABLES, form="small")
        for script, told, status in [
            ("kill -9 $$", "was killed .signal 9.", -9),
            ('[ "$1" = ls ] || exec > /dev/full; exec "$REAL" "$@"', "71 write failed$", 2),
            ("exit 7", "exited with status 7", 7),
            ('[ "$1" = ls ] && exec "$REAL" "$@"; printf "offset 0: 1 cut\\nstrange\\377\\nlines\\n" >&2; exit 2', "^strange\ufffd\nlines$", 2),
            ("exit 1", "exited with status 1", 1),
            ('[ "$1" = ls ] && exec "$REAL" "$@"; exit 1', "exited with status 1", 1),
            ("echo nonsense", "and bufr_text have different versions", 2),
            ('[ "$1" = ls ] && exec "$REAL" "$@" | sed "s/ .*/ /"', "and bufr_text have different versions", 2),
            ('[ "$1" = dump ] || exec "$REAL" "$@"', "did not dump the message at offset 0", 2),
            ('[ "$1" = ls ] && exec "$REAL" "$@"; kill -9 $$', "was killed .signal 9.", -9),
            ('[ "$1" = ls ] && "$REAL" "$@" | sed s/length=694/length=9999999/', "at offset 0 is now incomplete", 2),
        ]:
            self.use_program(script)
            with self.subTest(script), self.assertRaisesRegex(bufr_text.RunError, told) as error:
                list(bufr_text.dump(self.stream, *TABLES, []))
            self.assertEqual(error.exception.status, status)

    def test_a_folder_is_no_program(self):
        shutil.copy(TOP / "scripts/bufr_text.py", self.folder)
        (self.folder / "bufr").mkdir()
        code = "import bufr_text; print(bufr_text._bufr())"
        environment = {name: value for name, value in os.environ.items() if name != "BUFR"}
        done = run(sys.executable, "-c", code, cwd=self.folder, env=environment)
        self.assertEqual(done.stdout, b"bufr\n", done.stderr)

    def test_a_full_disk_is_named(self):
        self.use_program("exit 2")
        with unittest.mock.patch("shutil.disk_usage") as usage:
            usage.return_value.free = 0
            with self.assertRaisesRegex(bufr_text.RunError, f"exited with status 2: {tempfile.gettempdir()} is full$"):
                list(bufr_text.dump(self.stream, *TABLES, []))

    def test_errors_go_from_one_process_to_another(self):
        for error in (bufr_text.RunError(1, "line 153: 52 number"), bufr_text.TextError(5, "an item", "a tab")):
            other = pickle.loads(pickle.dumps(error))
            self.assertEqual((str(other), vars(other)), (str(error), vars(error)))

    def use_program(self, script: str) -> None:
        """Replaces the program with a shell script for the rest of the test."""
        path = self.folder / "program"
        path.write_text(f"#!/bin/sh\nREAL='{lib.program()}'\n{script}\n")
        path.chmod(0o755)
        self.addCleanup(os.environ.__setitem__, "BUFR", lib.program())
        os.environ["BUFR"] = str(path)

    def test_a_run_that_is_left_leaves_nothing_behind(self):
        self.stream.write_bytes((TOP / "examples/synop.bufr").read_bytes() * 5000)
        messages = bufr_text.dump(self.stream, *TABLES)
        tracemalloc.start()
        next(messages)
        _, peak = tracemalloc.get_traced_memory()
        tracemalloc.stop()
        # Only a part of the dump, which is 99 MB long, has been read.
        self.assertLess(peak, 50_000_000)
        messages.close()
        with self.assertRaises(ChildProcessError):
            os.waitpid(-1, os.WNOHANG)

    def test_names_may_look_like_options(self):
        for name, octets in [("-x.bufr", self.octets), ("-B.csv", None), ("--D", None)]:
            path = self.folder / name
            path.write_bytes(octets or pathlib.Path(TABLES["D" in name]).read_bytes())
        here = os.getcwd()
        os.chdir(self.folder)
        self.addCleanup(os.chdir, here)
        self.assertEqual(len(list(bufr_text.dump("-x.bufr", "-B.csv", "--D", []))), 9)

    def test_a_pipe_is_read(self):
        pipe = self.folder / "pipe"
        os.mkfifo(pipe)
        with subprocess.Popen(["cp", self.stream, pipe]):
            self.assertEqual([one.offset for one in bufr_text.dump(pipe, *TABLES, [])][-1], len(self.octets) - 602)

    def test_memory_does_not_grow_with_strays(self):
        self.stream.write_bytes(b"BUFR\0\0\1" * 40000 + (TOP / "examples/synop.bufr").read_bytes())
        tracemalloc.start()
        with open(os.devnull, "w") as aside, contextlib.redirect_stderr(aside), self.assertWarns(bufr_text.DumpWarning):
            self.assertEqual(len(list(bufr_text.dump(self.stream, *TABLES))), 1)
        _, peak = tracemalloc.get_traced_memory()
        tracemalloc.stop()
        self.assertLess(peak, 3_000_000)

    def test_a_changed_value_is_encoded(self):
        [message] = bufr_text.dump(TOP / "examples/synop.bufr", *TABLES)
        self.assertEqual(bufr_text.encode([message], *TABLES), (TOP / "examples/synop.bufr").read_bytes())
        bufr_text.find(message.subsets[1], "012101").value = Decimal("283.15")
        octets = bufr_text.encode([message], *TABLES)
        self.assertEqual(len(octets), 595)
        self.assertNotEqual(octets, (TOP / "examples/synop.bufr").read_bytes())
        del message.subsets[1:]
        self.assertLess(len(bufr_text.encode([message], *TABLES)), 595)

    def test_the_form_is_chosen(self):
        octets = (TOP / "examples/buoys.bufr").read_bytes()
        [message] = bufr_text.dump(TOP / "examples/buoys.bufr", *TABLES)
        lengths = [len(bufr_text.encode([message], *TABLES, form=form)) for form in ("plain", "compressed", None)]
        self.assertEqual(lengths, [691, len(octets), len(octets)])
        self.assertEqual(message.header["compressed"], 1)

    def test_each_document_is_encoded_by_its_own_tables(self):
        both = (TOP / "examples/aircraft.bufr", TOP / "examples/synop.bufr")
        messages = [message for path in both for message in bufr_text.dump(path)]
        octets = bufr_text.encode(messages)
        self.assertEqual(octets, bufr_text.encode(messages[:1], *OLD_TABLES) + bufr_text.encode(messages[1:], *TABLES))
        self.assertLess(len(bufr_text.encode(messages[:1], form="compressed")), 200)
        bufr_text.find(messages[1].subsets[1], "012101").value = Decimal("282.555")
        with self.assertRaises(bufr_text.RunError) as told:
            bufr_text.encode(messages)
        number = 153 + written(messages[:1]).count(b"\n")
        self.assertEqual((str(told.exception), told.exception.status), (f"line {number}: 52 number", 1))

    def test_a_refused_value_is_told(self):
        [message] = bufr_text.dump(TOP / "examples/synop.bufr", *TABLES)
        bufr_text.find(message.subsets[1], "012101").value = Decimal("282.555")
        with self.assertRaises(bufr_text.RunError) as told:
            bufr_text.encode([message], *TABLES)
        self.assertEqual((str(told.exception), told.exception.status), ("line 153: 52 number", 1))

    def test_wrong_arguments(self):
        synop, dump = TOP / "examples/synop.bufr", TOP / "examples/synop.txt"
        [message, *_] = bufr_text.read([*dump.open("rb")])
        for source, found in (([str(synop)], "'.*/synop.bufr'"), (b"BUFR", "66"), (None, "None"), (5, "5"), ([message.subsets], r"\[.*")):
            for call in (bufr_text.rows, bufr_text.levels):
                told = f"^expected a file name, or messages from dump[(][)] or read[(][)], found {found}"
                with self.assertRaisesRegex(TypeError, told):
                    list(call(source, ["012101"]))
        for faults in ("warn", "ignore", (), True):
            for call in (lambda: bufr_text.dump(synop, faults=faults), lambda: bufr_text.listing(synop, faults)):
                with self.assertRaisesRegex(TypeError, f"^faults must be a list or None, not {re.escape(repr(faults))}$"):
                    list(call())
            with self.assertRaisesRegex(TypeError, "^faults must be a list or None, not "):
                list(bufr_text.rows(synop, ["012101"], faults=faults))
        for stream in (dump.open(), dump.read_text()):
            with self.assertRaisesRegex(TypeError, "^expected lines as bytes; open the dump in mode 'rb'$"):
                list(bufr_text.read(stream))
        with self.assertRaisesRegex(ValueError, "^form must be 'plain' or 'compressed', not 'zip'$"):
            bufr_text.encode([message], form="zip")

    @unittest.skipUnless(shutil.which("mypy"), "mypy is not installed")
    def test_its_types_hold(self):
        with tempfile.TemporaryDirectory() as cache:
            words = ["mypy", "--strict", "--cache-dir", cache, *sorted((TOP / "scripts").glob("*.py"))]
            done = subprocess.run(words, stdout=subprocess.PIPE, stderr=subprocess.STDOUT)
        self.assertEqual(done.returncode, 0, done.stdout.decode())

    def test_public_names_have_a_docstring(self):
        for name in bufr_text.__all__:
            public = getattr(bufr_text, name)
            if callable(public) and name not in ("Cell", "Value"):
                self.assertTrue(public.__doc__, name)


if __name__ == "__main__":
    os.environ["BUFR"] = lib.program()
    if not shutil.which("mypy"):
        print("bufr_text_module: its types are skipped, mypy is not installed")
    unittest.main(argv=sys.argv[:1], failfast=True)
