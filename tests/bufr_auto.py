#!/usr/bin/env python3
"""Tests scripts/bufr-auto.

    tests/bufr_auto.py [PROGRAM]

For each message, bufr-auto must write the same output as `bufr dump` for that message alone with the right table set, as soon
as the whole message has arrived. Other tests check that --encode chooses table sets in the same way, that bufr-auto is fast,
and that it leaves no files or processes behind. script_failures.py tests how bufr-auto handles failures.
"""
import contextlib
import fcntl
import os
import pathlib
import random
import re
import resource
import select
import shutil
import signal
import subprocess
import sys
import tempfile
import termios
import time

import lib
from lib import TOP, finish, program

AUTO = [sys.executable, str(TOP / "scripts/bufr-auto")]
TABLES = TOP / "tables"
NEWER = "; get newer tables from WMO (wmo-im/BUFR4 on GitHub), and convert them with tables/convert.py"
# Descriptor lists. 0 12 101 has 16 bits, 0 13 164 is unknown in sets up to wmo-18, and 0 14 001 is wider from version 14 on.
LISTS = ["012101", "001001 012101", "014001", "013164", "102002 001001 012101", "063255"]


def made(version: int, descriptors: str, data: bytes, centre: int = 98, local: int = 0, section_2=b"") -> bytes:
    """Returns an edition 4 message with this centre and these table versions, and with section 2 unless it is empty."""
    message = lib.asking(lib.message(data, lib.words(descriptors)), version, local, centre)
    if section_2:
        optional = (4 + len(section_2)).to_bytes(3, "big") + b"\0" + section_2
        message = message[:17] + b"\x80" + message[18:30] + optional + message[30:]
        message = message[:4] + len(message).to_bytes(3, "big") + message[7:]
    return message


def set_of(version: int) -> str:
    """Returns the name of the set for a table version, according to the rule in tables/README.md."""
    return f"wmo-{min((number for number in (13, 14, 15, 16, 17, 18, 37, 39) if number >= version), default=39)}"


class Trial:
    def __init__(self, place: str):
        self.program, self.place, self.complaints = program(), pathlib.Path(place), []
        (self.place / "temporary").mkdir()
        self.environment = {**os.environ, "BUFR": self.program, "TMPDIR": str(self.place / "temporary")}
        self.environment.pop("BUFR_TABLES", None)

    def holds(self, what: str, is_so: bool, told: object = "") -> None:
        if not is_so:
            self.complaints.append(f"{what}: {told!r}"[:2000])

    def auto(self, *words: str, stream: bytes = b"", **environment: str):
        return subprocess.run(
            [*AUTO, *words], input=stream, capture_output=True, env={**self.environment, **environment}, timeout=120
        )

    def tables_of(self, version: int, tables: pathlib.Path = TABLES) -> list:
        folder = tables / set_of(version)
        return ["-B", folder / "B.csv", "-D", folder / "D.csv"]

    def one_by_one(self, stream: bytes, tables: pathlib.Path = TABLES):
        """Dumps each message separately. Returns the dumps, the fault lines in order, and the highest exit status."""
        listing = subprocess.run([self.program, "ls"], input=stream, capture_output=True)
        faults = [(int(re.match(rb"offset (\d+)", line)[1]), line) for line in listing.stderr.splitlines(True)]
        texts, status = [], listing.returncode
        for line in listing.stdout.splitlines():
            found = re.match(rb"offset=(\d+) length=(\d+) .*tables=\d+/(\d+)/", line)
            offset, length, version = map(int, found.groups())
            words = [self.program, "dump", *self.tables_of(version, tables)]
            done = subprocess.run(words, input=stream[offset : offset + length], capture_output=True)
            texts.append(done.stdout)
            status = max(status, done.returncode)
            faults += [(offset, b"offset %d:" % offset + line[9:]) for line in done.stderr.splitlines(True)]
        return b"".join(texts), b"".join(line for _, line in sorted(faults)), status

    def in_pieces(self, stream: bytes, *words: str):
        """Runs bufr-auto on a pipe that receives at most 300 bytes at a time."""
        files = [tempfile.TemporaryFile() for _ in range(2)]
        with subprocess.Popen(
            [*AUTO, *words], stdin=subprocess.PIPE, stdout=files[0], stderr=files[1], env=self.environment
        ) as child:
            at = 0
            while at < len(stream):
                at += os.write(child.stdin.fileno(), stream[at : at + random.choice((1, 5, 40, 300))])
        given = [(file.seek(0), file.read())[1] for file in files]
        return subprocess.CompletedProcess([], child.returncode, *given)

    def compare(self, what: str, stream: bytes) -> None:
        """Checks that bufr-auto gives the results of `one_by_one`, apart from notes, for a pipe, a file and small writes."""
        (self.place / "stream").write_bytes(stream)
        runs = {"a pipe": self.auto(stream=stream), "a file": self.auto(str(self.place / "stream"))}
        if len(stream) < 10_000:
            runs["pieces"] = self.in_pieces(stream)
        for form, done in runs.items():
            told = b"".join(line for line in done.stderr.splitlines(True) if not line.startswith(b"bufr-auto: "))
            self.same(f"{what}, {form}", (done.stdout, told, done.returncode), self.one_by_one(stream))

    def same(self, what: str, given: tuple, wanted: tuple) -> None:
        """Checks that the output, the errors and the status are as expected."""
        for part, one, other in zip(("the output", "the errors", "the status"), given, wanted):
            self.holds(f"{what}: {part}", one == other, (one, other))

    def same_as_one_by_one(self) -> None:
        """In random streams, long streams and streams with strays, `bufr-auto` dumps each message as `bufr` dumps it alone."""
        random.seed(44)
        for number in range(12):
            versions = random.sample(range(4, 42), random.randint(1, 6))
            pieces = []
            for _ in range(random.randint(1, 30)):
                data = bytes(random.choices(range(256), k=random.choice((2, 8))))
                message = made(random.choice(versions), random.choice(LISTS), data)
                other = [b"BUFR", b"IUSK01 ENMI 010000\r\r\n", message[:-3], message[:7] + b"\2" + message[8:]]
                other += [b"BUFR\0\0\x0b", b"BUFR\0\0\x0c\x047777", b"BUF", message[:20] + b"7777", b"BUFR\0\1\0\4"]
                pieces += random.choices((message, random.choice(other)), (4, 1))
            self.compare(f"stream {number}", b"".join(pieces))
        large = [made(random.choice((13, 16, 39)), LISTS[1], b"\1" * 3, section_2=bytes(100_000)) for _ in range(60)]
        large[30:30] = [made(39, LISTS[5], b"")]
        self.compare("parts", b"".join(large))
        self.compare("parts of one set", b"".join([made(39, LISTS[1], b"\1" * 3, section_2=bytes(200_000))] * 30))
        for stream in (b"", b"BUFR", b"BUFR\0\0\x0b", b"BUFR\0\0\x0c\4", b"xBUFRBUFR\0\0\0\0BU", b"BUFR\xff\xff\xff\4" * 9):
            self.compare(f"{stream}", stream)
        held = b"BUFR\xff\xff\xff\4" + made(39, LISTS[1], b"\1" * 3)
        self.compare("a false word", held + bytes(1 << 24) + held)

    def stops(self) -> None:
        """If a table is invalid, `bufr-auto` stops before the first message that needs it, and exits with status 2."""
        tables, shown = self.place / "tables \x1b", f"{self.place}/tables \\x1B"
        shutil.copytree(TABLES, tables)
        for name in ("wmo-x", "wmo-13+98", "wmo-13+98-1-2", "wmo-\u0661\u0663", "wmo-1234567890", "own-39"):
            (tables / name).mkdir()  # not names of table sets
        with open(tables / "wmo-17/D.csv", "a") as file:
            file.write("no row\n")
        (self.place / "17").write_bytes(made(17, LISTS[1], b"\1" * 3))
        done = self.auto(*[str(self.place / "17")] * 2, BUFR_TABLES=str(tables))
        told = f"table D: 45 csv\nbufr-auto: cannot use {shown}/wmo-17/D.csv: 45 csv\n"
        self.same("two files with a table at fault", (done.stdout, done.stderr.decode(), done.returncode), (b"", told, 2))
        with open(tables / "wmo-17/B.csv", "a") as file:
            file.write("no row\n")
        before = made(13, LISTS[1], b"\1" * 3) + made(16, LISTS[5], b"") + made(16, LISTS[1], b"\1" * 3)
        stream = before + made(17, LISTS[1], b"\1" * 3) + made(13, LISTS[1], b"\1" * 3)
        texts, faults, _ = self.one_by_one(before, tables)
        for given in (stream, stream[len(before) :]):
            done = self.auto(stream=given, BUFR_TABLES=str(tables))
            begun = (texts, faults) if given == stream else (b"", b"")
            told = f"table B: 45 csv\nbufr-auto: cannot use {shown}/wmo-17/B.csv: 45 csv\n"
            wanted = (begun[0], begun[1] + told.encode(), 2)
            self.holds("a table at fault", (done.stdout, done.stderr, done.returncode) == wanted, (done, wanted))
        # If the directory of a set lacks a table, bufr-auto prints a note and ignores the set.
        for version in (40, 21, 36, 25):
            (tables / f"wmo-{version}").mkdir()
        (tables / "wmo-17/D.csv").unlink()
        done = self.auto(stream=stream, BUFR_TABLES=str(tables))
        notes = b"".join(
            b"bufr-auto: ignored %s/%s because it does not contain %s.csv; add this file, or remove the directory\n" % (shown.encode(), *missing)
            for missing in ((b"wmo-17", b"D"), (b"wmo-21", b"B"), (b"wmo-25", b"B"), (b"wmo-36", b"B"), (b"wmo-40", b"B"))
        )
        whole = (done.stdout.count(b"message\n"), done.stderr == faults + notes, done.returncode)
        self.holds("an incomplete set", whole == (stream.count(b"BUFR") - 1, True, 1), done)
        done = self.auto(stream=made(13, "001192", b"\1", local=102), BUFR_TABLES=str(tables))
        self.holds("the command for such a folder", b" '%s/wmo-13+98-102' " % bytes(tables) in done.stderr, done)
        (tables / "wmo-6").symlink_to(TABLES / "wmo-13")
        done = self.auto(stream=made(6, "012073", b"\1\1"), BUFR_TABLES=str(tables))
        self.holds("a set of version 6", b"012073" in done.stdout and b"version 6" not in done.stderr, done)
        (self.place / "none/wmo-40").mkdir(parents=True)
        done = self.auto(stream=stream, BUFR_TABLES=str(self.place / "none"))
        self.holds("no complete set", done.returncode == 2 and b"wmo-40 because it does not contain B.csv" in done.stderr, done)
        with open("/dev/full", "w") as full:
            done = subprocess.run(AUTO, input=before, stdout=full, stderr=subprocess.PIPE, env=self.environment)
        told = done.stderr.endswith(b"bufr-auto: write failed: No space left on device\n")
        self.holds("a full device", told and done.returncode == 2, done)

    def encodes(self) -> None:
        """`bufr-auto --encode` encodes each document with its own table set, up to the first invalid one.

        The line number in a fault line is relative to the beginning of the input.
        """
        random.seed(67)
        for number in range(12):
            texts, versions = [], random.sample(range(4, 42), 5)
            for _ in range(random.randint(1, 12)):
                version = random.choice(versions)
                message = made(version, LISTS[random.choice((0, 1, 2))], bytes(random.choices(range(255), k=3)))
                words = [self.program, "dump", *self.tables_of(version)]
                text = subprocess.run(words, input=message, capture_output=True).stdout
                texts += [random.choice((b"", b"# end\n", b"\n\n")), text]
            if number % 3 == 1:
                texts[-1] = texts[-1].replace(b"0121", b"0120").replace(b"00100", b"00200")
            if number % 3 == 2:
                texts.insert(random.choice(range(0, len(texts), 2)), random.choice((b"end\n", b"more\n", texts[-1][:-5])))
            text = b"".join(texts) + random.choice((b"", b"#", b"\n# more"))
            wanted = self.encoded_one_by_one(text)
            done = [self.auto("--encode", stream=text), self.in_pieces(text, "--encode")]
            for form, given in zip(("a pipe", "pieces"), done):
                told = b"".join(line for line in given.stderr.splitlines(True) if not line.startswith(b"bufr-auto: "))
                self.same(f"text {number}, {form}", (given.stdout, told, given.returncode), wanted)
        for text in (b"", b"\n", b"message\n", b"message\nedition 4", b"end", b"# " + b"x" * 5000):
            done = self.auto("--encode", stream=text)
            told = b"".join(line for line in done.stderr.splitlines(True) if not line.startswith(b"bufr-auto: "))
            self.same(f"{text[:9]}", (done.stdout, told, done.returncode), self.encoded_one_by_one(text))
        stream = b"".join(made(version, LISTS[1], b"\1\1\0", section_2=bytes(90_000)) for version in (13, 16, 39)) * 20
        text = self.auto(stream=stream).stdout
        done = self.auto("--encode", stream=text)
        self.same("many parts", (done.stdout, done.stderr, done.returncode), (stream, b"", 0))
        # Short documents of another version follow a document of over 4 MB, whose `end` line is split between two reads.
        wanted = made(13, LISTS[1], b"\1\1\0", section_2=bytes(2_200_000)), made(39, LISTS[3], b"\1\0\0") * 2
        long, short = (self.auto(stream=octets).stdout for octets in wanted)
        for cut in range(1, 5):
            left = -(len(long) - len("\nend\n") + cut) % (1 << 20)
            comments = b"\n" * (left % 64) + (b"#" * 63 + b"\n") * (left // 64)
            (self.place / "long").write_bytes(comments + long + short)
            done = self.auto("--encode", str(self.place / "long"))
            what = f"an end line that is cut behind {cut} bytes"
            self.same(what, (done.stdout, done.stderr, done.returncode), (b"".join(wanted), b"", 0))
        (self.place / "long").unlink()
        # An invalid document in the middle of an input that needs several table sets.
        text = text + text.replace(b"001001 0 ", b"001001 0x ", 1) + text
        line = text[: text.index(b"0x")].count(b"\n") + 1
        done = self.auto("--encode", stream=text)
        self.same("one refused", (done.stdout, done.stderr, done.returncode), (stream, b"line %d: 50 line\n" % line, 1))
        note = b"bufr-auto: 1 document, at line 3: table version 41 is later than that of the table set wmo-39" + NEWER.encode() + b"\n"
        text = self.auto(stream=made(39, LISTS[0], b"\1\1")).stdout.replace(b"masterversion 39", b"masterversion 41")
        done = self.auto("--encode", stream=b"\n\n" + text)
        self.same("a note", (done.stdout[21:22], done.stderr, done.returncode), (b"\x29", note.replace(b"3", b"1", 1), 0))
        # The notes depend on the header and on all `descriptors` lines of a document.
        text = text.replace(b"masterversion 41", b"masterversion 13").replace(b"centre 98", b"centre 7")
        text = text.replace(b"master 0", b"master 10").replace(b"localversion 0", b"localversion 3")
        reasons = [b"master table 10 is not WMO's", b"the table set wmo-13+7-3 (local version 3 of centre 7) is missing"]
        for descriptors in (b"descriptors 012101 001192", b"descriptors 012101\ndescriptors 001192"):
            done = self.auto("--encode", stream=text.replace(b"descriptors 012101", descriptors))
            told = [line.partition(b": ")[2] for line in done.stderr.splitlines() if line.startswith(b"bufr-auto: ")]
            starts = [line.startswith(b"1 document, at line 1: " + reason) for line, reason in zip(told, reasons)]
            self.holds(f"notes on {descriptors}", starts == [True, True], done)
        # If a header is invalid, bufr-auto prints only the fault line, without a note about tables.
        text = (TOP / "examples/synop.txt").read_bytes()
        for changed, number in (
            (text.replace(b"\n", b"\r\n"), b"1: 50 line"),
            (text.replace(b"masterversion 39", b"masterversion x"), b"10: 50 line"),
            (text.replace(b"masterversion 39\n", b""), b"10: 50 line"),
            (text.replace(b"masterversion 39", b"masterversion 999"), b"10: 61 header range"),
        ):
            done = self.auto("--encode", stream=changed)
            self.same(f"{number}", (done.stdout, done.stderr, done.returncode), (b"", b"line %s\n" % number, 1))
        # A line can contain up to 4,096 bytes, and a comment of that length can precede a document.
        one = made(39, LISTS[1], b"\1\1\0")
        for length, wanted in ((4096, (one, b"", 0)), (4097, (b"", b"line 1: 50 line\n", 1))):
            done = self.in_pieces(b"#".ljust(length, b"x") + b"\n" + self.one_by_one(one)[0], "--encode")
            self.same(f"a comment of {length} bytes", (done.stdout, done.stderr, done.returncode), wanted)
        # The line feed after a comment of 4,096 bytes arrives in a separate read.
        pipes = dict(stdin=subprocess.PIPE, stdout=subprocess.PIPE, stderr=subprocess.PIPE, bufsize=0)
        with subprocess.Popen([*AUTO, "--encode"], **pipes, env=self.environment) as child:
            child.stdin.write(b"#".ljust(4096, b"x"))
            self.wait(lambda: fcntl.ioctl(child.stdin, termios.FIONREAD, bytes(4)) == bytes(4))
            output, told = child.communicate(b"\n" + self.one_by_one(one)[0])
        self.same("a comment in two reads", (output, told, child.returncode), (one, b"", 0))
        # bufr-auto chooses the right table set no matter how many comments precede a document.
        later = made(39, LISTS[3], b"\1\0\0")
        for count in (40_000, 200_000):
            comments = b"# A comment on BUFR in a document.\n" * count
            done = self.auto("--encode", stream=(comments + self.one_by_one(later)[0]) * 2)
            self.same(f"{count} comments", (done.stdout, done.stderr, done.returncode), (later * 2, b"", 0))
        for text, line in ((comments + b"\nmessage\nedition 4\nnonsense\n", 200004), (b"message\nnonsense\n" + comments, 2)):
            done = self.auto("--encode", stream=text)
            self.same("many comments", (done.stdout, done.stderr, done.returncode), (b"", b"line %d: 50 line\n" % line, 1))
        note = b"line 1: 50 line\nbufr-auto: standard input is not a dump: it looks like gzip data (use zcat)\n"
        done = self.auto("--encode", stream=b"\x1f\x8b\x08\0\n")
        self.same("gzip data", (done.stdout, done.stderr, done.returncode), (b"", note, 1))
        done = self.auto("--encode", stream=b" message\n")
        self.same("a dump with a space", (done.stdout, done.stderr, done.returncode), (b"", b"line 1: 50 line\n", 1))
        # BUFR data is rejected without waiting for the end of the input, and a note says which option to leave out.
        note = b"bufr-auto: standard input is BUFR, not a dump; to dump it, leave out --encode\n"
        for begin in (b"BUFR", b"\1\r\r\n001\r\r\nIUSK01 ENMI 010000\r\r\nBUFR"):
            steps = [(begin + bytes(100) + b"\n", b"", b"line 1: 50 line\n" + note)]
            self.feed("no text", ["--encode"], steps, (b"", b""), 1)

    def encoded_one_by_one(self, text: bytes):
        """Encodes each document separately, up to the first invalid one. Returns the messages, fault line and exit status."""
        messages, before = [], 0
        for document in re.findall(rb".*?^end(?:\n|\Z)|.+", text, re.S | re.M):
            version = re.search(rb"^masterversion (\d+)$", document, re.M)
            words = [self.program, "encode", *self.tables_of(int(version[1]) if version else 39)]
            done = subprocess.run(words, input=document, capture_output=True)
            messages.append(done.stdout)
            if done.returncode:
                found = re.fullmatch(rb"line (\d+)(.*)", done.stderr, re.S)
                return b"".join(messages), b"line %d%s" % (before + int(found[1]), found[2]), done.returncode
            before += document.count(b"\n")
        return b"".join(messages), b"", 0

    def feeds(self) -> None:
        """`bufr-auto` writes the output for every complete message, document and stray before it waits for more input."""
        one, other = made(13, LISTS[1], b"\1\1\0"), made(39, LISTS[0], b"\1\1")
        texts = [self.one_by_one(message)[0] for message in (one, other)]
        fault = b"offset %d: %s\n"
        steps = [
            (one, texts[0], b""),
            (other[:30], b"", b""),
            (other[30:] + one + b"BU", texts[1] + texts[0], b""),
            (b"FR\0\0\0\1" + b"x" * 4, b"", fault % (len(one * 2 + other), b"2 short length")),
            (b"BUFR\0\1\0\4" + one, b"", b""),
        ]
        last = (texts[0], fault % (len(one * 2 + other) + 12, b"1 cut"))
        self.feed("messages", [], steps, last, 1)
        steps = [
            (texts[0], one, b""),
            (b"\n\n" + texts[1][:50], b"", b""),
            (texts[1][50:] + texts[0][:-2], other, b""),  # the output shows that both texts were read before the next step
            (texts[0][-2:], one, b""),
            (b"junk\n", b"", b"line %d: 50 line\n" % ((texts[0] * 2 + texts[1]).count(b"\n") + 3)),
        ]
        self.feed("documents", ["--encode"], steps, (b"", b""), 1)

        false = b"BUFR\xff\xff\xff\4"
        skipped = b"bufr-auto: offset %d: skipped a message that declares a length of %d bytes\n"
        steps = [
            (one + false[:6], texts[0], b""),
            (false[6:], b"", skipped % (len(one), 0xFFFFFF)),
            (other + b"BUFR\0\4\x01\4" + one, texts[1] + texts[0], skipped % (len(one + false + other), 1025)),
            (b"BUFR\0\4\0\4" + one, b"", b""),  # exactly the maximum length, so bufr-auto waits for the rest
        ]
        last = (texts[0], fault % (len(one * 2 + false * 2 + other), b"1 cut"))
        self.feed("lengths", ["--max-length", "1024"], steps, last, 1)

    def notes_of_feeds(self) -> None:
        """`bufr-auto` prints each note about a feed only once: when the feed pauses for a second, or after a minute."""
        note = b"bufr-auto: 1 message so far, at offset %d: table version %d is later than that of the table set wmo-39" + NEWER.encode() + b"\n"
        later, latest = made(41, LISTS[0], b"\1\1"), made(42, LISTS[0], b"\1\1")
        texts = [self.one_by_one(message)[0] for message in (later, latest)]
        steps = [
            (later, texts[0], note % (0, 41)),
            (later * 2, texts[0] * 2, b""),
            (latest, texts[1], note % (3 * len(later), 42)),
        ]
        begin = time.monotonic()
        self.feed("notes", [], steps, (b"", b""), 0)
        seconds = time.monotonic() - begin
        self.holds("two notes come after two seconds", seconds >= 2, seconds)
        # A note about an incomplete set is also printed only once.
        sets = self.place / "incomplete"
        (sets / "wmo-40").mkdir(parents=True)
        (sets / "wmo-39").symlink_to(TABLES / "wmo-39")
        note = b"bufr-auto: ignored %s/wmo-40 because it does not contain B.csv; add this file, or remove the directory\n" % bytes(sets)
        self.environment["BUFR_TABLES"] = str(sets)
        synop, text = ((TOP / f"examples/synop.{kind}").read_bytes() for kind in ("bufr", "txt"))
        self.feed("an incomplete set", [], [(synop, text, note), (synop, text, b"")], (b"", b""), 0)
        del self.environment["BUFR_TABLES"]
        # This feed does not pause, but the interval between notes is 0, so the note is printed after the first part of the
        # feed, which contains 16,384 messages. For a file, the note is printed at the end.
        minute = "import sys; sys.path.insert(0, sys.argv[1]); import bufr_auto, bufr_guard; bufr_guard.INTERVAL = 0; "
        (self.place / "many").write_bytes(later * 20_000)
        for file, told in ((None, b"16384 messages so far"), (str(self.place / "many"), b"20000 messages")):
            words = [sys.executable, "-c", f"{minute}bufr_auto.dump([{file!r}])", TOP / "scripts"]
            done = subprocess.run(words, input=later * 20_000, capture_output=True, env=self.environment)
            note = b"%s, the first at offset 0: " % told
            self.holds(f"notes on {file or 'a feed'} without a pause", note in done.stderr, done.stderr)

    def few_files(self) -> None:
        """`bufr-auto` can read a feed in 40 parts with at most 32 open files, and can read 60 files with at most 40 open."""
        message = made(39, LISTS[1], b"\1\1\0")
        text = self.one_by_one(message)[0]
        self.feed("40 parts", [], [(message, text, b"")] * 40, (b"", b""), 0, 32)
        (self.place / "one").write_bytes(message)
        words = [*AUTO, *[self.place / "one"] * 60]
        limit = lambda: resource.setrlimit(resource.RLIMIT_NOFILE, (40, 40))  # noqa: E731
        done = subprocess.run(words, env=self.environment, capture_output=True, preexec_fn=limit)
        self.same("60 files", (done.stdout, done.stderr, done.returncode), (text * 60, b"", 0))

    def lengths(self) -> None:
        """`bufr-auto --max-length` skips and reports messages that declare a greater length. `Masker` hides them."""
        sys.path.insert(0, str(TOP / "scripts"))
        import bufr_auto

        random.seed(73)
        for number in range(8):
            stream, masked, notes = b"", b"", []
            for _ in range(40):
                message = made(random.choice((13, 39)), LISTS[1], bytes(3))
                long = made(39, LISTS[1], bytes(3), section_2=bytes(100))
                false = b"BUFR" + random.randint(101, 0xFFFFFF).to_bytes(3, "big") + b"\4"
                piece = random.choice((message, message, message[:-3], b"BUFR\0\0\x0b", b"BUF", long, false, b"x" * 9))
                if piece in (long, false):
                    declared = int.from_bytes(piece[4:7], "big")
                    note = f"offset {len(stream)}: skipped a message that declares a length of {declared} bytes\n"
                    notes.append(note.encode())
                stream += piece
                masked += bytes(4) + piece[4:] if piece in (long, false) else piece
            done = self.auto("--max-length=100", stream=stream)
            told = [b"bufr-auto: " + note for note in notes]
            lines = done.stderr.splitlines(True)
            texts, faults, _ = self.one_by_one(masked)
            self.holds(f"lengths {number}: the notes", [line for line in lines if b"skipped" in line] == told, lines)
            others = b"".join(line for line in lines if b"skipped" not in line)
            self.same(f"lengths {number}", (done.stdout, others, done.returncode), (texts, faults, 1))
            masker, given, at, told = bufr_auto.Masker(100), b"", 0, []
            bufr_auto.bufr_guard.say = told.append
            while at < len(stream):
                size = random.choice((1, 5, 40, 300))
                given += b"".join(masker.take(stream[at : at + size]))
                at += size
            given += b"".join(masker.take(b""))
            self.holds(f"lengths {number}: masked", (given, masker.count) == (masked, len(notes)), (given, masked))
            self.holds(f"lengths {number}: notes of the mask", told == [b"bufr_auto.py: " + note for note in notes], told)
        done = self.auto("--max-length=100", stream=long)
        self.holds("one that is skipped", done.stderr == b"bufr-auto: offset 0: skipped a message that declares a length of 156 bytes\n", done)

    def conditions(self) -> None:
        """`bufr_auto.dump` dumps only messages that meet the conditions, each after a comment with its offset and file."""
        code = "import sys; sys.path.insert(0, sys.argv[1]); import bufr_auto, bufr_conditions, bufr_guard\n"
        code += "def work(words): return bufr_auto.dump(words[2:], 1, None, bufr_conditions.Conditions(words[1].split()), True)\n"
        code += "bufr_guard.run(work, '')"
        seven, both = made(13, LISTS[1], b"\1\1\0", 7), made(39, LISTS[1], b"\1\1\0", 98, section_2=bytes(5_000_000))
        stream = seven + b"BUFR" + both + made(13, "063255", b"", 98) + seven[:-30] + both + made(39, "063255", b"", 7)
        stream += b"BUFR\0\0\x0c\x047777"  # shorter than the 23 bytes that determine the table set
        (self.place / "a \x1bfile").write_bytes(stream)
        texts = {centre: self.one_by_one(message)[0] for centre, message in ((7, seven), (98, both))}
        comment = "# offset={} length={} file={}\n"
        for file, name in (("a \x1bfile", "a \\x1Bfile"), ("/dev/stdin", "/dev/stdin")):
            words = [sys.executable, "-c", code, str(TOP / "scripts"), "centre=98", file]
            with open(self.place / "a \x1bfile", "rb") as given:
                done = subprocess.run(words, stdin=given, cwd=self.place, env=self.environment, capture_output=True)
            places = (stream.find(both), stream.rfind(both))
            wanted = b"".join(comment.format(place, len(both), name).encode() + texts[98] for place in places)
            at = [found.start() for found in re.finditer(b"BUFR", stream)]
            told = f"offset {at[1]}: 3 no end\noffset {at[3]}: 20 unknown element 063255\noffset {at[4]}: 3 no end\n"
            told += f"offset {at[7]}: 12 section 1 past the end\n"
            self.same("a condition", (done.stdout, done.stderr.decode(), done.returncode), (wanted, told, 1))

    def feed(self, what: str, words: list, steps: list, last: tuple, status: int, files: int = 256) -> None:
        """Writes each step's input to a pipe and waits for the expected output and errors. Limits open files to `files`."""
        pipes = dict(stdin=subprocess.PIPE, stdout=subprocess.PIPE, stderr=subprocess.PIPE, bufsize=0)
        limit = lambda: resource.setrlimit(resource.RLIMIT_NOFILE, (files, files))  # noqa: E731
        with subprocess.Popen([*AUTO, *words], **pipes, env=self.environment, preexec_fn=limit) as child:
            for number, (given, *wanted) in enumerate([*steps, (None, *last)]):
                if given is None:
                    child.stdin.close()
                elif child.poll() is None:
                    child.stdin.write(given)
                for name, file, octets in zip(("output", "errors"), (child.stdout, child.stderr), wanted):
                    told, end = b"", time.monotonic() + 20
                    while len(told) < len(octets) and select.select([file], [], [], max(0, end - time.monotonic()))[0]:
                        told += (more := os.read(file.fileno(), 1 << 16))
                        if not more:
                            break
                    self.holds(f"a feed of {what}, step {number}, {name}", told == octets, (told, octets))
            rest = child.stdout.read() + child.stderr.read()
        self.holds(f"a feed of {what}: the end", (rest, child.returncode) == (b"", status), (rest, child.returncode))

    def files(self) -> None:
        """Fault lines give the file name and the offset in the file. Unreadable files are skipped, and reported at the end."""
        texts, messages = [], [made(39, LISTS[1], b"\1\1\0"), made(13, LISTS[1], b"\2\1\0")]
        for number, message in enumerate(messages):
            (self.place / f"file {number}").write_bytes(b"BUFR" + message + made(41, LISTS[0], b"\1\1"))
            texts.append(self.one_by_one(b"BUFR" + message + made(41, LISTS[0], b"\1\1"))[0])
        (self.place / "folder").mkdir()
        names = ["file 0", "nosuch", "folder", "file 1"]
        done = subprocess.run([*AUTO, *names], cwd=self.place, env=self.environment, capture_output=True)
        told = (
            b"file 0:offset 0: 1 cut\nfile 1:offset 0: 1 cut\n"
            b"bufr-auto: 2 messages, the first in file 0 at offset 56: table version 41 is later than that of the table set wmo-39" + NEWER.encode() +
            b"\nbufr-auto: cannot open nosuch: No such file or directory\nbufr-auto: cannot read folder: Is a directory\n"
        )
        self.same("files", (done.stdout, done.stderr, done.returncode), (b"".join(texts), told, 2))
        # The progress line counts the bytes of all files together.
        code = "import sys; sys.path.insert(0, sys.argv[1]); import bufr_auto, bufr_guard\n"
        code += "bufr_guard.Progress.at = lambda self, octets: bufr_guard.say(b'%d of %d\\n' % (octets, self.total))\n"
        code += "bufr_guard.run(lambda words: bufr_auto.dump(words[1:]), '')"
        words = [sys.executable, "-c", code, str(TOP / "scripts"), "file 0", "file 1"]
        done = subprocess.run(words, cwd=self.place, env=self.environment, capture_output=True)
        sizes = [(self.place / name).stat().st_size for name in ("file 0", "file 1")]
        told = [line for line in done.stderr.decode().splitlines() if line[:1].isdigit()]
        wanted = [f"{octets} of {sum(sizes)}" for octets in (sizes[0], sum(sizes))]
        self.holds("progress", [*dict.fromkeys(told)] == wanted, told)
        for number, text in enumerate(texts):
            (self.place / f"text {number}").write_bytes(text)
        (self.place / "text 1").write_bytes(texts[1].replace(b"\n012101 ", b"\n012101 x", 1))
        names = ["text 0", "text 1", "nosuch"]  # the last one is not opened, because encoding stops in the second
        done = subprocess.run([*AUTO, "--encode", *names], cwd=self.place, env=self.environment, capture_output=True)
        line = texts[1][: texts[1].index(b"\n012101 ") + 1].count(b"\n") + 1
        wanted = messages[0] + made(41, LISTS[0], b"\1\1")
        self.holds("texts: the messages", done.stdout == wanted, done)
        self.holds("texts: the fault", done.stderr.startswith(b"text 1:line %d: 50 line\n" % line), (done, line))
        self.holds("texts: no more files", b"nosuch" not in done.stderr, done)
        self.holds("texts: the status", done.returncode == 1, done)

    def no_message(self) -> None:
        """If a file contains no messages, `bufr-auto` says so, guesses its type, and exits with the same status as `bufr`."""
        synop = TOP / "examples/synop.bufr"
        for begin, kind, status in (
            (subprocess.run(["gzip", "-c", synop], stdout=subprocess.PIPE).stdout, "looks like gzip data (use zcat)", 0),
            (b"BZh9", "looks like bzip2 data (use bzcat)", 0),
            (b"\xfd7zXZ\0", "looks like xz data (use xzcat)", 0),
            (b"\x28\xb5\x2f\xfd\4", "looks like zstd data (use zstdcat)", 0),
            (b"PK\3\4\n", "looks like a zip archive (use unzip -p)", 0),
            (b"GRIB\xff", "looks like GRIB", 0),
            (b"CDF\1", "looks like netCDF", 0),
            (b"\x89HDF\r\n", "looks like HDF5", 0),
            (b"\n<!DOCTYPE HTML><p>BUFR", "looks like HTML", 1),
            (b"<HTML>", "looks like HTML", 0),
            (b"<?xml version='1.0'?>", "looks like XML", 0),
            ((TOP / "examples/synop.txt").read_bytes(), "looks like a dump (use bufr-auto --encode)", 0),
            (b"SMVD01 EKMI 010000\r\r\n", "looks like text", 0),
            (b"\1\r\r\n123\r\r\nSMVD01 EKMI 010000\tA\r\r\n\3", "looks like text", 0),
            (b"", "is empty", 0),
            (b"\0\7\xff", None, 0),
            (b"x" * 255 + b"\0", None, 0),
        ):
            file = self.place / "other"
            file.write_bytes(begin)
            done = self.auto(str(file))
            note = f"bufr-auto: {file} contains no messages{': it ' + kind if kind else ''}\n".encode()
            told = done.stderr.splitlines(True)[-1:] == [note]
            self.holds(f"{kind}", told and (done.stdout, done.returncode) == (b"", status), (done, note))
        file = self.place / "a\x1b[31mb"
        file.write_bytes(b"x" * 300 + b"\0")
        note = f"bufr-auto: {self.place}/a\\x1B[31mb contains no messages: it looks like text\n".encode()
        self.holds("a name with an escape", self.auto(str(file)).stderr == note, self.auto(str(file)))
        # If the data arrives in two reads, the guess is based on both.
        pipes = dict(stdin=subprocess.PIPE, stdout=subprocess.PIPE, stderr=subprocess.PIPE, bufsize=0)
        with subprocess.Popen(AUTO, **pipes, env=self.environment) as child:
            child.stdin.write(b"\x1f")
            self.wait(lambda: fcntl.ioctl(child.stdin, termios.FIONREAD, bytes(4)) == bytes(4))
            _, told = child.communicate(b"\x8b\x08abc")
        note = b"bufr-auto: standard input contains no messages: it looks like gzip data (use zcat)\n"
        self.holds("gzip data in two reads", (child.returncode, told) == (0, note), told)
        done = self.auto(stream=b"")
        self.holds("an empty input", done.stderr == b"bufr-auto: standard input contains no messages: it is empty\n", done)
        done = self.auto("--encode", stream=b"")
        self.holds("no text", done.stderr == b"bufr-auto: standard input contains no documents: it is empty\n", done)

    def notes(self) -> None:
        """For each reason, `bufr-auto` prints one note with the number of messages that use an affected descriptor."""
        for descriptor, is_local in (("001191", False), ("001192", True), ("047001", False), ("048001", True)):
            done = self.auto(stream=made(13, descriptor, b"\1", local=102))
            self.holds(f"{descriptor} is local", (b"the table set wmo-13+98-102" in done.stderr) == is_local, done)
        edition_3 = bytearray(lib.message(b"\1", lib.words("001192"), edition=3))
        edition_3[12:14], edition_3[18:20] = b"\7\x62", b"\x0d\x66"
        done = self.auto(stream=bytes(edition_3))
        self.holds("edition 3", b"the table set wmo-13+98-102 (local version 102 of centre 98) is missing" in done.stderr, done)
        # bufr-auto prints no note about a version number with nine digits, because `bufr` rejects the document.
        done = self.auto("--encode", stream=b"message\nmasterversion 999999999\ndescriptors 012101\nsubset 1\nend\n")
        self.holds("a version of nine digits", done.stderr == b"line 2: 50 line\n", done)
        exact = made(14, LISTS[0], b"\1" * 2) + made(37, LISTS[0], b"\1" * 2) + made(7, "012073", b"\1\1")
        stream = exact + made(6, "012073", b"\1\1") + made(6, "012101", b"\1\1") + made(6, "307018", b"") * 2
        stream += made(13, "012101", b"\1\1", local=102) + made(13, "206008 001250", b"\1", local=102)
        stream += made(13, "001212", b"\1", local=102) * 2 + made(40, "012101", b"\1\1")
        stream += made(13, "012101", b"\1\1", 7, 3)
        done = self.auto(stream=stream)
        told = [line for line in done.stderr.decode().splitlines() if line.startswith("bufr-auto: ")]
        at = [found.start() for found in re.finditer(b"BUFR", stream)]
        wanted = [
            f"3 messages, the first at offset {at[3]}: table version 6 defines some descriptors differently from the table set wmo-13",
            f"2 messages, the first at offset {at[9]}: the table set wmo-13+98-102 (local version 102 of centre 98) is missing; to make it",
            f"1 message, at offset {at[11]}: table version 40 is later than that of the table set wmo-39{NEWER}",
        ]
        starts = [line[: len(note) + 11] for line, note in zip(told, wanted)]
        self.holds("notes", len(told) == 3 and starts == [f"bufr-auto: {note}" for note in wanted], told)
        self.holds("no notes", self.auto(stream=exact).stderr == b"", self.auto(stream=exact).stderr)
        stream = b"".join(made(13, "001212", b"\1", centre, 1) for centre in range(1, 1300))
        told = [line for line in self.auto(stream=stream).stderr.decode().splitlines() if line.startswith("bufr-auto: ")]
        rest = "bufr-auto: 299 messages, the first at offset 48000: no table set matches exactly; only the first 1,000 reasons are listed"
        self.holds("kinds of notes", (len(told), told[-1]) == (1001, rest), (len(told), told[-1]))
        # There are two possible reasons for a note about this message, but only one of them affects the message's descriptor.
        done = self.auto(stream=made(41, "012101", b"\1\1", local=102))
        note = b"bufr-auto: 1 message, at offset 0: table version 41 is later than that of the table set wmo-39" + NEWER.encode() + b"\n"
        self.holds("one of two reasons", done.stderr == note, done)
        refused = made(41, "012101", b"\1\1").replace(b"\0\0\x16", b"\0\0\x15", 1)
        done = self.auto(stream=refused)
        self.holds("no note of what is no message", done.stderr == b"offset 0: 11 section 1 short\n", done)
        other = bytearray(made(13, "012101", b"\1\1"))
        for other[11] in (1, 10):
            note = b"bufr-auto: 1 message, at offset 0: master table %d is not WMO's table for meteorology\n" % other[11]
            done = self.auto(stream=bytes(other))
            self.holds("a master table", done.stderr == note, done)

    def command_line(self) -> None:
        """`bufr-auto` prints its help and version, and reports invalid options, table directories, files and programs."""
        for word in ("--help", "-h"):
            done = self.auto(word)
            self.holds("help", done.returncode == 0 and b"\n    bufr-auto [--max-length BYTES] [FILE...]\n" in done.stdout, done)
            self.holds("help", b"BUFR_TABLES" in done.stdout and done.stderr == b"", done)
        of_program = subprocess.run([self.program, "--version"], capture_output=True).stdout
        version = b"bufr-auto, with " + of_program.strip() + b", unknown build\n"
        for word in ("--version", "-V"):
            self.holds("version", self.auto(word).stdout == version, self.auto(word))
        file = str(TOP / "examples/synop.bufr")
        for words, why in (
            (["--other"], "unknown option --other"),
            ([file, "--other=1"], "unknown option --other"),
            (["-xyz", file], "unknown option -xyz"),
            (["--encode=1"], "--encode does not take a value"),
            ([file, "--max-length"], "--max-length needs a value"),
            (["--max-length", "11"], "--max-length '11': expected a whole number of at least 12"),
            (["--max-length=\u0663\u0663"], "--max-length '\u0663\u0663': expected a whole number of at least 12"),
            (["--encode", "--max-length=99"], "--max-length cannot be used with --encode"),
        ):
            done = self.auto(*words)
            told = f"bufr-auto: {why}; see bufr-auto --help\n"
            self.holds(f"{words}", (done.returncode, done.stdout, done.stderr.decode()) == (2, b"", told), done)
        for words in ([file, "--help"], ["--max-length", "99", "-h"]):
            self.holds(f"help by {words}", self.auto(*words).stdout == self.auto("--help").stdout)
        self.holds("a word behind --", self.auto("--", "--help").returncode == 2)
        done = self.auto("--version", PYTHONIOENCODING="utf-16")
        self.holds("another encoding", done.stdout == version, done)
        # If bufr-auto is executed directly, its first line (python3 -S) keeps Python from loading sitecustomize.
        (self.place / "sitecustomize.py").write_text("raise SystemExit(7)")
        done = subprocess.run([AUTO[1], file], env={**self.environment, "PYTHONPATH": str(self.place)}, capture_output=True)
        self.holds("started as a program", done.stdout == (TOP / "examples/synop.txt").read_bytes(), done)
        (self.place / "sitecustomize.py").unlink()
        for words in (["-"], ["--", "-"]):
            done = self.auto(*words, stream=pathlib.Path(file).read_bytes())
            self.holds(f"standard input by {words}", done.stdout == (TOP / "examples/synop.txt").read_bytes(), done)
        done = self.auto("-", "-", stream=pathlib.Path(file).read_bytes())
        told = b"bufr-auto: standard input contains no messages: it is empty\n"
        wanted = ((TOP / "examples/synop.txt").read_bytes(), told, 0)
        self.same("standard input twice", (done.stdout, done.stderr, done.returncode), wanted)
        done = self.auto(file, BUFR_TABLES="")
        self.holds("an empty BUFR_TABLES", done.stdout == (TOP / "examples/synop.txt").read_bytes(), done)
        shutil.copytree(TOP / "scripts", self.place / "alone")
        done = subprocess.run([self.place / "alone/bufr-auto", file], env=self.environment, capture_output=True)
        told = f"bufr-auto: the directory {self.place}/alone/tables does not exist; set BUFR_TABLES"
        self.holds("no tables", done.returncode == 2 and done.stderr.decode().startswith(told), done)
        shutil.copy(file, self.place / "-dashed")
        done = subprocess.run([*AUTO, "--", "-dashed"], cwd=self.place, env=self.environment, capture_output=True)
        self.holds("a name with a dash", done.stdout == (TOP / "examples/synop.txt").read_bytes(), done)
        empty = self.place / "empty"
        empty.mkdir()
        for told, words, environment in (
            ("BUFR_TABLES is /nosuch, which is not a directory", [file], {"BUFR_TABLES": "/nosuch"}),
            (f"BUFR_TABLES is {file}, which is not a directory", [file], {"BUFR_TABLES": file}),
            (f"{empty} does not contain a table set such as wmo-39; set BUFR_TABLES to a directory that contains one", [file], {"BUFR_TABLES": str(empty)}),
            ("cannot open nosuch: No such file or directory", ["nosuch"], {}),
            ("cannot open '': No such file or directory", [""], {}),
            ("cannot run /nosuch: No such file or directory; install bufr, or set BUFR to its path", [file], {"BUFR": "/nosuch"}),
        ):
            done = self.auto(*words, **environment)
            wanted = (2, b"", f"bufr-auto: {told}\n".encode())
            self.holds(f"{words} {environment}", (done.returncode, done.stdout, done.stderr) == wanted, done)

    def blocks(self) -> None:
        """`bufr_auto` gives the same results if it reads blocks of a few bytes, so that documents and messages are split."""
        code = "import sys; sys.path.insert(0, sys.argv[1]); import bufr_auto; bufr_auto.BLOCK = int(sys.argv[2]); "
        code += "bufr_auto.Work(getattr(bufr_auto, sys.argv[3]), [None]).do()"
        lengths = (0, 50, 9)
        stream = b"".join(made(number, LISTS[1], b"\1\1\0", section_2=bytes(size)) for size in lengths for number in (13, 39))
        text = self.one_by_one(stream)[0]
        for size in (1, 2, 3, 4, 5, 80):
            for kind, given, wanted in (("Dump", stream, text), ("Encode", text, stream)):
                words = [sys.executable, "-c", code, TOP / "scripts", str(size), kind]
                done = subprocess.run(words, input=given, capture_output=True, env=self.environment)
                self.same(f"{kind} by blocks of {size}", (done.stdout, done.stderr, done.returncode), (wanted, b"", 0))

    def signals(self) -> None:
        """A signal ends `bufr-auto` and the programs it runs. No temporary files remain after a signal or a normal exit."""
        temporary = self.place / "temporary"
        # A program that records its process ID and then keeps running.
        slow = self.place / "slow"
        slow.write_text(f'#!/bin/sh\necho $$ > "{self.place}/begun"\nmv "{self.place}/begun" "{self.place}/number"\nexec sleep 60\n')
        slow.chmod(0o755)
        # If this test runs as a background job, it may ignore these signals, and bufr-auto would ignore them too.
        for number in (signal.SIGINT, signal.SIGHUP):
            signal.signal(number, signal.SIG_DFL)
        for number in (signal.SIGINT, signal.SIGTERM, signal.SIGHUP):
            for program in (self.program, str(slow)):
                (self.place / "number").unlink(missing_ok=True)
                environment = {**self.environment, "BUFR": program}
                child = subprocess.Popen(AUTO, stdin=subprocess.PIPE, stdout=subprocess.PIPE, env=environment, bufsize=0)
                child.stdin.write(made(39, LISTS[1], b"\1\1\0"))
                if program == self.program:
                    child.stdout.read(1)
                else:
                    self.wait((self.place / "number").exists)
                child.send_signal(number)
                status = child.wait(timeout=30)
                child.stdin.close()
                child.stdout.close()
                what = f"{signal.Signals(number).name} while it {'waits' if program == self.program else 'dumps'}"
                self.holds(f"{what}: the status", status == -number, status)
                self.holds(f"{what}: what is left", not list(temporary.iterdir()), list(temporary.iterdir()))
                if program != self.program:
                    started = int((self.place / "number").read_text())
                    has_gone = self.wait(lambda: not lib.runs(started))
                    self.holds(f"{what}: what still runs", has_gone)
        self.auto(stream=made(39, LISTS[1], b"\1\1\0"))
        self.holds("the end: what is left", not list(temporary.iterdir()), list(temporary.iterdir()))

    def ends(self) -> None:
        """`bufr-auto` reports closed pipes, files that are truncated while it reads them, and truncated output from `bufr`.

        `bufr-auto` also works if standard input is in non-blocking mode, or if SIGCHLD is ignored.
        """
        many = b"".join(made(version, LISTS[1], b"\1\1\0", section_2=bytes(60_000)) for version in (13, 39))
        for stream, told in ((many * 20, b"bufr-auto: write failed: Broken pipe\n"), (many[: len(many) // 2] * 20, b"bufr: 71 write failed\n")):
            (self.place / "stream").write_bytes(stream)
            pipes = dict(stdout=subprocess.PIPE, stderr=subprocess.PIPE, env=self.environment)
            with subprocess.Popen([*AUTO, str(self.place / "stream")], **pipes) as child:
                child.stdout.close()
                errors = child.stderr.read()
            self.holds("a reader that has gone", (child.returncode, errors) == (2, told), (child.returncode, errors))
        # The file is truncated while its first part is being dumped.
        other = self.place / "other"
        other.write_text(f'#!/bin/sh\nhead -c 5000000 "$STREAM" > "$STREAM.1"\ncat "$STREAM.1" > "$STREAM"\nexec "{self.program}" "$@"\n')
        other.chmod(0o755)
        (self.place / "stream").write_bytes(many * 80)
        words = {"BUFR": str(other), "STREAM": str(self.place / "stream")}
        done = self.auto(str(self.place / "stream"), **words)
        told = f"bufr-auto: {self.place}/stream was truncated while it was being read; try again\n".encode()
        whole = self.one_by_one(many)[0] * 80
        is_prefix = whole.startswith(done.stdout) and done.stdout.endswith(b"\nend\n")
        self.holds("a file that becomes shorter", is_prefix and (done.returncode, done.stderr) == (2, told), done.stderr)
        # The output of `bufr` is truncated, but the exit status is 0.
        other.write_text(f'#!/bin/sh\n"{self.program}" "$@" | head -c 3000\n')
        done = self.auto(stream=made(41, LISTS[1], b"\1\1\0") + made(13, LISTS[1], b"\1\1\0") * 9, BUFR=str(other))
        told = b"bufr-auto: 1 message, at offset 0: table version 41 is later than that of the table set wmo-39" + NEWER.encode()
        told += b"\nbufr-auto: bufr stopped early; output is incomplete\n"
        self.holds("a text that is cut", (done.returncode, done.stderr) == (2, told), done)
        # The file is truncated while a long document is being encoded.
        other.write_text(f'#!/bin/sh\nhead -c 5000000 "$STREAM" > "$STREAM.1"\ncat "$STREAM.1" > "$STREAM"\nexec "{self.program}" "$@"\n')
        (self.place / "stream").write_bytes(b"message\n" + b"# A comment in a document.\n" * 1_000_000)
        done = self.auto("--encode", str(self.place / "stream"), **words)
        told = f"bufr-auto: {self.place}/stream was truncated while it was being read; try again\n".encode()
        self.holds("a document that becomes shorter", (done.returncode, done.stderr) == (2, told), done)
        # Standard input is in non-blocking mode.
        given, pipe = os.pipe()
        os.set_blocking(given, False)
        with subprocess.Popen(AUTO, stdin=given, stdout=subprocess.PIPE, stderr=subprocess.PIPE, env=self.environment) as child:
            os.close(given)
            message, told = made(39, LISTS[1], b"\1\1\0"), b""
            os.write(pipe, message)
            while not told.endswith(b"end\n"):
                told += (more := os.read(child.stdout.fileno(), 1 << 16))
                if not more:
                    break
            time.sleep(0.2)  # so that the next read begins before the input arrives
            with contextlib.suppress(BrokenPipeError):
                os.write(pipe, message)
            os.close(pipe)
            output, errors = child.communicate()
        self.holds("an input that does not block", (child.returncode, output, errors) == (0, told, b""), (told, output, errors))
        ignoring = "import os, signal, sys; signal.signal(signal.SIGCHLD, signal.SIG_IGN); os.execv(sys.argv[1], sys.argv[1:])"
        words = [sys.executable, "-c", ignoring, *AUTO, str(TOP / "examples/synop.bufr")]
        done = subprocess.run(words, env=self.environment, capture_output=True)
        self.holds("ended children are ignored", done.stdout == (TOP / "examples/synop.txt").read_bytes(), done)

    def start_up(self) -> None:
        """For one message, `bufr-auto` takes at most 1.8 times as long as an empty script, `bufr ls` and `bufr dump` together.

        Python runs with -S, because modules that `site` imports at startup could hide which modules the script itself imports.
        """
        environment = {**self.environment, "PYTHONPYCACHEPREFIX": str(self.place / "cache")}
        environment.pop("PYTHONDONTWRITEBYTECODE", None)
        # bufr-auto itself reads a table only if the descriptor list alone does not show whether a note is needed.
        for list_of, is_read in (("012101", False), ("048001 301001", False), ("301001", True)):
            words = [sys.executable, "-S", "-X", "importtime", AUTO[1]]
            stream = made(13, list_of, b"", local=102)
            done = subprocess.run(words, input=stream, capture_output=True, env=environment)
            read = re.search(rb"\| +csv$", done.stderr, re.M) is not None
            self.holds(f"tables are read for {list_of}", read == is_read, done.stderr)
        synop, python = TOP / "examples/synop.bufr", [sys.executable, "-S"]
        alone = ([*python, "-c", "pass"], [self.program, "ls", synop], [self.program, "dump", *self.tables_of(39), synop])
        seconds, *parts = lib.least_seconds([[*python, AUTO[1], synop], *alone], 1.8, env=environment)
        times = seconds / sum(parts)
        print(f"bufr_auto: one message in {1000 * seconds:.0f} ms, {times:.2f} times its bare parts")
        self.holds("times the bare parts at the start", times <= 1.8, times)

    def wait(self, is_so) -> bool:
        end = time.monotonic() + 20
        while not is_so() and time.monotonic() < end:
            time.sleep(0.02)
        return bool(is_so())

    def speed(self) -> None:
        """For 50,000 messages of four versions, `bufr-auto` takes at most three times as long as `bufr dump` with one set."""
        message = bytearray((TOP / "examples/synop.bufr").read_bytes())
        versions = []
        for version in (17, 18, 37, 39):
            message[21] = version
            versions.append(bytes(message))
        archive = self.place / "archive"
        archive.write_bytes(b"".join(versions) * 12_500)
        counted = 'set -eo pipefail; count=$("$@" | grep -cx end); [ "$count" = 50000 ]'
        commands = [[*AUTO, archive], [self.program, "dump", *self.tables_of(39), archive]]
        commands = [["bash", "-c", counted, "bash", *words] for words in commands]
        seconds, dump = lib.least_seconds(commands, 3, env=self.environment)
        print(f"bufr_auto: 50,000 messages of four versions in {seconds:.1f} s of processor time, one dump in {dump:.1f} s")
        self.holds("times the seconds of one dump", seconds <= 3 * dump, (seconds, dump))


def main() -> None:
    with tempfile.TemporaryDirectory() as place:
        trial = Trial(place)
        for part in (
            trial.few_files,
            trial.command_line,
            trial.files,
            trial.no_message,
            trial.notes,
            trial.conditions,
            trial.stops,
            trial.feeds,
            trial.notes_of_feeds,
            trial.lengths,
            trial.encodes,
            trial.same_as_one_by_one,
            trial.blocks,
            trial.signals,
            trial.ends,
            trial.start_up,
            trial.speed,
        ):
            if not trial.complaints:
                part()
    finish(trial.complaints)


if __name__ == "__main__":
    main()
