#!/usr/bin/env python3
"""Checks that the scripts need no more memory than --help states, whatever the stream contains.

    tests/script_memory.py [PROGRAM [SCRIPT..]]

The limit for each process is the number of megabytes in --help, plus the length of the longest message if --help says so.
The streams contain 300,000 strays, 300,000 small messages with bytes between them, 30,000 kinds of messages for which
tables are missing, 200,000 kinds for which no rows are missing, messages of 16 MB, long descriptor lists, or messages of 40
table versions. There is also a long document without an `end` line. With the first two streams, a script must not need much
more memory than with a third of the stream.
"""
import os
import pathlib
import re
import subprocess
import sys
import tempfile

import lib
from lib import TABLES, TOP, finish, program

SCRIPTS = {
    "bufr-auto": [],
    "bufr-auto --encode": [],
    "bufr-auto --max-length": ["1000000"],
    "bufr-csv": [],
    "bufr-extract": [],
    "bufr-extract --max-length=16777215": [],
    "bufr-lacks": [],
    "bufr-parallel": ["-P", "2", "dump", *TABLES],
}
LONGEST = 16_700_000
# The maximum number of kilobytes by which a script's memory for a whole stream may exceed its memory for a third of it.
GROWTH = 2000


def strays():
    """Returns the pieces of a stream of 300,000 strays with bytes between them."""
    return 30 * [(b"BUFR\0\0\0\0" + bytes(24)) * 10_000]


def messages():
    """Returns the pieces of a stream of 300,000 small messages with line ends between them."""
    return 30 * [(lib.message(b"\x14") + b"\r\n") * 10_000]


def kinds():
    """Yields 30,000 messages of different kinds, each with its own descriptor list, and then 40 messages of other kinds.

    For each of these 40 messages, 4,096 rows are missing.
    """
    for centre in range(1, 301):
        pieces = []
        for local in range(1, 101):
            others = b"\x30\x01" * 100 + bytes([0x31, centre & 255, 0x32, centre >> 8, 0x33, local])
            pieces.append(lib.asking(lib.message(b"", others), 13, local, centre))
        yield b"".join(pieces)
    rows = b"".join(bytes([x, y]) for x in range(0x30, 0x40) for y in range(256))
    for centre in range(40):
        yield lib.asking(lib.message(b"", rows), 14, 1, centre)


def centres():
    """Yields 200,000 messages for which no rows are missing, each with its own combination of centre and local version."""
    message = lib.message(b"\x14")
    for centre in range(1000):
        yield b"".join(lib.asking(message, 13, local, centre) for local in range(200))


def long():
    """Yields four messages of almost the maximum length, in pieces."""
    head = lib.message(b"")[: -len(b"\0\0\4\0" b"7777")]
    size = LONGEST - len(head) - len(b"\0\0\4\0" b"7777")
    head = head[:4] + LONGEST.to_bytes(3, "big") + head[7:] + (4 + size).to_bytes(3, "big") + b"\0"
    for _ in range(4):
        yield head
        for begin in range(0, size, 100_000):
            yield bytes(min(100_000, size - begin))
        yield b"7777"


def long_lists():
    """Yields 80 messages, each with a list of 65,000 descriptors."""
    for number in range(80):
        yield lib.asking(lib.message(b"", bytes([0x30, number]) * 65_000), 13, 1)


def many_long_lists():
    """Yields 300 messages with different lists of 65,000 descriptors, none of which is in the tables."""
    for number in range(300):
        words = bytes([0x30, number & 255]) * 64_900 + bytes([0x31, number >> 8]) * 100
        yield lib.asking(lib.message(b"", words), 13, 1)


def versions():
    """Yields 40 messages, each with its own table version. There is a table set for each version."""
    for version in range(1, 41):
        yield lib.asking(lib.message(b"", lib.words("307080 063255")), version)


def no_end():
    """Yields a document with a million comments, but without an `end` line."""
    yield b"message\n"
    for _ in range(100):
        yield b"# A comment in a document.\n" * 10_000


# Each stream, with the expected exit status and number of fault lines.
STREAMS = {
    strays: (1, 300_000),
    messages: (0, 0),
    kinds: (1, 30_040),
    centres: (0, 0),
    long: (0, 0),
    long_lists: (1, 80),
    many_long_lists: (1, 0),
    versions: (1, 0),
}
# Streams that are given to only one script, with the name of that script.
ONLY = {long_lists: "bufr-auto", many_long_lists: "bufr-lacks", versions: "bufr-lacks", centres: "bufr-lacks"}
TEXTS = {no_end: (1, 1)}


def stated(script: str) -> tuple:
    """Returns the limit in a script's help: the megabytes, and whether the length of the longest message is added."""
    words = [sys.executable, TOP / "scripts" / script, "--help"]
    text = " ".join(subprocess.run(words, stdout=subprocess.PIPE, text=True).stdout.split())
    found = re.search(r"needs? (?:at most )?(\d+) MB of memory(.*?memory for the longest message)?", text)
    return (int(found[1]), bool(found[2])) if found else (0, False)


def is_tried(name: str, stream) -> bool:
    """Returns whether a script is tried with a stream."""
    option = "".join(name.split()[1:])
    if stream in TEXTS:
        return option == "--encode"
    if stream in ONLY:
        return name == ONLY[stream]
    return not option or (stream is long and option != "--encode")


def measured(name: str, path: pathlib.Path) -> tuple:
    """Runs a script. Returns its exit status, the number of fault lines, and its peak memory in kilobytes."""
    script, *option = name.split()
    words = [sys.executable, TOP / "scripts" / script, *option, *SCRIPTS[name], path]
    with tempfile.TemporaryFile() as errors:
        status, usage = lib.usage_of(words, stdout=subprocess.DEVNULL, stderr=errors)
        errors.seek(0)
        lines = subprocess.run(["grep", "-cE", "^(offset|line)"], stdin=errors, stdout=subprocess.PIPE).stdout
    seconds = usage.ru_utime + usage.ru_stime
    print(f"script_memory: {name}, {path.name}: {usage.ru_maxrss // 1000} MB in {seconds:.1f} s")
    return status, int(lines), usage.ru_maxrss


def wanted(name: str, stream) -> tuple:
    """Returns the expected exit status and number of fault lines."""
    script, *option = name.split()
    if stream is long and option == ["--max-length"]:
        return 1, 0
    if stream is kinds and script in ("bufr-extract", "bufr-lacks"):  # these do not dump messages
        return int(script == "bufr-lacks"), 0
    return {**STREAMS, **TEXTS}[stream]


def main() -> None:
    wrongs = []
    os.environ["BUFR"] = program()
    asked = sys.argv[2:]
    scripts = [name for name in SCRIPTS if not asked or name.split()[0] in asked]
    scripts = [name for name in scripts if (TOP / "scripts" / name.split()[0]).exists()]
    for name in scripts:
        if not stated(name.split()[0])[0]:
            wrongs.append(f"{name} --help states no bound")
    with tempfile.TemporaryDirectory() as place:
        sets = pathlib.Path(place) / "sets"
        sets.mkdir()
        for version in range(1, 41):
            (sets / f"wmo-{version}").symlink_to(TOP / "tables/wmo-39")
        for stream in [*STREAMS, *TEXTS]:
            path, third = (pathlib.Path(place) / name for name in (stream.__name__, f"a third of {stream.__name__}"))
            # Write the streams in pieces, because the memory measured for a child process includes the memory of this process.
            with open(path, "wb") as file, open(third, "wb") as less:
                for number, piece in enumerate(stream()):
                    file.write(piece)
                    if number < 10:
                        less.write(piece)
            for name in scripts:
                if not is_tried(name, stream):
                    continue
                os.environ["BUFR_TABLES"] = str(sets if stream is versions else TOP / "tables")
                *told, kilobytes = measured(name, path)
                if tuple(told) != wanted(name, stream):
                    wrongs.append(f"{name}, {path.name}: status and fault lines {told}, not {wanted(name, stream)}")
                megabytes, has_longest = stated(name.split()[0])
                most = 1000 * megabytes + (LONGEST // 1000 if has_longest and stream is long else 0)
                if kilobytes > most:
                    wrongs.append(f"{name}, {path.name}: {kilobytes} KB, and --help states {most}")
                if stream in (strays, messages) and kilobytes > measured(name, third)[2] + GROWTH:
                    wrongs.append(f"{name}, {path.name}: {kilobytes} KB, more than for a third")
            path.unlink()
    finish(wrongs)


if __name__ == "__main__":
    main()
