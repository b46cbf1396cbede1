#!/usr/bin/env python3
"""Checks that each command needs no more memory than docs/operations.md states, even for the worst messages of up to 16 MB.

    tests/program_memory.py [PROGRAM]

The test limits the address space. The worst message for `ls` consists almost entirely of data. The worst message for `dump`
contains compressed items that are one bit wide but take seven bits each. The worst inputs for `encode` are the dump of that
message, a compressed document with many short subsets, and a document with long strings.
"""
import re
import resource
import subprocess
import tempfile

import lib
from lib import TABLES, TOP, finish, program, words


def row(command: str) -> str:
    """Returns the cell in docs/operations.md that states the memory for a command."""
    page = (TOP / "docs/operations.md").read_text(encoding="utf-8")
    return re.search(rf"^\| `bufr {command}` \| ([^|]*) \|", page, re.M)[1]


def number(pattern: str, text: str) -> int:
    return int(re.search(pattern, text)[1])


def compressed_flags(groups: int) -> bytes:
    """Returns a compressed message of one subset, with 8 * `groups` replications of 65,535 flags."""
    flags = int("1000000" * 65_535, 2)
    group = (65_535 << 6) << 7 * 65_535 | flags
    whole = sum(group << n * (22 + 7 * 65_535) for n in range(8))
    data = whole.to_bytes(22 + 7 * 65_535, "big") * groups
    return lib.message(data, words("101000 031002 031031") * 8 * groups, flags=0xC0)


def compressed_subsets() -> bytes:
    """Returns a compressed message with eight flags in each of 65,535 subsets."""
    item = "0000001" + "01" * 32_767 + "0"
    data = int(item * 8, 2).to_bytes(len(item), "big")
    return lib.message(data, words("031031") * 8, subsets=65_535, flags=0xC0)


def status(limit: int, given, *command) -> int:
    """Runs the program with a limit on its address space, in bytes, and returns its exit status."""
    given.seek(0)
    return subprocess.run(
        [program(), *command],
        stdin=given,
        stdout=subprocess.DEVNULL,
        stderr=subprocess.DEVNULL,
        preexec_fn=lambda: resource.setrlimit(resource.RLIMIT_AS, (limit, limit)),
    ).returncode


def main() -> None:
    ls = number(r"^(\d+) MB$", row("ls")) * 1_000_000
    dump = number(r"^(\d+) GB$", row("dump")) * 1_000_000_000
    for_lines, for_texts = number(r"^(\d+) MB for each million lines", row("encode")), number(r"(\d+) times", row("encode"))
    for_compressed = number(r"plus (\d+) MB", row("encode")) * 1_000_000
    texts = lib.message((65_000).to_bytes(2, "big") + b"A" * 255 * 65_000, words("101000 031002 205255"))
    streams = {"data": lib.message(bytes(16_700_000)), "flags": compressed_flags(36), "subsets": compressed_subsets(), "texts": texts}
    wrong = []
    for name, message in streams.items():
        with tempfile.TemporaryFile() as stream, tempfile.TemporaryFile() as text:
            stream.write(message)
            stream.flush()
            for limit, command in ((ls, ["ls"]), (dump, ["dump", *TABLES])):
                if status(limit, stream, *command):
                    wrong.append(f"bufr {command[0]} needs more than the page says for {name}")
            stream.seek(0)
            subprocess.run([program(), "dump", *TABLES], stdin=stream, stdout=text, check=True)
            text.seek(0)
            lines = sum(1 for _ in text)
            limit = 5_000_000 + for_lines * lines + for_texts * len(message) * (name == "texts")
            limit += for_compressed * (name in ("flags", "subsets"))
            if status(limit, text, "encode", *TABLES):
                wrong.append(f"bufr encode needs more than the page says for the dump of {name}")
    finish(wrong)


if __name__ == "__main__":
    main()
