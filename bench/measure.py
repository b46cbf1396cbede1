#!/usr/bin/env python3
"""Times `bufr ls`, `bufr dump` and `bufr encode` on generated streams, then `bufr dump` on hostile shapes.

    bench/measure.py [PROGRAM [FOLDER [STREAM...]]]

PROGRAM is crates/bufr/out/bufr by default. FOLDER contains the streams, and is bench/out by default. If you name streams (see
STREAMS for the names), the script prints only their rows in the tables for `ls`, `dump` and `encode`.

For comparison, the script also times a hand-written lister, dumper and encoder and, if they are installed, the tools of
ecCodes. It prints tables in Markdown: one for each command, those in bench/README.md, one for the hostile shapes, and one for
ecCodes. For each row, it first checks that the program and the hand-written one write the same octets. Then the two run in
turn for fifteen rounds, and their output is discarded. The times are the lowest CPU times (user plus system). The memory is
the peak resident memory of one run. This benchmark needs Linux, rustc, GNU time and 3 GB of disk space, and is not part of
the gate.

If a stream takes ecCodes a long time, ecCodes reads only the first tenth of it. The time and the output size in the table are
then ten times those measured, and are marked with a `*`.
"""
import os
import pathlib
import shutil
import subprocess
import sys
import time

import generate
import hostile_shapes
from lib import BUILT, TABLES, TOP

ROUNDS = 15
# If a hand-written program takes less than this many seconds, most of the time is startup, so no ratio is printed.
SHORT = 0.01

STREAMS = {
    "small": "500,000 messages of 48 bytes each",
    "small_3": "500,000 edition 3 messages of 46 bytes each",
    "middle": "messages of 10 KB each",
    "bulletins": "bulletins that each contain one message of 10 KB",
    "large": "messages of 1 MB each",
    "noise": "a stream without messages",
    "hostile": "six million strays that each declare a length of 1 MB",
    "dump_reports": "100,000 short reports",
    "dump_reports_3": "100,000 short reports in edition 3",
    "dump_packed_reports": "1,000 compressed messages of 200 short reports each",
    "dump_plain": "10 messages, each with 1,000 subsets of 500 items",
    "dump_packed": "10 compressed messages, each with 1,000 subsets of 500 items",
    "dump_half_missing": "reports with half of the items missing",
    "dump_mostly_alike": "compressed messages in which three quarters of the items are the same in every subset",
    "dump_all_missing": "messages with all items missing",
    "dump_compressed_all_missing": "compressed messages with all items missing",
    "dump_compressed_wide": "5 compressed messages, each with 5,000 subsets of 127 items",
    "dump_compressed_narrow": "100 compressed messages, each with 20,000 subsets of 2 items",
    "dump_one_item": "100 messages, each with 20,000 subsets of one item",
    "dump_texts": "messages that contain only strings",
    "dump_escapes": "messages that contain only strings of escaped bytes",
    "dump_new_references": "messages that redefine reference values with 2 03",
    "dump_references_in_subsets": "messages in which each of 2,000 subsets redefines reference values with 2 03",
    "dump_twelve_lists": "messages that cycle through 12 descriptor lists",
    "dump_lists_in_turn": "messages that cycle through 14 descriptor lists",
    "dump_hundred_lists": "messages that cycle through 100 descriptor lists",
}
LISTED = [name for name in STREAMS if not name.startswith("dump_")]
DUMPED = [name for name in STREAMS if name.startswith("dump_")]
# ecCodes reads only the first tenth of each stream in SHORTENED. It does not read the stream in LEFT_OUT at all, because even
# a tenth of that stream would take minutes.
SHORTENED = ("small", "small_3", "dump_reports", "dump_reports_3", "dump_plain")
LEFT_OUT = ("hostile",)


def seconds(words: list) -> float:
    """Returns the CPU seconds of one run, whose output is discarded."""
    child = subprocess.Popen(words, stdout=subprocess.DEVNULL, stderr=subprocess.DEVNULL)
    _, _, usage = os.wait4(child.pid, 0)
    return usage.ru_utime + usage.ru_stime


def least(*commands: list) -> list:
    """Returns the lowest CPU seconds of each command. The commands run in turn."""
    rounds = [[seconds(words) for words in commands] for _ in range(ROUNDS)]
    return [min(column) for column in zip(*rounds)]


def resident(words: list, file: pathlib.Path) -> int:
    """Returns a run's peak resident memory in KiB, as measured by GNU time, which writes the result to the file.

    The run is started with GNU time, because the peak can include memory used by the parent process, and GNU time uses less
    than Python.
    """
    with open(os.devnull, "wb") as nowhere:
        subprocess.run(["/usr/bin/env", "time", "-q", "-f", "%M", "-o", str(file), *words], stdout=nowhere, stderr=nowhere)
    return int(file.read_text())


def written(words: list, by_hand: list) -> int:
    """Returns the number of octets that a command writes. Exits if the hand-written program does not write the same octets."""
    ours, theirs = (subprocess.run(command, capture_output=True) for command in (words, by_hand))
    if (ours.stdout, ours.stderr) != (theirs.stdout, theirs.stderr):
        sys.exit(f"{' '.join(words)}: the one by hand writes other octets")
    return len(ours.stdout) + len(ours.stderr)


class Measuring:
    """The commands to measure (our program and the hand-written ones), the directory with the streams, and the results."""

    def __init__(self, program: str, folder: pathlib.Path) -> None:
        self.folder, self.cells = folder, {}
        names = {"ls": "baseline", "dump": "dump_by_hand", "encode": "encode_by_hand"}
        self.ours = {command: [program, command, *(TABLES if command != "ls" else [])] for command in names}
        self.by_hand = {c: [self.built(name), *(TABLES[1::2] if c != "ls" else [])] for c, name in names.items()}

    def built(self, name: str) -> str:
        """Compiles a hand-written program for the same processors that `rt` targets. Returns its path."""
        program, source = self.folder / name, TOP / "bench" / f"{name}.rs"
        options = ["--edition", "2021", "-O", "-C", "target-cpu=x86-64-v2", "-C", "codegen-units=1"]
        subprocess.run(["rustc", *options, "-o", str(program), str(source)], check=True)
        return str(program)

    def row(self, command: str, stream: str, path: pathlib.Path, others=()) -> None:
        """Prints one row of the table for a command."""
        ours, by_hand = [*self.ours[command], str(path)], [*self.by_hand[command], str(path)]
        text = written(ours, by_hand)
        times = least(ours, by_hand, *([*other, str(path)] for other in others))
        kib = resident(ours, self.folder / "resident.txt")
        ratio = "" if times[1] < SHORT else f"{times[0] / times[1]:.1f}"
        self.cells[command, stream] = [f"{times[0]:.3f}", ratio, f"{kib:,}"]
        size = path.stat().st_size
        speed = max(size, text) / times[0] / 1e6
        cells = [STREAMS[stream], f"{size / 1e6:.0f}", f"{text / 1e6:.0f}", f"{times[0]:.3f}", f"{speed:,.0f}"]
        cells += [f"{times[1]:.3f}", ratio, *(f"{other:.3f}" for other in times[2:]), f"{kib:,}"]
        print("| " + " | ".join(cells) + " |", flush=True)

    def head(self, command: str, others=()) -> None:
        columns = ["stream", "MB read", "MB written", f"`bufr {command}`", "MB a second", "by hand", "ratio", *others, "KiB"]
        print("\n| " + " | ".join(columns) + " |\n" + "|---" * len(columns) + "|")

    def listings(self, chosen: list) -> None:
        self.head("ls", ("`cat`",))
        for stream in LISTED:
            if stream in chosen:
                self.row("ls", stream, self.folder / f"{stream}.bufr", (["cat"],))

    def dumps(self, chosen: list) -> None:
        self.head("dump")
        for stream in [*DUMPED, "hostile", "noise"]:
            if stream in chosen:
                self.row("dump", stream, self.folder / f"{stream}.bufr")

    def encodes(self, chosen: list) -> None:
        """Times `encode` on the dumps of the streams. Exits if encoding a dump does not restore its stream."""
        self.head("encode")
        for stream in DUMPED:
            if stream not in chosen:
                continue
            path, text = self.folder / f"{stream}.bufr", self.folder / f"{stream}.txt"
            with text.open("wb") as out:
                subprocess.run([*self.ours["dump"], str(path)], stdout=out, check=True)
            if subprocess.run([*self.ours["encode"], str(text)], capture_output=True).stdout != path.read_bytes():
                sys.exit(f"{stream}: its text is encoded to other octets")
            self.row("encode", stream, text)

    def summary(self) -> None:
        """Prints the tables that appear in bench/README.md."""
        for commands, streams in ((["ls"], LISTED), (["dump", "encode"], DUMPED)):
            columns = ["stream", *(f"`{command}` (s) | ratio | KiB" for command in commands)]
            print("\n| " + " | ".join(columns) + " |\n" + "|---" * (1 + 3 * len(commands)) + "|")
            for stream in streams:
                cells = [cell for command in commands for cell in self.cells[command, stream]]
                print("| " + " | ".join([STREAMS[stream], *cells]) + " |")

    def eccodes(self) -> None:
        """Prints the time and memory that the ecCodes tools need."""
        print("\n| stream | tool | seconds | MB written | KiB |\n|---|---|---|---|---|")
        for stream in STREAMS:
            if stream in LEFT_OUT:
                continue
            for words in [["bufr_dump", "-p"]] if stream in DUMPED else [["bufr_ls"], ["bufr_count"]]:
                print(f"| {STREAMS[stream]} | `{' '.join(words)}` | {self.eccodes_cells(words, stream)} |", flush=True)

    def eccodes_cells(self, words: list, stream: str) -> str:
        """Returns a tool's CPU seconds, MB written and peak KiB. For streams in SHORTENED, the first two are scaled up."""
        path, times = self.folder / f"{stream}.bufr", 10 if stream in SHORTENED else 1
        part = self.folder / "tenth.part"
        part.write_bytes(path.read_bytes()[: path.stat().st_size // times])
        command = [*words, str(part)]
        taken, kib = least(command)[0] * times, resident(command, self.folder / "resident.txt")
        text = len(subprocess.run(command, stdout=subprocess.PIPE).stdout) * times / 1e6
        part.unlink()
        mark = "*" * (times > 1)
        return f"{taken:.2f}{mark} | {text:.0f}{mark} | {kib:,}"


def main() -> None:
    program = sys.argv[1] if len(sys.argv) > 1 else str(BUILT)
    folder = pathlib.Path(sys.argv[2]) if len(sys.argv) > 2 else TOP / "bench/out"
    if not pathlib.Path(program).exists():
        sys.exit(f"{program} is not there: build it first (see README.md)")
    for tool in ["rustc", "time"]:
        if shutil.which(tool) is None:
            sys.exit(f"{tool} is not there")
    chosen = sys.argv[3:] or list(STREAMS)
    for name in chosen:
        if name not in STREAMS:
            sys.exit(f"{name} is not a stream: the streams are {', '.join(STREAMS)}")
    generate.write_streams(folder, chosen)
    measuring = Measuring(program, folder)
    start = least([*measuring.ours["dump"], os.devnull], [*measuring.by_hand["dump"], os.devnull])
    print(f"On {time.strftime('%d %B %Y')}. Start-up of a dump: {1000 * start[0]:.1f} ms, by hand {1000 * start[1]:.1f}.")
    measuring.listings(chosen)
    measuring.dumps(chosen)
    measuring.encodes(chosen)
    if sys.argv[3:]:
        return
    measuring.summary()
    print()
    hostile_shapes.table(program)
    if shutil.which("bufr_dump") is not None:
        measuring.eccodes()


if __name__ == "__main__":
    main()
