#!/usr/bin/env python3
"""Makes each of the program's memory allocations fail in turn, and checks what the program writes.

    tests/failed_allocations.py [PROGRAM]

Each command first runs without failures. Then its Nth allocation fails, for each N up to one more than the number of
allocations, so that the last run produces the complete output. Every other run must exit with status 2. Its output must be
a prefix of the complete output, and its errors must be a prefix of the fault lines, followed by `bufr: 73 out of memory`. A
run may also succeed even though one allocation fails, if the program then tries a smaller one. For example, if `collect` in
std cannot allocate a large buffer for the arguments, it requests a smaller buffer.

The output consists of pieces: the lines of `ls`, the texts of `dump`, or the messages of `encode`. The program must write
whole pieces, and at least as many as when an earlier allocation failed. `dump` may also write whole lines of an incomplete
text. If there are several pieces and a late allocation fails, the first one must have been written, because the program
flushes its output before it exits. If a message has the same descriptors as the previous one, `dump` must not allocate memory
for it, unless its data are compressed or redefine reference values. If `dump` cannot allocate memory for lines that are the
same in every subset of compressed data, it must generate each line as it is needed.

Finally, the tests in `growth_tests.rt`, each of which calls one library function, run in the same way. Each test must pass
whichever allocation fails.

fail_allocations.c makes the allocations fail. It is compiled by a C compiler ($CC or cc) or, if there is none, by the
toolchain's compiler.
"""
# rule: fault-73
import concurrent.futures
import os
import pathlib
import re
import shutil
import subprocess
import sys
import tempfile
from typing import NamedTuple

from lib import SECTION_1, TABLES, TOP, finish, message, program, section, words

WANT = b"bufr: 73 out of memory\n"
TESTS = TOP / "crates/bufr_tests/out/bufr_tests_tests"
PIECE = rb"(?s)message\n.*?\nend\n|offset=[^\n]*\n|.+"  # a text of `dump`, a line of `ls`, or else the whole output

# Small tables: valid ones, and a Table D with a cycle.
SMALL_B = b"fxy,name,unit,scale,reference,width\n001001,WMO BLOCK NUMBER,Numeric,0,0,7\n"
SMALL_D = b"fxy,member\n360192,001001\n360193,360192\n360193,001001\n"
CYCLE_D = b"fxy,member\n300001,300002\n300002,300001\n"

ONE = message(b"\x14")
# The inputs, by description. The first two are for `ls`, and the others for `dump`.
INPUTS = {
    "a stray word and a message": b"BUFR\0\0\x40\x04" + ONE + bytes(8),
    "a message longer than the first buffer": message(bytes(10_000)),
    "a delayed group": message(b"\x02\x14\x2C", words("101000 031001 001001")),
    "a redefined reference": message(b"\xE4\x1C\x23\xC0", words("203010 012101 203255 012101")),
    "compressed names": message(bytes(20) + bytes.fromhex("1105090C83FFFFFFFC"), words("001015"), 2, 0xC0),
    "32 groups": message(b"\x14", words(" ".join(f"1{x:02}001" for x in range(32, 0, -1)) + " 001001")),
    "150 elements in sequences": message(bytes(138), words("301011 " * 50)),
    "200 compressed items": message(bytes(325), words("101200 001001"), 2, 0xC0),
    "octets for local use": b"BUFR\0\0\x38\x04"
    + section(SECTION_1[4][3:9] + b"\x80" + SECTION_1[4][10:] + b"\xAB\xCD", 4)
    + section(b"\0\1\2", 4)
    + ONE[30:],
    "four items": message(bytes(4), words("104001 001001 001001 001001 001001")),
    "two subsets that are alike": message(bytes(11), words("001001 001002 005001"), 2),
    "two templates in turn": (ONE + message(b"\x14\x28", words("001001 001001"))) * 2,
    "a long text": message(b"A" * 255, words("205255")),
    "nothing": b"",
}

# For some runs, the number of allocations that can fail without changing the output. These allocations are for shared lines,
# and for the list that records which other items are between these lines.
SPARED = {"dump of compressed names": 1, "dump of 200 compressed items": 2, "dump of buoys.bufr": 4}


class Run(NamedTuple):
    """A command to run, and its input."""

    name: str
    words: list
    input: bytes


class Left(NamedTuple):
    """The results of a run, and the number of allocations that the program attempted."""

    status: int
    output: bytes
    errors: bytes
    calls: int


class Trial:
    """The library that makes allocations fail, and a directory for files."""

    def __init__(self, compiler: list, work: pathlib.Path) -> None:
        self.work, self.library = work, work / "fail_allocations.so"
        source = TOP / "tests/fail_allocations.c"
        flags = ["-shared", "-fPIC", "-O1", "-nostdlib", "-o", self.library]
        subprocess.run([*compiler, *flags, source], check=True)

    def left(self, run: Run, refused: int) -> Left:
        """Runs a command, and makes allocation number `refused` fail. If this number is 0, no allocation fails."""
        count, source = self.work / f"count{refused}", self.work / f"input{refused}"
        count.write_bytes(bytes(8))
        source.write_bytes(run.input)
        told = {"LD_PRELOAD": str(self.library), "REFUSE_COUNT": str(count), "REFUSE_AT": str(refused)}
        with source.open("rb") as stdin:
            how = {"stdin": stdin, "capture_output": True, "env": told, "timeout": 60}
            done = subprocess.run(run.words, **how)
        return Left(done.returncode, done.stdout, done.stderr, int.from_bytes(count.read_bytes(), sys.byteorder))

    def lefts(self, run: Run) -> tuple:
        """Runs a command without failures, and then with each allocation failing in turn. Returns the results of all runs."""
        whole = self.left(run, 0)
        print(f"failed_allocations: {run.name}: {whole.calls} calls", flush=True)
        numbers = range(1, whole.calls + 2)
        with concurrent.futures.ThreadPoolExecutor(os.cpu_count()) as pool:
            return whole, list(pool.map(lambda number: self.left(run, number), numbers))


def wrongs(name: str, whole: Left, lefts: list) -> list:
    """Returns complaints about the results of `lefts`: a run without failures, and those in which one allocation fails."""
    if whole.calls == 0:
        return ["the library does not see the program's calls for memory"]
    if whole.errors.endswith(WANT):
        return [f"without a refusal: {whole}"]
    again = [left for left in lefts if left.calls > whole.calls and left[:3] == whole[:3]]
    spared = [left for left in lefts[:-1] if left.calls <= whole.calls and left[:3] == whole[:3]]
    wrong = [f"call {n} refused: {left}"[:400] for n, left in enumerate(lefts, 1) if not fits(whole, n, left)]
    wrong += [f"{len(again)} refused calls are made again"] * (len(again) > 1)
    wrong += [f"{len(spared)} refused calls are spared"] * (len(spared) != SPARED.get(name, 0))
    short = [len(left.output) for left in lefts if left[:3] != whole[:3]]
    wrong += ["a later refusal leaves less"] * (short != sorted(short))
    return wrong + ["no refusal leaves a piece"] * (len(pieces(whole.output)) > 1 and short[-1] == 0)


def fits(whole: Left, number: int, left: Left) -> bool:
    """Returns whether the results are right if the allocation with this number fails."""
    if left[:3] == whole[:3]:
        return True
    prefix = left.errors[: -len(WANT)]
    reported = left.status == 2 and left.errors.endswith(WANT) and left.calls >= number
    lines = whole.errors.startswith(prefix) and prefix[-1:] in (b"", b"\n")
    return reported and lines and is_left(left.output, whole.output)


def is_left(output: bytes, whole: bytes) -> bool:
    """Returns whether an output consists of the first pieces of `whole`, possibly followed by some lines of the next text."""
    left = whole
    for piece in reversed(pieces(whole)):
        left = left[: -len(piece)]
        if output.startswith(left):
            rest = output[len(left) :]
            return rest in (b"", piece) or piece[:8] == b"message\n" and piece.startswith(rest) and rest[-1:] == b"\n"
    return output == whole == b""


def pieces(output: bytes) -> list:
    """Splits an output into its lines, texts or messages."""
    if output[:4] != b"BUFR":
        return re.findall(PIECE, output)
    length = int.from_bytes(output[4:7], "big")
    return [output[:length], *pieces(output[length:])]


def tests(trial: Trial) -> list:
    """Runs the tests in growth_tests.rt with each allocation failing in turn. Returns complaints."""
    if not TESTS.is_file():
        print(f"failed_allocations: skipped the tests of single calls, there is no {TESTS.relative_to(TOP)}")
        return []
    listed = subprocess.run([TESTS, "--list"], capture_output=True, text=True, check=True).stdout
    wrong = []
    for name in re.findall(r"(?m)^(growth_tests::\w+): test$", listed):
        whole, lefts = trial.lefts(Run(name, [TESTS, name], b""))
        wrong += [f"{name}: no call for memory"] * (whole.calls == 0)
        wrong += [f"{name}: call {n} refused: {left}" for n, left in enumerate(lefts, 1) if left.status != 0]
    return wrong or ["no test of a single call"] * ("growth_tests::" not in listed)


def again(trial: Trial) -> list:
    """Returns a complaint if `dump` allocates memory for a message with the same descriptors as the previous one."""
    runs = [Run("dump", [program(), "dump", *TABLES], ONE * messages) for messages in (1, 3)]
    one, three = (trial.left(run, 0).calls for run in runs)
    return [f"a template that comes again: {three} calls for memory, {one} of one message"] * (one != three)


def runs(work: pathlib.Path) -> list:
    """Returns the runs: each command on its inputs, valid and invalid tables, --help, --version, and invalid arguments."""
    bufr = program()

    def file(name: str, octets: bytes) -> str:
        (work / name).write_bytes(octets)
        return str(work / name)

    def tables(b: str, d: str) -> list:
        return ["-B", b, "-D", d]

    def text(octets: bytes) -> bytes:
        return subprocess.run([bufr, "dump", *TABLES], input=octets, capture_output=True, check=True).stdout

    small = file("B.csv", SMALL_B)
    made = [Run(f"ls of {name}", ["ls"], INPUTS[name]) for name in list(INPUTS)[:2]]
    made += [Run(f"dump of {name}", ["dump", *TABLES], INPUTS[name]) for name in list(INPUTS)[2:]]
    of_texts = ["a delayed group", "compressed names", "octets for local use", "a redefined reference", "four items"]
    of_texts += ["two templates in turn"]
    made += [Run(f"encode of {name}", ["encode", *TABLES], text(INPUTS[name])) for name in of_texts]
    made += [
        Run("small tables", ["dump", *tables(small, file("D.csv", SMALL_D))], b""),
        Run("a table with a cycle", ["dump", *tables(small, file("cycle.csv", CYCLE_D))], b""),
        Run("a table that is none", ["dump", *tables(file("none.csv", CYCLE_D), small)], b""),
        Run("help", ["--help"], b""),
        Run("the version", ["--version"], b""),
        Run("a form that is none", ["encode", *TABLES, "--form", "other"], b""),
        Run("words not understood", ["ls", "one", "two"], b""),
    ]
    for name, arguments in (
        ("synop.bufr", ["dump"]),
        ("buoys.bufr", ["dump"]),
        ("synop.txt", ["encode"]),
        ("aircraft.txt", ["encode", "--form", "compressed"]),
    ):
        octets = (TOP / "examples" / name).read_bytes()
        made.append(Run(f"{' '.join(arguments)} of {name}", [*arguments, *TABLES], octets))
    return [run._replace(words=[bufr, *run.words]) for run in made]


def compiler() -> list:
    """Returns the command for a C compiler, or an empty list if there is none."""
    own = os.environ.get("CC", "cc")
    if shutil.which(own):
        return [own]
    if not shutil.which("rt"):
        return []
    page = subprocess.run(["rt", "doc"], capture_output=True, text=True, check=True).stdout.strip()
    return [pathlib.Path(page).parent / "toolchain/bin/clang", "-fuse-ld=lld"]


def main() -> None:
    words = compiler()
    if not words:
        print("failed_allocations: skipped, there is no C compiler and no toolchain")
        return
    with tempfile.TemporaryDirectory() as work:
        trial = Trial(words, pathlib.Path(work))
        found = [f"{run.name}: {wrong}" for run in runs(trial.work) for wrong in wrongs(run.name, *trial.lefts(run))]
        finish(found + again(trial) + tests(trial))


if __name__ == "__main__":
    main()
