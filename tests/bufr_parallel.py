#!/usr/bin/env python3
"""Tests scripts/bufr-parallel: its output, fault lines and exit status must be those of a single `bufr dump`.

    tests/bufr_parallel.py [PROGRAM]

The generated stream contains headings, strays, and messages with faults in their sections or data. The declared ends of some
strays are in other parts of the stream. bufr-parallel reads the stream from one file, from three files that are split in the
middle of a message, and from a pipe, with one to five processes. It must run as many dumps at once as requested, and must not
dump any octet twice.
"""
import os
import pathlib
import resource
import subprocess
import sys
import tempfile
import time

import lib
from lib import TABLES, TOP, want

PARALLEL = [sys.executable, TOP / "scripts/bufr-parallel"]
# a stray, and its fault line if the stray is at the beginning of a stream
STRAY, STRAY_TOLD = b"BUFR\0\0\0\4", b"offset 0: 2 short length\n"


def run(words: list, **streams) -> tuple:
    done = subprocess.run(words, stdout=subprocess.PIPE, stderr=subprocess.PIPE, **streams)
    return done.returncode, done.stdout, done.stderr


def made_stream() -> bytes:
    """Returns 6,000 valid messages with headings, strays and invalid messages among them, and an incomplete one at the end."""
    good = [lib.message(bytes([20] * (40 + 90 * n)), lib.words(f"1010{40 + n} 001001"), 1) for n in range(5)]
    data_end = lib.message(b"\x14", b"\x01\x01", 3)
    unknown = lib.message(b"\x14", lib.words("063255"))
    edition_2 = good[0][:7] + b"\x02" + good[0][8:]
    # bufr-parallel must report this stray as `3 no end`, like a dump of the whole stream, even if the stray's declared end is
    # in another part
    word = b"BUFR\x03\x00\x00\x04"
    pieces = []
    for n in range(6000):
        pieces.append(good[n % 5])
        pieces.append({7: b"\r\r\nHEADING\r\r\n", 31: data_end, 53: unknown, 71: edition_2, 89: word}.get(n % 97, b""))
    return b"".join(pieces) + good[0][:40]


def same_as_one_run(program: str, folder: pathlib.Path) -> None:
    octets = made_stream()
    path = folder / "stream.bufr"
    path.write_bytes(octets)
    third = len(octets) // 3
    files = [folder / name for name in "abc"]
    for number, file in enumerate(files):
        file.write_bytes(octets[third * number : third * (number + 1) if number < 2 else len(octets)])
    one = run([program, "dump", *TABLES, path])
    faults = set(line.split(b": ")[1][:2] for line in one[2].splitlines())
    want(one[0] == 1 and faults == {b"1 ", b"3 ", b"10", b"20", b"30"}, f"the made stream has other faults: {faults}")
    small = TOP / "examples/synop.bufr"
    most = run([*PARALLEL, "-P", "128", "dump", *TABLES, small])
    want(most == run([program, "dump", *TABLES, small]), "128 processes are refused")
    # messages in which only the data is invalid, so `bufr ls` exits with status 0
    data_faults = lib.message(b"\x14", b"\x01\x01", 3) * 3 + lib.message(bytes(70_000)) * 2
    one_of_data = run([program, "dump", *TABLES], input=data_faults)
    want(one_of_data[0] == 1 and run([program, "ls"], input=data_faults)[0] == 0, "the data have other faults")
    want(run([*PARALLEL, "dump", *TABLES], input=data_faults) == one_of_data, "faults of data alone are told otherwise")
    # two octets between a message and one with invalid data, so the offset in the fault line must be adjusted
    gap = lib.message(b"\x14") + b"\r\n" + lib.message(b"\x14", b"\x01\x01", 3)
    one_with_gap = run([program, "dump", *TABLES], input=gap)
    want(one_with_gap[2].startswith(b"offset 50: 30"), f"the message after a gap has another fault: {one_with_gap}")
    want(run([*PARALLEL, "dump", *TABLES], input=gap) == one_with_gap, "a fault after a gap is told otherwise")
    for processes in "12345":
        words = [*PARALLEL, "-P", processes, "dump", *TABLES]
        want(run([*words, path]) == one, f"a file by {processes} processes is not as by one")
    want(run([*PARALLEL, "dump", *TABLES, *files]) == one, "three files are not as one stream")
    want(run([*PARALLEL, "dump", *TABLES], input=octets) == one, "a pipe is not as a file")
    behind = []
    for words in ([program], PARALLEL):
        with path.open("rb", buffering=0) as stream:
            stream.seek(1000)
            behind.append(run([*words, "dump", *TABLES], stdin=stream))
    want(behind[0] == behind[1], "standard input that stands behind its beginning is not as by one process")
    small = folder / "small.bufr"
    small.write_bytes(octets[:500])
    many = run([program, "dump", *TABLES], input=octets[:500] * 1500)
    few = lambda: resource.setrlimit(resource.RLIMIT_NOFILE, (100, 100))  # noqa: E731
    words = [*PARALLEL, "-P", "4", "dump", *TABLES, *[small] * 1500]
    want(run(words, preexec_fn=few) == many, "1,500 files, of which few may be open, are not as one stream")
    with (folder / "text").open("ab") as text:
        subprocess.run([*PARALLEL, "dump", *TABLES, path], stdout=text, stderr=subprocess.DEVNULL)
    want((folder / "text").read_bytes() == one[1], "onto the end of a file something else is written")
    with path.open("rb") as stream:
        want(run([*PARALLEL, "dump", *TABLES, "-", "-"], stdin=stream) == one, "standard input is read twice")
    empty = run([*PARALLEL, "dump", *TABLES], stdin=subprocess.DEVNULL)
    told = b"bufr-parallel: standard input contains no messages: it is empty\n"
    want(empty == (0, b"", told), f"of nothing comes {empty}")
    small.write_bytes(b"\x1f\x8bBUFR\0\0\0\4")
    status, output, errors = run([*PARALLEL, "dump", *TABLES, small])
    told = f"offset 2: 2 short length\nbufr-parallel: {small} contains no messages: it looks like gzip data (use zcat)\n"
    want((status, output, errors.decode()) == (1, b"", told), f"of a wrong file it is told {errors}")
    both = run([*PARALLEL, "dump", *TABLES, os.devnull, "-"], stdin=subprocess.DEVNULL)
    told = b"bufr-parallel: /dev/null standard input contains no messages: it is empty\n"
    want(both == (0, b"", told), f"of two empty files comes {both}")
    # The fault lines of a part are printed before the dump of the next part.
    octets = STRAY + lib.message(bytes(70_000)) * 2
    words = [*PARALLEL, "dump", *TABLES]
    output = subprocess.run(words, input=octets, stdout=subprocess.PIPE, stderr=subprocess.STDOUT).stdout
    before, told, behind = output.partition(STRAY_TOLD)
    want((before.count(b"\nend\n"), told, behind.count(b"\nend\n")) == (1, STRAY_TOLD, 1), "a fault is told late")


def tells_what_fails(program: str, folder: pathlib.Path) -> None:
    path = folder / "stream.bufr"
    swapped = ["-B", TABLES[3], "-D", TABLES[1]]
    want(
        run([*PARALLEL, "dump", *swapped, path]) == run([program, "dump", *swapped, path]),
        "swapped tables are told otherwise",
    )
    replaced = folder / "replaced.bufr"
    replaced.write_bytes((lib.TOP / "examples/synop.bufr").read_bytes() * 20_000)  # large enough for several parts
    (folder / "other.bufr").write_bytes(bytes(replaced.stat().st_size))
    pipes = dict(stdout=subprocess.PIPE, stderr=subprocess.PIPE)
    with subprocess.Popen([*PARALLEL, "-P", "1", "dump", *TABLES, replaced], **pipes) as child:
        child.stdout.read(1)
        (folder / "other.bufr").replace(replaced)
        errors = child.communicate()[1].decode()
    told = f"bufr-parallel: {replaced} was replaced while it was being read; try again\n"
    want((child.returncode, errors) == (2, told), f"a replaced file ends with {child.returncode}: {errors}")
    want(
        run([*PARALLEL, "dump", *TABLES, "nosuch"]) == (2, b"", b"bufr-parallel: cannot open nosuch: No such file or directory\n"),
        "a missing file is told otherwise",
    )
    for words, told in (
        (["ls", path], "expected 'dump -B FILE -D FILE'"),
        (["dump", path], "expected 'dump -B FILE -D FILE'"),
        ([], "expected 'dump -B FILE -D FILE'"),
        (["dump", *TABLES, "-Q"], "unknown option -Q"),
        (["dump", *TABLES, "-P"], "-P needs a value"),
        *(
            ([f"-P{count}", "dump", *TABLES, path], f"-P '{count}': expected a whole number from 1 to 128")
            for count in ("0", "-1", "129", "99999999999999999999", "2.5", "\u00b2", "x")
        ),
    ):
        status, output, errors = run([*PARALLEL, *words])
        told = f"bufr-parallel: {told}; see bufr-parallel --help\n"
        want((status, output, errors.decode()) == (2, b"", told), f"{words}: {status}, {errors}")
    with open("/dev/full", "wb") as full:
        done = subprocess.run([*PARALLEL, "dump", *TABLES, path], stdout=full, stderr=subprocess.PIPE)
    want(done.returncode == 2 and b"bufr-parallel: " in done.stderr, "a full device is not told")
    # if a process fails, bufr-parallel writes the output up to and including that process's part, then that process's
    # error line, and nothing else
    failing = folder / "failing"
    failing.write_text(
        f'#!/bin/sh\n[ "$1" = ls ] && exec {program} ls\ncat > $$.part\n{program} "$@" < $$.part\n'
        "status=$?\n[ $(wc -c < $$.part) -eq 0 ] || grep -q HEADING2 $$.part || exit $status\n[ ! -s $$.part ] && exit 0\n"
        "echo 'bufr: 73 out of memory' >&2\nexit 2\n"
    )
    failing.chmod(0o755)
    message = lib.message(bytes(60_000))
    marked = lib.message(b"HEADING2" + bytes(60_000))
    (folder / "marked.bufr").write_bytes(STRAY + message * 4 + marked + message * 4 + STRAY)
    status, output, errors = run(
        [*PARALLEL, "-P", "2", "dump", *TABLES, "marked.bufr"], cwd=folder, env={**os.environ, "BUFR": str(failing)}
    )
    want(
        (status, output.count(b"\nend\n"), errors) == (2, 5, STRAY_TOLD + b"bufr: 73 out of memory\n"),
        f"a failed process ends with {status}, {errors}",
    )
    # a file that is removed after it has been listed, and a `bufr ls` that is killed before it reads its input
    for script, told in (
        ("cat > listed; rm two.bufr; exec {0} ls < listed", b"cannot open two.bufr: No such file or directory\n"),
        ("kill -9 $$", b"bufr was killed (signal 9); output is incomplete\n"),
    ):
        (folder / "two.bufr").write_bytes(message * 2)
        failing.write_text(f'#!/bin/sh\n[ "$1" != ls ] || {{ {script.format(program)}; }}\nexec {program} "$@"\n')
        done = run([*PARALLEL, "dump", *TABLES, "two.bufr"], cwd=folder, env={**os.environ, "BUFR": str(failing)})
        want(done == (2, b"", b"bufr-parallel: " + told), f"{script} ends with {done}")


def leaves_no_process(program: str, folder: pathlib.Path) -> None:
    """If a dump fails, `bufr-parallel` also ends the dumps that are still running."""
    (folder / "lasting").write_text(
        f'#!/bin/sh\n[ "$1" = ls ] && exec {program} ls\ncat > $$.part\n[ -s $$.part ] || exit 0\n'
        "if grep -q FIRST $$.part; then until [ -e number ]; do sleep 0.02; done; exit 3; fi\n"
        "echo $$ > begun; mv begun number; exec sleep 60\n"
    )
    (folder / "lasting").chmod(0o755)
    (folder / "two.bufr").write_bytes(STRAY + lib.message(b"FIRST" + bytes(70_000)) + lib.message(bytes(70_000)))
    environment = {**os.environ, "BUFR": str(folder / "lasting")}
    status, _, errors = run([*PARALLEL, "-P", "2", "dump", *TABLES, "two.bufr"], cwd=folder, env=environment, timeout=50)
    told = STRAY_TOLD + b"bufr-parallel: bufr exited with status 3; output is incomplete\n"
    want((status, errors) == (2, told), f"a dump that fails ends with {status}: {errors}")
    number = int((folder / "number").read_text())
    end = time.monotonic() + 5
    while lib.runs(number) and time.monotonic() < end:
        time.sleep(0.02)
    want(not lib.runs(number), "a dump that still ran goes on")


def runs_as_many_as_asked(program: str, folder: pathlib.Path) -> None:
    """`bufr-parallel` runs as many dumps at once as requested, or by default one for each available processor."""
    (folder / "waiting").write_text(
        f'#!/bin/sh\n[ "$1" = ls ] && exec {program} ls\n{program} "$@" > $$.text\n[ -s $$.text ] || exit 0\n'
        "echo begin >> log; sleep 1; echo end >> log; cat $$.text\n"
    )
    (folder / "waiting").chmod(0o755)
    (folder / "nine.bufr").write_bytes(lib.message(bytes(250_000)) * 9)
    environment = {**os.environ, "BUFR": str(folder / "waiting")}
    one_processor = {"preexec_fn": lambda: os.sched_setaffinity(0, [min(os.sched_getaffinity(0))])}
    for words, others, wanted in ((["-P", "3"], {}, 3), ([], one_processor, 1)):
        status, output, _ = run([*PARALLEL, *words, "dump", *TABLES, "nine.bufr"], cwd=folder, env=environment, **others)
        want((status, output.count(b"\nend\n")) == (0, 9), f"dumps that wait end with {status}")
        running = most = 0
        for line in (folder / "log").read_text().split():
            running += 1 if line == "begin" else -1
            most = max(most, running)
        want(most == wanted, f"{most} processes at once, not {wanted}")
        (folder / "log").unlink()


def closes_what_it_opens(folder: pathlib.Path) -> None:
    """`bufr-parallel` needs at most 120 open files for 126 parts of one message each."""
    (folder / "parts.bufr").write_bytes(lib.message(bytes(33_000)) * 126)
    words = [*PARALLEL, "-P", "16", "dump", *TABLES, "parts.bufr"]
    few = lambda: resource.setrlimit(resource.RLIMIT_NOFILE, (120, 120))  # noqa: E731
    status, output, errors = run(words, cwd=folder, preexec_fn=few)
    want((status, output.count(b"\nend\n"), errors) == (0, 126, b""), f"with few files it ends with {status}: {errors}")


def reads_each_octet_once(program: str, folder: pathlib.Path) -> None:
    """`bufr-parallel` lists the stream only once and dumps no octet twice, so it does no more work than `ls` and `dump`."""
    (folder / "counting").write_text(
        f'#!/bin/sh\ncat > $$.part\nwc -c < $$.part >> "$1.octets"\nexec {program} "$@" < $$.part\n'
    )
    (folder / "counting").chmod(0o755)
    report = lib.message(bytes(range(250)) * 40, lib.words("101250 012101 101250 012101"), 10)
    stream = report * 500 + made_stream() + report * 500
    (folder / "long.bufr").write_bytes(stream)
    environment = {**os.environ, "BUFR": str(folder / "counting")}
    status, output, _ = run([*PARALLEL, "-P", "4", "dump", *TABLES, "long.bufr"], cwd=folder, env=environment)
    want((status, output) == run([program, "dump", *TABLES, folder / "long.bufr"])[:2], "a long stream is not as by one")
    listed, dumped = (
        [int(octets) for octets in (folder / f"{name}.octets").read_text().split()] for name in ("ls", "dump")
    )
    want(listed == [len(stream)], f"of {len(stream)} octets {listed} are listed")
    want(len(report) * 1000 <= sum(dumped) <= len(stream), f"of {len(stream)} octets {dumped} are dumped")
    want(4 < len(dumped) <= 100, f"{len(dumped)} parts for four processes")


def main() -> None:
    program = lib.program()
    os.environ["BUFR"] = program
    with tempfile.TemporaryDirectory() as place:
        same_as_one_run(program, pathlib.Path(place))
        tells_what_fails(program, pathlib.Path(place))
        leaves_no_process(program, pathlib.Path(place))
        runs_as_many_as_asked(program, pathlib.Path(place))
        closes_what_it_opens(pathlib.Path(place))
        reads_each_octet_once(program, pathlib.Path(place))


if __name__ == "__main__":
    main()
