#!/usr/bin/env python3
"""Tests scripts/bufr-extract: which messages it selects from a generated stream, what it rejects, and how fast it is.

    tests/bufr_extract.py [PROGRAM]

Each condition is tried with a file, with standard input redirected from a file, and with a pipe. The same messages must be
selected each time, with the fault lines and the exit status of `bufr ls`. From a live feed, each message must be copied
immediately.

For 100,000 messages of 10 KB, bufr-extract may use at most three times as much processor time as `bufr ls`, a Python
process that does nothing, and a copy of the selected messages use together. On an idle machine, it uses about 1.5 times as
much. The commands take turns for up to 20 rounds, and the fastest run of each command counts.
"""
import gzip
import os
import pathlib
import select
import shutil
import subprocess
import sys
import tempfile
import time

import lib
from lib import TOP, want

EXTRACT = TOP / "scripts/bufr-extract"
SYNOP = TOP / "examples/synop.bufr"
HEADING = b"\x01\r\r\n123\r\r\nISMD01 EDZW 221200\r\r\n"


def made(number: int, octets: int = 8) -> bytes:
    """Returns a message whose number determines its category (0-4), centre (98 or 74), day (1-28), subsets and length."""
    message = bytearray(lib.message(bytes(octets + number % 7), subsets=1 + number % 3))
    message[8 + 5] = (98, 74)[number // 5 % 2]
    message[8 + 10] = number % 5
    message[8 + 18] = 1 + number % 28
    return bytes(message)


# the arguments for a condition, and whether a message meets the condition (n: the message's number, m: its octets)
CONDITIONS = [
    ([], lambda n, m: True),
    (["category=0"], lambda n, m: n % 5 == 0),
    (["category=0/0/0"], lambda n, m: n % 5 == 0),
    (["category=0/1"], lambda n, m: False),
    (["category!=0,3"], lambda n, m: n % 5 not in (0, 3)),
    (["category=1,2", "centre!=98"], lambda n, m: n % 5 in (1, 2) and n // 5 % 2 == 1),
    (["centre=9"], lambda n, m: False),
    (["time=2024-01-07"], lambda n, m: n % 28 == 6),
    (["subsets!=1", "time!=2024-01-07T03"], lambda n, m: n % 3 != 0 and n % 28 != 6),
    (["descriptors=1"], lambda n, m: True),
    (["length=55,56"], lambda n, m: len(m) in (55, 56)),
    (["--awk", 'value["length"] > 56 && $6 ~ /=[34]\\//'], lambda n, m: len(m) > 56 and n % 5 > 2),
    (["--awk", "/ category=4/", "centre=74"], lambda n, m: n % 5 == 4 and n // 5 % 2 == 1),
    (["--awk", "/ category=[34]/", "--awk", "/ subsets=2/"], lambda n, m: n % 5 > 2 and n % 3 == 1),
]
# arguments that are rejected with status 2, and part of the error message
REFUSED = [
    (["categori=0"], "unknown key 'categori' in 'categori=0'"),
    (["tab=0"], "unknown key 'tab' in 'tab=0'"),
    (["category=land"], "the value in 'category=land' can never match; use only digits"),
    (["category="], "the value in 'category=' can never match"),
    (["category=0x"], "the value in 'category=0x' can never match"),
    (["category=0,"], "the value in 'category=0,' can never match"),
    (["centre=078"], "the value in 'centre=078' can never match; write it in the form centre=98/0, without leading zeros"),
    (["category!=2,02"], "the value in 'category!=2,02' can never match; write it in the form category=0/2/0, without leading zeros"),
    (["edition=3/4"], "the value in 'edition=3/4' can never match; write it in the form edition=1"),
    (["time=2024-1"], "the value in 'time=2024-1' can never match"),
    (["time=2024-01-2"], "the value in 'time=2024-01-2' can never match"),
    (["time=2024-01-02T03:4"], "the value in 'time=2024-01-02T03:4' can never match"),
    (["time=2024-01-02T03:04:5"], "the value in 'time=2024-01-02T03:04:5' can never match"),
    (["time=18"], "the value in 'time=18' can never match; write the time in the form time=2023-03-14T18"),
    (["time!=2024,2024-01-02T3"], "the value in 'time!=2024,2024-01-02T3' can never match"),
    (["Category=0", SYNOP], "unknown key 'Category' in 'Category=0'; the keys are offset length edition"),
    (["subsets>2", SYNOP], "'subsets>2' is neither a condition nor a file; to compare numbers, use --awk 'value[\"subsets\"] > 2'"),
    (["category", SYNOP], "the key 'category' has no value; use category=VALUE"),
    ([SYNOP, "time"], "the key 'time' has no value; use time=VALUE"),
    (["--awk", "1)"], "awk rejected the --awk condition '1)' (see above)"),
    (["--awk", ""], "the --awk condition is empty"),
    (["--awk", " # length"], "the --awk condition is empty"),
    (["--awk", ";\n# one\n\n  # other\n"], "the --awk condition is empty"),
    (["--awk"], "--awk needs a value"),
    (["--max-length", "11"], "--max-length '11': expected a whole number of at least 12"),
    (["--max-length", "1" * 19], f"--max-length '{'1' * 19}': expected a whole number of at least 12"),
    (["--all"], "unknown option --all"),
    (["one", "two"], "expected at most one file; to read several, use 'cat one two | bufr-extract ...'"),
    (["nosuch"], "cannot open nosuch"),
    (["/"], "cannot read /: Is a directory"),
]
# Awk conditions that must be rejected, because they do more than select lines.
NO_CONDITIONS = [
    "1;1",
    'BEGIN { print "x" } 1',
    '$0 = "offset=5 length=3"',
    '$2 = "length=54"',
    '$2 = "length=99999999"',
    '$1 = "offset=99999999999999999999"',
    "$0 = $0 \"\\r\"",
    "{ lines = $0 \"\\n\" lines } END { printf \"%s\", lines }",
    '{ printf "%s", $0 }',
    '{ printf "x" }',
    '{ while (1) printf "%s", "x" }',
]


def run(words: list, **streams) -> subprocess.CompletedProcess:
    streams.setdefault("stdout", subprocess.PIPE)
    return subprocess.run([sys.executable, EXTRACT, *words], stderr=subprocess.PIPE, **streams)


def takes_what_is_asked(program: str, path: pathlib.Path) -> None:
    messages = [made(number) for number in range(300)]
    # strays and messages with an unknown edition among the valid messages, and an incomplete message at the end
    refused = [messages[7][:7] + b"\x02" + messages[7][8:], b"BUFR\0\0\x40\x04" + bytes(60)]
    path.write_bytes(
        b"".join(HEADING + message + refused[n // 50 % 2] * (n % 50 == 9) for n, message in enumerate(messages))
        + messages[0][:30]
    )
    listed = subprocess.run([program, "ls", path], stdout=subprocess.PIPE, stderr=subprocess.PIPE)
    want(listed.returncode == 1 and listed.stdout.count(b"\n") == 300, "the made stream has other messages")
    for words, meets in CONDITIONS:
        wanted = b"".join(message for number, message in enumerate(messages) if meets(number, message))
        with open(path, "rb") as stream:
            stream.seek(len(HEADING))
            runs = {
                "a file": run([*words, path]),
                "standard input": run(words, stdin=stream),
                "a pipe": run(words, input=path.read_bytes()),
            }
        for name, done in runs.items():
            want(done.stdout == wanted, f"{words} over {name} takes other messages")
            if name != "standard input":  # the offsets differ, because reading begins after the first heading
                want(
                    (done.returncode, done.stderr) == (1, listed.stderr),
                    f"{words} over {name}: {done.returncode}, {done.stderr}",
                )


def refuses_what_it_cannot(path: pathlib.Path) -> None:
    for words, told in REFUSED:
        done = run(words, stdin=subprocess.DEVNULL)
        want(
            done.returncode == 2 and not done.stdout and told in done.stderr.decode(), f"{words} is told {done.stderr}"
        )
    path.write_bytes(made(1) * 2)
    for condition in NO_CONDITIONS:
        for name, done in (
            ("a file", run(["--awk", condition, path], timeout=60)),
            ("a pipe", run(["--awk", condition], input=path.read_bytes(), timeout=60)),
        ):
            lines = done.stderr.decode().splitlines()
            told = "a line in the listing is longer than 1 MB" if "while" in condition else "the --awk condition must only select lines, but it printed or changed this line"
            is_refused = done.returncode == 2 and done.stdout in (b"", made(1)) and len(lines) == 1 and told in lines[0]
            want(is_refused, f"--awk '{condition}' over {name}: {done}")
    done = run(["--awk", 'NR == 2 { print last } { last = $0; next }', path])
    want((done.returncode, done.stdout) == (0, made(1)), f"a line that awk selects later is refused: {done}")
    done = run(["--awk", "NR == 2 { exit 2 } 1", path])
    want((done.returncode, done.stdout) == (2, made(1)), f"an awk that fails is no failure: {done}")
    done = run(["--awk", 'NR == 2 { system("kill -9 $PPID") } 1', path])
    told = b"bufr-extract: awk was killed (signal 9); output is incomplete\n"
    want((done.returncode, done.stderr) == (2, told), f"of an awk that is killed: {done}")
    # grep is killed, or is not executable.
    (path.parent / "bin").mkdir()
    (path.parent / "bin/grep").write_text("#!/bin/sh\nkill -9 $$\n")
    killed, denied = "grep was killed (signal 9); output is incomplete", "cannot run grep: Permission denied"
    for mode, told in ((0o755, killed), (0o644, denied)):
        (path.parent / "bin/grep").chmod(mode)
        done = run(["category=0", path], env={**os.environ, "PATH": str(path.parent / "bin")})
        want((done.returncode, done.stderr.decode()) == (2, f"bufr-extract: {told}\n"), f"of grep: {done}")
    # awk repeats the first line after it has printed all lines.
    done = run(["--awk", 'NR == 1 { first = $0 } 1; END { fflush(); system("sleep 0.2"); print first }', path])
    want(done.returncode == 2 and b"the --awk condition must only select lines" in done.stderr, f"a line that comes twice: {done.stderr}")
    # The listing exceeds the capacity of a pipe, but `bufr ls` must not block after awk has exited.
    path.write_bytes(made(1) * 4000)
    done = run(["--awk", "NR == 2 { exit 2 } 1", path], timeout=60)
    want((done.returncode, done.stdout) == (2, made(1)), f"of an awk that ends early: {done}")
    killed = path.with_name("killed")
    killed.write_text('#!/bin/sh\nprintf "offset=0 length=5"\nkill -9 $$\n')
    killed.chmod(0o755)
    done = run(["category!=9", path], env={**os.environ, "BUFR": str(killed)})
    is_told = b"bufr was killed (signal 9)" in done.stderr
    want(done.returncode == 2 and not done.stdout and is_told, f"of a line that is cut something is taken: {done}")
    path.write_bytes(made(1))
    with open("/dev/full", "wb") as full:
        done = run([path], stdout=full)
    want(done.returncode == 2 and b"bufr-extract: write failed" in done.stderr, "a full device is not told")
    done = run(["--help"])
    want(done.returncode == 0 and b"system()" in done.stdout, "--help does not say that a condition is a program")
    want(run([path, "category=9"]).returncode == 0, "no message to take is a fault")
    # Every field of a line in the listing is a condition that the message meets.
    path.write_bytes(made(1) + made(2))
    listed = subprocess.run([os.environ["BUFR"], "ls", path], stdout=subprocess.PIPE, text=True).stdout.splitlines()
    for number, line in enumerate(listed, 1):
        want(run([path, *line.split()]).stdout == made(number), f"no message is selected by {line}")
    path.write_bytes(made(1))

    for name in ("time", "A=1", "a1=1", "\u00e9=1"):
        path.with_name(name).write_bytes(made(1))
        want(run([name], cwd=path.parent).stdout == made(1), f"a file with the name {name} is not read")
        path.with_name(name).unlink()
    words = ["--max-length", "12", "--max-length", str(len(made(1))), path.name]
    want(run(words, cwd=path.parent).stdout == made(1), "the last of two options does not count")


def tells_years_of_the_century(folder: pathlib.Path) -> None:
    """If a `time` condition leaves out edition 3 messages, whose years have two digits, `bufr-extract` says how many."""

    def of(edition: int, year: int, month: int) -> bytes:
        message = bytearray(lib.message(b"\x14", edition=edition))
        at, octets = (8 + 15, 2) if edition == 4 else (8 + 12, 1)
        message[at : at + octets] = year.to_bytes(octets, "big")
        message[at + octets] = month
        return bytes(message)

    dates = [(3, 14, 5), (3, 14, 6), (3, 15, 5), (4, 2014, 5), (4, 14, 5), (4, 2015, 5)]
    messages = {date: of(*date) for date in dates}
    path = folder / "years.bufr"
    path.write_bytes(b"".join(messages.values()))
    first, second, next_year, whole, of_14, whole_next = dates
    two_digits = ", because edition 3 has only two-digit years; to select messages of both editions, use"
    for words, taken, told in (
        (["time=2014"], [whole], f"2 edition 3 messages{two_digits} time=2014,0014"),
        (["time=2014-06"], [], f"1 edition 3 message{two_digits} time=2014-06,0014-06"),
        (["time=2014-05-02T03"], [whole], f"1 edition 3 message{two_digits} time=2014-05-02T03,0014-05-02T03"),
        (["time=2014,0014"], [first, second, whole, of_14], ""),
        (["time=2014,0014-05"], [first, whole, of_14], ""),
        (["time=2015", "edition=4"], [whole_next], ""),
        (["time=2013"], [], ""),
        (["time!=2014"], [first, second, next_year, of_14, whole_next], ""),
        (["time=0014", "edition=3"], [first, second], ""),
        (["time=2014,0015", "time=2015,0014"], [], f"3 edition 3 messages{two_digits} time=2014,0015,0014,0015"),
        (["time!=2014,0014"], [next_year, whole_next], ""),
    ):
        done = run([*words, path])
        wanted = b"".join(messages[date] for date in taken)
        want((done.returncode, done.stdout) == (0, wanted), f"{words} takes other messages")
        told = f"bufr-extract: left out {told}\n" if told else ""
        want(done.stderr.decode() == told, f"{words} prints {done.stderr}")
    path.write_bytes(of(3, 0, 1) + of(3, 100, 1))  # both years mean 2000
    done = run(["time=2000", path])
    told = f"bufr-extract: left out 2 edition 3 messages{two_digits} time=2000,0000,0100\n"
    want((done.stdout, done.stderr.decode()) == (b"", told), f"time=2000 prints {done.stderr}")
    want(run(["time=2000,0000,0100", path]).stdout == path.read_bytes(), "time=2000,0000,0100 leaves out edition 3 messages")


def tells_that_there_is_no_message(path: pathlib.Path) -> None:
    """`bufr-extract` prints a note if the input contains no messages, but not if it contains messages and none is selected."""
    zipped, cut = gzip.compress(made(1)), b"BUFR\0\0\x40\x04" + bytes(60)
    for octets, told, status in (
        (zipped, ": it looks like gzip data (use zcat)", 0),
        (b"", ": it is empty", 0),
        (cut, "", 1),
        (made(1), None, 0),
        (cut + made(1), None, 1),
    ):
        path.write_bytes(octets)
        for words in ([], ["category=9"], ["--awk", "0"]):
            for name, done in ((path, run([*words, path])), ("standard input", run(words, input=octets))):
                lines = done.stderr.decode().splitlines()
                wanted = [] if told is None else [f"bufr-extract: {name} contains no messages{told}"]
                want((done.returncode, lines[status:]) == (status, wanted), f"{words} of {octets[:9]}: {done}")


def begins_after_a_message(path: pathlib.Path) -> None:
    """`bufr-extract` reads standard input from the current position, even if that is after the only message in a file."""
    path.write_bytes(made(1) + b"\ntext\n")
    with path.open("rb", buffering=0) as stream:
        stream.seek(len(made(1)))
        done = run([], stdin=stream)
    told = b"bufr-extract: standard input contains no messages: it looks like text\n"
    want((done.returncode, done.stdout, done.stderr) == (0, b"", told), f"after a message: {done}")


def ignores_the_locale(folder: pathlib.Path) -> None:
    """An awk condition means the same in every locale, although gawk counts bytes in the C locale and characters in others."""
    gawk = shutil.which("gawk")
    if not gawk:
        print("bufr_extract: skipped, gawk is not there to try a locale")
        return
    (folder / "awk").symlink_to(gawk)
    (folder / "one").write_bytes(made(1))
    environment = {**os.environ, "PATH": f"{folder}:{os.environ['PATH']}", "LC_ALL": "C.UTF-8"}
    done = run(["--awk", 'length("\u00e9") == 2', folder / "one"], env=environment)
    want(done.stdout == made(1), f"a condition depends on the locale: {done}")


def skips_what_is_too_long(folder: pathlib.Path) -> None:
    """`bufr-extract --max-length` skips and reports messages that declare a greater length, and finds messages inside them."""
    inner, stray = made(3), b"BUFR\xff\xff\xff\x04"
    longer = lib.message(inner, lib.words("205056"))
    octets = made(1) + HEADING + longer + stray + made(2) + longer[:-4]
    first, second = len(made(1) + HEADING), len(made(1) + HEADING + longer)
    limit = len(made(6))
    want(len(longer) > limit >= max(map(len, (made(1), made(2), inner))), "the made messages have other lengths")
    last = second + len(stray + made(2))
    notes = [(first, len(longer)), (second, 0xFFFFFF), (last, len(longer))]
    told = [f"bufr-extract: offset {offset}: skipped a message that declares a length of {length} bytes" for offset, length in notes]
    path = folder / "longer"
    path.write_bytes(octets)
    for words, taken in (([], [1, 3, 2, 3]), (["centre=98"], [1, 3, 2, 3]), (["--awk", 'value["subsets"] != 3'], [1, 3, 3])):
        words = [*words, "--max-length", str(limit)]
        for name, done in (("a file", run([*words, path])), ("a pipe", run(words, input=octets))):
            want(done.stdout == b"".join(map(made, taken)), f"{words} of {name}: other messages")
            want((done.returncode, done.stderr.decode().splitlines()) == (1, told), f"{words} of {name}: {done}")
    before = made(1) * 40_000  # more than is buffered
    done = run(["--max-length", str(limit)], input=before + longer)
    note = f"bufr-extract: offset {len(before)}: skipped a message that declares a length of {len(longer)} bytes\n"
    want(done.stderr.decode() == note, f"after {len(before)} bytes, --max-length reports {done.stderr}")
    whole = run(["--max-length", "16777215", path])
    want(whole.stdout == run([path]).stdout != b"", "a high limit changes what is taken")
    want(run([f"--max-length={len(made(1))}", "-"], input=made(1)).returncode == 0, "a message as long as the limit is skipped")
    with subprocess.Popen(
        [sys.executable, EXTRACT, "--max-length", "1000"],
        stdin=subprocess.PIPE,
        stdout=subprocess.PIPE,
        stderr=subprocess.PIPE,
        bufsize=0,
    ) as feed:
        feed.stdin.write(stray)
        note = b"bufr-extract: offset 0: skipped a message that declares a length of 16777215 bytes\n"
        is_there = select.select([feed.stderr], [], [], 20)[0]
        want(is_there and feed.stderr.read(1 << 16) == note, "the note of a live feed waits")
        feed.stdin.write(made(1))
        is_there = select.select([feed.stdout], [], [], 20)[0]
        want(is_there and feed.stdout.read(1 << 16) == made(1), "a stray delays a live feed")
        feed.stdin.close()
        want(feed.wait() == 1, "a live feed with a stray ends otherwise")


def tells_a_feed() -> None:
    """In a feed, the note about messages that were left out is printed once, when the feed pauses or after a minute."""
    message = lib.message(b"\x14", edition=3)
    year = 2000 + message[8 + 12]
    rest = f", because edition 3 has only two-digit years; to select messages of both editions, use time={year},00{year - 2000:02}\n"
    note = f"bufr-extract: left out 2 edition 3 messages so far{rest}".encode()
    with subprocess.Popen([sys.executable, EXTRACT, f"time={year}"], stdin=subprocess.PIPE, stderr=subprocess.PIPE, bufsize=0) as feed:
        begin = time.monotonic()
        feed.stdin.write(message * 2)
        is_there = select.select([feed.stderr], [], [], 20)[0]
        want(time.monotonic() - begin >= 1, "a live feed's note on years comes before the feed pauses for a second")
        told = feed.stderr.read(1 << 16) if is_there else b""
        want(told == note, f"a live feed's note on years is {told}")
        feed.stdin.write(message)
        feed.stdin.close()
        want(feed.wait() == 0 and not feed.stderr.read(), "a live feed's note on years comes again")
    # This feed does not pause, but the interval between notes is 0.
    script = """if True:
        import os, runpy, sys
        sys.argv.pop(0)
        sys.path.insert(0, os.path.dirname(sys.argv[0]))
        import bufr_guard
        bufr_guard.INTERVAL = 0
        runpy.run_path(sys.argv[0])
    """
    words = [sys.executable, "-c", script, str(EXTRACT), f"time={year}"]
    done = subprocess.run(words, input=message * 20_000, stdout=subprocess.PIPE, stderr=subprocess.PIPE)
    want(b" so far" in done.stderr, f"a feed without a pause: {done.stderr}")


def serves_a_feed(folder: pathlib.Path) -> None:
    """In a live feed, `bufr-extract` copies each message before the next one is sent, with each installed awk."""
    for awk in filter(None, map(shutil.which, ("awk", "mawk", "gawk"))):
        (folder / "awk").unlink(missing_ok=True)
        (folder / "awk").symlink_to(os.path.realpath(awk))
        path = f"{folder}:{os.environ['PATH']}"
        for words in ([], ["category!=0"], ["--awk", "1 # each"], ["category!=0", "--awk", 'value["length"] > 0']):
            with subprocess.Popen(
                [sys.executable, EXTRACT, *words],
                stdin=subprocess.PIPE,
                stdout=subprocess.PIPE,
                bufsize=0,
                env={**os.environ, "PATH": path},
            ) as feed:
                for number in (1, 2, 3):
                    feed.stdin.write(HEADING + made(number))
                    is_there = select.select([feed.stdout], [], [], 20)[0]
                    want(is_there and feed.stdout.read(1 << 16) == made(number), f"{awk}, {words}: a message waits")
                feed.stdin.close()
                want(feed.wait() == 0 and not feed.stdout.read(), f"{awk}, {words}: a feed ends otherwise")


def takes_at_most_three_times_as_long(program: str, folder: pathlib.Path) -> None:
    path, output = folder / "long.bufr", folder / "output"
    pieces = b"".join(made(number, 10_000) for number in range(100))
    with path.open("wb") as stream:
        for _ in range(1000):
            stream.write(pieces)
    extract = [sys.executable, EXTRACT, "category=3", "subsets!=1", path]
    with output.open("wb") as taken:
        subprocess.run(extract, stdout=taken, check=True)
    want(
        output.stat().st_size == 1000 * sum(len(made(n, 10_000)) for n in range(100) if n % 5 == 3 and n % 3),
        "other octets of the long stream",
    )
    commands = [extract, [program, "ls", path], [sys.executable, "-c", "pass"], ["cat", output]]
    seconds, *parts = lib.least_seconds(commands, 3, output=folder / "copy")
    told = f"{seconds:.2f} s for 100,000 messages in 1 GB, `bufr ls` {parts[0]:.2f} s, all that it needs {sum(parts):.2f} s"
    print(f"bufr_extract: {told}")
    want(seconds <= 3 * sum(parts), f"over three times the time: {told}")


def main() -> None:
    program = lib.program()
    os.environ["BUFR"] = program
    with tempfile.TemporaryDirectory() as place:
        folder = pathlib.Path(place)
        takes_what_is_asked(program, folder / "stream.bufr")
        refuses_what_it_cannot(folder / "one.bufr")
        tells_years_of_the_century(folder)
        tells_that_there_is_no_message(folder / "none")
        begins_after_a_message(folder / "after")
        ignores_the_locale(folder)
        skips_what_is_too_long(folder)
        tells_a_feed()
        serves_a_feed(folder)
        takes_at_most_three_times_as_long(program, folder)


if __name__ == "__main__":
    main()
