#!/usr/bin/env python3
"""Runs the program on hostile streams, dumps and tables, and reports incorrect behaviour.

    tests/hostile/random_trial.py [COUNT [FIRST [PROGRAM]]]    COUNT: the number of cases (default: 1,000)
                                                               FIRST: the number of the first case

Each case depends only on its number. A stream or dump contains one or a few messages from examples/ or random_messages.py;
the tables are WMO's. The trial removes, duplicates and changes octets, drops and swaps lines, and changes values, lengths,
counts and table rows. The program then lists and dumps the stream, or encodes the dump, and converts the result back. The
following must hold:

- The number of messages plus the number of faults is the same for `ls` and `dump`.
- The dump of a stream is encoded without a fault, and dumping the result gives the same dump.
- The encoded messages are no longer than the stream, apart from two octets for each edition 3 message.
- If the dump of a stream is encoded with `--form`, and none of the faults 58, 59 and 60 is reported, dumping the result gives
  the same dump except for the `compressed` lines.
- The result of encoding a dump is dumped without a fault, and that dump is encoded to the same octets.

The trial reports:

- commands that are killed by a signal;
- commands whose exit status is not 0 or 1 (or 2, if a table is invalid or the output is too long for the trial);
- lines on standard error that are not fault lines;
- dumps and messages for which one of the rules above does not hold;
- commands that, four times in a row, use more processor time than 0.1 s plus 1 µs for each octet read or written.

Each case that fails is saved in tests/out/hostile, and the exit status is then 1. Two cases are tried at a time. This trial
is not part of the gate.
"""
import collections
import functools
import multiprocessing
import os
import pathlib
import random
import re
import subprocess
import sys
import tempfile

sys.path.insert(0, str(pathlib.Path(__file__).resolve().parent.parent))

import random_messages
from lib import BUILT, TABLES, TOP, section, words

PROGRAM = str(BUILT)
KEPT = TOP / "tests/out/hostile"
TABLE_B = (TOP / "tables/wmo-39/B.csv").read_bytes().splitlines(keepends=True)
TABLE_D = (TOP / "tables/wmo-39/D.csv").read_bytes().splitlines(keepends=True)
WMO = tuple(TABLES)
EXAMPLES = sorted((TOP / "examples").glob("*.bufr"))
TEXTS = sorted((TOP / "examples").glob("*.txt"))
# The trial reads at most this many octets of a command's output, and then closes the pipe.
MOST = 8_000_000

AT = rb"at subset \d+ descriptor \d{6} bit \d+"
STREAM_FAULT = re.compile(
    rb"offset \d+: (?:[123] (?:cut|short length|no end)|1[0134] .+|12 .+|2[0-8] .+ \d{6}|3[0-5] .+ " + AT + rb")"
)
TEXT_FAULT = re.compile(rb"line \d+: (5[0-9]|6[0-2]) [a-zR0-9 ]+\n")
TABLE_FAULT = re.compile(rb"table [BD]: 4[0-5] [a-z0-9 ]+\n")
LISTED = re.compile(rb"offset=\d+ length=(\d+) edition=[34] .* descriptors=\d+")


class Wrong(Exception):
    """Raised if the program does something incorrect."""


class Long(Exception):
    """Raised if the program writes more output than the trial reads."""


def hold(holds: bool, told: str) -> None:
    if not holds:
        raise Wrong(told)


# ---------------------------------------------------------------- the program


def run_once(octets: bytes, arguments: tuple) -> tuple:
    """Runs the program on these octets. Returns its status, output, errors, whether output is cut off, and CPU seconds."""
    with tempfile.TemporaryFile() as source, tempfile.TemporaryFile() as told:
        source.write(octets)
        source.seek(0)
        how = {"stdin": source, "stdout": subprocess.PIPE, "stderr": told, "close_fds": False}
        child = subprocess.Popen([PROGRAM, *arguments], **how)
        output = child.stdout.read(MOST)
        is_long = bool(child.stdout.read(1))
        child.stdout.close()
        _, ended, used = os.wait4(child.pid, 0)
        child.returncode = os.waitstatus_to_exitcode(ended)
        told.seek(0)
        return child.returncode, output, told.read(), is_long, used.ru_utime + used.ru_stime


def run(seen: collections.Counter, octets: bytes, *arguments: str) -> tuple:
    """Runs the program on these octets and checks its status and CPU time. Returns its status, output and errors."""
    status, output, errors, is_long, seconds = run_once(octets, arguments)
    of_tables = 210_000 * (arguments[0] != "ls")
    most = 0.1 + 1e-6 * (len(octets) + len(output) + len(errors) + of_tables)
    seen["runs"] += 1
    name = " ".join(arguments)
    if is_long:
        told_so = status == 2 and errors.endswith(b"bufr: 71 write failed\n")
        hold(told_so, f"{name}: a closed pipe: {status} {errors[-200:]}")
        raise Long
    hold(status in (0, 1, 2), f"{name}: status {status}: {errors[-200:]}")
    if seconds > most:  # run it three more times, because other programs can slow it down
        seconds = min(run_once(octets, arguments)[-1] for _ in range(3))
        hold(seconds <= most, f"{name}: {seconds:.3f} s, over {most:.3f}")
    return status, output, errors


def faults_in(seen: collections.Counter, errors: bytes, status: int, name: str) -> int:
    """Checks the fault lines of a stream and the exit status. Returns the number of fault lines."""
    lines = errors.splitlines()
    for line in lines:
        hold(STREAM_FAULT.fullmatch(line), f"{name}: {line}")
        seen["fault " + line.split()[2].decode()] += 1
    hold(status == (1 if lines else 0), f"{name}: status {status} with {len(lines)} faults")
    return len(lines)


def try_stream(seen: collections.Counter, stream: bytes, tables: tuple, form: str) -> None:
    """Lists and dumps a stream, and checks that the accepted messages round-trip."""
    status, listing, errors = run(seen, stream, "ls")
    faults = faults_in(seen, errors, status, "ls")
    listed = listing.splitlines()
    hold(all(LISTED.fullmatch(line) for line in listed), f"ls: {listing[:200]}")
    status, text, errors = run(seen, stream, "dump", *tables)
    if status == 2:
        hold(tables != WMO and TABLE_FAULT.fullmatch(errors) and not text, f"dump: {errors}")
        seen["table fault " + errors.split()[2].decode()] += 1
        return
    dumped = len(re.findall(rb"^message$", text, re.M))
    told = faults_in(seen, errors, status, "dump")
    hold(dumped + told == len(listed) + faults, f"dump: {dumped} and {told}, ls: {len(listed)} and {faults}")
    seen["messages accepted"] += dumped
    if not dumped:
        return
    status, octets, errors = run(seen, text, "encode", *tables)
    hold(status == 0 and not errors, f"encode of a dump: {status} {errors}")
    spare = 2 * len(re.findall(rb"^edition 3$", text, re.M))
    hold(len(octets) <= len(stream) + spare, f"encode of a dump: {len(octets)} octets of {len(stream)}")
    hold(run(seen, octets, "dump", *tables) == (0, text, b""), "the text does not come back")
    if not form:
        return
    status, octets, errors = run(seen, text, "encode", *tables, "--form", form)
    if status:
        refused = TEXT_FAULT.fullmatch(errors)
        hold(status == 1 and refused and refused[1] in (b"58", b"59", b"60"), f"encode --form: {status} {errors}")
        seen[f"{form} refused " + refused[1].decode()] += 1
        return
    flag = b"compressed %d" % (form == "compressed")
    other = re.sub(rb"^compressed [01]$", flag, text, flags=re.M)
    hold(run(seen, octets, "dump", *tables) == (0, other, b""), f"the text of the {form} form does not come back")
    seen[f"{form} forms"] += 1


def try_text(seen: collections.Counter, text: bytes, tables: tuple, form: str) -> None:
    """Encodes a dump, and checks that the accepted documents round-trip."""
    formed = ["--form", form] if form else []
    status, octets, errors = run(seen, text, "encode", *tables, *formed)
    if status == 2:
        hold(tables != WMO and TABLE_FAULT.fullmatch(errors) and not octets, f"encode: {errors}")
        seen["table fault " + errors.split()[2].decode()] += 1
        return
    refused = TEXT_FAULT.fullmatch(errors)
    hold((refused if status else not errors), f"encode: {status} {errors}")
    if refused:
        seen["fault " + refused[1].decode()] += 1
    if not octets:
        return
    status, dumped, errors = run(seen, octets, "dump", *tables)
    hold(status == 0 and not errors, f"dump of what was encoded: {status} {errors}")
    seen["documents accepted"] += len(re.findall(rb"^message$", dumped, re.M))
    hold(run(seen, dumped, "encode", *tables) == (0, octets, b""), "the octets do not come back")


# ---------------------------------------------------------------- random inputs


@functools.lru_cache(maxsize=None)
def whole_stream(number: int) -> bytes:
    """Returns an unchanged stream: an example, or the random message with this number."""
    if number < len(EXAMPLES):
        return EXAMPLES[number].read_bytes()
    return random_messages.message(number).octets


@functools.lru_cache(maxsize=None)
def whole_text(number: int) -> bytes:
    """Returns the dump of the unchanged stream with this number."""
    return subprocess.run([PROGRAM, "dump", *WMO], input=whole_stream(number), capture_output=True).stdout


def some(rng: random.Random) -> int:
    """Draws the number of a stream, usually that of a random message."""
    return rng.randrange(2000) if rng.random() < 0.8 else rng.randrange(len(EXAMPLES))


def odd_octets(rng: random.Random) -> bytes:
    """Draws octets to put between messages."""
    odd = (b"", b"", b"\r\r\n", b"BUFR", b"BUFR\0\0\x0B\x04", b"BUFR\xFF\xFF\xFF\x04", b"7777", rng.randbytes(9))
    return rng.choice(odd)


def cut(rng: random.Random, octets: bytes) -> bytes:
    return octets[: rng.randrange(len(octets) + 1)]


def dropped(rng: random.Random, octets: bytes) -> bytes:
    at = rng.randrange(len(octets) + 1)
    return octets[:at] + octets[at + rng.choice((1, 1, 2, 3, 8, 40)) :]


def doubled(rng: random.Random, octets: bytes) -> bytes:
    at, behind = sorted((rng.randrange(len(octets) + 1), rng.randrange(len(octets) + 1)))
    return octets[:behind] + octets[at:]


def flipped(rng: random.Random, octets: bytes) -> bytes:
    turned = bytearray(octets)
    for _ in range(rng.choice((1, 1, 2, 8))):
        if turned:
            turned[rng.randrange(len(turned))] ^= 1 << rng.randrange(8)
    return bytes(turned)


def stamped(rng: random.Random, octets: bytes) -> bytes:
    at = rng.randrange(len(octets) + 1)
    put = rng.choice((b"\0", b"\1", b"\x7F", b"\x80", b"\xFF", b"\xFF\xFF\xFF", b"BUFR", b"7777"))
    return octets[:at] + put + octets[at + len(put) :]


def lengths_in(octets: bytes) -> list:
    """Returns the positions of the length fields of a message and its sections, as far as these fields can be found."""
    places, at = [], octets.find(b"BUFR")
    if at < 0 or at + 20 > len(octets):
        return places
    places.append(at + 4)
    at += 8
    while at + 3 < len(octets) and octets[at : at + 4] != b"7777" and len(places) < 6:
        places.append(at)
        at += max(4, int.from_bytes(octets[at : at + 3], "big"))
    return places


def mislaid(rng: random.Random, octets: bytes) -> bytes:
    """Changes one of the lengths in a message."""
    places = lengths_in(octets)
    if not places:
        return octets
    at = rng.choice(places)
    old = int.from_bytes(octets[at : at + 3], "big")
    odd = (0, 1, 3, 4, 11, 12, old - 1, old + 1, old + 2, 2 * old, len(octets), rng.getrandbits(24), (1 << 24) - 1)
    new = rng.choice(odd)
    return octets[:at] + (new % (1 << 24)).to_bytes(3, "big") + octets[at + 3 :]


ODD_WORDS = """000000 001001 001015 012101 031000 031001 031002 031011 063255 100001 101000 101001 101255 102000 103002
163255 201000 201001 201132 201255 202000 202001 202255 203000 203001 203010 203255 204001 205001 205255 206001 206064
206255 207001 207018 207255 208000 208001 208255 221001 300002 301001 307080 309052 315008 360192 363255""".split()


def resectioned(rng: random.Random, octets: bytes) -> bytes:
    """Changes the contents of a section, then updates all lengths to match."""
    places = lengths_in(octets)[1:]
    if len(places) < 3 or octets[:4] != b"BUFR":
        return flipped(rng, octets)
    edition = octets[7]
    contents = [octets[at + 3 : at + int.from_bytes(octets[at : at + 3], "big")] for at in places]
    third, data = bytearray(contents[-2]), contents[-1]
    way = rng.randrange(7)
    if way == 0 and len(third) > 4:
        third[1:3] = rng.choice((0, 1, 2, 3, 7, 255, 3000)).to_bytes(2, "big")
    elif way == 1 and len(third) > 4:
        third[3] ^= rng.choice((0x40, 0x40, 0x80, 0x3F))
    elif way == 2:
        at = 4 + 2 * rng.randrange(max(1, (len(third) - 4) // 2))
        third[at : at + 2 * rng.randrange(2)] = words(rng.choice(ODD_WORDS))
    elif way == 3:
        data = data[: rng.randrange(len(data) + 1)] or b"\0"
    elif way == 4:
        data += rng.randbytes(rng.randrange(9))
    elif way == 5:
        data = data[:1] + flipped(rng, data[1:])
    else:
        contents[0] += rng.randbytes(rng.randrange(4))
    contents[-2:] = [bytes(third), data]
    body = b"".join(section(content, edition) for content in contents) + b"7777"
    return b"BUFR" + (len(body) + 8).to_bytes(3, "big") + bytes([edition]) + body


def stream_of(rng: random.Random) -> bytes:
    """Draws a hostile stream."""
    pieces = []
    for _ in range(rng.choice((1, 1, 1, 2, 3))):
        message = whole_stream(some(rng))
        if rng.random() < 0.7:
            message = resectioned(rng, message)
        pieces += [odd_octets(rng), message]
    stream = b"".join(pieces) + odd_octets(rng)
    for _ in range(rng.choice((0, 0, 1, 1, 2, 3))):
        stream = rng.choice((cut, dropped, doubled, flipped, flipped, stamped, mislaid, mislaid))(rng, stream)
    return stream


ODD_TOKENS = [
    *"0 -0 1 -1 2 3 7 255 256 65535 65536 4294967296 999999 1e3 .5 5. 0.1 -0.05 - . + MISSING R # end subset".split(),
    *('""', '"A"', '"\\x00"', '"\\"', '"A', "9" * 40, "0" * 300, "-" + "9" * 39, "0.000000000001", "", " "),
    *ODD_WORDS,
]


def other_token(rng: random.Random, line: bytes) -> bytes:
    """Replaces a word in a line, or changes the last digit of a number."""
    tokens = line.split(b" ")
    at = min(rng.choice((0, 1, 1, 1, 2)), len(tokens) - 1)
    if re.fullmatch(rb"-?[0-9.]*[0-9]", tokens[at]) and rng.random() < 0.6:
        tokens[at] = tokens[at][:-1] + b"%d" % rng.randrange(10)
    else:
        tokens[at] = rng.choice(ODD_TOKENS).encode()
    return b" ".join(tokens)


def relined(rng: random.Random, text: bytes) -> bytes:
    """Drops, repeats, swaps or changes a line of a dump, or inserts a new one."""
    lines = text.split(b"\n")
    at, other = rng.randrange(len(lines)), rng.randrange(len(lines))
    way = rng.randrange(8)
    if way == 0:
        del lines[at]
    elif way == 1:
        lines.insert(at, lines[other])
    elif way == 2:
        lines[at], lines[other] = lines[other], lines[at]
    elif way == 3:
        lines.insert(at, rng.choice((b"", b"# note", b"#" * 4096, b"#" * 4097, b" ", b"end", b"message", b"\0", b"\r")))
    else:
        lines[at] = other_token(rng, lines[at])
    return b"\n".join(lines)


def text_of(rng: random.Random) -> bytes:
    """Draws a hostile dump."""
    text = b"".join(whole_text(some(rng)) for _ in range(rng.choice((1, 1, 1, 2, 3))))
    for _ in range(rng.choice((0, 1, 1, 1, 2, 3))):
        text = rng.choice((cut, flipped, doubled, *[relined] * 12))(rng, text)
    return text


ODD_CELLS = """0 1 -1 7 8 9 16 63 64 65 127 128 -127 -128 2040 2048 9223372036854775807 -9223372036854775808
99999999999999999999 001001 031001 300001 307080 315008 204001 205001 206008 101000 102002 363255 CCITT_IA5 Numeric K
code_table " a"b x""".split()


def other_row(rng: random.Random, row: bytes) -> bytes:
    """Replaces a cell in a row of a table."""
    cells = row.rstrip(b"\r\n").split(b",")
    cells[rng.randrange(len(cells))] = rng.choice(ODD_CELLS).replace("_", " ").encode()
    return b",".join(cells) + b"\n"


def table_of(rng: random.Random, rows: list, used: set) -> bytes:
    """Draws a hostile table. Most of the changed rows are ones that the message or dump uses."""
    rows = list(rows)
    near = [place for place, row in enumerate(rows) if row[:6] in used] or [0]
    for _ in range(rng.choice((1, 1, 2, 5))):
        at = min(rng.choice(near) if rng.random() < 0.8 else rng.randrange(len(rows)), len(rows) - 1)
        way = rng.randrange(8)
        if way == 0:
            del rows[at]
        elif way == 1:
            rows.insert(at, rng.choice(rows))
        elif way == 2:
            rows[at] = flipped(rng, rows[at])
        else:
            rows[at] = other_row(rng, rows[at])
    table = b"".join(rows)
    return cut(rng, table) if rng.random() < 0.03 else table


def tables_of(rng: random.Random, text: bytes, folder: pathlib.Path) -> tuple:
    """Writes a Table B and a Table D for a dump, at least one of which is hostile. Returns the command-line options."""
    used = set(re.findall(rb"\b[03]\d{5}\b", text))
    which = rng.choice(("B", "D", "BD"))
    for name, rows in (("B", TABLE_B), ("D", TABLE_D)):
        (folder / name).write_bytes(table_of(rng, rows, used) if name in which else b"".join(rows))
    return ("-B", str(folder / "B"), "-D", str(folder / "D"))


# ---------------------------------------------------------------- cases


def try_case(number: int) -> tuple:
    """Tries the case with this number. Returns counts of what happened, and an error message, which is empty on success."""
    rng, seen = random.Random(f"case {number}"), collections.Counter()
    kind = rng.choices(("streams", "texts", "tables"), (50, 35, 15))[0]
    form = rng.choice(("", "", "plain", "compressed"))
    seen[kind] += 1
    with tempfile.TemporaryDirectory(prefix="hostile-") as name:
        folder, tables = pathlib.Path(name), WMO
        if kind == "tables":
            piece = some(rng)
            tables = tables_of(rng, whole_text(piece), folder)
            of_text = rng.random() < 0.5
            octets = whole_text(piece) if of_text else whole_stream(piece)
        else:
            of_text = kind == "texts"
            octets = text_of(rng) if of_text else stream_of(rng)
        try:
            (try_text if of_text else try_stream)(seen, octets, tables, form)
        except Long:
            seen["more output than was read"] += 1
        except Wrong as wrong:
            KEPT.mkdir(parents=True, exist_ok=True)
            (KEPT / f"{number}.input").write_bytes(octets)
            for file in folder.iterdir():
                (KEPT / f"{number}.{file.name}").write_bytes(file.read_bytes())
            return seen, f"case {number}: {wrong}"
    return seen, ""


def main() -> None:
    count, first = (int(word) for word in (sys.argv[1:3] + ["1000", "0"][len(sys.argv[1:3]) :]))
    seen, wrongs = collections.Counter(), 0
    with multiprocessing.Pool(2) as pool:
        for one, wrong in pool.imap_unordered(try_case, range(first, first + count), chunksize=20):
            seen += one
            if wrong:
                wrongs += 1
                print(wrong, flush=True)
    for name in sorted(seen):
        print(f"{name}: {seen[name]:,}")
    print(f"{count:,} cases from {first} on: {wrongs} wrong")
    sys.exit(1 if wrongs else 0)


if __name__ == "__main__":
    if len(sys.argv) > 3:
        PROGRAM = sys.argv[3]
    main()
