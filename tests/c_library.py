#!/usr/bin/env python3
"""Compares the C library with the program on examples/, tests/vectors and random hostile streams.

    tests/c_library.py [PROGRAM [FOLDER]]        FOLDER: the directory that library/build.sh filled (default: the
                                                 directory of the library that BUFR_LIBRARY names or, if it is not
                                                 set, a new build)

The outputs must be the same, with large and small buffers, and in several threads at once. The rows for items must agree
with the output of `bufr dump`, and the rows for messages with that of `bufr ls`. The structures and numbers in
bufr_library.py must be those in bufr.h. Finally, the examples in C and Fortran are compiled, run, and checked with
valgrind.
"""
import ctypes
import fcntl
import os
import pathlib
import random
import re
import shlex
import shutil
import struct
import subprocess
import sys
import tempfile
import termios
import threading
import time
from concurrent.futures import ThreadPoolExecutor

from lib import TOP, finish, program

sys.path[:0] = [str(TOP / "library/examples"), str(TOP / "tests/hostile")]

import bufr_library
import random_trial

VECTORS = TOP / "tests/vectors"
SETS = [(TOP / "tables/wmo-39/B.csv", TOP / "tables/wmo-39/D.csv"), (VECTORS / "tables/B.csv", VECTORS / "tables/D.csv")]
HOSTILE = 150
SMALL = 64  # the initial size of small buffers, in octets
wrongs: list = []


def said_by(words: list, octets: bytes) -> tuple:
    """Runs the program with this input. Returns what it writes to standard output and standard error."""
    run = subprocess.run([PROGRAM, *map(str, words)], input=octets, stdout=subprocess.PIPE, stderr=subprocess.PIPE)
    return run.stdout, run.stderr


def table_status(tables: tuple) -> int:
    """Returns the fault number that the program reports for these tables (plus 100 for Table D), or 0 if there is none."""
    _, errors = said_by(["dump", "-B", tables[0], "-D", tables[1]], b"")
    found = re.match(rb"table ([BD]): (\d+) ", errors)
    return int(found[2]) + 100 * (found[1] == b"D") if found else 0


def alike(what: str, given, wanted) -> None:
    if given != wanted:
        wrongs.append(f"{what}: {str(given)[:300]}\n  in place of {str(wanted)[:300]}")


# Matches an item's line. The group excludes the name and unit.
ITEM = re.compile(rb'((?:R )?\d{6} (?:"(?:[^"\\]|\\.)*"|[^ ]+))(?:  # .*)?')


def lines_in(text: bytes) -> list:
    """Returns, for each message in a dump, the lines of its subsets and items, without names and units."""
    found, inside = [], False
    for line in text.split(b"\n"):
        if line == b"message":
            found.append([])
            inside = False
        inside = inside or line.startswith(b"subset ")
        if inside and line != b"end" and line:
            item = ITEM.fullmatch(line)
            found[-1].append(item[1] if item else line)
    return found


def listed_by(row) -> bytes:
    """Returns the line that `bufr ls` prints for the message that a row describes, up to the field `compressed`."""
    words = f"offset={row.offset} length={row.length} edition={row.edition} centre={row.centre}/{row.subcentre}"
    words += f" update={row.update} category={row.category}/{row.subcategory}/{row.local_subcategory}"
    words += f" tables={row.master}/{row.master_version}/{row.local_version} time={row.year:04}-{row.month:02}-{row.day:02}"
    words += f"T{row.hour:02}:{row.minute:02}:{row.second:02} subsets={row.subsets}"
    return f"{words} observed={row.observed} compressed={row.compressed}".encode()


def lines_of(parts) -> tuple:
    """Returns the lines for the library's rows, and the offset and fault number of each rejected message and stray.

    The lines must be those that `lines_in` returns for the program's dump.
    """
    found, faults = [], []
    for items, texts, messages in parts:
        for index, row in enumerate(messages):
            own = items[row.first : row.first + row.items]
            if row.fault:
                faults.append((row.offset, row.fault))
                alike("items of a refused message", len(own), 0)
                continue
            lines, subset = [], 0
            for item in own:
                alike("message of an item", item.message, index)
                while subset < item.subset:
                    subset += 1
                    lines.append(b"subset %d" % subset)
                lines.append(bufr_library.item_line(item, texts))
            lines += [b"subset %d" % it for it in range(subset + 1, row.subsets + 1)]
            found.append(lines)
    return found, faults


def try_stream(name: str, stream: bytes, tables: tuple, of_library) -> None:
    """Compares all calls on one stream. The library's buffers initially have room for `of_library.octets` octets."""
    options = ("-B", tables[0], "-D", tables[1])
    alike(f"{name}: list", of_library.list(stream), said_by(["ls"], stream))
    text, errors = wanted = said_by(["dump", *options], stream)
    alike(f"{name}: dump", of_library.dump(stream), wanted)
    parts = list(of_library.parts(stream))
    lines, faults = lines_of(parts)
    alike(f"{name}: items", lines, lines_in(text))
    rows = [listed_by(row) for _, _, messages in parts for row in messages if row.edition]
    alike(f"{name}: messages", rows, [line.partition(b" optional=")[0] for line in said_by(["ls"], stream)[0].splitlines()])
    try_wanted(name, stream, parts, of_library)
    told = [(int(at), int(number)) for at, number in re.findall(rb"^offset (\d+): (\d+) ", errors, re.M)]
    alike(f"{name}: faults of messages", faults, told)
    if text:
        try_text(name, text, tables, of_library)


def values_of(parts, wanted) -> list:
    """Returns the offset, fault and wanted items of each message. These do not depend on how the stream is divided."""
    found = []
    for items, texts, messages in parts:
        for row in messages:
            own = items[row.first : row.first + row.items]
            values = [(it.subset, bufr_library.item_line(it, texts)) for it in own if not wanted or it.fxy in wanted]
            found.append((row.offset, row.fault, values))
    return found


def try_wanted(name: str, stream: bytes, parts: list, of_library) -> None:
    """The library returns only the items with the wanted descriptors. One of these does not occur in the stream."""
    there = sorted({item.fxy for items, _, _ in parts for item in items})
    for wanted in ((*there[:1], *there[-1:], 0xFFFF), (0xFFFF,)):
        given = list(of_library.parts(stream, wanted))
        alike(f"{name}: items but {wanted}", {it.fxy for items, _, _ in given for it in items}, {*wanted} & {*there})
        alike(f"{name}: items {wanted}", values_of(given, ()), values_of(parts, wanted))


def try_text(name: str, text: bytes, tables: tuple, of_library) -> None:
    for form, word in enumerate(("", "plain", "compressed")):
        words = ["encode", "-B", tables[0], "-D", tables[1], *(["--form", word] if word else [])]
        alike(f"{name}: encode {word}", of_library.encode(text, form), said_by(words, text))


def inputs():
    """Yields the examples, the vectors and random streams, each with the function that tests it and the tables to use."""
    for file in sorted((TOP / "examples").glob("*.bufr")):
        yield f"examples/{file.name}", try_stream, file.read_bytes(), SETS[0]
    for file in sorted((VECTORS / "messages").iterdir()):
        yield f"vectors/{file.name}", try_stream, file.read_bytes(), SETS[1]
    for file in sorted((VECTORS / "texts").iterdir()):
        yield f"vectors/{file.name}", try_text, file.read_bytes(), SETS[1]
    for number in range(HOSTILE):
        rng = random.Random(f"library {number}")
        yield f"hostile stream {number}", try_stream, random_trial.stream_of(rng), SETS[0]


# The integer types in bufr.h, and their ctypes equivalents.
C_TYPES = {f"{sign}int{bits}_t": getattr(ctypes, f"c_{sign}int{bits}") for sign in ("", "u") for bits in (8, 16, 32, 64)}
C_TYPES["size_t"] = ctypes.c_size_t


def offsets_in(struct) -> list:
    """Returns the offset of each field in a structure, followed by the size of the structure."""
    return [getattr(struct, name).offset for name, _ in struct._fields_] + [ctypes.sizeof(struct)]


def try_header(path: str) -> None:
    """bufr_library.py declares the same structures and numbers as bufr.h, and the same faults as docs/texts.md."""
    header = re.sub(r"/\*.*?\*/", "", (TOP / "library/bufr.h").read_text(), flags=re.S)
    of_python = {f"bufr_{it.lower()}": getattr(bufr_library, it) for it in dir(bufr_library) if it[0].isupper()}
    for name, body in re.findall(r"^enum (\w+) \{(.*?)\n\};", header, re.S | re.M):
        numbers = {word: int(number) for word, number in re.findall(r"BUFR_(?:FAULT_)?(\w+) = (\d+)", body)}
        alike(f"enum {name}", {it.name: it.value for it in of_python[name]}, numbers)
    section = (TOP / "docs/texts.md").read_text().partition("## Fault lines\n")[2].partition("\n## ")[0]
    alike("faults", [0, *map(int, re.findall(r"^\| `(\d+) ", section, re.M))], [it.value for it in bufr_library.Fault])
    structs = {}
    for name, body in re.findall(r"^struct (\w+) \{(.*?)\n\};", header, re.S | re.M):
        fields = []
        for kind, star, field, _, count in re.findall(r"(?:const |struct )*(\w+) (\*?)(\w+)(\[(\d+)\])?;", body):
            kind = C_TYPES.get(kind) or of_python[kind]
            kind = ctypes.POINTER(kind) if star else kind
            fields.append((field, kind * int(count) if count else kind))
        alike(f"lines of struct {name}", len(fields), body.count(";"))
        structs[name] = type(name, (ctypes.Structure,), {"_fields_": fields})
        alike(f"struct {name}", of_python[name]._fields_, fields)
        alike(f"offsets in {name}", offsets_in(of_python[name]), offsets_in(structs[name]))
    declared = {f"bufr_{it.lower()}" for it in ("Input", "Texts", "Item", "Message", "Rows", "Counts")}
    alike("structures", set(structs), declared)
    version = int(re.search(r"#define BUFR_VERSION (\d+)", header)[1])
    alike("version", bufr_library.Library(path).version(), version)


def try_names(folder: pathlib.Path) -> None:
    """The archive and the shared library define the functions that bufr.h declares, and no other global names."""
    calls = set(re.findall(r"^u?int32_t (\w+)\(", (TOP / "library/bufr.h").read_text(), re.M))
    if not shutil.which("nm"):
        print("tests/c_library.py: nm is not installed, so the names in the library are not compared", file=sys.stderr)
        return
    for words in (["-g", "libbufr.a"], ["-D", "libbufr.so"]):
        names = subprocess.run(["nm", "--defined-only", "-P", *words], cwd=folder, stdout=subprocess.PIPE, text=True).stdout
        alike(f"names in {words[1]}", set(re.findall(r"^(\w+) [A-Z]", names, re.M)), calls)


def try_small_rooms(path: str) -> None:
    """If one output has no room, a call reports how much room each output needs. The same call again reports the same."""
    of_library = bufr_library.Library(path, *(it.read_bytes() for it in SETS[0]))
    stream = (TOP / "examples/synop.bufr").read_bytes()  # one message
    ((items, texts, messages),) = of_library.parts(stream)
    counts = [len(items), len(texts), len(messages)]
    for small in range(3):
        rooms = [0 if at == small else count for at, count in enumerate(counts)]
        outputs = map(bufr_library.room, rooms, (bufr_library.Item, ctypes.c_uint8, bufr_library.Message))
        rows = bufr_library.Rows(*(it for pair in zip(outputs, rooms) for it in pair))
        read, told = of_library.input(stream), bufr_library.Counts()
        for _ in range(2):
            status = of_library.calls.bufr_items(ctypes.byref(read), ctypes.byref(rows), ctypes.byref(told))
            alike(f"no room in output {small}: status", status, bufr_library.Status.NO_ROOM)
            alike(f"no room in output {small}: progress", (told.at, told.items, told.octets, told.messages), (0, 0, 0, 0))
            needed = [told.items_needed, told.octets_needed, told.messages_needed]
            alike(f"no room in output {small}: room needed", needed, counts)


def try_tables(path: str) -> None:
    """If a table is invalid, each call returns the number of the table's fault."""
    good = [it.read_bytes() for it in SETS[0]]
    with tempfile.TemporaryDirectory() as name:
        files = (pathlib.Path(name) / "B", pathlib.Path(name) / "D")
        for which in range(2):
            first_row = good[which].splitlines(keepends=True)[1]
            for wrong in (b"", b"fxy\n", good[which] + b"x\n", good[which] + first_row, good[which] + b'"\n'):
                tables = [*good[:which], wrong, *good[which + 1 :]]
                for file, content in zip(files, tables):
                    file.write_bytes(content)
                of_library = bufr_library.Library(path, *tables)
                for call in (of_library.dump, of_library.encode, lambda it: list(of_library.parts(it))):
                    try:
                        call(b"")
                        status = 0
                    except bufr_library.LibraryError as error:
                        status = error.status
                    alike(f"status for tables with {wrong[-20:]!r}", status, table_status(files))


def try_threads(path: str) -> None:
    """Eight threads that use the library at the same time get the same results as a single thread."""
    files = sorted((TOP / "examples").glob("*.bufr"))
    tables = [it.read_bytes() for it in SETS[0]]
    of_library = bufr_library.Library(path, *tables)
    streams = [file.read_bytes() for file in files]
    wanted = [(of_library.dump(it), lines_of(of_library.parts(it))) for it in streams]
    start = threading.Barrier(8)

    def one(number: int) -> None:
        start.wait()
        for turn in range(6):
            at = (number + turn) % len(streams)
            given = of_library.dump(streams[at]), lines_of(of_library.parts(streams[at]))
            alike(f"thread {number}, {files[at].name}", given, wanted[at])

    with ThreadPoolExecutor(8) as pool:
        list(pool.map(one, range(8)))


def try_examples(folder: pathlib.Path, work: pathlib.Path) -> None:
    """Compiles the examples, links them with the archive and with the shared library, and checks their output."""
    faulty, stream = TOP / "examples/bulletins.bufr", TOP / "examples/synop.bufr"
    listing = said_by(["ls"], faulty.read_bytes())
    text, _ = said_by(["dump", "-B", SETS[0][0], "-D", SETS[0][1]], stream.read_bytes())
    number = re.compile(rb"^\d{6} -?[\d.]+  # .*\n", re.M)
    named = b"".join(number.findall(text))
    numbers = re.sub(rb"  # .*", b"", named)
    text, faults = said_by(["dump", "-B", SETS[0][0], "-D", SETS[0][1]], faulty.read_bytes())
    refused = b"".join(number.findall(text)), re.sub(rb"(: )(\d+) .*", rb"\1fault \2", faults)
    refused_numbers = re.sub(rb"  # .*", b"", refused[0]), refused[1]
    examples = TOP / "library/examples"
    # An element with more decimal places than a 64-bit number has digits.
    small, fine = work / "small.bufr", (work / "B.csv", SETS[0][1])
    fine[0].write_bytes(SETS[0][0].read_bytes() + b"001192,FINE,Numeric,100,0,8\n")
    document = (VECTORS / "texts/one_block_number.txt").read_bytes().replace(b"001001 10", b"001192 0." + b"0" * 98 + b"10")
    small.write_bytes(said_by(["encode", "-B", fine[0], "-D", fine[1]], document.replace(b"001001", b"001192"))[0])
    many_places = b"001192 0." + b"0" * 98 + b"10  # FINE [Numeric]\n"
    of_c = ["-std=c99", "-D_POSIX_C_SOURCE=200809L", "-Wall", "-Wextra", "-pedantic", "-Werror"]
    of_fortran = ["-std=f2018", "-Wall", "-Werror", f"-J{work}"]
    tries = [
        ("gcc", of_c, "list_stream.c", [faulty], listing),
        ("gcc", of_c, "print_numbers.c", [*fine, small], (many_places, b"")),
        ("gcc", of_c, "print_numbers.c", [*SETS[0], stream], (named, b"")),
        ("gcc", of_c, "print_numbers.c", [*SETS[0], faulty], refused),
        ("gcc", of_c, "read_pipe.c", [*SETS[0]], (b"", b"")),
        ("g++", ["-x", "c++", "-Wall", "-Werror"], "list_stream.c", [faulty], listing),
        ("gfortran", of_fortran, "print_numbers.f90", [*SETS[0], stream], (numbers, b"")),
        ("gfortran", of_fortran, "print_numbers.f90", [*SETS[0], faulty], refused_numbers),
    ]
    for compiler, flags, source, words, wanted in tries:
        if not shutil.which(compiler):
            print(f"tests/c_library.py: {compiler} is not installed, so {source} is not tried with it", file=sys.stderr)
            continue
        for way, last in (("static", [folder / "libbufr.a"]), ("shared", [f"-L{folder}", "-lbufr", f"-Wl,-rpath,{folder}"])):
            built = work / f"{source}.{compiler}.{way}"
            command = [compiler, *flags, f"-I{folder}", examples / source, "-x", "none", *last, "-o", built]
            done = subprocess.run([str(it) for it in command], stdout=subprocess.PIPE, stderr=subprocess.STDOUT, text=True)
            if done.returncode or done.stdout:
                wrongs.append(f"{compiler} {source}, {way}: {done.stdout}")
                continue
            alike(f"{compiler} {source}, {way}: asks for libbufr.so.0", b"\0libbufr.so.0\0" in built.read_bytes(), way == "shared")
            run = subprocess.run([built, *words], input=b"", stdout=subprocess.PIPE, stderr=subprocess.PIPE)
            alike(f"{compiler} {source}, {way}", (run.returncode, run.stdout, run.stderr), (0, *wanted))
            if way == "shared" and not shutil.which("valgrind"):
                print("tests/c_library.py: valgrind is not installed, so no example runs under it", file=sys.stderr)
            elif way == "shared":
                check = ["valgrind", "-q", "--error-exitcode=9", "--leak-check=full", "--show-leak-kinds=all", str(built)]
                run = subprocess.run([*check, *map(str, words)], input=b"", stdout=subprocess.PIPE, stderr=subprocess.PIPE)
                alike(f"{source} under valgrind", (run.returncode, run.stdout, run.stderr), (0, *wanted))
                for few, status in (([], 2), ([*words[:-1], work / "none"], 1)) if compiler == "gcc" else ():
                    run = subprocess.run([*check, *map(str, few)], stdout=subprocess.PIPE, stderr=subprocess.PIPE)
                    alike(f"{source} with {len(few)} words under valgrind", run.returncode, status)


def try_pipe(folder: pathlib.Path, work: pathlib.Path) -> None:
    """The example that reads a pipe prints the same messages, no matter how many octets arrive at a time."""
    built = work / "read_pipe.c.gcc.static"
    if not built.exists():
        return
    long = (TOP / "examples/sounding.bufr").read_bytes() * 600  # longer than the initial buffer
    examples = b"".join(path.read_bytes() for path in sorted((TOP / "examples").glob("*.bufr")))
    beyond = b"BUFR\xff\xff\xff\4" + b" " * 8  # declares a length beyond the end of the input
    of_library = bufr_library.Library(str(folder / "libbufr.so"), *(table.read_bytes() for table in SETS[0]))
    bulletins = (TOP / "examples/bulletins.bufr").read_bytes()
    for stream, size in ((bulletins, 1), (examples + b"BUF", 7), (long + examples + beyond + examples, 1 << 16), (b"", 1)):
        rows = [row for _, _, messages in of_library.parts(stream, (0xFFFF,)) for row in messages]
        wanted = "".join(f"offset={row.offset} length={row.length} fault={row.fault}\n" for row in rows).encode()
        with subprocess.Popen([built, *SETS[0]], stdin=subprocess.PIPE, stdout=subprocess.PIPE) as run:
            with ThreadPoolExecutor(1) as pool:
                printed = pool.submit(run.stdout.read)
                for at in range(0, len(stream), size):
                    os.write(run.stdin.fileno(), stream[at : at + size])
                    while struct.unpack("i", fcntl.ioctl(run.stdin, termios.FIONREAD, bytes(4)))[0]:
                        time.sleep(0)  # wait until the program has read these octets, so that it reads them separately
                run.stdin.close()
                alike(f"a pipe, {size} octets at a time", (printed.result(), run.wait()), (wanted, 0))


def try_pkg_config(folder: pathlib.Path, work: pathlib.Path) -> None:
    """Installs the library as docs/library.md describes, and compiles an example with the flags from pkg-config."""
    if not shutil.which("pkg-config") or not shutil.which("gcc"):
        print("tests/c_library.py: pkg-config or gcc is not installed, so bufr.pc is not tried", file=sys.stderr)
        return
    prefix, stream, built = work / "prefix", TOP / "examples/bulletins.bufr", work / "listing"
    for name, place in (("bufr.pc", "lib/pkgconfig"), ("libbufr.*", "lib"), ("bufr.h", "include")):
        (prefix / place).mkdir(parents=True, exist_ok=True)
        for file in folder.glob(name):
            shutil.copy(file, prefix / place, follow_symlinks=False)
    words = ["pkg-config", "--cflags", "--libs", "bufr"]
    environment = {**os.environ, "PKG_CONFIG_PATH": str(prefix / "lib/pkgconfig")}
    flags = subprocess.run(words, env=environment, stdout=subprocess.PIPE, text=True).stdout
    words = ["gcc", TOP / "library/examples/list_stream.c", *shlex.split(flags), f"-Wl,-rpath,{prefix}/lib", "-o", built]
    done = subprocess.run(words, stdout=subprocess.PIPE, stderr=subprocess.STDOUT, text=True)
    alike("an example by pkg-config is compiled", (done.returncode, done.stdout), (0, ""))
    if done.returncode == 0:
        run = subprocess.run([built, stream], stdout=subprocess.PIPE, stderr=subprocess.PIPE)
        wanted = (0, *said_by(["ls"], stream.read_bytes()))
        alike("an example by pkg-config", (run.returncode, run.stdout, run.stderr), wanted)


def main() -> None:
    with tempfile.TemporaryDirectory() as name:
        work = pathlib.Path(name)
        named = sys.argv[2] if len(sys.argv) > 2 else os.path.dirname(os.environ.get("BUFR_LIBRARY", ""))
        folder = pathlib.Path(named).resolve() if named else work / "library"
        if not named:
            if not shutil.which(os.environ.get("CC", "cc")) or not shutil.which("rt"):
                print("tests/c_library.py: skipped, since it needs rt and cc, a C compiler", file=sys.stderr)
                return
            built = subprocess.run([TOP / "library/build.sh", folder], stdout=subprocess.PIPE, stderr=subprocess.STDOUT)
            if built.returncode:
                finish([f"library/build.sh fails: {built.stdout.decode(errors='replace')[-2000:]}"])
        path = str(folder / "libbufr.so")
        for octets in (1 << 20, SMALL):
            of_sets = {it: bufr_library.Library(path, it[0].read_bytes(), it[1].read_bytes(), octets) for it in SETS}
            for case, trial, content, tables in inputs():
                trial(f"{case}, rooms of {octets}", content, tables, of_sets[tables])
        try_header(path)
        try_names(folder)
        try_small_rooms(path)
        try_tables(path)
        try_threads(path)
        try_examples(folder, work)
        try_pipe(folder, work)
        try_pkg_config(folder, work)
        finish(wrongs)


PROGRAM = program()

if __name__ == "__main__":
    main()
