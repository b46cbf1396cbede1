#!/usr/bin/env python3
"""Times `bufr_items` in the C library, `bufr dump` and ecCodes on real messages.

    bench/library.py FOLDER FILE [MB [PROGRAM]]    FOLDER: the directory that library/build.sh filled
                                                   FILE: a BUFR file; its contents are repeated to make the stream
                                                   MB: the size of the stream in megabytes (default: 20)

The script prints a Markdown table with the CPU time and the peak resident memory of a single run of each. It calls
`bufr_items` from Python, with room for 1,048,576 rows. The time for `bufr_items` includes only the calls, but the memory is
that of the whole process, including Python, the stream and the outputs. ecCodes reads a tenth of the stream, and its time is
multiplied by ten. ecCodes is left out if there is no C compiler or no libeccodes-dev. This benchmark needs GNU time, and is
not part of the gate.
"""
import pathlib
import shlex
import subprocess
import sys
import tempfile
import time

TOP = pathlib.Path(__file__).resolve().parent.parent
sys.path[:0] = [str(TOP / "tests"), str(TOP / "library/examples")]

import bufr_library
from lib import BUILT, TABLES

ECCODES = r"""
#include <eccodes.h>
#include <stdlib.h>

int main(int argc, char **argv) {
    FILE *in = fopen(argv[argc - 1], "rb");
    codes_handle *message;
    int error;
    while ((message = codes_handle_new_from_file(NULL, in, PRODUCT_BUFR, &error)) != NULL) {
        size_t count = 0;
        if (!codes_set_long(message, "unpack", 1) && !codes_get_size(message, "numericValues", &count)) {
            double *values = malloc(count * sizeof *values);
            codes_get_double_array(message, "numericValues", values, &count);
            free(values);
        }
        codes_handle_delete(message);
    }
    return 0;
}
"""


def read(folder: str, name: str, *wanted: str) -> None:
    """Runs in a child process: reads the items in a file, and prints the CPU seconds that the calls took."""
    table_b, table_d = (pathlib.Path(it).read_bytes() for it in TABLES[1::2])
    library = bufr_library.Library(str(pathlib.Path(folder) / "libbufr.so"), table_b, table_d, 24 << 20)
    call, seconds = library.calls.bufr_items, 0.0

    def timed(*words) -> int:
        nonlocal seconds
        start = time.process_time()
        status = call(*words)
        seconds += time.process_time() - start
        return status

    library.calls.bufr_items = timed
    for _ in library.parts(pathlib.Path(name).read_bytes(), tuple(map(int, wanted))):
        pass
    print(seconds)


def run(words: list) -> tuple:
    """Returns the CPU time and the peak memory of a command. If the command runs this file, it prints the time itself."""
    output = subprocess.PIPE if __file__ in words else subprocess.DEVNULL
    with tempfile.NamedTemporaryFile("r") as told:
        timed = ["/usr/bin/time", "-o", told.name, "-f", "%U %S %M", *map(str, words)]
        done = subprocess.run(timed, stdout=output, stderr=subprocess.DEVNULL)
        # `bufr dump` exits with status 1 if it rejected a message.
        if done.returncode not in (0, 1):
            sys.exit(f"{words[0]}: status {done.returncode}")
        user, system, memory = map(float, told.read().split()[-3:])
    return float(done.stdout or user + system), memory


def eccodes(work: pathlib.Path):
    """Compiles the program that reads with ecCodes. Returns its path, or None if this is not possible."""
    source, built = work / "eccodes.c", work / "eccodes"
    source.write_text(ECCODES)
    try:
        flags = subprocess.run(["pkg-config", "--cflags", "--libs", "eccodes"], check=True, stdout=subprocess.PIPE, text=True)
        subprocess.run(["cc", "-O2", source, *shlex.split(flags.stdout), "-o", built], check=True)
    except (OSError, subprocess.CalledProcessError):
        return None
    return built


def main(folder: str, name: str, megabytes: str = "20", program: str = str(BUILT)) -> None:
    octets = pathlib.Path(name).read_bytes()
    times = max(10, int(megabytes) * 1_000_000 // len(octets))  # ecCodes reads a tenth
    with tempfile.TemporaryDirectory() as place:
        stream, tenth = pathlib.Path(place) / "stream", pathlib.Path(place) / "tenth"
        stream.write_bytes(octets * times)
        tenth.write_bytes(octets * (times // 10))
        items = [sys.executable, __file__, "--read", folder, stream]
        rows = [
            ("`bufr_items`", items, 1),
            ("the same, only the temperatures", [*items, "3173"], 1),
            ("`bufr dump FILE > /dev/null`", [program, "dump", *TABLES, stream], 1),
        ]
        foreign = eccodes(pathlib.Path(place))
        if foreign:
            rows.append(("ecCodes from C", [foreign, tenth], 10))
        print("| what | seconds | MB |\n|---|---|---|")
        for what, words, factor in rows:
            seconds, memory = run(words)
            print(f"| {what} | {factor * seconds:.2f} | {memory * 1024 / 1e6:.0f} |", flush=True)


if __name__ == "__main__":
    if sys.argv[1:2] == ["--read"]:
        read(*sys.argv[2:])
    elif len(sys.argv) < 3:
        sys.exit(__doc__.strip())
    else:
        main(*sys.argv[1:])
