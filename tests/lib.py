"""Helpers for the Python tests: find the program and the tables, run programs, end a test, and build messages by hand."""
import os
import pathlib
import subprocess
import sys

TOP = pathlib.Path(__file__).resolve().parent.parent
BUILT = TOP / "crates/bufr/out/bufr"
FAULT = r"^\| `(?:bufr: )?(\d+) "  # matches the row of a fault in docs/texts.md
PAGES = ["README.md", "CONTRIBUTING.md", "bench/README.md", "tables/README.md"]
DOCS = [*(TOP / page for page in PAGES), *sorted((TOP / "docs").glob("*.md"))]
TABLES = ["-B", str(TOP / "tables/wmo-39/B.csv"), "-D", str(TOP / "tables/wmo-39/D.csv")]


def program() -> str:
    """Returns the path of the program under test: the first argument or, if there is none, the program that was built."""
    return str(pathlib.Path(sys.argv[1] if len(sys.argv) > 1 else BUILT).resolve())


def use_python_with(*modules: str) -> None:
    """Restarts the test with /usr/bin/python3 if this Python lacks one of these modules. If both lack one, skips the test."""
    for python in (sys.executable, "/usr/bin/python3"):
        known = subprocess.run([python, "-c", f"import {', '.join(modules)}"], stderr=subprocess.DEVNULL)
        if known.returncode == 0:
            if python != sys.executable:
                os.execv(python, [python, *sys.argv])
            return
    print(f"{pathlib.Path(sys.argv[0]).stem}: skipped, no python3 here has {' and '.join(modules)}")
    sys.exit()


def finish(wrongs: list) -> None:
    """Ends a test: prints each failure with the name of the test, and exits with status 1 or, if there are none, 0."""
    test = pathlib.Path(sys.argv[0]).resolve().relative_to(TOP)
    for wrong in wrongs:
        print(f"{test}: {wrong}", file=sys.stderr)
    sys.exit(bool(wrongs))


def want(holds: bool, wrong: str) -> None:
    """Ends the test immediately and reports `wrong` if `holds` is false."""
    if not holds:
        finish([wrong])


def usage_of(words: list, **streams):
    """Runs a program. Returns its exit status and the resources used by it and by the child processes it waited for."""
    with subprocess.Popen(words, **streams) as run:
        _, status, usage = os.wait4(run.pid, 0)
        run.returncode = os.waitstatus_to_exitcode(status)
    return run.returncode, usage


def seconds_of(words: list, **streams) -> float:
    """Runs a program, which must exit with status 0. Returns its processor time (user and system) in seconds."""
    status, usage = usage_of(words, **streams)
    want(status == 0, f"{words[:3]} ends with {status}")
    return usage.ru_utime + usage.ru_stime


def least_seconds(commands: list, most: float, output=os.devnull, **streams) -> list:
    """Returns the lowest processor time of each command over several rounds, because other programs may slow down any run.

    Runs 3 to 20 rounds. From round 3 on, stops as soon as the first command's least time is at most `most` times the sum of
    the others'.
    """
    least = [1e9] * len(commands)
    for number in range(20):
        for at, words in enumerate(commands):
            with open(output, "wb") as file:
                least[at] = min(least[at], seconds_of(words, stdout=file, **streams))
        if number > 1 and least[0] <= most * sum(least[1:]):
            break
    return least


def runs(process: int) -> bool:
    """Returns whether a process is running. A process that has exited but has not been waited for does not count."""
    try:
        return pathlib.Path(f"/proc/{process}/stat").read_text().rpartition(") ")[2][:1] != "Z"
    except OSError:
        return False


# Section 1 of each edition, with one octet for local use in edition 3.
SECTION_1 = {
    3: bytes.fromhex("000012000062000000000E00180102030400"),
    4: bytes.fromhex("000016000062000000000000000E0007E80102030405"),
}


def section(content: bytes, edition: int) -> bytes:
    """Returns a section, beginning with its length. In edition 3, a zero octet is added if the length would be odd."""
    content += b"\0" * (edition == 3 and len(content) % 2 == 0)
    return (len(content) + 3).to_bytes(3, "big") + content


def message(data: bytes, descriptors: bytes = b"\x01\x01", subsets: int = 1, flags: int = 0x80, edition: int = 4) -> bytes:
    """Returns a message with the shortest possible sections and without the optional section."""
    three = section(b"\0" + subsets.to_bytes(2, "big") + bytes([flags]) + descriptors, edition)
    body = SECTION_1[edition] + three + section(b"\0" + data, edition) + b"7777"
    return b"BUFR" + (8 + len(body)).to_bytes(3, "big") + bytes([edition]) + body


def asking(message: bytes, version: int, local: int = 0, centre: int = 98) -> bytes:
    """Returns an edition 4 message with its centre, table version and local version replaced."""
    return message[:12] + centre.to_bytes(2, "big") + message[14:21] + bytes([version, local]) + message[23:]


def words(text: str) -> bytes:
    """Encodes six-digit descriptors as in section 3, with two octets each."""
    return b"".join((int(d[0]) << 14 | int(d[1:3]) << 8 | int(d[3:])).to_bytes(2, "big") for d in text.split())


class Bits:
    """Packs numbers of various widths into octets, most significant bits first."""

    def __init__(self) -> None:
        self.value, self.count, self.done = 0, 0, bytearray()

    def put(self, number: int, width: int) -> None:
        self.value, self.count = self.value << width | number, self.count + width
        while self.count >= 8:
            self.count -= 8
            self.done.append(self.value >> self.count)
            self.value &= (1 << self.count) - 1

    def octets(self) -> bytes:
        return bytes(self.done) + (bytes([self.value << 8 - self.count]) if self.count else b"")
