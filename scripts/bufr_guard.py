"""Code that the scripts share for handling errors and signals, running programs, and writing output.

A script passes its work to `run`, as a function that takes the command-line arguments and returns the exit status. The
function raises `Failed` if it cannot continue.

    def work(words):
        source = bufr_guard.opened(words[0] if words else None)
        errors = bufr_guard.temporary()
        process = bufr_guard.start([bufr_guard.program(), "ls"], source, errors=errors)
        status = bufr_guard.wait(process)
        ...
    sys.excepthook = bufr_guard.hook  # before the script imports anything else
    bufr_guard.run(work, __doc__)

- `run` calls the function, flushes the output, and exits with the returned status. If the function raises `Question`,
  `run` prints the help or the version. For any other exception, it prints one line and exits with status 2.
- `start` and `wait` run a program. A signal that ends the script also ends the program. `checked` raises `Failed` if the
  program crashed.
- `opened`, `temporary` and `copied` return file descriptors. They raise `Failed` if a file cannot be opened, or if there
  is no space for temporary files. `output` returns an object that writes to a descriptor (by default, standard output) in
  large blocks.
- `say` writes lines to standard error, and `Progress` displays a temporary progress line. `bare` returns the note for a
  file that contains no messages.

Every script loads this module, so it imports as few modules as possible.
"""
from __future__ import annotations

import errno
import os
import select
import stat
import sys
import time

TYPE_CHECKING = False
if TYPE_CHECKING:
    import signal
    from functools import partial
    from types import FrameType, TracebackType
    from typing import Any, BinaryIO, Callable, Dict, Iterable, Iterator, List, NoReturn, Optional, Sequence, Type, Union
else:
    # The public modules import enum and collections, which takes longer than everything else here.
    import _signal as signal
    from _functools import partial

BLOCK = 1 << 20
# Notes on a feed are printed when the feed pauses for a second, and otherwise at this interval (in seconds).
INTERVAL = 60
NOWHERE = float("inf")
# The processes that were started but have not been waited for.
RUNNING: list[list[int]] = []
# The files to remove if a signal ends the script.
UNFINISHED: list[str] = []
# Types of files that contain no messages, by the first bytes of the file. Some texts name a program that reads the type.
KINDS_OF_FILES = {
    b"\x1f\x8b": "gzip data (use zcat)",
    b"BZh": "bzip2 data (use bzcat)",
    b"\xfd7zXZ": "xz data (use xzcat)",
    b"\x28\xb5\x2f\xfd": "zstd data (use zstdcat)",
    b"PK\3\4": "a zip archive (use unzip -p)",
    b"GRIB": "GRIB",
    b"CDF": "netCDF",
    b"\x89HDF": "HDF5",
    b"<!doctype html": "HTML",
    b"<html": "HTML",
    b"<?xml": "XML",
    b"message\n": "a dump (use bufr-auto --encode)",
}


class Failed(Exception):
    """Raised if the script cannot continue and must exit with status 2. The text explains why."""


class Question(Exception):
    """Raised for --help or --version. `run` handles it by printing the help or the version."""


def run(work: Callable[[List[str]], int], text: Optional[str], ends_by_pipe: bool = False) -> NoReturn:
    """Calls `work` with the script's command-line arguments, and exits with the status that `work` returns.

    `text` is the script's help text. A signal ends the script and the programs that it runs. If the program that reads the
    script's output exits early, the script reports a failed write or, with `ends_by_pipe`, ends silently.
    """
    status = 2
    try:
        take_descriptors()
        sys.unraisablehook = lambda _: None  # otherwise Python reports at exit that it could not flush
        signals = [signal.SIGINT, signal.SIGTERM, signal.SIGHUP, *[signal.SIGPIPE] * ends_by_pipe]
        for number in signals:
            if number == signal.SIGPIPE or signal.getsignal(number) != signal.SIG_IGN:
                signal.signal(number, leave)
        signal.signal(signal.SIGCHLD, signal.SIG_DFL)  # if the signal were ignored, exit statuses would be lost
        status = guarded(work, text or "")
        stop()
    finally:
        os._exit(status)


def take_descriptors() -> None:
    """Opens any of the descriptors 0 to 2 that are closed. Otherwise, another file could get one of these numbers.

    Reading from a descriptor 0 that was closed, or writing to a descriptor 1 or 2 that was closed, still fails.
    """
    for number, mode in ((0, os.O_WRONLY), (1, os.O_RDONLY), (2, os.O_RDONLY)):
        try:
            os.fstat(number)
        except OSError:
            os.open(os.devnull, mode)
    # Python sets these to None if their descriptors are closed. It would then print errors to standard output.
    if sys.stdout is None:
        sys.stdout = open(1, "w", closefd=False)
    if sys.stderr is None:
        sys.stderr = open(2, "w", closefd=False, errors="backslashreplace")


def guarded(work: Callable[[List[str]], int], text: str) -> int:
    """Calls `work` and returns the exit status. If `work` raises an exception, reports it and returns 2."""
    try:
        if sys.version_info < (3, 9):
            raise Failed(f"{sys.executable} is too old; Python 3.9 or later is required")
        try:
            status = work(sys.argv[1:])
        except Question as question:
            status = answer(str(question), text)
        Progress.clear()
        flush()
        return status
    except MemoryError:
        told = "out of memory"
    except BaseException as error:
        told = reason(error)
    # At this point, the memory used by the exception's frames has been freed.
    end_badly(told)
    return 2


def end_badly(told: str) -> None:
    """Flushes the output and then reports why the script stops. Ignores any errors along the way."""
    Progress.clear()
    for file in written():
        try:
            file.flush()
        except Exception:
            pass
    # This does not use `output`, whose buffer may not fit in the remaining memory.
    try:
        write_all(2, os.fsencode(shown(f"{name()}: {told}") + "\n"))
    except OSError:
        pass


def hook(_kind: Type[BaseException], error: BaseException, _place: Optional[TracebackType]) -> None:
    """Reports an exception that was raised outside `run` (for example, during an import), and exits with status 2."""
    try:
        if isinstance(error, KeyboardInterrupt):
            leave(signal.SIGINT, None)
        end_badly("out of memory" if isinstance(error, MemoryError) else reason(error))
    finally:
        os._exit(2)


def answer(question: str, text: str) -> int:
    """Prints the help or the version as UTF-8, regardless of the locale, and returns the exit status."""
    if question == "--help" and not text:
        raise Failed("the help is not available, because PYTHONOPTIMIZE=2 removes it")
    if question == "--help":
        output().write(text.strip().encode() + b"\n")
        return 0
    source, target = os.pipe()
    process = start([program(), "--version"], output=target)
    os.close(target)
    with open(source, "rb") as version:
        output().write(f"{name()}, with ".encode() + version.read().strip() + f", {build()}\n".encode())
    return checked(wait(process))


def build() -> str:
    """Returns the commit from which the program was built, and whether the program is proved.

    install.sh records both, along with the program's SHA-256 checksum, in a file named BUILD next to the documentation.
    """
    import hashlib
    import shutil

    try:
        with open(os.path.join(os.path.dirname(os.path.realpath(__file__)), "../doc/bufr/BUILD")) as lines:
            known = dict(line.rstrip("\n").split(": ", 1) for line in lines)
        with open(shutil.which(program()) or program(), "rb") as file:
            digest = hashlib.sha256(file.read()).hexdigest()
        if digest == known["program"]:
            return f"commit {known['commit'][:12]}, {known['proof']}"
    except (OSError, ValueError, KeyError):
        pass  # for example, the program was not installed with install.sh
    return "unknown build"


def reason(error: BaseException) -> str:
    """Returns the message for an exception. For an internal error, the message says where in the code it occurred."""
    if isinstance(error, Failed):
        return str(error)
    if isinstance(error, ModuleNotFoundError):
        debian = f"on Debian: apt-get install python3-{error.name}, then run /usr/bin/python3 {sys.argv[0]} ..."
        return f"the Python package {error.name} is not installed for {sys.executable} ({debian})"
    if isinstance(error, OSError) and error.strerror:
        is_named = isinstance(error.filename, (str, bytes))
        if is_named:
            return f"{os.fsdecode(error.filename)}: {error.strerror}"
        is_write = error.errno in (errno.EPIPE, errno.ENOSPC, errno.EFBIG, errno.EDQUOT, errno.EBADF, errno.EAGAIN)
        return f"write failed: {error.strerror}" if is_write else error.strerror
    if isinstance(error, RuntimeError) and str(error) == "can't start new thread":
        return "cannot start a thread; free some memory, or raise the process limit (ulimit -u)"
    place, where = error.__traceback__, ""
    while place:
        where = f" ({os.path.basename(place.tb_frame.f_code.co_filename)}, line {place.tb_lineno})"
        place = place.tb_next
    return f"internal error: {type(error).__name__}: {error}{where}"


def name() -> str:
    """Returns the name of the script."""
    return os.path.basename(sys.argv[0])


def shown(text: str) -> str:
    r"""Returns `text` with each unprintable byte replaced by \xHH."""
    if text.isprintable():
        return text
    hidden = (sign if sign.isprintable() else "".join(f"\\x{octet:02X}" for octet in os.fsencode(sign)) for sign in text)
    return "".join(hidden)


# Output.


class Output:
    """Writes to a descriptor in large blocks."""

    def __init__(self, descriptor: int) -> None:
        self.descriptor = descriptor
        self.file: Optional[BinaryIO] = None

    def write(self, octets: Union[bytes, memoryview]) -> None:
        if self.file is None:
            self.file = open(self.descriptor, "wb", BLOCK, closefd=False)
        self.file.write(octets)

    def flush(self) -> None:
        if self.file is not None:
            self.file.flush()


OUTPUTS: Dict[int, Output] = {}


def output(descriptor: int = 1) -> Output:
    """Returns the `Output` for a descriptor (by default, standard output). `run` flushes it before the script exits."""
    if descriptor not in OUTPUTS:
        OUTPUTS[descriptor] = Output(descriptor)
    return OUTPUTS[descriptor]


def written() -> List[Any]:
    """Returns the files that may contain buffered output, with standard error last."""
    ours = [file for descriptor, file in OUTPUTS.items() if descriptor != 2]
    return [*ours, *filter(None, (sys.stdout, output(2), sys.stderr))]


def flush() -> None:
    """Flushes all output. Raises `OSError` if flushing fails."""
    for file in written():
        file.flush()


def write_all(descriptor: int, octets: Union[bytes, bytearray, memoryview]) -> None:
    with memoryview(octets) as view:
        done = 0
        while done < len(view):
            with view[done:] as rest:
                done += os.write(descriptor, rest)


def say(lines: bytes) -> None:
    """Adds lines to the buffer for standard error. They are printed by the next `flush`, or when the buffer is full."""
    if lines:
        Progress.clear()
        output(2).write(lines)


def bare(file: Optional[str], begin: bytes, piece: str = "message") -> bytes:
    """Returns the note for a file that contains no messages or, if `piece` is "document", no documents.

    If possible, the note identifies the likely format of the file.
    """
    kind = kind_of(begin)
    if kind is None and all(octet >= 32 or octet in b"\1\3\t\n\r" for octet in begin.lstrip()):
        kind = "text"
    looks = ": it is empty" if not begin else f": it looks like {kind}" if kind else ""
    return f"{name()}: {shown(file or 'standard input')} contains no {piece}s{looks}\n".encode()


def no_dump(named: str, begin: bytes) -> bytes:
    """Returns the note for a file that is clearly not a dump, or an empty bytes object if it may be one."""
    if b"BUFR" in begin:
        return os.fsencode(f"{name()}: {named} is BUFR, not a dump; to dump it, leave out --encode\n")
    kind = kind_of(begin)
    if kind is None or kind == KINDS_OF_FILES[b"message\n"]:
        return b""
    return os.fsencode(f"{name()}: {named} is not a dump: it looks like {kind}\n")


def kind_of(begin: bytes) -> Optional[str]:
    """Returns the format of a file that begins with these bytes, or None if it is not one of `KINDS_OF_FILES`."""
    head = begin.lstrip()
    if head[:1] == b"<":
        head = head.lower()
    return next((kind for sign, kind in KINDS_OF_FILES.items() if head.startswith(sign)), None)


class Progress:
    """Displays a progress line if standard error is a terminal, and updates the line at most once a second.

    The next output replaces the line. The line is not displayed if the script writes text to standard output (`has_texts`)
    and standard output is also a terminal, because the text already shows the progress.
    """

    is_shown: bool = False

    def __init__(self, total: int = 0, has_texts: bool = True) -> None:
        self.total, self.next = total, time.monotonic() + 1
        self.is_on = os.isatty(2) and not (has_texts and os.isatty(1))

    def at(self, octets: int) -> None:
        """Shows that `octets` bytes have been processed."""
        if self.is_on and time.monotonic() >= self.next:
            self.next = time.monotonic() + 1
            total = f" of {self.total / 1e6:.0f}" if self.total else ""
            Progress.is_shown = True
            # A fault line that a program writes over this line covers it completely, because fault lines are longer.
            self.put(f"\r\x1b[K{octets / 1e6:.0f}{total} MB\r".encode())

    @staticmethod
    def clear() -> None:
        if Progress.is_shown:
            Progress.is_shown = False
            Progress.put(b"\r\x1b[K")

    @staticmethod
    def put(octets: bytes) -> None:
        try:
            os.write(2, octets)
        except OSError:
            pass  # the script continues even if the terminal is gone


# The programs that a script runs.


def program() -> str:
    """Returns the path of `bufr`: the value of BUFR or, if it is not set, the first `bufr` that is found.

    The search covers the script's directory, the directories on PATH, and the repository, in this order.
    """
    named = os.environ.get("BUFR")
    if named:
        return named
    here = os.path.dirname(os.path.realpath(__file__))
    beside = os.path.join(os.path.dirname(os.path.realpath(sys.argv[0])), "bufr")
    # An installed script runs only the program that was installed with it, even if that program is now missing.
    if is_program(beside) or beside == os.path.normpath(f"{here}/../../bin/bufr"):
        return beside
    built = os.path.join(here, "../crates/bufr/out/bufr")
    is_on_path = any(is_program(os.path.join(folder, "bufr")) for folder in os.get_exec_path())
    return "bufr" if is_on_path or not is_program(built) else built


def is_program(path: str) -> bool:
    return os.path.isfile(path) and os.access(path, os.X_OK)


def start(words: Sequence[str], given: int = 0, output: int = 1, errors: int = 2) -> int:
    """Starts a program with these descriptors as standard input, output and error. Returns its process ID."""
    actions = [(os.POSIX_SPAWN_DUP2, source, target) for target, source in enumerate((given, output, errors))]
    spawn = partial(os.posix_spawnp, file_actions=actions, setsigdef=[signal.SIGPIPE])
    process: List[int] = []
    RUNNING.append(process)
    try:
        # A single C call starts and records the program, so no signal handler can run between the two steps.
        process.extend(map(spawn, [words[0]], [list(words)], [os.environ]))
    except OSError as error:
        advice = "; install bufr, or set BUFR to its path" if words[0] == program() else ""
        if error.errno == errno.EAGAIN:
            advice = "; raise the process limit (ulimit -u)"
        raise Failed(f"cannot run {words[0]}: {error.strerror}{advice}") from None
    return process[0]


def wait(process: int) -> int:
    """Waits for a program to exit. Returns its exit status, or 128 plus the number of the signal that killed it."""
    os.waitid(os.P_PID, process, os.WEXITED | os.WNOWAIT)
    RUNNING.remove([process])
    status = os.waitstatus_to_exitcode(os.waitpid(process, 0)[1])
    return status if status >= 0 else 128 - status


def lines_from(
    pipe: int, progress: Progress, place: Callable[[], int], report: Optional[Callable[[], None]] = None
) -> Iterator[bytes]:
    """Yields blocks of whole lines from a pipe, and then the incomplete last line, if there is one.

    While waiting, displays `place()` as the progress. Calls `report()` if no block arrives for a second, and otherwise once
    a minute.
    """
    rest, block, due = b"", b" ", time.monotonic() + INTERVAL
    while block:
        if progress.is_on or report:
            while not select.select([pipe], [], [], 1)[0]:
                progress.at(place())
                if report:
                    report()
            progress.at(place())
            if report and time.monotonic() >= due:
                report()
                due = time.monotonic() + INTERVAL
        block = os.read(pipe, BLOCK)
        lines, end, rest = (rest + block).rpartition(b"\n")
        if len(rest) > BLOCK:
            what = "a line in the listing is longer than 1 MB, so it cannot have come from 'bufr ls'"
            raise Failed(f"{what}; check the BUFR environment variable and any --awk condition")
        yield lines + end
    yield rest


def checked(status: int, has_told: bool = True, what: str = "bufr") -> int:
    """Returns the exit status of a program.

    Raises `Failed` if the status is over 2, or if it is 2 but the program has not reported a reason (`has_told`).
    """
    if status > 128:
        raise Failed(f"{what} was killed (signal {status - 128}); output is incomplete")
    if status not in (0, 1, 2) or (status == 2 and not has_told):
        # What the program prints on standard error may be in a temporary file.
        hint = f"; if {folder_of_temporary()} is full, set TMPDIR to another directory" if status == 2 else ""
        raise Failed(f"{what} exited with status {status}; output is incomplete{hint}")
    return status


def stop() -> None:
    """Kills the programs that are still running."""
    kill(sum(RUNNING, []))


def kill(processes: Iterable[int]) -> None:
    for process in processes:
        try:
            os.kill(process, signal.SIGKILL)
        except OSError:
            pass


def leave(number: int, _frame: Optional[FrameType]) -> None:
    """Kills the programs that are still running, removes unfinished files, and then ends this script with this signal."""
    signal.signal(signal.SIGUSR1, signal.SIG_IGN)  # bufr-csv uses this signal to report that awk has stopped
    stop()
    for path in UNFINISHED:
        try:
            os.unlink(path)
        except OSError:
            pass  # it is finished, or was not begun
    Progress.clear()
    signal.signal(number, signal.SIG_DFL)
    os.kill(os.getpid(), number)


# Files.


def opened(file: Optional[str]) -> int:
    """Opens a file for reading at any offset and returns its descriptor. None stands for standard input.

    If the file is not a regular file, returns the descriptor of a temporary copy instead.
    """
    descriptor = to_read(file)
    return descriptor if is_regular(descriptor) else copied(descriptor, named(file))


def to_read(file: Optional[str]) -> int:
    """Opens a file for reading and returns its descriptor. None stands for standard input."""
    try:
        return 0 if file is None else os.open(file, os.O_RDONLY)
    except OSError as error:
        raise Failed(f"cannot open {named(file)}: {error.strerror}") from None


def named(file: Optional[str]) -> str:
    """Returns the name of a file for use in messages. None stands for standard input."""
    return "standard input" if file is None else shown(file) or "''"


def is_regular(descriptor: int) -> bool:
    return stat.S_ISREG(os.fstat(descriptor).st_mode)


def temporary() -> int:
    """Creates an unnamed file in TMPDIR and returns its descriptor."""
    try:
        return os.open(folder_of_temporary(), os.O_TMPFILE | os.O_RDWR, 0o600)
    except OSError as error:
        if error.errno in (errno.EMFILE, errno.ENFILE):
            raise Failed("too many open files; raise the limit (ulimit -n)") from None
    # The directory is not writable, or its file system does not support unnamed files.
    import tempfile

    try:
        with tempfile.TemporaryFile() as file:
            return os.dup(file.fileno())
    except OSError as error:
        raise Failed(f"cannot create a temporary file: {error.strerror}; set TMPDIR to another directory") from None


def folder_of_temporary() -> str:
    return os.environ.get("TMPDIR") or "/tmp"


def keep(descriptor: int, octets: Union[bytes, bytearray, memoryview]) -> None:
    """Writes bytes to a temporary file. Raises `Failed` if the bytes cannot be written."""
    try:
        write_all(descriptor, octets)
    except OSError:
        raise no_room() from None


def no_room() -> Failed:
    return Failed(f"no space left in {folder_of_temporary()}; set TMPDIR to another directory")


def copied(source: int, name: str) -> int:
    """Copies the data from a descriptor to a temporary file, rewinds that file, and returns its descriptor."""
    descriptor, octets, progress, size = temporary(), b" ", Progress(has_texts=False), 0
    while octets:
        try:
            octets = os.read(source, BLOCK)
        except OSError as error:
            raise Failed(f"cannot read {name}: {error.strerror}") from None
        keep(descriptor, octets)
        size += len(octets)
        progress.at(size)
    Progress.clear()
    os.lseek(descriptor, 0, os.SEEK_SET)
    return descriptor


def read_at(descriptor: int, offset: int, length: int) -> bytes:
    """Reads bytes of a message that was found earlier.

    Raises `Failed` if the bytes cannot be read, for example, because the file has since been truncated.
    """
    pieces, end = [], offset + length
    while offset < end:
        try:
            pieces.append(os.pread(descriptor, end - offset, offset))
        except OSError as error:
            raise Failed(f"cannot read the input: {error.strerror}") from None
        if not pieces[-1]:
            raise Failed("the input was truncated while it was being read; try again")
        offset += len(pieces[-1])
    return b"".join(pieces)


def fault_lines(errors: int) -> Iterator[tuple[float, bytes]]:
    """Yields each line that `bufr` wrote to the `errors` file, with the offset that the line reports.

    Lines that do not report faults in messages come last, with the offset `NOWHERE`.
    """
    with open(os.dup(errors), "rb") as lines:
        lines.seek(0)
        for line in lines:
            if not line.endswith(b"\n"):
                return  # the disk was full before the whole line was written
            offset = line[7 : line.find(b":")]
            yield (int(offset) if line.startswith(b"offset ") and offset.isdigit() else NOWHERE), line


class Faults:
    """The lines that `bufr` wrote to the `errors` file. Fault lines can be printed between the dumps of messages.

    Lines that do not report faults in messages are printed last, by `tell_rest`. `has_told` is then true if there were any
    such lines.
    """

    def __init__(self, errors: int) -> None:
        self.lines, self.has_told = fault_lines(errors), False
        self.next = next(self.lines, (NOWHERE, b""))

    def tell_before(self, offset: float) -> None:
        """Prints the remaining fault lines for offsets below `offset`."""
        while self.next[0] < offset:
            say(self.next[1])
            self.next = next(self.lines, (NOWHERE, b""))

    def tell_rest(self) -> None:
        self.tell_before(NOWHERE)
        while self.next[1]:
            self.has_told = True
            say(self.next[1])
            self.next = next(self.lines, (NOWHERE, b""))
