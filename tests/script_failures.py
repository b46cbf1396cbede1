#!/usr/bin/env python3
"""Makes the scripts fail. Each must report the failure in one line, and exit with status 2 if its output is incomplete.

    tests/script_failures.py [PROGRAM [SCRIPT..]]

File descriptors are closed, devices are full, memory and disk space run out, files are truncated while they are being read,
tables are invalid, and programs are killed. The test also covers the options that all scripts share, and the progress line.
"""
import contextlib
import functools
import hashlib
import os
import pathlib
import pty
import re
import resource
import shutil
import signal
import subprocess
import sys
import tempfile
import time

import lib
from lib import TABLES, TOP, finish, program

SYNOP = TOP / "examples/synop.bufr"
FAULTY = TOP / "examples/bulletins.bufr"
DUMP = ["dump", *TABLES]
# Each script, with the arguments before its input.
SCRIPTS = {"bufr-auto": [], "bufr-csv": ["--json", "-c", "001001"], "bufr-extract": [], "bufr-lacks": [], "bufr-parallel": ["-P", "2", *DUMP]}
# Scripts that find messages themselves. The others use `bufr ls`.
READERS = ("bufr-auto", "bufr-csv")
# A script that needs a Python package. This test covers only its options; tests/bufr_plot.py covers the rest.
OTHERS = {"bufr-plot": ["map", "a.png"]}
complaints = []


def holds(what: str, is_so: bool, told: object = "") -> None:
    if not is_so:
        complaints.append(f"{what}: {told!r}"[:1000])


class Trial:
    """A script to run, and a separate directory for its files."""

    def __init__(self, name: str, words: list, place: str) -> None:
        self.name, self.words, self.place = name, [sys.executable, str(TOP / "scripts" / name), *words], pathlib.Path(place)
        self.environment = {**os.environ, "BUFR": program(), "TMPDIR": place}
        self.environment.pop("BUFR_TABLES", None)

    def run(self, words=(), closed=(), full=(), limits=None, **more):
        """Runs the script with the given file descriptors closed or redirected to /dev/full, and with the given limits.

        Returns the completed process.
        """

        def prepare() -> None:
            for number in full:
                os.dup2(os.open("/dev/full", os.O_RDWR), number)
            for number in closed:
                os.close(number)
            for which, limit in (limits or {}).items():
                resource.setrlimit(which, (limit, limit))

        environment = {**self.environment, **more.pop("environment", {})}
        if "input" not in more and 0 not in closed:
            more.setdefault("stdin", subprocess.DEVNULL)
        done = subprocess.run(
            [*self.words, *map(str, words)], capture_output=True, env=environment, preexec_fn=prepare, timeout=120, **more
        )
        for text in (b"Traceback", b"Exception ignored", b"internal error"):
            holds(f"{self.name} {words}: what Python prints", text not in done.stderr, done.stderr)
        return done

    def fails(self, what: str, done, told: str = "") -> None:
        """Checks that the script exited with status 2 and, apart from fault lines, printed one line that contains `told`."""
        lines = [line for line in done.stderr.decode().splitlines() if not line.startswith("offset ")]
        holds(f"{self.name}, {what}", done.returncode == 2 and len(lines) == 1 and told in lines[0], done)

    def program(self, script: str) -> dict:
        """Returns an environment in which BUFR is a shell script that runs these lines and then the real program."""
        path = self.place / "other"
        path.write_text(f"#!/bin/sh\n{script}\nexec {program()} \"$@\"\n")
        path.chmod(0o755)
        return {"BUFR": str(path)}


def descriptors(trial: Trial) -> None:
    """A script must fail if it uses a file descriptor that is closed or open on a full device, and only then."""
    lacking = trial.place / "lacking"
    lacking.write_bytes(lib.asking(lib.message(b"", lib.words("063255")), 13))
    gives = lacking if trial.name == "bufr-lacks" else SYNOP
    shutil.copy(gives, trial.place / "stream")
    stream, whole = trial.place / "stream", trial.run([gives])
    trial.fails("a closed output", trial.run([stream], closed=[1]))
    trial.fails("a full output", trial.run([stream], full=[1]))
    holds(f"{trial.name}: a file is written", stream.read_bytes() == gives.read_bytes())
    done = trial.run([os.devnull], closed=[1])
    holds(f"{trial.name}: nothing to a closed output", done.returncode == 0, done)
    trial.fails("a closed input", trial.run(closed=[0]), "read")
    done = trial.run([gives], closed=[0])
    holds(f"{trial.name}: a closed input beside a file", done.stdout == whole.stdout, done)
    for kind in ("closed", "full"):
        done = trial.run([SYNOP], **{kind: [2]})
        wanted = trial.run([SYNOP])
        is_same = (done.returncode, done.stdout) == (0, wanted.stdout)
        holds(f"{trial.name}: no errors to a {kind} descriptor", is_same, done)
        done = trial.run([FAULTY], **{kind: [2]})
        holds(f"{trial.name}: faults to a {kind} descriptor", done.returncode == 2, done)
    done = trial.run([gives], closed=[0, 1, 2])
    holds(f"{trial.name}: three closed descriptors", done.returncode == 2, done)
    if trial.name == "bufr-auto":
        note = lib.asking(lib.message(b"\x14"), 45)
        for kind in ("closed", "full"):
            holds(f"a note to a {kind} descriptor", trial.run(input=note, **{kind: [2]}).returncode == 2)


# Runs a script, and simulates a lack of memory when the script waits for a program.
REFUSED = """
import runpy, sys
sys.path[0], sys.argv = "{}", sys.argv[1:]
import bufr_guard
def refused(*_): raise MemoryError
bufr_guard.wait = refused
runpy.run_path(sys.argv[0], run_name="__main__")
"""


# Runs a script whose threads request stacks that are larger than the memory.
THREADLESS = """
import runpy, sys, threading
sys.path[0], sys.argv = "{}", sys.argv[1:]
threading.stack_size(1 << 47)
runpy.run_path(sys.argv[0], run_name="__main__")
"""


# Runs a script that pauses for half a second after it has killed its programs.
SLOW_TO_STOP = """
import runpy, sys, time
sys.path[0], sys.argv = "{}", sys.argv[1:]
import bufr_guard
stop = bufr_guard.stop
bufr_guard.stop = lambda: stop() or time.sleep(0.5)
runpy.run_path(sys.argv[0], run_name="__main__")
"""


# Runs a script that pauses for a moment before it starts each program.
LATE = """
import runpy, sys, time
sys.path[0], sys.argv = "{}", sys.argv[1:]
import bufr_guard
start = bufr_guard.start
bufr_guard.start = lambda *words: time.sleep(0.3) or start(*words)
runpy.run_path(sys.argv[0], run_name="__main__")
"""


def memory(trial: Trial) -> None:
    """With little memory, a script must either produce its complete output or report why it cannot."""
    stream = trial.place / "strays"
    stream.write_bytes(SYNOP.read_bytes() + b"BUFR\0\0\0\0" * 50_000 + SYNOP.read_bytes())
    whole = trial.run([stream])
    holds(f"{trial.name}: strays", whole.returncode == 1 and whole.stderr.count(b"\n") == 50_000, whole.returncode)
    # Begin slightly above the memory that Python needs to load the script and the module that all scripts share.
    code = "import sys; script, sys.path[0] = sys.argv[1:]; compile(open(script).read(), '', 'exec'); import bufr_guard"
    least = least_memory([sys.executable, "-c", code, trial.words[1], TOP / "scripts"], 200)
    if least is None:
        holds(f"{trial.name}: a module that Python can load", False)
        return
    for megabytes in [*range(least + 2, least + 24, 2), 150]:
        done = trial.run([stream], limits={resource.RLIMIT_AS: megabytes << 20})
        is_whole = (done.returncode, done.stdout, done.stderr) == (1, whole.stdout, whole.stderr)
        last = done.stderr.splitlines()[-1:]
        is_told = done.returncode == 2 and last and not last[0].startswith(b"offset")
        holds(f"{trial.name} in {megabytes} MB", is_whole or is_told, (done.returncode, done.stderr[-300:]))
        holds(f"{trial.name} in {megabytes} MB: a prefix", whole.stdout.startswith(done.stdout), done.stdout[-300:])
    trial.words[1:1] = ["-c", REFUSED.format(TOP / "scripts")]
    trial.fails("want of memory", trial.run([stream]), f"{trial.name}: out of memory")
    if trial.name in ("bufr-csv", "bufr-extract", "bufr-parallel"):
        trial.words[2] = THREADLESS.format(TOP / "scripts")
        done = trial.run(input=SYNOP.read_bytes())
        trial.fails("no thread", done, "cannot start a thread; free some memory, or raise the process limit (ulimit -u)")


def least_memory(words: list, most: int):
    """Returns the lowest limit, in megabytes, with which a program exits with status 0, or None if `most` is too low."""

    def suffices(megabytes: int) -> bool:
        limit = functools.partial(limit_memory, megabytes)
        return subprocess.run(words, stderr=subprocess.DEVNULL, preexec_fn=limit).returncode == 0

    return next(filter(suffices, range(8, most)), most) if suffices(most) else None


def limit_memory(megabytes: int) -> None:
    resource.setrlimit(resource.RLIMIT_AS, (megabytes << 20, megabytes << 20))


def room(trial: Trial) -> None:
    """Files cannot grow beyond a limit, as if the disk with the temporary files were full."""
    octets = SYNOP.read_bytes() * 100
    whole = trial.run(input=octets)
    done = trial.run(input=octets, environment={"TMPDIR": "/nosuch"})
    is_same = (done.returncode, done.stdout, done.stderr) == (whole.returncode, whole.stdout, whole.stderr)
    holds(f"{trial.name} with a TMPDIR that is not there", is_same and not done.returncode, done.stderr)
    done = trial.run(input=octets, limits={resource.RLIMIT_FSIZE: 4096})
    if done.returncode == 0:
        # The script does not need a temporary file.
        holds(f"{trial.name} without room", done.stdout == whole.stdout, done.stdout[-300:])
    else:
        trial.fails("no room", done)
        holds(f"{trial.name}, no room: a prefix", whole.stdout.startswith(done.stdout), done.stdout[-300:])
    if trial.name in ("bufr-extract", "bufr-parallel", "bufr-lacks"):
        for folder in (str(trial.place), ""):
            done = trial.run(input=octets, limits={resource.RLIMIT_FSIZE: 4096}, environment={"TMPDIR": folder})
            told = f"{trial.name}: no space left in {folder or '/tmp'}; set TMPDIR to another directory\n"
            holds(f"{trial.name}: no space left in {folder!r}", done.stderr.decode() == told, done)
    if trial.name == "bufr-extract":
        # Whether it starts immediately or late, `bufr ls` gets only a part of the stream. The script must not report a fault.
        octets *= 20
        for begin in (trial.words[:1], [*trial.words[:1], "-c", LATE.format(TOP / "scripts")]):
            trial.words[:1] = begin
            done = trial.run(input=octets, limits={resource.RLIMIT_FSIZE: 100_000})
            trial.fails("room for a part", done, f"no space left in {trial.place}; set TMPDIR to another directory")
            holds("bufr-extract, room for a part: fault lines", b"offset" not in done.stderr, done.stderr)


def shorter(trial: Trial) -> None:
    """The input file is truncated while the script runs: before or after `bufr ls` reads it, or before a dump."""
    stream = trial.place / "stream"
    octets = lib.asking(lib.message(bytes(60_000)), 39) * (200 if trial.name in READERS else 40)
    stream.write_bytes(octets)
    whole = trial.run([stream]).stdout
    # If the file is truncated before `bufr ls` reads it, four messages and a part of the fifth remain, so each listed message
    # can be read.
    cut = "head -c {1} {0} > {0}.1; cat {0}.1 > {0}"
    for what, lines in (
        ("behind", f'if [ "$1" = ls ]; then {program()} ls; status=$?; {cut.format(stream, 100_000)}; exit $status; fi'),
        ("before", f'if [ "$1" = ls ]; then {cut.format(stream, 300_000)}; fi'),
        ("without", f'if [ "$1" = dump ]; then {cut.format(stream, 300_000)}; fi'),
    ):
        if (what == "without") != (trial.name in READERS):
            continue  # only the other scripts run `bufr ls`
        stream.write_bytes(octets)
        done = trial.run([stream], environment=trial.program(lines))
        if what == "before" and trial.name in ("bufr-extract", "bufr-lacks"):
            # The results must be the same as for a file that was this short from the beginning.
            wanted = trial.run([stream])
            is_same = (done.returncode, done.stdout, done.stderr) == (1, wanted.stdout, wanted.stderr)
            holds(f"{trial.name}: a file that is shorter when it is read", is_same, done.stderr)
            continue
        trial.fails(f"a file that becomes shorter {what} `bufr ls`", done, "truncated")
        holds(f"{trial.name}, {what} `bufr ls`: a prefix", whole.startswith(done.stdout), len(done.stdout))


def killed(trial: Trial) -> None:
    """`bufr` is killed, exits with an unexpected status, or exits with status 2 without a message."""
    for command in ("ls", "dump"):
        stopped = "bufr exited with status {}; output is incomplete".format
        killed = "bufr was killed (signal 9); output is incomplete"
        for how, told in (
            ("kill -9 $$", killed), ("exit 3", stopped(3)), ("exit 127", stopped(127)), ("exit 2", stopped(2))
        ):
            for moment in ("before", "behind"):
                begin = "" if moment == "before" else f'{program()} "$@"; '
                done = trial.run([SYNOP], environment=trial.program(f'if [ "$1" = {command} ]; then {begin}{how}; fi'))
                if (trial.name, command, how) == ("bufr-lacks", "dump", "exit 2"):  # the same as if `bufr` rejected the tables
                    told = f"cannot use the table set {TOP / 'tables/wmo-39'}"
                if done.returncode == 0:  # the script does not run this command
                    holds(f"{trial.name} without {command}", done.stdout == trial.run([SYNOP]).stdout, done)
                elif how != "exit 2" or done.stderr:
                    trial.fails(f"{command} and {how}, {moment}", done, told)
                else:  # these scripts share standard error with `bufr`, so they rely on its message
                    holds(f"{trial.name}: {command} and {how}", trial.name in ("bufr-extract", "bufr-lacks"), done)
    if trial.name == "bufr-parallel":  # it buffers fault lines in a file, and the disk may be too full for the last one
        done = trial.run([SYNOP], environment=trial.program('if [ "$1" = ls ]; then printf "offset 2" >&2; exit 2; fi'))
        told = f"bufr-parallel: bufr exited with status 2; output is incomplete; if {trial.environment['TMPDIR']} is full, set TMPDIR to another directory\n"
        holds("bufr-parallel, a fault line that is cut", (done.returncode, done.stderr.decode()) == (2, told), done)
    done = trial.run([SYNOP], environment={"BUFR": "/nosuch"})
    trial.fails("no program", done, "cannot run /nosuch: No such file or directory")
    # A directory is not a program, whether it is next to the script or on PATH.
    shutil.copytree(TOP / "scripts", trial.place / "bin")
    for folder in ("bin/bufr", "path/bufr", "third"):
        (trial.place / folder).mkdir(parents=True)
    (trial.place / "third/bufr").symlink_to(program())
    path = f"{trial.place}/path:{trial.place}/third:{os.environ['PATH']}"
    whole, trial.words[1] = trial.run([SYNOP]).stdout, str(trial.place / "bin" / trial.name)
    (trial.place / "share/bufr").mkdir(parents=True)
    (trial.place / "share/bufr/tables").symlink_to(TOP / "tables")
    done = trial.run([SYNOP], environment={"BUFR": "", "PATH": path})
    holds(f"{trial.name} beside a folder", done.stdout == whole and done.returncode == 0, done)
    # A script in a repository runs the program that was built there only if there is no `bufr` on PATH.
    built = trial.place / "crates/bufr/out/bufr"
    built.parent.mkdir(parents=True)
    built.write_text(f"#!/bin/sh\nexec {trial.place}/third/bufr \"$@\"\n")
    built.chmod(0o755)
    elsewhere = {"BUFR": "", "BUFR_TABLES": str(TOP / "tables"), "PATH": "/usr/bin:/bin"}
    if not shutil.which("bufr", path="/usr/bin:/bin"):
        done = trial.run([SYNOP], environment=elsewhere)
        holds(f"{trial.name} in a repository", done.stdout == whole and done.returncode == 0, done)
    built.write_text("#!/bin/sh\nexit 3\n")
    done = trial.run([SYNOP], environment={**elsewhere, "PATH": path})
    holds(f"{trial.name} beside a repository", done.stdout == whole and done.returncode == 0, done)


def signals(trial: Trial) -> None:
    """A signal must end a script and the programs that it runs.

    If the reader of a script's output exits early, the script must report a failed write or end silently.
    """
    # Python ignores SIGPIPE, but the programs that a script runs must neither ignore nor block it.
    ignored = trial.place / "ignored"
    lines = 'while read -r line; do case $line in SigIgn* | SigBlk*) echo "$line" ;; esac; done < /proc/$$/status'
    trial.run([SYNOP], environment=trial.program(f"{lines} > {ignored}.$$; mv {ignored}.$$ {ignored}"))
    masks = [int(line.split()[1], 16) >> (signal.SIGPIPE - 1) & 1 for line in ignored.read_text().splitlines()]
    holds(f"{trial.name}: SIGPIPE in what it runs", masks == [0, 0], ignored.read_text())
    number = trial.place / "number"
    slow = trial.program(f"echo $$ > {number}.1; mv {number}.1 {number}; exec sleep 60")
    for name in (signal.SIGINT, signal.SIGTERM, signal.SIGHUP):
        number.unlink(missing_ok=True)
        run = subprocess.Popen(
            [*trial.words, SYNOP], stdout=subprocess.DEVNULL, stderr=subprocess.PIPE, env={**trial.environment, **slow},
            preexec_fn=lambda: signal.signal(name, signal.SIG_DFL),  # shells start background jobs with SIGINT ignored
        )
        is_begun = wait_until(number.exists)
        run.send_signal(name)
        _, told = run.communicate(timeout=60)
        holds(f"{trial.name} at {name.name}", is_begun and (run.returncode, told) == (-name, b""), (run.returncode, told))
        started = int(number.read_text())
        holds(f"{trial.name} at {name.name}: what still runs", wait_until(lambda: not lib.runs(started)))
    if trial.name == "bufr-csv":  # it kills awk, so it must not report that awk has stopped
        words = [sys.executable, "-c", SLOW_TO_STOP.format(TOP / "scripts"), *trial.words[1:]]
        number.unlink()
        run = subprocess.Popen(
            [*words, SYNOP], stdout=subprocess.DEVNULL, stderr=subprocess.PIPE, env={**trial.environment, **slow}
        )
        wait_until(number.exists)
        run.terminate()
        _, told = run.communicate(timeout=60)
        holds("bufr-csv that is slow to stop", (run.returncode, told) == (-signal.SIGTERM, b""), (run.returncode, told))
    number.unlink()
    waiting = trial.program(f"echo $$ > {number}; while [ -e {number} ]; do sleep 0.05; done")
    run = subprocess.Popen(
        [*trial.words, SYNOP], stdout=subprocess.DEVNULL, stderr=subprocess.PIPE, env={**trial.environment, **waiting},
        preexec_fn=lambda: signal.signal(signal.SIGHUP, signal.SIG_IGN),
    )
    wait_until(number.exists)
    run.send_signal(signal.SIGHUP)
    while run.poll() is None:
        number.unlink(missing_ok=True)
        time.sleep(0.05)
    told = run.stderr.read()
    run.stderr.close()
    holds(f"{trial.name} at a SIGHUP that nohup ignores", (run.returncode, told) == (0, b""), (run.returncode, told))
    done = subprocess.run(
        [*trial.words, SYNOP], capture_output=True, env=trial.environment,
        preexec_fn=lambda: signal.signal(signal.SIGCHLD, signal.SIG_IGN),
    )
    holds(f"{trial.name} of a parent that ignores its children", (done.returncode, done.stderr) == (0, b""), done)
    # The output does not fit in a pipe.
    (trial.place / "many").write_bytes(SYNOP.read_bytes() * 4000)
    run = subprocess.Popen(
        [*trial.words, trial.place / "many"], stdout=subprocess.PIPE, stderr=subprocess.PIPE, env=trial.environment
    )
    if trial.name != "bufr-lacks":  # it prints nothing for this stream
        run.stdout.read(10)
    run.stdout.close()
    told, status = run.stderr.read(), run.wait(timeout=60)
    if trial.name == "bufr-lacks":
        holds("bufr-lacks without a reader", (status, told) == (0, b""), (status, told))
    elif trial.name == "bufr-csv":
        holds("bufr-csv without a reader", (status, told) == (-signal.SIGPIPE, b""), (status, told))
    elif trial.name == "bufr-auto":
        holds("bufr-auto without a reader", status in (2, -signal.SIGPIPE), (status, told))
    else:
        holds(f"{trial.name} without a reader", status == 2 and told.count(b"\n") == 1, (status, told))


def wait_until(is_so) -> bool:
    end = time.monotonic() + 30
    while not is_so() and time.monotonic() < end:
        time.sleep(0.02)
    return bool(is_so())


def tables(trial: Trial) -> None:
    """Tries tables with a field of 200,000 bytes, a NUL, other columns or a name that is not UTF-8, in a directory `-sets`."""
    if trial.name not in ("bufr-auto", "bufr-lacks"):
        return
    folder = trial.place / "-sets"
    shutil.copytree(TOP / "tables/wmo-39", folder / "wmo-39")
    done, wanted = trial.run([SYNOP], environment={"BUFR_TABLES": "-sets"}, cwd=trial.place), trial.run([SYNOP])
    is_same = (done.returncode, done.stdout) == (0, wanted.stdout)
    holds(f"{trial.name}: BUFR_TABLES=-sets", is_same, done)
    for name in ("B.csv", "D.csv"):
        for field in ("N" * 200_000, "A\0B"):
            good = (TOP / "tables/wmo-39" / name).read_text(encoding="utf-8")
            bad = f"012101,{field},K,2,0,16\n" if name == "B.csv" else f"307080,{field}\n"
            (folder / "wmo-39" / name).write_text(good + bad, encoding="utf-8")
            # The original tables contain the last two descriptors, but not 063255.
            stream = lib.asking(lib.message(b"", lib.words("063255 012101 307080")), 45, 1)
            done = trial.run(input=stream, environment={"BUFR_TABLES": str(folder)})
            holds(f"{trial.name}: {name} with {field[:3]!r}", done.returncode == 2 and done.stderr, done)
        (folder / "wmo-39" / name).write_text(good, encoding="utf-8")
    # bufr-auto reads Table D to find out whether a note about local rows is needed. This Table D has other columns.
    (folder / "wmo-39/D.csv").write_text("other,columns\n1,2\n", encoding="utf-8")
    sequence = lib.asking(lib.message(b"", lib.words("307080")), 39, 1)
    done = trial.run(input=sequence, environment={"BUFR_TABLES": str(folder)})
    holds(f"{trial.name}: D.csv with other columns", done.returncode == 2 and b"table D: 40 header" in done.stderr, done)
    (folder / "wmo-39/D.csv").write_text(good, encoding="utf-8")
    # `bufr` accepts names that are not UTF-8.
    octets = (TOP / "tables/wmo-39/B.csv").read_bytes()
    (folder / "wmo-39/B.csv").write_bytes(octets.replace(b"WMO BLOCK NUMBER", b"WMO BLOCK N\xdcMBER"))
    done = trial.run(input=stream, environment={"BUFR_TABLES": str(folder)})
    holds(f"{trial.name}: a name in ISO 8859-1", done.returncode == 1 and b"063255" in done.stdout + done.stderr, done)


def options(trial: Trial) -> None:
    """Tests --help, --version, invalid arguments, runs in an isolated Python, and file names with control characters."""
    trial.words, kept = trial.words[:2], trial.words
    for words in (["--help"], ["--version"]):
        for kind in ("closed", "full"):
            trial.fails(f"{words} to a {kind} output", trial.run(words, **{kind: [1]}))
    version = subprocess.run([program(), "--version"], stdout=subprocess.PIPE, text=True).stdout
    for words in (["--version"], ["-V"]):
        done = trial.run(words)
        holds(f"{trial.name} {words}", done.stdout.decode() == f"{trial.name}, with {version.strip()}, unknown build\n", done)
    for words in (["--help"], ["-h"]):
        done = trial.run(words)
        holds(f"{trial.name} {words}", done.returncode == 0 and trial.name in done.stdout.decode(), done)
        holds(f"{trial.name} {words}: empty lines", done.stdout == done.stdout.strip() + b"\n", done)
        other = trial.run(words, environment={"PYTHONIOENCODING": "utf-16"})
        holds(f"{trial.name} {words} with another encoding", other.stdout == done.stdout, other)
    killed = trial.run(["--version"], environment=trial.program("kill -9 $$"))
    trial.fails("a version of a killed program", killed, "bufr was killed (signal 9)")
    trial.words = [kept[0], "-I", *kept[1:2]]
    done = trial.run(["--version"], cwd=trial.place)
    holds(f"{trial.name} in an isolated Python", done.returncode == 0, done)
    trial.words = [kept[0], "-c", REFUSED.format(TOP / "scripts"), kept[1]]
    trial.fails("want of memory for the version", trial.run(["--version"]), f"{trial.name}: out of memory")
    trial.words[2] = trial.words[2].replace("import bufr_guard", "import bufr_guard\nsys.version_info = 3, 8, 18")
    trial.fails("an old Python", trial.run(["--version"]), f"{trial.name}: {sys.executable} is too old; Python 3.9 or later is required")
    trial.words = kept
    installed = trial.place / "installed/share"
    shutil.copytree(TOP / "scripts", installed / "bufr")
    (installed / "doc/bufr").mkdir(parents=True)
    trial.words = [kept[0], str(installed / "bufr" / trial.name)]
    for octets in (b"", b"nonsense\n", b"program: 0\n", b"\xff\n", b"program: 0\ncommit: 1\nproof: proved\n"):
        (installed / "doc/bufr/BUILD").write_bytes(octets)
        done = trial.run(["--version"])
        holds(f"{trial.name} by a BUILD {octets}", done.stdout.endswith(b", unknown build\n") and not done.returncode, done)
    (trial.place / "named").symlink_to(program())
    known = f"program: {hashlib.sha256(pathlib.Path(program()).read_bytes()).hexdigest()}\ncommit: {'0123456789' * 4}\nproof: proved\n"
    (installed / "doc/bufr/BUILD").write_text(known)
    done = trial.run(["--version"], environment={"BUFR": "named", "PATH": f"{trial.place}:{os.environ['PATH']}"})
    holds(f"{trial.name} by a good BUILD", done.stdout.endswith(b", commit 012345678901, proved\n"), done)
    trial.words = kept
    done = trial.run(["--nonsense"])
    holds(f"{trial.name} --nonsense", done.returncode == 2 and b"\n" == done.stderr[-1:], done)
    if trial.name == "bufr-plot":
        (trial.place / "matplotlib.py").write_text("raise ModuleNotFoundError(name=__name__)\n")
        done = trial.run([SYNOP], environment={"PYTHONPATH": str(trial.place)})
        trial.fails("a package that is not there", done, "bufr-plot: the Python package matplotlib is not installed for ")
    if trial.name in OTHERS:
        return
    done = trial.run([SYNOP, "--help"])
    holds(f"{trial.name}: --help behind a file", done.returncode == 0 and trial.name in done.stdout.decode(), done)
    shutil.copy(SYNOP, trial.place / "-")
    for words in (["-"], ["--", "-"], ["./-"], ["--", "./-"]):
        octets = b"" if "./-" in words else SYNOP.read_bytes()
        done = trial.run(words, cwd=trial.place, input=octets)
        holds(f"{trial.name} of {words}", done.stdout == trial.run([SYNOP]).stdout and not done.returncode, done)
    trial.fails("a folder", trial.run(["/"]), f"{trial.name}: cannot read /: Is a directory")
    done = trial.run(["no\x1b[31m\nsuch\udcff"])
    trial.fails("a name that is not there", done, r"no\x1B[31m\x0Asuch\xFF")


def progress(trial: Trial) -> None:
    """On a terminal, a progress line must appear at most once a second and then be cleared. Elsewhere, there must be none."""
    slow = trial.program('if [ "$1" = ls ] || [ "$1" = dump ] && [ ! -t 0 ]; then sleep 2.5; fi')
    octets = SYNOP.read_bytes() * 20_000
    (trial.place / "long").write_bytes(octets)
    main, terminal = pty.openpty()
    begin = time.monotonic()
    words = [*trial.words, str(trial.place / "long")]
    # bufr-lacks prints its output only at the end, so it shows progress even if the output goes to a terminal.
    output = terminal if trial.name == "bufr-lacks" else subprocess.DEVNULL
    run = subprocess.Popen(words, stdin=subprocess.DEVNULL, stdout=output, stderr=terminal, env={**trial.environment, **slow})
    os.close(terminal)
    told = b""
    with contextlib.suppress(OSError):  # the terminal has been closed
        while octets := os.read(main, 4096):
            told += octets
    os.close(main)
    seconds, status = time.monotonic() - begin, run.wait()
    lines = told.count(b" of 12 MB")
    holds(f"{trial.name}: progress", status == 0 and 1 <= lines <= seconds + 1, (status, told, seconds))
    holds(f"{trial.name}: progress that stays", told.endswith(b"\r\x1b[K") and b"\n" not in told, told)
    if trial.name not in ("bufr-extract", "bufr-lacks"):  # these finish soon after `bufr ls`
        holds(f"{trial.name}: progress by parts", re.search(rb"\x1b\[K[1-9]\d* of 12 MB", told), told)
    if trial.name == "bufr-lacks":
        done = trial.run([trial.place / "long"], environment=slow)
        holds(f"{trial.name}: progress to a pipe", done.stderr == b"", done.stderr)
        # The length of the data in a pipe is unknown, so the line shows no total.
        main, terminal = pty.openpty()
        run = subprocess.Popen(trial.words, stdin=subprocess.PIPE, stdout=terminal, stderr=terminal, env=trial.environment)
        os.close(terminal)
        for pause in (1.2, 0):
            run.stdin.write(SYNOP.read_bytes() * 4000)
            run.stdin.flush()
            time.sleep(pause)
        run.communicate(timeout=60)
        with contextlib.suppress(OSError):  # nothing was printed
            told = b""
            told = os.read(main, 4096)
        os.close(main)
        # On a busy machine, progress lines for `bufr ls` may follow.
        is_shown = re.match(rb"\r\x1b\[K[2-4] MB\r\r\x1b\[K", told) and told.endswith(b"\r\x1b[K")
        holds("bufr-lacks: progress of a pipe", is_shown, told)
    if trial.name == "bufr-extract":  # on a terminal, its output already shows progress
        main, terminal = pty.openpty()
        subprocess.run([*words, "category=9"], stdout=terminal, stderr=terminal, env={**trial.environment, **slow})
        os.close(terminal)
        with contextlib.suppress(OSError):
            told = os.read(main, 4096)
            holds("progress beside an output on the same terminal", False, told)
        os.close(main)


def guard() -> None:
    """Checks how a script ends if an exception is raised before or during its work, and that it clears its progress line."""
    few = "import resource; resource.setrlimit(resource.RLIMIT_NOFILE, (3, 3)); "
    small = few.replace("NOFILE, (3, 3)", "FSIZE, (0, 0)")
    shows = "import os; bufr_guard.Progress.is_shown = True; "
    full = "import tempfile\ndef full(): raise OSError(28, 'No space left on device')\ntempfile.TemporaryFile = full; "
    full_output = "pass\ndef full(*_): raise OSError(122, 'Disk quota exceeded')\nbufr_guard.Output.flush = full; "
    no_process = "import os\ndef none(*_, **__): raise OSError(11, 'Resource temporarily unavailable')\nos.posix_spawnp = none; "
    work = "bufr_guard.run(lambda _: {}, '')"
    for code, status, told in (
        (few + work.format("bufr_guard.temporary()"), 2, "too many open files; raise the limit (ulimit -n)"),
        (full + work.format("bufr_guard.temporary()"), 2, "cannot create a temporary file: No space left on device; set TMPDIR to another directory"),
        (work.format("1 // 0"), 2, "internal error: ZeroDivisionError: integer division or modulo by zero (<string>, line 1)"),
        (work.format("open('/nosuch')"), 2, "/nosuch: No such file or directory"),
        (small + work.format("bufr_guard.write_all(bufr_guard.temporary(), b'x')"), 2, "write failed: File too large"),
        (work.format("bufr_guard.checked(129)"), 2, "bufr was killed (signal 1); output is incomplete"),
        (work.format("bufr_guard.checked(128)"), 2, "bufr exited with status 128; output is incomplete"),
        (
            work.format("bufr_guard.checked(2, False)"),
            2,
            "bufr exited with status 2; output is incomplete; if /nosuch is full, set TMPDIR to another directory",
        ),
        (full_output + work.format("bufr_guard.output().write(b'x') or 0"), 2, "write failed: Disk quota exceeded"),
        (no_process + work.format("bufr_guard.start(['true'])"), 2, "cannot run true: Resource temporarily unavailable; raise the process limit (ulimit -u)"),
        ("sys.argv = ['-c', '--help']; bufr_guard.run(lambda _: bufr_guard.answer('--help', ''), None)", 2, "the help is not available, because PYTHONOPTIMIZE=2 removes it"),
        (shows + work.format("0"), 0, "\r\x1b[K"),
        (shows + work.format("bufr_guard.say(b'x') or bufr_guard.flush() or os.write(2, b'-') * 0"), 0, "\r\x1b[Kx-"),
        (shows + work.format("1 // 0"), 2, "\r\x1b[K-c: internal error: ZeroDivisionError: integer division or modulo by zero (<string>, line 1)\n"),
        (shows + work.format("os.kill(os.getpid(), 15)"), -signal.SIGTERM, "\r\x1b[K"),
        (shows + work.format("os.close(2) or 0"), 0, ""),
        (work.format("0") + "; print('more')", 0, ""),
        ("sys.excepthook = bufr_guard.hook; raise KeyboardInterrupt", -signal.SIGINT, ""),
        ("sys.excepthook = bufr_guard.hook; raise MemoryError", 2, "out of memory"),
        ("sys.excepthook = bufr_guard.hook; import nosuch", 2, f"the Python package nosuch is not installed for {sys.executable} (on Debian: apt-get install python3-nosuch, then run /usr/bin/python3 -c ...)"),
    ):
        words, environment = [sys.executable, "-c", "import bufr_guard, sys; " + code], {**os.environ, "TMPDIR": "/nosuch"}
        environment = os.environ if code.startswith((few, small)) else environment
        done = subprocess.run(words, cwd=TOP / "scripts", capture_output=True, env=environment)
        wanted = (status, b"", (told if told[:1] in ("", "\r") else f"-c: {told}\n").encode())
        holds(f"{code}", (done.returncode, done.stdout, done.stderr) == wanted, done)
    # A signal removes unfinished files.
    with tempfile.TemporaryDirectory() as place:
        code = "import bufr_guard, os, sys; bufr_guard.UNFINISHED += sys.argv[1:]; open(sys.argv[2], 'w'); "
        words = [sys.executable, "-c", code + work.format("os.kill(os.getpid(), 15)"), f"{place}/none", f"{place}/begun"]
        done = subprocess.run(words, cwd=TOP / "scripts", capture_output=True)
        holds("an unfinished file", done.returncode == -signal.SIGTERM and not os.listdir(place), (done, os.listdir(place)))
    # The first import in each script fails, as happens if there is too little memory.
    with tempfile.TemporaryDirectory() as place:
        (pathlib.Path(place) / "bufr_guard.py").write_text("raise MemoryError\n")
        for name in [*SCRIPTS, *OTHERS]:
            shutil.copy(TOP / "scripts" / name, place)
            done = subprocess.run([sys.executable, str(pathlib.Path(place) / name)], capture_output=True)
            holds(f"{name} without memory", (done.returncode, done.stdout) == (2, b"") and b"MemoryError" in done.stderr, done)
    # Standard output is flushed before standard error.
    code = "import bufr_guard; bufr_guard.run(lambda _: bufr_guard.say(b'2') or bufr_guard.output().write(b'1') or 0, '')"
    words = [sys.executable, "-c", code]
    done = subprocess.run(words, cwd=TOP / "scripts", stdout=subprocess.PIPE, stderr=subprocess.STDOUT)
    holds("output and errors in one file", (done.returncode, done.stdout) == (0, b"12"), done)


def main() -> None:
    holds("a program for which no memory is enough", least_memory(["false"], 200) is None)
    guard()
    asked = sys.argv[2:] or [*SCRIPTS, *OTHERS]
    for name in asked:
        of_all = (descriptors, memory, room, shorter, killed, signals, tables, options, progress)
        for test in of_all if name in SCRIPTS else (options,):
            if complaints:
                break
            with tempfile.TemporaryDirectory() as place:
                test(Trial(name, {**SCRIPTS, **OTHERS}[name], place))
    finish(complaints)


if __name__ == "__main__":
    main()
