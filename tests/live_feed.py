#!/usr/bin/env python3
"""Tests live feeds with all three commands: output for the octets sent so far must arrive before the next octets are sent.

The output goes to a pipe or to a terminal, and the input sometimes stops in the middle of a message. If a read fails, all
earlier output must already have been written. A stray that declares 16 MB must not cause a large allocation. If the input is
a file, output must still be written in large blocks.
"""
# rule: output-held-back, input-not-read, fault-70
import os
import pathlib
import pty
import select
import subprocess
import tempfile
import time
import tty

from lib import TABLES, TOP, finish, program

BUFR = program()
PATIENCE = 20.0  # the number of seconds to wait for output
BLOCK = 65536  # the number of octets that the program reads or writes at once
messages = [(TOP / f"examples/{name}.bufr").read_bytes() for name in ("synop", "buoys")]
texts = [(TOP / f"examples/{name}.txt").read_bytes() for name in ("synop", "buoys")]
FALSE_WORD = b"BUFR\xff\xff\xff\x04"
STRAY = b"BUFR\0\0\0\4...."  # a stray that can be recognized without further octets


class Feed:
    """A run of the program. The test writes to its input, and reads its output and errors as they arrive."""

    def __init__(self, words, terminal=False, failing=False):
        """If `failing` is true, the input is the master side of a terminal, so reads fail once the other side is closed."""
        self.input, ends = None, []
        if failing:
            given, self.input = pty.openpty()
            tty.setraw(self.input)
        else:
            given, self.input = os.pipe()
        ends.append(given)
        self.outputs = []
        for _ in range(2):
            mine, theirs = pty.openpty() if terminal else os.pipe()
            if terminal:
                tty.setraw(theirs)
            self.outputs.append(mine)
            ends.append(theirs)
        self.run = subprocess.Popen([BUFR, *words], stdin=ends[0], stdout=ends[1], stderr=ends[2])
        for end in ends:
            os.close(end)
        self.open = list(self.outputs)
        self.read = [b"", b""]

    def send(self, octets):
        while octets:
            octets = octets[os.write(self.input, octets[:1024]) :]
            self.take(0)

    def take(self, seconds):
        """Reads the available output. If there is none, waits for some, but not longer than `seconds`."""
        for output in select.select(self.open, [], [], seconds)[0]:
            try:
                part = os.read(output, BLOCK)
            except OSError:  # a terminal whose other side is closed
                part = b""
            self.read[self.outputs.index(output)] += part
            if not part:
                self.open.remove(output)
                os.close(output)

    def has(self, output, errors):
        """Returns whether the program writes exactly this output and these errors before it gets more input."""
        end = time.monotonic() + PATIENCE
        while self.read != [output, errors] and time.monotonic() < end:
            self.take(0.05)
        return self.read == [output, errors]

    def peak(self):
        """Returns the peak memory of the program in kB."""
        status = pathlib.Path(f"/proc/{self.run.pid}/status").read_text()
        return int(status.split("VmHWM:")[1].split()[0])

    def end(self):
        """Closes the input, reads the remaining output, and returns the exit status."""
        os.close(self.input)
        while self.open:
            self.take(PATIENCE)
        return self.run.wait(timeout=PATIENCE)


def ran(words, octets):
    """Returns the output and errors of a run that gets all octets at once."""
    run = subprocess.run([BUFR, *words], input=octets, stdout=subprocess.PIPE, stderr=subprocess.PIPE, check=False)
    return run.stdout, run.stderr


wrongs = []


def want(holds, wrong):
    if not holds:
        wrongs.append(wrong)


for terminal in (False, True):
    to = "a terminal" if terminal else "a pipe"
    for words in (["ls"], ["dump", *TABLES]):
        name = f"{words[0]} to {to}"
        feed, sent = Feed(words, terminal), b""
        # whole messages with a stray between them, and then a message in two parts
        for part in (messages[0], STRAY, messages[1], messages[0][:200], messages[0][200:]):
            feed.send(part)
            sent += part
            whole = sent[: len(sent) - 200] if part == messages[0][:200] else sent
            want(feed.has(*ran(words, whole)), f"{name}: not all is there after {len(sent)} octets")
        want(feed.end() == 1, f"{name}: another status at the end")
        want(feed.read == list(ran(words, sent)), f"{name}: another output at the end")
    feed, sent = Feed(["encode", *TABLES], terminal), b""
    name = f"encode to {to}"
    half = texts[0].index(b"\nend") - 40
    for part in (texts[0], texts[1], texts[0][:half], texts[0][half:]):
        feed.send(part)
        sent += part
        whole = sent[: len(sent) - half] if part == texts[0][:half] else sent
        want(feed.has(*ran(["encode", *TABLES], whole)), f"{name}: not all is there after {len(sent)} octets")
    feed.send(b"a line that is none\n")
    errors = ran(["encode", *TABLES], sent + b"a line that is none\n")[1]
    want(feed.has(feed.read[0], errors), f"{name}: the fault line is not there")
    want(feed.end() == 1, f"{name}: another status at the end")

# All output is written before a read that fails. Only the line that reports the failure is written afterwards.
for words, octets in ((["ls"], messages[0] + STRAY), (["dump", *TABLES], messages[0] + STRAY), (["encode", *TABLES], texts[0])):
    output, errors = ran(words, octets)
    feed = Feed(words, failing=True)
    feed.send(octets)
    want(feed.has(output, errors), f"{words[0]}: not all is there before the read that fails")
    want(feed.end() == 2, f"{words[0]}: another status where a read fails")
    want(feed.read == [output, errors + b"bufr: 70 read failed\n"], f"{words[0]}: another output where a read fails")

# A stray that declares a large length neither causes a large allocation nor delays the message before it.
feed = Feed(["ls"])
feed.send(messages[0] + FALSE_WORD + bytes(5000))
want(feed.has(*ran(["ls"], messages[0])), "ls: a false word holds up what comes before it")
want(feed.peak() < 3000, f"ls: {feed.peak()} kB for a false word")
feed.end()

# The number of writes is small: the blocks that are written are at least half full, except that each 64 KiB of input can cause
# one more write to standard output and one more to standard error.
with tempfile.TemporaryDirectory() as folder:
    stream, text = pathlib.Path(folder, "stream"), pathlib.Path(folder, "text")
    stream.write_bytes((messages[0] + STRAY + messages[1]) * 1000)
    text.write_bytes(b"".join(texts) * 20)
    for words, name in ((["ls"], stream), (["dump", *TABLES], stream), (["encode", *TABLES], text)):
        outputs = [pathlib.Path(folder, kind) for kind in ("output", "errors")]
        with outputs[0].open("wb") as output, outputs[1].open("wb") as errors:
            run = subprocess.Popen([BUFR, *words, str(name)], stdout=output, stderr=errors)
            os.waitid(os.P_PID, run.pid, os.WEXITED | os.WNOWAIT)
            counts = pathlib.Path(f"/proc/{run.pid}/io").read_text()
            run.wait()
        writes = int(counts.split("syscw:")[1].split()[0])
        most = sum(2 * path.stat().st_size // BLOCK + 1 for path in outputs) + 2 * (name.stat().st_size // BLOCK + 1)
        want(writes <= most, f"{words[0]}: {writes} writes, {most} at most")
finish(wrongs)
