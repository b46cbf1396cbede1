#!/usr/bin/env python3
"""Runs the commands in the README in order, like a user who has just cloned the repository or unpacked a release.

    tests/readme_commands.py [PROGRAM]

A fenced block contains commands if it is marked `sh` or begins with `$ `. The commands run in one shell, with a separate
home directory, at the top of a clone of the current files. Each command must exit with status 0, and the lines below a
command that begins with `$ ` must be its output. `.ci/run` is skipped, because it takes up to two hours and runs this test
itself. The test makes install.sh install PROGRAM, because install.sh would otherwise prove a program in the clone, or install
the one from a proved release.
"""
import os
import pathlib
import re
import shutil
import subprocess
import sys
import tempfile

from docs_commands import commands, typed
from lib import TOP, finish, program

BLOCK = re.compile(r"^```(\w*)\n(.*?)^```$", re.M | re.S)


def steps(page: str) -> list:
    """Returns, for each command on the page, the line number, the lines, and the output (None if the page shows none)."""
    found = []
    for block in BLOCK.finditer(page):
        first, lines = page.count("\n", 0, block.start(2)) + 1, block[2].splitlines()
        if block[1] == "sh":
            found += [(number, [line], None) for number, line in enumerate(lines, first)]
        elif lines[0].startswith("$ "):
            found += commands(first, lines)
    return found


def clone(folder: pathlib.Path) -> None:
    """Copies the current files, without build output, and commits the copies to a new repository."""
    built = shutil.ignore_patterns(".git", "out", "dist", "__pycache__")
    shutil.copytree(TOP, folder, symlinks=True, ignore=built)
    author = ["-c", "user.name=test", "-c", "user.email=test@localhost"]
    for words in (["init", "-q"], ["add", "-A"], [*author, "commit", "-qm", "A commit"]):
        subprocess.run(["git", *words], cwd=folder, check=True)


def main() -> None:
    told, skipped = [], []
    for number, words, wanted in steps((TOP / "README.md").read_text(encoding="utf-8")):
        needs_toolchain = "rt try" in words[0] or "try.sh" in words[0]
        if words[0].startswith(".ci/run") or needs_toolchain and not shutil.which("rt"):
            skipped.append(words[0].partition("  #")[0])
        else:
            words[0] = re.sub(r"install\.sh (?!--)", 'install.sh --program "$PROGRAM" --unproved ', words[0])
            told.append((number, words, wanted))
    with tempfile.TemporaryDirectory() as place:
        top = pathlib.Path(place) / "clone"
        clone(top)
        words = [top / "release.sh", "--unproved", program(), place]
        subprocess.run(words, check=True, stdout=subprocess.DEVNULL)
        for archive in pathlib.Path(place).glob("*.tar.gz"):
            shutil.move(archive, top)
        environment = {key: value for key, value in os.environ.items() if not key.startswith("BUFR")}
        wrong = typed(told, top, {**environment, "HOME": place, "PROGRAM": program()}, timeout=900)
    print(f"{sys.argv[0]}: {len(told)} commands of README were typed; not run: {', '.join(skipped) or 'none'}")
    if len(told) < 8:
        wrong.append("fewer than eight commands to type")
    picture = TOP / "docs/pictures/first_minute.svg"
    drawn = subprocess.run([picture.with_suffix(".py"), program()], check=True, stdout=subprocess.PIPE)
    if drawn.stdout != picture.read_bytes():
        wrong.append(f"{picture.name} is not what first_minute.py draws")
    finish([f"README.md:{one}" for one in wrong])


if __name__ == "__main__":
    main()
