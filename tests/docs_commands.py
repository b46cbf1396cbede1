#!/usr/bin/env python3
"""Runs the commands in the documentation, and compares their output with what the pages show.

    tests/docs_commands.py [PROGRAM [DOC..]]

A fenced block contains commands if its first line begins with `$ `. Each line that begins with `$ ` is a command, and lines
after it that begin with `> ` continue the command. The lines below a command are its output (standard output and standard
error together). In the output, a line that consists of `...` stands for any number of lines, and `(status N)` at the end
gives an exit status other than 0.

All commands in a page run in the same shell, which starts in an empty directory. `bufr` and the scripts are on PATH, and
the directory contains links to examples/, scripts/ and tables/: those of the repository, or of the installation to which
the page belongs. A block whose fence ends in `if=WORD` is skipped if there is no program, Python module or module in
scripts/ with that name. WORD can be several names, separated by commas.
"""
import os
import pathlib
import re
import shutil
import subprocess
import sys
import tempfile

from lib import DOCS, finish, program


def is_there(word: str, scripts: pathlib.Path) -> bool:
    environment = {**os.environ, "PYTHONPATH": str(scripts)}
    known = subprocess.run(["python3", "-c", f"import {word}"], env=environment, stderr=subprocess.DEVNULL)
    return shutil.which(word) is not None or known.returncode == 0


def blocks(text: str):
    """Yields, for each block of commands, the number of the first line, the names that the block requires, and its lines."""
    for found in re.finditer(r"^( *)```([^\n`]*)\n(.*?)^ *```$", text, re.M | re.S):
        lines = [line[len(found[1]) :] for line in found[3].splitlines()]
        if lines and lines[0].startswith("$ "):
            needs = re.search(r"if=([\w,]+)", found[2])
            yield text.count("\n", 0, found.start(3)) + 1, needs[1].split(",") if needs else [], lines


def commands(first: int, lines: list):
    """Returns, for each command in a block, its line number, its lines, and the lines that it must print."""
    told = []
    for number, line in enumerate(lines, first):
        if line.startswith("$ "):
            told.append((number, [line[2:]], []))
        elif line.startswith("> ") and not told[-1][2]:
            told[-1][1].append(line[2:])
        else:
            told[-1][2].append(line)
    return told


def alike(wanted: list, said: list) -> bool:
    pattern = "".join(r"(?:.*\n)*?" if line == "..." else re.escape(line) + r"\n" for line in wanted)
    return re.fullmatch(pattern, "".join(line + "\n" for line in said)) is not None


def typed(told: list, folder: pathlib.Path, environment: dict, timeout: int = 300) -> list:
    """Runs commands in one shell, which starts in `folder`. Returns an error message for each command with wrong output.

    If the expected output is None, a command can print anything, but it must exit with status 0.
    """
    wrong = []
    with tempfile.TemporaryDirectory() as place:
        kept, script = pathlib.Path(place), ["export LC_ALL=C.UTF-8"]
        for number, words, _ in told:
            (kept / f"{number}.sh").write_text("\n".join(words) + "\n")
            script.append(f'. "{kept}/{number}.sh" > "{kept}/{number}.out" 2>&1 < /dev/null')
            script.append(f'echo $? > "{kept}/{number}.status"')
        subprocess.run(["bash", "-c", "\n".join(script)], cwd=folder, env=environment, timeout=timeout)
        for number, words, wanted in told:
            said = (kept / f"{number}.out").read_text(encoding="utf-8", errors="replace")
            # Installed scripts print the absolute path of convert.py.
            said = re.sub(r"/\S*/tables/convert\.py", "tables/convert.py", said).splitlines()
            status = (kept / f"{number}.status").read_text().strip()
            said += [f"(status {status})"] * (status != "0")
            if status != "0" if wanted is None else not alike(wanted, said):
                wrong.append(f"{number}: {words[0]}\nsays\n" + "\n".join(said[-40:]))
    return wrong


def wrongs(path: pathlib.Path) -> list:
    """Runs the commands in a document. Returns an error message for each command with wrong output."""
    top = next(folder for folder in path.parents if (folder / "examples").is_dir())
    doc, told = path.relative_to(top), []
    for first, needs, lines in blocks(path.read_text(encoding="utf-8")):
        lacking = [word for word in needs if not is_there(word, top / "scripts")]
        if lacking:
            print(f"docs_commands: {doc}:{first}: skipped, {' and '.join(lacking)} is not there")
        else:
            told += commands(first, lines)
    with tempfile.TemporaryDirectory() as place:
        folder, programs = pathlib.Path(place) / "run", pathlib.Path(place) / "bin"
        folder.mkdir(), programs.mkdir()
        (programs / "bufr").symlink_to(program())
        for script in (top / "scripts").glob("bufr-*"):
            (programs / script.name).symlink_to(script)
        for name in ("examples", "scripts", "tables"):
            (folder / name).symlink_to(top / name)
        environment = {**os.environ, "PATH": f"{programs}:{os.environ['PATH']}"}
        return [f"{doc}:{wrong}" for wrong in typed(told, folder, environment)]


if __name__ == "__main__":
    docs = [pathlib.Path(doc).absolute() for doc in sys.argv[2:]] or DOCS
    finish([wrong for doc in docs for wrong in wrongs(doc)])
