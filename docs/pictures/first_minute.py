#!/usr/bin/env python3
"""Draws first_minute.svg, the picture in the README: the listing and the faults of a damaged archive, and part of a dump.

    docs/pictures/first_minute.py PROGRAM

PROGRAM is the path to `bufr`. The script runs the commands that the picture shows, in examples/, and writes the picture to
standard output.
"""
import html
import os
import pathlib
import subprocess
import sys
import tempfile

TOP = pathlib.Path(__file__).resolve().parent.parent.parent
COMMANDS = (
    ("# An archive with headings, junk and broken messages.", None),
    ("# Orange lines are from standard error, shown after the listing.", None),
    ("bufr ls bulletins.bufr | cut -d ' ' -f 1-5", "offset "),
    ("# The air temperature of each station in a report.", None),
    ("bufr-auto synop.bufr | grep -E '^(001015|012101) '", None),
)
COLOURS = {"command": "#f0f0f0", "output": "#b8c4ce", "fault": "#ff9580", "remark": "#7a8a99"}
WIDTH, LINE, LEFT, TOP_MARGIN = 760, 22, 20, 34


def printed(command: str, folder: str, path: str) -> list:
    """Returns the lines that a command prints: first its output, then its errors."""
    environment = {**os.environ, "PATH": path, "LC_ALL": "C.UTF-8"}
    run = subprocess.run(["bash", "-c", command], cwd=folder, env=environment, capture_output=True, text=True, check=False)
    return (run.stdout + run.stderr).splitlines()


def lines(program: pathlib.Path):
    """Yields the kind and the text of each line of the picture."""
    with tempfile.TemporaryDirectory() as folder:
        (pathlib.Path(folder) / "bufr").symlink_to(program)
        path = f"{folder}:{TOP / 'scripts'}:{os.environ['PATH']}"
        for command, fault in COMMANDS:
            if command.startswith("#"):
                yield "remark", command
                continue
            yield "command", f"$ {command}"
            for line in printed(command, str(TOP / "examples"), path):
                yield "fault" if fault and line.startswith(fault) else "output", line
            yield "output", ""


def main() -> None:
    if len(sys.argv) != 2:
        sys.exit(__doc__)
    rows = list(lines(pathlib.Path(sys.argv[1]).resolve()))[:-1]
    height = TOP_MARGIN + LINE * len(rows) + 8
    print(f'<svg xmlns="http://www.w3.org/2000/svg" viewBox="0 0 {WIDTH} {height}" width="{WIDTH}" height="{height}">')
    print("<title>The listing of a damaged archive, and part of a dump</title>")
    print(f'<rect width="{WIDTH}" height="{height}" rx="8" fill="#1b232b"/>')
    print('<g font-family="ui-monospace, Menlo, Consolas, \'DejaVu Sans Mono\', monospace" font-size="15" xml:space="preserve">')
    for number, (kind, text) in enumerate(rows):
        y = TOP_MARGIN + LINE * number
        print(f'<text x="{LEFT}" y="{y}" fill="{COLOURS[kind]}">{html.escape(text, quote=False)}</text>')
    print("</g>\n</svg>")


if __name__ == "__main__":
    main()
