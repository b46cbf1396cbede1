#!/usr/bin/env python3
"""Tests tests/vectors/run.py: the cases that it selects, its exit status, and a program that does not exit.

    tests/test_vector_runner.py [PROGRAM]
"""
import importlib.util
import subprocess
import sys

from lib import TOP, finish, program

RUNNER = TOP / "tests/vectors/run.py"


def main() -> None:
    wrongs = []
    for words, status, told in (
        (["--only", "delayed_twice", program()], 0, "3 of 3 vectors"),
        (["--only", "delayed_twice", "false"], 1, "0 of 3 vectors"),
        (["--only", "no such case", program()], 2, "0 of 0 vectors"),
        (["/nosuch"], 2, "cannot run /nosuch: No such file or directory"),
        (["--only", "delayed_twice"], 2, "name the program"),
        (["--help"], 0, "--only selects the cases"),
    ):
        done = subprocess.run([sys.executable, RUNNER, *words], stdout=subprocess.PIPE, stderr=subprocess.STDOUT)
        if done.returncode != status or told not in done.stdout.decode():
            wrongs.append(f"{words}: {done.returncode}, {done.stdout.decode()[-300:]}")
    spec = importlib.util.spec_from_file_location("runner", RUNNER)
    runner = importlib.util.module_from_spec(spec)
    spec.loader.exec_module(runner)
    runner.SECONDS = 0.2
    told = runner.unlike(["sleep"], {"words": "60", "input": "-", "status": "0", "output": "-", "faults": "-"})
    if told != ["no end after 0.2 seconds"]:
        wrongs.append(f"a program that does not end is told {told}")
    finish(wrongs)


if __name__ == "__main__":
    main()
