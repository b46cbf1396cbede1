#!/usr/bin/env python3
"""Checks that the documentation agrees with the files, the program and the scripts.

    tests/docs_consistency.py [PROGRAM]

- all pages: links and paths, and the Python version that the scripts need;
- docs/guide.md: the sizes and items of the example files, and the differences from ecCodes;
- docs/proof.md: functions, their clauses, laws, record fields, and a contract that the page quotes;
- tables/README.md: the numbers of rows in the tables;
- the man pages: the faults in the page for `bufr`, and warnings from `mandoc` and `groff`, if these are installed;
- the man pages and the completions: commands and options, including those of the scripts.
"""
import csv
import os
import pathlib
import re
import shutil
import subprocess
import sys

from lib import DOCS, FAULT, TOP, finish, program

complaints = []


def read(name) -> str:
    return (TOP / name).read_text(encoding="utf-8")


def want(holds: bool, complaint: str) -> None:
    if not holds:
        complaints.append(complaint)


def anchors(path: pathlib.Path) -> set:
    heads = re.findall(r"^#+ (.*)$", path.read_text(encoding="utf-8"), re.M)
    return {re.sub(r"[^\w -]", "", head.lower()).replace(" ", "-") for head in heads}


def links_and_paths() -> None:
    """Checks that the target of each link exists, and that each path in the pages exists, except for build output."""
    folders = "|".join(sorted(path.name for path in TOP.iterdir() if path.is_dir() and path.name != ".git"))
    for doc in DOCS:
        text = doc.read_text(encoding="utf-8")
        for target in re.findall(r"\]\(([^)#]*(?:#[^)]*)?)\)", text):
            name, _, anchor = target.partition("#")
            path = (doc.parent / name) if name else doc
            want(path.exists(), f"{doc.name}: a link to {target}, which is not there")
            if anchor and path.exists():
                want(anchor in anchors(path), f"{doc.name}: a link to {target}, which has no such heading")
        for path in re.findall(rf"`((?:{folders})/[\w./-]+)`", text):
            built = "/out" in path
            want(built or (TOP / path).exists(), f"{doc.name}: {path} is not there")


def example_files() -> None:
    """Checks the sizes that docs/guide.md states for the example files, and the numbers of items and missing values."""
    rows = re.findall(r"^\| `(\w+)\.bufr` \| (\d+) \|.*\| ([^|]*) \|$", read("docs/guide.md"), re.M)
    there = {path.stem for path in TOP.glob("examples/*.bufr")}
    want({name for name, *_ in rows} == there, f"docs/guide.md: the example files are {sorted(there)}")
    for name, octets, told in rows:
        path = TOP / "examples" / f"{name}.bufr"
        want(path.exists() and path.stat().st_size == int(octets), f"docs/guide.md: {name} has other than {octets} octets")
        dump = path.with_suffix(".txt")
        if dump.exists():
            subsets = [part.splitlines()[1:] for part in dump.read_text(encoding="utf-8").split("\nsubset ")[1:]]
            items = [sum(line[:6].isdigit() for line in lines) for lines in subsets]
            missing = sum(" MISSING" in line for lines in subsets for line in lines)
            wanted = [*items, missing] if len(set(items)) > 1 or len(items) == 1 else [items[0], sum(items), missing]
            want(list(map(int, re.findall(r"\d+", told))) == wanted, f"docs/guide.md: {name} has {wanted} items and missing ones")


def counts_of_tables() -> None:
    """Checks that tables/README.md lists every table set, with the right numbers of elements and sequences."""
    rows = re.findall(r"^\| `(wmo-\d+)` \| [\d, to]+ \| ([\d,]+) \| ([\d,]+) \|$", read("tables/README.md"), re.M)
    want({name for name, *_ in rows} == {path.name for path in TOP.glob("tables/wmo-[0-9][0-9]")}, "tables/README.md: other sets")
    for name, *numbers in rows:
        for file, number in zip(("B.csv", "D.csv"), numbers):
            path = TOP / "tables" / name / file
            lines = path.read_text(encoding="utf-8").splitlines() if path.exists() else []
            there = len({row["fxy"] for row in csv.DictReader(lines)})
            want(f"{there:,}" == number, f"tables/README.md: {name}/{file} has {there:,} descriptors")


def man_page() -> None:
    """Checks that man/bufr.1 and docs/texts.md list the same faults, and that no man page causes warnings."""
    page = read("man/bufr.1")
    faults = set(re.findall(FAULT, read("docs/texts.md"), re.M))
    told = set()
    for item in re.findall(r"^\.It (.*)$", page[page.index(".Sh DIAGNOSTICS") :], re.M):
        told |= set(re.findall(r"(?:^| , )(\d+) ", item))
    want(faults == told, f"man/bufr.1: of the faults {sorted(faults ^ told)} stand here or in docs/texts.md alone")
    for command in (["mandoc", "-T", "lint"], ["groff", "-ww", "-mandoc", "-T", "utf8", "-z"]):
        if not shutil.which(command[0]):
            print(f"docs_consistency: skipped, {command[0]} is not installed")
            continue
        for path in sorted(TOP.glob("man/*.1")):
            done = subprocess.run([*command, path], stdout=subprocess.PIPE, stderr=subprocess.STDOUT, text=True)
            # Whether the other pages can be found depends on the installation.
            told = [line for line in done.stdout.splitlines() if "not found: Xr" not in line and "mandoc.db" not in line]
            want(not told, f"{path.name}: {told}")


def python_version() -> None:
    """Checks that certain pages state the required Python version, and that no page disagrees with the scripts."""
    needed = ".".join(re.search(r"version_info < \((\d+), (\d+)\)", read("scripts/bufr_guard.py")).groups())
    pages = ["README.md", "CHANGELOG.md", "CONTRIBUTING.md", "docs/guide.md", "tables/README.md"]
    pages += sorted(str(path.relative_to(TOP)) for path in [*TOP.glob("man/*"), TOP / "build_wheel.py"])
    told = {page: set(re.findall(r"Python (3\.\d+)|Requires-Python: >=(3\.\d+)", read(page))) for page in pages}
    told = {page: {"".join(version) for version in versions} for page, versions in told.items()}
    for page in ("README.md", "CHANGELOG.md", "docs/guide.md", "man/bufr.1", "build_wheel.py"):
        want(told[page] != set(), f"{page} does not say which Python the scripts need")
    for page, versions in told.items():
        want(versions <= {needed}, f"{page} says Python {' and '.join(sorted(versions))}, not {needed}")


def commands_and_options() -> None:
    """Checks that the man page and the completions for bash and zsh contain each command and option in the help."""

    def helped(*words: str) -> str:
        return subprocess.run([program(), *words, "--help"], stdout=subprocess.PIPE, check=True).stdout.decode()

    texts = {name: read(name) for name in ("man/bufr.1", "completions/bufr.bash", "completions/_bufr")}
    commands = re.findall(r"^  (\w+)  ", helped().partition("Commands:\n")[2].partition("\n\n")[0], re.M)
    options = set()
    for command in commands:
        if command != "help":
            options |= set(re.findall(r"(?<!\w)(--?\w+)", helped(command).partition("Options:\n")[2].partition("\n\n")[0]))
            want(f".Cm {command}\n" in texts["man/bufr.1"], f"man/bufr.1 has no {command}")
    for name, text in texts.items():
        for command in commands:
            want(name == "man/bufr.1" or re.search(rf"\b{command}\b", text) is not None, f"{name} has no {command}")
        for option in options - {"-h"}:
            word = f"Fl {option[1:]}" if name == "man/bufr.1" else option
            known = word in text or name == "man/bufr.1" and f", {option[1:]}" in text
            want(known, f"{name} has no {option}")


def scripts() -> None:
    """Checks that `man bufr` mentions each script, and that the script's man page and completions contain its options.

    The page and completions of bufr-extract must also contain the keys in the output of `bufr ls`.
    """
    zsh = read("completions/_bufr_scripts")
    names = sorted(path.name for path in TOP.glob("scripts/bufr-*"))
    want(zsh.split("\n")[0] == " ".join(["#compdef", *names]), "completions/_bufr_scripts: its first line has other scripts")
    for name in names:
        words = [sys.executable, TOP / "scripts" / name, "--help"]
        done = subprocess.run(words, stdout=subprocess.PIPE, env={**os.environ, "BUFR": program()})
        told = re.sub(r"bufr dump .*\|", "", done.stdout.decode())  # an example contains options of `bufr`
        options = set(re.findall(r"(?<![\w-])(--?[A-Za-z][\w-]*)", told)) - {"-h", "-V"} | {"--help", "--version"}
        path = TOP / "man" / f"{name}.1"
        page = path.read_text(encoding="utf-8") if path.exists() else ""
        told = {f"-{word}" for item in re.findall(r"^\.It Fl (.*)$", page, re.M) for word in re.findall(r"-?[A-Za-z][\w-]*", item)}
        want(options <= told, f"man/{path.name}: it has no {sorted(options - told)}")
        want(f".Xr {name} 1" in read("man/bufr.1"), f"man/bufr.1: {name} is not among the other pages")
        of_zsh = re.search(rf"^        {name}\)(.*?);;$", zsh, re.M | re.S)
        offered = of_zsh[1] if of_zsh else ""
        for variable in ("tables", "longest"):
            offered = offered.replace(f"${variable}", zsh.partition(f" {variable}=")[2].partition("\n")[0])
        offered = set(re.findall(r"'\*?(--?[\w-]+)\[", offered))
        want(offered == options - {"--help", "--version"}, f"completions/_bufr_scripts: {name} has {sorted(offered)}")
        completing = f". completions/bufr-scripts.bash; COMP_WORDS=({name} -) COMP_CWORD=1; complete -p {name}; _bufr_scripts"
        done = subprocess.run(
            ["bash", "-c", completing + "; printf '%s\n' \"${COMPREPLY[@]}\""], cwd=TOP, stdout=subprocess.PIPE
        )
        offered = set(done.stdout.decode().splitlines()[1:])
        want(offered == options, f"completions/bufr-scripts.bash: {name} has {sorted(offered)}, not {sorted(options)}")
    for key in re.findall(r" (\w+)=", subprocess.run(
        [program(), "ls", TOP / "examples/one_block_number.bufr"], stdout=subprocess.PIPE
    ).stdout.decode().replace("offset", " offset", 1)):
        for name in ("man/bufr-extract.1", "completions/_bufr_scripts", "completions/bufr-scripts.bash"):
            want(re.search(rf"\b{key}\b", read(name)) is not None, f"{name} has no {key}")


def differences() -> None:
    """Checks that docs/guide.md and tests/eccodes/against_eccodes.py list the same differences in the same order."""
    rows = re.search(r'DIFFERENCES = """\n(.*?)"""', read("tests/eccodes/against_eccodes.py"), re.S)[1].splitlines()
    told = re.findall(r"^\| (\d+) \| ([^|]*?) \|", read("docs/guide.md"), re.M)
    wanted = [(str(number), row.split(" | ")[0]) for number, row in enumerate(rows, 1)]
    want(told == wanted, "docs/guide.md: the differences are not those of tests/eccodes/against_eccodes.py")


class Call:
    """A function in a crate: its name (with its type, if any), its crate and file, and its contract."""

    def __init__(self, name: str, crate: str, file: str, contract: str) -> None:
        self.name, self.crate, self.file, self.contract = name, crate, file, contract


def calls() -> list:
    """Returns the functions in all crates except bufr_tests."""
    found = []
    for path in sorted(TOP.glob("crates/*/src/**/*.rt")):
        owner, lines = "", path.read_text(encoding="utf-8").splitlines()
        for at, line in enumerate(lines):
            if re.match(r"(?:pub(?:\(\w+\))? )?(?:impl|trait)\b", line):
                head = re.sub(r"^.*?\b(?:impl|trait)\b(?:<[^>]*>)?", "", line)
                owner = re.search(r"\w+", head.rpartition(" for ")[2])[0]
            named = re.match(r'( *)(?:pub(?:\(\w+\))? )?(?:const )?(?:extern "C" )?fn (\w+)', line)
            if named:
                body = re.compile(rf"{named[1]}(?:\{{\}}?|(?:pub|fn|const|\)).*[{{;]|.*\}};)")
                end = next(n for n in range(at, len(lines)) if body.fullmatch(lines[n]))
                name = f"{owner}::{named[2]}" if named[1] else named[2]
                found.append(Call(name, path.parts[-3], path.name, "\n".join(lines[at : end + 1])))
    return [call for call in found if call.crate != "bufr_tests"]


def fields(record: str) -> set:
    """Returns the fields of a record in specs/, or an empty set if there is no such record."""
    for path in sorted(TOP.glob("crates/*/specs/*.antt")):
        found = re.search(rf"^pub record {record}\b.*?\n(?=\S)", path.read_text(encoding="utf-8") + "\n.", re.M | re.S)
        if found:
            return set(re.findall(r"^  pub (\w+) :", found[0], re.M))
    return set()


def check_part(part: str, every: list, defined: set) -> None:
    """Checks the names in a part of a cell, such as "`A`, `B`: `c`, `d`".

    Here, A and B are functions, and c and d are clauses of both. If A is a record or a file instead, c is one of its fields or
    functions. A clause `R.f` stands for the field f of a record R that the contract names.
    """

    def lacks(name: str, of: str = "the crates") -> None:
        complaints.append(f"docs/proof.md: {name} is not in {of}")

    before, _, after = part.partition(": ")
    clauses = re.findall(r"`([\w.]+)`", after)
    file = re.search(r"`(\w+\.rt)`(?: in `(\w+)`)?", before)
    if file:
        there = {call.name for call in every if (call.crate, call.file) == (file[2] or "bufr_cli", file[1])}
        for name in clauses if there else [file[1]]:
            if name not in there:
                lacks(name, file[0])
        return
    for subject in re.findall(r"`([\w:]+)`", before):
        contract = "".join(call.contract for call in every if call.name == subject)
        if not contract and subject not in defined:
            lacks(subject)
        for clause in clauses:
            record, _, field = clause.rpartition(".")
            if record and record not in contract:
                lacks(record, f"the contract of {subject}")
            if field not in (fields(record or subject) if record or not contract else re.findall(r"ensures\*? (\w+) ", contract)):
                lacks(clause, subject)


def clauses_of_proof() -> None:
    """Checks the functions, laws, clauses and records that the tables in docs/proof.md name, including those in parentheses.

    A contract that this page quotes must occur in the crates.
    """
    page, every = read("docs/proof.md"), calls()
    named = re.compile(r"^(?:[a-z]+ )*pub (?:[a-z]+ )*([^\s:]+)", re.M)
    defined = {name for path in TOP.glob("crates/*/specs/*.antt") for name in named.findall(path.read_text(encoding="utf-8"))}
    tables = re.findall(r"^\| [^|]* \| (?:functions and clauses|where|contract) \|.*\n\|-.*\n((?:\|.*\n)+)", page, re.M)
    want(len(tables) == 3, "docs/proof.md: not three tables have functions and clauses")
    sources = "\n".join(path.read_text(encoding="utf-8") for path in TOP.glob("crates/*/src/*.rt"))
    for language, block in re.findall(r"^```(\w*)\n(.*?)^```$", page, re.M | re.S):
        want(language != "" or " ".join(block.split()) in " ".join(sources.split()), f"docs/proof.md: in no crate is {block}")
    for row in "".join(tables).splitlines():
        cell = row.split(" | ")[1].rstrip(" |")
        for text in [re.sub(r"\([^()]*\)", "", cell), *re.findall(r"\(([^()]*)\)", cell)]:
            for part in text.split(";"):
                check_part(part, every, defined)


def main() -> None:
    links_and_paths()
    example_files()
    clauses_of_proof()
    counts_of_tables()
    man_page()
    python_version()
    commands_and_options()
    scripts()
    differences()
    finish(complaints)


if __name__ == "__main__":
    main()
