#!/usr/bin/env python3
"""Compares docs/map.md with the tags in the sources, and checks that names in other pages occur in the sources.

    tests/docs_map.py [--update]        --update: update docs/map.md

Each rule in docs/map.md has a tag. In the sources, a comment `rule: TAG, TAG` precedes each item to which these rules
apply: a definition in specs/, an example in proofs/, a function, or a test in bufr_tests. A file in tests/ has such a
comment near its beginning. The last column of tests/vectors/cases.tsv lists the rules for each vector. The first two cells
of a row in docs/map.md are written by hand; the other cells are generated from the tags. The last cell says how many
comparisons, numbers and orders the rule's definitions contain, and how many of them an entry in tests/definition_mutations
changes. For each of the others, a comment in that directory must say why no entry is needed; otherwise, the rule is not
covered.

Each heading in docs/format.md and docs/texts.md must have a section in docs/map.md, and each fault in docs/texts.md a row.
The section on a crate in docs/design.md must name each of its modules. Names that look like code must occur in the code.
"""
import csv
import pathlib
import re
import sys

from lib import FAULT, TOP, finish

sys.path.insert(0, str(TOP / "tests/definition_mutations"))
from antt import Bad  # noqa: E402
from entries import every_entry  # noqa: E402
from sites import boundaries, cover  # noqa: E402

CRATES = re.findall(r"^(\w+):", (TOP / "crates.txt").read_text(encoding="utf-8"), re.M)
TESTS = "bufr_tests"  # the crate that tests all others
OF_DOCS = "DECISIONS design format proof proving texts".split()
PAGES = ["CONTRIBUTING.md", *(f"docs/{page}.md" for page in OF_DOCS)]
COLUMNS = ["definition", "function", "example", "test"]
MAP = TOP / "docs/map.md"
VECTORS = TOP / "tests/vectors/cases.tsv"
TAG = re.compile(r"^ *(?://|--|#) rule: (.+)$")
NAMED = {
    ".rt": re.compile(r"^ *(?:pub(?:\(\w+\))? )?(?:const )?fn (\w+)"),
    ".antt": re.compile(r"^ *(?:abbrev |unfoldable )?(?:pub )?(?:record |data )?([^\s:]+)"),
}
complaints = []


def complain(doc: str, line: int, text: str) -> None:
    complaints.append(f"{doc}:{line}: {text}")


def read(path: pathlib.Path) -> str:
    """Returns the text of a file, or an empty string if the file does not exist."""
    return path.read_text(encoding="utf-8") if path.is_file() else ""


# ---------------------------------------------------------------- the tags


def owner(lines: list, line: int) -> str:
    """Returns the type or trait whose `impl` or `trait` contains this line, followed by `::`, or an empty string."""
    if not lines[line].startswith(" "):
        return ""
    head = next((one for one in reversed(lines[:line]) if re.match(r"(?:pub(?:\(\w+\))? )?(?:impl|trait)\b", one)), "")
    named = re.sub(r"^.*?\b(?:impl|trait)\b(?:<[^>]*>)?", "", head)
    return re.search(r"\w+", named.rpartition(" for ")[2])[0] + "::"


def tagged(path: pathlib.Path):
    """Yields each tag in a file and the index of the line to which it applies, skipping any attributes in between."""
    tags = []
    for line, one in enumerate(read(path).splitlines()):
        found = TAG.match(one)
        if found:
            tags += found[1].split(", ")
        elif tags and not one.lstrip().startswith("#["):
            yield from ((tag, line) for tag in tags)
            tags = []


def places() -> list:
    """Returns, for each tagged place in file order, its tag, its column in docs/map.md, its crate and its name."""
    found = []
    for crate in CRATES:
        for folder in ("specs", "src", "proofs"):
            root = TOP / "crates" / crate / folder
            for path in sorted([*root.rglob("*.rt"), *root.rglob("*.antt")]):
                lines, parts = read(path).splitlines(), path.relative_to(root).with_suffix("").parts
                for tag, line in tagged(path):
                    name = NAMED[path.suffix].match(lines[line])
                    if not name:
                        complain(str(path.relative_to(TOP)), line + 1, f"the tag {tag} is above no name")
                    elif folder == "src":
                        column = "test" if crate == TESTS else "function"
                        found.append((tag, column, crate, "::".join((*parts, owner(lines, line) + name[1]))))
                    else:
                        column = "definition" if folder == "specs" else "example"
                        found.append((tag, column, crate, "/".join(parts) + f".{name[1]}"))
    for path in sorted((TOP / "tests").glob("*.*")):
        found += ((tag, "test", "", f"tests/{path.name}") for tag, _ in tagged(path))
    with open(VECTORS, encoding="ascii", newline="") as file:
        for case in csv.DictReader(file, delimiter="\t"):
            found += ((tag, "test", "", f"vector {case['case']}") for tag in case["rules"].split(", ") if tag != "-")
    return found


def bounds_of(of: list) -> tuple:
    """Returns the number of comparisons, numbers and orders in a rule's definitions, how many of these have entries, and how
    many are not covered."""
    sites = []
    for _, column, crate, name in of:
        if column == "definition":
            file, _, name = name.rpartition(".")
            sites += boundaries((crate, "specs", f"{file}.antt"), name)
    return len(sites), sum(bool(site.entries) for site in sites), sum(not site.is_covered() for site in sites)


def row(rule: str, tag: str, of: list) -> str:
    """Returns the row for a rule, generated from the places that have its tag."""
    crate = next((one[2] for column in COLUMNS for one in of if one[1] == column and one[2] not in ("", TESTS)), "-")
    cells = []
    for column in COLUMNS:
        names = [one[3] if one[2] in (crate, "", TESTS) else f"{one[2]}/{one[3]}" for one in of if one[1] == column]
        cells.append(", ".join(f"`{name}`" for name in names) or "-")
    every, bent, _ = bounds_of(of)
    cells.append(f"{bent} of {every}" if every else "-")
    return "| " + " | ".join([rule, f"`{tag}`", f"`{crate}`", *cells]) + " |"


def anchors(doc: str) -> list:
    """Returns the anchors of all headings in a document except its title."""
    heads = re.findall(r"^##+ (.*)$", read(TOP / "docs" / doc), re.M)
    return [re.sub(r"[^\w -]", "", head.lower()).replace(" ", "-") for head in heads]


def rules() -> None:
    """Generates the rows of docs/map.md, and checks that no heading, fault or tag is missing."""
    by_tag, lines, linked, known = {}, [], set(), set()
    for place in places():
        by_tag.setdefault(place[0], []).append(place)
    for line, one in enumerate(read(MAP).splitlines(), 1):
        for doc, anchor in re.findall(r"\]\((\w+\.md)#([^)]*)\)", one):
            linked.add((doc, anchor))
            if anchor not in anchors(doc):
                complain("docs/map.md", line, f"docs/{doc} has no heading #{anchor}")
        found = re.match(r"\| (.+?) \| `([\w-]+)` \| ", one)
        if found:
            if found[2] in known:
                complain("docs/map.md", line, f"another rule has the tag {found[2]}")
            if found[2] not in by_tag:
                complain("docs/map.md", line, f"nothing has the tag {found[2]}")
            known.add(found[2])
            lacking = bounds_of(by_tag.get(found[2], []))[2]
            if lacking:
                complain("docs/map.md", line, f"{found[2]} is not covered: {lacking} of its boundaries and orders have no entry in tests/definition_mutations")
            one = row(found[1], found[2], by_tag.get(found[2], []))
        lines.append(one)
    for tag in sorted(set(by_tag) - known):
        complain("docs/map.md", 1, f"no rule has the tag {tag} of {', '.join(one[3] for one in by_tag[tag])}")
    for doc in ("format.md", "texts.md"):
        for anchor in anchors(doc):
            if (doc, anchor) not in linked:
                complain("docs/map.md", 1, f"no part for docs/{doc}#{anchor}")
    made = "\n".join(lines) + "\n"
    for number in sorted(set(re.findall(FAULT, read(TOP / "docs/texts.md"), re.M)), key=int):
        if not re.search(rf"^\| fault {number}\b", made, re.M):
            complain("docs/map.md", 1, f"no row of fault {number}")
    if "--update" in sys.argv:
        MAP.write_text(made, encoding="utf-8")
    for line, (old, new) in enumerate(zip(read(MAP).splitlines(), lines), 1):
        if old != new:
            complain("docs/map.md", line, "is not as the tags have it: run tests/docs_map.py --update")


def modules(crate: str) -> set:
    """Returns the last part of the path of each module in a crate, except test modules."""
    files = (TOP / "crates" / crate / "src").rglob("*.rt")
    return {file.stem for file in files if not re.match(r"lib$|test_|(\w+_)?tests$", file.stem)}


def house() -> None:
    """Checks that the section on each crate in docs/design.md names all modules of that crate and no others. A word in the
    list below the heading counts as a module name if it is in backquotes and begins with a lower-case letter."""
    lines = read(TOP / "docs/design.md").splitlines()
    named, first, crate = {}, {}, ""
    for line, one in enumerate(lines, 1):
        if one.startswith("#"):
            crate = next((name for name in CRATES if f"`{name}`" in one), "")
            first[crate] = line
        elif crate and one.startswith("- "):
            for name in re.findall(r"`([a-z][a-z0-9_]*)`", one):
                named.setdefault(crate, {})[name] = line
    for crate in CRATES:
        told = named.get(crate, {})
        for name in sorted(modules(crate) - set(told)):
            complain("docs/design.md", first.get(crate, 1), f"{crate} has a module {name}, which is not named")
        for name in sorted(set(told) - modules(crate)):
            complain("docs/design.md", told[name], f"{crate} has no module {name}")


def words_of_code() -> set:
    files = (file for folder in ("src", "specs", "proofs") for file in (TOP / "crates").glob(f"*/{folder}/**/*"))
    words = {word for file in files for word in (*file.parts, file.stem, *re.findall(r"\w+", read(file)))}
    return words | {file.stem for folder in ("tests", "scripts") for file in (TOP / folder).iterdir()}


def pages() -> None:
    """Checks that each word in backquotes that looks like a name in the code (snake_case or CamelCase) occurs in the code.
    Text that contains a `/` is a path, which tests/docs_consistency.py checks."""
    code = words_of_code()
    for page in PAGES:
        text = read(TOP / page)
        text = re.sub(r"^```.*?^```$", lambda block: "\n" * block[0].count("\n"), text, flags=re.M | re.S)
        for line, one in enumerate(text.splitlines(), 1):
            for word in re.findall(r"\b[a-z]+_\w+|\b[A-Z][a-z]+[A-Z]\w+", " ".join(re.findall(r"`([^`/]+)`", one))):
                if word not in code:
                    complain(page, line, f"{word} is nowhere in the crates")


try:
    cover(every_entry())
except Bad as wrong:
    finish([str(wrong)])
rules()
house()
pages()
finish(complaints)
