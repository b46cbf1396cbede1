#!/usr/bin/env python3
"""Changes the definitions so that one rule is wrong, and checks that an example, a vector, a test or a law then fails.

    tests/definition_mutations.py [PROGRAM]                      try a sample of the entries
    tests/definition_mutations.py --all [PROGRAM]                try every entry, and fail if a comparison has no entry
    tests/definition_mutations.py --crate NAME | --only WORD     try the entries of a crate, or those that contain WORD
    tests/definition_mutations.py --list [--crate NAME]          try nothing, and list each comparison with its entries

The program is proved to agree with its definitions, so a rule that is wrong in both goes unnoticed unless an example that
was computed by hand covers it. The file definition_mutations/CRATE.txt lists wrong rules for a crate. Its entries are
separated by blank lines:

    # 33 groups and sequences may be open together.
    specs: Expansion.antt
    old: max_open = 32
    new: max_open = 33
    fails: example TemplateExamples.measures

The comment states the wrong rule. `specs:` names a file in the crate's specs/ (or, as CRATE/FILE, in another crate's), and
the pairs of `old:` and `new:` below it change that file. The old text must occur exactly once. Consecutive `old:` lines form
a single text, as do consecutive `new:` lines. `fails:` names what must fail:

    example MODULE.NAME    a worked example in proofs/ (or CRATE/MODULE.NAME): the checker must reject a `refl` in it
    law MODULE::NAME       a law in src/ that is only about definitions (or CRATE/MODULE::NAME): its proof must fail
    vector NAME            a case in vectors/cases.tsv, which runs a program with the same change
    test FILE::NAME        a test in bufr_tests, which runs code with the same change

An entry for a vector or a test must also make the same change in the code: `code:` names a file in the crate's src/, and the
pairs below it change that file. `order: DEFINITION` states that the change reverses two checks in a definition, if the old
and new texts do not show this. `free: FILE: NAME, NAME` lists definitions that need no entry, and ``free: FILE: `TEXT` ``
quotes a comparison that needs none; the comment above gives the reason.

How examples are tried: for each entry, a scratch copy of the crate receives two copies of every module between the changed
definition and the example, reduced to what the example needs. One copy contains the change, and the other does not. A single
check judges all entries for a crate. An entry is caught only if the checker rejects nothing in the unchanged copy and, in the
changed copy, nothing but a `refl` of the example whose two sides are different values. If the change does not compile, or
the example can no longer be computed, the entry is invalid, which is an error. The entries in controls.txt, which test this
script, state the verdicts that they must get.

What needs an entry: each comparison in a computed definition, each number in a rule that rejects input, and the order of any
two checks that can both fail, because only the first failure is reported. A comparison of sizes needs two entries: one that
moves the bound up, and one that moves it down. An entry counts for the comparison whose text it changes, and for an order
that it reverses. Propositions need no entries, because they state what is proved, and reject no input.
"""
import argparse
import collections
import csv
import functools
import hashlib
import itertools
import os
import pathlib
import re
import shutil
import signal
import subprocess
import sys
import tempfile
import time
from concurrent.futures import ThreadPoolExecutor

from lib import TOP, finish

sys.path.insert(0, str(TOP / "tests/definition_mutations"))
from antt import DECLARATION, MODULE, Bad, Block, below, blocks, crates, modules, parts_of, source, tokens  # noqa: E402
from entries import Entry, every_entry, read_entries  # noqa: E402
from sites import cover, files, listed  # noqa: E402

# ---------------------------------------------------------------- copies of the modules


class Copy:
    """Copies of the modules between the changed definitions and an example, reduced to what the example needs."""

    def __init__(self, entry: Entry) -> None:
        module, _, self.example = entry.name.rpartition(".")
        self.place = entry.of, "proofs", module
        if self.place not in modules():
            raise Bad(f"there is no crates/{entry.of}/proofs/{module}.antt")
        texts = {(crate, folder, file.removesuffix(".antt")): text for (crate, folder, file), text in entry.changed({"specs"}).items()}
        self.places = sorted(one for one in below(self.place) if below(one) & set(texts))
        if not set(texts) <= set(self.places):
            raise Bad(f"{entry.name} does not use the changed definitions")
        self.old = {place: blocks(source((*place[:2], f"{place[2]}.antt"))) for place in self.places}
        self.new = {place: blocks(texts[place]) if place in texts else self.old[place] for place in self.places}
        if not any(self.example in block.names for block in self.old[self.place]):
            raise Bad(f"crates/{entry.of}/proofs/{module}.antt has no {self.example}")
        self.needed = self.need()

    def need(self) -> dict:
        """Returns, for each module, the words in all declarations that the example needs before or after the change.

        Only declarations in the module itself and in modules that import it, directly or indirectly, are included.
        """
        needed = {place: {">>="} for place in self.places}
        needed[self.place].add(self.example)
        seen_by = {place: [needed[one] for one in self.places if one in below(place)] for place in self.places}
        left = {place: [block for block in {*self.old[place], *self.new[place]} if block.declares] for place in self.places}
        renamed = [(place, name.split(" as ")) for place in self.places for block in self.old[place] if " as " in block.text for name in block.imported() if " as " in name]
        size = 0
        while size != sum(map(len, needed.values())):
            size = sum(map(len, needed.values()))
            found = [(place, parts_of(one)) for place, (one, other) in renamed if parts_of(other) & needed[place]]
            for place, blocks_left in left.items():
                found += [(place, block.tokens) for block in blocks_left if block.names & needed[place]]
                left[place] = [block for block in blocks_left if not block.names & needed[place]]
            for place, words in found:
                for others in seen_by[place]:
                    others |= words
        return needed

    def kept(self, of: dict, place: tuple) -> set:
        """Returns the names that the reduced copy of a module exports."""
        found = set()
        for block in of[place]:
            if block.declares:
                found |= block.names if block.names & self.needed[place] else set()
            elif block.text.startswith(("pub ", "unfoldable ")):
                found |= set().union(*(parts_of(name.rpartition(" as ")[2]) for name in block.imported()))
        return found & self.needed[place]

    def imports(self, of: dict, place: tuple, block: Block) -> str:
        """Returns an import, reduced to the names that the copy of a module needs, or an empty string if it needs none."""
        head, braces, _ = block.text.partition("{")
        used, needed = MODULE.search(head), self.needed[place]
        if not braces:
            return block.text if parts_of(head.rpartition(" as ")[2]) & needed or " as " not in head else ""
        wanted = self.kept(of, used.groups()) if used and used.groups() in self.places else needed
        names = [name for name in block.imported() if parts_of(name.partition(" as ")[0]) & wanted]
        names = [name for name in names if parts_of(name.rpartition(" as ")[2]) & needed]
        return f"{head}{{{', '.join(names)}}}" if names else ""

    def texts(self, of: dict, crate: str, tag: str) -> dict:
        """Returns the text of each file in the copy, by file name. The files belong in proofs/variants/TAG of this crate."""
        made = {}
        for place in self.places:
            used = [block for block in of[place] if block.names & self.needed[place] or not block.declares]
            lines = [block.text if block.declares else self.imports(of, place, block) for block in used]
            if any(line and not re.match("(use|infix)", line) for line in lines):
                made[place] = "\n".join(filter(None, lines)) + "\n"

        def moved(one: re.Match) -> str:
            return f"Rattle.{crate}.proofs.variants.{tag}.{self.file(one.groups())}" if one.groups() in made else one[0]

        return {self.file(place): MODULE.sub(moved, text) for place, text in made.items()}

    def file(self, place: tuple) -> str:
        """Returns the name for the copy of a module. The name is short because the checker shortens long messages."""
        return f"m{self.places.index(place)}"


# ---------------------------------------------------------------- one check for many copies

ERROR = re.compile(r"^\./proofs/variants/(\w+)/(\w+)\.antt:(\d+):(\d+): error: (.*)$")


running = set()  # the processes that have not exited yet


def run(words: list, cwd: pathlib.Path, given: bytes = b"") -> tuple:
    """Runs a command in its own process group, so that `stop_all` can kill it. Returns its status, output and errors."""
    pipe = subprocess.PIPE
    with subprocess.Popen(words, cwd=cwd, stdin=pipe, stdout=pipe, stderr=pipe, start_new_session=True) as process:
        running.add(process)
        try:
            output, errors = process.communicate(given)
        finally:
            running.discard(process)
    return process.returncode, output, errors


def stop_all() -> None:
    for process in list(running):
        os.killpg(process.pid, signal.SIGKILL)


@functools.lru_cache(None)
def kit() -> pathlib.Path:
    status, output, errors = run(["rt", "doc"], TOP)
    if status:
        raise Bad(f"rt doc does not say where the toolchain is: {errors.decode()}")
    return pathlib.Path(output.decode().split()[-1]).parent


def libraries(crate: str) -> list:
    """Returns all crates that a crate depends on, directly or indirectly."""
    found = []
    for used in crates()[crate]:
        for one in [used, *(libraries(used) if used in crates() else [])]:
            if one not in found:
                found.append(one)
    return found


def scratch(room: pathlib.Path) -> pathlib.Path:
    """Copies the crates, without build output and must-fail edits. Returns the directory that contains the copy."""
    top = pathlib.Path(tempfile.mkdtemp(dir=room))
    shutil.copytree(TOP / "crates", top / "crates", symlinks=True, ignore=shutil.ignore_patterns("out", "must-fail"))
    for name in ("crates.txt", "HANDLES"):
        shutil.copy(TOP / name, top / name)
    return top


def check_words(top: pathlib.Path, crate: str, law: str) -> list:
    """Returns the command that checks one law. The command reads our own crates from source."""
    words = [kit() / "bin/rattle", "check", "--crate-name", crate, "src/lib.rt", "--only", law]
    for one in ["std", *libraries(crate)]:
        if one in crates():
            words += ["--lib", f"{one}={top}/crates/{one}/src/lib.rt"]
        else:
            words += ["--extern", f"{one}={kit()}/rlibs/{one}.rlib"]
    words += ["-L", f"dependency={kit()}/rlibs", "--antt-project", kit() / "rattle/logic/antt-project.json"]
    return [*words, "--logic-built", kit() / "logic_built", "--jobs", "1"]


def check_copies(room: pathlib.Path, crate: str, copies: dict) -> dict:
    """Checks modules in a scratch copy of a crate. `copies` maps each tag to its files and to the module that imports the
    others. Returns the errors for each tag: the file, line, column, message and source line."""
    top = scratch(room)
    folder = top / "crates" / crate
    for tag, (texts, _) in copies.items():
        place = folder / "proofs/variants" / tag
        place.mkdir(parents=True)
        for name, text in texts.items():
            (place / f"{name}.antt").write_text(text, encoding="utf-8")
        (folder / f"proofs/variants/{tag}.antt").write_text("".join(f"pub mod {name}\n" for name in texts), encoding="utf-8")
    (folder / "proofs/variants.antt").write_text("".join(f"pub mod {tag}\n" for tag in copies), encoding="utf-8")
    lib, root = folder / "proofs/Lib.antt", folder / "src/lib.rt"
    lib.write_text("pub mod variants\n" + lib.read_text(encoding="utf-8"), encoding="utf-8")
    root.write_text(re.sub(r"(?m)^(pub mod|mod) ", r"mod bent;\n\1 ", root.read_text(encoding="utf-8"), count=1), encoding="utf-8")
    (folder / "src/bent.rt").write_text(
        "//! A law whose answer imports all copies.\nghost use Rattle.std.specs.Prelude.{◌≡◌, true};\n\n"
        "/// A law whose answer imports all copies.\npub fn bent()\n    ensures { true ≡ true }\n{}\n",
        encoding="utf-8",
    )
    answers = folder / "proofs/bent/bent/Answers.antt"
    answers.parent.mkdir(parents=True)
    imports = "".join(f"use Rattle.{crate}.proofs.variants.{tag}.{name} as x{tag}\n" for tag, (_, name) in copies.items())
    answers.write_text(
        f"use Rattle.std.proofs.Common.{{refl}}\n{imports}use Rattle.{crate}.proofs.bent.bent.Goals as goal\n\n"
        "pub returns : goal.returns\nreturns c = refl\n",
        encoding="utf-8",
    )
    status, output, errors = run(check_words(top, crate, "bent::bent"), folder)
    lines = (output + errors).decode("utf-8", "replace").splitlines()
    if not any(re.match(r"only=1 proved=[01]$", line) for line in lines) or status not in (0, 1):
        raise Bad(f"the check of {crate} gave no verdict (status {status}):\n{(output + errors)[-2000:].decode(errors='replace')}")
    refused = collections.defaultdict(list)
    for at, line in enumerate(lines):
        found = ERROR.match(line)
        if found:
            tag, file, row, column, message = found.groups()
            rest = [one.strip() for one in itertools.takewhile(lambda one: one.startswith("  "), lines[at + 1 :])]
            text = copies[tag][0][file].splitlines()[int(row) - 1]
            refused[tag].append((file, int(row), int(column), " ".join([message, *rest]), text))
        elif ": error: " in line:
            raise Bad(f"the check of {crate} refused what is no copy: {line}")
    shutil.rmtree(top)
    return refused


def is_refused_refl(copy: Copy, error: tuple) -> bool:
    """Returns whether an error rejects a `refl` of the example because the two sides of its equation differ."""
    file, _, column, message, text = error
    is_unequal = "expected type" in message and "type `" in message and message.startswith(f"`{copy.example}`: ")
    return file == copy.file(copy.place) and is_unequal and text[column - 1 :].startswith("refl")


@functools.lru_cache(None)
def words_of_antt() -> tuple:
    """Returns two sets: the names of types and constructors, and the names of other definitions, including imported ones.

    Apart from our own types and constructors, names that begin with a capital letter are left out.
    """
    built, defined = {"true", "false", "zero", "suc", "pos", "negsuc", "tt", "∷", "[]", "refl"}, set()
    for crate, folder, name in modules():
        for block in blocks(source((crate, folder, f"{name}.antt"))):
            if not block.declares:
                ours = "Rattle.bufr" in block.text
                defined |= set() if ours else {part for one in block.imported() for part in parts_of(one.rpartition(" as ")[2])}
            elif DECLARATION.match(block.lines[0])[1] in ("data", "record"):
                built |= block.names
            else:
                defined |= block.names
    return frozenset(built), frozenset(name for name in defined - built if not name[:1].isupper())


DIFFER = re.compile(r"computed as far as they go, the two types .*? `(.*?)`\s+\(expected\).*? `(.*?)`\s+\(found\)")
PRINTED = re.compile(r"\[\]|[();]|[^\s(){}\[\],;]+")


def waits(word: str) -> bool:
    """Returns whether a word that the checker printed is a call that it could not compute."""
    built, defined = words_of_antt()
    name = word.rpartition(".")[2]
    is_elsewhere = "." in word and not name[:1].isupper() and name not in built
    return bool(parts_of(name) & defined) or name == "elim" or is_elsewhere


def head(side: str) -> str:
    """Returns the constructor at the head of one side of an equation, or of its first field if it has several.

    `side` is text that the checker printed. If it has no constructor at its head, the result is an empty string.
    """
    outer, depth = [], 0
    for word in PRINTED.findall(side):
        depth += (word == "(") - (word == ")")
        if word == ";" and depth == 0:
            break
        outer += [word] if depth == 0 and word != ")" else []
    if not outer or any(map(waits, outer)):
        return ""
    name = "∷" if "∷" in outer else outer[0].rpartition(".")[2]
    return name if name[:1].isupper() or name in words_of_antt()[0] else ""


def are_unequal(one: str, other: str) -> bool:
    """Returns whether two sides that differ have different constructors at their heads, or have been computed completely."""
    heads = {head(one), head(other)}
    whole = [word for word in PRINTED.findall(re.sub(r"\S+ = ", "", f"{one} {other}")) if word != ";"]
    return (len(heads) == 2 and "" not in heads) or not any(map(waits, whole))


def differs(errors: list) -> bool:
    """Returns whether one of the errors shows two different values, rather than a call that could not be computed."""
    shown = [DIFFER.search(message) for *_, message, _ in errors]
    return any(found and are_unequal(found[1], found[2]) for found in shown)


def shown(copy: Copy, error: tuple) -> str:
    """Formats an error for printing: the module, the source line and the message."""
    file, _, _, message, text = error
    return f"{'/'.join(copy.places[int(file[1:])])}: {text.strip()[:120]}: {message[:700]}"


# An equation that the checker must reject.
UNEQUAL = {"unequal": "use Rattle.std.proofs.Common.{◌≡◌, ℕ, zero, suc, refl}\n\nunequal : zero ≡ suc zero\nunequal = refl\n"}


def judge_examples(room: pathlib.Path, crate: str, entries: list) -> dict:
    """Judges all entries whose examples belong to this crate, with a single check."""
    verdicts, copies, made, tried = {}, {"unequal": (UNEQUAL, "unequal")}, {}, []
    for number, entry in enumerate(entries):
        try:
            copy = Copy(entry)
        except Bad as wrong:
            verdicts[entry] = f"invalid: {wrong}"
            continue
        tag, right = f"w{number}", copy.texts(copy.old, crate, "TAG")
        if right == copy.texts(copy.new, crate, "TAG"):
            verdicts[entry] = f"invalid: {entry.name} computes nothing by the changed definitions"
            continue
        same = repr(sorted(right.items()))
        if same not in made:
            made[same] = f"r{number}"
            copies[made[same]] = {name: text.replace(".variants.TAG.", f".variants.{made[same]}.") for name, text in right.items()}, copy.file(copy.place)
        copies[tag] = copy.texts(copy.new, crate, tag), copy.file(copy.place)
        tried.append((entry, copy, tag, made[same]))
    refused = check_copies(room, crate, copies) if tried else {"unequal": True}
    if not refused["unequal"]:
        raise Bad(f"the check of {crate} accepts that 0 is 1, so it may not have read the copies")
    for entry, copy, tag, right in tried:
        others = [error for error in refused[tag] if not is_refused_refl(copy, error)]
        if refused[right]:
            verdicts[entry] = f"invalid: the unchanged copy is refused: {shown(copy, refused[right][0])}"
        elif others:
            verdicts[entry] = f"invalid: more than the example is refused: {shown(copy, others[0])}"
        elif refused[tag] and not differs(refused[tag]):
            verdicts[entry] = f"invalid: the refusal does not show two values: {shown(copy, refused[tag][0])}"
        else:
            verdicts[entry] = "caught" if refused[tag] else "survives"
    return verdicts


# ---------------------------------------------------------------- laws, vectors and tests, one at a time


def changed_copy(room: pathlib.Path, texts: dict) -> pathlib.Path:
    top = scratch(room)
    for place, text in texts.items():
        (top / "crates" / "/".join(place)).write_text(text, encoding="utf-8")
    return top


def proves(room: pathlib.Path, entry: Entry, texts: dict) -> str:
    """Returns whether a law is proved: `yes`, `no`, or the reason why it could not be checked."""
    top = changed_copy(room, texts)
    status, output, errors = run(check_words(top, entry.of, entry.name), top / "crates" / entry.of)
    told = (output + errors).decode(errors="replace")
    shutil.rmtree(top)
    ended = re.search(r"(?m)^only=1 proved=([01])$", told)
    wrong = re.search(r"(?m)^\S*(?:specs/|\.rt:).*: error: .*$", told)
    if not ended or status not in (0, 1) or wrong:
        return wrong[0] if wrong else told[-300:]
    return "no" if status or ended[1] == "0" else "yes"


def answers(room: pathlib.Path, entry: Entry, texts: dict) -> str:
    """Returns whether a vector or a test passes on a trial build (which proves nothing): `yes`, `no`, or why it cannot run."""
    top = changed_copy(room, texts)
    told = tries_test(top, entry.name) if entry.kind == "test" else tries_vector(top, entry.name)
    shutil.rmtree(top)
    return told


def tries_test(top: pathlib.Path, name: str) -> str:
    _, output, errors = run(["rt", "try", "--test", "--", name.rpartition("::")[2]], top / "crates/bufr_tests")
    told = (output + errors).decode(errors="replace")
    found = re.search(rf"(?m)^test {re.escape(name)} \.\.\. (\w+)", told)
    return {"ok": "yes", "FAILED": "no"}.get(found[1], found[0]) if found else told[-300:]


@functools.lru_cache(None)
def vectors() -> dict:
    with open(TOP / "tests/vectors/cases.tsv", encoding="ascii", newline="") as file:
        return {case["case"]: case for case in csv.DictReader(file, delimiter="\t")}


def tries_vector(top: pathlib.Path, name: str) -> str:
    case, folder = vectors()[name], TOP / "tests/vectors"

    def content(file: str) -> bytes:
        return b"" if file == "-" else (folder / file).read_bytes()

    words = ["rt", "try"]
    for word in case["words"].split():
        if (folder / word).is_file():
            words += ["--data", f"{word}={folder / word}"]
    words += ["--", *case["words"].split()]
    status, output, errors = run(words, top / "crates/bufr", content(case["input"]))
    faults, ended, _ = errors.partition(b"checked: ended status=")
    if not ended:
        return errors[-300:].decode(errors="replace")
    if output and not output.endswith(b"\n"):
        faults = faults.removesuffix(b"\n")  # rt try adds this newline before its own line if the output does not end in one
    wanted = int(case["status"]), content(case["output"]), content(case["faults"])
    return "yes" if wanted == (status, output, faults) else "no"


def judge_alone(room: pathlib.Path, entry: Entry, known: dict) -> str:
    """Judges an entry that needs its own check or build. `known` caches which laws, vectors and tests pass unchanged."""
    if entry.kind == "vector" and entry.name not in vectors():
        return f"invalid: vectors/cases.tsv has no {entry.name}"
    passes = proves if entry.kind == "law" else answers
    same = entry.kind, entry.of, entry.name
    if same not in known:
        known[same] = passes(room, entry, {})
    if known[same] != "yes":
        return f"invalid: {entry.kind} {entry.name} does not pass without the change: {known[same]}"
    told = passes(room, entry, entry.changed({"specs", "src"}))
    return {"yes": "survives", "no": "caught"}.get(told, f"invalid: the changed text is refused: {told}")


# ---------------------------------------------------------------- choosing and judging entries

SAMPLE = 30  # entries for each crate
RUNNER = TOP / "tests/vectors/run.py"
CONTROLS = "controls", "bufr_tables"  # the list whose entries state the verdicts they must get, and the crate that they change


def sampled(entries: list) -> list:
    """Returns the controls and a sample of each crate's entries. Both contain only entries for examples.

    The sample stays the same until a definition changes.
    """
    seed = "".join(source(place) for place in files())

    def rank(entry: Entry) -> str:
        return hashlib.sha256((seed + entry.text()).encode()).hexdigest()

    found = [entry for entry in entries if entry.file == CONTROLS[0] and entry.kind == "example"]
    for crate in crates():
        of = (entry for entry in entries if entry.kind == "example" and entry.of == crate and entry not in found)
        found += sorted(of, key=rank)[:SAMPLE]
    return found


def chosen(asked: argparse.Namespace, entries: list) -> list:
    if asked.crate:
        entries = [entry for entry in entries if entry.crate == asked.crate]
    if asked.only:
        entries = [entry for entry in entries if asked.only in entry.text()]
    return entries if asked.all or asked.crate or asked.only else sampled(entries)


def judge(entries: list, jobs: int, program: str | None) -> dict:
    """Returns the verdict on each entry. If a program is given, it is used to find out which vectors pass unchanged."""
    verdicts, by_crate = {}, collections.defaultdict(list)
    for entry in entries:
        if entry.kind == "example":
            by_crate[entry.of].append(entry)
    with tempfile.TemporaryDirectory(prefix="definition-mutations-") as place, ThreadPoolExecutor(jobs) as pool:
        room, named = pathlib.Path(place), {(entry.kind, entry.of, entry.name) for entry in entries if entry.kind == "vector"}
        known = {vector: "yes" for vector in named if program and run([RUNNER, "--only", vector[2], program], TOP)[0] == 0}
        checks = [pool.submit(judge_examples, room, crate, of) for crate, of in by_crate.items()]
        others = {entry: pool.submit(judge_alone, room, entry, known) for entry in entries if entry.kind != "example"}
        try:
            for check in checks:
                verdicts.update(check.result())
            verdicts.update({entry: other.result() for entry, other in others.items()})
        except BaseException:
            pool.shutdown(wait=False, cancel_futures=True)
            stop_all()
            raise
    return verdicts


def main() -> None:
    asker = argparse.ArgumentParser(description=__doc__, formatter_class=argparse.RawDescriptionHelpFormatter)
    asker.add_argument("--all", action="store_true", help="try all entries; a comparison that has none is an error")
    asker.add_argument("--crate", metavar="NAME", help="try the entries of this crate")
    asker.add_argument("--only", metavar="WORD", help="try the entries whose text has WORD")
    asker.add_argument("--list", action="store_true", help="list what needs an entry, and try none")
    asker.add_argument("--jobs", type=int, default=2, choices=(1, 2), help="how many checks at a time")
    asker.add_argument("program", nargs="?", help="answers the vectors without a change, which saves a trial build each")
    asked = asker.parse_args()
    if asked.crate and asked.crate not in crates():
        asker.error(f"crates.txt has no {asked.crate}")
    try:
        entries = every_entry()
    except Bad as wrong:
        finish([str(wrong)])
    wrongs = cover(entries)
    missing = listed(asked.crate, False)
    if asked.list:
        print("\n".join(listed(asked.crate, True)))
        print(f"definition_mutations: {len(missing)} comparisons, numbers and orders lack an entry")
        finish(wrongs)
    wrongs += missing if asked.all else []
    if not shutil.which("rt"):
        print("definition_mutations: skipped, because rt is not on the PATH; only the lists were checked")
        finish(wrongs)
    every = [entry for entry in [*entries, *read_entries(*CONTROLS)] if entry.kind]
    tried = chosen(asked, every)
    if not tried:
        asker.error("no entry has this crate and word")
    start = time.monotonic()
    signal.signal(signal.SIGTERM, lambda number, _: sys.exit(128 + number))
    try:
        verdicts = judge(tried, asked.jobs, asked.program and os.path.abspath(asked.program))
    except (Bad, OSError) as wrong:
        finish([*wrongs, f"no verdict: {wrong}"])
    except KeyboardInterrupt:
        sys.exit(130)
    for entry in tried:
        verdict = verdicts.get(entry, "invalid: it was not tried")
        if verdict.partition(":")[0] != entry.wanted:
            passes = f": {entry.kind} {entry.of}/{entry.name} does not fail" if verdict == "survives" else ""
            wrongs.append(f"{entry}: {verdict}{passes}")
    right = sum(verdicts.get(entry, "").partition(":")[0] == entry.wanted for entry in tried)
    print(f"definition_mutations: {right} of {len(tried)} entries have their verdict ({len(every)} in all), in {time.monotonic() - start:.0f} s")
    finish(wrongs)


if __name__ == "__main__":
    main()
