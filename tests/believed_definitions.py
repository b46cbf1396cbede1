#!/usr/bin/env python3
"""Tests docs/believed.py.

    tests/believed_definitions.py

The output must contain definitions below every heading, the definitions that docs/proof.md cites, and everything that a
contract names, except names from std. A file of definitions that `run` does not need must say so in its first line.
"""
import pathlib
import re
import runpy
import shutil
import subprocess
import sys
import tempfile

from lib import TOP, finish

# For each promise in docs/proof.md, the functions and laws that express it.
CALLS = {
    "2": "run read_message",
    "3": "run",
    "4": "dump_encode_dump dumped_streams_are_built_again runs_close_the_round",
    "5": "encoded_texts_are_dumped_in_one_spelling encoded_documents_are_read",
    "6": "run_ls run_dump run_encode_form",
}


# What the output for a function or law must contain. The rows cover different kinds of names in a contract: re-exports,
# private types, traits and their ghost items, types of fields, operators, imports in an impl, and definitions in a crate
# without headings.
NAMED = {
    "run": ["enum QuotedToken", "enum NoJob", "pub trait Inputs", "ghost standard_octets:", "pub trait Source", "pub trait Sink",
            "abbrev pub failures_after", "pub enum OpenFault", "pub struct Failed"],
    "Message::parse": ["pub struct Message", "impl<'a> Model for Message", "unfoldable pub sections_of", "abbrev pub ◌>>=◌"],
    "Finder::held": ["impl Model for InputBuffer", "abbrev pub held", "pub record FinderModel"],
    "Template::build": ["abbrev pub ◌>>=◌ : {E A B : Type 0} → Result A E", "pub enum TemplateFault"],
    "DumpReader::read_more": ["pub record Document "],
    "Buffered::write": ["impl<S: Sink> Sink for Buffered<S>", "ghost taken = "],
    "flush_both": ["fn flush_both<W: Sink, E: Sink>(w: &mut W, e: &mut E) -> Result<(), RunFault>"],
    "run_words": ["pub data RunsArguments"],
    "bufr_frame::write_message": ["pub fn write_message("],
    "steps_compose": ["pub fn steps_compose()", "ReadsAndPasses"],
    "Source::read": ["ghost left: "],
}
# A name that matches no function and a name that matches several, each with part of the error message.
WRONG = {"nothing_of_this_name": "no crate has a function", "held": "crates/bufr_frame/src/finder.rt"}


def run(program: pathlib.Path, calls: str) -> "subprocess.CompletedProcess[str]":
    return subprocess.run([program, *calls.split()], stdout=subprocess.PIPE, stderr=subprocess.PIPE, encoding="utf-8")


def printed(calls: str) -> str:
    """Returns the output of docs/believed.py for these functions and laws. Ends the test if docs/believed.py fails."""
    done = run(TOP / "docs/believed.py", calls)
    if done.returncode:
        finish([done.stderr])
    return done.stdout


def of_copies() -> "list[str]":
    """Tests copies of the repository: one without crates, like a release, and one in which a file re-exports a definition."""
    wrongs = []
    with tempfile.TemporaryDirectory() as folder:
        copy = pathlib.Path(folder)
        (copy / "docs").mkdir()
        program = pathlib.Path(shutil.copy(TOP / "docs/believed.py", copy / "docs"))
        done = run(program, "")
        if done.returncode != 1 or done.stderr.count("\n") != 1 or "a release has no sources" not in done.stderr:
            wrongs.append(f"without crates it says {done.stderr}")
        shutil.copytree(TOP / "crates", copy / "crates", ignore=shutil.ignore_patterns("out", "proofs", "must-fail"))
        specs = copy / "crates/bufr_frame/specs"
        (specs / "Behind.antt").write_text("-- hidden\nabbrev pub hidden : ℕ → ℕ\nhidden n = n\n", encoding="utf-8")
        (specs / "Front.antt").write_text("pub use Rattle.bufr_frame.specs.Behind.{hidden}\n", encoding="utf-8")
        sections = specs / "Sections.antt"
        text = sections.read_text(encoding="utf-8")
        for name, status in ("hidden", 0), ("absent", 1):
            new = text.replace("\nuse ", f"\nuse Rattle.bufr_frame.specs.Front.{{{name}}}\nuse ", 1)
            sections.write_text(new.replace("\nsections_of m = ", f"\nsections_of m = {name} ", 1), encoding="utf-8")
            done = run(program, "parse")
            if done.returncode != status or not re.search(rf"abbrev pub {name} |no {name} in ", done.stdout + done.stderr):
                wrongs.append(f"{name} behind another file: status {done.returncode}, {done.stderr}")
    return wrongs


def of_every_function() -> "list[str]":
    """Returns an error message for each name in a function's contract that docs/believed.py cannot find."""
    module = runpy.run_path(str(TOP / "docs/believed.py"))
    house = module["House"]()
    for call, _ in module["functions"]():
        module["reached"]([call], house)
    return sorted(house.lost)


def of_first_lines() -> "list[str]":
    """Returns an error message for each file in specs/ whose first line is wrong about whether `run` needs the file."""
    module = runpy.run_path(str(TOP / "docs/believed.py"))
    needed = {item.path for item in module["reached"]([module["contract"]("run")], module["House"]())}
    wrongs = []
    for path in sorted(TOP.glob("crates/*/specs/*.antt")):
        says = bool(re.match("-- Only (?:contracts|laws) need this file\\. ", path.read_text(encoding="utf-8")))
        if path.name not in ("Lib.antt", "Prelude.antt") and says == (path in needed):
            wrongs.append(f"{path.relative_to(TOP)}: run needs {'it' if says else 'nothing of it'}")
    return wrongs


def main() -> None:
    texts, wrongs = {promise: printed(calls) for promise, calls in CALLS.items()}, []
    rows = dict(re.findall(r"^\| \*\*(\d)\. .* \| (.*) \|$", (TOP / "docs/proof.md").read_text(encoding="utf-8"), re.M))
    for promise, text in texts.items():
        for name in re.findall(r"`(\w+)`", rows.get(promise, "`row`")):
            if not re.search(rf"^[\w ]*\bpub (?:record |data )?{name}\b", text, re.M):
                wrongs.append(f"{name} of promise {promise} is not printed")
    headings = set(runpy.run_path(str(TOP / "docs/believed.py"))["HEADINGS"])
    for heading in headings - set(re.findall(r"^== \d+\. (.*)$", "\n".join(texts.values()), re.M)):
        wrongs.append(f"{heading} has no definition")
    if headings != {*re.findall(r"^== \d+\. (.*)$", texts["3"], re.M), "Round trips", "Other definitions"}:
        wrongs.append("the contract of run has other headings")
    if not texts["3"].startswith("== The notation\n"):
        wrongs.append("the notation is not explained first")
    for law in ("data_are_read_item_by_item", "elements_have_their_rows"):
        if not re.search(rf"^pub fn {law}\b", texts["3"], re.M):
            wrongs.append(f"the law {law} is not printed")
    if "abbrev pub is_simple : App " in texts["3"]:
        wrongs.append("a definition is printed only because a field of a record has its name")
    if "-- crates/bufr_tables/specs/TableB.antt\n-- The rows of Table " not in texts["3"]:
        wrongs.append("the first lines of a file are not printed")
    for fault, report in ("TemplateFault", "template_report"), ("ItemFault", "item_report"), ("RunFault", "run_report"):
        if f"enum {fault} " in texts["3"] or f"abbrev pub {report} : {fault} " not in texts["3"]:
            wrongs.append(f"the faults of {fault} are not printed once, in {report}")
    if re.search(r"^ *(?:--|//) rule:|^\s*(?:pub |ghost )*use ", texts["3"], re.M):
        wrongs.append("a tag or an import is printed")
    if re.search(r"(?m)^module .*\n(?! )", texts["3"]) or "module _ {S C E : Type 0} (how" not in texts["3"].partition("only the laws need\n")[2]:
        wrongs.append("a module line is printed without a definition, or a definition without the line of its module")
    if re.search(r"(?m)^[\w ]*pub record Row ", texts["3"].partition("crate clap guarantees")[2]) or "List clap.Row" not in texts["3"]:
        wrongs.append("two definitions are called Row")
    if len(re.findall(r"\n\n-- `[^`]+` is (?:the same as|`[^`]+`) in section \d+\n", texts["3"])) != 1 or "`with_subcommand` (section 15).\n" not in texts["3"]:
        wrongs.append("a definition that is repeated, or a name that is defined later, is not noted")
    if texts["3"].count("\n-- (our note) ") != len(runpy.run_path(str(TOP / "docs/believed.py"))["NOTES"]):
        wrongs.append("a note on a definition of the kit is not printed")
    for calls, names in NAMED.items():
        text = printed(calls)
        wrongs += [f"{name} of {calls} is not printed" for name in names if name not in text]
    for name, message in WRONG.items():
        done = run(TOP / "docs/believed.py", name)
        if done.returncode != 1 or message not in done.stderr:
            wrongs.append(f"{name}: status {done.returncode}, {done.stderr}")
    with subprocess.Popen([TOP / "docs/believed.py"], stdout=subprocess.PIPE, stderr=subprocess.PIPE) as piped:
        piped.stdout.close()
        if message := piped.stderr.read():
            wrongs.append(f"a closed output gives {message}")
    sys.setrecursionlimit(10_000)
    finish(wrongs + of_copies() + of_every_function() + of_first_lines())


if __name__ == "__main__":
    main()
