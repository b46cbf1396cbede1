#!/usr/bin/env python3
"""Checks that no public type or definition has the same name as one in another crate.

    tests/ambiguous_names.py

The test reads each `pub struct`, `pub enum` and `pub trait` in src/, and each public definition in specs/. Within a crate,
a type and its definition may share a name. No name may end in `So`, because such a name does not say what holds.
"""
import collections
import re
import sys

from lib import TOP

# These have the same meaning in every crate: they pass a result to the next step.
SHARED = {"and_then", "◌>>=◌"}

TYPE = re.compile(r"^pub (?:struct|enum|trait) (\w+)", re.M)
DEFINITION = re.compile(r"^(?:abbrev |unfoldable |rec )*pub (?:abbrev |data |record |unfoldable |rec )*([^\s:]+)", re.M)


def names() -> dict:
    """Returns the crates and files in which each name is defined."""
    found = collections.defaultdict(lambda: collections.defaultdict(set))
    for path in sorted(TOP.glob("crates/*/src/**/*.rt")) + sorted(TOP.glob("crates/*/specs/*.antt")):
        pattern = TYPE if path.suffix == ".rt" else DEFINITION
        crate, file = path.relative_to(TOP).parts[1], str(path.relative_to(TOP))
        for name in pattern.findall(path.read_text()):
            if crate != "bufr_tests" and name not in ("mod", "use"):
                found[name][crate].add(file)
    return found


wrong = []
for name, crates in names().items():
    if len(crates) > 1 and name not in SHARED:
        wrong.append(f"{name} is defined in {', '.join(sorted(set().union(*crates.values())))}")
    if re.search(r"[a-z]So$", name):
        wrong.append(f"{name} does not say what holds")
for line in wrong:
    print(f"ambiguous_names: {line}", file=sys.stderr)
sys.exit(bool(wrong))
