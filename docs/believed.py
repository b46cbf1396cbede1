#!/usr/bin/env python3
"""Prints what you have to believe about `run`: its contract, and every definition that the contract uses, in reading order.

    docs/believed.py [NAME..]        NAME is a function or a law of a crate (default: `run`), such as `run` or `held`; if
                                     several have the same name, write `Finder::held`, `finder::held` or `bufr_frame::held`

The output begins with an explanation of the notation. The contracts come next, followed by the definitions under headings:
first those of the format, then those of how a run uses its devices, and last what the kit's crates csv and clap guarantee.
Most definitions come after those that they use. The name of each file of definitions is followed by its first lines, and by
the names from later sections that these definitions use. A law that justifies a file is named after the file, and printed at
the end, after the definitions that only the laws need. Types and traits in a signature are printed with their ghost items.
Imports, tags and derives are left out. An enum of faults is also left out if its report, which lists the number and the text
of each fault, is printed. The report is printed before the first definition that names a fault of the enum. If two
definitions have the same name, that of a kit's crate is printed with the crate's name, as in `clap.Row`. A definition that
repeats one of an earlier section word for word is replaced by a line that refers to the earlier one. Some definitions of the
kit are printed with a note of ours.

Names from std, and names that the checker itself derives from a contract (specs.contracts), are not followed. If any other
imported name is not found, believed.py prints an error instead and exits with status 1. The numbers of definitions, lines
and files are printed on standard error.
"""
import functools
import itertools
import pathlib
import re
import signal
import subprocess
import sys
import textwrap

TOP = pathlib.Path(__file__).resolve().parent.parent
HEADINGS = {
    "Bits and decimals": "bits: Bits decimal Decimal",
    "Messages in a stream": "frame: fault Octets Numbers finder Scan",
    "The sections of a message": "frame: section1 Section1 Sections",
    "Tables B and D": "tables: fxy Fxy fault FaultNumber Records table_b TableB TableD",
    "Expanding a descriptor list": "tables: Tree Expansion",
    "Fields and operators": "walk: spec fault.DataFault Content Rules",
    "Reading the data of a message": "walk: fault walker Course Reading Pass",
    "The lines of a dump": "frame: Section1.greatest Section1.values_of Section1.greatest_values; fill: Draft.DraftValue; text: line Line",
    "Writing a listing and a dump": "fill: RoundTrip; text: Dump",
    "Building a message from a dump":
        "fill: Draft.Draft Draft.draft Draft.DraftEntry; text: fault document Documents Reader; fill: fault Draft Encoding;"
        " frame: Section1.octets_3 Section1.octets_4 Layout; text: encode Encoding",
    "Fault lines, and the pieces of output that a run writes": "cli: FaultLine Pieces",
    "Round trips": "text: Spelling RoundTrip; cli: RoundTrip laws",
    "The command line": "cli: job Line",
    "How a run reads and writes (relations between device states before and after)":
        "bits: Device device Script script; frame: Input; text: Writing; cli: outcome Running Ending Program program",
    "What the kit's crate csv guarantees about the records of a table": "csv: parser Machine Records Reading",
    "What the kit's crate clap guarantees about a command line":
        "clap: error/kind builder/action builder/possible_value builder/range builder/value_parser parser/matches"
        " Lexer Values ValueTests Facts Matches Walk Takes Kinds Simple Faults",
    "Definitions that only the laws need": "walk: KnownRows",
    "Other definitions": "",
}
PRIMER = """\
== The notation

`f : A → B` gives the type of f. Equations follow, and the first one that matches applies. `f x y` applies f to x and y.
Every definition has a value for all arguments, even for arguments that never occur. `abbrev`, `unfoldable` and `rec` matter
only to the checker, and `infixl` sets a precedence. In a block `module _ (how : T) where`, every indented definition also
takes the argument `how`. A `record` has named fields, and `record s { x = 1 }` is s with 1 in the field x. A `data` type has
the constructors that are listed below it. A `Bool` is computed. A `Type 0` is a type or a statement: `×` means "and" or a
pair (its parts are `.0` and `.1`), `⊎` "or", `→` "implies" or a function, `≡` "equals", `¬` "not", `(x : A) →` "for each x",
and `(x : A) ×` "for some x". `Unit` and `⊤` are always true, and `⊥` never. Arguments in braces, as in `{X = T}`, can be left
out. `λ x. e` is a function, `x ∷ xs` is the list xs with x in front, and `++` joins lists. In `do`, a line `x ← e` stops at
the first fault or `None`, as `>>=` does.

A number in ℕ is `zero` or `suc n` (n + 1), and one in ℤ is `pos n` (n) or `negsuc n` (-n - 1). In ℕ, `m - n` is 0 if n is
greater than m, `/` rounds down, and `%` is the remainder. A string is a list of octets: 10 is a line feed, 32 a space, 34 `"`,
35 `#`, 45 `-`, 46 `.`, and 92 `\\`; 48 to 57 are the digits.

A word before a constructor, as in `data_fault.DataEnd`, stands for its type (`DataFault`), since several types have
constructors of the same name. Most types of faults are not printed. Instead, a report lists the number and the text of each
fault of a type: `cause_report` lists those of `Cause`. If the kit's crates csv and clap define a name that is also defined
here, the name of the crate comes before it, as in `clap.Row`.

Rust types and traits are printed, too. Their `ghost` items exist only in proofs. A `Model` defines the value to which clauses
refer instead of the Rust value, and `source.Ghosts R` contains the ghost items that the type R has as a `Source`. A `Bor` is
a reference. `x.now` is the value behind a reference x, and `x.old` and `x.new` are that value before and after a call.
`x.entry` is the argument x as it was passed. `W.Sink` stands for the ghost items of the type W as a `Sink`, and
`Self.File.left` for one of those of an associated type. In
examples, `assert_eq!(rt; ..)` is checked when the examples run.

What is known about the octets of a device is a list, or `None` if nothing is known. The following relations describe what is
known before and after a call. If nothing is known before the call, they always hold:
  `Appends old new octets`     new is old, followed by these octets
  `Consumes old new octets`    old is these octets, followed by new
  `Keeps old new`              new is old
  `IsAtEnd new`                no octet is left
`ReadConsumes` and `WriteAppends` mean `Consumes` and `Appends` for a call that returns a count n, where the octets are the
first n of its buffer, and `Keeps` for a call that fails. `ReadConsumes` also means that n is 0 only at the end or if the
buffer is empty. `IfSome`, `IfOk` and `IfErr` apply a statement to the value in an option or a result, if there is one.

Names that are not defined below come from std (rattle/std and rattle/core in the kit, and rattle/ANTT.md), such as:
  `codes "ab"`, `decimal n`                    the octets of a string; those of n in decimal digits
  `digits_value 10 digits`                     the number that these octets, which are digits, represent
  `nat_abs z`, `unsigned_abs z`                z without its sign, in ℕ
  `get_or xs i d`, `slice_index xs i`          the element at index i, from 0; past the end, d or 0
  `slice_range xs a b`                         the elements at the indices from a up to, but not including, b
  `slice_get xs i`                             the element at index i, if there is one
  `take_while p xs`                            the first elements, up to the one before the first that fails the test p
  `before_first p xs`, `after_first p xs`      what comes before or after the first element that passes p; all or nothing if none
  `position p xs`                              the index of that element, from 0, if there is one
  `position_from p k xs`                       k more than that index
  `prefix_len p xs`, `position_or_len p xs`    how many of the first elements pass p; how many come before one that does
  `unwrap_or o d`, `option_map_or f o d`       the value in the option o, or f of that value; d if o is `None`
  `option_and_then f o`                        f of the value in o, where f returns an option; `None` if o is `None`
  `option_zip a b`                             the pair of the values in a and b; `None` if one of them is `None`
  `ok_or o e`                                  `Ok` with the value in o; `Err e` if o is `None`
  `result_map_both f g r`                      `Ok` of f of the value in r, or `Err` of g of its fault
  `list_all p xs`, `count_by p xs`             whether all elements pass the test p; how many do
  `find p xs`                                  the first element that passes p, if there is one
  `concat xs`, `flat_map f xs`                 the lists in xs joined; the lists that f gives for the elements of xs joined
  `pointwise p xs ys`                          whether the lists are equally long and p holds for each pair of elements
  `from_bool b`                                1 for true, 0 for false
  `starts_with_minus xs`                       whether a text begins with `-`

Names that are defined in later sections are listed after the first lines of a file. These lines cite the part of FM 94 BUFR
(WMO-No. 306, Volume I.2) that the file defines. Other rules are marked as our choice, or as not part of FM 94 BUFR.
"""
# The laws that justify definitions, by the file that contains the definitions.
LAWS = {
    "walk/specs/Rules.antt": ["elements_have_their_rows"],
    "walk/specs/Pass.antt": ["data_are_read_item_by_item"],
}
# Our notes on definitions of the kit, by crate and name. A note in REPLACED is printed instead of the definition's own comment,
# which describes another definition, or refers to one that is not printed.
REPLACED = [("clap", "accepts"), ("clap", "unwrap_or_range")]
NOTES = {
    ("csv", "step"): 'What comes after a closing quote belongs to the field: `"a"b` is ab.',
    ("csv", "next_record"): "The arguments are the configuration, the state, the fields so far, the field at hand, and the text.",
    ("csv", "records_from"): "`length xs + 1` records are enough, since each one uses at least one byte.",
    ("clap", "accepts"): "Whether a parser accepts a text. `ignore_case` only affects values that are listed.",
    ("clap", "unwrap_or_range"): "The number of values of an argument: one, if it is not set.",
    ("clap", "check_kinds"): "`wants_help`: nothing was given, although help is shown then. `wants_subcommand` and `wants_argument`: a"
        " subcommand, or an argument, is required but missing.",
    ("clap", "Rule"): "`value_names` is their number, and `missing` the values of an option that is given without one. `is_simple` and"
        " `is_free` are false if a setting changes how words are read, or relates the argument to others.",
    ("clap", "Held"): "In the definitions printed here, `skip` is always 0.",
    ("clap", "started"): "What is pending: an argument and its values so far, or else the argument id without values.",
    ("clap", "bundle_step"): "One step of `bundle_met` (below), at the character x. `next` continues with the flags after it.",
    ("clap", "after_flag"): "The last case is a flag that is refused, which `fault_of` reports.",
    ("clap", "with_leaf_noted"): "A command without subcommands gets no subcommand `help`.",
    ("clap", "attached_value"): "`-B=` has an empty value, and `-B` has none.",
    ("clap", "Shape"): "`is_leaf`: it has no subcommands. `is_built`: the arguments that `built` adds are there.",
    ("clap", "repeat_fault"): "`again`, here and below, is `args_override_self`: whether an argument may be given again.",
    ("clap", "level_fault"): "The first fault is that of the words, then `below` (of the subcommand), of the values of the last option, of the"
        " defaults, and of what is missing.",
}
HEAD = re.compile(r"^ {0,2}(?:abbrev |unfoldable |rec )*(?:pub )?(?:record |data )?([^\s:(){}]+) *(?:\([^:]*|\{[^:]*)?:(?: |$)")
USE = re.compile(r"^\s*(?:unfoldable |ghost |pub )*use Rattle\.(?!std\.)(\w+)\.specs\.(?!contracts\.)([\w.]+?)(?:\.\{([^}]*)\}| as ([\w-]+));?$")
RUST_USE = re.compile(r"^use (crate|super|\w+)::(?:\w+::)*(?:\{([^}]*)\}|(\w+));", re.M)
VISIBLE = r"(?:pub(?:\(\w+\))? )?"
BESIDE = re.compile(r"\s*(?:(?:--|//) rule: |#\[(?:derive|error)|ghost use )")
TOKEN = re.compile(r"[^\s()\[\]{};,:]+")


class Item:
    """A definition, a declared type or a function: its file, line number, name and text, the names in its scope, and the line
    `module _ (..) where` of the block that it is in, if any."""

    def __init__(self, path, line, name, lines, scope, module=None):
        self.path, self.line, self.name, self.lines, self.scope, self.module = path, line, name, lines, scope, module

    def code(self):
        """Returns the text without comments or attributes."""
        return "\n".join(one for one in self.lines if not re.match(r"\s*(?:--|//|#\[)", one))


@functools.cache
def kit():
    """Returns the directory of the kit's crates."""
    try:
        page = subprocess.run(["rt", "doc"], stdout=subprocess.PIPE, text=True, check=True).stdout.strip()
    except (OSError, subprocess.CalledProcessError) as fault:
        sys.exit(f"{sys.argv[0]}: cannot find the kit, whose crates contain some of the definitions: {fault}")
    return pathlib.Path(page).parent / "rattle"


@functools.cache
def sources(crate):
    """Returns the directory of a crate in this repository or in the kit."""
    own = TOP / "crates" / crate
    return own if own.is_dir() else kit() / crate


@functools.cache
def read(path):
    return path.read_text(encoding="utf-8").split("\n")


def comment_before(lines, at):
    """Returns the index at which the comments, attributes and operator precedences directly before the line `at` begin."""
    while at and re.match(r"\s*(?:--(?! ----)|//(?!!)|#\[|infix)", lines[at - 1]):
        at -= 1
    return at


def own_lines(lines):
    """Returns the lines of a definition, without blank lines and without the heading or module line of the next definitions."""
    text = re.sub(r"(?m)^(?:-- ----.*\n(?:--.*\n)*|(?:--.*\n)+(?=\n|\Z)|module .*\n)", "", "\n".join(lines) + "\n")
    return [one for one in text.split("\n") if one.strip()]


def block(lines, at):
    """Returns the index of the line after the item that begins at the line `at` of a file in src/."""
    indent = re.match(" *", lines[at])[0]
    return next(n for n in range(at, len(lines)) if re.match(indent + r"(?:\}|\S.*(?:;|\{\})$)", lines[n])) + 1


def imported(lines):
    """Returns the scope that `use` lines create: where each name is defined, and which module each alias stands for."""
    scope = {}
    for crate, module, names, alias in (use.groups() for use in map(USE.match, lines) if use):
        scope.update({name: (crate, module, name) for name in (re.split(r",\s*", names) if names else [])})
        if alias:
            scope[alias] = crate, module, None
    return scope


def ghost_scope(lines, own):
    """Returns the scope of the clauses of an item: what the file and the item itself import."""
    return imported([line for line in lines if line.startswith("ghost use")] + [line for line in own if "ghost use" in line])


class House:
    """The definitions that have been read, by file, and the types that have been read, by file and name."""

    def __init__(self):
        self.files, self.lost = {}, set()

    def specs(self, path):
        """Returns the definitions in a file of specs/, by name. The name of a constructor refers to its `data` type."""
        if path in self.files:
            return self.files[path]
        items = self.files[path] = {}
        lines, scope, heads = read(path), {}, []
        module = None
        for at, line in enumerate(lines):
            if line[:1].strip():
                module = line if line.startswith("module ") else None
            found = HEAD.match(line)
            before = re.sub(r"◌\S+◌", "", line.split(":")[0])
            if found and (module or line[0] != " ") and not re.match("use |--|module ", line) and "=" not in before:
                heads.append((comment_before(lines, at), at, found[1], module if line[0] == " " else None))
        for (begin, at, name, module), after in zip(heads, [head[0] for head in heads[1:]] + [len(lines)]):
            if name in items:
                items[name].lines += lines[begin:after]
                continue
            items[name] = Item(path, at + 1, name, own_lines(lines[begin:after]), scope, module)
            if re.match(r" *(?:pub )?data ", lines[at]):
                for form in re.findall(r"(?m)^ +(\S+) : ", "\n".join(lines[at + 1 : after])):
                    items.setdefault(form, items[name])
        scope.update(imported(lines), **items)
        return items

    @functools.cache
    def find(self, crate, module, name):
        """Returns the definition or type that has this name in a module of specs."""
        declared = re.match(r"declared\.([\w.]+?)(?:\.The\w+)?$", module)
        if declared:
            return self.declared(crate, declared[1].split("."))
        path = sources(crate) / "specs" / (module.replace(".", "/") + ".antt")
        if not path.is_file():
            return None
        passed = imported(line for line in read(path) if re.match("(?:unfoldable )?pub use ", line))
        return self.find(*passed[name]) if name in passed else self.specs(path).get(name)

    def declared(self, crate, parts):
        """Returns a struct, enum or trait of src/, with the ghost items of its impls, through which clauses refer to it."""
        path = sources(crate) / "src" / ("/".join(parts[:-1]) + ".rt")
        key = path, parts[-1]
        if key in self.files or not path.is_file():
            return self.files.get(key)
        lines = read(path)
        at = next((n for n, one in enumerate(lines) if re.match(rf"{VISIBLE}(?:struct|enum|trait) {parts[-1]}\b", one)), None)
        if at is None:
            return None
        text = lines[comment_before(lines, at) : block(lines, at)]
        for n, one in enumerate(lines):
            ghosts = []
            if re.match(rf"impl\b(?!.*\bFrom<).*\b{parts[-1]}(?:<.*>)? \{{$", one):
                starts = [m for m in range(n, block(lines, n)) if re.match(r"    ghost (?!use )", lines[m])]
                ghosts = [line for m in starts for line in lines[m : ghost_end(lines, m)]]
            if ghosts:
                text += [one, *(line for line in lines[n : block(lines, n)] if line.startswith("    ghost use ")), *ghosts, "}"]
        self.files[key] = Item(path, at + 1, parts[-1], text, ghost_scope(lines, text))
        return self.files[key]

    @functools.cache
    def rust(self, path, name):
        """Returns the struct, enum or trait that has this name in a file of src/."""
        folder = next(folder for folder in path.parents if folder.name == "src")
        found = self.declared(folder.parent.name, [*path.relative_to(folder).with_suffix("").parts, name])
        if found:
            return found
        for use in RUST_USE.finditer("\n".join(read(path))):
            first, names, one = use.groups()
            if name not in re.split(r"[,\s]+", names or one) or first in ("std", "core"):
                continue
            is_inside = first in ("crate", "super") or (folder / f"{first}.rt").is_file()
            inside = folder if is_inside else sources(first) / "src"
            for file in sorted(inside.rglob("*.rt")):
                found = self.declared(inside.parent.name, [*file.relative_to(inside).with_suffix("").parts, name])
                if found:
                    return found
        return None

    def named(self, item, token):
        """Returns the item that a token in the text of an item names, if any."""
        first, _, rest = token.partition(".")
        place = item.scope.get(first) or item.scope.get(f"◌{'>>=' if first == 'do' else first}◌")
        if isinstance(place, Item) or not place:
            return place
        crate, module, name = place
        found = self.find(crate, module, name or rest.partition(".")[0]) if name or rest else None
        if not found and (name or rest[:1].isupper()):
            self.lost.add(f"{item.path}: no {token} in {crate}.specs.{module}")
        return found

    @functools.cache
    def uses(self, item):
        """Returns the items that an item names."""
        text = re.sub(r"(?m)(?:^|[{;])\s*\w+ = ", " ", f"{item.code()}\n{item.module or ''}")  # without names of fields
        items = [found for token in TOKEN.findall(text) for found in [self.named(item, token)] if found]
        if item.path.suffix == ".rt":
            items += filter(None, (self.rust(item.path, name) for name in re.findall(r"\b[A-Z]\w*", text)))
        return items


def ghost_end(lines, at):
    """Returns the index of the line after a ghost item of an impl."""
    return next(n for n in range(at, len(lines)) if lines[n].endswith(";") and (n == at or lines[n].endswith("};"))) + 1


def signature(lines, at):
    """Returns the lines of a function from its name to its last clause."""
    indent, is_clause = re.match(" *", lines[at])[0], False
    for n in range(at, len(lines)):
        is_clause |= bool(re.match(r"\s*(?:ensures|requires)\b", lines[n]))
        if re.match(indent + r"\{", lines[n]):
            return lines[at:n]
        if lines[n].endswith("{") and not is_clause:
            return [*lines[at:n], lines[n][:-2]]
        if lines[n].endswith(";") and "\n".join(lines[at : n + 1]).count("{") == "\n".join(lines[at : n + 1]).count("}"):
            return lines[at : n + 1]
    raise ValueError(lines[at])


@functools.cache
def functions():
    """Returns the functions that have clauses or belong to a trait, each with the words that can precede `::`."""
    found = []
    for path in sorted((TOP / "crates").glob("*/src/**/*.rt")):
        lines, around = read(path), 0
        for at, line in enumerate(lines):
            if line[:1].strip():
                around = at
            name = re.match(rf"(?: {{4}})?{VISIBLE}(?:const )?fn (\w+)", line)
            if not name:
                continue
            inside, clauses = [lines[around]] if around != at else [], signature(lines, at)
            if " for " in "".join(inside) or re.search(r"(?m)^ *(?:ensures|requires)\b", "\n".join(clauses)):
                text = inside + lines[comment_before(lines, at) : at] + clauses
                owners = re.sub(r"<.*?>|.* for ", "", "".join(inside)).split()
                call = Item(path, at + 1, name[1], text, ghost_scope(lines, lines[around:at]))
                found.append((call, [path.stem, path.parent.parent.name, *owners]))
    return found


def contract(name):
    """Returns the contract of a function or law, as an item. Without `::`, a free function takes precedence."""
    before, _, last = name.rpartition("::")
    found = [call for call, owners in functions() if call.name == last and (not before or before in owners)]
    free = [call for call in found if not before and re.match(VISIBLE + "(?:const )?fn ", call.code())]
    found = free or found
    if not found:
        sys.exit(f"{sys.argv[0]}: no crate has a function {name} with a contract")
    if len(found) > 1:
        places = "\n".join(f"  {call.path.relative_to(TOP)}:{call.line}: {call.code().splitlines()[0]}" for call in found)
        sys.exit(f"{sys.argv[0]}: several functions are called {name}; put the type, the file or the crate before the name:\n{places}")
    return found[0]


def reach(item, seen, house):
    """Adds an item, and all items that it uses directly or indirectly, to a list."""
    if item in seen:
        return
    seen.append(item)
    for used in house.uses(item):
        reach(used, seen, house)


def headed():
    """Returns a dictionary that gives the number of the heading, and the position below it, of each file (by path) and of
    each definition that has a heading of its own (by path and name)."""
    order = {}
    for number, files in enumerate(HEADINGS.values()):
        for part in filter(None, files.split("; ")):
            crate, names = part.split(": ")
            for name in names.split():
                file, _, one = name.partition(".")
                folder, ending = ("specs", "antt") if file.rpartition("/")[2][0].isupper() else ("src", "rt")
                path = sources(crate if crate in ("csv", "clap") else f"bufr_{crate}") / f"{folder}/{file}.{ending}"
                order[(path, one) if one else path] = number, len(order)
    return order


def about(path):
    """Returns the first lines of a file of specs/. They say what it defines, and cite FM 94 or mark the rules as our own."""
    first = re.match(r"(?:--.*\n)*", "\n".join(read(path)))[0]
    return [line for line in re.sub(r"\s*(?:--)? ?Cited by [a-z ]+\.", "", first).split("\n") if line] if path.suffix == ".antt" else []


def text(item):
    """Returns the lines of a definition, without those that do not affect its meaning."""
    return "\n".join(line for line in item.lines if not BESIDE.match(line))


def reached(calls, house):
    """Returns the definitions that calls use, directly or indirectly, without the calls themselves."""
    seen = []
    for call in calls:
        reach(call, seen, house)
    return [item for item in seen if item not in calls]


def reported(items):
    """Returns the report of each enum of faults that has one: an item that lists each fault with its number and text."""
    report = re.compile(r": (\w+) → ℕ × List \(List ℕ\)$")
    reports = {found[1]: item for item in items for found in [report.search(item.code().split("\n")[0])] if found}
    return {item: reports[item.name] for item in items if item.path.suffix == ".rt" and item.name in reports}


def put_reports_first(enums, key, house):
    """Changes the sorting keys so that each report comes before the first definition that names a fault of its enum."""
    for enum, report in enums.items():
        users = [item for item in key if item is not report and item.path.suffix == ".antt" and enum in house.uses(item)]
        first = min(users, key=key.get, default=report)
        if key[first] < key[report]:
            number, order, path, *_ = key[first]
            moved = []
            reach(report, moved, house)
            for item in moved:
                if item.path == report.path and key[first] < key[item]:
                    at = (path, first.line, 0) if item.path == first.path else ("",)
                    key[item] = (number, order, *at, item.line)


def is_own(item):
    """Whether an item belongs to this repository, and not to the kit."""
    return TOP in item.path.parents


def crate_of(item):
    """Returns the name of the crate that contains an item."""
    return next(folder for folder in item.path.parents if folder.name in ("specs", "src")).parent.name


def comment(sentence):
    """Returns a sentence as comment lines."""
    return textwrap.wrap(sentence, 100, initial_indent="-- ", subsequent_indent="-- ", break_on_hyphens=False)


class Printer:
    """Prints items, and counts their lines."""

    def __init__(self, house, items):
        self.house, self.sections, self.lines, self.codes = house, {}, {}, {}
        names = [item.name for item in items]
        self.qualified = {item for item in items if not is_own(item) and names.count(item.name) > 1}

    def name(self, item):
        """Returns the name of an item. If it is not the only one of this name, the name of the kit's crate comes first."""
        return f"{crate_of(item)}.{item.name}" if item in self.qualified else item.name

    def text(self, item):
        """Returns the text of an item, in which some names have the name of a crate before them."""
        def renamed(token):
            found = self.house.named(item, token[0])
            return token[0].replace(found.name, self.name(found), 1) if found in self.qualified else token[0]

        lines = text(item).split("\n")
        return "\n".join(one if re.match(r"\s*(?:--|//)", one) else TOKEN.sub(renamed, one) for one in lines)

    def put(self, item, section, module=None):
        """Prints an item of a section. `module` is the module line that was printed last in the same file, if any."""
        shown, uses = self.text(item), set(self.house.uses(item)) - {item}
        code = re.sub(r"(?m)^\s*(?:--|//).*\n|\b(?:clap|csv)\.(?=[a-z_\d]+\b)", "", shown)
        first, used, name = self.codes.setdefault(code, (section, uses, self.name(item)))
        if used == uses and section != first:
            shown = f"-- `{self.name(item)}` is {'the same as' if name == self.name(item) else f'`{name}`'} in section {first}"
        noted = crate_of(item), item.name
        if noted in REPLACED:
            shown = re.sub(r"^(?:--.*\n)*", "", shown)
        if noted in NOTES:
            shown = "\n".join([*comment(f"(our note) {NOTES[noted]}"), shown])
        if item.module and item.module != module:
            shown = f"{item.module}\n{shown}"
        print(f"\n{shown}")
        self.lines[item] = shown.count("\n") + 1

    def later(self, items, section):
        """Returns comment lines that list the items from later sections that items of this section use."""
        uses = {used for item in items for used in self.house.uses(item) if self.sections.get(used, 0) > section}
        numbers = sorted({self.sections[used] for used in uses})
        lists = [", ".join(f"`{self.name(used)}`" for used in sorted(uses, key=self.name) if self.sections[used] == number) for number in numbers]
        note = "; ".join(f"{names} (section {number})" for number, names in zip(numbers, lists))
        return comment(f"Defined later: {note}.") if note else []

    def size(self, items):
        """Returns a phrase that gives the number of definitions and the number of lines."""
        return f"{len(items)} definitions, {sum(self.lines[item] for item in items)} lines"


def main():
    if not (TOP / "crates").is_dir():
        sys.exit(f"{sys.argv[0]}: a release has no sources; run this script in a clone, at the commit that BUILD names")
    sys.setrecursionlimit(10_000)
    house, order, titles = House(), headed(), list(HEADINGS)
    calls = [contract(call) for call in sys.argv[1:] or ["run"]]
    definitions = reached(calls, house)
    enums = reported(definitions)
    definitions = [item for item in definitions if item not in enums]
    paths = {item.path for item in definitions}
    laws = {TOP / "crates" / f"bufr_{file}": [contract(law) for law in names] for file, names in LAWS.items()}
    laws = {path: [law for law in ones if law.name not in [call.name for call in calls]] for path, ones in laws.items() if path in paths}
    justifying = sum(laws.values(), [])
    beside = [item for item in reached(justifying, house) if item not in [*definitions, *calls, *enums]]
    if house.lost:
        sys.exit("\n".join(f"{sys.argv[0]}: {one}" for one in sorted(house.lost)))
    other = len(titles) - 1
    positions = {item: order.get((item.path, item.name), order.get(item.path, (other, 0))) for item in [*definitions, *beside]}
    key = {item: (number, (number, at), str(item.path), item.line, 1) for item, (number, at) in positions.items()}
    key |= {item: (other - 1, *key[item][1:]) for item in beside}
    put_reports_first(enums, key, house)
    sorted_items = sorted(key, key=key.get)
    printer = Printer(house, sorted_items)
    numbers = sorted({key[item][0] for item in sorted_items})
    printer.sections = {item: numbers.index(key[item][0]) + 1 for item in sorted_items}
    print(PRIMER)
    for nth, call in enumerate(calls):
        print("\n" * bool(nth) + f"== The contract of {call.name}")
        printer.put(call, 0)
    begun = set()
    for number, inside in itertools.groupby(sorted_items, lambda item: key[item][0]):
        section = numbers.index(number) + 1
        print(f"\n== {section}. {titles[number]}")
        for path, items in itertools.groupby(inside, lambda item: item.path):
            items, module, is_new = list(items), None, path not in begun
            file = f"{path.relative_to(TOP if is_own(items[0]) else kit())}{'' if is_new else ' (continued)'}"
            print(f"\n-- {file}", *(about(path) if is_new else []), *printer.later(items, section), sep="\n")
            begun.add(path)
            for item in items:
                printer.put(item, section, module)
                module = item.module
            for law in laws.get(path, []) if is_new else []:
                print(f"\n-- The law `{law.name}`, which is printed at the end, justifies these definitions.")
    for path, ones in laws.items():
        for law in ones:
            print(f"\n-- a proved law that justifies the definitions of {path.relative_to(TOP)}", end="")
            printer.put(law, 0)
    own = calls + [item for item in definitions if is_own(item)]
    print(f"{printer.size(own)}, {len({item.path for item in own})} files", file=sys.stderr)
    print(f"from the kit's crates: {printer.size([item for item in definitions if item not in own])}", file=sys.stderr)
    print(f"laws that justify them, and definitions that only these laws need: {printer.size(justifying + beside)}", file=sys.stderr)


if __name__ == "__main__":
    # Exit without a traceback if the output is closed early, as in `docs/believed.py | head`.
    signal.signal(signal.SIGPIPE, signal.SIG_DFL)
    main()
