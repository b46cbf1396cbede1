"""Reads the imports and declarations of a proof file, and determines which of the declarations are lemmas."""
import re
from typing import NamedTuple

from antt import parts_of, tokens

NAME = r"[^\s(){}\[\],;.:=`]+"
SIGNATURE = re.compile(rf"( *)((?:(?:pub|abbrev|unfoldable|rec) )*)({NAME})(?: \{{[^}}]*\}})? :(?: |$)")
OTHER = re.compile(r"(?:(?:pub|unfoldable) )*(record|data|ruleset) ([^\s({:]+)")
# A declaration whose type ends in one of these is a definition, not a lemma.
DATA = {"Type", "ℕ", "ℤ", "Bool", "List", "Option", "Result", "Char", "String"}


class Declaration(NamedTuple):
    """Lines `first` to `last` - 1, which declare `names`. The clauses of a lemma begin at line `clauses`."""

    names: list[str]
    first: int
    clauses: int
    last: int
    block: int  # the first line of the `module _` that contains the declaration, or -1
    is_lemma: bool

    @property
    def name(self) -> str:
        return self.names[0]


class ProofFile:
    """The imports and declarations of a proof file, in order."""

    def __init__(self, text: str) -> None:
        self.lines = text.split("\n")
        self.uses = [line.removeprefix("pub ") for line in self.lines if re.match("(pub )?use ", line)]
        self.blocks: dict[int, int] = {}  # maps the first line of each `module _` to the line after its head
        self.declarations: list[Declaration] = []
        self.read()

    def read(self) -> None:
        at, block = 0, -1
        while at < len(self.lines):
            line = self.lines[at]
            if line[:1] not in ("", " ") and not line.startswith("--"):
                block = -1
            if line.startswith("module "):
                block = at
                while not self.lines[at].endswith("where") and at + 1 < len(self.lines):
                    at += 1
                self.blocks[block] = at + 1
            margin = "" if block < 0 else "  "
            found = SIGNATURE.match(line)
            if found and found[1] == margin and found[3] not in ("use", "mod", "module"):
                at = self.read_lemma(at, block, margin, found)
                continue
            other = OTHER.match(line.removeprefix(margin))
            if other:
                last = self.end(at + 1, margin)
                inner = [name[3] for name in map(SIGNATURE.match, self.lines[at + 1 : last]) if name and other[1] == "data"]
                self.declarations.append(Declaration([other[2], *inner], at, last, last, block, False))
            at += 1

    def end(self, at: int, margin: str, own: str = "") -> int:
        """Returns the end of the declaration that continues at line `at`, not counting blank lines after it.

        From `at` on, each line of the declaration is blank, is indented more than the margin, closes a bracket at the margin,
        or begins a clause of `own`.
        """
        last = at
        while at < len(self.lines):
            line = self.lines[at]
            is_clause = own and re.match(rf"{re.escape(margin + own)}(\s|$)|{margin}unfolding ", line)
            if line.strip() and not (line.startswith((margin + " ", margin + ")", margin + "]", margin + "}")) or is_clause):
                break
            at += 1
            last = at if line.strip() else last
        return last

    def read_lemma(self, first: int, block: int, margin: str, found: re.Match[str]) -> int:
        name = found[3]
        last = self.end(first + 1, margin, name)
        own = re.compile(rf"{re.escape(margin + name)}(\s|$)")
        clauses = next((at for at in range(first + 1, last) if own.match(self.lines[at])), last)
        is_lemma = clauses < last and not re.search("abbrev|unfoldable", found[2]) and "◌" not in name
        if is_lemma:
            result = re.split(r"[\s(]+", self.text(first, clauses).rpartition("→")[2].rpartition(" : ")[2].strip())[0]
            is_lemma = result not in DATA
        self.declarations.append(Declaration([name], first, clauses, last, block, is_lemma))
        return last

    def text(self, first: int, last: int) -> str:
        return "\n".join(self.lines[first:last])

    def signature(self, lemma: Declaration) -> str:
        return self.text(lemma.first, lemma.clauses)

    def body(self, lemma: Declaration) -> str:
        return self.text(lemma.clauses, lemma.last)

    def imported(self) -> dict[str, str]:
        """Maps each imported name to the module that it comes from."""
        found = {}
        for line in self.uses:
            module, _, names = line.removeprefix("use ").partition(".{")
            for name in names.rstrip("}").split(", "):
                found[name.rpartition(" as ")[2]] = module
        return found

    def citable(self, lemma: Declaration) -> set[str]:
        """Returns the names of the lemmas that a proof of this lemma can cite."""
        found = {one.name for one in self.declarations if one.is_lemma and one.first < lemma.first}
        for name, module in self.imported().items():
            is_common = module.endswith("Common") and "-" not in name and name != "append_assoc"
            if ".specs." not in module and "◌" not in name and not name[:1].isupper() and not is_common:
                found.add(name)
        return found - {"common_steps", "arith", "nat_tests", "rules", "refl", "sym", "ap", "subst", lemma.name}

    def alone(self, module: str, lemma: Declaration, body: str) -> str:
        """Returns a submodule of this file that proves only this lemma.

        The submodule imports the declarations that it needs from this file, and copies those in the same `module _`.
        """
        used, copied = tokens(self.signature(lemma) + "\n" + body), [self.signature(lemma) + "\n" + body]
        if lemma.block >= 0:
            for one in reversed(self.declarations):
                if one.block == lemma.block and one.first < lemma.first and any(parts_of(name) <= used for name in one.names):
                    text = self.text(one.first, one.last)
                    used |= tokens(text)
                    copied.insert(0, text)
            head = self.text(lemma.block, self.blocks[lemma.block])
            used |= tokens(head)
            copied.insert(0, head)
        names = [
            name
            for one in self.declarations
            if one.first < lemma.first and (one.block < 0 or one.block != lemma.block)
            for name in one.names
            if name != lemma.name and parts_of(name) <= used
        ]
        imports = [f"use {module}.{{{', '.join(dict.fromkeys(names))}}}"] if names else []
        return "\n".join([*self.uses, *imports, "", *copied]) + "\n"

    def changed(self, bodies: dict[str, str]) -> str:
        """Returns the text of the file with new bodies for some lemmas, and with the imports that the new bodies need."""
        lines = list(self.lines)
        for lemma in reversed(self.declarations):
            if lemma.is_lemma and lemma.name in bodies:
                lines[lemma.clauses : lemma.last] = bodies[lemma.name].split("\n")
        return with_imports(lines, set(self.imported()) | tokens("\n".join(line.partition("--")[0] for line in self.lines if not is_use(line))))


# Names that shortened proofs can use, and the modules that define them.
SETS = {"arith": "Rattle.std.proofs.Common", "rules": "Rattle.std.proofs.Common", "refl": "Rattle.std.proofs.Common", "common_steps": "Rattle.std.proofs.lemmas.Grind"}


def is_use(line: str) -> bool:
    return bool(re.match("(pub )?use ", line))


def with_imports(lines: list[str], known: set[str]) -> str:
    """Joins these lines, and adds imports for the names in SETS that the lines use and that are not in `known`."""
    used = tokens("\n".join(line.partition("--")[0] for line in lines if not is_use(line)))
    for name in SETS.keys() & used - known:
        start = f"use {SETS[name]}.{{"
        at = next((at for at, line in enumerate(lines) if line.startswith(start)), -1)
        if at < 0:
            lines.insert(next((at for at, line in enumerate(lines) if is_use(line)), 0), f"{start}{name}}}")
        else:
            lines[at] = f"{lines[at].removesuffix('}')}, {name}}}"
    return "\n".join(lines)
