"""Reads the `.antt` files in the crates: modules, their declarations and their imports."""
import functools
import re

from lib import TOP


class Bad(Exception):
    """Raised if a list of wrong rules is invalid, or if a check gives no verdict."""


@functools.lru_cache(None)
def crates() -> dict:
    """Returns the crates in crates.txt, with the crates that each depends on."""
    lines = [line.partition("#")[0] for line in (TOP / "crates.txt").read_text(encoding="utf-8").splitlines()]
    return {name.split()[0]: uses.split() for name, _, uses in (line.partition(":") for line in lines if line.strip())}


@functools.lru_cache(None)
def source(place: tuple) -> str:
    path = TOP / "crates" / "/".join(place)
    if not path.is_file():
        raise Bad(f"there is no {path.relative_to(TOP)}")
    return path.read_text(encoding="utf-8")


MODULE = re.compile(r"Rattle\.(bufr\w*)\.(specs|proofs)\.(\w+)")
NO_DECLARATION = re.compile(r"(?:unfoldable |pub )*(?:use|mod|infixl|infixr|infix|ruleset|open) ")
DECLARATION = re.compile(r"(?:(?:unfoldable|abbrev|pattern|pub) )*(?:(data|record|module) )?([^\s:]+)")
SIGNATURE = re.compile(r"(?:(?:unfoldable|abbrev|pattern|pub|data|record|module) |[^\s:=]+(?: \{[^}]*\})? :(?: |$))")


def parts_of(name: str) -> set:
    """Returns the parts of a name. The name of an operator is split at its argument positions (`◌`)."""
    return {part for part in name.split("◌") if part}


def tokens(text: str) -> set:
    return {part for word in re.split(r"[\s(){}.;,@\"«»]+", text) for part in parts_of(word)}


class Block:
    """A declaration or an import: its text, and the names that it declares, if any."""

    def __init__(self, line: str) -> None:
        self.lines, self.declares = [line], not NO_DECLARATION.match(line)

    @functools.cached_property
    def text(self) -> str:
        return "\n".join(self.lines)

    @functools.cached_property
    def names(self) -> set:
        if not self.declares:
            return set()
        kind, name = DECLARATION.match(self.lines[0]).groups()
        if kind == "module":
            inner = re.findall(r"(?m)^  (?:(?:unfoldable|abbrev|pub) )*([^\s:=]+)(?: \{[^}]*\})? :", self.text)
            return set().union(*map(parts_of, inner))
        inner = re.findall(r"(?m)^  ([^\s:]+) :", self.text) if kind == "data" else []
        return set().union(*map(parts_of, [name, *inner]))

    @functools.cached_property
    def tokens(self) -> frozenset:
        return frozenset(tokens(self.text))

    def imported(self) -> list:
        return [name.strip() for name in self.text.partition("{")[2].rpartition("}")[0].split(",")]


@functools.lru_cache(None)
def blocks(text: str) -> list:
    """Returns the declarations and imports of a module, without comments."""
    found = []
    for line in text.splitlines():
        if line.startswith("--"):
            continue
        if line[:1] not in ("", " ", ")", "}") and (NO_DECLARATION.match(line) or SIGNATURE.match(line)):
            found.append(Block(line))
        elif line.strip() and found:
            found[-1].lines.append(line)
    return found


@functools.lru_cache(None)
def modules() -> dict:
    """Returns the modules in specs/ and proofs/, with the modules that each imports."""
    texts = {}
    for path in (TOP / "crates").glob("*/*/*.antt"):
        crate, folder, _ = path.parts[-3:]
        if folder in ("specs", "proofs"):
            texts[crate, folder, path.stem] = path.read_text(encoding="utf-8")
    return {place: {one for one in MODULE.findall(text) if one in texts} for place, text in texts.items()}


@functools.lru_cache(None)
def below(place: tuple) -> frozenset:
    """Returns a module and all modules that it imports, directly or indirectly."""
    seen, todo = set(), [place]
    while todo:
        one = todo.pop()
        if one not in seen:
            seen.add(one)
            todo += modules()[one]
    return frozenset(seen)
