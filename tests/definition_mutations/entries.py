"""Reads the lists of wrong rules. ../definition_mutations.py describes their format."""
import pathlib

from antt import Bad, crates, source
from lib import TOP

HERE = pathlib.Path(__file__).resolve().parent
KINDS = ("example", "law", "vector", "test")


class Change:
    """A text in a file, and the text that replaces it."""

    def __init__(self, folder: str, crate: str, file: str) -> None:
        self.folder, self.crate, self.file = folder, crate, file
        self.old, self.new = [], []

    def place(self) -> tuple:
        return self.crate, self.folder, self.file

    def apply(self, text: str) -> str:
        old, new = "\n".join(self.old), "\n".join(self.new)
        if text.count(old) != 1:
            raise Bad(f"crates/{'/'.join(self.place())} has {text.count(old)} times {old!r}")
        return text.replace(old, new)


class Entry:
    """A wrong rule, and the example, law, vector or test that must fail."""

    def __init__(self, crate: str, line: int) -> None:
        self.crate, self.line = crate, line
        self.words, self.changes, self.free, self.turned = [], [], [], set()
        self.kind = self.of = self.name = ""
        self.wanted, self.file = "caught", crate

    def __str__(self) -> str:
        return f"{self.file}.txt:{self.line}: {' '.join(self.words)}"

    def text(self) -> str:
        """Returns the text that --only WORD searches."""
        lines = [line for one in self.changes for line in (one.crate, one.file, *one.old, *one.new)]
        return "\n".join([*self.words, *lines, self.kind, self.of, self.name])

    def changed(self, places: set) -> dict:
        """Returns the changed text of each file in these directories, keyed by crate, directory and file name."""
        texts = {}
        for change in self.changes:
            place = change.place()
            if change.folder in places:
                texts[place] = change.apply(texts[place] if place in texts else source(place))
        return texts


def read_entries(name: str, crate: str):
    """Yields the entries in a list. Unless they name another crate, they apply to `crate`.

    Raises `Bad` if the list is invalid.
    """
    path = HERE / f"{name}.txt"
    lines = path.read_text(encoding="utf-8").splitlines() if path.is_file() else []
    entry = None
    for number, line in enumerate([*lines, ""], 1):
        try:
            if line.strip():
                entry = entry or Entry(crate, number)
                entry.file = name
                read_line(entry, line)
            elif entry:
                if entry.changes or entry.free or entry.kind:
                    finished(entry)
                    yield entry
                entry = None
        except Bad as wrong:
            raise Bad(f"{path.relative_to(TOP)}:{number if line.strip() else entry.line}: {wrong}") from None


def every_entry() -> list:
    """Returns the entries in the lists of all crates."""
    return [entry for crate in crates() for entry in read_entries(crate, crate)]


def read_line(entry: Entry, line: str) -> None:
    key, _, text = line.partition(":")
    text = text[1:] if text.startswith(" ") else text
    if line.startswith("#"):
        entry.words.append(line[1:].strip())
    elif key in ("specs", "code"):
        of, _, file = text.strip().rpartition("/")
        entry.changes.append(Change("specs" if key == "specs" else "src", of or entry.crate, file))
    elif key in ("old", "new"):
        if not entry.changes:
            raise Bad(f"`{key}:` comes before `specs:`")
        last = entry.changes[-1]
        if key == "old" and last.new:
            entry.changes.append(Change(last.folder, last.crate, last.file))
        getattr(entry.changes[-1], key).append(text)
    elif key == "fails":
        entry.kind, _, name = text.strip().partition(" ")
        of, _, entry.name = name.strip().rpartition("/")
        entry.of = of or entry.crate
        if entry.kind not in KINDS or not entry.name:
            raise Bad(f"`fails:` names one of {', '.join(KINDS)}, and its name")
    elif key == "order":
        entry.turned.add(text.strip())
    elif key == "verdict":
        entry.wanted = text.strip()
    elif key == "free":
        file, _, names = text.partition(":")
        entry.free.append((file.strip(), names.strip()))
    else:
        raise Bad(f"a line begins with {key!r}")


def finished(entry: Entry) -> None:
    """Raises `Bad` unless the entry is complete and each passage that it replaces occurs exactly once in its file."""
    if not entry.words:
        raise Bad("a comment must say the wrong rule, or the reason, in words")
    if entry.free:
        if entry.changes or entry.kind:
            raise Bad("`free:` stands in an entry of its own")
        return
    if not entry.kind:
        raise Bad("`fails:` is missing")
    for change in entry.changes:
        if not change.old or not change.new or change.old == change.new:
            raise Bad(f"a pair of {change.file} lacks `old:` or `new:`, or changes nothing")
    folders = {change.folder for change in entry.changes}
    wanted = {"specs", "src"} if entry.kind in ("vector", "test") else {"specs"}
    if folders != wanted:
        raise Bad(f"for `fails: {entry.kind}` the changes must be of {' and '.join(sorted(wanted))}")
    entry.changed(wanted)
