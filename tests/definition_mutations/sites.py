"""Finds the places in the definitions that need entries (comparisons, numbers and orders), and the entries for each place."""
import difflib
import functools
import re

from antt import DECLARATION, NO_DECLARATION, SIGNATURE, crates, source
from entries import Change, Entry
from lib import TOP

WORD = re.compile(r"[(){};,\[\]]|[^\s(){};,\[\]]+")
INFIX = {"==", "≤", "<"}
ORDERED = {"nat_lt", "nat_le"}
PREFIX = ORDERED | {"int_eq", "bytes_eq"}
ENDS = set("( ) [ ] { } , ; && || = if then else in let → λ ∷ ++ ↦ | ← × ⊎ >>= : do ≡ ↔".split())
NUMBER = re.compile(r"\d[\d_]*$|0x[\dA-Fa-f_]+$")
BOUNDS = {"leasts", "mosts", "greatest", "greatest_values"}  # lists of bounds; comparisons look up a bound by its index
ARITHMETIC = set("∷ [ ] ( ) = ^ * + -".split())
REFUSALS = set("Err None Invalid Refuses Stray unless only_if".split())
ACCEPTED = set("Ok Some Continues true".split())
PROVED = "a proposition states what is proved, and refuses no input"


class Site:
    """A comparison, a number or an order in a definition: the words from `first` up to, but not including, `last`.

    For an order, these are the words of the first check, and `after` contains those of the second.
    """

    def __init__(self, kind: str, words: list, first: int, last: int, after=()) -> None:
        self.kind, self.first, self.last, self.after = kind, first, last, after
        self.words = words[first:last]
        self.entries, self.reason = [], PROVED if kind == "proposition" else ""

    def __str__(self) -> str:
        told = " ".join(self.words)
        return f"{self.kind} {told}" + (f"  BEFORE  {' '.join(self.after)}" if self.after else "")

    def wanted(self) -> int:
        return 2 if self.kind == "comparison" and ORDERED & set(self.words) else 1

    def is_covered(self) -> bool:
        return bool(self.reason) or len(self.entries) >= self.wanted()


class Definition:
    """A definition in specs/: its words, without comments, and its sites."""

    def __init__(self, place: tuple, line: int, start: int, text: str) -> None:
        self.place, self.line, self.start, self.text = place, line, start, text
        self.name = DECLARATION.match(text)[2]
        bare = re.sub(r"(?m)(^| )--( .*)?$", lambda one: " " * len(one[0]), text)
        found = list(WORD.finditer(bare))
        self.words, self.starts = [one[0] for one in found], [start + one.start() for one in found]
        self.body = next((at for at, word in enumerate(self.words) if word == "=" and not self.depth(at)), len(self.words))
        result = self.words[: self.body]
        is_type = DECLARATION.match(text)[1] or "Type" in result
        self.sites = list(self.propositions() if is_type else self.computed())

    def depth(self, at: int) -> int:
        return sum(word in "([{" for word in self.words[:at]) - sum(word in ")]}" for word in self.words[:at])

    def argument(self, at: int) -> int:
        """Returns the end of the argument that begins at this index."""
        opened = 0
        while at < len(self.words):
            opened += (self.words[at] in "([{") - (self.words[at] in ")]}")
            at += 1
            if opened <= 0 and not self.words[at : at + 1] == [".0"]:
                break
        return at

    def begins_clause(self, at: int) -> bool:
        return at == len(self.words) or self.text[: self.starts[at] - self.start].rpartition("\n")[2] == "" and at > 0

    def comparison(self, at: int) -> tuple:
        """Returns the beginning and the end of the comparison whose operator is at this index."""
        if self.words[at] in PREFIX:
            return at, self.argument(self.argument(at + 1))
        first, opened = at, 0
        while first and not (opened == 0 and self.words[first - 1] in ENDS - {")", "]", "}"}):
            first -= 1
            opened += (self.words[first] in ")]}") - (self.words[first] in "([{")
        last, opened = at + 1, 0
        while not self.begins_clause(last) and not (opened == 0 and self.words[last] in ENDS - {"(", "[", "{"}):
            opened += (self.words[last] in "([{") - (self.words[last] in ")]}")
            last += 1
        return first, last

    def propositions(self):
        for at, word in enumerate(self.words):
            if word in INFIX | PREFIX:
                yield Site("proposition", self.words, *self.comparison(at))

    def computed(self):
        words, inside = self.words, set()
        for at, word in enumerate(words):
            if at > 0 and word in INFIX | PREFIX and words[at - 1 : at] != ["{"]:
                first, last = self.comparison(at)
                inside |= set(range(first, last))
                yield Site("comparison", words, first, last)
        bare = all(NUMBER.match(word) or word in ARITHMETIC or word == self.name for word in words[self.body + 1 :])
        if bare or self.name in BOUNDS or REFUSALS & set(words):
            for at, word in enumerate(words):
                if at > self.body and at not in inside and NUMBER.match(word) and self.is_value(at):
                    yield Site("number", words, at, at + 1)
        yield from self.orders()

    def is_value(self, at: int) -> bool:
        """Returns whether a number is on the right side of an equation, not in a pattern or signature, and not before `^`."""
        line = self.text.rfind("\n", 0, self.starts[at] - self.start) + 1
        head = self.text[line : self.starts[at] - self.start]
        is_base = self.words[at + 1 : at + 2] == ["^"]
        return not is_base and (head.startswith(" ") or " = " in head)

    def orders(self):
        """Yields pairs of checks that can both reject input.

        A pair is either two consecutive statements in a `do` block, if the second does not use the result of the first, or the
        condition of an `if` that rejects input in one branch and the check in the other branch.
        """
        steps, bound, is_open = [], [], False
        for line in self.text.split("\n") if "Result" in self.words[: self.body] else []:
            told = re.match(r"( +)(?:(\S+) ← )?(\S.*)$", line)
            if re.search(r"(^|\s)do$", line):
                steps, bound, is_open = [], [], True
            elif is_open and told and (not steps or told[1] == indent):
                indent = told[1]
                steps.append(WORD.findall(told[3]))
                bound.append(told[2] or (steps[-1][1] if steps[-1][0] == "let" else "_"))
            elif is_open and told and told[1] > indent:
                steps[-1] += WORD.findall(line)
        for name, one, other in zip(bound, steps, steps[1:]):
            needs = {part for word in other for part in word.split(".")}
            if name not in needs and one[0] != "let":
                yield from self.pairs([one, other])
        for at, word in enumerate(self.words):
            if word == "if":
                yield from self.pairs(self.choice(at))

    def end_of(self, at: int, word: str) -> int:
        """Returns the end of the expression that begins at this index: the index of the next `word` (`then` or `else`) of the
        same `if`, or the end of the enclosing expression."""
        opened = inner = 0
        while not self.begins_clause(at) and not (opened == 0 and self.words[at] in (")", ",", ";")):
            if opened == 0 and self.words[at] == word:
                if not inner:
                    break
                inner -= 1
            opened += (self.words[at] in "([{") - (self.words[at] in ")]}")
            inner += opened == 0 and self.words[at] == "if" and word == "else"
            at += 1
        return at

    def choice(self, at: int) -> list:
        """If an `if` rejects input in one branch and checks something in the other, returns its condition and that check.

        Otherwise, returns an empty list.
        """
        then = self.end_of(at + 1, "then")
        other = self.end_of(then + 1, "else")
        branches = self.words[then + 1 : other], self.words[other + 1 : self.end_of(other + 1, "")]
        refuses = [bool(REFUSALS - {"None"} & set(words[:3])) for words in branches]
        if refuses[0] == refuses[1]:
            return []
        asked = [word for word in branches[refuses[0]]]
        while asked[:1] in (["("], ["if"]):
            begins_if = asked[0] == "if"
            asked = asked[1 : asked.index("then")] if begins_if else asked[1:-1]
            if begins_if:
                break
        is_asked = len(asked) > 1 and not (asked[0] in ACCEPTED | {"record", "let"} or asked[0][:1].isupper() or "∷" in asked)
        return [self.words[at + 1 : then], asked] if is_asked else []

    def pairs(self, steps: list):
        for one, other in zip(steps, steps[1:]):
            at = place_in(self.words, one)
            if at is not None and other[0] not in ACCEPTED:
                yield Site("order", self.words, at, at + len(one), tuple(other))


def place_in(words: list, part) -> int | None:
    """Returns the index at which a part occurs in a list of words, or None."""
    part = list(part)
    return next((at for at in range(len(words) - len(part) + 1) if words[at : at + len(part)] == part), None)


def times(words: list, part: list, is_open: bool) -> int:
    """Returns how often a part occurs in a list of words. If `is_open` is false, only counts parts that end an expression."""
    ends = (at + len(part) for at in range(len(words)) if words[at : at + len(part)] == part)
    return sum(is_open or words[end : end + 1] == [] or words[end] in ENDS for end in ends)


@functools.lru_cache(None)
def definitions(place: tuple) -> list:
    """Returns the definitions in a file in specs/."""
    found, start, lines = [], 0, source(place).split("\n")
    opened = None
    for number, line in enumerate([*lines, "use end"], 1):
        begins = line[:1] not in ("", " ", ")", "}") and (line.startswith("--") or NO_DECLARATION.match(line) or SIGNATURE.match(line))
        if opened and line.startswith("--"):
            equation = next((after for after in lines[number:] if not after.startswith("--")), "")
            # A comment between the equations of a definition does not end it.
            begins = not equation.startswith(DECLARATION.match(lines[opened[0] - 1])[2] + " ")
        if begins:
            if opened:
                text = "\n".join(lines[opened[0] - 1 : number - 1])
                found.append(Definition(place, opened[0], opened[1], text))
            is_declared = not line.startswith("--") and not NO_DECLARATION.match(line)
            opened = (number, start) if is_declared else None
        start += len(line) + 1
    return found


def files() -> list:
    return [(crate, "specs", path.name) for crate in crates() for path in sorted((TOP / "crates" / crate / "specs").glob("*.antt"))]


def cover(entries: list) -> list:
    """Assigns to each site the entries that change it, or the reason why it needs none. Returns error messages."""
    for entry in entries:
        for change in entry.changes:
            if change.folder == "specs":
                note(entry, change)
    return [
        f"{entry.file}.txt:{entry.line}: in {file} nothing of {names} is without an entry"
        for entry in entries
        for file, names in entry.free
        if not set_free(entry, (entry.crate, "specs", file), names)
    ]


def note(entry: Entry, change: Change) -> None:
    """Assigns an entry to the sites that one of its changes affects."""
    before = source(change.place())
    start = before.find("\n".join(change.old))
    if start < 0:
        return  # an earlier pair of the entry created the old text
    old, new = WORD.findall("\n".join(change.old)), WORD.findall("\n".join(change.new))
    places = [start + one.start() for one in WORD.finditer("\n".join(change.old))]
    touched = set()
    for what, first, last, *_ in difflib.SequenceMatcher(None, old, new, autojunk=False).get_opcodes():
        if what != "equal":
            touched |= set(places[first : max(last, first + 1)])
            if first == last and first:
                touched.add(places[first - 1])
    end = start + len("\n".join(change.old))
    for definition in definitions(change.place()):
        if definition.start + len(definition.text) < start or definition.start > end:
            continue
        for site in definition.sites:
            if site.kind == "order":
                one, other = place_in(new, site.words), place_in(new, site.after)
                is_told = definition.name in entry.turned and touched & set(definition.starts[site.first :])
                turned = is_told or one is not None and other is not None and other < one
                if turned and entry not in site.entries:
                    site.entries.append(entry)
            elif touched & set(definition.starts[site.first : site.last]) and entry not in site.entries:
                beside = site.kind == "number"  # the words next to a number distinguish it from equal numbers
                words = definition.words[site.first - beside : site.last + beside]
                if not 0 < times(old, words, beside) <= times(new, words, beside):  # otherwise, the words were only moved
                    site.entries.append(entry)


def set_free(entry: Entry, place: tuple, names: str) -> list:
    """Assigns the reason that `entry` gives to each uncovered site in the named definitions or in the quoted text.

    Returns these sites.
    """
    text, found = names.strip("`"), definitions(place)
    if names.startswith("`"):
        start = source(place).find(text)
        if source(place).count(text) != 1:
            return []
        hit = [
            site
            for one in found
            for site in one.sites
            if any(start <= at < start + len(text) for at in one.starts[site.first : site.last])
        ]
    else:
        wanted = {name.strip() for name in names.split(",")}
        hit = [site for one in found if one.name in wanted for site in one.sites]
        if not wanted <= {one.name for one in found if any(not site.is_covered() for site in one.sites)}:
            return []
    hit = [site for site in hit if not site.is_covered()]
    for site in hit:
        site.reason = " ".join(entry.words)
    return hit


def boundaries(place: tuple, name: str) -> list:
    """Returns the sites in a definition, except propositions."""
    return [site for one in definitions(place) if one.name == name for site in one.sites if site.kind != "proposition"]


def listed(crate: str, is_whole: bool) -> list:
    """Returns a line for each site that is not covered or, if `is_whole` is true, for every site."""
    lines, missing = [], []
    for place in files():
        if crate and place[0] != crate:
            continue
        for one in definitions(place):
            for site in one.sites:
                at = f"crates/{'/'.join(place)}:{source(place).count(chr(10), 0, one.starts[site.first]) + 1}: {one.name}: {site}"
                if not site.is_covered():
                    missing.append(f"{at}: has {len(site.entries)} of {site.wanted()} entries in tests/definition_mutations/{place[0]}.txt")
                told = f"free: {site.reason}" if site.reason else ", ".join(f"{entry.crate}.txt:{entry.line}" for entry in site.entries)
                lines.append(f"{at}: {told or 'no entry'}")
    return lines if is_whole else missing
