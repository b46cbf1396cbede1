"""Makes edits that shorten the proof of a lemma. Most of them fail; the checker determines which ones pass."""
import re
import sys
from typing import Iterator, NamedTuple

from lemmas import NAME, SIGNATURE, Declaration, ProofFile
from line_width import OF_PROOFS, broken

Change = tuple[int, int, str]  # the start and end of the old text, and the new text
Edit = tuple[Change, ...]

LET = re.compile(r"(?<![^\s(\[{])let(?=\s)|(?<=\s)in(?=\s|$)")
TACTIC = re.compile(r"(?<![^\s(\[{])(omega|grind|search|cc|simp) (?=\()")
PATH = re.compile(r"(?<![^\s(\[{,←])c\.[^\s(){}\[\],;]+")
WORD = re.compile(r"[^\s(){}\[\],;.`]+")
MOST_CITED = 5  # facts in a tactic that replaces a term: with more, it is hard to see which step fails
LEAST_SAVED = 20  # characters: a tactic explains less than the term that it replaces, so it must be clearly shorter
MOST_INLINE = 40  # characters: a longer `let` is not inlined, because that would be harder to read
LEAST_MERGED = 150  # characters that a tactic must save if it replaces several clauses
SHORT = 150  # characters: a record, tuple or chain that is shorter shows the whole proof at a glance
SHORT_CALL = 100  # characters: a call of a lemma that is shorter also shows the whole proof at a glance
MOST_HIDDEN = 3  # lemmas that a tactic may use without naming them; a tactic that names none may use only one
MOST_IDLE = 1  # `let`s that the rest of the proof need not mention, because a tactic finds them in scope


def depths(text: str) -> list[int]:
    """Returns the number of open brackets before each character and at the end."""
    found, depth = [], 0
    for char in text:
        depth -= char in ")]}"
        found.append(depth)
        depth += char in "([{"
    return [*found, depth]


def is_balanced(text: str) -> bool:
    opened = []
    for char in text:
        if char in "([{":
            opened.append(char)
        elif char in ")]}" and (not opened or "([{".index(opened.pop()) != ")]}".index(char)):
            return False
    return not opened


def split(text: str, mark: str) -> list[tuple[int, str]]:
    """Splits a text at the marks that are outside brackets. Returns each part with its position."""
    depth, parts, start = depths(text), [], 0
    for at, char in enumerate(text):
        if char == mark and depth[at] == 0:
            parts.append((start, text[start:at]))
            start = at + 1
    return [*parts, (start, text[start:])]


def equals(text: str) -> int:
    """Returns the position after the first ` =` outside brackets, or -1."""
    depth = depths(text)
    found = (found.end() for found in re.finditer(r"\s=(?=\s|$)", text) if depth[found.start()] == 0)
    return next(found, -1)


def argument_end(text: str, at: int) -> int:
    """Returns the end of the argument that begins at this position."""
    if at < len(text) and text[at] in "([{":
        depth = depths(text[at:])
        close = next((place for place in range(1, len(depth)) if depth[place] == 0), len(text) - at - 1)
        found = re.compile(r"(\.\w+)*").match(text, at + close + 1)
        return found.end() if found else at + close + 1
    found = re.compile(r"[^\s(){}\[\],;]+").match(text, at)
    return found.end() if found else at


def bare(text: str) -> str:
    """Returns a term without the parentheses that enclose the whole term."""
    text = " ".join(text.split())
    while text.startswith("(") and argument_end(text, 0) == len(text) and text.endswith(")"):
        text = text[1:-1].strip()
    return text


class Let(NamedTuple):
    """The positions in `let name : type = value in`. The text from `start` to `end` includes the white space after `in`."""

    name: str
    start: int
    colon: int  # where ` : type` begins, or would begin
    value: int
    value_end: int
    end: int

    def is_typed(self, text: str) -> bool:
        return text[self.colon : self.value].strip() != "="


def lets(body: str) -> list[Let]:
    opened, found = [], []
    for mark in LET.finditer(body):
        if mark[0] == "let":
            opened.append(mark.start())
        elif opened:
            start = opened.pop()
            head = re.match(rf"let ({NAME})", body[start:])
            equal = equals(body[start : mark.start()])
            if head and equal > 0:
                after = re.compile(r"\s*").match(body, mark.end())
                value = start + equal + 1
                found.append(Let(head[1], start, start + head.end(), value, mark.start() - 1, after.end() if after else mark.end()))
    return sorted(found, key=lambda one: one.start)


def mentions(text: str, name: str) -> list[int]:
    return [found.start() for found in re.finditer(rf"(?<![^\s(){{}}\[\],]){re.escape(name)}(?![^\s(){{}}\[\],.;])", text)]


def arguments(signature: str) -> list[tuple[str, str]]:
    """Returns the name and type of each explicit argument of a lemma. An unnamed hypothesis has an empty name."""
    flat = " ".join(line.strip() for line in signature.split("\n") if not line.strip().startswith("unfolding "))
    found = SIGNATURE.match(flat)
    text, made = flat[found.end() :] if found else "", []
    for _, part in split(text, "→")[:-1]:
        part = part.strip()
        if not re.match(r"[({][^(){}:]+ : ", part):
            made.append(("", part))
        while match := re.match(r"([({])([^(){}:]+) : ", part):
            end = argument_end(part, 0)
            if match[1] == "(":
                made += [(name, part[match.end() : end - 1]) for name in match[2].split()]
            part = part[end:].strip()
    return made


RELATIONS = {"≡": "is", "<": "below", "≤": "most", "≢": "is_not", "∈": "in"}


def hypothesis_name(statement: str) -> str:
    """Returns a name for a hypothesis: `h_`, its first word and, if known, its relation, such as `h_width_below`."""
    found = next((RELATIONS[word] for word in statement.split() if word in RELATIONS and "→" not in statement), "")
    first = re.search(r"[A-Za-z]\w*", statement)
    word = re.sub(r"(?<=[a-z])(?=[A-Z])", "_", first[0]).lower() if first else "holds"
    return f"h_{word}_{found}" if found else f"h_{word}"


class Clause(NamedTuple):
    start: int
    value: int  # after ` =`
    end: int


def clauses(lemma: Declaration, body: str) -> list[Clause]:
    margin = "  " if lemma.block >= 0 else ""
    starts = [found.start() for found in re.finditer(rf"(?m)^{margin}{re.escape(lemma.name)}(?=\s|$)", body)]
    made = []
    for start, end in zip(starts, [*(one - 1 for one in starts[1:]), len(body)]):
        equal = equals(body[start:end])
        if equal > 0:
            made.append(Clause(start, start + equal, end))
    return made


def patterns(text: str) -> list[str]:
    """Returns the arguments of a clause, without those in braces."""
    made, at = [], 0
    while at < len(text):
        if text[at].isspace():
            at += 1
            continue
        end = max(argument_end(text, at), at + 1)
        if text[at] != "{":
            made.append(text[at:end])
        at = end
    return made


def one_head(file: ProofFile, lemma: Declaration, body: str, found: list[Clause]) -> str:
    """Returns the left side of one clause that replaces several, or an empty string if there are no good argument names."""
    start = len("  " if lemma.block >= 0 else "") + len(lemma.name)
    taken = [patterns(body[one.start + start : one.value].rstrip()[:-1]) for one in found]
    wanted = arguments(file.signature(lemma))
    if len({len(one) for one in taken}) != 1 or len(taken[0]) > len(wanted):
        return ""
    names: list[str] = []
    for number in range(len(taken[0])):
        name, statement = wanted[number]
        kept = [one[number] for one in taken if re.fullmatch(r"[a-z]\w*'?", one[number]) and one[number] not in names and (one[number], "") != (name, "")]
        names.append(name or next((one for one in kept if one not in [other for other, _ in wanted]), hypothesis_name(statement)))
    if len(set(names)) != len(names):
        return ""
    return " ".join([body[found[0].start :][:start], *names, "="])


def items(text: str, at: int) -> list[tuple[int, str]]:
    """Returns each item in the bracketed list that begins at this position, together with the item's own position."""
    end = argument_end(text, at)
    return [(at + 1 + place, item) for place, item in split(text[at + 1 : end - 1], ",")]


def facts_of(text: str) -> list[str]:
    """Returns the facts that a proof cites: the items in its tactics' lists, and the fields of its record of facts."""
    bound = {one.name for one in lets(text)}
    found = [item.strip() for tactic in TACTIC.finditer(text) for _, item in items(text, tactic.end())[1:]]
    words = [item for item in found + PATH.findall(text) if item not in bound and item != "common_steps" and not TACTIC.search(item)]
    return list(dict.fromkeys(words))


def chain_facts(text: str) -> list[str]:
    """Returns the equations in a chain of `∙`, `sym` and `ap`."""
    found = []
    for _, part in split(text, "∙"):
        part = bare(part)
        while re.match("(ap|sym) ", part):
            rest = part.partition(" ")[2]
            part = bare(rest[argument_end(rest, 0) :] if part.startswith("ap ") else rest)
        if not re.match("(rw|let|omega|grind|elim|λ)", part) and part not in ("refl", "_"):
            found.append(part)
    return list(dict.fromkeys(found))


def forms(text: str, citable: set[str]) -> list[str]:
    """Returns shorter proofs to try in place of a term, shortest first."""
    words = [word for word in dict.fromkeys(WORD.findall(text)) if word in citable]
    sets = ["nat_tests"] if "nat_tests" in text else []
    lemmas, facts = ", ".join([*sets, *words[:MOST_CITED]]), ", ".join(facts_of(text)[:MOST_CITED])
    made = ["omega arith", "grind (arith, common_steps)"]
    if lemmas:
        made += [f"search (rules, {lemmas})", f"grind (arith, common_steps, {lemmas})", f"simp ({lemmas})"]
    for cited in {lemmas, facts} - {""}:
        made.append(f"omega (arith, {cited})")
    if facts:
        made += [f"grind (arith, common_steps, {facts})", f"cc ({facts})"]
    if facts and lemmas:
        made.append(f"grind (arith, common_steps, {', '.join(dict.fromkeys([*sets, *words[:MOST_CITED], *facts.split(', ')]))})")
    chain = chain_facts(text)
    if chain and re.search(r"(^|[\s(])(∙|ap|sym)\s", text):
        heads = ", ".join(dict.fromkeys(part.split()[0] for part in chain if part))
        made += [f"cc ({', '.join(chain)})", f"grind (arith, common_steps, {', '.join(chain)})", f"rw ({heads})", f"simp ({heads})"]
    size = len(" ".join(text.split()))
    return sorted({one for one in made if len(one) + LEAST_SAVED <= size}, key=len)


def strong_edits(file: ProofFile, lemma: Declaration, body: str) -> Iterator[Edit]:
    """Yields edits that use a tactic to prove all clauses, a single clause, or the part of a clause after its `let`s."""
    citable, found = file.citable(lemma), clauses(lemma, body)
    if len(found) > 1:
        head = one_head(file, lemma, body, found)
        for form in forms(body, citable) if head else ():
            yield ((found[0].start, len(body), f"{head} {form}"),)
    for clause in found:
        text = body[clause.value : clause.end]
        calls = re.findall(rf"\(({re.escape(lemma.name)}(?: [^\s()]+)+)\)", text)
        for form in forms(text, citable):
            yield ((clause.value, clause.end, f" {form}"),)
        if calls:
            known = ", ".join(dict.fromkeys(calls))
            words = [word for word in dict.fromkeys(WORD.findall(text)) if word in citable][:MOST_CITED]
            for form in (f"cc ({known})", f"omega (arith, {known})", f"grind (arith, common_steps, {', '.join([known, *words])})", f"rw ({known}) refl"):
                yield ((clause.value, clause.end, f" {form}"),)
        at = clause.value + len(text) - len(text.lstrip())
        for one in lets(body):
            at = one.end if one.start == at else at
        if body[clause.value : at].strip():
            yield from (((at, clause.end, form),) for form in forms(body[at : clause.end], citable))


def weak_edits(file: ProofFile, lemma: Declaration, body: str) -> Iterator[Edit]:
    """Yields edits that remove, inline or shorten a `let` or a list item, or replace `subst` with `rw`. A `let` that remains
    keeps its type, because the type says what the step proves."""
    citable = file.citable(lemma)
    for one in lets(body):
        text = body[one.value : one.value_end]
        uses = [one.end + place for place in mentions(body[one.end :], one.name)]
        listed = [place for place in uses if re.search(r", $", body[:place]) and re.match(r"[,)]", body[place + len(one.name) :])]
        if uses == listed:
            yield ((one.start, one.end, ""), *((place - 2, place + len(one.name), "") for place in listed))
        if len(uses) == 1 and not body.startswith(".", uses[0] + len(one.name)):
            flat = " ".join(text.split())
            is_item = listed == uses or " " not in flat
            if len(flat) <= MOST_INLINE and not one.is_typed(body):
                yield ((one.start, one.end, ""), (uses[0], uses[0] + len(one.name), flat if is_item else f"({flat})"))
        if one.is_typed(body):
            yield from (((one.value, one.value_end, form),) for form in forms(text, citable))
    steps = {one.name for one in lets(body)}
    for tactic in TACTIC.finditer(body):
        found = items(body, tactic.end())
        optional = [one for one in found if one[1].strip() not in ("arith", "rules")]
        if tactic[1] == "omega":  # keep record fields and proof steps, which show where a bound comes from
            optional = [one for one in optional if "." not in one[1] and one[1].strip() not in steps]
        if len(optional) > 1 and len(optional) < len(found):
            yield tuple((place - 1, place + len(item), "") for place, item in optional)
        for place, item in optional:
            if (place, item) != found[0]:
                yield ((place - 1, place + len(item), ""),)
            head = item.split()[0] if item.split() else ""
            if " " in item.strip() and head in citable:
                yield ((place, place + len(item), f" {head}" if item[:1].isspace() else head),)
    for found_at in re.finditer(r"subst \(λ", body):
        motive = argument_end(body, found_at.start() + 6)
        equation = argument_end(body, motive + 1)
        last = argument_end(body, equation + 1)
        fact, term = bare(body[motive + 1 : equation]), body[equation + 1 : last]
        back = bare(fact[4:]) if fact.startswith("sym ") else ""
        if term.strip() and fact:
            for form in (f"rw (← {back}) at {term}", f"rw ({back}) {term}") if back else (f"rw ({fact}) at {term}", f"rw (← {fact}) {term}"):
                yield ((found_at.start(), last, form),)


def without_repeats(body: str) -> str:
    """Returns the body with duplicate facts removed from each tactic's list."""
    for tactic in reversed(list(TACTIC.finditer(body))):
        found = items(body, tactic.end())
        for number, (place, item) in reversed(list(enumerate(found))):
            if item.strip() in [other.strip() for _, other in found[:number]]:
                body = body[: place - 1] + body[place + len(item) :]
    return body


def applied(body: str, edit: Edit) -> str:
    """Returns the body after an edit, with redundant brackets and duplicate facts removed and long lines broken."""
    for start, end, new in sorted(edit, reverse=True):
        body = body[:start] + new + body[end:]
    body = re.sub(r"(?<![^\s(\[{])(omega|grind|search|simp|rw) \(([^\s(){}\[\],;.]+)\)", r"\1 \2", body)
    body = without_repeats(re.sub(r"\(\((omega arith|grind arith|search rules)\)\)", r"(\1)", body))
    body = re.sub(r"(?m)[ \t]+$", "", body)
    return "\n".join(piece for line in body.split("\n") for piece in (broken(line) if len(line) > OF_PROOFS else [line]))


def key_of(body: str, edit: Edit) -> tuple[tuple[str, str], ...]:
    """Returns a key for an edit: the old text with its context, and the new text.

    If an edit failed, an edit with the same key would fail in a later body too.
    """
    return tuple((body[max(0, start - 60) : end], new) for start, end, new in edit)


def ending(text: str) -> str:
    """Returns the part of a clause after its `let`s."""
    at = len(text) - len(text.lstrip())
    for one in lets(text):
        at = one.end if one.start == at else at
    return text[at:].strip()


SEARCH = re.compile("(grind|search) ")
BARE = re.compile("(grind|search) (arith|rules|.arith, common_steps.)$")


def hides_steps(old: str, new: str, citable: set[str]) -> bool:
    """Returns whether the new proof hides steps that the old one shows."""
    if old == new:
        return False
    if SEARCH.match(old):
        return new == "search rules" and not old.startswith("search")
    if old.startswith("omega (") and new.startswith("omega "):
        return any("." in fact and fact.strip() not in new for _, fact in items(old, len("omega ")))
    is_call = len(old) < SHORT_CALL and "let " not in old and (old.split(" ")[0] in citable or re.match(r"ap [^\s(]+ ", old))
    if is_call and re.match("(grind|search|simp|rw|cc) ", new) or old.startswith("absurd ") and not new.startswith("absurd "):
        return True
    is_literal = re.match(r"record \{|\(", old) and old[-1] in ")}"
    if not SEARCH.match(new):
        return bool(is_literal and len(old) < SHORT and new.startswith("omega"))
    is_tactic = re.match("(omega|cc|rw|simp|refl)( |$)", old)
    hidden = {word for word in WORD.findall(old) if word in citable} - set(WORD.findall(new))
    is_short = len(old) < SHORT and (is_literal or " ∙ " in old or hidden and BARE.match(new))
    return bool(is_tactic or is_short or len(hidden) > (1 if BARE.match(new) else MOST_HIDDEN) or new == "search rules")


def idle(text: str) -> int:
    """Returns the number of `let`s in a clause that are not mentioned after their definitions."""
    return sum(not mentions(re.sub(r"\b(?=\.)", " ", text[one.end :]), one.name) for one in lets(text))


def is_harder(file: ProofFile, lemma: Declaration, old: str, new: str) -> bool:
    """Returns whether the new proof is harder to read than the old one."""
    before, after = ([body[one.value : one.end].strip() for one in clauses(lemma, body)] for body in (old, new))
    if len(before) != len(after):
        return len(old) - len(new) < LEAST_MERGED and not re.search("= (cc|omega arith)$", new)
    pairs: list[tuple[str, str]] = []
    for text, made in zip(before, after):
        values = {one.name: text[one.value : one.value_end] for one in lets(text)}
        if idle(made) > max(MOST_IDLE, idle(text)):
            return True
        pairs += [(ending(text), ending(made)), *((values.get(one.name, ""), made[one.value : one.value_end]) for one in lets(made))]
    citable = file.citable(lemma)
    finds_record = any("record {" in text and re.fullmatch("grind arith|grind .arith, common_steps.|search rules", made) for text, made in zip(before, after))
    return finds_record or any(hides_steps(one.strip(), other.strip(), citable) for one, other in pairs)


def shorter(file: ProofFile, lemma: Declaration, body: str, is_first: bool) -> list[tuple[Edit, str]]:
    """Returns the edits that make a body shorter and no harder to read, each with the resulting body."""
    made: dict[str, Edit] = {}
    for edit in [*strong_edits(file, lemma, body), *([] if is_first else weak_edits(file, lemma, body))]:
        text = applied(body, edit)
        if len(text) < len(body) and is_balanced(text) and not is_harder(file, lemma, file.body(lemma), text):
            made.setdefault(text, edit)
    return [(edit, text) for text, edit in made.items()]


def merged(edits: list[Edit]) -> Edit:
    """Combines edits that do not overlap. If two overlap, the one that saves more is used."""
    made: list[Change] = []
    for edit in sorted(edits, key=lambda one: sum(len(new) - (end - start) for start, end, new in one)):
        if all(end <= first or last <= start for start, end, _ in edit for first, last, _ in made):
            made += edit
    return tuple(made)
