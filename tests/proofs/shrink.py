#!/usr/bin/env python3
"""Tries shorter proofs for the lemmas of a proof file.

    tests/proofs/shrink.py FILE.antt..                  print the changes that shorten these files, as a diff
    tests/proofs/shrink.py --apply FILE.antt..          change the files
    tests/proofs/shrink.py --unused [FILE.antt..]       list unused lemmas (default: in all proof files)

FILE is in the proofs/ directory of a crate: a file of lemmas, Answers.antt or Invariants.antt. The crate must be proved, and
the crates that it depends on must be built (`rt lib`). The tool works in a copy of the crate. With --apply, it replaces each
file only after all of that file's changes pass, so an interrupted run leaves no file half changed.

For each lemma, the tool makes shorter proofs: one tactic in place of a term, fewer `let`s, shorter lists. Each of these proofs
is put in its own module, and one check tries up to 300 of them. If several shorter proofs of a lemma pass, the next round
tries all of their edits together. The tool stops when a round saves fewer than 100 characters. A new proof may take at most
twice as long to check as the old one, and together the new proofs of a file may add at most one second. The tool prints or
applies the changes only if a check of the whole file passes with all of them. It skips a shorter proof that would be harder to
read, such as a tactic that hides the lemmas used or replaces a short term (`is_harder` in edits.py).

Each check runs at the lowest priority. `--prefix 'flock FILE'` runs each check under that command.
"""
import argparse
import difflib
import itertools
import os
import pathlib
import re
import shlex
import signal
import sys
import time
from typing import NamedTuple

HERE = pathlib.Path(__file__).resolve().parent
sys.path[1:1] = [str(HERE.parent), str(HERE.parent / "definition_mutations")]
from antt import Bad, crates, tokens  # noqa: E402
from edits import Edit, applied, key_of, merged, shorter  # noqa: E402
from lemmas import Declaration, ProofFile, is_use  # noqa: E402
from lib import TOP, finish  # noqa: E402
from scratch import Scratch  # noqa: E402

MOST_TRIALS = 300  # in one check
LEAST_ROUND = 100  # characters: a round that saves less is the last one
SLOWER = 2.0  # a new proof may take this many times as long as the old one
MOST_ADDED = 1.0  # seconds that the new proofs of a file may add
CLOCK = 0.012  # seconds: smaller differences are not significant


class Trial(NamedTuple):
    lemma: str
    body: str
    edit: Edit  # empty for the old proof, and for edits that are tried together


def is_slow(old: float, new: float) -> bool:
    return new > SLOWER * old + CLOCK


class Search:
    """The search for a shorter proof of a lemma: the shortest proof so far, and everything that has been tried."""

    def __init__(self, lemma: Declaration, body: str) -> None:
        self.lemma, self.old, self.body = lemma, body, body
        self.options = {body: 0.0}  # proofs that pass, with the number of seconds that each adds
        self.measured = {body}  # proofs in `options` that were timed more than once
        self.tried: set[object] = {body}
        self.together: list[str] = []  # bodies that combine several edits, to be tried
        self.is_done, self.rounds, self.note = False, 0, ""

    def trials(self, file: ProofFile) -> list[Trial]:
        """Returns shorter proofs that have not been tried. If there are none, the search is finished."""
        made = self.untried(file)
        if not made and self.rounds == 0:
            self.rounds = 1
            made = self.untried(file)
        self.is_done = not made
        return made

    def drop(self) -> None:
        """Discards the chosen proof for good, and chooses the shortest of the others."""
        del self.options[self.body]
        self.body = min(self.options, key=len)

    def untried(self, file: ProofFile) -> list[Trial]:
        made = [Trial(self.lemma.name, body, ()) for body in self.together if len(body) < len(self.body) and body not in self.tried]
        for edit, body in shorter(file, self.lemma, self.body, self.rounds == 0):
            key = key_of(self.body, edit)
            if body not in self.tried and key not in self.tried:
                self.tried.add(key)
                made.append(Trial(self.lemma.name, body, edit))
        self.tried |= {one.body for one in made}
        return made

    def learn(self, passed: dict[Trial, float]) -> None:
        """Chooses the shortest proof that passed. The edits that passed can be tried again, separately and together."""
        base, edits = self.body, [one.edit for one in passed if one.edit]
        self.options |= {one.body: added for one, added in passed.items()}
        self.body = min(self.options, key=len)
        self.tried -= {key_of(base, edit) for edit in edits}
        wholes = [edits, [edit for edit in edits if all(end - start < 200 for start, end, _ in edit)]]
        self.together = [applied(base, merged(some)) for some in wholes if len(some) > 1]
        self.is_done = self.rounds > 0 and not passed
        self.rounds += 1


class Shrinker:
    def __init__(self, path: pathlib.Path, asked: argparse.Namespace) -> None:
        crate, _, *rest = path.relative_to(TOP / "crates").parts
        self.path, self.name = path, str(path.relative_to(TOP))
        self.text = path.read_text(encoding="utf-8")
        self.file = ProofFile(self.text)
        self.scratch = Scratch(crate, pathlib.PurePath(*rest), asked.rlibs, shlex.split(asked.prefix))
        opened = {word for line in self.all_lines() if line.strip().startswith("unfolding ") for word in line.split()[1:]}
        count = [one.name for one in self.file.declarations]
        lemmas = [one for one in self.file.declarations if one.is_lemma and one.name not in opened and count.count(one.name) == 1]
        lemmas = [one for one in lemmas if not asked.only or one.name in asked.only]
        self.searches = {one.name: Search(one, self.file.body(one)) for one in lemmas}
        self.number = 0

    def all_lines(self) -> list[str]:
        return [line for path in (TOP / "crates").glob("*/proofs/**/*.antt") for line in path.read_text(encoding="utf-8").splitlines()]

    def judge(self, trials: list[Trial]) -> list[tuple[bool, float]]:
        """Checks the trials in one run. For each trial, returns whether it passed and how many seconds it took."""
        modules = [""] + [self.file.alone(self.scratch.module, self.searches[one.lemma].lemma, one.body) for one in trials]
        report = self.scratch.check(self.text, modules)
        self.number += len(trials)
        if report.errors:
            raise Bad(f"{self.name}: the checker refuses what is not a trial:\n" + "\n".join(f"{file}:{line}: {text}" for file, line, text in report.errors))
        if not report.outcomes[0].passed:
            raise Bad(f"{self.name}: the lemmas that must pass and fail do not have their verdicts:\n{report.output[-3000:]}")
        return [(one.passed, one.seconds) for one in report.outcomes[1:]]

    def search(self) -> None:
        """Tries shorter proofs in rounds, until none passes or a round saves little."""
        for number in itertools.count(1):
            before = self.saved()
            batch: list[Trial] = []
            batches = [batch]
            for one in self.searches.values():
                trials = [] if one.is_done else one.trials(self.file)
                if len(batch) + len(trials) > MOST_TRIALS:
                    batch = []
                    batches.append(batch)
                if trials:
                    batch += [Trial(one.lemma.name, one.old, ()), *trials]
            for batch in filter(None, batches):
                began = time.monotonic()
                self.learn(batch, self.judge(batch))
                print(f"{self.name}: round {number}: {len(batch)} trials in {time.monotonic() - began:.0f} s, {self.saved()} characters fewer", file=sys.stderr)
            if all(one.is_done for one in self.searches.values()) or number > 1 and self.saved() < before + LEAST_ROUND:
                break

    def learn(self, batch: list[Trial], verdicts: list[tuple[bool, float]]) -> None:
        passed: dict[str, dict[Trial, float]] = {}
        old: dict[str, float] = {}
        for trial, (is_right, seconds) in zip(batch, verdicts):
            search = self.searches[trial.lemma]
            if trial.body == search.old:
                search.note = "" if is_right else "its proof does not pass in a module of its own"
                old[trial.lemma], passed[trial.lemma] = seconds, {}
            elif is_right and not search.note and not is_slow(old[trial.lemma], seconds):
                passed[trial.lemma][trial] = seconds - old[trial.lemma]
        for name, trials in passed.items():
            self.searches[name].learn(trials)
            self.searches[name].is_done |= bool(self.searches[name].note)

    def saved(self) -> int:
        return sum(len(one.old) - len(one.body) for one in self.searches.values())

    def bodies(self) -> dict[str, str]:
        return {name: one.body for name, one in self.searches.items() if one.body != one.old}

    def added(self) -> float:
        """Returns the number of seconds that the chosen proofs add."""
        return sum(one.options[one.body] for one in self.searches.values())

    def choose(self) -> None:
        """Chooses short proofs that together add at most MOST_ADDED seconds. Starts with the shortest proof of each lemma, and
        then replaces proofs with longer ones, beginning with those that save the most time per character."""
        for one in self.searches.values():
            one.body = min(one.options, key=len)
        while self.added() > MOST_ADDED:
            _, name, body = max(
                ((one.options[one.body] - added) / (len(body) - len(one.body)), name, body)
                for name, one in self.searches.items()
                for body, added in one.options.items()
                if added < one.options[one.body] and len(body) > len(one.body)
            )
            self.searches[name].body = body

    def measure(self) -> bool:
        """Times each chosen proof that has not been measured: three times, alternating with the old proof. Drops proofs that
        fail or are too slow. Returns whether there were any proofs to time."""
        names = [name for name, one in self.searches.items() if one.body not in one.measured]
        pairs = [Trial(name, body, ()) for name in names for body in (self.searches[name].old, self.searches[name].body) * 3]
        for start in range(0, len(pairs), MOST_TRIALS):
            batch = pairs[start : start + MOST_TRIALS]
            verdicts = self.judge(batch)
            for at in range(0, len(batch), 6):
                search, six = self.searches[batch[at].lemma], verdicts[at : at + 6]
                old, new = min(one[1] for one in six[::2]), min(one[1] for one in six[1::2])
                search.options[search.body] = new - old
                search.measured.add(search.body)
                if not all(passed for passed, _ in six) or is_slow(old, new):
                    search.drop()
        return bool(names)

    def whole(self) -> str:
        """Returns the text of the file with all changes that pass together and are not too slow."""
        while True:
            self.choose()
            while self.measure():
                self.choose()
            if not self.bodies():
                return self.text
            text = self.file.changed(self.bodies())
            report = self.scratch.check(text, [])
            if report.proved and not report.errors:
                return text
            wrong = self.wrong_lemmas(text, [line for _, line, _ in report.errors])
            if not wrong:
                raise Bad(f"{self.name}: the file with all changes is refused:\n{report.output[-3000:]}")
            for name in wrong:
                self.searches[name].drop()

    def wrong_lemmas(self, text: str, lines: list[int]) -> set[str]:
        """Returns the names of the changed lemmas at these lines."""
        changed = self.bodies()
        return {one.name for one in ProofFile(text).declarations for line in lines if one.first < line <= one.last and one.name in changed}

    def run(self, applies: bool) -> None:
        began = time.monotonic()
        try:
            self.search()
            text = self.whole()
        finally:
            self.scratch.close()
        if len(text) >= len(self.text):
            text = self.text
        untried = [f"{name} ({one.note})" for name, one in self.searches.items() if one.note]
        if untried:
            print(f"{self.name}: not tried: {', '.join(untried)}", file=sys.stderr)
        if text == self.text:
            print(f"{self.name}: nothing is shorter ({self.number} trials in {time.monotonic() - began:.0f} s)")
            return
        if applies:
            if self.path.read_text(encoding="utf-8") != self.text:
                raise Bad(f"{self.name} was changed meanwhile")
            new = self.scratch.kept / "new"  # in the same file system, so that the file is replaced in one step
            new.write_text(text, encoding="utf-8")
            os.replace(new, self.path)
        else:
            shown = difflib.unified_diff(self.text.splitlines(True), text.splitlines(True), f"a/{self.name}", f"b/{self.name}")
            sys.stdout.writelines(shown)
        print(
            f"{self.name}: {len(self.text)} to {len(text)} characters, {self.added():+.2f} s, {len(self.bodies())} of {len(self.searches)} lemmas "
            f"({self.number} trials in {time.monotonic() - began:.0f} s)"
        )


# ---------------------------------------------------------------- unused lemmas


def without(text: str, names: set[str]) -> str:
    """Returns the text of a file without some of its lemmas and the comments directly above them."""
    file = ProofFile(text)
    lines = list(file.lines)
    for one in reversed(file.declarations):
        if one.name in names and one.is_lemma:
            first = one.first
            while first > 0 and lines[first - 1].lstrip().startswith("--"):
                first -= 1
            del lines[first : one.last + (one.last < len(lines) and not lines[one.last].strip())]
    return "\n".join(lines)


def without_imports(text: str, module: str, names: set[str]) -> str:
    """Returns the text of a file without its imports of these names from a module."""

    def kept(found: re.Match[str]) -> str:
        left = [name for name in found[2].split(", ") if name.partition(" as ")[0] not in names]
        return f"{found[1]}{{{', '.join(left)}}}\n" if left else ""

    return re.sub(rf"(?m)^((?:pub )?use {re.escape(module)}\.)\{{(.*)\}}\n", kept, text)


def unused_names() -> dict[pathlib.Path, set[str]]:
    """Returns the unused lemmas in each proof file. Only their own text, imports, and other unused lemmas mention them."""
    folder = TOP / "crates"
    others = [*folder.glob("*/src/**/*.rt"), *folder.glob("*/specs/**/*.antt"), *folder.glob("*/must-fail/*.edit")]
    words: dict[str, int] = {}

    def count(text: str, by: int) -> None:
        for line in text.splitlines():
            if not is_use(line):
                for word in tokens(line.partition("--")[0]) | set(re.findall(r"::(\w+)", line)):
                    words[word] = words.get(word, 0) + by

    for path in others:
        count(path.read_text(encoding="utf-8"), 1)
    left: list[tuple[pathlib.Path, Declaration, str]] = []
    for path in sorted(folder.glob("*/proofs/**/*.antt")):
        file = ProofFile(path.read_text(encoding="utf-8"))
        count("\n".join(file.lines), 1)
        for one in file.declarations:
            text = file.text(one.first, one.last)
            if one.is_lemma and not path.stem.endswith("Examples") and f"{one.name} : goal." not in text:
                left.append((path, one, text))
    found: dict[pathlib.Path, set[str]] = {}
    while True:
        more = []
        for path, one, text in left:
            count(text, -1)
            more += [(path, one, text)] if not words.get(one.name) else []
            count(text, 1)
        if not more:
            return found
        for path, one, text in more:
            count(text, -1)
            found.setdefault(path, set()).add(one.name)
        left = [one for one in left if one not in more]


def check_unused(path: pathlib.Path, names: set[str], asked: argparse.Namespace) -> str:
    """Checks a file without some of its lemmas, and the modules in the crate that use it.

    Returns the error messages, which are empty if nothing went wrong.
    """
    crate, _, *rest = path.relative_to(TOP / "crates").parts
    scratch = Scratch(crate, pathlib.PurePath(*rest), asked.rlibs, shlex.split(asked.prefix))
    try:
        text = without(path.read_text(encoding="utf-8"), names)
        for user in (scratch.top / "proofs").rglob("*.antt"):
            if user != scratch.path and f"use {scratch.module}." in (old := user.read_text(encoding="utf-8")):
                user.write_text(without_imports(old, scratch.module, names), encoding="utf-8")
                scratch.add_user(user)
        report = scratch.check(text, [])
        return "" if report.proved and not report.errors else "\n".join(f"{file}:{line}: {text}" for file, line, text in report.errors) or report.output[-1000:]
    finally:
        scratch.close()


def list_unused(asked: argparse.Namespace) -> list[str]:
    wrongs: list[str] = []
    for path, names in unused_names().items():
        if asked.files and path not in asked.files:
            continue
        refused = check_unused(path, names, asked)
        size = len(path.read_text(encoding="utf-8")) - len(without(path.read_text(encoding="utf-8"), names))
        name = path.relative_to(TOP)
        if refused:
            wrongs.append(f"{name}: refused without {', '.join(sorted(names))}:\n{refused}")
        else:
            print(f"{name}: {size} characters: {', '.join(sorted(names))}", flush=True)
    return wrongs


def main() -> None:
    asker = argparse.ArgumentParser(description=__doc__, formatter_class=argparse.RawDescriptionHelpFormatter)
    asker.add_argument("files", nargs="*", type=lambda name: pathlib.Path(name).resolve(), metavar="FILE.antt")
    asker.add_argument("--apply", action="store_true", help="change the files")
    asker.add_argument("--unused", action="store_true", help="list lemmas that nothing names, after a check without them")
    asker.add_argument("--only", metavar="LEMMA", action="append", help="try only this lemma (repeatable)")
    asker.add_argument("--rlibs", metavar="FOLDER", type=lambda name: pathlib.Path(name).resolve(), help="where the crates below are built (default: crates/NAME/out/rlib)")
    asker.add_argument("--prefix", metavar="WORDS", default="", help="words before the command of each check")
    asked = asker.parse_args()
    if not asked.files and not asked.unused:
        asker.error("name a proof file, or use --unused")
    for path in asked.files:
        parts = path.relative_to(TOP / "crates").parts if path.is_relative_to(TOP / "crates") else ()
        if len(parts) < 3 or parts[0] not in crates() or parts[1] != "proofs" or not path.is_file():
            asker.error(f"{path} is no proof file of this checkout")
    signal.signal(signal.SIGTERM, lambda number, _: sys.exit(128 + number))
    wrongs = []
    try:
        if asked.unused:
            wrongs = list_unused(asked)
        for path in [] if asked.unused else asked.files:
            try:
                Shrinker(path, asked).run(asked.apply)
            except Bad as wrong:
                print(wrong, file=sys.stderr)
                wrongs.append(f"{path.relative_to(TOP)} is unchanged")
    except KeyboardInterrupt:
        sys.exit(130)
    except (Bad, OSError) as wrong:
        wrongs.append(str(wrong))
    finish(wrongs)


if __name__ == "__main__":
    main()
