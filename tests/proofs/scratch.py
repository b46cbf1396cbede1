"""Checks modules in a copy of a crate. A single check reads a proof file and hundreds of small modules below that file."""
import fcntl
import os
import pathlib
import re
import shutil
import signal
import subprocess
import tempfile
from typing import NamedTuple

from antt import Bad, crates
from lib import TOP

NEEDS = (
    "use Rattle.std.proofs.Common.{◌≡◌, zero, suc, refl, arith, rules}\n"
    "use Rattle.std.proofs.lemmas.Grind.{common_steps}\n"
)
# Each module ends with a lemma that must pass and one that must be rejected. If the checker does not reject the last one, it
# did not read the module.
CONTROLS = """
shrink_passes : zero ≡ zero
shrink_passes = refl

shrink_fails : zero ≡ suc zero
shrink_fails = refl
"""
LAW = """//! A law whose answer imports the modules that are tried.
ghost use Rattle.std.specs.Prelude.{◌≡◌, true};

/// A law whose answer imports the modules that are tried.
pub fn shrink_law()
    ensures { true ≡ true }
{}
"""
ERROR = re.compile(r"^(?:\./)?(\S+?\.(?:antt|rt)):(?:(\d+):\d+:)? error: (.*)$")


class Outcome(NamedTuple):
    passed: bool
    seconds: float
    errors: list[tuple[int, str]]  # the line and the message


class Run(NamedTuple):
    status: int
    output: str


class Report(NamedTuple):
    proved: bool  # whether the requested functions and everything that they depend on are proved
    outcomes: list[Outcome]
    errors: list[tuple[str, int, str]]  # errors in other files: the file, the line and the message
    output: str


def libraries(crate: str) -> list[str]:
    """Returns all crates that a crate depends on, directly or indirectly."""
    found: list[str] = []
    for used in crates()[crate]:
        found += [one for one in [used, *(libraries(used) if used in crates() else [])] if one not in found]
    return found


def function(file: pathlib.PurePath) -> str:
    """Returns the path of the function that this file proves. For a cycle of calls, this is the path of its module or type."""
    return "::".join(part for part in file.parent.parts if not part.startswith("+"))


class Scratch:
    """A copy of a crate in which proofs are tried. The only directory that changes in the original crate is `out/shrink`."""

    def __init__(self, crate: str, file: pathlib.PurePath, rlibs: pathlib.Path | None, prefix: list[str]) -> None:
        self.crate, self.rlibs, self.prefix, self.rounds = crate, rlibs, prefix, 0
        self.room = tempfile.TemporaryDirectory(prefix="shrink-")
        self.top = pathlib.Path(self.room.name) / crate
        shutil.copytree(TOP / "crates" / crate, self.top, ignore=shutil.ignore_patterns("out", "must-fail"))
        self.kept = TOP / "crates" / crate / "out/shrink"
        self.kept.mkdir(parents=True, exist_ok=True)
        self.lock = open(self.kept / "lock", "w", encoding="utf-8")
        fcntl.flock(self.lock, fcntl.LOCK_EX)  # a simultaneous run on this crate would affect the times
        self.path = self.top / "proofs" / file
        self.module = ".".join(["Rattle", crate, "proofs", *file.with_suffix("").parts])
        self.users: list[str] = []  # other modules to check
        self.root = "src/main.rt" if (self.top / "src/main.rt").is_file() else "src/lib.rt"
        self.is_answer = file.stem in ("Answers", "Invariants")
        if self.is_answer:
            self.asked = [function(file)]
        else:
            self.asked = ["shrink_law::shrink_law"]
            root = self.top / self.root
            root.write_text(re.sub(r"(?m)^(pub mod|mod) ", r"mod shrink_law;\n\1 ", root.read_text(encoding="utf-8"), count=1), encoding="utf-8")
            (self.top / "src/shrink_law.rt").write_text(LAW, encoding="utf-8")
            (self.top / "proofs/shrink_law/shrink_law").mkdir(parents=True)

    def add_user(self, path: pathlib.Path) -> None:
        """Adds another proof file in the copy to all later checks."""
        parts = path.relative_to(self.top / "proofs").with_suffix("").parts
        if parts[-1] in ("Answers", "Invariants"):
            self.asked.append(function(path.relative_to(self.top / "proofs")))
        else:
            self.users.append(".".join(["Rattle", self.crate, "proofs", *parts]))

    def close(self) -> None:
        self.room.cleanup()
        self.lock.close()

    def words(self) -> list[str]:
        """Returns the command that checks the requested functions."""
        rt = shutil.which("rt")
        if not rt:
            raise Bad("rt is not on the PATH")
        kit = pathlib.Path(rt).resolve().parent.parent
        words = [*self.prefix, "nice", "-n", "19", f"{kit}/bin/rattle", "check", "--crate-name", self.crate, self.root]
        words += [word for asked in self.asked for word in ("--only", asked)]
        if self.crate == "bufr_c":
            words += ["--crate-type", "staticlib"]
        for one in dict.fromkeys(["core", "std", *libraries(self.crate)]):
            if one not in crates():
                words += ["--extern", f"{one}={kit}/rlibs/{one}.rlib"]
                continue
            built = self.rlibs / f"{one}.rlib" if self.rlibs else TOP / "crates" / one / "out/rlib" / f"{one}.rlib"
            if not built.exists():
                raise Bad(f"there is no {built}; run `rt lib` in crates/{one}, or use --rlibs")
            words += ["--extern", f"{one}={built}"]
        words += ["-L", f"dependency={kit}/rlibs", "--antt-project", f"{kit}/rattle/logic/antt-project.json"]
        return [*words, "--logic-built", f"{kit}/logic_built", "--incremental", str(self.kept), "--jobs", "1"]

    def check(self, text: str, modules: list[str]) -> Report:
        """Checks the proof file with this text, and with these modules below it. Raises Bad if there is no verdict."""
        self.rounds += 1
        names = [f"Tried{os.getpid()}x{self.rounds}x{number}" for number in range(len(modules))]
        below = self.path.with_suffix("")
        declared = "".join(f"pub mod {name}\n" for name in names)
        self.path.write_text(declared + text, encoding="utf-8")
        for name, module in zip(names, modules):
            below.mkdir(exist_ok=True)
            (below / f"{name}.antt").write_text(NEEDS + module + CONTROLS, encoding="utf-8")
        if not self.is_answer:
            imports = "".join(f"use {self.module}.{name} as x{name}\n" for name in names)
            imports += "".join(f"use {user} as user{number}\n" for number, user in enumerate(self.users))
            (self.top / "proofs/shrink_law/shrink_law/Answers.antt").write_text(
                f"use Rattle.std.proofs.Common.{{refl}}\nuse {self.module} as tried\n{imports}"
                f"use Rattle.{self.crate}.proofs.shrink_law.shrink_law.Goals as goal\n\npub returns : goal.returns\nreturns c = refl\n",
                encoding="utf-8",
            )
        clock = self.kept / "began"
        clock.touch()
        try:
            return self.report(names, modules, run(self.words(), self.top), clock.stat().st_mtime)
        finally:
            for tried in [*self.kept.rglob(f"*.Tried{os.getpid()}x*"), *below.glob("Tried*.antt")]:
                tried.unlink()

    def report(self, names: list[str], modules: list[str], ran: Run, began: float) -> Report:
        verdict = re.search(r"(?m)^only=(\d+) proved=(\d+)$", ran.output)
        if ran.status not in (0, 1) or not verdict:
            raise Bad(f"the check of {self.crate} gave no verdict (status {ran.status}):\n{ran.output[-3000:]}")
        errors = [(one[1], int(one[2] or 0), one[3]) for one in map(ERROR.match, ran.output.splitlines()) if one]
        times, outcomes = self.times(names, began), []
        for name, module in zip(names, modules):
            own = [(line, message) for file, line, message in errors if file.endswith(f"/{name}.antt")]
            last = (NEEDS + module + CONTROLS).count("\n")
            passed = [(line, "`shrink_fails`" in message) for line, message in own] == [(last, True)]
            if passed and name not in times:
                raise Bad(f"the checker wrote no file in {self.kept} for a module that it read, so times are not known")
            outcomes.append(Outcome(passed, times.get(name, 0.0), own))
        proved = ran.status == 0 and verdict[1] == verdict[2]
        return Report(proved, outcomes, [one for one in errors if "/Tried" not in one[0]], ran.output)

    def times(self, names: list[str], began: float) -> dict[str, float]:
        """Returns the seconds that each module took, based on the times when the checker wrote a file for each module."""
        written = []
        for path in self.kept.rglob("*.oantt"):
            changed = path.stat().st_mtime
            if changed >= began and "records" not in path.parts:
                written.append((changed, path.stem.rpartition(".")[2]))
        written.sort()
        gaps = {name: changed - before for (before, _), (changed, name) in zip([(began, ""), *written], written)}
        return {name: gaps[name] for name in names if name in gaps}


def run(words: list[str], folder: pathlib.Path) -> Run:
    """Runs a command in its own process group, and kills the whole group if this program is interrupted."""
    with subprocess.Popen(words, cwd=folder, stdout=subprocess.PIPE, stderr=subprocess.STDOUT, start_new_session=True) as process:
        try:
            output, _ = process.communicate()
        except BaseException:
            os.killpg(process.pid, signal.SIGKILL)
            raise
    return Run(process.returncode, output.decode("utf-8", "replace"))
