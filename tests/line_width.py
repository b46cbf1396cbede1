#!/usr/bin/env python3
"""Reports lines of more than 100 characters in the crates' code and definitions, and of more than 200 in their proofs.

    tests/line_width.py [--write [FILE..]]        --write: break the long lines in these proofs (default: in all proofs)

The test reads each .rt file in src/, and each .antt file in specs/ and proofs/. For each line that is too long, it prints the
file and the line number. It skips imports and attributes, which `rt fmt` keeps on one line, and `--` comments. Outside proofs,
it also skips every line that contains a quoted string. In proofs, it skips such a line only if the line cannot be broken.

--write breaks a line before an arrow, after a comma, before an operator or between two arguments, wherever the fewest brackets
are open, and indents each continuation line by four more spaces. Afterwards, run `rt fmt`.
"""
import pathlib
import re
import sys

from lib import TOP, finish

MOST, OF_PROOFS = 100, 200
PROOFS_ARE_HELD = True  # whether to check proofs as well
ONE_LINE = re.compile(r"\s*((unfoldable )?(pub )?use |ghost use |#\[|--)")
TOKEN = re.compile(r'"(?:[^"\\]|\\.)*"|\s+|[()\[\]{}]|[,;]|[^\s()\[\]{},;"]+')
# Tokens that can begin a line (best first), tokens that must not begin a line, and tokens that must not end a line.
BEFORE = [{"→", "|"}, {"∙", "×", "⊎"}, {"≡", "≤", "<"}, {"++", "∷", "&&", "||"}]
TIED_BEFORE = {":", "=", "≔", "at", "where", "in", "[", "{", ".", "as"}
TIED_AFTER = {"record", "rw", "let", "λ", "at", "where", "unfolding", "pub", "abbrev", "unfoldable", ":", "elim", "simp", "if", "|", "→", "∙"}


def breaks(line: str) -> list:
    """Returns the places where a line can be broken: for each, the number of open brackets, a rank and the position."""
    code = line.partition(" -- ")[0]
    found, depth, tokens = [], 0, [token[0] for token in TOKEN.finditer(code)]
    at = 0
    for number, token in enumerate(tokens):
        if token in "([{":
            depth += 1
        elif token in ")]}":
            depth -= 1
        elif token.isspace() and 0 < number < len(tokens) - 1:
            before, after = tokens[number - 1], tokens[number + 1]
            if after in TIED_BEFORE or before in TIED_AFTER or before.endswith(".") and before != ".":
                pass
            elif before in (",", ";") or before == "=" and depth == 0:
                found.append((depth, 0, at + len(token)))
            else:
                rank = next((rank for rank, words in enumerate(BEFORE) if after in words), len(BEFORE) + 1)
                found.append((depth, rank, at + len(token)))
        at += len(token)
    return found


def broken(line: str) -> list:
    """Breaks a long line and returns the resulting lines. A line that cannot be broken remains unchanged."""
    margin = " " * (len(line) - len(line.lstrip()) + 4)
    lines, rest = [], line
    while len(rest) > OF_PROOFS:
        first = len(rest) - len(rest.lstrip())
        near = [one for one in breaks(rest) if OF_PROOFS // 3 < one[2] <= OF_PROOFS]
        if not near:
            break
        best = min(near, key=lambda one: (one[0], one[1], -one[2]))
        if best[2] <= first + 4:
            break
        lines.append(rest[: best[2]].rstrip())
        rest = margin + rest[best[2] :]
    return [*lines, rest]


def is_wide(path: pathlib.Path, line: str) -> bool:
    most = OF_PROOFS if "proofs" in path.parts else MOST
    return len(line) > most and not ONE_LINE.match(line) and ('"' not in line or most == OF_PROOFS and len(broken(line)) > 1)


def write(paths: list) -> None:
    """Breaks the long lines in these files."""
    for path in paths:
        lines = path.read_text(encoding="utf-8").splitlines()
        made = [piece for line in lines for piece in (broken(line) if is_wide(path, line) else [line])]
        if made != lines:
            path.write_text("\n".join(made) + "\n", encoding="utf-8")


def main() -> None:
    if sys.argv[1:2] == ["--write"]:
        write([pathlib.Path(name).resolve() for name in sys.argv[2:]] or sorted(TOP.glob("crates/*/proofs/**/*.antt")))
    folders = ["src/**/*.rt", "specs/**/*.antt"] + ["proofs/**/*.antt"] * PROOFS_ARE_HELD
    finish(
        [
            f"{path.relative_to(TOP)}:{number}: {len(line)} characters"
            for folder in folders
            for path in sorted(TOP.glob(f"crates/*/{folder}"))
            for number, line in enumerate(path.read_text(encoding="utf-8").splitlines(), 1)
            if is_wide(path, line)
        ]
    )


if __name__ == "__main__":
    main()
