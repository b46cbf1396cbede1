"""Parses a script's command line into options and operands.

    def work(words):
        asked = bufr_options.Asked(words, flags=["--json"], values={"-c": str, "--max-length": bufr_options.from_12})
        as_json = asked.has("--json")
        columns = asked.last("-c")            # None without -c
        for file in asked.files():            # None for standard input
            ...
    bufr_guard.run(work, __doc__)

`-c VALUE` means the same as `-cVALUE`, and `--name VALUE` means the same as `--name=VALUE`. Options can follow operands.
After `--`, every word is an operand. `values` contains a function for each option that takes a value. The function converts
the word to a value, or raises a `ValueError` that says what was expected.

If the command line is invalid, `Asked` raises `bufr_guard.Failed` with a message that refers to --help. If the command line
contains --help or --version, `Asked` raises `bufr_guard.Question`, which `bufr_guard.run` handles.
"""
from __future__ import annotations

import bufr_guard

TYPE_CHECKING = False
if TYPE_CHECKING:
    from typing import Any, Callable, Mapping, Optional, Sequence

    from bufr_conditions import Conditions

ANSWERS = {"-h": "--help", "--help": "--help", "-V": "--version", "--version": "--version"}


class Asked:
    """The options and operands on a command line.

    If `takes_conditions` is true, operands such as `category=0` are treated as values of --where.
    """

    def __init__(
        self,
        words: Sequence[str],
        flags: Sequence[str] = (),
        values: Mapping[str, Callable[[str], Any]] = {},
        takes_conditions: bool = False,
    ) -> None:
        self.operands: list[str] = []
        self.given: dict[str, list[Any]] = {}
        rest = iter(words)
        for word in rest:
            if word == "--":
                self.operands += rest
            elif word in ANSWERS:
                raise bufr_guard.Question(ANSWERS[word])
            elif takes_conditions and is_condition(word):
                self.add("--where", word, str)
            elif word == "-" or not word.startswith("-"):
                self.operands.append(word)
            elif word in flags:
                self.given[word] = []
            else:
                name, value = parts(word)
                if name in flags:
                    raise misused(f"{name} does not take a value")
                if name not in values:
                    raise misused(f"unknown option {name if word.startswith('--') else word}")
                value = next(rest, None) if value is None else value
                if value is None:
                    raise misused(f"{name} needs a value")
                self.add(name, value, values[name])

    def add(self, name: str, value: str, kind: Callable[[str], Any]) -> None:
        try:
            self.given.setdefault(name, []).append(kind(value))
        except ValueError as error:
            raise misused(f"{name} '{value}': {error}") from None

    def has(self, name: str) -> bool:
        """Returns whether an option was given."""
        return name in self.given

    def all(self, name: str) -> list[Any]:
        """Returns a list of all values given for an option, in order."""
        return self.given.get(name, [])

    def last(self, name: str, default: Any = None) -> Any:
        """Returns the last value of an option, or `default` if the option was not given."""
        return [default, *self.all(name)][-1]

    def files(self, skipped: int = 0) -> list[Optional[str]]:
        """Returns all operands after the first `skipped` ones as file names.

        None stands for standard input. It replaces the operand `-`, and is the only name if no operands remain.
        """
        return [None if file == "-" else file for file in self.operands[skipped:]] or [None]

    def conditions(self) -> Optional[Conditions]:
        """Returns the conditions given with --where, or None if --where was not given."""
        return conditions_of(self.all("--where")) if self.has("--where") else None


def conditions_of(words: Sequence[str]) -> Conditions:
    import bufr_conditions

    try:
        return bufr_conditions.Conditions(words)
    except ValueError as error:
        raise misused(str(error)) from None


def is_condition(word: str) -> bool:
    """Returns whether a word has the form KEY=VALUE or KEY!=VALUE."""
    key, equals, _ = word.partition("=")
    key = key[:-1] if key.endswith("!") else key
    return bool(equals) and key.isascii() and key.isalpha() and key.islower()


def parts(word: str) -> tuple[str, Optional[str]]:
    """Splits `--name=VALUE` or `-cVALUE` into the option and its value. The value is None if the word does not contain one."""
    if word.startswith("--"):
        name, equals, value = word.partition("=")
        return name, value if equals else None
    return word[:2], word[2:] or None


def misused(why: str) -> bufr_guard.Failed:
    """Returns the exception for an invalid command line."""
    return bufr_guard.Failed(f"{why}; see {bufr_guard.name()} --help")


def number_from(least: int) -> Callable[[str], int]:
    """Returns a function that converts a word to a whole number.

    The function raises a `ValueError` if the word is not a whole number of at least `least`.
    """

    def number(word: str) -> int:
        if not (word.isascii() and word.isdigit() and len(word) < 19) or int(word) < least:
            raise ValueError(f"expected a whole number of at least {least}")
        return int(word)

    return number


# For --max-length: the shortest possible message is twelve bytes long.
from_12 = number_from(12)
