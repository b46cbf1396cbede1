"""Checks lines from `bufr ls` against conditions, for bufr-extract, bufr-csv and bufr_text.

    conditions = bufr_conditions.Conditions(["category=0", "time=2024-01-02"])
    for line in listing:        # a line as bytes
        if conditions.are_met(line):
            ...
    note = conditions.note()    # says how many edition 3 messages were left out; empty if there were none

A condition has the form KEY=VALUE or KEY!=VALUE. KEY is the name of a field. VALUE must match the whole field, or the
beginning of the field up to a separator (/, -, T or :). For example, category=0 matches 0/2/0, and time=2024-01-02 matches
any time on that day. To match any of several values, separate them with commas. A line must meet every condition.
`Conditions` raises `ValueError` if a condition is invalid.
"""
from __future__ import annotations

import re
from typing import Iterable, List, Tuple

KEYS = (
    "offset length edition centre update category tables time subsets observed compressed optional descriptors".split()
)
# Examples of the values for keys with several numbers.
EXAMPLES = {"centre": "98/0", "category": "0/2/0", "tables": "0/39/0"}
# Header keys that are not fields in the output of `bufr ls`, and the fields that contain them.
FIELDS = {
    **dict.fromkeys("year month day hour minute second".split(), "time, as in time=2023-03"),
    "subcentre": "centre, as in centre=98/0",
    **dict.fromkeys(("subcategory", "localsubcategory"), "category, as in category=0/2/0"),
    **dict.fromkeys(("master", "masterversion", "localversion"), "tables, as in tables=0/39/0"),
}
# A time, or its beginning up to a separator.
TIME = re.compile(r"\d{4,}(-\d{2,}(-\d{2,}(T\d{2,}(:\d{2,}(:\d{2,})?)?)?)?)?").fullmatch


class Conditions:
    """Conditions that a line must meet.

    For each condition, `patterns` contains a pair: whether the condition is negated, and the pattern to search for. The
    patterns work with grep -E as well as with `re`. Edition 3 messages contain only a two-digit year: `bufr ls` prints 2024
    as 0024, so time=2024 does not match these messages. `left_out` counts the messages that are left out for this reason.
    """

    def __init__(self, words: Iterable[str]) -> None:
        self.patterns: List[Tuple[bool, str]] = []
        # The first condition on `time` that can leave out edition 3 messages, and the values that would select them.
        self.asked = ""
        self.of_century: List[str] = []
        self.left_out, self.is_told = 0, False
        # The number of lines that were checked, and the number of those that meet the conditions. Both include the lines of
        # messages that are left out.
        self.seen = self.met = 0
        if isinstance(words, str) or not isinstance(words, Iterable):
            error = ValueError if isinstance(words, str) else TypeError
            raise error(f"where must be a list of conditions such as ['category=0'], not {words!r}")
        for word in words:
            self.add(word)
        self.compiled = [(negated, re.compile(pattern.encode())) for negated, pattern in self.patterns]
        self.is_left_out = re.compile(self.pattern_of_left_out().encode())

    def add(self, word: str) -> None:
        found = re.fullmatch(r"([^!=]+)(!?)=(.*)", word) if isinstance(word, str) else None
        if isinstance(word, str) and re.match("[0-3][0-9]{5}", word):
            reason = "conditions select messages by their header, so they cannot contain descriptors"
            raise ValueError(f"{word!r} is not a condition: {reason}")
        if not found:
            raise ValueError(f"{word!r} is not a condition: expected KEY=VALUE or KEY!=VALUE")
        key, negated, text = found.groups()
        if key not in KEYS:
            advice = f"; use {FIELDS[key]}" if key in FIELDS else ""
            raise ValueError(f"unknown key '{key}' in '{word}'{advice}; the keys are {' '.join(KEYS)}")
        if not re.fullmatch(r"[0-9T:/-]+(,[0-9T:/-]+)*", text):
            raise ValueError(f"the value in '{word}' can never match; use only digits, T, colons, slashes and hyphens")
        values = text.split(",")
        if key == "time" and not all(map(TIME, values)):
            raise ValueError(f"the value in '{word}' can never match; write the time in the form time=2023-03-14T18")
        example = EXAMPLES.get(key, "1")
        numbers = re.compile("(0|[1-9][0-9]*)(/(0|[1-9][0-9]*)){0,%d}" % example.count("/")).fullmatch
        if key != "time" and not all(map(numbers, values)):
            form = f"{key}={example}, without leading zeros"
            raise ValueError(f"the value in '{word}' can never match; write it in the form {form}")
        pattern = f"(^| ){key}=({'|'.join(values)})([ T:/-]|$)"
        if key == "time" and not negated:
            # Edition 3 stores 2000 as 0 or 100.
            stored = [f"00{year[2:]}" for year in values] + [f"0100{year[4:]}" for year in values if year[2:4] == "00"]
            of_century = [year for year in dict.fromkeys(stored) if year[:4] not in {value[:4] for value in values}]
            if of_century:
                # The pattern also matches edition 3 messages, so that they can be counted before they are left out.
                self.asked = self.asked or word
                self.of_century += of_century
                pattern += f"| edition=3 .* time=({'|'.join(of_century)})[ T:-]"
        self.patterns.append((bool(negated), pattern))

    def pattern_of_left_out(self) -> str:
        """Returns a pattern, without capturing groups, for lines that meet the conditions but are left out.

        If no messages can be left out, the pattern never matches.
        """
        return f" edition=3 .* time=(?:{'|'.join(self.of_century)})[ T:-]" if self.of_century else "(?!)"

    def are_met(self, line: bytes) -> bool:
        """Returns whether a line meets every condition. Also counts the edition 3 messages that are left out."""
        line = line.rstrip(b"\n")
        self.seen += 1
        if any(bool(pattern.search(line)) == negated for negated, pattern in self.compiled):
            return False
        self.met += 1
        is_left_out = bool(self.is_left_out.search(line))
        self.left_out += is_left_out
        return not is_left_out

    def unmet(self) -> str:
        """Returns a warning if there were lines but none of them met the conditions, or an empty string otherwise."""
        return "no messages match the conditions in where=" if self.seen and not self.met else ""

    def note(self, so_far: str = "") -> str:
        """Returns a note that says how many edition 3 messages were left out, or an empty string if none were."""
        if not self.left_out:
            return ""
        messages = "1 edition 3 message" if self.left_out == 1 else f"{self.left_out} edition 3 messages"
        both = f"{self.asked},{','.join(self.of_century)}"
        advice = f"to select messages of both editions, use {both}"
        return f"left out {messages}{so_far}, because edition 3 has only two-digit years; {advice}"

    def new_note(self, so_far: str) -> List[str]:
        """Returns a list that contains the note, or an empty list if there is no note or it has already been returned."""
        notes = [self.note(so_far)] * (self.left_out > 0 and not self.is_told)
        self.is_told = self.left_out > 0
        return notes
