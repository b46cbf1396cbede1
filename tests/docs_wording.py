#!/usr/bin/env python3
"""Prints the number of words on each page and the longest sentences, and fails if the README has too many words.

    tests/docs_wording.py [-v]        -v: print all sentences with more than 25 words

Words in code blocks count towards the page, but not towards a sentence. Each table cell and list item counts as a sentence.
"""
import re
import sys

from lib import DOCS, TOP, finish

MOST = {"README.md": 900}
LONG = 25


def sentences(text: str) -> list:
    """Returns the sentences on a page, each as a list of words. Text in backquotes counts as one word."""
    text = re.sub(r"^ *```.*?^ *```$", "\n", text, flags=re.M | re.S)
    text = re.sub(r"^#.*$", "\n", text, flags=re.M)
    text = re.sub(r"`[^`\n]*`", "code", text)
    text = re.sub(r"\]\([^)]*\)", "]", text)
    pieces = re.split(r"(?<=[.!?])[)*\"]*\s+|\n\s*(?:\n|[-|]|\d+\. )|\s\|\s", text)
    return [words for words in (re.findall(r"[\w'×^/.,+-]*\w[\w'×^/.,+-]*", piece) for piece in pieces) if words]


def main() -> None:
    wrongs, total, every = [], 0, []
    for path in DOCS:
        page = str(path.relative_to(TOP))
        text = path.read_text(encoding="utf-8")
        words = len(text.split())
        total += words
        found = sentences(text)
        every += [(len(one), page, " ".join(one)) for one in found]
        whole = [len(one) for one in found if len(one) > 4]  # shorter ones are mostly table cells
        bound = f" of {MOST[page]}" if page in MOST else ""
        print(f"{words:6}{bound}  {page}: {sum(whole) / max(1, len(whole)):.0f} words a sentence, at most {max(map(len, found))}")
        if words > MOST.get(page, words):
            wrongs.append(f"{page} has {words} words, over {MOST[page]}")
    print(f"{total:6} in all")
    longest = [one for one in sorted(every, reverse=True) if one[0] > LONG]
    for length, page, sentence in longest if "-v" in sys.argv else longest[:5]:
        print(f"{length:6} {page}: {sentence if '-v' in sys.argv else sentence[:100]}")
    finish(wrongs)


if __name__ == "__main__":
    main()
