#!/usr/bin/env python3
"""Finds the words of tests/words.txt in the files of the repository, and says what to write instead.

Where it says something it ends with 1. Names that the standard library gives are no matter."""

import os
import re
import subprocess
import sys

TOP = os.path.dirname(os.path.dirname(os.path.abspath(__file__)))
LIST = "tests/words.txt"
THESE = (LIST, "tests/words.py")
NAMES_OF_OTHERS = re.compile(r"\b(pop|push)_front\b|\.front\b")


def pattern_of(word):
    """In any case, with no letter beside it; one that ends in _ is a whole name."""
    return rf"(?<![a-z_]){word}(?![a-z0-9])" if word.endswith("_") else rf"(?<![a-z]){word}(?![a-z])"


def listed():
    """The pattern of each word, with what to write instead."""
    with open(os.path.join(TOP, LIST), encoding="utf-8") as lines:
        rows = [re.split(r"  +", line.strip(), maxsplit=1) for line in lines if line.strip() and line[0] != "#"]
    return [(pattern_of(word), instead) for word, instead in rows]


def files():
    names = subprocess.run(["git", "ls-files", "-z"], cwd=TOP, capture_output=True, check=True).stdout.decode().split("\0")
    return [name for name in names if name and name not in THESE and os.path.isfile(os.path.join(TOP, name))]


def main():
    words = listed()
    any_word = re.compile("|".join(f"({pattern})" for pattern, _ in words), re.I)
    found = False
    for name in files():
        with open(os.path.join(TOP, name), encoding="utf-8", errors="replace") as lines:
            for number, line in enumerate(lines, 1):
                at = any_word.search(NAMES_OF_OTHERS.sub("", line))
                if at:
                    found = True
                    print(f"{name}:{number}: '{at[0]}': write {words[at.lastindex - 1][1]}")
    sys.exit(1 if found else 0)


if __name__ == "__main__":
    main()
