#!/usr/bin/env python3
"""Finds lines that are too long: of definitions and clauses those of more than 120 characters, of proofs of more than 200.

Where it says something it ends with 1. The files in EXCEPTED may have such lines; one that is gone or has none is told."""

import os
import re
import subprocess
import sys

sys.dont_write_bytecode = True
import definitions

TOP = os.path.dirname(os.path.dirname(os.path.abspath(__file__)))
CLAUSE = r"\b(?:ensures|requires)(?: \w+)? {"
EXCEPTED = set()


def files():
    command = ["git", "ls-files", "-z", "*.antt", "*.rt"]
    names = subprocess.run(command, cwd=TOP, capture_output=True, check=True).stdout.decode().split("\0")
    return [name for name in names if name and os.path.isfile(os.path.join(TOP, name))]


def clauses_in(text):
    """The numbers of the lines on which clauses stand, from 0."""
    for found in re.finditer(CLAUSE, text):
        first = text.count("\n", 0, found.start())
        yield from range(first, first + definitions.braced(text, found.end() - 1).count("\n") + 1)


def long_lines_in(name):
    """The lines that are too long, each with its number, from 1, and how many characters it may have."""
    with open(os.path.join(TOP, name), encoding="utf-8") as file:
        text = file.read()
    lines = text.split("\n")
    most = 200 if "/proofs/" in name else 120
    looked_at = sorted(set(clauses_in(text))) if name.endswith(".rt") else range(len(lines))
    return [(at + 1, len(lines[at]), most) for at in looked_at if len(lines[at]) > most]


def main():
    found = {name: lines for name in files() if (lines := long_lines_in(name))}
    for name in sorted(found.keys() - EXCEPTED):
        for number, length, most in found[name]:
            print(f"{name}:{number}: {length} characters, where {most} are the most")
    for name in sorted(EXCEPTED - found.keys()):
        print(f"{name}: it has no line that is too long, or is gone: take it out of EXCEPTED in tests/lines.py")
    sys.exit(1 if found.keys() != EXCEPTED else 0)


if __name__ == "__main__":
    main()
