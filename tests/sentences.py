#!/usr/bin/env python3
"""Finds sentences that are too long: in README.md, the pages that it names for users and docs/guarantees.md, those of more than 40
words, and in README's section on what is proved those of more than 30, or more than eight sentences.

Code counts as one word. In a table each cell is a text of its own, and in one that lists things in an order a `;` ends a part.
Where it says something it ends with 1."""
import os
import re
import sys

TOP = os.path.dirname(os.path.dirname(os.path.abspath(__file__)))
LONGEST, LONGEST_OF_PROVED, MOST_OF_PROVED = 40, 30, 8


def text_of(name):
    """A document with an empty line for each line of a block of code."""
    with open(os.path.join(TOP, name), encoding="utf-8") as file:
        return re.sub(r"^```.*?^```$", lambda block: "\n" * block[0].count("\n"), file.read(), flags=re.M | re.S)


def pages():
    row = re.search(r"^\| For users \| (.*) \|$", text_of("README.md"), re.M)
    return ["README.md", *re.findall(r"\]\(([^)#]+)\)", row[1]), "docs/guarantees.md"]


def paragraphs(text):
    """Each paragraph, item of a list or cell of a table, with the number of its first line."""
    begun = None
    for number, line in enumerate([*text.split("\n"), ""], 1):
        is_row, begins = line.startswith("|"), re.match(r" *(?:[-*]|\d+\.) |#", line)
        if begun and (is_row or begins or not line.strip()):
            yield begun[0], " ".join(begun[1])
            begun = None
        if is_row:
            yield from ((number, part) for cell in re.split(r"(?<!\\)\|", line) for part in cell.split(";"))
        elif line.strip():
            begun = begun or (number, [])
            begun[1].append(line)


def sentences(text):
    """Each sentence, with the number of the line in which its paragraph begins and the number of its words."""
    for number, paragraph in paragraphs(text):
        plain = re.sub(r"``.+?``|`[^`]*`", "code", re.sub(r"\]\([^)]*\)", "]", paragraph))
        for sentence in re.split(r"(?<=[.!?])[*)\"]*\s+", plain):
            yield number, sum(re.search(r"\w", word) is not None for word in sentence.split()), sentence


def too_long(name, text, longest, first=0):
    for number, words, sentence in sentences(text):
        if words > longest:
            yield f"{name}:{first + number}: a sentence of {words} words: {sentence.strip()[:60]}.."


def proved():
    """What is wrong with README's section on what is proved."""
    text = text_of("README.md")
    before, _, section = text.partition("\n## What is proved\n")
    count = sum(words > 0 for _, words, _ in sentences(section))
    if not 0 < count <= MOST_OF_PROVED:
        yield f"README.md: what is proved has {count} sentences, and may have {MOST_OF_PROVED}"
    yield from too_long("README.md", section, LONGEST_OF_PROVED, before.count("\n") + 2)


def main():
    said = [line for name in pages() for line in too_long(name, text_of(name), LONGEST)] + [*proved()]
    for line in dict.fromkeys(said):
        print(line)
    sys.exit(1 if said else 0)


main()
