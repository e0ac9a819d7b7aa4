#!/usr/bin/env python3
"""Compares the rows of promises in docs/guarantees.md and the crates' READMEs with the sources: whether each call is a function,
a type or a trait, each clause one of a call of its row, or a part of a definition there, and each definition stands in the specs
or is declared.

Where it says something it ends with 1. What a clause says is for people to compare."""
import functools
import glob
import os
import re
import sys

sys.dont_write_bytecode = True
import definitions
import functions

PAGES = ["docs/guarantees.md", *sorted(glob.glob("crates/*/README.md"))]
HEAD = "| Promise | Call | Clause | Definition |"
CODE = re.compile(r"`([^`]+)`")


def rows(page):
    """The number of the line of each row of promises, and its cells."""
    is_table = False
    for number, line in enumerate(definitions.lines_of(page), 1):
        is_table = line == HEAD or is_table and line.startswith("|")
        if is_table and line != HEAD and not line.startswith("|-"):
            yield number, [cell.strip() for cell in re.split(r"(?<!\\)\|", line)[1:-1]]


# ---- calls and their clauses


@functools.cache
def all_functions():
    return [one for crate in sorted(os.listdir("crates")) for one in functions.all_functions_of(crate)]


@functools.cache
def types():
    """The names of types and traits, each with the traits of our own that it implements."""
    found = {}
    for path in sorted(glob.glob("crates/*/src/**/*.rt", recursive=True)):
        for name in definitions.declarations_of(path):
            found.setdefault(name, set())
        for trait, name in re.findall(r"^impl\b.*?\b(\w+)(?:<.*>)? for (\w+)", definitions.read(path), re.M):
            found.setdefault(name, set()).add(trait)
    return found


@functools.cache
def clauses_of(call):
    """The clauses of a function, or those of a type or a trait, with the ghost members that are laws."""
    owners = {call, *types().get(call, ())}
    those = [one for one in all_functions() if call in (one.name, one.name.split("::")[-1]) or one.name.split("::")[0] in owners]
    texts = [functions.text_of(one) for one in those]
    texts += [definitions.text_of(found) for owner in owners if (found := declared(owner))]
    return set(re.findall(r"^ *(?:requires|ensures|ghost) (\w+)(?: {|:)", "\n".join(texts), re.M)), bool(texts)


@functools.cache
def declared(name):
    """The declaration of a type or a trait."""
    for path in sorted(glob.glob("crates/*/src/**/*.rt", recursive=True)):
        if name in definitions.declarations_of(path):
            return definitions.declarations_of(path)[name]
    return None


# ---- definitions and their parts


@functools.cache
def specs():
    """The definitions of the specs by their names."""
    found = {}
    for path in sorted(glob.glob("crates/*/specs/**/*.antt", recursive=True)):
        for name, one in definitions.definitions_of(path).items():
            found.setdefault(name, []).append(one)
    return found


def parts_of(name):
    """The names of a definition's fields."""
    lists = [re.findall(r"^ *(?:pub )?([\w' ]+?) :", definitions.text_of(one), re.M) for one in specs().get(name, ())]
    return {part for fields in lists for field in fields for part in field.split()}


# ---- rows


def faults_of(cells):
    """What of a row doesn't stand in the sources."""
    _, calls, clauses, those = map(CODE.findall, cells)
    calls = [call for call in calls if not os.path.isdir(f"crates/{call}")]
    those = [name for name in those if not os.path.isdir(f"crates/{name}")]
    yield from (f"there is no call {call}" for call in calls if not clauses_of(call)[1] and not declared(call))
    parts = set().union(*map(parts_of, those))
    there = parts.union(*(clauses_of(call)[0] for call in calls), types())
    yield from (f"there is no clause {clause} of {', '.join(calls)}" for clause in clauses if clause not in there)
    there = specs().keys() | types().keys() | parts
    yield from (f"there is no definition {name}" for name in those if name not in there)


def main():
    said = [f"{page}:{number}: {fault}" for page in PAGES for number, cells in rows(page) for fault in faults_of(cells)]
    for line in said:
        print(line)
    sys.exit(1 if said else 0)


main()
