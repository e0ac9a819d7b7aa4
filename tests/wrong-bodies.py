#!/usr/bin/env python3
"""Looks through the wrong bodies, tests/wrong-bodies/CRATE/NAME.edit, and tries them.
    python3 tests/wrong-bodies.py applied     says which wrong body can't be tried any more
    python3 tests/wrong-bodies.py covered     says which public function has none
    python3 tests/wrong-bodies.py try [--gate] [--anew] [CRATE|EDIT]
                                              tries all, those of a crate, or one; with --gate those that the gate tries.
                                              The libraries below have to be built, of these sources. What was refused before,
                                              of the same sources, counts; with --anew it doesn't
    python3 tests/wrong-bodies.py below ..    names the libraries that such a try needs, the lowest first
Where something is wrong it ends with 1. tests/README.md says how a wrong body is written."""
import os
import re
import sys

sys.dont_write_bytecode = True
from functions import all_functions_of
from tries import edits_of, libraries_below, say, try_all


def applied(crate):
    for edit in edits_of(crate):
        _, why = edit.applied_to({})
        marks = re.findall(r"^gate: (yes|no)$", edit.text, re.M)
        if why:
            yield f"{edit.path}: {why}"
        if len(marks) != 1:
            yield f"{edit.path}: no line, or several, tell whether the gate tries it: gate: yes or gate: no"
        if edit.is_of_gate and not re.match("# (?!turns:)", edit.text):
            yield f"{edit.path}: its first line doesn't say which promise it breaks"


def covered(crate):
    """An edit is one of the functions in which its old texts stand, and of those that its line `turns` names."""
    functions = all_functions_of(crate)
    public = [one for one in functions if one.is_public and one.may_be_wrong]
    names, turned = {one.name for one in public}, set()
    for edit in edits_of(crate):
        yield from (f"{edit.path}: {name} is no public function of {crate}" for name in edit.turned if name not in names)
        turned |= edit.sites(functions)
    yield from sorted(f"{one.path}: no wrong body of {one.name}" for one in public if one not in turned)


def look(find):
    said = [line for crate in sorted(os.listdir("crates")) for line in find(crate)]
    for line in said:
        say(line)
    return not said


def chosen(words):
    """The wrong bodies that the words ask for: of the gate, of a crate, one by its name, or all."""
    if any(word.startswith("-") and word not in ("--gate", "--anew") for word in words):
        sys.exit(__doc__)
    edits = [edit for crate in sorted(os.listdir("crates")) for edit in edits_of(crate)]
    edits = [edit for edit in edits if edit.is_of_gate or "--gate" not in words]
    for word in (word for word in words if not word.startswith("-")):
        edits = [edit for edit in edits if word in (edit.crate, edit.name, edit.name.removesuffix(".edit"))]
    if not edits:
        sys.exit(f"tests/wrong-bodies.py: there is no such crate or wrong body: {' '.join(words)}")
    return edits


def tries(words):
    now, earlier, wrong = try_all(chosen(words), "--anew" in words)
    say(f"{now} refused now, {earlier} earlier, {wrong} not refused")
    return not wrong


def main(words):
    looks = {"applied": applied, "covered": covered}
    if words[:1] == ["try"]:
        is_well = tries(words[1:])
    elif words[:1] == ["below"]:
        print(*libraries_below(chosen(words[1:]), "--anew" in words))
        is_well = True
    elif len(words) == 1 and words[0] in looks:
        is_well = look(looks[words[0]])
    else:
        sys.exit(__doc__)
    sys.exit(0 if is_well else 1)


main(sys.argv[1:])
