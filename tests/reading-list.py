#!/usr/bin/env python3
"""Says what has to be read to know what a clause says.
    python3 tests/reading-list.py CRATE FUNCTION CLAUSE [--text]
        lists the definitions of our own that the clause stands on, file by file, with --text the definitions themselves
    python3 tests/reading-list.py            prints the table of docs/guarantees.md
    python3 tests/reading-list.py write      writes it there
    python3 tests/reading-list.py compare    says which row of it isn't that of the sources
    python3 tests/reading-list.py unread     says which definition stands in no clause, in none that does, and in no proof
Where compare or unread says something it ends with 1. Files stand in the order in which they are needed, from the clause on,
each with its definitions in its own order. Names of the toolchain and of its crates are only counted."""
import functools
import glob
import re
import sys

sys.dont_write_bytecode = True
import definitions

# What is asked for: the theorem holds whatever it is, so its first page ends at these.
ASKED = {"asked_of", "Request"}
CLAUSES = [
    ("rec_tools", "run_all", "guarantee"),
    ("rec_tools", "run_all", "failing_stores"),
    ("rec_files", "run", "any_moment"),
    ("rec_files", "run", "lasting"),
    ("rec_files", "run", "touches"),
    ("rec_files", "run", "recovers"),
    ("rec_files", "run", "attempts"),
    ("recu", "status", "status"),
    ("recu", "starts_are_runs", "guarantee"),
]
# What each request asks for, with the definitions of rec_tools in which it stands.
MEANINGS = {
    "an edit": ["Requests.IsOneEdit", "Requests.IsMade"],
    "a batch": ["Requests.IsBatch", "Requests.IsMade"],
    "a selection": ["Printouts.IsShow"],
    "a list of the types": ["Printouts.IsInfoOf"],
    "a report": ["Printouts.IsReportText", "Requests.AreViolationsOf"],
    "a diff": ["Requests.as_diff"],
    "a revert": ["Reverting.IsReverted"],
    "an adoption": ["Outcomes.IsAdoption"],
    "a whole text": ["Writing.IsWritten"],
}
TABLE = "docs/guarantees.md"
HEAD = ["| Clause | Definitions | Lines | Files | Of them in a list above |", "|---|---|---|---|---|"]
PART = r"(^## What has to be read\n(?:(?!\||## ).*\n)*)((?:\|.*\n)*)"


# ---- what names stand for


def targets_in(path, at, text):
    """What the names of a clause or of a ghost member stand for, which begins in a line."""
    lines = definitions.lines_of(path)
    block = definitions.block_around(path, at) if lines[at].startswith(" ") else ()
    uses = definitions.uses_in("\n".join([line for line in lines if line.startswith("ghost use")] + [lines[n] for n in block]))
    for name in definitions.free_names(text, set()):
        target = definitions.by_uses(uses, name)
        yield from [target] if target else types_in(path, name.split(".")[0])


def types_in(path, text):
    """The types and traits of our own that a text of Rust names."""
    named = [(definitions.declaration(path, name), name) for name in re.findall(r"\b[A-Z]\w*", text)]
    return [definitions.Target(found, name) for found, name in named if found]


def clauses_in(text):
    return [(found.start(), definitions.braced(text, found.end() - 1)) for found in re.finditer(definitions.CLAUSE, text)]


def needs_of_declaration(definition):
    """The names of its ghost members, and the types that it has: of a struct only those of public fields."""
    path, text = definition.path, definitions.text_of(definition)
    for begin, clause in clauses_in(text):
        yield from targets_in(path, definition.lines[text[:begin].count("\n")], clause)
        text = text.replace(clause, re.sub(r"[^\n]", " ", clause))
    head, *lines = re.sub(r"^ *///.*\n|//.*", "", text, flags=re.M).split("\n")
    if re.search(r"\bstruct ", head):
        lines = [line for line in lines if "pub " in line]
    if re.search(r"\benum ", head):
        lines = [re.sub(r"^    \w+", "", line) for line in lines]
    yield from types_in(path, "\n".join([head, *lines]))


@functools.cache
def needs(definition):
    """What the names in a definition stand for, in their order."""
    if definition.path.endswith(".rt"):
        targets = needs_of_declaration(definition)
    else:
        targets = (definitions.meaning(definition.path, name) for name in definitions.free_in_spec(definition))
    return [target for target in targets if target]


def reached(targets, ends=frozenset()):
    """The definitions on which these stand, in the order in which they are needed, without those of names at which it
    ends; and the names of the toolchain."""
    found, others, waiting = {}, set(), list(targets)
    for target in waiting:
        if not target.definition:
            others.add(target.name)
        elif target.definition not in found and target.name not in ends:
            found[target.definition] = None
            waiting.extend(needs(target.definition))
    return [*found], others


# ---- clauses


def functions_of(path):
    """The number of the first line of each function, its name, and the number of the line after its last."""
    lines = definitions.lines_of(path)
    found = [(at, re.match(r" *(?:pub(?:\(crate\))? )?(?:const )?fn (\w+)", line)) for at, line in enumerate(lines)]
    begun = [(at, name[1]) for at, name in found if name]
    return [(at, name, end) for (at, name), (end, _) in zip(begun, begun[1:] + [(len(lines), "")])]


def types_named(path, at, text, clause):
    """The types of the parameters, generics and result that a clause names, by the head of its function and of its block."""
    head = re.split(r"^ *(?:requires|ensures)\b|{$|;$|^ *//", text, maxsplit=1, flags=re.M)[0]
    lines = definitions.lines_of(path)
    owner = lines[definitions.block_around(path, at)[0]] if lines[at].startswith(" ") else ""
    types = dict(re.findall(r"(\w+): ((?:[^,()<>]|\([^()]*\)|<(?:[^<>]|<[^<>]*>)*>)+)", f"{owner}\n{head}"))
    types["result"] = head.partition("->")[2]
    types["self"] = owner.rpartition(" for ")[2] or owner
    for name in dict.fromkeys(name.split(".")[0] for name in definitions.free_names(clause, set())):
        named = types.get(name, "")
        generics = [types.get(word, "") for word in re.findall(r"\w+", named)]
        yield from types_in(path, " ".join([named, *generics]))


def targets_of(crate, function, clause):
    """What the names of a clause stand for."""
    for path in definitions.sources_of(crate):
        for at, name, end in functions_of(path):
            text = "\n".join(definitions.lines_of(path)[at:end])
            begin = re.search(rf"^ *ensures {clause} {{", text, re.M) if name == function else None
            if begin:
                said = definitions.braced(text, begin.end() - 1)
                return [*targets_in(path, at, said), *types_named(path, at, text, said)]
    return sys.exit(f"tests/reading-list.py: {function} of {crate} has no clause {clause}")


# ---- lists


def by_files(those):
    """The definitions of each file in its own order, the files as they are needed."""
    files = {}
    for one in those:
        files.setdefault(one.path, []).append(one)
    return {path: sorted(ones, key=lambda one: one.lines) for path, ones in files.items()}


def lines_in(those):
    return sorted({(one.path, at) for one in those for at in one.lines})


def print_list(words, with_text):
    those, others = reached(targets_of(*words))
    for path, ones in by_files(those).items():
        names = ", ".join(one.name for one in ones)
        print(f"{path}: {len(ones)} definitions, {len(lines_in(ones))} lines: {names}")
        if with_text:
            print_text(ones)
    print(f"beside them {len(others)} names of the toolchain and of its crates")
    print(f"{len(those)} definitions, {len(lines_in(those))} lines in {len(by_files(those))} files")


def print_text(ones):
    """The lines of definitions of one file, with an empty line where one or more are left out."""
    last = 0
    for path, at in lines_in(ones):
        lines = definitions.lines_of(path)
        print(("\n" if "" in lines[last:at] else "") + "    " + lines[at])
        last = at
    print()


# ---- the table


def row(name, those, seen):
    sizes = [len(those), len(lines_in(those)), len(by_files(those)), len(seen.intersection(those))]
    return f"| {name} | {' | '.join(map(str, sizes))} |"


def meant_by(names):
    """What the names of a meaning stand for."""
    parts = [name.split(".") for name in names]
    return [definitions.meaning(f"crates/rec_tools/specs/{module}.antt", name) for module, name in parts]


def table():
    rows, seen = list(HEAD), set()
    those, _ = reached(targets_of(*CLAUSES[0]), ASKED)
    rows.append(row("`guarantee` of `run_all`, `rec_tools`, whatever is asked for", those, seen))
    seen.update(those)
    for name, names in MEANINGS.items():
        those, _ = reached(meant_by(names))
        spelled = ", ".join(f"`{one.split('.')[1]}`" for one in names)
        rows.append(row(f"what {name} is: {spelled}", those, seen))
        seen.update(those)
    for crate, function, clause in CLAUSES:
        those, _ = reached(targets_of(crate, function, clause))
        rows.append(row(f"`{clause}` of `{function}`, `{crate}`", those, seen))
        seen.update(those)
    return rows + [f"| all of them | {len(seen)} | {len(lines_in(seen))} | {len(by_files(seen))} | |"]


def compare():
    part = re.search(PART, definitions.read(TABLE), re.M)
    there = part[2].splitlines() if part else []
    made = table()
    yield from (f"{TABLE}: this row isn't that of the sources: {one}" for one in there if one not in made)
    yield from (f"{TABLE}: this row of the sources is missing: {one}" for one in made if one not in there)
    if sorted(there) == sorted(made) and there != made:
        yield f"{TABLE}: the rows stand in another order"


def write_table():
    rows = "".join(f"{line}\n" for line in table())
    text = re.sub(PART, lambda part: part[1] + rows, definitions.read(TABLE), flags=re.M)
    with open(TABLE, "w", encoding="utf-8") as file:
        file.write(text)


# ---- what nothing stands on


def named_in_sources():
    for path in sorted(glob.glob("crates/*/src/**/*.rt", recursive=True)):
        text = definitions.read(path)
        for begin, clause in clauses_in(text):
            yield from targets_in(path, text[:begin].count("\n"), clause)


def named_in_proofs():
    for path in sorted(glob.glob("crates/*/proofs/**/*.antt", recursive=True)):
        uses = definitions.uses_of(path)
        text = re.sub(r"^ *(?:pub )?use .*", "", definitions.bare(definitions.read(path)), flags=re.M)
        names = {name for name, _ in definitions.TOKEN.findall(text) if name.split(".")[0] in uses}
        found = [definitions.by_uses(uses, name) for name in sorted(names)]
        yield from (target for target in found if target and target.definition and "/proofs/" not in target.definition.path)


def unread():
    used = set(reached([*named_in_sources(), *named_in_proofs()])[0])
    for path in sorted(glob.glob("crates/*/specs/**/*.antt", recursive=True)):
        for one in dict.fromkeys(definitions.definitions_of(path).values()):
            if "/specs/proving/" not in path and one not in used:
                yield f"{path}:{one.lines[0] + 1}: {one.name}"


def main(words):
    looks = {"compare": compare, "unread": unread}
    if not words:
        print("\n".join(table()))
    elif words == ["write"]:
        write_table()
    elif len(words) == 1 and words[0] in looks:
        said = list(looks[words[0]]())
        for line in said:
            print(f"tests/reading-list.py: {line}")
        sys.exit(1 if said else 0)
    elif len(words) == 3 or words[3:] == ["--text"]:
        print_list(words[:3], words[3:] == ["--text"])
    else:
        sys.exit(__doc__)


main(sys.argv[1:])
