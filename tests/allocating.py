#!/usr/bin/env python3
"""Says which public function no test calls, and which one that asks for memory is called by none in which that is refused.
    python3 tests/allocating.py        says it, and ends with 1 where it says something
In tests/memory.bats each allocation of the program fails in turn, in a run of each command, and in tests/growth.bats each one of
each case of crates/rec_calls, and of rec_rows, in the cases of growth.rec. So what is looked for is a way to the function from
the main of the program or of rec_rows, or from a case of rec_calls; and for what asks for no memory from any test.

Who calls whom is read from the names in bodies. A function is called where its name stands before a parenthesis, in its crate or
one above, and one of a type where both names stand together. What is called by a dot may be of any type that has a function of
that name: so one that nothing calls may count as called, where another type has one of the same name. And a way through the
sources is one that some run can take, and not that a test's run takes it."""
import functools
import os
import re
import sys

sys.dont_write_bytecode = True
from functions import all_functions_of, head_of, is_law, read, text_of

# What is run with each allocation failing in turn, and what else is run.
FAILING = ("recu", "rec_rows", "rec_calls")
RUN = FAILING + ("rec_disks", "rec_crashes")
# A disk in memory serves tests alone.
FOR_TESTS = ("MemoryDisk",)
# What these do is called by no name.
UNNAMED = ("from", "fmt")
CALL = re.compile(r"\b([A-Z]\w*)(?:::<[^()]*>)?::(\w+)|\.(\w+)(?:::<[^()]*>)?\(|\b(?:(rec_\w+)::)?(\w+)(?:::<[^()]*>)?\(")


@functools.cache
def below(crate):
    """The crate, and those of ours on which it stands."""
    named = re.search(rf"^{crate}:(.*)", read("crates.txt"), re.M).group(1).split()
    return {crate}.union(*(below(one) for one in named if os.path.isdir(f"crates/{one}")))


def head_and_body(text):
    """What is promised of a function, and what it does, without comments."""
    indent = re.match(" *", text).group()
    parts = re.split(rf"^{indent}(?:\S.*)?{{$", re.sub("//.*", "", text), maxsplit=1, flags=re.M)
    return parts if len(parts) > 1 else (text, "")


def asks_for_memory(text):
    """By its parameters, or since it keeps an allocator and may answer that there is no memory."""
    head = head_of(text)
    promised, _ = head_and_body(text)
    return re.search(r"alloc: Global|AllocGlobal|->.*AllocError", head) or re.search(r"\b\w*Memory\w*\b", promised.removeprefix(head))


class Graph:
    def __init__(self):
        self.texts = {(crate, one): text_of(one) for crate in sorted(os.listdir("crates")) for one in all_functions_of(crate)}
        self.named = {}
        for crate, one in self.texts:
            owner, _, name = one.name.rpartition("::")
            self.named.setdefault(name, []).append((crate, one, owner))

    def called_by(self, crate, one):
        """The functions whose names stand in the body."""
        _, body = head_and_body(self.texts[crate, one])
        body = re.sub(r"\bSelf::", one.name.rpartition("::")[0] + "::", body)
        for source, names in re.findall(r"^use (rec_\w+)::([^;]*);", read(one.path), re.M):
            for name, alias in re.findall(r"(\w+) as (\w+)", names):
                body = re.sub(rf"\b{alias}\b", f"{source}::{name}", body)
        for owner, own, method, source, free in CALL.findall(body):
            found = [(of, called, its) for of, called, its in self.named.get(own or method or free, ())]
            if method or len(owner) == 1:
                yield from ((of, called) for of, called, its in found if its)
                continue
            found = [(of, called) for of, called, its in found if its == owner and of in below(crate)]
            # one of its own hides those below
            nearest = [one for one in found if one[0] == (source or crate)] if free else []
            yield from nearest or found

    def reached_from(self, programs):
        """The functions that these programs call, from main on. Those of rec_calls are cases, and what they need."""
        reached = {(crate, one) for crate, one in self.texts if crate in programs and one.name == "main" or crate == "rec_calls"}
        left = list(reached)
        while left:
            new = set(self.called_by(*left.pop())) - reached
            reached |= new
            left.extend(new)
        return reached


def found():
    graph = Graph()
    called, failing = graph.reached_from(RUN), graph.reached_from(FAILING)
    for (crate, one), text in graph.texts.items():
        if not one.is_public or is_law(text) or one.name.rpartition("::")[2] in UNNAMED:
            continue
        if (crate, one) not in called:
            yield f"{one.path}: no test calls {one.name}"
        elif (crate, one) not in failing and asks_for_memory(text) and not one.name.startswith(FOR_TESTS):
            yield f"{one.path}: no test refuses memory to {one.name}"


said = list(found())
for line in said:
    print(f"tests/allocating.py: {line}")
sys.exit(1 if said else 0)
