"""Tries wrong bodies: the proofs must refuse each.

Every function is judged against the contracts of what it calls, not against the bodies. So wrong bodies of different
functions of a crate are applied together to a copy of it, which is checked once, and each of the functions has to be refused
by a goal of its own. A function of which only that is told that it calls another one of them goes into the next group, and so
does a wrong body that changes what another one changed. One that a group doesn't refuse is tried alone.

What was refused is noted in the user's cache folder, by checksums of all that the check read."""
import collections
import concurrent.futures
import glob
import hashlib
import os
import re
import shutil
import subprocess
import sys
import tempfile

from functions import all_functions_of, read, text_of

# What is said of a wrong body: the proofs refuse it; the function only waits for another one of the group; the crate is proved
# with it; or it isn't known, since the check gave no verdict.
REFUSED, WAITS, MISSED, UNKNOWN = "refused", "waits", "missed", "unknown"
# What is said of a wrong body, and how much it says of the contract.
Answer = collections.namedtuple("Answer", "verdict why")
# A check of a crate takes 5 GB at most, most take 3.
MEMORY_OF_A_CHECK = 5_000_000_000
# An error of a proof file that only names what the edit took away, or rests on what was refused, shows nothing.
SHOWS_NOTHING = re.compile(r"has no field|is not in scope|has no `|was not admitted|was not checked")


class Edit:
    """A wrong body: pairs of an old text and a new one, each with the file in which the old one stands."""

    def __init__(self, path):
        self.path, self.text = path, read(path)
        self.name, self.crate = os.path.basename(path), os.path.basename(os.path.dirname(path))
        self.is_of_gate = "gate: yes" in self.text.split("\n")
        self.turned = re.findall(r"[\w:]+", " ".join(re.findall(r"^# turns: (.*)", self.text, re.M)))
        self.pairs, file, old = [], "", ""
        for line in self.text.split("\n"):
            key, _, text = line.partition(":")
            text = text.removeprefix(" ")
            if key == "file":
                file = text.strip()
            elif key == "old":
                old = text
            elif key == "new":
                self.pairs.append((file, old, text))

    def applied_to(self, texts):
        """The texts of the crate's files with this wrong body, or why it doesn't apply. `texts` has those that are changed."""
        texts = dict(texts)
        for file, old, new in self.pairs:
            path = f"crates/{self.crate}/{file}"
            if file not in texts and not os.path.isfile(path):
                return None, f"there is no file {path}"
            text = texts.get(file) or read(path)
            if not old or text.count(old) != 1:
                return None, f"its old text stands {text.count(old)} times in {path}: {old}"
            texts[file] = text.replace(old, new)
        return (texts, None) if self.pairs else (None, "it has no pair of an old text and a new one")

    def changed(self, functions):
        """The functions that it changes: those in which its old texts stand, and those that name a constant of one."""
        found = set()
        for file, old, _ in self.pairs:
            path = f"crates/{self.crate}/{file}"
            line = read(path).partition(old)[0].count("\n")
            constant = re.match(r"(?:pub |pub\(crate\) )?const (\w+): ", old)
            if constant:
                found |= {one for one in functions if re.search(rf"\b{constant[1]}\b", text_of(one))}
            found |= {one for one in functions if one.path == path and one.first <= line <= one.last}
        return found

    def sites(self, functions):
        """The functions that it changes, and those of which it turns the meaning."""
        return self.changed(functions) | {one for one in functions if one.name in self.turned}


def edits_of(crate):
    return [Edit(path) for path in sorted(glob.glob(f"tests/wrong-bodies/{crate}/*.edit"))]


def crates():
    """The crates, each with the libraries that it stands on, as crates.txt has them."""
    lines = [line.partition(":") for line in read("crates.txt").split("\n") if line and line[0] != "#"]
    return {name.split()[0]: libraries.split() for name, _, libraries in lines}


def below(crate, of):
    """The repository's crates below this one."""
    return {name for library in of[crate] if library in of for name in {library} | below(library, of)}


# The toolchain, its identity, and a check of a crate.


def kit():
    return os.path.dirname(subprocess.run(["rt", "doc"], check=True, capture_output=True, text=True).stdout.strip())


def identity():
    return subprocess.run(["rt", "version"], check=True, capture_output=True, text=True).stdout


def check_words(crate, of, top):
    """The words of a check of the crate over the libraries that stand in the checkout, as `rt` has them."""
    root = "main" if os.path.isfile(f"crates/{crate}/src/main.rt") else "lib"
    words = [f"{top}/bin/rattle", "check", "--crate-name", crate, f"src/{root}.rt", "-L", f"dependency={top}/rlibs"]
    for library in ["std", *of[crate]]:
        home = f"crates/{library}/out/rlib" if library in of else f"{top}/rlibs"
        words += ["--extern", f"{library}={os.path.abspath(home)}/{library}.rlib"]
    for library in sorted(below(crate, of)):
        words += ["-L", f"dependency={os.path.abspath(f'crates/{library}/out/rlib')}"]
    words += ["--antt-project", f"{top}/rattle/logic/antt-project.json", "--logic-built", f"{top}/logic_built"]
    return [*words, "--links", f"{crate}=", "--jobs", "1"]


class Told:
    """What a check said of the functions, by their names as printed."""

    def __init__(self, lines):
        # (the errors by the folders of the proofs: that of a cycle of calls has a plus before its name)
        self.answers, self.errors, noted = {}, {}, ""
        for line in lines:
            error = re.match(r"\./proofs/(.*)/\w+\.antt:\d+:\d+: error: (.*)", line)
            function = re.match(r"fn (\S*): (.*)", line)
            if error and not SHOWS_NOTHING.search(error[2]):
                self.errors.setdefault(error[1].replace("/", "::").replace("+", ""), line)
            elif line.startswith("note: src/") and "it is not proved that" in line:
                noted = noted or line
            elif function:
                # (the name begins with the crate's)
                name, said = function[1].partition("::")[2], function[2]
                why = noted or self.errors.get(name) or ("`search` did not prove" in said and line)
                waits = WAITS if "it calls" in said else UNKNOWN
                verdict = MISSED if said == "proved" else REFUSED if why else waits
                self.answers[name] = Answer(verdict, why or line)
                noted = ""

    def of(self, sites):
        """What it said of a wrong body with these sites, in closures of theirs too."""
        found = []
        for one in sites:
            # (a closure's name is that of its function, with `fn` after the module's, and a name of its own)
            is_own = re.compile(rf"{one.printed}(::|$)")
            found += [answer for name, answer in self.answers.items() if is_own.match(name.replace("fn::", "", 1))]
            found += [Answer(REFUSED, self.errors[name]) for name in {one.printed, one.cycle} if name in self.errors]
        for verdict in (REFUSED, WAITS, UNKNOWN):
            for answer in found:
                if answer.verdict == verdict:
                    return answer
        return found[0] if found else Answer(UNKNOWN, "the check says nothing of what it changes")

    def refusal(self):
        """Why some function is refused, if one is."""
        refused = [answer.why for answer in self.answers.values() if answer.verdict == REFUSED]
        return next(iter([*refused, *self.errors.values()]), None)


class Room:
    """A folder in which copies of a crate are checked, each over what was proved before."""

    def __init__(self, crate, words, folder):
        self.crate, self.words, self.folder = crate, words, folder
        kept = f"crates/{crate}/out/incremental"
        if os.path.isdir(kept):
            shutil.copytree(kept, f"{folder}/kept", copy_function=link_or_copy)
        else:
            os.mkdir(f"{folder}/kept")

    def check(self, texts, only):
        """What a check of the crate with these texts says, of the functions with these names and what they call, or of all."""
        copy = f"{self.folder}/copy"
        shutil.rmtree(copy, ignore_errors=True)
        for part in ("src", "specs", "proofs"):
            if os.path.isdir(f"crates/{self.crate}/{part}"):
                shutil.copytree(f"crates/{self.crate}/{part}", f"{copy}/{part}")
        for file, text in texts.items():
            with open(f"{copy}/{file}", "w", encoding="utf-8") as it:
                it.write(text)
        words = [*self.words, "--incremental", f"{self.folder}/kept"]
        for one in sorted(only):
            words += ["--only", one.printed]
        ran = subprocess.run(words, cwd=copy, stdin=subprocess.DEVNULL, stdout=subprocess.PIPE, stderr=subprocess.STDOUT, text=True)
        return ran.returncode, ran.stdout.split("\n")


def link_or_copy(one, other):
    """What was proved is linked: a check replaces such a file, and changes none."""
    if one.endswith(".oantt"):
        try:
            return os.link(one, other)
        except OSError:
            pass
    return shutil.copy2(one, other)


def grouped(edits, sites):
    """The first of the edits that can be tried together, with the texts of the files that they change, and the edits left."""
    group, texts, taken, left = [], {}, set(), []
    for edit in edits:
        own = {one.cycle or one.printed for one in sites[edit]}
        with_it, _ = (None, None) if taken & own else edit.applied_to(texts)
        if with_it is None:
            left.append(edit)
        else:
            group, texts, taken = [*group, edit], with_it, taken | own
    return group, texts, left


def alone(room, edit):
    """What a check of the whole crate says of one wrong body."""
    texts, why = edit.applied_to({})
    if texts is None:
        return Answer(UNKNOWN, why)
    status, lines = room.check(texts, ())
    refusal = Told(lines).refusal()
    if status == 1 and refusal:
        return Answer(REFUSED, refusal)
    if status == 0:
        return Answer(MISSED, "the crate is still proved with it")
    said = next((line for line in lines if "error" in line), lines[-2] if len(lines) > 1 else "")
    if status == 3 and any(re.search(r"ran out of|outgrew the memory limit|stopped at the step limit", line) for line in lines):
        return Answer(REFUSED, f"only by a limit of the prover: {said}")
    return Answer(UNKNOWN, f"the check ended with status {status}: {said}")


def told_together(room, group, sites):
    """What is said of the wrong bodies of a group. Where one of them can't be read nothing is, and each half is tried apart."""
    _, texts, _ = grouped(group, sites)
    told = Told(room.check(texts, set().union(*(sites[edit] for edit in group)))[1])
    if told.answers or len(group) == 1:
        return {edit: told.of(sites[edit]) for edit in group}
    half = len(group) // 2
    return told_together(room, group[:half], sites) | told_together(room, group[half:], sites)


def together(room, edits, sites, answers):
    """Tries wrong bodies in groups, each by the functions of which one has to be refused, and gives those that aren't refused."""
    is_fit = {edit: sites[edit] and edit.applied_to({})[0] is not None for edit in edits}
    rest, left = [edit for edit in edits if not is_fit[edit]], [edit for edit in edits if is_fit[edit]]
    while left:
        group, _, others = grouped(left, sites)
        said = told_together(room, group, sites)
        answers.update((edit, answer) for edit, answer in said.items() if answer.verdict == REFUSED)
        waiting = [edit for edit in group if said[edit].verdict == WAITS]
        say(f"{room.crate}: {len(group)} together: {sum(edit in answers for edit in group)} refused, {len(waiting)} wait")
        if len(waiting) == len(group):
            rest, waiting = rest + waiting, []
        rest += [edit for edit in group if edit not in answers and edit not in waiting]
        left = waiting + others
    return rest


def tried(crate, edits, words):
    """The answers to these wrong bodies of the crate."""
    functions, answers = all_functions_of(crate), {}
    with tempfile.TemporaryDirectory(prefix="wrong-bodies-") as folder:
        room = Room(crate, words, folder)
        # (most are refused by a goal of what they change)
        left = together(room, edits, {edit: edit.changed(functions) for edit in edits}, answers)
        left = together(room, left, {edit: edit.sites(functions) if edit.turned else set() for edit in left}, answers)
        for edit in left:
            answers[edit] = alone(room, edit)
    return answers


# What is known of earlier tries.


def sum_of(*parts):
    return hashlib.sha256(repr(parts).encode()).hexdigest()


class Notes:
    """Which wrong bodies of a crate were refused on this machine, by a checksum of all that decides that: the toolchain, what
    tries them, and the files of the crate and of those below it."""

    def __init__(self, crate, of, toolchain):
        home = os.path.dirname(os.path.abspath(__file__))
        own = [read(f"{home}/{name}.py") for name in ("tries", "functions")]
        files = sorted(path for name in {crate} | below(crate, of) for path in files_of(name))
        libraries = [(name, of[name]) for name in sorted({crate} | below(crate, of))]
        state = sum_of(toolchain, own, libraries, [(path, read(path)) for path in files])
        cache = os.environ.get("XDG_CACHE_HOME") or os.path.expanduser("~/.cache")
        self.path = f"{cache}/recu/wrong-bodies/{crate}-{state}"
        self.sums = set(read(self.path).split()) if os.path.isfile(self.path) else set()

    def has(self, edit):
        return sum_of(edit.name, edit.text) in self.sums

    def add(self, edits):
        os.makedirs(os.path.dirname(self.path), exist_ok=True)
        with open(self.path, "a", encoding="utf-8") as it:
            it.write("".join(f"{sum_of(edit.name, edit.text)}\n" for edit in edits))


def files_of(crate):
    return [path for part in ("src", "specs", "proofs") for path in glob.glob(f"crates/{crate}/{part}/**/*.*", recursive=True)]


def lanes():
    """How many checks run side by side."""
    free = int(re.search(r"^MemAvailable: *(\d+)", read("/proc/meminfo"), re.M)[1]) * 1024
    return max(1, min(len(os.sched_getaffinity(0)), free // MEMORY_OF_A_CHECK))


def say(text):
    print(f"tests/wrong-bodies.py: {text}", flush=True)


def noted(edits):
    """What is noted of the crates of these wrong bodies."""
    of, toolchain = crates(), identity()
    return {crate: Notes(crate, of, toolchain) for crate in {edit.crate for edit in edits}}


def to_try(edits, notes, anew):
    return [edit for edit in edits if anew or not notes[edit.crate].has(edit)]


def libraries_below(edits, anew):
    """The libraries that a try of these wrong bodies needs, the lowest first."""
    of = crates()
    needed = {library for edit in to_try(edits, noted(edits), anew) for library in below(edit.crate, of)}
    return sorted(needed, key=lambda library: (len(below(library, of)), library))


def try_all(edits, anew):
    """Tries these wrong bodies, and says what came of it. Gives how many were refused now and earlier, and how many weren't."""
    of, top, notes = crates(), kit(), noted(edits)
    new = to_try(edits, notes, anew)
    by_crate = {crate: [edit for edit in new if edit.crate == crate] for crate in of}
    # (the crates with most to read and try come first)
    order = sorted((crate for crate in of if by_crate[crate]), key=lambda crate: -sum(map(os.path.getsize, files_of(crate))))
    refused, wrong = 0, 0
    with concurrent.futures.ThreadPoolExecutor(lanes()) as pool:
        running = {pool.submit(tried, crate, by_crate[crate], check_words(crate, of, top)): crate for crate in order}
        for one in concurrent.futures.as_completed(running):
            crate, answers = running[one], one.result()
            notes[crate].add(edit for edit, answer in answers.items() if answer.verdict == REFUSED)
            for edit, answer in answers.items():
                is_refused = answer.verdict == REFUSED
                refused, wrong = refused + is_refused, wrong + (not is_refused)
                kind = "refused" if is_refused else "NOT REFUSED" if answer.verdict == MISSED else "NOT TRIED"
                say(f"{edit.path}: {kind}: {answer.why[:200]}")
    return refused, len(edits) - len(new), wrong
