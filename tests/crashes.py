#!/usr/bin/env python3
"""crashes.py PROGRAM STORIES: what a crash of the machine may leave of each request of rec_crashes, at each moment, with the file
and its journal in one folder and in two, is laid in an empty folder. STORIES is rec_crashes, which tells what each request does to
the disk. Then PROGRAM finds the history before the request or the one after it, gives the file a whole text, and takes all edits
back."""

import collections
import itertools
import os
import subprocess
import sys
import tempfile

REQUESTS = 16
FORGETTING = 4
TEXT = b"A: 1\n\nA: 2\n"
# undo of all leads there once the first edit was forgotten
FIRST = b"A: 5\n\nA: 2\n"
# another program saves these before the requests that adopt them, and until that is done undo of all leads there
SAVED = {
    5: b"A: 6\n",
    7: b"A: 6\n\nA: 7\n",
    8: b"A: 6\n\nA: 7\n\nA: 8\n",
    9: b"A: 6\n\nA: 7\n\nA: 8",
    10: b"A: 6\r\n\r\nA: 7\r\n\r\nA: 8\r\n",
    11: b"A: 6\n\nA 7\n",
    13: b"",
    14: b"A: 7\n\nA: 6\n",
}
# the last of them is an older text of the history
OLDER = 14
# the whole text that the file is given next
NEXT = b"B: 3\n"
PATHS = {"1": ("db.rec", "db.rec.journal"), "2": ("a/db.rec", "b/db.rec.journal")}

# What a word of the story does, to which names, and the bytes that it writes.
Change = collections.namedtuple("Change", "word names content")
# What the program finds: the text, and the edits with what each of them changed.
Found = collections.namedtuple("Found", "text edits")


def wrong(*what):
    print(*what, sep="\n  ")
    sys.exit(1)


def folder_of(path):
    return os.path.dirname(path) or "."


def story(stories, number, folders):
    """What a request does to the disk."""
    said = subprocess.run([stories, "log", str(number), folders], stdout=subprocess.PIPE, check=True).stdout.decode()
    for line in said.split("\n")[:-1]:
        word, *rest = line.split(" ", 2 if line.startswith("write ") else -1)
        content = rest.pop().replace("¶", "\n").encode() if word == "write" else b""
        yield Change(word, rest, content)


class Disk:
    """What stands in each folder now and at each moment since it was synced, and the bytes of each file and whether they are synced."""

    def __init__(self, paths):
        self.moments = {folder_of(path): [{}] for path in paths}
        self.contents = []
        self.synced = []
        self.change(Change("make", [paths[0]], b""))
        self.change(Change("write", [paths[0]], TEXT))
        self.settle()

    def names(self):
        """What stands now, by its path."""
        return {path: file for moments in self.moments.values() for path, file in moments[-1].items()}

    def settle(self):
        """All is there for good."""
        self.synced = [True for _ in self.synced]
        self.moments = {folder: moments[-1:] for folder, moments in self.moments.items()}

    def set(self, path, file):
        """Lets another file stand at a path, or none."""
        moments = self.moments[folder_of(path)]
        after = {other: there for other, there in moments[-1].items() if other != path}
        moments.append(after if file is None else {**after, path: file})

    def change(self, change):
        names = self.names()
        if change.word == "make":
            self.set(change.names[0], len(self.contents))
            self.contents.append(b"")
            self.synced.append(True)
        elif change.word == "write":
            self.contents[names[change.names[0]]] = change.content
            self.synced[names[change.names[0]]] = False
        elif change.word == "sync":
            self.synced[names[change.names[0]]] = True
        elif change.word == "rename":
            self.rename(*change.names)
        elif change.word == "remove":
            self.set(change.names[0], None)
        elif change.word == "sync_folder":
            self.moments[change.names[0]] = self.moments[change.names[0]][-1:]
        else:
            wrong("what is this change?", change)

    def save(self, path, content):
        """Another program does, for good."""
        self.contents[self.names()[path]] = content

    def rename(self, before, after):
        """At one moment, in one folder."""
        moments = self.moments[folder_of(before)]
        file = moments[-1][before]
        self.set(before, None)
        self.set(after, file)
        del moments[-2]

    def fillings(self, file):
        """What may be left of a file."""
        content = self.contents[file]
        return [content] if self.synced[file] else [content, b"", content[: len(content) // 2], bytes(len(content))]

    def left(self):
        """All that a crash may leave: of each folder what stood there at one moment, and of each file its bytes or a part."""
        for moments in itertools.product(*self.moments.values()):
            names = {path: file for moment in moments for path, file in moment.items()}
            for contents in itertools.product(*(self.fillings(file) for file in names.values())):
                yield dict(zip(names, contents))

    def standing(self):
        """What stands if there is no crash."""
        return {path: self.contents[file] for path, file in self.names().items()}


class Trial:
    """An empty folder, with runs of the program on the file and its journal."""

    def __init__(self, program, paths, at):
        self.program, self.paths, self.at = program, paths, at

    def run(self, *words, text=b""):
        words = [self.program, *words, "--journal", self.paths[1], self.paths[0]]
        return subprocess.run(words, cwd=self.at, input=text, stdout=subprocess.PIPE, stderr=subprocess.PIPE, check=False)

    def text(self):
        with open(os.path.join(self.at, self.paths[0]), "rb") as file:
            return file.read()

    def there(self):
        return {os.path.join(folder, name) for folder in map(folder_of, self.paths) for name in os.listdir(os.path.join(self.at, folder))
                if os.path.isfile(os.path.join(self.at, folder, name))}

    def lay(self, left):
        for path in self.paths:
            os.makedirs(os.path.join(self.at, folder_of(path)), exist_ok=True)
        for path in self.there():
            os.remove(os.path.join(self.at, path))
        for path, content in left.items():
            with open(os.path.join(self.at, path), "wb") as file:
                file.write(content)

    def found(self):
        done = self.run("history", "--patch")
        return Found(self.text(), done.stdout) if done.returncode == 0 else None

    def said_of(self, adopted):
        """What is said of the next edit, where it begins a new history over what another program saved before this request."""
        if adopted is None:
            return b""
        file, journal = (path.encode() for path in self.paths)
        may_be = adopted != OLDER and journal != file + b".journal"
        # one edit stood when the first request was made that adopts, and each request from there on makes one
        count = adopted - min(SAVED) + 1
        return b"%s: it was changed outside; %d %s before that can't be undone any more\n%s" % (
            file, count, b"edit" if count == 1 else b"edits", b"%s: it may be the journal of another file\n" % journal if may_be else b"")

    def goes_on(self, first, adopted):
        """The next edit is made, and undo of all leads to the first text; returns what is wrong."""
        made = self.run("write", "-", text=NEXT)
        if made.returncode != 0 or made.stdout or made.stderr != self.said_of(adopted):
            return made.stderr
        oldest = self.run("history").stdout.split()[1].decode()
        undone = self.run("undo", "--through", oldest)
        if undone.returncode != 0:
            return undone.stderr
        undone = self.run("undo")
        if not undone.stderr.endswith(b"recu: nothing to undo\n"):
            return undone.stderr
        if self.text() != first:
            return self.text()
        names = {os.path.normpath(path) for path in self.there()}
        return None if names == set(self.paths) else sorted(names)


def first_text(made, adopted):
    """Where undo of all leads once this number of requests were made, the next of which is to adopt what another program saved."""
    return SAVED[adopted] if adopted is not None else TEXT if made <= FORGETTING else FIRST


def crash(trial, disk, changes, number):
    """Lets the machine crash at each moment of a request, and returns how often something else was left."""
    trial.lay(disk.standing())
    before = trial.found()
    lefts = {}
    for change in [None, *changes]:
        if change:
            disk.change(change)
        for left in disk.left():
            lefts.setdefault(tuple(sorted(left.items())), change)
    trial.lay(disk.standing())
    after = trial.found()
    if None in (before, after) or before == after:
        wrong(f"request {number} does nothing")
    for left, change in lefts.items():
        trial.lay(dict(left))
        found = trial.found()
        if found not in (before, after):
            wrong(f"request {number}, a crash after {change}: the history is lost", found, *left)
        made = number if found == before else number + 1
        adopted = number if made == number and number in SAVED else None
        why = trial.goes_on(first_text(made, adopted), adopted)
        if why is not None:
            wrong(f"request {number}, a crash after {change}: it doesn't go on", why, *left)
    return len(lefts)


def main():
    program, stories = map(os.path.realpath, sys.argv[1:3])
    crashes = 0
    for folders, paths in PATHS.items():
        disk = Disk(paths)
        for number in range(REQUESTS):
            if number in SAVED:
                disk.save(paths[0], SAVED[number])
            with tempfile.TemporaryDirectory() as at:
                crashes += crash(Trial(program, paths, at), disk, list(story(stories, number, folders)), number)
            disk.settle()
    print(f"{crashes} crashes: none lost")


if __name__ == "__main__":
    main()
