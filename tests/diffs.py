#!/usr/bin/env python3
"""diffs.py PROGRAM COUNT [SEED]: draws histories of a file, and compares what the program prints of each edit: the dry run before
it, `show` after it and at the end, `history --patch`, and dry runs of several moves; the real patch and git apply lead by each diff from the text before the
edit to the one after, and with -R back. A diff with lines around the changes is that with none, with these lines."""

import os
import random
import subprocess
import sys
import tempfile

LINES = [
    b"A: 1\n", b"A: 2\n", b"B: x\n", b"B: x\n+ y\n", b"C: a\\\n b\n", b"C: y\r\n", b"D: \xff\x00z\n", b"D: -q\n", b"D: @@ -1,1 +1,1 @@\n",
    b"D: x\\\n--- x\n", b"D: x\\\n+++ y\n", b"D: x\\\n\n", b"# c\n", b"# c\n", b"\n", b"\n", b"\n", b" \t\n",
]
VALUES = ["z", "1", "", "p\nq", "x\ny", "- -", "\n"]
NAMES = ["f.rec", "a b.rec", 'q"u.rec', "back\\s.rec", "-x.rec", "fü.rec", "tab\tx", " lead", "new\nline", "d/f"]

draw = random.Random()
at = ""


def run(words, given=b""):
    done = subprocess.run(words, cwd=at, input=given, stdout=subprocess.PIPE, stderr=subprocess.PIPE, check=False)
    return done.returncode, done.stdout, done.stderr


def text(path):
    with open(os.path.join(at, path), "rb") as file:
        return file.read()


def write(path, content):
    with open(os.path.join(at, path), "wb") as file:
        file.write(content)


def wrong(what, *more):
    print(what, *more, sep="\n  ")
    sys.exit(1)


def drawn_text():
    """Lines of records, sometimes with a descriptor first, and sometimes without the last newline."""
    lines = b"".join(draw.choice(LINES) for _ in range(draw.randrange(14)))
    if draw.random() < 0.3:
        lines = b"%rec: P\n%doc: p\n\n" + lines
    return lines[:-1] if lines and draw.random() < 0.25 else lines


def selection():
    return draw.choice([[], ["-n", str(draw.randrange(3))], ["-n", "0-1"], ["-q", draw.choice("12xy")], ["-e", "A = 1 || #B"]])


def drawn_edit():
    kind = draw.randrange(9)
    value = draw.choice(VALUES)
    field = draw.choice(["A", "B", "C", "D", "A,B", "B,D,A[0]"])
    if kind < 2:
        return ["recins", "-f", draw.choice("ABE"), "-v", value]
    if kind == 2:
        return ["recins", "-n", str(draw.randrange(3)), "-f", "A", "-v", value, "-f", "D", "-v", "x"]
    if kind == 3:
        return ["recdel", "--force", *draw.choice([[], ["-c"]]), *selection()]
    if kind == 4:
        return ["recset", "-f", field, "-r", "E", *selection()]
    if kind == 5:
        return ["recset", "-f", field, draw.choice(["-d", "-c"]), *selection()]
    action = draw.choice(["set", "set-add", "add"])
    return ["recset", "-f", "A,D" if action == "add" else field, f"--{action}={value}", *selection()]


def drawn_batch():
    """The text of a batch of up to four edits."""
    edits = []
    for _ in range(draw.randint(1, 4)):
        number = f"Number: {draw.randrange(3)}\n"
        edits.append(
            draw.choice([
                "Tool: recins\nField: A\nValue: 7\n",
                "Tool: recdel\n" + number,
                "Tool: recdel\nComment: yes\n" + number,
                "Tool: recset\nFields: A,D\nSet: 8\n" + number,
                "Tool: recset\nFields: B\nSetAdd: w\n+ v\n" + number,
                "Tool: recset\nFields: C\nRename: E\n",
            ])
        )
    return "\n".join(edits).encode()


def drawn_words():
    chance = draw.random()
    if chance < 0.15:
        return ["undo"]
    if chance < 0.25:
        return ["redo"]
    if chance < 0.45:
        write("batch.rec", drawn_batch())
        return ["batch", "-b", "batch.rec"]
    return drawn_edit()


def hunks(diff):
    """The lines of a diff after its names, without what stands after the places, and without a number of lines that is 1."""
    lines = diff.split(b"\n")[2:]
    return [line[: line.find(b"@@", 2) + 2].replace(b",1 ", b" ") if line.startswith(b"@@ ") else line for line in lines]


def is_of_any_program(diff, before, after):
    """diff -U0 prints the same hunks: what git makes of them it would make of that program's too."""
    write("before", before)
    write("after", after)
    return hunks(diff) == hunks(run(["diff", "-a", "-U0", "before", "after"])[1])


def leads(words, name, diff, here, there):
    write(name, here)
    status = run(words, diff)[0]
    # A text without a byte is no file after patch.
    got = text(name) if os.path.exists(os.path.join(at, name)) else b""
    return status == 0 and got == there


def is_led_by(name, diff, before, after, has_lines=True):
    kept = text(name)
    for words in (
        ["patch", "-p0", "-s", "-f", "--binary", "--no-backup-if-mismatch"],
        ["git", "apply", "-p0", *([] if has_lines else ["--unidiff-zero"])],
    ):
        there = leads(words, name, diff, before, after)
        back = leads([*words, "-R"], name, diff, after, before)
        # Without lines around it git may take another last line that has no newline.
        excused = not has_lines and words[0] == "git" and is_of_any_program(diff, before, after)
        if not (there and back) and not excused:
            wrong(f"{words[0]} leads {'elsewhere back' if there else 'elsewhere'} by", diff, before, after)
    write(name, kept)


def lines_of(content):
    """The lines of a text, each with its newline, if it has one."""
    lines = content.split(b"\n")
    return [line + b"\n" for line in lines[:-1]] + ([lines[-1]] if lines[-1] else [])


def changes_in(diff):
    """The changes of a diff with no lines around them: where each begins in the text before, how many lines go and how many come,
    the heading, and the lines that are shown."""
    changes = []
    for line in lines_of(diff)[2:]:
        if line.startswith(b"@@ "):
            old, new, heading = line[4:].split(b" ", 1)[0], line.split(b"+", 1)[1].split(b" ", 1)[0], line.split(b" @@", 1)[1]
            at_line, goes = (int(n) for n in old.split(b","))
            changes.append((at_line - 1 if goes else at_line, goes, int(new.split(b",")[1]), heading, []))
        else:
            changes[-1][4].append(line)
    return changes


def widened(diff, before, count):
    """The same diff with this number of lines around its changes."""
    if not diff:
        return diff
    lines, changes, groups = lines_of(before), changes_in(diff), []
    for change in changes:
        if groups and change[0] - (groups[-1][-1][0] + groups[-1][-1][1]) <= 2 * count:
            groups[-1].append(change)
        else:
            groups.append([change])
    printed, shift = b"".join(lines_of(diff)[:2]), 0

    def stays(start, end):
        return b"".join(b" " + line + (b"" if line.endswith(b"\n") else b"\n\\ No newline at end of file\n") for line in lines[start:end])

    def place(start, number):
        return b"%d,%d" % (start + 1 if number else start, number)

    for group in groups:
        start = max(0, group[0][0] - count)
        end = min(len(lines), group[-1][0] + group[-1][1] + count)
        grown = sum(comes - goes for _, goes, comes, _, _ in group)
        printed += b"@@ -%s +%s @@" % (place(start, end - start), place(start + shift, end - start + grown)) + group[0][3]
        here = start
        for at_line, goes, _, _, shown in group:
            printed += stays(here, at_line) + b"".join(shown)
            here = at_line + goes
        printed += stays(here, end)
        shift += grown
    return printed


class Machine:
    """The edits of a history, and the texts before and after each."""

    def __init__(self, start):
        self.past, self.future, self.present, self.next = [], [], start, 1

    def make(self, words, after):
        if after == self.present:
            return None
        if words[0] == "undo":
            edit = self.past.pop()
            self.future.insert(0, edit)
        elif words[0] == "redo":
            edit = self.future.pop(0)
            self.past.append(edit)
        else:
            edit = (self.next, words[0], self.present, after)
            self.past.append(edit)
            self.future = []
        self.next += 1
        self.present = after
        return edit


def history_of(program, name, machine):
    """What history --patch prints, which is what history and show print; each diff leads there and back."""
    printed = b""
    for word, edits in ((b"done", machine.past), (b"undone", machine.future)):
        for number, tool, before, after in edits:
            status, diff, err = run([program, "show", str(number), "--", name])
            if status != 0 or not diff:
                wrong(f"show {number} ends with {status}:", err)
            is_led_by(name, diff, before, after)
            plain = run([program, "show", str(number), "--unified", "0", "--", name])[1]
            is_led_by(name, plain, before, after, has_lines=False)
            count = draw.choice([1, 2, 3, 5, 1000])
            for shown, number_of_lines in ((diff, 3), (run([program, "show", f"--unified={count}", str(number), "--", name])[1], count)):
                if shown != widened(plain, before, number_of_lines):
                    wrong(f"{number_of_lines} lines around the changes are others:", shown, widened(plain, before, number_of_lines), before)
            printed += b"%s %d %s\n" % (word, number, tool.encode()) + diff
    status, out, err = run([program, "history", "--patch", "--", name])
    if status != 0 or out != printed:
        wrong(f"history --patch ends with {status}:", out, err, printed)
    return len(machine.past) + len(machine.future)


def moves_of(program, name, machine):
    """What a dry run of several moves prints leads from text to text, one move after another, as far as the edit of each number."""
    for way, edits in (("undo", machine.past[::-1]), ("redo", machine.future)):
        printed = b""
        for number, _, before, after in edits:
            status, out, err = run([program, way, "--dry-run", "--through", str(number), "--", name])
            if status != 0 or not out.startswith(printed):
                wrong(f"{way} --dry-run --through {number} ends with {status}:", out, err, printed)
            here, there = (after, before) if way == "undo" else (before, after)
            is_led_by(name, out[len(printed):], here, there)
            printed = out
    if text(name) != machine.present:
        wrong("a dry run of several moves changes the file")


def drawn_history(program, name):
    start = drawn_text()
    write(name, start)
    if os.path.exists(os.path.join(at, name + ".journal")):
        os.remove(os.path.join(at, name + ".journal"))
    machine = Machine(start)
    for _ in range(draw.randint(2, 8)):
        words = drawn_words()
        tried = run([program, *words, "--dry-run", "--", name])
        if text(name) != machine.present:
            wrong("a dry run changes the file:", words)
        made = run([program, *words, "--", name])
        if (made[0], made[2]) != (tried[0], tried[2]) or made[1]:
            wrong("a dry run ends otherwise:", words, tried, made)
        if made[0] != 0 and text(name) != machine.present:
            wrong("a refused command changes the file:", words)
        before = machine.present
        edit = machine.make(words, text(name))
        if edit is None:
            if tried[1]:
                wrong("a dry run prints what isn't changed:", words, tried)
            continue
        is_led_by(name, tried[1], before, machine.present)
        if words[0] != "undo":
            shown = run([program, "show", "--", name])
            if shown[1] != tried[1]:
                wrong("show prints something else than the dry run:", words, tried, shown)
    moves_of(program, name, machine)
    return history_of(program, name, machine)


def main():
    global at
    program, count = os.path.realpath(sys.argv[1]), int(sys.argv[2])
    draw.seed(int(sys.argv[3]) if len(sys.argv) > 3 else 1)
    edits = 0
    with tempfile.TemporaryDirectory() as at:
        os.mkdir(os.path.join(at, "d"))
        run(["git", "init", "-q", "."])
        for _ in range(count):
            edits += drawn_history(program, draw.choice(NAMES))
    if edits < count:
        wrong(f"only {edits} edits were drawn in {count} histories")


if __name__ == "__main__":
    main()
