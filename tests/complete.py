#!/usr/bin/env python3
"""complete.py SHELL: completes each line of standard input, in the folder where it runs, and prints a line with the words that
the shell offers, in their order. SHELL is bash, zsh or fish, with the file of completions/ alone. It completes at the end of
the line, or, in bash and zsh, at a ^ in it."""

import os
import pty
import select
import subprocess
import sys
import tempfile
import time

TOP = os.path.dirname(os.path.dirname(os.path.abspath(__file__)))

BASH = """
PS1='ready> '
. "$TOP/completions/recu.bash"
offered() {
    _recu "$@"
    local words=("${COMPREPLY[@]}")
    [[ $(compopt) != *'-o default'* ]] || words+=($(compgen -f -- "$2"))
    printf '%s\\n' "${words[@]}" > "$OFFERED.new"
    mv "$OFFERED.new" "$OFFERED"
}
complete -F offered recu
bind 'set bell-style none'
"""

ZSH = """
PS1='ready> '
fpath=("$OFFERED.functions" $fpath)
autoload -Uz compinit
compinit -u -D
compadd() {
    local -a words
    builtin compadd -O words "$@"
    [[ -n ${words[1]-} && ${argv[(i)-[OAD]]} -gt $# ]] && print -rl -- $words >> "$OFFERED.new"
    builtin compadd "$@"
}
offered() {
    : > "$OFFERED.new"
    zle complete-word
    mv "$OFFERED.new" "$OFFERED"
}
zle -N offered
bindkey '\\t' offered
bindkey '^U' kill-whole-line
setopt nobeep nolistbeep
zstyle ':completion:*' verbose no
LISTMAX=10000
"""


def interactive(words, rc, at, lines):
    """What the shell offers when each line is typed on a terminal, and then the tab."""
    offered = os.path.join(at, "offered")
    environment = {**os.environ, "TERM": "dumb", "TOP": TOP, "OFFERED": offered, "ZDOTDIR": at, "HOME": at}
    with open(os.path.join(at, rc[0]), "w", encoding="utf-8") as file:
        file.write(rc[1])
    child, terminal = pty.fork()
    if child == 0:
        os.execvpe(words[0], words, environment)
    printed = b""

    def take():
        nonlocal printed
        if select.select([terminal], [], [], 0.01)[0]:
            printed += os.read(terminal, 65536)

    end = time.monotonic() + 60
    while b"ready> " not in printed and time.monotonic() < end:
        take()
    for line in lines:
        before, _, after = line.partition("^")
        os.write(terminal, b"\x15" + (before + after).encode() + b"\x02" * len(after) + b"\t")
        while not os.path.exists(offered):
            take()
            if time.monotonic() > end:
                sys.exit(f"{words[0]} offers nothing for {line}: {printed.decode(errors='replace')}")
        with open(offered, encoding="utf-8") as file:
            yield file.read().split("\n")
        os.remove(offered)
    os.write(terminal, b"\x15exit\r")
    os.close(terminal)
    os.waitpid(child, 0)


def fish(at, lines):
    script = f"source '{TOP}/completions/recu.fish'\n" + "while read -l line\n complete -C $line\n echo .end\nend\n"
    words = ["fish", "--no-config", "-c", script]
    given = "".join(line + "\n" for line in lines)
    out = subprocess.run(words, input=given, capture_output=True, text=True, check=True, env={**os.environ, "HOME": at}).stdout
    for offered in out.split(".end\n")[: len(lines)]:
        yield [word.split("\t")[0] for word in offered.split("\n")]


def main():
    shell = sys.argv[1]
    lines = sys.stdin.read().split("\n")[:-1]
    with tempfile.TemporaryDirectory() as at:
        if shell == "bash":
            answers = interactive(["bash", "--noprofile", "--rcfile", os.path.join(at, "rc"), "-i"], ("rc", BASH), at, lines)
        elif shell == "zsh":
            os.mkdir(os.path.join(at, "offered.functions"))
            os.symlink(os.path.join(TOP, "completions/recu.zsh"), os.path.join(at, "offered.functions/_recu"))
            answers = interactive(["zsh", "-d", "-i"], (".zshrc", ZSH), at, lines)
        else:
            answers = fish(at, lines)
        for words in answers:
            # The part of a word that was there before, up to a comma or =, is left out; zsh puts = after some names.
            print(" ".join(sorted({word.rstrip("=").replace("=", ",").split(",")[-1].rstrip("/") for word in words if word})))


if __name__ == "__main__":
    main()
