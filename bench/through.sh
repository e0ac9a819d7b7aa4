#!/usr/bin/env bash
# Times and peak memory of undo --through and redo --through, beside as many commands without it.
#     bench/through.sh [PROGRAM [EDITS..]]
# Prints a table: the least of three times, the peak memory, and the time as a multiple of that of as many undos. The file has
# 1 MB, and each edit sets a field of one record.
# The files lie in a temporary folder (TMPDIR chooses where); recu waits until the disk has what it wrote.
set -u
. "$(dirname "$0")/measure.sh"
[ $# -gt 0 ] || sizes=(10 100)

# write_edits EDITS: the file was edited so often; the folders done and undone have it before and after as many undos
write_edits() {
    local number last=$(($(grep -c '^Id:' whole.rec) - 1))
    rm -rf done undone db.rec.journal
    cp whole.rec db.rec
    for ((number = 1; number <= $1; number++)); do
        "$program" recset -t Contact -n "$((number * 7919 % last))" -f Street -s "$number Short Road" db.rec
    done
    mkdir done undone
    cp db.rec db.rec.journal done
    "$program" undo --through 1 db.rec
    cmp -s db.rec whole.rec || exit 1
    cp db.rec db.rec.journal undone
}

fresh() {
    cp done/* .
}

taken_back() {
    cp undone/* .
}

# times NUMBER WORD..: the command so often
times() {
    local number
    for ((number = 0; number < $1; number++)); do "${@:2}"; done
}

awk -f "$here/keyed.awk" -v records=6800 >whole.rec
export -f times
for size in "${sizes[@]}"; do
    write_edits "$size"
    printf '%s edits of %s bytes %41s\n' "$size" "$(stat -c %s whole.rec)" 'times as many undos'
    unit=
    measure 3 fresh "$size recu undo" bash -c 'times "$@"' '' "$size" "$program" undo db.rec
    measure 3 fresh 'recu undo --through' "$program" undo --through 1 db.rec
    measure 3 taken_back "$size recu redo" bash -c 'times "$@"' '' "$size" "$program" redo db.rec
    measure 3 taken_back 'recu redo --through' "$program" redo --through "$size" db.rec
done
