#!/usr/bin/env bash
# Times and peak memory of a deletion and of its undo, beside other programs on the same file.
#     bench/run.sh [PROGRAM [MEGABYTES..]]
# Prints a table: the least of three times, the peak memory, and the time as a multiple of sha256sum's.
# The files lie in a temporary folder (TMPDIR chooses where); recu waits until the disk has what it wrote.
set -u
. "$(dirname "$0")/measure.sh"

# The states that a command starts from.
fresh() {
    cp whole.rec db.rec
    rm -f db.rec.journal
}

edited() {
    fresh
    "$program" recdel -n 0 db.rec || exit 1
}

for size in "${sizes[@]}"; do
    awk -f "$here/records.awk" -v megabytes="$size" >whole.rec
    printf '%s MB, %s lines %41s\n' "$size" "$(wc -l <whole.rec)" 'times sha256sum'
    unit=
    measure 3 as_is 'sha256sum' sha256sum whole.rec
    measure 3 as_is 'wc -l' wc -l whole.rec
    measure 3 as_is 'cp' cp whole.rec copy
    measure 3 fresh 'recu recdel' "$program" recdel -n 0 db.rec
    measure 3 edited 'recu undo' "$program" undo db.rec
    if command -v recdel >/dev/null; then
        measure 1 fresh 'GNU recdel' recdel -n 0 db.rec
    fi
done
