#!/usr/bin/env bash
# Times and peak memory of forgetting in a long journal, beside sha256sum of it.
#     bench/forget.sh [PROGRAM [EVENTS..]]
# Prints a table: the least of three times, the peak memory, and the time as a multiple of that of sha256sum.
# The files lie in a temporary folder (TMPDIR chooses where); recu waits until the disk has what it wrote.
set -u
. "$(dirname "$0")/measure.sh"
[ $# -gt 0 ] || sizes=(10000 100000 1000000)

digest() {
    printf "$1" | sha256sum | cut -d' ' -f1
}

# journal EVENTS: edits of the file `A: 1`, to `A: 2` and back in turn
journal() {
    printf '%%rec: RecEdit\n%%doc: recu journal, format 2\n%%key: Number\n\n'
    awk -v events="$1" -v odd="$(digest 'A: 1\n')" -v even="$(digest 'A: 2\n')" 'BEGIN {
        for (n = 1; n <= events; n++) {
            before = n % 2 ? odd : even; after = n % 2 ? even : odd
            printf "Number: %d\nKind: edit\nTool: recset\nBefore: %s\nAfter: %s\nAt: 0\n", n, before, after
            printf "Old: A: %d$\n+ $\nNew: A: %d$\n+ $\n\n", 2 - n % 2, 1 + n % 2
        }
    }'
}

fresh() {
    cp whole.journal db.rec.journal
}

for size in "${sizes[@]}"; do
    size=$((size / 2 * 2))
    printf 'A: 1\n' >db.rec
    journal "$size" >whole.journal
    printf '%s events, %s bytes %41s\n' "$size" "$(stat -c %s whole.journal)" 'times sha256sum'
    unit=
    measure 3 as_is 'sha256sum' sha256sum whole.journal
    measure 3 fresh 'recu history' "$program" history db.rec
    measure 3 fresh 'recu undo' "$program" undo db.rec
    measure 3 fresh 'recu forget 10' "$program" forget 10 db.rec
    measure 3 fresh 'recu forget, a half' "$program" forget "$((size / 2))" db.rec
done
