#!/usr/bin/env bash
# Times and peak memory of batches, beside sha256sum of the same file and one edit of it.
#     bench/batch.sh [PROGRAM [RECORDS..]]      (2,000 records or more; 7,000 have 1 MB)
# Prints a table: the least of three times (one for 10,000 edits), the peak memory, and the time as a multiple of sha256sum's;
# and what an edit of a batch takes, in microseconds.
# The files lie in a temporary folder (TMPDIR chooses where); recu waits until the disk has what it wrote.
set -u
. "$(dirname "$0")/measure.sh"
[ $# -gt 0 ] || sizes=(7000)

fresh() {
    cp whole.rec db.rec
    rm -f db.rec.journal
}

made() {
    fresh
    "$program" batch -b edits.rec db.rec
}

# batch TIMES NAME EDITS: the edits of edits.rec, and what one of them takes
batch() {
    measure "$1" fresh "recu batch, $2" "$program" batch -b edits.rec db.rec
    awk -v ms="$least" -v edits="$3" 'BEGIN { printf "%-26s %9.0f us\n", "  for each edit", ms * 1000 / edits }'
}

# each RECORD: it as an edit of a batch, once for each number that is read
each() {
    sed "s/.*/$1/; s/$/\n/"
}

for size in "${sizes[@]}"; do
    awk -f "$here/keyed.awk" -v records="$size" >whole.rec
    last=$((size - 1))
    printf '%s records, %s bytes %41s\n' "$size" "$(stat -c %s whole.rec)" 'times sha256sum'
    unit=
    measure 3 as_is 'sha256sum' sha256sum whole.rec
    measure 3 fresh 'recu recset, one' "$program" recset -t Contact -n 5 -f Street -s 'Short Road' db.rec
    seq 0 $((size / 1000)) "$last" | head -n 1000 | each 'Tool: recset\nType: Contact\nNumber: &\nFields: Street\nSet: & Short Road' >edits.rec
    batch 3 '1,000 recset -n' 1000
    measure 3 made 'recu undo of it' "$program" undo db.rec
    seq 0 $((size / 2000)) "$last" | head -n 2000 | each 'Tool: recset\nType: Contact\nNumber: &\nFields: Street\nSet: & Short Road' >edits.rec
    batch 3 '2,000 recset -n' 2000
    seq 1000001 $((1000000 + size)) | head -n 1000 | each 'Tool: recset\nType: Contact\nExpression: Id = &\nFields: Street\nSet: Short Road' >edits.rec
    batch 3 '1,000 recset -e' 1000
    seq 1 1000 | each 'Tool: recins\nType: Contact\nField: Name\nValue: N&\nField: Mail\nValue: n&@example.org' >edits.rec
    batch 3 '1,000 recins' 1000
    seq 1 1000 | each 'Tool: recdel\nType: Contact\nNumber: 3' >edits.rec
    batch 3 '1,000 recdel -n' 1000
done

seq 1 10000 | sed 's/.*/A: &\n/' >whole.rec
printf '10000 records, %s bytes %41s\n' "$(stat -c %s whole.rec)" 'times sha256sum'
unit=
measure 3 as_is 'sha256sum' sha256sum whole.rec
seq 0 9999 | each 'Tool: recset\nNumber: &\nFields: A\nSet: 0' >edits.rec
batch 1 '10,000 recset -n' 10000
