#!/usr/bin/env bash
# Times and peak memory of edits of keyed record sets, and of the same records without a type, beside GNU's tools (where they are
# installed), cp and two sha256sum of the same file.
#     bench/edit.sh [PROGRAM [RECORDS..]]
# Prints a table: the least of three times (one for GNU's, at 10,000 records at most), the peak memory, and the time as a multiple
# of that of the two sha256sum; and the nanoseconds of recu for each record.
# The files lie in a temporary folder (TMPDIR chooses where); recu waits until the disk has what it wrote.
set -u
. "$(dirname "$0")/measure.sh"
[ $# -gt 0 ] || sizes=(10000 100000 1000000)

fresh() {
    cp "$from" db.rec
    rm -f db.rec.journal
}

# an edit of the last record, to be undone; and that edit undone, to be redone
edited() {
    fresh
    "$program" recset -t Contact -n "$last" -f Street -s 'Short Road' db.rec
}

undone() {
    edited
    "$program" undo db.rec
}

# twenty edits of the last record
twenty() {
    local number
    for ((number = 1; number <= 20; number++)); do
        "$program" recset -t Contact -n "$last" -f Street -s "$number Short Road" db.rec
    done
}

# no record has its automatic field
unnumbered() {
    grep -v '^Id: \|^%key' whole.rec >db.rec
    rm -f db.rec.journal
}

two_digests() {
    sha256sum "$from"
    sha256sum "$from"
}

export -f two_digests twenty

# edit NAME WORD..: one line of the table, and one of the time for each record
edit() {
    measure 3 fresh "recu $1" "$program" "${@:2}" db.rec
    awk -v ms="$least" -v records="$size" 'BEGIN { printf "%-26s %9.0f ns\n", "  for each record", ms * 1000000 / records }'
}

for size in "${sizes[@]}"; do
    awk -f "$here/keyed.awk" -v records="$size" >whole.rec
    sed '1,/^$/d' whole.rec >plain.rec
    last=$((size - 1))
    half=0-$((size / 2 - 1))
    from=whole.rec
    export program last from
    every=$((size < 10000 ? 1 : size / 10000))
    printf '%s records, %s bytes %38s\n' "$size" "$(stat -c %s whole.rec)" 'times two sha256sum'
    unit=
    measure 3 as_is 'two sha256sum' bash -c two_digests
    measure 3 as_is 'cp' cp whole.rec copy
    edit 'recins, automatic Id' recins -t Contact -f Name -v New -f Mail -v n@example.org
    edit 'recins -n, in place' recins -t Contact -n 5 -f Id -v 9999999 -f Name -v New -f Mail -v n@example.org
    edit 'recset -e, one field' recset -t Contact -e "Id = 1000005" -f Street -s 'Short Road'
    edit 'recset -n, first half' recset -t Contact -n "$half" -f Street -s 'Short Road'
    edit 'recset -e, every second' recset -t Contact -e 'Id % 2 = 0' -f Street -s 'Short Road'
    edit 'recset, all records' recset -t Contact -f Street -s 'Short Road'
    edit 'recset, last record' recset -t Contact -n "$last" -f Street -s 'Short Road'
    edit 'recdel -n, one' recdel -t Contact -n 5
    edit 'recdel -n, ten' recdel -t Contact -n 5,7,9,11,13,15,17,19,21,23
    edit 'recdel -n, 10,000' recdel -t Contact -n "$(seq -s, 0 "$every" "$last")" --force
    measure 3 edited 'recu undo' "$program" undo db.rec
    measure 3 undone 'recu redo' "$program" redo db.rec
    measure 1 fresh 'recu recset, 20 in a row' bash -c twenty
    measure 3 unnumbered 'recu recfix' "$program" recfix db.rec
    measure 3 unnumbered 'recu recfix --auto' "$program" recfix --auto db.rec
    if [ "$size" -le 10000 ] && command -v recset >/dev/null; then
        fresh
        measure 1 fresh 'GNU recset -e, one field' recset -t Contact -e "Id = 1000005" -f Street -s 'Short Road' db.rec
        measure 1 fresh 'GNU recset, all records' recset -t Contact -f Street -s 'Short Road' db.rec
        measure 1 fresh 'GNU recdel -n, one' recdel -t Contact -n 5 db.rec
    fi
    from=plain.rec
    printf 'without a type, %s bytes %41s\n' "$(stat -c %s plain.rec)" 'times two sha256sum'
    unit=
    measure 3 as_is 'two sha256sum' bash -c two_digests
    edit 'recins' recins -f Name -v New -f Mail -v n@example.org
    edit 'recset -n, one' recset -n 5 -f Street -s 'Short Road'
    edit 'recset -n, first half' recset -n "$half" -f Street -s 'Short Road'
    edit 'recset -e, every second' recset -e 'Id % 2 = 0' -f Street -s 'Short Road'
    edit 'recset, all records' recset -f Street -s 'Short Road'
    edit 'recdel -n, one' recdel -n 5
    edit 'recdel -n, first half' recdel -n "$half"
    edit 'recdel -c -n, first half' recdel -c -n "$half"
done
