#!/usr/bin/env bash
# Times and peak memory of write, of keyed record sets and many kinds of changes, and of adopt, where the new text doesn't read,
# beside recset of all records of the same file.
#     bench/write.sh [PROGRAM [RECORDS..]]
# Prints a table: the least of three times, the peak memory, and the time as a multiple of that of recset.
# The files lie in a temporary folder (TMPDIR chooses where); recu waits until the disk has what it wrote.
set -u
. "$(dirname "$0")/measure.sh"
[ $# -gt 0 ] || sizes=(100000)

fresh() {
    cp old.rec db.rec
    rm -f db.rec.journal
}

# change NAME: a line of the table, of writing new.rec over the file
change() {
    fresh
    cmp -s new.rec old.rec && exit 1
    measure 3 fresh "write, $1" "$program" write --force new.rec db.rec
    cmp -s new.rec db.rec || exit 1
}

# the file after an edit, and with CR LF
outside() {
    cp edited.journal db.rec.journal
    sed 's/$/\r/' edited.rec >db.rec
}

# records_in WORD..: the records of the whole file after its descriptor, a line each, through a command
records_in() {
    awk -v RS= 'NR == 1 { print $0 "\n" }' whole.rec
    awk -v RS= -v FS='\n' -v OFS='\001' 'NR > 1 { $1 = $1; print }' whole.rec | "$@" | tr '\001' '\n' | awk '/^Id:/ && NR > 1 { print "" } { print }'
    echo
}

for size in "${sizes[@]}"; do
    awk -f "$here/keyed.awk" -v records="$size" >whole.rec
    cp whole.rec old.rec
    printf '%s records, %s bytes %38s\n' "$size" "$(stat -c %s whole.rec)" 'times recset'
    unit=
    measure 3 fresh 'recset, all records' "$program" recset -t Contact -f Street -s 'Short Road' db.rec
    sed "$((size * 9 / 2 + 15))s/\$/ x/" whole.rec >new.rec
    change 'one line'
    sed 's/^Street: .*/Street: Short Road/' whole.rec >new.rec
    change 'a field of each record'
    sed 's/^Phone:/Telephone:/' whole.rec >new.rec
    change 'a field renamed everywhere'
    records_in sort -t "$(printf '\001')" -k 5.8 >new.rec
    change 'sorted by another field'
    records_in tac >new.rec
    change 'the other way round'
    sed 's/^\([A-Z][a-z]*\): /\1:  /' whole.rec >new.rec
    change 'all lines changed'
    awk 'NR % 1800 == 20 { $0 = $0 " x" } { print } NR % 12600 == 9 { print "" ; print "Id: " 5000000 + NR; print "Name: New" NR; print "Mail: n@example.org"; print "" }' whole.rec |
        cat -s >new.rec
    change 'two branches merged'
    fresh
    "$program" recset -t Contact -n 0 -f Street -s 'Short Road' db.rec
    cp db.rec edited.rec
    cp db.rec.journal edited.journal
    measure 3 outside 'adopt, CR LF' "$program" adopt edited.rec db.rec
    yes 'A: 1' | head -n $((size * 9)) >old.rec
    { head -n $((size * 4)) old.rec; echo 'B: 2'; head -n $((size * 5)) old.rec; } >new.rec
    change 'every line alike'
done
