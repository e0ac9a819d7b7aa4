#!/usr/bin/env bash
# recu and the programs of GNU recutils side by side, on the same files (Debian's package recutils has them).
#     bench/beside-gnu.sh [PROGRAM [RECORDS [KEYED]]]      (100,000 records, and 10,000 for the edits of a keyed set)
# Prints a table: the time of each (the least of three of recu's, one of GNU's, which is stopped after 30 seconds) and the most
# memory that it had; then how many lines of an untidy file an edit of one field leaves otherwise, and what becomes of a file
# whose edit the disk has no room for. recu waits until the disk has what it wrote, and keeps a journal.
# The files lie in a temporary folder (TMPDIR chooses where).
set -u
. "$(dirname "$0")/measure.sh"
[ $# -gt 0 ] || sizes=(100000)
records=${sizes[0]} keyed=${sizes[1]-10000}
command -v recset >/dev/null || {
    echo 'GNU recutils is not installed (Debian: apt-get install recutils)' >&2
    exit 1
}
printf '%s and %s\n' "$("$program" --version)" "$(recset --version | head -n 1)"

fresh() {
    cp whole.rec db.rec
    rm -f db.rec.journal
}

# one RUNS WORD..: two cells of the table, time and memory, each from a fresh file
one() {
    local runs=$1 least= run took status start
    shift
    for ((run = 0; run < runs; run++)); do
        fresh
        start=${EPOCHREALTIME/./} status=0
        timeout 30 "$@" >out 2>said || status=$?
        took=$(((${EPOCHREALTIME/./} - start + 500) / 1000))
        if [ "$status" != 0 ]; then
            printf '%25s' "$([ "$status" = 124 ] && echo 'stopped at 30 s' || echo "exit status $status")"
            return
        fi
        [ -n "$least" ] && [ "$least" -le "$took" ] || least=$took
    done
    fresh
    awk -v ms="$least" -v kb="$(kilobytes "$@")" 'BEGIN { printf "%11d ms %7.1f MB", ms, kb / 1024 }'
}

# beside NAME TOOL WORD..: a line of the table, of both programs
beside() {
    printf '%-30s' "$1"
    one 3 "$program" "${@:2}" db.rec
    one 1 "${@:2}" db.rec
    printf '\n'
}

# head_of RECORDS: the head of the table for whole.rec
head_of() {
    printf '\n%-30s%25s%25s\n' "$1 records, $(($(stat -c %s whole.rec) / 1000)) KB" recu GNU
}

# contacts without a descriptor
awk -f "$here/records.awk" -v megabytes=$((records / 12000 + 1)) | awk -v records="$records" -v RS= -v ORS='\n\n' 'NR <= records' >whole.rec
head_of "$records plain"
beside 'recsel -c' recsel -c
beside 'recsel -e, an integer' recsel -c -e 'Id < 1000100'
beside 'recsel -e, a pattern' recsel -c -e "Mail ~ 'r7+@'"
beside 'recset, one record' recset -n 5 -f Town -s Shelbyville
beside 'recset, all records' recset -f Town -s Shelbyville
beside 'recdel, one record' recdel -n 5

# a key, a counter, types, mandatory and unique fields
awk -f "$here/keyed.awk" -v records="$keyed" >whole.rec
head_of "$keyed keyed"
last=$((keyed - 1))
beside 'recset -n, one record' recset -t Contact -n "$last" -f Street -s 'Short Road'
beside 'recset -e, one record' recset -t Contact -e "Id = $((1000000 + last))" -f Street -s 'Short Road'
beside 'recdel -n, one record' recdel -t Contact -n "$last"
beside 'recset, all records' recset -t Contact -f Street -s 'Short Road'
beside 'recins, automatic field' recins -t Contact -f Name -v New -f Mail -v n@example.org

awk -f "$here/keyed.awk" -v records="$records" >whole.rec
head_of "$records keyed"
beside 'recsel -c' recsel -t Contact -c
beside 'recsel -e, an integer' recsel -t Contact -c -e 'Age > 40'
beside 'recsel -e, a pattern' recsel -t Contact -c -e "Mail ~ '^r7+@'"
beside 'recfix' recfix

# what both leave of a file that was written by hand: comments, blank runs, tabs, joined lines, plus lines, spaces at line ends
cat >whole.rec <<'REC'
# people of the village

%rec: Person
%doc:
+ Who lives here.
+
+ And since when.
%key:	Name


Name:	Ada
# moved in May
Town: Spring\
field
Note:  two spaces before, and one at the end 
+ a second line
+	after a tab

 	
# between the records

Name: Bob
Town:Springfield
Phone: 555

REC

# changed WORD..: how many lines differ after the command
changed() {
    fresh
    "$@" db.rec >out || exit 1
    diff whole.rec db.rec | grep -c '^[<>]'
}
edit=(recset -t Person -e "Name = 'Bob'" -f Phone -s 556)
printf '\nlines taken out and put in where one field is edited in an untidy file: recu %s, GNU %s\n' \
    "$(changed "$program" "${edit[@]}")" "$(changed "${edit[@]}")"

# what is left by an edit whose text has 2 MB, on a file system of 1 MB, where one may be made, or else where a file may have 1 MB
left() {
    local status=0
    cp ../whole.rec db.rec
    "$@" db.rec >../said 2>&1 || status=$?
    printf 'exit status %s, and ' "$status"
    if cmp -s ../whole.rec db.rec; then
        echo 'the file is as it was'
    else
        printf 'the file has %s bytes of what was to be written, and had %s\n' "$(stat -c %s db.rec)" "$(stat -c %s ../whole.rec)"
    fi
}
export -f left
awk -f "$here/records.awk" -v megabytes=1 | awk -v RS= -v ORS='\n\n' 'NR <= 6000' >whole.rec
long=$(printf '%0300d' 0)
mkdir small
full() {
    printf 'a full disk: %s: ' "$1"
    unshare -m bash -c 'mount -t tmpfs -o size=1m none small && cd small && left "$@"' - "${@:2}" 2>/dev/null || (
        trap '' XFSZ
        cd small && ulimit -f 1024 && left "${@:2}"
    )
}
full recu "$program" recset -f Town -s "$long"
full GNU recset -f Town -s "$long"
