#!/usr/bin/env bash
# Times and peak memory of checking keyed record sets, beside GNU's recfix (where it is installed) and plain tools on the same file.
#     bench/check.sh [PROGRAM [RECORDS..]]
# Prints a table: the least of three times (one for GNU's, at 10,000 records at most), the peak memory, and the time as a multiple
# of that of `wc`; and then the nanoseconds of recu for each record.
set -u
. "$(dirname "$0")/measure.sh"
[ $# -gt 0 ] || sizes=(10000 100000 1000000)

# the keys of a file that stand in it twice
doubled_keys() {
    grep '^Id: ' "$1" | sort | uniq -d
}
export -f doubled_keys

for size in "${sizes[@]}"; do
    awk -f "$here/keyed.awk" -v records="$size" >db.rec
    printf '%s records, %s bytes %40s\n' "$size" "$(stat -c %s db.rec)" 'times wc'
    unit=
    measure 3 as_is 'wc' wc db.rec
    measure 3 as_is 'sort | uniq -d on the keys' bash -c 'doubled_keys db.rec'
    measure 3 as_is 'recu recfix' "$program" recfix db.rec
    awk -v ms="$least" -v records="$size" 'BEGIN { printf "%-26s %9.0f ns\n", "  for each record", ms * 1000000 / records }'
    if [ "$size" -le 10000 ] && command -v recfix >/dev/null; then
        measure 1 as_is 'GNU recfix' recfix db.rec
    fi
done
