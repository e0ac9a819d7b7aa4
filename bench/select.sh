#!/usr/bin/env bash
# Times and peak memory of selecting and printing, beside GNU's recsel (where it is installed) and plain tools on the same file.
#     bench/select.sh [PROGRAM [MEGABYTES..]]
# Prints a table: the least of three times (one for GNU's), the peak memory, and the time as a multiple of that of `wc -l`.
set -u
. "$(dirname "$0")/measure.sh"

# both NAME OPTION..: recu, and GNU's program with the same options
both() {
    local name=$1
    shift
    measure 3 as_is "recu $name" "$program" recsel "$@" db.rec
    if command -v recsel >/dev/null; then
        measure 1 as_is "GNU $name" recsel "$@" db.rec
    fi
}

for size in "${sizes[@]}"; do
    awk -f "$here/contacts.awk" -v megabytes="$size" >db.rec
    printf '%s MB, %s lines %40s\n' "$size" "$(wc -l <db.rec)" 'times wc -l'
    unit=
    measure 3 as_is 'wc -l' wc -l db.rec
    measure 3 as_is 'cat' cat db.rec
    measure 3 as_is 'grep -c Springfield' grep -c Springfield db.rec
    both 'recsel -c' -c
    both 'recsel' -C
    both 'recsel -q' -c -q 'Springfield 77'
    both 'recsel -e, a number' -c -e 'Age > 40'
    both 'recsel -e, a pattern' -c -e "Mail ~ 'r7+@'"
    both 'recsel -P' -C -P Name
    measure 3 as_is 'recu recinf' "$program" recinf db.rec
done
