#!/usr/bin/env bash
# Times and peak memory of inputs that are long where they are short as a rule: each is measured at three sizes, of which each is
# twice the one before it, so that a time that grows as their square is seen.
#     bench/hostile.sh [PROGRAM [ITEMS..]]
# Prints a table: the least of three times, the peak memory, and the time as a multiple of that of the least size. A word of the
# command line has at most 131,071 bytes, which some 13,000 items fill.
set -u
. "$(dirname "$0")/measure.sh"
[ $# -gt 0 ] || sizes=(2500)

# a list of n items, each of a name of its own, on a record of five times as many fields
items_on_fields() {
    local factor items
    printf '%s items and more, on a record of five times as many fields\n' "$1"
    unit=
    for factor in 1 2 4; do
        items=$(($1 * factor))
        awk -v fields=$((items * 5)) 'BEGIN { for (i = 0; i < fields; i++) printf "F%d: %d\n", i, i }' >db.rec
        measure 3 as_is "recu recsel -p, $items" "$program" recsel -p "$(seq -s, -f 'F%.0f[0]' 0 5 $((items * 5 - 1)))" db.rec
    done
}

# a list of n items of this form, of which 40,000 records of two fields have none or one
items_on_records() {
    local factor items
    printf '%s items %s and more, on 40,000 records of two fields\n' "$1" "$2"
    unit=
    awk 'BEGIN { for (i = 0; i < 40000; i++) printf "A: %d\nB: 1\n\n", i }' >db.rec
    measure 3 as_is "recu recsel -p, 4" "$program" recsel -p "$(seq -s, -f "$2" 0 3)" db.rec
    for factor in 1 2 4; do
        items=$(($1 * factor))
        measure 3 as_is "recu recsel -p, $items" "$program" recsel -p "$(seq -s, -f "$2" 0 $((items - 1)))" db.rec
    done
}

# n names, each twice in a record and once in an expression that no record fits, with this operator between them
names_in_places() {
    local operator=$1 names factor
    printf '62 names and more, each twice in a record, with %s between them\n' "$operator"
    unit=
    for factor in 1 2 4; do
        names=$((62 * factor))
        awk -v names=$names 'BEGIN { for (r = 0; r < 100; r++) { for (i = 0; i < names; i++) printf "N%d: 0\nN%d: 1\n", i, i; print "" } }' >db.rec
        measure 3 as_is "recu recsel -c, $names" "$program" recsel -c -e "$(seq -s " $operator " -f 'N%.0f = 2' 0 $((names - 1)))" db.rec
    done
}

# n names, each once in a record and once in an expression that no record fits
names_on_fields() {
    local names factor
    printf '62 names and more, each once in a record\n'
    unit=
    for factor in 1 2 4; do
        names=$((62 * factor))
        awk -v names=$names 'BEGIN { for (r = 0; r < 100; r++) { for (i = 0; i < names; i++) printf "N%d: 0\n", i; print "" } }' >db.rec
        measure 3 as_is "recu recsel -c, $names" "$program" recsel -c -e "$(seq -s ' || ' -f 'N%.0f = 2' 0 $((names - 1)))" db.rec
    done
}

# n fields of one name, none of which has the value that is sought
fields_of_one_name() {
    local factor fields
    printf '%s fields of one name and more\n' "$1"
    unit=
    for factor in 1 2 4; do
        fields=$(($1 * factor))
        awk -v fields="$fields" 'BEGIN { for (i = 0; i < fields; i++) printf "E: %d\n", i }' >db.rec
        measure 3 as_is "recu recsel -e, $fields" "$program" recsel -c -e "E = 'x'" db.rec
    done
}

# n fields of each of two names, none of which is like one of the other: the choices are the square
fields_of_two_names() {
    local factor fields
    printf '%s fields of each of two names and more\n' "$1"
    unit=
    for factor in 1 2 4; do
        fields=$(($1 * factor))
        awk -v fields="$fields" 'BEGIN { for (i = 0; i < fields; i++) printf "A: a%d\nB: b%d\n", i, i }' >db.rec
        measure 3 as_is "recu recsel -e, 2 x $fields" "$program" recsel -c -e 'A = B' db.rec
    done
}

# n names in a field of the descriptor, over 40,000 records that have 4 of them
names_of_a_rule() {
    local rule=$1 factor names
    printf '1,000 names in %s and more, 40,000 records\n' "$rule"
    unit=
    for factor in 1 2 4; do
        names=$((1000 * factor))
        {
            printf '%%rec: P\n%s: ' "$rule"
            seq -s ' ' -f 'N%.0f' 1 "$names"
            printf '\n'
            awk 'BEGIN { for (r = 0; r < 40000; r++) printf "F%d: 1\nF1: 2\nF2: 3\nF3: 4\n\n", r }'
        } >db.rec
        measure 3 as_is "recu recfix, $names" "$program" recfix db.rec
    done
}

# n words of an enum, of which each of 40,000 records has the last
words_of_an_enum() {
    local factor words
    printf '1,000 words of an enum and more, 40,000 records\n'
    unit=
    for factor in 1 2 4; do
        words=$((1000 * factor))
        {
            printf '%%rec: P\n%%type: K enum '
            seq -s ' ' -f 'w%.0f' 1 "$words"
            printf '\n'
            awk -v words="$words" 'BEGIN { for (r = 0; r < 40000; r++) printf "K: w%d\n\n", words }'
        } >db.rec
        measure 3 as_is "recu recfix, $words" "$program" recfix db.rec
    done
}

# n types of one field; the memory is to be seen
types_of_a_field() {
    local type=$1 value=$2 factor types
    printf '30,000 fields "%%type: F %s" and more\n' "$type"
    unit=
    for factor in 1 2 4; do
        types=$((30000 * factor))
        awk -v types="$types" -v type="$type" -v value="$value" 'BEGIN { print "%rec: P"; for (i = 0; i < types; i++) print "%type: F " type; print "\nF: " value }' >db.rec
        measure 3 as_is "recu recfix, $types" "$program" recfix db.rec
    done
}

# a chain of n definitions
chain_of_definitions() {
    local factor links
    printf '25,000 definitions in a chain and more\n'
    unit=
    for factor in 1 2 4; do
        links=$((25000 * factor))
        awk -v links="$links" 'BEGIN { print "%rec: P"; for (i = 0; i < links; i++) printf "%%typedef: T%d T%d\n", i, i + 1; printf "%%typedef: T%d int\n%%type: F T0\n\nF: 1\n", links }' >db.rec
        measure 3 as_is "recu recfix, $links" "$program" recfix db.rec
    done
}

# n texts joined by &, each of 1,000 bytes
joined_texts() {
    local factor texts
    printf '100 texts of 1,000 bytes joined by & and more, 100 records\n'
    unit=
    for factor in 1 2 4; do
        texts=$((100 * factor))
        awk 'BEGIN { for (i = 0; i < 1000; i++) t = t "x"; for (r = 0; r < 100; r++) printf "T: %s\n\n", t }' >db.rec
        measure 3 as_is "recu recsel -c, $texts" "$program" recsel -c -e "$(yes T | head -n "$texts" | paste -sd '&') = 'x'" db.rec
    done
}

for size in "${sizes[@]}"; do
    items_on_fields "$size"
    items_on_records "$size" 'F%.0f'
    items_on_records "$size" 'A[%.0f]'
    fields_of_one_name $((size * 4))
    fields_of_two_names $((size * 2 / 25))
done
names_in_places '&&'
names_in_places '||'
names_on_fields
for rule in %prohibit %unique; do
    names_of_a_rule "$rule"
done
words_of_an_enum
types_of_a_field int 1
types_of_a_field 'regexp /a/' a
chain_of_definitions
joined_texts
