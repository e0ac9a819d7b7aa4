#!/usr/bin/env bash
# Times and peak memory of what shows changes: history --patch and show beside git log -p and git show of the same changes, and dry
# runs beside the commands.
#     bench/show.sh [PROGRAM [EDITS..]]
# Prints a table: the least of three times, the peak memory, and the time as a multiple of that of git log. The file has 1 MB, and
# each edit sets a field of one record; git has a commit for each edit.
# The files lie in a temporary folder (TMPDIR chooses where).
set -u
. "$(dirname "$0")/measure.sh"
[ $# -gt 0 ] || sizes=(100 1000)

fresh() {
    cp start.journal db.rec.journal
    cp start.rec db.rec
}

in_git() {
    git -c user.name=recu -c user.email=recu@localhost -c gc.auto=0 -C repository "$@"
}

# write_edits EDITS: a file of 1 MB that was edited so often, and the same in git
write_edits() {
    local number last=$(($(grep -c '^Id:' whole.rec) - 1))
    cp whole.rec db.rec
    rm -rf db.rec.journal repository
    git init -q repository
    cp db.rec repository
    in_git add db.rec
    in_git commit -q -m 0
    for ((number = 1; number <= $1; number++)); do
        "$program" recset -t Contact -n "$((number * 7919 % last))" -f Street -s "$number Short Road" db.rec
        cp db.rec repository
        in_git commit -q -a -m "$number"
    done
    cp db.rec start.rec
    cp db.rec.journal start.journal
}

awk -f "$here/keyed.awk" -v records=6800 >whole.rec
for size in "${sizes[@]}"; do
    write_edits "$size"
    last="$((size * 3 / 4))"
    printf '%s edits of %s bytes %41s\n' "$size" "$(stat -c %s whole.rec)" 'times git log'
    unit=
    measure 3 as_is 'git log -p -U0' git -C repository log -p -U0
    measure 3 fresh 'recu history --patch' "$program" history --patch db.rec
    measure 3 fresh 'recu history' "$program" history db.rec
    measure 3 as_is 'git show -U0' git -C repository show -U0
    measure 3 fresh 'recu show' "$program" show db.rec
    measure 3 fresh "recu show $last" "$program" show "$last" db.rec
    measure 3 fresh 'recu show 1' "$program" show 1 db.rec
    measure 3 fresh 'recu recset, one record' "$program" recset -t Contact -n 5 -f Street -s 'Long Road' db.rec
    measure 3 fresh 'the same, --dry-run' "$program" recset --dry-run -t Contact -n 5 -f Street -s 'Long Road' db.rec
    measure 3 fresh 'recu recset, all records' "$program" recset -t Contact -f Street -s 'Long Road' db.rec
    measure 3 fresh 'the same, --dry-run' "$program" recset --dry-run -t Contact -f Street -s 'Long Road' db.rec
    measure 3 fresh 'recu undo' "$program" undo db.rec
    measure 3 fresh 'the same, --dry-run' "$program" undo --dry-run db.rec
done
