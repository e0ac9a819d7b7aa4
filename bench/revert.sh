#!/usr/bin/env bash
# Times and peak memory of revert, of the newest edit and of the oldest, also where that is refused, beside undo of the newest, undo
# as far as the oldest, and git revert of the same changes.
#     bench/revert.sh [PROGRAM [EDITS..]]
# Prints a table: the least of three times, the peak memory, and the time as a multiple of that of an undo. The file has 1 MB, and
# each edit sets a field of another record; git has a commit for each edit.
# The files lie in a temporary folder (TMPDIR chooses where); recu waits until the disk has what it wrote.
set -u
. "$(dirname "$0")/measure.sh"
[ $# -gt 0 ] || sizes=(100 1000)

in_git() {
    git -c user.name=recu -c user.email=recu@localhost -c gc.auto=0 -C repository "$@"
}

fresh() {
    cp start.journal db.rec.journal
    cp start.rec db.rec
}

# after one more edit, of the record of the oldest one
in_the_way() {
    cp refused.journal db.rec.journal
    cp refused.rec db.rec
}

as_committed() {
    in_git reset -q --hard newest
}

# write_edits EDITS: a file of 1 MB that was edited so often, and the same in git
write_edits() {
    local number last=$(($(grep -c '^Id:' whole.rec) - 1))
    rm -rf db.rec.journal repository
    cp whole.rec db.rec
    git init -q repository
    cp db.rec repository
    in_git add db.rec
    in_git commit -q -m 0
    for ((number = 1; number <= $1; number++)); do
        "$program" recset -t Contact -n "$((number * 7919 % last))" -f Street -s "$number Short Road" db.rec
        cp db.rec repository
        in_git commit -q -a -m "$number"
    done
    in_git tag newest
    cp db.rec start.rec
    cp db.rec.journal start.journal
    "$program" recset -t Contact -n "$((7919 % last))" -f Street -s 'Another Road' db.rec
    cp db.rec refused.rec
    cp db.rec.journal refused.journal
}

# is_reverted EDITS: a revert of the oldest edit leaves what git leaves
is_reverted() {
    fresh
    "$program" revert 1 db.rec
    in_git revert --no-edit "newest~$(($1 - 1))" >out
    cmp -s db.rec repository/db.rec || exit 1
}

awk -f "$here/keyed.awk" -v records=6800 >whole.rec
export -f in_git
for size in "${sizes[@]}"; do
    write_edits "$size"
    is_reverted "$size"
    printf '%s edits of %s bytes %41s\n' "$size" "$(stat -c %s whole.rec)" 'times an undo'
    unit=
    measure 3 fresh 'recu undo' "$program" undo db.rec
    measure 3 fresh 'recu revert, the newest' "$program" revert "$size" db.rec
    measure 3 fresh 'recu revert, the oldest' "$program" revert 1 db.rec
    measure 3 fresh 'the same, --dry-run' "$program" revert --dry-run 1 db.rec
    measure 3 in_the_way 'recu revert, refused' bash -c '! "$@" 2> said' '' "$program" revert 1 db.rec
    measure 3 fresh 'recu undo --through 1' "$program" undo --through 1 db.rec
    measure 3 as_committed 'git revert, the newest' bash -c 'in_git revert --no-edit newest' ''
    measure 3 as_committed 'git revert, the oldest' bash -c 'in_git revert --no-edit "$1"' '' "newest~$((size - 1))"
done
