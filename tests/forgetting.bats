# Forgetting: the journal without its oldest edits, byte for byte, and what can be undone and redone after it. The file stays.

load helpers

teardown() {
    chmod -R u+rwx "$BATS_TEST_TMPDIR"
}

# digest TEXT
digest() {
    bytes "$1" | sha256sum | cut -d ' ' -f 1
}

# edit NUMBER OLD NEW: the event of an edit that leads from a file of the one line to a file of the other
edit() {
    echo "Number: $1¶Kind: edit¶Tool: recset¶Before: $(digest "$2¶")¶After: $(digest "$3¶")¶At: 0¶Old: $2\$¶+ \$¶New: $3\$¶+ \$¶¶"
}

# move NUMBER KIND OF OLD NEW: that of an undo or of a redo, which leads from the one text to the other
move() {
    echo "Number: $1¶Kind: $2¶Of: $3¶Before: $(digest "$4")¶After: $(digest "$5")¶¶"
}

# tells HISTORY WORD..: what history prints
tells() {
    recu 0 history "${@:2}"
    prints "$1" ''
}

# sets VALUE..: the file's field is set to each of them in turn
sets() {
    local value
    for value in "$@"; do
        does recset -f A -s "$value" db.rec
    done
}

# to_four: the field is set to 2, 3 and 4, and the last edit is undone
to_four() {
    rm -f db.rec.journal
    put db.rec 'A: 1¶'
    sets 2 3 4
    does undo db.rec
}

# forgets_nothing WORD..: the words do it well, and write neither file
forgets_nothing() {
    local journal
    journal=$(stat -c '%i %Y' db.rec.journal)
    cp db.rec "$BATS_TEST_TMPDIR/file"
    cp db.rec.journal "$BATS_TEST_TMPDIR/journal"
    does "$@"
    has db.rec < "$BATS_TEST_TMPDIR/file"
    has db.rec.journal < "$BATS_TEST_TMPDIR/journal"
    [ "$journal" = "$(stat -c '%i %Y' db.rec.journal)" ] || fail 'the journal is another file'
}

@test "the newest edits are kept, and numbered from 1 on" {
    put db.rec 'A: 1¶'
    sets 2 3
    does undo db.rec
    does undo db.rec
    does redo db.rec
    sets 9
    tells 'done 1 recset¶done 6 recset¶' db.rec
    does forget 1 db.rec
    has db.rec 'A: 9¶'
    has db.rec.journal "$header$(edit 1 'A: 2' 'A: 9')"
    tells 'done 1 recset¶' db.rec
    does undo db.rec
    has db.rec 'A: 2¶'
    refuses 'nothing to undo' undo db.rec
    does redo db.rec
    has db.rec 'A: 9¶'
    has db.rec.journal "$header$(edit 1 'A: 2' 'A: 9')$(move 2 undo 1 'A: 9¶' 'A: 2¶')$(move 3 redo 1 'A: 2¶' 'A: 9¶')"
    only db.rec db.rec.journal
}

@test "an edit that was undone can still be made again" {
    local journal
    journal=$header$(edit 1 'A: 2' 'A: 3')$(edit 2 'A: 3' 'A: 4')$(move 3 undo 2 'A: 4¶' 'A: 3¶')
    to_four
    does forget 1 db.rec
    has db.rec 'A: 3¶'
    has db.rec.journal "$journal"
    tells 'done 1 recset¶undone 2 recset¶' db.rec
    does redo db.rec
    has db.rec 'A: 4¶'
    has db.rec.journal "$journal$(move 4 redo 2 'A: 3¶' 'A: 4¶')"
    does undo db.rec
    does undo db.rec
    has db.rec 'A: 2¶'
    refuses 'nothing to undo' undo db.rec
    tells 'undone 1 recset¶undone 2 recset¶' db.rec
    only db.rec db.rec.journal
}

@test "all that can be undone is forgotten" {
    to_four
    does forget 0 db.rec
    has db.rec 'A: 3¶'
    has db.rec.journal "$header$(edit 1 'A: 3' 'A: 4')$(move 2 undo 1 'A: 4¶' 'A: 3¶')"
    refuses 'nothing to undo' undo db.rec
    does redo db.rec
    has db.rec 'A: 4¶'
    tells 'done 1 recset¶' db.rec
    does forget 0 db.rec
    has db.rec 'A: 4¶'
    has db.rec.journal "$header"
    tells '' db.rec
    refuses 'nothing to redo' redo db.rec
    sets 5
    has db.rec.journal "$header$(edit 1 'A: 4' 'A: 5')"
    does undo db.rec
    has db.rec 'A: 4¶'
    only db.rec db.rec.journal
}

@test "where no more edits can be undone nothing is written" {
    local number
    to_four
    for number in 2 3 5 007 4294967295; do
        forgets_nothing forget "$number" db.rec
    done
    tells 'done 1 recset¶done 2 recset¶undone 3 recset¶' db.rec
    does undo db.rec
    does undo db.rec
    forgets_nothing forget 0 db.rec
    tells 'undone 1 recset¶undone 2 recset¶undone 3 recset¶' db.rec
    only db.rec db.rec.journal
}

# A text that was written and undone stays in the journal after the next edit, until dropped edits are forgotten.
@test "dropped edits are forgotten too" {
    local number events after
    put db.rec 'A: 1¶'
    sets 2 secret
    does undo db.rec
    sets 4 5
    does undo db.rec
    tells 'done 1 recset¶done 4 recset¶undone 5 recset¶' db.rec
    forgets_nothing forget 2 db.rec
    grep -q secret db.rec.journal || fail 'the journal has no such edit'
    cp db.rec.journal before
    after="$(edit 3 'A: 4' 'A: 5')$(move 4 undo 3 'A: 5¶' 'A: 4¶')"
    for number in 2 3 4294967295; do
        cp before db.rec.journal
        does forget "$number" --dropped db.rec
        ! grep -q secret db.rec.journal || fail 'a dropped edit is left'
        has db.rec 'A: 4¶'
        has db.rec.journal "$header$(edit 1 'A: 1' 'A: 2')$(edit 2 'A: 2' 'A: 4')$after"
        forgets_nothing forget "$number" --dropped db.rec
    done
    tells 'done 1 recset¶done 2 recset¶undone 3 recset¶' db.rec
    does redo db.rec
    has db.rec 'A: 5¶'
    does undo --through 1 db.rec
    has db.rec 'A: 1¶'
    does redo --through 2 db.rec
    has db.rec 'A: 4¶'
    does redo db.rec
    has db.rec 'A: 5¶'
    # with older ones
    put db.rec 'A: 4¶'
    cp before db.rec.journal
    does forget --dropped 1 db.rec
    has db.rec.journal "$header$(edit 1 'A: 2' 'A: 4')$(edit 2 'A: 4' 'A: 5')$(move 3 undo 2 'A: 5¶' 'A: 4¶')"
    cp before db.rec.journal
    does forget --dropped 0 db.rec
    has db.rec.journal "$header$(edit 1 'A: 4' 'A: 5')$(move 2 undo 1 'A: 5¶' 'A: 4¶')"
    has db.rec 'A: 4¶'
    rm before
    only db.rec db.rec.journal
}

@test "where no edit was dropped nothing is written" {
    local number
    to_four
    does redo db.rec
    does undo db.rec
    for number in 2 3 4294967295; do
        forgets_nothing forget --dropped "$number" db.rec
    done
    does forget --dropped 1 db.rec
    has db.rec.journal "$header$(edit 1 'A: 2' 'A: 3')$(edit 2 'A: 3' 'A: 4')$(move 3 undo 2 'A: 4¶' 'A: 3¶')"
    forgets_nothing forget --dropped 1 db.rec
    rm db.rec.journal
    does forget --dropped 0 db.rec
    only db.rec
    put db.rec.journal "$header"
    forgets_nothing forget --dropped 0 db.rec
    only db.rec db.rec.journal
}

# All edits were undone, and a new one too: of two edits that were made neither can be undone.
@test "an edit was dropped, and none can be undone" {
    put db.rec 'A: 1¶'
    sets secret
    does undo db.rec
    sets 2
    does undo db.rec
    forgets_nothing forget 0 db.rec
    does forget 0 --dropped db.rec
    has db.rec 'A: 1¶'
    has db.rec.journal "$header$(edit 1 'A: 1' 'A: 2')$(move 2 undo 1 'A: 2¶' 'A: 1¶')"
    refuses 'nothing to undo' undo db.rec
    does redo db.rec
    has db.rec 'A: 2¶'
    only db.rec db.rec.journal
}

# Several edits that were undone keep their order, the nearest first.
@test "edits that were undone, one after another" {
    put db.rec 'A: 1¶'
    sets 2 3 4 5 6
    does undo db.rec
    does undo db.rec
    does undo db.rec
    does forget 1 db.rec
    has db.rec 'A: 3¶'
    has db.rec.journal "$header$(edit 1 'A: 2' 'A: 3')$(edit 2 'A: 3' 'A: 4')$(edit 3 'A: 4' 'A: 5')$(edit 4 'A: 5' 'A: 6')$(move 5 undo 4 'A: 6¶' 'A: 5¶')$(move 6 undo 3 'A: 5¶' 'A: 4¶')$(move 7 undo 2 'A: 4¶' 'A: 3¶')"
    tells 'done 1 recset¶undone 2 recset¶undone 3 recset¶undone 4 recset¶' db.rec
    does redo db.rec
    does redo db.rec
    does redo db.rec
    has db.rec 'A: 6¶'
    sets 7
    has db.rec 'A: 7¶'
    tells 'done 1 recset¶done 2 recset¶done 3 recset¶done 4 recset¶done 11 recset¶' db.rec
    does forget 2 db.rec
    tells 'done 1 recset¶done 2 recset¶' db.rec
    does undo db.rec
    does undo db.rec
    has db.rec 'A: 5¶'
    refuses 'nothing to undo' undo db.rec
    only db.rec db.rec.journal
}

two='A: 1¶¶B: 2¶'
batched='A: 5¶¶'

# batch_event NUMBER: that of the batch below
batch_event() {
    echo "Number: $1¶Kind: batch¶Before: $(digest "$two")¶After: $(digest "$batched")¶Step: recset¶At: 0¶Old: A: 1\$¶+ \$¶New: A: 5\$¶+ \$¶Step: recdel¶At: 6¶Old: B: 2\$¶+ \$¶New: \$¶¶"
}

# insertion NUMBER: that of the record that is put in after the batch
insertion() {
    echo "Number: $1¶Kind: edit¶Tool: recins¶Before: $(digest "$batched")¶After: $(digest "${batched}C: 1¶¶")¶At: 5¶Old: \$¶New: \$¶+ C: 1\$¶+ \$¶¶"
}

# with_batch: an edit, a batch, and an edit
with_batch() {
    rm -f db.rec.journal
    put db.rec 'A: 0¶¶B: 2¶'
    put changes 'Tool: recset¶Number: 0¶Fields: A¶Set: 5¶¶Tool: recdel¶Number: 1¶'
    does recset -f A -n 0 -s 1 db.rec
    has db.rec "$two"
    does batch -b changes db.rec
    has db.rec "$batched"
    does recins -f C -v 1 db.rec
    has db.rec "${batched}C: 1¶¶"
}

@test "batches are kept, and forgotten, as one edit" {
    with_batch
    does forget 2 db.rec
    has db.rec.journal "$header$(batch_event 1)$(insertion 2)"
    tells 'done 1 batch¶done 2 recins¶' db.rec
    does undo db.rec
    does undo db.rec
    has db.rec "$two"
    refuses 'nothing to undo' undo db.rec
    with_batch
    does forget 1 db.rec
    has db.rec.journal "$header$(insertion 1)"
    does undo db.rec
    has db.rec "$batched"
    refuses 'nothing to undo' undo db.rec
    with_batch
    does undo db.rec
    does undo db.rec
    does forget 0 db.rec
    has db.rec "$two"
    has db.rec.journal "$header$(batch_event 1)$(insertion 2)$(move 3 undo 2 "${batched}C: 1¶¶" "$batched")$(move 4 undo 1 "$batched" "$two")"
    tells 'undone 1 batch¶undone 2 recins¶' db.rec
    does redo db.rec
    has db.rec "$batched"
    does redo db.rec
    has db.rec "${batched}C: 1¶¶"
    only changes db.rec db.rec.journal
}

@test "a journal of the first format gets the newest header" {
    put db.rec 'A: 3¶'
    put db.rec.journal "$old_header$(edit 1 'A: 1' 'A: 2')$(edit 2 'A: 2' 'A: 3')"
    forgets_nothing forget 2 db.rec
    does forget 1 db.rec
    has db.rec 'A: 3¶'
    has db.rec.journal "$header$(edit 1 'A: 2' 'A: 3')"
    put db.rec.journal "$old_header$(edit 1 'A: 1' 'A: 2')$(edit 2 'A: 2' 'A: 3')"
    does forget 0 db.rec
    has db.rec.journal "$header"
    put db.rec.journal "$old_header"
    forgets_nothing forget 0 db.rec
    only db.rec db.rec.journal
}

@test "nothing is forgotten of a file that was changed outside" {
    local number
    put db.rec 'A: 1¶'
    sets 2 3
    put db.rec 'A: 7¶'
    cp db.rec.journal before
    for number in 0 1 2 5; do
        refuses 'the file was changed outside' forget "$number" db.rec
        refuses 'the file was changed outside' forget "$number" --dropped db.rec
    done
    has db.rec 'A: 7¶'
    has db.rec.journal < before
    only before db.rec db.rec.journal
    recu 0 recset -f A -s 8 db.rec
    prints '' "db.rec: it was changed outside; 2 edits before that can't be undone any more¶"
    tells 'done 3 recset¶' db.rec
    does forget 0 db.rec
    has db.rec.journal "$header"
    has db.rec 'A: 8¶'
}

# A new edit of a file that was changed outside begins the history anew: what stood before it can't be undone any more.
@test "edits before a change from outside go with the others" {
    put db.rec 'A: 1¶'
    sets 2 3
    put db.rec 'A: 7¶'
    recu 0 recset -f A -s 8 db.rec
    prints '' "db.rec: it was changed outside; 2 edits before that can't be undone any more¶"
    sets 9
    tells 'done 3 recset¶done 4 recset¶' db.rec
    forgets_nothing forget 2 db.rec
    cp db.rec.journal before
    does forget 2 --dropped db.rec
    has db.rec.journal "$header$(edit 1 'A: 7' 'A: 8')$(edit 2 'A: 8' 'A: 9')"
    forgets_nothing forget 2 --dropped db.rec
    mv before db.rec.journal
    does forget 1 db.rec
    has db.rec.journal "$header$(edit 1 'A: 8' 'A: 9')"
    does undo db.rec
    has db.rec 'A: 8¶'
    only db.rec db.rec.journal
}

@test "an empty journal, and none" {
    local journal
    put db.rec 'A: 1¶'
    does forget 0 db.rec
    does forget 3 db.rec
    only db.rec
    for journal in '' '%rec: RecE' "$header" "$old_header"; do
        put db.rec.journal "$journal"
        forgets_nothing forget 0 db.rec
        forgets_nothing forget 1 db.rec
    done
    has db.rec 'A: 1¶'
    only db.rec db.rec.journal
}

# A stop left the one or the other. They stay where nothing is written, and go with the rest where something is.
@test "a tail, and an event that doesn't count" {
    local events rest
    events=$(edit 1 'A: 1' 'A: 2')$(edit 2 'A: 2' 'A: 3')
    for rest in 'Number: 3¶Kind: ed' "$(edit 3 'A: 3' 'A: 4')" "$(move 3 undo 2 'A: 3¶' 'A: 2¶')"; do
        put db.rec 'A: 3¶'
        put db.rec.journal "$header$events$rest"
        tells 'done 1 recset¶done 2 recset¶' db.rec
        forgets_nothing forget 2 db.rec
        forgets_nothing forget 2 --dropped db.rec
        does forget 1 db.rec
        has db.rec 'A: 3¶'
        has db.rec.journal "$header$(edit 1 'A: 2' 'A: 3')"
        tells 'done 1 recset¶' db.rec
        does undo db.rec
        has db.rec 'A: 2¶'
    done
    only db.rec db.rec.journal
}

@test "a file that is no rec file" {
    put db.rec 'hello¶'
    put db.rec.journal "$header$(edit 1 'hallo' 'hullo')$(edit 2 'hullo' 'hello')"
    recu 1 recsel db.rec
    does forget 1 db.rec
    has db.rec 'hello¶'
    has db.rec.journal "$header$(edit 1 'hullo' 'hello')"
    does undo db.rec
    has db.rec 'hullo¶'
    only db.rec db.rec.journal
}

@test "a journal of another name" {
    put db.rec 'A: 1¶'
    does recset -f A -s 2 --journal j db.rec
    does recset -f A -s 3 --journal j db.rec
    does forget --journal j 1 db.rec
    has j "$header$(edit 1 'A: 2' 'A: 3')"
    does forget 0 db.rec --journal=j
    has j "$header"
    has db.rec 'A: 3¶'
    only db.rec j
}

@test "what is refused, and in which order" {
    put db.rec 'A: 2¶'
    put journal 'hello¶'
    mkdir d
    fails_to_store 'missing: No such file or directory (os error 2)' forget 0 --journal journal missing
    fails_to_store 'd: not a regular file' forget 0 d
    fails_to_store 'd: not a regular file' forget 0 --journal d db.rec
    fails_to_store 'db.rec/x: Not a directory (os error 20)' forget 0 --journal db.rec/x db.rec
    refuses 'journal line 1: not a journal of recu' forget 0 --journal journal db.rec
    put journal "$header$(edit 1 'A: 1' 'A: 3')$(edit 1 'A: 3' 'A: 4')"
    refuses 'journal line 16: not a journal of recu' forget 0 --journal journal db.rec
    put journal "$header$(edit 1 'A: 1' 'A: 3')"
    refuses 'the file was changed outside' forget 0 --journal journal db.rec
    ln -s db.rec link
    fails_to_store 'link: the file and its journal are one file' forget 0 --journal link db.rec
    has db.rec 'A: 2¶'
    has journal "$header$(edit 1 'A: 1' 'A: 3')"
    only d db.rec journal link
}

@test "a file that is a device" {
    local event="Number: 1¶Kind: edit¶Tool: recdel¶Before: $(digest 'A: 1¶')¶After: $(digest '')¶At: 0¶Old: A: 1\$¶+ \$¶New: \$¶¶"
    put j "$header$event"
    fails_to_store '/dev/null: not a regular file' forget 0 --journal j /dev/null
    ln -s /dev/null device
    fails_to_store 'device: not a regular file' forget 0 --journal j device
    has j "$header$event"
    only device j
}

@test "links are followed and kept" {
    mkdir files
    put files/db.rec 'A: 1¶'
    ln -s files/db.rec link
    ln -s j files/db.rec.journal
    put files/j ''
    does recset -f A -s 2 link
    does recset -f A -s 3 link
    does forget 1 link
    [ "$(readlink link files/db.rec.journal)" = $'files/db.rec\nj' ] || fail 'a link is gone'
    has files/db.rec 'A: 3¶'
    has files/j "$header$(edit 1 'A: 2' 'A: 3')"
    only files link
    cd files
    only db.rec db.rec.journal j
}

# What is removed under the working names, and what stays, is as for an edit. Nothing is made under the file's.
@test "what a stop left is removed" {
    local journal file
    for journal in '' '%' "$header" "$old_header" "${header}Number: 1¶Kind: ed" '\x00\x00'; do
        for file in none '' 'half a fi'; do
            rm -f db.rec.journal
            put db.rec 'A: 1¶'
            sets 2 3
            put db.rec.journal.new "$journal"
            [ "$file" = none ] || put db.rec.new "$file"
            does forget 1 db.rec
            has db.rec 'A: 3¶'
            has db.rec.journal "$header$(edit 1 'A: 2' 'A: 3')"
            only db.rec db.rec.journal
        done
    done
    # between the renames
    sets 4
    mv db.rec db.rec.new
    put db.rec 'A: 3¶'
    does forget 0 db.rec
    has db.rec 'A: 3¶'
    has db.rec.journal "$header"
    only db.rec db.rec.journal
}

@test "somebody's own file under a working name stays" {
    local name
    put db.rec 'A: 1¶'
    sets 2 3
    cp db.rec.journal before
    for name in db.rec.new db.rec.journal.new; do
        put "$name" 'my own work¶'
        fails_to_store "$name: not left by recu: recu writes under this name, so move it away" forget 1 db.rec
        does forget 2 db.rec
        has "$name" 'my own work¶'
        has db.rec 'A: 3¶'
        has db.rec.journal < before
        only before db.rec db.rec.journal "$name"
        rm "$name"
    done
    mkdir db.rec.new
    fails_to_store 'db.rec.new: not a regular file: recu writes under this name, so move it away' forget 1 db.rec
    rmdir db.rec.new
    does forget 1 db.rec
    only before db.rec db.rec.journal
}
