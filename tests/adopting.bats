# Changes by other programs made edits, whole texts written as edits, and recu-edit.

load helpers

# digest TEXT
digest() {
    bytes "$1" | sha256sum | cut -d ' ' -f 1
}

# event NUMBER TOOL BEFORE AFTER HUNKS: the event of an edit that leads from the one text to the other
event() {
    echo "Number: $1¶Kind: edit¶Tool: $2¶Before: $(digest "$3")¶After: $(digest "$4")¶$5¶"
}

# last: the last event of the journal
last() {
    awk 'BEGIN { RS = "\n\n"; ORS = "" } { event = $0 } END { print event "\n\n" }' db.rec.journal
}

# tells HISTORY: what history prints
tells() {
    recu 0 history db.rec
    prints "$1" ''
}

# sets VALUE..: the field A of the file is set to each of them in turn
sets() {
    local value
    for value in "$@"; do does recset -f A -s "$value" db.rec; done
}

# outside TEXT: another program saves this, and the text before stands in db.old
outside() {
    cp db.rec db.old
    put db.rec "$1"
}

outside_line='recu: the file was changed outside¶'

@test "a change by another program becomes one edit, and the journal alone is written" {
    put db.rec 'A: 1¶'
    sets 2
    outside 'A: 2¶# x¶'
    tells 'drifted¶'
    local inode
    inode=$(stat -c '%i %Y' db.rec)
    does adopt db.old db.rec
    has db.rec 'A: 2¶# x¶'
    [ "$inode" = "$(stat -c '%i %Y' db.rec)" ] || fail 'the file is another one'
    last > event
    has event "$(event 2 adopt 'A: 2¶' 'A: 2¶# x¶' 'At: 5¶Old: $¶New: # x$¶+ $¶')"
    tells 'done 1 recset¶done 2 adopt¶'
    does undo db.rec
    has db.rec 'A: 2¶'
    does redo db.rec
    has db.rec 'A: 2¶# x¶'
}

@test "the last line is adopted with its newline, and without" {
    put db.rec 'A: 1¶'
    sets 2
    outside 'A: 2'
    does adopt db.old db.rec
    last > event
    has event "$(event 2 adopt 'A: 2¶' 'A: 2' 'At: 0¶Old: A: 2$¶+ $¶New: A: 2$¶')"
}

@test "any text of the history will do for the one before" {
    local old
    for old in 'A: 1¶' 'A: 2¶' 'A: 3¶'; do
        rm -f db.rec.journal
        put db.rec 'A: 1¶'
        sets 2 3
        put db.rec 'A: 3¶# x¶'
        put old "$old"
        does adopt old db.rec
        last > event
        has event "$(event 3 adopt 'A: 3¶' 'A: 3¶# x¶' 'At: 5¶Old: $¶New: # x$¶+ $¶')"
        tells 'done 1 recset¶done 2 recset¶done 3 adopt¶'
    done
}

@test "so will one that was undone" {
    put db.rec 'A: 1¶'
    sets 2 3
    does undo db.rec
    outside 'A: 2¶# x¶'
    put old 'A: 3¶'
    does adopt old db.rec
    tells 'done 1 recset¶done 4 adopt¶'
    does undo db.rec
    has db.rec 'A: 2¶'
}

@test "an older text of the history that was brought back is told by itself" {
    put db.rec 'A: 1¶'
    sets 2 3
    put db.rec 'A: 1¶'
    does adopt db.rec
    last > event
    has event "$(event 3 adopt 'A: 3¶' 'A: 1¶' 'At: 0¶Old: A: 3$¶+ $¶New: A: 1$¶+ $¶')"
    does undo db.rec
    has db.rec 'A: 3¶'
}

@test "a text that is none of the history is refused, and nothing changes" {
    put db.rec 'A: 1¶'
    sets 2
    outside 'A: 2¶# x¶'
    put old 'A: 4¶'
    cp db.rec.journal kept
    explains "old: no text of the history of db.rec, which ends with that of SHA-256 $(digest 'A: 2¶')" \
        'not the text before the change' adopt old db.rec
    explains "db.rec: give the text before the change, as recu adopt OLD db.rec; its SHA-256 is $(digest 'A: 2¶')" \
        'not the text before the change' adopt db.rec
    has db.rec.journal < kept
    has db.rec 'A: 2¶# x¶'
}

@test "where nothing drifted nothing is done, whatever the text before" {
    put db.rec 'A: 1¶'
    put old 'A: 9¶'
    does adopt old db.rec
    does adopt db.rec
    only db.rec old
    sets 2
    cp db.rec.journal kept
    does adopt old db.rec
    does adopt db.rec
    put db.rec 'A: 1¶'
    does adopt old db.rec
    has db.rec.journal < kept
}

@test "an adopted text need not read" {
    put db.rec 'A: 1¶'
    sets 2
    outside '<<<<<<<¶A: 2¶'
    does adopt db.old db.rec
    tells 'done 1 recset¶done 2 adopt¶'
}

@test "the text before comes by standard input" {
    put db.rec 'A: 1¶'
    sets 2
    outside 'A: 5¶'
    input=db.old does adopt - db.rec
    tells 'done 1 recset¶done 2 adopt¶'
}

@test "a dry run of an adoption prints what show prints after it, and changes nothing" {
    put db.rec 'A: 1¶'
    sets 2
    outside 'A: 2¶# x¶'
    cp db.rec.journal kept
    recu 0 adopt --dry-run db.old db.rec
    cp "$BATS_TEST_TMPDIR/out" printed
    has db.rec.journal < kept
    does adopt db.old db.rec
    recu 0 show db.rec
    cmp "$BATS_TEST_TMPDIR/out" printed
}

@test "commands that a drifted file refuses say how to adopt" {
    local words
    put db.rec 'A: 1¶'
    sets 2
    outside 'A: 2¶# x¶'
    for words in undo redo show 'revert 1'; do
        recu 1 $words db.rec
        prints '' "db.rec: recu adopt OLD db.rec makes the change an edit, OLD being the text before it or any of the history¶db.rec: else the next edit begins a new history¶$outside_line"
    done
}

@test "a whole text is one edit, by the lines that changed" {
    put db.rec 'A: 1¶¶B: 2¶¶C: 3¶'
    put new 'A: 1¶¶C: 3¶¶B: 2¶'
    does write new db.rec
    has db.rec 'A: 1¶¶C: 3¶¶B: 2¶'
    last > event
    has event "$(event 1 write 'A: 1¶¶B: 2¶¶C: 3¶' 'A: 1¶¶C: 3¶¶B: 2¶' \
        'At: 6¶Old: $¶New: C: 3$¶+ $¶+ $¶At: 11¶Old: $¶+ C: 3$¶+ $¶New: $¶')"
    does undo db.rec
    has db.rec 'A: 1¶¶B: 2¶¶C: 3¶'
    cp db.rec new
    does write new db.rec
}

@test "a whole text is written only over the one that it is to be over" {
    put db.rec 'A: 1¶'
    put old 'A: 2¶'
    put new 'A: 3¶'
    explains 'db.rec: it is no longer as old has it' 'not the text before the change' write --over old new db.rec
    has db.rec 'A: 1¶'
    cp db.rec old
    does write --over old new db.rec
    has db.rec 'A: 3¶'
}

@test "an empty text is written with --force alone" {
    put db.rec 'A: 1¶'
    put new ''
    fails_to_store 'new: empty' write new db.rec
    has db.rec 'A: 1¶'
    does write --force new db.rec
    has db.rec ''
    does undo db.rec
    has db.rec 'A: 1¶'
}

@test "the rules of a whole text are checked, and its lines are named" {
    put db.rec '%rec: P¶%key: I¶¶I: 1¶'
    put new '%rec: P¶%key: I¶¶I: 1¶¶I: 1¶'
    refuses 'violations: 1' write new db.rec
    put bad 'Town Rome¶'
    explains 'bad:1: Town Rome¶a field needs a colon after its name, as in Name: value' \
        'line 1: not a field, comment or blank line' write bad db.rec
    has db.rec '%rec: P¶%key: I¶¶I: 1¶'
    forces 'db.rec:6: key I¶' write --force new db.rec
}

@test "a file that doesn't read is mended by a whole text" {
    put db.rec 'Town Rome¶'
    put new 'Town: Rome¶'
    does write new db.rec
    has db.rec 'Town: Rome¶'
}

@test "the two texts of write don't both come by standard input" {
    put db.rec 'A: 1¶'
    refuses 'bad usage' write --over - - db.rec
}

# ---- recu-edit

# with_shells FUNCTION: in each shell that is here, and in an empty folder, with recu in PATH
with_shells() {
    local shell
    mkdir "$BATS_TEST_TMPDIR/bin"
    ln -s "$program" "$BATS_TEST_TMPDIR/bin/recu"
    export PATH=$BATS_TEST_TMPDIR/bin:$PATH TMPDIR=$PWD/copies
    for shell in dash bash; do
        command -v "$shell" > /dev/null || continue
        rm -rf ./*
        mkdir copies
        put db.rec '%rec: P¶%key: I¶¶I: 1¶¶I: 2¶'
        "$1" "$shell"
    done
}

# edits STATUS EDITOR ANSWERS SHELL: recu-edit ends so
edits() {
    bytes "$3" > answers
    EDITOR=$2 VISUAL='' input=answers ends "$1" "$4" "$top/recu-edit" db.rec
}

# copies COUNT: this number of texts were left, each in a folder of its maker alone
copies() {
    [ "$(find copies -mindepth 1 -type d -perm 700 | wc -l)" = "$1" ] || fail 'copies are left:' "$(ls -lR copies)"
    [ "$(find copies -type f ! -perm 600 | wc -l)" = 0 ] || fail 'others may read a copy:' "$(ls -lR copies)"
}

edited() {
    edits 0 'sed -i s/2/4/' '' "$1"
    has db.rec '%rec: P¶%key: I¶¶I: 1¶¶I: 4¶'
    tells 'done 1 write¶'
    copies 0
    edits 0 true '' "$1"
    tells 'done 1 write¶'
    copies 0
}

@test "recu-edit writes what an editor made as one edit" {
    with_shells edited
}

refused() {
    edits 1 'sed -i s/2/1/' '' "$1"
    copies 1
    grep -qx "the edited text is $PWD/copies/.*/db.rec" "$BATS_TEST_TMPDIR/err"
    grep -qx "the text before is $PWD/copies/.*/before" "$BATS_TEST_TMPDIR/err"
    has db.rec '%rec: P¶%key: I¶¶I: 1¶¶I: 2¶'
    rm -r copies/*
    printf '%s\n' 'sed -i s/2/1/ "$1"; [ ! -e again ] || sed -i '\''$s/1/3/'\'' "$1"; touch again' > editor
    edits 0 'sh ./editor' 'e¶' "$1"
    has db.rec '%rec: P¶%key: I¶¶I: 1¶¶I: 3¶'
    edits 0 'sed -i s/3/1/' 'f¶' "$1"
    has db.rec '%rec: P¶%key: I¶¶I: 1¶¶I: 1¶'
    copies 0
}

@test "recu-edit asks what is to be done with a text that is refused" {
    with_shells refused
}

saved() {
    printf '%s\n' 'echo "# y" >> db.rec; sed -i s/2/5/ "$1"' > editor
    edits 1 'sh ./editor' 'f¶' "$1"
    has db.rec '%rec: P¶%key: I¶¶I: 1¶¶I: 2¶# y¶'
    copies 1
    ! grep -q 'edits again' "$BATS_TEST_TMPDIR/err"
}

@test "recu-edit leaves what another program saved meanwhile" {
    with_shells saved
}

stopped() {
    printf '%s\n' 'sed -i s/2/5/ "$1"; kill -TERM "$PPID"' > editor
    edits 143 'sh ./editor' '' "$1"
    copies 1
    grep -q 'the edited text is' "$BATS_TEST_TMPDIR/err"
    rm -r copies/*
    edits 1 'sed -i s/2/5/ "$1"; false #' '' "$1"
    copies 1
    rm -r copies/*
    edits 1 false '' "$1"
    copies 0
    has db.rec '%rec: P¶%key: I¶¶I: 1¶¶I: 2¶'
}

@test "after a signal, or an editor that failed, recu-edit leaves the copy and says where" {
    with_shells stopped
}

drifted() {
    does recset -n 0 -f I -s 7 db.rec
    echo '# y' >> db.rec
    edits 1 'sed -i s/2/5/' '' "$1"
    has db.rec '%rec: P¶%key: I¶¶I: 7¶¶I: 2¶# y¶'
    edits 0 'sed -i s/2/5/' 'n¶' "$1"
    tells 'done 2 write¶'
}

@test "recu-edit asks before a new history begins" {
    with_shells drifted
}

@test "drawn histories with changes by other programs" {
    python3 "$top/tests/adopts.py" "$program" 300 4
}
