# Batches: the edits of a rec text, made as one. The file and the journal, byte for byte, and the file of a batch.

load helpers

teardown() {
    chmod -R u+rwx "$BATS_TEST_TMPDIR"
}

# digest TEXT
digest() {
    bytes "$1" | sha256sum | cut -d ' ' -f 1
}

two='A: 1¶¶B: 2¶'
changes='Tool: recset¶Number: 0¶Fields: A¶Set: 5¶¶Tool: recdel¶Number: 1¶'

# event NUMBER: that of the changes of the two records
event() {
    echo "Number: $1¶Kind: batch¶Before: $(digest "$two")¶After: $(digest 'A: 5¶¶')¶Step: recset¶At: 0¶Old: A: 1\$¶+ \$¶New: A: 5\$¶+ \$¶Step: recdel¶At: 6¶Old: B: 2\$¶+ \$¶New: \$¶¶"
}

# tells HISTORY WORD..: what history prints
tells() {
    recu 0 history "${@:2}"
    prints "$1" ''
}

@test "a batch is one edit, which is undone and made again" {
    local old new
    old=$(digest "$two")
    new=$(digest 'A: 5¶¶')
    put db.rec "$two"
    put changes "$changes"
    does batch -b changes db.rec
    has db.rec 'A: 5¶¶'
    has db.rec.journal "$header$(event 1)"
    tells 'done 1 batch¶' db.rec
    does undo db.rec
    has db.rec "$two"
    has db.rec.journal "$header$(event 1)Number: 2¶Kind: undo¶Of: 1¶Before: $new¶After: $old¶¶"
    tells 'undone 1 batch¶' db.rec
    refuses 'nothing to undo' undo db.rec
    does redo db.rec
    has db.rec 'A: 5¶¶'
    tells 'done 1 batch¶' db.rec
    has changes "$changes"
    only changes db.rec db.rec.journal
}

@test "a batch among other edits" {
    put db.rec "$two"
    put changes "$changes"
    does recset -f A -n 0 -s 3 db.rec
    does batch -b changes db.rec
    does recins -f C -v 1 db.rec
    has db.rec 'A: 5¶¶C: 1¶¶'
    tells 'done 1 recset¶done 2 batch¶done 3 recins¶' db.rec
    does undo db.rec
    does undo db.rec
    has db.rec 'A: 3¶¶B: 2¶'
    tells 'done 1 recset¶undone 2 batch¶undone 3 recins¶' db.rec
    does redo db.rec
    has db.rec 'A: 5¶¶'
    does undo db.rec
    does undo db.rec
    has db.rec "$two"
    only changes db.rec db.rec.journal
}

# batched FILE BATCH AFTER: the batch gives the file after, and undo all bytes back; or it is refused so, and changes nothing
batched() {
    put db.rec "$1"
    put changes "$2"
    case $3 in
        'recu: '*)
            local refusal=${3#recu: }
            refuses "${refusal%¶}" batch -b changes db.rec
            has db.rec "$1"
            only changes db.rec
            ;;
        *)
            does batch -b changes db.rec
            has db.rec "$3"
            does undo db.rec
            has db.rec "$1"
            does redo db.rec
            has db.rec "$3"
            only changes db.rec db.rec.journal
            ;;
    esac
    has changes "$2"
}

@test "what batches do, and which are refused" {
    each batched batch_files.rows
}

@test "the rules count at the end of a batch" {
    local rules='%rec: P¶%size: >= 2¶¶N: 1¶¶N: 2¶' delete='Tool: recdel¶Type: P¶Number: 0¶'
    put db.rec "$rules"
    put changes "$delete"
    recu 1 batch -b changes db.rec
    prints '' '1: size P¶line 1: %rec: P (1 record, %size: >= 2)¶db.rec: --force makes the edit all the same¶recu: violations: 1¶'
    has db.rec "$rules"
    only changes db.rec
    put changes "$delete¶Tool: recins¶Type: P¶Field: N¶Value: 3¶"
    does batch -b changes db.rec
    has db.rec '%rec: P¶%size: >= 2¶¶N: 2¶¶N: 3¶'
    does undo db.rec
    has db.rec "$rules"
    put changes "$delete"
    forces 'db.rec:1: size P¶' batch -b changes --force db.rec
    has db.rec '%rec: P¶%size: >= 2¶¶N: 2¶'
    does undo db.rec
    has db.rec "$rules"
    only changes db.rec db.rec.journal
}

@test "a batch that deletes all records of a set is forced" {
    put db.rec "$two"
    put changes 'Tool: recdel¶'
    refuses 'no selection given, use --force' batch -b changes db.rec
    has db.rec "$two"
    only changes db.rec
    does batch --force -b changes db.rec
    has db.rec ''
    does undo db.rec
    has db.rec "$two"
    only changes db.rec db.rec.journal
}

@test "a batch that is refused leaves both files" {
    put db.rec "$two"
    does recset -n 0 -f A -s 7 db.rec
    cp db.rec.journal before
    put changes 'Tool: recset¶Number: 0¶Fields: A¶Set: 5¶¶Tool: recdel¶Type: Q¶Number: 0¶'
    refuses 'no such record type' batch -b changes db.rec
    put changes 'Tool: recsel¶'
    refuses 'batch line 1: not an edit' batch -b changes db.rec
    put changes "$changes"
    put journal 'hello¶'
    refuses 'journal line 1: not a journal of recu' batch -b changes --journal journal db.rec
    has db.rec 'A: 7¶¶B: 2¶'
    has db.rec.journal < before
    has journal 'hello¶'
    only before changes db.rec db.rec.journal journal
}

@test "a batch that changes nothing writes nothing" {
    local nothing
    for nothing in 'Tool: recset¶Fields: A¶Set: 5¶¶Tool: recset¶Fields: A¶Set: 1¶' '' '# no edit¶' '¶¶' 'Tool: recfix¶' 'Tool: recdel¶Number: 7¶'; do
        put db.rec 'A: 1¶'
        put changes "$nothing"
        does batch -b changes db.rec
        has db.rec 'A: 1¶'
        only changes db.rec
        does recset -f A -s 2 db.rec
        does recset -f A -s 1 db.rec
        cp db.rec.journal before
        does batch -b changes db.rec
        has db.rec 'A: 1¶'
        has db.rec.journal < before
        only before changes db.rec db.rec.journal
        rm db.rec.journal before
    done
    put broken.rec '%rec: P¶%size: 1¶'
    put changes ''
    recu 1 batch -b changes broken.rec
    prints '' '1: size P¶line 1: %rec: P (0 records, %size: 1)¶all of these stood before the edit: mend them first, by a batch, by hand, or by edits with --force¶broken.rec: --force makes the edit all the same¶recu: violations: 1¶'
    does batch --force -b changes broken.rec
    has broken.rec '%rec: P¶%size: 1¶'
    only broken.rec changes db.rec
}

@test "a batch with a journal of another name" {
    put db.rec "$two"
    put changes "$changes"
    does batch --journal j -b changes db.rec
    has db.rec 'A: 5¶¶'
    has j "$header$(event 1)"
    does undo --journal=j db.rec
    has db.rec "$two"
    only changes db.rec j
}

# A journal keeps the header that it has, and may have events of both kinds.
@test "a batch after the edits of a journal of the first format" {
    local edit journal
    edit="Number: 1¶Kind: edit¶Tool: recset¶Before: $(digest 'A: 0¶¶B: 2¶')¶After: $(digest "$two")¶At: 0¶Old: A: 0\$¶+ \$¶New: A: 1\$¶+ \$¶¶"
    put changes "$changes"
    for journal in "$old_header$edit" "$header$edit"; do
        put db.rec "$two"
        put db.rec.journal "$journal"
        tells 'done 1 recset¶' db.rec
        does batch -b changes db.rec
        has db.rec 'A: 5¶¶'
        has db.rec.journal "$journal$(event 2)"
        tells 'done 1 recset¶done 2 batch¶' db.rec
        does undo db.rec
        does undo db.rec
        has db.rec 'A: 0¶¶B: 2¶'
        tells 'undone 1 recset¶undone 2 batch¶' db.rec
        does redo db.rec
        does redo db.rec
        has db.rec 'A: 5¶¶'
    done
    put db.rec "$two"
    put db.rec.journal "$old_header"
    does batch -b changes db.rec
    has db.rec.journal "$old_header$(event 1)"
    only changes db.rec db.rec.journal
}

@test "a file that was changed by hand after a batch" {
    put db.rec "$two"
    put changes "$changes"
    does batch -b changes db.rec
    put db.rec 'A: 7¶'
    refuses 'the file was changed outside' undo db.rec
    tells 'drifted¶' db.rec
    put db.rec 'A: 5¶¶'
    does undo db.rec
    has db.rec "$two"
    only changes db.rec db.rec.journal
}

@test "a batch that can't be read" {
    put db.rec "$two"
    put changes "$changes"
    mkdir d
    fails_to_store 'missing: No such file or directory (os error 2)' batch -b missing db.rec
    fails_to_store 'an empty path¶: No such file or directory (os error 2)' batch -b '' db.rec
    fails_to_store 'd: Is a directory (os error 21)' batch -b d db.rec
    fails_to_store 'changes/x: Not a directory (os error 20)' batch -b changes/x db.rec
    fails_to_store './-: No such file or directory (os error 2)' batch -b ./- db.rec
    input=d fails_to_store '-: Is a directory (os error 21)' batch -b - db.rec
    # It is read first.
    fails_to_store 'missing: No such file or directory (os error 2)' batch -b missing nowhere
    fails_to_store 'nowhere: No such file or directory (os error 2)¶recu makes no file: touch nowhere makes an empty one' batch -b changes nowhere
    truncate -s 1073741825 big
    fails_to_store 'big: more than 1073741824 bytes' batch -b big db.rec
    has db.rec "$two"
    only big changes d db.rec
}

@test "a batch that may not be read" {
    as_nobody
    put db.rec "$two"
    put changes "$changes"
    chmod 666 db.rec
    chmod 200 changes
    fails_to_store 'changes: Permission denied (os error 13)' batch -b changes db.rec
    has db.rec "$two"
}

# is_changed WORD..: with these words the two records are changed, and the change is undone
is_changed() {
    put db.rec "$two"
    rm -f db.rec.journal
    does "$@"
    has db.rec 'A: 5¶¶'
    has db.rec.journal "$header$(event 1)"
    does undo db.rec
    has db.rec "$two"
}

@test "where a batch may stand" {
    local writer
    put - "$changes"
    is_changed batch -b ./- db.rec
    # `-` is standard input, also where a file has that name, and what is left of it
    put changes "$changes"
    put - 'no batch¶'
    input=changes is_changed batch -b - db.rec
    input=changes is_changed batch -b - -- db.rec
    put changes "a line that is read before¶$changes"
    put db.rec "$two"
    input=changes ends 0 bash -c 'read -r; exec "$@"' '' "$recu" batch -b - db.rec
    has db.rec 'A: 5¶¶'
    put - "$changes"
    rm changes
    mkfifo pipe
    timeout 20 bash -c 'cat < - > pipe' 3>&- &
    writer=$!
    is_changed batch -b pipe db.rec
    wait "$writer"
    is_changed batch -b <(bytes "$changes") db.rec
    input=- is_changed batch -b /dev/stdin db.rec
    ln -s - link
    is_changed batch -b link db.rec
    chmod 444 -- -
    is_changed batch -b ./- db.rec
    has - "$changes"
    only - db.rec db.rec.journal link pipe
}

# The batch is read, and let go, before the file and the journal are.
@test "a batch that is the file or its journal" {
    put db.rec 'Tool: recset¶Fields: Tool¶Set: x¶'
    does batch -b db.rec db.rec
    has db.rec 'Tool: x¶Fields: Tool¶Set: x¶'
    does undo db.rec
    has db.rec 'Tool: recset¶Fields: Tool¶Set: x¶'
    cp db.rec.journal before
    refuses 'batch line 1: not an edit' batch -b db.rec.journal db.rec
    has db.rec.journal < before
    only before db.rec db.rec.journal
}

@test "a batch that stands under a working name is no leftover" {
    put db.rec "$two"
    put db.rec.new "$changes"
    fails_to_store 'db.rec.new: not left by recu: recu writes under this name, so move it away' batch -b db.rec.new db.rec
    has db.rec "$two"
    has db.rec.new "$changes"
    only db.rec db.rec.new
}

@test "the batch of the sample" {
    cp "$top/sample/contacts.rec" "$top/sample/changes.rec" .
    does batch -b changes.rec contacts.rec
    has contacts.rec <<'REC'
# People to call, by hand and in git.
Name: Ada Lovelace
Email: ada@example.org
Phone: 555 0199

# moved in May
Name: Grace Hopper
Note: Two lines:
+ this is the second.

Name: Alan Turing
Email: alan@example.org
REC
    does undo contacts.rec
    has contacts.rec < "$top/sample/contacts.rec"
    does redo contacts.rec
    has changes.rec < "$top/sample/changes.rec"
    only changes.rec contacts.rec contacts.rec.journal
}

# copies COUNT: as many records, whose values are numbers
copies() {
    awk -v count="$1" 'BEGIN { for (i = 0; i < count; i++) print "N: " i "\n" }'
}

@test "a batch of many edits" {
    copies 300 > db.rec
    cp db.rec before
    awk 'BEGIN { for (i = 0; i < 300; i++) print "Tool: recset\nNumber: " i "\nFields: N\nSet: x\n" }' > changes
    does batch -b changes db.rec
    sed 's/^N: .*/N: x/' before > after
    has db.rec < after
    tells 'done 1 batch¶' db.rec
    does undo db.rec
    has db.rec < before
    does redo db.rec
    has db.rec < after
}

@test "a batch of 200 KB, in a file and in a pipe" {
    copies 1001 | head -c -1 > after
    awk 'BEGIN { for (i = 1; i <= 1000; i++) printf "# %0170d\nTool: recins\nField: N\nValue: %d\n\n", i, i }' > changes
    [ "$(stat -c %s changes)" -gt 200000 ] || fail 'the batch is shorter'
    put db.rec 'N: 0¶'
    does batch -b changes db.rec
    has db.rec < after
    does undo db.rec
    has db.rec 'N: 0¶'
    does batch -b <(cat changes) db.rec
    has db.rec < after
    does undo db.rec
    has db.rec 'N: 0¶'
}
