# Several moves, `undo --through` and `redo --through`: both contents, byte for byte; how far they go where one is refused or
# fails, or another program comes in between; what is said of it; and what a dry run of them prints.

load helpers
load calls

setup_file() {
    need_program
    build_calls
}

# digest TEXT
digest() {
    bytes "$1" | sha256sum | cut -d ' ' -f 1
}

# edit NUMBER OLD NEW: the event of an edit that leads from a file of the one line to a file of the other
edit() {
    echo "Number: $1¶Kind: edit¶Tool: recset¶Before: $(digest "$2¶")¶After: $(digest "$3¶")¶At: 0¶Old: $2\$¶+ \$¶New: $3\$¶+ \$¶¶"
}

# move NUMBER KIND OF OLD NEW: that of an undo or of a redo, which leads from the one line to the other
move() {
    echo "Number: $1¶Kind: $2¶Of: $3¶Before: $(digest "$4¶")¶After: $(digest "$5¶")¶¶"
}

# The events of three edits, of their undos from the newest, and of the redos of two.
three_edits=$(edit 1 'A: 1' 'A: 2')$(edit 2 'A: 2' 'A: 3')$(edit 3 'A: 3' 'A: 4')
two_undone=$(move 4 undo 3 'A: 4' 'A: 3')$(move 5 undo 2 'A: 3' 'A: 2')
two_redone=$(move 6 redo 2 'A: 2' 'A: 3')$(move 7 redo 3 'A: 3' 'A: 4')

# begin: the file after three edits
begin() {
    put db.rec 'A: 4¶'
    put db.rec.journal "$header$three_edits"
}

# stands FILE EVENTS: both contents are these, and nothing else stands in the folder
stands() {
    has db.rec "$1"
    has db.rec.journal "$header$2"
    only db.rec db.rec.journal
}

# tells HISTORY: what history prints
tells() {
    recu 0 history db.rec
    prints "$1" ''
}

# stays EXPLANATION REFUSAL WORD..: recu refuses it so, and both contents stay
stays() {
    cp db.rec "$BATS_TEST_TMPDIR/file"
    [ ! -e db.rec.journal ] || cp db.rec.journal "$BATS_TEST_TMPDIR/journal"
    explains "$@"
    has db.rec < "$BATS_TEST_TMPDIR/file"
    [ ! -e db.rec.journal ] || has db.rec.journal < "$BATS_TEST_TMPDIR/journal"
}

@test "edits are undone one after another, and redone, each by an event of its own" {
    begin
    does undo --through 2 db.rec
    stands 'A: 2¶' "$three_edits$two_undone"
    does redo --through=3 db.rec
    stands 'A: 4¶' "$three_edits$two_undone$two_redone"
    tells 'done 1 recset¶done 2 recset¶done 3 recset¶'
}

@test "the nearest edit alone is moved as without a number" {
    begin
    does undo --through 003 db.rec
    stands 'A: 3¶' "$three_edits$(move 4 undo 3 'A: 4' 'A: 3')"
    does redo --through 3 db.rec
    stands 'A: 4¶' "$three_edits$(move 4 undo 3 'A: 4' 'A: 3')$(move 5 redo 3 'A: 3' 'A: 4')"
}

@test "all edits are undone and redone" {
    begin
    does undo --through 1 db.rec
    tells 'undone 1 recset¶undone 2 recset¶undone 3 recset¶'
    has db.rec 'A: 1¶'
    does redo --through 3 db.rec
    tells 'done 1 recset¶done 2 recset¶done 3 recset¶'
    has db.rec 'A: 4¶'
}

@test "it leads where as many commands without a number lead" {
    begin
    mkdir one
    cp db.rec db.rec.journal one
    (cd one && "$program" undo db.rec && "$program" undo db.rec)
    does undo --through 2 db.rec
    cmp db.rec one/db.rec
    cmp db.rec.journal one/db.rec.journal
    (cd one && "$program" redo db.rec && "$program" redo db.rec)
    does redo --through 3 db.rec
    cmp db.rec one/db.rec
    cmp db.rec.journal one/db.rec.journal
}

@test "a batch among the edits is undone whole, and untidy texts come back" {
    put db.rec '# c¶A:\x091¶¶¶B: x\\¶y¶C: \xFF'
    cp db.rec before
    put changes 'Tool: recset¶Number: 0¶Fields: A¶Set: 7¶¶Tool: recdel¶Number: 1¶'
    does recset -n 0 -f A -s 6 db.rec
    does batch -b changes db.rec
    does recins -f D -v 1 db.rec
    cp db.rec after
    does undo --through 1 db.rec
    has db.rec < before
    does redo --through 2 db.rec
    tells 'done 1 recset¶done 2 batch¶undone 3 recins¶'
    does redo --through 3 db.rec
    has db.rec < after
}

@test "a link that leads to a file that is no rec file, and a journal in another folder" {
    mkdir d e
    put d/real 'not\xFF'
    put e/j "$header$(edit 1 'no: 1' 'no 2')$(edit 2 'no 2' 'not\xFF')"
    put d/real 'not\xFF¶'
    ln -s real d/db.rec
    does undo --through 1 --journal e/j d/db.rec
    has d/real 'no: 1¶'
    does redo --journal e/j --through 2 d/db.rec
    has d/real 'not\xFF¶'
    [ -L d/db.rec ]
}

@test "numbers of edits that are no neighbours" {
    put db.rec 'A: 1¶'
    does recset -f A -s 2 db.rec
    does recset -f A -s 3 db.rec
    does undo db.rec
    does recset -f A -s 5 db.rec
    does recset -f A -s 6 db.rec
    tells 'done 1 recset¶done 4 recset¶done 5 recset¶'
    stays 'db.rec.journal: edits 1, 4 to 5 can be undone' 'no such edit' undo --through 2 db.rec
    stays 'db.rec.journal: edits 1, 4 to 5 can be undone' 'no such edit' undo --through 3 db.rec
    does undo --through 4 db.rec
    has db.rec 'A: 2¶'
    stays 'db.rec.journal: edits 4 to 5 can be redone' 'no such edit' redo --through 6 db.rec
    does redo --through 5 db.rec
    has db.rec 'A: 6¶'
}

@test "an edit that doesn't lie that way is refused before anything is done" {
    begin
    stays 'db.rec.journal: edits 1 to 3 can be undone' 'no such edit' undo --through 4 db.rec
    stays 'db.rec.journal: edits 1 to 3 can be undone' 'no such edit' undo --through 18446744073709551615 db.rec
    stays 'db.rec: no edit was undone' 'nothing to redo' redo --through 1 db.rec
    does undo --through 2 db.rec
    stays 'db.rec.journal: edit 1 can be undone' 'no such edit' undo --through 2 db.rec
    stays 'db.rec.journal: edit 1 can be undone' 'no such edit' undo --through 3 db.rec
    stays 'db.rec.journal: edits 2 to 3 can be redone' 'no such edit' redo --through 1 db.rec
    stays 'db.rec.journal: edits 2 to 3 can be redone' 'no such edit' redo --through 4 db.rec
    does undo --through 1 db.rec
    stays 'db.rec.journal: no edit is left to undo' 'nothing to undo' undo --through 1 db.rec
    stays 'db.rec.journal: edits 1 to 3 can be redone' 'no such edit' redo --through 7 db.rec
}

@test "the other refusals come before anything is done too" {
    local outside='db.rec: recu adopt OLD db.rec makes the change an edit, OLD being the text before it or any of the history¶db.rec: else the next edit begins a new history'
    put db.rec 'A: 4¶'
    stays 'db.rec.journal: no edit is left to undo' 'nothing to undo' undo --through 1 db.rec
    only db.rec
    begin
    put db.rec 'A: 5¶'
    stays "$outside" 'the file was changed outside' undo --through 1 db.rec
    stays "$outside" 'the file was changed outside' undo --through 9 db.rec
    stays "$outside" 'the file was changed outside' redo --through 1 db.rec
    put db.rec.journal 'hello¶'
    refuses 'journal line 1: not a journal of recu' undo --through 1 db.rec
    fails_to_store 'nothing: No such file or directory (os error 2)' undo --through 1 nothing
    only db.rec db.rec.journal
}

# changed OLD NEW: the diff of a move that leads from a file of the one line to a file of the other
changed() {
    echo "--- db.rec¶+++ db.rec¶@@ -1,1 +1,1 @@¶-$1¶+$2¶"
}

@test "a dry run prints what each of the moves would change, and changes nothing" {
    begin
    recu 0 undo --dry-run --through 3 db.rec
    prints "$(changed 'A: 4' 'A: 3')" ''
    recu 0 undo --through 2 --dry-run db.rec
    prints "$(changed 'A: 4' 'A: 3')$(changed 'A: 3' 'A: 2')" ''
    recu 0 undo --through=1 --unified 0 --dry-run db.rec
    prints "$(changed 'A: 4' 'A: 3')$(changed 'A: 3' 'A: 2')$(changed 'A: 2' 'A: 1')" ''
    stands 'A: 4¶' "$three_edits"
    # from the middle, each way
    does undo --through 2 db.rec
    recu 0 undo --dry-run --through 1 db.rec
    prints "$(changed 'A: 2' 'A: 1')" ''
    recu 0 redo --dry-run --through 2 db.rec
    prints "$(changed 'A: 2' 'A: 3')" ''
    recu 0 redo --dry-run --through 3 db.rec
    prints "$(changed 'A: 2' 'A: 3')$(changed 'A: 3' 'A: 4')" ''
    stands 'A: 2¶' "$three_edits$two_undone"
}

# as_single TOOL NUMBER WORD..: with these words a dry run of the moves as far as the edit of the number prints what those of single
# moves print between them
as_single() {
    local tool=$1 number=$2
    shift 2
    rm -rf one
    mkdir one
    cp db.rec db.rec.journal one
    : > wanted
    until (cd one && "$program" history db.rec | grep -qx "$([ "$tool" = redo ] || echo un)done $number [a-z]*"); do
        (cd one && "$program" "$tool" --dry-run "$@" db.rec >> ../wanted && "$program" "$tool" db.rec) || fail 'a single move is refused'
    done
    [ -s wanted ] || fail 'there was no move'
    cp db.rec db.rec.journal "$BATS_TEST_TMPDIR"
    recu 0 "$tool" --dry-run --through "$number" "$@" db.rec
    cmp "$BATS_TEST_TMPDIR/out" wanted
    cmp db.rec "$BATS_TEST_TMPDIR/db.rec"
    cmp db.rec.journal "$BATS_TEST_TMPDIR/db.rec.journal"
}

@test "a dry run of several moves prints what dry runs of single ones print between them" {
    local number
    put db.rec '# c¶A:\x091¶¶¶B: x\\¶y¶C: \xFF'
    put changes 'Tool: recset¶Number: 0¶Fields: A¶Set: 7¶¶Tool: recdel¶Number: 1¶'
    does recset -n 0 -f A -s 6 db.rec
    does recins -f D -v 1 db.rec
    does undo db.rec
    does recset -f A -s 5 db.rec
    does batch -b changes db.rec
    does recins -f E -v 2 db.rec
    tells 'done 1 recset¶done 4 recset¶done 5 batch¶done 6 recins¶'
    for number in 6 5 4 1; do
        as_single undo "$number"
        as_single undo "$number" --unified 0
    done
    does undo --through 4 db.rec
    for number in 4 5 6; do
        as_single redo "$number"
        as_single redo "$number" --unified 1
    done
    as_single undo 1
}

@test "a dry run of several moves is refused as they are, before anything is printed" {
    local outside='db.rec: recu adopt OLD db.rec makes the change an edit, OLD being the text before it or any of the history¶db.rec: else the next edit begins a new history'
    begin
    stays 'db.rec.journal: edits 1 to 3 can be undone' 'no such edit' undo --dry-run --through 4 db.rec
    stays 'db.rec: no edit was undone' 'nothing to redo' redo --dry-run --through 1 db.rec
    does undo --through 2 db.rec
    stays 'db.rec.journal: edit 1 can be undone' 'no such edit' undo --through 2 --dry-run db.rec
    stays 'db.rec.journal: edits 2 to 3 can be redone' 'no such edit' redo --through 1 --dry-run db.rec
    put db.rec 'A: 5¶'
    stays "$outside" 'the file was changed outside' undo --through 1 --dry-run db.rec
    put db.rec.journal 'hello¶'
    refuses 'journal line 1: not a journal of recu' undo --through 1 --dry-run db.rec
    only db.rec db.rec.journal
}

@test "a dry run prints the moves before one that doesn't fit its texts" {
    local edited='db.rec.journal: a text in it was changed; move it away to go on without the history'
    local events
    begin
    # the text that edit 1 put in, changed by hand
    events=${three_edits/New: A: 2/New: A: 7}
    put db.rec.journal "$header$events"
    recu 1 undo --dry-run --through 1 db.rec
    prints "$(changed 'A: 4' 'A: 3')$(changed 'A: 3' 'A: 2')" "$edited¶recu: the file was changed outside¶"
    recu 0 undo --dry-run --through 2 db.rec
    prints "$(changed 'A: 4' 'A: 3')$(changed 'A: 3' 'A: 2')" ''
    stands 'A: 4¶' "$events"
    # the one that edit 3 took out
    events=${three_edits/Old: A: 3/Old: A: 7}$(move 4 undo 3 'A: 4' 'A: 3')$(move 5 undo 2 'A: 3' 'A: 2')$(move 6 undo 1 'A: 2' 'A: 1')
    put db.rec 'A: 1¶'
    put db.rec.journal "$header$events"
    recu 1 redo --dry-run --through 3 db.rec
    prints "$(changed 'A: 1' 'A: 2')$(changed 'A: 2' 'A: 3')" "$edited¶recu: the file was changed outside¶"
    stands 'A: 1¶' "$events"
}

@test "a dry run of several moves takes no lock, writes nothing, and says where it can't print" {
    begin
    put db.rec.new 'somebody'
    put db.rec.journal.new 'somebody'
    chmod 444 db.rec db.rec.journal
    flock db.rec flock db.rec.journal "$recu" undo --through 2 --dry-run db.rec > out
    has out "$(changed 'A: 4' 'A: 3')$(changed 'A: 3' 'A: 2')"
    ends 1 bash -c '"$@" > /dev/full' '' "$recu" undo --through 2 --dry-run db.rec
    prints '' "standard output: No space left on device (os error 28)¶$store_failed"
    has db.rec 'A: 4¶'
    has db.rec.journal "$header$three_edits"
    only db.rec db.rec.journal db.rec.new db.rec.journal.new out
}

@test "how far it went is said where an edit on the way doesn't fit its texts" {
    local edited='db.rec.journal: a text in it was changed; move it away to go on without the history'
    local events
    begin
    # the text that edit 1 put in, changed by hand
    events=${three_edits/New: A: 2/New: A: 7}
    put db.rec.journal "$header$events"
    explains "undone: edits 3 to 2¶$edited" 'the file was changed outside' undo --through 1 db.rec
    stands 'A: 2¶' "$events$two_undone"
    stays "$edited" 'the file was changed outside' undo --through 1 db.rec
    does redo db.rec
    explains "undone: edit 2¶$edited" 'the file was changed outside' undo --through 1 db.rec
    has db.rec 'A: 2¶'
    # the one that edit 3 took out
    events=${three_edits/Old: A: 3/Old: A: 7}$(move 4 undo 3 'A: 4' 'A: 3')$(move 5 undo 2 'A: 3' 'A: 2')$(move 6 undo 1 'A: 2' 'A: 1')
    put db.rec 'A: 1¶'
    put db.rec.journal "$header$events"
    explains "redone: edits 1 to 2¶$edited" 'the file was changed outside' redo --through 3 db.rec
    stands 'A: 3¶' "$events$(move 7 redo 1 'A: 1' 'A: 2')$(move 8 redo 2 'A: 2' 'A: 3')"
    does undo db.rec
    explains "redone: edit 2¶$edited" 'the file was changed outside' redo --through 3 db.rec
    has db.rec 'A: 3¶'
}

# fails AT ERROR WORD..: the sync of this number fails so. Of the eight of each move the first four are of what stands there, the
# next two are those of the new files, the seventh is the folder's after the journal's rename, and the last the folder's after
# the file's.
fails() {
    local status=0
    ONLY=fsync at "$1" "$2" "${@:3}" || status=$?
    met || fail "there is no sync $1"
    [ "$status" = 1 ] || fail "it ends with status $status: $(< err)"
    has out ''
    rm out
}

@test "how far it went is said where a file can't be written" {
    local error='Input/output error (os error 5)'
    local undone='the edit is done, but its folder could not be synced, so a power cut may undo it'
    begin
    fails 13 5 undo --through 1 db.rec
    has err "undone: edit 3¶db.rec.journal: $error¶$store_failed"
    rm err
    stands 'A: 3¶' "$three_edits$(move 4 undo 3 'A: 4' 'A: 3')"
    # the journal is in place, and its event doesn't count
    fails 15 5 undo --through 1 db.rec
    has err "undone: edit 2¶db.rec.journal: $error¶$store_failed"
    rm err
    stands 'A: 2¶' "$three_edits$two_undone$(move 6 undo 1 'A: 2' 'A: 1')"
    tells 'done 1 recset¶undone 2 recset¶undone 3 recset¶'
    fails 8 5 redo --through 3 db.rec
    has err "db.rec: $undone: $error¶$store_failed"
    rm err
    tells 'done 1 recset¶done 2 recset¶undone 3 recset¶'
    does redo db.rec
    fails 24 5 undo --through 1 db.rec
    has err "undone: edits 3 to 2¶db.rec: $undone: $error¶$store_failed"
    tells 'undone 1 recset¶undone 2 recset¶undone 3 recset¶'
    has db.rec 'A: 1¶'
}

# unheard STATUS WORD..: with standard error closed recu ends so, and prints nothing. The file that is opened first has its number
# then, so nothing may be said before that is closed.
unheard() {
    ends "$1" bash -c '"$@" 2>&-' '' "$program" "${@:2}"
    prints '' ''
}

@test "several moves with standard error closed" {
    local events
    begin
    unheard 0 undo --through 2 db.rec
    stands 'A: 2¶' "$three_edits$two_undone"
    unheard 1 redo --through 4 db.rec
    unheard 1 undo --through 2 db.rec
    stands 'A: 2¶' "$three_edits$two_undone"
    unheard 0 redo --through 3 db.rec
    unheard 1 redo db.rec
    stands 'A: 4¶' "$three_edits$two_undone$two_redone"
    # on the way: a text that was changed, and a sync that fails
    events=${three_edits/New: A: 2/New: A: 7}
    put db.rec.journal "$header$events"
    unheard 1 undo --through 1 db.rec
    stands 'A: 2¶' "$events$two_undone"
    begin
    ONLY=fsync AT=13 DO=5 LD_PRELOAD=$BATS_FILE_TMPDIR/calls.so unheard 1 undo --through 1 db.rec
    met || fail 'there is no such sync'
    stands 'A: 3¶' "$three_edits$(move 4 undo 3 'A: 4' 'A: 3')"
}

@test "it takes no more than single moves, and closes what it opened" {
    local number
    put db.rec 'A: 0¶'
    for ((number = 1; number <= 40; number++)); do
        "$program" recset -f A -s "$number" db.rec
    done
    # open files are few, however many moves there are
    (ulimit -n 16 && "$program" undo --through 1 db.rec) || fail 'too many open files'
    has db.rec 'A: 0¶'
    (ulimit -n 16 && "$program" redo --through 40 db.rec) || fail 'too many open files'
    has db.rec 'A: 40¶'
    only db.rec db.rec.journal
}

# The moves that are held up.
moves=(undo --through 1)

# between CALL NUMBER WORD..: the words are run while the moves are held up at their call of this name and number, and then they
# go on
between() {
    local pid tries
    rm -f paused go hit
    ONLY=$1 at "$2" pause "${moves[@]}" db.rec &
    pid=$!
    for ((tries = 0; tries < 4000; tries++)); do
        if [ -e paused ] || ! kill -0 "$pid" 2> /dev/null; then break; fi
        sleep 0.002
    done
    [ -e paused ] || fail "there is no $1 $2"
    fast "${@:3}" > rival 2>&1 3>&- || true
    : > go
    status=0
    wait "$pid" || status=$?
    rm -f paused go hit
}

# ends_so STATUS SAID RIVAL: so it ended, this was said, and this of the other program
ends_so() {
    [ "$status" = "$1" ] || fail "it ends with status $status: $(< err)"
    has out ''
    has err "$2"
    has rival "$3"
    rm -f out err rival
    [ ! -e db.rec.new ] && [ ! -e db.rec.journal.new ] || fail 'a working file is left'
}

# A move locks the file, the journal, and then the two new files: so the fifth lock is the first of the second move.
@test "between two moves another recu finds both unlocked" {
    begin
    between flock 5 "$program" undo db.rec
    ends_so 0 '' ''
    tells 'undone 1 recset¶undone 2 recset¶undone 3 recset¶'
    has db.rec 'A: 1¶'
    begin
    between flock 5 "$program" undo --through 1 db.rec
    ends_so 1 'undone: edit 3¶db.rec.journal: no edit is left to undo¶recu: nothing to undo¶' ''
    has db.rec 'A: 1¶'
}

@test "an edit that another recu makes between two moves ends them" {
    begin
    between flock 5 "$program" recset -f A -s 9 db.rec
    ends_so 1 "undone: edit 3 first, and edit 5 last¶db.rec: edited by another program meanwhile¶$store_failed" ''
    tells 'done 1 recset¶done 2 recset¶undone 5 recset¶'
    has db.rec 'A: 3¶'
    does redo db.rec
    has db.rec 'A: 9¶'
}

@test "an edit that another recu redoes between two moves ends them" {
    begin
    between flock 9 "$program" redo db.rec
    ends_so 1 "undone: edit 3 first, and edit 2 last¶db.rec: edited by another program meanwhile¶$store_failed" ''
    tells 'done 1 recset¶undone 2 recset¶undone 3 recset¶'
    has db.rec 'A: 2¶'
}

# forgets WORD..: recu forgets by these words, and then makes more edits than were there
forgets() {
    local number
    "$program" forget "$@" db.rec
    for number in 11 12 13 14 15 16 17 18; do
        "$program" recset -f A -s "$number" db.rec
    done
}

@test "edits that another recu numbers anew between two moves end them" {
    local meanwhile="db.rec: edited by another program meanwhile¶$store_failed"
    # edit 1 is then another one: what was edit 2
    begin
    between flock 5 "$program" forget 1 db.rec
    ends_so 1 "undone: edit 3¶$meanwhile" ''
    tells 'done 1 recset¶undone 2 recset¶'
    has db.rec 'A: 3¶'
    # all that could be undone is forgotten, and what was edit 3 is edit 1
    begin
    between flock 5 "$program" forget 0 db.rec
    ends_so 1 "undone: edit 3¶$meanwhile" ''
    tells 'undone 1 recset¶'
    has db.rec 'A: 3¶'
    # later, where edit 1 alone is left, and is forgotten
    begin
    between flock 9 "$program" forget 0 db.rec
    ends_so 1 "undone: edits 3 to 2¶$meanwhile" ''
    tells 'undone 1 recset¶undone 2 recset¶'
    has db.rec 'A: 2¶'
    does redo --through 2 db.rec
    has db.rec 'A: 4¶'
    # the same way forward
    moves=(redo --through 3)
    begin
    does undo --through 1 db.rec
    between flock 9 "$program" forget 0 db.rec
    ends_so 1 "redone: edits 1 to 2¶$meanwhile" ''
    tells 'undone 1 recset¶'
    has db.rec 'A: 3¶'
}

@test "numbers are anew in a journal that grew again, too" {
    local meanwhile="db.rec: edited by another program meanwhile¶$store_failed"
    begin
    between flock 5 forgets 1
    ends_so 1 "undone: edit 3¶$meanwhile" ''
    has db.rec 'A: 18¶'
    begin
    between flock 9 forgets 0
    ends_so 1 "undone: edits 3 to 2¶$meanwhile" ''
    has db.rec 'A: 18¶'
    # dropped edits alone are forgotten: edits keep their texts, and one gets another number
    begin
    does undo --through 3 db.rec
    does recset -f A -s 7 db.rec
    does recset -f A -s 8 db.rec
    moves=(undo --through 5)
    between flock 5 "$program" forget 9 --dropped db.rec
    ends_so 1 "undone: edit 6¶$meanwhile" ''
    tells 'done 1 recset¶done 2 recset¶done 3 recset¶undone 4 recset¶'
    has db.rec 'A: 7¶'
}

@test "a journal that is written as it was between two moves ends nothing" {
    begin
    # nothing is forgotten
    between flock 5 "$program" forget 2 db.rec
    ends_so 0 '' ''
    tells 'undone 1 recset¶undone 2 recset¶undone 3 recset¶'
    # a copy of the journal
    begin
    between flock 5 eval 'cp db.rec.journal copy; mv copy db.rec.journal'
    ends_so 0 '' ''
    has db.rec 'A: 1¶'
    # edits that were taken back
    begin
    between flock 5 eval '"$program" recset -f A -s 9 db.rec; "$program" undo db.rec'
    ends_so 0 '' ''
    has db.rec 'A: 1¶'
}

@test "a save of another program between two moves is noticed" {
    local outside='db.rec: recu adopt OLD db.rec makes the change an edit, OLD being the text before it or any of the history¶db.rec: else the next edit begins a new history'
    begin
    between flock 5 put db.rec 'A: 8¶'
    ends_so 1 "undone: edit 3¶$outside¶recu: the file was changed outside¶" ''
    has db.rec 'A: 8¶'
    begin
    between flock 9 rm db.rec
    ends_so 1 "undone: edits 3 to 2¶db.rec: No such file or directory (os error 2)¶$store_failed" ''
}

@test "a file that another program has locked between two moves" {
    begin
    between flock 5 eval 'flock -o db.rec sleep 20 & echo $! > holder; until ! flock -n db.rec true; do sleep 0.002; done'
    kill "$(< holder)"
    rm holder
    ends_so 1 "undone: edit 3¶db.rec: locked by another program¶$store_failed" ''
    has db.rec 'A: 3¶'
}

@test "each move holds both locks to its end" {
    local number
    # the rename of the journal and of the file, in each of three moves
    for number in 1 2 3 4 5 6; do
        begin
        between rename "$number" "$program" recset -f A -s 9 db.rec
        ends_so 0 '' "db.rec: locked by another program¶$store_failed"
        has db.rec 'A: 1¶'
        tells 'undone 1 recset¶undone 2 recset¶undone 3 recset¶'
    done
}
