# Several programs at once, and calls of the system that fail or at which the program ends: no edit is lost with status 0, and
# what is refused has changed nothing. calls.c counts the calls of a run; a loop over their numbers ends with a run that has
# no such call.

load helpers

setup_file() {
    need_program
    command -v cc > /dev/null || fail 'no C compiler to build calls.c with'
    cc -O1 -shared -fPIC -o "$BATS_FILE_TMPDIR/calls.so" "$top/tests/calls.c" -ldl
}

teardown() {
    chmod -R u+rwx "$BATS_TEST_TMPDIR"
}

edited='A: 9¶¶B: 2¶¶C: 3¶'

# The edit that is held up, or whose calls fail.
words=(recset -n 0 -f A -S 9)

# as_batch: it is made by two steps
as_batch() {
    words=(batch -b changes)
    put changes 'Tool: recset¶Number: 0¶Fields: A¶SetAdd: 7¶¶Tool: recset¶Number: 0¶Fields: A¶SetAdd: 9¶'
}

# at NUMBER WHAT WORD..: recu with these words; what becomes of the call of this number is told in calls.c
at() {
    AT=$1 DO=$2 LD_PRELOAD=$BATS_FILE_TMPDIR/calls.so "$program" "${@:3}" > out 2> err 3>&-
}

# met: the last run had the call; the names in the folder are as before
met() {
    [ -e hit ] || return 1
    call=$(cat hit)
    rm -f hit paused go
}

no_leftovers() {
    [ -z "$(find . -name '*.new')" ] || fail "call $number ($call): left over:" *.new
}

wrong() {
    fail "call $number ($call), status $status: $*" $'\n'"$(cat err)" $'\n'"$(cat -A db.rec 2>&1)"
}

# can_be_taken_back TEXT: each edit that stands is undone, and then the file has the text
can_be_taken_back() {
    local edits
    edits=$("$program" history db.rec | grep -c '^done' || true)
    while [ "$edits" -gt 0 ]; do
        "$program" undo db.rec > /dev/null || wrong 'an edit could not be taken back'
        edits=$((edits - 1))
    done
    fast has db.rec "$1" || wrong "not the first text again"
}

# writers COUNT ROUNDS: as many programs at once put a record in
writers() {
    local round writer done=0 pids
    put db.rec "$three"
    rm -f db.rec.journal
    for ((round = 0; round < $2; round++)); do
        pids=()
        for ((writer = 0; writer < $1; writer++)); do
            "$program" recins -f N -v "$round.$writer" db.rec > out 2> "err.$writer" 3>&- &
            pids+=($!)
        done
        for writer in "${!pids[@]}"; do
            if wait "${pids[$writer]}"; then
                done=$((done + 1))
            elif ! tail -n 1 "err.$writer" | grep -qx 'recu: a file could not be read or written'; then
                fail "a writer ended with another fault: $(cat "err.$writer")"
            fi
        done
    done
    [ "$(grep -c '^N: ' db.rec)" = "$done" ] || fail "$done edits were done, and the file has $(grep -c '^N: ' db.rec)"
    [ "$("$program" history db.rec | grep -c '^done')" = "$done" ] || fail "$done edits were done: $("$program" history db.rec)"
    number=0 call=none status=0
    can_be_taken_back "$three"
    no_leftovers
}

@test "two writers at once lose no edit" {
    fast writers 2 160
}

@test "eight writers at once lose no edit" {
    fast writers 8 40
}

# each_pause RIVAL JUDGE: a writer is held up at each of its calls, while a rival comes; `renames` is the number of its renames up
# to that call
each_pause() {
    local rival=$1 judge=$2 pid tries renames=0
    for ((number = 1; number <= 1000; number++)); do
        rm -rf db.rec db.rec.journal other rival.err hit paused go
        put db.rec "$three"
        if [ -d start ]; then cp -P start/* .; fi
        at "$number" pause "${words[@]}" db.rec &
        pid=$!
        for ((tries = 0; tries < 4000; tries++)); do
            if [ -e paused ] || ! kill -0 "$pid" 2> /dev/null; then break; fi
            sleep 0.002
        done
        if [ -e paused ]; then "$rival"; fi
        : > go
        status=0
        wait "$pid" || status=$?
        if ! met; then
            [ "$number" -gt 10 ] || fail 'the writer was never held up'
            return 0
        fi
        [ "$call" != rename ] || renames=$((renames + 1))
        "$judge"
        no_leftovers
    done
    fail 'no end'
}

another_recu() {
    rival_status=0
    "$program" recdel -n 1 db.rec > /dev/null 2> rival.err || rival_status=$?
}

both_stand() {
    local wanted=$three
    case $status/$rival_status in
        0/0) wanted='A: 9¶¶C: 3¶' ;;
        0/1) wanted=$edited ;;
        1/0) wanted='A: 1¶¶C: 3¶' ;;
    esac
    fast has db.rec "$wanted" || wrong "the rival's status is $rival_status"
    [ "$status/$rival_status" != 1/1 ] || wrong 'neither came through'
    can_be_taken_back "$three"
}

@test "another recu edits the file meanwhile" {
    fast each_pause another_recu both_stand
}

# moves_stand: the rival came before both moves, between them or after them, or was refused. Between them it finds both files
# unlocked; its edit is undone too, and ends the moves.
moves_stand() {
    local history
    history=$("$program" history db.rec | tr '\n' ' ')
    case $status/$rival_status/$history in
        '0/0/undone 1 recset undone 2 recset undone 3 recdel ' | '0/0/done 5 recdel ' | '0/1/undone 1 recset undone 2 recset ') ;;
        '1/0/done 1 recset undone 4 recdel ')
            fast has err "undone: edit 2 first, and edit 4 last¶db.rec: edited by another program meanwhile¶$store_failed"
            between=$((between + 1))
            ;;
        *) wrong "the rival's status is $rival_status, the history: $history" ;;
    esac
    can_be_taken_back "$three"
}

each_between() {
    local between=0
    each_pause another_recu moves_stand
    [ "$between" -gt 0 ] || fail 'the rival never came between two moves'
}

@test "another recu edits the file while several edits are undone" {
    put db.rec "$three"
    does recset -n 0 -f A -s 8 db.rec
    does recset -n 0 -f A -s 9 db.rec
    mkdir start
    cp db.rec db.rec.journal start
    words=(undo --through 1)
    fast each_between
}

@test "another recu edits the file while a batch is made" {
    as_batch
    fast each_pause another_recu both_stand
}

saved='A: 5¶¶X: 1¶'
edited_save='A: 9¶¶X: 1¶'

save() {
    put db.rec "$saved"
}

save_by_rename() {
    put other "$saved"
    mv other db.rec
}

# Who saves between the last look of recu and its rename loses what he saved.
save_stands() {
    [ "$call" != rename ] || return 0
    if fast has db.rec "$saved" 2> /dev/null; then return 0; fi
    [ "$status" = 0 ] && fast has db.rec "$edited_save" || wrong 'what was saved is lost'
}

@test "another program writes the file meanwhile" {
    fast each_pause save save_stands
}

@test "another program saves the file while a batch is made" {
    as_batch
    fast each_pause save save_stands
    fast each_pause save_by_rename save_stands
}

@test "another program puts a file in its place meanwhile" {
    fast each_pause save_by_rename save_stands
}

# What is saved has the length of what stood there, and its time of the last change: only the time of the status tells of it.
save_as_long() {
    # in another tick of the system's clock
    sleep 0.02
    touch -r db.rec other
    put db.rec 'A: 1¶¶B: 2¶¶C: 5¶'
    touch -r other db.rec
}

noticed="db.rec: changed by another program meanwhile¶$store_failed"

# It came before the file was read, or is noticed; or it came after all was done, or right before the file's rename.
save_is_noticed() {
    case $status/$renames in
        0/0) fast has db.rec 'A: 9¶¶B: 2¶¶C: 5¶' || wrong 'what was saved is lost' ;;
        1/[01])
            fast has db.rec 'A: 1¶¶B: 2¶¶C: 5¶' || wrong 'what was saved is lost'
            fast has err "$noticed" || wrong 'it says something else'
            ;;
        0/2) [ "$call" = rename ] || fast has db.rec 'A: 1¶¶B: 2¶¶C: 5¶' || wrong 'what was saved is lost' ;;
        *) wrong "it is no answer after $renames renames" ;;
    esac
}

@test "another program saves a text of the same length meanwhile" {
    fast each_pause save_as_long save_is_noticed
}

link() {
    put other "$saved"
    ln -sfn other db.rec
}

link_stands() {
    [ "$call" != rename ] || return 0
    [ -L db.rec ] || wrong 'the link is gone'
    if fast has other "$saved" 2> /dev/null; then return 0; fi
    [ "$status" = 0 ] && fast has other "$edited_save" || wrong 'what the link leads to was written'
}

@test "the file becomes a link meanwhile" {
    fast each_pause link link_stands
}

# The link was followed to where it leads now, or that is noticed; or it came after all was done, or right before the file's
# rename.
leads_elsewhere() {
    [ "$(readlink db.rec)" = other ] || wrong 'the link leads elsewhere'
    case $status/$renames in
        0/0) fast has real "$three" && fast has other "$edited_save" || wrong 'it is not the file to which the link leads' ;;
        1/[01])
            fast has real "$three" && fast has other "$saved" || wrong 'one of the two was written'
            fast has err "$noticed" || wrong 'it says something else'
            ;;
        0/2) fast has real "$edited" && fast has other "$saved" || wrong 'it is not the file to which the link led' ;;
        *) wrong "it is no answer after $renames renames" ;;
    esac
}

@test "a link to the file leads elsewhere meanwhile, and the journal is given" {
    mkdir start
    put start/real "$three"
    ln -s real start/db.rec
    words+=(--journal db.rec.journal)
    fast each_pause link leads_elsewhere
}

# The edit is one of the file to which the link leads now, or of that to which it led, and stands in the journal of that one.
has_its_journal() {
    local edited_one=real other_one=other
    [ "$(readlink db.rec)" = other ] || wrong 'the link leads elsewhere'
    [ "$status" = 0 ] || wrong 'it is refused'
    if fast has other "$edited_save" > /dev/null 2>&1; then
        edited_one=other other_one=real
        fast has real "$three" || wrong 'both were written'
    else
        fast has real "$edited" && fast has other "$saved" || wrong 'neither has the edit'
    fi
    [ "$(ls -- *.journal)" = "$edited_one.journal" ] || wrong "the journals are $(ls -- *.journal)"
    "$program" undo "$edited_one" || wrong 'it could not be taken back'
    fast has real "$three" && fast has other "$saved" || wrong "not the first text of $edited_one again, or $other_one was written"
    rm "$edited_one.journal"
}

@test "a link to the file leads elsewhere meanwhile" {
    mkdir start
    put start/real "$three"
    ln -s real start/db.rec
    fast each_pause link has_its_journal
}

remove() {
    rm db.rec
}

stays_away() {
    [ "$call" != rename ] || return 0
    [ ! -e db.rec ] || wrong 'the file is there again'
}

@test "the file is removed meanwhile" {
    fast each_pause remove stays_away
}

# as_forgetting: of two edits the older one is forgotten. What stands before it and after it lies in two folders.
as_forgetting() {
    words=(forget 1)
    put db.rec "$three"
    does recset -n 0 -f A -s 8 db.rec
    does recset -n 0 -f A -s 9 db.rec
    mkdir start forgotten
    cp db.rec db.rec.journal start
    does forget 1 db.rec
    has db.rec "$edited"
    ! cmp -s db.rec.journal start/db.rec.journal || fail 'nothing was forgotten'
    mv db.rec db.rec.journal forgotten
}

# Either of the two came first, or alone, and each edit that is left can be undone.
both_count() {
    local oldest='A: 8¶¶B: 2¶¶C: 3¶'
    "$program" history db.rec > history
    case $status/$rival_status/$(tr '\n' ' ' < history) in
        '0/1/done 1 recset ' | '0/0/done 1 recset done 2 recdel ') ;;
        '0/0/done 1 recdel ') oldest=$edited ;;
        '1/0/done 1 recset done 2 recset done 3 recdel ') oldest=$three ;;
        *) wrong "the rival's status is $rival_status, the history: $(< history)" ;;
    esac
    can_be_taken_back "$oldest"
}

@test "another recu edits the file while edits are forgotten" {
    as_forgetting
    fast each_pause another_recu both_count
}

# stays_saved: who saves loses nothing, and the journal is one of the two
stays_saved() {
    fast has db.rec "$saved" || wrong 'what was saved is lost'
    cmp -s db.rec.journal start/db.rec.journal || cmp -s db.rec.journal forgotten/db.rec.journal || wrong 'another journal'
    [ "$status" != 0 ] || cmp -s db.rec.journal forgotten/db.rec.journal || wrong 'nothing was forgotten'
}

remains_away() {
    [ ! -e db.rec ] || wrong 'the file is there again'
}

@test "another program saves the file while edits are forgotten" {
    as_forgetting
    fast each_pause save stays_saved
    fast each_pause save_by_rename stays_saved
    fast each_pause link stays_saved
    fast each_pause remove remains_away
}

# another_journal: another program puts a journal in place
another_journal() {
    put other "$header"
    mv other db.rec.journal
}

# Whoever puts it in place between the last look of recu and its rename loses it.
journal_stands() {
    [ "$call" != rename ] || return 0
    fast has db.rec "$edited" || wrong 'the file was changed'
    fast has db.rec.journal "$header" || wrong 'what was put in place is lost'
}

@test "another program writes the journal while edits are forgotten" {
    as_forgetting
    fast each_pause another_journal journal_stands
}

# Whoever puts a journal in place before recu's last look keeps it, and so does who comes after the rename.
journal_is_kept() {
    local history
    [ "$call" != rename ] || return 0
    if fast has db.rec.journal "$header" 2> /dev/null; then return 0; fi
    # it was there before recu read it
    history=$("$program" history db.rec)
    [ "$status" = 0 ] && [[ $history == 'done 1 '* && $history != *$'\n'* ]] || wrong "what was put in place is lost, the history is: $history"
    fast has db.rec "$edited" || wrong 'not the edit'
}

@test "another program puts a journal in place meanwhile" {
    put db.rec "$three"
    does recset -n 0 -f A -s 8 db.rec
    mkdir start
    cp db.rec db.rec.journal start
    fast each_pause another_journal journal_is_kept
    as_batch
    fast each_pause another_journal journal_is_kept
}

# first_journal: another program puts one in place where there was none. It has the older header, which recu keeps.
first_journal() {
    put other "$old_header"
    mv other db.rec.journal
}

# It was there before recu looked for one, or is noticed; or it came after recu's own was in place, or right before that.
first_journal_is_kept() {
    case $status/$renames in
        0/0)
            fast has db.rec "$edited" || wrong 'not the edit'
            fast has <(head -c 57 db.rec.journal) "$old_header" || wrong 'what was put in place is lost'
            ;;
        1/0)
            fast has db.rec "$three" && fast has db.rec.journal "$old_header" || wrong 'one of the two was written'
            fast has err "db.rec.journal: changed by another program meanwhile¶$store_failed" || wrong 'it says something else'
            ;;
        0/[12])
            fast has db.rec "$edited" || wrong 'not the edit'
            [ "$renames/$call" = 1/rename ] || fast has db.rec.journal "$old_header" || wrong 'what was put in place is lost'
            ;;
        *) wrong "it is no answer after $renames renames" ;;
    esac
}

@test "another program puts a first journal in place meanwhile" {
    fast each_pause first_journal first_journal_is_kept
}

# each_call WHAT: the run's calls fail so in turn, or it ends at them
each_call() {
    for ((number = 1; number <= 1000; number++)); do
        rm -rf db.rec db.rec.journal hit ./*.new
        put db.rec "$three"
        status=0
        at "$number" "$1" "${words[@]}" db.rec || status=$?
        if ! met; then
            [ "$number" -gt 10 ] || fail 'no call failed'
            return 0
        fi
        whole "$1"
    done
    fail 'no end'
}

# The file is old or new, and what was done can be taken back.
whole() {
    if fast has db.rec "$three" 2> /dev/null; then
        [ "$status" != 0 ] || wrong 'the edit is lost'
        "$program" "${words[@]}" db.rec > out 2> err || wrong 'the next edit is refused'
    fi
    fast has db.rec "$edited" || wrong 'neither the old text nor the new one'
    [ "$1" = end ] || [ "$call" = unlink ] || no_leftovers
    can_be_taken_back "$three"
    [ "$call" = unlink ] || no_leftovers
}

# The texts around the edits and moves of the cases below.
first=$three
second='B: 2¶¶C: 3¶'

# before WORD..: a file and its journal on which these words lead from one of the two texts to the other
before() {
    rm -rf db.rec db.rec.journal ./*.new hit
    put db.rec "$first"
    case $1 in
        first) ;;
        recset) "$program" recset -n 0 -f A -s 9 db.rec && "$program" undo db.rec ;;
        undo) "$program" recdel -n 0 db.rec ;;
        redo) "$program" recdel -n 0 db.rec && "$program" undo db.rec ;;
        left) put db.rec.journal.new "$header" && put db.rec.new 'half a fi' ;;
        between) "$program" recdel -n 0 db.rec && mv db.rec db.rec.new && put db.rec "$first" ;;
    esac
}

# each_stop STATE WORD..: from such a state the words end at each of their calls in turn, and the next edit goes through
each_stop() {
    for ((number = 1; number <= 1000; number++)); do
        before "$1"
        status=0
        at "$number" end "${@:2}" db.rec || status=$?
        if ! met; then
            [ "$number" -gt 10 ] || fail 'no call was met'
            return 0
        fi
        "$program" recins -f N -v 1 db.rec > out 2> err || wrong 'the next edit is refused'
        no_leftovers
        "$program" undo db.rec > out 2> err || wrong 'and can not be taken back'
        fast has db.rec "$first" 2> /dev/null || fast has db.rec "$second" || wrong 'neither the old text nor the new one'
        can_be_taken_back "$first"
    done
    fail 'no end'
}

@test "after each stop of an edit the next one goes through" {
    second=$edited
    fast each_stop first recset -n 0 -f A -S 9
    fast each_stop recset recset -n 0 -f A -S 9
}

@test "after each stop of a batch the next edit goes through" {
    second=$edited
    as_batch
    fast each_stop first "${words[@]}"
    fast each_stop between "${words[@]}"
}

@test "after each stop of an undo or a redo the next edit goes through" {
    fast each_stop undo undo
    fast each_stop redo redo
}

@test "after each stop of an edit that removes leftovers the next one goes through" {
    second=$edited
    fast each_stop left recset -n 0 -f A -S 9
    fast each_stop between recset -n 0 -f A -S 9
}

@test "each call of the system fails" {
    fast each_call 5
    as_batch
    fast each_call 5
}

@test "there is no room at each call of the system" {
    fast each_call 28
}

@test "the program ends at each call of the system" {
    fast each_call end
}

# sync_fails NUMBER ERROR: the sync of this number fails so; those of the folder are the second and the third, before anything is
# made, and the sixth and the seventh, after the renames
sync_fails() {
    rm -rf db.rec db.rec.journal hit
    put db.rec "$three"
    status=0 call=fsync number=$1
    ONLY=fsync at "$1" "$2" recset -n 0 -f A -S 9 db.rec || status=$?
    [ -e hit ] || fail "there is no sync $1"
}

@test "a folder that cannot be synced" {
    local number
    for number in 2 3 6 7; do
        sync_fails "$number" 22
        [ "$status" = 0 ] || wrong 'it is a failure'
        fast has db.rec "$edited" || wrong 'the edit is lost'
        sync_fails "$number" 95
        [ "$status" = 0 ] || wrong 'it is a failure'
    done
    sync_fails 6 5
    [ "$status" = 1 ] || wrong 'it is no failure'
    grep -q '^db.rec.journal: ' err || wrong 'it says something else'
    fast has db.rec "$three" || wrong 'the file was replaced'
    [ -z "$("$program" history db.rec)" ] || wrong 'the event counts'
    no_leftovers
    sync_fails 7 5
    [ "$status" = 1 ] || wrong 'it is no failure'
    grep -q '^db.rec: the edit is done, but its folder could not be synced, so a power cut may undo it: ' err || wrong 'it says something else'
    fast has db.rec "$edited" || wrong 'the edit is lost'
    can_be_taken_back "$three"
    # Forgetting puts the journal in place, and syncs its folder last.
    as_forgetting
    cp start/* .
    ONLY=fsync at 6 5 "${words[@]}" db.rec && status=0 || status=$?
    [ "$status" = 1 ] || wrong 'it is no failure'
    fast has err "db.rec.journal: the edits are forgotten, but its folder could not be synced, so a power cut may bring them back: Input/output error (os error 5)¶$store_failed" || wrong 'it says something else'
    cmp -s db.rec.journal forgotten/db.rec.journal || wrong 'nothing was forgotten'
    no_leftovers
}

# The fifth that is opened is the journal's new file, after the file and the folder, each twice.
@test "a file system that may only be read" {
    put db.rec "$three"
    status=0 number=5
    ONLY=open at 5 30 "${words[@]}" db.rec || status=$?
    met || fail 'nothing more is opened'
    [ "$status" = 1 ] || wrong 'it is no failure'
    has err ".: the folder isn't writable, and recu writes a new file in it: Read-only file system (os error 30)¶$store_failed"
    has db.rec "$three"
    no_leftovers
}

# An edit locks the file, the journal, and then their two new files.
@test "a file system without locks" {
    local name
    put db.rec "$three"
    does recset -n 0 -f A -s 8 db.rec
    mkdir start
    cp db.rec db.rec.journal start
    number=0
    for name in db.rec db.rec.journal db.rec.journal.new db.rec.new; do
        status=0 number=$((number + 1))
        ONLY=flock at "$number" 37 "${words[@]}" db.rec || status=$?
        met || fail "there is no lock $number"
        [ "$status" = 1 ] || wrong 'it is no failure'
        has err "$name: No locks available (os error 37)¶$store_failed"
        cmp db.rec start/db.rec
        cmp db.rec.journal start/db.rec.journal
        rm out err
        only db.rec db.rec.journal start
    done
    ONLY=flock at 5 37 "${words[@]}" db.rec || true
    ! met || fail 'there is another lock'
    has db.rec "$edited"
}

@test "two files with one journal" {
    local pid
    for ((number = 1; number <= 1000; number++)); do
        rm -rf db.rec other.rec j hit paused go
        put db.rec "$three"
        put other.rec 'X: 1¶¶Y: 2¶'
        at "$number" pause recset -n 0 -f A -S 9 --journal j db.rec &
        pid=$!
        until [ -e paused ] || ! kill -0 "$pid" 2> /dev/null; do sleep 0.002; done
        rival_status=0
        "$program" recdel -n 1 --journal j other.rec > /dev/null 2> rival.err || rival_status=$?
        : > go
        status=0
        wait "$pid" || status=$?
        met || return 0
        [ "$(grep -c '^Kind: edit' j)" -ge $(((status == 0) + (rival_status == 0))) ] || wrong "an event is lost, the rival's status is $rival_status"
        no_leftovers
    done
}
