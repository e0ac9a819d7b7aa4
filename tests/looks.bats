# Commands that look at a file and its journal, without a lock, while other programs write: they find two that belong together.

load helpers
load calls

setup_file() {
    need_program
    build_calls
}

# begin: a file after two edits, of which one is undone
begin() {
    rm -f db.rec db.rec.journal
    put db.rec 'A: 1¶'
    "$program" recset -f A -s 2 db.rec
    "$program" recset -f A -s 3 db.rec
    "$program" undo db.rec
}

# edits: another recu makes two edits. With one alone the journal is one event ahead, which doesn't count then.
edits() {
    "$program" recset -f A -s 8 db.rec
    "$program" recset -f A -s 9 db.rec
}

# held NUMBER WORD..: recu with these words is held up at its call of this number, while another one makes edits
held() {
    local pid tries
    rm -f paused go hit out err
    at "$1" pause "${@:2}" &
    pid=$!
    for ((tries = 0; tries < 4000; tries++)); do
        if [ -e paused ] || ! kill -0 "$pid" 2> /dev/null; then break; fi
        sleep 0.002
    done
    if [ -e paused ]; then edits 3>&-; fi
    : > go
    status=0
    wait "$pid" || status=$?
    rm -f paused go
}

# before_or_after WORD..: held up at each of its calls in turn, recu prints what it prints before the edits or after them
before_or_after() {
    local number
    begin
    "$program" "$@" db.rec > before
    edits
    "$program" "$@" db.rec > after
    ! cmp -s before after || fail 'the edits show nowhere'
    for ((number = 1; number < 200; number++)); do
        begin
        held "$number" "$@" db.rec
        [ "$status" = 0 ] || fail "call $number ($(cat hit 2>&1)): status $status: $(< err)"
        cmp -s out before || cmp -s out after || fail "call $number ($(cat hit 2>&1)):" $'\n'"$(cat out)"
        [ -e hit ] || return 0
    done
    fail 'the calls have no end'
}

@test "history tells of what stood before two edits or after them" {
    before_or_after history
}

@test "show and history --patch too" {
    before_or_after show
    before_or_after history --patch
}

@test "a dry run too" {
    before_or_after recset -f A -s 7 --dry-run
    before_or_after recins -f B -v 1 --dry-run
}

@test "a file that is written again and again is looked at a few times" {
    local writer
    begin
    (while :; do touch db.rec; done) 3>&- &
    writer=$!
    ends 0 timeout 20 "$program" history db.rec
    kill "$writer"
    prints 'done 1 recset¶undone 2 recset¶' ''
}
