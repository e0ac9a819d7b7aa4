# What recsel and recinf read and where they print: files, standard input, pipes, full and closed outputs.

load helpers

error='No such file or directory (os error 2)'

@test "a file that can't be read" {
    mkdir d
    local tool
    for tool in recsel recinf; do
        fails_to_store "missing: $error" "$tool" missing
        fails_to_store ": $error¶an empty path" "$tool" ''
        fails_to_store 'd: Is a directory (os error 21)' "$tool" d
        input=d fails_to_store 'standard input: Is a directory (os error 21)' "$tool"
    done
    only d
}

@test "standard input or output that is closed, and a full device" {
    put db.rec 'A: 1¶'
    local tool
    for tool in recsel recinf; do
        ends 1 bash -c '"$@" <&-' '' "$recu" "$tool"
        prints '' "standard input: Bad file descriptor (os error 9)¶$store_failed"
        ends 1 bash -c '"$@" > /dev/full' '' "$recu" "$tool" db.rec
        prints '' "standard output: No space left on device (os error 28)¶$store_failed"
        ends 1 bash -c '"$@" >&-' '' "$recu" "$tool" db.rec
        prints '' "standard output: Bad file descriptor (os error 9)¶$store_failed"
    done
    only db.rec
}

@test "a file is read where it is named, and else standard input" {
    put db.rec 'A: 1¶'
    put - 'A: 2¶'
    recu 0 recsel -
    prints 'A: 2¶' ''
    input=db.rec recu 0 recsel -
    prints 'A: 2¶' ''
    recu 0 recsel db.rec
    prints 'A: 1¶' ''
    input=- recu 0 recsel db.rec
    prints 'A: 1¶' ''
    recu 0 recinf db.rec
    prints '1¶' ''
    only - db.rec
}

@test "what prints reads no journal" {
    put db.rec 'A: 1¶'
    put db.rec.journal 'no journal¶'
    recu 0 recsel db.rec
    prints 'A: 1¶' ''
    recu 0 recinf db.rec
    prints '1¶' ''
    has db.rec.journal 'no journal¶'
    only db.rec db.rec.journal
}

@test "a pipe is read to its end" {
    put db.rec 'A: 1¶'
    ends 0 bash -c 'cat db.rec | "$1" recsel' '' "$recu"
    prints 'A: 1¶' ''
    ends 0 bash -c '(printf "A: "; sleep 0.2; printf "3\n") | "$1" recinf' '' "$recu"
    prints '1¶' ''
    only db.rec
}

# from_pipe OUT WORD..: what is written into a named pipe is read by these words, which print that
from_pipe() {
    timeout 20 bash -c 'cat db.rec > pipe' 3>&- &
    local writer=$!
    recu 0 "${@:2}" pipe
    wait "$writer"
    prints "$1" ''
}

@test "a named pipe is read" {
    put db.rec 'A: 1¶'
    mkfifo pipe
    from_pipe 'A: 1¶' recsel
    from_pipe '1¶' recinf
    from_pipe '' recfix
    from_pipe '' recfix --check
    only db.rec pipe
}

# many_records [COUNT]: db.rec, of 20000 records or of this number, and, with a newline more, more.rec
many_records() {
    awk -v count="${1-20000}" 'BEGIN { for (i = 0; i < count; i++) printf "Name: record %d\n\n", i }' > more.rec
    head -c -1 more.rec > db.rec
}

@test "much output" {
    many_records
    input=db.rec recu 0 recsel
    has "$BATS_TEST_TMPDIR/out" < db.rec
    only db.rec more.rec
}

@test "2 MB of standard input, from a file and from a pipe" {
    many_records 110000
    [ "$(stat -c %s db.rec)" -gt 2000000 ] || fail 'it is shorter'
    input=db.rec recu 0 recsel
    has "$BATS_TEST_TMPDIR/out" < db.rec
    ends 0 bash -c 'cat db.rec | "$1" recsel' '' "$recu"
    has "$BATS_TEST_TMPDIR/out" < db.rec
    only db.rec more.rec
}

@test "much output to a full device" {
    many_records
    ends 1 bash -c '"$@" > /dev/full' '' "$recu" recsel db.rec
    prints '' "standard output: No space left on device (os error 28)¶$store_failed"
    only db.rec more.rec
}

@test "output that nobody reads any more" {
    many_records
    ends 141 bash -c '"$@" | head -c 1; exit "${PIPESTATUS[0]}"' '' "$recu" recsel db.rec
    prints 'N' ''
    # (a reader that is gone before anything is printed)
    local words
    for words in 'recsel db.rec' 'recinf db.rec' '--help' 'recset --help' '--version'; do
        ends 141 bash -c '{ sleep 0.2; "$@"; } | true; exit "${PIPESTATUS[0]}"' '' "$recu" $words
        prints '' ''
    done
    only db.rec more.rec
}

@test "a report and diffs that nobody reads any more" {
    put db.rec '%rec: A¶%mandatory: N¶¶B: 1¶'
    local words
    ends 0 "$recu" recset --force -f B -s 2 db.rec
    for words in 'recfix db.rec' 'history db.rec' 'show 1 db.rec' 'recset --force --dry-run -f B -s 3 db.rec'; do
        ends 141 bash -c '{ sleep 0.2; "$@"; } | true; exit "${PIPESTATUS[0]}"' '' "$recu" $words
        prints '' ''
    done
    # what prints nothing has no reader to lose
    ends 0 bash -c '{ sleep 0.2; "$@"; } | true; exit "${PIPESTATUS[0]}"' '' "$recu" undo db.rec
    has db.rec '%rec: A¶%mandatory: N¶¶B: 1¶'
    only db.rec db.rec.journal
}

@test "a file that is too long to print" {
    truncate -s 1073741825 big
    local tool
    for tool in recsel recinf; do
        fails_to_store 'big: more than 1073741824 bytes' "$tool" big
    done
    only big
}

@test "standard input that is too long" {
    # It is read into memory, so there has to be some.
    [ "$(awk '/^MemAvailable:/ { print int($2 / 1048576) }' /proc/meminfo)" -ge 4 ] || skip 'less than 4 GB of memory are free'
    truncate -s 1073741825 big
    local tool
    for tool in recsel recinf; do
        input=big fails_to_store 'standard input: more than 1073741824 bytes' "$tool"
    done
    only big
}
