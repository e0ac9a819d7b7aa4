# What the cases share: files, texts and rows in the notation of tests/README.md, and runs of the program.
# The program is crates/recu/out/recu, or what RECU names.

bats_require_minimum_version 1.5.0
top=$(realpath "$BATS_TEST_DIRNAME/..")
program=$(realpath -m "${RECU:-$top/crates/recu/out/recu}")
version=$(sed -n 's/^pub const VERSION: &str = "\(.*\)";$/\1/p' "$top/crates/rec_command/src/args/help.rt")

input=/dev/null
as_user=()
recu=$program

store_failed='recu: a file could not be read or written¶'
header='%rec: RecEdit¶%doc: recu journal, format 2¶%key: Number¶¶'
old_header='%rec: RecEdit¶%doc: recu journal, format 1¶%key: Number¶¶'
three='A: 1¶¶B: 2¶¶C: 3¶'

setup_file() {
    need_program
}

need_program() {
    [ -x "$program" ] || fail "there is no $program: build it by 'rt run -- --version' in crates/recu"
}

# Each case runs in an empty folder of its own; what recu prints lies beside it.
setup() {
    mkdir "$BATS_TEST_TMPDIR/work"
    cd "$BATS_TEST_TMPDIR/work" || fail 'no folder to work in'
}

fail() {
    printf '%s\n' "$*" >&2
    exit 1
}

# bytes TEXT: the bytes that the text stands for
bytes() {
    local text=$1
    [ "$text" != "''" ] || return 0
    text=${text//\\/\\\\}
    text=${text//\\\\x/\\x}
    printf '%b' "${text//¶/\\n}"
}

# put FILE [TEXT]: the file holds the text, or what is given on standard input
put() {
    if [ $# = 2 ]; then bytes "$2" > "$1"; else cat > "$1"; fi
}

# has FILE [TEXT]: the file holds the text, or what is given on standard input, and nothing else
has() {
    put "$BATS_TEST_TMPDIR/wanted" "${@:2}"
    cmp -s "$BATS_TEST_TMPDIR/wanted" - < "$1" || fail "$1 holds:" $'\n'"$(cat -A < "$1")"
}

# only NAME..: nothing stands in the folder but these
only() {
    local there
    there=$(ls -A | LC_ALL=C sort)
    [ "$there" = "$(printf '%s\n' "$@" | LC_ALL=C sort)" ] || fail 'in the folder stands:' $there
}

# ends STATUS WORD..: the command, with the file $input on standard input, ends with this status; what it prints is kept
ends() {
    local status=0
    "${@:2}" > "$BATS_TEST_TMPDIR/out" 2> "$BATS_TEST_TMPDIR/err" < "$input" 3>&- || status=$?
    [ "$status" = "$1" ] || fail "${*:2} ended with status $status:" "$(cat "$BATS_TEST_TMPDIR/err")"
}

# recu STATUS WORD..: so does recu with these words
recu() {
    ends "$1" "${as_user[@]}" "$recu" "${@:2}"
}

# prints OUT ERR: the last run printed these texts on standard output and on standard error
prints() {
    has "$BATS_TEST_TMPDIR/out" "$1"
    has "$BATS_TEST_TMPDIR/err" "$2"
}

# does WORD..: recu does it, and prints nothing
does() {
    recu 0 "$@"
    prints '' ''
}

# forces SAID WORD..: recu does it, prints nothing, and says which rules it breaks
forces() {
    recu 0 "${@:2}"
    prints '' "$1"
}

# is_refused REFUSAL: the last run printed nothing but why it was refused: what it is about, and then the line of the refusal
is_refused() {
    has "$BATS_TEST_TMPDIR/out" ''
    [ "$(tail -n 1 "$BATS_TEST_TMPDIR/err")" = "recu: $1" ] || fail "it is not refused by $1, but:" "$(cat "$BATS_TEST_TMPDIR/err")"
    [ "$(grep -c '^recu: ' "$BATS_TEST_TMPDIR/err")" = 1 ] || fail 'more than one refusal:' "$(cat "$BATS_TEST_TMPDIR/err")"
}

# refuses REFUSAL WORD..: recu refuses it so
refuses() {
    recu 1 "${@:2}"
    is_refused "$1"
}

# explains EXPLANATION REFUSAL WORD..: recu refuses it so, and this stands before that
explains() {
    refuses "${@:2}"
    prints '' "$1¶recu: $2¶"
}

# fails_to_store WHY WORD..: recu can't read or write a file, and says why
fails_to_store() {
    recu 1 "${@:2}"
    prints '' "$1¶$store_failed"
}

# can_trace: strace is there and may trace
can_trace() {
    command -v strace > /dev/null || fail 'there is no strace (tests/needs.sh)'
    strace -o /dev/null true 2> "$BATS_TEST_TMPDIR/why" || skip "strace can trace nothing here: $(cat "$BATS_TEST_TMPDIR/why")"
}

# fast WORD..: the command, without the look that bats takes at each command of a case, which costs more than most of them
fast() {
    (trap - DEBUG ERR && "$@")
}

# each FUNCTION FILE: calls the function with the cells of each row of tests/data/FILE, or of a file with a whole path, in
# an empty folder
each() {
    local file=$2 lines row rest cells rows=0 wrong=0
    [[ $file = /* ]] || file=$top/tests/data/$file
    mapfile -t lines < "$file"
    for row in "${lines[@]}"; do
        case $row in '' | '#' | '# '*) continue ;; esac
        cells=()
        rest=$row
        while [[ $rest == *' | '* ]]; do
            cells+=("${rest%%' | '*}")
            rest=${rest#*' | '}
        done
        cells+=("$rest")
        rows=$((rows + 1))
        mkdir "$BATS_TEST_TMPDIR/$rows"
        if ! (cd "$BATS_TEST_TMPDIR/$rows" && fast "$1" "${cells[@]}"); then
            printf 'row %s\n' "$row" >&2
            wrong=$((wrong + 1))
        fi
        rm -r "${BATS_TEST_TMPDIR:?}/$rows"
    done
    [ "$rows" -gt 0 ] || fail "$file has no row"
    [ "$wrong" = 0 ] || fail "$wrong of $rows rows of $file differ"
}

# gives STATUS OUT WORD..: with the file db.rec, and with the same on standard input, recu ends so, prints this and nothing
# on standard error, and leaves the file
gives() {
    cp db.rec "$BATS_TEST_TMPDIR/given"
    recu "$1" "${@:3}" db.rec
    prints "$2" ''
    input=db.rec recu "$1" "${@:3}"
    prints "$2" ''
    has db.rec < "$BATS_TEST_TMPDIR/given"
    only db.rec
}

# shows OUT WORD..: of db.rec the words print that
shows() {
    gives 0 "$1" "${@:2}"
}

# rejects REFUSAL WORD..: with the file db.rec, and with the same on standard input, the words are refused so, and the file stays
rejects() {
    cp db.rec "$BATS_TEST_TMPDIR/given"
    refuses "$@" db.rec
    input=db.rec refuses "$@"
    has db.rec < "$BATS_TEST_TMPDIR/given"
    only db.rec
}

# reports REPORT: recfix reports this of db.rec, which is a failure where it is not empty
reports() {
    local status=1
    case $1 in '' | "''") status=0 ;; esac
    gives "$status" "$1" recfix
    gives "$status" "$1" recfix --check
}

# Root may write everything, so these runs are another user's, who gets a copy of the program and may enter the folders
# above; where that can't be they are left out.
as_nobody() {
    [ "$(id -u)" = 0 ] || return 0
    as_user=(setpriv --reuid=65534 --regid=65534 --clear-groups)
    "${as_user[@]}" true || skip 'root runs this, and no other user may'
    local folder
    for folder in "$BATS_TEST_TMPDIR" "$BATS_TEST_TMPDIR/.." "$BATS_RUN_TMPDIR"; do
        chmod a+x "$folder"
    done
    recu=$BATS_TEST_TMPDIR/recu
    cp "$program" "$recu"
    chmod 755 "$recu"
}
