# The session of demo.sh, those in the documents, and those of changes by hand: fenced blocks whose first line is a command after `$ `. What is printed is what stands there.

load helpers
load sessions

@test "the sessions of README.md" {
    sessions README.md
}

@test "the sessions of docs/format.md" {
    sessions docs/format.md
}

@test "the sessions of docs/editing.md" {
    sessions docs/editing.md
}

@test "the sessions of docs/journal.md" {
    sessions docs/journal.md
}

@test "the sessions of docs/from-gnu.md" {
    sessions docs/from-gnu.md
}

@test "the sessions of changes by hand" {
    sessions tests/data/by_hand.md
}

@test "no other document has a session" {
    local document
    for document in "$top"/docs/*.md; do
        case ${document##*/} in
            format.md | editing.md | journal.md | from-gnu.md) ;;
            *) steps "docs/${document##*/}" ;;
        esac
    done
    [ -z "$(ls "$BATS_TEST_TMPDIR/steps")" ] || fail 'these are not run:' "$(cat "$BATS_TEST_TMPDIR"/steps/*.command)"
}

# shown FIRST WORD..: the command shows the session of demo.sh, of which one command is refused, after these lines
shown() {
    ends 0 "${@:2}"
    has "$BATS_TEST_TMPDIR/err" ''
    [ "$(sed '/^--- contacts.rec$/,$d' "$BATS_TEST_TMPDIR/out")" = "$1" ] || fail 'the session begins so:' "$(head "$BATS_TEST_TMPDIR/out")"
    [ "$(grep -c '^(exit status' "$BATS_TEST_TMPDIR/out")" = 1 ] || fail 'other commands are refused:' "$(cat "$BATS_TEST_TMPDIR/out")"
}

# copy: a copy of what demo.sh reads and builds, in the folder demo, without a program
copy() {
    unset RECU
    mkdir demo
    (cd "$top" && tar -c --exclude=out demo.sh programs.sh sample crates.txt HANDLES crates) | tar -x -C demo
}

is_unproved='Shown unproved: by a program of the same sources that checks itself as it runs. bash build.sh builds the proved one.'

@test "demo.sh shows the proved program where that is built, or the unproved one, and says which; with RECU that one" {
    RECU=$program shown '' bash "$top/demo.sh"
    copy
    PATH=/usr/bin:/bin ends 1 bash demo/demo.sh
    prints '' 'demo.sh: recu is not built here, and the toolchain that builds it (the command rt) is missing¶'
    mkdir demo/out demo/crates/recu/out
    cp "$program" demo/out/recu-unproved
    shown "$is_unproved" bash demo/demo.sh
    cp "$program" demo/crates/recu/out/recu
    shown 'Shown proved: by the program that bash build.sh built, all of it proved.' bash demo/demo.sh
    touch -d '1 hour' demo/crates/rec_text/src/lib.rt
    touch -d '2 hours' demo/out/recu-unproved
    shown "$is_unproved" bash demo/demo.sh
}

@test "demo.sh builds recu without proofs, and shows what the proved program shows; install.sh refuses that one" {
    command -v rt > /dev/null || skip 'there is no rt'
    copy
    shown "First recu is built without proofs, which takes some minutes.
$is_unproved" bash demo/demo.sh
    sed 1,2d "$BATS_TEST_TMPDIR/out" > shown
    RECU=$program ends 0 bash "$top/demo.sh"
    cmp shown "$BATS_TEST_TMPDIR/out"
    [ "$(ls -A demo/out)" = recu-unproved ]
    cp demo/out/recu-unproved recu
    RECU=$PWD/recu ends 1 bash "$top/install.sh" prefix
    prints '' "install.sh: $PWD/recu has no mark of the toolchain that it was proved: --unproved installs it all the same¶"
    shown "$is_unproved" bash demo/demo.sh
}

# The table of docs/expressions.md says of the record above it which expressions select it.
@test "the table of expressions in docs/expressions.md" {
    local line expression wanted rows=0
    put db.rec 'Name: A¶Email: a@x.org¶Email: a@y.net¶Age: 5¶'
    while IFS= read -r line; do
        expression=${line#'| `'}
        wanted=${expression#*'` | '}
        expression=${expression%%'` | '*}
        case $wanted in
            yes*) wanted=1 ;;
            *) wanted=0 ;;
        esac
        recu 0 recsel -c -e "${expression//\\|/|}" db.rec
        prints "$wanted¶" ''
        rows=$((rows + 1))
    done < <(grep -E '^\| `.*` \| (yes|no) \|' "$top/docs/expressions.md")
    [ "$rows" -gt 0 ] || fail 'the table is not there'
}
