# A file and its journal in one folder and in two: in which order names are made, removed and renamed and what is on the disk is
# synced, as strace shows it, and what a command that was ended and a power cut leave. By that order a power cut keeps what the
# next command has to find. What rec_crashes notes of its requests on a disk in memory is what the program does to files, and it is
# replayed on files up to each moment (crashes.py). REC_CRASHES names another program than crates/rec_crashes/out/rec_crashes.

load helpers
load calls

stories=$(realpath -m "${REC_CRASHES:-$top/crates/rec_crashes/out/rec_crashes}")

setup_file() {
    need_program
    build_calls
}

need_stories() {
    [ -x "$stories" ] || fail "there is no $stories: bash test.sh proofs makes it"
}

# How sed writes names in another way, where one file is written in two.
spelled=

# traced WORD..: recu does it; in the file `calls` stands a line for each name that it makes, writes, syncs, removes, renames or
# looks at, and a folder is synced by its own name
traced() {
    local line calls
    strace -y -s 0 -qq -o "$BATS_TEST_TMPDIR/trace" -e 'trace=/^(openat|fchown|fchmod|write|fsync|rename.*|unlink.*|statx)$' \
        "$program" "$@" > out 2> err 3>&- || fail "$*:" "$(cat err)"
    calls=$(sed -n -E \
        -e 's|^openat\([^"]*"([^"]*)".*O_CREAT.*|make \1|p;t' \
        -e 's|^(write\|fsync)\([0-9]+<([^>]*)>.*|\1 \2|p;t' \
        -e 's|^rename[^"]*"([^"]*)"[^"]*"([^"]*)".*|rename \1 \2|p;t' \
        -e 's|^unlink[^"]*"([^"]*)".*|remove \1|p;t' \
        -e 's|^statx\([^"]*"([^"]+)".*|look \1|p;t' "$BATS_TEST_TMPDIR/trace")
    while read -r line; do
        line=${line/fsync /sync }
        line=${line/ "$(pwd -P)/"/ }
        echo "${line/ "$(pwd -P)"/ .}"
    done <<< "$calls" | sed "$spelled" > calls
    rm out err
}

# is_done_in_order CALLS: the last run did this to names and to what is on the disk, and nothing else; since the last sync before
# each rename it looked at the file and at what it renamed, and directly before the rename at what it replaced
is_done_in_order() {
    grep -v '^look ' calls > "$BATS_TEST_TMPDIR/done"
    has "$BATS_TEST_TMPDIR/done" "$1"
    awk -v file="${names[0]}" '
        $1 == "sync" { split("", seen) }
        $1 == "look" { seen[$2] = 1 }
        $1 == "rename" {
            if (!seen[file]) { print "no look at " file " before " $0; wrong = 1 }
            if (!seen[$2]) { print "no look at " $2 " before " $0; wrong = 1 }
            if (last != "look " $3) { print "last before " $0 ": " last; wrong = 1 }
        }
        { last = $0 }
        END { exit wrong }
    ' calls || fail 'a look is missing before a rename'
    rm calls
}

# The order for the file F and the journal J in one folder D.
edit_in_one='sync F¶sync D¶sync J¶sync D¶make J.new¶make F.new¶write J.new¶sync J.new¶write F.new¶sync F.new¶rename J.new J¶sync D¶rename F.new F¶sync D¶'
clear_in_one='remove F.new¶remove J.new¶'
forget_in_one='sync F¶sync D¶sync J¶sync D¶make J.new¶write J.new¶sync J.new¶rename J.new J¶sync D¶'

# The order for the file F in the folder D, and the journal J in the folder E.
edit_in_two='sync F¶sync D¶sync J¶sync E¶make J.new¶sync E¶make F.new¶write J.new¶sync J.new¶write F.new¶sync F.new¶rename J.new J¶sync E¶rename F.new F¶sync D¶'
clear_in_two='remove F.new¶sync D¶remove J.new¶'
forget_in_two='sync F¶sync D¶sync J¶sync E¶make J.new¶sync E¶write J.new¶sync J.new¶rename J.new J¶sync E¶'

# in_order CALLS: so did the last run it, by the names of the file, its folder, the journal and its folder in `names`
in_order() {
    local line calls='' word
    while read -r line; do
        for word in $line; do
            case $word in
                F | F.new) word=${names[0]}${word#F} ;;
                D) word=${names[1]} ;;
                J | J.new) word=${names[2]}${word#J} ;;
                E) word=${names[3]} ;;
            esac
            calls+="$word "
        done
        calls="${calls% }¶"
    done <<< "${1//¶/$'\n'}"
    is_done_in_order "${calls%¶}"
}

# stands_between: the last edit seems to have been stopped between the renames
stands_between() {
    mv "${names[0]}" "${names[0]}.new"
    put "${names[0]}" "$1"
}

# goes_in_order ONE_OR_TWO WORD..: an edit, an undo, one that removes what was left, and forgetting, of the file and the journal
# that these words name
goes_in_order() {
    local edit=edit_in_$1 clear=clear_in_$1 forget=forget_in_$1
    local first=${!edit} last=${!clear}
    [ -e "${names[2]}" ] || first=${first/sync J¶/}
    put "${names[0]}" "$three"
    traced recset -n 0 -f A -s 8 "${@:2}"
    in_order "$first"
    has "${names[0]}" 'A: 8¶¶B: 2¶¶C: 3¶'
    traced undo "${@:2}"
    in_order "${!edit}"
    has "${names[0]}" "$three"
    traced redo "${@:2}"
    in_order "${!edit}"
    put changes 'Tool: recset¶Number: 0¶Fields: A¶Set: 7¶¶Tool: recset¶Number: 0¶Fields: A¶Set: 9¶'
    traced batch -b changes "${@:2}"
    rm changes
    in_order "${!edit}"
    has "${names[0]}" 'A: 9¶¶B: 2¶¶C: 3¶'
    # beside the journal's new file
    put "${names[0]}.new" 'half a fi'
    put "${names[2]}.new" "$header"
    traced undo "${@:2}"
    in_order "${!clear}${!edit}"
    has "${names[0]}" 'A: 8¶¶B: 2¶¶C: 3¶'
    # alone, where the renames were
    traced recset -n 0 -f A -s 7 "${@:2}"
    in_order "${!edit}"
    stands_between 'A: 8¶¶B: 2¶¶C: 3¶'
    traced recset -n 0 -f A -s 6 "${@:2}"
    in_order "remove F.new¶${!edit}"
    has "${names[0]}" 'A: 6¶¶B: 2¶¶C: 3¶'
    # the journal's alone: the file's may have been removed before, and not be gone for good
    put "${names[2]}.new" "$header"
    traced undo "${@:2}"
    in_order "${last#remove F.new¶}${!edit}"
    has "${names[0]}" 'A: 8¶¶B: 2¶¶C: 3¶'
    traced recset -n 0 -f A -s 5 "${@:2}"
    in_order "${!edit}"
    traced forget 1 "${@:2}"
    in_order "${!forget}"
    put "${names[0]}.new" 'half a fi'
    put "${names[2]}.new" ''
    traced forget 0 "${@:2}"
    in_order "${!clear}${!forget}"
    has "${names[0]}" 'A: 5¶¶B: 2¶¶C: 3¶'
    has "${names[2]}" "$header"
}

@test "the order in one folder" {
    can_trace
    names=(db.rec . db.rec.journal .)
    fast goes_in_order one db.rec
    only db.rec db.rec.journal
    mkdir d
    names=(d/db.rec d d/j d)
    fast goes_in_order one --journal d/j d/db.rec
}

@test "the order in one folder that is written in two ways" {
    can_trace
    mkdir d
    ln -s . here
    names=(db.rec . j .)
    spelled='s|./here/j|j|g'
    fast goes_in_order one --journal ./here/j db.rec
    rm j
    ln -s ../db.rec d/link
    spelled='s|d/../db.rec|db.rec|g; s|look d/link|look db.rec|'
    fast goes_in_order one --journal j d/link
    only d db.rec here j
}

@test "the order in two folders" {
    can_trace
    mkdir d e
    names=(d/db.rec d e/j e)
    fast goes_in_order two --journal e/j d/db.rec
    rm e/j
    # a link into another folder, beside which the journal is to stand
    ln -s d/db.rec link
    names=(d/db.rec d link.journal .)
    spelled='s|look link$|look d/db.rec|'
    fast goes_in_order two --journal link.journal link
    # that of the file, by the link
    rm link.journal
    names=(d/db.rec d d/db.rec.journal d)
    fast goes_in_order one link
    mv d/db.rec.journal link.journal
    # the journal is such a link
    mv link.journal e/j
    ln -s ../e/j d/db.rec.journal
    names=(d/db.rec d e/j e)
    spelled='s|d/../e/j|e/j|g; s|look d/db.rec.journal$|look e/j|'
    fast goes_in_order two d/db.rec
    only d e link
}

# gets_rights NAME MODE: the last run made the new file of this name for its maker alone, and gave it the owner, the group and
# this mode before its first byte
gets_rights() {
    sed -n -E \
        -e "s|^openat\([^\"]*\"$1\", [^,]*O_CREAT[^,]*, ([0-7]+)\).*|make \1|p;t" \
        -e "s|^(fchown\|fchmod)\([0-9]+<[^>]*/$1>, (.*)\) += .*|\1 \2|p;t" \
        -e "s|^(write)\([0-9]+<[^>]*/$1>.*|\1|p" "$BATS_TEST_TMPDIR/trace" > "$BATS_TEST_TMPDIR/given"
    has "$BATS_TEST_TMPDIR/given" "make 0600¶fchown $(id -u), -1¶fchown -1, $(id -g)¶fchmod $2¶write¶"
}

@test "a new file has its rights before its first byte" {
    can_trace
    put db.rec "$three"
    chmod 640 db.rec
    traced recset -n 0 -f A -s 8 db.rec
    gets_rights db.rec.new 0640
    gets_rights db.rec.journal.new 0640
    chmod 604 db.rec.journal
    traced undo db.rec
    gets_rights db.rec.new 0640
    gets_rights db.rec.journal.new 0600
    does recset -n 0 -f A -s 9 db.rec
    traced forget 0 db.rec
    gets_rights db.rec.journal.new 0600
    rm calls
    only db.rec db.rec.journal
}

# The journal's new file stays until the file's is surely gone: alone that one could not be told to be recu's own.
@test "what is removed after a refusal, in one folder and in two" {
    can_trace
    mkdir d e
    put d/db.rec "$three"
    failed_in_order d/j $'remove d/db.rec.new\nremove d/j.new'
    failed_in_order e/j $'remove d/db.rec.new\nsync d\nremove e/j.new'
    has d/db.rec "$three"
}

# failed_in_order JOURNAL CALLS: where the first write fails, this is done after it
failed_in_order() {
    local status=0 calls
    ONLY=write AT=1 DO=28 strace -y -s 0 -qq -o "$BATS_TEST_TMPDIR/trace" -E "LD_PRELOAD=$BATS_FILE_TMPDIR/calls.so" -e 'trace=/^(fsync|rename.*|unlink.*)$' \
        "$program" recset -n 0 -f A -s 8 --journal "$1" d/db.rec > out 2> err 3>&- || status=$?
    [ "$status" = 1 ] || fail "status $status"
    has err "$1: No space left on device (os error 28)¶$store_failed"
    calls=$(sed -n -E -e 's|^fsync\([0-9]+<([^>]*)>.*|sync \1|p;t' -e 's|^unlink[^"]*"([^"]*)".*|remove \1|p;t' -e 's|^rename.*|&|p' "$BATS_TEST_TMPDIR/trace" \
        | sed "s| $(pwd -P)/| |")
    [ "$(tail -n "$(wc -l <<< "$2")" <<< "$calls")" = "$2" ] || fail "$calls"
    ! grep -q '^rename' <<< "$calls" || fail "$calls"
    [ -z "$(find . -name '*.new')" ] || fail 'left over'
}

# The fifth sync is that between the two removals: there is no journal yet.
@test "a refusal after which the file's folder cannot be synced" {
    local status=0
    can_trace
    mkdir d e
    put d/db.rec "$three"
    ONLY=write AT=1 DO=28 strace -qq -o /dev/null -E "LD_PRELOAD=$BATS_FILE_TMPDIR/calls.so" -e inject=fsync:error=EIO:when=5 \
        "$program" recset -n 0 -f A -s 8 --journal e/j d/db.rec > out 2> err 3>&- || status=$?
    [ "$status" = 1 ] || fail "status $status"
    has err "e/j: No space left on device (os error 28)¶$store_failed"
    [ ! -e d/db.rec.new ] || fail 'it is left'
    has e/j.new ''
    does recset -n 0 -f A -s 8 --journal e/j d/db.rec
    [ -z "$(find . -name '*.new')" ] || fail 'left over'
}

# The last sync of the file's folder is the ninth.
@test "a command that was ended before its last sync" {
    local number=9
    can_trace
    mkdir d e
    put d/db.rec "$three"
    names=(d/db.rec d e/j e)
    does recset -n 0 -f A -s 8 --journal e/j d/db.rec
    ONLY=fsync at "$number" end recset -n 0 -f A -s 9 --journal e/j d/db.rec || true
    met || fail "there is no sync $number"
    has d/db.rec 'A: 9¶¶B: 2¶¶C: 3¶'
    traced undo --journal e/j d/db.rec
    [ "$(grep -n '^sync d$' calls | head -n 1 | cut -d : -f 1)" -lt "$(grep -n '^rename e/j.new e/j$' calls | cut -d : -f 1)" ] || fail "$(cat calls)"
    in_order "$edit_in_two"
    has d/db.rec 'A: 8¶¶B: 2¶¶C: 3¶'
    ONLY=fsync at "$number" end redo --journal e/j d/db.rec || true
    met || fail "there is no sync $number"
    traced forget 1 --journal e/j d/db.rec
    in_order "$forget_in_two"
    does undo --journal e/j d/db.rec
    has d/db.rec 'A: 8¶¶B: 2¶¶C: 3¶'
}

# The states that a power cut leaves of the file's new file, in two folders.
@test "a new file that was left alone, or beside the journal's" {
    local left
    mkdir d e
    for left in '' 'half a fi' "$three"; do
        rm -f e/j
        put d/db.rec "$three"
        put d/db.rec.new "$left"
        fails_to_store 'd/db.rec.new: not left by recu: recu writes under this name, so move it away' recdel -n 0 --journal e/j d/db.rec
        put e/j.new ''
        does recdel -n 0 --journal e/j d/db.rec
        has d/db.rec 'B: 2¶¶C: 3¶'
        mv d/db.rec d/db.rec.new
        put d/db.rec "$three"
        does recdel -n 1 --journal e/j d/db.rec
        has d/db.rec 'A: 1¶¶C: 3¶'
        does undo --journal e/j d/db.rec
        has d/db.rec "$three"
        refuses 'nothing to undo' undo --journal e/j d/db.rec
        [ -z "$(find . -name '*.new')" ] || fail 'left over'
    done
}

# sync_fails NUMBER ERROR WORD..: with these words the sync of this number fails so
sync_fails() {
    status=0
    ONLY=fsync at "$1" "$2" "${@:3}" --journal e/j d/db.rec || status=$?
    met || fail "there is no sync $1"
}

# Of the nine syncs of an edit in two folders those of the file and the journal are the first and the third, those of their
# new files the sixth and the seventh, and the others are of folders.
@test "a folder of two that cannot be synced" {
    local number error
    mkdir d e
    put d/db.rec "$three"
    does recset -n 0 -f A -s 8 --journal e/j d/db.rec
    for number in 2 4 5 8 9; do
        for error in 22 95; do
            sync_fails "$number" "$error" recset -n 0 -f A -s 9
            [ "$status" = 0 ] || fail "sync $number, error $error: status $status"
            does undo --journal e/j d/db.rec
        done
    done
    cp d/db.rec file
    cp e/j journal
    for number in 1 2 3 4 5; do
        sync_fails "$number" 5 recset -n 0 -f A -s 9
        [ "$status" = 1 ] || fail "sync $number: status $status"
        has d/db.rec < file
        has e/j < journal
        case $number in
            1 | 2) has err "d/db.rec: Input/output error (os error 5)¶$store_failed" ;;
            *) has err "e/j: Input/output error (os error 5)¶$store_failed" ;;
        esac
    done
    # what was left is removed before the next try
    put d/db.rec.new 'half a fi'
    put e/j.new "$header"
    sync_fails 1 5 recset -n 0 -f A -s 9
    [ "$status" = 1 ] || fail "status $status"
    has err "d/db.rec: Input/output error (os error 5)¶$store_failed"
    [ ! -e d/db.rec.new ] || fail 'it is left'
    has e/j.new "$header"
    has d/db.rec < file
    has e/j < journal
    does recset -n 0 -f A -s 9 --journal e/j d/db.rec
    [ -z "$(find . -name '*.new')" ] || fail 'left over'
}

@test "forgetting in two folders that cannot be synced" {
    mkdir d e
    put d/db.rec "$three"
    does recset -n 0 -f A -s 8 --journal e/j d/db.rec
    does recset -n 0 -f A -s 9 --journal e/j d/db.rec
    cp e/j journal
    local number
    for number in 1 2 3 4 5; do
        sync_fails "$number" 5 forget 1
        [ "$status" = 1 ] || fail "sync $number: status $status"
        has e/j < journal
        [ -z "$(find . -name '*.new')" ] || fail 'left over'
    done
    sync_fails 7 5 forget 1
    [ "$status" = 1 ] || fail "status $status"
    has err "e/j: the edits are forgotten, but its folder could not be synced, so a power cut may bring them back: Input/output error (os error 5)¶$store_failed"
    recu 0 history --journal e/j d/db.rec
    prints 'done 1 recset¶' ''
}

# noted NUMBER FOLDERS WORD..: recu with these words changes the names and files that rec_crashes notes for the request of this
# number, in the same order, and leaves the bytes that it notes
noted() {
    local name
    traced "${@:3}"
    "$stories" log "$1" "$2" > noted
    grep -v '^look ' calls > "$BATS_TEST_TMPDIR/done"
    sed -E 's/^(write [^ ]+) .*/\1/; s/^sync_folder /sync /' noted | has "$BATS_TEST_TMPDIR/done"
    for name in $(sed -n 's/^rename .* //p' noted); do
        has "$name" "$(sed -n "s|^write $name.new ||p" noted)"
    done
    rm calls noted
}

# saved_and_noted NUMBER FOLDERS SAVED WORD..: another program saves the text in the file, and recu with these words adopts it
saved_and_noted() {
    put "${@: -1}" "$3"
    noted "$1" "$2" adopt "${@:4}"
}

# The requests of rec_crashes, in words: all that it has.
all_noted() {
    local set='Tool: recset¶Number: 0¶Fields: A¶Set: 5¶' words=("${@:2}")
    put "${words[-1]}" 'A: 1¶¶A: 2¶'
    put changes "$set"
    noted 0 "$1" batch -b changes "${words[@]}"
    put changes 'Tool: recdel¶Number: 1¶'
    noted 1 "$1" batch -b changes "${words[@]}"
    noted 2 "$1" undo "${words[@]}"
    noted 3 "$1" redo "${words[@]}"
    noted 4 "$1" forget 1 "${words[@]}"
    put old 'A: 5¶¶A: 2¶'
    saved_and_noted 5 "$1" 'A: 6¶' old "${words[@]}"
    put changes 'A: 7¶¶A: 6¶'
    put old 'A: 6¶'
    noted 6 "$1" write --over old changes "${words[@]}"
    saved_and_noted 7 "$1" 'A: 6¶¶A: 7¶' old "${words[@]}"
    put old 'A: 6¶¶A: 7¶'
    saved_and_noted 8 "$1" 'A: 6¶¶A: 7¶¶A: 8¶' old "${words[@]}"
    put old 'A: 6¶¶A: 7¶¶A: 8¶'
    saved_and_noted 9 "$1" 'A: 6¶¶A: 7¶¶A: 8' old "${words[@]}"
    put old 'A: 6¶¶A: 7¶¶A: 8'
    saved_and_noted 10 "$1" 'A: 6\x0D¶\x0D¶A: 7\x0D¶\x0D¶A: 8\x0D¶' old "${words[@]}"
    put old 'A: 6\x0D¶\x0D¶A: 7\x0D¶\x0D¶A: 8\x0D¶'
    saved_and_noted 11 "$1" 'A: 6¶¶A 7¶' old "${words[@]}"
    put changes 'A: 6¶¶A: 9¶'
    noted 12 "$1" write changes "${words[@]}"
    saved_and_noted 13 "$1" '' changes "${words[@]}"
    saved_and_noted 14 "$1" 'A: 7¶¶A: 6¶' "${words[@]}"
    put changes 'Tool: recins¶Field: B¶Value: 3¶'
    noted 15 "$1" batch -b changes "${words[@]}"
    [ "$("$stories" log 16 "$1")" = 'usage: rec_crashes [log NUMBER FOLDERS]' ] || fail 'there is a request more'
}

@test "what is done to files is what is noted on a disk in memory" {
    can_trace
    need_stories
    fast all_noted 1 db.rec
    mkdir a b
    fast all_noted 2 --journal b/db.rec.journal a/db.rec
    [ -z "$(find . -name '*.new')" ] || fail 'left over'
}

@test "what a crash may leave at each moment, on files" {
    need_stories
    python3 "$top/tests/crashes.py" "$program" "$stories"
}
