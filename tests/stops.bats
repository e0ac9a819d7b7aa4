# An edit, a batch, an undo, a redo, several of them, a first edit, forgetting, an adoption and a whole text, whose calls of the
# system fail or find no room, or at which the program ends: the next command finds the history before or the one after, of
# several moves the one after some of them, and both contents are whole. A file system without room, a file of several MB, and a
# closed pipe. A loop over the numbers of calls.c ends with a run that has no such call.

load helpers
load calls

setup_file() {
    need_program
    build_calls
}

# The contents and the history before a command and after it are files in two folders, written by hand.
before=before
after=after

digest() {
    local sum
    sum=$(sha256sum < "$1")
    echo "${sum%% *}"
}

# edit NUMBER FILE FILE OLD NEW: the event of an edit of the first field, which leads from one file to the other
edit() {
    echo "Number: $1¶Kind: edit¶Tool: recset¶Before: $(digest "$2")¶After: $(digest "$3")¶At: 0¶Old: $4\$¶+ \$¶New: $5\$¶+ \$¶¶"
}

# move NUMBER KIND OF FILE FILE: the event of an undo or of a redo
move() {
    echo "Number: $1¶Kind: $2¶Of: $3¶Before: $(digest "$4")¶After: $(digest "$5")¶¶"
}

# steps: those of the batch, which leads over a third text
steps() {
    echo "Step: recset¶At: 0¶Old: A: 8\$¶+ \$¶New: A: 7\$¶+ \$¶Step: recset¶At: 0¶Old: A: 7\$¶+ \$¶New: A: 9\$¶+ \$¶"
}

# state FOLDER FILE JOURNAL HISTORY: what stands in a folder
state() {
    mkdir -p "$1"
    cp "$2" "$1/db.rec"
    rm -f "$1/db.rec.journal"
    [ -z "$3" ] || put "$1/db.rec.journal" "$3"
    put "$1/history" "$4"
}

# The words of each command, its contents before and after, and the first text. The file `rest` has what follows the field.
# Several moves pass the states that `passed` names.
prepare() {
    local digit events adopted written first=1
    passed=()
    [ -e rest ] || put rest '¶B: 2¶¶C: 3¶'
    for digit in 1 8 9; do
        { bytes "A: $digit¶" && cat rest; } > "$digit"
    done
    words=(recset -n 0 -f A -S 9)
    case $1 in
        first)
            state before 1 '' ''
            state after 9 "$header$(edit 1 1 9 'A: 1' 'A: 9')" 'done 1 recset¶'
            ;;
        edit)
            events=$header$(edit 1 1 8 'A: 1' 'A: 8')
            state before 8 "$events" 'done 1 recset¶'
            state after 9 "$events$(edit 2 8 9 'A: 8' 'A: 9')" 'done 1 recset¶done 2 recset¶'
            ;;
        batch)
            words=(batch -b changes)
            put changes 'Tool: recset¶Number: 0¶Fields: A¶Set: 7¶¶Tool: recset¶Number: 0¶Fields: A¶Set: 9¶'
            events=$old_header$(edit 1 1 8 'A: 1' 'A: 8')
            state before 8 "$events" 'done 1 recset¶'
            state after 9 "${events}Number: 2¶Kind: batch¶Before: $(digest 8)¶After: $(digest 9)¶$(steps)¶" 'done 1 recset¶done 2 batch¶'
            ;;
        undo)
            words=(undo)
            events=$header$(edit 1 1 8 'A: 1' 'A: 8')$(edit 2 8 9 'A: 8' 'A: 9')
            state before 9 "$events" 'done 1 recset¶done 2 recset¶'
            state after 8 "$events$(move 3 undo 2 9 8)" 'done 1 recset¶undone 2 recset¶'
            ;;
        redo)
            words=(redo)
            events=$old_header$(edit 1 1 8 'A: 1' 'A: 8')$(edit 2 8 9 'A: 8' 'A: 9')$(move 3 undo 2 9 8)
            state before 8 "$events" 'done 1 recset¶undone 2 recset¶'
            state after 9 "$events$(move 4 redo 2 8 9)" 'done 1 recset¶done 2 recset¶'
            ;;
        undo_through)
            words=(undo --through 1)
            passed=(passed)
            events=$header$(edit 1 1 8 'A: 1' 'A: 8')$(edit 2 8 9 'A: 8' 'A: 9')
            state before 9 "$events" 'done 1 recset¶done 2 recset¶'
            events+=$(move 3 undo 2 9 8)
            state passed 8 "$events" 'done 1 recset¶undone 2 recset¶'
            state after 1 "$events$(move 4 undo 1 8 1)" 'undone 1 recset¶undone 2 recset¶'
            ;;
        redo_through)
            words=(redo --through 2)
            passed=(passed)
            events=$header$(edit 1 1 8 'A: 1' 'A: 8')$(edit 2 8 9 'A: 8' 'A: 9')$(move 3 undo 2 9 8)$(move 4 undo 1 8 1)
            state before 1 "$events" 'undone 1 recset¶undone 2 recset¶'
            events+=$(move 5 redo 1 1 8)
            state passed 8 "$events" 'done 1 recset¶undone 2 recset¶'
            state after 9 "$events$(move 6 redo 2 8 9)" 'done 1 recset¶done 2 recset¶'
            ;;
        forget)
            # what was forgotten can't be undone
            first=8
            words=(forget 1)
            events=$(edit 1 1 8 'A: 1' 'A: 8')$(edit 2 8 9 'A: 8' 'A: 9')
            state before 9 "$old_header$events" 'done 1 recset¶done 2 recset¶'
            state after 9 "$header$(edit 1 8 9 'A: 8' 'A: 9')" 'done 1 recset¶'
            ;;
        forget_redone)
            # the edit that was undone can still be made again
            words=(forget 0)
            first=8
            events=$(edit 1 1 8 'A: 1' 'A: 8')$(edit 2 8 9 'A: 8' 'A: 9')$(move 3 undo 2 9 8)
            state before 8 "$header$events" 'done 1 recset¶undone 2 recset¶'
            state after 8 "$header$(edit 1 8 9 'A: 8' 'A: 9')$(move 2 undo 1 9 8)" 'undone 1 recset¶'
            ;;
        adopt)
            words=(adopt old)
            cp 8 old
            events=$header$(edit 1 1 8 'A: 1' 'A: 8')
            state before 9 "$events" 'drifted¶'
            adopted=$(edit 2 8 9 'A: 8' 'A: 9')
            state after 9 "$events${adopted/recset/adopt}" 'done 1 recset¶done 2 adopt¶'
            ;;
        write)
            words=(write --over old new)
            cp 8 old
            cp 9 new
            events=$header$(edit 1 1 8 'A: 1' 'A: 8')
            state before 8 "$events" 'done 1 recset¶'
            written=$(edit 2 8 9 'A: 8' 'A: 9')
            state after 9 "$events${written/recset/write}" 'done 1 recset¶done 2 write¶'
            ;;
    esac
    mv "$first" first.rec
    rm -f 1 8 9
}

wrong() {
    fail "call $number ($call), status $status: $*" $'\n'"$(cat err)" $'\n'"$(ls -A)" $'\n'"$(head -c 300 db.rec | cat -A)" $'\n'"$(tail -c 600 db.rec.journal | cat -A)"
}

# The journal that is given: in two folders that beside the link.
given=()

# begin: the contents before the command. In two folders the file is a link into another one.
begin() {
    rm -rf db.rec db.rec.journal db.rec.new db.rec.journal.new hit d
    cp "$before"/db.rec* .
    if [ "${folders-1}" = 2 ]; then
        mkdir d
        mv db.rec d/db.rec
        ln -s d/db.rec db.rec
        given=(--journal db.rec.journal)
    fi
}

# are STATE: both contents and the history are these
are() {
    cmp -s db.rec "$1/db.rec" && cmp -s history "$1/history" || return 1
    if [ -e "$1/db.rec.journal" ]; then cmp -s db.rec.journal "$1/db.rec.journal"; else [ ! -s db.rec.journal ]; fi
}

# are_stopped STATE STATE: the journal alone has the event that leads from the one to the other, and the history is that of the one
are_stopped() {
    cmp -s db.rec "$1/db.rec" && cmp -s history "$1/history" && cmp -s db.rec.journal "$2/db.rec.journal"
}

# are_on_the_way: both contents and the history are those before the command or of a state that it passes, or the move from there
# is stopped
are_on_the_way() {
    local state from=$before
    for state in "${passed[@]}" "$after"; do
        if are "$from" || are_stopped "$from" "$state"; then return 0; fi
        from=$state
    done
    return 1
}

# is_told: a command that passed a state says so, where it wasn't ended
is_told() {
    local said
    case ${words[0]} in
        undo) said='undone: edit 2' ;;
        redo) said='redone: edit 1' ;;
    esac
    if [ "$status" = 0 ]; then
        [ ! -s err ] || wrong 'something is said'
    elif are "$before" || are_stopped "$before" passed; then
        ! grep -q '^undone\|^redone' err || wrong 'nothing was moved'
    else
        [ "$(head -n 1 err)" = "$said" ] || grep -q 'the edit is done, but' err || wrong 'the first move is not told'
    fi
}

# judge WHAT: what stands after a run is the state before or the one after; the next edit goes through, and leaves nothing else
judge() {
    local stands=before
    "$program" history "${given[@]}" db.rec > history 2> err.history || wrong "the history is refused: $(cat err.history)"
    if are "$after"; then
        stands=after
    elif ! are_on_the_way; then
        wrong "neither the state before nor the one after, the history is: $(cat history)"
    fi
    [ "$status" != 0 ] || [ "$stands" = after ] || wrong 'what was done is lost'
    case $1/$call in
        end/* | half/* | */unlink) ;;
        *) cleared 'left over' ;;
    esac
    [ "${#passed[@]}" = 0 ] || [ "$1" = end ] || [ "$1" = half ] || is_told
    if [ "$stands" = before ]; then
        "$program" "${words[@]}" "${given[@]}" db.rec > out 2> err || wrong 'the same again is refused'
        "$program" history "${given[@]}" db.rec > history
        are "$after" || wrong 'the same again leads elsewhere'
        cleared 'left by the next edit'
    else
        "$program" recset -n 0 -f A -s 5 "${given[@]}" db.rec > out 2> err || wrong 'the next edit is refused'
        cleared 'left by the next edit'
    fi
    undone
}

# cleared WHAT: no working name is left
cleared() {
    [ ! -e db.rec.new ] && [ ! -e db.rec.journal.new ] && [ ! -e d/db.rec.new ] || wrong "$1:" *.new d/*.new
}

# undone: each edit that is done is undone, and that gives the first text
undone() {
    while "$program" undo "${given[@]}" db.rec > out 2> err; do :; done
    [ "$(tail -n 1 err)" = 'recu: nothing to undo' ] || wrong 'an edit could not be undone'
    cmp -s db.rec first.rec || wrong 'not the first text'
    cleared 'left by an undo'
}

# each_call COMMAND WHAT [LEAST]: this becomes of each call of the command in turn, and there are at least LEAST
each_call() {
    prepare "$1"
    for ((number = 1; number <= 1000; number++)); do
        begin
        status=0
        at "$number" "$2" "${words[@]}" "${given[@]}" db.rec || status=$?
        if ! met; then
            [ "$number" -gt "${3-10}" ] || fail "there are $number calls"
            return 0
        fi
        judge "$2"
    done
    fail 'no end'
}

@test "each call of a first edit fails" {
    fast each_call first 5
}

@test "each call of an edit fails" {
    fast each_call edit 5
}

@test "each call of a batch fails" {
    fast each_call batch 5
}

@test "each call of an undo fails" {
    fast each_call undo 5
}

@test "each call of a redo fails" {
    fast each_call redo 5
}

@test "each call of several moves fails" {
    fast each_call undo_through 5 30
    fast each_call redo_through 5 30
}

@test "each call of forgetting fails" {
    fast each_call forget 5
    fast each_call forget_redone 5
}

@test "each call of an adoption fails" {
    fast each_call adopt 5
}

@test "each call of a whole text fails" {
    fast each_call write 5
}

@test "there is no room at each call of a first edit" {
    fast each_call first 28
}

@test "there is no room at each call of an edit" {
    fast each_call edit 28
}

@test "there is no room at each call of a batch" {
    fast each_call batch 28
}

@test "there is no room at each call of an undo" {
    fast each_call undo 28
}

@test "there is no room at each call of a redo" {
    fast each_call redo 28
}

@test "there is no room at each call of several moves" {
    fast each_call undo_through 28 30
    fast each_call redo_through 28 30
}

@test "there is no room at each call of forgetting" {
    fast each_call forget 28
    fast each_call forget_redone 28
}

@test "there is no room at each call of an adoption" {
    fast each_call adopt 28
}

@test "there is no room at each call of a whole text" {
    fast each_call write 28
}

@test "the program ends at each call of a first edit" {
    fast each_call first end
}

@test "the program ends at each call of an edit" {
    fast each_call edit end
}

@test "the program ends at each call of a batch" {
    fast each_call batch end
}

@test "the program ends at each call of an undo" {
    fast each_call undo end
}

@test "the program ends at each call of a redo" {
    fast each_call redo end
}

@test "the program ends at each call of several moves" {
    fast each_call undo_through end 30
    fast each_call redo_through end 30
}

@test "the program ends at each call of forgetting" {
    fast each_call forget end
    fast each_call forget_redone end
}

@test "the program ends at each call of an adoption" {
    fast each_call adopt end
}

@test "the program ends at each call of a whole text" {
    fast each_call write end
}

@test "each call in two folders fails" {
    local command folders=2
    for command in first edit undo undo_through forget adopt write; do
        fast each_call "$command" 5
    done
}

@test "the program ends at each call in two folders" {
    local command folders=2
    for command in first edit undo undo_through forget adopt write; do
        fast each_call "$command" end
    done
}

# each_half COMMAND [WRITES]: the program ends within each of its writes, which are two
each_half() {
    ONLY=write each_call "$1" half "${2-2}"
}

@test "the program ends within each write" {
    local command
    for command in first edit batch undo redo; do
        fast each_half "$command"
    done
    for command in undo_through redo_through; do
        fast each_half "$command" 4
    done
    for command in forget forget_redone adopt; do
        fast each_half "$command" 1
    done
}

# each_room: in a small file system the edit finds each number of free pages in turn. The texts have five pages.
each_room() {
    local free used=0 failed=0
    for ((free = 0; free <= 14; free++)); do
        begin
        rm -f filler
        head -c $(($(stat -f -c '%a * %S' .) - 4096 * free)) /dev/zero > filler
        status=0 number=$free call='free pages'
        "$program" "${words[@]}" db.rec > "$work/out" 2> "$work/err" || status=$?
        rm filler
        cp "$work/err" err
        if [ "$status" = 0 ]; then
            used=$((used + 1))
        else
            failed=$((failed + 1))
            grep -q ': No space left on device (os error 28)$' err || wrong 'it is refused for another reason'
            [ "$(tail -n 1 err)" = 'recu: a file could not be read or written' ] || wrong 'it is refused otherwise'
            cmp -s db.rec "$before/db.rec" || wrong 'it has changed the file'
        fi
        judge room
    done
    [ "$used" -gt 0 ] && [ "$failed" -gt 0 ] || fail "$used edits were done, and $failed refused"
}

in_small_room() {
    mkdir small
    mount -t tmpfs -o size=512k none small || exit 77
    cp first.rec small
    cd small || exit 1
    each_room
}

@test "a file system with little room" {
    local status=0 flags=-m
    unshare -m true 2> /dev/null || flags=-rm
    put rest "# $(head -c 18000 /dev/zero | tr '\0' x)¶¶B: 2¶"
    prepare edit
    export work=$PWD before=$PWD/before after=$PWD/after program
    {
        declare -f fail wrong begin are are_stopped are_on_the_way judge cleared undone each_room in_small_room
        declare -p words passed
        echo in_small_room
    } > script
    unshare "$flags" bash script > said 2>&1 3>&- || status=$?
    [ "$status" != 77 ] && ! grep -q '^unshare: ' said || skip "no file system can be mounted: $(tail -n 1 said)"
    [ "$status" = 0 ] || fail "$(< said)"
}

# records COUNT VALUE: as many records, whose values are numbers or all this one
records() {
    awk -v count="$1" -v value="$2" 'BEGIN { for (i = 0; i < count; i++) print "\nN: " (value == "" ? "record " i : value) }'
}

# long ONLY WHAT COMMAND: these calls of the command on a file of 4 MB
long() {
    ONLY=$1 each_call "$3" "$2" 2
}

@test "a file of several MB" {
    local command
    records 220000 '' > rest
    for command in edit undo; do
        fast long write half "$command"
        fast long write 28 "$command"
        fast long rename end "$command"
    done
}

# each_long: an edit of all records, whose event is as long as the file, ends within each of its writes
each_long() {
    words=(recset -f N -s x)
    for number in 1 2; do
        rm -f db.rec db.rec.journal
        cp first.rec db.rec
        status=0
        ONLY=write at "$number" half "${words[@]}" db.rec || status=$?
        met || fail "there is no write $number"
        [ "$("$program" history db.rec)" = '' ] || wrong 'it has a history'
        cmp -s db.rec first.rec || wrong 'not the first text'
        "$program" "${words[@]}" db.rec 2> err || wrong 'the same again is refused'
        cmp -s db.rec all.rec || wrong 'not the text after'
        cleared 'left by the next edit'
        [ "$("$program" history db.rec)" = 'done 1 recset' ] || wrong 'another history'
        undone
        "$program" redo db.rec 2> err || wrong 'it is not made again'
        cmp -s db.rec all.rec || wrong 'not the text after'
        undone
    done
}

@test "an edit of several MB" {
    records 100000 '' > first.rec
    records 100000 x > all.rec
    fast each_long
}

# closed WORD..: so ends recu with these words, whose output nobody can read
closed() {
    local status=0
    "$program" "${@:2}" >&5 2> err < /dev/null 3>&- || status=$?
    [ "$status" = "$1" ] || fail "${*:2}: status $status: $(< err)"
}

@test "a closed pipe" {
    local tool
    prepare edit
    begin
    put rules.rec '%rec: P¶%size: 2¶¶A: 1¶'
    cp rules.rec given.rec
    mkfifo pipe
    exec 4<> pipe 5> pipe 4<&-
    rm pipe
    for tool in 'recsel db.rec' 'recinf db.rec' 'history db.rec' 'recfix rules.rec'; do
        closed 141 $tool
        has err ''
        cmp db.rec before/db.rec
        cmp db.rec.journal before/db.rec.journal
    done
    cmp rules.rec given.rec
    # What edits prints nothing.
    closed 0 "${words[@]}" db.rec
    cmp db.rec after/db.rec
    cmp db.rec.journal after/db.rec.journal
    closed 0 undo db.rec
    cmp db.rec before/db.rec
    exec 5>&-
}
