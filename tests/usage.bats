# Words of the command line: what they ask for, help and the version, bad usage, and what is said at the end.

load helpers

setup_file() {
    need_program
    command -v cc > /dev/null || fail 'no C compiler to build the narrow output with'
    cc -O1 -shared -fPIC -o "$BATS_FILE_TMPDIR/narrow.so" "$top/tests/narrow.c" -ldl
}

out() {
    cat "$BATS_TEST_TMPDIR/out"
}

# silent: the last run printed nothing on standard error
silent() {
    has "$BATS_TEST_TMPDIR/err" ''
}

@test "help" {
    local words
    for words in --help -h help 'help recins' 'help recdel' 'help recset' 'help batch' 'help undo' 'help redo' 'help revert' 'help adopt' 'help write' 'help history' 'help show' 'help forget' \
        'recins --help' 'recins -h' 'recdel --help' 'recdel -h' 'recset --help' 'recset -h' 'batch --help' 'batch -h' 'undo --help' 'undo -h' \
        'undo f -hx' 'redo --help' 'redo -h' 'revert --help' 'revert -h' 'revert 1 -h' 'adopt --help' 'adopt -h' 'adopt a b -h' 'write --help' 'write -h' 'write a b -h' 'history --help' 'history -h' 'show --help' 'show -h' 'show 1 f -h' \
        'forget --help' 'forget -h' 'forget 1 -h'; do
        recu 0 $words
        out | grep -q 'Usage: recu' || fail "recu $words prints no usage"
        out | grep -q 'FILE.new' || fail "recu $words does not name FILE.new"
        silent
    done
    for words in 'help recsel' 'help recinf' 'help recfix' 'recsel --help' 'recsel -h' 'recsel -c -h' 'recsel -ch' \
        'recinf --help' 'recinf -h' 'recfix --help' 'recfix -h'; do
        recu 0 $words
        out | grep -q 'Usage: recu rec[a-z]* \[OPTIONS\] \[FILE\]' || fail "recu $words prints no usage"
        silent
    done
    only
}

@test "the version" {
    local words
    for words in --version -V; do
        recu 0 $words
        prints "recu $version¶" ''
    done
    for words in 'recsel --version' 'recsel -V' 'recinf --version' 'recinf -V' 'recfix --version' 'recfix -V' \
        'recins --version' 'recins -V' 'recdel --version' 'recdel -V' 'recset --version' 'recset -V' 'batch --version' 'batch -V' 'undo --version' \
        'undo -V' 'redo --version' 'redo -V' 'revert --version' 'revert -V' 'adopt --version' 'adopt -V' 'write --version' 'write -V' 'history --version' 'history -V' 'show --version' 'show -V' 'forget --version' 'forget -V'; do
        recu 0 $words
        [ -n "$(out)" ] || fail "recu $words prints no version"
        silent
    done
    only
}

@test "help to a full device" {
    ends 1 bash -c '"$1" --help > /dev/full' '' "$recu"
    prints '' "standard output: No space left on device (os error 28)¶$store_failed"
    only
}

# example TOOL COMMAND: an example of the tool's help does something well on copies of the samples
example() {
    local journal=() input=$input
    rm -f -- library.rec* contacts.rec* edits.rec*
    cp -- "$top/sample/library.rec" "$top/sample/contacts.rec" "$top/sample/changes.rec" .
    [[ $2 != *' --journal '* ]] || journal=(--journal edits.rec)
    case $1 in
        undo | redo | revert | history | show | forget) does recset -n 0 -f Name -s Ada "${journal[@]}" contacts.rec ;;
    esac
    [ "$1" != redo ] || does undo "${journal[@]}" contacts.rec
    if [ "$1" = adopt ]; then
        # the text before the change is that of the last edit but one, and an older one is brought back
        cp contacts.rec first.rec
        does recset -n 0 -f Name -s Ada contacts.rec
        cp contacts.rec contacts.rec~
        does recset -n 0 -f Name -s Eve contacts.rec
        mv first.rec contacts.rec
    fi
    if [ "$1" = write ]; then
        cp contacts.rec old.rec
        sed 's/Ada/Eve/' contacts.rec > new.rec
    fi
    cp contacts.rec contacts.rec.before
    if [[ $2 == *' | '* ]]; then
        eval "${2% | *}" > filtered
        input=filtered
    fi
    eval "recu 0 ${2##*recu }"
    silent
    case $1 in
        recsel | recinf | history | show) [ -n "$(out)" ] || fail "$2 prints nothing" ;;
        recins | recdel | recset | batch | undo | redo | revert | write)
            ! cmp -s contacts.rec contacts.rec.before || ! cmp -s library.rec "$top/sample/library.rec" || fail "$2 changes nothing"
            ;;
        forget)
            prints '' ''
            cmp contacts.rec contacts.rec.before
            ;;
        adopt)
            prints '' ''
            cmp contacts.rec contacts.rec.before
            recu 0 history contacts.rec
            prints 'done 1 recset¶done 2 recset¶done 3 adopt¶' ''
            ;;
    esac
}

@test "the examples of help" {
    local tool line number
    for tool in recsel recinf recfix recins recdel recset batch undo redo revert adopt write history show forget; do
        recu 0 help "$tool"
        out > help
        tail -n 1 help | grep -q '^  recu ' || fail "the help of $tool ends with no example"
        number=0
        while IFS= read -r line; do
            [[ $line == *" recu $tool "* ]] || fail "the help of $tool has an example of another tool: $line"
            example "$tool" "$line"
            number=$((number + 1))
        done < <(sed -n '/^Examples:$/,$ { /^  \(sed .* | \)*recu /p }' help)
        [ "$number" -ge 2 ] || fail "the help of $tool has $number examples"
    done
    recu 0 --help
    out | tail -n 1 | grep -q '^  recu '
}

# listed TOOL: what the tool's help says, as rows of data/help.rows. A text stands beside what it is said of, or in the next line.
listed() {
    awk -v tool="$1" '
        /^Usage: / { print tool " | \047\047 | " top; is_after = 1 }
        !is_after { if (NF) top = top (top == "" ? "" : "¶") $0; next }
        /^[^ ]/ { is_list = /^(Commands|Arguments|Options):$/; next }
        !is_list || !NF { next }
        {
            is_next = /^          /
            sub(/^ +/, "")
            if (is_next) text = $0
            else if (match($0, /  +/)) { what = substr($0, 1, RSTART - 1); text = substr($0, RSTART + RLENGTH) }
            else { what = $0; next }
            if (what !~ /^help$|--(help|version)$/) print tool " | " what " | " text
        }
    '
}

@test "what help says of each tool and option" {
    local tool
    for tool in '' recsel recinf recfix recins recdel recset batch undo redo revert adopt write history show forget; do
        recu 0 $tool --help
        out | listed "${tool:-recu}"
    done > listed
    grep -v '^$\|^# ' "$top/tests/data/help.rows" | diff - listed || fail 'help says something else'
}

@test "help fits 80 columns" {
    local tool words
    for tool in '' recsel recinf recfix recins recdel recset batch undo redo revert adopt write history show forget; do
        for words in "$tool --help" "$tool -h" "help $tool"; do
            recu 0 $words
            ! out | LC_ALL=C.UTF-8 grep -E '.{81}' || fail "a line of recu $words has more than 80 characters"
        done
    done
}

# said_before_the_end: the line of standard error before the last one
said_before_the_end() {
    tail -n 2 "$BATS_TEST_TMPDIR/err" | head -n 1
}

# hints WORDS HINT: the line before the last one
hints() {
    put f "$three"
    eval "recu 1 $1"
    is_bad_usage
    [ "$(said_before_the_end)" = "hint: a value that begins with a hyphen is given as $2" ] ||
        fail 'the line before the last one is:' "$(said_before_the_end)"
    ! grep -q "tip: to pass" "$BATS_TEST_TMPDIR/err" || fail 'clap advises another word too'
    has f "$three"
    only f
}

@test "how a value is given that begins with a hyphen" {
    local words
    each hints hints.rows
    for words in 'recset -f A -s -d f' 'undo -5 f' 'revert -5 f' 'forget -5 f' 'recdel --comment -5 f' 'recfix --check -5' \
        'recset -n 0 -f A -s --force f' 'recset -f A -s --force=1 f' 'recset -f A -s --journal j f' 'recset -f A -s --journal=-j f' \
        'recset -f A -s' 'recset -f A -s -n=0 f' \
        'recset -fs -5 f' 'recset -fA -ss -5 f' 'recset -xs -5 f' 'recset -s= -5 f' 'recset -f A -d -x f' 'recset -f A -d --foo f' \
        'recset -f A -s 1 f -5' 'recset -- -s -5' 'recsel --journal -j f' 'recsel -b -5 f' 'batch --batch -5 f' 'batch -b -b f' 'nothing -s -5 f'; do
        recu 1 $words
        is_bad_usage
        ! grep -q hint "$BATS_TEST_TMPDIR/err" || fail "recu $words has a hint"
    done
}

@test "a value that begins with a hyphen is given as the hint says" {
    put f "$three"
    recu 1 recset -n 0 -f A --set --foo f
    prints '' "error: unexpected argument '--foo' found¶¶Usage: recu recset [OPTIONS] -f FIELDS <ACTION> FILE¶¶For more information, try '--help'.¶hint: a value that begins with a hyphen is given as --set=--foo¶recu: bad usage¶"
    does recset -n 0 -f A --set=--foo f
    has f 'A: --foo¶¶B: 2¶¶C: 3¶'
    recu 1 batch -b -x f
    prints '' "error: unexpected argument '-x' found¶¶Usage: recu batch [OPTIONS] -b PATH FILE¶¶For more information, try '--help'.¶hint: a value that begins with a hyphen is given as -b=-x¶recu: bad usage¶"
    put ./-x 'Tool: recdel¶Number: 0¶'
    does batch -b=-x f
    has f 'B: 2¶¶C: 3¶'
}

@test "a value that is missing before an option" {
    put f "$three"
    recu 1 recset -n 0 -f A -s --force f
    prints '' "error: a value is required for '--set <VALUE>' but none was supplied¶¶For more information, try '--help'.¶recu: bad usage¶"
    recu 1 recset -n 0 -f A -s --forc f
    prints '' "error: unexpected argument '--forc' found¶¶  tip: a similar argument exists: '--force'¶¶Usage: recu recset [OPTIONS] -f FIELDS <ACTION> FILE¶¶For more information, try '--help'.¶hint: a value that begins with a hyphen is given as --set=--forc¶recu: bad usage¶"
    has f "$three"
    only f
}

# meant WORDS HINT: words that are refused, with the hint in the line before the last one
meant() {
    put f "$three"
    eval "recu 1 $1"
    is_bad_usage
    has <(said_before_the_end) "hint: $2¶"
    [ "$(grep -c '^hint: ' "$BATS_TEST_TMPDIR/err")" = 1 ] || fail "recu $1 has several hints"
    ! grep -q 'tip: to pass' "$BATS_TEST_TMPDIR/err" || fail 'clap advises another word too'
    has f "$three"
    only f
}

@test "what was most likely meant" {
    each meant meant.rows
}

@test "no hint where it isn't clear what was meant" {
    local words
    put f "$three"
    for words in 'revert 0 f' 'revert x f' 'forget x f' 'show 0 f' 'show x f' 'undo --through x f' 'batch -b f' 'recins -f A f' \
        'recsel -k f' 'recsel --sorted f' 'undo -S f' 'recset -n 0 -f A -S'; do
        recu 1 $words
        is_bad_usage
        ! grep -q '^hint' "$BATS_TEST_TMPDIR/err" || fail "recu $words has a hint"
    done
    recu 1 revert $'f\e[1m' 3
    is_bad_usage
    ! grep -q '^hint' "$BATS_TEST_TMPDIR/err" || fail 'a hint names a word with a control character'
}

@test "control characters of words are told by the octal digits of their bytes" {
    local more="For more information, try '--help'.¶recu: bad usage¶"
    local word=$'q\e[1m\nb\x7f\xc2\x9b' told='q\033[1m\012b\177\302\233'
    put f "$three"
    recu 1 "$word"
    prints '' "error: unrecognized subcommand '$told'¶¶Usage: recu <COMMAND>¶¶$more"
    recu 1 help "$word"
    prints '' "error: unrecognized subcommand '$told'¶¶Usage: recu <COMMAND>¶¶$more"
    recu 1 recsel f "$word"
    prints '' "error: unexpected argument '$told' found¶¶Usage: recu recsel [OPTIONS] [FILE]¶¶$more"
    recu 1 recsel --"$word"=1 f
    prints '' "error: unexpected argument '--$told' found¶¶  tip: to pass '--$told' as a value, use '-- --$told'¶¶Usage: recu recsel [OPTIONS] [FILE]¶¶$more"
    recu 1 recsel --count="$word" f
    prints '' "error: unexpected value '$told' for '--count' found; no more were expected¶¶Usage: recu recsel --count [FILE]¶¶$more"
    # a number, and a value that isn't repeated
    recu 1 forget "$word" f
    is_bad_usage
    ! LC_ALL=C grep -q '[[:cntrl:]]' "$BATS_TEST_TMPDIR/err" || fail 'a control character is told'
    recu 1 recset -n 0 -f A -s "$word" -s "$word" f
    is_bad_usage
    ! LC_ALL=C grep -q '[[:cntrl:]]' "$BATS_TEST_TMPDIR/err" || fail 'a control character is told'
    has f "$three"
    only f
}

@test "the nearest command" {
    recu 1 recse f
    prints '' "error: unrecognized subcommand 'recse'¶¶  tip: the nearest command is 'recset'¶¶Usage: recu <COMMAND>¶¶For more information, try '--help'.¶recu: bad usage¶"
    recu 1 hist f
    prints '' "error: unrecognized subcommand 'hist'¶¶  tip: a similar subcommand exists: 'history'¶¶Usage: recu <COMMAND>¶¶For more information, try '--help'.¶recu: bad usage¶"
}

@test "a command takes one FILE" {
    local words
    put a.rec "$three"
    put b.rec "$three"
    recu 1 recsel a.rec b.rec
    prints '' "error: unexpected argument 'b.rec' found¶¶Usage: recu recsel [OPTIONS] [FILE]¶¶For more information, try '--help'.¶hint: a command takes one FILE¶recu: bad usage¶"
    for words in 'recsel -c a.rec b.rec a.rec' 'recsel -- a.rec b.rec' 'recinf a.rec b.rec' 'recfix a.rec b.rec' 'recfix --auto a.rec b.rec' \
        'recins -f A -v 1 a.rec b.rec' 'recdel -n 0 a.rec b.rec' 'recset -f A -d a.rec b.rec' 'recset -f A Ada Lovelace a.rec' \
        'batch -b c.rec a.rec b.rec' 'undo a.rec b.rec' 'redo a.rec b.rec' 'history a.rec b.rec' 'history --patch a.rec b.rec' 'show 1 a.rec b.rec' \
        'undo --dry-run a.rec b.rec' 'revert 1 a.rec b.rec' 'forget 1 a.rec b.rec' 'recset -f A -s Ada Lovelace.rec a.rec' \
        'recset -f A a.rec b.rec -s -5'; do
        recu 1 $words
        is_bad_usage
        [ "$(said_before_the_end)" = 'hint: a command takes one FILE' ] || fail "recu $words says:" "$(said_before_the_end)"
        [ "$(grep -c '^hint: ' "$BATS_TEST_TMPDIR/err")" = 1 ] || fail "recu $words has several hints"
    done
    for words in 'a.rec b.rec' 'help recsel a.rec' 'recsel --nothing a.rec b.rec' 'recset -f A a.rec' 'revert 1' 'forget 1'; do
        recu 1 $words
        is_bad_usage
        ! grep -q hint "$BATS_TEST_TMPDIR/err" || fail "recu $words has a hint"
    done
    has a.rec "$three"
    has b.rec "$three"
    only a.rec b.rec
}

# is_bad_usage: the last run was refused as bad usage, and explained that
is_bad_usage() {
    has "$BATS_TEST_TMPDIR/out" ''
    [ "$(tail -n 1 "$BATS_TEST_TMPDIR/err")" = 'recu: bad usage' ] || fail 'the last line is:' "$(tail -n 1 "$BATS_TEST_TMPDIR/err")"
    [ "$(wc -l < "$BATS_TEST_TMPDIR/err")" -gt 1 ] || fail 'no line explains it'
}

# bad_usage WORDS [EXPLANATION]
bad_usage() {
    put f "$three"
    put j.new ''
    eval "recu 1 $(bytes "$1")"
    is_bad_usage
    [ $# = 1 ] || prints '' "$2¶recu: bad usage¶"
    has f "$three"
    has j.new ''
    only f j.new
}

@test "bad usage" {
    each bad_usage usage.rows
}

sets='A: 1¶A: 2¶B: x¶¶A: 5¶¶B: 0¶¶A: 3¶V: x¶¶%rec: P¶%key: A¶¶A: 6¶B: 7¶X: 1¶¶A: 6¶B: X¶¶A: 8¶B: X¶X: 2¶¶%rec: Q¶'

# prints_of_sets OUT LINE..: of f each of the lines prints this
prints_of_sets() {
    local line
    put f "$sets"
    for line in "${@:2}"; do
        eval "recu 0 $line"
        prints "$1" ''
    done
    has f "$sets"
    only f
}

# value TOOL LETTER NAME VALUE OUT
value() {
    prints_of_sets "$5" "$1 -$2 $4 f" "$1 -$2$4 f" "$1 -$2=$4 f" "$1 --$3 $4 f" "$1 --$3=$4 f" "$1 f -$2 $4" "$1 -$2 $4 -- f"
}

@test "every spelling of a value" {
    each value values.rows
}

# flag TOOL LETTER NAME OUT
flag() {
    local words
    prints_of_sets "$4" "$1 -$2 f" "$1 --$3 f" "$1 f -$2" "$1 --$3 -- f"
    for words in "-$2$2 f" "-$2 -$2 f" "-$2 --$3 f" "--$3 f --$3" "-$2=1 f" "--$3=x f" "--$3= f"; do
        recu 1 "$1" $words
        is_bad_usage
    done
}

@test "every spelling of a flag" {
    each flag flags.rows
}

# is_missing NAME WORDS: where no file is, the words ask for that one
is_missing() {
    eval "recu 1 $2"
    grep -qxF -- "$1: No such file or directory (os error 2)" "$BATS_TEST_TMPDIR/err" ||
        fail "it is not that $1 is missing:" "$(cat "$BATS_TEST_TMPDIR/err")"
    is_refused 'a file could not be read or written'
    only
}

# answers OUT [REFUSAL]: the last run printed this, or was refused so
answers() {
    if [ $# = 1 ]; then prints "$1" ''; else is_refused "$2"; fi
}

# asks WORDS FILE [STATUS OUT [REFUSAL]]
asks() {
    if [ "$2" = 'standard input' ]; then
        eval "input=. recu 1 $1"
        prints '' "standard input: Is a directory (os error 21)¶$store_failed"
        put given "$sets"
        eval "input=given recu $3 $1"
        answers "$4" "${@:5}"
        has given "$sets"
        only given
        return
    fi
    is_missing "$(bytes "$2")" "$1"
    [ $# -gt 2 ] || return 0
    put "$2" "$sets"
    eval "recu $3 $1"
    answers "$4" "${@:5}"
    has "$2" "$sets"
    only "$2"
}

@test "what words ask for that print" {
    each asks words.rows
}

# edits WORDS FILE [JOURNAL AFTER]
edits() {
    is_missing "$(bytes "$2")" "$1"
    [ $# -gt 2 ] || return 0
    put "$2" "$three"
    mkdir -- "$3"
    eval "fails_to_store '$3: not a regular file' $1"
    rmdir -- "$3"
    case $1 in
        undo* | redo* | revert* | forget*)
            rm -- "$2"
            put f "$three"
            does recdel -n 1 f
            [[ $1 != redo* ]] || does undo f
            mv -T -- f "./$2" 2> /dev/null || [ -s "$2" ]
            mv -T -- f.journal "./$3" 2> /dev/null || [ -s "$3" ]
            ;;
    esac
    case $4 in
        'recu: '*)
            eval "refuses '${4#recu: }' $1"
            has "$2" "$three"
            only "$2"
            ;;
        *)
            eval "does $1"
            has "$2" "$4"
            only "$2" "$3"
            ;;
    esac
}

@test "what words ask for that edit" {
    each edits edits.rows
}

@test "the end of a run whose reason can't be printed" {
    put f "$three"
    ends 1 bash -c '"$1" recdel -n x f 2> /dev/full' '' "$recu"
    prints '' ''
    ends 1 bash -c '"$1" recdel -n x f 2>&-' '' "$recu"
    prints '' ''
    has f "$three"
    # Where standard error is closed, the file that is opened first gets its number: nothing is said into that.
    ends 1 bash -c '"$1" recdel f 2>&-' '' "$recu"
    mkdir f.journal
    ends 1 bash -c '"$1" recdel -n 0 f 2>&-' '' "$recu"
    rmdir f.journal
    has f "$three"
    only f
}

@test "the reason of a refusal is cut where standard error fails" {
    put f "$three"
    put whole 'f.journal: no edit is left to undo¶recu: nothing to undo¶'
    local room size
    size=$(stat -c %s whole)
    for ((room = 0; room <= size; room++)); do
        ends 1 env ROOM="$room" LD_PRELOAD="$BATS_FILE_TMPDIR/narrow.so" "$recu" undo f
        has "$BATS_TEST_TMPDIR/out" ''
        has "$BATS_TEST_TMPDIR/err" < <(head -c "$room" whole)
    done
    rm whole
    only f
}

# is_cut STATUS TEXT WORD..: the words end with this status and print this text; where standard output takes fewer bytes they
# are refused, and a prefix went out. The text `-` is what they print.
is_cut() {
    local wanted=$1 text=$BATS_TEST_TMPDIR/text out=$BATS_TEST_TMPDIR/cut room status size
    if [ "$2" = - ]; then "$program" "${@:3}" > "$text"; else put "$text" "$2"; fi
    size=$(stat -c %s "$text")
    [ "$size" -gt 0 ] || fail "${*:3} prints nothing"
    for ((room = 0; room <= size; room++)); do
        status=0
        NARROW=1 ROOM=$room LD_PRELOAD=$BATS_FILE_TMPDIR/narrow.so "$program" "${@:3}" > "$out" 2> "$out.err" || status=$?
        head -c "$room" "$text" | cmp -s - "$out" || fail "${*:3}: with room for $room bytes other ones went out"
        if [ "$room" -lt "$size" ]; then
            [ "$status/$(tail -n 1 "$out.err")" = '1/recu: a file could not be read or written' ] ||
                fail "${*:3}: with room for $room bytes status $status: $(cat "$out.err")"
        else
            [ "$status" = "$wanted" ] || fail "${*:3}: status $status: $(cat "$out.err")"
        fi
    done
}

@test "what is printed is cut where standard output fails" {
    put f '%rec: P¶%mandatory: X¶¶N: a¶M: x\¶y¶¶N: b¶'
    fast is_cut 0 'N: a¶M: x\¶y¶¶N: b¶' recsel f
    fast is_cut 0 'M: x\¶y¶N: a¶' recsel -p M,N -n 0 f
    fast is_cut 0 'a¶¶b¶' recsel -P N f
    fast is_cut 0 'a xy¶b¶' recsel -R N,M -C f
    fast is_cut 0 '2¶' recsel -c f
    fast is_cut 0 '2 P¶' recinf f
    fast is_cut 0 'P¶' recinf -n f
    fast is_cut 0 '%rec: P¶%mandatory: X¶' recinf -d f
    fast is_cut 1 '4: mandatory X¶8: mandatory X¶' recfix f
    does recset -n 0 -f M -s z --force f
    does recset -n 1 -f N -s c --force f
    does undo f
    fast is_cut 0 'done 1 recset¶undone 2 recset¶' history f
    local one='--- f¶+++ f¶@@ -2,7 +2,6 @@ N: a¶ %mandatory: X¶ ¶ N: a¶-M: x\¶-y¶+M: z¶ ¶ N: b¶' two='--- f¶+++ f¶@@ -4,4 +4,4 @@¶ N: a¶ M: z¶ ¶-N: b¶+N: c¶'
    fast is_cut 0 "$one" show f
    fast is_cut 0 "$two" show 2 f
    fast is_cut 0 "done 1 recset¶${one}undone 2 recset¶$two" history --patch f
    fast is_cut 0 "$two" redo --dry-run f
    fast is_cut 0 '--- f¶+++ f¶@@ -2,6 +2,7 @@ N: a¶ %mandatory: X¶ ¶ N: a¶-M: z¶+M: x\¶+y¶ ¶ N: b¶' revert --dry-run --force 1 f
    fast is_cut 0 "$two" recset --dry-run -n 1 -f N -s c --force f
    has f '%rec: P¶%mandatory: X¶¶N: a¶M: z¶¶N: b¶'
    only f f.journal
}

@test "help is cut where standard output fails" {
    fast is_cut 0 - --help
    fast is_cut 0 - history --help
    fast is_cut 0 - --version
    only
}
