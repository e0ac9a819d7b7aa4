# What is said of a refusal before its line.

load helpers

# explained FILE WORDS EXPLANATION REFUSAL
explained() {
    local said=''
    [ "$3" = "''" ] || said=$3¶
    put f "$1"
    eval "refuses '$4' $2"
    prints '' "${said}recu: $4¶"
    has f "$1"
    only f
}

@test "what a refusal is about" {
    each explained explanations.rows
}

@test "why no edit is left to redo" {
    local refusal='nothing to redo'
    put f 'A: 1¶'
    does recset -f A -s 2 f
    explains 'f: no edit was undone' "$refusal" redo f
    does undo f
    does redo f
    explains 'f.journal: no edit is left to redo' "$refusal" redo f
    does undo f
    does recset -f A -s $'3\nKind: undo\nNumber: 9' f
    explains 'f: edits that were undone were dropped by edit 5¶f.journal: it holds them until recu forget N --dropped' "$refusal" redo f
    explains './f: edits that were undone were dropped by edit 5¶f.journal: it holds them until recu forget N --dropped' "$refusal" redo --through 1 --journal f.journal ./f
    # an edit that drops none tells nothing, and a batch and a revert drop some too
    does recset -f A -s 4 f
    explains 'f: edits that were undone were dropped by edit 5¶f.journal: it holds them until recu forget N --dropped' "$refusal" redo --dry-run f
    does undo f
    put b 'Tool: recset¶Fields: A¶Set: 5'
    does batch -b b f
    explains 'f: edits that were undone were dropped by edit 8¶f.journal: it holds them until recu forget N --dropped' "$refusal" redo f
    does recset -f A -s 6 f
    does undo f
    does revert 8 f
    explains 'f: edits that were undone were dropped by edit 11¶f.journal: it holds them until recu forget N --dropped' "$refusal" redo f
    # an undo that was interrupted doesn't count
    does undo f
    does recset -f A -s 7 f
    does undo f
    put f 'A: 7¶'
    explains 'f: edits that were undone were dropped by edit 13¶f.journal: it holds them until recu forget N --dropped' "$refusal" redo f
}

@test "a file changed outside" {
    put f 'A: 1¶'
    does recset -f A -s 2 f
    put f 'A: 3¶'
    local said='f: recu adopt OLD f makes the change an edit, OLD being the text before it or any of the history¶f: else the next edit begins a new history'
    explains "$said" 'the file was changed outside' undo f
    explains "$said" 'the file was changed outside' redo f
    explains "$said¶f.journal: deleting this file removes all texts that it holds" 'the file was changed outside' forget 0 f
    explains "$said¶f.journal: deleting this file removes all texts that it holds" 'the file was changed outside' forget 1 f
}

@test "a journal in which a text was edited" {
    local said='f.journal: a text in it was changed; move it away to go on without the history'
    put f 'A: 1¶'
    does recset -f A -s 2 f
    does recset -f A -s 3 f
    sed -i 's/^Old: A: 1\$$/Old: A: 8$/' f.journal
    explains "$said" 'the file was changed outside' show 1 f
    explains "$said" 'the file was changed outside' history --patch f
    does undo f
    explains "$said" 'the file was changed outside' undo f
    explains "$said" 'the file was changed outside' undo --dry-run f
    explains "$said" 'the file was changed outside' revert 1 f
    has f 'A: 2¶'
    does redo f
    # the file was changed too, and this is told first
    put f 'A: 7¶'
    explains 'f: recu adopt OLD f makes the change an edit, OLD being the text before it or any of the history¶f: else the next edit begins a new history' 'the file was changed outside' undo f
    # without the journal the history begins anew
    mv f.journal away
    does recset -f A -s 2 f
    does undo f
    has f 'A: 7¶'
}

@test "a journal that is none" {
    put f 'A: 1¶'
    local away='move it away, and the next edit begins a new journal'
    put f.journal 'A: 1¶'
    explains "f.journal: $away" 'journal line 1: not a journal of recu' undo f
    explains "f.journal: $away" 'journal line 1: not a journal of recu' recset -f A -s 2 --journal f.journal f
    has f.journal 'A: 1¶'
    put g 'B: 1¶'
    local named='g: this is no journal that recu reads: --journal is to name the journal of f, or a path where nothing stands yet'
    explains "$named" 'journal line 1: not a journal of recu' undo --journal g f
    explains "$named" 'journal line 1: not a journal of recu' history --journal g f
    explains "$named" 'journal line 1: not a journal of recu' recdel -n 0 --journal g f
    has g 'B: 1¶'
    does recset -f A -s 2 --journal j f
    does recset -f A -s 3 --journal j f
    sed -i 's/^Number: 1$/Number: x/' j
    explains "j: $away" 'journal line 5: not a journal of recu' undo --journal j f
}

@test "the report of a refused edit says what forces it" {
    put f '%rec: P¶%key: Id¶¶Id: 1¶'
    recu 1 recins -t P -f Id -v 1 f
    prints '' '6: key Id¶line 6: Id: 1 (also in line 4)¶f: --force makes the edit all the same¶recu: violations: 1¶'
    forces 'f:6: key Id¶' recins -t P -f Id -v 1 --force f
    recu 1 recfix f
    prints '6: key Id¶' ''
}

# batch_explained TEXT EXPLANATION REFUSAL
batch_explained() {
    put f 'A: 1¶'
    put changes "$1"
    explains "$2" "$3" batch -b changes f
    has f 'A: 1¶'
}

@test "the edit of a batch that is refused" {
    local set='Tool: recset¶Fields: A¶Set: 2¶'
    batch_explained "$set¶Tool: recset¶Expression: A ==¶Fields: A¶Set: 3¶" 'changes:5: Tool: recset¶A ==¶  ^¶two values are compared by one =; there are no dates' 'expression: error at byte 2'
    batch_explained "$set¶Tool: recdel¶Number: 0,x¶" 'changes:5: Tool: recdel¶0,x¶  ^¶an index list is such as 0,4-7' 'index list: error at byte 2'
    batch_explained "$set¶Tool: recset¶Fields: A[¶Delete: yes¶" 'changes:5: Tool: recset¶A[¶  ^¶a field list is such as Name,Email[0],Phone[1-2]' 'field list: error at byte 2'
    batch_explained "$set¶Tool: recset¶Fields: A¶Rename: 1¶" 'changes:5: Tool: recset¶1: a name begins with a letter, and goes on with letters, digits and _' 'bad name'
    batch_explained "$set¶# a comment¶Tool: recsel¶" 'changes:6: Tool: recsel¶changes:6: the value of Tool is recins, recdel, recset or recfix' 'batch line 6: not an edit'
    batch_explained "$set¶# all¶Tool: recdel¶" 'changes:6: Tool: recdel¶f: --force would delete 1 record' 'no selection given, use --force'
    batch_explained "$set¶Tool: recdel¶Comment: yes¶" 'changes:5: Tool: recdel¶f: --force would comment out 1 record' 'no selection given, use --force'
    batch_explained "$set¶Tool: recset¶Fields: A[0]¶Add: 2¶" 'changes:5: Tool: recset¶A[0]¶ ^¶fields are added by their names alone, such as Name,Email' 'field list: error at byte 1'
    batch_explained "$set¶Tool: recins¶Type: P¶Field: B¶Value: 1¶¶Tool: recset¶Type: Q¶Fields: B¶Delete: yes¶" 'changes:10: Tool: recset¶f: record types: P' 'no such record type'
    batch_explained "$set¶Tool: recins¶Record: B: 1¶+¶+ C: 1¶¶Tool: recdel¶Number: 0¶" 'changes:5: Tool: recins¶the text has to be one record, as it stands in a file' 'not exactly one record'
    batch_explained "$set¶Tool: recset¶Fields: A¶SetAdd: 3\\\\¶¶¶Tool: recfix¶" 'changes:5: Tool: recset' 'a line of the value ends in a backslash'
}

# broken_descriptor FILE LINE EXPLANATION
broken_descriptor() {
    put f "$1"
    explains "$3" "line $2: bad descriptor field" recsel f
    has f "$1"
    only f
}

@test "the rule that a field of a descriptor breaks" {
    each broken_descriptor broken_descriptors.rows
}

# descriptor_told FILE REFUSAL: more than the line of the field is said
descriptor_told() {
    put f "$1"
    refuses "$2" recsel f
    grep -qv '^f:[0-9]*: \|^recu: ' "$BATS_TEST_TMPDIR/err" || fail 'no rule is said'
}

# descriptors_refused: the rows of crates/rec_rows that say which field of a descriptor is a bad one
descriptors_refused() {
    sed -n 's/^Row: \(.*\) | 4 \(line [0-9]*: bad descriptor field\)\( | .*\)\{0,1\}$/\1 | \2/p' \
        "$top"/crates/rec_rows/data/{descriptors,types}.rec
}

@test "no field of a descriptor is refused without a rule" {
    each descriptor_told <(descriptors_refused)
}

# broken_batch BATCH LINE EXPLANATION
broken_batch() {
    batch_explained "$1" "$3" "batch line $2: not an edit"
    only changes f
}

@test "why a record of a batch is no edit" {
    each broken_batch broken_batches.rows
}

# batch_told FILE BATCH AFTER: more than the line of the batch is said where it is refused as no edit
batch_told() {
    case $3 in 'recu: batch line '*) ;; *) return 0 ;; esac
    put f "$1"
    put changes "$2"
    local refusal=${3#recu: }
    refuses "${refusal%¶}" batch -b changes f
    [ "$(wc -l < "$BATS_TEST_TMPDIR/err")" -ge 3 ] || fail 'no reason is said'
}

@test "no record of a batch is refused without a reason" {
    each batch_told batch_files.rows
}

@test "the records of a report" {
    local file='%rec: P¶%key: Id¶%type: N int¶%singular: M¶%constraint: N > 0¶¶N: x¶Id: 1¶M: a¶¶M: a¶Id: 2¶N: 1¶¶%rec: Q¶%type: A unknown¶%mandatory: B¶¶A: 1¶'
    put f "$file"
    recu 1 recset -t Q -n 0 -f C -a 2 f
    local report='7: type N¶7: constraint 1¶11: singular M¶16: typedef unknown¶19: mandatory B¶'
    local records='line 7: Id: 1, N: x (int)¶line 7: Id: 1 (N > 0)¶line 11: Id: 2, M: a (also in line 7)¶line 16: %rec: Q, %type: A unknown (nothing defines unknown)¶'
    local stood='all of these stood before the edit: mend them first, by a batch, by hand, or by edits with --force¶'
    prints '' "${report}${records}line 19: A: 1 (no B)¶${stood}f: --force makes the edit all the same¶recu: violations: 5¶"
    # a record stays in its place, whichever field is edited
    recu 1 recset -t Q -n 0 -f A -s 2 f
    prints '' "${report}${records}line 19: A: 2 (no B)¶${stood}f: --force makes the edit all the same¶recu: violations: 5¶"
    # on standard error of a terminal alone
    TERM=dumb script -qec "'$recu' recfix f 2> said" shown > /dev/null || true
    has said "${records}line 19: A: 1 (no B)¶"
    recu 1 recfix f
    prints "$report" ''
}

@test "of a long report some records" {
    { bytes '%rec: P¶%type: N int¶'; for number in {1..50}; do bytes "¶N: x$number¶"; done; } > f
    recu 1 recset -n 0 -f N -s y f
    [ "$(grep -c '^line ' "$BATS_TEST_TMPDIR/err")" = 20 ]
    grep -qx 'line 4: N: y (int)' "$BATS_TEST_TMPDIR/err"
    grep -qx 'line 42: N: x20 (int)' "$BATS_TEST_TMPDIR/err"
    [ "$(tail -n 1 "$BATS_TEST_TMPDIR/err")" = 'recu: violations: 50' ]
    grep -q '^all of these stood before the edit' "$BATS_TEST_TMPDIR/err"
    recu 1 recins -t P -f N -v y f
    grep -qx 'line 42: N: x20 (int), as before the edit' "$BATS_TEST_TMPDIR/err"
    grep -qx '50 of these stood before the edit' "$BATS_TEST_TMPDIR/err"
    [ "$(grep -c '^line ' "$BATS_TEST_TMPDIR/err")" = 20 ]
    [ "$(tail -n 1 "$BATS_TEST_TMPDIR/err")" = 'recu: violations: 51' ]
}

@test "which violations a batch leaves stood before it" {
    put f '%rec: P¶%mandatory: B¶%unique: A¶¶A: 1¶¶A: 2¶B: 1¶'
    put changes 'Tool: recset¶Number: 0¶Fields: A¶Set: 3¶¶Tool: recset¶Number: 1¶Fields: A¶Add: 4¶'
    explains '5: mandatory B¶7: unique A¶line 5: A: 3 (no B), as before the edit¶line 7: A: 2 (more than one A)¶1 of these stood before the edit¶f: --force makes the edit all the same' 'violations: 2' batch -b changes f
    put changes 'Tool: recins¶Type: P¶Field: A¶Value: 5¶¶Tool: recset¶Number: 1¶Fields: A¶Set: 4¶'
    explains '5: mandatory B¶10: mandatory B¶line 5: A: 1 (no B), as before the edit¶line 10: A: 5 (no B)¶1 of these stood before the edit¶f: --force makes the edit all the same' 'violations: 2' batch -b changes f
    put changes 'Tool: recdel¶Number: 0¶¶Tool: recset¶Number: 0¶Fields: B¶Delete: yes¶'
    explains '5: mandatory B¶line 5: A: 2 (no B)¶f: --force makes the edit all the same' 'violations: 1' batch -b changes f
}

@test "an edit of a batch that lacks an automatic number" {
    put f '%rec: P¶%auto: Added¶%type: Added date¶'
    put changes 'Tool: recins¶Type: P¶Field: N¶Value: x¶'
    explains 'changes:1: Tool: recins¶f: Added: %auto counts, so its type has to be int or range, and %type says date¶give it a value, or Auto: no leaves it out' 'no automatic value' batch -b changes f
    put f '%rec: P¶%auto: Id¶¶Id: 1¶'
    put changes 'Tool: recset¶Type: P¶Fields: Id¶Set: 9223372036854775807¶¶Tool: recins¶Type: P¶Field: N¶Value: x¶'
    explains 'changes:6: Tool: recins¶f: Id: there is no number after 9223372036854775807¶give it a value, or Auto: no leaves it out' 'no automatic value' batch -b changes f
    put f '%rec: P¶%auto: Added¶%type: Added date¶'
    put changes 'Tool: recins¶Type: P¶Field: N¶Value: x¶Auto: no¶'
    does batch -b changes f
    has f '%rec: P¶%auto: Added¶%type: Added date¶¶N: x¶'
}

@test "lines that end in CR LF" {
    local ends='this line ends in CR LF; those of a rec file end in LF alone: the CR belongs to the value, and an empty line that ends so is none¶'
    put f '%rec: P¶%mandatory: B¶¶A: 1¶B: 1\x0D¶¶A: 2\x0D¶'
    recu 1 recfix f
    prints '7: mandatory B¶' "f:5: $ends"
    input=f recu 1 recfix
    prints '7: mandatory B¶' "standard input:5: $ends"
    ends 1 bash -c 'cat f | "$1" recfix' '' "$recu"
    prints '7: mandatory B¶' "standard input:5: $ends"
    recu 1 recset -t P -n 0 -f C -a 1 f
    prints '' '8: mandatory B¶line 8: A: 2 (no B)¶all of these stood before the edit: mend them first, by a batch, by hand, or by edits with --force¶f: --force makes the edit all the same¶recu: violations: 1¶'
    put f 'A: 1¶B: 2\x0D¶'
    does recfix f
    input=f does recfix
    TERM=dumb script -qec "'$recu' recfix f" /dev/null > seen
    has seen "f:2: ${ends%¶}\x0D¶"
    TERM=dumb script -qec "'$recu' recfix < f" /dev/null > seen
    has seen "standard input:2: ${ends%¶}\x0D¶"
    TERM=dumb script -qec "'$recu' recsel < f" /dev/null > seen
    has seen 'A: 1\x0D¶B: 2\x0D\x0D¶'
    put f '# a\x0Db¶A: 1\x0D'
    TERM=dumb script -qec "'$recu' recfix f" /dev/null > seen
    has seen ''
    TERM=dumb script -qec "'$recu' recfix < f" /dev/null > seen
    has seen ''
}

# hundred_kinds KIND: a hundred definitions, which lead from T0 to that kind
hundred_kinds() {
    local i
    for i in {0..98}; do
        printf '%%typedef: T%d T%d\n' "$i" $((i + 1))
    done
    printf '%%typedef: T99 %s\n' "$1"
}

@test "a kind that is defined over a hundred others" {
    { bytes '%rec: P¶%type: N T0¶'; hundred_kinds int; bytes '¶N: 1¶'; } > f
    explains '104: type N¶line 104: N: x (int)¶f: --force makes the edit all the same' 'violations: 1' recset -n 0 -f N -s x f
    { bytes '%rec: P¶%auto: Id¶%type: Id T0¶'; hundred_kinds line; } > f
    explains 'f: Id: %auto counts, so its type has to be int or range, and %type says T0¶give it a value, or --no-auto leaves it out' 'no automatic value' recins -t P -f N -v x f
}

@test "a CR or a form feed belongs to the word of a type" {
    local undefined='f: Id: %auto counts, and the type of Id is not defined¶give it a value, or --no-auto leaves it out'
    local kind
    for kind in 'int\x0D' 'int\x0Dx' '\x0Dint' 'int\x0C' 'int\x0Cx' 'range\x0D0 9'; do
        put f "%rec: P¶%auto: Id¶%type: Id $kind¶"
        explains "$undefined" 'no automatic value' recins -t P -f N -v x f
        put f "%rec: P¶%auto: Id¶%typedef: T $kind¶%type: Id T¶"
        explains "$undefined" 'no automatic value' recins -t P -f N -v x f
    done
}

# says_only WHY WORD..: recu refuses, and says no line more
says_only() {
    refuses "$@"
    prints '' "recu: $1¶"
}

@test "drawn refusals" {
    python3 "$top/tests/refusals.py" "$program" 300 4
}

@test "what lies past what can be shown" {
    local blanks
    blanks=$(printf '%1100s' '')
    put f 'A: 1¶'
    says_only 'expression: error at byte 1103' recsel -e "A =$blanks)" f
    put f "%rec: P¶%constraint: A =$blanks)¶"
    says_only 'line 2: bad descriptor field' recsel f
    put f "A: 1¶x${blanks// /x}\\x0D¶"
    says_only 'line 2: not a field, comment or blank line' recsel f
}

@test "the edits of a history with many gaps" {
    local number
    put f 'A: 0¶'
    for number in {1..12}; do
        does recset -f A -s "$number" f
        does recset -f A -s x f
        does undo f
    done
    explains 'f.journal: edits 1, 4, 7, 10, 13, 16, 19, 22, 25, 28, 31, 34 can be undone' 'no such edit' revert 99 f
    does recset -f A -s 13 f
    explains 'f.journal: edits from 1 to 37 can be undone, and not all between' 'no such edit' revert 99 f
    explains 'f.journal: it has edits from 1 to 37, and not all between' 'no such edit' show 99 f
}

@test "a new record of a batch that has no fields" {
    put f 'A: 1¶'
    put b 'Tool: recins¶'
    explains 'b:1: Tool: recins¶Field and Value, or Record, are needed' 'not exactly one record' batch -b b f
}

@test "standard input that is a terminal" {
    local tool
    for tool in recsel recinf recfix; do
        TERM=dumb timeout 20 script -qec "'$recu' $tool" /dev/null > seen < <(sleep 1; printf '\004')
        grep -qx "$tool reads standard input: end it by Ctrl-D, or end $tool by Ctrl-C and name a FILE"$'\r' seen || fail "$tool:" "$(cat -A seen)"
    done
    put f 'A: 1¶'
    TERM=dumb timeout 20 script -qec "'$recu' recsel 2> said" /dev/null > seen < <(sleep 1; printf '\004')
    has said ''
    TERM=dumb script -qec "'$recu' recsel < f" /dev/null > seen
    has seen 'A: 1\x0D¶'
    TERM=dumb script -qec "'$recu' recsel f" /dev/null > seen
    has seen 'A: 1\x0D¶'
}

@test "an empty path" {
    local empty=': No such file or directory (os error 2)¶an empty path'
    put f 'A: 1¶'
    fails_to_store "$empty" recsel ''
    fails_to_store "$empty" recset -f A -s 1 ''
    fails_to_store "$empty" recins -f A -v 1 ''
    fails_to_store "$empty" undo ''
    fails_to_store 'an empty path' recset -f A -s 2 --journal '' f
    fails_to_store 'an empty path' history --journal '' f
    mkfifo pipe
    fails_to_store 'an empty path' history --journal '' pipe
    fails_to_store 'an empty path' redo --through 1 --journal '' f
    fails_to_store 'an empty path¶: No such file or directory (os error 2)' batch -b '' f
    has f 'A: 1¶'
    only f pipe
}

@test "a file that is missing" {
    local system='new.rec: No such file or directory (os error 2)'
    explains "$system¶recu makes no file: touch new.rec makes an empty one" 'a file could not be read or written' recins -f A -v 1 new.rec
    explains "my new.rec: No such file or directory (os error 2)¶recu makes no file: touch makes an empty one" 'a file could not be read or written' recins -f A -v 1 'my new.rec'
    put changes 'Tool: recins¶Field: A¶Value: 1¶'
    explains "$system¶recu makes no file: touch new.rec makes an empty one" 'a file could not be read or written' batch -b changes new.rec
    explains "$system" 'a file could not be read or written' recset -f A -s 1 new.rec
    explains "$system" 'a file could not be read or written' recsel new.rec
    only changes
    touch new.rec
    does recins -f A -v 1 new.rec
    has new.rec 'A: 1¶'
}

@test "standard input and pipes are not read again" {
    put f '%rec: P¶¶A: 1¶¶%rec: Q¶'
    input=f recu 1 recsel
    prints '' 'standard input: record types: P, Q¶recu: several record types, use -t¶'
    mkfifo pipe
    cat f > pipe &
    recu 1 recsel pipe
    prints '' 'pipe: record types: P, Q¶recu: several record types, use -t¶'
    recu 1 recsel -e 'A =' <(cat f)
    prints '' 'A =¶   ^¶the expression isn'"'"'t complete¶recu: expression: error at byte 3¶'
    # a line that is refused is told as it was read
    put f 'A: 1¶no field¶'
    input=f recu 1 recsel
    prints '' 'standard input:2: no field¶a field needs a colon after its name, as in Name: value¶recu: line 2: not a field, comment or blank line¶'
    put f '%rec: P¶%size: many¶'
    input=f recu 1 recsel
    prints '' 'standard input:2: %size: many¶%size is in one line, a number or one of < <= > >= and a number, such as >= 2¶recu: line 2: bad descriptor field¶'
}

# reads_once FILE WORD..: refused, recu opens that file once
reads_once() {
    local file=$1
    shift
    strace -f -qq -o "$BATS_TEST_TMPDIR/trace" -e trace=openat "$program" "$@" > "$BATS_TEST_TMPDIR/out" 2> "$BATS_TEST_TMPDIR/err" 3>&- && fail "$* is not refused"
    [ "$(grep -c "\"$file\"" "$BATS_TEST_TMPDIR/trace")" = 1 ] || fail "$*: $(grep "\"$file\"" "$BATS_TEST_TMPDIR/trace")"
    [ "$(wc -l < "$BATS_TEST_TMPDIR/err")" -gt 1 ] || fail "$*: nothing is said"
}

@test "a refusal that has its reason needs no second look" {
    can_trace
    put f 'A: 1¶no field¶'
    reads_once f recsel f
    reads_once f recset -f A -s 2 f
    put f '%rec: P¶%key: Id¶%key: No¶'
    reads_once f recsel f
    reads_once f recins -f A -v 2 f
    put f '%rec: P¶¶A: 1¶¶%rec: Q¶'
    reads_once f recsel f
    reads_once f recinf -t R f
    reads_once f recset -t R -f A -s 2 f
    reads_once f recdel -t P f
    put f '%rec: P¶%auto: Id¶%type: Id date¶'
    reads_once f recins -t P -f N -v x f
    put f 'A: 1¶'
    put changes 'Tool: recset¶Fields: A¶'
    reads_once f batch -b changes f
    does recset -f A -s 2 f
    does recset -f A -s 3 f
    local file
    for file in f f.journal; do
        reads_once "$file" revert 1 f
        reads_once "$file" revert 9 f
        reads_once "$file" show 9 f
        reads_once "$file" redo f
    done
    # rules that an edit breaks, and a revert
    put g '%rec: P¶%key: Id¶¶Id: 1¶'
    does recset -t P -f Id -s 2 g
    does recins -t P -f Id -v 1 g
    put changes 'Tool: recset¶Number: 1¶Fields: Id¶Set: 2¶'
    for file in g g.journal; do
        reads_once "$file" recins -t P -f Id -v 1 g
        reads_once "$file" batch -b changes g
        reads_once "$file" recset -n 1 -f Id -s 2 --dry-run g
        reads_once "$file" revert 1 g
    done
    # edits that were undone, and then dropped
    does undo g
    does recins -t P -f Id -v 3 g
    for file in g g.journal; do
        reads_once "$file" redo g
    done
}

@test "a tool that is needed" {
    recu 1
    has "$BATS_TEST_TMPDIR/out" ''
    grep -q '^Usage: recu <COMMAND>$' "$BATS_TEST_TMPDIR/err"
    grep -q '^  recset ' "$BATS_TEST_TMPDIR/err"
    [ "$(tail -n 1 "$BATS_TEST_TMPDIR/err")" = 'recu: bad usage' ]
}

@test "a value that begins with a hyphen" {
    put f "$three"
    recu 1 recset -n 0 -f A -s -5 f
    prints '' "error: unexpected argument '-5' found¶¶Usage: recu recset [OPTIONS] -f FIELDS <ACTION> FILE¶¶For more information, try '--help'.¶hint: a value that begins with a hyphen is given as --set=-5¶recu: bad usage¶"
    recu 1 undo -5 f
    grep -q "tip: to pass '-5' as a value, use '-- -5'" "$BATS_TEST_TMPDIR/err"
}

@test "the usage names what is needed" {
    local usage
    while IFS= read -r usage; do
        recu 0 help "${usage%% *}"
        grep -qF "recu $usage" "$BATS_TEST_TMPDIR/out" || fail "no usage: $usage"
    done <<'USAGE'
recins [OPTIONS] -f NAME -v VALUE.. FILE
recins [OPTIONS] -r TEXT FILE
recset [OPTIONS] -f FIELDS <ACTION> FILE
batch [OPTIONS] -b PATH FILE
show [OPTIONS] [N] FILE
USAGE
    recu 0 recins -h
    tr -s ' \n' ' ' < "$BATS_TEST_TMPDIR/out" | grep -q 'for a new record no type, even where there is only one'
}
