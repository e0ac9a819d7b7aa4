# Each allocation of the built program fails in turn, in a run of each command.
# Such a run says that memory ran out, or that a file could not be written, or does what was asked. After `out of memory`
# both files are as before, and what was printed is a prefix of the text; the same command again does what was asked.

load helpers
load allocator

setup_file() {
    need_program
    build_failing_allocator
}

# each_allocation FUNCTION WORD..: runs recu with these words at each failing allocation, up to a run in which none fails,
# and has the function judge each run, which finds the allocation's number and the run's status in `number` and `status`
each_allocation() {
    local judge=$1 number status
    shift
    for ((number = 1; number <= 100000; number++)); do
        rm -rf hit db.rec db.rec.journal
        cp start/* .
        status=0
        failing "$number" "$program" "$@" > out 2> err || status=$?
        "$judge" "$@"
        if [ ! -e hit ]; then
            [ "$number" -gt 1 ] || fail 'no allocation failed'
            return 0
        fi
    done
    fail 'no end'
}

wrong() {
    fail "allocation $number, status $status: $*:" "$(cat err)"
}

# is_edited WORD..: judges a run that gives the file after.rec
is_edited() {
    case "$status/$(tail -n 1 err)" in
        0/*) cmp -s db.rec after.rec || wrong 'another file' ;;
        '1/recu: out of memory')
            cmp -s db.rec start/db.rec || wrong 'the file was changed'
            if [ -e start/db.rec.journal ]; then
                cmp -s db.rec.journal start/db.rec.journal || wrong 'the journal was changed'
            else
                [ ! -s db.rec.journal ] || wrong 'the journal was changed'
            fi
            ;;
        '1/recu: a file could not be read or written') cmp -s db.rec start/db.rec || cmp -s db.rec after.rec || wrong 'another file' ;;
        1/) cmp -s db.rec start/db.rec || wrong 'changed without a word' ;;
        *) wrong 'no such end' ;;
    esac
    [ ! -e db.rec.new ] && [ ! -e db.rec.journal.new ] || wrong 'a working file is left'
    if [ ! -e hit ]; then
        [ "$status" = 0 ] || wrong 'refused without a failing allocation'
    elif ! cmp -s db.rec after.rec; then
        "$program" "$@" > out 2> err || wrong 'the same again is refused'
        cmp -s db.rec after.rec || wrong 'the same again gives another file'
    fi
}

@test "memory for a deletion" {
    mkdir start
    put start/db.rec "$three"
    put after.rec 'A: 1¶¶C: 3¶'
    fast each_allocation is_edited recdel -n 1 db.rec
}

@test "memory for a deletion through a link" {
    mkdir start
    put start/db.rec "$three"
    put after.rec 'A: 1¶¶C: 3¶'
    ln -s db.rec link.rec
    fast each_allocation is_edited recdel -n 1 link.rec
    fast each_allocation is_edited recdel -n 1 --journal db.rec.journal link.rec
}

@test "memory for a deletion in a set with rules" {
    mkdir start
    put start/db.rec '%rec: P¶%key: Id¶%type: N enum a b¶¶Id: 1¶N: a¶¶Id: 2¶# c¶N: b'
    put after.rec '%rec: P¶%key: Id¶%type: N enum a b¶¶Id: 2¶# c¶N: b'
    fast each_allocation is_edited recdel -e 'N = "a"' db.rec
}

@test "memory for an edit of fields" {
    mkdir start
    put start/db.rec '%rec: P¶%key: Id¶¶Id: 1¶N: a\¶b¶¶Id: 2'
    put after.rec '%rec: P¶%key: Id¶¶Id: 1¶N: x¶+ y¶¶Id: 2¶N: x¶+ y¶'
    fast each_allocation is_edited recset -t P -e 'Id < 5' -f N -S $'x\ny' db.rec
}

@test "memory for records that are commented out" {
    mkdir start
    put start/db.rec "$three"
    put after.rec '#A: 1¶¶B: 2¶¶#C: 3¶'
    fast each_allocation is_edited recdel -c -n 0,2 db.rec
}

@test "memory for renaming fields" {
    mkdir start
    put start/db.rec 'A: 1\¶2¶B: 3¶A: 4¶'
    put after.rec 'C: 1\¶2¶B: 3¶C: 4¶'
    fast each_allocation is_edited recset -f A -r C db.rec
}

@test "memory for an undo" {
    mkdir start
    put start/db.rec "$three"
    put after.rec "$three"
    (cd start && "$program" recdel -n 1 db.rec)
    fast each_allocation is_edited undo db.rec
}

@test "memory for a redo" {
    mkdir start
    put start/db.rec "$three"
    put after.rec 'A: 1¶¶C: 3¶'
    (cd start && "$program" recdel -n 1 db.rec && "$program" undo db.rec)
    fast each_allocation is_edited redo db.rec
}

@test "memory for a revert" {
    mkdir start
    put start/db.rec "$three"
    (cd start && "$program" recdel -n 1 db.rec && "$program" recset -n 0 -f A -s 7 db.rec && "$program" undo db.rec)
    (cd start && "$program" recins -f D -v 4 db.rec && "$program" recdel -n 2 db.rec)
    put after.rec "$three¶"
    fast each_allocation is_edited revert 1 db.rec
}

# is_told_of_later WORD..: judges a run of a revert that is refused, of which the file `said` has what is said
is_told_of_later() {
    cmp -s db.rec start/db.rec && cmp -s db.rec.journal start/db.rec.journal || wrong 'a file was changed'
    case "$status/$(tail -n 1 err)" in
        "1/$(tail -n 1 said)" | '1/recu: out of memory' | '1/recu: a file could not be read or written' | 1/) ;;
        *) wrong 'no such end' ;;
    esac
    [ "$(grep -cvxFf said err)" -le 2 ] || wrong 'it says more'
    [ -e hit ] || cmp -s err said || wrong 'it says something else'
}

@test "memory for what is said of later edits" {
    mkdir start
    put start/db.rec 'A: 1¶B: 1¶'
    (cd start && "$program" recset -f A -s 2 db.rec && "$program" recset -f B -s 2 db.rec)
    (cd start && "$program" recset -f A -s 3 db.rec && "$program" recset -f B -s 3 db.rec)
    put said 'db.rec.journal: edit 3, recset, is in the way; revert it first¶recu: a later edit changed the same lines¶'
    fast each_allocation is_told_of_later revert 1 db.rec
}

# is_moved WORD..: judges a run of moves that gives the file after.rec, and passes passed.rec first
is_moved() {
    case "$status/$(tail -n 1 err)" in
        0/) cmp -s db.rec after.rec || wrong 'another file' ;;
        '1/recu: out of memory')
            if cmp -s db.rec passed.rec; then
                [ "$(head -n 1 err)" = "$told" ] || wrong 'the first move is not told'
            else
                cmp -s db.rec start/db.rec || wrong 'another file'
                ! grep -qx "$told" err || wrong 'a move is told that was not made'
            fi
            ;;
        '1/recu: a file could not be read or written')
            cmp -s db.rec start/db.rec || cmp -s db.rec passed.rec || cmp -s db.rec after.rec || wrong 'another file'
            ;;
        1/) cmp -s db.rec start/db.rec || cmp -s db.rec passed.rec || wrong 'another file' ;;
        *) wrong 'no such end' ;;
    esac
    [ ! -e db.rec.new ] && [ ! -e db.rec.journal.new ] || wrong 'a working file is left'
    if [ ! -e hit ]; then
        [ "$status" = 0 ] || wrong 'refused without a failing allocation'
    elif ! cmp -s db.rec after.rec; then
        "$program" "$@" > out 2> err || wrong 'the same again is refused'
        cmp -s db.rec after.rec || wrong 'the same again gives another file'
    fi
}

@test "memory for several undos" {
    local told='undone: edit 2'
    mkdir start
    put start/db.rec "$three"
    put after.rec "$three"
    put passed.rec 'A: 1¶¶C: 3¶'
    (cd start && "$program" recdel -n 1 db.rec && "$program" recdel -n 1 db.rec)
    fast each_allocation is_moved undo --through 1 db.rec
}

@test "memory for several redos" {
    local told='redone: edit 1'
    mkdir start
    put start/db.rec "$three"
    put passed.rec 'A: 1¶¶C: 3¶'
    put after.rec 'A: 1¶¶'
    (cd start && "$program" recdel -n 1 db.rec && "$program" recdel -n 1 db.rec && "$program" undo --through 1 db.rec)
    fast each_allocation is_moved redo --through 2 db.rec
}

# is_told_of_moves WORD..: judges a run of moves that are refused after passed.rec, of which the file `said` has what is said
is_told_of_moves() {
    case "$status/$(tail -n 1 err)" in
        "1/$(tail -n 1 said)") cmp -s db.rec passed.rec || wrong 'another file' ;;
        '1/recu: out of memory' | '1/recu: a file could not be read or written' | 1/) ;;
        *) wrong 'no such end' ;;
    esac
    [ "$(grep -cvxFf said err)" -le 2 ] || wrong 'it says more'
    [ -e hit ] || cmp -s err said || wrong 'it says something else'
}

@test "memory for what is said of several moves" {
    mkdir start
    put start/db.rec 'A: 1¶'
    put passed.rec 'A: 2¶'
    (cd start && "$program" recset -f A -s 2 db.rec && "$program" recset -f A -s 3 db.rec)
    # edit 1 doesn't fit any more
    sed -i '0,/^New: A: 2/ s//New: A: 7/' start/db.rec.journal
    put said 'undone: edit 2¶db.rec.journal: a text in it was changed; move it away to go on without the history¶recu: the file was changed outside¶'
    fast each_allocation is_told_of_moves undo --through 1 db.rec
}

@test "memory for a record that is put in" {
    mkdir start
    put start/db.rec '%rec: P¶%key: Id¶%auto: Id No¶¶Id: 7¶N: a\¶b'
    put after.rec '%rec: P¶%key: Id¶%auto: Id No¶¶Id: 7¶N: a\¶b¶¶Id: 8¶No: 0¶N: x¶+ y¶'
    fast each_allocation is_edited recins -t P -f N -v $'x\ny' db.rec
}

@test "memory for a record of a new type, given as a text" {
    mkdir start
    put start/db.rec "$three"
    put after.rec 'A: 1¶¶B: 2¶¶C: 3¶¶%rec: Q¶¶N: x¶+ y¶'
    fast each_allocation is_edited recins -t Q -r $'# c\nN: x\n+y' db.rec
}

@test "memory for a replace" {
    mkdir start
    put start/db.rec 'A: 1¶# c¶B: 2¶¶C: 3'
    put after.rec 'N: x¶M: y¶¶N: x¶M: y'
    fast each_allocation is_edited recins -n 0-1 -f N -v x -f M -v y db.rec
}

@test "memory for automatic fields" {
    mkdir start
    put start/db.rec '%rec: P¶%auto: Id No¶¶N: a¶¶Id: 4¶¶N: b'
    put after.rec '%rec: P¶%auto: Id No¶¶Id: 5¶No: 0¶N: a¶¶No: 1¶Id: 4¶¶Id: 6¶No: 2¶N: b'
    fast each_allocation is_edited recfix --auto db.rec
}

@test "memory for a batch" {
    mkdir start
    put start/db.rec '%rec: P¶%key: Id¶%auto: Id¶¶Id: 1¶N: a\¶b¶¶Id: 2'
    put changes <<'REC'
Tool: recset
Type: P
Expression: Id < 2 && N ~ '^a'
Fields: N,M[0]
SetAdd: x
+ y

# the second one goes
Tool: recdel
Number: 1

Tool: recins
Type: P
Field: N
Value: z

Tool: recins
Type: P
Number: 1
Record: N: w

Tool: recfix

Tool: recdel
Quick: nothing
Comment: yes
REC
    put after.rec '%rec: P¶%key: Id¶%auto: Id¶¶Id: 1¶N: x¶+ y¶M: x¶+ y¶¶Id: 2¶N: w¶¶'
    fast each_allocation is_edited batch -b changes db.rec
}

# is_forgotten WORD..: judges a run that gives the journal of the folder `after`, and leaves the file
is_forgotten() {
    cmp -s db.rec start/db.rec || wrong 'the file was changed'
    case "$status/$(tail -n 1 err)" in
        0/) cmp -s db.rec.journal after/db.rec.journal || wrong 'another journal' ;;
        '1/recu: out of memory') cmp -s db.rec.journal start/db.rec.journal || wrong 'the journal was changed' ;;
        1/ | '1/recu: a file could not be read or written')
            cmp -s db.rec.journal start/db.rec.journal || cmp -s db.rec.journal after/db.rec.journal || wrong 'another journal'
            ;;
        *) wrong 'no such end' ;;
    esac
    [ ! -e db.rec.new ] && [ ! -e db.rec.journal.new ] || wrong 'a working file is left'
    if [ ! -e hit ]; then
        [ "$status" = 0 ] || wrong 'refused without a failing allocation'
    elif ! cmp -s db.rec.journal after/db.rec.journal; then
        "$program" "$@" > out 2> err || wrong 'the same again is refused'
        cmp -s db.rec.journal after/db.rec.journal || wrong 'the same again gives another journal'
    fi
}

@test "memory for forgetting" {
    local value
    mkdir start
    put start/db.rec 'A: 1¶'
    put changes 'Tool: recset¶Fields: A¶Set: 4¶¶Tool: recset¶Fields: B¶SetAdd: 5¶'
    for value in 2 3; do (cd start && "$program" recset -f A -s "$value" db.rec); done
    (cd start && "$program" batch -b ../changes db.rec && "$program" recset -f A -s 6 db.rec)
    (cd start && "$program" undo db.rec && "$program" undo db.rec)
    cp -r start after
    (cd after && "$program" forget 1 db.rec)
    ! cmp -s start/db.rec.journal after/db.rec.journal || fail 'nothing was forgotten'
    fast each_allocation is_forgotten forget 1 db.rec
}

@test "memory for an adoption" {
    mkdir start
    put start/db.rec 'A: 1¶'
    (cd start && "$program" recset -f A -s 2 db.rec && "$program" recset -f A -s 3 db.rec)
    put start/db.rec 'A: 3¶# x¶'
    put old 'A: 2¶'
    cp -r start after
    (cd after && "$program" adopt ../old db.rec)
    ! cmp -s start/db.rec.journal after/db.rec.journal || fail 'nothing was adopted'
    fast each_allocation is_forgotten adopt old db.rec
}

# is_told_of_the_end WORD..: judges a run of an adoption that is refused
is_told_of_the_end() {
    cmp -s db.rec start/db.rec && cmp -s db.rec.journal start/db.rec.journal || wrong 'it was changed'
    case "$status/$(tail -n 1 err)" in
        '1/recu: not the text before the change')
            if [ -e hit ]; then [ "$(wc -l < err)" -le 2 ]; else cmp -s err said; fi || wrong 'something else is said'
            ;;
        '1/recu: out of memory' | 1/ | '1/recu: a file could not be read or written') ;;
        *) wrong 'no such end' ;;
    esac
    [ ! -e db.rec.new ] && [ ! -e db.rec.journal.new ] || wrong 'a working file is left'
}

@test "memory for an adoption that is refused" {
    mkdir start
    put start/db.rec 'A: 1¶'
    (cd start && "$program" recset -f A -s 2 db.rec)
    put start/db.rec 'A: 2¶# x¶'
    put old 'A: 9¶'
    put said "old: no text of the history of db.rec, which ends with that of SHA-256 $(printf 'A: 2\n' | sha256sum | cut -d ' ' -f 1)¶recu: not the text before the change¶"
    fast each_allocation is_told_of_the_end adopt old db.rec
}

@test "memory for a whole text" {
    mkdir start
    put start/db.rec '%rec: P¶%key: Id¶¶Id: 1¶¶Id: 2¶¶Id: 3¶'
    put after.rec '%rec: P¶%key: Id¶¶Id: 1¶¶Id: 3¶¶Id: 4¶# x¶'
    cp start/db.rec old
    cp after.rec new
    fast each_allocation is_edited write --over old new db.rec
}

# is_printed WORD..: judges a run that prints the file printed, and ends with the status $wanted
is_printed() {
    case "$status/$(tail -n 1 err)" in
        0/*) [ "$wanted" = 0 ] && cmp -s out printed || wrong 'another text' ;;
        '1/recu: out of memory' | 1/) head -c "$(stat -c %s out)" printed | cmp -s - out || wrong 'no prefix of the text' ;;
        *) wrong 'no such end' ;;
    esac
    cmp -s db.rec start/db.rec || wrong 'the file was changed'
    if [ ! -e hit ]; then
        [ "$status" = "$wanted" ] && cmp -s out printed || wrong 'refused without a failing allocation'
    elif ! cmp -s out printed; then
        status=0
        "$program" "$@" > out 2> err || status=$?
        [ "$status" = "$wanted" ] && cmp -s out printed || wrong 'the same again prints another text'
    fi
}

@test "memory for a dry run of several undos" {
    local wanted=0
    mkdir start
    put start/db.rec 'A: 1¶'
    (cd start && "$program" recset -f A -s 2 db.rec && "$program" recset -f A -s 3 db.rec)
    put printed '--- db.rec¶+++ db.rec¶@@ -1,1 +1,1 @@¶-A: 3¶+A: 2¶--- db.rec¶+++ db.rec¶@@ -1,1 +1,1 @@¶-A: 2¶+A: 1¶'
    fast each_allocation is_printed undo --dry-run --through 1 db.rec
}

# prints_people PRINTED WORD..: with each failing allocation the words print this of a file of people, or a prefix of it
prints_people() {
    local wanted=0
    mkdir start
    put printed "$1"
    put start/db.rec <<'REC'
X: 1

%rec: P
%doc: people

N: a
M: x\
y
M: 2

N: b
M: 3

N: c
REC
    fast each_allocation is_printed "${@:2}" db.rec
}

@test "memory for recsel -e" {
    prints_people 'a xy 2¶¶b 3¶' recsel -t P -e "M ~ '^[x3]' && #M > 0 && N & M != 'c'" -R N,M
}

@test "memory for recsel -q" {
    prints_people 'M: x\¶y¶M: 2¶' recsel -t P -q xy -p M
}

@test "memory for recsel -n" {
    prints_people 'b¶c¶' recsel -t P -n 1-2 -P N -C
}

@test "memory for recsel -c" {
    prints_people '3¶' recsel -t P -c
}

@test "memory for recinf" {
    prints_people '1¶3 P¶' recinf
}

@test "memory for recinf -d" {
    prints_people '%rec: P¶%doc: people¶' recinf -t P -d
}

@test "memory for recfix" {
    local wanted=1
    mkdir start
    put start/db.rec <<'REC'
%rec: P
%key: Id
%mandatory: Name
%prohibit: X
%unique: Name
%allowed: Age Town
%auto: Id
%type: Age,Id range 0 MAX
%type: Town enum here (not) there
%type: Name regexp /^[a-z]+$/
%size: <= 1
%constraint: Age ~ '^1' => Name != 'b'

Id: 1
Name: a
Age: 12
Town: \
here

Id: 1
Name: b
Name: B
Age: 1x
X: 1
REC
    put printed <<'REC'
1: size P
20: key Id
20: prohibit X
20: unique Name
20: allowed X
22: type Name
23: type Age
REC
    fast each_allocation is_printed recfix db.rec
}

@test "memory for the history" {
    local wanted=0
    mkdir start
    put start/db.rec "$three"
    (cd start && "$program" recdel -n 1 db.rec && "$program" recset -f A -s 2 db.rec && "$program" undo db.rec)
    put printed 'done 1 recdel¶undone 2 recset¶'
    fast each_allocation is_printed history db.rec
    cmp db.rec.journal start/db.rec.journal
}

# with_a_history: the folder start has a file with an edit that can be undone, a batch, and one that can be redone
with_a_history() {
    mkdir start
    put start/db.rec 'A: 1¶¶B: 2¶¶C: 3'
    put changes 'Tool: recset¶Number: 0¶Fields: A¶Set: 5¶¶Tool: recset¶Number: 0¶Fields: A¶Set: 6¶'
    (cd start && "$program" recdel -n 1 db.rec && "$program" batch -b ../changes db.rec)
    (cd start && "$program" recset -n 0 -f A -s 2 db.rec && "$program" undo db.rec)
}

@test "memory for what an edit changed" {
    local wanted=0
    with_a_history
    put printed '--- db.rec¶+++ db.rec¶@@ -1,5 +1,3 @@¶ A: 1¶ ¶-B: 2¶-¶ C: 3¶\ No newline at end of file¶'
    fast each_allocation is_printed show 1 db.rec
    put printed '--- db.rec¶+++ db.rec¶@@ -1,3 +1,3 @@¶-A: 1¶+A: 6¶ ¶ C: 3¶\ No newline at end of file¶'
    fast each_allocation is_printed show db.rec
    cmp db.rec.journal start/db.rec.journal
}

@test "memory for what all edits changed" {
    local wanted=0
    with_a_history
    put printed <<'DIFFS'
done 1 recdel
--- db.rec
+++ db.rec
@@ -1,5 +1,3 @@
 A: 1
 
-B: 2
-
 C: 3
\ No newline at end of file
done 2 batch
--- db.rec
+++ db.rec
@@ -1,3 +1,3 @@
-A: 1
+A: 6
 
 C: 3
\ No newline at end of file
undone 3 recset
--- db.rec
+++ db.rec
@@ -1,3 +1,3 @@
-A: 6
+A: 2
 
 C: 3
\ No newline at end of file
DIFFS
    fast each_allocation is_printed history --patch db.rec
    cmp db.rec.journal start/db.rec.journal
}

@test "memory for dry runs" {
    local wanted=0
    with_a_history
    put printed '--- db.rec¶+++ db.rec¶@@ -1,3 +1,2 @@¶ A: 6¶ ¶-C: 3¶\ No newline at end of file¶'
    fast each_allocation is_printed recdel --dry-run -n 1 db.rec
    put printed '--- db.rec¶+++ db.rec¶@@ -1,3 +1,3 @@¶-A: 6¶+A: 5¶ ¶ C: 3¶\ No newline at end of file¶'
    put changes 'Tool: recset¶Number: 0¶Fields: A¶Set: 4¶¶Tool: recset¶Number: 0¶Fields: A¶Set: 5¶'
    fast each_allocation is_printed batch --dry-run -b changes db.rec
    put printed '--- db.rec¶+++ db.rec¶@@ -1,3 +1,3 @@¶-A: 6¶+A: 1¶ ¶ C: 3¶\ No newline at end of file¶'
    fast each_allocation is_printed undo --dry-run db.rec
    put printed '--- db.rec¶+++ db.rec¶@@ -1,3 +1,3 @@¶-A: 6¶+A: 2¶ ¶ C: 3¶\ No newline at end of file¶'
    fast each_allocation is_printed redo --dry-run db.rec
    cmp db.rec.journal start/db.rec.journal
}

# is_told WORD..: judges a run that prints the files printed and said, and ends with the status $wanted
is_told() {
    case "$status/$(tail -n 1 err)" in
        "$wanted/$(tail -n 1 said)" | '1/recu: out of memory' | 1/) ;;
        *) wrong 'no such end' ;;
    esac
    head -c "$(stat -c %s out)" printed | cmp -s - out || wrong 'no prefix of the text'
    if [ -e hit ]; then
        status=0
        "$program" "$@" > out 2> err || status=$?
    fi
    [ "$status" = "$wanted" ] && cmp -s out printed && cmp -s err said || wrong 'another text'
}

# tells STATUS WORD..: with each failing allocation recu says what it says to these words, or that memory ran out
tells() {
    local wanted=$1
    mkdir start
    put start/db.rec "$three"
    cp start/db.rec .
    "$program" "${@:2}" > printed 2> said || [ $? = "$wanted" ] || fail "another status: $*"
    fast each_allocation is_told "${@:2}"
}

@test "memory for the help" {
    tells 0 recset --help
}

@test "memory for words that are refused" {
    tells 1 recset -f A --sett 2 db.rec
}

@test "memory for a hyphen in a value" {
    tells 1 recset -f A -s -2 db.rec
}

@test "memory for a batch that is refused" {
    put db.rec "$three"
    put changes 'Tool: recdel¶Number: 0¶¶Tool: recset¶Fields: A¶'
    tells 1 batch -b changes db.rec
}

@test "memory for a refusal" {
    tells 1 recdel db.rec
}

# The file of the cases of a report: an edit of it breaks a rule.
with_a_key='%rec: P¶%key: Id¶%type: N int¶¶Id: 1¶N: x¶¶Id: 2¶'

@test "memory for a report of a refused edit" {
    three=$with_a_key tells 1 recset -n 1 -f Id -s 1 db.rec
}

@test "memory for lines that end in CR LF" {
    three='%rec: P¶%type: N int¶¶N: x\x0D¶' tells 1 recfix db.rec
}

# on_a_terminal NUMBER WORD..: recu with these words on a terminal, with the allocation of this number failing; what it says
# stands in `err`
on_a_terminal() {
    status=0
    FAILS=$1 TERM=dumb script -qec "LD_PRELOAD='$BATS_FILE_TMPDIR/failing.so' '$program' ${*:2}" err > /dev/null < /dev/null || status=$?
    sed -i -e '/^Script /d' -e '/^$/d' err
}

# says_on_a_terminal STATUS WORD..: with each failing allocation it ends so, or without memory, and says the same or less of it
says_on_a_terminal() {
    local number status
    on_a_terminal 0 "${@:2}"
    cp err said
    for ((number = 1; number <= 100000; number++)); do
        rm -f hit
        on_a_terminal "$number" "${@:2}"
        if [ ! -e hit ]; then
            [ "$number" -gt 1 ] && [ "$status" = "$1" ] && cmp -s err said || wrong 'it says something else'
            return 0
        fi
        [ "$status" = "$1" ] || [[ $(tail -n 1 err) = 'recu: out of memory'* ]] || wrong 'no such end'
        [ "$(grep -cvxFf said err)" -le 1 ] || wrong 'it says more'
    done
    fail 'no end'
}

@test "memory for a report on a terminal" {
    put db.rec "$with_a_key"
    fast says_on_a_terminal 1 recfix db.rec
}

@test "memory for what is said on a terminal of what was done" {
    put db.rec "$three"
    fast says_on_a_terminal 0 recset --dry-run -n 0 -f A -s 2 db.rec
    # the file has the value already
    fast says_on_a_terminal 0 recset -n 0 -f A -s 1 db.rec
    # the file was changed outside since
    does recset -n 0 -f A -s 2 db.rec
    put db.rec "$three"'# x¶'
    fast says_on_a_terminal 0 history db.rec
}

@test "memory for an edit that there isn't" {
    local wanted=1
    with_a_history
    put printed ''
    put said 'db.rec.journal: it has edits 1 to 3¶recu: no such edit¶'
    fast each_allocation is_told show 7 db.rec
}

@test "memory for standard input that is a terminal" {
    fast says_on_a_terminal 0 recsel -c
}

@test "each command has a case here" {
    local commands command
    commands=$("$program" --help | sed -n '/^Commands:/,/^$/s/^  \([a-z]*\)  .*/\1/p')
    [ "$(wc -w <<< "$commands")" -ge 10 ] || fail "the help names too few commands: $commands"
    for command in $commands; do
        [ "$command" != help ] || continue
        grep -Eq "^ +(fast each_allocation|prints_people|tells) .*[ ]$command( |$)" "$BATS_TEST_FILENAME" || fail "$command has no case"
    done
}
