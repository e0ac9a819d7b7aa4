# Reverts: both contents, byte for byte; which later edits stand in the way; and what is said of it.

load helpers

refusal='a later edit changed the same lines'
outside='db.rec: recu adopt OLD db.rec makes the change an edit, OLD being the text before it or any of the history¶db.rec: else the next edit begins a new history'

# digest TEXT
digest() {
    bytes "$1" | sha256sum | cut -d ' ' -f 1
}

# edit NUMBER BEFORE AFTER HUNK..: the event of an edit by recset, from one file to the other
edit() {
    echo "Number: $1¶Kind: edit¶Tool: recset¶Before: $(digest "$2")¶After: $(digest "$3")¶$(IFS=; echo "${*:4}")¶"
}

# line AT OLD NEW: the hunk by which one line becomes another
line() {
    echo "At: $1¶Old: $2\$¶+ \$¶New: $3\$¶+ \$¶"
}

# tells HISTORY: what history prints
tells() {
    recu 0 history db.rec
    prints "$1" ''
}

# stays EXPLANATION REFUSAL WORD..: recu refuses it so, and both contents stay
stays() {
    cp db.rec "$BATS_TEST_TMPDIR/file"
    [ ! -e db.rec.journal ] || cp db.rec.journal "$BATS_TEST_TMPDIR/journal"
    explains "$@"
    has db.rec < "$BATS_TEST_TMPDIR/file"
    if [ -e "$BATS_TEST_TMPDIR/journal" ]; then
        has db.rec.journal < "$BATS_TEST_TMPDIR/journal"
        only db.rec db.rec.journal
    else
        only db.rec
    fi
}

# barred NUMBER LATER TOOL: a later edit, by this tool, is named as in the way of a revert, and of a dry run
barred() {
    stays "db.rec.journal: edit $2, $3, is in the way; revert it first" "$refusal" revert "$1" db.rec
    stays "db.rec.journal: edit $2, $3, is in the way; revert it first" "$refusal" revert "$1" --force --dry-run db.rec
}

@test "an edit is reverted by an event of its own" {
    local events=
    events+=$(edit 1 'A: 1¶B: 1¶' 'A: 2¶B: 1¶' "$(line 0 'A: 1' 'A: 2')")
    events+=$(edit 2 'A: 2¶B: 1¶' 'A: 2¶B: 2¶' "$(line 5 'B: 1' 'B: 2')")
    put db.rec 'A: 2¶B: 2¶'
    put db.rec.journal "$header$events"
    does revert 1 db.rec
    has db.rec 'A: 1¶B: 2¶'
    events+=$(edit 3 'A: 2¶B: 2¶' 'A: 1¶B: 2¶' "$(line 0 'A: 2' 'A: 1')")
    has db.rec.journal "$header$events"
    does revert 002 db.rec
    has db.rec 'A: 1¶B: 1¶'
    events+=$(edit 4 'A: 1¶B: 2¶' 'A: 1¶B: 1¶' "$(line 5 'B: 2' 'B: 1')")
    has db.rec.journal "$header$events"
    tells 'done 1 recset¶done 2 recset¶done 3 recset¶done 4 recset¶'
    only db.rec db.rec.journal
}

@test "the oldest edit, one between others, and the newest" {
    local number
    put db.rec "$three"
    does recset -n 0 -f A -s 7 db.rec
    does recset -n 1 -f B -s 8 db.rec
    does recset -n 2 -f C -s 9 db.rec
    for number in 1 2 3; do
        mkdir "$number"
        cp db.rec db.rec.journal "$number"
        (cd "$number" && "$program" revert "$number" db.rec)
    done
    has 1/db.rec 'A: 1¶¶B: 8¶¶C: 9¶'
    has 2/db.rec 'A: 7¶¶B: 2¶¶C: 9¶'
    has 3/db.rec 'A: 7¶¶B: 8¶¶C: 3¶'
    does undo db.rec
    cmp db.rec 3/db.rec
}

@test "what an edit wrote is found where later edits moved it" {
    put db.rec "$three"
    does recset -n 2 -f C -s 9 db.rec
    does recdel -n 0 db.rec
    does recins -f D -v 4 db.rec
    has db.rec 'B: 2¶¶C: 9¶¶D: 4¶'
    does revert 1 db.rec
    has db.rec 'B: 2¶¶C: 3¶¶D: 4¶'
    does revert 2 db.rec
    has db.rec 'A: 1¶¶B: 2¶¶C: 3¶¶D: 4¶'
    does revert 3 db.rec
    has db.rec "$three"
    tells 'done 1 recset¶done 2 recdel¶done 3 recins¶done 4 recset¶done 5 recdel¶done 6 recins¶'
}

@test "of two records that were put in side by side each can be reverted" {
    put db.rec 'X: 0¶'
    does recins -f A -v 1 db.rec
    does recins -f A -v 2 db.rec
    recu 0 revert 1 --dry-run db.rec
    prints '--- db.rec¶+++ db.rec¶@@ -1,5 +1,3 @@¶ X: 0¶-¶-A: 1¶ ¶ A: 2¶' ''
    recu 0 revert 2 --dry-run db.rec
    prints '--- db.rec¶+++ db.rec¶@@ -1,5 +1,3 @@¶ X: 0¶ ¶ A: 1¶-¶-A: 2¶' ''
    does revert 1 db.rec
    has db.rec 'X: 0¶¶A: 2¶'
    does revert 2 db.rec
    has db.rec 'X: 0¶'
}

@test "untidy texts, and the same lines elsewhere" {
    put db.rec '# c¶A:\x091¶¶¶A:\x091¶B: \xFF¶¶A:\x091'
    does recset -n 1 -f B -s 'x' db.rec
    does recdel -n 0 db.rec
    does recset -n 1 -f A -s 2 db.rec
    has db.rec '# c¶A:\x091¶B: x¶¶A: 2'
    does revert 2 db.rec
    does revert 1 db.rec
    has db.rec '# c¶A:\x091¶¶¶A:\x091¶B: \xFF¶¶A: 2'
    does revert 3 db.rec
    has db.rec '# c¶A:\x091¶¶¶A:\x091¶B: \xFF¶¶A:\x091'
}

@test "a batch is reverted as a batch, by its last step's tool" {
    put db.rec "$three"
    put changes 'Tool: recset¶Number: 0¶Fields: A¶Set: 7¶¶Tool: recdel¶Number: 1¶'
    does batch -b changes db.rec
    does recins -f D -v 4 db.rec
    has db.rec 'A: 7¶¶C: 3¶¶D: 4¶'
    cp db.rec.journal before
    does revert 1 db.rec
    has db.rec 'A: 1¶¶B: 2¶¶C: 3¶¶D: 4¶'
    tells 'done 1 batch¶done 2 recins¶done 3 batch¶'
    put event "Number: 3¶Kind: batch¶Before: $(digest 'A: 7¶¶C: 3¶¶D: 4¶')¶After: $(digest 'A: 1¶¶B: 2¶¶C: 3¶¶D: 4¶')¶Step: recdel¶$(line 0 'A: 7' 'A: 1')At: 6¶Old: \$¶New: B: 2\$¶+ \$¶+ \$¶¶"
    cat before event > wanted
    cmp db.rec.journal wanted
    does undo db.rec
    has db.rec 'A: 7¶¶C: 3¶¶D: 4¶'
    # what one of its steps put in and another took out
    put db.rec 'A: 1¶B: 1¶'
    rm db.rec.journal
    put changes 'Tool: recset¶Fields: A¶Set: 2¶¶Tool: recset¶Fields: A¶Set: 1¶¶Tool: recset¶Fields: B¶Set: 2¶'
    does batch -b changes db.rec
    does recset -f A -s 3 db.rec
    does revert 1 db.rec
    has db.rec 'A: 3¶B: 1¶'
}

@test "a revert is undone, redone, shown and reverted as any other edit" {
    put db.rec 'A: 1¶B: 1¶'
    does recset -f A -s 2 db.rec
    does recset -f B -s 2 db.rec
    does revert 1 db.rec
    has db.rec 'A: 1¶B: 2¶'
    does undo db.rec
    has db.rec 'A: 2¶B: 2¶'
    tells 'done 1 recset¶done 2 recset¶undone 3 recset¶'
    does redo db.rec
    has db.rec 'A: 1¶B: 2¶'
    does recset -f B -s 3 db.rec
    does revert 3 db.rec
    has db.rec 'A: 2¶B: 3¶'
    recu 0 show db.rec
    prints '--- db.rec¶+++ db.rec¶@@ -1,2 +1,2 @@¶-A: 1¶+A: 2¶ B: 3¶' ''
    tells 'done 1 recset¶done 2 recset¶done 3 recset¶done 6 recset¶done 7 recset¶'
    does undo --through 2 db.rec
    has db.rec 'A: 2¶B: 1¶'
    does redo --through 7 db.rec
    has db.rec 'A: 2¶B: 3¶'
    does forget 2 db.rec
    tells 'done 1 recset¶done 2 recset¶'
    does revert 1 db.rec
    has db.rec 'A: 2¶B: 2¶'
}

@test "a dry run prints what show prints afterwards, and does nothing" {
    put db.rec '%rec: P¶%key: Id¶¶Id: 1¶N: a¶¶Id: 2¶N: b¶'
    does recset -t P -n 0 -f N -s x db.rec
    does recset -t P -n 1 -f N -s y db.rec
    does recins -t P -f Id -v 3 db.rec
    cp db.rec db.rec.journal "$BATS_TEST_TMPDIR"
    recu 0 revert 1 --dry-run db.rec
    prints '--- db.rec¶+++ db.rec¶@@ -2,7 +2,7 @@ Id: 1¶ %key: Id¶ ¶ Id: 1¶-N: x¶+N: a¶ ¶ Id: 2¶ N: y¶' ''
    cmp db.rec "$BATS_TEST_TMPDIR/db.rec"
    cmp db.rec.journal "$BATS_TEST_TMPDIR/db.rec.journal"
    only db.rec db.rec.journal
    does revert 1 db.rec
    recu 0 show db.rec
    prints '--- db.rec¶+++ db.rec¶@@ -2,7 +2,7 @@ Id: 1¶ %key: Id¶ ¶ Id: 1¶-N: x¶+N: a¶ ¶ Id: 2¶ N: y¶' ''
}

@test "where the text stays there is no event" {
    put db.rec 'A: 1¶B: 2¶'
    put changes 'Tool: recset¶Fields: A¶Delete: yes¶¶Tool: recset¶Fields: A¶Add: 1¶'
    does batch -b changes db.rec
    has db.rec 'B: 2¶A: 1¶'
    does recset -f B -d db.rec
    cp db.rec.journal before
    does revert 1 --dry-run db.rec
    does revert 1 db.rec
    has db.rec 'A: 1¶'
    cmp db.rec.journal before
}

@test "edits that can't be undone can't be reverted" {
    put db.rec 'A: 1¶'
    stays 'db.rec.journal: no edit can be undone' 'no such edit' revert 1 db.rec
    does recset -f A -s 2 db.rec
    does recset -f A -s 3 db.rec
    does undo db.rec
    stays 'db.rec.journal: edit 1 can be undone' 'no such edit' revert 2 db.rec
    stays 'db.rec.journal: edit 1 can be undone' 'no such edit' revert 3 --dry-run db.rec
    stays 'db.rec.journal: edit 1 can be undone' 'no such edit' revert 18446744073709551615 db.rec
    does redo db.rec
    stays 'db.rec.journal: edits 1 to 2 can be undone' 'no such edit' revert 3 db.rec
    stays 'db.rec.journal: edits 1 to 2 can be undone' 'no such edit' revert 4 --force db.rec
    does undo db.rec
    does recset -f A -s 5 db.rec
    stays 'db.rec.journal: edits 1, 6 can be undone' 'no such edit' revert 2 db.rec
    does forget 1 db.rec
    stays 'db.rec.journal: edit 1 can be undone' 'no such edit' revert 6 db.rec
    does revert 1 db.rec
    has db.rec 'A: 2¶'
}

# led NUMBER LATER..: an edit is reverted once those were reverted that are named, one after another, which are these
led() {
    local named=() later
    until "$program" revert "$1" db.rec 2> "$BATS_TEST_TMPDIR/led"; do
        later=$(sed -n 's/^db.rec.journal: edit \([0-9]*\), [a-z]*, is in the way; revert it first$/\1/p' "$BATS_TEST_TMPDIR/led")
        [ -n "$later" ] && [ "${#named[@]}" -lt 9 ] || fail "revert $1: $(cat "$BATS_TEST_TMPDIR/led")"
        named+=("$later")
        does revert "$later" db.rec
    done
    [ "${named[*]}" = "${*:2}" ] || fail "revert $1: ${named[*]}"
}

# taken_back NUMBER [BY]: an edit isn't reverted, since later ones took it back, or the one of the other number did
taken_back() {
    local said="db.rec.journal: edit $1 was taken back already${2:+, by edit $2}"
    stays "$said" "$refusal" revert "$1" db.rec
    stays "$said" "$refusal" revert "$1" --force --dry-run db.rec
}

@test "a later edit of the same lines is in the way until it is reverted itself" {
    put db.rec 'A: 1¶B: 1¶'
    does recset -f A -s 2 db.rec
    does recset -f B -s 2 db.rec
    does recset -f A -s 3 db.rec
    does recset -f A -s 4 db.rec
    barred 1 4 recset
    barred 3 4 recset
    does revert 4 db.rec
    barred 1 3 recset
    does revert 3 db.rec
    does revert 1 db.rec
    has db.rec 'A: 1¶B: 2¶'
    does recset -f A -s 5 db.rec
    taken_back 1 7
    does revert 8 db.rec
    taken_back 1 7
}

@test "an edit that was in the way and was taken back isn't named" {
    put db.rec 'A: 1¶B: 1¶'
    does recset -f A -s 2 db.rec
    does recset -f A -s 3 db.rec
    does revert 2 db.rec
    does recset -f B -s 2 db.rec
    does recset -f A -s 5 db.rec
    barred 1 5 recset
    taken_back 2 3
    does revert 5 db.rec
    taken_back 2 3
    does revert 1 db.rec
    has db.rec 'A: 1¶B: 2¶'
    taken_back 1 7
}

@test "what the lines say ends" {
    put db.rec 'A: 1¶F: 1¶¶A: 2¶F: 1¶'
    does recset -f F -s 2 db.rec
    does recset -n 0 -f F -s 3 db.rec
    does recset -n 1 -f F -s 4 db.rec
    cp db.rec db.rec.journal "$BATS_TEST_TMPDIR"
    led 1 3 2
    has db.rec 'A: 1¶F: 1¶¶A: 2¶F: 1¶'
    # the older one is reverted first
    cp "$BATS_TEST_TMPDIR/db.rec" "$BATS_TEST_TMPDIR/db.rec.journal" .
    does revert 2 db.rec
    barred 1 3 recset
    led 1 3
    has db.rec 'A: 1¶F: 1¶¶A: 2¶F: 1¶'
    # one is reverted, and that again
    cp "$BATS_TEST_TMPDIR/db.rec" "$BATS_TEST_TMPDIR/db.rec.journal" .
    does revert 3 db.rec
    does revert 4 db.rec
    led 1 3 2
    has db.rec 'A: 1¶F: 1¶¶A: 2¶F: 1¶'
}

@test "several edits of one line" {
    put db.rec 'A: 1¶'
    does recset -f A -s 2 db.rec
    does recset -f A -s 3 db.rec
    does recset -f A -s 4 db.rec
    barred 1 3 recset
    led 1 3 2
    has db.rec 'A: 1¶'
    # one of the values comes back
    does recset -f A -s 5 db.rec
    does recset -f A -s 6 db.rec
    does recset -f A -s 7 db.rec
    does recset -f A -s 6 db.rec
    led 7 8
    has db.rec 'A: 1¶'
}

@test "records in a set that only the edit made" {
    local number
    put db.rec ''
    for number in 1 2 3 4; do
        does recins -t T -f A -v "$number" db.rec
    done
    led 1 2 3 4
    has db.rec ''
    # one of another set isn't named, nor again one that was taken back
    rm db.rec.journal
    does recins -t P -f A -v 1 db.rec
    does recset -t P -n 0 -f B -S 2 db.rec
    does recins -f A -v 3 db.rec
    does recins -t P -f A -v 4 db.rec
    led 1 2 4
    has db.rec 'A: 3¶¶'
}

@test "edits beside the lines aren't named" {
    put db.rec 'A: 1¶B: 1¶C: 1¶¶D: 1¶'
    does recset -f B -s 2 db.rec
    does recset -f B -s 3 db.rec
    does recset -f A -s 2 db.rec
    does recins -f F -v 1 db.rec
    barred 1 2 recset
    led 1 2
    has db.rec 'A: 2¶B: 1¶C: 1¶¶D: 1¶¶F: 1¶'
}

@test "lines between others that were changed" {
    put db.rec 'A: 1¶B: 1¶C: 1¶'
    does recset -f B -s 2 db.rec
    does recset -f B -s 3 db.rec
    does recset -f A -s 2 db.rec
    does recset -f C -s 2 db.rec
    barred 1 2 recset
    # the later change is one of three lines, in which the one between stays
    led 1 2 4
    has db.rec 'A: 2¶B: 1¶C: 1¶'
}

@test "an edit that was taken back already" {
    put db.rec 'A: 1¶B: 1¶¶A: 1¶B: 1¶'
    does recset -f A -s 2 db.rec
    does revert 1 db.rec
    taken_back 1 2
    does recset -f B -s 2 db.rec
    does recins -f A -v 7 db.rec
    taken_back 1 2
    # by another edit than a revert, and by two
    does recset -n 0 -f A -s 3 db.rec
    does recset -n 0 -f A -s 1 db.rec
    taken_back 5 6
    does recset -n 0,1 -f A -s 4 db.rec
    does recset -n 0 -f A -s 1 db.rec
    does recset -n 1 -f A -s 1 db.rec
    taken_back 7
    # a record that was put in, and another one where it stood
    does recins -f D -v 1 db.rec
    does revert 10 db.rec
    taken_back 10 11
    does recins -f D -v 2 db.rec
    taken_back 10 11
    # it is there again, and it isn't
    does revert 2 db.rec
    does revert 1 db.rec
    taken_back 1 14
    does recset -n 0 -f A -s 6 db.rec
    taken_back 1 14
}

@test "an edit that was taken back and made again" {
    put db.rec 'A: 1¶B: 1¶'
    does recset -f A -s 2 db.rec
    does revert 1 db.rec
    does undo db.rec
    # undone, it takes nothing back
    does recset -f A -s 3 db.rec
    barred 1 4 recset
    does revert 4 db.rec
    does revert 1 db.rec
    does revert 6 db.rec
    # reverted, it doesn't either
    does recset -f A -s 4 db.rec
    barred 1 8 recset
    # the same texts in another record
    does revert 8 db.rec
    does recins -f A -v 2 db.rec
    does recset -n 1 -f A -s 1 db.rec
    does recset -n 0 -f A -s 9 db.rec
    barred 1 12 recset
}

@test "the newest in the way is named, wherever it stands" {
    local newest number
    for newest in 2 3 4 5 6 7 8 9; do
        put db.rec 'A: 0¶B: 0¶'
        rm -f db.rec.journal
        fast "$program" recset -f A -s 1 db.rec
        for ((number = 2; number <= 9; number++)); do
            if [ "$number" -le "$newest" ]; then
                fast "$program" recset -f A -s "$number" db.rec
            else
                fast "$program" recset -f B -s "$number" db.rec
            fi
        done
        stays "db.rec.journal: edit $newest, recset, is in the way; revert it first" "$refusal" revert 1 db.rec
    done
}

@test "where the text after an edit is there again, later edits came to nothing" {
    put db.rec 'A: 1¶¶A: 1¶'
    does recdel -n 0 db.rec
    does recset -f A -s 2 db.rec
    does recset -f A -s 1 db.rec
    does revert 1 db.rec
    has db.rec 'A: 1¶¶A: 1¶'
    # another edit stands: it is the one to revert first
    put db.rec 'A: 1¶¶A: 1¶¶B: 1¶'
    rm db.rec.journal
    does recdel -n 0 db.rec
    does recset -n 0 -f A -s 2 db.rec
    does recset -n 1 -f B -s 2 db.rec
    does recset -n 0 -f A -s 1 db.rec
    stays 'db.rec.journal: edit 3, recset, is in the way; revert it first' "$refusal" revert 1 db.rec
    does revert 3 db.rec
    does revert 1 db.rec
    has db.rec 'A: 1¶¶A: 1¶¶B: 1¶'
}

@test "no later edit stands, and the text is another one" {
    put db.rec 'A: 1¶B: x¶¶A: 2¶B: x¶C: 1¶'
    put again 'Tool: recset¶Number: 1¶Fields: B¶Add: x¶¶Tool: recset¶Number: 1¶Fields: C¶Add: 1¶'
    put out 'Tool: recset¶Number: 1¶Fields: C¶Delete: yes¶¶Tool: recset¶Number: 0¶Fields: B¶Delete: yes¶'
    does recset -n 1 -f B,C -d db.rec
    does batch -b again db.rec
    # what went again is an equal field of another record
    does batch -b out db.rec
    rm again out
    local line="db.rec.journal: edit 1 can't be taken back alone any more"
    stays "$line; undo --through 1 takes it back with all later ones" "$refusal" revert 1 db.rec
    does undo --through 1 db.rec
    has db.rec 'A: 1¶B: x¶¶A: 2¶B: x¶C: 1¶'
}

@test "a descriptor that would be left is none" {
    local events=
    events+=$(edit 1 '%rec: T¶%key:¶¶A: 1¶' '%rec: T¶%key: A¶¶A: 1¶' "$(line 8 '%key:' '%key: A')")
    events+=$(edit 2 '%rec: T¶%key: A¶¶A: 1¶' '%rec: T¶%key: A¶¶A: 2¶' "$(line 17 'A: 1' 'A: 2')")
    put db.rec '%rec: T¶%key: A¶¶A: 2¶'
    put db.rec.journal "$header$events"
    stays 'db.rec: without edit 1 it would not read' "$refusal" revert 1 db.rec
}

@test "a batch in the way" {
    put db.rec 'A: 1¶'
    put changes 'Tool: recset¶Fields: A¶Set: 3¶¶Tool: recset¶Fields: A¶Set: 4¶'
    does recset -f A -s 2 db.rec
    does batch -b changes db.rec
    rm changes
    barred 1 2 batch
    led 1 2
    has db.rec 'A: 1¶'
    # one that changes both
    put db.rec 'A: 1¶B: 1¶¶C: 1¶'
    rm db.rec.journal
    put changes 'Tool: recset¶Fields: A¶Set: 3¶¶Tool: recset¶Fields: B¶Set: 3'
    does recset -f A -s 2 db.rec
    does recset -f B -s 2 db.rec
    does batch -b changes db.rec
    rm changes
    does recset -f C -s 2 db.rec
    barred 1 3 batch
    barred 2 3 batch
    led 1 3
    has db.rec 'A: 1¶B: 2¶¶C: 2¶'
}

@test "nobody knows where a record stood whose neighbour was changed" {
    put db.rec "$three"
    does recdel -n 1 db.rec
    does recset -n 0 -f A -s 7 db.rec
    recu 0 revert 1 --dry-run db.rec
    does recset -n 1 -f C -s 9 db.rec
    barred 1 3 recset
    does revert 3 db.rec
    does revert 1 db.rec
    has db.rec 'A: 7¶¶B: 2¶¶C: 3¶'
}

@test "a line without an end would stand within the file" {
    put db.rec 'A: 1'
    does recins -f B -v 2 db.rec
    does recins -f C -v 3 db.rec
    has db.rec 'A: 1¶¶B: 2¶¶C: 3¶'
    barred 1 2 recins
    does revert 2 db.rec
    does revert 1 db.rec
    has db.rec 'A: 1'
}

@test "a line that goes on with a value would come first" {
    put db.rec "''"
    does recins -f B -v 1 db.rec
    does recset -f B -s $'1\ny' db.rec
    has db.rec 'B: 1¶+ y¶'
    barred 1 2 recset
    does revert 2 db.rec
    does revert 1 db.rec
    has db.rec "''"
}

@test "a record keeps its descriptor" {
    put db.rec 'X: 0¶'
    does recins -t P -f N -v 1 db.rec
    does recins -t Q -f M -v 1 db.rec
    # the set goes with the one record that was put in with it
    recu 0 revert 1 --dry-run db.rec
    prints '--- db.rec¶+++ db.rec¶@@ -1,8 +1,4 @@¶ X: 0¶-¶-%rec: P¶-¶-N: 1¶ ¶ %rec: Q¶ ¶' ''
    does recins -t P -f N -v 2 db.rec
    has db.rec 'X: 0¶¶%rec: P¶¶N: 1¶¶N: 2¶¶%rec: Q¶¶M: 1¶'
    barred 1 3 recins
    does revert 2 db.rec
    barred 1 3 recins
    does revert 3 db.rec
    does revert 1 db.rec
    has db.rec 'X: 0¶'
}

@test "a field keeps its record" {
    put db.rec 'A: 1¶'
    does recins -f B -v 2 db.rec
    does recset -n 1 -f C -a 3 db.rec
    has db.rec 'A: 1¶¶B: 2¶C: 3¶'
    barred 1 2 recset
    # a field of the record above may follow, and a record
    does revert 2 db.rec
    does recset -n 0 -f D -a 4 db.rec
    does recins -f E -v 5 db.rec
    has db.rec 'A: 1¶D: 4¶¶B: 2¶¶E: 5¶'
    does revert 1 db.rec
    has db.rec 'A: 1¶D: 4¶¶E: 5¶'
    # a field after the one that goes
    does recset -n 0 -f F -a 6 db.rec
    does revert 4 db.rec
    has db.rec 'A: 1¶F: 6¶¶E: 5¶'
}

@test "a line keeps its value" {
    put db.rec 'Name: Ada¶'
    does recset -f Note -a x db.rec
    does recset -f Note -s $'x\ny' db.rec
    has db.rec 'Name: Ada¶Note: x¶+ y¶'
    barred 1 2 recset
    # the first line of the value is changed back, and the line after it stays
    does recset -f Note -s $'z\ny' db.rec
    does revert 3 db.rec
    has db.rec 'Name: Ada¶Note: x¶+ y¶'
    # nobody wrote the value that would be left
    does recset -f Note -s $'x\na\ny' db.rec
    does recset -f Note -s $'x\ny' db.rec
    does recset -f Note -s $'x\ny\nz' db.rec
    barred 6 7 recset
    led 6 7
    has db.rec 'Name: Ada¶Note: x¶+ a¶+ y¶'
}

@test "a line of a value that begins as a descriptor does" {
    put db.rec 'C: a\¶%rec: Z¶B: 1¶'
    does recset -f C -s 2 db.rec
    does recins -f D -v 1 db.rec
    does revert 1 db.rec
    has db.rec 'C: a\¶%rec: Z¶B: 1¶¶D: 1¶'
}

@test "a field stays in its record" {
    # a field comes back into its own record, or not at all
    put db.rec 'X: 0¶¶B: 2¶A: 1¶¶C: 3¶'
    does recset -n 1 -f B -d db.rec
    does recdel -n 1 db.rec
    barred 1 2 recdel
    does revert 2 db.rec
    does revert 1 db.rec
    has db.rec 'X: 0¶¶B: 2¶A: 1¶¶C: 3¶'
    # one that was put into a record goes with it, or stands against its going
    rm db.rec.journal
    put db.rec "''"
    does recins -f A -v 1 db.rec
    does recset -f C -a 2 db.rec
    barred 1 2 recset
    led 1 2
    has db.rec "''"
    # what is left of a record and what comes back to it are one record again
    rm db.rec.journal
    put db.rec 'A: 1¶B: 1¶'
    put changes 'Tool: recdel¶Number: 0¶¶Tool: recins¶Field: A¶Value: 1¶¶Tool: recins¶Field: B¶Value: 1¶'
    does batch -b changes db.rec
    rm changes
    does recins -f D -v 4 db.rec
    has db.rec 'A: 1¶¶B: 1¶¶D: 4¶'
    does revert 1 db.rec
    has db.rec 'A: 1¶B: 1¶¶D: 4¶'
}

@test "what came back doesn't come back twice" {
    put db.rec 'C: 1¶¶A: 4¶¶B: 5¶¶'
    does recdel -n 2 db.rec
    does recdel -n 1 db.rec
    does revert 1 db.rec
    has db.rec 'C: 1¶¶B: 5¶¶'
    taken_back 1 3
    does revert 3 db.rec
    does revert 1 db.rec
    has db.rec 'C: 1¶¶B: 5¶¶'
}

@test "rules of the file are kept, unless it is forced" {
    local report='6: key Id¶line 6: Id: 1 (also in line 4)¶db.rec: --force reverts the edit all the same'
    put db.rec '%rec: P¶%key: Id¶¶Id: 1¶'
    does recset -t P -f Id -s 2 db.rec
    does recins -t P -f Id -v 1 db.rec
    stays "$report" 'violations: 1' revert 1 db.rec
    stays "$report" 'violations: 1' revert 1 --dry-run db.rec
    recu 0 revert 1 --force --dry-run db.rec
    prints '--- db.rec¶+++ db.rec¶@@ -1,6 +1,6 @@¶ %rec: P¶ %key: Id¶ ¶-Id: 2¶+Id: 1¶ ¶ Id: 1¶' 'db.rec:6: key Id¶'
    forces 'db.rec:6: key Id¶' revert --force 1 db.rec
    has db.rec '%rec: P¶%key: Id¶¶Id: 1¶¶Id: 1¶'
}

@test "violations that stood before" {
    local stood='7: mandatory N¶line 7: Id: 2 (no N)¶all of these stood before the revert: mend them first, by a batch, by hand, or by edits with --force¶db.rec: --force reverts the edit all the same'
    put db.rec '%rec: P¶%mandatory: N¶¶N: a¶Id: 1¶¶Id: 2¶'
    forces 'db.rec:4: mandatory N¶' recset -t P -n 0 -f N -d --force db.rec
    stays "$stood" 'violations: 1' revert 1 db.rec
    does recset -t P -n 1 -f Id -s 3 --force db.rec
    does recset -t P -n 0 -f N -S b --force db.rec
    does recset -t P -n 1 -f N -S c db.rec
    has db.rec '%rec: P¶%mandatory: N¶¶Id: 1¶N: b¶¶Id: 3¶N: c¶'
    explains '4: mandatory N¶line 4: Id: 1 (no N)¶db.rec: --force reverts the edit all the same' 'violations: 1' revert 3 db.rec
}

@test "a file that was changed outside, and one that doesn't read" {
    put db.rec 'A: 1¶'
    does recset -f A -s 2 db.rec
    put db.rec 'A: 7¶'
    stays "$outside" 'the file was changed outside' revert 1 db.rec
    stays "$outside" 'the file was changed outside' revert 9 --dry-run db.rec
    put db.rec 'A: 2¶?¶'
    refuses 'line 2: not a field, comment or blank line' revert 1 db.rec
    put db.rec 'A: 2¶'
    put db.rec.journal 'A: 1¶'
    refuses 'journal line 1: not a journal of recu' revert 1 db.rec
    rm db.rec
    refuses 'a file could not be read or written' revert 1 db.rec
}

@test "a text of the journal was edited by hand" {
    local edited='db.rec.journal: a text in it was changed; move it away to go on without the history'
    put db.rec 'A: 1¶B: 1¶'
    does recset -f A -s 2 db.rec
    does recset -f B -s 2 db.rec
    sed -i 's/^Old: A: 1\$$/Old: A: 8$/' db.rec.journal
    stays "$edited" 'the file was changed outside' revert 1 db.rec
    stays "$edited" 'the file was changed outside' revert 1 --dry-run db.rec
    does revert 2 db.rec
    has db.rec 'A: 2¶B: 1¶'
}

@test "a journal in another folder, and a link" {
    mkdir d e
    put d/real 'A: 1¶B: 1¶'
    ln -s real d/db.rec
    does recset --journal e/j -f A -s 2 d/db.rec
    does recset --journal e/j -f B -s 2 d/db.rec
    explains 'd/real.journal: no edit can be undone' 'no such edit' revert 1 d/db.rec
    does revert 1 --journal e/j d/db.rec
    has d/real 'A: 1¶B: 2¶'
    [ -L d/db.rec ]
    does recset --journal e/j -f A -s 3 d/db.rec
    explains 'e/j: edit 4, recset, is in the way; revert it first' "$refusal" revert --journal e/j 3 d/db.rec
    [ "$(ls d e)" = $'d:\ndb.rec\nreal\n\ne:\nj' ]
}

@test "the oldest of many edits" {
    local number
    put db.rec 'A: 0¶B: 0¶'
    does recset -f A -s 1 db.rec
    for ((number = 1; number <= 60; number++)); do
        fast "$program" recset -f B -s "$number" db.rec
    done
    does revert 1 db.rec
    has db.rec 'A: 0¶B: 60¶'
}

@test "drawn histories" {
    python3 "$top/tests/reverts.py" "$program" 300 4
}
