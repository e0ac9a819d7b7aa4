# What is said on standard error of a command that succeeded.

load helpers

@test "what is said on a terminal of what was done" {
    # told LINE WORD..: on a terminal standard error gets this line, and standard output no other text than elsewhere
    told() {
        local line=$1
        shift
        TERM=dumb script -qec "'$recu' $* > printed" /dev/null > seen
        has seen "${line:+$line\x0D¶}"
    }
    put f 'A: 1¶¶A: 2¶'
    told '2 records would change' recset --dry-run -f A -s 3 f
    has printed '--- f¶+++ f¶@@ -1,3 +1,3 @@¶-A: 1¶+A: 3¶ ¶-A: 2¶+A: 3¶'
    told '2 records changed (edit 1)' recset -f A -s 3 f
    has printed ''
    told 'f: nothing changed' recset -f A -s 3 f
    told 'f: nothing would change' recset --dry-run -f A -s 3 f
    told 'f: no record is selected' recset -n 7 -f A -s 4 f
    told 'f: no record is selected' recdel --dry-run -n 7 f
    told '1 record changed (edit 2)' recdel -n 1 f
    told 'it would undo edit 2, recdel' undo --dry-run f
    told 'undone: edit 2, recdel' undo f
    told 'it would redo edit 2, recdel' redo --dry-run f
    told 'redone: edit 2, recdel' redo f
    told '' undo --dry-run --through 1 f
    told 'undone: edits 2 to 1' undo --through 1 f
    has printed ''
    told 'redone: edit 1, recset' redo --through 1 f
    told 'redone: edit 2, recdel' redo --through 2 f
    told 'undone: edit 2, recdel' undo --through 2 f
    told 'undone: edit 1, recset' undo f
    told 'redone: edits 1 to 2' redo --through 2 f
    has printed ''
    told '1 edit forgotten' forget 1 f
    told 'nothing forgotten' forget 1 f
    told 'nothing forgotten' forget 1 --dropped f
    put b 'Tool: recins¶Field: A¶Value: 5¶¶Tool: recset¶Fields: A¶Set: 6¶'
    told '3 records changed (edit 2)' batch -b b f
    told 'undone: edit 2, batch' undo f
    told '' history f
    told '' show f
    told '' recsel f
    # an edit after an undo drops what was undone
    does recset -f A -s 7 f
    told 'nothing forgotten' forget 5 f
    told '1 dropped edit forgotten' forget 5 --dropped f
    told 'nothing forgotten' forget 5 --dropped f
    does recset -f A -s 8 f
    does recset -f A -s 9 f
    does undo --through 3 f
    does recset -f A -s 10 f
    told '2 dropped edits forgotten' forget 5 --dropped f
    does undo f
    does recset -f A -s 11 f
    told '1 edit forgotten, 1 dropped edit forgotten' forget 2 --dropped f
    does recset -f A -s 12 f
    does undo --through 2 f
    does recset -f A -s 13 f
    does recset -f A -s 14 f
    told '2 edits forgotten, 2 dropped edits forgotten' forget 1 --dropped f
}

@test "what is said on a terminal of what may not have been meant" {
    # told WORDS LINE..: on a terminal standard error gets these lines
    told() {
        TERM=dumb script -qec "'$recu' $(bytes "$1") > printed" /dev/null > seen
        printf '%s\r\n' "${@:2}" | has seen
    }
    put f 'A: 1¶¶A: 2¶'
    told "recins -r '# c¶B: 1' f" '1 record changed (edit 1)' 'comments of the text were left out'
    told "recins -n 0 -r 'B: 1¶# c' f" '1 record changed (edit 2)' 'comments of the text were left out'
    told "recins -r 'B: # c' f" '1 record changed (edit 3)'
    told "recset -q '' -f C -a 1 f" '4 records changed (edit 4)' 'every record has the empty text; undo takes the edit back'
    told "recdel -q '' f" '4 records changed (edit 5)' 'every record has the empty text; undo takes the edit back'
    does undo f
    told "recdel -q 1 f" '4 records changed (edit 7)' "1 edit that was undone can't be redone any more"
}

@test "why an edit changes nothing" {
    # told WORDS LINE..: on a terminal standard error gets these lines
    told() {
        TERM=dumb script -qec "'$recu' $1 > printed" /dev/null > seen
        printf '%s\r\n' "${@:2}" | has seen
        has printed ''
    }
    local none='f: no record is selected'
    put f 'A: 1¶B: 1¶¶A: 2¶¶%rec: P¶¶C: 1¶'
    told "recset -n 0 -f A -s 1 f" 'f: nothing changed'
    told "recset -f C -s 1 f" 'f: nothing changed' 'f: no record that is selected has a field C; -S adds it'
    told "recset --dry-run -n 1 -f B,C -s 1 f" 'f: nothing would change' 'f: no record that is selected has a field B,C; -S adds it'
    told "recset -n 0 -f 'A[1]' -d f" 'f: nothing changed' 'f: no record that is selected has a field A[1]'
    told "recset -t P -f C -s 1 f" 'f: nothing changed'
    told "recset -n 0 -f B -S 1 f" 'f: nothing changed'
    told "recset -e \"A = 3 && Aa[0] = 'A1 \\\\' B1' || #A_1 = 0x1F && Aa != A\" -f A,C -s 1 f" "$none" \
        'f: no record of the set has a field Aa' 'f: no record of the set has a field A_1' 'f: no record of the set has a field C'
    told "recset --where A=3 -f B -s 1 ./f" './f: no record is selected'
    told "recset --where a=3 -f B -s 1 f" "$none" 'f: no record of the set has a field a'
    told "recset -t P --where A=1 -f A -a 1 f" "$none" 'f: no record of the set has a field A'
    told "recdel -e 'Aa = 1' f" "$none" 'f: no record of the set has a field Aa'
    told "recins -q x -f A -v 1 f" "$none"
    told "recset -n 7 -f D -r E f" "$none" 'f: no record of the set has a field D'
    only f printed seen
}

@test "edits that can't be redone any more are told of on a terminal" {
    # told WORDS LINE..: on a terminal standard error gets these lines
    told() {
        TERM=dumb script -qec "'$recu' $1 > printed" /dev/null > seen
        printf '%s\r\n' "${@:2}" | has seen
    }
    put f 'A: 1¶B: 1¶'
    does recset -f A -s 2 f
    does recset -f A -s 3 f
    does recset -f A -s 4 f
    does undo f
    told 'recset --dry-run -f A -s 5 f' '1 record would change' "1 edit that was undone couldn't be redone any more"
    does undo f
    told 'recset --dry-run -f A -s 5 f' '1 record would change' "2 edits that were undone couldn't be redone any more"
    told 'recset --dry-run -f A -s 2 f' 'f: nothing would change'
    recu 0 recset --dry-run -f A -s 5 f
    prints '--- f¶+++ f¶@@ -1,2 +1,2 @@¶-A: 2¶+A: 5¶ B: 1¶' ''
    told 'redo --dry-run f' 'it would redo edit 2, recset'
    told 'recset -f A -s 2 f' 'f: nothing changed'
    told 'recset -f A -s 5 f' '1 record changed (edit 6)' "2 edits that were undone can't be redone any more"
    told 'recset -f A -s 6 f' '1 record changed (edit 7)'
    does undo f
    told "recset -q '' -f B -s 2 f" '1 record changed (edit 9)' 'every record has the empty text; undo takes the edit back' \
        "1 edit that was undone can't be redone any more"
    does recset -f B -s 3 f
    does undo f
    told 'revert --dry-run 9 f' 'it would revert edit 9, recset' "1 edit that was undone couldn't be redone any more"
    told 'revert 9 f' 'reverted: edit 9, recset (edit 12)' "1 edit that was undone can't be redone any more"
}

@test "a journal that may be another file's" {
    local said='f: it was changed outside; 1 edit before that'
    put f 'A: 1¶'
    put g 'A: 1¶B: 1¶'
    does recset -f A -s 2 --journal j g
    recu 0 recset --dry-run -f A -s 2 --journal j f
    prints '--- f¶+++ f¶@@ -1,1 +1,1 @@¶-A: 1¶+A: 2¶' "$said couldn't be undone any more¶j: it may be the journal of another file¶"
    recu 0 recset -f A -s 2 --journal j f
    prints '' "$said can't be undone any more¶j: it may be the journal of another file¶"
    # an earlier text of the file, and the journal beside it
    does recset -f A -s 3 --journal j f
    put f 'A: 1¶'
    recu 0 recset -f A -s 4 --journal j f
    prints '' "f: it was changed outside; 2 edits before that can't be undone any more¶"
    put f 'A: 9¶'
    recu 0 recset -f A -s 5 --journal f.journal f
    prints '' ''
    put f 'A: 8¶'
    recu 0 recset -f A -s 5 --journal f.journal f
    prints '' "$said can't be undone any more¶"
}

@test "what is said on a terminal of a revert" {
    told() {
        local line=$1
        shift
        TERM=dumb script -qec "'$recu' $* > printed" /dev/null > seen
        has seen "${line:+$line\x0D¶}"
    }
    put f 'A: 1¶B: 1¶'
    put b 'Tool: recset¶Fields: A¶Delete: yes¶¶Tool: recset¶Fields: A¶Add: 1¶'
    does recset -f A -s 2 f
    does recset -f B -s 2 f
    told 'it would revert edit 1, recset' revert --dry-run 1 f
    has printed '--- f¶+++ f¶@@ -1,2 +1,2 @@¶-A: 2¶+A: 1¶ B: 2¶'
    told 'reverted: edit 1, recset (edit 3)' revert 1 f
    has printed ''
    told 'undone: edit 3, recset' undo f
    does redo f
    does batch -b b f
    told 'reverted: edit 6, batch (edit 7)' revert 6 f
    does undo f
    does recset -f B -d f
    told 'f: nothing would change' revert --dry-run 6 f
    told 'f: nothing changed' revert 6 f
    has f 'A: 1¶'
}

@test "on a terminal a history from which the file has drifted says how to adopt" {
    local words adopt='f: recu adopt OLD f makes the change an edit, OLD being the text before it or any of the history'
    put f 'A: 1¶'
    does recset -f A -s 2 f
    for words in 'history f' 'history --patch f'; do
        put f 'A: 3¶'
        TERM=dumb script -qec "'$recu' $words > printed" /dev/null > seen
        has printed 'drifted¶'
        printf '%s\r\n' "$adopt" 'f: else the next edit begins a new history' | has seen
        recu 0 $words
        prints 'drifted¶' ''
        # the last text, and the one before the last edit, which doesn't count then
        for text in 'A: 2¶' 'A: 1¶'; do
            put f "$text"
            TERM=dumb script -qec "'$recu' $words > printed" /dev/null > seen
            has seen ''
        done
    done
}

@test "nothing is said of it in scripts and pipes" {
    put f 'A: 1¶'
    recu 0 recset -f A -s 2 f
    prints '' ''
    recu 0 recset -n 7 -f A -s 2 f
    prints '' ''
    recu 0 undo f
    prints '' ''
    recu 0 redo f
    prints '' ''
    recu 0 recset -f A -s 3 f
    recu 0 undo --through 1 f
    prints '' ''
    recu 0 redo --through 4 f
    prints '' ''
    recu 0 revert 4 f
    prints '' ''
    recu 0 forget 0 f
    prints '' ''
}

@test "edits that can't be undone any more are told of always" {
    local said='it was changed outside'
    put f 'A: 1¶'
    does recset -f A -s 2 f
    put f 'A: 3¶'
    recu 0 recset --dry-run -f A -s 4 f
    prints '--- f¶+++ f¶@@ -1,1 +1,1 @@¶-A: 3¶+A: 4¶' "f: $said; 1 edit before that couldn't be undone any more¶"
    recu 0 recset -f A -s 4 f
    prints '' "f: $said; 1 edit before that can't be undone any more¶"
    does recset -f A -s 5 f
    put f 'A: 6¶'
    # nothing is lost by an edit that changes nothing, or is refused
    does recset -f A -s 6 f
    refuses 'no selection given, use --force' recdel f
    recu 0 recins -f A -v 7 f
    prints '' "f: $said; 2 edits before that can't be undone any more¶"
    # the text before the last edit: that edit alone doesn't count any more, and is no change of another program
    does recset -n 0 -f A -s 8 f
    put f 'A: 6¶¶A: 7¶'
    does recset -n 0 -f A -s 9 f
    put f 'A: 6¶¶A: 7¶'
    TERM=dumb script -qec "'$recu' recdel -n 1 f" /dev/null > seen
    has seen '1 record changed (edit 5)\x0D¶'
}

@test "on a terminal too it is said how far several moves went before a refusal" {
    local status=0
    put f 'A: 1¶'
    does recset -f A -s 2 f
    does recset -f A -s 3 f
    sed -i '0,/^New: A: 2/ s//New: A: 7/' f.journal
    TERM=dumb script -qec "'$recu' undo --through 1 f" /dev/null > seen || status=$?
    [ "$status" = 1 ]
    has seen "undone: edit 2\x0D¶f.journal: a text in it was changed; move it away to go on without the history\x0D¶recu: the file was changed outside\x0D¶"
    has f 'A: 2¶'
}
