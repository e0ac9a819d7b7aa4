# Edits and undo: the file and the journal, byte for byte.

load helpers

# digest TEXT
digest() {
    bytes "$1" | sha256sum | cut -d ' ' -f 1
}

@test "a deletion, its undo, and nothing more to undo" {
    put db.rec <<'REC'
A: 1

B: 2

C: 3
REC
    cp db.rec before
    local old new
    old=$(sha256sum < before | cut -d ' ' -f 1)
    new=$(digest 'A: 1¶¶C: 3¶')

    does recdel -n 1 db.rec
    has db.rec <<'REC'
A: 1

C: 3
REC
    has db.rec.journal <<REC
%rec: RecEdit
%doc: recu journal, format 2
%key: Number

Number: 1
Kind: edit
Tool: recdel
Before: $old
After: $new
At: 6
Old: B: 2\$
+ \$
+ \$
New: \$

REC
    cp db.rec.journal journal_of_edit

    does undo db.rec
    has db.rec < before
    put wanted <<REC
Number: 2
Kind: undo
Of: 1
Before: $new
After: $old

REC
    cat journal_of_edit wanted > journal_of_both
    has db.rec.journal < journal_of_both

    refuses 'nothing to undo' undo db.rec
    has db.rec < before
    has db.rec.journal < journal_of_both
    only before db.rec db.rec.journal journal_of_both journal_of_edit wanted
}

# edited AFTER WORD..: recset gives the text after, and undo brings all bytes back
edited() {
    does recset "${@:2}" db.rec
    has db.rec "$1"
    does undo db.rec
    has db.rec "$people"
}

people='# P¶Name:  Ada¶# c¶Mail: a\¶b¶Mail: c¶¶Name: Bo'

@test "each action of recset" {
    put db.rec "$people"
    edited '# P¶Name: x¶# c¶Mail: a\¶b¶Mail: c¶¶Name: x' -f Name -s x
    edited '# P¶Name:  Ada¶# c¶Mail: a\¶b¶Mail: -5¶+ y¶¶Name: Bo' -f 'Mail[1]' --set=$'-5\ny'
    edited '# P¶Name:  Ada¶# c¶Mail: a\¶b¶Mail: c¶Age: 1¶¶Name: Bo¶Age: 1¶' -f Age -a 1
    edited '# P¶Name:  Ada¶# c¶Mail: x¶Mail: x¶¶Name: Bo¶Mail: x¶' -f Mail -S x
    edited '# P¶Name:  Ada¶# c¶Post: a\¶b¶Post: c¶¶Name: Bo' -f Mail -r Post
    edited '# P¶# c¶Mail: a\¶b¶Mail: c¶¶' -f Name -d
    edited '# P¶Name:  Ada¶# c¶#Mail: a\¶#b¶#Mail: c¶¶Name: Bo' -f Mail -c
    edited '# P¶Name:  Ada¶# c¶Mail: a\¶b¶Mail: c¶¶Name: Cy' -q Bo -f Name -s Cy
    edited '# P¶Name:  Ada¶# c¶Mail: a\¶b¶Mail: c¶¶Name: Cy' -e '!#Mail' -f Name -s Cy
    edited '# P¶Name:  Ada¶# c¶Mail: a\¶b¶Mail: c¶¶Name: Cy' --where Name=Bo -f Name -s Cy
    edited '# P¶Name:  Ada¶# c¶Mail: a\¶b¶Mail: c¶¶Name: Cy' -n 1 -f Name -s Cy
    only db.rec db.rec.journal
}

@test "a value from elsewhere selects what has it, whatever it is" {
    local name
    put db.rec "Name: O'Brien¶Note: a\¶b¶+ c¶¶Name: Ann¶¶Name: a=b¶"
    for name in "' || '1' = '1" "Ann' || '1' = '1" '" || 1 = 1' '.*' '' 'O' "O'Brie" 'ann'; do
        does recdel --where "Name=$name" db.rec
        does recdel -c --where "Name=$name" db.rec
        does recset --where "Name=$name" -f Name -s x db.rec
        does recins --where "Name=$name" -f Name -v x db.rec
        has db.rec "Name: O'Brien¶Note: a\¶b¶+ c¶¶Name: Ann¶¶Name: a=b¶"
    done
    only db.rec
    does recset --where "Name=O'Brien" -f Name -s "O'Hara" db.rec
    has db.rec "Name: O'Hara¶Note: a\¶b¶+ c¶¶Name: Ann¶¶Name: a=b¶"
    does undo db.rec
    does recins --where Name=a=b -f Name -v x db.rec
    has db.rec "Name: O'Brien¶Note: a\¶b¶+ c¶¶Name: Ann¶¶Name: x¶"
    does undo db.rec
    does recdel --where $'Note=ab\nc' db.rec
    has db.rec 'Name: Ann¶¶Name: a=b¶'
    does undo db.rec
    does recdel -c --where Name=Ann db.rec
    has db.rec "Name: O'Brien¶Note: a\¶b¶+ c¶¶#Name: Ann¶¶Name: a=b¶"
    does undo db.rec
    has db.rec "Name: O'Brien¶Note: a\¶b¶+ c¶¶Name: Ann¶¶Name: a=b¶"
}

@test "records are commented out" {
    put db.rec "$people"
    does recdel -c -n 0 db.rec
    has db.rec '# P¶#Name:  Ada¶## c¶#Mail: a\¶#b¶#Mail: c¶¶Name: Bo'
    does undo db.rec
    has db.rec "$people"
}

@test "all records are deleted or commented out with --force alone" {
    put db.rec "$three"
    refuses 'no selection given, use --force' recdel db.rec
    refuses 'no selection given, use --force' recdel -c db.rec
    has db.rec "$three"
    only db.rec
    does recdel --force db.rec
    has db.rec ''
    does undo db.rec
    does recdel -c --force db.rec
    has db.rec '#A: 1¶¶#B: 2¶¶#C: 3¶'
    does undo db.rec
    has db.rec "$three"
}

@test "an edit that breaks a rule is refused with its report" {
    put db.rec '%rec: P¶%size: >= 2¶¶N: 1¶¶N: 2¶'
    recu 1 recdel -t P -n 0 db.rec
    prints '' '1: size P¶line 1: %rec: P (1 record, %size: >= 2)¶db.rec: --force makes the edit all the same¶recu: violations: 1¶'
    has db.rec '%rec: P¶%size: >= 2¶¶N: 1¶¶N: 2¶'
    only db.rec
    forces 'db.rec:1: size P¶' recdel -t P -n 0 --force db.rec
    has db.rec '%rec: P¶%size: >= 2¶¶N: 2¶'
    recu 1 recfix db.rec
    prints '1: size P¶' ''
    does undo db.rec
    has db.rec '%rec: P¶%size: >= 2¶¶N: 1¶¶N: 2¶'
    put keyed.rec '%rec: P¶%key: Id¶¶Id: 1¶¶Id: 2¶¶Id: 3¶'
    recu 1 recset -n 1-2 -f Id -s 1 keyed.rec
    prints '' '6: key Id¶8: key Id¶line 6: Id: 1 (also in line 4)¶line 8: Id: 1 (also in line 4)¶keyed.rec: --force makes the edit all the same¶recu: violations: 2¶'
    only db.rec db.rec.journal keyed.rec
}

@test "an edit that changes nothing writes nothing" {
    put db.rec "$three"
    does recdel -n 7 db.rec
    does recset -f A -s 1 db.rec
    does recset -n 7 -f A -a 1 db.rec
    has db.rec "$three"
    only db.rec
}

@test "a journal of another name" {
    put db.rec "$three"
    mkdir journals
    recu 0 recdel --journal journals/j --number=0,2 db.rec
    has db.rec 'B: 2¶¶'
    recu 0 undo --journal=journals/j db.rec
    has db.rec "$three"
    only db.rec journals
}

@test "refused requests leave both files" {
    put db.rec "$three"
    refuses 'index list: error at byte 2' recdel -n 3-1 db.rec
    refuses 'nothing to undo' undo db.rec
    refuses 'field list: error at byte 1' recset -f 'A[0]' -a 1 db.rec
    refuses 'bad name' recset -f A -r 1A db.rec
    refuses 'a line of the value ends in a backslash' recset -f A -s 'x\' db.rec
    refuses 'no such record type' recset -t P -f A -s x db.rec
    put bad.rec 'A: 1¶no field¶'
    refuses 'line 2: not a field, comment or blank line' recdel -n 0 bad.rec
    put journal 'hello¶'
    refuses 'journal line 1: not a journal of recu' undo --journal journal db.rec
    has db.rec "$three"
    has bad.rec 'A: 1¶no field¶'
    has journal 'hello¶'
    only bad.rec db.rec journal
}

@test "a file that was changed by hand" {
    put db.rec "$three"
    recu 0 recdel -n 1 db.rec
    put db.rec 'A: 7¶¶C: 3¶'
    cp db.rec.journal before
    refuses 'the file was changed outside' undo db.rec
    has db.rec 'A: 7¶¶C: 3¶'
    has db.rec.journal < before
    recu 0 recdel -n 0 db.rec
    has db.rec 'C: 3¶'
    recu 0 undo db.rec
    has db.rec 'A: 7¶¶C: 3¶'
    only before db.rec db.rec.journal
}

# leads_to TEXT AFTER WORD..: the words give the text after; undo brings all bytes back, and redo again those after
leads_to() {
    put db.rec "$1"
    does "${@:3}" db.rec
    has db.rec "$2"
    does undo db.rec
    has db.rec "$1"
    does redo db.rec
    has db.rec "$2"
    only db.rec db.rec.journal
    rm db.rec.journal
}

@test "an untidy file" {
    leads_to '# \xFF\x00\x09¶ \x09 ¶A:\x091 ¶B:¶+\x09x¶# \¶C: \¶¶+  y\x0D¶#¶¶\x09¶# z¶D: 1¶E: 2' \
        '# \xFF\x00\x09¶ \x09 ¶#¶¶\x09¶# z¶D: 1¶E: 2' recdel -n 0
}

@test "records are put in" {
    leads_to '# top' '# top¶¶A: a¶+ b¶A: ¶' recins -f A -v $'a\nb' -f A -v ''
    leads_to 'A: 1¶¶A: 2¶¶B: 3' 'C: 1¶D: 2¶¶C: 1¶D: 2¶¶B: 3' recins -e '#B = 0' -f C -v 1 -f D -v 2
}

@test "a record that breaks a rule is put in with --force alone" {
    local keyed='%rec: P¶%key: Id¶¶Id: 1¶'
    put db.rec "$keyed"
    recu 1 recins -t P -f Id -v 1 db.rec
    prints '' '6: key Id¶line 6: Id: 1 (also in line 4)¶db.rec: --force makes the edit all the same¶recu: violations: 1¶'
    has db.rec "$keyed"
    only db.rec
    forces 'db.rec:6: key Id¶' recins -t P -f Id -v 1 --force db.rec
    has db.rec "$keyed¶Id: 1¶"
    recu 1 recfix db.rec
    prints '6: key Id¶' ''
    does undo db.rec
    has db.rec "$keyed"
    only db.rec db.rec.journal
}

@test "a forced batch that mends one record and breaks another that begins alike" {
    put db.rec '%rec: P¶%mandatory: B¶¶A: 1¶¶A: 1¶B: 2¶'
    local changes='Tool: recset¶Type: P¶Number: 0¶Fields: B¶Add: 1¶¶Tool: recset¶Type: P¶Number: 1¶Fields: B¶Delete: yes¶'
    put changes "$changes"
    forces 'db.rec:7: mandatory B¶' batch --force -b changes db.rec
    # where records go out or come in
    put more.rec '%rec: P¶%mandatory: B¶¶A: 1¶C: 1¶¶A: 1¶B: 2¶¶A: 3¶B: 3¶'
    put changes "$changes¶Tool: recdel¶Type: P¶Number: 2¶"
    forces 'more.rec:8: mandatory B¶' batch --force -b changes more.rec
}

@test "of a forced edit it is said which rules it breaks, and not which were broken before" {
    local keyed='%rec: P¶%key: Id¶%mandatory: N¶¶Id: 1¶¶Id: 2¶N: b¶'
    put db.rec "$keyed"
    does recset --force -t P -n 0 -f A -s 1 db.rec
    does recset --force -t P -n 0 -f A -S 1 db.rec
    has db.rec '%rec: P¶%key: Id¶%mandatory: N¶¶Id: 1¶A: 1¶¶Id: 2¶N: b¶'
    recu 0 recset --force --dry-run -n 1 -f Id -s 1 db.rec
    prints '--- db.rec¶+++ db.rec¶@@ -5,5 +5,5 @@¶ Id: 1¶ A: 1¶ ¶-Id: 2¶+Id: 1¶ N: b¶' 'db.rec:8: key Id¶'
    forces 'db.rec:8: key Id¶' recset --force -n 1 -f Id -s 1 db.rec
    forces 'db.rec:11: mandatory N¶' recins --force -t P -f Id -v 3 db.rec
    put changes 'Tool: recdel¶Number: 0-1¶¶Tool: recins¶Type: P¶Field: Id¶Value: 3¶'
    recu 0 batch --force --dry-run -b changes db.rec
    has "$BATS_TEST_TMPDIR/err" 'db.rec:7: key Id¶db.rec:7: mandatory N¶'
    forces 'db.rec:7: key Id¶db.rec:7: mandatory N¶' batch --force -b changes db.rec
    does recdel --force -t P db.rec
}

@test "records that are refused" {
    put db.rec "$three"
    refuses 'not exactly one record' recins -r $'A: 1\n\nB: 2' db.rec
    refuses 'not exactly one record' recins -r '# A: 1' db.rec
    refuses 'not exactly one record' recins -r 'no field' db.rec
    refuses 'a line of the value ends in a backslash' recins -r $'B: x\\\\\n\n' db.rec
    refuses 'bad name' recins -r '%rec: Q' db.rec
    put last.rec '%rec: P¶%auto: Id¶%type: Id int¶¶Id: 9223372036854775807¶'
    refuses 'no automatic value' recins -t P -f N -v x last.rec
    put date.rec '%rec: P¶%auto: Day¶%type: Day date¶'
    refuses 'no automatic value' recins -t P -f N -v x date.rec
    put kind.rec '%rec: P¶%auto: Id¶%type: Id T¶'
    refuses 'no automatic value' recins -t P -f N -v x kind.rec
    has db.rec "$three"
    only date.rec db.rec kind.rec last.rec
}

@test "automatic fields of all records" {
    put db.rec '%rec: P¶%auto: Id¶¶N: a¶¶Id: 4¶¶N: b¶'
    does recfix --auto db.rec
    has db.rec '%rec: P¶%auto: Id¶¶Id: 5¶N: a¶¶Id: 4¶¶Id: 6¶N: b¶'
    cp db.rec.journal journal
    does recfix --auto db.rec
    has db.rec.journal < journal
    does undo db.rec
    has db.rec '%rec: P¶%auto: Id¶¶N: a¶¶Id: 4¶¶N: b¶'
    does redo db.rec
    has db.rec '%rec: P¶%auto: Id¶¶Id: 5¶N: a¶¶Id: 4¶¶Id: 6¶N: b¶'
    put keyed.rec '%rec: P¶%auto: Id¶%mandatory: N¶¶A: 1¶'
    recu 1 recfix --auto keyed.rec
    prints '' '5: mandatory N¶line 5: Id: 0 (no N)¶all of these stood before the edit: mend them first, by a batch, by hand, or by edits with --force¶keyed.rec: --force makes the edit all the same¶recu: violations: 1¶'
    does recfix --auto --force --journal=j keyed.rec
    has keyed.rec '%rec: P¶%auto: Id¶%mandatory: N¶¶Id: 0¶A: 1¶'
    only db.rec db.rec.journal j journal keyed.rec
}

# tells HISTORY WORD..: what history prints
tells() {
    recu 0 history "${@:2}"
    prints "$1" ''
}

@test "the history, undo and redo" {
    put db.rec 'A: 1¶'
    tells '' db.rec
    only db.rec
    does recset -n 0 -f A -s 2 db.rec
    does recset -n 0 -f A -s 3 db.rec
    tells 'done 1 recset¶done 2 recset¶' db.rec
    does undo db.rec
    tells 'done 1 recset¶undone 2 recset¶' db.rec
    does undo db.rec
    has db.rec 'A: 1¶'
    tells 'undone 1 recset¶undone 2 recset¶' db.rec
    does redo db.rec
    has db.rec 'A: 2¶'
    tells 'done 1 recset¶undone 2 recset¶' db.rec
    does recset -n 0 -f A -s 9 db.rec
    has db.rec 'A: 9¶'
    refuses 'nothing to redo' redo db.rec
    tells 'done 1 recset¶done 6 recset¶' --journal db.rec.journal db.rec
    does recins -f B -v 1 db.rec
    does recdel -n 0 db.rec
    tells 'done 1 recset¶done 6 recset¶done 7 recins¶done 8 recdel¶' db.rec
    only db.rec db.rec.journal
}

@test "the history of a file that was changed by hand" {
    put db.rec 'A: 1¶'
    does recset -n 0 -f A -s 2 db.rec
    put db.rec 'A: 7¶'
    tells 'drifted¶' db.rec
    refuses 'the file was changed outside' undo db.rec
    refuses 'the file was changed outside' redo db.rec
    recu 0 recset --dry-run -n 0 -f A -s 8 db.rec
    prints '--- db.rec¶+++ db.rec¶@@ -1,1 +1,1 @@¶-A: 7¶+A: 8¶' "db.rec: it was changed outside; 1 edit before that couldn't be undone any more¶"
    tells 'drifted¶' db.rec
    recu 0 recset -n 0 -f A -s 8 db.rec
    prints '' "db.rec: it was changed outside; 1 edit before that can't be undone any more¶"
    tells 'done 2 recset¶' db.rec
    does undo db.rec
    has db.rec 'A: 7¶'
    refuses 'nothing to undo' undo db.rec
    put bad 'hello¶'
    refuses 'journal line 1: not a journal of recu' history --journal bad db.rec
    refuses 'journal line 1: not a journal of recu' redo --journal bad db.rec
    only bad db.rec db.rec.journal
}

@test "the event of a redo" {
    put db.rec 'A: 1¶'
    local one two
    one=$(digest 'A: 1¶')
    two=$(digest 'A: 2¶')
    does recset -n 0 -f A -s 2 db.rec
    does undo db.rec
    cp db.rec.journal before
    does redo db.rec
    put wanted <<REC
Number: 3
Kind: redo
Of: 1
Before: $one
After: $two

REC
    cat before wanted > both
    has db.rec.journal < both
    only before both db.rec db.rec.journal wanted
}
