# What edits changed, and would change: the diffs of show, history --patch and dry runs, by hand, and by patch and git apply, which
# make such a change and take it back.

load helpers

# changes NAME BEFORE AFTER DIFF [OPTION]: patch and git apply, with that option, lead by the diff from one text to the other, and with
# -R back
changes() {
    local way from to
    bytes "$4" > "$BATS_TEST_TMPDIR/diff"
    bytes "$2" > "$BATS_TEST_TMPDIR/before"
    bytes "$3" > "$BATS_TEST_TMPDIR/after"
    mkdir -p "$BATS_TEST_TMPDIR/there" && cd "$BATS_TEST_TMPDIR/there" || fail 'no folder to patch in'
    [ -e .git ] || git init -q .
    for way in '' -R; do
        from=before to=after
        [ -z "$way" ] || from=after to=before
        for tool in 'patch -p0 -s -f --binary --no-backup-if-mismatch' "git apply -p0 ${5-}"; do
            cp "$BATS_TEST_TMPDIR/$from" "./$1"
            $tool $way < "$BATS_TEST_TMPDIR/diff" || fail "$tool $way refuses:" "$(cat "$BATS_TEST_TMPDIR/diff")"
            # A text without a byte is no file after patch.
            [ -e "./$1" ] || : > "./$1"
            cmp "./$1" "$BATS_TEST_TMPDIR/$to" || fail "$tool $way leads elsewhere"
            rm "./$1"
        done
    done
    cd "$OLDPWD" || fail 'no way back'
}

# shows_diff LINES BEFORE WORDS HUNKS: the words, tried and made, change the file f so, with that many lines around the changes
shows_diff() {
    local diff="--- f¶+++ f¶$4" after
    put f "$2"
    eval "recu 0 $(bytes "${3/ / --dry-run --unified $1 }") f"
    prints "$diff" ''
    has f "$2"
    only f
    eval "does $(bytes "$3") f"
    recu 0 show --unified "$1" f
    prints "$diff" ''
    recu 0 show 1 --unified="$1" f
    prints "$diff" ''
    recu 0 history --patch --unified "$1" f
    prints "done 1 ${3%% *}¶$diff" ''
    after=$(sed 's/\\/\\x5C/g' f; echo .)
    after=${after%.}
    changes f "$2" "${after//$'\n'/¶}" "$diff" "$([ "$1" != 0 ] || echo --unidiff-zero)"
    does undo f
    has f "$2"
    recu 0 redo --dry-run --unified "$1" f
    prints "$diff" ''
    recu 0 history --unified "$1" --patch f
    prints "undone 1 ${3%% *}¶$diff" ''
    has f "$2"
}

has_diff() {
    shows_diff 0 "$@"
}

@test "what an edit changes" {
    each has_diff diffs.rows
}

@test "lines around the changes" {
    each shows_diff contexts.rows
}

@test "three lines stand around a change where no number is given" {
    put f 'A: 1¶B: 2¶C: 3¶D: 4¶E: 5¶F: 6¶G: 7¶H: 8¶I: 9¶'
    does recset -f E -s 0 f
    recu 0 show f
    prints '--- f¶+++ f¶@@ -2,7 +2,7 @@ A: 1¶ B: 2¶ C: 3¶ D: 4¶-E: 5¶+E: 0¶ F: 6¶ G: 7¶ H: 8¶' ''
    recu 0 history --patch f
    prints 'done 1 recset¶--- f¶+++ f¶@@ -2,7 +2,7 @@ A: 1¶ B: 2¶ C: 3¶ D: 4¶-E: 5¶+E: 0¶ F: 6¶ G: 7¶ H: 8¶' ''
    recu 0 undo --dry-run f
    prints '--- f¶+++ f¶@@ -2,7 +2,7 @@ A: 1¶ B: 2¶ C: 3¶ D: 4¶-E: 0¶+E: 5¶ F: 6¶ G: 7¶ H: 8¶' ''
    recu 0 revert --dry-run 1 f
    prints '--- f¶+++ f¶@@ -2,7 +2,7 @@ A: 1¶ B: 2¶ C: 3¶ D: 4¶-E: 0¶+E: 5¶ F: 6¶ G: 7¶ H: 8¶' ''
}

@test "a patch of an edit whose lines were changed since is refused" {
    put f 'Host: a¶Port: 5432¶¶Host: b¶Port: 13¶¶Host: c¶Port: 1¶'
    does recset -f Port -s 80 f
    does recset -n 1 -f Port -s 81 f
    recu 0 show 1 f
    cp "$BATS_TEST_TMPDIR/out" diff
    git init -q .
    cp f kept
    ! git apply -p0 -R diff || fail 'git takes it'
    cmp f kept
    ! patch -p0 -R -f -s -F0 --dry-run < diff || fail 'patch takes it'
}

@test "an undo that is tried prints the diff turned round" {
    put f 'A: 1¶B: 2¶¶A: 3'
    does recset -n 0 -f A,C -S 9 f
    recu 0 undo --dry-run f
    prints '--- f¶+++ f¶@@ -1,5 +1,4 @@¶-A: 9¶+A: 1¶ B: 2¶-C: 9¶ ¶ A: 3¶\ No newline at end of file¶' ''
    does recdel -n 1 f
    recu 0 undo --dry-run f
    prints '--- f¶+++ f¶@@ -2,3 +2,4 @@¶ B: 2¶ C: 9¶ ¶+A: 3¶\ No newline at end of file¶' ''
    has f 'A: 9¶B: 2¶C: 9¶¶'
    refuses 'nothing to redo' redo --dry-run f
    does undo f
    recu 0 redo --dry-run f
    prints '--- f¶+++ f¶@@ -2,4 +2,3 @@¶ B: 2¶ C: 9¶ ¶-A: 3¶\ No newline at end of file¶' ''
}

# batch_has BEFORE TEXT HUNKS: a batch with this text, tried and made, changes the file f so
batch_has() {
    put f "$1"
    put b "$2"
    rm -f f.journal
    recu 0 batch --dry-run --unified 0 -b b f
    prints "--- f¶+++ f¶$3" ''
    has f "$1"
    only f b
    does batch -b b f
    recu 0 show --unified 0 f
    prints "--- f¶+++ f¶$3" ''
}

@test "a batch has one diff" {
    local set='Tool: recset¶Number: 0¶Fields: A¶Set: '
    # What a step put in and a later one took out isn't shown.
    batch_has 'A: 1¶B: 2¶' "${set}5¶¶${set}6¶" '@@ -1,1 +1,1 @@¶-A: 1¶+A: 6¶'
    batch_has 'A: 1¶' 'Tool: recins¶Field: A¶Value: 2¶¶Tool: recset¶Number: 1¶Fields: B¶Add: 3¶' '@@ -1,0 +2,3 @@¶+¶+A: 2¶+B: 3¶'
    batch_has 'A: 1¶' "Tool: recins¶Field: A¶Value: 2¶¶Tool: recdel¶Number: 1¶¶${set}3¶" '@@ -1,1 +1,2 @@¶-A: 1¶+A: 3¶+¶'
    batch_has 'A: 1¶¶B: 2¶¶C: 3¶' 'Tool: recdel¶Number: 0¶¶Tool: recdel¶Number: 0¶' '@@ -1,4 +0,0 @@¶-A: 1¶-¶-B: 2¶-¶'
    batch_has 'A: 1¶¶B: 2¶¶C: 3¶' 'Tool: recdel¶Number: 2¶¶Tool: recdel¶Number: 0¶' '@@ -1,2 +0,0 @@¶-A: 1¶-¶@@ -5,1 +2,0 @@¶-C: 3¶'
    batch_has 'A: 1¶¶B: 2¶' "Tool: recset¶Fields: B¶Set: 3¶¶${set}4¶" '@@ -1,1 +1,1 @@¶-A: 1¶+A: 4¶@@ -3,1 +3,1 @@¶-B: 2¶+B: 3¶'
    # of the one step that changes something, and of none
    batch_has 'A: 1¶' "${set}1¶¶${set}2¶" '@@ -1,1 +1,1 @@¶-A: 1¶+A: 2¶'
    put b "${set}3¶¶${set}2¶"
    recu 0 batch --dry-run -b b f
    prints '' ''
}

@test "what is printed after edits were forgotten" {
    local value
    put f 'A: 1¶'
    for value in 2 3 4; do does recset -f A -s "$value" f; done
    does undo f
    does forget 1 f
    recu 0 history --patch f
    prints 'done 1 recset¶--- f¶+++ f¶@@ -1,1 +1,1 @@¶-A: 2¶+A: 3¶undone 2 recset¶--- f¶+++ f¶@@ -1,1 +1,1 @@¶-A: 3¶+A: 4¶' ''
    recu 0 show 2 f
    prints '--- f¶+++ f¶@@ -1,1 +1,1 @@¶-A: 3¶+A: 4¶' ''
    explains 'f.journal: it has edits 1 to 2' 'no such edit' show 3 f
}

@test "the names of files" {
    local name label
    while IFS='|' read -r name label; do
        name=$(bytes "$name"; echo .)
        name=${name%.}
        put "./$name" 'A: 1¶B: 2¶'
        does recset -f B -s 3 -- "$name"
        recu 0 show -- "$name"
        prints "--- $label¶+++ $label¶@@ -1,2 +1,2 @@ A: 1¶ A: 1¶-B: 2¶+B: 3¶" ''
        changes "$name" 'A: 1¶B: 2¶' 'A: 1¶B: 3¶' "--- $label¶+++ $label¶@@ -1,2 +1,2 @@ A: 1¶ A: 1¶-B: 2¶+B: 3¶"
        recu 0 undo --dry-run -- "$name"
        prints "--- $label¶+++ $label¶@@ -1,2 +1,2 @@ A: 1¶ A: 1¶-B: 3¶+B: 2¶" ''
    done <<'NAMES'
a b.rec|a b.rec\x09
 lead|" lead"
q"u.rec|"q\"u.rec"
back\s.rec|"back\\s.rec"
tab\x09x|"tab\011x"
new¶line|"new\012line"
-x.rec|-x.rec
fü.rec|fü.rec
it's|it's
$x*|$x*
NAMES
}

@test "a path is the name as it was given" {
    mkdir d
    put d/f 'A: 1¶'
    does recset -f A -s 2 d/f
    recu 0 show ./d/f
    prints '--- ./d/f¶+++ ./d/f¶@@ -1,1 +1,1 @@¶-A: 1¶+A: 2¶' ''
    recu 0 show "$PWD/d/f"
    prints "--- $PWD/d/f¶+++ $PWD/d/f¶@@ -1,1 +1,1 @@¶-A: 1¶+A: 2¶" ''
    mv d/f.journal j
    recu 0 show --journal j 1 d/f
    prints '--- d/f¶+++ d/f¶@@ -1,1 +1,1 @@¶-A: 1¶+A: 2¶' ''
}

@test "what can't be shown" {
    local outside='f: recu adopt OLD f makes the change an edit, OLD being the text before it or any of the history¶f: else the next edit begins a new history'
    put f 'A: 1¶'
    explains 'f.journal: no edit is left to undo' 'nothing to undo' show f
    explains 'f.journal: it has no edit' 'no such edit' show 1 f
    does recset -f A -s 2 f
    does recset -f A -s 3 f
    does undo f
    does redo f
    does recset -f A -s 4 f
    explains 'f.journal: it has edits 1 to 2, 5' 'no such edit' show 3 f
    explains 'f.journal: it has edits 1 to 2, 5' 'no such edit' show 4 f
    explains 'f.journal: it has edits 1 to 2, 5' 'no such edit' show 18446744073709551615 f
    recu 0 show 2 f
    prints '--- f¶+++ f¶@@ -1,1 +1,1 @@¶-A: 2¶+A: 3¶' ''
    # A text that the journal's digests don't name, before anything is printed.
    cp f.journal kept
    sed -i 's/^Old: A: 1\$$/Old: A: 8$/' f.journal
    refuses 'the file was changed outside' show 1 f
    refuses 'the file was changed outside' history --patch f
    recu 0 show 2 f
    recu 0 history f
    # a wrong digest counts for the edits that end or begin with it, not for one before them
    sed "s/$(bytes 'A: 3¶' | sha256sum | cut -d ' ' -f 1)/$(printf '0%.0s' {1..64})/" kept > f.journal
    recu 0 show 1 f
    prints '--- f¶+++ f¶@@ -1,1 +1,1 @@¶-A: 1¶+A: 2¶' ''
    refuses 'the file was changed outside' show 2 f
    refuses 'the file was changed outside' show f
    refuses 'the file was changed outside' history --patch f
    refuses 'the file was changed outside' undo f
    mv kept f.journal
    # a file that was changed outside
    put f 'A: 9¶'
    explains "$outside" 'the file was changed outside' show f
    explains "$outside" 'the file was changed outside' show 7 f
    explains "$outside" 'the file was changed outside' undo --dry-run f
    recu 0 history --patch f
    prints 'drifted¶' ''
    put f.journal 'A: 1¶'
    refuses 'journal line 1: not a journal of recu' show f
    refuses 'journal line 1: not a journal of recu' history --patch f
    refuses 'journal line 1: not a journal of recu' recset --dry-run -f A -s 5 f
}

@test "any bytes are shown" {
    put f 'A: 1¶'
    does recset -f A -s 2 f
    does recset -f A -s 3 f
    printf 'A: 2\n' > f
    # the text before the last edit: that doesn't count then
    recu 0 history --patch f
    prints 'done 1 recset¶--- f¶+++ f¶@@ -1,1 +1,1 @@¶-A: 1¶+A: 2¶' ''
    put f ' no rec file \xFF\x00'
    refuses 'line 1: not a field, comment or blank line' recset --dry-run -f A -s 3 f
}

@test "a dry run is refused as the command is" {
    local words
    put f '%rec: P¶%key: Id¶%auto: No¶%type: No bool¶¶Id: 1¶¶Id: 2¶'
    for words in 'recset -n 1 -f Id -s 1' 'recins -t P -f Id -v 3' 'recdel' 'recset -t Q -f A -d' 'recset -f 1 -d' 'recset -e A= -f A -d' \
        'recset -n x -f A -d' 'recset -f A -s x\\' 'recset -f A[ -d' 'recfix --auto' 'undo' 'redo' 'recins -t P -r A'; do
        recu 1 $words f
        cp "$BATS_TEST_TMPDIR/err" "$BATS_TEST_TMPDIR/made"
        recu 1 $words --dry-run f
        prints '' "$(sed 's/\\/\\x5C/g; s/$/¶/' "$BATS_TEST_TMPDIR/made" | tr -d '\n')"
        only f
    done
    recu 0 recset --dry-run -n 1 -f Id -s 1 --force f
    prints '--- f¶+++ f¶@@ -5,4 +5,4 @@¶ ¶ Id: 1¶ ¶-Id: 2¶+Id: 1¶' 'f:8: key Id¶'
    only f
}

@test "a dry run writes nothing, takes no lock, and doesn't look at the working names" {
    put f 'A: 1¶'
    put f.new 'somebody'
    put f.journal.new 'somebody'
    chmod 444 f
    flock f "$recu" recset --dry-run -f A -s 2 f > out
    has out '--- f¶+++ f¶@@ -1,1 +1,1 @@¶-A: 1¶+A: 2¶'
    has f 'A: 1¶'
    only f f.new f.journal.new out
}

@test "diffs of drawn histories" {
    python3 "$top/tests/diffs.py" "$program" 200
}
