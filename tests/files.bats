# Files as the system has them: paths, modes, links, devices, permissions, leftovers, and other programs at once.

load helpers

teardown() {
    [ -z "${holder-}" ] || let_go
    chmod -R u+rwx "$BATS_TEST_TMPDIR"
}

@test "paths that cannot be read" {
    put db.rec "$three"
    mkdir d
    fails_to_store 'missing: No such file or directory (os error 2)' undo missing
    fails_to_store ': No such file or directory (os error 2)¶an empty path' recdel -n 0 ''
    fails_to_store 'an empty path' recdel -n 0 --journal '' db.rec
    fails_to_store 'd: not a regular file' recdel -n 0 d
    fails_to_store 'd: not a regular file' undo --journal d db.rec
    fails_to_store 'db.rec/x: Not a directory (os error 20)' undo db.rec/x
    fails_to_store 'db.rec/x: Not a directory (os error 20)' undo --journal db.rec/x db.rec
    refuses 'nothing to undo' undo --journal no/j db.rec
    fails_to_store 'no/j: No such file or directory (os error 2)' recdel -n 0 --journal no/j db.rec
    has db.rec "$three"
    only d db.rec
}

@test "a file or a journal that is too long" {
    put db.rec "$three"
    truncate -s 1073741825 big
    fails_to_store 'big: more than 1073741824 bytes' recdel -n 0 big
    fails_to_store 'big: more than 1073741824 bytes: shorten the journal, or move it away' undo --journal big db.rec
    has db.rec "$three"
    only big db.rec
}

@test "a file named -" {
    put - "$three"
    recu 0 recdel -n 0 -
    has - 'B: 2¶¶C: 3¶'
    recu 0 undo -- -
    has - "$three"
    only - -.journal
}

# have_modes MODE MODE: those of the file and of its journal
have_modes() {
    [ "$(stat -c %a db.rec db.rec.journal)" = "$1"$'\n'"$2" ] || fail 'the modes are:' "$(stat -c %a db.rec db.rec.journal)"
}

@test "the mode is kept, and a journal takes what the file's gives of it" {
    put db.rec "$three"
    chmod 640 db.rec
    recu 0 recdel -n 0 db.rec
    have_modes 640 640
    chmod 604 db.rec.journal
    recu 0 undo db.rec
    have_modes 640 600
    has db.rec "$three"
}

@test "symbolic links are followed and kept" {
    mkdir files
    put files/db.rec "$three"
    ln -s files/db.rec link
    recu 0 recdel -n 0 link
    [ "$(readlink link)" = files/db.rec ] || fail 'the link is gone'
    has files/db.rec 'B: 2¶¶C: 3¶'
    mv files/db.rec.journal files/j
    ln -s j files/db.rec.journal
    recu 0 undo link
    [ "$(readlink files/db.rec.journal)" = j ] || fail "the journal's link is gone"
    has files/db.rec "$three"
    # one that is given
    recu 0 recdel -n 0 --journal link.journal link
    mv link.journal files/i
    ln -s files/i link.journal
    recu 0 undo --journal link.journal link
    [ "$(readlink link link.journal)" = $'files/db.rec\nfiles/i' ] || fail 'a link is gone'
    has files/db.rec "$three"
    only files link link.journal
    [ "$(ls -A files | tr '\n' ' ')" = 'db.rec db.rec.journal i j ' ] || fail "$(ls -A files)"
}

@test "links with whole paths are followed and kept" {
    mkdir files links
    put files/db.rec "$three"
    ln -s "$PWD/files/db.rec" links/db.rec
    does recdel -n 0 links/db.rec
    has files/db.rec 'B: 2¶¶C: 3¶'
    mv files/db.rec.journal links/j
    ln -s "$PWD/links/j" files/db.rec.journal
    does undo links/db.rec
    has files/db.rec "$three"
    [ "$(readlink links/db.rec files/db.rec.journal)" = "$PWD/files/db.rec"$'\n'"$PWD/links/j" ] || fail 'a link is gone'
    [ "$(ls -A files links | tr '\n' ' ')" = 'files: db.rec db.rec.journal  links: db.rec j ' ] || fail "$(ls -A files links)"
}

# real/db.rec, which has two records of three, and a link to it
linked() {
    mkdir real
    put real/db.rec "$three"
    ln -s real/db.rec l.rec
    does recdel -n 0 "$@" l.rec
}

# only_real NAME..: what stands in the folder of the file
only_real() {
    [ "$(ls -A real | tr '\n' ' ')" = "$* " ] || fail "$(ls -A real)"
}

# prints_as_the_file WORD..: by the link it prints what it does by the file
prints_as_the_file() {
    recu 0 "$@" real/db.rec
    mv "$BATS_TEST_TMPDIR/out" "$BATS_TEST_TMPDIR/wanted"
    recu 0 "$@" l.rec
    sed -i 's|l\.rec|real/db.rec|' "$BATS_TEST_TMPDIR/out"
    cmp "$BATS_TEST_TMPDIR/wanted" "$BATS_TEST_TMPDIR/out" || fail "$* prints something else"
}

@test "an edit through a link is one of the file's history" {
    linked
    does recset -n 0 -f B -s 7 real/db.rec
    has real/db.rec 'B: 7¶¶C: 3¶'
    tells() {
        recu 0 history "$1"
        prints "$2" ''
    }
    for path in l.rec real/db.rec; do tells "$path" 'done 1 recdel¶done 2 recset¶'; done
    only l.rec real
    only_real db.rec db.rec.journal
    does undo l.rec
    does undo real/db.rec
    has real/db.rec "$three"
    for path in l.rec real/db.rec; do tells "$path" 'undone 1 recdel¶undone 2 recset¶'; done
    does redo --through 2 l.rec
    has real/db.rec 'B: 7¶¶C: 3¶'
    put changes 'Tool: recset¶Number: 0¶Fields: B¶Set: 8¶'
    does batch -b changes l.rec
    does revert 7 l.rec
    has real/db.rec 'B: 7¶¶C: 3¶'
    tells real/db.rec 'done 1 recdel¶done 2 recset¶done 7 batch¶done 8 batch¶'
    does forget 1 l.rec
    tells real/db.rec 'done 1 batch¶'
    [ -L l.rec ] || fail 'the link is gone'
    only changes l.rec real
    only_real db.rec db.rec.journal
}

@test "what is printed by a link is that of the file, under the link's name" {
    linked
    local words
    for words in history 'history --patch' show 'show 1' 'recset -n 0 -f B -s 9 --dry-run' 'undo --dry-run' 'revert 1 --dry-run'; do
        prints_as_the_file $words
    done
    recu 0 show l.rec
    head -n 1 "$BATS_TEST_TMPDIR/out" | grep -q '^--- l.rec' || fail "$(cat "$BATS_TEST_TMPDIR/out")"
    does undo l.rec
    prints_as_the_file redo --dry-run
    explains 'real/db.rec.journal: no edit is left to undo' 'nothing to undo' undo l.rec
    # what is said names the file as it was given
    bytes 'D: 4¶' >> real/db.rec
    recu 1 redo l.rec
    grep -q '^l.rec: ' "$BATS_TEST_TMPDIR/err" || fail "$(cat "$BATS_TEST_TMPDIR/err")"
    only l.rec real
    only_real db.rec db.rec.journal
}

@test "what is said of a journal is the same by a link" {
    linked
    bytes 'D: 4¶' >> real/db.rec
    recu 0 recdel -n 0 l.rec
    prints '' "l.rec: it was changed outside; 1 edit before that can't be undone any more¶"
    put real/db.rec.journal 'no journal¶'
    explains 'real/db.rec.journal: move it away, and the next edit begins a new journal' 'journal line 1: not a journal of recu' undo l.rec
}

@test "a journal beside a link is not passed over" {
    local clash='l.rec.journal: a journal beside a link, and the file'"'"'s is real/db.rec.journal: give --journal l.rec.journal to go on with this one, or move it away'
    linked --journal l.rec.journal
    cp l.rec.journal before
    clashes() {
        fails_to_store "$clash" "$@" l.rec
    }
    reads_journal clashes
    has real/db.rec 'B: 2¶¶C: 3¶'
    has l.rec.journal < before
    only before l.rec l.rec.journal real
    only_real db.rec
    # also where the file has one
    does recset -n 0 -f B -s 9 real/db.rec
    cp real/db.rec.journal real/before
    reads_journal clashes
    has real/db.rec 'B: 9¶¶C: 3¶'
    has l.rec.journal < before
    has real/db.rec.journal < real/before
    does undo real/db.rec
    # by its name it goes on, by whichever path
    does undo --journal l.rec.journal l.rec
    does redo --journal l.rec.journal real/db.rec
    has real/db.rec 'B: 2¶¶C: 3¶'
    # and so does the other
    recu 0 history --journal real/db.rec.journal l.rec
    prints 'undone 1 recset¶' ''
    # and without it the file's own is taken
    mv l.rec.journal j
    recu 0 history l.rec
    prints 'undone 1 recset¶' ''
    does redo l.rec
    has real/db.rec 'B: 9¶¶C: 3¶'
    only before j l.rec real
    # what reads the file alone looks at none
    mv j l.rec.journal
    recu 0 recsel -c l.rec
    recu 0 recinf l.rec
    recu 0 recfix l.rec
}

@test "anything under the name of a link's journal is one, but the file's own" {
    local clash='l.rec.journal: a journal beside a link, and the file'"'"'s is real/db.rec.journal: give --journal l.rec.journal to go on with this one, or move it away'
    linked
    # the file's own, by a link and by a second name
    ln -s real/db.rec.journal l.rec.journal
    does undo l.rec
    does redo l.rec
    [ -L l.rec.journal ] || fail "the journal's link is gone"
    rm l.rec.journal
    ln real/db.rec.journal l.rec.journal
    does undo l.rec
    has real/db.rec "$three"
    # which keeps the old text then
    fails_to_store "$clash" redo l.rec
    rm l.rec.journal
    ln -s gone l.rec.journal
    fails_to_store "$clash" redo l.rec
    rm l.rec.journal
    mkdir l.rec.journal
    fails_to_store "$clash" redo l.rec
    rmdir l.rec.journal
    ln -s l.rec.journal l.rec.journal
    fails_to_store 'l.rec.journal: Too many levels of symbolic links (os error 40)' redo l.rec
    rm l.rec.journal
    put l.rec.journal ''
    fails_to_store "$clash" redo l.rec
    rm l.rec.journal
    does redo l.rec
    has real/db.rec 'B: 2¶¶C: 3¶'
    # beside the file itself anything is its journal
    mv real/db.rec.journal real/j
    ln -s gone real/db.rec.journal
    fails_to_store 'real/db.rec.journal: No such file or directory (os error 2)' recdel -n 0 real/db.rec
    fails_to_store 'real/db.rec.journal: No such file or directory (os error 2)' recdel -n 0 l.rec
    has real/db.rec 'B: 2¶¶C: 3¶'
}

@test "a link in a folder that is a link" {
    mkdir real
    put real/db.rec "$three"
    ln -s real folder
    ln -s db.rec real/l.rec
    does recdel -n 0 folder/l.rec
    does recdel -n 0 folder/db.rec
    does undo real/l.rec
    does undo real/db.rec
    has real/db.rec "$three"
    only folder real
    only_real db.rec db.rec.journal l.rec
}

@test "links in a row, and in a ring" {
    mkdir files
    put db.rec "$three"
    ln -s files/second first
    ln -s ../db.rec files/second
    recu 0 recdel -n 0 first
    [ "$(readlink first files/second)" = $'files/second\n../db.rec' ] || fail 'a link is gone'
    has db.rec 'B: 2¶¶C: 3¶'
    recu 0 undo first
    has db.rec "$three"
    ln -s one two
    ln -s two one
    ringed() {
        fails_to_store 'one: Too many levels of symbolic links (os error 40)' "$@" one
    }
    reads_journal ringed
    only db.rec db.rec.journal files first one two
    # a row of 39, which is followed, and of one more
    local number
    ln -s db.rec 1
    for ((number = 2; number <= 40; number++)); do
        ln -s "$((number - 1))" "$number"
    done
    does redo 39
    has db.rec 'B: 2¶¶C: 3¶'
    fails_to_store '40: Too many levels of symbolic links (os error 40)' undo 40
    rm {1..40}
    only db.rec db.rec.journal files first one two
}

@test "names that are no text, and long ones" {
    put $'\xFF' "$three"
    ln -s $'\xFF' link
    recu 0 recsel -c link
    nameless() {
        fails_to_store 'link: a symbolic link with a target that is not UTF-8' "$@" link
    }
    reads_journal nameless
    has $'\xFF' "$three"
    only link $'\xFF'
    local name depth
    name=$(printf 'n%.0s' {1..252})
    put "$name" "$three"
    fails_to_store "$name.new: File name too long (os error 36)" recdel -n 0 --journal j "$name"
    has "$name" "$three"
    only link "$name" $'\xFF'
    for ((depth = 0; depth < 20; depth++)); do
        mkdir "$name"$'\xFF'
        cd "$name"$'\xFF'
    done
    put db.rec "$three"
    does recdel -n 0 db.rec
    does undo db.rec
    has db.rec "$three"
    only db.rec db.rec.journal
}

@test "two paths of one file" {
    put db.rec "$three"
    ln -s db.rec link
    ln db.rec hard
    local journal
    for journal in link ./db.rec hard; do
        fails_to_store "$journal: the file and its journal are one file" recdel -n 0 --journal "$journal" db.rec
        fails_to_store "$journal: the file and its journal are one file" undo --journal "$journal" db.rec
    done
    has db.rec "$three"
    only db.rec hard link
}

# on_two_file_systems: FILE stands on one and its journal on the other, each of which numbers its files by itself
on_two_file_systems() {
    local number path
    mkdir one two
    mount -t tmpfs none one && mount -t tmpfs none two || exit 77
    printf 'A: 1\n\nB: 2\n' > one/db.rec
    "$program" recset -n 0 -f A -s 8 --journal two/j one/db.rec || exit 1
    for _ in {1..200}; do
        number=$(($(stat -c %i one/db.rec) - $(stat -c %i two/j)))
        [ "$number" != 0 ] || break
        path=two/j
        [ "$number" -gt 0 ] || path=one/db.rec
        cp "$path" "$path.copy" && mv "$path.copy" "$path"
    done
    [ "$number" = 0 ] || exit 77
    "$program" recset -n 1 -f B -s 9 --journal two/j one/db.rec || exit 1
    [ "$(< one/db.rec)" = $'A: 8\n\nB: 9' ] || exit 1
}

@test "a file and a journal of one number, on two file systems" {
    local status=0 flags=-m
    unshare -m true 2> /dev/null || flags=-rm
    export program
    {
        declare -f on_two_file_systems
        echo on_two_file_systems
    } > script
    unshare "$flags" bash script > said 2>&1 3>&- || status=$?
    [ "$status" != 77 ] && ! grep -q '^unshare: ' said || skip "no file systems can be mounted, or no two files get one number: $(tail -n 1 said)"
    [ "$status" = 0 ] || fail "$(< said)"
}

@test "one of the two under the working name of the other" {
    put db.rec "$three"
    fails_to_store './db.rec.new: the file or its journal stands under the working name of the other' recdel -n 0 --journal ./db.rec.new db.rec
    has db.rec "$three"
    only db.rec
    put db.rec.new "$header"
    fails_to_store 'db.rec: the file or its journal stands under the working name of the other' recdel -n 0 --journal ./db.rec.new db.rec
    has db.rec "$three"
    has db.rec.new "$header"
    only db.rec db.rec.new
    # another name of it elsewhere changes nothing
    ln db.rec.new other
    fails_to_store 'db.rec: the file or its journal stands under the working name of the other' recdel -n 0 --journal ./db.rec.new db.rec
    rm other
    put j.new "$three"
    fails_to_store './j: the file or its journal stands under the working name of the other' recdel -n 0 --journal ./j j.new
    has j.new "$three"
    only db.rec db.rec.new j.new
}

@test "a link that leads nowhere" {
    put db.rec "$three"
    ln -s gone link
    fails_to_store 'link: No such file or directory (os error 2)' recdel -n 0 --journal link db.rec
    has db.rec "$three"
    fails_to_store 'link: No such file or directory (os error 2)' recdel -n 0 link
    fails_to_store 'link: No such file or directory (os error 2)' history link
    only db.rec link
}

# reads_journal RUN: each command that reads a journal is run so, with what stands in its line of `words`, and then with --dry-run
# where it has one
reads_journal() {
    local words
    put changes 'Tool: recdel¶Number: 0¶'
    for words in 'recins -f A -v 4' 'recdel -n 0' 'recset -n 0 -f A -s 9' 'recfix --auto' 'batch -b changes' 'revert 1' undo redo; do
        "$@" $words
        "$@" $words --dry-run
    done
    for words in 'undo --through 1' 'redo --through 1' 'forget 0' history 'history --patch' show 'show 1'; do
        "$@" $words
    done
    rm changes
}

# A pipe that nobody writes would keep its reader waiting.
@test "what is no regular file is no file to edit, and no journal, and is refused at once" {
    local name
    as_user=(timeout 20)
    put db.rec "$three"
    mkdir folder
    mkfifo pipe
    ln -s pipe link
    ln -s /dev/zero device
    python3 -c 'import socket; socket.socket(socket.AF_UNIX).bind("socket")'
    as_file() {
        fails_to_store "$name: not a regular file" "$@" "$name"
    }
    as_journal() {
        fails_to_store "$name: not a regular file" "$@" --journal "$name" db.rec
    }
    for name in folder pipe link device socket; do
        reads_journal fast as_file
        reads_journal fast as_journal
    done
    has db.rec "$three"
    only db.rec device folder link pipe socket
}

@test "standard input is no file to edit" {
    put db.rec "$three"
    as_piped() {
        ends 1 timeout 20 bash -c 'cat db.rec | "$@" /dev/stdin' '' "$recu" "$@"
        prints '' "/dev/stdin: not a regular file¶$store_failed"
    }
    reads_journal fast as_piped
    has db.rec "$three"
    only db.rec
}

@test "a file that may not be written" {
    as_nobody
    put db.rec "$three"
    chmod 444 db.rec
    chmod 777 .
    fails_to_store 'db.rec: Permission denied (os error 13)' recdel -n 0 db.rec
    has db.rec "$three"
    only db.rec
}

@test "a journal that may not be written" {
    as_nobody
    put db.rec "$three"
    put j "$header"
    chmod 666 db.rec
    chmod 444 j
    chmod 777 .
    fails_to_store 'j: Permission denied (os error 13)' recdel -n 0 --journal j db.rec
    has db.rec "$three"
    has j "$header"
    only db.rec j
}

@test "a file that may not be read" {
    as_nobody
    put db.rec "$three"
    chmod 200 db.rec
    [ "$(id -u)" != 0 ] || chown 65534 db.rec
    fails_to_store 'db.rec: Permission denied (os error 13)' recdel -n 0 db.rec
}

@test "a folder that may not be written" {
    as_nobody
    put db.rec "$three"
    put db.rec.journal "$header"
    chmod 666 db.rec db.rec.journal
    chmod 555 .
    local why="the folder isn't writable, and recu writes a new file in it: Permission denied (os error 13)"
    fails_to_store ".: $why" recdel -n 0 db.rec
    fails_to_store "$PWD: $why" recdel -n 0 "$PWD/db.rec"
    chmod 777 .
    has db.rec "$three"
    has db.rec.journal "$header"
    only db.rec db.rec.journal
    # one of two folders, and one in which something was left
    mkdir d
    put d/db.rec "$three"
    chmod 666 d/db.rec
    chmod 555 d
    fails_to_store "d: $why" recdel -n 0 --journal db.rec.journal d/db.rec
    [ "$(ls -A . d | tr '\n' ' ')" = '.: d db.rec db.rec.journal  d: db.rec ' ] || fail "$(ls -A . d)"
    fails_to_store "d: $why" recdel -n 0 --journal d/j db.rec
    chmod 755 d
    put d/db.rec.journal.new ''
    chmod 666 d/db.rec.journal.new
    chmod 555 d
    fails_to_store "d: $why" recdel -n 0 d/db.rec
    has d/db.rec "$three"
    has d/db.rec.journal.new ''
    has db.rec "$three"
    has db.rec.journal "$header"
}

# What stands in a name of a file doesn't steer a terminal.
@test "control characters of paths are told by the octal digits of their bytes" {
    local missing='No such file or directory (os error 2)' way='recu writes under this name, so move it away'
    local name=$'a\e[31m\n\r\tb\x7f\xc2\x80\xc2\x9f\\ \xc2\xa0\xc3\xa9\xe2\x82\xac'
    local told='a\033[31m\012\015\011b\177\302\200\302\237\ \xC2\xA0é€'
    fails_to_store "$told: $missing" recsel "$name"
    fails_to_store "$told: $missing" recset -n 0 -f A -s 1 "$name"
    fails_to_store "$told: $missing¶recu makes no file: touch makes an empty one" recins -f A -v 1 "$name"
    put f "$three"
    fails_to_store "$told: $missing" batch -b "$name" f
    mkdir "$name"
    fails_to_store "$told: not a regular file" history "$name"
    fails_to_store "$told: not a regular file" history --journal "$name" f
    put "$name/f" "$three"
    mkdir "$name/f.new"
    fails_to_store "$told/f.new: not a regular file: $way" recdel -n 0 "$name/f"
    put "$name/bad" 'A: 1¶b¶'
    explains "$told/bad:2: b¶a field needs a colon after its name, as in Name: value" 'line 2: not a field, comment or blank line' recsel "$name/bad"
    explains "$told/f.journal: no edit is left to undo" 'nothing to undo' undo "$name/f"
    has "$name/f" "$three"
}

@test "control characters of a folder that may not be written" {
    as_nobody
    mkdir $'d\e\n'
    put $'d\e\n/db.rec' "$three"
    chmod 666 $'d\e\n/db.rec'
    chmod 555 $'d\e\n'
    fails_to_store "d\\033\\012: the folder isn't writable, and recu writes a new file in it: Permission denied (os error 13)" \
        recdel -n 0 $'d\e\n/db.rec'
    chmod 755 $'d\e\n'
}

# It can't be opened, so it isn't synced.
@test "a folder that may be written and not read" {
    as_nobody
    put db.rec "$three"
    chmod 666 db.rec
    chmod 333 .
    ! "${as_user[@]}" ls . 2> "$BATS_TEST_TMPDIR/why" || fail 'it may be read'
    does recdel -n 0 db.rec
    has db.rec 'B: 2¶¶C: 3¶'
    does undo db.rec
    has db.rec "$three"
    does redo db.rec
    does forget 0 db.rec
    has db.rec 'B: 2¶¶C: 3¶'
    has db.rec.journal "$header"
    chmod 755 .
    only db.rec db.rec.journal
}

# What a stop leaves: the journal's new file, whole or in part, and beside it the file's; or, between the renames, the file's
# alone, with the text after the last event.
@test "what a stop left before the renames is removed" {
    local journal file
    for journal in '' '%' '%rec: RecEdit¶%doc: recu journal, format 2¶%key: Number¶' "$header" "$old_header" "${header}Number: 1¶Kind: ed"; do
        for file in none '' 'half a fi'; do
            put db.rec "$three"
            rm -f db.rec.journal
            put db.rec.journal.new "$journal"
            if [ "$file" != none ]; then
                put db.rec.new "$file"
                chmod 400 db.rec.new
            fi
            does recdel -n 0 db.rec
            has db.rec 'B: 2¶¶C: 3¶'
            put db.rec.journal.new "$journal"
            does undo db.rec
            has db.rec "$three"
            only db.rec db.rec.journal
        done
    done
}

# A power cut may leave zeros where the journal's new file wasn't synced.
@test "zeros that a power cut left are removed" {
    local size file
    for size in 1 56 57 58 1000 65535 65536 65537 200000; do
        for file in none '' 'half a fi' '\x00\x00'; do
            put db.rec "$three"
            rm -f db.rec.journal
            truncate -s "$size" db.rec.journal.new
            [ "$file" = none ] || put db.rec.new "$file"
            does recdel -n 0 db.rec
            has db.rec 'B: 2¶¶C: 3¶'
            truncate -s "$size" db.rec.journal.new
            [ "$file" = none ] || put db.rec.new "$file"
            does undo db.rec
            has db.rec "$three"
            only db.rec db.rec.journal
        done
    done
}

@test "somebody's own file that begins with zeros stays" {
    local size
    put db.rec "$three"
    does recdel -n 0 db.rec
    for size in 1 56 57 58 65535 65536 65537 131072 200000; do
        truncate -s "$size" db.rec.journal.new
        printf x >> db.rec.journal.new
        stays db.rec.journal.new
        rm db.rec.journal.new
    done
    put db.rec.journal.new "\\x00$header"
    stays db.rec.journal.new
    put db.rec.journal.new '%rec\x00\x00'
    stays db.rec.journal.new
    rm db.rec.journal.new
    # the file's new name is another matter
    put db.rec.new '\x00\x00'
    stays db.rec.new
}

# stopped TEXT WORD..: such an edit of the text was stopped between the renames
stopped() {
    put db.rec "$1"
    does "${@:2}" db.rec
    mv db.rec db.rec.new
    put db.rec "$1"
}

@test "what a stop left between the renames is removed" {
    stopped "$three" recdel -n 0
    recu 0 history db.rec
    prints '' ''
    does recdel -n 1 db.rec
    has db.rec 'A: 1¶¶C: 3¶'
    only db.rec db.rec.journal
    stopped 'A: 1¶¶C: 3¶' undo
    does undo db.rec
    has db.rec "$three"
    stopped "$three" redo
    does recset -n 0 -f A -s 9 db.rec
    has db.rec 'A: 9¶¶B: 2¶¶C: 3¶'
    does undo db.rec
    has db.rec "$three"
    refuses 'nothing to undo' undo db.rec
    only db.rec db.rec.journal
}

@test "so is an empty new file, where all was deleted" {
    stopped 'A: 1¶' recdel -n 0
    has db.rec.new ''
    does recset -n 0 -f A -s 9 db.rec
    has db.rec 'A: 9¶'
    only db.rec db.rec.journal
}

# What was saved under a file's new name after such a stop, or before it by hand, is told from what the stop left.
@test "the text after an edit that was made stays" {
    local stays='db.rec.new: not left by recu: recu writes under this name, so move it away'
    put db.rec "$three"
    does recdel -n 0 db.rec
    cp db.rec db.rec.new
    fails_to_store "$stays" recdel -n 0 db.rec
    fails_to_store "$stays" undo db.rec
    has db.rec 'B: 2¶¶C: 3¶'
    has db.rec.new 'B: 2¶¶C: 3¶'
    put db.rec 'X: 1¶'
    fails_to_store "$stays" recdel -n 0 db.rec
    has db.rec.new 'B: 2¶¶C: 3¶'
    put db.rec "$three"
    put db.rec.new 'B: 2¶¶C: 3'
    fails_to_store "$stays" recdel -n 0 db.rec
    has db.rec.new 'B: 2¶¶C: 3'
    only db.rec db.rec.journal db.rec.new
}

# stays NAME: what stands under this name stays, and every command that would write is refused, for this reason
why='not left by recu'
stays() {
    local line="$1: $why: recu writes under this name, so move it away"
    cp -p "$1" "$BATS_TEST_TMPDIR/own"
    cp db.rec.journal "$BATS_TEST_TMPDIR/journal"
    fails_to_store "$line" recset -n 0 -f B -s 9 db.rec
    fails_to_store "$line" undo db.rec
    does recset -n 0 -f B -s 2 db.rec
    refuses 'nothing to redo' redo db.rec
    recu 0 recsel -c db.rec
    recu 0 history db.rec
    has db.rec 'B: 2¶¶C: 3¶'
    has db.rec.journal < "$BATS_TEST_TMPDIR/journal"
    has "$1" < "$BATS_TEST_TMPDIR/own"
    only db.rec db.rec.journal "$@"
}

@test "somebody's own file under a working name stays" {
    local own
    put db.rec "$three"
    does recdel -n 0 db.rec
    for own in 'my own work¶' '' "$header" "$three"; do
        put db.rec.new "$own"
        stays db.rec.new
    done
    rm db.rec.new
    for own in 'my own work¶' '%rec: RecEdix¶' "%rec: RecEdit¶%doc: recu journal, format 3¶%key: Number¶¶" "¶$header"; do
        put db.rec.journal.new "$own"
        stays db.rec.journal.new
    done
    put db.rec.new ''
    stays db.rec.journal.new db.rec.new
    has db.rec.new ''
    rm db.rec.journal.new db.rec.new
    does undo db.rec
    has db.rec "$three"
}

@test "somebody's own file before the first edit" {
    local name
    put db.rec "$three"
    for name in db.rec.new db.rec.journal.new; do
        put "$name" 'my own work¶'
        fails_to_store "$name: not left by recu: recu writes under this name, so move it away" recdel -n 0 db.rec
        has "$name" 'my own work¶'
        has db.rec "$three"
        only db.rec "$name"
        rm "$name"
    done
    put db.rec.new ''
    fails_to_store 'db.rec.new: not left by recu: recu writes under this name, so move it away' recdel -n 0 db.rec
    only db.rec db.rec.new
}

@test "second names of the file and of its journal stay" {
    put db.rec "$three"
    does recdel -n 0 db.rec
    why='a second name of the file'
    ln db.rec db.rec.new
    stays db.rec.new
    [ db.rec -ef db.rec.new ] || fail 'it is another file'
    mv db.rec.new db.rec.journal.new
    stays db.rec.journal.new
    [ db.rec -ef db.rec.journal.new ] || fail 'it is another file'
    why='a second name of the journal'
    ln -f db.rec.journal db.rec.journal.new
    stays db.rec.journal.new
    [ db.rec.journal -ef db.rec.journal.new ] || fail 'it is another file'
    mv db.rec.journal.new db.rec.new
    stays db.rec.new
    [ db.rec.journal -ef db.rec.new ] || fail 'it is another file'
    fails_to_store 'db.rec.new: a second name of the journal: recu writes under this name, so move it away' forget 0 db.rec
    ln db.rec.journal db.rec.journal.new
    ln -f db.rec db.rec.new
    put "$BATS_TEST_TMPDIR/journal" ''
    mv "$BATS_TEST_TMPDIR/journal" db.rec.journal.new
    fails_to_store 'db.rec.new: a second name of the file: recu writes under this name, so move it away' undo db.rec
    [ db.rec -ef db.rec.new ] || fail 'it is another file'
    has db.rec.journal.new ''
    only db.rec db.rec.journal db.rec.journal.new db.rec.new
    rm db.rec.new
    does undo db.rec
    only db.rec db.rec.journal
}

@test "a folder, a link or a pipe is no leftover" {
    local name
    put db.rec "$three"
    put journal "$header"
    for name in db.rec.new db.rec.journal.new; do
        mkdir "$name"
        fails_to_store "$name: not a regular file: recu writes under this name, so move it away" recdel -n 0 db.rec
        rmdir "$name"
        mkfifo "$name"
        fails_to_store "$name: not a regular file: recu writes under this name, so move it away" recdel -n 0 db.rec
        rm "$name"
        ln -s journal "$name"
        fails_to_store "$name: not a regular file: recu writes under this name, so move it away" recdel -n 0 db.rec
        [ "$(readlink "$name")" = journal ] || fail 'the link is gone'
        ln -sf gone "$name"
        fails_to_store "$name: not a regular file: recu writes under this name, so move it away" recdel -n 0 db.rec
        [ "$(readlink "$name")" = gone ] || fail 'the link is gone'
        has db.rec "$three"
        has journal "$header"
        only db.rec journal "$name"
        rm "$name"
    done
}

# hold NAME: another process makes the file and keeps it locked
hold() {
    (
        exec 9> "$1" && flock 9 && : > held && exec sleep 60
    ) 3>&- &
    holder=$!
    local tries
    for ((tries = 0; tries < 100; tries++)); do
        [ ! -e held ] || break
        sleep 0.1
    done
    rm held || fail 'no lock could be taken'
}

let_go() {
    kill "$holder"
    wait "$holder" 2> /dev/null || true
    holder=
}

@test "the journal is being written by another program" {
    put db.rec "$three"
    hold db.rec.journal.new
    fails_to_store 'db.rec.journal: in use: another program is writing it' recdel -n 0 db.rec
    has db.rec "$three"
    only db.rec db.rec.journal.new
    let_go
    recu 0 recdel -n 0 db.rec
    has db.rec 'B: 2¶¶C: 3¶'
    only db.rec db.rec.journal
}

@test "the file is being written by another program" {
    put db.rec "$three"
    hold db.rec.new
    fails_to_store 'db.rec: in use: another program is writing it' recdel -n 0 db.rec
    has db.rec "$three"
    only db.rec db.rec.new
    let_go
    refuses 'nothing to undo' undo db.rec
    rm db.rec.new
    recu 0 recdel -n 1 db.rec
    recu 0 undo db.rec
    has db.rec "$three"
    only db.rec db.rec.journal
}

# After two deletions at once the file has lost no record, the first, or the first two.
@test "two programs at once" {
    awk 'BEGIN { for (i = 0; i < 20000; i++) printf "Name: record %d\nNote: some words\n\n", i }' > whole
    tail -n +4 whole > one_less
    tail -n +7 whole > two_less
    local pair first second
    for ((pair = 0; pair < 20; pair++)); do
        cp whole db.rec
        rm -f db.rec.journal
        "$recu" recdel -n 0 db.rec > /dev/null 2>&1 3>&- &
        first=$!
        "$recu" recdel -n 0 db.rec > /dev/null 2>&1 3>&- &
        second=$!
        wait "$first" || true
        wait "$second" || true
        cmp -s db.rec one_less || cmp -s db.rec two_less || cmp -s db.rec whole || fail "the file is torn in pair $pair"
        only db.rec db.rec.journal one_less two_less whole
    done
}
