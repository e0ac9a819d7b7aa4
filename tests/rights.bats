# What a refused command leaves alone, and the rights of what recu puts in place.

load helpers

teardown() {
    [ -z "${holder-}" ] || kill "$holder"
    [ -z "${mounted-}" ] || umount "$mounted"
    chmod -R u+rwx "$BATS_TEST_TMPDIR"
}

# Only root can give files away, and run the program as another user: the cases that need that are left out for anyone else.
as_other() {
    [ "$(id -u)" = 0 ] || skip 'only root can give files away'
    as_nobody
    chmod 777 .
}

# is MODE:OWNER:GROUP FILE
is() {
    [ "$(stat -c %a:%u:%g "$2")" = "$1" ] || fail "$2 has $(stat -c %a:%u:%g "$2"), not $1"
}

# is_mode MODE FILE
is_mode() {
    [ "$(stat -c %a "$2")" = "$1" ] || fail "$2 has $(stat -c %a "$2"), not $1"
}

# becomes OWNER GROUP MODE NEW: another user edits such a file, which has these rights then
becomes() {
    rm -f db.rec db.rec.journal
    put db.rec "$three"
    chown "$1:$2" db.rec
    chmod "$3" db.rec
    does recdel -n 0 db.rec
    is "$4" db.rec
    is "$4" db.rec.journal
}

@test "nobody gains rights where the group cannot be kept" {
    as_other
    becomes 65534 65534 660 660:65534:65534
    becomes 65534 12345 660 600:65534:65534
    becomes 65534 12345 640 600:65534:65534
    becomes 65534 12345 664 644:65534:65534
    becomes 65534 12345 666 666:65534:65534
    becomes 65534 12345 604 600:65534:65534
    becomes 65534 12345 644 644:65534:65534
}

@test "nobody gains rights where the owner cannot be kept" {
    as_other
    becomes 1234 65534 664 664:65534:65534
    becomes 1234 65534 464 444:65534:65534
    becomes 1234 12345 666 666:65534:65534
}

@test "root keeps the owner, the group and the mode" {
    [ "$(id -u)" = 0 ] || skip 'only root can give files away'
    put db.rec "$three"
    chown 1234:12345 db.rec
    chmod 660 db.rec
    does recdel -n 0 db.rec
    is 660:1234:12345 db.rec
    is 660:1234:12345 db.rec.journal
}

# attributes WORD..: sets or tells what a file has beside its mode, by attributes.c
attributes() {
    if [ ! -x "$BATS_FILE_TMPDIR/attributes" ]; then
        command -v cc > /dev/null || fail 'no C compiler to build attributes.c with'
        # (cases run beside one another, and each that needs it may find it half made)
        cc -O1 -o "$BATS_TEST_TMPDIR/attributes" "$top/tests/attributes.c"
        mv "$BATS_TEST_TMPDIR/attributes" "$BATS_FILE_TMPDIR/attributes"
    fi
    "$BATS_FILE_TMPDIR/attributes" "$@"
}

# What the library can't reach is not kept, as the documents say. Its group's rights come back with the loss of the list.
@test "an access control list is not kept, and the mode is" {
    put db.rec "$three"
    chmod 600 db.rec
    attributes db.rec shield 2> "$BATS_TEST_TMPDIR/why" || skip "no access control list here: $(cat "$BATS_TEST_TMPDIR/why")"
    is "660:$(id -u):$(id -g)" db.rec
    [ "$(attributes db.rec)" = system.posix_acl_access ] || fail 'the file has no list'
    does recdel -n 0 db.rec
    is "660:$(id -u):$(id -g)" db.rec
    [ -z "$(attributes db.rec)" ] || fail "the new file has $(attributes db.rec)"
    does undo db.rec
    has db.rec "$three"
}

@test "an extended attribute is not kept" {
    put db.rec "$three"
    attributes db.rec user.origin 'a list' 2> "$BATS_TEST_TMPDIR/why" || skip "no extended attributes here: $(cat "$BATS_TEST_TMPDIR/why")"
    recu 0 recsel db.rec
    [ "$(attributes db.rec)" = user.origin ] || fail 'the attribute has gone though nothing was written'
    does recdel -n 0 db.rec
    [ -z "$(attributes db.rec)" ] || fail "the new file has $(attributes db.rec)"
}

# untouched WORD..: recu refuses to write, and neither the file nor a journal has changed
untouched() {
    recu 1 "$@"
    tail -n 1 "$BATS_TEST_TMPDIR/err" | grep -qx 'recu: a file could not be read or written' || fail "$(cat "$BATS_TEST_TMPDIR/err")"
    has db.rec "$three"
    [ ! -e db.rec.journal ] && [ ! -e j ] || fail 'a journal was made'
}

says() {
    grep -qxF "$1" "$BATS_TEST_TMPDIR/err" || fail "it says: $(cat "$BATS_TEST_TMPDIR/err")"
}

@test "what stands under the working name is not touched, and no journal is made" {
    put db.rec "$three"
    mkdir db.rec.new
    untouched recdel -n 0 db.rec
    says 'db.rec.new: not a regular file: recu writes under this name, so move it away'
    rmdir db.rec.new
    put other 'other'
    ln -s other db.rec.new
    untouched recdel -n 0 db.rec
    says 'db.rec.new: not a regular file: recu writes under this name, so move it away'
    has other 'other'
    only db.rec db.rec.new other
}

@test "a working name that is too long" {
    local name
    name=$(printf '%0252d' 7)
    put "$name" "$three"
    recu 1 recdel -n 0 --journal j "$name"
    says "$name.new: File name too long (os error 36)"
    has "$name" "$three"
    only "$name"
}

@test "another user's file in a sticky folder" {
    as_other
    mkdir d
    chmod 1777 d
    cd d
    put db.rec "$three"
    chown 1234:1234 db.rec
    chmod 666 db.rec
    untouched recdel -n 0 db.rec
    says 'db.rec: Operation not permitted (os error 1)'
    only db.rec
    chown 65534 db.rec
    does recdel -n 0 db.rec
    # the folder's owner may replace it, and so may root
    chown 65534 .
    chown 1234:1234 db.rec
    does undo db.rec
    has db.rec "$three"
    as_user=()
    chown 1234 .
    chown 1234:1234 db.rec db.rec.journal
    does redo db.rec
    has db.rec 'B: 2¶¶C: 3¶'
    only db.rec db.rec.journal
}

@test "another user's file under a working name" {
    as_other
    local name
    put db.rec "$three"
    chmod 666 db.rec
    for name in db.rec.new db.rec.journal.new; do
        put "$name" 'my own work¶'
        chmod 600 "$name"
        untouched recdel -n 0 db.rec
        says "$name: Permission denied (os error 13): recu writes under this name, so move it away"
        chmod 644 "$name"
        untouched recdel -n 0 db.rec
        says "$name: not left by recu: recu writes under this name, so move it away"
        has "$name" 'my own work¶'
        is 644:0:0 "$name"
        only db.rec "$name"
        rm "$name"
    done
}

@test "another user's leftover" {
    as_other
    put db.rec "$three"
    chmod 666 db.rec
    put db.rec.journal.new "$header"
    chmod 600 db.rec.journal.new
    untouched recdel -n 0 db.rec
    says 'db.rec.journal.new: Permission denied (os error 13): recu writes under this name, so move it away'
    only db.rec db.rec.journal.new
    chmod 644 db.rec.journal.new
    put db.rec.new 'half a fi'
    chmod 644 db.rec.new
    does recdel -n 0 db.rec
    only db.rec db.rec.journal
}

@test "another user's leftover in a sticky folder" {
    as_other
    mkdir d
    chmod 1777 d
    cd d
    put db.rec "$three"
    chown 65534 db.rec
    put db.rec.journal.new ''
    untouched recdel -n 0 db.rec
    says 'db.rec.journal.new: Operation not permitted (os error 1): recu writes under this name, so move it away'
    only db.rec db.rec.journal.new
}

@test "a file that is a mount point" {
    put db.rec "$three"
    put other "$three"
    mount --bind other db.rec 2> "$BATS_TEST_TMPDIR/mount" || skip "no mount can be made here: $(cat "$BATS_TEST_TMPDIR/mount")"
    mounted=$PWD/db.rec
    untouched recdel -n 0 db.rec
    says "db.rec: a mount point, which can't be replaced"
    only db.rec other
    umount db.rec
    mounted=
    does recdel -n 0 db.rec
}

@test "a journal under the file's working name" {
    put db.rec "$three"
    untouched recdel -n 0 --journal ./db.rec.new db.rec
    only db.rec
    put db.rec.new "$header"
    untouched recdel -n 0 --journal ./db.rec.new db.rec
    has db.rec.new "$header"
    only db.rec db.rec.new
}

@test "a working folder with a path of more than 4096 bytes" {
    local name
    name=$(printf '%0250d' 7)
    for ((depth = 0; depth < 18; depth++)); do
        mkdir "$name"
        cd "$name"
    done
    put db.rec "$three"
    does recdel -n 0 db.rec
    has db.rec 'B: 2¶¶C: 3¶'
    does undo db.rec
    has db.rec "$three"
    only db.rec db.rec.journal
}

@test "links that are not UTF-8" {
    local name=$'db\xff.rec'
    put "$name" "$three"
    ln -s "$name" link
    recu 1 recdel -n 0 link
    says 'link: a symbolic link with a target that is not UTF-8'
    has "$name" "$three"
    only "$name" link
}

@test "a folder whose name is not UTF-8" {
    mkdir $'d\xff'
    cd $'d\xff'
    put db.rec "$three"
    does recdel -n 0 db.rec
    has db.rec 'B: 2¶¶C: 3¶'
}

@test "a closed pipe" {
    seq 200000 | sed 's/^/N: /' > db.rec
    local statuses
    "$recu" recsel db.rec 2> err 3>&- | head -n 1 > out
    statuses=${PIPESTATUS[*]}
    [ "$statuses" = '141 0' ] || fail "the statuses are $statuses"
    has err ''
}

@test "looking takes no lock, and waits for none" {
    put db.rec "$three"
    (exec 9< db.rec && flock 9 && : > held && exec sleep 60) 3>&- &
    holder=$!
    until [ -e held ]; do sleep 0.01; done
    recu 0 recsel db.rec
    recu 0 recfix db.rec
    recu 1 recdel -n 0 db.rec
    prints '' "db.rec: locked by another program¶$store_failed"
    has db.rec "$three"
    only db.rec held
}

@test "a script that locks the file itself keeps recu out, and one that locks another file doesn't" {
    put db.rec "$three"
    ends 1 flock db.rec "$program" recdel -n 0 db.rec
    prints '' "db.rec: locked by another program¶$store_failed"
    has db.rec "$three"
    ends 0 flock db.lock "$program" recdel -n 0 db.rec
    prints '' ''
    has db.rec 'B: 2¶¶C: 3¶'
}

@test "a lock is met by every path, and by another file with the journal" {
    local path
    put db.rec "$three"
    put other.rec "$three"
    put j ''
    ln -s db.rec link
    ln db.rec hard
    (exec 8< j 9< db.rec && flock 8 && flock 9 && : > held && exec sleep 60) 3>&- &
    holder=$!
    until [ -e held ]; do sleep 0.01; done
    for path in link hard ./db.rec "$PWD/db.rec"; do
        fails_to_store "$path: locked by another program" recdel -n 0 "$path"
    done
    fails_to_store 'j: locked by another program' recdel -n 0 --journal j other.rec
    has db.rec "$three"
    has other.rec "$three"
    has j ''
    only db.rec hard held j link other.rec
}

# locks NUMBER WORD..: recu with these words ends well, and makes this number of calls to lock something
locks() {
    strace -f -qq -o "$BATS_TEST_TMPDIR/trace" -e trace=flock "$program" "${@:2}" > /dev/null 3>&- || fail "${*:2} is refused"
    [ "$(wc -l < "$BATS_TEST_TMPDIR/trace")" = "$1" ] || fail "${*:2}: $(cat "$BATS_TEST_TMPDIR/trace")"
}

@test "looking makes no call that locks" {
    can_trace
    local words
    put db.rec "$three"
    does recset -n 0 -f A -s 8 db.rec
    put changes 'Tool: recdel¶Number: 0¶'
    for words in 'recsel' 'recinf' 'recfix' 'history' 'history --patch' 'show' 'recins --dry-run -f A -v 1' 'recdel --dry-run -n 0' \
        'recset --dry-run -f A -s 7' 'recfix --auto --dry-run' 'batch --dry-run -b changes' 'undo --dry-run' 'revert --dry-run 1'; do
        locks 0 $words db.rec
    done
    # the file, the journal, and their two new files
    locks 4 undo db.rec
    for words in 'redo --dry-run' 'show 1'; do
        locks 0 $words db.rec
    done
    locks 4 redo db.rec
    has db.rec 'A: 8¶¶B: 2¶¶C: 3¶'
}

@test "looking opens nothing for writing" {
    can_trace
    local words
    put db.rec "$three"
    does recset -n 0 -f A -s 8 db.rec
    for words in 'recsel' 'recfix' 'history --patch' 'show' 'recdel --dry-run -n 0' 'recfix --auto --dry-run' 'undo --dry-run' \
        'revert --dry-run 1'; do
        strace -f -qq -o "$BATS_TEST_TMPDIR/trace" -e trace=openat "$program" $words db.rec > /dev/null 3>&- || fail "$words is refused"
        grep -q '"db.rec"' "$BATS_TEST_TMPDIR/trace" || fail "$words: db.rec isn't opened"
        ! grep 'O_RDWR\|O_WRONLY\|O_CREAT' "$BATS_TEST_TMPDIR/trace" || fail "$words opens that for writing"
    done
}

# edited_twice: the file with two edits in its journal
edited_twice() {
    put db.rec "$three"
    [ ${#as_user[@]} = 0 ] || chown 65534:65534 db.rec
    does recset -n 0 -f A -s 8 db.rec
    does recset -n 0 -f A -s 9 db.rec
}

# What is forgotten changes the journal alone, so that has to be one that may be replaced; the file need not be.
@test "a journal that is written anew has the owner and the group of the file, and no more rights than before" {
    [ "$(id -u)" = 0 ] || skip 'only root can give files away'
    edited_twice
    chown 1234:12345 db.rec
    chmod 644 db.rec
    chown 4321:54321 db.rec.journal
    chmod 640 db.rec.journal
    cp -p db.rec "$BATS_TEST_TMPDIR/file"
    does forget 1 db.rec
    is 640:1234:12345 db.rec.journal
    [ "$(stat -c '%a %u %g %Y' db.rec)" = "$(stat -c '%a %u %g %Y' "$BATS_TEST_TMPDIR/file")" ] || fail 'the file has other rights'
    has db.rec < "$BATS_TEST_TMPDIR/file"
}

@test "a journal of another group that is written anew" {
    as_other
    edited_twice
    chown 65534:12345 db.rec.journal
    chmod 664 db.rec.journal
    does forget 1 db.rec
    is 644:65534:65534 db.rec.journal
}

@test "a journal never gives more rights than its file, and none to run it" {
    put db.rec "$three"
    chmod 755 db.rec
    does recset -n 0 -f A -s 4 db.rec
    is_mode 755 db.rec
    is_mode 644 db.rec.journal
    chmod 600 db.rec
    does recset -n 0 -f A -s secret db.rec
    is_mode 600 db.rec.journal
    chmod 664 db.rec
    chmod 666 db.rec.journal
    does undo db.rec
    is_mode 664 db.rec.journal
    chmod 2664 db.rec
    chmod 640 db.rec.journal
    does redo db.rec
    is_mode 640 db.rec.journal
    chmod 600 db.rec
    chmod 666 db.rec.journal
    does forget 1 db.rec
    is_mode 600 db.rec.journal
}

@test "a file that may only be read, and what is forgotten of its journal" {
    as_other
    edited_twice
    chown 0:0 db.rec
    chmod 444 db.rec
    recu 1 recdel -n 0 db.rec
    says 'db.rec: Permission denied (os error 13)'
    does forget 1 db.rec
    recu 0 history db.rec
    prints 'done 1 recset¶' ''
    is 444:0:0 db.rec
    chown 0:0 db.rec.journal
    chmod 444 db.rec.journal
    cp db.rec.journal "$BATS_TEST_TMPDIR/journal"
    recu 1 forget 0 db.rec
    says 'db.rec.journal: Permission denied (os error 13)'
    has db.rec.journal < "$BATS_TEST_TMPDIR/journal"
    chmod 666 db.rec.journal
    chmod 1777 .
    recu 1 forget 0 db.rec
    says 'db.rec.journal: Operation not permitted (os error 1)'
    has db.rec.journal < "$BATS_TEST_TMPDIR/journal"
    chmod 755 .
    recu 1 forget 0 db.rec
    says ".: the folder isn't writable, and recu writes a new file in it: Permission denied (os error 13)"
    has db.rec.journal < "$BATS_TEST_TMPDIR/journal"
    only db.rec db.rec.journal
}

foreign_journal="another user's, in a folder that anyone may write: move it, or give --journal"
foreign_link="a link of another user, in a folder that anyone may write: it isn't followed"

# shared MODE: a folder of user 5678 with this mode, and in it a file of user 4321 that was edited once
shared() {
    [ "$(id -u)" = 0 ] || skip 'only root can give files away'
    mkdir d
    chown 5678:5678 d
    chmod "$1" d
    put d/db.rec "$three"
    recu 0 recdel -n 0 d/db.rec
    chown 4321:4321 d/db.rec d/db.rec.journal
    chmod 666 d/db.rec d/db.rec.journal
    cp d/db.rec.journal "$BATS_TEST_TMPDIR/journal"
}

# refuses_journal WORD..: recu doesn't read the journal, and all is as it was
refuses_journal() {
    fails_to_store "d/db.rec.journal: $foreign_journal" "$@"
    has d/db.rec 'B: 2¶¶C: 3¶'
    has d/db.rec.journal < "$BATS_TEST_TMPDIR/journal"
    is 666:1234:1234 d/db.rec.journal
    (cd d && only db.rec db.rec.journal)
}

# takes_journal OWNER: recu reads the journal, where it belongs to this user, and writes it
takes_journal() {
    chown "$1:$1" d/db.rec.journal
    recu 0 history d/db.rec
    prints 'done 1 recdel¶' ''
    does undo d/db.rec
    has d/db.rec "$three"
    does redo d/db.rec
    does forget 0 d/db.rec
    cp "$BATS_TEST_TMPDIR/journal" d/db.rec.journal
}

@test "another user's journal in a folder that anyone may write" {
    shared 1777
    chown 1234:1234 d/db.rec.journal
    local words
    for words in 'recdel -n 0' 'recdel -n 0 --dry-run' undo redo 'revert 1' 'forget 0' history 'history --patch' 'show 1'; do
        refuses_journal $words d/db.rec
    done
    recu 0 recsel d/db.rec
    prints 'B: 2¶¶C: 3¶' ''
    as_nobody
    for words in 'recdel -n 0' undo 'forget 0' history; do
        refuses_journal $words d/db.rec
    done
}

@test "a journal of a known user in a folder that anyone may write" {
    shared 1777
    takes_journal 4321
    takes_journal 5678
    takes_journal 0
    # the caller, who owns neither the file nor the folder, and may forget what he wrote
    as_nobody
    chown 65534 d/db.rec.journal
    recu 0 history d/db.rec
    prints 'done 1 recdel¶' ''
    does forget 0 d/db.rec
    is 666:65534:65534 d/db.rec.journal
}

@test "another user's journal in other folders" {
    local mode
    for mode in 777 1775 1757 755; do
        shared "$mode"
        case $mode in
            1757)
                chown 1234:1234 d/db.rec.journal
                refuses_journal undo d/db.rec
                ;;
            *) takes_journal 1234 ;;
        esac
        rm -r d
    done
}

@test "a link to another user's journal in a folder that anyone may write" {
    shared 1777
    chown 1234:1234 d/db.rec.journal
    put db.rec 'B: 2¶¶C: 3¶'
    ln -s d/db.rec.journal db.rec.journal
    local words
    for words in 'recdel -n 0' undo history 'show 1'; do
        fails_to_store "db.rec.journal: $foreign_journal" $words db.rec
    done
    has db.rec 'B: 2¶¶C: 3¶'
    has d/db.rec.journal < "$BATS_TEST_TMPDIR/journal"
    only d db.rec db.rec.journal
    chown 5678 d/db.rec.journal
    does undo db.rec
    has db.rec "$three"
}

# linked TEXT: a folder of user 5678, which anyone may write, and beside it a third file with this text
linked() {
    [ "$(id -u)" = 0 ] || skip 'only root can give files away'
    mkdir d
    chown 5678:5678 d
    chmod 1777 d
    put third "$1"
}

# links OWNER TO FROM: makes a link of this user
links() {
    rm -f "$3"
    ln -s "$2" "$3"
    chown -h "$1:$1" "$3"
}

# leaves PATH WORD..: recu doesn't follow the link, and the third file stays. Where the system is set to, it refuses first.
leaves() {
    cp third "$BATS_TEST_TMPDIR/third"
    recu 1 "${@:2}"
    if ! grep -qxF "$1: Permission denied (os error 13)" "$BATS_TEST_TMPDIR/err"; then
        prints '' "$1: $foreign_link¶$store_failed"
    fi
    has third < "$BATS_TEST_TMPDIR/third"
}

@test "another user's link in a folder that anyone may write" {
    linked "$three"
    links 1234 ../third d/db.rec
    leaves d/db.rec recdel -n 0 --journal j d/db.rec
    leaves d/db.rec undo --journal j d/db.rec
    leaves d/db.rec recdel -n 0 --journal "$PWD/j" d/db.rec
    links 1234 "$PWD/third" d/db.rec
    leaves d/db.rec recdel -n 0 --journal j d/db.rec
    only d third
    (cd d && only db.rec)
    # those of the caller and of the folder's owner are followed
    links 0 ../third d/db.rec
    does recdel -n 0 --journal j d/db.rec
    links 5678 ../third d/db.rec
    does undo --journal j d/db.rec
    has third "$three"
    [ "$(readlink d/db.rec)" = ../third ] || fail 'the link is gone'
    rm j
    chmod 666 third
    chmod 777 .
    as_nobody
    # to another caller root is another user too
    links 0 ../third d/db.rec
    leaves d/db.rec recdel -n 0 --journal j d/db.rec
    links 65534 ../third d/db.rec
    does recdel -n 0 --journal j d/db.rec
    has third 'B: 2¶¶C: 3¶'
}

@test "another user's link under a journal's name in a folder that anyone may write" {
    linked ''
    put d/db.rec "$three"
    links 1234 ../third d/db.rec.journal
    leaves d/db.rec.journal recdel -n 0 d/db.rec
    leaves d/db.rec.journal undo d/db.rec
    leaves d/db.rec.journal forget 0 d/db.rec
    has d/db.rec "$three"
    links 1234 ../nothing d/db.rec.journal
    recu 1 recdel -n 0 d/db.rec
    has d/db.rec "$three"
    only d third
    links 0 ../third d/db.rec.journal
    does recdel -n 0 d/db.rec
    links 5678 ../third d/db.rec.journal
    does undo d/db.rec
    has d/db.rec "$three"
    [ -s third ] || fail 'the journal is empty'
}

@test "links in a row, of which another user's stands in a folder that anyone may write" {
    linked "$three"
    links 0 d/second first
    links 1234 ../third d/second
    leaves first recdel -n 0 --journal j first
    # the caller's own link leads to another's
    links 0 second d/first
    leaves d/first recdel -n 0 --journal j d/first
    # in this folder not everyone may write
    links 1234 third second
    links 0 ../second d/first
    does recdel -n 0 --journal j d/first
    links 5678 ../third d/second
    does undo --journal j first
    has third "$three"
}

@test "another user's link in other folders" {
    linked "$three"
    local mode
    links 1234 ../third d/db.rec
    for mode in 777 1775 755; do
        chmod "$mode" d
        does recdel -n 0 --journal j d/db.rec
        does undo --journal j d/db.rec
    done
    has third "$three"
    chmod 1757 d
    leaves d/db.rec recdel -n 0 --journal j d/db.rec
}

@test "the caller's own link where nothing tells who the caller is" {
    linked "$three"
    as_user=(unshare --mount sh -c 'mount -t tmpfs none /proc && exec "$@"' sh)
    "${as_user[@]}" true 2> "$BATS_TEST_TMPDIR/mount" || skip "no mount can be made here: $(cat "$BATS_TEST_TMPDIR/mount")"
    links 0 ../third d/db.rec
    recu 1 recdel -n 0 --journal j d/db.rec
    says "d/db.rec: $foreign_link"
    has third "$three"
    links 5678 ../third d/db.rec
    recu 0 recdel -n 0 --journal j d/db.rec
    has third 'B: 2¶¶C: 3¶'
}
