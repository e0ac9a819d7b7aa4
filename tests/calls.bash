# The library that counts the calls of a run on files, calls.c.

# Builds it for the cases of a file.
build_calls() {
    command -v cc > /dev/null || fail 'no C compiler to build calls.c with'
    cc -O1 -shared -fPIC -o "$BATS_FILE_TMPDIR/calls.so" "$top/tests/calls.c" -ldl
}

# at NUMBER WHAT WORD..: recu with these words; what becomes of the call of this number is told in calls.c
at() {
    AT=$1 DO=$2 LD_PRELOAD=$BATS_FILE_TMPDIR/calls.so "$program" "${@:3}" > out 2> err 3>&-
}

# met: the last run had the call, whose name is then in `call`
met() {
    [ -e hit ] || return 1
    call=$(< hit)
    rm -f hit paused go
}
