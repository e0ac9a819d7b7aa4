# The allocator of which one call fails, failing.c.

# Builds it for the cases of a file.
build_failing_allocator() {
    command -v cc > /dev/null || fail 'no C compiler to build the failing allocator with'
    cc -O1 -shared -fPIC -o "$BATS_FILE_TMPDIR/failing.so" "$top/tests/failing.c" -ldl
}

# failing NUMBER WORD..: the command, with the allocation of this number failing; a byte in the file `hit` says that it did
failing() {
    FAILS=$1 LD_PRELOAD=$BATS_FILE_TMPDIR/failing.so "${@:2}"
}
