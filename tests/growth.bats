# Each allocation fails in turn in each case of crates/rec_calls and in each case of crates/rec_rows/data/growth.rec.
# A case of rec_calls for which memory ran out is run once more: it passes, whichever allocation fails. So does rec_rows, after
# the word `again`, with the requests of a case. And it says what one list of requests comes to with each of them.

load helpers
load allocator

calls=$top/crates/rec_calls/out/rec_calls

setup_file() {
    [ -x "$calls" ] || fail "there is no $calls: bash test.sh proofs makes it"
    build_failing_allocator
}

# each_allocation CASE: it passes with each failing allocation, up to a run in which none fails
each_allocation() {
    local number
    for ((number = 1; number <= 100000; number++)); do
        : > hit
        # (the shell's own word on a program that stopped is dropped)
        { failing "$number" "$calls" "$1" > out 2> err; } 2> /dev/null ||
            fail "$1, allocation $number: status $?: $(cat out err | tr -s '\n' ' ')"
        if [ ! -s hit ]; then
            [ "$number" -gt 1 ] || fail "$1: no allocation failed"
            return 0
        fi
    done
    fail "$1: no end"
}

grow() {
    local cases case
    mapfile -t cases < <("$calls" list)
    [ "${#cases[@]}" -gt 0 ] || fail 'rec_calls has no case'
    for case in "${cases[@]}"; do
        each_allocation "$case"
    done
}

@test "rec_calls: calls whose allocations fail" {
    fast grow
}

rows=$top/crates/rec_rows/out/rec_rows
requests=$top/crates/rec_rows/data/growth.rec

need_rows() {
    [ -x "$rows" ] || fail "there is no $rows: bash test.sh proofs makes it"
}

# passes_again STATUS: whether nothing was found otherwise; what could not be run, since an allocation of the runner's own failed,
# is told so
passes_again() {
    local last line text
    text=$(< out)
    last=${text##*$'\n'}
    case $1/$last in
        0/*' cases, '*' requests, '*' again') text=${text%"$last"} ;;
        1/*) ;;
        *) return 1 ;;
    esac
    [ -n "$text" ] || return 0
    while IFS= read -r line; do
        [[ $line = *': out of memory' ]] || return 1
    done <<< "${text%$'\n'}"
}

# each_again CASE: it passes with each failing allocation, up to a run in which none fails, and in some run a request is run
# again
each_again() {
    local number status again=0
    awk -v RS= -v case="Case: $1" '{ split($0, lines, "\n") } lines[1] == case' "$requests" > case.rec
    for ((number = 1; number <= 100000; number++)); do
        : > hit
        status=0
        { failing "$number" "$rows" again case.rec > out 2> err; } 2> /dev/null || status=$?
        passes_again "$status" || fail "$1, allocation $number: status $status: $(tr -s '\n' ' ' < out)"
        case $(< out) in *', 1 again') again=$((again + 1)) ;; esac
        if [ ! -s hit ]; then
            [ "$again" -gt 0 ] || fail "$1: no request was refused"
            return 0
        fi
    done
    fail "$1: no end"
}

grow_rows() {
    local cases case
    mapfile -t cases < <(sed -n 's/^Case: //p' "$requests")
    [ "${#cases[@]}" -gt 0 ] || fail "$requests has no case"
    for case in "${cases[@]}"; do
        each_again "$case"
    done
}

@test "rec_rows: requests whose allocations fail" {
    need_rows
    fast grow_rows
}

# What run_all may answer to two edits and an undo where a growth is refused within one of them, and the file that it leaves:
# memory ran out before the put, or the home had no room for what it was to keep.
refused_within() {
    local word
    for word in '1 out of memory' '23 a file could not be read or written'; do
        echo "$word¶edited 1¶undone 1¶ A: 1¶"
        echo "edited 1¶$word¶undone 1¶ A: 1¶"
        echo "edited 1¶edited 1¶$word¶ A: 3¶"
    done | LC_ALL=C sort
}

# each_refusal: adds what run_all answered, and the file after it, where that is no edit, edit and undo
each_refusal() {
    local number
    for ((number = 1; number <= 100000; number++)); do
        : > hit
        { failing "$number" "$rows" three.rec > out 2> err; } 2> /dev/null || true
        if [ ! -s hit ]; then
            [ "$(cat out)" = '1 cases, 3 requests' ] || fail "refused nothing: $(cat out err)"
            return 0
        fi
        sed -n '/: answers together: /,$s/^.*, request [0-9]*: \(answers together\|the file\): //p' out | paste -s -d ' ' >> answers
    done
    fail 'no end'
}

@test "a growth is refused within one of three requests" {
    need_rows
    put three.rec <<'REC'
Case: two edits and an undo
File: A: 1¶
Request: recset -n 0 -f A -s 2
Answer: edited 1
File_after: A: 2¶
Request: recset -n 0 -f A -s 3
Answer: edited 1
File_after: A: 3¶
Request: undo
Answer: undone 2
File_after: A: 2¶
REC
    fast each_refusal
    grep -v '^$' answers | LC_ALL=C sort -u > found
    refused_within > wanted
    diff wanted found
}
