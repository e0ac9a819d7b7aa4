#!/usr/bin/env bash
# All tests, one part of them, or one case of a part. The last line is 'N passed, M failed'.
#     bash test.sh quick                   what needs no proof, in minutes: for a first look, and after a change of the code
#     bash test.sh                         all parts
#     bash test.sh proofs                  every proof from nothing, the gate's wrong bodies, the tests in the crates
#     bash test.sh edits [--gate] [--anew] [CRATE|EDIT]
#                                          wrong bodies, which the proofs must refuse: all, those of a crate, or one;
#                                          with --gate those that all parts try too. What was refused before counts,
#                                          as long as no source changed; with --anew it doesn't
#     bash test.sh program [CASE]          runs of the built program, and the sessions of the documents
#     bash test.sh memory [CASE]           runs of the built program with each of their allocations failing in turn
#     bash test.sh growth [CASE]           calls of the crates with each of their allocations failing in turn
# CASE is a part of a case's name. Missing programs are installed from Debian's packages, where root runs this.
set -uo pipefail
cd "$(dirname "$0")" || exit 1
folder=$(mktemp -d) || exit 1
trap 'rm -rf "$folder"' EXIT
trap 'exit 130' INT
passed=0
failed=0

usage() {
    sed -n '2,/^[^#]/s/^# \{0,1\}//p' test.sh >&2
    exit 2
}

# Every proof from nothing, the tests in the crates, and the gate's wrong bodies over the libraries that this built. Takes over
# the numbers of the last line of rt ci.
proofs() {
    local status lanes
    looks
    # Where there are more than two processors, a check on each, if there are 5 GB of memory for it: one takes 3 GB for the most
    # part. By itself rt counts on more, and gives some checks several processors, which helps less than another check beside.
    lanes=$(nproc)
    if [ "$lanes" -le 2 ] || [ "$(awk '/^MemAvailable/ { print int($2 / 5000000) }' /proc/meminfo)" -lt "$lanes" ]; then
        lanes=
    fi
    # The crates up to rec_tools stand one above another, so that nothing is beside most of them: there several processors do help.
    # (What is proved is kept only where the disk has room. An older kit keeps nothing, takes no names, and says how it is called:
    # it gives a crate that is proved alone several processors by itself.)
    if [ -n "$lanes" ] && [ -z "${RT_JOBS-}" ] && [ "$(df --output=avail -k . | tail -n 1)" -gt 20000000 ]; then
        rt ci rec_tools 2>&1 | tee "$folder/log" | sed -u '/^usage: /,$d; /^[0-9]* passed, [0-9]* failed$/d'
        ! grep -q '^usage: ' "$folder/log" || lanes=
    fi
    RT_JOBS=${RT_JOBS-$lanes} rt ci | tee "$folder/log"
    status=${PIPESTATUS[0]}
    if [[ $(tail -n 1 "$folder/log") =~ ^([0-9]+)\ passed,\ ([0-9]+)\ failed$ ]]; then
        passed=$((passed + BASH_REMATCH[1]))
        failed=$((failed + BASH_REMATCH[2]))
        [ "$status" = 0 ] || [ "${BASH_REMATCH[2]}" -gt 0 ] || failed=$((failed + 1))
    else
        failed=$((failed + 1))
    fi
    # (where a proof failed, libraries may be missing; and where some were built before, rt ci has put those back)
    if [ "$status" = 0 ]; then
        if compgen -G 'crates/*/out/rlib/stamp' > /dev/null; then edits --gate; else tries --gate; fi
    fi
}

# Says, in seconds, which wrong body doesn't apply any more, which public function has none, and which of those that ask for
# memory no test refuses it; whether docs/guarantees.md counts what has to be read for a clause, and whether that page and the
# READMEs of the crates name clauses that are there; which line of a clause, a definition or a proof is too long, and which
# sentence for users; and in which places words stand that are to be avoided.
looks() {
    local look
    for look in 'wrong-bodies.py applied' 'wrong-bodies.py covered' allocating.py 'reading-list.py compare' \
        promises.py lines.py sentences.py words.py; do
        # (a script, and for most of them a word)
        if python3 tests/$look; then passed=$((passed + 1)); else failed=$((failed + 1)); fi
    done
}

# tries WORD..: tries the wrong bodies that the words ask for, over the libraries that are built. Each of them counts. Those of
# the gate have to be all that say so of themselves.
tries() {
    local status last
    python3 tests/wrong-bodies.py try "$@" | tee "$folder/log"
    status=${PIPESTATUS[0]}
    last=$(tail -n 1 "$folder/log")
    if [[ $last =~ ([0-9]+)\ refused\ now,\ ([0-9]+)\ earlier,\ ([0-9]+)\ not\ refused$ ]]; then
        passed=$((passed + BASH_REMATCH[1] + BASH_REMATCH[2]))
        failed=$((failed + BASH_REMATCH[3]))
        tried=$((BASH_REMATCH[1] + BASH_REMATCH[2] + BASH_REMATCH[3]))
    fi
    if [ "${1-}" = --gate ] && [ "${tried-0}" != "$(cat tests/wrong-bodies/*/*.edit | grep -cx 'gate: yes')" ]; then
        echo "test.sh: not all wrong bodies of the gate were tried: ${tried-0}"
        failed=$((failed + 1))
    elif [ "$status" != 0 ] && [ "${BASH_REMATCH[3]-0}" = 0 ]; then
        failed=$((failed + 1))
    fi
}

# edits [--gate] [--anew] [CRATE|EDIT]: wrong bodies, over the libraries below, which are built first where they changed
edits() {
    local crate
    for crate in $(python3 tests/wrong-bodies.py below "$@"); do
        (cd "crates/$crate" && rt lib > "$folder/log" 2>&1) || { cat "$folder/log"; failed=1; return; }
    done
    tries "$@"
}

# cases FILTER FILE..: the cases of these files whose names the filter fits
cases() {
    local status passed_here
    bats --jobs "$(nproc)" --formatter tap --filter "$1" "${@:2}" | tee "$folder/log"
    status=${PIPESTATUS[0]}
    passed_here=$(grep -c '^ok ' "$folder/log")
    passed=$((passed + passed_here))
    failed=$((failed + $(grep -c '^not ok ' "$folder/log")))
    if ! grep -qx "1\.\.[1-9][0-9]*" "$folder/log"; then
        echo "test.sh: no case has such a name: $1"
        failed=$((failed + 1))
    elif [ "$status" != 0 ] && ! grep -q '^not ok ' "$folder/log"; then
        failed=$((failed + 1))
    fi
}

# The sources are in the layout of rt fmt.
layout() {
    find crates -path '*/out' -prune -o \( -name '*.rt' -o -name '*.antt' \) -print0 |
        xargs -0 "$(dirname "$(rt doc)")/bin/rattle" fmt --check
}

# unproved CRATE: runs the crate's program on what stands beside its src/, as the gate does, but as rt try builds it:
# with no proof, and with a check of each index, sum and access as it runs. In stops.rec the first four calls fail, not all.
unproved() (
    words=() arguments=() input=/dev/null
    cd "crates/$1" || exit 1
    [ ! -f args ] || mapfile -t arguments < args
    [ ! -f stdin ] || input=stdin
    if [ -d data ]; then
        cp -r data "$folder/data"
        sed -i 's/^Failing: [0-9]*/Failing: 4/' "$folder/data/stops.rec"
        for name in "${arguments[@]}"; do words+=(--data "$name=$folder/data/$name"); done
    fi
    rt try --seconds 900 "${words[@]}" -- "${arguments[@]}" < "$input" > "$folder/$1.out" 2> "$folder/$1.err"
    { echo $? > "$folder/$1.status"; } 2> /dev/null
)

# compare CRATE: whether its program ended well and printed what it must, save how many requests were run
compare() {
    local cases=1
    sed -i 's/, [0-9]* requests$//' "$folder/$1.out"
    if sed 's/, [0-9]* requests$//' "crates/$1/stdout" | diff - "$folder/$1.out" && [ "$(< "$folder/$1.status")" = 0 ]; then
        [[ $(tail -n 1 "$folder/$1.out") =~ ^([0-9]+)\ (cases|passed) ]] && cases=${BASH_REMATCH[1]}
        echo "test.sh: $1, unproved: $cases passed"
        passed=$((passed + cases))
    else
        cat "$folder/$1.err"
        echo "test.sh: $1, unproved: FAILED"
        failed=$((failed + 1))
    fi
}

quick() {
    local crate
    echo 'test.sh: the quick part takes some 6 minutes, on a slow machine 12 or more'
    if layout; then passed=$((passed + 1)); else failed=$((failed + 1)); fi
    looks
    # (two at a time: one takes some 2.5 GB of memory)
    unproved rec_rows &
    unproved rec_calls &
    wait -n
    unproved recu
    unproved rec_disks
    wait
    for crate in rec_rows rec_calls rec_disks recu; do compare "$crate"; done
    echo 'test.sh: nothing was proved: the sources read and build, and pass these cases. bash test.sh proves what they promise'
}

program() {
    cases "${1-}" tests/{edits,batches,diffs,through,revert,adopting,forgetting,usage,explanations,notes,files,folders,rivals,looks,stops,rights,streams,selecting,rules,sessions,manual,completions,installing,model,tries}.bats
}

memory() {
    cases "${1-}" tests/memory.bats
}

growth() {
    cases "${1-}" tests/growth.bats
}

all() {
    echo 'test.sh: all parts take some 100 minutes on 4 processors of 2.5 GHz, most of it for the proofs'
    echo 'test.sh: the parts program, memory and growth take 1 to 10 minutes each, once the proofs have built what they run'
    proofs
    program
    memory
    growth
}

case ${1-all} in
    all | proofs | quick) [ $# -le 1 ] || usage ;;
    edits) ;;
    program | memory | growth) [ $# -le 2 ] || usage ;;
    *) usage ;;
esac
# (the quick part calls none of what needs.sh installs)
if [ "${1-}" = quick ] || bash tests/needs.sh; then "${@:-all}"; else failed=1; fi
times > "$folder/times"
awk '{ for (i = 1; i <= 2; i++) { split($i, part, /[ms]/); sum += part[1] + part[2] / 60 } }
    END { printf "test.sh: %.1f processor minutes\n", sum }' "$folder/times"
echo "$passed passed, $failed failed"
[ "$failed" = 0 ]
