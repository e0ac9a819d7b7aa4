#!/usr/bin/env bash
# Builds recu, all of it proved, as crates/recu/out/recu, and tells how far it is.
# Stopped, it goes on from there the next time. JOBS=N has N jobs at a crate instead of what fits.
set -euo pipefail
cd "$(dirname "$0")"
recu=$PWD/crates/recu/out/recu
folder=$(mktemp -d)
# From nothing, on a slow machine (processors: minutes). On 4 it was measured, on fewer it is what the processor minutes come to.
minutes=([1]=145 [2]=110 [4]=93)

# What runs beside this script ends with it, and what it proved is kept.
end() {
    local running
    running=$(jobs -p)
    [ -z "$running" ] || kill $running 2> /dev/null || true
    wait
    bring_back
    rm -rf "$folder"
}
trap end EXIT
trap 'exit 130' INT TERM HUP

# Of each crate that is being built: its folder, rt's process, and the second in which it began.
declare -A home process began

# start CRATE TOP COMMAND..: runs it in the crate, of the copy of the repository at TOP, beside what follows
start() {
    home[$1]=$2/crates/$1 began[$1]=$SECONDS
    : > "$folder/log_of_$1"
    (cd "${home[$1]}" && exec "${@:3}") > "$folder/log_of_$1" 2>&1 &
    process[$1]=$!
}

# How many functions of a crate are proved, by earlier runs too: rt keeps a file for each proof, of impls and cycles too.
proofs() {
    ls "${home[$1]}"/out/incremental/* 2> /dev/null |
        grep -vE '\.TheImpl\.|\.\+' | grep -c -- '-proofs\..*\.Proof\.oantt$' || true
}

# How far a crate is. Once rt has read the sources, it tells how many functions there are.
state() {
    local all done='at work' seconds=$((SECONDS - began[$1]))
    all=$(sed -n 's/^so far: 0 of \([0-9]*\) functions checked.*/\1/p' "$folder/log_of_$1")
    [ -z "$all" ] || done="$(proofs "$1") of $all functions proved"
    printf '%-12s %s, %d:%02d minutes\n' "$1" "$done" $((seconds / 60)) $((seconds % 60))
}

# How far the crates are that are being built: once a minute, and on a terminal each second, over what it showed before.
lines=0 shown=0
show() {
    local crate
    if [ -t 1 ]; then unshow; elif [ $((SECONDS - shown)) -lt 60 ]; then return; fi
    for crate in "${!process[@]}"; do state "$crate"; done
    lines=${#process[@]} shown=$SECONDS
}
unshow() {
    [ ! -t 1 ] || [ $lines = 0 ] || printf '\e[%dA\e[J' $lines
    lines=0
}

# finish CRATE: waits until it is built
finish() {
    local crate
    while [ -n "${process[$1]-}" ]; do
        for crate in "${!process[@]}"; do
            kill -0 "${process[$crate]}" 2> /dev/null || settle "$crate"
        done
        show
        sleep 1
    done
}
# Tells that a crate is built, or what rt says where it fails.
settle() {
    unshow
    if ! wait "${process[$1]}"; then
        cat "$folder/log_of_$1" >&2
        exit 1
    fi
    if grep -q '^logic=proved' "$folder/log_of_$1"; then state "$1"; else echo "$1 was built before"; fi
    unset "process[$1]"
}

# One by one: before a library over others that are not built yet, rt passes over all sources.
build() {
    local crate
    for crate; do
        start "$crate" . rt lib --jobs "$jobs"
        finish "$crate"
    done
}

# Some crates are built beside others, by what these leave of the processors: that of the journal, which stands on rec_text
# alone, and that of the explanations, on which the program alone stands. rt lets one run at a time into a crate and those
# below it, so each works in a copy, and what it made is brought back.
# beside CRATE JOBS BELOW..: begins to build a crate that stands on these
beside() {
    local below copy=$folder/copy_of_$1
    mkdir "$copy"
    tar -c --exclude=out crates.txt HANDLES crates | tar -x -C "$copy"
    for below in "${@:3}"; do
        tar -c --exclude=incremental "crates/$below/out" | tar -x -C "$copy"
    done
    start "$1" "$copy" nice rt lib --jobs "$2"
}
bring_back() {
    local copy crate
    for copy in "$folder"/copy_of_*; do
        crate=${copy##*/copy_of_}
        [ -d "$copy/crates/$crate/out" ] || continue
        rm -rf "crates/$crate/out"
        mv "$copy/crates/$crate/out" "crates/$crate/"
    done
}

most=$(($(nproc) > 3 ? 4 : $(nproc) > 1 ? 2 : 1))
# A job takes 3 GB of memory at most, and the journal, which is built beside others, has one of its own.
fit=$(awk '/^MemAvailable/ { print int($2 / 3000000) - 1 }' /proc/meminfo)
jobs=${JOBS:-$((fit < 1 ? 1 : fit > most ? most : fit))}
if [ ! -x "$recu" ]; then
    echo "Building recu. From nothing, all of it proved, it takes up to ${minutes[most]} minutes on $most processors, and a third of that on a fast machine."
    build rec_text
    beside rec_journal 1 rec_text
    build rec_sex rec_check rec_select
    finish rec_journal
    bring_back
    build rec_edit rec_diff rec_tools
    # The explanations take longer than both crates beside them.
    half=$((jobs > 1 ? jobs / 2 : 1))
    beside rec_explain "$half" rec_text rec_sex rec_check rec_select rec_journal rec_edit rec_diff rec_tools
    jobs=$((jobs > half ? jobs - half : 1)) build rec_disk rec_files rec_command
    finish rec_explain
    bring_back
fi
start recu . rt run --jobs "$jobs" -- --version
finish recu
