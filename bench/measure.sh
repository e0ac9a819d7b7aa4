# Measures commands for the scripts beside it, which source it with their words: [PROGRAM [MEGABYTES..]]. It leaves them in a
# temporary folder, with `program`, `sizes` and `here`, the folder of the scripts. `unit` is the time that the others are
# multiples of.
here=$(cd "$(dirname "${BASH_SOURCE[0]}")" && pwd)
program=$(realpath "${1:-$here/../crates/recu/out/recu}") || exit 1
shift $(($# ? 1 : 0))
sizes=("$@")
[ ${#sizes[@]} -gt 0 ] || sizes=(1 10 100)
folder=$(mktemp -d) || exit 1
trap 'rm -rf "$folder"' EXIT
cd "$folder" || exit 1

# milliseconds WORD..
milliseconds() {
    local start=${EPOCHREALTIME/./}
    "$@" >out || exit 1
    echo $(((${EPOCHREALTIME/./} - start + 500) / 1000))
}

# kilobytes WORD..: the most memory that the command had
kilobytes() {
    if [ -x /usr/bin/time ]; then
        /usr/bin/time -f %M -o peak "$@" >out || exit 1
        cat peak
    else
        python3 - "$@" <<'PYTHON'
import resource, subprocess, sys
subprocess.run(sys.argv[1:], stdout=subprocess.DEVNULL, check=True)
print(resource.getrusage(resource.RUSAGE_CHILDREN).ru_maxrss)
PYTHON
    fi
}

# measure RUNS STATE NAME WORD..: one line of the table; the `least` of n times, each from the state that STATE makes
measure() {
    local runs=$1 state=$2 name=$3 took run
    least=
    shift 3
    for ((run = 0; run < runs; run++)); do
        "$state"
        took=$(milliseconds "$@") || exit 1
        [ -n "$least" ] && [ "$least" -le "$took" ] || least=$took
    done
    "$state"
    [ -n "$unit" ] || unit=$((least ? least : 1))
    awk -v name="$name" -v ms="$least" -v kb="$(kilobytes "$@")" -v unit="$unit" \
        'BEGIN { printf "%-26s %9d ms %9.1f MB %8.1f\n", name, ms, kb / 1024, ms / unit }'
}

# the file stays as it is
as_is() {
    :
}
