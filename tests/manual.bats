# The man pages, and the list of refusals.

load helpers
load sessions

@test "mandoc has nothing to say of the man pages" {
    mandoc -T lint -W warning "$top"/man/*
    [ "$(ls "$top/man" | wc -l)" = 19 ]
}

@test "the sessions of the man pages" {
    local page
    for page in "$top"/man/*; do
        (
            BATS_TEST_TMPDIR=$BATS_TEST_TMPDIR/${page##*/}
            mkdir -p "$BATS_TEST_TMPDIR/work"
            cd "$BATS_TEST_TMPDIR/work"
            sessions "man/${page##*/}"
        ) || fail "in ${page##*/}"
    done
}

@test "each tool has a man page, and each is named by recu(1)" {
    local tool
    for tool in $("$program" --help | sed -nE '/^Commands:/,/^$/ s/^  ([a-z]+) .*/\1/p'); do
        [ "$tool" = help ] || grep -qx "\.Pq Xr recu-$tool 1" "$top/man/recu.1" || fail "recu(1) does not name recu-$tool(1)"
    done
}

# refusals: a line for each, its number and its text as the program prints it, with N for the number in it
refusals() {
    awk '
        { name = $2; gsub(/[()]/, "", name) }
        /^number_of [(A-Z]/ { number[name] = $NF }
        /^fault_text [(A-Z]/ {
            text = $0
            sub(/^[^=]*= /, "", text)
            gsub(/decimal (\([^)]*\)|[a-z]+)/, "N", text)
            gsub(/codes "|"| \+\+ /, "", text)
            texts[name] = text
        }
        END { for (name in texts) print number[name] " " texts[name] }
    ' "$top/crates/rec_text/specs/Faults.antt" | sort -n
}

@test "docs/refusals.md and recu(1) list all refusals" {
    refusals > refusals
    [ "$(wc -l < refusals)" -ge 25 ]
    sed -nE 's/^\| ([0-9]+) \| `([^`]*)` \|.*/\1 \2/p' "$top/docs/refusals.md" > listed
    diff refusals listed
    sed -nE 's/^\.It Li recu: //p' "$top/man/recu.1" | sed 's/ Ar N/ N/; s/N Ns Li :/N:/; s/\\&//g' | sort > in_manual
    sed -E 's/^[0-9]+ //' refusals | sort | diff - in_manual
}

@test "links between documents lead to files" {
    local document link
    for document in $(cd "$top" && ls README.md CHANGES.md docs/*.md tests/README.md crates/*/README.md); do
        grep -oE '\]\([^)#]+' "$top/$document" 2> /dev/null | cut -c3- > links || true
        while IFS= read -r link; do
            [[ $link == *:* ]] || [ -e "$(dirname "$top/$document")/$link" ] || fail "$document links to $link"
        done < links
    done
}

@test "README.md names no refusal by its number" {
    [ -z "$(grep -E 'refused [0-9]|\(([0-9]{1,2})\)' "$top/README.md")" ]
}
