# What shells complete, each with its file of completions/ alone.

load helpers

# offers SHELL: what the shell offers for the lines of standard input, with recu found by its name
offers() {
    PATH=$BATS_TEST_TMPDIR/bin:$PATH python3 "$top/tests/complete.py" "$1"
}

# begin: the files of sample/, one of them under a name with a space
begin() {
    mkdir "$BATS_TEST_TMPDIR/bin"
    ln -s "$program" "$BATS_TEST_TMPDIR/bin/recu"
    cp "$top"/sample/* .
    cp library.rec 'my library.rec'
}

# completes SHELL: the rows of data/completions.rows
completes() {
    local row wrong=0 lines=() wanted=()
    begin
    while IFS= read -r row; do
        case $row in '' | '# '*) continue ;; esac
        lines+=("$(bytes "${row%% | *}"; echo .)")
        wanted+=("$(bytes "${row##* | }")")
    done < "$top/tests/data/completions.rows"
    printf '%s\n' "${lines[@]%.}" | offers "$1" > offered
    mapfile -t offered < offered
    [ "${#lines[@]}" -gt 0 ]
    [ "${#offered[@]}" = "${#lines[@]}" ] || fail "$1 completes ${#offered[@]} of ${#lines[@]} lines"
    for row in "${!lines[@]}"; do
        [ "${offered[row]}" = "${wanted[row]}" ] || {
            printf '%s: %s is completed by: %s\n' "$1" "${lines[row]%.}" "${offered[row]}" >&2
            wrong=1
        }
    done
    [ "$wrong" = 0 ]
}

@test "bash completes tools, options, types, names and files" {
    completes bash
}

@test "zsh completes tools, options, types, names and files" {
    completes zsh
}

@test "fish completes tools, options, types, names and files" {
    completes fish
}

@test "the numbers of edits" {
    local shell name
    begin
    for name in Ada Bo Cy; do does recset -n 0 -f Name -s $name contacts.rec; done
    does undo contacts.rec
    does recset --journal j -n 0 -f Title -s X 'my library.rec'
    for shell in bash zsh fish; do
        printf '%s\n' 'recu undo contacts.rec --through ' 'recu redo contacts.rec --through ' \
            'recu undo --journal j my\ library.rec --through ' 'recu undo library.rec --through ' | offers "$shell" > offered
        has offered '1 2¶3¶1¶¶'
    done
    for shell in bash zsh; do
        printf '%s\n' 'recu revert ^ contacts.rec' 'recu show ^ contacts.rec' 'recu show 1^ contacts.rec' \
            'recu show --journal j ^ my\ library.rec' | offers "$shell" > offered
        has offered '1 2¶1 2 3¶1¶1¶'
    done
}

@test "the file may stand after what is completed" {
    local shell
    begin
    for shell in bash zsh; do
        offers "$shell" > offered <<'END'
recu recsel -t ^ library.rec
recu recsel -t B^ library.rec
recu recset -n 0 -f ^ -s x contacts.rec
recu recsel -t Book -p A^ library.rec
recu recsel --type=^ library.rec
recu recsel --count con^ library.rec
END
        has offered 'Book¶Book¶Address Email Name Note Phone¶Author¶Book¶contacts.rec¶'
    done
}

tools=(recsel recinf recfix recins recdel recset batch undo redo revert adopt write history show forget)

# in_table TOOL: letters, names and values of a tool's options, as the tables of rec_command give them: a line for each
in_table() {
    awk -v wanted="${1^^}" '
        # (an option stands in a table, or under a name of its own that tables list)
        /^(pub )?(static|const) [A-Z_]+:/ {
            table = $0
            sub(/:.*/, "", table)
            sub(/.* /, "", table)
        }
        /^    [A-Z_]+,$/ || /= \[[A-Z_, ]+\];$/ {
            sub(/.*= /, "")
            count = split($0, names, /[^A-Z_]+/)
            for (i = 1; i <= count; i++) options[table] = options[table] options[names[i]]
        }
        / written: Written::/ {
            letter = /\(/ ? "-" substr($0, index($0, "\047") + 1, 1) : "-"
            is_named = /::(Name|Both)/
            is_word = /Word/
        }
        / name: "/ { split($0, parts, "\""); name = is_named ? "--" parts[2] : "-" }
        / takes: Takes::/ && !is_word {
            value = split($0, parts, "\"") > 1 ? parts[2] : "-"
            options[table] = options[table] letter " " name " " value "\n"
        }
        END { printf "%s", options[wanted] }
    ' "$top/crates/rec_command/src/options.rt"
}

# in_help TOOL: the same, as the tool's help gives them
in_help() {
    "$program" "$1" -h | sed -nE '/^Options:/,/^$/ s/^ +(-.)?(, )?(--[a-z-]+)?( <([A-Z=]+)>)? .*/\1 \3 \5/p' |
        sed -E 's/^ /- /; s/  /& - /; s/ $/ -/; s/ +/ /g' | grep -vE -- '--(help|version)'
}

# in_manual TOOL: the same, as the tool's man page gives them
in_manual() {
    sed -nE 's/^\.It Fl (.*)/\1/p' "$top/man/recu-$1.1" |
        awk '{
            letter = name = value = "-"
            for (i = 1; i <= NF; i++) {
                if ($i == "Ar") value = toupper($(++i))
                else if ($i ~ /^-./) name = "-" $i
                else if ($i ~ /^.$/ && $i != ",") letter = "-" $i
            }
            print letter, name, value
        }'
}

@test "help and man pages name the options of the tables" {
    local tool
    for tool in "${tools[@]}"; do
        in_table "$tool" | sort > table
        [ -s table ]
        in_help "$tool" | sort > help
        in_manual "$tool" | sort > manual
        diff table help || fail "the help of $tool names other options"
        diff table manual || fail "man/recu-$tool.1 names other options"
    done
}

@test "shells complete the options of the tables" {
    local tool shell
    begin
    for tool in "${tools[@]}"; do
        { in_table "$tool" && printf '%s\n' '-h --help' '-V --version'; } | grep -oE -- '(^| )--?[a-zA-Z][a-z-]*' | tr -d ' ' |
            LC_ALL=C sort | tr '\n' ' ' | sed 's/ $/\n/'
    done > table
    for shell in bash zsh fish; do
        printf 'recu %s -\n' "${tools[@]}" | offers "$shell" > offered
        diff table offered || fail "$shell completes other options"
    done
}
