# Sessions in documents: what a reader sees of commands after `$ `, and of what they print.

# sessions_of DOCUMENT: its sessions, each between two lines ```: fenced blocks of Markdown, literal ones of a man page
sessions_of() {
    case $1 in
        *.md) cat "$top/$1" ;;
        *)
            awk '
                /^\.Bd -literal/ || /^\.Ed/ { print "```"; is_literal = /^\.Bd/; next }
                is_literal { gsub(/\\&/, ""); gsub(/\\\(aq/, "\047"); gsub(/\\\(ti/, "~"); gsub(/\\\(ha/, "^"); gsub(/\\\(ga/, "`")
                    gsub(/\\e/, "\\"); print }
            ' "$top/$1"
            ;;
    esac
}

# steps DOCUMENT: writes each command of its sessions into steps/NUMBER.command, and what it prints into steps/NUMBER.wanted
steps() {
    mkdir -p "$BATS_TEST_TMPDIR/steps"
    sessions_of "$1" | awk -v to="$BATS_TEST_TMPDIR/steps/" '
        /^```/ { is_inside = !is_inside; is_first = is_inside; is_session = 0; next }
        is_first { is_session = /^\$ /; is_first = 0 }
        is_session && /^\$ / {
            number++
            print substr($0, 3) > (to number ".command")
            printf "" > (to number ".wanted")
            next
        }
        is_session { print > (to number ".wanted") }
    '
}

# begin: the folder is a git repository with the files of sample/, and recu is found by its name
begin() {
    mkdir "$BATS_TEST_TMPDIR/bin"
    ln -s "$program" "$BATS_TEST_TMPDIR/bin/recu"
    ln -s "$top/recu-edit" "$BATS_TEST_TMPDIR/bin/recu-edit"
    export PATH=$BATS_TEST_TMPDIR/bin:$PATH GIT_CONFIG_GLOBAL=/dev/null GIT_CONFIG_NOSYSTEM=1
    export GIT_AUTHOR_NAME=recu GIT_AUTHOR_EMAIL=recu@localhost GIT_COMMITTER_NAME=recu GIT_COMMITTER_EMAIL=recu@localhost
    cp "$top"/sample/* .
    git init -q
    git add .
    git commit -q -m sample
}

# sessions DOCUMENT: runs them, one after another in one folder. A file that `cat` shows and that isn't there is made, of
# what stands below
sessions() {
    local number command wanted
    begin
    steps "$1"
    for ((number = 1; ; number++)); do
        command=$BATS_TEST_TMPDIR/steps/$number.command
        wanted=$BATS_TEST_TMPDIR/steps/$number.wanted
        [ -e "$command" ] || break
        command=$(cat "$command")
        case $command in
            'cat '*) [ -e "${command#cat }" ] || cp "$wanted" "${command#cat }" ;;
        esac
        bash -c "$command" > "$BATS_TEST_TMPDIR/printed" 2>&1 < /dev/null 3>&- || true
        cmp -s "$wanted" "$BATS_TEST_TMPDIR/printed" || fail "$command prints:" $'\n'"$(cat "$BATS_TEST_TMPDIR/printed")"
    done
    [ "$number" -gt 1 ] || fail "$1 has no session"
}
