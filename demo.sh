#!/usr/bin/env bash
# Edits copies of the files in sample/: an edit, tried first, a refused one, undo, redo, the history, and the rules.
# Shows the proved program, where it is built and younger than its sources, or else one that is built without proofs.
# RECU=PROGRAM shows the session with that program, and builds none.
set -euo pipefail
. "$(dirname "$0")/programs.sh"
if [ -n "${RECU-}" ]; then
    recu=$(realpath -m "$RECU")
elif is_built "$proved" && is_proved "$proved"; then
    recu=$proved
    echo 'Shown proved: by the program that bash build.sh built, all of it proved.'
else
    recu=$unproved
    is_built "$recu" || build_unproved
    echo 'Shown unproved: by a program of the same sources that checks itself as it runs. bash build.sh builds the proved one.'
fi
cd "$top"
folder=$(mktemp -d)
trap 'rm -rf "$folder"' EXIT
cp sample/contacts.rec sample/library.rec "$folder"
cd "$folder"

# try WORD..: a command of recu, with what it prints; one that is refused is part of the session
try() {
    local word line='--- recu'
    for word; do
        [[ $word =~ ^[a-zA-Z0-9_./=-]+$ ]] || word="\"$word\""
        line+=" $word"
    done
    printf '\n%s\n' "$line"
    "$recu" "$@" 2>&1 || echo "(exit status $?)"
}
show() {
    echo "--- $1"
    cat "$1"
}
show contacts.rec
try recsel -e "#Phone || Note ~ 'second'" -P Name contacts.rec
try recdel --dry-run -n 1 contacts.rec
try recdel -n 1 contacts.rec
try show contacts.rec
show contacts.rec
try undo contacts.rec
cmp contacts.rec "$OLDPWD/sample/contacts.rec"
try redo contacts.rec
try history --patch contacts.rec

echo
show library.rec
try recfix library.rec
try recins -t Book -f Title -v 'GNU Emacs Manual' library.rec
try recins -t Book -f Title -v Emma -f Author -v 'Jane Austen' library.rec
try recfix --auto library.rec
show library.rec
try history library.rec
try undo library.rec
try undo library.rec
cmp library.rec "$OLDPWD/sample/library.rec"
try recfix library.rec
