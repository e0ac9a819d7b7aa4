#!/usr/bin/env bash
# Installs recu: the program, the script recu-edit, their man pages, and completions for bash, zsh and fish. Builds the program
# first, where it isn't built.
#     bash install.sh [PREFIX]               into PREFIX, or into ~/.local
#     bash install.sh --unproved [PREFIX]    the program that is built without proofs, in minutes, and is much slower
#     bash install.sh --remove [PREFIX]      removes from there what it installed
# RECU=PROGRAM installs that program, and builds none. One that isn't proved is refused without --unproved.
set -euo pipefail
. "$(dirname "${BASH_SOURCE[0]}")/programs.sh"

usage() {
    sed -n '2,/^[^#]/s/^# \{0,1\}//p' "${BASH_SOURCE[0]}"
}

# Sees to it that the program is there, and proved where nothing else was asked for.
provide() {
    if [ -z "${RECU-}" ] && ! is_built "$program"; then
        if [ "$program" = "$unproved" ]; then
            build_unproved
        else
            need_toolchain
            bash "$top/build.sh"
        fi
    fi
    is_this_version "$program" || fail "$program is not recu $version"
    if is_proved "$program"; then
        named="recu $version"
    elif [ "$asked" = --unproved ]; then
        named="recu $version, unproved,"
    else
        fail "$program has no mark of the toolchain that it was proved: --unproved installs it all the same"
    fi
}

asked=${1-}
case $asked in
    --unproved) program=$unproved task=install_all && shift ;;
    --remove) program=$proved task=remove_all && shift ;;
    --help | -h) usage && exit ;;
    -*) usage >&2 && exit 2 ;;
    *) program=$proved task=install_all ;;
esac
program=${RECU:-$program}
[ $# -le 1 ] || { usage >&2 && exit 2; }
prefix=${1:-$HOME/.local}
[[ $prefix == /* ]] || prefix=$PWD/$prefix

# What is installed, and its place below PREFIX.
from=("$program" "$top/recu-edit") to=(bin/recu bin/recu-edit)
for page in "$top"/man/*.[157]; do
    from+=("$page") to+=("share/man/man${page##*.}/${page##*/}")
done
from+=("$top/completions/recu.bash" "$top/completions/recu.zsh" "$top/completions/recu.fish")
to+=(share/bash-completion/completions/recu share/zsh/site-functions/_recu share/fish/vendor_completions.d/recu.fish)

install_all() {
    local index mode
    provide
    for index in "${!from[@]}"; do
        case ${to[index]} in bin/*) mode=755 ;; *) mode=644 ;; esac
        install -D -m "$mode" -- "${from[index]}" "$prefix/${to[index]}" || fail "$prefix/${to[index]} could not be written"
    done
    echo "$named is installed in $prefix"
    [[ :$PATH: == *":$prefix/bin:"* ]] || echo "To find it by its name, add this to PATH: $prefix/bin"
    [[ :${XDG_DATA_HOME:-$HOME/.local/share}:${XDG_DATA_DIRS:-/usr/local/share:/usr/share}: == *":$prefix/share:"* ]] ||
        echo "For bash to complete its words, add this to ~/.bashrc: . $(printf %q "$prefix/share/bash-completion/completions/recu")"
    ! command -v zsh > /dev/null || [[ $(zsh -fc 'print -l $fpath') == *"$prefix/share/zsh/site-functions"* ]] ||
        echo "For zsh to complete its words, add this to fpath, before compinit is called: $prefix/share/zsh/site-functions"
}

# Folders that are empty then go too.
remove_all() {
    local place
    for place in "${to[@]}"; do
        rm -f -- "$prefix/$place"
        (cd -- "$prefix" 2> /dev/null && rmdir -p --ignore-fail-on-non-empty -- "${place%/*}" 2> /dev/null) || true
    done
    echo "recu is removed from $prefix"
}

"$task"
