# Completes the words of recu in bash: its tools and options, as its help names them, and the types, the field names and the
# numbers of edits of the file on the line.

# _recu_options TOOL: a line for each option of the tool: its letter, its name, and what its value is called, or - for none
_recu_options() {
    command recu "$1" -h 2> /dev/null |
        sed -nE '/^Options:/,/^$/ s/^ +(-[A-Za-z])?(, )?(--[a-z-]+)?( <([A-Z=]+)>)? .*/\1 \3 \5/p' |
        sed -E 's/^ /- /; s/  /&- /; s/  / /; s/ $/ -/'
}

# _recu_unquoted WORD: the word without its quotes
_recu_unquoted() {
    local word=$1
    case $word in
        \'*) word=${word#\'} word=${word%\'} ;;
        \"*) word=${word#\"} word=${word%\"} ;;
        \~/*) word=$HOME/${word#\~/} ;;
    esac
    printf '%s' "${word//\\/}"
}

# _recu_names FILE [TYPE]: the field names of the type's records, or of all records
_recu_names() {
    local type types=("${2-}")
    [ -n "${2-}" ] || mapfile -t -O 1 types < <(command recu recinf -n -- "$1" 2> /dev/null)
    for type in "${types[@]}"; do
        command recu recsel ${type:+-t "$type"} -- "$1" 2> /dev/null
    done | sed -n 's/^\([A-Za-z][A-Za-z0-9_]*\):.*/\1/p' | sort -u
}

# _recu_numbers TOOL FILE [JOURNAL]: the numbers of the file's edits that the tool can name
_recu_numbers() {
    local which='done|undone'
    case $1 in
        undo | revert) which=done ;;
        redo) which=undone ;;
    esac
    command recu history ${3:+--journal "$3"} -- "$2" 2> /dev/null | sed -nE "s/^($which) ([0-9]+) .*/\2/p"
}

_recu() {
    local words=("${COMP_WORDS[@]}")
    # Of a word that is begun between two others there is none yet.
    [[ ${COMP_LINE:0:COMP_POINT} != *[[:blank:]] ]] || words=("${words[@]:0:COMP_CWORD}" '' "${words[@]:COMP_CWORD}")
    local tool=${words[1]} current=$2 before=${words[COMP_CWORD - 1]}
    COMPREPLY=()
    if [ "$COMP_CWORD" = 1 ] || [ "$COMP_CWORD/$tool" = 2/help ]; then
        local tools='-h --help -V --version'
        [[ $current == -* ]] || tools=$(command recu --help | sed -nE '/^Commands:/,/^$/ s/^  ([a-z]+) .*/\1/p')
        COMPREPLY=($(compgen -W "$tools" -- "$current"))
        return
    fi
    # A word such as --type=Book stands in three parts here.
    [ "$before" != = ] || before=${words[COMP_CWORD - 2]}

    local letter name value options=()
    local -A takes=()
    while read -r letter name value; do
        for name in "${letter#-}" "${name#-}"; do
            [ -n "$name" ] || continue
            options+=("-$name")
            [ "$value" = - ] || takes[-$name]=$value
        done
    done < <(_recu_options "$tool")

    # The file is the first word that is one, and no option's value.
    local index word file= type= journal= stands_after=
    for ((index = 2; index < ${#words[@]}; index++)); do
        word=${words[index]}
        if [ -n "$word" ] && [ -n "${takes[$word]-}" ]; then
            index=$((index + 1))
            [ "${words[index]-}" != = ] || index=$((index + 1))
            [ "${takes[$word]}" != TYPE ] || type=$(_recu_unquoted "${words[index]-}")
            [ "$word" != --journal ] || journal=$(_recu_unquoted "${words[index]-}")
        elif [ -z "$file" ]; then
            word=$(_recu_unquoted "$word")
            [ ! -f "$word" ] || file=$word
            [ "$index" -le "$COMP_CWORD" ] || stands_after=$file
        fi
    done

    local list=
    case ${takes[$before]-} in
        TYPE)
            [ -z "$file" ] || COMPREPLY=($(compgen -W "$(command recu recinf -n -- "$file" 2> /dev/null)" -- "$current"))
            ;;
        NAME | FIELDS)
            # Of names that commas join, the last one is completed.
            [[ $current != *,* ]] || list=${current%,*},
            [ -z "$file" ] || COMPREPLY=($(compgen -P "$list" -W "$(_recu_names "$file" "$type")" -- "${current#"$list"}"))
            ;;
        N)
            [ -z "$file" ] || COMPREPLY=($(compgen -W "$(_recu_numbers "$tool" "$file" "$journal")" -- "$current"))
            ;;
        PATH | OLD) compopt -o default ;;
        '')
            if [[ $current == -* ]]; then
                COMPREPLY=($(compgen -W "${options[*]}" -- "$current"))
            elif [[ $tool == @(revert|show) && -n $stands_after ]]; then
                COMPREPLY=($(compgen -W "$(_recu_numbers "$tool" "$file" "$journal")" -- "$current"))
            else
                compopt -o default
            fi
            ;;
    esac
}

complete -F _recu recu
