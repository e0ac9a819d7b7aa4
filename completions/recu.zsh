#compdef recu
# Completes the words of recu in zsh: its tools and options, as its help names them, and the types, the field names and the
# numbers of edits of the file on the line.

# The types of the file.
_recu_types() {
    local -a types expl
    [[ -z $recu_file ]] || types=(${(f)"$(recu recinf -n -- $recu_file 2> /dev/null)"})
    _wanted types expl type compadd -a types
}

# The field names of the type's records, or of all records. Of names that commas join, the last one is completed.
_recu_names() {
    local -a types names expl
    local type
    if [[ -n $recu_file ]]; then
        types=("$recu_type")
        [[ -n $recu_type ]] || types+=(${(f)"$(recu recinf -n -- $recu_file 2> /dev/null)"})
        names=(${(fu)"$(for type in "$types[@]"; do
            recu recsel ${type:+-t} ${type:+$type} -- $recu_file 2> /dev/null
        done | sed -n 's/^\([A-Za-z][A-Za-z0-9_]*\):.*/\1/p')"})
    fi
    compset -P '*,'
    _wanted fields expl field compadd -a names
}

# The numbers of the file's edits that the tool can name.
_recu_numbers() {
    local -a numbers expl
    local which='done|undone'
    case $tool in
        undo | revert) which=done ;;
        redo) which=undone ;;
    esac
    [[ -z $recu_file ]] || numbers=(${(f)"$(
        recu history ${recu_journal:+--journal} ${recu_journal:+$recu_journal} -- $recu_file 2> /dev/null |
            sed -nE "s/^($which) ([0-9]+) .*/\\2/p"
    )"})
    _wanted numbers expl 'number of an edit' compadd -a numbers
}

_recu() {
    local tool=$words[2]
    local -a specs match mbegin mend
    if (( CURRENT == 2 )) || [[ $CURRENT/$tool == 3/help ]]; then
        specs=(${(M)${(f)"$(recu --help 2> /dev/null)"}:#  [a-z]## ##[A-Z]*})
        specs=(${${specs#  }/ ##/:})
        if [[ $PREFIX == -* ]]; then
            _arguments '(- *)'{-h,--help}'[Print help]' '(- *)'{-V,--version}'[Print version]'
        else
            _describe -t tools tool specs
        fi
        return
    fi

    # A spec for each letter and each name of an option.
    local line letter name value about word often
    local -A takes
    local -A actions=(TYPE _recu_types FIELDS _recu_names NAME _recu_names N _recu_numbers PATH _files OLD _files)
    for line in ${(f)"$(recu $tool -h 2> /dev/null)"}; do
        [[ $line =~ '^ +(-[A-Za-z])?(, )?(--[a-z-]+)?( <([A-Z=]+)>)?  +([^ ].*)$' ]] || continue
        letter=$match[1] name=$match[3] value=$match[5] about=${match[6]//(#m)[\]\[:\\]/\\$MATCH} often=
        [[ $tool/$name != recins/--(field|value) ]] || often='*'
        for word in $letter $name; do
            if [[ -z $value ]]; then
                specs+=("($letter $name)${word}[$about]")
                continue
            fi
            takes[$word]=$value
            case $word in
                --*) specs+=("${often:-($letter $name)}${word}=[$about]:$value:${actions[$value]:- }") ;;
                *) specs+=("${often:-($letter $name)}${word}+[$about]:$value:${actions[$value]:- }") ;;
            esac
        done
    done
    # The file is the first word that is one, and no option's value.
    local recu_file recu_type recu_journal stands_after
    local -i index
    for (( index = 3; index <= $#words; index++ )); do
        word=${(Q)words[index]}
        if [[ -n $takes[$word] ]]; then
            (( ++index ))
            [[ $takes[$word] != TYPE ]] || recu_type=${(Q)words[index]}
            [[ $word != --journal ]] || recu_journal=${(Q)words[index]}
        elif [[ $word == --type=* ]]; then
            recu_type=${word#--type=}
        elif [[ -z $recu_file && -f ${~word} ]]; then
            recu_file=${~word}
            (( index <= CURRENT )) || stands_after=yes
        fi
    done
    case $tool/$stands_after in
        revert/* | show/yes) specs+=(':N:_recu_numbers' ':FILE:_files') ;;
        # (what stands before FILE may be left out)
        show/ | adopt/*) specs+=(':FILE:_files' '::FILE:_files') ;;
        forget/*) specs+=(':N: ' ':FILE:_files') ;;
        write/*) specs+=(':NEW:_files' ':FILE:_files') ;;
        *) specs+=(':FILE:_files') ;;
    esac

    shift words
    (( CURRENT-- ))
    _arguments -s -S $specs
}

_recu "$@"
