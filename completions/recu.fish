# Completes the words of recu in fish: its tools and options, as its help names them, and the types, the field names and the
# numbers of edits of the file on the line.

# The tools, each with what it does.
function __recu_tools
    command recu --help 2>/dev/null | string replace -rf '^  ([a-z]+) +([A-Z].*)$' '$1\t$2'
end

# The options of a tool: the letter, the name, what the value is called, and what the option does, with tabs between.
function __recu_options
    command recu $argv[1] -h 2>/dev/null |
        string replace -rf '^ +(?=-)(?:-([A-Za-z]))?(?:, )?(?:--([a-z-]+))?(?: <([A-Z=]+)>)?  +([^ ].*)$' '$1\t$2\t$3\t$4'
end

# Whether this tool stands on the line before the cursor, or none.
function __recu_is
    test "$argv[1]" = "$(commandline -opc)[2]"
end

# The file on the line, which is the first word that is one, and no option's value; and the type and the journal that are given,
# or nothing.
function __recu_known
    set -l words
    for word in (commandline -op)[2..]
        set -a words (string unescape -- $word)
    end
    set -l valued
    for option in (__recu_options $words[1])
        set -l parts (string split \t -- $option)
        test -n "$parts[3]"; and set -a valued -$parts[1] --$parts[2]
    end
    set -l file
    set -l type
    set -l journal
    set -l before
    for word in $words[2..]
        if contains -- "$before" $valued
            contains -- $before -t --type; and set type $word
            test "$before" = --journal; and set journal $word
            set before
            continue
        end
        string match -q -- '--type=*' $word; and set type (string replace -- --type= '' $word)
        test -z "$file" -a -f "$word"; and set file $word
        set before $word
    end
    echo $file
    echo $type
    echo $journal
end

function __recu_types
    set -l known (__recu_known)
    test -n "$known[1]"; and command recu recinf -n -- $known[1] 2>/dev/null
end

# The field names of the type's records, or of all records. Of names that commas join, the last one is completed.
function __recu_names
    set -l known (__recu_known)
    test -n "$known[1]"; or return
    set -l types $known[2]
    test -n "$known[2]"; or set -a types (command recu recinf -n -- $known[1] 2>/dev/null)
    set -l list (string match -r '^.*[,=](?=[^,=]*$)' -- (commandline -ct))
    set list (string replace -r '^--[a-z-]+=' '' -- $list)
    for type in $types
        set -l given
        test -n "$type"; and set given -t $type
        command recu recsel $given -- $known[1] 2>/dev/null
    end | string replace -rf '^([A-Za-z][A-Za-z0-9_]*):.*' "$list"'$1' | sort -u
end

# The numbers of the file's edits that the tool can name.
function __recu_numbers
    set -l known (__recu_known)
    test -n "$known[1]"; or return
    set -l which 'done|undone'
    __recu_is undo; or __recu_is revert; and set which 'done'
    __recu_is redo; and set which undone
    set -l given
    test -n "$known[3]"; and set given --journal $known[3]
    command recu history $given -- $known[1] 2>/dev/null | string replace -rf "^(?:$which) ([0-9]+) .*" '$1'
end

# Whether the number of an edit is looked for: the file of revert or show stands after the cursor.
function __recu_is_before_file
    __recu_is revert; or __recu_is show; or return
    set -l known (__recu_known)
    test -n "$known[1]"; and not contains -- $known[1] (string unescape -- (commandline -opc))
end

complete -c recu -e
complete -c recu -n '__recu_is ""' -f -a '(__recu_tools)'
complete -c recu -n '__recu_is ""' -s h -l help -d 'Print help'
complete -c recu -n '__recu_is ""' -s V -l version -d 'Print version'
complete -c recu -n '__recu_is help' -f -a '(__recu_tools)'
complete -c recu -n __recu_is_before_file -f -a '(__recu_numbers)'
for tool in (__recu_tools | string replace -r '\t.*' '')
    for option in (__recu_options $tool)
        set -l parts (string split \t -- $option)
        set -l words -d $parts[4]
        test -n "$parts[1]"; and set -a words -s $parts[1]
        test -n "$parts[2]"; and set -a words -l $parts[2]
        switch "$parts[3]"
            case ''
            case TYPE
                set -a words -x -a '(__recu_types)'
            case NAME FIELDS
                set -a words -x -a '(__recu_names)'
            case N
                set -a words -x -a '(__recu_numbers)'
            case PATH OLD
                set -a words -r -F
            case '*'
                set -a words -x
        end
        complete -c recu -n "__recu_is $tool" $words
    end
end
