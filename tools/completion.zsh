#compdef fvtool
# SPDX-License-Identifier: BSD-2-Clause-Patent
# Completion of fvtool(1) for zsh. It runs the fvtool in PATH to get its commands, offsets and names.

# Writes the Nth file among the arguments.
_fvtool_file() { # N
    local word found=0
    for word in "${(@Q)words[2,-1]}"; do
        if [[ $word != -* && -f $word ]] && (( ++found == $1 )); then
            print -r -- "$word"
            return
        fi
    done
}

# Adds the offsets of the volumes in the Nth file.
_fvtool_offsets() { # N
    local file=$(_fvtool_file $1)
    local -a hex offsets
    if (( ${words[(I)--hex]} )); then hex=(--hex); fi
    if [[ -n $file ]]; then
        offsets=(${(f)"$(command fvtool scan $hex -- $file 2> /dev/null | sed -n 's/^volume at \([0-9]*\) .*/\1/p')"})
    fi
    _wanted offsets expl 'offset of a volume' compadd -a offsets
}

# Adds the names of the files in the volume: the volume at --at, if it is given.
_fvtool_names() {
    local file=$(_fvtool_file 1) place=${words[(i)--at]}
    local -a hex at names
    if (( ${words[(I)--hex]} )); then hex=(--hex); fi
    if (( place < $#words )); then at=(--at ${words[place + 1]}); fi
    if [[ -n $file ]]; then
        names=(${(f)"$(command fvtool list $at $hex -- $file 2> /dev/null |
            sed -n 's/^  file [0-9]* \([0-9a-f-]*\) .*/\1/p')"})
    fi
    _wanted names expl 'name of a file' compadd -a names
}

# Adds the commands, with what the program's help says of them.
_fvtool_commands() {
    local -a commands=(${(f)"$(command fvtool --help 2>&1 | sed -nE 's/^([a-z]+)  +/\1:/p')"})
    _describe -t commands command commands
}

_fvtool() {
    local context curcontext=$curcontext state line expl
    typeset -A opt_args
    local hex='--hex[each input is hexadecimal text]'
    local at='--at[the volume that begins at this byte]:offset: _fvtool_offsets 1'
    local through='--open[through compressed and GUID-defined sections]'
    local sections='(01 02 03 10 11 12 13 14 15 16 17 18 19 1b 1c)'
    _arguments -C '1:command:_fvtool_commands' '*::argument:->rest'
    if [[ $state != rest ]]; then return; fi
    case $words[1] in
        normalise|check) _arguments "(--all)$at" '(--at)--all[each volume of a flash image]' $hex '1:file:_files' ;;
        list) _arguments '(--open)--sums[with digests]' "(--sums)$through" $at $hex '1:file:_files' ;;
        cells|unfix) _arguments $at $hex '1:file:_files' ;;
        extract)
            _arguments '--name[the name of the file]:name:_fvtool_names' $through $at $hex '1:file:_files' \
                "--section[the type of the section]:type:$sections" '--instance[which of these sections]:number:'
            ;;
        open) _arguments $at $hex '1:file:_files' '--section[the numbers of the section in list]:path:' ;;
        scan) _arguments $hex '1:file:_files' ;;
        survey) _arguments $through $hex '1:file:_files' ;;
        compare)
            _arguments $at '--other-at[the same of the second input]:offset: _fvtool_offsets 2' $hex \
                '1:first file:_files' '2:second file:_files'
            ;;
        same) _arguments $hex '1:first file:_files' '2:second file:_files' ;;
        hobs)
            _arguments '--image[the image that holds the volumes]:file:_files' $hex '1:file:_files' \
                "--base[the address of the image's first byte]:number:"
            ;;
    esac
}

_fvtool "$@"
