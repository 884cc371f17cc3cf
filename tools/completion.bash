# SPDX-License-Identifier: BSD-2-Clause-Patent
# Completion of fvtool(1) for bash. It needs no other package, and runs the fvtool in PATH to get its commands and their
# options, offsets and names.

# Writes the Nth file among the other arguments.
_fvtool_file() { # N
    local word found=0
    for word in "${COMP_WORDS[@]:2:COMP_CWORD-2}" "${COMP_WORDS[@]:COMP_CWORD+1}"; do
        if [[ $word != -* && -f $word ]] && ((++found == $1)); then
            printf '%s\n' "$word"
            return
        fi
    done
}

# Writes the offsets of the volumes in the Nth file.
_fvtool_offsets() { # N
    local file
    file=$(_fvtool_file "$1")
    if [[ -n $file ]]; then
        command fvtool scan "${hex[@]}" -- "$file" 2> /dev/null | sed -n 's/^volume at \([0-9]*\) .*/\1/p'
    fi
}

# Writes the names of the files in the volume: the volume at --at, if it is given.
_fvtool_names() {
    local file index at=()
    file=$(_fvtool_file 1)
    for ((index = 2; index < COMP_CWORD - 1; index++)); do
        if [[ ${COMP_WORDS[index]} == --at ]]; then at=(--at "${COMP_WORDS[index + 1]}"); fi
    done
    if [[ -n $file ]]; then
        command fvtool list "${at[@]}" "${hex[@]}" -- "$file" 2> /dev/null |
            sed -n 's/^  file [0-9]* \([0-9a-f-]*\) .*/\1/p'
    fi
}

# Writes the forms of the command line, or of one command, which the program's help shows.
_fvtool_forms() { # [COMMAND]
    command fvtool --help 2>&1 | awk -v "name=${1-}" '$1 == "fvtool" && $2 ~ /^[a-z]+$/ && (name == "" || $2 == name)'
}

_fvtool() {
    local current=${COMP_WORDS[COMP_CWORD]} previous=${COMP_WORDS[COMP_CWORD - 1]} choices hex=()
    if [[ " ${COMP_WORDS[*]} " == *' --hex '* ]]; then hex=(--hex); fi
    COMPREPLY=()
    if ((COMP_CWORD == 1)); then
        choices=$(_fvtool_forms | cut -d ' ' -f 2)
    else
        case $previous in
            --at) choices=$(_fvtool_offsets 1) ;;
            --other-at) choices=$(_fvtool_offsets 2) ;;
            --name) choices=$(_fvtool_names) ;;
            --section)
                choices='01 02 03 10 11 12 13 14 15 16 17 18 19 1b 1c'
                if [[ ${COMP_WORDS[1]} == open ]]; then choices=; fi
                ;;
            --instance | --base) choices= ;;
            --image) return ;;
            *)
                # The shell completes names of files if there are no choices.
                if [[ $current != -* ]]; then return; fi
                choices=$(_fvtool_forms "${COMP_WORDS[1]}" | grep -o -e '--[a-z-]*' | sort)
                ;;
        esac
    fi
    compopt +o default 2> /dev/null
    mapfile -t COMPREPLY < <(compgen -W "$choices" -- "$current")
} && complete -o default -F _fvtool fvtool
