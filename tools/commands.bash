# SPDX-License-Identifier: BSD-2-Clause-Patent
# Completion for bash of the commands of the Python package fv. It offers the options that a command's --help lists, and
# names of files.
_fv() { # COMMAND WORD
    COMPREPLY=()
    if [[ $2 == -* && " ${COMP_WORDS[*]:1:COMP_CWORD-1} " != *' -- '* ]]; then
        mapfile -t COMPREPLY < <(compgen -W "$(command "$1" --help 2> /dev/null |
            sed -nE 's/^  (-., )?(--[a-z-]+).*/\2/p')" -- "$2")
    fi
}
