# SPDX-License-Identifier: BSD-2-Clause-Patent
# shellcheck shell=bash
# Shared code of the checks and tests: how a check names a thing that it could not try.
#
# A check prints one line `NAME: skipped: WHAT, WHY` on standard output for each such thing. It ends with status 0 if
# everything else was right, and with status $NOTHING_TRIED if it could try nothing at all. tests/run.py counts
# these lines.
export NOTHING_TRIED=77

# Prints the line for a thing that this script could not try.
skip() { # WHAT WHY
    echo "${0##*/}: skipped: $1, $2"
}

# Prints the line for a check that can try nothing at all, and ends this script.
skip_all() { # WHAT WHY
    skip "$@"
    exit "$NOTHING_TRIED"
}

# Succeeds if a tool is installed. Otherwise prints the line for the thing that the tool is needed for.
has_tool() { # TOOL WHAT [PACKAGE OF DEBIAN]
    command -v "$1" > /dev/null || { skip "$2" "no $1${3:+ (Debian: $3)}"; return 1; }
}

# The modules in Python of the tests, the package and the tools are found by their names, from every folder.
root=$(unset CDPATH; cd -- "$(dirname -- "${BASH_SOURCE[0]}")/.." && pwd)
export PYTHONPATH=$root:$root/python:$root/tools:$root/crates/fv_run_tests/rows PYTHONDONTWRITEBYTECODE=1
