# SPDX-License-Identifier: BSD-2-Clause-Patent
"""Checks the scripts of the repository by the tools for their languages. `types` checks all scripts and modules in
Python by one run of `mypy --strict` (Debian: mypy). `shell` checks all shell scripts by shellcheck (Debian:
shellcheck), and checks that a script that reads what `cd` writes unsets CDPATH first: `cd` writes the name of the
folder if that variable is set. Each check is skipped if its tool is not installed."""

import os
import re
import shutil
import subprocess
import sys
import tempfile

from tests.checks import ROOT, first_line, found_by, read, report, scripts, skip, skip_all

# The places of the scripts in Python. Names in glob do not match a folder whose name begins with a dot.
PATTERNS = tuple(f"{folder}/**/*" for folder in ("crates", "examples", "libfv", "python", "recipes", "tests", "tools"))
IS_SHELL = re.compile(r"(?m)^#!.*[/ ](?:bash|sh)$|^# shellcheck shell=(?:bash|sh)$")


def said_by(*words: str) -> list[str]:
    """Returns what a tool writes about scripts, or a line with its exit status if it writes nothing and fails."""
    run = subprocess.run(words, capture_output=True, text=True, check=False)
    found = (run.stdout + run.stderr).splitlines()
    return found or [f"{words[0]} ended with status {run.returncode}"] * bool(run.returncode)


def types() -> int:
    """Checks the types of the scripts in Python. Returns the exit status."""
    paths = scripts(*PATTERNS)
    if not shutil.which("mypy"):
        return skip_all("types", f"the types of {len(paths)} scripts and modules", "no mypy (Debian: mypy)")
    with tempfile.TemporaryDirectory() as cache:
        options = ("--config-file=tests/sources/mypy.ini", "--scripts-are-modules", "--no-error-summary")
        wrong = said_by("mypy", "--strict", *options, f"--cache-dir={cache}", *paths)
    return report("types", wrong, f"mypy --strict of {len(paths)} scripts and modules, {len(wrong)} lines to mend")


def shell() -> int:
    """Checks the shell scripts. Returns the exit status."""
    files = [it for it in found_by(".ci/*", "*", "[!.]*/**/*") if os.path.isfile(it) and first_line(it).startswith("#")]
    found = {it: text for it in files if IS_SHELL.search(text := read(it))}
    unsafe = [it for it, text in found.items() if "$(cd " in text and not re.search(r"(?m)^ *unset CDPATH", text)]
    wrong = [f"{it} is not safe with CDPATH" for it in unsafe]
    if shutil.which("shellcheck"):
        wrong += said_by("shellcheck", "--external-sources", "--format=gcc", *found)
    else:
        skip("shell", "the form of the shell scripts", "no shellcheck (Debian: shellcheck)")
    return report("shell", wrong, f"{len(found)} shell scripts, {len(wrong)} lines to mend")


if __name__ == "__main__":
    os.chdir(ROOT)
    sys.exit({"types": types, "shell": shell}[sys.argv[1]]())
