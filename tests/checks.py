# SPDX-License-Identifier: BSD-2-Clause-Patent
"""The parts that the checks in Python share: the folder of the repository, its files, and the form of a report.
tests/skipping.bash describes how a check names what it skips."""

import glob
import os
import re
import subprocess
from pathlib import Path

ROOT = Path(__file__).resolve().parents[1]
# The exit status of a check that could try nothing.
NOTHING_TRIED = 77


def read(path: str | Path) -> str:
    """Returns the text of a file."""
    with open(path, encoding="utf-8") as file:
        return file.read()


def found_by(*patterns: str) -> list[str]:
    """Returns the files whose names match the patterns, except built files."""
    found = {path for pattern in patterns for path in glob.glob(pattern, recursive=True)}
    return sorted(path for path in found if not re.search(r"(^|/)(?:out|target|dist)/", path))


def scripts(*patterns: str) -> list[str]:
    """Returns the scripts and modules in Python among the files whose names match the patterns."""
    files = [path for path in found_by(*patterns) if os.path.isfile(path)]
    return [path for path in files if path.endswith(".py") or re.match(r"#!.*python", first_line(path))]


def first_line(path: str) -> str:
    """Returns the first line of a file. Bytes that are not text are replaced."""
    with open(path, encoding="utf-8", errors="replace") as file:
        return file.readline(200)


def version_of(package: str, *way: str) -> str:
    """Returns the installed version of a package of Debian, or nothing. The command `way` runs what asks for it."""
    words = [*way, "dpkg-query", "-W", "-f", "${Version}", package]
    try:
        return subprocess.run(words, capture_output=True, text=True, check=False).stdout
    except OSError:  # not a Debian
        return ""


def section(path: str | Path, heading: str) -> str:
    """Returns the section of a document whose heading begins with these words."""
    return read(path).split(f"\n## {heading}")[1].split("\n## ")[0]


def skip(name: str, what: str, why: str) -> None:
    """Prints the line for a thing that a check could not try."""
    print(f"{name}: skipped: {what}, {why}")


def skip_all(name: str, what: str, why: str) -> int:
    """Prints the line for a check that can try nothing at all. Returns its exit status."""
    skip(name, what, why)
    return NOTHING_TRIED


def report(name: str, wrong: list[str], summary: str = "") -> int:
    """Prints the findings of a check, each after the name of the check, and then a summary if there is one. Returns the
    exit status."""
    for line in [*wrong, *[summary] * bool(summary)]:
        print(f"{name}: {line}")
    return 1 if wrong else 0
