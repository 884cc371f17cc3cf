# SPDX-License-Identifier: BSD-2-Clause-Patent
"""Reports to git whether two volumes or flash images mean the same, and which files differ: a diff driver for git.

    git config diff.fv.command fv-diff

git passes PATH OLD-FILE OLD-HEX OLD-MODE NEW-FILE NEW-HEX NEW-MODE, and further arguments for a renamed file, but only
PATH if the file is not merged. With two arguments, which git never passes, the command does what fv-same does: it
compares two images, with the exit statuses of fv-same.

Exit status 0: whatever differs, since git stops at any other status. 1: two images are different. 2: of two images, one
is rejected or cannot be read. 3: the arguments are wrong. 4: the library libfv cannot be used, or the output cannot be
written."""

from __future__ import annotations

import argparse
import os
from collections.abc import Iterator

from . import cli
from .same import NAME as SAME
from .same import STATUS, compare_files, report_lines
from .shown import indented, printable

NAME = "fv-diff"


def lines(path: str, old: str, new: str) -> Iterator[str]:
    """Yields the lines for two versions of a file. git passes the null device for a version that does not exist."""
    shown = printable(path)
    if old == os.devnull:
        yield f"fvtool: {shown} is new"
    elif new == os.devnull:
        yield f"fvtool: {shown} was deleted"
    else:
        yield f"fvtool: {shown}"
        remarks: list[str] = []
        report = compare_files((old, new), False, remarks.append)
        yield from indented([*(f"{SAME}: {printable(it)}" for it in remarks), *report_lines(report)])


parser = cli.of(
    NAME,
    __doc__,
    cli.argument("path", metavar="PATH", help="the name of the file in the repository"),
    cli.argument("rest", metavar="FILE", nargs="*", help="the versions, their hashes and their modes"),
    usages=("PATH OLD-FILE OLD-HEX OLD-MODE NEW-FILE NEW-HEX NEW-MODE ..", "PATH", "A B"),
)


# A path may begin with a hyphen.
@cli.command(parser, lambda words: cli.with_name_last(words) if len(words) < 2 else ["--", *words])
def main(given: argparse.Namespace) -> int:
    """Runs the command."""
    match given.rest:
        case []:
            print(f"fvtool: {printable(given.path)} is not merged")
        case [second]:  # a user has named two files
            report = compare_files((given.path, second), False, lambda what: cli.complain(NAME, what))
            print(*report_lines(report), sep="\n")
            return STATUS[report.verdict]
        case [old, _, _, new, _, _, *_]:
            print(*lines(given.path, old, new), sep="\n")
        case _:
            parser().error("PATH and the six arguments of git are needed, or A and B")
    return cli.DONE
