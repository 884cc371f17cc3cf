# SPDX-License-Identifier: BSD-2-Clause-Patent
"""Draws a flash image or a firmware volume as one HTML page, which shows the parts, their sizes and the free space.

    fv-map IMAGE > map.html
    fv-map --against OLD IMAGE > map.html

With --against, the page also shows what came, went and changed since OLD. Compressed sections are opened. A volume with
fixed files is drawn without their marks, and the page says which files are fixed. The texts of an image are not
trusted: the page escapes them, and forbids scripts and anything from outside.

The page says whether everything was read. If not, a table lists each part that was not read, with the reason: a
rejected volume, a section that is not opened or whose contents may be wrong, a pad or a deleted file with contents, and
bytes that are in no volume and are not erased.

Exit status 0: the page is written, and everything was read. 1: the page is written, but an image has no volume, not
everything of it was read, or it has more than is drawn. 2: an image cannot be read, or exceeds a limit, and nothing is
written. 3: the arguments are wrong, or the output is a terminal. 4: the library libfv, the names or the output cannot
be used."""

from __future__ import annotations

import argparse
import sys
from collections.abc import Iterator
from pathlib import Path

from . import cli, images
from ._page import MOST_VOLUMES, draw
from ._sheet import Drawing, drawing_of
from .limits import Full
from .names import EDK2, Names
from .shown import printable

NAME = "fv-map"


def drawing(path: str, names: Names) -> Drawing:
    """Returns the drawing of the image in a file."""
    try:
        image = images.read(cli.read_for(NAME, path))
    except Full as what:
        raise cli.Unread(f"{printable(path)}: not drawn: more than {what}") from None
    return drawing_of(path, image, names, MOST_VOLUMES)


def complaints(image: Drawing) -> Iterator[str]:
    """Yields the reasons why the page of an image is incomplete."""
    if not image.sheets:
        yield f"{image.path} has no volume"
    if image.lacks:
        yield f"{image.path}: not read: {len(image.lacks)} parts, {image.lacking} bytes"
    if image.cuts:
        yield f"{image.path}: not all of it is shown"


ABOUT_NAMES = "more names: lines of a GUID and a name"
parser = cli.of(
    NAME,
    __doc__,
    cli.IMAGE,
    cli.argument("--against", metavar="OLD", help="an image to compare with"),
    cli.argument("--names", metavar="FILE", type=Path, action="append", default=[], help=ABOUT_NAMES),
)


@cli.command(parser)
def main(given: argparse.Namespace) -> int:
    """Runs the command."""
    cli.refuse_terminal(NAME, "a page")
    names = Names([EDK2, *given.names])
    image = drawing(given.image, names)
    against = drawing(given.against, names) if given.against else None
    sys.stdout.buffer.write(draw(image, against).encode())
    sys.stdout.buffer.flush()
    lacking = [line for it in (image, against) if it for line in complaints(it)]
    for line in lacking:
        cli.complain(NAME, line)
    return cli.OTHER if lacking else cli.DONE
