# SPDX-License-Identifier: BSD-2-Clause-Patent
"""Unpacks a flash image or a firmware volume into files, lists its parts, or writes one of them.

FOLDER gets a folder for each volume at every level. That folder has a folder for each file, and in it a file for each
section, such as `02-DXEFV/001-DxeCore/pe32.efi`; the second section of a type is `pe32-2.efi`. The data of a file
without sections are `body.bin`. Compressed sections are opened, and their contents are in folders such as `lzma`. A
section that is not opened is written as it is, and so are bytes outside of volumes, as `outside-OFFSET.bin`, unless all
of them are 0x00 or all are 0xFF.

An image is read whole, or the output says what is not read. Volumes are found at every byte, also in pads, in raw files
and in lost bytes. A damaged volume, or one of an older format, is read as far as it can be read: its line has its first
fault, and the parts that break rules have findings. Further files have the bytes of pads that are not erased, of
deleted, superseded and unfinished files, of variable stores, and lost bytes, which cannot be read as a part of a
volume: `02-DXEFV/pad-00001234.bin` has its offset in its name. Standard output has a line for each volume, for each
section that is not opened or whose contents may be wrong, and for all bytes that are not read, with the reason.

FOLDER/index.tsv has a row for each part: its path, which ends with a slash if it is a folder; its offset, and where
that counts from, the image or the folder of an opened section; what it is, its type, GUID, name, size and SHA-256; a
note: how a section was opened or why it was not, why bytes are not read, the fault of a volume, whether a file is
fixed, a dependency expression as text; and its findings, the numbers of the rules that it breaks, with commas. A cell
that a spreadsheet would take for a formula begins with an apostrophe.

With --list nothing is written to files: standard output has a line for each part, with its offset, size, type and path.
An offset after a plus sign counts from the first byte of the contents of the opened section around the part. --sums
adds the SHA-256 digests. With --json each line is a JSON object with the columns of the index.

With --only the bytes of one part are written to FILE, which must not exist, or to standard output, unless that is a
terminal. PART is the name or the GUID of a file or of a volume; or one of these, a slash and the type of a section in
the file, such as `DxeCore/PE32` or `DxeCore/dxe-depex`; or a path of the list. If several parts are called so, nothing
is written, and standard error has their paths.

Files that are marked fixed are unpacked as all others. FOLDER must not exist, or must be empty. It gets its contents
when everything is written, so it is never incomplete. Each file is new and no link is followed, so nothing outside of
FOLDER is written to, even if other users may write to FOLDER; but they may then change what is in it. An image is not
trusted: at most N bytes are written, with the index (1 GiB without --most), and at most 5,000 files and one more for
each 256 bytes of the image. The contents of opened sections have at most 40 MiB and 32 times the length of the image,
and at most 100,000 parts are read. A file name that begins with a hyphen comes after `--`.

Exit status 0: everything is unpacked, or the part is written. 1: the image has no volume, a section is not opened or
its contents may be wrong, or bytes are not read; or --only names no part, or several. 2: a volume is rejected; or there
is no FOLDER, since the image cannot be read, exceeds a limit, or memory ran out. 3: the arguments are wrong, FOLDER is
not empty, FILE exists, or --only would write to a terminal. 4: the library libfv, FOLDER or the output cannot be
used."""

from __future__ import annotations

import argparse
import json
import os
import sys
from collections.abc import Iterable, Iterator, Sequence
from pathlib import Path
from typing import Any

from . import cli, images
from ._folder import ROOM, Tree, filled_at_end
from ._parts import IMAGE, Entry, file_words
from ._parts import entries as entries
from .limits import Full, Limits
from .names import Names
from .shown import file_name, printable

NAME = "fv-unpack"
USAGES = "[--most N] IMAGE FOLDER", "--list [--sums] [--json] [--most N] IMAGE", "--only PART [--most N] IMAGE [FILE]"
INDEX = "index.tsv"
FORMULA = "=", "+", "-", "@", "\t", "\r"  # with which a cell begins that a spreadsheet takes for a formula
LEAST_FILES, BYTES_OF_FILE = 5_000, 256  # that an image may have, and one more for this many bytes of the image
MOST_PATHS = 20  # that are listed if several parts have a name

COLUMNS = ("path", "offset", "in", "part", "type", "guid", "name", "size", "sha256", "note", "findings")


def fields(entry: Entry) -> dict[str, Any]:
    """Returns the columns of the index for a part, except for its digest."""
    guid = str(entry.guid) if entry.guid else ""
    place = {"path": entry.path, "offset": entry.part.offset, "in": entry.within}
    what = {"part": entry.what, "type": entry.kind, "guid": guid, "name": printable(entry.name)}
    return {**place, **what, "size": entry.part.length, "note": entry.note, "findings": entry.findings}


def index_row(entry: Entry) -> str:
    """Returns the row of a part in the index. A spreadsheet takes no cell of it for a formula."""
    found = {**fields(entry), "offset": f"0x{entry.part.offset:x}", "sha256": entry.digest}
    cells = (str(found[column]) for column in COLUMNS)
    return "\t".join(f"'{it}" if it.startswith(FORMULA) else it for it in cells)


def write(found: Iterable[Entry], tree: Tree) -> None:
    """Writes parts to a new folder, and their index."""
    with tree.file(INDEX) as index:
        tree.put(index, ("\t".join(COLUMNS) + "\n").encode())
        for entry in found:
            if entry.is_folder:
                tree.enter(entry.path)
            else:
                with tree.file(entry.path) as file:
                    tree.put(file, entry.part.view)
            tree.put(index, f"{index_row(entry)}\n".encode())


def table(found: Iterable[Entry], with_digests: bool) -> Iterator[str]:
    """Yields lines for parts, with a heading."""
    rows = [("offset", "size", "type", f"{'sha256':<64}  " if with_digests else "", "path")]
    for it in found:
        offset = f"{'' if it.within == IMAGE else '+'}0x{it.part.offset:x}"
        path = f"{it.path}  {it.note}" if it.note else it.path
        digest = f"{it.digest}  " if with_digests else ""
        rows.append((offset, str(it.part.length), it.kind or it.what, digest, path))
    places, sizes, kinds = (max(len(row[it]) for row in rows) for it in range(3))
    for offset, size, kind, digest, path in rows:
        yield f"{offset:>{places}}  {size:>{sizes}}  {kind:<{kinds}}  {digest}{path}"


def objects(found: Iterable[Entry], with_digests: bool) -> Iterator[str]:
    """Yields a JSON object for each part."""
    for entry in found:
        yield json.dumps({**fields(entry), **({"sha256": entry.digest} if with_digests else {})})


def missing(image: Iterable[Entry]) -> Iterator[str]:
    """Yields a line for each part of an image that has no volume."""
    for it in image:
        what = f"{it.kind or 'bytes'} at 0x{it.part.offset:x}, {it.part.length} bytes"
        yield f"{what}: not read: {it.note}"


def chosen(found: Sequence[Entry], what: str) -> list[Entry]:
    """Returns the parts with a path, a name or a GUID, or the sections of a type in the files with a name or a GUID."""
    exact = [it for it in found if _is_called(it, what)]
    name, slash, kind = what.rpartition("/")
    if exact or not slash:
        return exact
    folders = {it.path for it in found if it.what == "file" and _is_called(it, name)}
    return [it for it in found if _file_of(it) in folders and file_words(it.kind) == file_words(kind)]


def _is_called(entry: Entry, what: str) -> bool:
    """Returns whether a part has a path, or a file or a volume has a name or a GUID."""
    if what.rstrip("/") == entry.path.rstrip("/"):
        return True
    if entry.what not in ("file", "volume"):
        return False
    name = entry.name
    return what.lower() == str(entry.guid) or bool(name) and what in (name, printable(name), file_name(name))


def _file_of(entry: Entry) -> str:
    """Returns the folder of the file that has a section, and otherwise an empty text."""
    volume, file, *inner = f"{entry.path}//".split("/")
    return f"{volume}/{file}/" if entry.what == "section" and inner else ""


ABOUT_MOST = "the most bytes that are written"
parser = cli.of(
    NAME,
    __doc__,
    cli.IMAGE,
    cli.argument("folder", metavar="FOLDER", nargs="?", help="a folder that is empty or does not exist, or FILE"),
    cli.flag("--list", "list the parts, and write no files"),
    cli.flag("--sums", "list their SHA-256 digests too"),
    cli.flag("--json", "list each part as a JSON object"),
    cli.argument("--only", metavar="PART", help="write the bytes of one part to FILE, or to standard output"),
    cli.argument("--most", metavar="N", type=cli.whole_number, default=Limits.total, help=ABOUT_MOST),
    usages=USAGES,
)


def hindrance(given: argparse.Namespace) -> str:
    """Returns why the output of a run cannot be written where it should be, or an empty text."""
    if given.only:
        if given.folder and os.path.lexists(given.folder):
            return f"{given.folder} exists already: give the name of a new file"
        is_screen = not given.folder and sys.stdout.isatty()
        return "standard output is a terminal: give a FILE, or a pipe" if is_screen else ""
    folder = Path(os.path.realpath(given.folder)) if given.folder else None
    names = sorted(it.name for it in folder.iterdir()) if folder and folder.exists() else []
    if names == [ROOM]:
        way = f"it contains {ROOM}, which another run writes to, or which a run that was killed has left"
        return f"{folder} is not empty: {way}: if no other run writes to it, remove {ROOM}"
    more = f" and {len(names) - 1} more" if len(names) > 1 else ""
    return f"{folder} is not empty: it contains {names[0]}{more}: give a new or an empty folder" if names else ""


def run(given: argparse.Namespace) -> int:
    """Reads the image, writes what is asked for, and returns the status."""
    data = cli.read_for(NAME, given.image, given.most)
    image = images.read(data, Limits(total=given.most))
    found = list(entries(image, Names()))
    if given.only:
        return write_only(found, given)
    if not image.volumes:
        print(f"{printable(given.image)}: no volume")
        lines = objects(found, given.sums) if given.json else missing(found)
        print(*lines, sep="\n", end="\n" if found else "")
        return cli.OTHER
    if given.folder:
        most = LEAST_FILES + len(data) // BYTES_OF_FILE
        if sum(not it.is_folder for it in found) > most:
            raise Full(f"{most} files")
        with filled_at_end(Path(os.path.realpath(given.folder)), given.most, INDEX) as tree:
            write(found, tree)
        print(*(it.line for it in found if it.line), sep="\n")
    else:
        print(*(objects if given.json else table)(found, given.sums), sep="\n")
    return max(it.status for it in found)


def write_only(found: Sequence[Entry], given: argparse.Namespace) -> int:
    """Writes the bytes of the only part that was asked for, and returns the status."""
    parts = chosen(found, given.only)
    if len(parts) != 1:
        count = len(parts) or "no"
        more = ": give the path of one of them" if parts else f" is called so in {given.image}"
        cli.complain(NAME, f"--only {given.only}: {count} part{'s' if parts else ''}{more}")
        for it in parts[:MOST_PATHS]:
            cli.complain(NAME, it.path)
        if len(parts) > MOST_PATHS:
            cli.complain(NAME, f"and {len(parts) - MOST_PATHS} more")
        return cli.OTHER
    if given.folder:
        write_new(given.folder, parts[0].part.view)
    else:
        sys.stdout.buffer.write(parts[0].part.view)
    return cli.DONE


def write_new(name: str, data: memoryview) -> None:
    """Writes a new file. If that fails, nothing is left."""
    with open(name, "xb") as file:
        try:
            file.write(data)
            file.flush()
        except BaseException:
            os.unlink(name)
            raise


@cli.command(parser)
def main(given: argparse.Namespace) -> int:
    """Runs the command."""
    is_clear = given.list != bool(given.folder) if given.only is None else given.only != "" and not given.list
    if given.folder == "" or not is_clear or (not given.list and (given.sums or given.json)):
        parser().error("IMAGE and FOLDER are needed, or --list and IMAGE, or --only, PART and IMAGE")
    cli.end_by_signals()
    if reason := hindrance(given):
        cli.complain(NAME, reason)
        return cli.WRONG_WORDS
    try:
        return run(given)
    except cli.Unread as line:
        end = str(line)
    except Full as what:
        end = f"{printable(given.image)}: not unpacked: more than {what}"
    except MemoryError:
        end = f"{printable(given.image)}: fault 24 at 0"
    print(end, file=sys.stderr if given.only else sys.stdout)
    return cli.REJECTED
