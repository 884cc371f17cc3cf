# SPDX-License-Identifier: BSD-2-Clause-Patent
"""Writes the meaning of the volumes of an image as lines that git can compare.

    git config diff.fv.textconv fv-text

Each volume has the lines of `fvtool list --sums`, without the numbers of files and sections, because an extra file
would change every line after it. A volume with fixed files is listed without their marks, and the lines say which files
are fixed. A text of more than 200 characters is left out. With --open, compressed sections have lines too. A rejected
volume, a file without a volume, and an image with more than 100,000 parts are shown by their digests. All bytes outside
of volumes share one digest. The last argument is the name of the image, even if it begins with a hyphen.

Exit status 0: the lines are written, whatever the image is. 2: the image cannot be read, or has more than 1 GiB. 3: the
arguments are wrong. 4: the library libfv cannot be used, the output cannot be written, memory ran out, or Brotli data
need Python's module brotli. git stops at any status except 0, so nothing wrong gets into its cache."""

from __future__ import annotations

import argparse
import hashlib
import struct
import uuid
from collections import Counter
from collections.abc import Iterable, Iterator
from dataclasses import replace

from . import cli, images
from ._calls import volume_tree, volume_tree_digests
from ._errors import FaultError
from ._model import LONGEST_TEXT, Content, Opened, Section, Volume, files_in, leaves, stored_files
from ._native import NodeKind
from ._types import Node
from .limits import Full
from .names import GROUP, SUBTYPE, UI, VERSION
from .opened import OF_MACHINE
from .shown import indented, quoted

NAME = "fv-text"


def lines(image: Content, is_open: bool) -> Iterator[str]:
    """Yields the lines of an image. With --open it was read with its sections opened."""
    for volume in image.headed:
        yield from _volume(volume)
    yield f"other bytes {_sum(*(it.body for it in image.others))}"
    if is_open:
        for file in (file for volume, file in files_in(image) if not volume.fault):
            for section in leaves(file.sections):
                if section.opened or section.closed:
                    yield f"in file {file.guid}:"
                    yield from indented(_packed(section))


def _sum(*data: bytes) -> str:
    """Returns the digest of some pieces of bytes, one after another."""
    digest = hashlib.sha256()
    for part in data:
        digest.update(part)
    return f"sha256 {digest.hexdigest()}"


def _volume(volume: Volume) -> Iterator[str]:
    """Yields the lines of a volume. The first line has its place. The offset of a fault counts from its first byte."""
    yield f"volume at {volume.offset} length {volume.length}"
    try:
        if volume.fault:
            raise FaultError(replace(volume.fault, offset=volume.fault.offset - volume.offset))
        yield from _list(volume)
    except FaultError as error:
        yield f"{error.fault}, {_sum(volume.body)} as stored"


def _list(volume: Volume) -> Iterator[str]:
    """Yields the lines of `list --sums`. Raises FaultError before the first line if the volume does not fit."""
    data = volume.body
    digests, nodes = volume_tree_digests(data, without_marks=True), volume_tree(data, without_marks=True)
    counts = Counter(node.parent for node in nodes if node.kind == NodeKind.FILE)
    if volume.fixed:
        yield f"{len(volume.fixed)} of {len(volume.files)} files fixed"
    fixed = {it.offset - volume.offset for it in stored_files(volume) if it.is_fixed}
    for row, (node, digest) in enumerate(zip(nodes, digests)):
        ending = f" sha256 {digest.hex()}" if digest else ""
        ending += " fixed" if node.kind == NodeKind.FILE and node.offset in fixed else ""
        yield f"{'  ' * node.depth}{_line(node, counts[row], data)}{ending}"


def _line(node: Node, files: int, data: bytes) -> str:
    """Returns the line of a row of a tree, without its digest. `files` is the number of files in a volume."""
    if node.kind == NodeKind.VOLUME:
        name = f" name {node.guid}" if node.guid else ""
        return f"volume ffs{node.file_system} length {node.length} files {files}{name}"
    if node.kind == NodeKind.FILE:
        # The list also shows bit 0x01, which means that the file has a large header.
        attributes = (node.attributes or 0) | (node.header_length == 32)
        return f"file {node.guid} type {node.efi_type:02x} attributes {attributes:02x} data {node.length}"
    body = data[node.offset : node.offset + node.length]
    return _section_line(node.efi_type or 0, node.header_length, body)


def _section_line(kind: int, header_length: int, body: bytes) -> str:
    """Returns the line of a section, without its digest."""
    form = "extended" if header_length == 8 else "short"
    return f"section type {kind:02x} {form} body {len(body)}{_detail(kind, body)}"


def _detail(kind: int, body: bytes) -> str:
    """Returns the build number, the text or the GUID of a body that has the form of its type."""
    if kind == VERSION and len(body) >= 2:
        return f" version {struct.unpack_from('<H', body)[0]}"
    if kind == UI and len(body) % 2 == 0 and body[-2:] == b"\0\0" and len(body) <= 2 * LONGEST_TEXT + 2:
        return f" ui {quoted(body[:-2].decode('utf-16-le', 'surrogatepass'))}"
    if kind == SUBTYPE and len(body) >= 16:
        return f" subtype {uuid.UUID(bytes_le=body[:16])}"
    return ""


def _packed(section: Section) -> Iterator[str]:
    """Yields the lines of a section that may be opened, and of its contents."""
    if section.opened:
        yield f"{section.opened.way.name}:"
        yield from indented(_opened(section.opened))
    elif section.closed in OF_MACHINE:  # another machine, or this one later, writes other lines
        raise OSError(f"a section is not opened: {section.closed}")
    else:
        yield f"not opened: {section.closed}, {_sum(section.body)}"


def _opened(content: Opened) -> Iterator[str]:
    """Yields the lines of the contents of a section."""
    yield from _sections(content.sections)
    for volume in content.headed:
        yield from _volume(volume)
    if content.others:
        yield f"other bytes {_sum(*(it.body for it in content.others))}"


def _sections(sections: Iterable[Section]) -> Iterator[str]:
    """Yields the lines of the sections in the contents of a section."""
    for section in sections:
        inner: Iterable[str] = []
        ending = ""
        if section.volume:
            inner = _volume(section.volume)
        elif section.kind == GROUP:
            inner = _sections(section.sections)
            ending = f" {_sum(section.body)}" if section.closed else ""  # some of its bytes are not in its sections
        elif section.is_packed:
            inner = _packed(section)
        else:
            ending = f" {_sum(section.body)}"
        yield _section_line(section.kind, section.header_length, section.body) + ending
        yield from indented(inner)


def shown(data: bytes, is_open: bool) -> Iterator[str]:
    """Yields the lines of an image. An image that has no volume, or too many parts, is shown by its digest."""
    try:
        image = images.read(data, is_open=is_open)
    except Full as what:
        yield f"more than {what}, {len(data)} bytes, {_sum(data)}"
        return
    if image.headed:
        yield from lines(image, is_open)
    else:
        yield f"no volume, {len(data)} bytes, {_sum(data)}"


parser = cli.of(NAME, __doc__, cli.IMAGE, cli.flag("--open", "list the contents of compressed sections too"))


@cli.command(parser, cli.with_name_last)
def main(given: argparse.Namespace) -> int:
    """Runs the command."""
    for line in shown(cli.read_for(NAME, given.image), given.open):
        print(line)
    return cli.DONE
