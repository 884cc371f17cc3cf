# SPDX-License-Identifier: BSD-2-Clause-Patent
"""Lists the contents of the volumes in a flash image for scripts, one line for each part, as text or as JSON.

    python3 -m fv scan IMAGE [--json]       each volume, by its header
    python3 -m fv tree IMAGE [--json]       each volume, its files, their sections, and the same for nested volumes
    python3 -m fv cells IMAGE [--json]      the files, pads, deleted files and free bytes of each volume, with offsets
    python3 -m fv check IMAGE [--json]      whether each volume is its own canonical image
    python3 -m fv digests IMAGE [--json]    the SHA-256 digest of each canonical image, and of its files and sections
    python3 -m fv survey IMAGE [--json]     an account of every byte of the image, also in and around damaged volumes
    python3 -m fv open IMAGE [--json]       the same for the image and for the contents of its packed sections

Each line begins with the offset of its volume in the image. All other offsets count from the first byte of that volume.
Headers, nodes and cells have the fields that they have in `fv`. A field that a part does not have is null in JSON, and
is left out of a line of text. As JSON, a line of `tree` also has the number of its row, `row`, and a line of `digests`
has `row`, `kind`, `efi_type`, `guid` and `sha256`. As text, a line of `tree` is indented by its depth, and leaves out
the parent.

A rejected volume has a single line, with its fault. If the image contains no volume, the only line is the fault of its
first bytes.

`survey` rejects nothing. Its lines are the rows of `fv.image_survey`, whose offsets count from the first byte of the
image. As text, a line is indented by its depth, and shows `found` and the findings only if there are any.

`open` rejects nothing either. Its lines are the rows of each source of `fv.image_open`, after the number of the source:
source 0 is the image, and each further source is the contents of a packed section. Then comes a line for each packed
section that is not opened, with the reason, `closed`. If the reason is a fault, `text` explains it.

The process takes at most 4 GiB of memory. `tree` and `digests` need up to 50 bytes for each byte of a volume with only
empty sections.

Exit status 0: success. 1: `check` has found a volume that is not canonical. 2: a volume is rejected, or the image
cannot be read or has more than 1 GiB. 3: the arguments are wrong. 4: the library libfv cannot be used, the output
cannot be written, or memory ran out."""

from __future__ import annotations

import argparse
import dataclasses
import enum
import json
import uuid
from collections.abc import Callable, Iterable, Iterator
from typing import Any

import fv
from fv import cli

NAME = "python3 -m fv"

# The fields of a line: their names and values.
Line = dict[str, Any]
# The fields of a node that a line of `tree` shows in another way as text.
PLACE = ("row", "parent", "index", "depth", "kind")


def shown(value: Any) -> Any:
    """Returns a value of a field in the form in which JSON has it."""
    if isinstance(value, enum.Enum):
        return value.name.lower()
    if isinstance(value, tuple):
        return [shown(it) for it in value]
    return str(value) if isinstance(value, uuid.UUID) else value


def fields(row: Any) -> Line:
    """Returns the fields of a row."""
    return {it.name: shown(getattr(row, it.name)) for it in dataclasses.fields(row)}


def digests(volume: memoryview) -> Iterator[Line]:
    """Yields a line for each row of the tree of a volume that has a digest."""
    for row, (node, digest) in enumerate(zip(fv.volume_tree(volume), fv.volume_tree_digests(volume))):
        if digest is not None:
            part = {"kind": shown(node.kind), "efi_type": node.efi_type, "guid": shown(node.guid)}
            yield {"row": row, **part, "sha256": digest.hex()}


# The commands that are about the whole image.
SURVEY, OPEN = "survey", "open"
# The other commands, by their names on the command line, and the lines that each has for a volume.
COMMANDS: dict[str, Callable[[memoryview], Iterable[Line]]] = {
    "scan": lambda volume: [{name: it for name, it in fields(fv.header_read(volume)).items() if name != "offset"}],
    "tree": lambda volume: ({"row": row, **fields(node)} for row, node in enumerate(fv.volume_tree(volume))),
    "cells": lambda volume: map(fields, fv.volume_cells(volume)),
    "check": lambda volume: [{"canonical": fv.volume_is_canonical(volume)}],
    "digests": digests,
}


def opened(image: memoryview) -> Iterator[Line]:
    """Yields a line for each row of each source of an image, and then for each packed section that is not opened."""
    with fv.image_open(image) as found:
        for source in found.sources:
            yield from ({"source": source.number, **fields(row)} for row in source.rows)
        for it in found.closed:
            why = {"closed": shown(it.reason), "text": it.fault.text if it.fault else None}
            yield {"source": it.source, "offset": it.offset, "length": it.length, "depth": it.depth, **why}


def lines(image: memoryview, name: str) -> Iterator[Line]:
    """Yields the lines of a command. A rejected volume has one line, with its fault."""
    if name == SURVEY:
        yield from map(fields, fv.image_survey(image))
        return
    if name == OPEN:
        yield from opened(image)
        return
    for at, length in [(it.offset, it.length) for it in fv.image_scan(image)] or [(0, len(image))]:
        try:
            for line in COMMANDS[name](image[at : at + length]):
                yield {"volume": at, **line}
        except fv.FaultError as error:
            fault = error.fault
            place = {"offset": fault.offset, "depth": fault.depth}
            yield {"volume": at, "fault": fault.number, **place, "text": fault.text}


def text_of(line: Line) -> str:
    """Returns a line as text: each field with its name. For a node of a tree the offset of its volume comes first, then
    the indentation, then the kind of the node and its number, and then its fields. For a row of a survey the number of
    its source, the indentation and the kind come first."""
    if "findings" in line and "depth" in line:
        notes = {"found": True if line["found"] else None, "findings": ",".join(line["findings"]) or None}
        place = {name: line[name] for name in ("offset", "length", "efi_type", "name")}
        start: str = (f"source {line['source']} " if "source" in line else "") + "  " * line["depth"]
        return f"{start}{line['kind']} {text_of({**place, **notes})}"
    if "row" in line and "depth" in line:
        head: str = f"volume {line['volume']} " + "  " * line["depth"]
        rest = {name: it for name, it in line.items() if name not in ("volume", *PLACE)}
        return head + text_of({line["kind"]: line["index"], **rest})
    shown_fields = ((name, it) for name, it in line.items() if it is not None)
    return " ".join(f"{name} {it if isinstance(it, str) else json.dumps(it)}" for name, it in shown_fields)


JSON = cli.flag("--json", "write each line as a JSON object")
parser = cli.of(NAME, __doc__, cli.argument("command", choices=[*COMMANDS, SURVEY, OPEN]), cli.IMAGE, JSON)


@cli.command(parser)
def main(given: argparse.Namespace) -> int:
    """Writes the lines of a command, and returns the exit status."""
    status, image = cli.DONE, memoryview(cli.read_for(NAME, given.image))
    for line in lines(image, given.command):
        print(json.dumps(line) if given.json else text_of(line))
        status = max(status, cli.REJECTED if "fault" in line else int(line.get("canonical") is False))
    return status
