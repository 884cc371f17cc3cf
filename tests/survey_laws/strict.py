# SPDX-License-Identifier: BSD-2-Clause-Patent
"""The strict reading of a volume: what tests/second_reader.py finds in it."""

from __future__ import annotations

from collections.abc import Iterator

from tests import second_reader as reader
from tests.survey_laws.laws import Part, Strict
from tests.survey_laws.volumes import up_to

# The words for cells: a file that was deleted or never finished is dead.
DEAD = {"deleted": "dead", "unfinished": "dead"}


def section_parts(stream: reader.Stream) -> Iterator[Part]:
    """Yields the sections of a stream, and all that is in them."""
    for section in stream.sections:
        body, header = section.body, 8 if section.extended else 4
        yield Part("section", body.start - header, header + len(body), section.type)
        if isinstance(section.content, reader.Volume):
            yield from volume_parts(section.content, body.start)
        elif section.content is not None:
            yield from section_parts(section.content)


def volume_parts(volume: reader.Volume, start: int) -> Iterator[Part]:
    """Yields the parts of a volume that begins at an offset, in preorder."""
    yield Part("volume", start, volume.header.fv_length)
    for file in volume.files:
        cell = file.cell
        yield Part("file", start + cell.offset, up_to(cell.size, 8), cell.type, cell.name)
        if file.stream:
            yield from section_parts(file.stream)


def second_reading(data: bytes) -> Strict | None:
    """Returns what the second reader finds in a volume, or None if it rejects the volume."""
    try:
        volume = reader.read_volume(data, more=False)
    except reader.Fault:
        return None
    cells = (Part(DEAD.get(it.kind, it.kind), it.offset, up_to(it.size, 8)) for it in volume.cells)
    return Strict(tuple(cells), tuple(volume_parts(volume, 0)))
