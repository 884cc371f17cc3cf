# SPDX-License-Identifier: BSD-2-Clause-Patent
"""Changes fields of volumes, flash images and hand-off lists for second.py. The second reader says where the fields of
an input are, at every level. They get values at which an answer may change, and the checksums are usually corrected."""

import random
import struct
from collections import defaultdict
from collections.abc import Iterable
from dataclasses import dataclass, field

from tests import second_reader as reader
from tests.fuzz.cases import mended
from tests.fuzz.maker import Span

# The place of a field: its offset, and its number of bytes.
Field = tuple[int, int]
HEADER_FIELDS = ((0, 1), (16, 16), (32, 8), (40, 4), (44, 4), (47, 1), (48, 2), (52, 2), (54, 1), (55, 1))
ENTRY_FIELDS = ((0, 2), (2, 2), (4, 1), (4, 4))
FILE_FIELDS = ((0, 1), (16, 1), (17, 1), (18, 1), (19, 1), (20, 3), (23, 1), (24, 8))
SECTION_FIELDS = ((0, 3), (3, 1), (4, 4))
BLOCK_FIELDS = ((0, 2), (2, 2), (4, 4), (8, 8), (16, 8))
# Values that the format names: types, states, lengths, and the ends of the characters that `list` shows.
NAMED = (*range(0x21), 0x22, 0x38, 0x40, 0x5C, 0x7E, 0x7F, 0xAA, 0xF0, 48, 56, 64, 2112, 2120, 0xFFFE, 0xFFFFFE)


@dataclass
class Parts:
    """The fields of some data, in groups, and each volume in them: its offset, its end, and the places of its files."""

    data: bytes
    groups: dict[str, list[Field]] = field(default_factory=lambda: defaultdict(list))
    volumes: list[tuple[int, int, list[Span]]] = field(default_factory=list)

    def add(self, group: str, start: int, fields: Iterable[Field]) -> None:
        """Adds fields whose places count from an offset."""
        self.groups[group] += [(start + at, size) for at, size in fields]

    def add_volume(self, volume: reader.Volume, start: int) -> None:
        """Adds the fields of a volume that begins there, and of all that is in it."""
        self.add("header", start, HEADER_FIELDS)
        for at in range(start + 56, start + 56 + 8 * min(len(volume.header.block_map) + 1, 6), 8):
            self.add("block map", at, ((0, 4), (4, 4), (0, 8)))
        if volume.header.ext_header:
            at = start + int.from_bytes(self.data[start + 52 : start + 54], "little")
            self.add("extended header", at, ((0, 1), (16, 4)))
            at += 20
            for _, payload in volume.header.ext_header.entries:
                self.add("extended header", at, ENTRY_FIELDS)
                at += 4 + len(payload)
        for cell in volume.cells:
            self.add("files", start + cell.offset, (*FILE_FIELDS, (cell.size - 1, 1)))
        spans = [(it.offset, it.offset + it.header_length, it.end) for it in volume.cells if it.header_length]
        self.volumes.append((start, start + volume.header.fv_length, spans))
        for file in volume.files:
            self.add_stream(file.stream)

    def add_stream(self, stream: reader.Stream | None) -> None:
        """Adds the fields of the sections of a stream, and of all that is in them."""
        for section in stream.sections if stream else ():
            start, end = section.body.start, section.body.end
            head = start - (8 if section.extended else 4)
            self.add("sections", head, SECTION_FIELDS)
            if isinstance(section.content, reader.Volume):
                self.add_volume(section.content, start)
            elif section.content is not None:
                self.add_stream(section.content)
            elif end > start:
                self.add("sections", start, ((0, 2), (end - start - 2, 2), ((end - start) // 4 * 2, 2)))


def parts_of(data: bytes) -> Parts:
    """Returns the fields of a volume, of the volumes of an image, or of a hand-off list."""
    parts = Parts(data)
    for start, length in reader.places(data):
        try:
            parts.add_volume(reader.open_volume(reader.Span(data, start, start + length)), start)
        except reader.Fault:
            parts.add("header", start, HEADER_FIELDS)
    if not parts.groups:
        try:
            for block in reader.read_list(data):
                parts.add("blocks", block.start, BLOCK_FIELDS)
        except reader.Fault:
            pass
    return parts


def set_length(pick: random.Random, found: bytearray, start: int, end: int) -> None:
    """Gives a volume another length, which its block map has too, unless a pair of zeros ends the block map."""
    last, size = int.from_bytes(found[start + 48 : start + 50], "little") - 8, end - start
    limit = reader.VOLUME_LIMIT
    length = pick.choice((0, 8, last, last + 8, size - 8, size + 8, size - 1, size + 4, limit, limit + 8, limit * 8))
    length %= 1 << 32
    found[start + 32 : start + 40] = struct.pack("<Q", length)
    for at in range(56, min(last, size - 8), 8):
        pair = (1, length) if at == 56 else (0, pick.choice((1, 1, 0)))
        found[start + at : start + at + 8] = struct.pack("<II", *pair)


def aimed(pick: random.Random, parts: Parts) -> bytes:
    """Returns data with changes of a few of their fields, and usually with right checksums after them."""
    found, groups = bytearray(parts.data), list(parts.groups.values())
    for _ in range(pick.choice((1, 1, 1, 2, 4)) if groups else 0):
        at, size = pick.choice(pick.choice(groups))
        if at + size > len(found):
            continue
        old = int.from_bytes(found[at : at + size], "little")
        near = old + pick.choice((-20, -8, -4, -1, 1, 4, 8, 20))
        far = len(found) - at + pick.choice((-8, -1, 0, 1, 8, 12, 40))
        flipped, last = old ^ 1 << pick.randrange(8 * size), -pick.choice((1, 2, 8))
        value = pick.choice((near, near, far, flipped, pick.choice(NAMED), last, 0))
        found[at : at + size] = (value % (1 << 8 * size)).to_bytes(size, "little")
    if parts.volumes and pick.randrange(12) == 0:
        set_length(pick, found, *pick.choice(parts.volumes)[:2])
    for start, end, spans in parts.volumes[::-1] if pick.randrange(8) else ():
        found[start:end] = mended(bytes(found[start:end]), spans)
    return bytes(found)
