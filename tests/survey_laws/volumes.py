# SPDX-License-Identifier: BSD-2-Clause-Patent
"""What the bytes of a volume, of a file and of a section say, as docs/FORMAT.md ("A tolerant reading") and docs/FAULTS.md
describe it: the parts that the laws need to judge a finding."""

from __future__ import annotations

import struct
import uuid
from dataclasses import dataclass
from functools import cached_property

from tests import second_reader as reader
from tests.survey_laws.rows import Row, Tree

HEADER_LIMIT, EXT_LIMIT, VOLUME_LIMIT, LEVELS = 2112, 65_535, 268_435_456, 8
PAD_FILE, GROUP, VOLUME_SECTION, PACKED = 0xF0, 0x03, 0x17, (0x01, 0x02)
LARGE, FIXED, SUMMED = 0x01, 0x04, 0x40
DATA_VALID, MARKED = 0x04, 0x08
FFS2, FFS3, FFS1, STORE = (
    uuid.UUID(it).bytes_le
    for it in (
        "8c8ce578-8a3d-4f1c-9935-896185c32dd3",
        "5473c07a-3dcb-4dca-bd6f-1e9689e7349a",
        "7a9354d9-0468-444a-81ce-0bf617d890df",
        "fff12b8d-7696-4c8b-a985-2747075b4f50",
    )
)
# The file systems of vendors that are read as FFS2: two of Apple, two of Intel and one of Sony.
VENDORS = tuple(
    uuid.UUID(it).bytes_le
    for it in (
        "04adeead-61ff-4d31-b6ba-64f8bf901f5a",
        "bd001b8c-6a71-487b-a14f-0c2a2dcf7a5d",
        "ad3fffff-d28b-44c4-9f13-9ea98a97f9f0",
        "d6a1cd70-4b33-4994-a6ea-375f2ccc5437",
        "4f494156-aed6-4d64-a537-b8a5557bceec",
    )
)
KNOWN = frozenset((FFS1, FFS2, FFS3, STORE, *VENDORS))


def number(data: bytes, at: int, size: int) -> int:
    """Returns the little-endian number in some bytes."""
    return int.from_bytes(data[at : at + size], "little")


def up_to(offset: int, step: int) -> int:
    """Returns the first multiple of a step at or after an offset."""
    return -(-offset // step) * step


def sums_to_zero(data: bytes) -> bool:
    """Returns whether the bytes are 16-bit words with the sum 0."""
    return len(data) % 2 == 0 and sum(struct.unpack(f"<{len(data) // 2}H", data)) % 0x10000 == 0


def may_begin(data: bytes) -> bool:
    """Returns whether a volume may begin with the first of these bytes (rule 1)."""
    if len(data) < 56 or data[40:44] != b"_FVH":
        return False
    length = number(data, 48, 2)
    is_right = length % 2 == 0 and 56 <= length <= min(HEADER_LIMIT, len(data)) and sums_to_zero(data[:length])
    return data[16:32] in KNOWN or is_right


def starts_in(image: bytes, first: int, end: int, last: int) -> list[int]:
    """Returns each offset from `first` to `end` at which a volume may begin in bytes that end at `last`."""
    found, at = list[int](), image.find(b"_FVH", first + 40, last)
    while 0 <= at < end + 40:
        if may_begin(image[at - 40 : min(last, at - 40 + HEADER_LIMIT)]):
            found.append(at - 40)
        at = image.find(b"_FVH", at + 1, last)
    return found


@dataclass(frozen=True)
class Volume:
    """A volume row: its bytes, and the rows in it."""

    image: bytes
    tree: Tree

    @property
    def row(self) -> Row:
        """The volume row."""
        return self.tree.row

    @cached_property
    def data(self) -> bytes:
        """The bytes of the volume."""
        return self.image[self.row.offset : self.row.end]

    @cached_property
    def header(self) -> int:
        """The length of the header (rule 5)."""
        length = number(self.data, 48, 2)
        if 56 <= length <= min(HEADER_LIMIT, len(self.data)):
            return length
        pairs = range(56, min(HEADER_LIMIT, len(self.data)) - 7, 8)
        return next((at + 8 for at in pairs if self.data[at : at + 8] == bytes(8)), 56)

    @property
    def fv_length(self) -> int:
        """FvLength."""
        return number(self.data, 32, 8)

    @property
    def extent(self) -> int:
        """FvLength, if the header and FvLength bytes are there, and otherwise all bytes."""
        return self.fv_length if self.header <= self.fv_length <= len(self.data) else len(self.data)

    @cached_property
    def system(self) -> bytes:
        """The GUID of the file system."""
        return self.data[16:32]

    @property
    def has_cells(self) -> bool:
        """Whether files are read in the volume."""
        return self.system in KNOWN and self.system != STORE

    @cached_property
    def erased(self) -> int:
        """The value of an erased byte."""
        return 0xFF if number(self.data, 44, 4) & 0x800 else 0

    @cached_property
    def has_ext(self) -> bool:
        """Whether the extended header, if the volume header states one, is where it may be."""
        place = number(self.data, 52, 2)
        if place == 0:
            return True
        if not self.header <= place <= self.extent - 20:
            return False
        return 20 <= number(self.data, place + 16, 4) <= min(EXT_LIMIT, self.extent - place)

    @cached_property
    def first(self) -> int:
        """The offset in the volume at which the body begins (rule 6)."""
        place, end = number(self.data, 52, 2), self.header
        if place and self.has_ext:
            end = place + number(self.data, place + 16, 4)
        return min(up_to(end, 8), len(self.data))

    @property
    def cells_end(self) -> int:
        """The offset in the volume at which its cells end (rule 7)."""
        return self.first + (len(self.data) - self.first) // 8 * 8

    def has_blocks(self) -> bool:
        """Returns whether the block map ends where the header does, and has FvLength bytes."""
        if self.header % 8 or self.header < 64:
            return False
        *pairs, last = struct.iter_unpack("<II", self.data[56 : self.header])
        return last == (0, 0) and (0, 0) not in pairs and sum(it[0] * it[1] for it in pairs) == self.fv_length

    def header_findings(self) -> set[int]:
        """Returns the numbers of the rules that the header breaks (rule 5)."""
        length, size = number(self.data, 48, 2), len(self.data)
        holds = {
            1: length <= size and self.fv_length <= size,
            2: self.data[40:44] == b"_FVH",
            3: self.system in (FFS2, FFS3, STORE),
            4: self.data[55] == 2,
            5: length % 8 == 0 and 64 <= length <= min(HEADER_LIMIT, size),
            6: sums_to_zero(self.data[: self.header]),
            7: self.has_blocks(),
            8: self.fv_length % 8 == 0 and self.header <= self.fv_length <= VOLUME_LIMIT,
            9: self.has_ext,
        }
        return {it for it, is_kept in holds.items() if not is_kept}

    @cached_property
    def by_row(self) -> dict[int, File]:
        """The files of the volume, also pads and deleted files, by the identities of their rows."""
        return {id(it): File(self, it) for it in self.tree.inner if it.row.kind == "file"}

    def file(self, tree: Tree) -> File:
        """Returns the file of a row of the volume."""
        return self.by_row[id(tree)]

    @cached_property
    def files(self) -> list[File]:
        """The files of the volume that are valid and not pads, in order."""
        return [it for it in self.by_row.values() if it.is_alive and it.kind != PAD_FILE]

    @cached_property
    def current(self) -> list[File]:
        """The valid files that are not superseded."""
        names = {it.name for it in self.files if not it.is_marked}
        return [it for it in self.files if not (it.is_marked and it.name in names)]

    @cached_property
    def replaced(self) -> set[int]:
        """The identities of the rows of superseded files."""
        return {id(it.tree) for it in self.files} - {id(it.tree) for it in self.current}

    def name_findings(self) -> set[int]:
        """Returns the numbers of the rules that the names of the files break (rule 8)."""
        files, current = self.files, self.current
        found = {17} if len({(it.name, it.is_marked) for it in files}) < len(files) else set[int]()
        for number_of, file in enumerate(current):
            is_last = number_of == len(current) - 1 and file.at + file.data_end == len(self.data)
            found |= {18} if file.name == reader.VOLUME_TOP_FILE and not is_last else set()
        return found

    def strict_fault(self, at: int) -> int | None:
        """Returns the number of the fault of the strict cell at this offset in the volume, if it has one."""
        cells = reader.Span(self.image, self.row.offset, self.row.offset + self.cells_end)
        if not self.data[at : self.cells_end].strip(bytes([self.erased])):
            return None
        system = "ffs3" if self.system == FFS3 else "ffs2"
        header = reader.Header(b"", system, len(cells), 0, 0, (), None, self.first, self.erased)
        try:
            reader.read_cell(cells, header, at)
        except reader.Fault as fault:
            return fault.number
        return None


@dataclass(frozen=True)
class File:
    """A file row of a volume: what its header says."""

    volume: Volume
    tree: Tree

    @cached_property
    def at(self) -> int:
        """The offset in the volume."""
        return self.tree.row.offset - self.volume.row.offset

    @cached_property
    def data(self) -> bytes:
        """The bytes from the header on, to the end of the cells."""
        return self.volume.data[self.at : self.volume.cells_end]

    @property
    def name(self) -> bytes:
        """The name."""
        return self.data[:16]

    @property
    def kind(self) -> int:
        """The type."""
        return self.data[18]

    @property
    def attributes(self) -> int:
        """The attributes."""
        return self.data[19]

    @property
    def state(self) -> int:
        """The bits of the state, which are set if they are not as erased."""
        return self.data[23] ^ self.volume.erased

    @cached_property
    def counted(self) -> int:
        """The highest bit of the state that counts (rule 10)."""
        bits = self.state & 0x3F
        return 1 << bits.bit_length() - 1 if bits else 0

    @property
    def is_alive(self) -> bool:
        """Whether the file is valid, or marked for update."""
        return self.counted in (DATA_VALID, MARKED)

    @property
    def is_marked(self) -> bool:
        """Whether the file is marked for update."""
        return self.counted == MARKED

    @cached_property
    def header(self) -> int:
        """The length of the header (rule 10)."""
        if not self.attributes & LARGE:
            return 24
        system = self.volume.system
        return 32 if system == FFS3 else 28 if system != FFS1 and number(self.data, 20, 3) == 0 else 24

    @property
    def stated(self) -> int:
        """The size that the header states."""
        at, size = {24: (20, 3), 28: (24, 4), 32: (24, 8)}[self.header]
        return number(self.data, at, size)

    @property
    def size(self) -> int:
        """The size with which the file is read: a file of a volume that is cut off may end at the end (rule 11)."""
        return min(self.stated, len(self.data))

    @property
    def is_tailed(self) -> bool:
        """Whether the last 2 bytes are a tail of FFS1 (rule 7)."""
        is_tailed = self.volume.system == FFS1 and self.attributes & LARGE
        return bool(is_tailed and self.size >= self.header + 2)

    @property
    def data_end(self) -> int:
        """The end of the data, counted from the header."""
        return self.size - 2 * self.is_tailed

    def has_data_sum(self) -> bool:
        """Returns whether the file checksum is right."""
        if self.attributes & SUMMED:
            return (sum(self.data[self.header : self.size]) + self.data[17]) % 0x100 == 0
        return self.data[17] == 0xAA

    def findings(self) -> set[int]:
        """Returns the numbers of the rules that the file breaks (rules 10 and 11)."""
        head, is_live = self.data[: self.header], self.is_alive and self.kind != PAD_FILE
        size = number(self.data, 20, 3)
        holds = {
            10: not self.state & 0xC0,
            11: (sum(head) - head[17] - head[23]) % 0x100 == 0,
            12: self.stated <= len(self.data) and (self.header != 32 or size == 0),
            13: not self.attributes & LARGE or self.volume.system == FFS3,
            14: not is_live or self.is_tailed or self.has_data_sum(),
            15: not is_live or not self.attributes & FIXED,
        }
        return {it for it, is_kept in holds.items() if not is_kept}


def section_size(data: bytes) -> tuple[int, int] | None:
    """Returns the length of the header and the size of the section that begins these bytes, if one begins there."""
    if len(data) < 4:
        return None
    size, header = number(data, 0, 3), 4
    if size == 0xFFFFFF:
        size, header = number(data, 4, 4), 8
    return (header, size) if header <= len(data) and header <= size <= len(data) else None


def is_opened(kind: int, body: bytes) -> bool:
    """Returns whether the body of a section is read as sections or as a volume (rule 14)."""
    is_volume = len(body) >= 56 and body[40:44] == b"_FVH" and body[16:32] in (FFS2, FFS3)
    return kind == GROUP or kind == VOLUME_SECTION and is_volume and number(body, 32, 8) == len(body)
