# SPDX-License-Identifier: BSD-2-Clause-Patent
"""A second reading of the specification, to be compared with the program.

This module reads firmware volumes, their files, sections and nested volumes, the cells of a volume, dependency
expressions and hand-off block lists. It was written from the UEFI Platform Initialization Specification 1.8 and from
docs/FORMAT.md, docs/FAULTS.md and docs/PROGRAM.md, by somebody who had not seen the program, its definitions or its
tests. So a difference between the two shows an error in one of them, or a sentence of the documents that is unclear.

`answer` returns what `fvtool COMMAND FILE` writes, and its exit status. The functions above it return a value, or raise
the first fault. Their time is linear in the length of the input, and groups and volumes nest at most DEPTH_LIMIT deep.
"""

from __future__ import annotations

import struct
import sys
from collections.abc import Iterator
from dataclasses import dataclass, replace
from enum import IntEnum
from pathlib import Path

VOLUME_LIMIT, DEPTH_LIMIT, HEADER_LIMIT, EXT_LIMIT = 268_435_456, 8, 2112, 65_535

# The faults, in the order of their numbers, which begin at 1 (docs/FAULTS.md).
Kind = IntEnum("Kind", "TRUNCATED SIGNATURE FILE_SYSTEM REVISION HEADER_LENGTH HEADER_SUM BLOCK_MAP LENGTH EXT_HEADER "
               "FILE_STATE FILE_HEADER_SUM FILE_SIZE LARGE_FILE FILE_SUM FIXED FREE_SPACE DUPLICATE_NAME TOP_FILE "
               "SECTION_SIZE SECTION_TAIL DEPTH")
DepexKind = IntEnum("DepexKind", "SHORT OPCODE STACK NO_END POSITION")
HobKind = IntEnum("HobKind", "SHORT LENGTH FIRST SHAPE NO_END")

FILE_SYSTEMS = {bytes.fromhex("78e58c8c3d8a1c4f9935896185c32dd3"): "ffs2",
                bytes.fromhex("7ac07354cb3dca4dbd6f1e9689e7349a"): "ffs3"}
VOLUME_TOP_FILE = bytes.fromhex("2e06a01b79c782458566336ae8f78f09")

# FFS_ATTRIB_.. , EFI_FILE_.. (the states), EFI_FVB2_ERASE_POLARITY, EFI_FV_FILETYPE_.. , EFI_SECTION_.. .
LARGE_FILE, FIXED, CHECKSUM, KEPT_ATTRIBUTES, FIXED_CHECKSUM = 0x01, 0x04, 0x40, 0xFA, 0xAA
HEADER_CONSTRUCTION, HEADER_VALID, DATA_VALID, MARKED_FOR_UPDATE, DELETED, HEADER_INVALID = 1, 2, 4, 8, 16, 32
ERASE_POLARITY, FFS_PAD = 0x800, 0xF0
SECTIONED_TYPES = frozenset([0x02, *range(0x04, 0x10)])
DISPOSABLE, DXE_DEPEX, VERSION, USER_INTERFACE, FIRMWARE_VOLUME_IMAGE = 0x03, 0x13, 0x14, 0x15, 0x17
FREEFORM_SUBTYPE_GUID, PEI_DEPEX, MM_DEPEX = 0x18, 0x1B, 0x1C

# The ops of dependency expressions, EFI_HOB_TYPE_.. , and the lengths of hand-off blocks by their types.
BEFORE, AFTER, PUSH, AND, OR, NOT, TRUE, FALSE, END, SOR = range(10)
HOB_HANDOFF, HOB_FV, HOB_FV2, HOB_END = 0x0001, 0x0005, 0x0009, 0xFFFF
EXACT_LENGTHS = {HOB_HANDOFF: 56, 0x0003: 48, HOB_FV: 24, 0x0006: 16, 0x0007: 8, HOB_FV2: 56, 0x000B: 24, HOB_END: 8}
LEAST_LENGTHS = {0x0002: 48, 0x0004: 24}


@dataclass(eq=False)
class Fault(Exception):
    """The first fault of an input: its number, its offset, and the number of groups and volumes around that place."""

    number: int
    offset: int
    depth: int


@dataclass(frozen=True)
class Span:
    """Bytes start to end of the input, with depth groups and volumes around them. Offsets count from start."""

    data: bytes
    start: int
    end: int
    depth: int = 0

    def __len__(self) -> int:
        return self.end - self.start

    def at(self, offset: int, length: int) -> bytes:
        """Returns length bytes, which must lie in the span."""
        first = self.start + offset
        assert offset >= 0 and length >= 0 and first + length <= self.end
        return self.data[first:first + length]

    def all(self) -> bytes:
        """Returns all bytes of the span."""
        return self.data[self.start:self.end]

    def number(self, offset: int, length: int) -> int:
        """Returns the little-endian number in length bytes."""
        return int.from_bytes(self.at(offset, length), "little")

    def part(self, first: int, end: int, deeper: int = 0) -> Span:
        """Returns the span of bytes first to end of this span, with further groups and volumes around it."""
        return Span(self.data, self.start + first, self.start + end, self.depth + deeper)

    def require(self, holds: bool, number: int, offset: int) -> None:
        """Raises the fault of that number, unless the condition holds."""
        if not holds:
            raise Fault(number, self.start + offset, self.depth)


def whole(data: bytes) -> Span:
    """Returns the span of all bytes of an input."""
    return Span(data, 0, len(data))


def aligned(offset: int, alignment: int) -> int:
    """Returns the first multiple of alignment at or after offset."""
    return -(-offset // alignment) * alignment


def guid_text(guid: bytes) -> str:
    """Returns the text of a GUID."""
    first, second, third = struct.unpack("<IHH", guid[:8])
    return f"{first:08x}-{second:04x}-{third:04x}-{guid[8:10].hex()}-{guid[10:].hex()}"


@dataclass(frozen=True)
class ExtHeader:
    """EFI_FIRMWARE_VOLUME_EXT_HEADER: the name, the type and payload of each entry, and the bytes after them."""

    fv_name: bytes
    entries: tuple[tuple[int, bytes], ...]
    tail: bytes


@dataclass(frozen=True)
class Header:
    """EFI_FIRMWARE_VOLUME_HEADER and the extended header, where the first file may begin, and an erased byte."""

    zero_vector: bytes
    file_system: str
    fv_length: int
    attributes: int
    reserved: int
    block_map: tuple[tuple[int, int], ...]
    ext_header: ExtHeader | None
    body: int
    erased: int


def read_ext_entries(content: bytes) -> tuple[tuple[tuple[int, bytes], ...], bytes]:
    """Splits the content of an extended header into its entries, with zeros for each used size, and the tail."""
    entries, at = [], 0
    while len(content) - at >= 4:
        size, entry_type = struct.unpack_from("<HH", content, at)
        if not 4 <= size <= len(content) - at:
            break
        used_size = entry_type == 3 and size == 8
        entries.append((entry_type, bytes(4) if used_size else content[at + 4:at + size]))
        at += size
    return tuple(entries), content[at:]


def read_ext_header(volume: Span, header_length: int) -> tuple[ExtHeader | None, int]:
    """Returns the extended header, if there is one, and the offset at which the first file may begin."""
    offset = volume.number(52, 2)
    if offset == 0:
        return None, header_length
    volume.require(header_length <= offset <= len(volume) - 20, Kind.EXT_HEADER, 52)
    size = volume.number(offset + 16, 4)
    volume.require(20 <= size <= min(EXT_LIMIT, len(volume) - offset), Kind.EXT_HEADER, 52)
    entries, tail = read_ext_entries(volume.at(offset + 20, size - 20))
    return ExtHeader(volume.at(offset, 16), entries, tail), aligned(offset + size, 8)


def read_header(span: Span) -> Header:
    """Reads the header of the volume at the start of the span, which must have the whole volume."""
    span.require(len(span) >= 56, Kind.TRUNCATED, len(span))
    span.require(span.at(40, 4) == b"_FVH", Kind.SIGNATURE, 40)
    span.require(span.at(16, 16) in FILE_SYSTEMS, Kind.FILE_SYSTEM, 16)
    span.require(span.number(55, 1) == 2, Kind.REVISION, 55)
    header_length = span.number(48, 2)
    span.require(header_length % 8 == 0 and 64 <= header_length <= HEADER_LIMIT, Kind.HEADER_LENGTH, 48)
    span.require(header_length <= len(span), Kind.TRUNCATED, len(span))
    words = struct.unpack(f"<{header_length // 2}H", span.at(0, header_length))
    span.require(sum(words) % 0x10000 == 0, Kind.HEADER_SUM, 0)
    block_map = [(number, length) for number, length in struct.iter_unpack("<II", span.at(56, header_length - 56))]
    last, fv_length = block_map.pop(), span.number(32, 8)
    blocks = sum(number * length for number, length in block_map)
    span.require(last == (0, 0) and (0, 0) not in block_map and blocks == fv_length, Kind.BLOCK_MAP, 56)
    span.require(fv_length % 8 == 0 and header_length <= fv_length <= VOLUME_LIMIT, Kind.LENGTH, 32)
    span.require(fv_length <= len(span), Kind.TRUNCATED, len(span))
    ext_header, body = read_ext_header(span.part(0, fv_length), header_length)
    attributes, reserved = span.number(44, 4), span.number(54, 1)
    return Header(span.at(0, 16), FILE_SYSTEMS[span.at(16, 16)], fv_length, attributes, reserved, tuple(block_map),
                  ext_header, body, 0xFF if attributes & ERASE_POLARITY else 0x00)


@dataclass(frozen=True)
class Cell:
    """A part of the body of a volume. size does not include the filler; the last fields are for a file."""

    kind: str
    offset: int
    size: int
    header_length: int = 0
    name: bytes = bytes(16)
    type: int = 0
    attributes: int = 0
    marked: bool = False

    @property
    def end(self) -> int:
        """The end of the file, without its filler."""
        return self.offset + self.size


def read_state(volume: Span, header: Header, at: int) -> int:
    """Returns the state of the file at that offset, where not all bytes up to the end of the volume are erased."""
    rest = volume.at(at, min(24, len(volume) - at))
    bits = rest[23] ^ header.erased if len(rest) == 24 else 0
    if bits == 0:
        rest = volume.at(at, len(volume) - at)
        volume.require(False, Kind.FREE_SPACE, len(volume) - len(rest.lstrip(bytes([header.erased]))))
    volume.require(bits < 0x40, Kind.FILE_STATE, at + 23)
    return 1 << bits.bit_length() - 1


def read_size(volume: Span, header: Header, at: int, header_length: int) -> int:
    """Checks the large bit, the header checksum and the size of the file at that offset, and returns the size."""
    large, left = header_length == 32, len(volume) - at
    volume.require(not large or header.file_system == "ffs3", Kind.LARGE_FILE, at + 19)
    volume.require(header_length <= left, Kind.FILE_SIZE, at + 20)
    head = volume.at(at, header_length)
    volume.require((sum(head) - head[17] - head[23]) % 0x100 == 0, Kind.FILE_HEADER_SUM, at)
    size = volume.number(at + 20, 3)
    if large:
        volume.require(size == 0, Kind.FILE_SIZE, at + 20)
        size = volume.number(at + 24, 8)
    volume.require(header_length <= size <= left, Kind.FILE_SIZE, at + 20)
    return size


def read_cell(volume: Span, header: Header, at: int) -> Cell:
    """Reads the cell at that offset, where not all bytes up to the end of the volume are erased."""
    state = read_state(volume, header, at)
    attributes = volume.number(at + 19, 1)
    header_length = 32 if attributes & LARGE_FILE else 24
    if state in (HEADER_CONSTRUCTION, HEADER_INVALID):
        volume.require(header_length <= len(volume) - at, Kind.FILE_SIZE, at + 20)
        return Cell("unfinished", at, header_length)
    size = read_size(volume, header, at, header_length)
    if state in (HEADER_VALID, DELETED):
        return Cell("deleted" if state == DELETED else "unfinished", at, size, header_length)
    file_type = volume.number(at + 18, 1)
    if file_type == FFS_PAD:
        return Cell("pad", at, size, header_length)
    volume.require(not attributes & FIXED, Kind.FIXED, at + 19)
    data = volume.at(at + header_length, size - header_length)
    checksum = -sum(data) % 0x100 if attributes & CHECKSUM else FIXED_CHECKSUM
    volume.require(volume.number(at + 17, 1) == checksum, Kind.FILE_SUM, at + 17)
    return Cell("file", at, size, header_length, volume.at(at, 16), file_type, attributes, state == MARKED_FOR_UPDATE)


def read_cells(span: Span) -> tuple[Header, tuple[Cell, ...]]:
    """Reads the header of the volume at the start of the span, and splits the body of the volume into cells."""
    header = read_header(span)
    volume = span.part(0, header.fv_length)
    written = len(volume.all().rstrip(bytes([header.erased])))
    cells, at = [], header.body
    while at < len(volume):
        cells.append(read_cell(volume, header, at) if at < written else Cell("free", at, len(volume) - at))
        at = aligned(cells[-1].end, 8)
    return header, tuple(cells)


@dataclass(frozen=True)
class Section:
    """A section: its header, its body, and the stream or the volume in it, unless it is a leaf."""

    offset: int
    type: int
    extended: bool
    body: Span
    content: Stream | Volume | None = None


@dataclass(frozen=True)
class Stream:
    """A sequence of sections, and the number of bytes after the last one."""

    sections: tuple[Section, ...]
    tail: int


def open_stream(stream: Span) -> Stream:
    """Splits a stream into all its sections, and then reads what they contain."""
    sections, at, end = [], 0, 0
    while at < len(stream):
        left = len(stream) - at
        stream.require(left >= 4, Kind.SECTION_TAIL, at)
        size, header_length = stream.number(at, 3), 4
        if size == 0xFFFFFF:
            stream.require(left >= 8, Kind.SECTION_SIZE, at)
            size, header_length = stream.number(at + 4, 4), 8
        stream.require(header_length <= size <= left, Kind.SECTION_SIZE, at)
        end = at + size
        body = stream.part(at + header_length, end, 1)
        sections.append(Section(at, stream.number(at + 3, 1), header_length == 8, body))
        at = aligned(end, 4)
    return Stream(tuple(open_section(stream, section) for section in sections), len(stream) - end)


def open_section(stream: Span, section: Section) -> Section:
    """Reads the content of a section, if it is a group or holds a volume."""
    body, group = section.body, section.type == DISPOSABLE
    opened = (section.type == FIRMWARE_VOLUME_IMAGE and len(body) >= 56 and body.at(40, 4) == b"_FVH"
              and body.at(16, 16) in FILE_SYSTEMS and body.number(32, 8) == len(body))
    stream.require(stream.depth < DEPTH_LIMIT or not (group or opened), Kind.DEPTH, section.offset)
    return replace(section, content=open_stream(body) if group else open_volume(body) if opened else None)


@dataclass(frozen=True)
class File:
    """A file of a volume, and its sections if its type holds sections."""

    cell: Cell
    data: Span
    stream: Stream | None


@dataclass(frozen=True)
class Volume:
    """A volume that meets all rules: its header, its cells, and the files that are part of its meaning."""

    header: Header
    cells: tuple[Cell, ...]
    files: tuple[File, ...]


def choose_files(volume: Span, cells: tuple[Cell, ...]) -> list[Cell]:
    """Returns the files that are not superseded, and checks their names and the volume top file."""
    stored = [cell for cell in cells if cell.kind == "file"]
    seen: set[tuple[bytes, bool]] = set()
    for cell in stored:
        volume.require((cell.name, cell.marked) not in seen, Kind.DUPLICATE_NAME, cell.offset)
        seen.add((cell.name, cell.marked))
    files = [cell for cell in stored if not (cell.marked and (cell.name, False) in seen)]
    for cell in files:
        at_top = cell is files[-1] and cell.end == len(volume)
        volume.require(at_top or cell.name != VOLUME_TOP_FILE, Kind.TOP_FILE, cell.offset)
    return files


def open_volume(span: Span) -> Volume:
    """Reads the volume at the start of the span."""
    header, cells = read_cells(span)
    volume, files = span.part(0, header.fv_length), []
    for cell in choose_files(volume, cells):
        data = volume.part(cell.offset + cell.header_length, cell.end)
        files.append(File(cell, data, open_stream(data) if cell.type in SECTIONED_TYPES else None))
    return Volume(header, cells, tuple(files))


def read_volume(data: bytes, more: bool = True) -> Volume:
    """Returns the volume at the start of an input; more allows that bytes follow the volume."""
    volume = open_volume(whole(data))
    end = volume.header.fv_length
    whole(data).require(more or end == len(data), Kind.LENGTH, end)
    return volume


def places(data: bytes) -> list[tuple[int, int]]:
    """Returns the offset and the length of each volume that begins at a multiple of 8 of an input."""
    found, at = [], 0
    while (signature := data.find(b"_FVH", at + 40)) >= 0:
        at = aligned(signature - 40, 8)
        try:
            length = read_header(Span(data, at, len(data))).fv_length
            found.append((at, length))
            at += length
        except Fault:
            at += 8
    return found


def read_expression(data: bytes, pei: bool) -> tuple[list[tuple[int, bytes]], bytes]:
    """Returns the ops of the dependency expression at the start of an input, each with its GUID, and the rest."""
    ops: list[tuple[int, bytes]] = []
    at, values = 0, 0
    while not ops or ops[-1][0] != END:
        whole(data).require(at < len(data), DepexKind.NO_END, at)
        code = data[at]
        whole(data).require(PUSH <= code <= END if pei else code <= SOR, DepexKind.OPCODE, at)
        single = bool(ops) and ops[0][0] in (BEFORE, AFTER)
        allowed = code == END if single else not ops or code not in (BEFORE, AFTER, SOR)
        whole(data).require(allowed, DepexKind.POSITION, at)
        length = 17 if code in (BEFORE, AFTER, PUSH) else 1
        whole(data).require(at + length <= len(data), DepexKind.SHORT, at)
        enough = values >= {AND: 2, OR: 2, NOT: 1}.get(code, 0) and (code != END or single or values == 1)
        whole(data).require(enough, DepexKind.STACK, at)
        values += {PUSH: 1, TRUE: 1, FALSE: 1, AND: -1, OR: -1}.get(code, 0)
        ops.append((code, data[at + 1:at + length]))
        at += length
    return ops, data[at:]


def truth(ops: list[tuple[int, bytes]], installed: frozenset[bytes]) -> bool | None:
    """Returns whether an expression is true for a set of installed GUIDs; BEFORE and AFTER have no truth value."""
    stack: list[bool] = []
    for code, guid in ops:
        if code in (PUSH, TRUE, FALSE):
            stack.append(guid in installed if code == PUSH else code == TRUE)
        elif code == NOT:
            stack.append(not stack.pop())
        elif code in (AND, OR):
            last, first = stack.pop(), stack.pop()
            stack.append(first and last if code == AND else first or last)
    return stack[0] if stack else None


def read_list(data: bytes) -> list[Span]:
    """Returns the blocks of the hand-off block list at the start of an input."""
    blocks: list[Span] = []
    span, at, hob_type = whole(data), 0, 0
    while hob_type != HOB_END:
        span.require(at < len(data), HobKind.NO_END, at)
        span.require(at + 8 <= len(data), HobKind.SHORT, at)
        hob_type, hob_length = span.number(at, 2), span.number(at + 2, 2)
        span.require(hob_length % 8 == 0 and hob_length >= 8, HobKind.LENGTH, at)
        span.require(at + hob_length <= len(data), HobKind.SHORT, at)
        span.require(at > 0 or hob_type == HOB_HANDOFF, HobKind.FIRST, at)
        fits = hob_length == EXACT_LENGTHS.get(hob_type, hob_length) and hob_length >= LEAST_LENGTHS.get(hob_type, 8)
        span.require(fits, HobKind.SHAPE, at)
        blocks.append(span.part(at, at + hob_length))
        at += hob_length
    return blocks


def leaf_words(section: Section) -> str:
    """Returns the end of the line of a leaf section whose body has the format of its type."""
    body = section.body.all()
    if section.type == FREEFORM_SUBTYPE_GUID:
        return f" subtype {guid_text(body[:16])}" if len(body) >= 16 else ""
    if section.type not in (VERSION, USER_INTERFACE) or len(body) % 2:
        return ""
    units = [unit for unit, in struct.iter_unpack("<H", body)]
    text = units[1:] if section.type == VERSION else units
    if text[-1:] != [0] or 0 in text[:-1]:
        return ""
    shown = (chr(unit) if 0x20 <= unit <= 0x7E and chr(unit) not in '"\\' else f"\\u{unit:04x}" for unit in text[:-1])
    return f" version {units[0]}" if section.type == VERSION else f' ui "{"".join(shown)}"'


def stream_lines(stream: Stream, indent: str) -> Iterator[str]:
    """Writes the lines of the sections of a stream."""
    for number, section in enumerate(stream.sections):
        form = "extended" if section.extended else "short"
        words = leaf_words(section) if section.content is None else ""
        yield f"{indent}section {number} type {section.type:02x} {form} body {len(section.body)}{words}"
        if isinstance(section.content, Stream):
            yield from stream_lines(section.content, indent + "  ")
        elif section.content is not None:
            yield from volume_lines(section.content, indent + "  ")


def volume_lines(volume: Volume, indent: str = "") -> Iterator[str]:
    """Writes the lines of `list`."""
    header = volume.header
    name = f" name {guid_text(header.ext_header.fv_name)}" if header.ext_header else ""
    yield f"{indent}volume {header.file_system} length {header.fv_length} files {len(volume.files)}{name}"
    for number, file in enumerate(volume.files):
        yield (f"{indent}  file {number} {guid_text(file.cell.name)} type {file.cell.type:02x} "
               f"attributes {file.cell.attributes & KEPT_ATTRIBUTES:02x} data {len(file.data)}")
        if file.stream:
            yield from stream_lines(file.stream, indent + "    ")


def cell_lines(header: Header, cells: tuple[Cell, ...]) -> Iterator[str]:
    """Writes the lines of `cells`."""
    yield f"header at 0 length {header.body}"
    files = pads = deleted = filler = free = 0
    for cell in cells:
        length = aligned(cell.size, 8)
        words = (f" {guid_text(cell.name)} type {cell.type:02x} attributes {cell.attributes:02x} data at "
                 f"{cell.offset + cell.header_length} length {cell.size - cell.header_length}")
        yield f"{cell.kind} at {cell.offset} length {length}{words if cell.kind == 'file' else ''}"
        files += cell.size if cell.kind == "file" else 0
        pads += cell.size if cell.kind == "pad" else 0
        deleted += length if cell.kind in ("deleted", "unfinished") else 0
        filler += length - cell.size if cell.kind in ("file", "pad") else 0
        free += length if cell.kind == "free" else 0
    yield f"sums files {files} pads {pads} deleted {deleted} filler {filler} free {free}"


def depex_lines(name: bytes, stream: Stream) -> Iterator[str]:
    """Writes a note for each wrong dependency expression in a stream of a file and in its groups."""
    for section in stream.sections:
        if isinstance(section.content, Stream):
            yield from depex_lines(name, section.content)
        elif section.type in (DXE_DEPEX, PEI_DEPEX, MM_DEPEX):
            try:
                read_expression(section.body.all(), section.type == PEI_DEPEX)
            except Fault as fault:
                yield f"note depex in {guid_text(name)} fault {fault.number} at {fault.offset}"


def note_lines(volume: Volume, data: bytes) -> Iterator[str]:
    """Writes the notes of `check`: first those about pads, and then those about dependency expressions."""
    for cell in volume.cells:
        content = data[cell.offset + cell.header_length:cell.end]
        if cell.kind == "pad" and (written := len(content) - content.count(volume.header.erased)):
            yield f"note pad at {cell.offset} holds {written} bytes"
    for file in volume.files:
        if file.stream:
            yield from depex_lines(file.cell.name, file.stream)


def place_word(block: Span, image: bytes, base: int) -> str:
    """Returns the word for what an image has at the addresses of an FV or FV2 block."""
    first, length = block.number(8, 8) - base, block.number(16, 8)
    if first < 0 or first + length > len(image):
        return " outside"
    try:
        return " volume" if read_header(Span(image, first, first + length)).fv_length == length else " absent"
    except Fault:
        return " absent"


def hob_lines(blocks: list[Span], image: bytes, base: int | None) -> Iterator[str]:
    """Writes the lines of `hobs`, with a word for each volume if there is an image, which begins at address base."""
    for block in blocks:
        hob_type = block.number(0, 2)
        word = "" if base is None or hob_type not in (HOB_FV, HOB_FV2) else place_word(block, image, base)
        yield f"hob {hob_type:04x} length {len(block)}{word}"
    yield f"consumed {blocks[-1].end}"


def volume_parts(volume: Volume, path: str = "") -> Iterator[tuple[str, object]]:
    """Lists what a volume means, with the path and the word of `compare`, in the order in which `compare` looks."""
    words = ("zero vector", "file system", "length", "volume attributes", "reserved", "block map", "extended header")
    yield from zip((path + word for word in words), vars(volume.header).values())
    for number, file in enumerate(volume.files):
        at = f"{path}file {number} "
        yield from ((at + "name", file.cell.name), (at + "type", file.cell.type),
                    (at + "attributes", file.cell.attributes & KEPT_ATTRIBUTES))
        if file.stream:
            yield from stream_parts(file.stream, at)
        else:
            yield at + "data", file.data.all()
    yield path + "file count", len(volume.files)


def stream_parts(stream: Stream, path: str) -> Iterator[tuple[str, object]]:
    """Lists what a stream means, as volume_parts does for a volume."""
    for number, section in enumerate(stream.sections):
        at, content = f"{path}section {number} ", section.content
        yield from ((at + "type", section.type), (at + "form", section.extended), (at + "shape", content.__class__))
        if isinstance(content, Stream):
            yield from stream_parts(content, at)
        elif content is not None:
            yield from volume_parts(content, at)
        else:
            yield at + "body", section.body.all()
    yield path + "section count", len(stream.sections)
    yield path + "tail", stream.tail


def difference(first: Volume, second: Volume) -> str | None:
    """Returns the path and the word of the first difference between two volumes, or None if they mean the same."""
    for (place, part), (other_place, other_part) in zip(volume_parts(first), volume_parts(second)):
        if place != other_place:  # one of the two has no further file or section, so its next part is the count
            return place if place.endswith(" count") else other_place
        if part != other_part:
            return place
    return None


@dataclass(frozen=True)
class Answer:
    """What the program writes to standard output, and its exit status."""

    text: bytes
    status: int


def answer(command: str, data: bytes, other: bytes = b"", *, base: int | None = None) -> Answer:
    """Returns the answer of a command: list, cells, scan, hobs, compare, or check without the line of its verdict.

    other is the second volume of compare or, if base is not None, the image of hobs, which begins at address base.
    """
    prefix, status = {"hobs": "hob ", "compare": "first "}.get(command, ""), 0
    try:
        if command == "scan":
            lines = [f"volume at {offset} length {length}" for offset, length in places(data)]
        elif command == "hobs":
            lines = list(hob_lines(read_list(data), other, base))
        elif command == "cells":
            lines = list(cell_lines(*read_cells(whole(data))))
        elif command == "check":
            lines = list(note_lines(read_volume(data, more=False), data))
        elif command == "list":
            lines = list(volume_lines(read_volume(data)))
        else:
            first, prefix = read_volume(data, more=False), "second "
            place = difference(first, read_volume(other, more=False))
            lines, status = [f"different at {place}" if place else "same"], 1 if place else 0
    except Fault as fault:
        lines, status = [f"{prefix}fault {fault.number} at {fault.offset}"], 2
    return Answer("".join(line + "\n" for line in lines).encode("ascii"), status)


if __name__ == "__main__":  # COMMAND FILE [OTHER]
    RESULT = answer(sys.argv[1], *(Path(name).read_bytes() for name in sys.argv[2:]))
    sys.stdout.buffer.write(RESULT.text)
    sys.exit(RESULT.status)
