# SPDX-License-Identifier: BSD-2-Clause-Patent
"""Reads packed sections: compression sections and GUID-defined sections (PI specification, volume 3, sections 3.2.5.2
and 3.2.5.7, and docs/FAULTS.md). As a program, it writes the contents of the section at the start of a file:

    PYTHONPATH=. python3 -m tests.packed_reader.sections FILE > CONTENTS"""

import lzma
import struct
import sys
import uuid
import zlib
from collections.abc import Callable
from dataclasses import dataclass
from pathlib import Path
from typing import Any

from tests.packed_reader.faults import Fault, Kind, require
from tests.packed_reader.lzma_stream import NO_LENGTH, lzma_contents
from tests.packed_reader.uefi_compression import TIANO, UEFI, tiano_contents

LIMIT = 268_435_456


def code_contents(data: bytes, limit: int) -> bytes:
    """Returns what LZMA data of x86 code give. liblzma undoes the filter in data that LZMA2 stores: pieces of at most
    64 KiB, of which the first has the control byte 1, and the others have 2."""
    contents = lzma_contents(data, limit)
    pieces = [contents[at : at + (1 << 16)] for at in range(0, len(contents), 1 << 16)]
    stored = b"".join(struct.pack(">BH", 1 + (n > 0), len(it) - 1) + it for n, it in enumerate(pieces)) + b"\0"
    filters: list[dict[str, Any]] = [{"id": lzma.FILTER_X86}, {"id": lzma.FILTER_LZMA2, "preset": 0}]
    return lzma.decompress(stored, lzma.FORMAT_RAW, filters=filters)


def frame(data: bytes, at: int = 0) -> tuple[int, int] | None:
    """Returns the length of the header and the size of the section at an offset, if there is a whole section."""
    size, head = int.from_bytes(data[at : at + 3], "little"), 4
    if size == 0xFFFFFF:
        size, head = int.from_bytes(data[at + 4 : at + 8], "little"), 8
    return (head, size) if head <= size <= len(data) - at else None


def are_sections(data: bytes) -> bool:
    """Returns whether the bytes are a stream of sections, each at a multiple of 4."""
    at = 0
    while at < len(data):
        found = frame(data, at)
        if found is None:
            return False
        at += found[1] + -found[1] % 4
    return True


@dataclass(frozen=True)
class Packed:
    """What the header of a packed section says: the way to open it, where its data begin, and the length of the
    contents, if it says one."""

    way: str
    start: int
    promised: int | None


@dataclass(frozen=True)
class Opened:
    """The contents of a packed section, and the way that gave them."""

    contents: bytes
    way: str


TYPES = {0: "STORED", 1: "STANDARD", 2: "CUSTOMIZED", 0x86: "LZMA_X86"}
GUIDS = {
    uuid.UUID("ee4e5898-3914-4259-9d6e-dc7bd79403cf"): "LZMA",
    uuid.UUID("0ed85e23-f253-413f-a03c-901987b04397"): "LZMA",
    uuid.UUID("d42ae6bd-1352-4bfb-909a-ca72a6eae889"): "LZMA_X86",
    uuid.UUID("a31280ad-481e-41b6-95e8-127f4c984779"): "TIANO",
    uuid.UUID("fc1bcdb0-7d31-49aa-936a-a4600d9dd083"): "CRC32",
    uuid.UUID("a7717414-c616-4977-9420-844712a735bf"): "SIGNED",
    uuid.UUID("0f9d89e8-9259-4f76-a5af-0c89e34023df"): "SIGNED",
}


def read_way(data: bytes) -> Packed:
    """Returns what the header of the section at the start of the data says."""
    found = frame(data)
    if found is None:
        raise Fault(Kind.SHORT, 0)
    (head, size), kind = found, data[3]
    require(kind in (1, 2), Kind.WAY, 3)
    require(size >= head + (5 if kind == 1 else 20), Kind.SHORT, size)
    if kind == 1:
        length, way = struct.unpack_from("<IB", data, head)
        require(way in TYPES, Kind.WAY, head + 4)
        return Packed(TYPES[way], head + 5, length)
    start, attributes = struct.unpack_from("<HH", data, head + 16)
    name = GUIDS.get(uuid.UUID(bytes_le=data[head : head + 16])) or "PLAIN"
    require(name != "PLAIN" or not attributes & 1, Kind.WAY, head)
    require(head + (24 if name == "CRC32" else 20) <= start <= size, Kind.SHORT, head + 16)
    place, form = {"LZMA": (5, "<Q"), "LZMA_X86": (5, "<Q"), "TIANO": (4, "<I")}.get(name, (0, ""))
    promised: int | None = size - start
    if form:
        has_length = start + (13 if place == 5 else 8) <= size
        promised = struct.unpack_from(form, data, start + place)[0] if has_length else NO_LENGTH
    return Packed(name, start, None if promised == NO_LENGTH else promised)


def standard(data: bytes, limit: int) -> Opened:
    """Returns the contents of data of CompressionType 1: the form of the UEFI specification, if that gives sections."""
    try:
        contents = tiano_contents(data, limit, UEFI)
        if are_sections(contents):
            return Opened(contents, "UEFI")
    except Fault:
        pass
    return Opened(tiano_contents(data, limit, TIANO), "TIANO")


def customized(data: bytes, limit: int) -> Opened:
    """Returns the contents of data of CompressionType 2: an LZMA stream, or four bytes and an LZMA stream."""
    try:
        return Opened(lzma_contents(data, limit), "LZMA")
    except Fault as fault:
        try:
            return Opened(lzma_contents(data[4:], limit), "LZMA")
        except Fault:
            raise fault from None


DECODERS: dict[str, Callable[[bytes, int], Opened]] = {
    "STANDARD": standard,
    "CUSTOMIZED": customized,
    "TIANO": lambda data, limit: Opened(tiano_contents(data, limit, TIANO), "TIANO"),
    "LZMA": lambda data, limit: Opened(lzma_contents(data, limit), "LZMA"),
    "LZMA_X86": lambda data, limit: Opened(code_contents(data, limit), "LZMA_X86"),
}


def opened(section: bytes, limit: int = LIMIT) -> Opened:
    """Returns the contents of the section at the start of the bytes, which have at most `limit` bytes."""
    packed = read_way(section)
    head, size = frame(section) or (0, 0)
    data = section[packed.start : size]
    if packed.way in DECODERS:
        try:
            return DECODERS[packed.way](data, limit)
        except Fault as fault:
            raise Fault(fault.kind, None if fault.offset is None else packed.start + fault.offset) from None
    require(len(data) <= limit, Kind.TOO_LONG, packed.start)
    if packed.way == "CRC32":
        (stored,) = struct.unpack_from("<I", section, head + 20)
        require(zlib.crc32(data) == stored, Kind.SUM, head + 20)
    return Opened(data, packed.way)


if __name__ == "__main__":  # FILE
    try:
        sys.stdout.buffer.write(opened(Path(sys.argv[1]).read_bytes()).contents)
    except Fault as RESULT:
        sys.exit(f"section fault {RESULT.kind} at {RESULT.offset}")
