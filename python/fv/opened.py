# SPDX-License-Identifier: BSD-2-Clause-Patent
"""Says how packed sections are opened, and why they are not: compressed sections, and sections that a GUID defines.

libfv opens the sections, which is proved. Only sections of Brotli are opened by Python's module `brotli`, which is not
proved, and a CRC32 section with a wrong sum has its data in spite of the sum."""

from __future__ import annotations

import importlib
import io
import uuid
from dataclasses import dataclass
from typing import TYPE_CHECKING, Any

from . import _native as native
from ._calls import section_way
from ._errors import Fault, FaultError
from ._native import FaultCode
from .limits import Full
from .names import COMPRESSION, GUIDED

if TYPE_CHECKING:
    from ._model import Section

PACKED = (COMPRESSION, GUIDED)  # types of sections that may be opened
# The fields of packed sections that neither a row nor a call of libfv has, by their places in the body:
# CompressionType, the GUID, DataOffset, and Attributes, which say whether there are data to authenticate the contents.
TYPE_AT, GUID, OFFSET, ATTRIBUTES_AT, HAS_SIGNATURE = 4, slice(16), slice(16, 18), 18, 0x02
BROTLI = uuid.UUID("3d532050-5cda-4fd0-879e-0f7f630d5afb")
BROTLI_HEADER = 16  # bytes before the stream: the length of the contents, and of the memory that EDK II takes
BROTLI_STEP = 16  # bytes of a stream that are unpacked at a time: Python's brotli does not limit its output

# The reasons why a section is not opened that lie in the machine, and not in the image.
OUT_OF_MEMORY, NO_BROTLI = "memory ran out", "brotli is not installed"
OF_MACHINE = (OUT_OF_MEMORY, NO_BROTLI)


class Closed(Exception):
    """A section is not opened. The text gives the reason."""


@dataclass(frozen=True)
class Way:
    """A way to open a section: its name, and the name of the folder for the contents."""

    name: str
    folder: str


# The ways of libfv. No contents have the two ways without a folder: a header has them, before anything is unpacked.
WAYS = {
    native.Way.STORED: Way("stored", "stored"),
    native.Way.STANDARD: Way("compression", ""),
    native.Way.UEFI: Way("UEFI compression", "uefi"),
    native.Way.TIANO: Way("Tiano compression", "tiano"),
    native.Way.CUSTOMIZED: Way("LZMA", ""),
    native.Way.LZMA: Way("LZMA", "lzma"),
    native.Way.LZMA_X86: Way("LZMA of x86 code", "lzma-x86"),
    native.Way.CRC32: Way("CRC32", "crc32"),
    native.Way.SIGNED: Way("signed contents", "signed"),
    native.Way.PLAIN: Way("plain contents", "plain"),
}
BY_BROTLI = Way("Brotli", "brotli")


@dataclass
class Unpacked:
    """The contents of a section, the way that gave them, and the reasons, in words, why they may be wrong or
    incomplete."""

    way: Way
    contents: bytes
    doubts: list[str]


def named(way: native.Way) -> Way:
    """Returns a way with its name. A library that is newer than this package may have further ways."""
    return WAYS.get(way, Way(f"way {way}", "opened"))


def unpacked(section: Section, way: native.Way, contents: bytes) -> Unpacked:
    """Returns the contents that libfv has found in a section, with the reasons why they may be wrong."""
    doubts = []
    if section.kind == COMPRESSION and len(contents) != section_way(section.whole).promised:
        doubts.append("the contents have another length than the header says")
    if way == native.Way.SIGNED or way == native.Way.PLAIN and section.view[ATTRIBUTES_AT] & HAS_SIGNATURE:
        doubts.append("the signature is not verified")
    return Unpacked(named(way), contents, doubts)


def otherwise(section: Section, fault: Fault, limit: int) -> Unpacked:
    """Returns the contents of a section in which libfv finds this fault: of Brotli data, and of a CRC32 section with a
    wrong sum. Raises Closed with the reason if there are none, and Full if they have more than `limit` bytes."""
    if fault.code == FaultCode.OPEN_WAY:
        return _by_brotli(section, limit)
    try:
        packed = section_way(section.whole)
    except FaultError:
        raise Closed(f"section {FaultError(fault)}") from None
    way = named(packed.way)
    if fault.code == FaultCode.OPEN_SUM:
        return Unpacked(way, bytes(section.whole[packed.data_offset :]), ["the CRC32 is wrong"])
    if fault.code == FaultCode.OPEN_TOO_LONG:
        raise _too_long(way, packed.promised or 0, limit)
    raise Closed(f"{way.name}: section {FaultError(fault)}")


def _too_long(way: Way, length: int, limit: int) -> Exception:
    """Returns the reason why contents that should have this length are not unpacked: they are too long for any image,
    or for what is left of the limit of this one."""
    if length <= native.LENGTH_MAX and limit < native.LENGTH_MAX:
        return Full(f"{limit} bytes")
    return Closed(f"{way.name}: more than {native.LENGTH_MAX} bytes")


def _by_brotli(section: Section, limit: int) -> Unpacked:
    """Returns the contents of a section for which libfv knows no way, if they are Brotli data, and Python's module for
    these is installed."""
    body = section.view
    if section.kind == COMPRESSION:
        raise Closed(f"compression of the unknown type {body[TYPE_AT]}")
    if body[GUID] != BROTLI.bytes_le:
        raise Closed(f"unknown GUID {uuid.UUID(bytes_le=bytes(body[GUID]))}")
    data = bytes(section.whole[int.from_bytes(body[OFFSET], "little") :])
    if len(data) < BROTLI_HEADER:
        raise Closed("Brotli: the data are cut short")
    try:
        brotli: Any = importlib.import_module("brotli")
    except ImportError:
        raise Closed(NO_BROTLI) from None
    length, decoder, found, at = int.from_bytes(data[:8], "little"), brotli.Decompressor(), io.BytesIO(), BROTLI_HEADER
    if length > min(limit, native.LENGTH_MAX):
        raise _too_long(BY_BROTLI, length, limit)
    try:
        while at < len(data) and found.tell() <= length and not decoder.is_finished():
            found.write(decoder.process(data[at : at + BROTLI_STEP]))
            at += BROTLI_STEP
    except brotli.error as error:
        raise Closed(f"Brotli: {error}") from error
    if found.tell() != length or not decoder.is_finished():
        raise Closed("Brotli: the contents have another length than the header says")
    rest = data[at:]
    doubts = [] if is_erased(rest, 0, len(rest)) else [f"{len(rest)} bytes follow the packed data"]
    return Unpacked(BY_BROTLI, found.getvalue(), doubts)


def is_erased(data: bytes, start: int, end: int) -> bool:
    """Returns whether all bytes at these places are 0x00, or all are 0xFF, or there are none."""
    return start >= end or data[start : start + 1] in (b"\0", b"\xff") and is_uniform(data, start, end)


def is_uniform(data: bytes, start: int, end: int) -> bool:
    """Returns whether all bytes at these places are equal."""
    piece = data[start : start + 1] * min(end - start, 1 << 16)  # bytes.count would take ten times as long
    return all(data.startswith(piece[: end - at], at, end) for at in range(start, end, 1 << 16))
