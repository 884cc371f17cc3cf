# SPDX-License-Identifier: BSD-2-Clause-Patent
"""The functions of the package, one for each call of fv.h."""

from __future__ import annotations

import operator
import struct
import uuid
from collections.abc import Callable, Iterable, Sequence
from typing import Any, SupportsIndex, TypeVar

from . import _native as native
from ._errors import FAULT_SIZE, error_of
from ._library import Buffer, Held, lib, new_bytes, result_text, unchanging
from ._native import Phase
from ._types import WAYS, Cell, Header, Hob, HobList, Node, Opened, Packed, PartPlace, Sameness, SurveyRow, VariableRow
from ._types import VolumeCheck
from ._types import Cells, Checks, Digests, Headers, Hobs, Nodes, Rows, SurveyRows, VariableRows

# The first buffer for rows has room for a row for each 8 bytes of the input (a section with a body takes at least 8
# bytes), but for at most 65,536 rows. Memory that a call does not write to costs little.
BYTES_OF_ROW, MOST_ROOM = 8, 65_536
GUID_SIZE = 16
# The first buffer for the contents of a section has room for what the header promises, but for at most this many bytes
# and this many times the bytes of the section, because a hostile header may promise any number.
FIRST_CONTENTS, EXPANSION = 1 << 20, 16
# A view of fewer bytes is copied, because this takes less time than to get its address.
LEAST_HELD = 4096
# A call writes its results to new bytes objects, which take less time to make than objects of ctypes. These are the
# results that are not rows: a number of 64 bits, a number of 32 bits, two comparisons, and the results for packed
# sections.
_SIZE, _U32, _COMPARISON = struct.Struct("=Q"), struct.Struct("=I"), struct.Struct(native.COMPARISON_FORMAT)
_SAMENESS = struct.Struct(native.SAMENESS_FORMAT)
_WAY, _CONTENTS = struct.Struct(native.WAY_FORMAT), struct.Struct(native.CONTENTS_FORMAT)
_TRUE = _U32.pack(1)
_TRUTHS = {
    _U32.pack(native.DEPEX_FALSE): False,
    _U32.pack(native.DEPEX_TRUE): True,
    _U32.pack(native.DEPEX_ORDER): None,
}

Item = TypeVar("Item")
Result = TypeVar("Result")


def _over(data: Buffer, copy: bool, run: Callable[..., Result], *rest: Any) -> Result:
    """Returns the result of a function over some data: it takes their address and size, and then the rest."""
    if copy and type(data) is not bytes:
        data = unchanging(data, LEAST_HELD)
    if type(data) is bytes:
        return run(data, len(data), *rest)
    with Held(data, copy) as (address, size):
        return run(address, size, *rest)


def _found(size: int, data: Buffer, copy: bool, call: Callable[..., int], *rest: Any) -> bytes:
    """Returns the result of this many bytes that a call writes about some data. `rest` are the arguments before it."""
    found, fault = bytes(size), bytes(FAULT_SIZE)
    if result := _over(data, copy, call, *rest, found, fault):
        raise error_of(result, fault)
    return found


def _image(address: Any, size: int, call: Callable[..., int]) -> bytes:
    """Returns the image that a call writes. It is as long as the data."""
    image, fault = new_bytes(size), bytes(FAULT_SIZE)
    if result := call(address, size, image, size, fault):
        raise error_of(result, fault)
    return image


def _rows(address: Any, size: int, call: Callable[..., int], rows: type[Rows[Item]], *rest: Any) -> Rows[Item]:
    """Returns the rows that a call writes about some data. `rest` are the arguments between the count and the fault.
    Calls again if the buffer is too small."""
    count, fault, row_size = bytes(_SIZE.size), bytes(FAULT_SIZE), rows.layout.size
    room = size // BYTES_OF_ROW + 1 if size < BYTES_OF_ROW * MOST_ROOM else MOST_ROOM
    while result := call(address, size, buffer := new_bytes(row_size * room), room, count, *rest, fault):
        if result != native.BUFFER_TOO_SMALL:
            raise error_of(result, fault)
        (room,) = _SIZE.unpack(count)
    return rows(buffer[: row_size * _SIZE.unpack(count)[0]])


def _with(call: Callable[..., int], without_marks: bool) -> Callable[..., int]:
    """Returns a call with its flags: a function that takes the other arguments."""
    flags = native.WITHOUT_MARKS if without_marks else 0
    return lambda address, size, *rest: call(address, size, flags, *rest)


def version() -> str:
    """Returns the version of the library that is loaded."""
    text: bytes = lib.fv_version()
    return text.decode()


def version_number() -> int:
    """Returns the version of the library that is loaded as a number: 0x020100 is 2.1.0."""
    number: int = lib.fv_version_number()
    return number


def header_read(data: Buffer, *, copy: bool = True) -> Header:
    """Returns the header of the volume with which the data begin. Reads only this header: the body is not checked."""
    return Headers.item(_found(Headers.layout.size, data, copy, lib.fv_header_read))


def image_scan(image: Buffer, *, copy: bool = True) -> Sequence[Header]:
    """Returns the headers of the volumes in a flash image, with rising offsets. The bodies are not checked."""
    return _over(image, copy, _rows, lib.fv_image_scan, Headers)


def image_check(image: Buffer, *, copy: bool = True) -> Sequence[VolumeCheck]:
    """Checks each volume that image_scan finds in a flash image, and returns the results in the order of the volumes.
    The result for a rejected volume has its fault. Raises a FaultError (LENGTH) if the image has more than LENGTH_MAX
    bytes."""
    return _over(image, copy, _rows, lib.fv_image_check, Checks)


def image_survey(image: Buffer, *, copy: bool = True) -> Sequence[SurveyRow]:
    """Surveys any bytes: returns the rows of the survey, in preorder, which account for every byte. Each row is
    followed by the rows in it, which are one deeper. No image is rejected: damaged volumes are read as far as they can
    be read, and a row has a finding for each rule that its bytes break. Packed sections are not opened. There are at
    most two rows for each byte, and a row takes 56 bytes of memory."""
    return _over(image, copy, _rows, lib.fv_image_survey, SurveyRows)


def contents_limit(limit: SupportsIndex | None) -> int:
    """Returns the most bytes of all contents together that a call may open: CONTENTS_MAX if there is no limit."""
    most = native.CONTENTS_MAX if limit is None else operator.index(limit)
    if most < 0:
        raise ValueError("the limit is negative")
    return min(most, native.CONTENTS_MAX)


def image_same(
    first: Buffer, second: Buffer, limit: SupportsIndex | None = None, *, copy: bool = True
) -> Sameness:
    """Returns whether two images mean the same at every level, and otherwise where they first differ. Opens both as
    image_open does, each within the limit. Any bytes are accepted. Places, pads, checksums, deleted and superseded
    files and free bytes do not count, nor does how a section is packed that is opened. A packed section that is not
    opened counts with all its bytes."""
    most = contents_limit(limit)
    found = _found(_SAMENESS.size, second, copy, _compare, lib.fv_image_same, first, copy, most)
    *places, is_same = _SAMENESS.unpack(found)
    one, other = (PartPlace(*it[:3]) if it[3] else None for it in (places[:4], places[4:]))
    return Sameness(is_same == 1, one, other)


def image_normalise(image: Buffer, *, copy: bool = True) -> bytes:
    """Returns a flash image with each volume that image_scan finds in it replaced by its canonical image."""
    return _over(image, copy, _image, lib.fv_image_normalise)


def volume_is_canonical(volume: Buffer, *, copy: bool = True) -> bool:
    """Returns whether a volume is its own canonical image. The data must be exactly that volume."""
    return _found(_U32.size, volume, copy, lib.fv_volume_is_canonical) == _TRUE


def volume_normalise(volume: Buffer, *, copy: bool = True) -> bytes:
    """Returns the canonical image of a volume. The data must be exactly that volume, and the image has its length."""
    return _over(volume, copy, _image, lib.fv_volume_normalise)


def volume_unfix(volume: Buffer, *, copy: bool = True) -> bytes:
    """Returns a copy of a volume in which no file is marked as fixed. The data must be exactly that volume, and the
    copy has its length. The functions that read the files of a volume reject a volume with fixed files (FIXED), but
    accept the copy. The files of nested volumes keep their marks, but volume_tree and the functions after it take these
    away too, if `without_marks` is true. The copy must not be flashed."""
    return _over(volume, copy, _image, lib.fv_volume_unfix)


def volume_digest(volume: Buffer, *, copy: bool = True) -> bytes:
    """Returns the SHA-256 digest of the canonical image of a volume. The data must be exactly that volume."""
    return _found(Digests.layout.size, volume, copy, lib.fv_volume_digest)


def _compare(address: Any, size: int, call: Callable[..., int], first: Buffer, copy: bool, *rest: Any) -> int:
    """Returns the result of a call that compares a first input with some data."""
    return _over(first, copy, call, address, size, *rest)


def volume_compare(first: Buffer, second: Buffer, *, copy: bool = True) -> str | None:
    """Returns None if two volumes have the same meaning. Otherwise returns "different at", the steps down to the first
    difference, and its kind. The `input` of a fault says which volume is rejected. The second volume is read only if
    the first one is accepted."""
    text = bytes(native.DIFFERENCE_SIZE)
    found = _found(_COMPARISON.size, second, copy, _compare, lib.fv_volume_compare, first, copy, text, len(text))
    text_length, same = _COMPARISON.unpack(found)
    return None if same else text[:text_length].decode()


def volume_cells(data: Buffer, *, copy: bool = True) -> Sequence[Cell]:
    """Returns the cells of the volume with which the data begin, in order. Duplicate names, the volume top file and
    sections are not checked."""
    return _over(data, copy, _rows, lib.fv_volume_cells, Cells)


def volume_tree(volume: Buffer, *, without_marks: bool = False, copy: bool = True) -> Sequence[Node]:
    """Returns the whole tree of a volume, in preorder: the volume, its files, their sections and, in the same way, each
    volume that a section holds. All offsets count from the first byte of the data, which must be exactly that volume.
    If `without_marks` is true, the volume is read as if no file at any depth were marked as fixed."""
    return _over(volume, copy, _rows, _with(lib.fv_volume_tree_with, without_marks), Nodes)


def volume_tree_digests(
    volume: Buffer, *, without_marks: bool = False, copy: bool = True
) -> Sequence[bytes | None]:
    """Returns the SHA-256 digest for each row of volume_tree, in the same order. A volume's digest covers its canonical
    image, a file's digest its data in that image, and the digest of a section that holds bytes its body. A section that
    holds sections or a volume has None. `without_marks` is as in volume_tree."""
    return _over(volume, copy, _rows, _with(lib.fv_volume_tree_digests_with, without_marks), Digests)


def _part(address: Any, size: int, call: Any, number: int) -> bytes:
    """Returns the bytes of the part with this number. No part is longer than the input."""
    part, length, fault = new_bytes(size), bytes(_SIZE.size), bytes(FAULT_SIZE)
    if result := call(address, size, number, part, size, length, fault):
        raise error_of(result, fault)
    return part[: _SIZE.unpack(length)[0]]


def _number(row: SupportsIndex) -> int:
    """Returns the number of a row."""
    number = operator.index(row)
    if not 0 <= number < 2**64:  # ctypes would cut it to 64 bits
        raise IndexError(result_text(native.NOT_FOUND))
    return number


def volume_extract(
    volume: Buffer, row: SupportsIndex, *, without_marks: bool = False, copy: bool = True
) -> bytes:
    """Returns the bytes of a part as the canonical image has them. `row` is the number of the part's row in
    volume_tree(volume). A volume's row gives its canonical image, a file's row its data, and a section's row its body.
    Raises IndexError if there is no row with this number. If a volume in the part does not fit (NO_ROOM,
    TOP_ALIGNMENT), the depth of the fault counts only groups and opened volumes inside the part. `without_marks` is as
    in volume_tree; then no file in the result is marked as fixed, and the result must not be flashed."""
    return _over(volume, copy, _part, _with(lib.fv_volume_extract_with, without_marks), _number(row))


def section_way(section: Buffer, *, copy: bool = True) -> Packed:
    """Returns what the header of the packed section with which the data begin says about its contents. Decodes
    nothing. A packed section is a compression section or a GUID-defined section."""
    promised, data_offset, way = _WAY.unpack(_found(_WAY.size, section, copy, lib.fv_section_way))
    return Packed(None if promised == native.NO_LENGTH else promised, data_offset, WAYS.get(way, way))


def _opened(address: Any, size: int, limit: int) -> Opened:
    """Returns the contents of a section. The first buffer has room for what the header promises, if that is not more
    than the section could well hold. Calls again if the buffer is too small."""
    found, fault = bytes(_WAY.size), bytes(FAULT_SIZE)
    if result := lib.fv_section_way(address, size, found, fault):
        raise error_of(result, fault)
    room = min(_WAY.unpack(found)[0], limit, FIRST_CONTENTS + EXPANSION * size)
    found = bytes(_CONTENTS.size)
    while result := lib.fv_section_open(address, size, limit, buffer := new_bytes(room), room, found, fault):
        if result != native.BUFFER_TOO_SMALL:
            raise error_of(result, fault)
        room = _CONTENTS.unpack(found)[0]
    length, way = _CONTENTS.unpack(found)
    return Opened(buffer[:length], WAYS.get(way, way))


def section_open(section: Buffer, limit: SupportsIndex = native.LENGTH_MAX, *, copy: bool = True) -> Opened:
    """Returns the contents of the packed section with which the data begin, and the way that gave them. The contents
    are often a stream of sections, for sections_tree. Raises a FaultError (OPEN_TOO_LONG) if they have more than
    `limit` bytes. No signature is verified."""
    most = operator.index(limit)
    if most < 0:
        raise ValueError("the limit is negative")
    return _over(section, copy, _opened, min(most, 2**63 - 1))


def sections_survey(sections: Buffer, *, copy: bool = True) -> Sequence[SurveyRow]:
    """Surveys a stream of sections, such as the contents of a packed section: returns the rows of the survey, in
    preorder, which account for every byte. Any bytes are accepted. The rows of depth 0 are sections, the filler between
    them, and lost bytes. All else is as for image_survey."""
    return _over(sections, copy, _rows, lib.fv_sections_survey, SurveyRows)


def sections_tree(sections: Buffer, *, without_marks: bool = False, copy: bool = True) -> Sequence[Node]:
    """Returns the whole tree of a stream of sections, in preorder: its sections and, in the same way, what is in groups
    and volumes among them. A stream is what a compressed or GUID-defined section holds when it is opened. Its sections
    have depth 0 and no parent. All offsets count from the first byte of the data, which must be exactly that stream.
    `without_marks` is as in volume_tree."""
    return _over(sections, copy, _rows, _with(lib.fv_sections_tree, without_marks), Nodes)


def sections_tree_digests(
    sections: Buffer, *, without_marks: bool = False, copy: bool = True
) -> Sequence[bytes | None]:
    """Returns the SHA-256 digest for each row of sections_tree, in the same order. The digest covers the bytes that
    sections_extract returns for the row. A section that holds sections or a volume has None. `without_marks` is as in
    volume_tree."""
    return _over(sections, copy, _rows, _with(lib.fv_sections_tree_digests, without_marks), Digests)


def sections_extract(
    sections: Buffer, row: SupportsIndex, *, without_marks: bool = False, copy: bool = True
) -> bytes:
    """Returns the bytes of a part of a stream of sections in canonical form. `row` is the number of the part's row in
    sections_tree(sections). A volume's row gives its canonical image, a file's row its data in that image, and a
    section's row its body. `without_marks` is as in volume_extract. Raises what volume_extract raises."""
    return _over(sections, copy, _part, _with(lib.fv_sections_extract, without_marks), _number(row))


def variables_read(data: Buffer, *, copy: bool = True) -> Sequence[VariableRow]:
    """Reads bytes that may contain variable stores of EDK II, such as the body of a volume whose file system is the
    variable store. Returns rows in the order of their offsets, which account for every byte. No bytes are rejected:
    bytes that cannot be read have a row with a finding. There is at most one row for each byte, and a row takes 104
    bytes of memory."""
    return _over(data, copy, _rows, lib.fv_variables_read, VariableRows)


def signatures_read(data: Buffer, *, copy: bool = True) -> Sequence[VariableRow]:
    """Reads bytes that should be signature lists, such as the data of the variables PK, KEK, db and dbx. Returns rows
    in the order of their offsets, which account for every byte, as `variables_read` does."""
    return _over(data, copy, _rows, lib.fv_signatures_read, VariableRows)


def depex_evaluate(
    expression: Buffer, phase: Phase = Phase.DXE, installed: Iterable[uuid.UUID] = (), *, copy: bool = True
) -> bool | None:
    """Returns the truth value of a dependency expression in a phase if the protocols (or PPIs) with these GUIDs are
    installed. Returns None for BEFORE and AFTER, which have no truth value."""
    names = [it.bytes_le for it in installed]
    if any(len(it) != GUID_SIZE for it in names):
        raise ValueError(f"a GUID has {GUID_SIZE} bytes")
    number = (phase if type(phase) is Phase else Phase(operator.index(phase))).value
    installed_names = number, b"".join(names), len(names)
    return _TRUTHS[_found(_U32.size, expression, copy, lib.fv_depex_evaluate, *installed_names)]


def hobs_read(data: Buffer, *, copy: bool = True) -> HobList:
    """Returns the hand-off list with which the data begin: its blocks, and the number of its bytes."""
    length = bytes(_SIZE.size)
    blocks: Sequence[Hob] = _over(data, copy, _rows, lib.fv_hobs_read, Hobs, length)
    return HobList(blocks, *_SIZE.unpack(length))
