# SPDX-License-Identifier: BSD-2-Clause-Patent
"""What the tests of the package for Python share: the outcomes of calls, and the inputs."""

import functools
import uuid
from collections.abc import Callable
from dataclasses import dataclass
from typing import Any

import fv
import rows
from tests import making
from tests.fuzz.cases import make_case

Call = Callable[..., Any]
# The calls whose only argument is a volume, a stream of sections, a packed section, or an image. (A second argument of
# section_open is a limit.)
OF_VOLUME: tuple[Call, ...] = (
    *(fv.volume_is_canonical, fv.volume_normalise, fv.volume_unfix, fv.volume_digest, fv.volume_cells),
    *(fv.volume_tree, fv.volume_tree_digests),
)
OF_SECTIONS: tuple[Call, ...] = (fv.sections_tree, fv.sections_tree_digests, fv.sections_survey)
OF_SECTION: tuple[Call, ...] = (fv.section_way, fv.section_open)
OF_IMAGE: tuple[Call, ...] = (
    *(fv.image_scan, fv.image_check, fv.image_normalise, fv.image_survey, fv.variables_read, fv.signatures_read),
)  # fmt: skip


def outcome(call: Call, *arguments: Any, **named: Any) -> Any:
    """Returns the result of a call, or the fault that it raises."""
    try:
        return call(*arguments, **named)
    except fv.FaultError as error:
        return error.fault


def place(call: Call, *arguments: Any) -> Any:
    """Returns the result of a call, or the number, the offset and the depth of the fault that it raises."""
    found = outcome(call, *arguments)
    return (found.number, found.offset, found.depth) if isinstance(found, fv.Fault) else found


def raised(call: Call, *arguments: Any, **named: Any) -> Any:
    """Returns the exception that a call raises."""
    try:
        call(*arguments, **named)
    except Exception as error:
        return error
    return None


def grouped(size: int = 9) -> bytes:
    """Returns a volume of one file and 16 free bytes, written by hand. The file has a version section with an extended
    header, a group, and a section. The first section in the group has this size in its header; 9 is right."""
    data = f"ffffff140e000000 070076003100 0000 14000003 {size:02x}000019 a1a2a3a4a5 000000 04000003 07000019 b1b2b3 00"
    file = making.file(uuid.UUID(bytes_le=bytes(range(11, 27))), rows.spelled(data), making.FREEFORM, making.SUMMED)
    return rows.spelled("<a0>") + file + b"\xff" * 16


@functools.cache
def made() -> dict[str, bytes]:
    """Returns inputs by their names: made images, inputs of the fuzzer (which are valid, nearly valid and broken), an
    image of two volumes, a volume that was written by hand, and no bytes."""
    found = {name: make() for name, make in making.IMAGES.items()}
    found |= {f"input {number} of the fuzzer": make_case(7, number).data for number in range(60)}
    empty = rows.spelled("empty")
    return found | {"two volumes": bytes(64) + empty + bytes(8) + empty, "grouped": grouped(), "no bytes": b""}


def streams(data: bytes) -> list[tuple[int, fv.Node]]:
    """Returns the rows of a volume whose parts hold sections, and their numbers: files of types that hold sections, and
    groups. There are none if the data are not a volume."""
    nodes = outcome(fv.volume_tree, data)
    return [] if isinstance(nodes, fv.Fault) else [it for it in enumerate(nodes) if it[1].content == fv.Content.SECTIONS]


@dataclass(frozen=True)
class Packing:
    """A packed section, the way that its header gives, the way that gives its contents, the offset of its data, the
    length that its header promises, and whether the stream begins after four bytes. The contents are CONTENTS."""

    section: bytes
    says: fv.Way
    way: fv.Way
    data_offset: int
    promised: int | None
    is_after_four: bool = False


# The contents of packed sections: a section of text, and one with calls of x86 code.
CONTENTS = making.stream(
    making.ui("Packed"), making.section(making.PE32, b"\x90\xe8\x10\x20\0\0" * 50 + making.noise("packed", 500))
)
SIGNED = uuid.UUID("a7717414-c616-4977-9420-844712a735bf"), uuid.UUID("0f9d89e8-9259-4f76-a5af-0c89e34023df")
HP = uuid.UUID("0ed85e23-f253-413f-a03c-901987b04397")


@functools.cache
def packings() -> list[Packing]:
    """Returns a packed section of each way. liblzma, zlib and tests/making.py have made them."""
    data, length, way = CONTENTS, len(CONTENTS), fv.Way
    lzma, code = making.compressed(data)[24:], making.compressed_code(data)
    uefi, tiano = making.packed_by_tiano(data, 4), making.packed_by_tiano(data, 5)
    known = lzma[:5] + length.to_bytes(8, "little") + lzma[13:]  # the stream, with the length of its contents
    return [
        Packing(making.compression(data), way.STORED, way.STORED, 9, length),
        Packing(making.compression(data, 5), way.STORED, way.STORED, 9, 5),
        Packing(making.compression(uefi, length, 1), way.STANDARD, way.UEFI, 9, length),
        Packing(making.compression(tiano, length, 1), way.STANDARD, way.TIANO, 9, length),
        Packing(making.compression(lzma, length, 2), way.CUSTOMIZED, way.LZMA, 9, length),
        Packing(making.compression(b"\xff\0\0\0" + lzma, length, 2), way.CUSTOMIZED, way.LZMA, 9, length, True),
        Packing(making.compression(code[24:], length, 0x86), way.LZMA_X86, way.LZMA_X86, 9, length),
        Packing(making.guided(making.TIANO, tiano), way.TIANO, way.TIANO, 24, length),
        Packing(making.compressed(data), way.LZMA, way.LZMA, 24, None),
        Packing(making.guided(making.LZMA, known), way.LZMA, way.LZMA, 24, length),
        Packing(making.guided(HP, lzma, 1, b"field"), way.LZMA, way.LZMA, 29, None),
        Packing(code, way.LZMA_X86, way.LZMA_X86, 24, None),
        Packing(making.checked(data), way.CRC32, way.CRC32, 28, length),
        Packing(making.guided(SIGNED[0], data, 3, b"signature"), way.SIGNED, way.SIGNED, 33, length),
        Packing(making.guided(SIGNED[1], data, 3), way.SIGNED, way.SIGNED, 24, length),
        Packing(making.guided(making.UNKNOWN, data, 0), way.PLAIN, way.PLAIN, 24, length),
    ]


def closed() -> list[tuple[bytes, fv.FaultCode, int]]:
    """Returns bytes that are not opened, the fault, and its offset."""
    code, lzma = fv.FaultCode, making.compressed(CONTENTS)
    return [
        (b"", code.OPEN_SHORT, 0),
        (lzma[:-1], code.OPEN_SHORT, 0),
        (making.section(making.COMPRESSION, bytes(4)), code.OPEN_SHORT, 8),
        (making.section(making.GUIDED, bytes(19)), code.OPEN_SHORT, 23),
        (lzma[:20] + b"\x17" + lzma[21:], code.OPEN_SHORT, 20),
        (making.section(making.RAW, CONTENTS), code.OPEN_WAY, 3),
        (making.compression(CONTENTS, None, 3), code.OPEN_WAY, 8),
        (making.guided(making.UNKNOWN, CONTENTS), code.OPEN_WAY, 4),
        (making.guided(making.LZMA, b"\xff" * 40), code.OPEN_DAMAGED, 24),
        (making.checked(CONTENTS, 1), code.OPEN_SUM, 24),
    ]


def volume_of(stream: bytes) -> bytes:
    """Returns a volume of one file, whose data are these sections, without free space."""
    return rows.volume_of(rows.file_of(2, stream))
