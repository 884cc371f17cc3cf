# SPDX-License-Identifier: BSD-2-Clause-Patent
"""The constants, formats and calls of fv.h, for ctypes and struct.

Made from fv.h by libfv/generate: change fv.h, and run libfv/generate."""

from __future__ import annotations

import ctypes as c
import enum
from typing import Any

VERSION = "2.1.0-dev"
VERSION_MAJOR = 2
VERSION_MINOR = 1
VERSION_PATCH = 0
VERSION_NUMBER = 0x020100
LENGTH_MAX = 268435456
CONTENTS_MAX = 1073741824
DIFFERENCE_SIZE = 553
GUID_TEXT_SIZE = 37
NO_PARENT = 2**64 - 1
NO_LENGTH = 2**64 - 1

# The results of calls, except the faults.
OK = 0
OUT_OF_MEMORY = 24
BUFFER_TOO_SMALL = 0x100
NOT_FOUND = 0x101
BAD_ARGUMENT = 0x102
BAD_GUID = 0x103

# The flags of the calls fv_volume_*_with and fv_sections_*; 0 sets no flag. With FV_WITHOUT_MARKS a call makes a copy
# of its input, takes the marks of fixed files away as fv_volume_unfix does, but also in the volumes in sections, and
# reads this copy. So fault 15 does not occur. Nothing is moved: an offset in the copy is the same offset in the
# input. The attributes of a file are without bit 0x04. Digests cover bytes of the copy, and extracted bytes come from
# the copy. The extracted bytes are for reading, comparing and archiving, and must not be flashed.
WITHOUT_MARKS = 1

# The value of a dependency expression. BEFORE and AFTER only say in which order drivers run, and have no truth value:
# FV_DEPEX_ORDER.
DEPEX_FALSE = 0
DEPEX_TRUE = 1
DEPEX_ORDER = 2

# The formats by which struct unpacks the structures, without reserved fields.
GUID_FORMAT = "=16s"
SHA256_FORMAT = "=32s"
FAULT_FORMAT = "=QIII4x"
HEADER_FORMAT = "=QQQIIII16s8x"
VOLUME_CHECK_FORMAT = "=QQQIII4xI4x"
SURVEY_ROW_FORMAT = "=QQIIIII16s4x"
VARIABLE_ROW_FORMAT = "=QQQIIIIIIIIIIII16s16s"
COMPARISON_FORMAT = "=QI4x"
CELL_FORMAT = "=QQIIII16s8x"
NODE_FORMAT = "=QQQQIIIIII16sI12x"
HOB_FORMAT = "=QQII8x"
WAY_FORMAT = "=QQI4x"
CONTENTS_FORMAT = "=QI4x"
PACKED_FORMAT = "=QQQQQIII4xIII4x"
PART_PLACE_FORMAT = "=QQQI4x"
SAMENESS_FORMAT = "=QQQI4xQQQI4xI4x"

_pointer, _size, _u32, _text = c.c_void_p, c.c_void_p, c.c_uint32, c.c_char_p
# The type of the result and the types of the parameters of each call. A pointer is an address or bytes. Two things
# save time: c_void_p takes a number of 64 bits sooner than c_size_t does, and the last pointers have no type,
# because they are always bytes.
CALLS: dict[str, tuple[Any, list[Any]]] = {
    "fv_version_number": (_u32, []),
    "fv_version": (_text, []),
    "fv_result_text": (_text, [_u32]),
    "fv_header_read": (_u32, [_pointer, _size]),
    "fv_image_scan": (_u32, [_pointer, _size, _pointer, _size]),
    "fv_image_check": (_u32, [_pointer, _size, _pointer, _size]),
    "fv_image_normalise": (_u32, [_pointer, _size, _pointer, _size]),
    "fv_image_survey": (_u32, [_pointer, _size, _pointer, _size]),
    "fv_image_open": (_u32, [_pointer, _size, _size, _pointer]),
    "fv_image_close": (None, [_pointer]),
    "fv_image_source_count": (_size, [_pointer]),
    "fv_image_source_bytes": (_pointer, [_pointer, _size]),
    "fv_image_source_rows": (_pointer, [_pointer, _size]),
    "fv_image_packed": (_pointer, [_pointer]),
    "fv_image_same": (_u32, [_pointer, _size, _pointer, _size, _size]),
    "fv_volume_is_canonical": (_u32, [_pointer, _size]),
    "fv_volume_normalise": (_u32, [_pointer, _size, _pointer, _size]),
    "fv_volume_unfix": (_u32, [_pointer, _size, _pointer, _size]),
    "fv_volume_digest": (_u32, [_pointer, _size]),
    "fv_volume_compare": (_u32, [_pointer, _size, _pointer, _size, _pointer, _size]),
    "fv_volume_cells": (_u32, [_pointer, _size, _pointer, _size]),
    "fv_volume_tree": (_u32, [_pointer, _size, _pointer, _size]),
    "fv_volume_tree_with": (_u32, [_pointer, _size, _u32, _pointer, _size]),
    "fv_volume_tree_digests": (_u32, [_pointer, _size, _pointer, _size]),
    "fv_volume_tree_digests_with": (_u32, [_pointer, _size, _u32, _pointer, _size]),
    "fv_volume_extract": (_u32, [_pointer, _size, _size, _pointer, _size]),
    "fv_volume_extract_with": (_u32, [_pointer, _size, _u32, _size, _pointer, _size]),
    "fv_section_way": (_u32, [_pointer, _size]),
    "fv_section_open": (_u32, [_pointer, _size, _size, _pointer, _size]),
    "fv_sections_survey": (_u32, [_pointer, _size, _pointer, _size]),
    "fv_sections_tree": (_u32, [_pointer, _size, _u32, _pointer, _size]),
    "fv_sections_tree_digests": (_u32, [_pointer, _size, _u32, _pointer, _size]),
    "fv_sections_extract": (_u32, [_pointer, _size, _u32, _size, _pointer, _size]),
    "fv_variables_read": (_u32, [_pointer, _size, _pointer, _size]),
    "fv_signatures_read": (_u32, [_pointer, _size, _pointer, _size]),
    "fv_depex_evaluate": (_u32, [_pointer, _size, _u32, _pointer, _size]),
    "fv_hobs_read": (_u32, [_pointer, _size, _pointer, _size]),
}


class FaultCode(enum.IntEnum):
    """The codes of the faults. docs/FAULTS.md explains each fault. The codes from 0x200 on are faults of dependency
    expressions, those from 0x300 on are faults of hand-off lists, and those from 0x400 on are faults of sections that
    are opened."""

    TRUNCATED = 1
    SIGNATURE = 2
    FILE_SYSTEM = 3
    REVISION = 4
    HEADER_LENGTH = 5
    HEADER_SUM = 6
    BLOCK_MAP = 7
    LENGTH = 8
    EXT_HEADER = 9
    FILE_STATE = 10
    FILE_HEADER_SUM = 11
    FILE_SIZE = 12
    LARGE_FILE = 13
    FILE_SUM = 14
    FIXED = 15
    FREE_SPACE = 16
    DUPLICATE_NAME = 17
    TOP_FILE = 18
    SECTION_SIZE = 19
    SECTION_TAIL = 20
    DEPTH = 21
    NO_ROOM = 22
    TOP_ALIGNMENT = 23
    DEPEX_SHORT = 0x201
    DEPEX_OPCODE = 0x202
    DEPEX_STACK = 0x203
    DEPEX_NO_END = 0x204
    DEPEX_POSITION = 0x205
    HOB_SHORT = 0x301
    HOB_LENGTH = 0x302
    HOB_FIRST = 0x303
    HOB_SHAPE = 0x304
    HOB_NO_END = 0x305
    OPEN_SHORT = 0x401
    OPEN_WAY = 0x402
    OPEN_DAMAGED = 0x403
    OPEN_SUM = 0x404
    OPEN_TOO_LONG = 0x405


class CellKind(enum.IntEnum):
    """The kinds of cells of a volume's body: a valid file, even if it is superseded; a pad file; a deleted file; a file
    whose data or header were never finished; erased bytes up to the end of the volume. The state of the file decides
    between deleted and unfinished."""

    FILE = 1
    PAD = 2
    DELETED = 3
    UNFINISHED = 4
    FREE = 5


class NodeKind(enum.IntEnum):
    """The kinds of rows of a tree."""

    VOLUME = 1
    FILE = 2
    SECTION = 3


class Content(enum.IntEnum):
    """The kinds of contents of a row's part: a volume holds files; a file holds bytes or sections; a section holds
    bytes, sections (it is a group) or a volume. The type of a file decides: it holds sections if the type is 0x02 or
    0x04 to 0x0F, and bytes otherwise, also for a security core (0x03). A file of these types, or a group, holds
    sections even if it has no bytes: then no row is below its row."""

    FILES = 0
    BYTES = 1
    SECTIONS = 2
    VOLUME = 3


class RowKind(enum.IntEnum):
    """The kinds of rows of a survey. The rows of the first four kinds contain other rows: a volume; a file, a pad or a
    deleted file, with the filler after it; a section; and lost bytes, which should be a part of a volume and cannot be
    read as one, with the volumes that are found among them. All other rows are leaf rows: the header of a volume with
    its block map, the extended header of a volume, the header of a file, the header of a section; data of a file that
    are not read as sections; the body of a section that is not opened, which is RowKind.PACKED for a compression or
    GUID-defined section; the erased bytes of a pad, and other bytes of a pad; the data of a file that was deleted or
    never finished; a header that was never finished; erased bytes where a file would begin; bytes between two parts;
    bytes between the header of a volume and its extended header; bytes outside of volumes; the contents of a volume
    with a file system that holds no files, such as a variable store; and bytes that should be a part of a volume and
    cannot be read."""

    VOLUME = 1
    FILE = 2
    SECTION = 3
    LOST = 4
    VOLUME_HEADER = 5
    EXT_HEADER = 6
    FILE_HEADER = 7
    SECTION_HEADER = 8
    DATA = 9
    BODY = 10
    PACKED = 11
    PAD = 12
    PAD_DATA = 13
    DEAD = 14
    STUB = 15
    FREE = 16
    FILLER = 17
    BETWEEN = 18
    GAP = 19
    STORE = 20
    UNREAD = 21


class FileType(enum.IntEnum):
    """The types of files, with the names of the specification after EFI_FV_FILETYPE_. A file may have any other type
    too: 0xC0 to 0xDF are for vendors, and 0xE0 to 0xEF for debugging."""

    RAW = 0x01
    FREEFORM = 0x02
    SECURITY_CORE = 0x03
    PEI_CORE = 0x04
    DXE_CORE = 0x05
    PEIM = 0x06
    DRIVER = 0x07
    COMBINED_PEIM_DRIVER = 0x08
    APPLICATION = 0x09
    MM = 0x0A
    FIRMWARE_VOLUME_IMAGE = 0x0B
    COMBINED_MM_DXE = 0x0C
    MM_CORE = 0x0D
    MM_STANDALONE = 0x0E
    MM_CORE_STANDALONE = 0x0F
    FFS_PAD = 0xF0


class SectionType(enum.IntEnum):
    """The types of sections, with the names of the specification after EFI_SECTION_. A section may have any other type
    too."""

    COMPRESSION = 0x01
    GUID_DEFINED = 0x02
    DISPOSABLE = 0x03
    PE32 = 0x10
    PIC = 0x11
    TE = 0x12
    DXE_DEPEX = 0x13
    VERSION = 0x14
    USER_INTERFACE = 0x15
    COMPATIBILITY16 = 0x16
    FIRMWARE_VOLUME_IMAGE = 0x17
    FREEFORM_SUBTYPE_GUID = 0x18
    RAW = 0x19
    PEI_DEPEX = 0x1B
    MM_DEPEX = 0x1C


class PartKind(enum.IntEnum):
    """What a row of variable stores or of signature lists is about: the header of a variable store; a variable, with
    its header, its name and its data; the header of a variable that was never finished; the bytes from the end of a
    variable to the next multiple of 4; erased bytes, which are 0xFF; the working block of the fault tolerant write
    driver, with its queue; the header of a signature list; a signature, with its owner; and bytes that cannot be
    read."""

    STORE_HEADER = 1
    VARIABLE = 2
    UNFINISHED = 3
    FILLER = 4
    FREE = 5
    WORKING_BLOCK = 6
    LIST_HEADER = 7
    SIGNATURE = 8
    UNREAD = 9


class Finding(enum.IntEnum):
    """The finding of a row of variable stores or of signature lists. Finding.STORE_SIZE: Size of a store is not
    possible, so the store is read up to the end of the bytes. Finding.STORE_STATE: EDK II does not use the store,
    because Format is not 0x5A or State is not 0xFE. Finding.START_ID: the rest of a store does not begin with StartId,
    and is not erased. Finding.VARIABLE_SIZE: the rest of a store has no room for the variable with which it begins.
    Finding.QUEUE_SIZE: WriteQueueSize of a working block is not possible. Finding.NO_STORE: the bytes are outside of
    stores, and are not erased. Finding.LIST_SIZE: the sizes of a signature list are not possible, so no further list is
    read. Finding.SIGNATURE_SIZE: the rest of a signature list has no room for a signature."""

    STORE_SIZE = 1
    STORE_STATE = 2
    START_ID = 3
    VARIABLE_SIZE = 4
    QUEUE_SIZE = 5
    NO_STORE = 6
    LIST_SIZE = 7
    SIGNATURE_SIZE = 8


class StoreFormat(enum.IntEnum):
    """The formats of the variables of a store: VARIABLE_HEADER, of 32 bytes, or AUTHENTICATED_VARIABLE_HEADER, of
    60."""

    PLAIN = 1
    AUTHENTICATED = 2


class VariableStatus(enum.IntEnum):
    """What State of a variable says. VariableStatus.ADDED (0x3F): the variable is there. VariableStatus.REPLACED
    (0x3E): it is about to be replaced, and is there as long as no other variable with its name and vendor is added.
    VariableStatus.DELETED (0x3D or 0x3C): it was deleted. VariableStatus.HEADER_ONLY (0x7F): only its header was
    written in full. VariableStatus.OTHER: any other byte."""

    ADDED = 1
    REPLACED = 2
    DELETED = 3
    HEADER_ONLY = 4
    OTHER = 5


class Phase(enum.IntEnum):
    """The phase in which a dependency expression is evaluated. Phase.DXE is for DXE and for MM."""

    PEI = 0
    DXE = 1


class Way(enum.IntEnum):
    """The ways to open a packed section, which is a section of type 0x01 (compression) or 0x02 (GUID-defined). The
    contents are as they are in the section with Way.STORED (CompressionType 0); with Way.CRC32, after their CRC32 (the
    GUID fc1bcdb0-7d31-49aa-936a-a4600d9dd083); with Way.SIGNED, after a signature that is not verified (the GUID
    0f9d89e8-9259-4f76-a5af-0c89e34023df or, with RSA 2048 and SHA-256, a7717414-c616-4977-9420-844712a735bf); and with
    Way.PLAIN (any other GUID, if bit 0x01 of Attributes is clear). They are decoded with Way.UEFI, the compression of
    the UEFI specification; with Way.TIANO, Tiano's form of it (a31280ad-481e-41b6-95e8-127f4c984779); with Way.LZMA
    (ee4e5898-3914-4259-9d6e-dc7bd79403cf, or 0ed85e23-f253-413f-a03c-901987b04397); and with Way.LZMA_X86 LZMA of x86
    code (CompressionType 0x86, or d42ae6bd-1352-4bfb-909a-ca72a6eae889). Way.STANDARD (CompressionType 1) is Way.UEFI
    or Way.TIANO, of which only decoding shows which. Way.CUSTOMIZED (CompressionType 2) is Way.LZMA, maybe after four
    other bytes. These two are what a header says, and no contents have them."""

    STORED = 1
    STANDARD = 2
    UEFI = 3
    TIANO = 4
    CUSTOMIZED = 5
    LZMA = 6
    LZMA_X86 = 7
    CRC32 = 8
    SIGNED = 9
    PLAIN = 10


class Reason(enum.IntEnum):
    """Why a packed section of an image is not opened: it has a fault; 8 opened sections are around it; or nothing is
    left of the number of bytes that may be opened."""

    FAULT = 1
    DEPTH = 2
    LIMIT = 3
