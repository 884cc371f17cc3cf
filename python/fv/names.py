# SPDX-License-Identifier: BSD-2-Clause-Patent
"""Names the types of files and sections as the PI specification does, and GUIDs as EDK II does. Names the bytes outside
of volumes by what they begin with."""

from __future__ import annotations

import functools
import re
import struct
import uuid
from collections.abc import Iterable
from pathlib import Path

from ._native import FileType, SectionType

# Types of files. A pad, the last type, has no name.
RAW_FILE, SECURITY_CORE, PAD_FILE = FileType.RAW, FileType.SECURITY_CORE, FileType.FFS_PAD
FILE_NAMES = """raw, freeform, SEC core, PEI core, DXE core, PEI module, DXE driver, PEI module and DXE driver,
application, MM driver, volume image, MM and DXE driver, MM core, standalone MM driver, standalone MM core"""
FILES: dict[int, str] = dict(zip(FileType, re.split(r",\s", FILE_NAMES)))

# Types of sections.
COMPRESSION, GUIDED, GROUP = SectionType.COMPRESSION, SectionType.GUID_DEFINED, SectionType.DISPOSABLE
PE32, TE, VERSION, UI = SectionType.PE32, SectionType.TE, SectionType.VERSION, SectionType.USER_INTERFACE
VOLUME, SUBTYPE = SectionType.FIRMWARE_VOLUME_IMAGE, SectionType.FREEFORM_SUBTYPE_GUID
CODE = (PE32, SectionType.PIC, TE)
DEPEX = (SectionType.DXE_DEPEX, SectionType.PEI_DEPEX, SectionType.MM_DEPEX)
SECTION_NAMES = """compressed, GUID-defined, group, PE32, PIC, TE, DXE depex, version, UI, 16-bit, volume,
freeform GUID, raw, PEI depex, MM depex"""
SECTIONS: dict[int, str] = dict(zip(SectionType, re.split(r",\s", SECTION_NAMES)))

# The ops of dependency expressions, by their codes. The first three have a GUID.
OPS = ("BEFORE", "AFTER", "PUSH", "AND", "OR", "NOT", "TRUE", "FALSE", "END", "SOR")
OPS_WITH_GUID = OPS[:3]
MOST_OPS = 50  # of an expression that are shown
LONGEST_OP = 17  # bytes: an op and its GUID

# The file systems of volumes, by their GUIDs: of the specification, older ones, and of other firmware.
FILE_SYSTEMS = {
    uuid.UUID("8c8ce578-8a3d-4f1c-9935-896185c32dd3"): "FFS2",
    uuid.UUID("5473c07a-3dcb-4dca-bd6f-1e9689e7349a"): "FFS3",
    uuid.UUID("fff12b8d-7696-4c8b-a985-2747075b4f50"): "variable store",
    uuid.UUID("00504624-8a59-4eeb-bd0f-6b36e96128e0"): "variable store",
    uuid.UUID("7a9354d9-0468-444a-81ce-0bf617d890df"): "FFS1 volume",
    uuid.UUID("04adeead-61ff-4d31-b6ba-64f8bf901f5a"): "volume of Apple",
    uuid.UUID("bd001b8c-6a71-487b-a14f-0c2a2dcf7a5d"): "volume of Apple",
    uuid.UUID("ad3fffff-d28b-44c4-9f13-9ea98a97f9f0"): "volume of Intel",
    uuid.UUID("d6a1cd70-4b33-4994-a6ea-375f2ccc5437"): "volume of Intel",
    uuid.UUID("4f494156-aed6-4d64-a537-b8a5557bceec"): "volume of Sony",
}
# The GUIDs with which capsules begin: the specification's, Intel's, Lenovo's, Toshiba's and AMI's.
CAPSULES = {
    uuid.UUID(it).bytes_le
    for it in """
        3b6686bd-0d76-4030-b70e-b5519e2fc5a0 6dcbd5ed-e82d-4c44-bda1-7194199ad92a 539182b9-abb5-4391-b69a-e3a943f72fcc
        e20bafd3-9914-4f4f-9537-3129e090eb3c 25b5fe76-8243-4a5c-a9bd-7ee3246198b5 3be07062-1d51-45d2-832b-f093257ed461
        4a3ca68b-7723-48fb-803d-578cc1fec44d 14eebb90-890a-43db-aed1-5d3c4588a418
    """.split()
}
DESCRIPTOR, DESCRIPTOR_AT = b"\x5a\xa5\xf0\x0f", 16  # the signature of a flash descriptor, and its place
INTERFACE_TABLE = b"_FIT_   "  # with which a firmware interface table begins
MICROCODE = struct.Struct("<IIIIII")  # header version, update revision, date, processor, checksum, loader revision

# The names that EDK II gives to its files and GUIDs, as lines of a GUID and a name.
EDK2 = Path(__file__).with_name("guids.txt")


def type_name(kind: int, types: dict[int, str]) -> str:
    """Returns the name of a type in a table like those above, or a text with its number."""
    return types.get(kind, f"type {kind:02x}")


class Names:
    """The names of GUIDs in some files. Each file has lines of a GUID and a name. If two lines name one GUID, the later
    line counts. A line that begins with # is a comment."""

    def __init__(self, files: Iterable[Path] = (EDK2,)) -> None:
        self._names: dict[str, str] = {}
        for file in files:
            with open(file, encoding="utf-8", errors="replace") as lines:
                for line in lines:
                    guid, _, name = line.strip().partition(" ")
                    if name and not line.startswith("#"):
                        self._names[guid.lower()] = name.strip()
        # An image may have one expression, or one GUID, in very many sections.
        self._depex = functools.lru_cache(1 << 10)(self._ops)
        self._guid = functools.lru_cache(1 << 14)(self._text)

    def of(self, guid: uuid.UUID | None) -> str:
        """Returns the name of a GUID, or an empty text if none is known."""
        return self._names.get(str(guid), "")

    def _text(self, stored: bytes) -> str:
        """Returns the name of a GUID as stored, or the GUID itself if no name is known."""
        guid = uuid.UUID(bytes_le=stored)
        return self.of(guid) or str(guid)

    def depex(self, expression: bytes) -> str:
        """Returns the ops of a dependency expression with the names of its GUIDs, up to END or the first byte that is
        not an op. After MOST_OPS ops, two dots take the place of the rest."""
        return self._depex(expression[: (MOST_OPS + 1) * LONGEST_OP])

    def _ops(self, expression: bytes) -> str:
        """Returns the text of the first bytes of an expression."""
        words: list[str] = []
        at = ops = 0
        while at < len(expression) and expression[at] < len(OPS):
            ops += 1
            if ops > MOST_OPS:
                words.append("..")
                break
            words.append(OPS[expression[at]])
            guid = expression[at + 1 : at + 17] if words[-1] in OPS_WITH_GUID else b""
            if words[-1] == "END" or 0 < len(guid) < 16:
                break
            if guid:
                words.append(self._guid(guid))
            at += 1 + len(guid)
        return " ".join(words)


def what_begins(head: bytes) -> str:
    """Returns what bytes outside of volumes are, by the first 64 of them, or an empty text if that is not known."""
    if head[DESCRIPTOR_AT : DESCRIPTOR_AT + 4] == DESCRIPTOR:
        return "flash descriptor"
    if head[:16] in CAPSULES:
        return "capsule header"
    if head.startswith(INTERFACE_TABLE):
        return "firmware interface table"
    if len(head) >= MICROCODE.size:
        version, _, date, _, _, loader = MICROCODE.unpack_from(head)
        if version == loader == 1 and date & 0xFFFF in range(0x1990, 0x20A0):
            return "microcode"
    return ""
