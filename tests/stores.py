# SPDX-License-Identifier: BSD-2-Clause-Patent
"""Makes variable stores of EDK II (VariableFormat.h), and the signature lists of its keys (UEFI specification, section
32.4.1)."""

import struct
import uuid

from tests import making

# The signatures of stores and of the working block, and the file system of the volume that contains them.
PLAIN = uuid.UUID("ddcf3616-3275-4164-98b6-fe85707ffe7d")
AUTHENTICATED = uuid.UUID("aaf32c78-947b-439a-a180-2e144ec37792")
WORKING_BLOCK = uuid.UUID("9e58292b-7c68-497d-a0ce-6500fd9f1b95")
SYSTEM = uuid.UUID("fff12b8d-7696-4c8b-a985-2747075b4f50")
# Vendors, and the types of signatures.
GLOBAL = uuid.UUID("8be4df61-93ca-11d2-aa0d-00e098032b8c")
DATABASE = uuid.UUID("d719b2cb-3d3a-4596-a3bc-dad00e67656f")
X509 = uuid.UUID("a5c059a1-94e4-4aa7-87b5-ab155c2bf072")
SHA256 = uuid.UUID("c1c41626-504c-4092-aca9-41f936934328")
# State of a variable.
ADDED, REPLACED, DELETED, HEADER_ONLY = 0x3F, 0x3E, 0x3C, 0x7F
# The header of a plain variable that was never finished.
UNFINISHED = struct.pack("<H", 0x55AA) + b"\xff" * 30
# The fields of an authenticated variable: MonotonicCount 7, 2024-05-06 07:08:09, PubKeyIndex 3.
FIELDS = struct.pack("<QHBBBBB9xI", 7, 2024, 5, 6, 7, 8, 9, 3)


def variable(
    name: str | bytes, data: bytes, vendor: uuid.UUID = GLOBAL, state: int = ADDED, attributes: int = 7, fields: bytes = b""
) -> bytes:
    """Returns a variable, and the filler after it. `fields` has what only an authenticated variable has."""
    name = f"{name}\0".encode("utf-16-le", "surrogatepass") if isinstance(name, str) else name
    head = struct.pack("<HBxI", 0x55AA, state, attributes) + fields + struct.pack("<II", len(name), len(data))
    whole = head + vendor.bytes_le + name + data
    return whole + b"\xff" * (-len(whole) % 4)


def store(
    *variables: bytes, length: int = 0x400, kind: uuid.UUID = PLAIN, formatted: int = 0x5A, size: int | None = None
) -> bytes:
    """Returns a store with these variables, and free space after them."""
    head = kind.bytes_le + struct.pack("<IBBHI", length if size is None else size, formatted, 0xFE, 0, 0)
    return (head + b"".join(variables)).ljust(length, b"\xff")


def signature_list(kind: uuid.UUID, owner: uuid.UUID, *data: bytes) -> bytes:
    """Returns a signature list. All data have the same length."""
    each = 16 + len(data[0])
    body = b"".join(owner.bytes_le + it for it in data)
    return kind.bytes_le + struct.pack("<III", 28 + len(body), 0, each) + body


def working_block(queue: int = 0, promised: int | None = None) -> bytes:
    """Returns the working block of the fault tolerant write driver, with a queue of this length."""
    head = struct.pack("<IIQ", 0, 0xFFFFFFFE, queue if promised is None else promised)
    return WORKING_BLOCK.bytes_le + head + b"\xff" * queue


def volume(*parts: bytes, length: int = 0x1000) -> bytes:
    """Returns a volume whose body begins with these parts."""
    return making.volume(parts, length, system=SYSTEM.bytes_le)
