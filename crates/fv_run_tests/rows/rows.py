#!/usr/bin/env python3
# SPDX-License-Identifier: BSD-2-Clause-Patent
"""Reads the rows of this folder, and the bytes that they spell. README.md describes the notation. `rows.py WORD..`
writes the bytes that these words spell."""

from __future__ import annotations

import re
import sys
from collections.abc import Iterator
from dataclasses import dataclass
from pathlib import Path

FOLDER = Path(__file__).resolve().parent


def tables(name: str) -> dict[str, list[str]]:
    """Returns the rows of a file, by the heading above them. The rows above the first heading are at ""."""
    found: dict[str, list[str]] = {}
    heading = ""
    for line in (FOLDER / f"{name}.rows").read_text(encoding="utf-8").splitlines():
        match = re.fullmatch(r"\[([a-z ]+)\]", line)
        if match:
            heading = match[1]
        elif line and not line.startswith("#"):
            found.setdefault(heading, []).append(line)
    return found


def parts(row: str) -> tuple[str, str, str]:
    """Returns the three parts of a row NAME: WORDS -> RESULT. The result is empty if there is no arrow."""
    name, _, rest = row.partition(": ")
    words, _, result = rest.partition(" ->")
    return name, words, result.strip()


VOLUMES = tables("volumes")
VOLUMES_READ = tables("read")
NAMED = [*VOLUMES.values(), tables("packed")["names"]]
WORDS = {name: words for rows in NAMED for name, words, _ in map(parts, rows)}
# The GUID of the file system FFS3.
FFS3 = bytes.fromhex("7ac07354cb3dca4dbd6f1e9689e7349a")


def header(name: str) -> bytes:
    """Returns the header with a name: `80` for a volume of 0x80 bytes; `c0+48` with an extended header at 0x48."""
    length, extended = (int(part or "0", 16) for part in name.partition("+")[::2])
    total = (0xF6CE - 2 * length - extended) % 0x10000
    words = "00*16 78e58c8c3d8a1c4f9935896185c32dd3 {0} 5f465648 fffe0400 4800{1} {3:02x}000002 01000000 {2} 00*8"
    numbers = [number.to_bytes(size, "little").hex() for number, size in ((length, 8), (total, 2), (length, 4))]
    return spelled(words.format(*numbers, extended))


def spelled(text: str) -> bytes:
    """Returns the bytes that words spell: hexadecimal digits, which a star and a number repeat, headers as `<80>`, and
    names of volumes.rows and packed.rows."""
    found = []
    for word in text.split():
        digits, _, count = word.partition("*")
        if word in WORDS:
            found.append(spelled(WORDS[word]))
        elif word[0] == "<":
            found.append(header(word[1:-1]))
        else:
            found.append(bytes.fromhex(digits) * int(count or 1))
    return b"".join(found)


def images() -> list[tuple[str, str]]:
    """Returns the volumes that have a canonical image: the name of each, and words that spell the image."""
    return [(name, image or name) for name, _, image in map(parts, VOLUMES["volumes"] + VOLUMES["long"])]


def volume_of(files: bytes, system: int = 2, erased: int = 0xFF) -> bytes:
    """Returns a volume of these files in the file system, with erased bytes after them up to a multiple of 8."""
    size = (72 + len(files) + 7) // 8 * 8
    head = bytearray(spelled("H72"))
    head[16:32] = head[16:32] if system == 2 else FFS3
    head[45] = 0xFE if erased else 0xF6
    head[32:36] = head[60:64] = size.to_bytes(4, "little")
    head[50:52] = bytes(2)
    total = sum(int.from_bytes(head[at : at + 2], "little") for at in range(0, 72, 2))
    head[50:52] = (-total % 0x10000).to_bytes(2, "little")
    return bytes(head + files).ljust(size, bytes([erased]))


def file_of(kind: int, data: bytes, name: bytes = bytes([0x0A] * 16)) -> bytes:
    """Returns a file of this type, with these data and this name."""
    size = (24 + len(data)).to_bytes(3, "little")
    total = sum(name) + kind + sum(size)
    return name + bytes([-total % 256, 0xAA, kind, 0]) + size + b"\xf8" + data


def full_volume(count: int) -> bytes:
    """Returns a volume of `count` files without data, each named by its number, and nothing else. It is its own
    image."""
    return volume_of(b"".join(file_of(1, b"", number.to_bytes(16, "little")) for number in range(count)))


def expression_volume(phase: str, data: bytes) -> bytes:
    """Returns a volume with one file, in which one section contains the expression of a phase. It is its own image."""
    section = (4 + len(data)).to_bytes(3, "little") + bytes([{"pei": 0x1B, "dxe": 0x13}[phase]]) + data
    return volume_of(file_of(7, section))


def is_stream(kind: int) -> bool:
    """Returns whether the data of a file of this type are sections."""
    return kind == 2 or 4 <= kind <= 15


def read(table: str) -> Iterator[tuple[str, bytes, str]]:
    """Returns the rows of a table of `read`: each with the bytes that its words spell, and its result."""
    for row in VOLUMES_READ[table]:
        words, _, result = row.partition(" -> ")
        yield row, spelled(words.rpartition(": ")[2]), result


@dataclass(frozen=True)
class Section:
    """A section of a stream: its offset, its type, its form (`short` or `extended`) and its body."""

    at: int
    kind: int
    form: str
    body: bytes


def stream(row: str) -> tuple[bytes, int, list[Section]]:
    """Returns the bytes of a row of the right streams, how many of them follow the last section, and the sections."""
    words, _, result = row.partition(" -> ")
    tail, *sections = result.split(", ")
    found: list[Section] = []
    for section in sections:
        at, kind, form, body = (section + " ").split(" ", 3)
        found.append(Section(int(at), int(kind, 16), form, spelled(body)))
    return spelled(words), int(tail), found


def long_stream() -> tuple[bytes, int, list[Section]]:
    """Returns a stream of 1000 sections, in the same form as `stream`. The sections have 8, 7, 6 and 5 bytes in turn.
    A body begins with the number of its section, or is the low byte of this number if the body has one byte."""
    data = b""
    found: list[Section] = []
    for number in range(1000):
        body = (number.to_bytes(2, "little") + b"\xee\xee")[: 4 - number % 4]
        found.append(Section(len(data), 0x19, "short", body))
        data += bytes([4 + len(body), 0, 0, 0x19]) + body.ljust(4, b"\xee")
    return data, 3, found


def bodies(row: str) -> list[bytes]:
    """Returns the volumes whose body a row of `bodies` spells, one for each of its file systems."""
    name, words, _ = parts(row)
    *systems, erased = name.partition(",")[0].split()
    return [volume_of(spelled(words), int(it), int(erased, 16)) for it in systems]


def rejected(row: str) -> Iterator[tuple[str, bytes, tuple[int, ...] | None]]:
    """Returns what a row of `parts` rejects: `pei`, `dxe`, `hobs` or `head`, the bytes, and the number and the offset
    of the fault. The fault is None if the bytes are accepted."""
    name, words, fault = parts(row)
    kind, *ends = name.split()
    data = spelled(words)
    first, last = map(int, ends) if ends else (len(data), len(data))
    for count in range(first, last + 1):
        yield kind, data[:count], tuple(map(int, fault.split())) or None


if __name__ == "__main__":
    sys.stdout.buffer.write(spelled(" ".join(sys.argv[1:])))
