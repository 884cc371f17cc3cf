#!/usr/bin/env python3
# SPDX-License-Identifier: BSD-2-Clause-Patent
"""An example for Python programs: lists the drivers and other files of a flash image, also those in compressed sections.
Each line has the type of a file (07 is a driver, 06 a PEIM) and its name, or its GUID if it has no name. Files that are
marked as fixed, as in images for ARM, are read without their marks.
    python3 drivers.py IMAGE"""

import sys
from collections.abc import Iterable, Iterator

import fv

PACKED = fv.SectionType.COMPRESSION, fv.SectionType.GUID_DEFINED
MOST_OPEN, MOST_CONTENTS = 4, 1 << 26


def parts(rows: Iterable[fv.Node], data: bytes, most_open: int) -> Iterator[tuple[fv.Node, bytes]]:
    """Yields the rows of a volume or of a stream of sections, and the bytes of each. After the row of a packed section
    come the rows of its contents."""
    for row in rows:
        yield row, data[row.offset : row.offset + row.length]
        if row.kind is fv.NodeKind.SECTION and row.efi_type in PACKED and most_open:
            section = data[row.offset - row.header_length : row.offset + row.length]
            try:
                contents = fv.section_open(section, MOST_CONTENTS).contents
                inside = fv.sections_tree(contents, without_marks=True)
            except fv.FaultError:
                continue
            yield from parts(inside, contents, most_open - 1)


def name_in(text: bytes) -> str:
    """Returns the name in a section, whose characters have two bytes each."""
    name = text.decode("utf-16-le", "replace").partition("\0")[0]
    return "".join(it if " " <= it <= "~" else "?" for it in name)


def files(image: bytes) -> Iterator[str]:
    """Yields the lines of the files."""
    last = None
    for header in fv.image_scan(image):
        volume = image[header.offset : header.offset + header.length]
        try:
            rows = fv.volume_tree(volume, without_marks=True)
        except fv.FaultError:
            continue
        for row, data in parts(rows, volume, MOST_OPEN):
            if row.kind is fv.NodeKind.FILE:
                if last:
                    yield f"{last.efi_type:02x} {last.guid}"
                last = row
            elif row.kind is fv.NodeKind.SECTION and row.efi_type == fv.SectionType.USER_INTERFACE and last:
                yield f"{last.efi_type:02x} {name_in(data)}"
                last = None
    if last:
        yield f"{last.efi_type:02x} {last.guid}"


def main() -> int:
    """Reads the argument, and prints the lines."""
    if len(sys.argv) != 2:
        print("usage: drivers IMAGE", file=sys.stderr)
        return 2
    with open(sys.argv[1], "rb") as file:
        image = file.read()
    for line in files(image):
        print(line)
    return 0


if __name__ == "__main__":
    sys.exit(main())
