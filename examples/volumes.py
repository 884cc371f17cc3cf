#!/usr/bin/env python3
# SPDX-License-Identifier: BSD-2-Clause-Patent
"""An example for Python programs: lists the volumes of a flash image with their files and bytes of data, and reports
whether all of the volumes are canonical.

    LIBFV=libfv/out/libfv.so.2 PYTHONPATH=python examples/volumes.py IMAGE"""

from __future__ import annotations

import sys

import fv


def show(image: bytes) -> None:
    """Prints a line for each volume of a flash image, and a line that says whether all of them are canonical."""
    view = memoryview(image)  # libfv reads its slices in place
    for header in fv.image_scan(image):
        try:
            nodes = fv.volume_tree(view[header.offset : header.offset + header.length])
        except fv.FaultError as error:
            print(f"volume at {header.offset}: {error.fault.text}")
        else:
            sizes = [node.length for node in nodes if node.depth == 1]  # of the files of the volume
            print(f"volume at {header.offset}: {len(sizes)} files, {sum(sizes)} bytes of data")
    try:
        print("canonical" if fv.image_normalise(image) == image else "not canonical")
    except fv.FaultError as error:
        print(error.fault.text)


def main() -> int:
    """Reads the image that the arguments name, and returns the exit status."""
    if len(sys.argv) != 2:
        print("usage: volumes IMAGE", file=sys.stderr)
        return 2
    try:
        with open(sys.argv[1], "rb") as file:
            image = file.read()
    except OSError:
        print(f"volumes: cannot read {sys.argv[1]}", file=sys.stderr)
        return 2
    show(image)
    return 0


if __name__ == "__main__":
    sys.exit(main())
