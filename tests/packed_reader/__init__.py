# SPDX-License-Identifier: BSD-2-Clause-Patent
"""A second reader of packed sections, to be compared with the program and the library: `sections.opened`.

The modules were written from the LZMA specification (lzma-specification.txt of the LZMA SDK), from chapter 19 of the
UEFI specification 2.10, from volume 3 of the PI specification, and from docs/PROGRAM.md and docs/FAULTS.md. They share
no code with the package for Python. liblzma undoes the filter of x86 code, and zlib computes the CRC32."""
