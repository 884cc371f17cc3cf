# SPDX-License-Identifier: BSD-2-Clause-Patent
"""The rows of crates/fv_run_tests/rows/packed.rows: packed data that other programs have made. Each row is put into a
packed section, which the library opens. (The tests of fv_packed_tests have the data that no packed section shows.)"""

import lzma
import struct
import unittest
from collections.abc import Iterator

import fv
import rows
from tests import making
from tests.frame import needs_library
from tests.python.outcomes import outcome

TABLES = rows.tables("packed")
# The data of a GUID-defined section begin here, and the CRC32 of a section is here.
DATA, SUM = 24, 24


def limited(heading: str) -> Iterator[tuple[str, bytes, int, str]]:
    """Yields the name of each row of a table, its bytes, the limit of the call, and the result."""
    for name, words, wanted in map(rows.parts, TABLES[heading]):
        limit, _, spelling = words.partition(" ")
        yield name, rows.spelled(spelling), int(limit), wanted


def result_of(section: bytes, limit: int, start: int = 0) -> str | fv.Opened:
    """Returns the contents of a section, or its fault as a row names it. The offset counts from the byte `start`."""
    found = outcome(fv.section_open, section, limit)
    return f"{fv.FaultCode(found.code).name} {found.offset - start}" if isinstance(found, fv.Fault) else found


@needs_library
class PackedRows(unittest.TestCase):
    """The rows of each heading."""

    def test_streams(self) -> None:
        for heading, guid, way in (("lzma", making.LZMA, fv.Way.LZMA), ("tiano", making.TIANO, fv.Way.TIANO)):
            for name, data, limit, wanted in limited(heading):
                with self.subTest(name):
                    result = wanted if wanted.startswith("OPEN_") else fv.Opened(rows.spelled(wanted), way)
                    self.assertEqual(result_of(making.guided(guid, data), limit, DATA), result)

    def test_code(self) -> None:
        for name, words, wanted in map(rows.parts, TABLES["code"]):
            stream = lzma.compress(rows.spelled(words), lzma.FORMAT_ALONE)
            for section in (making.guided(making.LZMA_X86, stream), making.compression(stream, None, 0x86)):
                with self.subTest(name):
                    code = rows.spelled(wanted)
                    self.assertEqual(result_of(section, len(code)), fv.Opened(code, fv.Way.LZMA_X86))

    def test_sums(self) -> None:
        for name, words, wanted in map(rows.parts, TABLES["sums"]):
            data, number = rows.spelled(words), int(wanted, 16)
            right, wrong = (making.guided(making.CRC32, data, 2, struct.pack("<I", it)) for it in (number, number ^ 1))
            with self.subTest(name):
                self.assertEqual(result_of(right, len(data)), fv.Opened(data, fv.Way.CRC32))
                self.assertEqual(result_of(wrong, len(data)), f"OPEN_SUM {SUM}")

    def test_sections(self) -> None:
        for name, section, limit, wanted in limited("sections"):
            word, _, rest = wanted.partition(" ")
            with self.subTest(name):
                result = wanted if word.startswith("OPEN_") else fv.Opened(rows.spelled(rest), fv.Way[word])
                self.assertEqual(result_of(section, limit), result)

    def test_heads(self) -> None:
        sections = {name: section for name, section, _, _ in limited("sections")}
        for name, words, _ in map(rows.parts, TABLES["heads"]):
            way, offset, promised = words.split()
            with self.subTest(name):
                length = None if promised == "-" else int(promised)
                self.assertEqual(fv.section_way(sections[name]), fv.Packed(length, int(offset), fv.Way[way]))
