# SPDX-License-Identifier: BSD-2-Clause-Patent
"""The calls of the package over the rows of crates/fv_run_tests/rows, whose results were worked out by hand, and over
made inputs. The runs of tests/program/test_rows.py are made by the calls too (said.py). In some volumes, each byte is
then replaced by every other value. (The checks of tests/fuzz/libfv compare the rows of trees, cells and images with
their bytes, and the calls with each other.)"""

import contextlib
import dataclasses
import hashlib
import lzma
import struct
import unittest
import uuid
import zlib
from collections.abc import Iterator
from typing import Any

import fv
import rows
from tests import making
from tests.frame import needs_library
from tests.fuzz.cases import make_case
from tests.program.test_rows import Run, row_cases
from tests.python import said
from tests.python.outcomes import CONTENTS, Call, closed, made, outcome, packings, place, streams

NO_ROOM, TOP_ALIGNMENT = 22, 23
# The rows whose runs are about files and arguments, or of a command that the library does not have; and the options of
# other runs that the program has by itself.
OWN_ROWS, OWN_OPTIONS = ("opened", "wrong", "endless", "same"), {"--hex", "--at", "--other-at", "--image"}
# Volumes, and canonical images: with an extended header, a pad before an aligned file, and a volume inside.
REPLACED = (
    *("ext-header-image", "misaligned-file-image", "nested-image", "empty", "file-sum-zero-data", "ext-header-bare"),
    *("misaligned-file", "two-sections", "nested-with-deleted-file", "security-core-frames"),
)
# The longest volume of the rows that is cut short at every length.
MOST_CUT = 4096
# How many inputs are made by the fuzzer.
MADE = 300


def made_by_calls(run: Run) -> said.Said | None:
    """Returns what a run writes, or None if the program has a part in it that no call has: an option, the path of a
    packed section, or the sections of a security core."""
    command, *words = (it for it in run.arguments if it not in run.files)
    inputs = [run.files[it] for it in run.arguments if it in run.files] or [run.standard]
    if OWN_OPTIONS & {*words} or command == "open" and words:
        return None
    if command == "compare":
        return said.compare(*inputs)
    if command != "extract":
        return said.made_by(" ".join([command, *words]), inputs[0])
    is_open = words[0] == "--open"
    named = dict(zip(words[is_open::2], words[is_open + 1 :: 2]))
    options = [it for it in ("--name", "--section", "--instance") if "--section" in named or it == "--name"]
    found = outcome(said.opened, inputs[0])
    if len(options) > 1 and not isinstance(found, fv.Fault):
        for volume in found.volumes if is_open else found.volumes[:1]:
            if any(str(it.guid) == named["--name"] and it.efi_type == 3 for it in fv.volume_tree(volume) if it.depth == 1):
                return None
    make = said.extract_open if is_open else said.extract
    return make(inputs[0], [word for it in options for word in (it, named[it])])


def opened_by_others(kind: int, body: bytes, header_length: int) -> bytes | None:
    """Returns the contents of a section by the modules lzma and zlib, or None if these do not open it."""
    if kind == making.COMPRESSION:
        return body[5:] if body[4:5] == b"\0" else None
    guid, start, found = body[:16], int.from_bytes(body[16:18], "little") - header_length, None
    if guid == making.CRC32.bytes_le and zlib.crc32(body[start:]) == int.from_bytes(body[20:24], "little"):
        found = body[start:]
    if guid in (making.LZMA.bytes_le, making.LZMA_X86.bytes_le):
        with contextlib.suppress(lzma.LZMAError):  # also if the data are cut short
            found = lzma.decompress(body[start:], lzma.FORMAT_ALONE)
    return of_x86(found) if found and guid == making.LZMA_X86.bytes_le else found


def of_x86(data: bytes) -> bytes:
    """Returns bytes with the addresses in the calls of x86 code replaced by distances. The module lzma has this filter
    only together with a compression, so the bytes are chunks of LZMA2 that are not compressed."""
    filters: list[dict[str, Any]] = [{"id": lzma.FILTER_X86}, {"id": lzma.FILTER_LZMA2, "preset": 0}]
    chunks = [data[at : at + (1 << 16)] for at in range(0, len(data), 1 << 16)]
    packed = b"".join(struct.pack(">BH", 1 + (n > 0), len(it) - 1) + it for n, it in enumerate(chunks))
    return lzma.decompress(packed + b"\0", lzma.FORMAT_RAW, filters=filters)


def pairs(heading: str) -> Iterator[tuple[bytes, str]]:
    """Yields the input and the result of each row of a table of `library`."""
    for row in rows.tables("library")[heading]:
        given, _, wanted = row.partition(" -> ")
        yield rows.spelled(given), wanted


def replaced(data: bytes) -> Iterator[bytes]:
    """Yields the data with each byte replaced by every other value."""
    for at, byte in enumerate(data):
        for other in range(256):
            if other != byte:
                yield data[:at] + bytes([other]) + data[at + 1 :]


def agree(data: bytes) -> bool:
    """Returns whether the calls agree on some bytes. If the bytes are a volume, volume_is_canonical returns whether
    volume_normalise returns the same bytes, and the image is its own image and has the meaning of the volume; if the
    volume does not fit, volume_is_canonical returns false. Otherwise both calls have the same fault."""
    judged, image = place(fv.volume_is_canonical, data), place(fv.volume_normalise, data)
    if isinstance(image, bytes):
        is_own = fv.volume_normalise(image) == image and fv.volume_compare(data, image) is None
        return is_own and judged is (image == data)
    return judged is False if image[0] in (NO_ROOM, TOP_ALIGNMENT) else bool(judged == image)


@needs_library
class Rows(unittest.TestCase):
    """The inputs of the rows."""

    maxDiff = None

    def test_runs(self) -> None:
        tried = 0
        for name, runs in row_cases():
            for run in runs if name.partition(".")[0] not in OWN_ROWS else ():
                if (found := made_by_calls(run)) is not None:
                    tried += 1
                    with self.subTest(name, label=run.label[:300], words=run.arguments):
                        # (assertEqual would take minutes to show how long texts differ.)
                        self.assertTrue((found[0], run.look(found[1])) == (run.status, run.output), found[1][:300])
        self.assertGreater(tried, 4000)

    def test_rejected(self) -> None:
        empty = rows.spelled("empty")
        calls: tuple[Call, ...] = fv.volume_tree, fv.volume_tree_digests, fv.volume_digest
        calls = *calls, fv.volume_is_canonical, fv.volume_normalise
        for row, data, result in rows.read("rejected"):
            wanted = tuple(map(int, result.split()))
            with self.subTest(row):
                for call in calls:
                    self.assertEqual(place(call, data), wanted)
                for number in (0, 1, 2**64 - 1):
                    self.assertEqual(place(fv.volume_extract, data, number), wanted)
                for side, pair in enumerate(((data, empty), (empty, data))):
                    self.assertEqual(place(fv.volume_compare, *pair), wanted)
                    self.assertEqual(outcome(fv.volume_compare, *pair).input, side)

    def test_cut_short(self) -> None:
        for row, data, wanted in rows.read("accepted"):
            whole = data[: int(wanted.split(",")[0])]
            with self.subTest(row):
                for size in range(len(whole) if len(whole) < MOST_CUT else 0):
                    self.assertEqual(place(fv.volume_tree, whole[:size]), (1, size, 0))

    def test_places_of_data(self) -> None:
        for row, data, wanted in rows.read("data"):
            number, start, end = map(int, wanted.split())
            at, file = [(at, node) for at, node in enumerate(fv.volume_tree(data)) if node.depth == 1][number]
            with self.subTest(row):
                self.assertEqual((file.offset, file.offset + file.length), (start, end))
                self.assertEqual(fv.volume_extract(data, at), data[start:end])

    def test_volumes_that_do_not_fit(self) -> None:
        for name, number, depth in map(rows.parts, rows.tables("library")["unfit"]):
            with self.subTest(name):
                volume, wanted = rows.spelled(name), (int(number), 0, int(depth))
                calls: tuple[Call, ...] = fv.volume_normalise, fv.volume_digest, fv.volume_tree_digests
                for call in calls:
                    self.assertEqual(place(call, volume), wanted)
                self.assertEqual(place(fv.volume_extract, volume, 0), wanted)
                self.assertIs(fv.volume_is_canonical(volume), False)

    def test_flash_images(self) -> None:
        for image, wanted in pairs("flash images"):
            with self.subTest(wanted):
                self.assertEqual(fv.image_normalise(image), rows.spelled(wanted))
        for image, wanted in pairs("rejected images"):
            with self.subTest(wanted):
                self.assertEqual(place(fv.image_normalise, image), tuple(map(int, wanted.split())))

    def test_checks(self) -> None:
        for image, wanted in pairs("checked images"):
            found = []
            for it in fv.image_check(image):
                words = "canonical" if it.canonical else "another"
                words = f"{it.fault.number} {it.fault.offset} {it.fault.depth}" if it.fault else words
                found.append(f"{it.offset} {it.length} {words}")
            with self.subTest(wanted):
                self.assertEqual(", ".join(found) or "none", wanted)

    def test_headers(self) -> None:
        for name, words, _ in map(rows.parts, rows.tables("library")["extents"]):
            data = rows.spelled(name)
            it = fv.header_read(data)
            at = int.from_bytes(data[52:54], "little")
            stored = data[at : at + 16] if at else bytes(16)
            with self.subTest(name):
                extent = it.length, it.header_length, it.first_file, it.file_system, it.erased_byte
                self.assertEqual(extent, tuple(map(int, words.split())))
                self.assertEqual(it.name, uuid.UUID(bytes_le=stored) if any(stored) else None)
                self.assertEqual((it.offset, it.attributes), (0, int.from_bytes(data[44:48], "little")))

    def test_values(self) -> None:
        a, b = uuid.UUID(bytes=b"\x0a" * 16), uuid.UUID(bytes=b"\x0b" * 16)
        installed: list[list[uuid.UUID]] = [[], [a], [b], [b, a]]
        phases, values = {"pei": fv.Phase.PEI, "dxe": fv.Phase.DXE}, {"0": False, "1": True, "-": None}
        for phase, words, wanted in map(rows.parts, rows.tables("library")["values"]):
            with self.subTest(phase, words=words):
                found = [fv.depex_evaluate(rows.spelled(words), phases[phase], it) for it in installed]
                self.assertEqual(found, [values[it] for it in wanted.split()])

    def test_replaced_bytes(self) -> None:
        for name in REPLACED:
            with self.subTest(name):
                self.assertEqual([it.hex() for it in replaced(rows.spelled(name)) if not agree(it)], [])


@needs_library
class Streams(unittest.TestCase):
    """Streams of sections: the data of files, and the bodies of groups, as they are in volumes."""

    def test_parts(self) -> None:
        """The rows of a stream, their digests and their parts are those inside its file or group in the volume."""
        tried = 0
        for name, data in made().items():
            for row, holder in streams(data):
                tried += 1
                with self.subTest(name, row=row):
                    stream = data[holder.offset : holder.offset + holder.length]
                    nodes = [*fv.sections_tree(stream)]
                    moved = [
                        dataclasses.replace(
                            it,
                            offset=it.offset + holder.offset,
                            depth=it.depth + holder.depth + 1,
                            parent=row if it.parent is None else it.parent + row + 1,
                        )
                        for it in nodes
                    ]
                    end = row + 1 + len(nodes)
                    whole = fv.volume_tree(data)
                    self.assertEqual(moved, [*whole][row + 1 : end])
                    self.assertTrue(end == len(whole) or whole[end].depth <= holder.depth)
                    self.assertRaises(IndexError, fv.sections_extract, stream, len(nodes))
                    if isinstance(digests := outcome(fv.volume_tree_digests, data), fv.Fault):
                        continue
                    self.assertEqual([*fv.sections_tree_digests(stream)], [*digests][row + 1 : end])
                    for number in range(len(nodes)):
                        part = fv.volume_extract(data, row + 1 + number)
                        self.assertEqual(fv.sections_extract(stream, number), part)
        self.assertGreater(tried, 50)

    def test_faults(self) -> None:
        """Bytes that are not a stream have the first fault of the specification's headers, at its place."""
        raw, group = "05000019 7a 000000", "0c000003"
        cases = (
            ("05000019", (19, 0, 0)),  # a section of 5 bytes in 4 bytes
            (f"{raw} 0300", (20, 8, 0)),  # 2 bytes where a section may begin
            (f"{raw} {group} 09000019 00000000", (19, 12, 1)),  # a section in a group, which does not fit
            ("03000019", (19, 0, 0)),  # a section that is shorter than its header
        )
        for digits, wanted in cases:
            with self.subTest(digits):
                stream = bytes.fromhex(digits)
                self.assertEqual(place(fv.sections_tree, stream), wanted)
                self.assertEqual(place(fv.sections_tree_digests, stream), wanted)
                self.assertEqual(place(fv.sections_extract, stream, 0), wanted)
        deep = b""
        for level in range(9):
            size = len(deep) + 4
            deep = size.to_bytes(3, "little") + b"\3" + deep
            wanted = (21, 4 * 8, 8)
            found = place(fv.sections_tree, deep)
            self.assertEqual(found if level == 8 else len(found), wanted if level == 8 else level + 1)
        self.assertEqual(place(fv.sections_tree, bytes(fv.LENGTH_MAX + 1)), (8, fv.LENGTH_MAX, 0))
        self.assertEqual([*fv.sections_tree(b"")], [])


def packed_of(image: bytes) -> Iterator[tuple[fv.Node, bytes]]:
    """Yields the packed sections of an image that no other packed section holds: their rows, and their bytes."""
    for header in fv.image_scan(image):
        volume = outcome(fv.volume_unfix, image[header.offset : header.offset + header.length])
        nodes = volume if isinstance(volume, fv.Fault) else outcome(fv.volume_tree, volume)
        for it in () if isinstance(nodes, fv.Fault) else nodes:
            if it.kind is fv.NodeKind.SECTION and it.efi_type in (making.COMPRESSION, making.GUIDED):
                yield it, volume[it.offset - it.header_length : it.offset + it.length]


@needs_library
class Packed(unittest.TestCase):
    """Packed sections, which liblzma, zlib and tests/making.py have made, and packed sections of made images."""

    def test_contents(self) -> None:
        """A section has its contents, if the limit allows them. Bytes after the section are not read."""
        for number, it in enumerate(packings()):
            with self.subTest(number, way=it.way):
                for data in (it.section, it.section + b"more"):
                    self.assertEqual(fv.section_way(data), fv.Packed(it.promised, it.data_offset, it.says))
                    for limit in (len(CONTENTS), len(CONTENTS) + 1, 2**70):
                        self.assertEqual(fv.section_open(data, limit), fv.Opened(CONTENTS, it.way))
                self.assertEqual(fv.section_open(it.section), fv.Opened(CONTENTS, it.way))
                # A stream after four bytes has the fault of the bytes before it.
                code = fv.FaultCode.OPEN_DAMAGED if it.is_after_four else fv.FaultCode.OPEN_TOO_LONG
                for limit in (0, len(CONTENTS) - 1):
                    fault = outcome(fv.section_open, it.section, limit)
                    self.assertEqual((fault.code, fault.depth), (code, 0))

    def test_faults(self) -> None:
        for data, code, offset in closed():
            with self.subTest(data[:40].hex()):
                wanted = fv.Fault(code, offset)
                self.assertEqual(outcome(fv.section_open, data), wanted)
                if code in (fv.FaultCode.OPEN_SHORT, fv.FaultCode.OPEN_WAY):
                    self.assertEqual(outcome(fv.section_way, data), wanted)
                else:
                    self.assertIsInstance(fv.section_way(data), fv.Packed)

    def test_images(self) -> None:
        """The packed sections of made images have the contents that the modules lzma and zlib find."""
        tried = 0
        for name, make in making.IMAGES.items():
            data = make()
            for node, section in packed_of(data):
                with self.subTest(name, offset=node.offset):
                    found = outcome(fv.section_open, section)
                    wanted = opened_by_others(section[3], section[node.header_length :], node.header_length)
                    if wanted is None:
                        self.assertTrue(isinstance(found, fv.Fault) or found.way in (fv.Way.SIGNED, fv.Way.PLAIN))
                        continue
                    tried += 1
                    self.assertEqual(found.contents, wanted)
        self.assertGreater(tried, 5)


@needs_library
class Inputs(unittest.TestCase):
    """Made inputs."""

    def test_lines(self) -> None:
        """The rows of each made input are the lines that its maker gives."""
        commands, tried = {"volume": "list", "image": "scan", "list": "hobs"}, 0
        for number in range(MADE):
            case = make_case(7, number)
            if case.lines and not case.image:
                tried += 1
                with self.subTest(number):
                    self.assertEqual(said.made_by(commands[case.kind], case.data), (0, said.text(case.lines)))
        self.assertGreater(tried, MADE // 3)

    def test_parts(self) -> None:
        """The part of each row is in the canonical image, where the tree of the image has its row, and its digest
        covers the part. A volume without an image has no digests, but bodies of sections are as stored."""
        for name, data in made().items():
            nodes, image = outcome(fv.volume_tree, data), outcome(fv.volume_normalise, data)
            if isinstance(nodes, fv.Fault):
                continue
            with self.subTest(name):
                is_held = [it.kind == fv.NodeKind.SECTION and it.content != fv.Content.BYTES for it in nodes]
                if isinstance(image, fv.Fault):
                    self.assertEqual(outcome(fv.volume_tree_digests, data), image)
                    continue
                parts = [image[it.offset : it.offset + it.length] for it in fv.volume_tree(image)]
                self.assertTrue([fv.volume_extract(data, row) for row in range(len(nodes))] == parts)
                digests = [None if it else hashlib.sha256(part).digest() for it, part in zip(is_held, parts)]
                self.assertTrue([*fv.volume_tree_digests(data)] == digests)
                self.assertEqual(fv.volume_digest(data), digests[0])
                for row in (len(nodes), -1, 2**64 - 1):
                    self.assertRaises(IndexError, fv.volume_extract, data, row)
