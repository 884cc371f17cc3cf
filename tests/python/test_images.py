# SPDX-License-Identifier: BSD-2-Clause-Patent
"""`fv.images` over made images: volumes at every level, compressed sections, volumes with fixed files, volumes at odd
places, bytes that are not read, and the limits of reading."""

import lzma
import struct
import sys
import unittest
import unittest.mock
import uuid
from pathlib import Path

import fv
from fv import images
from fv.limits import Full, Limits
from fv.names import Names
from fv.opened import Way
from tests import making as made
from tests.frame import needs_firmware, needs_library
from tests.python.outcomes import CONTENTS, SIGNED, packings

try:
    import brotli  # type: ignore[import]
except ImportError:
    brotli = None

DAMAGED = "section fault 3 at {}: the packed data are damaged"
ALPHA, FIXED = made.guid(1), made.file(made.guid(4), made.noise("d", 777), attributes=made.FIXED)


def names_of(data: bytes, limits: Limits = Limits()) -> list[str]:
    """Returns the readable names of the files in an image."""
    return [file.name for _, file in images.files_in(images.read(data, limits)) if file.name]


def closed_in(data: bytes, limits: Limits = Limits()) -> list[str]:
    """Returns why sections of an image are not opened."""
    files = images.files_in(images.read(data, limits))
    return [leaf.closed for _, it in files for leaf in images.every_leaf(it.sections) if leaf.closed]


def holding(*sections: bytes) -> bytes:
    """Returns a volume with one file that holds sections."""
    file = made.file(made.guid(1), made.stream(*sections), made.FREEFORM)
    return made.volume([file], max(0x8000, len(file) + 0x1000 & ~7))


def packed_file(data: bytes) -> bytes:
    """Returns a volume with a compression section of type 1."""
    return holding(made.section(0x01, data))


def brotli_file(data: bytes, length: int) -> bytes:
    """Returns a volume with a section of Brotli data, whose header says how long the contents are."""
    return holding(made.guided(made.BROTLI, struct.pack("<QQ", length, 0) + data))


def unread_in(data: bytes) -> list[tuple[str, str]]:
    """Returns what is not read in an image outside of its volumes and then in its volumes, and why."""
    image = images.read(data)
    parts = [*image.unread, *(part for volume in image.every_volume() for part in volume.unread)]
    assert all(it.data is image.data for it in parts)
    return [(it.what, it.reason) for it in parts]


def changed(data: bytes, at: int, *values: int) -> bytes:
    """Returns data with other bytes at a place."""
    return data[:at] + bytes(values) + data[at + len(values) :]


@needs_library
class Images(unittest.TestCase):
    """What `fv.images` finds in an image, and what it does not read."""

    maxDiff = None

    def test_levels(self) -> None:
        # Finds the files at every level, each before the files inside it, with its volume.
        found = list(images.files_in(images.read(made.firmware())))
        names = ["", "Pei0", "Pei1", "Pei2", "Alpha", "Beta", "Dxe0", "Dxe1", "Dxe2", "Dxe3", "Dxe4", "Own", ""]
        self.assertEqual([file.name for _, file in found], names)
        self.assertEqual([volume.length for volume, _ in found], [0x10000] + [0x2000] * 3 + [0x4000] * 7 + [0x1000] * 2)
        self.assertTrue(all(volume.body[it.offset - volume.offset :][: it.length] == it.body for volume, it in found))
        self.assertEqual(closed_in(made.firmware()), [f"unknown GUID {made.UNKNOWN}"])
        self.assertEqual(names_of(made.deep()), ["Core"])

    def test_bytes(self) -> None:
        # Finds all bytes of an image in a volume or beside the volumes.
        image = images.read(made.firmware())
        pieces = sorted([*image.volumes, *image.others], key=lambda it: it.offset)
        self.assertTrue(b"".join(it.body for it in pieces) == image.data == made.firmware())

    def test_fixed(self) -> None:
        # Reads a volume with fixed files. Its bytes and the bodies of its files are slices of the image.
        data = made.flash(made.volume([made.A, FIXED, made.GONE, made.C]))
        (volume,) = images.read(data).volumes
        self.assertEqual((volume.fault, len(volume.files), volume.is_marked), (None, 3, True))
        self.assertEqual(volume.body, data[4096 : 4096 + volume.length])
        self.assertEqual([data[it.offset - it.header_length + 19] for it in volume.fixed], [made.FIXED])
        free = made.volume([made.A, made.file(made.guid(4), made.noise("d", 777)), made.C])
        self.assertTrue(volume.plain != volume.body)
        self.assertIsNone(fv.volume_compare(volume.plain, free))
        for it in volume.files:
            self.assertTrue(it.data is volume.data and data[it.offset :][: it.length] == it.body)
        many = images.read(made.volume([FIXED], 72 + len(FIXED)) * 5_000).volumes
        self.assertEqual(len(many), 5_000)
        self.assertTrue(all(len(it.fixed) == 1 for it in many))
        self.assertEqual(len({id(it.data) for it in many}), 1)
        (volume,) = images.read(made.IMAGES["damaged.fd"]()).volumes[:1]
        names = [(it.name, it.findings) for it in volume.files]
        self.assertEqual(names, [("", (fv.FaultCode.FILE_HEADER_SUM,)), ("Alpha", ())])
        self.assertEqual((str(volume.fault), volume.findings, volume.guid), ("fault 11 at 4168", (), None))
        (volume,) = images.read(made.IMAGES["fixed-inside.fv"]()).volumes
        inner = volume.files[0].sections[0].volume
        self.assertIsNone(volume.fault)
        self.assertTrue(volume.is_marked and inner and inner.is_marked)
        self.assertEqual([len(it.fixed) for it in (volume, inner) if it], [0, 2])
        self.assertTrue(fv.volume_tree(volume.plain) and inner and inner.plain in volume.plain)

    def test_places(self) -> None:
        # Finds volumes at any byte, also beside volumes at a multiple of 8.
        found = images.read(bytes(28) + made.volume([made.A]) + made.SMALL).volumes
        self.assertEqual([it.offset for it in found], [28, 28 + 0x8000])
        found = images.read(made.volume([made.A]) + bytes(4) + made.SMALL).volumes
        self.assertEqual([it.offset for it in found], [0, 0x8004])
        self.assertEqual(images.read(b"_FVH" * 100_000).volumes, [])

    def test_outermost(self) -> None:
        # Finds the volume after a capsule header, although a volume inside it is at a multiple of 8 of the image.
        head = uuid.UUID("6dcbd5ed-e82d-4c44-bda1-7194199ad92a").bytes_le + struct.pack("<III", 28, 0, 28 + 0x8000)
        filler = next(made.pad(bytes(it)) for it in range(8) if not (28 + 72 + 24 + it + -it % 8 + 24 + 4) % 8)
        image = images.read(head + made.volume([filler, made.NESTED, made.B, made.C]))
        self.assertEqual([it.offset for it in image.volumes], [28])
        self.assertEqual([file.name for _, file in images.files_in(image)], ["", "Alpha", "Beta", "Beta", ""])
        unread = [(it.what, it.is_gap, it.offset, it.length) for it in image.unread]
        self.assertEqual(unread, [("capsule header", True, 0, 28)])

    def test_headers(self) -> None:
        # Reads volumes whose headers break rules, with their findings. A variable store is bytes that are not read.
        other, before = made.volume([made.A]), made.volume([made.B])
        one = changed(other, 50, other[50] ^ 1)
        ffs1 = uuid.UUID("7a9354d9-0468-444a-81ce-0bf617d890df").bytes_le
        store = uuid.UUID("fff12b8d-7696-4c8b-a985-2747075b4f50").bytes_le
        for data, fault, codes, system in (
            (one, "fault 6 at 32768", [6], "FFS2"),
            (changed(other, 55, 1), "fault 4 at 32823", [4, 6], "FFS2"),
            (changed(other, 16, *ffs1), "fault 3 at 32784", [3, 6], "FFS1 volume"),
            (other[:0x4000], "fault 1 at 49152", [1], "FFS2"),
        ):
            image = images.read(before + data)
            volume = image.volumes[1]
            self.assertEqual((str(volume.fault), [*volume.findings], volume.type_name), (fault, codes, system))
            self.assertEqual([it.name for it in volume.files], ["Alpha"])
            self.assertEqual((len(image.volumes), image.headed, image.unread), (2, image.volumes[:1], []))
            self.assertEqual(b"".join(it.body for it in image.others), data)
        found = unread_in(before + changed(other, 16, *store))
        self.assertEqual([(what, reason[:17]) for what, reason in found], [("variable store", "fault 3 at 32784:")])

    def test_found(self) -> None:
        # Finds volumes in a pad, a raw file, a section, a file that was deleted and a volume that is rejected.
        inner, names = made.volume([made.A], 0x2000), ["Beta", "Alpha"]
        raw, other = made.section(made.RAW, inner), made.section(made.VOLUME, inner + b"\xff")
        for holder in (
            made.file(made.guid(6), inner),
            made.file(made.guid(6), raw, made.FREEFORM),
            made.file(made.guid(6), other, made.VOLUME_IMAGE),
            made.pad(bytes(8) + inner),
            made.deleted(made.guid(6), inner),
            made.file(made.guid(6), made.checked(raw, 1), made.FREEFORM),
            made.file(made.guid(6), made.guided(made.UNKNOWN, inner), made.FREEFORM),
            made.file(made.guid(6), made.section(made.GROUP, made.stream(raw, b"no section")), made.FREEFORM),
        ):
            image = images.read(made.volume([made.B, holder]))
            self.assertEqual([file.name for _, file in images.files_in(image) if file.name], names)
            self.assertEqual(image.volumes[0].fault is None, holder[27] != made.GROUP)
        held = [("pad", "a pad holds bytes")]
        self.assertEqual(unread_in(made.volume([made.B, made.pad(bytes(8) + inner)])), held)
        wrong = made.file(made.guid(4), made.noise("d", 777))
        image = images.read(made.volume([changed(wrong, 16, wrong[16] ^ 1), made.NESTED]))
        self.assertEqual([(volume.fault is None, file.name) for volume, file in images.files_in(image)],
                         [(False, ""), (False, ""), (True, "Alpha"), (True, "Beta")])
        code = made.section(made.PE32, bytes(100) + made.header(0x1000) + bytes(100))
        (volume,) = images.read(holding(code)).volumes
        self.assertEqual((volume.inner, volume.fault), ([], None))
        (volume,) = images.read(holding(made.section(made.PE32, bytes(100) + inner))).volumes
        self.assertEqual([it.offset for it in volume.inner], [200])

    def test_lost(self) -> None:
        # Reports the bytes of a volume that are lost, with the finding. What follows them is read.
        lost, end = b"lost bytes" * 40, made.section(made.RAW, b"")[:2] + b"tail of the sections"
        size = "finding 19: the size of a section is wrong"
        for files, unread, reason in (
            ([made.A, lost, made.B], 1, "finding 10: "),
            ([made.file(made.guid(6), made.ui("Text\0\0") + end, made.FREEFORM), made.B], 1, size),
        ):
            image = images.read(made.volume(files))
            (volume,) = image.volumes
            parts = [it for part in (volume, *volume.files) for it in part.unread]
            self.assertEqual([(it.what, it.reason[: len(reason)]) for it in parts], [("lost bytes", reason)] * unread)
            self.assertEqual([file.name for file in volume.files][-1], "Beta")

    def test_remains(self) -> None:
        # Reports pads that hold bytes, filler, sections in files of unknown types, and bytes beside the volumes.
        named = made.volume([made.B], name=made.guid(9))
        sections = made.stream(made.section(made.PE32, made.noise("a", 300)), made.ui("Hidden"))
        found = [("sections", "sections in a file of the unknown type 00")]
        descriptor = b"\xff" * 16 + b"\x5a\xa5\xf0\x0f" + bytes(4076)
        for data, expected in (
            (made.volume([made.A, made.pad(bytes(9)), made.B, made.pad(b"\xff" * 9)]), []),
            (made.volume([made.pad(b"_FIT_   " + bytes(9))]), [("pad", "a pad holds bytes: firmware interface table")]),
            (made.volume([made.C[:-1] + b"\1", made.B]), [("filler", "bytes between two files")]),
            (named, []),
            (changed(named, 72, *b"hidden"), []),
            (made.volume([made.file(made.guid(1), sections, 0x00)]), found),
            (made.volume([made.file(made.guid(1), made.section(made.RAW, b"") * 5000 + b"more", 0x00)]), found),
            (made.volume([made.file(made.guid(1), sections[:-9], 0x00)]), []),
            (made.volume([made.file(made.guid(1), sections, made.RAW_FILE)]), []),  # as the reset vector of EDK II
            (bytes(64) + made.SMALL + bytes(64), []),
            (b"\xff" * 64 + made.SMALL + b"\xff" * 64, []),
            (b"A" * 64 + made.SMALL, [("", "it is in no volume")]),
            (descriptor + made.SMALL, [("flash descriptor", "it is in no volume")]),
        ):
            self.assertEqual(unread_in(data), expected)

    def test_states(self) -> None:
        # Reports files that are deleted, unfinished or superseded.
        noise, old = made.noise("d", 777), made.noise("b", 50)
        (part,) = images.read(made.flash(made.volume([made.A, made.GONE, made.B]))).volumes[0].unread
        self.assertEqual((part.what, part.guid, part.body[24:801]), ("deleted file", made.guid(4), noise))
        before, marked = (made.file(made.guid(2), old, attributes=it, state=0x0F) for it in (0, made.FIXED))
        inner = made.section(made.VOLUME, made.volume([marked, made.B], 0x1000))
        for files, what in (
            ([made.A, made.file(made.guid(4), noise, state=0x03), made.B], "unfinished file"),
            ([made.A, before, made.B], "superseded file"),
            ([marked, made.B], "superseded file"),
            ([made.file(made.guid(6), inner, made.VOLUME_IMAGE)], "superseded file"),
        ):
            *_, (volume, _) = images.files_in(images.read(made.volume(files)))
            self.assertEqual(([it.what for it in volume.unread], volume.fault), ([what], None))

    def test_doubts(self) -> None:
        # Opens a section whose checksum or length is wrong, or that is signed, and says so.
        text = made.ui("Text")
        whole = lzma.compress(text, format=lzma.FORMAT_ALONE)
        other, unverified = "the contents have another length than the header says", "the signature is not verified"
        for packed, doubt in (
            (made.guided(made.LZMA, whole), None),
            (made.guided(made.LZMA, whole + b"more"), None),
            (made.checked(text), None),
            (made.checked(text, 1), "the CRC32 is wrong"),
            (made.compression(text), None),
            (made.compression(text, 5), other),
            (made.compression(whole, 5, 2), other),
            (made.guided(SIGNED[0], text, 3, b"signature"), unverified),
            (made.guided(made.UNKNOWN, text, 2), unverified),
            (made.guided(made.UNKNOWN, text, 0), None),
        ):
            (file,) = images.read(holding(packed)).volumes[0].files
            opened = file.sections[0].opened
            self.assertEqual((opened and opened.doubts, file.name), ([doubt] if doubt else [], "Text"))

    def test_ways(self) -> None:
        # Opens a section in each way of libfv. Names a way that only a newer library has.
        names = {fv.Way.UEFI: "uefi", fv.Way.LZMA_X86: "lzma-x86", fv.Way.CRC32: "crc32"}
        for it in packings():
            image = images.read(holding(it.section))
            opened = image.volumes[0].files[0].sections[0].opened
            self.assertEqual([file.name for _, file in images.files_in(image)], ["Packed"])
            self.assertEqual(opened and opened.data, CONTENTS)
            self.assertEqual(opened and opened.way.folder, names.get(it.way, it.way.name.lower()))
        later = fv.Opened(CONTENTS, 99)  # type: ignore[arg-type]
        with unittest.mock.patch("fv.images.section_open", lambda *_: later):
            (section,) = images.read_sections(made.guided(made.UNKNOWN, b"", 0)).sections
        way = section.opened and section.opened.way
        self.assertEqual((images.first_text([section], made.UI), way), ("Packed", Way("way 99", "opened")))

    def test_sections(self) -> None:
        # Opens a section with a short or a long header, whose data begin anywhere.
        zeros = lzma.compress(bytes(5000), format=lzma.FORMAT_ALONE)

        def opened(header: int, offset: int, extra: int = 0) -> str:
            data = made.LZMA.bytes_le + struct.pack("<HH", offset, 1) + bytes(extra) + zeros
            head = made.section_head(made.GUIDED, header + len(data), header == 8)
            section = images.read_sections(head + data).sections[0]
            return section.closed or f"{section.opened and section.opened.way.name} {len((section.opened or section).data)}"

        self.assertEqual([opened(4, 24), opened(8, 28), opened(4, 31, 7)], ["LZMA 5000"] * 3)
        short = "section fault 1 at 20: the section is cut short"
        self.assertEqual([opened(4, 23), opened(4, 300)], [short, short])

    @needs_firmware("ovmf")
    def test_beside_liblzma(self) -> None:
        # Opens the sections of Debian's firmware as liblzma does.
        for image in (*Path("/usr/share/OVMF").glob("*_CODE*.fd"), *Path("/usr/share/AAVMF").glob("*_CODE*.fd")):
            files = [it for _, it in images.files_in(images.read(image.read_bytes()))]
            packed = [it for file in files for it in images.leaves(file.sections) if it.is_packed]
            self.assertGreater(len(packed), 0, image)
            for it in packed:
                self.assertEqual(it.opened and it.opened.data, lzma.decompress(it.body[20:], lzma.FORMAT_ALONE), image)

    def test_inputs(self) -> None:
        # Reads any buffer, and does not show the bytes of an image in its repr.
        data = made.firmware()
        image = images.read(bytearray(data))
        self.assertTrue(image == images.read(memoryview(data)) == images.read(data))
        self.assertTrue(len(repr(image)) < 20_000)
        self.assertEqual(names_of(made.volume([made.driver(made.guid(1), "N" * 300, b"")])), ["N" * 200 + ".."])

    def test_limits(self) -> None:
        # Does not open a section that exceeds a limit, or does not read the image at all.
        data = made.firmware()
        self.assertEqual(names_of(data, Limits(least=0, times=0)), [])
        for limits, reason in (
            (Limits(least=0, times=0), f"more than {len(data)} bytes"),
            (Limits(total=len(data) + 100), f"more than {len(data) + 100} bytes"),
            (Limits(parts=20), "more than 20 parts"),
        ):
            self.assertEqual(closed_in(data, limits)[0], reason)
        for limits in (Limits(total=len(data) - 1), Limits(parts=2)):
            self.assertRaises(Full, images.read, data, limits)
        deep = made.stream(made.ui("Deep"))
        for _ in range(9):
            deep = made.stream(made.compression(deep))
        self.assertEqual(closed_in(holding(deep)), ["too deep"])

    def test_waste(self) -> None:
        # Limits the work for sections that are damaged, too long, or have too many parts.
        whole = lzma.compress(bytes(5 << 20), format=lzma.FORMAT_ALONE)
        full, cut, long = (
            made.compressed(made.section(made.RAW, b"") * 60),
            made.guided(made.LZMA, whole[:700]),
            made.guided(made.LZMA, whole[:5] + (1 << 40).to_bytes(8, "little") + whole[13:700]),
        )
        for packed, limits, count, reason in (
            (full, Limits(parts=60), 40, "more than 60 parts"),
            (cut, Limits(least=40 << 20, times=0), 3, f"LZMA: {DAMAGED.format(724)}"),
            (long, Limits(least=40 << 20, times=0), 3, "LZMA: more than 268435456 bytes"),
        ):
            image = holding(*[packed] * 40)
            found, no_more = closed_in(image, limits), f"more than {len(image) + (40 << 20)} bytes"
            self.assertEqual(found, [reason] * count + [no_more] * (40 - count), found)

    def test_tiano(self) -> None:
        # Opens the compression of the UEFI specification and of Tiano. Data that have neither are not opened.
        driver = made.stream(made.section(made.PE32, bytes(5000)), made.section(made.UI, "Old\0".encode("utf-16-le")))
        head = struct.pack("<IB", len(driver), 1)
        for width in (4, 5):
            packed = made.packed_by_tiano(driver, width)
            self.assertEqual(names_of(packed_file(head + packed)), ["Old"])
            self.assertEqual(names_of(holding(made.guided(made.TIANO, packed))), ["Old"] * (width == 5))
            for wrong in (packed[:7], packed[:-20], packed[:8] + made.noise("tiano", 300)):
                self.assertTrue(closed_in(packed_file(head + wrong))[0].startswith("compression: section fault 3 at "))
        self.assertEqual(closed_in(packed_file(b"\0\0\0\0")), ["section fault 1 at 8: the section is cut short"])
        self.assertEqual(closed_in(packed_file(b"\0\0\0\0\2")), [f"LZMA: {DAMAGED.format(9)}"])
        self.assertEqual(closed_in(packed_file(b"\0\0\0\0\3")), ["compression of the unknown type 3"])

    def test_no_brotli(self) -> None:
        # Says that a section of Brotli data needs Python's module for it.
        with unittest.mock.patch.dict(sys.modules, {"brotli": None}):
            self.assertEqual(closed_in(brotli_file(b"data", 4)), ["brotli is not installed"])

    @unittest.skipUnless(brotli, "no module brotli (Debian: python3-brotli)")
    def test_brotli(self) -> None:
        # Opens Brotli.
        text = made.section(made.UI, "Br\0".encode("utf-16-le"))
        packed = brotli.compress(text)
        self.assertEqual(names_of(brotli_file(packed, len(text))), ["Br"])
        size = len(text)
        for data, length in ((packed, size - 1), (packed, size + 1), (packed[:-2], size), (b"\xff" * 9, 9)):
            self.assertTrue(closed_in(brotli_file(data, length))[0].startswith("Brotli: "), data)
        # Python's brotli gets 16 bytes at a time, and rejects bytes after the stream that come with its last bytes.
        texts = (made.section(made.RAW, made.noise("text", length)) for length in range(64))
        text = next(it for it in texts if len(brotli.compress(it)) % 16 == 0)
        for more, doubts in ((b"", []), (bytes(30), []), (b"more", ["4 bytes follow the packed data"])):
            data = brotli_file(brotli.compress(text) + more, len(text))
            opened = images.read(data).volumes[0].files[0].sections[0].opened
            self.assertEqual(opened and opened.doubts, doubts)
        self.assertEqual(closed_in(holding(made.guided(made.BROTLI, b""))), ["Brotli: the data are cut short"])
        bomb = brotli_file(brotli.compress(bytes(1 << 24)), 1 << 24)
        self.assertEqual(closed_in(bomb, Limits(least=1 << 20, times=0)), [f"more than {len(bomb) + (1 << 20)} bytes"])

    def test_names(self) -> None:
        # Shows a dependency expression with the names of its GUIDs.
        pcd, unknown = uuid.UUID("11b34006-d85b-4d0a-a290-d5a571310ef7").bytes_le, made.guid(1).bytes_le
        expression = b"\2" + pcd + b"\2" + unknown + b"\3\x08\6"
        self.assertEqual(Names().depex(expression), f"PUSH gPcdProtocolGuid PUSH {made.guid(1)} AND END")
        self.assertEqual(Names().depex(b"\2" + pcd[:15]), "PUSH")
        self.assertEqual(Names().depex(b"\xff"), "")
