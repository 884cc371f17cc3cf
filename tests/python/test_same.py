# SPDX-License-Identifier: BSD-2-Clause-Patent
"""Whether images mean the same at every level: fv.image_same over made images."""

import unittest
from itertools import combinations

import fv
from tests import making
from tests.frame import needs_library
from tests.python.outcomes import CONTENTS, packings, raised

SAME = fv.Sameness(True, None, None)


def made(name: str) -> bytes:
    """Returns the made image with this name."""
    return making.IMAGES[name]()


def volume_with(*files: bytes) -> bytes:
    """Returns a volume of these files, with free space after them."""
    return making.volume(files)


def volume_around(section: bytes) -> bytes:
    """Returns a volume of one file, which has this section. All these volumes have one length."""
    return volume_with(making.file(making.guid(7), section, making.FREEFORM))


@needs_library
class Sameness(unittest.TestCase):
    """Images that mean the same, and images that do not."""

    def test_places(self) -> None:
        for first, second in combinations(("plain.fd", "stored.fd", "joined.fd"), 2):
            self.assertEqual(fv.image_same(made(first), made(second)), SAME)
        a, b, c = making.A, making.B, making.C
        padded = [volume_with(a, making.pad(it), b, c) for it in (b"", b"left over", b"\xff" * 40)]
        for it in padded:
            self.assertEqual(fv.image_same(it, volume_with(a, b, c)), SAME)

    def test_packings(self) -> None:
        # However the contents are packed, the images mean the same.
        images = {it.way: volume_around(it.section) for it in packings() if it.promised in (None, len(CONTENTS))}
        self.assertLess({fv.Way.LZMA, fv.Way.TIANO, fv.Way.STORED, fv.Way.CRC32}, set(images))
        for it in images.values():
            self.assertEqual(fv.image_same(it, images[fv.Way.TIANO]), SAME)

    def test_changed(self) -> None:
        # The images differ in the code of a driver, which is in the contents of the first section that is opened.
        first, second = made("firmware.fd"), made("firmware-changed.fd")
        found = fv.image_same(first, second)
        self.assertFalse(found.is_same)
        self.assertEqual(found, fv.image_same(bytearray(first), bytearray(second), copy=False))
        for image, place, seed in ((first, found.first, "b"), (second, found.second, "later b")):
            assert place is not None
            source = fv.image_open(image).sources[place.source]
            self.assertEqual(source.number, 1)
            self.assertEqual(source.bytes[place.offset :][: place.length], making.noise(seed, 500))

    def test_closed(self) -> None:
        # A packed section that is not opened counts with its bytes.
        sections = making.compressed(CONTENTS), making.guided(making.TIANO, making.packed_by_tiano(CONTENTS, 5))
        first, second = map(volume_around, sections)
        places = (fv.PartPlace(0, 72 + 24, len(it)) for it in sections)
        self.assertEqual(fv.image_same(first, second, 0), fv.Sameness(False, *places))
        self.assertEqual(fv.image_same(first, first, 0), SAME)
        self.assertEqual([fv.image_same(first, second, it) for it in (2**20, None, 2**70)], [SAME] * 3)
        self.assertIsInstance(raised(fv.image_same, first, second, -1), ValueError)

    def test_more_parts(self) -> None:
        # If only one image has a part there, the other has no place.
        less, more = volume_with(making.D), volume_with(making.D, making.B)
        place = fv.PartPlace(0, more.index(making.B), 24)
        self.assertEqual(fv.image_same(less, more), fv.Sameness(False, None, place))
        self.assertEqual(fv.image_same(more, less), fv.Sameness(False, place, None))
        self.assertEqual(fv.image_same(b"", more), fv.Sameness(False, None, fv.PartPlace(0, 0, 72)))
        self.assertEqual([fv.image_same(b"", it) for it in (b"", b"\xff" * 9, bytes(9))], [SAME] * 3)
