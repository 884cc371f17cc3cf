# SPDX-License-Identifier: BSD-2-Clause-Patent
"""Makes the inputs of fuzz.py and tools.py by their numbers: what makers write, and the same with changed bytes. Flash
images and hand-off lists have the lines that `scan` and `hobs` write of them. Packed sections have no lines."""

import random
import struct
from collections.abc import Iterable, Sequence
from dataclasses import dataclass, replace

from tests.fuzz.maker import Maker, Span
from tests.fuzz.packer import some_section
from tests.making import covered, data_sum, sum8, sum16

VOLUME_BLOCKS = (0x5, 0x9)  # types of blocks that name a volume
LIMIT = 1 << 64  # of addresses and lengths


@dataclass(frozen=True)
class Extent:
    """The offset and the length of a volume in an image, or its address and its length in a block."""

    offset: int
    length: int


@dataclass(frozen=True)
class Image:
    """A flash image, and where its volumes are."""

    data: bytes
    places: list[Extent]


@dataclass(frozen=True)
class Block:
    """A block of a hand-off list: its type, the bytes after its header, and what `hobs` writes of its volume."""

    kind: int
    payload: bytes
    word: str = ""


@dataclass(frozen=True)
class Case:
    """An input: its kind, its bytes, the lines that are to be written of it if it is valid, another volume of the same
    meaning, and the image for a hand-off list with the address of its first byte."""

    kind: str
    data: bytes
    lines: list[str] | None = None
    twin: bytes | None = None
    image: bytes | None = None
    base: int = 0


class ListMaker(Maker):
    """Writes flash images and hand-off lists."""

    def image(self) -> Image:
        """Returns an image of volumes with erased bytes between them."""
        image, places = b"", list[Extent]()
        for _ in range(self.pick.randrange(4)):
            image += bytes([self.pick.choice((0, 0xFF))]) * (8 * self.pick.randrange(12))
            self.parts = 4
            volume = self.volume(0).data
            places.append(Extent(len(image), len(volume)))
            image += volume
        return Image(image + b"\xff" * self.pick.randrange(60), places)

    def span(self, base: int, image: Image) -> Extent:
        """Returns the place that a block gives for a volume: the place of a volume, one near it, or any place."""
        pick, size = self.pick, len(image.data)
        at = pick.choice(image.places) if image.places else Extent(0, size)
        offset, length = pick.choice(
            (
                (at.offset, at.length),
                (at.offset + pick.choice((-8, 8, 1)), at.length),
                (at.offset, at.length + pick.choice((-8, 8, -at.length))),
                (pick.randrange(size + 1), pick.randrange(size + 1)),
                (pick.getrandbits(64), pick.getrandbits(64)),
                (size - at.length, at.length + pick.choice((0, 1))),
            )
        )
        return Extent((base + offset) % LIMIT, length % LIMIT)

    def block(self, block: Block) -> bytes:
        """Returns a block with its header."""
        length = 8 + len(block.payload)
        if self.slips_here(15):
            length = self.pick.choice((0, 4, 7, 8, 12, length + 8, length + 4, length - 8, 0xFFF8, 0xFFFF)) & 0xFFFF
        reserved = self.pick.choice((0, self.pick.getrandbits(32)))
        return struct.pack("<HHI", block.kind, length, reserved) + block.payload

    def volume_block(self, base: int, image: Image | None) -> Block:
        """Returns a block that names a volume, with the word on whether the image at `base` has this volume."""
        at, kind = self.span(base, image or Image(b"", [])), self.pick.choice(VOLUME_BLOCKS)
        payload = struct.pack("<QQ", at.offset, at.length) + self.pick.randbytes(32 * (kind == 0x9))
        is_inside = image is not None and base <= at.offset and at.offset + at.length <= base + len(image.data)
        is_volume = image is not None and Extent(at.offset - base, at.length) in image.places
        word = "" if image is None else " outside" if not is_inside else " volume" if is_volume else " absent"
        return Block(kind, payload, word)

    def other_block(self) -> Block:
        """Returns a block that names no volume."""
        pick = self.pick
        more = 8 * pick.choice((0, 1, 2, pick.randrange(40), 8190 if self.happens(0.01) else 3))
        lengths = {0x1: 48, 0x2: 40 + more % 4096, 0x3: 40, 0x4: 16 + more % 4096, 0x6: 8, 0x7: 0, 0xB: 16}
        lengths |= {0xC: more, 0xFFFE: more}
        kind = pick.choice((*lengths, pick.choice((0, 8, 10, pick.randrange(13, 0xFFFE)))))
        return Block(kind, pick.randbytes(lengths.get(kind, more)))

    def hand_off(self) -> Case:
        """Returns a hand-off list, with or without an image."""
        pick = self.pick
        image = self.image() if self.happens(0.5) else None
        size = len(image.data) if image else 0
        base = pick.choice((0, 0xFF0000, LIMIT - 1, (LIMIT - size) % LIMIT, pick.getrandbits(64)))
        blocks = [Block(0x1, pick.randbytes(48))]
        for _ in range(pick.randrange(8)):
            blocks.append(self.volume_block(base, image) if self.happens(0.4) else self.other_block())
        if self.slips_here():
            del blocks[0]
        blocks.append(Block(0xFFFF, b""))
        listed = b"".join(map(self.block, blocks))
        lines = [f"hob {it.kind:04x} length {8 + len(it.payload)}{it.word}" for it in blocks]
        lines.append(f"consumed {len(listed)}")
        if self.slips_here(4):
            listed = listed[: -8 * pick.choice((1, 2))]
        elif self.happens(0.3):
            listed += pick.randbytes(pick.randrange(20))
        return Case("list", listed, None if self.made else lines, None, image.data if image else None, base)


def changed(pick: random.Random, data: bytes) -> bytes:
    """Returns the bytes with one change."""
    at = pick.randrange(len(data) + 1)
    at = pick.choice((at, min(at, 120)))
    way = pick.randrange(8)
    if way < 3:
        return data[:at] + bytes([pick.choice((0, 0xFF, pick.getrandbits(8)))]) + data[at + 1 :]
    if way < 5 and at < len(data):
        return data[:at] + bytes([data[at] ^ 1 << pick.randrange(8)]) + data[at + 1 :]
    if way == 5:
        size = pick.choice((2, 3, 4, 8))
        most = (1 << 8 * size) - 1
        number = pick.choice((0, 1, most, most // 2 + 1, len(data) & 0xFFFF, len(data) - at & 0xFFFF))
        return data[:at] + number.to_bytes(size, "little") + data[at + size :]
    count = pick.choice((1, 4, 8, 24, pick.randrange(100)))
    if way == 6:
        return pick.choice((data[:at], data[:at] + data[at + count :], data + pick.randbytes(count)))
    return data[:at] + data[at : at + count] + data[at + pick.choice((0, count)) :]


def mended(data: bytes, spans: Iterable[Span]) -> bytes:
    """Returns the bytes with right checksums in the volume header, and in the files that were at these places."""
    found = bytearray(data)
    for start, after, end in spans:
        if end <= len(found):
            state = found[start + 23]
            found[start + 16] = found[start + 17] = found[start + 23] = 0
            sums = sum8(found[start:after]), data_sum(found[start + 19], found[after:end])
            found[start + 16 : start + 18], found[start + 23] = bytes(sums), state
    if len(found) >= 64:
        found[50:52] = bytes(2)
        length = int.from_bytes(found[48:50], "little")
        found[50:52] = struct.pack("<H", sum16(found[: min(length, len(found)) & ~1]))
    return bytes(found)


def broken(pick: random.Random, data: bytes, spans: Sequence[Span] = ()) -> bytes:
    """Returns the bytes with a few changes, and often with right checksums after them."""
    for _ in range(pick.choice((1, 1, 1, 2, 5))):
        data = changed(pick, data)
    return mended(data, spans) if spans and pick.random() < 0.6 else data


def volume_case(name: str, pick: random.Random) -> Case:
    """Returns an input that is a volume, or nearly a volume."""
    grade = pick.random()
    if grade < 0.0004:
        return Case("volume", Maker(name).wide_volume(), None, Maker(name, 1).wide_volume())
    if grade < 0.45:
        part = Maker(name).volume(0)
        return Case("volume", part.data, part.lines, Maker(name, 1).volume(0).data)
    if grade < 0.75:
        maker = Maker(name, slips=pick.choice((1, 1, 2, 6)))
        part = maker.volume(0)
        return Case("volume", part.data, None if maker.made else part.lines)
    if grade < 0.97:
        maker = Maker(name)
        data = maker.volume(0).data
        return Case("volume", broken(pick, data, maker.spans))
    return Case("volume", pick.randbytes(pick.randrange(300)))


def make_case(seed: int, index: int) -> Case:
    """Returns the input with this number."""
    name = f"{seed}/{index}"
    pick = random.Random(f"{name} case")
    kind = pick.random()
    if kind < 0.78:
        return volume_case(name, pick)
    if kind < 0.784:
        return Case("image", covered(pick.random() < 0.5), ["volume at 72 length 256"])
    if kind < 0.86:
        image = ListMaker(name).image()
        case = Case("image", image.data, [f"volume at {it.offset} length {it.length}" for it in image.places])
    elif kind < 0.96:
        case = ListMaker(name, slips=pick.choice((0, 0, 1, 2))).hand_off()
    else:
        case = Case("section", some_section(pick).data + pick.randbytes(pick.choice((0, 0, 1, 9))))
    if pick.random() < (0.3 if case.kind == "image" else 0.2):
        case = replace(case, data=broken(pick, case.data), lines=None)
    return case
