# SPDX-License-Identifier: BSD-2-Clause-Patent
"""Makes images for survey.py: flash images with volumes, files, sections, packed sections, nested volumes and gaps, and
with up to three anomalies at any places and depths. Further images nest deep, or are made to take time."""

import random
import struct
from collections.abc import Callable
from dataclasses import dataclass, field

from tests import making
from tests.fuzz.cases import broken, changed, mended
from tests.fuzz.maker import DEEPEST, Maker, Span
from tests.survey_laws.volumes import FFS1, STORE, VENDORS

LEVELS = 3  # images that lie in bytes without a structure of another image
DEEPEST_FOUND = 11  # volumes in a chain of volumes that are found in each other
WORDS = (b"_FVH", b"_FVH" * 9, b"\0" * 4 + b"_FVH", b"text of a vendor", b"$MICROCODE")


@dataclass
class Budget:
    """How many anomalies may still be made, and the anomalies that were made."""

    left: int
    made: list[str] = field(default_factory=list)

    def takes(self, name: str) -> bool:
        """Counts an anomaly, if one is left."""
        if not self.left:
            return False
        self.left -= 1
        self.made.append(name)
        return True


# Anomalies of a volume. Each gets a source of choices, the volume and the places of its files.
Anomaly = Callable[[random.Random, bytes, list[Span]], bytes]


def with_bytes(data: bytes, at: int, new: bytes) -> bytes:
    """Returns data with new bytes at an offset."""
    return data[:at] + new + data[at + len(new) :]


def with_field(pick: random.Random, data: bytes, at: int, size: int, *values: int) -> bytes:
    """Returns a volume with one of some values in a field of its header, and usually with a right checksum."""
    value = pick.choice(values) % (1 << 8 * size)
    found = with_bytes(data, at, value.to_bytes(size, "little"))
    return mended(found, ()) if pick.randrange(4) else found


def file_system(pick: random.Random, data: bytes, spans: list[Span]) -> bytes:
    """Gives a volume the file system of a vendor, FFS1, the variable store or one that nobody knows."""
    system = pick.choice((FFS1, FFS1, STORE, *VENDORS, pick.randbytes(16), making.UNKNOWN.bytes_le))
    found = with_bytes(data, 16, system)
    if system == FFS1 and pick.randrange(2):
        found = with_bytes(found, 55, b"\1")
    for start, _, _ in spans if system == FFS1 and pick.randrange(2) else ():
        found = with_bytes(found, start + 19, bytes([found[start + 19] | making.LARGE]))
    return mended(found, spans)


def revision(pick: random.Random, data: bytes, spans: list[Span]) -> bytes:
    """Gives the header another revision."""
    return with_field(pick, data, 55, 1, 0, 1, 1, 3, 255)


def header_sum(pick: random.Random, data: bytes, spans: list[Span]) -> bytes:
    """Gives the header a wrong checksum."""
    return with_bytes(data, 50, bytes([data[50] ^ 1 << pick.randrange(8)]))


def header_length(pick: random.Random, data: bytes, spans: list[Span]) -> bytes:
    """Gives the header another length."""
    old = int.from_bytes(data[48:50], "little")
    return with_field(pick, data, 48, 2, 0, 55, 56, 57, 60, 2112, 2113, 2120, 0xFFFF, old + 8, old - 8, old + 1, len(data))


def volume_length(pick: random.Random, data: bytes, spans: list[Span]) -> bytes:
    """Gives the header another FvLength."""
    size = len(data)
    return with_field(pick, data, 32, 8, 0, 56, 64, size - 8, size + 8, size - 1, size + 3, size // 2, 1 << 28, 1 << 40, -8)


def block_map(pick: random.Random, data: bytes, spans: list[Span]) -> bytes:
    """Changes a number of the block map."""
    return with_field(pick, data, 56 + 4 * pick.randrange(4), 4, 0, 1, 7, len(data), 1 << 31)


def ext_place(pick: random.Random, data: bytes, spans: list[Span]) -> bytes:
    """Changes ExtHeaderOffset."""
    old = int.from_bytes(data[52:54], "little")
    return with_field(pick, data, 52, 2, 0, 40, 72, 80, len(data) - 20, len(data) - 8, old + 4, 0xFFFF)


def polarity(pick: random.Random, data: bytes, spans: list[Span]) -> bytes:
    """Turns the erase polarity of a volume."""
    return mended(with_bytes(data, 45, bytes([data[45] ^ 8])), ())


def file_field(pick: random.Random, data: bytes, spans: list[Span]) -> bytes:
    """Changes a field of a file: its checksums, type, attributes, size or state. Usually other checksums are right."""
    if not spans:
        return data
    start, _, end = pick.choice(spans)
    at = start + pick.choice((16, 17, 18, 19, 19, 20, 20, 21, 23, 23))
    values = (0, 0xFF, 0x5A, 0xAA, data[at] ^ 1 << pick.randrange(8), data[at] + 1 & 0xFF, data[at] ^ 4, data[at] ^ 1)
    found = with_bytes(data, at, bytes([pick.choice(values)]))
    if pick.randrange(2) and at != start + 16:
        head = bytearray(found[start : start + 24])
        head[16] = head[17] = 0
        found = with_bytes(found, start + 16, bytes([-(sum(head) - head[23]) & 0xFF]))
    return found


def doubled_name(pick: random.Random, data: bytes, spans: list[Span]) -> bytes:
    """Gives a file the name of another, or of the volume top file."""
    if len(spans) < 2:
        return data
    one, other = (it[0] for it in pick.sample(spans, 2))
    name = pick.choice((data[one : one + 16], making.TOP_FILE.bytes_le))
    return mended(with_bytes(data, other, name), spans)


def free_bytes(pick: random.Random, data: bytes, spans: list[Span]) -> bytes:
    """Writes bytes at the end of a volume, where it may have free space, or anywhere in its body."""
    new = pick.choice((b"\0", pick.randbytes(8), pick.randbytes(40), *WORDS))
    at = pick.choice((len(data) - len(new), max(len(data) - 100, 72), pick.randrange(56, len(data))))
    return with_bytes(data, min(at, max(len(data) - len(new), 0)), new)[: len(data)]


def between_files(pick: random.Random, data: bytes, spans: list[Span]) -> bytes:
    """Inserts bytes between two files, or moves the rest of the volume by a few bytes. The volume keeps its length."""
    at = pick.choice([it[0] for it in spans] or [len(data)])
    size = pick.choice((8, 24, 64, 300, 4096, 1, 4))
    new = pick.choice((bytes(size), b"\xff" * size, pick.randbytes(size)))
    return (data[:at] + new + data[at:])[: len(data)]


def vendor_header(pick: random.Random, data: bytes, spans: list[Span]) -> bytes:
    """Gives a file the large header of FFS2 that a vendor writes: 28 bytes, with a size of 4 bytes."""
    fitting = [it for it in spans if it[1] - it[0] == 24 and it[2] - it[0] >= 28]
    if not fitting:
        return data
    start, _, end = pick.choice(fitting)
    head = bytearray(data[start : start + 28])
    head[16:18], head[19], head[20:23] = bytes(2), head[19] & 0x3F | 1, bytes(3)
    head[24:28] = struct.pack("<I", end - start)
    head[16], head[17] = -(sum(head) - head[23]) & 0xFF, 0xAA
    return with_bytes(data, start, bytes(head))


def cut_end(pick: random.Random, data: bytes, spans: list[Span]) -> bytes:
    """Cuts the end of a volume."""
    places = [it[0] + pick.choice((0, 8, 30)) for it in spans]
    return data[: pick.choice((*places, len(data) - 1, len(data) - 8, pick.randrange(56, len(data) + 1)))]


def longer(pick: random.Random, data: bytes, spans: list[Span]) -> bytes:
    """Adds bytes after a volume."""
    return data + pick.choice((bytes(1), b"\xff" * 64, pick.randbytes(pick.randrange(1, 90))))


def moved_header(pick: random.Random, data: bytes, spans: list[Span]) -> bytes:
    """Puts a copy of the header before the volume, or moves the header."""
    length = int.from_bytes(data[48:50], "little")
    head = data[: min(max(length, 56), len(data))]
    return pick.choice((head + data, head + pick.randbytes(pick.randrange(40)) + data, pick.randbytes(8) + data, data[8:]))


def random_bytes(pick: random.Random, data: bytes, spans: list[Span]) -> bytes:
    """Changes any bytes, and usually has right checksums after it."""
    return broken(pick, data, spans) or data


def replaced_span(pick: random.Random, data: bytes, spans: list[Span]) -> bytes:
    """Copies bytes of one file over another, or over the header."""
    places = [0, *(it[0] for it in spans)]
    one, other, size = pick.choice(places), pick.choice(places), pick.choice((8, 24, 64, 300))
    return with_bytes(data, one, data[other : other + size])[: max(len(data), 56)]


ANOMALIES: dict[str, Anomaly] = {
    "file system": file_system,
    "revision": revision,
    "header sum": header_sum,
    "header length": header_length,
    "volume length": volume_length,
    "block map": block_map,
    "extended header": ext_place,
    "polarity": polarity,
    "field of a file": file_field,
    "another field of a file": file_field,
    "doubled name": doubled_name,
    "bytes in free space": free_bytes,
    "bytes between files": between_files,
    "header of a vendor": vendor_header,
    "cut end": cut_end,
    "bytes after a volume": longer,
    "moved header": moved_header,
    "random bytes": random_bytes,
    "copied bytes": replaced_span,
}


class ImageMaker(Maker):
    """Writes images. Files, sections, pads and deleted files may contain further images, each with anomalies of its
    own. All makers of an image share one budget."""

    def __init__(self, seed: str, budget: Budget, level: int = 0) -> None:
        super().__init__(seed)
        self.seed, self.budget, self.level, self.images = seed, budget, level, 0
        if level:
            self.chain, self.parts = 0, min(self.parts, 4)
        elif budget.left and self.happens(0.08):
            self.chain = DEEPEST + 1

    def slips_here(self, odds: int = 12) -> bool:
        return self.budget.left > 0 and self.pick.randrange(2 * odds) == 0 and self.budget.takes("slip")

    def payload(self) -> bytes:
        if self.level < LEVELS and self.parts and self.happens(0.07):
            return self.inner_image()
        return super().payload()

    def inner_image(self) -> bytes:
        """Returns an image for bytes without a structure."""
        self.images += 1
        inner = ImageMaker(f"{self.seed}/{self.images}", self.budget, self.level + 1)
        return inner.image(self.pick.choice((1, 1, 1, 2)))

    def gap(self) -> bytes:
        """Returns bytes between volumes."""
        pick = self.pick
        size = pick.choice((0, 0, 0, 8, 8, 64, 1, 4, pick.randrange(200)))
        return pick.choice((b"\xff" * size, bytes(size), pick.randbytes(size), pick.choice(WORDS) + bytes(size % 8)))

    def damaged(self, data: bytes, spans: list[Span]) -> bytes:
        """Returns a volume with some of the anomalies that are left."""
        for _ in range(3):
            if self.budget.left and self.happens(0.5):
                name = self.pick.choice(list(ANOMALIES))
                found = ANOMALIES[name](self.pick, data, spans) if len(data) >= 72 else data
                if found != data and self.budget.takes(name):
                    spans = spans if len(found) == len(data) else []
                    data = found
        return data

    def one_volume(self) -> bytes:
        """Returns a volume, perhaps with anomalies."""
        data = self.volume(0).data
        return self.damaged(data, self.spans)

    def image(self, count: int) -> bytes:
        """Returns an image of this many volumes and the gaps around them."""
        data = self.gap() if self.happens(0.6) else b""
        for _ in range(count):
            self.parts = 4
            data += self.one_volume() + (self.gap() if self.happens(0.7) else b"")
        if self.budget.left and self.level == 0 and self.happens(0.2) and self.budget.takes("bytes of the image"):
            data = changed(self.pick, data)
        return data or b"\xff"


def chain(pick: random.Random) -> bytes:
    """Returns volumes that are found in each other, one deeper than the next: in RAW files, pads, deleted files and
    sections with a tail. Some of them have a wrong header."""
    data = making.volume([making.file(making.guid(1), pick.randbytes(20))], 0)
    for level in range(pick.randrange(1, DEEPEST_FOUND + 1)):
        data = pick.choice((b"", b"", b"\xff", pick.randbytes(3))) + data + pick.choice((b"", b"", bytes(5)))
        name = making.guid(level)
        held = pick.choice(
            (
                making.file(name, data),
                making.pad(data),
                making.deleted(name, data),
                making.file(name, making.stream(making.section(making.RAW, data)), making.FREEFORM),
                making.file(name, making.stream(making.section(making.VOLUME, data + b"\0")), making.VOLUME_IMAGE),
                making.file(name, making.stream(making.section(making.VOLUME, data)), making.VOLUME_IMAGE),
                making.file(name, making.stream(making.guided(making.UNKNOWN, data)), making.VOLUME_IMAGE),
            )
        )
        data = making.volume([held], 0, None, pick.choice((making.FFS2, making.FFS3)))
        if pick.randrange(6) == 0:
            data = header_sum(pick, data, []) if pick.randrange(2) else revision(pick, data, [])
    return data


def side_by_side(pick: random.Random) -> bytes:
    """Returns many headers, which begin volumes side by side, in each other, or reaching past the end."""
    count, step = pick.randrange(1, 30), pick.choice((56, 72, 80, 64, 57))
    heads = list[bytes]()
    for number in range(count):
        length = pick.choice((72, step, count * step - number * step, step * 3, 1 << 20))
        head = making.Header(length, [(length // 8, 8)], pick.choice((making.FFS2, making.FFS3, STORE, VENDORS[0])))
        head.revision = pick.choice((2, 2, 1))
        heads.append(head.packed(pick.choice((0, 0, 1)))[:step].ljust(step, pick.choice((b"\0", b"\xff"))))
    return b"".join(heads)


def covering(pick: random.Random) -> bytes:
    """Returns a volume whose header is damaged, and which may cover another volume."""
    return making.covered(bool(pick.randrange(2)))


def streams(pick: random.Random) -> bytes:
    """Returns a volume with files whose sections are not aligned, are cut, or have wrong sizes or filler."""
    files = list[bytes]()
    for level in range(pick.randrange(1, 5)):
        data = b""
        for _ in range(pick.randrange(1, 6)):
            data += pick.choice((b"", bytes(-len(data) % 4), bytes(-len(data) % 4)))
            body = pick.choice((pick.randbytes(pick.randrange(12)), making.ui("N"), making.volume([], 80)))
            data += making.section(pick.choice((making.RAW, making.GROUP, making.VOLUME, 0x00, 0x15, 0x20)), body)
        data += pick.choice((b"", b"", bytes(4), b"\xff" * 16, pick.randbytes(3), bytes(1)))
        data = data[: len(data) - pick.choice((0, 0, 0, 1, 5))]
        files.append(making.file(making.guid(level), data, pick.choice((making.FREEFORM, making.DXE_DRIVER, 0x0F))))
    return making.volume(files, 0)


SPECIAL: tuple[Callable[[random.Random], bytes], ...] = (chain, chain, side_by_side, covering, streams, streams)


def make_image(seed: int, index: int) -> tuple[bytes, list[str]]:
    """Returns the image with this number, and the names of its anomalies."""
    name = f"{seed}/{index} survey"
    pick = random.Random(name)
    budget = Budget(pick.choice((0, 0, 1, 1, 1, 2, 2, 3, 3, 3)))
    if pick.random() < 0.25:
        make = pick.choice(SPECIAL)
        data = make(pick)
        budget.made.append(make.__name__)
        while budget.left and pick.randrange(2) and budget.takes("random bytes"):
            data = changed(pick, data) or b"\0"
        return data, budget.made
    return ImageMaker(name, budget).image(pick.choice((1, 1, 1, 2, 3))), budget.made

