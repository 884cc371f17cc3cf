# SPDX-License-Identifier: BSD-2-Clause-Patent
"""Makes images with one to five anomalies at random places and depths, and the truth beside them: what each byte was
made as, and each driver with its path, its digest, and whether it is lost in unreadable bytes. An image has volumes in
gaps, RAW files, pads, deleted files and sections, and packed sections of each way in each other.

An image is made twice: first without anomalies, which shows where they are possible, and then with some of them. The
truth comes from the maker, and not from a reader. A driver is lost if

- bytes of it are missing, or the header of its section is overwritten;
- a packed section around it is damaged, has a wrong CRC32, or is packed in an unknown way;
- the file system of the volume around it is unknown, or the erase polarity is wrong, so that no file has a state;
- its stream does not begin with a section, or its file is cut off or covered by a wrong size, or by a wrong length of
  the header of its volume, or by a copy of this header.

Other anomalies lose nothing. A volume with an unknown file system always has a header with a right sum, because
otherwise nothing says that there is a volume (docs/FORMAT.md, "A tolerant reading", rule 1)."""

from __future__ import annotations

import collections
import hashlib
import lzma
import random
import struct
import uuid
import zlib
from collections.abc import Callable, Mapping, Sequence
from dataclasses import dataclass, replace
from typing import Any

from tests import making
from tests.fuzz import vendors
from tests.fuzz.packer import extended
from tests.making import DELETED, FFS2, FFS3, FIXED, FREEFORM, HEADER_VALID, LARGE, MARKED, PAD_FILE, PE32, RAW_FILE
from tests.making import SECURITY_CORE, SUMMED, TOP_FILE, VALID, VOLUME_IMAGE
from tests.survey_laws.volumes import FFS1, STORE, VENDORS

TE = 0x12
STREAMS = (FREEFORM, *range(0x04, 0x10))  # types of files that contain sections
LEVELS = 5  # volumes and packed sections in each other
WORDS = (b"_FVH", b"_FVH" * 9, b"$MICROCODE", b"NVAR text of a vendor")
# Items that are not ranges. A missing part is the place of bytes that a volume has lost. The kind of a range is the
# kind of its rows.
PARTS = ("driver", "volume", "file", "packed section", "missing")
STORED, ANY = "stored", "any"  # ranges whose bytes may be in rows of more than one kind
COVERED, CUT = "covered by a volume that is cut off", "cut off"


@dataclass(frozen=True)
class Item:
    """A range of bytes of one kind, or a part. `path` has the offset of each packed section around it, from the
    outermost one on, and then its own offset. `digest` is the SHA-256 of a driver's body or of the contents of a packed
    section, and `lost` says why they cannot be read."""

    path: tuple[int, ...]
    length: int
    what: str
    digest: str = ""
    lost: str = ""

    @property
    def end(self) -> int:
        """The offset after the last byte."""
        return self.path[-1] + self.length


def starts_in(item: Item, place: Item) -> bool:
    """Returns whether an item starts in another item of the same source."""
    return item.path[:-1] == place.path[:-1] and place.path[-1] <= item.path[-1] < place.end


def digest_of(data: bytes) -> str:
    """Returns the SHA-256 of some bytes."""
    return hashlib.sha256(data).hexdigest()


class Piece:
    """Bytes, and what they were made as."""

    def __init__(self, data: bytes = b"", what: str = "") -> None:
        self.data, self.items = b"", list[Item]()
        self.stated = 0  # the size that the header of a file states
        self.put(data, what)

    def put(self, data: bytes, what: str) -> None:
        """Adds a range of bytes."""
        if data:
            self.items.append(Item((len(self.data),), len(data), what))
        self.data += data

    def add(self, other: Piece) -> None:
        """Adds another piece."""
        size = len(self.data)
        self.items += [replace(it, path=(it.path[0] + size, *it.path[1:])) for it in other.items]
        self.data += other.data

    def fill(self, step: int, byte: int) -> None:
        """Fills up to the next multiple of a step."""
        self.put(bytes([byte]) * (-len(self.data) % step), "filler")

    def mark(self, what: str, content: bytes = b"") -> None:
        """Notes that all bytes are a part, with these contents if there are any."""
        self.items.append(Item((0,), len(self.data), what, digest_of(content) if content else ""))

    def inside(self, what: str) -> list[Item]:
        """Returns the parts of this kind that are not in a packed section."""
        return [it for it in self.items if it.what == what and len(it.path) == 1]

    def lose(self, why: str, first: int = 0, end: int = 1 << 62, spared: Sequence[Item] = ()) -> None:
        """Notes that drivers and packed sections with bytes from `first` to `end` are lost, except in some parts."""
        ends = {it.path[0]: it.end for it in self.inside("packed section")}
        for number, it in enumerate(self.items):
            start = it.path[0]
            is_spared = any(part.path[0] <= start < part.end for part in spared)
            if it.digest and start < end and ends.get(start, it.end) > first and not is_spared:
                self.items[number] = replace(it, lost=it.lost or why)

    def blur(self, first: int, end: int) -> None:
        """Notes that the ranges with bytes from `first` to `end` may be in rows of any kind."""
        for number, it in enumerate(self.items):
            if it.what not in PARTS and len(it.path) == 1 and it.path[0] < end and it.end > first:
                self.items[number] = replace(it, what=ANY)

    def cut(self, size: int) -> None:
        """Cuts the end off. Parts of which bytes are missing are lost."""
        items, kept = [*self.items], [Item((size,), len(self.data) - size, "missing")]
        self.lose(CUT, size)
        gone = {it.path[0] for it in self.inside("packed section") if it.end > size}
        for it, before in zip(self.items, items):
            if it.digest and (not before.lost or it.path[0] < size) or len(it.path) > 1 and it.path[0] not in gone:
                kept.append(it)
            elif len(it.path) == 1 and it.path[0] < size:
                is_clipped = it.what not in PARTS and it.end > size
                kept.append(replace(it, length=size - it.path[0], what=ANY) if is_clipped else it)
        self.data, self.items = self.data[:size], kept


# Ways to pack contents


@dataclass(frozen=True)
class Way:
    """A way to pack contents: how the data are made of them, and how the section is made of the data and of the length
    of the contents. With `decodes`, the data are a stream that a decoder reads."""

    data: Callable[[bytes], bytes]
    section: Callable[[bytes, int], bytes]
    decodes: bool = True


def same(data: bytes) -> bytes:
    """Returns the contents as they are."""
    return data


def of_code(data: bytes) -> bytes:
    """Returns an LZMA stream after the filter of x86 code."""
    return making.compressed_code(data)[24:]


def with_marker(data: bytes) -> bytes:
    """Returns an LZMA stream with an end marker."""
    return lzma.compress(data, lzma.FORMAT_ALONE)


def tiano(data: bytes) -> bytes:
    """Returns data that are compressed as Tiano does."""
    return making.packed_by_tiano(data, 5)


def uefi(data: bytes) -> bytes:
    """Returns data that are compressed as the UEFI specification says."""
    return making.packed_by_tiano(data, 4)


def guided(kind: uuid.UUID, attributes: int = 1, fields: bytes = b"") -> Callable[[bytes, int], bytes]:
    """Returns the function that makes a GUID-defined section."""
    return lambda data, _: making.guided(kind, data, attributes, fields)


def typed(kind: int, before: bytes = b"") -> Callable[[bytes, int], bytes]:
    """Returns the function that makes a compression section of this CompressionType."""
    return lambda data, length: making.compression(before + data, length, kind)


WAYS: dict[str, Way] = {
    "LZMA": Way(vendors.of_lzma, guided(making.LZMA)),
    "LZMA with a marker": Way(with_marker, guided(making.LZMA)),
    "LZMA of HP": Way(vendors.of_lzma, guided(vendors.HP)),
    "LZMA of code": Way(of_code, guided(making.LZMA_X86)),
    "type 0x86": Way(of_code, typed(0x86)),
    "type 2": Way(vendors.of_lzma, typed(2)),
    "type 2 after four bytes": Way(vendors.of_lzma, typed(2, b"\xff" * 4)),
    "Tiano": Way(tiano, guided(making.TIANO)),
    "type 1 of Tiano": Way(tiano, typed(1)),
    "type 1 of UEFI": Way(uefi, typed(1)),
    "type 0": Way(same, typed(0), False),
    "CRC32": Way(same, lambda data, _: making.checked(data), False),
    "signed by RSA": Way(same, guided(vendors.RSA, 1, vendors.noise(64)), False),
    "signed": Way(same, guided(vendors.SIGNED, 2, vendors.noise(64)), False),
    "unknown, not processed": Way(same, guided(making.UNKNOWN, 0), False),
}
SLOW, MOST_SLOW = (tiano, uefi), 1200  # the packer of Tiano takes long


def damaged(pick: random.Random, way: Way, data: bytes, length: int) -> bytes:
    """Returns a section that no decoder opens: its stream is cut or has a wrong header, or its data begin after its
    end, or it has an unknown CompressionType."""
    if not way.decodes:
        section = bytearray(way.section(data, length))
        at, wrong = (8, b"\5") if section[3] == making.COMPRESSION else (20, b"\xf0\xff")
        section[at : at + len(wrong)] = wrong
        return bytes(section)
    half = data[: 13 + (len(data) - 13) // 2]
    wrong_stream = (b"\xe1" + data[1:], data[:13] + b"\1" + data[14:], half)
    wrong_block = (struct.pack("<I", len(data) + 900) + data[4:], half)
    return way.section(pick.choice(wrong_block if way.data in SLOW else wrong_stream), length)


# Images


@dataclass(frozen=True)
class Style:
    """The file system of a volume, the value of an erased byte, and whether its files have tails."""

    system: bytes
    erased: int
    has_tails: bool


class TruthMaker:
    """Makes an image. `chosen` has the anomalies of each place, by its number. `places` lists the anomalies that are
    possible at each place, and `made` the anomalies that were made."""

    def __init__(self, name: str, chosen: Mapping[int, set[str]]) -> None:
        self.pick, self.slip, self.chosen = random.Random(name), random.Random(f"{name} anomalies"), chosen
        self.places, self.made, self.left = list[tuple[str, ...]](), list[str](), 14

    def odd(self, *names: str) -> set[str]:
        """Returns which of these anomalies the next place has."""
        here = self.chosen.get(len(self.places), set()) & set(names)
        self.places.append(names)
        self.made += sorted(here)
        return here

    def happens(self, share: float) -> bool:
        """Returns true in this share of the calls."""
        return self.pick.random() < share

    def noise(self, least: int = 0) -> bytes:
        """Returns bytes without a structure, which are often all the same."""
        size = least + self.pick.choice((0, 8, 64, 1, 4, self.pick.randrange(200)))
        words = self.pick.choice(WORDS) + bytes(size)
        return self.pick.choice((b"\xff" * size, bytes(size), self.pick.randbytes(size), words))

    # Sections

    def section(self, kind: int, body: Piece) -> Piece:
        """Returns a section."""
        is_extended = self.happens(0.1)
        head = making.section_head(kind, len(body.data) + (8 if is_extended else 4), is_extended)
        out = Piece(head, "section-header")
        out.add(body)
        return out

    def driver(self) -> Piece:
        """Returns the section of a driver."""
        body = b"MZ" + self.pick.randbytes(self.pick.randrange(4, 150))
        out = self.section(self.pick.choice((PE32, PE32, TE)), Piece(body, "body"))
        out.mark("driver", body)
        return out

    def leaf(self) -> Piece:
        """Returns a small section."""
        name = "N\0".encode("utf-16-le")
        kinds = (making.DXE_DEPEX, b"\6\x08"), (making.UI, name), (making.RAW, self.pick.randbytes(9)), (0x19, b"")
        kind, body = self.pick.choice(kinds)
        return self.section(kind, Piece(body, "body"))

    def volume_section(self, room: int) -> Piece:
        """Returns a section with a volume, which is not always the whole body."""
        odd = self.odd("bytes after a volume in a section", "bytes before a volume in a section")
        kind = self.pick.choice((making.VOLUME, making.VOLUME, making.RAW, making.SUBTYPE))
        body = Piece(self.pick.randbytes(16) if kind == making.SUBTYPE else b"", "body")
        if "bytes before a volume in a section" in odd:
            body.put(bytes(12), "body")
        body.add(self.volume(room))
        if "bytes after a volume in a section" in odd:
            body.put(self.slip.choice((b"\xff" * 64, bytes(9), self.slip.randbytes(30))), "body")
        return self.section(kind, body)

    def packed(self, room: int) -> Piece:
        """Returns a packed section."""
        contents = self.stream(self.parts(room))
        way = WAYS[self.pick.choice(list(WAYS))]
        if way.data in SLOW and len(contents.data) > MOST_SLOW:
            way = WAYS["LZMA"]
        tails = "bytes after packed data", "volume after packed data"
        own = ("wrong CRC32",) if way is WAYS["CRC32"] else tails if way.decodes else ()
        odd = self.odd("damaged packed section", "unknown way to pack", *own)
        data, length = way.data(contents.data), len(contents.data)
        lost, tail = "", Piece(b"\xff" * 37 if "bytes after packed data" in odd else b"", "packed")
        if "volume after packed data" in odd:  # without packed sections, which are not opened there
            tail.add(TruthMaker(f"{self.slip.random()}", {}).volume(0))
        section = way.section(data + tail.data, length)
        if "wrong CRC32" in odd:
            lost, section = "wrong CRC32", making.checked(data, 1 << self.slip.randrange(32))
        if "damaged packed section" in odd:
            lost, section, tail = "damaged", damaged(self.slip, way, data, length), Piece()
        if "unknown way to pack" in odd:
            guid = self.slip.choice((vendors.AMD, vendors.GZIP, making.BROTLI, making.UNKNOWN))
            lost, section, tail = "packed in an unknown way", making.guided(guid, data), Piece()
        section = extended(section) if self.happens(0.1) and not lost else section
        return self.around(section, contents, STORED if data == contents.data else "packed", lost, tail)

    @staticmethod
    def around(section: bytes, contents: Piece, what: str, lost: str, tail: Piece) -> Piece:
        """Returns a packed section with what was made in its contents. Its body ends with a tail."""
        head = 8 if section[:3] == b"\xff\xff\xff" else 4
        out = Piece(section[:head], "section-header")
        out.put(section[head : len(section) - len(tail.data)], what)
        out.add(tail)
        out.items += [replace(it, path=(0, *it.path)) for it in contents.items]
        out.mark("packed section", contents.data)
        if lost:
            out.lose(lost)
        return out

    def stream(self, parts: Sequence[Piece]) -> Piece:
        """Returns a stream of these sections."""
        odd = self.odd("bytes before sections", "sections at odd places", "bytes after sections", "section too long")
        out, start = Piece(bytes(12) if "bytes before sections" in odd else b"", "unread"), 0
        for part in parts:
            if "sections at odd places" not in odd:
                out.fill(4, 0)
            start = len(out.data)
            out.add(part)
        if "section too long" in odd and out.data[start : start + 3] != b"\xff\xff\xff":
            size = int.from_bytes(out.data[start : start + 3], "little") + self.slip.choice((400, 1 << 16))
            out.data = out.data[:start] + size.to_bytes(3, "little") + out.data[start + 3 :]
            out.lose("too long", start, len(out.data), out.inside("volume"))
        if "bytes after sections" in odd:
            out.fill(4, 0)
            tail = self.slip.choice((bytes(16), b"\xff" * 16, self.slip.randbytes(24)))
            out.put(tail, ANY if "sections at odd places" in odd else "unread")
        if "bytes before sections" in odd:
            out.lose("no section begins the stream", spared=out.inside("volume"))
        return out

    def parts(self, room: int) -> list[Piece]:
        """Returns some sections."""
        return [self.part(room) for _ in range(self.pick.randrange(1, 4))]

    def part(self, room: int) -> Piece:
        """Returns any section."""
        self.left -= 1
        roll = self.pick.random()
        if roll < 0.35 or room <= 0 or self.left <= 0:
            return self.driver()
        if roll < 0.45:
            return self.leaf()
        if roll < 0.55:
            return self.section(making.GROUP, self.stream(self.parts(room - 1)))
        return self.volume_section(room - 1) if roll < 0.75 else self.packed(room - 1)

    # Files

    def head(self, data: bytes, kind: int, style: Style, odd: set[str], **change: Any) -> tuple[bytes, int]:
        """Returns the header of a file with these data, and the size that it states."""
        pick, is_tailed, is_vendors = self.pick, style.has_tails, "file header of a vendor" in odd
        attributes = pick.choice((0, SUMMED)) | 8 * pick.randrange(8)
        attributes |= LARGE * (style.system == FFS3 and self.happens(0.1))
        size = len(data) + (32 if attributes & LARGE else 28 if is_vendors else 24) + 2 * is_tailed
        if "wrong data sum" in odd:
            change["file_sum"] = making.data_sum(attributes, data) ^ 1 << self.slip.randrange(8)
        if "wrong header sum of a file" in odd:
            change["head_sum"] = 1
        if "reserved bit of a state" in odd:
            change["state"] = VALID | self.slip.choice((0x40, 0x80))
        right = size
        if "wrong size of a file" in odd:
            size += self.slip.choice((8, 64, 400, -4, -16))
            if kind not in STREAMS:  # without a wrong sum, nothing is wrong with the file
                change["head_sum"] = making.sum8(right.to_bytes(3, "little")) - making.sum8(size.to_bytes(3, "little"))
        attributes |= FIXED * ("fixed file" in odd)
        head = vendors.stored(0, data, kind, attributes, size=size, erased=style.erased, **change)
        if attributes & LARGE:
            return head[:32], size
        if is_vendors:  # its size is 0, and 4 bytes after the header have the size
            wide = bytearray(head[:20] + bytes(3) + head[23:24] + struct.pack("<I", size))
            wide[19] |= LARGE
            wide[16] = making.sum8(wide[:16] + wide[18:23] + wide[24:]) ^ ("wrong header sum of a file" in odd)
            return bytes(wide), size
        tailed = bytes([(head[16] - is_tailed) % 256]) + head[17:19] + bytes([head[19] | is_tailed])
        return head[:16] + tailed + head[20:24], size

    def file(self, kind: int, data: Piece, style: Style, name: uuid.UUID, state: int = VALID) -> Piece:
        """Returns a file."""
        fields = "wrong data sum", "wrong header sum of a file", "wrong size of a file"
        odd = self.odd(*fields, "reserved bit of a state", "fixed file", "file header of a vendor")
        odd -= {"file header of a vendor"} if style.system in (FFS3, FFS1) else set()
        head, stated = self.head(data.data, kind, style, odd, state=state, name=name)
        out = Piece(head, "file-header")
        out.add(data)
        out.put(bytes(2) if style.has_tails else b"", "filler")
        out.mark("file")
        out.stated = stated
        return out

    def loose(self, what: str, room: int) -> Piece:
        """Returns bytes without a structure, perhaps with a volume in them."""
        out = Piece(b"\x5a" + self.noise(), what)
        if room > 0 and self.left > 0 and self.happens(0.5):
            out.add(self.volume(room - 1))
            out.put(self.noise(), what)
        return out

    def cell(self, style: Style, name: uuid.UUID, room: int, is_first: bool) -> Piece:
        """Returns a file of any type, or a header that was never finished. The first file is a driver."""
        pick, roll = self.pick, self.pick.random()
        if roll < 0.35 or is_first:
            sections = self.stream([self.leaf(), self.driver(), self.leaf()])
            kind = pick.choice((0x04, 0x06, making.DXE_DRIVER, 0x09, 0x0A))
            return self.file(kind, sections, style, name, pick.choice((VALID, VALID, VALID, MARKED)))
        if roll < 0.65:
            return self.file(pick.choice((VOLUME_IMAGE, FREEFORM)), self.stream(self.parts(room)), style, name)
        if roll < 0.75:
            kind = pick.choice((RAW_FILE, RAW_FILE, 0xC5, SECURITY_CORE))
            return self.file(kind, self.loose("data", room), style, name)
        if roll < 0.8:
            return self.file(PAD_FILE, Piece(bytes([style.erased]) * pick.randrange(60), "pad"), style, name)
        if roll < 0.87:
            return self.file(PAD_FILE, self.loose("pad-data", room), style, name)
        if roll < 0.95:
            return self.file(RAW_FILE, self.loose("deleted", room), style, name, pick.choice((DELETED, HEADER_VALID)))
        begun = bytearray(pick.randbytes(24))
        begun[19], begun[23] = begun[19] & ~LARGE, style.erased ^ making.CONSTRUCTION
        return Piece(bytes(begun), "unfinished")

    # Volumes

    def stateless(self, style: Style, size: int) -> bytes:
        """Returns random bytes of which none is the state of a file."""
        return bytes((0x80 | self.slip.randrange(0x80)) ^ style.erased for _ in range(size))

    def body(self, style: Style, room: int, odd: set[str]) -> Piece:
        """Returns the files of a volume, and its free space."""
        names = [uuid.UUID(bytes=self.pick.randbytes(16)) for _ in range(self.pick.randrange(1, 5))]
        if "doubled name" in odd:
            names[-1] = names[0]
        if "early top file" in odd:
            names[0] = TOP_FILE
        out, place, stated = Piece(), self.slip.randrange(len(names) + 1), list[tuple[int, int]]()
        for number, name in enumerate(names):
            if "bytes between files" in odd and number == place:
                size = 8 * self.slip.choice((3, 9, 512))
                out.put(self.slip.choice((bytes(size), b"\xff" * size, self.stateless(style, size))), ANY)
            cell = self.cell(style, name, room, number == 0)
            stated.append((len(out.data), cell.stated))
            out.add(cell)
            out.fill(8, style.erased)
        erased = bytes([style.erased])
        out.put(erased * 8 * self.pick.choice((0, 1, 4, self.pick.randrange(60))), "free")
        if "bytes in free space" in odd:
            out.put(erased * 24, "free")
            out.put(self.stateless(style, 8 * self.slip.randrange(1, 9)), "unread")
            out.put(erased * 40, "free")
        for start, size in stated:
            self.misplace(out, start, size)
        return out

    @staticmethod
    def misplace(out: Piece, start: int, stated: int) -> None:
        """Notes what a wrong size of the file at an offset cuts off or covers."""
        end = next((it.end for it in out.inside("file") if it.path[0] == start), start)
        if stated in (0, end - start):
            return
        stated_end, files = start + stated, [it for it in out.inside("file") if it.path[0] >= end]
        covered = max((it.end for it in files if it.path[0] < stated_end), default=stated_end)
        first = start if stated_end > len(out.data) else min(end, stated_end)
        out.lose("a wrong size of a file", first, max(end, covered))
        following = min((it.end for it in files if it.path[0] >= covered), default=covered)
        out.blur(start, max(end, following) + 8)

    def front(self, first: int) -> tuple[int, Piece]:
        """Returns where the extended header of a volume is, whose header ends at an offset, and the bytes from this
        offset to the end of the extended header. The offset is 0 if there is no extended header."""
        out = Piece()
        if self.happens(0.75):
            return 0, out
        before = self.pick.choice((0, 24, self.pick.randrange(40)))
        out.put(self.pick.randbytes(before), "between")
        rest = self.pick.randbytes(self.pick.randrange(20))
        out.put(self.pick.randbytes(16) + struct.pack("<I", 20 + len(rest)) + rest, "ext-header")
        out.put(b"\xff" * (-(first + len(out.data)) % 8), "filler")
        return first + before, out

    def spoil(self, header: making.Header, first: int, odd: set[str]) -> None:
        """Changes the fields of a volume header that are odd."""
        slip, length = self.slip, header.length
        if "revision" in odd:
            header.revision = slip.choice((1, 1, 3))
        if "wrong block map" in odd:
            header.block_map = [(slip.choice((1, length)), 8), *header.block_map[1:]]
        if "wrong HeaderLength" in odd:
            header.header_length = slip.choice((0, 57, first + 8, 2120, 0xFFFF))
        if "wrong ExtHeaderOffset" in odd:
            header.place = slip.choice((1, first - 8, length & 0xFFFF, 0xFFFF))
        if "wrong FvLength" in odd:
            header.length = slip.choice((length - 8, length // 2 & ~7, length + 8, length + 4096, 1 << 40, 0, 56))
        if "wrong erase polarity" in odd:
            header.attributes ^= 0x800

    def volume(self, room: int) -> Piece:
        """Returns a volume."""
        pick, slip = self.pick, self.slip
        fields = "revision", "wrong block map", "wrong HeaderLength", "wrong ExtHeaderOffset", "wrong FvLength"
        unknown = making.UNKNOWN.bytes_le
        systems = {"file system of a vendor": VENDORS, "FFS1": (FFS1,), "unknown file system": (unknown,)}
        others = "doubled name", "early top file", "bytes between files", "bytes in free space", "cut volume"
        odd = self.odd("wrong sum of a volume header", *fields, "wrong erase polarity", *systems, *others)
        if odd & {"wrong sum of a volume header", "wrong HeaderLength"}:
            odd -= {"unknown file system"}
        system, erased = pick.choice((FFS2, FFS3)), 0xFF if self.happens(0.8) else 0
        for name, choices in systems.items():
            system = slip.choice(choices) if name in odd else system
        style = Style(system, erased, system == FFS1 and slip.random() < 0.5)
        entries = pick.choice((1, 1, 2))
        place, front = self.front(64 + 8 * entries)
        body = self.body(style, room, odd)
        length = 64 + 8 * entries + len(front.data) + len(body.data)
        header = making.Header(length, [(length // 8, 8), (0, 1)][:entries], system, place)
        header.attributes = pick.getrandbits(32) & ~0x800 | 0x800 * (erased == 0xFF)
        header.zero = pick.choice((bytes(16), pick.randbytes(16)))
        self.spoil(header, 64 + 8 * entries, odd)
        out = Piece(header.packed(int("wrong sum of a volume header" in odd)), "volume-header")
        out.add(front)
        out.add(body)
        files = out.inside("file")
        if "unknown file system" in odd:
            out.lose("unknown file system", spared=out.inside("volume"))
        if "wrong erase polarity" in odd:
            out.lose("wrong erase polarity", spared=out.inside("volume"))
        if header.length < length:
            out.lose("after FvLength", header.length if header.length > 72 else length)
        if header.header_length == 72 + 8 * entries:
            out.lose("covered by the header", 0, max(72 + 8 * entries, files[0].end if files else 0))
        out.items.append(Item((0,), length, "volume"))
        if "cut volume" in odd:
            out.cut(slip.choice((length - 1, length - 8, slip.randrange(64 + 8 * entries, length))))
        return out

    def store(self) -> Piece:
        """Returns a variable store."""
        data = b"\xaa\x55" + self.pick.randbytes(30) + b"\xff" * 8 * self.pick.randrange(20)
        data += bytes(-len(data) % 8)
        out = Piece(making.Header(72 + len(data), [(9 + len(data) // 8, 8)], STORE).packed(), "volume-header")
        out.put(data, "store")
        out.mark("volume")
        return out

    @staticmethod
    def copy_header(out: Piece, volume: Piece) -> None:
        """Puts a copy of the header before a volume. The volume of the copy ends before the volume."""
        end = len(volume.data) - 72
        first = min((it.path[0] for it in volume.inside("file") if it.end > end), default=end)
        volume.lose("after the volume of a copied header", min(first, end))
        volume.blur(0, len(volume.data))
        out.put(volume.data[:72], ANY)

    def image(self) -> Piece:
        """Returns an image."""
        out = Piece()
        for _ in range(self.pick.choice((1, 1, 2, 2, 3))):
            out.put(self.noise(), "gap")
            odd = self.odd("copy of a volume header")
            volume = self.volume(LEVELS)
            if odd:
                self.copy_header(out, volume)
            start = len(out.data)
            out.add(volume)
            if self.happens(0.2):
                out.put(self.noise(), "gap")
                out.add(self.store())
        if self.odd("cut image"):
            out.cut(self.slip.randrange(start + 72, start + len(volume.data)))
        else:
            out.put(self.noise(), "gap")
        return out


@dataclass(frozen=True)
class Truth:
    """An image, its anomalies, and what was made in it."""

    image: bytes
    anomalies: Sequence[str]
    items: Sequence[Item]


def covered(items: Sequence[Item]) -> list[Item]:
    """Returns the items. The drivers and packed sections of a volume that begins where bytes of a volume before it are
    missing are lost: the volume before it covers the header."""
    places = [it for it in items if it.what == "missing"]
    hidden = [it for it in items if it.what == "volume" and any(starts_in(it, place) for place in places)]
    if not hidden:
        return list(items)
    depths = {len(it.path) for it in hidden}

    def is_hidden(item: Item) -> bool:
        heads = (replace(item, path=item.path[:depth]) for depth in depths if len(item.path) >= depth)
        return any(starts_in(head, volume) for head in heads for volume in hidden)

    return [replace(it, lost=COVERED) if it.digest and is_hidden(it) else it for it in items]


def make_truth(seed: int, index: int) -> Truth:
    """Returns the image with this number, and its truth."""
    name = f"{seed}/{index} truth"
    plain, pick = TruthMaker(name, {}), random.Random(f"{name} places")
    plain.image()
    possible, chosen = collections.defaultdict[str, list[int]](list), collections.defaultdict[int, set[str]](set)
    for number, names in enumerate(plain.places):
        for anomaly in names:
            possible[anomaly].append(number)
    for _ in range(pick.randint(1, 5)):
        anomaly = pick.choice(sorted(possible))
        chosen[pick.choice(possible[anomaly])].add(anomaly)
    maker = TruthMaker(name, chosen)
    made = maker.image()
    return Truth(made.data, maker.made, covered(made.items))
