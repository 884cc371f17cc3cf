# SPDX-License-Identifier: BSD-2-Clause-Patent
"""Writes random volumes by docs/FORMAT.md, with the lines that `list` writes of them: valid volumes, and volumes that
break rules of the format. The expected lines come from what was written, and not from a reader."""

import itertools
import random
import struct
import uuid
from collections.abc import Callable, Iterable
from dataclasses import dataclass, field

from tests import making
from tests.fuzz.packer import some_section
from tests.making import CONSTRUCTION, DELETED, DXE_DEPEX, FFS2, FFS3, FIXED, GROUP, HEADER_INVALID, HEADER_VALID, LARGE
from tests.making import MARKED, MM_DEPEX, MOST_SHORT, PAD_FILE, PEI_DEPEX, RAW_FILE, SECOND_TABLE, SECURITY_CORE
from tests.making import SUBTYPE, SUMMED, UI, VALID, VERSION, VOLUME, Header, data_sum

DEEPEST = 8  # groups and nested volumes
LEAVES = (0x01, 0x02, 0x10, DXE_DEPEX, VERSION, UI, VOLUME, SUBTYPE, 0x19, 0x19, PEI_DEPEX, MM_DEPEX, 0x00, 0xFF)
STREAMS = (0x02, *range(0x04, 0x10))  # types of files that contain sections
PLAIN = (0x01, 0x01, 0x03, 0x00, 0x10, 0xC0, 0xF1, 0xFF)
ALIGNMENTS = [1 << bits for bits in (0, 4, 7, 9, 10, 12, 15, 16, 17, 18, 19, 20, 21, 22, 23, 24)]
TOP_FILE = making.TOP_FILE.bytes_le
# The place of a file in a volume: where it starts, where its header ends, and where it ends.
Span = tuple[int, int, int]


@dataclass(frozen=True)
class Part:
    """The bytes of a part, and the lines that `list` writes of it."""

    data: bytes
    lines: list[str]


def guid_text(guid: bytes) -> str:
    """Returns a GUID as the program writes it."""
    return str(uuid.UUID(bytes_le=guid))


def indented(lines: Iterable[str]) -> list[str]:
    """Returns the lines two spaces further in."""
    return ["  " + line for line in lines]


def units_of(body: bytes) -> tuple[int, ...] | None:
    """Returns the 16-bit units of a text, which end with their only zero, without this zero."""
    *units, last = struct.unpack(f"<{len(body) // 2}H", body) if body and len(body) % 2 == 0 else (1,)
    return None if last or 0 in units else tuple(units)


def leaf_note(kind: int, body: bytes) -> str:
    """Returns the text that `list` writes at the end of the line of a leaf."""
    units = units_of(body)
    if kind == VERSION and units_of(body[2:]) is not None:
        return f" version {int.from_bytes(body[:2], 'little')}"
    if kind == UI and units is not None:
        shown = (chr(it) if 0x20 <= it <= 0x7E and it not in b'"\\' else f"\\u{it:04x}" for it in units)
        return f' ui "{"".join(shown)}"'
    if kind == SUBTYPE and len(body) >= 16:
        return f" subtype {guid_text(body[:16])}"
    return ""


@dataclass
class Body:
    """The body of a volume that is being written: its file system, the value of an erased byte, the offset of the body,
    the groups and volumes around its files, the bytes that are written so far, the lines of each file, and the places
    of the files."""

    is_ffs3: bool
    erased: int
    first: int
    depth: int
    data: bytearray = field(default_factory=bytearray)
    files: list[list[str]] = field(default_factory=list)
    spans: list[Span] = field(default_factory=list)

    @property
    def end(self) -> int:
        """The offset in the volume at which the written part of the body ends."""
        return self.first + len(self.data)


class Maker:
    """Writes volumes by docs/FORMAT.md. `pick` chooses the meaning of a volume and the places of its parts, and `dust`
    the bytes that are not part of a meaning: two makers with the same seed and different dust write two volumes with
    the same meaning. `slips` is the largest number of places at which the rules of the format may be broken, and `made`
    the number of places at which they are broken so far. Makers with the same arguments write the same volumes."""

    def __init__(self, seed: str, dust: int = 0, slips: int = 0) -> None:
        self.pick, self.dust = random.Random(seed), random.Random(f"{seed} {dust}")
        self.slips, self.made = slips, 0
        self.parts: int = self.pick.choice((4, 12, 30))  # how many cells and sections are still made
        # The depth at which the first parts nest.
        self.chain: int = self.pick.choice((0, 0, 0, 0, 0, 0, 2, 4, DEEPEST, DEEPEST + (slips > 0)))
        self.spans: list[Span] = []  # the files of the volume that was written last

    def slips_here(self, odds: int = 12) -> bool:
        """Returns whether a rule is broken at this place, and counts it."""
        if self.made < self.slips and self.pick.randrange(odds) == 0:
            self.made += 1
            return True
        return False

    def happens(self, share: float) -> bool:
        """Returns true in this share of the calls."""
        return self.pick.random() < share

    def few(self, most: int) -> int:
        """Returns a small number, which is zero if enough parts were made."""
        count = min(self.pick.randrange(most + 1), self.parts)
        self.parts -= count
        return count

    def name(self) -> bytes:
        """Returns a GUID."""
        return self.pick.randbytes(16)

    def payload(self) -> bytes:
        """Returns bytes for a file or a leaf."""
        return self.pick.randbytes(self.pick.choice((0, 1, 4, 8, 8, 24, self.pick.randrange(100), 256)))

    def filler(self, count: int, usual: int) -> bytes:
        """Returns bytes that are not part of a meaning: the bytes of the canonical image, or other bytes."""
        return bytes([usual]) * count if self.dust.random() < 0.5 else self.dust.randbytes(count)

    def value(self, height: int) -> bytes:
        """Returns ops that leave one value on the stack."""
        if height == 0:
            return self.pick.choice((b"\x02" + self.name(), b"\x06", b"\x07"))
        if self.happens(0.3):
            return self.value(height - 1) + b"\x05"
        return self.value(height - 1) + self.value(0) + self.pick.choice((b"\x03", b"\x04"))

    def expression(self) -> bytes:
        """Returns a dependency expression, which is often wrong: no volume is rejected for a wrong expression."""
        ops = self.value(self.pick.randrange(4))
        if self.happens(0.2):
            ops = b"\x09" + ops
        elif self.happens(0.2):
            ops = self.pick.choice((b"\x00", b"\x01")) + self.name()
        ops += b"\x08" + self.pick.randbytes(self.pick.choice((0, 0, 1, 3)))
        if self.happens(0.4):
            at = self.pick.randrange(len(ops))
            ops = ops[:at] + self.pick.randbytes(self.pick.randrange(2)) + ops[at + 1 :]
        return ops

    def block_pair(self, product: int) -> tuple[int, int]:
        """Returns a number of blocks and their length, not both zero, with this product."""
        if product == 0:
            return self.pick.choice(((0, self.pick.randrange(1, 1 << 32)), (self.pick.randrange(1, 1 << 32), 0)))
        number = self.pick.choice([it for it in (1, 2, 8, 64, product) if product % it == 0])
        return number, product // number

    def block_map(self, entries: int, length: int) -> list[tuple[int, int]]:
        """Returns pairs whose products add up to the length."""
        pairs: list[tuple[int, int]] = []
        left = length
        for _ in range(entries - 1):
            pairs.append(self.block_pair(self.pick.choice((0, min(8, left), self.pick.randrange(left + 1)))))
            left -= pairs[-1][0] * pairs[-1][1]
        pairs.append(self.block_pair(left))
        if entries >= 3 and self.slips_here(30):  # a sum of 2 ^ 64 and the length
            pairs[:3] = (0xFFFFFFFF, 0xFFFFFFFF), (2, 0xFFFFFFFF), (1, length + 1)
        return pairs

    def ext_header(self) -> bytes:
        """Returns an extended header: its name, its entries, and a tail, which may begin further entries."""
        rest = b""
        for _ in range(self.pick.randrange(4)):
            kind = self.pick.choice((1, 2, 3, 3, self.pick.getrandbits(16)))
            payload = self.pick.randbytes(self.pick.choice((0, 3, 5, 16, self.pick.randrange(40))))
            if kind == 3 and self.happens(0.7):
                payload = self.filler(4, 0)  # the value of a used size
            rest += struct.pack("<HH", 4 + len(payload), kind) + payload
        rest += self.pick.randbytes(self.pick.choice((0, 0, 1, 3, 5, self.pick.randrange(30))))
        if self.happens(0.005):
            rest += self.pick.randbytes(65535 - 20 - len(rest))
        size = 20 + len(rest)
        if self.slips_here():
            size = self.pick.choice((0, 19, 65535, 65536, size + 4096, (1 << 32) - 1))
        return self.name() + struct.pack("<I", size) + rest

    def kept_whole(self, make: Callable[[int], Part]) -> bytes:
        """Returns the bytes that `make` writes, which all are part of the meaning."""
        dust, self.dust = self.dust, random.Random(self.pick.getrandbits(64))
        data = make(DEEPEST).data
        self.dust = dust
        return data

    # Sections

    def leaf_body(self, kind: int) -> bytes:
        """Returns the body of a leaf of this type."""
        if kind == VOLUME:
            # A volume that is one byte too long is not opened.
            return self.kept_whole(self.volume) + b"\0" if self.parts else self.payload()
        if kind in (UI, VERSION):  # a text, after a number in a version
            ranges = [self.pick.choice(((0x20, 0x7F), (1, 1 << 16))) for _ in range(self.pick.randrange(7))]
            text = [self.pick.randrange(*it) for it in ranges]
            body = self.pick.randbytes(2 * (kind == VERSION)) + struct.pack(f"<{len(text) + 1}H", *text, 0)
        else:
            body = self.expression() if kind in (DXE_DEPEX, PEI_DEPEX, MM_DEPEX) else self.payload()
        return body[:-1] if body and self.happens(0.1) else body

    def section(self, number: int, depth: int) -> Part:
        """Returns a section."""
        must_nest = depth < self.chain
        if depth + 1 == self.chain:
            self.chain = 0
        if (must_nest or self.happens(0.15)) and (depth < DEEPEST or self.slips_here(1 + 9 * (not must_nest))):
            kind = self.pick.choice((GROUP, VOLUME))
            inner = self.stream(depth + 1) if kind == GROUP else self.volume(depth + 1)
        else:
            kind = self.pick.choice(LEAVES)
            inner = Part(self.leaf_body(kind), [])
        length = len(inner.data)
        is_extended = self.happens(0.2) or length + 4 >= MOST_SHORT
        size: int = length + (8 if is_extended else 4)
        about = f"section {number} type {kind:02x} {'extended' if is_extended else 'short'} body {length}"
        if self.slips_here():
            size = self.pick.choice((0, 3, 4, 7, size - 1, size + 1, size + 8, MOST_SHORT - 1))
        data = making.section_head(kind, size, is_extended) + inner.data
        return Part(data, [about + leaf_note(kind, inner.data), *indented(inner.lines)])

    def packed_section(self, number: int) -> Part:
        """Returns a compression section or a GUID-defined section, which `list` shows as a leaf."""
        data = some_section(self.pick).data
        head, form = (8, "extended") if data.startswith(b"\xff\xff\xff") else (4, "short")
        return Part(data, [f"section {number} type {data[3]:02x} {form} body {len(data) - head}"])

    def stream(self, depth: int) -> Part:
        """Returns the sections of a file or a group."""
        data, lines = b"", list[str]()
        for number in range(max(self.few(4), depth < self.chain)):
            is_packed = depth >= self.chain and self.happens(0.08)
            part = self.packed_section(number) if is_packed else self.section(number, depth)
            data += self.filler(-len(data) % 4, 0) + part.data
            lines += part.lines
        if data:
            data += self.filler(self.pick.randrange(-len(data) % 4 + 1), 0)
        if self.slips_here():
            data += self.filler(self.pick.randrange(1, 4), 0)
        return Part(data, lines)

    # Files and the other cells of a body

    def state(self, body: Body, state: int) -> int:
        """Returns the byte of a state, in which bits below the highest may be missing."""
        top: int = 1 << state.bit_length() - 1
        byte = top | self.dust.getrandbits(8) & (top - 1)
        return body.erased ^ (self.pick.choice((0, byte | 0x40, byte | 0x80)) if self.slips_here(40) else byte)

    def file(self, body: Body, name: bytes, kind: int, attributes: int, data: bytes, state: int) -> bytes:
        """Returns a file with right checksums. Its header is large if it has the attribute LARGE."""
        size: int = len(data) + (32 if attributes & LARGE else 24)
        if self.slips_here(40):
            size = self.pick.choice((0, 23, 24, 31, size - 1, size + 1, size + 8, MOST_SHORT))
        sums = data_sum(attributes, data)
        head = bytearray(making.file_head(name, kind, attributes, size, sums, self.state(body, state)))
        if attributes & LARGE and self.slips_here(40):  # a large header with a short size too
            head[20], head[16] = 1, (head[16] - 1) % 256
        for at in (16, 17):
            head[at] ^= self.slips_here(40) and 1 << self.pick.randrange(8)
        return bytes(head) + data

    def passed_over(self, body: Body, size: int, kind: int, state: int) -> bytes:
        """Returns a cell. The program reads only its header checksum and its size."""
        large = LARGE if body.is_ffs3 and size >= 32 and self.happens(0.2) else 0
        name = self.dust.choice((b"\xff" * 16, self.dust.randbytes(16)))
        attributes = self.dust.choice((0, 0, FIXED, SUMMED | 0x38)) | large
        data = self.filler(size - (32 if large else 24), body.erased)
        cell = self.file(body, name, kind, attributes, data, state)
        return cell[:17] + self.filler(1, 0xAA) + cell[18:]

    def pad(self, body: Body, size: int) -> bytes:
        """Returns a pad file of this size."""
        return self.passed_over(body, size, PAD_FILE, self.dust.choice((VALID, MARKED)))

    def dead(self, body: Body) -> bytes:
        """Returns a deleted file, or a file whose data are not valid."""
        state = self.pick.choice((HEADER_VALID, DELETED))
        return self.passed_over(body, 24 + self.pick.randrange(60), self.dust.choice((0x01, 0x02, PAD_FILE)), state)

    def stub(self, body: Body) -> bytes:
        """Returns a header under construction, or an invalid header."""
        large = self.pick.randrange(2)
        stub = bytearray(self.dust.randbytes(32 if large else 24))
        stub[19] = stub[19] & 0xFE | large
        stub[23] = self.state(body, self.pick.choice((CONSTRUCTION, HEADER_INVALID)))
        return bytes(stub)

    def attributes(self, body: Body) -> int:
        """Returns attributes of a valid file."""
        attributes = SUMMED * self.happens(0.5) | 0x80 * self.happens(0.1) | SECOND_TABLE * self.happens(0.01)
        attributes |= self.pick.choice((1, 1, 1, 2, 2, 3, 3, 4, 4, 5, 6, 7)) * 8 * self.happens(0.35)
        attributes |= LARGE if (body.is_ffs3 and self.happens(0.2)) or self.slips_here(30) else 0
        return attributes | FIXED * self.slips_here(30)

    def gap_before(self, place: int, attributes: int) -> int:
        """Returns how many bytes bring the data of a file with these attributes to their alignment."""
        alignment = ALIGNMENTS[(attributes >> 3 & 7) + (8 if attributes & SECOND_TABLE else 0)]
        if alignment > 4096 and self.happens(0.9) or self.happens(0.2):
            return 0
        gap = -(place + (32 if attributes & LARGE else 24)) % alignment
        while 0 < gap < 24:
            gap += alignment
        return gap if gap < 300000 else 0

    def fill(self, body: Body) -> None:
        """Fills a body up to the next multiple of 8."""
        body.data += self.filler(-len(body.data) % 8, body.erased)

    def put_file(self, body: Body, name: bytes, kind: int, attributes: int, content: Part, state: int) -> None:
        """Adds a file to a body, with its lines."""
        start, data = body.end, content.data
        body.data += self.file(body, name, kind, attributes, data, state)
        body.spans.append((start, start + (32 if attributes & LARGE else 24), body.end))
        about = f"file {len(body.files)} {guid_text(name)} type {kind:02x}"
        about += f" attributes {attributes & ~LARGE:02x} data {len(data)}"
        body.files.append([about, *indented(content.lines)])

    def valid_file(self, body: Body, name: bytes, depth: int, state: int = VALID) -> None:
        """Adds a file that is part of the volume. A pad precedes the file if its alignment requires a pad."""
        kind = self.pick.choice(STREAMS if depth < self.chain or self.happens(0.6) else PLAIN)
        attributes = self.attributes(body)
        if kind in STREAMS:
            content = self.stream(depth)
        else:  # a security core may contain sections, which are not read
            is_core = kind == SECURITY_CORE and self.happens(0.5)
            content = Part(self.kept_whole(self.stream) if is_core else self.payload(), [])
        if name == TOP_FILE and (kind in STREAMS or len(content.data) % 8):
            kind, content = RAW_FILE, Part(self.pick.randbytes(self.pick.choice((0, 8, 40))), [])
        gap = self.gap_before(body.end, attributes)
        body.data += self.pad(body, gap) if gap else b""
        self.put_file(body, name, kind, attributes, content, state)

    def superseded(self, body: Body, name: bytes) -> bytes:
        """Returns a file marked for update, whose name another file has. Only the checksum of its data is read."""
        kind, attributes = self.pick.choice(STREAMS + PLAIN), self.attributes(body)
        return self.file(body, name, kind, attributes, self.dust.randbytes(self.pick.randrange(40)), MARKED)

    def replaced_file(self, body: Body, name: bytes) -> None:
        """Adds a superseded file, before or after the file that replaces it."""
        is_before = self.happens(0.5)
        old = self.superseded(body, name)
        body.data += old if is_before else b""
        self.fill(body)
        self.put_file(body, name, RAW_FILE, SUMMED, Part(self.payload(), []), VALID)
        self.fill(body)
        body.data += b"" if is_before else old

    def cell(self, body: Body) -> None:
        """Adds one or a few cells to a body."""
        if body.depth < self.chain or self.happens(0.6):
            self.valid_file(body, self.name(), body.depth, MARKED if self.happens(0.1) else VALID)
        elif self.happens(0.3):
            body.data += self.pad(body, 24 + self.pick.choice((0, 1, 8, self.pick.randrange(80))))
        elif self.happens(0.3):
            self.replaced_file(body, self.name())
        else:
            body.data += self.dead(body) if self.happens(0.6) else self.stub(body)
        if body.files and self.slips_here(30):  # a second valid file of a name
            self.fill(body)
            self.valid_file(body, uuid.UUID(body.files[-1][0].split()[2]).bytes_le, body.depth)
        self.fill(body)

    def put_cells(self, body: Body) -> None:
        """Writes the body of a volume."""
        for _ in range(max(self.few(6), body.depth < self.chain)):
            self.cell(body)
        if self.happens(0.15):
            if self.happens(0.2):
                body.data += self.superseded(body, TOP_FILE)
                self.fill(body)
            self.valid_file(body, TOP_FILE, DEEPEST)
            room = 8 * self.slips_here(4)
        else:
            room = self.pick.choice((0, 8, 16, 24, 32, 64, 160, 8 * self.pick.randrange(40)))
        free = bytearray([body.erased]) * room
        if free and self.slips_here(15):
            free[self.pick.randrange(room)] ^= 1 + self.pick.randrange(255)
        body.data += free

    # Volumes

    def front(self, place: int) -> tuple[bytes, bytes]:
        """Returns bytes between the header of a volume, which ends at this place, and its first cell: the bytes before
        the extended header, and the extended header with its filler, if the volume has one."""
        if self.happens(0.6):
            return b"", b""
        ext = self.ext_header()
        before = self.filler(self.pick.choice((0, 24, 24, self.pick.randrange(50))), 0xFF)
        return before, ext + self.filler(-(place + len(before) + len(ext)) % 8, 0xFF)

    def slip_of_header(self, header: Header, length: int, header_length: int) -> None:
        """Breaks a rule in one field of the volume header."""
        values: dict[str, tuple[bytes | int, ...]] = {
            "system": (FFS2[::-1], bytes(16), FFS2[:15] + FFS3[15:]),
            "length": (0, 8, length - 8, length + 8, length - 1, (1 << 28) + 8, (1 << 64) - 8),
            "signature": (b"_FVI", b"_HVF", bytes(4)),
            "header_length": (0, 56, 60, 2120, header_length - 8, header_length + 8, 0xFFF8),
            "place": (1, 56, header_length - 1, length & 0xFFFF, 0xFFFF),
            "revision": (0, 1, 3, 0xFF),
        }
        name = self.pick.choice(list(values))
        setattr(header, name, self.pick.choice(values[name]))

    def volume(self, depth: int) -> Part:
        """Returns a volume that is nested in `depth` groups and volumes."""
        pick = self.pick
        is_ffs3, erased = self.happens(0.5), 0xFF if self.happens(0.7) else 0
        entries = pick.randrange(1, 257) if self.happens(0.02) else pick.choice((1, 1, 1, 2, 3, 5))
        first = 64 + 8 * entries
        before, ext = self.front(first)
        body = Body(is_ffs3, erased, first + len(before) + len(ext), depth)
        self.put_cells(body)
        self.spans = body.spans
        header = Header(body.end, self.block_map(entries, body.end), FFS3 if is_ffs3 else FFS2)
        header.place = first + len(before) if ext else 0
        header.attributes = pick.getrandbits(32) & ~0x800 | (0x800 if erased else 0)
        header.zero, header.reserved = pick.choice((bytes(16), self.name())), pick.choice((0, pick.getrandbits(8)))
        about = f"volume ffs{3 if is_ffs3 else 2} length {body.end} files {len(body.files)}"
        about += f" name {guid_text(ext[:16])}" if ext else ""
        if self.slips_here():
            self.slip_of_header(header, body.end, first)
        data = header.packed(self.slips_here(40)) + before + ext + bytes(body.data)
        return Part(data, [about, *indented(itertools.chain.from_iterable(body.files))])

    def wide_volume(self) -> bytes:
        """Returns a volume of more than 16 MiB, with a large file, or with a gap that takes more than one pad."""
        body = Body(True, 0xFF, 72, 0)
        size = self.pick.choice((0xFFFFFF, 0x1000000, 0xFFFFE8 + 24, 0xFFFFF8, 0x1000010)) + 8 * self.pick.randrange(3)
        data = bytes([self.pick.getrandbits(8)]) * size
        body.data += self.file(body, self.name(), RAW_FILE, SUMMED, bytes(self.pick.randrange(20)), VALID)
        self.fill(body)
        if self.happens(0.5):
            body.data += self.file(body, self.name(), RAW_FILE, LARGE | SUMMED, data, VALID)
            self.fill(body)
        else:
            body.data += self.file(body, self.name(), PAD_FILE, LARGE, data[: size & ~7], VALID)
            body.data += self.file(body, TOP_FILE, RAW_FILE, 0, bytes(8), VALID)
        return making.header(body.end, system=FFS3) + bytes(body.data)
