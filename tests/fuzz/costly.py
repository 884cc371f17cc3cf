# SPDX-License-Identifier: BSD-2-Clause-Patent
"""Makes the inputs that are meant to be costly, over which costs.py runs commands."""

import importlib
import lzma
import random
import struct
from collections.abc import Callable
from functools import partial, reduce
from typing import Any

from tests import making
from tests.making import CRC32, DXE_DEPEX, FFS3, FREEFORM, GROUP, MARKED, RAW, RAW_FILE, SUMMED, UI, VALID, VERSION
from tests.making import VOLUME, VOLUME_IMAGE, Header, compression, file_head, guid, guided, header, section, stream
from tests.making import sum16, ui

MIB = 1 << 20
ALL = 1 << 62  # parts: as many as fit
# A function that returns an input of about `size` bytes, or of `parts` parts if these have fewer bytes.
Make = Callable[[int, int], bytes]
Inputs = dict[str, Make]
# Ways of LZMA that are quick, and good for equal bytes or for equal instructions.
QUICK = [{"id": lzma.FILTER_LZMA1, "preset": 1, "lc": 0, "lp": 0, "pb": 0, "nice_len": 273, "mf": lzma.MF_HC4}]
FOR_CODE = [{"id": lzma.FILTER_LZMA1, "preset": 6, "lc": 0, "nice_len": 273}]


# Parts of inputs: a section with a volume, a group, a CRC-32 section with a wrong sum, a section with compressed data
in_section, group = partial(section, VOLUME), partial(section, GROUP)
summed = partial(guided, CRC32, attributes=2, fields=bytes(4))
packed = partial(making.compressed, filters=QUICK)


def volume(*files: bytes) -> bytes:
    """Returns a volume of these files, without free space."""
    return making.volume(files, 0, system=FFS3)


def file(data: bytes, kind: int = VOLUME_IMAGE) -> bytes:
    """Returns a file with a checksum of its data."""
    return making.file(guid(10), data, kind, SUMMED)


def holder(*sections: bytes) -> bytes:
    """Returns a volume with a file of these sections."""
    return volume(file(stream(*sections)))


def held(inner: bytes) -> bytes:
    """Returns a volume with a volume in a section."""
    return holder(in_section(inner))


def squeezed(contents: bytes) -> bytes:
    """Returns a volume with these contents, packed twice."""
    return holder(packed(packed(contents)))


def cut(size: int) -> bytes:
    """Returns a section of LZMA data that are cut short before they have given this many zeros."""
    return guided(making.LZMA, packed(bytes(size))[24:-8])


def nested(levels: int, data: bytes, wrap: Callable[[bytes], bytes]) -> bytes:
    """Returns data that are wrapped this many times."""
    return reduce(lambda inner, _: wrap(inner), range(levels), data)


def flipped(data: bytes, at: int, bits: int = 1) -> bytes:
    """Returns the bytes with other bits at one place."""
    return data[:at] + bytes([data[at] ^ bits]) + data[at + 1 :]


def repeated(block: bytes, size: int, parts: int = ALL) -> bytes:
    """Returns a block as often as it fits into this many bytes, and at most as often as `parts` says."""
    block += bytes(-len(block) % 4)
    return block * max(1, min(size // len(block), parts))


EMPTY, BARE, MAP = section(RAW, b""), header(72, system=FFS3), Header(2112, [(1, 8)] * 255 + [(9, 8)], FFS3).packed()
PAD, GONE, STUB = making.pad(b"\0"), making.deleted(guid(10), b""), bytes(23) + b"\xfe"
WRONG = b"\3\0\0\x19"  # a section whose size is wrong


# Makers of inputs


def many(block: bytes, share: int = 1) -> Make:
    """Makes a block as often as it fits. Each block counts for this many parts."""
    return lambda size, parts: repeated(block, size, parts // share)


def files_of(block: bytes) -> Make:
    """Makes a volume with a file or another cell as often as it fits."""
    return lambda size, parts: volume(repeated(block, size, parts))


def file_of(block: bytes) -> Make:
    """Makes a volume with a file, which has a section as often as it fits."""
    return lambda size, parts: holder(repeated(block, size, parts))


def named(count: int, state: int = VALID) -> bytes:
    """Returns files without data. Their names differ only in the last three bytes."""
    block = bytearray(file_head(bytes(16), RAW_FILE, 0, 24, state=state ^ 0xFF) * 256)
    head_sum, blocks = block[16], list[bytes]()
    block[15::24] = bytes(range(256))
    sums = [bytes((head_sum - less - last) & 0xFF for last in range(256)) for less in range(256)]
    for high in range((count + 255) // 256):
        first, second = divmod(high, 256)
        block[13::24], block[14::24] = bytes([first]) * 256, bytes([second]) * 256
        block[16::24] = sums[(first + second) & 0xFF]
        blocks.append(bytes(block))
    return b"".join(blocks)[: 24 * count]


def replaced(size: int, parts: int) -> bytes:
    """Makes a volume with each name twice: a file that is marked for update, and a file that replaces it."""
    count = min(size // 48, parts)
    return volume(named(count, MARKED), named(count))


def mixed(size: int, _parts: int) -> bytes:
    """Makes a volume with each name twice, marked and valid, in no order."""
    files = named(size // 48, MARKED) + named(size // 48)
    heads = [files[at : at + 24] for at in range(0, len(files), 24)]
    random.Random(7).shuffle(heads)
    return volume(*heads)


def alike(data: bytes, size: int, parts: int, kind: int = FREEFORM) -> bytes:
    """Makes a volume of files with different names and the same data."""
    count = max(1, min(size // (32 + len(data)), parts))
    return volume(*(making.file(guid(it), data, kind) for it in range(1, count + 1)))


def summed_heads(size: int, _parts: int) -> bytes:
    """Makes a header of 2112 bytes with a right checksum, and no pair of zeros, at each multiple of 40."""
    cycle = b"_FVH" + struct.pack("<IHHHBB", 0x800, 2112, 0, 0, 0, 2) + FFS3 + struct.pack("<Q", 2112)
    rest = sum16((cycle * 53)[:2112])  # the 53 checksums in a header are to add up to this
    cycle = cycle[:10] + struct.pack("<H", rest * pow(53, -1, 1 << 16) & 0xFFFF) + cycle[12:]
    return repeated(cycle, size)


def extended(entry: bytes, count: int) -> Make:
    """Makes a volume with volumes in sections, whose extended headers have this entry as often as `count` says."""
    ext = bytes(16) + struct.pack("<I", 20 + len(entry) * count) + entry * count
    ext += b"\xff" * (-len(ext) % 8)
    return file_of(in_section(header(72 + len(ext), 72, FFS3) + ext))


def no_bits(length: int, width: int, has_matches: bool) -> bytes:
    """Returns data with the compression of the UEFI specification (`width` 4) or Tiano's (5). Each block has one symbol
    for its bytes, which takes no bits. The first block has one byte if matches follow."""
    fields, left = list[str](), length
    while left > 0:
        is_match, is_first = has_matches and left < length, has_matches and left == length
        count = 1 if is_first else min(-(-left // 3) if is_match else left, 65535)
        fields.append(f"{count:016b}" + "0" * 19 + f"{256 if is_match else 0x41:09b}" + "0" * (2 * width))
        left -= count * (3 if is_match else 1)
    return making.with_lengths("".join(fields), length)


def by_brotli(size: int, _parts: int) -> bytes:
    """Makes a volume with a section of Brotli data, or without it if Python's module for Brotli is missing."""
    try:
        module: Any = importlib.import_module("brotli")
    except ImportError:
        return holder()
    return holder(guided(making.BROTLI, struct.pack("<QQ", size, size) + module.compress(bytes(size))))


def code(size: int, _parts: int) -> bytes:
    """Makes sections with LZMA of x86 code, in which every instruction is a call."""
    data = lzma.compress(b"\xe8\0\0\0\0" * (size // 20), format=lzma.FORMAT_ALONE, filters=FOR_CODE)
    return holder(*[packed(guided(making.LZMA_X86, data))] * 4)


def around(data: bytes) -> bytes:
    """Returns a packed section, in which seven groups are around eight volumes in one another."""
    return packed(nested(7, nested(8, data, lambda it: in_section(holder(it))), group))


# Volumes, and bytes beside volumes, for the program and for the package
BOTH: Inputs = {
    "signatures": lambda size, _: repeated(b"_FVH\0\0\0\0", size),  # at each multiple of 8
    "summed_heads": summed_heads,
    "stubs": files_of(STUB),  # headers under construction
    "pads": files_of(PAD),  # pads that hold a byte each
    # Nine volumes in one another, with data in the innermost. Each level has a checksum of these data.
    "deep_data": lambda size, _: nested(8, volume(file(bytes(size - 4096), RAW_FILE)), held),
    "names": lambda size, parts: volume(named(min(size // 24, parts))),
    "replaced_names": replaced,
    "small_volumes": many(BARE),  # side by side
}
# Volumes for the program
FOR_PROGRAM: Inputs = {
    # Nine volumes in one another, and eight groups in one another, each with empty sections too
    "levels": lambda size, _: nested(
        9, b"", lambda it: holder(in_section(it) if it else b"", EMPTY * (size // 40))
    ),
    "level_groups": lambda size, _: holder(
        nested(8, EMPTY * (size // 40), lambda it: group(it) + EMPTY * (size // 40))
    ),
    # Volumes without a body, each with a block map of 256 entries, side by side and in sections
    "maps": many(MAP),
    "nested_maps": file_of(in_section(MAP)),
    "mixed_names": mixed,
    # A file marked for update at the end of the volume has the name of the last of many files.
    "late_pair": lambda size, _: volume(named(size // 24 - 1), named(size // 24 - 1, MARKED)[-24:]),
    # The 256 names that have their first 15 bytes in common, each twice
    "twin_names": lambda *_: replaced(ALL, 256),
    "empty_sections": file_of(EMPTY),
    "empty_expressions": file_of(section(DXE_DEPEX, b"")),  # dependency expressions that lack their END
    # One dependency expression of as many ops as fit
    "one_expression": lambda size, _: holder(section(DXE_DEPEX, b"\x06" + b"\x06\x03" * (size // 2) + b"\x08")),
    # Many groups side by side, each with groups nested eight deep and an empty section in the innermost; and groups
    # nested eight deep, each with three groups, the innermost with three empty sections
    "small_groups": file_of(nested(8, EMPTY, group)),
    "groups_of_three": file_of(nested(8, EMPTY, lambda it: group(it * 3))),
    # Eight volumes in one another, the innermost with empty sections in its file
    "nested_sections": lambda size, _: nested(7, holder(repeated(EMPTY, size)), held),
    # Extended headers of as many entries of 5 bytes as fit, and of 257 entries of 4 bytes: a list that doubles when it
    # is full has room for 512 of them, two pages of memory, and uses both pages
    "entries": extended(struct.pack("<HH", 5, 1) + b"\0", (65535 - 20) // 5),
    "short_entries": extended(struct.pack("<HH", 4, 1), 257),
}
# Volumes, and bytes beside volumes, for the package
FOR_PACKAGE: Inputs = {
    # Files whose names have 4,096 characters that cannot be seen, and 200 characters that are escaped in HTML
    "long_names": lambda size, parts: alike(section(UI, b"\x00\xd8" * 4096), size, parts // 2),
    "marked_names": lambda size, parts: alike(section(UI, "aA&'<\">".encode("utf-16-le") * 29), size, parts // 2),
    # Deleted files without data: as many as the parts, and as many as fit; and also as many pads and volumes as fit
    "dead_files": files_of(GONE),
    "more_dead_files": lambda size, _: volume(repeated(GONE, size)),
    "more_pads": lambda size, _: volume(repeated(PAD, size)),
    "more_volumes": lambda size, _: repeated(BARE, size),
    # Volumes side by side whose only file has a header with a wrong sum
    "wrong_volumes": many(flipped(volume(named(1)), 72 + 16)),
    # The signature at each odd multiple of 4 and a byte more
    "odd_signatures": lambda size, _: bytes(1) + repeated(b"_FVH", size),
    # Headers that claim all bytes after them with a wrong sum, and headers of revision 1, at each multiple of 72
    "likely_headers": lambda size, _: repeated(flipped(header(size // 2 & ~7, system=FFS3), 50), size),
    "old_headers": lambda size, _: repeated(flipped(BARE, 55, 3), size),
}
# Sections for the package
SECTIONS: Inputs = {
    # User interface sections of 8 KiB of zeros, and 250 volumes
    "zero_names": lambda size, parts: repeated(section(UI, bytes(8192)), size, parts) + in_section(BARE) * 250,
    "zero_versions": many(section(VERSION, bytes(8194))),
    "short_names": many(ui("A")),
    "empty_bodies": many(EMPTY),
    "expressions": many(section(DXE_DEPEX, (b"\x02" + bytes(range(16))) * 1000)),  # 1,000 PUSH
    "short_expressions": many(section(DXE_DEPEX, b"\x06\x08")),
    "unknown_packed": many(guided(making.UNKNOWN, b"")),
    # LZMA sections that are cut short, each after 1 MiB or more
    "broken_packed": lambda size, parts: repeated(cut(size // 64 + MIB), size, min(parts, 2000)),
    "empty_packed": many(packed(b"")),
    # CRC-32 sections with wrong sums, and compression sections that do not compress, in one another or side by side
    "checked": lambda size, _: nested(7, bytes(max(size // 9, 4)), summed),
    "many_checked": many(summed(EMPTY * 8)),
    "stored": lambda size, _: nested(7, bytes(max(size // 9, 4)), compression),
    # As many groups in one another as the parts, and eight groups in one another around empty sections
    "deep_groups": lambda _, parts: nested(min(parts, 3000), EMPTY, group),
    "wide_groups": lambda size, parts: nested(8, repeated(EMPTY, size, parts - 8), group),
    "tiny_volumes": many(in_section(BARE), 2),
    # Volumes that are rejected after eight sections, because the last one is wrong
    "wrong_sections": many(in_section(holder(EMPTY * 8 + WRONG)), 12),
    "zeros": lambda size, _: bytes(size),
}
# Images for the package that are packed already, and hold this many bytes or parts
PACKED: Inputs = {
    "uefi_matches": lambda size, _: holder(compression(no_bits(size // 4, 4, True), size // 4, 1)),
    "uefi_bytes": lambda size, _: holder(compression(no_bits(size // 4, 4, False), size // 4, 1)),
    "tiano_bytes": lambda size, _: holder(guided(making.TIANO, no_bits(size // 4, 5, False))),
    # Eight opened sections in one another, in each of which seven groups are around eight volumes in one another
    "deepest": lambda size, _: holder(nested(8, section(RAW, bytes(max(size >> 9, 8))), around)),
    "code": code,
    # Sections that each hold a volume of very many sections, the last of which is wrong
    "tried": lambda _, parts: holder(*[packed(packed(in_section(holder(EMPTY * parts + WRONG))))] * 20),
    "brotli": by_brotli,
    "many_zeros": lambda size, _: holder(*[packed(packed(bytes(size)))] * 8),
    "cut_zeros": lambda size, _: holder(*[packed(cut(size))] * 60),
    # Sections of types 1 and 2 that libfv decodes in two ways before it rejects them: with the length of their
    # contents, and with another one
    "many_bytes": lambda size, _: holder(*[compression(no_bits(size // 4, 4, False), size // 4, 1)] * 60),
    "cut_customized": lambda size, _: holder(*[compression(packed(bytes(size))[24:-8], size, 2)] * 60),
    "lying_customized": lambda size, _: holder(*[compression(packed(bytes(size))[24:-8], 1 << 31, 2)] * 60),
}
# The most bytes that `open` writes
MOST_OPENED = 256 * MIB


def stream_of(data: bytes, length: int | None = None) -> bytes:
    """Returns an LZMA stream with an end marker, or with a length in place of it."""
    stream = lzma.compress(data, format=lzma.FORMAT_ALONE, filters=QUICK)
    return stream if length is None else stream[:5] + length.to_bytes(8, "little") + stream[13:]


def lzma_of(data: bytes, length: int | None = None) -> bytes:
    """Returns a section with such a stream."""
    return guided(making.LZMA, stream_of(data, length))


def many_codes(size: int, width: int) -> bytes:
    """Returns compressed data of blocks that have one byte each, and whose codes have as many lengths as possible: 510
    for bytes and matches, and all that the width has for distances."""
    # The symbols 10 and 11 of the extra set, the lengths 8 and 9, have codes of one bit.
    extra = "01100" + "000" * 3 + "00" + "000" * 7 + "001" * 2
    main = f"{510:09b}" + "1" * 508 + "0" * 2
    distances = f"{8:0{width}b}" + "011" * 8
    block = f"{1:016b}" + extra + main + distances + f"{4:09b}"
    count = 8 * size // len(block)
    return making.with_lengths(block * count, count)


# Packed sections for `open`, with about as many bytes, or with contents that are as long as `open` writes them, or longer
OPENED: Inputs = {
    "lzma_noise": lambda size, _: lzma_of(making.noise("costly", size), size),
    "lzma_zeros": lambda *_: lzma_of(bytes(MOST_OPENED), MOST_OPENED),
    "lzma_marked_zeros": lambda *_: lzma_of(bytes(MOST_OPENED)),
    # Contents that are a byte too long: by the header, and by the end marker
    "lzma_bomb": lambda *_: lzma_of(bytes(MOST_OPENED + 1), MOST_OPENED + 1),
    "lzma_marked_bomb": lambda *_: lzma_of(bytes(MOST_OPENED + 1)),
    # A header that promises as much as `open` writes, and a stream that is cut off
    "lzma_promise": lambda *_: guided(making.LZMA, stream_of(bytes(8), MOST_OPENED)[:18]),
    # All chances that a stream can have: lc 8 and lp 4
    "lzma_chances": lambda *_: guided(making.LZMA, b"\xe0" + stream_of(b"", 0)[1:]),
    # Streams that are cut off at their end, which are tried once more after their first four bytes
    "lzma_tried_twice": lambda *_: compression(stream_of(bytes(MOST_OPENED), MOST_OPENED)[:-1], 0, 2),
    "lzma_code": lambda *_: guided(making.LZMA_X86, stream_of(b"\xe8\0\0\0\0" * (MOST_OPENED // 5))),
    "tiano_bytes": lambda *_: guided(making.TIANO, no_bits(MOST_OPENED, 5, False)),
    "tiano_matches": lambda *_: guided(making.TIANO, no_bits(MOST_OPENED, 5, True)),
    "tiano_bomb": lambda *_: guided(making.TIANO, no_bits(MOST_OPENED + 1, 5, True)),
    "tiano_codes": lambda size, _: guided(making.TIANO, many_codes(size, 5)),
    # Data that are not sections when they are decoded in the form of the UEFI specification, so that Tiano's is tried
    "uefi_tried": lambda *_: compression(no_bits(MOST_OPENED, 4, True), 0, 1),
    "checked_zeros": lambda size, _: making.checked(bytes(size)),
}
# The memory that a run of the program may take, as a multiple of its input. For the other inputs this multiple is 2.
RATIOS = {"stubs": 5, "pads": 4, "names": 5, "replaced_names": 4, "small_volumes": 5}
RATIOS |= {"mixed_names": 4, "late_pair": 5, "entries": 5, "short_entries": 5}
