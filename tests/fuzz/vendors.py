# SPDX-License-Identifier: BSD-2-Clause-Patent
"""Makes vendor-like images, each with a known number of drivers: packed sections of many kinds, headers, files
and sections that break rules, and volumes at odd places, in capsules and cut off. With a folder, writes the images, and
a table with the name, the number of drivers and a description of each. The bodies of the drivers are noise."""

import argparse
import gzip
import lzma
import struct
import uuid
import zlib
from collections.abc import Iterator, Sequence
from dataclasses import dataclass
from pathlib import Path
from typing import Any

from tests import making
from tests.making import CONSTRUCTION, DXE_DRIVER, FFS2, FFS3, FIXED, FREEFORM, HEADER_INVALID, LARGE, LZMA, MARKED
from tests.making import PE32, RAW, RAW_FILE, SECURITY_CORE, SUBTYPE, SUMMED, TOP_FILE, VALID, VOLUME, VOLUME_IMAGE
from tests.survey_laws.volumes import FFS1, STORE, VENDORS

HP, GZIP, AMD, RSA, SIGNED, UNKNOWN = (
    uuid.UUID(it)
    for it in (
        "0ed85e23-f253-413f-a03c-901987b04397",
        "1d301fe9-be79-4353-91c2-d23bc959ae0c",
        "ce3233f5-2cd6-4d87-9152-4a238bb6d1c4",
        "a7717414-c616-4977-9420-844712a735bf",
        "0f9d89e8-9259-4f76-a5af-0c89e34023df",
        "12345678-1234-1234-1234-123456789abc",
    )
)
BODIES = [b"MZ" + making.noise(f"driver {number}", 200 + 40 * number) for number in range(6)]


def noise(size: int) -> bytes:
    """Returns bytes that are not a part of a volume, the same for each size."""
    return making.noise("vendors", size)


@dataclass(frozen=True)
class Case:
    """An image: its name, its bytes, the number of its drivers, and what is unusual. `shown` is the number of drivers
    that a survey shows, if it is not the number of `plain`."""

    name: str
    data: bytes
    drivers: int
    what: str
    shown: int | None = None

    @property
    def plain(self) -> int:
        """The number of bodies of drivers that are in the image as they are: not compressed, and not cut off."""
        return sum(self.data.count(body) for body in BODIES)


def sections(number: int) -> list[bytes]:
    """Returns the sections of a driver."""
    version = struct.pack("<H", number) + f"1.{number}\0".encode("utf-16-le")
    parts = (making.DXE_DEPEX, b"\x06\x08"), (PE32, BODIES[number])
    name = making.ui(f"Driver{number}")
    return [*(making.section(*it) for it in parts), name, making.section(making.VERSION, version)]


def stored(
    number: int, data: bytes, kind: int = DXE_DRIVER, attributes: int = 0, state: int = VALID, **change: Any
) -> bytes:
    """Returns a file without filler. `file_sum` and `size` replace values of its header, `head_sum` is added to its
    header checksum, and `erased` is the value of an erased byte."""
    size = change.get("size", len(data) + (32 if attributes & LARGE else 24))
    file_sum = change.get("file_sum", making.data_sum(attributes, data))
    name = change.get("name", making.guid(0xABC00000 + number)).bytes_le
    head = bytearray(making.file_head(name, kind, attributes, size, file_sum, state ^ change.get("erased", 0xFF)))
    head[16] = head[16] + change.get("head_sum", 0) & 0xFF
    return bytes(head) + data


def driver(number: int, kind: int = DXE_DRIVER, attributes: int = 0, state: int = VALID, **change: Any) -> bytes:
    """Returns a driver."""
    return stored(number, making.stream(*sections(number)), kind, attributes, state, **change)


def volume(files: Sequence[bytes], length: int = 0, tail: bytes = b"", free: int = 0, **change: Any) -> bytes:
    """Returns a volume of these files in blocks of 4096 bytes, with free space and then the tail. The other arguments
    are fields of its header, and `sum` is added to its checksum by exclusive or."""
    erased = bytes([change.pop("erased", 0xFF)])
    header_length = 56 + 8 * (len(change.get("block_map", (0,))) + 1)
    body = b""
    for file in files:
        body += erased * (-len(body) % 8) + file
    body += erased * (-len(body) % 8)
    length = length or -(-(header_length + len(body) + len(tail) + free) // 0x1000) * 0x1000
    header = making.Header(length, change.pop("block_map", [(length // 0x1000, 0x1000)]), attributes=0x4FEFF)
    wrong = change.pop("sum", 0)
    for name, value in change.items():
        setattr(header, name, value)
    return header.packed(wrong) + body + erased * (length - header_length - len(body) - len(tail)) + tail


def changed(data: bytes, at: int, new: bytes) -> bytes:
    """Returns data with new bytes at an offset, which counts from the end if it is below 0."""
    at %= len(data)
    return data[:at] + new + data[at + len(new) :]


def with_length(stream: bytes, length: int) -> bytes:
    """Returns an LZMA stream with the length of its contents."""
    return stream[:5] + struct.pack("<Q", length) + stream[13:]


def of_lzma(data: bytes) -> bytes:
    """Returns an LZMA stream of some data, with their length."""
    return with_length(lzma.compress(data, lzma.FORMAT_ALONE), len(data))


BASE = [driver(0), driver(1), driver(2)]
INNER_FILES = [driver(3), driver(4), driver(5)]
INNER = volume(INNER_FILES)
INNER_SECTION = making.stream(making.section(VOLUME, INNER))
TAIL = making.stream(*sections(2))
TAIL += bytes(-len(TAIL) % 4)


def holder(*parts: bytes, number: int = 90, kind: int = VOLUME_IMAGE, attributes: int = 0) -> bytes:
    """Returns a file with sections."""
    return stored(number, making.stream(*parts), kind, attributes)


def with_holder(*parts: bytes) -> bytes:
    """Returns a volume of three drivers and a file with sections."""
    return volume([*BASE, holder(*parts)])


def of_packed() -> Iterator[Case]:
    """Yields images with compressed, signed and checked sections."""
    tiano, uefi = (making.packed_by_tiano(INNER_SECTION, width) for width in (5, 4))
    size = len(INNER_SECTION)
    code = with_length(making.compressed_code(INNER_SECTION)[24:], size)
    packed = of_lzma(INNER_SECTION)
    certificate = struct.pack("<IHH", 8 + 16 + 528, 0x200, 0x0EF1) + RSA.bytes_le + noise(528)
    keys = noise(16 + 256 + 256)
    amd = zlib.compress(INNER_SECTION, 9)
    amd = bytes(20) + struct.pack("<I", len(amd)) + bytes(232) + amd
    yield Case("a00-plain", volume(BASE), 3, "three drivers, FFS2")
    yield Case("a01-lzma", with_holder(making.guided(LZMA, packed)), 6, "a volume in LZMA")
    yield Case("a02-lzma-x86", with_holder(making.guided(making.LZMA_X86, code)), 6, "LZMA after the filter of x86 code")
    yield Case("a03-tiano", with_holder(making.guided(making.TIANO, tiano)), 6, "Tiano, GUID-defined")
    yield Case("a04-uefi", with_holder(making.compression(uefi, size, 1)), 6, "compression type 1, UEFI")
    yield Case("a04b-tiano", with_holder(making.compression(tiano, size, 1)), 6, "compression type 1, Tiano")
    yield Case("a06-type-2", with_holder(making.compression(packed, size, 2)), 6, "compression type 2, LZMA")
    yield Case("a06b-type-86", with_holder(making.compression(code, size, 0x86)), 6, "compression type 0x86")
    yield Case("a07-stored", with_holder(making.compression(INNER_SECTION, size)), 6, "compression type 0")
    yield Case("a08-hp", with_holder(making.guided(HP, packed)), 6, "the GUID of HP's LZMA")
    yield Case("a09-amd", with_holder(making.guided(AMD, amd)), 6, "the GUID of AMD's zlib")
    yield Case("a10-gzip", with_holder(making.guided(GZIP, gzip.compress(INNER_SECTION, 9, mtime=0))), 6, "GZIP")
    yield Case("a11-crc32", with_holder(making.checked(INNER_SECTION)), 6, "a CRC32 section")
    yield Case("a11b-crc32-wrong", with_holder(making.checked(INNER_SECTION, 1)), 6, "a CRC32 section with a wrong sum")
    yield Case("a12-rsa", with_holder(making.guided(RSA, INNER_SECTION, 1, keys)), 6, "signed, stored")
    yield Case("a12b-rsa-lzma", with_holder(making.guided(RSA, making.guided(LZMA, packed), 1, keys)), 6, "signed LZMA")
    yield Case("a13-signed", with_holder(making.guided(SIGNED, certificate + INNER_SECTION, 2)), 6, "a certificate before")
    signed = making.guided(SIGNED, INNER_SECTION, 2, certificate)
    yield Case("a13b-signed", with_holder(signed), 6, "a certificate in the header")
    yield Case("a14-unknown", with_holder(making.guided(UNKNOWN, INNER_SECTION, 0)), 6, "an unknown GUID, plain data")
    yield Case("a14b-unknown", with_holder(making.guided(UNKNOWN, noise(5000))), 3, "an unknown GUID, encrypted")
    marked = lzma.compress(INNER_SECTION, lzma.FORMAT_ALONE)
    yield Case("a15-marker", with_holder(making.guided(LZMA, marked)), 6, "LZMA with an end marker")
    yield Case("a16-tail", with_holder(making.guided(LZMA, packed + b"\xff" * 37)), 6, "bytes after the LZMA stream")
    two = making.stream(making.section(VOLUME, volume([driver(4), driver(5)])))
    deep = holder(making.guided(making.TIANO, making.packed_by_tiano(two, 5)), number=91)
    both = making.stream(making.section(VOLUME, volume([driver(3), deep])))
    yield Case("a17-two", with_holder(making.guided(LZMA, of_lzma(both))), 6, "Tiano in LZMA")
    alone = of_lzma(making.stream(*sections(3)[1:]))
    one = stored(60, making.stream(sections(3)[0], making.guided(LZMA, alone)))
    yield Case("a18-driver", volume([*BASE, one]), 4, "the sections of a driver in LZMA")
    zeros = of_lzma(bytes(12) + INNER_SECTION)
    yield Case("a19-zeros", with_holder(making.guided(LZMA, zeros)), 6, "a stream that begins with zeros")
    bare = of_lzma(bytes(128) + INNER)
    yield Case("a20-bare", with_holder(making.guided(LZMA, bare)), 6, "zeros and a volume in LZMA")


def ffs1_driver(number: int) -> bytes:
    """Returns a driver of FFS1 with a tail."""
    data = making.stream(*sections(number))
    head = stored(number, b"", DXE_DRIVER, LARGE, size=26 + len(data))[:24]
    head = head[:20] + (26 + len(data)).to_bytes(3, "little") + head[23:]
    head = head[:16] + bytes([making.sum8(head[:16] + b"\0\0" + head[18:23] + b"\0"), 0x5A]) + head[18:]
    return head + data + struct.pack("<H", ~(head[16] | head[17] << 8) & 0xFFFF)


def vendor_driver(number: int) -> bytes:
    """Returns a driver with a large header of 28 bytes, in FFS2."""
    data = making.stream(*sections(number))
    head = bytearray(stored(number, b"", DXE_DRIVER, LARGE, size=0)[:24] + struct.pack("<I", 28 + len(data)))
    head[16] = head[17] = head[23] = 0
    head[16], head[17], head[23] = making.sum8(head), 0xAA, VALID ^ 0xFF
    return bytes(head) + data


def of_headers() -> Iterator[Case]:
    """Yields images whose volume headers are unusual or wrong."""
    old = [driver(it, file_sum=0x5A) for it in range(3)]
    names = ("b03-apple", "b03b-apple", "b04-intel", "b04b-intel", "b05-sony")
    yield Case("b01-revision-1", volume(BASE, revision=1), 3, "revision 1")
    yield Case("b01b-revision-1", volume(old, revision=1), 3, "revision 1, file checksums 0x5A")
    yield Case("b02-ffs1", volume([*map(ffs1_driver, range(3))], system=FFS1, revision=1), 3, "FFS1 with tails")
    yield Case("b02b-ffs1", volume(old, system=FFS1, revision=1), 3, "FFS1 without tails")
    for name, system in zip(names, VENDORS):
        yield Case(name, volume(BASE, system=system), 3, "the file system of a vendor")
    yield Case("b06-zeros", volume(BASE, zero=struct.pack("<QII", 0, 0x12345678, 0x2000)), 3, "a zero vector with data")
    yield Case("b07-blocks", volume(BASE, block_map=[(1, 0x1000)]), 3, "a block map that is not FvLength")
    yield Case("b07b-no-blocks", volume(BASE, block_map=[]), 3, "an empty block map")
    yield Case("b08-sum", volume(BASE, sum=1), 3, "a wrong checksum")
    yield Case("b09-reserved", volume(BASE, reserved=0x55), 3, "a reserved byte")
    ext = making.pad(uuid.UUID(int=70).bytes_le + struct.pack("<IHHI", 28, 8, 3, 0x8000))
    yield Case("b10-ext", volume([ext, *BASE], place=96), 3, "an extended header with a used size")
    turned = [driver(it, erased=0) for it in range(3)]
    yield Case("b11-polarity", volume(turned, erased=0, attributes=0x4F6FF), 3, "erase polarity 0")
    yield Case("b12-weak", volume(BASE, attributes=0x8004FEFF), 3, "weak alignment")
    yield Case("b13-revision-3", volume(BASE, revision=3), 3, "revision 3")
    yield Case("b14-large", volume([driver(0, attributes=LARGE), *BASE[1:]], system=FFS3), 3, "a large header in FFS3")
    big = making.section(RAW, noise(4096) + bytes(0x1100000))
    wide = holder(big, making.section(VOLUME, INNER), attributes=LARGE)
    yield Case("b14b-large", volume([*BASE, wide], system=FFS3), 6, "a file of 18 MB with a volume in it")
    yield Case("b15-lenovo", volume([*BASE[:2], vendor_driver(2)]), 3, "a large header of 28 bytes in FFS2")
    odd = 0x8004
    yield Case("b16-odd", volume(BASE, odd, block_map=[(odd, 1)]), 3, "FvLength is not a multiple of 8")
    yield Case("b17-empty", volume([], 0x20000) + volume(BASE), 3, "an empty volume before it")


def of_files() -> Iterator[Case]:
    """Yields images whose files are unusual or wrong."""
    name, data = TOP_FILE, noise(64)

    def second(**change: Any) -> bytes:
        """Returns a volume whose second driver has other fields."""
        return volume([BASE[0], driver(1, **change), BASE[2]])

    yield Case("c01-free", changed(volume(BASE, free=0x2000), -0x1000, noise(512)), 3, "data in free space")
    yield Case("c02-sum", second(attributes=SUMMED, file_sum=0x12), 3, "a wrong file checksum")
    yield Case("c02b-sum", second(file_sum=0x5A), 3, "0x5A in place of 0xAA")
    yield Case("c02c-sum", second(file_sum=0), 3, "0 in place of 0xAA")
    yield Case("c03-sum", second(head_sum=1), 3, "a wrong header checksum")
    twin = stored(1, making.stream(*sections(3)))
    yield Case("c04-twins", volume([*BASE, twin]), 4, "two files with one name")
    yield Case("c05-state", second(state=VALID | 0x80), 3, "a reserved bit of State")
    yield Case("c06-pad", volume([BASE[0], making.pad(noise(300)), *BASE[1:]]), 3, "a pad with data")
    fixed = [driver(0, attributes=FIXED), driver(1, attributes=FIXED), BASE[2]]
    yield Case("c07-fixed", volume(fixed), 3, "fixed files")
    inner = making.section(VOLUME, volume([driver(3, attributes=FIXED), *INNER_FILES[1:]]))
    yield Case("c07b-fixed", with_holder(inner), 6, "fixed files in a volume in a volume")
    yield Case("c07c-fixed", with_holder(making.guided(LZMA, of_lzma(making.stream(inner)))), 6, "the same in LZMA")
    yield Case("c08-top", volume([*BASE, stored(0, data, RAW_FILE, name=name)]), 3, "a volume top file not at the end")
    top = stored(0, noise(0x1000 - 24), RAW_FILE, name=name)
    yield Case("c08b-top", volume(BASE, 0x10000, top), 3, "a volume top file after free space")
    others = stored(80, noise(200), 0xC5), stored(81, noise(100), 0xE0)
    yield Case("c09-types", volume([*BASE, *others]), 3, "types of vendors and for debugging")
    yield Case("c10-attribute", volume([driver(0, attributes=0x80), *BASE[1:]]), 3, "attribute 0x80")
    yield Case("c11-marked", volume([driver(0, state=MARKED), *BASE[1:], BASE[0]]), 3, "an update that was interrupted")
    broken = stored(66, b"\xff" * 100, state=HEADER_INVALID | 0x04)
    yield Case("c12-invalid", volume([BASE[0], broken, *BASE[1:]]), 3, "an invalid header with data after it")
    zeros = BASE[0] + b"\xff" * (-len(BASE[0]) % 8) + bytes(4096)
    yield Case("c13-zeros", volume([zeros, *BASE[1:]]), 3, "4096 zeros between two files")
    begun = stored(67, b"", state=CONSTRUCTION)
    yield Case("c14-begun", volume([BASE[0], begun, *BASE[1:]]), 3, "a header that was never finished")


def of_sections() -> Iterator[Case]:
    """Yields images whose sections are unusual or wrong."""

    def last(data: bytes, kind: int = DXE_DRIVER) -> bytes:
        """Returns a volume of two drivers and a file with these data."""
        return volume([*BASE[:2], stored(2, data, kind)])

    yield Case("d01-zeros", last(TAIL + bytes(16)), 3, "16 zeros after the last section")
    yield Case("d01b-ones", last(TAIL + b"\xff" * 16), 3, "16 bytes 0xFF after the last section")
    table = stored(82, noise(300), FREEFORM)
    yield Case("d02-freeform", volume([*BASE, table]), 3, "a freeform file without sections")
    yield Case("d03-type-0", last(TAIL + making.section(0, b"abcd")), 3, "a section of type 0")
    yield Case("d04-unaligned", last(b"".join(sections(2))), 3, "sections that are not aligned")
    yield Case("d05-tail", with_holder(making.section(VOLUME, INNER + b"\xff" * 64)), 6, "64 bytes after the volume")
    yield Case("d05b-cut", with_holder(making.section(VOLUME, INNER[:-64])), 6, "a volume of 64 bytes less than FvLength")
    yield Case("d05c-zeros", with_holder(making.section(VOLUME, bytes(12) + INNER)), 6, "12 zeros before the volume")
    old = making.section(VOLUME, volume(INNER_FILES, revision=1))
    yield Case("d06-revision", with_holder(old), 6, "an inner volume of revision 1")
    yield Case("d07-raw", volume([*BASE, stored(83, INNER, RAW_FILE)]), 6, "a volume in a RAW file")
    raw = holder(making.section(RAW, INNER), number=84, kind=FREEFORM)
    yield Case("d08-raw", volume([*BASE, raw]), 6, "a volume in a RAW section")
    named = holder(making.section(SUBTYPE, uuid.UUID(int=85).bytes_le + INNER), number=84, kind=FREEFORM)
    yield Case("d08b-subtype", volume([*BASE, named]), 6, "a volume in a freeform section with a GUID")
    core = stored(50, making.stream(making.section(PE32, BODIES[0]), making.ui("SecCore")), SECURITY_CORE)
    yield Case("d09-core", volume([core, *BASE[1:]]), 3, "a security core with sections", 2)
    depex = making.section(making.DXE_DEPEX, b"\x02\x01\x02")
    wrong = making.stream(depex, making.section(PE32, BODIES[2]), making.ui("Driver2"))
    yield Case("d10-depex", last(wrong), 3, "a broken dependency expression")
    yield Case("d11-combined", last(TAIL, 0x08), 3, "a combined PEI module and driver")
    yield Case("d12-mm", volume([BASE[0], driver(1, 0x0A), driver(2, 0x0E)]), 3, "drivers of MM")
    yield Case("d13-type-0", last(TAIL, 0), 3, "a file of type 0", 2)
    yield Case("d14-ones", last(TAIL + b"\xff" * 4), 3, "4 bytes 0xFF after the last section")
    cut = stored(86, making.stream(sections(0)[0], making.section(PE32, BODIES[3]))[:-100])
    yield Case("d15-cut", volume([*BASE, cut]), 3, "a section that is longer than its file")


def descriptor(first: bytes) -> bytes:
    """Returns an image of 2 MiB with a flash descriptor, a region of noise, and a region that begins with these
    bytes."""
    words = {0x10: 0x0FF0A55A, 0x14: 0x00040003, 0x18: 0x00100208, 0x1C: 0x100}
    regions = ((0, 0xFFF), (0x100000, 0x1FFFFF), (0x1000, 0xFFFFF))
    words |= {0x40 + 4 * it: 0x7FFF for it in range(16)}
    words |= {0x40 + 4 * it: start >> 12 | last >> 12 << 16 for it, (start, last) in enumerate(regions)}
    head = bytearray(b"\xff" * 0x1000)
    for at, word in words.items():
        head[at : at + 4] = struct.pack("<I", word)
    engine = (bytes(16) + b"$FPT" + noise(0xFE000)).ljust(0xFF000, b"\xff")[:0xFF000]
    return bytes(head) + engine + first.rjust(0x100000, b"\xff")


def capsule(name: str, body: bytes, header: int = 28) -> bytes:
    """Returns a capsule."""
    return uuid.UUID(name).bytes_le + struct.pack("<III", header, 0x10000, header + len(body)) + bytes(header - 28) + body


def of_images() -> Iterator[Case]:
    """Yields images whose volumes lie at unusual places."""
    first, second = volume(BASE), INNER
    update, before = "6dcbd5ed-e82d-4c44-bda1-7194199ad92a", noise(1371)
    yield Case("e01-descriptor", descriptor(first + b"\xff" * 0x8000 + second), 6, "a flash descriptor and regions")
    yield Case("e02-capsule", capsule("4a3ca68b-7723-48fb-803d-578cc1fec44d", first + second), 6, "a header of 28 bytes")
    yield Case("e02b-capsule", capsule("3b6686bd-0d76-4030-b70e-b5519e2fc5a0", first + second, 32), 6, "one of 32 bytes")
    yield Case("e02c-odd", capsule(update, before + first + second, 32), 6, "two volumes from an odd offset on")
    yield Case("e02d-odd", capsule(update, before + first + b"abc" + second, 32), 6, "two volumes at two odd offsets")
    yield Case("e03-mixed", first + b"\xff" * 4 + second, 6, "volumes at 0 and at 4 modulo 8")
    small = volume([stored(99, b"x" * 32, RAW_FILE)])
    yield Case("e03b-mixed", small + before + first + second, 6, "a small volume, then an odd offset")
    yield Case("e04-tail", first + noise(1000), 3, "bytes after the volume")
    yield Case("e05-cut", first + second[: second.rindex(BODIES[5][-64:]) - 100], 6, "the last driver is cut off")
    yield Case("e05b-front", first[0x100:] + second, 3, "the first volume has no header", 3)
    variables = stored(70, b"NVAR" + noise(300) + b"\xff" * 200, RAW_FILE)
    yield Case("e06-variables", volume([variables]) + first, 3, "variables in a volume of their own")
    store = making.Header(0x2000, [(2, 0x1000)], STORE).packed().ljust(0x2000, b"\xff")
    yield Case("e07-store", store + first, 3, "a variable store, then a volume")
    yield Case("e08-two", first + first, 6, "the same volume twice")
    yield Case("e09-gap", before[:768] + first + b"\xff" * 0x1230 + second + bytes(999), 6, "noise, a gap and zeros")
    yield Case("e10-header", b"HEADER" + before[:506] + first + second, 6, "the header of a vendor")
    text = b"_FVH" * 100 + bytes(8) + first + b"_FVH junk" * 9 + second
    yield Case("e11-text", text, 6, "the signature in text")
    wrong = volume([BASE[0], driver(1, attributes=SUMMED, file_sum=0x12)])
    yield Case("e12-first", wrong + second, 5, "the first volume has a wrong file")
    yield Case("e13-copy", first[:72] + first, 3, "a copy of the header before the volume")


def cases() -> Iterator[Case]:
    """Yields all images."""
    for group in (of_packed, of_headers, of_files, of_sections, of_images):
        yield from group()


def main() -> None:
    """Writes the images and the table into a folder."""
    asks = argparse.ArgumentParser(description=__doc__)
    asks.add_argument("folder", metavar="FOLDER", type=Path, help="where the images are written")
    folder = asks.parse_args().folder
    folder.mkdir(parents=True, exist_ok=True)
    with open(folder / "cases.tsv", "w", encoding="utf-8") as table:
        for case in cases():
            (folder / f"{case.name}.fd").write_bytes(case.data)
            print(case.name, case.drivers, case.what, sep="\t", file=table)


if __name__ == "__main__":
    main()
