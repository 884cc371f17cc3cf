# SPDX-License-Identifier: BSD-2-Clause-Patent
"""The inputs of the tests of the library: the bytes that rows of crates/fv_run_tests/rows spell, inputs that
tests/fuzz/cases.py makes, and texts that are nearly a GUID."""

import itertools
from collections.abc import Iterator
from pathlib import Path

import rows
from tests import making, stores
from tests.fuzz.cases import make_case

# The files of rows whose words spell the input of a run or of a call.
TABLES = (
    "volumes read unfix cells check compare hobs list normalise extract scan sums placed parts bodies streams".split()
)
GUID = "8c8ce578-8a3d-4f1c-9935-896185c32dd3"
TEXTS = [
    *(GUID, GUID.upper(), GUID[:-1], GUID + "0", GUID + "-", GUID + "\n", GUID + " ", " " + GUID, "{" + GUID + "}"),
    *(GUID.replace("-", ""), GUID.replace("-", "_"), "urn:uuid:" + GUID, GUID + "\0more", GUID[:24] + "\0" + GUID[24:]),
    *("8c8ce578-8a3d-4f1c-9935896185c32dd3", "8c8ce578-8a3d-4f1c99-35-896185c32dd3"),
    *("8c8ce57-88a3d-4f1c-9935-896185c32dd3", "+c8ce578-8a3d-4f1c-9935-896185c32dd3"),
    *("0x8ce578-8a3d-4f1c-9935-896185c32dd3", "0x8c8ce578, 0x8a3d, 0x4f1c, {0x99, 0"),
]
# A volume, and a volume with a wrong file checksum. The harness tries each input with the input before it as a pair.
PAIR = rows.spelled("empty"), rows.spelled("<80> 0a*16 47ab0100180000f8 ff*32")
# A volume with two fixed files.
FIXED = "<a0> 0a*16 43aa0104180000f8 0b*16 23aa010c200000f8 00*8 ff*32"
SMALL = 20000  # bytes


def made(seed: int, count: int) -> Iterator[bytes]:
    """Yields volumes, images and lists, of which some are broken."""
    for number in range(count):
        yield make_case(seed, number).data


def spelled() -> Iterator[bytes]:
    """Yields the inputs of the rows. The data of a stream, and a body, are put into a volume."""
    for table in TABLES:
        for row in (row for found in rows.tables(table).values() for row in found):
            words = row.partition(" ->")[0].rpartition(": ")[2].split(" & ")
            if table == "bodies":
                yield from rows.bodies(row)
                continue
            for data in (rows.spelled(it) for it in words if not it.startswith("'")):
                yield rows.volume_of(rows.file_of(2, data)) if table == "streams" else data


def expressions(height: int = 0, most: int = 4) -> Iterator[bytes]:
    """Yields the right expressions of at most `most` ops and END, after ops that have left `height` values: TRUE (6),
    FALSE (7), NOT (5), AND (3) and OR (4)."""
    if height == 1:
        yield b"\x08"
    for op, least, change in ((6, 0, 1), (7, 0, 1), (5, 1, 0), (3, 2, -1), (4, 2, -1)):
        if most and height >= least:
            yield from (bytes([op]) + rest for rest in expressions(height + change, most - 1))


def images() -> Iterator[bytes]:
    """Yields images of one to five volumes, each with a name."""
    yield from (number * rows.spelled("ext-header-bare") for number in range(1, 6))


def packed() -> Iterator[bytes]:
    """Yields packed sections of each way, and one that is not opened."""
    data = making.stream(making.ui("Packed"), making.section(making.RAW, b"contents" * 9))
    uefi, tiano, lzma = making.packed_by_tiano(data, 4), making.packed_by_tiano(data, 5), making.compressed(data)[24:]
    yield from (making.compression(data), making.compression(uefi, len(data), 1), making.compression(b"", 0))
    yield from (making.compression(tiano, len(data), 1), making.guided(making.TIANO, tiano))
    yield from (making.compression(lzma, len(data), 2), making.compression(b"\xff\0\0\0" + lzma, len(data), 2))
    yield from (making.compressed(data), making.compressed_code(data), making.checked(data), making.checked(data, 1))
    yield from (making.guided(making.UNKNOWN, data, 0), making.guided(making.UNKNOWN, data))


def stored() -> Iterator[bytes]:
    """Yields variable stores with variables in each state, a working block, and signature lists."""
    states = stores.ADDED, stores.REPLACED, stores.DELETED, stores.HEADER_ONLY, 0
    plain = [stores.variable("Name", b"data", state=it) for it in states]
    secure = [stores.variable("db", b"data", stores.DATABASE, state=it, fields=stores.FIELDS) for it in states]
    yield stores.store(*plain, stores.UNFINISHED) + b"\xff" * 8 + stores.working_block(8) + b"more"
    yield stores.volume(stores.store(*secure, kind=stores.AUTHENTICATED), stores.working_block())
    yield stores.store(*plain)[:200]
    lists = stores.signature_list(stores.X509, stores.GLOBAL, b"data", b"more")
    yield lists + stores.signature_list(stores.SHA256, stores.DATABASE, bytes(32)) + b"rest"


def fixed() -> Iterator[bytes]:
    """Yields volumes with fixed files at several depths: in the volume, in a volume in one of its files, and in a group
    around that volume."""
    inner = making.volume([making.file(making.guid(1), b"data", attributes=making.FIXED)], 0x200)
    nested = making.section(making.VOLUME, inner)
    for data in (nested, making.section(making.GROUP, nested), making.stream(nested, nested)):
        for attributes in (0, making.FIXED, making.FIXED | making.SUMMED):
            yield making.volume([making.file(making.guid(2), data, making.FREEFORM, attributes)], 0x1000)


def small_files(folder: Path) -> list[Path]:
    """Writes the small inputs to a folder, each once."""
    texts = (it.encode() for it in TEXTS)
    every = (PAIR, made(7, 60), spelled(), expressions(), images(), packed(), stored(), fixed(), texts, [b""])
    found = dict.fromkeys(itertools.chain.from_iterable(every))
    files = []
    for number, data in enumerate(data for data in found if len(data) <= SMALL):
        files.append(folder / f"{number}.input")
        files[-1].write_bytes(data)
    return files
