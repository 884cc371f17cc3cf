# SPDX-License-Identifier: BSD-2-Clause-Patent
"""Tries the readers of the Python package with the inputs of fuzz.py: `fv.images`, which opens compressed sections, and
what fv-unpack, fv-same, fv-text, fv-map, fv-sbom and fv-vars show of an image. These readers are not proved, so an
input may find defects that no other tool finds.

An input is a volume or a flash image, which may be packed into sections of a volume, up to three times: LZMA in each
of its sections, the compression of the UEFI specification, CRC32, signed, stored or of an unknown GUID. Of the packed
data, some are changed. For each input the script checks that

- no reader raises an exception, except `Full`, and none takes more than SECONDS;
- the volumes and the bytes beside them are the image, and each part lies in the part that holds it;
- a volume has a fault exactly if the library rejects it, and then it has no files;
- the paths of fv-unpack differ from one another, lead out of no folder, and have no control characters;
- an image is the same as itself, and as another volume of the same meaning;
- no line that is shown has a control character.

LIBFV names the library, which is libfv/out/libfv.so.2 if nothing is named. The exit status is 1 if there is a finding.
The input of a finding is kept in tests/fuzz/out/."""

import argparse
import itertools
import os
import random
import sys
import time
import traceback
import uuid
from collections.abc import Callable
from functools import partial
from pathlib import Path

import fv
from fv import images, same, sbom, text, unpack, vars
from fv._page import draw
from fv._sheet import drawing_of
from fv.limits import Full, Limits
from fv.names import Names
from fv.opened import is_erased
from tests import making
from tests.frame import LIBRARY
from tests.fuzz.cases import Case, broken, make_case
from tests.fuzz.fuzz import KEPT, write_case
from tests.fuzz.program import require

SECONDS = 20
LIMITS = Limits(total=1 << 26)
NAMES = Names()
SIGNED = uuid.UUID("a7717414-c616-4977-9420-844712a735bf")
WAYS: list[Callable[[bytes], bytes]] = [
    making.compressed,
    making.compressed_code,
    making.compression,
    lambda data: making.compression(making.packed_by_tiano(data[:4096], 4), len(data), 1),
    making.checked,
    partial(making.checked, change=1),
    lambda data: making.compression(making.compressed(data)[24:], len(data), 2),
    lambda data: making.compression(b"four" + making.compressed(data)[24:], len(data), 2),
    lambda data: making.compression(making.compressed_code(data)[24:], len(data), 0x86),
    lambda data: making.guided(SIGNED, data, 3, b"signature"),
    *(partial(making.guided, uuid.UUID(int=7), attributes=it) for it in range(4)),
    lambda data: making.section(making.VOLUME, data),
    lambda data: making.section(making.GUIDED, data),
    lambda data: making.stream(making.ui("Name"), making.section(making.RAW, data)),
]


def packed(pick: random.Random, data: bytes) -> bytes:
    """Returns a volume with a file whose sections hold some data."""
    if len(data) > 1 << 18:
        return data
    section = pick.choice(WAYS)(data)
    if pick.random() < 0.3:
        section = broken(pick, section)
    sections = section if pick.random() < 0.5 else making.stream(making.section(making.VOLUME, data), section)
    name, kind = making.guid(pick.randrange(9)), pick.choice((making.FREEFORM, making.DXE_DRIVER, 0x0B, 0x03, 0x05))
    attributes = pick.choice((0, 0, 0, making.FIXED))
    length = max(0x8000, (len(sections) + 0x1000 + 7) & ~7)
    return making.volume([making.file(name, sections, kind, attributes)], length)


def inputs(seed: int, index: int) -> tuple[bytes, bytes | None]:
    """Returns the input with this number, and another image of the same meaning, if there is one."""
    pick = random.Random(f"{seed}/{index} tools")
    case = make_case(seed, index)
    data, twin = case.data, case.twin
    for _ in range(pick.choice((0, 0, 1, 1, 2, 3))):
        data, twin = packed(pick, data), None
    before = pick.choice((b"", b"", bytes(8), b"\xff" * 64, bytes(28)))
    if before:
        data, twin = before + data, None
    if pick.random() < 0.1:
        data, twin = broken(pick, data), None
    return data, twin


def is_shown(line: str) -> bool:
    """Returns whether a line can be written and is free of control characters."""
    line.encode("utf-8")
    return not any(ord(sign) < 32 or 127 <= ord(sign) < 160 for sign in line)


def check_content(content: images.Content) -> None:
    """Checks that the parts of an image, or of opened contents, lie where they should."""
    pieces = sorted([*content.headed, *content.others], key=lambda it: it.offset)
    require(content.data[: content.end] + b"".join(it.body for it in pieces) == content.data, "bytes are missing")
    parts = sorted([*content.volumes, *content.unread], key=lambda it: (it.offset, -it.length))
    at = content.end
    for part in parts:
        require(part.offset <= at or is_erased(content.data, at, part.offset), "bytes are passed over", at)
        at = max(at, part.end)
    require(is_erased(content.data, at, len(content.data)), "bytes are passed over", at)
    for volume in content.volumes:
        check_volume(volume, 0, len(content.data))
    check_sections(content.sections, 0, content.end)


def check_volume(volume: images.Volume, start: int, end: int) -> None:
    """Checks a volume between two offsets."""
    require(start <= volume.offset and volume.offset + volume.length <= end, "a volume lies outside", volume.offset)
    try:
        fv.volume_tree(volume.view, without_marks=True)
        fault = None
    except fv.FaultError as error:
        fault = error.fault
    require((fault is None) == (volume.fault is None), "another fault", fault, volume.fault)
    for file in volume.files:
        require(volume.offset <= file.offset - file.header_length, "a file before its volume")
        require(file.offset + file.length <= volume.offset + volume.length, "a file after its volume")
        require(bool(volume.fault) or file.is_fixed <= volume.is_marked, "a fixed file in a volume without marks")
        check_sections(file.sections, file.offset, file.offset + file.length)
    for inner in volume.inner:
        check_volume(inner, volume.offset, volume.end)


def check_sections(sections: list[images.Section], start: int, end: int) -> None:
    """Checks sections between two offsets."""
    for section in sections:
        require(start <= section.offset - section.header_length, "a section before its place", section.offset)
        require(section.offset + section.length <= end, "a section after its place", section.offset)
        require(not (section.opened and section.closed), "a section is opened and closed")
        check_sections(section.sections, section.offset, section.offset + section.length)
        for volume in section.volumes:
            check_volume(volume, section.offset, section.end)
        if section.opened:
            check_content(section.opened)
        require(is_shown(section.closed), "a reason", section.closed)
        require(isinstance(section.text, str))


def check_shown(data: bytes, image: images.Content) -> None:
    """Checks what the commands show of an image."""
    entries = list(unpack.entries(image, NAMES))
    paths = [it.path for it in entries]
    require(len({*paths}) == len(paths), "a path occurs twice")
    for path in paths:
        require(is_shown(path) and not path.startswith("/") and "\\" not in path, "a path", path)
        require(not {"", ".", ".."} & {*path.removesuffix("/").split("/")}, "a path", path)
        require(all(len(part.encode()) <= 255 for part in path.split("/")), "a long path", path)
    rows = [unpack.index_row(it) for it in entries]
    require(all(row.count("\t") == rows[0].count("\t") for row in rows), "a row of the index")
    lines = [*unpack.table(entries, True), *text.shown(data, True), *text.shown(data, False), *rows]
    lines += (line for part in vars.parts_of(data, NAMES) for line in vars.text(part))
    require(all(is_shown(line.replace("\t", "").rstrip("\n")) for line in lines), "a line")
    sbom.bill("image", data, entries)
    drawing = drawing_of("image", image, NAMES, 1000)
    require(draw(drawing, drawing).endswith("</html>\n"), "no whole page")


def check_same(data: bytes, other: bytes | None, changed: bytes) -> None:
    """Checks comparisons of an image."""
    require(same.compare_images(data, bytes(bytearray(data)), True).verdict == same.SAME, "another image than itself")
    for it in (True, False):
        [*same.report_lines(same.compare_images(data, changed, it, LIMITS))]
    if other is not None:
        report = same.compare_images(data, other, True)
        require(report.verdict == same.SAME, "another meaning", *same.report_lines(report))


def check(data: bytes, twin: bytes | None, pick: random.Random) -> None:
    """Makes all checks of an input."""
    began = time.process_time()
    try:
        image = images.read(data, LIMITS)
    except Full:
        return
    check_content(image)
    check_shown(data, image)
    check_same(data, twin, broken(pick, data))
    took = time.process_time() - began
    require(took < SECONDS, f"{took:.1f} seconds")


def try_one(seed: int, index: int) -> bool:
    """Makes all checks of the input with this number. Returns whether there is a finding, which is kept."""
    data, twin = inputs(seed, index)
    try:
        check(data, twin, random.Random(f"{seed}/{index} other"))
        return False
    except Exception:
        kept = write_case(KEPT, f"tools-{seed}-{index}", Case("image", data, twin=twin))
        Path(f"{kept}.txt").write_text(traceback.format_exc(), encoding="utf-8")
        print(f"finding: {kept}.input: {traceback.format_exc().splitlines()[-1][:300]}", flush=True)
        return True


def main() -> int:
    """Tries inputs, and returns the exit status."""
    reader = argparse.ArgumentParser(description="Tries the readers of the Python package with the inputs of fuzz.py.")
    reader.add_argument("--seed", type=int, default=1)
    reader.add_argument("--first", type=int, default=0, help="the number of the first input")
    reader.add_argument("--count", type=int, default=1000, help="how many inputs")
    reader.add_argument("--seconds", type=float, default=3600, help="no new input after this many seconds")
    given = reader.parse_args()
    os.environ["LIBFV"] = str(LIBRARY)
    end = time.monotonic() + given.seconds
    numbers = itertools.takewhile(lambda _: time.monotonic() <= end, range(given.first, given.first + given.count))
    found = [try_one(given.seed, index) for index in numbers]
    print(f"tools: {len(found)} inputs, seed {given.seed}, {sum(found)} findings")
    return 1 if any(found) else 0


if __name__ == "__main__":
    sys.exit(main())
