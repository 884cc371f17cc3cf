# SPDX-License-Identifier: BSD-2-Clause-Patent
"""The promises of docs/PROGRAM.md that fuzz.py checks: the answers of the program agree with what a maker wrote, with
one another, and with the second reader. README.md lists the promises."""

import hashlib
import re
import uuid
from collections.abc import Callable, Iterator

from tests import second_reader
from tests.fuzz.cases import Case
from tests.fuzz.program import Answer, Program, fault, joined, line, require
from tests.making import COMPRESSION, FIXED, GUIDED
from tests.packed_reader import sections
from tests.packed_reader.faults import Fault
from tests.second_reader import Section, Stream, Volume

# A check of an accepted volume and its canonical image.
Check = Callable[[Program, Case, bytes], None]
LENGTH = 8  # the fault of a wrong length, and of bytes after the volume
NO_LAYOUT = (22, 23)  # the faults of volumes that have a meaning and no canonical image
VERDICT = re.compile(rb"(?m) (?:canonical|not canonical|fault \d+ at \d+)$")
SUM = re.compile(rb"(?m) sha256 ([0-9a-f]{64})$")


def read(command: str, data: bytes, image: bytes | None = None, base: int = 0) -> Answer:
    """Returns the answer of the second reader. The answer of `check` has no verdict."""
    found = second_reader.answer(command, data, image or b"", base=None if image is None else base)
    return found.status, found.text


def check_own(program: Program, case: Case, image: bytes) -> None:
    """Checks that `check` reports whether the volume is its own image, after the notes of the second reader, and that
    the volume and its image have the same notes on expressions."""
    notes, is_own = read("check", case.data)[1], case.data == image
    program.expect((1 - is_own, notes + (b"canonical\n" if is_own else b"not canonical\n")), "check", case.data)
    of_depex, of_image = (re.findall(rb"(?m)^note depex .*$", it) for it in (notes, read("check", image)[1]))
    require(of_depex == of_image, "check: other notes of the image", notes)


def check_listed(program: Program, case: Case, image: bytes) -> None:
    """Checks that `list` writes the lines of the second reader for the volume and for its image, and that `scan` finds
    the volume."""
    for data in (case.data, image):
        program.expect(read("list", case.data), "list", data)
    program.expect((0, line(f"volume at 0 length {len(case.data)}")), "scan", case.data)


def check_length(program: Program, case: Case, image: bytes) -> None:
    """Checks that `list` alone ignores bytes after the volume, and that a proper prefix of it is rejected."""
    more = case.data + program.pick.randbytes(1 + program.pick.randrange(40))
    program.expect(program.ask("list", case.data), "list", more)
    for command in ("normalise", "check", "unfix"):
        program.expect(fault(LENGTH, len(case.data)), command, more)
    program.expect(fault(LENGTH, len(case.data), "second "), "compare", image, more)
    count = program.pick.randrange(len(case.data))
    program.expect(fault(1, count), program.pick.choice(("normalise", "list", "check", "unfix")), case.data[:count])


def check_placed(program: Program, case: Case, image: bytes) -> None:
    """Checks that `--at` finds the volume anywhere in the input."""
    pick = program.pick
    front, other, last = (pick.randbytes(pick.randrange(it)) for it in (80, 80, 40))
    more, command = front + case.data + last, pick.choice(("normalise", "list", "check"))
    program.expect(program.ask(command, case.data), f"{command} --at {len(front)}", more)
    forms: tuple[Callable[[int], str], ...] = (str, hex)
    for shown in forms:
        words = f"compare --at {shown(len(front))} --other-at {shown(len(other))}"
        program.expect((0, b"same\n"), words, more, other + image)
    past = len(more) + pick.choice((0, 1, 1 << 20, (1 << 64) - 1 - len(more)))
    program.expect(fault(1, 0), f"{command} --at {past}", more)


def check_cells(program: Program, case: Case, _image: bytes) -> None:
    """Checks that `cells` writes the lines of the second reader, and ignores bytes after the volume."""
    more = case.data + program.pick.randbytes(program.pick.choice((0, 0, 5)))
    program.expect(read("cells", case.data), "cells", more)


def check_unfixed(program: Program, case: Case, _image: bytes) -> None:
    """Checks that `unfix` removes the marks of fixed files, and changes nothing else."""
    places = [int(it) for it in re.findall(rb"(?m)^file at (\d+) ", program.told("cells", case.data))]
    marked = bytearray(case.data)
    chosen = sorted(program.pick.sample(places, program.pick.randrange(len(places) + 1)))
    for at in chosen:
        marked[at + 16] = (marked[at + 16] - FIXED) % 256
        marked[at + 19] |= FIXED
    program.expect((0, case.data), "unfix", bytes(marked))
    for at in chosen[:1]:
        program.expect(fault(15, at + 19), "list", bytes(marked))
    program.expect(fault(LENGTH, len(marked)), "unfix", bytes(marked) + b"\0")


def check_sums(program: Program, case: Case, image: bytes) -> None:
    """Checks that `list --sums` writes the lines of `list`, with the digests of the image and of extracted files."""
    text = program.told("list --sums", case.data)
    program.expect((0, SUM.sub(b"", text)), "list", case.data)
    program.expect((0, text), "list --sums", image)
    require(SUM.findall(text)[0].decode() == hashlib.sha256(image).hexdigest(), "list --sums: the image", text)
    files = re.findall(r"(?m)^  file \d+ (\S+) .* data (\d+) sha256 (\S+)$", text.decode())
    for name, length, digest in program.pick.sample(files, min(len(files), 1)):
        part = program.told(f"extract --name {name.upper()}", program.pick.choice((case.data, image)))
        require(hashlib.sha256(part).hexdigest() == digest, f"list --sums: {name}", text)
        require(len(part) == int(length) and part in image, f"extract: {name}", part)
    program.expect((1, b"not found\n"), f"extract --name {uuid.UUID(bytes=program.pick.randbytes(16))}", image)


def sections_in(part: Volume | Stream | None, path: str = "") -> Iterator[tuple[str, Section]]:
    """Yields the sections of a volume or a stream, each with the path that `open` takes."""
    if isinstance(part, Volume):
        for number, file in enumerate(part.files):
            yield from sections_in(file.stream, f"{path}{number}.")
    elif part:
        for number, section in enumerate(part.sections):
            yield f"{path}{number}", section
            yield from sections_in(section.content, f"{path}{number}.")


def expect_opened(program: Program, section: bytes, command: str, data: bytes) -> str:
    """Checks that a command opens a packed section of the data as the reader of packed sections does, which does not
    know the offset of some faults. Returns the outcome."""
    found = program.ask(command, data)
    try:
        wanted = 0, sections.opened(section).contents
    except Fault as it:
        offset = int(found[1].split()[-1]) if it.offset is None and found[0] == 2 else it.offset
        wanted = fault(it.kind.value, offset or 0, "section ")
    require(found == wanted, f"{command}: another answer", found, wanted)
    return "opened" if wanted[0] == 0 else f"section refused {wanted[1].split()[2].decode()}"


def check_opened(program: Program, case: Case, _image: bytes) -> None:
    """Checks that `open` finds sections of the volume by their paths, and opens the packed ones."""
    volume = second_reader.read_volume(case.data)
    listed = list(sections_in(volume))
    for missing in (f"{len(volume.files)}.0", *(f"{path}.0" for path, it in listed[-1:] if it.content is None)):
        program.expect((1, b"not found\n"), f"open --section {missing}", case.data)
    packed = [it for it in listed if it[1].type in (COMPRESSION, GUIDED)]
    for path, section in program.pick.sample(packed, min(len(packed), 2)):
        start = section.body.start - (8 if section.extended else 4)
        data, front = case.data[start : section.body.end], program.pick.randbytes(program.pick.randrange(40))
        expect_opened(program, data, f"open --section {path}", case.data)
        expect_opened(program, data, f"open --at {start}", case.data)
        expect_opened(program, data, f"open --section {path} --at {len(front)}", front + case.data)
    others = [path for path, section in listed if section.type not in (COMPRESSION, GUIDED)]
    for path in program.pick.sample(others, min(len(others), 1)):
        program.expect((1, b"not packed\n"), f"open --section {path}", case.data)


# The further checks of an accepted volume.
WAYS: list[Check] = [check_own, check_listed, check_length, check_placed, check_cells, check_unfixed, check_sums]
WAYS.append(check_opened)


def check_accepted(program: Program, case: Case, image: bytes) -> None:
    """Checks an accepted volume and its image."""
    require(len(image) == len(case.data), f"normalise: {len(image)} bytes of {len(case.data)}")
    notes = read("check", image)[1]
    require(b"note pad" not in notes, "check: a pad of the image", notes)
    program.expect((0, notes + b"canonical\n"), "check", image)
    program.expect((0, image), "normalise", image)
    program.expect((0, b"same\n"), "compare", case.data, image)
    if case.lines and program.pick.randrange(2):
        program.expect((0, joined(case.lines)), "list", case.data)
    if case.twin and program.pick.randrange(4) == 0:
        program.expect((0, image), "normalise", case.twin)
    if program.pick.randrange(2):
        program.pick.choice(WAYS)(program, case, image)


def check_refused(program: Program, case: Case, refusal: bytes) -> None:
    """Checks that other commands reject the volume with the same fault, unless it only lacks a layout."""
    number, offset = (int(it) for it in re.findall(rb"\d+", refusal))
    require(case.lines is None or number in NO_LAYOUT, "a volume of the format is refused", refusal)
    command = program.pick.choice(("check", "list", "compare", "scan"))
    status, text = program.ask(command, *[case.data] * (2 if command == "compare" else 1))
    if command == "scan":
        check_places(program, case)
    elif number in NO_LAYOUT:
        wanted = {"check": (1, text[:-14] + b"not canonical\n"), "compare": (0, b"same\n")}
        if command == "list":
            wanted["list"] = 0, joined(case.lines) if case.lines else text
        require((status, text) == wanted[command], f"{command}: what has no layout", status, text)
        program.expect((2, refusal), "list --sums", case.data)
    elif command == "list" and number == LENGTH and offset != 32:
        require(status == 0, "list: bytes after the volume", text)
    else:
        prefix = b"first " if command == "compare" else b""
        require((status, text) == (2, prefix + refusal), f"{command}: another refusal", text, refusal)
        if number != LENGTH:
            front = program.pick.randbytes(program.pick.randrange(80))
            program.expect((2, refusal), f"check --at {len(front)}", front + case.data)


def check_volume(program: Program, case: Case) -> str:
    """Checks the program over a volume, or over nearly a volume. Returns the outcome."""
    status, out = program.ask("normalise", case.data)
    if status == 2:
        check_refused(program, case, out)
        return f"refused {int(re.findall(rb'[0-9]+', out)[0])}"
    check_accepted(program, case, out)
    return "accepted"


def check_places(program: Program, case: Case) -> None:
    """Checks that `scan` finds the volumes of the second reader, and each of them also on its own."""
    program.expect(read("scan", case.data), "scan", case.data)
    places = second_reader.places(case.data)
    for offset, length in program.pick.sample(places, min(len(places), 1)):
        alone = case.data[offset : offset + length]
        program.expect((0, line(f"volume at 0 length {length}")), "scan", alone)
        program.expect(program.ask("list", alone), f"list --at {offset}", case.data)


def check_image(program: Program, case: Case) -> str:
    """Checks the program over a flash image. `normalise --all` keeps the length of an image, and writes its own result
    again if `scan` finds the same volumes there. (It may find others: `covered` of tests/making.py makes such images.)
    Returns the outcome."""
    text = program.told("scan", case.data)
    require(case.lines is None or text == joined(case.lines), "scan: other volumes", text, case.lines)
    check_places(program, case)
    require(VERDICT.sub(b"", program.once("check --all", case.data)[1]) == text, "check --all: other volumes", text)
    status, image = program.ask("normalise --all", case.data)
    if status == 0:
        require(len(image) == len(case.data), f"normalise --all: {len(image)} bytes of {len(case.data)}")
        if program.ask("scan", image) == (0, text):
            program.expect((0, image), "normalise --all", image)
    return "scanned"


def check_list(program: Program, case: Case) -> str:
    """Checks the program over a hand-off list. Returns the outcome."""
    status, text = program.ask("hobs", case.data, image=case.image, base=case.base)
    is_kept = case.lines is None or (status, text) == (0, joined(case.lines))
    require(is_kept, "hobs: other blocks", text, case.lines)
    wanted = read("hobs", case.data, case.image, case.base)
    require((status, text) == wanted, "hobs: another answer", text, wanted)
    if status == 2:
        return "list refused"
    size = int(text.split()[-1])
    for count in (size, program.pick.randrange(size)):
        program.expect(read("hobs", case.data[:count]), "hobs", case.data[:count])
    return "list accepted"


def check_section(program: Program, case: Case) -> str:
    """Checks that `open` opens a packed section anywhere in the input. Returns the outcome."""
    front = program.pick.randbytes(program.pick.randrange(40))
    expect_opened(program, case.data, f"open --at {len(front)}", front + case.data)
    return expect_opened(program, case.data, "open", case.data)


CHECKS: dict[str, Callable[[Program, Case], str]] = {"volume": check_volume, "image": check_image, "list": check_list}
CHECKS["section"] = check_section
