# SPDX-License-Identifier: BSD-2-Clause-Patent
"""Asks the library, the built program and the second reader (tests/packed_reader) about packed sections, and prints
each difference between their answers: the way, the contents, or the fault and its offset. liblzma answers too, if a
section has an LZMA stream. The sections are

- streams of each choice of lc, lp and pb, with a length, with an end marker, and with both;
- dictionaries of several sizes, and distances at their ends;
- no bytes, one byte, and long contents; bombs; limits around the length of the contents;
- small sections that are cut after each byte, and small sections with each bit flipped;
- all packed sections of the firmware that is installed, also those in others (`--firmware no` leaves them out);
- sections that tests/fuzz/packer.py makes, each with three changes (`--count`): of any bytes of the section, or of its
  packed data.

liblzma and the documents decide these things in different ways, so liblzma is not asked about them: choices with lc + lp
above 4, which liblzma does not read; a dictionary whose size is not a multiple of 16, which liblzma rounds up, or is
above 128 MiB; and a code that is not below the range, which liblzma does not look for. Contents that are longer than
the limit, and bytes after the stream, are handled here as in the library. The offset of a fault is not compared where
the documents do not say how many bits are read of data that are known to be damaged: a length of a code above 16, and
a code that is not below the range.

With --plants, it also asks readers with a planted misreading, each of which has to give another answer than the
library. The exit status is 1 if there is a difference, or if a planted misreading was not found."""

import argparse
import collections
import itertools
import lzma
import os
import random
import struct
import sys
import tempfile
import time
from collections.abc import Iterator
from concurrent.futures import ProcessPoolExecutor
from dataclasses import dataclass, field
from multiprocessing import get_context
from pathlib import Path
from types import ModuleType
from typing import Any
from unittest.mock import patch

import fv
from tests import making
from tests.checks import ROOT, read, skip, skip_all
from tests.frame import LIBRARY, PROGRAM
from tests.fuzz.cases import broken
from tests.fuzz.costly import no_bits
from tests.fuzz.fuzz import KEPT
from tests.fuzz.packer import DICTIONARIES, SIGNED, Made, extended, lzma_stream, some_section, tiano_data
from tests.fuzz.program import Program
from tests.packed_reader import sections
from tests.packed_reader.faults import Fault

CHANGES = 3  # changed sections for each made section
MANY = 1 << 20  # bytes of contents that the second reader decodes in firmware: it takes some microseconds for a byte
FIRMWARE = ("OVMF", "ovmf", "AAVMF", "qemu-efi-aarch64")  # folders of /usr/share
SHARED = 1 << 27  # bytes of a dictionary up to which liblzma is asked
SLOW = ("size", "bomb", "firmware")  # kinds of large contents, which are not shown to the planted readers
# Misreadings: the module of the reader, the text that each replaces, and the text that takes its place.
PLANTS = {
    "chances move by 1/16": ("lzma_stream", "chance - (chance >> 5)", "chance - (chance >> 4)"),
    "range is read late": ("lzma_stream", "self.range < 1 << 24", "self.range < 1 << 23"),
    "lengths of 17 in the last tree": ("lzma_stream", "return 18 + self.tree", "return 17 + self.tree"),
    "slots by lengths up to 4": ("lzma_stream", "min(length - 2, 3)", "min(length - 2, 2)"),
    "distances in order": ("lzma_stream", "return first + self.reverse_tree(bits", "return first + self.tree(bits"),
    "small dictionaries": ("lzma_stream", "max(dictionary, 4096)", "dictionary"),
    "lc and lp change places": ("lzma_stream", "properties % 9, properties // 9 % 5", "properties // 9 % 5, properties % 9"),
    "no literals after matches": ("lzma_stream", "is_like = self.state >= 7", "is_like = self.state >= 12"),
    "state after a literal": ("lzma_stream", "if self.state < 10 else self.state - 6", ""),
    "distances change places": ("lzma_stream", "self.reps.insert(0, self.reps.pop(which))", "self.reps[0] = self.reps[which]"),
    "any marker ends the stream": ("lzma_stream", "not self.is_known or len(self.out) == self.most", "True"),
    "the code at the end": ("lzma_stream", "require(coder.code == 0", "require(True"),
    "zeros after three lengths": ("uefi_compression", "if len(lengths) == gap:", "if False:"),
    "runs of 18 zeros": ("uefi_compression", "(20, 9))[symbol]", "(18, 9))[symbol]"),
    "matches of two bytes": ("uefi_compression", "symbol - 253", "symbol - 254"),
    "distances of two bits": ("uefi_compression", "if back >= 2:", "if back >= 3:"),
    "blocks of no symbols": ("uefi_compression", "bits.number(16) or 1 << 16", "bits.number(16) or 1"),
    "codes that are too few": ("uefi_compression", "end == 1 << 16", "end <= 1 << 16"),
    "UEFI's form of any contents": ("sections", "if are_sections(contents):", "if True:"),
    "no bytes before a stream": ("sections", "lzma_contents(data[4:], limit)", "lzma_contents(data[8:], limit)"),
    "any CRC32": ("sections", "zlib.crc32(data) == stored", "True"),
    "processing is not needed": ("sections", "not attributes & 1", "True"),
    "no room for a CRC32": ("sections", "24 if name", "20 if name"),
    "contents as long as the limit": ("sections", "len(data) <= limit", "len(data) < limit"),
}
# How often there was an outcome for inputs of a kind.
Outcomes = collections.Counter[tuple[str, str]]


@dataclass(frozen=True)
class Outcome:
    """What came of a section: the way and the contents, or the number of a fault and its offset. The offset of a fault
    may be unknown."""

    word: str
    offset: int | None = None
    contents: bytes | None = None
    head: tuple[Any, ...] = ()  # what the section header says: the way, the place of the data, and the length

    def agrees(self, other: "Outcome") -> bool:
        """Returns whether two outcomes are the same, as far as their offsets are known."""
        is_known = self.offset is not None and other.offset is not None
        same = (self.word, self.contents, self.head) == (other.word, other.contents, other.head)
        return same and (not is_known or self.offset == other.offset)

    def shown(self) -> str:
        """Returns a text of the outcome."""
        found = f"{len(self.contents)} bytes {self.contents[:30].hex()}" if self.contents is not None else ""
        return f"{self.word} at {self.offset} {self.head} {found}"


@dataclass(frozen=True)
class Trial:
    """A section under trial, and the limit of its contents. If it is large, the second reader is not asked."""

    kind: str
    section: bytes
    limit: int = sections.LIMIT
    is_large: bool = False


# The answers


def library_outcome(trial: Trial) -> Outcome:
    """Returns what the library says."""
    head: tuple[Any, ...] = ()
    try:
        said = fv.section_way(trial.section)
        head = said.way.name, said.data_offset, said.promised
        found = fv.section_open(trial.section, trial.limit)
        return Outcome(found.way.name, None, found.contents, head)
    except fv.FaultError as error:
        return Outcome(f"fault {error.fault.number}", error.fault.offset, None, head)


def reader_outcome(reader: ModuleType, trial: Trial) -> Outcome:
    """Returns what a reader says."""
    head: tuple[Any, ...] = ()
    try:
        said = reader.read_way(trial.section)
        head = said.way, said.start, said.promised
        found = reader.opened(trial.section, trial.limit)
        return Outcome(found.way, None, found.contents, head)
    except Fault as fault:
        return Outcome(f"fault {fault.kind.value}", fault.offset, None, head)
    except Exception as error:  # a reader that ends in this way gives another answer than the library
        return Outcome(repr(error), None, None, head)


def program_outcome(program: Program, trial: Trial, head: tuple[Any, ...], way: str) -> Outcome:
    """Returns what the program says, which writes no way and nothing of the header."""
    status, text = program.once("open", trial.section)
    if status == 0:
        return Outcome(way, None, text, head)
    _, _, number, _, offset = text.decode().split()
    return Outcome(f"fault {number}", int(offset), None, head)


def liblzma_contents(stream: bytes, limit: int) -> bytes | None:
    """Returns what liblzma decodes, in at most `limit` bytes. Returns None if it rejects the stream."""
    decoder, out = lzma.LZMADecompressor(lzma.FORMAT_ALONE), b""
    try:
        out = decoder.decompress(stream, limit + 1)
        while not decoder.eof and not decoder.needs_input and len(out) <= limit:
            out += decoder.decompress(b"", limit + 1 - len(out))
    except lzma.LZMAError:
        return None
    return out if decoder.eof and len(out) <= limit else None


def is_for_liblzma(stream: bytes) -> bool:
    """Returns whether liblzma and the documents decide in the same way about a stream."""
    if len(stream) < 18:
        return False
    properties, size = struct.unpack_from("<BI", stream)
    is_read = properties < 225 and properties % 9 + properties // 9 % 5 <= 4
    return is_read and (size < 4096 or size % 16 == 0 and size <= SHARED) and stream[14:18] != b"\xff" * 4


def liblzma_difference(trial: Trial, told: Outcome) -> str:
    """Returns how the answer of liblzma differs from another answer about a section with an LZMA stream, if it does."""
    if not told.head or told.head[0] != "LZMA":
        return ""
    _, size = sections.frame(trial.section) or (0, 0)
    stream = trial.section[told.head[1] : size]
    if not is_for_liblzma(stream):
        return ""
    found = liblzma_contents(stream, trial.limit)
    same = found == told.contents
    return "" if same else f"liblzma: {found if found is None else len(found)}"


# The sections


def in_section(made: Made) -> bytes:
    """Returns an LZMA section with a stream."""
    return making.guided(making.LZMA, made.data)


def of_properties() -> Iterator[Trial]:
    """Yields a stream of each choice of lc, lp and pb in three forms."""
    for properties, form in itertools.product(range(225), ("known", "marked", "both")):
        pick = random.Random(f"{properties} {form}")
        yield Trial("properties", in_section(lzma_stream(pick, properties, 40, form=form)))


def by_liblzma(data: bytes, **options: Any) -> bytes:
    """Returns a stream that liblzma makes."""
    filters = [{"id": lzma.FILTER_LZMA1, "preset": 6, **options}]
    return lzma.compress(data, format=lzma.FORMAT_ALONE, filters=filters)


def of_dictionaries() -> Iterator[Trial]:
    """Yields streams with one match at a distance, for dictionaries that reach as far, or not quite."""
    for back in (4095, 4096, 4097, 4112, 6000):
        once = making.noise("far", 60) + bytes(back - 60)  # the zeros take few packets
        stream = by_liblzma(once + once[:60], dict_size=1 << 16)
        for size in sorted({*DICTIONARIES, back - 1, back, back + 1, 5000}):
            yield Trial("dictionary", making.guided(making.LZMA, stream[:1] + struct.pack("<I", size) + stream[5:]))


def of_sizes() -> Iterator[Trial]:
    """Yields sections of no bytes, of one byte, and of many bytes."""
    code = making.noise("code", 9000) + b"\xe8\x10\x20\0\0\x90" * 500
    for data in (b"", b"a", bytes(300_000), making.noise("long", 20_000), code, bytes(range(256)) * 300):
        known = by_liblzma(data)
        stream = known[:5] + len(data).to_bytes(8, "little") + known[13:]
        for it in (stream, known, stream + b"more", known + bytes(40)):
            yield Trial("size", making.guided(making.LZMA, it))
        yield Trial("size", making.compressed_code(data))
        for width in (4, 5):
            yield Trial("size", making.compression(making.packed_by_tiano(data[:2000], width), len(data), 1))
        yield Trial("size", making.checked(data))
    for blocks in (1, 12):
        yield Trial("size", making.guided(making.TIANO, tiano_data(random.Random(blocks), 5, 3000, blocks).data))


def small() -> Iterator[tuple[Made, bool]]:
    """Yields small packed data with their contents, and whether they are an LZMA stream."""
    for number, (form, packets) in enumerate(itertools.product(("known", "marked", "both"), (3, 25))):
        yield lzma_stream(random.Random(number), (93, 0, 224)[number % 3], packets, form=form), True
    for number, (width, count) in enumerate(itertools.product((4, 5), (4, 30))):
        yield tiano_data(random.Random(number), width, count, 1 + number % 2), False


def wrapped(data: bytes, is_lzma: bool) -> bytes:
    """Returns a section with packed data."""
    return making.guided(making.LZMA, data) if is_lzma else making.compression(data, 0, 1)


def of_changes() -> Iterator[Trial]:
    """Yields small sections whose data are cut after each byte, sections that are cut after each byte, and sections
    with each bit flipped."""
    for made, is_lzma in small():
        section, limit = wrapped(made.data, is_lzma), len(made.contents) + 300
        for count in range(len(made.data)):
            yield Trial("cut", wrapped(made.data[:count], is_lzma), limit)
        for count in range(len(section)):
            yield Trial("cut", section[:count], limit)
        for bit in range(8 * len(section)):
            at = bit // 8
            flipped = section[:at] + bytes([section[at] ^ 1 << bit % 8]) + section[at + 1 :]
            yield Trial("flipped", flipped, limit)
    for number in range(20):
        section = some_section(random.Random(f"{number} cut"), "stored").data
        yield from (Trial("cut", section[:count]) for count in range(len(section)))


def of_limits() -> Iterator[Trial]:
    """Yields sections with limits around the length of their contents, and bombs."""
    for number in range(120):
        made = some_section(random.Random(f"{number} limit"))
        for limit in {max(len(made.contents) + it, 0) for it in (-1, 0, 1)} | {0}:
            yield Trial("limit", made.data, limit)
    stream = by_liblzma(bytes(64 << 20), preset=1)
    known = stream[:5] + (64 << 20).to_bytes(8, "little") + stream[13:]
    for data in (stream, known, known[:5] + (1 << 63).to_bytes(8, "little") + known[13:]):
        for limit in (1000, 1 << 20):
            yield Trial("bomb", making.guided(making.LZMA, data), limit)
            yield Trial("bomb", making.compression(data, 5, 0x86), limit)
    for width, has_matches in itertools.product((4, 5), (True, False)):
        yield Trial("bomb", making.compression(no_bits(3_000_000, width, has_matches), 0, 1), 1 << 20)
        yield Trial("bomb", making.compression(no_bits(200_000, width, has_matches), 0, 1), 1 << 20)


def of_headers() -> Iterator[Trial]:
    """Yields sections of each type, of each CompressionType, and with each DataOffset near its limits."""
    data = making.stream(making.ui("Name"))
    plain = [making.guided(it, data, 1, bytes(4)) for it in (making.CRC32, making.LZMA, making.TIANO, SIGNED[0])]
    plain += [making.guided(making.UNKNOWN, data, it, bytes(4)) for it in range(4)]
    for kind, section in itertools.product(range(256), (plain[0], making.compression(data))):
        yield Trial("header", section[:3] + bytes([kind]) + section[4:])
        yield Trial("header", making.compression(data, 5, kind))
    for section in plain:
        for start, longer in itertools.product(range(len(section) + 10), (section, extended(section))):
            at = 20 + len(longer) - len(section)
            yield Trial("header", longer[:at] + struct.pack("<H", start) + longer[at + 2 :])


def packed_in(data: bytes, is_stream: bool = False) -> Iterator[bytes]:
    """Yields the packed sections of an image, or of a stream of sections, also those in others."""
    trees = list[tuple[bytes, Any]]()
    try:
        if is_stream:
            trees.append((data, fv.sections_tree(data)))
        else:
            for it in fv.image_scan(data):
                volume = fv.volume_unfix(data[it.offset : it.offset + it.length])
                trees.append((volume, fv.volume_tree(volume)))
    except fv.FaultError:
        return
    for part, rows in trees:
        for row in rows:
            if row.kind is fv.NodeKind.SECTION and row.efi_type in (making.COMPRESSION, making.GUIDED):
                section = part[row.offset - row.header_length : row.offset + row.length]
                yield section
                try:
                    yield from packed_in(fv.section_open(section).contents, True)
                except fv.FaultError:
                    pass


def of_firmware() -> Iterator[Trial]:
    """Yields each packed section of the firmware that is installed, once."""
    seen = set[bytes]()
    for folder in FIRMWARE:
        paths = sorted(it for it in Path("/usr/share", folder).rglob("*.fd") if it.is_file() and not it.is_symlink())
        if not paths:
            skip("packed", f"firmware of /usr/share/{folder}", "it is not installed")
        for path in paths:
            for section in packed_in(path.read_bytes()):
                if section not in seen:
                    seen.add(section)
                    promised = fv.section_way(section).promised or 0
                    yield Trial("firmware", section, is_large=promised > MANY)


def by_number(seed: int, index: int) -> Iterator[Trial]:
    """Yields a made section and its changes."""
    pick = random.Random(f"{seed}/{index} packed")
    made = some_section(pick)
    length = len(made.contents)
    yield Trial("made", made.data)
    for _ in range(CHANGES):
        limit = pick.choice((sections.LIMIT, 1 << 16, 1 << 16, length, max(length - 1, 0)))
        start = pick.choice((0, 0, 4, 24, 30))
        changed = made.data[:start] + broken(pick, made.data[start:])
        size = len(changed) if pick.random() < 0.7 else 0
        if 4 <= size < making.MOST_SHORT and changed[:3] != b"\xff\xff\xff":
            changed = size.to_bytes(3, "little") + changed[3:]  # the section is as long as its bytes
        yield Trial("changed", changed, min(limit, 1 << 22))


GIVEN = (of_headers, of_properties, of_dictionaries, of_sizes, of_changes, of_limits)


# A process that asks


@dataclass
class Result:
    """What came of some sections: how many there were, how often each kind had each outcome, the differences, and for
    each plant that was found the number of sections up to there."""

    tried: int = 0
    outcomes: Outcomes = field(default_factory=Outcomes)
    differences: list[str] = field(default_factory=list)
    found: dict[str, int] = field(default_factory=dict)
    runs: int = 0  # of the program


def planted(name: str) -> ModuleType:
    """Returns the reader of sections with a planted misreading."""
    module_name, old, new = PLANTS[name]
    path = ROOT / f"tests/packed_reader/{module_name}.py"
    text = read(path)
    if text.count(old) != 1:
        raise ValueError(f"{name}: {old!r} is {text.count(old)} times in {path}")
    changed = ModuleType(f"tests.packed_reader.{module_name}")
    modules = {changed.__name__: changed}
    with patch.dict(sys.modules, modules):
        exec(compile(text.replace(old, new), name, "exec"), changed.__dict__)
        if module_name == "sections":
            return changed
        reader = ModuleType("tests.packed_reader.sections")
        with patch.dict(sys.modules, {reader.__name__: reader}):
            source = read(ROOT / "tests/packed_reader/sections.py")
            exec(compile(source, "sections", "exec"), reader.__dict__)
        return reader


@dataclass
class Asker:
    """A process's own program, and its planted readers that gave no other answer than the library so far."""

    given: argparse.Namespace
    program: Program
    plants: dict[str, ModuleType]
    tried: int = 0  # sections since the last run of the program

    def ask(self, trial: Trial, result: Result, again: str) -> None:
        """Asks all about a section."""
        result.tried += 1
        told = library_outcome(trial)
        result.outcomes[trial.kind, told.word] += 1
        own = told if trial.is_large else reader_outcome(sections, trial)
        others = {"reader": own}
        self.tried += 1
        if trial.limit == sections.LIMIT and self.given.runs and self.tried >= self.given.runs:
            self.tried = 0
            result.runs += 1
            others["program"] = program_outcome(self.program, trial, told.head, told.word)
        wrong = [f"{name}: {it.shown()}" for name, it in others.items() if not it.agrees(told)]
        if not (own.word.startswith("fault") and own.offset is None):
            wrong += [it for it in [liblzma_difference(trial, told)] if it]
        if wrong:
            result.differences.append(self.shown(trial, told, wrong, again))
        if trial.is_large or trial.kind in SLOW:
            return
        for name in [it for it, plant in self.plants.items() if not reader_outcome(plant, trial).agrees(told)]:
            del self.plants[name]
            result.found[name] = result.tried

    def shown(self, trial: Trial, told: Outcome, wrong: list[str], again: str) -> str:
        """Keeps the section of a difference, and returns a text that shows the difference."""
        self.given.keep.mkdir(parents=True, exist_ok=True)
        path = self.given.keep / f"packed-{len(trial.section)}-{hash(trial.section) & 0xFFFFFFFF:08x}.section"
        path.write_bytes(trial.section)
        lines = [f"DIFFERENCE ({trial.kind}, limit {trial.limit}), kept as {path}; {again}", f"  library: {told.shown()}"]
        return "\n".join([*lines, *(f"  {it}" for it in wrong)])


ASKERS: list[Asker] = []  # the one of this process


def begin(given: argparse.Namespace, room: str) -> None:
    """Prepares a process."""
    folder = Path(room) / str(os.getpid())
    folder.mkdir()
    program = Program(PROGRAM.resolve(), 60, folder, random.Random(0))
    ASKERS.append(Asker(given, program, {it: planted(it) for it in PLANTS} if given.plants else {}))


def ask_part(part: int | range) -> Result:
    """Asks about the sections of a list with this number, or about the made sections with these numbers."""
    asker, result = ASKERS[0], Result()
    if isinstance(part, int):
        trials = of_firmware() if part == len(GIVEN) else GIVEN[part]()
        for trial in trials:
            asker.ask(trial, result, f"tests/run.py packed -- --count 0 ({trial.kind})")
    else:
        seed = asker.given.seed
        for index in part:
            for trial in by_number(seed, index):
                again = f"again: tests/run.py packed -- --only --seed {seed} --first {index} --count 1"
                asker.ask(trial, result, again)
    return result


def ask_everything(given: argparse.Namespace, room: str) -> int:
    """Asks about all sections, and prints the figures. Returns the exit status."""
    start, whole = time.monotonic(), Result()
    parts: list[int | range] = [] if given.only else [*range(len(GIVEN) + (given.firmware == "yes"))]
    last = given.first + given.count
    parts += [range(at, min(at + 100, last)) for at in range(given.first, last, 100)]
    with ProcessPoolExecutor(given.jobs, get_context("spawn"), begin, (given, room)) as pool:
        for result in pool.map(ask_part, parts):
            for name, count in result.found.items():
                whole.found.setdefault(name, whole.tried + count)
            whole.tried, whole.runs = whole.tried + result.tried, whole.runs + result.runs
            whole.outcomes += result.outcomes
            whole.differences += result.differences
            for text in result.differences:
                print(text, flush=True)
    for kind in dict.fromkeys(it[0] for it in whole.outcomes):
        counts = (f"{it[1]}: {count}" for it, count in sorted(whole.outcomes.items()) if it[0] == kind)
        print(f"{kind}: " + ", ".join(counts))
    for name in PLANTS if given.plants else ():
        found = f"found after {whole.found[name]} sections" if name in whole.found else "NOT FOUND"
        print(f"plant {name}: {found}")
    figures = f"{whole.runs} runs of the program, {time.monotonic() - start:.0f} seconds"
    figures += f", {len(whole.differences)} differences"
    figures += f", {len(whole.found)} of {len(PLANTS)} plants found" * given.plants
    print(f"packed: {whole.tried} sections, seed {given.seed}: {figures}")
    return 1 if whole.differences or given.plants and len(whole.found) < len(PLANTS) else 0


def main() -> int:
    """Reads the arguments, and asks about the sections. Returns the exit status."""
    shape = argparse.RawDescriptionHelpFormatter
    reader = argparse.ArgumentParser(description=__doc__, formatter_class=shape)
    reader.add_argument("--count", type=int, default=1000, help="how many made sections; each has three changes")
    reader.add_argument("--seed", type=int, default=int(time.time()), help="a number; by default the time")
    reader.add_argument("--first", type=int, default=0, help="the number of the first made section")
    reader.add_argument("--only", action="store_true", help="only the made sections, and not the other lists")
    reader.add_argument("--firmware", choices=("yes", "no"), default="yes", help="also ask about installed firmware")
    reader.add_argument("--runs", type=int, default=20, help="run the program for each so many sections; 0: never")
    reader.add_argument("--jobs", type=int, default=os.cpu_count(), help="how many processes")
    reader.add_argument("--keep", type=Path, default=KEPT, help="the folder for sections with a difference")
    plants: Any = argparse.BooleanOptionalAction
    reader.add_argument("--plants", action=plants, default=False, help="also look for the planted misreadings")
    given = reader.parse_args()
    if not PROGRAM.exists() or not LIBRARY.exists():
        return skip_all("packed", "all of it", "the program or the library is not built (./fvtool and libfv/build)")
    os.environ["LIBFV"] = str(LIBRARY)
    in_memory = "/dev/shm" if os.access("/dev/shm", os.W_OK) else None
    with tempfile.TemporaryDirectory(prefix="packed-", dir=in_memory) as room:
        return ask_everything(given, room)


if __name__ == "__main__":
    sys.exit(main())
