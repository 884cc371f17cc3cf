# SPDX-License-Identifier: BSD-2-Clause-Patent
"""The rules of the package for Python: its names, its exceptions, its values, its arguments, and the library that it
loads. The tests use an installed package, or the package that PYTHONPATH names."""

import concurrent.futures
import copy
import ctypes
import dataclasses
import hashlib
import mmap
import multiprocessing
import os
import pickle
import re
import shutil
import struct
import subprocess
import sys
import tempfile
import threading
import time
import types
import unittest
import uuid
from array import array
from collections.abc import Iterable, Sequence
from operator import setitem
from pathlib import Path
from typing import Any

import fv
import rows
from fv import _errors, _library, _native, names
from tests import making, stores
from tests.checks import ROOT, read
from tests.frame import RoomCase, needs_library, needs_tool
from tests.python.outcomes import CONTENTS, OF_IMAGE, OF_SECTION, OF_SECTIONS, OF_VOLUME, Call, grouped, outcome
from tests.python.outcomes import closed, packings, raised, volume_of

PACKAGE = Path(fv.__file__).parent
HEADER = read(ROOT / "libfv/include/fv.h")
CC = os.environ.get("CC", "cc")
A, B = uuid.UUID(int=1), uuid.UUID(int=2)
# An expression that is true if both GUIDs are installed.
BOTH = b"\2" + A.bytes_le + b"\2" + B.bytes_le + b"\3\10"
# A file with one section, whose body is one byte, and a volume of this file.
SECTION = b"\x05\x00\x00\x19z"
VOLUME = volume_of(SECTION)


def is_frozen(value: Any) -> bool:
    """Returns whether no field of a value can be set or added."""
    name = dataclasses.fields(value)[0].name
    # The slots reject a field with another name by one of two exceptions.
    known, other = raised(setattr, value, name, 1), raised(setattr, value, "other", 1)
    is_rejected = isinstance(known, dataclasses.FrozenInstanceError) and isinstance(other, (AttributeError, TypeError))
    return is_rejected and not hasattr(value, "__dict__")


def again(value: Any) -> tuple[Any, ...]:
    """Returns a value after it was copied and pickled."""
    return copy.copy(value), copy.deepcopy(value), pickle.loads(pickle.dumps(value))


def hob(kind: int, length: int, fields: bytes = b"") -> bytes:
    """Returns a block of a hand-off list."""
    return (kind.to_bytes(2, "little") + length.to_bytes(2, "little") + bytes(4) + fields).ljust(length, b"\0")


def constants(prefix: str) -> dict[str, int]:
    """Returns the constants of fv.h whose names begin with FV_ and this prefix."""
    return {name: int(number, 0) for name, number in re.findall(rf"\bFV_{prefix}_(\w+) = (\w+)", HEADER)}


def nested(times: int) -> bytes:
    """Returns a stream of sections in a packed section, which is in a packed section, and so on, this many times."""
    stream = SECTION
    for _ in range(times):
        stream = making.compression(stream)
    return stream


@needs_library
class Images(unittest.TestCase):
    """Images that are open at every level."""

    def test_packed(self) -> None:
        for it in packings():
            data = volume_of(it.section)
            with fv.image_open(data) as image:
                first, second = image.sources
                self.assertEqual((first.number, first.depth, first.packed, image.closed), (0, 0, None, []))
                self.assertEqual((first.bytes, first.rows), (data, fv.image_survey(data)))
                contents = fv.section_open(it.section).contents
                at, length = data.index(it.section), len(it.section)
                packed = fv.PackedSection(0, at, length, 0, it.way, len(contents), None, None)
                self.assertEqual((second.number, second.depth, second.packed), (1, 1, packed))
                self.assertEqual((second.bytes, second.rows), (contents, fv.sections_survey(contents)))
            self.assertTrue(is_frozen(second) and is_frozen(packed))

    def test_closed(self) -> None:
        why = fv.Reason
        for section, code, offset in closed()[2:]:
            if section[3] in (fv.SectionType.COMPRESSION, fv.SectionType.GUID_DEFINED):
                data = volume_of(section)
                place = 0, data.index(section), len(section), 0
                image = fv.image_open(data)
                self.assertEqual(len(image.sources), 1)
                wanted = fv.PackedSection(*place, None, None, why.FAULT, fv.Fault(code, offset))
                self.assertEqual(image.closed, [wanted])
        data = volume_of(nested(1))
        (row,) = fv.image_open(data, 0).closed
        self.assertEqual((row.reason, row.fault, row.way, row.contents_length), (why.LIMIT, None, None, None))
        self.assertEqual([fv.image_open(data, it).closed for it in (5, None, 2**70)], [[]] * 3)
        self.assertEqual(fv.image_open(data, 4).closed[0].fault, fv.Fault(fv.FaultCode.OPEN_TOO_LONG, 9))
        self.assertIsInstance(raised(fv.image_open, data, -1), ValueError)

    def test_levels(self) -> None:
        image = fv.image_open(volume_of(nested(9)))
        self.assertEqual([it.depth for it in image.sources], [*range(9)])
        self.assertEqual([it.packed.source for it in image.sources if it.packed], [*range(8)])
        (row,) = image.closed
        self.assertEqual((row.source, row.depth, row.reason), (8, 8, fv.Reason.DEPTH))
        self.assertEqual(bytes(fv.image_open(nested(0) + volume_of(nested(8))).sources[-1].bytes), SECTION)

    def test_lent(self) -> None:
        # What an image has lent can be used after it is closed, and nothing can write to it.
        image = fv.image_open(volume_of(nested(1)))
        source = image.sources[1]
        wanted = [fv.sections_survey(SECTION), SECTION]
        image.close()
        image.close()
        for name in ("sources", "closed", "__enter__"):
            self.assertIsInstance(raised(lambda: getattr(image, name)()), ValueError)  # noqa: B023
        del image
        self.assertEqual([source.rows, source.bytes], wanted)
        self.assertEqual([*again(source.rows)], [wanted[0]] * 3)
        self.assertTrue(source.bytes.readonly and source.bytes.format == "B")

    def test_buffer(self) -> None:
        # A buffer that is read in place is held as long as anything refers to it.
        data = bytearray(volume_of(nested(1)))
        image = fv.image_open(data, copy=False)
        views = [it.bytes for it in image.sources]
        image.close()
        self.assertIsInstance(raised(data.append, 0), BufferError)
        self.assertEqual(views[0], data)
        del views
        data.append(0)
        with fv.image_open(data) as copied:
            data[:] = bytes(len(data))
            self.assertNotEqual(copied.sources[0].bytes, data)
        for empty in (b"", bytearray()):
            self.assertEqual([(len(it.bytes), it.rows) for it in fv.image_open(empty, copy=False).sources], [(0, [])])


@needs_library
class Names(unittest.TestCase):
    """The names and numbers of the package, beside the names and numbers of fv.h and docs/FAULTS.md."""

    def test_calls(self) -> None:
        declared = re.findall(r"\bFV_(?:API|CHECKED)_ [^;]*?\b(fv_\w+)\(", HEADER)
        named = [it for it in declared if not it.startswith("fv_guid_")]  # the module uuid has the same
        self.assertEqual((len(declared), sorted(named)), (39, sorted(_native.CALLS)))
        # An Image makes the calls that take a handle. An argument `without_marks` is in place of the calls _with.
        of_handle = {"fv_image_close", *re.findall(r"\b(fv_\w+)\(const fv_image \*", HEADER)}
        functions = {it.removeprefix("fv_").removesuffix("_with") for it in {*named} - of_handle}
        public = set(fv.__all__) - functions
        self.assertEqual(len(public), len(fv.__all__) - len(functions))
        self.assertTrue(all(isinstance(getattr(fv, it), type) for it in public - {"Buffer", "CONTENTS_MAX", "LENGTH_MAX"}))
        self.assertEqual((fv.CONTENTS_MAX, fv.LENGTH_MAX), (2**30, 2**28))
        self.assertEqual((fv.version_number() >> 16, fv.version()[:2]), (2, "2."))
        self.assertEqual(re.sub(r"[.-]?dev\d*$", "", fv.__version__), re.sub(r"-dev$", "", fv.version()))

    def test_types(self) -> None:
        self.assertEqual(constants("FILE"), {it.name: it for it in fv.FileType})
        self.assertEqual(constants("SECTION"), {it.name: it for it in fv.SectionType})
        self.assertEqual(constants("REASON"), {it.name: it for it in fv.Reason})
        self.assertEqual({*fv.FileType}, {*names.FILES, fv.FileType.FFS_PAD})
        self.assertEqual(({*fv.SectionType}, len(fv.SectionType) >= 15), ({*names.SECTIONS}, True))

    def test_codes(self) -> None:
        self.assertEqual(constants("FAULT"), {it.name: it for it in fv.FaultCode})
        self.assertEqual(len(fv.FaultCode), 38)
        fault = _errors.fault_of(7, 99, 1, 0)  # a newer library may have other codes
        self.assertEqual((fault, type(fault.code)), (fv.Fault(99, 7, 1), int))

    def test_texts(self) -> None:
        results = [*fv.FaultCode, _native.OK, _native.OUT_OF_MEMORY, _native.BUFFER_TOO_SMALL, _native.NOT_FOUND]
        results += [_native.BAD_ARGUMENT, _native.BAD_GUID]
        none = fv.result_text(2**32 - 1)
        self.assertEqual(len({none, *map(fv.result_text, results)}), len(results) + 1)
        self.assertEqual({fv.result_text(it) for it in range(0x400) if it not in results}, {none})
        page = read(ROOT / "docs/FAULTS.md").split("## What each fault means for you")[1].split("\n## ")[0]
        lines = [line.strip("| ").split(" | ") for line in page.splitlines() if line.startswith("| ")][1:]
        texts = {int(line[0]): line[1] for line in lines if int(line[0]) <= _native.OUT_OF_MEMORY}
        self.assertEqual(texts, {it: fv.result_text(it) for it in range(1, _native.OUT_OF_MEMORY + 1)})

    @needs_tool(CC)
    def test_layouts(self) -> None:
        # The C compiler has the sizes and offsets of the formats.
        words = [str(ROOT / "libfv/generate"), "--interface"]  # writes what fv.h declares
        declared = subprocess.run(words, capture_output=True, text=True, check=True).stdout
        sizes = dict(re.findall(r"(?m)^structure fv_(\w+) (\d+)$", declared))
        formats = {name: struct.calcsize(it) for name, it in vars(_native).items() if name.endswith("_FORMAT")}
        self.assertEqual(formats, {f"{name.upper()}_FORMAT": int(size) for name, size in sizes.items()})
        fields = re.findall(r"field (\S+)\.(\S+) (\d+)", declared)
        wanted = [f"sizeof(fv_{name}) == {size}" for name, size in sizes.items()]
        wanted += [f"offsetof({name}, {field}) == {at}" for name, field, at in fields]
        self.assertGreater(len(wanted), 50)
        text = "#include <fv.h>\n" + "".join(f'_Static_assert({it}, "{it}");\n' for it in wanted)
        command = [CC, "-std=c11", f"-I{ROOT}/libfv/include", "-fsyntax-only", "-x", "c", "-"]
        subprocess.run(command, input=text.encode(), check=True)


class Libraries(RoomCase):
    """The first call fails if the library is missing, is another file, or has another major number."""

    def said(self, library: str | Path, package: Path = PACKAGE) -> str:
        """Returns what the exception of the first call says, with a library that LIBFV names."""
        run = "import fv\ntry: fv.version()\nexcept ImportError as error: print(error.name, error.path, error)"
        env = {"LIBFV": str(library), "PYTHONPATH": str(package.parent)}
        return self.run_command(sys.executable, "-B", "-c", run, env=env, check=True).stdout

    def test_missing(self) -> None:
        missing = self.said("/missing/libfv.so.2")
        self.assertRegex(missing, "^fv /missing/libfv.so.2 /missing/libfv.so.2: cannot open")
        self.assertNotIn("install the packages", missing)
        # The package without its library. Nothing is said if the system's loader finds a library.
        ignored = shutil.ignore_patterns("*.so*")
        missing = self.said("", Path(shutil.copytree(PACKAGE, self.room / "fv", ignore=ignored)))
        self.assertRegex(missing, r"^$|\(install the packages or the wheel of a release; or build")
        self.assertRegex(self.said(__file__), "invalid ELF header|file too short")

    @needs_tool(CC)
    def test_others(self) -> None:
        version = "unsigned fv_version_number(void) {{ return {:#x}; }}"
        for text, words in (
            (version.format(0x030100), "is libfv 3.1, not libfv 2"),
            (version.format(0x010000), "libfv 1.0,"),
            (version.format(0x020000), "undefined symbol"),
            ("int x;", "fv_version_number"),
        ):
            library = self.room / f"{words[-6:]}.so"
            subprocess.run([CC, "-shared", "-x", "c", "-o", library, "-"], input=text.encode(), check=True)
            self.assertIn(words, self.said(library))


@needs_library
class Exceptions(unittest.TestCase):
    """A fault is a value, and the text of its exception explains it."""

    def test_faults(self) -> None:
        error = raised(fv.volume_normalise, b"bad")
        for kind in (fv.FaultError, fv.Error, ValueError):
            self.assertIsInstance(error, kind)
        self.assertEqual((error.fault, type(error.fault.code)), (fv.Fault(fv.FaultCode.TRUNCATED, 3), fv.FaultCode))
        texts = str(error), str(error.fault)
        self.assertEqual(texts, ("fault 1 at 3: the bytes end before the volume does", "fault 1 at 3"))
        self.assertTrue(is_frozen(error.fault) and {error.fault: 1}[fv.Fault(fv.FaultCode.TRUNCATED, 3)])
        self.assertEqual(raised(fv.volume_compare, b"bad", b"worse").fault, error.fault)
        second = raised(fv.volume_compare, VOLUME, b"bad")
        self.assertEqual(second.fault, fv.Fault(fv.FaultCode.TRUNCATED, 3, 0, 1))
        self.assertNotEqual(second.fault, error.fault)
        self.assertEqual(str(second)[:33], "fault 1 at 3 of the second input:")

    def test_subjects(self) -> None:
        depex, hobs = outcome(fv.depex_evaluate, BOTH[:30]), outcome(fv.hobs_read, b"bad")
        self.assertEqual((depex, hobs), (fv.Fault(fv.FaultCode.DEPEX_SHORT, 17), fv.Fault(fv.FaultCode.HOB_SHORT, 0)))
        self.assertEqual((depex.code, depex.number, str(depex)), (0x201, 1, "fault 1 at 17"))
        self.assertNotEqual(depex.text, outcome(fv.volume_normalise, b"bad").text)

    def test_copies(self) -> None:
        # Processes are not forked, because this process may have threads.
        error = raised(fv.volume_normalise, b"bad")
        error.note = "kept"
        for copied in again(error):
            self.assertEqual((type(copied), str(copied)), (fv.FaultError, str(error)))
            self.assertEqual((copied.fault, vars(copied)["note"]), (error.fault, "kept"))
        spawn = multiprocessing.get_context("spawn")
        with concurrent.futures.ProcessPoolExecutor(2, mp_context=spawn) as pool:
            found = [pool.submit(fv.volume_normalise, it) for it in (VOLUME, b"bad", VOLUME)]
            sent: Any = found[1].exception(60)
            self.assertEqual(sent.fault, error.fault)
            self.assertEqual({found[0].result(60), found[2].result(60)}, {fv.volume_normalise(VOLUME)})
            self.assertEqual(pool.submit(fv.volume_tree, VOLUME).result(60), fv.volume_tree(VOLUME))

    def test_memory(self) -> None:
        run = """if True:
            import resource, sys, fv
            data = sys.stdin.buffer.read()
            most = int(open("/proc/self/statm").read().split()[0]) * 4096 + (8 << 20)
            resource.setrlimit(resource.RLIMIT_AS, (most, most))
            for call in (fv.volume_digest, fv.volume_tree):
                try: call(data)
                except MemoryError as error: print("MemoryError", *error.args)"""
        # The files have the same name, so the volume is rejected only after they were found.
        many = rows.volume_of(rows.file_of(1, b"") * 400_000)
        env = {**os.environ, "PYTHONPATH": str(PACKAGE.parent)}
        command = [sys.executable, "-B", "-c", run]
        said = subprocess.run(command, input=many, env=env, capture_output=True, check=True).stdout
        self.assertEqual(said, b"MemoryError out of memory\n" * 2)


@needs_library
class Values(unittest.TestCase):
    """Each call returns values of the right types, with None in a field that a part does not have."""

    maxDiff = None

    def test_numbers(self) -> None:
        # Every argument of operator.index is a number, and no number is cut.
        two: Any = type("Two", (), {"__index__": lambda self: 2})()
        one: Any = True
        self.assertEqual((fv.volume_extract(VOLUME, two), fv.volume_extract(VOLUME, 2)), (b"z", b"z"))
        self.assertEqual(fv.result_text(two), fv.result_text(2))
        self.assertIs(fv.depex_evaluate(b"\x06\x08", one), True)
        cases: tuple[tuple[Call, tuple[bytes, ...], type[Exception], tuple[Any, ...]], ...] = (
            (fv.volume_extract, (VOLUME,), TypeError, (1.0, "1", None)),
            (fv.result_text, (), TypeError, (1.0, "1", None)),
            (fv.depex_evaluate, (b"\x06\x08",), TypeError, (1.0, "1", None)),
            (fv.result_text, (), ValueError, (2**32, 2**32 + 1, -1)),
            (fv.depex_evaluate, (b"\x06\x08",), ValueError, (2, 2**32, 2**32 + 1, -1)),
            (fv.volume_extract, (VOLUME,), IndexError, (3, 2**64 + 2, 2**64, 2**64 - 1, -1)),
            (fv.volume_extract, (b"bad",), fv.FaultError, (9,)),
            (fv.section_open, (packings()[0].section,), TypeError, (1.0, "1", None)),
            (fv.section_open, (packings()[0].section,), ValueError, (-1,)),
            (fv.section_open, (b"bad",), fv.FaultError, (9, 0)),
            (fv.sections_extract, (b"\5\0\0\x19z",), TypeError, (1.0, "1", None)),
            (fv.sections_extract, (b"\5\0\0\x19z",), IndexError, (1, 2**64, 2**64 - 1, -1)),
            (fv.sections_extract, (b"bad",), fv.FaultError, (9,)),
        )
        for call, first, kind, wrong in cases:
            for value in wrong:
                self.assertIs(type(raised(call, *first, value)), kind, (call, value))

    def test_sequences(self) -> None:
        found: Any = fv.volume_tree(VOLUME)
        none: Any = fv.image_scan(b"")
        self.assertTrue(isinstance(found, Sequence) and type(found).__name__ not in dir(fv) and len(found) == 3)
        self.assertTrue(found == found[:] == list(found) == found == tuple(found) == found)
        self.assertTrue(type(found[1:]) is type(found[::-1]) is type(found))
        self.assertTrue(found[1:] == list(found)[1:] and found[1:] != found)
        for cut in (slice(None, None, -1), slice(2, 0, -2), slice(0, 3, 2), slice(5, 1), slice(-2, None), slice(1, 1)):
            self.assertEqual(list(found[cut]), list(found)[cut])
        self.assertTrue(found[-1] == found[2] == found[True:][1] and [*reversed(found)] == found[::-1])
        for wrong in (3, -4):
            self.assertRaises(IndexError, found.__getitem__, wrong)
        self.assertRaises(TypeError, found.__getitem__, 1.0)
        self.assertRaises(TypeError, hash, found)
        self.assertRaises(TypeError, setitem, found, 0, found[1])
        self.assertTrue(none == [] == none == () == none and none != b"" and none != "" and not none == b"")
        self.assertEqual((found != "rows", found.index(found[2]), found.count(found[1])), (True, 2, 1))
        self.assertIn(found[1], found)
        for copied in again(found):
            self.assertEqual((type(copied), copied), (type(found), found))

    def test_rows(self) -> None:
        data, name = grouped(), uuid.UUID(bytes_le=bytes(range(11, 27)))
        header = fv.Header(0, 160, 72, 72, 0x4FEFF, 2, 255, None)
        self.assertEqual(fv.header_read(data + b"more"), header)
        self.assertEqual(fv.image_scan(bytes(8) + data), [dataclasses.replace(header, offset=8)])
        section, group = fv.NodeKind.SECTION, fv.Content.SECTIONS
        nodes = [
            fv.Node(0, 160, None, 0, 0, fv.NodeKind.VOLUME, fv.Content.FILES, None, 0x4FEFF, 72, None, 2),
            fv.Node(96, 44, 0, 0, 1, fv.NodeKind.FILE, group, 2, 0x40, 24, name, None),
            fv.Node(104, 6, 1, 0, 2, section, fv.Content.BYTES, 0x14, None, 8, None, None),
            fv.Node(116, 16, 1, 1, 2, section, group, 0x03, None, 4, None, None),
            fv.Node(120, 5, 3, 0, 3, section, fv.Content.BYTES, 0x19, None, 4, None, None),
            fv.Node(132, 0, 3, 1, 3, section, group, 0x03, None, 4, None, None),
            fv.Node(136, 3, 1, 2, 2, section, fv.Content.BYTES, 0x19, None, 4, None, None),
        ]
        found = fv.volume_tree(data)
        self.assertEqual(found, nodes)
        self.assertEqual({(type(it.kind), type(it.content)) for it in found}, {(fv.NodeKind, fv.Content)})
        for row, node in enumerate(nodes):
            self.assertEqual(fv.volume_extract(data, row), data[node.offset : node.offset + node.length])
        cells = [fv.Cell(72, 68, fv.CellKind.FILE, 24, 2, 0x40, name)]
        cells.append(fv.Cell(144, 16, fv.CellKind.FREE, None, None, None, None))
        self.assertEqual(fv.volume_cells(data), cells)
        # The output of `sha256sum` for the bytes b1, b2 and b3.
        digest = "0de80e00e7763e2e4197607b23278a56debaac84613f97f439a670286d04866c"
        self.assertEqual(fv.volume_tree_digests(data)[6], bytes.fromhex(digest))

    def test_other_rows(self) -> None:
        data, wrong = grouped(), grouped(40)
        fault = fv.Fault(fv.FaultCode.SECTION_SIZE, 116, 1, 1)
        self.assertEqual(outcome(fv.volume_compare, data, wrong), fault)
        # The row of a rejected volume has its fault.
        checks = [fv.VolumeCheck(0, 160, None, True), fv.VolumeCheck(160, 160, fv.Fault(19, 276, 1), False)]
        self.assertEqual(fv.image_check(data + wrong), checks)
        named = rows.spelled("ext-header-bare")
        name = uuid.UUID(bytes=b"\x0e" * 16)
        self.assertEqual((fv.header_read(named).name, fv.volume_tree(named)[0].guid), (name, name))
        listed = fv.hobs_read(hob(1, 56) + hob(5, 24, struct.pack("<QQ", 64, 4096)) + hob(0xFFFF, 8) + b"more")
        blocks = [fv.Hob(None, None, 1, 56), fv.Hob(64, 4096, 5, 24), fv.Hob(None, None, 0xFFFF, 8)]
        self.assertEqual((listed.length, listed.blocks), (88, blocks))
        firsts = [fv.image_scan(data)[0], fv.volume_tree(data)[0], fv.volume_cells(data)[0], fv.image_survey(data)[0]]
        values = [*firsts, listed.blocks[0], fv.image_check(data + wrong)[1], listed]
        values += [fv.section_way(packings()[0].section), fv.section_open(packings()[0].section)]
        self.assertTrue(all(map(is_frozen, values)) and len({*values[:6]}) == 6)
        self.assertTrue(all(copied == value for value in values for copied in again(value)))

    def test_survey(self) -> None:
        kind, code, file = fv.RowKind, fv.FaultCode, uuid.UUID(bytes_le=bytes(range(11, 27)))
        self.assertEqual(fv.image_survey(b"\1\2\3"), [fv.SurveyRow(0, 3, kind.GAP, 0, None, False, (), None)])
        # A volume of one file, with a wrong checksum in the header of the volume, and other bytes around it.
        data = bytearray(grouped())
        data[50] ^= 1
        found = fv.image_survey(b"\xff" * 5 + data + b"\0")
        tops = [(it.kind, it.offset, it.length, it.found, it.findings) for it in found if not it.depth]
        volume = kind.VOLUME, 5, 160, True, (code.HEADER_SUM,)
        self.assertEqual(tops, [(kind.GAP, 0, 5, False, ()), volume, (kind.GAP, 165, 1, False, ())])
        self.assertEqual(found[1].name, uuid.UUID("8c8ce578-8a3d-4f1c-9935-896185c32dd3"))
        self.assertEqual(found[3], fv.SurveyRow(77, 72, kind.FILE, 1, 2, False, (), file))
        self.assertEqual([it.efi_type for it in found if it.kind is kind.SECTION], [0x14, 0x03, 0x19, 0x03, 0x19])
        # The leaf rows account for each byte, in their order.
        end = 0
        for row in found:
            if row.is_leaf:
                self.assertEqual(row.offset, end)
                end += row.length
        self.assertEqual(end, 166)
        # A volume that is cut off.
        rows_of_cut = [(it.kind, it.depth, it.offset, it.length) for it in fv.image_survey(rows.spelled("empty")[:80])]
        self.assertEqual(rows_of_cut, [(kind.VOLUME, 0, 0, 80), (kind.VOLUME_HEADER, 1, 0, 72), (kind.FREE, 1, 72, 8)])
        self.assertEqual(fv.image_survey(rows.spelled("empty")[:80])[0].findings, (code.TRUNCATED,))

    def test_variables(self) -> None:
        kind, vendor = fv.PartKind, stores.GLOBAL
        plain = stores.store(stores.variable("A", b"xyz"), length=0x80)
        store, variable, filler, free = fv.variables_read(plain)
        self.assertEqual((store.format, store.size, store.state, store.formatted), (fv.StoreFormat.PLAIN, 128, 0xFE, 0x5A))
        self.assertEqual((variable.offset, variable.length, variable.name_offset, variable.data_offset), (28, 39, 60, 64))
        self.assertEqual((variable.status, variable.attributes, variable.guid), (fv.VariableStatus.ADDED, 7, vendor))
        self.assertEqual((variable.monotonic_count, variable.time_stamp, variable.public_key), (None, None, None))
        self.assertEqual((filler.part, filler.length, free.part, free.offset), (kind.FILLER, 1, kind.FREE, 68))
        self.assertEqual((filler.state, filler.guid, filler.size, filler.finding), (None, None, None, None))
        secure = stores.store(stores.variable("A", b"", fields=stores.FIELDS), kind=stores.AUTHENTICATED)
        variable = fv.variables_read(secure)[1]
        self.assertEqual((variable.header_length, variable.monotonic_count, variable.public_key), (60, 7, 3))
        self.assertEqual(variable.time_stamp, stores.FIELDS[8:24])
        found = fv.signatures_read(stores.signature_list(stores.X509, vendor, b"data", b"more") + b"?")
        self.assertEqual([it.part for it in found], [kind.LIST_HEADER, kind.SIGNATURE, kind.SIGNATURE, kind.UNREAD])
        self.assertEqual((found[0].guid, found[0].size, found[0].data_size), (stores.X509, 68, 20))
        self.assertEqual((found[2].guid, found[2].offset, found[3].finding), (vendor, 48, fv.Finding.LIST_SIZE))
        self.assertTrue(is_frozen(variable) and copy.copy(variable) == variable)
        for call in (fv.variables_read, fv.signatures_read):
            rows_of_bytes = call(bytes(range(256)) * 9)
            self.assertEqual([(it.part, it.offset, it.length) for it in rows_of_bytes], [(kind.UNREAD, 0, 2304)])

    def test_survey_of_sections(self) -> None:
        kind = fv.RowKind
        found = fv.sections_survey(SECTION + b"\0\0\0" + SECTION)
        rows_of_stream = [(it.kind, it.depth, it.offset, it.length) for it in found]
        section = [(kind.SECTION, 0, 0, 5), (kind.SECTION_HEADER, 1, 0, 4), (kind.BODY, 1, 4, 1)]
        later = [(it, depth, at + 8, length) for it, depth, at, length in section]
        self.assertEqual(rows_of_stream, [*section, (kind.FILLER, 0, 5, 3), *later])
        self.assertEqual((fv.sections_survey(b""), fv.sections_survey(b"\1\2\3")[0].offset), ([], 0))

    def test_many_rows(self) -> None:
        # A call returns all rows, whatever room its first buffer has.
        for count in (1, 3, 1023, 1024, 1025, 3000, 70_000):
            many = volume_of(b"\x05\x00\x00\x19z000" * count)
            nodes, digests = fv.volume_tree(many), fv.volume_tree_digests(many)
            self.assertEqual((len(nodes), len(digests)), (count + 2, count + 2))
            last = 72 + 24 + 8 * count - 4, 1, 1, count - 1, 2, fv.NodeKind.SECTION, fv.Content.BYTES, 0x19
            self.assertEqual(nodes[-1], fv.Node(*last, None, 4, None, None))
            self.assertEqual((digests[-1], fv.volume_extract(many, count + 1)), (hashlib.sha256(b"z").digest(), b"z"))
            offsets = [*range(0, len(VOLUME) * count, len(VOLUME))]
            self.assertTrue([it.offset for it in fv.image_scan(VOLUME * count)] == offsets)
            survey = fv.image_survey(VOLUME * count)
            self.assertTrue([it.offset for it in survey if not it.depth] == offsets)
            self.assertEqual(sum(it.length for it in survey if it.is_leaf), len(VOLUME) * count)
            checks = [fv.VolumeCheck(at, len(VOLUME), None, True) for at in offsets]
            self.assertEqual(fv.image_check(VOLUME * count), checks)
            found = fv.hobs_read(hob(1, 56) + hob(0xFFFE, 8) * (count - 1) + hob(0xFFFF, 8))
            self.assertEqual((len(found.blocks), found.length), (count + 1, 56 + 8 * count))
        # A volume of empty sections of four bytes has more rows than the first buffer has room for.
        self.assertEqual(len(fv.volume_tree(volume_of(b"\x04\x00\x00\x19" * 5000))), 5002)

    def test_expressions(self) -> None:
        both: tuple[Iterable[uuid.UUID], ...] = [A, B], {A, B}, iter((B, A))
        for installed in both:
            self.assertIs(fv.depex_evaluate(bytearray(BOTH), fv.Phase.PEI, installed, copy=False), True)
        self.assertIs(fv.depex_evaluate(BOTH), False)
        self.assertIsNone(fv.depex_evaluate(b"\0" + A.bytes_le + b"\10"))  # PEI has no such op
        short = types.SimpleNamespace(bytes_le=A.bytes_le[:5])
        self.assertEqual(str(raised(fv.depex_evaluate, BOTH, fv.Phase.PEI, [A, short])), "a GUID has 16 bytes")


class Longer(bytes):
    """Bytes that report a larger length than they have."""

    def __len__(self) -> int:
        return 1 << 20


def address(data: Any, is_copied: bool) -> tuple[int, int]:
    """Returns the address and the size that a call passes to the library."""
    with _library.Held(data, is_copied) as (place, size):
        return ctypes.cast(place, ctypes.c_void_p).value or 0, size


@needs_library
class Buffers(unittest.TestCase):
    """Each kind of buffer is read, and no buffer is changed."""

    def test_kinds(self) -> None:
        calls: list[Call] = [*OF_VOLUME, *OF_IMAGE, fv.header_read]
        wanted = [call(VOLUME) for call in calls]
        with tempfile.TemporaryFile() as file:
            file.write(VOLUME)
            file.flush()
            maps = [mmap.mmap(file.fileno(), 0, access=it) for it in (mmap.ACCESS_READ, mmap.ACCESS_COPY)]
            view = memoryview(VOLUME)
            kinds: list[Any] = [VOLUME, bytearray(VOLUME), view, memoryview(bytearray(VOLUME)), *maps]
            kinds += [memoryview(maps[0]), array("Q", VOLUME), view.cast("Q"), Longer(VOLUME)]
            kinds += [(ctypes.c_char * len(VOLUME)).from_buffer_copy(VOLUME), memoryview(b"8 bytes!" + VOLUME)[8:]]
            kinds += [memoryview(bytearray(b"odd" + VOLUME))[3:], view.cast("B", (2, len(VOLUME) // 2))]
            kinds += [pickle.PickleBuffer(VOLUME), view.toreadonly()]
            for data in kinds:
                for copied in (False, True):
                    self.assertEqual([call(data, copy=copied) for call in calls], wanted)
                    self.assertIsNone(fv.volume_compare(data, VOLUME, copy=copied))
                    self.assertIsNone(fv.volume_compare(VOLUME, data, copy=copied))
                    self.assertEqual(fv.volume_extract(data, 2, copy=copied), b"z")
                self.assertEqual(bytes(memoryview(data)), VOLUME)
            del data, kinds[:]
            for it in maps:
                it.close()  # no call has kept a view

    def test_kinds_of_sections(self) -> None:
        for calls, data in (OF_SECTION, packings()[4].section), (OF_SECTIONS, CONTENTS):
            wanted = [call(data) for call in calls]
            for it in (bytearray(data), memoryview(data), memoryview(bytearray(b"odd" + data))[3:], Longer(data)):
                for copied in (False, True):
                    self.assertEqual([call(it, copy=copied) for call in calls], wanted)
                self.assertEqual(bytes(memoryview(it)), data)

    def test_empty(self) -> None:
        for empty in (b"", bytearray(), memoryview(b""), memoryview(bytearray(VOLUME))[5:5]):
            for copied in (False, True):
                for call in OF_VOLUME:
                    self.assertEqual(outcome(call, empty, copy=copied), fv.Fault(fv.FaultCode.TRUNCATED, 0), call)
                for call in (fv.image_scan, fv.image_check, fv.image_survey):
                    self.assertEqual(call(empty, copy=copied), [])
                self.assertEqual(fv.image_normalise(empty, copy=copied), b"")

    def test_rejected(self) -> None:
        for wrong in ("text", 5, None, [1]):
            for copied in (False, True):
                self.assertIsInstance(raised(fv.volume_normalise, wrong, copy=copied), TypeError)
        self.assertIsInstance(raised(fv.volume_normalise, VOLUME, False), TypeError)  # `copy` is given by its name
        # A view with gaps can only be copied.
        doubled = bytes(it for byte in VOLUME for it in (byte, 0))
        for data in (memoryview(doubled)[::2], memoryview(bytearray(doubled))[::2]):
            self.assertEqual(fv.volume_normalise(data), fv.volume_normalise(VOLUME))
            self.assertIsInstance(raised(fv.volume_normalise, data, copy=False), BufferError)

    def test_places(self) -> None:
        # The library reads the bytes of a bytes object in place.
        start, size = ctypes.cast(ctypes.c_char_p(VOLUME), ctypes.c_void_p).value or 0, len(VOLUME)
        for is_copied in (False, True):
            for data, wanted in (
                (VOLUME, (start, size)),
                (memoryview(VOLUME), (start, size)),
                (memoryview(VOLUME)[8:24], (start + 8, 16)),
                (memoryview(VOLUME).cast("Q")[1:], (start + 8, size - 8)),
            ):
                self.assertEqual(address(data, is_copied), wanted)
        writable = bytearray(VOLUME)
        start = ctypes.addressof(ctypes.c_char.from_buffer(writable))
        self.assertEqual(address(writable, False), (start, size))
        self.assertEqual(address(memoryview(writable)[8:], False), (start + 8, size - 8))
        for data in (writable, memoryview(writable).toreadonly()):
            self.assertNotEqual(address(data, True)[0], start)
        self.assertEqual((address(Longer(VOLUME), False)[1], address(Longer(VOLUME), True)[1]), (size, size))

    def test_released(self) -> None:
        # The buffer is released when the call returns or raises.
        for data in (bytearray(b"bad"), bytearray(VOLUME)):
            error = raised(fv.volume_normalise, data, copy=False)
            data.append(0)
            self.assertEqual(error is None, len(data) > 4)

    def test_changing(self) -> None:
        # A buffer to which another thread writes during a call does no harm.
        sizes, ends = b"\x08\x00\x00\x19abcd", threading.Event()
        data = bytearray(volume_of(sizes * 100_000))
        at = data.index(sizes)

        def write() -> None:
            place = at
            while not ends.is_set():
                data[place : place + 3] = b"\xff\xff\xff"
                data[place : place + 3] = b"\x08\x00\x00"
                place = at + (place - at + 8 * 7919) % (8 * 100_000)

        writer = threading.Thread(target=write)
        writer.start()
        self.addCleanup(writer.join)
        self.addCleanup(ends.set)
        end = time.monotonic() + 2
        while time.monotonic() < end:
            for call in (*OF_VOLUME, *OF_IMAGE):
                outcome(call, data)
            outcome(fv.volume_extract, data, 1)
