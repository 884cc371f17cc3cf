# SPDX-License-Identifier: BSD-2-Clause-Patent
"""The parts of a flash image: its volumes, their files, their sections, and the contents of opened sections."""

from __future__ import annotations

import contextlib
import functools
import uuid
from collections.abc import Iterable, Iterator
from dataclasses import dataclass, field

from . import names
from ._calls import volume_cells, volume_tree, volume_unfix
from ._errors import Fault, FaultError
from ._library import result_text
from ._native import CellKind, FaultCode, NodeKind
from .opened import PACKED, Way

LONGEST_TEXT = 200  # characters of a text that are read
# What parts of a volume are that are outside of its meaning, and why they are not read.
REMAINS = {
    CellKind.FILE: ("superseded file", "another file took its place"),
    CellKind.DELETED: ("deleted file", "it was deleted"),
    CellKind.UNFINISHED: ("unfinished file", "it was never finished"),
    CellKind.PAD: ("pad", "a pad holds bytes"),
}


@dataclass
class Part:
    """A volume, a file, a section, or bytes that are in none of them: the `length` bytes at `offset` of `data`, which
    are the image or the contents of an opened section. The bytes of a file are its data, and the bytes of a section its
    body. `findings` are the rules that the part breaks, by the codes of their faults."""

    data: bytes = field(repr=False)
    offset: int
    length: int
    findings: tuple[FaultCode, ...] = field(default=(), kw_only=True)

    @property
    def end(self) -> int:
        """Returns where the bytes of the part end."""
        return self.offset + self.length

    @property
    def body(self) -> bytes:
        """Returns the bytes of the part."""
        return self.data[self.offset : self.end]

    @property
    def view(self) -> memoryview:
        """Returns the bytes of the part without copying them."""
        return memoryview(self.data)[self.offset : self.end]

    @property
    def broken(self) -> tuple[FaultCode, ...]:
        """Returns the findings, except the mark of a fixed file."""
        return tuple(it for it in self.findings if it != FaultCode.FIXED)


@dataclass
class Unread(Part):
    """Bytes whose contents are not read: what they are, in words (such as `pad`, `deleted file`, `variable store`), and
    the reason why they are not read. `guid` is the GUID of a file, or of the file system of a volume. A gap is a
    stretch of bytes that is in no volume and in no section."""

    what: str
    reason: str
    guid: uuid.UUID | None = None
    is_gap: bool = False


@dataclass(kw_only=True)
class Holder:
    """What parts hold beside files and sections: volumes that were found in their bytes, and the bytes that are not
    erased and whose contents are not read, in order."""

    volumes: list[Volume] = field(default_factory=list)
    unread: list[Unread] = field(default_factory=list)


@dataclass
class Volume(Holder, Part):
    """A volume: the GUID of its file system, FvName (None if it has no name, or if its header breaks rules), and its
    files. If libfv rejects the volume, it has a fault. Its parts are found nevertheless, and `volumes` are those in
    pads, in lost bytes, and in files that are not valid.

    libfv rejects a volume that has files marked as fixed, also inside it, but reads it without their marks. `is_marked`
    is set if there may be such files. All bytes and attributes here are as stored, so they have the marks."""

    guid: uuid.UUID | None = None
    system: uuid.UUID | None = None
    files: list[File] = field(default_factory=list)
    fault: Fault | None = None
    is_marked: bool = False

    @property
    def inner(self) -> list[Volume]:
        """Returns the volumes that lie directly in the volume, in order."""
        held = (it for file in self.files for it in (*file.volumes, *volumes_in(file.sections)))
        return sorted([*held, *self.volumes], key=lambda it: it.offset)

    @functools.cached_property
    def cells(self) -> dict[int, CellKind]:
        """Returns the kinds of the cells of the volume, by their offsets in it. There are none if it has a fault."""
        with contextlib.suppress(FaultError):
            return {it.offset: it.kind for it in volume_cells(volume_unfix(self.view))}
        return {}

    @property
    def has_header(self) -> bool:
        """Returns whether the header breaks no rule."""
        return not any(it <= FaultCode.EXT_HEADER for it in self.findings)

    @property
    def plain(self) -> bytes:
        """Returns the bytes of the volume without the marks of fixed files. libfv reads these bytes."""
        return unmarked(self.body) if self.is_marked else self.body

    @property
    def fixed(self) -> list[File]:
        """Returns the files that are marked fixed. Superseded files are not among them."""
        return [it for it in self.files if it.is_fixed]

    @property
    def type_name(self) -> str:
        """Returns the name of the file system."""
        return names.FILE_SYSTEMS.get(self.system, "") if self.system else ""


@dataclass
class File(Holder, Part):
    """A file: Name, Type, Attributes, the length of its header, and its sections. `volumes` are those in the data of a
    file without sections. (Of a file in a volume that libfv rejects, only the mark of a fixed file is known of
    Attributes.)"""

    guid: uuid.UUID
    kind: int
    attributes: int
    header_length: int
    sections: list[Section] = field(default_factory=list)

    @property
    def is_fixed(self) -> bool:
        """Returns whether the file is marked fixed."""
        return FaultCode.FIXED in self.findings

    @property
    def type_name(self) -> str:
        """Returns the name of the type."""
        return names.type_name(self.kind, names.FILES)

    @functools.cached_property
    def name(self) -> str:
        """Returns the readable name: the first text of a user interface section that is not empty. It is looked for
        once."""
        return first_text(self.sections, names.UI)

    @functools.cached_property
    def version(self) -> str:
        """Returns the first text of a version section that is not empty. It is looked for once."""
        return first_text(self.sections, names.VERSION)


@dataclass
class Section(Holder, Part):
    """A section: Type, the length of its header, and its contents. A group has sections, and a volume section has a
    volume; `volumes` also has those that were found in a body. A packed section has its contents if it is opened, and
    otherwise the reason why it is not."""

    kind: int
    header_length: int
    sections: list[Section] = field(default_factory=list)
    opened: Opened | None = None
    closed: str = ""

    @property
    def whole(self) -> memoryview:
        """Returns the bytes of the section with its header, without copying them."""
        return memoryview(self.data)[self.offset - self.header_length : self.end]

    @property
    def volume(self) -> Volume | None:
        """Returns the volume that a volume section has as its body, if there is one whose header breaks no rule."""
        first = self.volumes[0] if self.volumes and self.kind == names.VOLUME else None
        return first if first and first.length == self.length and first.has_header else None

    @property
    def is_packed(self) -> bool:
        """Returns whether the section may be opened."""
        return self.kind in PACKED

    @property
    def type_name(self) -> str:
        """Returns the name of the type."""
        return names.type_name(self.kind, names.SECTIONS)

    @property
    def text(self) -> str:
        """Returns the text of a user interface section or a version section. Two dots take the place of what follows
        LONGEST_TEXT characters."""
        start = 2 if self.kind == names.VERSION else 0  # after the build number
        body = self.data[self.offset + start : self.offset + min(self.length, start + 2 * LONGEST_TEXT + 2)]
        found = body[: len(body) & ~1].decode("utf-16-le", "surrogatepass").partition("\0")[0]
        return found if len(found) <= LONGEST_TEXT else f"{found[:LONGEST_TEXT]}.."


@dataclass
class Content(Holder):
    """The contents of an image or of an opened section: the sections with which the data begin, the volumes after them,
    and the offset at which the sections end (0 if there are none). `unread` are variable stores, and the gaps that are
    not erased."""

    data: bytes = field(repr=False)
    sections: list[Section] = field(default_factory=list)
    end: int = 0

    @property
    def headed(self) -> list[Volume]:
        """Returns the outermost volumes after the sections whose headers break no rule."""
        return list(_headed(self.volumes))

    @property
    def others(self) -> list[Part]:
        """Returns the bytes that are in no section, and in no volume whose header breaks no rule."""
        places = between(self.end, places_of(self.headed), len(self.data))
        return [Part(self.data, at, end - at) for at, end in places if at < end]

    def every_volume(self) -> list[Volume]:
        """Returns the volumes in the sections, and then the volumes after the sections."""
        return [*volumes_in(self.sections), *self.volumes]


@dataclass
class Opened(Content):
    """The contents of a section, and how it was opened. `doubts` are the reasons, in words, why the contents may be
    wrong or incomplete: a checksum that is wrong, or a signature that is not verified."""

    way: Way = field(kw_only=True)
    doubts: list[str] = field(kw_only=True)


def _headed(volumes: Iterable[Volume]) -> Iterator[Volume]:
    """Yields the outermost of these volumes, and of those in them, whose headers break no rule."""
    for volume in volumes:
        yield from [volume] if volume.has_header else _headed(volume.inner)


def places_of(parts: Iterable[Part]) -> Iterator[tuple[int, int]]:
    """Yields where parts begin and end."""
    return ((it.offset, it.end) for it in parts)


def between(start: int, places: Iterable[tuple[int, int]], end: int) -> Iterator[tuple[int, int]]:
    """Yields where the bytes before, between and after some places begin and end."""
    for first, after in places:
        yield start, first
        start = after
    yield start, end


def leaves(sections: Iterable[Section]) -> Iterator[Section]:
    """Yields the sections that are not groups, in order, also those inside groups."""
    for section in sections:
        if section.kind == names.GROUP:
            yield from leaves(section.sections)
        else:
            yield section


def every_leaf(sections: Iterable[Section]) -> Iterator[Section]:
    """Yields the sections that are not groups, and then those in the opened contents of each of them."""
    found = list(leaves(sections))
    yield from found
    for section in found:
        if section.opened:
            yield from every_leaf(section.opened.sections)


def volumes_in(sections: Iterable[Section]) -> Iterator[Volume]:
    """Yields the volumes that sections hold, in order. Volumes in opened contents are not among them."""
    return (volume for it in leaves(sections) for volume in it.volumes)


def first_text(sections: Iterable[Section], kind: int) -> str:
    """Returns the first text of a section of this type that is not empty, otherwise an empty text."""
    return next(filter(None, (it.text for it in every_leaf(sections) if it.kind == kind)), "")


def files_in(content: Content) -> Iterator[tuple[Volume, File]]:
    """Yields the files at every level with their volumes, each file before the files inside it."""
    yield from _files_in(content.sections, content.volumes)


def _files_in(sections: Iterable[Section], volumes: Iterable[Volume]) -> Iterator[tuple[Volume, File]]:
    """Yields the files inside sections, and then the files of volumes, each before the files inside it."""
    for section in leaves(sections):
        yield from _files_in([], section.volumes)
        if section.opened:
            yield from files_in(section.opened)
    for volume in volumes:
        for file in volume.files:
            yield volume, file
            yield from _files_in(file.sections, file.volumes)
        yield from _files_in([], volume.volumes)


def stored_files(volume: Volume) -> Iterator[File]:
    """Yields the files of a volume and of the volumes in its sections, in the order of their rows in the tree."""
    for file in volume.files:
        yield file
        for section in leaves(file.sections):
            if section.volume:
                yield from stored_files(section.volume)


def unmarked(volume: bytes | memoryview) -> bytes:
    """Returns a volume without the marks of fixed files, also of those in its nested volumes. libfv removes the marks
    of one volume. The bytes of a file header keep their sum, so the checksums of the files around it stay right."""
    whole = bytearray(volume)
    for row in volume_tree(volume, without_marks=True):
        if row.kind == NodeKind.VOLUME:
            whole[row.offset : row.offset + row.length] = volume_unfix(whole[row.offset : row.offset + row.length])
    return bytes(whole)


def finding_text(findings: Iterable[FaultCode]) -> str:
    """Returns findings in words."""
    return "; ".join(f"finding {it.value}: {result_text(it)}" for it in findings)
