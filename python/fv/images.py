# SPDX-License-Identifier: BSD-2-Clause-Patent
"""Names the parts of a flash image at every level: its volumes, their files, their sections, and the contents of
compressed sections.

    import fv.images
    image = fv.images.read(data)
    for volume, file in fv.images.files_in(image):
        print(volume.offset, file.guid, file.name)

libfv opens the image, and says what each byte of it and of the opened contents is: the rows of its surveys. This module
makes a part from each row. The parts that break rules have findings. An image is not trusted, so `fv.limits` limits how
much of it is opened, and how many parts it may have."""

from __future__ import annotations

import contextlib
import uuid
from collections.abc import Iterable, Sequence
from dataclasses import dataclass, replace

from . import names, opened
from ._calls import header_read, section_open, sections_survey, volume_tree
from ._errors import FaultError
from ._image import image_open
from ._library import Buffer
from ._model import REMAINS, Content, File, Holder, Opened, Part, Section, Unread, Volume
from ._model import every_leaf, files_in, finding_text, first_text, leaves, volumes_in
from ._native import CellKind, FaultCode, NodeKind, Reason, RowKind
from ._types import Node, PackedSection, Source, SurveyRow
from .limits import Full, Limits
from .opened import OUT_OF_MEMORY, Closed, Unpacked, is_erased

__all__ = [
    "Content", "File", "Opened", "Part", "Section", "Unread", "Volume", "every_leaf", "files_in", "first_text",
    "leaves", "read", "read_sections", "volumes_in",
]  # fmt: skip

PAD_HEADER = 24  # bytes of the header of the pad file that EDK II puts around an extended header
ENOUGH_SECTIONS = 1000  # with which bytes begin that are taken for sections
HEAD = 64  # bytes that show what lies outside of volumes
FIXED = 0x04  # the attribute of a file that may not be moved
MOST_OPENED = 8  # opened sections that may be around a section that is opened
DEEPEST = 80  # volumes, groups and opened sections that may be around a part
LEAST_PRICE, FAILURE_PRICE = 1 << 16, 1 << 24  # bytes that an opened section counts for at least, and a damaged one
OUTSIDE = "it is in no volume"  # why bytes are not read if no other reason is known


def read(data: Buffer, limits: Limits = Limits(), is_open: bool = True) -> Content:
    """Returns the contents of an image, with all sections opened that can be opened, or with none. Raises Full if the
    image exceeds a limit. A section is not opened if only its contents exceed the limit. An image that is not a bytes
    object is copied."""
    whole = data if isinstance(data, bytes) else bytes(data)
    if len(whole) > limits.total:
        raise Full(f"{limits.total} bytes")
    reader, image = _Reader(whole, limits, is_open), Content(whole)
    _Walk(reader, whole, 0).fill(image, reader.nests_of(reader.sources[0].rows))
    return image


def read_sections(data: bytes, limits: Limits = Limits()) -> Content:
    """Returns the contents of a stream of sections, with all sections opened that can be opened."""
    reader, content = _Reader(b"", limits, True), Content(data, end=len(data))
    _Walk(reader, data, None).fill(content, reader.nests_of(sections_survey(data)))
    return content


@dataclass(slots=True)
class _Nest:
    """A row, and the rows in it."""

    row: SurveyRow
    inner: list[_Nest]


class _Reader:
    """The sources of an image, and what is left of the limits."""

    def __init__(self, data: bytes, limits: Limits, is_open: bool) -> None:
        self._left = limits.contents(len(data)) if is_open else 0
        self._limit = Full(f"{len(data) + self._left} bytes")
        image = image_open(data, self._left)
        self.sources: Sequence[Source] = image.sources
        self._opened = {(it.packed.source, it.packed.offset): it for it in self.sources if it.packed}
        self._closed = {(it.source, it.offset): it for it in image.closed}
        self._most = self._parts = limits.parts
        self._tries = 4 * limits.parts  # parts that may be made, including those that are then dropped
        for it in image.sources[1:]:
            self._take(len(it.bytes))

    def _take(self, count: int) -> None:
        """Takes bytes from the limit for the sections that libfv does not open by itself."""
        self._left = max(self._left - max(count, LEAST_PRICE), 0)

    def nests_of(self, rows: Iterable[SurveyRow], start: int = 0) -> list[_Nest]:
        """Returns the outermost rows of a survey of data that begin at an offset, each with the rows in it. Raises Full
        if they are about too many parts."""
        stack: list[list[_Nest]] = [[]]
        most = left = min(self._parts, self._tries)
        for row in rows:
            if not row.is_leaf:
                left -= 1
                if left < 0:
                    self._tries -= most
                    raise Full(f"{self._most} parts")
            del stack[row.depth + 1 :]
            nest = _Nest(replace(row, offset=row.offset + start) if start else row, [])
            stack[row.depth].append(nest)
            stack.append(nest.inner)
        self._parts -= most - left
        self._tries -= most - left
        return stack[0]

    def unpack(self, section: Section, number: int | None, depth: int) -> tuple[Unpacked, Source | None]:
        """Returns the contents of a packed section, and their source if libfv has opened the section by itself.
        `number` is the number of the source that has the section. Raises Closed or Full if it is not opened."""
        place = -1 if number is None else number, section.offset - section.header_length
        if source := self._opened.get(place):
            assert source.packed and source.packed.way is not None
            return opened.unpacked(section, source.packed.way, bytes(source.bytes)), source
        try:
            made = self._unpack_alone(section, self._closed.get(place), depth)
        except FaultError as error:
            try:
                made = opened.otherwise(section, error.fault, self._left)
            except Closed:
                if error.fault.code in (FaultCode.OPEN_DAMAGED, FaultCode.OPEN_TOO_LONG):
                    self._take(FAILURE_PRICE)
                raise
            except Full:
                raise self._limit from None
        self._take(len(made.contents))
        return made, None

    def _unpack_alone(self, section: Section, closed: PackedSection | None, depth: int) -> Unpacked:
        """Returns the contents of a section that libfv has not opened by itself, or not opened for a reason."""
        if closed and closed.fault:
            raise FaultError(closed.fault)
        if closed and closed.reason == Reason.DEPTH or depth >= MOST_OPENED:
            raise Closed("too deep")
        if closed or not self._left:
            raise self._limit
        found = section_open(section.whole, self._left)
        return opened.unpacked(section, found.way, found.contents)


class _Walk:
    """Makes the parts of one source from its rows. `number` is the number of the source, None if libfv has not opened
    it by itself. `depth` is the number of opened sections around it, and `levels` also counts volumes and groups."""

    def __init__(self, reader: _Reader, data: bytes, number: int | None, depth: int = 0, levels: int = 0) -> None:
        self._reader, self._data = reader, data
        self._number, self._depth, self._levels = number, depth, levels
        self._marks = 0  # of fixed files so far
        self._names: dict[int, uuid.UUID | None] = {}  # of the volumes that libfv accepts, by their offsets
        self._nodes: dict[int, Node] = {}  # of the files in them, by the offsets of their data

    def fill(self, holder: Holder, nests: Iterable[_Nest], why: str = "") -> None:
        """Adds the parts of rows to the part around them. `why` is the reason why bytes are lost."""
        for it in nests:
            row, end = it.row, it.row.offset + it.row.length
            match row.kind:
                case RowKind.VOLUME:
                    self._add_volume(holder, it)
                case RowKind.FILE:
                    assert isinstance(holder, Volume)
                    self._add_file(holder, it)
                case RowKind.SECTION:
                    assert isinstance(holder, (Content, File, Section))
                    holder.sections.append(self._section(it))
                case RowKind.LOST:
                    self._add_lost(holder, it)
                case RowKind.GAP:
                    self._add_gap(holder, row)
                case RowKind.STUB:
                    self._add(holder, (row.offset, end), *REMAINS[CellKind.UNFINISHED], row)
                case RowKind.UNREAD:
                    reason = why or finding_text(row.findings)
                    self._add(holder, (row.offset, end), "lost bytes", reason)
                case RowKind.BETWEEN:
                    start = row.offset + (PAD_HEADER if row.length >= PAD_HEADER else 0)
                    self._add(holder, (start, end), "pad", "bytes before the extended header")

    def _add(
        self, holder: Holder, place: tuple[int, int], what: str, reason: str, row: SurveyRow | None = None
    ) -> None:
        """Adds bytes that are not read, unless they are erased, to the part around them. `row` is the row of a file or
        of a volume that has these bytes."""
        start, end = place
        if not is_erased(self._data, start, end):
            guid, findings = (row.name, row.findings) if row else (None, ())
            holder.unread.append(Unread(self._data, start, end - start, what, reason, guid, findings=findings))

    def _add_gap(self, holder: Holder, row: SurveyRow) -> None:
        """Adds bytes that are in no volume and in no section, unless they are erased."""
        gap = Unread(self._data, row.offset, row.length, "", OUTSIDE, is_gap=True)
        gap.what = names.what_begins(gap.view[:HEAD].tobytes())
        if not is_erased(self._data, gap.offset, gap.end):
            holder.unread.append(gap)

    def _add_lost(self, holder: Holder, it: _Nest) -> None:
        """Adds what is in lost bytes. Those after the sections of opened contents are gaps. A group has a note."""
        row = it.row
        if isinstance(holder, Content):
            holder.end = row.offset
            for inner in it.inner:
                if inner.row.kind is RowKind.UNREAD:
                    self._add_gap(holder, inner.row)
                else:
                    self._add_volume(holder, inner)
            return
        if isinstance(holder, Section) and not is_erased(self._data, row.offset, row.offset + row.length):
            holder.closed = f"{row.length} bytes are no sections"
        self.fill(holder, it.inner, finding_text(row.findings))
        if isinstance(holder, Section):
            holder.unread.clear()

    def _add_volume(self, holder: Holder, it: _Nest) -> None:
        """Adds a volume to the part around it. A variable store is bytes that are not read."""
        row, end = it.row, it.row.offset + it.row.length
        if self._levels >= DEEPEST:
            self._add(holder, (row.offset, end), "volume", "too deep", row)
            return
        volume = Volume(self._data, row.offset, row.length, findings=row.findings, system=row.name)
        if row.offset not in self._names:
            self._read_strictly(volume)
        volume.guid = self._names.get(row.offset, volume.guid)
        marks = self._marks
        self._levels += 1
        self.fill(volume, it.inner)
        self._levels -= 1
        volume.is_marked = volume.fault is None and self._marks > marks
        if any(inner.row.kind is RowKind.STORE for inner in it.inner):
            reason = f"{volume.fault}: {volume.fault.text}" if volume.fault else OUTSIDE
            self._add(holder, (row.offset, end), volume.type_name, reason, row)
            holder.volumes += volume.volumes
        else:
            holder.volumes.append(volume)

    def _read_strictly(self, volume: Volume) -> None:
        """Adds to a volume what its rows do not say: FvName and its fault. Notes the files in it, if it is accepted."""
        start = volume.offset
        try:
            for node in volume_tree(volume.view, without_marks=True):
                if node.kind is NodeKind.VOLUME:
                    self._names[start + node.offset] = node.guid
                elif node.kind is NodeKind.FILE:
                    self._nodes[start + node.offset] = node
        except FaultError as error:
            volume.fault = replace(error.fault, offset=start + error.fault.offset)
            with contextlib.suppress(FaultError):
                volume.guid = header_read(volume.view).name

    def _add_file(self, volume: Volume, it: _Nest) -> None:
        """Adds a file, a pad or a file that is not valid to its volume, and the filler after it."""
        row, (head, *inner) = it.row, it.inner
        start, whole = head.row.offset + head.row.length, row.offset + row.length
        end = inner.pop().row.offset if inner and inner[-1].row.kind is RowKind.FILLER else whole
        node = self._nodes.get(start)
        end = start + node.length if node else end
        file = File(self._data, start, end - start, row.name or uuid.UUID(int=0), row.efi_type or 0, 0, head.row.length)
        file.findings = row.findings
        file.attributes = (node and node.attributes or 0) | FIXED * file.is_fixed
        self._marks += file.is_fixed
        self.fill(file, inner)
        is_dead = any(it.row.kind is RowKind.DEAD for it in inner)
        if is_dead or file.kind == names.PAD_FILE or not node and not volume.fault:
            volume.volumes += [*file.volumes, *volumes_in(file.sections)]
            end = self._add_remains(volume, file, row, is_dead)
        else:
            self._add_sections(volume, file, row)
            volume.files.append(file)
        place = "after the last file" if whole == volume.end else "between two files"
        self._add(volume, (end, whole), "filler", f"bytes {place}")

    def _add_remains(self, volume: Volume, file: File, row: SurveyRow, is_dead: bool) -> int:
        """Adds a pad, or a file that is not valid, to the bytes that are not read. Returns where they end."""
        if file.kind == names.PAD_FILE and not is_dead:
            what, reason = REMAINS[CellKind.PAD]
            known = names.what_begins(file.view[:HEAD].tobytes())
            self._add(volume, (file.offset, file.end), what, f"{reason}: {known}" if known else reason)
            return file.end
        kind = volume.cells.get(row.offset - volume.offset, CellKind.DELETED)
        end = file.end if kind is CellKind.FILE else row.offset + row.length
        self._add(volume, (row.offset, end), *REMAINS[kind], row)
        return end

    def _add_sections(self, volume: Volume, file: File, row: SurveyRow) -> None:
        """Adds the sections of a security core, whose data need not be sections. Notes sections in a file of an unknown
        type."""
        is_core = file.kind == names.SECURITY_CORE
        if not file.length or file.sections or file.kind in names.FILES and not is_core:
            return
        rows = sections_survey(file.view)
        outer = [it.kind for it in rows if it.depth == 0]
        if is_core and RowKind.LOST not in outer:
            file.volumes.clear()  # they are in the sections
            self.fill(file, self._reader.nests_of(rows, file.offset))
        elif not is_core and (RowKind.LOST not in outer or outer.count(RowKind.SECTION) > ENOUGH_SECTIONS):
            reason = f"sections in a file of the unknown {file.type_name}"
            self._add(volume, (file.offset, file.end), "sections", reason, row)

    def _section(self, it: _Nest) -> Section:
        """Returns a section. In code, which may have the header of a store as data, only volumes with files count."""
        row, (head, *inner) = it.row, it.inner
        start, end = head.row.offset + head.row.length, row.offset + row.length
        section = Section(self._data, start, end - start, row.efi_type or 0, head.row.length)
        section.findings = row.findings
        if section.is_packed:
            self._open(section)
        is_group = section.kind == names.GROUP
        if is_group and self._levels >= DEEPEST:
            section.closed = "too deep"
        elif not section.opened:
            self._levels += is_group
            self.fill(section, inner)
            self._levels -= is_group
        if section.kind in names.CODE:
            section.volumes, section.unread = [it for it in section.volumes if it.files], []
        return section

    def _open(self, section: Section) -> None:
        """Adds the contents of a packed section, or the reason why it is not opened."""
        try:
            if self._levels >= DEEPEST:
                raise Closed("too deep")
            found, source = self._reader.unpack(section, self._number, self._depth)
            content = Opened(found.contents, way=found.way, doubts=found.doubts, end=len(found.contents))
            number, rows = (source.number, source.rows) if source else (None, sections_survey(found.contents))
            walk = _Walk(self._reader, content.data, number, self._depth + 1, self._levels + 1)
            walk.fill(content, self._reader.nests_of(rows))
            section.opened = content
        except Closed as reason:
            section.closed = str(reason)
        except Full as what:
            section.closed = f"more than {what}"
        except MemoryError:
            section.closed = OUT_OF_MEMORY
