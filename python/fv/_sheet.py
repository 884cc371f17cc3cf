# SPDX-License-Identifier: BSD-2-Clause-Patent
"""Gathers the data that fv-map draws for an image: the parts and the files of each volume, the contents of the files,
the parts that are not read, and the files that came, went and changed since another image."""

from __future__ import annotations

import bisect
import contextlib
import hashlib
from collections import Counter
from collections.abc import Callable, Hashable, Iterable, Iterator
from dataclasses import dataclass, field
from itertools import chain
from typing import TypeVar

from ._calls import volume_cells, volume_is_canonical, volume_tree, volume_tree_digests
from ._errors import Fault, FaultError
from ._model import Content, File, Part, Section, Unread, Volume, leaves
from ._native import CellKind, NodeKind
from ._types import Cell
from .names import Names
from .shown import printable

LONGEST_NAME = 200  # characters of a name that are shown
LONGEST_WAY = 400  # characters of the names around a part that are shown
MOST_CELLS = 200_000  # parts of volumes that are drawn in their places
# Bytes that are digested, each once at each level: at least this many, and this many times the bytes of the image.
MOST_DIGESTED, TIMES_DIGESTED = 1 << 28, 16

Item = TypeVar("Item")
Pair = tuple[Item | None, Item | None, Item]  # of two images: the old item, the new item, and one that is there
Digests = dict[int, bytes] | None  # of the files in a volume, at every level, by the offsets of their data


@dataclass
class Row:
    """A file of a volume: its name, the offset of its header in the volume, the digest of its data, and the volumes in
    its sections. The mark shows what happened to the file since another image."""

    part: File
    name: str
    at: int
    digest: bytes | None
    inner: list[Sheet] = field(default_factory=list)
    mark: str = ""

    def is_like(self, other: Row) -> bool:
        """Returns whether a file of another image is the same. If neither has a digest, their bytes as stored are
        compared."""
        mine, its = ((it.digest, it.part.length, it.part.kind, it.part.attributes) for it in (self, other))
        return mine == its and (self.digest is not None or self.part.body == other.part.body)


@dataclass
class Sheet:
    """A volume: its name, its number in the image or section around it, this section, whether it is its own canonical
    image, its files, and its cells (None if they are not drawn). `before` is the volume of another image with which it
    is compared."""

    part: Volume
    name: str
    number: int
    section: Section | None
    is_canonical: bool = False
    cells: list[Cell] | None = None
    rows: list[Row] = field(default_factory=list)
    before: Sheet | None = None

    @property
    def head(self) -> int:
        """Returns the length of the volume's header."""
        return self.cells[0].offset if self.cells else self.part.length

    @property
    def layout(self) -> list[Hashable]:
        """Returns where its parts are, and what they are."""
        return [self.head, *((it.kind, it.offset, it.length, it.efi_type) for it in self.cells or ())]

    def sum_of(self, *kinds: CellKind) -> int:
        """Returns how many bytes the cells of these kinds have."""
        return sum(it.length for it in self.cells or () if it.kind in kinds)


@dataclass
class Lack:
    """A part that is not read, or that may be read wrongly: what it is, the reason, the names of the parts around it,
    and the nearest file or volume around it. `fresh` is the number of its last bytes that are in none of the parts
    before it: a header in a gap has no such bytes. The mark shows whether another image has the part too."""

    part: Part
    what: str
    reason: str
    where: str
    near: Volume | File | None
    fresh: int = 0
    mark: str = ""

    @property
    def key(self) -> Hashable:
        """Returns a value that is equal for the same part of another image. No byte is digested twice."""
        end = self.part.offset + self.part.length
        return self.where, self.what, self.part.length, hashlib.sha256(self.part.data[end - self.fresh : end]).digest()


@dataclass
class Drawing:
    """An image: the name of its file, its contents, its volumes, the reasons why not all of it is drawn, and the parts
    that are not read."""

    path: str
    image: Content
    sheets: list[Sheet]
    cuts: list[str]
    lacks: list[Lack]

    @property
    def digest(self) -> str:
        """Returns the SHA-256 digest of the image."""
        return hashlib.sha256(self.image.data).hexdigest()

    @property
    def lacking(self) -> int:
        """Returns how many bytes are not read. Bytes that are in two parts count once."""
        return sum(it.fresh for it in self.lacks)


def drawing_of(path: str, image: Content, names: Names, most_volumes: int) -> Drawing:
    """Returns the drawing of an image that was read with its sections opened."""
    walk = _Walk(names, most_volumes, max(MOST_DIGESTED, TIMES_DIGESTED * len(image.data)))
    walk.lacks += _unread(image.unread, "", None)
    sheets = walk.sheets(image.volumes, "", None, None)
    ends: Counter[int] = Counter()  # of the parts so far, by their data
    for it in sorted(walk.lacks, key=lambda it: (it.part.offset, -it.part.length)):
        data, upto = id(it.part.data), it.part.offset + it.part.length
        it.fresh = max(upto - max(it.part.offset, ends[data]), 0)
        ends[data] = max(ends[data], upto)
    return Drawing(path, image, sheets, list(walk.cuts), walk.lacks)


def meaning_of(fault: Fault) -> str:
    """Returns a fault, its offset in decimal and hexadecimal, and its meaning."""
    return f"fault {fault.number} at {fault.offset} ({fault.offset:#x}): {fault.text}"


def short(name: str) -> str:
    """Returns the first part of a name, without characters that cannot be seen."""
    shown = printable(name[: LONGEST_NAME + 1])
    return shown if len(shown) <= LONGEST_NAME else f"{shown[: LONGEST_NAME - 1]}…"


def inside(where: str, name: str) -> str:
    """Returns the names of the parts around a part, after one more part. Of many names, the last ones are shown."""
    way = f"{where} › {name}" if where else name
    return way if len(way) <= LONGEST_WAY else f"…{way[1 - LONGEST_WAY :]}"


class _Walk:
    """A walk through an image, which makes sheets, up to the limits for a page, and finds the parts that are not
    read."""

    def __init__(self, names: Names, most_volumes: int, most_digested: int) -> None:
        self._names = names
        self._most = self._left = most_volumes
        self._cells_left, self._bytes_left = MOST_CELLS, most_digested
        self.lacks: list[Lack] = []
        self.cuts: dict[str, bool] = {}  # in the order in which they came

    def sheets(self, volumes: Iterable[Volume], where: str, section: Section | None, digests: Digests) -> list[Sheet]:
        """Returns the sheets of the volumes in one image or in one section, and looks for parts that are not read also
        in the volumes above the limit. `digests` are the digests of a volume around them."""
        every = chain.from_iterable((it, *it.volumes) for it in volumes)
        found = [Sheet(it, self._name(it, number), number, section) for number, it in enumerate(every)]
        drawn = found[: self._left]
        self._left -= len(drawn)
        if len(drawn) < len(found):
            self.cuts[f"there are more than {self._most} volumes"] = True
        for sheet in drawn:
            self._draw(sheet, where, digests)
        for sheet in found[len(drawn) :]:
            self._read(sheet, where, {})
        return drawn

    def _name(self, volume: Volume, number: int) -> str:
        """Returns the name of a volume, or its number in the image or section around it."""
        return short(self._names.of(volume.guid) or str(volume.guid or f"volume {number}"))

    def _draw(self, sheet: Sheet, where: str, digests: Digests) -> None:
        """Adds the files and the cells of a volume to its sheet, and whether it is its own canonical image. It is not
        if its files do not fit."""
        data = sheet.part.plain
        if digests is None and not sheet.part.fault:
            digests = self._digests(sheet.part, data)
        self._read(sheet, where, digests)
        with contextlib.suppress(FaultError):
            sheet.cells = self._cells(data)
            sheet.is_canonical = volume_is_canonical(data)

    def _read(self, sheet: Sheet, where: str, digests: Digests) -> None:
        """Adds the files of a volume to its sheet, with the volumes in them, and notes what is not read. A file is
        named by the text of its section, otherwise by the name of its GUID, otherwise by its GUID."""
        volume, here = sheet.part, inside(where, sheet.name)
        if volume.fault:
            self.lacks.append(Lack(volume, "rejected volume", meaning_of(volume.fault), where, volume))
        for file in volume.files:
            name = short(file.name or self._names.of(file.guid) or str(file.guid))
            at = file.offset - file.header_length - volume.offset
            sheet.rows.append(Row(file, name, at, (digests or {}).get(file.offset)))
        starts, rows = [it.offset for it in volume.files], [None, *sheet.rows]
        for lack in _unread(volume.unread, here, volume):
            row = rows[bisect.bisect(starts, lack.part.offset)]
            if row and lack.part.offset < row.part.offset + row.part.length:
                lack.where, lack.near = inside(here, row.name), row.part
            self.lacks.append(lack)
        for row in sheet.rows:
            within, sections = inside(here, row.name), row.part.sections
            self.lacks += _unread(row.part.unread, within, row.part)
            self.lacks += _in_sections(sections, within, row.part)
            row.inner += self.sheets(row.part.volumes, within, None, None)
            for it in leaves(sections):
                row.inner += self.sheets(_volumes_of(it), within, it, None if it.opened else digests)

    def _cells(self, data: bytes) -> list[Cell] | None:
        """Returns the cells of a volume, or None if they are too many."""
        cells = list(volume_cells(data))
        if len(cells) > self._cells_left:
            self.cuts[f"the volumes have more than {MOST_CELLS} parts"] = True
            return None
        self._cells_left -= len(cells)
        return cells

    def _digests(self, volume: Volume, data: bytes) -> Digests:
        """Returns the digests of a volume. There are none if too many bytes would be digested. Returns None if the
        files cannot be laid out in the volume."""
        nodes = list(volume_tree(data))
        cost = sum(it.length for it in nodes)
        if cost > self._bytes_left:
            return {}
        self._bytes_left -= cost
        with contextlib.suppress(FaultError):
            found = zip(nodes, volume_tree_digests(data), strict=True)
            return {volume.offset + it.offset: digest for it, digest in found if digest and it.kind == NodeKind.FILE}
        return None


def _volumes_of(section: Section) -> Iterator[Volume]:
    """Yields the volumes in a section, also those in sections that were opened in it."""
    yield from section.volumes
    if section.opened:
        yield from section.opened.every_volume()
        for inner in leaves(section.opened.sections):
            if inner.opened:
                yield from _volumes_of(inner)


def _in_sections(sections: Iterable[Section], where: str, near: File) -> Iterator[Lack]:
    """Yields the parts of sections that are not read. Volumes in the sections are not looked at."""
    for section in sections:
        if section.closed:
            yield Lack(section, section.type_name, f"not opened: {section.closed}", where, near)
        if opened := section.opened:
            if opened.doubts:
                yield Lack(section, section.type_name, "; ".join(opened.doubts), where, near)
            here = inside(where, opened.way.name)
            yield from _unread(opened.unread, here, near)
            yield from _in_sections(opened.sections, here, near)
        yield from _in_sections(section.sections, where, near)


def _unread(found: Iterable[Unread], where: str, near: Volume | File | None) -> Iterator[Lack]:
    """Yields bytes that are not read."""
    return (Lack(it, it.what or "bytes", it.reason, where, near) for it in found)


def kind_of(old: object | None, new: object | None) -> str:
    """Returns the kind of a change in one word."""
    return "came" if old is None else "went" if new is None else "changed"


@dataclass
class Change:
    """A file that came, went or changed, or a rejected volume that did: the names of the parts around it, its name, and
    its old and new row or sheet."""

    where: str
    name: str
    old: Row | Sheet | None
    new: Row | Sheet | None

    @property
    def kind(self) -> str:
        """Returns the kind of the change in one word."""
        return kind_of(self.old, self.new)

    @property
    def by(self) -> int:
        """Returns by how many bytes the part grew."""
        return (self.new.part.length if self.new else 0) - (self.old.part.length if self.old else 0)


def changes(old: Drawing, new: Drawing) -> list[Change]:
    """Returns the changes between two images, the largest first. Marks the files of the new image, and the parts of
    both that are not read."""
    found = sorted(_in_volumes(old.sheets, new.sheets, ""), key=lambda it: -abs(it.by))
    for change in found:
        if isinstance(change.new, Row):
            change.new.mark = change.kind
    for was, now, lack in _paired(old.lacks, new.lacks, lambda it: it.key):
        lack.mark = "" if was and now else kind_of(was, now)
    return found


def _paired(old: list[Item], new: list[Item], key: Callable[[Item], Hashable]) -> Iterator[Pair[Item]]:
    """Yields the old and the new item of each key. Items with the same key are numbered."""
    sides: list[dict[Hashable, Item]] = [{}, {}]
    for side, items in zip(sides, (old, new)):
        counts: Counter[Hashable] = Counter()
        for it, place in zip(items, map(key, items)):
            counts[place] += 1
            side[place, counts[place]] = it
    was, now = sides
    for place, one in (was | now).items():
        yield was.get(place), now.get(place), one


def _in_volumes(old: list[Sheet], new: list[Sheet], where: str) -> Iterator[Change]:
    """Yields the changes between the volumes of two images or of two files. A volume is found in the other image by
    FvName, otherwise by its number."""
    for was, now, one in _paired(old, new, lambda it: it.part.guid or it.number):
        if was and now:
            now.before = was
        is_rejected = any(it and it.part.fault for it in (was, now))
        if is_rejected and not (was and now and was.part.body == now.part.body):
            yield Change(where, one.name, was, now)
        yield from _in_files(was.rows if was else [], now.rows if now else [], inside(where, one.name))


def _in_files(old: list[Row], new: list[Row], where: str) -> Iterator[Change]:
    """Yields the changes between the files of two volumes, and of the volumes in them."""
    for was, now, one in _paired(old, new, lambda it: it.part.guid):
        if not (was and now and was.is_like(now)):
            yield Change(where, one.name, was, now)
        yield from _in_volumes(was.inner if was else [], now.inner if now else [], inside(where, one.name))
