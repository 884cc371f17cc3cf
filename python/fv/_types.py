# SPDX-License-Identifier: BSD-2-Clause-Patent
"""The types of the values that the calls return."""

from __future__ import annotations

import struct
import uuid
from collections.abc import Callable, Iterator, Sequence
from dataclasses import dataclass, fields, make_dataclass
from itertools import starmap
from typing import Any, ClassVar, TypeVar, overload

from . import _native as native
from ._errors import Fault, fault_of
from ._native import CellKind, Content, FaultCode, Finding, NodeKind, PartKind, Reason, RowKind, StoreFormat
from ._native import VariableStatus, Way

Item = TypeVar("Item")


@dataclass(frozen=True, slots=True)
class Header:
    """The header of a volume.

    `offset` is the offset of the volume in the data: 0 for header_read. `length` is FvLength, and `first_file` is the
    offset in the volume at which its first file may begin. `header_length` and `attributes` are HeaderLength and
    Attributes. `file_system` is 2 for FFS2 and 3 for FFS3, and `erased_byte` the value of an erased byte, 0 or 255.
    `name` is FvName of the extended header, or None if the volume has no name."""

    offset: int
    length: int
    first_file: int
    header_length: int
    attributes: int
    file_system: int
    erased_byte: int
    name: uuid.UUID | None


@dataclass(frozen=True, slots=True)
class VolumeCheck:
    """A volume of a flash image: its offset and length in bytes, the fault with which it is rejected (None if it is
    accepted), and whether it is its own canonical image. The offset of the fault counts from the first byte of the
    image."""

    offset: int
    length: int
    fault: Fault | None
    canonical: bool


@dataclass(frozen=True, slots=True)
class SurveyRow:
    """A row of a survey: its offset and length in the image in bytes, its kind, and the number of rows around it.

    `efi_type` is Type of a file (FileType or another) or a section (SectionType or another), otherwise None. `found`
    is whether the row is a volume that was found by its signature, as each volume of depth 0 is. `findings` are the
    rules that the bytes break, each by the code of its fault, in the order of their numbers. `name` is Name of a file,
    or the GUID of the file system of a volume. It is None for any other row, and for a name of zeros."""

    offset: int
    length: int
    kind: RowKind
    depth: int
    efi_type: int | None
    found: bool
    findings: tuple[FaultCode, ...]
    name: uuid.UUID | None

    @property
    def is_leaf(self) -> bool:
        """Whether the row contains no other rows. Every byte of the image is in exactly one leaf row."""
        return self.kind not in CONTAINERS


@dataclass(frozen=True, slots=True)
class VariableRow:
    """A row of variable stores or of signature lists: its offset and length in the input in bytes, its part, and its
    finding (None if nothing is wrong with its bytes). A field that the part does not have is None.

    A store has `format`, `size`, `state` and `formatted`. A variable has `state`, `status`, `attributes`,
    `header_length`, `name_size`, `data_size` and `guid`, which is VendorGuid. An authenticated variable also has
    `monotonic_count`, `public_key` and `time_stamp`, which are the 16 bytes of an EFI_TIME. A signature list has `size`
    (SignatureListSize), `data_size` (SignatureSize) and `guid` (SignatureType), and `guid` of a signature is its
    owner."""

    offset: int
    length: int
    monotonic_count: int | None
    part: PartKind
    finding: Finding | None
    format: StoreFormat | None
    size: int | None
    state: int | None
    status: VariableStatus | None
    attributes: int | None
    header_length: int | None
    name_size: int | None
    data_size: int | None
    public_key: int | None
    formatted: int | None
    guid: uuid.UUID | None
    time_stamp: bytes | None

    @property
    def name_offset(self) -> int:
        """The offset of the name of a variable in the input."""
        return self.offset + (self.header_length or 0)

    @property
    def data_offset(self) -> int:
        """The offset of the data of a variable in the input."""
        return self.name_offset + (self.name_size or 0)


@dataclass(frozen=True, slots=True)
class Cell:
    """A cell of a volume's body: its offset and length in bytes, and its kind. A valid file or a pad also has the
    length of its header, its Type, its Attributes and its Name, as stored. These are None for any other cell. The
    length includes the filler after a deleted or unfinished file, but not the filler after a valid file or a pad."""

    offset: int
    length: int
    kind: CellKind
    header_length: int | None
    efi_type: int | None
    attributes: int | None
    name: uuid.UUID | None


@dataclass(frozen=True, slots=True)
class Node:
    """A row of a tree: a volume, a file or a section. A field that the part does not have is None.

    `offset` and `length` give the place in the data of the volume, the file's data or the section's body. `parent` is
    the number of the row that holds this one (None for the first), `index` its place among the parts that its parent
    holds, and `depth` the number of rows around it. `kind` is the kind of the row, and `content` the kind of its
    contents. `efi_type` is Type of a file (FileType or another) or a section (SectionType or another). `attributes` is
    Attributes of a volume, or of a file without bit 0x01 (a file with that bit has a `header_length` of 32).
    `header_length` is the length of the header. `guid` is Name of a file, or FvName of a volume that has a name.
    `file_system` is 2 or 3, for a volume."""

    offset: int
    length: int
    parent: int | None
    index: int
    depth: int
    kind: NodeKind
    content: Content
    efi_type: int | None
    attributes: int | None
    header_length: int
    guid: uuid.UUID | None
    file_system: int | None


@dataclass(frozen=True, slots=True)
class Packed:
    """What the header of a packed section says: the length of the contents that it promises (None if it promises
    none), the offset of the data in the section, and the way to open the section. The contents may have another
    length."""

    promised: int | None
    data_offset: int
    way: Way


@dataclass(frozen=True, slots=True)
class Opened:
    """The contents of a packed section, and the way that gave them."""

    contents: bytes
    way: Way


@dataclass(frozen=True, slots=True)
class PackedSection:
    """A packed section of an image, at some level: a compression section or a GUID-defined section.

    `source` is the number of the source that the section is in. `offset` is the offset of the section in that source,
    and `length` its length with its header, in bytes. `depth` is the number of opened sections around it, 0 to 8.
    If the section is opened, `way` is the way that gave its contents, and `contents_length` the number of their bytes.
    If it is not opened, `reason` says why; then `fault` is its fault if the reason is Reason.FAULT, and the offset of
    the fault counts from the first byte of the section. A field that does not apply is None."""

    source: int
    offset: int
    length: int
    depth: int
    way: Way | None
    contents_length: int | None
    reason: Reason | None
    fault: Fault | None


@dataclass(frozen=True, slots=True)
class Source:
    """A source of an image: the image itself, which is source 0, or the contents of a packed section.

    `number` is its number, and `depth` the number of opened sections around its bytes: 0 for the image, otherwise 1 to
    8. `packed` is the section whose contents it is, which is in an earlier source; it is None for the image. `rows` are
    the rows of its survey, in preorder, with offsets in its bytes: they account for every byte. The rows of depth 0 of
    the image are volumes, and in contents they are sections. `bytes` are its bytes, which nothing can write to over
    this view. The view and the rows are memory of the library, which stays as long as anything refers to it."""

    number: int
    depth: int
    bytes: memoryview
    packed: PackedSection | None
    rows: Sequence[SurveyRow]


@dataclass(frozen=True, slots=True)
class PartPlace:
    """The place of a part of an image, at some level: the number of the source that the part is in, and its offset and
    length there, in bytes. Source 0 is the image."""

    source: int
    offset: int
    length: int


@dataclass(frozen=True, slots=True)
class Sameness:
    """Whether two images mean the same at every level. If not, `first` and `second` are the places where they first
    differ, in the first and in the second image. If only one image has a part there, the other place is None. The
    number of a source is its number in image_open of the same image with the same limit."""

    is_same: bool
    first: PartPlace | None
    second: PartPlace | None


@dataclass(frozen=True, slots=True)
class Hob:
    """A block of a hand-off list: the base address and the length of the volume that it describes (None if it does not
    describe one), HobType and HobLength."""

    volume_base: int | None
    volume_length: int | None
    hob_type: int
    hob_length: int


@dataclass(frozen=True, slots=True)
class HobList:
    """A hand-off list: its blocks, and the number of its bytes. The offset of a block is the sum of the lengths of the
    blocks before it."""

    blocks: Sequence[Hob]
    length: int


# The members of the types by their numbers: this is quicker than a call of the type.
CELL_KINDS = {it.value: it for it in CellKind}
NODE_KINDS = {it.value: it for it in NodeKind}
CONTENTS = {it.value: it for it in Content}
WAYS = {it.value: it for it in Way}
ROW_KINDS = {it.value: it for it in RowKind}
REASONS = {it.value: it for it in Reason}
PART_KINDS = {it.value: it for it in PartKind}
FINDINGS = {it.value: it for it in Finding}
STORE_FORMATS = {it.value: it for it in StoreFormat}
STATUSES = {it.value: it for it in VariableStatus}
# The kinds of rows of a survey that contain other rows.
CONTAINERS = frozenset((RowKind.VOLUME, RowKind.FILE, RowKind.SECTION, RowKind.LOST))
# The codes of the faults that can be findings, by the bits of a row.
_BITS = {1 << it: it for it in FaultCode if it < native.OUT_OF_MEMORY}
# The value in a row if a part does not have a GUID or a digest.
_NO_GUID, _NO_DIGEST = bytes(16), bytes(32)


# The fields of a GUID as stored, and in the order of its number. A UUID is made faster from its number than from
# `bytes_le`.
_STORED, _ORDERED = struct.Struct("<IHH8s"), struct.Struct(">IHH8s")


def _guid(name: bytes) -> uuid.UUID:
    return uuid.UUID(int=int.from_bytes(_ORDERED.pack(*_STORED.unpack(name)), "big"))


def _guid_or_none(name: bytes) -> uuid.UUID | None:
    return None if name == _NO_GUID else _guid(name)


class Rows(Sequence[Item]):
    """The rows that a call has written, in order. A row is made when it is accessed, so there is no list of all rows. A
    slice of rows is an object of this class too. Rows are equal to rows, lists and tuples with the same items."""

    # The format by which the structure of a row is unpacked, and the function that makes an item from its fields.
    layout: ClassVar[struct.Struct]
    make: ClassVar[Callable[..., Any]]

    __slots__ = ("_data",)

    def __init__(self, data: bytes | memoryview) -> None:
        self._data = data

    def __len__(self) -> int:
        return len(self._data) // self.layout.size

    @classmethod
    def item(cls, data: bytes, place: int = 0) -> Item:
        """Returns the item of the row that begins at this place of some bytes."""
        made: Item = cls.make(*cls.layout.unpack_from(data, place))
        return made

    def __iter__(self) -> Iterator[Item]:
        return starmap(type(self).make, self.layout.iter_unpack(self._data))

    @overload
    def __getitem__(self, place: int) -> Item: ...

    @overload
    def __getitem__(self, place: slice) -> Rows[Item]: ...

    def __getitem__(self, place: int | slice) -> Item | Rows[Item]:
        size, places = self.layout.size, range(len(self))[place]
        if isinstance(places, int):
            return self.item(self._data, places * size)
        if places.step == 1:
            return type(self)(self._data[places.start * size : places.stop * size])
        return type(self)(b"".join(self._data[it * size : (it + 1) * size] for it in places))

    def __eq__(self, other: object) -> bool:
        if not isinstance(other, (Rows, list, tuple)):
            return NotImplemented
        return len(self) == len(other) and all(mine == its for mine, its in zip(self, other))

    def __repr__(self) -> str:
        return f"<{type(self).__name__}: {len(self)} rows>"

    def __reduce__(self) -> tuple[Any, ...]:
        """Lets rows be copied, and sent from one process to another."""
        return type(self), (bytes(self._data),)


def _quick(kind: type[Any], mend: Callable[[Any], None]) -> type[Any]:
    """Returns a class that takes the fields of a row, has `mend` change them, and then becomes the class of the items:
    both have the same slots. (The __init__ of a frozen class makes a call for each field, which takes three times as
    long.)"""

    def end(it: Any) -> None:
        mend(it)
        it.__class__ = kind

    names = [it.name for it in fields(kind)]
    return make_dataclass(f"_Read{kind.__name__}", names, namespace={"__post_init__": end}, slots=True)


def _mend_header(it: Any) -> None:
    it.name = _guid_or_none(it.name)


class Headers(Rows[Header]):
    layout, make = struct.Struct(native.HEADER_FORMAT), _quick(Header, _mend_header)


class Checks(Rows[VolumeCheck]):
    layout = struct.Struct(native.VOLUME_CHECK_FORMAT)

    @staticmethod
    def make(offset: int, length: int, at: int, result: int, depth: int, side: int, canonical: int) -> VolumeCheck:
        fault = fault_of(at, result, depth, side) if result else None
        return VolumeCheck(offset, length, fault, canonical == 1)


_WITH_TYPE = RowKind.FILE, RowKind.SECTION


def _mend_survey_row(it: Any) -> None:
    it.kind, it.found, it.name = ROW_KINDS.get(it.kind, it.kind), it.found == 1, _guid_or_none(it.name)
    it.findings = tuple(code for bit, code in _BITS.items() if it.findings & bit) if it.findings else ()
    if it.kind not in _WITH_TYPE:
        it.efi_type = None


class SurveyRows(Rows[SurveyRow]):
    layout, make = struct.Struct(native.SURVEY_ROW_FORMAT), _quick(SurveyRow, _mend_survey_row)


# The fields that each part has, besides those that all parts have.
_OF_VARIABLE = ("state", "status", "attributes", "header_length", "name_size", "data_size", "guid")
_OF_AUTHENTICATED = ("monotonic_count", "public_key", "time_stamp")
_FIELDS = {
    PartKind.STORE_HEADER: ("format", "size", "state", "formatted"),
    PartKind.VARIABLE: _OF_VARIABLE,
    PartKind.LIST_HEADER: ("size", "data_size", "guid"),
    PartKind.SIGNATURE: ("guid",),
}
_SOMETIMES = ("format", "size", "formatted", *_OF_VARIABLE, *_OF_AUTHENTICATED)
_AUTHENTICATED_HEADER = 60  # bytes


def _mend_variable_row(it: Any) -> None:
    it.part, it.finding = PART_KINDS.get(it.part, it.part), FINDINGS.get(it.finding, it.finding or None)
    it.format, it.status = STORE_FORMATS.get(it.format, it.format), STATUSES.get(it.status, it.status)
    has: tuple[str, ...] = _FIELDS.get(it.part, ())
    if it.part is PartKind.VARIABLE and it.header_length == _AUTHENTICATED_HEADER:
        has = _OF_VARIABLE + _OF_AUTHENTICATED
    if "guid" in has:
        it.guid = _guid(it.guid)
    for name in _SOMETIMES:
        if name not in has:
            setattr(it, name, None)


class VariableRows(Rows[VariableRow]):
    layout, make = struct.Struct(native.VARIABLE_ROW_FORMAT), _quick(VariableRow, _mend_variable_row)


_WITH_HEADER = int(CellKind.FILE), int(CellKind.PAD)


def _mend_cell(it: Any) -> None:
    if it.kind in _WITH_HEADER:
        it.name = _guid(it.name)
    else:
        it.header_length = it.efi_type = it.attributes = it.name = None
    it.kind = CELL_KINDS[it.kind]


class Cells(Rows[Cell]):
    layout, make = struct.Struct(native.CELL_FORMAT), _quick(Cell, _mend_cell)


def _mend_node(it: Any) -> None:
    it.kind, it.content = NODE_KINDS[it.kind], CONTENTS[it.content]
    if it.parent == native.NO_PARENT:
        it.parent = None
    if it.kind is NodeKind.VOLUME:
        it.efi_type, it.guid = None, _guid_or_none(it.guid)
        return
    it.file_system = None
    if it.kind is NodeKind.FILE:
        it.guid = _guid(it.guid)
    else:
        it.attributes = it.guid = None


class Nodes(Rows[Node]):
    layout, make = struct.Struct(native.NODE_FORMAT), _quick(Node, _mend_node)


class Digests(Rows[bytes | None]):
    layout = struct.Struct(native.SHA256_FORMAT)

    @staticmethod
    def make(digest: bytes) -> bytes | None:
        return None if digest == _NO_DIGEST else digest


class PackedSections(Rows[PackedSection]):
    layout = struct.Struct(native.PACKED_FORMAT)

    @staticmethod
    def make(
        source: int, offset: int, length: int, contents_length: int, at: int, result: int, around: int, side: int,
        depth: int, way: Any, reason: Any,
    ) -> PackedSection:  # fmt: skip
        place = source, offset, length, depth
        if not reason:
            return PackedSection(*place, WAYS.get(way, way), contents_length, None, None)
        fault = fault_of(at, result, around, side) if result else None
        return PackedSection(*place, None, None, REASONS.get(reason, reason), fault)


# The types of the blocks that describe a volume: EFI_HOB_TYPE_FV and EFI_HOB_TYPE_FV2.
_OF_VOLUMES = 0x0005, 0x0009


def _mend_hob(it: Any) -> None:
    if it.hob_type not in _OF_VOLUMES:
        it.volume_base = it.volume_length = None


class Hobs(Rows[Hob]):
    layout, make = struct.Struct(native.HOB_FORMAT), _quick(Hob, _mend_hob)
