# SPDX-License-Identifier: BSD-2-Clause-Patent
"""An image that is open at every level, over the handle of fv.h."""

from __future__ import annotations

import ctypes as c
import struct
import weakref
from collections.abc import Sequence
from types import TracebackType
from typing import SupportsIndex

from ._calls import contents_limit
from ._errors import FAULT_SIZE, error_of
from ._library import Buffer, Held, lib
from ._types import PackedSection, PackedSections, Source, SurveyRows

# A call writes an address or a number of 64 bits to new bytes.
_WORD = struct.Struct("=Q")


class _Handle:
    """A handle of the library, and the data that it reads. Each view of its memory refers to this object, so the handle
    is closed when nothing needs it any more: neither the image nor a view."""

    __slots__ = ("__weakref__", "address")

    def __init__(self, image: Buffer, limit: int, copy: bool) -> None:
        held, opened, fault = Held(image, copy), bytes(_WORD.size), bytes(FAULT_SIZE)
        address, size = held.__enter__()
        if result := lib.fv_image_open(address, size, limit, opened, fault):
            held.__exit__(None, None, None)
            raise error_of(result, fault)
        (self.address,) = _WORD.unpack(opened)
        # At the end of the process, views may still be used, and the system frees all memory.
        weakref.finalize(self, _close, self.address, held).atexit = False

    def lent(self, address: int | None, size: int) -> memoryview:
        """Returns a view of memory that the handle lends."""
        if not address or not size:
            return memoryview(b"")
        memory = (c.c_char * size).from_address(address)
        setattr(memory, "handle", self)  # the view refers to the memory, and the memory to the handle
        return memoryview(memory).toreadonly().cast("B")


def _close(address: int, held: Held) -> None:
    """Closes a handle, and then lets the data go that it reads."""
    lib.fv_image_close(address)
    held.__exit__(None, None, None)


def _sections(handle: _Handle) -> PackedSections:
    """Returns the rows of all packed sections: first those that are opened, and then the others."""
    count = bytes(_WORD.size)
    address = lib.fv_image_packed(handle.address, count)
    return PackedSections(handle.lent(address, PackedSections.layout.size * _WORD.unpack(count)[0]))


def _source(handle: _Handle, number: int, packed: PackedSection | None) -> Source:
    """Returns the source with this number, which is the contents of this section."""
    size, count = bytes(_WORD.size), bytes(_WORD.size)
    address = lib.fv_image_source_bytes(handle.address, number, size)
    rows = lib.fv_image_source_rows(handle.address, number, count)
    return Source(
        number,
        packed.depth + 1 if packed else 0,
        handle.lent(address, _WORD.unpack(size)[0]),
        packed,
        SurveyRows(handle.lent(rows, SurveyRows.layout.size * _WORD.unpack(count)[0])),
    )


class Image:
    """An image that is open at every level: image_open. `with image_open(data) as image` closes it at the end of the
    block. After that, `sources` and `closed` raise ValueError. What they have returned before can still be used: the
    memory is freed when the image is closed, or not used any more, and no view of it is left."""

    __slots__ = ("_closed", "_sources")

    def __init__(self, image: Buffer, limit: int, copy: bool) -> None:
        handle = _Handle(image, limit, copy)
        rows = _sections(handle)
        count = lib.fv_image_source_count(handle.address)
        sections = [None, *rows[: count - 1]]
        self._sources: tuple[Source, ...] | None
        self._sources = tuple(_source(handle, number, packed) for number, packed in enumerate(sections))
        self._closed: Sequence[PackedSection] = rows[count - 1 :]

    @property
    def sources(self) -> Sequence[Source]:
        """The sources: first the image, then the contents of each packed section that is opened. A section is in an
        earlier source than its contents are."""
        return self._open()

    @property
    def closed(self) -> Sequence[PackedSection]:
        """The packed sections that are not opened, in the order of their sources and of the rows of these."""
        self._open()
        return self._closed

    def _open(self) -> tuple[Source, ...]:
        if self._sources is None:
            raise ValueError("the image is closed")
        return self._sources

    def close(self) -> None:
        """Closes the image. Does nothing if it is closed already."""
        self._sources, self._closed = None, ()

    def __enter__(self) -> Image:
        self._open()
        return self

    def __exit__(self, kind: type[BaseException] | None, error: BaseException | None, at: TracebackType | None) -> None:
        self.close()

    def __repr__(self) -> str:
        return "<Image: closed>" if self._sources is None else f"<Image: {len(self._sources)} sources>"


def image_open(image: Buffer, limit: SupportsIndex | None = None, *, copy: bool = True) -> Image:
    """Opens an image at every level: the packed sections in it, the packed sections in their contents, and so on.
    Returns the sources, each with the rows of its survey, and the packed sections that are not opened, each with the
    reason. Any bytes are accepted. The contents of all sections together have at most `limit` bytes, and at most
    CONTENTS_MAX, which is used if there is no limit; a section counts for at least 65,536 bytes. A section is not
    opened either if 8 opened sections are around it. With copy=False, nothing may write to the buffer as long as the
    image or a view of it is used."""
    return Image(image, contents_limit(limit), copy)
