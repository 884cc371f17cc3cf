# SPDX-License-Identifier: BSD-2-Clause-Patent
"""Lists the parts of an image that was read, each with the path that fv-unpack gives it, and with the reason if it is
not read."""

from __future__ import annotations

import hashlib
import uuid
from collections import Counter
from collections.abc import Iterable, Iterator
from dataclasses import dataclass, field, replace

from . import cli
from ._model import Content, File, Holder, Opened, Part, Section, Unread, Volume, finding_text
from .limits import Full
from .names import DEPEX, PE32, TE, Names
from .shown import file_name

IMAGE = "image"  # `within` of a part that is not in an opened section: its offset counts from the image's start
# Parts lie in one another, and each has a digest. All digests of an image cover at most this many bytes, and this many
# times its own length.
LEAST_DIGESTED, TIMES_DIGESTED = 1 << 29, 16


class Digests:
    """Makes SHA-256 digests of parts. Raises Full if they cover more than `most` bytes."""

    def __init__(self, most: int = LEAST_DIGESTED) -> None:
        self._most = self._left = most

    def of(self, part: Part) -> str:
        """Returns the digest of the bytes of a part."""
        if part.length > self._left:
            raise Full(f"{self._most} bytes under digests")
        self._left -= part.length
        return hashlib.sha256(part.view).hexdigest()


@dataclass
class Entry:
    """A part of an image: its path (the path of a folder ends with a slash), from where its offset counts (`within`:
    the image, or the folder of an opened section), its kind, its type, its GUID and its name, and a note. `line` is a
    line of text about it, and `status` the least status of a run that unpacks it."""

    path: str
    part: Part
    within: str
    what: str
    kind: str = ""
    guid: uuid.UUID | None = None
    name: str = ""
    note: str = ""
    line: str = ""
    status: int = cli.DONE
    digests: Digests = field(default_factory=Digests, repr=False, compare=False)

    @property
    def is_folder(self) -> bool:
        """Returns whether other parts are in it, each with its own entry."""
        return self.path.endswith("/")

    @property
    def findings(self) -> str:
        """Returns the numbers of the rules that the part breaks."""
        return ",".join(str(it.value) for it in self.part.broken)

    @property
    def digest(self) -> str:
        """Returns the SHA-256 digest of the bytes of the part. Raises Full if the digests of the image cover too many
        bytes."""
        return self.digests.of(self.part)


@dataclass(frozen=True)
class Place:
    """The place of parts: from where their offsets count, and the name of the file around them."""

    within: str = IMAGE
    holder: str = ""


def entries(image: Content, names: Names) -> Iterator[Entry]:
    """Yields the parts of an image that was read with its sections opened."""
    digests = Digests(LEAST_DIGESTED + TIMES_DIGESTED * len(image.data))
    for it in _Walk(names).content(image, "", Place()):
        it.digests = digests
        yield it


class _Walk:
    """A walk through an image, which counts the volumes."""

    def __init__(self, names: Names) -> None:
        self._names = names
        self._volumes = 0

    def content(self, content: Content, path: str, place: Place) -> Iterator[Entry]:
        """Yields the parts of an image, or of an opened section."""
        yield from self._sections(content.sections, path, place)
        yield from self._rest(content, path, place)

    def _rest(self, holder: Holder, path: str, place: Place) -> Iterator[Entry]:
        """Yields the volumes that were found in the bytes of a part, and the bytes in it that are not read."""
        for volume in holder.volumes:
            yield from self._volume(volume, place)
        yield from _unread(holder.unread, path, place.within)

    def _volume(self, volume: Volume, place: Place) -> Iterator[Entry]:
        """Yields a volume, its files, and the rest of it. A volume that breaks rules has its first fault."""
        name = self._names.of(volume.guid)
        path = f"{self._volumes:02}-{file_name(name or place.holder or str(volume.guid or 'volume'))}"
        self._volumes += 1
        about = f"{path}: volume at 0x{volume.offset:x}" + (f" in {place.within}" if place.within != IMAGE else "")
        entry = Entry(f"{path}/", volume, place.within, "volume", volume.type_name, volume.guid, name)
        if volume.fault:
            note = f"{volume.fault}: {volume.fault.text}"
            yield replace(entry, note=note, line=f"{about}: {note}", status=cli.REJECTED)
        else:
            fixed = f", {len(volume.fixed)} of them fixed" if volume.fixed else ""
            yield replace(entry, line=f"{about}: {len(volume.files)} files{fixed}")
        for number, file in enumerate(volume.files):
            yield from self._file(file, f"{path}/{number:03}", place.within)
        yield from self._rest(volume, f"{path}/", place)

    def _file(self, file: File, path: str, within: str) -> Iterator[Entry]:
        """Yields a file, and its sections."""
        name = file.name or self._names.of(file.guid)
        path = f"{path}-{file_name(name or str(file.guid))}/"
        notes = ["fixed"] * file.is_fixed + [finding_text(file.broken)] * bool(file.broken)
        yield Entry(path, file, within, "file", file.type_name, file.guid, name, "; ".join(notes))
        if file.sections:
            yield from self._sections(file.sections, path, Place(within, name))
        elif file.length:
            yield Entry(f"{path}body.bin", file, within, "data", file.type_name)
        yield from self._rest(file, path, Place(within, name))

    def _sections(self, sections: Iterable[Section], path: str, place: Place) -> Iterator[Entry]:
        """Yields sections, and their contents, in a folder."""
        counts: Counter[str] = Counter()
        for section in sections:
            if section.volume:
                yield from self._volume(section.volume, place)
            elif section.opened:
                inner = f"{path}{_numbered(section.opened.way.folder, counts)}/"
                yield from self._opened(section, section.opened, inner, place)
            elif section.sections:
                inner = f"{path}{_numbered('group', counts)}/"
                entry = Entry(inner, section, place.within, "section", section.type_name)
                yield _doubted(entry, "read", [section.closed] if section.closed else [])
                yield from self._sections(section.sections, inner, place)
                yield from self._rest(section, inner, place)
            else:
                ending = "efi" if section.kind in (PE32, TE) else "bin"
                name = _numbered(f"{file_words(section.type_name)}.{ending}", counts)
                yield self._leaf(Entry(f"{path}{name}", section, place.within, "section", section.type_name), section)
                yield from self._rest(section, path, place)

    def _opened(self, section: Section, content: Opened, path: str, place: Place) -> Iterator[Entry]:
        """Yields an opened section, and its contents."""
        note = f"{content.way.name}: {len(content.data)} bytes"
        entry = Entry(path, section, place.within, "section", section.type_name, note=note)
        yield _doubted(entry, "opened", content.doubts)
        yield from self.content(content, path, replace(place, within=path))

    def _leaf(self, entry: Entry, section: Section) -> Entry:
        """Returns the entry of a section that holds bytes, or that is not opened, with a note."""
        if section.closed:
            note = f"not opened: {section.closed}"
            return _lacking(entry, note, note)
        note = self._names.depex(section.body) if section.kind in DEPEX else finding_text(section.broken)
        return replace(entry, note=note)


def _doubted(entry: Entry, done: str, doubts: list[str]) -> Entry:
    """Returns the entry of a section that was read or opened, with the reasons why its contents may be wrong or
    incomplete."""
    if not doubts:
        return entry
    doubt = "; ".join(doubts)
    return _lacking(entry, f"{entry.note}; {doubt}" if entry.note else doubt, f"{done}, but {doubt}")


def _lacking(entry: Entry, note: str, what: str) -> Entry:
    """Returns the entry of a part that is not read, or may be wrong, with a note and a line that say so."""
    return replace(entry, note=note, line=f"{entry.path}: {what}", status=cli.OTHER)


def _unread(found: Iterable[Unread], folder: str, within: str) -> Iterator[Entry]:
    """Yields the bytes in a folder that are not read."""
    counts: Counter[str] = Counter()
    for it in found:
        name = "outside" if it.is_gap else file_name(file_words(it.what))
        path = folder + _numbered(f"{name}-{it.offset:08x}.bin", counts)
        entry = Entry(path, it, within, "outside" if it.is_gap else "unread", it.what, it.guid)
        yield _lacking(entry, it.reason, f"not read: {it.reason}")


def _numbered(name: str, counts: Counter[str]) -> str:
    """Returns a file name, with a number if the folder has that name already."""
    counts[name] += 1
    stem, dot, ending = name.partition(".")
    return name if counts[name] == 1 else f"{stem}-{counts[name]}{dot}{ending}"


def file_words(kind: str) -> str:
    """Returns the name of a type as file names have it."""
    return kind.lower().replace(" ", "-")
