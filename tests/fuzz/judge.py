# SPDX-License-Identifier: BSD-2-Clause-Patent
"""Compares an image that is open at every level with the truth of tests/fuzz/truths.py. silent.py describes the
checks."""

from __future__ import annotations

import functools
from collections.abc import Iterator, Sequence
from dataclasses import dataclass

import fv
from tests.fuzz.survey import rows_of
from tests.fuzz.truths import ANY, COVERED, CUT, PARTS, STORED, TE, Item, Truth, digest_of, starts_in
from tests.making import COMPRESSION, GUIDED, PE32
from tests.survey_laws.laws import Trial, breaches
from tests.survey_laws.rows import LEAVES, Row, Survey

# The findings of a volume, of a file and of a section after which their ends, or what they contain, are in doubt.
DOUBT = {"volume": {1, 3, 5, 7, 8, 9}, "file": {10, 11, 12, 13, 14}}
SHUT = ("damaged", "wrong CRC32", "packed in an unknown way")
PACKED, DRIVERS = (COMPRESSION, GUIDED), (PE32, TE)
# Ranges whose rows are not compared: what is in a section may have been read as another section.
IN_SECTIONS = ("section-header", "body", "packed", "filler")
CHECKS = ("levels", "contents", "drivers", "silence", "ranges")


def overlap(one: Item, other: Item) -> bool:
    """Returns whether two items of one source have bytes in common."""
    return one.path[:-1] == other.path[:-1] and one.path[-1] < other.end and other.path[-1] < one.end


def is_in_doubt(row: Row) -> bool:
    """Returns whether a row says that what it contains may not be all that there is."""
    return row.kind == "lost" or bool(row.findings & DOUBT.get(row.kind, set(range(32))))


@dataclass(frozen=True)
class Level:
    """A source: the offsets of the packed sections around it, its bytes, its rows, and the offsets of its packed
    sections that are opened and of those that are closed."""

    path: tuple[int, ...]
    data: bytes
    rows: tuple[Row, ...]
    opened: tuple[int, ...] = ()
    closed: tuple[int, ...] = ()

    @functools.cached_property
    def bodies(self) -> dict[int, bytes]:
        """The bodies of the sections of drivers, by the offsets of the sections."""
        pairs = (it for it in zip(self.rows, self.rows[1:]) if it[0].kind == "section" and it[0].code in DRIVERS)
        return {row.offset: self.data[head.end : row.end] for row, head in pairs}

    @functools.cached_property
    def leaves(self) -> list[Row]:
        """The leaf rows."""
        return [it for it in self.rows if it.kind in LEAVES]


def levels_of(image: bytes) -> list[Level]:
    """Opens an image at every level."""
    found, paths = fv.image_open(image), list[tuple[int, ...]]()
    for source in found.sources:
        packed = source.packed
        paths.append((*paths[packed.source], packed.offset) if packed else ())
    levels = list[Level]()
    for number, (source, path) in enumerate(zip(found.sources, paths)):
        opened = (it.packed.offset for it in found.sources if it.packed and it.packed.source == number)
        closed = (it.offset for it in found.closed if it.source == number)
        levels.append(Level(path, bytes(source.bytes), tuple(rows_of(source.rows)), tuple(opened), tuple(closed)))
    return levels


class Judge:
    """Compares the levels of an image with its truth."""

    def __init__(self, truth: Truth, levels: Sequence[Level]) -> None:
        self.truth, self.levels = truth, {it.path: it for it in levels}
        self.packed = {it.path: it for it in truth.items if it.what == "packed section"}
        outer = (it for it in truth.items if it.what in ("volume", "file"))
        self.outer = sorted(outer, key=lambda it: -it.length)
        self.missing = [it for it in truth.items if it.what == "missing"]

    def around(self, item: Item) -> Iterator[Item]:
        """Yields the volumes and files that were made around an item in its source."""
        for it in self.outer:
            if starts_in(item, it):
                yield it

    def is_doubted(self, item: Item) -> bool:
        """Returns whether something says that an item may be missing from its source: rows over its bytes, or rows over
        the start of a volume or a file that was made around it. If the item is lost, the rows may be anywhere in the
        volume."""
        level, around = self.levels[item.path[:-1]], list(self.around(item))
        places = [(item.path[-1], item.end), *((it.path[-1], it.path[-1] + 1) for it in around)]
        if item.lost:
            places += [(it.path[-1], it.end) for it in around if it.what == "volume"][-1:]
        doubts = [it for it in level.rows if is_in_doubt(it)]
        return any(row.offset < end and start < row.end for row in doubts for start, end in places)

    def is_said(self, item: Item) -> bool:
        """Returns whether something says that an item is missing."""
        seen = self.seen(item)
        return seen.path[-1] in self.levels[seen.path[:-1]].closed or self.is_doubted(seen) or self.is_replaced(seen)

    def seen(self, item: Item) -> Item:
        """Returns an item, or the packed section around it whose source is there."""
        while item.path[:-1] not in self.levels:
            item = self.packed[item.path[:-1]]
        return item

    def is_replaced(self, item: Item) -> bool:
        """Returns whether other bytes are in the place of a part that is cut off, so that no reader can miss it: all
        its bytes are others, or the section is there, and its last bytes are others."""
        level, at = self.levels[item.path[:-1]], item.path[-1]
        is_gone = any(starts_in(item, it) for it in self.missing) and at < len(level.data)
        return item.lost == CUT and (is_gone or at in level.bodies or at in level.opened)

    def is_found(self, item: Item) -> bool:
        """Returns whether a driver or the contents of a packed section are found."""
        if item.what == "driver":
            level = self.levels.get(item.path[:-1])
            return level is not None and digest_of(level.bodies.get(item.path[-1], b"")) == item.digest
        return item.path in self.levels and digest_of(self.levels[item.path].data) == item.digest

    def is_hidden(self, item: Item) -> bool:
        """Returns whether a range has been covered by a volume that is cut off."""
        parts = [item, *self.around(item)]
        return any(overlap(it, item) or starts_in(part, it) for it in self.missing for part in parts)

    def check_levels(self) -> Iterator[str]:
        """Yields where the rows of a source do not tile it, and packed sections that are not opened or closed once."""
        for level in self.levels.values():
            trial = Trial(level.data, Survey(level.rows), lambda _: None)
            yield from (f"{law} of {level.path}: {it}" for law in ("tiling", "nesting") for it in breaches(law, trial))
            wanted, end = list[int](), 0
            for row in (it for it in level.rows if it.kind == "section" and it.code in PACKED):
                if row.offset >= end:  # what lies in an opened section is opened in its contents
                    wanted.append(row.offset)
                    end = row.end if row.offset in level.opened else end
            if sorted(level.opened + level.closed) != wanted:
                yield f"packed sections of {level.path}: {wanted}, opened {level.opened}, closed {level.closed}"
            missing = [it for it in level.opened if (*level.path, it) not in self.levels]
            if missing or level.path and level.path[-1] not in self.levels[level.path[:-1]].opened:
                yield f"the contents of {missing} in {level.path} are not there"

    def check_contents(self) -> Iterator[str]:
        """Yields packed sections whose contents are not the packed ones."""
        for item in self.packed.values():
            is_wrong = item.path in self.levels and (item.lost in SHUT or not self.is_found(item))
            if is_wrong and not self.is_doubted(item) and not self.is_replaced(item):
                yield f"other contents of {item}: {self.levels[item.path].data[:40].hex()}"

    def check_drivers(self) -> Iterator[str]:
        """Yields drivers that are not lost, and are not found."""
        for item in self.truth.items:
            if item.what == "driver" and not item.lost and not self.is_found(item):
                yield f"not found: {item}"

    def check_silence(self) -> Iterator[str]:
        """Yields what is not found in silence. (A volume that is covered by another has no row.)"""
        for item in self.truth.items:
            if item.digest and item.lost != COVERED and not self.is_found(item) and not self.is_said(item):
                yield f"missing in silence: {item}"

    def check_ranges(self) -> Iterator[str]:
        """Yields ranges that are in rows of another kind."""
        for item in self.truth.items:
            if item.what in (*PARTS, *IN_SECTIONS, ANY, STORED) or item.path[:-1] not in self.levels:
                continue
            if self.is_hidden(item):
                continue
            rows = [it for it in self.levels[item.path[:-1]].leaves if it.offset < item.end and it.end > item.path[-1]]
            if not {it.kind for it in rows} <= {item.what, "unread"} and not self.is_doubted(item):
                yield f"in rows {[(it.kind, it.offset, it.length) for it in rows]}: {item}"

    def wrong(self, check: str) -> list[str]:
        """Returns what is wrong by a check."""
        found: Iterator[str] = getattr(self, f"check_{check}")()
        return list(found)
