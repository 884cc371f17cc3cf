# SPDX-License-Identifier: BSD-2-Clause-Patent
"""The rows of a survey, and the text of `fvtool survey`, from which they are read."""

from __future__ import annotations

import re
import uuid
from collections.abc import Sequence
from dataclasses import dataclass, field

# The kinds of rows that contain rows, and the kinds of leaf rows in the order of the last line of the text.
OUTER = ("volume", "file", "section", "lost")
LEAVES = (
    "volume-header", "ext-header", "file-header", "section-header", "data", "body", "packed", "pad", "pad-data",
    "deleted", "unfinished", "free", "filler", "between", "gap", "store", "unread",
)  # fmt: skip
# The kinds of leaf rows with bytes without a structure.
SEARCHED = frozenset(("data", "body", "packed", "pad-data", "deleted", "between", "gap", "store", "unread"))
FIXED = 15
ROW = re.compile(
    r"(?P<indent>(?:  )*)(?P<kind>[a-z-]+) at (?P<offset>\d+) length (?P<length>\d+)"
    r"(?: system (?P<system>[0-9a-f-]{36})(?P<found> found)?)?"
    r"(?: (?P<name>[0-9a-f-]{36}))?(?: type (?P<code>[0-9a-f]{2}))?(?: finding (?P<findings>\d+(?:,\d+)*))?"
)
SUMS = re.compile(r"sums((?: [a-z-]+ \d+)*) all (\d+) findings (\d+) fixed (\d+)")


@dataclass(frozen=True)
class Row:
    """A row of a survey. `name` is the name of a file or the file system of a volume, as stored, `code` the type of a
    file or a section, and `findings` has the numbers of its faults."""

    kind: str
    offset: int
    length: int
    depth: int
    code: int | None = None
    name: bytes | None = None
    found: bool = False
    findings: frozenset[int] = frozenset()

    @property
    def end(self) -> int:
        """The offset after the last byte."""
        return self.offset + self.length


@dataclass(frozen=True)
class Totals:
    """The last line: the bytes of each kind of leaf rows, all bytes, the rows with a finding other than FIXED, and the
    rows with only that finding."""

    kinds: tuple[tuple[str, int], ...]
    length: int
    findings: int
    fixed: int


@dataclass(frozen=True)
class Survey:
    """The rows of a survey in order, and, if they come from the program, its last line and its exit status."""

    rows: tuple[Row, ...]
    totals: Totals | None = None
    status: int | None = None


@dataclass
class Tree:
    """A row with the rows in it. `outer` is the row around it."""

    row: Row
    outer: Tree | None
    inner: list[Tree] = field(default_factory=list)

    def around(self) -> list[Row]:
        """Returns the rows around the row, from the innermost one on."""
        found, outer = list[Row](), self.outer
        while outer:
            found.append(outer.row)
            outer = outer.outer
        return found


class NotRows(ValueError):
    """A text that is not the text of a survey, or rows that do not nest."""


def row_of(line: str) -> Row:
    """Returns the row of a line."""
    found = ROW.fullmatch(line)
    if not found:
        raise NotRows(f"not a row: {line[:200]!r}")
    kind, name, code = found["kind"], found["system"] or found["name"], found["code"]
    has = found["system"] is not None, found["name"] is not None, code is not None
    wanted = {"volume": (True, False, False), "file": (False, True, True), "section": (False, False, True)}
    if has != wanted.get(kind, (False, False, False)) or kind not in OUTER + LEAVES:
        raise NotRows(f"not a row of its kind: {line[:200]!r}")
    numbers = [int(it) for it in found["findings"].split(",")] if found["findings"] else []
    if numbers != sorted({*numbers}):
        raise NotRows(f"findings out of order: {line[:200]!r}")
    return Row(
        kind,
        int(found["offset"]),
        int(found["length"]),
        len(found["indent"]) // 2,
        int(code, 16) if code else None,
        uuid.UUID(name).bytes_le if name else None,
        found["found"] is not None,
        frozenset(numbers),
    )


def survey_of(text: str, status: int) -> Survey:
    """Returns the survey that the program has written, and its exit status."""
    *lines, last = text.removesuffix("\n").split("\n")
    found = SUMS.fullmatch(last)
    if not text.endswith("\n") or not found:
        raise NotRows(f"no last line: {text[-200:]!r}")
    words = found[1].split()
    kinds = tuple(zip(words[::2], map(int, words[1::2])))
    return Survey(tuple(map(row_of, lines)), Totals(kinds, int(found[2]), int(found[3]), int(found[4])), status)


def trees_of(rows: Sequence[Row]) -> list[Tree]:
    """Returns the rows as trees: the outer row of a row is the last row before it that is less deep."""
    top, open_rows = list[Tree](), list[Tree]()
    for row in rows:
        while open_rows and open_rows[-1].row.depth >= row.depth:
            open_rows.pop()
        outer = open_rows[-1] if open_rows else None
        tree = Tree(row, outer)
        if row.depth != (outer.row.depth + 1 if outer else 0):
            raise NotRows(f"a row that is too deep: {row}")
        (outer.inner if outer else top).append(tree)
        open_rows.append(tree)
    return top


def totals_of(rows: Sequence[Row]) -> Totals:
    """Returns what the last line should say of the rows."""
    sums = {kind: sum(it.length for it in rows if it.kind == kind) for kind in LEAVES}
    others = sum(bool(it.findings - {FIXED}) for it in rows)
    fixed = sum(it.findings == {FIXED} for it in rows)
    return Totals(tuple(it for it in sums.items() if it[1]), sum(sums.values()), others, fixed)


def status_of(rows: Sequence[Row]) -> int:
    """Returns the exit status that the rows should give: 1 if a row is unread or has a finding other than FIXED."""
    return int(any(it.kind == "unread" or it.findings - {FIXED} for it in rows))
