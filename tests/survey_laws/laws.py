# SPDX-License-Identifier: BSD-2-Clause-Patent
"""The laws of a survey: each function yields a text for each place at which the rows of a survey break its law."""

from __future__ import annotations

from collections.abc import Callable, Iterable, Iterator, Sequence
from dataclasses import dataclass, field
from functools import cached_property

from tests.survey_laws.rows import LEAVES, OUTER, SEARCHED, NotRows, Row, Survey, Tree
from tests.survey_laws.rows import status_of, totals_of, trees_of
from tests.survey_laws.volumes import FFS2, FFS3, LEVELS, PAD_FILE, STORE, Volume
from tests.survey_laws.volumes import is_opened, may_begin, section_size, starts_in, up_to

NO_FINDINGS = frozenset[int]()
DEEP = frozenset((21,))
# The kind of the first row in a row that contains others.
FIRST = {"volume": ("volume-header",), "file": ("file-header",), "section": ("section-header",), "lost": ("unread", "volume")}


@dataclass(frozen=True)
class Part:
    """A volume, a file or a section that a strict reading finds: its place in the volume with its header, in whole
    words for a file, its type, and the name of a file."""

    kind: str
    offset: int
    length: int
    code: int | None = None
    name: bytes | None = None


@dataclass(frozen=True)
class Strict:
    """What a strict reading finds in a volume: the kinds and the places of its cells, in whole words, and all its
    parts in preorder."""

    cells: tuple[Part, ...]
    parts: tuple[Part, ...]


# Returns what a strict reading finds in a volume, or None if it rejects the volume.
StrictReading = Callable[[bytes], Strict | None]


@dataclass(frozen=True)
class Trial:
    """An image, its survey, and the strict reading that the survey is compared with."""

    image: bytes
    survey: Survey
    strict: StrictReading
    known: dict[bytes, Strict | None] = field(default_factory=dict)
    volumes: dict[int, Volume] = field(default_factory=dict)

    @property
    def rows(self) -> Sequence[Row]:
        """The rows of the survey."""
        return self.survey.rows

    @cached_property
    def trees(self) -> list[Tree]:
        """The rows as trees. Raises NotRows if they do not nest."""
        return trees_of(self.rows)

    def every(self) -> Iterator[Tree]:
        """Yields each row with the rows in it."""
        waiting = self.trees[::-1]
        while waiting:
            tree = waiting.pop()
            yield tree
            waiting += tree.inner[::-1]

    def volume(self, tree: Tree) -> Volume:
        """Returns the volume of a row."""
        return self.volumes.setdefault(id(tree), Volume(self.image, tree))

    def read(self, data: bytes) -> Strict | None:
        """Returns what the strict reading finds in a volume."""
        if data not in self.known:
            self.known[data] = self.strict(data)
        return self.known[data]


def shown(row: Row) -> str:
    """Returns a text for a row."""
    findings = f" finding {','.join(map(str, sorted(row.findings)))}" if row.findings else ""
    return f"{row.kind} at {row.offset} length {row.length}{findings}"


# Tiling and nesting


def tiling(trial: Trial) -> Iterator[str]:
    """The leaf rows lie one after another from the first byte to the last, and there are at most two rows for each
    byte."""
    at = 0
    for row in trial.rows:
        if row.length <= 0:
            yield f"an empty row: {shown(row)}"
        if row.kind in LEAVES:
            if row.offset != at:
                yield f"a leaf row that does not begin at {at}: {shown(row)}"
                return
            at = row.end
    if at != len(trial.image):
        yield f"the leaf rows end at {at} of {len(trial.image)}"
    if len(trial.rows) > 2 * len(trial.image):
        yield f"{len(trial.rows)} rows"


def tiles(inner: Sequence[Tree], offset: int, end: int) -> bool:
    """Returns whether some rows lie one after another between two offsets."""
    for tree in inner:
        if tree.row.offset != offset:
            return False
        offset = tree.row.end
    return offset == end


def nesting(trial: Trial) -> Iterator[str]:
    """The rows in a row lie one after another from its first byte to its end, and are one deeper. A row begins with its
    header, and only volumes, files, sections and lost rows contain rows."""
    if not tiles(trial.trees, 0, len(trial.image)):
        yield "the outermost rows do not tile the image"
    for tree in trial.every():
        row = tree.row
        if (row.kind in OUTER) != bool(tree.inner):
            yield f"{len(tree.inner)} rows in {shown(row)}"
        elif tree.inner and not tiles(tree.inner, row.offset, row.end):
            yield f"the rows do not tile {shown(row)}"
        elif tree.inner and tree.inner[0].row.kind not in FIRST[row.kind]:
            yield f"another first row in {shown(row)}"
        if row.found and row.kind != "volume":
            yield f"found: {shown(row)}"


# Honesty


def found_around(around: Iterable[Row]) -> int:
    """Returns how many of the rows were found by their signatures."""
    return sum(it.found for it in around)


def opened_around(around: Iterable[Row]) -> int:
    """Returns how many sections there are up to the innermost volume that was found."""
    count = 0
    for row in around:
        if row.found:
            break
        count += row.kind == "section"
    return count


def section_body(trial: Trial, tree: Tree) -> bytes:
    """Returns the body of a section."""
    return trial.image[tree.inner[0].row.end : tree.row.end]


def is_too_deep(trial: Trial, tree: Tree) -> bool:
    """Returns whether a section would be opened, and lies too deep."""
    opens = is_opened(tree.row.code or 0, section_body(trial, tree))
    return opens and opened_around(tree.around()) == LEVELS


def stream_end(trial: Trial, outer: Tree) -> int:
    """Returns where the sections in a row end."""
    if outer.row.kind == "file" and outer.outer:
        return outer.row.offset + trial.volume(outer.outer).file(outer).data_end
    return outer.row.end


def lost_findings(trial: Trial, tree: Tree) -> frozenset[int]:
    """Returns the findings that lost bytes should have by the row around them."""
    row, outer = tree.row, tree.outer
    if outer is None or outer.row.kind not in ("volume", "file", "section"):
        return frozenset((0,))
    if outer.row.kind == "volume":
        volume = trial.volume(outer)
        at = row.offset - outer.row.offset
        if not volume.has_cells:
            return frozenset((3,) if at == volume.first and row.end == outer.row.end else (0,))
        if at == volume.cells_end:
            return frozenset((8,) if row.end == outer.row.end else (0,))
        fault = volume.strict_fault(at)
        return frozenset((fault or 0,))
    if outer.row.kind == "section" and is_too_deep(trial, outer):
        is_body = row.offset == outer.inner[0].row.end and row.end == outer.row.end
        return DEEP if is_body else frozenset((0,))
    if row.end != stream_end(trial, outer) or section_size(trial.image[row.offset : row.end]):
        return frozenset((0,))
    return frozenset((20 if row.length < 4 else 19,))


def section_findings(trial: Trial, tree: Tree) -> frozenset[int]:
    """Returns the findings that a section should have: it follows another directly at a wrong place, or is too deep."""
    inner = tree.outer.inner if tree.outer else []
    number_of = next(number for number, it in enumerate(inner) if it is tree)
    before = inner[number_of - 1].row if number_of else None
    is_odd = before is not None and before.kind == "section" and before.length % 4 != 0
    return frozenset((19,) * is_odd + (21,) * is_too_deep(trial, tree))


def wanted_findings(trial: Trial, tree: Tree) -> frozenset[int]:
    """Returns the findings that a row should have. 0 stands for a row that has no reason to be there."""
    row, outer = tree.row, tree.outer
    if row.kind == "volume":
        volume = trial.volume(tree)
        return frozenset(volume.header_findings() | volume.name_findings())
    if row.kind == "section":
        return section_findings(trial, tree)
    if row.kind == "lost":
        return lost_findings(trial, tree)
    if row.kind == "unread":
        if outer is not None and outer.row.kind == "lost" and 21 not in row.findings:
            return NO_FINDINGS
        is_deep = may_begin(trial.image[row.offset : row.end]) and found_around(tree.around()) == LEVELS
        return DEEP if is_deep else frozenset((0,))
    if row.kind in ("file", "unfinished", "free"):
        if outer is None or outer.row.kind != "volume":
            return frozenset((0,))
        volume = trial.volume(outer)
        if row.kind == "file":
            return frozenset(volume.file(tree).findings())
        at, fault = row.offset - outer.row.offset, volume.strict_fault(row.offset - outer.row.offset)
        if row.kind == "free" and fault == 16 and row.length % 8 == 0:
            return frozenset((16,))
        is_right = fault is None and (row.kind != "free" or at + row.length == volume.cells_end)
        return NO_FINDINGS if is_right else frozenset((0,))
    return NO_FINDINGS


def wrong_fields(trial: Trial, tree: Tree) -> Iterator[str]:
    """Yields what a row says of a part that the bytes at the row do not say: lengths, types and names."""
    row, outer = tree.row, tree.outer
    if row.kind == "volume":
        volume = trial.volume(tree)
        if (row.name, tree.inner[0].row.length) != (volume.system, volume.header):
            yield f"another header of {shown(row)}"
    elif row.kind == "file" and outer:
        file = trial.volume(outer).file(tree)
        says = row.name, row.code, tree.inner[0].row.length, row.length
        if says != (file.name, file.kind, file.header, up_to(file.size, 8)):
            yield f"another header of {shown(row)}"
        if bool(row.findings) != (file.volume.strict_fault(file.at) is not None):
            yield f"the strict cell says otherwise of {shown(row)}"
    elif row.kind == "section":
        data = trial.image[row.offset : row.end]
        if section_size(data) != (tree.inner[0].row.length, row.length) or row.code != data[3]:
            yield f"another header of {shown(row)}"
    elif row.kind in ("pad", "free"):
        holder = outer if row.kind == "free" else outer and outer.outer
        erased = trial.volume(holder).erased if holder else 0xFF
        if trial.image[row.offset : row.end].strip(bytes([erased])):
            yield f"not erased: {shown(row)}"


def honesty(trial: Trial) -> Iterator[str]:
    """Each row has exactly the findings whose condition holds in the bytes at the row, and says of its part what these
    bytes say. Bytes are lost or unread only for a reason."""
    for tree in trial.every():
        wanted = wanted_findings(trial, tree)
        if tree.row.findings != wanted:
            yield f"the findings should be {sorted(wanted)} at depth {tree.row.depth}: {shown(tree.row)}"
        yield from wrong_fields(trial, tree)


# Nothing is passed over


def runs(inner: Sequence[Tree]) -> Iterator[list[Row]]:
    """Yields the rows of each longest run of bytes without a structure and of volumes that were found in them."""
    run: list[Row] = []
    for row in (it.row for it in inner):
        if row.kind in SEARCHED or row.found:
            run.append(row)
        elif run:
            yield run
            run = []
    if run:
        yield run


def passing(trial: Trial) -> Iterator[str]:
    """In bytes without a structure, each place where a volume may begin is the start of a volume, or lies in one, or in
    bytes that are unread because volumes nest too deep. A volume that was found begins where one may begin."""
    for inner in (trial.trees, *(it.inner for it in trial.every() if it.inner)):
        for run in runs(inner):
            last = run[-1].end
            for row in run:
                if row.found and not may_begin(trial.image[row.offset : last]):
                    yield f"no volume may begin there: {shown(row)}"
                if not row.found and 21 not in row.findings:
                    for at in starts_in(trial.image, row.offset, row.end, last):
                        yield f"a volume at {at} is passed over in {shown(row)}"


# Agreement


def own_rows(trial: Trial, tree: Tree) -> Iterator[Tree]:
    """Yields a volume and the rows that its own structure gives: not the volumes that were found in it, and not the
    data of its superseded files."""
    yield tree
    kept = trial.volume(tree).replaced if tree.row.kind == "volume" else ()
    for inner in tree.inner:
        if id(inner) in kept:
            yield Tree(inner.row, inner.outer)
        elif not inner.row.found:
            yield from own_rows(trial, inner)


def parts_of(trial: Trial, own: Iterable[Tree], start: int) -> tuple[Part, ...]:
    """Returns the parts of a volume at an offset as a strict reading finds them, from its own rows."""
    found = list[Part]()
    for tree in own:
        row, outer = tree.row, tree.outer
        if row.kind == "file":
            is_read = bool(tree.inner) and outer is not None and row.code != PAD_FILE
            if is_read and outer and trial.volume(outer).file(tree).is_alive:
                found.append(Part("file", row.offset - start, row.length, row.code, row.name))
        elif row.kind in ("volume", "section"):
            found.append(Part(row.kind, row.offset - start, row.length, row.code))
    return tuple(found)


def cells_of(volume: Volume) -> tuple[Part, ...]:
    """Returns the cells of a volume from the rows."""
    found = list[Part]()
    for tree in volume.tree.inner:
        row, kind = tree.row, tree.row.kind
        if kind not in ("file", "unfinished", "free"):
            continue
        if kind == "file":
            file = volume.file(tree)
            kind = ("pad" if file.kind == PAD_FILE else "file") if file.is_alive else "dead"
        found.append(Part("dead" if kind == "unfinished" else kind, row.offset - volume.row.offset, row.length))
    return tuple(found)


def agreement(trial: Trial) -> Iterator[str]:
    """A strict reading accepts a volume exactly if none of the rows that its own structure gives has a finding, and then
    finds the same cells and sections at the same places. The strict reading of a volume by itself does not see whether
    the volume, or bytes in it that are unread, lie too deep."""
    for tree in trial.every():
        if tree.row.kind != "volume" or tree.row.name == STORE:
            continue
        volume = trial.volume(tree)
        own = list(own_rows(trial, tree))
        findings = {number for it in own if it.row.kind != "unread" for number in it.row.findings}
        strict = trial.read(volume.data) if volume.system in (FFS2, FFS3) else None
        if not tree.row.found and findings == DEEP:
            continue
        if (strict is not None) != (not findings):
            yield f"a strict reading {'accepts' if strict else 'rejects'} {shown(tree.row)}, findings {sorted(findings)}"
        elif strict and strict.cells != cells_of(volume):
            yield f"other cells of {shown(tree.row)}: {strict.cells} {cells_of(volume)}"
        elif strict and strict.parts != (parts := parts_of(trial, own, tree.row.offset)):
            yield f"other parts of {shown(tree.row)}: {strict.parts} {parts}"


# The text of the program


def sums(trial: Trial) -> Iterator[str]:
    """The last line has the number of bytes of each kind and of the image, and the numbers of rows with findings."""
    wanted, told = totals_of(trial.rows), trial.survey.totals
    if told is not None and (told != wanted or told.length != len(trial.image)):
        yield f"the last line should be {wanted}: {told}"


def status(trial: Trial) -> Iterator[str]:
    """The exit status is 0 exactly if no row is unread and none has a finding other than 15, and otherwise 1."""
    if trial.survey.status not in (None, status_of(trial.rows)):
        yield f"the status should be {status_of(trial.rows)}: {trial.survey.status}"


LAWS: dict[str, Callable[[Trial], Iterator[str]]] = {
    "tiling": tiling,
    "nesting": nesting,
    "honesty": honesty,
    "passing": passing,
    "agreement": agreement,
    "sums": sums,
    "status": status,
}


def breaches(law: str, trial: Trial) -> list[str]:
    """Returns the places at which a survey breaks a law."""
    try:
        return list(LAWS[law](trial))
    except NotRows as error:
        return [str(error)]
    except (IndexError, KeyError) as error:  # a part of a row is not there
        return [f"{law} cannot be judged: {error!r}"]


def broken(trial: Trial) -> list[str]:
    """Returns the places at which a survey breaks laws, each with the name of the law. Without tiling and nesting, no
    other law is looked at."""
    first = [f"{law}: {it}" for law in ("tiling", "nesting") for it in breaches(law, trial)]
    return first or [f"{law}: {it}" for law in list(LAWS)[2:] for it in breaches(law, trial)]
