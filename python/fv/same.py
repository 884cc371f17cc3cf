# SPDX-License-Identifier: BSD-2-Clause-Patent
"""Reports whether two firmware volumes or two flash images mean the same, and which files differ.

Equal bytes always mean the same. Two flash images mean the same if each volume means the same as the volume at its
place in the other image, and all other bytes are equal. A volume with fixed files is compared without their marks; if
only marks differ, it is different too. A rejected volume has no meaning: its bytes are compared, and its line has the
fault. With --open, sections that differ are opened if they are compressed, so the drivers in them are named. A file
name that begins with a hyphen comes after `--`.

Each volume that differs or is rejected has a line, and after it each of its files: `changed`, `only in the first` or
`only in the second`, the GUIDs of the files around it and its own GUID, and its name. A name in quotes is the text of
its user interface section, and a name in parentheses is EDK II's name for its GUID. If a volume is at another place in
the second input, a line says from where to where it moved.

These bytes of a volume are outside of its meaning, so they may differ in inputs that are the same: pads; deleted,
superseded and unfinished files; the fillers after files; the gaps between sections and around an extended header; the
states and the places of files. So `same` does not say that the bytes are equal, or that nothing is hidden in a pad. If
pads, fillers, or deleted, superseded or unfinished files hold other bytes, a line says so, with the place. It does not
change the verdict.

With --json the output is an object: `verdict`; `fault`, why the inputs were not compared, or null; `is_other_layout`,
whether the two have volumes at different offsets or of different lengths; `other_bytes`, the offset of the first byte
outside of volumes that differs, or null; `volumes`, each with its offsets, length, verdict, name, `difference` as
`fvtool compare` writes it, faults, how many files are fixed on each side, and the files that differ; `moved`, the
offsets and the length of each volume that is at another place; and `outside_meaning`, the bytes outside of the meaning
that differ: what they are, the verdict, the offsets of their volume, the first byte that differs, and the files and
sections around the volume.

Exit status 0: `same`. 1: `different`, with a line for each part that differs. 2: `rejected`, since a volume is rejected
and its bytes differ; or the inputs were not compared, since one cannot be read (`fault 25 at 0`), has more than 1 GiB
or 100,000 parts (`not compared: more than ..`), or memory ran out (`fault 24 at 0`). 3: the arguments are wrong. 4: the
library libfv cannot be used, or the output cannot be written."""

from __future__ import annotations

import argparse
import contextlib
import hashlib
import json
from collections import Counter, defaultdict, deque
from collections.abc import Callable, Iterable, Iterator, Sequence
from dataclasses import asdict, dataclass, field
from itertools import zip_longest
from typing import Any

from . import cli
from ._calls import volume_compare, volume_digest
from ._errors import FaultError
from ._model import REMAINS, Content, File, Opened, Section, Unread, Volume, between, leaves, places_of
from .images import read
from .limits import Full, Limits
from .names import SECURITY_CORE, Names
from .shown import indented, printable, quoted

NAME = "fv-same"
SAME, DIFFERENT, REJECTED = "same", "different", "rejected"
ONLY_FIRST, ONLY_SECOND = "only in the first", "only in the second"
EQUAL_BYTES, OTHER_BYTES = "equal bytes", "bytes differ"
NOT_OPENED = "not opened"
OUTSIDE = [*(what for what, _ in REMAINS.values()), "filler"]  # bytes that are not read, outside of the meaning
MOST_ASIDES = 20  # lines about bytes outside of the meaning
STATUS = {SAME: cli.DONE, DIFFERENT: cli.OTHER, REJECTED: cli.REJECTED}


@dataclass
class Change:
    """A file that only one of two volumes contains, or that has changed: the GUIDs of the files around it and its own
    GUID, its readable name, the known name of its GUID, the types of its sections that differ, and the sections that
    were opened in it."""

    change: str
    guids: list[str]
    name: str = ""
    known: str = ""
    sections: list[str] = field(default_factory=list)
    opened: list[Inside] = field(default_factory=list)


@dataclass
class Pair:
    """Two volumes and their differences, or a volume that only one of the inputs contains. For rejected volumes it has
    the faults, and the offset in the first input of the first byte that differs. Offsets count from the first byte of
    the input, or of the contents of a section. `fixed` is how many files of each side are marked fixed."""

    offset: int
    other_offset: int
    length: int
    verdict: str
    name: str = ""
    difference: str | None = None
    faults: list[str] = field(default_factory=list)
    first_byte: int | None = None
    fixed: list[int] = field(default_factory=list)
    files: list[Change] = field(default_factory=list)
    is_other_order: bool = False


@dataclass
class Inside:
    """The differences in the contents of two opened sections, or the reason why one was not opened."""

    how: str
    verdict: str
    reason: str | None = None
    sections: list[str] = field(default_factory=list)
    volumes: list[Pair] = field(default_factory=list)
    opened: list[Inside] = field(default_factory=list)


@dataclass
class Move:
    """A volume with the same meaning at another place: its offsets in the two inputs."""

    offset: int
    other_offset: int
    length: int


@dataclass
class Aside:
    """Bytes that are outside of the meaning of two volumes: what they are; whether they differ, or only one volume has
    them; the offsets of the volumes; and the offset of the first byte that differs, in the second input if only that
    has them. `within` are the files and the opened sections around the volumes."""

    what: str
    verdict: str
    offset: int
    other_offset: int
    first_byte: int
    within: list[str]


@dataclass
class Report:
    """The result for two inputs. `other_bytes` is the offset of the first byte outside of volumes that differs."""

    verdict: str = SAME
    fault: str | None = None
    is_other_layout: bool = False
    volumes: list[Pair] = field(default_factory=list)
    other_bytes: int | None = None
    moved: list[Move] = field(default_factory=list)
    outside_meaning: list[Aside] = field(default_factory=list)


def compare_images(
    first: bytes,
    second: bytes,
    is_open: bool = False,
    limits: Limits = Limits(),
    note: Callable[[int], None] = lambda number: None,
) -> Report:
    """Returns the differences between two images. `note` takes the number of an image that has no volume. Raises Full
    if one of them exceeds a limit."""
    if first == second:
        return Report()
    images = read(first, limits, is_open), read(second, limits, is_open)
    for number, image in enumerate(images):
        if not image.headed:
            note(number)
    return Comparison(is_open, Names()).report(*images)


class Comparison:
    """A comparison of two images, which goes into opened sections where two files differ."""

    def __init__(self, is_open: bool, names: Names) -> None:
        self._is_open = is_open
        self._names = names
        self._asides: list[Aside] = []
        self._within: list[str] = []  # the files and the opened sections around the volumes that are compared now

    def report(self, first: Content, second: Content) -> Report:
        """Returns the differences between the two images."""
        old, new = ({it.offset: it for it in image.headed} for image in (first, second))
        report = Report(is_other_layout=[*places_of(first.headed)] != [*places_of(second.headed)])
        for at in sorted({*old, *new}):
            if at in old and at in new:
                report.volumes.append(self._pair(old[at], new[at]))
            else:
                verdict, volume = (ONLY_FIRST, old[at]) if at in old else (ONLY_SECOND, new[at])
                fixed = [len(volumes[at].fixed) if at in volumes else 0 for volumes in (old, new)]
                report.volumes.append(Pair(at, at, volume.length, verdict, fixed=fixed))
        if not report.is_other_layout:
            report.other_bytes = _other_bytes(first, second)
        alone = ([it for at, it in one.items() if at not in two] for one, two in ((old, new), (new, old)))
        report.moved = _moves(*alone)
        report.outside_meaning = self._asides
        report.verdict = _verdict(report)
        return report

    def _pair(self, old: Volume, new: Volume) -> Pair:
        """Returns the differences between two volumes."""
        pair = Pair(old.offset, new.offset, old.length, SAME, self._names.of(new.guid), faults=_faults(old, new))
        pair.fixed = [len(old.fixed), len(new.fixed)]
        if pair.faults:
            is_equal = old.body == new.body
            pair.verdict = EQUAL_BYTES if is_equal else OTHER_BYTES
            pair.first_byte = None if is_equal else old.offset + first_difference(old.body, new.body)
        elif difference := _difference(old, new):
            pair.verdict, pair.difference = DIFFERENT, difference
            pair.files = self._changes(old, new, [])
            pair.is_other_order = [it.guid for it in old.files] != [it.guid for it in new.files]
        if not pair.faults:
            self._note_asides(old, new)
        return pair

    def _note_asides(self, old: Volume, new: Volume) -> None:
        """Notes the bytes outside of the meaning that differ between two volumes, and between the volumes in their
        files. The contents of sections that were opened are compared as volumes of their own."""
        if old.body == new.body:
            return
        self._asides += _asides(old, new, list(self._within))
        files = {it.guid: it for it in new.files}
        for file in old.files:
            other = files.get(file.guid)
            with self._around(str(file.guid)):
                for one, two in zip(_volumes(file.sections), _volumes(other.sections if other else [])):
                    self._note_asides(one, two)

    @contextlib.contextmanager
    def _around(self, what: str) -> Iterator[None]:
        """Adds a file or an opened section around the volumes that the block compares."""
        self._within.append(what)
        try:
            yield
        finally:
            self._within.pop()

    def _changes(self, first: Volume, second: Volume, around: list[str]) -> list[Change]:
        """Returns the files that differ between two volumes."""
        old, new = ({file.guid: file for file in volume.files} for volume in (first, second))
        found = [self._change(ONLY_FIRST, file, around) for guid, file in old.items() if guid not in new]
        found += [self._change(ONLY_SECOND, file, around) for guid, file in new.items() if guid not in old]
        for guid, file in old.items():
            if guid in new:
                found += self._changed(file, new[guid], around)
        return found

    def _change(self, change: str, file: File, around: list[str]) -> Change:
        """Returns a file that differs."""
        return Change(change, [*around, str(file.guid)], file.name, self._names.of(file.guid))

    def _changed(self, old: File, new: File, around: list[str]) -> list[Change]:
        """Returns the differences between two files with one name. If only files inside differ, returns only these."""
        inner: list[Change] = []
        is_changed = _own(old) != _own(new)
        sections = _sections(old), _sections(new)
        for one, two in zip(*map(_volumes, sections)):
            if _difference(one, two):
                files = self._changes(one, two, [*around, str(new.guid)])
                is_changed = is_changed or not files
                inner += files
        if not is_changed:
            return inner
        with self._around(str(new.guid)):
            opened = self._opened(*sections) if self._is_open else []
        change = self._change("changed", new, around)
        change.sections, change.opened = _other_sections(*sections), opened
        return [change, *inner]

    def _opened(self, old: list[Section], new: list[Section]) -> list[Inside]:
        """Returns the differences in the sections that can be opened."""
        packed = ([it for it in leaves(sections) if it.is_packed] for sections in (old, new))
        return [self._section(one, two) for one, two in zip(*packed) if one.body != two.body]

    def _section(self, old: Section, new: Section) -> Inside:
        """Returns the differences between two packed sections."""
        if old.opened and new.opened:
            return self._inside(old.opened, new.opened)
        return Inside(old.type_name, NOT_OPENED, old.closed or new.closed)

    def _inside(self, old: Opened, new: Opened) -> Inside:
        """Returns the differences between the contents of two sections."""
        volumes = [[*_volumes(it.sections), *it.headed] for it in (old, new)]
        found = Inside(new.way.name, DIFFERENT, None, _other_sections(old.sections, new.sections))
        with self._around(new.way.name):
            pairs = [self._pair(one, two) for one, two in zip(*volumes)]
            found.volumes = [it for it in pairs if it.verdict not in (SAME, EQUAL_BYTES)]
            found.opened = self._opened(old.sections, new.sections)
        others = [[it.body for it in opened.others] for opened in (old, new)]
        is_like = len(volumes[0]) == len(volumes[1]) and others[0] == others[1]
        if is_like and not found.sections and not found.volumes:
            found.verdict = SAME
            found.how += f" in place of {old.way.name}" if old.way != new.way else ""
        return found


def first_difference(one: bytes, two: bytes) -> int:
    """Returns the offset of the first byte that differs."""
    low, high = 0, min(len(one), len(two))
    while low < high:
        middle = (low + high) // 2
        if one[low : middle + 1] == two[low : middle + 1]:
            low = middle + 1
        else:
            high = middle
    return low


def _moves(first: list[Volume], second: list[Volume]) -> list[Move]:
    """Returns the volumes of one image that mean the same as a volume at another place of the other image. Each volume
    is in one move."""
    left: defaultdict[Any, deque[Volume]] = defaultdict(deque)
    for volume in second:
        left[_meaning(volume)].append(volume)
    found = ((it, left[_meaning(it)]) for it in first)
    return [Move(it.offset, places.popleft().offset, it.length) for it, places in found if places]


def _meaning(volume: Volume) -> Any:
    """Returns a value that is equal for two volumes with the same meaning: the digest of the canonical image, and which
    files are fixed. For a rejected volume it is a digest of the bytes."""
    with contextlib.suppress(FaultError):
        if not volume.fault:
            return volume_digest(volume.plain), tuple(it.is_fixed for it in volume.files)
    return hashlib.sha256(volume.body).digest(), None


def _asides(old: Volume, new: Volume, within: list[str]) -> list[Aside]:
    """Returns the bytes outside of the meaning that differ between two volumes, wherever they lie in the volumes."""
    first, second = ([it for it in volume.unread if it.what in OUTSIDE] for volume in (old, new))
    left, right = _only_in(first, second), _only_in(second, first)
    found = []
    for what in OUTSIDE:
        for one, two in zip_longest(*([it for it in side if it.what == what] for side in (left, right))):
            if one and two:
                verdict, first_byte = DIFFERENT, one.offset + first_difference(one.body, two.body)
            else:
                verdict, first_byte = (ONLY_FIRST, one.offset) if one else (ONLY_SECOND, two.offset)
            found.append(Aside(what, verdict, old.offset, new.offset, first_byte, within))
    return found


def _only_in(one: list[Unread], two: list[Unread]) -> list[Unread]:
    """Returns the bytes of a list without the bytes of another list."""
    others = Counter((it.what, it.body) for it in two)
    found = []
    for it in one:
        if others[it.what, it.body] > 0:
            others[it.what, it.body] -= 1
        else:
            found.append(it)
    return found


def _verdict(report: Report) -> str:
    """Returns the verdict of a report."""
    verdicts = {it.verdict for it in report.volumes} - {SAME, EQUAL_BYTES}
    if OTHER_BYTES in verdicts:
        return REJECTED
    return DIFFERENT if verdicts or report.is_other_layout or report.other_bytes is not None else SAME


def _difference(old: Volume, new: Volume) -> str | None:
    """Returns where two volumes without the marks of fixed files first differ, as `fvtool compare` does. If only the
    marks of files differ, names the attributes of the first of these files. Returns None if nothing differs."""
    if old.body == new.body:
        return None
    marks = (f"different at {it} attributes" for it in _other_marks(old, new))
    return volume_compare(old.plain, new.plain) or next(marks, None)


def _other_marks(old: Volume, new: Volume) -> Iterator[str]:
    """Yields the steps down to each file that is marked fixed in only one of two volumes."""
    for number, (one, two) in enumerate(zip(old.files, new.files)):
        if one.is_fixed != two.is_fixed:
            yield f"file {number}"
        yield from (f"file {number} {it}" for it in _marks_under(one.sections, two.sections))


def _marks_under(old: list[Section], new: list[Section]) -> Iterator[str]:
    """Yields the steps down to each file in sections that is marked fixed on only one side."""
    for number, (one, two) in enumerate(zip(old, new)):
        found = _marks_under(one.sections, two.sections)
        if one.volume and two.volume:
            found = _other_marks(one.volume, two.volume)
        yield from (f"section {number} {it}" for it in found)


def _faults(old: Volume, new: Volume) -> list[str]:
    """Returns the faults of two volumes with their sides, as `fvtool compare` writes them; a fault of both once."""
    faults = [str(it.fault) if it.fault else "" for it in (old, new)]
    if faults[0] == faults[1]:
        return faults[:1] if faults[0] else []
    return [f"{side} {fault}" for side, fault in zip(("first", "second"), faults) if fault]


def _contents(sections: Iterable[Section]) -> list[Any]:
    """Returns a value that is equal for equal sections, whatever volumes they hold."""
    return [
        (it.kind, it.header_length, "" if it.volume else _contents(it.sections) if it.sections else it.body)
        for it in sections
    ]


def _sections(file: File) -> list[Section]:
    """Returns the sections that are a part of the meaning of a file. The meaning of a security core is its bytes."""
    return file.sections if file.kind != SECURITY_CORE else []


def _volumes(sections: Iterable[Section]) -> Iterator[Volume]:
    """Yields the volumes that are the bodies of sections."""
    return (it.volume for it in leaves(sections) if it.volume)


def _own(file: File) -> Any:
    """Returns a value that is equal for equal files, whatever volumes they hold."""
    sections = _sections(file)
    return file.kind, file.attributes, _contents(sections) if sections else file.body


def _other_sections(old: list[Section], new: list[Section]) -> list[str]:
    """Returns the types of the sections that differ, or that only one side has. Volumes in them are not compared."""
    both = list(leaves(old)), list(leaves(new))
    shared = min(map(len, both))
    kinds = [one.type_name for one, two in zip(*both) if _contents([one]) != _contents([two])]
    return list(dict.fromkeys(kinds + [it.type_name for sections in both for it in sections[shared:]]))


def _other_bytes(first: Content, second: Content) -> int | None:
    """Returns the offset of the first byte outside of volumes that differs. The two images have volumes at the same
    places."""
    for start, end in between(0, places_of(first.headed), max(len(first.data), len(second.data))):
        one, two = first.data[start:end], second.data[start:end]
        if one != two:
            return start + first_difference(one, two)
    return None


def report_lines(report: Report) -> Iterator[str]:
    """Yields the lines of a report."""
    if report.fault:
        yield report.fault
        return
    yield report.verdict
    if report.is_other_layout:
        yield "the volumes are at other places, or have other lengths"
    for pair in report.volumes:
        yield from _pair_lines(pair)
    for move in report.moved:
        yield f"moved from {move.offset} to {move.other_offset}: volume length {move.length}, the meaning is the same"
    if report.other_bytes is not None:
        yield f"other bytes differ, first at {report.other_bytes}"
    yield from map(_aside_line, report.outside_meaning[:MOST_ASIDES])
    if len(report.outside_meaning) > MOST_ASIDES:
        yield f"bytes outside the meaning differ at {len(report.outside_meaning) - MOST_ASIDES} more places"


def _aside_line(aside: Aside) -> str:
    """Returns the line about bytes outside of the meaning that differ."""
    article = "an" if aside.what[:1] in "aeiou" else "a"
    place = aside.other_offset if aside.verdict == ONLY_SECOND else aside.offset
    within = f" in {'/'.join(aside.within)}" if aside.within else ""
    where = "first" if aside.verdict == DIFFERENT else f"{aside.verdict},"
    what = f"{article} {aside.what} of the volume at {place}{within}, {where} at {aside.first_byte}"
    return f"bytes outside the meaning differ: {what}"


def _pair_lines(pair: Pair) -> Iterator[str]:
    """Yields the lines of a volume that differs or is rejected."""
    if pair.verdict == SAME:
        return
    if pair.verdict in (ONLY_FIRST, ONLY_SECOND):
        yield f"{pair.verdict}: volume at {pair.offset} length {pair.length}"
        return
    other = f" and at {pair.other_offset}" if pair.other_offset != pair.offset else ""
    name = f" ({pair.name})" if pair.name else ""
    first = [f"first at {pair.first_byte}"] if pair.first_byte is not None else []
    what = pair.difference or ", ".join([pair.verdict, *first, *pair.faults])
    yield f"volume at {pair.offset}{other}{name}: {what}"
    lines = [line for it in pair.files for line in _change_lines(it)]
    yield from indented(lines or (["the files are in another order"] if pair.is_other_order else []))


def _change_lines(change: Change) -> Iterator[str]:
    """Yields the lines of a file that differs."""
    name = f" {quoted(change.name)}" if change.name else f" ({change.known})" if change.known else ""
    yield f"{change.change}: {'/'.join(change.guids)}{name}"
    for inside in change.opened:
        yield from indented(_inside_lines(inside))


def _inside_lines(inside: Inside) -> Sequence[str]:
    """Returns the lines for the contents of two sections."""
    if inside.verdict == NOT_OPENED:
        return [f"{NOT_OPENED}: {inside.how}: {inside.reason}"]
    if inside.verdict == SAME:
        return [f"{inside.how}: packed in another way, what it holds is the same"]
    lines = [f"{inside.how}: other sections: {', '.join(inside.sections)}"] if inside.sections else []
    for parts in (*map(_pair_lines, inside.volumes), *map(_inside_lines, inside.opened)):
        first, *rest = parts
        lines += [f"{inside.how}, {first}", *rest]
    return lines or [f"{inside.how}: different after its sections"]


def compare_files(names: Sequence[str], is_open: bool, say: Callable[[str], None]) -> Report:
    """Compares two files, and returns the report. `say` takes a remark about a file."""
    try:
        first, second = (cli.read(name, say) for name in names)
        note = "{} has no volume, so its bytes are compared".format
        return compare_images(first, second, is_open, note=lambda number: say(note(printable(names[number]))))
    except cli.Unread as line:
        return Report(REJECTED, str(line))
    except Full as what:
        return Report(REJECTED, f"not compared: more than {what}")
    except MemoryError:
        return Report(REJECTED, "fault 24 at 0")


parser = cli.of(
    NAME,
    __doc__,
    cli.argument("first", metavar="A", help="a flash image or a firmware volume"),
    cli.argument("second", metavar="B", help="another flash image or firmware volume"),
    cli.flag("--open", "open compressed sections where two files differ"),
    cli.flag("--json", "write a JSON object"),
)


@cli.command(parser)
def main(given: argparse.Namespace) -> int:
    """Runs the command."""
    report = compare_files((given.first, given.second), given.open, lambda what: cli.complain(NAME, what))
    print(json.dumps(asdict(report), indent=2) if given.json else "\n".join(report_lines(report)))
    return STATUS[report.verdict]
