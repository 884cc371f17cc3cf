# SPDX-License-Identifier: BSD-2-Clause-Patent
"""Writes the HTML page of fv-map. The page contains no script and loads nothing from outside. The texts of an image are
not trusted: all of them are escaped, and characters that cannot be seen are shown as numbers."""

from __future__ import annotations

import math
import os
import re
from collections import Counter
from collections.abc import Iterable, Iterator, Sequence
from html import escape
from itertools import chain, pairwise
from pathlib import Path
from typing import NamedTuple, TypeVar

from ._model import REMAINS, File, Part, Section, Unread, Volume, finding_text, leaves
from ._native import CellKind
from ._sheet import Change, Drawing, Lack, Row, Sheet, changes, meaning_of
from .shown import printable

MOST_VOLUMES = 250  # volumes of a page
MOST_DRAWN = 1000  # files of a volume that are drawn as areas
MOST_PIECES = 2000  # parts of an image that are in no volume
MOST_PARTS = 3000  # parts of a strip
MOST_ROWS = 5000  # rows of a table
MOST_OPEN = 50  # rows of the table of the parts that are not read, if it is open at first
MOST_SECTIONS, MOST_NOTES = 8, 4  # sections that the row of a file names, and notes about sections
MOST_SIGNS = 24_000_000  # characters of a page. When it has them, the rest of each table and picture is left out

Item = TypeVar("Item")
Box = tuple[float, float, float, float]

STYLE = Path(__file__).with_name("page.css").read_text(encoding="utf-8").partition("*/")[2]  # after the licence
NO_VOLUME = "no volume"
# The colours by the types of files, from 0x01 on.
COLORS = dict(enumerate("raw free-form core core core pei dxe pei app mm image mm core mm core".split(), 0x01))
# The titles of columns with numbers, and their attributes. An offset has two columns.
NUMBERS = dict.fromkeys(("Size", "Files", "Pads", "Free", "Before", "Now", "By"), ' class="n"')
NUMBERS["Offset"] = ' class="n" colspan="2"'
# The classes of the colours and of the edges, and what they mean.
LEGEND = {
    "k-core": "core (SEC, PEI, DXE, MM)",
    "k-pei": "PEI module",
    "k-dxe": "DXE driver",
    "k-mm": "MM driver",
    "k-app": "application",
    "k-image": "volume image",
    "k-free-form": "freeform",
    "k-raw": "raw",
    "k-other": "another type",
    "k-pad": "pad",
    "k-deleted": "deleted or unfinished",
    "k-header": "header",
    "k-free": "free",
    "k-bad": "rejected volume",
    "k-none": NO_VOLUME,
    "k-unread": "not shown",
    "mark came": "came",
    "mark changed": "changed",
}
# The sums that the head of a volume gives: their names, and the cells that are summed.
SUMS = {
    "files": [CellKind.FILE],
    "pads": [CellKind.PAD],
    "free": [CellKind.FREE],
    "deleted or unfinished": [CellKind.DELETED, CellKind.UNFINISHED],
}


def amount(count: int) -> str:
    """Returns a number of bytes with a unit."""
    if count >= 1 << 20:
        return f"{count / (1 << 20):.2f} MiB"
    return f"{count / 1024:.1f} KiB" if count >= 1024 else f"{count} B"


def bytes_of(count: int) -> str:
    """Returns a number of bytes with a unit, and the exact number."""
    return f"{amount(count)} ({count:,} bytes)"


def lacks_of(drawing: Drawing) -> str:
    """Returns how many parts of an image are not read, and how many bytes they have."""
    count = len(drawing.lacks)
    return f"{count:,} part{'s' * (count != 1)}, {bytes_of(drawing.lacking)}"


def offset(at: int) -> str:
    """Returns an offset in decimal and hexadecimal."""
    return f"{at} ({at:#x})"


def percent(part: int, whole: int) -> str:
    """Returns a part of a whole in percent."""
    return f"{100 * part / whole:.1f} %" if whole else "0 %"


def name_of(path: str, other: str) -> str:
    """Returns the file name of an image, with as much of its path as distinguishes it from the other image."""
    ours, theirs = (Path(os.path.abspath(it)).parts for it in (path, other))
    count = 1
    while ours != theirs and ours[-count:] == theirs[-count:]:
        count += 1
    return escape(printable(os.path.join(*ours[-count:])))


def breakable(name: str) -> str:
    """Returns a name for the page, which may be broken between its words."""
    return "<wbr>".join(escape(it) for it in re.split(r"(?<=[a-z0-9])(?=[A-Z])", name))


def chip(kind: str, shown: str) -> str:
    """Returns a word in a frame."""
    return f'<span class="chip {kind}">{shown}</span>'


def marked(mark: str) -> str:
    """Returns the mark of a part after its name, if it has one."""
    return f" {chip(mark, mark)}" if mark else ""


def offset_cells(at: int) -> str:
    """Returns two cells of a table: an offset in decimal and hexadecimal."""
    return f'<td class="n mono">{at}<td class="n mono">{at:#x}'


def exact_size(count: int) -> str:
    """Returns a cell of a table: a number of bytes with a unit, and the exact number if it is pointed at."""
    return f'<td class="n" title="{count:,} bytes">{amount(count)}'


def squarified(sizes: list[int], box: Box) -> Iterator[Box]:
    """Yields rectangles of these sizes, the largest first, that are almost squares and fill a box."""
    x, y, width, height = box
    scale = width * height / sum(sizes)
    areas = [size * scale for size in sizes]
    while areas:
        is_wide, short = width >= height, min(width, height)
        count = count_in_row(areas, short)
        side, along = sum(areas[:count]) / short, 0.0
        for area in areas[:count]:
            yield (x, y + along, side, area / side) if is_wide else (x + along, y, area / side, side)
            along += area / side
        if is_wide:
            x, width = x + side, width - side
        else:
            y, height = y + side, height - side
        areas = areas[count:]


def count_in_row(areas: list[float], short: float) -> int:
    """Returns how many areas, the largest first, make the next row of rectangles that are almost squares: the worst of
    them is as near to a square as it can be. `short` is the shorter side of the box."""
    total, worst = 0.0, math.inf
    for count, area in enumerate(areas):
        square = ((total + area) / short) ** 2
        now = max(square / area, areas[0] / square)
        if now > worst:
            return count
        total, worst = total + area, now
    return len(areas)


class Stripe(NamedTuple):
    """A part of a strip: its offset, its length, its colour, its title, the place on the page that it leads to, and the
    volume, or a note about bytes that are in no volume."""

    at: int
    length: int
    color: str
    title: str
    place: str = ""
    about: Sheet | str = ""


def merged(parts: Iterable[Stripe], whole: int) -> list[Stripe]:
    """Returns the parts of a strip. Parts too thin to be seen are one part, except those that are not volumes."""
    found: list[Stripe] = []
    for part in parts:
        last = found[-1] if found else part
        are_thin = found and max(last.length, part.length) < whole / 1200 and part.at == last.at + last.length
        if are_thin and "none" not in (last.color, part.color):
            found[-1] = last._replace(length=last.length + part.length, title="several parts")
        elif part.length:
            found.append(part)
    return found


def pieces(parts: Iterable[Part], end: int) -> Iterator[tuple[int, int, Part | None]]:
    """Yields the bytes up to an offset in pieces: the offset of each piece, its length, and the innermost part around
    it, if there is one. All parts begin before the offset."""
    rest = sorted(parts, key=lambda it: (it.offset, -it.length))[::-1]
    places = {0, end} | {it for part in rest for it in (part.offset, part.offset + part.length) if it < end}
    around = list[Part]()
    for at, upto in pairwise(sorted(places)):
        while rest and rest[-1].offset <= at:
            around.append(rest.pop())
        while around and around[-1].offset + around[-1].length <= at:
            around.pop()
        yield at, upto - at, around[-1] if around else None


class Page:
    """The lines of the page."""

    def __init__(self) -> None:
        self._lines: list[str] = []
        self._signs = 0
        self._used: set[str] = set()
        self._anchors: dict[int, str] = {}
        self._left_out: Counter[str] = Counter()

    def add(self, *lines: str) -> None:
        """Adds lines of markup."""
        self._lines += lines
        self._signs += sum(map(len, lines))

    def up_to(self, most: int, items: Sequence[Item], what: str) -> Iterator[Item]:
        """Yields items for as long as the page has room for them, and at most this many. Notes how many are left
        out."""
        for number, item in enumerate(items):
            if number == most or self._signs > MOST_SIGNS:
                self._left_out[what] += len(items) - number
                return
            yield item

    def use(self, name: str) -> str:
        """Returns a class of the legend, and adds it to the legend of the page."""
        self._used.add(name)
        return name

    def color(self, kind: int) -> str:
        """Returns the class of the colour of a type of files."""
        return self.use(f"k-{COLORS.get(kind, 'other')}")

    def anchor(self, what: Volume | File) -> str:
        """Returns the name of the place of a volume or of a file's row on the page."""
        letter = "v" if isinstance(what, Volume) else "f"
        return self._anchors.setdefault(id(what), f"{letter}{len(self._anchors)}")

    def link(self, what: Volume | File | None, shown: str) -> str:
        """Returns markup that leads to a volume or a file, if there is one."""
        return f'<a href="#{self.anchor(what)}">{shown}</a>' if what else shown

    def table(self, titles: str, rows: Iterable[str]) -> None:
        """Adds a table, in a box in which it scrolls if it is too wide."""
        heads = "".join(f"<th{NUMBERS.get(it, '')}>{it}" for it in titles.split(","))
        self.add(f'<div class="wide"><table><tr>{heads}</tr>')
        for row in rows:
            self.add(row)
        self.add("</table></div>")

    def strip(self, parts: Iterable[Stripe], whole: int, label: str = "") -> None:
        """Adds the parts of a whole, each with its name on it if there is room."""
        self.add(*[f'<p class="label">{label}</p>'] * bool(label), '<div class="strip">')
        for it in self.up_to(MOST_PARTS, merged(parts, whole), "parts of strips"):
            sides = f"left:{100 * it.at / whole:.4f}%;right:{100 * (whole - it.at - it.length) / whole:.4f}%"
            about = escape(f"{it.title}\nat {offset(it.at)}, {amount(it.length)}")
            color = self.use(f"k-{it.color}") + " edge" * (it.length > whole / 200)
            name = f"{it.title} {amount(it.length)}"
            shown = escape(name) if len(name) < 130 * it.length / whole else ""
            tag, link = ("a", f' href="#{it.place}"') if it.place else ("i", "")
            self.add(f'<{tag}{link} class="{color}" style="{sides}" title="{about}">{shown}</{tag}>')
        self.add("</div>", f'<div class="ends"><span>{offset(0)}</span><span>{offset(whole)}</span></div>')

    def flash(self, drawing: Drawing) -> None:
        """Adds the section of the image: where its volumes are, and the parts that are not volumes. It is drawn up to
        the first volume that is left out."""
        size, sheets = len(drawing.image.data), {id(it.part): it for it in drawing.sheets}
        end = next((it.offset for it in drawing.image.volumes[len(sheets) :]), size)
        parts = [*(it.part for it in drawing.sheets), *(it for it in drawing.image.unread if it.offset < end)]
        stripes: list[Stripe] = []
        for at, length, it in pieces(parts, end):
            if isinstance(it, Volume):
                sheet, color = sheets[id(it)], "bad" if it.fault else "image"
                stripes.append(Stripe(at, length, color, sheet.name, self.anchor(it), sheet))
            elif isinstance(it, Unread):
                note = "not erased" if it.is_gap else it.reason
                stripes.append(Stripe(at, length, "none", it.what or NO_VOLUME, about=note))
            else:
                stripes.append(Stripe(at, length, "none", NO_VOLUME, about="erased"))
        if end < size:
            stripes.append(Stripe(end, size - end, "unread", "not shown"))
        others = [it.at for it in stripes if isinstance(it.about, str)]
        kept = {*self.up_to(MOST_PIECES, others, "parts beside volumes")}
        stripes = [it for it in stripes if isinstance(it.about, Sheet) or it.at in kept]
        self.add("<section><h2>The image</h2>")
        if not sheets:
            self.add("<p>No firmware volume was found in this image.</p>")
        self.strip(stripes, size)
        self.table("Volume,Offset,Size,Files,Used,Pads,Free,Verdict", chain.from_iterable(map(self.rows_of, stripes)))
        self.add("</section>")

    def rows_of(self, stripe: Stripe) -> Iterator[str]:
        """Yields the rows of a part of the image in the table of volumes."""
        if isinstance(stripe.about, Sheet):
            yield from self.rows(stripe.about, 0)
        else:
            cells = f'{escape(stripe.title)}{offset_cells(stripe.at)}<td class="n">{amount(stripe.length)}'
            yield f'<tr class="dim"><td class="name">{cells}<td colspan="5">{escape(stripe.about)}</tr>'

    def rows(self, sheet: Sheet, depth: int) -> Iterator[str]:
        """Yields the row of a volume in the table of volumes, and the rows of the volumes inside."""
        at, length = sheet.part.offset, sheet.part.length
        filled = "<td><td><td><td>"
        if sheet.cells is not None:
            used = percent(sheet.head + sheet.sum_of(CellKind.FILE), length)
            meter = f'<span class="meter"><i style="width:{used.replace(" ", "")}"></i></span> {used}'
            rest = "".join(f'<td class="n">{amount(sheet.sum_of(it))}' for it in (CellKind.PAD, CellKind.FREE))
            filled = f'<td class="n">{len(sheet.rows)}<td>{meter}{rest}'
        yield (
            f'<tr><td class="name" style="padding-left:{18 * depth}px">{self.link(sheet.part, escape(sheet.name))}'
            f'{offset_cells(at)}<td class="n">{amount(length)}{filled}<td>{verdict(sheet)}</tr>'
        )
        for inner in (it for row in sheet.rows for it in row.inner):
            yield from self.rows(inner, depth + 1)

    def volume(self, sheet: Sheet, holder: str = "") -> None:
        """Adds a volume: its figures, where its parts are and were before, how large its files are, and the volumes in
        them. `holder` is the name of the file around it."""
        volume, before = sheet.part, sheet.before
        around = f"in {holder} ({opened(sheet.section)}) " if sheet.section else ""
        sums = ((name, sheet.sum_of(*kinds)) for name, kinds in SUMS.items())
        facts = [f"{around}at {offset(volume.offset)}", bytes_of(volume.length), volume.type_name]
        facts += [f"{name} {amount(size)}" for name, size in sums if size]
        self.add(
            f'<section id="{self.anchor(volume)}"><h2>{escape(sheet.name)} {verdict(sheet)}</h2>',
            f"<p>{escape(' · '.join(filter(None, facts)))}</p>",
        )
        now, was = self.stripes(sheet, True), self.stripes(before, False) if before else []
        has_moved = bool(now and was and before and before.layout != sheet.layout)
        if before and has_moved:
            self.strip(was, before.part.length, "Where it lay before")
        if now:
            self.strip(now, volume.length, "Where it lies" + " now" * has_moved)
        if len(sheet.rows) > 2 and any(row.part.length for row in sheet.rows):
            self.areas(sheet)
        if sheet.rows:
            self.add(f"<details open><summary>{len(sheet.rows)} file{'s' * (len(sheet.rows) != 1)}</summary>")
            self.table("Offset,Name,Type,Size,,Sections,GUID,SHA-256", self.files(sheet.rows))
            self.add("</details>")
        for row in sheet.rows:
            for inner in row.inner:
                self.volume(inner, row.name)
        self.add("</section>")

    def stripes(self, sheet: Sheet, is_drawn: bool) -> list[Stripe]:
        """Returns the parts of a volume. The parts of the drawn image lead to the rows of its files."""
        if sheet.cells is None:
            return []
        found, rows = [Stripe(0, sheet.head, "header", "header")], {row.at: row for row in sheet.rows}
        for it in sheet.cells:
            name = it.kind.name.lower()
            if row := rows.get(it.offset):
                place = self.anchor(row.part) if is_drawn else ""
                found.append(Stripe(it.offset, it.length, COLORS.get(row.part.kind, "other"), row.name, place))
            else:
                color = name if it.kind in (CellKind.PAD, CellKind.FREE) else "deleted"
                found.append(Stripe(it.offset, it.length, color, REMAINS.get(it.kind, (name,))[0]))
        return found

    def areas(self, sheet: Sheet) -> None:
        """Adds files as rectangles of their sizes, which lead to the rows of the files. The style hides a name that has
        no room."""
        found = sorted((row for row in sheet.rows if row.part.length), key=lambda it: -it.part.length)
        rows = list(self.up_to(MOST_DRAWN, found, "areas"))
        sizes = [row.part.length for row in rows]
        height = 560 if len(rows) > 40 else 340 if len(rows) > 8 else 180
        self.add(
            '<p class="label">How large the files are</p>',
            f'<div class="areas" style="height:{height}px" role="group" aria-label="sizes of files">',
        )
        for row, (x, y, width, tall) in zip(rows, squarified(sizes, (0, 0, 1100, height))):
            file = row.part
            share = f"{bytes_of(file.length)}, {percent(file.length, sum(sizes))} of the files"
            about = "\n".join(filter(None, [row.name, file.type_name, share, str(file.guid), row.mark]))
            if row.mark:
                self.use(f"mark {row.mark}")
            sides = f"left:{x / 11:.3f}%;top:{y:.1f}px;width:{width / 11:.3f}%;height:{tall:.1f}px"
            color = f'<span class="{self.color(file.kind)} {row.mark}">'
            self.add(
                f'<a href="#{self.anchor(file)}" style="{sides}" title="{escape(about)}">{color}',
                f"<b>{breakable(row.name)}</b><small>{amount(file.length)}</small></span></a>",
            )
        self.add("</div>")

    def files(self, rows: list[Row]) -> Iterator[str]:
        """Yields the rows of the files of a volume, in their order."""
        most = max(row.part.length for row in rows) or 1
        for row in self.up_to(MOST_ROWS, rows, "rows of files"):
            file, width = row.part, max(50 * row.part.length / most, 1)
            yield (
                f'<tr id="{self.anchor(file)}">{offset_cells(row.at)}<td class="name">{breakable(row.name)}'
                f'{marked(row.mark)}<td>{escape(file.type_name)}{", fixed" * file.is_fixed}{exact_size(file.length)}'
                f'<td><i class="bar {self.color(file.kind)}" style="width:{width:.0f}px"></i>'
                f'<td class="long dim">{escape(contents(file))}<td class="mono dim">{file.guid}'
                f'<td class="mono dim">{(row.digest or b"").hex()}</tr>'
            )

    def against(self, old: Drawing, new: Drawing) -> None:
        """Adds the names of the two images, and the files that came, went and changed."""
        found = changes(old, new)
        self.add(f"<section><h2>Against {name_of(old.path, new.path)}</h2>")
        rows = (
            f'<tr><td>{when}<td class="name">{name_of(it.path, other.path)}<td class="n">{bytes_of(len(it.image.data))}'
            f'<td class="mono dim">{it.digest}<td>{read_of(it)}</tr>'
            for when, it, other in (("before", old, new), ("now", new, old))
        )
        self.table(",Image,Size,SHA-256,Read", rows)
        if old.image.data == new.image.data:
            self.add("<p>The two have the same bytes.</p>")
        counts = Counter(it.kind for it in found)
        self.add("<p>", *(chip(kind, f"{counts[kind]} {kind}") for kind in ("came", "went", "changed")), "</p>")
        came, went = (sum(bool(it.mark) for it in drawing.lacks) for drawing in (new, old))
        if came or went:
            self.add(f"<p>Of the parts that are not read, {came} came or changed, and {went} went.</p>")
        if found:
            self.table(",File,Before,Now,By,In", map(self.change, self.up_to(MOST_ROWS, found, "rows of changes")))
        self.add("</section>")

    def change(self, it: Change) -> str:
        """Returns the row of a file that came, went or changed."""
        sizes = (f'<td class="n">{amount(side.part.length) if side else "–"}' for side in (it.old, it.new))
        sign = "+" if it.by > 0 else "−" if it.by < 0 else ""
        name = self.link(it.new.part if it.new else None, breakable(it.name))
        by = f'<td class="n" title="{it.by:+,} bytes">{sign}{amount(abs(it.by))}'
        cells = f'<td class="name">{name}{"".join(sizes)}{by}<td class="long dim">{escape(it.where)}'
        return f"<tr><td>{chip(it.kind, it.kind)}{cells}</tr>"

    def unread(self, drawing: Drawing) -> None:
        """Adds the table of the parts that are not read."""
        lacks = drawing.lacks
        self.add(
            f'<section id="unread"><h2>Not read</h2><p>{lacks_of(drawing)}. An offset in an opened section',
            "counts from the first byte of its contents.</p>",
            f'<details{" open" * (len(lacks) <= MOST_OPEN)}><summary>The parts</summary>',
        )
        shown = self.up_to(MOST_ROWS, lacks, "rows of parts that are not read")
        self.table("Offset,Size,What,Why,In", map(self.lack, shown))
        self.add("</details></section>")

    def lack(self, it: Lack) -> str:
        """Returns the row of a part that is not read."""
        where = self.link(it.near, escape(it.where or "the image"))
        return (
            f"<tr>{offset_cells(it.part.offset)}{exact_size(it.part.length)}<td>{escape(it.what)}{marked(it.mark)}"
            f'<td class="long dim">{escape(it.reason)}<td class="long">{where}</tr>'
        )

    def whole(self, drawing: Drawing, other: Drawing) -> str:
        """Returns the page, with what is left out of it, and the legend of the colours on it. A link to something that
        is left out leads nowhere."""
        name = name_of(drawing.path, other.path)
        size, count = len(drawing.image.data), len(drawing.sheets)
        used = percent(sum(sheet.part.length for sheet in drawing.sheets), size)
        cuts = drawing.cuts + [f"before, {it}" for it in other.cuts if other is not drawing]
        cuts += [f"{most} {what} are left out" for what, most in self._left_out.items()]
        cut = f"\n<p>Not all is shown: {'; '.join(cuts)}.</p>" if cuts else ""
        legend = (f'<span><i class="{key}"></i>{it}</span>' for key, it in LEGEND.items() if key in self._used)
        body = "\n".join(self._lines)
        placed = {*re.findall(' id="([vf][0-9]+)"', body)}
        body = re.sub(' href="#([vf][0-9]+)"', lambda it: it[0] if it[1] in placed else "", body)
        return f"""<!doctype html>
<html lang="en"><head><meta charset="utf-8">
<meta http-equiv="Content-Security-Policy" content="default-src 'none'; style-src 'unsafe-inline'">
<meta name="viewport" content="width=device-width"><title>{name}</title><style>{STYLE}</style></head><body>
<header><h1>{name}</h1>
<p>{bytes_of(size)}, {count} volume{'s' * (count != 1)} in {used} of it</p>
<p class="mono dim">SHA-256 {drawing.digest}</p>
<p>{read_of(drawing, "#unread")}</p></header>{cut}
<p class="legend">{"".join(legend)}</p>
{body}
</body></html>
"""


def verdict(sheet: Sheet) -> str:
    """Returns the verdict on a volume: whether it is its own canonical image, or its fault; and how many of its files
    are fixed."""
    volume = sheet.part
    if volume.fault:
        return chip("bad", escape(meaning_of(volume.fault)))
    said = chip("good", "canonical") if sheet.is_canonical else chip("fair", "not canonical")
    fixed = f"{len(volume.fixed)} of {len(volume.files)} files fixed"
    return f"{said} {chip('fair', fixed)}" if volume.fixed else said


def opened(section: Section) -> str:
    """Returns how a section was opened, and its packed and unpacked size."""
    it = section.opened
    how, size = (it.way.name, len(it.data)) if it else ("stored", section.length)
    packed = f"{amount(section.length)} unpacked to " if size != section.length else ""
    return f"{how}, {packed}{amount(size)}"


def contents(file: File) -> str:
    """Returns the first sections of a file, the rules that it breaks, and why sections are not opened or may be opened
    wrongly."""
    parts = [f"{it.type_name} {amount(it.length)}" for it in file.sections[:MOST_SECTIONS]]
    parts += ["…"] * (len(file.sections) > MOST_SECTIONS)
    found = list(leaves(file.sections))
    broken = [file.broken, *(it.broken for it in found)]
    notes = [f"({finding_text(it)})" for it in broken if it]
    notes += [f"(not opened: {it.type_name}: {it.closed})" for it in found if it.closed]
    notes += [f"({it.type_name}: {doubt})" for it in found if it.opened for doubt in it.opened.doubts]
    return ", ".join(parts + notes[:MOST_NOTES])


def read_of(drawing: Drawing, place: str = "") -> str:
    """Returns a line that says whether everything was read. It may lead to a place."""
    if not drawing.lacks:
        return chip("good", "Everything was read.")
    tag, link = ("a", f' href="{place}"') if place else ("span", "")
    return f'<{tag} class="chip bad"{link}>Not read: {lacks_of(drawing)}</{tag}>'


def draw(drawing: Drawing, against: Drawing | None) -> str:
    """Returns the page of an image, which shows what changed since another image if there is one."""
    page = Page()
    page.flash(drawing)
    if against:
        page.against(against, drawing)
    if drawing.lacks:
        page.unread(drawing)
    for sheet in drawing.sheets:
        page.volume(sheet)
    return page.whole(drawing, against or drawing)
