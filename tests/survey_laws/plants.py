# SPDX-License-Identifier: BSD-2-Clause-Patent
"""Planted faults of surveys: each changes the rows of a survey, or what the program says of them, so that the test of
one law must find it."""

from __future__ import annotations

import random
from collections.abc import Callable, Iterator, Sequence
from dataclasses import dataclass, replace

from tests.survey_laws.laws import NO_FINDINGS
from tests.survey_laws.rows import LEAVES, OUTER, SEARCHED, Row, Survey, Totals, status_of, totals_of
from tests.survey_laws.volumes import GROUP, VOLUME_SECTION, may_begin

Rows = tuple[Row, ...]


@dataclass(frozen=True)
class Plant:
    """A planted fault: the law that must find it, and the function that changes a survey. The function returns None if
    the survey has no place for the fault."""

    law: str
    change: Callable[[random.Random, bytes, Survey], Survey | None]


def below(rows: Sequence[Row], number: int) -> int:
    """Returns the number of the first row after the rows in a row."""
    after = number + 1
    while after < len(rows) and rows[after].depth > rows[number].depth:
        after += 1
    return after


def spliced(survey: Survey, first: int, after: int, *new: Row) -> Survey:
    """Returns a survey with other rows in place of some."""
    return replace(survey, rows=survey.rows[:first] + new + survey.rows[after:])


def places(rows: Rows, is_fitting: Callable[[int, Row], bool]) -> list[int]:
    """Returns the numbers of the rows that fit."""
    return [number for number, row in enumerate(rows) if is_fitting(number, row)]


def at_row(
    is_fitting: Callable[[Rows, int], bool], change: Callable[[random.Random, Row], Row]
) -> Callable[[random.Random, bytes, Survey], Survey | None]:
    """Returns a plant that changes one row that fits."""

    def planted(pick: random.Random, image: bytes, survey: Survey) -> Survey | None:
        found = places(survey.rows, lambda number, _: is_fitting(survey.rows, number))
        if not found:
            return None
        number = pick.choice(found)
        return spliced(survey, number, number + 1, change(pick, survey.rows[number]))

    return planted


def is_leaf(rows: Rows, number: int) -> bool:
    """Returns whether a row is a leaf row."""
    return rows[number].kind in LEAVES


def is_outer(rows: Rows, number: int) -> bool:
    """Returns whether a row contains rows."""
    return rows[number].kind in OUTER


def of_kind(*kinds: str) -> Callable[[Rows, int], bool]:
    """Returns the test whether a row is of one of some kinds."""
    return lambda rows, number: rows[number].kind in kinds


def has_findings(rows: Rows, number: int) -> bool:
    """Returns whether a row has findings."""
    return bool(rows[number].findings)


def without_leaf(pick: random.Random, image: bytes, survey: Survey) -> Survey | None:
    """Leaves a leaf row out."""
    number = pick.choice(places(survey.rows, lambda _, row: row.kind in LEAVES))
    return spliced(survey, number, number + 1)


def exchanged(pick: random.Random, image: bytes, survey: Survey) -> Survey | None:
    """Exchanges two leaf rows."""
    rows = survey.rows
    found = places(rows[:-1], lambda number, row: is_leaf(rows, number) and is_leaf(rows, number + 1))
    if not found:
        return None
    number = pick.choice(found)
    return spliced(survey, number, number + 2, rows[number + 1], rows[number])


def doubled(pick: random.Random, image: bytes, survey: Survey) -> Survey | None:
    """Has a leaf row twice."""
    number = pick.choice(places(survey.rows, lambda _, row: row.kind in LEAVES))
    return spliced(survey, number, number, survey.rows[number])


def without_outer(pick: random.Random, image: bytes, survey: Survey) -> Survey | None:
    """Leaves out a row that contains rows."""
    found = places(survey.rows, lambda _, row: row.kind in OUTER)
    if not found:
        return None
    number = pick.choice(found)
    return spliced(survey, number, number + 1)


def emptied(pick: random.Random, image: bytes, survey: Survey) -> Survey | None:
    """Takes the rows out of the row that contains them."""
    found = places(survey.rows, lambda _, row: row.kind in OUTER)
    if not found:
        return None
    number = pick.choice(found)
    after = below(survey.rows, number)
    inner = (replace(it, depth=it.depth - 1) for it in survey.rows[number + 1 : after])
    return spliced(survey, number + 1, after, *inner)


def moved_boundary(pick: random.Random, image: bytes, survey: Survey) -> Survey | None:
    """Moves the end of a header into the leaf row after it."""
    rows = survey.rows

    def fits(number: int, row: Row) -> bool:
        return row.kind.endswith("-header") and row.kind != "ext-header" and is_leaf(rows, number + 1)

    found = places(rows[:-1], lambda number, row: fits(number, row) and rows[number + 1].length > 4)
    if not found:
        return None
    number = pick.choice(found)
    head, after = rows[number : number + 2]
    moved = replace(head, length=head.length + 4), replace(after, offset=after.offset + 4, length=after.length - 4)
    return spliced(survey, number, number + 2, *moved)


def collapsed(kind: str, code: int | None, leaf: str) -> Callable[[random.Random, bytes, Survey], Survey | None]:
    """Returns a plant that opens no section of a type: its body becomes a leaf row."""

    def planted(pick: random.Random, image: bytes, survey: Survey) -> Survey | None:
        rows = survey.rows
        found = places(rows, lambda number, row: row.kind == kind and row.code == code)
        found = [it for it in found if below(rows, it) > it + 2 and rows[it + 2].kind in OUTER]
        found = [it for it in found if not rows[it + 2].found]
        if not found:
            return None
        number = pick.choice(found)
        row, after = rows[number + 1], below(rows, number)
        body = Row(leaf, row.end, rows[number].end - row.end, row.depth)
        return spliced(survey, number + 2, after, body)

    return planted


def lost_file(pick: random.Random, image: bytes, survey: Survey) -> Survey | None:
    """Has lost bytes in place of a file without findings."""
    rows = survey.rows
    found = places(rows, lambda _, row: row.kind == "file" and not row.findings)
    if not found:
        return None
    number = pick.choice(found)
    row = rows[number]
    lost = Row("lost", row.offset, row.length, row.depth, findings=frozenset((11,)))
    unread = Row("unread", row.offset, row.length, row.depth + 1)
    return spliced(survey, number, below(rows, number), lost, unread)


def passed_over(pick: random.Random, image: bytes, survey: Survey) -> Survey | None:
    """Has bytes without a structure in place of a volume that was found."""
    rows = survey.rows
    found = places(rows, lambda _, row: row.found)
    if not found:
        return None
    number = pick.choice(found)
    row = rows[number]
    before = next((it for it in rows[number - 1 :: -1] if number and it.depth == row.depth), None)
    kind = before.kind if before and before.kind in SEARCHED else "gap" if row.depth == 0 else "data"
    return spliced(survey, number, below(rows, number), Row(kind, row.offset, row.length, row.depth))


def found_early(pick: random.Random, image: bytes, survey: Survey) -> Survey | None:
    """Begins a volume that was found a byte too early."""
    rows = survey.rows
    found = places(rows, lambda number, row: row.found and number > 0 and rows[number - 1].kind in SEARCHED)
    found = [it for it in found if rows[it - 1].length > 1 and not may_begin(image[rows[it].offset - 1 :])]
    if not found:
        return None
    number = pick.choice(found)
    before, row = rows[number - 1 : number + 1]
    moved = replace(before, length=before.length - 1), replace(row, offset=row.offset - 1, length=row.length + 1)
    return spliced(survey, number - 1, number + 1, *moved)


def clean_volume(pick: random.Random, image: bytes, survey: Survey) -> Survey | None:
    """Drops all findings of a volume and of the rows in it."""
    rows = survey.rows
    found = places(rows, lambda number, row: row.kind == "volume" and bool(row.findings))
    if not found:
        return None
    number = pick.choice(found)
    after = below(rows, number)
    return spliced(survey, number, after, *(replace(it, findings=NO_FINDINGS) for it in rows[number:after]))


def damaged_volume(pick: random.Random, image: bytes, survey: Survey) -> Survey | None:
    """Gives a finding to a row of a volume without findings."""
    rows = survey.rows
    found = places(rows, lambda number, row: row.kind == "volume" and row.found)
    found = [it for it in found if not any(row.findings for row in rows[it : below(rows, it)])]
    if not found:
        return None
    number = pick.choice(found)
    return spliced(survey, number, number + 1, replace(rows[number], findings=frozenset((6,))))


def in_totals(change: Callable[[Totals], Totals]) -> Callable[[random.Random, bytes, Survey], Survey | None]:
    """Returns a plant that changes the last line."""

    def planted(pick: random.Random, image: bytes, survey: Survey) -> Survey | None:
        told = totals_of(survey.rows)
        changed = change(told)
        return None if changed == told else replace(survey, totals=changed)

    return planted


def with_status(status: Callable[[Rows], int]) -> Callable[[random.Random, bytes, Survey], Survey | None]:
    """Returns a plant that gives the program another exit status."""

    def planted(pick: random.Random, image: bytes, survey: Survey) -> Survey | None:
        found = status(survey.rows)
        return None if found == status_of(survey.rows) else replace(survey, status=found)

    return planted


def more(row: Row) -> Row:
    """Returns a row with one finding more."""
    return replace(row, findings=row.findings | {next(it for it in (11, 6, 19, 3) if it not in row.findings)})


def fewer(pick: random.Random, row: Row) -> Row:
    """Returns a row with one finding less."""
    return replace(row, findings=row.findings - {pick.choice(sorted(row.findings))})


PLANTS: dict[str, Plant] = {
    "a leaf row is left out": Plant("tiling", without_leaf),
    "a leaf row begins a byte later": Plant("tiling", at_row(is_leaf, lambda _, row: replace(row, offset=row.offset + 1))),
    "a leaf row is a byte shorter": Plant("tiling", at_row(is_leaf, lambda _, row: replace(row, length=row.length - 1))),
    "two leaf rows change places": Plant("tiling", exchanged),
    "a leaf row occurs twice": Plant("tiling", doubled),
    "an outer row is left out": Plant("nesting", without_outer),
    "an outer row contains no rows": Plant("nesting", emptied),
    "a row lies deeper": Plant("nesting", at_row(is_leaf, lambda _, row: replace(row, depth=row.depth + 1))),
    "an outer row is a byte longer": Plant("nesting", at_row(is_outer, lambda _, row: replace(row, length=row.length + 1))),
    "an outer row is of a leaf kind": Plant("nesting", at_row(is_outer, lambda _, row: replace(row, kind="data"))),
    "a file is found": Plant("nesting", at_row(of_kind("file"), lambda _, row: replace(row, found=True))),
    "a finding more": Plant("honesty", at_row(lambda rows, number: True, lambda _, row: more(row))),
    "a finding less": Plant("honesty", at_row(has_findings, fewer)),
    "unread bytes have no finding": Plant(
        "honesty",
        at_row(
            lambda rows, number: rows[number].kind == "unread" and has_findings(rows, number),
            lambda _, row: replace(row, findings=NO_FINDINGS),
        ),
    ),
    "a file has another name": Plant("honesty", at_row(of_kind("file"), lambda _, row: replace(row, name=bytes(15) + b"x"))),
    "a file has another type": Plant("honesty", at_row(of_kind("file"), lambda _, row: replace(row, code=(row.code or 0) ^ 1))),
    "a section has another type": Plant(
        "honesty", at_row(of_kind("section"), lambda _, row: replace(row, code=(row.code or 0) ^ 1))
    ),
    "a volume has another file system": Plant(
        "honesty", at_row(of_kind("volume"), lambda _, row: replace(row, name=bytes(16)))
    ),
    "a header is longer": Plant("honesty", moved_boundary),
    "a file is lost": Plant("honesty", lost_file),
    "other bytes are erased": Plant("honesty", at_row(of_kind("pad-data"), lambda _, row: replace(row, kind="pad"))),
    "a volume is passed over": Plant("passing", passed_over),
    "a volume is found a byte early": Plant("passing", found_early),
    "deep bytes are searched in vain": Plant(
        "passing",
        at_row(
            lambda rows, number: rows[number].kind == "unread" and 21 in rows[number].findings,
            lambda _, row: replace(row, findings=NO_FINDINGS, kind="data"),
        ),
    ),
    "a group is a leaf": Plant("agreement", collapsed("section", GROUP, "body")),
    "an opened volume is a leaf": Plant("agreement", collapsed("section", VOLUME_SECTION, "body")),
    "a rejected volume is clean": Plant("agreement", clean_volume),
    "an accepted volume has a finding": Plant("agreement", damaged_volume),
    "free space is unfinished": Plant("agreement", at_row(of_kind("free"), lambda _, row: replace(row, kind="unfinished"))),
    "a byte more of a kind": Plant(
        "sums", in_totals(lambda it: replace(it, kinds=((it.kinds[0][0], it.kinds[0][1] + 1), *it.kinds[1:])))
    ),
    "a kind is left out": Plant("sums", in_totals(lambda it: replace(it, kinds=it.kinds[1:]))),
    "a finding is not counted": Plant("sums", in_totals(lambda it: replace(it, findings=max(it.findings - 1, 0)))),
    "fixed files count as findings": Plant(
        "sums", in_totals(lambda it: replace(it, findings=it.findings + it.fixed, fixed=0))
    ),
    "the image is shorter": Plant("sums", in_totals(lambda it: replace(it, length=it.length - 1))),
    "the status is always 0": Plant("status", with_status(lambda rows: 0)),
    "the status is always 1": Plant("status", with_status(lambda rows: 1)),
    "fixed files change the status": Plant("status", with_status(lambda rows: int(any(it.findings for it in rows)))),
}


def changes(pick: random.Random, image: bytes, survey: Survey, names: Sequence[str]) -> Iterator[tuple[str, Survey]]:
    """Yields the surveys with each of these planted faults for which the survey has a place."""
    for name in names:
        if changed := PLANTS[name].change(pick, image, survey):
            yield name, changed
