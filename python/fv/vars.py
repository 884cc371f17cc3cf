# SPDX-License-Identifier: BSD-2-Clause-Patent
"""Lists the variables in the variable stores of a flash image.

    fv-vars IMAGE
    fv-vars --all IMAGE
    fv-vars --json IMAGE | jq '.parts[] | select(.name == "SecureBoot")'

EDK II keeps the variables of UEFI in a store, which is the body of a volume with a file system of its own. The stores
are read by the library libfv, which is proved to account for each byte of them. If the image has no such volume, all of
its bytes are read, so that a store without its volume is found too. Packed sections are not opened.

A line shows the offset of a variable, what its State says, its attributes, the GUID of its vendor with EDK II's name,
its own name, the number of bytes of its data, and their SHA-256. NV: non-volatile. BS, RT: boot services and runtime
can access it. HR: a hardware error record. AW, AT, EA: authenticated writes (by a count, by a time, or enhanced). AP:
appended writes. The signatures in PK, KEK, db and dbx follow, each with its type, its owner, and the SHA-256 of its
data: of a certificate, or of an image (then the data are the SHA-256).

Only variables that count are shown: those that are added, and one that is about to be replaced if no other has its
name. A second variable with the same vendor and name is shown too. With --all, all bytes of the stores are shown: also
deleted variables, fillers and free bytes. Bytes that cannot be read, and what is wrong, are always shown.

Exit status 0: everything is read. 1: bytes are not read, something is wrong, or two variables have the same name and
vendor. 2: the image has no variable store, cannot be read, or exceeds a limit. 3: the arguments are wrong. 4: the
library libfv cannot be used, the output cannot be written, or memory ran out."""

from __future__ import annotations

import argparse
import hashlib
import json
import struct
import uuid
from collections.abc import Iterable, Iterator, Sequence
from dataclasses import dataclass, replace
from typing import Any

from . import cli
from ._calls import image_survey, signatures_read, variables_read
from ._native import Finding, PartKind, RowKind, VariableStatus
from ._types import VariableRow
from .limits import Full, Limits
from .names import Names
from .shown import indented, quoted

NAME = "fv-vars"
MOST_ROWS = 10 * Limits().parts  # of one survey, or of one store
ATTRIBUTES = {1 << bit: word for bit, word in enumerate("NV BS RT HR AW AT AP EA".split())}
GLOBAL = uuid.UUID("8be4df61-93ca-11d2-aa0d-00e098032b8c")  # gEfiGlobalVariableGuid
DATABASE = uuid.UUID("d719b2cb-3d3a-4596-a3bc-dad00e67656f")  # gEfiImageSecurityDatabaseGuid
KEYS = {"PK", "KEK", "db", "dbx", "dbt", "dbr"}
KEYS |= {f"{it}Default" for it in KEYS}  # the variables whose data are signature lists
SHA256 = uuid.UUID("c1c41626-504c-4092-aca9-41f936934328")  # gEfiCertSha256Guid
OWNER = 16  # bytes of a signature before its data
TIME = struct.Struct("<HBBBBB")  # the beginning of an EFI_TIME
WRONG = {
    Finding.STORE_SIZE: "Size of the store is not possible, so it is read up to the end",
    Finding.STORE_STATE: "EDK II does not use the store, by its Format and State",
    Finding.START_ID: "no variable begins here, and the bytes are not erased",
    Finding.VARIABLE_SIZE: "the variable does not fit into the store",
    Finding.QUEUE_SIZE: "WriteQueueSize is not possible, so the block is read up to the end",
    Finding.NO_STORE: "the bytes are in no store, and are not erased",
    Finding.LIST_SIZE: "the sizes of a signature list are not possible",
    Finding.SIGNATURE_SIZE: "the signature list has no room for another signature",
}


@dataclass(frozen=True)
class Part:
    """A part of a store, as it is shown: what it is, its place in the image, what is wrong with it, whether it is only
    shown with --all, its other columns, and the parts of the signature lists in it."""

    what: str
    offset: int
    length: int
    wrong: tuple[str, ...]
    is_extra: bool
    columns: dict[str, Any]
    lists: tuple[Part, ...] = ()

    @property
    def is_right(self) -> bool:
        """Whether nothing is wrong with this part and with the parts in it."""
        return not self.wrong and all(it.is_right for it in self.lists)


class Store:
    """The rows of a store, or the rows before the first store, in some bytes that begin at an offset of the image."""

    def __init__(self, rows: Sequence[VariableRow], body: memoryview, start: int, names: Names) -> None:
        self._rows, self._body, self._start, self._names = rows, body, start, names
        self._first: dict[tuple[uuid.UUID | None, bytes], int] = {}  # the variables that count, by vendor and name
        found = [it for it in rows if it.status is VariableStatus.ADDED]
        replaced = [it for it in rows if it.status is VariableStatus.REPLACED]
        self._twice = {it.offset for it in found if self._first.setdefault(self._key(it), it.offset) != it.offset}
        added = frozenset(self._first)
        for it in reversed(replaced):
            if self._key(it) not in added and self._first.setdefault(self._key(it), it.offset) != it.offset:
                self._twice.add(it.offset)

    def parts(self) -> Iterator[Part]:
        """Yields the parts."""
        for row in self._rows:
            wrong = (WRONG.get(row.finding, f"finding {row.finding}"),) if row.finding else ()
            what, columns, is_extra = row.part.name.lower().replace("_", " "), dict[str, Any](), False
            lists: tuple[Part, ...] = ()
            if row.part is PartKind.STORE_HEADER:
                what, columns = "store", {"format": row.format and row.format.name.lower(), "size": row.size}
            elif row.part is PartKind.VARIABLE:
                columns, lists = self._columns(row), tuple(self._signatures(row))
                is_twice, first = row.offset in self._twice, self._first.get(self._key(row))
                is_extra = row.offset != first and not is_twice
                wrong += (f"the variable at {self._start + (first or 0)} has the same vendor and name",) if is_twice else ()
            else:
                is_extra = not wrong and row.part is not PartKind.WORKING_BLOCK
            yield Part(what, self._start + row.offset, row.length, wrong, is_extra, columns, lists)

    def _name(self, row: VariableRow) -> bytes:
        """Returns the name of a variable, as it is stored."""
        return bytes(self._body[row.name_offset : row.data_offset])

    def _key(self, row: VariableRow) -> tuple[uuid.UUID | None, bytes]:
        """Returns what no two variables share."""
        return row.guid, self._name(row)

    def _data(self, row: VariableRow) -> memoryview:
        """Returns the data of a variable."""
        return self._body[row.data_offset : row.data_offset + (row.data_size or 0)]

    def _columns(self, row: VariableRow) -> dict[str, Any]:
        """Returns the columns of a variable."""
        status = row.status.name.lower().replace("_", " ") if row.status else ""
        columns = {"status": status, "state": row.state, "attributes": attributes(row.attributes or 0)}
        columns |= named("vendor", row.guid, self._names) | {"name": text_of(self._name(row))}
        columns |= {"data": row.data_size, "sha256": hashlib.sha256(self._data(row)).hexdigest()}
        if row.time_stamp is not None:
            year, month, *clock = TIME.unpack_from(row.time_stamp)
            time = f"{year:04}-{month:02}-{clock[0]:02} {clock[1]:02}:{clock[2]:02}:{clock[3]:02}"
            columns |= {"count": row.monotonic_count, "time": time, "key": row.public_key}
        return columns

    def _signatures(self, row: VariableRow) -> Iterator[Part]:
        """Yields the parts of the signature lists of a variable that has such lists as data."""
        if row.guid not in (GLOBAL, DATABASE) or text_of(self._name(row)) not in KEYS:
            return
        data, kind = self._data(row), dict[str, Any]()
        for it in limited(signatures_read(data)):
            where = self._start + row.data_offset + it.offset
            wrong = (WRONG.get(it.finding, f"finding {it.finding}"),) if it.finding else ()
            if it.part is PartKind.SIGNATURE:
                body = data[it.offset + OWNER : it.offset + it.length]
                is_digest = kind["type"] == str(SHA256) and len(body) == hashlib.sha256().digest_size
                digest = bytes(body).hex() if is_digest else hashlib.sha256(body).hexdigest()
                columns = {**kind, **named("owner", it.guid, self._names), "data": len(body), "sha256": digest}
                yield Part("signature", where, it.length, wrong, False, columns)
            elif it.part is PartKind.LIST_HEADER:
                kind = named("type", it.guid, self._names)
                yield Part("list", where, it.length, wrong, True, {**kind, "size": it.size})
            else:
                yield Part(it.part.name.lower(), where, it.length, wrong, False, {})


def named(column: str, guid: uuid.UUID | None, names: Names) -> dict[str, Any]:
    """Returns the columns of a GUID: itself, and EDK II's name for it, if there is one."""
    name = names.of(guid)
    return {column: str(guid), **({f"{column}_name": name} if name else {})}


def attributes(bits: int) -> str:
    """Returns the attributes of a variable in words."""
    rest = bits & ~sum(ATTRIBUTES)
    return " ".join([*(word for bit, word in ATTRIBUTES.items() if bits & bit), *([f"0x{rest:x}"] if rest else [])])


def text_of(name: bytes) -> str | None:
    """Returns the name of a variable without the zeros that end it. The result is None if no zeros do."""
    is_text = len(name) % 2 == 0 and name[-2:] == b"\0\0"
    return name[:-2].decode("utf-16-le", "surrogatepass") if is_text else None


def limited(rows: Sequence[Any]) -> Sequence[Any]:
    """Returns these rows. Raises Full if there are too many."""
    if len(rows) > MOST_ROWS:
        raise Full(f"{MOST_ROWS} rows")
    return rows


def parts_of(image: bytes, names: Names) -> Iterator[Part]:
    """Yields the parts of the bytes that may be stores: the bodies of volumes that hold no files, or all bytes of the
    image if there are none."""
    view = memoryview(image)
    bodies = [(it.offset, it.length) for it in limited(image_survey(image)) if it.kind is RowKind.STORE]
    for start, length in bodies or [(0, len(image))]:
        body = view[start : start + length]
        rows = limited(variables_read(body))
        starts = [place for place, it in enumerate(rows) if it.part is PartKind.STORE_HEADER]
        for first, last in zip([0, *starts], [*starts, len(rows)]):
            yield from Store(list(rows[first:last]), body, start, names).parts()


def text(part: Part) -> Iterator[str]:
    """Yields the lines of a part."""
    words = [part.what, f"at {part.offset}", f"length {part.length}"]
    for column, value in part.columns.items():
        if column == "name":
            words.append("without a name" if value is None else quoted(value))
        elif column in ("data", "sha256", "size", "owner"):
            words.append(f"{column} {value}")
        elif column not in ("state", "count", "time", "key"):
            words.append(str(value or "-"))
    yield " ".join(words) + "".join(f"; {it}" for it in part.wrong)
    for it in part.lists:
        yield from indented(text(it))


def as_json(part: Part) -> dict[str, Any]:
    """Returns a part as an object of JSON."""
    lists = {"lists": [as_json(it) for it in part.lists]} if part.lists else {}
    place = {"part": part.what, "offset": part.offset, "length": part.length}
    return {**place, **part.columns, **({"wrong": part.wrong} if part.wrong else {}), **lists}


def shown(parts: Iterable[Part], is_all: bool) -> list[Part]:
    """Returns the parts that are shown, with the parts in them that are shown."""
    found = (it for it in parts if is_all or not it.is_extra)
    return [replace(it, lists=tuple(shown(it.lists, is_all))) for it in found]


parser = cli.of(
    NAME, __doc__, cli.IMAGE, cli.flag("--all", "show all bytes of the stores, also deleted variables"),
    cli.flag("--json", "write one JSON object"),
)  # fmt: skip


@cli.command(parser)
def main(given: argparse.Namespace) -> int:
    """Runs the command."""
    found = list(parts_of(cli.read_for(NAME, given.image), Names()))
    if not any(it.what == "store" for it in found):
        raise cli.Unread(f"{given.image}: no variable store")
    if given.json:
        print(json.dumps({"parts": [as_json(it) for it in shown(found, given.all)]}, indent=2))
    else:
        print(*(line for it in shown(found, given.all) for line in text(it)), sep="\n")
    return cli.DONE if all(it.is_right for it in found) else cli.OTHER
