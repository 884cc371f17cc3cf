# SPDX-License-Identifier: BSD-2-Clause-Patent
"""`python3 -m fv`: its lines have what the package's calls return, as text and as JSON. The tests use an installed
package, or the package that PYTHONPATH names."""

import dataclasses
import enum
import json
import os
import signal
import sys
import uuid
from typing import Any

import fv
import rows
from tests import making
from tests.frame import RoomCase, needs_library
from tests.python.outcomes import closed, outcome, packings, volume_of

Line = dict[str, Any]
COMMAND = (sys.executable, "-B", "-m", "fv")
# Each command takes a process for each file, so only a few files are tried: flash images, a volume, a rejected volume,
# and files without a volume.
FILES = {name: making.IMAGES[name]() for name in ("stored.fd", "deep.fd", "damaged.fd", "nested.fv", "none.bin")}
FILES |= {"empty": b"", "depex": rows.spelled("depex-fault"), "named": rows.spelled("ext-header-bare")}


def json_of(value: Any) -> Any:
    """Returns the value of a field in the form of JSON."""
    if isinstance(value, tuple):
        return [json_of(it) for it in value]
    return value.name.lower() if isinstance(value, enum.Enum) else str(value) if isinstance(value, uuid.UUID) else value


def fields_of(row: Any) -> Line:
    """Returns the fields of a row in the form of JSON."""
    return {it.name: json_of(getattr(row, it.name)) for it in dataclasses.fields(row)}


def scan(data: bytes) -> list[Line]:
    """Returns the line of a volume's header, without the offset."""
    return [{name: it for name, it in fields_of(fv.header_read(data)).items() if name != "offset"}]


def tree(data: bytes) -> list[Line]:
    """Returns the lines of a volume's tree."""
    return [{"row": row, **fields_of(node)} for row, node in enumerate(fv.volume_tree(data))]


def digests(data: bytes) -> list[Line]:
    """Returns the lines of the digests of a volume's parts."""
    found = [(line, digest) for line, digest in zip(tree(data), fv.volume_tree_digests(data)) if digest]
    return [{it: line[it] for it in ("row", "kind", "efi_type", "guid")} | {"sha256": it.hex()} for line, it in found]


# The lines of each command for a volume, without the volume's offset.
COMMANDS = {
    "scan": scan,
    "tree": tree,
    "cells": lambda data: [*map(fields_of, fv.volume_cells(data))],
    "check": lambda data: [{"canonical": fv.volume_is_canonical(data)}],
    "digests": digests,
}


def lines_of(command: str, data: bytes) -> list[Line]:
    """Returns the lines of a command for an image: the lines of each volume or its fault, or the fault of an image
    without volumes."""
    found: list[Line] = []
    places = [(it.offset, data[it.offset : it.offset + it.length]) for it in fv.image_scan(data)] or [(0, data)]
    for at, volume in places:
        lines = outcome(COMMANDS[command], volume)
        if isinstance(lines, fv.Fault):
            lines = [{"fault": lines.number, "offset": lines.offset, "depth": lines.depth, "text": lines.text}]
        found += [{"volume": at, **line} for line in lines]
    return found


def text_of(line: Line) -> str:
    """Returns a line in the form of text. A row of a tree has an indent in place of its depth."""
    if "parent" in line:
        names = ("offset", "length", "content", "efi_type", "attributes", "header_length", "guid", "file_system")
        rest = {name: line[name] for name in names}
        return f"volume {line['volume']} {'  ' * line['depth']}{text_of({line['kind']: line['index'], **rest})}"
    shown = ((name, str(it).lower() if isinstance(it, bool) else it) for name, it in line.items() if it is not None)
    return " ".join(f"{name} {it}" for name, it in shown)


@needs_library
class Lines(RoomCase):
    """The output and the exit status of each command."""

    @classmethod
    def setUpClass(cls) -> None:
        super().setUpClass()
        for name, data in FILES.items():
            (cls.room / name).write_bytes(data)

    def test_lines(self) -> None:
        for name, data in FILES.items():
            for command in COMMANDS:
                wanted = lines_of(command, data)
                states = (2 if "fault" in it else int(it.get("canonical") is False) for it in wanted)
                status = max(states, default=0)
                text = "".join(f"{text_of(it)}\n" for it in wanted)
                with self.subTest(name, command=command):
                    said = self.runs(status, *COMMAND, command, name, "--json")
                    self.assertEqual([*map(json.loads, said.splitlines())], wanted)
                    self.expect(status, text.rstrip("\n"), *COMMAND, command, name)

    def test_text(self) -> None:
        form, length = "efi_type 7 attributes 0", "header_length 72"
        name = "0a0a0a0a-0a0a-0a0a-0a0a-0a0a0a0a0a0a"
        for command, lines in (
            ("check", ["volume 0 canonical true"]),
            ("cells", [f"volume 0 offset 72 length 30 kind file header_length 24 {form} name {name}"]),
            (
                "tree",
                [
                    f"volume 0 volume 0 offset 0 length 128 content files attributes 327423 {length} file_system 2",
                    f"volume 0   file 0 offset 96 length 6 content sections {form} header_length 24 guid {name}",
                    "volume 0     section 0 offset 100 length 2 content bytes efi_type 19 header_length 4",
                ],
            ),
        ):
            self.assertEqual(self.run_command(*COMMAND, command, "depex").stdout.splitlines()[: len(lines)], lines)

    def test_survey(self) -> None:
        for name, data in FILES.items():
            found = fv.image_survey(data)
            with self.subTest(name):
                said = self.runs(0, *COMMAND, "survey", name, "--json")
                self.assertEqual([*map(json.loads, said.splitlines())], [*map(fields_of, found)])
                text = self.runs(0, *COMMAND, "survey", name).splitlines()
                words = [f"{'  ' * it.depth}{it.kind.name.lower()} offset {it.offset} length {it.length}" for it in found]
                self.assertEqual([line[: len(it)] for line, it in zip(text, words)], words)
                self.assertEqual(len(text), len(words))

    def test_open(self) -> None:
        packed = {it.way.name: volume_of(it.section) for it in packings()}
        damaged = [volume_of(section) for section, _, _ in closed()[2:]]
        for name, data in {**FILES, **packed, **{f"damaged {i}": it for i, it in enumerate(damaged)}}.items():
            (self.room / name).write_bytes(data)
            with self.subTest(name), fv.image_open(data) as image:
                rows_of_all = [(it.number, row) for it in image.sources for row in it.rows]
                said = [*map(json.loads, self.runs(0, *COMMAND, "open", name, "--json").splitlines())]
                wanted = [{"source": source, **fields_of(row)} for source, row in rows_of_all]
                self.assertEqual(said[: len(wanted)], wanted)
                names = ("source", "offset", "length", "depth", "reason")
                places = [tuple(json_of(getattr(it, name)) for name in names) for it in image.closed]
                names = (*names[:-1], "closed")
                self.assertEqual([tuple(it[name] for name in names) for it in said[len(wanted) :]], places)
                text = self.runs(0, *COMMAND, "open", name).splitlines()
                starts = [f"source {source} {'  ' * it.depth}{it.kind.name.lower()} offset" for source, it in rows_of_all]
                self.assertEqual([line[: len(it)] for line, it in zip(text, starts)], starts)
                self.assertEqual(len(text), len(said))

    def test_survey_text(self) -> None:
        data = bytearray(FILES["depex"])
        data[50] ^= 1
        (self.room / "wrong sum").write_bytes(data)
        lines = [
            "volume offset 0 length 128 name 8c8ce578-8a3d-4f1c-9935-896185c32dd3 found true findings header_sum",
            "  volume_header offset 0 length 72",
            "  file offset 72 length 32 efi_type 7 name 0a0a0a0a-0a0a-0a0a-0a0a-0a0a0a0a0a0a",
            "    file_header offset 72 length 24",
            "    section offset 96 length 6 efi_type 19",
        ]
        self.assertEqual(self.runs(0, *COMMAND, "survey", "wrong sum").splitlines()[: len(lines)], lines)

    def test_usage(self) -> None:
        for words in ((), ("tree",), ("files", "named"), ("tree", "named", "named"), ("tree", "named", "--sums")):
            self.refuses("usage: python3 -m fv [", *COMMAND, *words)

    def test_missing_file(self) -> None:
        said = self.run_command(*COMMAND, "tree", "missing")
        self.assertEqual((said.returncode, said.stdout, said.stderr[:15]), (2, "", "python3 -m fv: "))

    def test_outputs(self) -> None:
        # The output is full, or closed.
        shell = ("bash", "-c", '"$@" check named > /dev/full', "bash", *COMMAND)
        self.assertEqual(self.run_command(*shell).returncode, 4)
        reader, writer = os.pipe()
        os.close(reader)
        closed = self.run_command(*COMMAND, "check", "named", capture_output=False, stdout=writer, stderr=-1)
        os.close(writer)
        self.assertEqual((closed.returncode, closed.stderr), (-signal.SIGPIPE, ""))
