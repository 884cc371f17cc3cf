# SPDX-License-Identifier: BSD-2-Clause-Patent
"""Makes the output and the exit status of each command of the program from the results of the package's calls:

    python3 -m tests.python.said FILE..

prints them for each FILE, with digits in place of bytes."""

import collections
import itertools
import sys
import uuid
from collections.abc import Callable, Iterator, Sequence
from pathlib import Path

import fv
from tests.fuzz.maker import leaf_note
from tests.python.outcomes import outcome
from tests.survey_laws.rows import FIXED, LEAVES, OUTER

# An exit status, and the bytes on standard output.
Said = tuple[int, bytes]
# The phases of the types of sections with dependency expressions.
PHASES = {0x13: fv.Phase.DXE, 0x1B: fv.Phase.PEI, 0x1C: fv.Phase.DXE}
# The text that the program writes about an accepted volume that is its own image, or another one.
VERDICTS = {True: "canonical", False: "not canonical"}
# How many parts of a volume are extracted.
EXTRACTED = 10
# The limits of a run through packed sections: how deep they nest, the length of the contents of one section and of all
# together, and how many bytes opened contents count for at least, and a section that a decoder rejects.
NESTING, CONTENTS, ALL_CONTENTS, LEAST_PRICE, FAILURE_PRICE = 8, 2**28, 2**30, 2**16, 2**24
# The faults of a section that a decoder has rejected: damaged data, and contents that are too long.
DECODED = (3, 5)


def text(lines: list[str]) -> bytes:
    """Returns lines as the program writes them."""
    return "".join(f"{line}\n" for line in lines).encode()


def fault_text(fault: fv.Fault) -> str:
    """Returns the text that the program writes for a fault."""
    return f"fault {fault.number} at {fault.offset}"


def inner_text(fault: fv.Fault) -> str:
    """Returns the text that `list --open` writes for a fault of a packed section, or of its contents."""
    return f"fault {fault.number} at +{fault.offset}"


def way_text(way: fv.Way, length: int) -> str:
    """Returns the text that the program writes for the way that gave some contents, and for their length."""
    return f"{way.name.lower().replace('_', '-')} {length}" + " not verified" * (way is fv.Way.SIGNED)


def caught(make: Callable[[bytes], Said], data: bytes, before: str = "") -> Said:
    """Returns what a command writes about some data, or the status and the line of its fault."""
    try:
        return make(data)
    except fv.FaultError as error:
        return 2, text([before + fault_text(error.fault)])


def check_all(data: bytes) -> Said:
    """Makes the output of `check --all`."""
    lines, worst = [], 0
    for it in fv.image_check(data):
        found = fault_text(it.fault) if it.fault else VERDICTS[it.canonical]
        worst = max(worst, 2 if it.fault else int(not it.canonical))
        lines.append(f"volume at {it.offset} length {it.length} {found}")
    return worst, text(lines)


def check(data: bytes) -> Said:
    """Makes the output of `check`."""
    is_canonical = fv.volume_is_canonical(data)
    return int(not is_canonical), text([*pad_notes(data), *expression_notes(data), VERDICTS[is_canonical]])


def pad_notes(data: bytes) -> Iterator[str]:
    """Yields the notes of `check` about pads that hold bytes."""
    erased = fv.header_read(data).erased_byte
    for it in fv.volume_cells(data):
        if it.kind is fv.CellKind.PAD and it.header_length:
            body = data[it.offset + it.header_length : it.offset + it.length]
            if held := len(body) - body.count(erased):
                yield f"note pad at {it.offset} holds {held} bytes"


def expression_notes(data: bytes) -> Iterator[str]:
    """Yields the notes of `check` about dependency expressions that are rejected."""
    for _, node, file in outer(fv.volume_tree(data)):
        if node.kind is fv.NodeKind.SECTION and node.efi_type in PHASES:
            body = data[node.offset : node.offset + node.length]
            fault = outcome(fv.depex_evaluate, body, PHASES[node.efi_type])
            if isinstance(fault, fv.Fault):
                yield f"note depex in {file.guid} {fault_text(fault)}"


def cells(data: bytes) -> Said:
    """Makes the output of `cells`."""
    lines = [f"header at 0 length {fv.header_read(data).first_file}"]
    filler, sums = 0, collections.Counter[str]()
    for it in fv.volume_cells(data):
        length = (it.length + 7) // 8 * 8 if it.header_length else it.length
        line = f"{it.kind.name.lower()} at {it.offset} length {length}"
        if it.kind is fv.CellKind.FILE and it.header_length:
            line += f" {it.name} type {it.efi_type:02x} attributes {it.attributes:02x}"
            line += f" data at {it.offset + it.header_length} length {it.length - it.header_length}"
        lines.append(line)
        filler += length - it.length
        sums["DELETED" if it.kind is fv.CellKind.UNFINISHED else it.kind.name] += it.length
    totals = f"files {sums['FILE']} pads {sums['PAD']} deleted {sums['DELETED']} filler {filler} free {sums['FREE']}"
    lines.append(f"sums {totals}")
    return 0, text(lines)


def volume_name(volume: bytes) -> str:
    """Returns the text that `list` writes about the extended header of a volume, if it has one."""
    at = int.from_bytes(volume[52:54], "little")
    return f" name {uuid.UUID(bytes_le=volume[at : at + 16])}" if at else ""


def node_line(node: fv.Node, held: int, body: bytes) -> str:
    """Returns the line of `list` for a row that holds this many rows and these bytes."""
    if node.kind is fv.NodeKind.VOLUME:
        line = f"volume ffs{node.file_system} length {node.length} files {held}{volume_name(body)}"
    elif node.kind is fv.NodeKind.FILE:
        form = f"type {node.efi_type:02x} attributes {node.attributes:02x}"
        line = f"file {node.index} {node.guid} {form} data {node.length}"
    else:
        form = "extended" if node.header_length == 8 else "short"
        note = leaf_note(node.efi_type or 0, body) if node.content is fv.Content.BYTES else ""
        line = f"section {node.index} type {node.efi_type:02x} {form} body {node.length}{note}"
    return "  " * node.depth + line


def listed(data: bytes, has_sums: bool = False) -> Said:
    """Makes the output of `list`, or of `list --sums`."""
    volume = front(data)
    nodes = fv.volume_tree(volume)
    sums = fv.volume_tree_digests(volume) if has_sums else itertools.repeat(None)
    held = collections.Counter(node.parent for node in nodes)
    lines = []
    for (row, node), digest in zip(enumerate(nodes), sums):
        line = node_line(node, held[row], volume[node.offset : node.offset + node.length])
        lines.append(line + (f" sha256 {digest.hex()}" if digest else ""))
    return 0, text(lines)


class Opening:
    """A run through packed sections: the lines of `list --open`, the volumes in the order of their lines, the number of
    packed sections whose contents were not searched, and the length that further contents may have."""

    def __init__(self) -> None:
        self.lines: list[str] = []
        self.volumes: list[bytes] = []
        self.unread = 0
        self.left = ALL_CONTENTS

    def go_through(self, data: bytes, nodes: Sequence[fv.Node], depth: int = 0, deeper: int = NESTING) -> None:
        """Adds the rows of some data, and of the contents of the packed sections among them. Packed sections may nest
        `deeper` deep."""
        held = collections.Counter(node.parent for node in nodes)
        for row, node in enumerate(nodes):
            body = data[node.offset : node.offset + node.length]
            self.lines.append("  " * depth + node_line(node, held[row], body))
            if node.kind is fv.NodeKind.VOLUME:
                self.volumes.append(body)
            elif node.efi_type in (1, 2) and node.content is fv.Content.BYTES and node.kind is fv.NodeKind.SECTION:
                section = data[node.offset - (node.header_length or 0) : node.offset + node.length]
                self.open(section, depth + node.depth + 1, deeper)

    def say(self, why: str) -> None:
        """Adds to the last line why the contents of its section are not listed."""
        self.lines[-1] += f" {why}"
        self.unread += 1

    def open(self, section: bytes, depth: int, deeper: int) -> None:
        """Adds the contents of a packed section, whose line is the last one."""
        if not deeper or not self.left:
            self.say("not opened: " + ("total limit reached" if deeper else "nested too deep"))
            return
        found = outcome(fv.section_open, section, min(self.left, CONTENTS))
        if isinstance(found, fv.Fault):
            self.left = max(self.left - FAILURE_PRICE * (found.number in DECODED), 0)
            self.say(f"not opened: section {inner_text(found)}")
            return
        length = len(found.contents)
        self.lines[-1] += f" {way_text(found.way, length)}"
        self.left = max(self.left - max(length, LEAST_PRICE), 0)
        nodes = outcome(fv.sections_tree, found.contents)
        if isinstance(nodes, fv.Fault):
            self.say(f"not sections: {inner_text(nodes)}")
            return
        self.go_through(found.contents, nodes, depth, deeper - 1)


def opened(data: bytes) -> Opening:
    """Goes through the volume with which some data begin, and through its packed sections."""
    volume, run = front(data), Opening()
    run.go_through(volume, fv.volume_tree(volume))
    return run


def hobs(data: bytes) -> Said:
    """Makes the output of `hobs`."""
    found = fv.hobs_read(data)
    lines = [f"hob {it.hob_type:04x} length {it.hob_length}" for it in found.blocks]
    return 0, text([*lines, f"consumed {found.length}"])


def compare(first: bytes, second: bytes) -> Said:
    """Makes the output of `compare`."""
    found = outcome(fv.volume_compare, first, second)
    if isinstance(found, fv.Fault):
        return 2, text([f"{'second' if found.input else 'first'} {fault_text(found)}"])
    return int(found is not None), text([found or "same"])


def front(data: bytes) -> bytes:
    """Returns the volume with which some data begin, or all of the data if they do not begin with a volume."""
    header = outcome(fv.header_read, data)
    return data if isinstance(header, fv.Fault) else data[: header.length]


def outer(nodes: Sequence[fv.Node]) -> Iterator[tuple[int, fv.Node, fv.Node]]:
    """Yields the files of a volume and their sections, without the contents of nested volumes: the number of each row,
    the row, and the row of its file."""
    files: dict[int | None, fv.Node] = {}
    for row, node in enumerate(nodes):
        if node.depth == 1 or node.kind is fv.NodeKind.SECTION and node.parent in files:
            files[row] = file = node if node.depth == 1 else files[node.parent]
            yield row, node, file


def parts(nodes: Sequence[fv.Node]) -> Iterator[tuple[int, list[str]]]:
    """Yields the rows that `extract` can name, with its arguments."""
    counts = collections.Counter[tuple[uuid.UUID | None, int | None]]()
    for row, node, file in outer(nodes):
        words = ["--name", str(file.guid)]
        if node.kind is fv.NodeKind.SECTION:
            counts[file.guid, node.efi_type] += 1
            words += ["--section", f"{node.efi_type:02x}", "--instance", str(counts[file.guid, node.efi_type])]
        yield row, words


def row_text(row: fv.SurveyRow) -> str:
    """Returns the line of a row of a survey."""
    kind, name, efi_type = (OUTER + LEAVES)[row.kind - 1], row.name or uuid.UUID(int=0), f"{row.efi_type or 0:02x}"
    about = {
        "volume": f" system {name}" + " found" * row.found,
        "file": f" {name} type {efi_type}",
        "section": f" type {efi_type}",
    }
    findings = " finding " * bool(row.findings) + ",".join(f"{it:d}" for it in row.findings)
    return f"{'  ' * row.depth}{kind} at {row.offset} length {row.length}{about.get(kind, '')}{findings}"


def survey_lines(rows: Sequence[fv.SurveyRow], size: int) -> tuple[int, list[str]]:
    """Returns the lines for some rows of a survey, which account for this many bytes, and the exit status."""
    lengths = collections.Counter[str]()
    for row in rows:
        lengths[(OUTER + LEAVES)[row.kind - 1]] += row.length
    found = [[int(it) for it in row.findings] for row in rows if row.findings]
    others = sum(it != [FIXED] for it in found)
    sums = "".join(f" {it} {lengths[it]}" for it in LEAVES if lengths[it])
    last = f"sums{sums} all {size} findings {others} fixed {len(found) - others}"
    return int(others > 0 or lengths["unread"] > 0), [*map(row_text, rows), last]


def survey(data: bytes) -> Said:
    """Makes the output of `survey`."""
    status, lines = survey_lines(fv.image_survey(data), len(data))
    return status, text(lines)


def place_text(section: fv.PackedSection) -> str:
    """Returns where a packed section is."""
    return f"in {section.source} at {section.offset} length {section.length}"


def source_line(number: int, section: fv.PackedSection) -> str:
    """Returns the line of the source with this number, which is the contents of this section."""
    assert section.way is not None and section.contents_length is not None
    return f"source {number} {place_text(section)} {way_text(section.way, section.contents_length)}"


def closed_line(section: fv.PackedSection) -> str:
    """Returns the line of a section that is not opened."""
    fault = f"section {inner_text(section.fault)}" if section.fault else ""
    why = {fv.Reason.DEPTH: "nested too deep", fv.Reason.LIMIT: "total limit reached"}
    return f"closed {place_text(section)} not opened: {fault or why[section.reason or fv.Reason.LIMIT]}"


def survey_opened(data: bytes) -> Said:
    """Makes the output of `survey --open`."""
    with fv.image_open(data) as image:
        worst, lines = int(len(image.closed) > 0), list[str]()
        for number, source in enumerate(image.sources):
            status, own = survey_lines(source.rows, len(source.bytes))
            lines += [*(source_line(number, it) for it in [source.packed] if it), *own]
            worst = max(worst, status)
        lines += map(closed_line, image.closed)
        return worst, text([*lines, f"opened {len(image.sources) - 1} closed {len(image.closed)}"])


# The commands with one input, except `extract`.
COMMANDS: dict[str, Callable[[bytes], Said]] = {
    "normalise": lambda data: (0, fv.volume_normalise(data)),
    "normalise --all": lambda data: (0, fv.image_normalise(data)),
    "unfix": lambda data: (0, fv.volume_unfix(data)),
    "check": check,
    "check --all": check_all,
    "scan": lambda data: (0, text([f"volume at {it.offset} length {it.length}" for it in fv.image_scan(data)])),
    "survey": survey,
    "survey --open": survey_opened,
    "cells": cells,
    "hobs": hobs,
    "list": listed,
    "list --sums": lambda data: listed(data, True),
    "list --open": lambda data: (0, text(opened(data).lines)),
    "open": lambda data: (0, fv.section_open(data).contents),
}
# What comes before the words of a fault, for commands whose faults are not faults of a volume.
FAULT_NAMES = {"hobs": "hob ", "open": "section "}
# The commands that write bytes, or digits if they have the option --hex.
OF_BYTES = ("normalise", "unfix", "extract", "open")


def made_by(command: str, data: bytes) -> Said:
    """Returns what a command of COMMANDS writes about some data."""
    return caught(COMMANDS[command], data, FAULT_NAMES.get(command, ""))


def extract(data: bytes, words: list[str]) -> Said:
    """Returns what `extract` writes with these arguments, for a part of any file that is not a security core."""
    volume = front(data)
    nodes = outcome(fv.volume_tree, volume)
    if isinstance(nodes, fv.Fault):
        return 2, text([fault_text(nodes)])
    named = {" ".join(it): row for row, it in parts(nodes)}
    if " ".join(words) in named:
        row = named[" ".join(words)]
        return caught(lambda it: (0, fv.volume_extract(it, row)), volume)
    file = named.get(" ".join(words[:2]))
    return 1, text(["not found" if file is None or nodes[file].content is fv.Content.SECTIONS else "not sectioned"])


def extract_open(data: bytes, words: list[str]) -> Said:
    """Returns what `extract --open` writes with these arguments, for a part of any file that is not a security core."""
    run = outcome(opened, data)
    if isinstance(run, fv.Fault):
        return 2, text([fault_text(run)])
    for volume in run.volumes:
        if any(str(it.guid) == words[1] for it in fv.volume_tree(volume) if it.depth == 1):
            return extract(volume, words)
    return 1, text([f"not found, {run.unread} sections not searched" if run.unread else "not found"])


def outputs(data: bytes) -> Iterator[tuple[list[str], Said]]:
    """Yields what each command with one input writes about some data: its words, and the output."""
    for command in COMMANDS:
        yield command.split(), made_by(command, data)
    nodes = outcome(fv.volume_tree, front(data))
    named = () if isinstance(nodes, fv.Fault) else itertools.islice(parts(nodes), EXTRACTED)
    for words in [*(words for _, words in named), ["--name", str(uuid.UUID(int=0))]]:
        yield ["extract", *words], extract(data, words)
        yield ["extract", "--open", *words], extract_open(data, words)


def main() -> None:
    """Prints the outputs of all commands for files."""
    for path in sys.argv[1:]:
        for words, (status, output) in outputs(Path(path).read_bytes()):
            print(path, *words, status, output.hex() if words[0] in OF_BYTES else output.decode())


if __name__ == "__main__":
    main()
