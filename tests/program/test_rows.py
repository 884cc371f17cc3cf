# SPDX-License-Identifier: BSD-2-Clause-Patent
"""Runs each row of crates/fv_run_tests/rows over the program. Each row is a test: `list.12` is the 12th row of
list.rows, and `two-sections` is the volume of this name.

A row is run over bytes and over hexadecimal text, which --hex reads. It is run only over text if an input is written as
text. The first input is a file, and is then also given on standard input if the command can read it there. The status
and all of standard output have to be as the row says, and standard error has to be empty. Each expression is put into a
volume, which `check` reads. Some inputs are read only from standard input: volumes with expressions, the rows of
`parts`, `lengths`, `bodies`, `read` and `streams`, and the full volumes. The rows of [flash images], [rejected images],
[checked images], [unfit], [extents], [values] and [data] are for tests/python/test_rows.py, which needs the library. It
also makes these runs by calls of the library. The rows of `packed` are for tests/python/test_packed_rows.py.

The number of rows has to be ROWS, so that no row gets lost unnoticed."""

import collections
import concurrent.futures
import itertools
import os
import re
import shlex
import subprocess
import tempfile
import unittest
from collections.abc import Callable, Iterable, Iterator
from dataclasses import dataclass, field
from pathlib import Path

import rows
from tests.checks import ROOT, read
from tests.frame import PROGRAM, needs_program

# The number of rows in all files, and the files, by their names and headings.
ROWS = 1527
FILES = {path.stem: rows.tables(path.stem) for path in sorted(rows.FOLDER.glob("*.rows"))}
# The files whose rows describe runs of a command.
RUNS = ["normalise", "extract", "extract_open", "scan", "survey", "hobs", "list", "list_open", "sums", "check", "cells", "unfix", "open"]
RUNS += ["compare", "same", "placed", "text"]
# The commands with two inputs, which have no standard input.
PAIRS = ("compare", "same")
# The files of the crate's tests that have rows.
TESTS = ["volumes", "command/other_runs", "command/opened_runs"]
NAME = "0a0a0a0a-0a0a-0a0a-0a0a-0a0a0a0a0a0a"
# A function that returns the part of an output that is compared: the last line, or the offsets of the files in the
# lines of `cells`.
Look = Callable[[bytes], object]
LAST_LINE: Look = re.compile(rb"[^\n]*\n\Z").findall
FILE_OFFSETS: Look = re.compile(rb"(?m)^file at (\d+) ").findall


@dataclass(frozen=True)
class Run:
    """A run of the program in a folder with some files: its arguments, its standard input, and the status and the
    output that it should have. `look` returns the part of the output that is compared, by default the whole output."""

    label: str
    arguments: list[str]
    status: int
    output: object
    standard: bytes = b""
    files: dict[str, bytes] = field(default_factory=dict)
    look: Look = bytes


def shown(data: bytes, is_hex: bool) -> bytes:
    """Returns bytes in the form that the program reads and writes: unchanged, or as digits, 32 bytes in a line."""
    if not is_hex:
        return data
    return b"".join(data[at : at + 32].hex().encode() + b"\n" for at in range(0, len(data), 32))


def input_of(words: str, is_hex: bool) -> bytes:
    """Returns the bytes of an input. An input that begins with an apostrophe is written as text."""
    if words.startswith("'"):
        return words[1:].encode().decode("unicode_escape").encode("latin-1")
    return shown(rows.spelled(words), is_hex)


def output_of(text: str, is_hex: bool) -> bytes:
    """Returns the output that a row gives."""
    if text.startswith("="):
        return shown(rows.spelled(text[1:]), is_hex)
    return text.replace("|", "\n").encode()


def options(name: str, words: list[str]) -> list[str]:
    """Returns the options that the words after a command mean."""
    found: list[str] = []
    for option in ("--at", "--other-at"):
        if words[:1] == ["at"]:
            found += [option, words[1]]
            words = words[2:]
    if name in ("extract", "extract-open"):
        byte, section, instance = words
        found += ["--name", NAME.replace("0a", byte), "--instance", instance]
        found += [] if section == "-" else ["--section", section]
    elif name == "open":
        found += [it for word in words for it in ("--section", word)]
    elif name == "hobs" and words:
        found += ["--image", "second", "--base", words[0]]
    return found


def arguments(command: str, is_hex: bool, first: str | None) -> list[str]:
    """Returns the arguments that a command means: `check-all` is `check --all`. Its first input is the file `first`, or
    standard input if there is none. Its second input is the file `second`."""
    name, *words = command.split()
    found = [*name.replace("-", " --").split(), *options(name, words), *["--hex"] * is_hex]
    return found + [it for it in (first, "second" if name in PAIRS else None) if it]


def runs_of(row: str, look: Look = bytes) -> Iterator[Run]:
    """Returns the runs of a row."""
    command, words, wanted = rows.parts(row)
    first, _, second = words.partition(" & ")
    status, _, text = wanted.partition(" ")
    for is_hex in (False, True):
        if not is_hex and "'" in first[:1] + second[:1]:
            continue
        label = row + " (--hex)" * is_hex
        given, other = input_of(first, is_hex), input_of(second, is_hex)
        output = look(output_of(text, is_hex))
        files = {"first": given, "second": other}
        yield Run(label, arguments(command, is_hex, "first"), int(status), output, b"", files, look)
        if command.split()[0] not in PAIRS:
            yield Run(label, arguments(command, is_hex, None), int(status), output, given, {"second": other}, look)


def image_runs(name: str, image: str) -> Iterator[Run]:
    """Returns runs in which `normalise` writes the image of a volume, and `check` reports whether a volume is its own
    image."""
    yield from runs_of(f"normalise: {name} -> 0 ={image}")
    yield from runs_of(f"check: {image} -> 0 canonical|", LAST_LINE)
    if image != name:
        yield from runs_of(f"check: {name} -> 1 not canonical|", LAST_LINE)


def offset_runs(row: str) -> Iterator[Run]:
    """Returns runs in which the files of the image are at the offsets of the row."""
    name, image, offsets = rows.parts(row)
    yield from runs_of(f"normalise: {name} -> 0 ={image}")
    lines = "".join(f"file at {it} |" for it in offsets.split())
    yield from runs_of(f"cells: {image} -> 0 {lines}", FILE_OFFSETS)


def full_runs() -> Iterator[Run]:
    """Returns runs in which a volume with few or many files is its own image."""
    for count in range(301):
        data = rows.full_volume(count)
        yield Run(f"normalise: {count} files", ["normalise"], 0, data, data)


def rejecting_runs(row: str) -> Iterator[Run]:
    """Returns runs in which the command of a row rejects each wrong volume, and each first part of a volume."""
    for name, _, fault in map(rows.parts, rows.VOLUMES["refused"]):
        yield from runs_of(row.replace("VOLUME", name).replace("FAULT", fault))
    empty = rows.spelled("empty")
    for count in range(len(empty)):
        yield from runs_of(row.replace("VOLUME", empty[:count].hex() or "00*0").replace("FAULT", f"fault 1 at {count}"))


def endless_runs(row: str) -> Iterator[Run]:
    """Returns runs in which the input that a row names does not end."""
    command, side, fault = rows.parts(row)
    for is_hex in (False, True):
        given = ["/dev/zero" if it == side else it for it in arguments(command, is_hex, "first")]
        files = {"first": shown(rows.spelled("empty"), is_hex)}
        yield Run(row + " (--hex)" * is_hex, given, 2, f"{fault}\n".encode(), files=files)


def opened_runs(row: str) -> Iterator[Run]:
    """Returns a run with inputs that a command line names."""
    line, _, wanted = row.partition(" -> ")
    status, _, text = wanted.partition(" ")
    files = {"a.fv": rows.spelled("empty"), "b.fv": rows.spelled("H160 ff*88")}
    yield Run(row, line.split()[1:], int(status), f"{text}\n".encode(), rows.spelled("H136 ff*64"), files)


def wrong_runs(row: str) -> Iterator[Run]:
    """Returns a run with a wrong command line."""
    yield Run(row, shlex.split(row.replace("NAME", NAME))[1:], 3, b"wrong words\n")


def body_runs(row: str) -> Iterator[Run]:
    """Returns runs in which `cells` writes where the parts of a body lie, or its fault, in each file system of the row.
    `unfix` reports the same fault, unless the fault is a fixed file. If there is no fault, no file is fixed, and
    `unfix` writes the volume unchanged."""
    status, _, text = rows.parts(row)[2].partition(" ")
    for data in rows.bodies(row):
        yield Run(row, ["cells"], int(status), output_of(text, False), data)
        if not text.startswith("fault 15 "):
            yield Run(f"unfix: {row}", ["unfix"], int(status), output_of(text, False) if int(status) else data, data)


def files_listed(output: bytes) -> str:
    """Returns the lines of `list` on a volume and its files in the form of the rows of `read`."""
    text = output.decode()
    found = re.findall(r"(?m)\Avolume ffs[23] length (\d+) ", text)
    for line, inner in re.findall(r"(?m)^  file (.*)\n((?:    .*\n)*)", text):
        _, name, _, kind, _, attributes, _, length = line.split()
        sections = len(re.findall(r"(?m)^    section ", inner)) if rows.is_stream(int(kind, 16)) else "-"
        found.append(f"{name[6:8]} {kind} {attributes} {length} {sections}")
    return ", ".join(found)


def read_runs() -> Iterator[Run]:
    """Returns runs in which `list` shows the files that a volume should have, or reports its fault."""
    for row, data, result in rows.read("accepted"):
        yield Run(row, ["list"], 0, result, data, look=files_listed)
    for row, data, result in rows.read("rejected"):
        yield Run(row, ["list"], 2, "fault {} at {}\n".format(*result.split()).encode(), data)


def extract_run(label: str, kind: int, data: bytes, words: str, status: int, output: bytes) -> Run:
    """Returns a run of `extract` over the volume whose only file has this type and these data."""
    arguments_of = arguments(f"extract 0a {words}", False, None)
    return Run(f"{label} ({kind}, {words})", arguments_of, status, output, rows.volume_of(rows.file_of(kind, data)))


def stream_runs(label: str, data: bytes, tail: int, sections: list[rows.Section]) -> Iterator[Run]:
    """Returns runs in which a file of type 2 has these sections, and its bytes between and after them are written as
    zeros."""
    lines, image = f"  file 0 {NAME} type 02 attributes 00 data {len(data)}\n", b""
    for number, it in enumerate(sections):
        lines += f"    section {number} type {it.kind:02x} {it.form} body {len(it.body)}\n"
        header = data[it.at : it.at + (8 if it.form == "extended" else 4)]
        image = image.ljust(it.at, b"\0") + header + it.body
    volume = rows.volume_of(rows.file_of(2, data))
    yield Run(label, ["list"], 0, f"volume ffs2 length {len(volume)} files 1\n{lines}".encode(), volume)
    yield extract_run(label, 2, data, "- 1", 0, image + bytes(tail))


def frame_runs(label: str, data: bytes, sections: list[rows.Section]) -> Iterator[Run]:
    """Returns runs in which each section of a security core is found, and no further section of its type is found.
    Groups in a security core are not opened."""
    counts = collections.Counter({0x19: 0})
    for it in sections:
        counts[it.kind] += 1
        yield extract_run(label, 3, data, f"{it.kind:02x} {counts[it.kind]}", 0, it.body)
    for kind, count in counts.items():
        yield extract_run(label, 3, data, f"{kind:02x} {count + 1}", 1, b"not found\n")


def right_stream_runs(row: str) -> Iterator[Run]:
    """Returns runs in which a stream has the sections of its row. The contents of groups are not checked."""
    data, tail, sections = rows.stream(row)
    if not any(it.kind == 3 for it in sections):
        yield from stream_runs(row, data, tail, sections)
    yield from frame_runs(row, data, sections)


def wrong_stream_runs(row: str) -> Iterator[Run]:
    """Returns runs with bytes that are not a stream of sections: a file of type 2 with these data is rejected, and a
    security core with these data has no sections."""
    words, _, result = row.partition(" -> ")
    data, (number, offset) = rows.spelled(words), map(int, result.split())
    yield Run(row, ["list"], 2, f"fault {number} at {96 + offset}\n".encode(), rows.volume_of(rows.file_of(2, data)))
    yield extract_run(row, 3, data, "19 1", 1, b"not sectioned\n")


def many_file_runs() -> Iterator[Run]:
    """Returns runs over volumes with many files: all are listed, a file in the middle is found by its name, and an
    unknown name is not found."""
    for count in (1000, 200_000):
        data, label = rows.full_volume(count), f"{count} files"
        names = [f"{number:08x}-0000-0000-0000-000000000000" for number in range(count + 1)]
        lines = (f"  file {number} {names[number]} type 01 attributes 00 data 0\n" for number in range(count))
        listed = f"volume ffs2 length {len(data)} files {count}\n" + "".join(lines)
        yield Run(label, ["list"], 0, listed.encode(), data)
        yield Run(label, ["extract", "--name", names[(count - 1) // 2]], 0, b"", data)
        yield Run(label, ["extract", "--name", names[count]], 1, b"not found\n", data)


def rejected_runs(row: str) -> Iterator[Run]:
    """Returns runs in which the head of a volume, a hand-off list, or an expression in a volume is rejected as the row
    says."""
    for kind, data, fault in rows.rejected(row):
        label = f"{row} ({len(data)} bytes)"
        said = "fault {} at {}\n".format(*fault) if fault else ""
        if kind == "hobs":
            yield Run(label, ["hobs"], 2, f"hob {said}".encode(), data)
        elif kind == "head":
            yield Run(label, ["list"], 2, said.encode(), data)
        else:
            note = f"note depex in {NAME} {said}" if said else ""
            yield Run(label, ["check"], 0, f"{note}canonical\n".encode(), rows.expression_volume(kind, data))


def length_runs(table: list[str], fault: int) -> Iterator[Run]:
    """Returns runs in which a block has a length that its type allows, or the list is rejected with this fault."""
    start, end = rows.spelled("PHIT"), rows.spelled("ffff080000000000")
    for row in table:
        code, found, _ = rows.parts(row)
        for length in map(int, found.split()):
            block = (int(code, 16).to_bytes(2, "little") + length.to_bytes(2, "little")).ljust(max(length, 8), b"\0")
            blocks = f"hob 0001 length 56\nhob {code} length {length}\nhob ffff length 8\nconsumed {64 + length}\n"
            output = f"hob fault {fault} at 56\n" if fault else blocks
            yield Run(f"{row} ({length})", ["hobs"], 2 if fault else 0, output.encode(), start + block + end)
            if fault == 2:
                yield Run(f"{row} ({length})", ["hobs"], 2, b"hob fault 2 at 0\n", block)


def long_text_runs() -> Iterator[Run]:
    """Returns runs over text of 70,000 digits, which takes five reads of 16,384 bytes from a file, and two of 65,536
    from standard input. A space, or a letter that is not a digit, is in the middle of the first pair; in the middle of
    a pair, at the end of the first piece; between two pairs, at the start of the next piece; or last."""
    data = bytes(it % 251 for it in range(35_000))
    digits = data.hex().encode()
    command = ["normalise", "--all", "--hex"]
    for place, other in itertools.product((1, 16_383, 16_384, 65_535, 65_536, 69_999), (b" ", b"g")):
        text = digits[:place] + other + digits[place:]
        is_right = other == b" "
        given, status = (text, 0) if is_right else (text[:70_000], 2)
        wanted = shown(data, True) if is_right else b"fault 25 at 0\n"
        label = f"normalise-all: 70,000 digits with {other!r} at {place}"
        yield Run(label, [*command, "first"], status, wanted, b"", {"first": given})
        yield Run(label, command, status, wanted, given)


def is_explained(status: int, said: bytes) -> bool:
    """Returns whether standard error explains the status of a run: with nothing for 0 and 1, and for 2 and 3 with lines
    that name the program, or with its help."""
    if status < 2:
        return said == b""
    lines = said.splitlines()
    return said.startswith(b"This is fvtool ") or bool(lines) and all(it.startswith(b"fvtool: ") for it in lines)


def fault_of(run: Run) -> str | None:
    """Makes a run. Returns how its result differs from the right result, or nothing if it does not."""
    with tempfile.TemporaryDirectory() as room:
        for name, data in run.files.items():
            Path(room, name).write_bytes(data)
        words = [str(PROGRAM), *run.arguments]
        done = subprocess.run(words, input=run.standard, capture_output=True, cwd=room, timeout=120, check=False)
    if (done.returncode, run.look(done.stdout)) == (run.status, run.output) and is_explained(run.status, done.stderr):
        return None
    seen = f"status {done.returncode}, {done.stdout[:300]!r} {done.stderr[:300]!r}"
    return f"{run.label[:300]}\n  fvtool {shlex.join(run.arguments)}: {seen}"


def rows_of_tests() -> Iterator[tuple[str, str]]:
    """Returns the rows that the tests of the crate use, each after the name of its file."""
    for path in TESTS:
        source = read(ROOT / f"crates/fv_run_tests/src/{path}.rt")
        for text in re.findall(r'-> &\'static str \{\n    "\\\n(.*?)"\n\}', source, re.S):
            for row in re.sub(r"\\\n *", "", text).split("\\n"):
                if row.strip():
                    yield path, re.sub(r"\\(.)", r"\1", row.strip())


# How the rows of each file and heading are run.
CALLS: list[tuple[str, str, Callable[[str], Iterator[Run]]]] = [
    *((name, "", runs_of) for name in RUNS),
    ("library", "offsets", offset_runs),
    ("each", "", rejecting_runs),
    ("opened", "", opened_runs),
    ("bodies", "", body_runs),
    ("parts", "", rejected_runs),
    ("wrong", "", wrong_runs),
    ("streams", "right", right_stream_runs),
    ("streams", "wrong", wrong_stream_runs),
    ("endless", "", endless_runs),
]


@needs_program
class RowCase(unittest.TestCase):
    """The runs of a row, or of rows that belong together. Its name has the file of the row, the heading if there is
    one, and the number of the row below it."""

    def __init__(self, method: str = "test_runs", name: str = "none", runs: Iterable[Run] = ()) -> None:
        super().__init__(method)
        self.name, self.runs = name, runs

    def id(self) -> str:
        return f"{__name__}.{self.name}"

    __str__ = id

    def test_runs(self) -> None:
        # The runs are made side by side. Each run with an endless input takes 512 MB, so these follow one another.
        with concurrent.futures.ThreadPoolExecutor(1 if self.name.startswith("endless.") else os.cpu_count()) as pool:
            wrong = [*filter(None, pool.map(fault_of, self.runs))]
        if wrong:
            self.fail("\n".join([f"{len(wrong)} runs are wrong:", *wrong[:20]]))


class Tables(unittest.TestCase):
    """The rows themselves."""

    found = [row for file in FILES.values() for table in file.values() for row in table]

    def test_number(self) -> None:
        self.assertEqual(len(self.found), ROWS)

    def test_rows_of_the_crates_tests(self) -> None:
        """The rows that the tests of the crate use are rows of the folder."""
        used = 0
        for path, row in rows_of_tests():
            self.assertIn(row, self.found, f"src/{path}.rt")
            used += 1
        self.assertTrue(used)


def row_cases() -> Iterator[tuple[str, Iterator[Run]]]:
    """Yields the name and the runs of each row, and of the rows that belong together."""
    for file, heading, call in CALLS:
        for number, row in enumerate(FILES[file][heading], 1):
            yield ".".join(filter(None, (file, heading, str(number)))), call(row)
    for name, image in rows.images():
        yield name, image_runs(name, image)
    for (heading, table), fault in zip(FILES["lengths"].items(), (0, 4, 2)):
        yield f"lengths.{heading}", length_runs(table, fault)
    yield "read", read_runs()
    yield "full volumes", full_runs()
    yield "many files", many_file_runs()
    yield "long texts", long_text_runs()
    yield "long stream", stream_runs("1000 sections", *rows.long_stream())


def load_tests(loader: unittest.TestLoader, _: unittest.TestSuite, __: object) -> unittest.TestSuite:
    """Returns the tests of this module: the tests of Tables, and a test of each row if the program is built."""
    found = loader.loadTestsFromTestCase(Tables)
    rows_of = (RowCase("test_runs", name, runs) for name, runs in row_cases())
    found.addTests(rows_of if PROGRAM.exists() else [RowCase()])
    return found
