# SPDX-License-Identifier: BSD-2-Clause-Patent
"""The crates of the folder rust: their tests, the examples of their documentation, how they find the library, their
packages, and the results of their calls beside the results of the package for Python."""

import dataclasses
import enum
import itertools
import os
import re
import shutil
import subprocess
import unittest
import uuid
from collections.abc import Iterator, Sequence
from pathlib import Path
from typing import Any

import fv
import rows
from tests.checks import ROOT, read
from tests.frame import LIBRARY, RoomCase, needs_library, needs_tool
from tests.libfv.inputs import fixed, spelled, stored
from tests.python.outcomes import OF_IMAGE, OF_SECTIONS, OF_VOLUME, Call, closed, made, outcome, packings, streams
from tests.python.outcomes import volume_of

RUST = ROOT / "rust"
# The longest input of the rows that is passed to the calls.
MOST = 100_000
A, B = b"\x0a" * 16, b"\x0b" * 16
# A call and its arguments.
Request = tuple[str, tuple[Any, ...]]


def has(*command: str) -> bool:
    """Returns whether a command of cargo is installed."""
    return bool(shutil.which(command[0])) and subprocess.run(command, capture_output=True, check=False).returncode == 0


def is_new(major: int, minor: int) -> bool:
    """Returns whether cargo has at least this version."""
    if not has("cargo", "--version"):
        return False
    said = subprocess.run(["cargo", "--version"], capture_output=True, text=True, check=True).stdout
    found = re.findall(r"cargo (\d+)\.(\d+)", said)[0]
    return (int(found[0]), int(found[1])) >= (major, minor)


def inputs() -> Iterator[bytes]:
    """Yields the made inputs, all inputs of the rows, and inputs with more rows than the first buffer has room for."""
    yield from made().values()
    yield from spelled()
    yield from fixed()
    yield from stored()
    library = rows.tables("library")
    images = (row for name in library if name.endswith("images") for row in library[name])
    yield from (rows.spelled(row.partition(" -> ")[0]) for row in images)
    yield from (data for row in rows.tables("parts")[""] for _, data, _ in rows.rejected(row))
    yield from (rows.spelled(rows.parts(row)[1]) for row in library["values"])
    for count in (1022, 1023, 1024, 1025, 3000):
        yield rows.full_volume(count)
        yield volume_of(b"\5\0\0\x19\x09\0\0\0" * count)
        yield rows.spelled("empty") * count
        yield rows.spelled("PHIT") + b"\xfe\xff\x08\0\0\0\0\0" * (count - 2) + b"\xff\xff\x08\0\0\0\0\0" + b"more"


def comparisons() -> Iterator[tuple[bytes, bytes]]:
    """Yields the two inputs of each row of `compare`, and made inputs that follow one another."""
    for words in (rows.parts(row)[1] for row in rows.tables("compare")[""]):
        if "'" not in words:
            first, second = map(rows.spelled, words.split(" & "))
            yield first, second
    yield from itertools.pairwise(made().values())


# The argument of a call that reads without the marks of fixed files, and such calls that have no other argument.
UNMARKED = "unmarked"
WITH_MARKS: tuple[Call, ...] = fv.volume_tree, fv.volume_tree_digests, fv.sections_tree, fv.sections_tree_digests


def requests() -> Iterator[Request]:
    """Yields the calls that are compared: each call with one argument over each input, and all others over inputs that
    they accept."""
    for data in {it: None for it in inputs() if len(it) <= MOST}:
        for call in (*OF_VOLUME, *OF_SECTIONS, *OF_IMAGE, fv.header_read, fv.hobs_read):
            yield call.__name__, (data,)
        yield from (("image_open", (data, limit)) for limit in (0, 2**30))
        yield from ((call.__name__, (data, UNMARKED)) for call in WITH_MARKS)
        yield from (("volume_extract", (data, row, UNMARKED)) for row in (0, 1, 2**64 - 1))
        yield from (("sections_extract", (data, row, UNMARKED)) for row in (0, 2**64 - 1))
        for _, node in streams(data)[:3]:
            stream = data[node.offset : node.offset + node.length]
            yield from ((call.__name__, (stream,)) for call in OF_SECTIONS)
            yield from (("sections_extract", (stream, row)) for row in (0, 1, 2, 2**64 - 1))
        for phase in fv.Phase:
            yield from (("depex_evaluate", (data, phase, names)) for names in ([], [A], [B], [B, A]))
        nodes = outcome(fv.volume_tree, data)
        count = 0 if isinstance(nodes, fv.Fault) else len(nodes)
        yield from (("volume_extract", (data, row)) for row in {*range(min(count, 30)), count, 2**64 - 1})
    for pair in comparisons():
        yield "volume_compare", pair
        yield from (("image_same", (*pair, limit)) for limit in (0, 2**30))
    for section in (*(it.section for it in packings()), *(data for data, _, _ in closed())):
        yield "section_way", (section,)
        yield from (("section_open", (section, limit)) for limit in (0, 100, 2**20))


def word(argument: Any) -> str:
    """Returns an argument of a call as the program reads it."""
    if isinstance(argument, fv.Phase):
        return argument.name
    data = b"".join(argument) if isinstance(argument, list) else argument
    return data.hex() if isinstance(data, bytes) else str(data)


def debug(value: Any, is_option: bool = False) -> str:
    """Returns a value as `Debug` of Rust shows it. The fields of a row have the names and the order of the package."""
    if is_option:
        return "None" if value is None else f"Some({debug(value)})"
    if isinstance(value, fv.Fault):
        kind = fv.FaultCode(value.code).name.title().replace("_", "")
        return f"Fault {{ kind: {kind}, offset: {value.offset}, depth: {value.depth}, input: {value.input} }}"
    if isinstance(value, (bool, enum.Enum)):
        return str(value).lower() if isinstance(value, bool) else value.name.title().replace("_", "")
    if dataclasses.is_dataclass(value):
        fields = ((it.name, getattr(value, it.name), "None" in str(it.type)) for it in dataclasses.fields(value))
        shown = ", ".join(f"{name}: {debug(it, is_optional)}" for name, it, is_optional in fields)
        return f"{type(value).__name__} {{ {shown} }}".replace("canonical: ", "is_canonical: ").replace(" found: ", " is_found: ")
    if isinstance(value, Sequence) and not isinstance(value, (str, bytes)):
        return f"[{', '.join(map(debug, value))}]"
    return f"Guid({value})" if isinstance(value, uuid.UUID) else str([*value] if isinstance(value, bytes) else value)


def result_of(call: str, arguments: tuple[Any, ...]) -> str:
    """Returns the result of a call of the package as `Debug` of Rust shows it."""
    if call == "depex_evaluate":
        arguments = *arguments[:2], [uuid.UUID(bytes_le=it) for it in arguments[2]]
    is_unmarked = arguments[-1] == UNMARKED
    named = {"without_marks": True} if is_unmarked else {}
    try:
        found = getattr(fv, call)(*arguments[: len(arguments) - is_unmarked], **named)
    except fv.FaultError as error:
        return f"Err(Rejected({debug(error.fault)}))"
    except IndexError:
        return "Err(NoSuchRow)"
    if call in ("volume_tree_digests", "sections_tree_digests"):
        rest = (f"Some(Digest({it.hex()}))" if it else "None" for it in found)
        return f"Ok([{', '.join(f'NodeDigest {{ digest: {it} }}' for it in rest)}])"
    if call == "image_open":
        return f"Ok(Image {{ sources: {debug(found.sources)}, closed: {debug(found.closed)} }})"
    if call == "depex_evaluate":
        return f"Ok({'Order' if found is None else found})"
    if call == "volume_compare":
        return f'Ok(Some("{found}"))' if found else "Ok(None)"
    return f"Ok(Digest({found.hex()}))" if call == "volume_digest" else f"Ok({debug(found)})"


class Types(unittest.TestCase):
    """The names of the crate for the types of files and sections."""

    def test_names(self) -> None:
        declared = re.findall(r"\bFV_((?:FILE|SECTION)_\w+) = ", read(ROOT / "libfv/include/fv.h"))
        named = re.findall(r"(?m)^    (\w+) = FV_((?:FILE|SECTION)_\w+),$", read(RUST / "libfv/src/types.rs"))
        self.assertEqual(sorted(it for _, it in named), sorted(declared))
        self.assertEqual([it.partition("_")[2] for _, it in named], [name for name, _ in named])
        self.assertEqual(len(named), 31)


@needs_library
@needs_tool("cargo")
class Crates(RoomCase):
    """The crates, built in a scratch folder over the built library."""

    env: dict[str, str]
    target: Path
    out: Path
    flags: tuple[str, ...]

    @classmethod
    def setUpClass(cls) -> None:
        super().setUpClass()
        cls.target, cls.out = cls.room / "target", LIBRARY.resolve().parent
        cls.env = {"LIBFV_DIR": str(cls.out), "CARGO_NET_OFFLINE": "true"}
        cls.env["LD_LIBRARY_PATH"] = f"{cls.out}:{os.environ.get('LD_LIBRARY_PATH', '')}"
        cls.run_in_rust("cargo", "build", "--locked", "--workspace")
        # The flags by which a program that is not in a crate finds the built crate.
        debug = cls.target / "debug"
        cls.flags = ("--edition", "2021", "--extern", f"fv={debug}/libfv.rlib", "-L", f"dependency={debug}/deps")
        cls.flags += ("-L", f"native={cls.out}")

    @classmethod
    def run_in_rust(cls, *words: str | Path, target: str = "target", **env: str) -> str:
        """Runs a command in the folder of the crates, with a folder of built files. Returns what it writes, and fails
        if its status is not 0. Other variables need another folder."""
        more = {**os.environ, **cls.env, "CARGO_TARGET_DIR": str(cls.room / target), **env}
        run = subprocess.run(words, cwd=RUST, env=more, text=True, capture_output=True, check=False)
        if run.returncode:
            raise AssertionError(f"{words}: {run.stdout[-3000:]}{run.stderr[-3000:]}")
        return run.stdout

    def test_own_tests(self) -> None:
        said = self.run_in_rust("cargo", "test", "--locked", "--workspace")
        passed = sum(map(int, re.findall(r"test result: ok. (\d+) passed", said)))
        self.assertGreater(passed, 30)

    def test_readme(self) -> None:
        self.run_in_rust("rustdoc", "--test", *self.flags, "README.md")

    def test_calls(self) -> None:
        program, asked = self.room / "calls", list(requests())
        self.run_in_rust("rustc", *self.flags, "-o", program, ROOT / "tests/rust/calls.rs")
        given = "".join(f"{' '.join([call, *map(word, arguments)])}\n" for call, arguments in asked)
        run = self.run_command(program, input=given, env=self.env)
        self.assertEqual((run.returncode, run.stderr), (0, ""))
        found = run.stdout.splitlines()
        self.assertEqual(len(found), len(asked))
        wrong = []
        for (call, arguments), line in zip(asked, found):
            wanted = result_of(call, arguments)
            if line != wanted:
                wrong.append(f"{call} {[word(it)[:300] for it in arguments]}: {line[:1000]}, and not {wanted[:1000]}")
        self.assertFalse(wrong, f"{len(wrong)} results: " + "\n".join(wrong[:10]))

    @needs_tool("readelf", "binutils")
    def test_linked(self) -> None:
        # If the folder has both libraries, the shared object is linked, except with `static` or LIBFV_STATIC.
        both = self.room / "both"
        both.mkdir()
        for name, file in (("libfv.so.2", LIBRARY), ("libfv.so", LIBRARY), ("libfv.a", self.out / "libfv.a")):
            (both / name).symlink_to(file)
        build = ("cargo", "build", "--locked", "--example", "volumes")
        program = self.room / "linked/debug/examples/volumes"
        with_feature, none = ["--features", "libfv/static"], list[str]()
        for words, static, wanted in ((none, "", ["libfv.so.2"]), (with_feature, "", none), (none, "1", none)):
            self.run_in_rust(*build, *words, target="linked", LIBFV_DIR=str(both), LIBFV_STATIC=static)
            found = re.findall(r"NEEDED.*\[(libfv.*)\]", self.run_in_rust("readelf", "-d", program))
            self.assertEqual(found, wanted, (words, static))

    @unittest.skipUnless(is_new(1, 90), "no cargo 1.90, which can package two crates at once")
    def test_packages(self) -> None:
        # The packages are made as tools/release makes them: with the licence, and not in a repository. A program over
        # the unpacked packages is built without a registry, by the lines of the README.
        sources, unpacked = self.room / "rust", self.room / "unpacked"
        shutil.copytree(RUST, sources, ignore=shutil.ignore_patterns("target"))
        for crate in ("libfv", "libfv-sys"):
            shutil.copy(ROOT / "LICENSE", sources / crate)
        self.run_in_rust("cargo", "package", "--locked", "--workspace", "--manifest-path", sources / "Cargo.toml")
        for package in (self.target / "package").glob("libfv*.crate"):
            shutil.unpack_archive(package, unpacked, "gztar")
            folder = unpacked / package.stem
            self.assertEqual(read(folder / "LICENSE"), read(ROOT / "LICENSE"))
            self.assertTrue((folder / "README.md").exists())
        version = re.findall(r'(?m)^version = "(.*)"', read(RUST / "Cargo.toml"))[0]
        lines = re.findall(r"(?ms)^\[dependencies\]$.*?(?=^```$)", read(RUST / "README.md"))[0]
        lines = lines.replace("VERSION", version)
        (unpacked / "Cargo.toml").write_text(f'[package]\nname = "own"\nversion = "0.0.0"\nedition = "2021"\n{lines}')
        (unpacked / "src").mkdir()
        (unpacked / "src/main.rs").write_text('fn main() { println!("{}", fv::version_number() >> 16); }')
        words = ("cargo", "run", "--offline", "--manifest-path", unpacked / "Cargo.toml")
        said = self.run_in_rust(*words, target="own", CARGO_HOME=str(self.room / "no-registry"))
        self.assertEqual(said, "2\n")

    @unittest.skipUnless(has("cargo", "fmt", "--version"), "no rustfmt")
    def test_form(self) -> None:
        self.run_in_rust("cargo", "fmt", "--check")
        self.run_in_rust("rustfmt", "--edition", "2021", "--check", ROOT / "tests/rust/calls.rs")

    @unittest.skipUnless(has("cargo", "clippy", "--version"), "no clippy")
    def test_lints(self) -> None:
        self.run_in_rust("cargo", "clippy", "--locked", "--workspace", "--all-targets", "--", "-D", "warnings")
        lints = ("-D", "warnings", "--emit=metadata", "-o", self.room / "calls.rmeta")
        self.run_in_rust("clippy-driver", *self.flags, *lints, ROOT / "tests/rust/calls.rs")

    def test_documentation(self) -> None:
        # In the way of docs.rs, where the library is missing.
        words = ("cargo", "doc", "--locked", "--workspace", "--no-deps")
        self.run_in_rust(*words, target="pages", DOCS_RS="1", LIBFV_DIR="/none", RUSTDOCFLAGS="-D warnings")
