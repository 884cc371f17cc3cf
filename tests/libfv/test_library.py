# SPDX-License-Identifier: BSD-2-Clause-Patent
"""Tests of libfv in C and C++: its header, its calls, its examples, and the checks of the fuzzer (tests/fuzz/libfv)
over made inputs. CC and CXX name the compilers."""

import os
import re
import shutil
import subprocess
from pathlib import Path

import rows
from tests import making
from tests.checks import ROOT
from tests.frame import LIBRARY, RoomCase, needs_library
from tests.libfv import inputs

HERE, HARNESS = ROOT / "tests/libfv", ROOT / "tests/fuzz/libfv"
ARCHIVE = LIBRARY.with_name("libfv.a")
CC, CXX = os.environ.get("CC", "cc"), os.environ.get("CXX", "c++")
WARN = ["-O1", "-g", "-Wall", "-Wextra", "-Werror", "-pedantic", f"-I{ROOT / 'libfv/include'}"]
SANITIZED = {"ASAN_OPTIONS": "detect_leaks=0:allocator_may_return_null=1", "UBSAN_OPTIONS": "halt_on_error=1"}
PLANTS = range(1, 40)
LONG = 4_000_000  # bytes; longer made inputs are not shown to the examples


def can_compile(language: str, *command: str) -> bool:
    """Returns whether a command compiles and links an empty program of a language."""
    if not shutil.which(command[0]):
        return False
    words = [*command, "-x", language, "-", "-o", os.devnull]
    run = subprocess.run(words, input="int main(void) { return 0; }", text=True, stderr=subprocess.DEVNULL)
    return run.returncode == 0


class Compiled(RoomCase):
    """Tests that compile programs over the library."""

    def build(self, name: str, source: Path, *options: str, compiler: str = CC, standard: str = "c11") -> Path:
        """Compiles a program of one file, and returns its path."""
        program = self.room / name
        self.expect(0, "", compiler, f"-std={standard}", *WARN, *options, "-o", program, source, ARCHIVE)
        return program


class Header(RoomCase):
    """fv.h is compiled on its own."""

    def test_compiled(self) -> None:
        for language, standards in ("c", ("c99", "c11", "c17")), ("c++", ("c++11", "c++17", "c++20")):
            for compiler in "gcc", "clang":
                with self.subTest(compiler, language=language):
                    if not can_compile(language, compiler):
                        self.skipTest(f"{compiler} compiles nothing in {language}")
                    for standard in standards:
                        words = [compiler, "-x", language, f"-std={standard}", *WARN, "-c", "-o", os.devnull, "-"]
                        self.expect(0, "", *words, input="#include <fv.h>\n")


@needs_library
class Calls(Compiled):
    """The calls of the library, with inputs that were written by hand."""

    def test_arguments(self) -> None:
        said = self.run_command(self.build("arguments", HERE / "arguments.c"))
        self.assertEqual((said.returncode, said.stdout[:11]), (0, "arguments: "), said)

    def test_layer(self) -> None:
        said = self.run_command(self.build("layer", HERE / "layer.c"))
        self.assertEqual((said.returncode, said.stdout[:7]), (0, "layer: "), said)

    def test_fields(self) -> None:
        self.expect(0, "fields: the results are as they were worked out", self.build("fields", HERE / "fields.c"))

    def check_threads(self, turns: int, *options: str, compiler: str = CC) -> None:
        """Makes all calls in four threads, over an empty volume and a volume with a volume in it."""
        program = self.build("threads", HERE / "threads.c", "-pthread", *options, compiler=compiler)
        for name, data in ("empty", rows.spelled("empty")), ("nested", making.IMAGES["nested.fv"]()[:20000]):
            (self.room / name).write_bytes(data)
            text = f"threads: 4 of {turns} turns each, with 31 calls, 0 wrong"
            self.expect(0, text, program, self.room / name, str(turns))

    def test_threads(self) -> None:
        self.check_threads(300)

    def test_threads_with_the_sanitizer(self) -> None:
        for compiler in (CC, "gcc", "clang"):
            if can_compile("c", compiler, "-fsanitize=thread"):
                return self.check_threads(50, "-fsanitize=thread", compiler=compiler)
        self.skipTest("no compiler has the thread sanitizer")

    def test_each_call_links_from_cxx(self) -> None:
        if not can_compile("c++", CXX):
            self.skipTest(f"{CXX} compiles nothing in C++")
        calls = re.findall(r"\bfv_\w+(?=;)", (ROOT / "libfv/libfv.map").read_text(encoding="utf-8"))
        self.assertGreater(len(calls), 19)
        source = self.room / "links.cc"
        all_calls = "".join(f"(call)({it}), " for it in calls)
        source.write_text(
            "#include <fv.h>\ntypedef void (*call)();\nint main() {\n"
            f"    static const volatile call all[] = {{{all_calls}}};\n"
            "    for (auto &it : all) if (!it) return 1;\n"
            "    return fv_image_scan(nullptr, 0, nullptr, 0, nullptr, nullptr) != FV_BAD_ARGUMENT;\n}\n",
            encoding="utf-8",
        )
        self.expect(0, "", self.build("links", source, "-Wno-cast-function-type", compiler=CXX, standard="c++17"))


@needs_library
class Examples(Compiled):
    """The four examples write the same."""

    def examples(self, name: str) -> dict[str, list[str | Path]]:
        """Returns the commands of the examples of this name, by language. Each one that cannot be built is missing."""
        found: dict[str, list[str | Path]] = {"C": [self.build(f"{name}-c", ROOT / f"examples/{name}.c")]}
        found["Python"] = ["python3", ROOT / f"examples/{name}.py"]
        source = ROOT / f"examples/{name}.cc"
        if source.exists() and can_compile("c++", CXX):
            found["C++"] = [self.build(f"{name}-cc", source, compiler=CXX, standard="c++17")]
        if shutil.which("cargo"):
            manifest, target = ROOT / "rust/Cargo.toml", self.room / "rust"
            words = ["cargo", "build", "--quiet", "--offline", "--locked", "--example", name, "--manifest-path"]
            environment = {"LIBFV_DIR": str(ARCHIVE.parent), "CARGO_TARGET_DIR": str(target)}
            self.expect(0, "", *words, manifest, env=environment)
            found["Rust"] = [target / f"debug/examples/{name}"]
        return found

    def inputs(self) -> dict[str, tuple[int, str]]:
        """Writes images, and returns the status and the end of what the examples write for each."""
        empty = rows.spelled("empty")
        lines = "volume at 64: 0 files, 0 bytes of data\nvolume at 200: 0 files, 0 bytes of data\ncanonical\n"
        volume = making.volume([making.file(making.guid(1), b"data"), making.pad(bytes(8))])
        made = {
            "flash": (bytes(64) + empty + bytes(8) + empty, lines),
            "hundred": (100 * empty, "volume at 12672: 0 files, 0 bytes of data\ncanonical\n"),
            "long": (bytes(1 << 25) + making.flash(volume), "not canonical\n"),
            "nothing": (b"", ""),
        }
        for name, (data, _) in made.items():
            (self.room / name).write_bytes(data)
        found = {str(self.room / name): (0, end) for name, (_, end) in made.items()}
        for number, data in enumerate(it for it in inputs.made(7, 60) if len(it) <= LONG):
            (self.room / f"{number}.input").write_bytes(data)
            found[str(self.room / f"{number}.input")] = 0, ""
        for name in "", "missing":
            path = str(self.room / name)
            found[path] = 2, f"volumes: cannot read {path}\n"
        return found

    def test_same(self) -> None:
        environment = {"LIBFV": str(LIBRARY), "LD_LIBRARY_PATH": str(LIBRARY.parent)}
        examples = self.examples("volumes")
        for path, (status, end) in [*self.inputs().items(), ("", (2, "usage: volumes IMAGE\n"))]:
            usual = None
            for language, words in examples.items():
                more = {"stdout": subprocess.PIPE, "stderr": subprocess.STDOUT, "capture_output": False}
                said = self.run_command(*words, *[path] * bool(path), env=environment, **more)
                usual = usual or said.stdout
                with self.subTest(language, path=path):
                    self.assertEqual((said.returncode, said.stdout), (status, usual))
                    self.assertTrue(said.stdout.endswith(end), said.stdout[-200:])
        missing = {"C", "C++", "Python", "Rust"} - examples.keys()
        if missing:
            self.skipTest(f"not built: {', '.join(missing)}")

    def test_drivers(self) -> None:
        """The examples list the same files, also those in compressed sections and in sections inside these."""
        environment = {"LIBFV": str(LIBRARY), "LD_LIBRARY_PATH": str(LIBRARY.parent)}
        examples = self.examples("drivers")
        images: list[tuple[str, bytes, list[str]]] = [
            ("firmware", making.firmware(), ["06 Pei0", "07 Dxe4", "07 Own", f"0b {making.guid(7)}"]),
            ("deep", making.deep(), ["07 Core"]),
            ("damaged", making.damaged(), []),
            ("nothing", b"", []),
        ]
        for name, data, some in images:
            (self.room / name).write_bytes(data)
            found = set()
            for language, words in examples.items():
                said = self.run_command(*words, self.room / name, env=environment)
                with self.subTest(language, image=name):
                    self.assertEqual((said.returncode, said.stderr), (0, ""))
                    self.assertEqual([it for it in some if it not in said.stdout.splitlines()], [])
                found.add(said.stdout)
            self.assertEqual(len(found), 1, found)


@needs_library
class Harness(RoomCase):
    """The checks of the fuzzer, over made inputs, without libFuzzer."""

    files: list[Path]
    said_of_build: str

    @classmethod
    def setUpClass(cls) -> None:
        super().setUpClass()
        words = [str(HARNESS / "build"), "standalone", str(cls.room)]
        cls.said_of_build = subprocess.run(words, check=True, stdout=subprocess.PIPE, text=True).stdout
        (cls.room / "inputs").mkdir()
        cls.files = inputs.small_files(cls.room / "inputs")

    def check(self, *words: str | Path) -> None:
        """Runs the harness, which must have no finding."""
        said = self.run_command(self.room / "standalone", *words, env=SANITIZED)
        self.assertEqual((said.returncode, said.stderr), (0, ""))
        self.assertRegex(said.stdout, r"^\d+ runs, \d+ allocations refused\n$")

    def test_sanitizers(self) -> None:
        if "skipped" in self.said_of_build:
            self.skipTest(self.said_of_build.partition(": ")[2].strip())

    def test_inputs(self) -> None:
        """Each input, each form of the arguments, and each allocation refused in turn."""
        self.check(*self.files)

    def test_texts(self) -> None:
        """A GUID with each character in each place."""
        self.check("--texts")

    def test_changes(self) -> None:
        """Volumes with each bit flipped, and cut short at each length."""
        texts = ("empty", "nested-with-deleted-file", "two-sections", inputs.FIXED)
        for number, text in enumerate(texts):
            (self.room / str(number)).write_bytes(rows.spelled(text))
        self.check("--changes", *map(str, range(len(texts))))

    def test_planted_faults(self) -> None:
        """Each fault that plant.c puts into the library is found."""
        for plant in PLANTS:
            with self.subTest(plant=plant):
                words = [self.room / "standalone-planted", *self.files]
                said = self.run_command(*words, env={**SANITIZED, "PLANT": str(plant)})
                self.assertRegex(said.stderr, "(?m)^finding: ")
