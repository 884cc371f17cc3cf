# SPDX-License-Identifier: BSD-2-Clause-Patent
"""The wheel and the source archive of the package for pip. Both are made twice. The folder and the archive are
installed by pip into a new environment, without network, and tests are run there over the library of the wheel. The
wheel is also loaded by every other Python 3.10 or later."""

import os
import platform
import re
import shutil
import subprocess
import sys
import unittest
import zipfile
from pathlib import Path

import backend
from tests import making
from tests.checks import ROOT
from tests.frame import LIBRARY, RoomCase, needs_library, needs_tool

FOLDER = ROOT / "python"
COMMANDS = ("check", "diff", "map", "same", "sbom", "text", "unpack")
LICENCE = "License: BSD-2-Clause-Patent"
FIELDS = ("Metadata-Version: 2.1", "Name: libfv", "Author-email: ", "Requires-Python: >=3.10", LICENCE)
# The variables of pip, and none of those that would lead to the package of this repository, or to its library.
OUTSIDE = {"PIP_DISABLE_PIP_VERSION_CHECK": "1", "PIP_NO_INDEX": "1", "PIP_NO_CACHE_DIR": "1"}
OUTSIDE |= dict.fromkeys(("PYTHONPATH", "PYTHONDONTWRITEBYTECODE", "LIBFV"), "")


def has_pip() -> bool:
    """Returns whether this Python can make an environment without pip, and has pip."""
    runs = (subprocess.run([sys.executable, "-m", it, "--help"], capture_output=True) for it in ("venv", "pip"))
    return not any(it.returncode for it in runs)


def build(folder: Path, source: Path, library: Path | str) -> subprocess.CompletedProcess[str]:
    """Makes both files in a folder, with a library or without one."""
    words = (sys.executable, "-B", source / "backend.py", "build", folder)
    return subprocess.run(words, env={**os.environ, "LIBFV": str(library)}, capture_output=True, text=True)


def library(machine: int, wide: int = 2, order: int = 1) -> bytes:
    """Returns the start of an ELF file for a machine, and the name of a version of the C library."""
    number = machine.to_bytes(2, "little" if order == 1 else "big")
    return b"\x7fELF" + bytes([wide, order, 1]) + bytes(9) + b"\x03\0" + number + bytes(44) + b"\0GLIBC_2.17\0"


class Tags(unittest.TestCase):
    """The tag of a wheel names the machine of its library. A library without such a tag is rejected, and so is another
    file."""

    def test_machines(self) -> None:
        for data, tag in (
            (library(62), "py3-none-manylinux_2_17_x86_64"),
            (library(183), "py3-none-manylinux_2_17_aarch64"),
            (library(243), "py3-none-manylinux_2_17_riscv64"),
            (library(62)[:64], "py3-none-manylinux_2_5_x86_64"),
        ):
            self.assertEqual(backend.tag(data), tag)
        for number in (3, 22, 0):
            self.assertRaisesRegex(SystemExit, f"e_machine {number}", backend.tag, library(number))
        for data in (library(40, wide=1), library(22, order=2), b"\x7fELF\x02\x01", b""):
            self.assertRaisesRegex(SystemExit, "is not a 64-bit little-endian ELF file", backend.tag, data)


@needs_library
class Wheel(RoomCase):
    """The two files, in a scratch folder."""

    @classmethod
    def setUpClass(cls) -> None:
        super().setUpClass()
        for name in ("one", "two"):
            (cls.room / name).mkdir()
            said = build(cls.room / name, FOLDER, LIBRARY)
            if said.returncode:
                raise AssertionError(said.stderr)
        cls.wheel, cls.archive = (cls.room / "one" / it for it in said.stdout.split())
        cls.unpacked = cls.room / "unpacked"
        with zipfile.ZipFile(cls.wheel) as wheel:
            wheel.extractall(cls.unpacked)
        (cls.room / "image").write_bytes(making.IMAGES["plain.fd"]())

    wheel: Path
    archive: Path
    unpacked: Path

    def run_outside(self, *words: str | Path, **env: str) -> str:
        """Runs a command without the package and the library of this repository. Returns what it writes, and fails if
        its status is not 0."""
        return self.runs(0, *words, env={**OUTSIDE, "PYTHONPYCACHEPREFIX": str(self.room / "bytecode"), **env})

    def test_bytes(self) -> None:
        for made in (self.wheel, self.archive):
            self.assertEqual(made.read_bytes(), (self.room / "two" / made.name).read_bytes())
        self.assertEqual((self.unpacked / "fv/libfv.so.2").read_bytes(), LIBRARY.read_bytes())

    def test_metadata(self) -> None:
        (metadata,) = self.unpacked.glob("libfv-*.dist-info/METADATA")
        lines = metadata.read_text(encoding="utf-8").splitlines()
        for field in FIELDS:
            self.assertTrue(any(it.startswith(field) for it in lines), field)

    @needs_tool("objdump", "binutils")
    def test_needs(self) -> None:
        # The tag has the version of the C library that the library needs, which may need no other library.
        said = self.run_outside("objdump", "-T", "-p", LIBRARY)
        minor = max([5, *map(int, re.findall(r"GLIBC_2\.(\d+)", said))])
        tag = f"-py3-none-manylinux_2_{minor}_{platform.machine()}.whl"
        self.assertTrue(self.wheel.name.endswith(tag), (self.wheel, tag))
        self.assertEqual(re.findall(r"NEEDED +(\S+)", said), ["libc.so.6"])

    def test_missing_library(self) -> None:
        # backend.py names the command that makes the library.
        shutil.copytree(FOLDER, self.room / "lone/python")
        said = build(self.room, self.room / "lone/python", "")
        self.assertNotEqual(said.returncode, 0)
        words = "libfv/build makes it.*Without the kit, install the wheel or the packages of a release"
        self.assertRegex(said.stderr, words)

    @unittest.skipUnless(has_pip(), "python3 has no venv or no pip (Debian: python3-venv and python3-pip)")
    def test_installed(self) -> None:
        python = self.room / "venv/bin/python"
        self.run_outside(sys.executable, "-m", "venv", "--without-pip", self.room / "venv")
        pip = (sys.executable, "-m", "pip", "--python", python)
        paths = f"{ROOT}:{ROOT / 'crates/fv_run_tests/rows'}"
        # LIBFV names the library for the folder, and the archive contains it.
        for source, library, tests in (
            (FOLDER, str(LIBRARY), ("test_package", "test_rows.Inputs")),
            (self.archive, "", ("test_command",)),
        ):
            self.run_outside(*pip, "install", "--no-build-isolation", source, LIBFV=library)
            self.assertIn(f"\n{LICENCE}\n", self.run_outside(*pip, "show", "libfv"))
            found = self.run_outside(python, "-c", "import fv; print(fv.__file__)")
            self.assertTrue(found.startswith(f"{self.room}/venv/"), found)
            names = [f"tests.python.{it}" for it in tests]
            self.run_outside(python, "-m", "unittest", *names, PYTHONPATH=paths, LIBFV="")
            # The commands show their version without a library, and run over the library of the wheel.
            for name in COMMANDS:
                said = self.run_outside(python.with_name(f"fv-{name}"), "--version", LIBFV="/missing")
                self.assertTrue(said.startswith(f"fv-{name} (Capstanolive) "), said)
            self.run_outside(python.with_name("fv-unpack"), "--list", "image")
            self.run_outside(*pip, "uninstall", "--yes", "libfv")
            self.assertEqual([*(self.room / "venv").glob("lib/*/site-packages/*fv*")], [])

    def test_other_versions(self) -> None:
        run = "import sys, fv\nwith open(sys.argv[1], 'rb') as file: data = file.read()\n"
        run += "assert [*fv.volume_cells(data[fv.image_scan(data)[0].offset:])]"
        missing = []
        for name in (f"python3.{minor}" for minor in range(10, 15)):
            if not shutil.which(name) or subprocess.run([name, "-c", ""], capture_output=True, check=False).returncode:
                missing.append(name)
            else:
                self.run_outside(name, "-c", run, "image", PYTHONPATH=str(self.unpacked))
        if missing:
            self.skipTest(f"not installed: {', '.join(missing)}")
