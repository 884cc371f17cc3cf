# SPDX-License-Identifier: BSD-2-Clause-Patent
"""The parts that the tests of installed files share: a copy of the repository, images, and tests of installed
commands."""

import os
import shutil
import subprocess
import sys
import unittest
from pathlib import Path
from subprocess import PIPE, STDOUT

import rows

from tests import making
from tests.checks import ROOT
from tests.frame import LIBRARY, RoomCase
from tests.frame import PROGRAM as BUILT

VERSION = (ROOT / "VERSION").read_text(encoding="utf-8").strip()
NUMBERS = VERSION.partition("-")[0]
MAJOR = NUMBERS.partition(".")[0]
PROGRAM, ARCHIVE = "crates/fv_tool/out/fv_tool", "crates/fv_c/out/libfv_c.a"
# The variables that change what make and the commands do.
CHANGING = (
    "CDPATH SOURCE_DATE_EPOCH PROGRAM ARCHIVE PREFIX DESTDIR BINDIR LIBDIR DATADIR PYTHONDIR PYTHONPATH FVTOOL LIBFV"
)
# Only the folders of the system are in the PATH, so the commands use the files that are installed beside them.
SYSTEM = ("env", "-i", "PATH=/usr/bin:/bin")
# The lines of examples/volumes.* for the file `flash`, which has two volumes, and the name of the file in each of them.
WANTED = "volume at 64: 1 files, 14 bytes of data\nvolume at 192: 1 files, 14 bytes of data\nnot canonical\n"
PYTHONPATH = os.environ.get("PYTHONPATH", "")
NAME = "0a0a0a0a-0a0a-0a0a-0a0a-0a0a0a0a0a0a"


def below(folder: Path) -> list[str]:
    """Returns the names of the files and links below a folder."""
    return sorted(str(it.relative_to(folder)) for it in folder.rglob("*") if it.is_symlink() or not it.is_dir())


def copy_built(tree: Path) -> None:
    """Copies the built files into a copy of the repository."""
    for path in (*ROOT.glob(f"{PROGRAM}*"), *ROOT.glob(f"{ARCHIVE}*")):
        place = tree / path.relative_to(ROOT)
        place.parent.mkdir(exist_ok=True)
        shutil.copy2(path, place)


class ImageCase(RoomCase):
    """Tests in a room with the file `volume`, which is not canonical because its image has another filler after a
    section, `flash`, and the images of tests/making.py (`made`)."""

    @classmethod
    def setUpClass(cls) -> None:
        super().setUpClass()
        os.umask(0o022)
        cls.room.chmod(0o755)
        for name in CHANGING.split():
            os.environ.pop(name, None)
        volume = rows.spelled("two-sections")
        (cls.room / "volume").write_bytes(volume)
        (cls.room / "flash").write_bytes(bytes(64) + volume * 2)
        subprocess.run([sys.executable, making.__file__, cls.room / "made"], check=True)

    def tools_work(
        self, folder: Path | str, made: Path | str, room: Path | str, *way: str, has_old_name: bool = True
    ) -> None:
        """Runs the installed commands of a folder over the made images, in a way and with a room for what they
        write."""

        def says(status: int, command: str, *words: str) -> str:
            return self.runs(status, *way, *SYSTEM, f"{folder}/{command}", *words)

        firmware = f"{made}/firmware.fd"
        self.assertEqual(says(0, "fv-same", f"{made}/plain.fd", f"{made}/stored.fd").splitlines()[0], "same")
        self.assertIn('"Beta"', says(1, "fv-same", "--open", firmware, f"{made}/firmware-changed.fd"))
        says(1, "fv-unpack", firmware, f"{room}/parts")  # a section of it is of an unknown kind
        self.assertRegex(self.runs(0, *way, "cat", f"{room}/parts/index.tsv"), r"/\d+-Beta/pe32\.efi")
        self.runs(0, *way, "rm", "-r", f"{room}/parts")
        drawn = says(1, "fv-map", firmware)
        self.assertIn("Pei0", drawn)
        if has_old_name:
            self.assertEqual(says(1, "fvmap", firmware), drawn)


@unittest.skipUnless(BUILT.exists() and LIBRARY.exists(), "the program or the library is not built")
class InstallCase(ImageCase):
    """Tests over a copy of the repository, which has the built files if `is_built`."""

    is_built = True
    tree: Path
    before: list[str]

    @classmethod
    def setUpClass(cls) -> None:
        super().setUpClass()
        cls.tree = cls.room / "a tree"
        left_out = shutil.ignore_patterns(".git", "out", "target", "dist", "__pycache__")
        shutil.copytree(ROOT, cls.tree, symlinks=True, ignore=left_out)
        if cls.is_built:
            copy_built(cls.tree)
        cls.before = below(cls.tree)

    def setUp(self) -> None:
        super().setUp()
        self.addCleanup(lambda: self.assertEqual(below(self.tree), self.before))  # no file may appear in the tree

    @classmethod
    def make(cls, *words: str | Path, status: int = 0) -> str:
        """Runs make in the tree, checks its status, and returns what it writes."""
        return cls.runs(status, "make", "-C", cls.tree, *words, capture_output=False, stdout=PIPE, stderr=STDOUT)
