# SPDX-License-Identifier: BSD-2-Clause-Patent
"""The parts that the tests of the commands share: a scratch folder with the made images, runs over a table of
arguments, the index of a folder that fv-unpack writes, and EDK II's own tools."""

import csv
import os
import shutil
import subprocess
import sys
import unittest
from collections.abc import Callable
from pathlib import Path
from typing import Any, cast

from tests import making
from tests.frame import LIBRARY, RoomCase, Tests

# EDK II's tools are in the PATH, or in the folder that EDK2_BIN names.
EDK2_PATH = os.pathsep.join([*filter(None, [os.environ.get("EDK2_BIN")]), os.environ["PATH"]])
OVMF, AAVMF = Path("/usr/share/OVMF/OVMF_CODE_4M.fd"), Path("/usr/share/AAVMF/AAVMF_CODE.fd")  # Debian's images
Table = tuple[tuple[Any, ...], ...]
Row = dict[str, str]  # of the index that fv-unpack writes
GUIDS = tuple(map(str, map(making.guid, range(16))))  # the names of made files


def needs(*tools: str, path: str = EDK2_PATH, of: str = " of EDK II (EDK2_BIN)") -> Callable[[Tests], Tests]:
    """Skips a test if one of some tools is missing in a path, by default EDK II's tools."""
    is_there = all(shutil.which(tool, path=path) for tool in tools)
    return unittest.skipUnless(is_there, f"no {' or '.join(tools)}{of}")


def rows_of(folder: str | Path) -> list[Row]:
    """Returns the rows of the index of a folder."""
    with open(Path(folder, "index.tsv"), encoding="utf-8", newline="") as index:
        return list(csv.DictReader(index, delimiter="\t", quoting=csv.QUOTE_NONE))


class ImageCase(RoomCase):
    """Tests in a scratch folder with the made images."""

    @classmethod
    def images(cls) -> dict[str, bytes]:
        """Returns further images of the tests, by their names."""
        return {}

    @classmethod
    def setUpClass(cls) -> None:
        super().setUpClass()
        for name, data in ({name: make() for name, make in making.IMAGES.items()} | cls.images()).items():
            (cls.room / name).write_bytes(data)

    @staticmethod
    def run_command(*words: str | Path, **more: Any) -> subprocess.CompletedProcess[str]:
        """Runs a command with the library of the tests, also for scripts that import the package."""
        return RoomCase.run_command(*words, **{**more, "env": {"LIBFV": str(LIBRARY), **more.get("env", {})}})

    def output(self, status: int, *words: str | Path, **more: Any) -> bytes:
        """Runs a command and checks its status, as `runs`. Returns what it writes as bytes."""
        ran = self.run_command(*words, text=False, errors=None, **more)
        self.assertEqual(ran.returncode, status, (words, ran.stderr))
        return cast(bytes, ran.stdout)

    def expect_each(self, command: str | Path, rows: Table) -> None:
        """Runs a command for each row of a table, which has a status, the lines of both streams, and arguments."""
        for status, text, *words in rows:
            with self.subTest(words=words):
                self.expect(status, text, command, *words)

    def ran_alone(self, function: Callable[[], None]) -> subprocess.CompletedProcess[str]:
        """Runs a function of a module of the tests in a process of its own."""
        code = f"from {function.__module__} import {function.__name__} as run; run()"
        return self.run_command(sys.executable, "-c", code)
