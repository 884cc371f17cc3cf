# SPDX-License-Identifier: BSD-2-Clause-Patent
"""diffoscope-fv: what diffoscope shows of made images, if it is installed."""

import os
import shutil
import unittest
from pathlib import Path

from tests.checks import ROOT, first_line
from tests.commands.room import GUIDS, ImageCase, Table
from tests.frame import needs_library

DIFFOSCOPE = shutil.which("diffoscope")
PYTHON = first_line(DIFFOSCOPE)[2:].strip() if DIFFOSCOPE else ""  # the Python that has the modules of diffoscope
SHOWN: Table = (
    # The bytes of two volumes with the same meaning differ, and the comment says that the meaning does not.
    ("plain.fv", "front.fv", ["fvtool compare: same"]),
    # The names lead to a compressed driver.
    ("firmware.fd", "firmware-changed.fd",
     ["volume-0.fv", f"{GUIDS[7]}/section-02-1", "fvtool compare: different at file 1 section 0 body",
      f"Beta-{GUIDS[2]}/section-10-1"]),
    # A flash image that begins with a volume has further volumes too.
    ("joined.fd", "joined-changed.fd", ["volume-1.fv", GUIDS[5]]),
)  # fmt: skip


@needs_library
@unittest.skipUnless(PYTHON, "no diffoscope (Debian: diffoscope-minimal)")
class Diffoscope(ImageCase):
    """The lines of diffoscope."""

    def shown(self, folder: str, *images: str) -> list[str]:
        """Returns the lines about two images in a folder, without the lines of diffoscope's tree."""
        words = [PYTHON, str(ROOT / "recipes/diffoscope/diffoscope-fv"), "--text", "-", *images]
        lines = self.run_command(*words, cwd=folder).stdout.splitlines()
        return [it.encode("ascii", "ignore").decode().lstrip(" ") for it in lines]

    def test_lines(self) -> None:
        for first, second, wanted in SHOWN:
            with self.subTest(first=first, second=second):
                lines = self.shown(".", first, second)
                self.assertEqual([it for it in wanted if it not in lines], [], lines[:40])

    def test_nothing_of_the_current_folder_is_run(self) -> None:
        os.mkdir("drop")
        names = [shutil.copy(name, "drop") for name in ("plain.fd", "changed.fd")]
        for name in ("lzma", "json", "fv", "diffoscope"):
            names.append(f"drop/{name}.py")
            Path(names[-1]).write_text('open("run", "w")')
        lines = self.shown("drop", "plain.fd", "changed.fd")
        self.assertIn("fvtool compare: different at file 1 section 0 body", lines)
        self.assertEqual(sorted(map(str, Path("drop").iterdir())), sorted(names))
