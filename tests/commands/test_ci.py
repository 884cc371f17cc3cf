# SPDX-License-Identifier: BSD-2-Clause-Patent
"""The jobs of recipes/ci over made images, by the shells of GitHub and GitLab. With the variable ROOT, the root of
another system, the jobs run there, by the commands that are installed there (tests/install/test_release.py, in new
roots of Debian). TMPDIR is a folder in that root then."""

import itertools
import os
import unittest
from pathlib import Path

from tests.checks import ROOT
from tests.commands.room import ImageCase, Table
from tests.frame import LIBRARY, PROGRAM, needs_program

ELSEWHERE = os.environ.get("ROOT", "")
SHELLS = ["sh", "-e"], ["bash", "--noprofile", "--norc", "-e", "-o", "pipefail"]
JOBS: Table = (
    (0, "canonical", "canonical.fd"),
    (0, "canonical", "fixed.fd"),
    (1, "canonical", "stored.fd"),
    (2, "canonical", "damaged.fd"),
    (2, "canonical", "empty.fd"),
    (2, "canonical", "missing.fd"),
    (0, "same", "stored.fd", "plain.fd"),
    (1, "same", "changed.fd", "plain.fd"),
    (2, "same", "damaged.fd", "plain.fd"),
    (2, "same", "missing.fd", "plain.fd"),
)


@needs_program
@unittest.skipUnless(ELSEWHERE or LIBRARY.exists(), "the library is not built (libfv/build builds it)")
class Jobs(ImageCase):
    """The status of each job, and the files that it keeps."""

    def setUp(self) -> None:
        super().setUp()
        Path("canonical.fd").write_bytes(self.output(0, PROGRAM, "normalise", "--all", "plain.fd"))
        Path("empty.fd").touch()
        Path("bin").mkdir()
        Path("bin/fvtool").symlink_to(PROGRAM.resolve())
        self.within = ["env", f"PATH={self.room}/bin:{os.environ['PATH']}"]
        if ELSEWHERE:
            self.room.chmod(0o777)
            place = str(self.room).removeprefix(ELSEWHERE)
            self.within = ["chroot", "--userspec=nobody:nogroup", ELSEWHERE]
            self.within += ["env", "-i", "-C", place, "PATH=/usr/bin:/bin"]

    def test_statuses(self) -> None:
        for system, shell, (status, job, *images) in itertools.product(("github", "gitlab"), SHELLS, JOBS):
            with self.subTest(system=system, shell=shell[0], job=job, images=images):
                # Other firmware is a warning, which GitLab knows by status 1.
                is_warning = status == 1 and job == "same" and system == "github"
                Path("job").write_text(self.runs(0, ROOT / "recipes/ci/shell", ROOT / f"recipes/ci/{system}.yml", job))
                given = [f"{name}={image}" for name, image in zip(("IMAGE", "RELEASED"), images)]
                self.runs(0 if is_warning else status, *self.within, *given, *shell, "job")
                if status == 0 and job == "same":
                    self.assertEqual(Path("map.html").read_text().splitlines()[0], "<!doctype html>")
                elif status == 1 and job == "same":
                    self.assertIn("different", Path("changed.txt").read_text().splitlines())
