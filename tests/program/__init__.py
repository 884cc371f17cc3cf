# SPDX-License-Identifier: BSD-2-Clause-Patent
"""The tests of the built program."""

import os
import subprocess
from pathlib import Path

COMPILER = os.environ.get("CC") or "cc"


def preloaded(name: str, folder: Path) -> Path:
    """Compiles a C file of this folder to an object that LD_PRELOAD loads into a program. Returns its path."""
    source, made = Path(__file__).parent / name, folder / f"{name}.so"
    subprocess.run([COMPILER, "-O2", "-Wall", "-Werror", "-fPIC", "-shared", "-o", made, source], check=True)
    return made
