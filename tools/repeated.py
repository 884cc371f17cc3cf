# SPDX-License-Identifier: BSD-2-Clause-Patent
"""Writes or checks the files that repeat what one file of this repository says, for tools/version and tools/licence."""

import subprocess
import sys
from collections.abc import Iterable
from pathlib import Path

ROOT = Path(__file__).resolve().parent.parent


def settle(what: str, made: Iterable[tuple[Path, str]], is_written: bool, wrong: list[str]) -> None:
    """Compares files with the texts that they should have. Adds the names of those that differ to the list, or writes
    the texts, and then the files that libfv/generate makes. Ends the script with the list if it is not empty."""
    for path, text in made:
        if not path.exists() or path.read_text(encoding="utf-8") != text:
            if is_written:
                path.write_text(text, encoding="utf-8")
            else:
                wrong.append(str(path.relative_to(ROOT)))
    if wrong:
        sys.exit(f"{what}: {', '.join(wrong)}")
    if is_written:
        subprocess.run([ROOT / "libfv/generate"], check=True)
