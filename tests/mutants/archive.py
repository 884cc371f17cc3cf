# SPDX-License-Identifier: BSD-2-Clause-Patent
"""Compiles the archive of fv_c over the libraries that `rt ci` has just proved in this checkout. These libraries are in
out/ without the note by which `rt lib` recognises a library, so `rt lib` would prove the crates below fv_c again. This
module proves fv_c itself while it compiles it, with the flags of tools/prove.py, and keeps its proofs in out/. It uses
one process, because several processes take more processor time."""

import os
import sys

import kit
from prove import MADE, ROOT


def main() -> int:
    """Compiles the archive. Returns the exit status."""
    folder = ROOT / "crates/fv_c"
    os.chdir(folder)
    crate = kit.rtlib().Crate(str(folder), str(ROOT), {})
    missing = [it.name for it in crate.below() if not os.path.isdir(it.rlib)]
    if missing:
        sys.exit(f"archive: rt ci left no library of {' '.join(missing)}")
    _, (_, *flags) = MADE["fv_c"]
    return int(crate.build_static([*flags, "--jobs", "1"]))


if __name__ == "__main__":
    sys.exit(main())
