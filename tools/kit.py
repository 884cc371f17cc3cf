# SPDX-License-Identifier: BSD-2-Clause-Patent
"""Finds the Rattle kit, and imports its module for Python, which knows how a crate is checked and built. The scripts of
this repository use that module only through this one."""

import functools
import importlib
import shutil
import subprocess
import sys
import typing
from pathlib import Path

# What to do without the kit.
WITHOUT_KIT = "Without the kit, install the packages or the wheel of a release (docs/INSTALL.md)."
# The names of the kit's module that the scripts use: of the module, and of its class for a crate.
OF_MODULE = ("Crate", "KEPT", "RATTLE", "guarded", "lock", "main")
OF_CRATE = ("below", "build_rlib", "build_static", "is_built", "stamp", "words")


@functools.cache
def folder() -> Path:
    """Returns the folder of the kit. Ends the script with a message if the kit is not there."""
    if not shutil.which("rt"):
        sys.exit(f"{Path(sys.argv[0]).stem}: rt, the command of the Rattle kit, is not in PATH. {WITHOUT_KIT}")
    return Path(said("rt", "doc").strip()).parent


def said(*words: str) -> str:
    """Returns the output of a command."""
    return subprocess.run(words, stdout=subprocess.PIPE, text=True, check=True).stdout


def rtlib() -> typing.Any:
    """Returns the kit's module, which has no types for mypy. Raises ImportError if the kit has no such module, or if
    the module lacks a name that the scripts use."""
    sys.path.insert(0, str(folder() / "bin"))
    sys.dont_write_bytecode = True  # the kit's folder stays as it is
    module = importlib.import_module("rtlib")
    lacking = [it for it in OF_MODULE if not hasattr(module, it)]
    lacking += [f"Crate.{it}" for it in OF_CRATE if not hasattr(getattr(module, "Crate", None), it)]
    if lacking:
        raise ImportError(f"the kit's module rtlib has no {', '.join(lacking)}")
    return module
