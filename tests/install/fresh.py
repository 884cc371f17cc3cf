# SPDX-License-Identifier: BSD-2-Clause-Patent
"""Runs a command over a copy of this repository in a new root of Debian 12, which has only what README asks for: some
packages, and the kit, which is read-only there. What an installed tool or module of this machine hides shows there. The
copy has the program, the library and the tests that are built here. Without a command, runs `make check`, and shows its
output only if it fails. It needs root, debootstrap and Debian's mirror, and is skipped without them."""

import argparse
import os
import shutil
import subprocess
import sys
import tempfile
from pathlib import Path
from subprocess import PIPE, STDOUT

from tests.checks import ROOT, skip_all

MIRROR = "http://deb.debian.org/debian"
PACKAGES = ("git", "make", "gcc", "g++", "python3")
WHAT = "make check in a new root of Debian 12"
# Runs a command in a root. Only this command sees the mounts, and they end with it.
INSIDE = r"""root=$1 kit=$2
shift 2
mkdir -p "$root$kit"
mount --bind "$kit" "$root$kit"
mount -o remount,bind,ro "$root$kit"
mount -t proc proc "$root/proc"
mount --rbind /dev "$root/dev"
exec chroot "$root" env -i -C /repository PATH="$kit/bin:/usr/local/bin:/usr/bin:/bin:/usr/sbin:/sbin" HOME=/root "$@"
"""


def make_root(suite: str, folder: Path, *packages: str) -> str:
    """Makes a root with these packages, if there is none yet. Returns the reason why no root can be made here, or
    nothing."""
    mark = folder / "etc/dpkg/dpkg.cfg.d/new-root"
    if mark.exists():
        return ""
    if os.getuid():
        return "not run by root"
    for tool in ("debootstrap", "wget"):
        if not shutil.which(tool):
            return f"no {tool} (Debian: {tool})"
    there = ["wget", "--quiet", "--spider", "--tries=2", "--timeout=30", f"{MIRROR}/dists/{suite}/InRelease"]
    if subprocess.run(there, check=False).returncode:
        return f"no mirror of {suite}"
    options = [f"--include={','.join(packages)}"] * bool(packages) + ["--force-check-gpg", "--variant=minbase"]
    words = ["timeout", "900", "debootstrap", *options, suite, str(folder), MIRROR]
    said = subprocess.run(words, stdout=PIPE, stderr=STDOUT, text=True, check=False)
    if said.returncode:
        return f"debootstrap {suite}: {said.stdout.strip().rpartition(os.linesep)[2]}"
    # dpkg need not wait for the disk, because the root is removed again.
    mark.write_text("force-unsafe-io\n")
    return ""


def remove(folder: Path) -> None:
    """Removes a root, and leaves what is mounted in it."""
    subprocess.run(["rm", "-rf", "--one-file-system", folder], check=False)


def left_out(folder: str, names: list[str]) -> set[str]:
    """Returns the names in a folder of the repository that are not copied: cargo's files, and the folders in out/ of a
    crate."""
    below = Path(folder).relative_to(ROOT)
    is_out = below.match("crates/*/out")
    return {it for it in names if is_out and Path(folder, it).is_dir() or str(below / it) == "rust/target"}


def run(root: Path, command: list[str]) -> int:
    """Runs a command in a root, or `make check`. Returns the exit status."""
    kit = Path(subprocess.run(["rt", "doc"], stdout=PIPE, text=True, check=True).stdout.strip()).parent
    inside = ["unshare", "--mount", "--propagation", "private", "bash", "-euc", INSIDE, "", str(root), str(kit)]
    tried = subprocess.run([*inside, "true"], stderr=PIPE, text=True, check=False)
    if tried.returncode:
        return skip_all("fresh", WHAT, f"no mounts: {tried.stderr.strip()}")
    if command:
        return subprocess.run([*inside, *command], check=False).returncode
    said = subprocess.run([*inside, "make", "check"], stdout=PIPE, stderr=STDOUT, text=True, check=False)
    last = said.stdout.strip().rpartition("\n")[2]
    print(said.stdout if said.returncode else f"fresh: {WHAT}: {last}")
    return int(bool(said.returncode))


def main() -> int:
    """Makes the root, or uses a root that was kept, and runs the command. Returns the exit status."""
    reader = argparse.ArgumentParser(prog="tests/run.py fresh --", description=__doc__)
    reader.add_argument("--keep", metavar="FOLDER", type=Path, help="keep the root there for the next run")
    reader.add_argument("command", nargs=argparse.REMAINDER, metavar="COMMAND", help="`make check`, if none is given")
    given = reader.parse_args()
    room = Path(tempfile.mkdtemp())
    try:
        root = given.keep.absolute() if given.keep else room / "root"
        root.mkdir(parents=True, exist_ok=True)
        if why := make_root("bookworm", root, *PACKAGES):
            return skip_all("fresh", WHAT, why)
        remove(root / "repository")
        # The copy belongs to root: git reads no repository of another user.
        shutil.copytree(ROOT, root / "repository", symlinks=True, ignore=left_out)
        return run(root, given.command)
    finally:
        remove(room)


if __name__ == "__main__":
    sys.exit(main())
