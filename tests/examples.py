# SPDX-License-Identifier: BSD-2-Clause-Patent
"""Runs the examples of README.md, docs/PROGRAM.md, docs/FAULTS.md and the READMEs of recipes/, and compares their
outputs and exit statuses with what the documents show. If documents are given, it runs only the examples of these
documents: a file, or a name, as README, PROGRAM, or `map` for the README of recipes/map. With --root, it runs them in
the root of another system, as a user of the commands that are installed there (tests/install/test_release.py).

An example is an indented block with lines that begin with '$ '. All examples of a document run in one shell, in an
empty folder that has ./fvtool, libfv/, crates/ and recipes/, and with the commands of python/bin in the PATH. A
command without an output below it may print anything. A command with the comment `# with status N` must exit with this
status, and every other command with status 0. Examples that need Debian's package ovmf are run if the version
that README names is installed. The examples of a document that runs fv-same or fv-unpack are run if the library is
built. This script reports the examples that it skips. A command with sudo is not run. In another root, the folder has
only tests/making.py, and the commands come from the folder that --bin names."""

import argparse
import glob
import os
import re
import shutil
import subprocess
import sys
import tempfile
from dataclasses import dataclass
from subprocess import DEVNULL, PIPE, STDOUT

from tests.checks import NOTHING_TRIED, ROOT, read, report, skip, version_of

# The documents with examples, by their names.
DOCUMENTS = {"README": "README.md", "PROGRAM": "docs/PROGRAM.md", "FAULTS": "docs/FAULTS.md"} | {
    path.split("/")[1]: path for path in sorted(glob.glob("recipes/*/README.md", root_dir=ROOT))
}
OVMF = "/usr/share/OVMF"
LIBRARY = "libfv/out/libfv.so.2"
MARK = "@@@ example"
# A command, with the text for its standard input, and its output.
EXAMPLE = re.compile(r"(?m)^\$ (.*<<'(\w+)'.*\n(?:.*\n)*?\2|.*)\n((?:(?!\$ ).*\n)*)")
# cmp writes `char` in place of `byte` in the locale C.
LOCALE = "LC_ALL=C.UTF-8"


@dataclass(frozen=True)
class Example:
    """A command, and the output that the document shows for it."""

    command: str
    output: str

    @property
    def status(self) -> int:
        """The exit status that the document states for the command."""
        stated = re.search(r"# with status (\d+)", self.command)
        return int(stated[1]) if stated else 0


def examples(text: str) -> list[Example]:
    """Returns the commands in the indented blocks of a document, each with the output that is shown."""
    blocks = re.findall(r"(?m)^(?: {4}.*\n)+", re.sub(r"(?ms)^```.*?^```", "", f"{text}\n"))
    plain = [re.sub("(?m)^ {4}", "", it) for it in blocks if it.startswith("    $ ")]
    return [Example(it[1], it[3][:-1]) for block in plain for it in EXAMPLE.finditer(block)]


@dataclass(frozen=True)
class Place:
    """Where examples are run: here, over the files of this repository, or in the root of another system, by the
    commands in a folder of that system."""

    root: str = ""
    bin: str = "/usr/bin"

    def within(self, *words: str, user: str = "root") -> list[str]:
        """Returns the words that run a command in this place."""
        return ["chroot", f"--userspec={user}", self.root, *words] if self.root else [*words]

    def shell(self, folder: str) -> list[str]:
        """Fills an empty folder for the examples, and returns the words that run a shell in it."""
        if not self.root:
            for name in ("fvtool", "libfv", "python", "crates", "recipes", "tests"):
                os.symlink(ROOT / name, os.path.join(folder, name))
            path = os.pathsep.join([os.environ["PATH"], str(ROOT / "python/bin")])
            return ["env", "-C", folder, f"PATH={path}", LOCALE, "bash"]
        os.chmod(folder, 0o777)
        os.mkdir(os.path.join(folder, "tests"))
        shutil.copy(ROOT / "tests/making.py", os.path.join(folder, "tests"))
        clean = ["env", "-i", "-C", f"/{os.path.relpath(folder, self.root)}", f"PATH={self.bin}:/usr/bin:/bin"]
        return self.within(*clean, LOCALE, "bash", user="nobody:nogroup")


def run(commands: list[str], place: Place) -> list[tuple[str, int]]:
    """Runs the commands in one shell. Returns the output and the exit status of each."""
    script = "\n".join(f"{command}\necho '{MARK}' $?" for command in commands)
    with tempfile.TemporaryDirectory(dir=os.path.join(place.root, "tmp") if place.root else None) as folder:
        words = [*place.shell(folder), "-c", script]
        done = subprocess.run(words, stdin=DEVNULL, stdout=PIPE, stderr=STDOUT, text=True, check=False)
    # Each piece but the first begins with the line of the status of the command before.
    pieces = [it.partition("\n") for it in f"\n{done.stdout}".split(MARK + " ")]
    return [(output.rstrip("\n"), int(after[0])) for (_, _, output), after in zip(pieces, pieces[1:])]


def lacking(text: str, tried: list[Example], place: Place) -> str:
    """Returns the reason why the examples of a document with this text cannot be run here, or nothing if they can be
    run."""
    version = re.search(r"version (\S+) of the package", text)
    if tried and OVMF in text and (not version or version_of("ovmf", *place.within()) != version[1]):
        return f"ovmf {version and version[1]} is not installed"
    needs_library = not place.root and any(re.search("fv-same|fv-unpack", it.command) for it in tried)
    return "the library is not built" if needs_library and not os.path.exists(ROOT / LIBRARY) else ""


def main() -> int:
    """Runs the examples, and compares their outputs. Returns the exit status."""
    reader = argparse.ArgumentParser(description="Runs the examples of documents, and compares what they print.")
    reader.add_argument("documents", nargs="*", metavar="DOCUMENT", help="none: all documents with examples")
    reader.add_argument("--root", default="", help="the root of another system, where the examples are run")
    reader.add_argument("--bin", default="/usr/bin", help="the folder of the commands in that system (%(default)s)")
    given = reader.parse_args()
    place = Place(os.path.abspath(given.root) if given.root else "", given.bin)
    wrong: list[str] = []
    ran, skipped = 0, 0
    for name in given.documents or DOCUMENTS:
        document = DOCUMENTS.get(name, name)
        text = read(ROOT / document)
        tried = [it for it in examples(text) if not it.command.startswith("sudo ")]
        reason = lacking(text, tried, place)
        if reason:
            skipped += len(tried)
            skip("examples", f"{len(tried)} commands of {document}", reason)
            continue
        printed = run([it.command for it in tried], place)
        ran += len(tried)
        for it, (output, status) in zip(tried, printed, strict=True):
            if it.output and output != it.output:
                wrong.append(f"{document}: {it.command}\n  shows: {it.output}\n  prints: {output}")
            if status != it.status:
                wrong.append(f"{document}: {it.command}\n  states status {it.status}, exits with {status}")
    status = report("examples", wrong, f"{ran} commands, {skipped} skipped, {len(wrong)} differ from the documents")
    return NOTHING_TRIED if skipped and not ran else status


if __name__ == "__main__":
    sys.exit(main())
