# SPDX-License-Identifier: BSD-2-Clause-Patent
"""The behaviour that all commands have in common: wrong arguments, help, names that are hard to write, inputs that are
missing, outputs that are full, closed or a terminal, and runs that fail before they begin."""

import os
import pty
import shutil
import signal
import subprocess
import sys
from pathlib import Path
from unittest import mock

import fv.same
from fv import cli

from tests import stores
from tests.checks import ROOT
from tests.commands.room import ImageCase
from tests.frame import needs_library

ARCHIVE = str(ROOT / "recipes/archive/fv-archive")
PACKAGE = ("fv-same", "fv-diff", "fv-unpack", "fv-sbom", "fv-map", "fv-text", "fv-check", "fv-vars")
# The images of the runs, if a command does not read any image.
IMAGE_OF = {"fv-vars": "variables.fd"}
BEFORE_IMAGE: dict[str, tuple[str, ...]] = {
    "fv-same": ("middle.fv",),
    "fv-diff": ("middle.fv",),
    "fv-unpack": ("--list",),
    ARCHIVE: ("measure",),
}
NO_LIBRARY = (
    "/missing/libfv.so.2: cannot open shared object file: No such file or directory. The library libfv is needed. It is"
    " in the Debian packages and in the wheel of a release, and libfv/build makes it in a clone that has the kit"
    " (docs/INSTALL.md). LIBFV may name the shared object."
)
NO_SPACE = "[Errno 28] No space left on device"
HOSTILE, SHOWN = "a\nb\033[2J\u202e", r"a\u000ab\u001b[2J\u202e"
UNREAD = 2, "{0}: {1}: no such file\n{0}: {1}: fault 25 at 0"
NOT_COMPARED = 2, "{0}: {1}: no such file\n{1}: fault 25 at 0"
MISSING = {name: UNREAD for name in PACKAGE} | {
    "fv-same": NOT_COMPARED,
    "fv-diff": NOT_COMPARED,
    "fv-unpack": NOT_COMPARED,
    "fv-check": (2, r"2	0 fault 25 at 0	{1}"),
    ARCHIVE: (4, "{0}: {1}: no such file"),
}
REFUSED = (
    ("fv-same: the following arguments are required: A, B", "fv-same"),
    ("fv-same: the following arguments are required: B", "fv-same", "--open", "plain.fv"),
    ("fv-same: unrecognized arguments: plain.fv", "fv-same", "plain.fv", "plain.fv", "plain.fv"),
    ("fv-same: unrecognized arguments: --opne", "fv-same", "--opne", "plain.fv", "plain.fv"),
    ("fv-same: unrecognized arguments: --op", "fv-same", "--op", "plain.fv", "plain.fv"),
    ("PATH", "fv-diff"),
    *(("PATH and the six arguments of git are needed, or A and B", "fv-diff", *"123456"[:it]) for it in range(3, 7)),
    ("IMAGE and FOLDER are needed, or --list and IMAGE", "fv-unpack", "firmware.fd"),
    ("IMAGE and FOLDER are needed, or --list and IMAGE", "fv-unpack", "--list", "firmware.fd", "folder"),
    ("IMAGE and FOLDER are needed, or --list and IMAGE", "fv-unpack", "--sums", "firmware.fd", "folder"),
    ("IMAGE and FOLDER are needed", "fv-unpack", "plain.fv", ""),
    ("IMAGE and FOLDER are needed", "fv-unpack", "--only", "", "plain.fv"),
    ("IMAGE and FOLDER are needed", "fv-unpack", "--only", "Alpha", "--list", "plain.fv"),
    ("IMAGE and FOLDER are needed", "fv-unpack", "--only", "Alpha", "--sums", "plain.fv"),
    ("IMAGE and FOLDER are needed", "fv-unpack", "--only", "Alpha", "--json", "plain.fv"),
    ("0x10 is not a number of bytes", "fv-unpack", "--most", "0x10", "firmware.fd", "folder"),
    ("the following arguments are required: IMAGE", "fv-sbom"),
    ("the following arguments are required: IMAGE", "fv-map"),
    ("the following arguments are required: IMAGE", "fv-vars"),
    ("IMAGE", "fv-text"),
    ("IMAGE", "fv-text", "--"),
    ("IMAGE or --from LIST is needed", "fv-check"),
    ("argument --jobs: invalid int value", "fv-check", "--jobs", "many"),
    ("STORE is needed", ARCHIVE, "get", "store"),
)  # fmt: skip
# Sentences of the help.
HELP = (
    ("fv-same", "Equal bytes always mean the same."),
    ("fv-same", "Two flash images mean the same if each volume means the same as the volume at its place"),
    ("fv-same", "superseded and unfinished files; the fillers after files; the gaps between sections and around"),
    ("fv-unpack", "Exit status 0: everything is unpacked, or the part is written. 1: the image has no volume,"),
    ("fv-text", "Exit status 0: the lines are written, whatever the image is. 2: the image cannot be read,"),
)
# Errors before a command begins: what is raised, the status, and the text.
TOO_EARLY = (
    ("MemoryError", 4, "{}: memory ran out"),
    ("PermissionError(13, 'Permission denied')", 4, "{}: [Errno 13] Permission denied"),
    ("ValueError('wrong')", 4, "{}: ValueError('wrong')"),
    ("ImportError('no module')", 4, "{}: no module. The Python package fv is needed, and the library libfv"),
    ("KeyboardInterrupt", 130, ""),
)
ON_TERMINAL = (
    ("a page is not written to a terminal: add `> FILE` or `| COMMAND`", "fv-map", "plain.fd"),
    ("standard output is a terminal: give a FILE, or a pipe", "fv-unpack", "--only", "Alpha", "plain.fv"),
    ("the image is not written to a terminal: add `> FILE` or `| COMMAND`", ARCHIVE, "get", "store"),
)


def fail_unexpectedly() -> None:
    """Runs fv-same with an error in it that is not an error of its input."""
    with mock.patch("fv.same.compare_files", side_effect=RuntimeError("MemoryError")):
        sys.exit(fv.same.main(["a", "b"]))


def end_by_two_signals() -> None:
    """Sends two signals at once, one of which has to end the process."""
    ignored: list[object] = []
    sys.unraisablehook = ignored.append
    cli.end_by_signals()
    try:
        with cli.undisturbed():
            for number in (signal.SIGTERM, signal.SIGINT):
                os.kill(os.getpid(), number)
    except SystemExit as end:
        assert isinstance(end.code, int) and end.code > 128 and not ignored, (end.code, ignored)
        print("ended")


class WithoutLibrary(ImageCase):
    """Runs that need no library."""

    def test_wrong_arguments(self) -> None:
        for what, *words in REFUSED:
            with self.subTest(words=words):
                self.refuses(what, *words)

    def test_help(self) -> None:
        for name in PACKAGE:
            with self.subTest(name=name):
                text = self.runs(0, name, "--help", env={"LIBFV": "/missing"})
                self.assertEqual(self.runs(0, name, "-h"), text)
                words = " ".join(text.split())
                self.assertEqual([it for command, it in HELP if command == name and it not in words], [])
                version = self.runs(0, name, "--version", env={"LIBFV": "/missing"})
                self.assertEqual(version.rpartition(" ")[0], f"{name} (Capstanolive)")

    def test_errors_before_the_beginning(self) -> None:
        shutil.copytree(ROOT / "python", "tree/python")
        for error, status, text in TOO_EARLY:
            Path("tree/python/fv/limits.py").write_text(f"raise {error}\n")
            for name in ("fv-same", "fv-check"):
                with self.subTest(name=name, error=error):
                    self.expect(status, text.format(name), f"tree/python/bin/{name}", "plain.fv", "plain.fv")

    def test_two_signals_at_once(self) -> None:
        self.assertEqual(self.ran_alone(end_by_two_signals).stdout, "ended\n")

    def test_unexpected_error(self) -> None:
        ran = self.ran_alone(fail_unexpectedly)
        self.assertEqual((ran.returncode, ran.stderr.splitlines()[-1]), (4, "RuntimeError: MemoryError"))


@needs_library
class OfAll(ImageCase):
    """Runs of each command that reads an image."""

    @classmethod
    def images(cls) -> dict[str, bytes]:
        return {"variables.fd": stores.volume(stores.store(stores.variable("Boot", b"1")))}

    def words(self, name: str, image: str) -> list[str]:
        """Returns the words that run a command over an image."""
        return [name, *BEFORE_IMAGE.get(name, ()), image]

    def each_run(self) -> list[list[str]]:
        """Returns the words of a run of each command."""
        only = ["fv-unpack", "--only", "Alpha", "plain.fv"]
        return [*(self.words(name, IMAGE_OF.get(name, "plain.fv")) for name in (*PACKAGE, ARCHIVE)), only]

    def test_library_is_missing(self) -> None:
        for words in self.each_run():
            with self.subTest(words=words):
                self.expect(4, f"{Path(words[0]).name}: {NO_LIBRARY}", *words, env={"LIBFV": "/missing/libfv.so.2"})

    def test_output_is_full(self) -> None:
        for words in [*self.each_run(), *([name, "--help"] for name in PACKAGE)]:
            with self.subTest(words=words), open("/dev/full", "wb") as full:
                ran = self.run_command(*words, capture_output=False, stdout=full, stderr=subprocess.PIPE)
                self.assertEqual((ran.returncode, ran.stderr), (4, f"{Path(words[0]).name}: {NO_SPACE}\n"))

    def test_streams_are_closed(self) -> None:
        for words in self.each_run():
            with self.subTest(words=words):
                said = f"{Path(words[0]).name}: standard output is closed"
                self.expect(4, said, "bash", "-c", '"$@" >&-', "", *words)
                self.assertEqual(self.runs(0, "bash", "-c", '"$@" 2>&-', "", *words), self.runs(0, *words))

    def test_missing_input(self) -> None:
        for name, (status, text) in MISSING.items():
            for given, shown in (("missing", "missing"), (HOSTILE, SHOWN)):
                if name == "fv-check":  # it writes bytes as numbers
                    shown = shown.replace(r"\u00", r"\x").replace(r"\u202e", r"\xe2\x80\xae")
                with self.subTest(name=name, given=given):
                    self.expect(status, text.format(Path(name).name, shown), *self.words(name, given))

    def test_names_of_options(self) -> None:
        for name in PACKAGE:
            image = IMAGE_OF.get(name, "plain.fv")
            plain = self.runs(0, *self.words(name, image))
            for option in ("--help", "-x"):
                shutil.copy(image, option)
                with self.subTest(name=name, option=option):
                    said = self.runs(0, name, *BEFORE_IMAGE.get(name, ()), "--", option)
                    self.assertEqual(said, plain.replace(image, option))

    def test_terminal(self) -> None:
        stored = self.runs(0, ARCHIVE, "add", "store", "plain.fv").split()[0]
        for what, *words in ON_TERMINAL:
            with self.subTest(words=words):
                ours, terminal = pty.openpty()
                self.addCleanup(os.close, ours)
                self.addCleanup(os.close, terminal)
                more = [stored] * (words[0] == ARCHIVE)
                ran = self.run_command(*words, *more, capture_output=False, stdout=terminal, stderr=subprocess.PIPE)
                self.assertEqual((ran.returncode, ran.stderr), (3, f"{Path(words[0]).name}: {what}\n"))
