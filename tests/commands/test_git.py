# SPDX-License-Identifier: BSD-2-Clause-Patent
"""fv-text and fv-diff: their lines for images, and what git shows by them in a throwaway repository."""

import os
import re
import shutil
from pathlib import Path
from unittest import mock

from tests import making
from tests.commands.room import GUIDS, ImageCase, Table
from tests.commands.test_same import BETA, differs, outside
from tests.frame import PROGRAM, needs_library, needs_program, needs_tool

SETTINGS = {
    "user.name": "Somebody",
    "user.email": "somebody@example.org",
    "diff.fv.textconv": "fv-text",
    "diff.fv.cachetextconv": "true",
}


def replaced(*blocks: str) -> str:
    """Returns the lines of a diff in which blocks of lines have other digests."""
    return "\n".join(sign + line for block in blocks for sign in "-+" for line in block.splitlines())


LATER = f"-volume ffs2 length 32768 files 3\n+volume ffs2 length 32768 files 4\n+  file {GUIDS[4]}"
CHANGED = replaced("volume ffs2 length 32768 files 3", f"  file {GUIDS[2]}\n    section")
OPENED = replaced(
    f"volume ffs2 length 65536 files 1\n  file {GUIDS[7]}\n    section",
    "      volume ffs2 length 16384 files 7",
    f"        file {GUIDS[2]}\n          section",
)
# Two images that replace each other in the repository, and the lines of `git diff` without digests and attributes. An
# image with the same meaning has no line. The lines have no numbers, so an extra file gives one extra line. A mark that
# is removed changes the line of the count and the line of the file.
DIFFS = (
    ("my flash.fd", "plain.fd", "stored.fd", ""),
    ("my flash.fd", "stored.fd", "changed.fd", CHANGED),
    ("my flash.fd", "plain.fd", "outside.fd", replaced("other bytes")),
    ("volume.fv", "last.fv", "more.fv", LATER),
    ("-x.fd", "last.fv", "more.fv", LATER),  # the name is not taken for an option
    ("my flash.fd", "fixed.fd", "fixed-stored.fd", ""),
    ("my flash.fd", "fixed-stored.fd", "less-fixed.fd",
     "-2 of 3 files fixed\n+1 of 3 files fixed\n" + replaced(f"  file {GUIDS[11]}")),
    ("my flash.fd", "less-fixed.fd", "unfixed.fd", "-1 of 3 files fixed\n" + replaced(f"  file {GUIDS[10]}")),
)  # fmt: skip
PADS = "{} of the volume at 0, only in the {}, at {}"
LATER_PADS, EARLIER_PADS = (
    outside(PADS.format("a deleted file", side, 3120), PADS.format("a pad", side, 4496)) for side in ("second", "first")
)
BETA_CHANGED = differs(0, "file 1 section 0 body", f"changed: {BETA}")
# What `git diff` shows with fv-diff. The first image may be missing, or the second one.
VERDICTS = (
    ("plain.fv", "middle.fv", "fvtool: volume.fv\nsame" + LATER_PADS),
    ("middle.fv", "changed.fv", f"fvtool: volume.fv\n{BETA_CHANGED}{EARLIER_PADS}"),
    ("", "none.bin", "fvtool: volume.fv is new"),
    ("none.bin", "", "fvtool: volume.fv was deleted"),
)
DIFF: Table = (
    (0, "fvtool: a\\u000ab\\u001b[2J\\u202e is not merged", "a\nb\033[2J\u202e"),
    (0, "fvtool: -x is not merged", "-x"),
    # With two arguments it does what fv-same does.
    (0, "same" + LATER_PADS, "plain.fv", "middle.fv"),
    (1, BETA_CHANGED, "plain.fv", "changed.fv"),
)


def short(lines: str) -> str:
    """Returns the lines that a diff has changed, without sums, types and attributes."""
    found = re.findall("^[-+](?:[^-+\n].*)?$", lines, re.M)
    return "\n".join(re.sub(" (?:sha256|type) .*", "", it) for it in found)


@needs_library
@needs_tool("git")
class InGit(ImageCase):
    """Differences that git shows. Each test has a repository of its own."""

    def setUp(self) -> None:
        super().setUp()
        own = {"HOME": str(self.room), "GIT_CONFIG_NOSYSTEM": "1", "GIT_CONFIG_GLOBAL": "/dev/null", "GIT_PAGER": "cat"}
        patched = mock.patch.dict(os.environ, own)
        patched.start()
        self.addCleanup(patched.stop)
        for name in ("GIT_DIR", "GIT_WORK_TREE", "GIT_INDEX_FILE", "GIT_EXTERNAL_DIFF"):
            os.environ.pop(name, None)
        self.runs(0, "git", "init", "-q", self._testMethodName)
        os.chdir(self._testMethodName)
        self.configure(SETTINGS)
        Path(".gitattributes").write_text("*.fd diff=fv\n*.fv diff=fv\n*.bin diff=fv\n[-]* diff=fv\n")

    def configure(self, settings: dict[str, str]) -> None:
        """Sets options of the repository."""
        for name, value in settings.items():
            self.runs(0, "git", "config", name, value)

    def store(self, image: str, name: str) -> None:
        """Commits an image under a name, or its absence."""
        if image:
            shutil.copy(self.room / image, name)
        else:
            os.unlink(name)
        self.runs(0, "git", "add", "-A")
        self.runs(0, "git", "commit", "-q", "--allow-empty", "-m", f"{image} as {name}")

    def changed(self) -> str:
        """Returns the lines that the last commit has changed."""
        return short(self.runs(0, "git", "diff", "HEAD~", "HEAD"))

    def test_lines(self) -> None:
        for name, first, second, lines in DIFFS:
            with self.subTest(first=first, second=second):
                self.store(first, name)
                self.store(second, name)
                self.assertEqual(self.changed(), lines)
        self.configure({"diff.fv.textconv": "fv-text --open"})
        for image in ("firmware.fd", "firmware-changed.fd"):
            self.store(image, "my flash.fd")
        self.assertEqual(self.changed(), OPENED)

    def test_images_that_cannot_be_listed(self) -> None:
        """Rejected volumes and files without a volume do not stop git. A missing library does, so nothing wrong gets
        into the cache of git."""
        self.store("unfixed.fd", "my flash.fd")
        self.store("damaged.fd", "my flash.fd")
        self.assertIn("+fault 11 at 72,", self.changed().splitlines())
        self.store("none.bin", "volume.fv")
        self.assertIn("+no volume, 5000 bytes,", self.changed().splitlines())
        self.store("", "my flash.fd")
        self.assertIn("-fault 11 at 72,", short(self.runs(0, "git", "log", "-p")).splitlines())
        words = ["git", "-c", "diff.fv.cachetextconv=false", "log", "-p"]
        self.runs(128, *words, env={"LIBFV": "/missing/libfv.so.2"})

    def test_verdicts(self) -> None:
        self.configure({"diff.fv.command": "fv-diff"})
        for first, second, text in VERDICTS:
            with self.subTest(first=first, second=second):
                self.store(first, "volume.fv")
                self.store(second, "volume.fv")
                self.expect(0, text.replace("\n", "\n  "), "git", "diff", "HEAD~", "HEAD")
        self.store("plain.fv", "volume.fv")
        self.store("refused.fv", "volume.fv")
        self.assertIn("fvtool: volume.fv", self.runs(0, "git", "diff", "HEAD~", "HEAD").splitlines())

    def test_names_of_options(self) -> None:
        """A file in the working tree may have the name of an option."""
        self.configure({"diff.fv.cachetextconv": "false"})
        for name in ("--help", "-h", "--version", "--"):
            with self.subTest(name=name):
                self.store("plain.fv", name)
                shutil.copy(self.room / "changed.fv", name)
                lines = self.runs(0, "git", "diff", "--", f":(literal){name}").splitlines()
                self.assertEqual(sum(bool(re.match("[-+].* sha256", it)) for it in lines), 6)
                self.assertEqual(self.runs(0, "fv-text", name), self.runs(0, "fv-text", self.room / "changed.fv"))
                os.unlink(name)


@needs_library
class OnTheirOwn(ImageCase):
    """The lines of fv-text and fv-diff for images."""

    def test_fv_diff(self) -> None:
        self.expect_each("fv-diff", DIFF)

    def test_fixed_files(self) -> None:
        shutil.copy("fixed.fd", "-a\nb.fv")
        lines = [re.sub(" sha256 [0-9a-f]{64}", "", it) for it in self.runs(0, "fv-text", "fixed.fd").splitlines()]
        self.assertIn("2 of 3 files fixed", lines)
        self.assertIn(f"  file {GUIDS[11]} type 04 attributes 28 data 924 fixed", lines)
        self.assertIn(f"  file {GUIDS[1]} type 07 attributes 00 data 3020", lines)
        self.assertIn("2 of 3 files fixed", self.runs(0, "fv-text", "-a\nb.fv").splitlines())
        self.assertEqual(self.runs(0, "fv-text", "fixed-inside.fv").count(' ui "PeiCore" '), 1)
        opened = self.runs(0, "fv-text", "--open", "firmware-fixed.fd")
        self.assertIn("2 of 3 files fixed", opened.splitlines())
        self.assertEqual((len(re.findall("^ *file ", opened, re.M)), "not opened" in opened), (13, False))

    def test_limits(self) -> None:
        Path("many.fd").write_bytes(making.volume([], 72) * 251)
        self.assertEqual(len(re.findall("^volume at ", self.runs(0, "fv-text", "many.fd"), re.M)), 251)
        self.expect(2, "fv-text: more than 1073741824 bytes", "fv-text", "/dev/zero")

    @needs_program
    def test_beside_the_program(self) -> None:
        files = [making.file(making.guid(n), making.noise(str(n), 10)) for n in range(2000)]
        Path("long.fd").write_bytes(making.volume(files, 0x20000))
        text = self.runs(0, "fv-text", "long.fd", env={"TMPDIR": "/missing"})  # which is not used
        self.assertEqual(len(text.splitlines()), 2003)
        for image in ("long.fd", "plain.fv", "nested.fv"):
            listed = self.runs(0, PROGRAM, "list", "--sums", image)
            listed = re.sub("^( *(?:file|section)) [0-9]+ ", r"\1 ", listed, flags=re.M)
            shown = re.sub("^(?:volume at|other bytes) .*\n", "", self.runs(0, "fv-text", image), flags=re.M)
            self.assertEqual(listed, shown, image)
