# SPDX-License-Identifier: BSD-2-Clause-Patent
"""fv-check: its lines for hostile names, files that cannot be read, and images above its limits; its files of answers;
and its verdicts beside the program's."""

import os
import re
import resource
import threading
from pathlib import Path
from unittest import mock

from fv import __main__ as listing
from fv import check

from tests import making
from tests.commands.room import ImageCase, Table
from tests.frame import PROGRAM, needs_library, needs_program

STRANGE = "-a\tb \"'$(x)\u00e9.fd"  # a name that is hard to write in a shell
OTHER_LINES = "fv-check: the file for the answers has other lines"
LINES: Table = (
    # The greatest status is the exit status.
    (2, "0\t0 canonical\t-a\\x09b \"'$(x)\u00e9.fd\n2\t0 fault 25 at 0\tnone", "--", STRANGE, "none"),
    (1, "1\t0 not canonical\tfront.fv", "front.fv"),
    (0, "1\t0 not canonical\tfront.fv", "--no-status", "front.fv"),
    (0, "0\t0 canonical without marks\tfixed-inside.fv", "fixed-inside.fv"),
    (0, "", "--from", "/dev/null"),
    (4, "fv-check: none: no such file", "--from", "none"),
    (2, "2\t0 fault 25 at 0\ta\\x00b\n0\t0 canonical\tplain.fv", "--from", "list-with-nul"),
    # A pipe to which nobody writes does not block the run.
    (2, "2\t0 fault 25 at 0\tpipe\n2\t0 fault 25 at 0\t/dev/null\n2\t0 fault 25 at 0\t.", "pipe", "/dev/null", "."),
    # Only a file of answers gets answers, and an answer that is there already counts.
    (4, OTHER_LINES, "--to", "none.bin", "plain.fv"),
    (4, OTHER_LINES, "--to", "zeros", "plain.fv"),
    (4, "fv-check: /dev/stdout is not a file", "--to", "/dev/stdout", "plain.fv"),
    (2, "", "--to", "answers", ""),
    (2, "", "--to", "answers", ""),
)
# Names, and the lines of their images. Different names have different lines, and nothing that controls a terminal is
# written.
NAMED = {
    b"a\x01.fd": rb"0	0 canonical	a\x01.fd",
    b"a\x02.fd": rb"0	0 canonical	a\x02.fd",
    b"a?.fd": rb"1	0 not canonical	a\x3f.fd",
    rb"a\x01.fd": rb"0	0 canonical	a\x5cx01.fd",
    b"a\xff": rb"2	0 fault 25 at 0	a\xff",
    b"a\xe2\x80\xae\xc2\x9b": rb"2	0 fault 25 at 0	a\xe2\x80\xae\xc2\x9b",
    b"\xc3\xa9": b"2\t0 fault 25 at 0\t\xc3\xa9",
}


def check_without_threads() -> None:
    """Checks two images although no thread can be started."""
    with mock.patch.object(threading.Thread, "start", side_effect=RuntimeError("can't start new thread")):
        assert check.main(["--jobs", "4", "--", "plain.fv", "plain.fd"]) == 0


def limit_memory() -> None:
    """Runs two commands, each of which limits the memory of the process."""
    for run, words in ((check.main, ["--", "plain.fv"]), (listing.main, ["scan", "plain.fv"])):
        resource.setrlimit(resource.RLIMIT_AS, (resource.RLIM_INFINITY, resource.RLIM_INFINITY))
        assert run(words) == 0 and resource.getrlimit(resource.RLIMIT_AS)[0] == 4 << 30
    assert check.threads(1) == 1 and check.threads(1000) == 32


@needs_library
class Check(ImageCase):
    """Lines of made images, and files of answers."""

    @classmethod
    def images(cls) -> dict[str, bytes]:
        plain = making.IMAGES["plain.fv"]()
        return {STRANGE: plain, "zeros": bytes(1000), "list-with-nul": b"a\0b\nplain.fv\n"}

    def test_lines(self) -> None:
        os.mkfifo("pipe")
        before = Path("none.bin").read_bytes()
        self.expect_each("fv-check", LINES)
        self.assertEqual((Path("none.bin").read_bytes(), Path("zeros").read_bytes()), (before, bytes(1000)))

    def test_pipes_of_a_shell(self) -> None:
        said = self.runs(0, "bash", "-c", "fv-check <(sleep 0.1; cat plain.fv)")
        self.assertEqual(said.split("\t")[:2], ["0", "0 canonical"])
        self.expect(0, "0\t0 canonical\tplain.fv", "fv-check", "--from", "-", input="plain.fv\n")

    def test_names(self) -> None:
        for name in (b"a\x01.fd", b"a\x02.fd", rb"a\x01.fd"):
            Path(os.fsdecode(name)).write_bytes(Path("plain.fv").read_bytes())
        Path("a?.fd").write_bytes(Path("front.fv").read_bytes())
        Path("names").write_bytes(b"\n\n".join(NAMED) + b"\n")
        words = ["fv-check", "--from", "names", "--to", "named"]
        for status in (0, 2):  # the second run adds nothing
            self.expect(status, "", *words, *["--no-status"] * (status == 0))
            self.assertEqual(Path("named").read_bytes().splitlines(), list(NAMED.values()))
        restored = self.output(0, "bash", "-c", 'printf "%b\\n" "$(cut -f 3- named)"')
        self.assertEqual(restored.split(b"\n")[:-1], list(NAMED))  # by the command of README
        # An answer of 1.0 or 2.0, with `?` for a control character, belongs to no image.
        Path("old").write_text("0\t0 canonical\ta?.fd\n")
        self.expect(1, "", "fv-check", "--from", "-", "--to", "old", input="a?.fd\n")
        self.assertEqual(Path("old").read_text(), "0\t0 canonical\ta?.fd\n1\t0 not canonical\ta\\x3f.fd\n")

    def test_answers_are_completed(self) -> None:
        names = sorted(making.IMAGES)
        Path("list").write_text("".join(f"{it}\n" for it in names))
        words = ["fv-check", "--from", "list", "--to", "cut"]
        # If the disk takes only some of the answers, the run fails, and the next one completes them.
        full = "fv-check: [Errno 27] File too large"
        self.expect(4, full, "bash", "-c", 'ulimit -f 1 && exec "$@"', "", *words)
        self.expect(2, "", *words)
        whole = Path("cut").read_bytes()
        self.assertEqual([it.split("\t")[2] for it in whole.decode().splitlines()], names)
        # After a crash of the system, zeros may be at the end, with or without the beginning of a line before them.
        for end in (b"", b"2\t0 fau"):
            Path("cut").write_bytes(b"".join(whole.splitlines(True)[:3]) + end + bytes(1000))
            text = f"the answers end with zeros: {1000 + len(end)} bytes after their last line are removed"
            self.expect(2, f"fv-check: {text}", *words)
            self.assertEqual(Path("cut").read_bytes(), whole)
        locked = "fv-check: another run writes to locked"
        self.expect(4, locked, "flock", "locked", "fv-check", "--to", "locked", "plain.fv")

    @needs_program
    def test_beside_the_program(self) -> None:
        # The program reads the marks in sections, and writes nothing for an image without a volume.
        for image in sorted(making.IMAGES.keys() - {"fixed-inside.fv", "none.bin"}):
            with self.subTest(image=image):
                wanted = self.verdicts_of_the_program(image)
                status = 2 if "fault" in str(wanted) else int("not" in str(wanted))
                self.expect(status, f"{status}\t{', '.join(wanted)}\t{image}", "fv-check", "--", image)

        said = self.runs(0, "fv-check", "--no-status", "fixed.fv", "fixed.fd", "refused.fv", "refused.fd")
        self.assertEqual(said.count("without marks"), 4)

    def verdicts_of_the_program(self, image: str) -> list[str]:
        """Returns the program's verdict for each volume, or for the bytes of an image without a volume. Its offset of a
        fault counts from the first byte of the image. A volume with fixed files is checked as `unfix` writes it."""
        found = []
        said = self.run_command(PROGRAM, "check", "--all", image).stdout
        for at, verdict in re.findall(r"^volume at (\d+) (?:length \d+ )?(.*)$", said, re.M):
            if verdict.startswith("fault 15 "):
                plain = self.output(0, PROGRAM, "unfix", "--at", at, image)
                Path("unmarked.fv").write_bytes(plain)
                verdict = self.run_command(PROGRAM, "check", "unmarked.fv").stdout.splitlines()[-1]
                verdict += " without marks" * (not verdict.startswith("fault"))
            elif verdict.startswith("fault"):
                words, place = verdict.rsplit(" ", 1)
                verdict = f"{words} {int(place) - int(at)}"
            found.append(f"{at} {verdict}")
        return found


@needs_library
class Limits(ImageCase):
    """Images that need more memory than there is, or have more volumes than are checked, and runs without threads."""

    def test_memory_and_volumes(self) -> None:
        sections = making.section(making.VOLUME, making.volume([], 72)) * 200_000  # 600,000 volumes in all
        files = [making.file(making.guid(it), sections, making.FREEFORM) for it in range(3)]
        Path("large.fd").write_bytes(making.volume(files, 45_600_144))
        Path("many.fd").write_bytes(making.volume([], 72) * 1001)
        many = "".join(f"{72 * at} canonical, " for at in range(1000))
        lines = ["0\t0 canonical\tplain.fv", "2\t0 fault 24 at 0\tlarge.fd"]
        lines.append(f"2\t{many}72000 not checked: more than 1000 volumes\tmany.fd")
        command = 'ulimit -v 100000 && exec fv-check --jobs 2 -- "$@"'
        self.expect(2, "\n".join(lines), "bash", "-c", command, "", "plain.fv", "large.fd", "many.fd")

    def test_threads_and_memory(self) -> None:
        for function in (check_without_threads, limit_memory):
            ran = self.ran_alone(function)
            self.assertEqual((ran.returncode, ran.stderr), (0, ""))
