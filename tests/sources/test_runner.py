# SPDX-License-Identifier: BSD-2-Clause-Patent
"""Tests tests/run.py with made checks, which pass, fail, skip a part, and try nothing. A skipped thing must never count
as passed, and no process may be left. As a program, this module runs made checks as tests/run.py runs its checks."""

import os
import re
import shlex
import signal
import subprocess
import sys
import time
from pathlib import Path

from tests.checks import ROOT
from tests.frame import RoomCase
from tests.run import ALONE, MADE, Check, counted, descendants, files, main


def script(name: str, text: str, *words: str, kind: int = 0, after: tuple[str, ...] = ()) -> Check:
    """Returns a check that runs a script with some words."""
    return Check(name, shlex.join(["bash", "-c", text, name, *words]), kind, f"runs {text[:4]}", after)


BESIDE = 'touch "$SHARED/$1"; until [ -e "$SHARED/$2" ]; do sleep 0.01; done'
SINGLE = 'mkdir "$SHARED/one" && sleep 0.1 && rmdir "$SHARED/one"'
SLOW = 'setsid sleep "$LONG" & (trap "" INT TERM; sleep "$LONG") & sleep "$LONG"'
# Checks that write lines and end with a status. Only the counts of rt ci are added.
ENDING: tuple[tuple[str, int, list[str]], ...] = (
    ("good", 0, ["good: 3 calls"]),
    ("other", 0, ["1 passed, 1 failed", "other: 2 calls"]),
    ("bad", 1, ["bad: it differs"]),
    ("partly", 0, ["partly: skipped: the shell, no zsh", "partly: 2 calls", "part: skipped: the page, no mandoc"]),
    ("badly", 2, ["badly: skipped: the shell, no zsh", "badly: it differs"]),
    ("idle", 77, ["idle: skipped: the types, no mypy (Debian: mypy)"]),
    ("idlest", 77, ["idlest: skipped: one, no a", "idlest: skipped: two, no b"]),
    ("mute", 77, ["mute: there is no tool"]),
    ("texts", 0, ["texts: 3 are right, and 0 skipped: none", "not skipped: none"]),
)
CHECKS = (
    *(script(name, f'printf "%s\\n" "$@"; exit {status}', *lines) for name, status, lines in ENDING),
    Check("missing", "./there-is-no-such-command", 0, "has no command"),
    Check("lacking", "true", 0, "needs a file", needs=("file",)),
    script("later", "true", after=("bad",)),
    script("latest", "true", after=("later",)),
    script("left", BESIDE, "left", "right"),
    script("right", BESIDE, "right", "left"),
    script("lone", SINGLE, kind=ALONE),
    script("lonely", SINGLE, kind=ALONE),
    Check("given", "echo given:", 0, "shows its arguments", joint="/"),
    script("shown", "cd tests; echo $CDPATH $LC_ALL $RT_JOBS; mktemp"),
    script("slow", SLOW),
)


class Runs(RoomCase):
    """Runs made checks."""

    def run_made(self, words: str) -> subprocess.CompletedProcess[str]:
        """Runs this module."""
        env = {"SHARED": str(self.room), "RT_JOBS": "4"}
        return self.run_command(sys.executable, "-m", "tests.sources.test_runner", *words.split(), env=env)

    def test_counts(self) -> None:
        """A check counts by its status, and each skipped thing by its line."""
        mypy = "not tried: idle: the types, no mypy (Debian: mypy)\n"
        parts = "not tried: partly: the shell, no zsh\nnot tried: partly: the page, no mandoc\n"
        zsh = "not tried: badly: the shell, no zsh\n"
        bad, late = "failed: bad\n", "failed: missing\nfailed: later\nfailed: latest\n"
        for status, lines, words in (
            (0, "3 passed, 0 failed", "--strict good texts other"),
            (1, f"{bad}1 passed, 1 failed", "bad good"),
            (0, f"{parts}1 passed, 0 failed, 2 skipped", "partly"),
            (0, "not tried: idlest: one, no a\nnot tried: idlest: two, no b\n0 passed, 0 failed, 2 skipped", "idlest"),
            (0, "not tried: mute: all of it, and it gives no reason\n1 passed, 0 failed, 1 skipped", "mute good"),
            (0, "not tried: lacking: all of it, it is not built\n0 passed, 0 failed, 1 skipped", "lacking"),
            (1, f"{mypy}with --strict, nothing may be skipped\n1 passed, 0 failed, 1 skipped", "--strict good idle"),
            (1, f"{bad}failed: badly\n{parts}{zsh}{mypy}2 passed, 2 failed, 4 skipped", "good partly bad badly idle"),
            (1, f"{bad}{late}1 passed, 4 failed", "good latest later bad missing"),
            (0, "6 passed, 0 failed", "later left right lone lonely good"),
        ):
            with self.subTest(words):
                said = self.run_made(words)
                summary = re.search(r"(?ms)^(failed: |not tried: |\d+ passed).*", said.stdout)
                found = summary[0] if summary else ""
                self.assertEqual((said.returncode, found), (status, f"{lines}\n"), said.stdout + said.stderr)

    def test_bash(self) -> None:
        """Checks in bash name what they skip."""
        text = f"source {shlex.quote(str(ROOT))}/tests/skipping.bash; has_tool {{}} 'the page' 'a package'"
        self.expect(0, "", "bash", "-c", text.format("bash"), "it")
        self.expect(1, "it: skipped: the page, no none (Debian: a package)", "bash", "-c", text.format("none"), "it")

    def test_prove(self) -> None:
        """The counts of rt ci are added to the counts of the checks."""
        output = "rt: ok\n7 passed, 2 failed\n"
        for status, text, counts in ((1, output, (7, 2)), (1, "7 passed, 0 failed\n", (7, 1)), (2, "rt: ok\n", (0, 1))):
            found = counted("prove", status, text)
            self.assertEqual((found.passed, found.failed, found.state), (*counts, "failed"))
        self.assertEqual(counted("prove", 0, "7 passed, 0 failed\n").passed, 7)

    def test_lines(self) -> None:
        """Each check has a line, and the end of its output follows if it has failed."""
        said = self.run_made("good bad later idle").stdout
        for line in (
            r"good: passed, \d+\.\d s: 3 calls",
            r"bad: failed, \d+\.\d s: it ended with status 1\n    bad: it differs",
            "later: failed, 0.0 s: not run, because bad has failed",
            r"idle: skipped, \d+\.\d s: the types, no mypy \(Debian: mypy\)",
        ):
            self.assertRegex(said, rf"(?m)^{line}$")

    def test_names(self) -> None:
        """Names and patterns choose checks, and the text after a dot, and arguments after `--`, go to the check."""
        for words, lines in (
            ("given.a.b given.c", "given: a/b c\n"),
            ("given.a -- --strict b.c", "given: a --strict b.c\n"),
            ("g*d bad", "good: passed, "),
            ("--list idl*", "idle       runs prin\nidlest     runs prin\n"),
        ):
            self.assertIn(lines, self.run_made(words).stdout)
        for words, what in (
            ("--strictly", "usage: "),
            ("no.thing", "no check has the name no"),
            ("g* -- --strict", "the arguments after -- are for one check"),
        ):
            said = self.run_made(words)
            self.assertEqual((said.returncode, said.stdout), (2, ""))
            self.assertIn(what, said.stderr)

    def test_environment(self) -> None:
        """The checks run with a variable CDPATH, and with a folder for their files, which is removed."""
        folder, words, made, *_ = self.run_made("shown").stdout.splitlines()
        self.assertEqual((folder, words), (str(ROOT / "tests"), ". C 4"))
        self.assertFalse(Path(made).parent.exists())

    def test_interrupt(self) -> None:
        """After Ctrl-C and after a signal, no process and no folder is left."""
        for sign in (signal.SIGINT, signal.SIGTERM):
            env = {**os.environ, "LONG": "98765", "TMPDIR": str(self.room)}
            words = [sys.executable, "-m", "tests.sources.test_runner", "slow", "good"]
            with subprocess.Popen(words, env=env, stdout=subprocess.PIPE) as run:
                while len(found := descendants(run.pid)) < 4 and run.poll() is None:
                    time.sleep(0.05)
                run.send_signal(sign)
                said = run.communicate()[0]
            self.assertEqual((run.returncode, said.splitlines()[-1]), (130, b"interrupted"))
            self.assertEqual([it for it in found if Path(f"/proc/{it}").exists()], [])
            self.assertEqual([*self.room.glob("checks-*")], [])

    def test_differing(self) -> None:
        """A file that is written, changed or removed is found, except a made file."""
        folder = self.room / "repository"
        (folder / "out").mkdir(parents=True)
        for name in ("kept", "changed", "removed", "mode"):
            (folder / name).write_text(name)
        before = files(folder)
        (folder / "changed").write_text("changed!")
        (folder / "removed").unlink()
        (folder / "mode").chmod(0o600)
        (folder / "new").symlink_to("kept")
        (folder / "out/made").write_text("made")
        self.assertEqual({it[0] for it in before ^ files(folder)}, {"changed", "mode", "new", "removed"})


if __name__ == "__main__":
    MADE["file"] = ("no/file", "it is not built")
    sys.exit(main(CHECKS, patience=0.5))
