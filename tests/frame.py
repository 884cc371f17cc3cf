# SPDX-License-Identifier: BSD-2-Clause-Patent
"""The frame of the tests by `unittest`: where the built files are, what a test needs, and how a test runs a command in
a scratch folder. As a program, it runs the tests of a package, or of one module (`tests.program.test_rows`), and prints
what failed and what was skipped, and why:

    python3 -m tests.frame PACKAGE [NAME..]

NAME is a module of the package without `test_`, a class or a test, as in `same`, `same.Same` or
`same.Same.test_json`; `*` matches any text. The exit status is 0, or 1 if a test failed, or 77 if nothing was
tried."""

import fnmatch
import os
import shutil
import subprocess
import sys
import tempfile
import time
import unittest
from collections.abc import Callable
from pathlib import Path
from typing import Any, TypeVar

from tests.checks import NOTHING_TRIED, ROOT, skip, version_of

PROGRAM = Path(os.environ.get("FVTOOL") or ROOT / "crates/fv_tool/out/fv_tool")
LIBRARY = Path(os.environ.get("LIBFV") or ROOT / "libfv/out/libfv.so.2")
FIRMWARE = "2022.11-6+deb12u2"  # the version of Debian's images that the tests know
Tests = TypeVar("Tests", bound=Callable[..., Any])  # a test, or a class of tests

needs_program = unittest.skipUnless(PROGRAM.exists(), "the program is not built (./fvtool builds it)")
needs_library = unittest.skipUnless(LIBRARY.exists(), "the library is not built (libfv/build builds it)")


def needs_tool(tool: str, package: str = "") -> Callable[[Tests], Tests]:
    """Skips a test if a tool is not installed, which a package of Debian has."""
    return unittest.skipUnless(shutil.which(tool), f"no {tool}" + f" (Debian: {package})" * bool(package))


def needs_firmware(package: str) -> Callable[[Tests], Tests]:
    """Skips a test if the version of Debian's images that the tests know is not installed."""
    return unittest.skipUnless(version_of(package) == FIRMWARE, f"no package {package} {FIRMWARE} of Debian")


class RoomCase(unittest.TestCase):
    """Tests that work in a scratch folder, which all tests of the class share."""

    maxDiff = None
    room: Path

    @classmethod
    def setUpClass(cls) -> None:
        cls.room = Path(tempfile.mkdtemp())
        cls.addClassCleanup(shutil.rmtree, cls.room, ignore_errors=True)

    def setUp(self) -> None:
        self.addCleanup(os.chdir, os.getcwd())
        os.chdir(self.room)

    @staticmethod
    def run_command(*words: str | Path, **more: Any) -> subprocess.CompletedProcess[str]:
        """Runs a command. Both streams are kept apart, and `env` is added to the environment."""
        env = {**os.environ, **more.pop("env", {})}
        how: dict[str, Any] = {"capture_output": True, "text": True, "errors": "surrogateescape", **more}
        return subprocess.run(words, env=env, **how)

    @classmethod
    def runs(cls, status: int, *words: str | Path, **more: Any) -> str:
        """Runs a command, checks its status, and returns what it writes to standard output."""
        said = cls.run_command(*words, **more)
        if said.returncode != status:
            raise cls.failureException(f"{words} ended with {said.returncode}: {said.stdout}{said.stderr}")
        return str(said.stdout)

    def expect(self, status: int, text: str, *words: str | Path, **more: Any) -> None:
        """Runs a command, and checks its status and what it writes to both streams together."""
        said = self.run_command(*words, capture_output=False, stdout=subprocess.PIPE, stderr=subprocess.STDOUT, **more)
        self.assertEqual((said.returncode, said.stdout.rstrip("\n")), (status, text), words)

    def refuses(self, what: str, *words: str | Path) -> None:
        """Checks that a command rejects its arguments: status 3, nothing on standard output, and a line of usage."""
        said = self.run_command(*words)
        self.assertEqual((said.returncode, said.stdout, said.stderr[:7]), (3, "", "usage: "), words)
        self.assertIn(what, said.stderr, words)


class Result(unittest.TextTestResult):
    """The results of the tests, with the time of each."""

    def startTest(self, test: unittest.TestCase) -> None:
        super().startTest(test)
        self.began = time.monotonic()

    def stopTest(self, test: unittest.TestCase) -> None:
        super().stopTest(test)
        if self.showAll:
            self.stream.write(f"    {time.monotonic() - self.began:.1f} s\n")


def tests_in(suite: unittest.TestSuite) -> list[unittest.TestCase]:
    """Returns the tests of a suite."""
    return [test for it in suite for test in (tests_in(it) if isinstance(it, unittest.TestSuite) else [it])]


def short(test: unittest.TestCase, package: str) -> str:
    """Returns the name of a test of a package, without the names of the package and `test_`."""
    return test.id().removeprefix(f"{package}.").removeprefix("test_")


def chosen(package: str, names: list[str]) -> unittest.TestSuite:
    """Returns the tests of a package, or of one module, whose names begin with one of the names, or all of them."""
    folder, loader = ROOT / package.replace(".", "/"), unittest.TestLoader()
    is_package = folder.is_dir()
    suite = loader.discover(str(folder), top_level_dir=str(ROOT)) if is_package else loader.loadTestsFromName(package)

    def is_chosen(test: unittest.TestCase) -> bool:
        is_lost = type(test).__name__ == "_FailedTest"  # a module that cannot be read
        return is_lost or not names or any(fnmatch.fnmatch(f"{short(test, package)}.", f"{name}.*") for name in names)

    return unittest.TestSuite([it for it in tests_in(suite) if is_chosen(it)])


def say_skipped(name: str, result: unittest.TestResult) -> None:
    """Prints a line for each reason for which tests of a class were skipped."""
    groups: dict[tuple[str, str], list[str]] = {}
    for test, why in result.skipped:
        # A class that is skipped as a whole is one thing, and so are the tests of a class with one reason.
        holder, _, method = short(test, name).rpartition(".")
        groups.setdefault((holder, why), []).append(method)
    for (holder, why), methods in groups.items():
        skip(name.removeprefix("tests."), f"{holder} ({len(methods)} tests: {', '.join(methods)})", why)


def main() -> int:
    """Runs the tests that the arguments name. Returns the exit status."""
    package, *names = sys.argv[1:]
    suite = chosen(package, names)
    if not suite.countTestCases():
        sys.exit(f"no test of {package} has the name {' '.join(names)}")
    unittest.installHandler()  # after Ctrl-C, the classes still remove their folders
    runner = unittest.TextTestRunner(sys.stdout, verbosity=2 if names else 1, resultclass=Result, buffer=True)
    result = runner.run(suite)
    say_skipped(package, result)
    wrong = len(result.failures) + len(result.errors)
    print(f"{package.removeprefix('tests.')}: {result.testsRun} tests, {wrong} failed, {len(result.skipped)} skipped")
    if wrong:
        return 1
    return NOTHING_TRIED if result.testsRun == len(result.skipped) else 0


if __name__ == "__main__":
    sys.exit(main())
