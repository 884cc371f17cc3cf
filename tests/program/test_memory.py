# SPDX-License-Identifier: BSD-2-Clause-Patent
"""Runs each command of the built program with each of its allocations refused in turn. The program has to end with
status 2 and the line of OutOfMemory. (The allocations of a message on standard error change nothing.) Then counts the
bytes that the program holds for a volume of many small files. Then runs the tests for failed allocations of each module
in the crates of tests: only the call whose allocation is refused may return OutOfMemory, and every other result has to
be right. No call may ask again for memory that it was refused."""

import itertools
import re
import resource
import subprocess
import tempfile
import unittest
from dataclasses import dataclass
from pathlib import Path

import rows
from tests.checks import ROOT
from tests.frame import PROGRAM, RoomCase, needs_program, needs_tool
from tests.program import COMPILER, preloaded

# Two volumes whose first difference is in a section in a group in a group.
FILES = "<a0> 0a*16 47aa0100180000f8 0b*16 21aa02002d0000f8 050000195a000000 0d0000030900000305000019"
FIRST, SECOND = f"{FILES} 5a ff*19", f"{FILES} 5b ff*19"
# The inputs, each of which is also a file of digits.
INPUTS = {
    "volume": "two-sections",
    "depex": "depex-fault",
    "list": "PHIT 0900380000000000 0000ff0000000000 8000000000000000 0e*16 0a*16"
    " feff080000000000 0400200000000000 0c*16 0102030405060708 ffff080000000000",
    "first": FIRST,
    "second": SECOND,
    "both": f"{FIRST} {SECOND}",
    "two": "two-sections two-sections",
    "packed": "3b00000298584eee143959429d6edc7bd79403cf180001005d000001000e 00*8 028032736bad5480bbd8b10ce74014ffffb7460000",
    "parts": "packed-sections",
}
# The lines that report a failed allocation, and the runs that may write them.
WANT = ["fault 24 at 0"]
OPENS = [*WANT, "section fault 6 at 0"]
SIDES, HOBS = [*WANT, "first fault 24 at 0", "second fault 24 at 0"], [*WANT, "hob fault 6 at 0"]
NAME = "0a0a0a0a-0a0a-0a0a-0a0a-0a0a0a0a0a0a"
EXTRACT = f"extract --name {NAME}"
WHOLE = ("normalise", "normalise --all", "list", "list --sums", "cells", "unfix", "scan", "check", EXTRACT)
RUNS = [
    *((WANT, f"{command} volume") for command in (*WHOLE, f"{EXTRACT} --section 19")),
    *((WANT, command) for command in ("scan both", "check depex", "check --all both")),
    *((SIDES, f"compare {names}") for names in ("volume depex", "volume volume", "first second", "first first")),
    *((SIDES, f"same {names}") for names in ("first second", "parts packed")),
    *((OPENS, f"open {words}") for words in ("packed", "--section 0.1 parts")),
    *((HOBS, f"hobs {words}list") for words in ("", "--image volume --base 16711680 ")),
]
# The crates of tests that have tests of failed allocations, which are in files memory.rt, and their built tests.
FILES_OF_TESTS = sorted(ROOT.glob("crates/*/src/*/memory.rt"))
TESTS = {it.parents[2].name: it.parents[2] / f"out/{it.parents[2].name}_tests" for it in FILES_OF_TESTS}


def front_of(text: str) -> list[str]:
    """Returns the texts of the first lines of a text: of no line, of one line, and so on, without the last line."""
    return list(itertools.accumulate(text.splitlines(keepends=True)[:-1], initial=""))


@dataclass(frozen=True)
class Outcome:
    """A run that has ended: its status and its output; the most bytes that it held; how many allocations it asked for;
    whether one was refused; and the sizes of the two allocations after the refused one."""

    status: int
    output: str
    errors: str
    most: int
    asked: int
    is_refused: bool
    after: list[int]


@needs_tool(COMPILER, "gcc")
class MemoryCase(RoomCase):
    """Runs of programs whose allocations are refused."""

    refusing: Path

    @classmethod
    def setUpClass(cls) -> None:
        super().setUpClass()
        cls.refusing = preloaded("refuse_memory.c", cls.room)
        resource.setrlimit(resource.RLIMIT_CORE, (0, resource.getrlimit(resource.RLIMIT_CORE)[1]))

    def outcome(self, at: int, *words: str | Path) -> Outcome:
        """Runs a program, and refuses its allocation with this number, or none if the number is 0."""
        with tempfile.TemporaryFile() as file:
            env = {"REFUSE_AT": str(at), "REPORT": str(file.fileno()), "LD_PRELOAD": str(self.refusing)}
            done = self.run_command(*words, env=env, pass_fds=[file.fileno()], stdin=subprocess.DEVNULL, timeout=20)
            file.seek(0)
            numbers = [int(it) for it in file.read().split()]
        what = f"{words}: allocation {at} refused: status {done.returncode}, {done.stdout[:200]}, {done.stderr[:200]}"
        self.assertEqual(len(numbers), 5, f"the program was ended: {what}")
        most, asked, is_refused, *after = numbers
        return Outcome(done.returncode, done.stdout, done.stderr, most, asked, bool(is_refused), after)


@needs_program
class Commands(MemoryCase):
    """Commands of the program."""

    @classmethod
    def setUpClass(cls) -> None:
        super().setUpClass()
        for name, words in INPUTS.items():
            data = rows.spelled(words)
            (cls.room / name).write_bytes(data)
            (cls.room / f"{name}.hex").write_text(data.hex(), encoding="ascii")

    def refuse_each(self, lines: list[str], *words: str) -> None:
        """Runs the program with each allocation refused, until none is left to refuse."""
        with self.subTest(words):
            for at in itertools.count(1):
                done = self.outcome(at, PROGRAM, *words)
                if not done.is_refused:
                    break
                self.assertIn((done.status, done.output), [(2, f"{it}\n") for it in lines], f"allocation {at} refused")
            self.assertGreater(at, 1, "no allocation was refused")

    def test_runs(self) -> None:
        for lines, command in RUNS:
            name, *words = command.split()
            self.refuse_each(lines, name, *words)
            self.refuse_each(lines, name, "--hex", *(f"{it}.hex" if it in INPUTS else it for it in words))
        self.refuse_each(WANT, "normalise", "no-such-file")

    def test_messages(self) -> None:
        """A message follows the line. Each allocation that is refused before the line is reported in its place. The
        later allocations are made for the message, and do not change the line or the status."""
        for status, line, *words in ((3, "wrong words", "neither"), (2, "fault 8 at 128", "check", "two")):
            wanted = 2, "fault 24 at 0\n"
            for at in itertools.count(1):
                done = self.outcome(at, PROGRAM, *map(str, words))
                seen = done.status, done.output
                if at > 1 and seen == (status, f"{line}\n"):
                    wanted = seen
                self.assertEqual(seen, wanted, f"{words}: allocation {at} refused")
                if not done.is_refused:
                    break
            self.assertEqual(wanted, (status, f"{line}\n"), words)
            self.assertTrue(done.errors, f"{words}: no message")

    def test_survey(self) -> None:
        """A survey whose memory runs out has written its first lines, or the line of a fault if its input was not read.
        It has no last line, and standard error says that lines are missing."""
        sums, counts = "sums .* findings 0 fixed 0", r"opened \d closed 0"
        for command, last in (("both", sums), ("parts", sums), ("--open both", counts), ("--open parts", counts)):
            words = ("survey", *command.split())
            whole = self.outcome(0, PROGRAM, *words)
            self.assertRegex(whole.output, rf"\n{last}\n\Z")
            for at in itertools.count(1):
                done = self.outcome(at, PROGRAM, *words)
                if not done.is_refused:
                    break
                self.assertEqual(done.status, 2, f"{command}: allocation {at} refused")
                if done.output != "fault 24 at 0\n":
                    self.assertIn("output has only the first lines", done.errors)
                    self.assertIn(done.output, front_of(whole.output), f"{command}: allocation {at} refused")
            self.assertGreater(at, 1, "no allocation was refused")

    def test_small_files(self) -> None:
        """For a volume of 10,900 files of 24 bytes, without data, the program holds at most the bytes of the input, 76
        bytes for each file, and some bytes for its buffers and for rounding."""
        count = 10900
        Path("small").write_bytes(rows.full_volume(count))
        for command in ("list", "normalise", "check"):
            done, length = self.outcome(0, PROGRAM, command, "small"), 72 + 24 * count
            self.assertEqual(done.status, 0, command)
            self.assertTrue(length < done.most <= length + 76 * count + 32768, f"{command} holds {done.most} bytes")


@unittest.skipUnless(all(it.exists() for it in TESTS.values()), "the tests are not built (rt ci builds them)")
class Libraries(MemoryCase):
    """Tests of the libraries, which rt ci has built."""

    def asked(self, tests: Path, name: str, at: int) -> tuple[int, bool]:
        """Runs a test with one allocation refused (with none if `at` is 0). The test has to pass. Returns the number of
        allocations that the test asks for, and whether one was refused. The number leaves out the two allocations of 11
        and 22 bytes for the words "OutOfMemory 0 0", which a test makes if it writes the fault as text."""
        done = self.outcome(at, tests, name)
        said = done.output + done.errors
        self.assertEqual(done.status, 0, f"{name}: allocation {at} refused: {said[:400]}")
        self.assertRegex(said, r"(?m)^test result: ok$", f"{name}: allocation {at} refused")
        return done.asked - 2 * (done.after == [11, 22]), done.is_refused

    def refuse_test(self, tests: Path, name: str) -> None:
        """Runs a test with each of its allocations refused in turn. The code that starts a test takes no memory of its
        own, so the first allocation is the test's. A call that reports a refused allocation asks for no more, so the
        test then asks for no more than usual. There is one exception: if an allocation for the bytes that a test spells
        for a call is refused, the test spells them again from their start. It asks for one more allocation than usual
        if the first allocation of a spelling was refused, for two more if the second was refused, and so on. A spelling
        takes at least two allocations. If any other test asks for more, one of its calls asked again after its
        allocation was refused, which hides the failure. This check does not notice a call that goes on without the
        memory."""
        usual, _ = self.asked(tests, name, 0)
        self.assertGreater(usual, 0, "no allocation was refused")
        before, is_refused = 0, True
        for at in range(1, usual + 2):
            asked, is_refused = self.asked(tests, name, at)
            more = max(asked - usual, 0)
            if more != before + 1 and (more > 1 or before == 1):
                refused = f"{at - 1} or {at} refused: {before} and {more} more than usual"
                self.fail(f"an allocation is asked for again: {refused}")
            before = more
        self.assertFalse(is_refused, "the test takes more memory in one run than in another")

    def test_out_of_memory_is_reported(self) -> None:
        """Each module that has a file memory.rt has a test of this name, and no other module has one."""
        self.assertTrue(TESTS, "no test of failed allocations was found")
        for crate, tests in TESTS.items():
            listed = self.outcome(1, tests, "--list")
            self.assertFalse(listed.is_refused, f"{crate} takes memory before a test")
            names = re.findall(r"(?m)^([a-z_]*::memory::out_of_memory_is_reported): test$", listed.output)
            modules = [it.parent.name for it in FILES_OF_TESTS if it.parents[2].name == crate]
            self.assertEqual(sorted(names), [f"{it}::memory::out_of_memory_is_reported" for it in modules])
            for name in names:
                with self.subTest(name):
                    self.refuse_test(tests, name)
