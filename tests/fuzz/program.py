# SPDX-License-Identifier: BSD-2-Clause-Patent
"""Runs the built program for fuzz.py, and checks the form of each answer."""

import random
import re
import subprocess
from collections.abc import Iterable
from dataclasses import dataclass
from os import devnull
from pathlib import Path
from subprocess import PIPE
from typing import TypeVar

T = TypeVar("T")
# The exit status of a run, and its output.
Answer = tuple[int, bytes]
REFUSALS = {
    "compare": rb"(?:first|second) fault (\d+) at (\d+)\n",
    "hobs": rb"hob fault (\d+) at (\d+)\n",
    "open": rb"(?:section )?fault (\d+) at (\d+)\n",
}
# The last fault of a volume that is read with enough memory, of a hand-off list, and of a packed section
LAST_FAULT, LAST_HOB_FAULT, LAST_OPEN_FAULT = 23, 5, 5
MAY_END_WITH_1 = ("compare", "check", "extract", "open")
WRITES_BYTES = ("normalise", "unfix", "extract", "open")
DIGITS = re.compile(rb"(?:[0-9a-f]{64}\n)*(?:(?:[0-9a-f]{2}){1,32}\n)?")
NONE: dict[str, str] = {}  # the environment of a run


class Wrong(Exception):
    """A promise that the program did not keep."""


def require(holds: T | None, *what: object) -> T:
    """Returns a value that shows that a promise is kept. If the value is false, raises Wrong with these texts."""
    if not holds:
        raise Wrong("; ".join(str(it)[:2000] for it in what))
    return holds


def line(text: str) -> bytes:
    """Returns a line of output."""
    return text.encode() + b"\n"


def joined(lines: Iterable[str]) -> bytes:
    """Returns the output that consists of these lines."""
    return b"".join(map(line, lines))


def fault(number: int, offset: int, before: str = "") -> Answer:
    """Returns the answer that an input has a fault."""
    return 2, line(f"{before}fault {number} at {offset}")


def spelled(pick: random.Random, data: bytes) -> bytes:
    """Returns hexadecimal text of the bytes."""
    text = data.hex()
    text = text.upper() if pick.randrange(3) == 0 else text
    step = pick.choice((1 << 30, 64, 7)) if len(text) < 100000 else 64
    return pick.choice("\n \t\r").join(text[at : at + step] for at in range(0, len(text), step)).encode()


@dataclass
class Program:
    """The program, run with files in a folder of its own, and for at most this many seconds in each run."""

    path: Path
    seconds: float
    folder: Path
    pick: random.Random
    calls: int = 0

    def start(self, words: list[str], given: str = devnull) -> Answer:
        """Runs the program. Checks that standard error explains the statuses 2 and 3, and is empty otherwise."""
        self.calls += 1
        argv, most = [str(self.path), *words], self.seconds
        with open(given, "rb") as stdin:
            try:
                done = subprocess.run(
                    argv, stdin=stdin, stdout=PIPE, stderr=PIPE, timeout=most, close_fds=False, env=NONE, check=False
                )
            except subprocess.TimeoutExpired:
                raise Wrong(f"{words}: no end within {most} seconds") from None
        heads = (b"fvtool: ", b"This is fvtool ")  # of a message, and of the help
        is_explained = done.stderr.startswith(heads) if done.returncode >= 2 else done.stderr == b""
        is_right = 0 <= done.returncode <= 3 and is_explained
        require(is_right, f"{words}: status {done.returncode}", done.stdout, done.stderr)
        return done.returncode, done.stdout

    def once(
        self, command: str, *inputs: bytes, image: bytes | None = None, base: int = 0, is_text: bool = False
    ) -> Answer:
        """Runs a command over these inputs, as bytes or as hexadecimal text. The answer is in bytes."""
        words, files = command.split() + ["--hex"] * is_text, list[str]()
        for number, data in enumerate(inputs if image is None else (*inputs, image)):
            files.append(str(self.folder / f"input{number}"))
            Path(files[-1]).write_bytes(spelled(self.pick, data) if is_text else data)
        if image is not None:
            words += ["--image", files.pop(), "--base", str(base)]
        is_piped = len(files) == 1 and self.pick.randrange(2) == 0
        status, out = self.start(words, files[0]) if is_piped else self.start(words + files)
        if is_text and status == 0 and words[0] in WRITES_BYTES:
            require(DIGITS.fullmatch(out), f"{words}: not lines of digits", out)
            out = bytes.fromhex(out.decode())
        return status, out

    def ask(self, command: str, *inputs: bytes, image: bytes | None = None, base: int = 0) -> Answer:
        """Returns the answer of a command, and checks its form. Now and then the same inputs are given as text."""
        status, out = self.once(command, *inputs, image=image, base=base)
        name = command.split()[0]
        require(status < 3, f"{command}: status 3", out)
        require(status != 1 or name in MAY_END_WITH_1, f"{command}: status 1", out)
        if status == 2:
            form = REFUSALS.get(name, rb"fault (\d+) at (\d+)\n")
            number, offset = map(int, require(re.fullmatch(form, out), f"{command}: another refusal", out).groups())
            last = LAST_HOB_FAULT if name == "hobs" else LAST_FAULT
            last = LAST_OPEN_FAULT if out.startswith(b"section") else last
            require(1 <= number <= last, f"{command}: a fault out of place", out)
            require(offset <= max(map(len, inputs)), f"{command}: a fault past the input", out)
        if self.pick.randrange(10) == 0:
            again = self.once(command, *inputs, image=image, base=base, is_text=True)
            require(again == (status, out), f"{command}: with --hex another answer", again, (status, out))
        return status, out

    def expect(self, wanted: Answer, command: str, *inputs: bytes) -> None:
        """Checks the answer of a command over these inputs."""
        found = self.ask(command, *inputs)
        require(found == wanted, f"{command}: another answer", found, wanted)

    def told(self, command: str, *inputs: bytes) -> bytes:
        """Returns the output of a command over these inputs, which has to end with status 0."""
        status, out = self.ask(command, *inputs)
        require(status == 0, f"{command}: status {status}", out)
        return out
