# SPDX-License-Identifier: BSD-2-Clause-Patent
"""Runs the built program with standard streams that fail: closed, on a full device, and with every write interrupted.
Then runs it with a terminal, a pipe and a file as standard error, and checks the text there. A terminal also gets the
forms of the command line after wrong arguments, and messages about runs that end well. Standard output and the status
are the same in all three cases, and if standard error takes nothing."""

import contextlib
import os
import pty
import re
import shutil
import subprocess
import tempfile
import termios
import unittest
from dataclasses import dataclass
from pathlib import Path
from typing import IO, Any

import rows
from tests.checks import ROOT, read
from tests.frame import PROGRAM, RoomCase, needs_program, needs_tool
from tests.program import COMPILER, preloaded

VOLUME = str(ROOT / "crates/fv_tool/stdin")
LISTED, FAULT = "volume ffs2 length 128 files 0", "fault 25 at 0"
TERMINAL = -1  # in place of a file
# The status of a run, its output, and its text on standard error.
Result = tuple[int, str, str]
READING = "fvtool: reading standard input\n"
HELP = "(see fvtool --help)"
MORE = """\
man fvtool explains these commands
fv-same A B: are two images the same firmware? fv-unpack IMAGE FOLDER: what is in an image?
"""
NO_VOLUME = """\
fvtool: no volume was found (fv-unpack --list FILE looks further)
Byte 40 of a volume begins the text _FVH: if LC_ALL=C grep -abo _FVH FILE shows N:_FVH,
try fvtool list --at M FILE, where M is N - 40
"""


@needs_program
class Streams(RoomCase):
    """Commands of the shell, in which P is the program and V a volume as text."""

    @classmethod
    def setUpClass(cls) -> None:
        super().setUpClass()
        volume = Path(VOLUME).read_text(encoding="ascii")
        shutil.copy(VOLUME, cls.room / "volume.hex")
        (cls.room / "long.hex").write_text(volume * 800, encoding="ascii")
        cls.room.chmod(0o755)  # for another user

    def ends(self, status: int, output: str, command: str, said: str | None = None, **more: Any) -> None:
        """Checks that a command has this status, this output and, if it is given, this text on standard error, and ends
        within 20 seconds."""
        with self.subTest(command):
            names = {"P": str(PROGRAM), "V": VOLUME, **more.pop("env", {})}
            done = self.run_command("bash", "-c", command, env=names, timeout=20, **more)
            self.assertEqual((done.returncode, done.stdout.rstrip("\n")), (status, output), done.stderr)
            if said is not None:
                self.assertEqual(done.stderr.rstrip("\n"), said)

    def test_input_is_closed(self) -> None:
        """No file that the run opens takes the place of standard input."""
        self.ends(2, FAULT, '"$P" list --hex <&-')
        self.ends(2, FAULT, '"$P" hobs --hex --image "$V" --base 0 <&-')
        self.ends(2, f"second {FAULT}", '"$P" compare --hex "$V" /dev/stdin <&-')

    def test_output_is_closed(self) -> None:
        """The run fails, and no file of the run is written to."""
        self.ends(2, "", '"$P" list --hex volume.hex >&-')
        self.assertEqual(read("volume.hex"), read(VOLUME))

    def test_errors_are_lost(self) -> None:
        """Standard error is closed, full, or a pipe that nobody reads: the result is the same."""
        for errors in ("2>&-", "2> /dev/full", "2> >(exec 0<&-)"):
            self.ends(0, LISTED, f'"$P" list --hex "$V" {errors}')
            self.ends(2, FAULT, f'"$P" list --hex no-such-file {errors}')
            self.ends(2, FAULT, f'"$P" list --hex "$P" {errors}')
            self.ends(3, "wrong words", f'"$P" lists {errors}')

    @needs_tool(COMPILER, "gcc")
    def test_output_fails(self) -> None:
        """Standard output is full, or each write is interrupted, with short texts, which are buffered, and long
        ones."""
        interrupt = preloaded("interrupt_writes.c", self.room)
        for command in ("scan", "normalise --all"):
            for file in (VOLUME, "long.hex"):
                self.ends(2, "", f'"$P" {command} --hex "{file}" > /dev/full')
                self.ends(2, "", f'set -o pipefail; LD_PRELOAD="{interrupt}" "$P" {command} --hex "{file}" | cat')

    def test_paths_of_the_program(self) -> None:
        """A file of /proc has the length 0, but its contents are read. The path of the program need not be UTF-8."""
        Path("ff00").symlink_to(PROGRAM)
        self.ends(0, "ff00", "./ff00 normalise --all --hex /proc/self/comm")
        Path("\udcff").mkdir()
        Path("\udcff/program").symlink_to(PROGRAM)
        self.ends(0, LISTED, r"""$'\xff/program' list --hex "$V" """)

    def test_file_that_may_not_be_read(self) -> None:
        """Root may read any file, so another user runs a copy of the program."""
        shutil.copy(PROGRAM, "copy")
        Path("closed").touch(0o000)
        user: dict[str, Any] = {"user": "nobody", "group": "nogroup", "extra_groups": []} if os.geteuid() == 0 else {}
        self.ends(2, FAULT, "./copy list --hex closed", "fvtool: closed: permission denied", **user)

    def test_input_of_more_than_256_mib(self) -> None:
        with open("long", "wb") as file:
            file.truncate(2**28 + 1)
        said = "fvtool: long: the input has more than 256 MiB (man fvtool shows how to cut a volume out)"
        self.ends(2, "fault 8 at 268435456", '"$P" list long', said)

    def test_script_that_builds_the_program(self) -> None:
        """The script then becomes the program. It is started by a relative path, with a variable CDPATH, by which `cd`
        writes the name of the folder; and through a symbolic link in another folder."""
        Path("in").symlink_to(ROOT)
        Path("link").symlink_to(ROOT / "fvtool")
        self.ends(0, LISTED, 'in/fvtool list --hex "$V"', env={"CDPATH": "."})
        self.ends(0, LISTED, './link list --hex "$V"')


@dataclass(frozen=True)
class Case:
    """A run: its arguments, its status, its output, its text on standard error at a terminal, and that text elsewhere
    if it is another one. If a text is typed, standard input is a terminal. Otherwise standard input is the file."""

    words: list[str]
    status: int
    written: str
    said: str
    elsewhere: str | None = None
    typed: str | None = None
    file: str = os.devnull


def block(head: str) -> str:
    """Returns the lines of the indented block of the program's page that begins with these words."""
    blocks = read(ROOT / "docs/PROGRAM.md").split("\n\n")
    found = next(it for it in blocks if it.startswith(f"    {head}"))
    return "".join(line[4:] + "\n" for line in found.split("\n"))


def meaning(sentence: str, step: str, file: str | None = None) -> str:
    """Returns the line of standard error that explains a fault, and says what to do next."""
    return f"fvtool: {f'{file}: ' if file else ''}{sentence} ({step})\n"


GUID = "0" * 32
# Wrong arguments, and the sentence about each: each kind of argument and of value that can be wrong or missing.
WRONG: list[tuple[list[str], str]] = [
    (["lists"], "unknown command 'lists'"),
    (["normalize"], "unknown command 'normalize'"),
    (["--helper"], "unknown command '--helper'"),
    (["compare", "--", "--help"], "two files are needed"),
    (["list", "--sum"], "unexpected argument '--sum' found"),
    (["list", "a", "b"], "unexpected argument 'b' found"),
    (["list", "--at"], "a value is required for '--at <at>' but none was supplied"),
    (["list", "--at", "1", "--at=2"], "the argument '--at <at>' cannot be used multiple times"),
    (["list", "--hex=a"], "unexpected value 'a' for '--hex' found; no more were expected"),
    (["list", "--at", "0X10"], "invalid value '0X10' for '--at'"),
    (["list", "--at", "0x10", "--\x1b[31m\n\u202e"], r"unexpected argument '--\u{1b}[31m\n\u{202e}' found"),
    (["list", "--at", "\x1b[31m"], r"invalid value '\u{1b}[31m' for '--at'"),
    (["\x1b[31m"], r"unknown command '\u{1b}[31m'"),
    (["compare", "--other-at", "0x", "a", "b"], "invalid value '0x' for '--other-at'"),
    (["compare", "a"], "two files are needed"),
    (["same", "a"], "two files are needed"),
    (["extract"], "'--name' is missing"),
    (["extract", "--name", "a"], "invalid value 'a' for '--name'"),
    (["extract", "--name", GUID, "--section", "0x10"], "invalid value '0x10' for '--section'"),
    (["extract", "--name", GUID, "--instance", "0x1"], "invalid value '0x1' for '--instance'"),
    (["open", "--section", "0x1"], "invalid value '0x1' for '--section'"),
    (["open", "--section", "0."], "invalid value '0.' for '--section'"),
    (["open", "--at", "-", "--section", "1.+2"], "invalid value '1.+2' for '--section'"),
    (["open", "--at", "x"], "invalid value 'x' for '--at'"),
    (["hobs", "--image", "a", "--base", "0x10"], "invalid value '0x10' for '--base'"),
    (["hobs", "--image", "a"], "'--image' and '--base' must be given together"),
    (["check", "--all", "--at", "0"], "'--all' and '--at' cannot be given together"),
    (["list", "\udcff"], "argument 2 is not UTF-8"),
]
# Arguments that ask for help, or for the version.
HELPED = [[*before, it] for before in ((), ("list",)) for it in ("--help", "-h", "--version")]
HELPED += [["help"], ["list", "-hx"]]


def wrong_cases() -> list[Case]:
    """Returns runs with wrong arguments. The forms of the command line are at the top of the program's page."""
    synopsis, status = block("fvtool\n"), (3, "wrong words\n")
    head = f"This is fvtool {read(ROOT / 'VERSION').strip()}, which reads UEFI firmware volumes. Its commands:\n"
    found = [Case(words, *status, head + synopsis + block("normalise  writes") + MORE) for words in HELPED]
    for words, sentence in WRONG:
        reason = f"fvtool: {sentence}{'' if 'UTF-8' in sentence else f' {HELP}'}\n"
        found.append(Case(words, *status, f"{reason}{synopsis}{MORE}", reason))
    return found


SOURCE = "compare the input with its source"
OFFSET = "the offset shows where: man fvtool lists the faults"
LOOK = "fvtool scan FILE finds volumes, fv-unpack --list FILE looks further"
UNFIX = "fvtool unfix makes a copy without the marks; fv-same, fv-unpack and fv-map need no copy"
GOES_ON = "fvtool check --all goes on with the other volumes; fv-same, fv-unpack and fv-map read this one"
NO_IMAGE = "fvtool list and fvtool compare need no image"
# The header of a volume of 128 bytes, with a header length of 2112 bytes.
LONG_HEADER = "00*16 78e58c8c3d8a1c4f9935896185c32dd3 80 00*7 5f465648fffe0400 4008cef500000002 0100000080000000 00*8"
LENGTH = "the length in the header of a volume is wrong"
WAYS = "man fvtool lists the ways; fv-unpack knows others"
# A GUID-defined section whose LZMA stream does not begin with a zero byte after its header.
DAMAGED = "2a00000298584eee143959429d6edc7bd79403cf180001005d000001 00*9 0100000000"
TWO, FOLLOW = "two-sections two-sections", "bytes follow the volume"
# Inputs that are rejected: the words of the rows that spell each, the command, in which FILE is the input and VOLUME a
# volume as text, the fault, and what to do next. The meaning of the fault is in FAULTS, unless it is given.
REJECTIONS: list[tuple[str, ...]] = [
    ("616263", "list FILE", "fault 1 at 3", "is the file whole? fvtool scan FILE finds volumes"),
    ("ff*64", "check FILE", "fault 2 at 40", LOOK),
    ("head-file-system", "list FILE", "fault 3 at 16", LOOK),
    (f"H256 0a*16 b9aa0b009c0000f884000017 {LONG_HEADER} ff*84", "list FILE", "fault 1 at 228", SOURCE),
    ("head-sum-off-by-one", "list FILE", "fault 6 at 0", SOURCE),
    ("head-length-over-256m", "list FILE", "fault 8 at 32", SOURCE, LENGTH),
    (TWO, "check FILE", "fault 8 at 128", "try --at 0, or --all", FOLLOW),
    (TWO, "normalise FILE", "fault 8 at 128", "try --at 0, or --all", FOLLOW),
    (TWO, "unfix FILE", "fault 8 at 128", "try --at 0", FOLLOW),
    (TWO, "compare --hex FILE VOLUME", "first fault 8 at 128", "try --at 0", FOLLOW),
    (TWO, "compare --hex VOLUME FILE", "second fault 8 at 128", "try --other-at 0", FOLLOW),
    ("file-header-sum", "list FILE", "fault 11 at 72", OFFSET),
    ("file-fixed", "list FILE", "fault 15 at 91", UNFIX),
    ("file-fixed", "normalise --all FILE", "fault 15 at 91", GOES_ON),
    ("nested-fixed-file", "list FILE", "fault 15 at 191", "fv-same, fv-unpack and fv-map read such volumes"),
    ("same-name-twice", "list FILE", "fault 17 at 96", "report it to whoever built the volume"),
    ("section-size-too-small", "list FILE", "fault 19 at 96", OFFSET),
    ("nine-groups", "list FILE", "fault 21 at 128", "treat the input as hostile"),
    ("ext-header-without-room", "normalise FILE", "fault 22 at 0", NO_IMAGE),
    ("top-misaligned", "normalise FILE", "fault 23 at 0", NO_IMAGE),
    ("head-sum-off-by-one", "open --section 0.0 FILE", "fault 6 at 0", SOURCE),
    ("0500001958", "open FILE", "section fault 2 at 3", WAYS, "the way to open the section is not known"),
    ("05000001", "open FILE", "section fault 1 at 0", SOURCE, "the section is cut short"),
    (DAMAGED, "open FILE", "section fault 3 at 37", SOURCE, "the packed data are damaged: the data are damaged"),
]


def rejection_cases() -> list[Case]:
    """Returns a run for each rejection. Writes the inputs to the current folder."""
    table = read(ROOT / "docs/FAULTS.md").partition("## What each fault means for you")[2].partition("\n## ")[0]
    meanings = dict(re.findall(r"(?m)^\| (\d+) \| (.*?) \|", table))
    found: list[Case] = []
    for number, (spelling, command, fault, step, *given) in enumerate(REJECTIONS):
        data = rows.spelled(spelling)
        Path(str(number)).write_bytes(data.hex().encode() if "--hex" in command else data)
        words = [{"FILE": str(number), "VOLUME": VOLUME}.get(word, word) for word in command.split()]
        (sentence,) = given or [meanings[fault.split()[-3]]]
        found.append(Case(words, 2, f"{fault}\n", meaning(sentence, step, str(number))))
    return found


def file_cases() -> list[Case]:
    """Returns runs over files that cannot be read. The file `short` has an odd number of digits."""
    fault, missing, also = f"{FAULT}\n", "fvtool: /missing: no such file\n", "fvtool: /also: no such file\n"
    unread = "the input cannot be read, or is not hexadecimal text"
    first = meaning(unread, "check the name of the input, and --hex", "/dev/stdin")
    return [
        Case(["normalise", "/missing"], 2, fault, missing),
        Case(["compare", "--hex", VOLUME, "/missing"], 2, f"second {fault}", missing),
        Case(["compare", "/missing", VOLUME], 2, f"first {fault}", missing),
        Case(["compare", "/missing", "/also"], 2, f"first {fault}", missing + also),
        Case(["compare", "--hex", "/dev/stdin", "/missing"], 2, f"first {fault}", missing + first, file="short"),
        Case(["hobs", "--image", "/missing", "--base", "0", os.devnull], 2, fault, missing),
        Case(["list", "/\x1b[31m"], 2, fault, "fvtool: /\\u{1b}[31m: no such file\n"),
        Case(["list", f"/{'a' * 2000}"], 2, fault, f"fvtool: /{'a' * 999}..: cannot be opened\n"),
        Case(["list", "/"], 2, fault, "fvtool: /: is a folder\n"),
    ]


def other_cases() -> list[Case]:
    """Returns runs that end well or show faults of parts, and runs that read standard input."""
    listed, unread = f"{LISTED}\n", "the input cannot be read, or is not hexadecimal text"
    mistyped = meaning(unread, "check the name of the input, and --hex")
    faulty = "a volume was rejected, and its line shows the fault"
    read_by = "man fvtool lists the faults; fv-same, fv-unpack and fv-map read volumes with fault 15"
    lines = "volume at 0 length 128 fault 15 at 91\n"
    return [
        Case(["check", "--all", "fixed"], 2, lines, meaning(faulty, read_by, "fixed")),
        Case(["scan", "short"], 0, "", NO_VOLUME, ""),
        Case(["check", "--all", "short"], 0, "", NO_VOLUME, ""),
        Case(["scan"], 0, "", NO_VOLUME, ""),
        Case(["normalise", "--all", os.devnull], 0, "", ""),
        Case(["scan", "--hex", VOLUME], 0, "volume at 0 length 128\n", ""),
        Case(["hobs", "short"], 2, "hob fault 1 at 0\n", meaning("a block is cut short", "man fvtool", "short")),
        Case(["list", "--hex", VOLUME], 0, listed, ""),
        Case(["extract", "--hex", "--name", GUID, VOLUME], 1, "not found\n", ""),
        Case(["list", "--hex"], 0, listed, "", file=VOLUME),
        Case(["list", "--hex"], 0, listed, READING, "", typed=read(VOLUME)),
        Case(["list", "--hex"], 2, f"{FAULT}\n", READING + mistyped, mistyped, typed="xyz\n"),
    ]


def new_terminal() -> tuple[int, int]:
    """Returns the two ends of a terminal that shows the text that is written to it, but not the text that is typed."""
    ours, theirs = pty.openpty()
    modes = termios.tcgetattr(theirs)
    modes[1] &= ~termios.OPOST
    modes[3] &= ~termios.ECHO
    termios.tcsetattr(theirs, termios.TCSANOW, modes)
    return ours, theirs


def read_until(ours: int, ends: bytes | None) -> bytes:
    """Returns the text that a terminal shows, until its other end is closed or a given text has appeared."""
    shown = b""
    with contextlib.suppress(OSError):  # the other end is closed
        while ends is None or not shown.endswith(ends):
            shown += os.read(ours, 4096)
    return shown


def run(case: Case, errors: int | IO[bytes] | None = None, output: int | None = None) -> Result:
    """Returns the result of a run. Its standard error is a terminal, unless `errors` is a pipe or a file: then nothing
    is written to the terminal. A text is typed only after the program has reported that it reads, if it reports this.
    If `output` is the terminal, the output is a part of the text that the terminal shows. If `output` is another file,
    the returned output is empty. A run that hangs is ended."""
    ours, theirs = new_terminal()
    with tempfile.TemporaryFile() as written, open(case.file, "rb") as file:
        given = file.fileno() if case.typed is None else theirs
        out = written.fileno() if output is None else theirs if output == TERMINAL else output
        words = ["timeout", "--foreground", "20", str(PROGRAM), *case.words]
        child = subprocess.Popen(words, stdin=given, stdout=out, stderr=theirs if errors is None else errors)
        os.close(theirs)
        said = b""
        if case.typed is not None:
            said = read_until(ours, READING.encode()) if errors is None else b""
            os.write(ours, case.typed.encode() + b"\x04")
        said += child.stderr.read() if child.stderr else read_until(ours, None) if errors is None else b""
        status = child.wait()
        os.close(ours)
        written.seek(0)
        return status, written.read().decode(), said.decode()


def has_terminal() -> bool:
    """Returns whether a terminal can be made here."""
    try:
        for end in new_terminal():
            os.close(end)
    except OSError:
        return False
    return True


@needs_program
@unittest.skipUnless(has_terminal(), "no terminal can be made here")
class Terminal(RoomCase):
    """Runs at a terminal, with a pipe, and with a file."""

    def setUp(self) -> None:
        super().setUp()
        Path("short").write_bytes(b"abc")
        Path("fixed").write_bytes(rows.spelled("file-fixed"))

    def test_cases(self) -> None:
        """Standard error is a terminal, a pipe and a file."""
        for it in [*wrong_cases(), *rejection_cases(), *file_cases(), *other_cases()]:
            with self.subTest(it.words, typed=it.typed), tempfile.TemporaryFile() as file:
                logged = it.said if it.elsewhere is None else it.elsewhere
                self.assertEqual(run(it), (it.status, it.written, it.said), "at a terminal")
                self.assertEqual(run(it, subprocess.PIPE), (it.status, it.written, logged), "with a pipe")
                self.assertEqual(run(it, file), (it.status, it.written, ""), "with a file")
                file.seek(0)
                self.assertEqual(file.read().decode(), logged, "in a file")

    def test_both_streams(self) -> None:
        cut = rejection_cases()[0]
        self.assertEqual(run(cut, None, TERMINAL), (2, "", cut.written + cut.said))

    def test_full_streams(self) -> None:
        """The output, or the text on standard error, cannot be written."""
        cut = rejection_cases()[0]
        unwritten = meaning("the output cannot be written", "check the exit status: the output is incomplete")
        with open("/dev/full", "wb") as full:
            listed = Case(["list", "--hex", VOLUME], 2, "", unwritten)
            self.assertEqual(run(listed, None, full.fileno()), (2, "", unwritten))
            self.assertEqual(run(cut, None, full.fileno()), (2, "", cut.said + unwritten))
            self.assertEqual(run(cut, full), (2, cut.written, ""))

    def test_unheard_errors(self) -> None:
        """Standard error is a pipe that nobody reads, a terminal that is gone, and one that was opened for reading."""
        pipe_ours, pipe_theirs = os.pipe()
        gone_ours, gone_theirs = new_terminal()
        ours, theirs = new_terminal()
        deaf = os.open(os.ttyname(theirs), os.O_RDONLY | os.O_NOCTTY)
        os.close(pipe_ours)
        os.close(gone_ours)
        cut = rejection_cases()[0]
        for errors in (pipe_theirs, gone_theirs, deaf):
            self.assertEqual(run(cut, errors), (2, cut.written, ""))
        for end in (pipe_theirs, gone_theirs, deaf, ours, theirs):
            os.close(end)
