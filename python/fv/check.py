# SPDX-License-Identifier: BSD-2-Clause-Patent
"""Checks many images. Writes a line for each image, with its status, its verdicts and its name, separated by tabs:

    0	0 canonical	/images/a.fd
    1	4096 canonical, 266240 not canonical	/images/b.fd
    2	0 fault 11 at 72	/images/c.fd

Each verdict follows the offset of its volume. The offset of a fault counts from the first byte of the volume. The
greatest status of the volumes is the status of the image: 0 means canonical, 1 not canonical, 2 rejected. A volume with
fixed files is read without their marks, and its verdict says so: `canonical without marks`. A file without a volume has
the fault of its first bytes, and a file that cannot be read, or is neither a file nor a block device, has `0 fault 25
at 0`. If an image has more than 1,000 volumes, the last verdict says so, and the status is 2.

    fv-check -- IMAGE..
    fv-check --no-status --from LIST --to ANSWERS

LIST has the name of an image in each line, and `-` is standard input. The lines are added to ANSWERS. Images that have
an answer there already are skipped, so a run that was interrupted can be repeated with the same command. ANSWERS must
be a file with nothing but answers, which no other run writes to. In a line, `\\xNN` is a byte of the name that cannot
be seen, of a backslash or of a question mark, so different names have different lines.

Exit status 0: all images are canonical. 1: an image is not canonical. 2: an image is rejected, or cannot be read. An
answer that was there already counts too, and with --no-status these three are 0. 3: the arguments are wrong. 4: the
library libfv, LIST or ANSWERS cannot be used, or an answer cannot be written."""

from __future__ import annotations

import argparse
import contextlib
import fcntl
import os
import re
import resource
import stat
import sys
from collections import deque
from collections.abc import Iterable, Iterator
from concurrent.futures import Future, ThreadPoolExecutor
from itertools import islice
from typing import BinaryIO

from . import cli
from ._calls import image_check, volume_is_canonical
from ._errors import Fault, FaultError
from ._model import unmarked
from ._native import LENGTH_MAX, FaultCode
from ._types import VolumeCheck
from .limits import Full, Limits

NAME = "fv-check"
MOST_VOLUMES = 1000  # volumes of an image that have verdicts in its line
CHUNK = 200  # images that the threads get at a time; their lines are then written
THREAD = 128 << 20  # bytes of memory for each thread: its stack, what the C library reserves for it, and an image
CANONICAL, NOT_CANONICAL, REJECTED = range(3)  # statuses of a line
LINE, FIRST_PART = re.compile(rb"[0-2]\t[^\t]+\t.*"), re.compile(rb"([0-2](\t.*)?)?")


def line(status: int, verdicts: str, name: bytes) -> bytes:
    """Returns the line of an image."""
    return b"%d\t%s\t%s\n" % (status, verdicts.encode(), shown(name))


def shown(name: bytes) -> bytes:
    """Returns a name in the form of a line, from which its bytes follow. Before 2.1 a character that controls the
    terminal was shown as `?`, so a question mark is not shown as itself: its line of then would count as an answer."""
    found = bytearray()
    for character in name.decode("utf-8", "surrogateescape"):
        data = character.encode("utf-8", "surrogateescape")
        is_plain = character.isprintable() and character not in "\\?"
        found += data if is_plain else b"".join(b"\\x%02x" % it for it in data)
    return bytes(found)


def answer(name: bytes) -> bytes:
    """Returns the line of an image."""
    try:
        return _checked(name)
    except MemoryError:
        return line(REJECTED, "0 fault 24 at 0", name)


def _checked(name: bytes) -> bytes:
    """Returns the line of an image, but raises MemoryError if memory runs out."""
    try:
        data = cli.read_file(_opened(name), LENGTH_MAX)
    except (OSError, ValueError):  # no file has a name with a NUL
        return line(REJECTED, "0 fault 25 at 0", name)
    except Full:
        return line(REJECTED, f"0 fault 8 at {LENGTH_MAX}", name)
    checks = image_check(data) or [VolumeCheck(0, len(data), *_judged(data))]
    found = [_verdict(data, it) for it in checks[:MOST_VOLUMES]]
    for it in checks[MOST_VOLUMES : MOST_VOLUMES + 1]:
        found.append((REJECTED, f"{it.offset} not checked: more than {MOST_VOLUMES} volumes"))
    return line(max(status for status, _ in found), ", ".join(text for _, text in found), name)


def _opened(name: bytes) -> int:
    """Opens an image. Raises OSError if it is a named pipe or a terminal, for example, which could block the run for
    ever. A pipe that a shell has made for its command, as in `<(COMMAND)`, can be read."""
    file = os.open(name, os.O_RDONLY | os.O_NONBLOCK | os.O_NOCTTY)
    kind = os.fstat(file).st_mode
    is_pipe = stat.S_ISFIFO(kind) and os.readlink(f"/proc/self/fd/{file}").startswith("pipe:")
    if not (stat.S_ISREG(kind) or stat.S_ISBLK(kind) or is_pipe):
        os.close(file)
        raise OSError("neither a file nor a block device")
    os.set_blocking(file, True)
    return file


def _judged(volume: bytes | memoryview, with_marks: bool = True) -> tuple[Fault | None, bool]:
    """Returns the fault of a volume, and whether it is canonical, with or without the marks of fixed files."""
    try:
        return None, volume_is_canonical(volume if with_marks else unmarked(volume))
    except FaultError as error:
        return error.fault, False


def _verdict(data: bytes, check: VolumeCheck) -> tuple[int, str]:
    """Returns the status and the verdict of a volume."""
    at, fault, is_canonical, marks = check.offset, check.fault, check.canonical, ""
    place = fault.offset - at if fault else 0
    if fault and fault.code == FaultCode.FIXED:
        fault, is_canonical = _judged(memoryview(data)[at : at + check.length], False)
        marks = " without marks"
        place = fault.offset if fault else 0
    if fault:
        return REJECTED, f"{at} fault {fault.number} at {place}"
    return (CANONICAL, f"{at} canonical{marks}") if is_canonical else (NOT_CANONICAL, f"{at} not canonical{marks}")


def threads(jobs: int) -> int:
    """Returns how many threads may check images: at most `jobs`, and only as many as the memory of the process can
    hold."""
    most, _ = resource.getrlimit(resource.RLIMIT_AS)
    return max(min(jobs, jobs if most == resource.RLIM_INFINITY else most // THREAD), 1)


def answers(names: Iterable[bytes], jobs: int) -> Iterator[list[bytes]]:
    """Yields the lines of images in their order, the lines of many images at a time."""
    rest = iter(names)
    while chunk := list(islice(rest, CHUNK)):
        # If memory ran out for an image, it is checked again when all others of the chunk have ended.
        yield [it or answer(name) for it, name in zip(_chunk(chunk, jobs), chunk)]


def _chunk(names: list[bytes], jobs: int) -> list[bytes]:
    """Returns the lines of images, which this thread and others take one by one. If memory ran out for an image, its
    line is empty."""
    found, left = [b""] * len(names), deque(range(len(names)))

    def work() -> None:
        """Checks images until none is left."""
        while left:
            with contextlib.suppress(IndexError, MemoryError):
                number = left.popleft()
                found[number] = _checked(names[number])

    runs: list[Future[None]] = []
    with ThreadPoolExecutor(jobs) as pool:
        try:
            with contextlib.suppress(RuntimeError, MemoryError):  # no further thread can be started
                for _ in range(jobs - 1):
                    runs.append(pool.submit(work))
            work()
        finally:
            left.clear()  # the threads end
    for run in runs:
        with contextlib.suppress(MemoryError):
            run.result()
    return found


def open_answers(path: str) -> BinaryIO:
    """Opens a file of answers, or makes it. Raises OSError if it is not a file, or if another run writes to it."""
    file = os.fdopen(os.open(path, os.O_RDWR | os.O_CREAT | os.O_APPEND, 0o666), "r+b", buffering=0)
    if not stat.S_ISREG(os.fstat(file.fileno()).st_mode):
        raise OSError(f"{path} is not a file")
    try:
        fcntl.flock(file, fcntl.LOCK_EX | fcntl.LOCK_NB)
    except BlockingIOError:
        raise OSError(f"another run writes to {path}") from None
    except OSError:
        pass  # a file system without locks
    return file


def answered(file: BinaryIO) -> dict[bytes, int]:
    """Returns the names that have an answer in a file, as they are shown, with the statuses of the answers. Removes an
    incomplete last line, as a killed command leaves it, and zeros at the end, as a crash of the system leaves them.
    Raises OSError if something else than answers is in the file, which then stays as it is."""
    data = file.read()
    *lines, last = data.split(b"\n")
    begun = last.rstrip(b"\0") if lines else last  # a file that has only zeros may be something else
    if not all(map(LINE.fullmatch, lines)) or not FIRST_PART.fullmatch(begun):
        raise OSError("the file for the answers has other lines")
    if begun != last:
        cli.complain(NAME, f"the answers end with zeros: {len(last)} bytes after their last line are removed")
    file.truncate(len(data) - len(last))
    found: dict[bytes, int] = {}
    for it in lines:
        status, _, name = it.split(b"\t", 2)
        found[name] = max(int(status), found.get(name, 0))
    return found


def names_in(path: str) -> list[bytes]:
    """Returns the names in a list, which has one in each line. `-` is standard input."""
    try:
        data = cli.read_file(0 if path == "-" else path, Limits().total)
    except Full as what:
        raise OSError(f"{path} has more than {what}") from None
    return [it for it in data.split(b"\n") if it]


ABOUT_JOBS = "the threads; by default one for each processor, and at most one for each 128 MiB of memory"
parser = cli.of(
    NAME,
    __doc__,
    cli.argument("images", metavar="IMAGE", nargs="*", help="an image"),
    cli.argument("--from", metavar="LIST", dest="list", help="a file with the name of an image in each line"),
    cli.argument("--to", metavar="ANSWERS", dest="answers", help="the file to which the lines are added"),
    cli.flag("--no-status", "end with status 0 whatever the lines are"),
    cli.argument("--jobs", metavar="N", type=int, default=os.cpu_count(), help=ABOUT_JOBS),
    usages=[f"[--no-status] [--jobs N] [--to ANSWERS] {it}" for it in ("[--] IMAGE ..", "--from LIST")],
)


def _run(names: list[bytes], path: str | None, jobs: int) -> int:
    """Writes the lines of images to standard output or to a file, and returns the greatest of their statuses."""
    with contextlib.ExitStack() as ending:
        file = ending.enter_context(open_answers(path)) if path else sys.stdout.buffer
        before = answered(file) if path else {}
        status = max((before.get(shown(it), CANONICAL) for it in names), default=CANONICAL)
        for lines in answers((it for it in names if shown(it) not in before), jobs):
            rest = memoryview(b"".join(lines))
            while rest:  # a full disk takes only a first part
                rest = rest[file.write(rest) :]
            file.flush()  # so the lines of a chunk are one write, as far as a pipe takes them
            status = max(status, *(int(it[:1]) for it in lines))
    return status


@cli.command(parser)
def main(given: argparse.Namespace) -> int:
    """Runs the command."""
    if not given.images and given.list is None:
        parser().error("IMAGE or --from LIST is needed")
    names = [os.fsencode(it) for it in given.images] + (names_in(given.list) if given.list is not None else [])
    status = _run(names, given.answers, threads(given.jobs))
    return cli.DONE if given.no_status else status
