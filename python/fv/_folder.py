# SPDX-License-Identifier: BSD-2-Clause-Patent
"""Writes files to FOLDER so that it gets all of them or none, even if another user may write to FOLDER or to a folder
above it. All files are new, and no link is followed: each folder is opened by its name in the folder that holds it."""

from __future__ import annotations

import contextlib
import itertools
import os
import secrets
from collections.abc import Iterator
from pathlib import Path
from typing import IO

from . import cli
from .limits import Full

ROOM = ".fv-unpack"  # the folder that a run writes to until everything is written
PARTS, PROBE = "parts", "probe"  # in ROOM: the folder that becomes FOLDER, and a file that shows who owns new files
# A folder as a place of other files: nothing is read from it, so it need not be readable.
PLACE = os.O_PATH | os.O_DIRECTORY | os.O_NOFOLLOW | os.O_CLOEXEC
READ = os.O_RDONLY | os.O_DIRECTORY | os.O_NOFOLLOW | os.O_CLOEXEC
NEW = os.O_WRONLY | os.O_CREAT | os.O_EXCL | os.O_NOFOLLOW | os.O_CLOEXEC


class Tree:
    """A new folder to which files are written. Raises Full before more than `most` bytes are written. The folders on
    the way to the last file stay open, because the next file is mostly in the same folder."""

    def __init__(self, top: int, most: int) -> None:
        self._top = top
        self._most = self._left = most
        self._opened: list[tuple[str, int]] = []  # the names and the descriptors of these folders

    def leave(self, depth: int = 0) -> None:
        """Closes the folders that are open, except the first ones down to a depth."""
        while len(self._opened) > depth:
            os.close(self._opened.pop()[1])

    def file(self, path: str) -> IO[bytes]:
        """Returns a new file, for `put`. Makes the folders above it that are not there."""
        folder, _, name = path.rpartition("/")
        return os.fdopen(os.open(name, NEW, 0o666, dir_fd=self.enter(folder)), "wb")

    def put(self, file: IO[bytes], data: bytes | memoryview) -> None:
        """Writes bytes to a file of the folder."""
        self._left -= len(data)
        if self._left < 0:
            raise Full(f"{self._most} bytes")
        file.write(data)

    def enter(self, path: str) -> int:
        """Returns a descriptor for a folder. Makes the folders on the way that are not there."""
        names = [it for it in path.split("/") if it]
        same = itertools.takewhile(lambda both: both[0][0] == both[1], zip(self._opened, names))
        self.leave(sum(1 for _ in same))
        for name in names[len(self._opened) :]:
            at = self._opened[-1][1] if self._opened else self._top
            with contextlib.suppress(FileExistsError):
                os.mkdir(name, dir_fd=at)
            self._opened.append((name, os.open(name, PLACE, dir_fd=at)))
        return self._opened[-1][1] if self._opened else self._top


@contextlib.contextmanager
def filled_at_end(folder: Path, most: int, last: str) -> Iterator[Tree]:
    """Gives the block a new folder for at most `most` bytes. When the block ends, FOLDER has the contents of the new
    folder. If the block raises an exception, nothing is left. The path of FOLDER has no links.

    A FOLDER that exists stays the same folder with its owner and its mode, because it may be a mount point or the
    current folder of a shell. So the new folder is made inside it, and its parts are moved, the one with the name
    `last` at the end. If there is no FOLDER, the new folder is made beside it and renamed."""
    is_there = folder.exists()
    name = ROOM if is_there else f"{ROOM}-{secrets.token_hex(4)}"
    with contextlib.ExitStack() as ending:
        with cli.undisturbed():
            holder = _walk(folder if is_there else folder.parent, ending)
            room = _new_room(name, holder, ending)
            os.mkdir(PARTS, dir_fd=room)
            parts = _kept(os.open(PARTS, READ, dir_fd=room), ending)
        tree = Tree(parts, most)
        ending.callback(tree.leave)
        yield tree
        with cli.undisturbed():
            if is_there:
                # Nothing can be read from a folder that was opened as a place.
                if os.listdir(_kept(os.open(".", READ, dir_fd=holder), ending)) != [ROOM]:
                    raise FileExistsError(f"something else was written to {folder}")
                _move_parts(parts, holder, last)
            else:
                _rename(room, holder, folder)


def _kept(folder: int, ending: contextlib.ExitStack) -> int:
    """Returns the descriptor of a folder, which is closed at the end."""
    ending.callback(os.close, folder)
    return folder


def _walk(path: Path, ending: contextlib.ExitStack) -> int:
    """Returns a descriptor for a folder. Makes the folders on the way that are not there, and removes them at the end
    if nothing is in them."""
    at = _kept(os.open(path.anchor, PLACE), ending)
    here = Path(path.anchor)
    try:
        for name in path.parts[1:]:
            here /= name
            try:
                at = _kept(os.open(name, PLACE, dir_fd=at), ending)
            except FileNotFoundError:
                with contextlib.suppress(FileExistsError):
                    os.mkdir(name, dir_fd=at)
                    ending.callback(_remove, name, at)
                at = _kept(os.open(name, PLACE, dir_fd=at), ending)
    except OSError as error:
        raise OSError(error.errno, error.strerror, str(here)) from None
    return at


def _new_room(name: str, holder: int, ending: contextlib.ExitStack) -> int:
    """Returns a descriptor for a new folder into which only its owner may look. It is removed at the end. Raises an
    error if something else has taken its place."""
    os.mkdir(name, 0o700, dir_fd=holder)
    ending.callback(_remove, name, holder)
    room = _kept(os.open(name, READ, dir_fd=holder), ending)
    probe = os.open(PROBE, NEW, 0o600, dir_fd=room)
    try:
        is_own = os.fstat(probe).st_uid == os.fstat(room).st_uid and os.listdir(room) == [PROBE]
    finally:
        os.close(probe)
        os.unlink(PROBE, dir_fd=room)
    if not is_own:
        raise OSError(f"another user has put a folder in the place of {name}")
    ending.callback(_empty, room)
    return room


def _remove(name: str, holder: int) -> None:
    """Removes a folder if nothing is in it."""
    with contextlib.suppress(OSError):
        os.rmdir(name, dir_fd=holder)


def _empty(room: int) -> None:
    """Removes what is in a folder, as far as that is possible, also if a signal comes."""
    with cli.undisturbed():
        for _, folders, files, at in os.fwalk(".", topdown=False, dir_fd=room):
            for name in (*files, *folders):
                with contextlib.suppress(OSError):
                    try:
                        os.unlink(name, dir_fd=at)  # a link to a folder is removed too
                    except IsADirectoryError:
                        os.rmdir(name, dir_fd=at)


def _rename(room: int, holder: int, folder: Path) -> None:
    """Gives a folder its name, unless another run has made a folder with that name and written to it."""
    try:
        os.rename(PARTS, folder.name, src_dir_fd=room, dst_dir_fd=holder)
    except OSError as error:
        raise OSError(f"{folder}: {error.strerror}") from None


def _move_parts(parts: int, holder: int, last: str) -> None:
    """Moves the contents of a folder to another folder. If that fails, moves them back."""
    moved: list[str] = []
    try:
        for name in sorted(os.listdir(parts), key=lambda it: it == last):
            os.rename(name, name, src_dir_fd=parts, dst_dir_fd=holder)
            moved.append(name)
    except OSError:
        for name in moved:
            os.rename(name, name, src_dir_fd=holder, dst_dir_fd=parts)
        raise
