# SPDX-License-Identifier: BSD-2-Clause-Patent
"""Shows the texts of an image in a form in which no character controls the terminal or begins another line."""

from __future__ import annotations

import re
from collections.abc import Callable, Iterable, Iterator

LONGEST_NAME = 60  # characters of a text that a file name takes


class _Table(dict[int, str]):
    """A table for `str.translate`, which is filled as characters come: a number takes the place of each character that
    is not shown."""

    def __init__(self, is_shown: Callable[[str], bool]) -> None:
        super().__init__()
        self._is_shown = is_shown

    def __missing__(self, code: int) -> str:
        self[code] = found = chr(code) if self._is_shown(chr(code)) else f"\\u{code:04x}"
        return found


_PRINTABLE = _Table(str.isprintable)
_QUOTED = _Table(lambda it: " " <= it <= "~" and it not in '"\\')


def printable(text: str) -> str:
    """Returns a text with the number in place of each character that cannot be seen: a line feed, an escape sequence, a
    character that changes the direction of a line, a byte of a name that is not UTF-8."""
    return text if text.isprintable() else text.translate(_PRINTABLE)


def quoted(text: str) -> str:
    """Returns a text in quotes, as `fvtool list` shows it."""
    return f'"{text.translate(_QUOTED)}"'


def file_name(text: str) -> str:
    """Returns a text in a form that can be part of a file name: letters, digits and `._+-`."""
    return re.sub(r"[^A-Za-z0-9._+-]+", "_", text)[:LONGEST_NAME]


def indented(lines: Iterable[str]) -> Iterator[str]:
    """Yields lines two spaces further in."""
    return (f"  {line}" for line in lines)
